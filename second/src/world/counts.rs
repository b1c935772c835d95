//! What happened in a schedule or in many.

use crate::answer::Refusal;
use crate::program::Program;

#[derive(Clone, Copy, PartialEq, Eq, Debug, Default)]
pub struct Counts {
    pub steps: u64,
    pub executed: u64,
    /// Executions by each program, in the order of time.
    pub executed_by: [u64; Program::ALL.len()],
    /// Steps past an end, by the old rule and by today's.
    pub steps_refused: u64,
    pub steps_stopped: u64,
    /// Parts that the rules round differently, by the old one and by those since.
    pub parts_down: u64,
    pub parts_up: u64,
    /// Sets and parts that gave a value by hand, and steps that left one by hand.
    pub by_hand: u64,
    pub steps_by_hand: u64,
    pub lost: u64,
    pub completed: u64,
    pub repeats: u64,
    pub crashes: u64,
    /// Crashes of a server that was not recovered since its last one, and
    /// the executions that they removed.
    pub crashes_again: u64,
    pub lost_again: u64,
    /// Servers not recovered when the list ends.
    pub left_crashed: u64,
    /// Recoveries without a crash.
    pub recovered_running: u64,
    pub takes: u64,
    /// Takes from a server that runs another program at the time.
    pub takes_across: u64,
    /// Images without times taken by programs with them.
    pub takes_untimed: u64,
    /// Images of points by hand taken.
    pub takes_by_hand: u64,
    /// Images refused for an outcome, a quality or a form that the taker's program does not
    /// know.
    pub images_too_new: u64,
    /// Results in the form without time, results with a time above 0, and results in today's
    /// form of commands that programs without times executed.
    pub results_untimed: u64,
    pub results_timed: u64,
    pub results_from_untimed: u64,
    pub releases: u64,
    pub gone: u64,
    pub refusals: [u64; Refusal::ALL.len() + 1],
    /// Controllers started, and starts put off until the proviso holds.
    pub controllers: u64,
    pub put_off: u64,
    /// Commands issued by controllers that have a successor.
    pub issued_lost: u64,
    /// Openings issued, and those executed with the gate away from 0 after them.
    pub openings: u64,
    pub opened: u64,
    /// Late requests for openings, and those refused as their lease has ended.
    pub late_openings: u64,
    pub late_refused: u64,
    pub gate_takes: u64,
    pub storing: Storing,
    pub turns: Turns,
}

/// What happened at dispatchers.
#[derive(Clone, Copy, PartialEq, Eq, Debug, Default)]
pub struct Turns {
    /// Requests that were let wait, and those refused with 1, 21 and 8.
    pub enqueued: u64,
    pub malformed: u64,
    pub already_waiting: u64,
    pub full: u64,
    /// Servings of one who waits: answered with 0, with a refusal packet, and with 2 or 19.
    pub served: u64,
    pub answered: u64,
    pub refused: u64,
    pub short: u64,
    /// Servings with nobody waiting: with whole slices, and with one too short.
    pub nobody: u64,
    pub nobody_short: u64,
    /// Servings passed over, as the server is down or stores a checkpoint.
    pub not_called: u64,
    /// Requests lost with their dispatcher, those that waited when their server was
    /// recovered after a crash, and those that an old copy brought back.
    pub lost: u64,
    pub kept: u64,
    pub from_copy: u64,
    /// Servings until one was served, its own counted in: over 8, and the most.
    pub waits_over_8: u64,
    pub longest: u64,
    /// Unfair turns, in the order of their kinds.
    pub unfair: [u64; 4],
}

impl Turns {
    fn add(&mut self, other: &Turns) {
        self.enqueued += other.enqueued;
        self.malformed += other.malformed;
        self.already_waiting += other.already_waiting;
        self.full += other.full;
        self.served += other.served;
        self.answered += other.answered;
        self.refused += other.refused;
        self.short += other.short;
        self.nobody += other.nobody;
        self.nobody_short += other.nobody_short;
        self.not_called += other.not_called;
        self.lost += other.lost;
        self.kept += other.kept;
        self.from_copy += other.from_copy;
        self.waits_over_8 += other.waits_over_8;
        self.longest = self.longest.max(other.longest);
        add_each(&mut self.unfair, &other.unfair);
    }
}

/// What happened around checkpoints.
#[derive(Clone, Copy, PartialEq, Eq, Debug, Default)]
pub struct Storing {
    /// Checkpoints made, refused with 7, and stored.
    pub made: u64,
    pub unsynced: u64,
    pub stored: u64,
    /// Crashes before the first checkpoint is stored, while one is, and after that.
    pub crashed_before: u64,
    pub crashed_storing: u64,
    pub crashed_stored: u64,
    /// Surviving executions whose records checkpoints replaced.
    pub replaced: u64,
    /// Recoveries by programs with times from a checkpoint without them.
    pub from_untimed: u64,
    /// Completion records shown as executed record, image entry and checkpoint entry.
    pub inspected: [u64; 3],
}

impl Storing {
    fn add(&mut self, other: &Storing) {
        self.made += other.made;
        self.unsynced += other.unsynced;
        self.stored += other.stored;
        self.crashed_before += other.crashed_before;
        self.crashed_storing += other.crashed_storing;
        self.crashed_stored += other.crashed_stored;
        self.replaced += other.replaced;
        self.from_untimed += other.from_untimed;
        add_each(&mut self.inspected, &other.inspected);
    }
}

impl Counts {
    pub fn add(&mut self, other: &Counts) {
        self.steps += other.steps;
        self.executed += other.executed;
        add_each(&mut self.executed_by, &other.executed_by);
        self.steps_refused += other.steps_refused;
        self.steps_stopped += other.steps_stopped;
        self.parts_down += other.parts_down;
        self.parts_up += other.parts_up;
        self.by_hand += other.by_hand;
        self.steps_by_hand += other.steps_by_hand;
        self.lost += other.lost;
        self.completed += other.completed;
        self.repeats += other.repeats;
        self.crashes += other.crashes;
        self.crashes_again += other.crashes_again;
        self.lost_again += other.lost_again;
        self.left_crashed += other.left_crashed;
        self.recovered_running += other.recovered_running;
        self.takes += other.takes;
        self.takes_across += other.takes_across;
        self.takes_untimed += other.takes_untimed;
        self.takes_by_hand += other.takes_by_hand;
        self.images_too_new += other.images_too_new;
        self.results_untimed += other.results_untimed;
        self.results_timed += other.results_timed;
        self.results_from_untimed += other.results_from_untimed;
        self.releases += other.releases;
        self.gone += other.gone;
        self.controllers += other.controllers;
        self.put_off += other.put_off;
        self.issued_lost += other.issued_lost;
        self.openings += other.openings;
        self.opened += other.opened;
        self.late_openings += other.late_openings;
        self.late_refused += other.late_refused;
        self.gate_takes += other.gate_takes;
        self.storing.add(&other.storing);
        self.turns.add(&other.turns);
        add_each(&mut self.refusals, &other.refusals);
    }
}

fn add_each(sums: &mut [u64], numbers: &[u64]) {
    for (sum, n) in sums.iter_mut().zip(numbers) {
        *sum += n;
    }
}
