//! Crashes, and recoveries after them and without one.

use super::{Phase, World};
use crate::checkpoint::CHECKPOINT_MAGIC_UNTIMED;
use crate::faults::Fault;
use crate::program::Form;
use crate::schedule::{Flaw, Keep, Party};
use crate::server::Server;

impl World<'_> {
    /// The cabinet may be running or crashed already.
    pub(super) fn crash(&mut self, at: Party, keep: Keep) {
        let cabinet = self.party(at, self.last);
        if self.cabinets[cabinet].phase != Phase::New {
            self.crash_at(cabinet, keep);
        }
    }

    pub(super) fn crash_again(&mut self, at: Party, keep: Keep) {
        if let Some((cabinet, _)) = self.crashed(at) {
            self.crash_at(cabinet, keep);
        }
    }

    /// The state is lost; the log keeps its first bytes, from mark to length.
    pub(super) fn crash_at(&mut self, cabinet: usize, keep: Keep) {
        let c = &mut self.cabinets[cabinet];
        let again = c.kept().is_some();
        let (mark, length) = c.mark_and_length();
        let kept = match keep {
            Keep::Synced => mark,
            Keep::All => length,
            Keep::Between(n) => mark + u64::from(n) % (length - mark + 1),
        };
        let storing = &mut self.counts.storing;
        match c.phase {
            Phase::Storing { .. } => storing.crashed_storing += 1,
            _ if c.stored.checkpoint.is_empty() => storing.crashed_before += 1,
            _ => storing.crashed_stored += 1,
        }
        let reach = c.stored.replaced + kept;
        if let Some(shadow) = &mut c.shadow {
            shadow.crash(reach);
        }
        c.crash(mark, kept);
        self.compare_recovery(cabinet, kept, reach);
        self.last = cabinet;
        let lost = match self.options.fault {
            Some(Fault::SurvivalInTail) => self.lose(cabinet, kept),
            _ => self.lose(cabinet, reach),
        };
        self.counts.crashes += 1;
        self.counts.lost += lost;
        if again {
            self.counts.crashes_again += 1;
            self.counts.lost_again += lost;
        }
        self.note(|| format!("crash cabinet {cabinet}, {kept} of {length} bytes kept"));
    }

    /// The executions past the bytes kept, those replaced counted in, do not survive;
    /// answers how many.
    pub(super) fn lose(&mut self, cabinet: usize, kept: u64) -> u64 {
        let mut lost = 0;
        for e in &mut self.executions {
            if e.cabinet == cabinet && e.end > kept && e.survives {
                e.survives = false;
                lost += 1;
            }
        }
        lost
    }

    pub(super) fn recover(&mut self, at: Party, flaw: Flaw) {
        if let Some((cabinet, kept)) = self.crashed(at) {
            self.recover_from(cabinet, kept, flaw);
        }
    }

    /// The state stays but for the mark.
    pub(super) fn recover_running(&mut self, at: Party, flaw: Flaw) {
        let Some(cabinet) = self.running(at, self.last) else {
            return;
        };
        let server = &self.cabinets[cabinet].server;
        let length = server.length;
        let expected = self.options.verify.then(|| Server {
            mark: length,
            ..Server::clone(server)
        });
        if !self.recover_from(cabinet, length, flaw) {
            return;
        }
        let server = &self.cabinets[cabinet].server;
        assert!(
            expected.is_none_or(|e| e == **server),
            "a recovery without a crash leaves the state but for the mark"
        );
        self.counts.recovered_running += 1;
    }

    /// Recovers from the log's first bytes, and from the checkpoint if one is stored;
    /// false if it is refused.
    pub(super) fn recover_from(&mut self, cabinet: usize, kept: u64, flaw: Flaw) -> bool {
        let (plan, program) = (self.plan, self.program(cabinet));
        let flaw = match flaw {
            Flaw::State => Flaw::State,
            _ => Flaw::None,
        };
        let checkpoint = self.lent_checkpoint(cabinet);
        let (answer, _) = self.call_by_places(cabinet, flaw, 0, |s, len, log, _, replaced| {
            let kept = &log[..(replaced.unwrap_or(0) + kept) as usize];
            match (&checkpoint, replaced) {
                (Some(checkpoint), None) => s.recover_checkpoint(len, checkpoint, kept),
                _ => s.recover_by(program.rules, len, kept, &plan),
            }
        });
        let recovered = answer.number == 0;
        if recovered {
            let c = &self.cabinets[cabinet];
            if c.kept().is_some() {
                self.counts.turns.kept += c.queue.waiting();
            }
            self.cabinets[cabinet].phase = Phase::Running;
            self.last = cabinet;
            let untimed = checkpoint.is_some_and(|c| c.starts_with(&CHECKPOINT_MAGIC_UNTIMED));
            let from_untimed = untimed && program.form == Form::Timed;
            self.counts.storing.from_untimed += u64::from(from_untimed);
        }
        self.note(|| {
            let number = answer.number;
            format!("recover cabinet {cabinet} from {kept} bytes -> {number}")
        });
        recovered
    }

    pub(super) fn count_left_crashed(&mut self) {
        let crashed = self.cabinets.iter().filter(|c| c.kept().is_some());
        self.counts.left_crashed = crashed.count() as u64;
    }
}
