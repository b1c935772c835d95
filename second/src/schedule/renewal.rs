//! Servers renewed one at a time: each runs the first program up to its own
//! place in the schedule, the next one from there on, and so on up to today's.

use super::{generate, Call, Flaw, Keep, Party, Schedule, Step};
use crate::program::Program;
use crate::random::Random;
use crate::rule::Op;
use std::ops::Range;

/// The number of steps before each renewal of a server, in ascending order. Two
/// at one place leave out the program between them.
pub type Places = [usize; Program::ALL.len() - 1];

#[derive(Clone, PartialEq, Eq, Debug)]
pub struct Renewed {
    pub schedule: Schedule,
    /// For each server; one not named here runs today's program in all steps.
    pub places: Vec<Places>,
}

impl Renewed {
    /// All servers run today's program.
    pub fn today(schedule: &Schedule) -> Renewed {
        Renewed {
            schedule: schedule.clone(),
            places: Vec::new(),
        }
    }

    /// The schedule without some steps; each renewal stays between the steps
    /// that are left.
    pub fn without(&self, steps: Range<usize>) -> Renewed {
        let mut shorter = self.clone();
        for place in shorter.places.as_flattened_mut() {
            *place -= steps.end.min(*place) - steps.start.min(*place);
        }
        shorter.schedule.steps.drain(steps);
        shorter
    }

    /// The same steps, with all servers past so many renewals from the start.
    pub fn past(mut self, renewals: usize) -> Renewed {
        let places = self.places.iter_mut();
        places.for_each(|places| places[..renewals].fill(0));
        self
    }

    /// The same steps, with no server past so many renewals by the end.
    pub fn up_to(mut self, renewals: usize) -> Renewed {
        let never = self.schedule.steps.len();
        let places = self.places.iter_mut();
        places.for_each(|places| places[renewals..].fill(never));
        self
    }

    /// All servers renewed at random places.
    pub(super) fn renew_all(&mut self, random: &mut Random) {
        for _ in 0..self.schedule.cabinets {
            self.renew(random);
        }
    }

    /// Adds the next server, renewed at random places.
    fn renew(&mut self, random: &mut Random) {
        let server = self.places.len();
        self.places.push(Places::default());
        for renewal in 0..self.places[server].len() {
            let place = self.insert_around(random, server);
            self.places[server][renewal] = place;
        }
        self.places[server].sort();
    }

    /// Adds the steps around a renewal at a random place; answers its place.
    fn insert_around(&mut self, random: &mut Random, server: usize) -> usize {
        let steps = &mut self.schedule.steps;
        let place = random.below(steps.len() as u32 + 1) as usize;
        let (before, after) = around(random, Party::Number(server as u8));
        let (renewal, count) = (place + before.len(), before.len() + after.len());
        let others = self.places.as_flattened_mut().iter_mut();
        for other in others.filter(|other| **other > place) {
            *other += count;
        }
        steps.splice(place..place, before.into_iter().chain(after));
        renewal
    }
}

/// The program of a server in a step, by the places of its renewals.
pub(crate) fn program_in_step(places: &[Places], server: usize, step: usize) -> Program {
    let renewed = |places: &Places| places.iter().filter(|&&place| place <= step).count();
    let program = places.get(server).map(renewed);
    program.map_or(Program::TODAY, |program| Program::ALL[program])
}

/// Steps right before and right after a renewal: a crash and its recovery, a
/// recovery without a crash, or none.
fn around(random: &mut Random, at: Party) -> (Vec<Step>, Vec<Step>) {
    let step = |call| Step {
        call,
        flaw: Flaw::None,
    };
    match random.below(10) {
        0..=3 => {
            let keep = *random.pick(&[Keep::Synced, Keep::All]);
            let crash = Call::Crash { at, keep };
            (vec![step(crash)], vec![step(Call::Recover { at })])
        }
        4..=5 => (Vec::new(), vec![step(Call::RecoverRunning { at })]),
        _ => (Vec::new(), Vec::new()),
    }
}

/// Gives many of the issues a command that the programs often execute
/// differently. An op that is not known stays.
fn tell_programs_apart(steps: &mut [Step], random: &mut Random) {
    for step in steps {
        match &mut step.call {
            Call::Issue { op, argument, .. } if *op <= Op::Part as u8 && random.chance(60) => {
                (*op, *argument) = by_version(random);
            }
            _ => {}
        }
    }
}

/// A part near an end, one at an exact half in a range of the plans, any part,
/// a set, or a step that often goes past an end.
fn by_version(random: &mut Random) -> (u8, i32) {
    let part = |argument| (Op::Part as u8, argument);
    match random.below(20) {
        0..=2 => part(*random.pick(&[0, 10, 990, 1000])),
        3..=6 => part(*random.pick(&[5, 15, 25, 50, 75, 150, 985, 995])),
        7..=9 => part(random.between(0, 1000)),
        10..=12 => (Op::Set as u8, random.between(-5, 60)),
        _ => {
            let arguments = [-1, 1, -30, 30, -2000, 2000, 0, i32::MIN, i32::MAX];
            (Op::Step as u8, *random.pick(&arguments))
        }
    }
}

/// The schedule of the seed, with more commands that tell the programs apart
/// and with the renewals of each server.
pub fn generate_renewed(seed: u64) -> Renewed {
    let mut renewed = Renewed::today(&generate(seed));
    let mut random = Random::new(!seed);
    tell_programs_apart(&mut renewed.schedule.steps, &mut random);
    renewed.renew_all(&mut random);
    renewed
}
