//! A schedule laid down sequence by sequence, then disturbed.

use super::{Call, Flaw, Party, Schedule, Step, Which};
use crate::plan::{Entry, Plan, POINTS};
use crate::random::Random;

/// Commands issued in one schedule at the most.
pub const ISSUES_MAX: u32 = 40;

pub fn generate(seed: u64) -> Schedule {
    let mut random = Random::new(seed);
    let cabinets = 3 + random.below(2) as u8;
    let mut generator = Generator {
        cabinets,
        points: 1 + random.below(3) as u8,
        desks: 0,
        issues: 0,
        steps: Vec::new(),
        random,
    };
    let plan = generator.plan();
    let log_len = *generator.random.pick(&[400, 900, 2000, 4000]);
    generator.begin();
    if generator.random.chance(2) {
        generator.many_desks();
    }
    for _ in 0..16 + generator.random.below(40) {
        generator.sequence();
    }
    if generator.random.chance(12) {
        generator.end_crashed();
    }
    generator.disturb();
    Schedule {
        plan,
        cabinets,
        log_len,
        steps: generator.steps,
    }
}

pub(super) struct Generator {
    pub(super) cabinets: u8,
    pub(super) points: u8,
    pub(super) desks: u8,
    pub(super) issues: u32,
    pub(super) steps: Vec<Step>,
    pub(super) random: Random,
}

impl Generator {
    pub(super) fn plan(&mut self) -> Plan {
        let mut plan = Plan::default();
        for i in 0..POINTS {
            let (low, high) = *self
                .random
                .pick(&[(-100, 1000), (-100, 1000), (0, 60), (-5, 5)]);
            plan.entries[i] = Entry {
                low,
                high,
                fallback: self.random.between(low, high),
                home: self.random.below(u32::from(self.cabinets)) as u8,
            };
        }
        plan
    }

    pub(super) fn add(&mut self, call: Call) {
        self.steps.push(Step {
            call,
            flaw: Flaw::None,
        });
    }

    /// Adds the call, or leaves it out.
    pub(super) fn maybe(&mut self, percent: u32, call: Call) {
        if self.random.chance(percent) {
            self.add(call);
        }
    }

    pub(super) fn point(&mut self) -> u8 {
        self.random.below(u32::from(self.points)) as u8
    }

    pub(super) fn desk(&mut self) -> u8 {
        self.random.below(u32::from(self.desks.max(1))) as u8
    }

    pub(super) fn cabinet(&mut self) -> u8 {
        self.random.below(u32::from(self.cabinets)) as u8
    }

    pub(super) fn party(&mut self, apt_percent: u32) -> Party {
        match self.random.chance(apt_percent) {
            true => Party::Apt,
            false => Party::Number(self.cabinet()),
        }
    }

    pub(super) fn which(&mut self) -> Which {
        let number = self.random.next_u32();
        match self.random.below(10) {
            0..=3 => Which::Latest,
            4..=5 => Which::Recent(number),
            6..=8 => Which::Any(number),
            _ => Which::Astray(number),
        }
    }

    pub(super) fn begin(&mut self) {
        for number in 0..self.cabinets {
            let at = Party::Number(number);
            self.maybe(96, Call::Found { at });
        }
        for _ in 0..2 {
            self.new_desk();
        }
    }

    pub(super) fn new_desk(&mut self) {
        let (wait, span) = (self.random.below(2), 1 + self.random.below(9));
        self.open_and_start(wait, span);
    }

    pub(super) fn open_and_start(&mut self, wait: u32, span: u32) {
        self.add(Call::Open { wait, span });
        self.add(Call::Start {
            packet: Which::Latest,
        });
        self.desks += 1;
    }

    pub(super) fn sequence(&mut self) {
        match self.random.below(100) {
            0..=28 => self.command(),
            29..=41 => self.late_request(),
            42..=45 => self.resend(),
            46..=48 => self.sync(),
            49..=53 => self.crash(),
            54..=55 => self.crash_again(),
            56..=57 => self.recover_running(),
            58..=67 => self.move_point(),
            68..=76 => self.carry_on_move(),
            77..=80 => self.finish_move(),
            81..=83 => self.late_image(),
            84..=88 => self.end_lease(),
            89..=90 => self.renew(),
            91..=94 => self.new_desk(),
            95..=97 => self.astray(),
            _ => self.bad_call(),
        }
        self.maybe(40, Call::Recover { at: Party::Apt });
        let at = Party::Number(self.cabinet());
        self.maybe(3, Call::Found { at });
    }

    /// More desks than the office has leases for, or than a cabinet has
    /// places for if some leases end.
    pub(super) fn many_desks(&mut self) {
        let short = *self.random.pick(&[2, 200]);
        for _ in 0..40 {
            let span = *self.random.pick(&[short, 200]);
            let wait = self.random.below(2);
            self.open_and_start(wait, span);
            let call = Call::Issue {
                desk: self.desks - 1,
                op: 2,
                point: self.point(),
                argument: self.random.between(-20, 60),
            };
            self.add(call);
            self.send_latest(100);
        }
    }

    /// Drops, repeats and swaps steps; lends slices too short.
    pub(super) fn disturb(&mut self) {
        let mut steps = Vec::with_capacity(self.steps.len() + 8);
        for step in std::mem::take(&mut self.steps) {
            match self.random.below(100) {
                0..=1 => {}
                2..=4 => steps.extend([step, step]),
                5..=7 => steps.extend([self.flawed(step), step]),
                _ => steps.push(step),
            }
        }
        for i in 1..steps.len() {
            if self.random.chance(4) {
                steps.swap(i - 1, i);
            }
        }
        self.steps = steps;
    }

    pub(super) fn flawed(&mut self, step: Step) -> Step {
        let flaw = *self.random.pick(&[Flaw::State, Flaw::Log, Flaw::Output]);
        Step { flaw, ..step }
    }
}
