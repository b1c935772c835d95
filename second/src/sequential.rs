//! Paper 01, "Demand 3 in full": the book (sequential specification). It is
//! fed the plan and the ordered commands, each with the rules that it was
//! executed by, nothing else.

use crate::plan::{Plan, POINTS};
use crate::rule::{apply_by, Effect, Op, Rules, INVALID};

#[derive(Clone, PartialEq, Eq, Debug)]
pub struct SequentialSpec {
    plan: Plan,
    points: [(i32, u8); POINTS],
}

impl SequentialSpec {
    pub fn new(plan: Plan) -> SequentialSpec {
        let points = plan.entries.map(|entry| (entry.fallback, INVALID));
        SequentialSpec { plan, points }
    }

    /// Runs a command by today's rules; it changes only its point.
    pub fn run(&mut self, op: Op, point: u8, argument: i32) -> Effect {
        self.run_by(Rules::TODAY, op, point, argument)
    }

    /// The same by the given rules.
    pub fn run_by(&mut self, rules: Rules, op: Op, point: u8, argument: i32) -> Effect {
        let (value, quality) = self.point(point);
        let entry = self.plan.entry(point);
        let effect = apply_by(rules, op, argument, entry, value, quality);
        self.set(point, effect.value, effect.quality);
        effect
    }

    /// Value and quality of a point.
    pub fn point(&self, point: u8) -> (i32, u8) {
        self.points[usize::from(point)]
    }

    /// Puts a point back, for a search over orders.
    pub fn set(&mut self, point: u8, value: i32, quality: u8) {
        self.points[usize::from(point)] = (value, quality);
    }
}
