//! A controller's answers to openings, held to the conditions of requests 2 and 7 (paper 02)
//! as its issues and the results that it received tell them.

use super::World;
use crate::answer::Refusal;
use crate::chamber::{is_opening, levels_beside, other_gate, LockPoints, GATES, LEVELS_APART};
use crate::rule::{Effect, Op, INVALID, VALID};

impl World<'_> {
    /// Notes an opening that is refused with 20 although its conditions hold, or is not
    /// although one fails. 1 and 15 come before.
    pub(super) fn compare_opening(
        &mut self,
        desk: usize,
        (op, point, argument): (u8, u8, i32),
        refusal: Option<Refusal>,
    ) {
        let (Some(points), Some(op)) = (self.lock, Op::from_byte(op)) else {
            return;
        };
        let gate = GATES.into_iter().find(|&g| points.numbers()[g] == point);
        let Some(gate) = gate.filter(|_| is_opening(op, argument)) else {
            return;
        };
        let before = matches!(refusal, Some(Refusal::Malformed | Refusal::WindowFull));
        if before || !self.controllers.contains(&desk) {
            return;
        }
        let refused = refusal == Some(Refusal::NotClear);
        if refused == self.is_clear(self.desks[desk].client, &points, gate) {
            self.wrong_opening.get_or_insert(self.place);
        }
    }

    /// The other gate was found 0 and not invalid since the last set or part was issued, then
    /// both levels as measured and at most 5 apart; the latest read of each counts.
    fn is_clear(&self, client: u32, points: &LockPoints, gate: usize) -> bool {
        let latest_first = || self.commands.iter().rev().filter(|c| c.client == client);
        let moved = latest_first().find(|c| c.op != Op::Read).map(|c| c.issued);
        let latest = |place: usize| -> Option<(u32, Effect)> {
            let read = (Op::Read, points.numbers()[place]);
            let mut reads = latest_first().filter(|c| (c.op, c.point) == read);
            reads.find_map(|c| c.completed)
        };
        let Some((closed_at, other)) = latest(other_gate(gate)) else {
            return false;
        };
        let [Some((one_at, one)), Some((two_at, two))] = levels_beside(gate).map(latest) else {
            return false;
        };
        moved.is_none_or(|moved| closed_at > moved)
            && other.value == 0
            && other.quality != INVALID
            && one_at.min(two_at) > closed_at
            && [one.quality, two.quality] == [VALID; 2]
            && one.value.abs_diff(two.value) <= LEVELS_APART
    }
}
