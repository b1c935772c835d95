//! Paper 01, "Operations and their numbers": when a state is sound (19).

use super::{Completion, Hold, Point, Server, Taken, BEFORE_THIS_LOG};
use crate::image::CLIENTS_MAX;
use crate::packet::{cabinet_ok, WINDOW};
use crate::plan::{Entry, POINTS};
use crate::record::HEAD_LEN;
use crate::rule::{INVALID, OUTCOME_MAX, QUALITY_MAX};

impl Server {
    /// Every field in range and every limit kept.
    pub fn sound(&self) -> bool {
        self.founded
            && cabinet_ok(self.cabinet)
            && self.plan.sound()
            && HEAD_LEN as u64 <= self.mark
            && self.mark <= self.length
            && self.points_sound()
            && self.clients_sound()
            && self.records_sound()
    }

    fn points_sound(&self) -> bool {
        let entries = self.plan.entries.iter();
        self.points.iter().zip(entries).all(|(point, entry)| {
            entry.contains(point.value)
                && point.quality <= QUALITY_MAX
                && self.hold_sound(point, entry)
        })
    }

    /// An absent point is as at founding; any other was held here, from its home or
    /// by a take, and a give raised its number by 1.
    fn hold_sound(&self, point: &Point, entry: &Entry) -> bool {
        let number = point.move_number;
        let taken = point.taken.map_or(0, |t| t.move_number);
        let taken_ok = point.taken.is_none_or(|t| self.end_ok(t.end) && taken >= 1);
        let was_held = taken >= 1 || entry.home == self.cabinet;
        taken_ok
            && match point.hold {
                Hold::Absent => {
                    let founded = (entry.fallback, INVALID);
                    number == 0 && !was_held && (point.value, point.quality) == founded
                }
                Hold::Held => number == taken && was_held,
                Hold::Given { destination, end } | Hold::Released { destination, end } => {
                    let to_other = cabinet_ok(destination) && destination != self.cabinet;
                    let raised = taken.checked_add(1) == Some(number);
                    raised && was_held && to_other && self.given_at(point, end)
                }
            }
    }

    /// A give's end; a take before it ended earlier, or both did before this log.
    fn given_at(&self, point: &Point, end: u64) -> bool {
        let taken_before =
            |t: &Taken| t.end < end || (t.end, end) == (BEFORE_THIS_LOG, BEFORE_THIS_LOG);
        self.end_ok(end) && point.taken.as_ref().is_none_or(taken_before)
    }

    fn end_ok(&self, end: u64) -> bool {
        BEFORE_THIS_LOG <= end && end <= self.length
    }

    fn clients_sound(&self) -> bool {
        self.clients.len() <= CLIENTS_MAX
            && self.clients.first().is_none_or(|c| c.client >= 1)
            && self.clients.windows(2).all(|w| w[0].client < w[1].client)
            && self.clients.iter().all(|c| c.floor >= 1)
    }

    /// Each client's calls lie in its window and stand once, so that 16 a
    /// client and 512 in all follow.
    fn records_sound(&self) -> bool {
        let mut seen = [0u16; CLIENTS_MAX];
        let mut last_end = BEFORE_THIS_LOG;
        self.records.iter().all(|r| {
            let Some(index) = self.client_index(r.client) else {
                return false;
            };
            let floor = self.clients[index].floor;
            if r.call < floor || r.call - floor >= WINDOW || r.end < last_end {
                return false;
            }
            last_end = r.end;
            let bit = 1u16 << (r.call - floor);
            let first = seen[index] & bit == 0;
            seen[index] |= bit;
            first && self.record_sound(r)
        })
    }

    fn record_sound(&self, r: &Completion) -> bool {
        usize::from(r.point) < POINTS
            && r.op.accepts(r.argument)
            && r.outcome <= OUTCOME_MAX
            && r.quality <= QUALITY_MAX
            && r.end <= self.length
            && self.plan.entry(r.point).contains(r.value)
            && matches!(self.point(r.point).hold, Hold::Held | Hold::Given { .. })
    }
}
