//! Inspects a completion record after each step: what is shown decodes to what the state
//! holds, and the record that holds it ends where the state says.

use super::{Differs, Phase, World};
use crate::answer::Refusal;
use crate::checkpoint::read_record;
use crate::image::{parse_layout, read_moved};
use crate::record::{parse_executed, record_begin, record_ends, TAKE_HEAD_LEN};
use crate::server::{Completion, Place, Source, STATE_LEN};

/// An id that no desk has.
const NO_ID: (u32, u32) = (0, 0);

impl World<'_> {
    /// One of the records of the cabinet called last, or one that it does not hold.
    pub(super) fn inspect_one(&mut self) {
        let c = &self.cabinets[self.last];
        if !self.options.shadow || self.difference.is_some() || c.phase != Phase::Running {
            return;
        }
        let records = &c.server.records;
        let record = records.get(self.place as usize % (records.len() + 1));
        let (client, call) = record.map_or(NO_ID, |r| (r.client, r.call));
        let (checkpoint, log) = (&c.stored.checkpoint, &c.log);
        let found = (c.server).inspect(STATE_LEN, checkpoint, log, client, call);
        let tail = &log[..c.server.length as usize];
        let right = match (record, found) {
            (None, found) => found == Err(Refusal::Unknown),
            (Some(_), Err(_)) => false,
            (Some(r), Ok(place)) => decode(&place, checkpoint, tail).as_ref() == Some(r),
        };
        if let Ok(place) = found {
            self.counts.storing.inspected[place.source as usize - 1] += 1;
        }
        self.differ((!right).then_some(Differs::Inspected));
    }
}

/// The completion record of the bytes shown.
fn decode(place: &Place, checkpoint: &[u8], tail: &[u8]) -> Option<Completion> {
    let bytes = place.shown(checkpoint, tail);
    match place.source {
        Source::Executed => {
            let record = parse_executed(bytes)?;
            Some(Completion::of_executed(&record, place.to as u64))
        }
        Source::Image => {
            let (from, to) = record_around(tail, place.from)?;
            let point = tail[from + TAKE_HEAD_LEN + 4];
            let entry = parse_layout(&tail[from + TAKE_HEAD_LEN..to])?;
            let entry = read_moved(entry.form, bytes)?;
            Some(Completion::of_moved(&entry, point, to as u64))
        }
        Source::Checkpoint => read_record(bytes),
    }
}

/// Begin and end of the record that a byte of the tail is in.
fn record_around(tail: &[u8], at: usize) -> Option<(usize, usize)> {
    let ends = record_ends(tail).ok()?;
    let index = ends.iter().position(|&end| at < end)?;
    Some((record_begin(&ends, index), ends[index]))
}
