//! Request 5 of paper 02: which bytes of a checkpoint or of its tail hold a completion
//! record.

use super::checkpoint::start_of;
use super::Server;
use crate::answer::Refusal;
use crate::checkpoint::record_at;
use crate::image::{moved_len, parse_layout};
use crate::record::{parse_whole, record_begin, record_ends, Record, TAKE_HEAD_LEN};

/// What holds a completion record, by its number.
#[derive(Clone, Copy, PartialEq, Eq, Debug)]
#[repr(u32)]
pub enum Source {
    /// An executed record of the tail.
    Executed = 1,
    /// An entry of an image in the tail.
    Image = 2,
    /// An entry of the checkpoint.
    Checkpoint = 3,
}

/// The bytes that hold a completion record: those of the checkpoint or of the tail from
/// one place to before another.
#[derive(Clone, Copy, PartialEq, Eq, Debug)]
pub struct Place {
    pub source: Source,
    pub from: usize,
    pub to: usize,
}

impl Place {
    /// The part of one of the slices that were inspected.
    pub fn shown<'a>(&self, checkpoint: &'a [u8], tail: &'a [u8]) -> &'a [u8] {
        let slice = match self.source {
            Source::Executed | Source::Image => tail,
            Source::Checkpoint => checkpoint,
        };
        &slice[self.from..self.to]
    }
}

impl Server {
    /// Where the completion record of an id is held, synced or not; the latest holder
    /// counts. The checkpoint is empty before the first one.
    pub fn inspect(
        &self,
        state_len: usize,
        checkpoint: &[u8],
        tail: &[u8],
        client: u32,
        call: u32,
    ) -> Result<Place, Refusal> {
        self.test_state(state_len, tail)?;
        let tail = &tail[..self.length as usize];
        let start = match checkpoint {
            [] => None,
            _ => Some(start_of(checkpoint, tail).ok_or(Refusal::BadLog)?),
        };
        let ends = record_ends(tail)?;
        self.record_index(client, call).ok_or(Refusal::Unknown)?;
        let entry = || {
            let bytes = record_at(checkpoint, start.as_ref()?, client, call)?;
            Some(Place {
                source: Source::Checkpoint,
                from: bytes.start,
                to: bytes.end,
            })
        };
        last_holder(tail, &ends, (client, call))
            .or_else(entry)
            .ok_or(Refusal::Unknown)
    }
}

/// The last of a tail's whole records that holds the id.
fn last_holder(tail: &[u8], ends: &[usize], id: (u32, u32)) -> Option<Place> {
    (0..ends.len())
        .rev()
        .find_map(|i| held_in(tail, record_begin(ends, i), ends[i], id))
}

/// A record that does not read holds nothing. It is read without the plan: an image with
/// values out of range still holds its entries.
fn held_in(tail: &[u8], from: usize, to: usize, (client, call): (u32, u32)) -> Option<Place> {
    match parse_whole(&tail[from..to])? {
        Record::Executed(r) if (r.client, r.call) == (client, call) => Some(Place {
            source: Source::Executed,
            from,
            to,
        }),
        Record::Take(image) => {
            let image = parse_layout(image)?;
            let from = from + TAKE_HEAD_LEN + image.record_at(client, call)?;
            Some(Place {
                source: Source::Image,
                from,
                to: from + moved_len(image.form),
            })
        }
        _ => None,
    }
}
