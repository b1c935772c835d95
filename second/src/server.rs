//! Paper 01, "Log", "Moving a point" and "Operations and their numbers": the
//! cabinet (server). The state is the replay of the log; completion records
//! stand in order of arrival. Every call is lent the length of the state
//! buffer and the log; all tests come before the first change.

use crate::answer::Refusal;
use crate::image::{Floor, Moved, CLIENTS_MAX};
use crate::packet::{Reply, WINDOW};
use crate::plan::{Plan, POINTS};
use crate::record::{Executed, HEAD_LEN};
use crate::rule::{Op, INVALID};

mod checkpoint;
mod commands;
mod inspect;
mod moves;
mod replay;
mod soundness;

pub use inspect::{Place, Source};

pub const STATE_LEN: usize = 32_768;
pub const RECORDS_MAX: usize = CLIENTS_MAX * WINDOW as usize;
/// The end of each record that a checkpoint has replaced: no record of a log ends at
/// its head, and every mark counts this place as synced.
pub const BEFORE_THIS_LOG: u64 = HEAD_LEN as u64;

/// Whether the cabinet holds a point.
#[derive(Clone, Copy, PartialEq, Eq, Debug)]
pub enum Hold {
    Absent,
    Held,
    /// Given to `destination`; the give record ends at `end`.
    Given {
        destination: u8,
        end: u64,
    },
    /// Given so, and released since.
    Released {
        destination: u8,
        end: u64,
    },
}

/// The latest take of a point: its move and the end of its record.
#[derive(Clone, Copy, PartialEq, Eq, Debug)]
pub struct Taken {
    pub move_number: u32,
    pub end: u64,
}

#[derive(Clone, Copy, PartialEq, Eq, Debug)]
pub struct Point {
    pub value: i32,
    pub quality: u8,
    pub move_number: u32,
    pub hold: Hold,
    pub taken: Option<Taken>,
}

impl Point {
    const ABSENT: Point = Point {
        value: 0,
        quality: INVALID,
        move_number: 0,
        hold: Hold::Absent,
        taken: None,
    };
}

#[derive(Clone, Copy, PartialEq, Eq, Debug)]
pub struct Completion {
    pub client: u32,
    pub call: u32,
    pub argument: i32,
    pub value: i32,
    pub op: Op,
    pub point: u8,
    pub outcome: u8,
    pub quality: u8,
    /// Heard time of the server that executed it, at execution; 0 if it came from an
    /// untimed form.
    pub time: u32,
    /// End of the executed or take record that brought it.
    pub end: u64,
}

impl Completion {
    pub(crate) fn of_executed(r: &Executed, end: u64) -> Completion {
        Completion {
            client: r.client,
            call: r.call,
            argument: r.argument,
            value: r.value,
            op: r.op,
            point: r.point,
            outcome: r.outcome,
            quality: r.quality,
            time: r.time,
            end,
        }
    }

    pub(crate) fn of_moved(r: &Moved, point: u8, end: u64) -> Completion {
        Completion {
            client: r.client,
            call: r.call,
            argument: r.argument,
            value: r.value,
            op: r.op,
            point,
            outcome: r.outcome,
            quality: r.quality,
            time: r.time,
            end,
        }
    }

    pub(crate) fn moved(&self) -> Moved {
        Moved {
            client: self.client,
            call: self.call,
            argument: self.argument,
            value: self.value,
            op: self.op,
            outcome: self.outcome,
            quality: self.quality,
            time: self.time,
        }
    }

    fn reply(&self) -> Reply {
        Reply {
            outcome: self.outcome,
            point: self.point,
            quality: self.quality,
            client: self.client,
            call: self.call,
            value: self.value,
            time: self.time,
        }
    }
}

/// State of a cabinet.
#[derive(Clone, PartialEq, Eq, Debug)]
pub struct Server {
    pub founded: bool,
    pub cabinet: u8,
    pub plan: Plan,
    pub points: [Point; POINTS],
    /// By client, strictly ascending.
    pub clients: Vec<Floor>,
    /// In order of arrival.
    pub records: Vec<Completion>,
    pub heard: u32,
    pub length: u64,
    pub mark: u64,
}

impl Default for Server {
    fn default() -> Server {
        Server::new()
    }
}

impl Server {
    /// A state not founded, so not sound. Room for all clients and records
    /// is set aside here; no call but recover allocates.
    pub fn new() -> Server {
        Server {
            founded: false,
            cabinet: 0,
            plan: Plan::default(),
            points: [Point::ABSENT; POINTS],
            clients: Vec::with_capacity(CLIENTS_MAX),
            records: Vec::with_capacity(RECORDS_MAX),
            heard: 0,
            length: 0,
            mark: 0,
        }
    }

    // Reading the state.

    pub fn point(&self, point: u8) -> &Point {
        &self.points[usize::from(point)]
    }

    fn client_index(&self, client: u32) -> Option<usize> {
        self.clients
            .binary_search_by_key(&client, |c| c.client)
            .ok()
    }

    /// The client's floor, 0 if it is not known.
    fn floor(&self, client: u32) -> u32 {
        self.client_index(client)
            .map_or(0, |index| self.clients[index].floor)
    }

    pub(crate) fn record_index(&self, client: u32, call: u32) -> Option<usize> {
        self.records
            .iter()
            .position(|r| r.call == call && r.client == client)
    }

    fn held(&self, point: u8) -> bool {
        self.point(point).hold == Hold::Held
    }

    fn synced(&self, end: u64) -> bool {
        end <= self.mark
    }

    // Tests shared by the operations.

    fn test_state(&self, state_len: usize, log: &[u8]) -> Result<(), Refusal> {
        if state_len < STATE_LEN {
            return Err(Refusal::TooShort);
        }
        if !self.sound() || (log.len() as u64) < self.length {
            return Err(Refusal::NotSound);
        }
        Ok(())
    }

    fn test_lent(
        &self,
        state_len: usize,
        log: &[u8],
        output: &[u8],
        needed: usize,
    ) -> Result<(), Refusal> {
        if output.len() < needed {
            return Err(Refusal::TooShort);
        }
        self.test_state(state_len, log)
    }

    fn test_space(&self, log: &[u8], needed: usize) -> Result<(), Refusal> {
        if (log.len() as u64) - self.length < needed as u64 {
            return Err(Refusal::LogFull);
        }
        Ok(())
    }

    /// Appends after the last whole record; answers the new end.
    fn append(&mut self, log: &mut [u8], bytes: &[u8]) -> u64 {
        let free = &mut log[self.length as usize..];
        free[..bytes.len()].copy_from_slice(bytes);
        self.length += bytes.len() as u64;
        self.length
    }
}
