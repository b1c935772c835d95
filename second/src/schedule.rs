//! Paper 01, "Demand 3 in full": random schedules, lists of crashes and calls.
//!
//! A step names packets, cabinets and desks by their role at the time it is
//! run, so a schedule stays one when steps are dropped or swapped. Steps are
//! laid down as short sequences (a command, a move, the end of a lease), then
//! dropped, repeated and swapped at random.

use crate::plan::Plan;

mod checkpoints;
mod commands;
mod crashes;
mod dispatcher;
mod generate;
mod lock;
mod moves;
mod renewal;
mod times;

pub use checkpoints::generate_checkpoints;
pub use dispatcher::generate_dispatched;
pub use generate::{generate, ISSUES_MAX};
pub use lock::{generate_lock, LockSchedule};
pub(crate) use renewal::program_in_step;
pub use renewal::{generate_renewed, Places, Renewed};
pub use times::generate_timed;

/// A cabinet or a desk.
#[derive(Clone, Copy, PartialEq, Eq, Debug)]
pub enum Party {
    /// The one that the call is meant for.
    Apt,
    /// By number, modulo the number of parties.
    Number(u8),
}

/// A packet or image among those made.
#[derive(Clone, Copy, PartialEq, Eq, Debug)]
pub enum Which {
    /// The latest of the apt kind.
    Latest,
    /// One of the latest four of the apt kind.
    Recent(u32),
    /// Any of the apt kind.
    Any(u32),
    /// Any at all.
    Astray(u32),
    /// The latest of the apt kind that opens no gate.
    LatestHarmless,
}

#[derive(Clone, Copy, PartialEq, Eq, Debug)]
pub enum Mark {
    /// The log's length.
    All,
    /// From the present mark to the length.
    Between(u32),
    /// Below the present mark or above the length.
    Outside(bool),
}

/// Bytes that a crash keeps: from the mark to the length. Of a server that is
/// crashed already, the length is what the last crash kept.
#[derive(Clone, Copy, PartialEq, Eq, Debug)]
pub enum Keep {
    Synced,
    All,
    Between(u32),
}

/// What a host does with the dispatcher of a server.
#[derive(Clone, Copy, PartialEq, Eq, Debug)]
pub enum Fate {
    /// It goes on with a new one, where nobody waits.
    Lost,
    /// It puts a copy aside.
    Copied,
    /// It goes on with the copy that it put aside last.
    OldCopy,
}

/// A slice lent too short.
#[derive(Clone, Copy, PartialEq, Eq, Debug)]
pub enum Flaw {
    None,
    State,
    Log,
    Output,
}

#[derive(Clone, Copy, PartialEq, Eq, Debug)]
pub enum Call {
    Found {
        at: Party,
    },
    Request {
        at: Party,
        packet: Which,
    },
    /// A request that waits at the server's dispatcher.
    Enqueue {
        at: Party,
        packet: Which,
    },
    /// A serving of the server's dispatcher.
    Serve {
        at: Party,
    },
    Waiting {
        at: Party,
        fate: Fate,
    },
    Fetch {
        at: Party,
        id: Which,
    },
    Sync {
        at: Party,
        mark: Mark,
    },
    Notice {
        at: Party,
        packet: Which,
    },
    Give {
        at: Party,
        point: u8,
        destination: u8,
    },
    Image {
        at: Party,
        point: u8,
    },
    Take {
        at: Party,
        image: Which,
    },
    Receipt {
        at: Party,
        point: u8,
    },
    Release {
        at: Party,
        packet: Which,
    },
    Crash {
        at: Party,
        keep: Keep,
    },
    /// A crash of a server that is not recovered since its last one.
    CrashAgain {
        at: Party,
        keep: Keep,
    },
    /// After a crash, from the bytes kept.
    Recover {
        at: Party,
    },
    /// Without a crash, from the log up to its recorded length.
    RecoverRunning {
        at: Party,
    },
    /// A checkpoint, which the host then stores.
    Checkpoint {
        at: Party,
    },
    /// The checkpoint is stored.
    Store {
        at: Party,
    },
    Start {
        packet: Which,
    },
    Issue {
        desk: u8,
        op: u8,
        point: u8,
        argument: i32,
    },
    Resend {
        desk: u8,
        call: u32,
    },
    Receive {
        desk: Party,
        packet: Which,
    },
    Open {
        wait: u32,
        span: u32,
    },
    Renew {
        desk: u8,
        wait: u32,
        span: u32,
    },
    Query {
        desk: u8,
        wait: u32,
    },
    /// Start of a lock's controller.
    StartController {
        packet: Which,
    },
    /// What a controller does next to open a gate: it resends its open command,
    /// closes the other gate, reads what is to be read, or issues the opening.
    Toward {
        desk: u8,
        gate: u8,
        op: u8,
        argument: i32,
        manner: Manner,
    },
    /// A request for an opening by any controller, or by one that has a successor.
    LateOpening {
        at: Party,
        number: u32,
        lost: bool,
    },
}

/// How a controller is used.
#[derive(Clone, Copy, PartialEq, Eq, Debug)]
pub enum Manner {
    Careful,
    /// It does not wait for its open command.
    Impatient,
    /// The other gate is not read.
    OtherUnread,
    /// The other gate is read and not closed.
    OtherNotClosed,
}

/// Numbers of desks by their role at the time: the last one started that is no
/// controller, the last controller started, and from `LOST` on the others, the
/// latest first.
pub const LATEST_DESK: u8 = 199;
pub const CONTROLLER: u8 = 255;
pub const LOST: u8 = 200;

#[derive(Clone, Copy, PartialEq, Eq, Debug)]
pub struct Step {
    pub call: Call,
    pub flaw: Flaw,
}

#[derive(Clone, PartialEq, Eq, Debug)]
pub struct Schedule {
    pub plan: Plan,
    pub cabinets: u8,
    pub log_len: usize,
    pub steps: Vec<Step>,
}
