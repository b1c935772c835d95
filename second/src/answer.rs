//! Paper 01, "Operations and their numbers": the nineteen refusals and the
//! answer of a cabinet call. Request 2 of paper 02 adds the twentieth, request 8 the
//! twenty-first.

/// By the paper's numbers.
#[derive(Clone, Copy, PartialEq, Eq, Debug)]
#[repr(u32)]
pub enum Refusal {
    /// Malformed packet or image, bad plan, or an argument outside its range.
    Malformed = 1,
    /// A lent slice is too short.
    TooShort = 2,
    /// Point not held, not given, released or never taken.
    NotHeld = 3,
    /// Lease end at or under the heard time.
    LeaseEnded = 4,
    /// Call under the client's floor.
    UnderFloor = 5,
    /// Id held with another op, point or argument.
    OtherCommand = 6,
    NotSynced = 7,
    /// More than 32 clients; of a dispatcher, 32 others wait.
    ClientsFull = 8,
    /// The log lacks space.
    LogFull = 9,
    /// Mark below the present one or above the log's length.
    BadMark = 10,
    /// Destination is this cabinet (give) or another one (take).
    BadDestination = 11,
    /// Move number too low.
    OldMove = 12,
    /// Point held here, or an id held for another point.
    HeldHere = 13,
    /// Kept log not readable.
    BadLog = 14,
    /// Sixteen call numbers from the first open one are in use.
    WindowFull = 15,
    /// A number at its greatest.
    NumberSpent = 16,
    /// Unknown id, client, call or lease, or nobody waiting.
    Unknown = 17,
    /// All leases in use.
    LeasesFull = 18,
    /// State not sound, or log slice shorter than its recorded length.
    NotSound = 19,
    /// An opening of a gate whose conditions fail.
    NotClear = 20,
    /// A request of a client that waits at the dispatcher.
    AlreadyWaiting = 21,
}

impl Refusal {
    pub const ALL: [Refusal; 21] = [
        Refusal::Malformed,
        Refusal::TooShort,
        Refusal::NotHeld,
        Refusal::LeaseEnded,
        Refusal::UnderFloor,
        Refusal::OtherCommand,
        Refusal::NotSynced,
        Refusal::ClientsFull,
        Refusal::LogFull,
        Refusal::BadMark,
        Refusal::BadDestination,
        Refusal::OldMove,
        Refusal::HeldHere,
        Refusal::BadLog,
        Refusal::WindowFull,
        Refusal::NumberSpent,
        Refusal::Unknown,
        Refusal::LeasesFull,
        Refusal::NotSound,
        Refusal::NotClear,
        Refusal::AlreadyWaiting,
    ];

    pub fn number(self) -> u32 {
        self as u32
    }
}

/// Answer of a cabinet call: 0 or the refusal's number, and the bytes written to
/// the output slice.
#[derive(Clone, Copy, PartialEq, Eq, Debug)]
pub struct Answer {
    pub number: u32,
    pub written: usize,
}

impl Answer {
    pub const DONE: Answer = Answer {
        number: 0,
        written: 0,
    };

    pub fn refused(refusal: Refusal) -> Answer {
        Answer {
            number: refusal.number(),
            written: 0,
        }
    }

    pub fn wrote(written: usize) -> Answer {
        Answer { number: 0, written }
    }

    /// The answer of a call without output.
    pub fn of(result: Result<(), Refusal>) -> Answer {
        match result {
            Ok(()) => Answer::DONE,
            Err(refusal) => Answer::refused(refusal),
        }
    }

    /// The answer of a call that writes output.
    pub fn of_written(result: Result<usize, Refusal>) -> Answer {
        match result {
            Ok(written) => Answer::wrote(written),
            Err(refusal) => Answer::refused(refusal),
        }
    }
}
