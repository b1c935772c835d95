//! A cabinet of a schedule: its server, its log, what is stored beside it, the dispatcher
//! above it, and its shadow.

use super::dispatching::Queue;
use super::shadow::Shadow;
use super::{Options, FILL};
use crate::faults::{Fault, Faulty};
use crate::record::HEAD_LEN;

#[derive(Clone, PartialEq, Eq, Debug)]
pub(super) enum Phase {
    New,
    Running,
    /// The host stores a checkpoint. Until then the old log is in force, which is whole
    /// and synced; the cabinet's log is the tail to come.
    Storing {
        log: Vec<u8>,
        length: u64,
        to_come: Stored,
    },
    /// Crashed with the first `kept` bytes of the log; `mark` is the one
    /// before the first crash since the server ran.
    Crashed {
        mark: u64,
        kept: u64,
    },
}

/// What recovery uses beside the log.
#[derive(Clone, PartialEq, Eq, Debug, Default)]
pub(super) struct Stored {
    /// The one stored last; empty before the first.
    pub(super) checkpoint: Vec<u8>,
    /// Bytes of records that it and those before it replaced.
    pub(super) replaced: u64,
}

pub(super) struct Cabinet {
    pub(super) phase: Phase,
    pub(super) server: Faulty,
    pub(super) log: Vec<u8>,
    pub(super) stored: Stored,
    pub(super) queue: Queue,
    pub(super) shadow: Option<Shadow>,
    fault: Option<Fault>,
}

impl Cabinet {
    pub(super) fn new(log_len: usize, options: &Options) -> Cabinet {
        Cabinet {
            phase: Phase::New,
            server: Faulty::new(options.fault),
            log: vec![FILL; log_len],
            stored: Stored::default(),
            queue: Queue::new(options.fault),
            shadow: options.shadow.then(|| Shadow::new(log_len)),
            fault: options.fault,
        }
    }

    /// Whether the host calls it.
    pub(super) fn is_called(&self) -> bool {
        match self.phase {
            Phase::Running => true,
            Phase::Storing { .. } => self.fault == Some(Fault::CallsWhileStoring),
            _ => false,
        }
    }

    /// The bytes that its crashes have kept; none if it is not crashed.
    pub(super) fn kept(&self) -> Option<u64> {
        match self.phase {
            Phase::Crashed { kept, .. } => Some(kept),
            _ => None,
        }
    }

    /// What a crash may keep: from the mark to the length. A crashed one has
    /// the mark from before and the length that was kept.
    pub(super) fn mark_and_length(&self) -> (u64, u64) {
        match self.phase {
            Phase::Crashed { mark, kept } => (mark, kept),
            Phase::Storing { length, .. } => (length, length),
            _ => (self.server.mark.min(self.server.length), self.server.length),
        }
    }

    /// Bytes of records replaced so far, as the state and its log have them.
    pub(super) fn replaced(&self) -> u64 {
        match (&self.phase, self.fault) {
            (_, Some(Fault::SurvivalInTail)) => 0,
            (Phase::Storing { to_come, .. }, _) => to_come.replaced,
            _ => self.stored.replaced,
        }
    }

    /// The state is lost; the log in force keeps its first bytes.
    pub(super) fn crash(&mut self, mark: u64, mut kept: u64) {
        if let Phase::Storing { log, to_come, .. } = std::mem::replace(&mut self.phase, Phase::New)
        {
            match self.fault {
                Some(Fault::NewTailKept) => kept = HEAD_LEN as u64,
                Some(Fault::NewCheckpointKept) => (self.log, self.stored) = (log, to_come),
                _ => self.log = log,
            }
        }
        self.phase = Phase::Crashed { mark, kept };
        self.log[kept as usize..].fill(FILL);
        self.server = Faulty::new(self.fault);
    }

    /// The checkpoint to come is in force, with its tail.
    pub(super) fn store(&mut self) {
        if let Phase::Storing { to_come, .. } = std::mem::replace(&mut self.phase, Phase::Running) {
            let old = std::mem::replace(&mut self.stored, to_come);
            if self.fault == Some(Fault::StoredLost) {
                self.stored.checkpoint = old.checkpoint;
            }
        }
    }
}
