//! Request 5 of paper 02: the checkpoint of a state, and recovery from a checkpoint and
//! the tail of the log behind it.

use super::replay::replay_on;
use super::{Hold, Server, BEFORE_THIS_LOG, STATE_LEN};
use crate::answer::{Answer, Refusal};
use crate::checkpoint::{parse_checkpoint, write_checkpoint_as, CHECKPOINT_LEN};
use crate::program::Form;
use crate::record::{parse_head, write_head, HEAD_LEN};

impl Server {
    // Checkpoint.

    /// Answers the checkpoint's length. From the next call on the log is the tail.
    pub fn checkpoint(
        &mut self,
        state_len: usize,
        log: &[u8],
        checkpoint: &mut [u8],
        tail: &mut [u8],
    ) -> Answer {
        self.checkpoint_as(Form::Timed, state_len, log, checkpoint, tail)
    }

    /// Checkpoint as a program that writes the given form answers it.
    pub fn checkpoint_as(
        &mut self,
        form: Form,
        state_len: usize,
        log: &[u8],
        checkpoint: &mut [u8],
        tail: &mut [u8],
    ) -> Answer {
        Answer::of_written(self.try_checkpoint(form, state_len, log, checkpoint, tail))
    }

    fn try_checkpoint(
        &mut self,
        form: Form,
        state_len: usize,
        log: &[u8],
        checkpoint: &mut [u8],
        tail: &mut [u8],
    ) -> Result<usize, Refusal> {
        if tail.len() < HEAD_LEN {
            return Err(Refusal::TooShort);
        }
        self.test_lent(state_len, log, checkpoint, CHECKPOINT_LEN)?;
        if !self.synced(self.length) {
            return Err(Refusal::NotSynced);
        }
        let written = write_checkpoint_as(form, self, checkpoint);
        tail[..HEAD_LEN].copy_from_slice(&write_head(self.cabinet));
        self.rebase();
        Ok(written)
    }

    /// All that a record brought counts as brought before this log.
    pub fn rebase(&mut self) {
        self.length = HEAD_LEN as u64;
        self.mark = self.length;
        self.relabel(|_| BEFORE_THIS_LOG);
    }

    /// The state, length, mark and record places aside.
    pub fn rebased(&self) -> Server {
        let mut server = self.clone();
        server.rebase();
        server
    }

    /// Changes the ends of all gives, takes and completion records.
    pub(crate) fn relabel(&mut self, label: impl Fn(u64) -> u64) {
        for point in &mut self.points {
            if let Hold::Given { end, .. } | Hold::Released { end, .. } = &mut point.hold {
                *end = label(*end);
            }
            if let Some(taken) = &mut point.taken {
                taken.end = label(taken.end);
            }
        }
        for record in &mut self.records {
            record.end = label(record.end);
        }
    }

    // Recover.

    /// Recovery from a checkpoint, whose plan it takes, and the tail kept behind it, which
    /// is the whole slice.
    pub fn recover_checkpoint(
        &mut self,
        state_len: usize,
        checkpoint: &[u8],
        tail: &[u8],
    ) -> Answer {
        if state_len < STATE_LEN {
            return Answer::refused(Refusal::TooShort);
        }
        let start = start_of(checkpoint, tail);
        self.recovered(start.and_then(|start| replay_on(start, tail)))
    }
}

/// The state of a checkpoint of the same cabinet as the tail.
pub(super) fn start_of(checkpoint: &[u8], tail: &[u8]) -> Option<Server> {
    parse_checkpoint(checkpoint).filter(|start| parse_head(tail) == Some(start.cabinet))
}
