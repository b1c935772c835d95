//! Checkpoint, recovery from a checkpoint and its tail, and inspect in lockstep.

use super::{Outputs, Pair};
use crate::checkpoint::{checkpoint, inspect, recover_checkpoint, second_inspect, Place};
use second::answer::{Answer, Refusal};
use second::checkpoint::CHECKPOINT_LEN;
use second::record::HEAD_LEN;
use second::server::STATE_LEN;

/// How much of each slice a checkpoint is lent.
#[derive(Debug)]
pub struct LentCheckpoint {
    pub state: usize,
    pub log: usize,
    pub checkpoint: usize,
    pub tail: usize,
}

/// What a checkpoint writes to.
pub struct Buffers {
    pub checkpoint: Outputs,
    pub tail: Outputs,
}

impl Buffers {
    /// Longer than needed.
    pub fn new() -> Buffers {
        Buffers {
            checkpoint: Outputs::new(CHECKPOINT_LEN + 8),
            tail: Outputs::new(HEAD_LEN + 40),
        }
    }

    fn clear(&mut self) {
        self.checkpoint.clear();
        self.tail.clear();
    }

    /// The proved side has written as the other one, and nothing past it.
    fn compare(&self, answer: Answer) {
        let (checkpoint, tail) = (&self.checkpoint, &self.tail);
        let head = if answer.number == 0 { HEAD_LEN } else { 0 };
        assert!(checkpoint.have == checkpoint.want, "checkpoint");
        assert!(tail.have == tail.want, "tail");
        assert!(checkpoint.kept_past(answer.written), "past the checkpoint");
        assert!(tail.kept_past(head), "past the tail's head");
    }
}

impl Default for Buffers {
    fn default() -> Buffers {
        Buffers::new()
    }
}

impl Pair {
    /// All of each slice.
    pub fn whole_checkpoint(&self, buffers: &Buffers) -> LentCheckpoint {
        LentCheckpoint {
            state: STATE_LEN,
            log: self.room,
            checkpoint: buffers.checkpoint.have.len(),
            tail: buffers.tail.have.len(),
        }
    }

    /// A checkpoint on both sides, and all lent memory compared. The log stays as it was.
    pub fn checkpoint(&mut self, lent: &LentCheckpoint, buffers: &mut Buffers) -> Answer {
        buffers.clear();
        let (cp, tail) = (&mut buffers.checkpoint, &mut buffers.tail);
        let have = checkpoint(
            &mut self.state[..lent.state],
            &self.log[..lent.log],
            &mut cp.have[..lent.checkpoint],
            &mut tail.have[..lent.tail],
        );
        let want = self.server.checkpoint(
            lent.state,
            &self.server_log[..lent.log],
            &mut cp.want[..lent.checkpoint],
            &mut tail.want[..lent.tail],
        );
        assert_eq!(have, want, "{lent:?}, {:?}", self.server);
        buffers.compare(want);
        match want.number {
            0 => self.compare_changed(lent),
            _ => self.compare_kept(lent),
        }
        want
    }

    /// The checkpoint is stored: the log begins anew with the tail's head.
    pub fn switch(&mut self, buffers: &Buffers, junk: u8) {
        for (log, tail) in [
            (&mut self.log, &buffers.tail.have),
            (&mut self.server_log, &buffers.tail.want),
        ] {
            log[HEAD_LEN..].fill(junk);
            log[..HEAD_LEN].copy_from_slice(&tail[..HEAD_LEN]);
        }
    }

    /// Recovery on both sides from these bytes, on so much of the state's buffer.
    pub fn recover_checkpoint(&mut self, state_len: usize, cp: &[u8], tail: &[u8]) -> Answer {
        let have = recover_checkpoint(&mut self.state[..state_len], cp, tail);
        let want = self.server.recover_checkpoint(state_len, cp, tail);
        let lent = ("recover_checkpoint", state_len, cp.len(), tail);
        assert_eq!(have, want, "{lent:02x?}, {cp:02x?}");
        match want.number {
            0 => self.compare_changed(&lent),
            _ => self.compare_kept(&lent),
        }
        want
    }

    /// Inspect on both sides; it changes nothing.
    pub fn inspect(&self, state_len: usize, cp: &[u8], tail: &[u8], id: (u32, u32)) -> Place {
        let have = inspect(&self.state[..state_len], cp, tail, id);
        let want = second_inspect(&self.server, state_len, cp, tail, id);
        let lent = (id, state_len, cp.len(), tail.len());
        assert_eq!(have, want, "{lent:?}, {cp:02x?}, {tail:02x?}");
        self.compare_kept(&lent);
        want
    }

    /// Checkpoint and inspect of the proved server alone, on a buffer that no call leaves, are refused
    /// with 19, and all lent memory stays.
    pub fn refuses_checkpoint(&mut self, state: &mut [u8], buffers: &mut Buffers) {
        let before = state.to_vec();
        buffers.clear();
        let log = &self.log[..self.room];
        let (cp, tail) = (&mut buffers.checkpoint.have, &mut buffers.tail.have);
        let answer = checkpoint(state, log, cp, tail);
        assert_eq!(answer, Answer::refused(Refusal::NotSound));
        buffers.compare(answer);
        let place = inspect(state, &[], log, (1, 1));
        assert_eq!(place, Place::refused(Refusal::NotSound));
        assert!(state == before && self.log == self.server_log);
    }
}
