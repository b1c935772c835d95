//! Checkpoints: made, then stored by the host, which calls nothing else at that server
//! in between.

use super::cabinet::{Phase, Stored};
use super::calling::lent;
use super::{World, FILL};
use crate::checkpoint::CHECKPOINT_LEN;
use crate::record::HEAD_LEN;
use crate::schedule::{Flaw, Party};

impl World<'_> {
    /// The tail's buffer is the next log space itself.
    pub(super) fn checkpoint(&mut self, at: Party, flaw: Flaw) {
        let Some(cabinet) = self.running(at, self.last) else {
            return;
        };
        let (mut checkpoint, mut tail) = self.buffers(flaw);
        let form = self.program(cabinet).form;
        let c = &mut self.cabinets[cabinet];
        if c.phase != Phase::Running {
            return;
        }
        let (mark, length) = (c.server.mark, c.server.length);
        let (state_len, log_len, _) = lent(flaw, c, 0);
        let log = &c.log[..log_len];
        let answer = (c.server).checkpoint_as(form, state_len, log, &mut checkpoint, &mut tail);
        self.counts.steps += 1;
        self.counts.refusals[answer.number as usize] += 1;
        self.counts.storing.unsynced += u64::from(answer.number == 7);
        self.note(|| {
            let number = answer.number;
            format!("checkpoint cabinet {cabinet}, mark {mark} of {length} -> {number}")
        });
        self.compare_checkpoint(cabinet, answer, (&checkpoint, &tail));
        if answer.number == 0 {
            checkpoint.truncate(answer.written);
            self.begin_storing(cabinet, length, checkpoint, tail);
        }
    }

    /// Buffers of checkpoint and tail, one of them too short under a flaw.
    fn buffers(&self, flaw: Flaw) -> (Vec<u8>, Vec<u8>) {
        let lens = match (flaw, self.place % 2) {
            (Flaw::Output, 0) => (CHECKPOINT_LEN, HEAD_LEN - 1),
            (Flaw::Output, _) => (CHECKPOINT_LEN - 1, HEAD_LEN),
            _ => (CHECKPOINT_LEN, self.schedule.log_len),
        };
        (vec![FILL; lens.0], vec![FILL; lens.1])
    }

    fn begin_storing(&mut self, cabinet: usize, length: u64, checkpoint: Vec<u8>, tail: Vec<u8>) {
        let c = &mut self.cabinets[cabinet];
        let to_come = Stored {
            checkpoint,
            replaced: c.stored.replaced + length - HEAD_LEN as u64,
        };
        c.phase = Phase::Storing {
            log: std::mem::replace(&mut c.log, tail),
            length,
            to_come,
        };
        self.counts.storing.made += 1;
    }

    /// Apt is the first cabinet whose checkpoint is being stored.
    pub(super) fn store(&mut self, at: Party) {
        let storing = |c: &super::Cabinet| matches!(c.phase, Phase::Storing { .. });
        let apt = self.cabinets.iter().position(storing);
        let cabinet = self.party(at, apt.unwrap_or(self.last));
        if !storing(&self.cabinets[cabinet]) {
            return;
        }
        let c = &mut self.cabinets[cabinet];
        c.store();
        let replaced = c.stored.replaced;
        if let Some(shadow) = &mut c.shadow {
            let space = self.schedule.log_len + replaced as usize;
            shadow.log.resize(space, FILL);
        }
        self.last = cabinet;
        self.counts.storing.stored += 1;
        self.note(|| format!("store cabinet {cabinet}, {replaced} bytes replaced"));
    }

    /// What recovery is lent beside the log: nothing before the first checkpoint. At times
    /// other bytes stand behind it.
    pub(super) fn lent_checkpoint(&self, cabinet: usize) -> Option<Vec<u8>> {
        let stored = &self.cabinets[cabinet].stored.checkpoint;
        let behind = &[FILL; 5][..(self.place % 6) as usize];
        (!stored.is_empty()).then(|| [stored, behind].concat())
    }

    /// The checkpoint in force; empty before the first.
    pub fn stored(&self, cabinet: usize) -> &[u8] {
        &self.cabinets[cabinet].stored.checkpoint
    }

    /// Counts the surviving executions whose records checkpoints replaced.
    pub(super) fn count_replaced(&mut self) {
        let head = HEAD_LEN as u64;
        let survive = self.executions.iter().filter(|e| e.survives);
        let replaced = |cabinet: usize| self.cabinets[cabinet].stored.replaced;
        let replaced = survive.filter(|e| e.end <= head + replaced(e.cabinet));
        self.counts.storing.replaced = replaced.count() as u64;
    }
}
