//! Beside each server runs a shadow that never makes a checkpoint: its log is the whole one
//! since founding, in a space larger by the bytes that the server's checkpoints replaced.
//! Every answer and packet must be equal, and so must the states, with each place in the
//! log seen from the start of the server's own.

use super::{Cabinet, World, FILL};
use crate::answer::Answer;
use crate::checkpoint::parse_checkpoint;
use crate::faults::Faulty;
use crate::image::IMAGE_MAX;
use crate::record::HEAD_LEN;
use crate::server::{Server, BEFORE_THIS_LOG, STATE_LEN};

pub(super) struct Shadow {
    pub(super) server: Faulty,
    pub(super) log: Vec<u8>,
}

/// What differs from the shadow, or from what a state or a checkpoint must be.
#[derive(Clone, Copy, PartialEq, Eq, Debug)]
pub enum Differs {
    Answer,
    State,
    /// The state that a call left is not sound.
    Unsound,
    /// The checkpoint does not give the state that it was made of.
    ReadBack,
    /// Recovery from what a crash kept.
    Recovery,
    /// Another completion record, or another place, than the state says.
    Inspected,
}

#[derive(Clone, Copy, PartialEq, Eq, Debug)]
pub struct Difference {
    /// Place in the schedule.
    pub place: u32,
    pub differs: Differs,
}

impl Shadow {
    pub(super) fn new(log_len: usize) -> Shadow {
        Shadow {
            server: Faulty::new(None),
            log: vec![FILL; log_len],
        }
    }

    pub(super) fn crash(&mut self, kept: u64) {
        self.server = Faulty::new(None);
        self.log[kept as usize..].fill(FILL);
    }
}

/// The state as one sees it whose log begins behind the bytes replaced.
fn seen_from(server: &Server, replaced: u64) -> Server {
    let mut seen = server.clone();
    seen.length = seen.length.saturating_sub(replaced);
    seen.mark = seen.mark.saturating_sub(replaced);
    seen.relabel(|end| end.saturating_sub(replaced).max(BEFORE_THIS_LOG));
    seen
}

impl Cabinet {
    fn state_differs(&self) -> Option<Differs> {
        let shadow = self.shadow.as_ref()?;
        if shadow.server.sound() && !self.server.sound() {
            return Some(Differs::Unsound);
        }
        let same = *self.server == seen_from(&shadow.server, self.stored.replaced);
        (!same).then_some(Differs::State)
    }

    /// What a checkpoint was answered, its buffers and the state that it left.
    fn checkpoint_differs(&self, answer: Answer, (to, tail): (&[u8], &[u8])) -> Option<Differs> {
        let shadow = self.shadow.as_ref()?;
        let head = match answer.number {
            0 => HEAD_LEN,
            _ => 0,
        };
        let kept = |bytes: &[u8]| bytes.iter().all(|&b| b == FILL);
        if !kept(&to[answer.written..]) || !kept(&tail[head..]) {
            return Some(Differs::Answer);
        }
        let unsynced = shadow.server.mark < shadow.server.length;
        match answer.number {
            0 if unsynced => return Some(Differs::Answer),
            0 => {}
            7 if !unsynced => return Some(Differs::Answer),
            _ => return self.state_differs(),
        }
        let expected = shadow.server.rebased();
        if !self.server.sound() {
            Some(Differs::Unsound)
        } else if parse_checkpoint(to).as_ref() != Some(&expected) {
            Some(Differs::ReadBack)
        } else {
            (*self.server != expected).then_some(Differs::State)
        }
    }
}

impl World<'_> {
    pub(super) fn differ(&mut self, differs: Option<Differs>) {
        let place = self.place;
        if let (None, Some(differs)) = (self.difference, differs) {
            self.difference = Some(Difference { place, differs });
        }
    }

    /// Makes the server's call at its shadow. Lengths lent are those of state, log and
    /// output. After a first difference there is nothing more to compare.
    pub(super) fn call_shadow(
        &mut self,
        cabinet: usize,
        (state_len, log_len, output_len): (usize, usize, usize),
        (answer, output): (Answer, &[u8; IMAGE_MAX]),
        call: impl FnOnce(&mut Faulty, usize, &mut [u8], &mut [u8], Option<u64>) -> Answer,
    ) {
        let c = &mut self.cabinets[cabinet];
        let Some(shadow) = c.shadow.as_mut().filter(|_| self.difference.is_none()) else {
            return;
        };
        let replaced = c.stored.replaced;
        let mut own = [FILL; IMAGE_MAX];
        let shadow_answer = call(
            &mut shadow.server,
            state_len,
            &mut shadow.log[..log_len + replaced as usize],
            &mut own[..output_len],
            Some(replaced),
        );
        let same = shadow_answer == answer && own == *output;
        let differs = match same {
            true => c.state_differs(),
            false => Some(Differs::Answer),
        };
        self.differ(differs);
    }

    /// What recovery gives from what a crash kept, and what the shadow's gives from the
    /// whole log up to there.
    pub(super) fn compare_recovery(&mut self, cabinet: usize, kept: u64, reach: u64) {
        let c = &self.cabinets[cabinet];
        let Some(shadow) = c.shadow.as_ref().filter(|_| self.difference.is_none()) else {
            return;
        };
        let whole = &shadow.log[..reach as usize];
        let mut expected = Server::new();
        let answer = expected.recover(STATE_LEN, whole, &self.plan);
        let state = self.recovered(cabinet, kept);
        let expected = seen_from(&expected, c.stored.replaced);
        let same = answer == Answer::DONE && state == Some(expected);
        self.differ((!same).then_some(Differs::Recovery));
    }

    /// The whole log since founding, of a cabinet that runs beside a shadow.
    pub fn whole_log(&self, cabinet: usize) -> Option<&[u8]> {
        let shadow = self.cabinets[cabinet].shadow.as_ref()?;
        Some(&shadow.log[..shadow.server.length as usize])
    }

    pub(super) fn compare_checkpoint(
        &mut self,
        cabinet: usize,
        answer: Answer,
        buffers: (&[u8], &[u8]),
    ) {
        let differs = self.cabinets[cabinet].checkpoint_differs(answer, buffers);
        self.differ(differs);
    }
}
