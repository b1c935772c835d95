//! One server of both programs, called in lockstep: each call has the same answer,
//! output, log and state on both sides, byte by byte, and behind the state's last
//! completion record the buffer is as before the call.

use crate::kernel::Call;
use crate::states;
use second::answer::{Answer, Refusal};
use second::random::Random;
use second::server::{Server, STATE_LEN};
use std::fmt::Debug;

mod checkpoint;
mod dispatcher;

pub use checkpoint::{Buffers, LentCheckpoint};

/// What stands where nobody wrote.
pub const FILL: u8 = 0xA5;

pub const MALFORMED: u32 = Refusal::Malformed as u32;

/// How much of each slice a call is lent.
pub struct Lent {
    pub state: usize,
    pub log: usize,
    pub out: usize,
}

/// The outputs of both sides, and what they hold before a call.
pub struct Outputs {
    have: Vec<u8>,
    want: Vec<u8>,
    blank: Vec<u8>,
}

impl Outputs {
    pub fn new(length: usize) -> Outputs {
        Outputs {
            have: vec![FILL; length],
            want: vec![FILL; length],
            blank: vec![FILL; length],
        }
    }

    /// What the last call wrote.
    pub fn written(&self, answer: Answer) -> &[u8] {
        &self.want[..answer.written]
    }

    fn clear(&mut self) {
        self.have.copy_from_slice(&self.blank);
        self.want.copy_from_slice(&self.blank);
    }

    /// The proved side has written this much and nothing past it.
    fn kept_past(&self, written: usize) -> bool {
        self.have[written..] == self.blank[written..]
    }
}

pub struct Pair {
    /// The proved server's buffer, and what it held before this call.
    pub state: Vec<u8>,
    pub before: Vec<u8>,
    pub log: Vec<u8>,
    pub server: Server,
    pub server_log: Vec<u8>,
    /// The space for the log.
    pub room: usize,
}

impl Pair {
    /// In this memory; not founded.
    pub fn new(state: Vec<u8>, log: Vec<u8>, room: usize) -> Pair {
        Pair {
            before: state.clone(),
            state,
            server: Server::new(),
            server_log: log.clone(),
            log,
            room,
        }
    }

    /// In a state of its own making, with all of the log's space.
    pub fn of(server: Server, room: usize) -> Pair {
        let mut pair = Pair::new(vec![states::BEHIND; STATE_LEN], vec![FILL; room], room);
        pair.set(server);
        pair
    }

    /// Goes on from this state.
    pub fn set(&mut self, server: Server) {
        self.server = server;
        states::put_buffer(&self.server, &mut self.state);
        states::put_buffer(&self.server, &mut self.before);
    }

    /// Any bytes in the rows past the last completion record, which no call reads.
    pub fn stir(&mut self, random: &mut Random) {
        let from = states::end(&self.server);
        for word in self.state[from..].chunks_mut(8) {
            word.copy_from_slice(&random.next_u64().to_le_bytes()[..word.len()]);
        }
        self.before[from..].copy_from_slice(&self.state[from..]);
    }

    pub fn whole(&self, outputs: &Outputs) -> Lent {
        Lent {
            state: STATE_LEN,
            log: self.room,
            out: outputs.have.len(),
        }
    }

    pub fn length(&self) -> usize {
        self.server.length as usize
    }

    /// With whole slices.
    pub fn run(&mut self, call: &Call, outputs: &mut Outputs) -> Answer {
        let lent = self.whole(outputs);
        self.call(call, &lent, outputs)
    }

    /// The call on both sides, and all lent memory compared.
    pub fn call(&mut self, call: &Call, lent: &Lent, outputs: &mut Outputs) -> Answer {
        let want = self.answer(call, lent, outputs);
        self.compare(call, want);
        want
    }

    /// The call on both sides, answers and outputs compared. For many calls that change
    /// the state, with `compare` after them.
    pub fn answer(&mut self, call: &Call, lent: &Lent, outputs: &mut Outputs) -> Answer {
        outputs.clear();
        let have = call.proved(
            &mut self.state[..lent.state],
            &mut self.log[..lent.log],
            &mut outputs.have[..lent.out],
        );
        let want = call.second(
            &mut self.server,
            lent.state,
            &mut self.server_log[..lent.log],
            &mut outputs.want[..lent.out],
        );
        assert_eq!(have, want, "{call:02x?}, {:?}", self.server);
        assert!(outputs.have == outputs.want, "output: {call:02x?}");
        let kept = outputs.kept_past(want.written);
        assert!(kept, "past output: {call:02x?}");
        want
    }

    /// Logs and states after this call, with its answer. A call refused, or one that only
    /// reads, leaves the buffer as it was.
    pub fn compare(&mut self, call: &Call, want: Answer) {
        match (want.number, want.written) {
            (0, 0) => self.compare_changed(call),
            _ => self.compare_kept(call),
        }
    }

    fn compare_kept(&self, call: &dyn Debug) {
        assert!(self.log == self.server_log, "log: {call:02x?}");
        assert!(self.state == self.before, "state changed: {call:02x?}");
    }

    fn compare_changed(&mut self, call: &dyn Debug) {
        assert!(self.log == self.server_log, "log: {call:02x?}");
        states::put_buffer(&self.server, &mut self.before);
        assert!(
            self.state == self.before,
            "state: {call:02x?}, {:?}",
            self.server
        );
    }

    /// The proved server's buffer has any content, as after a crash.
    pub fn forget(&mut self, junk: u8) {
        self.state.fill(junk);
        self.before.fill(junk);
    }

    /// A call of the proved server alone, on this buffer, which no call leaves: it
    /// is refused with 19, and all lent memory stays.
    pub fn refuses(&mut self, call: &Call, state: &mut [u8], outputs: &mut Outputs) {
        let before = state.to_vec();
        outputs.clear();
        let answer = call.proved(state, &mut self.log[..self.room], &mut outputs.have);
        assert_eq!(answer, Answer::refused(Refusal::NotSound), "{call:02x?}");
        assert!(
            state == before && self.log == self.server_log,
            "{call:02x?}"
        );
        assert!(outputs.kept_past(0), "{call:02x?}");
    }
}
