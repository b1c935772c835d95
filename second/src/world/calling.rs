//! A call at a cabinet, and at its shadow.

use super::{Cabinet, Phase, World, FILL};
use crate::answer::{Answer, Refusal};
use crate::faults::Faulty;
use crate::image::IMAGE_MAX;
use crate::record::HEAD_LEN;
use crate::schedule::Flaw;
use crate::server::{Server, STATE_LEN};

impl World<'_> {
    /// Calls a cabinet with its slices, or with one of them too short.
    pub(super) fn call(
        &mut self,
        cabinet: usize,
        flaw: Flaw,
        needed: usize,
        call: impl Fn(&mut Faulty, usize, &mut [u8], &mut [u8]) -> Answer,
    ) -> (Answer, [u8; IMAGE_MAX]) {
        self.call_by_places(cabinet, flaw, needed, |s, len, log, out, _| {
            call(s, len, log, out)
        })
    }

    /// A call that names places in the log: it is told the bytes replaced when it is made
    /// at the server's shadow.
    pub(super) fn call_by_places(
        &mut self,
        cabinet: usize,
        flaw: Flaw,
        needed: usize,
        call: impl Fn(&mut Faulty, usize, &mut [u8], &mut [u8], Option<u64>) -> Answer,
    ) -> (Answer, [u8; IMAGE_MAX]) {
        let c = &mut self.cabinets[cabinet];
        let before = self
            .options
            .verify
            .then(|| (Server::clone(&c.server), c.log.clone()));
        let mut output = [FILL; IMAGE_MAX];
        let lens = lent(flaw, c, needed);
        let (log, out) = (&mut c.log[..lens.1], &mut output[..lens.2]);
        let answer = call(&mut c.server, lens.0, log, out, None);
        if let Some((server, log)) = before {
            verify(c, &server, &log, answer, &output);
        }
        self.counts.steps += 1;
        self.counts.refusals[answer.number as usize] += 1;
        self.call_shadow(cabinet, lens, (answer, &output), call);
        (answer, output)
    }
}

/// Lengths of state, log and output lent under a flaw.
pub(super) fn lent(flaw: Flaw, c: &Cabinet, needed: usize) -> (usize, usize, usize) {
    let recorded = match c.phase {
        Phase::New => HEAD_LEN,
        _ => c.server.length as usize,
    };
    let whole = c.log.len();
    match flaw {
        Flaw::None => (STATE_LEN, whole, needed),
        Flaw::State => (STATE_LEN - 1, whole, needed),
        Flaw::Log => (STATE_LEN, recorded - 1, needed),
        Flaw::Output => (STATE_LEN, whole, needed.saturating_sub(1)),
    }
}

/// The state is sound, and only what the call may write has changed.
fn verify(c: &Cabinet, server: &Server, log: &[u8], answer: Answer, output: &[u8]) {
    assert!(
        output[answer.written..].iter().all(|&b| b == FILL),
        "bytes past what is written are kept"
    );
    if answer.number == 0 {
        assert!(c.server.sound(), "a call not refused leaves a sound state");
        let length = c.server.length as usize;
        assert_eq!(c.log[length..], log[length..], "bytes past the log's end");
        return;
    }
    assert!(Refusal::ALL.iter().any(|r| r.number() == answer.number));
    assert!(*c.server == *server, "a refusal leaves the state");
    assert!(c.log == log, "a refusal leaves the log");
}
