//! Servings in lockstep: the dispatcher that is left, the answer, and all lent memory.

use super::{Lent, Outputs, Pair};
use crate::dispatcher::Dispatcher;
use second::answer::{Answer, Refusal};
use second::server::Server;

impl Pair {
    /// A serving on the proved side, beside what the other side makes of it; answers the
    /// dispatcher that the proved side leaves.
    pub fn serve(
        &mut self,
        dispatcher: &Dispatcher,
        lent: &Lent,
        outputs: &mut Outputs,
        other: impl FnOnce(&mut Server, usize, &mut [u8], &mut [u8]) -> Answer,
    ) -> (Dispatcher, Answer) {
        outputs.clear();
        let have = dispatcher.serve(
            &mut self.state[..lent.state],
            &mut self.log[..lent.log],
            &mut outputs.have[..lent.out],
        );
        let want = other(
            &mut self.server,
            lent.state,
            &mut self.server_log[..lent.log],
            &mut outputs.want[..lent.out],
        );
        assert_eq!(have.answer(), want, "{dispatcher:02x?}, {:?}", self.server);
        assert!(
            outputs.have == outputs.want,
            "output of a serving: {dispatcher:02x?}"
        );
        let kept = outputs.kept_past(want.written);
        assert!(kept, "past the output of a serving: {dispatcher:02x?}");
        match (want.number, want.written) {
            (0, 0) => self.compare_changed(dispatcher),
            _ => self.compare_kept(dispatcher),
        }
        (have.dispatcher, want)
    }

    /// A serving of the proved side alone, on a buffer that no call leaves: refused with 19, or
    /// with 17 if nobody waits, and all lent memory stays. Answers the dispatcher left.
    pub fn refuses_serving(
        &mut self,
        dispatcher: &Dispatcher,
        state: &mut [u8],
        outputs: &mut Outputs,
    ) -> Dispatcher {
        let before = state.to_vec();
        outputs.clear();
        let have = dispatcher.serve(state, &mut self.log[..self.room], &mut outputs.have);
        let due = match dispatcher.waiting() {
            [] => Refusal::Unknown,
            _ => Refusal::NotSound,
        };
        assert_eq!(have.answer(), Answer::refused(due), "{dispatcher:02x?}");
        assert!(
            state == before && self.log == self.server_log,
            "{dispatcher:02x?}"
        );
        assert!(outputs.kept_past(0), "{dispatcher:02x?}");
        have.dispatcher
    }
}
