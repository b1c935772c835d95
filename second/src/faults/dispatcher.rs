//! The faults of request 8 at a dispatcher: whom it serves next, whom it lets wait, and
//! what it keeps after a serving.

use super::Fault;
use crate::answer::{Answer, Refusal};
use crate::dispatcher::{Dispatcher, WAITING_MAX};
use crate::packet::parse_request;

/// A dispatcher, or one with a fault around its calls.
#[derive(Clone, PartialEq, Eq, Debug)]
pub struct FaultyDispatcher {
    dispatcher: Dispatcher,
    fault: Option<Fault>,
}

impl FaultyDispatcher {
    pub fn new(fault: Option<Fault>) -> FaultyDispatcher {
        FaultyDispatcher {
            dispatcher: Dispatcher::new(),
            fault,
        }
    }

    pub fn enqueue(&mut self, packet: &[u8]) -> Result<(), Refusal> {
        let answer = self.dispatcher.enqueue(packet);
        let Some(request) = parse_request(packet) else {
            return answer;
        };
        let waiting = &mut self.dispatcher.waiting;
        let full = waiting.len() == WAITING_MAX;
        match (self.fault, answer) {
            (Some(Fault::TwoPlaces), Err(Refusal::AlreadyWaiting)) if !full => {
                waiting.push_back(request);
                Ok(())
            }
            (Some(Fault::NewerStays), Err(Refusal::AlreadyWaiting)) => {
                let older = waiting.iter_mut().filter(|r| r.client == request.client);
                older.for_each(|older| *older = request);
                answer
            }
            (Some(Fault::LastPlaceUnused), Ok(())) if full => {
                waiting.pop_back();
                Err(Refusal::ClientsFull)
            }
            _ => answer,
        }
    }

    pub fn serve_by(&mut self, request: impl FnOnce(&[u8]) -> Answer) -> Answer {
        self.choose();
        let first = self.dispatcher.waiting.front().copied();
        let answer = self.dispatcher.serve_by(request);
        let waiting = &mut self.dispatcher.waiting;
        match (self.fault, first) {
            (Some(Fault::PlaceKept), Some(first)) if answer.number != 0 => {
                waiting.push_front(first);
            }
            (Some(Fault::NextDropped), _) => drop(waiting.pop_front()),
            _ => {}
        }
        answer
    }

    /// Puts the one that a fault serves next before the others.
    fn choose(&mut self) {
        let waiting = &mut self.dispatcher.waiting;
        let places = 0..waiting.len();
        let next = match self.fault {
            Some(Fault::LastComeFirst) => places.last(),
            Some(Fault::LowestFirst) => places.min_by_key(|&place| waiting[place].client),
            _ => None,
        };
        if let Some(request) = next.and_then(|place| waiting.remove(place)) {
            waiting.push_front(request);
        }
    }
}
