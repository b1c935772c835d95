//! Paper 02, request 8: the dispatcher above a cabinet (server), a queue of requests with
//! at most one for each desk (client). A serving hands the oldest to Request. It is no part
//! of the server's state: a host that loses it has lost the packets in it, no more.

use crate::answer::{Answer, Refusal};
use crate::packet::{parse_request, write_request, Request};
use crate::server::Server;
use std::collections::VecDeque;

/// Requests that wait at the most, and so the servings within which each is handed over.
pub const WAITING_MAX: usize = 32;

#[derive(Clone, PartialEq, Eq, Debug)]
pub struct Dispatcher {
    /// First come first; no client twice.
    pub waiting: VecDeque<Request>,
}

impl Default for Dispatcher {
    fn default() -> Dispatcher {
        Dispatcher::new()
    }
}

impl Dispatcher {
    /// Nobody waits. Room for all is set aside here.
    pub fn new() -> Dispatcher {
        Dispatcher {
            waiting: VecDeque::with_capacity(WAITING_MAX),
        }
    }

    pub fn waits(&self, client: u32) -> bool {
        self.waiting.iter().any(|r| r.client == client)
    }

    /// The request waits behind all others. Malformed is what Request finds malformed, a
    /// packet of another kind included; a client that waits keeps its older packet.
    pub fn enqueue(&mut self, packet: &[u8]) -> Result<(), Refusal> {
        let request = parse_request(packet).ok_or(Refusal::Malformed)?;
        if self.waits(request.client) {
            return Err(Refusal::AlreadyWaiting);
        }
        if self.waiting.len() >= WAITING_MAX {
            return Err(Refusal::ClientsFull);
        }
        self.waiting.push_back(request);
        Ok(())
    }

    /// Hands the first one to the server's Request, whose answer is the serving's.
    pub fn serve(
        &mut self,
        server: &mut Server,
        state_len: usize,
        log: &mut [u8],
        output: &mut [u8],
    ) -> Answer {
        self.serve_by(|packet| server.request(state_len, log, packet, output))
    }

    /// The same with another way to make the request. The place is given up before the
    /// answer is known; from an empty queue nothing is lent on, so no slice is looked at.
    pub fn serve_by(&mut self, request: impl FnOnce(&[u8]) -> Answer) -> Answer {
        match self.waiting.pop_front() {
            Some(first) => request(&write_request(&first)),
            None => Answer::refused(Refusal::Unknown),
        }
    }
}
