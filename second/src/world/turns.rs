//! Request 8 of paper 02: beside each dispatcher an account of who waits there, kept from
//! what it answered and handed over alone, and whether each turn was fair.

use crate::dispatcher::WAITING_MAX;
use crate::packet::parse_request;

/// What an account finds wrong.
#[derive(Clone, Copy, PartialEq, Eq, Debug)]
pub enum Unfair {
    /// A serving handed over another request than the one that came first, or none
    /// although one waits.
    OutOfTurn,
    /// A request still waits after 32 servings.
    TooLong,
    /// A client that waits was let wait again.
    Twice,
    /// A request was let wait, or refused with a number, where another answer is due.
    Number,
}

#[derive(Clone, PartialEq, Eq, Debug)]
struct Waiting {
    client: u32,
    packet: Vec<u8>,
    /// Servings since it came.
    servings: u32,
}

/// First come first.
#[derive(Clone, PartialEq, Eq, Debug, Default)]
pub(super) struct Account {
    waiting: Vec<Waiting>,
}

impl Account {
    pub(super) fn waiting(&self) -> u64 {
        self.waiting.len() as u64
    }

    /// The number that is due for a packet: 1, 21, 8 or 0.
    fn due(&self, packet: &[u8]) -> u32 {
        let Some(request) = parse_request(packet) else {
            return 1;
        };
        let waits = |w: &Waiting| w.client == request.client;
        match self.waiting.iter().any(waits) {
            true => 21,
            false if self.waiting.len() == WAITING_MAX => 8,
            false => 0,
        }
    }

    /// A packet was answered so.
    pub(super) fn enqueued(&mut self, packet: &[u8], number: u32) -> Option<Unfair> {
        let due = self.due(packet);
        if let (0, Some(request)) = (number, parse_request(packet)) {
            self.waiting.push(Waiting {
                client: request.client,
                packet: packet.to_vec(),
                servings: 0,
            });
        }
        match (due, number) {
            (21, 0) => Some(Unfair::Twice),
            _ => (due != number).then_some(Unfair::Number),
        }
    }

    /// A serving handed this packet over, or none: how many servings it waited, its own
    /// counted in, and what was unfair.
    pub(super) fn served(&mut self, handed: Option<&[u8]>) -> (Option<u32>, Vec<Unfair>) {
        self.waiting.iter_mut().for_each(|w| w.servings += 1);
        let mut unfair = Vec::new();
        if self.waiting.first().map(|w| &w.packet[..]) != handed {
            unfair.push(Unfair::OutOfTurn);
        }
        let place = (self.waiting.iter()).position(|w| Some(&w.packet[..]) == handed);
        let waited = place.map(|place| self.waiting.remove(place).servings);
        let limit = WAITING_MAX as u32;
        let stays = self.waiting.iter().any(|w| w.servings >= limit);
        if stays || waited.is_some_and(|waited| waited > limit) {
            unfair.push(Unfair::TooLong);
        }
        (waited, unfair)
    }
}
