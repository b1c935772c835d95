//! A desk of a schedule: a client, or a controller of a lock.

use crate::answer::Refusal;
use crate::client::{Client, Made, Received};
use crate::faults::FaultyChamber;
use std::ops::Deref;

#[derive(Clone, PartialEq, Eq, Debug)]
pub(super) enum Desk {
    Plain(Client),
    Controller(FaultyChamber),
}

impl Deref for Desk {
    type Target = Client;

    fn deref(&self) -> &Client {
        match self {
            Desk::Plain(client) => client,
            Desk::Controller(chamber) => &chamber.client,
        }
    }
}

impl Desk {
    pub(super) fn issue(&mut self, op: u32, point: u32, argument: i32) -> Made {
        match self {
            Desk::Plain(client) => client.issue(op, point, argument),
            Desk::Controller(chamber) => chamber.issue(op, point, argument),
        }
    }

    pub(super) fn resend(&self, call: u32) -> Made {
        match self {
            Desk::Plain(client) => client.resend(call),
            Desk::Controller(chamber) => chamber.resend(call),
        }
    }

    pub(super) fn receive(&mut self, packet: &[u8]) -> Result<Received, Refusal> {
        match self {
            Desk::Plain(client) => client.receive(packet),
            Desk::Controller(chamber) => chamber.receive(packet),
        }
    }
}
