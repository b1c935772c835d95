//! Paper 01, "Operations and their numbers": the desk (client) with its start,
//! issue, resend and receive.

use crate::answer::Refusal;
use crate::packet::{
    parse_grant, parse_packet, write_request, Grant, Packet, RefusalPacket, Reply, Request,
    REQUEST_LEN, WINDOW,
};
use crate::plan::POINTS;
use crate::rule::{Effect, Op};

#[derive(Clone, Copy, PartialEq, Eq, Debug)]
pub struct OpenCall {
    pub op: Op,
    pub point: u8,
    pub argument: i32,
}

impl OpenCall {
    /// A command as a request may carry it.
    pub fn new(op: u32, point: u32, argument: i32) -> Option<OpenCall> {
        let op = Op::from_byte(u8::try_from(op).ok()?)?;
        let ok = (point as usize) < POINTS && op.accepts(argument);
        ok.then_some(OpenCall {
            op,
            point: point as u8,
            argument,
        })
    }
}

#[derive(Clone, PartialEq, Eq, Debug)]
pub struct Client {
    pub client: u32,
    pub lease_end: u32,
    /// Next call number.
    pub next: u32,
    /// First open call, `next` if none is open.
    pub first: u32,
    /// Open calls, at call mod 16.
    pub open: [Option<OpenCall>; WINDOW as usize],
}

/// What a desk received.
#[derive(Clone, Copy, PartialEq, Eq, Debug)]
pub enum Received {
    /// The result that closed the call.
    Result {
        call: u32,
        effect: Effect,
        /// Time of execution, 0 if the packet has none.
        time: u32,
    },
    Refusal(u8),
    Grant(u32),
}

/// What issue and resend give: a request's packet, or a refusal.
pub type Made = Result<[u8; REQUEST_LEN], Refusal>;

impl Client {
    /// Start.
    pub fn start(packet: &[u8]) -> Result<Client, Refusal> {
        let grant = parse_grant(packet).ok_or(Refusal::Malformed)?;
        Ok(Client {
            client: grant.client,
            lease_end: grant.lease_end,
            next: 1,
            first: 1,
            open: [None; WINDOW as usize],
        })
    }

    pub fn open_call(&self, call: u32) -> Option<OpenCall> {
        if call < self.first || call >= self.next {
            return None;
        }
        self.open[slot(call)]
    }

    pub fn issue(&mut self, op: u32, point: u32, argument: i32) -> Made {
        let command = OpenCall::new(op, point, argument).ok_or(Refusal::Malformed)?;
        if self.next - self.first >= WINDOW {
            return Err(Refusal::WindowFull);
        }
        if self.next == u32::MAX {
            return Err(Refusal::NumberSpent);
        }
        let call = self.next;
        self.open[slot(call)] = Some(command);
        self.next += 1;
        Ok(self.packet(call, &command))
    }

    pub fn resend(&self, call: u32) -> Made {
        let command = self.open_call(call).ok_or(Refusal::Unknown)?;
        Ok(self.packet(call, &command))
    }

    pub fn receive(&mut self, packet: &[u8]) -> Result<Received, Refusal> {
        match parse_packet(packet) {
            Some(Packet::Result(reply)) => self.receive_result(&reply),
            Some(Packet::Refusal(refusal)) => self.receive_refusal(&refusal),
            Some(Packet::Grant(grant)) => self.receive_grant(&grant),
            _ => Err(Refusal::Malformed),
        }
    }

    fn packet(&self, call: u32, command: &OpenCall) -> [u8; REQUEST_LEN] {
        write_request(&Request {
            op: command.op,
            point: command.point,
            client: self.client,
            call,
            done: self.first,
            lease_end: self.lease_end,
            argument: command.argument,
        })
    }

    fn test_open(&self, client: u32, call: u32, point: u8) -> Result<(), Refusal> {
        match self.open_call(call) {
            Some(command) if self.client == client && command.point == point => Ok(()),
            _ => Err(Refusal::Unknown),
        }
    }

    fn receive_result(&mut self, reply: &Reply) -> Result<Received, Refusal> {
        self.test_open(reply.client, reply.call, reply.point)?;
        self.close(reply.call);
        Ok(Received::Result {
            call: reply.call,
            effect: Effect {
                outcome: reply.outcome,
                value: reply.value,
                quality: reply.quality,
            },
            time: reply.time,
        })
    }

    fn receive_refusal(&self, refusal: &RefusalPacket) -> Result<Received, Refusal> {
        self.test_open(refusal.client, refusal.call, refusal.point)?;
        Ok(Received::Refusal(refusal.number))
    }

    fn receive_grant(&mut self, grant: &Grant) -> Result<Received, Refusal> {
        if grant.client != self.client || grant.lease_end < self.lease_end {
            return Err(Refusal::Unknown);
        }
        self.lease_end = grant.lease_end;
        Ok(Received::Grant(grant.lease_end))
    }

    fn close(&mut self, call: u32) {
        self.open[slot(call)] = None;
        while self.first < self.next && self.open[slot(self.first)].is_none() {
            self.first += 1;
        }
    }
}

fn slot(call: u32) -> usize {
    (call % WINDOW) as usize
}
