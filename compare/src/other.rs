//! The second program's client and lease manager, with answers and fields as
//! `proved` has them.

use crate::proved::{self, LeaseReply, ReceiveReply, SendReply};
use second::answer::Refusal;
use second::client::{Client, Received};
use second::leases::LeaseManager;
use second::packet::{parse_packet, Packet};

/// A signed number kept as x + 2^31.
#[inline]
pub fn unsigned(number: i32) -> u32 {
    (number as u32).wrapping_add(1 << 31)
}

// ---- the client

/// The fields of a client, as `proved` has them.
#[inline]
pub fn client_fields(client: &Client) -> proved::Client {
    let mut calls = [proved::OpenCall {
        call: 0,
        op: 0,
        point: 0,
        argument: 0,
    }; 16];
    for call in client.first..client.next {
        if let Some(open) = client.open_call(call) {
            calls[(call % 16) as usize] = proved::OpenCall {
                call,
                op: open.op as u8,
                point: open.point,
                argument: unsigned(open.argument),
            };
        }
    }
    proved::Client {
        client: client.client,
        lease: client.lease_end,
        next: client.next,
        calls,
    }
}

/// No client where refused.
#[inline]
pub fn start(packet: &[u8]) -> (Option<Client>, u32) {
    match Client::start(packet) {
        Ok(client) => (Some(client), 0),
        Err(refusal) => (None, refusal.number()),
    }
}

#[inline]
pub fn sent(answer: Result<[u8; 24], Refusal>) -> SendReply {
    match answer {
        Ok(packet) => SendReply {
            number: 0,
            call: u32::from_le_bytes([packet[8], packet[9], packet[10], packet[11]]),
            length: 24,
            packet,
        },
        Err(refusal) => SendReply {
            number: refusal.number(),
            call: 0,
            length: 0,
            packet: [0; 24],
        },
    }
}

#[inline]
pub fn receive(client: &mut Client, packet: &[u8]) -> ReceiveReply {
    received(packet, client.receive(packet))
}

/// The second program names neither call nor point of a refusal, nor the point
/// of a result: these are the packet's. A result of either form has kind 7.
#[inline]
pub fn received(packet: &[u8], answer: Result<Received, Refusal>) -> ReceiveReply {
    let (call, point) = match parse_packet(packet) {
        Some(Packet::Result(p)) => (p.call, p.point),
        Some(Packet::Refusal(p)) => (p.call, p.point),
        _ => (0, 0),
    };
    let none = ReceiveReply::default();
    match answer {
        Ok(Received::Result { call, effect, time }) => ReceiveReply {
            kind: 7,
            call,
            value: effect.value,
            point,
            outcome: effect.outcome,
            quality: effect.quality,
            time,
            ..none
        },
        Ok(Received::Refusal(refusal)) => ReceiveReply {
            kind: 3,
            call,
            point,
            refusal,
            ..none
        },
        Ok(Received::Grant(lease)) => ReceiveReply {
            kind: 6,
            lease,
            ..none
        },
        Err(refusal) => ReceiveReply {
            number: refusal.number(),
            ..none
        },
    }
}

// ---- the lease manager

/// Time, latest client number, leases by client.
pub type LeaseFields = (u32, u64, Vec<(u32, u32)>);

#[inline]
pub fn lease_fields(manager: &LeaseManager) -> LeaseFields {
    let leases = manager.leases.iter().map(|l| (l.client, l.end));
    let mut leases: Vec<(u32, u32)> = leases.collect();
    leases.sort_unstable();
    (manager.time, manager.next - 1, leases)
}

impl proved::LeaseManager {
    pub fn fields(&self) -> LeaseFields {
        let taken = self.leases.iter().filter(|l| l.client != 0);
        let mut leases: Vec<(u32, u32)> = taken.map(|l| (l.client, l.lease)).collect();
        leases.sort_unstable();
        (self.time, u64::from(self.issued), leases)
    }
}

#[inline]
pub fn told(answer: Result<[u8; 12], Refusal>) -> LeaseReply {
    match answer {
        Ok(packet) => LeaseReply {
            number: 0,
            kind: u32::from(packet[0]),
            length: 12,
            packet,
        },
        Err(refusal) => LeaseReply {
            number: refusal.number(),
            kind: 0,
            length: 0,
            packet: [0; 12],
        },
    }
}
