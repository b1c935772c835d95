//! What the comparisons of the client and of the lock's controller share: random sequences of
//! their four calls, and the classes of what both answer alike.

use compare::inputs;
use compare::tally::{runs, seed, Tally};
use second::answer::Refusal;
use second::client::Client;
use second::packet::{write_grant, Grant, Packet};
use second::random::Random;

/// The calls of a pair of desks, one of each program.
pub struct Calls<P> {
    pub start: fn(&mut Random, &mut Tally) -> P,
    pub issue: fn(&mut P, &mut Random, &mut Tally),
    pub resend: fn(&mut P, &mut Random, &mut Tally),
    pub receive: fn(&mut P, &mut Random, &mut Tally, &mut Vec<u8>),
    pub compare: fn(&P, &str),
}

/// Of 100 steps about `issues` issue, `resends` resend and `starts` start anew; the others receive.
pub struct Shares {
    pub issues: u32,
    pub resends: u32,
    pub starts: u32,
}

/// Random calls of a pair, compared after each.
pub fn drive<P>(test: &'static str, classes: &'static [&'static str], of: Shares, calls: Calls<P>) {
    let mut random = Random::new(seed());
    let mut tally = Tally::new(test, classes);
    let mut pair = (calls.start)(&mut random, &mut tally);
    let mut bytes = Vec::new();
    for _ in 0..runs() {
        let kind = random.below(100);
        let step = if kind < of.issues {
            (calls.issue)(&mut pair, &mut random, &mut tally);
            "issue"
        } else if kind < of.issues + of.resends {
            (calls.resend)(&mut pair, &mut random, &mut tally);
            "resend"
        } else if kind < 100 - of.starts {
            (calls.receive)(&mut pair, &mut random, &mut tally, &mut bytes);
            "receive"
        } else {
            pair = (calls.start)(&mut random, &mut tally);
            "start"
        };
        (calls.compare)(&pair, step);
    }
    tally.finish();
}

/// A grant, or in so many of 100 cases a damaged packet of any kind.
pub fn grant(random: &mut Random, damaged: u32) -> Vec<u8> {
    if random.chance(damaged) {
        let kind = 1 + random.below(7);
        let packet = inputs::packet_of_kind(random, kind);
        let mut packet = inputs::packet_bytes(&packet, kind);
        inputs::damage(random, &mut packet);
        return packet;
    }
    let grant = Grant {
        client: inputs::at_least_1(random),
        lease_end: inputs::number(random),
    };
    write_grant(&grant).to_vec()
}

/// Makes a packet one to this client, on a call and a point; a grant often ends near the lease end
/// that the client has.
pub fn address(random: &mut Random, packet: &mut Packet, to: &Client, call: u32, point: u8) {
    let (client, end) = (to.client, to.lease_end);
    match packet {
        Packet::Request(p) => p.client = client,
        Packet::Result(p) => (p.client, p.call, p.point) = (client, call, point),
        Packet::Refusal(p) => (p.client, p.call, p.point) = (client, call, point),
        Packet::Receipt(p) => p.point = point,
        Packet::Notice(p) => p.client = client,
        Packet::Grant(p) => {
            p.client = client;
            p.lease_end = match random.below(4) {
                0 => end,
                1 => end.saturating_sub(random.below(3)),
                2 => end.saturating_add(random.below(1000)),
                _ => p.lease_end,
            };
        }
    }
}

/// Of a resend: the call, and the number that it was answered with.
pub fn resend_class(client: &Client, call: u32, number: u32) -> &'static str {
    match number {
        0 => "resend",
        _ if call == 0 => "resend: 17, call 0",
        _ if call >= client.next => "resend: 17, not yet issued",
        _ => "resend: 17, closed",
    }
}

/// Of a well-formed packet that is refused; `other_point` is the class of an open call's result or
/// refusal for the point named.
pub fn refusal_class(
    client: &Client,
    number: u32,
    packet: &Packet,
    other_point: impl Fn(u8) -> &'static str,
) -> &'static str {
    let (to, call, point) = match packet {
        Packet::Result(p) => (p.client, p.call, p.point),
        Packet::Refusal(p) => (p.client, p.call, p.point),
        Packet::Grant(p) if p.client == client.client => return "receive: 17, earlier lease end",
        Packet::Grant(p) => (p.client, 1, 0),
        _ => return "receive: 1, request, receipt or notice",
    };
    assert_eq!(number, Refusal::Unknown.number());
    match client.open_call(call) {
        _ if to != client.client => "receive: 17, other client",
        Some(_) => other_point(point),
        None if call >= client.next => "receive: 17, not yet issued",
        None => "receive: 17, closed",
    }
}
