//! The client: random sequences of calls, the same answers, packets and fields
//! after every step.

use crate::desk::{address, drive, grant, refusal_class, resend_class, Calls, Shares};
use compare::inputs;
use compare::tally::Tally;
use compare::{other, proved};
use second::client::Client;
use second::packet::parse_packet;
use second::random::Random;

const CLASSES: [&str; 24] = [
    "start",
    "start: 1",
    "issue",
    "issue: 1, op",
    "issue: 1, point",
    "issue: 1, argument",
    "issue: 15",
    "issue: 16",
    "resend",
    "resend: 17, not yet issued",
    "resend: 17, closed",
    "resend: 17, call 0",
    "receive: a result",
    "receive: an untimed result",
    "receive: a refusal",
    "receive: a later lease end",
    "receive: the same lease end",
    "receive: 1, malformed",
    "receive: 1, request, receipt or notice",
    "receive: 17, other client",
    "receive: 17, not yet issued",
    "receive: 17, closed",
    "receive: 17, other point",
    "receive: 17, earlier lease end",
];

/// A client of both programs.
struct Pair {
    have: proved::Client,
    want: Client,
}

impl Pair {
    /// Started by the same grant; some near their last numbers.
    fn start(random: &mut Random, tally: &mut Tally) -> Pair {
        loop {
            let packet = grant(random, 30);
            let reply = proved::Client::start(&packet);
            let (client, number) = other::start(&packet);
            assert_eq!(reply.number, number, "start {packet:02x?}");
            let Some(want) = client else {
                tally.meet("start: 1");
                continue;
            };
            tally.meet("start");
            let mut pair = Pair {
                have: reply.client,
                want,
            };
            pair.compare("start");
            if random.chance(20) {
                pair.skip_to(u32::MAX - random.below(40));
            }
            return pair;
        }
    }

    /// As if all calls below `next` had been issued and closed.
    fn skip_to(&mut self, next: u32) {
        self.have.next = next;
        self.want.next = next;
        self.want.first = next;
    }

    fn compare(&self, step: &str) {
        assert_eq!(self.have, other::client_fields(&self.want), "{step}");
        let calls = self.have.calls.iter().map(|c| c.call);
        let first = calls.filter(|&c| c != 0).min();
        assert_eq!(self.want.first, first.unwrap_or(self.have.next), "{step}");
    }

    /// Often an open call, else one near them.
    fn call(&self, random: &mut Random) -> u32 {
        let (first, next) = (self.want.first, self.want.next);
        match random.below(12) {
            0 => 0,
            1 => next.saturating_add(random.below(3)),
            2 => first.saturating_sub(1 + random.below(20)),
            3 => inputs::number(random),
            _ if first < next => first + random.below(next - first),
            _ => next,
        }
    }

    fn issue(&mut self, random: &mut Random, tally: &mut Tally) {
        let (op, argument) = inputs::op_argument(random);
        let (mut op, mut argument) = (op as u32, argument);
        let mut point = random.below(64);
        match random.below(30) {
            0 => op = 6 + random.below(600),
            1 => point = 64 + random.below(600),
            2 => argument = inputs::signed(random),
            3 => (op, point) = (inputs::number(random), inputs::number(random)),
            _ => {}
        }
        let have = self.have.issue(op, point, argument);
        let want = other::sent(self.want.issue(op, point, argument));
        assert_eq!(have, want, "issue {op} {point} {argument}");
        tally.meet(match have.number {
            0 => "issue",
            15 => "issue: 15",
            16 => "issue: 16",
            _ if op > 5 => "issue: 1, op",
            _ if point > 63 => "issue: 1, point",
            _ => "issue: 1, argument",
        });
    }

    fn resend(&mut self, random: &mut Random, tally: &mut Tally) {
        let call = self.call(random);
        let have = self.have.resend(call);
        let want = other::sent(self.want.resend(call));
        assert_eq!(have, want, "resend {call}");
        tally.meet(resend_class(&self.want, call, have.number));
    }

    /// A packet to this client, or a hostile one.
    fn packet(&self, random: &mut Random, bytes: &mut Vec<u8>) {
        let mut to = self.want.clone();
        if random.below(20) == 0 {
            to.client = inputs::at_least_1(random);
        }
        let call = self.call(random);
        let point = match to.open_call(call) {
            Some(open) if random.chance(95) => open.point,
            _ => random.below(64) as u8,
        };
        let kind = match random.below(20) {
            0 => 1 + random.below(7),
            1..=5 => 3,
            6..=9 => 6,
            10..=12 => 2,
            _ => 7,
        };
        let mut packet = inputs::packet_of_kind(random, kind);
        address(random, &mut packet, &to, call, point);
        *bytes = inputs::packet_bytes(&packet, kind);
        match random.below(20) {
            0 | 1 => inputs::damage(random, bytes),
            2 => inputs::string(random, 30, bytes),
            _ => {}
        }
    }

    fn receive(&mut self, random: &mut Random, tally: &mut Tally, bytes: &mut Vec<u8>) {
        self.packet(random, bytes);
        let before = self.want.clone();
        let have = self.have.receive(bytes);
        let want = other::receive(&mut self.want, bytes);
        assert_eq!(have, want, "receive {bytes:02x?} at {before:?}");
        tally.meet(match (have.kind, parse_packet(bytes)) {
            (7, _) if bytes[0] == 2 => "receive: an untimed result",
            (7, _) => "receive: a result",
            (3, _) => "receive: a refusal",
            (6, _) if have.lease > before.lease_end => "receive: a later lease end",
            (6, _) => "receive: the same lease end",
            (_, None) => "receive: 1, malformed",
            (_, Some(packet)) => refusal_class(&before, have.number, &packet, |_| {
                "receive: 17, other point"
            }),
        });
    }
}

#[test]
fn client() {
    let shares = Shares {
        issues: 38,
        resends: 13,
        starts: 1,
    };
    let calls = Calls {
        start: Pair::start,
        issue: Pair::issue,
        resend: Pair::resend,
        receive: Pair::receive,
        compare: Pair::compare,
    };
    drive("client", &CLASSES, shares, calls);
}
