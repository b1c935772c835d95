//! The controller of a lock chamber: random sequences of calls, the same answers, packets
//! and fields after every step. Its reads are often those that an opening needs, or miss
//! one condition alone.

use crate::desk::{address, drive, grant, refusal_class, resend_class, Calls, Shares};
use compare::tally::Tally;
use compare::{chamber, inputs, other};
use second::chamber::{is_opening, levels_beside, other_gate, Chamber, LatestRead, GATES};
use second::packet::{parse_packet, write_grant, Grant, Packet, Reply};
use second::random::Random;
use second::rule::{Op, BY_HAND, INVALID, VALID};

const CLASSES: [&str; 55] = [
    "start",
    "start: 1, packet",
    "start: 1, point over 63",
    "start: 1, same points",
    "issue: a read of a gate",
    "issue: a read of a level",
    "issue: set 0",
    "issue: an opening of the upper gate",
    "issue: an opening of the lower gate",
    "issue: an opening by part",
    "issue: an opening, levels 5 apart",
    "issue: an opening, the other gate by hand",
    "issue: an opening, the second level read first",
    "issue: 1, op",
    "issue: 1, point",
    "issue: 1, argument",
    "issue: 1, point not of the lock",
    "issue: 1, op not for a gate",
    "issue: 1, op not for a level",
    "issue: 15",
    "issue: 15, an opening whose conditions fail",
    "issue: 20, other gate not read",
    "issue: 20, other gate read before the last set or part",
    "issue: 20, other gate not 0",
    "issue: 20, other gate invalid",
    "issue: 20, level not read",
    "issue: 20, level read before the other gate",
    "issue: 20, level invalid",
    "issue: 20, level by hand",
    "issue: 20, levels 6 apart",
    "issue: 20, levels apart by 2^31 or more",
    "issue: 20, levels apart",
    "issue: 20, several conditions",
    "issue: 20, numbers spent",
    "issue: 16",
    "issue: 16, an opening",
    "resend",
    "resend: 17, not yet issued",
    "resend: 17, closed",
    "resend: 17, call 0",
    "receive: a read",
    "receive: a read, untimed",
    "receive: a set or part",
    "receive: a read with an outcome over 0",
    "receive: a refusal",
    "receive: a later lease end",
    "receive: the same lease end",
    "receive: 1, malformed",
    "receive: 1, request, receipt or notice",
    "receive: 17, other client",
    "receive: 17, not yet issued",
    "receive: 17, closed",
    "receive: 17, other point",
    "receive: 17, earlier lease end",
    "receive: 17, other point of the lock",
];

/// A controller of both programs.
#[derive(Clone)]
struct Pair {
    have: chamber::Chamber,
    want: Chamber,
    /// Around which the levels lie.
    level: i32,
}

impl Pair {
    /// Started by the same grant; some near their last numbers.
    fn start(random: &mut Random, tally: &mut Tally) -> Pair {
        loop {
            let packet = grant(random, 20);
            let points = five(random);
            let reply = chamber::Chamber::start(&packet, points);
            let (want, number) = chamber::start(&packet, points);
            assert_eq!(reply.number, number, "start {packet:02x?} {points:?}");
            let Some(want) = want else {
                let grant = matches!(parse_packet(&packet), Some(Packet::Grant(_)));
                tally.meet(match points.iter().any(|&p| p > 63) {
                    _ if !grant => "start: 1, packet",
                    true => "start: 1, point over 63",
                    false => "start: 1, same points",
                });
                continue;
            };
            tally.meet("start");
            let level = match random.below(3) {
                0 => inputs::signed(random),
                1 => *random.pick(&[i32::MIN, i32::MAX]),
                _ => random.between(-10, 10),
            };
            let mut pair = Pair {
                have: reply.chamber,
                want,
                level,
            };
            pair.compare("start");
            if random.chance(40) {
                pair.skip_to(u32::MAX - random.below(40));
            }
            return pair;
        }
    }

    /// As if all calls below `next` had been issued and closed.
    fn skip_to(&mut self, next: u32) {
        self.have.client.next = next;
        self.want.client.next = next;
        self.want.client.first = next;
    }

    fn compare(&self, step: &str) {
        assert_eq!(self.have, chamber::fields(&self.want), "{step}");
    }

    /// Mostly the open call, else one near it.
    fn call(&self, random: &mut Random) -> u32 {
        let (first, next) = (self.want.client.first, self.want.client.next);
        match random.below(16) {
            0 => 0,
            1 => next.saturating_add(random.below(3)),
            2 => first.saturating_sub(1 + random.below(20)),
            3 => inputs::number(random),
            _ => first,
        }
    }

    // Issue.

    fn issue(&mut self, random: &mut Random, tally: &mut Tally) {
        let (op, point, argument) = match random.below(100) {
            0..=9 => self.any_command(random),
            10..=69 => self.next_toward(random),
            70..=84 => self.opening(random),
            _ => self.small_command(random),
        };
        let before = self.want.clone();
        let have = self.have.issue(op, point, argument);
        let want = other::sent(self.want.issue(op, point, argument));
        let text = format!("issue {op} {point} {argument} at {before:?}");
        assert_eq!(have.reply, want, "{text}");
        self.have = have.chamber;
        if have.reply.number == 1 {
            tally.meet(malformed_class(&before, op, point, argument));
        } else {
            let op = Op::from_byte(op as u8).expect("an op");
            issue_classes(&before, have.reply.number, op, point as u8, argument, tally);
        }
    }

    /// Any op on any point, of the lock or not.
    fn any_command(&self, random: &mut Random) -> (u32, u32, i32) {
        let (op, argument) = inputs::op_argument(random);
        let (op, point) = (op as u32, self.any_point(random));
        match random.below(6) {
            0 => (6 + random.below(600), point, argument),
            1 => (op, 64 + random.below(600), argument),
            2 => (op, point, inputs::signed(random)),
            3 => (inputs::number(random), inputs::number(random), argument),
            4 => (op, random.below(64), argument),
            _ => (op, point, argument),
        }
    }

    fn any_point(&self, random: &mut Random) -> u32 {
        u32::from(*random.pick(&self.want.points.numbers()))
    }

    /// A read, set 0, or an opening, at any of the points that admit it.
    fn small_command(&self, random: &mut Random) -> (u32, u32, i32) {
        let gate = self.gate_point(random);
        match random.below(4) {
            0 => (Op::Set as u32, gate, 0),
            1 => (Op::Part as u32, gate, random.between(0, 1000)),
            _ => (Op::Read as u32, self.any_point(random), 0),
        }
    }

    fn gate_point(&self, random: &mut Random) -> u32 {
        let place = *random.pick(&GATES);
        u32::from(self.want.points.numbers()[place])
    }

    fn opening(&self, random: &mut Random) -> (u32, u32, i32) {
        let gate = self.gate_point(random);
        match random.chance(60) {
            true => (Op::Set as u32, gate, inputs::signed(random)),
            false => (Op::Part as u32, gate, random.between(0, 1000)),
        }
    }

    /// The read that an opening lacks, or the opening.
    fn next_toward(&self, random: &mut Random) -> (u32, u32, i32) {
        let gate = GATES[(self.want.client.client % 2) as usize];
        let other = other_gate(gate);
        let mut levels = levels_beside(gate);
        if random.chance(50) {
            levels.reverse();
        }
        let since = |place: usize, call: u32| self.want.reads[place].is_none_or(|r| r.call <= call);
        let gate_read = self.want.reads[other].map_or(0, |r| r.call);
        let missing = match since(other, self.want.moved) {
            true => Some(other),
            false => levels.into_iter().find(|&level| since(level, gate_read)),
        };
        let missing = missing.filter(|_| random.chance(93));
        match missing {
            Some(place) => (
                Op::Read as u32,
                u32::from(self.want.points.numbers()[place]),
                0,
            ),
            None => {
                let (op, _, argument) = self.opening(random);
                (op, u32::from(self.want.points.numbers()[gate]), argument)
            }
        }
    }

    // Resend.

    fn resend(&mut self, random: &mut Random, tally: &mut Tally) {
        let call = self.call(random);
        let have = self.have.resend(call);
        let want = other::sent(self.want.resend(call));
        assert_eq!(have.reply, want, "resend {call}");
        self.have = have.chamber;
        tally.meet(resend_class(&self.want.client, call, have.reply.number));
    }

    // Receive.

    /// A packet to this controller, or a hostile one.
    fn packet(&self, random: &mut Random, bytes: &mut Vec<u8>) {
        let mut to = self.want.client.clone();
        if random.below(25) == 0 {
            to.client = inputs::at_least_1(random);
        }
        let call = self.call(random);
        let point = match to.open_call(call) {
            Some(open) if random.chance(95) => open.point,
            _ if random.chance(50) => self.any_point(random) as u8,
            _ => random.below(64) as u8,
        };
        let kind = match random.below(20) {
            0 => 1 + random.below(7),
            1..=2 => 3,
            3..=4 => 6,
            5..=8 => 2,
            _ => 7,
        };
        let mut packet = inputs::packet_of_kind(random, kind);
        address(random, &mut packet, &to, call, point);
        if let Packet::Result(p) = &mut packet {
            (p.value, p.quality) = self.found(random, point);
            if random.chance(80) {
                p.outcome = 0;
            }
        }
        *bytes = inputs::packet_bytes(&packet, kind);
        match random.below(25) {
            0 | 1 => inputs::damage(random, bytes),
            2 => inputs::string(random, 30, bytes),
            _ => {}
        }
    }

    /// Value and quality of a point: gates often 0 and by hand, levels often close together.
    fn found(&self, random: &mut Random, point: u8) -> (i32, u8) {
        let by_hand = if self.want.points.is_gate(point) {
            50
        } else {
            6
        };
        let quality = match random.chance(6) {
            true => INVALID,
            false if random.chance(by_hand) => BY_HAND,
            false => VALID,
        };
        let value = match (self.want.points.is_gate(point), random.below(20)) {
            (_, 0) => inputs::signed(random),
            (true, 1) => *random.pick(&[1, -1, i32::MIN, i32::MAX]),
            (true, _) => 0,
            (false, 1) => *random.pick(&[i32::MIN, i32::MAX]),
            (false, 2..=9) => self.level.saturating_add(*random.pick(&[-6, -5, 5, 6])),
            (false, _) => self.level.saturating_add(random.between(-3, 3)),
        };
        (value, quality)
    }

    fn receive(&mut self, random: &mut Random, tally: &mut Tally, bytes: &mut Vec<u8>) {
        self.packet(random, bytes);
        let before = self.want.clone();
        let have = self.have.receive(bytes);
        let want = chamber::receive(&mut self.want, bytes);
        assert_eq!(have.reply, want, "receive {bytes:02x?} at {before:?}");
        self.have = have.chamber;
        let have = have.reply;
        tally.meet(match (have.kind, parse_packet(bytes)) {
            (7, _) => match before.client.open_call(have.call).map(|c| c.op) {
                Some(Op::Read) if have.outcome > 0 => "receive: a read with an outcome over 0",
                Some(Op::Read) if bytes[0] == 2 => "receive: a read, untimed",
                Some(Op::Read) => "receive: a read",
                _ => "receive: a set or part",
            },
            (3, _) => "receive: a refusal",
            (6, _) if have.lease > before.client.lease_end => "receive: a later lease end",
            (6, _) => "receive: the same lease end",
            (_, None) => "receive: 1, malformed",
            (_, Some(packet)) => {
                let points = before.points;
                refusal_class(&before.client, have.number, &packet, |point| {
                    match points.place(point) {
                        Some(_) => "receive: 17, other point of the lock",
                        None => "receive: 17, other point",
                    }
                })
            }
        });
    }
}

// ---- qualities, one by one

/// Places of the points in the order upper, lower, level 1, 2, 3; the points are as many.
const LOCK: [u32; 5] = [0, 1, 2, 3, 4];

impl Pair {
    /// Of the points 0 to 4.
    fn of_lock() -> Pair {
        let packet = write_grant(&Grant {
            client: 7,
            lease_end: 100,
        });
        let reply = chamber::Chamber::start(&packet, LOCK);
        let (want, number) = chamber::start(&packet, LOCK);
        assert_eq!((reply.number, number), (0, 0));
        Pair {
            have: reply.chamber,
            want: want.expect("a grant and five points"),
            level: 0,
        }
    }

    /// The answer of an issue on both sides.
    fn issued(&mut self, op: Op, place: usize, argument: i32) -> u32 {
        let have = self.have.issue(op as u32, LOCK[place], argument);
        let want = self.want.issue(op as u32, LOCK[place], argument);
        assert_eq!(have.reply, other::sent(want));
        self.have = have.chamber;
        self.compare("issue");
        have.reply.number
    }

    /// A read up to its result, which is of kind 2 or 7.
    fn read(&mut self, kind: u32, place: usize, (value, quality): (i32, u8)) {
        let call = self.want.client.next;
        assert_eq!(self.issued(Op::Read, place, 0), 0);
        let packet = Packet::Result(Reply {
            outcome: 0,
            point: place as u8,
            quality,
            client: 7,
            call,
            value,
            time: 0,
        });
        let bytes = inputs::packet_bytes(&packet, kind);
        let have = self.have.receive(&bytes);
        assert_eq!(have.reply, chamber::receive(&mut self.want, &bytes));
        assert_eq!(have.reply.number, 0);
        self.have = have.chamber;
        self.compare("receive");
    }
}

/// The answer to the opening of a gate after these reads of the other gate and of both levels.
fn opening(kind: u32, gate: usize, other: (i32, u8), levels: [u8; 2]) -> u32 {
    let mut pair = Pair::of_lock();
    pair.read(kind, other_gate(gate), other);
    for (place, quality) in levels_beside(gate).into_iter().zip(levels) {
        pair.read(kind, place, (50, quality));
    }
    let numbers =
        [(Op::Set, 5), (Op::Part, 0)].map(|(op, argument)| pair.clone().issued(op, gate, argument));
    assert_eq!(numbers[0], numbers[1]);
    numbers[0]
}

/// A gate is closed at 0 valid or by hand, and a level is valid at 0 alone.
#[test]
fn qualities() {
    for (kind, gate) in [2, 7]
        .into_iter()
        .flat_map(|kind| GATES.map(|gate| (kind, gate)))
    {
        let opens = |other, levels| opening(kind, gate, other, levels);
        assert_eq!(opens((0, VALID), [VALID; 2]), 0);
        assert_eq!(opens((0, BY_HAND), [VALID; 2]), 0);
        assert_eq!(opens((0, INVALID), [VALID; 2]), 20);
        for away in [-1, 1, i32::MIN, i32::MAX] {
            assert_eq!(opens((away, BY_HAND), [VALID; 2]), 20);
        }
        for other in [VALID, BY_HAND] {
            for quality in [INVALID, BY_HAND] {
                assert_eq!(opens((0, other), [quality, VALID]), 20);
                assert_eq!(opens((0, other), [VALID, quality]), 20);
                assert_eq!(opens((0, other), [quality, quality]), 20);
            }
        }
    }
}

/// Mostly five different points; else two are the same, or one is over 63.
fn five(random: &mut Random) -> [u32; 5] {
    let mut points = [0; 5];
    for i in 0..5 {
        points[i] = random.below(64);
        while points[..i].contains(&points[i]) {
            points[i] = random.below(64);
        }
    }
    let place = random.below(5) as usize;
    match random.below(10) {
        0 => points[place] = *random.pick(&[64, 65, 255, 256, 319, u32::MAX]),
        1 => points[place] = points[random.below(5) as usize],
        2 => points[place] = points[place].wrapping_add(256 * (1 + random.below(3))),
        _ => {}
    }
    points
}

fn malformed_class(c: &Chamber, op: u32, point: u32, argument: i32) -> &'static str {
    let known = u8::try_from(op).ok().and_then(Op::from_byte);
    let place = u8::try_from(point).ok().and_then(|p| c.points.place(p));
    match (known, place) {
        (None, _) => "issue: 1, op",
        _ if point > 63 => "issue: 1, point",
        (Some(op), _) if !op.accepts(argument) => "issue: 1, argument",
        (_, None) => "issue: 1, point not of the lock",
        (_, Some(place)) if GATES.contains(&place) => "issue: 1, op not for a gate",
        _ => "issue: 1, op not for a level",
    }
}

fn issue_classes(c: &Chamber, number: u32, op: Op, point: u8, argument: i32, tally: &mut Tally) {
    let opening = is_opening(op, argument);
    let place = c.points.place(point).expect("a point of the lock");
    let failing = match opening {
        true => conditions_that_fail(c, place),
        false => Vec::new(),
    };
    let gate = GATES.contains(&place);
    match number {
        0 if !opening => tally.meet(match op {
            Op::Read if gate => "issue: a read of a gate",
            Op::Read => "issue: a read of a level",
            _ => "issue: set 0",
        }),
        0 => {
            assert!(failing.is_empty());
            opening_classes(c, op, place, tally);
        }
        15 if failing.is_empty() => tally.meet("issue: 15"),
        15 => tally.meet("issue: 15, an opening whose conditions fail"),
        20 if c.client.next == u32::MAX => tally.meet("issue: 20, numbers spent"),
        20 => match failing[..] {
            [] => panic!("20 where all conditions hold"),
            [one] => tally.meet(one),
            _ => tally.meet("issue: 20, several conditions"),
        },
        16 if opening => tally.meet("issue: 16, an opening"),
        16 => tally.meet("issue: 16"),
        _ => panic!("issue: {number}"),
    }
}

fn opening_classes(c: &Chamber, op: Op, gate: usize, tally: &mut Tally) {
    let read = |place: usize| c.reads[place].expect("read");
    let [one, two] = levels_beside(gate).map(read);
    tally.meet(match gate {
        0 => "issue: an opening of the upper gate",
        _ => "issue: an opening of the lower gate",
    });
    if op == Op::Part {
        tally.meet("issue: an opening by part");
    }
    if one.value.abs_diff(two.value) == 5 {
        tally.meet("issue: an opening, levels 5 apart");
    }
    if two.call < one.call {
        tally.meet("issue: an opening, the second level read first");
    }
    if read(other_gate(gate)).quality == BY_HAND {
        tally.meet("issue: an opening, the other gate by hand");
    }
}

/// The conditions of an opening that fail, one by one.
fn conditions_that_fail(c: &Chamber, gate: usize) -> Vec<&'static str> {
    let mut failing = Vec::new();
    let other = c.reads[other_gate(gate)];
    let levels = levels_beside(gate).map(|place| c.reads[place]);
    match other {
        None => failing.push("issue: 20, other gate not read"),
        Some(r) => {
            if r.call <= c.moved {
                failing.push("issue: 20, other gate read before the last set or part");
            }
            if r.value != 0 {
                failing.push("issue: 20, other gate not 0");
            }
            if r.quality == INVALID {
                failing.push("issue: 20, other gate invalid");
            }
        }
    }
    for level in levels {
        level_that_fails(other, level, &mut failing);
    }
    if let [Some(one), Some(two)] = levels {
        let apart = (i64::from(one.value) - i64::from(two.value)).abs();
        match apart {
            0..=5 => {}
            6 => failing.push("issue: 20, levels 6 apart"),
            0x8000_0000.. => failing.push("issue: 20, levels apart by 2^31 or more"),
            _ => failing.push("issue: 20, levels apart"),
        }
    }
    failing
}

fn level_that_fails(
    other: Option<LatestRead>,
    level: Option<LatestRead>,
    failing: &mut Vec<&'static str>,
) {
    let Some(read) = level else {
        failing.push("issue: 20, level not read");
        return;
    };
    if other.is_some_and(|o| read.call <= o.call) {
        failing.push("issue: 20, level read before the other gate");
    }
    match read.quality {
        VALID => {}
        BY_HAND => failing.push("issue: 20, level by hand"),
        _ => failing.push("issue: 20, level invalid"),
    }
}

#[test]
fn chamber_controller() {
    let shares = Shares {
        issues: 45,
        resends: 8,
        starts: 2,
    };
    let calls = Calls {
        start: Pair::start,
        issue: Pair::issue,
        resend: Pair::resend,
        receive: Pair::receive,
        compare: Pair::compare,
    };
    drive("chamber", &CLASSES, shares, calls);
}
