//! The plan's test, and the rule of each op.

mod parts;

use compare::inputs;
use compare::kernel::Call;
use compare::pair::{Outputs, Pair, MALFORMED};
use compare::states;
use compare::tally::{runs, seed, Tally};
use second::answer::Answer;
use second::bytes::{all_zero, get_i32};
use second::packet::{write_request, Request, RESULT_LEN};
use second::plan::{write_plan, Entry};
use second::random::Random;
use second::record::HEAD_LEN;
use second::rule::{Op, ARGUMENTS};
use second::server::{Hold, Server};

const PLAN_CLASSES: [&str; 7] = [
    "plan",
    "too short",
    "too long",
    "home",
    "zero byte",
    "fallback under low",
    "fallback over high",
];

/// A plan, or the first fault of the string.
fn plan_class(bytes: &[u8]) -> &'static str {
    match bytes.len() {
        0..=1023 => return "too short",
        1024 => {}
        _ => return "too long",
    }
    for b in bytes.chunks_exact(16) {
        if get_i32(b, 8) < get_i32(b, 0) {
            return "fallback under low";
        }
        if get_i32(b, 8) > get_i32(b, 4) {
            return "fallback over high";
        }
        if b[12] > 15 {
            return "home";
        }
        if !all_zero(&b[13..]) {
            return "zero byte";
        }
    }
    "plan"
}

/// As it is, damaged, or another string.
fn spoil(random: &mut Random, bytes: &mut Vec<u8>) {
    match random.below(40) {
        0 => inputs::string(random, 64, bytes),
        1 => {
            let at = random.below(1024) as usize;
            bytes[at..].fill_with(|| inputs::byte(random));
        }
        2 => {
            let at = 16 * random.below(64) as usize + 12 + random.below(4) as usize;
            bytes[at] = inputs::byte(random);
        }
        _ => {
            for _ in 0..random.below(3) {
                inputs::damage(random, bytes);
            }
        }
    }
}

/// Found and recover read a plan.
#[test]
fn plans() {
    let mut random = Random::new(seed());
    let mut tally = Tally::new("plans", &PLAN_CLASSES);
    let mut outputs = Outputs::new(0);
    let mut plan = inputs::plan(&mut random);
    let mut pair = Pair::of(states::founded(&plan, 0), HEAD_LEN);
    pair.run(&Call::Found(write_plan(&plan).to_vec(), 0), &mut outputs);
    for run in 0..runs() / 4 {
        if run % 64 == 0 {
            plan = inputs::plan(&mut random);
        }
        let mut bytes = write_plan(&plan).to_vec();
        spoil(&mut random, &mut bytes);
        let class = plan_class(&bytes);
        let call = match random.chance(50) {
            true => Call::Found(bytes, random.below(16)),
            false => Call::Recover(bytes),
        };
        let answer = pair.run(&call, &mut outputs);
        let number = if class == "plan" { 0 } else { MALFORMED };
        assert_eq!(answer.number, number, "{class}: {call:02x?}");
        tally.meet(class);
    }
    tally.finish();
}

const RULE_CLASSES: [&str; 22] = [
    "read",
    "set: outcome 0",
    "set: outcome 1",
    "step: outcome 0",
    "step: outcome 0, at an end",
    "step: outcome 4, low = high",
    "step: outcome 4, sum under low",
    "step: outcome 4, sum over high",
    "step: outcome 4, sum past 32 bits",
    "step: outcome 2",
    "report: outcome 0",
    "report: outcome 3",
    "fault",
    "part: 0",
    "part: 1000",
    parts::EXACT,
    parts::UNDER,
    parts::OVER,
    parts::HALF_DOWN,
    parts::HALF_UP,
    "argument outside its range",
    "op over 5",
];

fn rule_class(case: &Case) -> &'static str {
    let (e, op, argument) = (&case.entry, case.op, case.argument);
    let sum = i64::from(case.value) + i64::from(argument);
    match op {
        0 | 4 if argument != 0 => "argument outside its range",
        5 if !(0..=1000).contains(&argument) => "argument outside its range",
        0 => "read",
        1 if e.contains(argument) => "set: outcome 0",
        1 => "set: outcome 1",
        2 if case.quality == 1 => "step: outcome 2",
        2 if i32::try_from(sum).is_err() => "step: outcome 4, sum past 32 bits",
        2 if !e.contains(sum as i32) && e.low == e.high => "step: outcome 4, low = high",
        2 if sum < i64::from(e.low) => "step: outcome 4, sum under low",
        2 if sum > i64::from(e.high) => "step: outcome 4, sum over high",
        2 if sum == i64::from(e.low) || sum == i64::from(e.high) => "step: outcome 0, at an end",
        2 => "step: outcome 0",
        3 if e.contains(argument) => "report: outcome 0",
        3 => "report: outcome 3",
        4 => "fault",
        5 if argument == 0 => "part: 0",
        5 if argument == 1000 => "part: 1000",
        5 => parts::nearest(e, argument).1,
        _ => "op over 5",
    }
}

const QUALITY_CLASSES: [&str; 8] = [
    "by hand, by a set",
    "by hand, by a part",
    "by hand, kept by a step",
    "by hand, kept by a set out of range",
    "valid, after by hand",
    "invalid, after by hand",
    "valid or invalid",
    "kept",
];

/// The quality that is due after a command, and how it comes about.
fn quality_due(case: &Case) -> (u8, &'static str) {
    let in_range = case.entry.contains(case.argument);
    match (case.op, case.quality) {
        (1, _) if in_range => (2, "by hand, by a set"),
        (5, _) => (2, "by hand, by a part"),
        (2, 2) => (2, "by hand, kept by a step"),
        (1, 2) => (2, "by hand, kept by a set out of range"),
        (3, 2) if in_range => (0, "valid, after by hand"),
        (3 | 4, 2) => (1, "invalid, after by hand"),
        (3, _) if in_range => (0, "valid or invalid"),
        (3 | 4, _) => (1, "valid or invalid"),
        (_, quality) => (quality, "kept"),
    }
}

/// Often at an end of the range.
fn near(random: &mut Random, e: &Entry) -> i32 {
    let ends = [e.low, e.high, e.fallback];
    match random.below(3) {
        0 => inputs::signed(random),
        1 => random.pick(&ends).wrapping_add(random.between(-2, 2)),
        _ => {
            let span = (i64::from(e.high) - i64::from(e.low) + 1) as u64;
            (i64::from(e.low) + (random.next_u64() % span) as i64) as i32
        }
    }
}

/// A command, and the point that it is for.
struct Case {
    entry: Entry,
    op: u8,
    argument: i32,
    value: i32,
    quality: u8,
}

impl Case {
    fn new(random: &mut Random) -> Case {
        let op = match random.below(50) {
            0 => inputs::byte(random),
            _ => random.below(6) as u8,
        };
        let entry = match op {
            5 if random.chance(30) => parts::entry_of_halves(random),
            _ => inputs::entry(random),
        };
        let value = near(random, &entry).clamp(entry.low, entry.high);
        let argument = match op {
            2 if random.chance(60) => near(random, &entry).wrapping_sub(value),
            0 | 4 | 5 if random.chance(95) => {
                let (least, greatest) = ARGUMENTS[usize::from(op)];
                match random.below(20) {
                    0 => least,
                    1 => greatest,
                    _ => random.between(least, greatest),
                }
            }
            _ => near(random, &entry),
        };
        Case {
            entry,
            op,
            argument,
            value,
            quality: inputs::quality(random),
        }
    }

    /// The server with this point, at home.
    fn server(&self, base: &Server, point: u8) -> Server {
        let mut server = base.clone();
        let p = usize::from(point);
        server.plan.entries[p] = Entry {
            home: server.cabinet,
            ..self.entry
        };
        server.points[p].hold = Hold::Held;
        server.points[p].value = self.value;
        server.points[p].quality = self.quality;
        server
    }

    fn request(&self, point: u8) -> Vec<u8> {
        let mut packet = write_request(&Request {
            op: Op::Read,
            point,
            client: 1,
            call: 1,
            done: 1,
            lease_end: 1,
            argument: self.argument,
        });
        packet[1] = self.op;
        packet.to_vec()
    }
}

/// A request is executed; record and state show the effect, and so does the result that
/// is fetched after a sync.
#[test]
fn rules() {
    let mut random = Random::new(seed());
    let mut tally = Tally::of("rules", &[&RULE_CLASSES, &QUALITY_CLASSES]);
    let mut outputs = Outputs::new(RESULT_LEN);
    let base = states::founded(&inputs::plan(&mut random), 3);
    let mut pair = Pair::of(base.clone(), 64);
    for _ in 0..runs() / 4 {
        let case = Case::new(&mut random);
        let point = random.below(64) as u8;
        pair.set(case.server(&base, point));
        let answer = pair.run(&Call::Request(case.request(point)), &mut outputs);
        let class = rule_class(&case);
        let refused = class == "argument outside its range" || class == "op over 5";
        assert_eq!(answer.number, u32::from(refused), "{class}");
        if case.op == 5 && !refused {
            let (value, _) = parts::nearest(&case.entry, case.argument);
            assert_eq!(pair.server.point(point).value, value, "{class}");
        }
        if !refused {
            let (quality, class) = quality_due(&case);
            assert_eq!(pair.server.point(point).quality, quality, "{class}");
            tally.meet(class);
        }
        if !refused && random.chance(20) {
            pair.run(&Call::Sync(pair.server.length), &mut outputs);
            let answer = pair.run(&Call::Fetch(1, 1), &mut outputs);
            assert_eq!(answer, Answer::wrote(RESULT_LEN), "{class}");
        }
        tally.meet(class);
    }
    tally.finish();
}
