//! Part, to the nearest: every argument on many ranges. Both programs are held to each
//! other and to a number computed here.

use compare::inputs;
use compare::kernel::Call;
use compare::pair::{Outputs, Pair};
use compare::states::{self, POINTS_AT};
use compare::tally::{runs, seed, Tally};
use second::answer::Answer;
use second::bytes::get_i32;
use second::packet::{write_request, Request, RESULT_LEN};
use second::plan::{write_plan, Entry, Plan, POINTS};
use second::random::Random;
use second::record::{write_executed, Executed, EXECUTED_LEN, HEAD_LEN};
use second::rule::{Op, BY_HAND};
use std::cmp::Ordering;

pub const EXACT: &str = "part: exact";
pub const UNDER: &str = "part: under a half";
pub const OVER: &str = "part: over a half";
pub const HALF_DOWN: &str = "part: half, down to an even quotient";
pub const HALF_UP: &str = "part: half, up to an even quotient";

const CLASSES: [&str; 5] = [EXACT, UNDER, OVER, HALF_DOWN, HALF_UP];

/// The value that a part gives, and the class of its quotient.
pub fn nearest(e: &Entry, argument: i32) -> (i32, &'static str) {
    let low = i128::from(e.low);
    let product = (i128::from(e.high) - low) * i128::from(argument);
    let (below, rest) = (product / 1000, product % 1000);
    let (quotient, class) = match (2 * rest).cmp(&1000) {
        Ordering::Less if rest == 0 => (below, EXACT),
        Ordering::Less => (below, UNDER),
        Ordering::Greater => (below + 1, OVER),
        Ordering::Equal if below % 2 == 0 => (below, HALF_DOWN),
        Ordering::Equal => (below + 1, HALF_UP),
    };
    ((low + quotient) as i32, class)
}

/// Every odd argument leaves a half: the width is 500 mod 1,000.
pub fn entry_of_halves(random: &mut Random) -> Entry {
    let width = 500 + 1000 * random.below(u32::MAX / 1000);
    let range = inputs::range(random, width);
    inputs::entry_of(random, range)
}

/// Ends of ranges, rising.
const ENDS: [i32; 30] = [
    i32::MIN,
    i32::MIN + 1,
    i32::MIN + 2,
    i32::MIN + 500,
    i32::MIN + 1000,
    -2000,
    -1001,
    -1000,
    -999,
    -501,
    -500,
    -499,
    -2,
    -1,
    0,
    1,
    2,
    499,
    500,
    501,
    999,
    1000,
    1001,
    1500,
    2000,
    i32::MAX - 1000,
    i32::MAX - 500,
    i32::MAX - 2,
    i32::MAX - 1,
    i32::MAX,
];

/// What is left and whether the quotient is even depend on the width mod 2,000.
const WIDTH_MAX: i32 = 2100;
const LOWS: [i32; 3] = [6, 7, -1051];

/// All pairs of the ends, all small widths, then any widths.
fn ranges(random: &mut Random, count: usize) -> Vec<(i32, i32)> {
    let pairs = (0..ENDS.len()).flat_map(|i| ENDS[i..].iter().map(move |&high| (ENDS[i], high)));
    let small = LOWS
        .iter()
        .flat_map(|&low| (low..=low + WIDTH_MAX).map(move |high| (low, high)));
    let mut ranges: Vec<(i32, i32)> = pairs.chain(small).take(count).collect();
    while ranges.len() < count {
        let width = random.next_u32() >> random.below(32);
        ranges.push(inputs::range(random, width));
    }
    ranges
}

const SERVER: u8 = 3;

/// Entries at home at the server, and the call that founds it.
struct Plant {
    entries: Vec<Entry>,
    found: Call,
}

impl Plant {
    /// Up to 64 points.
    fn new(random: &mut Random, ranges: &[(i32, i32)]) -> Plant {
        let mut entries = Vec::new();
        let mut plan = Plan::default();
        for (entry, &range) in plan.entries.iter_mut().zip(ranges) {
            *entry = Entry {
                home: SERVER,
                ..inputs::entry_of(random, range)
            };
            entries.push(*entry);
        }
        let found = Call::Found(write_plan(&plan).to_vec(), u32::from(SERVER));
        Plant { entries, found }
    }
}

/// The part of a point; each call is done with the one before, so that one record stays.
fn command(point: u8, argument: i32) -> (Request, Call) {
    let call = u32::from(point) + 1;
    let request = Request {
        op: Op::Part,
        point,
        client: 1,
        call,
        done: call,
        lease_end: 1,
        argument,
    };
    (request, Call::Request(write_request(&request).to_vec()))
}

/// A founded server of both programs, with space for one command on each point.
struct Parts {
    pair: Pair,
    outputs: Outputs,
}

impl Parts {
    fn new() -> Parts {
        let base = states::founded(&Plan::default(), SERVER);
        Parts {
            pair: Pair::of(base, HEAD_LEN + POINTS * EXECUTED_LEN),
            outputs: Outputs::new(RESULT_LEN),
        }
    }

    /// A part of each point of a server just founded.
    fn run(&mut self, plant: &Plant, commands: &[(Request, Call)], tally: &mut Tally) {
        self.pair.run(&plant.found, &mut self.outputs);
        let lent = self.pair.whole(&self.outputs);
        for (entry, (request, call)) in plant.entries.iter().zip(commands) {
            let answer = self.pair.answer(call, &lent, &mut self.outputs);
            assert_eq!(answer, Answer::DONE, "{request:?}");
            let (value, class) = nearest(entry, request.argument);
            self.gave(request, entry, value);
            tally.meet(class);
        }
        let last = &commands[plant.entries.len() - 1].1;
        self.pair.compare(last, Answer::DONE);
    }

    /// Record and point have this value, by hand, on both sides.
    fn gave(&self, request: &Request, entry: &Entry, value: i32) {
        let record = write_executed(&Executed {
            op: request.op,
            point: request.point,
            outcome: 0,
            client: request.client,
            call: request.call,
            done: request.done,
            argument: request.argument,
            value,
            quality: BY_HAND,
            time: 0,
        });
        let at = self.pair.length() - EXECUTED_LEN;
        let row = &self.pair.state[POINTS_AT + 32 * usize::from(request.point)..];
        let point = self.pair.server.point(request.point);
        for (program, log, state) in [
            ("proved", &self.pair.log, (get_i32(row, 4), row[1])),
            (
                "second",
                &self.pair.server_log,
                (point.value, point.quality),
            ),
        ] {
            let logged = &log[at..at + EXECUTED_LEN];
            assert!(
                logged == record && state == (value, BY_HAND),
                "{program}: {request:?}, {entry:?}: {value} is due, the state has {state:?}, \
                 the log {logged:02x?}"
            );
        }
    }
}

#[test]
fn all_arguments() {
    let mut random = Random::new(seed());
    let mut tally = Tally::new("parts", &CLASSES);
    let ranges = ranges(&mut random, (runs() / 100) as usize);
    let plants: Vec<Plant> = ranges
        .chunks(POINTS)
        .map(|ranges| Plant::new(&mut random, ranges))
        .collect();
    let mut parts = Parts::new();
    for argument in 0..=1000 {
        let points = 0..POINTS as u8;
        let commands: Vec<_> = points.map(|point| command(point, argument)).collect();
        for plant in &plants {
            parts.run(plant, &commands, &mut tally);
        }
    }
    tally.finish();
}

/// Range, argument and value, worked out by hand; the first two are the customer's.
const NAMED: [((i32, i32), i32, i32); 10] = [
    ((-100, 1000), 5, -94),
    ((-100, 1000), 15, -84),
    ((i32::MIN, i32::MAX), 500, 0),
    ((0, 1), 499, 0),
    ((0, 1), 500, 0),
    ((0, 1), 501, 1),
    ((0, 2), 500, 1),
    ((7, 8), 500, 7),
    ((7, 10), 500, 9),
    ((-8, -7), 500, -8),
];

#[test]
fn named() {
    let mut random = Random::new(seed());
    let mut tally = Tally::new("named parts", &CLASSES);
    let mut parts = Parts::new();
    for (range, argument, value) in NAMED {
        let plant = Plant::new(&mut random, &[range]);
        assert_eq!(nearest(&plant.entries[0], argument).0, value, "{range:?}");
        parts.run(&plant, &[command(0, argument)], &mut tally);
    }
    tally.finish();
}
