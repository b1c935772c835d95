//! Places of a log in a state: 8 stands for all that was before this log, places from 9 to the length for
//! its records. Both programs find the same states sound.

use compare::inputs;
use compare::kernel::Call;
use compare::pair::{Buffers, Outputs, Pair};
use compare::states;
use compare::tally::{seed, Tally};
use second::image::{Floor, IMAGE_MAX};
use second::plan::{Entry, Plan};
use second::random::Random;
use second::rule::Op;
use second::server::{Completion, Hold, Server, Taken};

const LENGTH: u64 = 12;
const PLACES: [u64; 9] = [0, 7, 8, 9, 10, 11, LENGTH, LENGTH + 1, u64::MAX];
const POINT: u8 = 5;

const CLASSES: [&str; 11] = [
    "sound",
    "sound, both ends 8",
    "19: under 8",
    "19: past the length",
    "19: take and give at one place over 8",
    "19: give before take",
    "19: records not in order",
    "checkpoint: 0",
    "checkpoint: 7",
    "length or mark under 8",
    "mark past the length",
];

/// Server 0 with all points at home and a log of this length, all synced.
fn base() -> Server {
    let plan = Plan::uniform(Entry {
        low: -100,
        high: 1000,
        fallback: 0,
        home: 0,
    });
    states::grown(states::founded(&plan, 0), LENGTH)
}

/// What a server is told by a call that leaves it as it is; a sound one makes a checkpoint then.
struct Tested {
    pair: Pair,
    outputs: Outputs,
    buffers: Buffers,
}

impl Tested {
    fn new() -> Tested {
        Tested {
            pair: Pair::of(base(), LENGTH as usize + 8),
            outputs: Outputs::new(IMAGE_MAX),
            buffers: Buffers::new(),
        }
    }

    /// Whether the state is sound, for both.
    fn sound(&mut self, server: Server) -> bool {
        let mark = server.mark;
        self.pair.set(server);
        let answer = self.pair.run(&Call::Sync(mark), &mut self.outputs);
        assert!(matches!(answer.number, 0 | 19), "{answer:?}");
        answer.number == 0
    }

    /// The number of its checkpoint; it is sound after it.
    fn checkpoint(&mut self) -> u32 {
        let lent = self.pair.whole_checkpoint(&self.buffers);
        let number = self.pair.checkpoint(&lent, &mut self.buffers).number;
        let sync = Call::Sync(self.pair.server.length);
        assert_eq!(self.pair.run(&sync, &mut self.outputs).number, 0);
        number
    }
}

fn in_log(end: u64) -> bool {
    (8..=LENGTH).contains(&end)
}

/// Of one end that is off, or of a pair that is.
fn class(ends: &[u64], sound: &'static str, otherwise: &'static str) -> &'static str {
    match ends.iter().find(|&&end| !in_log(end)) {
        Some(0..=7) => "19: under 8",
        Some(_) => "19: past the length",
        None if sound.is_empty() => otherwise,
        None => sound,
    }
}

fn class_of_move(took: Option<u64>, gave: Option<u64>) -> &'static str {
    let ends: Vec<u64> = took.into_iter().chain(gave).collect();
    match (took, gave) {
        (Some(8), Some(8)) => "sound, both ends 8",
        (Some(t), Some(g)) if t == g => class(&ends, "", "19: take and give at one place over 8"),
        (Some(t), Some(g)) if t > g => class(&ends, "", "19: give before take"),
        _ => class(&ends, "sound", ""),
    }
}

#[test]
fn ends() {
    let mut tally = Tally::new("ends", &CLASSES);
    let mut tested = Tested::new();
    moves(&mut tested, &mut tally);
    records(&mut tested, &mut tally);
    lengths(&mut tested, &mut tally);
    tally.finish();
}

/// Point 5 taken and given, or one of the two, or neither; released or not.
fn moves(tested: &mut Tested, tally: &mut Tally) {
    let places = || PLACES.into_iter().map(Some).chain([None]);
    for took in places() {
        for gave in places() {
            for released in [false, true] {
                let class = class_of_move(took, gave);
                let sound = tested.sound(moved(took, gave, released));
                assert_eq!(sound, class.starts_with("sound"), "{took:?} {gave:?}");
                tally.meet(class);
                if sound {
                    tally.meet(&format!("checkpoint: {}", tested.checkpoint()));
                }
            }
        }
    }
}

fn moved(took: Option<u64>, gave: Option<u64>, released: bool) -> Server {
    let (mut server, destination) = (base(), 1);
    let point = &mut server.points[usize::from(POINT)];
    point.taken = took.map(|end| Taken {
        move_number: 4,
        end,
    });
    point.move_number = took.map_or(0, |_| 4) + u32::from(gave.is_some());
    point.hold = match gave {
        None => Hold::Held,
        Some(end) if released => Hold::Released { destination, end },
        Some(end) => Hold::Given { destination, end },
    };
    server
}

/// Two completion records.
fn records(tested: &mut Tested, tally: &mut Tally) {
    let mut random = Random::new(seed());
    for first in PLACES {
        for second in PLACES {
            let mut server = base();
            server.clients = vec![Floor {
                client: 7,
                floor: 1,
            }];
            server.records = vec![
                record(&mut random, 1, first),
                record(&mut random, 2, second),
            ];
            let class = match first > second {
                true => class(&[first, second], "", "19: records not in order"),
                false => class(&[first, second], "sound", ""),
            };
            let sound = tested.sound(server);
            assert_eq!(sound, class.starts_with("sound"), "{first} {second}");
            tally.meet(class);
        }
    }
}

fn record(random: &mut Random, call: u32, end: u64) -> Completion {
    Completion {
        client: 7,
        call,
        argument: 0,
        value: inputs::within(random, (-100, 1000)),
        op: Op::from_byte(0).expect("read"),
        point: POINT,
        outcome: 0,
        quality: 0,
        time: inputs::number(random),
        end,
    }
}

/// Lengths and marks.
fn lengths(tested: &mut Tested, tally: &mut Tally) {
    for length in [0, 7, 8, 9, LENGTH] {
        for mark in [0, 7, 8, 9, LENGTH, LENGTH + 1] {
            let mut server = base();
            (server.length, server.mark) = (length, mark);
            let sound = tested.sound(server);
            assert_eq!(sound, 8 <= mark && mark <= length, "{mark} of {length}");
            tally.meet(match (sound, mark <= length) {
                (true, _) => "sound",
                (false, true) => "length or mark under 8",
                (false, false) => "mark past the length",
            });
            if sound {
                let number = tested.checkpoint();
                assert_eq!(number, if mark < length { 7 } else { 0 });
                tally.meet(&format!("checkpoint: {number}"));
            }
        }
    }
}
