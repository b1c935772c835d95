//! Worlds whose servers make checkpoints, store them, lose power before, while and after that, and go on
//! from checkpoint and cut tail. Each recovery is also that from all records since the founding, length,
//! mark and record places aside.

mod damaged;

use super::*;
use compare::checkpoint::Place;
use compare::forms::{untimed_checkpoint, untimed_log};
use compare::pair::{Buffers, LentCheckpoint};
use damaged::cause;
use second::checkpoint::{CHECKPOINT_LEN, CHECKPOINT_MAX};
use second::record::{write_head, HEAD_LEN};

const CALLED: [&str; 16] = [
    "checkpoint: 0",
    "checkpoint: 0, nothing since the last",
    "checkpoint: 2, state",
    "checkpoint: 2, checkpoint",
    "checkpoint: 2, tail",
    "checkpoint: 7",
    "checkpoint: 19",
    "crash: before storing",
    "crash: while storing",
    "crash: after storing",
    "crash: later",
    "recover_checkpoint: 0, incomplete record",
    "recover_checkpoint: 0, forms without times",
    "recover_checkpoint: 2",
    "inspect: 2",
    "damaged state: 19",
];

const RECOVERED: [&str; 2] = ["recover_checkpoint: 0", "recover_checkpoint: 0, damaged"];

/// What is off in a checkpoint.
const BY_CHECKPOINT: [&str; 3] = [
    "recover_checkpoint: 14, checkpoint's head",
    "recover_checkpoint: 14, checkpoint's pairs",
    "recover_checkpoint: 14, unsound state",
];

/// What is off in a tail.
const BY_TAIL: [&str; 6] = [
    "recover_checkpoint: 14, other server",
    "recover_checkpoint: 14, head",
    "recover_checkpoint: 14, kind",
    "recover_checkpoint: 14, image length",
    "recover_checkpoint: 14, field",
    "recover_checkpoint: 14, record cannot follow",
];

const INSPECTED: [&str; 12] = [
    "inspect: 0, executed record",
    "inspect: 0, untimed executed record",
    "inspect: 0, image entry",
    "inspect: 0, untimed image entry",
    "inspect: 0, checkpoint entry",
    "inspect: 0, untimed checkpoint entry",
    "inspect: 14, checkpoint",
    "inspect: 14, other server",
    "inspect: 14, tail",
    "inspect: 17, not in the state",
    "inspect: 17, in no slice",
    "inspect: 19",
];

fn class_of_checkpoint(answer: Answer, lent: &LentCheckpoint, length: usize) -> String {
    match answer.number {
        0 if length == HEAD_LEN => "checkpoint: 0, nothing since the last".to_string(),
        2 if lent.state < STATE_LEN => "checkpoint: 2, state".to_string(),
        2 if lent.tail < HEAD_LEN => "checkpoint: 2, tail".to_string(),
        2 => "checkpoint: 2, checkpoint".to_string(),
        number => format!("checkpoint: {number}"),
    }
}

fn class_of_place(place: Place, pair: &Pair, checkpoint: &[u8], tail: &[u8]) -> String {
    let detail = match (place.number, place.source) {
        (0, source) => match (source, place.end - place.start) {
            (1, 32) => "executed record",
            (1, 28) => "untimed executed record",
            (2, 24) => "image entry",
            (2, 20) => "untimed image entry",
            (3, 24) => "checkpoint entry",
            (3, 20) => "untimed checkpoint entry",
            _ => panic!("{place:?}"),
        },
        (14, _) => match cause(checkpoint, &tail[..pair.length()]) {
            _ if checkpoint.is_empty() => "tail",
            "checkpoint's head" | "checkpoint's pairs" | "unsound state" => "checkpoint",
            "other server" => "other server",
            _ => "tail",
        },
        (17, _) => "not in the state",
        (number, _) => return format!("inspect: {number}"),
    };
    format!("inspect: {}, {detail}", place.number)
}

/// Less than this, often by one.
fn short(random: &mut Random, length: usize) -> usize {
    match random.chance(50) {
        true => length - 1,
        false => random.below(length as u32) as usize,
    }
}

/// What is in force beside a server's log: the checkpoint last stored, no bytes before the first; and
/// the log that was replaced, all of it since the founding.
struct Stored {
    checkpoint: Vec<u8>,
    replaced: Vec<u8>,
}

struct Plant {
    world: World,
    stored: Vec<Stored>,
    buffers: Buffers,
    /// What the other calls met, which other tests count.
    others: Tally,
}

impl Plant {
    fn new(seed: u64) -> Plant {
        Plant::of(World::new(seed, &mut Tally::new("", &super::CLASSES)))
    }

    fn of(world: World) -> Plant {
        let head = |pair: &Pair| Stored {
            checkpoint: Vec::new(),
            replaced: pair.log[..HEAD_LEN].to_vec(),
        };
        Plant {
            stored: world.pairs.iter().map(head).collect(),
            world,
            buffers: Buffers::new(),
            others: Tally::new("", &super::CLASSES),
        }
    }

    fn chance(&mut self, percent: u32) -> bool {
        self.world.random.chance(percent)
    }

    // ---- checkpoints

    fn sync(&mut self, i: usize) {
        let call = Call::Sync(self.world.pairs[i].server.length);
        self.world.run_whole(i, &call, &mut self.others);
    }

    /// Whole slices, or one too short, or each as short as it may be.
    fn lend(&mut self, i: usize) -> LentCheckpoint {
        let mut lent = self.world.pairs[i].whole_checkpoint(&self.buffers);
        let length = self.world.pairs[i].length();
        let random = &mut self.world.random;
        match random.below(20) {
            0 => lent.state = short(random, STATE_LEN),
            1 => lent.checkpoint = short(random, CHECKPOINT_LEN),
            2 => lent.tail = short(random, HEAD_LEN),
            3 => lent.log = short(random, length),
            4..=8 => {
                lent.log = length;
                lent.checkpoint = CHECKPOINT_LEN;
                lent.tail = HEAD_LEN;
            }
            _ => {}
        }
        lent
    }

    fn checkpoint(&mut self, tally: &mut Tally) {
        let i = self.world.any();
        if self.chance(70) {
            self.sync(i);
        }
        let (lent, length) = (self.lend(i), self.world.pairs[i].length());
        let answer = self.world.pairs[i].checkpoint(&lent, &mut self.buffers);
        tally.meet(&class_of_checkpoint(answer, &lent, length));
        if answer.number == 0 {
            self.end_of_storing(i, length, answer, tally);
        }
    }

    /// The checkpoint is stored, or power is lost before, while or after that. Nothing else is called
    /// before.
    fn end_of_storing(&mut self, i: usize, length: usize, answer: Answer, tally: &mut Tally) {
        let made = self.buffers.checkpoint.written(answer).to_vec();
        let left = self.world.pairs[i].server.clone();
        let class = *self.world.random.pick(&[
            "stored",
            "crash: before storing",
            "crash: while storing",
            "crash: after storing",
            "stored",
        ]);
        let kept = match class {
            "crash: before storing" => length,
            "crash: while storing" => {
                let cut = self.world.random.below(made.len() as u32) as usize;
                let answer = self.recovered(&made[..cut], &write_head(left.cabinet), tally);
                assert_eq!(answer.number, 14, "{cut} bytes of a checkpoint");
                length
            }
            _ => {
                self.store(i, length, made);
                HEAD_LEN
            }
        };
        if class != "stored" {
            tally.meet(class);
            self.recover_at(i, kept, tally);
        }
        assert!(self.world.pairs[i].server.rebased() == left, "{class}");
    }

    /// From now on the checkpoint is in force, and its tail is the log.
    fn store(&mut self, i: usize, length: usize, made: Vec<u8>) {
        let (stored, pair) = (&mut self.stored[i], &mut self.world.pairs[i]);
        stored.checkpoint = made;
        (stored.replaced).extend_from_slice(&pair.log[HEAD_LEN..length]);
        pair.switch(&self.buffers, inputs::byte(&mut self.world.random));
    }

    /// A synced server's checkpoint, made and stored.
    fn stored_now(&mut self, i: usize) -> Vec<u8> {
        self.sync(i);
        let length = self.world.pairs[i].length();
        let lent = self.world.pairs[i].whole_checkpoint(&self.buffers);
        let answer = self.world.pairs[i].checkpoint(&lent, &mut self.buffers);
        assert_eq!(answer.number, 0);
        let made = self.buffers.checkpoint.written(answer).to_vec();
        self.store(i, length, made.clone());
        made
    }

    // ---- recoveries

    /// Recovery from these bytes, on memory of its own.
    fn recovered(&mut self, checkpoint: &[u8], tail: &[u8], tally: &mut Tally) -> Answer {
        let scratch = &mut self.world.scratch;
        scratch.forget(self.world.random.next_u32() as u8);
        scratch.server = Server::new();
        let answer = scratch.recover_checkpoint(STATE_LEN, checkpoint, tail);
        match answer.number {
            14 => tally.meet(&format!(
                "recover_checkpoint: 14, {}",
                cause(checkpoint, tail)
            )),
            number => tally.meet(&format!("recover_checkpoint: {number}")),
        }
        answer
    }

    /// The server goes on from what is in force and the first bytes of its log.
    fn recover_at(&mut self, i: usize, kept: usize, tally: &mut Tally) {
        if self.stored[i].checkpoint.is_empty() {
            return self.world.recover_at(i, kept, &mut self.others);
        }
        let tail = self.world.pairs[i].log[..kept].to_vec();
        let mut card = self.stored[i].checkpoint.clone();
        if self.chance(30) {
            // a card may keep the whole buffer
            card.resize(CHECKPOINT_LEN, inputs::byte(&mut self.world.random));
        }
        if self.chance(30) {
            let state = short(&mut self.world.random, STATE_LEN);
            let answer = self.world.pairs[i].recover_checkpoint(state, &card, &tail);
            tally.meet(&format!("recover_checkpoint: {}", answer.number));
        }
        self.recover_from(i, &card, kept, tally);
    }

    fn recover_from(&mut self, i: usize, card: &[u8], kept: usize, tally: &mut Tally) {
        let tail = self.world.pairs[i].log[..kept].to_vec();
        self.world.lose(i, kept);
        let answer = self.world.pairs[i].recover_checkpoint(STATE_LEN, card, &tail);
        assert_eq!(answer.number, 0, "a crash kept {kept} of the tail");
        tally.meet(match self.world.pairs[i].length() < kept {
            true => "recover_checkpoint: 0, incomplete record",
            false => "recover_checkpoint: 0",
        });
        self.compare_whole(i, &tail);
    }

    /// Recovery from all records since the founding gives the same, length, mark and record places aside.
    fn compare_whole(&mut self, i: usize, tail: &[u8]) {
        let log = [&self.stored[i].replaced, &tail[HEAD_LEN..]].concat();
        let answer = self.world.recovered(&log, &mut self.others);
        assert_eq!(answer.number, 0, "{log:02x?}");
        let (whole, pair) = (&self.world.scratch, &self.world.pairs[i]);
        assert!(
            whole.server.rebased() == pair.server.rebased(),
            "{log:02x?}"
        );
    }

    /// Power is lost at any byte between mark and length; what each of them would keep is recovered, and
    /// the server goes on with one.
    fn crash(&mut self, tally: &mut Tally) {
        let i = self.world.any();
        let kept = self.world.may_keep(i);
        let checkpoint = self.stored[i].checkpoint.clone();
        if !checkpoint.is_empty() {
            let log = self.world.log_of(i);
            for &k in &kept {
                let answer = self.recovered(&checkpoint, &log[..k], tally);
                assert_eq!(answer.number, 0, "a crash kept {k} of the tail");
            }
            tally.meet("crash: later");
        }
        let k = *self.world.random.pick(&kept);
        self.recover_at(i, k, tally);
    }

    /// The server is renewed: it goes on from what the program before left, its checkpoint too.
    fn renewed(&mut self, i: usize, tally: &mut Tally) {
        let before = self.world.pairs[i].server.clone();
        let stored = &mut self.stored[i];
        let from_checkpoint = !stored.checkpoint.is_empty();
        if from_checkpoint {
            stored.checkpoint = untimed_checkpoint(&stored.checkpoint);
            stored.replaced = untimed_log(&stored.replaced, || true);
        }
        let kept = self.world.put_old_forms(i);
        self.recover_at(i, kept, tally);
        same_but_times(&before, &self.world.pairs[i].server);
        if from_checkpoint {
            tally.meet("recover_checkpoint: 0, forms without times");
        }
    }

    // ---- inspect

    /// Some ids, known and not, in what is in force.
    fn inspect(&mut self, tally: &mut Tally) {
        let i = self.world.any();
        let (checkpoint, log) = (self.stored[i].checkpoint.clone(), self.log_space(i));
        for _ in 0..3 {
            self.inspect_in(i, &checkpoint, &log, tally);
        }
        match self.world.random.below(4) {
            0 => self.inspect_short(i, &checkpoint, &log, tally),
            1 => self.inspect_in(i, &[], &log, tally),
            2 => {
                let j = self.world.any();
                let other = self.stored[j].checkpoint.clone();
                self.inspect_in(i, &other, &log, tally);
            }
            _ => {}
        }
    }

    /// A server's log with the space behind it.
    fn log_space(&self, i: usize) -> Vec<u8> {
        let pair = &self.world.pairs[i];
        pair.log[..pair.room].to_vec()
    }

    fn inspect_in(&mut self, i: usize, checkpoint: &[u8], tail: &[u8], tally: &mut Tally) {
        let (client, call) = self.world.id(i);
        let pair = &self.world.pairs[i];
        let place = pair.inspect(STATE_LEN, checkpoint, tail, (client, call));
        let known = (pair.server.records.iter()).any(|r| (r.client, r.call) == (client, call));
        match (place.number, known) {
            (17, true) => tally.meet("inspect: 17, in no slice"),
            _ => tally.meet(&class_of_place(place, pair, checkpoint, tail)),
        }
    }

    /// The state too short, or the log shorter than it is recorded.
    fn inspect_short(&mut self, i: usize, checkpoint: &[u8], log: &[u8], tally: &mut Tally) {
        let id = self.world.id(i);
        let (pair, random) = (&self.world.pairs[i], &mut self.world.random);
        let (state, tail) = match random.chance(50) {
            true => (short(random, STATE_LEN), log),
            false => (STATE_LEN, &log[..short(random, pair.length())]),
        };
        let place = pair.inspect(state, checkpoint, tail, id);
        tally.meet(&format!("inspect: {}", place.number));
    }

    fn damaged_state(&mut self, tally: &mut Tally) {
        let i = self.world.any();
        let mut state = self.world.pairs[i].state.clone();
        spoil(&mut self.world.random, &mut state);
        self.world.pairs[i].refuses_checkpoint(&mut state, &mut self.buffers);
        tally.meet("damaged state: 19");
    }

    fn step(&mut self, tally: &mut Tally) {
        match self.world.random.below(244) {
            200..=213 => self.checkpoint(tally),
            214..=224 => self.inspect(tally),
            225 | 226 => self.crash(tally),
            227..=231 => self.damaged_checkpoint(tally),
            232..=236 => self.damaged_tail(tally),
            237 => self.damaged_state(tally),
            238..=243 => {
                let i = self.world.any();
                self.renewed(i, tally);
            }
            n => self.world.work(n, &mut self.others),
        }
    }
}

#[test]
fn checkpoints() {
    let lists: [&[&str]; 5] = [&CALLED, &RECOVERED, &BY_CHECKPOINT, &BY_TAIL, &INSPECTED];
    let mut tally = Tally::of("checkpoints", &lists);
    let mut seeds = Random::new(seed());
    let mut left = runs() / 2;
    while left > 0 {
        let mut plant = Plant::new(seeds.next_u64());
        let steps = (*seeds.pick(&[60, 200, 600, 1500])).min(left);
        for _ in 0..steps {
            plant.step(&mut tally);
        }
        left -= steps;
    }
    tally.finish();
}

// ---- full tables

/// Server 0 has 16 completion records of each of 32 clients.
fn full() -> Plant {
    let mut plant = Plant::of(two_servers(&mut Tally::new("", &super::CLASSES)));
    for call in (1..=16).rev() {
        for client in 1..=32 {
            let call = set(client * 5 % 33, call);
            plant.world.run_whole(0, &call, &mut plant.others);
        }
    }
    plant
}

const LONGEST: [&str; 4] = [
    "inspect: 0, executed record",
    "inspect: 0, checkpoint entry",
    "inspect: 17, not in the state",
    "recover_checkpoint: 0",
];

/// Each of the 512 in the log, then in the checkpoint; recovery with tails of no and of one record.
#[test]
fn longest() {
    let mut tally = Tally::new("longest checkpoint", &LONGEST);
    let mut plant = full();
    inspect_all(&plant, &[], &mut tally);
    let checkpoint = plant.stored_now(0);
    assert_eq!(checkpoint.len(), CHECKPOINT_MAX);
    assert_eq!(CHECKPOINT_MAX, 14_636);
    inspect_all(&plant, &checkpoint, &mut tally);
    plant.recover_from(0, &checkpoint, HEAD_LEN, &mut tally);
    let next = Request {
        op: Op::from_byte(1).expect("set"),
        point: 5,
        client: 7,
        call: 17,
        done: 2,
        lease_end: 1000,
        argument: 40,
    };
    let call = Call::Request(write_request(&next).to_vec());
    plant.world.run_whole(0, &call, &mut plant.others);
    inspect_all(&plant, &checkpoint, &mut tally);
    let length = plant.world.pairs[0].length();
    plant.recover_from(0, &checkpoint, length, &mut tally);
    assert_eq!(plant.stored_now(0).len(), CHECKPOINT_MAX);
    tally.finish();
}

/// Every id of the clients, and one more.
fn inspect_all(plant: &Plant, checkpoint: &[u8], tally: &mut Tally) {
    let (pair, log) = (&plant.world.pairs[0], plant.log_space(0));
    for client in 1..=32 {
        for call in 1..=17 {
            let place = pair.inspect(STATE_LEN, checkpoint, &log, (client, call));
            tally.meet(&class_of_place(place, pair, checkpoint, &log));
        }
    }
}
