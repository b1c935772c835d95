//! Checkpoints and tails that are cut, lengthened or changed, recovered and inspected by both programs.

use super::super::logs::{fault, places};
use super::*;
use second::bytes::{all_zero, get_pair};
use second::checkpoint::{parse_checkpoint, CHECKPOINT_MAGIC, CHECKPOINT_MAGIC_UNTIMED};
use second::image::{MOVED_LEN, MOVED_UNTIMED_LEN};
use second::record::{parse_head, TAKE};

const POINTS_PART: usize = 1068;
const CLIENTS_PART: usize = 2092;

/// Why recovery from these is refused.
pub(super) fn cause(checkpoint: &[u8], tail: &[u8]) -> &'static str {
    match parse_checkpoint(checkpoint) {
        None if !head_ok(checkpoint) => "checkpoint's head",
        None if !pairs_ok(checkpoint) => "checkpoint's pairs",
        None => "unsound state",
        Some(start) if parse_head(tail).is_some_and(|n| n != start.cabinet) => "other server",
        Some(_) => fault(tail),
    }
}

fn head_ok(b: &[u8]) -> bool {
    let opening = [CHECKPOINT_MAGIC, CHECKPOINT_MAGIC_UNTIMED];
    b.len() >= 44 && opening.iter().any(|o| b[..4] == *o) && b[4] < 16 && all_zero(&b[5..8])
}

/// Length of a completion record of a checkpoint whose head is there.
fn row(b: &[u8]) -> usize {
    match b.starts_with(&CHECKPOINT_MAGIC_UNTIMED) {
        true => MOVED_UNTIMED_LEN,
        false => MOVED_LEN,
    }
}

/// Of a checkpoint whose head is there: plan, points, clients and records without gaps, in the slice.
fn pairs_ok(b: &[u8]) -> bool {
    let [plan, points, clients, records] = [12, 20, 28, 36].map(|at| get_pair(b, at));
    plan == (44, 1024)
        && points == (POINTS_PART, 1024)
        && (clients.0, clients.1 % 8, clients.1 / 8 <= 32) == (CLIENTS_PART, 0, true)
        && records.0 == clients.0 + clients.1
        && (records.1 % row(b), records.1 / row(b) <= 512) == (0, true)
        && records.0 + records.1 <= b.len()
}

/// Bytes changed, cut or added; any bytes from a place on; one of the pairs; a field of a row; rows exchanged
/// or copied.
fn damage(random: &mut Random, b: &mut Vec<u8>) {
    if !head_ok(b) || !pairs_ok(b) {
        return inputs::damage(random, b);
    }
    let [clients, records] = [28, 36].map(|at| get_pair(b, at));
    let row = row(b);
    match random.below(11) {
        0 => inputs::damage(random, b),
        1 => {
            let at = random.below(b.len() as u32) as usize;
            b[at..].fill_with(|| inputs::byte(random));
        }
        2 => b[random.below(8) as usize] ^= 1 << random.below(8),
        3 => change_pair(random, b),
        4 => change_field(random, b, (POINTS_PART, 1024), 16),
        5 => change_field(random, b, clients, 8),
        6 | 7 => change_field(random, b, records, row),
        8 | 9 => exchange_rows(random, b, clients, 8),
        _ => exchange_rows(random, b, records, row),
    }
}

/// One of the eight numbers: more or less by 1, a row's or a part's length, or any.
fn change_pair(random: &mut Random, b: &mut [u8]) {
    let at = 12 + 4 * random.below(8) as usize;
    let four = match random.below(3) {
        0 => inputs::number(random),
        1 => get_u32(b, at).wrapping_add(*random.pick(&[1, 4, 8, 20, 24, 1024])),
        _ => get_u32(b, at).wrapping_sub(*random.pick(&[1, 4, 8, 20, 24, 1024])),
    };
    put_u32(b, at, four);
}

/// A byte or a number of a row.
fn change_field(random: &mut Random, b: &mut [u8], (from, length): (usize, usize), row: usize) {
    if length == 0 {
        return;
    }
    let at = from + row * random.below((length / row) as u32) as usize;
    let field = at + random.below(row as u32) as usize;
    if random.chance(50) {
        b[field] = inputs::byte(random);
        return;
    }
    let field = at + (field - at) / 4 * 4;
    let by = *random.pick(&[1, u32::MAX, 15, 16, 1 << 31]);
    put_u32(b, field, get_u32(b, field).wrapping_add(by));
}

/// A row copied over its neighbour, or exchanged with it.
fn exchange_rows(random: &mut Random, b: &mut [u8], (from, length): (usize, usize), row: usize) {
    if length < 2 * row {
        return;
    }
    let at = from + row * random.below((length / row - 1) as u32) as usize;
    match random.chance(50) {
        true => b[at..at + 2 * row].rotate_left(row),
        false => b.copy_within(at..at + row, at + row),
    }
}

impl Plant {
    /// Recovery from these bytes, and inspect in them.
    fn tried(&mut self, i: usize, checkpoint: &[u8], tail: &[u8], tally: &mut Tally) {
        if self.recovered(checkpoint, tail, tally).number == 0 {
            tally.meet("recover_checkpoint: 0, damaged");
        }
        match tail.len() < self.world.pairs[i].length() {
            true => {
                let place = self.world.pairs[i].inspect(STATE_LEN, checkpoint, tail, (1, 1));
                tally.meet(&format!("inspect: {}", place.number));
            }
            false => self.inspect_in(i, checkpoint, tail, tally),
        }
    }

    /// Of a completion record that the tail of server 0 brought.
    fn new_id(&mut self) -> (u32, u32) {
        let records = self.world.pairs[0].server.records.iter();
        let new: Vec<_> = records.filter(|r| r.end > HEAD_LEN as u64).collect();
        let r = self.world.random.pick(&new);
        (r.client, r.call)
    }

    /// What is in force, the checkpoint with changes, mostly one.
    pub(super) fn damaged_checkpoint(&mut self, tally: &mut Tally) {
        let i = self.world.any();
        let (mut checkpoint, log) = (self.stored[i].checkpoint.clone(), self.world.log_of(i));
        if checkpoint.is_empty() {
            return;
        }
        damage(&mut self.world.random, &mut checkpoint);
        while self.chance(20) {
            damage(&mut self.world.random, &mut checkpoint);
        }
        self.tried(i, &checkpoint, &log, tally);
    }

    /// The same, the tail with changes.
    pub(super) fn damaged_tail(&mut self, tally: &mut Tally) {
        let i = self.world.any();
        let (checkpoint, mut tail) = (self.stored[i].checkpoint.clone(), self.world.log_of(i));
        if checkpoint.is_empty() {
            return;
        }
        self.world.damage_log(&mut tail);
        while self.chance(20) {
            self.world.damage_log(&mut tail);
        }
        self.tried(i, &checkpoint, &tail, tally);
    }
}

/// A world in which all servers have a checkpoint, that of server 0 with some completion records and a tail with
/// some log records.
fn with_tail(random: &mut Random) -> Plant {
    loop {
        let mut plant = Plant::new(random.next_u64());
        run(&mut plant, 150);
        (0..3).for_each(|i| drop(plant.stored_now(i)));
        run(&mut plant, 30);
        if plant.chance(50) {
            let lists: [&[&str]; 2] = [&CALLED, &RECOVERED];
            (0..3).for_each(|i| plant.renewed(i, &mut Tally::of("", &lists)));
        }
        run(&mut plant, 30);
        let records = &plant.world.pairs[0].server.records;
        let old = records.iter().filter(|r| r.end == HEAD_LEN as u64).count();
        if old > 0 && plant.world.log_of(0).len() > 2 * HEAD_LEN {
            return plant;
        }
    }
}

/// The same with a take in the tail that brought completion records.
fn with_image(random: &mut Random) -> Plant {
    loop {
        let plant = with_tail(random);
        let tail = plant.world.log_of(0);
        let ends = places(&tail);
        let brought = |end: usize| {
            let records = &plant.world.pairs[0].server.records;
            records.iter().any(|r| r.end == end as u64)
        };
        if (ends.windows(2)).any(|place| tail[place[0]] == TAKE && brought(place[1])) {
            return plant;
        }
    }
}

/// Calls of servers that run, without checkpoints and crashes.
fn run(plant: &mut Plant, steps: u32) {
    for _ in 0..steps {
        let n = plant.world.random.below(200);
        plant.world.work(n, &mut plant.others);
    }
}

/// What is in force at server 0.
fn in_force(plant: &Plant) -> (Vec<u8>, Vec<u8>) {
    (plant.stored[0].checkpoint.clone(), plant.world.log_of(0))
}

fn damaged_tally(test: &'static str) -> Tally {
    Tally::of(test, &[&RECOVERED, &BY_CHECKPOINT, &BY_TAIL, &INSPECTED])
}

/// Checkpoints and tails in turn.
#[test]
fn damaged_checkpoints() {
    let mut tally = damaged_tally("damaged checkpoints");
    let mut seeds = Random::new(seed());
    for _ in 0..(runs() / 8_000).max(1) {
        let mut plant = with_tail(&mut seeds);
        for _ in 0..300 {
            plant.damaged_checkpoint(&mut tally);
            plant.damaged_tail(&mut tally);
        }
    }
    tally.finish();
}

/// Another value of a byte: the first ones change a bit, or drop a row of 24 where it is a length.
fn other_value(random: &mut Random, byte: u8, n: u32) -> u8 {
    match n {
        0 => byte ^ 1,
        1 => byte ^ 0x80,
        2 => byte.wrapping_sub(24),
        _ => inputs::byte(random),
    }
}

/// Every byte of the checkpoint in turn gets so many other values; the completion record of its last row is
/// inspected.
fn every_byte(plant: &mut Plant, checkpoint: &[u8], values: u32, tally: &mut Tally) {
    let (tail, last) = (
        write_head(checkpoint[4]),
        checkpoint.len() - row(checkpoint),
    );
    let id = (get_u32(checkpoint, last), get_u32(checkpoint, last + 4));
    let mut changed = checkpoint.to_vec();
    for at in 0..checkpoint.len() {
        for n in 0..values {
            changed[at] = other_value(&mut plant.world.random, checkpoint[at], n);
            if plant.recovered(&changed, &tail, tally).number == 0 {
                tally.meet("recover_checkpoint: 0, damaged");
            }
            let place = plant.world.pairs[0].inspect(STATE_LEN, &changed, &tail, id);
            tally.meet(&format!("inspect: {}", place.number));
        }
        changed[at] = checkpoint[at];
    }
}

/// A few records, and full tables.
#[test]
fn every_byte_of_checkpoints() {
    let inspected = ["inspect: 0", "inspect: 14", "inspect: 17"];
    let lists: [&[&str]; 3] = [&RECOVERED, &BY_CHECKPOINT, &inspected];
    let mut tally = Tally::of("every byte of checkpoints", &lists);
    let mut seeds = Random::new(seed());
    for _ in 0..(runs() / 100_000).max(1) {
        let mut plant = with_tail(&mut seeds);
        let checkpoint = plant.stored_now(0);
        every_byte(&mut plant, &checkpoint, 5, &mut tally);
    }
    let mut plant = full();
    let checkpoint = plant.stored_now(0);
    every_byte(&mut plant, &checkpoint, 2, &mut tally);
    tally.finish();
}

/// Number and source.
const PLACES: [&str; 5] = [
    "inspect: 0, 1",
    "inspect: 0, 2",
    "inspect: 0, 3",
    "inspect: 14, 0",
    "inspect: 17, 0",
];

/// Every byte of the first KB of tails with an image; completion records that the tail brought are
/// inspected.
#[test]
fn every_byte_of_tails() {
    let mut tally = Tally::of("every byte of tails", &[&RECOVERED, &BY_TAIL, &PLACES]);
    let mut seeds = Random::new(seed());
    for _ in 0..(runs() / 20_000).max(1) {
        let mut plant = with_image(&mut seeds);
        let (checkpoint, mut tail) = in_force(&plant);
        for at in 0..tail.len().min(1024) {
            let byte = tail[at];
            for n in 0..4 {
                tail[at] = other_value(&mut plant.world.random, byte, n);
                if plant.recovered(&checkpoint, &tail, &mut tally).number == 0 {
                    tally.meet("recover_checkpoint: 0, damaged");
                }
                let id = plant.new_id();
                let place = plant.world.pairs[0].inspect(STATE_LEN, &checkpoint, &tail, id);
                tally.meet(&format!("inspect: {}, {}", place.number, place.source));
            }
            tail[at] = byte;
        }
    }
    tally.finish();
}

const CUT: [&str; 6] = [
    "recover_checkpoint: 0",
    "recover_checkpoint: 14, checkpoint's head",
    "recover_checkpoint: 14, checkpoint's pairs",
    "recover_checkpoint: 14, head",
    "inspect: 14",
    "behind: no effect",
];

/// Every length of a checkpoint under its own, with its tail: 14; inspect too, but for no bytes at all.
fn all_cuts(plant: &mut Plant, tally: &mut Tally) {
    let (checkpoint, tail) = in_force(plant);
    for cut in 0..checkpoint.len() {
        let answer = plant.recovered(&checkpoint[..cut], &tail, tally);
        assert_eq!(answer.number, 14, "{cut} bytes of a checkpoint");
        if cut > 0 {
            let place = plant.world.pairs[0].inspect(STATE_LEN, &checkpoint[..cut], &tail, (1, 1));
            tally.meet(&format!("inspect: {}", place.number));
        }
    }
}

/// Bytes behind the last part change nothing.
fn behind(plant: &mut Plant, tally: &mut Tally) {
    let (mut checkpoint, tail) = in_force(plant);
    plant.recovered(&checkpoint, &tail, tally);
    let (length, want) = (checkpoint.len(), plant.world.scratch.server.clone());
    let record = *plant.world.pairs[0].server.records.first().expect("one");
    let id = (record.client, record.call);
    let place = plant.world.pairs[0].inspect(STATE_LEN, &checkpoint, &tail, id);
    for more in [1, 8, 20, 24, 32, CHECKPOINT_LEN - length, CHECKPOINT_LEN] {
        let random = &mut plant.world.random;
        checkpoint.resize_with(length + more, || inputs::byte(random));
        plant.recovered(&checkpoint, &tail, tally);
        assert!(plant.world.scratch.server == want, "{more} bytes behind");
        let again = plant.world.pairs[0].inspect(STATE_LEN, &checkpoint, &tail, id);
        assert_eq!(again, place, "{more} bytes behind");
        tally.meet("behind: no effect");
        checkpoint.truncate(length);
    }
}

/// Every length of a tail: what it has of whole records is recovered.
fn all_tails(plant: &mut Plant, tally: &mut Tally) {
    let (checkpoint, tail) = in_force(plant);
    let ends = places(&tail);
    for cut in 0..=tail.len() {
        plant.recovered(&checkpoint, &tail[..cut], tally);
        if let Some(&end) = ends.iter().rev().find(|&&end| end <= cut) {
            assert_eq!(plant.world.scratch.length(), end, "{cut} of {}", tail.len());
        }
    }
}

#[test]
fn all_cuts_of_checkpoints() {
    let mut tally = Tally::new("all cuts of checkpoints and tails", &CUT);
    let mut seeds = Random::new(seed());
    for _ in 0..(runs() / 50_000).max(1) {
        let mut plant = with_tail(&mut seeds);
        all_cuts(&mut plant, &mut tally);
        behind(&mut plant, &mut tally);
        all_tails(&mut plant, &mut tally);
    }
    let mut plant = full();
    plant.stored_now(0);
    all_cuts(&mut plant, &mut tally);
    behind(&mut plant, &mut tally);
    tally.finish();
}

/// A checkpoint with one row more in a part, and the pairs of that.
fn lengthened(checkpoint: &[u8], part: usize, row: &[u8]) -> Vec<u8> {
    let pair = 12 + 8 * part;
    let (from, length) = get_pair(checkpoint, pair);
    let mut b = checkpoint.to_vec();
    put_u32(&mut b, pair + 4, (length + row.len()) as u32);
    if part == 2 {
        let records = get_u32(&b, 36) + row.len() as u32;
        put_u32(&mut b, 36, records);
    }
    b.splice(from + length..from + length, row.iter().copied());
    b
}

/// Numbers of rows at and over their limits; a client and a record more where there is room for them;
/// parts' lengths that are no whole rows.
#[test]
fn named_checkpoints() {
    let mut tally = damaged_tally("");
    let mut plant = full();
    let most = plant.stored_now(0);
    let few = Plant::of(two_servers(&mut Tally::new("", &super::super::CLASSES))).stored_now(0);
    let client = [40, 0, 0, 0, 1, 0, 0, 0];
    let mut record = [0; MOVED_LEN];
    record[..8].copy_from_slice(&[40, 0, 0, 0, 1, 0, 0, 0]);
    let known = lengthened(&few, 2, &client);
    let both = lengthened(&known, 3, &record);
    let twice = lengthened(&both, 3, &record);
    let mut later = both.clone();
    later[few.len() + 8 + 4] = 17;
    for (checkpoint, number) in [
        (&most, 0),
        (&few, 0),
        (&known, 0),
        (&both, 0),
        (&twice, 14),
        (&later, 14),
        (&lengthened(&few, 3, &record), 14),
        (&lengthened(&most, 2, &client), 14),
        (&lengthened(&most, 3, &record), 14),
        (&lengthened(&few, 2, &client[..4]), 14),
        (&lengthened(&known, 3, &record[..8]), 14),
        (&Vec::new(), 14),
    ] {
        let answer = plant.recovered(checkpoint, &write_head(0), &mut tally);
        assert_eq!(answer.number, number, "{} bytes", checkpoint.len());
        let answer = plant.recovered(checkpoint, &write_head(1), &mut tally);
        assert_eq!(answer.number, 14, "{} bytes", checkpoint.len());
    }
}
