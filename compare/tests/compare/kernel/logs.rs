//! Logs, whole, cut and damaged, recovered by both programs and walked by both:
//! the first walk gives the end of the last whole record, recovery that length or 14.

use super::*;
use compare::kernel::{log_end, second_log_end, LogEnd};
use second::image::IMAGE_MIN;
use second::record::{
    parse_head, parse_record, Parsed, EXECUTED, EXECUTED_UNTIMED, HEAD_LEN, TAKE,
};

const BAD_LOG: LogEnd = LogEnd { number: 14, end: 0 };

/// The first walk of both programs over a log.
fn walked(log: &[u8]) -> LogEnd {
    let have = log_end(log);
    assert_eq!(have, second_log_end(log), "{log:02x?}");
    have
}

fn ends_at(end: usize) -> LogEnd {
    LogEnd {
        number: 0,
        end: end as u64,
    }
}

/// What is off in a log that recovery refuses.
pub(super) fn fault(log: &[u8]) -> &'static str {
    if parse_head(log).is_none() {
        return "head";
    }
    let at = *places(log).last().expect("a place");
    match (parse_record(log, at), log.get(at)) {
        (Parsed::Broken, Some(&TAKE)) if !image_length_ok(&log[at..]) => "image length",
        (Parsed::Broken, Some(EXECUTED_UNTIMED..=EXECUTED)) => "field",
        (Parsed::Broken, _) => "kind",
        _ => "record cannot follow",
    }
}

/// Of a take's first 8 bytes.
fn image_length_ok(take: &[u8]) -> bool {
    (IMAGE_MIN..=IMAGE_MAX).contains(&(get_u32(take, 4) as usize))
}

/// The places of a log's whole records, and its end.
pub(super) fn places(log: &[u8]) -> Vec<usize> {
    let mut places = vec![HEAD_LEN];
    while let Parsed::Whole(_, end) = parse_record(log, *places.last().expect("a place")) {
        places.push(end);
    }
    places
}

impl World {
    /// A server's log, as long as it is recorded.
    pub(super) fn log_of(&self, i: usize) -> Vec<u8> {
        self.pairs[i].log[..self.pairs[i].length()].to_vec()
    }

    /// Recovery of a log, on memory of its own, and the first walk by itself.
    pub(super) fn recovered(&mut self, log: &[u8], tally: &mut Tally) -> Answer {
        let pair = &mut self.scratch;
        pair.forget(self.random.next_u32() as u8);
        pair.server = Server::new();
        pair.log = log.to_vec();
        pair.server_log = log.to_vec();
        pair.room = log.len();
        let call = Call::Recover(self.plan_bytes.clone());
        let answer = pair.run(&call, &mut self.outputs);
        match answer.number {
            14 => tally.meet(&format!("recover: 14, {}", fault(log))),
            _ => tally.meet(&class(&call, answer, &self.scratch.server)),
        }
        let walk = walked(log);
        if answer.number == 0 {
            assert_eq!(walk, ends_at(self.scratch.length()));
        }
        tally.meet(match (walk.number, answer.number) {
            (0, 0) => "log end: 0, recovered",
            (0, _) => "log end: 0, not recovered",
            _ => "log end: 14",
        });
        answer
    }

    /// A log with changes, mostly one.
    pub(super) fn damaged_log(&mut self, tally: &mut Tally) {
        let i = self.any();
        let mut log = self.log_of(i);
        self.damage_log(&mut log);
        while self.random.chance(20) {
            self.damage_log(&mut log);
        }
        if self.recovered(&log, tally).number == 0 {
            tally.meet("recover: 0, damaged log");
        }
    }

    /// A record's field or other bytes changed, bytes left out or put in, or whole
    /// records left out, repeated, exchanged or of another server.
    pub(super) fn damage_log(&mut self, log: &mut Vec<u8>) {
        let places = places(log);
        let records = places.len() as u32 - 1;
        if records == 0 || log.len() < HEAD_LEN {
            return self.damage_bytes(log);
        }
        let n = self.random.below(records) as usize;
        let (at, end) = (places[n], places[n + 1]);
        match self.random.below(12) {
            0..=2 => self.damage_bytes(log),
            3..=5 => self.change_field(&mut log[at..end]),
            6 => self.change_head(&mut log[at..end]),
            7 => drop(log.drain(at..end)),
            8 => log.extend_from_within(at..end),
            9 if n + 2 < places.len() => log[at..places[n + 2]].rotate_left(end - at),
            _ => {
                let j = self.any();
                let other = self.log_of(j);
                let from = *self.random.pick(&self::places(&other));
                log.extend_from_slice(&other[from..]);
            }
        }
    }

    /// The head's bits, a cut, a byte more or less, or any bytes.
    fn damage_bytes(&mut self, log: &mut Vec<u8>) {
        let at = self.random.below(log.len().max(1) as u32) as usize;
        match self.random.below(6) {
            0 if log.len() >= HEAD_LEN => {
                log[self.random.below(8) as usize] ^= 1 << self.random.below(8);
            }
            1 => log.truncate(self.random.below(9) as usize),
            2 => log.truncate(at),
            3 => log.insert(at.min(log.len()), inputs::byte(&mut self.random)),
            4 if at < log.len() => drop(log.remove(at)),
            _ => inputs::damage(&mut self.random, log),
        }
    }

    /// One of the first eight numbers of a record.
    fn change_field(&mut self, record: &mut [u8]) {
        let fields = record.len().min(32) as u32 / 4;
        let at = 4 * self.random.below(fields) as usize;
        let by = *self.random.pick(&[1, u32::MAX, 1 << 31]);
        let four = get_u32(record, at).wrapping_add(by);
        put_u32(record, at, four);
    }

    /// A record's kind, or the image length that it has if it is a take.
    fn change_head(&mut self, record: &mut [u8]) {
        if self.random.chance(50) {
            record[0] = *self.random.pick(&[0, 1, 2, 3, 4, 5, 6, 7, 255]);
        } else {
            put_u32(
                record,
                4,
                *(self.random).pick(&[0, 47, 48, 56, 10_544, 10_545, 12_592, 12_593]),
            );
        }
    }
}

/// A world after some steps.
fn after_steps(seed: u64, steps: u32) -> World {
    let mut tally = Tally::new("", &CLASSES);
    let mut world = World::new(seed, &mut tally);
    for _ in 0..steps {
        world.step(&mut tally);
    }
    world
}

const DAMAGED: [&str; 10] = [
    "recover: 0",
    "recover: 0, damaged log",
    "recover: 14, head",
    "recover: 14, kind",
    "recover: 14, image length",
    "recover: 14, field",
    "recover: 14, record cannot follow",
    "log end: 0, recovered",
    "log end: 0, not recovered",
    "log end: 14",
];

#[test]
fn damaged_logs() {
    let mut tally = Tally::new("damaged logs", &DAMAGED);
    let mut seeds = Random::new(seed());
    let mut left = runs() / 10;
    while left > 0 {
        let mut world = after_steps(seeds.next_u64(), 300);
        let logs = left.min(500);
        (0..logs).for_each(|_| world.damaged_log(&mut tally));
        left -= logs;
    }
    tally.finish();
}

const CUT: [&str; 4] = [
    "recover: 0",
    "recover: 14, head",
    "log end: 0, recovered",
    "log end: 14",
];

/// Every length of a log, from no byte on.
#[test]
fn all_cuts() {
    let mut tally = Tally::new("all cuts", &CUT);
    let mut seeds = Random::new(seed());
    for _ in 0..(runs() / 5_000).max(1) {
        let mut world = after_steps(seeds.next_u64(), 150);
        let log = world.log_of(0);
        let ends = places(&log);
        assert_eq!(ends.last(), Some(&log.len()));
        for cut in 0..=log.len() {
            world.recovered(&log[..cut], &mut tally);
            let end = ends.iter().rev().find(|&&end| end <= cut);
            let want = end.map_or(BAD_LOG, |&end| ends_at(end));
            assert_eq!(walked(&log[..cut]), want, "{cut} of {}", log.len());
        }
    }
    tally.finish();
}

/// The bytes of a log that are neither head, kind nor image length may be any.
#[test]
fn other_bytes() {
    let mut random = Random::new(seed());
    for _ in 0..(runs() / 5_000).max(1) {
        let world = after_steps(random.next_u64(), 150);
        let mut log = world.log_of(0);
        let ends = places(&log);
        for place in ends.windows(2) {
            let (at, end) = (place[0], place[1]);
            let seen = |i: usize| i == at || log[at] == 4 && (at + 4..at + 8).contains(&i);
            let other: Vec<usize> = (at..end).filter(|&i| !seen(i)).collect();
            for i in other {
                log[i] = inputs::byte(&mut random);
            }
        }
        let cut = HEAD_LEN + random.below((log.len() - HEAD_LEN + 1) as u32) as usize;
        let end = *ends
            .iter()
            .rev()
            .find(|&&end| end <= cut)
            .expect("the head's end");
        assert_eq!(walked(&log[..cut]), ends_at(end));
    }
}

/// A log of server 0 with these records: the first walk's answer, and recovery's.
fn named(records: &[&[u8]], walk: LogEnd, number: u32) {
    let mut tally = Tally::new("", &DAMAGED);
    let mut world = two_servers(&mut Tally::new("", &CLASSES));
    let mut log = world.log_of(0)[..HEAD_LEN].to_vec();
    records.iter().for_each(|record| log.extend(*record));
    let answer = world.recovered(&log, &mut tally);
    assert_eq!((walked(&log), answer.number), (walk, number), "{log:02x?}");
}

/// A take's first 8 bytes.
fn take_head(length: u32) -> Vec<u8> {
    let mut bytes = vec![4, 0, 0, 0];
    bytes.extend(length.to_le_bytes());
    bytes
}

/// Bad in content early, bad in kind late; image lengths at both limits, with the
/// image there, in part and not at all; kinds at both limits; heads.
#[test]
fn named_logs() {
    let set: [u8; 28] = [
        1, 1, 5, 0, 1, 0, 0, 0, 1, 0, 0, 0, 1, 0, 0, 0, 40, 0, 0, 0, 40, 0, 0, 0, 0, 0, 0, 0,
    ];
    let mut no_op = set;
    no_op[1] = 9;
    named(&[&set], ends_at(36), 0);
    named(&[&set, &set[..27]], ends_at(36), 0);
    named(&[&no_op, &set], ends_at(64), 14);
    named(&[&no_op, &set, &[7]], BAD_LOG, 14);
    named(&[&set, &[0]], BAD_LOG, 14);
    named(&[&set, &[7, 0, 0, 0, 0, 0, 0, 0]], BAD_LOG, 14);
    named(&[&set, &[6, 0, 0, 0, 0, 0, 0, 0]], ends_at(36), 0);
    for length in [0, 47, 12_593, u32::MAX] {
        named(&[&take_head(length)], BAD_LOG, 14);
        named(&[&set, &take_head(length), &set[..20]], BAD_LOG, 14);
        named(&[&take_head(length)[..7]], ends_at(8), 0);
    }
    for length in [48, 10_544, 10_545, 12_591, 12_592] {
        let image = vec![0; length as usize];
        named(&[&take_head(length)], ends_at(8), 0);
        named(&[&take_head(length), &image[1..]], ends_at(8), 0);
        named(
            &[&take_head(length), &image],
            ends_at(16 + length as usize),
            14,
        );
    }
    let head = two_servers(&mut Tally::new("", &CLASSES)).log_of(0);
    for at in 0..HEAD_LEN {
        let mut bad = head.clone();
        bad[at] ^= 0x10;
        assert_eq!(walked(&bad), BAD_LOG, "{bad:02x?}");
        assert_eq!(walked(&head[..at]), BAD_LOG);
    }
}
