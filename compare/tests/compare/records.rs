//! Log records. Recovery reads a string behind records that it can follow: the same
//! verdict, end and state. Records appended: those of the calls that append them.

use compare::inputs::{self, Tables};
use compare::kernel::Call;
use compare::pair::{Outputs, Pair, MALFORMED};
use compare::states;
use compare::tally::{runs, seed, Tally};
use second::answer::Refusal;
use second::bytes::{all_zero, get_i32, get_u32, put_i32, put_u32};
use second::image::{moved_len, parse_image, write_image_as, ImageHead, IMAGE_MAX, IMAGE_MIN};
use second::packet::{
    write_notice, write_receipt, write_request, Notice, Receipt, Request, RESULT_LEN,
};
use second::plan::{write_plan, Entry, Plan, POINTS};
use second::program::Form;
use second::random::Random;
use second::record::{
    parse_record, write_executed, write_give, write_head, write_take_head, Executed, Give, Parsed,
    Record, HEAD_LEN,
};
use second::rule::Op;
use second::server::{Server, STATE_LEN};

const TOO_SHORT: u32 = Refusal::TooShort as u32;
const LOG_FULL: u32 = Refusal::LogFull as u32;
const BAD_LOG: u32 = Refusal::BadLog as u32;
const NOT_SOUND: u32 = Refusal::NotSound as u32;

const KINDS: [&str; 6] = [
    "untimed executed",
    "gone",
    "give",
    "take",
    "release",
    "executed",
];
const CANNOT: [&str; 6] = [
    "untimed executed: cannot follow",
    "gone: cannot follow",
    "give: cannot follow",
    "take: cannot follow",
    "release: cannot follow",
    "executed: cannot follow",
];

/// Any value is in range; points are at home at server 0.
static ANY: Plan = Plan {
    entries: [Entry {
        low: i32::MIN,
        high: i32::MAX,
        fallback: 0,
        home: 0,
    }; POINTS],
};

const CLASSES: [&str; 45] = [
    "executed",
    "untimed executed",
    "gone",
    "give",
    "take",
    "release",
    "nothing there",
    "head incomplete",
    "kind 0",
    "kind over 6",
    "executed: incomplete",
    "untimed executed: incomplete",
    "gone: incomplete",
    "give: incomplete",
    "take: head incomplete",
    "take: incomplete",
    "release: incomplete",
    "executed: op",
    "executed: point",
    "executed: outcome",
    "executed: client",
    "executed: done",
    "executed: window",
    "executed: argument",
    "executed: quality",
    "executed: zero byte",
    "gone: zero byte",
    "gone: client",
    "give: point",
    "give: destination",
    "give: zero byte",
    "take: zero byte",
    "take: image length under 48",
    "take: image length over 12,592",
    "take: image",
    "release: point",
    "release: zero byte",
    "state too short",
    "more after it",
    "untimed executed: cannot follow",
    "executed: cannot follow",
    "gone: cannot follow",
    "give: cannot follow",
    "take: cannot follow",
    "release: cannot follow",
];

/// A kind of record, or the first fault of these bytes of a log.
fn class(rest: &[u8]) -> &'static str {
    let (Some(&kind), length) = (rest.first(), rest.len()) else {
        return "nothing there";
    };
    match kind {
        0 => "kind 0",
        1 if length < 28 => "untimed executed: incomplete",
        1 => executed_class(rest, "untimed executed"),
        2 if length < 12 => "gone: incomplete",
        2 if !all_zero(&rest[1..4]) => "gone: zero byte",
        2 if get_u32(rest, 4) == 0 => "gone: client",
        2 => "gone",
        3 if length < 8 => "give: incomplete",
        3 if rest[1] > 63 => "give: point",
        3 if rest[2] > 15 => "give: destination",
        3 if rest[3] != 0 => "give: zero byte",
        3 => "give",
        4 if length < 8 => "take: head incomplete",
        4 => take_class(rest),
        5 if length < 8 => "release: incomplete",
        5 if rest[1] > 63 => "release: point",
        5 if !all_zero(&rest[2..4]) => "release: zero byte",
        5 => "release",
        6 if length < 32 => "executed: incomplete",
        6 => executed_class(rest, "executed"),
        _ => "kind over 6",
    }
}

/// The length of a well-formed record.
fn size(record: &[u8]) -> usize {
    match record[0] {
        1 => 28,
        6 => 32,
        2 => 12,
        4 => 8 + get_u32(record, 4) as usize,
        _ => 8,
    }
}

/// Any time will do.
fn executed_class(b: &[u8], whole: &'static str) -> &'static str {
    let (call, done) = (u64::from(get_u32(b, 8)), u64::from(get_u32(b, 12)));
    let argument = get_i32(b, 16);
    match b[1] {
        6.. => "executed: op",
        _ if b[2] > 63 => "executed: point",
        _ if b[3] > 4 => "executed: outcome",
        _ if get_u32(b, 4) == 0 => "executed: client",
        _ if done == 0 => "executed: done",
        _ if call < done || call > done + 15 => "executed: window",
        0 | 4 if argument != 0 => "executed: argument",
        5 if !(0..=1000).contains(&argument) => "executed: argument",
        _ if b[24] > 2 => "executed: quality",
        _ if !all_zero(&b[25..28]) => "executed: zero byte",
        _ => whole,
    }
}

fn take_class(b: &[u8]) -> &'static str {
    let end = 8 + get_u32(b, 4) as usize;
    match end - 8 {
        0..=47 => "take: image length under 48",
        12_593.. => "take: image length over 12,592",
        _ if end > b.len() => "take: incomplete",
        _ if !all_zero(&b[1..4]) => "take: zero byte",
        _ if parse_image(&b[8..end], &ANY).is_none() => "take: image",
        _ => "take",
    }
}

/// The plan under which records are read: points under 32 at home at this server, the
/// others elsewhere; any range, or every value.
fn plan_of(random: &mut Random, number: u8) -> Plan {
    let mut plan = match random.chance(50) {
        true => inputs::plan(random),
        false => ANY,
    };
    for (p, entry) in plan.entries.iter_mut().enumerate() {
        entry.home = if p < 32 { number } else { (number + 1) % 16 };
    }
    plan
}

/// Which server reads, under which plan.
struct Reader {
    number: u8,
    plan: Plan,
}

impl Reader {
    fn new(random: &mut Random) -> Reader {
        let number = random.below(16) as u8;
        let plan = plan_of(random, number);
        Reader { number, plan }
    }

    fn value(&self, random: &mut Random, point: u8) -> i32 {
        let entry = self.plan.entry(point % 64);
        inputs::within(random, (entry.low, entry.high))
    }

    /// The record as this server may have written it, in most cases.
    fn fit(&self, random: &mut Random, record: &mut [u8]) {
        if random.chance(90) {
            self.fit_always(random, record);
        }
    }

    fn fit_always(&self, random: &mut Random, record: &mut [u8]) {
        match record[0] {
            1 | 6 => put_i32(record, 20, self.value(random, record[2])),
            3 | 5 => {
                let move_number = get_u32(record, 4).max(1);
                put_u32(record, 4, move_number);
                record[1] = if move_number == 1 {
                    record[1] % 32
                } else {
                    record[1] | 32
                };
                if record[0] == 3 && record[2] == self.number {
                    record[2] = (record[2] + 1) % 16;
                }
            }
            4 => {
                record[8 + 4] |= 32;
                record[8 + 5] = self.number;
                let move_number = get_u32(record, 8 + 8).max(1);
                put_u32(record, 8 + 8, move_number);
                self.fit_values(random, record);
            }
            _ => {}
        }
    }

    /// The values of a take's image, in the range of its point.
    fn fit_values(&self, random: &mut Random, record: &mut [u8]) {
        let point = record[8 + 4];
        let floors = get_u32(record, 8 + 28) as usize;
        put_i32(record, 8 + 40, self.value(random, point));
        let row = moved_len(inputs::form_of(&record[8..]));
        for at in (8 + 48 + floors..record.len()).step_by(row) {
            put_i32(record, at + 12, self.value(random, point));
        }
    }

    /// Records that make the point held by this move, if there are such: at home by
    /// none, elsewhere by a take. Whether it is held then.
    fn held(&self, random: &mut Random, point: u8, move_number: u32, log: &mut Vec<u8>) -> bool {
        if point < 32 || move_number == 0 {
            return point < 32 && move_number == 0;
        }
        let mut image = [0; IMAGE_MAX];
        let head = ImageHead {
            point,
            destination: self.number,
            source: random.below(16) as u8,
            move_number,
            heard: inputs::number(random),
            value: self.value(random, point),
            quality: inputs::quality(random),
        };
        let form = *random.pick(&[Form::Untimed, Form::Timed]);
        let (floors, records) = ([].into_iter(), [].into_iter());
        let length = write_image_as(form, &head, floors, records, &mut image);
        assert_eq!(length, IMAGE_MIN);
        log.extend(write_take_head(length));
        log.extend_from_slice(&image[..length]);
        true
    }

    /// The same for a point given by this move.
    fn given(&self, random: &mut Random, point: u8, move_number: u32, log: &mut Vec<u8>) {
        if self.held(random, point, move_number - 1, log) {
            log.extend(write_give(&Give {
                point,
                destination: (self.number + 1) % 16,
                move_number,
            }));
        }
    }

    /// A log that the record can follow, if it is well-formed.
    fn log_before(&self, random: &mut Random, record: &[u8]) -> Vec<u8> {
        let mut log = write_head(self.number).to_vec();
        let Parsed::Whole(record, _) = parse_record(record, 0) else {
            return log;
        };
        match record {
            Record::Executed(r) => {
                self.held(random, r.point, 1, &mut log);
            }
            Record::Gone(r) => log.extend(write_executed(&Executed {
                op: Op::Read,
                point: 3,
                outcome: 0,
                client: r.client,
                call: 1,
                done: 1,
                argument: 0,
                value: self.value(random, 3),
                quality: 0,
                time: inputs::number(random),
            })),
            Record::Give(r) => {
                self.held(random, r.point, r.move_number.max(1) - 1, &mut log);
            }
            Record::Release(r) => self.given(random, r.point, r.move_number.max(1), &mut log),
            Record::Take(_) => {}
        }
        log
    }
}

fn any_record(random: &mut Random) -> Vec<u8> {
    let kind = match random.below(20) {
        0 => 4,
        n => [1, 6, 2, 3, 5][n as usize % 5],
    };
    inputs::record(random, kind)
}

/// Cut, another string, damaged, or as it is.
fn spoil(random: &mut Random, record: &mut Vec<u8>) {
    match random.below(10) {
        0 => record.truncate(random.below(record.len() as u32) as usize),
        1 => inputs::string(random, 40, record),
        2..=5 => inputs::damage(random, record),
        _ => {}
    }
}

/// A log, and what stands at its end.
struct Case {
    log: Vec<u8>,
    at: usize,
    class: &'static str,
    more: bool,
}

impl Case {
    fn new(random: &mut Random, reader: &Reader) -> Case {
        let mut record = any_record(random);
        reader.fit(random, &mut record);
        let mut log = reader.log_before(random, &record);
        let at = log.len();
        spoil(random, &mut record);
        log.extend_from_slice(&record);
        let class = class(&record);
        let whole = KINDS.contains(&class);
        if whole && random.chance(20) {
            log.extend((0..1 + random.below(30)).map(|_| inputs::byte(random)));
        }
        let mut case = Case {
            more: whole && log.len() > at + size(&record),
            log,
            at,
            class,
        };
        if random.below(500) == 0 {
            case.class = "head incomplete";
            case.log.truncate(random.below(HEAD_LEN as u32) as usize);
        }
        case
    }

    /// The class, if recovery says of it what its layout asks for. Whether a whole
    /// record can follow is not its layout.
    fn checked(&self, number: u32, length: usize) -> &'static str {
        let kind = KINDS.iter().position(|&k| k == self.class);
        match kind {
            Some(_) if self.more => return "more after it",
            Some(_) if number == 0 => assert_eq!(length, self.log.len()),
            Some(kind) => return CANNOT[kind],
            None if self.class == "head incomplete" => assert_eq!(number, BAD_LOG),
            None if self.class.ends_with("incomplete") || self.class == "nothing there" => {
                assert_eq!((number, length), (0, self.at), "{}", self.class);
            }
            None => assert_eq!(number, BAD_LOG, "{}: {:02x?}", self.class, self.log),
        }
        self.class
    }
}

#[test]
fn parsed() {
    let mut random = Random::new(seed());
    let mut tally = Tally::new("parsed records", &CLASSES);
    let mut reader = Reader::new(&mut random);
    let mut pair = Pair::of(states::founded(&reader.plan, reader.number), HEAD_LEN);
    let mut outputs = Outputs::new(0);
    for run in 0..runs() / 4 {
        if run % 64 == 0 {
            reader = Reader::new(&mut random);
        }
        let case = Case::new(&mut random, &reader);
        pair.log.clone_from(&case.log);
        pair.server_log.clone_from(&case.log);
        pair.room = case.log.len();
        let mut lent = pair.whole(&outputs);
        let short = random.below(500) == 0;
        if short {
            lent.state = random.below(STATE_LEN as u32) as usize;
        }
        let call = Call::Recover(write_plan(&reader.plan).to_vec());
        let answer = pair.call(&call, &lent, &mut outputs);
        tally.meet(match short {
            true => {
                assert_eq!(answer.number, TOO_SHORT);
                "state too short"
            }
            false => case.checked(answer.number, pair.length()),
        });
    }
    tally.finish();
}

// ---- records appended

/// A call that appends the record, if the server suits it.
fn call_for(random: &mut Random, record: &Record) -> Call {
    match *record {
        Record::Executed(r) => {
            let request = Request {
                op: r.op,
                point: r.point,
                client: r.client,
                call: r.call,
                done: r.done,
                lease_end: 1,
                argument: r.argument,
            };
            Call::Request(write_request(&request).to_vec())
        }
        Record::Gone(r) => {
            let (client, time) = (r.client, r.time);
            Call::Notice(write_notice(&Notice { client, time }).to_vec())
        }
        Record::Give(r) => Call::Give(u32::from(r.point), u32::from(r.destination)),
        Record::Take(image) => Call::Take(image.to_vec()),
        Record::Release(r) => {
            let packet = write_receipt(&Receipt {
                point: r.point,
                cabinet: random.below(16) as u8,
                move_number: r.move_number,
            });
            Call::Release(packet.to_vec())
        }
    }
}

/// A server that the call suits, with a log of any length.
fn server_for(random: &mut Random, number: u8, record: &Record) -> Server {
    let base = states::founded(&plan_of(random, number), number);
    let server = states::grown(base, 10 + u64::from(random.below(60)));
    match *record {
        Record::Executed(r) => states::holding(server, r.point, u32::from(r.point >= 32)),
        Record::Gone(r) => states::knowing(server, r.client, 1),
        Record::Give(r) => states::holding(server, r.point, r.move_number - 1),
        Record::Take(_) => server,
        Record::Release(r) => states::giving(server, r.point, r.move_number),
    }
}

/// A well-formed record that a server may write; at times a full image, one with a byte
/// changed, or one to another server. An image may have no times, an executed record has.
fn to_append(random: &mut Random, reader: &Reader) -> Vec<u8> {
    let mut bytes = any_record(random);
    if bytes[0] == 1 {
        bytes = inputs::record(random, 6);
    }
    if bytes[0] == 4 && random.below(50) == 0 {
        let image = inputs::image(random, Tables::Full, (-100, 1000));
        bytes = [&write_take_head(image.len())[..], &image].concat();
    }
    reader.fit_always(random, &mut bytes);
    if bytes[0] == 4 && random.chance(20) {
        let at = 8 + random.below(bytes.len() as u32 - 8) as usize;
        bytes[at] = inputs::byte(random);
    }
    if bytes[0] == 4 && random.chance(5) {
        bytes[8 + 5] = (reader.number + 1) % 16;
    }
    bytes
}

const APPENDED: [&str; 10] = [
    "executed",
    "gone",
    "give",
    "take",
    "release",
    "exactly full",
    "no room",
    "place past the log",
    "take: malformed image",
    "take: refused",
];

/// The log's space: less than the recorded length, too little for the record, just
/// enough, or more.
fn space(random: &mut Random, at: usize, size: usize) -> usize {
    match random.below(20) {
        0 => random.below(at as u32) as usize,
        1 | 2 => at + size,
        3 | 4 => at + random.below(size as u32) as usize,
        _ => at + size + random.below(60) as usize,
    }
}

#[test]
fn appended() {
    let mut random = Random::new(seed());
    let mut tally = Tally::new("appended records", &APPENDED);
    let mut outputs = Outputs::new(RESULT_LEN);
    let mut pair = Pair::of(states::founded(&ANY, 0), 14_000);
    for _ in 0..runs() / 4 {
        let reader = Reader {
            number: random.below(16) as u8,
            plan: ANY,
        };
        let bytes = to_append(&mut random, &reader);
        let Parsed::Whole(record, size) = parse_record(&bytes, 0) else {
            panic!("no record: {bytes:02x?}");
        };
        let call = call_for(&mut random, &record);
        pair.set(server_for(&mut random, reader.number, &record));
        let at = pair.length();
        let mut lent = pair.whole(&outputs);
        lent.log = space(&mut random, at, size);
        let answer = pair.call(&call, &lent, &mut outputs);
        if answer.number == 0 {
            let same = bytes[0] == 6 || pair.log[at..at + size] == bytes[..];
            assert!(same && pair.length() == at + size, "{call:02x?}");
        }
        tally.meet(match answer.number {
            NOT_SOUND => "place past the log",
            LOG_FULL => "no room",
            0 if at + size == lent.log => "exactly full",
            0 => KINDS[usize::from(bytes[0]) - 1],
            MALFORMED if bytes[0] == 4 => "take: malformed image",
            _ if bytes[0] == 4 => "take: refused",
            number => panic!("{number}: {call:02x?}"),
        });
    }
    tally.finish();
}
