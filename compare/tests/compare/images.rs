//! Images. A string is taken by a server that it suits: refused with 1 exactly if it
//! is no image, or a value is out of the point's range; what is taken shows its fields in
//! state and log.

use compare::inputs::{self, Tables};
use compare::kernel::Call;
use compare::pair::{Outputs, Pair, MALFORMED};
use compare::states;
use compare::tally::{runs, seed, Tally};
use second::bytes::{all_zero, get_i32, get_u32};
use second::image::{IMAGE_MAX, IMAGE_MAX_UNTIMED};
use second::plan::{Entry, Plan};
use second::random::Random;
use second::server::Server;

const CLASSES: [&str; 38] = [
    "taken",
    "image",
    "image: full",
    "image: no floors",
    "image: no records",
    "untimed image",
    "untimed image: full",
    "untimed image: no floors",
    "untimed image: no records",
    "point's value out of range",
    "a record's value out of range",
    "under 48 bytes",
    "over 12,592 bytes",
    "first four bytes",
    "zero byte of the head",
    "point",
    "destination",
    "source",
    "quality",
    "zeros of the point's part",
    "point's pair",
    "floors: offset",
    "floors: length",
    "records: offset",
    "records: length",
    "end of the slice",
    "floor 0",
    "client 0",
    "clients not ascending",
    "record: zero byte",
    "record: op",
    "record: argument",
    "record: outcome",
    "record: quality",
    "record: client without a floor",
    "record: call under the floor",
    "record: call over floor + 15",
    "records not ascending",
];

/// An image, or the first fault of the string. The range is apart: it is the
/// plan's.
fn class(b: &[u8]) -> &'static str {
    match b.len() {
        0..=47 => return "under 48 bytes",
        48..=IMAGE_MAX => {}
        _ => return "over 12,592 bytes",
    }
    let n = |at: usize| get_u32(b, at) as usize;
    let (floors, records) = (n(28), n(36));
    let row = if b[3] == 0x31 { 20 } else { 24 };
    match b {
        _ if b[..3] != *b"MVI" || !matches!(b[3], 0x31 | 0x32) => "first four bytes",
        _ if b[7] != 0 => "zero byte of the head",
        _ if b[4] > 63 => "point",
        _ if b[5] > 15 => "destination",
        _ if b[6] > 15 => "source",
        _ if b[44] > 2 => "quality",
        _ if !all_zero(&b[45..48]) => "zeros of the point's part",
        _ if (n(16), n(20)) != (40, 8) => "point's pair",
        _ if n(24) != 48 => "floors: offset",
        _ if floors % 8 != 0 || floors > 256 => "floors: length",
        _ if n(32) != 48 + floors => "records: offset",
        _ if records % row != 0 => "records: length",
        _ if 48 + floors + records != b.len() => "end of the slice",
        _ => tables_class(&b[48..48 + floors], &b[48 + floors..], row),
    }
}

fn tables_class(floors: &[u8], records: &[u8], row: usize) -> &'static str {
    let floors: Vec<(u32, u32)> = pairs(floors, 8);
    let ids: Vec<(u32, u32)> = pairs(records, row);
    if floors.iter().any(|f| f.1 == 0) {
        return "floor 0";
    }
    if floors.iter().any(|f| f.0 == 0) {
        return "client 0";
    }
    if floors.windows(2).any(|f| f[0].0 >= f[1].0) {
        return "clients not ascending";
    }
    for r in records.chunks_exact(row) {
        if let Some(fault) = record_fault(r, &floors) {
            return fault;
        }
    }
    if ids.windows(2).any(|i| i[0] >= i[1]) {
        return "records not ascending";
    }
    match (row, floors.len(), ids.len()) {
        (24, 32, 512) => "image: full",
        (24, 0, _) => "image: no floors",
        (24, _, 0) => "image: no records",
        (24, _, _) => "image",
        (_, 32, 512) => "untimed image: full",
        (_, 0, _) => "untimed image: no floors",
        (_, _, 0) => "untimed image: no records",
        _ => "untimed image",
    }
}

fn pairs(bytes: &[u8], row: usize) -> Vec<(u32, u32)> {
    let rows = bytes.chunks_exact(row);
    rows.map(|b| (get_u32(b, 0), get_u32(b, 4))).collect()
}

fn record_fault(r: &[u8], floors: &[(u32, u32)]) -> Option<&'static str> {
    let (client, call) = (get_u32(r, 0), get_u32(r, 4));
    let argument = get_i32(r, 8);
    let floor = floors.iter().find(|f| f.0 == client);
    Some(match r[16] {
        _ if r[19] != 0 => "record: zero byte",
        6.. => "record: op",
        0 | 4 if argument != 0 => "record: argument",
        5 if !(0..=1000).contains(&argument) => "record: argument",
        _ if r[17] > 4 => "record: outcome",
        _ if r[18] > 2 => "record: quality",
        _ => match floor {
            None => "record: client without a floor",
            Some(f) if call < f.1 => "record: call under the floor",
            Some(f) if u64::from(call) > u64::from(f.1) + 15 => "record: call over floor + 15",
            Some(_) => return None,
        },
    })
}

fn range_class(b: &[u8], range: (i32, i32), otherwise: &'static str) -> &'static str {
    let out = |value: i32| value < range.0 || value > range.1;
    let row = if b[3] == 0x31 { 20 } else { 24 };
    let mut records = b[48 + get_u32(b, 28) as usize..].chunks_exact(row);
    match otherwise {
        _ if out(get_i32(b, 40)) => "point's value out of range",
        _ if records.any(|r| out(get_i32(r, 12))) => "a record's value out of range",
        whole => whole,
    }
}

/// Now and then a full image, else a small one.
fn base(random: &mut Random, range: (i32, i32)) -> Vec<u8> {
    let tables = match random.below(40) {
        0 => Tables::Full,
        _ => Tables::Small,
    };
    inputs::image(random, tables, range)
}

/// As it is, out of order, damaged, or a random string.
fn spoil(random: &mut Random, bytes: &mut Vec<u8>) {
    match random.below(20) {
        0..=3 => {}
        4 => inputs::disorder(random, bytes),
        5 => inputs::string(random, 200, bytes),
        6 => {
            let longest = *random.pick(&[IMAGE_MAX, IMAGE_MAX_UNTIMED]);
            bytes.resize(longest + random.below(40) as usize, 0);
        }
        7 | 8 => {
            let at = random.below(bytes.len().min(48) as u32) as usize;
            bytes[at] = inputs::byte(random);
        }
        _ => {
            for _ in 0..=random.below(2) {
                inputs::damage(random, bytes);
            }
        }
    }
}

/// A server that the image may be taken by: its number is the image's destination, and
/// no point is at home.
fn taker(image: &[u8], (low, high): (i32, i32)) -> Server {
    let number = image[5];
    let plan = Plan::uniform(Entry {
        low,
        high,
        fallback: low,
        home: (number + 1) % 16,
    });
    states::founded(&plan, number)
}

#[test]
fn images() {
    let mut random = Random::new(seed());
    let mut tally = Tally::new("images", &CLASSES);
    let mut outputs = Outputs::new(0);
    let mut pair = Pair::of(states::founded(&inputs::plan(&mut random), 0), 14_000);
    let (mut whole, mut bytes, mut range) = (Vec::new(), Vec::new(), (0, 0));
    for run in 0..runs() / 4 {
        if run % 8 == 0 {
            let e = inputs::entry(&mut random);
            range = (e.low, e.high);
            whole = base(&mut random, range);
        }
        bytes.clone_from(&whole);
        spoil(&mut random, &mut bytes);
        let mut tested = range;
        match random.below(10) {
            0 => tested.0 = tested.0.saturating_add(1).min(tested.1),
            1 => tested.1 = tested.1.saturating_sub(1).max(tested.0),
            _ => {}
        }
        pair.set(taker(&whole, tested));
        let answer = pair.run(&Call::Take(bytes.clone()), &mut outputs);
        let mut class = class(&bytes);
        if class.contains("image") {
            class = range_class(&bytes, tested, class);
        }
        let well_formed = class.contains("image");
        assert_eq!(
            answer.number != MALFORMED,
            well_formed,
            "{class}: {tested:?}, image {bytes:02x?}"
        );
        tally.meet(class);
        if answer.number == 0 {
            tally.meet("taken");
        }
    }
    tally.finish();
}
