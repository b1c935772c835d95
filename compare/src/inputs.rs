//! Random well-formed values, often at the limits of their fields, and damaged
//! bytes.

use second::bytes::get_u32;
use second::image::{
    moved_len, write_image_as, Floor, ImageHead, Moved, IMAGE_MAGIC_UNTIMED, IMAGE_MAX,
};
use second::packet::{
    write_packet, write_result_untimed, Grant, Notice, Packet, Receipt, RefusalPacket, Reply,
    Request,
};
use second::plan::{Entry, Plan};
use second::program::Form;
use second::random::Random;
use second::record::{
    write_executed, write_executed_untimed, write_give, write_gone, write_release, write_take_head,
    Executed, Give, Gone, Release,
};
use second::rule::{Op, ARGUMENTS, QUALITY_MAX};

/// Often near 0 or the greatest.
pub fn number(random: &mut Random) -> u32 {
    match random.below(4) {
        0 => random.below(40),
        1 => u32::MAX - random.below(40),
        _ => random.next_u32(),
    }
}

pub fn at_least_1(random: &mut Random) -> u32 {
    number(random).max(1)
}

/// Near 0, near the ends of 32 bits, or anywhere.
pub fn signed(random: &mut Random) -> i32 {
    match random.below(4) {
        0 => random.between(-1100, 1100),
        1 => i32::MAX.wrapping_add(random.between(-3, 3)),
        _ => random.next_u32() as i32,
    }
}

pub fn op(random: &mut Random) -> Op {
    Op::from_byte(random.below(6) as u8).expect("an op")
}

/// An op and an argument in its range.
pub fn op_argument(random: &mut Random) -> (Op, i32) {
    let op = op(random);
    let (least, greatest) = ARGUMENTS[op as usize];
    (op, signed(random).clamp(least, greatest))
}

/// Valid, invalid or by hand.
pub fn quality(random: &mut Random) -> u8 {
    random.below(u32::from(QUALITY_MAX) + 1) as u8
}

/// Done and call of one window.
pub fn window(random: &mut Random) -> (u32, u32) {
    let done = at_least_1(random);
    (done, done.saturating_add(random.below(16)))
}

fn request(random: &mut Random, point: u8, client: u32) -> Request {
    let (done, call) = window(random);
    let (op, argument) = op_argument(random);
    Request {
        op,
        point,
        client,
        call,
        done,
        lease_end: number(random),
        argument,
    }
}

/// Of a kind 1 to 7; a result of kind 2 has time 0.
pub fn packet_of_kind(random: &mut Random, kind: u32) -> Packet {
    let point = random.below(64) as u8;
    let client = at_least_1(random);
    let call = at_least_1(random);
    match kind {
        1 => Packet::Request(request(random, point, client)),
        2 | 7 => Packet::Result(Reply {
            outcome: random.below(5) as u8,
            point,
            quality: quality(random),
            client,
            call,
            value: signed(random),
            time: if kind == 2 { 0 } else { number(random) },
        }),
        3 => Packet::Refusal(RefusalPacket {
            number: 3 + random.below(7) as u8,
            point,
            client,
            call,
        }),
        4 => Packet::Receipt(Receipt {
            point,
            cabinet: random.below(16) as u8,
            move_number: number(random),
        }),
        5 => Packet::Notice(Notice {
            client,
            time: number(random),
        }),
        _ => Packet::Grant(Grant {
            client,
            lease_end: number(random),
        }),
    }
}

/// The bytes of a packet that was made of this kind.
pub fn packet_bytes(packet: &Packet, kind: u32) -> Vec<u8> {
    match packet {
        Packet::Result(p) if kind == 2 => write_result_untimed(p).to_vec(),
        _ => write_packet(packet),
    }
}

/// A byte, often at a limit of some field.
pub fn byte(random: &mut Random) -> u8 {
    const LIMITS: [u8; 16] = [0, 1, 2, 3, 4, 5, 6, 7, 9, 10, 15, 16, 63, 64, 128, 255];
    match random.below(2) {
        0 => *random.pick(&LIMITS),
        _ => random.next_u32() as u8,
    }
}

/// Up to `longest` bytes, the first one often a kind.
pub fn string(random: &mut Random, longest: u32, bytes: &mut Vec<u8>) {
    let length = random.below(longest + 1);
    bytes.clear();
    bytes.extend((0..length).map(|_| byte(random)));
    if length > 0 && random.chance(70) {
        bytes[0] = random.below(9) as u8;
    }
}

/// One byte changed, four bytes changed, bytes cut, or bytes added.
pub fn damage(random: &mut Random, bytes: &mut Vec<u8>) {
    let length = bytes.len() as u32;
    match random.below(8) {
        0 if length > 0 => bytes.truncate(random.below(length) as usize),
        1 => {
            for _ in 0..=random.below(40) {
                bytes.push(byte(random));
            }
        }
        2 | 3 if length >= 4 => {
            let at = 4 * random.below(length / 4) as usize;
            let four = if random.chance(30) { 0 } else { number(random) };
            bytes[at..at + 4].copy_from_slice(&four.to_le_bytes());
        }
        4 if length > 0 => {
            let at = random.below(length) as usize;
            bytes[at] = bytes[at].wrapping_add(if random.chance(50) { 1 } else { 255 });
        }
        _ if length > 0 => {
            let at = random.below(length) as usize;
            bytes[at] = byte(random);
        }
        _ => bytes.push(byte(random)),
    }
}

// ---- the plan

/// Low <= fallback <= high.
pub fn entry(random: &mut Random) -> Entry {
    let mut three = [signed(random), signed(random), signed(random)];
    match random.below(4) {
        0 => three[1] = three[0],
        1 => three[2] = three[0].saturating_add(random.between(0, 2000)),
        _ => {}
    }
    three.sort_unstable();
    Entry {
        low: three[0],
        fallback: three[1],
        high: three[2],
        home: random.below(16) as u8,
    }
}

/// An entry with this range.
pub fn entry_of(random: &mut Random, (low, high): (i32, i32)) -> Entry {
    Entry {
        low,
        high,
        fallback: within(random, (low, high)),
        home: random.below(16) as u8,
    }
}

/// A range of this width, anywhere.
pub fn range(random: &mut Random, width: u32) -> (i32, i32) {
    let lows = (1 << 32) - u64::from(width);
    let low = i64::from(i32::MIN) + (random.next_u64() % lows) as i64;
    (low as i32, (low + i64::from(width)) as i32)
}

pub fn plan(random: &mut Random) -> Plan {
    let mut plan = Plan::default();
    for e in &mut plan.entries {
        *e = entry(random);
    }
    plan
}

// ---- images

/// How large the tables of an image are.
#[derive(Clone, Copy)]
pub enum Tables {
    /// A few clients with a few records.
    Small,
    /// All 32 clients with 16 records each.
    Full,
}

/// Floors by client.
pub fn floors(random: &mut Random, tables: Tables) -> Vec<Floor> {
    let (count, gap) = match tables {
        Tables::Small => (random.below(5), 1 << 30),
        Tables::Full => (32, 1 << 27),
    };
    let mut client: u32 = 0;
    let floors = (0..count).map(|_| {
        let most = if random.chance(50) { 3 } else { gap - 1 };
        client += 1 + random.below(most);
        let floor = match (random.chance(20), tables) {
            (true, Tables::Small) => u32::MAX - random.below(20),
            _ => 1 + random.below(1 << 30),
        };
        Floor { client, floor }
    });
    floors.collect()
}

pub fn moved(random: &mut Random, client: u32, call: u32, range: (i32, i32)) -> Moved {
    let (op, argument) = op_argument(random);
    Moved {
        client,
        call,
        argument,
        value: within(random, range),
        op,
        outcome: random.below(5) as u8,
        quality: quality(random),
        time: number(random),
    }
}

/// A number of the range, often its end.
pub fn within(random: &mut Random, (low, high): (i32, i32)) -> i32 {
    let span = (i64::from(high) - i64::from(low) + 1) as u64;
    match random.below(4) {
        0 => low,
        1 => high,
        _ => (i64::from(low) + (random.next_u64() % span) as i64) as i32,
    }
}

/// The form of an image, or of bytes that were one.
pub fn form_of(image: &[u8]) -> Form {
    match image.starts_with(&IMAGE_MAGIC_UNTIMED) {
        true => Form::Untimed,
        false => Form::Timed,
    }
}

/// A well-formed image of either form with values of the range.
pub fn image(random: &mut Random, tables: Tables, range: (i32, i32)) -> Vec<u8> {
    let floors = floors(random, tables);
    let mut records = Vec::new();
    for f in &floors {
        let percent = match tables {
            Tables::Full => 100,
            Tables::Small => *random.pick(&[0, 10, 50, 100]),
        };
        for call in f.floor..=f.floor.saturating_add(15) {
            if random.chance(percent) {
                records.push(moved(random, f.client, call, range));
            }
        }
    }
    let head = ImageHead {
        point: random.below(64) as u8,
        destination: random.below(16) as u8,
        source: random.below(16) as u8,
        move_number: number(random),
        heard: number(random),
        value: within(random, range),
        quality: quality(random),
    };
    let mut bytes = vec![0; IMAGE_MAX];
    let form = *random.pick(&[Form::Untimed, Form::Timed]);
    let (floors, records) = (floors.into_iter(), records.into_iter());
    let length = write_image_as(form, &head, floors, records, &mut bytes);
    bytes.truncate(length);
    bytes
}

/// Its second floor, or one of its records from the second on, copied over the
/// one before or exchanged with it: an order broken, an id twice.
pub fn disorder(random: &mut Random, bytes: &mut [u8]) {
    let floors_len = get_u32(bytes, 28) as usize;
    let (start, row, end) = match random.below(2) {
        0 => (48, 8, 48 + floors_len),
        _ => (48 + floors_len, moved_len(form_of(bytes)), bytes.len()),
    };
    let rows = ((end - start) / row) as u32;
    if rows < 2 {
        return;
    }
    let at = start + row * random.below(rows - 1) as usize;
    let (first, second) = bytes[at..at + 2 * row].split_at_mut(row);
    match random.below(2) {
        0 => first.swap_with_slice(second),
        _ => first.copy_from_slice(second),
    }
}

// ---- log records

fn executed(random: &mut Random, point: u8) -> Executed {
    let (op, argument) = op_argument(random);
    let (done, call) = window(random);
    Executed {
        op,
        point,
        outcome: random.below(5) as u8,
        client: at_least_1(random),
        call,
        done,
        argument,
        value: signed(random),
        quality: quality(random),
        time: number(random),
    }
}

/// A well-formed record of a kind 1 to 6.
pub fn record(random: &mut Random, kind: u32) -> Vec<u8> {
    let point = random.below(64) as u8;
    match kind {
        1 => write_executed_untimed(&executed(random, point)).to_vec(),
        6 => write_executed(&executed(random, point)).to_vec(),
        2 => write_gone(&Gone {
            client: at_least_1(random),
            time: number(random),
        })
        .to_vec(),
        3 => write_give(&Give {
            point,
            destination: random.below(16) as u8,
            move_number: number(random),
        })
        .to_vec(),
        4 => {
            let image = image(random, Tables::Small, (i32::MIN, i32::MAX));
            [&write_take_head(image.len())[..], &image].concat()
        }
        _ => write_release(&Release {
            point,
            move_number: number(random),
        })
        .to_vec(),
    }
}
