//! A server's state in its buffer, from docs/STATE.md, and random sound
//! servers.

use crate::inputs::{self, Tables};
use second::bytes::put_u32;
use second::image::Floor;
use second::plan::{write_plan, Entry, Plan, POINTS};
use second::random::Random;
use second::record::HEAD_LEN;
use second::server::{Completion, Hold, Point, Server, Taken, BEFORE_THIS_LOG, STATE_LEN};

pub const PLAN_AT: usize = 40;
pub const POINTS_AT: usize = 1064;
pub const CLIENTS_AT: usize = 3112;
pub const RECORDS_AT: usize = 3368;
/// Length of a completion record.
pub const RECORD_LEN: usize = 32;
/// Where 512 completion records end.
pub const STATE_END: usize = 19_752;

/// The log that a server's recorded length is of.
pub const LOG_LEN: usize = 4096;

/// What stands behind the last completion record: no call reads or writes there.
pub const BEHIND: u8 = 0x5A;

// ---- the buffer

/// The 32,768 bytes of a server's state.
pub fn buffer(server: &Server) -> Vec<u8> {
    let mut b = vec![BEHIND; STATE_LEN];
    put_buffer(server, &mut b);
    b
}

/// Where its last completion record ends.
pub fn end(server: &Server) -> usize {
    RECORDS_AT + RECORD_LEN * server.records.len()
}

/// The same up to there; what lies behind stays.
pub fn put_buffer(server: &Server, b: &mut [u8]) {
    b[..RECORDS_AT].fill(0);
    b[..4].copy_from_slice(&[0x57, 0x53, 0x54, 0x32]);
    b[4] = server.cabinet;
    put_u32(b, 8, server.heard);
    put_u32(b, 12, server.clients.len() as u32);
    put_u32(b, 16, server.records.len() as u32);
    put_u64(b, 24, server.length);
    put_u64(b, 32, server.mark);
    b[PLAN_AT..POINTS_AT].copy_from_slice(&write_plan(&server.plan));
    for (i, point) in server.points.iter().enumerate() {
        put_point(&mut b[POINTS_AT + 32 * i..][..32], point);
    }
    for (i, f) in server.clients.iter().enumerate() {
        put_u32(b, CLIENTS_AT + 8 * i, f.client);
        put_u32(b, CLIENTS_AT + 8 * i + 4, f.floor);
    }
    for (i, r) in server.records.iter().enumerate() {
        put_record(&mut b[RECORDS_AT + RECORD_LEN * i..][..RECORD_LEN], r);
    }
}

fn put_u64(b: &mut [u8], at: usize, value: u64) {
    b[at..at + 8].copy_from_slice(&value.to_le_bytes());
}

/// A signed number is kept in two's complement.
fn put_signed(b: &mut [u8], at: usize, value: i32) {
    put_u32(b, at, value as u32);
}

fn put_point(b: &mut [u8], point: &Point) {
    let (status, destination, gave) = match point.hold {
        Hold::Absent => (0, 0, 0),
        Hold::Held => (1, 0, 0),
        Hold::Given { destination, end } => (2, destination, end),
        Hold::Released { destination, end } => (3, destination, end),
    };
    b[0] = status;
    b[1] = point.quality;
    b[2] = destination;
    put_signed(b, 4, point.value);
    put_u32(b, 8, point.move_number);
    put_u32(b, 12, point.taken.map_or(0, |t| t.move_number));
    put_u64(b, 16, gave);
    put_u64(b, 24, point.taken.map_or(0, |t| t.end));
}

fn put_record(b: &mut [u8], r: &Completion) {
    put_u32(b, 0, r.client);
    put_u32(b, 4, r.call);
    put_signed(b, 8, r.argument);
    put_signed(b, 12, r.value);
    b[16] = r.op as u8;
    b[17] = r.outcome;
    b[18] = r.quality;
    b[19] = r.point;
    put_u32(b, 20, r.time);
    put_u64(b, 24, r.end);
}

// ---- servers that a call suits

/// Just founded, with this number.
pub fn founded(plan: &Plan, number: u8) -> Server {
    let mut server = Server::new();
    let mut head = [0; HEAD_LEN];
    let answer = server.found(STATE_LEN, &mut head, &write_plan(plan), u32::from(number));
    assert_eq!(answer.number, 0, "a plan and a number");
    server
}

/// The log has this length, all of it synced.
pub fn grown(mut server: Server, length: u64) -> Server {
    server.length = length;
    server.mark = length;
    server
}

/// Holds the point by this move; by none if that is 0, and the point is at home.
pub fn holding(mut server: Server, point: u8, move_number: u32) -> Server {
    let length = server.length;
    let p = &mut server.points[usize::from(point)];
    p.hold = Hold::Held;
    p.move_number = move_number;
    p.taken = (move_number > 0).then_some(Taken {
        move_number,
        end: length - 1,
    });
    server
}

/// Has given the point by this move, which is at least 1; at 1 the point is at home.
pub fn giving(server: Server, point: u8, move_number: u32) -> Server {
    let mut server = holding(server, point, move_number - 1);
    let (destination, end) = ((server.cabinet + 1) % 16, server.length);
    let p = &mut server.points[usize::from(point)];
    p.hold = Hold::Given { destination, end };
    p.move_number = move_number;
    server
}

/// Knows the client, alone.
pub fn knowing(mut server: Server, client: u32, floor: u32) -> Server {
    server.clients = vec![Floor { client, floor }];
    server
}

// ---- random servers

/// A sound server that has given the point, its give synced. That many percent
/// of its records are the point's.
pub fn server(random: &mut Random, tables: Tables, point: u8, percent: u32) -> Server {
    let mut server = Server::new();
    server.founded = true;
    server.cabinet = random.below(16) as u8;
    server.plan = inputs::plan(random);
    server.heard = inputs::number(random);
    server.length = u64::from(10 + random.below(LOG_LEN as u32 - 9));
    server.mark = 10 + random.next_u64() % (server.length - 9);
    for p in 0..POINTS {
        server.points[p] = point_state(random, &server, p as u8);
    }
    let taken = taken(random, &server, point, server.mark);
    let (destination, end) = given(random, &server, taken, server.mark);
    let given = &mut server.points[usize::from(point)];
    given.hold = Hold::Given { destination, end };
    given.move_number = 1 + taken.map_or(0, |t| t.move_number);
    given.taken = taken;
    server.clients = inputs::floors(random, tables);
    server.records = records(random, &server, tables, point, percent);
    server
}

/// A place from one to another, often the first.
fn place(random: &mut Random, first: u64, last: u64) -> u64 {
    match random.chance(20) {
        true => first,
        false => first + random.next_u64() % (last + 1 - first),
    }
}

/// The latest take, with an end below that one; a point at its home may never
/// have been taken.
fn taken(random: &mut Random, server: &Server, p: u8, end: u64) -> Option<Taken> {
    if server.plan.entry(p).home == server.cabinet && random.chance(50) {
        return None;
    }
    Some(Taken {
        move_number: inputs::at_least_1(random).min(u32::MAX - 1),
        end: place(random, BEFORE_THIS_LOG, end - 1),
    })
}

/// Given after the take, with an end up to that one, or both before this log: the
/// destination and the end.
fn given(random: &mut Random, server: &Server, taken: Option<Taken>, end: u64) -> (u8, u64) {
    let destination = (server.cabinet + 1 + random.below(15) as u8) % 16;
    let first = match taken {
        None => BEFORE_THIS_LOG,
        Some(t) if t.end == BEFORE_THIS_LOG && random.chance(50) => return (destination, t.end),
        Some(t) => t.end + 1,
    };
    (destination, place(random, first, end))
}

/// A point as a run may leave it: an absent one as founding did; a held one has
/// the move it was taken with, a given or released one the next.
fn point_state(random: &mut Random, server: &Server, p: u8) -> Point {
    let entry: Entry = *server.plan.entry(p);
    if entry.home != server.cabinet && random.chance(25) {
        return Point {
            value: entry.fallback,
            quality: 1,
            move_number: 0,
            hold: Hold::Absent,
            taken: None,
        };
    }
    let taken = taken(random, server, p, server.length);
    let latest = taken.map_or(0, |t| t.move_number);
    let (destination, end) = given(random, server, taken, server.length);
    let (hold, move_number) = match random.below(3) {
        0 => (Hold::Held, latest),
        1 => (Hold::Released { destination, end }, latest + 1),
        _ => (Hold::Given { destination, end }, latest + 1),
    };
    Point {
        value: inputs::within(random, (entry.low, entry.high)),
        quality: inputs::quality(random),
        move_number,
        hold,
        taken,
    }
}

/// In any order of ids, as records arrive; their ends do not fall.
fn records(
    random: &mut Random,
    server: &Server,
    tables: Tables,
    point: u8,
    percent: u32,
) -> Vec<Completion> {
    let others: Vec<u8> = (0..POINTS as u8)
        .filter(|&p| matches!(server.point(p).hold, Hold::Held | Hold::Given { .. }))
        .collect();
    let mut records = Vec::new();
    for f in &server.clients {
        let often = match tables {
            Tables::Full => 100,
            Tables::Small => *random.pick(&[0, 10, 50, 100]),
        };
        for call in f.floor..=f.floor.saturating_add(15) {
            if random.chance(often) {
                let p = match random.chance(percent) {
                    true => point,
                    false => *random.pick(&others),
                };
                records.push(completion(random, server, (f.client, call), p));
            }
        }
    }
    arrive(random, &mut records);
    records
}

fn completion(
    random: &mut Random,
    server: &Server,
    (client, call): (u32, u32),
    point: u8,
) -> Completion {
    let range = server.plan.entry(point);
    let m = inputs::moved(random, client, call, (range.low, range.high));
    Completion {
        client: m.client,
        call: m.call,
        argument: m.argument,
        value: m.value,
        op: m.op,
        point,
        outcome: m.outcome,
        quality: m.quality,
        time: m.time,
        end: place(random, BEFORE_THIS_LOG, server.length),
    }
}

/// Exchanged at random, with the ends in order.
fn arrive(random: &mut Random, records: &mut [Completion]) {
    let mut ends: Vec<u64> = records.iter().map(|r| r.end).collect();
    ends.sort_unstable();
    for i in (1..records.len()).rev() {
        records.swap(i, random.below(i as u32 + 1) as usize);
    }
    for (r, end) in records.iter_mut().zip(ends) {
        r.end = end;
    }
}
