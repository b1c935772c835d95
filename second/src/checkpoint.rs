//! Request 5 of paper 02: the checkpoint of a state, read and written. It keeps no ends
//! of records: all of them are synced, and their log is gone. Since request 6 its entries
//! have times; checkpoints without them are still read.

use crate::bytes::{all_zero, get_i32, get_pair, get_u32, put_i32, put_pairs, put_u32};
use crate::image::{
    moved_len, read_floor, read_moved, write_floor, write_moved, CLIENTS_MAX, FLOOR_LEN, MOVED_LEN,
    MOVED_UNTIMED_LEN,
};
use crate::plan::{parse_plan, write_plan, PLAN_LEN, POINTS};
use crate::program::Form;
use crate::server::{Completion, Hold, Point, Server, Taken, BEFORE_THIS_LOG, RECORDS_MAX};
use std::ops::Range;

pub const CHECKPOINT_MAGIC: [u8; 4] = [0x57, 0x4C, 0x47, 0x33];
pub const CHECKPOINT_MAGIC_UNTIMED: [u8; 4] = [0x57, 0x4C, 0x47, 0x32];
/// Length of the buffer that a checkpoint is written to, and of the longest one.
pub const CHECKPOINT_LEN: usize = 32_768;
pub const CHECKPOINT_MAX: usize = RECORDS_MAX * MOVED_LEN + CLIENTS_MAX * FLOOR_LEN + CLIENTS_AT;

const HEARD_AT: usize = 8;
const PAIRS_AT: usize = 12;
const PLAN_AT: usize = 44;
const POINTS_AT: usize = PLAN_AT + PLAN_LEN;
const POINT_LEN: usize = 16;
const CLIENTS_AT: usize = POINTS_AT + POINTS * POINT_LEN;

fn magic(form: Form) -> [u8; 4] {
    match form {
        Form::Untimed => CHECKPOINT_MAGIC_UNTIMED,
        Form::Timed => CHECKPOINT_MAGIC,
    }
}

/// The form of a checkpoint, by what it opens with.
fn checkpoint_form(b: &[u8]) -> Option<Form> {
    let mut forms = [Form::Untimed, Form::Timed].into_iter();
    forms.find(|&form| b.starts_with(&magic(form)))
}

/// Writes the checkpoint of a sound state to a slice of at least `CHECKPOINT_LEN` bytes;
/// answers its length.
pub fn write_checkpoint(state: &Server, out: &mut [u8]) -> usize {
    write_checkpoint_as(Form::Timed, state, out)
}

/// The same in the given form.
pub fn write_checkpoint_as(form: Form, state: &Server, out: &mut [u8]) -> usize {
    let parts = parts(form, state.clients.len(), state.records.len());
    out[..4].copy_from_slice(&magic(form));
    out[4..HEARD_AT].copy_from_slice(&[state.cabinet, 0, 0, 0]);
    put_u32(out, HEARD_AT, state.heard);
    put_pairs(out, PAIRS_AT, &parts);
    out[PLAN_AT..POINTS_AT].copy_from_slice(&write_plan(&state.plan));
    let [_, points, clients, records] = parts.map(|(from, len)| from..from + len);
    let end = records.end;
    let rows = out[points].chunks_exact_mut(POINT_LEN);
    rows.zip(&state.points)
        .for_each(|(row, p)| write_point(p, row));
    let rows = out[clients].chunks_exact_mut(FLOOR_LEN);
    rows.zip(&state.clients)
        .for_each(|(row, f)| write_floor(f, row));
    let rows = out[records].chunks_exact_mut(moved_len(form));
    rows.zip(&state.records)
        .for_each(|(row, r)| write_moved(form, &r.moved(), r.point, row));
    end
}

/// The state that a checkpoint gives, of length and mark 8, every end in use 8; nothing
/// if the bytes are off the layout or the state is not sound. Bytes behind the last part
/// are not read.
pub fn parse_checkpoint(b: &[u8]) -> Option<Server> {
    let form = checkpoint_form(b)?;
    let [plan, points, clients, records] = split_parts(form, b)?;
    let mut state = Server::new();
    state.reset(parse_plan(plan)?, b[4]);
    state.heard = get_u32(b, HEARD_AT);
    for (point, row) in state.points.iter_mut().zip(points.chunks_exact(POINT_LEN)) {
        *point = read_point(row)?;
    }
    let clients = clients.chunks_exact(FLOOR_LEN);
    state.clients.extend(clients.map(read_floor));
    for row in records.chunks_exact(moved_len(form)) {
        state.records.push(read_record(row)?);
    }
    state.sound().then_some(state)
}

/// A row of the completion records, of either form: an image entry with the point in
/// place of its zero.
pub(crate) fn read_record(b: &[u8]) -> Option<Completion> {
    let form = match b.len() {
        MOVED_UNTIMED_LEN => Form::Untimed,
        _ => Form::Timed,
    };
    let entry = read_moved(form, b)?;
    let point = b[MOVED_UNTIMED_LEN - 1];
    Some(Completion::of_moved(&entry, point, BEFORE_THIS_LOG))
}

/// The bytes of an id's entry in a checkpoint that gives this state.
pub fn record_at(b: &[u8], state: &Server, client: u32, call: u32) -> Option<Range<usize>> {
    let form = checkpoint_form(b)?;
    let index = state.record_index(client, call)?;
    let (from, _) = parts(form, state.clients.len(), state.records.len())[3];
    let from = from + index * moved_len(form);
    Some(from..from + moved_len(form))
}

/// Offset and length of plan, points, clients and completion records.
fn parts(form: Form, clients: usize, records: usize) -> [(usize, usize); 4] {
    let clients_len = clients * FLOOR_LEN;
    [
        (PLAN_AT, PLAN_LEN),
        (POINTS_AT, POINTS * POINT_LEN),
        (CLIENTS_AT, clients_len),
        (CLIENTS_AT + clients_len, records * moved_len(form)),
    ]
}

/// The four parts, if the head is good, the pairs are as they must be for the numbers of
/// clients and records, and the last part ends in the slice.
fn split_parts(form: Form, b: &[u8]) -> Option<[&[u8]; 4]> {
    if b.len() < PLAN_AT || !all_zero(&b[5..HEARD_AT]) {
        return None;
    }
    let pairs = [0, 1, 2, 3].map(|i| get_pair(b, PAIRS_AT + 8 * i));
    let (clients, records) = (pairs[2].1 / FLOOR_LEN, pairs[3].1 / moved_len(form));
    let ok =
        clients <= CLIENTS_MAX && records <= RECORDS_MAX && pairs == parts(form, clients, records);
    let (from, len) = pairs[3];
    (ok && from + len <= b.len()).then(|| pairs.map(|(from, len)| &b[from..from + len]))
}

fn write_point(p: &Point, b: &mut [u8]) {
    let (status, destination) = match p.hold {
        Hold::Absent => (0, 0),
        Hold::Held => (1, 0),
        Hold::Given { destination, .. } => (2, destination),
        Hold::Released { destination, .. } => (3, destination),
    };
    b[..4].copy_from_slice(&[status, p.quality, destination, 0]);
    put_i32(b, 4, p.value);
    put_u32(b, 8, p.move_number);
    put_u32(b, 12, p.taken.map_or(0, |t| t.move_number));
}

fn read_point(b: &[u8]) -> Option<Point> {
    let end = BEFORE_THIS_LOG;
    let hold = match (b[0], b[2]) {
        (0, 0) => Hold::Absent,
        (1, 0) => Hold::Held,
        (2, destination) => Hold::Given { destination, end },
        (3, destination) => Hold::Released { destination, end },
        _ => return None,
    };
    let taken = get_u32(b, 12);
    (b[3] == 0).then_some(Point {
        value: get_i32(b, 4),
        quality: b[1],
        move_number: get_u32(b, 8),
        hold,
        taken: (taken >= 1).then_some(Taken {
            move_number: taken,
            end,
        }),
    })
}
