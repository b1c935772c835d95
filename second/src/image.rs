//! Paper 01, "Moving a point": the moving image, read and written. Since request 6 of
//! paper 02 its entries have times; images without them are still read.

use crate::bytes::{all_zero, get_i32, get_pair, get_u32, put_i32, put_pairs, put_u32};
use crate::packet::{cabinet_ok, point_ok, WINDOW};
use crate::plan::Plan;
use crate::program::Form;
use crate::rule::{Op, OUTCOME_MAX, QUALITY_MAX};
use std::cmp::Ordering;

pub const IMAGE_MAGIC: [u8; 4] = [0x4D, 0x56, 0x49, 0x32];
pub const IMAGE_MAGIC_UNTIMED: [u8; 4] = [0x4D, 0x56, 0x49, 0x31];
pub const IMAGE_MIN: usize = 48;
pub const IMAGE_MAX: usize = 12_592;
pub const IMAGE_MAX_UNTIMED: usize = 10_544;
pub const CLIENTS_MAX: usize = 32;
pub const FLOOR_LEN: usize = 8;
pub const MOVED_LEN: usize = 24;
pub const MOVED_UNTIMED_LEN: usize = 20;

const PAIRS_AT: usize = 16;
const POINT_AT: usize = 40;
const POINT_LEN: usize = 8;
const FLOORS_AT: usize = 48;

#[derive(Clone, Copy, PartialEq, Eq, Debug)]
pub struct ImageHead {
    pub point: u8,
    pub destination: u8,
    pub source: u8,
    pub move_number: u32,
    pub heard: u32,
    pub value: i32,
    pub quality: u8,
}

#[derive(Clone, Copy, PartialEq, Eq, Debug)]
pub struct Floor {
    pub client: u32,
    pub floor: u32,
}

/// A completion record of the point.
#[derive(Clone, Copy, PartialEq, Eq, Debug)]
pub struct Moved {
    pub client: u32,
    pub call: u32,
    pub argument: i32,
    pub value: i32,
    pub op: Op,
    pub outcome: u8,
    pub quality: u8,
    /// Heard time at execution, 0 if it was read from an untimed form.
    pub time: u32,
}

/// Length of the longest image.
pub fn image_max(form: Form) -> usize {
    match form {
        Form::Untimed => IMAGE_MAX_UNTIMED,
        Form::Timed => IMAGE_MAX,
    }
}

/// Length of an image's entry, and of a checkpoint's.
pub fn moved_len(form: Form) -> usize {
    match form {
        Form::Untimed => MOVED_UNTIMED_LEN,
        Form::Timed => MOVED_LEN,
    }
}

fn magic(form: Form) -> [u8; 4] {
    match form {
        Form::Untimed => IMAGE_MAGIC_UNTIMED,
        Form::Timed => IMAGE_MAGIC,
    }
}

/// The form of an image, by what it opens with.
fn image_form(bytes: &[u8]) -> Option<Form> {
    let mut forms = [Form::Untimed, Form::Timed].into_iter();
    forms.find(|&form| bytes.starts_with(&magic(form)))
}

/// A well-formed image; floors and records stay in their place.
#[derive(Clone, Copy, PartialEq, Eq, Debug)]
pub struct Image<'a> {
    pub form: Form,
    pub head: ImageHead,
    floors: &'a [u8],
    records: &'a [u8],
}

impl<'a> Image<'a> {
    pub fn floors(&self) -> impl Iterator<Item = Floor> + 'a {
        self.floors.chunks_exact(FLOOR_LEN).map(read_floor)
    }

    pub fn records(&self) -> impl Iterator<Item = Moved> + 'a {
        let form = self.form;
        let rows = self.records.chunks_exact(moved_len(form));
        rows.filter_map(move |row| read_moved(form, row))
    }

    pub fn has_record(&self, client: u32, call: u32) -> bool {
        self.record_index(client, call).is_some()
    }

    /// Where an id's entry begins in the image.
    pub fn record_at(&self, client: u32, call: u32) -> Option<usize> {
        let records_at = FLOORS_AT + self.floors.len();
        let index = self.record_index(client, call)?;
        Some(records_at + index * moved_len(self.form))
    }

    /// The place of an id among the records, which are sorted by id.
    fn record_index(&self, client: u32, call: u32) -> Option<usize> {
        let (mut from, mut to) = (0, self.record_count());
        while from < to {
            let middle = (from + to) / 2;
            let at = middle * moved_len(self.form);
            let id = (get_u32(self.records, at), get_u32(self.records, at + 4));
            match id.cmp(&(client, call)) {
                Ordering::Equal => return Some(middle),
                Ordering::Less => from = middle + 1,
                Ordering::Greater => to = middle,
            }
        }
        None
    }

    /// Whether the point's value and each record's lie in the range that the plan has.
    fn in_range(&self, plan: &Plan) -> bool {
        let entry = plan.entry(self.head.point);
        entry.contains(self.head.value) && self.records().all(|r| entry.contains(r.value))
    }

    pub fn floor_count(&self) -> usize {
        self.floors.len() / FLOOR_LEN
    }

    pub fn record_count(&self) -> usize {
        self.records.len() / moved_len(self.form)
    }
}

pub(crate) fn read_floor(b: &[u8]) -> Floor {
    Floor {
        client: get_u32(b, 0),
        floor: get_u32(b, 4),
    }
}

/// Tests the op alone, and leaves byte 19 out; `moved_ok` tests the other fields but
/// the value.
pub(crate) fn read_moved(form: Form, b: &[u8]) -> Option<Moved> {
    Some(Moved {
        client: get_u32(b, 0),
        call: get_u32(b, 4),
        argument: get_i32(b, 8),
        value: get_i32(b, 12),
        op: Op::from_byte(b[16])?,
        outcome: b[17],
        quality: b[18],
        time: match form {
            Form::Untimed => 0,
            Form::Timed => get_u32(b, MOVED_UNTIMED_LEN),
        },
    })
}

/// The image, or nothing if it is malformed under this plan.
pub fn parse_image<'a>(bytes: &'a [u8], plan: &Plan) -> Option<Image<'a>> {
    parse_layout(bytes).filter(|image| image.in_range(plan))
}

/// The image, or nothing if it is malformed under every plan: values may be any.
pub(crate) fn parse_layout(bytes: &[u8]) -> Option<Image<'_>> {
    let form = image_form(bytes)?;
    let head = parse_image_head(bytes)?;
    let (floors, records) = split_parts(form, bytes)?;
    let ok = floors_ok(floors) && records_ok(form, records, floors);
    ok.then_some(Image {
        form,
        head,
        floors,
        records,
    })
}

fn parse_image_head(b: &[u8]) -> Option<ImageHead> {
    if b.len() < IMAGE_MIN {
        return None;
    }
    let head = ImageHead {
        point: b[4],
        destination: b[5],
        source: b[6],
        move_number: get_u32(b, 8),
        heard: get_u32(b, 12),
        value: get_i32(b, POINT_AT),
        quality: b[POINT_AT + 4],
    };
    let ok = point_ok(head.point)
        && cabinet_ok(head.destination)
        && cabinet_ok(head.source)
        && b[7] == 0
        && head.quality <= QUALITY_MAX
        && all_zero(&b[POINT_AT + 5..POINT_AT + POINT_LEN]);
    ok.then_some(head)
}

/// The floors and the records, if the pairs are (40, 8), (48, 8n) and
/// (48 + 8n, 20k or 24k) and the parts end where the slice does.
fn split_parts(form: Form, b: &[u8]) -> Option<(&[u8], &[u8])> {
    let pair = |i: usize| get_pair(b, PAIRS_AT + 8 * i);
    let floors_len = pair(1).1;
    if floors_len % FLOOR_LEN != 0 || floors_len > CLIENTS_MAX * FLOOR_LEN {
        return None;
    }
    let records_at = FLOORS_AT + floors_len;
    let records_len = b.len().checked_sub(records_at)?;
    let ok = pair(0) == (POINT_AT, POINT_LEN)
        && pair(1).0 == FLOORS_AT
        && pair(2) == (records_at, records_len)
        && records_len % moved_len(form) == 0;
    ok.then(|| b[FLOORS_AT..].split_at(floors_len))
}

/// Clients and floors at least 1, clients strictly ascending.
fn floors_ok(floors: &[u8]) -> bool {
    let mut last = 0;
    floors.chunks_exact(FLOOR_LEN).map(read_floor).all(|f| {
        let ok = f.client > last && f.floor >= 1;
        last = f.client;
        ok
    })
}

/// Ids strictly ascending, fields in range, each client among the floors.
fn records_ok(form: Form, records: &[u8], floors: &[u8]) -> bool {
    let mut floors = floors.chunks_exact(FLOOR_LEN).map(read_floor).peekable();
    let mut last = (0, 0);
    records.chunks_exact(moved_len(form)).all(|b| {
        let Some(r) = read_moved(form, b) else {
            return false;
        };
        while floors.next_if(|f| f.client < r.client).is_some() {}
        let ascending = (r.client, r.call) > last;
        last = (r.client, r.call);
        let floor = floors.peek().filter(|f| f.client == r.client);
        ascending && b[19] == 0 && moved_ok(&r) && floor.is_some_and(|f| in_window(&r, f))
    })
}

fn moved_ok(r: &Moved) -> bool {
    r.op.accepts(r.argument) && r.outcome <= OUTCOME_MAX && r.quality <= QUALITY_MAX
}

fn in_window(r: &Moved, f: &Floor) -> bool {
    f.floor <= r.call && r.call - f.floor < WINDOW
}

/// Writes an image to a slice of at least `IMAGE_MAX` bytes, answers its
/// length. Floors come by client, records by client then call.
pub fn write_image(
    head: &ImageHead,
    floors: impl Iterator<Item = Floor>,
    records: impl Iterator<Item = Moved>,
    out: &mut [u8],
) -> usize {
    write_image_as(Form::Timed, head, floors, records, out)
}

/// The same in the given form.
pub fn write_image_as(
    form: Form,
    head: &ImageHead,
    floors: impl Iterator<Item = Floor>,
    records: impl Iterator<Item = Moved>,
    out: &mut [u8],
) -> usize {
    let mut at = FLOORS_AT;
    for f in floors {
        write_floor(&f, &mut out[at..at + FLOOR_LEN]);
        at += FLOOR_LEN;
    }
    let records_at = at;
    for r in records {
        write_moved(form, &r, 0, &mut out[at..at + moved_len(form)]);
        at += moved_len(form);
    }
    out[..4].copy_from_slice(&magic(form));
    write_image_head(head, &mut out[..FLOORS_AT]);
    let parts = [
        (POINT_AT, POINT_LEN),
        (FLOORS_AT, records_at - FLOORS_AT),
        (records_at, at - records_at),
    ];
    put_pairs(out, PAIRS_AT, &parts);
    at
}

/// All but what opens the image, and the pairs.
fn write_image_head(head: &ImageHead, b: &mut [u8]) {
    b[4] = head.point;
    b[5] = head.destination;
    b[6] = head.source;
    b[7] = 0;
    put_u32(b, 8, head.move_number);
    put_u32(b, 12, head.heard);
    put_i32(b, POINT_AT, head.value);
    b[POINT_AT + 4] = head.quality;
    b[POINT_AT + 5..POINT_AT + POINT_LEN].fill(0);
}

pub(crate) fn write_floor(f: &Floor, b: &mut [u8]) {
    put_u32(b, 0, f.client);
    put_u32(b, 4, f.floor);
}

/// Byte 19 of the row is 0 in an image and the point in a checkpoint.
pub(crate) fn write_moved(form: Form, r: &Moved, last: u8, b: &mut [u8]) {
    put_u32(b, 0, r.client);
    put_u32(b, 4, r.call);
    put_i32(b, 8, r.argument);
    put_i32(b, 12, r.value);
    b[16] = r.op as u8;
    b[17] = r.outcome;
    b[18] = r.quality;
    b[19] = last;
    if form == Form::Timed {
        put_u32(b, MOVED_UNTIMED_LEN, r.time);
    }
}
