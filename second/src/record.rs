//! Paper 01, "Log": the head and the five kinds of records, read and written.
//! Request 3 of paper 02: the walk that finds the ends of a log's records. Request 6
//! adds the sixth kind, an executed record with its time; kind 1 is still read.

use crate::answer::Refusal;
use crate::bytes::{all_zero, get_i32, get_u32, put_i32, put_u32};
use crate::image::{IMAGE_MAX, IMAGE_MIN};
use crate::packet::{cabinet_ok, point_ok, window_ok};
use crate::program::Form;
use crate::rule::{Op, OUTCOME_MAX, QUALITY_MAX};

pub const LOG_MAGIC: [u8; 4] = [0x57, 0x4C, 0x47, 0x31];
pub const HEAD_LEN: usize = 8;

/// An executed record without its time.
pub const EXECUTED_UNTIMED: u8 = 1;
pub const GONE: u8 = 2;
pub const GIVE: u8 = 3;
pub const TAKE: u8 = 4;
pub const RELEASE: u8 = 5;
pub const EXECUTED: u8 = 6;

pub const EXECUTED_UNTIMED_LEN: usize = 28;
pub const GONE_LEN: usize = 12;
pub const GIVE_LEN: usize = 8;
pub const TAKE_HEAD_LEN: usize = 8;
pub const RELEASE_LEN: usize = 8;
pub const EXECUTED_LEN: usize = 32;

#[derive(Clone, Copy, PartialEq, Eq, Debug)]
pub struct Executed {
    pub op: Op,
    pub point: u8,
    pub outcome: u8,
    pub client: u32,
    pub call: u32,
    pub done: u32,
    pub argument: i32,
    pub value: i32,
    pub quality: u8,
    /// Heard time at execution, 0 if it was read from an untimed form.
    pub time: u32,
}

#[derive(Clone, Copy, PartialEq, Eq, Debug)]
pub struct Gone {
    pub client: u32,
    pub time: u32,
}

#[derive(Clone, Copy, PartialEq, Eq, Debug)]
pub struct Give {
    pub point: u8,
    pub destination: u8,
    pub move_number: u32,
}

#[derive(Clone, Copy, PartialEq, Eq, Debug)]
pub struct Release {
    pub point: u8,
    pub move_number: u32,
}

/// A record; the image of a take stays in its place in the log.
#[derive(Clone, Copy, PartialEq, Eq, Debug)]
pub enum Record<'a> {
    Executed(Executed),
    Gone(Gone),
    Give(Give),
    Take(&'a [u8]),
    Release(Release),
}

/// What stands at a place of a log.
#[derive(Clone, Copy, PartialEq, Eq, Debug)]
pub enum Parsed<'a> {
    /// A whole record and the place of its end.
    Whole(Record<'a>, usize),
    /// The log ends before the record does, or holds no byte of one.
    Incomplete,
    /// The layout is broken.
    Broken,
}

pub fn write_head(cabinet: u8) -> [u8; HEAD_LEN] {
    let mut b = [0; HEAD_LEN];
    b[..4].copy_from_slice(&LOG_MAGIC);
    b[4] = cabinet;
    b
}

/// The cabinet number of a log's head.
pub fn parse_head(log: &[u8]) -> Option<u8> {
    let ok = log.len() >= HEAD_LEN
        && log[..4] == LOG_MAGIC
        && cabinet_ok(log[4])
        && all_zero(&log[5..HEAD_LEN]);
    ok.then(|| log[4])
}

/// The first walk of recovery by itself: the end of the last whole record (of the
/// head if there is none). It reads the head, the kinds and the image lengths alone,
/// and refuses when one of these is off; an incomplete last record has no end.
pub fn whole_end(log: &[u8]) -> Result<usize, Refusal> {
    walk(log, |_| {})
}

/// All that the first walk finds: the ends of the whole records, in order.
pub(crate) fn record_ends(log: &[u8]) -> Result<Vec<usize>, Refusal> {
    let mut ends = Vec::new();
    walk(log, |end| ends.push(end))?;
    Ok(ends)
}

/// Where the record begins whose end stands at this index.
pub(crate) fn record_begin(ends: &[usize], index: usize) -> usize {
    index.checked_sub(1).map_or(HEAD_LEN, |before| ends[before])
}

fn walk(log: &[u8], mut found: impl FnMut(usize)) -> Result<usize, Refusal> {
    parse_head(log).ok_or(Refusal::BadLog)?;
    let mut at = HEAD_LEN;
    while let Some(end) = record_end(log, at)? {
        found(end);
        at = end;
    }
    Ok(at)
}

/// The end of the record at a place; nothing if the log ends before the record does.
fn record_end(log: &[u8], at: usize) -> Result<Option<usize>, Refusal> {
    let rest = log.get(at..).unwrap_or(&[]);
    let Some(&kind) = rest.first() else {
        return Ok(None);
    };
    let len = match kind {
        EXECUTED_UNTIMED => EXECUTED_UNTIMED_LEN,
        GONE => GONE_LEN,
        GIVE => GIVE_LEN,
        TAKE if rest.len() < TAKE_HEAD_LEN => return Ok(None),
        TAKE => take_len(rest).ok_or(Refusal::BadLog)?,
        RELEASE => RELEASE_LEN,
        EXECUTED => EXECUTED_LEN,
        _ => return Err(Refusal::BadLog),
    };
    Ok((len <= rest.len()).then_some(at + len))
}

pub fn parse_record(log: &[u8], at: usize) -> Parsed<'_> {
    match record_end(log, at) {
        Err(_) => Parsed::Broken,
        Ok(None) => Parsed::Incomplete,
        Ok(Some(end)) => match parse_whole(&log[at..end]) {
            Some(record) => Parsed::Whole(record, end),
            None => Parsed::Broken,
        },
    }
}

/// Length of a take record whose first eight bytes are there. The form of its image is not
/// looked at here.
fn take_len(b: &[u8]) -> Option<usize> {
    let image_len = get_u32(b, 4) as usize;
    (IMAGE_MIN..=IMAGE_MAX)
        .contains(&image_len)
        .then_some(TAKE_HEAD_LEN + image_len)
}

/// The record that fills the slice.
pub(crate) fn parse_whole(b: &[u8]) -> Option<Record<'_>> {
    match *b.first()? {
        EXECUTED_UNTIMED | EXECUTED => parse_executed(b).map(Record::Executed),
        GONE => parse_gone(b).map(Record::Gone),
        GIVE => parse_give(b).map(Record::Give),
        TAKE => parse_take(b).map(Record::Take),
        _ => parse_release(b).map(Record::Release),
    }
}

fn shaped(b: &[u8], kind: u8, len: usize) -> bool {
    b.len() == len && b[0] == kind
}

/// Length of an executed record.
pub fn executed_len(form: Form) -> usize {
    match form {
        Form::Untimed => EXECUTED_UNTIMED_LEN,
        Form::Timed => EXECUTED_LEN,
    }
}

/// An executed record of either form.
pub fn parse_executed(b: &[u8]) -> Option<Executed> {
    let timed = shaped(b, EXECUTED, EXECUTED_LEN);
    if !timed && !shaped(b, EXECUTED_UNTIMED, EXECUTED_UNTIMED_LEN) {
        return None;
    }
    let record = Executed {
        op: Op::from_byte(b[1])?,
        point: b[2],
        outcome: b[3],
        client: get_u32(b, 4),
        call: get_u32(b, 8),
        done: get_u32(b, 12),
        argument: get_i32(b, 16),
        value: get_i32(b, 20),
        quality: b[24],
        time: match timed {
            true => get_u32(b, EXECUTED_UNTIMED_LEN),
            false => 0,
        },
    };
    let ok = point_ok(record.point)
        && record.outcome <= OUTCOME_MAX
        && record.client >= 1
        && window_ok(record.done, record.call)
        && record.op.accepts(record.argument)
        && record.quality <= QUALITY_MAX
        && all_zero(&b[25..EXECUTED_UNTIMED_LEN]);
    ok.then_some(record)
}

pub fn write_executed(r: &Executed) -> [u8; EXECUTED_LEN] {
    let mut b = [0; EXECUTED_LEN];
    b[..EXECUTED_UNTIMED_LEN].copy_from_slice(&write_executed_untimed(r));
    b[0] = EXECUTED;
    put_u32(&mut b, EXECUTED_UNTIMED_LEN, r.time);
    b
}

/// As a program before request 6 writes it.
pub fn write_executed_untimed(r: &Executed) -> [u8; EXECUTED_UNTIMED_LEN] {
    let mut b = [0; EXECUTED_UNTIMED_LEN];
    b[0] = EXECUTED_UNTIMED;
    b[1] = r.op as u8;
    b[2] = r.point;
    b[3] = r.outcome;
    put_u32(&mut b, 4, r.client);
    put_u32(&mut b, 8, r.call);
    put_u32(&mut b, 12, r.done);
    put_i32(&mut b, 16, r.argument);
    put_i32(&mut b, 20, r.value);
    b[24] = r.quality;
    b
}

pub fn parse_gone(b: &[u8]) -> Option<Gone> {
    if !shaped(b, GONE, GONE_LEN) {
        return None;
    }
    let record = Gone {
        client: get_u32(b, 4),
        time: get_u32(b, 8),
    };
    (all_zero(&b[1..4]) && record.client >= 1).then_some(record)
}

pub fn write_gone(r: &Gone) -> [u8; GONE_LEN] {
    let mut b = [0; GONE_LEN];
    b[0] = GONE;
    put_u32(&mut b, 4, r.client);
    put_u32(&mut b, 8, r.time);
    b
}

pub fn parse_give(b: &[u8]) -> Option<Give> {
    if !shaped(b, GIVE, GIVE_LEN) {
        return None;
    }
    let record = Give {
        point: b[1],
        destination: b[2],
        move_number: get_u32(b, 4),
    };
    let ok = point_ok(record.point) && cabinet_ok(record.destination) && b[3] == 0;
    ok.then_some(record)
}

pub fn write_give(r: &Give) -> [u8; GIVE_LEN] {
    let mut b = [0; GIVE_LEN];
    b[0] = GIVE;
    b[1] = r.point;
    b[2] = r.destination;
    put_u32(&mut b, 4, r.move_number);
    b
}

/// The image of a take record; its own layout is not tested here.
pub fn parse_take(b: &[u8]) -> Option<&[u8]> {
    let ok = b.len() >= TAKE_HEAD_LEN
        && take_len(b) == Some(b.len())
        && b[0] == TAKE
        && all_zero(&b[1..4]);
    ok.then(|| &b[TAKE_HEAD_LEN..])
}

/// The eight bytes before a take record's image.
pub fn write_take_head(image_len: usize) -> [u8; TAKE_HEAD_LEN] {
    let mut b = [0; TAKE_HEAD_LEN];
    b[0] = TAKE;
    put_u32(&mut b, 4, image_len as u32);
    b
}

pub fn parse_release(b: &[u8]) -> Option<Release> {
    if !shaped(b, RELEASE, RELEASE_LEN) {
        return None;
    }
    let record = Release {
        point: b[1],
        move_number: get_u32(b, 4),
    };
    (point_ok(record.point) && all_zero(&b[2..4])).then_some(record)
}

pub fn write_release(r: &Release) -> [u8; RELEASE_LEN] {
    let mut b = [0; RELEASE_LEN];
    b[0] = RELEASE;
    b[1] = r.point;
    put_u32(&mut b, 4, r.move_number);
    b
}

/// An executed record with its time; the image of a take as it is.
pub fn write_record(record: &Record) -> Vec<u8> {
    match record {
        Record::Executed(r) => write_executed(r).to_vec(),
        Record::Gone(r) => write_gone(r).to_vec(),
        Record::Give(r) => write_give(r).to_vec(),
        Record::Take(image) => [&write_take_head(image.len()), *image].concat(),
        Record::Release(r) => write_release(r).to_vec(),
    }
}
