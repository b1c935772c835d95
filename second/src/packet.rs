//! Paper 01, "Packets": the six kinds, read and written. Request 6 of paper 02 adds
//! the seventh, a result with its time; kind 2 is still read.

use crate::bytes::{all_zero, get_i32, get_u32, put_i32, put_u32};
use crate::plan::{CABINETS, POINTS};
use crate::program::Form;
use crate::rule::{Op, OUTCOME_MAX, QUALITY_MAX};

pub const REQUEST: u8 = 1;
/// A result without its time.
pub const RESULT_UNTIMED: u8 = 2;
pub const REFUSAL: u8 = 3;
pub const RECEIPT: u8 = 4;
pub const NOTICE: u8 = 5;
pub const GRANT: u8 = 6;
pub const RESULT: u8 = 7;

pub const REQUEST_LEN: usize = 24;
pub const RESULT_UNTIMED_LEN: usize = 16;
pub const REFUSAL_LEN: usize = 12;
pub const RECEIPT_LEN: usize = 8;
pub const NOTICE_LEN: usize = 12;
pub const GRANT_LEN: usize = 12;
pub const RESULT_LEN: usize = 20;

/// Packet lengths by kind; no packet has kind 0.
pub const LENGTHS: [usize; 8] = [
    0,
    REQUEST_LEN,
    RESULT_UNTIMED_LEN,
    REFUSAL_LEN,
    RECEIPT_LEN,
    NOTICE_LEN,
    GRANT_LEN,
    RESULT_LEN,
];

/// Calls from done to done + 15 may be named in one request.
pub const WINDOW: u32 = 16;

#[derive(Clone, Copy, PartialEq, Eq, Debug)]
pub struct Request {
    pub op: Op,
    pub point: u8,
    pub client: u32,
    pub call: u32,
    pub done: u32,
    pub lease_end: u32,
    pub argument: i32,
}

#[derive(Clone, Copy, PartialEq, Eq, Debug)]
pub struct Reply {
    pub outcome: u8,
    pub point: u8,
    pub quality: u8,
    pub client: u32,
    pub call: u32,
    pub value: i32,
    /// Time of execution, 0 if it was read from an untimed form.
    pub time: u32,
}

#[derive(Clone, Copy, PartialEq, Eq, Debug)]
pub struct RefusalPacket {
    pub number: u8,
    pub point: u8,
    pub client: u32,
    pub call: u32,
}

#[derive(Clone, Copy, PartialEq, Eq, Debug)]
pub struct Receipt {
    pub point: u8,
    pub cabinet: u8,
    pub move_number: u32,
}

#[derive(Clone, Copy, PartialEq, Eq, Debug)]
pub struct Notice {
    pub client: u32,
    pub time: u32,
}

#[derive(Clone, Copy, PartialEq, Eq, Debug)]
pub struct Grant {
    pub client: u32,
    pub lease_end: u32,
}

#[derive(Clone, Copy, PartialEq, Eq, Debug)]
pub enum Packet {
    Request(Request),
    Result(Reply),
    Refusal(RefusalPacket),
    Receipt(Receipt),
    Notice(Notice),
    Grant(Grant),
}

pub fn point_ok(point: u8) -> bool {
    usize::from(point) < POINTS
}

pub fn cabinet_ok(cabinet: u8) -> bool {
    u32::from(cabinet) < CABINETS
}

/// 1 <= done <= call and call - done <= 15.
pub fn window_ok(done: u32, call: u32) -> bool {
    1 <= done && done <= call && call - done < WINDOW
}

fn shaped(bytes: &[u8], kind: u8) -> bool {
    bytes.len() == LENGTHS[usize::from(kind)] && bytes[0] == kind
}

pub fn parse_request(b: &[u8]) -> Option<Request> {
    if !shaped(b, REQUEST) || b[3] != 0 {
        return None;
    }
    let request = Request {
        op: Op::from_byte(b[1])?,
        point: b[2],
        client: get_u32(b, 4),
        call: get_u32(b, 8),
        done: get_u32(b, 12),
        lease_end: get_u32(b, 16),
        argument: get_i32(b, 20),
    };
    let ok = point_ok(request.point)
        && request.client >= 1
        && window_ok(request.done, request.call)
        && request.op.accepts(request.argument);
    ok.then_some(request)
}

pub fn write_request(p: &Request) -> [u8; REQUEST_LEN] {
    let mut b = [0; REQUEST_LEN];
    b[0] = REQUEST;
    b[1] = p.op as u8;
    b[2] = p.point;
    put_u32(&mut b, 4, p.client);
    put_u32(&mut b, 8, p.call);
    put_u32(&mut b, 12, p.done);
    put_u32(&mut b, 16, p.lease_end);
    put_i32(&mut b, 20, p.argument);
    b
}

/// Length of a result packet.
pub fn result_len(form: Form) -> usize {
    match form {
        Form::Untimed => RESULT_UNTIMED_LEN,
        Form::Timed => RESULT_LEN,
    }
}

/// A result of either form.
pub fn parse_result(b: &[u8]) -> Option<Reply> {
    let timed = shaped(b, RESULT);
    if !timed && !shaped(b, RESULT_UNTIMED) {
        return None;
    }
    let reply = Reply {
        outcome: b[1],
        point: b[2],
        quality: b[3],
        client: get_u32(b, 4),
        call: get_u32(b, 8),
        value: get_i32(b, 12),
        time: match timed {
            true => get_u32(b, RESULT_UNTIMED_LEN),
            false => 0,
        },
    };
    let ok = reply.outcome <= OUTCOME_MAX
        && point_ok(reply.point)
        && reply.quality <= QUALITY_MAX
        && reply.client >= 1
        && reply.call >= 1;
    ok.then_some(reply)
}

pub fn write_result(p: &Reply) -> [u8; RESULT_LEN] {
    let mut b = [0; RESULT_LEN];
    b[..RESULT_UNTIMED_LEN].copy_from_slice(&write_result_untimed(p));
    b[0] = RESULT;
    put_u32(&mut b, RESULT_UNTIMED_LEN, p.time);
    b
}

/// As a program before request 6 writes it.
pub fn write_result_untimed(p: &Reply) -> [u8; RESULT_UNTIMED_LEN] {
    let mut b = [0; RESULT_UNTIMED_LEN];
    b[0] = RESULT_UNTIMED;
    b[1] = p.outcome;
    b[2] = p.point;
    b[3] = p.quality;
    put_u32(&mut b, 4, p.client);
    put_u32(&mut b, 8, p.call);
    put_i32(&mut b, 12, p.value);
    b
}

pub fn parse_refusal(b: &[u8]) -> Option<RefusalPacket> {
    if !shaped(b, REFUSAL) || b[3] != 0 {
        return None;
    }
    let refusal = RefusalPacket {
        number: b[1],
        point: b[2],
        client: get_u32(b, 4),
        call: get_u32(b, 8),
    };
    let ok = (3..=9).contains(&refusal.number)
        && point_ok(refusal.point)
        && refusal.client >= 1
        && refusal.call >= 1;
    ok.then_some(refusal)
}

pub fn write_refusal(p: &RefusalPacket) -> [u8; REFUSAL_LEN] {
    let mut b = [0; REFUSAL_LEN];
    b[0] = REFUSAL;
    b[1] = p.number;
    b[2] = p.point;
    put_u32(&mut b, 4, p.client);
    put_u32(&mut b, 8, p.call);
    b
}

pub fn parse_receipt(b: &[u8]) -> Option<Receipt> {
    if !shaped(b, RECEIPT) || b[3] != 0 {
        return None;
    }
    let receipt = Receipt {
        point: b[1],
        cabinet: b[2],
        move_number: get_u32(b, 4),
    };
    (point_ok(receipt.point) && cabinet_ok(receipt.cabinet)).then_some(receipt)
}

pub fn write_receipt(p: &Receipt) -> [u8; RECEIPT_LEN] {
    let mut b = [0; RECEIPT_LEN];
    b[0] = RECEIPT;
    b[1] = p.point;
    b[2] = p.cabinet;
    put_u32(&mut b, 4, p.move_number);
    b
}

pub fn parse_notice(b: &[u8]) -> Option<Notice> {
    if !shaped(b, NOTICE) || !all_zero(&b[1..4]) {
        return None;
    }
    let notice = Notice {
        client: get_u32(b, 4),
        time: get_u32(b, 8),
    };
    (notice.client >= 1).then_some(notice)
}

pub fn write_notice(p: &Notice) -> [u8; NOTICE_LEN] {
    let mut b = [0; NOTICE_LEN];
    b[0] = NOTICE;
    put_u32(&mut b, 4, p.client);
    put_u32(&mut b, 8, p.time);
    b
}

pub fn parse_grant(b: &[u8]) -> Option<Grant> {
    if !shaped(b, GRANT) || !all_zero(&b[1..4]) {
        return None;
    }
    let grant = Grant {
        client: get_u32(b, 4),
        lease_end: get_u32(b, 8),
    };
    (grant.client >= 1).then_some(grant)
}

pub fn write_grant(p: &Grant) -> [u8; GRANT_LEN] {
    let mut b = [0; GRANT_LEN];
    b[0] = GRANT;
    put_u32(&mut b, 4, p.client);
    put_u32(&mut b, 8, p.lease_end);
    b
}

/// Any packet, by its kind.
pub fn parse_packet(b: &[u8]) -> Option<Packet> {
    match *b.first()? {
        REQUEST => parse_request(b).map(Packet::Request),
        RESULT_UNTIMED | RESULT => parse_result(b).map(Packet::Result),
        REFUSAL => parse_refusal(b).map(Packet::Refusal),
        RECEIPT => parse_receipt(b).map(Packet::Receipt),
        NOTICE => parse_notice(b).map(Packet::Notice),
        GRANT => parse_grant(b).map(Packet::Grant),
        _ => None,
    }
}

/// A result with its time.
pub fn write_packet(packet: &Packet) -> Vec<u8> {
    match packet {
        Packet::Request(p) => write_request(p).to_vec(),
        Packet::Result(p) => write_result(p).to_vec(),
        Packet::Refusal(p) => write_refusal(p).to_vec(),
        Packet::Receipt(p) => write_receipt(p).to_vec(),
        Packet::Notice(p) => write_notice(p).to_vec(),
        Packet::Grant(p) => write_grant(p).to_vec(),
    }
}
