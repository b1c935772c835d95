//! Every refusal of every operation, in the order of paper 01, one test for
//! each operation; then pairs of conditions that hold at once. The rig tests
//! that a refusal leaves everything lent as found.

mod common;
mod logs;

use common::*;
use logs::*;
use second::answer::{Answer, Refusal};
use second::bytes::put_u32;
use second::client::{Client, Received};
use second::image::{Floor, ImageHead, Moved, IMAGE_MAX, MOVED_LEN};
use second::leases::LeaseManager;
use second::packet::*;
use second::plan::{write_plan, PLAN_LEN};
use second::record::*;
use second::rule::Op;
use second::server::{Hold, Server, STATE_LEN};

const SHORT: usize = STATE_LEN - 1;

#[test]
fn refusals_have_the_papers_numbers() {
    for (refusal, number) in Refusal::ALL.into_iter().zip(1..) {
        assert_eq!(refusal.number(), number);
    }
    let some = [
        (Refusal::NotSynced, 7),
        (Refusal::BadMark, 10),
        (Refusal::HeldHere, 13),
        (Refusal::WindowFull, 15),
        (Refusal::NotSound, 19),
        (Refusal::NotClear, 20),
        (Refusal::AlreadyWaiting, 21),
    ];
    for (refusal, number) in some {
        assert_eq!(refusal.number(), number);
    }
}

// Found.

#[test]
fn found() {
    let plan = plan_bytes();
    let mut server = Server::new();
    let before = server.clone();
    let mut log = [FILL; 8];
    let refused = |server: &mut Server, len, log: &mut [u8], plan: &[u8], number, answer| {
        let kept = log.to_vec();
        assert_eq!(
            server.found(len, log, plan, number),
            Answer::refused(refusal(answer))
        );
        assert_eq!(*server, before);
        assert_eq!(log, &kept[..]);
    };
    refused(&mut server, SHORT, &mut log, &plan, 0, 2);
    refused(&mut server, STATE_LEN, &mut log[..7], &plan, 0, 2);
    refused(&mut server, STATE_LEN, &mut log, &plan, 16, 1);
    refused(&mut server, STATE_LEN, &mut log, &plan, u32::MAX, 1);
    for bad in bad_plans() {
        refused(&mut server, STATE_LEN, &mut log, &bad, 0, 1);
    }
    // 2 before 1.
    refused(&mut server, SHORT, &mut log, &[], 16, 2);
    refused(&mut server, STATE_LEN, &mut [], &[], 16, 2);
    assert_eq!(server.found(STATE_LEN, &mut log, &plan, 15), Answer::DONE);
    assert_eq!(log, [0x57, 0x4C, 0x47, 0x31, 15, 0, 0, 0]);
    assert!(server.sound());
    assert_eq!((server.length, server.mark, server.heard), (8, 8, 0));
}

fn bad_plans() -> Vec<Vec<u8>> {
    let good = plan_bytes().to_vec();
    let mut bad = vec![Vec::new(), good[..PLAN_LEN - 1].to_vec()];
    let mut long = good.clone();
    long.push(0);
    bad.push(long);
    let mut plan = plan();
    plan.entries[63].fallback = 1001;
    bad.push(write_plan(&plan).to_vec());
    plan.entries[63].fallback = -101;
    bad.push(write_plan(&plan).to_vec());
    plan.entries[63].fallback = 0;
    plan.entries[63].low = 1001;
    bad.push(write_plan(&plan).to_vec());
    for (at, byte) in [(12, 16), (13, 1), (14, 1), (15, 1)] {
        let mut one = good.clone();
        one[at] = byte;
        bad.push(one);
    }
    bad
}

#[test]
fn founding_state() {
    let rig = Rig::new(1, 100);
    let home = rig.server.point(32);
    assert_eq!((home.hold, home.value, home.quality), (Hold::Held, 0, 1));
    let other = rig.server.point(31);
    assert_eq!((other.hold, other.move_number), (Hold::Absent, 0));
}

// Request.

#[test]
fn request_refusals() {
    let good = set(1, 1, 5, 40);
    let mut rig = Rig::new(0, 2000);
    rig.expect(2, 0, |s, log, out| s.request(SHORT, log, &good, out));
    rig.expect(2, 0, |s, log, out| {
        s.request(STATE_LEN, log, &good, &mut out[..19])
    });
    rig.expect(19, 0, |s, log, out| {
        s.request(STATE_LEN, &mut log[..7], &good, out)
    });
    Rig::unsound().request(19, 0, &good);
    for bad in bad_requests() {
        rig.request(1, 0, &bad);
    }
    let refused = |number, point, client, call| {
        let packet = RefusalPacket {
            number,
            point,
            client,
            call,
        };
        write_refusal(&packet).to_vec()
    };
    let absent = set(1, 1, 32, 40);
    assert_eq!(rig.request(3, 12, &absent), refused(3, 32, 1, 1));
    rig.execute(&read(9, 1, 0));
    rig.notice(0, &notice(9, 1000));
    assert_eq!(rig.request(4, 12, &good), refused(4, 5, 1, 1));

    let mut rig = Rig::new(0, 2000);
    rig.execute(&set_done(1, 3, 3, 5, 40));
    let under = set_done(1, 2, 1, 5, 40);
    assert_eq!(rig.request(5, 12, &under), refused(5, 5, 1, 2));
    for other in [
        write_request(&Request {
            done: 3,
            ..request(Op::Report, 5, 1, 3, 40)
        }),
        set_done(1, 3, 3, 6, 40),
        set_done(1, 3, 3, 5, 41),
    ] {
        let point = other[2];
        assert_eq!(rig.request(6, 12, &other), refused(6, point, 1, 3));
    }
    let again = set_done(1, 3, 1, 5, 40);
    assert_eq!(rig.request(7, 12, &again), refused(7, 5, 1, 3));
    rig.sync(0, rig.server.length - 1);
    assert_eq!(rig.request(7, 12, &again), refused(7, 5, 1, 3));
    rig.sync_all();
    let state = rig.server.clone();
    let result = rig.request(0, RESULT_LEN, &again);
    assert_eq!(rig.server, state);
    let expected = Reply {
        outcome: 0,
        point: 5,
        quality: 2,
        client: 1,
        call: 3,
        value: 40,
        time: rig.server.heard,
    };
    assert_eq!(parse_result(&result), Some(expected));

    rig.fill_clients(32);
    assert_eq!(rig.request(8, 12, &read(7, 1, 5)), refused(8, 5, 7, 1));
    rig.leave(31);
    let next = set_done(1, 4, 3, 5, 41);
    assert_eq!(rig.request(9, 12, &next), refused(9, 5, 1, 4));
    rig.leave(32);
    rig.execute(&next);
}

fn bad_requests() -> Vec<Vec<u8>> {
    let good = set(1, 20, 5, 40);
    let with = |change: &dyn Fn(&mut Vec<u8>)| {
        let mut bytes = good.to_vec();
        change(&mut bytes);
        bytes
    };
    let mut bad = vec![
        Vec::new(),
        with(&|b| b.truncate(23)),
        with(&|b| b.push(0)),
        with(&|b| b[0] = 0),
        with(&|b| b[0] = 2),
        with(&|b| b[0] = 7),
        with(&|b| b[1] = 6),
        with(&|b| b[2] = 64),
        with(&|b| b[3] = 1),
        with(&|b| put_u32(b, 4, 0)),
        with(&|b| put_u32(b, 8, 0)),
        with(&|b| put_u32(b, 12, 0)),
        with(&|b| put_u32(b, 12, 21)),
        with(&|b| put_u32(b, 12, 4)),
    ];
    for (op, argument) in [(0, 1), (0, -1), (4, 1), (5, -1), (5, 1001)] {
        bad.push(with(&|b| {
            b[1] = op;
            put_u32(b, 20, argument as u32);
        }));
    }
    bad
}

#[test]
fn request_order() {
    let bad = [0; 24];
    // 2 before 19 before 1.
    let mut rig = Rig::unsound();
    rig.expect(2, 0, |s, log, out| s.request(SHORT, log, &bad, out));
    rig.expect(2, 0, |s, log, out| {
        s.request(STATE_LEN, log, &bad, &mut out[..19])
    });
    rig.request(19, 0, &bad);
    // 1 before 3.
    let mut rig = Rig::new(0, 2000);
    let mut packet = set(1, 1, 32, 40);
    packet[3] = 1;
    rig.request(1, 0, &packet);
    // 3 before 4: point 32 is not held; all leases have ended.
    rig.execute(&set_done(1, 3, 3, 5, 40));
    rig.execute(&read(9, 1, 0));
    rig.notice(0, &notice(9, 1000));
    rig.request(3, 12, &set(1, 1, 32, 40));
    // 4 before 5 and before 6 and 7.
    rig.request(4, 12, &set_done(1, 2, 2, 5, 40));
    rig.request(4, 12, &set_done(1, 3, 3, 5, 41));
    rig.request(4, 12, &set_done(1, 3, 3, 5, 40));
    // 3 before 5, 6 and 7.
    let mut rig = Rig::new(0, 2000);
    rig.execute(&set_done(1, 3, 3, 5, 40));
    rig.request(3, 12, &set_done(1, 2, 2, 32, 40));
    rig.request(3, 12, &set_done(1, 3, 3, 32, 40));
    // 6 before 7: held with another argument, not synced.
    rig.request(6, 12, &set_done(1, 3, 3, 5, 41));
    // 5 and 7 before 9.
    rig.leave(0);
    rig.request(5, 12, &set_done(1, 2, 2, 5, 40));
    rig.request(7, 12, &set_done(1, 3, 3, 5, 40));
    rig.request(6, 12, &set_done(1, 3, 3, 5, 41));
    rig.request(9, 12, &set_done(1, 4, 3, 5, 41));
    // A result needs no space.
    rig.sync_all();
    rig.request(0, RESULT_LEN, &set_done(1, 3, 3, 5, 40));
    // 8 before 9; 4 before 8.
    let mut rig = Rig::new(0, 2000);
    rig.fill_clients(32);
    rig.leave(0);
    rig.request(8, 12, &set(1, 1, 5, 40));
    rig.leave(100);
    rig.notice(0, &notice(1000, 1000));
    rig.fill_clients_at(2000);
    rig.request(4, 12, &set(1, 1, 5, 40));
}

impl Rig {
    /// Makes 32 clients known again under later leases.
    fn fill_clients_at(&mut self, lease_end: u32) {
        self.leave(100);
        let packet = Request {
            lease_end,
            ..request(Op::Read, 31, 5000, 1, 0)
        };
        self.execute(&write_request(&packet));
        assert_eq!(self.server.clients.len(), 32);
    }
}

#[test]
fn request_for_a_point_given_away() {
    let mut rig = Rig::new(0, 2000);
    rig.execute(&set(1, 1, 5, 40));
    rig.give(0, 5, 1);
    rig.sync_all();
    // The record is still held: not for requests, but for fetch.
    rig.request(3, 12, &set(1, 1, 5, 40));
    rig.fetch(0, RESULT_LEN, 1, 1);
    rig.request(6, 12, &set(1, 1, 6, 40));
    rig.release(0, &receipt(5, 1, 1));
    rig.fetch(17, 0, 1, 1);
    // The id is free here after the release; the client is still known.
    rig.execute(&set(1, 1, 6, 40));
}

// Fetch.

#[test]
fn fetch() {
    let mut rig = Rig::new(0, 500);
    rig.execute(&set(1, 1, 5, 40));
    rig.expect(2, 0, |s, log, out| s.fetch(SHORT, log, 1, 1, out));
    rig.expect(2, 0, |s, log, out| {
        s.fetch(STATE_LEN, log, 1, 1, &mut out[..19])
    });
    rig.expect(19, 0, |s, log, out| {
        s.fetch(STATE_LEN, &log[..39], 1, 1, out)
    });
    Rig::unsound().fetch(19, 0, 1, 1);
    for (client, call) in [(2, 1), (1, 2), (0, 0), (u32::MAX, u32::MAX)] {
        rig.fetch(17, 0, client, call);
    }
    rig.fetch(7, 0, 1, 1);
    rig.sync_all();
    let packet = rig.fetch(0, RESULT_LEN, 1, 1);
    assert_eq!(packet, rig.request(0, RESULT_LEN, &set(1, 1, 5, 40)));
    // 2 before 19 before 17.
    let mut rig = Rig::unsound();
    rig.expect(2, 0, |s, log, out| {
        s.fetch(STATE_LEN, log, 1, 1, &mut out[..19])
    });
    rig.fetch(19, 0, 7, 7);
}

// Sync.

#[test]
fn sync() {
    let mut rig = Rig::new(0, 500);
    rig.execute(&set(1, 1, 5, 40));
    rig.expect(2, 0, |s, log, _| s.sync(SHORT, log, 8));
    rig.expect(19, 0, |s, log, _| s.sync(STATE_LEN, &log[..39], 8));
    Rig::unsound().sync(19, 8);
    for mark in [0, 7, 41, 500, u64::MAX] {
        rig.sync(10, mark);
    }
    for mark in [8, 8, 20, 40, 40] {
        rig.sync(0, mark);
        assert_eq!(rig.server.mark, mark);
    }
    rig.sync(10, 39);
    // 2 before 19 before 10.
    let mut rig = Rig::unsound();
    rig.expect(2, 0, |s, log, _| s.sync(SHORT, log, 0));
    rig.sync(19, 0);
}

// Notice.

#[test]
fn notice_refusals() {
    let mut rig = Rig::new(0, 500);
    rig.execute(&set(1, 1, 5, 40));
    let good = notice(1, 70);
    rig.expect(2, 0, |s, log, _| s.notice(SHORT, log, &good));
    rig.expect(19, 0, |s, log, _| {
        s.notice(STATE_LEN, &mut log[..39], &good)
    });
    Rig::unsound().notice(19, &good);
    for bad in bad_notices() {
        rig.notice(1, &bad);
    }
    rig.notice(17, &notice(2, 70));
    rig.leave(11);
    rig.notice(9, &good);
    // 1 before 17 before 9; 2 before 19 before 1.
    rig.leave(0);
    rig.notice(1, &notice(0, 70));
    rig.notice(17, &notice(2, 70));
    let mut other = Rig::unsound();
    other.expect(2, 0, |s, log, _| s.notice(SHORT, log, &[]));
    other.notice(19, &[]);
    rig.leave(12);
    rig.notice(0, &good);
    assert_eq!(rig.server.heard, 70);
    assert!(rig.server.clients.is_empty() && rig.server.records.is_empty());
    rig.notice(17, &good);
    // An earlier time does not lower the heard time.
    rig.leave(44);
    let late = Request {
        lease_end: 71,
        ..request(Op::Read, 5, 1, 1, 0)
    };
    rig.execute(&write_request(&late));
    rig.notice(0, &notice(1, 69));
    assert_eq!(rig.server.heard, 70);
}

fn bad_notices() -> Vec<Vec<u8>> {
    let good = notice(1, 70).to_vec();
    let with = |at: usize, byte: u8| {
        let mut bytes = good.clone();
        bytes[at] = byte;
        bytes
    };
    let mut long = good.clone();
    long.push(0);
    vec![
        Vec::new(),
        good[..11].to_vec(),
        long,
        with(0, 6),
        with(0, 2),
        with(1, 1),
        with(2, 1),
        with(3, 1),
        with(4, 0),
    ]
}

// Give.

#[test]
fn give() {
    let mut rig = Rig::new(0, 500);
    rig.expect(2, 0, |s, log, _| s.give(SHORT, log, 5, 1));
    rig.expect(19, 0, |s, log, _| s.give(STATE_LEN, &mut log[..7], 5, 1));
    Rig::unsound().give(19, 5, 1);
    for (point, destination) in [(64, 1), (u32::MAX, 1), (5, 16), (5, 261)] {
        rig.give(1, point, destination);
    }
    rig.give(3, 32, 1);
    rig.give(11, 5, 0);
    rig.take(0, &image(&head(40, 0, 1, u32::MAX), &[], &[]));
    rig.give(16, 40, 1);
    rig.leave(7);
    rig.give(9, 5, 1);
    // 2, 19, 1, 3, 11, 16, 9: each before the next.
    let mut other = Rig::unsound();
    other.expect(2, 0, |s, log, _| s.give(SHORT, log, 64, 1));
    other.give(19, 64, 1);
    rig.give(1, 32, 16);
    rig.give(1, 64, 0);
    rig.give(3, 32, 0);
    rig.give(11, 40, 0);
    rig.give(16, 40, 1);
    rig.leave(8);
    rig.give(0, 5, 1);
    let point = rig.server.point(5);
    assert_eq!(point.move_number, 1);
    assert!(matches!(point.hold, Hold::Given { destination: 1, .. }));
    rig.give(3, 5, 1);
}

// Image.

#[test]
fn image_refusals() {
    let mut rig = Rig::new(0, 500);
    rig.execute(&set(1, 1, 5, 40));
    rig.give(0, 5, 1);
    rig.expect(2, 0, |s, log, out| s.image(SHORT, log, 5, out));
    rig.expect(2, 0, |s, log, out| {
        s.image(STATE_LEN, log, 5, &mut out[..IMAGE_MAX - 1])
    });
    rig.expect(19, 0, |s, log, out| s.image(STATE_LEN, &log[..47], 5, out));
    Rig::unsound().image(19, 0, 5);
    rig.image(1, 0, 64);
    rig.image(3, 0, 6);
    rig.image(3, 0, 32);
    rig.image(7, 0, 5);
    // 2 before 19 before 1.
    let mut other = Rig::unsound();
    other.expect(2, 0, |s, log, out| {
        s.image(STATE_LEN, log, 64, &mut out[..1])
    });
    other.image(19, 0, 64);
    rig.sync_all();
    let bytes = rig.image(0, 80, 5);
    let expected = image(
        &ImageHead {
            value: 40,
            quality: 2,
            ..head(5, 1, 0, 1)
        },
        &[floor(1, 1)],
        &[Moved {
            argument: 40,
            value: 40,
            quality: 2,
            time: 0,
            ..moved(1, 1)
        }],
    );
    assert_eq!(bytes, expected);
    rig.release(0, &receipt(5, 1, 1));
    rig.image(3, 0, 5);
}

// Take.

#[test]
fn take_refusals() {
    let good = image(&head(40, 0, 1, 1), &[floor(1, 1)], &[moved(1, 1)]);
    let mut rig = Rig::new(0, 2000);
    rig.expect(2, 0, |s, log, _| s.take(SHORT, log, &good));
    rig.expect(19, 0, |s, log, _| s.take(STATE_LEN, &mut log[..7], &good));
    Rig::unsound().take(19, &good);
    for bad in bad_images() {
        rig.take(1, &bad);
    }
    rig.take(11, &image(&head(40, 2, 1, 1), &[], &[]));
    rig.take(12, &image(&head(40, 0, 1, 0), &[], &[]));
    rig.take(13, &image(&head(5, 0, 1, 1), &[], &[]));
    rig.execute(&set(1, 1, 5, 7));
    rig.take(13, &good);
    rig.fill_clients(31);
    rig.take(
        8,
        &image(&head(40, 0, 1, 1), &[floor(7, 1), floor(8, 1)], &[]),
    );
    let fits = image(&head(40, 0, 1, 1), &[floor(1, 1), floor(8, 1)], &[]);
    rig.leave(8 + fits.len() - 1);
    rig.take(9, &fits);
    rig.leave(8 + fits.len());
    rig.take(0, &fits);
    rig.leave(500);
    rig.take(12, &fits);
    rig.take(13, &image(&head(40, 0, 1, 2), &[], &[]));
}

#[test]
fn take_order() {
    let bad = [0; 48];
    let mut rig = Rig::unsound();
    rig.expect(2, 0, |s, log, _| s.take(SHORT, log, &bad));
    rig.take(19, &bad);
    let mut rig = Rig::new(0, 2000);
    rig.execute(&set(1, 1, 5, 7));
    rig.fill_clients(32);
    rig.leave(0);
    let new = [floor(1, 1), floor(7, 1)];
    // Malformed, other destination, old move, id elsewhere, clients, space:
    // each image has its own fault and all later ones.
    let mut malformed = image(&head(40, 2, 1, 0), &new, &[moved(1, 1)]);
    malformed[7] = 1;
    rig.take(1, &malformed);
    rig.take(11, &image(&head(40, 2, 1, 0), &new, &[moved(1, 1)]));
    rig.take(12, &image(&head(40, 0, 1, 0), &new, &[moved(1, 1)]));
    rig.take(13, &image(&head(40, 0, 1, 1), &new, &[moved(1, 1)]));
    rig.take(8, &image(&head(40, 0, 1, 1), &new, &[moved(1, 2)]));
    rig.take(9, &image(&head(40, 0, 1, 1), &new[..1], &[moved(1, 2)]));
    // 12 before 13 for a point held here.
    rig.take(12, &image(&head(5, 0, 1, 0), &[], &[]));
    // A higher floor in the image makes no difference to 13.
    let mut rig = Rig::new(0, 2000);
    rig.execute(&set(1, 1, 5, 7));
    rig.execute(&set(1, 2, 5, 7));
    let clash = image(&head(40, 0, 1, 1), &[floor(1, 2)], &[moved(1, 2)]);
    rig.take(13, &clash);
}

/// Images with one fault each.
fn bad_images() -> Vec<Vec<u8>> {
    let floors = [floor(1, 1), floor(3, 5)];
    let records = [moved(1, 1), moved(1, 16), moved(3, 5), moved(3, 20)];
    let good = image(&head(40, 0, 1, 1), &floors, &records);
    let mut rig = Rig::new(0, 2000);
    rig.take(0, &good);
    let mut bad: Vec<Vec<u8>> = Vec::new();
    let mut with = |change: &dyn Fn(&mut Vec<u8>)| {
        let mut bytes = good.clone();
        change(&mut bytes);
        bad.push(bytes);
    };
    with(&|b| b.clear());
    with(&|b| b.truncate(47));
    with(&|b| {
        b.pop();
    });
    with(&|b| b.push(0));
    with(&|b| b.extend([0; 20]));
    with(&|b| b.extend([0; MOVED_LEN]));
    for at in 0..4 {
        with(&|b| b[at] ^= 1);
    }
    // The other form's opening, and none.
    with(&|b| b[3] = 0x31);
    with(&|b| b[3] = 0x30);
    with(&|b| b[4] = 64);
    with(&|b| b[5] = 16);
    with(&|b| b[6] = 16);
    with(&|b| b[7] = 1);
    for at in (16..40).step_by(4) {
        with(&|b| b[at] ^= 1);
        with(&|b| b[at] ^= 8);
        with(&|b| b[at + 3] = 0x80);
    }
    with(&|b| put_u32(b, 40, 1001));
    with(&|b| put_u32(b, 40, -101i32 as u32));
    with(&|b| b[44] = 3);
    for at in 45..48 {
        with(&|b| b[at] = 1);
    }
    // Floors: client 0, floor 0, order, a client twice.
    with(&|b| put_u32(b, 48, 0));
    with(&|b| put_u32(b, 52, 0));
    with(&|b| put_u32(b, 48, 3));
    with(&|b| put_u32(b, 48, 4));
    // A floor above the records' calls, or more than 15 under them.
    with(&|b| put_u32(b, 60, 6));
    with(&|b| put_u32(b, 60, 4));
    // Records, of 24 bytes from 64: client not among the floors, calls out of
    // the window, op, argument, value, outcome, quality, zero.
    with(&|b| put_u32(b, 64, 2));
    with(&|b| put_u32(b, 68, 0));
    with(&|b| put_u32(b, 92, 17));
    with(&|b| put_u32(b, 92, 1));
    with(&|b| put_u32(b, 68, 16));
    with(&|b| put_u32(b, 76, 1001));
    with(&|b| put_u32(b, 76, -101i32 as u32));
    with(&|b| b[80] = 6);
    with(&|b| b[80] = 0);
    with(&|b| b[81] = 5);
    with(&|b| b[82] = 3);
    with(&|b| b[83] = 1);
    let many: Vec<Floor> = (1..=33).map(|client| floor(client, 1)).collect();
    bad.push(image(&head(40, 0, 1, 1), &many, &[]));
    bad
}

#[test]
fn take_merges() {
    let mut rig = Rig::new(0, 4000);
    rig.execute(&set_done(1, 4, 1, 5, 7));
    rig.execute(&set_done(2, 9, 9, 5, 8));
    let first = ImageHead {
        heard: 30,
        ..head(40, 0, 1, 1)
    };
    let floors = [floor(1, 3), floor(2, 2), floor(3, 6)];
    let records = [moved(1, 3), moved(2, 8), moved(2, 10), moved(3, 7)];
    rig.take(0, &image(&first, &floors, &records));
    let merged = [floor(1, 3), floor(2, 9), floor(3, 6)];
    assert_eq!(rig.server.clients, merged);
    let ids = |rig: &Rig| -> Vec<(u32, u32, u8)> {
        let records = rig.server.records.iter();
        records.map(|r| (r.client, r.call, r.point)).collect()
    };
    let expected = [(1, 4, 5), (2, 9, 5), (1, 3, 40), (2, 10, 40), (3, 7, 40)];
    assert_eq!(ids(&rig), expected);
    assert_eq!(rig.server.heard, 30);
    // Given and taken back: old records of the point go, a floor drops one.
    rig.give(0, 40, 1);
    let back = [floor(1, 5), floor(3, 8)];
    let head = ImageHead {
        heard: 20,
        ..head(40, 0, 1, 3)
    };
    rig.take(0, &image(&head, &back, &[moved(3, 9)]));
    assert_eq!(ids(&rig), [(2, 9, 5), (3, 9, 40)]);
    assert_eq!(rig.server.heard, 30);
    assert_eq!(rig.server.point(40).hold, Hold::Held);
    assert_eq!(rig.server.point(40).move_number, 3);
}

// Receipt.

#[test]
fn receipt_refusals() {
    let mut rig = Rig::new(0, 500);
    rig.take(0, &image(&head(40, 0, 1, 4), &[], &[]));
    rig.expect(2, 0, |s, log, out| s.receipt(SHORT, log, 40, out));
    rig.expect(2, 0, |s, log, out| {
        s.receipt(STATE_LEN, log, 40, &mut out[..7])
    });
    rig.expect(19, 0, |s, log, out| {
        s.receipt(STATE_LEN, &log[..63], 40, out)
    });
    Rig::unsound().receipt(19, 0, 40);
    rig.receipt(1, 0, 64);
    rig.receipt(3, 0, 5);
    rig.receipt(3, 0, 41);
    rig.receipt(7, 0, 40);
    // 2 before 19 before 1.
    let mut other = Rig::unsound();
    other.expect(2, 0, |s, log, out| {
        s.receipt(STATE_LEN, log, 64, &mut out[..7])
    });
    other.receipt(19, 0, 64);
    rig.sync_all();
    let packet = rig.receipt(0, 8, 40);
    assert_eq!(packet, receipt(40, 0, 4));
    // The latest taken move, even after the point is given on.
    rig.give(0, 40, 2);
    assert_eq!(rig.receipt(0, 8, 40), receipt(40, 0, 4));
    rig.take(0, &image(&head(40, 0, 2, 6), &[], &[]));
    rig.receipt(7, 0, 40);
    rig.sync_all();
    assert_eq!(rig.receipt(0, 8, 40), receipt(40, 0, 6));
}

// Release.

#[test]
fn release_refusals() {
    let mut rig = Rig::new(0, 500);
    rig.execute(&set(1, 1, 5, 40));
    rig.give(0, 5, 1);
    let good = receipt(5, 1, 1);
    rig.expect(2, 0, |s, log, _| s.release(SHORT, log, &good));
    rig.expect(19, 0, |s, log, _| {
        s.release(STATE_LEN, &mut log[..47], &good)
    });
    Rig::unsound().release(19, &good);
    for (at, byte) in [(0, 3), (0, 5), (1, 64), (2, 16), (3, 1)] {
        let mut bad = good;
        bad[at] = byte;
        rig.release(1, &bad);
    }
    rig.release(1, &good[..7]);
    rig.release(1, &[]);
    rig.release(3, &receipt(6, 1, 1));
    rig.release(3, &receipt(32, 1, 1));
    rig.release(12, &receipt(5, 1, 0));
    rig.leave(7);
    rig.release(9, &good);
    // 2, 19, 1, 3, 12, 9: each before the next.
    let mut other = Rig::unsound();
    other.expect(2, 0, |s, log, _| s.release(SHORT, log, &[]));
    other.release(19, &[]);
    rig.release(1, &receipt(6, 16, 1));
    rig.release(3, &receipt(6, 1, 0));
    rig.release(12, &receipt(5, 1, 0));
    rig.leave(8);
    // Another cabinet's receipt of a later move releases too.
    rig.release(0, &receipt(5, 9, 7));
    let point = rig.server.point(5);
    let (destination, end) = (1, 48);
    assert_eq!(point.hold, Hold::Released { destination, end });
    assert_eq!(point.move_number, 1);
    assert!(rig.server.records.is_empty());
    assert_eq!(rig.log[48..56], [5, 5, 0, 0, 1, 0, 0, 0]);
    rig.release(3, &receipt(5, 9, 7));
}

// Recover.

fn recover_number(log: &[u8]) -> u32 {
    let mut server = Server::new();
    let before = server.clone();
    let answer = server.recover(STATE_LEN, log, &plan_bytes());
    if answer.number != 0 {
        assert_eq!(server, before);
    } else {
        assert!(server.sound());
        assert_eq!(server.mark, server.length);
    }
    assert_eq!(answer.written, 0);
    answer.number
}

#[test]
fn recover_refusals() {
    let good = log_of(&[executed_bytes(1, 1, 1, 5, 40)]);
    let mut rig = Rig::new(0, 500);
    rig.execute(&set(3, 1, 5, 40));
    let plan = plan_bytes();
    rig.expect(2, 0, |s, _, _| s.recover(SHORT, &good, &plan));
    for bad in bad_plans() {
        rig.expect(1, 0, |s, _, _| s.recover(STATE_LEN, &good, &bad));
    }
    rig.expect(14, 0, |s, _, _| s.recover(STATE_LEN, &good[..7], &plan));
    // 2 before 1 before 14.
    rig.expect(2, 0, |s, _, _| s.recover(SHORT, &[], &[]));
    rig.expect(1, 0, |s, _, _| s.recover(STATE_LEN, &[], &[]));
    // An unsound state does not matter.
    let mut rig = Rig::unsound();
    let answer = rig.server.recover(STATE_LEN, &good, &plan);
    assert_eq!(answer, Answer::DONE);
    assert_eq!(rig.server.length, good.len() as u64);
    assert_eq!(rig.server.point(5).value, 40);
}

#[test]
fn recover_heads_and_ends() {
    let good = log_of(&[]);
    assert_eq!(recover_number(&good), 0);
    for at in 0..8 {
        let mut bad = good.clone();
        bad[at] ^= 0x11;
        assert_eq!(recover_number(&bad), 14);
    }
    let with = |tail: &[u8]| recover_number(&[&good, tail].concat());
    // Incomplete records are dropped, whatever their other fields say.
    for tail in [
        &[1u8][..],
        &[1, 99, 99],
        &[2, 7, 7, 7],
        &[3, 255, 255, 255, 0, 0, 0],
        &[4],
        &[4, 9, 9, 9, 9, 9, 9],
        &[4, 9, 9, 9, 48, 0, 0, 0],
        &[4, 0, 0, 0, 0x30, 0x29, 0, 0, 1],
        &[4, 0, 0, 0, 0x30, 0x31, 0, 0, 1],
        &[5, 200],
        &[6],
        &[6, 99, 99],
    ] {
        assert_eq!(with(tail), 0);
    }
    for tail in [
        &[0u8][..],
        &[7],
        &[255, 1, 2],
        &[4, 0, 0, 0, 47, 0, 0, 0],
        &[4, 0, 0, 0, 0x31, 0x31, 0, 0],
        &[4, 0, 0, 0, 0, 0, 0, 0x80],
    ] {
        assert_eq!(with(tail), 14);
    }
}

#[test]
fn recover_records_that_cannot_follow() {
    let first = executed_bytes(1, 3, 3, 5, 40);
    let given = give_bytes(5, 1, 1);
    let moved_in = |number, destination| {
        let head = head(40, destination, 1, number);
        take_bytes(&image(&head, &[floor(1, 1)], &[moved(1, 1)]))
    };
    let many: Vec<Vec<u8>> = (10..42).map(|c| executed_bytes(c, 1, 1, 5, 0)).collect();
    let after_many = |record: Vec<u8>| [many.clone(), vec![record]].concat();
    let good: Vec<Vec<Vec<u8>>> = vec![
        vec![first.clone(), executed_bytes(1, 4, 3, 5, 1000)],
        vec![first.clone(), gone_bytes(1), executed_bytes(1, 3, 3, 5, 40)],
        vec![given.clone(), release_bytes(5, 1)],
        vec![moved_in(7, 0), give_bytes(40, 1, 8), moved_in(9, 0)],
        after_many(executed_bytes(41, 2, 1, 5, 0)),
    ];
    for records in good {
        assert_eq!(recover_number(&log_of(&records)), 0);
    }
    let bad: Vec<Vec<Vec<u8>>> = vec![
        // Executed: not held, value out of range, under the floor, id held
        // with the same or another command, too many clients.
        vec![executed_bytes(1, 1, 1, 32, 0)],
        vec![executed_bytes(1, 1, 1, 5, 1001)],
        vec![executed_bytes(1, 1, 1, 5, -101)],
        vec![first.clone(), executed_bytes(1, 2, 1, 5, 0)],
        vec![first.clone(), first.clone()],
        vec![first.clone(), executed_bytes(1, 3, 3, 6, 0)],
        vec![given.clone(), executed_bytes(1, 1, 1, 5, 0)],
        after_many(executed_bytes(42, 1, 1, 5, 0)),
        // Gone: unknown client.
        vec![gone_bytes(1)],
        vec![first.clone(), gone_bytes(1), gone_bytes(1)],
        // Give: not held, to itself, another move.
        vec![give_bytes(32, 1, 1)],
        vec![given.clone(), give_bytes(5, 1, 2)],
        vec![give_bytes(5, 0, 1)],
        vec![give_bytes(5, 1, 0)],
        vec![give_bytes(5, 1, 2)],
        // Move number at its greatest.
        vec![moved_in(u32::MAX, 0), give_bytes(40, 1, 0)],
        vec![moved_in(u32::MAX, 0), give_bytes(40, 1, u32::MAX)],
        // Take: other destination, old move, held, id elsewhere, clients,
        // malformed.
        vec![moved_in(1, 2)],
        vec![moved_in(0, 0)],
        vec![moved_in(4, 0), moved_in(5, 0)],
        vec![moved_in(4, 0), give_bytes(40, 1, 5), moved_in(5, 0)],
        vec![executed_bytes(1, 1, 1, 5, 0), moved_in(4, 0)],
        after_many(moved_in(1, 0)),
        vec![take_bytes(&[0; 48])],
        // Release: not given, released, another move.
        vec![release_bytes(5, 0)],
        vec![given.clone(), release_bytes(5, 1), release_bytes(5, 1)],
        vec![given.clone(), release_bytes(5, 0)],
        vec![given.clone(), release_bytes(5, 2)],
    ];
    for (i, records) in bad.iter().enumerate() {
        assert_eq!(recover_number(&log_of(records)), 14, "case {i}");
    }
}

/// Whole records with one field out of its range, or a zero not zero.
#[test]
fn recover_broken_layouts() {
    let forms = [executed_bytes, executed_untimed_bytes];
    let forms = forms.map(|form| form(1, 20, 20, 5, 40));
    let cases: &[(usize, u8)] = &[
        (1, 6),
        (1, 0),
        (2, 64),
        (3, 5),
        (4, 0),
        (8, 19),
        (12, 0),
        (12, 4),
        (12, 21),
        (24, 3),
        (25, 1),
        (26, 1),
        (27, 1),
    ];
    for bytes in forms {
        assert_broken(&[], &bytes, cases);
    }
    let first = [executed_bytes(1, 1, 1, 5, 40)];
    assert_broken(
        &first,
        &gone_bytes(1),
        &[(1, 1), (2, 1), (3, 1), (4, 0), (4, 2)],
    );
    assert_broken(
        &[],
        &give_bytes(5, 1, 1),
        &[(1, 64), (2, 16), (3, 1), (4, 2)],
    );
    let given = [give_bytes(5, 1, 1)];
    let release = release_bytes(5, 1);
    assert_broken(&given, &release, &[(1, 64), (2, 1), (3, 1), (4, 2)]);
    let take = take_bytes(&image(&head(40, 0, 1, 1), &[], &[]));
    assert_broken(&[], &take, &[(1, 1), (2, 1), (3, 1), (4, 47), (8, 0)]);
}

fn assert_broken(before: &[Vec<u8>], good: &[u8], changes: &[(usize, u8)]) {
    let log = |record: &[u8]| log_of(&[before, &[record.to_vec()]].concat());
    assert_eq!(recover_number(&log(good)), 0);
    for &(at, byte) in changes {
        let mut bad = good.to_vec();
        bad[at] = byte;
        assert_eq!(recover_number(&log(&bad)), 14, "byte {at} = {byte}");
    }
}

/// The results in a log are not worked out again.
#[test]
fn recover_keeps_written_results() {
    let odd = Executed {
        outcome: 2,
        value: 77,
        quality: 1,
        ..executed(1, 1, 1, 5, 0)
    };
    let log = log_of(&[write_executed(&odd).to_vec()]);
    let mut server = Server::new();
    let answer = server.recover(STATE_LEN, &log, &plan_bytes());
    assert_eq!(answer, Answer::DONE);
    let point = server.point(5);
    assert_eq!((point.value, point.quality), (77, 1));
    let mut output = [0; RESULT_LEN];
    let answer = server.fetch(STATE_LEN, &log, 1, 1, &mut output);
    assert_eq!(answer, Answer::wrote(RESULT_LEN));
    let reply = parse_result(&output).expect("a result");
    assert_eq!((reply.outcome, reply.value, reply.quality), (2, 77, 1));
    assert_eq!((server.heard, reply.time), (0, 60));
}

// Desk.

fn desk() -> Client {
    let grant = Grant {
        client: 4,
        lease_end: 100,
    };
    Client::start(&write_grant(&grant)).expect("a grant")
}

fn reply(client: u32, call: u32, point: u8) -> Vec<u8> {
    write_result(&Reply {
        outcome: 0,
        point,
        quality: 0,
        client,
        call,
        value: 9,
        time: 70,
    })
    .to_vec()
}

#[test]
fn start_refusals() {
    for bad in [
        &[][..],
        &notice(4, 100),
        &[6, 0, 0, 1, 4, 0, 0, 0, 100, 0, 0, 0],
        &[6, 0, 0, 0, 0, 0, 0, 0, 100, 0, 0, 0],
        &[6, 0, 0, 0, 4, 0, 0, 0, 100, 0, 0],
        &set(4, 1, 5, 40),
    ] {
        assert_eq!(Client::start(bad), Err(refusal(1)));
    }
    let desk = desk();
    assert_eq!((desk.client, desk.lease_end, desk.next), (4, 100, 1));
}

#[test]
fn issue_refusals() {
    let mut desk = desk();
    for (op, point, argument) in [
        (6, 5, 0),
        (256, 5, 0),
        (u32::MAX, 5, 0),
        (1, 64, 0),
        (1, u32::MAX, 0),
        (0, 5, 1),
        (4, 5, -1),
        (5, 5, -1),
        (5, 5, 1001),
    ] {
        let before = desk.clone();
        assert_eq!(desk.issue(op, point, argument), Err(refusal(1)));
        assert_eq!(desk, before);
    }
    for call in 1..=16 {
        let packet = desk.issue(1, 5, -7).expect("a place");
        let request = parse_request(&packet).expect("a request");
        assert_eq!(
            (request.call, request.done, request.lease_end),
            (call, 1, 100)
        );
    }
    let before = desk.clone();
    assert_eq!(desk.issue(1, 5, -7), Err(refusal(15)));
    // 1 before 15.
    assert_eq!(desk.issue(6, 5, -7), Err(refusal(1)));
    assert_eq!(desk, before);
    // 15 before 16.
    let (first, next) = (u32::MAX - 16, u32::MAX);
    desk.first = first;
    desk.next = next;
    desk.open = [None; 16];
    desk.open[(first % 16) as usize] = before.open[0];
    assert_eq!(desk.issue(1, 5, -7), Err(refusal(15)));
    desk.receive(&reply(4, first, 5)).expect("an open call");
    assert_eq!(desk.first, next);
    assert_eq!(desk.issue(1, 5, -7), Err(refusal(16)));
    assert_eq!(desk.issue(1, 64, -7), Err(refusal(1)));
    // The last number that a desk issues.
    desk.first = next - 1;
    desk.next = next - 1;
    let packet = desk.issue(1, 5, -7).expect("the last number");
    assert_eq!(parse_request(&packet).map(|r| r.call), Some(u32::MAX - 1));
    assert_eq!(desk.issue(1, 5, -7), Err(refusal(16)));
}

#[test]
fn resend_refusals() {
    let mut desk = desk();
    assert_eq!(desk.resend(1), Err(refusal(17)));
    let first = desk.issue(1, 5, 40).expect("a place");
    desk.issue(2, 6, 1).expect("a place");
    assert_eq!(desk.resend(0), Err(refusal(17)));
    assert_eq!(desk.resend(3), Err(refusal(17)));
    assert_eq!(desk.resend(17), Err(refusal(17)));
    assert_eq!(desk.resend(1), Ok(first));
    desk.receive(&reply(4, 1, 5)).expect("an open call");
    assert_eq!(desk.resend(1), Err(refusal(17)));
    // Today's done and lease end.
    let grant = Grant {
        client: 4,
        lease_end: 200,
    };
    desk.receive(&write_grant(&grant)).expect("a later end");
    let again = desk.resend(2).expect("an open call");
    let request = parse_request(&again).expect("a request");
    assert_eq!((request.done, request.lease_end), (2, 200));
}

#[test]
fn receive_refusals() {
    let mut desk = desk();
    desk.issue(1, 5, 40).expect("a place");
    desk.issue(1, 6, 40).expect("a place");
    desk.issue(1, 7, 40).expect("a place");
    let refusal_of = |client, call, point| {
        write_refusal(&RefusalPacket {
            number: 7,
            point,
            client,
            call,
        })
        .to_vec()
    };
    let grant = |client, lease_end| write_grant(&Grant { client, lease_end }).to_vec();
    let mut bad_number = refusal_of(4, 1, 5);
    bad_number[1] = 10;
    let refused = [
        (1, vec![]),
        (1, vec![77]),
        (1, set(4, 1, 5, 40).to_vec()),
        (1, receipt(5, 1, 1).to_vec()),
        (1, notice(4, 100).to_vec()),
        (1, image(&head(5, 1, 0, 1), &[], &[])),
        (1, bad_number),
        // 1 before 17.
        (1, reply(9, 9, 64)),
        (17, reply(5, 1, 5)),
        (17, reply(4, 4, 5)),
        (17, reply(4, 17, 5)),
        (17, reply(4, 1, 6)),
        (17, refusal_of(5, 1, 5)),
        (17, refusal_of(4, 4, 5)),
        (17, refusal_of(4, 1, 6)),
        (17, grant(5, 200)),
        (17, grant(4, 99)),
    ];
    for (number, packet) in refused {
        let before = desk.clone();
        assert_eq!(desk.receive(&packet), Err(refusal(number)), "{packet:?}");
        assert_eq!(desk, before);
    }
    let before = desk.clone();
    assert_eq!(desk.receive(&refusal_of(4, 1, 5)), Ok(Received::Refusal(7)));
    assert_eq!(desk.receive(&grant(4, 100)), Ok(Received::Grant(100)));
    assert_eq!(desk, before);
    // Calls close out of turn; done is the first open one.
    assert!(desk.receive(&reply(4, 2, 6)).is_ok());
    assert_eq!(desk.first, 1);
    assert_eq!(desk.receive(&reply(4, 2, 6)), Err(refusal(17)));
    assert!(desk.receive(&reply(4, 1, 5)).is_ok());
    assert_eq!(desk.first, 3);
    assert!(desk.receive(&reply(4, 3, 7)).is_ok());
    assert_eq!((desk.first, desk.next), (4, 4));
}

// Office.

fn grant_of(client: u32, lease_end: u32) -> Result<[u8; 12], Refusal> {
    Ok(write_grant(&Grant { client, lease_end }))
}

#[test]
fn open_refusals() {
    let mut office = LeaseManager::new();
    let refused = |office: &mut LeaseManager, time, span, number| {
        let before = office.clone();
        assert_eq!(office.open(time, span), Err(refusal(number)));
        assert_eq!(*office, before);
    };
    for span in [0, 86_401, u32::MAX] {
        refused(&mut office, 0, span, 1);
    }
    assert_eq!(office.open(10, 86_400), grant_of(1, 86_410));
    // The greater of the office's time and the given one.
    assert_eq!(office.open(5, 5), grant_of(2, 15));
    for client in 3..=32 {
        assert_eq!(office.open(11, 9), grant_of(client, 20));
    }
    refused(&mut office, 11, 9, 18);
    refused(&mut office, 14, 9, 18);
    // 1 before 18 before 16.
    refused(&mut office, 14, 0, 1);
    refused(&mut office, 14, 86_401, 1);
    // At 15 one lease has ended.
    assert_eq!(office.open(15, 9), grant_of(33, 24));
    refused(&mut office, 15, 9, 18);
    refused(&mut office, u32::MAX, 1, 16);
    assert_eq!(office.time, 15);
    assert_eq!(office.open(u32::MAX - 9, 9), grant_of(34, u32::MAX));
    assert_eq!(office.leases.len(), 1);
    refused(&mut office, 0, 10, 16);
    // Client numbers past 32 bits.
    let mut office = LeaseManager::new();
    office.next = u64::from(u32::MAX);
    assert_eq!(office.open(0, 1), grant_of(u32::MAX, 1));
    refused(&mut office, 0, 1, 16);
    // 18 before 16.
    let mut office = LeaseManager::new();
    for _ in 0..32 {
        office.open(0, 9).expect("a place");
    }
    office.next = 1 << 32;
    refused(&mut office, 0, 1, 18);
}

#[test]
fn renew_refusals() {
    let mut office = LeaseManager::new();
    office.open(0, 10).expect("a place");
    let refused = |office: &mut LeaseManager, client, time, span, number| {
        let before = office.clone();
        assert_eq!(office.renew(client, time, span), Err(refusal(number)));
        assert_eq!(*office, before);
    };
    refused(&mut office, 1, 0, 0, 1);
    refused(&mut office, 1, 0, 86_401, 1);
    refused(&mut office, 0, 0, 5, 17);
    refused(&mut office, 2, 0, 5, 17);
    refused(&mut office, 1, 10, 5, 17);
    // 1 before 17 before 16.
    refused(&mut office, 2, 0, 0, 1);
    refused(&mut office, 2, u32::MAX, 5, 17);
    // A smaller end keeps the end and gives a grant.
    assert_eq!(office.renew(1, 2, 3), grant_of(1, 10));
    assert_eq!(office.renew(1, 0, 9), grant_of(1, 11));
    assert_eq!(office.time, 2);
    office.time = u32::MAX - 20;
    office.open(0, 20).expect("a place");
    refused(&mut office, 2, 0, 21, 16);
    assert_eq!(office.renew(2, 0, 20), grant_of(2, u32::MAX));
}

#[test]
fn query_refusals() {
    let mut office = LeaseManager::new();
    office.open(3, 10).expect("a place");
    for client in [0, 2, u32::MAX] {
        let before = office.clone();
        assert_eq!(office.query(client, 50), Err(refusal(17)));
        assert_eq!(office, before);
    }
    assert_eq!(office.query(1, 12), grant_of(1, 13));
    assert_eq!(office.time, 12);
    assert_eq!(office.query(1, 13), Ok(notice(1, 13)));
    assert_eq!(office.query(1, 4), Ok(notice(1, 13)));
    assert!(office.leases.is_empty());
    assert_eq!(office.renew(1, 4, 5), Err(refusal(17)));
}
