//! Checkpoint and tail (request 5 of paper 02), call by call: the layout, and what a
//! server goes on with.

mod checkpointing;
mod common;

use checkpointing::*;
use common::*;
use second::bytes::put_u32;
use second::checkpoint::{parse_checkpoint, CHECKPOINT_LEN, CHECKPOINT_MAX};
use second::packet::{write_request, RESULT_LEN};
use second::rule::Op;
use second::server::{Hold, Taken};

// The layout.

/// A plan's row as bytes: -100, 1000, 0, home.
fn plan_row(home: u8) -> [u8; 16] {
    [
        0x9C, 0xFF, 0xFF, 0xFF, 0xE8, 3, 0, 0, 0, 0, 0, 0, home, 0, 0, 0,
    ]
}

/// Head and pairs for cabinet 0 with 3 clients and 3 records, heard time 300.
const HEAD: [u8; 44] = [
    0x57, 0x4C, 0x47, 0x33, 0, 0, 0, 0, 0x2C, 1, 0, 0, //
    44, 0, 0, 0, 0, 4, 0, 0, //
    0x2C, 4, 0, 0, 0, 4, 0, 0, //
    0x2C, 8, 0, 0, 24, 0, 0, 0, //
    0x44, 8, 0, 0, 72, 0, 0, 0,
];

#[rustfmt::skip]
const CLIENTS: [u8; 24] = [
    1, 0, 0, 0, 2, 0, 0, 0,
    3, 0, 0, 0, 1, 0, 0, 0,
    0xFF, 0xFF, 0xFF, 0xFF, 5, 0, 0, 0,
];

/// In order of arrival: a set of point 5 to 40, a step of point 5 by -153 that stops
/// at its low end, the entry that came with point 40.
#[rustfmt::skip]
const RECORDS: [u8; 72] = [
    3, 0, 0, 0, 1, 0, 0, 0, 40, 0, 0, 0, 40, 0, 0, 0, 1, 0, 2, 5, 0, 0, 0, 0,
    0xFF, 0xFF, 0xFF, 0xFF, 7, 0, 0, 0, 0x67, 0xFF, 0xFF, 0xFF, 0x9C, 0xFF, 0xFF, 0xFF, 2, 4, 2, 5, 0, 0, 0, 0,
    1, 0, 0, 0, 2, 0, 0, 0, 7, 0, 0, 0, 7, 0, 0, 0, 1, 0, 0, 40, 60, 0, 0, 0,
];

fn by_hand() -> Vec<u8> {
    let plan: Vec<[u8; 16]> = (0..64).map(|i| plan_row(u8::from(i >= 32))).collect();
    // Status, quality, destination; value; move; latest taken move.
    let points = (0..64).map(|i| match i {
        5 => [[2, 2, 3, 0], [0x9C, 0xFF, 0xFF, 0xFF], [1, 0, 0, 0], [0; 4]],
        6 => [[3, 1, 1, 0], [0; 4], [1, 0, 0, 0], [0; 4]],
        40 => [[1, 0, 0, 0], [11, 0, 0, 0], [9, 0, 0, 0], [9, 0, 0, 0]],
        0..32 => [[1, 1, 0, 0], [0; 4], [0; 4], [0; 4]],
        _ => [[0, 1, 0, 0], [0; 4], [0; 4], [0; 4]],
    });
    let points: Vec<[[u8; 4]; 4]> = points.collect();
    [
        &HEAD[..],
        plan.as_flattened(),
        points.as_flattened().as_flattened(),
        &CLIENTS,
        &RECORDS,
    ]
    .concat()
}

/// The state of the bytes above: a point given, one released, one taken.
fn small() -> Rig {
    let mut rig = Rig::new(0, 1000);
    rig.execute(&set(3, 1, 5, 40));
    let mut step = request(Op::Step, 5, u32::MAX, 7, -153);
    step.done = 5;
    rig.execute(&write_request(&step));
    rig.give(0, 5, 3);
    rig.give(0, 6, 1);
    rig.release(0, &receipt(6, 1, 1));
    let mut head = head(40, 0, 1, 9);
    (head.heard, head.value, head.quality) = (300, 11, 0);
    rig.take(0, &image(&head, &[floor(1, 2)], &[moved(1, 2)]));
    rig.sync_all();
    rig
}

#[test]
fn a_small_state() {
    let mut rig = small();
    let before = rig.server.clone();
    let (bytes, _) = checkpoint(&mut rig);
    assert_eq!(bytes, by_hand());
    assert_eq!(rig.whole_log(), [0x57, 0x4C, 0x47, 0x31, 0, 0, 0, 0]);
    assert!(parse_checkpoint(&bytes).as_ref() == Some(&rig.server));
    // The state stays, but for places in the log.
    assert_eq!((rig.server.length, rig.server.mark), (8, 8));
    assert!(rig.server.records.iter().all(|r| r.end == 8));
    let (destination, move_number, end) = (3, 9, 8);
    assert_eq!(rig.server.point(5).hold, Hold::Given { destination, end });
    assert_eq!(rig.server.point(40).taken, Some(Taken { move_number, end }));
    assert!(rig.server != before && rig.server == before.rebased());
}

/// Head, plan and points alone; a second one at once is the same.
#[test]
fn a_fresh_state() {
    let mut rig = Rig::new(1, 500);
    let founded = rig.server.clone();
    let (bytes, _) = checkpoint(&mut rig);
    assert_eq!(bytes.len(), 2092);
    assert_eq!(bytes[4..8], [1, 0, 0, 0]);
    assert!(rig.server == founded);
    assert_eq!(checkpoint(&mut rig).0, bytes);
    assert!(recover_both(&bytes, rig.whole_log()) == Some(founded));
}

#[test]
fn the_longest() {
    let mut rig = Rig::new(0, 20_000);
    take_longest(&mut rig, &head(40, 0, 1, 1));
    let (bytes, _) = sync_and_checkpoint(&mut rig);
    assert_eq!((bytes.len(), CHECKPOINT_MAX), (14_636, 14_636));
    assert!(recover_both(&bytes, rig.whole_log()).as_ref() == Some(&rig.server));
    // One record more is off the layout.
    let mut more = [&bytes[..], &bytes[14_612..]].concat();
    put_u32(&mut more, 40, 513 * 24);
    assert!(parse_checkpoint(&more).is_none());
    let mut behind = bytes.clone();
    behind.resize(CHECKPOINT_LEN, FILL);
    assert!(parse_checkpoint(&behind) == Some(rig.server));
}

// What a server goes on with.

/// A repeat is told from the checkpoint; a call under a floor and an ended lease are
/// still known.
#[test]
fn results_and_refusals_after_a_checkpoint() {
    let mut rig = Rig::new(0, 500);
    rig.execute(&set_done(1, 3, 3, 5, 40));
    rig.execute(&set(2, 1, 5, 41));
    rig.sync_all();
    rig.notice(0, &notice(2, 999));
    let before = rig.request(0, RESULT_LEN, &set_done(1, 3, 3, 5, 40));
    sync_and_checkpoint(&mut rig);
    assert_eq!(
        rig.request(0, RESULT_LEN, &set_done(1, 3, 3, 5, 40)),
        before
    );
    assert_eq!(rig.fetch(0, RESULT_LEN, 1, 3), before);
    rig.request(5, 12, &set(1, 2, 5, 40));
    rig.request(6, 12, &set_done(1, 3, 3, 5, 42));
    let mut late = request(Op::Read, 5, 2, 1, 0);
    late.lease_end = 999;
    rig.request(4, 12, &write_request(&late));
    // What comes after it is synced again by itself.
    rig.execute(&set(1, 4, 5, 43));
    rig.request(7, 12, &set(1, 4, 5, 43));
    rig.sync(10, 7);
    rig.sync(0, 40);
    rig.request(0, RESULT_LEN, &set(1, 4, 5, 43));
}

/// A give, a take and a release before checkpoints, with image, receipt and take after.
#[test]
fn moves_across_checkpoints() {
    let (mut giver, mut taker) = (Rig::new(0, 500), Rig::new(1, 500));
    giver.execute(&set(1, 1, 5, 40));
    giver.give(0, 5, 1);
    giver.sync_all();
    let before = giver.image(0, 80, 5);
    sync_and_checkpoint(&mut giver);
    assert_eq!(giver.image(0, 80, 5), before);
    taker.take(0, &before);
    taker.receipt(7, 0, 5);
    sync_and_checkpoint(&mut taker);
    taker.take(12, &before);
    taker.fetch(0, RESULT_LEN, 1, 1);
    let receipt = taker.receipt(0, 8, 5);
    giver.release(0, &receipt);
    sync_and_checkpoint(&mut giver);
    giver.release(3, &receipt);
    giver.image(3, 0, 5);
    // Back again.
    taker.give(0, 5, 0);
    sync_and_checkpoint(&mut taker);
    let back = taker.image(0, 80, 5);
    giver.take(0, &back);
    giver.take(12, &back);
    assert_eq!(giver.server.point(5).move_number, 2);
    // A take and the give after it may both lie before the log.
    let end = 8;
    assert_eq!(taker.server.point(5).taken.map(|t| t.end), Some(end));
    let destination = 0;
    assert_eq!(taker.server.point(5).hold, Hold::Given { destination, end });
}
