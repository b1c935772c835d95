//! Inspect (request 5 of paper 02): the three holders of a completion record, the latest
//! of several, and the refusals in their order.

mod checkpointing;
mod common;
mod logs;

use checkpointing::*;
use common::*;
use logs::*;
use second::answer::Refusal;
use second::bytes::put_i32;
use second::packet::REQUEST_LEN;
use second::record::write_head;
use second::server::{Place, Server, Source, STATE_LEN};

/// Number of the source, begin and end.
fn places(place: Place) -> (u32, usize, usize) {
    (place.source as u32, place.from, place.to)
}

fn at(rig: &Rig, checkpoint: &[u8], client: u32, call: u32) -> (u32, usize, usize) {
    let found = (rig.server).inspect(STATE_LEN, checkpoint, &rig.log, client, call);
    places(found.expect("a record shown"))
}

fn number(server: &Server, bytes: &[u8], tail: &[u8], id: (u32, u32)) -> u32 {
    let found = server.inspect(STATE_LEN, bytes, tail, id.0, id.1);
    found.err().map_or(0, Refusal::number)
}

/// Executes commands before a checkpoint, and one in its tail.
fn executed_around(before: &[[u8; REQUEST_LEN]], after: [u8; REQUEST_LEN]) -> (Rig, Vec<u8>) {
    let mut rig = Rig::new(0, 500);
    before.iter().for_each(|packet| rig.execute(packet));
    let (bytes, _) = sync_and_checkpoint(&mut rig);
    rig.execute(&after);
    (rig, bytes)
}

/// A record in the checkpoint and one in the tail.
fn one_in_each() -> (Rig, Vec<u8>) {
    executed_around(&[set(1, 1, 5, 40)], set(1, 2, 5, 41))
}

/// A point given away before a checkpoint, which has its record.
fn given_away() -> (Rig, Vec<u8>) {
    let mut rig = Rig::new(0, 500);
    rig.execute(&set(1, 1, 5, 40));
    rig.give(0, 5, 1);
    let (bytes, _) = sync_and_checkpoint(&mut rig);
    (rig, bytes)
}

/// Before the first checkpoint, synced or not.
#[test]
fn executed_records_and_image_entries() {
    let mut rig = Rig::new(0, 500);
    rig.execute(&set(1, 1, 5, 40));
    let records = [moved(1, 2), moved(3, 4)];
    rig.take(
        0,
        &image(&head(40, 0, 1, 1), &[floor(1, 1), floor(3, 4)], &records),
    );
    rig.execute(&set(3, 5, 40, 41));
    assert_eq!(at(&rig, &[], 1, 1), (1, 8, 40));
    // The take's eight bytes, the image's head and point, two floors.
    let entries = 40 + 8 + 48 + 16;
    assert_eq!(at(&rig, &[], 1, 2), (2, entries, entries + 24));
    assert_eq!(at(&rig, &[], 3, 4), (2, entries + 24, entries + 48));
    assert_eq!(at(&rig, &[], 3, 5), (1, entries + 48, entries + 80));
    let found = (rig.server).inspect(STATE_LEN, &[], &rig.log, 3, 4);
    let shown = found.expect("an entry").shown(&[], &rig.log);
    assert_eq!(
        shown,
        [3, 0, 0, 0, 4, 0, 0, 0, 7, 0, 0, 0, 7, 0, 0, 0, 1, 0, 0, 0, 60, 0, 0, 0]
    );
    for id in [(1, 3), (3, 3), (2, 1), (0, 0), (u32::MAX, u32::MAX)] {
        assert_eq!(number(&rig.server, &[], &rig.log, id), 17);
    }
}

#[test]
fn checkpoint_entries() {
    let before = [set(1, 1, 5, 40), set(9, 1, 6, 41)];
    let (mut rig, bytes) = executed_around(&before, set(1, 2, 5, 42));
    // Behind two clients.
    assert_eq!(at(&rig, &bytes, 1, 1), (3, 2108, 2132));
    assert_eq!(at(&rig, &bytes, 9, 1), (3, 2132, 2156));
    assert_eq!(at(&rig, &bytes, 1, 2), (1, 8, 40));
    let place = (rig.server).inspect(STATE_LEN, &bytes, &rig.log, 9, 1);
    let place = place.expect("an entry");
    assert_eq!(place.source, Source::Checkpoint);
    assert_eq!(place.shown(&bytes, &rig.log), &bytes[2132..2156]);
    // The state holds it, and neither slice does.
    assert_eq!(number(&rig.server, &[], &rig.log, (1, 1)), 17);
    // The state has dropped it, and the checkpoint has it still.
    rig.notice(0, &notice(9, 5));
    assert_eq!(number(&rig.server, &bytes, &rig.log, (9, 1)), 17);
}

/// A point that goes and comes back with its record, twice within one tail.
#[test]
fn the_latest_of_several() {
    let (mut rig, bytes) = given_away();
    assert_eq!(at(&rig, &bytes, 1, 1), (3, 2100, 2124));
    let back = |number| image(&head(5, 0, 1, number), &[floor(1, 1)], &[moved(1, 1)]);
    rig.take(0, &back(2));
    assert_eq!(at(&rig, &bytes, 1, 1), (2, 72, 96));
    rig.give(0, 5, 1);
    rig.take(0, &back(4));
    assert_eq!(rig.server.length, 192);
    assert_eq!(at(&rig, &bytes, 1, 1), (2, 168, 192));
    // Bytes past the recorded length are no log.
    let length = rig.server.length as usize;
    rig.log[length..length + 32].copy_from_slice(&executed_bytes(1, 1, 1, 5, 40));
    assert_eq!(at(&rig, &bytes, 1, 1), (2, 168, 192));
    rig.log[length..].fill(0);
    assert_eq!(at(&rig, &bytes, 1, 1), (2, 168, 192));
}

/// A record of a good kind and length that does not read holds nothing, so the one before
/// it is shown.
#[test]
fn records_that_do_not_read() {
    let before = [set(1, 1, 5, 40), set(1, 2, 5, 41)];
    let (mut rig, bytes) = executed_around(&before, set(1, 3, 5, 42));
    rig.take(
        0,
        &image(&head(40, 0, 1, 1), &[floor(3, 1)], &[moved(3, 1)]),
    );
    let tail = rig.log.clone();
    let shown = |change: &dyn Fn(&mut [u8]), id: (u32, u32)| {
        let mut log = tail.clone();
        change(&mut log);
        let found = (rig.server).inspect(STATE_LEN, &bytes, &log, id.0, id.1);
        found.map(places)
    };
    let entry = 40 + 8 + 48 + 8;
    assert_eq!(shown(&|_| {}, (1, 3)), Ok((1, 8, 40)));
    assert_eq!(shown(&|_| {}, (3, 1)), Ok((2, entry, entry + 24)));
    // The record of call 3 made one of call 1: the tail before the checkpoint.
    assert_eq!(shown(&|log| log[16] = 1, (1, 1)), Ok((1, 8, 40)));
    assert_eq!(shown(&|log| log[16] = 1, (1, 3)), Err(Refusal::Unknown));
    // Op, point, outcome, quality, a zero byte.
    for (place, byte) in [(9, 6), (10, 64), (11, 5), (32, 3), (35, 1)] {
        let bad = |log: &mut [u8]| (log[16], log[place]) = (1, byte);
        assert_eq!(shown(&bad, (1, 1)), Ok((3, 2100, 2124)));
        assert_eq!(shown(&bad, (1, 3)), Err(Refusal::Unknown));
    }
    // A zero byte of the take; magic, destination and pairs of its image; its entry.
    for place in [41, 48, 53, 55, 64, entry + 19] {
        let bad = |log: &mut [u8]| log[place] = 99;
        assert_eq!(shown(&bad, (3, 1)), Err(Refusal::Unknown));
        assert_eq!(shown(&bad, (1, 3)), Ok((1, 8, 40)));
    }
}

/// Values out of the plan's range, of an image's point or of an entry: inspect reads no plan,
/// so the image holds its entries; recovery refuses it.
#[test]
fn images_with_values_out_of_range() {
    let (mut rig, bytes) = given_away();
    let records = [moved(1, 1), moved(1, 2)];
    rig.take(0, &image(&head(5, 0, 1, 2), &[floor(1, 1)], &records));
    let (value, entry) = (8 + 8 + 40, 8 + 8 + 48 + 8);
    for place in [value, entry + 12, entry + 36] {
        for (value, in_range) in [(-101, false), (-100, true), (1000, true), (1001, false)] {
            put_i32(&mut rig.log, place, value);
            for checkpoint in [&bytes[..], &[]] {
                assert_eq!(at(&rig, checkpoint, 1, 1), (2, entry, entry + 24));
                assert_eq!(at(&rig, checkpoint, 1, 2), (2, entry + 24, entry + 48));
            }
            let recovered = recover_both(&bytes, rig.whole_log());
            assert_eq!(recovered.is_some(), in_range);
        }
        // Another field off beside the last of these values.
        rig.log[entry + 43] = 1;
        assert_eq!(at(&rig, &bytes, 1, 1), (3, 2100, 2124));
        assert_eq!(number(&rig.server, &bytes, &rig.log, (1, 2)), 17);
        rig.log[entry + 43] = 0;
        put_i32(&mut rig.log, place, 7);
    }
}

/// 2, 19, 14, 17: each before the next.
#[test]
fn refusals_in_their_order() {
    let (rig, bytes) = one_in_each();
    let (server, log) = (&rig.server, &rig.log[..]);
    let unsound = Rig::unsound().server;
    let bad = [0; 500];
    for len in [0, STATE_LEN - 1] {
        for server in [server, &unsound] {
            let found = server.inspect(len, &bad, &[], 7, 7);
            assert_eq!(found, Err(Refusal::TooShort));
        }
    }
    for id in [(1, 1), (1, 2), (7, 7)] {
        assert_eq!(number(&unsound, &bytes, log, id), 19);
        assert_eq!(number(&unsound, &bad, &bad, id), 19);
        assert_eq!(number(server, &bytes, &log[..39], id), 19);
        assert_eq!(number(server, &bad, &[], id), 19);
        assert_eq!(number(server, &bad, log, id), 14);
        assert_eq!(number(server, &bytes[..bytes.len() - 1], log, id), 14);
        assert_eq!(number(server, &[0x57], log, id), 14);
        assert_eq!(number(server, &bytes, &bad, id), 14);
        assert_eq!(number(server, &[], &bad, id), 14);
        for (place, byte) in [(0, 0), (4, 1), (4, 16), (5, 1), (8, 0), (8, 7)] {
            let mut tail = log.to_vec();
            tail[place] = byte;
            assert_eq!(number(server, &bytes, &tail, id), 14);
        }
        let seven = if id == (7, 7) { 17 } else { 0 };
        assert_eq!(number(server, &bytes, log, id), seven);
        assert_eq!(number(server, &bytes, &log[..40], id), seven);
    }
}

/// The state's own number is not looked at; the two slices must agree.
#[test]
fn numbers_of_the_slices() {
    let (rig, bytes) = one_in_each();
    let (server, log) = (&rig.server, &rig.log[..]);
    let other = [&write_head(1), &log[8..]].concat();
    assert_eq!(number(server, &[], &other, (1, 2)), 0);
    assert_eq!(number(server, &bytes, &other, (1, 2)), 14);
}

/// An image length off its range is 14 in the bytes up to the recorded length alone.
#[test]
fn the_walk_ends_at_the_recorded_length() {
    let (rig, bytes) = one_in_each();
    let server = &rig.server;
    let mut tail = [&write_head(0)[..], &take_bytes(&[0; 47])].concat();
    tail.resize(500, 0);
    assert_eq!(number(server, &bytes, &tail, (1, 1)), 14);
    let mut short = server.clone();
    (short.length, short.mark) = (15, 8);
    short.records.truncate(1);
    assert_eq!(number(&short, &bytes, &tail, (1, 1)), 0);
}
