//! Checkpoints and tails that are refused (request 5 of paper 02): each number in its
//! order, ends of a sound state, every cut of a tail, and damaged tails.

mod checkpointing;
mod common;
mod logs;

use checkpointing::*;
use common::*;
use logs::*;
use second::answer::Answer;
use second::random::Random;
use second::record::{whole_end, write_head};
use second::server::{Hold, Server, STATE_LEN};

// Checkpoint.

/// The answer with buffers of these lengths for state, log, checkpoint and tail. A refusal
/// leaves all lent memory.
fn asked(rig: &mut Rig, lens: [usize; 4]) -> u32 {
    let [state, log, to, tail] = lens;
    let (mut to, mut tail) = (vec![FILL; to], vec![FILL; tail]);
    let before = rig.server.clone();
    let server = &mut rig.server;
    let answer = server.checkpoint(state, &rig.log[..log], &mut to, &mut tail);
    if answer.number != 0 {
        assert_eq!(answer.written, 0);
        assert!(*server == before);
        assert!(to.iter().chain(&tail).all(|&b| b == FILL));
    }
    answer.number
}

#[test]
fn refusals_of_a_checkpoint() {
    let mut rig = Rig::new(0, 100);
    rig.execute(&set(1, 1, 5, 40));
    let (state, log, to, tail) = (32_768, 100, 32_768, 8);
    assert_eq!(asked(&mut rig, [state, log, to, tail]), 7);
    rig.sync(0, 39);
    assert_eq!(asked(&mut rig, [state, log, to, tail]), 7);
    rig.sync_all();
    for short in [
        [state - 1, log, to, tail],
        [0, log, to, tail],
        [state, log, to - 1, tail],
        [state, log, 0, tail],
        [state, log, to, tail - 1],
        [state, log, to, 0],
    ] {
        assert_eq!(asked(&mut rig, short), 2);
        assert_eq!(asked(&mut Rig::unsound(), short), 2);
    }
    assert_eq!(asked(&mut rig, [state, 39, to, tail]), 19);
    assert_eq!(asked(&mut Rig::unsound(), [state, log, to, tail]), 19);
    // 19 comes before 7.
    let mut unsynced = Rig::new(0, 100);
    unsynced.execute(&set(1, 1, 5, 40));
    assert_eq!(asked(&mut unsynced, [state, 39, to, tail]), 19);
    assert_eq!(asked(&mut rig, [state, 40, to, tail]), 0);
}

/// From 8, which is before the log, to its length; a take before its give, or both before
/// the log.
#[test]
fn ends_of_a_sound_state() {
    let mut rig = Rig::new(0, 500);
    rig.take(
        0,
        &image(&head(40, 0, 1, 1), &[floor(1, 1)], &[moved(1, 1)]),
    );
    rig.give(0, 40, 1);
    let (taken, given) = (96, 104);
    assert_eq!(rig.server.length, given);
    let sound = |take_end: u64, give_end: u64, record_end: u64| {
        let mut server = rig.server.clone();
        let point = &mut server.points[40];
        let (destination, end) = (1, give_end);
        point.hold = Hold::Given { destination, end };
        let take = point.taken.as_mut().expect("a taken point");
        take.end = take_end;
        server.records[0].end = record_end;
        let mut released = server.clone();
        released.points[40].hold = Hold::Released { destination, end };
        released.records.clear();
        let same_released = released.sound() == server.sound();
        assert!(same_released || !(8..=given).contains(&record_end));
        server.sound()
    };
    assert!(sound(taken, given, taken) && sound(8, 8, 8));
    for end in [8, 9, given] {
        assert!(sound(8, 9, end));
    }
    for end in [0, 7, given + 1, u64::MAX] {
        assert!(!sound(8, 9, end) && !sound(end, given, 8) && !sound(8, end, 8));
    }
    assert!(!sound(9, 9, 8) && !sound(given, given, 8) && !sound(10, 9, 8) && !sound(9, 8, 8));
}

// Recovery.

/// Recovery from checkpoint and tail is that from the old log and the tail's records,
/// length, mark and record places aside; or both refuse. Answers whether they do not.
fn assert_like_whole(bytes: &[u8], tail: &[u8], whole: Option<Server>) -> bool {
    let both = recover_both(bytes, tail);
    let length = both.as_ref().map(|s| (s.length, s.mark));
    if length.is_some() {
        let end = whole_end(tail).expect("a walk") as u64;
        assert_eq!(length, Some((end, end)));
    }
    let recovered = length.is_some();
    assert!(both.map(|s| s.rebased()) == whole.map(|s| s.rebased()));
    recovered
}

#[test]
fn every_cut_of_a_tail() {
    let (bytes, tail, old) = checkpoint_and_tail();
    for k in 0..=tail.len() {
        let cut = &tail[..k];
        if k < 8 {
            assert!(recover_both(&bytes, cut).is_none());
            continue;
        }
        let whole = recover(&[&old, &cut[8..]].concat(), &plan());
        assert!(assert_like_whole(&bytes, cut, whole));
    }
}

#[test]
fn refusals_of_recovery() {
    let (bytes, tail, _) = checkpoint_and_tail();
    let before = Rig::new(3, 100).server;
    for (len, checkpoint, tail, number) in [
        (STATE_LEN - 1, &bytes[..], &tail[..], 2),
        (0, &[], &[], 2),
        (STATE_LEN, &[], &tail, 14),
        (STATE_LEN, &bytes, &[], 14),
        (STATE_LEN, &bytes, &tail[..7], 14),
        (STATE_LEN, &bytes, &write_head(1), 14),
        (STATE_LEN, &bytes, &bytes, 14),
        (STATE_LEN, &tail, &tail, 14),
        (STATE_LEN, &bytes[..bytes.len() - 1], &tail, 14),
    ] {
        let mut server = before.clone();
        let answer = server.recover_checkpoint(len, checkpoint, tail);
        assert_eq!((answer.number, answer.written), (number, 0));
        assert!(server == before);
    }
    // Whatever the state was.
    let mut server = before.clone();
    let answer = server.recover_checkpoint(STATE_LEN, &bytes, &tail);
    assert_eq!(answer, Answer::DONE);
}

/// Records that the checkpoint's state excludes, and kinds and image lengths that are off,
/// whole or not.
#[test]
fn records_that_cannot_follow_a_checkpoint() {
    let (bytes, _, _) = checkpoint_and_tail();
    let bad = [
        executed_bytes(1, 1, 1, 5, 40),
        executed_bytes(2, 2, 2, 7, 40),
        executed_bytes(9, 1, 1, 5, 1001),
        gone_bytes(9),
        give_bytes(7, 1, 2),
        give_bytes(40, 1, 3),
        release_bytes(6, 1),
        take_bytes(&image(&head(7, 0, 1, 1), &[], &[])),
        vec![0],
        vec![6; 32],
        vec![7; 30],
        take_bytes(&[0; 47]),
    ];
    for record in bad {
        let tail = [&write_head(0), &record[..]].concat();
        assert!(recover_both(&bytes, &tail).is_none());
    }
}

/// Cuts and damages of tails in random schedules.
#[test]
fn tails_of_random_schedules() {
    let mut random = Random::new(5);
    let (mut cuts, mut damaged, mut refused) = (0, 0, 0);
    for seed in 0..150 {
        random_stored(seed, |server, bytes, tail, whole| {
            let replaced = whole.len() - tail.len();
            for k in 8..=tail.len() {
                let whole = recover(&whole[..replaced + k], &server.plan);
                assert!(assert_like_whole(bytes, &tail[..k], whole));
                cuts += 1;
            }
            for _ in 0..20 {
                let records = match tail.len() {
                    8 => vec![random.below(8) as u8],
                    _ => damage(&mut random, &tail[8..]),
                };
                let whole = recover(&[&whole[..8 + replaced], &records].concat(), &server.plan);
                let recovered = assert_like_whole(bytes, &[&tail[..8], &records].concat(), whole);
                damaged += 1;
                refused += u32::from(!recovered);
            }
        });
    }
    println!("{cuts} cuts; {refused} of {damaged} damaged tails refused");
    assert!(cuts > 10_000 && damaged > 3000);
    assert!((1000..damaged - 1000).contains(&refused));
}
