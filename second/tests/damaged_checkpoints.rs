//! Damaged checkpoints (request 5 of paper 02): each is refused, or gives a sound state that
//! reads back.

mod checkpointing;
mod common;

use checkpointing::*;
use common::*;
use second::bytes::put_u32;
use second::checkpoint::{
    parse_checkpoint, write_checkpoint_as, CHECKPOINT_LEN, CHECKPOINT_MAGIC_UNTIMED,
};
use second::program::Form;
use second::random::Random;

/// How many checkpoints are read, and how many refused.
#[derive(Default)]
struct Tally([u32; 2]);

impl Tally {
    fn add(&mut self, bytes: &[u8], tail: &[u8]) {
        self.0[usize::from(assert_refused_or_sound(bytes, tail))] += 1;
    }

    fn assert_over(&self, read: u32, refused: u32) {
        println!("{} read, {} refused", self.0[0], self.0[1]);
        assert!(self.0[0] > read && self.0[1] > refused);
    }
}

/// Refused, or a sound state that reads back; answers whether it is refused.
fn assert_refused_or_sound(bytes: &[u8], tail: &[u8]) -> bool {
    let Some(state) = parse_checkpoint(bytes) else {
        assert!(recover_both(bytes, tail).is_none());
        return true;
    };
    assert!(state.sound() && (state.length, state.mark) == (8, 8));
    let mut again = vec![FILL; CHECKPOINT_LEN];
    let form = match bytes.starts_with(&CHECKPOINT_MAGIC_UNTIMED) {
        true => Form::Untimed,
        false => Form::Timed,
    };
    let len = write_checkpoint_as(form, &state, &mut again);
    assert_eq!(again[..len], bytes[..len]);
    let same_server = tail.get(4) == Some(&state.cabinet);
    let recovered = recover_both(bytes, &tail[..8]);
    assert_eq!(recovered.is_some(), same_server);
    assert!(recovered.is_none_or(|r| r == state));
    false
}

/// Each byte changed; in the head, and in what is not alike for all points, to every other
/// value.
#[test]
fn every_byte_of_a_checkpoint() {
    let (bytes, tail, _) = checkpoint_and_tail();
    let mut tally = Tally::default();
    for at in 0..bytes.len() {
        let all = at < 60 || (1068 + 80..1068 + 128).contains(&at) || at >= 2092;
        let values: Vec<u8> = match all {
            true => (1..=255).collect(),
            false => vec![1, 2, 3, 4, 0x10, 0x80, 0xFF],
        };
        for value in values {
            let mut bad = bytes.clone();
            bad[at] ^= value;
            tally.add(&bad, &tail);
        }
    }
    tally.assert_over(5000, 10_000);
}

/// Status, destination, move and latest taken move of a point of cabinet 0, at home or not;
/// whether the checkpoint is read.
#[test]
fn points_of_a_checkpoint() {
    let (bytes, _) = checkpoint(&mut Rig::new(0, 100));
    let read = |point: usize, [status, destination]: [u8; 2], moves: [u32; 2]| {
        let mut bytes = bytes.clone();
        let at = 1068 + 16 * point;
        (bytes[at], bytes[at + 2]) = (status, destination);
        put_u32(&mut bytes, at + 8, moves[0]);
        put_u32(&mut bytes, at + 12, moves[1]);
        parse_checkpoint(&bytes).is_some()
    };
    const MAX: u32 = u32::MAX;
    for (point, home) in [(5, true), (40, false)] {
        assert_eq!(read(point, [0, 0], [0, 0]), !home);
        assert_eq!(read(point, [1, 0], [0, 0]), home);
        assert!(read(point, [1, 0], [1, 1]) && read(point, [1, 0], [MAX, MAX]));
        for status in [2, 3] {
            assert_eq!(read(point, [status, 1], [1, 0]), home);
            assert!(read(point, [status, 15], [2, 1]));
            assert!(read(point, [status, 15], [MAX, MAX - 1]));
            for moves in [[0, 0], [2, 0], [1, 1], [3, 1], [1, 2], [0, MAX]] {
                assert!(!read(point, [status, 1], moves));
            }
            for destination in [0, 16, 255] {
                assert!(!read(point, [status, destination], [2, 1]));
            }
        }
        for moves in [[1, 0], [0, 1], [2, 1], [1, 2]] {
            assert!(!read(point, [1, 0], moves) && !read(point, [0, 0], moves));
        }
        assert!(!read(point, [1, 1], [1, 1]) && !read(point, [4, 1], [2, 1]));
        assert!(!read(point, [0, 1], [0, 0]) && !read(point, [0, 0], [1, 1]));
    }
}

#[test]
fn every_cut_of_a_checkpoint() {
    let (bytes, tail, _) = checkpoint_and_tail();
    let state = parse_checkpoint(&bytes);
    assert!(state.is_some());
    for k in 0..bytes.len() {
        assert!(assert_refused_or_sound(&bytes[..k], &tail));
    }
    for more in [1, 20, CHECKPOINT_LEN] {
        let longer = [&bytes[..], &vec![FILL; more]].concat();
        assert!(parse_checkpoint(&longer) == state);
    }
}

#[test]
fn damaged_checkpoints_of_random_schedules() {
    let mut random = Random::new(7);
    let mut tally = Tally::default();
    for seed in 1000..1100 {
        random_stored(seed, |_, bytes, tail, _| {
            for _ in 0..50 {
                tally.add(&damage(&mut random, bytes), tail);
            }
        });
    }
    tally.assert_over(500, 2000);
}
