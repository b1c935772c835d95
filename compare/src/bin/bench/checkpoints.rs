//! Checkpoints, recovery from one and a short tail, and inspect.

use crate::{measure, measure_in, row, row_tested, Both, LONG_ROUNDS, SPACE};
use compare::checkpoint::{checkpoint, inspect, recover_checkpoint, second_inspect};
use compare::kernel::{self, Call};
use compare::long::{self, Replaced};
use second::checkpoint::{CHECKPOINT_LEN, CHECKPOINT_MAX};
use second::record::HEAD_LEN;
use second::server::{Server, STATE_LEN};
use std::hint::black_box;

/// Log records of the tail.
const TAIL: u32 = 10;

pub fn rows() {
    println!("{:<62}   state tested", "checkpoints");
    for (name, clients, calls) in [("8 records", 2, 4), ("512 records", 32, 16)] {
        made(name, Both::new(0, clients, calls));
    }
    let long = long::replaced(16 << 20, TAIL);
    assert_eq!(long.checkpoint.len(), CHECKPOINT_MAX);
    recovered(&long);
    inspected(&long);
}

/// A checkpoint of a state that has just made one: the next one is the same. Beside a copy of its bytes, too.
fn made(name: &str, base: Both) {
    let tested = base.times(&[Call::Sync(0)], SPACE);
    let (mut state, log, mut server) = (base.state, base.log, base.server);
    let (mut out, mut out2) = (vec![0; CHECKPOINT_LEN], vec![0; CHECKPOINT_LEN]);
    let (mut tail, mut tail2) = ([0; HEAD_LEN], [0; HEAD_LEN]);
    let written = checkpoint(&mut state, &log, &mut out, &mut tail).written;
    server.checkpoint(STATE_LEN, &log, &mut out2, &mut tail2);
    assert!(out == out2 && tail == tail2, "{name}");
    let bytes = out[..written].to_vec();
    let mut pass = || {
        black_box(checkpoint(&mut state, &log, &mut out, &mut tail));
    };
    let times = measure(1, &mut pass, || {
        black_box(server.checkpoint(STATE_LEN, &log, &mut out2, &mut tail2));
    });
    row_tested(&format!("checkpoint, {name}"), times, tested);
    let mut copy = vec![0; written];
    let times = measure(1, pass, || {
        copy.copy_from_slice(black_box(&bytes));
        black_box(&mut copy);
    });
    row(&format!("the same, to a copy, {name}"), times);
}

/// From the checkpoint and its tail, from the whole log, and one to the other; both give one state, length,
/// mark and record places aside.
fn recovered(long: &Replaced) {
    let (mut state, mut server) = (vec![0; STATE_LEN], Server::new());
    let (cp, tail, log, plan) = (
        &long.checkpoint,
        &long.tail,
        &long.whole.log,
        &long.whole.plan,
    );
    assert_eq!(server.recover(STATE_LEN, log, plan).number, 0);
    let whole = server.rebased();
    assert_eq!(server.recover_checkpoint(STATE_LEN, cp, tail).number, 0);
    assert!(server.rebased() == whole);
    let short = measure(
        1,
        || {
            black_box(recover_checkpoint(&mut state, black_box(cp), tail));
        },
        || {
            black_box(server.recover_checkpoint(STATE_LEN, black_box(cp), tail));
        },
    );
    let short = micro(short);
    row("recover, checkpoint and tail, µs", short);
    let long = measure_in(
        LONG_ROUNDS,
        1,
        || {
            black_box(kernel::recover(&mut state, black_box(log), plan));
        },
        || {
            black_box(server.recover(STATE_LEN, black_box(log), plan));
        },
    );
    let long = micro(long);
    row("recover, log of 16 MB, µs", long);
    row("the log to checkpoint and tail, µs", (long.0, short.0));
}

fn micro((have, want): (f64, f64)) -> (f64, f64) {
    (have / 1000.0, want / 1000.0)
}

/// The last record of the tail, and the first entry of the checkpoint that the state still has.
fn inspected(long: &Replaced) {
    let (mut state, mut server) = (vec![0; STATE_LEN], Server::new());
    let (cp, tail) = (&long.checkpoint, &long.tail);
    recover_checkpoint(&mut state, cp, tail);
    server.recover_checkpoint(STATE_LEN, cp, tail);
    let id = |r: &second::server::Completion| (r.client, r.call);
    let (first, last) = (
        id(&server.records[0]),
        id(server.records.last().expect("512")),
    );
    for (name, id, source) in [("tail's end", last, 1), ("checkpoint", first, 3)] {
        let place = inspect(&state, cp, tail, id);
        assert_eq!((place.number, place.source), (0, source));
        assert_eq!(place, second_inspect(&server, STATE_LEN, cp, tail, id));
        let times = measure(
            1,
            || {
                black_box(inspect(black_box(&state), cp, tail, id));
            },
            || {
                black_box(second_inspect(black_box(&server), STATE_LEN, cp, tail, id));
            },
        );
        row(&format!("inspect, {name}"), times);
    }
}
