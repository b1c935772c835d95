//! Runs random schedules and checks demand 3 after each.
//! Arguments: number of schedules (10,000), seed, and 1 for servers that are
//! renewed in the schedule, 2 for a lock and its gates, 3 for checkpoints, each
//! server beside a shadow without them, 4 for times, with checkpoints and with the
//! last two renewals of each server, beside shadows too, or 5 for every request through a
//! dispatcher, with checkpoints.

use second::schedule::{
    generate, generate_checkpoints, generate_dispatched, generate_lock, generate_renewed,
    generate_timed, Renewed,
};
use second::world::{minimise_lock, minimise_renewed, run_lock, run_renewed, Counts, Options};
use std::process::ExitCode;
use std::time::Instant;

const COUNT: u64 = 10_000;
const SEED: u64 = 20_261_115;

fn main() -> ExitCode {
    let mut arguments = std::env::args().skip(1);
    let mut number = |default| match arguments.next() {
        Some(text) => text.parse().ok(),
        None => Some(default),
    };
    let (Some(count), Some(seed), Some(kind)) = (number(COUNT), number(SEED), number(0)) else {
        eprintln!("usage: check [schedules [seed [kind]]]");
        return ExitCode::FAILURE;
    };
    let check_one = match kind {
        0 => |seed| check_one(Renewed::today(&generate(seed)), seed, false),
        1 => |seed| check_one(generate_renewed(seed), seed, false),
        2 => check_lock,
        3 => |seed| check_one(Renewed::today(&generate_checkpoints(seed)), seed, true),
        4 => |seed| check_one(generate_timed(seed), seed, true),
        _ => |seed| check_one(Renewed::today(&generate_dispatched(seed)), seed, true),
    };
    let begin = Instant::now();
    let mut counts = Counts::default();
    for i in 0..count {
        match check_one(seed.wrapping_add(i)) {
            Some(more) => counts.add(&more),
            None => return ExitCode::FAILURE,
        }
        if (i + 1) % (count / 10).max(1) == 0 {
            eprintln!("{} of {count}", i + 1);
        }
    }
    let rate = count as f64 / begin.elapsed().as_secs_f64();
    println!("seed {seed}, {count} schedules, {rate:.0} a second, no violation");
    println!("{counts:?}");
    ExitCode::SUCCESS
}

/// Runs one schedule; prints it, made shorter, if it violates demand 3 or differs from the
/// shadows that run beside it.
fn check_one(schedule: Renewed, seed: u64, shadow: bool) -> Option<Counts> {
    let options = Options {
        shadow,
        ..Options::default()
    };
    let found = run_renewed(&schedule, options);
    if found.result.is_err() || found.shadow.is_err() || found.turns.is_err() {
        let (shadow, turns) = (found.shadow, found.turns);
        println!("schedule {seed}: {:?}, {shadow:?}, {turns:?}", found.result);
        let options = Options {
            trace: true,
            ..options
        };
        let shorter = minimise_renewed(&schedule, options);
        println!("renewals before steps {:?}", shorter.places);
        let shorter = run_renewed(&shorter, options);
        let (shadow, turns) = (shorter.shadow, shorter.turns);
        println!("shortened: {:?}, {shadow:?}, {turns:?}", shorter.result);
        for line in shorter.trace {
            println!("{line}");
        }
        return None;
    }
    Some(found.counts)
}

/// The same with a lock and its gates.
fn check_lock(seed: u64) -> Option<Counts> {
    let schedule = generate_lock(seed);
    let found = run_lock(&schedule, Options::default());
    if found.demand3.is_err() || found.both_away() || found.wrong_opening.is_some() {
        let (orders, opening) = (found.orders, found.wrong_opening);
        println!(
            "schedule {seed}: {:?}, {orders:?}, {opening:?}",
            found.demand3
        );
        let options = Options {
            trace: true,
            ..Options::default()
        };
        let shorter = run_lock(&minimise_lock(&schedule, options), options);
        println!("shortened: {:?}", shorter.orders);
        for line in shorter.trace {
            println!("{line}");
        }
        return None;
    }
    Some(found.counts)
}
