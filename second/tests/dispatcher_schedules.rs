//! Random schedules with every request through its server's dispatcher: demand 3 as before,
//! and every turn fair. Each planted fault makes a turn unfair; none violates demand 3.

mod search;

use second::dispatcher::WAITING_MAX;
use second::faults::Fault;
use second::schedule::{generate_dispatched, Call};
use second::world::{minimise, run, Counts, Options, Unfair};

const FIRST_SEED: u64 = 8_000_000;
const SCHEDULES: u64 = 20_000;
const SCHEDULES_MAX: u64 = 2_000;

/// Everything that a dispatcher may meet happens, and happens often.
fn assert_eventful(counts: &Counts, schedules: u64) {
    let turns = &counts.turns;
    assert!(turns.enqueued > 20 * schedules && turns.served > 18 * schedules);
    assert!(turns.malformed > schedules / 10);
    assert!(turns.already_waiting > 4 * schedules);
    assert!(turns.full > schedules / 2);
    assert!(turns.answered > 8 * schedules && turns.refused > 8 * schedules);
    assert!(turns.short > schedules);
    assert!(turns.nobody > 8 * schedules && turns.nobody_short > 3 * schedules);
    assert!(turns.not_called > 2 * schedules);
    assert!(turns.lost > schedules && turns.kept > schedules / 2);
    assert!(turns.from_copy > schedules / 10);
    assert!(turns.waits_over_8 > 3 * schedules);
    assert_eq!(turns.longest, WAITING_MAX as u64);
    assert!(counts.executed > 6 * schedules && counts.completed > schedules);
    assert!(counts.repeats > 2 * schedules && counts.lost > schedules / 4);
    assert!(counts.crashes > schedules && counts.takes > schedules);
    assert!(counts.gone > schedules / 4 && counts.storing.stored > schedules);
    assert!(counts.storing.replaced > schedules);
    // Of Request itself: what the dispatcher answers with 8 is not among them.
    let full_server = counts.refusals[8] - turns.full;
    assert!(full_server > schedules / 20, "{full_server}");
    for number in [3, 4, 5, 7, 9, 19] {
        assert!(counts.refusals[number] > schedules / 50, "refusal {number}");
    }
}

fn run_all(count: u64, options: Options) {
    let mut counts = Counts::default();
    for seed in FIRST_SEED..FIRST_SEED + count {
        let found = run(&generate_dispatched(seed), options);
        assert_eq!(found.result, Ok(()), "seed {seed}");
        assert_eq!(found.shadow, Ok(()), "seed {seed}");
        assert_eq!(found.turns, Ok(()), "seed {seed}");
        counts.add(&found.counts);
    }
    println!("{count} schedules: {:?}", counts.turns);
    assert_eventful(&counts, count);
}

#[test]
fn demand_3_holds_and_every_turn_is_fair() {
    run_all(SCHEDULES, Options::default());
}

/// Refusals leave everything as found, checkpoints make no difference.
#[test]
fn calls_change_only_what_they_may() {
    let options = Options {
        verify: true,
        shadow: true,
        ..Options::default()
    };
    run_all(500, options);
}

#[test]
fn no_request_goes_past_the_dispatchers() {
    for seed in FIRST_SEED..FIRST_SEED + 200 {
        let schedule = generate_dispatched(seed);
        let past = |call: &Call| matches!(call, Call::Request { .. } | Call::LateOpening { .. });
        assert!(!schedule.steps.iter().any(|step| past(&step.call)));
    }
}

// Planted faults.

fn with(fault: Option<Fault>) -> Options {
    Options {
        fault,
        ..Options::default()
    }
}

/// Whether a turn is unfair so in the schedule of the seed.
fn unfair(seed: u64, fault: Option<Fault>, how: Unfair) -> bool {
    let found = run(&generate_dispatched(seed), with(fault));
    found.counts.turns.unfair[how as usize] > 0
}

fn assert_found(fault: Fault, how: Unfair) {
    println!("{how:?}:");
    let seeds = FIRST_SEED..FIRST_SEED + SCHEDULES_MAX;
    search::first_violation(seeds, fault, |seed, fault| unfair(seed, fault, how));
}

/// A dispatcher can only delay, repeat and lose packets.
#[test]
fn demand_3_holds_with_each_fault() {
    for fault in [
        Fault::LastComeFirst,
        Fault::LowestFirst,
        Fault::PlaceKept,
        Fault::TwoPlaces,
        Fault::NewerStays,
        Fault::NextDropped,
        Fault::LastPlaceUnused,
    ] {
        let mut unfair = 0;
        for seed in FIRST_SEED..FIRST_SEED + 500 {
            let found = run(&generate_dispatched(seed), with(Some(fault)));
            assert_eq!(found.result, Ok(()), "{fault:?}, seed {seed}");
            unfair += u32::from(found.turns.is_err());
        }
        println!("{fault:?}: unfair in {unfair} of 500");
        assert!(unfair > 50, "{fault:?}");
    }
}

#[test]
fn last_come_first_served() {
    assert_found(Fault::LastComeFirst, Unfair::OutOfTurn);
    assert_found(Fault::LastComeFirst, Unfair::TooLong);
}

#[test]
fn lowest_client_first() {
    assert_found(Fault::LowestFirst, Unfair::OutOfTurn);
    assert_found(Fault::LowestFirst, Unfair::TooLong);
}

/// For ever the same one, if it is refused for ever.
#[test]
fn place_kept_after_a_refusal() {
    assert_found(Fault::PlaceKept, Unfair::OutOfTurn);
    assert_found(Fault::PlaceKept, Unfair::TooLong);
}

#[test]
fn two_places_for_one_client() {
    assert_found(Fault::TwoPlaces, Unfair::Twice);
}

#[test]
fn newer_packet_for_the_older() {
    assert_found(Fault::NewerStays, Unfair::OutOfTurn);
}

#[test]
fn serving_that_drops_the_next() {
    assert_found(Fault::NextDropped, Unfair::OutOfTurn);
}

#[test]
fn refused_with_a_place_free() {
    assert_found(Fault::LastPlaceUnused, Unfair::Number);
}

/// A shortened schedule still shows the fault, and nothing without it.
#[test]
fn shortened_schedules_are_still_unfair() {
    let options = with(Some(Fault::LastComeFirst));
    let mut schedules = (FIRST_SEED..).map(generate_dispatched);
    let schedule = schedules.find(|schedule| run(schedule, options).fails());
    let schedule = schedule.expect("an unfair one");
    let shorter = minimise(&schedule, options);
    assert!(shorter.steps.len() < schedule.steps.len());
    assert!(run(&shorter, options).turns.is_err());
    assert!(!run(&shorter, Options::default()).fails());
}
