//! Checkpoints in random schedules: demand 3, and each server beside a shadow that never
//! makes one. Each planted fault is found by the one or by the other.

mod search;

use second::faults::Fault;
use second::schedule::generate_checkpoints;
use second::world::{run, Counts, Differs, Options};

const FIRST_SEED: u64 = 5_000_000;
const SCHEDULES: u64 = 4_000;
const SCHEDULES_MAX: u64 = 20_000;

fn assert_eventful(counts: &Counts, schedules: u64) {
    let storing = &counts.storing;
    assert!(storing.made > 4 * schedules);
    assert!(storing.unsynced > schedules / 4);
    assert!(storing.stored > 3 * schedules);
    assert!(storing.crashed_before > schedules);
    assert!(storing.crashed_storing > schedules / 2);
    assert!(storing.crashed_stored > schedules);
    assert!(storing.replaced > 2 * schedules);
    let [executed, image, checkpoint] = storing.inspected;
    assert!(executed.min(checkpoint) > 10 * schedules && image > schedules);
    assert!(counts.completed > schedules && counts.repeats > schedules);
    assert!(counts.takes > schedules && counts.releases > schedules / 10);
    assert!(counts.refusals[9] > schedules / 20);
}

fn run_all(count: u64, options: Options) {
    let mut counts = Counts::default();
    for seed in FIRST_SEED..FIRST_SEED + count {
        let found = run(&generate_checkpoints(seed), options);
        assert_eq!(found.result, Ok(()), "seed {seed}");
        assert_eq!(found.shadow, Ok(()), "seed {seed}");
        counts.add(&found.counts);
    }
    println!("{counts:?}");
    assert_eventful(&counts, count);
}

/// No violation, and no difference from a server without checkpoints.
#[test]
fn no_violation_and_no_difference() {
    run_all(SCHEDULES, with(None, true));
}

/// Refusals leave everything as found.
#[test]
fn calls_change_only_what_they_may() {
    let verify = true;
    let options = with(None, true);
    run_all(500, Options { verify, ..options });
}

// Planted faults.

fn with(fault: Option<Fault>, shadow: bool) -> Options {
    Options {
        fault,
        shadow,
        ..Options::default()
    }
}

/// Whether the schedule of the seed violates demand 3.
fn violates(seed: u64, fault: Option<Fault>) -> bool {
    let found = run(&generate_checkpoints(seed), with(fault, false));
    search::is_violation(found.result, seed, fault)
}

fn differs(seed: u64, fault: Option<Fault>) -> Option<Differs> {
    let found = run(&generate_checkpoints(seed), with(fault, true));
    found.shadow.err().map(|d| d.differs)
}

/// Demand 3 alone finds the fault.
fn assert_violates(fault: Fault) {
    search::first_violation(FIRST_SEED..FIRST_SEED + SCHEDULES_MAX, fault, violates);
}

/// The comparison finds the fault, and it shows so first.
fn assert_differs(fault: Fault, how: Differs) {
    let seeds = FIRST_SEED..FIRST_SEED + SCHEDULES_MAX;
    let differs_so = |seed, fault| differs(seed, fault).is_some();
    let found = search::first_violation(seeds, fault, differs_so);
    assert_eq!(differs(found, Some(fault)), Some(how), "{fault:?}");
}

/// Demand 3 alone lets the fault pass; the comparison finds it.
fn assert_differs_only(fault: Fault, how: Differs) {
    let mut seeds = FIRST_SEED..FIRST_SEED + 300;
    let violation = seeds.find(|&seed| violates(seed, Some(fault)));
    assert_eq!(violation, None, "{fault:?}");
    assert_differs(fault, how);
}

/// What the checkpoint loses of the state: demand 3 finds it after a crash, the comparison
/// in the checkpoint itself.
fn assert_lost(fault: Fault) {
    assert_violates(fault);
    assert_differs(fault, Differs::ReadBack);
}

#[test]
fn heard_time_and_tables_lost() {
    for fault in [
        Fault::CheckpointWithoutHeard,
        Fault::CheckpointWithoutFloors,
        Fault::CheckpointWithoutRecords,
        Fault::CheckpointWithoutGivenRecords,
    ] {
        assert_lost(fault);
    }
}

#[test]
fn fields_of_points_lost() {
    for fault in [
        Fault::CheckpointWithoutQuality,
        Fault::CheckpointGivenAsHeld,
        Fault::CheckpointGivenAsReleased,
        Fault::CheckpointWithoutDestination,
        Fault::CheckpointWithoutTaken,
        Fault::CheckpointWithoutMove,
    ] {
        assert_lost(fault);
    }
}

/// An image made again of a point that was released is refused by all.
#[test]
fn released_as_given() {
    assert_differs_only(Fault::CheckpointReleasedAsGiven, Differs::ReadBack);
}

/// Such a state is refused by every call after it.
#[test]
fn places_not_reset() {
    for fault in [
        Fault::MarkNotReset,
        Fault::RecordEndsNotReset,
        Fault::GiveEndsNotReset,
        Fault::TakeEndsNotReset,
    ] {
        assert_differs_only(fault, Differs::Unsound);
    }
}

/// Nobody sees what is not synced while the checkpoint is stored.
#[test]
fn checkpoint_before_sync() {
    assert_differs_only(Fault::CheckpointBeforeSync, Differs::Answer);
}

#[test]
fn inspect_at_another_place() {
    assert_differs_only(Fault::InspectCheckpointFirst, Differs::Inspected);
    assert_differs_only(Fault::InspectFirstRecord, Differs::Inspected);
}

/// A crash while storing that keeps other bytes, a checkpoint lost, calls too early, and
/// survival counted in the tail alone.
#[test]
fn faults_of_the_host() {
    for fault in [
        Fault::NewTailKept,
        Fault::NewCheckpointKept,
        Fault::StoredLost,
        Fault::CallsWhileStoring,
        Fault::SurvivalInTail,
    ] {
        assert_violates(fault);
    }
}
