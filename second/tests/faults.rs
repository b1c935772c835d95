//! The checker finds each planted fault within a bounded number of random
//! schedules, and finds nothing in the same schedules without the fault.

mod search;

use second::faults::Fault;
use second::schedule::generate;
use second::world::{minimise, run, Options};

const FIRST_SEED: u64 = 7_000_000;
const SCHEDULES_MAX: u64 = 20_000;

fn violates(seed: u64, fault: Option<Fault>) -> bool {
    let options = Options {
        fault,
        ..Options::default()
    };
    search::is_violation(run(&generate(seed), options).result, seed, fault)
}

fn assert_found(fault: Fault) {
    search::first_violation(FIRST_SEED..FIRST_SEED + SCHEDULES_MAX, fault, violates);
}

#[test]
fn reply_before_sync() {
    assert_found(Fault::ReplyBeforeSync);
}

#[test]
fn image_without_records() {
    assert_found(Fault::ImageWithoutRecords);
}

#[test]
fn image_without_floors() {
    assert_found(Fault::ImageWithoutFloors);
}

#[test]
fn image_without_heard_time() {
    assert_found(Fault::ImageWithoutHeard);
}

#[test]
fn image_before_the_give_is_synced() {
    assert_found(Fault::ImageBeforeSync);
}

#[test]
fn notice_without_heard_time() {
    assert_found(Fault::NoticeWithoutHeard);
}

#[test]
fn lease_end_not_tested() {
    assert_found(Fault::LeaseEndNotTested);
}

#[test]
fn floor_not_tested() {
    assert_found(Fault::FloorNotTested);
}

#[test]
fn recover_to_the_founding_state() {
    assert_found(Fault::RecoverToFounding);
}

#[test]
fn step_to_the_other_end() {
    assert_found(Fault::StepToOtherEnd);
}

#[test]
fn step_that_loses_the_quality() {
    assert_found(Fault::StepLosesQuality);
}

#[test]
fn part_that_rounds_halves_up() {
    assert_found(Fault::PartHalfUp);
}

#[test]
fn step_that_loses_by_hand() {
    assert_found(Fault::StepLosesByHand);
}

#[test]
fn report_that_is_by_hand() {
    assert_found(Fault::ReportByHand);
}

/// A shortened schedule still violates, and is no longer than the first.
#[test]
fn shortened_schedules_still_violate() {
    let options = Options {
        fault: Some(Fault::FloorNotTested),
        ..Options::default()
    };
    let seed = (FIRST_SEED..).find(|&seed| violates(seed, options.fault));
    let schedule = generate(seed.expect("a seed"));
    let shorter = minimise(&schedule, options);
    assert!(run(&shorter, options).result.is_err());
    assert!(shorter.steps.len() <= schedule.steps.len());
    assert!(run(&shorter, Options::default()).result.is_ok());
}

/// Recovery reads heard time from the log again, and images carry it: a notice that does
/// not raise it, and requests without the test, violate the demand in other schedules.
#[test]
fn the_faults_about_leases_differ() {
    let only = |fault: Fault, other: Fault| {
        let mut seeds = FIRST_SEED..FIRST_SEED + SCHEDULES_MAX;
        seeds.any(|seed| violates(seed, Some(fault)) && !violates(seed, Some(other)))
    };
    assert!(only(Fault::LeaseEndNotTested, Fault::NoticeWithoutHeard));
    assert!(only(Fault::NoticeWithoutHeard, Fault::LeaseEndNotTested));
}
