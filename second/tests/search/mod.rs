//! The search for a planted fault, for the tests that plant one.

#![allow(dead_code)]

use second::checker::Violation;
use second::faults::Fault;
use std::ops::Range;

/// The first of the seeds whose schedule shows the fault. No schedule up to it
/// violates the demand without the fault.
pub fn first_violation(
    mut seeds: Range<u64>,
    fault: Fault,
    violates: impl Fn(u64, Option<Fault>) -> bool,
) -> u64 {
    let first = seeds.start;
    let found = seeds.find(|&seed| violates(seed, Some(fault)));
    let found = found.unwrap_or_else(|| panic!("{fault:?} is not found"));
    println!("{fault:?}: found after {} schedules", found - first + 1);
    let clean = (first..=found).find(|&seed| violates(seed, None));
    assert_eq!(clean, None, "a violation without the fault");
    found
}

/// Whether a schedule violates the demand; none is undecided without a fault.
pub fn is_violation(result: Result<(), Violation>, seed: u64, fault: Option<Fault>) -> bool {
    match result {
        Ok(()) => false,
        Err(Violation::Undecided { .. }) => {
            assert!(fault.is_some(), "seed {seed} undecided");
            false
        }
        Err(_) => true,
    }
}
