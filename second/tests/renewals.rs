//! Demand 3 with servers that are renewed one at a time: each executes by the
//! first program's rules, then by those of the next ones up to today's, and the
//! book runs each command by the rules that it was executed by.

mod common;
mod renewing;
mod search;

use common::effect;
use renewing::*;
use second::checker::Violation;
use second::faults::Fault;
use second::plan::write_plan;
use second::rule::{Effect, PartRule, Rules, SetRule};
use second::schedule::{generate, generate_renewed, Call, Keep, Renewed};
use second::server::{Server, STATE_LEN};
use second::world::{minimise_renewed, run, run_renewed, Counts, Options, World};

const FIRST_SEED: u64 = 3_000_000;
const SCHEDULES: u64 = 5_000;
const OLD: Rules = Rules::OLD;
const BETWEEN: Rules = Rules::BETWEEN;
const NEAREST: Rules = Rules::NEAREST;
const TODAY: Rules = Rules::TODAY;

// Call by call.

/// Each program in turn at one server: its sets, its steps past an end and its parts.
#[test]
fn through_all_programs() {
    let calls = [complete(1, 990), complete(2, 20), complete(5, 5)];
    let first = [&[begin()][..], &calls].concat();
    let renewed = renewed_after([&first, &calls, &calls, &calls, &calls]);
    let world = explained(&renewed);
    let expected = [
        [(0, 990), (1, 990), (0, -95)].map(Some),
        [(0, 990), (4, 1000), (0, -95)].map(Some),
        [(0, 990), (4, 1000), (0, -94)].map(Some),
        [(0, 990), (4, 1000), (0, -94)].map(Some),
        [(0, 990), (4, 1000), (0, -94)].map(Some),
    ];
    assert_eq!(results(&world), expected.concat());
    let expected = [[0; 3], [0; 3], [0; 3], [0; 3], [2; 3]].concat();
    assert!(qualities(&world)
        .into_iter()
        .eq(expected.into_iter().map(Some)));
    let marks = [OLD, BETWEEN, NEAREST, NEAREST, TODAY].map(|rules| [rules; 3]);
    assert_eq!(world.marks(), marks.concat());
    assert_eq!(world.finals()[usize::from(POINT)], Some((-94, 2)));
    let counts = run_renewed(&renewed, Options::default()).counts;
    assert_eq!((counts.executed, counts.executed_by), (15, [3; 5]));
    assert_eq!((counts.parts_down, counts.parts_up), (2, 3));
    assert_eq!((counts.by_hand, counts.steps_by_hand), (2, 1));
}

/// The state that the old program left is the new one's first.
#[test]
fn renewed_with_its_state() {
    let before = [begin(), complete(1, 990), complete(2, 20)];
    let renewed = renewed_between(&before, &[complete(2, 20), complete(2, -5000)]);
    let world = explained(&renewed);
    let expected = [(0, 990), (1, 990), (4, 1000), (4, -100)].map(Some);
    assert_eq!(results(&world), expected);
    assert_eq!(world.marks(), [OLD, OLD, TODAY, TODAY]);
    let no_order = Err(Violation::NoOrder { point: POINT });
    assert_eq!(unmarked(&world, &renewed), no_order);
    assert_eq!(world.finals()[usize::from(POINT)], Some((-100, 0)));
}

/// Without a renewal, in all steps by today's program or by the first one.
#[test]
fn never_renewed() {
    let calls = [begin(), complete(1, 990), complete(2, 20)];
    let today = Renewed::today(&schedule(&calls));
    let world = explained(&today);
    assert_eq!(world.marks(), [TODAY, TODAY]);
    assert_eq!(results(&world)[1], Some((4, 1000)));
    assert_eq!(unmarked(&world, &today), Ok(()));
    let old = renewed_between(&calls, &[]);
    let world = explained(&old);
    assert_eq!(world.marks(), [OLD, OLD]);
    assert_eq!(results(&world)[1], Some((1, 990)));
}

/// At 990 by a report, a command that the crash before the renewal removed is executed
/// again, by today's rule and so marked; one that it kept has the old result.
fn crash_before_renewal(
    renew: fn(&Calls, &Calls) -> Renewed,
    old: Rules,
    command: Call,
    [again, kept]: [Effect; 2],
) {
    let repeat = [vec![RECOVER, REQUEST, SYNC, REQUEST, RECEIVE]];
    for (keep, mark, result) in [(Keep::Synced, TODAY, again), (Keep::All, old, kept)] {
        let late = vec![command, REQUEST, crash(keep)];
        let renewed = renew(&[begin(), complete(3, 990), late], &repeat);
        let world = explained(&renewed);
        assert_eq!(world.marks(), [old, mark]);
        let received = world.commands()[1].completed.map(|(_, effect)| effect);
        assert_eq!(received, Some(result));
        assert_eq!(unmarked(&world, &renewed).is_ok(), mark == TODAY);
    }
}

#[test]
fn step_between_crash_and_recovery() {
    let results = [effect(4, 1000, 0), effect(1, 990, 0)];
    crash_before_renewal(renewed_between, OLD, issue(2, 20), results);
}

#[test]
fn part_between_crash_and_recovery() {
    let results = [effect(0, -94, 2), effect(0, -95, 0)];
    crash_before_renewal(renewed_from_second, BETWEEN, issue(5, 5), results);
    let results = [effect(0, -94, 2), effect(0, -94, 0)];
    crash_before_renewal(renewed_from_third, NEAREST, issue(5, 5), results);
}

#[test]
fn set_between_crash_and_recovery() {
    let results = [effect(0, 40, 2), effect(0, 40, 0)];
    crash_before_renewal(renewed_from_fourth, NEAREST, issue(1, 40), results);
}

/// From an old server to one of the next program and back, with steps at each.
#[test]
fn moved_to_a_renewed_server_and_back() {
    let calls = [
        begin(),
        complete(1, 990),
        complete(2, 20),
        give_to(1),
        vec![TAKE],
        complete(2, 20),
        // The stopped step's record goes with this one's done.
        complete(2, -5),
        give_to(0),
        vec![TAKE],
        complete(2, 20),
    ];
    let renewed = other_past(1, renewed_between(&calls, &[]));
    let world = explained(&renewed);
    let expected = [(0, 990), (1, 990), (4, 1000), (0, 995), (1, 995)];
    assert_eq!(results(&world), expected.map(Some));
    assert_eq!(world.marks(), [OLD, OLD, BETWEEN, BETWEEN, OLD]);
    let counts = run_renewed(&renewed, Options::default()).counts;
    assert_eq!((counts.takes, counts.takes_across), (2, 2));
    assert_eq!((counts.steps_refused, counts.steps_stopped), (2, 1));
    assert_eq!(counts.images_too_new, 0);
}

/// An old server refuses the image with outcome 4 and takes it after its
/// renewal.
#[test]
fn image_waits_for_the_renewal() {
    let before = [
        begin(),
        complete(1, 990),
        give_to(1),
        vec![TAKE],
        complete(2, 20),
        give_to(0),
        vec![TAKE],
    ];
    let renewed = renewed_between(&before, &[vec![TAKE], complete(2, 20)]);
    let world = explained(&renewed);
    assert_eq!(world.marks(), [OLD, TODAY, TODAY]);
    assert_eq!(results(&world)[2], Some((4, 1000)));
    let counts = run_renewed(&renewed, Options::default()).counts;
    assert_eq!((counts.takes, counts.images_too_new), (2, 1));
}

/// A renewal stays between the same steps when others are dropped.
#[test]
fn places_without_some_steps() {
    let renewed = Renewed {
        places: vec![[0, 3, 3, 3], [5, 9, 9, 9]],
        ..Renewed::today(&schedule(&[begin(), complete(1, 1)]))
    };
    let places = |from, to| renewed.without(from..to).places;
    assert_eq!(places(0, 0), [[0, 3, 3, 3], [5, 9, 9, 9]]);
    assert_eq!(places(0, 2), [[0, 1, 1, 1], [3, 7, 7, 7]]);
    assert_eq!(places(2, 6), [[0, 2, 2, 2], [2, 5, 5, 5]]);
    assert_eq!(places(5, 9), [[0, 3, 3, 3], [5, 5, 5, 5]]);
    assert_eq!(places(0, 9), [[0; 4], [0; 4]]);
    assert_eq!(renewed.without(2..6).schedule.steps.len(), 5);
}

// Random schedules.

/// What the new rules and the renewals bring about happens often.
fn assert_eventful(counts: &Counts, schedules: u64) {
    let executed = counts.executed_by;
    assert!(executed.iter().all(|&executed| executed > schedules));
    assert_eq!(executed.iter().sum::<u64>(), counts.executed);
    assert!(counts.steps_refused > schedules / 10);
    assert!(counts.steps_stopped > schedules / 4);
    assert!(counts.parts_down > schedules / 4);
    assert!(counts.parts_up > schedules / 4);
    assert!(counts.by_hand > schedules / 4);
    assert!(counts.steps_by_hand > schedules / 10);
    assert!(counts.takes_by_hand > schedules / 40);
    assert!(counts.completed > 2 * schedules);
    assert!(counts.crashes > schedules);
    assert!(counts.lost > schedules / 10);
    assert!(counts.takes > schedules);
    assert!(counts.takes_across > schedules / 4);
    assert!(counts.images_too_new > schedules / 50);
    assert!(counts.releases > schedules / 4);
    assert!(counts.gone > schedules / 4);
}

/// Today's program recovers the logs that all programs wrote.
fn assert_recovers(world: &World, renewed: &Renewed) {
    let plan = write_plan(&renewed.schedule.plan);
    for cabinet in 0..usize::from(renewed.schedule.cabinets) {
        let Some(server) = world.server(cabinet) else {
            continue;
        };
        let log = &world.log(cabinet)[..server.length as usize];
        let mut recovered = Server::new();
        assert_eq!(recovered.recover(STATE_LEN, log, &plan).number, 0);
        recovered.mark = server.mark;
        assert!(recovered == *server);
    }
}

/// Runs so many schedules; none violates the demand.
fn run_all(schedules: u64, make: fn(u64) -> Renewed) -> Counts {
    let options = Options {
        verify: true,
        ..Options::default()
    };
    let mut counts = Counts::default();
    for seed in FIRST_SEED..FIRST_SEED + schedules {
        let found = run_renewed(&make(seed), options);
        assert_eq!(found.result, Ok(()), "seed {seed}");
        counts.add(&found.counts);
    }
    counts
}

#[test]
fn no_violation_with_renewals() {
    let counts = run_all(SCHEDULES, generate_renewed);
    println!("{SCHEDULES} schedules from seed {FIRST_SEED}: {counts:?}");
    assert_eventful(&counts, SCHEDULES);
}

/// A server that is not renewed by the end runs the first program throughout;
/// renewals are in order, and spread over the schedules.
#[test]
fn renewals_are_spread() {
    // Counted by renewal and by half of the schedule; one in sixteen first renewals of four
    // comes late.
    let mut halves = [[0; 2]; 4];
    for seed in FIRST_SEED..FIRST_SEED + 1000 {
        let renewed = generate_renewed(seed);
        let count = renewed.schedule.steps.len();
        assert_eq!(renewed.places.len(), usize::from(renewed.schedule.cabinets));
        for places in &renewed.places {
            assert!(places.is_sorted() && places[3] <= count);
            for (halves, &place) in halves.iter_mut().zip(places) {
                halves[usize::from(place >= count / 2)] += 1;
            }
        }
    }
    assert!(halves.as_flattened().iter().all(|&number| number > 150));
}

#[test]
fn logs_of_all_programs_recover() {
    for seed in FIRST_SEED..FIRST_SEED + 1000 {
        let renewed = generate_renewed(seed);
        let mut world = World::new_renewed(&renewed, Options::default());
        let steps = &renewed.schedule.steps;
        steps.iter().for_each(|step| world.step(step));
        assert_recovers(&world, &renewed);
    }
}

/// A checker that runs the book by one program's rules alone does not explain
/// the schedules, whichever it is; the marks do.
#[test]
fn marks_ignored() {
    for only in Rules::ALL {
        let found = first_unexplained(FIRST_SEED, generate_renewed, |_| only);
        println!("{only:?} alone: found after {found} schedules");
    }
    let unexplained = (0..SOON).find(|i| {
        let renewed = generate_renewed(FIRST_SEED + i);
        unmarked(&explained(&renewed), &renewed).is_err()
    });
    assert!(unexplained.is_some());
}

fn found_soon(fault: Fault) -> u64 {
    search::first_violation(FIRST_SEED..FIRST_SEED + SOON, fault, |seed, fault| {
        violates(&generate_renewed(seed), fault)
    })
}

#[test]
fn faults_in_the_rule() {
    found_soon(Fault::StepToOtherEnd);
    found_soon(Fault::StepLosesQuality);
    found_soon(Fault::PartHalfUp);
}

/// A recovery that works results out goes wrong on records of an earlier
/// program, and on these alone. The shortened schedule still shows it.
#[test]
fn recovery_works_results_out() {
    let fault = Some(Fault::RecoverWorksOut);
    let options = Options {
        fault,
        ..Options::default()
    };
    let seed = found_soon(Fault::RecoverWorksOut);
    let renewed = generate_renewed(seed);
    let shorter = minimise_renewed(&renewed, options);
    assert!(run_renewed(&shorter, options).result.is_err());
    assert!(shorter.schedule.steps.len() < renewed.schedule.steps.len());
    assert_eq!(run_renewed(&shorter, Options::default()).result, Ok(()));
    for seed in FIRST_SEED..FIRST_SEED + 500 {
        assert_eq!(run(&generate(seed), options).result, Ok(()), "seed {seed}");
    }
}

// Part alone: the programs of these schedules differ in nothing else.

/// The servers run the second program first, then those up to the fourth.
fn generate_second_to_fourth(seed: u64) -> Renewed {
    generate_renewed(seed).past(1).up_to(3)
}

#[test]
fn no_violation_from_the_second_to_the_fourth_program() {
    let counts = run_all(2000, generate_second_to_fourth);
    assert_eq!((counts.executed_by[0], counts.executed_by[4]), (0, 0));
    assert_eq!((counts.steps_refused, counts.by_hand), (0, 0));
    assert!(counts.executed_by[1] > 2000 && counts.executed > 8000);
    assert!(counts.parts_down > 500 && counts.parts_up > 500);
    assert!(counts.takes_across > 500);
}

/// A book that runs all parts by one version of their rule, and sets and steps by their
/// marks, does not explain the schedules.
#[test]
fn marks_of_part_ignored() {
    for part in [PartRule::Down, PartRule::Nearest, PartRule::ByHand] {
        let other = |rules| Rules { part, ..rules };
        let makes = [
            generate_renewed,
            generate_second_to_fourth,
            generate_from_fourth,
        ];
        let found = makes.map(|make| first_unexplained(FIRST_SEED, make, other));
        println!("part by {part:?} alone: found after {found:?} schedules");
    }
}

/// Parts at a server of the second program, at one of the third, and back; their
/// images are taken both ways, with outcome 4 in them too.
#[test]
fn parts_moved_between_programs() {
    let calls = [
        begin(),
        complete(5, 5),
        give_to(1),
        vec![TAKE],
        complete(5, 5),
        complete(2, 2000),
        give_to(0),
        vec![TAKE],
        complete(5, 995),
        complete(5, 999),
    ];
    let renewed = other_past(2, renewed_from_second(&calls, &[]));
    let world = explained(&renewed);
    let expected = [(0, -95), (0, -94), (4, 1000), (0, 994), (0, 998)];
    assert_eq!(results(&world), expected.map(Some));
    let marks = [BETWEEN, NEAREST, NEAREST, BETWEEN, BETWEEN];
    assert_eq!(world.marks(), marks);
    let counts = run_renewed(&renewed, Options::default()).counts;
    assert_eq!((counts.takes, counts.takes_across), (2, 2));
    assert_eq!(counts.images_too_new, 0);
}

/// A recovery that works parts out by its own program's rule.
#[test]
fn recovery_works_parts_out() {
    let seeds = FIRST_SEED..FIRST_SEED + SOON;
    search::first_violation(seeds, Fault::RecoverWorksOut, |seed, fault| {
        violates(&generate_second_to_fourth(seed), fault)
    });
    let before = [begin(), complete(5, 5), vec![crash(Keep::All)]];
    let renewed = renewed_from_second(&before, &[vec![RECOVER], complete(0, 0)]);
    assert!(violates(&renewed, Some(Fault::RecoverWorksOut)));
    assert!(!violates(&renewed, None));
    // The program that executed them may work them out.
    let never = renewed_from_second(&[&before[..], &[vec![RECOVER]]].concat(), &[]);
    assert!(!violates(&never, Some(Fault::RecoverWorksOut)));
}

// Values by hand: the programs of these schedules differ in nothing else.

/// The servers run the fourth program up to their second renewal, then today's.
fn generate_from_fourth(seed: u64) -> Renewed {
    let mut renewed = generate_renewed(seed);
    for places in &mut renewed.places {
        *places = [0, 0, 0, places[1]];
    }
    renewed
}

#[test]
fn no_violation_from_the_fourth_program() {
    let counts = run_all(2000, generate_from_fourth);
    assert_eq!(counts.executed_by[..3], [0; 3]);
    assert!(counts.executed_by[3] > 4000 && counts.executed_by[4] > 4000);
    assert!(counts.by_hand > 2000 && counts.steps_by_hand > 500);
    assert!(counts.takes_by_hand > 200 && counts.images_too_new > 100);
}

/// A book that runs all sets by one version of their rule, and steps and parts by their
/// marks, does not explain the schedules.
#[test]
fn marks_of_set_ignored() {
    for set in [SetRule::Valid, SetRule::ByHand] {
        let other = |rules| Rules { set, ..rules };
        let makes = [generate_renewed, generate_from_fourth];
        let found = makes.map(|make| first_unexplained(FIRST_SEED, make, other));
        println!("set by {set:?} alone: found after {found:?} schedules");
    }
}

/// A step at a server of today's program keeps the quality that an earlier one gave, and
/// the next set is by hand. The way back is closed until that server is renewed.
#[test]
fn sets_moved_between_programs() {
    let before = [
        begin(),
        complete(1, 40),
        give_to(1),
        vec![TAKE],
        complete(2, 1),
        complete(1, 50),
        complete(2, 1),
        give_to(0),
        vec![TAKE],
    ];
    let renewed = renewed_from_fourth(&before, &[vec![TAKE], complete(2, 2000)]);
    let world = explained(&renewed);
    let expected = [(0, 40), (0, 41), (0, 50), (0, 51), (4, 1000)];
    assert_eq!(results(&world), expected.map(Some));
    assert_eq!(qualities(&world), [0, 0, 2, 2, 2].map(Some));
    assert_eq!(world.marks(), [NEAREST, TODAY, TODAY, TODAY, TODAY]);
    let counts = run_renewed(&renewed, Options::default()).counts;
    assert_eq!((counts.takes, counts.images_too_new), (2, 1));
    assert_eq!((counts.takes_by_hand, counts.steps_by_hand), (1, 2));
}

/// An image whose point is as measured waits too while an entry is by hand: the record of a
/// set that is open stays, that of a completed one goes with the next command's done.
#[test]
fn entry_by_hand_waits_for_the_renewal() {
    let open = vec![issue(1, 50), REQUEST];
    for (set, expected) in [(open, (1, 1)), (complete(1, 50), (2, 0))] {
        let calls = [
            begin(),
            give_to(1),
            vec![TAKE],
            set,
            complete(3, 7),
            give_to(0),
            vec![TAKE],
        ];
        let renewed = renewed_from_fourth(&calls, &[]);
        assert_eq!(explained(&renewed).finals()[5], Some((7, 0)));
        let counts = run_renewed(&renewed, Options::default()).counts;
        assert_eq!((counts.takes, counts.images_too_new), expected);
    }
}

/// A recovery that works qualities out by its own program's rule.
#[test]
fn recovery_works_qualities_out() {
    let seeds = FIRST_SEED..FIRST_SEED + SOON;
    search::first_violation(seeds, Fault::RecoverWorksOut, |seed, fault| {
        violates(&generate_from_fourth(seed), fault)
    });
    for command in [complete(1, 40), complete(5, 5)] {
        let before = [begin(), command, vec![crash(Keep::All)]];
        let renewed = renewed_from_fourth(&before, &[vec![RECOVER], complete(0, 0)]);
        assert!(violates(&renewed, Some(Fault::RecoverWorksOut)));
        assert_eq!(qualities(&explained(&renewed)), [0, 0].map(Some));
    }
}

#[test]
fn faults_in_the_quality() {
    for make in [generate_renewed, generate_from_fourth] {
        for fault in [Fault::StepLosesByHand, Fault::ReportByHand] {
            let seeds = FIRST_SEED..FIRST_SEED + 10 * SOON;
            search::first_violation(seeds, fault, |seed, fault| violates(&make(seed), fault));
        }
    }
}
