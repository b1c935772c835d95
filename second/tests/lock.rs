//! Request 2 of paper 02 over random schedules: no order of what survives has both
//! gates of the lock open anywhere, and each opening is answered as its conditions
//! ask. Faults planted in the controller, in its successor's start, in other desks,
//! in the office and in the servers are found.

mod search;

use second::chamber::LockPoints;
use second::faults::Fault;
use second::lock::{check_order, check_orders, Gates, Survivor};
use second::plan::{Entry, Plan};
use second::random::Random;
use second::rule::Op;
use second::schedule::{
    generate_lock, Call, Flaw, LockSchedule, Manner, Mark, Party, Schedule, Step, Which,
    CONTROLLER, LATEST_DESK,
};
use second::sequential::SequentialSpec;
use second::world::{minimise_lock, run_lock, Counts, LockRun, Options, World};
use std::collections::HashSet;
use std::io::{stdout, Write};

const FIRST_SEED: u64 = 20_000_000;
const SCHEDULES: u64 = 20_000;
const VERIFIED: u64 = 1_000;
/// Schedules in which a fault is found at the latest.
const FAULT_MAX: u64 = 20_000;

fn run_all(count: u64, options: Options) -> Counts {
    let mut counts = Counts::default();
    for seed in FIRST_SEED..FIRST_SEED + count {
        let found = run_lock(&generate_lock(seed), options);
        assert_eq!(found.demand3, Ok(()), "seed {seed}");
        assert!(!found.both_away(), "seed {seed}: {:?}", found.orders);
        assert_eq!(found.wrong_opening, None, "seed {seed}");
        counts.add(&found.counts);
    }
    counts
}

/// The search is not idle.
fn assert_eventful(counts: &Counts, schedules: u64) {
    // Written past the test's capture of prints.
    let printed = writeln!(
        stdout(),
        "lock: seed {FIRST_SEED}, {schedules} schedules: {} controllers, {} starts put off, {} commands of lost ones, \
         {} openings issued, {} executed, {} late requests for openings ({} refused with 4), {} refusals 20, {} crashes, \
         {} takes of gates",
        counts.controllers,
        counts.put_off,
        counts.issued_lost,
        counts.openings,
        counts.opened,
        counts.late_openings,
        counts.late_refused,
        counts.refusals[20],
        counts.crashes,
        counts.gate_takes,
    );
    printed.expect("printed");
    assert!(counts.controllers > 2 * schedules);
    assert!(counts.put_off > schedules);
    assert!(counts.openings > 3 * schedules);
    assert!(counts.opened > 2 * schedules);
    assert!(counts.issued_lost > schedules / 20);
    assert!(counts.late_openings > 4 * schedules);
    assert!(counts.late_refused > 3 * schedules);
    assert!(counts.crashes > 2 * schedules);
    assert!(counts.lost > schedules / 5);
    assert!(counts.gate_takes > schedules);
    assert!(counts.releases > schedules / 20);
    assert!(counts.gone > 4 * schedules);
    for number in [1, 3, 4, 5, 7, 12, 15, 17, 20] {
        assert!(counts.refusals[number] > schedules / 5, "refusal {number}");
    }
}

#[test]
fn never_both_away_in_random_schedules() {
    let counts = run_all(SCHEDULES, Options::default());
    assert_eventful(&counts, SCHEDULES);
}

/// Every call leaves a sound state; refusals leave everything as found.
#[test]
fn calls_change_only_what_they_may() {
    let options = Options {
        verify: true,
        ..Options::default()
    };
    let counts = run_all(VERIFIED, options);
    assert_eventful(&counts, VERIFIED);
}

// Call by call.

const APT: Party = Party::Apt;
const LATEST: Which = Which::Latest;
/// Gates at servers 0 and 1, levels at server 0.
const POINTS: [u32; 5] = [0, 1, 2, 3, 4];
const REQUEST: Call = Call::Request {
    at: APT,
    packet: LATEST,
};
const RECEIVE: Call = Call::Receive {
    desk: APT,
    packet: LATEST,
};
const LATE: Call = Call::LateOpening {
    at: APT,
    number: 0,
    lost: true,
};

fn sync(number: u8) -> Call {
    let at = Party::Number(number);
    let mark = Mark::All;
    Call::Sync { at, mark }
}

fn notice(number: u8) -> Call {
    let at = Party::Number(number);
    let packet = LATEST;
    Call::Notice { at, packet }
}

fn toward(gate: u8) -> Call {
    Call::Toward {
        desk: CONTROLLER,
        gate,
        op: Op::Set as u8,
        argument: 5,
        manner: Manner::Careful,
    }
}

/// As many commands toward an opening, each up to its result.
fn answered(gate: u8, count: usize) -> Vec<Call> {
    [toward(gate), REQUEST, sync(0), sync(1), REQUEST, RECEIVE].repeat(count)
}

fn start() -> Vec<Call> {
    let open = Call::Open { wait: 0, span: 50 };
    vec![open, Call::StartController { packet: LATEST }]
}

/// Servers founded, levels reported, and a controller that has opened and closed the upper
/// gate and is lost with an opening of the lower gate on its way.
fn lost_controller() -> Vec<Call> {
    let found = [0, 1].map(|n| Call::Found {
        at: Party::Number(n),
    });
    let desk = [
        Call::Open { wait: 0, span: 50 },
        Call::Start { packet: LATEST },
    ];
    let mut calls = [&found[..], &desk].concat();
    for point in [2, 3, 4] {
        calls.push(Call::Issue {
            desk: LATEST_DESK,
            op: Op::Report as u8,
            point,
            argument: 3,
        });
        calls.push(REQUEST);
    }
    calls.extend(start());
    // Read the lower gate (invalid), set it to 0, read it and two levels, open.
    calls.extend(answered(0, 6));
    // Read the upper gate, set it to 0, read it and two levels; the opening stays on its way.
    calls.extend(answered(1, 5));
    calls.push(toward(1));
    calls
}

fn by_hand(calls: Vec<Call>) -> LockRun {
    let mut plan = Plan::uniform(Entry {
        low: 0,
        high: 1000,
        fallback: 0,
        home: 0,
    });
    plan.entries[1].home = 1;
    let flaw = Flaw::None;
    let steps = calls.into_iter().map(|call| Step { call, flaw }).collect();
    let lock = LockSchedule {
        schedule: Schedule {
            plan,
            cabinets: 2,
            log_len: 4000,
            steps,
        },
        points: LockPoints::new(POINTS).expect("different points"),
    };
    let run = run_lock(&lock, Options::default());
    assert_eq!(run.demand3, Ok(()));
    run
}

/// A successor starts when both holders have heard of the end and synced it, no sooner; then
/// the old opening is refused, before and after the successor's own.
#[test]
fn a_successor_by_hand() {
    let run = by_hand(lost_controller());
    let counts = &run.counts;
    assert_eq!(
        (counts.controllers, counts.openings, counts.opened),
        (1, 2, 1)
    );
    let query = Call::Query {
        desk: CONTROLLER,
        wait: 100,
    };
    let before_sync = [query, notice(0), sync(0), notice(1)];
    let mut calls = lost_controller();
    for call in before_sync {
        calls.extend(start());
        calls.push(call);
    }
    calls.extend(start());
    let run = by_hand(calls.clone());
    assert_eq!((run.counts.controllers, run.counts.put_off), (1, 5));
    calls.push(sync(1));
    calls.extend(start());
    calls.push(LATE);
    calls.extend(answered(0, 4));
    calls.push(LATE);
    let run = by_hand(calls);
    let counts = &run.counts;
    assert_eq!(
        (counts.controllers, counts.openings, counts.opened),
        (2, 3, 2)
    );
    assert_eq!((counts.late_openings, counts.late_refused), (2, 2));
    assert!(!run.both_away());
}

/// The same opening, late but in time, is executed; with the successor's it would be one too many.
#[test]
fn an_opening_in_time_by_hand() {
    let late = Call::LateOpening {
        at: APT,
        number: 0,
        lost: false,
    };
    let run = by_hand([lost_controller(), vec![late]].concat());
    assert_eq!((run.counts.late_openings, run.counts.opened), (1, 1));
    let late = Call::LateOpening {
        at: APT,
        number: 1,
        lost: false,
    };
    let run = by_hand([lost_controller(), vec![late]].concat());
    assert_eq!((run.counts.late_openings, run.counts.opened), (1, 2));
    assert!(!run.both_away());
}

// Planted faults.

fn run_seed(seed: u64, fault: Option<Fault>) -> LockRun {
    let options = Options {
        fault,
        ..Options::default()
    };
    run_lock(&generate_lock(seed), options)
}

fn both_away(seed: u64, fault: Option<Fault>) -> bool {
    run_seed(seed, fault).both_away()
}

fn assert_found(fault: Fault) -> u64 {
    search::first_violation(FIRST_SEED..FIRST_SEED + FAULT_MAX, fault, both_away)
}

/// By an opening's answer alone: the claim does not depend on these qualities.
fn assert_answered_wrongly(fault: Fault) {
    let seeds = FIRST_SEED..FIRST_SEED + FAULT_MAX;
    search::first_violation(seeds, fault, |seed, fault| {
        run_seed(seed, fault).wrong_opening.is_some()
    });
    let mut seeds = FIRST_SEED..FIRST_SEED + 1_000;
    assert!(!seeds.any(|seed| both_away(seed, Some(fault))));
}

#[test]
fn a_gate_by_hand_refused() {
    assert_answered_wrongly(Fault::GateByHandRefused);
}

#[test]
fn a_level_by_hand_taken() {
    assert_answered_wrongly(Fault::LevelByHandTaken);
}

#[test]
fn the_other_gate_not_read() {
    assert_found(Fault::OtherGateNotRead);
}

#[test]
fn the_other_gates_value_not_tested() {
    assert_found(Fault::OtherGateValueNotTested);
}

#[test]
fn reads_of_any_age() {
    assert_found(Fault::ReadsOfAnyAge);
}

#[test]
fn reads_since_the_own_gates_last_move() {
    assert_found(Fault::SinceOwnGateOnly);
}

#[test]
fn part_does_not_count_as_last() {
    assert_found(Fault::PartNotLast);
}

#[test]
fn part_is_no_opening() {
    assert_found(Fault::PartNoOpening);
}

#[test]
fn several_commands_open() {
    assert_found(Fault::SeveralOpen);
}

#[test]
fn successor_at_any_time() {
    assert_found(Fault::SuccessorAtAnyTime);
}

#[test]
fn heard_time_not_synced() {
    assert_found(Fault::HeardNotSynced);
}

#[test]
fn gate_being_moved() {
    assert_found(Fault::GateBeingMoved);
}

#[test]
fn one_gates_holder_only() {
    assert_found(Fault::OneGateOnly);
}

#[test]
fn home_for_holder() {
    assert_found(Fault::HomeForHolder);
}

#[test]
fn another_desk_moves_a_gate() {
    assert_found(Fault::OtherDeskMovesGate);
}

#[test]
fn renewal_of_an_ended_lease() {
    assert_found(Fault::RenewEnded);
}

#[test]
fn take_without_heard_time() {
    assert_found(Fault::TakeWithoutHeard);
    assert_found(Fault::ImageWithoutHeard);
}

#[test]
fn lease_end_not_tested() {
    assert_found(Fault::LeaseEndNotTested);
}

/// A shortened schedule still shows its fault, and nothing without it.
#[test]
fn shortened_schedules_still_show_it() {
    let options = Options {
        fault: Some(Fault::PartNoOpening),
        ..Options::default()
    };
    let schedule = generate_lock(assert_found(Fault::PartNoOpening));
    let shorter = minimise_lock(&schedule, options);
    assert!(shorter.schedule.steps.len() < schedule.schedule.steps.len());
    assert!(run_lock(&shorter, options).both_away());
    assert!(!run_lock(&shorter, Options::default()).both_away());
}

// The check over every order.

/// Whether one of the orders of all executions has both gates (points 0 and 1) away from
/// 0. The executions placed decide what may follow, so each set of them is tried once.
fn some_order(
    all: &[Survivor],
    placed: u64,
    book: &SequentialSpec,
    tried: &mut HashSet<u64>,
) -> bool {
    if book.point(0).0 != 0 && book.point(1).0 != 0 {
        return true;
    }
    let rest = |i: &usize| placed & (1 << i) == 0;
    let must_precede = |o: usize, i: usize| {
        let completed_before = all[o].completed.is_some_and(|at| at < all[i].issued);
        completed_before || (o < i && all[o].point == all[i].point)
    };
    tried.insert(placed)
        && (0..all.len()).filter(rest).any(|i| {
            let free = !(0..all.len()).filter(rest).any(|o| must_precede(o, i));
            let mut book = book.clone();
            book.run(all[i].op, all[i].point, all[i].argument);
            free && some_order(all, placed | (1 << i), &book, tried)
        })
}

/// Executions of commands that are issued before and completed after, if at all.
fn random_survivors(random: &mut Random) -> Vec<Survivor> {
    let count = 2 + random.below(6);
    let at = |k: u32| 100 * (k + 1);
    (0..count)
        .map(|k| {
            let argument = random.between(0, 1);
            let reach = *random.pick(&[50, 150, 400]);
            let completed = random.chance(80).then(|| at(k) + 1 + random.below(reach));
            Survivor {
                op: *random.pick(&[Op::Set, Op::Set, Op::Part]),
                point: *random.pick(&[0, 0, 1, 1, 2]),
                argument,
                issued: at(k).saturating_sub(1 + random.below(reach)),
                completed,
            }
        })
        .collect()
}

/// The check by cuts decides as a search over all orders does, on random lists and on
/// those of short schedules with and without a fault.
#[test]
fn every_order() {
    let entry = Entry {
        low: 0,
        high: 1000,
        fallback: 0,
        home: 0,
    };
    let plan = Plan::uniform(entry);
    let points = LockPoints::new(POINTS).expect("different points");
    let mut random = Random::new(9);
    let mut verdicts = [0; 3];
    for _ in 0..20_000 {
        let survivors = random_survivors(&mut random);
        let book = SequentialSpec::new(plan);
        let expected = some_order(&survivors, 0, &book, &mut HashSet::new());
        let found = check_orders(&plan, &points, &survivors) != Gates::NeverBothAway;
        assert_eq!(found, expected, "{survivors:?}");
        let in_time = check_order(&plan, &points, &survivors) != Gates::NeverBothAway;
        assert!(found || !in_time);
        verdicts[usize::from(found) + usize::from(in_time)] += 1;
    }
    assert!(verdicts.iter().all(|&n| n > 500), "{verdicts:?}");
}

/// The gates as points 0 and 1, the others behind them.
fn gates_first(lock: &LockSchedule, mut survivors: Vec<Survivor>) -> (Plan, Vec<Survivor>) {
    let gates = [lock.points.upper, lock.points.lower];
    let mut plan = lock.schedule.plan;
    for (number, &gate) in gates.iter().enumerate() {
        plan.entries[number] = *lock.schedule.plan.entry(gate);
    }
    for s in &mut survivors {
        let gate = gates.iter().position(|&g| g == s.point);
        s.point = gate.map_or(2 + s.point, |number| number as u8);
    }
    (plan, survivors)
}

#[test]
fn every_order_of_short_schedules() {
    let mut random = Random::new(10);
    let mut verdicts = [0; 2];
    for seed in FIRST_SEED..FIRST_SEED + 10_000 {
        let mut lock = generate_lock(seed);
        let fault = *random.pick(&[
            None,
            Some(Fault::PartNoOpening),
            Some(Fault::OtherDeskMovesGate),
        ]);
        let options = Options {
            fault,
            ..Options::default()
        };
        let steps = 60 + random.below(300) as usize;
        lock.schedule.steps.truncate(steps);
        let mut world = World::new_lock(&lock, options);
        lock.schedule.steps.iter().for_each(|s| world.step(s));
        let survivors = world.survivors();
        if survivors.len() > 40 {
            continue;
        }
        let found = check_orders(&lock.schedule.plan, &lock.points, &survivors);
        let found = found != Gates::NeverBothAway;
        let (plan, renumbered) = gates_first(&lock, survivors);
        let book = SequentialSpec::new(plan);
        let expected = some_order(&renumbered, 0, &book, &mut HashSet::new());
        assert_eq!(found, expected, "seed {seed}");
        assert!(fault.is_some() || !found, "seed {seed}");
        verdicts[usize::from(found)] += 1;
    }
    assert!(verdicts[0] > 1_000 && verdicts[1] > 30, "{verdicts:?}");
}
