//! Demand 3 over random schedules, and tests of the checker itself.

mod common;

use common::*;
use second::checker::{check, check_marked, Command, Finals, Violation};
use second::plan::{Entry, Plan, POINTS};
use second::random::Random;
use second::rule::{Effect, Op, Rules, BY_HAND, VALID};
use second::schedule::generate;
use second::sequential::SequentialSpec;
use second::world::{run, Counts, Options};

const FIRST_SEED: u64 = 1_000_000;
const SCHEDULES: u64 = 20_000;
const VERIFIED: u64 = 3_000;

fn run_all(count: u64, options: Options) -> Counts {
    let mut counts = Counts::default();
    for seed in FIRST_SEED..FIRST_SEED + count {
        let found = run(&generate(seed), options);
        assert_eq!(found.result, Ok(()), "seed {seed}");
        counts.add(&found.counts);
    }
    counts
}

/// The dangerous things happen, and happen often.
fn assert_eventful(counts: &Counts, schedules: u64) {
    assert!(counts.executed > 5 * schedules);
    assert!(counts.steps_stopped > schedules / 4);
    let by_today = [0, 0, 0, 0, counts.executed];
    assert_eq!((counts.executed_by, counts.steps_refused), (by_today, 0));
    assert!(counts.by_hand > schedules && counts.steps_by_hand > schedules);
    assert!(counts.completed > 2 * schedules);
    assert!(counts.repeats > 2 * schedules);
    assert!(counts.crashes > schedules);
    assert!(counts.takes > schedules);
    assert!(counts.lost > schedules / 10);
    assert!(counts.crashes_again > schedules / 2);
    assert!(counts.lost_again > schedules / 20);
    assert!(counts.left_crashed > schedules / 20);
    assert!(counts.recovered_running > schedules / 2);
    assert!(counts.gone > schedules / 4);
    assert!(counts.releases > schedules / 4);
    for number in [1, 2, 3, 4, 5, 7, 9, 10, 11, 12, 17, 19] {
        assert!(counts.refusals[number] > schedules / 50, "refusal {number}");
    }
}

#[test]
fn no_violation_in_random_schedules() {
    let counts = run_all(SCHEDULES, Options::default());
    assert_eventful(&counts, SCHEDULES);
    assert!(counts.refusals[8] > 0 && counts.refusals[18] > 0);
}

/// Every call leaves a sound state; refusals leave everything as found.
#[test]
fn calls_in_random_schedules_change_only_what_they_may() {
    let options = Options {
        verify: true,
        ..Options::default()
    };
    let counts = run_all(VERIFIED, options);
    assert_eventful(&counts, VERIFIED);
}

// The checker.

fn command(call: u32, op: Op, point: u8, argument: i32, issued: u32) -> Command {
    Command {
        client: 1,
        call,
        op,
        point,
        argument,
        issued,
        completed: None,
        survives: true,
        hint: issued,
    }
}

fn completed(command: Command, at: u32, outcome: u8, value: i32, quality: u8) -> Command {
    let effect = Effect {
        outcome,
        value,
        quality,
    };
    Command {
        completed: Some((at, effect)),
        ..command
    }
}

fn finals_of(point: usize, value: i32, quality: u8) -> Finals {
    let mut finals = [Some((0, 1)); POINTS];
    finals[point] = Some((value, quality));
    finals
}

#[test]
fn checker_by_hand() {
    let plan = Plan::uniform(RANGE);
    let first = completed(command(1, Op::Set, 5, 40, 1), 2, 0, 40, 2);
    let second = completed(command(2, Op::Set, 5, 50, 3), 4, 0, 50, 2);
    let no_order = Err(Violation::NoOrder { point: 5 });
    let verdict = |commands: &[Command], value, quality| {
        check(&plan, commands, &finals_of(5, value, quality))
    };
    assert_eq!(verdict(&[], 0, 1), Ok(()));
    assert_eq!(verdict(&[], 40, 0), no_order);
    assert_eq!(verdict(&[first], 40, 2), Ok(()));
    assert_eq!(verdict(&[first], 40, 1), no_order);
    assert_eq!(verdict(&[first], 40, 0), no_order);
    assert_eq!(verdict(&[first, second], 50, 2), Ok(()));
    // The first was completed before the second was issued.
    assert_eq!(verdict(&[first, second], 40, 2), no_order);
    // Had they overlapped, either could stand last.
    let overlapping = completed(command(2, Op::Set, 5, 50, 1), 4, 0, 50, 2);
    assert_eq!(verdict(&[first, overlapping], 40, 2), Ok(()));
    // A step carried out twice.
    let step = completed(command(2, Op::Step, 5, 20, 3), 4, 0, 60, 2);
    assert_eq!(verdict(&[first, step], 60, 2), Ok(()));
    assert_eq!(verdict(&[first, step], 80, 2), no_order);
    // A result received of a command that a crash removed.
    let lost = Command {
        survives: false,
        ..first
    };
    let expected = Err(Violation::Lost { client: 1, call: 1 });
    assert_eq!(verdict(&[lost], 0, 1), expected);
    // Commands that do not survive and were not completed are no entries.
    let unseen = Command {
        completed: None,
        ..lost
    };
    assert_eq!(verdict(&[unseen], 0, 1), Ok(()));
    // A surviving command must be an entry, received or not.
    let pending = command(1, Op::Set, 5, 40, 1);
    assert_eq!(verdict(&[pending], 0, 1), no_order);
    assert_eq!(verdict(&[pending], 40, 2), Ok(()));
    // A holder not founded is left out.
    let mut finals = finals_of(5, 0, 1);
    finals[5] = None;
    assert_eq!(check(&plan, &[pending], &finals), Ok(()));
}

/// The book runs a step past an end by its mark.
#[test]
fn checker_runs_by_the_marks() {
    let plan = Plan::uniform(RANGE);
    let report = completed(command(1, Op::Report, 5, 990, 1), 2, 0, 990, 0);
    let old = completed(command(2, Op::Step, 5, 20, 3), 4, 1, 990, 0);
    let new = completed(command(3, Op::Step, 5, 20, 5), 6, 4, 1000, 0);
    let unseen = command(4, Op::Step, 5, -2000, 7);
    let no_order = Err(Violation::NoOrder { point: 5 });
    let verdict = |commands: &[Command], marks: &[Rules], value| {
        check_marked(&plan, commands, marks, &finals_of(5, value, 0))
    };
    let (o, t) = (Rules::OLD, Rules::TODAY);
    assert_eq!(verdict(&[report, old], &[t, o], 990), Ok(()));
    assert_eq!(verdict(&[report, old], &[o, o], 990), Ok(()));
    assert_eq!(verdict(&[report, old], &[t, t], 990), no_order);
    assert_eq!(verdict(&[report, old, new], &[o, o, t], 1000), Ok(()));
    assert_eq!(verdict(&[report, old, new], &[o, t, o], 1000), no_order);
    assert_eq!(verdict(&[report, old, new], &[o, o, o], 1000), no_order);
    // A step without a result counts at the end by its mark.
    assert_eq!(verdict(&[report, unseen], &[t, o], 990), Ok(()));
    assert_eq!(verdict(&[report, unseen], &[t, o], -100), no_order);
    assert_eq!(verdict(&[report, unseen], &[t, t], -100), Ok(()));
    assert_eq!(verdict(&[report, unseen], &[t, t], 990), no_order);
    // Without marks, all are run by today's rules.
    let finals = finals_of(5, -100, 0);
    assert_eq!(check(&plan, &[report, unseen], &finals), Ok(()));
    assert_eq!(
        check(&plan, &[report, old], &finals_of(5, 990, 0)),
        no_order
    );
}

/// The book runs a set and a part by their marks, and a step behind them keeps what they
/// gave.
#[test]
fn checker_runs_sets_and_parts_by_the_marks() {
    let plan = Plan::uniform(RANGE);
    let no_order = Err(Violation::NoOrder { point: 5 });
    for (op, argument, due) in [
        (Op::Set, 40, [(40, 0), (40, 0), (40, 0), (40, 2)]),
        (Op::Part, 5, [(-95, 0), (-95, 0), (-94, 0), (-94, 2)]),
    ] {
        for (i, (value, quality)) in due.into_iter().enumerate() {
            let first = completed(command(1, op, 5, argument, 1), 2, 0, value, quality);
            let step = completed(command(2, Op::Step, 5, 1, 3), 4, 0, value + 1, quality);
            for (rules, other) in Rules::ALL.into_iter().zip(due) {
                let marks = [rules, Rules::ALL[i]];
                let finals = finals_of(5, value + 1, quality);
                let verdict = check_marked(&plan, &[first, step], &marks, &finals);
                let explained = other == due[i];
                assert_eq!(verdict, if explained { Ok(()) } else { no_order });
            }
        }
    }
}

/// All orders of the surviving commands, of all points together.
fn some_order(rest: &mut Vec<(Command, Rules)>, book: &SequentialSpec, finals: &Finals) -> bool {
    if rest.is_empty() {
        return (0..POINTS).all(|p| finals[p].is_none_or(|f| f == book.point(p as u8)));
    }
    (0..rest.len()).any(|i| {
        let (c, rules) = rest.remove(i);
        let early = rest
            .iter()
            .any(|(d, _)| d.completed.is_some_and(|(at, _)| at < c.issued));
        let mut book = book.clone();
        let effect = book.run_by(rules, c.op, c.point, c.argument);
        let agrees = c.completed.is_none_or(|(_, received)| received == effect);
        let found = !early && agrees && some_order(rest, &book, finals);
        rest.insert(i, (c, rules));
        found
    })
}

/// Commands run in a random order, by earlier rules at times, finals at times
/// changed.
fn random_history(
    random: &mut Random,
    plan: &Plan,
    old_percent: u32,
) -> (Vec<(Command, Rules)>, Finals) {
    let mut book = SequentialSpec::new(*plan);
    let mut commands = Vec::new();
    let mut places: Vec<u32> = (1..40).collect();
    for call in 1..=random.below(7) {
        let ops = [Op::Read, Op::Set, Op::Report, Op::Part, Op::Step, Op::Step];
        let op = *random.pick(&ops);
        let argument = match op {
            Op::Read => 0,
            _ => random.between(0, 2),
        };
        let point = random.below(2) as u8;
        let mut place = || {
            let at = random.below(places.len() as u32) as usize;
            places.remove(at)
        };
        let (a, b) = (place(), place());
        let mut c = command(call, op, point, argument, a.min(b));
        let rules = match random.chance(old_percent) {
            true => *random.pick(&Rules::ALL),
            false => Rules::TODAY,
        };
        let effect = book.run_by(rules, op, point, argument);
        if random.chance(70) {
            let at = a.max(b);
            c = completed(c, at, effect.outcome, effect.value, effect.quality);
        }
        commands.push((c, rules));
    }
    let mut finals: Finals = [0; POINTS].map(|_| Some((0, 1)));
    finals[0] = Some(book.point(0));
    finals[1] = Some(book.point(1));
    if random.chance(30) {
        let quality = *random.pick(&[VALID, BY_HAND]);
        finals[random.below(2) as usize] = Some((random.between(0, 3), quality));
    }
    (commands, finals)
}

/// One search for each point decides as a search over whole orders does.
fn assert_agrees(plan: Plan, old_percent: u32) {
    let mut random = Random::new(8);
    let (mut suits, mut fails) = (0, 0);
    for _ in 0..3000 {
        let (mut history, finals) = random_history(&mut random, &plan, old_percent);
        let (commands, marks): (Vec<_>, Vec<_>) = history.iter().copied().unzip();
        let verdict = check_marked(&plan, &commands, &marks, &finals).is_ok();
        let book = SequentialSpec::new(plan);
        let expected = some_order(&mut history, &book, &finals);
        assert_eq!(verdict, expected, "{history:?}");
        if old_percent == 0 {
            assert_eq!(check(&plan, &commands, &finals).is_ok(), verdict);
        }
        match verdict {
            true => suits += 1,
            false => fails += 1,
        }
    }
    assert!(suits > 300 && fails > 300);
}

#[test]
fn checker_agrees_with_a_search_over_whole_orders() {
    assert_agrees(Plan::uniform(RANGE), 0);
}

/// The same where steps pass an end and some commands are marked with earlier rules.
#[test]
fn checker_agrees_by_the_marks() {
    let narrow = Entry { high: 2, ..RANGE };
    assert_agrees(Plan::uniform(narrow), 0);
    assert_agrees(Plan::uniform(narrow), 50);
}
