//! Schedules with renewals, laid down call by call or at random, and the book
//! over them.
#![allow(dead_code)]

use crate::common::plan;
use second::checker::{check, check_marked, Violation};
use second::faults::Fault;
use second::program::Program;
use second::rule::Rules;
use second::schedule::{Call, Flaw, Keep, Mark, Party, Places, Renewed, Schedule, Step, Which};
use second::world::{run_renewed, Options, World};

/// Schedules in which a fault is found at the latest.
pub const SOON: u64 = 200;
pub const POINT: u8 = 5;

/// Lists of calls, one after the other.
pub type Calls = [Vec<Call>];

pub const APT: Party = Party::Apt;
pub const SYNC: Call = Call::Sync {
    at: APT,
    mark: Mark::All,
};
pub const REQUEST: Call = Call::Request {
    at: APT,
    packet: Which::Latest,
};
pub const RECEIVE: Call = Call::Receive {
    desk: APT,
    packet: Which::Latest,
};
pub const RECOVER: Call = Call::Recover { at: APT };
pub const TAKE: Call = Call::Take {
    at: APT,
    image: Which::Latest,
};

pub fn found(number: u8) -> Call {
    let at = Party::Number(number);
    Call::Found { at }
}

/// Two servers founded, one desk started.
pub fn begin() -> Vec<Call> {
    let packet = Which::Latest;
    let open = Call::Open { wait: 0, span: 100 };
    vec![found(0), found(1), open, Call::Start { packet }]
}

pub fn issue(op: u8, argument: i32) -> Call {
    Call::Issue {
        desk: 0,
        op,
        point: POINT,
        argument,
    }
}

/// A command up to the receipt of its result.
pub fn complete(op: u8, argument: i32) -> Vec<Call> {
    let again = [SYNC, REQUEST, RECEIVE];
    [&[issue(op, argument), REQUEST], &again[..]].concat()
}

pub fn crash(keep: Keep) -> Call {
    Call::Crash { at: APT, keep }
}

/// The point up to its image for another server.
pub fn give_to(destination: u8) -> Vec<Call> {
    let (at, point) = (APT, POINT);
    let give = Call::Give {
        at,
        point,
        destination,
    };
    vec![give, SYNC, Call::Image { at, point }]
}

pub fn schedule(calls: &Calls) -> Schedule {
    let flaw = Flaw::None;
    let calls = calls.iter().flatten();
    Schedule {
        plan: plan(),
        cabinets: 2,
        log_len: 2000,
        steps: calls.map(|&call| Step { call, flaw }).collect(),
    }
}

/// Server 0 is renewed after each list of calls but the last; server 1 runs today's
/// program.
pub fn renewed_after(lists: [&Calls; Program::ALL.len()]) -> Renewed {
    let mut places = vec![Places::default(); 2];
    let mut steps = 0;
    for (place, calls) in places[0].iter_mut().zip(lists) {
        steps += calls.iter().map(Vec::len).sum::<usize>();
        *place = steps;
    }
    Renewed {
        schedule: schedule(&lists.concat()),
        places,
    }
}

/// Server 0 is renewed between the calls, from the program past so many renewals to today's.
fn renewed_once(past: usize, before: &Calls, after: &Calls) -> Renewed {
    let mut lists: [&Calls; Program::ALL.len()] = [&[]; Program::ALL.len()];
    lists[past] = before;
    lists[Program::ALL.len() - 1] = after;
    renewed_after(lists)
}

/// Server 0 is renewed between the calls, from the first program to today's.
pub fn renewed_between(before: &Calls, after: &Calls) -> Renewed {
    renewed_once(0, before, after)
}

/// The same from the second program to today's.
pub fn renewed_from_second(before: &Calls, after: &Calls) -> Renewed {
    renewed_once(1, before, after)
}

/// The same from the third program to today's.
pub fn renewed_from_third(before: &Calls, after: &Calls) -> Renewed {
    renewed_once(2, before, after)
}

/// The same from the fourth program to today's.
pub fn renewed_from_fourth(before: &Calls, after: &Calls) -> Renewed {
    renewed_once(3, before, after)
}

/// The same schedule with server 1 past so many renewals alone, from the start on.
pub fn other_past(renewals: usize, mut renewed: Renewed) -> Renewed {
    let never = renewed.schedule.steps.len();
    renewed.places[1][renewals..].fill(never);
    renewed
}

/// Runs the schedule; the marked book explains it.
pub fn explained(renewed: &Renewed) -> World<'_> {
    let options = Options {
        verify: true,
        ..Options::default()
    };
    let mut world = World::new_renewed(renewed, options);
    let steps = &renewed.schedule.steps;
    steps.iter().for_each(|step| world.step(step));
    assert_eq!(marked(&world, renewed), Ok(()));
    world
}

pub fn marked(world: &World, renewed: &Renewed) -> Result<(), Violation> {
    let plan = &renewed.schedule.plan;
    check_marked(plan, &world.commands(), &world.marks(), &world.finals())
}

/// All commands run by today's rules.
pub fn unmarked(world: &World, renewed: &Renewed) -> Result<(), Violation> {
    let plan = &renewed.schedule.plan;
    check(plan, &world.commands(), &world.finals())
}

/// Outcome and value that the desk received for each command.
pub fn results(world: &World) -> Vec<Option<(u8, i32)>> {
    let effects = world.commands().into_iter().map(|c| c.completed);
    effects
        .map(|e| e.map(|(_, effect)| (effect.outcome, effect.value)))
        .collect()
}

/// The qualities of the same results.
pub fn qualities(world: &World) -> Vec<Option<u8>> {
    let effects = world.commands().into_iter().map(|c| c.completed);
    effects
        .map(|e| e.map(|(_, effect)| effect.quality))
        .collect()
}

/// The first of the seeds whose schedule a book with other marks does not
/// explain, counted from 1. The true marks explain all up to it.
pub fn first_unexplained(
    first_seed: u64,
    make: impl Fn(u64) -> Renewed,
    other: impl Fn(Rules) -> Rules,
) -> u64 {
    let unexplained = (0..SOON).find(|i| {
        let renewed = make(first_seed + i);
        let world = explained(&renewed);
        let marks: Vec<Rules> = world.marks().into_iter().map(&other).collect();
        let plan = &renewed.schedule.plan;
        let found = check_marked(plan, &world.commands(), &marks, &world.finals());
        matches!(found, Err(Violation::NoOrder { .. }))
    });
    unexplained.expect("an unexplained schedule") + 1
}

/// Whether a schedule violates the demand if servers have the fault.
pub fn violates(renewed: &Renewed, fault: Option<Fault>) -> bool {
    let options = Options {
        fault,
        ..Options::default()
    };
    let found = run_renewed(renewed, options).result;
    matches!(
        found,
        Err(Violation::NoOrder { .. } | Violation::Lost { .. })
    )
}
