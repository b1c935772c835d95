//! A random schedule with every request through its server's dispatcher: served at once,
//! later, or many in a row, and at times with more desks than may wait.

use super::{
    generate_checkpoints, Call, Fate, Flaw, Mark, Party, Schedule, Step, Which, LATEST_DESK,
};
use crate::random::Random;
use crate::rule::Op;

/// How soon the servings come: how many follow a request, in ten cases.
type Pace = [u8; 10];

const PROMPT: Pace = [0, 1, 1, 1, 1, 1, 1, 1, 1, 2];
const SLOW: Pace = [0, 0, 0, 0, 1, 1, 1, 1, 2, 3];
const IN_BURSTS: Pace = [0, 0, 0, 0, 0, 0, 0, 0, 4, 12];

/// The schedule of the seed, checkpoints included. What a crash does to those who wait is
/// chance.
pub fn generate_dispatched(seed: u64) -> Schedule {
    let mut schedule = generate_checkpoints(seed);
    let mut random = Random::new(seed.rotate_left(48));
    let pace = *random.pick(&[PROMPT, PROMPT, SLOW, IN_BURSTS]);
    let mut steps = Vec::with_capacity(2 * schedule.steps.len());
    for step in &schedule.steps {
        dispatch(step, &pace, &mut random, &mut steps);
        disturb(schedule.cabinets, &mut random, &mut steps);
    }
    if random.chance(20) {
        let crowd = crowd(schedule.cabinets, &mut random);
        let place = random.below(steps.len() as u32 + 1) as usize;
        steps.splice(place..place, crowd);
    }
    schedule.steps = steps;
    schedule
}

/// A request waits and is served, a crash takes those who wait with it or leaves them; the
/// rest is as it was. Apt for a serving, and for what is done with those who wait, is the
/// server of the step before.
fn dispatch(step: &Step, pace: &Pace, random: &mut Random, steps: &mut Vec<Step>) {
    match step.call {
        Call::Request { at, packet } => {
            steps.push(whole(Call::Enqueue { at, packet }));
            for serving in 0..*random.pick(pace) {
                let flaw = match serving {
                    0 => step.flaw,
                    _ => Flaw::None,
                };
                let call = Call::Serve { at };
                steps.push(Step { call, flaw });
            }
        }
        Call::Crash { at, .. } | Call::CrashAgain { at, .. } => {
            steps.push(*step);
            match random.below(10) {
                0..=4 => steps.push(whole(Call::Waiting {
                    at,
                    fate: Fate::Lost,
                })),
                5..=6 => steps.push(whole(Call::Waiting {
                    at,
                    fate: Fate::OldCopy,
                })),
                _ => {}
            }
        }
        _ => steps.push(*step),
    }
}

/// Now and then a serving anywhere, with any slices, or a copy put aside.
fn disturb(cabinets: u8, random: &mut Random, steps: &mut Vec<Step>) {
    let at = Party::Number(random.below(u32::from(cabinets)) as u8);
    match random.below(100) {
        0..=3 => {
            let call = Call::Serve { at };
            let flaw = *random.pick(&[Flaw::None, Flaw::State, Flaw::Log, Flaw::Output]);
            steps.push(Step { call, flaw });
        }
        4..=6 => steps.push(whole(Call::Waiting {
            at,
            fate: Fate::Copied,
        })),
        _ => {}
    }
}

/// More desks than may wait, all at one server, and then its servings; between them come
/// more requests of desks that were served and of desks that wait.
fn crowd(cabinets: u8, random: &mut Random) -> Vec<Step> {
    let point = random.below(3) as u8;
    let at = match random.chance(60) {
        true => Party::Apt,
        false => Party::Number(random.below(u32::from(cabinets)) as u8),
    };
    let mut steps = Vec::new();
    for _ in 0..30 + random.below(12) {
        one_more(at, point, random, &mut steps);
    }
    for _ in 0..34 + random.below(40) {
        let call = Call::Serve { at };
        let flaw = match random.chance(5) {
            true => *random.pick(&[Flaw::State, Flaw::Log, Flaw::Output]),
            false => Flaw::None,
        };
        steps.push(Step { call, flaw });
        send_more(at, random, &mut steps);
    }
    steps
}

/// A new desk with its first request. Leases are short at times, so that the office has a
/// place for each.
fn one_more(at: Party, point: u8, random: &mut Random, steps: &mut Vec<Step>) {
    let packet = Which::Latest;
    let (wait, span) = (random.below(2), *random.pick(&[2, 400, 400]));
    let issue = Call::Issue {
        desk: LATEST_DESK,
        op: Op::Step as u8,
        point,
        argument: random.between(-20, 60),
    };
    let calls = [
        Call::Open { wait, span },
        Call::Start { packet },
        issue,
        Call::Enqueue { at, packet },
    ];
    steps.extend(calls.map(whole));
}

fn send_more(at: Party, random: &mut Random, steps: &mut Vec<Step>) {
    let desk = random.next_u32();
    let packet = match random.below(10) {
        0..=3 => Which::Latest,
        4..=6 => Which::Recent(desk),
        _ => Which::Any(desk),
    };
    let mark = Mark::All;
    match random.below(10) {
        0..=5 => steps.push(whole(Call::Enqueue { at, packet })),
        6 => steps.push(whole(Call::Sync { at, mark })),
        7 => steps.push(whole(Call::Receive {
            desk: Party::Apt,
            packet,
        })),
        _ => {}
    }
}

fn whole(call: Call) -> Step {
    let flaw = Flaw::None;
    Step { call, flaw }
}
