//! Heard times above 0 in a random schedule: clients that come, execute one command and
//! go, while the leases of the others last.

use super::{generate_checkpoints, Call, Flaw, Party, Renewed, Schedule, Step, Which, LATEST_DESK};
use crate::random::Random;
use crate::rule::Op;

/// Most leases of the schedule are as much longer.
const LONG: u32 = 500;

/// The schedule of the seed, with checkpoints, with clients that go, and with the last two
/// renewals of each server: programs before the third made no checkpoints.
pub fn generate_timed(seed: u64) -> Renewed {
    let mut schedule = generate_checkpoints(seed);
    let mut random = Random::new(seed.rotate_left(16));
    lengthen_leases(&mut schedule.steps, &mut random);
    for _ in 0..2 + random.below(7) {
        let steps = one_that_goes(&mut random, schedule.cabinets);
        let place = random.below(schedule.steps.len() as u32 + 1) as usize;
        schedule.steps.splice(place..place, steps);
    }
    renewed(&schedule, &mut random)
}

/// Each server runs the third program up to one of four random places, the fourth up to
/// another, then today's.
fn renewed(schedule: &Schedule, random: &mut Random) -> Renewed {
    let mut renewed = Renewed::today(schedule);
    renewed.renew_all(random);
    for places in &mut renewed.places {
        let (early, late) = places.split_at(2);
        *places = [0, 0, *random.pick(early), *random.pick(late)];
    }
    renewed
}

fn lengthen_leases(steps: &mut [Step], random: &mut Random) {
    for step in steps {
        if let Call::Open { span, .. } | Call::Renew { span, .. } = &mut step.call {
            if (1..LONG).contains(span) && random.chance(85) {
                *span += LONG;
            }
        }
    }
}

/// A client of a short lease commands one of the first points, at times more than one
/// server hears of it, and then it is gone everywhere.
fn one_that_goes(random: &mut Random, cabinets: u8) -> Vec<Step> {
    let (at, desk, packet) = (Party::Apt, LATEST_DESK, Which::Latest);
    let span = 1 + random.below(3);
    let mut calls = vec![Call::Open { wait: 0, span }, Call::Start { packet }];
    for _ in 0..1 + random.below(2) {
        calls.push(Call::Issue {
            desk,
            op: Op::Read as u8,
            point: random.below(3) as u8,
            argument: 0,
        });
        calls.push(Call::Request { at, packet });
    }
    let wait = span + random.below(9);
    calls.push(Call::Query { desk, wait });
    let everywhere = (0..cabinets).map(Party::Number);
    calls.extend(everywhere.map(|at| Call::Notice { at, packet }));
    let flaw = Flaw::None;
    calls.into_iter().map(|call| Step { call, flaw }).collect()
}
