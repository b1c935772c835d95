//! Checkpoints in a random schedule: made, and then stored, or interrupted by a crash.

use super::{generate, Call, Flaw, Keep, Mark, Party, Schedule, Step};
use crate::random::Random;

/// The schedule of the seed, with checkpoints at random places. Logs are short: a
/// checkpoint makes room.
pub fn generate_checkpoints(seed: u64) -> Schedule {
    let mut schedule = generate(seed);
    let mut random = Random::new(seed.rotate_left(32));
    schedule.log_len = *random.pick(&[250, 400, 900, 2000]);
    for _ in 0..4 + random.below(20) {
        insert(&mut schedule, &mut random);
    }
    schedule
}

fn insert(schedule: &mut Schedule, random: &mut Random) {
    let at = Party::Number(random.below(u32::from(schedule.cabinets)) as u8);
    let (ask, end) = (ask(random, at), end(random, at));
    let steps = &mut schedule.steps;
    let from = random.below(steps.len() as u32 + 1) as usize;
    let wait = *random.pick(&[0, 0, 1, 2, 6]);
    let to = (from + wait).min(steps.len());
    steps.splice(to..to, end);
    steps.splice(from..from, ask);
}

/// Asks for a checkpoint, mostly when all is synced.
fn ask(random: &mut Random, at: Party) -> Vec<Step> {
    let mark = Mark::All;
    let mut steps = Vec::new();
    if random.chance(60) {
        steps.push(step(Call::Sync { at, mark }));
    }
    let call = Call::Checkpoint { at };
    if random.chance(10) {
        let flaw = *random.pick(&[Flaw::State, Flaw::Log, Flaw::Output]);
        steps.push(Step { call, flaw });
    }
    steps.push(step(call));
    steps
}

/// The checkpoint is stored, and a crash may follow at once; or a crash comes first, or
/// the storing takes as long as the next one of another server.
fn end(random: &mut Random, at: Party) -> Vec<Step> {
    let store = step(Call::Store { at });
    let keep = *random.pick(&[Keep::Synced, Keep::All]);
    let crash = [Call::Crash { at, keep }, Call::Recover { at }].map(step);
    match random.below(20) {
        0..=11 => vec![store],
        12..=15 => [&[store][..], &crash].concat(),
        16..=18 => crash.to_vec(),
        _ => vec![step(Call::Store { at: Party::Apt })],
    }
}

fn step(call: Call) -> Step {
    let flaw = Flaw::None;
    Step { call, flaw }
}
