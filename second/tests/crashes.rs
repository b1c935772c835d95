//! Crashes of a server before its recovery, a server left crashed, and
//! recoveries without a crash: call by call, then in random schedules.

mod common;

use common::*;
use second::record::{EXECUTED_LEN, HEAD_LEN};
use second::schedule::{generate, Call, Flaw, Keep, Mark, Party, Schedule, Step, Which};
use second::server::Server;
use second::world::{run, Counts, Options, World};

const AT: Party = Party::Number(0);
const POINT: u8 = 5;
/// The log's end after one executed record and after three.
const ONE: usize = HEAD_LEN + EXECUTED_LEN;
const THREE: usize = HEAD_LEN + 3 * EXECUTED_LEN;

const SYNC: Call = Call::Sync {
    at: AT,
    mark: Mark::All,
};
const REQUEST: Call = Call::Request {
    at: AT,
    packet: Which::Latest,
};
const RECEIVE: Call = Call::Receive {
    desk: Party::Apt,
    packet: Which::Latest,
};
const RECOVER: Call = Call::Recover { at: AT };
const RECOVER_RUNNING: Call = Call::RecoverRunning { at: AT };

fn step(call: Call) -> Step {
    let flaw = Flaw::None;
    Step { call, flaw }
}

fn flawed(call: Call) -> Step {
    let flaw = Flaw::State;
    Step { call, flaw }
}

fn issue(argument: i32) -> Call {
    Call::Issue {
        desk: 0,
        op: 1,
        point: POINT,
        argument,
    }
}

fn crash(keep: Keep) -> Step {
    step(Call::Crash { at: AT, keep })
}

fn crash_again(keep: Keep) -> Step {
    let at = Party::Apt;
    step(Call::CrashAgain { at, keep })
}

/// Server 0 executes set 10, set 20 and set 30; only the first is synced.
/// Then come the steps.
fn schedule(steps: &[Step]) -> Schedule {
    let packet = Which::Latest;
    let begin = [
        Call::Found { at: AT },
        Call::Open { wait: 0, span: 100 },
        Call::Start { packet },
        issue(10),
        REQUEST,
        SYNC,
        issue(20),
        REQUEST,
        issue(30),
        REQUEST,
    ];
    Schedule {
        plan: plan(),
        cabinets: 2,
        log_len: 400,
        steps: begin.map(step).iter().chain(steps).copied().collect(),
    }
}

fn verified() -> Options {
    Options {
        verify: true,
        ..Options::default()
    }
}

/// Runs the schedule, then hands the simulator to the test.
fn after(steps: &[Step], test: impl FnOnce(&World)) {
    let schedule = schedule(steps);
    let mut world = World::new(&schedule, verified());
    schedule.steps.iter().for_each(|step| world.step(step));
    test(&world);
}

fn counts(steps: &[Step]) -> Counts {
    let found = run(&schedule(steps), verified());
    assert_eq!(found.result, Ok(()));
    found.counts
}

fn kept_after(steps: &[Step]) -> Option<usize> {
    let mut kept = None;
    after(steps, |world| kept = world.kept(0).map(<[u8]>::len));
    kept
}

fn survivors(world: &World) -> Vec<i32> {
    let survive = world.commands().into_iter().filter(|c| c.survives);
    survive.map(|c| c.argument).collect()
}

/// Each crash keeps a prefix of what the last one kept; none keeps less than
/// the mark before the first.
#[test]
fn crashes_before_the_recovery() {
    let first = THREE - 5;
    let third = ONE + 9;
    let steps = [
        crash(Keep::Between((first - ONE) as u32)),
        crash_again(Keep::All),
        crash_again(Keep::Between((third - ONE) as u32)),
        crash(Keep::Synced),
        crash(Keep::All),
    ];
    for (count, kept) in [(1, first), (2, first), (3, third), (4, ONE), (5, ONE)] {
        assert_eq!(kept_after(&steps[..count]), Some(kept));
    }
    // Between goes from the mark to what the last crash kept, and no further.
    let most = (first - ONE) as u32;
    let greatest = [steps[0], crash_again(Keep::Between(most))];
    assert_eq!(kept_after(&greatest), Some(first));
    let past = [steps[0], crash_again(Keep::Between(most + 1))];
    assert_eq!(kept_after(&past), Some(ONE));
}

/// A command is lost with the crash that removes its record, the first or a
/// later one.
#[test]
fn commands_lost_to_a_later_crash() {
    let two = (EXECUTED_LEN + 3) as u32;
    let steps = [crash(Keep::Between(two)), crash_again(Keep::Synced)];
    after(&[], |world| assert_eq!(survivors(world), [10, 20, 30]));
    after(&steps[..1], |world| assert_eq!(survivors(world), [10, 20]));
    after(&steps, |world| assert_eq!(survivors(world), [10]));
    let counts = counts(&steps);
    assert_eq!((counts.crashes, counts.crashes_again), (2, 1));
    assert_eq!((counts.lost, counts.lost_again), (2, 1));
}

/// A server left crashed counts with the state that recover gives.
#[test]
fn left_crashed() {
    let steps = [crash(Keep::All), crash_again(Keep::Synced), step(RECOVER)];
    for (count, value, left) in [(1, 30, 1), (2, 10, 1), (3, 10, 0)] {
        let steps = &steps[..count];
        after(steps, |world| {
            assert_eq!(world.finals()[usize::from(POINT)], Some((value, 2)));
            assert_eq!(world.server(0).is_some(), left == 0);
        });
        assert_eq!(counts(steps).left_crashed, left);
    }
}

/// A refused recovery leaves the server crashed, with the mark from before.
#[test]
fn crash_after_a_refused_recovery() {
    let steps = [crash(Keep::All), flawed(RECOVER), crash_again(Keep::Synced)];
    assert_eq!(kept_after(&steps[..2]), Some(THREE));
    assert_eq!(kept_after(&steps), Some(ONE));
    assert_eq!(counts(&steps).crashes_again, 1);
}

/// After a recovery the mark is the new one, so all that it kept stays.
#[test]
fn crash_after_the_recovery() {
    let steps = [crash(Keep::All), step(RECOVER), crash(Keep::Synced)];
    assert_eq!(kept_after(&steps), Some(THREE));
    assert_eq!(counts(&steps).crashes_again, 0);
    let none = [step(RECOVER), crash_again(Keep::Synced)];
    assert_eq!(kept_after(&none), None);
}

/// The state stays, and the mark is the log's end: a repeat gives the
/// result, and a crash removes nothing.
#[test]
fn recovery_without_a_crash() {
    let steps = [RECOVER_RUNNING, REQUEST, RECEIVE].map(step);
    after(&[], |before| {
        let expected = Server {
            mark: THREE as u64,
            ..before.server(0).expect("a running server").clone()
        };
        after(&steps, |world| assert!(world.server(0) == Some(&expected)));
    });
    let counts_after = counts(&steps);
    assert_eq!(counts_after.recovered_running, 1);
    assert_eq!((counts_after.repeats, counts_after.completed), (1, 1));
    let crashed = [&steps[..], &[crash(Keep::Synced)]].concat();
    assert_eq!(kept_after(&crashed), Some(THREE));
    assert_eq!(counts(&crashed).lost, 0);
}

/// Refused, or of a server that is crashed, it does nothing.
#[test]
fn recovery_without_a_crash_refused_or_passed_over() {
    let refused = [flawed(RECOVER_RUNNING), crash(Keep::Synced)];
    assert_eq!(kept_after(&refused), Some(ONE));
    assert_eq!(counts(&refused).recovered_running, 0);
    let passed_over = [crash(Keep::Synced), step(RECOVER_RUNNING)];
    assert_eq!(kept_after(&passed_over), Some(ONE));
    assert_eq!(counts(&passed_over).recovered_running, 0);
}

/// What a server had when it last ran, and what its crashes kept since.
#[derive(Clone, Default)]
struct Seen {
    mark: usize,
    log: Vec<u8>,
    kept: Option<Vec<u8>>,
}

impl Seen {
    /// Answers whether a crash left less than the one before it.
    fn look(&mut self, world: &World, cabinet: usize) -> bool {
        if let Some(server) = world.server(cabinet) {
            self.mark = server.mark as usize;
            self.log = world.log(cabinet)[..server.length as usize].to_vec();
            self.kept = None;
        }
        let Some(kept) = world.kept(cabinet) else {
            return false;
        };
        let last = self.kept.as_ref().unwrap_or(&self.log);
        assert!(last.starts_with(kept) && kept.len() >= self.mark);
        let less = self.kept.as_ref().is_some_and(|k| kept.len() < k.len());
        self.kept = Some(kept.to_vec());
        less
    }
}

/// In random schedules too, crashes keep prefixes not shorter than the mark.
#[test]
fn crashes_in_random_schedules() {
    let mut shorter = 0;
    for seed in 9000..9500 {
        let schedule = generate(seed);
        let mut world = World::new(&schedule, Options::default());
        let mut seen = vec![Seen::default(); usize::from(schedule.cabinets)];
        for step in &schedule.steps {
            world.step(step);
            for (i, seen) in seen.iter_mut().enumerate() {
                shorter += u32::from(seen.look(&world, i));
            }
        }
    }
    assert!(shorter > 50, "{shorter} crashes");
}
