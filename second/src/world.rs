//! Paper 01, "Demand 3 in full": runs a schedule over cabinets, desks and the
//! office and keeps what the checker needs.
//!
//! Steps that the demand's conditions exclude are passed over: a call at a
//! cabinet before it is founded or between its crash and a recovery, a second
//! founding, a second desk of one client number.

use crate::chamber::LockPoints;
use crate::checker::{check_marked, Command, Violation};
use crate::faults::Fault;
use crate::leases::LeaseManager;
use crate::packet::{GRANT, REFUSAL, RESULT, RESULT_UNTIMED};
use crate::plan::{write_plan, PLAN_LEN};
use crate::program::Program;
use crate::schedule::{program_in_step, Call, Flaw, Places, Renewed, Schedule, Step};

mod account;
mod at_clients;
mod at_servers;
mod cabinet;
mod calling;
mod choice;
mod counts;
mod crashes;
mod desk;
mod dispatching;
mod inspect;
mod lock;
mod openings;
mod shadow;
mod storing;
mod times;
mod turns;

pub use counts::{Counts, Storing, Turns};
pub use lock::{minimise_lock, run_lock, LockRun};
pub use shadow::{Difference, Differs};
pub use turns::Unfair;

use cabinet::{Cabinet, Phase};
use desk::Desk;

/// Byte that fills what nobody wrote.
const FILL: u8 = 0xA5;
/// Index of images among the kinds.
const IMAGE: u8 = 0;
const DESK_PACKETS: &[u8] = &[RESULT_UNTIMED, RESULT, REFUSAL, GRANT];

/// A request that executed a command: the program that did, the time that it keeps
/// of the execution, and the log's length after it, bytes that checkpoints replaced
/// counted in.
struct Execution {
    command: usize,
    cabinet: usize,
    program: Program,
    time: u32,
    end: u64,
    place: u32,
    survives: bool,
}

#[derive(Clone, Copy, PartialEq, Eq, Debug, Default)]
pub struct Options {
    pub fault: Option<Fault>,
    /// Tests after each call that the state is sound, that a refusal left
    /// all lent memory as found and that no other byte changed.
    pub verify: bool,
    /// Runs a shadow beside each server and inspects completion records.
    pub shadow: bool,
    pub trace: bool,
}

pub struct Run {
    pub result: Result<(), Violation>,
    /// The first difference from the shadows, if there are any.
    pub shadow: Result<(), Difference>,
    /// The first unfair turn of a dispatcher, with its place in the schedule.
    pub turns: Result<(), (u32, Unfair)>,
    pub counts: Counts,
    pub trace: Vec<String>,
}

impl Run {
    /// A violation that is decided, a difference from the shadows, or an unfair turn.
    pub fn fails(&self) -> bool {
        let undecided = matches!(self.result, Err(Violation::Undecided { .. }));
        (self.result.is_err() && !undecided) || self.shadow.is_err() || self.turns.is_err()
    }
}

/// Runs the schedule and checks demand 3 after it. All servers run today's
/// program.
pub fn run(schedule: &Schedule, options: Options) -> Run {
    run_world(World::new(schedule, options))
}

/// The same with servers that are renewed in the schedule.
pub fn run_renewed(renewed: &Renewed, options: Options) -> Run {
    run_world(World::new_renewed(renewed, options))
}

fn run_world(mut world: World) -> Run {
    let schedule = world.schedule;
    for step in &schedule.steps {
        world.step(step);
    }
    world.count_left_crashed();
    world.count_replaced();
    world.count_results();
    Run {
        result: world.check(),
        shadow: world.difference.map_or(Ok(()), Err),
        turns: world.first_unfair.map_or(Ok(()), Err),
        counts: world.counts,
        trace: world.trace,
    }
}

/// Drops steps as long as the schedule still violates demand 3 or differs from its shadows.
pub fn minimise(schedule: &Schedule, options: Options) -> Schedule {
    minimise_renewed(&Renewed::today(schedule), options).schedule
}

/// The same with servers that are renewed in the schedule.
pub fn minimise_renewed(renewed: &Renewed, options: Options) -> Renewed {
    let mut best = renewed.clone();
    let count = |r: &Renewed| r.schedule.steps.len();
    let mut size = count(&best) / 2;
    while size >= 1 {
        let mut at = 0;
        while at < count(&best) {
            let shorter = best.without(at..(at + size).min(count(&best)));
            match run_renewed(&shorter, options).fails() {
                true => best = shorter,
                false => at += size,
            }
        }
        size /= 2;
    }
    best
}

pub struct World<'a> {
    schedule: &'a Schedule,
    /// The places of each server's renewals.
    renewals: &'a [Places],
    options: Options,
    plan: [u8; PLAN_LEN],
    cabinets: Vec<Cabinet>,
    desks: Vec<Desk>,
    /// The points of a lock, and its controllers among the desks in the order of
    /// their starts.
    lock: Option<LockPoints>,
    controllers: Vec<usize>,
    /// Place of the first opening whose answer is not as its conditions ask.
    wrong_opening: Option<u32>,
    office: LeaseManager,
    clock: u32,
    /// All packets and images made, and their places by kind.
    pool: Vec<Vec<u8>>,
    kinds: [Vec<usize>; 8],
    commands: Vec<Command>,
    executions: Vec<Execution>,
    /// Place in the schedule.
    place: u32,
    /// The cabinet of the last call.
    last: usize,
    /// The first difference of a server from its shadow.
    difference: Option<Difference>,
    first_unfair: Option<(u32, Unfair)>,
    counts: Counts,
    trace: Vec<String>,
}

impl<'a> World<'a> {
    /// All servers run today's program.
    pub fn new(schedule: &'a Schedule, options: Options) -> World<'a> {
        World::with_renewals(schedule, &[], options)
    }

    pub fn new_renewed(renewed: &'a Renewed, options: Options) -> World<'a> {
        World::with_renewals(&renewed.schedule, &renewed.places, options)
    }

    fn with_renewals(
        schedule: &'a Schedule,
        renewals: &'a [Places],
        options: Options,
    ) -> World<'a> {
        let cabinet = |_| Cabinet::new(schedule.log_len, &options);
        World {
            schedule,
            renewals,
            options,
            plan: write_plan(&schedule.plan),
            cabinets: (0..schedule.cabinets).map(cabinet).collect(),
            desks: Vec::new(),
            lock: None,
            controllers: Vec::new(),
            wrong_opening: None,
            office: LeaseManager::new(),
            clock: 0,
            pool: Vec::new(),
            kinds: Default::default(),
            commands: Vec::new(),
            executions: Vec::new(),
            place: 0,
            last: 0,
            difference: None,
            first_unfair: None,
            counts: Counts::default(),
            trace: Vec::new(),
        }
    }

    /// Demand 3.
    fn check(&self) -> Result<(), Violation> {
        if let Some(cabinet) = self.not_recovered() {
            return Err(Violation::NotRecovered { cabinet });
        }
        let (commands, marks) = (self.commands(), self.marks());
        check_marked(&self.schedule.plan, &commands, &marks, &self.finals())?;
        self.check_times()
    }

    pub fn step(&mut self, step: &Step) {
        self.place += 1;
        self.make(&step.call, step.flaw);
        self.inspect_one();
    }

    fn make(&mut self, call: &Call, flaw: Flaw) {
        match *call {
            Call::Found { at } => self.found(at, flaw),
            Call::Request { at, packet } => self.request(at, packet, flaw),
            Call::Enqueue { at, packet } => self.enqueue(at, packet),
            Call::Serve { at } => self.serve(at, flaw),
            Call::Waiting { at, fate } => self.handle_waiting(at, fate),
            Call::Fetch { at, id } => self.fetch(at, id, flaw),
            Call::Sync { at, mark } => self.sync(at, mark, flaw),
            Call::Notice { at, packet } => self.notice(at, packet, flaw),
            Call::Give {
                at,
                point,
                destination,
            } => self.give(at, point, destination, flaw),
            Call::Image { at, point } => self.image(at, point, flaw),
            Call::Take { at, image } => self.take(at, image, flaw),
            Call::Receipt { at, point } => self.receipt(at, point, flaw),
            Call::Release { at, packet } => self.release(at, packet, flaw),
            Call::Crash { at, keep } => self.crash(at, keep),
            Call::CrashAgain { at, keep } => self.crash_again(at, keep),
            Call::Recover { at } => self.recover(at, flaw),
            Call::RecoverRunning { at } => self.recover_running(at, flaw),
            Call::Checkpoint { at } => self.checkpoint(at, flaw),
            Call::Store { at } => self.store(at),
            _ => self.make_elsewhere(call),
        }
    }

    /// Calls at desks and at the office.
    fn make_elsewhere(&mut self, call: &Call) {
        match *call {
            Call::Start { packet } => self.start(packet),
            Call::Issue {
                desk,
                op,
                point,
                argument,
            } => self.issue(desk, op, point, argument),
            Call::Resend { desk, call } => self.resend(desk, call),
            Call::Receive { desk, packet } => self.receive(desk, packet),
            Call::Open { wait, span } => self.open(wait, span),
            Call::Renew { desk, wait, span } => self.renew(desk, wait, span),
            Call::Query { desk, wait } => self.query(desk, wait),
            Call::StartController { packet } => self.start_controller(packet),
            Call::Toward {
                desk,
                gate,
                op,
                argument,
                manner,
            } => self.toward(desk, gate, (op, argument), manner),
            Call::LateOpening { at, number, lost } => self.late_opening(at, number, lost),
            _ => unreachable!("a call at a cabinet"),
        }
    }

    /// A server's program in the present step.
    fn program(&self, cabinet: usize) -> Program {
        program_in_step(self.renewals, cabinet, self.place as usize - 1)
    }

    fn note(&mut self, text: impl FnOnce() -> String) {
        if self.options.trace {
            self.trace.push(format!("{}: {}", self.place, text()));
        }
    }
}
