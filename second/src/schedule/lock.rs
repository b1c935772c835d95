//! Schedules of a lock (paper 02, request 2): a controller that drives its gates,
//! is lost and succeeded, and goes on; desks that report the levels and read the
//! gates; moves, crashes and late packets in between.

use super::generate::Generator;
use super::{Call, Keep, Manner, Party, Schedule, Which, CONTROLLER, LATEST_DESK, LOST};
use crate::chamber::LockPoints;
use crate::plan::{Entry, Plan};
use crate::random::Random;
use crate::rule::Op;

/// Points in use: those of the lock and one more.
const POINTS_USED: u8 = 6;

#[derive(Clone, PartialEq, Eq, Debug)]
pub struct LockSchedule {
    pub schedule: Schedule,
    pub points: LockPoints,
}

pub fn generate_lock(seed: u64) -> LockSchedule {
    let mut random = Random::new(seed);
    let cabinets = 2 + random.below(2) as u8;
    let points = points(&mut random);
    let mut generator = Generator {
        cabinets,
        points: POINTS_USED,
        desks: 0,
        issues: 0,
        steps: Vec::new(),
        random,
    };
    let plan = lock_plan(&mut generator, &points);
    let log_len = *generator.random.pick(&[2_000, 8_000, 8_000, 12_000]);
    let mut work = Work {
        generator,
        points,
        gate: 0,
    };
    work.begin();
    for _ in 0..25 + work.random().below(30) {
        work.sequence();
    }
    work.generator.disturb();
    LockSchedule {
        schedule: Schedule {
            plan,
            cabinets,
            log_len,
            steps: work.generator.steps,
        },
        points,
    }
}

/// Five of the points in use, in any order.
fn points(random: &mut Random) -> LockPoints {
    let mut numbers: Vec<u32> = (0..u32::from(POINTS_USED)).collect();
    let five = [(); 5].map(|()| numbers.remove(random.below(numbers.len() as u32) as usize));
    LockPoints::new(five).expect("different points")
}

/// Both gates' fallback is 0; the levels stay close together.
fn lock_plan(generator: &mut Generator, points: &LockPoints) -> Plan {
    let mut plan = generator.plan();
    for gate in [points.upper, points.lower] {
        plan.entries[usize::from(gate)].fallback = 0;
    }
    for level in points.levels {
        plan.entries[usize::from(level)] = Entry {
            low: 0,
            high: 7,
            fallback: 3,
            ..*plan.entry(level)
        };
    }
    plan
}

struct Work {
    generator: Generator,
    points: LockPoints,
    /// The gate that the controllers mean to open.
    gate: u8,
}

impl Work {
    fn random(&mut self) -> &mut Random {
        &mut self.generator.random
    }

    fn add(&mut self, call: Call) {
        self.generator.add(call);
    }

    fn begin(&mut self) {
        let percent = *self.random().pick(&[100, 100, 60]);
        for number in 0..self.generator.cabinets {
            let at = Party::Number(number);
            self.generator.maybe(percent, Call::Found { at });
        }
        self.report_levels();
        self.start_controller();
    }

    /// A desk that reports the levels.
    fn report_levels(&mut self) {
        let span = 10 + self.random().below(40);
        self.generator.open_and_start(0, span);
        for point in self.points.levels {
            let argument = self.random().between(0, 6);
            let op = Op::Report as u8;
            self.add(Call::Issue {
                desk: LATEST_DESK,
                op,
                point,
                argument,
            });
            self.generator.send_latest(97);
        }
        self.generator.reply();
    }

    fn start_controller(&mut self) {
        let span = 4 + self.random().below(20);
        self.add(Call::Open { wait: 0, span });
        let packet = Which::Latest;
        self.add(Call::StartController { packet });
    }

    fn sequence(&mut self) {
        match self.random().below(100) {
            0..=33 => self.go_on(),
            34..=37 => self.careless(),
            38..=40 => self.blind(CONTROLLER),
            41..=43 => self.close(),
            44..=47 => self.late_openings(),
            48..=51 => self.lost_goes_on(),
            52..=62 => self.succeed(),
            63..=69 => self.move_gate(),
            70..=72 => self.carry_on_moves(),
            73 => self.generator.move_point(),
            74..=75 => self.generator.finish_move(),
            76..=77 => self.generator.late_image(),
            78..=80 => self.generator.crash(),
            81 => self.generator.crash_again(),
            82 => self.generator.recover_running(),
            83..=86 => self.generator.command(),
            87..=88 => self.report_levels(),
            89..=91 => self.generator.late_request(),
            92 => self.renew(CONTROLLER),
            93 => self.generator.end_lease(),
            94..=95 => self.generator.astray(),
            96 => self.generator.bad_call(),
            97 => self.generator.resend(),
            _ => self.read_gate(),
        }
        self.generator.maybe(60, Call::Recover { at: Party::Apt });
        let at = Party::Number(self.generator.cabinet());
        self.generator.maybe(8, Call::Found { at });
    }

    // Controllers.

    /// Some calls toward the opening of a gate.
    fn go_on(&mut self) {
        if self.random().chance(40) {
            self.gate = 1 - self.gate;
        }
        for _ in 0..2 + self.random().below(5) {
            self.toward(CONTROLLER, Manner::Careful);
            self.answered(Which::Latest);
        }
        if self.random().chance(40) {
            self.late_openings();
        }
    }

    /// The same without care for an open command or for the other gate; openings
    /// may be held back.
    fn careless(&mut self) {
        let manners = [
            Manner::Impatient,
            Manner::Impatient,
            Manner::OtherUnread,
            Manner::OtherNotClosed,
        ];
        let manner = *self.random().pick(&manners);
        let packets = [Which::Latest, Which::LatestHarmless];
        let packet = *self.random().pick(&packets);
        for _ in 0..3 + self.random().below(4) {
            self.toward(CONTROLLER, manner);
            self.answered(packet);
            if self.random().chance(15) {
                self.gate = 1 - self.gate;
            }
        }
        self.late_openings();
    }

    fn toward(&mut self, desk: u8, manner: Manner) {
        let (op, argument) = self.opening();
        let gate = self.gate;
        self.add(Call::Toward {
            desk,
            gate,
            op,
            argument,
            manner,
        });
    }

    fn opening(&mut self) -> (u8, i32) {
        match self.random().chance(60) {
            true => (Op::Set as u8, *self.random().pick(&[1, 2, 5, 5, -5, 50])),
            false => (Op::Part as u8, *self.random().pick(&[0, 300, 900, 1000])),
        }
    }

    /// A request up to its result.
    fn answered(&mut self, packet: Which) {
        let at = Party::Apt;
        self.generator.maybe(95, Call::Request { at, packet });
        self.generator.sync_all(93);
        self.generator.maybe(96, Call::Request { at, packet });
        let (desk, packet) = (Party::Apt, Which::Latest);
        self.generator.maybe(95, Call::Receive { desk, packet });
    }

    /// An opening whether its conditions hold or not.
    fn blind(&mut self, desk: u8) {
        let (op, argument) = self.opening();
        let point = self.any_gate();
        self.command(desk, op, point, argument);
    }

    fn close(&mut self) {
        let point = self.any_gate();
        self.command(CONTROLLER, Op::Set as u8, point, 0);
    }

    fn command(&mut self, desk: u8, op: u8, point: u8, argument: i32) {
        self.add(Call::Issue {
            desk,
            op,
            point,
            argument,
        });
        self.answered(Which::Latest);
    }

    fn any_gate(&mut self) -> u8 {
        let gates = [self.points.upper, self.points.lower];
        *self.random().pick(&gates)
    }

    // Lost controllers.

    fn late_openings(&mut self) {
        for _ in 0..1 + self.random().below(3) {
            let at = self.generator.party(95);
            let number = self.random().next_u32();
            let lost = self.random().chance(75);
            self.add(Call::LateOpening { at, number, lost });
        }
    }

    fn lost_goes_on(&mut self) {
        let desk = LOST + self.random().below(2) as u8;
        match self.random().below(10) {
            0..=1 => self.blind(desk),
            2..=6 => {
                self.toward(desk, Manner::Careful);
                self.answered(Which::Latest);
            }
            _ => self.renew(desk),
        }
    }

    /// A controller renews its lease and resends its command.
    fn renew(&mut self, desk: u8) {
        let span = 4 + self.random().below(20);
        self.add(Call::Renew {
            desk,
            wait: 0,
            span,
        });
        let (at, packet) = (Party::Apt, Which::Latest);
        self.generator.maybe(90, Call::Receive { desk: at, packet });
        self.generator.maybe(60, Call::Resend { desk, call: 0 });
        self.generator.send_latest(60);
    }

    /// The controller is lost, at times with an opening on its way or a gate on
    /// the move; its lease ends, the servers hear of it, its successor starts.
    fn succeed(&mut self) {
        if self.random().chance(50) {
            self.approach();
        }
        let moving = self.random().chance(25);
        match moving {
            true => self.give_gate(),
            false => self.carry_on_moves(),
        }
        let wait = *self.random().pick(&[6, 24, 24, 30]);
        let desk = CONTROLLER;
        self.add(Call::Query { desk, wait });
        self.tell_all();
        for point in [self.points.upper, self.points.lower] {
            if self.random().chance(55) {
                self.ghost(point);
            }
        }
        self.start_controller();
        if self.random().chance(20) {
            self.lose_unsynced();
        }
        if moving {
            let (at, image) = (Party::Apt, Which::Latest);
            self.generator.maybe(80, Call::Take { at, image });
        }
        self.gate = 1 - self.gate;
        for _ in 0..self.random().below(3) {
            self.go_on();
        }
    }

    /// Up to an opening, which is held back.
    fn approach(&mut self) {
        for _ in 0..4 + self.random().below(4) {
            self.toward(CONTROLLER, Manner::Careful);
            self.answered(Which::LatestHarmless);
        }
    }

    /// The latest notice to the servers.
    fn tell_all(&mut self) {
        let percent = *self.random().pick(&[95, 95, 50]);
        let synced = *self.random().pick(&[95, 95, 50]);
        let first = self.generator.cabinet();
        for number in 0..self.generator.cabinets {
            let at = Party::Number((first + number) % self.generator.cabinets);
            let packet = Which::Latest;
            self.generator.maybe(percent, Call::Notice { at, packet });
            self.generator.sync_all(synced);
        }
    }

    /// A gate's holder hears of the end of another desk's short lease.
    fn ghost(&mut self, point: u8) {
        self.generator.open_and_start(0, 1);
        self.read_by_latest(point);
        let desk = LATEST_DESK;
        self.add(Call::Query { desk, wait: 3 });
        let (at, packet) = (Party::Apt, Which::Latest);
        self.add(Call::Notice { at, packet });
        self.generator.sync_all(80);
    }

    fn read_by_latest(&mut self, point: u8) {
        self.add(Call::Issue {
            desk: LATEST_DESK,
            op: Op::Read as u8,
            point,
            argument: 0,
        });
        self.generator.send_latest(97);
    }

    /// The server last used loses what is not synced.
    fn lose_unsynced(&mut self) {
        let at = Party::Apt;
        let keep = Keep::Synced;
        self.add(Call::Crash { at, keep });
        self.add(Call::Recover { at });
    }

    // Other work.

    fn read_gate(&mut self) {
        let point = self.any_gate();
        self.read_by_latest(point);
        self.generator.reply();
    }

    fn move_gate(&mut self) {
        let point = self.any_gate();
        self.generator.move_this(point);
    }

    fn carry_on_moves(&mut self) {
        for point in [self.points.upper, self.points.lower] {
            if self.random().chance(70) {
                self.generator.carry_on_this(point);
            }
        }
    }

    /// A move up to its image.
    fn give_gate(&mut self) {
        let (at, point) = (Party::Apt, self.any_gate());
        let destination = self.generator.cabinet();
        self.add(Call::Give {
            at,
            point,
            destination,
        });
        self.generator.sync_all(95);
        self.add(Call::Image { at, point });
    }
}
