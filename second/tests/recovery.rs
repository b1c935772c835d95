//! Recovery from every prefix of logs of random runs.

mod common;
mod logs;

use common::*;
use logs::*;
use second::answer::Refusal;
use second::bytes::{get_i32, get_u32};
use second::packet::RESULT_LEN;
use second::plan::Plan;
use second::record::whole_end;
use second::schedule::generate;
use second::server::{Hold, Server, STATE_LEN};
use second::world::{Options, World};
use std::collections::BTreeMap;

const SCHEDULES: u64 = 250;

/// The states of one cabinet by its log's length.
type States = BTreeMap<usize, Server>;

/// Every prefix gives the state that the operations left at the end of its
/// last whole record, with the mark there; the first walk gives that end.
fn assert_prefixes(log: &[u8], states: &States, plan: &Plan) {
    for k in 0..8 {
        assert!(recover(&log[..k], plan).is_none());
        assert_eq!(whole_end(&log[..k]), Err(Refusal::BadLog));
    }
    let length = *states.keys().last().expect("a founded log");
    for k in 8..=length {
        let (&end, state) = states.range(..=k).next_back().expect("a state");
        let recovered = recover(&log[..k], plan).expect("a prefix recovers");
        let expected = Server {
            mark: end as u64,
            ..state.clone()
        };
        assert!(recovered == expected, "prefix of {k} bytes");
        assert_eq!(whole_end(&log[..k]), Ok(end));
    }
}

#[test]
fn every_prefix_of_random_logs() {
    let mut bytes = 0;
    for seed in 0..SCHEDULES {
        let schedule = generate(seed);
        let mut world = World::new(&schedule, Options::default());
        let count = usize::from(schedule.cabinets);
        let mut states: Vec<States> = vec![States::new(); count];
        for step in &schedule.steps {
            world.step(step);
            for (i, states) in states.iter_mut().enumerate() {
                if let Some(server) = world.server(i) {
                    states.split_off(&(server.length as usize + 1));
                    states.insert(server.length as usize, server.clone());
                }
            }
        }
        for (i, states) in states.iter().enumerate() {
            if world.server(i).is_some() {
                assert_prefixes(world.log(i), states, &schedule.plan);
                bytes += states.keys().last().expect("a founded log");
            }
        }
    }
    assert!(bytes > 50_000, "{bytes} bytes");
}

// A plain reading of "Log" and "Moving a point", without the library's code.

#[derive(Clone, Debug, PartialEq)]
struct ModelPoint {
    value: i32,
    quality: u8,
    number: u32,
    /// absent, held, given, released
    hold: &'static str,
}

#[derive(Clone, Debug, PartialEq)]
struct ModelRecord {
    id: (u32, u32),
    point: u8,
    op: u8,
    argument: i32,
    outcome: u8,
    value: i32,
    quality: u8,
    time: u32,
}

#[derive(Debug, PartialEq)]
struct Model {
    points: Vec<ModelPoint>,
    floors: BTreeMap<u32, u32>,
    records: Vec<ModelRecord>,
    heard: u32,
}

impl Model {
    fn new(plan: &Plan, cabinet: u8) -> Model {
        let point = |entry: &second::plan::Entry| ModelPoint {
            value: entry.fallback,
            quality: 1,
            number: 0,
            hold: match entry.home == cabinet {
                true => "held",
                false => "absent",
            },
        };
        Model {
            points: plan.entries.iter().map(point).collect(),
            floors: BTreeMap::new(),
            records: Vec::new(),
            heard: 0,
        }
    }

    fn drop_under_floors(&mut self) {
        let floors = &self.floors;
        self.records.retain(|r| r.id.1 >= floors[&r.id.0]);
    }

    fn replay(&mut self, mut b: &[u8]) {
        while let Some(&kind) = b.first() {
            let len = plain_len(b).expect("a good kind and image length");
            self.apply(kind, &b[..len]);
            b = &b[len..];
        }
    }

    fn apply(&mut self, kind: u8, b: &[u8]) {
        match kind {
            1 | 6 => self.executed(b),
            2 => {
                let client = get_u32(b, 4);
                self.floors.remove(&client);
                self.records.retain(|r| r.id.0 != client);
                self.heard = self.heard.max(get_u32(b, 8));
            }
            3 => {
                let point = &mut self.points[usize::from(b[1])];
                point.number += 1;
                assert_eq!(point.number, get_u32(b, 4));
                point.hold = "given";
            }
            4 => self.take(&b[8..]),
            _ => {
                self.points[usize::from(b[1])].hold = "released";
                self.records.retain(|r| r.point != b[1]);
            }
        }
    }

    fn executed(&mut self, b: &[u8]) {
        let (client, done) = (get_u32(b, 4), get_u32(b, 12));
        let record = ModelRecord {
            id: (client, get_u32(b, 8)),
            point: b[2],
            op: b[1],
            argument: get_i32(b, 16),
            outcome: b[3],
            value: get_i32(b, 20),
            quality: b[24],
            time: if b[0] == 6 { get_u32(b, 28) } else { 0 },
        };
        let point = &mut self.points[usize::from(b[2])];
        point.value = record.value;
        point.quality = record.quality;
        self.records.push(record);
        let floor = self.floors.entry(client).or_insert(done);
        *floor = done.max(*floor);
        self.drop_under_floors();
    }

    fn take(&mut self, b: &[u8]) {
        self.records.retain(|r| r.point != b[4]);
        self.points[usize::from(b[4])] = ModelPoint {
            value: get_i32(b, 40),
            quality: b[44],
            number: get_u32(b, 8),
            hold: "held",
        };
        let (at, len) = (get_u32(b, 24) as usize, get_u32(b, 28) as usize);
        for f in b[at..at + len].chunks(8) {
            let floor = self.floors.entry(get_u32(f, 0)).or_insert(1);
            *floor = get_u32(f, 4).max(*floor);
        }
        let (at, len) = (get_u32(b, 32) as usize, get_u32(b, 36) as usize);
        let timed = b[3] == 0x32;
        for r in b[at..at + len].chunks(if timed { 24 } else { 20 }) {
            self.records.push(ModelRecord {
                id: (get_u32(r, 0), get_u32(r, 4)),
                point: b[4],
                op: r[16],
                argument: get_i32(r, 8),
                outcome: r[17],
                value: get_i32(r, 12),
                quality: r[18],
                time: if timed { get_u32(r, 20) } else { 0 },
            });
        }
        self.drop_under_floors();
        self.heard = self.heard.max(get_u32(b, 12));
    }
}

fn model_of(server: &Server) -> Model {
    let hold = |hold: &Hold| match hold {
        Hold::Absent => "absent",
        Hold::Held => "held",
        Hold::Given { .. } => "given",
        Hold::Released { .. } => "released",
    };
    let points = server.points.iter().map(|p| ModelPoint {
        value: p.value,
        quality: p.quality,
        number: p.move_number,
        hold: hold(&p.hold),
    });
    let records = server.records.iter().map(|r| ModelRecord {
        id: (r.client, r.call),
        point: r.point,
        op: r.op as u8,
        argument: r.argument,
        outcome: r.outcome,
        value: r.value,
        quality: r.quality,
        time: r.time,
    });
    Model {
        points: points.collect(),
        floors: server.clients.iter().map(|c| (c.client, c.floor)).collect(),
        records: records.collect(),
        heard: server.heard,
    }
}

/// The state of the operations and of recovery is the plain replay.
#[test]
fn state_is_the_replay_of_the_log() {
    let mut takes = 0;
    for seed in 1000..4000 {
        let schedule = generate(seed);
        let mut world = World::new(&schedule, Options::default());
        schedule.steps.iter().for_each(|step| world.step(step));
        for i in 0..usize::from(schedule.cabinets) {
            let Some(server) = world.server(i) else {
                continue;
            };
            let log = &world.log(i)[..server.length as usize];
            let mut model = Model::new(&schedule.plan, i as u8);
            model.replay(&log[8..]);
            assert_eq!(model_of(server), model);
            let recovered = recover(log, &schedule.plan).expect("a whole log recovers");
            assert_eq!(model_of(&recovered), model);
            takes += server.points.iter().filter(|p| p.taken.is_some()).count();
        }
    }
    assert!(takes > 500);
}

/// After a recovery all whole records are synced.
#[test]
fn recovered_records_are_synced() {
    let mut rig = Rig::new(0, 500);
    rig.execute(&set(1, 1, 5, 40));
    rig.request(7, 12, &set(1, 1, 5, 40));
    let kept = rig.server.length as usize;
    let log = rig.log[..kept].to_vec();
    let answer = rig.server.recover(STATE_LEN, &log, &plan_bytes());
    assert_eq!(answer.number, 0);
    rig.request(0, RESULT_LEN, &set(1, 1, 5, 40));
}
