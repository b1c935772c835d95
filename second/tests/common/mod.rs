//! A cabinet with its lent slices, and short ways to make packets.
#![allow(dead_code)]

use second::answer::{Answer, Refusal};
use second::image::{moved_len, write_image_as, Floor, ImageHead, Moved, IMAGE_MAX};
use second::packet::{
    parse_result, write_notice, write_receipt, write_request, Notice, Receipt, Request,
    REQUEST_LEN, RESULT_LEN,
};
use second::plan::{write_plan, Entry, Plan, PLAN_LEN};
use second::program::{Form, Program};
use second::random::Random;
use second::record::{parse_record, Executed, Parsed, Record, HEAD_LEN};
use second::rule::{apply, apply_by, Effect, Op, Rules};
use second::server::{Server, STATE_LEN};

pub const FILL: u8 = 0xA5;

pub const RANGE: Entry = Entry {
    low: -100,
    high: 1000,
    fallback: 0,
    home: 0,
};

/// Every point from -100 to 1000, fallback 0, home 0; points from 32 on have
/// home 1.
pub fn plan() -> Plan {
    let mut plan = Plan::uniform(RANGE);
    for entry in &mut plan.entries[32..] {
        entry.home = 1;
    }
    plan
}

pub fn plan_bytes() -> [u8; PLAN_LEN] {
    write_plan(&plan())
}

/// A range with its low end as fallback.
pub fn range(low: i32, high: i32) -> Entry {
    Entry {
        low,
        high,
        fallback: low,
        home: 0,
    }
}

pub fn effect(outcome: u8, value: i32, quality: u8) -> Effect {
    Effect {
        outcome,
        value,
        quality,
    }
}

/// Two programs between which the rules of these ops changed execute every other op alike.
pub fn assert_differ_only_in(changed: &[Op], one: Rules, other: Rules) {
    for op in ops().filter(|op| !changed.contains(op)) {
        for argument in (-1200..=1200).filter(|&a| op.accepts(a)) {
            for quality in 0..=2 {
                let by = |rules| apply_by(rules, op, argument, &RANGE, 40, quality);
                assert_eq!(by(one), by(other));
                assert_eq!(apply(op, argument, &RANGE, 40, quality), by(Rules::TODAY));
            }
        }
    }
}

pub fn ops() -> impl Iterator<Item = Op> {
    (0..=Op::Part as u8).filter_map(Op::from_byte)
}

/// By its number in the paper.
pub fn refusal(number: u32) -> Refusal {
    Refusal::ALL[number as usize - 1]
}

pub struct Rig {
    pub server: Server,
    pub log: Vec<u8>,
    pub output: Vec<u8>,
}

impl Rig {
    pub fn new(cabinet: u32, log_len: usize) -> Rig {
        let mut rig = Rig {
            server: Server::new(),
            log: vec![FILL; log_len],
            output: vec![FILL; IMAGE_MAX],
        };
        let answer = rig
            .server
            .found(STATE_LEN, &mut rig.log, &plan_bytes(), cabinet);
        assert_eq!(answer, Answer::DONE);
        rig
    }

    /// A cabinet whose state is not sound.
    pub fn unsound() -> Rig {
        let mut rig = Rig::new(0, 500);
        rig.server.points[3].quality = 3;
        rig
    }

    /// Makes the call and tests the answer. A refusal leaves state, log and
    /// output as found, but for its packet; a call not refused leaves the
    /// state sound; bytes past what is written are kept.
    pub fn expect(
        &mut self,
        number: u32,
        written: usize,
        call: impl FnOnce(&mut Server, &mut [u8], &mut [u8]) -> Answer,
    ) -> Vec<u8> {
        let (server, log) = (self.server.clone(), self.log.clone());
        self.output.fill(FILL);
        let answer = call(&mut self.server, &mut self.log, &mut self.output);
        assert_eq!(answer, Answer { number, written });
        assert!(self.output[written..].iter().all(|&b| b == FILL));
        if number != 0 {
            assert_eq!(self.server, server);
            assert_eq!(self.log, log);
        } else {
            assert!(self.server.sound());
            let (from, to) = (server.length as usize, self.server.length as usize);
            assert_eq!(self.log[..from], log[..from]);
            assert_eq!(self.log[to..], log[to..]);
        }
        self.output[..written].to_vec()
    }

    pub fn request(&mut self, number: u32, written: usize, packet: &[u8]) -> Vec<u8> {
        self.expect(number, written, |s, log, out| {
            s.request(STATE_LEN, log, packet, out)
        })
    }

    pub fn execute(&mut self, packet: &[u8]) {
        self.request(0, 0, packet);
    }

    /// The same by the given program.
    pub fn execute_by(&mut self, program: Program, packet: &[u8]) {
        self.expect(0, 0, |s, log, out| {
            s.request_by(program, STATE_LEN, log, packet, out)
        });
    }

    /// The result of a call of client 1, fetched.
    pub fn result(&mut self, call: u32) -> Effect {
        let reply = parse_result(&self.fetch(0, RESULT_LEN, 1, call)).expect("a result");
        effect(reply.outcome, reply.value, reply.quality)
    }

    /// The last executed record of the log.
    pub fn last_record(&self) -> Executed {
        *executed_records(self.whole_log()).last().expect("a record")
    }

    /// The log up to its length.
    pub fn whole_log(&self) -> &[u8] {
        &self.log[..self.server.length as usize]
    }

    pub fn fetch(&mut self, number: u32, written: usize, client: u32, call: u32) -> Vec<u8> {
        self.expect(number, written, |s, log, out| {
            s.fetch(STATE_LEN, log, client, call, out)
        })
    }

    pub fn sync(&mut self, number: u32, mark: u64) {
        self.expect(number, 0, |s, log, _| s.sync(STATE_LEN, log, mark));
    }

    pub fn sync_all(&mut self) {
        self.sync(0, self.server.length);
    }

    pub fn notice(&mut self, number: u32, packet: &[u8]) {
        self.expect(number, 0, |s, log, _| s.notice(STATE_LEN, log, packet));
    }

    pub fn give(&mut self, number: u32, point: u32, destination: u32) {
        self.expect(number, 0, |s, log, _| {
            s.give(STATE_LEN, log, point, destination)
        });
    }

    pub fn image(&mut self, number: u32, written: usize, point: u32) -> Vec<u8> {
        self.expect(number, written, |s, log, out| {
            s.image(STATE_LEN, log, point, out)
        })
    }

    pub fn take(&mut self, number: u32, image: &[u8]) {
        self.expect(number, 0, |s, log, _| s.take(STATE_LEN, log, image));
    }

    /// The point and its records of one client, given to cabinet 1 in each program's form
    /// and taken there by that program, or refused if the qualities are later than it; the
    /// taker is as `check` says, and recovers from its log.
    pub fn move_to_each_program(&mut self, point: u32, records: usize, check: impl Fn(&mut Rig)) {
        self.give(0, point, 1);
        self.sync_all();
        let greatest = self.server.records.iter().map(|r| r.quality).max();
        for program in Program::ALL {
            let written = 48 + 8 + moved_len(program.form) * records;
            let image = self.expect(0, written, |s, log, out| {
                s.image_as(program.form, STATE_LEN, log, point, out)
            });
            let mut taker = Rig::new(1, 2000);
            let unknown = greatest > Some(program.rules.quality_max());
            taker.expect(u32::from(unknown), 0, |s, log, _| {
                s.take_by(program, STATE_LEN, log, &image)
            });
            if unknown {
                continue;
            }
            taker.sync_all();
            check(&mut taker);
            let mut recovered = Server::new();
            let answer = recovered.recover(STATE_LEN, taker.whole_log(), &plan_bytes());
            assert_eq!(answer, Answer::DONE);
            assert!(recovered == taker.server);
        }
    }

    pub fn receipt(&mut self, number: u32, written: usize, point: u32) -> Vec<u8> {
        self.expect(number, written, |s, log, out| {
            s.receipt(STATE_LEN, log, point, out)
        })
    }

    pub fn release(&mut self, number: u32, packet: &[u8]) {
        self.expect(number, 0, |s, log, _| s.release(STATE_LEN, log, packet));
    }

    /// Shortens the log slice so that `free` bytes are left.
    pub fn leave(&mut self, free: usize) {
        let to = self.server.length as usize + free;
        self.log.resize(to, FILL);
    }

    /// Adds known clients from 1000 on, until there are `count`.
    pub fn fill_clients(&mut self, count: usize) {
        for client in 1000.. {
            if self.server.clients.len() == count {
                return;
            }
            self.execute(&read(client, 1, 31));
        }
    }
}

/// The executed records of a log that is whole.
pub fn executed_records(log: &[u8]) -> Vec<Executed> {
    let (mut at, mut records) = (HEAD_LEN, Vec::new());
    while let Parsed::Whole(record, end) = parse_record(log, at) {
        if let Record::Executed(r) = record {
            records.push(r);
        }
        at = end;
    }
    assert_eq!(at, log.len());
    records
}

pub fn request(op: Op, point: u8, client: u32, call: u32, argument: i32) -> Request {
    Request {
        op,
        point,
        client,
        call,
        done: call.saturating_sub(15).max(1),
        lease_end: 1000,
        argument,
    }
}

pub fn set(client: u32, call: u32, point: u8, value: i32) -> [u8; REQUEST_LEN] {
    write_request(&request(Op::Set, point, client, call, value))
}

pub fn read(client: u32, call: u32, point: u8) -> [u8; REQUEST_LEN] {
    write_request(&request(Op::Read, point, client, call, 0))
}

pub fn set_done(client: u32, call: u32, done: u32, point: u8, value: i32) -> [u8; REQUEST_LEN] {
    write_request(&Request {
        done,
        ..request(Op::Set, point, client, call, value)
    })
}

pub fn notice(client: u32, time: u32) -> [u8; 12] {
    write_notice(&Notice { client, time })
}

pub fn receipt(point: u8, cabinet: u8, move_number: u32) -> [u8; 8] {
    write_receipt(&Receipt {
        point,
        cabinet,
        move_number,
    })
}

pub fn head(point: u8, destination: u8, source: u8, move_number: u32) -> ImageHead {
    ImageHead {
        point,
        destination,
        source,
        move_number,
        heard: 0,
        value: 0,
        quality: 1,
    }
}

pub fn floor(client: u32, floor: u32) -> Floor {
    Floor { client, floor }
}

pub fn moved(client: u32, call: u32) -> Moved {
    Moved {
        client,
        call,
        argument: 7,
        value: 7,
        op: Op::Set,
        outcome: 0,
        quality: 0,
        time: 60,
    }
}

pub fn image(head: &ImageHead, floors: &[Floor], records: &[Moved]) -> Vec<u8> {
    image_as(Form::Timed, head, floors, records)
}

pub fn image_as(form: Form, head: &ImageHead, floors: &[Floor], records: &[Moved]) -> Vec<u8> {
    let mut bytes = vec![0; IMAGE_MAX];
    let len = write_image_as(
        form,
        head,
        floors.iter().copied(),
        records.iter().copied(),
        &mut bytes,
    );
    bytes.truncate(len);
    bytes
}

/// Floors and records of a longest image: 32 clients of 16 records.
pub fn longest_parts() -> (Vec<Floor>, Vec<Moved>) {
    let floors = (1..=32).map(|client| floor(client, 5));
    let of_client = |client| (5..=20).map(move |call| moved(client, call));
    (floors.collect(), (1..=32).flat_map(of_client).collect())
}

/// Cuts or lengthens the bytes, inserts or drops some, or changes one or two.
pub fn damage(random: &mut Random, bytes: &[u8]) -> Vec<u8> {
    let mut bytes = bytes.to_vec();
    let len = bytes.len() as u32;
    let at = random.below(len) as usize;
    let some: Vec<u8> = (0..=random.below(9))
        .map(|_| random.next_u32() as u8)
        .collect();
    match random.below(8) {
        0 => bytes.truncate(random.below(len + 1) as usize),
        1 => bytes.extend(some),
        2 => drop(bytes.splice(at..at, some)),
        3 => drop(bytes.drain(at..(at + some.len()).min(bytes.len()))),
        _ => {
            for _ in 0..=random.below(2) {
                let at = random.below(len) as usize;
                bytes[at] = match random.chance(50) {
                    true => random.below(8) as u8,
                    false => random.next_u32() as u8,
                };
            }
        }
    }
    bytes
}
