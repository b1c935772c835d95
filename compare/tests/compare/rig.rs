//! Server 0 of both programs, called with whole or short slices and held to what is due.

use compare::kernel::Call;
use compare::pair::{Outputs, Pair};
use compare::states::BEHIND;
use second::answer::Answer;
use second::bytes::get_u32;
use second::image::IMAGE_MAX;
use second::packet::{write_notice, write_request, Notice, Request, REFUSAL_LEN, RESULT_LEN};
use second::plan::{write_plan, Entry, Plan};
use second::rule::Op;
use second::server::STATE_LEN;

pub const POINT: u8 = 5;
/// Of a log of server 0.
pub const HEAD: [u8; 8] = [0x57, 0x4C, 0x47, 0x31, 0, 0, 0, 0];

/// Points from 32 on are at home at server 1.
pub fn plan() -> Plan {
    let mut plan = Plan::uniform(Entry {
        low: -100,
        high: 1000,
        fallback: 0,
        home: 0,
    });
    plan.entries[32..].iter_mut().for_each(|e| e.home = 1);
    plan
}

pub fn set(client: u32, call: u32, point: u8) -> Call {
    command(client, call, point, (Op::Set, 40))
}

pub fn command(client: u32, call: u32, point: u8, (op, argument): (Op, i32)) -> Call {
    let request = Request {
        op,
        point,
        client,
        call,
        done: 1,
        lease_end: 1000,
        argument,
    };
    Call::Request(write_request(&request).to_vec())
}

/// Server 0 of both programs, with outputs that fit every call.
pub struct Rig {
    pub pair: Pair,
    outputs: Outputs,
}

impl Rig {
    pub fn new(room: usize) -> Rig {
        let mut rig = Rig {
            pair: Pair::new(vec![BEHIND; STATE_LEN], vec![0xA5; room], room),
            outputs: Outputs::new(IMAGE_MAX),
        };
        rig.run(Call::Found(write_plan(&plan()).to_vec(), 0), Answer::DONE);
        rig
    }

    /// It has heard this time.
    pub fn heard(time: u32) -> Rig {
        let mut rig = Rig::new(20_000);
        rig.hear(time);
        rig
    }

    pub fn hear(&mut self, time: u32) {
        let client = 9;
        self.run(set(client, 1, 0), Answer::DONE);
        let notice = write_notice(&Notice { client, time });
        self.run(Call::Notice(notice.to_vec()), Answer::DONE);
    }

    /// The call on both sides; what it writes.
    pub fn run(&mut self, call: Call, due: Answer) -> Vec<u8> {
        let (log, out) = (self.pair.room, IMAGE_MAX);
        self.lent(call, log, out, due)
    }

    /// The same with so much of log and output.
    pub fn lent(&mut self, call: Call, log: usize, out: usize, due: Answer) -> Vec<u8> {
        let mut lent = self.pair.whole(&self.outputs);
        (lent.log, lent.out) = (log, out);
        let answer = self.pair.call(&call, &lent, &mut self.outputs);
        assert_eq!(answer, due, "{call:02x?}");
        self.outputs.written(answer).to_vec()
    }

    pub fn sync(&mut self) {
        self.run(Call::Sync(self.pair.server.length), Answer::DONE);
    }

    pub fn result(&mut self, client: u32, call: u32) -> Vec<u8> {
        self.run(Call::Fetch(client, call), Answer::wrote(RESULT_LEN))
    }

    pub fn time(&mut self, client: u32, call: u32) -> u32 {
        let result = self.result(client, call);
        assert_eq!(result[0], 7);
        get_u32(&result, 16)
    }

    /// The bytes are the log now; recovery from them is answered so.
    pub fn recover(&mut self, log: &[u8], number: u32) {
        for to in [&mut self.pair.log, &mut self.pair.server_log] {
            to[..log.len()].copy_from_slice(log);
        }
        let due = Answer { number, written: 0 };
        let call = Call::Recover(write_plan(&plan()).to_vec());
        self.lent(call, log.len(), 0, due);
    }

    /// Start and end of the bytes that hold a completion record, and their source.
    pub fn shown(&self, cp: &[u8], id: (u32, u32)) -> (u32, usize, usize) {
        let place = self.pair.inspect(STATE_LEN, cp, &self.pair.log, id);
        assert_eq!(place.number, 0, "{id:?}");
        (place.source, place.start, place.end)
    }
}

pub fn refused(number: u32) -> Answer {
    let written = if (3..=9).contains(&number) {
        REFUSAL_LEN
    } else {
        0
    };
    Answer { number, written }
}
