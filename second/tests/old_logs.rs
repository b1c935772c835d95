//! The logs and checkpoints in tests/logs of the repository, which earlier versions wrote:
//! they recover with the results and qualities of their time, and what is commanded then
//! goes by today's rules.

mod common;

use common::{effect, request, RANGE};
use second::answer::Answer;
use second::packet::{parse_result, write_request, Reply, RESULT_LEN};
use second::plan::{write_plan, Plan};
use second::rule::{Effect, Op};
use second::server::{Hold, Server, STATE_LEN};
use std::fs;
use std::path::Path;

const FOLDERS: [&str; 4] = ["first", "second", "third", "fourth"];
/// The client of the old commands, and one of new ones.
const OLD: u32 = 1;
const NEW: u32 = 9;

fn file(folder: &str, name: &str) -> Option<Vec<u8>> {
    let logs = Path::new(env!("CARGO_MANIFEST_DIR")).join("../tests/logs");
    fs::read(logs.join(folder).join(name)).ok()
}

/// A server recovered from its files.
struct Stored {
    server: Server,
    checkpoint: Option<Vec<u8>>,
    log: Vec<u8>,
}

impl Stored {
    fn load(folder: &str, number: usize) -> Stored {
        let name = |kind: &str| format!("server{number}.{kind}");
        let mut stored = Stored {
            server: Server::new(),
            checkpoint: file(folder, &name("checkpoint")),
            log: file(folder, &name("log")).expect("a log"),
        };
        let length = stored.log.len();
        stored.server = stored.recovered(length);
        assert_eq!(stored.server.length, length as u64);
        stored.log.resize(length + 1000, 0);
        stored
    }

    fn recovered(&self, length: usize) -> Server {
        let (mut server, log) = (Server::new(), &self.log[..length]);
        let answer = match &self.checkpoint {
            Some(checkpoint) => server.recover_checkpoint(STATE_LEN, checkpoint, log),
            None => server.recover(STATE_LEN, log, &write_plan(&Plan::uniform(RANGE))),
        };
        assert_eq!(answer, Answer::DONE);
        server
    }

    fn result(&self, client: u32, call: u32) -> Option<Reply> {
        let mut out = [0; RESULT_LEN];
        let answer = (self.server).fetch(STATE_LEN, &self.log, client, call, &mut out);
        parse_result(&out[..answer.written])
    }

    /// The result of a new command, once it is synced.
    fn execute(&mut self, call: u32, point: u8, (op, argument): (Op, i32)) -> Effect {
        let packet = write_request(&request(op, point, NEW, call, argument));
        let mut out = [0; RESULT_LEN];
        let answer = (self.server).request(STATE_LEN, &mut self.log, &packet, &mut out);
        assert_eq!(answer, Answer::DONE);
        let mark = self.server.length;
        assert_eq!(self.server.sync(STATE_LEN, &self.log, mark), Answer::DONE);
        let reply = self.result(NEW, call).expect("a result");
        effect(reply.outcome, reply.value, reply.quality)
    }
}

/// What the servers hold, in the words of the file `results`.
fn results(servers: &[Stored; 2]) -> String {
    let mut text = String::new();
    for (i, stored) in servers.iter().enumerate() {
        for r in (1..=16).filter_map(|call| stored.result(OLD, call)) {
            let time = match r.time {
                0 => String::new(),
                time => format!(" {time}"),
            };
            let (call, outcome, value, quality) = (r.call, r.outcome, r.value, r.quality);
            text += &format!("{i} {OLD} {call} {outcome} {value} {quality}{time}\n");
        }
    }
    for point in [5, 6] {
        for (i, stored) in servers.iter().enumerate() {
            let p = stored.server.point(point);
            if p.hold == Hold::Held {
                let (value, quality) = (p.value, p.quality);
                text += &format!("point {point} at {i}: value {value}, quality {quality}\n");
            }
        }
    }
    text
}

#[test]
fn recovered_with_the_qualities_of_their_time() {
    for folder in FOLDERS {
        let servers = [0, 1].map(|number| Stored::load(folder, number));
        let written = file(folder, "results").expect("results");
        assert_eq!(results(&servers).as_bytes(), written, "{folder}");
        let by_hand = |s: &Stored| s.server.records.iter().any(|r| r.quality == 2);
        assert!(!servers.iter().any(by_hand));
    }
}

/// A step keeps the quality that the point has; a set and a part are by hand, and a step
/// keeps that.
#[test]
fn commanded_by_todays_rules() {
    let commands = [
        (Op::Read, 0),
        (Op::Step, -1),
        (Op::Set, 40),
        (Op::Step, 1),
        (Op::Set, 1001),
        (Op::Part, 5),
        (Op::Report, 7),
    ];
    for folder in FOLDERS {
        let mut stored = Stored::load(folder, 1);
        let point = stored.server.point(5);
        let (value, quality) = (point.value, point.quality);
        assert_eq!(quality, 0);
        let old = (1..=16).map(|call| stored.result(OLD, call));
        let old: Vec<Option<Reply>> = old.collect();
        let due = [
            effect(0, value, 0),
            effect(0, value - 1, 0),
            effect(0, 40, 2),
            effect(0, 41, 2),
            effect(1, 41, 2),
            effect(0, -94, 2),
            effect(0, 7, 0),
        ];
        for (call, (command, due)) in (1..).zip(commands.into_iter().zip(due)) {
            assert_eq!(stored.execute(call, 5, command), due, "{folder}");
            assert!(stored.recovered(stored.server.length as usize) == stored.server);
        }
        let still = (1..=16).map(|call| stored.result(OLD, call));
        assert!(still.eq(old));
    }
}
