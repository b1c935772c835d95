//! Request 8, the dispatcher above a server. In lockstep with the second program over random
//! calls, every field of the struct compared; then from structs that no call made, held to what
//! is due by their fields; and the struct itself, written out.

use crate::kernel::spoil;
use crate::rig::{plan, refused, Rig, POINT};
use compare::dispatcher::{self, Dispatcher, EnqueueReply, Waiting, PLACES};
use compare::inputs;
use compare::kernel::{request, Call};
use compare::pair::{Lent, Outputs, Pair};
use compare::states::{self, BEHIND};
use compare::tally::{runs, seed, Tally};
use second::answer::{Answer, Refusal};
use second::dispatcher::Dispatcher as Second;
use second::packet::{
    parse_packet, parse_request, write_notice, write_request, Notice, Packet, Request, RESULT_LEN,
};
use second::plan::write_plan;
use second::random::Random;
use second::rule::Op;
use second::server::STATE_LEN;

/// At home at server 1.
const ELSEWHERE: u8 = 40;
const OUT_LEN: usize = RESULT_LEN + 8;

/// Server 0 of both programs, just founded, with so much space for its log.
fn founded(room: usize, outputs: &mut Outputs) -> Pair {
    let mut pair = Pair::new(vec![BEHIND; STATE_LEN], vec![0xA5; room], room);
    let found = Call::Found(write_plan(&plan()).to_vec(), 0);
    assert_eq!(pair.run(&found, outputs), Answer::DONE);
    pair
}

/// All slices whole, or now and then one too short.
fn lent(random: &mut Random, pair: &Pair, outputs: &Outputs) -> Lent {
    let mut lent = pair.whole(outputs);
    match random.below(40) {
        0 => lent.state = random.below(STATE_LEN as u32) as usize,
        1 => lent.log = random.below(pair.length() as u32) as usize,
        2 => lent.out = random.below(RESULT_LEN as u32) as usize,
        3 => (lent.state, lent.log, lent.out) = (0, 0, 0),
        4..=8 => lent.out = RESULT_LEN,
        _ => {}
    }
    lent
}

fn is_short(lent: &Lent, pair: &Pair) -> bool {
    lent.state < STATE_LEN || lent.log < pair.length() || lent.out < RESULT_LEN
}

// ---- lockstep

const LOCKSTEP: [&str; 33] = [
    "enqueue: 0",
    "enqueue: 0, the last place",
    "enqueue: 0, a client served before",
    "enqueue: 1, damaged",
    "enqueue: 1, another kind",
    "enqueue: 1, full",
    "enqueue: 8",
    "enqueue: 21",
    "enqueue: 21, full",
    "enqueue: 21, the same packet",
    "serve: 17",
    "serve: 17, short slice",
    "serve: 17, unsound state",
    "serve: executed",
    "serve: executed, 32 waiting",
    "serve: result",
    "serve: 2",
    "serve: 2, 32 waiting",
    "serve: 3",
    "serve: 4",
    "serve: 5",
    "serve: 6",
    "serve: 7",
    "serve: 8",
    "serve: 9",
    "serve: 19, short log",
    "serve: 19, unsound state",
    "a client's last of 32 servings",
    "host: a new dispatcher",
    "host: an old copy",
    "straight to the server",
    "sync",
    "notice",
];

/// A server of both programs and the dispatchers above it.
struct Reach {
    random: Random,
    pair: Pair,
    outputs: Outputs,
    have: Dispatcher,
    want: Second,
    copy: (Dispatcher, Second),
    /// How often a request comes, to a serving; percent.
    rush: u32,
    /// Clients from 1 on; each has its latest call.
    calls: Vec<u32>,
    served: Vec<bool>,
    sent: Vec<Vec<u8>>,
    /// Servings since the request of each place came.
    waits: Vec<u32>,
    copied_waits: Vec<u32>,
}

impl Reach {
    fn new(seed: u64) -> Reach {
        let mut random = Random::new(seed);
        let mut outputs = Outputs::new(OUT_LEN);
        let room = match random.below(4) {
            0 => 40 + random.below(400) as usize,
            _ => *random.pick(&[2000, 20_000]),
        };
        let clients = 1 + random.below(60) as usize;
        let reach = Reach {
            pair: founded(room, &mut outputs),
            outputs,
            have: Dispatcher::new(),
            want: Second::new(),
            copy: (Dispatcher::new(), Second::new()),
            rush: 60,
            calls: vec![0; clients],
            served: vec![false; clients],
            sent: Vec::new(),
            waits: Vec::new(),
            copied_waits: Vec::new(),
            random,
        };
        reach.compare("new");
        reach
    }

    fn compare(&self, after: &str) {
        assert_eq!(self.have, dispatcher::fields(&self.want), "after {after}");
        assert_eq!(self.have.count as usize, self.waits.len(), "after {after}");
    }

    // ---- packets

    /// A new call of a client, or one of its last sixteen again, as another command at times.
    fn fresh(&mut self) -> Vec<u8> {
        let random = &mut self.random;
        let client = random.below(self.calls.len() as u32);
        let latest = &mut self.calls[client as usize];
        let call = match random.chance(60) {
            true => *latest + 1,
            false => latest.saturating_sub(random.below(16)).max(1),
        };
        *latest = call.max(*latest);
        let (op, argument) = inputs::op_argument(random);
        let heard = self.pair.server.heard;
        let packet = write_request(&Request {
            op,
            point: *random.pick(&[POINT, POINT, 6, ELSEWHERE]),
            client: client + 1,
            call,
            done: (call - random.below(16).min(call - 1)).max(call.saturating_sub(15)),
            lease_end: heard.saturating_add(*random.pick(&[0, 1, 500, 500, 500])),
            argument,
        });
        self.sent.push(packet.to_vec());
        packet.to_vec()
    }

    fn packet(&mut self) -> Vec<u8> {
        let mut packet = match self.random.below(20) {
            0 => {
                let kind = 2 + self.random.below(6);
                let packet = inputs::packet_of_kind(&mut self.random, kind);
                inputs::packet_bytes(&packet, kind)
            }
            1..=7 if !self.sent.is_empty() => self.random.pick(&self.sent).clone(),
            _ => self.fresh(),
        };
        if self.random.chance(6) {
            inputs::damage(&mut self.random, &mut packet);
        }
        packet
    }

    // ---- calls

    fn enqueue(&mut self, tally: &mut Tally) {
        let packet = self.packet();
        let before = self.have;
        let reply = self.have.enqueue(&packet);
        let number = dispatcher::enqueue(&mut self.want, &packet);
        assert_eq!(reply.number, number, "{packet:02x?}, {before:02x?}");
        let due = before.due_enqueue(&packet);
        assert_eq!(reply, due, "{packet:02x?}, {before:02x?}");
        self.have = reply.dispatcher;
        if number == 0 {
            self.waits.push(0);
        } else {
            assert_eq!(self.have, before, "refused: {packet:02x?}");
        }
        self.compare("enqueue");
        tally.meet(&self.class(&packet, number, &before));
    }

    fn class(&self, packet: &[u8], number: u32, before: &Dispatcher) -> String {
        let full = before.count as usize == PLACES;
        let request = parse_request(packet);
        let served = request.is_some_and(|r| self.served[r.client as usize % self.served.len()]);
        let same = request.is_some_and(|r| before.waiting().contains(&Waiting::of(&r)));
        let cause = match (number, parse_packet(packet)) {
            (0, _) if self.have.count as usize == PLACES => ", the last place",
            (0, _) if served => ", a client served before",
            (1, _) if full => ", full",
            (1, Some(_)) => ", another kind",
            (1, None) => ", damaged",
            (21, _) if full => ", full",
            (21, _) if same => ", the same packet",
            _ => "",
        };
        format!("enqueue: {number}{cause}")
    }

    fn serve(&mut self, tally: &mut Tally) {
        let lent = lent(&mut self.random, &self.pair, &self.outputs);
        let (short, before) = (is_short(&lent, &self.pair), self.have);
        let want = &mut self.want;
        let (after, answer) =
            (self.pair).serve(&before, &lent, &mut self.outputs, |server, n, log, out| {
                want.serve(server, n, log, out)
            });
        self.have = after;
        self.pass(&before, tally);
        self.compare("serve");
        let full = before.count as usize == PLACES;
        let class = match (answer.number, answer.written) {
            (17, _) if short => "serve: 17, short slice".to_string(),
            (0, 0) if full => "serve: executed, 32 waiting".to_string(),
            (0, 0) => "serve: executed".to_string(),
            (0, _) => "serve: result".to_string(),
            (2, _) if full => "serve: 2, 32 waiting".to_string(),
            (19, _) => "serve: 19, short log".to_string(),
            (number, _) => format!("serve: {number}"),
        };
        tally.meet(&class);
    }

    /// A serving of one who waited: within 32.
    fn pass(&mut self, before: &Dispatcher, tally: &mut Tally) {
        let Some(first) = before.waiting().first() else {
            return assert_eq!(self.have, *before, "nobody waiting");
        };
        let served = first.client as usize % self.served.len();
        self.served[served] = true;
        self.waits.iter_mut().for_each(|waited| *waited += 1);
        let waited = self.waits.remove(0);
        assert!(waited <= PLACES as u32, "{waited} servings");
        if waited == PLACES as u32 {
            tally.meet("a client's last of 32 servings");
        }
    }

    fn serve_unsound(&mut self, tally: &mut Tally) {
        let mut state = self.pair.state.clone();
        spoil(&mut self.random, &mut state);
        let before = self.have;
        self.have = (self.pair).refuses_serving(&before, &mut state, &mut self.outputs);
        let answer = self.want.serve_by(|_| Answer::refused(Refusal::NotSound));
        self.pass(&before, tally);
        self.compare("serve on an unsound state");
        tally.meet(&format!("serve: {}, unsound state", answer.number));
    }

    fn sync(&mut self, tally: &mut Tally) {
        let call = Call::Sync(self.pair.server.length);
        self.pair.run(&call, &mut self.outputs);
        tally.meet("sync");
    }

    /// A little time is heard.
    fn notice(&mut self, tally: &mut Tally) {
        let client = 1 + self.random.below(self.calls.len() as u32);
        let time = self.pair.server.heard + self.random.below(400);
        let notice = write_notice(&Notice { client, time }).to_vec();
        self.pair.run(&Call::Notice(notice), &mut self.outputs);
        tally.meet("notice");
    }

    fn straight(&mut self, tally: &mut Tally) {
        let packet = self.packet();
        self.pair.run(&Call::Request(packet), &mut self.outputs);
        self.compare("a request past the dispatcher");
        tally.meet("straight to the server");
    }

    /// The host loses the dispatcher, puts a copy aside, or goes on with it.
    fn host(&mut self, tally: &mut Tally) {
        match self.random.below(4) {
            0 => {
                (self.have, self.want) = (Dispatcher::new(), Second::new());
                self.waits.clear();
                tally.meet("host: a new dispatcher");
            }
            1 => {
                (self.have, self.want) = self.copy.clone();
                self.waits.clone_from(&self.copied_waits);
                tally.meet("host: an old copy");
            }
            _ => {
                self.copy = (self.have, self.want.clone());
                self.copied_waits.clone_from(&self.waits);
            }
        }
    }

    fn step(&mut self, tally: &mut Tally) {
        match self.random.below(1000) {
            0..=899 if self.random.chance(self.rush) => self.enqueue(tally),
            0..=899 => self.serve(tally),
            900..=959 => self.sync(tally),
            960..=969 => self.notice(tally),
            970..=979 => self.straight(tally),
            980..=984 => self.serve_unsound(tally),
            985..=987 => self.host(tally),
            // all who wait, and nobody
            988 => (0..=self.have.count).for_each(|_| self.serve(tally)),
            _ => self.rush = *self.random.pick(&[20, 50, 60, 90]),
        }
    }
}

#[test]
fn lockstep() {
    let mut tally = Tally::new("dispatcher", &LOCKSTEP);
    let mut seeds = Random::new(seed());
    let mut left = runs() / 2;
    while left > 0 {
        let mut reach = Reach::new(seeds.next_u64());
        let steps = (*seeds.pick(&[60, 200, 600, 1500])).min(left);
        for _ in 0..steps {
            reach.step(&mut tally);
        }
        left -= steps;
    }
    tally.finish();
}

// ---- structs that no call made

const ANY_STRUCT: [&str; 19] = [
    "enqueue: 0",
    "enqueue: 0, the client in a place that does not wait",
    "enqueue: 0, among places not well-formed",
    "enqueue: 1",
    "enqueue: 1, count over 32",
    "enqueue: 8",
    "enqueue: 8, count over 32",
    "enqueue: 21",
    "enqueue: 21, count over 32",
    "serve: 17",
    "serve: 17, short slice",
    "serve: well-formed",
    "serve: well-formed, count over 32",
    "serve: 1",
    "serve: 1, count over 32",
    "serve: 2",
    "serve: 19",
    "serve: 2 or 19, place not well-formed",
    "serve: unsound state",
];

/// A request, any numbers, or 0; the client often the same as another place's.
fn any_place(random: &mut Random) -> Waiting {
    let padding = [random.next_u32() as u8, random.next_u32() as u8];
    let mut place = match random.below(8) {
        0 => Waiting::default(),
        1 | 2 => Waiting {
            client: inputs::number(random),
            call: inputs::number(random),
            op: inputs::byte(random),
            point: inputs::byte(random),
            padding,
            argument: inputs::number(random),
            done: inputs::number(random),
            lease: inputs::number(random),
        },
        _ => match inputs::packet_of_kind(random, 1) {
            Packet::Request(request) => Waiting::of(&request),
            other => unreachable!("{other:?}"),
        },
    };
    if random.chance(20) {
        place.client = 1 + random.below(40);
    }
    // one field of a request off its range, or at its end
    match random.below(40) {
        0 => place.op = 6,
        1 => place.point = 64,
        2 => place.done = place.call.wrapping_sub(15 + random.below(2)),
        3 => place.done = 0,
        4 => place.argument = *random.pick(&[0, 1 << 31, u32::MAX, (1 << 31) + 1001]),
        _ => {}
    }
    Waiting { padding, ..place }
}

fn any_struct(random: &mut Random) -> Dispatcher {
    let count = match random.below(12) {
        0 => 0,
        1 | 2 => PLACES as u32,
        3 => PLACES as u32 + 1,
        4 => inputs::number(random),
        _ => random.below(PLACES as u32 + 1),
    };
    let mut requests = [Waiting::default(); PLACES];
    requests.fill_with(|| any_place(random));
    Dispatcher { count, requests }
}

/// A request of a client of any place, of a new one, or damaged bytes.
fn any_packet(random: &mut Random, dispatcher: &Dispatcher) -> Vec<u8> {
    let place = match random.below(8) {
        0..=4 => *random.pick(&dispatcher.requests),
        _ => any_place(random),
    };
    let mut packet = match inputs::packet_of_kind(random, 1) {
        Packet::Request(request) => write_request(&Request {
            client: place.client.max(1),
            ..request
        })
        .to_vec(),
        other => unreachable!("{other:?}"),
    };
    if random.chance(10) {
        inputs::damage(random, &mut packet);
    }
    packet
}

struct AnyStruct {
    random: Random,
    pair: Pair,
    outputs: Outputs,
    have: Dispatcher,
}

impl AnyStruct {
    fn new(seed: u64) -> AnyStruct {
        let mut random = Random::new(seed);
        let mut outputs = Outputs::new(OUT_LEN);
        let room = *random.pick(&[60, 2000]);
        AnyStruct {
            pair: founded(room, &mut outputs),
            outputs,
            have: any_struct(&mut random),
            random,
        }
    }

    fn enqueue(&mut self, tally: &mut Tally) {
        let packet = any_packet(&mut self.random, &self.have);
        let before = self.have;
        let reply = before.enqueue(&packet);
        let due = before.due_enqueue(&packet);
        assert_eq!(reply, due, "{packet:02x?}, {before:02x?}");
        self.have = reply.dispatcher;
        let client = parse_request(&packet).map(|r| r.client);
        let behind = &before.requests[before.waiting().len()..];
        let stands = behind.iter().any(|w| Some(w.client) == client);
        let well_formed = |w: &Waiting| parse_request(&w.packet()).is_some();
        let cause = match reply.number {
            0 if stands => ", the client in a place that does not wait",
            0 if !before.waiting().iter().all(well_formed) => ", among places not well-formed",
            1 | 8 | 21 if before.count as usize > PLACES => ", count over 32",
            _ => "",
        };
        tally.meet(&format!("enqueue: {}{cause}", reply.number));
    }

    fn serve(&mut self, tally: &mut Tally) {
        let lent = lent(&mut self.random, &self.pair, &self.outputs);
        let (short, before) = (is_short(&lent, &self.pair), self.have);
        let due = before.due_serve();
        let (after, answer) = (self.pair).serve(
            &before,
            &lent,
            &mut self.outputs,
            |server, n, log, out| match &due {
                Some((packet, _)) => server.request(n, log, packet, out),
                None => Answer::refused(Refusal::Unknown),
            },
        );
        let left = due.map_or(before, |(_, after)| after);
        assert_eq!(after, left, "{before:02x?}");
        self.have = after;
        let formed = due.is_some_and(|(packet, _)| parse_request(&packet).is_some());
        let over = match before.count as usize > PLACES {
            true => ", count over 32",
            false => "",
        };
        let class = match (answer.number, due) {
            (17, None) if short => "serve: 17, short slice".to_string(),
            (17, None) => "serve: 17".to_string(),
            (2 | 19, _) if !formed => "serve: 2 or 19, place not well-formed".to_string(),
            (1, _) => format!("serve: 1{over}"),
            (2 | 19, _) => format!("serve: {}", answer.number),
            _ => format!("serve: well-formed{over}"),
        };
        tally.meet(&class);
    }

    fn serve_unsound(&mut self, tally: &mut Tally) {
        let mut state = self.pair.state.clone();
        spoil(&mut self.random, &mut state);
        let before = self.have;
        self.have = (self.pair).refuses_serving(&before, &mut state, &mut self.outputs);
        let left = before.due_serve().map_or(before, |(_, after)| after);
        assert_eq!(self.have, left, "{before:02x?}");
        tally.meet("serve: unsound state");
    }

    fn step(&mut self, tally: &mut Tally) {
        match self.random.below(100) {
            0..=49 => self.enqueue(tally),
            50..=96 => self.serve(tally),
            _ => self.serve_unsound(tally),
        }
    }
}

#[test]
fn any_structs() {
    let mut tally = Tally::new("dispatcher, any struct", &ANY_STRUCT);
    let mut seeds = Random::new(seed());
    let mut left = runs() / 4;
    while left > 0 {
        let mut any = AnyStruct::new(seeds.next_u64());
        let steps = (*seeds.pick(&[1, 4, 20])).min(left);
        for _ in 0..steps {
            any.step(&mut tally);
        }
        left -= steps;
    }
    tally.finish();
}

// ---- malformed

const MALFORMED: [&str; 4] = [
    "request: 3 or 4, enqueue: 0",
    "request: 1, enqueue: 1, a request",
    "request: 1, enqueue: 1, another kind",
    "request: 1, enqueue: 1, bytes",
];

/// Enqueue answers 1 for the packets for which Request does. The server has heard the last time,
/// so that every well-formed request is refused and changes nothing.
#[test]
fn malformed_as_at_request() {
    let mut tally = Tally::new("dispatcher, malformed", &MALFORMED);
    let mut random = Random::new(seed());
    let mut server = founded(100, &mut Outputs::new(0)).server;
    server.heard = u32::MAX;
    let (mut state, mut log) = (states::buffer(&server), [0; 100]);
    let mut packet = Vec::new();
    for _ in 0..runs() / 4 {
        let kind = match random.chance(70) {
            true => 1,
            false => 1 + random.below(7),
        };
        match random.below(8) {
            0 => inputs::string(&mut random, 40, &mut packet),
            _ => packet = inputs::packet_bytes(&inputs::packet_of_kind(&mut random, kind), kind),
        }
        if random.chance(60) {
            inputs::damage(&mut random, &mut packet);
        }
        let answer = request(&mut state, &mut log, &packet, &mut [0; RESULT_LEN]);
        let reply = Dispatcher::new().enqueue(&packet);
        let class = match (answer.number, reply.number) {
            (3 | 4, 0) => MALFORMED[0],
            (1, 1) if packet.first() == Some(&1) => MALFORMED[1],
            (1, 1) if parse_packet(&packet).is_some() => MALFORMED[2],
            (1, 1) => MALFORMED[3],
            numbers => panic!("{numbers:?}: {packet:02x?}"),
        };
        tally.meet(class);
    }
    tally.finish();
}

// ---- written out

/// The first call of a client.
fn read(client: u32) -> Request {
    Request {
        op: Op::Read,
        point: POINT,
        client,
        call: 1,
        done: 1,
        lease_end: 1000,
        argument: 0,
    }
}

/// A refusal leaves all as it was.
fn enqueued(dispatcher: Dispatcher, request: &Request, number: u32) -> Dispatcher {
    let reply = dispatcher.enqueue(&write_request(request));
    assert_eq!(reply.number, number, "{request:?}");
    if number != 0 {
        assert_eq!(reply.dispatcher, dispatcher);
    }
    reply.dispatcher
}

/// The bytes of the struct in memory.
fn bytes(dispatcher: &Dispatcher) -> [u8; 772] {
    // Safe: it has that size, and every byte of it is a field's.
    unsafe { std::mem::transmute(*dispatcher) }
}

#[test]
fn the_struct_byte_by_byte() {
    let none = Dispatcher::new();
    assert_eq!(none, Dispatcher::default());
    assert_eq!(none.count, 0);
    let packet = [
        1, 2, 5, 0, 0x44, 0x33, 0x22, 0x11, 20, 0, 0, 0, 7, 0, 0, 0, 0xE8, 3, 0, 0, 0xFE, 0xFF,
        0xFF, 0xFF,
    ];
    let EnqueueReply { dispatcher, number } = none.enqueue(&packet);
    assert_eq!(number, 0);
    let b = bytes(&dispatcher);
    assert_eq!(b[..4], [1, 0, 0, 0]);
    assert_eq!(b[4..12], [0x44, 0x33, 0x22, 0x11, 20, 0, 0, 0]);
    assert_eq!(b[12..14], [2, 5]);
    // -2 as 2^31 - 2
    assert_eq!(b[16..20], [0xFE, 0xFF, 0xFF, 0x7F]);
    assert_eq!(b[20..28], [7, 0, 0, 0, 0xE8, 3, 0, 0]);
    assert_eq!(dispatcher.requests[1..], none.requests[1..]);
    assert_eq!(dispatcher.requests[0].packet(), packet);
    // Handed over as those bytes, and nothing is left of it.
    let mut rig = Rig::new(1000);
    let reply = dispatcher.serve(&mut rig.pair.state, &mut rig.pair.log, &mut [0; RESULT_LEN]);
    assert_eq!((reply.answer, reply.dispatcher), (0, none));
    let record = &rig.pair.log[8..40];
    assert_eq!(record[4..12], packet[4..12]);
    assert_eq!(record[16..20], packet[20..24]);
}

/// The places move one to the front, used or not, and the last one becomes 0; counts over 32
/// are 32.
#[test]
fn places_move_to_the_front() {
    let mut full = Dispatcher::default();
    for (place, client) in full.requests.iter_mut().zip(1..) {
        *place = Waiting::of(&read(client));
        place.padding = [0xA5; 2];
    }
    for (count, left) in [(0, 0), (1, 0), (31, 30), (32, 31), (33, 31), (u32::MAX, 31)] {
        let before = Dispatcher { count, ..full };
        let mut rig = Rig::new(1000);
        let reply = before.serve(&mut rig.pair.state, &mut rig.pair.log, &mut [0; RESULT_LEN]);
        if count == 0 {
            let nobody = Answer::refused(Refusal::Unknown);
            assert_eq!((reply.answer(), reply.dispatcher), (nobody, before));
            continue;
        }
        let after = reply.dispatcher;
        assert_eq!((reply.answer, after.count), (0, left));
        assert_eq!(after.requests[..31], full.requests[1..]);
        assert_eq!(after.requests[31], Waiting::default());
    }
}

/// With a count over 32 as with 32. Only those that wait count, and of them the client number.
#[test]
fn refusals_by_the_count() {
    let mut full = Dispatcher::default();
    for (place, client) in full.requests.iter_mut().zip(1..) {
        *place = Waiting::of(&read(client));
    }
    let malformed = |client| Request {
        point: 64,
        ..read(client)
    };
    for count in [32, 33, u32::MAX] {
        let full = Dispatcher { count, ..full };
        enqueued(full, &read(33), 8);
        enqueued(full, &read(32), 21);
        enqueued(full, &malformed(32), 1);
        enqueued(full, &malformed(33), 1);
    }
    let some = Dispatcher { count: 4, ..full };
    enqueued(some, &read(4), 21);
    let after = enqueued(some, &read(5), 0);
    assert_eq!((after.count, after.requests[4].client), (5, 5));
    assert_eq!(after.requests[5..], full.requests[5..]);
}

/// A place that is no request is handed over as one: 2 and 19, then 1, and it is free.
#[test]
fn a_place_not_well_formed() {
    let mut dispatcher = Dispatcher {
        count: 3,
        ..Dispatcher::default()
    };
    dispatcher.requests[0].op = 9;
    let mut rig = Rig::new(1000);
    let (state, log) = (&mut rig.pair.state, &mut rig.pair.log);
    let before = state.clone();
    let mut out = [0xA5; RESULT_LEN];
    for (state_len, log_len, out_len, number) in [
        (STATE_LEN, 1000, RESULT_LEN, 1),
        (STATE_LEN - 1, 1000, RESULT_LEN, 2),
        (STATE_LEN, 1000, RESULT_LEN - 1, 2),
        (STATE_LEN, 7, RESULT_LEN, 19),
    ] {
        let reply = dispatcher.serve(
            &mut state[..state_len],
            &mut log[..log_len],
            &mut out[..out_len],
        );
        assert_eq!(reply.answer(), refused(number));
        assert_eq!(reply.dispatcher.count, 2);
        assert_eq!(reply.dispatcher.requests, [Waiting::default(); PLACES]);
        assert!(*state == before && out == [0xA5; RESULT_LEN]);
    }
}

/// A request in each place is handed over by the serving of its place, while all others send
/// after each serving what they can.
#[test]
fn within_32_servings() {
    let all = (1..=32).fold(Dispatcher::new(), |d, client| enqueued(d, &read(client), 0));
    for ours in 1..=32 {
        let mut dispatcher = all;
        let mut rig = Rig::new(4000);
        for serving in 1..=ours {
            assert!(dispatcher.waiting().iter().any(|w| w.client == ours));
            let first = dispatcher.waiting()[0].client;
            assert_eq!(first == ours, serving == ours);
            let (state, log) = (&mut rig.pair.state, &mut rig.pair.log);
            dispatcher = (dispatcher.serve(state, log, &mut [0; RESULT_LEN])).dispatcher;
            for client in (1..=60).filter(|&client| client != ours) {
                let packet = write_request(&read(client));
                dispatcher = dispatcher.enqueue(&packet).dispatcher;
            }
            assert_eq!(dispatcher.count, 32);
        }
    }
}
