//! Packets. A string goes to every call that reads one, and is refused with 1
//! exactly where it is no packet of that call; where it is one, the call suits it, so
//! that its fields show. Packets written: those of the calls that make them.

use compare::inputs;
use compare::kernel::Call;
use compare::pair::{Outputs, Pair, MALFORMED};
use compare::proved::{self, LeaseManager};
use compare::states::{self, LOG_LEN};
use compare::tally::{runs, seed, Tally};
use compare::{inputs::Tables, other};
use second::bytes::{all_zero, get_i32, get_u32};
use second::client::Client;
use second::leases;
use second::packet::{write_grant, write_request, Grant, Packet, Request, RESULT_LEN};
use second::random::Random;
use second::server::Server;

const CLASSES: [&str; 55] = [
    "request",
    "result",
    "untimed result",
    "refusal",
    "receipt",
    "notice",
    "grant",
    "empty",
    "kind 0",
    "kind over 7",
    "request: length",
    "request: zero byte",
    "request: op",
    "request: point",
    "request: client",
    "request: done 0",
    "request: call under done",
    "request: call over done + 15",
    "request: argument of read",
    "request: argument of fault",
    "request: argument of part",
    "result: length",
    "untimed result: length",
    "result: outcome",
    "result: point",
    "result: quality",
    "result: client",
    "result: call",
    "refusal: length",
    "refusal: zero byte",
    "refusal: number under 3",
    "refusal: number over 9",
    "refusal: point",
    "refusal: client",
    "refusal: call",
    "receipt: length",
    "receipt: zero byte",
    "receipt: point",
    "receipt: cabinet",
    "notice: length",
    "notice: zero byte",
    "notice: client",
    "grant: length",
    "grant: zero byte",
    "grant: client",
    "too long",
    "output too short",
    "request: executed",
    "receipt: released",
    "notice: gone",
    "result: received",
    "untimed result: received",
    "result: received, time above 0",
    "refusal: received",
    "grant: received",
];

/// What a string is, by the paper's words: a kind of packet, or its first fault.
fn class(b: &[u8]) -> &'static str {
    let Some(&kind) = b.first() else {
        return "empty";
    };
    if b.len() > 24 {
        return "too long";
    }
    match kind {
        0 => "kind 0",
        1 if b.len() != 24 => "request: length",
        1 => request_class(b),
        2 if b.len() != 16 => "untimed result: length",
        2 => result_class(b, "untimed result"),
        3 if b.len() != 12 => "refusal: length",
        3 if b[3] != 0 => "refusal: zero byte",
        3 if b[1] < 3 => "refusal: number under 3",
        3 if b[1] > 9 => "refusal: number over 9",
        3 if b[2] > 63 => "refusal: point",
        3 if get_u32(b, 4) == 0 => "refusal: client",
        3 if get_u32(b, 8) == 0 => "refusal: call",
        3 => "refusal",
        4 if b.len() != 8 => "receipt: length",
        4 if b[3] != 0 => "receipt: zero byte",
        4 if b[1] > 63 => "receipt: point",
        4 if b[2] > 15 => "receipt: cabinet",
        4 => "receipt",
        5 if b.len() != 12 => "notice: length",
        5 if !all_zero(&b[1..4]) => "notice: zero byte",
        5 if get_u32(b, 4) == 0 => "notice: client",
        5 => "notice",
        6 if b.len() != 12 => "grant: length",
        6 if !all_zero(&b[1..4]) => "grant: zero byte",
        6 if get_u32(b, 4) == 0 => "grant: client",
        6 => "grant",
        7 if b.len() != 20 => "result: length",
        7 => result_class(b, "result"),
        _ => "kind over 7",
    }
}

fn request_class(b: &[u8]) -> &'static str {
    let (call, done) = (u64::from(get_u32(b, 8)), u64::from(get_u32(b, 12)));
    let argument = get_i32(b, 20);
    match b[1] {
        _ if b[3] != 0 => "request: zero byte",
        6.. => "request: op",
        _ if b[2] > 63 => "request: point",
        _ if get_u32(b, 4) == 0 => "request: client",
        _ if done == 0 => "request: done 0",
        _ if call < done => "request: call under done",
        _ if call > done + 15 => "request: call over done + 15",
        0 if argument != 0 => "request: argument of read",
        4 if argument != 0 => "request: argument of fault",
        5 if !(0..=1000).contains(&argument) => "request: argument of part",
        _ => "request",
    }
}

/// Any time will do.
fn result_class(b: &[u8], whole: &'static str) -> &'static str {
    match b {
        _ if b[1] > 4 => "result: outcome",
        _ if b[2] > 63 => "result: point",
        _ if b[3] > 2 => "result: quality",
        _ if get_u32(b, 4) == 0 => "result: client",
        _ if get_u32(b, 8) == 0 => "result: call",
        _ => whole,
    }
}

/// A damaged packet, a random string, or the packet as it is.
fn spoil(random: &mut Random, bytes: &mut Vec<u8>) {
    if random.chance(10) {
        return inputs::string(random, 40, bytes);
    }
    for _ in 0..random.below(3) {
        inputs::damage(random, bytes);
    }
}

/// A server that the packet suits, if it is one to a server: the point is held, or was
/// given by that move or the one before; the client is known, or may come.
fn server_for(random: &mut Random, base: &Server, packet: &Packet) -> Server {
    let server = states::grown(base.clone(), 10 + u64::from(random.below(40)));
    match packet {
        Packet::Request(p) => {
            let mut server = match random.chance(50) {
                true => states::knowing(server, p.client, p.done),
                false => server,
            };
            server.heard = p.lease_end.saturating_sub(random.below(3));
            server
        }
        Packet::Receipt(p) => {
            let given = p.move_number.saturating_sub(random.below(3)).max(1);
            states::giving(server, p.point, given)
        }
        Packet::Notice(p) => states::knowing(server, p.client, 1),
        _ => server,
    }
}

/// A client that the packet suits, if it is one to a client: its call is open.
fn client_for(random: &mut Random, packet: &Packet) -> Client {
    let (number, call, point, lease_end) = match packet {
        Packet::Result(p) => (p.client, p.call, p.point, 0),
        Packet::Refusal(p) => (p.client, p.call, p.point, 0),
        Packet::Grant(p) => (p.client, 1, 0, p.lease_end.saturating_sub(random.below(3))),
        _ => (inputs::at_least_1(random), 1, 0, 0),
    };
    let mut client = started(number, lease_end);
    (client.first, client.next) = (call, call);
    // not the greatest number, which no client issues
    let _ = client.issue(0, u32::from(point), 0);
    client
}

fn started(client: u32, lease_end: u32) -> Client {
    Client::start(&write_grant(&Grant { client, lease_end })).expect("a grant")
}

/// One server and one client of both programs.
struct Rig {
    random: Random,
    base: Server,
    pair: Pair,
    outputs: Outputs,
}

impl Rig {
    fn new() -> Rig {
        let mut random = Random::new(seed());
        let base = Self::base(&mut random);
        Rig {
            pair: Pair::of(base.clone(), 100),
            base,
            random,
            outputs: Outputs::new(RESULT_LEN + 4),
        }
    }

    /// All points at home.
    fn base(random: &mut Random) -> Server {
        let number = random.below(16) as u8;
        let mut plan = inputs::plan(random);
        for entry in &mut plan.entries {
            entry.home = number;
        }
        states::founded(&plan, number)
    }

    /// The string to the calls of a server: number 1 but for its own kind.
    fn serve(&mut self, bytes: &[u8], class: &str, tally: &mut Tally) {
        let calls = [
            (
                "request",
                Call::Request(bytes.to_vec()),
                "request: executed",
            ),
            (
                "receipt",
                Call::Release(bytes.to_vec()),
                "receipt: released",
            ),
            ("notice", Call::Notice(bytes.to_vec()), "notice: gone"),
        ];
        for (kind, call, done) in calls {
            let answer = self.pair.run(&call, &mut self.outputs);
            assert_eq!(
                answer.number == MALFORMED,
                class != kind,
                "{class}: {call:02x?}"
            );
            if answer.number == 0 {
                tally.meet(done);
            }
        }
    }

    /// The string to the calls of a client.
    fn receive(&mut self, client: Client, bytes: &[u8], class: &str, tally: &mut Tally) {
        let (start, (_, number)) = (proved::Client::start(bytes), other::start(bytes));
        assert_eq!(start.number, number, "start {bytes:02x?}");
        assert_eq!(
            number == MALFORMED,
            class != "grant",
            "{class}: {bytes:02x?}"
        );
        if let Ok(started) = Client::start(bytes) {
            let fields = other::client_fields(&started);
            assert_eq!(start.client, fields, "start {bytes:02x?}");
        }
        let (mut have, mut want) = (other::client_fields(&client), client);
        let received = have.receive(bytes);
        let wanted = other::receive(&mut want, bytes);
        assert_eq!(received, wanted, "receive {bytes:02x?}");
        assert_eq!(have, other::client_fields(&want), "receive {bytes:02x?}");
        let own = ["result", "untimed result", "refusal", "grant"].contains(&class);
        assert_eq!(wanted.number == MALFORMED, !own, "{class}: {bytes:02x?}");
        match wanted.kind {
            7 if class == "untimed result" => {
                assert_eq!(wanted.time, 0, "{bytes:02x?}");
                tally.meet("untimed result: received");
            }
            7 => {
                assert_eq!(wanted.time, get_u32(bytes, 16), "{bytes:02x?}");
                tally.meet("result: received");
                if wanted.time > 0 {
                    tally.meet("result: received, time above 0");
                }
            }
            3 => tally.meet("refusal: received"),
            6 => tally.meet("grant: received"),
            _ => assert_eq!(wanted.time, 0, "{bytes:02x?}"),
        }
    }

    /// An output that a reply does not fit: 2, and nothing is written.
    fn short(&mut self, bytes: &[u8], tally: &mut Tally) {
        let mut lent = self.pair.whole(&self.outputs);
        lent.out = self.random.below(RESULT_LEN as u32) as usize;
        let call = Call::Request(bytes.to_vec());
        let answer = self.pair.call(&call, &lent, &mut self.outputs);
        assert_eq!(answer.number, 2, "{call:02x?}");
        tally.meet("output too short");
    }
}

#[test]
fn parsed() {
    let mut tally = Tally::new("parsed packets", &CLASSES);
    let mut rig = Rig::new();
    for run in 0..runs() / 4 {
        if run % 256 == 0 {
            rig.base = Rig::base(&mut rig.random);
        }
        let kind = 1 + rig.random.below(7);
        let packet = inputs::packet_of_kind(&mut rig.random, kind);
        let server = server_for(&mut rig.random, &rig.base, &packet);
        let client = client_for(&mut rig.random, &packet);
        let mut bytes = inputs::packet_bytes(&packet, kind);
        spoil(&mut rig.random, &mut bytes);
        rig.pair.set(server);
        if rig.random.below(1000) == 0 {
            rig.short(&bytes, &mut tally);
        }
        let class = class(&bytes);
        rig.serve(&bytes, class, &mut tally);
        rig.receive(client, &bytes, class, &mut tally);
        tally.meet(class);
    }
    tally.finish();
}

// ---- packets written

const WRITTEN: [&str; 10] = [
    "request",
    "result",
    "refusal",
    "receipt",
    "notice",
    "grant",
    "output too short",
    "not synced",
    "none",
    "executed",
];

/// Of a random server: a result, a refusal or a receipt.
fn served(random: &mut Random, pair: &mut Pair, outputs: &mut Outputs) -> &'static str {
    let record = match pair.server.records.is_empty() {
        true => None,
        false => Some(*random.pick(&pair.server.records)),
    };
    let call = match (random.below(4), record) {
        (0, _) => Call::Receipt(random.below(64)),
        (1, Some(r)) => Call::Fetch(r.client, r.call),
        (_, record) => request_near(random, record),
    };
    let mut lent = pair.whole(outputs);
    if random.below(200) == 0 {
        lent.out = random.below(8) as usize;
    }
    let answer = pair.call(&call, &lent, outputs);
    match (answer.number, answer.written, &call) {
        (2, _, _) => "output too short",
        (0, 0, _) => "executed",
        (7, 0, _) => "not synced",
        (_, 0, _) => "none",
        (0, _, Call::Receipt(_)) => "receipt",
        (0, _, _) => "result",
        _ => "refusal",
    }
}

/// Of any command, or of one that the server has a completion record of.
fn request_near(random: &mut Random, record: Option<second::server::Completion>) -> Call {
    let Packet::Request(any) = inputs::packet_of_kind(random, 1) else {
        panic!("kind 1 is a request");
    };
    let request = match record {
        Some(r) if random.chance(60) => Request {
            op: r.op,
            point: r.point,
            client: r.client,
            call: r.call,
            done: r.call.saturating_sub(random.below(16)).max(1),
            lease_end: u32::MAX,
            argument: r.argument,
        },
        _ => any,
    };
    Call::Request(write_request(&request).to_vec())
}

/// A client's request, sent and sent again.
fn issued(random: &mut Random) -> &'static str {
    let mut want = started(inputs::at_least_1(random), inputs::number(random));
    let next = inputs::at_least_1(random).min(u32::MAX - 2);
    (want.first, want.next) = (next, next);
    let mut have = other::client_fields(&want);
    for _ in 0..2 {
        let (op, argument) = inputs::op_argument(random);
        let (op, point) = (op as u32, random.below(64));
        let sent = have.issue(op, point, argument);
        assert_eq!(sent, other::sent(want.issue(op, point, argument)));
    }
    let call = next + random.below(2);
    assert_eq!(have.resend(call), other::sent(want.resend(call)));
    "request"
}

/// The lease manager's packets, with any client number and time.
fn leased(random: &mut Random) -> &'static str {
    let (issued, time) = (inputs::number(random), inputs::number(random));
    let mut have = LeaseManager::new();
    (have.issued, have.time) = (issued, time);
    let mut want = leases::LeaseManager::new();
    (want.next, want.time) = (u64::from(issued) + 1, time);
    let (client, time) = (
        issued.saturating_sub(random.below(3)),
        inputs::number(random),
    );
    let (reply, told) = match random.chance(50) {
        true => (have.query(client, time), want.query(client, time)),
        false => (have.open(time, 86_400), want.open(time, 86_400)),
    };
    let told = other::told(told);
    assert_eq!(reply, told);
    match reply.kind {
        5 => "notice",
        6 => "grant",
        _ => "none",
    }
}

#[test]
fn written() {
    let mut random = Random::new(seed());
    let mut tally = Tally::new("written packets", &WRITTEN);
    let mut pair = Pair::of(states::founded(&inputs::plan(&mut random), 0), LOG_LEN);
    let mut outputs = Outputs::new(RESULT_LEN + 4);
    for run in 0..runs() / 4 {
        if run % 64 == 0 {
            let point = random.below(64) as u8;
            pair.set(states::server(&mut random, Tables::Small, point, 30));
        }
        tally.meet(match random.below(4) {
            0 => issued(&mut random),
            1 => leased(&mut random),
            _ => served(&mut random, &mut pair, &mut outputs),
        });
    }
    tally.finish();
}
