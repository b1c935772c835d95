//! Nanoseconds per call of the proved code and of the second program, on the
//! same inputs and outputs, in the same run. Each is the best of several
//! rounds; the sides take turns, and neither is inlined into the loop.

#[path = "bench/checkpoints.rs"]
mod checkpoints;
#[path = "bench/dispatcher.rs"]
mod dispatcher;

use compare::kernel::{self, Call};
use compare::long::{self, Long};
use compare::{chamber, other, proved, states};
use second::answer::Refusal;
use second::chamber::Chamber;
use second::client::{Client, Received};
use second::image::IMAGE_MAX;
use second::leases::LeaseManager;
use second::packet::{
    write_grant, write_notice, write_refusal, write_request, write_result, Grant, Notice,
    RefusalPacket, Reply, Request,
};
use second::plan::{write_plan, Entry, Plan};
use second::rule::Op;
use second::server::{Server, STATE_LEN};
use std::hint::black_box;
use std::time::{Duration, Instant};

/// Many short rounds: one that another program disturbs is not the best.
const ROUNDS: u32 = 100;
const ROUND: Duration = Duration::from_micros(300);
/// For passes of many milliseconds.
const LONG_ROUNDS: u32 = 10;

/// Nanoseconds per item of one pass, over rounds of equal work on both sides.
fn measure(items: u64, have: impl FnMut(), want: impl FnMut()) -> (f64, f64) {
    measure_in(ROUNDS, items, have, want)
}

fn measure_in(
    rounds: u32,
    items: u64,
    mut have: impl FnMut(),
    mut want: impl FnMut(),
) -> (f64, f64) {
    let passes = passes_of(&mut have).max(passes_of(&mut want));
    let (mut best_have, mut best_want) = (f64::MAX, f64::MAX);
    for _ in 0..rounds {
        best_have = best_have.min(round(passes, &mut have));
        best_want = best_want.min(round(passes, &mut want));
    }
    let calls = (passes * items) as f64;
    (best_have / calls, best_want / calls)
}

/// Passes that fill a round.
fn passes_of(pass: &mut impl FnMut()) -> u64 {
    let mut passes = 1;
    loop {
        if round(passes, pass) >= ROUND.as_nanos() as f64 {
            return passes;
        }
        passes *= 2;
    }
}

fn round(passes: u64, pass: &mut impl FnMut()) -> f64 {
    let began = Instant::now();
    for _ in 0..passes {
        pass();
    }
    began.elapsed().as_nanos() as f64
}

fn row(name: &str, (have, want): (f64, f64)) {
    println!("{name:<34} {have:>9.2} {want:>9.2} {:>7.2}", have / want);
}

// ---- client and lease manager

/// A client of both programs, started by the same grant.
#[derive(Clone)]
struct Clients {
    have: proved::Client,
    want: Client,
}

/// Its answers by value on both sides.
fn clients() {
    let grant = write_grant(&Grant {
        client: 7,
        lease_end: 1000,
    });
    starts(&grant);
    let started = Clients {
        have: proved::Client::start(&grant).client,
        want: Client::start(&grant).expect("a grant"),
    };
    let busy = issues(&started);
    resends(&busy);
    let (outcome, point, quality, client, value) = (0, 5, 0, 7, 40);
    let result = |call| Reply {
        outcome,
        point,
        quality,
        client,
        call,
        value,
        time: 60,
    };
    let refusal = |call| RefusalPacket {
        number: 7,
        point,
        client,
        call,
    };
    let results: Vec<Vec<u8>> = (1..=16)
        .map(|c| write_result(&result(c)).to_vec())
        .collect();
    let refusals: Vec<Vec<u8>> = (1..=16)
        .map(|c| write_refusal(&refusal(c)).to_vec())
        .collect();
    receives("a result", &busy, &results);
    receives("a refusal", &busy, &refusals);
    receives("a grant", &busy, &[grant.to_vec()]);
    let mut damaged = results;
    damaged.iter_mut().for_each(|packet| packet[3] = 200);
    receives("a damaged result", &busy, &damaged);
}

/// A reply that lies across the end of a page takes longer, and where the
/// stack begins is chance: both sides at two places, and the better.
fn starts(grant: &[u8]) {
    let (here, below) = (starts_here(grant), starts_below(grant));
    row("client: start", (here.0.min(below.0), here.1.min(below.1)));
}

#[inline(never)]
fn starts_here(grant: &[u8]) -> (f64, f64) {
    measure(
        1,
        || {
            black_box(proved::Client::start(black_box(grant)));
        },
        || {
            let _ = black_box(start(black_box(grant)));
        },
    )
}

/// The same, a kilobyte further down.
#[inline(never)]
fn starts_below(grant: &[u8]) -> (f64, f64) {
    let space = black_box([0u8; 1024]);
    let times = starts_here(grant);
    black_box(&space);
    times
}

/// Sixteen calls; the client that has them open.
fn issues(started: &Clients) -> Clients {
    let mut busy = started.clone();
    let times = measure(
        16,
        || {
            busy.have = started.have;
            for _ in 0..16 {
                black_box(busy.have.issue(black_box(1), 5, 40));
            }
            black_box(&busy.have);
        },
        || {
            busy.want.clone_from(&started.want);
            for _ in 0..16 {
                black_box(issue(&mut busy.want, black_box(1), 5, 40));
            }
            black_box(&busy.want);
        },
    );
    row("client: issue", times);
    busy
}

fn resends(busy: &Clients) {
    let mut have = busy.have;
    let times = measure(
        16,
        || {
            for call in 1..=16 {
                black_box(have.resend(black_box(call)));
            }
        },
        || {
            for call in 1..=16 {
                black_box(resend(&busy.want, black_box(call)));
            }
        },
    );
    row("client: resend", times);
}

fn receives(name: &str, busy: &Clients, packets: &[Vec<u8>]) {
    let mut now = busy.clone();
    let times = measure(
        packets.len() as u64,
        || {
            now.have = busy.have;
            for packet in packets {
                black_box(now.have.receive(black_box(packet)));
            }
            black_box(&now.have);
        },
        || {
            now.want.clone_from(&busy.want);
            for packet in packets {
                let _ = black_box(receive(&mut now.want, black_box(packet)));
            }
            black_box(&now.want);
        },
    );
    row(&format!("client: receive {name}"), times);
}

#[inline(never)]
fn start(grant: &[u8]) -> Result<Client, Refusal> {
    Client::start(grant)
}

#[inline(never)]
fn issue(client: &mut Client, op: u32, point: u32, argument: i32) -> proved::SendReply {
    other::sent(client.issue(op, point, argument))
}

#[inline(never)]
fn resend(client: &Client, call: u32) -> proved::SendReply {
    other::sent(client.resend(call))
}

#[inline(never)]
fn receive(client: &mut Client, packet: &[u8]) -> Result<Received, Refusal> {
    client.receive(packet)
}

#[inline(never)]
fn open(manager: &mut LeaseManager, time: u32, span: u32) -> proved::LeaseReply {
    other::told(manager.open(time, span))
}

#[inline(never)]
fn renew(manager: &mut LeaseManager, client: u32, time: u32, span: u32) -> proved::LeaseReply {
    other::told(manager.renew(client, time, span))
}

#[inline(never)]
fn query(manager: &mut LeaseManager, client: u32, time: u32) -> proved::LeaseReply {
    other::told(manager.query(client, time))
}

/// 32 leases are opened, renewed and queried.
fn leases() {
    let (new, new2) = (proved::LeaseManager::new(), LeaseManager::new());
    let (mut have, mut want) = (new, new2.clone());
    let times = measure(
        32,
        || {
            have = new;
            for time in 1..=32 {
                black_box(have.open(black_box(time), 1000));
            }
        },
        || {
            want.clone_from(&new2);
            for time in 1..=32 {
                black_box(open(&mut want, black_box(time), 1000));
            }
        },
    );
    row("lease manager: open", times);
    leases_in_use(have, want);
}

fn leases_in_use(mut have: proved::LeaseManager, mut want: LeaseManager) {
    let times = measure(
        32,
        || {
            for client in 1..=32 {
                black_box(have.renew(black_box(client), 40, 1000));
            }
        },
        || {
            for client in 1..=32 {
                black_box(renew(&mut want, black_box(client), 40, 1000));
            }
        },
    );
    row("lease manager: renew", times);
    let times = measure(
        32,
        || {
            for client in 1..=32 {
                black_box(have.query(black_box(client), 40));
            }
        },
        || {
            for client in 1..=32 {
                black_box(query(&mut want, black_box(client), 40));
            }
        },
    );
    row("lease manager: query", times);
}

// ---- the controller of a lock chamber

const LOCK: [u32; 5] = [10, 20, 31, 32, 33];

/// A controller of both programs. The proved calls take and give it by value.
#[derive(Clone)]
struct Chambers {
    have: chamber::Chamber,
    want: Chamber,
}

impl Chambers {
    fn start(grant: &[u8]) -> Chambers {
        Chambers {
            have: chamber::Chamber::start(grant, LOCK).chamber,
            want: Chamber::start(grant, LOCK).expect("a grant and five points"),
        }
    }

    fn issued(&self, op: u32, point: u32, argument: i32) -> Chambers {
        let mut now = self.clone();
        let have = now.have.issue(op, point, argument);
        let want = chamber_issue(&mut now.want, op, point, argument);
        assert_eq!(have.reply, want);
        now.have = have.chamber;
        now
    }

    fn received(&self, packet: &[u8]) -> Chambers {
        let mut now = self.clone();
        now.have = now.have.receive(packet).chamber;
        now.want.receive(packet).expect("an open call");
        assert_eq!(now.have, chamber::fields(&now.want));
        now
    }

    /// A read of the point up to its result 0, valid.
    fn read(&self, point: u32) -> Chambers {
        let open = self.issued(0, point, 0);
        open.received(&read_result(self.want.client.next, point))
    }
}

fn read_result(call: u32, point: u32) -> Vec<u8> {
    let reply = Reply {
        outcome: 0,
        point: point as u8,
        quality: 0,
        client: 7,
        call,
        value: 0,
        time: 60,
    };
    write_result(&reply).to_vec()
}

fn chambers() {
    let grant = write_grant(&Grant {
        client: 7,
        lease_end: 1000,
    });
    let times = measure(
        1,
        || {
            black_box(chamber::Chamber::start(black_box(&grant), LOCK));
        },
        || {
            let _ = black_box(chamber_start(black_box(&grant), LOCK));
        },
    );
    row("chamber: start", times);
    let fresh = Chambers::start(&grant);
    let [upper, lower, level1, level2, _] = LOCK;
    let ready = fresh.read(lower).read(level1).read(level2);
    chamber_issues("a read", &fresh, (0, upper, 0), 0);
    chamber_issues("an opening", &ready, (1, upper, 40), 0);
    chamber_issues("refused with 20", &ready, (1, lower, 40), 20);
    let open = fresh.issued(0, upper, 0);
    let times = measure(
        1,
        || {
            black_box(black_box(open.have).resend(1));
        },
        || {
            black_box(chamber_resend(black_box(&open.want), 1));
        },
    );
    row("chamber: resend", times);
    let refusal = write_refusal(&RefusalPacket {
        number: 7,
        point: upper as u8,
        client: 7,
        call: 1,
    });
    chamber_receives("a read", &open, &read_result(1, upper));
    chamber_receives("a refusal", &open, &refusal);
    chamber_receives("a grant", &open, &grant);
}

fn chamber_issues(
    name: &str,
    base: &Chambers,
    (op, point, argument): (u32, u32, i32),
    number: u32,
) {
    assert_eq!(base.have.issue(op, point, argument).reply.number, number);
    let mut now = base.want.clone();
    let times = measure(
        1,
        || {
            black_box(black_box(base.have).issue(black_box(op), point, argument));
        },
        || {
            now.clone_from(&base.want);
            black_box(chamber_issue(&mut now, black_box(op), point, argument));
            black_box(&now);
        },
    );
    row(&format!("chamber: issue, {name}"), times);
}

fn chamber_receives(name: &str, base: &Chambers, packet: &[u8]) {
    let mut now = base.want.clone();
    let times = measure(
        1,
        || {
            black_box(black_box(base.have).receive(black_box(packet)));
        },
        || {
            now.clone_from(&base.want);
            let _ = black_box(chamber_receive(&mut now, black_box(packet)));
            black_box(&now);
        },
    );
    row(&format!("chamber: receive {name}"), times);
}

#[inline(never)]
fn chamber_start(grant: &[u8], points: [u32; 5]) -> Result<Chamber, Refusal> {
    Chamber::start(grant, points)
}

#[inline(never)]
fn chamber_issue(c: &mut Chamber, op: u32, point: u32, argument: i32) -> proved::SendReply {
    other::sent(c.issue(op, point, argument))
}

#[inline(never)]
fn chamber_resend(c: &Chamber, call: u32) -> proved::SendReply {
    other::sent(c.resend(call))
}

#[inline(never)]
fn chamber_receive(c: &mut Chamber, packet: &[u8]) -> Result<Received, Refusal> {
    c.receive(packet)
}

// ---- the calls of a server

/// The plain pass in C, bench/pass.c.
mod c {
    #[link(name = "pass", kind = "static")]
    extern "C" {
        pub fn plain_pass(bytes: *const u8, words: usize) -> i32;
        pub fn plain_ends(log: *const u8, length: usize) -> usize;
    }
}

fn plain_pass(state: &[u8]) -> bool {
    // Safe: it reads the slice's whole words and keeps nothing.
    unsafe { c::plain_pass(state.as_ptr(), state.len() / 8) == 1 }
}

const SPACE: usize = 64_000;

/// A server of both programs, with its log.
#[derive(Clone)]
struct Both {
    state: Vec<u8>,
    log: Vec<u8>,
    server: Server,
    log2: Vec<u8>,
}

impl Both {
    /// Point 5 is at home at server 0, point 6 elsewhere; each client has
    /// executed its calls on point 5, all synced.
    fn new(number: u32, clients: u32, calls: u32) -> Both {
        let mut plan = Plan::uniform(Entry {
            low: -100,
            high: 1000,
            fallback: 0,
            home: 0,
        });
        plan.entries[6].home = 15;
        let mut both = Both {
            state: vec![0; STATE_LEN],
            log: vec![0; SPACE],
            server: Server::new(),
            log2: vec![0; SPACE],
        };
        both.call(&Call::Found(write_plan(&plan).to_vec(), number), 0);
        for call in 1..=calls {
            for client in 1..=clients {
                both.call(&set(5, client, call, 1), 0);
            }
        }
        both.sync();
        both
    }

    fn call(&mut self, call: &Call, number: u32) -> Vec<u8> {
        let (mut out, mut out2) = (vec![0; IMAGE_MAX], vec![0; IMAGE_MAX]);
        let have = call.proved(&mut self.state, &mut self.log, &mut out);
        let want = call.second(&mut self.server, STATE_LEN, &mut self.log2, &mut out2);
        assert_eq!((have, have.number), (want, number), "{call:?}");
        assert!(out == out2 && self.log == self.log2, "{call:?}");
        out.truncate(have.written);
        out
    }

    fn sync(&mut self) {
        self.call(&Call::Sync(self.server.length), 0);
    }

    /// The calls have this number, on both sides alike.
    fn tried(&self, calls: &[Call], number: u32) {
        let mut tried = self.clone();
        for call in calls {
            tried.call(call, number);
        }
    }

    fn plan(&self) -> Vec<u8> {
        self.state[states::PLAN_AT..states::POINTS_AT].to_vec()
    }

    /// Calls that leave the state as it is.
    fn times(&self, calls: &[Call], space: usize) -> (f64, f64) {
        self.measured(calls, space, false, calls.len())
    }

    /// The state's test, as a refused sync has it, and a plain pass in C over the same bytes.
    fn passed(&self) -> (f64, f64) {
        let (mut state, mut log) = (self.state.clone(), self.log.clone());
        let bytes = self.state[..states::end(&self.server)].to_vec();
        let call = Call::Sync(0);
        measure(
            1,
            || {
                black_box(call.proved(&mut state, &mut log, &mut []));
            },
            || {
                black_box(plain_pass(black_box(&bytes)));
            },
        )
    }

    /// Calls that change it, each time from the same state; what restores it is
    /// measured by itself and taken off.
    fn times_restored(&self, calls: &[Call]) -> (f64, f64) {
        let (have, want) = self.measured(calls, SPACE, true, calls.len());
        let restored = self.measured(&[], SPACE, true, calls.len());
        (have - restored.0, want - restored.1)
    }

    fn measured(&self, calls: &[Call], space: usize, restore: bool, count: usize) -> (f64, f64) {
        let (mut out, mut out2) = (vec![0; IMAGE_MAX], vec![0; IMAGE_MAX]);
        let mut both = self.clone();
        let (lent, lent2) = (&mut both.log[..space], &mut both.log2[..space]);
        measure(
            count as u64,
            || {
                if restore {
                    let end = states::end(&self.server);
                    both.state[..end].copy_from_slice(&self.state[..end]);
                }
                for call in calls {
                    black_box(call.proved(&mut both.state, lent, &mut out));
                }
                black_box(&both.state);
            },
            || {
                if restore {
                    both.server.clone_from(&self.server);
                }
                for call in calls {
                    black_box(call.second(&mut both.server, STATE_LEN, lent2, &mut out2));
                }
                black_box(&both.server);
            },
        )
    }
}

fn set(point: u8, client: u32, call: u32, done: u32) -> Call {
    request(1, point, client, call, done, 40)
}

fn request(op: u8, point: u8, client: u32, call: u32, done: u32, argument: i32) -> Call {
    let request = Request {
        op: Op::from_byte(op).expect("an op"),
        point,
        client,
        call,
        done,
        lease_end: 1000,
        argument,
    };
    Call::Request(write_request(&request).to_vec())
}

/// A row, and how much of each side's time goes to the test of the state.
fn row_tested(name: &str, (have, want): (f64, f64), tested: (f64, f64)) {
    let share = |whole: f64, part: f64| (100.0 * part / whole).min(100.0);
    println!(
        "{name:<34} {have:>9.2} {want:>9.2} {:>7.2}   {:>3.0}% {:>3.0}%",
        have / want,
        share(have, tested.0),
        share(want, tested.1)
    );
}

/// A few clients with few calls, and full tables.
fn calls() {
    println!("{:<62}   state tested", "");
    founds();
    for (name, clients, calls) in [("8 records", 2, 4), ("512 records", 32, 16)] {
        let base = Both::new(0, clients, calls);
        let tested = base.times(&[Call::Sync(0)], SPACE);
        row(&format!("state tested, {name}"), tested);
        row(&format!("the same, to a C pass, {name}"), base.passed());
        calls_that_change(name, &base, clients, calls, tested);
        calls_that_read(name, &base, clients, calls, tested);
        moves(name, &base, tested);
        recovers(&base, f64::from(clients * calls));
    }
    rules();
}

/// The plan is read, and the state written up to its first completion record.
fn founds() {
    let base = Both::new(0, 0, 0);
    row("found", base.times(&[Call::Found(base.plan(), 0)], SPACE));
}

/// A request of each op, with the floor at its call, so that one record stays.
fn rules() {
    let base = Both::new(0, 1, 1);
    let tested = base.times(&[Call::Sync(0)], SPACE);
    for (op, name) in (0..).zip(["read", "set", "step", "report", "fault", "part"]) {
        // parts of 1,100 by 2 to 17: exact, under and over a half, both kinds of halves
        let argument = |call| match op {
            0 | 4 => 0,
            5 => call as i32,
            _ => 40,
        };
        let list: Vec<Call> = (2..18)
            .map(|call| request(op, 5, 1, call, call, argument(call)))
            .collect();
        base.tried(&list, 0);
        let times = base.times_restored(&list);
        row_tested(&format!("request executed, {name}"), times, tested);
    }
}

/// 512 requests, which raise floors, a give of each point, and a notice of each client.
fn calls_that_change(name: &str, base: &Both, clients: u32, calls: u32, tested: (f64, f64)) {
    let executed: Vec<Call> = (1..=512 / clients)
        .flat_map(|n| (1..=clients).map(move |client| set(5, client, calls + n, n + 1)))
        .collect();
    let given: Vec<Call> = (7..64).map(|point| Call::Give(point, 1)).collect();
    let gone = |client| Call::Notice(write_notice(&Notice { client, time: 9 }).to_vec());
    let gone: Vec<Call> = (1..=clients).map(gone).collect();
    for (call, list) in [
        ("request executed", executed),
        ("give", given),
        ("notice", gone),
    ] {
        base.tried(&list, 0);
        let times = base.times_restored(&list);
        row_tested(&format!("{call}, {name}"), times, tested);
    }
}

fn calls_that_read(name: &str, base: &Both, clients: u32, calls: u32, tested: (f64, f64)) {
    let ids: Vec<(u32, u32)> = (1..=calls)
        .flat_map(|call| (1..=clients).map(move |client| (client, call)))
        .collect();
    let each = |call: fn(u32, u32) -> Call| ids.iter().map(|&(x, c)| call(x, c)).collect();
    let rows: [(&str, u32, Vec<Call>); 5] = [
        ("request repeated", 0, each(|x, c| set(5, x, c, 1))),
        ("request refused", 3, each(|x, c| set(6, x, c, 1))),
        ("request malformed", 1, each(|x, c| set(64, x, c, 1))),
        ("fetch", 0, each(Call::Fetch)),
        ("sync", 0, vec![Call::Sync(base.server.length)]),
    ];
    for (call, number, list) in rows {
        base.tried(&list, number);
        let times = base.times(&list, SPACE);
        row_tested(&format!("{call}, {name}"), times, tested);
    }
}

/// The image of the point that has all records, its take by an empty server, and what
/// another server does of a take: it reads the image and refuses it.
fn moves(name: &str, base: &Both, tested: (f64, f64)) {
    let mut given = base.clone();
    given.call(&Call::Give(5, 1), 0);
    given.sync();
    let image = given.call(&Call::Image(5), 0);
    let times = given.times(&[Call::Image(5)], SPACE);
    row_tested(&format!("image, {name}"), times, tested);
    let (taker, other) = (Both::new(1, 0, 0), Both::new(2, 0, 0));
    let empty = taker.times(&[Call::Sync(0)], SPACE);
    let take = [Call::Take(image)];
    taker.tried(&take, 0);
    let times = taker.times_restored(&take);
    row_tested(&format!("take, {name}"), times, empty);
    other.tried(&take, 11);
    let times = other.times(&take, SPACE);
    row_tested(&format!("image read and refused, {name}"), times, empty);
    let mut taken = taker.clone();
    taken.call(&take[0], 0);
    let length = taken.server.length as usize;
    let times = taken.times(&[Call::Recover(taken.plan())], length);
    row(&format!("recover a take, {name}"), times);
}

fn recovers(base: &Both, records: f64) {
    let length = base.server.length as usize;
    let (have, want) = base.times(&[Call::Recover(base.plan())], length);
    let times = (have / records, want / records);
    row(&format!("recover, per record of {records}"), times);
}

// ---- both walks over long logs

/// A plain loop in C over the heads of a log's records.
fn plain_ends(log: &[u8]) -> usize {
    unsafe { c::plain_ends(log.as_ptr(), log.len()) }
}

fn records(logs: &[Long]) -> u64 {
    logs.iter().map(|long| long.records).sum()
}

/// The first walk by itself, to the loop in C.
fn first_walk(name: &str, logs: &[Long]) -> f64 {
    for long in logs {
        assert_eq!(kernel::log_end(&long.log).end, plain_ends(&long.log) as u64);
    }
    let times = measure(
        records(logs),
        || {
            for long in logs {
                black_box(kernel::log_end(black_box(&long.log)));
            }
        },
        || {
            for long in logs {
                black_box(plain_ends(black_box(&long.log)));
            }
        },
    );
    row(&format!("ends of {name}"), times);
    times.0
}

/// Recovery, to the second program's.
fn both_walks(name: &str, logs: &[Long]) -> f64 {
    let (mut state, mut server) = (vec![0; STATE_LEN], Server::new());
    let times = measure_in(
        LONG_ROUNDS,
        records(logs),
        || {
            for long in logs {
                let log = black_box(&long.log);
                black_box(kernel::recover(&mut state, log, &long.plan));
            }
        },
        || {
            for long in logs {
                let log = black_box(&long.log);
                black_box(server.recover(STATE_LEN, log, &long.plan));
            }
        },
    );
    row(&format!("recover {name}"), times);
    times.0
}

/// A log of so many bytes, from a seed.
type Make = fn(usize, u64) -> Long;

/// Per record, sixteen logs of 1 MB and one of 16 MB: as many bytes for the caches and as many kinds to foresee; and how much more
/// a record of the long one takes.
fn walks() {
    println!("per record; ends: the first walk by itself, beside a loop in C");
    let kinds: [(&str, Make); 2] = [("commands", long::executed), ("all kinds", long::mixed)];
    for (name, make) in kinds {
        let short: Vec<Long> = (0..16).map(|seed| make(1 << 20, seed)).collect();
        let long = [make(16 << 20, 16)];
        for (what, walk) in [
            ("ends", first_walk as fn(&str, &[Long]) -> f64),
            ("recover", both_walks),
        ] {
            let first = walk(&format!("1 MB, {name}"), &short);
            let last = walk(&format!("16 MB, {name}"), &long);
            row(&format!("{what}, 16 MB to 1 MB, {name}"), (last, first));
        }
    }
}

fn main() {
    println!("nanoseconds per call, best of {ROUNDS} rounds");
    println!("{:<34} {:>9} {:>9} {:>7}", "", "proved", "second", "ratio");
    clients();
    leases();
    chambers();
    calls();
    dispatcher::rows();
    walks();
    checkpoints::rows();
}
