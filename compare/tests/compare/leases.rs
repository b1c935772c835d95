//! The lease manager: random sequences of calls, the same answers, packets and
//! fields after every step.

use compare::inputs;
use compare::tally::{runs, seed, Tally};
use compare::{other, proved};
use second::leases::LeaseManager;
use second::random::Random;

const CLASSES: [&str; 17] = [
    "new",
    "open",
    "open: after a lease ended",
    "open: 1",
    "open: 18",
    "open: 16, client number",
    "open: 16, end",
    "renew: later end",
    "renew: end kept",
    "renew: 1",
    "renew: 17, ended",
    "renew: 17, never issued",
    "renew: 16",
    "query: grant",
    "query: notice",
    "query: 17, client 0",
    "query: 17, never issued",
];

/// A lease manager of both programs.
struct Pair {
    have: proved::LeaseManager,
    want: LeaseManager,
    /// Long spans and small steps of time: all leases are soon in use.
    busy: bool,
}

impl Pair {
    /// Some near the last time or the last client number.
    fn new(random: &mut Random) -> Pair {
        let mut pair = Pair {
            have: proved::LeaseManager::new(),
            want: LeaseManager::new(),
            busy: random.chance(30),
        };
        pair.compare("new");
        if pair.busy {
            return pair;
        }
        if random.chance(30) {
            let issued = u32::MAX - random.below(60);
            pair.have.issued = issued;
            pair.want.next = u64::from(issued) + 1;
        }
        if random.chance(30) {
            let time = u32::MAX - random.below(200_000);
            pair.have.time = time;
            pair.want.time = time;
        }
        pair
    }

    fn compare(&self, step: &str) {
        let want = other::lease_fields(&self.want);
        assert_eq!(self.have.fields(), want, "{step}");
    }

    /// Mostly the manager's own or a little later, at times earlier or far off.
    fn time(&self, random: &mut Random) -> u32 {
        let time = self.want.time;
        match random.below(if self.busy { 400 } else { 40 }) {
            0 => inputs::number(random).min(time.saturating_add(100_000)),
            1..=5 => time.saturating_sub(random.below(1000)),
            6 | 7 => time.saturating_add(random.below(90_000)),
            8 => self.an_end(random),
            _ => time.saturating_add(random.below(100)),
        }
    }

    /// A lease's end, or one second before it.
    fn an_end(&self, random: &mut Random) -> u32 {
        match self.want.leases.len() {
            0 => self.want.time,
            _ => random.pick(&self.want.leases).end - random.below(2),
        }
    }

    fn span(&self, random: &mut Random) -> u32 {
        match random.below(30) {
            0 => 0,
            1 => 86_401 + random.below(3),
            2 => inputs::number(random),
            3 => 1,
            4 => 86_400,
            5..=12 if !self.busy => 1 + random.below(500),
            _ => 1 + random.below(86_400),
        }
    }

    fn client(&self, random: &mut Random) -> u32 {
        let issued = self.have.issued;
        match random.below(12) {
            0 => 0,
            1 => issued.saturating_add(1 + random.below(2)),
            2 => inputs::number(random),
            3..=5 => issued.saturating_sub(random.below(100)),
            _ if self.want.leases.is_empty() => issued,
            _ => random.pick(&self.want.leases).client,
        }
    }

    /// A refused call leaves the manager as it was.
    fn kept(&self, was: proved::LeaseManager, reply: proved::LeaseReply) {
        if reply.number != 0 {
            assert_eq!(self.have, was, "refused with {}", reply.number);
        }
    }

    fn open(&mut self, random: &mut Random) -> &'static str {
        let (time, span) = (self.time(random), self.span(random));
        let (before, was) = (self.want.clone(), self.have);
        let have = self.have.open(time, span);
        let want = other::told(self.want.open(time, span));
        assert_eq!(have, want, "open {time} {span} at {before:?}");
        self.kept(was, have);
        match have.number {
            0 if self.want.leases.len() <= before.leases.len() => "open: after a lease ended",
            0 => "open",
            1 => "open: 1",
            18 => "open: 18",
            _ if before.next > u64::from(u32::MAX) => "open: 16, client number",
            _ => "open: 16, end",
        }
    }

    fn renew(&mut self, random: &mut Random) -> &'static str {
        let client = self.client(random);
        let (time, span) = (self.time(random), self.span(random));
        let (before, was) = (self.want.clone(), self.have);
        let have = self.have.renew(client, time, span);
        let want = other::told(self.want.renew(client, time, span));
        assert_eq!(have, want, "renew {client} {time} {span} at {before:?}");
        self.kept(was, have);
        let end = |m: &LeaseManager| m.leases.iter().find(|l| l.client == client).map(|l| l.end);
        match have.number {
            0 if end(&self.want) > end(&before) => "renew: later end",
            0 => "renew: end kept",
            1 => "renew: 1",
            16 => "renew: 16",
            _ if client == 0 || u64::from(client) >= before.next => "renew: 17, never issued",
            _ => "renew: 17, ended",
        }
    }

    fn query(&mut self, random: &mut Random) -> &'static str {
        let (client, time) = (self.client(random), self.time(random));
        let (before, was) = (self.want.clone(), self.have);
        let have = self.have.query(client, time);
        let want = other::told(self.want.query(client, time));
        assert_eq!(have, want, "query {client} {time} at {before:?}");
        self.kept(was, have);
        match (have.number, have.kind) {
            (0, 6) => "query: grant",
            (0, _) => "query: notice",
            _ if client == 0 => "query: 17, client 0",
            _ => "query: 17, never issued",
        }
    }
}

#[test]
fn leases() {
    let mut random = Random::new(seed());
    let mut tally = Tally::new("lease manager", &CLASSES);
    let mut pair = Pair::new(&mut random);
    for _ in 0..runs() {
        let step = match random.below(1000) {
            0..=3 => {
                pair = Pair::new(&mut random);
                "new"
            }
            4..=499 => pair.open(&mut random),
            500..=749 => pair.renew(&mut random),
            _ => pair.query(&mut random),
        };
        pair.compare(step);
        tally.meet(step);
    }
    tally.finish();
}
