//! The eleven calls of a server, in lockstep with the second program, and the
//! first walk over each log: random worlds of servers, clients and a lease
//! manager, with packets late, repeated, astray and damaged, short slices, full
//! logs, moves and crashes. Each call has the same answer, output, log and state
//! on both sides, byte by byte, whatever lies behind the last completion record.

mod checkpoints;
mod logs;

use compare::forms::{untimed_image, untimed_log};
use compare::inputs::{self, Tables};
use compare::kernel::Call;
use compare::pair::{Lent, Outputs, Pair, FILL};
use compare::states::{self, POINTS_AT, RECORDS_AT, RECORD_LEN};
use compare::tally::{runs, seed, Tally};
use second::answer::Answer;
use second::bytes::{get_u32, put_u32};
use second::client::Client;
use second::image::{moved_len, IMAGE_MAX};
use second::leases::LeaseManager;
use second::packet::{
    write_notice, write_receipt, write_request, Notice, Receipt, Request, RECEIPT_LEN, RESULT_LEN,
};
use second::plan::{write_plan, Entry, Plan};
use second::program::Form;
use second::random::Random;
use second::rule::Op;
use second::server::{Hold, Server, STATE_LEN};

const LOG_LEN: usize = 48_000;
const OUT_LEN: usize = IMAGE_MAX + 8;

/// A call and its number; a number that has several causes by its cause.
const CLASSES: [&str; 86] = [
    "found: 0",
    "found: 1",
    "found: 2",
    "request: executed",
    "request: result",
    "request: 1",
    "request: 2",
    "request: 3",
    "request: 4",
    "request: 5",
    "request: 6",
    "request: 7",
    "request: 8",
    "request: 9",
    "request: 19",
    "fetch: 0",
    "fetch: 2",
    "fetch: 7",
    "fetch: 17",
    "fetch: 19",
    "sync: 0",
    "sync: 2",
    "sync: 10",
    "sync: 19",
    "notice: 0",
    "notice: 1",
    "notice: 2",
    "notice: 9",
    "notice: 17",
    "notice: 19",
    "give: 0",
    "give: 1",
    "give: 2",
    "give: 3",
    "give: 9",
    "give: 11",
    "give: 16",
    "give: 19",
    "image: 0",
    "image: 1",
    "image: 2",
    "image: 3",
    "image: 7",
    "image: 19",
    "take: 0",
    "take: 0, untimed image",
    "take: 1",
    "take: 2",
    "take: 8",
    "take: 9",
    "take: 11",
    "take: 12",
    "take: 13, point held",
    "take: 13, id of another point",
    "take: 19",
    "receipt: 0",
    "receipt: 1",
    "receipt: 2",
    "receipt: 3",
    "receipt: 7",
    "receipt: 19",
    "release: 0",
    "release: 1",
    "release: 2",
    "release: 3",
    "release: 9",
    "release: 12",
    "release: 19",
    "recover: 0",
    "recover: 0, without a crash",
    "recover: 0, forms without times",
    "recover: 0, damaged log",
    "recover: 0, incomplete record",
    "recover: 0, every byte from mark to length",
    "recover: 1",
    "recover: 2",
    "recover: 14, head",
    "recover: 14, kind",
    "recover: 14, image length",
    "recover: 14, field",
    "recover: 14, record cannot follow",
    "log end: 0, recovered",
    "log end: 0, not recovered",
    "log end: 14",
    "damaged state: 19",
    "other bytes past the last completion record",
];

/// The space for a log: soon full, or never.
fn room(random: &mut Random) -> usize {
    match random.below(8) {
        0 => 8 + random.below(300) as usize,
        1 | 2 => 2000,
        3 => 14_000,
        _ => LOG_LEN - 16,
    }
}

/// Not founded; memory has any content.
fn pair(random: &mut Random, room: usize) -> Pair {
    let mut state = vec![0; STATE_LEN];
    state.fill_with(|| inputs::byte(random));
    Pair::new(state, vec![FILL; LOG_LEN], room)
}

/// The class of an answer.
fn class(call: &Call, answer: Answer, server: &Server) -> String {
    match (call, answer.number) {
        (Call::Request(_), 0) if answer.written == 0 => "request: executed".to_string(),
        (Call::Request(_), 0) => "request: result".to_string(),
        (Call::Take(image), 0) if inputs::form_of(image) == Form::Untimed => {
            "take: 0, untimed image".to_string()
        }
        (Call::Take(image), 13) => match server.point(image[4]).hold {
            Hold::Held => "take: 13, point held".to_string(),
            _ => "take: 13, id of another point".to_string(),
        },
        (_, number) => format!("{}: {number}", call.name()),
    }
}

// ---- a world

struct World {
    random: Random,
    plan: Plan,
    plan_bytes: Vec<u8>,
    pairs: Vec<Pair>,
    office: LeaseManager,
    time: u32,
    clients: Vec<Client>,
    /// The points that commands and moves speak of.
    points: Vec<u8>,
    requests: Vec<Vec<u8>>,
    notices: Vec<Vec<u8>>,
    images: Vec<Vec<u8>>,
    receipts: Vec<Vec<u8>>,
    outputs: Outputs,
    scratch: Pair,
}

impl World {
    fn new(seed: u64, tally: &mut Tally) -> World {
        let mut random = Random::new(seed);
        let room = room(&mut random);
        let points: Vec<u8> = (0..1 + random.below(6))
            .map(|_| random.below(64) as u8)
            .collect();
        let mut plan = inputs::plan(&mut random);
        let first = random.below(16) as u8;
        for &p in &points {
            plan.entries[usize::from(p)].home = (first + random.below(3) as u8) % 16;
        }
        let late = random.chance(10);
        let mut world = World {
            pairs: (0..3).map(|_| pair(&mut random, room)).collect(),
            plan_bytes: write_plan(&plan).to_vec(),
            plan,
            office: LeaseManager::new(),
            time: if late { u32::MAX - 100_000 } else { 0 },
            clients: Vec::new(),
            points,
            requests: Vec::new(),
            notices: Vec::new(),
            images: Vec::new(),
            receipts: Vec::new(),
            outputs: Outputs::new(OUT_LEN),
            scratch: Pair::new(vec![states::BEHIND; STATE_LEN], Vec::new(), 0),
            random,
        };
        for i in 0..3 {
            world.found(i, (u32::from(first) + i as u32) % 16, tally);
        }
        let clients = *world.random.pick(&[2, 5, 12, 40]);
        while world.clients.len() < clients {
            world.open();
        }
        world
    }

    /// A new client; time passes until a lease has ended where all are in use.
    fn open(&mut self) {
        self.time += self.random.below(20);
        let span = *self.random.pick(&[1, 300, 900, 2000]);
        match self.office.open(self.time, span) {
            Ok(grant) => self.clients.push(Client::start(&grant).expect("a grant")),
            Err(_) => self.time += 100,
        }
    }

    /// Founded, often after a refusal.
    fn found(&mut self, i: usize, number: u32, tally: &mut Tally) {
        while self.random.chance(30) {
            let mut lent = self.pairs[i].whole(&self.outputs);
            let (mut plan, mut other) = (self.plan_bytes.clone(), number);
            match self.random.below(4) {
                0 => lent.state = self.random.below(STATE_LEN as u32) as usize,
                1 => lent.log = self.random.below(8) as usize,
                2 => inputs::damage(&mut self.random, &mut plan),
                _ => other = 16 + inputs::number(&mut self.random) / 2,
            }
            self.run(i, &Call::Found(plan, other), &lent, tally);
        }
        let lent = self.pairs[i].whole(&self.outputs);
        let call = Call::Found(self.plan_bytes.clone(), number);
        let answer = self.run(i, &call, &lent, tally);
        assert_eq!(answer.number, 0);
    }

    fn run(&mut self, i: usize, call: &Call, lent: &Lent, tally: &mut Tally) -> Answer {
        let answer = self.pairs[i].call(call, lent, &mut self.outputs);
        tally.meet(&class(call, answer, &self.pairs[i].server));
        answer
    }

    /// With whole slices: the output.
    fn run_whole(&mut self, i: usize, call: &Call, tally: &mut Tally) -> Vec<u8> {
        let lent = self.pairs[i].whole(&self.outputs);
        let answer = self.run(i, call, &lent, tally);
        self.outputs.written(answer).to_vec()
    }

    /// With whole slices, or now and then with one too short.
    fn run_lent(&mut self, i: usize, call: &Call, tally: &mut Tally) -> Answer {
        let lent = self.lent(i, call);
        self.run(i, call, &lent, tally)
    }

    fn lent(&mut self, i: usize, call: &Call) -> Lent {
        let mut lent = self.pairs[i].whole(&self.outputs);
        let need = match call {
            Call::Request(_) | Call::Fetch(..) => RESULT_LEN,
            Call::Receipt(_) => RECEIPT_LEN,
            Call::Image(_) => IMAGE_MAX,
            _ => 0,
        };
        let length = self.pairs[i].length();
        if self.random.chance(20) {
            lent.out = need;
        }
        if need > 0 && self.random.chance(2) {
            lent.out = self.random.below(need as u32) as usize;
        }
        if self.random.chance(2) {
            lent.state = self.random.below(STATE_LEN as u32) as usize;
        }
        if self.random.chance(2) {
            lent.log = self.random.below(length.max(1) as u32) as usize;
        }
        // to the byte, or nearly: the log's free space counts
        if self.random.chance(3) {
            lent.log = (length + self.random.below(60) as usize).min(lent.log.max(length));
        }
        lent
    }

    // ---- choices

    fn any(&mut self) -> usize {
        self.random.below(3) as usize
    }

    fn point(&mut self) -> u8 {
        *self.random.pick(&self.points)
    }

    /// A point of the world, or any number.
    fn point_number(&mut self) -> u32 {
        match self.random.below(12) {
            0 => self.random.below(64),
            1 => 64 + inputs::number(&mut self.random) / 2,
            _ => u32::from(self.point()),
        }
    }

    /// A server that has the point so, or any.
    fn with(&mut self, point: u8, has: fn(Hold) -> bool) -> usize {
        let point = usize::from(point % 64);
        let found = (self.pairs.iter()).position(|p| has(p.server.points[point].hold));
        match found {
            Some(i) if self.random.chance(85) => i,
            _ => self.any(),
        }
    }

    /// The latest of a pool, or an older one.
    fn late(random: &mut Random, pool: &[Vec<u8>]) -> Option<Vec<u8>> {
        match (pool.last(), random.chance(65)) {
            (None, _) => None,
            (Some(last), true) => Some(last.clone()),
            (Some(_), false) => Some(random.pick(pool).clone()),
        }
    }

    // ---- requests and results

    fn request(&mut self, tally: &mut Tally) {
        let packet = self.request_packet();
        let point = packet.get(2).copied().unwrap_or(0);
        let i = self.with(point, |hold| hold == Hold::Held);
        let answer = self.run_lent(i, &Call::Request(packet), tally);
        self.deliver(answer);
    }

    /// New, sent again, or late; some altered or damaged.
    fn request_packet(&mut self) -> Vec<u8> {
        let made = match self.random.below(10) {
            0..=5 => self.issued().or_else(|| self.resent()),
            6 | 7 => self.resent(),
            _ => None,
        };
        let late = || Self::late(&mut self.random, &self.requests);
        let mut packet = made.or_else(late).unwrap_or_default();
        if self.random.chance(25) && packet.len() == 24 {
            self.alter(&mut packet);
        }
        if self.random.chance(5) {
            inputs::damage(&mut self.random, &mut packet);
        }
        packet
    }

    fn issued(&mut self) -> Option<Vec<u8>> {
        let (op, mut argument) = inputs::op_argument(&mut self.random);
        let point = self.point();
        let entry = *self.plan.entry(point);
        if (1..=3).contains(&(op as u32)) && self.random.chance(60) {
            argument = inputs::within(&mut self.random, (entry.low, entry.high));
        }
        let x = self.random.below(self.clients.len() as u32) as usize;
        let packet = self.clients[x].issue(op as u32, u32::from(point), argument);
        let packet = packet.ok()?.to_vec();
        self.requests.push(packet.clone());
        Some(packet)
    }

    fn resent(&mut self) -> Option<Vec<u8>> {
        let x = self.random.below(self.clients.len() as u32) as usize;
        let client = &self.clients[x];
        let call = client.first + self.random.below(client.next - client.first + 1);
        client.resend(call).ok().map(|p| p.to_vec())
    }

    /// Well-formed still, in most cases, but another command.
    fn alter(&mut self, packet: &mut [u8]) {
        let call = get_u32(packet, 8);
        let heard = self.pairs[0].server.heard;
        match self.random.below(7) {
            0 => packet[1] = self.random.below(6) as u8,
            1 | 2 => packet[2] = self.point(),
            3 => put_u32(packet, 4, inputs::at_least_1(&mut self.random)),
            4 => put_u32(packet, 12, call.saturating_sub(self.random.below(16))),
            5 => put_u32(packet, 16, heard.wrapping_add(self.random.below(3))),
            _ => packet[20] = packet[20].wrapping_add(1),
        }
    }

    /// A client and a call that the server has a completion record of, or any.
    fn id(&mut self, i: usize) -> (u32, u32) {
        let records = &self.pairs[i].server.records;
        match records.is_empty() || self.random.chance(30) {
            true => (self.random.below(6), self.random.below(20)),
            false => {
                let r = self.random.pick(records);
                (r.client, r.call)
            }
        }
    }

    fn fetch(&mut self, tally: &mut Tally) {
        let i = self.any();
        let (client, call) = self.id(i);
        let answer = self.run_lent(i, &Call::Fetch(client, call), tally);
        self.deliver(answer);
    }

    /// A reply to its client, or lost.
    fn deliver(&mut self, answer: Answer) {
        if answer.written == 0 || self.random.chance(30) {
            return;
        }
        let packet = self.outputs.written(answer);
        let number = get_u32(packet, 4);
        if let Some(client) = self.clients.iter_mut().find(|c| c.client == number) {
            let _ = client.receive(packet);
        }
    }

    fn sync(&mut self, tally: &mut Tally) {
        let i = self.any();
        let (mark, length) = (self.pairs[i].server.mark, self.pairs[i].server.length);
        let mark = match self.random.below(20) {
            0 => mark - 1,
            1 => length + 1,
            2 => self.random.next_u64(),
            3 => mark,
            4..=8 => mark + self.random.next_u64() % (length - mark + 1),
            _ => length,
        };
        self.run_lent(i, &Call::Sync(mark), tally);
    }

    // ---- leases

    /// Time passes: a client's lease is renewed, or was found ended, and another
    /// client comes in its place.
    fn pass_time(&mut self) {
        self.time = self.time.saturating_add(self.random.below(30));
        let x = self.random.below(self.clients.len() as u32) as usize;
        let number = self.clients[x].client;
        if let Ok(grant) = self.office.renew(number, self.time, 300) {
            let _ = self.clients[x].receive(&grant);
        } else if let Ok(packet) = self.office.query(number, self.time) {
            if packet[0] == 5 {
                self.notices.push(packet.to_vec());
                self.open();
                if self.random.chance(80) {
                    self.clients.swap_remove(x);
                }
            }
        }
    }

    fn notice(&mut self, tally: &mut Tally) {
        let i = self.any();
        let known = &self.pairs[i].server.clients;
        let mut packet = match Self::late(&mut self.random, &self.notices) {
            Some(packet) if self.random.chance(60) || known.is_empty() => packet,
            _ => {
                let client = known.first().map_or(3, |f| f.client);
                let time = self.pairs[i].server.heard;
                let time = time.wrapping_add(self.random.below(3)).wrapping_sub(1);
                write_notice(&Notice { client, time }).to_vec()
            }
        };
        if self.random.chance(10) {
            inputs::damage(&mut self.random, &mut packet);
        }
        self.run_lent(i, &Call::Notice(packet), tally);
    }

    // ---- moves

    fn give(&mut self, tally: &mut Tally) {
        let point = self.point_number();
        let i = self.with(point as u8, |hold| hold == Hold::Held);
        let j = self.any();
        let destination = match self.random.below(12) {
            0 => u32::from(self.pairs[i].server.cabinet),
            1 => inputs::number(&mut self.random),
            _ => u32::from(self.pairs[j].server.cabinet),
        };
        self.run_lent(i, &Call::Give(point, destination), tally);
    }

    fn image(&mut self, tally: &mut Tally) {
        let point = self.point_number();
        let i = self.with(point as u8, |hold| matches!(hold, Hold::Given { .. }));
        let answer = self.run_lent(i, &Call::Image(point), tally);
        if answer.written > 0 {
            self.images.push(self.outputs.written(answer).to_vec());
        }
    }

    fn take(&mut self, tally: &mut Tally) {
        let i = self.any();
        let late = Self::late(&mut self.random, &self.images);
        let mut image = match (late, self.random.below(12)) {
            (None, _) | (_, 0) => self.image_of_others(),
            (Some(image), _) => image,
        };
        // to its destination, or astray
        let number = self.pairs[i].server.cabinet;
        match self.random.below(10) {
            0 => {}
            1..=3 => image[5] = number,
            _ => {
                let to = (self.pairs.iter()).position(|p| p.server.cabinet == image[5]);
                return self.take_at(to.unwrap_or(i), image, tally);
            }
        }
        self.take_at(i, image, tally);
    }

    fn take_at(&mut self, i: usize, mut image: Vec<u8>, tally: &mut Tally) {
        let own = self.pairs[i].server.points[usize::from(image[4])].move_number;
        match self.random.below(14) {
            0 => inputs::damage(&mut self.random, &mut image),
            1 => inputs::disorder(&mut self.random, &mut image),
            2 => put_u32(&mut image, 8, own.saturating_add(1)),
            4 | 5 => image = untimed_image(&image),
            3 if self.random.chance(20) => {
                put_u32(&mut image, 8, u32::MAX - self.random.below(2));
            }
            _ => {}
        }
        self.run_lent(i, &Call::Take(image), tally);
    }

    /// An image that no server of this world made; some with ids that a server
    /// holds for another point.
    fn image_of_others(&mut self) -> Vec<u8> {
        let point = self.point();
        let entry = *self.plan.entry(point);
        let mut image = inputs::image(&mut self.random, Tables::Small, (entry.low, entry.high));
        image[4] = point;
        let i = self.any();
        image[5] = self.pairs[i].server.cabinet;
        put_u32(&mut image, 8, 1 + self.random.below(6));
        if self.random.chance(95) {
            put_u32(&mut image, 12, self.time / 2);
        }
        let records = &self.pairs[i].server.records;
        if !records.is_empty() && self.random.chance(50) {
            let held = *self.random.pick(records);
            image = one_record(&image, (held.client, held.call), held.call);
        }
        image
    }

    fn receipt(&mut self, tally: &mut Tally) {
        let (i, point) = (self.any(), self.point_number());
        let answer = self.run_lent(i, &Call::Receipt(point), tally);
        if answer.written > 0 {
            self.receipts.push(self.outputs.written(answer).to_vec());
        }
    }

    fn release(&mut self, tally: &mut Tally) {
        let mut packet = match Self::late(&mut self.random, &self.receipts) {
            Some(packet) if self.random.chance(80) => packet,
            _ => {
                let point = self.point();
                let cabinet = self.random.below(16) as u8;
                let move_number = self.random.below(5);
                write_receipt(&Receipt {
                    point,
                    cabinet,
                    move_number,
                })
                .to_vec()
            }
        };
        let i = self.with(packet[1], |hold| matches!(hold, Hold::Given { .. }));
        if self.random.chance(10) {
            inputs::damage(&mut self.random, &mut packet);
        }
        self.run_lent(i, &Call::Release(packet), tally);
    }

    // ---- crashes

    /// Lengths of the log that a crash may keep: all, or some where they are many.
    fn may_keep(&mut self, i: usize) -> Vec<usize> {
        let (mark, length) = (self.pairs[i].server.mark as usize, self.pairs[i].length());
        if length - mark <= 100 {
            return (mark..=length).collect();
        }
        let between = |_| mark + self.random.below((length - mark) as u32) as usize;
        (0..20).map(between).collect()
    }

    /// The state is lost, and of the log all but the first bytes: there is any content.
    fn lose(&mut self, i: usize, kept: usize) {
        let pair = &mut self.pairs[i];
        pair.forget(self.random.next_u32() as u8);
        let junk = inputs::byte(&mut self.random);
        pair.log[kept..].fill(junk);
        pair.server_log[kept..].fill(junk);
    }

    /// Power is lost at any byte between mark and length; what each of them
    /// would keep is recovered, and the server goes on with one.
    fn crash(&mut self, tally: &mut Tally) {
        let i = self.any();
        let kept = self.may_keep(i);
        let (mark, length) = (self.pairs[i].server.mark as usize, self.pairs[i].length());
        for &k in &kept {
            let log = self.pairs[i].log[..k].to_vec();
            let answer = self.recovered(&log, tally);
            assert_eq!(answer.number, 0, "a crash kept {k} of {length}");
        }
        if kept.len() > 1 && kept.len() == length - mark + 1 {
            tally.meet("recover: 0, every byte from mark to length");
        }
        let k = *self.random.pick(&kept);
        self.recover_at(i, k, tally);
    }

    /// The server goes on from the log's first bytes; refusals come first now
    /// and then.
    fn recover_at(&mut self, i: usize, kept: usize, tally: &mut Tally) {
        let plan = self.plan_bytes.clone();
        let mut lent = self.pairs[i].whole(&self.outputs);
        lent.log = kept;
        if self.random.chance(30) {
            let mut bad = plan.clone();
            bad[12] = 16 + self.random.below(100) as u8;
            self.run(i, &Call::Recover(bad), &lent, tally);
        }
        if self.random.chance(30) {
            lent.state = self.random.below(STATE_LEN as u32) as usize;
            self.run(i, &Call::Recover(plan.clone()), &lent, tally);
            lent.state = STATE_LEN;
        }
        let without = kept == self.pairs[i].length();
        self.lose(i, kept);
        let answer = self.run(i, &Call::Recover(plan), &lent, tally);
        assert_eq!(answer.number, 0, "a crash kept {kept}");
        if without {
            tally.meet("recover: 0, without a crash");
        } else if self.pairs[i].length() < kept {
            tally.meet("recover: 0, incomplete record");
        }
    }

    /// The log has some records, or all, as a program from before request 6 would have left
    /// them; answers its length.
    fn put_old_forms(&mut self, i: usize) -> usize {
        let (log, share) = (self.log_of(i), *self.random.pick(&[50, 100]));
        let old = untimed_log(&log, || self.random.chance(share));
        let junk = inputs::byte(&mut self.random);
        let pair = &mut self.pairs[i];
        for log in [&mut pair.log, &mut pair.server_log] {
            log.fill(junk);
            log[..old.len()].copy_from_slice(&old);
        }
        old.len()
    }

    /// The server is renewed: it goes on from what the program before left.
    fn renewed(&mut self, tally: &mut Tally) {
        let i = self.any();
        let before = self.pairs[i].server.clone();
        let kept = self.put_old_forms(i);
        let shorter = kept < self.pairs[i].length();
        self.recover_at(i, kept, tally);
        same_but_times(&before, &self.pairs[i].server);
        if shorter {
            tally.meet("recover: 0, forms without times");
        }
    }

    /// A buffer that no call leaves: every call on it is refused, and changes
    /// nothing.
    fn damaged_state(&mut self, tally: &mut Tally) {
        let i = self.any();
        let pair = &mut self.pairs[i];
        let mut state = pair.state.clone();
        spoil(&mut self.random, &mut state);
        let point = self.random.below(64);
        let call = match self.random.below(9) {
            0 => Call::Request(self.requests.last().cloned().unwrap_or_default()),
            1 => Call::Fetch(1, 1),
            2 => Call::Sync(pair.server.length),
            3 => Call::Notice(self.notices.last().cloned().unwrap_or_default()),
            4 => Call::Give(point, 3),
            5 => Call::Image(point),
            6 => Call::Take(self.images.last().cloned().unwrap_or_default()),
            7 => Call::Receipt(point),
            _ => Call::Release(self.receipts.last().cloned().unwrap_or_default()),
        };
        pair.refuses(&call, &mut state, &mut self.outputs);
        tally.meet("damaged state: 19");
    }

    /// What lies past the last completion record changes nothing.
    fn stir(&mut self, tally: &mut Tally) {
        let i = self.any();
        self.pairs[i].stir(&mut self.random);
        tally.meet("other bytes past the last completion record");
    }

    fn step(&mut self, tally: &mut Tally) {
        match self.random.below(200) {
            187 | 188 => self.stir(tally),
            189 => self.renewed(tally),
            180 => self.crash(tally),
            181..=184 => self.damaged_log(tally),
            185 => self.damaged_state(tally),
            186 => {
                let i = self.any();
                let length = self.pairs[i].length();
                self.recover_at(i, length, tally);
            }
            n => self.work(n, tally),
        }
    }

    /// A call of a server that runs, by a number under 200; the last ones let time pass.
    fn work(&mut self, n: u32, tally: &mut Tally) {
        match n {
            0..=85 => self.request(tally),
            86..=97 => self.fetch(tally),
            98..=121 => self.sync(tally),
            122..=127 => self.notice(tally),
            128..=135 => self.give(tally),
            136..=149 => self.image(tally),
            150..=163 => self.take(tally),
            164..=171 => self.receipt(tally),
            172..=179 => self.release(tally),
            _ => self.pass_time(),
        }
    }
}

/// The second is as the first, places in the log aside; it has times or 0.
fn same_but_times(first: &Server, second: &Server) {
    let (mut first, second) = (first.rebased(), second.rebased());
    assert_eq!(first.records.len(), second.records.len());
    for (r, kept) in first.records.iter_mut().zip(&second.records) {
        assert!(kept.time == 0 || kept.time == r.time, "{kept:?} of {r:?}");
        r.time = kept.time;
    }
    assert!(first == second);
}

/// A byte that has one value in every sound buffer, a field past its limit, or
/// what no run leaves: a move number that is not the status's, or records out of
/// the order of arrival.
pub fn spoil(random: &mut Random, state: &mut [u8]) {
    let row = 32 * random.below(64) as usize;
    match random.below(12) {
        0 => state[random.below(4) as usize] ^= 1,
        1 => state[5 + random.below(3) as usize] = 1,
        2 => state[4] = 16,
        3 => state[12] = 33,
        4 => state[17] = 3,
        5 => state[20 + random.below(4) as usize] = 1,
        6 => state[POINTS_AT + row] = 4,
        7 => state[POINTS_AT + row + 3] = 1,
        8 => state[POINTS_AT + row + 8] ^= 1,
        9 => state[POINTS_AT + row + 12] ^= 1,
        10 => late_first(state),
        _ => state[POINTS_AT + row + 1] = 3,
    }
}

/// Exchanges the first two neighbouring records that came with different log
/// records; the magic's first byte where there are none.
fn late_first(state: &mut [u8]) {
    let count = get_u32(state, 16) as usize;
    let row = |i: usize| RECORDS_AT + RECORD_LEN * i;
    let end = |i: usize| state[row(i) + 24..row(i + 1)].to_vec();
    match (1..count).find(|&i| end(i - 1) != end(i)) {
        Some(i) => state[row(i - 1)..row(i + 1)].rotate_left(RECORD_LEN),
        None => state[0] ^= 1,
    }
}

/// The image's head and value, with one floor and one record, in its form.
fn one_record(image: &[u8], (client, call): (u32, u32), floor: u32) -> Vec<u8> {
    let mut bytes = image[..48].to_vec();
    put_u32(&mut bytes, 28, 8);
    put_u32(&mut bytes, 32, 56);
    let row = moved_len(inputs::form_of(image));
    put_u32(&mut bytes, 36, row as u32);
    let value = get_u32(image, 40);
    for word in [client, floor, client, call, 0, value, 0, 60] {
        bytes.extend(word.to_le_bytes());
    }
    bytes.truncate(56 + row);
    bytes
}

#[test]
fn kernel() {
    let mut tally = Tally::new("kernel", &CLASSES);
    let mut seeds = Random::new(seed());
    let mut left = runs() / 2;
    while left > 0 {
        let mut world = World::new(seeds.next_u64(), &mut tally);
        let steps = (*seeds.pick(&[60, 200, 600, 1500])).min(left);
        for _ in 0..steps {
            world.step(&mut tally);
        }
        left -= steps;
    }
    tally.finish();
}

// ---- full tables

/// Two servers, all points at home at server 0.
fn two_servers(tally: &mut Tally) -> World {
    let mut world = World::new(seed(), &mut Tally::new("", &CLASSES));
    world.plan = Plan::uniform(Entry {
        low: -100,
        high: 1000,
        fallback: 0,
        home: 0,
    });
    world.plan_bytes = write_plan(&world.plan).to_vec();
    world.pairs = (0..2)
        .map(|_| pair(&mut world.random, LOG_LEN - 16))
        .collect();
    for number in 0..2 {
        let call = Call::Found(world.plan_bytes.clone(), number);
        world.run_whole(number as usize, &call, tally);
    }
    world
}

fn set(client: u32, call: u32) -> Call {
    let request = Request {
        op: Op::from_byte(1).expect("set"),
        point: 5,
        client,
        call,
        done: 1,
        lease_end: 1000,
        argument: (client + call) as i32,
    };
    Call::Request(write_request(&request).to_vec())
}

const FULL: [&str; 12] = [
    "found: 0",
    "request: executed",
    "request: 8",
    "request: 7",
    "sync: 0",
    "give: 0",
    "image: 0",
    "take: 0",
    "receipt: 0",
    "release: 0",
    "request: result",
    "recover: 0",
];

/// 32 clients with 16 commands each, moved and recovered.
#[test]
fn full() {
    let mut tally = Tally::new("kernel, full tables", &FULL);
    let t = &mut tally;
    let mut world = two_servers(t);
    for call in (1..=16).rev() {
        for client in 1..=32 {
            // in another order than by number
            world.run_whole(0, &set(client * 5 % 33, call), t);
        }
    }
    world.run_whole(0, &set(33, 1), t);
    world.run_whole(0, &set(7, 7), t);
    world.run_whole(0, &Call::Give(5, 1), t);
    world.run_whole(0, &Call::Sync(world.pairs[0].server.length), t);
    let image = world.run_whole(0, &Call::Image(5), t);
    assert_eq!(image.len(), IMAGE_MAX);
    world.run_whole(1, &Call::Take(image), t);
    world.run_whole(1, &Call::Sync(world.pairs[1].server.length), t);
    let receipt = world.run_whole(1, &Call::Receipt(5), t);
    world.run_whole(0, &Call::Release(receipt), t);
    for client in 1..=32 {
        for call in 1..=16 {
            world.run_whole(1, &set(client, call), t);
        }
    }
    for (i, records) in [(0, 0), (1, 512)] {
        let mut lent = world.pairs[i].whole(&world.outputs);
        lent.log = world.pairs[i].length();
        let call = Call::Recover(world.plan_bytes.clone());
        world.run(i, &call, &lent, t);
        assert_eq!(world.pairs[i].server.records.len(), records);
    }
    tally.finish();
}
