//! Long logs for the benchmark, made by the proved server's calls.

use crate::checkpoint::checkpoint;
use crate::kernel::Call;
use second::checkpoint::CHECKPOINT_LEN;
use second::image::{CLIENTS_MAX, IMAGE_MAX};
use second::packet::{write_notice, write_request, Notice, Request, WINDOW};
use second::plan::{write_plan, Entry, Plan};
use second::random::Random;
use second::record::{EXECUTED_LEN, HEAD_LEN};
use second::rule::Op;
use second::server::STATE_LEN;

/// A log, the plan of its server, and how many records it has.
pub struct Long {
    pub plan: Vec<u8>,
    pub log: Vec<u8>,
    pub records: u64,
}

/// A log of full tables; and the checkpoint and the tail of a server that made one before the last records.
pub struct Replaced {
    pub whole: Long,
    pub checkpoint: Vec<u8>,
    pub tail: Vec<u8>,
}

const CLIENTS: u32 = 8;

/// More than one exchange of a point appends.
const MARGIN: usize = 4096;

struct One {
    state: Vec<u8>,
    log: Vec<u8>,
    records: u64,
}

impl One {
    fn new(plan: &[u8], number: u32, bytes: usize) -> One {
        let mut one = One {
            state: vec![0; STATE_LEN],
            log: vec![0; bytes],
            records: 0,
        };
        one.call(Call::Found(plan.to_vec(), number));
        one
    }

    fn length(&self) -> usize {
        let bytes = self.state[24..32].try_into().expect("8 bytes");
        u64::from_le_bytes(bytes) as usize
    }

    /// What it writes; a record more if the log is longer then.
    fn call(&mut self, call: Call) -> Vec<u8> {
        let (before, mut out) = (self.length(), vec![0; IMAGE_MAX]);
        let answer = call.proved(&mut self.state, &mut self.log, &mut out);
        assert_eq!(answer.number, 0, "{call:02x?}");
        self.records += u64::from(before >= 8 && self.length() > before);
        out.truncate(answer.written);
        out
    }

    fn sync(&mut self) {
        self.call(Call::Sync(self.length() as u64));
    }

    /// Its checkpoint; from now on the log has the head alone. The log that was is given too.
    fn checkpoint(&mut self) -> (Vec<u8>, Vec<u8>) {
        self.sync();
        let replaced = self.log[..self.length()].to_vec();
        let (mut made, mut tail) = (vec![0; CHECKPOINT_LEN], [0; HEAD_LEN]);
        let answer = checkpoint(&mut self.state, &self.log, &mut made, &mut tail);
        assert_eq!(answer.number, 0);
        self.log[..HEAD_LEN].copy_from_slice(&tail);
        made.truncate(answer.written);
        (made, replaced)
    }
}

/// Two servers, of which the first has all points; each client's next call number.
struct Plant {
    plan: Vec<u8>,
    first: One,
    other: One,
    next: [u32; CLIENTS_MAX],
}

impl Plant {
    fn new(bytes: usize) -> Plant {
        let plan = write_plan(&Plan::uniform(Entry {
            low: -100,
            high: 1000,
            fallback: 0,
            home: 0,
        }))
        .to_vec();
        Plant {
            first: One::new(&plan, 0, bytes),
            other: One::new(&plan, 1, bytes),
            plan,
            next: [1; CLIENTS_MAX],
        }
    }

    /// The client's next command; its floor is this call, so that one record of it stays.
    fn request(&mut self, client: u32) {
        self.request_after(client, 0);
    }

    /// The same, with so many calls open before this one, so that their records stay.
    fn request_after(&mut self, client: u32, open: u32) {
        let call = self.next[client as usize - 1];
        self.next[client as usize - 1] += 1;
        let request = Request {
            op: Op::from_byte(1).expect("set"),
            point: 5,
            client,
            call,
            done: call - open,
            lease_end: u32::MAX,
            argument: (call % 1000) as i32,
        };
        self.first
            .call(Call::Request(write_request(&request).to_vec()));
    }

    /// A command, and the end of its client's lease.
    fn gone(&mut self, client: u32) {
        self.request(client);
        let time = self.first.records as u32;
        let notice = Notice { client, time };
        self.first
            .call(Call::Notice(write_notice(&notice).to_vec()));
    }

    /// Point 6 goes to the other server and back.
    fn exchange(&mut self) {
        self.first.call(Call::Give(6, 1));
        hand(&mut self.first, &mut self.other);
        self.other.call(Call::Give(6, 0));
        hand(&mut self.other, &mut self.first);
    }

    fn done(self) -> Long {
        let length = self.first.length();
        Long {
            plan: self.plan,
            log: self.first.log[..length].to_vec(),
            records: self.first.records,
        }
    }
}

/// A given point: image, take, receipt, release.
fn hand(giver: &mut One, taker: &mut One) {
    giver.sync();
    let image = giver.call(Call::Image(6));
    taker.call(Call::Take(image));
    taker.sync();
    let receipt = taker.call(Call::Receipt(6));
    giver.call(Call::Release(receipt));
}

/// Commands alone, the clients in turn.
pub fn executed(bytes: usize, seed: u64) -> Long {
    let mut plant = Plant::new(bytes);
    let mut client = seed as u32;
    while plant.first.length() + MARGIN < bytes {
        client = client % CLIENTS + 1;
        plant.request(client);
    }
    plant.done()
}

/// All five kinds of records in no order: of 20 steps 16 are commands, 3 end a lease, one exchanges a point.
pub fn mixed(bytes: usize, seed: u64) -> Long {
    let (mut plant, mut random) = (Plant::new(bytes), Random::new(seed));
    while plant.first.length() + MARGIN < bytes {
        let client = 1 + random.below(CLIENTS);
        match random.below(20) {
            0..=15 => plant.request(client),
            16..=18 => plant.gone(client),
            _ => plant.exchange(),
        }
    }
    plant.done()
}

/// Commands; 32 clients with 16 completion records each in the end, all along the last records.
pub fn replaced(bytes: usize, records: u32) -> Replaced {
    let mut plant = Plant::new(bytes);
    let space = bytes - CLIENTS_MAX * WINDOW as usize * EXECUTED_LEN;
    let mut client = 0;
    while plant.first.length() + MARGIN < space {
        client = client % CLIENTS + 1;
        plant.request(client);
    }
    for open in 0..WINDOW {
        (1..=CLIENTS_MAX as u32).for_each(|client| plant.request_after(client, open));
    }
    let (checkpoint, log) = plant.first.checkpoint();
    (1..=records).for_each(|client| plant.request_after(client, WINDOW - 1));
    let tail = plant.done();
    Replaced {
        checkpoint,
        whole: Long {
            log: [&log, &tail.log[HEAD_LEN..]].concat(),
            plan: tail.plan,
            records: tail.records,
        },
        tail: tail.log,
    }
}
