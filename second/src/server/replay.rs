//! Paper 01, "Log": what each record changes, and the replay of a kept log in the
//! two walks of request 3 (paper 02).

use super::{Completion, Hold, Point, Server, Taken, STATE_LEN};
use crate::answer::{Answer, Refusal};
use crate::image::{parse_image, Floor, Image, CLIENTS_MAX};
use crate::plan::{parse_plan, Plan};
use crate::record::{
    parse_head, parse_whole, record_ends, Executed, Give, Gone, Record, Release, HEAD_LEN,
};

impl Server {
    // Changes.

    pub(crate) fn reset(&mut self, plan: Plan, cabinet: u8) {
        self.founded = true;
        self.cabinet = cabinet;
        for (point, entry) in self.points.iter_mut().zip(&plan.entries) {
            *point = Point {
                value: entry.fallback,
                ..Point::ABSENT
            };
            if entry.home == cabinet {
                point.hold = Hold::Held;
            }
        }
        self.plan = plan;
        self.clients.clear();
        self.records.clear();
        self.heard = 0;
        self.length = HEAD_LEN as u64;
        self.mark = HEAD_LEN as u64;
    }

    pub(crate) fn raise_floor(&mut self, client: u32, floor: u32) {
        match self.clients.binary_search_by_key(&client, |c| c.client) {
            Ok(index) => self.clients[index].floor = self.clients[index].floor.max(floor),
            Err(index) => self.clients.insert(index, Floor { client, floor }),
        }
    }

    pub(super) fn apply_executed(&mut self, r: &Executed, end: u64) {
        let point = &mut self.points[usize::from(r.point)];
        point.value = r.value;
        point.quality = r.quality;
        let old = self.floor(r.client);
        self.raise_floor(r.client, r.done);
        let floor = old.max(r.done);
        if old < floor {
            self.records
                .retain(|c| c.client != r.client || c.call >= floor);
        }
        self.records.push(Completion::of_executed(r, end));
    }

    pub(super) fn apply_gone(&mut self, r: &Gone) {
        self.clients.retain(|c| c.client != r.client);
        self.records.retain(|c| c.client != r.client);
        self.heard = self.heard.max(r.time);
    }

    pub(super) fn apply_give(&mut self, r: &Give, end: u64) {
        let point = &mut self.points[usize::from(r.point)];
        point.move_number = r.move_number;
        point.hold = Hold::Given {
            destination: r.destination,
            end,
        };
    }

    pub(super) fn apply_take(&mut self, image: &Image, end: u64) {
        let head = &image.head;
        self.points[usize::from(head.point)] = Point {
            value: head.value,
            quality: head.quality,
            move_number: head.move_number,
            hold: Hold::Held,
            taken: Some(Taken {
                move_number: head.move_number,
                end,
            }),
        };
        for f in image.floors() {
            self.raise_floor(f.client, f.floor);
        }
        self.replace_records(image, end);
        self.heard = self.heard.max(head.heard);
    }

    /// Drops the point's own records and those under a floor, then adds the
    /// image's records that are not under a floor.
    fn replace_records(&mut self, image: &Image, end: u64) {
        let point = image.head.point;
        let mut records = std::mem::take(&mut self.records);
        records.retain(|c| c.point != point && c.call >= self.floor(c.client));
        for r in image.records() {
            if r.call >= self.floor(r.client) {
                records.push(Completion::of_moved(&r, point, end));
            }
        }
        self.records = records;
    }

    pub(super) fn apply_release(&mut self, r: &Release) {
        let point = &mut self.points[usize::from(r.point)];
        if let Hold::Given { destination, end } = point.hold {
            point.hold = Hold::Released { destination, end };
        }
        self.records.retain(|c| c.point != r.point);
    }

    // Recover.

    /// The kept log is the whole slice.
    pub fn recover(&mut self, state_len: usize, log: &[u8], plan: &[u8]) -> Answer {
        if state_len < STATE_LEN {
            return Answer::refused(Refusal::TooShort);
        }
        let Some(plan) = parse_plan(plan) else {
            return Answer::refused(Refusal::Malformed);
        };
        self.recovered(replay(log, plan))
    }

    /// Takes the state recovered, or refuses.
    pub(super) fn recovered(&mut self, state: Option<Server>) -> Answer {
        let Some(state) = state else {
            return Answer::refused(Refusal::BadLog);
        };
        *self = state;
        Answer::DONE
    }

    /// Tests a whole record that ends at `end` against the state, then applies it;
    /// nothing if it cannot follow.
    pub fn follow(&mut self, record: &Record, end: u64) -> Option<()> {
        match record {
            Record::Executed(r) => {
                self.test_executed(r)?;
                self.apply_executed(r, end);
            }
            Record::Gone(r) => {
                self.test_gone(r).ok()?;
                self.apply_gone(r);
            }
            Record::Give(r) => {
                let number = self.test_give(r.point, r.destination).ok()?;
                (number == r.move_number).then_some(())?;
                self.apply_give(r, end);
            }
            Record::Take(bytes) => {
                let image = parse_image(bytes, &self.plan)?;
                self.test_take(&image).ok()?;
                self.apply_take(&image, end);
            }
            Record::Release(r) => {
                let number = self.given_move(r.point).ok()?;
                (number == r.move_number).then_some(())?;
                self.apply_release(r);
            }
        }
        Some(())
    }

    /// Tests 3, 5, 6 (any held id) and 8, and the value's range.
    fn test_executed(&self, r: &Executed) -> Option<()> {
        let known = self.test_floor(r.client, r.call).ok()?;
        let ok = self.held(r.point)
            && self.record_index(r.client, r.call).is_none()
            && (known || self.clients.len() < CLIENTS_MAX)
            && self.plan.entry(r.point).contains(r.value);
        ok.then_some(())
    }
}

/// The state of a log's whole records; nothing if one is broken or cannot
/// follow.
fn replay(log: &[u8], plan: Plan) -> Option<Server> {
    let mut server = Server::new();
    server.reset(plan, parse_head(log)?);
    replay_on(server, log)
}

/// The same from another state than the founding one. The ends of all records are
/// known before the first is read.
pub(super) fn replay_on(mut server: Server, log: &[u8]) -> Option<Server> {
    let ends = record_ends(log).ok()?;
    let mut at = HEAD_LEN;
    for end in ends {
        let record = parse_whole(&log[at..end])?;
        server.follow(&record, end as u64)?;
        at = end;
    }
    server.length = at as u64;
    server.mark = at as u64;
    Some(server)
}
