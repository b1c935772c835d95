//! Servers with one planted fault ("Where builders go astray"), for tests of the
//! checker only. A fault stands around the calls of a sound server, never in them.
//! Those of request 2 (paper 02) stand around a controller, its successor's start,
//! the other desks and the office; some of request 5 stand around what a host keeps.
//! Those of request 6 change times alone, those of request 7 qualities. Those of request 8
//! stand around a dispatcher.

use crate::answer::Answer;
use crate::bytes::put_u32;
use crate::packet::{parse_request, RESULT_LEN, RESULT_UNTIMED_LEN, WINDOW};
use crate::plan::Entry;
use crate::program::{Form, Program};
use crate::record::{
    executed_len, parse_executed, parse_record, write_executed, write_executed_untimed, Executed,
    Parsed, Record, HEAD_LEN,
};
use crate::rule::{apply_by, Op, PartRule, Rules, BY_HAND, INVALID, STOPPED, VALID};
use crate::server::{Completion, Server};
use std::ops::{Deref, DerefMut};

mod checkpoint;
mod dispatcher;
mod fault;
mod lock;

pub use dispatcher::FaultyDispatcher;
pub use fault::Fault;
pub use lock::{renew, seen, FaultyChamber};

/// A server, or one with a fault around the calls that stand here; the others are the
/// server's own.
#[derive(Clone, PartialEq, Eq, Debug)]
pub struct Faulty {
    server: Server,
    fault: Option<Fault>,
}

impl Deref for Faulty {
    type Target = Server;

    fn deref(&self) -> &Server {
        &self.server
    }
}

impl DerefMut for Faulty {
    fn deref_mut(&mut self) -> &mut Server {
        &mut self.server
    }
}

impl Faulty {
    pub fn new(fault: Option<Fault>) -> Faulty {
        Faulty {
            server: Server::new(),
            fault,
        }
    }

    /// Request as the given program answers it.
    pub fn request_by(
        &mut self,
        program: Program,
        len: usize,
        log: &mut [u8],
        packet: &[u8],
        out: &mut [u8],
    ) -> Answer {
        let server = &mut self.server;
        let mut request = |s: &mut Server| s.request_by(program, len, log, packet, out);
        match self.fault {
            Some(Fault::ReplyBeforeSync) => with_mark_at_end(server, request),
            Some(Fault::LeaseEndNotTested) => {
                let packet = with_longest_lease(packet);
                server.request_by(program, len, log, &packet, out)
            }
            Some(Fault::TimeOfReply) => {
                let answer = request(server);
                tell_time(server.heard, answer, out);
                answer
            }
            Some(Fault::FloorNotTested) => {
                let id = parse_request(packet).map_or((0, 0), |r| (r.client, r.call));
                without_floor(server, id, request)
            }
            fault => {
                let answer = request(server);
                if let Some(change) = wrong_rule(fault, program.rules) {
                    change_executed(program.form, server, log, answer, change);
                }
                answer
            }
        }
    }

    /// Fetch as a program that writes the given form answers it.
    pub fn fetch_as(
        &mut self,
        form: Form,
        len: usize,
        log: &[u8],
        id: (u32, u32),
        out: &mut [u8],
    ) -> Answer {
        let server = &mut self.server;
        let mut fetch = |s: &mut Server| s.fetch_as(form, len, log, id, out);
        match self.fault {
            Some(Fault::ReplyBeforeSync) => with_mark_at_end(server, fetch),
            Some(Fault::TimeOfReply) => {
                let answer = fetch(server);
                tell_time(server.heard, answer, out);
                answer
            }
            _ => fetch(server),
        }
    }

    pub fn notice(&mut self, len: usize, log: &mut [u8], packet: &[u8]) -> Answer {
        let heard = self.server.heard;
        let answer = self.server.notice(len, log, packet);
        if self.fault == Some(Fault::NoticeWithoutHeard) {
            self.server.heard = heard;
        }
        answer
    }

    /// Take as the given program answers it.
    pub fn take_by(
        &mut self,
        program: Program,
        len: usize,
        log: &mut [u8],
        image: &[u8],
    ) -> Answer {
        let heard = self.server.heard;
        let answer = self.server.take_by(program, len, log, image);
        match self.fault {
            Some(Fault::TakeWithoutHeard) => self.server.heard = heard,
            Some(Fault::TimeOfTake) if answer == Answer::DONE => {
                let (taken, heard) = (self.server.length, self.server.heard);
                let taken = |r: &&mut Completion| r.end == taken;
                let records = self.server.records.iter_mut().filter(taken);
                records.for_each(|r| r.time = heard);
            }
            _ => {}
        }
        answer
    }

    /// Image as a program that writes the given form answers it.
    pub fn image_as(
        &self,
        form: Form,
        len: usize,
        log: &[u8],
        point: u32,
        out: &mut [u8],
    ) -> Answer {
        let mut view = self.server.clone();
        match self.fault {
            Some(Fault::ImageBeforeSync) => view.mark = view.length,
            Some(Fault::ImageWithoutHeard) => view.heard = 0,
            Some(Fault::ImageWithoutRecords) => view.records.clear(),
            Some(Fault::ImageWithoutTimes) => drop_times(&mut view),
            Some(Fault::ImageWithoutFloors) => {
                view.records.retain(|r| u32::from(r.point) == point);
                lower_floors(&mut view);
            }
            _ => {}
        }
        view.image_as(form, len, log, point, out)
    }

    /// Recover by a program of the given rules, which make no difference without
    /// a fault. The kept log is the whole slice.
    pub fn recover_by(&mut self, rules: Rules, len: usize, log: &[u8], plan: &[u8]) -> Answer {
        let server = &mut self.server;
        match self.fault {
            Some(Fault::FloorNotTested) => {
                recover_with(server, len, log, plan, follow_without_floor)
            }
            Some(Fault::RecoverWorksOut) => {
                recover_with(server, len, log, plan, |server, record, end| {
                    follow_worked_out(rules, server, record, end)
                })
            }
            Some(Fault::RecoverWorksTimesOut) => {
                recover_with(server, len, log, plan, follow_timed_now)
            }
            Some(Fault::RecoverToFounding) => {
                let answer = server.recover(len, log, plan);
                if answer == Answer::DONE {
                    server.reset(server.plan, server.cabinet);
                }
                answer
            }
            _ => server.recover(len, log, plan),
        }
    }
}

/// What a fault in a rule changes in the record of a command.
fn wrong_rule(fault: Option<Fault>, rules: Rules) -> Option<fn(&mut Executed, &Entry)> {
    match fault? {
        Fault::StepToOtherEnd => Some(to_other_end),
        Fault::StepLosesQuality => Some(lose_quality),
        Fault::PartHalfUp if rules.part != PartRule::Down => Some(half_up),
        Fault::StepLosesByHand => Some(lose_by_hand),
        Fault::ReportByHand if rules.quality_max() == BY_HAND => Some(report_by_hand),
        _ => None,
    }
}

fn to_other_end(record: &mut Executed, entry: &Entry) {
    if record.outcome == STOPPED {
        record.value = match record.value == entry.low {
            true => entry.high,
            false => entry.low,
        };
    }
}

fn lose_quality(record: &mut Executed, _: &Entry) {
    if record.outcome == STOPPED {
        record.quality = INVALID;
    }
}

fn lose_by_hand(record: &mut Executed, _: &Entry) {
    if (record.op, record.quality) == (Op::Step, BY_HAND) {
        record.quality = VALID;
    }
}

fn report_by_hand(record: &mut Executed, _: &Entry) {
    if (record.op, record.quality) == (Op::Report, VALID) {
        record.quality = BY_HAND;
    }
}

fn half_up(record: &mut Executed, entry: &Entry) {
    let product = (i64::from(entry.high) - i64::from(entry.low)) * i64::from(record.argument);
    if record.op == Op::Part && product % 1000 == 500 {
        record.value = (i64::from(entry.low) + product / 1000 + 1) as i32;
    }
}

/// Changes what a request left that executed a command: its record in the log,
/// its completion record and the point.
fn change_executed(
    form: Form,
    server: &mut Server,
    log: &mut [u8],
    answer: Answer,
    change: fn(&mut Executed, &Entry),
) {
    if answer != Answer::DONE {
        return;
    }
    let end = server.length as usize;
    let bytes = &mut log[end - executed_len(form)..end];
    let mut record = parse_executed(bytes).expect("the record of the request");
    let entry = server.plan.entry(record.point);
    change(&mut record, entry);
    match form {
        Form::Untimed => bytes.copy_from_slice(&write_executed_untimed(&record)),
        Form::Timed => bytes.copy_from_slice(&write_executed(&record)),
    }
    let point = &mut server.points[usize::from(record.point)];
    (point.value, point.quality) = (record.value, record.quality);
    if let Some(r) = server.records.last_mut() {
        (r.value, r.quality) = (record.value, record.quality);
    }
}

/// A request whose lease end passes at every heard time but the last.
fn with_longest_lease(packet: &[u8]) -> Vec<u8> {
    let mut packet = packet.to_vec();
    if parse_request(&packet).is_some() {
        put_u32(&mut packet, 16, u32::MAX);
    }
    packet
}

/// Puts another time in the result that a call wrote.
fn tell_time(time: u32, answer: Answer, out: &mut [u8]) {
    if answer == Answer::wrote(RESULT_LEN) {
        put_u32(out, RESULT_UNTIMED_LEN, time);
    }
}

fn drop_times(view: &mut Server) {
    view.records.iter_mut().for_each(|r| r.time = 0);
}

/// A call that finds the whole log synced.
fn with_mark_at_end(server: &mut Server, call: impl FnOnce(&mut Server) -> Answer) -> Answer {
    let mark = std::mem::replace(&mut server.mark, server.length);
    let answer = call(server);
    server.mark = mark;
    answer
}

/// A step that does not find the client of this id, if the call is under its floor. The
/// client's floor and records stay; a completion record under the floor is not kept.
fn without_floor<T>(
    server: &mut Server,
    (client, call): (u32, u32),
    step: impl FnOnce(&mut Server) -> T,
) -> T {
    let under = |s: &Server| (s.clients.iter()).any(|c| c.client == client && call < c.floor);
    if !under(server) {
        return step(server);
    }
    let (clients, records) = (server.clients.clone(), server.records.clone());
    server.clients.retain(|c| c.client != client);
    server.records.retain(|r| r.client != client);
    let done = step(server);
    (server.clients, server.records) = (clients, records);
    done
}

/// As recover, with another way to follow a record that ends at the place given.
fn recover_with(
    server: &mut Server,
    len: usize,
    log: &[u8],
    plan: &[u8],
    follow: impl Fn(&mut Server, Record, u64) -> Option<()>,
) -> Answer {
    let mut new = Server::new();
    let answer = new.recover(len, log.get(..HEAD_LEN).unwrap_or(log), plan);
    if answer != Answer::DONE {
        return answer;
    }
    let mut at = HEAD_LEN;
    while let Parsed::Whole(record, end) = parse_record(log, at) {
        follow(&mut new, record, end as u64).expect("a kept log recovers");
        at = end;
    }
    (new.length, new.mark) = (at as u64, at as u64);
    *server = new;
    Answer::DONE
}

fn follow_without_floor(server: &mut Server, record: Record, end: u64) -> Option<()> {
    let id = match record {
        Record::Executed(r) => (r.client, r.call),
        _ => (0, 0),
    };
    without_floor(server, id, |s| s.follow(&record, end))
}

/// An executed record without its time gets the heard time of the replay; one with its
/// time has that already.
fn follow_timed_now(server: &mut Server, mut record: Record, end: u64) -> Option<()> {
    if let Record::Executed(r) = &mut record {
        r.time = server.heard;
    }
    server.follow(&record, end)
}

fn follow_worked_out(
    rules: Rules,
    server: &mut Server,
    mut record: Record,
    end: u64,
) -> Option<()> {
    if let Record::Executed(r) = &mut record {
        let (point, entry) = (server.point(r.point), server.plan.entry(r.point));
        let effect = apply_by(rules, r.op, r.argument, entry, point.value, point.quality);
        (r.outcome, r.value, r.quality) = (effect.outcome, effect.value, effect.quality);
    }
    server.follow(&record, end)
}

/// For each client of the records, the lowest floor under which they are still sound.
fn lower_floors(server: &mut Server) {
    server.clients.clear();
    for i in 0..server.records.len() {
        let r = server.records[i];
        server.raise_floor(r.client, r.call.saturating_sub(WINDOW - 1).max(1));
    }
}
