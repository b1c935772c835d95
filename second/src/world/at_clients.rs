//! Calls at desks and at the office.

use super::{Desk, World, DESK_PACKETS};
use crate::answer::Refusal;
use crate::bytes::get_u32;
use crate::checker::Command;
use crate::client::{Client, Received};
use crate::faults;
use crate::packet::{parse_grant, GRANT};
use crate::rule::Op;
use crate::schedule::{Party, Which};

impl World<'_> {
    /// Counts a call at a desk or at the office.
    pub(super) fn tally<T>(&mut self, answer: &Result<T, Refusal>) {
        let number = answer.as_ref().err().map_or(0, |refusal| refusal.number());
        self.counts.steps += 1;
        self.counts.refusals[number as usize] += 1;
    }

    /// The time given to the office, at times an earlier one.
    pub(super) fn time(&mut self, wait: u32) -> u32 {
        self.clock += wait;
        self.clock.saturating_sub(self.place % 3)
    }

    // Desks.

    pub(super) fn start(&mut self, packet: Which) {
        let Some(number) = self.pick(packet, &[GRANT]) else {
            return;
        };
        if self.has_desk(number) {
            return;
        }
        let answer = Client::start(&self.pool[number]);
        let answer = answer.map(|client| self.desks.push(Desk::Plain(client)));
        self.tally(&answer);
        self.note(|| format!("start packet {} -> {answer:?}", number + 1));
    }

    /// The packet's client has a desk already.
    pub(super) fn has_desk(&self, packet: usize) -> bool {
        let client = parse_grant(&self.pool[packet]).map(|g| g.client);
        self.desks.iter().any(|d| Some(d.client) == client)
    }

    pub(super) fn issue(&mut self, desk: u8, op: u8, point: u8, argument: i32) {
        let Some(index) = self.desk(desk) else {
            return;
        };
        if self.excluded(index, op, point) {
            return;
        }
        let desk = &mut self.desks[index];
        let before = desk.clone();
        let (client, call) = (desk.client, desk.next);
        let answer = desk.issue(u32::from(op), u32::from(point), argument);
        assert!(answer.is_ok() || *desk == before, "a refusal leaves a desk");
        self.tally(&answer);
        self.compare_opening(index, (op, point, argument), answer.err());
        let made = answer.map(|packet| {
            self.count_issue(index, op, argument);
            self.commands.push(Command {
                client,
                call,
                op: Op::from_byte(op).expect("an issued op is known"),
                point,
                argument,
                issued: self.place,
                completed: None,
                survives: false,
                hint: 0,
            });
            self.keep(&packet)
        });
        self.note(|| {
            format!("issue client {client} op {op} point {point} arg {argument} -> {made:?}")
        });
    }

    /// One of the calls in the desk's window, open or not.
    pub(super) fn resend(&mut self, desk: u8, call: u32) {
        let Some(index) = self.desk(desk) else {
            return;
        };
        let desk = &self.desks[index];
        let call = desk.first + call % (desk.next - desk.first + 1);
        let client = desk.client;
        let answer = desk.resend(call);
        self.tally(&answer);
        let made = answer.map(|packet| self.keep(&packet));
        self.note(|| format!("resend client {client} call {call} -> {made:?}"));
    }

    /// Apt is the desk of the packet's client.
    pub(super) fn receive(&mut self, desk: Party, packet: Which) {
        let Some(number) = self.pick(packet, DESK_PACKETS) else {
            return;
        };
        let client = get_u32(&self.pool[number], 4);
        let index = match desk {
            Party::Apt => self.desks.iter().position(|d| d.client == client),
            Party::Number(n) => self.desk(n),
        };
        let Some(index) = index else {
            return;
        };
        let before = self.desks[index].clone();
        let answer = self.desks[index].receive(&self.pool[number]);
        let same = self.desks[index] == before;
        assert!(answer.is_ok() || same, "a refusal leaves a desk");
        self.tally(&answer);
        if let Ok(Received::Result { call, effect, .. }) = answer {
            let id = (self.desks[index].client, call);
            for c in &mut self.commands {
                if (c.client, c.call) == id {
                    c.completed = Some((self.place, effect));
                }
            }
            self.counts.completed += 1;
        }
        self.note(|| {
            format!(
                "receive packet {} at desk {index} -> {answer:?}",
                number + 1
            )
        });
    }

    // The office.

    pub(super) fn open(&mut self, wait: u32, span: u32) {
        let time = self.time(wait);
        let answer = self.office.open(time, span);
        self.tally(&answer);
        let made = answer.map(|packet| self.keep(&packet));
        self.note(|| format!("open span {span} -> {made:?}"));
    }

    pub(super) fn renew(&mut self, desk: u8, wait: u32, span: u32) {
        let Some(index) = self.desk(desk) else {
            return;
        };
        let time = self.time(wait);
        let client = self.desks[index].client;
        let answer = faults::renew(self.options.fault, &mut self.office, (client, time, span));
        self.tally(&answer);
        let made = answer.map(|packet| self.keep(&packet));
        self.note(|| format!("renew client {client} span {span} -> {made:?}"));
    }

    pub(super) fn query(&mut self, desk: u8, wait: u32) {
        let Some(index) = self.desk(desk) else {
            return;
        };
        let time = self.time(wait);
        let client = self.desks[index].client;
        let answer = self.office.query(client, time);
        self.tally(&answer);
        let made = answer.map(|packet| self.keep(&packet));
        self.note(|| format!("query client {client} -> {made:?}"));
    }
}
