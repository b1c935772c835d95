//! A lock in a schedule: its controllers, what a successor's start looks at, and
//! the claim about its gates.
//!
//! Steps that the request's proviso excludes are passed over: another desk's
//! commands on gates but reads, and a successor's start before its time.

use super::account::holder;
use super::choice::modulo;
use super::{Counts, Desk, Options, World};
use crate::bytes::get_u32;
use crate::chamber::{is_opening, levels_beside, other_gate, Chamber, LockPoints, LEVELS_APART};
use crate::checker::Violation;
use crate::faults::{seen, Fault, FaultyChamber};
use crate::lock::{check_order, check_orders, GateSeats, Gates, Proviso, Seat, Survivor};
use crate::packet::{parse_notice, parse_request, GRANT, NOTICE, REQUEST};
use crate::plan::POINTS;
use crate::rule::Op;
use crate::schedule::{Flaw, LockSchedule, Manner, Party, Which};
use crate::sequential::SequentialSpec;
use crate::server::{Hold, Server};

pub struct LockRun {
    /// Demand 3, also by the order of the executions.
    pub demand3: Result<(), Violation>,
    /// The gates in the order of the executions, and in every order that keeps
    /// real time and each point's sequence.
    pub order: Gates,
    pub orders: Gates,
    /// Place of the first opening whose answer is not as its conditions ask.
    pub wrong_opening: Option<u32>,
    pub counts: Counts,
    pub trace: Vec<String>,
}

impl LockRun {
    pub fn both_away(&self) -> bool {
        [self.order, self.orders] != [Gates::NeverBothAway; 2]
    }
}

/// Steps between two checks of the gates: the steps so far are a schedule too.
const INTERVAL: usize = 40;

/// Runs the schedule and checks demand 3 after it, and the claim about the gates also
/// at intervals.
pub fn run_lock(lock: &LockSchedule, options: Options) -> LockRun {
    let mut world = World::new_lock(lock, options);
    let mut gates = [Gates::NeverBothAway; 2];
    for steps in lock.schedule.steps.chunks(INTERVAL) {
        steps.iter().for_each(|step| world.step(step));
        if gates == [Gates::NeverBothAway; 2] {
            gates = world.check_gates(&lock.points);
        }
    }
    world.count_left_crashed();
    let [order, orders] = gates;
    LockRun {
        demand3: world.check().and_then(|()| world.check_sequence()),
        order,
        orders,
        wrong_opening: world.wrong_opening,
        counts: world.counts,
        trace: world.trace,
    }
}

/// Drops steps as long as both gates are away from 0 somewhere.
pub fn minimise_lock(lock: &LockSchedule, options: Options) -> LockSchedule {
    let mut best = lock.clone();
    let mut size = best.schedule.steps.len() / 2;
    while size >= 1 {
        let mut at = 0;
        while at < best.schedule.steps.len() {
            let mut shorter = best.clone();
            let end = (at + size).min(best.schedule.steps.len());
            shorter.schedule.steps.drain(at..end);
            match run_lock(&shorter, options).both_away() {
                true => best = shorter,
                false => at += size,
            }
        }
        size /= 2;
    }
    best
}

impl<'a> World<'a> {
    pub fn new_lock(lock: &'a LockSchedule, options: Options) -> World<'a> {
        World {
            lock: Some(lock.points),
            ..World::new(&lock.schedule, options)
        }
    }
}

impl World<'_> {
    // Controllers.

    pub(super) fn start_controller(&mut self, packet: Which) {
        let (Some(points), Some(number)) = (self.lock, self.pick(packet, &[GRANT])) else {
            return;
        };
        if self.has_desk(number) {
            return;
        }
        if !self.controllers.is_empty() && !seen(&self.proviso(&points), self.options.fault).holds()
        {
            self.counts.put_off += 1;
            self.note(|| "start of a controller put off".to_string());
            return;
        }
        let answer = Chamber::start(&self.pool[number], points.numbers().map(u32::from));
        self.tally(&answer);
        self.note(|| format!("start controller packet {} -> {answer:?}", number + 1));
        if let Ok(chamber) = answer {
            let chamber = FaultyChamber::new(chamber, self.options.fault);
            self.controllers.push(self.desks.len());
            self.desks.push(Desk::Controller(chamber));
            self.counts.controllers += 1;
        }
    }

    /// What the proviso of the next controller's start looks at.
    fn proviso(&self, points: &LockPoints) -> Proviso {
        let old = self.controllers.last().map(|&i| self.desks[i].client);
        let notices = self.kinds[usize::from(NOTICE)].iter();
        let notices = notices.filter_map(|&n| parse_notice(&self.pool[n]));
        let servers = self.final_states();
        Proviso {
            notice: notices
                .filter(|n| Some(n.client) == old)
                .map(|n| n.time)
                .min(),
            gates: [points.upper, points.lower].map(|gate| self.seats(gate, &servers)),
        }
    }

    fn seats(&self, gate: u8, servers: &[Server]) -> GateSeats {
        let home = self.schedule.plan.entry(gate).home;
        let at_home = servers.iter().find(|s| s.cabinet == home);
        let at_holder = holder(servers, usize::from(gate), home);
        let seat = |s: Option<&Server>| s.map_or(Seat::default(), |s| self.seat(gate, s));
        GateSeats {
            holder: seat(at_holder),
            home: seat(at_home),
        }
    }

    fn seat(&self, gate: u8, server: &Server) -> Seat {
        let cabinet = usize::from(server.cabinet);
        let (mark, _) = self.cabinets[cabinet].mark_and_length();
        let synced = self.recovered(cabinet, mark);
        Seat {
            holds: server.point(gate).hold == Hold::Held,
            heard: server.heard,
            synced_heard: synced.expect("a kept log recovers").heard,
        }
    }

    /// Whether the proviso excludes this issue: only controllers command gates.
    pub(super) fn excluded(&self, desk: usize, op: u8, point: u8) -> bool {
        let gate = self.lock.is_some_and(|l| l.is_gate(point));
        let plain = matches!(self.desks[desk], Desk::Plain(_));
        let open_to_all = self.options.fault == Some(Fault::OtherDeskMovesGate);
        gate && plain && op != Op::Read as u8 && !open_to_all
    }

    /// The next call toward an opening of a gate.
    pub(super) fn toward(&mut self, desk: u8, gate: u8, opening: (u8, i32), manner: Manner) {
        let Some(Desk::Controller(chamber)) = self.desk(desk).map(|i| &self.desks[i]) else {
            return;
        };
        if chamber.has_open() && manner != Manner::Impatient {
            return self.resend(desk, 0);
        }
        let (place, (op, argument)) = next_toward(chamber, usize::from(gate), opening, manner);
        let point = chamber.points.numbers()[place];
        self.issue(desk, op, point, argument);
    }

    /// One of the controllers' requests for an opening.
    pub(super) fn late_opening(&mut self, at: Party, number: u32, lost: bool) {
        let controllers = match self.controllers.split_last() {
            Some((_, before)) if lost => before,
            _ => &self.controllers,
        };
        let clients: Vec<u32> = controllers.iter().map(|&i| self.desks[i].client).collect();
        let requests = self.kinds[usize::from(REQUEST)].iter().copied();
        let openings: Vec<usize> = requests
            .filter(|&n| clients.contains(&get_u32(&self.pool[n], 4)) && self.is_opening(n))
            .collect();
        if let Some(index) = modulo(number, openings.len()) {
            let refused = self.counts.refusals[4];
            self.request_packet(at, openings[index], Flaw::None);
            self.counts.late_openings += 1;
            self.counts.late_refused += self.counts.refusals[4] - refused;
        }
    }

    /// The packet is a request for an opening of a gate.
    pub(super) fn is_opening(&self, packet: usize) -> bool {
        self.opens(&self.pool[packet])
    }

    fn opens(&self, packet: &[u8]) -> bool {
        let gate = |point| self.lock.is_some_and(|l| l.is_gate(point));
        let request = parse_request(packet);
        request.is_some_and(|r| gate(r.point) && is_opening(r.op, r.argument))
    }

    // Counts.

    pub(super) fn count_issue(&mut self, desk: usize, op: u8, argument: i32) {
        if self.controllers.contains(&desk) {
            let opening = Op::from_byte(op).is_some_and(|op| is_opening(op, argument));
            self.counts.openings += u64::from(opening);
            let lost = self.controllers.last() != Some(&desk);
            self.counts.issued_lost += u64::from(lost);
        }
    }

    /// Counts an opening that was executed and left the gate away from 0.
    pub(super) fn count_opened(&mut self, packet: &[u8], cabinet: usize) {
        if self.opens(packet) {
            let away = self.point_at(cabinet, packet[2]).value != 0;
            self.counts.opened += u64::from(away);
        }
    }

    // The claim.

    /// The surviving executions in the order of time.
    pub fn survivors(&self) -> Vec<Survivor> {
        let executions = self.executions.iter().filter(|e| e.survives);
        executions
            .map(|e| {
                let c = &self.commands[e.command];
                let completed = c.completed.map(|(at, _)| at);
                Survivor {
                    op: c.op,
                    point: c.point,
                    argument: c.argument,
                    issued: c.issued,
                    completed: completed.filter(|&at| at > e.place),
                }
            })
            .collect()
    }

    /// The gates in the order of time and in every order.
    fn check_gates(&self, points: &LockPoints) -> [Gates; 2] {
        let (plan, survivors) = (&self.schedule.plan, self.survivors());
        [check_order, check_orders].map(|check| check(plan, points, &survivors))
    }

    /// Whether the surviving executions in the order of time, which keeps each
    /// point's sequence, are an order as demand 3 asks for.
    fn check_sequence(&self) -> Result<(), Violation> {
        let mut book = SequentialSpec::new(self.schedule.plan);
        let mut placed = vec![false; self.commands.len()];
        for e in self.executions.iter().filter(|e| e.survives) {
            let c = &self.commands[e.command];
            let effect = book.run(c.op, c.point, c.argument);
            let again = std::mem::replace(&mut placed[e.command], true);
            let agrees = |(at, received)| at > e.place && received == effect;
            if again || c.issued > e.place || !c.completed.is_none_or(agrees) {
                return Err(Violation::NoOrder { point: c.point });
            }
        }
        let finals = self.finals();
        let differs = |&p: &u8| finals[usize::from(p)].is_some_and(|f| f != book.point(p));
        match (0..POINTS as u8).find(differs) {
            Some(point) => Err(Violation::NoOrder { point }),
            None => Ok(()),
        }
    }
}

/// Place and command of the next call toward an opening.
fn next_toward(
    chamber: &Chamber,
    gate: usize,
    opening: (u8, i32),
    manner: Manner,
) -> (usize, (u8, i32)) {
    let read = (Op::Read as u8, 0);
    let close = (Op::Set as u8, 0);
    let other = other_gate(gate);
    let since = match (manner, chamber.reads[other]) {
        (Manner::OtherUnread, _) => chamber.moved,
        (_, Some(r)) if r.call > chamber.moved => {
            if !r.is_closed() && manner != Manner::OtherNotClosed {
                return (other, close);
            }
            r.call
        }
        _ => return (other, read),
    };
    let [one, two] = levels_beside(gate);
    let level = |place: usize| chamber.reads[place].filter(|r| r.call > since);
    match (level(one), level(two)) {
        (None, _) => (one, read),
        (_, None) => (two, read),
        (Some(a), _) if !a.is_valid_level() => (one, read),
        (_, Some(b)) if !b.is_valid_level() => (two, read),
        (Some(a), Some(b)) if a.value.abs_diff(b.value) > LEVELS_APART => (one, read),
        _ => (gate, opening),
    }
}
