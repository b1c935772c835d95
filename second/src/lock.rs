//! Paper 02, request 2: when a lost controller's successor may start, and the claim
//! about a lock: nowhere in an order of what survives is the upper gate away from 0
//! together with the lower one.
//!
//! The order is any that keeps each point's sequence of surviving executions and
//! puts a command completed before another was issued first. `check_orders`
//! decides over all of them at once. A place in an order is a cut of both gates'
//! sequences: the first i executions of the upper and the first j of the lower
//! gate stand before it. A cut is a place of some order if and only if no
//! execution behind it must stand before one inside it. What must stand before
//! is a chain of two kinds of steps: completed before issued, and earlier in a
//! point's sequence. A sequence is one of executions in time, so its first one's
//! command is issued before its last one's is completed; hence a chain from one
//! gate to the other through other points is itself a step of the first kind
//! (as in `checker`), and only these steps between the gates are left to test.

use crate::chamber::{LockPoints, LOWER, UPPER};
use crate::plan::Plan;
use crate::rule::Op;
use crate::sequential::SequentialSpec;

// The successor's start.

/// A gate at a server.
#[derive(Clone, Copy, PartialEq, Eq, Debug, Default)]
pub struct Seat {
    /// The server is founded and holds the gate.
    pub holds: bool,
    pub heard: u32,
    /// Heard time of the state that recovery gives from the log's synced part.
    pub synced_heard: u32,
}

/// A gate at its holder (where its move number is greatest, or the home while that is
/// 0; a taker comes before its giver) and at its home.
#[derive(Clone, Copy, PartialEq, Eq, Debug, Default)]
pub struct GateSeats {
    pub holder: Seat,
    pub home: Seat,
}

#[derive(Clone, Copy, PartialEq, Eq, Debug)]
pub struct Proviso {
    /// The earliest time in a notice of the old client; none if none was made.
    pub notice: Option<u32>,
    /// The upper and the lower gate.
    pub gates: [GateSeats; 2],
}

impl Proviso {
    /// Both gates are held, by servers whose synced heard time has reached the old
    /// client's notice.
    pub fn holds(&self) -> bool {
        let reached = |seat: Seat| self.notice.is_some_and(|time| seat.synced_heard >= time);
        self.gates
            .iter()
            .all(|gate| gate.holder.holds && reached(gate.holder))
    }
}

// The claim.

/// A surviving execution; a list of them is in the order of time.
#[derive(Clone, Copy, PartialEq, Eq, Debug)]
pub struct Survivor {
    pub op: Op,
    pub point: u8,
    pub argument: i32,
    /// Places in the schedule. If a fault lets a command be executed after its
    /// completion, that completion is left out.
    pub issued: u32,
    pub completed: Option<u32>,
}

impl Survivor {
    /// Must stand before the other in every order.
    fn before(&self, other: &Survivor) -> bool {
        self.completed.is_some_and(|at| at < other.issued)
    }
}

#[derive(Clone, Copy, PartialEq, Eq, Debug)]
pub enum Gates {
    NeverBothAway,
    /// The values at one place.
    BothAway(i32, i32),
}

/// The order of the executions in time.
pub fn check_order(plan: &Plan, points: &LockPoints, survivors: &[Survivor]) -> Gates {
    let mut book = SequentialSpec::new(*plan);
    for s in survivors {
        book.run(s.op, s.point, s.argument);
        let values = [points.upper, points.lower].map(|p| book.point(p).0);
        if let [upper @ ..=-1 | upper @ 1.., lower @ ..=-1 | lower @ 1..] = values {
            return Gates::BothAway(upper, lower);
        }
    }
    Gates::NeverBothAway
}

/// Every order.
pub fn check_orders(plan: &Plan, points: &LockPoints, survivors: &[Survivor]) -> Gates {
    let gates = [points.upper, points.lower].map(|point| sequence(plan, point, survivors));
    let (upper, lower) = (&gates[UPPER], &gates[LOWER]);
    for (i, (u, _)) in upper.iter().enumerate().filter(|(_, (u, _))| *u != 0) {
        for (j, (l, _)) in lower.iter().enumerate().filter(|(_, (l, _))| *l != 0) {
            if closed(&upper[..=i], &lower[j + 1..]) && closed(&lower[..=j], &upper[i + 1..]) {
                return Gates::BothAway(*u, *l);
            }
        }
    }
    Gates::NeverBothAway
}

/// The executions of a point and its value after each. Before the first one a gate is at 0.
fn sequence(plan: &Plan, point: u8, survivors: &[Survivor]) -> Vec<(i32, Survivor)> {
    let mut book = SequentialSpec::new(*plan);
    let own = survivors.iter().filter(|s| s.point == point);
    own.map(|s| (book.run(s.op, point, s.argument).value, *s))
        .collect()
}

/// No execution behind the cut must stand before one inside it.
fn closed(inside: &[(i32, Survivor)], behind: &[(i32, Survivor)]) -> bool {
    let mut pairs = inside
        .iter()
        .flat_map(|(_, a)| behind.iter().map(move |(_, b)| (a, b)));
    pairs.all(|(a, b)| !b.before(a))
}
