//! Paper 02, request 2: the controller of a lock chamber, a desk for two gates and
//! three levels, with its start, issue, resend and receive. It has one command open at a
//! time, so its reads are completed in the order of their calls. Request 7: a value by
//! hand is valid on a gate and invalid on a level.

use crate::answer::Refusal;
use crate::client::{Client, Made, OpenCall, Received};
use crate::packet::parse_result;
use crate::plan::POINTS;
use crate::rule::{Effect, Op, BY_HAND, VALID};

/// Greatest difference of the levels beside a gate that is opened.
pub const LEVELS_APART: u32 = 5;

/// The points of a lock: level 1 stands above the upper gate, level 2 in the
/// chamber and level 3 below the lower gate.
#[derive(Clone, Copy, PartialEq, Eq, Debug)]
pub struct LockPoints {
    pub upper: u8,
    pub lower: u8,
    pub levels: [u8; 3],
}

/// Places of the points in the order upper, lower, level 1, 2, 3.
pub const UPPER: usize = 0;
pub const LOWER: usize = 1;
pub const GATES: [usize; 2] = [UPPER, LOWER];
const CHAMBER: usize = 3;

impl LockPoints {
    /// Points 0 to 63, all different; in the order of their places.
    pub fn new(numbers: [u32; 5]) -> Option<LockPoints> {
        let different = (0..5).all(|i| !numbers[..i].contains(&numbers[i]));
        let known = numbers.iter().all(|&n| (n as usize) < POINTS);
        let [upper, lower, levels @ ..] = numbers.map(|n| n as u8);
        (different && known).then_some(LockPoints {
            upper,
            lower,
            levels,
        })
    }

    pub fn numbers(&self) -> [u8; 5] {
        let [level1, level2, level3] = self.levels;
        [self.upper, self.lower, level1, level2, level3]
    }

    pub fn place(&self, point: u8) -> Option<usize> {
        self.numbers().iter().position(|&p| p == point)
    }

    pub fn is_gate(&self, point: u8) -> bool {
        point == self.upper || point == self.lower
    }
}

/// The place of the other gate.
pub fn other_gate(gate: usize) -> usize {
    UPPER + LOWER - gate
}

/// The places of the levels beside a gate.
pub fn levels_beside(gate: usize) -> [usize; 2] {
    [CHAMBER - 1 + gate, CHAMBER + gate]
}

/// An opening is any set or part but set 0.
pub fn is_opening(op: Op, argument: i32) -> bool {
    moves(op) && (op, argument) != (Op::Set, 0)
}

fn moves(op: Op) -> bool {
    matches!(op, Op::Set | Op::Part)
}

/// The latest completed read of a point.
#[derive(Clone, Copy, PartialEq, Eq, Debug)]
pub struct LatestRead {
    pub call: u32,
    pub value: i32,
    pub quality: u8,
}

impl LatestRead {
    /// Of a gate: 0, measured or by hand.
    pub fn is_closed(&self) -> bool {
        self.value == 0 && matches!(self.quality, VALID | BY_HAND)
    }

    /// Of a level: measured.
    pub fn is_valid_level(&self) -> bool {
        self.quality == VALID
    }
}

#[derive(Clone, PartialEq, Eq, Debug)]
pub struct Chamber {
    pub client: Client,
    pub points: LockPoints,
    /// Call of the last set or part, 0 if there was none.
    pub moved: u32,
    /// By place.
    pub reads: [Option<LatestRead>; 5],
}

impl Chamber {
    /// Start. The points are in the order of their places.
    pub fn start(packet: &[u8], points: [u32; 5]) -> Result<Chamber, Refusal> {
        let client = Client::start(packet)?;
        let points = LockPoints::new(points).ok_or(Refusal::Malformed)?;
        Ok(Chamber {
            client,
            points,
            moved: 0,
            reads: [None; 5],
        })
    }

    pub fn issue(&mut self, op: u32, point: u32, argument: i32) -> Made {
        let command = OpenCall::new(op, point, argument).ok_or(Refusal::Malformed)?;
        let place = self.points.place(command.point);
        let place = place.ok_or(Refusal::Malformed)?;
        if !may_command(place, command.op) {
            return Err(Refusal::Malformed);
        }
        if self.has_open() {
            return Err(Refusal::WindowFull);
        }
        if is_opening(command.op, argument) && !self.may_open(place) {
            return Err(Refusal::NotClear);
        }
        let call = self.client.next;
        let packet = self.client.issue(op, point, argument)?;
        if moves(command.op) {
            self.moved = call;
        }
        Ok(packet)
    }

    pub fn resend(&self, call: u32) -> Made {
        self.client.resend(call)
    }

    /// Notes the result of a read.
    pub fn receive(&mut self, packet: &[u8]) -> Result<Received, Refusal> {
        let open = parse_result(packet).and_then(|r| self.client.open_call(r.call));
        let received = self.client.receive(packet)?;
        if let (Some(command), Received::Result { call, effect, .. }) = (open, received) {
            self.note(&command, call, &effect);
        }
        Ok(received)
    }

    pub fn has_open(&self) -> bool {
        self.client.first != self.client.next
    }

    fn note(&mut self, command: &OpenCall, call: u32, effect: &Effect) {
        if let (Op::Read, Some(place)) = (command.op, self.points.place(command.point)) {
            self.reads[place] = Some(LatestRead {
                call,
                value: effect.value,
                quality: effect.quality,
            });
        }
    }

    /// The conditions of an opening of the gate at this place.
    pub fn may_open(&self, gate: usize) -> bool {
        let [one, two] = levels_beside(gate);
        match (
            self.reads[other_gate(gate)],
            self.reads[one],
            self.reads[two],
        ) {
            (Some(other), Some(one), Some(two)) => {
                other.call > self.moved
                    && other.is_closed()
                    && [one, two]
                        .iter()
                        .all(|level| level.call > other.call && level.is_valid_level())
                    && one.value.abs_diff(two.value) <= LEVELS_APART
            }
            _ => false,
        }
    }
}

/// On gates only read, set or part; on levels only read.
fn may_command(place: usize, op: Op) -> bool {
    op == Op::Read || (GATES.contains(&place) && moves(op))
}
