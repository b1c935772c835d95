//! Paper 01, "Points and commands": the rules of the six ops. Request 1 of
//! paper 02 changed the rule of step, request 4 that of part, and request 7 those
//! of set and part; all versions of each stand here.

use crate::plan::Entry;

pub const VALID: u8 = 0;
pub const INVALID: u8 = 1;
/// Entered by a set or part, not measured.
pub const BY_HAND: u8 = 2;
/// Greatest quality in packets, records, images, checkpoints and states.
pub const QUALITY_MAX: u8 = BY_HAND;

/// Outcome of a step that stopped at an end of the range.
pub const STOPPED: u8 = 4;
/// Greatest outcome in packets, records, images and states.
pub const OUTCOME_MAX: u8 = STOPPED;

/// Least and greatest argument by op.
pub const ARGUMENTS: [(i32, i32); 6] = [
    (0, 0),
    (i32::MIN, i32::MAX),
    (i32::MIN, i32::MAX),
    (i32::MIN, i32::MAX),
    (0, 0),
    (0, 1000),
];

#[derive(Clone, Copy, PartialEq, Eq, Debug)]
#[repr(u8)]
pub enum Op {
    Read = 0,
    Set = 1,
    Step = 2,
    Report = 3,
    Fault = 4,
    Part = 5,
}

impl Op {
    pub fn from_byte(byte: u8) -> Option<Op> {
        Some(match byte {
            0 => Op::Read,
            1 => Op::Set,
            2 => Op::Step,
            3 => Op::Report,
            4 => Op::Fault,
            5 => Op::Part,
            _ => return None,
        })
    }

    pub fn accepts(self, argument: i32) -> bool {
        let (least, greatest) = ARGUMENTS[self as usize];
        least <= argument && argument <= greatest
    }
}

/// Versions of op 1's rule: the quality that a set in range gives.
#[derive(Clone, Copy, PartialEq, Eq, Hash, Debug, Default)]
pub enum SetRule {
    Valid,
    #[default]
    ByHand,
}

impl SetRule {
    fn quality(self) -> u8 {
        match self {
            SetRule::Valid => VALID,
            SetRule::ByHand => BY_HAND,
        }
    }
}

/// Versions of op 2's rule: what a step past low or high does.
#[derive(Clone, Copy, PartialEq, Eq, Hash, Debug, Default)]
pub enum StepRule {
    /// Outcome 1, no change.
    Refuse,
    /// The value at that end, the quality as it was, outcome 4.
    #[default]
    Stop,
}

/// Versions of op 5's rule: how the quotient is rounded, and the quality given.
#[derive(Clone, Copy, PartialEq, Eq, Hash, Debug, Default)]
pub enum PartRule {
    Down,
    /// To the nearest; an exact half to the even quotient.
    Nearest,
    /// The same, by hand.
    #[default]
    ByHand,
}

impl PartRule {
    fn quality(self) -> u8 {
        match self {
            PartRule::Down | PartRule::Nearest => VALID,
            PartRule::ByHand => BY_HAND,
        }
    }
}

/// The version of each op's rule that a program executes by. An op that is
/// not named here has one version, so these make no difference to it.
#[derive(Clone, Copy, PartialEq, Eq, Hash, Debug, Default)]
pub struct Rules {
    pub set: SetRule,
    pub step: StepRule,
    pub part: PartRule,
}

impl Rules {
    /// Before request 1 of paper 02.
    pub const OLD: Rules = Rules {
        set: SetRule::Valid,
        step: StepRule::Refuse,
        part: PartRule::Down,
    };
    /// From request 1 on, before request 4.
    pub const BETWEEN: Rules = Rules {
        step: StepRule::Stop,
        ..Rules::OLD
    };
    /// From request 4 on, before request 7.
    pub const NEAREST: Rules = Rules {
        part: PartRule::Nearest,
        ..Rules::BETWEEN
    };
    pub const TODAY: Rules = Rules {
        set: SetRule::ByHand,
        part: PartRule::ByHand,
        ..Rules::NEAREST
    };
    /// Those of all programs, the first program's first.
    pub const ALL: [Rules; 4] = [Rules::OLD, Rules::BETWEEN, Rules::NEAREST, Rules::TODAY];

    /// Greatest outcome that a program of these rules knows.
    pub fn outcome_max(self) -> u8 {
        match self.step {
            StepRule::Refuse => 3,
            StepRule::Stop => STOPPED,
        }
    }

    /// Greatest quality that a program of these rules knows.
    pub fn quality_max(self) -> u8 {
        match self.set {
            SetRule::Valid => INVALID,
            SetRule::ByHand => BY_HAND,
        }
    }
}

/// Outcome of a command, with the point's value and quality after it.
#[derive(Clone, Copy, PartialEq, Eq, Debug)]
pub struct Effect {
    pub outcome: u8,
    pub value: i32,
    pub quality: u8,
}

/// One command on a point of the given range, value and quality, by today's
/// rules.
pub fn apply(op: Op, argument: i32, entry: &Entry, value: i32, quality: u8) -> Effect {
    apply_by(Rules::TODAY, op, argument, entry, value, quality)
}

/// The same by the given rules.
pub fn apply_by(
    rules: Rules,
    op: Op,
    argument: i32,
    entry: &Entry,
    value: i32,
    quality: u8,
) -> Effect {
    let keep = |outcome| Effect {
        outcome,
        value,
        quality,
    };
    match op {
        Op::Read => keep(0),
        Op::Set if entry.contains(argument) => assign(argument, rules.set.quality()),
        Op::Set => keep(1),
        Op::Step if quality == INVALID => keep(2),
        Op::Step => {
            let (outcome, value) = step(rules.step, entry, value, argument);
            Effect {
                outcome,
                value,
                quality,
            }
        }
        Op::Report if entry.contains(argument) => assign(argument, VALID),
        Op::Report | Op::Fault => fall_back(entry),
        Op::Part => assign(part(rules.part, entry, argument), rules.part.quality()),
    }
}

fn assign(value: i32, quality: u8) -> Effect {
    Effect {
        outcome: 0,
        value,
        quality,
    }
}

fn fall_back(entry: &Entry) -> Effect {
    Effect {
        outcome: 3,
        value: entry.fallback,
        quality: INVALID,
    }
}

/// Outcome and value of a step on a point that is not invalid. The sum has 64 bits, so it
/// does not wrap.
fn step(rule: StepRule, entry: &Entry, value: i32, argument: i32) -> (u8, i32) {
    let sum = i64::from(value) + i64::from(argument);
    let in_range = i32::try_from(sum).ok().filter(|&s| entry.contains(s));
    match (in_range, rule) {
        (Some(sum), _) => (0, sum),
        (None, StepRule::Refuse) => (1, value),
        (None, StepRule::Stop) if sum < i64::from(entry.low) => (STOPPED, entry.low),
        (None, StepRule::Stop) => (STOPPED, entry.high),
    }
}

/// low + (high - low) * a / 1000, the quotient rounded by the rule. The
/// product is not negative, so the division of integers rounds down; it has
/// 42 bits at the most.
fn part(rule: PartRule, entry: &Entry, argument: i32) -> i32 {
    let low = i64::from(entry.low);
    let product = (i64::from(entry.high) - low) * i64::from(argument);
    let (down, rest) = (product / 1000, product % 1000);
    let up = match rule {
        PartRule::Down => false,
        PartRule::Nearest | PartRule::ByHand => rest > 500 || (rest == 500 && down % 2 == 1),
    };
    (low + down + i64::from(up)) as i32
}
