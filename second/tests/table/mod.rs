//! Request 7 of paper 02, cell by cell: each op on each quality, at both ends of the range
//! from -100 to 1000 with fallback 0, inside it and outside. The comparison with the proved
//! code uses this table too.
#![allow(dead_code)]

use second::rule::Op;

/// Outcome, value and quality.
pub type After = (u8, i32, u8);

pub struct Row {
    pub op: Op,
    pub argument: i32,
    /// The value before.
    pub value: i32,
    /// What is after it, by the quality before.
    pub after: [After; 3],
}

/// The same whatever the quality before was.
const fn always(op: Op, argument: i32, value: i32, after: After) -> Row {
    Row {
        op,
        argument,
        value,
        after: [after; 3],
    }
}

/// The quality stays.
const fn kept(op: Op, argument: i32, value: i32, (outcome, after): (u8, i32)) -> Row {
    Row {
        op,
        argument,
        value,
        after: [
            (outcome, after, 0),
            (outcome, after, 1),
            (outcome, after, 2),
        ],
    }
}

/// On quality 1 a step changes nothing; else the quality stays.
const fn step(argument: i32, value: i32, (outcome, after): (u8, i32)) -> Row {
    let mut row = kept(Op::Step, argument, value, (outcome, after));
    row.after[1] = (2, value, 1);
    row
}

const FELL_BACK: After = (3, 0, 1);

pub const TABLE: [Row; 42] = [
    kept(Op::Read, 0, -100, (0, -100)),
    kept(Op::Read, 0, 5, (0, 5)),
    kept(Op::Read, 0, 1000, (0, 1000)),
    // Outside its range a set changes nothing.
    kept(Op::Set, -101, -100, (1, -100)),
    always(Op::Set, -100, 5, (0, -100, 2)),
    always(Op::Set, -100, -100, (0, -100, 2)),
    always(Op::Set, 40, 5, (0, 40, 2)),
    always(Op::Set, 0, 1000, (0, 0, 2)),
    always(Op::Set, 1000, 1000, (0, 1000, 2)),
    always(Op::Set, 1000, 5, (0, 1000, 2)),
    kept(Op::Set, 1001, 1000, (1, 1000)),
    kept(Op::Set, i32::MIN, 5, (1, 5)),
    kept(Op::Set, i32::MAX, 5, (1, 5)),
    step(-1, -100, (4, -100)),
    step(0, -100, (0, -100)),
    step(1, -100, (0, -99)),
    step(1100, -100, (0, 1000)),
    step(1101, -100, (4, 1000)),
    step(-106, 5, (4, -100)),
    step(-105, 5, (0, -100)),
    step(995, 5, (0, 1000)),
    step(996, 5, (4, 1000)),
    step(i32::MIN, 5, (4, -100)),
    step(i32::MAX, 5, (4, 1000)),
    step(-1101, 1000, (4, -100)),
    step(-1100, 1000, (0, -100)),
    step(-1, 1000, (0, 999)),
    step(0, 1000, (0, 1000)),
    step(1, 1000, (4, 1000)),
    always(Op::Report, -101, -100, FELL_BACK),
    always(Op::Report, -100, -100, (0, -100, 0)),
    always(Op::Report, 7, 5, (0, 7, 0)),
    always(Op::Report, 1000, 1000, (0, 1000, 0)),
    always(Op::Report, 1001, 1000, FELL_BACK),
    always(Op::Fault, 0, -100, FELL_BACK),
    always(Op::Fault, 0, 1000, FELL_BACK),
    always(Op::Part, 0, 1000, (0, -100, 2)),
    always(Op::Part, 5, 5, (0, -94, 2)),
    always(Op::Part, 15, 5, (0, -84, 2)),
    always(Op::Part, 333, -100, (0, 266, 2)),
    always(Op::Part, 999, -100, (0, 999, 2)),
    always(Op::Part, 1000, 5, (0, 1000, 2)),
];
