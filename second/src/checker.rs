//! Paper 01, "Demand 3 in full": decides whether there is one order of all
//! surviving commands, each once, such that the book run over it gives every
//! result that a desk received and, at its end, each founded holder's value
//! and quality, a command completed before another was issued standing first.
//!
//! The checker looks only at issues, completions, survival, results, final
//! values and marks: for each command the rules that it was executed by. It
//! does not look at logs or moves, so no fault of the cabinets can mislead it.
//!
//! Why one search for each point is right (locality of linearizability,
//! Herlihy and Wing): the book changes and reads only the command's point, so
//! an order suits the book if and only if its part for each point does. An
//! order of the whole restricted to a point is an order of that point. The
//! other way: let there be an order for each point that keeps real time.
//! Their union with real time ("completed before issued") has no cycle: take
//! a shortest one. Two real-time steps in a row shorten to one, since a
//! command is issued before it is completed, and so do two steps in the order
//! of one point; steps in the orders of two points cannot follow each other,
//! since they share no command. So the steps alternate: a is completed before
//! b is issued, b stands before c in its point's order, c is completed before
//! d is issued. As b's point order keeps real time, c is not completed before
//! b is issued, so a is completed before b is issued, which is before c is
//! completed, which is before d is issued: a to d is a real-time step, and the
//! cycle shortens, down to a single real-time step and a single order step,
//! which the order of the point excludes. So the union extends to one order.
//!
//! For a point, a depth-first search tries every order that keeps real time
//! and agrees with the results, and remembers failed pairs of placed set and
//! point state; what remains depends on nothing else. The commands are tried
//! in the order of their execution first; this bears on speed alone.

use crate::plan::{Plan, POINTS};
use crate::rule::{Effect, Op, Rules};
use crate::sequential::SequentialSpec;
use std::collections::HashSet;

/// Commands that one point may have in a schedule.
pub const COMMANDS_MAX: usize = 128;
const NODES_MAX: u64 = 2_000_000;

#[derive(Clone, Copy, PartialEq, Eq, Debug)]
pub struct Command {
    pub client: u32,
    pub call: u32,
    pub op: Op,
    pub point: u8,
    pub argument: i32,
    /// Places in the schedule; all places differ.
    pub issued: u32,
    pub completed: Option<(u32, Effect)>,
    pub survives: bool,
    /// Place of the execution that survived, for speed alone.
    pub hint: u32,
}

/// Value and quality at each point's holder; none if it is not founded.
pub type Finals = [Option<(i32, u8)>; POINTS];

#[derive(Clone, Copy, PartialEq, Eq, Debug)]
pub enum Violation {
    /// A result was received of a command that does not survive.
    Lost { client: u32, call: u32 },
    /// No order of this point's commands suits.
    NoOrder { point: u8 },
    /// A result has another time than the command's surviving execution; the world that made
    /// both tells this, not the checker.
    Time { client: u32, call: u32 },
    /// Recovery refuses what the crashes of this cabinet kept.
    NotRecovered { cabinet: usize },
    /// The search was given up.
    Undecided { point: u8 },
}

/// All commands are marked with today's rules.
pub fn check(plan: &Plan, commands: &[Command], finals: &Finals) -> Result<(), Violation> {
    check_marked(plan, commands, &vec![Rules::TODAY; commands.len()], finals)
}

/// The book runs each command by its mark; there is one for each command.
pub fn check_marked(
    plan: &Plan,
    commands: &[Command],
    marks: &[Rules],
    finals: &Finals,
) -> Result<(), Violation> {
    assert_eq!(commands.len(), marks.len(), "one mark for each command");
    if let Some(c) = commands
        .iter()
        .find(|c| c.completed.is_some() && !c.survives)
    {
        return Err(Violation::Lost {
            client: c.client,
            call: c.call,
        });
    }
    let marked: Vec<Marked> = commands.iter().zip(marks.iter().copied()).collect();
    for point in 0..POINTS as u8 {
        check_point(plan, &marked, point, finals[usize::from(point)])?;
    }
    Ok(())
}

/// A command and the rules that it was executed by.
type Marked<'a> = (&'a Command, Rules);

fn check_point(
    plan: &Plan,
    commands: &[Marked],
    point: u8,
    last: Option<(i32, u8)>,
) -> Result<(), Violation> {
    let mut commands: Vec<Marked> = commands
        .iter()
        .filter(|(c, _)| c.survives && c.point == point)
        .copied()
        .collect();
    if commands.len() > COMMANDS_MAX {
        return Err(Violation::Undecided { point });
    }
    commands.sort_by_key(|(c, _)| c.hint);
    let mut search = Search {
        book: SequentialSpec::new(*plan),
        point,
        commands,
        last,
        failed: HashSet::new(),
        nodes: 0,
    };
    match search.place_rest(0) {
        _ if search.nodes > NODES_MAX => Err(Violation::Undecided { point }),
        true => Ok(()),
        false => Err(Violation::NoOrder { point }),
    }
}

struct Search<'a> {
    book: SequentialSpec,
    point: u8,
    commands: Vec<Marked<'a>>,
    last: Option<(i32, u8)>,
    failed: HashSet<(u128, i32, u8)>,
    nodes: u64,
}

impl Search<'_> {
    /// Whether the commands not placed can follow those placed.
    fn place_rest(&mut self, placed: u128) -> bool {
        let (value, quality) = self.book.point(self.point);
        if placed == full(self.commands.len()) {
            return self.last.is_none_or(|last| last == (value, quality));
        }
        self.nodes += 1;
        if self.nodes > NODES_MAX || self.failed.contains(&(placed, value, quality)) {
            return false;
        }
        let limit = self.first_completion(placed);
        for i in 0..self.commands.len() {
            let (command, rules) = self.commands[i];
            if placed & (1 << i) != 0 || command.issued > limit {
                continue;
            }
            if self.run(command, rules) && self.place_rest(placed | (1 << i)) {
                return true;
            }
            self.book.set(self.point, value, quality);
        }
        self.failed.insert((placed, value, quality));
        false
    }

    /// The earliest completion among the commands not placed; a command
    /// issued after it may not stand before it.
    fn first_completion(&self, placed: u128) -> u32 {
        self.commands
            .iter()
            .enumerate()
            .filter(|(i, _)| placed & (1 << i) == 0)
            .filter_map(|(_, (c, _))| c.completed.map(|(at, _)| at))
            .min()
            .unwrap_or(u32::MAX)
    }

    /// Runs the command by its mark; false if a desk received another result.
    fn run(&mut self, c: &Command, rules: Rules) -> bool {
        let effect = self.book.run_by(rules, c.op, c.point, c.argument);
        c.completed.is_none_or(|(_, received)| received == effect)
    }
}

fn full(count: usize) -> u128 {
    match count {
        COMMANDS_MAX => u128::MAX,
        _ => (1 << count) - 1,
    }
}
