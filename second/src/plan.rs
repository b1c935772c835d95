//! Paper 01, "Points and commands": the plan of 64 entries of 16 bytes.

use crate::bytes::{all_zero, get_i32, put_i32};

pub const POINTS: usize = 64;
pub const CABINETS: u32 = 16;
pub const ENTRY_LEN: usize = 16;
pub const PLAN_LEN: usize = POINTS * ENTRY_LEN;

#[derive(Clone, Copy, PartialEq, Eq, Debug, Default)]
pub struct Entry {
    pub low: i32,
    pub high: i32,
    pub fallback: i32,
    pub home: u8,
}

impl Entry {
    pub fn contains(&self, value: i32) -> bool {
        self.low <= value && value <= self.high
    }

    pub fn sound(&self) -> bool {
        self.contains(self.fallback) && u32::from(self.home) < CABINETS
    }
}

#[derive(Clone, Copy, PartialEq, Eq, Debug)]
pub struct Plan {
    pub entries: [Entry; POINTS],
}

impl Default for Plan {
    fn default() -> Plan {
        Plan {
            entries: [Entry::default(); POINTS],
        }
    }
}

impl Plan {
    /// The same entry for every point.
    pub fn uniform(entry: Entry) -> Plan {
        Plan {
            entries: [entry; POINTS],
        }
    }

    pub fn entry(&self, point: u8) -> &Entry {
        &self.entries[usize::from(point)]
    }

    pub fn sound(&self) -> bool {
        self.entries.iter().all(Entry::sound)
    }
}

/// The plan, or nothing if it is bad; another length is bad too.
pub fn parse_plan(bytes: &[u8]) -> Option<Plan> {
    if bytes.len() != PLAN_LEN {
        return None;
    }
    let mut plan = Plan::default();
    for (entry, b) in plan.entries.iter_mut().zip(bytes.chunks_exact(ENTRY_LEN)) {
        *entry = parse_entry(b)?;
    }
    Some(plan)
}

fn parse_entry(b: &[u8]) -> Option<Entry> {
    let entry = Entry {
        low: get_i32(b, 0),
        high: get_i32(b, 4),
        fallback: get_i32(b, 8),
        home: b[12],
    };
    (entry.sound() && all_zero(&b[13..16])).then_some(entry)
}

pub fn write_plan(plan: &Plan) -> [u8; PLAN_LEN] {
    let mut bytes = [0; PLAN_LEN];
    for (entry, b) in plan.entries.iter().zip(bytes.chunks_exact_mut(ENTRY_LEN)) {
        put_i32(b, 0, entry.low);
        put_i32(b, 4, entry.high);
        put_i32(b, 8, entry.fallback);
        b[12] = entry.home;
    }
    bytes
}
