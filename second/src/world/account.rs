//! What the checker is given, and what tests look at.

use super::{Phase, World};
use crate::checker::{Command, Finals};
use crate::faults::Faulty;
use crate::plan::POINTS;
use crate::rule::Rules;
use crate::server::{Server, STATE_LEN};

impl World<'_> {
    /// The state of a running cabinet.
    pub fn server(&self, cabinet: usize) -> Option<&Server> {
        let c = &self.cabinets[cabinet];
        (c.phase == Phase::Running).then_some(&*c.server)
    }

    pub fn log(&self, cabinet: usize) -> &[u8] {
        &self.cabinets[cabinet].log
    }

    /// All packets and images made, in order.
    pub fn packets(&self) -> impl Iterator<Item = &[u8]> {
        self.pool.iter().map(Vec::as_slice)
    }

    /// The bytes that the crashes of a cabinet not recovered have kept.
    pub fn kept(&self, cabinet: usize) -> Option<&[u8]> {
        let c = &self.cabinets[cabinet];
        c.kept().map(|kept| &c.log[..kept as usize])
    }

    // What the checker is given.

    /// The commands issued; one survives if an execution of it does.
    pub fn commands(&self) -> Vec<Command> {
        let mut commands = self.commands.clone();
        for e in self.executions.iter().rev().filter(|e| e.survives) {
            commands[e.command].survives = true;
            commands[e.command].hint = e.place;
        }
        commands
    }

    /// For each command issued, the rules that its surviving execution went
    /// by; today's if none survives. Where a fault lets two survive, the first
    /// counts.
    pub fn marks(&self) -> Vec<Rules> {
        let mut marks = vec![Rules::TODAY; self.commands.len()];
        for e in self.executions.iter().rev().filter(|e| e.survives) {
            marks[e.command] = e.program.rules;
        }
        marks
    }

    /// Value and quality of each point at its holder. A crashed cabinet
    /// counts with the state that recover gives.
    pub fn finals(&self) -> Finals {
        let servers = self.final_states();
        let mut finals = [None; POINTS];
        for (point, entry) in self.schedule.plan.entries.iter().enumerate() {
            let holder = holder(&servers, point, entry.home);
            finals[point] = holder.map(|s| (s.points[point].value, s.points[point].quality));
        }
        finals
    }

    /// The states of the founded cabinets.
    pub(super) fn final_states(&self) -> Vec<Server> {
        let states = (0..self.cabinets.len()).map(|i| self.final_state(i));
        states.flatten().collect()
    }

    fn final_state(&self, cabinet: usize) -> Option<Server> {
        let c = &self.cabinets[cabinet];
        match c.phase {
            Phase::New => None,
            Phase::Running | Phase::Storing { .. } => Some(Server::clone(&c.server)),
            Phase::Crashed { kept, .. } => self.recovered(cabinet, kept),
        }
    }

    /// The state that recovery gives from the log's first bytes, and from the checkpoint
    /// if one is stored; nothing if it refuses them.
    pub(super) fn recovered(&self, cabinet: usize, kept: u64) -> Option<Server> {
        let mut server = Faulty::new(self.options.fault);
        let log = &self.log(cabinet)[..kept as usize];
        let answer = match self.lent_checkpoint(cabinet) {
            Some(checkpoint) => server.recover_checkpoint(STATE_LEN, &checkpoint, log),
            None => server.recover_by(self.program(cabinet).rules, STATE_LEN, log, &self.plan),
        };
        (answer.number == 0).then(|| Server::clone(&server))
    }

    /// A crashed cabinet that recovery refuses.
    pub(super) fn not_recovered(&self) -> Option<usize> {
        (0..self.cabinets.len()).find(|&i| {
            let kept = self.cabinets[i].kept();
            kept.is_some_and(|kept| self.recovered(i, kept).is_none())
        })
    }
}

/// The server where the point's move number is greatest, the taker before the
/// giver; its home where that number is 0.
pub(super) fn holder(servers: &[Server], point: usize, home: u8) -> Option<&Server> {
    let number = |s: &Server| s.points[point].move_number;
    let greatest = servers.iter().map(number).max()?;
    if greatest == 0 {
        return servers.iter().find(|s| s.cabinet == home);
    }
    let taker = |s: &&Server| {
        let taken = s.points[point].taken;
        taken.is_some_and(|t| t.move_number == greatest)
    };
    let mut last = servers.iter().filter(|s| number(s) == greatest);
    last.clone().find(taker).or_else(|| last.next())
}
