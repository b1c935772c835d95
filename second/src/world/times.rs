//! Request 6 of paper 02: the times in results. Each is the heard time of the server
//! that executed the command, at the execution that survives; 0 if its program kept none.

use super::World;
use crate::checker::Violation;
use crate::packet::{parse_result, Reply, RESULT, RESULT_UNTIMED};
use crate::program::Form;

impl World<'_> {
    /// The results made, in today's form or in the earlier one.
    fn results(&self, kind: u8) -> impl Iterator<Item = Reply> + '_ {
        let numbers = self.kinds[usize::from(kind)].iter();
        numbers.filter_map(|&number| parse_result(&self.pool[number]))
    }

    /// For each command issued, the form and the time of its surviving execution. Where a
    /// fault lets two survive, the first counts.
    fn times(&self) -> Vec<Option<(Form, u32)>> {
        let mut times = vec![None; self.commands.len()];
        for e in self.executions.iter().rev().filter(|e| e.survives) {
            times[e.command] = Some((e.program.form, e.time));
        }
        times
    }

    fn command(&self, reply: &Reply) -> Option<usize> {
        let id = (reply.client, reply.call);
        self.commands.iter().position(|c| (c.client, c.call) == id)
    }

    /// All results of a command that survives have one time, received or not.
    pub(super) fn check_times(&self) -> Result<(), Violation> {
        let times = self.times();
        let told = self.results(RESULT_UNTIMED).chain(self.results(RESULT));
        for reply in told {
            let kept = self.command(&reply).and_then(|command| times[command]);
            if kept.is_some_and(|(_, time)| time != reply.time) {
                let (client, call) = (reply.client, reply.call);
                return Err(Violation::Time { client, call });
            }
        }
        Ok(())
    }

    pub(super) fn count_results(&mut self) {
        let times = self.times();
        let from_untimed = |reply: &Reply| {
            let kept = self.command(reply).and_then(|command| times[command]);
            kept.is_some_and(|(form, _)| form == Form::Untimed)
        };
        let untimed = self.results(RESULT_UNTIMED).count();
        let from_untimed = self.results(RESULT).filter(from_untimed).count();
        let timed = self.results(RESULT).filter(|r| r.time > 0).count();
        let counts = &mut self.counts;
        counts.results_untimed = untimed as u64;
        counts.results_from_untimed = from_untimed as u64;
        counts.results_timed = timed as u64;
    }
}
