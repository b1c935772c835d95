//! Calls at cabinets.

use super::{Execution, Phase, World, IMAGE};
use crate::answer::Answer;
use crate::bytes::get_u32;
use crate::image::{image_max, IMAGE_MAGIC, IMAGE_MAGIC_UNTIMED};
use crate::packet::{result_len, NOTICE, RECEIPT, RECEIPT_LEN, REQUEST};
use crate::program::{Form, Program};
use crate::record::{executed_len, parse_executed, Executed};
use crate::rule::{apply_by, Op, PartRule, Rules, BY_HAND, STOPPED};
use crate::schedule::{Flaw, Mark, Party, Which};

impl World<'_> {
    pub(super) fn found(&mut self, at: Party, flaw: Flaw) {
        let cabinet = self.party(at, self.last);
        if self.cabinets[cabinet].phase != Phase::New {
            return;
        }
        let plan = self.plan;
        let (answer, _) = self.call(cabinet, flaw, 0, |s, len, log, _| {
            s.found(len, log, &plan, cabinet as u32)
        });
        if answer.number == 0 {
            self.cabinets[cabinet].phase = Phase::Running;
        }
        self.note(|| format!("found cabinet {cabinet} -> {}", answer.number));
    }

    pub(super) fn request(&mut self, at: Party, packet: Which, flaw: Flaw) {
        if let Some(number) = self.pick(packet, &[REQUEST]) {
            self.request_packet(at, number, flaw);
        }
    }

    pub(super) fn request_packet(&mut self, at: Party, number: usize, flaw: Flaw) {
        let apt = self.apt_for(number);
        if let Some(cabinet) = self.running(at, apt) {
            let packet = self.pool[number].clone();
            let (answer, made) = self.request_at(cabinet, &packet, flaw);
            self.note(|| {
                format!(
                    "request packet {} at cabinet {cabinet} -> {} {made}",
                    number + 1,
                    answer.number
                )
            });
        }
    }

    /// The holder of a request's point.
    pub(super) fn apt_for(&self, number: usize) -> usize {
        match self.pool[number][0] {
            REQUEST => self.holder(self.pool[number][2]),
            _ => self.last,
        }
    }

    /// The answer, and the packet made or 0.
    pub(super) fn request_at(
        &mut self,
        cabinet: usize,
        packet: &[u8],
        flaw: Flaw,
    ) -> (Answer, usize) {
        let program = self.program(cabinet);
        let needed = result_len(program.form);
        let heard = self.cabinets[cabinet].server.heard;
        let (answer, output) = self.call(cabinet, flaw, needed, |s, len, log, out| {
            s.request_by(program, len, log, packet, out)
        });
        if answer.number == 0 && answer.written == 0 {
            self.executed(cabinet, heard, packet);
        }
        let made = self.made(answer, &output);
        self.counts.repeats += u64::from(answer == Answer::wrote(needed));
        (answer, made)
    }

    /// At the heard time that the request found.
    pub(super) fn executed(&mut self, cabinet: usize, heard: u32, packet: &[u8]) {
        let id = (get_u32(packet, 4), get_u32(packet, 8));
        let command = self.commands.iter().position(|c| (c.client, c.call) == id);
        let program = self.program(cabinet);
        let c = &self.cabinets[cabinet];
        self.executions.push(Execution {
            command: command.expect("a request is made by an issue"),
            cabinet,
            program,
            time: program.form.time(heard),
            end: c.replaced() + c.server.length,
            place: self.place,
            survives: true,
        });
        self.count_executed(cabinet, program);
        self.count_opened(packet, cabinet);
    }

    fn count_executed(&mut self, cabinet: usize, program: Program) {
        let record = self.last_executed(cabinet, program);
        let rounded_differently = self.rounded_differently(&record);
        let counts = &mut self.counts;
        counts.executed += 1;
        for (executed, by) in counts.executed_by.iter_mut().zip(Program::ALL) {
            *executed += u64::from(by == program);
        }
        match (record.op, record.outcome) {
            (Op::Step, 1) => counts.steps_refused += 1,
            (Op::Step, STOPPED) => counts.steps_stopped += 1,
            (Op::Part, _) if rounded_differently => match program.rules.part {
                PartRule::Down => counts.parts_down += 1,
                _ => counts.parts_up += 1,
            },
            _ => {}
        }
        match (record.op, record.outcome) {
            (Op::Set | Op::Part, 0) if record.quality == BY_HAND => counts.by_hand += 1,
            (Op::Step, _) if record.quality == BY_HAND => counts.steps_by_hand += 1,
            _ => {}
        }
    }

    /// The executed record at the log's end.
    fn last_executed(&self, cabinet: usize, program: Program) -> Executed {
        let c = &self.cabinets[cabinet];
        let end = c.server.length as usize;
        let from = end - executed_len(program.form);
        parse_executed(&c.log[from..end]).expect("an executed record")
    }

    /// Whether the ways to round a part differ for the record's argument.
    fn rounded_differently(&self, record: &Executed) -> bool {
        let entry = self.schedule.plan.entry(record.point);
        let part = |rules| apply_by(rules, Op::Part, record.argument, entry, 0, 0);
        record.op == Op::Part && part(Rules::BETWEEN) != part(Rules::NEAREST)
    }

    /// Keeps the packet written, if any; answers its number or 0.
    pub(super) fn made(&mut self, answer: Answer, output: &[u8]) -> usize {
        match answer.written {
            0 => 0,
            written => self.keep(&output[..written]),
        }
    }

    pub(super) fn fetch(&mut self, at: Party, id: Which, flaw: Flaw) {
        let Some(number) = self.pick(id, &[REQUEST]) else {
            return;
        };
        let packet = &self.pool[number];
        if packet[0] != REQUEST {
            return;
        }
        let (client, call) = (get_u32(packet, 4), get_u32(packet, 8));
        let Some(cabinet) = self.running(at, self.holder(packet[2])) else {
            return;
        };
        let form = self.program(cabinet).form;
        let (answer, output) = self.call(cabinet, flaw, result_len(form), |s, len, log, out| {
            s.fetch_as(form, len, log, (client, call), out)
        });
        let made = self.made(answer, &output);
        self.note(|| {
            let number = answer.number;
            format!("fetch {client} {call} at cabinet {cabinet} -> {number} {made}")
        });
    }

    pub(super) fn sync(&mut self, at: Party, mark: Mark, flaw: Flaw) {
        let Some(cabinet) = self.running(at, self.last) else {
            return;
        };
        let server = &self.cabinets[cabinet].server;
        let (from, to) = (server.mark, server.length);
        let mark = match mark {
            Mark::All => to,
            Mark::Between(n) => from + u64::from(n) % (to - from + 1),
            Mark::Outside(true) => from - 1,
            Mark::Outside(false) => to + 1,
        };
        let (answer, _) = self.call_by_places(cabinet, flaw, 0, |s, len, log, _, replaced| {
            s.sync(len, log, replaced.unwrap_or(0) + mark)
        });
        self.note(|| format!("sync cabinet {cabinet} mark {mark} -> {}", answer.number));
    }

    pub(super) fn notice(&mut self, at: Party, packet: Which, flaw: Flaw) {
        let Some(number) = self.pick(packet, &[NOTICE]) else {
            return;
        };
        let Some(cabinet) = self.running(at, self.last) else {
            return;
        };
        let packet = self.pool[number].clone();
        let (answer, _) = self.call(cabinet, flaw, 0, |s, len, log, _| {
            s.notice(len, log, &packet)
        });
        self.counts.gone += u64::from(answer.number == 0);
        self.note(|| {
            format!(
                "notice packet {} at cabinet {cabinet} -> {}",
                number + 1,
                answer.number
            )
        });
    }

    pub(super) fn give(&mut self, at: Party, point: u8, destination: u8, flaw: Flaw) {
        let Some(cabinet) = self.running(at, self.holder(point)) else {
            return;
        };
        let (to, p) = (u32::from(destination), u32::from(point));
        let (answer, _) = self.call(cabinet, flaw, 0, |s, len, log, _| s.give(len, log, p, to));
        self.note(|| {
            let number = answer.number;
            format!("give point {point} at cabinet {cabinet} to {to} -> {number}")
        });
    }

    pub(super) fn image(&mut self, at: Party, point: u8, flaw: Flaw) {
        let Some(cabinet) = self.running(at, self.last_giver(point)) else {
            return;
        };
        let p = u32::from(point);
        let form = self.program(cabinet).form;
        let (answer, output) = self.call(cabinet, flaw, image_max(form), |s, len, log, out| {
            s.image_as(form, len, log, p, out)
        });
        let made = self.made(answer, &output);
        self.note(|| {
            let number = answer.number;
            format!("image point {point} at cabinet {cabinet} -> {number} {made}")
        });
    }

    pub(super) fn take(&mut self, at: Party, image: Which, flaw: Flaw) {
        let Some(number) = self.pick(image, &[IMAGE]) else {
            return;
        };
        let apt = usize::from(self.pool[number][5]);
        let Some(cabinet) = self.running(at, apt) else {
            return;
        };
        let image = self.pool[number].clone();
        let program = self.program(cabinet);
        let (answer, _) = self.call(cabinet, flaw, 0, |s, len, log, _| {
            s.take_by(program, len, log, &image)
        });
        self.count_take(program, answer, &image);
        self.note(|| {
            format!(
                "take image {} at cabinet {cabinet} -> {}",
                number + 1,
                answer.number
            )
        });
    }

    fn count_take(&mut self, program: Program, answer: Answer, image: &[u8]) {
        let untimed = image.starts_with(&IMAGE_MAGIC_UNTIMED);
        match answer.number {
            0 => {
                let source = usize::from(image[6]);
                self.counts.takes += 1;
                let gate = self.lock.is_some_and(|l| l.is_gate(image[4]));
                self.counts.gate_takes += u64::from(gate);
                self.counts.takes_across += u64::from(self.program(source) != program);
                let timed = program.form == Form::Timed;
                self.counts.takes_untimed += u64::from(untimed && timed);
                let taken = self.point_at(usize::from(image[5]), image[4]);
                self.counts.takes_by_hand += u64::from(taken.quality == BY_HAND);
            }
            1 if untimed || image.starts_with(&IMAGE_MAGIC) => self.counts.images_too_new += 1,
            _ => {}
        }
    }

    pub(super) fn receipt(&mut self, at: Party, point: u8, flaw: Flaw) {
        let Some(cabinet) = self.running(at, self.holder(point)) else {
            return;
        };
        let p = u32::from(point);
        let (answer, output) = self.call(cabinet, flaw, RECEIPT_LEN, |s, len, log, out| {
            s.receipt(len, log, p, out)
        });
        let made = self.made(answer, &output);
        self.note(|| {
            let number = answer.number;
            format!("receipt point {point} at cabinet {cabinet} -> {number} {made}")
        });
    }

    pub(super) fn release(&mut self, at: Party, packet: Which, flaw: Flaw) {
        let Some(number) = self.pick(packet, &[RECEIPT]) else {
            return;
        };
        let apt = self.first_giver(self.pool[number][1]);
        let Some(cabinet) = self.running(at, apt) else {
            return;
        };
        let packet = self.pool[number].clone();
        let (answer, _) = self.call(cabinet, flaw, 0, |s, len, log, _| {
            s.release(len, log, &packet)
        });
        self.counts.releases += u64::from(answer.number == 0);
        self.note(|| {
            format!(
                "release packet {} at cabinet {cabinet} -> {}",
                number + 1,
                answer.number
            )
        });
    }
}
