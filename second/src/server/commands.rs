//! Paper 01, "Operations and their numbers": found, request, fetch, sync and notice.

use super::{Server, STATE_LEN};
use crate::answer::{Answer, Refusal};
use crate::image::CLIENTS_MAX;
use crate::packet::{
    parse_notice, parse_request, result_len, write_refusal, write_result, write_result_untimed,
    RefusalPacket, Request, REFUSAL_LEN,
};
use crate::plan::{parse_plan, CABINETS};
use crate::program::{Form, Program};
use crate::record::{
    executed_len, write_executed, write_executed_untimed, write_gone, write_head, Executed, Gone,
    GONE_LEN, HEAD_LEN,
};
use crate::rule::apply_by;

/// What a request that passed its tests comes to.
enum Decision {
    Repeat(usize),
    Execute,
}

impl Server {
    // Found.

    pub fn found(&mut self, state_len: usize, log: &mut [u8], plan: &[u8], cabinet: u32) -> Answer {
        if state_len < STATE_LEN || log.len() < HEAD_LEN {
            return Answer::refused(Refusal::TooShort);
        }
        let Some(plan) = parse_plan(plan).filter(|_| cabinet < CABINETS) else {
            return Answer::refused(Refusal::Malformed);
        };
        self.reset(plan, cabinet as u8);
        log[..HEAD_LEN].copy_from_slice(&write_head(self.cabinet));
        Answer::DONE
    }

    // Request.

    pub fn request(
        &mut self,
        state_len: usize,
        log: &mut [u8],
        packet: &[u8],
        output: &mut [u8],
    ) -> Answer {
        self.request_by(Program::TODAY, state_len, log, packet, output)
    }

    /// Request as the given program answers it.
    pub fn request_by(
        &mut self,
        program: Program,
        state_len: usize,
        log: &mut [u8],
        packet: &[u8],
        output: &mut [u8],
    ) -> Answer {
        let needed = result_len(program.form);
        if let Err(refusal) = self.test_lent(state_len, log, output, needed) {
            return Answer::refused(refusal);
        }
        let Some(request) = parse_request(packet) else {
            return Answer::refused(Refusal::Malformed);
        };
        match self.decide(program.form, &request, log) {
            Err(refusal) => {
                output[..REFUSAL_LEN].copy_from_slice(&refusal_packet(refusal, &request));
                Answer {
                    number: refusal.number(),
                    written: REFUSAL_LEN,
                }
            }
            Ok(Decision::Repeat(index)) => self.write_reply(program.form, index, output),
            Ok(Decision::Execute) => {
                self.execute(program, &request, log);
                Answer::DONE
            }
        }
    }

    /// The tests 3 to 9 of a well-formed request.
    fn decide(&self, form: Form, request: &Request, log: &[u8]) -> Result<Decision, Refusal> {
        if !self.held(request.point) {
            return Err(Refusal::NotHeld);
        }
        if request.lease_end <= self.heard {
            return Err(Refusal::LeaseEnded);
        }
        let known = self.test_floor(request.client, request.call)?;
        if let Some(index) = self.record_index(request.client, request.call) {
            return self.decide_repeat(request, index);
        }
        if !known && self.clients.len() == CLIENTS_MAX {
            return Err(Refusal::ClientsFull);
        }
        self.test_space(log, executed_len(form))?;
        Ok(Decision::Execute)
    }

    /// Whether the client is known, or 5 if the call is under its floor.
    pub(super) fn test_floor(&self, client: u32, call: u32) -> Result<bool, Refusal> {
        match self.client_index(client) {
            None => Ok(false),
            Some(index) if call < self.clients[index].floor => Err(Refusal::UnderFloor),
            Some(_) => Ok(true),
        }
    }

    fn decide_repeat(&self, request: &Request, index: usize) -> Result<Decision, Refusal> {
        let r = &self.records[index];
        if (r.op, r.point, r.argument) != (request.op, request.point, request.argument) {
            return Err(Refusal::OtherCommand);
        }
        if !self.synced(r.end) {
            return Err(Refusal::NotSynced);
        }
        Ok(Decision::Repeat(index))
    }

    fn write_reply(&self, form: Form, index: usize, output: &mut [u8]) -> Answer {
        let reply = self.records[index].reply();
        let output = &mut output[..result_len(form)];
        match form {
            Form::Untimed => output.copy_from_slice(&write_result_untimed(&reply)),
            Form::Timed => output.copy_from_slice(&write_result(&reply)),
        }
        Answer::wrote(output.len())
    }

    fn execute(&mut self, program: Program, request: &Request, log: &mut [u8]) {
        let point = self.point(request.point);
        let entry = self.plan.entry(request.point);
        let effect = apply_by(
            program.rules,
            request.op,
            request.argument,
            entry,
            point.value,
            point.quality,
        );
        let record = Executed {
            op: request.op,
            point: request.point,
            outcome: effect.outcome,
            client: request.client,
            call: request.call,
            done: request.done,
            argument: request.argument,
            value: effect.value,
            quality: effect.quality,
            time: program.form.time(self.heard),
        };
        let end = match program.form {
            Form::Untimed => self.append(log, &write_executed_untimed(&record)),
            Form::Timed => self.append(log, &write_executed(&record)),
        };
        self.apply_executed(&record, end);
    }

    // Fetch.

    pub fn fetch(
        &self,
        state_len: usize,
        log: &[u8],
        client: u32,
        call: u32,
        output: &mut [u8],
    ) -> Answer {
        self.fetch_as(Form::Timed, state_len, log, (client, call), output)
    }

    /// Fetch as a program that writes the given form answers it.
    pub fn fetch_as(
        &self,
        form: Form,
        state_len: usize,
        log: &[u8],
        (client, call): (u32, u32),
        output: &mut [u8],
    ) -> Answer {
        if let Err(refusal) = self.test_lent(state_len, log, output, result_len(form)) {
            return Answer::refused(refusal);
        }
        match self.record_index(client, call) {
            None => Answer::refused(Refusal::Unknown),
            Some(index) if !self.synced(self.records[index].end) => {
                Answer::refused(Refusal::NotSynced)
            }
            Some(index) => self.write_reply(form, index, output),
        }
    }

    // Sync.

    pub fn sync(&mut self, state_len: usize, log: &[u8], mark: u64) -> Answer {
        if let Err(refusal) = self.test_state(state_len, log) {
            return Answer::refused(refusal);
        }
        if mark < self.mark || mark > self.length {
            return Answer::refused(Refusal::BadMark);
        }
        self.mark = mark;
        Answer::DONE
    }

    // Notice.

    pub fn notice(&mut self, state_len: usize, log: &mut [u8], packet: &[u8]) -> Answer {
        Answer::of(self.try_notice(state_len, log, packet))
    }

    fn try_notice(
        &mut self,
        state_len: usize,
        log: &mut [u8],
        packet: &[u8],
    ) -> Result<(), Refusal> {
        self.test_state(state_len, log)?;
        let notice = parse_notice(packet).ok_or(Refusal::Malformed)?;
        let record = Gone {
            client: notice.client,
            time: notice.time,
        };
        self.test_gone(&record)?;
        self.test_space(log, GONE_LEN)?;
        self.append(log, &write_gone(&record));
        self.apply_gone(&record);
        Ok(())
    }

    pub(super) fn test_gone(&self, r: &Gone) -> Result<(), Refusal> {
        self.client_index(r.client)
            .map(|_| ())
            .ok_or(Refusal::Unknown)
    }
}

fn refusal_packet(refusal: Refusal, request: &Request) -> [u8; REFUSAL_LEN] {
    write_refusal(&RefusalPacket {
        number: refusal.number() as u8,
        point: request.point,
        client: request.client,
        call: request.call,
    })
}
