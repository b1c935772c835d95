//! Paper 01, "Moving a point" and "Operations and their numbers": give, image, take,
//! receipt and release.

use super::{Hold, Server, RECORDS_MAX};
use crate::answer::{Answer, Refusal};
use crate::image::{image_max, parse_image, write_image_as, Image, ImageHead, CLIENTS_MAX};
use crate::packet::{parse_receipt, write_receipt, Receipt, RECEIPT_LEN};
use crate::plan::{CABINETS, POINTS};
use crate::program::{Form, Program};
use crate::record::{
    write_give, write_release, write_take_head, Give, Release, GIVE_LEN, RELEASE_LEN, TAKE_HEAD_LEN,
};
use crate::rule::Rules;

impl Server {
    // Give.

    pub fn give(
        &mut self,
        state_len: usize,
        log: &mut [u8],
        point: u32,
        destination: u32,
    ) -> Answer {
        Answer::of(self.try_give(state_len, log, point, destination))
    }

    fn try_give(
        &mut self,
        state_len: usize,
        log: &mut [u8],
        point: u32,
        destination: u32,
    ) -> Result<(), Refusal> {
        self.test_state(state_len, log)?;
        let point = point_number(point)?;
        if destination >= CABINETS {
            return Err(Refusal::Malformed);
        }
        let destination = destination as u8;
        let move_number = self.test_give(point, destination)?;
        self.test_space(log, GIVE_LEN)?;
        let record = Give {
            point,
            destination,
            move_number,
        };
        let end = self.append(log, &write_give(&record));
        self.apply_give(&record, end);
        Ok(())
    }

    /// The give's move number.
    pub(super) fn test_give(&self, point: u8, destination: u8) -> Result<u32, Refusal> {
        if !self.held(point) {
            return Err(Refusal::NotHeld);
        }
        if destination == self.cabinet {
            return Err(Refusal::BadDestination);
        }
        let number = self.point(point).move_number;
        number.checked_add(1).ok_or(Refusal::NumberSpent)
    }

    // Image.

    pub fn image(&self, state_len: usize, log: &[u8], point: u32, output: &mut [u8]) -> Answer {
        self.image_as(Form::Timed, state_len, log, point, output)
    }

    /// Image as a program that writes the given form answers it.
    pub fn image_as(
        &self,
        form: Form,
        state_len: usize,
        log: &[u8],
        point: u32,
        output: &mut [u8],
    ) -> Answer {
        Answer::of_written(self.try_image(form, state_len, log, point, output))
    }

    fn try_image(
        &self,
        form: Form,
        state_len: usize,
        log: &[u8],
        point: u32,
        output: &mut [u8],
    ) -> Result<usize, Refusal> {
        self.test_lent(state_len, log, output, image_max(form))?;
        let point = point_number(point)?;
        let Hold::Given { destination, end } = self.point(point).hold else {
            return Err(Refusal::NotHeld);
        };
        if !self.synced(end) {
            return Err(Refusal::NotSynced);
        }
        Ok(self.write_image(form, point, destination, output))
    }

    fn write_image(&self, form: Form, point: u8, destination: u8, output: &mut [u8]) -> usize {
        let mut order = [0u16; RECORDS_MAX];
        let order = self.records_by_id(point, &mut order);
        let records = order.iter().map(|&i| self.records[usize::from(i)].moved());
        let head = self.image_head(point, destination);
        let floors = self.clients.iter().copied();
        write_image_as(form, &head, floors, records, output)
    }

    fn image_head(&self, point: u8, destination: u8) -> ImageHead {
        let state = self.point(point);
        ImageHead {
            point,
            destination,
            source: self.cabinet,
            move_number: state.move_number,
            heard: self.heard,
            value: state.value,
            quality: state.quality,
        }
    }

    /// Places of the point's records, by client then call.
    fn records_by_id<'a>(&self, point: u8, order: &'a mut [u16; RECORDS_MAX]) -> &'a [u16] {
        let mut count = 0;
        for (i, r) in self.records.iter().enumerate() {
            if r.point == point {
                order[count] = i as u16;
                count += 1;
            }
        }
        let order = &mut order[..count];
        order.sort_unstable_by_key(|&i| {
            let r = &self.records[usize::from(i)];
            (r.client, r.call)
        });
        order
    }

    // Take.

    pub fn take(&mut self, state_len: usize, log: &mut [u8], image: &[u8]) -> Answer {
        self.take_by(Program::TODAY, state_len, log, image)
    }

    /// Take as the given program answers it: an outcome or a quality that it does not
    /// know is outside its range, and an image of a later form is none.
    pub fn take_by(
        &mut self,
        program: Program,
        state_len: usize,
        log: &mut [u8],
        image: &[u8],
    ) -> Answer {
        Answer::of(self.try_take(program, state_len, log, image))
    }

    fn try_take(
        &mut self,
        program: Program,
        state_len: usize,
        log: &mut [u8],
        bytes: &[u8],
    ) -> Result<(), Refusal> {
        self.test_state(state_len, log)?;
        let image = parse_image(bytes, &self.plan)
            .filter(|image| program.reads(image.form) && known(program.rules, image))
            .ok_or(Refusal::Malformed)?;
        self.test_take(&image)?;
        self.test_space(log, TAKE_HEAD_LEN + bytes.len())?;
        self.append(log, &write_take_head(bytes.len()));
        let end = self.append(log, bytes);
        self.apply_take(&image, end);
        Ok(())
    }

    pub(super) fn test_take(&self, image: &Image) -> Result<(), Refusal> {
        let head = &image.head;
        if head.destination != self.cabinet {
            return Err(Refusal::BadDestination);
        }
        if head.move_number <= self.point(head.point).move_number {
            return Err(Refusal::OldMove);
        }
        if self.held(head.point) || self.id_of_other_point(image) {
            return Err(Refusal::HeldHere);
        }
        if self.merged_clients(image) > CLIENTS_MAX {
            return Err(Refusal::ClientsFull);
        }
        Ok(())
    }

    fn id_of_other_point(&self, image: &Image) -> bool {
        self.records
            .iter()
            .any(|r| r.point != image.head.point && image.has_record(r.client, r.call))
    }

    fn merged_clients(&self, image: &Image) -> usize {
        let new = image
            .floors()
            .filter(|f| self.client_index(f.client).is_none())
            .count();
        self.clients.len() + new
    }

    // Receipt.

    pub fn receipt(&self, state_len: usize, log: &[u8], point: u32, output: &mut [u8]) -> Answer {
        Answer::of_written(self.try_receipt(state_len, log, point, output))
    }

    fn try_receipt(
        &self,
        state_len: usize,
        log: &[u8],
        point: u32,
        output: &mut [u8],
    ) -> Result<usize, Refusal> {
        self.test_lent(state_len, log, output, RECEIPT_LEN)?;
        let point = point_number(point)?;
        let taken = self.point(point).taken.ok_or(Refusal::NotHeld)?;
        if !self.synced(taken.end) {
            return Err(Refusal::NotSynced);
        }
        let receipt = Receipt {
            point,
            cabinet: self.cabinet,
            move_number: taken.move_number,
        };
        output[..RECEIPT_LEN].copy_from_slice(&write_receipt(&receipt));
        Ok(RECEIPT_LEN)
    }

    // Release.

    pub fn release(&mut self, state_len: usize, log: &mut [u8], packet: &[u8]) -> Answer {
        Answer::of(self.try_release(state_len, log, packet))
    }

    fn try_release(
        &mut self,
        state_len: usize,
        log: &mut [u8],
        packet: &[u8],
    ) -> Result<(), Refusal> {
        self.test_state(state_len, log)?;
        let receipt = parse_receipt(packet).ok_or(Refusal::Malformed)?;
        let move_number = self.given_move(receipt.point)?;
        if receipt.move_number < move_number {
            return Err(Refusal::OldMove);
        }
        self.test_space(log, RELEASE_LEN)?;
        let record = Release {
            point: receipt.point,
            move_number,
        };
        self.append(log, &write_release(&record));
        self.apply_release(&record);
        Ok(())
    }

    /// The move number of a point given and not released.
    pub(super) fn given_move(&self, point: u8) -> Result<u32, Refusal> {
        match self.point(point).hold {
            Hold::Given { .. } => Ok(self.point(point).move_number),
            _ => Err(Refusal::NotHeld),
        }
    }
}

/// Whether these rules know every outcome and quality of the image.
fn known(rules: Rules, image: &Image) -> bool {
    let (outcome, quality) = (rules.outcome_max(), rules.quality_max());
    let mut records = image.records();
    image.head.quality <= quality && records.all(|r| r.outcome <= outcome && r.quality <= quality)
}

fn point_number(point: u32) -> Result<u8, Refusal> {
    if point as usize >= POINTS {
        return Err(Refusal::Malformed);
    }
    Ok(point as u8)
}
