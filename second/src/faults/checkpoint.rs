//! The faults of request 5 at a server: what a checkpoint loses of the state, what it leaves
//! in the state, and where inspect looks first.

use super::{drop_times, lower_floors, with_mark_at_end, Fault, Faulty};
use crate::answer::{Answer, Refusal};
use crate::checkpoint::write_checkpoint_as;
use crate::program::Form;
use crate::record::record_ends;
use crate::rule::VALID;
use crate::server::{Hold, Place, Point, Server};

impl Faulty {
    /// Checkpoint as a program that writes the given form answers it.
    pub fn checkpoint_as(
        &mut self,
        form: Form,
        len: usize,
        log: &[u8],
        checkpoint: &mut [u8],
        tail: &mut [u8],
    ) -> Answer {
        let Some(fault) = self.fault else {
            return self.server.checkpoint_as(form, len, log, checkpoint, tail);
        };
        let before = self.server.clone();
        let mut own = checkpoint.to_vec();
        let mut call = |s: &mut Server| s.checkpoint_as(form, len, log, &mut own, tail);
        let answer = match fault {
            Fault::CheckpointBeforeSync => self.checkpoint_unsynced(call),
            _ => call(&mut self.server),
        };
        if answer.number != 0 {
            return answer;
        }
        leave(fault, &before, &mut self.server);
        let mut view = before;
        lose(fault, &mut view);
        Answer::wrote(write_checkpoint_as(form, &view, checkpoint))
    }

    /// The mark stays if the call is refused.
    fn checkpoint_unsynced(&mut self, call: impl FnOnce(&mut Server) -> Answer) -> Answer {
        let server = &mut self.server;
        let answer = with_mark_at_end(server, call);
        server.mark = server.mark.min(server.length);
        answer
    }

    pub fn inspect(
        &self,
        len: usize,
        checkpoint: &[u8],
        tail: &[u8],
        client: u32,
        call: u32,
    ) -> Result<Place, Refusal> {
        let server = &self.server;
        let look = |s: &Server, checkpoint| s.inspect(len, checkpoint, tail, client, call);
        let found = look(server, checkpoint)?;
        let first = match self.fault {
            Some(Fault::InspectCheckpointFirst) => look(&cut_to(server, 8), checkpoint).ok(),
            Some(Fault::InspectFirstRecord) => {
                let ends = record_ends(&tail[..server.length as usize])?;
                let mut cuts = ends.iter().map(|&end| cut_to(server, end as u64));
                cuts.find_map(|cut| look(&cut, &[]).ok())
            }
            _ => None,
        };
        Ok(first.unwrap_or(found))
    }
}

/// The state of a shorter log, as far as inspect looks at it.
fn cut_to(server: &Server, length: u64) -> Server {
    Server {
        length,
        ..server.rebased()
    }
}

/// What the state after a checkpoint has from before it.
fn leave(fault: Fault, before: &Server, after: &mut Server) {
    match fault {
        Fault::MarkNotReset => after.mark = before.mark,
        Fault::RecordEndsNotReset => after.records.clone_from(&before.records),
        _ => {
            let points = after.points.iter_mut().zip(&before.points);
            points.for_each(|(after, before)| match fault {
                Fault::GiveEndsNotReset => after.hold = before.hold,
                Fault::TakeEndsNotReset => after.taken = before.taken,
                _ => {}
            });
        }
    }
}

/// What the checkpoint has not of the state.
fn lose(fault: Fault, view: &mut Server) {
    let given = |p: &Point| matches!(p.hold, Hold::Given { .. });
    match fault {
        Fault::CheckpointWithoutHeard => view.heard = 0,
        Fault::CheckpointWithoutRecords => view.records.clear(),
        Fault::CheckpointWithoutTimes => drop_times(view),
        Fault::CheckpointWithoutFloors => lower_floors(view),
        Fault::CheckpointWithoutGivenRecords => drop_given_records(view),
        Fault::CheckpointGivenAsReleased => {
            drop_given_records(view);
            let points = view.points.iter_mut().filter(|p| given(p));
            points.for_each(release);
        }
        _ => {
            let cabinet = view.cabinet;
            let points = view.points.iter_mut().filter(|p| p.hold != Hold::Absent);
            points.for_each(|p| lose_of_point(fault, cabinet, p));
        }
    }
}

fn drop_given_records(view: &mut Server) {
    let points = view.points;
    let given = |point: u8| matches!(points[usize::from(point)].hold, Hold::Given { .. });
    view.records.retain(|r| !given(r.point));
}

fn release(p: &mut Point) {
    if let Hold::Given { destination, end } = p.hold {
        p.hold = Hold::Released { destination, end };
    }
}

fn lose_of_point(fault: Fault, cabinet: u8, p: &mut Point) {
    match (fault, &mut p.hold) {
        (Fault::CheckpointWithoutQuality, _) => p.quality = VALID,
        (Fault::CheckpointWithoutTaken, _) => p.taken = None,
        (Fault::CheckpointWithoutMove, _) => p.move_number = 0,
        (Fault::CheckpointGivenAsHeld, Hold::Given { .. }) => {
            p.hold = Hold::Held;
            p.move_number = p.taken.map_or(0, |t| t.move_number);
        }
        (Fault::CheckpointReleasedAsGiven, &mut Hold::Released { destination, end }) => {
            p.hold = Hold::Given { destination, end };
        }
        (
            Fault::CheckpointWithoutDestination,
            Hold::Given { destination, .. } | Hold::Released { destination, .. },
        ) => *destination = u8::from(cabinet == 0),
        _ => {}
    }
}
