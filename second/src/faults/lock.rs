//! The faults of requests 2 and 7 at a lock: around a controller's issue, around what
//! a successor's start looks at, and around the office's renew.

use super::Fault;
use crate::answer::Refusal;
use crate::chamber::{levels_beside, other_gate, Chamber, LatestRead, GATES};
use crate::client::Made;
use crate::leases::{Lease, LeaseManager};
use crate::lock::Proviso;
use crate::packet::{GRANT_LEN, WINDOW};
use crate::rule::{Op, BY_HAND, INVALID, VALID};
use std::ops::{Deref, DerefMut};

/// A controller, or one with a fault around its issue; the other calls are its own.
#[derive(Clone, PartialEq, Eq, Debug)]
pub struct FaultyChamber {
    chamber: Chamber,
    fault: Option<Fault>,
    /// Call of the last set or part on each gate.
    gate_moved: [u32; 2],
}

impl Deref for FaultyChamber {
    type Target = Chamber;

    fn deref(&self) -> &Chamber {
        &self.chamber
    }
}

impl DerefMut for FaultyChamber {
    fn deref_mut(&mut self) -> &mut Chamber {
        &mut self.chamber
    }
}

impl FaultyChamber {
    pub fn new(chamber: Chamber, fault: Option<Fault>) -> FaultyChamber {
        FaultyChamber {
            chamber,
            fault,
            gate_moved: [0; 2],
        }
    }

    /// The controller decides by a view of its own memory; what it does then is kept.
    pub fn issue(&mut self, op: u32, point: u32, argument: i32) -> Made {
        let place = u8::try_from(point).ok().and_then(|p| self.points.place(p));
        let gate = place.filter(|place| GATES.contains(place));
        let mut view = self.view(op, gate);
        let call = view.client.next;
        let mut packet = view.issue(op, point, argument)?;
        match self.fault {
            Some(Fault::SeveralOpen) => packet = self.client.issue(op, point, argument)?,
            _ => self.chamber.client = view.client,
        }
        if let Some(gate) = gate.filter(|_| op != Op::Read as u32) {
            self.gate_moved[gate] = call;
            if (self.fault, op) != (Some(Fault::PartNotLast), Op::Part as u32) {
                self.chamber.moved = call;
            }
        }
        Ok(packet)
    }

    fn view(&self, op: u32, gate: Option<usize>) -> Chamber {
        let mut view = self.chamber.clone();
        match (self.fault, gate) {
            (Some(Fault::OtherGateNotRead), Some(gate)) => other_gate_read(&mut view, gate),
            (Some(Fault::OtherGateValueNotTested), Some(gate)) => {
                if let Some(read) = &mut view.reads[other_gate(gate)] {
                    read.value = 0;
                }
            }
            (Some(Fault::GateByHandRefused), Some(gate)) => {
                read_by_hand_as(INVALID, &mut view.reads[other_gate(gate)]);
            }
            (Some(Fault::LevelByHandTaken), Some(gate)) => {
                for level in levels_beside(gate) {
                    read_by_hand_as(VALID, &mut view.reads[level]);
                }
            }
            (Some(Fault::ReadsOfAnyAge), _) => view.moved = 0,
            (Some(Fault::SinceOwnGateOnly), Some(gate)) => view.moved = self.gate_moved[gate],
            (Some(Fault::PartNoOpening), Some(gate)) if op == Op::Part as u32 => {
                all_read(&mut view, gate);
            }
            (Some(Fault::SeveralOpen), _) => {
                view.client.open = [None; WINDOW as usize];
                view.client.first = view.client.next;
            }
            _ => {}
        }
        view
    }
}

/// The other gate read as closed right after the last set or part, and all later reads
/// one call later.
fn other_gate_read(view: &mut Chamber, gate: usize) {
    for read in view.reads.iter_mut().flatten() {
        read.call = read.call.saturating_add(1);
    }
    view.reads[other_gate(gate)] = closed_at(view.moved + 1);
}

/// All conditions of an opening hold.
fn all_read(view: &mut Chamber, gate: usize) {
    view.moved = 0;
    view.reads[other_gate(gate)] = closed_at(1);
    for level in levels_beside(gate) {
        view.reads[level] = closed_at(2);
    }
}

/// A value by hand counts as one of another quality.
fn read_by_hand_as(quality: u8, read: &mut Option<LatestRead>) {
    if let Some(read) = read.as_mut().filter(|r| r.quality == BY_HAND) {
        read.quality = quality;
    }
}

fn closed_at(call: u32) -> Option<LatestRead> {
    Some(LatestRead {
        call,
        value: 0,
        quality: VALID,
    })
}

/// The proviso as one sees it who leaves a condition out.
pub fn seen(proviso: &Proviso, fault: Option<Fault>) -> Proviso {
    let mut seen = *proviso;
    let gates = &mut seen.gates;
    match fault {
        Some(Fault::SuccessorAtAnyTime) => {
            seen.notice = Some(0);
            gates.iter_mut().for_each(|g| g.holder.holds = true);
        }
        Some(Fault::HeardNotSynced) => {
            gates
                .iter_mut()
                .for_each(|g| g.holder.synced_heard = g.holder.heard);
        }
        Some(Fault::GateBeingMoved) => gates.iter_mut().for_each(|g| g.holder.holds = true),
        Some(Fault::OneGateOnly) => {
            gates[1].holder.synced_heard = gates[0].holder.synced_heard;
        }
        Some(Fault::HomeForHolder) => {
            gates
                .iter_mut()
                .for_each(|g| g.holder.synced_heard = g.home.synced_heard);
        }
        _ => {}
    }
    seen
}

/// Renew, at an office that may forget that the lease has ended.
pub fn renew(
    fault: Option<Fault>,
    office: &mut LeaseManager,
    (client, time, span): (u32, u32, u32),
) -> Result<[u8; GRANT_LEN], Refusal> {
    let issued = client >= 1 && u64::from(client) < office.next;
    let now = office.time.max(time);
    let ended = !office
        .leases
        .iter()
        .any(|l| l.client == client && l.end > now);
    if fault == Some(Fault::RenewEnded) && issued && ended && now < u32::MAX {
        office.leases.retain(|l| l.client != client);
        let end = now + 1;
        let at = office.leases.partition_point(|l| l.client < client);
        office.leases.insert(at, Lease { client, end });
    }
    office.renew(client, time, span)
}
