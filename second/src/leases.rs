//! Paper 01, "Operations and their numbers": the lease office (lease manager)
//! with its open, renew and query.

use crate::answer::Refusal;
use crate::packet::{write_grant, write_notice, Grant, Notice, GRANT_LEN};

pub const LEASES_MAX: usize = 32;
pub const SPAN_MAX: u32 = 86_400;

#[derive(Clone, Copy, PartialEq, Eq, Debug)]
pub struct Lease {
    pub client: u32,
    pub end: u32,
}

#[derive(Clone, PartialEq, Eq, Debug)]
pub struct LeaseManager {
    pub time: u32,
    /// Next client number, 2^32 when all are issued.
    pub next: u64,
    /// By client.
    pub leases: Vec<Lease>,
}

impl Default for LeaseManager {
    fn default() -> LeaseManager {
        LeaseManager::new()
    }
}

impl LeaseManager {
    pub fn new() -> LeaseManager {
        LeaseManager {
            time: 0,
            next: 1,
            leases: Vec::with_capacity(LEASES_MAX),
        }
    }

    pub fn open(&mut self, time: u32, span: u32) -> Result<[u8; GRANT_LEN], Refusal> {
        test_span(span)?;
        let time = self.time.max(time);
        if self.running(time) >= LEASES_MAX {
            return Err(Refusal::LeasesFull);
        }
        let client = u32::try_from(self.next).map_err(|_| Refusal::NumberSpent)?;
        let end = time.checked_add(span).ok_or(Refusal::NumberSpent)?;
        self.advance(time);
        self.next += 1;
        self.leases.push(Lease { client, end });
        Ok(grant(client, end))
    }

    pub fn renew(&mut self, client: u32, time: u32, span: u32) -> Result<[u8; GRANT_LEN], Refusal> {
        test_span(span)?;
        let time = self.time.max(time);
        let lease = self.lease(client, time).ok_or(Refusal::Unknown)?;
        let end = time
            .checked_add(span)
            .ok_or(Refusal::NumberSpent)?
            .max(lease.end);
        self.advance(time);
        for lease in self.leases.iter_mut().filter(|l| l.client == client) {
            lease.end = end;
        }
        Ok(grant(client, end))
    }

    /// A grant if the lease is running, else a notice; both have 12 bytes.
    pub fn query(&mut self, client: u32, time: u32) -> Result<[u8; GRANT_LEN], Refusal> {
        if client == 0 || u64::from(client) >= self.next {
            return Err(Refusal::Unknown);
        }
        let time = self.time.max(time);
        self.advance(time);
        Ok(match self.lease(client, time) {
            Some(lease) => grant(client, lease.end),
            None => write_notice(&Notice { client, time }),
        })
    }

    fn running(&self, time: u32) -> usize {
        self.leases.iter().filter(|l| l.end > time).count()
    }

    fn lease(&self, client: u32, time: u32) -> Option<Lease> {
        let mut running = self.leases.iter().filter(|l| l.end > time);
        running.find(|l| l.client == client).copied()
    }

    fn advance(&mut self, time: u32) {
        self.time = time;
        self.leases.retain(|l| l.end > time);
    }
}

fn test_span(span: u32) -> Result<(), Refusal> {
    match span {
        1..=SPAN_MAX => Ok(()),
        _ => Err(Refusal::Malformed),
    }
}

fn grant(client: u32, lease_end: u32) -> [u8; GRANT_LEN] {
    write_grant(&Grant { client, lease_end })
}
