//! Which packet and which party a step means.

use super::{Cabinet, Desk, World, IMAGE};
use crate::image::IMAGE_MAGIC;
use crate::plan::POINTS;
use crate::schedule::{Party, Which, CONTROLLER, LATEST_DESK, LOST};
use crate::server::{Hold, Point};

impl World<'_> {
    // Packets made and picked.

    pub(super) fn keep(&mut self, packet: &[u8]) -> usize {
        let kind = match packet[0] {
            first if first == IMAGE_MAGIC[0] => IMAGE,
            first => first,
        };
        self.kinds[usize::from(kind)].push(self.pool.len());
        self.pool.push(packet.to_vec());
        self.pool.len()
    }

    /// The number of a packet of one of these kinds, from 0.
    pub(super) fn pick(&self, which: Which, kinds: &[u8]) -> Option<usize> {
        let lists = || kinds.iter().map(|&k| &self.kinds[usize::from(k)]);
        let latest = || lists().filter_map(|l| l.last()).max().copied();
        match which {
            Which::Latest => latest(),
            Which::Astray(n) => modulo(n, self.pool.len()),
            Which::LatestHarmless => {
                let harmless = |list: &Vec<usize>| {
                    let mut list = list.iter().rev().copied();
                    list.find(|&n| !self.is_opening(n))
                };
                lists().filter_map(harmless).max()
            }
            Which::Any(n) => {
                let mut index = modulo(n, lists().map(Vec::len).sum())?;
                for list in lists() {
                    match list.get(index) {
                        Some(&found) => return Some(found),
                        None => index -= list.len(),
                    }
                }
                None
            }
            Which::Recent(n) => {
                let list = lists().find(|l| l.last().copied() == latest())?;
                let back = modulo(n, list.len().min(4))?;
                Some(list[list.len() - 1 - back])
            }
        }
    }

    // Parties.

    pub(super) fn point_at(&self, cabinet: usize, point: u8) -> &Point {
        self.cabinets[cabinet].server.point(point)
    }

    /// The running cabinet whose point fits and ranks first, else the last
    /// one used.
    pub(super) fn find(&self, point: u8, rank: impl Fn(&Point) -> Option<u32>) -> usize {
        if usize::from(point) >= POINTS {
            return self.last;
        }
        (0..self.cabinets.len())
            .filter(|&i| self.cabinets[i].is_called())
            .filter_map(|i| rank(self.point_at(i, point)).map(|rank| (rank, i)))
            .min()
            .map_or(self.last, |(_, i)| i)
    }

    pub(super) fn holder(&self, point: u8) -> usize {
        self.find(point, |p| (p.hold == Hold::Held).then_some(0))
    }

    /// The cabinet that gave the point last.
    pub(super) fn last_giver(&self, point: u8) -> usize {
        self.find(point, |p| given(p).map(|number| u32::MAX - number))
    }

    /// The cabinet that gave the point first and has not released it.
    pub(super) fn first_giver(&self, point: u8) -> usize {
        self.find(point, given)
    }

    /// The running cabinet meant; none if it is new or crashed, or stores a checkpoint.
    pub(super) fn running(&mut self, at: Party, apt: usize) -> Option<usize> {
        let cabinet = self.party(at, apt);
        self.cabinets[cabinet].is_called().then(|| {
            self.last = cabinet;
            cabinet
        })
    }

    /// The crashed cabinet meant and the bytes that it kept; none if it is
    /// not crashed. Apt is the first crashed one.
    pub(super) fn crashed(&self, at: Party) -> Option<(usize, u64)> {
        let is_crashed = |c: &Cabinet| c.kept().is_some();
        let apt = self.cabinets.iter().position(is_crashed);
        let cabinet = self.party(at, apt.unwrap_or(self.last));
        let kept = self.cabinets[cabinet].kept()?;
        Some((cabinet, kept))
    }

    pub(super) fn party(&self, at: Party, apt: usize) -> usize {
        match at {
            Party::Apt => apt % self.cabinets.len(),
            Party::Number(number) => usize::from(number) % self.cabinets.len(),
        }
    }

    pub(super) fn desk(&self, number: u8) -> Option<usize> {
        match number {
            CONTROLLER => self.controllers.last().copied(),
            LOST.. => {
                let (_, lost) = self.controllers.split_last()?;
                let back = modulo(u32::from(number - LOST), lost.len())?;
                Some(lost[lost.len() - 1 - back])
            }
            LATEST_DESK => (self.desks.iter()).rposition(|d| matches!(d, Desk::Plain(_))),
            _ => modulo(u32::from(number), self.desks.len()),
        }
    }
}

/// The move number of a point given and not released.
fn given(point: &Point) -> Option<u32> {
    matches!(point.hold, Hold::Given { .. }).then_some(point.move_number)
}

pub(super) fn modulo(number: u32, count: usize) -> Option<usize> {
    (count > 0).then(|| number as usize % count)
}
