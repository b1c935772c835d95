//! Sequences of commands, of leases, and calls that are astray or refused.

use super::generate::{Generator, ISSUES_MAX};
use super::{Call, Mark, Party, Which};

impl Generator {
    /// Delivers the latest request to the holder.
    pub(super) fn send_latest(&mut self, percent: u32) {
        let packet = Which::Latest;
        let at = Party::Apt;
        self.maybe(percent, Call::Request { at, packet });
    }

    pub(super) fn command(&mut self) {
        if self.issues < ISSUES_MAX {
            self.new_request();
            self.reply();
        }
    }

    /// A command that is not synced when its sequence goes on.
    pub(super) fn maybe_unsynced(&mut self, percent: u32) {
        if self.random.chance(percent) && self.issues < ISSUES_MAX {
            self.new_request();
        }
    }

    pub(super) fn new_request(&mut self) {
        self.issues += 1;
        let call = self.issue();
        self.add(call);
        self.send_latest(90);
    }

    pub(super) fn issue(&mut self) -> Call {
        let (op, argument) = match self.random.below(20) {
            0..=9 => (2, self.random.between(-20, 60)),
            10..=13 => (1, self.random.between(-110, 1010)),
            14 => (1, self.random.between(-5, 5)),
            15..=16 => (0, 0),
            17 => (3, self.random.between(-110, 1010)),
            18 => (4, 0),
            _ => (5, self.random.between(0, 1000)),
        };
        Call::Issue {
            desk: self.desk(),
            op,
            point: self.point(),
            argument,
        }
    }

    /// Sync, ask again or fetch, receive.
    pub(super) fn reply(&mut self) {
        let at = Party::Apt;
        let latest = Which::Latest;
        self.sync_all(75);
        match self.random.chance(75) {
            true => self.maybe(90, Call::Request { at, packet: latest }),
            false => self.maybe(90, Call::Fetch { at, id: latest }),
        }
        self.maybe(
            85,
            Call::Receive {
                desk: at,
                packet: latest,
            },
        );
    }

    pub(super) fn late_request(&mut self) {
        let at = self.party(80);
        let packet = match self.random.chance(80) {
            true => Which::Any(self.random.next_u32()),
            false => self.which(),
        };
        self.add(Call::Request { at, packet });
        if self.random.chance(40) {
            let desk = self.party(90);
            let packet = self.which();
            self.add(Call::Receive { desk, packet });
        }
    }

    pub(super) fn resend(&mut self) {
        let desk = self.desk();
        let call = self.random.next_u32();
        self.add(Call::Resend { desk, call });
        self.send_latest(90);
        self.reply();
    }

    pub(super) fn sync(&mut self) {
        let at = self.party(40);
        let mark = match self.random.chance(50) {
            true => Mark::All,
            false => Mark::Between(self.random.next_u32()),
        };
        self.add(Call::Sync { at, mark });
    }

    /// Puts the mark at the log's end: by a sync, at times by a recovery
    /// without a crash.
    pub(super) fn sync_all(&mut self, percent: u32) {
        let at = Party::Apt;
        let mark = Mark::All;
        let call = match self.random.chance(95) {
            true => Call::Sync { at, mark },
            false => Call::RecoverRunning { at },
        };
        self.maybe(percent, call);
    }

    // Leases.

    /// Time passes; the office is asked and a notice may follow.
    pub(super) fn end_lease(&mut self) {
        let desk = self.desk();
        let wait = *self.random.pick(&[0, 3, 6, 12]);
        self.add(Call::Query { desk, wait });
        for number in 0..self.cabinets {
            let at = Party::Number(number);
            let packet = self.which();
            self.maybe(70, Call::Notice { at, packet });
        }
    }

    pub(super) fn renew(&mut self) {
        let desk = self.desk();
        let (wait, span) = (self.random.below(3), 1 + self.random.below(8));
        self.add(Call::Renew { desk, wait, span });
        let packet = Which::Latest;
        self.maybe(
            80,
            Call::Receive {
                desk: Party::Apt,
                packet,
            },
        );
    }

    // Calls that are refused.

    /// A packet or image at a party it is not meant for.
    pub(super) fn astray(&mut self) {
        let at = Party::Number(self.cabinet());
        let packet = Which::Astray(self.random.next_u32());
        let desk = Party::Number(self.desk());
        let call = match self.random.below(6) {
            0 => Call::Request { at, packet },
            1 => Call::Notice { at, packet },
            2 => Call::Take { at, image: packet },
            3 => Call::Release { at, packet },
            4 => Call::Receive { desk, packet },
            _ => Call::Start { packet },
        };
        self.add(call);
    }

    /// A call that is refused for its arguments.
    pub(super) fn bad_call(&mut self) {
        let at = self.party(70);
        let desk = self.desk();
        let point = self.point();
        let call = match self.random.below(8) {
            0 => Call::Sync {
                at,
                mark: Mark::Outside(self.random.chance(50)),
            },
            1 => Call::Give {
                at,
                point: 64,
                destination: 1,
            },
            2 => Call::Give {
                at,
                point,
                destination: 16,
            },
            3 => Call::Image { at, point: 200 },
            4 => Call::Receipt { at, point: 64 },
            5 => Call::Issue {
                desk,
                op: 6,
                point,
                argument: 0,
            },
            6 => Call::Open { wait: 0, span: 0 },
            _ => Call::Renew {
                desk,
                wait: 0,
                span: 86_401,
            },
        };
        self.add(call);
    }
}
