//! Sequences of crashes and recoveries.

use super::generate::Generator;
use super::{Call, Flaw, Keep, Party, Step};

impl Generator {
    pub(super) fn crash(&mut self) {
        let at = self.party(60);
        let keep = self.keep();
        self.add(Call::Crash { at, keep });
        self.maybe(90, Call::Recover { at: Party::Apt });
    }

    pub(super) fn keep(&mut self) -> Keep {
        match self.random.below(4) {
            0..=1 => Keep::Synced,
            2 => Keep::All,
            _ => Keep::Between(self.random.next_u32()),
        }
    }

    /// Mostly more than the mark, if there is more.
    pub(super) fn keep_more(&mut self) -> Keep {
        match self.random.chance(50) {
            true => Keep::All,
            false => Keep::Between(self.random.next_u32()),
        }
    }

    /// Two crashes or more before the recovery; the first leaves the next
    /// one something to remove.
    pub(super) fn crash_again(&mut self) {
        self.maybe_unsynced(70);
        self.maybe_unsynced(40);
        let at = self.party(80);
        let keep = self.keep_more();
        self.add(Call::Crash { at, keep });
        self.more_crashes();
        self.maybe(75, Call::Recover { at: Party::Apt });
    }

    pub(super) fn more_crashes(&mut self) {
        let at = Party::Apt;
        loop {
            self.between_crashes();
            let keep = self.keep();
            self.add(Call::CrashAgain { at, keep });
            if self.random.chance(65) {
                return;
            }
        }
    }

    /// Nothing, a refused recovery, or calls at other servers.
    pub(super) fn between_crashes(&mut self) {
        let call = Call::Recover { at: Party::Apt };
        match self.random.below(10) {
            0..=1 => self.steps.push(Step {
                call,
                flaw: Flaw::State,
            }),
            2 => self.late_request(),
            3 => self.late_image(),
            _ => {}
        }
    }

    /// A recovery without a crash; a reply or a crash may follow.
    pub(super) fn recover_running(&mut self) {
        self.maybe_unsynced(60);
        let at = self.party(80);
        self.add(Call::RecoverRunning { at });
        if self.random.chance(50) {
            self.reply();
        }
        if self.random.chance(30) {
            self.crash();
        }
    }

    /// One server or two crash and are not recovered before the list ends.
    pub(super) fn end_crashed(&mut self) {
        self.maybe_unsynced(50);
        for _ in 0..1 + self.random.below(2) {
            let at = self.party(60);
            let keep = self.keep();
            self.add(Call::Crash { at, keep });
        }
        if self.random.chance(30) {
            self.more_crashes();
        }
    }
}
