//! Sequences of a point's move.

use super::generate::Generator;
use super::{Call, Party, Which};

impl Generator {
    pub(super) fn move_point(&mut self) {
        let point = self.point();
        self.move_this(point);
    }

    pub(super) fn move_this(&mut self, point: u8) {
        let destination = self.cabinet();
        let at = Party::Apt;
        self.add(Call::Give {
            at,
            point,
            destination,
        });
        self.sync_all(85);
        self.add(Call::Image { at, point });
        if self.random.chance(20) {
            self.crash();
        }
        self.maybe(
            92,
            Call::Take {
                at,
                image: Which::Latest,
            },
        );
        self.sync_all(70);
        if self.random.chance(30) {
            self.finish_move();
        }
    }

    /// The image again, for a point that was given; the first call finds the
    /// giver for the sync.
    pub(super) fn carry_on_move(&mut self) {
        let point = self.point();
        self.carry_on_this(point);
    }

    pub(super) fn carry_on_this(&mut self, point: u8) {
        let at = Party::Apt;
        self.add(Call::Image { at, point });
        self.sync_all(80);
        self.add(Call::Image { at, point });
        let image = Which::Latest;
        self.add(Call::Take { at, image });
    }

    pub(super) fn finish_move(&mut self) {
        let point = self.point();
        let at = self.party(80);
        self.add(Call::Receipt { at, point });
        let at = self.party(85);
        let packet = self.which();
        self.maybe(90, Call::Release { at, packet });
    }

    pub(super) fn late_image(&mut self) {
        let at = self.party(80);
        let image = self.which();
        self.add(Call::Take { at, image });
    }
}
