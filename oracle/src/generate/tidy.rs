//! Tidying (document 02, change request 5), in sessions of kinds that tidy.

use super::{Generator, Kind};
use crate::frame::{Offer, Part, Request};
use crate::marks::LAST_SERIAL;
use crate::tree::PART;

/// A part of 1 x 1.
const SMALLEST: Part = Part { number: 3, width: 1, height: 1, turn: 1 };

impl Generator {
    /// A tidying before there is a sheet, where the sessions tidy.
    pub(super) fn tidy_before_opening(&mut self) {
        if self.tidies {
            self.send(Request::Tidy);
        }
    }

    /// The sheet is tidied, as it is or after something was taken out of it.
    pub(super) fn tidying(&mut self, kind: Kind) {
        match self.rng.between(0, 99) {
            0..=14 => drop(self.send(Request::Tidy)),
            15..=19 => {
                // the second has nothing left to take out
                self.send(Request::Tidy);
                self.send(Request::Tidy);
            }
            20..=39 => self.book_remove_tidy(kind),
            40..=54 => self.tidy_and_restore(),
            55..=74 => self.tidy_chain_of(4),
            75..=94 => self.clear_out(),
            _ => self.malformed_tidying(),
        }
    }

    /// A tidy sheet, a booking, the removal of its part, and the tidying that gives the tree back.
    fn book_remove_tidy(&mut self, kind: Kind) {
        if !self.sheet().untidy().is_empty() {
            self.send(Request::Tidy);
        }
        let parts = self.parts_held();
        self.insert(kind);
        if self.parts_held() > parts {
            let part = self.newest_part();
            self.send(Request::Remove { mark: part });
        }
        self.tidy_with_gone_marks();
    }

    fn parts_held(&self) -> usize {
        self.sheet().part_numbers().len()
    }

    /// Tidies, and then names what was taken out, or stood in it.
    fn tidy_with_gone_marks(&mut self) {
        let tree = self.sheet().tree();
        let untidy = self.sheet().untidy();
        self.send(Request::Tidy);
        if let Some(mark) = untidy.first() {
            let only = tree.find(*mark).expect("an untidy structure").children[0].piece.mark;
            match self.rng.between(0, 2) {
                0 => drop(self.send(Request::Remove { mark: *mark })),
                1 => drop(self.send(Request::Offers { mark: only, part: SMALLEST })),
                _ => drop(self.send(Request::Insert { mark: only, part: SMALLEST, offer: Offer { rotation: 0, shape: 3 } })),
            }
        }
    }

    /// The sheet is kept before it is tidied, or after it, and put back.
    fn tidy_and_restore(&mut self) {
        if self.rng.chance(60) {
            self.send(Request::Keep);
            self.tidy_with_gone_marks();
        } else {
            self.send(Request::Tidy);
            self.send(Request::Keep);
            self.remove();
        }
        self.send(Request::Restore);
        if self.rng.chance(60) {
            self.send(Request::Tidy);
        }
    }

    /// Some structures in one another, as far as the stages allow, and nothing in the last; then a tidying.
    fn tidy_chain_of(&mut self, most: u32) {
        for number in 0..self.rng.between(1, most) {
            let piece = self.deepest();
            if piece.width < 2 || piece.height < 2 {
                break;
            }
            self.descend(number as u16);
        }
        self.send(Request::Tidy);
    }

    /// Most of the parts are taken out, which leaves structures with nothing in them; then a tidying.
    pub(super) fn clear_out(&mut self) {
        let tree = self.sheet().tree();
        let parts = tree.in_order().into_iter().filter(|node| node.piece.kind == PART).map(|node| node.piece.mark);
        for mark in parts.collect::<Vec<_>>() {
            if self.rng.chance(80) {
                self.send(Request::Remove { mark });
            }
        }
        self.tidy_with_gone_marks();
    }

    /// A line that asks to tidy and has a byte too many, or another check.
    fn malformed_tidying(&mut self) {
        let line = self.rng.pick(&["1b00e5", "1be4", "1b", "1BE5", "1be5 "]);
        self.send_line(line.to_string());
    }

    /// The deepest chain is tidied whole, and put back.
    pub(super) fn tidy_chain(&mut self) {
        self.send(Request::Tidy);
        self.send(Request::Report);
        self.send(Request::Tidy);
        self.send(Request::Restore);
    }

    pub(super) fn serials_left(&self) -> u32 {
        LAST_SERIAL - self.sheet().last_serial()
    }

    /// Near the last serial. With one serial too few a tidying is refused whole; with just enough it is carried out; a tidy sheet at the last serial asks
    /// for none; and without one left a tidying is refused again.
    pub(super) fn tidy_at_the_end(&mut self) {
        self.send(Request::Restore);
        for number in 0..7 {
            self.descend(number);
        }
        self.send(Request::Keep);
        self.spend_to(6);
        self.send(Request::Tidy);
        self.send(Request::Report);
        // one serial goes, and then three: two are left for the two structures
        let third = self.at_level(3);
        self.send(Request::Remove { mark: third });
        self.book_and_remove();
        self.send(Request::Tidy);
        self.send(Request::Tidy);
        self.send(Request::Report);
        self.send(Request::Restore);
        self.send(Request::Tidy);
        self.send(Request::Report);
    }

    /// Takes two serials and then one, and leaves the structures as they are.
    fn book_and_remove(&mut self) {
        self.book_exactly();
        let part = self.newest_part();
        self.send(Request::Remove { mark: part });
    }

    /// Spends serials on the sheet that was kept, until so many are left: two at a time, and three at the end where that is needed.
    fn spend_to(&mut self, left: u32) {
        while self.serials_left() > left {
            match self.serials_left() - left {
                3 => self.book_and_remove(),
                _ => self.book_exactly(),
            }
            self.send(Request::Restore);
        }
    }
}
