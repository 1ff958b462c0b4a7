//! Sessions that go to the ends: chains of structures, rows of parts, full tables, the last serial. Where a session tidies, it does so there too.

use super::{Generator, Kind};
use crate::core::orientation::Orientation;
use crate::frame::{Mark, Offer, Part, Request, GREATEST_SIDE};
use crate::session::refusal;
use crate::tree::{Piece, PART};

/// So few serials are left when a session that tidies stops to fill tables.
const NEAR_THE_END: u32 = 60;

impl Generator {
    /// The free piece at the deepest level.
    pub(super) fn deepest(&self) -> Piece {
        self.free_pieces().into_iter().max_by_key(|piece| piece.level).expect("a free piece")
    }

    /// Books the part that fits across a piece of sides 2 or more and leaves `rest` of it.
    fn book_across(&mut self, piece: &Piece, number: u16, rest: u32) -> u8 {
        let (width, height) = match piece.cut {
            Orientation::Horizontal => (piece.width, piece.height - rest),
            Orientation::Vertical => (piece.width - rest, piece.height),
        };
        let part = Part { number, width, height, turn: 1 };
        self.send(Request::Insert { mark: piece.mark, part, offer: Offer { rotation: 0, shape: 2 } })
    }

    /// Goes a level deeper: a part is booked across the deepest piece and taken out again. Gives the booking's number.
    pub(super) fn descend(&mut self, number: u16) -> u8 {
        let piece = self.deepest();
        let refused = self.book_across(&piece, number, 1);
        if refused == 0 {
            let part = self.newest_part();
            self.send(Request::Remove { mark: part });
        }
        refused
    }

    pub(super) fn newest_part(&self) -> Mark {
        let tree = self.sheet().tree();
        let parts = tree.in_order().into_iter().filter(|node| node.piece.kind == PART);
        parts.map(|node| node.piece.mark).max_by_key(|mark| mark.serial).expect("a part")
    }

    /// A few structures, one inside the other, as far as the stages allow; then ordinary calls.
    pub(super) fn chain(&mut self) {
        let (width, height) = (self.rng.between(2, 90), self.rng.between(2, 90));
        let (stages, blade) = (self.rng.between(2, 9) as u8, self.some_blade());
        self.open_with(width, height, stages, blade);
        for number in 0..self.rng.between(1, 8) {
            self.descend(number as u16);
        }
        self.calls(Kind::Exact, 8, 16);
    }

    /// To level 253, where only a part along the cut still finds two places; then structures are taken out and put back.
    pub(super) fn deep(&mut self) {
        let (width, blade) = (self.rng.between(2, 9), self.some_blade());
        self.open_with(width, 2, 254, blade);
        while self.descend(5) == 0 {}
        self.send(Request::Report);
        self.send(Request::Keep);
        if self.tidies {
            self.tidy_chain();
        }
        self.book_exactly();
        self.send(Request::Report);
        for level in [200, 100, 2, 1] {
            let structure = self.at_level(level);
            self.send(Request::Remove { mark: structure });
            self.send(Request::Report);
        }
        self.send(Request::Restore);
        self.calls(Kind::Exact, 20, 30);
    }

    /// A part as large as the deepest piece: along the cut, whatever the level.
    pub(super) fn book_exactly(&mut self) {
        let piece = self.deepest();
        let part = Part { number: 77, width: piece.width, height: piece.height, turn: 1 };
        self.send(Request::Insert { mark: piece.mark, part, offer: Offer { rotation: 0, shape: 1 } });
    }

    /// The node at a level that has the lowest place.
    pub(super) fn at_level(&self, level: u8) -> Mark {
        let tree = self.sheet().tree();
        let nodes = tree.in_order().into_iter().filter(|node| node.piece.level == level);
        nodes.map(|node| node.piece.mark).min_by_key(|mark| mark.place).expect("a node at this level")
    }

    /// A structure with parts in a row until the table is full; then it is taken out whole.
    pub(super) fn row(&mut self) {
        let blade = self.some_blade();
        let breadth = 1 + u32::from(blade);
        self.open_with(400 * breadth, 300 * breadth, 2, blade);
        let piece = self.deepest();
        self.book_across(&piece, 1, 255 * breadth);
        for number in 2..=254 {
            let piece = self.deepest();
            self.book_along(&piece, number);
        }
        self.send(Request::Keep);
        self.send(Request::Report);
        let structure = self.at_level(1);
        self.send(Request::Remove { mark: structure });
        self.send(Request::Restore);
        self.remove();
        let piece = self.deepest();
        self.book_along(&piece, 300);
        self.calls(Kind::Plain, 20, 30);
    }

    /// A part of breadth 1 along the cut.
    fn book_along(&mut self, piece: &Piece, number: u16) -> u8 {
        let (width, height) = match piece.cut {
            Orientation::Horizontal => (1, piece.height),
            Orientation::Vertical => (piece.width, 1),
        };
        let part = Part { number, width, height, turn: 1 };
        self.send(Request::Insert { mark: piece.mark, part, offer: Offer { rotation: 0, shape: 1 } })
    }

    /// A full table, twice: parts and structures are taken out of the first.
    pub(super) fn full(&mut self) {
        let blade = self.some_blade();
        self.open_with(GREATEST_SIDE, GREATEST_SIDE - 1, 254, blade);
        for _ in 0..2 {
            self.fill();
            self.send(Request::Report);
            self.send(Request::Keep);
            for _ in 0..self.rng.between(1, 12) {
                self.remove();
            }
            if self.tidies {
                self.clear_out();
            }
            self.calls(Kind::Plain, 10, 20);
        }
    }

    /// Books small parts by any shape until bookings were refused five times for want of places, or nothing more fits.
    fn fill(&mut self) {
        let mut refused = 0;
        while refused < 5 {
            let piece = self.free_pieces()[0];
            let part = self.small_part(&piece);
            let offers = self.offers(&piece, &part);
            if offers.is_empty() {
                return;
            }
            let offer = self.rng.pick(&offers);
            let number = self.send(Request::Insert { mark: piece.mark, part, offer });
            refused += u32::from(number == refusal::TABLE_FULL);
        }
    }

    /// Fills the table with blocks of five nodes and restores, over and over, until no serial is left.
    pub(super) fn serials(&mut self) {
        let blade = self.some_blade();
        self.open_with(GREATEST_SIDE, GREATEST_SIDE, 254, blade);
        self.send(Request::Keep);
        loop {
            match self.book_corner(4) {
                0 if self.tidies && self.serials_left() < NEAR_THE_END => break,
                0 => {}
                refusal::TABLE_FULL => drop(self.send(Request::Restore)),
                _ => break,
            }
        }
        if self.tidies {
            return self.tidy_at_the_end();
        }
        while self.book_along_first() == 0 {}
        // a removal takes one serial: the last, if there is one yet
        self.remove();
        self.remove();
        self.book_corner(3);
        self.send(Request::Restore);
        self.book_corner(4);
        self.send(Request::Report);
    }

    /// A part of 1 x 1 into the first free piece.
    fn book_corner(&mut self, shape: u8) -> u8 {
        let mark = self.sheet().free_list()[0];
        let part = Part { number: 1, width: 1, height: 1, turn: 1 };
        self.send(Request::Insert { mark, part, offer: Offer { rotation: 0, shape } })
    }

    fn book_along_first(&mut self) -> u8 {
        let piece = self.free_pieces()[0];
        self.book_along(&piece, 2)
    }
}
