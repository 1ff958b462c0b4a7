//! Calls that have to be refused, with one thing or several wrong with them, and lines that are no frames.

use super::{Generator, Kind};
use crate::core::orientation::Orientation;
use crate::frame::{self, Mark, Opening, Request, GREATEST_SIDE, WIDEST_BLADE};

/// Sides and stages just outside the domain, and far outside.
const BAD_SIDES: [u32; 3] = [0, GREATEST_SIDE + 1, u32::MAX];
const BAD_STAGES: [u8; 2] = [0, 255];
const BAD_BLADES: [u8; 3] = [WIDEST_BLADE + 1, WIDEST_BLADE + 28, 255];

impl Generator {
    /// A call with one thing or several wrong with it, which shows in what order they are tested.
    pub(super) fn fault(&mut self) {
        match self.rng.between(0, 9) {
            0 => self.bad_opening(),
            1..=3 => {
                let mark = self.bad_mark();
                self.send(Request::Remove { mark });
            }
            _ => self.bad_booking(),
        }
    }

    fn bad_opening(&mut self) {
        if self.with_blade && self.rng.chance(60) {
            return self.bad_blade();
        }
        let (mut width, mut height, mut stages) = (self.rng.between(1, 9), self.rng.between(1, 9), 3);
        match self.rng.between(0, 2) {
            0 => width = self.rng.pick(&BAD_SIDES),
            1 => height = self.rng.pick(&BAD_SIDES),
            _ => stages = self.rng.pick(&BAD_STAGES),
        }
        self.send(Request::Open(Opening { layout: 9, width, height, cut: Orientation::Horizontal, stages, blade: 0 }));
    }

    /// An opening with a blade that is too wide; now and then its stages are wrong too.
    fn bad_blade(&mut self) {
        let (width, height, blade) = (self.rng.between(1, 9), self.rng.between(1, 9), self.rng.pick(&BAD_BLADES));
        let stages = if self.rng.chance(80) { 3 } else { self.rng.pick(&BAD_STAGES) };
        self.send(Request::Open(Opening { layout: 9, width, height, cut: Orientation::Vertical, stages, blade }));
    }

    /// A mark that a removal, and mostly a booking too, has to refuse.
    fn bad_mark(&mut self) -> Mark {
        let live = self.some_piece().mark;
        let mark = match self.rng.between(0, 7) {
            0 => self.top(),
            1 => live,
            2 => Mark { place: 255, ..live },
            3 => Mark { place: 254, serial: 0, ..live },
            4 => Mark { serial: live.serial + 1, ..live },
            _ => self.rng.pick(&self.past),
        };
        if self.rng.chance(20) {
            Mark { layout: mark.layout.wrapping_add(1), ..mark }
        } else {
            mark
        }
    }

    fn bad_booking(&mut self) {
        let piece = self.some_piece();
        let (mut mark, mut part, offer) = (piece.mark, self.some_part(Kind::Exact, &piece), self.some_offer());
        if self.rng.chance(25) {
            part.width = self.rng.pick(&BAD_SIDES);
        }
        if self.rng.chance(10) {
            part.height = self.rng.pick(&BAD_SIDES);
        }
        if self.rng.chance(10) {
            mark.layout = mark.layout.wrapping_add(1);
        }
        match self.rng.between(0, 3) {
            0 => mark = self.bad_mark(),
            1 => mark = self.rng.pick(&self.removable()),
            2 => part.turn = 2 - offer.rotation,
            _ => {}
        }
        if self.rng.chance(40) {
            self.send(Request::Offers { mark, part });
        } else {
            self.send(Request::Insert { mark, part, offer });
        }
    }

    /// A line that is no frame: wrong characters, or the right ones for what no frame says.
    pub(super) fn malformed(&mut self) {
        if self.with_blade && self.rng.chance(20) {
            return self.opening_of_wrong_length();
        }
        let piece = self.some_piece();
        let part = self.some_part(Kind::Plain, &piece);
        let bytes = Request::Insert { mark: piece.mark, part, offer: self.some_offer() }.bytes();
        let line = match self.rng.chance(50) {
            true => self.wrong_characters(&frame::line(bytes)),
            false => frame::line(self.wrong_bytes(bytes)),
        };
        self.send_line(line);
    }

    /// An opening that lacks the blade's byte, as it did before there was a blade, or has a byte behind it.
    fn opening_of_wrong_length(&mut self) {
        let opening = Opening { layout: 1, width: 2, height: 2, cut: Orientation::Vertical, stages: 2, blade: 0 };
        let mut bytes = Request::Open(opening).bytes();
        match self.rng.chance(70) {
            true => drop(bytes.pop()),
            false => bytes.push(0),
        }
        self.send_line(frame::line(bytes));
    }

    /// The line of an insertion, cut, lengthened or with a character that has no place there.
    fn wrong_characters(&mut self, good: &str) -> String {
        match self.rng.between(0, 6) {
            0 => String::new(),
            1 => good[1..].to_string(),
            2 => format!("0A{}", &good[2..]),
            3 => format!("{good}\r"),
            4 => good.replacen('0', "g", 1),
            5 => format!("{good}{}", "0".repeat(65 - good.len())),
            _ => format!("{}{:02x}", &good[..42], self.rng.between(0, 255)),
        }
    }

    /// The bytes of an insertion with one too many or too few, or one that isn't listed; or an opening with such a cut.
    fn wrong_bytes(&mut self, mut bytes: Vec<u8>) -> Vec<u8> {
        const OP: usize = 0;
        const CUT: usize = 11;
        const TURN: usize = 18;
        const ROTATION: usize = 19;
        const SHAPE: usize = 20;
        match self.rng.between(0, 5) {
            0 => bytes.push(0),
            1 => drop(bytes.pop()),
            2 => bytes[OP] = self.rng.pick(&[0, 8, 255]),
            3 => bytes[TURN] = 3,
            4 => {
                let (index, value) = self.rng.pick(&[(ROTATION, 2), (SHAPE, 0), (SHAPE, 5)]);
                bytes[index] = value;
            }
            _ => {
                let cut = Orientation::Vertical;
                bytes = Request::Open(Opening { layout: 1, width: 2, height: 2, cut, stages: 2, blade: 0 }).bytes();
                bytes[CUT] = 2;
            }
        }
        bytes
    }
}
