//! The desk's frames, written (docs/FRAMES.md, docs/DESK.md).

use std::fmt::Write;

use crate::{Mark, Offer, Part, Way};

/// A frame of the desk: an op with its fields. Those of the counter are the first seven.
///
/// Every request is a frame: whatever its numbers are, the answer is never "not understood".
///
/// ```
/// use nickelgrove_kiosk::{Request, Way};
///
/// let request = Request::Open { number: 1, width: 100, height: 60, first_cut: Way::Vertical, stages: 3, blade: 0 };
/// assert_eq!(request.line(), "010001000000640000003c0103005a");
/// ```
#[derive(Clone, Copy, Debug, PartialEq, Eq, Hash)]
#[non_exhaustive]
pub enum Request {
    /// 01: a new sheet on the desk. What was kept stays.
    Open {
        /// The layout number.
        number: u16,
        /// The sheet's width.
        width: u32,
        /// The sheet's height.
        height: u32,
        /// The way in which it is cut first.
        first_cut: Way,
        /// How many cuts deep the saw goes.
        stages: u8,
        /// The width of the saw's blade: what it eats behind a piece that is cut off.
        blade: u8,
    },
    /// 02: the ways to book a part in a free piece.
    Offers {
        /// The free piece.
        piece: Mark,
        /// The part.
        part: Part,
    },
    /// 03: book it in one of these ways.
    Insert {
        /// The free piece.
        piece: Mark,
        /// The part.
        part: Part,
        /// The way.
        offer: Offer,
    },
    /// 04: take a part or a structure out.
    Remove {
        /// The part or the structure.
        piece: Mark,
    },
    /// 05: remember the sheet as it stands.
    Keep,
    /// 06: put the sheet back as it was kept.
    Restore,
    /// 07: the counter's report.
    Report,
    /// 11: why a free piece doesn't take a part.
    WhyNot {
        /// The free piece.
        piece: Mark,
        /// The part.
        part: Part,
    },
    /// 12: whether some free piece has an offer for a part, and the first that has.
    RoomLight {
        /// The part.
        part: Part,
    },
    /// 13: the free piece at a position of the free list.
    FreePiece {
        /// The position, from 0.
        position: u16,
    },
    /// 14: the part or structure at a position of the removable list.
    RemovablePiece {
        /// The position, from 0.
        position: u16,
    },
    /// 15: the numbers of the parts held.
    PartNumbers,
    /// 16: the figures.
    Figures,
    /// 17: the tree.
    Snapshot,
    /// 18: the saw cuts.
    Cuts,
    /// 19: the area that the blade has eaten.
    EatenArea,
    /// 1a: what the blade eats with each of the saw cuts.
    CutAmounts,
    /// 1b: take out each structure that holds one free piece and nothing else, until there is none.
    Tidy,
}

impl Request {
    /// The op: the first byte of the frame, and of its answer.
    #[must_use]
    pub fn op(&self) -> u8 {
        match self {
            Request::Open { .. } => 0x01,
            Request::Offers { .. } => 0x02,
            Request::Insert { .. } => 0x03,
            Request::Remove { .. } => 0x04,
            Request::Keep => 0x05,
            Request::Restore => 0x06,
            Request::Report => 0x07,
            Request::WhyNot { .. } => 0x11,
            Request::RoomLight { .. } => 0x12,
            Request::FreePiece { .. } => 0x13,
            Request::RemovablePiece { .. } => 0x14,
            Request::PartNumbers => 0x15,
            Request::Figures => 0x16,
            Request::Snapshot => 0x17,
            Request::Cuts => 0x18,
            Request::EatenArea => 0x19,
            Request::CutAmounts => 0x1a,
            Request::Tidy => 0x1b,
        }
    }

    /// The line of the frame, without its newline.
    #[must_use]
    pub fn line(&self) -> String {
        let mut bytes = vec![self.op()];
        match *self {
            Request::Open { number, width, height, first_cut, stages, blade } => {
                bytes.extend(number.to_be_bytes());
                bytes.extend(width.to_be_bytes());
                bytes.extend(height.to_be_bytes());
                bytes.extend([first_cut.number(), stages, blade]);
            }
            Request::Offers { piece, part } | Request::WhyNot { piece, part } => {
                bytes.extend(piece.bytes());
                bytes.extend(part.bytes());
            }
            Request::Insert { piece, part, offer } => {
                bytes.extend(piece.bytes());
                bytes.extend(part.bytes());
                bytes.extend([offer.rotation.number(), offer.shape.number()]);
            }
            Request::Remove { piece } => bytes.extend(piece.bytes()),
            Request::RoomLight { part } => bytes.extend(part.bytes()),
            Request::FreePiece { position } | Request::RemovablePiece { position } => bytes.extend(position.to_be_bytes()),
            Request::Keep
            | Request::Restore
            | Request::Report
            | Request::PartNumbers
            | Request::Figures
            | Request::Snapshot
            | Request::Cuts
            | Request::EatenArea
            | Request::CutAmounts
            | Request::Tidy => (),
        }
        // the check makes all bytes add to 0
        bytes.push(bytes.iter().fold(0, |check: u8, byte| check.wrapping_sub(*byte)));
        let mut line = String::with_capacity(2 * bytes.len());
        for byte in bytes {
            write!(line, "{byte:02x}").expect("a String takes every character");
        }
        line
    }
}
