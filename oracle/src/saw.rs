//! The list of saw cuts and the simple saw that it is for (document 02, change requests 3 and 4). The Rust has neither.
//!
//! Ours go down the tree call by call. Here the boards that are to be cut wait on a stack, the first of the pile on top, and the place of
//! the next cut is the number of boards that are done: they all lie before it.

use crate::core::orientation::Orientation;
use crate::frame::cut_number;
use crate::tree::{Node, Piece};

/// What a cut says of siblings that are left together.
pub const SEVERAL: u8 = 3;

/// A cut of the piece at a place of the pile, so far from its left edge if Vertical, from its upper one if Horizontal.
#[derive(Clone, Copy, Debug, PartialEq, Eq)]
pub struct Cut {
    pub place: u16,
    pub way: Orientation,
    pub distance: u32,
    /// The kind of what is cut off, as in snapshots.
    pub piece: u8,
    /// The kind of what is left, or `SEVERAL` if that is cut again.
    pub left: u8,
    /// How much the blade eats behind the piece that is cut off. It stands beside the list, not in it.
    pub amount: u8,
}

impl Cut {
    pub fn write(&self, bytes: &mut Vec<u8>) {
        bytes.extend(self.place.to_be_bytes());
        bytes.push(cut_number(self.way));
        bytes.extend(self.distance.to_be_bytes());
        bytes.extend([self.piece, self.left]);
    }
}

#[derive(Clone, Copy, Debug, PartialEq, Eq)]
pub struct Rectangle {
    pub width: u32,
    pub height: u32,
}

impl Rectangle {
    pub fn of(piece: &Piece) -> Self {
        Rectangle { width: piece.width, height: piece.height }
    }

    fn has_area(self) -> bool {
        self.width > 0 && self.height > 0
    }

    /// The side that a cut of this way divides.
    fn side(self, way: Orientation) -> u32 {
        match way {
            Orientation::Horizontal => self.height,
            Orientation::Vertical => self.width,
        }
    }

    /// As much of it as has this side.
    fn slice(self, way: Orientation, side: u32) -> Self {
        match way {
            Orientation::Horizontal => Rectangle { height: side, ..self },
            Orientation::Vertical => Rectangle { width: side, ..self },
        }
    }
}

/// A board that is to be cut: neighbours that hang together still, under a cut of this way.
struct Board<'a> {
    way: Orientation,
    pieces: &'a [Node],
}

impl<'a> Board<'a> {
    fn inside(node: &'a Node) -> Self {
        Board { way: node.piece.cut, pieces: &node.children }
    }
}

/// The cuts of a sheet, in order.
pub fn cuts(top: &Node) -> Vec<Cut> {
    let mut cuts = Vec::new();
    let mut done = 0;
    let mut ahead = vec![Board::inside(top)];
    while let Some(Board { way, pieces }) = ahead.pop() {
        let Some((first, rest)) = pieces.split_first() else {
            panic!("a structure has a piece");
        };
        if is_cut(pieces) {
            let distance = first.piece.side(way);
            let left = if is_cut(rest) { SEVERAL } else { rest[0].piece.kind };
            cuts.push(Cut { place: done, way, distance, piece: first.piece.kind, left, amount: first.piece.eaten });
            ahead.push(Board { way, pieces: rest });
            ahead.push(Board { way, pieces: &pieces[..1] });
        } else if !first.children.is_empty() {
            ahead.push(Board::inside(first));
        } else if !first.piece.is_nothing() {
            done += 1;
        }
    }
    cuts
}

/// Whether the first of these neighbours is cut off. It is whole already where nothing is behind it, and nothing was eaten there.
fn is_cut(pieces: &[Node]) -> bool {
    match pieces {
        [] | [_] => false,
        [first, offcut] if offcut.piece.is_nothing() => first.piece.eaten > 0,
        [..] => true,
    }
}

/// What the saw has to make: the parts and the free pieces with area, in tree order.
pub fn boards(top: &Node) -> Vec<Rectangle> {
    let nodes = top.in_order().into_iter().filter(|node| node.children.is_empty() && !node.piece.is_nothing());
    nodes.map(|node| Rectangle::of(&node.piece)).collect()
}

/// The simple saw: the pile after these cuts of a sheet, or what it can't do.
pub fn saw(sheet: Rectangle, cuts: &[Cut]) -> Result<Vec<Rectangle>, String> {
    let mut pile = vec![sheet];
    for cut in cuts {
        let (place, amount) = (usize::from(cut.place), u32::from(cut.amount));
        let piece = *pile.get(place).ok_or_else(|| format!("no piece there: {cut:?}"))?;
        let left = piece.side(cut.way).checked_sub(cut.distance).and_then(|rest| rest.checked_sub(amount));
        let Some(left) = left.filter(|_| cut.distance > 0) else {
            return Err(format!("not within {piece:?}: {cut:?}"));
        };
        let halves = [cut.distance, left].map(|side| piece.slice(cut.way, side));
        pile.splice(place..=place, halves.into_iter().filter(|half| half.has_area()));
    }
    Ok(pile)
}
