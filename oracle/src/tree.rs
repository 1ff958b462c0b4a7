//! A sheet as a plain tree: what the model keeps, and what the Rust's nodes are read into.

use crate::core::orientation::Orientation;
use crate::frame::{cut_number, Mark};

/// The kinds of a node, as in snapshots.
pub const FREE_PIECE: u8 = 0;
pub const PART: u8 = 1;
pub const STRUCTURE: u8 = 2;

/// A node by itself.
#[derive(Clone, Copy, Debug, PartialEq, Eq)]
pub struct Piece {
    pub mark: Mark,
    pub kind: u8,
    /// The number of a part; 0 for what is none.
    pub number: u16,
    pub level: u8,
    /// The next cut.
    pub cut: Orientation,
    pub width: u32,
    pub height: u32,
    /// How much the blade ate behind it.
    pub eaten: u8,
}

impl Piece {
    pub fn is_free(&self) -> bool {
        self.kind == FREE_PIECE
    }

    pub fn area(&self) -> u64 {
        u64::from(self.width) * u64::from(self.height)
    }

    /// A free piece of area 0, which is nothing to a carpenter.
    pub fn is_nothing(&self) -> bool {
        self.is_free() && self.area() == 0
    }

    /// The side that a cut of this way divides.
    pub fn side(&self, way: Orientation) -> u32 {
        match way {
            Orientation::Horizontal => self.height,
            Orientation::Vertical => self.width,
        }
    }
}

/// A node with all that hangs under it.
#[derive(Clone, Debug, PartialEq, Eq)]
pub struct Node {
    pub piece: Piece,
    pub children: Vec<Node>,
}

impl Node {
    /// The nodes in tree order: each before its children's subtrees, these in order.
    pub fn in_order(&self) -> Vec<&Node> {
        let mut order = Vec::new();
        self.append_to(&mut order);
        order
    }

    fn append_to<'a>(&'a self, order: &mut Vec<&'a Node>) {
        order.push(self);
        self.children.iter().for_each(|child| child.append_to(order));
    }

    pub fn find(&self, mark: Mark) -> Option<&Node> {
        if self.piece.mark == mark {
            return Some(self);
        }
        self.children.iter().find_map(|child| child.find(mark))
    }

    pub fn parent_of(&self, mark: Mark) -> Option<&Node> {
        if self.children.iter().any(|child| child.piece.mark == mark) {
            return Some(self);
        }
        self.children.iter().find_map(|child| child.parent_of(mark))
    }

    /// The tree snapshot: 14 bytes a node.
    pub fn snapshot(&self) -> Vec<u8> {
        let mut bytes = Vec::new();
        for Node { piece, .. } in self.in_order() {
            bytes.extend([piece.level, piece.kind, cut_number(piece.cut)]);
            bytes.extend(piece.number.to_be_bytes());
            bytes.extend(piece.width.to_be_bytes());
            bytes.extend(piece.height.to_be_bytes());
            bytes.push(piece.eaten);
        }
        bytes
    }
}
