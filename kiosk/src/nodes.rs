//! The tree of a sheet as its snapshot shows it (docs/RULES.md, "Tree snapshot").

use crate::Way;

/// A node of the tree: a piece of the sheet, as a snapshot shows it.
///
/// A snapshot has each node before its children, and a child with all that is below it before the next child. The first node is the sheet itself, at level 0.
#[derive(Clone, Copy, Debug, PartialEq, Eq, Hash)]
#[non_exhaustive]
pub struct Node {
    /// How many cuts deep the piece lies; the sheet itself is at 0.
    pub level: u8,
    /// What the piece is.
    pub kind: Kind,
    /// The way in which the piece is divided next.
    pub cut: Way,
    /// Its width.
    pub width: u32,
    /// Its height.
    pub height: u32,
    /// What the blade ate behind it, when it was cut off: nothing behind the sheet itself, and behind the last child of a piece.
    pub eaten: u8,
}

/// What a node is.
#[derive(Clone, Copy, Debug, PartialEq, Eq, Hash)]
pub enum Kind {
    /// A free piece: it holds nothing yet. It may have a side of 0.
    Free,
    /// A part that a customer booked.
    Part {
        /// Its part number.
        number: u16,
    },
    /// A structure: a piece that was cut into others.
    Structure,
}

/// The bytes of a node in a snapshot.
pub(crate) const BYTES: usize = 14;

impl Node {
    /// The part number, where the node is a part.
    ///
    /// ```
    /// # use nickelgrove_kiosk::{Part, Refusal, Sheet, Way};
    /// # let mut sheet = Sheet::open(1, 100, 60, Way::Vertical, 3)?;
    /// # let (free, part) = (sheet.free_pieces()?[0], Part::new(7, 40, 60));
    /// # sheet.insert(free, part, sheet.offers(free, part)?[0])?;
    /// let numbers: Vec<u16> = sheet.snapshot()?.iter().filter_map(|node| node.part_number()).collect();
    /// assert_eq!(numbers, [7]);
    /// # Ok::<(), Refusal>(())
    /// ```
    #[must_use]
    pub fn part_number(&self) -> Option<u16> {
        match self.kind {
            Kind::Part { number } => Some(number),
            Kind::Free | Kind::Structure => None,
        }
    }

    /// From the bytes of one node: level 1, kind 1, cut 1, part number 2, width 4, height 4, eaten 1, highest byte first. None where a kind or a cut is not
    /// listed, or what is no part has a part number.
    fn read(bytes: [u8; BYTES]) -> Option<Self> {
        let [level, kind, cut, n1, n0, w3, w2, w1, w0, h3, h2, h1, h0, eaten] = bytes;
        let kind = match (kind, u16::from_be_bytes([n1, n0])) {
            (0, 0) => Kind::Free,
            (1, number) => Kind::Part { number },
            (2, 0) => Kind::Structure,
            _ => return None,
        };
        let (width, height) = (u32::from_be_bytes([w3, w2, w1, w0]), u32::from_be_bytes([h3, h2, h1, h0]));
        Some(Node { level, kind, cut: Way::read(cut)?, width, height, eaten })
    }

    /// A list of whole nodes. None where the bytes are no such list.
    pub(crate) fn read_all(bytes: &[u8]) -> Option<Vec<Self>> {
        bytes.chunks(BYTES).map(|node| Node::read(node.try_into().ok()?)).collect()
    }
}
