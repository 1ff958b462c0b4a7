//! The list of saw cuts, read from the bytes that the archive writes (document 02, change requests 3 and 4).

/// A cut that the saw makes.
///
/// The saw has a pile of pieces, at first the sheet alone. A cut takes the piece at a place of the pile and puts what it makes of it there: the left or
/// upper piece first, the other one behind it. Between the two the blade eats what [`eaten`](Cut::eaten) says. Where that is all that lay behind the piece cut
/// off, the cut puts this one piece into the pile, and nothing behind it.
#[derive(Clone, Copy, Debug, PartialEq, Eq, Hash)]
pub struct Cut {
    /// The piece's place in the pile, from 0.
    pub place: u16,
    /// Which way the saw goes.
    pub way: Way,
    /// From the piece's left edge (vertical) or its upper one (horizontal). Above 0, and less than the piece has.
    pub distance: u32,
    /// What is cut off: the left or upper piece.
    pub piece: Piece,
    /// What is left: the right or lower piece. Where nothing is left it is a free piece without area.
    pub left: Piece,
    /// What the blade eats behind the piece cut off: 0 to 100, and no more than lay there.
    pub eaten: u8,
}

/// A cut as the frame of op 18 lists it: a [`Cut`] without what the blade eats, which op 1a says.
///
/// ```
/// use nickelgrove_kiosk::{Answer, Desk, Request, Way};
///
/// let mut desk = Desk::new();
/// desk.ask(&Request::Open { number: 1, width: 100, height: 60, first_cut: Way::Vertical, stages: 3, blade: 3 })?;
/// desk.answer("03000101000000020007000000280000003c0000018d"); // part 7, 40 x 60
/// let (Answer::Cuts(cuts), Answer::CutAmounts(amounts)) = (desk.ask(&Request::Cuts)?, desk.ask(&Request::CutAmounts)?) else {
///     panic!("each request has an answer of its own kind");
/// };
/// let cut = cuts[0].with_eaten(amounts[0]);
/// assert_eq!((cut.distance, cut.eaten), (40, 3));
/// # Ok::<(), nickelgrove_kiosk::Refusal>(())
/// ```
#[derive(Clone, Copy, Debug, PartialEq, Eq, Hash)]
#[non_exhaustive]
pub struct ListedCut {
    /// The piece's place in the pile, from 0.
    pub place: u16,
    /// Which way the saw goes.
    pub way: Way,
    /// From the piece's left edge (vertical) or its upper one (horizontal).
    pub distance: u32,
    /// What is cut off: the left or upper piece.
    pub piece: Piece,
    /// What is left: the right or lower piece.
    pub left: Piece,
}

/// The way of a cut: of a saw cut, of the first cut of a sheet, and of the next cut of a node.
#[derive(Clone, Copy, Debug, PartialEq, Eq, Hash)]
pub enum Way {
    /// From left to right: the pieces lie one below the other.
    Horizontal,
    /// From top to bottom: the pieces stand side by side.
    Vertical,
}

/// What a piece is, once it is cut.
#[derive(Clone, Copy, Debug, PartialEq, Eq, Hash)]
pub enum Piece {
    /// A free piece, done.
    Free,
    /// A part, done.
    Part,
    /// A structure: what is in it is cut the other way, if there is more than one piece.
    Structure,
    /// What is cut again, the same way: several siblings, which are cut off one after the other; or one of them and what the blade eats behind it.
    Several,
}

/// The bytes of a cut.
pub(crate) const BYTES: usize = 9;

impl Cut {
    /// A list of cuts with what the blade eats with each of them. None where the two are not equally long.
    pub(crate) fn all(listed: &[ListedCut], amounts: &[u8]) -> Option<Vec<Self>> {
        let cut = |(listed, eaten): (&ListedCut, &u8)| listed.with_eaten(*eaten);
        (listed.len() == amounts.len()).then(|| listed.iter().zip(amounts).map(cut).collect())
    }
}

impl ListedCut {
    /// The cut, with what the blade eats with it.
    #[must_use]
    pub fn with_eaten(self, eaten: u8) -> Cut {
        let ListedCut { place, way, distance, piece, left } = self;
        Cut { place, way, distance, piece, left, eaten }
    }

    /// From the bytes of one cut: place 2, way 1, distance 4 and the two kinds 1 each, highest byte first. None where a way or a kind is not listed.
    pub(crate) fn read(bytes: [u8; BYTES]) -> Option<Self> {
        let [p1, p0, way, d3, d2, d1, d0, piece, left] = bytes;
        Some(ListedCut {
            place: u16::from_be_bytes([p1, p0]),
            way: Way::read(way)?,
            distance: u32::from_be_bytes([d3, d2, d1, d0]),
            piece: Piece::read(piece)?,
            left: Piece::read(left)?,
        })
    }

    /// A list of whole cuts. None where the bytes are no such list.
    pub(crate) fn read_all(bytes: &[u8]) -> Option<Vec<Self>> {
        bytes.chunks(BYTES).map(|cut| ListedCut::read(cut.try_into().ok()?)).collect()
    }
}

impl Way {
    pub(crate) fn read(number: u8) -> Option<Self> {
        match number {
            0 => Some(Way::Horizontal),
            1 => Some(Way::Vertical),
            _ => None,
        }
    }

    pub(crate) fn number(self) -> u8 {
        match self {
            Way::Horizontal => 0,
            Way::Vertical => 1,
        }
    }
}

impl Piece {
    fn read(number: u8) -> Option<Self> {
        match number {
            0 => Some(Piece::Free),
            1 => Some(Piece::Part),
            2 => Some(Piece::Structure),
            3 => Some(Piece::Several),
            _ => None,
        }
    }
}

#[cfg(test)]
mod tests {
    use super::*;

    /// A list and its amounts go together where they are equally long, and not else.
    #[test]
    fn each_cut_has_its_amount() {
        let listed = ListedCut { place: 1, way: Way::Vertical, distance: 40, piece: Piece::Part, left: Piece::Several };
        let cut = |eaten| Cut { place: 1, way: Way::Vertical, distance: 40, piece: Piece::Part, left: Piece::Several, eaten };
        assert_eq!(Cut::all(&[listed, listed], &[3, 0]), Some(vec![cut(3), cut(0)]));
        assert_eq!(Cut::all(&[], &[]), Some(vec![]));
        for amounts in [&[][..], &[3], &[3, 3, 3]] {
            assert_eq!(Cut::all(&[listed, listed], amounts), None);
        }
    }
}
