//! Tidying in other orders (document 02, change request 5): "The tree is the same whichever structure is taken first." On states of random sessions the sheet
//! is tidied lowest place first, and again and again with another untidy structure first, drawn each time; every way has to end, with as many taken out and
//! with the same tree. Beside it: as many go as there are structures but the top with no part inside; one of these, untidy or not, may be taken out before; and
//! a tidy sheet on which a part is booked, in any way that is offered, has its tree again once the part is removed and the sheet tidied.

use crate::frame::{Mark, Part, Request};
use crate::generate;
use crate::rng::Rng;
use crate::session::Session;
use crate::sheet::Sheet;
use crate::tree::{Node, PART, STRUCTURE};

/// How many orders are tried on a state.
const ORDERS: usize = 4;

/// A table with more nodes than this has no place for every booking.
const ROOM: usize = 250;

/// What was tried.
#[derive(Debug, Default)]
pub struct Tried {
    /// States with something to tidy.
    pub states: usize,
    /// Other orders of taking out, of them those in which another structure was taken first.
    pub orders: usize,
    pub others_first: usize,
    /// Structures with no part inside, taken out before a tidying.
    pub emptied: usize,
    /// Bookings taken back, by shape.
    pub bookings: [usize; 4],
}

/// Tries all of it on the states of random sessions. Panics where something differs.
pub fn tried(seed: u64, sessions: u32, kind: &str) -> Result<Tried, String> {
    let lines = generate::lines(seed, &[(sessions, kind)])?;
    let mut rng = Rng::new(seed);
    let mut session = Session::default();
    let mut tried = Tried::default();
    for line in lines {
        let request = session.answer(line.as_bytes()).request;
        let Some(sheet) = session.sheet() else { continue };
        tried.any_order(sheet, &mut rng);
        if let Some(Request::Insert { mark, part, .. }) = request {
            tried.bookings_taken_back(sheet, mark, &part, &mut rng);
        }
    }
    Ok(tried)
}

impl Tried {
    fn any_order(&mut self, sheet: &Sheet, rng: &mut Rng) {
        let untidy = sheet.untidy();
        let empty = empty_structures(&sheet.tree());
        let mut tidied = sheet.clone();
        let count = tidied.tidy();
        assert_eq!(count, empty.len(), "as many are taken out as there are structures with no part inside");
        if untidy.is_empty() {
            return assert_eq!(tidied.tree(), sheet.tree(), "a tidy sheet stays as it is");
        }
        self.states += 1;
        for _ in 0..ORDERS {
            let (first, other) = in_some_order(sheet.clone(), rng);
            self.orders += 1;
            self.others_first += usize::from(first != untidy[0]);
            assert_eq!(other.last_serial(), tidied.last_serial(), "as many are taken out in another order");
            same(&other, &tidied, "another order");
        }
        let mut other = sheet.clone();
        other.remove(rng.pick(&empty));
        other.tidy();
        self.emptied += 1;
        same(&other, &tidied, "an empty structure taken out before");
    }

    /// Books a part on the tidied sheet in each way that is offered, and takes it back: in the free piece with this mark, or in some other one.
    fn bookings_taken_back(&mut self, sheet: &Sheet, mark: Mark, part: &Part, rng: &mut Rng) {
        let mut tidy = sheet.clone();
        tidy.tidy();
        let pieces = tidy.free_list();
        let piece = tidy.find(mark).filter(|piece| piece.is_free()).map_or_else(|| rng.pick(&pieces), |piece| piece.mark);
        if !part.in_domain() || tidy.held() > ROOM {
            return;
        }
        for offer in tidy.offers(piece, part) {
            let mut again = tidy.clone();
            let booked = again.insert(piece, part, offer);
            again.remove(booked.part);
            again.tidy();
            self.bookings[usize::from(offer.shape) - 1] += 1;
            same(&again, &tidy, "a booking, its removal and a tidying");
        }
    }
}

/// Takes untidy structures out until there is none, each drawn from those that are untidy then; gives the first of them.
fn in_some_order(mut sheet: Sheet, rng: &mut Rng) -> (Mark, Sheet) {
    let first = rng.pick(&sheet.untidy());
    let mut next = Some(first);
    while let Some(mark) = next {
        sheet.remove(mark);
        let untidy = sheet.untidy();
        next = (!untidy.is_empty()).then(|| rng.pick(&untidy));
    }
    (first, sheet)
}

/// The structures but the top with no part inside.
fn empty_structures(top: &Node) -> Vec<Mark> {
    let has_part = |node: &Node| node.in_order().into_iter().any(|inside| inside.piece.kind == PART);
    let nodes = top.in_order().into_iter().skip(1);
    nodes.filter(|node| node.piece.kind == STRUCTURE && !has_part(node)).map(|node| node.piece.mark).collect()
}

/// The same tree, byte for byte; and the same areas, which are of the tree.
fn same(one: &Sheet, other: &Sheet, how: &str) {
    assert_eq!(one.snapshot(), other.snapshot(), "{how}: the same tree");
    assert_eq!(one.figures(), other.figures(), "{how}: the same figures");
}
