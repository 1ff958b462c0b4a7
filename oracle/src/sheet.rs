//! One open sheet, as a session sees it, and who judges it: at blade width 0 the Rust and the model, at other widths, which the Rust doesn't know, the
//! model alone. Every question is put to all judges of the sheet, and the driver stops where they differ.

mod model;
mod rust;

use std::fmt::Debug;

use crate::frame::{Mark, Offer, Opening, Part};
use crate::saw::{self, Cut, Rectangle};
use crate::tree::{Node, Piece};
use model::Model;
#[cfg(feature = "bench")]
pub use rust::LEFTOVER_POWER;
pub use rust::{offers_of_node, RustSheet};

/// Whether the model judges beside the Rust, and blueprints are compared with what they have to be. The benchmark leaves that out: it takes longer
/// than the call.
const JUDGED: bool = !cfg!(feature = "bench");

/// What an insertion made: its nodes, all in the order of creation.
#[derive(Debug, PartialEq, Eq)]
pub struct Inserted {
    pub first: Mark,
    pub part: Mark,
    pub free: Vec<Mark>,
}

/// The figures of a sheet; the usages as the bits of their f64.
#[derive(Debug, PartialEq, Eq)]
pub struct Figures {
    pub used_area: u64,
    pub free_area: u64,
    pub eaten_area: u64,
    pub sheet_usage: u64,
    pub tree_usage: u64,
}

/// Who keeps a sheet and answers for it. All is said in marks.
pub trait Judge {
    /// How many nodes there are.
    fn held(&self) -> usize;

    fn last_serial(&self) -> u32;

    /// The node that bears exactly this mark.
    fn find(&self, mark: Mark) -> Option<Piece>;

    fn tree(&self) -> Node;

    /// The free pieces, greatest area first, equal areas by rising serial.
    fn free_list(&self) -> Vec<Mark>;

    /// The parts and structures.
    fn removable_list(&self) -> Vec<Mark>;

    fn figures(&self) -> Figures;

    /// The numbers of the parts held, by place.
    fn part_numbers(&self) -> Vec<u16>;

    /// The tree snapshot: 14 bytes a node, in tree order.
    fn snapshot(&self) -> Vec<u8>;

    /// What a free piece offers a part.
    fn offers(&self, piece: Mark, part: &Part) -> Vec<Offer>;

    /// How many nodes an offer creates; none if it isn't made.
    fn nodes_made(&self, piece: Mark, part: &Part, offer: Offer) -> Option<usize>;

    /// Whether a part lies within the sides of a free piece, in a rotation that it allows.
    fn fits(&self, piece: Mark, part: &Part) -> bool;

    /// Carries an offer out.
    fn insert(&mut self, piece: Mark, part: &Part, offer: Offer) -> Inserted;

    /// Removes a part or a structure; gives the new free piece and the part numbers that came out.
    fn remove(&mut self, mark: Mark) -> (Mark, Vec<u16>);

    /// The structures other than the top that have one child, a free piece, by place.
    fn untidy(&self) -> Vec<Mark>;
}

#[derive(Clone)]
pub struct Sheet {
    opening: Opening,
    /// At blade width 0.
    rust: Option<RustSheet>,
    /// Always, but in the benchmark only where there is no Rust.
    model: Option<Model>,
}

impl Sheet {
    pub fn open(opening: Opening) -> Self {
        let rust = (opening.blade == 0).then(|| RustSheet::open(&opening));
        let model = (JUDGED || rust.is_none()).then(|| Model::open(opening));
        Sheet { opening, rust, model }
    }

    /// The kept sheet's state, its blade's width with it, except that the last serial issued is the greater of the two.
    pub fn restore(&mut self, kept: &Self) {
        let last = self.last_serial().max(kept.last_serial());
        let own = self.rust.take();
        self.rust = kept.rust.as_ref().map(|kept| {
            let mut sheet = own.unwrap_or_else(|| kept.clone());
            sheet.restore(kept, last);
            sheet
        });
        self.model = kept.model.as_ref().map(|kept| kept.restored(last));
        self.opening = kept.opening;
    }

    /// As if serials up to this one had been issued.
    #[cfg(test)]
    pub fn spend_serials_to(&mut self, last: u32) {
        self.rust = self.rust.as_ref().map(|rust| rust.with_last_serial(last));
        self.model = self.model.as_ref().map(|model| model.restored(last));
    }

    pub fn number(&self) -> u16 {
        self.opening.layout
    }

    pub fn blade(&self) -> u8 {
        self.opening.blade
    }

    /// The name of the judge: the Rust where it has a say.
    pub fn judge(&self) -> &'static str {
        self.rust.as_ref().map_or("model", |_| "rust")
    }

    /// The layout of the Rust, where it judges this sheet.
    #[cfg(feature = "bench")]
    pub fn rust(&self) -> Option<&RustSheet> {
        self.rust.as_ref()
    }

    /// Puts a question to every judge, the Rust first. They have to agree.
    fn ask<T: Debug + PartialEq>(&self, question: impl Fn(&dyn Judge) -> T) -> T {
        let rust = self.rust.as_ref().map(|rust| question(rust));
        let model = self.model.as_ref().map(|model| question(model));
        agreed(rust, model)
    }

    /// Has every judge carry out a call. They have to agree on what came out.
    fn tell<T: Debug + PartialEq>(&mut self, call: impl Fn(&mut dyn Judge) -> T) -> T {
        let rust = self.rust.as_mut().map(|rust| call(rust));
        let model = self.model.as_mut().map(|model| call(model));
        agreed(rust, model)
    }

    pub fn held(&self) -> usize {
        self.ask(|judge| judge.held())
    }

    pub fn last_serial(&self) -> u32 {
        self.ask(|judge| judge.last_serial())
    }

    pub fn find(&self, mark: Mark) -> Option<Piece> {
        self.ask(|judge| judge.find(mark))
    }

    pub fn tree(&self) -> Node {
        self.ask(|judge| judge.tree())
    }

    pub fn free_list(&self) -> Vec<Mark> {
        self.ask(|judge| judge.free_list())
    }

    pub fn removable_list(&self) -> Vec<Mark> {
        self.ask(|judge| judge.removable_list())
    }

    pub fn figures(&self) -> Figures {
        self.ask(|judge| judge.figures())
    }

    pub fn part_numbers(&self) -> Vec<u16> {
        self.ask(|judge| judge.part_numbers())
    }

    pub fn snapshot(&self) -> Vec<u8> {
        self.ask(|judge| judge.snapshot())
    }

    pub fn offers(&self, piece: Mark, part: &Part) -> Vec<Offer> {
        self.ask(|judge| judge.offers(piece, part))
    }

    pub fn nodes_made(&self, piece: Mark, part: &Part, offer: Offer) -> Option<usize> {
        self.ask(|judge| judge.nodes_made(piece, part, offer))
    }

    pub fn insert(&mut self, piece: Mark, part: &Part, offer: Offer) -> Inserted {
        self.tell(|judge| judge.insert(piece, part, offer))
    }

    pub fn remove(&mut self, mark: Mark) -> (Mark, Vec<u16>) {
        self.tell(|judge| judge.remove(mark))
    }

    pub fn untidy(&self) -> Vec<Mark> {
        self.ask(|judge| judge.untidy())
    }

    /// While some structure other than the top has one child and that is free, it is taken out by the removal, lowest place first; gives how many were.
    /// Each judge finds them among its own nodes and takes them out by its own removal.
    pub fn tidy(&mut self) -> usize {
        let mut count = 0;
        while let Some(lowest) = self.untidy().first() {
            let (_, numbers) = self.remove(*lowest);
            assert_eq!(numbers, [], "no part is in an untidy structure");
            count += 1;
        }
        count
    }

    /// The free pieces themselves, in the order of their list.
    pub fn free_pieces(&self) -> Vec<Piece> {
        self.free_list().into_iter().map(|mark| self.find(mark).expect("a piece of the list")).collect()
    }

    /// The list of saw cuts. The simple saw has run it on the full sheet.
    pub fn cuts(&self) -> Vec<Cut> {
        let tree = self.tree();
        let cuts = saw::cuts(&tree);
        let pile = saw::saw(Rectangle::of(&tree.piece), &cuts);
        assert_eq!(pile, Ok(saw::boards(&tree)), "the saw makes the parts and free pieces of the tree");
        cuts
    }

    /// The first piece of the free list that has an offer; every free piece is asked.
    pub fn room_for(&self, part: &Part) -> Option<Mark> {
        let asked = self.free_list().into_iter().map(|piece| (piece, self.offers(piece, part).len()));
        let offering: Vec<Mark> = asked.filter(|(_, offers)| *offers > 0).map(|(piece, _)| piece).collect();
        offering.first().copied()
    }

    /// Whether a part fits within the sides of some free piece, in a rotation that it allows, whatever the stages are.
    pub fn fits_somewhere(&self, part: &Part) -> bool {
        self.free_list().into_iter().any(|piece| self.ask(|judge| judge.fits(piece, part)))
    }
}

/// The answer that the judges agree on.
pub fn agreed<T: Debug + PartialEq>(rust: Option<T>, model: Option<T>) -> T {
    if let (Some(rust), Some(model)) = (&rust, &model) {
        assert_eq!(rust, model, "the Rust, on the left, and the model agree");
    }
    rust.or(model).expect("a sheet has a judge")
}
