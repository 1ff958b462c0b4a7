//! A sheet by the text of documents 01 and 02 alone, blade width and all, in the plainest form: a tree of nodes that bear their marks, and the removable
//! list. It was written without a look at our crates. At width 0 it is held to the Rust, call by call; at other widths it is the judge.
//!
//! Two steps make up every call: `take_out` takes a subtree out of the tree, `add` puts a node at the end of its parent's children.

use std::cmp::Reverse;

use super::{Figures, Inserted, Judge};
use crate::core::orientation::Orientation;
use crate::frame::{Mark, Offer, Opening, Part};
use crate::tree::{Node, Piece, FREE_PIECE, PART, STRUCTURE};

const DEFAULT: u8 = 0;
const ROTATED: u8 = 1;

const ALONG_CURRENT_CUT: u8 = 1;
const ACROSS_CURRENT_CUT: u8 = 2;
const ALONG_THEN_ACROSS: u8 = 3;
const ACROSS_THEN_ALONG: u8 = 4;

#[derive(Clone)]
pub struct Model {
    opening: Opening,
    top: Node,
    removable: Vec<Mark>,
    last_serial: u32,
}

/// Width and height.
type Sides = (u32, u32);

/// What cutting a piece off makes of the remainder.
struct CutOff {
    eaten: u8,
    left: u32,
}

impl Model {
    pub fn open(opening: Opening) -> Self {
        let Opening { layout, width, height, cut, .. } = opening;
        let mark = Mark { layout, place: 0, serial: 1 };
        let piece = Piece { mark, kind: STRUCTURE, number: 0, level: 0, cut, width, height, eaten: 0 };
        let top = Node { piece, children: Vec::new() };
        let mut model = Model { opening, top, removable: Vec::new(), last_serial: 1 };
        model.add(mark, FREE_PIECE, 0, (width, height), 0);
        model.check();
        model
    }

    pub fn restored(&self, last_serial: u32) -> Self {
        Model { last_serial, ..self.clone() }
    }

    fn nodes(&self) -> Vec<&Piece> {
        self.top.in_order().into_iter().map(|node| &node.piece).collect()
    }

    fn of_kind(&self, kind: u8) -> Vec<&Piece> {
        self.nodes().into_iter().filter(|piece| piece.kind == kind).collect()
    }

    fn piece(&self, mark: Mark) -> Piece {
        self.top.find(mark).expect("a live mark").piece
    }

    fn parent_of(&self, mark: Mark) -> &Node {
        self.top.parent_of(mark).expect("a node below the top")
    }

    /// The lowest unheld place and the next serial.
    fn next_mark(&mut self) -> Mark {
        let nodes = self.nodes();
        let is_unheld = |place: &u8| nodes.iter().all(|piece| piece.mark.place != *place);
        let place = (0..=254).find(is_unheld).expect("a place is left");
        self.last_serial += 1;
        Mark { layout: self.opening.layout, place, serial: self.last_serial }
    }

    /// Creates a node at the end of its parent's children.
    fn add(&mut self, parent: Mark, kind: u8, number: u16, (width, height): Sides, eaten: u8) -> Mark {
        let mark = self.next_mark();
        let parent_node = find_mut(&mut self.top, parent).expect("the parent is there");
        let Piece { level, cut, .. } = parent_node.piece;
        let piece = Piece { mark, kind, number, level: level + 1, cut: other(cut), width, height, eaten };
        let had_no_child = parent_node.children.is_empty();
        parent_node.children.push(Node { piece, children: Vec::new() });
        if kind == PART {
            self.removable.push(mark);
        }
        if had_no_child {
            self.removable.push(parent);
        }
        mark
    }

    /// Takes a subtree out, child by child and its own node at the end; gives its part numbers in tree order.
    fn take_out(&mut self, mark: Mark) -> Vec<u16> {
        let node = self.top.find(mark).expect("a live mark").clone();
        let mut numbers = Vec::new();
        for child in &node.children {
            numbers.extend(self.take_out(child.piece.mark));
        }
        if node.piece.kind == PART {
            numbers.push(node.piece.number);
        }
        self.strike(mark);
        let parent = self.parent_of(mark).piece.mark;
        let parent_node = find_mut(&mut self.top, parent).expect("the parent is there");
        parent_node.children.retain(|child| child.piece.mark != mark);
        if parent_node.children.is_empty() {
            self.strike(parent);
        }
        numbers
    }

    /// Takes a node off the removable list, if it is there; the final entry goes into the hole.
    fn strike(&mut self, mark: Mark) {
        if let Some(hole) = self.removable.iter().position(|listed| *listed == mark) {
            let last = self.removable.pop().expect("a list with an entry");
            if hole < self.removable.len() {
                self.removable[hole] = last;
            }
        }
    }

    /// Cuts so much off a side. The blade eats its width of the remainder, or all of it if that is less.
    fn cut_off(&self, side: u32, taken: u32) -> CutOff {
        let remainder = side - taken;
        let eaten = remainder.min(self.opening.blade.into());
        CutOff { eaten: eaten as u8, left: remainder - eaten }
    }

    /// Stops where the tree isn't sound, or where part, free and eaten area don't make the sheet.
    fn check(&self) {
        let Figures { used_area, free_area, eaten_area, .. } = self.figures();
        assert_eq!(used_area + free_area + eaten_area, self.top.piece.area(), "parts, free pieces and the eaten make the sheet");
        assert_eq!(self.top.piece.eaten, 0, "nothing is eaten behind the top");
        for parent in self.top.in_order() {
            self.check_piece(&parent.piece);
            if !parent.children.is_empty() {
                check_row(parent);
            }
        }
    }

    fn check_piece(&self, piece: &Piece) {
        assert!(piece.eaten <= self.opening.blade, "no more is eaten than the blade's width: {piece:?}");
        assert!(piece.level <= self.opening.stages, "no deeper than the stages: {piece:?}");
        assert!(piece.is_free() || piece.area() > 0, "parts and structures have sides: {piece:?}");
    }
}

/// The children of a node fill it, with what was eaten between them. The last may be free, and nothing is eaten behind it.
fn check_row(parent: &Node) {
    let (cut, mut filled) = (parent.piece.cut, 0);
    for Node { piece, .. } in &parent.children {
        assert_eq!(piece.level, parent.piece.level + 1, "a level deeper: {piece:?}");
        assert_eq!(piece.cut, other(cut), "the other cut: {piece:?}");
        assert_eq!(piece.side(other(cut)), parent.piece.side(other(cut)), "as high or as wide as its parent: {piece:?}");
        filled += piece.side(cut) + u32::from(piece.eaten);
    }
    assert_eq!(filled, parent.piece.side(cut), "the children and the eaten fill {:?}", parent.piece);
    let (last, before) = parent.children.split_last().expect("a row has a piece");
    assert_eq!(last.piece.eaten, 0, "nothing is eaten behind the last piece: {:?}", last.piece);
    assert!(before.iter().all(|child| !child.piece.is_free()), "a free piece is last under {:?}", parent.piece);
}

impl Judge for Model {
    fn held(&self) -> usize {
        self.nodes().len()
    }

    fn last_serial(&self) -> u32 {
        self.last_serial
    }

    fn find(&self, mark: Mark) -> Option<Piece> {
        self.top.find(mark).map(|node| node.piece)
    }

    fn tree(&self) -> Node {
        self.top.clone()
    }

    fn free_list(&self) -> Vec<Mark> {
        let mut free = self.of_kind(FREE_PIECE);
        free.sort_by_key(|piece| (Reverse(piece.area()), piece.mark.serial));
        free.into_iter().map(|piece| piece.mark).collect()
    }

    fn removable_list(&self) -> Vec<Mark> {
        self.removable.clone()
    }

    fn figures(&self) -> Figures {
        let area = |kind| self.of_kind(kind).into_iter().map(Piece::area).sum();
        let used_area: u64 = area(PART);
        Figures {
            used_area,
            free_area: area(FREE_PIECE),
            eaten_area: eaten_area(&self.top),
            sheet_usage: (used_area as f64 / self.top.piece.area() as f64).to_bits(),
            tree_usage: usage(&self.top).to_bits(),
        }
    }

    fn part_numbers(&self) -> Vec<u16> {
        let mut parts = self.of_kind(PART);
        parts.sort_by_key(|piece| piece.mark.place);
        parts.into_iter().map(|piece| piece.number).collect()
    }

    fn snapshot(&self) -> Vec<u8> {
        self.top.snapshot()
    }

    fn offers(&self, piece: Mark, part: &Part) -> Vec<Offer> {
        let piece = self.piece(piece);
        let mut offers = Vec::new();
        for rotation in rotations_that_fit(&piece, part) {
            let shapes = shapes(&piece, laid(part, rotation), self.opening.stages);
            offers.extend(shapes.into_iter().map(|shape| Offer { rotation, shape }));
        }
        offers
    }

    fn nodes_made(&self, piece: Mark, part: &Part, offer: Offer) -> Option<usize> {
        self.offers(piece, part).contains(&offer).then_some(match offer.shape {
            ALONG_CURRENT_CUT => 2,
            ACROSS_CURRENT_CUT => 3,
            ALONG_THEN_ACROSS => 4,
            _ => 5,
        })
    }

    fn fits(&self, piece: Mark, part: &Part) -> bool {
        !rotations_that_fit(&self.piece(piece), part).is_empty()
    }

    /// The sides are named as for a piece with cut Horizontal: `wide` are the widths, `high` the heights. For Vertical they change places.
    fn insert(&mut self, mark: Mark, part: &Part, offer: Offer) -> Inserted {
        let piece = self.piece(mark);
        let sides = |wide, high| turned(piece.cut, (wide, high));
        let (wide, high) = turned(piece.cut, (piece.width, piece.height));
        let (part_wide, part_high) = turned(piece.cut, laid(part, offer.rotation));
        let (beside, below) = (self.cut_off(wide, part_wide), self.cut_off(high, part_high));
        let beside_part = sides(beside.left, part_high);
        let beside_all = sides(beside.left, high);
        let below_part = sides(part_wide, below.left);
        let below_all = sides(wide, below.left);

        let parent = self.parent_of(mark).piece.mark;
        self.take_out(mark);
        let inserted = match offer.shape {
            ALONG_CURRENT_CUT => {
                let part = self.add(parent, PART, part.number, sides(part_wide, high), beside.eaten);
                let rest = self.add(parent, FREE_PIECE, 0, beside_all, 0);
                Inserted { first: part, part, free: vec![rest] }
            }
            ACROSS_CURRENT_CUT => {
                let structure = self.add(parent, STRUCTURE, 0, sides(wide, high), 0);
                let part = self.add(structure, PART, part.number, sides(wide, part_high), below.eaten);
                let rest = self.add(structure, FREE_PIECE, 0, below_all, 0);
                Inserted { first: structure, part, free: vec![rest] }
            }
            ALONG_THEN_ACROSS => {
                let structure = self.add(parent, STRUCTURE, 0, sides(part_wide, high), beside.eaten);
                let part = self.add(structure, PART, part.number, sides(part_wide, part_high), below.eaten);
                let inner = self.add(structure, FREE_PIECE, 0, below_part, 0);
                let rest = self.add(parent, FREE_PIECE, 0, beside_all, 0);
                Inserted { first: structure, part, free: vec![inner, rest] }
            }
            ACROSS_THEN_ALONG => {
                let structure = self.add(parent, STRUCTURE, 0, sides(wide, high), 0);
                let strip = self.add(structure, STRUCTURE, 0, sides(wide, part_high), below.eaten);
                let part = self.add(strip, PART, part.number, sides(part_wide, part_high), beside.eaten);
                let inner = self.add(strip, FREE_PIECE, 0, beside_part, 0);
                let rest = self.add(structure, FREE_PIECE, 0, below_all, 0);
                Inserted { first: structure, part, free: vec![inner, rest] }
            }
            shape => panic!("shape {shape} is not listed"),
        };
        self.check();
        inserted
    }

    fn remove(&mut self, mark: Mark) -> (Mark, Vec<u16>) {
        let removed = self.piece(mark);
        let Node { piece: parent, children } = self.parent_of(mark).clone();
        let last = children.last().expect("the removed piece at least").piece;

        let mut freed = removed.side(parent.cut) + u32::from(removed.eaten);
        let numbers = self.take_out(mark);
        if last.is_free() {
            freed += last.side(parent.cut);
            self.take_out(last.mark);
        }
        let sides = match parent.cut {
            Orientation::Vertical => (freed, removed.height),
            Orientation::Horizontal => (removed.width, freed),
        };
        let free = self.add(parent.mark, FREE_PIECE, 0, sides, 0);
        self.check();
        (free, numbers)
    }

    fn untidy(&self) -> Vec<Mark> {
        let has_one_free_child = |node: &&Node| matches!(&node.children[..], [only] if only.piece.is_free());
        let untidy = self.top.in_order().into_iter().filter(has_one_free_child).map(|node| node.piece.mark);
        let mut marks: Vec<Mark> = untidy.filter(|mark| *mark != self.top.piece.mark).collect();
        marks.sort_by_key(|mark| mark.place);
        marks
    }
}

fn find_mut(node: &mut Node, mark: Mark) -> Option<&mut Node> {
    if node.piece.mark == mark {
        return Some(node);
    }
    node.children.iter_mut().find_map(|child| find_mut(child, mark))
}

fn other(cut: Orientation) -> Orientation {
    if cut == Orientation::Horizontal {
        Orientation::Vertical
    } else {
        Orientation::Horizontal
    }
}

/// Sides for Horizontal made sides for this cut, and back.
fn turned(cut: Orientation, (width, height): Sides) -> Sides {
    match cut {
        Orientation::Horizontal => (width, height),
        Orientation::Vertical => (height, width),
    }
}

/// The sides of a part as it lies.
fn laid(part: &Part, rotation: u8) -> Sides {
    match rotation {
        DEFAULT => (part.width, part.height),
        _ => (part.height, part.width),
    }
}

/// The rotations that a part allows and in which it fits both ways, Default first.
fn rotations_that_fit(piece: &Piece, part: &Part) -> Vec<u8> {
    let allowed: &[u8] = match part.turn {
        0 => &[DEFAULT, ROTATED],
        1 => &[DEFAULT],
        _ => &[ROTATED],
    };
    let fits = |rotation: &u8| {
        let (width, height) = laid(part, *rotation);
        width <= piece.width && height <= piece.height
    };
    allowed.iter().copied().filter(fits).collect()
}

/// The shapes that a free piece has for a part that fits: the first match wins.
fn shapes(piece: &Piece, part: Sides, stages: u8) -> Vec<u8> {
    let (wide, high) = turned(piece.cut, (piece.width, piece.height));
    let (part_wide, part_high) = turned(piece.cut, part);
    let (along, across) = (part_high == high, part_wide == wide);
    if along {
        return vec![ALONG_CURRENT_CUT];
    }
    if across && piece.level < stages {
        return vec![ACROSS_CURRENT_CUT];
    }
    let mut shapes = Vec::new();
    if piece.level < stages {
        shapes.push(ALONG_THEN_ACROSS);
    }
    if u16::from(piece.level) + 1 < u16::from(stages) {
        shapes.push(ACROSS_THEN_ALONG);
    }
    shapes
}

/// Each recorded amount times the node's height where its parent's cut is Vertical, its width where Horizontal.
fn eaten_area(parent: &Node) -> u64 {
    let of_child = |child: &Node| {
        let length = child.piece.side(other(parent.piece.cut));
        u64::from(child.piece.eaten) * u64::from(length) + eaten_area(child)
    };
    parent.children.iter().map(of_child).sum()
}

/// 1 for a part, 0 for a free piece, else the children's area times usage added in order from 0, divided by the node's area.
fn usage(node: &Node) -> f64 {
    match node.piece.kind {
        PART => 1.0,
        FREE_PIECE => 0.0,
        _ => {
            let filled = node.children.iter().fold(0.0, |sum, child| sum + child.piece.area() as f64 * usage(child));
            filled / node.piece.area() as f64
        }
    }
}

#[cfg(test)]
mod tests {
    use super::*;

    /// A board of 10 x 1 with a blade of 2 and a part of 4, once something in its row was changed.
    fn spoilt(change: impl Fn(&mut Vec<Node>)) {
        let mut model = Model::open(Opening { layout: 1, width: 10, height: 1, cut: Orientation::Vertical, stages: 1, blade: 2 });
        let part = Part { number: 7, width: 4, height: 1, turn: 1 };
        model.insert(model.free_list()[0], &part, Offer { rotation: DEFAULT, shape: ALONG_CURRENT_CUT });
        change(&mut model.top.children);
        model.check();
    }

    #[test]
    fn the_model_is_sound() {
        spoilt(|_| {});
    }

    #[test]
    #[should_panic(expected = "parts, free pieces and the eaten make the sheet")]
    fn the_model_stops_where_area_is_lost() {
        spoilt(|row| row[0].piece.eaten = 1);
    }

    #[test]
    #[should_panic(expected = "no more is eaten than the blade's width")]
    fn the_model_stops_where_too_much_is_eaten() {
        spoilt(|row| (row[0].piece.eaten, row[1].piece.width) = (3, 3));
    }

    #[test]
    #[should_panic(expected = "nothing is eaten behind the last piece")]
    fn the_model_stops_where_something_is_eaten_behind_the_last() {
        spoilt(|row| (row[1].piece.eaten, row[1].piece.width) = (1, 3));
    }
}
