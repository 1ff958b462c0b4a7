//! An open sheet as a layout of the Rust, with the marks that the driver gives its nodes. It knows no blade: nothing is eaten on it.
//!
//! All content comes from the Rust's own calls. Where a fact can be had from the Rust in two ways, both are asked and must agree.

use super::{Figures, Inserted, Judge, JUDGED};
use crate::core::entities::layout::Layout;
use crate::core::entities::node::{self, NodeKey};
use crate::core::entities::parttype::PartType;
use crate::core::entities::sheettype::SheetType;
use crate::core::insertion::insertion_blueprint::{InsertionBlueprint, InsertionShape};
use crate::core::insertion::insertion_option::InsertionOption;
use crate::core::insertion::node_blueprint::NodeBlueprint;
use crate::core::rotation::Rotation;
use crate::frame::{cut_number, Mark, Offer, Opening, Part};
use crate::marks::{tree_order, Marks};
use crate::optimization::problem::Problem;
use crate::optimization::rr::cache_updates::IOCUpdates;
use crate::tree::{Node, Piece, FREE_PIECE, PART, STRUCTURE};

/// Costs are not compared: any power does.
pub const LEFTOVER_POWER: f32 = 1.0;

#[derive(Clone)]
pub struct RustSheet {
    problem: Problem<'static>,
    marks: Marks,
}

impl RustSheet {
    /// Opens a sheet. The Rust borrows its sheet types; this one stays for as long as the program runs.
    pub fn open(opening: &Opening) -> Self {
        let Opening { layout: number, width, height, cut, stages, .. } = *opening;
        let kind = SheetType::new(0, width.into(), height.into(), 0, None, stages);
        let layout = Layout::new(number.into(), Box::leak(Box::new(kind)), cut, LEFTOVER_POWER);
        let marks = Marks::of_opening(number, &layout);
        RustSheet { problem: Problem::of(layout), marks }
    }

    pub fn restore(&mut self, kept: &Self, last_serial: u32) {
        self.problem.only_mut().restore_from(kept.layout());
        self.marks = kept.marks.restored(last_serial);
    }

    #[cfg(test)]
    pub fn with_last_serial(&self, last: u32) -> Self {
        RustSheet { problem: self.problem.clone(), marks: self.marks.restored(last) }
    }

    pub fn layout(&self) -> &Layout<'static> {
        self.problem.only()
    }

    pub fn marks(&self) -> &Marks {
        &self.marks
    }

    pub fn node(&self, key: NodeKey) -> &node::Node<'static> {
        &self.layout().nodes()[key]
    }

    fn key(&self, mark: Mark) -> NodeKey {
        self.marks.find(mark).expect("a live mark")
    }

    fn marks_of(&self, keys: &[NodeKey]) -> Vec<Mark> {
        keys.iter().map(|key| self.marks.of(*key)).collect()
    }

    /// The blueprints that the Rust offers for a part in a free piece, with what each stands for.
    ///
    /// The Rust tests whether a part fits only where both rotations are open, so a fixed one is tested here first.
    pub fn blueprints<'p>(&self, piece: NodeKey, part: &'p PartType) -> Vec<(Offer, InsertionBlueprint<'p>)> {
        let offers = offers_of_node(self.node(piece), part, self.layout().sheettype().max_stages);
        let mut blueprints = Vec::new();
        if !offers.is_empty() {
            let option = InsertionOption::new(self.problem.index(), piece, part, part.fixed_rotation());
            option.append_blueprints(&self.problem, &mut blueprints);
        }
        assert_eq!(offers.len(), blueprints.len(), "as many blueprints as shapes");
        for ((rotation, shape), blueprint) in offers.iter().zip(&blueprints).filter(|_| JUDGED) {
            let expected = self.blueprint(piece, part, *rotation, *shape);
            assert_eq!(format!("{blueprint:?}"), format!("{expected:?}"), "a blueprint is for its rotation and shape");
        }
        let offers = offers.into_iter().map(|(rotation, shape)| Offer::of(rotation, shape));
        offers.zip(blueprints).collect()
    }

    fn blueprint<'p>(
        &self,
        piece: NodeKey,
        part: &'p PartType,
        rotation: Rotation,
        shape: InsertionShape,
    ) -> InsertionBlueprint<'p> {
        InsertionBlueprint::new(self.problem.index(), piece, shape, rotation, part, self.node(piece), LEFTOVER_POWER)
    }

    /// The free pieces in document 01's order. The Rust leaves the order of equal areas open.
    pub fn free_keys(&self) -> Vec<NodeKey> {
        let area = |key: &NodeKey| self.node(*key).area();
        let rust = self.layout().sorted_empty_nodes();
        let mut list: Vec<NodeKey> = self.marks.by_place().filter(|key| self.node(*key).is_empty()).collect();
        list.sort_by_key(|key| (std::cmp::Reverse(area(key)), self.marks.of(*key).serial));
        assert!(list.iter().map(area).eq(rust.iter().map(area)), "the Rust's list has the same areas in order");
        assert!(list.iter().all(|key| rust.contains(key)), "the Rust's list has the same pieces");
        list
    }

    fn parts(&self) -> impl Iterator<Item = &PartType> {
        self.marks.by_place().filter_map(|key| *self.node(key).parttype())
    }

    fn blueprint_of_tree(&self) -> NodeBlueprint {
        NodeBlueprint::from_node(*self.layout().top_node_index(), self.layout().nodes())
    }

    fn piece(&self, key: NodeKey) -> Piece {
        let node = self.node(key);
        Piece {
            mark: self.marks.of(key),
            kind: kind(node.parttype().is_some(), node.has_children()),
            number: node.parttype().map_or(0, |part| number_of(part.id())),
            level: node.level(),
            cut: node.next_cut_orient(),
            width: side(node.width()),
            height: side(node.height()),
            eaten: 0,
        }
    }

    fn subtree(&self, key: NodeKey) -> Node {
        let children = self.node(key).children(self.layout().nodes()).map(|child| self.subtree(child)).collect();
        Node { piece: self.piece(key), children }
    }
}

impl Judge for RustSheet {
    fn held(&self) -> usize {
        self.marks.held()
    }

    fn last_serial(&self) -> u32 {
        self.marks.last()
    }

    fn find(&self, mark: Mark) -> Option<Piece> {
        self.marks.find(mark).map(|key| self.piece(key))
    }

    fn tree(&self) -> Node {
        self.subtree(*self.layout().top_node_index())
    }

    fn free_list(&self) -> Vec<Mark> {
        self.marks_of(&self.free_keys())
    }

    /// In the Rust's order.
    fn removable_list(&self) -> Vec<Mark> {
        self.marks_of(self.layout().removable_nodes())
    }

    fn figures(&self) -> Figures {
        let used_area = self.parts().map(PartType::area).sum::<u64>();
        let sheet_usage = self.layout().usage();
        let sheet_area = self.layout().sheettype().area();
        assert_eq!(used_area as f64 / sheet_area as f64, sheet_usage, "the Rust's own used area is this one");
        Figures {
            used_area,
            free_area: self.layout().sorted_empty_nodes().iter().map(|key| self.node(*key).area()).sum(),
            eaten_area: 0,
            sheet_usage: sheet_usage.to_bits(),
            tree_usage: self.blueprint_of_tree().calculate_usage().to_bits(),
        }
    }

    /// The Rust gives them in an order of its own.
    fn part_numbers(&self) -> Vec<u16> {
        let numbers: Vec<u16> = self.parts().map(|part| number_of(part.id())).collect();
        let mut rust: Vec<u16> = self.layout().included_part_ids().into_iter().map(number_of).collect();
        let mut ours = numbers.clone();
        rust.sort_unstable();
        ours.sort_unstable();
        assert_eq!(ours, rust, "the Rust holds the same part numbers");
        numbers
    }

    /// The Rust's own snapshot has no levels: the nodes give them.
    fn snapshot(&self) -> Vec<u8> {
        let mut bytes = Vec::new();
        let mut levels = tree_order(self.layout()).into_iter().map(|key| self.node(key).level());
        write_tree(&self.blueprint_of_tree(), &mut levels, &mut bytes);
        assert_eq!(levels.next(), None, "the Rust's snapshot has every node");
        bytes
    }

    fn offers(&self, piece: Mark, part: &Part) -> Vec<Offer> {
        self.blueprints(self.key(piece), &part.parttype()).into_iter().map(|(offer, _)| offer).collect()
    }

    fn nodes_made(&self, piece: Mark, part: &Part, offer: Offer) -> Option<usize> {
        let (piece, part) = (self.key(piece), part.parttype());
        let (_, blueprint) = self.blueprints(piece, &part).into_iter().find(|(listed, _)| *listed == offer)?;
        Some(blueprint.nodes(self.node(piece)).iter().flatten().count())
    }

    fn fits(&self, piece: Mark, part: &Part) -> bool {
        let (piece, part) = (self.node(self.key(piece)), &part.parttype());
        rotations(part).any(|rotation| piece.insertion_possible(part, rotation))
    }

    /// The Rust borrows its part types; this one stays for as long as the program runs.
    fn insert(&mut self, piece: Mark, part: &Part, offer: Offer) -> Inserted {
        let (piece, part): (_, &'static PartType) = (self.key(piece), Box::leak(Box::new(part.parttype())));
        let blueprints = self.blueprints(piece, part);
        let (_, blueprint) = blueprints.into_iter().find(|(listed, _)| *listed == offer).expect("an offer that is listed");

        let mut updates = IOCUpdates::new(self.problem.index(), piece);
        self.problem.only_mut().implement_insertion_blueprint(&blueprint, &mut updates);

        let new = self.marks.follow(self.problem.only());
        let free: Vec<NodeKey> = new.iter().copied().filter(|key| self.node(*key).is_empty()).collect();
        assert!(updates.new_empty_nodes().eq(&free), "the Rust lists the new free pieces in this order");
        let part = new.iter().copied().find(|key| self.node(*key).parttype().is_some()).expect("a part was inserted");
        Inserted { first: self.marks.of(new[0]), part: self.marks.of(part), free: self.marks_of(&free) }
    }

    fn remove(&mut self, mark: Mark) -> (Mark, Vec<u16>) {
        let key = self.key(mark);
        let numbers = self.problem.only_mut().remove_node(key);
        let new = self.marks.follow(self.problem.only());
        assert_eq!(new.len(), 1, "a removal creates one node");
        (self.marks.of(new[0]), numbers.into_iter().map(number_of).collect())
    }

    /// The Rust has no such search: its nodes are asked.
    fn untidy(&self) -> Vec<Mark> {
        let top = *self.layout().top_node_index();
        let is_untidy = |key: &NodeKey| {
            let mut children = self.node(*key).children(self.layout().nodes());
            let first = children.next();
            *key != top && children.next().is_none() && first.is_some_and(|child| self.node(child).is_empty())
        };
        self.marks.by_place().filter(is_untidy).map(|key| self.marks.of(key)).collect()
    }
}

/// The rotations that a part allows, Default first.
fn rotations(part: &PartType) -> impl Iterator<Item = Rotation> {
    let fixed = part.fixed_rotation();
    [Rotation::Default, Rotation::Rotated].into_iter().filter(move |rotation| fixed.is_none() || fixed == Some(*rotation))
}

/// What a free piece offers a part, in the rotations that fit, by the Rust's rules on one node.
pub fn offers_of_node(piece: &node::Node, part: &PartType, stages: u8) -> Vec<(Rotation, InsertionShape)> {
    let mut offers = Vec::new();
    for rotation in rotations(part).filter(|rotation| piece.insertion_possible(part, *rotation)) {
        piece.for_each_insertion_shape(part, rotation, stages, &mut |shape| offers.push((rotation, shape)));
    }
    offers
}

fn kind(is_part: bool, has_children: bool) -> u8 {
    match (is_part, has_children) {
        (true, _) => PART,
        (false, true) => STRUCTURE,
        (false, false) => FREE_PIECE,
    }
}

fn number_of(id: usize) -> u16 {
    u16::try_from(id).expect("part numbers come from frames")
}

fn side(side: u64) -> u32 {
    u32::try_from(side).expect("sides come from frames")
}

/// Writes a subtree of the Rust's snapshot, taking the levels as they come in tree order. Nothing was eaten behind any node.
fn write_tree(node: &NodeBlueprint, levels: &mut impl Iterator<Item = u8>, bytes: &mut Vec<u8>) {
    let kind = kind(node.parttype_id.is_some(), !node.children.is_empty());
    bytes.extend([levels.next().expect("a level for each node"), kind, cut_number(node.next_cut_orient)]);
    bytes.extend(node.parttype_id.map_or(0, number_of).to_be_bytes());
    bytes.extend(side(node.width).to_be_bytes());
    bytes.extend(side(node.height).to_be_bytes());
    bytes.push(0);
    for child in &node.children {
        write_tree(child, levels, bytes);
    }
}
