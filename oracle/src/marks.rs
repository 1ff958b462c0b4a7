//! Marks, which the Rust does not have: a small model of our own, kept beside a layout of the Rust.
//!
//! It follows the layout: after each call, the places of nodes that are gone are freed, and then each new node, in the order of
//! creation, takes the lowest unheld place and the next serial. The new nodes of a call were created in tree order: the removal
//! creates one, and document 01's table of insertions lists each block that way.

use std::collections::HashMap;

use crate::core::entities::layout::Layout;
use crate::core::entities::node::NodeKey;
use crate::frame::Mark;

/// The most nodes that a layout holds.
pub const PLACES: usize = 255;

/// The last serial that is issued.
pub const LAST_SERIAL: u32 = 1_000_000;

#[derive(Clone)]
pub struct Marks {
    layout: u16,
    places: Vec<Option<NodeKey>>,
    marks: HashMap<NodeKey, Mark>,
    last: u32,
}

impl Marks {
    /// The marks of a layout that was just opened.
    pub fn of_opening(number: u16, layout: &Layout) -> Self {
        let mut marks = Marks { layout: number, places: vec![None; PLACES], marks: HashMap::new(), last: 0 };
        marks.follow(layout);
        marks
    }

    /// Brings the marks up to the layout, and gives the new nodes in the order of creation.
    pub fn follow(&mut self, layout: &Layout) -> Vec<NodeKey> {
        for place in &mut self.places {
            if let Some(gone) = place.filter(|key| !layout.nodes().contains_key(*key)) {
                self.marks.remove(&gone);
                *place = None;
            }
        }
        let mut new = tree_order(layout);
        new.retain(|key| !self.marks.contains_key(key));
        for key in &new {
            self.give(*key);
        }
        new
    }

    fn give(&mut self, key: NodeKey) {
        let place = self.places.iter().position(Option::is_none).expect("a place is left");
        self.last += 1;
        self.places[place] = Some(key);
        self.marks.insert(key, Mark { layout: self.layout, place: place as u8, serial: self.last });
    }

    /// The marks of a snapshot once it is restored: serials go on from the last that was issued, there or since.
    pub fn restored(&self, last: u32) -> Self {
        Marks { last, ..self.clone() }
    }

    pub fn of(&self, key: NodeKey) -> Mark {
        self.marks[&key]
    }

    /// The node that bears exactly this mark.
    pub fn find(&self, mark: Mark) -> Option<NodeKey> {
        let key = self.places.get(usize::from(mark.place)).copied().flatten()?;
        (self.of(key) == mark).then_some(key)
    }

    /// The nodes held, by place.
    pub fn by_place(&self) -> impl Iterator<Item = NodeKey> + '_ {
        self.places.iter().flatten().copied()
    }

    pub fn held(&self) -> usize {
        self.marks.len()
    }

    pub fn last(&self) -> u32 {
        self.last
    }
}

/// The layout's nodes, each before its children's subtrees, these in order.
pub fn tree_order(layout: &Layout) -> Vec<NodeKey> {
    let mut order = Vec::new();
    let mut ahead = vec![*layout.top_node_index()];
    while let Some(key) = ahead.pop() {
        order.push(key);
        let children: Vec<NodeKey> = layout.nodes()[key].children(layout.nodes()).collect();
        ahead.extend(children.into_iter().rev());
    }
    order
}
