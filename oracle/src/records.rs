//! Records for the rules on one piece, asked of the Rust: what a free piece offers a part, and which nodes a shape makes.
//!
//! A record is one line of hexadecimal, the question's bytes and then the answer's. recorded/README.md gives the fields.

use slotmap::Key;

use crate::core::entities::node::{Node, NodeKey};
use crate::core::insertion::insertion_blueprint::{InsertionBlueprint, InsertionNode, InsertionNodeKind, InsertionShape};
use crate::core::layout_index::LayoutIndex;
use crate::core::orientation::Orientation;
use crate::core::rotation::Rotation;
use crate::frame::{cut_number, hexadecimal, Offer, Part, GREATEST_SIDE};
use crate::rng::Rng;
use crate::sheet::offers_of_node;

const MOST_OFFERS: usize = 4;
const MOST_NODES: usize = 5;
const NODE_BYTES: usize = 11;
const NO_PARENT: u8 = 255;
const CUTS: [Orientation; 2] = [Orientation::Horizontal, Orientation::Vertical];

/// Prints `count` records of offers.
pub fn offers(seed: u64, count: u32) {
    let mut rng = Rng::new(seed);
    for _ in 0..count {
        println!("{}", hexadecimal(&offers_record(&mut rng)));
    }
}

fn offers_record(rng: &mut Rng) -> Vec<u8> {
    let (level, stages) = level_and_stages(rng);
    let cut = rng.pick(&CUTS);
    let (width, height) = piece_sides(rng);
    let part = part_for(rng, width, height);

    let piece = Node::new(level, width.into(), height.into(), cut, None);
    let offers = offers_of_node(&piece, &part.parttype(), stages);

    let mut record = vec![level, stages, cut_number(cut), part.turn];
    for side in [width, height, part.width, part.height] {
        record.extend(side.to_be_bytes());
    }
    let mut answer = vec![offers.len() as u8];
    for (rotation, shape) in offers {
        let offer = Offer::of(rotation, shape);
        answer.extend([offer.rotation, offer.shape]);
    }
    answer.resize(1 + 2 * MOST_OFFERS, 0);
    record.extend(answer);
    record
}

/// A level and stages: mostly at the two boundaries that the rules have, now and then past them.
fn level_and_stages(rng: &mut Rng) -> (u8, u8) {
    let stages = if rng.chance(50) { rng.between(1, 6) } else { rng.between(1, 254) };
    let level = match rng.between(0, 19) {
        0..=3 => stages,
        4..=8 => stages.saturating_sub(1),
        9..=12 => stages.saturating_sub(2),
        13..=18 => rng.between(1, stages),
        _ => rng.between(stages, 254),
    };
    (level.max(1) as u8, stages as u8)
}

/// The sides of a free piece: often alike, so that a part fits both ways, and now and then one of them 0.
fn piece_sides(rng: &mut Rng) -> (u32, u32) {
    let width = piece_side(rng);
    let height = match rng.between(0, 9) {
        0 => width,
        1..=4 => (width + rng.between(0, 3)).min(GREATEST_SIDE),
        _ => piece_side(rng),
    };
    match rng.between(0, 39) {
        0 => (0, height),
        1 => (width, 0),
        _ => (width, height),
    }
}

/// A side of a free piece: often small, so that sides meet by chance; sometimes a power of two or the greatest.
fn piece_side(rng: &mut Rng) -> u32 {
    match rng.between(0, 9) {
        0..=4 => rng.between(1, 12),
        5 => 1 << rng.between(0, 25),
        6 => GREATEST_SIDE - rng.between(0, 2),
        _ => rng.between(1, GREATEST_SIDE),
    }
}

/// A part made for a piece in one of the two rotations; mostly that rotation is allowed.
fn part_for(rng: &mut Rng, width: u32, height: u32) -> Part {
    let (across, down) = (part_side(rng, width), part_side(rng, height));
    let (width, height, own_turn) = if rng.chance(50) { (across, down, 1) } else { (down, across, 2) };
    let height = if rng.chance(5) { width } else { height };
    let turn = match rng.between(0, 9) {
        0..=4 => 0,
        5..=8 => own_turn,
        _ => 3 - own_turn,
    };
    Part { number: 0, width, height, turn }
}

/// A side of a part, by how it compares with the piece's: equal, one off either way, less, more.
fn part_side(rng: &mut Rng, side: u32) -> u32 {
    let side = match rng.between(0, 19) {
        0..=5 => side,
        6..=7 => side.saturating_sub(1),
        8 => side + 1,
        9..=18 => rng.between(1, side.max(1)),
        _ => rng.between(1, GREATEST_SIDE),
    };
    side.clamp(1, GREATEST_SIDE)
}

/// Prints `count` records of the nodes that a shape makes.
pub fn blocks(seed: u64, count: u32) {
    let mut rng = Rng::new(seed);
    for _ in 0..count {
        println!("{}", hexadecimal(&block_record(&mut rng)));
    }
}

/// A piece and a part with a shape that could be offered there: a part that fits along for the first, across and not along
/// for the second, neither for the others.
fn block_record(rng: &mut Rng) -> Vec<u8> {
    use InsertionShape::*;
    let cut = rng.pick(&CUTS);
    let shape = rng.pick(&[AlongCurrentCut, AcrossCurrentCut, AlongThenAcross, AcrossThenAlong]);
    let (along, across) = (long_side(rng), long_side(rng));
    let (part_along, part_across) = match shape {
        AlongCurrentCut => (along, at_most(rng, across)),
        AcrossCurrentCut => (at_most(rng, along - 1), across),
        AlongThenAcross | AcrossThenAlong => (at_most(rng, along - 1), at_most(rng, across - 1)),
    };
    // along a Horizontal cut heights agree, along a Vertical one widths
    let (width, height, part_width, part_height) = match cut {
        Orientation::Horizontal => (across, along, part_across, part_along),
        Orientation::Vertical => (along, across, part_along, part_across),
    };

    let part = Part { number: 0, width: part_width, height: part_height, turn: 0 }.parttype();
    let piece = Node::new(1, width.into(), height.into(), cut, None);
    let (layout, key) = (LayoutIndex::empty(0), NodeKey::null());
    let blueprint = InsertionBlueprint::new(layout, key, shape, Rotation::Default, &part, &piece, 1.0);
    let nodes = blueprint.nodes(&piece);

    let mut record = vec![cut_number(cut), Offer::of(Rotation::Default, shape).shape];
    for side in [width, height, part_width, part_height] {
        record.extend(side.to_be_bytes());
    }
    record.extend(block_bytes(&nodes));
    record
}

/// A side of 2 or more, so that a part can be less than it.
fn long_side(rng: &mut Rng) -> u32 {
    match rng.between(0, 3) {
        0 => rng.between(2, 12),
        1 => 2 << rng.between(0, 24),
        2 => GREATEST_SIDE - rng.between(0, 2),
        _ => rng.between(2, GREATEST_SIDE),
    }
}

/// A part's side up to `most`: often that itself, often 1.
fn at_most(rng: &mut Rng, most: u32) -> u32 {
    match rng.between(0, 4) {
        0 | 1 => most,
        2 => 1,
        _ => rng.between(1, most),
    }
}

fn block_bytes(nodes: &[Option<InsertionNode>; MOST_NODES]) -> Vec<u8> {
    let mut bytes = vec![nodes.iter().flatten().count() as u8];
    for node in nodes.iter().flatten() {
        let kind = match node.kind {
            InsertionNodeKind::Empty => 0,
            InsertionNodeKind::Part => 1,
            InsertionNodeKind::Structure => 2,
        };
        let parent = node.parent.map_or(NO_PARENT, |index| index as u8);
        bytes.extend([kind, parent, cut_number(node.next_cut_orient)]);
        for side in [node.width, node.height] {
            bytes.extend(u32::try_from(side).expect("a side of the piece").to_be_bytes());
        }
    }
    bytes.resize(1 + MOST_NODES * NODE_BYTES, 0);
    bytes
}
