//! Shows, by running both, where the Rust and document 01 differ. docs/DIFFERENCES.md explains each entry under its number.
//!
//! "Rust" lines tell what the Rust's own calls did. "doc01" lines tell what document 01 says, by the driver's model of its
//! marks and refusals: mostly frames with their answers.

use std::panic::{self, AssertUnwindSafe};

use crate::core::entities::layout::Layout;
use crate::core::entities::node::{Node, NodeKey};
use crate::core::entities::parttype::PartType;
use crate::core::entities::sheettype::SheetType;
use crate::core::insertion::insertion_blueprint::{InsertionBlueprint, InsertionShape};
use crate::core::insertion::insertion_option::InsertionOption;
use crate::core::layout_index::LayoutIndex;
use crate::core::orientation::Orientation::{self, Horizontal, Vertical};
use crate::core::rotation::Rotation;
use crate::frame::{self, Mark, Offer, Opening, Part, Request};
use crate::marks::tree_order;
use crate::optimization::problem::Problem;
use crate::optimization::rr::cache_updates::IOCUpdates;
use crate::session::Session;
use crate::sheet::{Judge, RustSheet};

const UNIT: Part = Part { number: 7, width: 1, height: 1, turn: 1 };
const ALONG: Offer = Offer { rotation: 0, shape: 1 };
const ACROSS: Offer = Offer { rotation: 0, shape: 2 };

pub fn show() {
    println!("debug assertions are {}", if cfg!(debug_assertions) { "on" } else { "off" });
    restore_overwrites_the_number();
    restore_revives_keys();
    order_of_equal_areas();
    order_of_part_numbers();
    level_beyond_255();
    removal_of_a_free_piece();
    fixed_rotation_that_does_not_fit();
    never_empty();
    removal_of_the_top();
    no_refusals();
}

fn restore_overwrites_the_number() {
    println!("\n1. restore overwrites the layout's number");
    let snapshot = layout(1, 1, 1, Vertical, 1);
    let mut other = layout(2, 3, 3, Horizontal, 2);
    let before = number_of(&other);
    other.restore_from(&snapshot);
    println!("Rust  layout {before}, restored from layout {}, is layout {}", number_of(&snapshot), number_of(&other));
    by_document(&[open(1, 1, 1, Vertical, 1), Request::Keep, open(2, 3, 3, Horizontal, 2), Request::Restore]);
}

fn restore_revives_keys() {
    println!("\n2. a key given after the snapshot lives again after restore");
    let mut sheet = layout(1, 1, 1, Vertical, 1);
    let snapshot = sheet.clone();
    let first = insert_unit(&mut sheet, 7);
    sheet.restore_from(&snapshot);
    let second = insert_unit(&mut sheet, 8);
    println!("Rust  part 7 is {first:?}; after restore part 8 is {second:?}");
    println!("Rust  remove_node of part 7's key takes out {:?}", sheet.remove_node(first));
    by_document(&[
        open(1, 1, 1, Vertical, 1),
        Request::Keep,
        Request::Insert { mark: mark(1, 2), part: UNIT, offer: ALONG },
        Request::Restore,
        Request::Insert { mark: mark(1, 2), part: Part { number: 8, ..UNIT }, offer: ALONG },
        Request::Remove { mark: mark(1, 3) },
    ]);
}

fn order_of_equal_areas() {
    println!("\n3. the order of equal areas in the free list");
    let part = Part { width: 2, ..UNIT };
    let mut sheet = RustSheet::open(&opening(1, 3, 2, Vertical, 2));
    let piece = sheet.free_list()[0];
    sheet.insert(piece, &part, Offer { rotation: 0, shape: 3 });
    let serials = |keys: &[NodeKey]| keys.iter().map(|key| sheet.marks().of(*key).serial).collect::<Vec<_>>();
    let areas: Vec<u64> = sheet.free_keys().iter().map(|key| sheet.node(*key).area()).collect();
    println!("both  areas {areas:?}");
    println!("Rust  serials {:?}", serials(sheet.layout().sorted_empty_nodes()));
    println!("doc01 serials {:?}", serials(&sheet.free_keys()));
}

fn order_of_part_numbers() {
    println!("\n4. the order of the part numbers held");
    let mut sheet = RustSheet::open(&opening(1, 2, 1, Horizontal, 2));
    sheet.insert(mark(1, 2), &UNIT, ACROSS);
    sheet.remove(mark(1, 3));
    sheet.insert(mark(1, 6), &Part { number: 8, ..UNIT }, ACROSS);
    sheet.insert(mark(3, 9), &Part { number: 9, ..UNIT }, ALONG);
    println!("Rust  {:?}", sheet.layout().included_part_ids());
    println!("doc01 {:?}", sheet.part_numbers());
}

fn level_beyond_255() {
    println!("\n5. level + 1 at level 255");
    for (level, stages) in [(254, 255), (255, 255)] {
        let piece = Node::new(level, 2, 2, Horizontal, None);
        let part = PartType::new(7, 1, 1, None);
        let shapes = attempt(|| {
            let mut shapes = Vec::new();
            piece.for_each_insertion_shape(&part, Rotation::Default, stages, &mut |shape| shapes.push(shape));
            shapes
        });
        println!("Rust  level {level}, stages {stages}: {shapes:?}");
    }
    by_document(&[open(1, 2, 2, Vertical, 255)]);
}

fn removal_of_a_free_piece() {
    println!("\n6. removal of a free piece");
    let mut sheet = layout(1, 1, 1, Vertical, 1);
    let free = sheet.sorted_empty_nodes()[0];
    println!("Rust  under the top: {:?}", attempt(|| sheet.remove_node(free)));

    let mut sheet = layout(1, 2, 1, Horizontal, 2);
    let free = sheet.sorted_empty_nodes()[0];
    carry_out(&mut sheet, free, InsertionShape::AcrossCurrentCut, 7, 1);
    let (before, free) = (tree(&sheet), sheet.sorted_empty_nodes()[0]);
    println!("Rust  beside a part, {before}: {:?}", attempt(|| sheet.clone().remove_node(free)));
    let part = part_of(&sheet);
    sheet.remove_node(part);
    println!("Rust  an only child, {}", tree(&sheet));
    let free = sheet.sorted_empty_nodes()[0];
    let numbers = attempt(|| sheet.remove_node(free));
    println!("Rust  its removal gives {numbers:?} and {}", tree(&sheet));
    by_document(&[open(1, 1, 1, Vertical, 1), Request::Remove { mark: mark(1, 2) }]);
}

fn fixed_rotation_that_does_not_fit() {
    println!("\n7. offers for a fixed rotation that does not fit");
    let wide = Part { width: 2, ..UNIT };
    let part = wide.parttype();
    let problem = Problem::of(layout(1, 1, 1, Vertical, 1));
    let free = problem.only().sorted_empty_nodes()[0];
    let option = InsertionOption::new(problem.index(), free, &part, part.fixed_rotation());
    let nodes = attempt(|| {
        let mut blueprints = Vec::new();
        option.append_blueprints(&problem, &mut blueprints);
        let nodes = blueprints.iter().flat_map(|blueprint| blueprint.nodes(&problem.only().nodes()[free]));
        nodes.flatten().map(|node| (node.kind, node.width, node.height)).collect::<Vec<_>>()
    });
    println!("Rust  offers {nodes:?}");
    by_document(&[open(1, 1, 1, Vertical, 1), Request::Offers { mark: mark(1, 2), part: wide }]);
}

fn never_empty() {
    println!("\n8. is_empty");
    println!("Rust  a layout just opened: is_empty is {}", layout(1, 1, 1, Vertical, 1).is_empty());
}

fn removal_of_the_top() {
    println!("\n9. removal of the top");
    let mut sheet = layout(1, 1, 1, Vertical, 1);
    let top = *sheet.top_node_index();
    println!("Rust  {:?}", attempt(|| sheet.remove_node(top)));
    by_document(&[open(1, 1, 1, Vertical, 1), Request::Remove { mark: mark(0, 1) }]);
}

fn no_refusals() {
    println!("\n10. what the Rust carries out and document 01 refuses");
    println!("Rust  2: a sheet of 0 x 0 is opened: {}", tree(&layout(1, 0, 0, Vertical, 0)));

    let mut sheet = layout(1, 1, 1, Vertical, 1);
    let free = sheet.sorted_empty_nodes()[0];
    carry_out(&mut sheet, free, InsertionShape::AlongCurrentCut, 7, 0);
    println!("Rust  3: a part of 0 x 1 is inserted: {}", tree(&sheet));

    let mut sheet = layout(1, 1, 1, Vertical, 1);
    let part = insert_unit(&mut sheet, 7);
    let seen = attempt(|| {
        carry_out(&mut sheet, part, InsertionShape::AlongCurrentCut, 8, 1);
        tree(&sheet)
    });
    println!("Rust  6: part 8 is inserted into part 7: {seen:?}");

    let mut sheet = layout(1, 1, 1, Vertical, 1);
    let free = sheet.sorted_empty_nodes()[0];
    carry_out(&mut sheet, free, InsertionShape::AcrossThenAlong, 7, 1);
    println!("Rust  7: a shape that isn't offered, at stages 1: {}", tree(&sheet));

    let mut sheet = layout(1, 300, 1, Vertical, 1);
    for number in 0..254 {
        insert_unit(&mut sheet, number);
    }
    println!("Rust  8: {} nodes", sheet.nodes().len());
    by_document(&[
        open(1, 0, 0, Vertical, 0),
        open(1, 1, 1, Vertical, 1),
        Request::Insert { mark: mark(1, 2), part: Part { width: 0, ..UNIT }, offer: ALONG },
        Request::Insert { mark: mark(1, 2), part: UNIT, offer: Offer { rotation: 0, shape: 4 } },
        Request::Insert { mark: mark(1, 2), part: UNIT, offer: ALONG },
        Request::Insert { mark: mark(1, 3), part: UNIT, offer: ALONG },
    ]);
}

/// Sends frames to a session of their own, and prints each with its answer.
fn by_document(requests: &[Request]) {
    let mut session = Session::default();
    for request in requests {
        let line = frame::line(request.bytes());
        let answer = session.answer(line.as_bytes()).answer;
        println!("doc01 {line} -> {answer}");
    }
}

/// The Rust knows no blade: its width is 0.
fn opening(layout: u16, width: u32, height: u32, cut: Orientation, stages: u8) -> Opening {
    Opening { layout, width, height, cut, stages, blade: 0 }
}

fn open(layout: u16, width: u32, height: u32, cut: Orientation, stages: u8) -> Request {
    Request::Open(opening(layout, width, height, cut, stages))
}

fn mark(place: u8, serial: u32) -> Mark {
    Mark { layout: 1, place, serial }
}

/// What a call gives, or the words with which it panicked.
fn attempt<T>(call: impl FnOnce() -> T) -> Result<T, String> {
    panic::set_hook(Box::new(|_| {}));
    let outcome = panic::catch_unwind(AssertUnwindSafe(call));
    drop(panic::take_hook());
    outcome.map_err(|words| match words.downcast::<String>() {
        Ok(words) => format!("panic: {}", first_line(&words)),
        Err(words) => format!("panic: {}", words.downcast_ref::<&str>().map_or("", |words| first_line(words))),
    })
}

fn first_line(words: &str) -> &str {
    words.lines().next().unwrap_or("")
}

/// A layout of the Rust with no checks of ours around it.
fn layout(number: usize, width: u64, height: u64, cut: Orientation, stages: u8) -> Layout<'static> {
    let kind = SheetType::new(0, width, height, 0, None, stages);
    Layout::new(number, Box::leak(Box::new(kind)), cut, 1.0)
}

/// The Rust shows a layout's number in its debug form alone.
fn number_of(layout: &Layout) -> String {
    let shown = format!("{layout:?}");
    let number = shown.strip_prefix("Layout { id: ").and_then(|rest| rest.split(',').next());
    number.expect("the number comes first").to_string()
}

/// Carries a shape out for a part of `width` x 1, offered or not.
fn carry_out(sheet: &mut Layout<'static>, piece: NodeKey, shape: InsertionShape, number: usize, width: u64) {
    let part: &'static PartType = Box::leak(Box::new(PartType::new(number, width, 1, None)));
    let index = LayoutIndex::empty(0);
    let blueprint = InsertionBlueprint::new(index, piece, shape, Rotation::Default, part, &sheet.nodes()[piece], 1.0);
    sheet.implement_insertion_blueprint(&blueprint, &mut IOCUpdates::new(index, piece));
}

/// Inserts a part of 1 x 1 along the cut into the first free piece; gives its key.
fn insert_unit(sheet: &mut Layout<'static>, number: usize) -> NodeKey {
    let free = sheet.sorted_empty_nodes()[0];
    carry_out(sheet, free, InsertionShape::AlongCurrentCut, number, 1);
    let is_it = |key: &NodeKey| sheet.nodes()[*key].parttype().is_some_and(|part| part.id() == number);
    tree_order(sheet).into_iter().find(is_it).expect("the part is there")
}

fn part_of(sheet: &Layout) -> NodeKey {
    tree_order(sheet).into_iter().find(|key| sheet.nodes()[*key].parttype().is_some()).expect("a part")
}

/// A tree in a line: the nodes in tree order, with level, kind and sides.
fn tree(sheet: &Layout) -> String {
    let node = |key: &NodeKey| {
        let node = &sheet.nodes()[*key];
        let kind = match (node.parttype(), node.has_children()) {
            (Some(part), _) => format!("part {}", part.id()),
            (None, true) => "structure".to_string(),
            (None, false) => "free".to_string(),
        };
        format!("{} {kind} {}x{}", node.level(), node.width(), node.height())
    };
    tree_order(sheet).iter().map(node).collect::<Vec<_>>().join(", ")
}
