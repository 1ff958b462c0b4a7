//! Counts what recorded frames reach: each shape, cut and rotation, each kind of removal, each refusal, each answer of the light, each kind of
//! saw cut, each thing that a blade does, each kind of tidying.

mod blade;
mod tidy;

use std::collections::{BTreeMap, BTreeSet};

use crate::frame::{cut_number, Mark, Part, Request, MALFORMED};
use crate::session::Session;
use crate::sheet::Sheet;
use crate::tree::Node;
use blade::Before;
use tidy::Tidying;

const CUTS: [&str; 2] = ["Horizontal", "Vertical"];
const ROTATIONS: [&str; 2] = ["Default", "Rotated"];
const SHAPES: [&str; 4] = ["AlongCurrentCut", "AcrossCurrentCut", "AlongThenAcross", "AcrossThenAlong"];
/// By their numbers; the last is what a cut says of siblings.
const KINDS: [&str; 4] = ["free piece", "part", "structure", "several"];
const LIGHTS: [&str; 5] = ["first free piece", "later free piece", "no", "no, though it fits", "refused"];

/// The counter's ops, from 1 on, and the desk's that tidies.
const OPS: [&str; 8] = ["open", "offers", "insert", "remove", "keep", "restore", "report", "tidy"];

/// The refusals of each op that frames can reach in a few thousand lines: all but 9.
const REFUSALS: [&[u8]; 8] = [&[2], &[1, 3, 4, 5, 6], &[1, 3, 4, 5, 6, 7, 8], &[1, 4, 5, 10, 11], &[1], &[1, 4], &[1], &[1]];

pub struct Coverage {
    counts: BTreeMap<String, u64>,
    tidying: Tidying,
    calls: u64,
    most_nodes: usize,
    deepest: u8,
}

impl Default for Coverage {
    /// Every count that must not stay 0.
    fn default() -> Self {
        let mut names = vec!["malformed".to_string()];
        for (shape, cut, rotation) in all_insertions() {
            names.push(insertion(shape, cut, rotation));
        }
        names.push("insertion, exact fit".to_string());
        for (kind, way) in [("part", "merged"), ("part", "own size"), ("structure", "merged"), ("structure", "own size")] {
            names.extend(CUTS.map(|cut| removal(kind, way, cut)));
        }
        names.extend((0..=4).map(offers));
        for (op, refusals) in OPS.iter().zip(REFUSALS) {
            names.push(accepted(op));
            names.extend(refusals.iter().map(|number| refused(op, *number)));
        }
        names.extend(LIGHTS.map(light));
        names.extend(["none", "one", "empty offcut left out"].map(saw_cuts));
        names.extend(CUTS.map(cut_of_way));
        names.extend(KINDS.map(cut_that_leaves));
        names.extend(blade::names());
        names.extend(tidy::names());
        let counts = names.into_iter().map(|name| (name, 0)).collect();
        Coverage { counts, tidying: Tidying::default(), calls: 0, most_nodes: 0, deepest: 0 }
    }
}

impl Coverage {
    /// Answers a line and counts what it reached.
    pub fn count(&mut self, session: &mut Session, line: &[u8]) {
        let read = Request::read(line);
        let before = read.map(|request| names_before(session, &request)).unwrap_or_default();
        let before_blade = read.map(|request| Before::of(session, &request)).unwrap_or_default();
        let sheet_before = session.sheet().cloned();
        let reply = session.answer(line);
        self.calls += 1;
        let Some(request) = reply.request else {
            assert_eq!(reply.answer, MALFORMED);
            return self.reach("malformed".to_string());
        };
        let op = *OPS.get(usize::from(request.op()) - 1).unwrap_or(&OPS[7]);
        let number = u8::from_str_radix(&reply.answer[2..4], 16).expect("an answer has a number");
        match number {
            0 => {
                self.reach(accepted(op));
                before.into_iter().for_each(|name| self.reach(name));
            }
            number => self.reach(refused(op, number)),
        }
        before_blade.reached(session, &request, number).into_iter().for_each(|name| self.reach(name));
        self.tidying.reached(sheet_before.as_ref(), session, &request, number).into_iter().for_each(|name| self.reach(name));
        if let Some(part) = request.part() {
            self.reach(light(light_of(session, part)));
        }
        if let Some(sheet) = session.sheet() {
            self.measure(sheet);
            names_of_cuts(sheet).into_iter().for_each(|name| self.reach(name));
        }
    }

    fn reach(&mut self, name: String) {
        *self.counts.entry(name).or_default() += 1;
    }

    fn measure(&mut self, sheet: &Sheet) {
        self.most_nodes = self.most_nodes.max(sheet.held());
        let deepest = sheet.tree().in_order().into_iter().map(|node| node.piece.level).max();
        self.deepest = self.deepest.max(deepest.unwrap_or(0));
    }

    /// Prints the counts; gives whether each that is asked for was reached.
    pub fn report(&self) -> bool {
        println!("{:>7}  calls", self.calls);
        println!("{:>7}  most nodes", self.most_nodes);
        println!("{:>7}  deepest level", self.deepest);
        for (name, count) in &self.counts {
            println!("{count:>7}  {name}");
        }
        self.counts.values().all(|count| *count > 0)
    }
}

/// What a request reaches if it is accepted, read from the state before it.
fn names_before(session: &Session, request: &Request) -> Vec<String> {
    let Some(sheet) = session.sheet() else {
        return Vec::new();
    };
    match request {
        Request::Offers { mark, part } => {
            let free = sheet.find(*mark).filter(|piece| part.in_domain() && piece.is_free());
            free.map(|piece| offers(sheet.offers(piece.mark, part).len())).into_iter().collect()
        }
        Request::Insert { mark, part, offer } => sheet.find(*mark).map_or_else(Vec::new, |piece| {
            let mut names = vec![insertion(offer.shape, cut_number(piece.cut), offer.rotation)];
            let sides = [part.width, part.height].map(u64::from);
            if sides.iter().product::<u64>() == piece.area() {
                names.push("insertion, exact fit".to_string());
            }
            names
        }),
        Request::Remove { mark } => removal_of(sheet, *mark).into_iter().collect(),
        _ => Vec::new(),
    }
}

/// What the list of a sheet's saw cuts reaches, each name once.
fn names_of_cuts(sheet: &Sheet) -> BTreeSet<String> {
    let cuts = sheet.cuts();
    let mut names: BTreeSet<String> = BTreeSet::new();
    for cut in &cuts {
        names.insert(cut_of_way(CUTS[usize::from(cut_number(cut.way))]));
        names.insert(cut_that_leaves(KINDS[usize::from(cut.left)]));
    }
    match cuts.len() {
        0 => names.insert(saw_cuts("none")),
        1 => names.insert(saw_cuts("one")),
        _ => false,
    };
    if sheet.tree().in_order().into_iter().any(ends_with_offcut_left_out) {
        names.insert(saw_cuts("empty offcut left out"));
    }
    names
}

/// Whether the last child is an offcut of area 0 before which no cut is made.
fn ends_with_offcut_left_out(parent: &Node) -> bool {
    matches!(parent.children[..], [.., ref piece, ref offcut] if offcut.piece.is_nothing() && piece.piece.eaten == 0)
}

/// The kind of a removal, none for the top.
fn removal_of(sheet: &Sheet, mark: Mark) -> Option<String> {
    let tree = sheet.tree();
    let parent = tree.parent_of(mark)?;
    let kind = KINDS[usize::from(sheet.find(mark)?.kind)];
    let last_is_free = parent.children.last().is_some_and(|last| last.piece.is_free());
    let way = if last_is_free { "merged" } else { "own size" };
    Some(removal(kind, way, CUTS[usize::from(cut_number(parent.piece.cut))]))
}

fn all_insertions() -> impl Iterator<Item = (u8, u8, u8)> {
    (0..16).map(|index| (1 + index / 4, index / 2 % 2, index % 2))
}

fn insertion(shape: u8, cut: u8, rotation: u8) -> String {
    let (cut, rotation) = (CUTS[usize::from(cut)], ROTATIONS[usize::from(rotation)]);
    format!("insertion, {}, {cut}, {rotation}", SHAPES[usize::from(shape) - 1])
}

fn removal(kind: &str, way: &str, cut: &str) -> String {
    format!("removal, {kind}, {way}, parent's cut {cut}")
}

fn offers(count: usize) -> String {
    format!("offers, count {count}")
}

fn accepted(op: &str) -> String {
    format!("op {op}, accepted")
}

fn refused(op: &str, number: u8) -> String {
    format!("op {op}, refused with {number:02}")
}

/// What the light says for a part, by which piece it names, or why there is none.
fn light_of(session: &Session, part: &Part) -> &'static str {
    let sheet = session.sheet();
    match session.light(part) {
        Err(_) => LIGHTS[4],
        Ok(None) if sheet.is_some_and(|sheet| sheet.fits_somewhere(part)) => LIGHTS[3],
        Ok(None) => LIGHTS[2],
        Ok(Some(mark)) if sheet.is_some_and(|sheet| sheet.free_list()[0] == mark) => LIGHTS[0],
        Ok(Some(_)) => LIGHTS[1],
    }
}

fn light(answer: &str) -> String {
    format!("light, {answer}")
}

fn saw_cuts(list: &str) -> String {
    format!("saw cuts, {list}")
}

fn cut_of_way(way: &str) -> String {
    saw_cuts(&format!("way {way}"))
}

fn cut_that_leaves(left: &str) -> String {
    saw_cuts(&format!("left {left}"))
}
