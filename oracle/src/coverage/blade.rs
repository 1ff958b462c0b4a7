//! What recorded frames reach of the blade (document 02, change request 4): what it ate, what a removal gave back, which openings and restores there were.

use super::{CUTS, KINDS};
use crate::frame::{cut_number, Mark, Opening, Request};
use crate::session::{refusal, Session};
use crate::sheet::Sheet;
use crate::tree::{Node, Piece, PART, STRUCTURE};

const REMAINDER_LEFT: &str = "blade, insertion, something of the remainder is left";
const SWALLOWED: &str = "blade, insertion, the remainder is swallowed whole";
const SMALLER: &str = "blade, insertion, the remainder is smaller than the blade";
const JUST_AS_WIDE: &str = "blade, insertion, the remainder is just as wide as the blade";
const EXACT_FIT: &str = "blade, insertion, exact fit";
const LESS_BEFORE_FREE: &str = "blade, less than its width eaten before a free piece with area";
const FROM_THE_MIDDLE: &str = "blade, removal from the middle of a row gives an amount back";
const BEFORE_EMPTY: &str = "blade, saw cut before an empty offcut";
const OPENING_REFUSED: &str = "blade, opening refused for its width alone";
const RESTORED: [&str; 2] = ["blade, restore brings width 0 back", "blade, restore brings another width than 0 back"];

/// The ways of a removal.
const WAYS: [&str; 2] = ["alone", "merged"];

/// Every count that must not stay 0.
pub fn names() -> Vec<String> {
    let insertions = [REMAINDER_LEFT, SWALLOWED, SMALLER, JUST_AS_WIDE, EXACT_FIT];
    let others = [LESS_BEFORE_FREE, FROM_THE_MIDDLE, BEFORE_EMPTY, OPENING_REFUSED];
    let mut names: Vec<String> = insertions.into_iter().chain(others).chain(RESTORED).map(str::to_string).collect();
    for kind in [PART, STRUCTURE] {
        for cut in CUTS {
            names.push(eaten_behind(kind, cut));
            names.extend(WAYS.map(|way| given_back(kind, way, cut)));
        }
    }
    names
}

/// What has to be read from the state before a call.
#[derive(Default)]
pub struct Before {
    blade: u8,
    last_serial: u32,
    /// The names of the removal that is asked for, if it would give something back.
    given_back: Vec<String>,
}

impl Before {
    pub fn of(session: &Session, request: &Request) -> Self {
        session.sheet().map_or_else(Before::default, |sheet| Before {
            blade: sheet.blade(),
            last_serial: sheet.last_serial(),
            given_back: match request {
                Request::Remove { mark } => given_back_by(sheet, *mark),
                _ => Vec::new(),
            },
        })
    }

    /// What a call reached that was answered with this number.
    pub fn reached(self, session: &Session, request: &Request, number: u8) -> Vec<String> {
        let Some(sheet) = session.sheet() else {
            return refused_opening(request, number).into_iter().collect();
        };
        let mut names = names_of_state(sheet);
        match request {
            Request::Insert { .. } if number == 0 && sheet.blade() > 0 => {
                names.extend(names_of_insertion(sheet, self.last_serial))
            }
            Request::Remove { .. } if number == 0 => names.extend(self.given_back),
            Request::Restore if number == 0 && sheet.blade() != self.blade => {
                names.push(RESTORED[usize::from(sheet.blade() > 0)].to_string());
            }
            _ => names.extend(refused_opening(request, number)),
        }
        names
    }
}

fn refused_opening(request: &Request, number: u8) -> Option<String> {
    match request {
        Request::Open(opening) if number == refusal::OPENING && (Opening { blade: 0, ..*opening }).in_domain() => {
            Some(OPENING_REFUSED.to_string())
        }
        _ => None,
    }
}

/// The names of a removal that gives an amount back.
fn given_back_by(sheet: &Sheet, mark: Mark) -> Vec<String> {
    let tree = sheet.tree();
    let Some(parent) = tree.parent_of(mark) else {
        return Vec::new();
    };
    let place = parent.children.iter().position(|child| child.piece.mark == mark).expect("a child of its parent");
    let (piece, behind) = (parent.children[place].piece, &parent.children[place + 1..]);
    let mut names = Vec::new();
    if piece.eaten > 0 {
        let last_is_free = behind.last().is_some_and(|last| last.piece.is_free());
        names.push(given_back(piece.kind, WAYS[usize::from(last_is_free)], cut_of(parent)));
        names.extend((behind.len() > 1).then(|| FROM_THE_MIDDLE.to_string()));
    }
    names
}

/// Each piece of a tree that has one behind it, with that one and the parent of both.
fn neighbours(tree: &Node) -> Vec<(&Node, Piece, Piece)> {
    let mut pairs = Vec::new();
    for parent in tree.in_order() {
        pairs.extend(parent.children.windows(2).map(|pair| (parent, pair[0].piece, pair[1].piece)));
    }
    pairs
}

/// What the nodes of the last insertion show of the blade: those with a later serial.
fn names_of_insertion(sheet: &Sheet, last_serial: u32) -> Vec<String> {
    let tree = sheet.tree();
    let mut names = Vec::new();
    for (parent, piece, rest) in neighbours(&tree).into_iter().filter(|(_, piece, _)| piece.mark.serial > last_serial) {
        if piece.eaten > 0 {
            names.push(eaten_behind(piece.kind, cut_of(parent)));
        }
        names.extend(names_of_cut(piece.eaten, rest.is_nothing(), sheet.blade()).iter().map(|name| name.to_string()));
    }
    names
}

/// The names of one cut, by what was eaten and whether nothing is left.
fn names_of_cut(eaten: u8, nothing_left: bool, blade: u8) -> &'static [&'static str] {
    match (eaten, nothing_left) {
        (0, true) => &[EXACT_FIT],
        (_, true) if eaten < blade => &[SWALLOWED, SMALLER],
        (_, true) => &[SWALLOWED, JUST_AS_WIDE],
        (_, false) => &[REMAINDER_LEFT],
    }
}

/// What a state shows, each name once.
fn names_of_state(sheet: &Sheet) -> Vec<String> {
    let tree = sheet.tree();
    let pairs = neighbours(&tree);
    let less_before_free = |piece: &Piece, next: &Piece| piece.eaten < sheet.blade() && next.is_free() && !next.is_nothing();
    let before_empty = |piece: &Piece, next: &Piece| piece.eaten > 0 && next.is_nothing();
    let mut names = Vec::new();
    if pairs.iter().any(|(_, piece, next)| less_before_free(piece, next)) {
        names.push(LESS_BEFORE_FREE.to_string());
    }
    if pairs.iter().any(|(_, piece, next)| before_empty(piece, next)) {
        names.push(BEFORE_EMPTY.to_string());
    }
    names
}

fn cut_of(parent: &Node) -> &'static str {
    CUTS[usize::from(cut_number(parent.piece.cut))]
}

fn eaten_behind(kind: u8, cut: &str) -> String {
    format!("blade, eaten behind a {}, parent's cut {cut}", KINDS[usize::from(kind)])
}

fn given_back(kind: u8, way: &str, cut: &str) -> String {
    format!("blade, removal of a {} gives an amount back, {way}, parent's cut {cut}", KINDS[usize::from(kind)])
}
