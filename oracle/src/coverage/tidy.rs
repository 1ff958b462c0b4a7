//! What recorded frames reach of tidying (document 02, change request 5): how much it took out, from where, what it gave back, which marks were gone then.

use std::collections::BTreeSet;

use super::CUTS;
use crate::frame::{cut_number, Mark, Request};
use crate::session::{refusal, Session};
use crate::sheet::Sheet;

const NUMBERS: [&str; 3] = ["tidying, takes out none", "tidying, takes out one", "tidying, takes out several"];
const CHAIN: &str = "tidying, takes out a structure once what was in it is out";
const BESIDE: &str = "tidying, several to choose from";
const NOT_FIRST: &str = "tidying, the lowest place is not the first in the tree";
const GONE: &str = "tidying, a mark is refused that it took out";
const RESTORED: &str = "tidying, a restore brings untidy structures back";

/// The ways of a structure that is taken out: its row had no free piece at the end, or had one.
const WAYS: [&str; 2] = ["alone", "merged"];

/// Every count that must not stay 0.
pub fn names() -> Vec<String> {
    let mut names: Vec<String> =
        NUMBERS.into_iter().chain([CHAIN, BESIDE, NOT_FIRST, GONE, RESTORED]).map(str::to_string).collect();
    for cut in CUTS {
        names.extend(WAYS.iter().flat_map(|way| [taken(way, cut), given_back(way, cut)]));
    }
    names
}

/// What is remembered from line to line: the marks that the last tidying took out.
#[derive(Default)]
pub struct Tidying {
    gone: Vec<Mark>,
}

impl Tidying {
    /// What a call reached on this sheet that was answered with this number.
    pub fn reached(&mut self, before: Option<&Sheet>, session: &Session, request: &Request, number: u8) -> BTreeSet<String> {
        let mut names = BTreeSet::new();
        let (Some(before), Some(after)) = (before, session.sheet()) else {
            return names;
        };
        match request {
            Request::Open(_) if number == 0 => self.gone.clear(),
            Request::Tidy if number == 0 => {
                names = names_of_steps(before.clone());
                let nodes = before.tree();
                let marks = nodes.in_order().into_iter().map(|node| node.piece.mark);
                self.gone = marks.filter(|mark| after.find(*mark).is_none()).collect();
            }
            Request::Restore if number == 0 && before.untidy().is_empty() && !after.untidy().is_empty() => {
                names.insert(RESTORED.to_string());
            }
            Request::Offers { mark, .. } | Request::Insert { mark, .. } | Request::Remove { mark }
                if number == refusal::GONE && self.gone.contains(mark) =>
            {
                names.insert(GONE.to_string());
            }
            _ => {}
        }
        names
    }
}

/// What a tidying of this sheet reaches, step by step.
fn names_of_steps(mut sheet: Sheet) -> BTreeSet<String> {
    let last_serial = sheet.last_serial();
    let mut names = BTreeSet::new();
    let mut count = 0;
    while let [lowest, others @ ..] = &sheet.untidy()[..] {
        let tree = sheet.tree();
        let structure = tree.find(*lowest).expect("an untidy structure");
        let parent = tree.parent_of(*lowest).expect("a structure below the top");
        let cut = CUTS[usize::from(cut_number(parent.piece.cut))];
        let way = WAYS[usize::from(parent.children.last().is_some_and(|last| last.piece.is_free()))];
        names.insert(taken(way, cut));
        if structure.piece.eaten > 0 {
            names.insert(given_back(way, cut));
        }
        if structure.children[0].piece.mark.serial > last_serial {
            names.insert(CHAIN.to_string());
        }
        if !others.is_empty() {
            names.insert(BESIDE.to_string());
        }
        let marks = tree.in_order().into_iter().map(|node| node.piece.mark);
        if marks.filter(|mark| mark == lowest || others.contains(mark)).next() != Some(*lowest) {
            names.insert(NOT_FIRST.to_string());
        }
        sheet.remove(*lowest);
        count += 1;
    }
    names.insert(NUMBERS[count.min(2)].to_string());
    names
}

fn taken(way: &str, cut: &str) -> String {
    format!("tidying, a structure {way}, parent's cut {cut}")
}

fn given_back(way: &str, cut: &str) -> String {
    format!("tidying, a structure gives an amount back, {way}, parent's cut {cut}")
}
