//! Stub: a problem of exactly one layout. The Rust's own wants a newer `rand` and two methods that Debian's slotmap lacks.
//!
//! `InsertionOption::append_blueprints` finds its layout through it. What only the search asks for answers with nothing.

use slotmap::SlotMap;

use crate::core::entities::layout::Layout;
use crate::core::layout_index::{LayoutIndex, LayoutKey};
use crate::optimization::instance::Instance;

#[derive(Clone)]
pub struct Problem<'a> {
    layouts: SlotMap<LayoutKey, Layout<'a>>,
    only: LayoutKey,
}

impl<'a> Problem<'a> {
    pub fn of(layout: Layout<'a>) -> Self {
        let mut layouts = SlotMap::with_key();
        let only = layouts.insert(layout);
        Problem { layouts, only }
    }

    pub fn index(&self) -> LayoutIndex {
        LayoutIndex::Existing(self.only)
    }

    pub fn only(&self) -> &Layout<'a> {
        &self.layouts[self.only]
    }

    pub fn only_mut(&mut self) -> &mut Layout<'a> {
        &mut self.layouts[self.only]
    }

    pub fn layout(&self, index: &LayoutIndex) -> &Layout<'a> {
        match index {
            LayoutIndex::Existing(key) => &self.layouts[*key],
            LayoutIndex::Empty(_) => panic!("this problem has no empty layouts"),
        }
    }

    pub fn layouts(&self) -> &SlotMap<LayoutKey, Layout<'a>> {
        &self.layouts
    }

    pub fn empty_layouts(&self) -> &[Layout<'a>] {
        &[]
    }

    pub fn changed_layouts(&self) -> &[LayoutKey] {
        &[]
    }

    pub fn parttype_qtys(&self) -> &[usize] {
        &[]
    }

    pub fn sheettype_qtys(&self) -> &[usize] {
        &[]
    }

    pub fn usage(&self) -> f64 {
        self.only().usage()
    }

    pub fn instance(&self) -> &'a Instance {
        panic!("this problem has no instance")
    }
}
