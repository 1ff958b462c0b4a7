//! Stub: the search's cache was not given to us. The Rust's assertions name it, and no call on a layout reaches it.

use std::iter;
use std::marker::PhantomData;

use crate::core::entities::layout::Layout;
use crate::core::entities::node::NodeKey;
use crate::core::entities::parttype::PartType;
use crate::core::insertion::insertion_option::InsertionOption;
use crate::core::layout_index::LayoutIndex;
use crate::optimization::instance::Instance;

pub struct InsertionOptionCache<'a>(PhantomData<&'a Instance>);

impl<'a> InsertionOptionCache<'a> {
    pub fn new(_instance: &'a Instance) -> Self {
        InsertionOptionCache(PhantomData)
    }

    pub fn add_for_parttypes<'l>(
        &mut self,
        _parttypes: &[&'a PartType],
        _layouts: impl Iterator<Item = (LayoutIndex, &'l Layout<'a>)>,
    ) where
        'a: 'l,
    {
    }

    pub fn is_empty(&self) -> bool {
        true
    }

    pub fn options_for_parttype(&self, _parttype: &PartType) -> impl Iterator<Item = &InsertionOption<'a>> {
        iter::empty()
    }

    pub fn options_for_node(&self, _node: &NodeKey, _layout: &LayoutIndex) -> impl Iterator<Item = &InsertionOption<'a>> {
        iter::empty()
    }
}
