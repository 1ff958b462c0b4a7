//! A session as the archive has it: the records of crates/kiosk/src/records.rt, number by number. No code here reads one; the archive does.

use std::mem::{align_of, offset_of, size_of};

/// The most nodes that a layout holds.
const LIMIT: usize = 255;

/// The characters of the counter's longest answer, its newline among them.
pub const LONGEST: usize = 1035;

/// The characters of the desk's longest answer, its newline among them: the snapshot of a full table.
pub const DESK_LONGEST: usize = 2 * (2 + 2 + crate::nodes::BYTES * LIMIT + 1) + 1;

/// The bytes lent for a list of saw cuts: more than any list has.
pub const ROOM: usize = crate::cuts::BYTES * LIMIT;

/// The sizes of what is lent, each by name: the archive must have the same.
pub const SIZES: [(&str, usize); 5] = [
    ("the most nodes of a layout", LIMIT),
    ("the longest answer", LONGEST),
    ("the longest answer of the desk", DESK_LONGEST),
    ("the room for a list of saw cuts", ROOM),
    ("the size of a session", size_of::<SessionRecord>()),
];

/// Said in place of a list's bytes, where the session has no sound sheet.
pub const NO_LIST: u16 = 65_535;

#[derive(Clone, Copy)]
#[cfg_attr(test, derive(PartialEq))]
#[repr(C)]
struct DatumRecord {
    serial: u32,
    width: u32,
    height: u32,
    number: u16,
    level: u8,
    kind: u8,
    cut: u8,
    eaten: u8,
}

#[derive(Clone, Copy)]
#[cfg_attr(test, derive(PartialEq))]
#[repr(C)]
struct NodeRecord {
    datum: DatumRecord,
    parent: u16,
    first: u16,
    last: u16,
    prev: u16,
    next: u16,
}

#[derive(Clone, Copy)]
#[cfg_attr(test, derive(PartialEq))]
#[repr(C)]
struct LayoutRecord {
    nodes: [NodeRecord; LIMIT],
    free: [u16; LIMIT],
    removable: [u16; LIMIT],
    held: u16,
    frees: u16,
    removables: u16,
    used: u64,
    serial: u32,
    number: u16,
    stages: u8,
    blade: u8,
    width: u32,
    height: u32,
}

/// The sheet on the counter, and the kept one.
#[derive(Clone)]
#[cfg_attr(test, derive(PartialEq))]
#[repr(C)]
pub struct SessionRecord {
    layout: LayoutRecord,
    kept: LayoutRecord,
}

impl DatumRecord {
    const ZERO: Self = DatumRecord { serial: 0, width: 0, height: 0, number: 0, level: 0, kind: 0, cut: 0, eaten: 0 };
}

impl NodeRecord {
    const ZERO: Self = NodeRecord { datum: DatumRecord::ZERO, parent: 0, first: 0, last: 0, prev: 0, next: 0 };
}

impl LayoutRecord {
    const ZERO: Self = LayoutRecord {
        nodes: [NodeRecord::ZERO; LIMIT],
        free: [0; LIMIT],
        removable: [0; LIMIT],
        held: 0,
        frees: 0,
        removables: 0,
        used: 0,
        serial: 0,
        number: 0,
        stages: 0,
        blade: 0,
        width: 0,
        height: 0,
    };
}

impl SessionRecord {
    /// A session starts with zeros: no sheet and no snapshot.
    pub const ZERO: Self = SessionRecord { layout: LayoutRecord::ZERO, kept: LayoutRecord::ZERO };
}

/// Each record's size, its alignment and the place of each field, as the archive has them.
macro_rules! laid_out {
    ($record:ty, $size:literal, $align:literal, $($field:ident $at:literal),+) => {
        const _: () = {
            assert!(size_of::<$record>() == $size);
            assert!(align_of::<$record>() == $align);
            $(assert!(offset_of!($record, $field) == $at);)+
        };
    };
}
laid_out!(DatumRecord, 20, 4, serial 0, width 4, height 8, number 12, level 14, kind 15, cut 16, eaten 17);
laid_out!(NodeRecord, 32, 4, datum 0, parent 20, first 22, last 24, prev 26, next 28);
laid_out!(
    LayoutRecord, 9216, 8, nodes 0, free 8160, removable 8670, held 9180, frees 9182, removables 9184, used 9192, serial 9200, number 9204,
    stages 9206, blade 9207, width 9208, height 9212
);
laid_out!(SessionRecord, 18432, 8, layout 0, kept 9216);

#[cfg(test)]
mod tests;
