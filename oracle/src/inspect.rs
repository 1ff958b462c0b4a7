//! The lines of the program `inspect`: the answer to a frame, and then what frames don't show.
//!
//! Nine fields, one space apart: answer, tree snapshot, free list, removable list, figures, part numbers by place, room light, saw cuts, amounts
//! of the cuts. An empty or missing field is '-'; all but the answer and the light are missing until a layout was opened.

use crate::frame::{hexadecimal, Mark, Part};
use crate::session::{bytes_of, Reply, Session};
use crate::sheet::Sheet;

/// The names of the fields, in their order.
pub const FIELDS: [&str; 9] =
    ["answer", "snapshot", "free list", "removable list", "figures", "part numbers", "light", "saw cuts", "amounts"];

/// The line for a reply, in the state that the session has after it.
pub fn line(session: &Session, reply: &Reply) -> String {
    let state = session.sheet().map_or_else(Default::default, state_fields);
    let light = reply.request.as_ref().and_then(|request| request.part()).map(|part| light_field(session, part));
    let mut fields = vec![reply.answer.clone()];
    fields.extend(state.iter().map(|bytes| hexadecimal(bytes)));
    fields.push(hexadecimal(&light.unwrap_or_default()));
    let cuts = session.sheet().map_or_else(Default::default, cuts_fields);
    fields.extend(cuts.iter().map(|bytes| hexadecimal(bytes)));
    for field in &mut fields {
        if field.is_empty() {
            field.push('-');
        }
    }
    fields.join(" ")
}

fn state_fields(sheet: &Sheet) -> [Vec<u8>; 5] {
    let figures = sheet.figures();
    let figures = [figures.used_area, figures.free_area, figures.sheet_usage, figures.tree_usage, figures.eaten_area];
    [
        sheet.snapshot(),
        bytes_of(&sheet.free_list()),
        bytes_of(&sheet.removable_list()),
        figures.iter().flat_map(|figure| figure.to_be_bytes()).collect(),
        sheet.part_numbers().into_iter().flat_map(u16::to_be_bytes).collect(),
    ]
}

fn light_field(session: &Session, part: &Part) -> Vec<u8> {
    const NONE: Mark = Mark { layout: 0, place: 0, serial: 0 };
    match session.light(part) {
        Ok(named) => [vec![0, named.is_some().into()], bytes_of(&[named.unwrap_or(NONE)])].concat(),
        Err(refusal) => vec![refusal],
    }
}

/// The list of cuts, and beside it what the blade eats with each.
fn cuts_fields(sheet: &Sheet) -> [Vec<u8>; 2] {
    let cuts = sheet.cuts();
    let mut list = Vec::new();
    for cut in &cuts {
        cut.write(&mut list);
    }
    [list, cuts.iter().map(|cut| cut.amount).collect()]
}
