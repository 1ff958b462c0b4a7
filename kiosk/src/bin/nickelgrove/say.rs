//! The list of saw cuts in words: a line for the sheet, and then a numbered line a cut. Boards count from 1 in the order in which they lie; the two pieces of a
//! cut lie where their board lay. What the blade eats is said where it eats something.

use crate::sheet::{counted, Area, Board, Cut, Piece, Sheet, Way};

/// The lines, each with its newline. Without a list of cuts there is nothing to say.
pub fn say(sheet: &Sheet) -> Option<String> {
    let cuts = sheet.cuts.as_deref()?;
    let mut lines = first(sheet, cuts);
    for number in 0..cuts.len() {
        lines.push_str(&sentence(sheet, cuts, number));
        lines.push('\n');
    }
    Some(lines)
}

fn first(sheet: &Sheet, cuts: &[Cut]) -> String {
    let all = sides(sheet.nodes[0].area);
    match cuts {
        [] => format!("Sheet {all}: no cut. It is {}.\n", sheet.pieces.first().map(done).unwrap_or_default()),
        cuts => {
            let make = if cuts.len() == 1 { "makes" } else { "make" };
            let areas = sheet.areas().map(|areas| format!(" {}", areas.said().join(" "))).unwrap_or_default();
            format!("Sheet {all}: {} {make} {}.{areas}\n", counted(cuts.len(), "cut"), counted(sheet.pieces.len(), "piece"))
        }
    }
}

/// The sentence of a cut, counted from 0; it says its number from 1.
pub fn sentence(sheet: &Sheet, cuts: &[Cut], number: usize) -> String {
    let Cut { place, way, distance, eaten, board, off, left } = cuts[number];
    let (how, edge, here, there) = match way {
        Way::Horizontal => ("across", "top", "Above", "Below"),
        Way::Vertical => ("down", "left", "Left", "Right"),
    };
    let taken = format!("Take board {}, {}.", place + 1, sides(board.area));
    let lost = if eaten > 0 { format!("; the saw takes {eaten}") } else { String::new() };
    let cut = format!("Cut {how}, {distance} from the {edge}{lost}.");
    let one = made(sheet, off, place + 1);
    let other = left.map_or("nothing".into(), |left| made(sheet, left, place + 2));
    format!("{}. {taken} {cut} {here}: {one}. {there}: {other}.", number + 1)
}

/// What a cut makes, at its number in the pile.
fn made(sheet: &Sheet, board: Board, number: usize) -> String {
    match board.done {
        Some(piece) => done(&sheet.pieces[piece]),
        None => format!("board {number}, {}, to cut again", sides(board.area)),
    }
}

/// A piece that is done, with its size.
fn done(piece: &Piece) -> String {
    let comma = if piece.part.is_some() { "," } else { "" };
    format!("{piece}{comma} {}", sides(piece.area))
}

fn sides(area: Area) -> String {
    format!("{} by {}", area.width, area.height)
}
