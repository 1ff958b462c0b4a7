//! The cut diagram as text, for a terminal: 78 columns and 40 rows at most, and a list of the pieces below it. Free pieces are dotted, and what the blade eats is
//! filled with #. A cut's number stands where its line begins. Where there is no room for each piece a box holds several, and says which.

use std::fmt::Write;

use crate::picture::{needs, row, share, Item, Needs};
use crate::sheet::{Cut, Node, Piece, Sheet, Tile, Way};

/// The steps from the first column to the last one, and from the first row to the last one.
const COLUMNS: u64 = 77;
const ROWS: u64 = 39;

/// A character is so many times as tall as it is wide.
const TALL: u64 = 2;

/// The least of a box, its left and upper edges among them: three characters, and a line.
const LEAST: (u64, u64) = (4, 2);

/// The least of a sheet.
const SMALLEST: (u64, u64) = (24, 4);

/// A box: where it lies, and the pieces that it shows, the first and the last one by their places.
#[derive(Clone, Copy)]
pub struct Framed {
    left: u64,
    top: u64,
    width: u64,
    height: u64,
    pub first: usize,
    pub last: usize,
}

/// A strip that is shown: behind which node, where it lies, and whether it ends its row. It may have no length of its own, and is a line then.
#[derive(Clone, Copy)]
pub struct Sawn {
    node: usize,
    left: u64,
    top: u64,
    width: u64,
    height: u64,
    across: Way,
    ends: bool,
}

/// What a diagram shows: the boxes in tree order, and the strips.
#[derive(Default)]
pub struct Shown {
    pub boxes: Vec<Framed>,
    pub strips: Vec<Sawn>,
}

#[cfg(test)]
impl Shown {
    /// Left, top, width and height of each box, and of each strip, for the tests.
    pub fn places(&self) -> (Vec<[u64; 4]>, Vec<[u64; 4]>) {
        let boxes = self.boxes.iter().map(|framed| [framed.left, framed.top, framed.width, framed.height]);
        (boxes.collect(), self.strips.iter().map(|sawn| [sawn.left, sawn.top, sawn.width, sawn.height]).collect())
    }
}

/// The diagram and the list, each line with its newline.
pub fn text(sheet: &Sheet) -> String {
    let shown = shown(sheet);
    let boxes = &shown.boxes;
    let mut grid = Grid::new(&shown);
    for framed in boxes {
        grid.frame(framed);
        grid.fill(sheet, framed);
    }
    for sawn in &shown.strips {
        grid.saw(sawn);
    }
    for (at, cut) in sheet.cuts.iter().flatten().enumerate() {
        grid.number(sheet, &shown, cut, at + 1);
    }
    let mut lines = format!("{}\n\n", sheet.head());
    grid.write(&mut lines);
    lines.push('\n');
    if boxes.iter().any(|framed| framed.first != framed.last) {
        lines.push_str("A box that says 8-20, or only ..., holds several pieces. All are listed.\n\n");
    }
    if let Some(areas) = sheet.areas() {
        let [taken, rest] = areas.said();
        let _ = writeln!(lines, "#  {taken}\n   {rest}\n");
    }
    list(&mut lines, sheet);
    lines
}

/// What is shown of a sheet: its boxes with the names in them if all of them find room so, and else as many as find room.
pub fn shown(sheet: &Sheet) -> Shown {
    let named = needs(sheet, LEAST, |piece| {
        let number = sheet.pieces.partition_point(|other| other.node < piece.node) + 1;
        let width = both(piece, number).iter().map(String::len).max().unwrap_or_default() as u64;
        ((width + 3).max(LEAST.0), 3)
    });
    let roomy = named.nodes[0].0 <= COLUMNS && named.nodes[0].1 <= ROWS;
    let needs = if roomy { named } else { needs(sheet, LEAST, |_| LEAST) };
    let (width, height) = drawn(sheet, needs.nodes[0]);
    let mut shown = Shown::default();
    divide(sheet, &needs, 0, Framed { left: 0, top: 0, width, height, first: 0, last: 0 }, &mut shown);
    shown
}

/// The sheet's sides in columns and rows: to scale, as large as there is room, and no less than is needed, if that fits.
fn drawn(sheet: &Sheet, (least_width, least_height): (u64, u64)) -> (u64, u64) {
    let (width, height) = (u64::from(sheet.width()), u64::from(sheet.height()));
    let (columns, rows) = if COLUMNS * height <= ROWS * TALL * width {
        (COLUMNS, COLUMNS * height / (TALL * width))
    } else {
        (ROWS * TALL * width / height, ROWS)
    };
    (columns.max(least_width).clamp(SMALLEST.0, COLUMNS), rows.max(least_height).clamp(SMALLEST.1, ROWS))
}

/// Puts the boxes and the strips of a node, within the rectangle that is its own, behind those that are there.
fn divide(sheet: &Sheet, needs: &Needs, place: usize, own: Framed, shown: &mut Shown) {
    let node = &sheet.nodes[place];
    let next = |shown: &Shown| shown.boxes.last().map_or(0, |framed| framed.last + 1);
    if node.children.is_empty() {
        let next = next(shown);
        return shown.boxes.push(Framed { first: next, last: next, ..own });
    }
    let length = node.cut.laid(own.width, own.height).0;
    let (alone, together) = groups(sheet, needs, node, length);
    let row: Vec<(u64, u64)> = alone.iter().chain(&together).map(|item| (item.size, item.least)).collect();
    let mut begin = 0;
    for (at, length) in share(length, &row, &mut false).into_iter().enumerate() {
        let part = match node.cut {
            Way::Horizontal => Framed { top: own.top + begin, height: length, ..own },
            Way::Vertical => Framed { left: own.left + begin, width: length, ..own },
        };
        begin += length;
        match alone.get(at) {
            Some(Item { child, strip: false, .. }) => divide(sheet, needs, *child, part, shown),
            Some(Item { child, .. }) => {
                let Framed { left, top, width, height, .. } = part;
                let ends = sheet.ends(node, *child);
                shown.strips.push(Sawn { node: *child, left, top, width, height, across: node.cut, ends });
            }
            None => {
                let children = node.children.iter().skip_while(|child| alone.iter().any(|item| item.child == **child));
                let (first, pieces) = (next(shown), children.map(|child| count(sheet, *child)).sum::<usize>());
                shown.boxes.push(Framed { first, last: first + pieces - 1, ..part });
            }
        }
    }
}

/// What is shown along so many steps of a node's cut, each with its length and its least: the children one by one, with the strips behind them, if there is room. Else
/// the last children and strips stand together in one box, which comes then.
fn groups(sheet: &Sheet, needs: &Needs, node: &Node, length: u64) -> (Vec<Item>, Option<Item>) {
    let mut row = row(sheet, needs, node);
    let least = node.cut.laid(LEAST.0, LEAST.1).0;
    if row.iter().map(|item| item.least).sum::<u64>() > length {
        // a strip within the row is still a line
        row.iter_mut().for_each(|item| item.least = item.least.min(least));
    }
    if row.iter().map(|item| item.least).sum::<u64>() <= length {
        return (row, None);
    }
    let children = (length / least).max(1) as usize - 1;
    let child = |item: &Item| node.children.iter().position(|child| *child == item.child);
    let kept = row.iter().take_while(|item| child(item).is_some_and(|at| at < children)).count();
    let rest = row.split_off(kept);
    // a strip behind a child is shown before the box
    let size = rest.iter().map(|item| item.size).sum();
    (row, rest.first().map(|item| Item { child: item.child, strip: false, size, least }))
}

/// How many pieces a node has.
fn count(sheet: &Sheet, place: usize) -> usize {
    let children = &sheet.nodes[place].children;
    if children.is_empty() {
        1
    } else {
        children.iter().map(|child| count(sheet, *child)).sum()
    }
}

/// What stands in the box of a piece, in two lines.
fn both(piece: &Piece, number: usize) -> [String; 2] {
    [format!("{number} {piece}"), size(piece)]
}

fn size(piece: &Piece) -> String {
    format!("{} x {}", piece.area.width, piece.area.height)
}

/// The characters of a diagram, row by row.
struct Grid {
    rows: Vec<Vec<u8>>,
}

impl Grid {
    fn new(shown: &Shown) -> Self {
        let ends = shown.boxes.iter().map(|framed| (framed.left + framed.width, framed.top + framed.height));
        let ends = ends.chain(shown.strips.iter().map(|sawn| (sawn.left + sawn.width, sawn.top + sawn.height)));
        let (columns, rows) = ends.fold((0, 0), |(columns, rows), (right, bottom)| (right.max(columns), bottom.max(rows)));
        Grid { rows: vec![vec![b' '; columns as usize + 1]; rows as usize + 1] }
    }

    fn put(&mut self, row: u64, column: u64, text: &str) {
        for (place, byte) in text.bytes().enumerate() {
            self.rows[row as usize][column as usize + place] = byte;
        }
    }

    /// The edges of a box.
    fn frame(&mut self, framed: &Framed) {
        let Framed { left, top, width, height, .. } = *framed;
        for row in [top, top + height] {
            for column in left + 1..left + width {
                self.edge(row, column, b'-');
            }
        }
        for column in [left, left + width] {
            for row in top + 1..top + height {
                self.edge(row, column, b'|');
            }
            self.put(top, column, "+");
            self.put(top + height, column, "+");
        }
    }

    /// What the blade eats: within its edges, and along them where it has something on both sides.
    fn saw(&mut self, sawn: &Sawn) {
        let Sawn { left, top, width, height, across, ends, .. } = *sawn;
        self.frame(&Framed { left, top, width, height, first: 0, last: 0 });
        let last = u64::from(!ends);
        let (columns, rows) = match across {
            Way::Horizontal => (left + 1..left + width, top..top + height + last),
            Way::Vertical => (left..left + width + last, top + 1..top + height),
        };
        for row in rows {
            for column in columns.clone() {
                self.put(row, column, "#");
            }
        }
    }

    /// A corner of another box stays.
    fn edge(&mut self, row: u64, column: u64, line: u8) {
        let place = &mut self.rows[row as usize][column as usize];
        if *place != b'+' {
            *place = line;
        }
    }

    /// What is within the edges: dots for a free piece, and the words that fit.
    fn fill(&mut self, sheet: &Sheet, framed: &Framed) {
        let Framed { left, top, width, height, .. } = *framed;
        let (columns, rows) = (width - 1, height - 1);
        let (words, dotted) = words(sheet, framed, columns, rows);
        for row in top + 1..top + height {
            self.put(row, left + 1, &if dotted { "." } else { " " }.repeat(columns as usize));
        }
        let above = top + 1 + (rows - words.len() as u64) / 2;
        for (row, word) in (above..).zip(words) {
            // a blank on each side, where there is room
            let blank = if word.len() as u64 + 2 <= columns { " " } else { "" };
            let word = format!("{blank}{word}{blank}");
            self.put(row, left + 1 + (columns - word.len() as u64) / 2, &word);
        }
    }

    /// The number of a cut, at the start of its line, if that line is shown.
    fn number(&mut self, sheet: &Sheet, shown: &Shown, cut: &Cut, number: usize) {
        // where a tile begins, if it does so with a box, or is a strip that is shown
        let starts = |tile: usize| match sheet.tiles[tile] {
            Tile::Piece(piece) => shown.boxes.iter().find(|framed| framed.first == piece).map(|framed| (framed.left, framed.top)),
            Tile::Strip(at) => {
                let node = sheet.strips[at].node;
                shown.strips.iter().find(|sawn| sawn.node == node).map(|sawn| (sawn.left, sawn.top))
            }
        };
        let (Some((left, top)), Some((column, row))) = (starts(cut.board.first), starts(cut.off.last + 1)) else { return };
        match cut.way {
            Way::Horizontal => self.put(row, left, &number.to_string()),
            Way::Vertical => self.put(top, column, &number.to_string()),
        }
    }

    fn write(&self, lines: &mut String) {
        for row in &self.rows {
            lines.extend(row.iter().map(|byte| char::from(*byte)));
            lines.push('\n');
        }
    }
}

/// The words of a box of so many columns and rows, and whether it is dotted.
fn words(sheet: &Sheet, framed: &Framed, columns: u64, rows: u64) -> (Vec<String>, bool) {
    let number = framed.first + 1;
    let fits = |lines: &Vec<String>| lines.len() as u64 <= rows && lines.iter().all(|line| line.len() as u64 <= columns);
    if framed.first != framed.last {
        let last = framed.last + 1;
        let tries = [vec![format!("{number}-{last}")], vec![format!("{number}-"), last.to_string()]];
        return (tries.into_iter().find(fits).unwrap_or_else(|| vec!["...".into()]), false);
    }
    let piece = &sheet.pieces[framed.first];
    let both = both(piece, number);
    let tries = [both.to_vec(), vec![both.join(", ")], vec![both[0].clone()]];
    (tries.into_iter().find(fits).unwrap_or_else(|| vec![number.to_string()]), piece.part.is_none())
}

/// The pieces, a line each: number, name, size, and where the left upper corner is. Columns are as wide as they have to be.
fn list(lines: &mut String, sheet: &Sheet) {
    let rows: Vec<[String; 4]> = sheet
        .pieces
        .iter()
        .enumerate()
        .map(|(at, piece)| {
            let corner = format!("{} from the left, {} from the top", piece.area.left, piece.area.top);
            [(at + 1).to_string(), piece.to_string(), size(piece), corner]
        })
        .collect();
    let widest = |column: usize| rows.iter().map(|row| row[column].len()).max().unwrap_or_default();
    let (a, b, c) = (widest(0), widest(1), widest(2));
    for [number, name, size, corner] in &rows {
        let _ = writeln!(lines, "{number:>a$}  {name:<b$}  {size:<c$}  {corner}");
    }
}
