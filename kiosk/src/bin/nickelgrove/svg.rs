//! The cut diagram as SVG: the pieces with their names and sizes, free ones hatched, what the blade eats dark, and the cuts numbered in the order of the list. What
//! can't carry its name carries a number, and a list below the picture says what it is. Everything is whole numbers, so that another program can draw the same bytes: docs/DRAWING.md
//! has the rules.

use std::fmt::Write;

use crate::picture::{digits, Drawn, Picture, LEFT, TOP};
use crate::say::sentence;
use crate::sheet::{Cut, Piece, Sheet, Way};

const NARROWEST: u64 = 640;
const COLUMN: u64 = 240;
const LINE: u64 = 16;

const PART: &str = "#f6e0b5";
const FREE: &str = "url(#free)";
const CUT: &str = "#b00020";
const NUMBER: &str = "#00459e";
const STRIP: &str = "#555";

/// The room for what is said of the strips, below the picture.
const SAID: u64 = 48;

/// The picture, each line with its newline.
pub fn svg(sheet: &Sheet) -> String {
    let picture = Picture::new(sheet);
    let labels = labels(sheet, &picture);
    let listed: Vec<usize> = (0..labels.len()).filter(|at| labels[*at].number_alone).collect();
    let mut text = String::new();
    let width = (picture.sheet.width + 2 * LEFT).max(NARROWEST);
    let columns = ((width - 2 * LEFT) / COLUMN) as usize;
    let rows = listed.len().div_ceil(columns);
    frame(&mut text, sheet, &picture, width, rows);
    pieces(&mut text, sheet, &picture);
    strips(&mut text, sheet, &picture);
    lines(&mut text, sheet, &picture);
    for (label, piece) in labels.iter().zip(&sheet.pieces) {
        label.draw(&mut text, piece.part.is_none());
    }
    numbers(&mut text, sheet, &picture);
    let below = said(&mut text, sheet, picture.sheet.bottom());
    legend(&mut text, sheet, &listed, rows, below);
    text.push_str("</svg>\n");
    text
}

/// The label of each piece.
fn labels(sheet: &Sheet, picture: &Picture) -> Vec<Label> {
    let pieces = sheet.pieces.iter().zip(&picture.pieces).zip(1..);
    pieces.map(|((piece, drawn), number)| Label::new(picture, piece, *drawn, number)).collect()
}

/// Where each label and each cut's number stands, for the test that none covers another.
#[cfg(test)]
pub fn signs(sheet: &Sheet, picture: &Picture) -> (Vec<Drawn>, Vec<Drawn>) {
    let label = |label: Label| {
        let ((x, y), (width, height)) = (label.centre, label.sides());
        Drawn { left: x - width / 2, top: y - height / 2, width, height }
    };
    let number = |(at, cut): (usize, &Cut)| Sign::new(sheet, picture, cut, at + 1).back;
    let numbers = sheet.cuts.iter().flatten().enumerate().map(number).collect();
    (labels(sheet, picture).into_iter().map(label).collect(), numbers)
}

/// Writes a line. A string takes whatever is written.
macro_rules! put {
    ($text:expr, $($words:tt)*) => {{
        let _ = writeln!($text, $($words)*);
    }};
}

/// What is around the sheet: the paper, the head, and the sheet's sides.
fn frame(text: &mut String, sheet: &Sheet, picture: &Picture, width: u64, rows: usize) {
    let Drawn { width: dw, height: dh, .. } = picture.sheet;
    let list = if rows == 0 { 0 } else { 24 + LINE * rows as u64 };
    let said = if sheet.strips.is_empty() { 0 } else { SAID };
    let height = TOP + dh + said + 40 + list;
    let (head, middle, half) = (sheet.head(), LEFT + dw / 2, TOP + dh / 2);
    let scale = if picture.bent { "Not to scale: narrow pieces are drawn wider." } else { "Drawn to scale." };
    put!(
        text,
        r#"<svg xmlns="http://www.w3.org/2000/svg" width="{width}" height="{height}" viewBox="0 0 {width} {height}" font-family="monospace" font-size="10" text-anchor="middle">"#
    );
    put!(text, "<title>{head}</title>");
    put!(
        text,
        r##"<defs><pattern id="free" width="8" height="8" patternUnits="userSpaceOnUse" patternTransform="rotate(45)"><path d="M4 0V8" stroke="#999"/></pattern></defs>"##
    );
    put!(text, r##"<rect width="{width}" height="{height}" fill="#fff"/>"##);
    put!(text, r#"<text x="{LEFT}" y="30" font-size="20" text-anchor="start">{head}</text>"#);
    put!(text, r#"<text x="{LEFT}" y="50" font-size="15" text-anchor="start">{scale}</text>"#);
    put!(text, r#"<text x="{middle}" y="72" font-size="15">{}</text>"#, sheet.width());
    put!(text, r#"<text x="30" y="{half}" font-size="15" transform="rotate(-90 30 {half})">{}</text>"#, sheet.height());
}

/// The pieces, filled. Each says what it is where it is pointed at.
fn pieces(text: &mut String, sheet: &Sheet, picture: &Picture) {
    // without cuts the pieces have edges of their own
    let edge = if sheet.cuts.is_none() { r##" stroke="#000""## } else { "" };
    for (at, (piece, drawn)) in sheet.pieces.iter().zip(&picture.pieces).enumerate() {
        let Drawn { left, top, width, height } = drawn;
        let fill = if piece.part.is_some() { PART } else { FREE };
        let title = format!(
            "{}: {piece}, {}, {} from the left, {} from the top, level {}",
            at + 1,
            size(piece),
            piece.area.left,
            piece.area.top,
            piece.level
        );
        put!(
            text,
            r#"<rect x="{left}" y="{top}" width="{width}" height="{height}" fill="{fill}"{edge}><title>{title}</title></rect>"#
        );
    }
}

fn size(piece: &Piece) -> String {
    format!("{} x {}", piece.area.width, piece.area.height)
}

/// What the blade eats, dark. A strip that is too narrow is twice as wide as the line of its cut, which covers a quarter of it then.
fn strips(text: &mut String, sheet: &Sheet, picture: &Picture) {
    let least = 2 * picture.signs.k;
    for (strip, drawn) in sheet.strips.iter().zip(&picture.strips) {
        let Drawn { left, top, .. } = drawn;
        let (width, height) = match strip.across {
            Way::Horizontal => (drawn.width, drawn.height.max(least)),
            Way::Vertical => (drawn.width.max(least), drawn.height),
        };
        let area = strip.area;
        let title = format!("saw: {} x {}, {} from the left, {} from the top", area.width, area.height, area.left, area.top);
        put!(
            text,
            r#"<rect x="{left}" y="{top}" width="{width}" height="{height}" fill="{STRIP}"><title>{title}</title></rect>"#
        );
    }
}

/// The lines of the cuts, and the sheet's edge.
fn lines(text: &mut String, sheet: &Sheet, picture: &Picture) {
    let mut path = String::new();
    for cut in sheet.cuts.iter().flatten() {
        let ((x, y), (to_x, to_y)) = picture.line(sheet, cut);
        let _ = match cut.way {
            Way::Horizontal => write!(path, "M{x} {y}H{to_x}"),
            Way::Vertical => write!(path, "M{x} {y}V{to_y}"),
        };
    }
    if !path.is_empty() {
        put!(text, r#"<path d="{path}" fill="none" stroke="{CUT}" stroke-width="{}"/>"#, picture.signs.k);
    }
    let Drawn { left, top, width, height } = picture.sheet;
    put!(text, r##"<rect x="{left}" y="{top}" width="{width}" height="{height}" fill="none" stroke="#000" stroke-width="2"/>"##);
}

/// The label of a piece: its lines and their baselines, from its centre.
struct Label {
    lines: Vec<(String, i64)>,
    font: u64,
    turned: bool,
    number_alone: bool,
    centre: (u64, u64),
    /// Its sides, with a margin.
    width: u64,
    height: u64,
}

/// Where a label may lie. A side may be less than nothing.
#[derive(Clone, Copy)]
struct Region {
    left: u64,
    top: u64,
    width: i64,
    height: i64,
}

impl Label {
    /// The first that fits, of those in order: both lines, the larger the better, upright and then turned; one line; the piece's number. A label goes to the middle
    /// if it fits there, and else beside or below the cuts' numbers.
    fn new(picture: &Picture, piece: &Piece, drawn: Drawn, number: usize) -> Self {
        let [inner, beside, below] = regions(picture, drawn);
        let line = format!("{piece}, {}", size(piece));
        let alone = |turned| Label { number_alone: true, ..Label::one(number.to_string(), 10 * picture.signs.k, turned) };
        let upright = [20, 15, 10].map(|font| Label::both(piece, font, false)).into_iter();
        let turned = [20, 15, 10].map(|font| Label::both(piece, font, true)).into_iter();
        let single = [false, true].map(|turned| Label::one(line.clone(), 10, turned)).into_iter();
        let tries = upright.chain(turned).chain(single).chain([alone(false)]);
        let place = |label: Label| Some(([inner, beside, below].into_iter().find(|region| label.fits(*region))?, label));
        // the least that a piece is drawn with has room for its number
        let (region, label) = tries.filter_map(place).next().unwrap_or((below, alone(true)));
        let half = |side: i64| side.max(0) as u64 / 2;
        Label { centre: (region.left + half(region.width), region.top + half(region.height)), ..label }
    }

    fn both(piece: &Piece, font: u64, turned: bool) -> Self {
        let (name, size) = (piece.to_string(), size(piece));
        let width = 6 * font / 10 * name.len().max(size.len()) as u64 + 6;
        let (one, other) = match font {
            20 => (-5, 19),
            15 => (-4, 14),
            _ => (-2, 9),
        };
        let lines = vec![(name, one), (size, other)];
        Label { lines, font, turned, number_alone: false, centre: (0, 0), width, height: font * 12 / 5 + 4 }
    }

    fn one(line: String, font: u64, turned: bool) -> Self {
        let width = 6 * font / 10 * line.len() as u64 + 2;
        let lines = vec![(line, font as i64 * 2 / 5)];
        Label { lines, font, turned, number_alone: false, centre: (0, 0), width, height: font }
    }

    /// Its sides as it lies.
    fn sides(&self) -> (u64, u64) {
        if self.turned {
            (self.height, self.width)
        } else {
            (self.width, self.height)
        }
    }

    fn fits(&self, region: Region) -> bool {
        let (width, height) = self.sides();
        width as i64 <= region.width && height as i64 <= region.height
    }

    fn draw(&self, text: &mut String, hatched: bool) {
        let Label { font, centre: (x, y), .. } = *self;
        if hatched {
            let (width, height) = self.sides();
            let (left, top) = (x - width / 2, y - height / 2);
            put!(text, r##"<rect x="{left}" y="{top}" width="{width}" height="{height}" fill="#fff"/>"##);
        }
        let style = if self.number_alone { format!(r#" font-style="italic" fill="{NUMBER}""#) } else { String::new() };
        let turn = if self.turned { format!(r#" transform="rotate(-90 {x} {y})""#) } else { String::new() };
        for (line, below) in &self.lines {
            put!(text, r#"<text x="{x}" y="{}" font-size="{font}"{style}{turn}>{line}</text>"#, y as i64 + below);
        }
    }
}

/// Where a label is clear of the cuts' numbers: well inside a piece, beside the start of its lines, and below it.
fn regions(picture: &Picture, drawn: Drawn) -> [Region; 3] {
    let (k, band) = (picture.signs.k, picture.signs.band);
    let region = |left: u64, top: u64, right: u64, bottom: u64| Region {
        left: drawn.left + left,
        top: drawn.top + top,
        width: drawn.width as i64 - (left + right) as i64,
        height: drawn.height as i64 - (top + bottom) as i64,
    };
    [region(band, band, band, band), region(band, k, 5 * k, k), region(k, band, k, 5 * k)]
}

/// Where the number of a cut stands: what is blanked behind it, the text's middle and baseline, and the point that it is turned about, if it is.
struct Sign {
    back: Drawn,
    middle: u64,
    base: u64,
    turned: Option<(u64, u64)>,
}

impl Sign {
    /// At the start of the cut's line. On a line that goes down, what is longer than two digits is turned.
    fn new(sheet: &Sheet, picture: &Picture, cut: &Cut, number: usize) -> Self {
        let k = picture.signs.k;
        let ((x, y), _) = picture.line(sheet, cut);
        let long = 5 * k * digits(number);
        let back = |left: u64, top: u64, width: u64, height: u64| Drawn { left, top, width, height };
        match cut.way {
            Way::Horizontal => Sign {
                back: back(x + 8 * k, y - 4 * k, long, 8 * k),
                middle: x + 8 * k + long / 2,
                base: y + 3 * k,
                turned: None,
            },
            Way::Vertical if number < 100 => {
                Sign { back: back(x - long / 2, y + 6 * k, long, 8 * k), middle: x, base: y + 13 * k, turned: None }
            }
            Way::Vertical => {
                let centre = y + 6 * k + long / 2;
                Sign { back: back(x - 4 * k, y + 6 * k, 8 * k, long), middle: x, base: centre + 3 * k, turned: Some((x, centre)) }
            }
        }
    }
}

/// The numbers of the cuts. Each says its sentence where it is pointed at.
fn numbers(text: &mut String, sheet: &Sheet, picture: &Picture) {
    let cuts = sheet.cuts.as_deref().unwrap_or_default();
    for (at, cut) in cuts.iter().enumerate() {
        let Sign { back: Drawn { left, top, width, height }, middle, base, turned } = Sign::new(sheet, picture, cut, at + 1);
        let turn = turned.map(|(x, y)| format!(r#" transform="rotate(-90 {x} {y})""#)).unwrap_or_default();
        let said = sentence(sheet, cuts, at);
        let back = format!(r##"<rect x="{left}" y="{top}" width="{width}" height="{height}" fill="#fff"/>"##);
        let font = 8 * picture.signs.k;
        let sign = format!(r#"<text x="{middle}" y="{base}" font-size="{font}" fill="{CUT}"{turn}>{}</text>"#, at + 1);
        put!(text, "<g><title>{said}</title>{back}{sign}</g>");
    }
}

/// What is dark, where something is, and the areas; gives where the next lines begin.
fn said(text: &mut String, sheet: &Sheet, bottom: u64) -> u64 {
    let Some(areas) = sheet.areas() else { return bottom };
    put!(text, r#"<rect x="{LEFT}" y="{}" width="24" height="12" fill="{STRIP}"/>"#, bottom + 28);
    for (line, y) in areas.said().into_iter().zip([bottom + 40, bottom + 64]) {
        put!(text, r#"<text x="{}" y="{y}" font-size="15" text-anchor="start">{line}</text>"#, LEFT + 32);
    }
    bottom + SAID
}

/// What the pieces are that carry their number alone: in columns, read downwards.
fn legend(text: &mut String, sheet: &Sheet, listed: &[usize], rows: usize, bottom: u64) {
    if !listed.is_empty() {
        put!(text, r#"<text x="{LEFT}" y="{}" font-size="15" text-anchor="start">Pieces by their numbers:</text>"#, bottom + 40);
    }
    for (entry, at) in listed.iter().enumerate() {
        let (x, y) = (LEFT + COLUMN * (entry / rows) as u64, bottom + 64 + LINE * (entry % rows) as u64);
        let number = format!(r#"<tspan font-style="italic" fill="{NUMBER}">{}</tspan>"#, at + 1);
        let piece = &sheet.pieces[*at];
        put!(text, r#"<text x="{x}" y="{y}" text-anchor="start">{number} {piece}, {}</text>"#, size(piece));
    }
}
