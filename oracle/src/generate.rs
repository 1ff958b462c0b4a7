//! Random sessions as frames, the same for a seed on every machine.
//!
//! The generator answers its own frames as it goes, so that it knows the live marks, those that are gone, and what
//! is offered. The state goes on from one session to the next: a kept snapshot outlives the opening of another sheet.

mod faulty;
mod long;
mod tidy;

use std::str::FromStr;

use crate::core::orientation::Orientation;
use crate::frame::{self, Mark, Offer, Opening, Part, Request, GREATEST_SIDE, WIDEST_BLADE};
use crate::rng::Rng;
use crate::session::Session;
use crate::sheet::Sheet;
use crate::tree::Piece;

/// Few numbers, so that a snapshot often belongs to the sheet on the table and often does not.
const LAYOUTS: [u16; 5] = [1, 1, 2, 0, 65_535];

/// How many marks of the past are remembered, to be used when they are gone.
const PAST: usize = 40;

/// What the sheet and the parts of a session are like.
#[derive(Clone, Copy, Debug, PartialEq, Eq)]
enum Kind {
    /// Any sheet of a few hundred units.
    Plain,
    /// Sides 1 to 6, where everything meets everything.
    Tiny,
    /// One side of 1 to 3.
    Thin,
    /// Sides at the end of the domain.
    Huge,
    /// Powers of two, sheet and parts.
    Powers,
    /// Parts that mostly have a side of the piece, or both.
    Exact,
    /// One part size on a sheet of its multiples: many free pieces of equal area.
    Equal,
    /// Every second call has something wrong with it.
    Faulty,
    /// A short chain of structures, one inside the other, with ordinary calls after it.
    Chain,
    /// A sheet of a few blade widths.
    Scraps,
    /// A chain to the deepest level that calls can reach.
    Deep,
    /// A structure with as many parts in it as the table holds.
    Row,
    /// A table filled with all shapes, emptied in part and filled again.
    Full,
    /// Calls until the serials are spent.
    Serials,
}

const MIXED: [Kind; 9] =
    [Kind::Plain, Kind::Tiny, Kind::Thin, Kind::Huge, Kind::Powers, Kind::Exact, Kind::Equal, Kind::Faulty, Kind::Chain];
const LONG: [Kind; 3] = [Kind::Deep, Kind::Row, Kind::Full];
const ALONE: [Kind; 2] = [Kind::Scraps, Kind::Serials];

impl FromStr for Kind {
    type Err = String;

    fn from_str(word: &str) -> Result<Self, String> {
        let mut kinds = MIXED.into_iter().chain(LONG).chain(ALONE);
        kinds.find(|kind| format!("{kind:?}").to_lowercase() == word).ok_or(format!("there is no kind of session {word}"))
    }
}

/// A session that is to be made: its kind, whether its sheets are opened with a blade, and whether they are tidied. Without a blade their blade width is 0,
/// which the Rust judges.
#[derive(Clone, Copy)]
struct Plan {
    kind: Kind,
    with_blade: bool,
    tidies: bool,
}

/// The ends of a word: for sessions that tidy, and before it for sessions with a blade.
const TIDY: &str = "+tidy";
const BLADE: &str = "+blade";

/// How often `all` goes through the short kinds before it goes through the long ones, whose sessions have ten times as many lines.
const ROUNDS: usize = 10;

/// The sessions that a word names, in turn: a kind; `mixed`, the short kinds; `long`, the long ones; each with `+blade` behind it for sessions with a
/// blade, and then `+tidy` for sessions that tidy. `all` are both, without a blade and with one; `all+tidy` the same, and they tidy.
fn plans(word: &str) -> Result<Vec<Plan>, String> {
    let (rest, tidies) = without(word, TIDY);
    if rest == "all" {
        let end = if tidies { TIDY } else { "" };
        let of = |kinds: &str| plans(&format!("{kinds}{end}"));
        let short = [of("mixed")?, of("mixed+blade")?].concat();
        return Ok([short.repeat(ROUNDS), of("long")?, of("long+blade")?].concat());
    }
    let (kinds, with_blade) = without(rest, BLADE);
    let kinds = match kinds {
        "mixed" if with_blade => [MIXED.to_vec(), vec![Kind::Scraps]].concat(),
        "mixed" => MIXED.to_vec(),
        "long" => LONG.to_vec(),
        kind => vec![kind.parse()?],
    };
    Ok(kinds.into_iter().map(|kind| Plan { kind, with_blade, tidies }).collect())
}

/// A word without this end, and whether it had it.
fn without<'a>(word: &'a str, end: &str) -> (&'a str, bool) {
    word.strip_suffix(end).map_or((word, false), |rest| (rest, true))
}

/// The frames of sessions: so many of the first word, then so many of the next.
pub fn lines(seed: u64, asked: &[(u32, &str)]) -> Result<Vec<String>, String> {
    let mut generator = Generator::new(seed);
    generator.before_opening();
    if let Some((_, word)) = asked.first() {
        generator.tidies = plans(word)?[0].tidies;
        generator.tidy_before_opening();
    }
    for (sessions, word) in asked {
        for (_, plan) in (0..*sessions).zip(plans(word)?.iter().cycle()) {
            generator.session(*plan);
        }
    }
    Ok(generator.lines)
}

struct Generator {
    rng: Rng,
    session: Session,
    lines: Vec<String>,
    past: Vec<Mark>,
    /// Whether sheets are opened with a blade.
    with_blade: bool,
    /// Whether they are tidied.
    tidies: bool,
    /// The part size of an `Equal` session.
    unit: (u32, u32),
}

impl Generator {
    fn new(seed: u64) -> Self {
        let (rng, session) = (Rng::new(seed), Session::default());
        Generator { rng, session, lines: Vec::new(), past: Vec::new(), with_blade: false, tidies: false, unit: (1, 1) }
    }

    fn sheet(&self) -> &Sheet {
        self.session.sheet().expect("a sheet was opened")
    }

    /// Sends a line and gives the number in its answer: 0, or that of the refusal.
    fn send_line(&mut self, line: String) -> u8 {
        let answer = self.session.answer(line.as_bytes()).answer;
        self.lines.push(line);
        u8::from_str_radix(&answer[2..4], 16).expect("an answer has a number")
    }

    fn send(&mut self, request: Request) -> u8 {
        self.send_line(frame::line(request.bytes()))
    }

    /// Every op before there is a sheet, and a refused opening.
    fn before_opening(&mut self) {
        let mark = Mark { layout: 1, place: 1, serial: 2 };
        let part = Part { number: 7, width: 1, height: 1, turn: 0 };
        let beyond = Part { width: 0, ..part };
        let offer = Offer { rotation: 0, shape: 1 };
        self.send(Request::Report);
        self.send(Request::Keep);
        self.send(Request::Restore);
        self.send(Request::Offers { mark, part: beyond });
        self.send(Request::Insert { mark, part, offer });
        self.send(Request::Remove { mark });
        self.send(Request::Open(Opening { layout: 1, width: 0, height: 1, cut: Orientation::Vertical, stages: 3, blade: 0 }));
        self.send(Request::Offers { mark, part });
    }

    fn session(&mut self, Plan { kind, with_blade, tidies }: Plan) {
        self.with_blade = with_blade;
        self.tidies = tidies;
        match kind {
            Kind::Chain => self.chain(),
            Kind::Deep => self.deep(),
            Kind::Row => self.row(),
            Kind::Full => self.full(),
            Kind::Serials => self.serials(),
            _ => {
                self.open(kind);
                self.calls(kind, 20, 45);
            }
        }
    }

    fn open(&mut self, kind: Kind) {
        let blade = self.some_blade();
        let (width, height) = self.sheet_sides(kind, blade);
        let stages = if self.rng.chance(80) { self.rng.between(1, 5) } else { self.rng.between(1, 254) };
        self.open_with(width, height, stages as u8, blade);
    }

    fn open_with(&mut self, width: u32, height: u32, stages: u8, blade: u8) {
        let layout = self.rng.pick(&LAYOUTS);
        let cut = self.rng.pick(&[Orientation::Horizontal, Orientation::Vertical]);
        let number = self.send(Request::Open(Opening { layout, width, height, cut, stages, blade }));
        assert_eq!(number, 0, "an opening within the domain");
    }

    /// A blade's width: mostly that of a real saw, now and then the widest, or 0 among the others.
    fn some_blade(&mut self) -> u8 {
        if !self.with_blade {
            return 0;
        }
        let blade = match self.rng.between(0, 19) {
            0..=1 => 0,
            2..=10 => self.rng.between(1, 4),
            11..=15 => self.rng.between(5, 20),
            16..=18 => self.rng.between(21, 100),
            _ => WIDEST_BLADE.into(),
        };
        blade as u8
    }

    fn sheet_sides(&mut self, kind: Kind, blade: u8) -> (u32, u32) {
        let rng = &mut self.rng;
        match kind {
            Kind::Tiny => (rng.between(1, 6), rng.between(1, 6)),
            Kind::Thin => {
                let sides = (rng.between(1, 3), rng.between(1, 5000));
                if rng.chance(50) {
                    sides
                } else {
                    (sides.1, sides.0)
                }
            }
            Kind::Huge => (GREATEST_SIDE - rng.between(0, 3), GREATEST_SIDE - rng.between(0, 60_000_000)),
            Kind::Powers => (1 << rng.between(0, 25), 1 << rng.between(0, 25)),
            Kind::Equal => {
                self.unit = (rng.between(1, 30), rng.between(1, 30));
                (self.unit.0 * rng.between(2, 9), self.unit.1 * rng.between(2, 9))
            }
            Kind::Scraps => {
                let most = 3 + 8 * u32::from(blade);
                (rng.between(1, most), rng.between(1, most))
            }
            _ => (rng.between(2, 600), rng.between(2, 600)),
        }
    }

    fn calls(&mut self, kind: Kind, fewest: u32, most: u32) {
        for _ in 0..self.rng.between(fewest, most) {
            self.call(kind);
        }
    }

    fn call(&mut self, kind: Kind) {
        self.remember();
        if self.tidies && self.rng.chance(20) {
            return self.tidying(kind);
        }
        if kind == Kind::Faulty && self.rng.chance(50) {
            return self.fault();
        }
        match self.rng.between(0, 99) {
            0..=1 => self.malformed(),
            2..=9 => self.fault(),
            10..=14 => drop(self.send(Request::Keep)),
            15..=20 => drop(self.send(Request::Restore)),
            21..=23 => drop(self.send(Request::Report)),
            24..=29 => self.ask(kind),
            30..=49 => self.remove(),
            _ => self.insert(kind),
        }
    }

    /// Remembers a live mark or two, for the time when they are gone.
    fn remember(&mut self) {
        let (free, held) = (self.free_pieces(), self.removable());
        let marks = [self.rng.pick(&free).mark, self.rng.pick(&held)];
        for mark in marks {
            if self.past.len() == PAST {
                self.past.remove(0);
            }
            self.past.push(mark);
        }
    }

    fn free_pieces(&self) -> Vec<Piece> {
        self.sheet().free_pieces()
    }

    /// The marks of the removable list, the top's among them.
    fn removable(&self) -> Vec<Mark> {
        self.sheet().removable_list()
    }

    /// A free piece: the greatest as often as all others together.
    fn some_piece(&mut self) -> Piece {
        let pieces = self.free_pieces();
        if self.rng.chance(50) {
            pieces[0]
        } else {
            self.rng.pick(&pieces)
        }
    }

    fn some_part(&mut self, kind: Kind, piece: &Piece) -> Part {
        let (mut width, mut height) = match kind {
            Kind::Equal => self.unit,
            _ => (self.part_side(kind, piece.width), self.part_side(kind, piece.height)),
        };
        if self.rng.chance(30) {
            (width, height) = (height, width);
        }
        let number = if self.rng.chance(70) { self.rng.between(0, 9) } else { self.rng.between(0, 65_535) };
        Part { number: number as u16, width, height, turn: self.rng.pick(&[0, 0, 0, 1, 2]) }
    }

    /// A side for a part, by the side of the piece that it is meant for.
    fn part_side(&mut self, kind: Kind, side: u32) -> u32 {
        let blade = self.sheet().blade();
        if blade > 0 && self.rng.chance(40) {
            return self.side_by_blade(side, blade);
        }
        let equal = if kind == Kind::Exact { 60 } else { 30 };
        let side = match self.rng.between(0, 99) {
            chance if chance < equal => side,
            _ if kind == Kind::Powers => 1 << self.rng.between(0, side.max(1).ilog2()),
            95.. => side + 1,
            88.. => side.saturating_sub(1),
            _ => self.rng.between(1, side.max(1)),
        };
        side.clamp(1, GREATEST_SIDE)
    }

    /// A side for a part that leaves about what the blade eats, or leaves room for more parts beside it.
    fn side_by_blade(&mut self, side: u32, blade: u8) -> u32 {
        let side = match self.rng.between(0, 2) {
            0 => side.saturating_sub(self.rng.between(0, 1 + u32::from(blade))),
            1 => side.saturating_sub(blade.into()),
            _ => side / self.rng.between(2, 4),
        };
        side.max(1)
    }

    fn offers(&self, piece: &Piece, part: &Part) -> Vec<Offer> {
        self.sheet().offers(piece.mark, part)
    }

    fn some_offer(&mut self) -> Offer {
        Offer { rotation: self.rng.pick(&[0, 1]), shape: self.rng.pick(&[1, 2, 3, 4]) }
    }

    /// Asks what a piece offers; half the time for a small part, which can get all four offers.
    fn ask(&mut self, kind: Kind) {
        let piece = self.some_piece();
        let part = if self.rng.chance(50) { self.some_part(kind, &piece) } else { self.small_part(&piece) };
        self.send(Request::Offers { mark: piece.mark, part });
    }

    /// Books a part where one is offered, within a few tries.
    fn insert(&mut self, kind: Kind) {
        for _ in 0..6 {
            let piece = self.some_piece();
            let part = self.some_part(kind, &piece);
            let offers = self.offers(&piece, &part);
            if !offers.is_empty() {
                let offer = self.rng.pick(&offers);
                self.send(Request::Insert { mark: piece.mark, part, offer });
                return;
            }
        }
    }

    /// Takes a part or a structure out, if there is one.
    fn remove(&mut self) {
        let marks = self.removable_below_top();
        if !marks.is_empty() {
            let mark = self.rng.pick(&marks);
            self.send(Request::Remove { mark });
        }
    }

    fn removable_below_top(&self) -> Vec<Mark> {
        let top = self.top();
        self.removable().into_iter().filter(|mark| *mark != top).collect()
    }

    fn top(&self) -> Mark {
        self.sheet().tree().piece.mark
    }

    /// A part that leaves most of a great piece free, often along or across its cut, often turned.
    fn small_part(&mut self, piece: &Piece) -> Part {
        let mut sides = [piece.width, piece.height].map(|side| self.rng.between(1, (side / 9).max(1)));
        match self.rng.between(0, 3) {
            0 => sides[0] = piece.width.max(1),
            1 => sides[1] = piece.height.max(1),
            _ => {}
        }
        if self.rng.chance(50) {
            sides.reverse();
        }
        Part { number: self.rng.between(0, 65_535) as u16, width: sides[0], height: sides[1], turn: 0 }
    }
}
