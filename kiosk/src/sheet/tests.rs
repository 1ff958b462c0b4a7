//! The typed calls on the recorded sessions and on random ones: the answers that the frames get, and the fields that `inspect` shows.
//!
//! A session of frames opens sheets one after another, keeps and restores over their openings, and asks before there is one. A `Sheet` is one opening. These tests
//! stand inside the crate: they put a `Sheet` around a desk with no sheet on it and open the next sheet on that desk, which no program can.

use std::collections::BTreeMap;
use std::io::Write;
use std::path::Path;
use std::process::{Command, Stdio};
use std::sync::Once;
use std::{io, thread};

use super::*;
use crate::common::typed::{fields, op_of, part_asked, request_of, said, MALFORMED};
use crate::common::{lines_of, Random};
use crate::{Kind, ListedCut, Report, Rotation, Shape, Turn};

/// The request as a typed call, and what that gives as the answer to the request.
fn call(sheet: &mut Sheet, request: &Request) -> Result<Answer, Refusal> {
    match *request {
        Request::Open { number, width, height, first_cut, stages, blade } => {
            let answer = sheet.desk.ask(request);
            let own = Sheet::open_with_blade(number, width, height, first_cut, stages, blade);
            // a sheet on a desk of its own is the same one, and without a blade it is that of the plain opening
            let shown = |own: Result<Sheet, Refusal>| own.map(|own| fields(&own, None));
            let own = shown(own);
            if blade == 0 {
                assert_eq!(shown(Sheet::open(number, width, height, first_cut, stages)), own);
            }
            assert_eq!(own, answer.clone().map(|_| fields(sheet, None)));
            answer
        }
        Request::Offers { piece, part } => sheet.offers(piece, part).map(Answer::Offers),
        Request::Insert { piece, part, offer } => sheet.insert(piece, part, offer).map(Answer::Booked),
        Request::Remove { piece } => sheet.remove(piece).map(Answer::Removed),
        Request::Keep => sheet.keep().map(|()| Answer::Kept),
        Request::Restore => sheet.restore().map(|()| Answer::Restored),
        // the figures have what the report says
        Request::Report => sheet.figures().map(|figures| {
            Answer::Report(Report { used_area: figures.used_area, nodes: figures.nodes, sheet_usage: figures.sheet_usage })
        }),
        Request::WhyNot { piece, part } => sheet.why_not(piece, part).map(Answer::Reasons),
        Request::RoomLight { part } => sheet.room_light(part).map(Answer::Light),
        Request::FreePiece { position } => at(sheet.free_pieces()?, position).map(Answer::FreePiece),
        Request::RemovablePiece { position } => at(sheet.removable()?, position).map(Answer::RemovablePiece),
        Request::PartNumbers => sheet.part_numbers().map(Answer::PartNumbers),
        Request::Figures => sheet.figures().map(Answer::Figures),
        Request::Snapshot => sheet.snapshot().map(Answer::Snapshot),
        Request::Cuts => sheet.cuts().map(|cuts| Answer::Cuts(cuts.iter().map(listed).collect())),
        Request::EatenArea => sheet.eaten_area().map(Answer::EatenArea),
        Request::CutAmounts => sheet.cuts().map(|cuts| Answer::CutAmounts(cuts.iter().map(|cut| cut.eaten).collect())),
        Request::Tidy => sheet.tidy().map(Answer::Tidied),
    }
}

fn listed(cut: &Cut) -> ListedCut {
    let Cut { place, way, distance, piece, left, eaten } = *cut;
    let listed = ListedCut { place, way, distance, piece, left };
    assert_eq!(listed.with_eaten(eaten), *cut);
    listed
}

fn at(list: Vec<Mark>, position: u16) -> Result<Mark, Refusal> {
    list.get(usize::from(position)).copied().ok_or(Refusal::PastTheEnd)
}

/// A session of frames by typed calls.
struct Session {
    sheet: Sheet,
    malformed: usize,
}

impl Session {
    fn new() -> Self {
        Session { sheet: Sheet { desk: Desk::new() }, malformed: 0 }
    }

    /// What a line gets, and the part that it asks about. A malformed line has no typed call: it is counted, and changes nothing.
    fn turn(&mut self, line: &[u8]) -> (String, Option<Part>) {
        let Some(request) = request_of(line) else {
            self.malformed += 1;
            return (MALFORMED.into(), None);
        };
        (said(op_of(&request), &call(&mut self.sheet, &request)), part_asked(&request))
    }

    /// The line that `inspect` has for this one.
    fn inspected(&mut self, line: &[u8]) -> String {
        let (answer, part) = self.turn(line);
        format!("{answer} {}", fields(&self.sheet, part).join(" "))
    }
}

fn texts_of(file: &str) -> Vec<String> {
    lines_of(file).into_iter().map(|line| String::from_utf8(line).expect("hexadecimal")).collect()
}

/// The Rust's recorded lines of `inspect`: the answers, the trees, the lists, the figures, the part numbers, the lights and the saw cuts.
#[test]
fn short_sessions_by_typed_calls() {
    let (frames, lines) = (lines_of("recorded/sessions.in"), texts_of("recorded/sessions.out"));
    assert_eq!(frames.len(), lines.len());
    let mut session = Session::new();
    for (place, (frame, line)) in frames.iter().zip(lines).enumerate() {
        assert_eq!(session.inspected(frame), line, "line {}", place + 1);
    }
    assert!(frames.len() > 4_000 && session.malformed > 50, "{} of {}", session.malformed, frames.len());
}

/// On a quarter of the stack that a thread has by default.
fn on_a_small_stack(test: impl FnOnce() + Send + 'static) {
    let thread = thread::Builder::new().stack_size(512 << 10).spawn(test);
    thread.expect("a thread").join().expect("every answer was right");
}

/// The Rust's recorded answers to the long sessions, and to those that tidy.
#[test]
fn long_sessions_by_typed_calls() {
    on_a_small_stack(|| {
        for name in ["long", "tidy"] {
            let (frames, answers) = (lines_of(&format!("recorded/{name}.in")), texts_of(&format!("recorded/{name}.out")));
            assert_eq!(frames.len(), answers.len());
            let mut session = Session::new();
            for (place, (frame, answer)) in frames.iter().zip(answers).enumerate() {
                assert_eq!(session.turn(frame).0, answer, "{name}, line {}", place + 1);
            }
            assert!(frames.len() > 1_900 && session.malformed > 0, "{name}: {} of {}", session.malformed, frames.len());
        }
    });
}

/// What our program `inspect` says to these lines. Nothing where it is not there: `kiosk/test` makes it, and a plain `cargo test` may go without.
fn inspect(lines: &[String]) -> Option<Vec<String>> {
    let program = Path::new(env!("CARGO_MANIFEST_DIR")).join("../target/native/inspect");
    if !program.exists() {
        // once, and past what `cargo test` keeps to itself
        static SAID: Once = Once::new();
        let words = "skipped: there is no target/native/inspect to compare with; tools/native inspect makes it";
        SAID.call_once(|| writeln!(io::stderr(), "{words}").expect("said"));
        return None;
    }
    let mut child = Command::new(program).stdin(Stdio::piped()).stdout(Stdio::piped()).spawn().expect("inspect runs");
    let mut input = child.stdin.take().expect("its input");
    let text = lines.iter().map(|line| format!("{line}\n")).collect::<String>();
    let writer = thread::spawn(move || input.write_all(text.as_bytes()).expect("inspect reads all lines"));
    let output = child.wait_with_output().expect("inspect ends");
    writer.join().expect("all lines were written");
    assert!(output.status.success());
    Some(String::from_utf8(output.stdout).expect("hexadecimal").lines().map(str::to_string).collect())
}

/// Compares the lines of `inspect` with these, each of which stands for the frame of its place.
fn compare(frames: &[String], ours: &[String]) {
    let Some(theirs) = inspect(frames) else { return };
    assert_eq!(theirs.len(), ours.len());
    for (place, (ours, theirs)) in ours.iter().zip(theirs).enumerate() {
        assert_eq!(*ours, theirs, "line {}: {}", place + 1, frames[place]);
    }
}

/// The fields of `inspect` on the long sessions, the deepest trees and the fullest tables.
#[test]
fn long_sessions_by_inspect() {
    on_a_small_stack(|| {
        for file in ["recorded/long.in", "recorded/tidy.in"] {
            let frames = texts_of(file);
            let mut session = Session::new();
            let lines: Vec<String> = frames.iter().map(|frame| session.inspected(frame.as_bytes())).collect();
            compare(&frames, &lines);
        }
    });
}

/// Random calls.
struct Caller {
    random: Random,
    /// Every mark that was answered, gone ones too.
    seen: Vec<Mark>,
}

const LARGEST: u32 = 67_108_863;

impl Caller {
    fn below(&mut self, limit: usize) -> usize {
        self.random.below(limit as u64) as usize
    }

    fn one_of<T: Copy>(&mut self, list: &[T]) -> T {
        list[self.below(list.len())]
    }

    /// A side: now and then one at a limit or past it, else one of a piece, or a smaller one.
    fn side(&mut self, of: u32) -> u32 {
        match self.below(20) {
            0 => self.one_of(&[0, 1, LARGEST, LARGEST + 1, u32::MAX]),
            1..=6 => of,
            _ => 1 + self.random.below(u64::from(of.max(1))) as u32,
        }
    }

    /// A part, mostly one that some free piece has room for.
    fn part(&mut self, sheet: &Sheet) -> Part {
        let nodes = sheet.snapshot().unwrap_or_default();
        let frees: Vec<_> = nodes.iter().filter(|node| node.kind == Kind::Free).map(|node| (node.width, node.height)).collect();
        let (width, height) = if frees.is_empty() { (9, 9) } else { self.one_of(&frees) };
        let (width, height) = if self.below(4) == 0 { (height, width) } else { (width, height) };
        let (number, turn) =
            (self.one_of(&[0, 7, 8, 65_535]), self.one_of(&[Turn::Either, Turn::Either, Turn::Default, Turn::Rotated]));
        Part::new(number, self.side(width), self.side(height)).turned(turn)
    }

    /// A mark: mostly of the list, else one that was seen before, or numbers.
    fn mark(&mut self, list: &[Mark]) -> Mark {
        match self.below(12) {
            0 if !self.seen.is_empty() => {
                let place = self.below(self.seen.len());
                self.seen[place]
            }
            1 => Mark::from_numbers(self.below(4) as u16, self.one_of(&[0, 1, 2, 254, 255]), self.below(20) as u32),
            _ if list.is_empty() => Mark::from_numbers(1, 1, 2),
            _ => self.one_of(list),
        }
    }

    fn offer(&mut self, sheet: &Sheet, piece: Mark, part: Part) -> Offer {
        let offers = sheet.offers(piece, part).unwrap_or_default();
        if !offers.is_empty() && self.below(10) > 0 {
            return self.one_of(&offers);
        }
        let shapes = [Shape::AlongCurrentCut, Shape::AcrossCurrentCut, Shape::AlongThenAcross, Shape::AcrossThenAlong];
        Offer { rotation: self.one_of(&[Rotation::Default, Rotation::Rotated]), shape: self.one_of(&shapes) }
    }

    fn opening(&mut self) -> Request {
        let (number, stages) = (1 + self.below(2) as u16, self.one_of(&[1, 2, 3, 4, 6, 254, 0, 255]));
        let (width, height) = (self.side(200), self.side(120));
        let (first_cut, blade) =
            (self.one_of(&[Way::Horizontal, Way::Vertical]), self.one_of(&[0, 0, 1, 2, 3, 4, 10, 60, 100, 101, 255]));
        Request::Open { number, width, height, first_cut, stages, blade }
    }

    fn request(&mut self, sheet: &Sheet) -> Request {
        let (free, removable) = (sheet.free_pieces().unwrap_or_default(), sheet.removable().unwrap_or_default());
        match self.below(42) {
            0 => self.opening(),
            1 | 2 => Request::Offers { piece: self.mark(&free), part: self.part(sheet) },
            3..=17 => {
                let (piece, part) = (self.mark(&free), self.part(sheet));
                Request::Insert { piece, part, offer: self.offer(sheet, piece, part) }
            }
            18..=22 => Request::Remove { piece: self.mark(&removable) },
            // of any kind
            23 => Request::Remove { piece: self.mark(&free) },
            24 => Request::Offers { piece: self.mark(&removable), part: self.part(sheet) },
            25 | 26 => Request::Keep,
            27 | 28 => Request::Restore,
            29 => Request::Report,
            30 | 31 => Request::WhyNot { piece: self.mark(&free), part: self.part(sheet) },
            32 => Request::WhyNot { piece: self.mark(&removable), part: self.part(sheet) },
            33 | 34 => Request::RoomLight { part: self.part(sheet) },
            35 => Request::FreePiece { position: self.one_of(&[0, 1, free.len() as u16, u16::MAX]) },
            36 => Request::RemovablePiece { position: self.one_of(&[0, 1, removable.len() as u16, u16::MAX]) },
            37 => Request::PartNumbers,
            38 => Request::Figures,
            39 | 40 => Request::Tidy,
            _ => self.one_of(&[Request::Snapshot, Request::Cuts, Request::EatenArea, Request::CutAmounts]),
        }
    }
}

/// How often each op was answered so: 0 where it was carried out, else the refusal's number. And how often the blade and tidying did this.
#[derive(Default)]
struct Counts {
    answers: BTreeMap<(u8, u8), usize>,
    done: BTreeMap<&'static str, usize>,
}

impl Counts {
    fn answered(&mut self, op: u8, number: u8) {
        *self.answers.entry((op, number)).or_default() += 1;
    }

    fn did(&mut self, what: &'static str) {
        *self.done.entry(what).or_default() += 1;
    }
}

/// How much of a node lies along the cut of its parent, and what of it lies across.
fn laid(node: &Node, cut: Way) -> (u32, u32) {
    match cut {
        Way::Horizontal => (node.height, node.width),
        Way::Vertical => (node.width, node.height),
    }
}

/// What is eaten on a sheet with a blade so wide: no amount is more than the blade; the top and each last child have none; the children of each node fill it with what is
/// eaten between them. The eaten area is that of all amounts, and makes the sheet with the parts and the free pieces.
fn adds_up(sheet: &Sheet, blade: u8) {
    let (Ok(nodes), Ok(figures)) = (sheet.snapshot(), sheet.figures()) else { return };
    assert!(nodes.iter().all(|node| node.eaten <= blade), "blade {blade}: {nodes:?}");
    assert_eq!(nodes[0].eaten, 0);
    let (mut eaten_area, mut eats) = (0, false);
    for (at, node) in nodes.iter().enumerate().filter(|(_, node)| node.kind == Kind::Structure) {
        let below = nodes[at + 1..].iter().take_while(|below| below.level > node.level);
        let children: Vec<&Node> = below.filter(|below| below.level == node.level + 1).collect();
        let filled: u32 = children.iter().map(|child| laid(child, node.cut).0 + u32::from(child.eaten)).sum();
        assert_eq!(filled, laid(node, node.cut).0, "{node:?}: {children:?}");
        assert_eq!(children.last().map(|child| child.eaten), Some(0), "{children:?}");
        eaten_area += children.iter().map(|child| u64::from(child.eaten) * u64::from(laid(child, node.cut).1)).sum::<u64>();
        eats |= children.iter().any(|child| child.eaten > 0);
    }
    let area = u64::from(nodes[0].width) * u64::from(nodes[0].height);
    assert_eq!(sheet.eaten_area(), Ok(eaten_area));
    assert_eq!(figures.used_area + figures.free_area + eaten_area, area);
    // a usage of exactly 1 wants that nothing was eaten
    assert!(!eats || figures.sheet_usage < 1.0, "{figures:?}");
    assert_eq!(figures.sheet_usage == 1.0, figures.free_area == 0 && eaten_area == 0, "{figures:?}");
    let full = nodes.iter().all(|node| node.kind != Kind::Free || node.width == 0 || node.height == 0) && !eats;
    assert!(!full || figures.tree_usage == 1.0, "{figures:?}");
}

/// What a removal makes of the tree: the new free piece has what was removed and what was eaten behind that, and the last free piece of its row, if there was one. It is the
/// last of its row, with nothing eaten behind it. All else is as it was. Gives what the blade did to it.
fn gives_back(before: &[Node], removed: usize, after: &[Node]) -> &'static str {
    let parent = (0..removed).rev().find(|at| before[*at].level < before[removed].level).expect("no top");
    let end = |at: usize| at + 1 + before[at + 1..].iter().take_while(|node| node.level > before[at].level).count();
    let (gone, level) = (before[removed], before[removed].level);
    let row = end(parent);
    let last = (parent + 1..row).rev().find(|at| before[*at].level == level).expect("a child");
    let merged = (before[last].kind == Kind::Free && last != removed).then_some(last);
    let mut length = laid(&gone, before[parent].cut).0 + u32::from(gone.eaten);
    length += merged.map_or(0, |last| laid(&before[last], before[parent].cut).0);
    let mut free = Node { kind: Kind::Free, eaten: 0, ..gone };
    match before[parent].cut {
        Way::Horizontal => free.height = length,
        Way::Vertical => free.width = length,
    }
    let mut right = [&before[..removed], &before[end(removed)..merged.unwrap_or(row)]].concat();
    right.push(free);
    right.extend(&before[row..]);
    assert_eq!(after, right, "{removed} of {before:?}");
    match (gone.eaten, merged) {
        (0, _) => "nothing to give back",
        (_, None) => "given back alone",
        (_, Some(_)) => "given back and merged",
    }
}

/// What is below a node, behind it in a snapshot.
fn inside(nodes: &[Node], at: usize) -> &[Node] {
    let behind = &nodes[at + 1..];
    &behind[..behind.iter().take_while(|below| below.level > nodes[at].level).count()]
}

/// Where a snapshot has the structures but the top that hold one free piece and nothing else.
fn untidy(nodes: &[Node]) -> Vec<usize> {
    let one_free = |at: &usize| matches!(inside(nodes, *at), [Node { kind: Kind::Free, .. }]);
    (1..nodes.len()).filter(|at| nodes[*at].kind == Kind::Structure).filter(one_free).collect()
}

/// The tree that tidying leaves, and how many structures go, by a rule of this test's own, which takes none out one by one: those but the top with no part
/// inside.
fn tidied(nodes: &[Node]) -> (Vec<Node>, u16) {
    let (row, gone) = tidied_row(nodes[0].cut, &nodes[1..]);
    ([&nodes[..1], &row].concat(), gone)
}

/// The same of the children of a node with this cut. A structure with no part inside goes; it gives its length, and what is eaten behind it, to the free piece
/// at the end of the row, which is there then.
fn tidied_row(cut: Way, nodes: &[Node]) -> (Vec<Node>, u16) {
    let (mut row, mut given, mut gone) = (vec![], None::<Node>, 0);
    let mut at = 0;
    while at < nodes.len() {
        let (node, inside) = (nodes[at], inside(nodes, at));
        at += 1 + inside.len();
        let structures = inside.iter().filter(|below| below.kind == Kind::Structure).count() as u16;
        let empty = node.kind == Kind::Structure && inside.iter().all(|below| below.part_number().is_none());
        if empty || node.kind == Kind::Free {
            gone += if empty { 1 + structures } else { 0 };
            let before = given.map_or(0, |given| laid(&given, cut).0);
            let length = before + laid(&node, cut).0 + u32::from(node.eaten);
            let free = Node { kind: Kind::Free, eaten: 0, ..node };
            given = Some(match cut {
                Way::Horizontal => Node { height: length, ..free },
                Way::Vertical => Node { width: length, ..free },
            });
        } else {
            let (below, taken) = tidied_row(node.cut, inside);
            row.push(node);
            row.extend(below);
            gone += taken;
        }
    }
    row.extend(given);
    (row, gone)
}

/// Takes the structures that are untidy out one by one, by the old removal, each time the one that `choose` gives the number of, until there is none. They are
/// handed to it as places. Gives how many there were.
fn one_by_one(sheet: &mut Sheet, mut choose: impl FnMut(&[u16]) -> usize) -> u16 {
    for count in 0.. {
        let (nodes, places) = (sheet.snapshot().expect("a sheet"), sheet.desk.places());
        let untidy: Vec<u16> = untidy(&nodes).into_iter().map(|at| places[at]).collect();
        if untidy.is_empty() {
            return count;
        }
        let place = untidy[choose(&untidy)];
        let mark = sheet.removable().expect("a sheet").into_iter().find(|mark| mark.place() == place).expect("a structure");
        assert_eq!(sheet.remove(mark).map(|removal| removal.parts), Ok(vec![]));
    }
    unreachable!("a sheet has an end");
}

/// Tidying of a sheet, of which a copy was made before: the tree of the rule above; on the copy the same sheet, with all its marks, if the lowest place goes
/// first; and the same tree and as many, whichever goes first. Parts stay, and so do their marks. Gives what it was.
fn tidies(before: &Desk, count: u16, sheet: &Sheet, random: &mut Random) -> &'static str {
    let copy = || Sheet { desk: before.copy() };
    let nodes = copy().snapshot().expect("a sheet");
    let after = sheet.snapshot().expect("a sheet");
    assert_eq!((after.clone(), count), tidied(&nodes), "{nodes:?}");
    assert_eq!(untidy(&after), []);
    let mut lowest = copy();
    assert_eq!(one_by_one(&mut lowest, |places| (0..places.len()).min_by_key(|at| places[*at]).expect("a place")), count);
    assert_eq!(fields(&lowest, None), fields(sheet, None));
    for _ in 0..3 {
        let mut other = copy();
        assert_eq!(one_by_one(&mut other, |places| random.below(places.len() as u64) as usize), count);
        assert_eq!(other.snapshot().as_ref(), Ok(&after));
    }
    let parts = |sheet: &Sheet, nodes: &[Node]| -> Vec<(Mark, u16)> {
        let (places, marks) = (sheet.desk.places(), sheet.removable().expect("a sheet"));
        let mark = |place| marks.iter().copied().find(|mark| mark.place() == place);
        places.into_iter().zip(nodes).filter_map(|(place, node)| Some((mark(place)?, node.part_number()?))).collect()
    };
    assert_eq!(parts(&copy(), &nodes), parts(sheet, &after));
    let (figures, figures_before) = (sheet.figures().expect("a sheet"), copy().figures().expect("a sheet"));
    assert_eq!(figures.used_area, figures_before.used_area);
    match (count, untidy(&nodes).len()) {
        (0, _) => "tidy already",
        (count, at_first) if usize::from(count) > at_first => "tidied, and one came after another",
        _ if figures.free_area > figures_before.free_area => "tidied, and what was eaten came back",
        _ => "tidied",
    }
}

/// A random session: each typed call answers the bytes that its frame is answered with, and what is behind it are the fields of `inspect`.
fn random_session(seed: u64, calls: usize, counts: &mut Counts) {
    let mut caller = Caller { random: Random(seed), seen: vec![] };
    let (mut session, mut raw) = (Session::new(), Desk::new());
    let (mut frames, mut lines) = (vec![], vec![]);
    let (mut blade, mut kept) = (0, 0);
    for _ in 0..calls {
        let request = caller.request(&session.sheet);
        let (before, desk_before) = (session.sheet.snapshot(), session.sheet.desk.copy());
        // where the snapshot has what is to be removed
        let places = session.sheet.desk.places();
        let asked = |piece: Mark| places.iter().position(|place| *place == piece.place());
        let frame = request.line();
        // the tests' own reading of the frame
        assert_eq!(request_of(frame.as_bytes()), Some(request));
        let (answer, part) = session.turn(frame.as_bytes());
        assert_eq!(answer, raw.answer(&frame), "{request:?}");
        let read = Answer::read(&answer);
        counts.answered(request.op(), read.as_ref().map_or_else(|refusal| refusal.number(), |_| 0));
        match (request, read) {
            (Request::Open { blade: opened, .. }, Ok(Answer::Opened(mark))) => {
                caller.seen.push(mark);
                blade = opened;
            }
            // the width is kept, and comes back
            (_, Ok(Answer::Kept)) => kept = blade,
            (_, Ok(Answer::Restored)) => {
                counts.did(if blade == kept { "restored" } else { "another width restored" });
                blade = kept;
            }
            (_, Ok(Answer::Booked(booking))) => {
                caller.seen.extend([booking.first, booking.part].iter().chain(&booking.free));
                // and so does what was eaten, if the first node made is taken out
                let mut copy = Sheet { desk: session.sheet.desk.copy() };
                copy.remove(booking.first).expect("it is there");
                assert_eq!(copy.snapshot(), before, "{request:?}");
                // and if the part is, and the sheet tidied: then it is as tidy as it would have been before, and the same if it was tidy
                let mut copy = Sheet { desk: session.sheet.desk.copy() };
                copy.remove(booking.part).expect("it is there");
                copy.tidy().expect("there are serials");
                let before = before.expect("a sheet");
                assert_eq!(copy.snapshot(), Ok(tidied(&before).0), "{request:?}");
                assert!(!untidy(&before).is_empty() || tidied(&before) == (before, 0));
                counts.did("booked, removed and tidied");
            }
            (_, Ok(Answer::Tidied(count))) => counts.did(tidies(&desk_before, count, &session.sheet, &mut caller.random)),
            (Request::Remove { piece }, Ok(Answer::Removed(removal))) => {
                caller.seen.push(removal.free);
                let after = session.sheet.snapshot().expect("a sheet");
                counts.did(gives_back(&before.expect("a sheet"), asked(piece).expect("it was there"), &after));
                // and tidied, on a copy
                let mut copy = Sheet { desk: session.sheet.desk.copy() };
                let count = copy.tidy().expect("there are serials");
                counts.did(tidies(&session.sheet.desk, count, &copy, &mut caller.random));
            }
            // a reason is "offered" exactly where there is an offer in that rotation
            (Request::WhyNot { piece, part }, Ok(Answer::Reasons(reasons))) => {
                let offers = session.sheet.offers(piece, part).expect("the piece is there");
                for rotation in [Rotation::Default, Rotation::Rotated] {
                    let offered = offers.iter().any(|offer| offer.rotation == rotation);
                    assert_eq!(reasons.of(rotation) == crate::Reason::Offered, offered, "{request:?}");
                }
            }
            _ => (),
        }
        adds_up(&session.sheet, blade);
        for cut in session.sheet.cuts().unwrap_or_default() {
            counts.did(if cut.eaten == 0 { "a cut that loses nothing" } else { "a cut that loses something" });
        }
        let all = |nodes: Vec<Node>| nodes.windows(2).any(|pair| pair[0].eaten > 0 && pair[1].width.min(pair[1].height) == 0);
        if session.sheet.snapshot().is_ok_and(all) {
            counts.did("all that was left is eaten");
        }
        // `inspect` knows the counter's frames, and tidying
        if request.op() <= 7 || request == Request::Tidy {
            lines.push(format!("{answer} {}", fields(&session.sheet, part).join(" ")));
            frames.push(frame);
        }
    }
    compare(&frames, &lines);
}

#[test]
fn random_sessions_by_frames_and_by_inspect() {
    let mut counts = Counts::default();
    for seed in 0..40 {
        random_session(seed, 200, &mut counts);
    }
    // each op, with each refusal that a few calls can reach
    let mut wanted: Vec<(u8, u8)> = (1..=7).chain(0x11..=0x1b).map(|op| (op, 0)).collect();
    wanted.extend([(1, 2), (6, 1), (6, 4), (0x12, 3), (0x13, 12), (0x14, 12)]);
    wanted.extend([2, 3, 0x11].into_iter().flat_map(|op| [3, 4, 5, 6].map(|number| (op, number))));
    wanted.extend([4, 5, 10, 11].map(|number| (4, number)));
    wanted.push((3, 7));
    let missing: Vec<_> = wanted.into_iter().filter(|outcome| !counts.answers.contains_key(outcome)).collect();
    assert_eq!(missing, [], "{:?}", counts.answers);
    for what in [
        "a cut that loses nothing",
        "a cut that loses something",
        "all that was left is eaten",
        "nothing to give back",
        "given back alone",
        "given back and merged",
        "restored",
        "another width restored",
        "tidy already",
        "tidied",
        "tidied, and one came after another",
        "tidied, and what was eaten came back",
        "booked, removed and tidied",
    ] {
        assert!(counts.done.get(what).is_some_and(|times| *times >= 5), "{what}: {:?}", counts.done);
    }
}
