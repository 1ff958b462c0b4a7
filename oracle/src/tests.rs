//! What document 01 prints and states, asked of the Rust: its whole session, its table a to k, its rules for marks and refusals. And lists of
//! saw cuts (document 02, change request 3), by hand.

mod blade;
mod tidy;

use crate::core::orientation::Orientation::{Horizontal, Vertical};
use crate::frame::{self, hexadecimal, Mark, Offer, Opening, Part, Request};
use crate::inspect;
use crate::saw::{self, Cut, Rectangle, SEVERAL};
use crate::session::{bytes_of, Session};
use crate::tree::{FREE_PIECE, PART, STRUCTURE};

const ALONG: Offer = Offer { rotation: 0, shape: 1 };
const ACROSS: Offer = Offer { rotation: 0, shape: 2 };
const ALONG_THEN_ACROSS: Offer = Offer { rotation: 0, shape: 3 };
const ACROSS_THEN_ALONG: Offer = Offer { rotation: 0, shape: 4 };
const SHEET: Opening = Opening { layout: 1, width: 100, height: 60, cut: Vertical, stages: 3, blade: 0 };
const FREE: Mark = Mark { layout: 1, place: 1, serial: 2 };
const TOP: Mark = Mark { layout: 1, place: 0, serial: 1 };

/// What the light says where there is no room: no, and a mark of zeros.
const DARK: &str = "000000000000000000";

/// A session whose lines are looked at field by field, as `inspect` prints them.
struct Counter(Session);

/// The fields of a line, in the order of `inspect::FIELDS`.
struct Line(Vec<String>);

impl Line {
    fn answer(&self) -> &str {
        &self.0[0]
    }

    fn snapshot(&self) -> &str {
        &self.0[1]
    }

    fn free_list(&self) -> &str {
        &self.0[2]
    }

    fn removable_list(&self) -> &str {
        &self.0[3]
    }

    fn figures(&self) -> &str {
        &self.0[4]
    }

    fn light(&self) -> &str {
        &self.0[6]
    }

    fn cuts(&self) -> &str {
        &self.0[7]
    }

    fn amounts(&self) -> &str {
        &self.0[8]
    }
}

impl Counter {
    fn with(opening: Opening) -> Self {
        let mut counter = Counter(Session::default());
        counter.open(opening);
        counter
    }

    /// Document 01's sheet: 100 x 60, first cut Vertical.
    fn with_stages(stages: u8) -> Self {
        Counter::with(Opening { stages, ..SHEET })
    }

    fn open(&mut self, opening: Opening) {
        let line = self.send(Request::Open(opening));
        assert_eq!(line.answer(), success(1, &bytes_of(&[FREE])));
    }

    fn send_line(&mut self, line: &str) -> Line {
        let reply = self.0.answer(line.as_bytes());
        let fields: Vec<String> = inspect::line(&self.0, &reply).split(' ').map(str::to_string).collect();
        assert_eq!(fields.len(), inspect::FIELDS.len());
        Line(fields)
    }

    fn light(&mut self, part: Part) -> String {
        self.send(Request::Offers { mark: FREE, part }).light().to_string()
    }

    fn send(&mut self, request: Request) -> Line {
        self.send_line(&frame::line(request.bytes()))
    }

    fn insert(&mut self, mark: Mark, part: Part, offer: Offer) -> Line {
        self.send(Request::Insert { mark, part, offer })
    }

    fn remove(&mut self, mark: Mark) -> Line {
        self.send(Request::Remove { mark })
    }

    /// Asks what the opening's free piece offers.
    fn assert_offers(&mut self, part: Part, expected: &[Offer]) {
        let mut given = vec![expected.len() as u8];
        given.extend(expected.iter().flat_map(|offer| [offer.rotation, offer.shape]));
        let line = self.send(Request::Offers { mark: FREE, part });
        assert_eq!(line.answer(), success(2, &given), "{part:?}");
    }
}

/// Part 7 in its Default rotation alone.
fn part(width: u32, height: u32) -> Part {
    Part { number: 7, width, height, turn: 1 }
}

fn mark(place: u8, serial: u32) -> Mark {
    Mark { layout: 1, place, serial }
}

fn marks(marks: &[Mark]) -> String {
    hexadecimal(&bytes_of(marks))
}

/// What the light says where it names a piece.
fn lit(named: Mark) -> String {
    format!("0001{}", marks(&[named]))
}

fn success(op: u8, given: &[u8]) -> String {
    frame::answer(op, &Ok(given.to_vec()))
}

fn refused(op: u8, number: u8) -> String {
    frame::answer(op, &Err(number))
}

/// One node of a tree snapshot, with nothing eaten behind it: level, kind, cut, part number, width, height.
fn node(level: u8, kind: u8, cut: u8, number: u16, width: u32, height: u32) -> String {
    format!("{level:02x}{kind:02x}{cut:02x}{number:04x}{width:08x}{height:08x}00")
}

/// One saw cut: place, way (0 Horizontal, 1 Vertical), distance, kinds of what is cut off and of what is left.
fn cut(place: u16, way: u8, distance: u32, piece: u8, left: u8) -> String {
    format!("{place:04x}{way:02x}{distance:08x}{piece:02x}{left:02x}")
}

#[test]
fn document_01_session() {
    let session = [
        ("010001000000640000003c0103005a", "010000010100000002fb"),
        ("03000101000000020007000000280000003c0000018d", "030000010100000003000101000000030100010200000004eb"),
        ("03000101000000020007000000280000003c0000018d", "0305f8"),
    ];
    let mut counter = Counter(Session::default());
    for (frame, answer) in session {
        assert_eq!(counter.send_line(frame).answer(), answer);
    }
}

#[test]
fn table_a_along() {
    let mut counter = Counter::with_stages(3);
    counter.assert_offers(part(40, 60), &[ALONG]);
    let line = counter.insert(FREE, part(40, 60), ALONG);
    assert_eq!(line.removable_list(), marks(&[mark(1, 3), TOP]));
}

#[test]
fn table_b_c_d_two_steps_by_stages() {
    Counter::with_stages(3).assert_offers(part(40, 30), &[ALONG_THEN_ACROSS, ACROSS_THEN_ALONG]);
    Counter::with_stages(2).assert_offers(part(40, 30), &[ALONG_THEN_ACROSS]);
    Counter::with_stages(1).assert_offers(part(40, 30), &[]);
}

#[test]
fn table_e_f_across_by_stages() {
    Counter::with_stages(2).assert_offers(part(100, 20), &[ACROSS]);
    Counter::with_stages(1).assert_offers(part(100, 20), &[]);
}

#[test]
fn table_g_exact_fit() {
    let mut counter = Counter::with_stages(3);
    let line = counter.insert(FREE, part(100, 60), ALONG);
    let tree = [node(0, 2, 1, 0, 100, 60), node(1, 1, 0, 7, 100, 60), node(1, 0, 0, 0, 0, 60)];
    assert_eq!(line.snapshot(), tree.concat());
    let one = 1.0_f64.to_bits();
    assert_eq!(line.figures(), format!("{:016x}{:016x}{one:016x}{one:016x}{:016x}", 6000, 0, 0));
}

#[test]
fn table_h_too_wide() {
    Counter::with_stages(3).assert_offers(part(101, 60), &[]);
}

#[test]
fn table_i_removable_list() {
    let mut counter = Counter::with_stages(3);
    let line = counter.insert(FREE, part(40, 30), ALONG_THEN_ACROSS);
    let (structure, part) = (mark(1, 3), mark(2, 4));
    assert_eq!(line.removable_list(), marks(&[TOP, part, structure]));
}

#[test]
fn table_j_removal_gives_the_opening_tree() {
    let mut counter = Counter::with_stages(3);
    counter.insert(FREE, part(40, 60), ALONG);
    let line = counter.remove(mark(1, 3));
    assert_eq!(line.snapshot(), [node(0, 2, 1, 0, 100, 60), node(1, 0, 0, 0, 100, 60)].concat());
    assert_eq!(line.answer(), success(4, &[bytes_of(&[mark(1, 5)]), vec![1, 0, 7]].concat()));
}

#[test]
fn table_k_structure_stays() {
    let mut counter = Counter::with_stages(2);
    counter.insert(FREE, part(100, 20), ACROSS);
    let line = counter.remove(mark(2, 4));
    let tree = [node(0, 2, 1, 0, 100, 60), node(1, 2, 0, 0, 100, 60), node(2, 0, 1, 0, 100, 60)];
    assert_eq!(line.snapshot(), tree.concat());
}

#[test]
fn new_nodes_take_the_lowest_places_in_the_tables_order() {
    let mut counter = Counter::with_stages(3);
    let line = counter.insert(FREE, part(40, 30), ACROSS_THEN_ALONG);
    let (structure, part, inner, rest) = (mark(1, 3), mark(3, 5), mark(4, 6), mark(5, 7));
    assert_eq!(line.answer(), success(3, &[bytes_of(&[structure, part]), vec![2], bytes_of(&[inner, rest])].concat()));
    assert_eq!(line.free_list(), marks(&[rest, inner]));
    let line = counter.remove(part);
    assert_eq!(line.answer(), success(4, &[bytes_of(&[mark(3, 8)]), vec![1, 0, 7]].concat()));
}

#[test]
fn a_restore_keeps_the_greater_serial() {
    let mut counter = Counter::with_stages(3);
    counter.send(Request::Keep);
    counter.insert(FREE, part(40, 60), ALONG);
    assert_eq!(counter.send(Request::Restore).answer(), success(6, &[]));
    assert_eq!(counter.remove(mark(1, 3)).answer(), refused(4, 5));
    let line = counter.insert(FREE, part(40, 60), ALONG);
    assert_eq!(line.free_list(), marks(&[mark(2, 6)]));
}

#[test]
fn refusals_in_order() {
    let mut counter = Counter::with_stages(3);
    let (gone, elsewhere) = (mark(9, 9), Mark { layout: 2, ..mark(9, 9) });
    assert_eq!(counter.insert(elsewhere, part(0, 1), ACROSS).answer(), refused(3, 3));
    assert_eq!(counter.insert(elsewhere, part(1, 1), ACROSS).answer(), refused(3, 4));
    assert_eq!(counter.insert(gone, part(1, 1), ACROSS).answer(), refused(3, 5));
    assert_eq!(counter.insert(mark(255, 0), part(1, 1), ACROSS).answer(), refused(3, 5));
    assert_eq!(counter.insert(TOP, part(1, 1), ACROSS).answer(), refused(3, 6));
    assert_eq!(counter.insert(FREE, part(1, 1), ACROSS).answer(), refused(3, 7));
    assert_eq!(counter.remove(elsewhere).answer(), refused(4, 4));
    assert_eq!(counter.remove(gone).answer(), refused(4, 5));
    assert_eq!(counter.remove(TOP).answer(), refused(4, 10));
    assert_eq!(counter.remove(FREE).answer(), refused(4, 11));
}

#[test]
fn nothing_is_sound_before_an_opening() {
    let mut counter = Counter(Session::default());
    let refused_opening = Opening { layout: 1, width: 67_108_864, height: 1, cut: Horizontal, stages: 1, blade: 0 };
    assert_eq!(counter.send(Request::Open(refused_opening)).answer(), refused(1, 2));
    for request in [Request::Keep, Request::Restore, Request::Report, Request::Remove { mark: FREE }] {
        assert_eq!(counter.send(request).answer(), refused(request.op(), 1));
    }
    let line = counter.insert(FREE, part(0, 0), ALONG);
    assert_eq!(line.0, [refused(3, 1).as_str(), "-", "-", "-", "-", "-", "01", "-", "-"]);
}

#[test]
fn the_light_looks_at_rotations_and_sides() {
    let mut counter = Counter::with_stages(3);
    assert_eq!(counter.light(part(100, 60)), lit(FREE));
    assert_eq!(counter.light(part(60, 100)), DARK);
    assert_eq!(counter.light(Part { turn: 0, ..part(60, 100) }), lit(FREE));
    assert_eq!(counter.light(Part { turn: 2, ..part(100, 60) }), DARK);
    assert_eq!(counter.light(part(100, 0)), "03");
}

#[test]
fn the_light_looks_at_every_free_piece() {
    let mut counter = Counter::with_stages(3);
    let line = counter.insert(FREE, part(40, 50), ACROSS_THEN_ALONG);
    let (rest, strip) = (mark(4, 6), mark(5, 7));
    assert_eq!(line.free_list(), marks(&[rest, strip]));
    assert_eq!(counter.light(part(95, 10)), lit(strip));
    // it fits into the greater piece, which has no stage left for it
    assert_eq!(counter.light(part(60, 10)), lit(strip));
    assert_eq!(counter.light(part(30, 50)), lit(rest));
    assert_eq!(counter.light(part(95, 11)), DARK);
    assert_eq!(counter.light(Part { turn: 2, ..part(10, 95) }), lit(strip));
}

#[test]
fn the_light_looks_at_the_stages() {
    assert_eq!(Counter::with_stages(1).light(part(40, 30)), DARK);
    assert_eq!(Counter::with_stages(1).light(part(40, 60)), lit(FREE));
    assert_eq!(Counter::with_stages(2).light(part(40, 30)), lit(FREE));
}

#[test]
fn saw_cuts_of_table_b() {
    let mut counter = Counter::with_stages(3);
    assert_eq!(counter.send(Request::Keep).cuts(), "-");
    let line = counter.insert(FREE, part(40, 30), ACROSS_THEN_ALONG);
    assert_eq!(line.cuts(), cut(0, 0, 30, STRUCTURE, FREE_PIECE) + &cut(0, 1, 40, PART, FREE_PIECE));
    assert_eq!(line.cuts(), concat!("0000000000001e0200", "000001000000280100"));
}

#[test]
fn saw_cuts_of_table_i_and_behind_it() {
    let mut counter = Counter::with_stages(3);
    let line = counter.insert(FREE, part(40, 30), ALONG_THEN_ACROSS);
    let inside = cut(0, 0, 30, PART, FREE_PIECE);
    assert_eq!(line.cuts(), cut(0, 1, 40, STRUCTURE, FREE_PIECE) + &inside);
    let line = counter.insert(mark(4, 6), part(20, 60), ALONG);
    assert_eq!(line.cuts(), cut(0, 1, 40, STRUCTURE, SEVERAL) + &inside + &cut(2, 1, 20, PART, FREE_PIECE));
}

#[test]
fn saw_cuts_of_table_k() {
    let mut counter = Counter::with_stages(2);
    assert_eq!(counter.insert(FREE, part(100, 20), ACROSS).cuts(), cut(0, 0, 20, PART, FREE_PIECE));
    assert_eq!(counter.remove(mark(2, 4)).cuts(), "-");
}

#[test]
fn saw_cuts_leave_an_empty_offcut_out() {
    let mut counter = Counter::with_stages(1);
    assert_eq!(counter.insert(FREE, part(40, 60), ALONG).cuts(), cut(0, 1, 40, PART, FREE_PIECE));
    let line = counter.insert(mark(2, 4), part(50, 60), ALONG);
    assert_eq!(line.cuts(), cut(0, 1, 40, PART, SEVERAL) + &cut(1, 1, 50, PART, FREE_PIECE));
    let line = counter.insert(mark(3, 6), part(10, 60), ALONG);
    assert_eq!(line.free_list(), marks(&[mark(4, 8)]));
    assert_eq!(line.cuts(), cut(0, 1, 40, PART, SEVERAL) + &cut(1, 1, 50, PART, PART));
    assert_eq!(Counter::with_stages(1).insert(FREE, part(100, 60), ALONG).cuts(), "-");
}

#[test]
fn the_saw_stops_at_what_it_cannot_cut() {
    let sheet = Rectangle { width: 100, height: 60 };
    let cut = Cut { place: 0, way: Vertical, distance: 40, piece: PART, left: FREE_PIECE, amount: 0 };
    let (left, right) = (Rectangle { width: 40, ..sheet }, Rectangle { width: 60, ..sheet });
    assert_eq!(saw::saw(sheet, &[]), Ok(vec![sheet]));
    assert_eq!(saw::saw(sheet, &[cut]), Ok(vec![left, right]));
    assert_eq!(saw::saw(sheet, &[cut, cut]), Ok(vec![left, right]));
    for wrong in [Cut { place: 1, ..cut }, Cut { distance: 0, ..cut }, Cut { distance: 101, ..cut }] {
        assert!(saw::saw(sheet, &[wrong]).is_err(), "{wrong:?}");
    }
    let below = Cut { place: 1, way: Horizontal, distance: 60, ..cut };
    assert_eq!(saw::saw(sheet, &[cut, below]), Ok(vec![left, right]));
    assert!(saw::saw(sheet, &[cut, Cut { distance: 61, ..below }]).is_err());
}

#[test]
fn malformed_lines() {
    let mut counter = Counter::with_stages(3);
    let long = "0".repeat(65);
    let lines = ["", "0", "05", "05fc", "05FB", "05fb\r", "05fb00", "0800f8", "00", "01000100000064000000 3c0103005a", &long];
    for line in lines {
        assert_eq!(counter.send_line(line).answer(), "ff0ef3", "{line:?}");
    }
    assert_eq!(counter.send_line("05fb").answer(), "0500fb");
}

#[test]
fn a_frame_reads_back() {
    let offer = Offer { rotation: 1, shape: 4 };
    let part = Part { number: 65_535, width: u32::MAX, height: 0, turn: 2 };
    let mark = Mark { layout: 513, place: 255, serial: u32::MAX };
    let requests = [
        Request::Open(Opening { layout: 513, width: 1, height: 67_108_863, cut: Horizontal, stages: 255, blade: 254 }),
        Request::Offers { mark, part },
        Request::Insert { mark, part, offer },
        Request::Remove { mark },
        Request::Keep,
        Request::Restore,
        Request::Report,
        Request::Tidy,
    ];
    for request in requests {
        assert_eq!(Request::read(frame::line(request.bytes()).as_bytes()), Some(request));
    }
}
