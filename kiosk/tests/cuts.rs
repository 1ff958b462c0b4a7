//! The list of saw cuts (document 02, change requests 3 and 4): on document 01's sheet by hand, and run by a simple saw on every state of the recorded sessions.

mod common;

use std::thread;

use common::{counters_lines_of, insert, line, lines_of, mark, numbers, opened, opened_by, part, remove};
use common::{KEEP, OPEN, OPEN_WITH_BLADE, REPORT, RESTORE};
use nickelgrove_kiosk::{Counter, Cut, Piece, Way};

fn vertical(place: u16, distance: u32, piece: Piece, left: Piece) -> Cut {
    Cut { place, way: Way::Vertical, distance, piece, left, eaten: 0 }
}

fn horizontal(place: u16, distance: u32, piece: Piece, left: Piece) -> Cut {
    Cut { place, way: Way::Horizontal, distance, piece, left, eaten: 0 }
}

/// The same cut, with which the blade eats so much.
fn eats(cut: Cut, eaten: u8) -> Cut {
    Cut { eaten, ..cut }
}

#[test]
fn nothing_is_cut_before_an_opening() {
    let mut counter = Counter::new();
    assert_eq!(counter.cuts(), None);
    assert_eq!(numbers(counter.answer(line(&[1, 0, 1, 0, 0, 0, 0, 0, 0, 0, 60, 1, 3, 0])))[..2], [1, 2]);
    assert_eq!(counter.cuts(), None);
    counter.answer(OPEN);
    assert_eq!(counter.cuts(), Some(vec![]));
}

/// A part in the opening sheet, by each shape: the pieces in a structure are cut the other way, and one that is alone on its board needs no cut.
#[test]
fn a_part_by_each_shape() {
    use Piece::{Free, Part, Structure};
    let shapes = [
        (part(40, 60), 1, vec![vertical(0, 40, Part, Free)]),
        (part(100, 20), 2, vec![horizontal(0, 20, Part, Free)]),
        (part(40, 30), 3, vec![vertical(0, 40, Structure, Free), horizontal(0, 30, Part, Free)]),
        (part(40, 30), 4, vec![horizontal(0, 30, Structure, Free), vertical(0, 40, Part, Free)]),
        // the offcut is 0 x 60
        (part(100, 60), 1, vec![]),
    ];
    for (part, shape, cuts) in shapes {
        let (mut counter, free) = opened();
        assert_eq!(numbers(counter.answer(insert(&free, &part, shape)))[..2], [3, 0]);
        assert_eq!(counter.cuts(), Some(cuts), "shape {shape}");
    }
}

/// The first free piece that a booking leaves.
fn booked(counter: &mut Counter, free: &[u8], part: &[u8], shape: u8) -> Vec<u8> {
    let answer = numbers(counter.answer(insert(free, part, shape)));
    assert_eq!(answer[..2], [3, 0]);
    answer[17..24].to_vec()
}

#[test]
fn several_siblings_and_what_they_leave() {
    use Piece::{Free, Part, Several, Structure};
    let (mut counter, free) = opened();
    let rest = booked(&mut counter, &free, &part(40, 60), 1);
    assert_eq!(counter.answer(KEEP), line(&[5, 0]));
    let (one, two) = (vertical(0, 40, Part, Several), vertical(1, 30, Part, Free));

    let last = booked(&mut counter, &rest, &part(30, 60), 1);
    assert_eq!(counter.cuts(), Some(vec![one, two]));
    // the offcut behind the last part is 0 x 60, and the part is no longer one of several
    booked(&mut counter, &last, &part(30, 60), 1);
    assert_eq!(counter.cuts(), Some(vec![one, vertical(1, 30, Part, Part)]));

    // what is cut of a piece comes before what is behind it in the pile
    assert_eq!(counter.answer(RESTORE), line(&[6, 0]));
    assert_eq!(counter.cuts(), Some(vec![vertical(0, 40, Part, Free)]));
    booked(&mut counter, &rest, &part(30, 20), 3);
    let cuts = vec![one, vertical(1, 30, Structure, Free), horizontal(1, 20, Part, Free)];
    assert_eq!(counter.cuts(), Some(cuts));

    assert_eq!(counter.answer(RESTORE), line(&[6, 0]));
    booked(&mut counter, &rest, &part(60, 20), 2);
    assert_eq!(counter.cuts(), Some(vec![vertical(0, 40, Part, Structure), horizontal(1, 20, Part, Free)]));
}

/// The same with a blade that is 3 wide: what a cut loses is no more than lies behind the piece, an exact fit loses nothing, and a cut that leaves nothing is there,
/// where it loses something.
#[test]
fn a_part_by_each_shape_with_a_blade() {
    use Piece::{Free, Part, Structure};
    let shapes = [
        (part(40, 60), 1, vec![eats(vertical(0, 40, Part, Free), 3)]),
        (part(100, 20), 2, vec![eats(horizontal(0, 20, Part, Free), 3)]),
        (part(40, 30), 3, vec![eats(vertical(0, 40, Structure, Free), 3), eats(horizontal(0, 30, Part, Free), 3)]),
        (part(40, 30), 4, vec![eats(horizontal(0, 30, Structure, Free), 3), eats(vertical(0, 40, Part, Free), 3)]),
        (part(97, 60), 1, vec![eats(vertical(0, 97, Part, Free), 3)]),
        (part(98, 60), 1, vec![eats(vertical(0, 98, Part, Free), 2)]),
        (part(98, 59), 3, vec![eats(vertical(0, 98, Structure, Free), 2), eats(horizontal(0, 59, Part, Free), 1)]),
        (part(98, 59), 4, vec![eats(horizontal(0, 59, Structure, Free), 1), eats(vertical(0, 98, Part, Free), 2)]),
        (part(100, 60), 1, vec![]),
    ];
    for (part, shape, cuts) in shapes {
        let (mut counter, free) = opened_by(OPEN_WITH_BLADE);
        assert_eq!(numbers(counter.answer(insert(&free, &part, shape)))[..2], [3, 0]);
        assert_eq!(counter.cuts(), Some(cuts), "shape {shape}");
    }
}

/// A part and what is eaten behind it are cut again, as several siblings are; and a cut that leaves nothing puts one piece into the pile, so that what comes behind it
/// lies one place before where it would lie else.
#[test]
fn a_cut_that_leaves_nothing() {
    use Piece::{Free, Part, Several, Structure};
    let (mut counter, free) = opened_by(OPEN_WITH_BLADE);
    let rest = booked(&mut counter, &free, &part(40, 60), 1);
    let one = eats(vertical(0, 40, Part, Several), 3);
    booked(&mut counter, &rest, &part(55, 60), 1);
    assert_eq!(counter.cuts(), Some(vec![one, eats(vertical(1, 55, Part, Free), 2)]));

    // in the first strip of 40 x 60 lies 40 x 58, and nothing below it; so the second one has place 1
    let (mut counter, free) = opened_by(OPEN_WITH_BLADE);
    let answer = numbers(counter.answer(insert(&free, &part(40, 58), 3)));
    booked(&mut counter, &answer[24..31], &part(57, 20), 2);
    let cuts = vec![
        eats(vertical(0, 40, Structure, Structure), 3),
        eats(horizontal(0, 58, Part, Free), 2),
        eats(horizontal(1, 20, Part, Free), 3),
    ];
    assert_eq!(counter.cuts(), Some(cuts));
}

/// Document 01's case k: the part is out again, and a structure stays with one free piece in it.
#[test]
fn a_structure_with_one_piece_needs_no_cut() {
    let (mut counter, free) = opened();
    assert_eq!(numbers(counter.answer(insert(&free, &part(100, 20), 2)))[..2], [3, 0]);
    assert_eq!(numbers(counter.answer(remove(&mark(2, 4))))[..2], [4, 0]);
    assert_eq!(counter.cuts(), Some(vec![]));
}

/// A rectangle of the pile, and what it was said to be when it was cut; nothing was said of the sheet.
#[derive(Clone, Copy)]
struct Board {
    width: u32,
    height: u32,
    said: Option<Piece>,
}

impl Board {
    fn area(self) -> u64 {
        u64::from(self.width) * u64::from(self.height)
    }
}

/// The simple saw: the pile that these cuts make of the full sheet, and the area that they lose. Each cuts a piece that is there and not done, within its edges, and
/// puts what it cuts off there, and behind it what the blade leaves, if it leaves something.
fn saw(cuts: &[Cut], width: u32, height: u32) -> (Vec<Board>, u64) {
    let (mut pile, mut lost) = (vec![Board { width, height, said: None }], 0);
    for cut in cuts {
        let place = usize::from(cut.place);
        let board = *pile.get(place).expect("a piece that is there");
        assert!(!matches!(board.said, Some(Piece::Free | Piece::Part)), "a piece that is done: {cut:?}");
        let (mut piece, mut left) = (board, board);
        let (side, breadth, one, other) = match cut.way {
            Way::Horizontal => (board.height, board.width, &mut piece.height, &mut left.height),
            Way::Vertical => (board.width, board.height, &mut piece.width, &mut left.width),
        };
        assert!(0 < cut.distance && cut.distance < side, "{cut:?} of {side}");
        let rest = (side - cut.distance).checked_sub(cut.eaten.into()).expect("no more is lost than there is");
        (*one, *other) = (cut.distance, rest);
        (piece.said, left.said) = (Some(cut.piece), Some(cut.left));
        lost += u64::from(cut.eaten) * u64::from(breadth);
        if rest > 0 {
            pile.splice(place..=place, [piece, left]);
        } else {
            assert_eq!(cut.left, Piece::Free, "{cut:?} leaves nothing");
            pile[place] = piece;
        }
    }
    assert!(pile.iter().all(|board| board.said != Some(Piece::Several)), "several siblings are cut");
    (pile, lost)
}

/// The nodes of a tree snapshot: kind, width and height of each.
fn nodes_of(snapshot: &str) -> Vec<(u8, u32, u32)> {
    let four = |bytes: &[u8]| u32::from_be_bytes(bytes.try_into().expect("four bytes"));
    numbers(snapshot).chunks(14).map(|node| (node[1], four(&node[5..9]), four(&node[9..13]))).collect()
}

/// On each state of the short sessions: the pile is the parts and the free pieces with area of the tree snapshot, in its order.
#[test]
fn the_saw_makes_what_the_snapshot_shows() {
    let (frames, answers) = (counters_lines_of("recorded/sessions.in"), lines_of("recorded/sessions.out"));
    assert!((5_000..=answers.len()).contains(&frames.len()));
    let (mut counter, mut cut) = (Counter::new(), 0);
    for (place, (frame, answer)) in frames.iter().zip(answers).enumerate() {
        counter.answer(frame);
        let answer = String::from_utf8(answer).expect("hexadecimal");
        let snapshot = answer.split(' ').nth(1).expect("a snapshot");
        if snapshot == "-" {
            assert_eq!(counter.cuts(), None, "line {}", place + 1);
            continue;
        }
        let nodes = nodes_of(snapshot);
        let (_, width, height) = nodes[0];
        let cuts = counter.cuts().expect("a sheet is opened");
        let (pile, _) = saw(&cuts, width, height);
        let pieces: Vec<_> = nodes.into_iter().filter(|(kind, w, h)| *kind == 1 || *kind == 0 && *w > 0 && *h > 0).collect();
        let sides: Vec<_> = pile.iter().map(|board| (board.width, board.height)).collect();
        assert_eq!(sides, pieces.iter().map(|(_, w, h)| (*w, *h)).collect::<Vec<_>>(), "line {}", place + 1);
        // what was said to be a part or a free piece is one
        for (board, (kind, ..)) in pile.iter().zip(pieces) {
            match board.said {
                Some(Piece::Free) => assert_eq!(kind, 0, "line {}", place + 1),
                Some(Piece::Part) => assert_eq!(kind, 1, "line {}", place + 1),
                _ => (),
            }
        }
        cut += cuts.len();
    }
    assert!(cut > frames.len(), "{cut} cuts");
}

/// On each state of the long sessions, the deepest trees and the longest rows among them: the pile's areas and what is lost add up to the sheet, and there are no more
/// pieces than nodes. On a quarter of the stack that a thread has by default.
#[test]
fn the_saw_on_long_sessions() {
    let thread = thread::Builder::new().stack_size(512 << 10).spawn(|| {
        let (mut counter, mut most) = (Counter::new(), 0);
        let (mut sheet, mut kept) = (None, None);
        for frame in lines_of("recorded/long.in") {
            match numbers(counter.answer(&frame))[..2] {
                [1, 0] => {
                    let frame = numbers(std::str::from_utf8(&frame).expect("a frame"));
                    let four = |place: usize| u32::from_be_bytes(frame[place..place + 4].try_into().expect("four bytes"));
                    sheet = Some((four(3), four(7)));
                }
                [5, 0] => kept = sheet,
                [6, 0] => sheet = kept,
                _ => (),
            }
            let cuts = counter.cuts();
            assert_eq!(cuts.is_some(), sheet.is_some());
            let (Some(cuts), Some((width, height))) = (cuts, sheet) else { continue };
            let (pile, lost) = saw(&cuts, width, height);
            assert!(pile.len() <= cuts.len() + 1);
            assert_eq!(pile.iter().map(|board| board.area()).sum::<u64>() + lost, u64::from(width) * u64::from(height));
            assert!(pile.len() < usize::from(numbers(counter.answer(REPORT))[10]));
            most = most.max(cuts.len());
        }
        assert!(most > 250, "{most} cuts");
    });
    thread.expect("a thread").join().expect("every list was right");
}
