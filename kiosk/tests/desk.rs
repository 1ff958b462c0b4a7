//! The desk: the counter's answers to the counter's lines, and whatever else it is handed.

mod common;

use common::typed::{request_of, said, MALFORMED};
use common::{counters_lines_of, line, lines_of, mark, numbers, part, Random, OPEN, TIDY};
use nickelgrove_kiosk::{Answer, Counter, Desk, Mark, Offer, Part, Refusal, Request, Rotation, Shape, Sheet, Turn, Way};

/// A line of one of the desk's own ops, however malformed.
fn is_the_desks(line: &[u8]) -> bool {
    matches!(line, [b'1', b'1'..=b'9' | b'a' | b'b', ..])
}

#[test]
fn the_counters_lines_at_the_desk() {
    let (mut desk, mut counter) = (Desk::new(), Counter::default());
    for file in ["recorded/sessions.in", "recorded/long.in", "crates/counter/stdin"] {
        for frame in counters_lines_of(file) {
            let answer = counter.answer(&frame).to_string();
            assert_eq!(desk.answer(&frame), answer);
            assert_eq!(said(numbers(&answer)[0], &Answer::read(&answer)), answer);
        }
    }
}

/// A request is answered as its line is, over the recorded sessions and with the desk's questions behind each line; then once more, and the sheet is tidied
/// behind each line too, so that other lines are refused.
#[test]
fn a_request_is_its_line() {
    let questions = [
        Request::PartNumbers,
        Request::Figures,
        Request::Snapshot,
        Request::Cuts,
        Request::EatenArea,
        Request::CutAmounts,
        Request::FreePiece { position: 0 },
    ];
    for behind in [questions.to_vec(), [&questions[..], &[Request::Tidy]].concat()] {
        let (mut desk, mut by_line) = (Desk::default(), Desk::new());
        for frame in lines_of("recorded/sessions.in") {
            let Some(request) = request_of(&frame) else { continue };
            assert_eq!(request.line().as_bytes(), frame);
            for request in [request].iter().chain(&behind) {
                let answer = by_line.answer(request.line()).to_string();
                assert_eq!(desk.ask(request), Answer::read(&answer), "{request:?}");
                assert_eq!(said(request.op(), &Answer::read(&answer)), answer);
            }
        }
    }
}

/// The desk's own ops are malformed at the counter, and the counter's sheet stays.
#[test]
fn the_desks_lines_at_the_counter() {
    let (mut desk, mut counter) = (Desk::new(), Counter::new());
    counter.answer(OPEN);
    desk.answer(OPEN);
    for op in 0x11..=0x1b {
        let fields = match op {
            0x11 => [mark(1, 2), part(40, 60)].concat(),
            0x12 => part(40, 60),
            0x13 | 0x14 => vec![0, 0],
            _ => vec![],
        };
        let frame = line(&[vec![op], fields].concat());
        assert_eq!(counter.answer(&frame), MALFORMED);
        assert_eq!(numbers(desk.answer(&frame))[..2], [op, 0]);
    }
}

/// Random bytes, random digits, and frames of random fields with a right check: each line has one answer, which can be read and is of its op; and where the counter
/// knows the op, it is the counter's. A second desk is handed the same frames, and tidies behind each.
#[test]
fn random_lines_are_answered() {
    let (mut desk, mut counter, mut random) = (Desk::new(), Counter::new(), Random(8));
    let (mut tidying, mut carried_out) = (Desk::new(), 0);
    for _ in 0..10_000 {
        let count = random.below(40) as usize;
        let bytes: Vec<u8> = (0..count).map(|_| random.below(256) as u8).collect();
        assert_eq!(desk.answer(&bytes), MALFORMED);

        let digits: String = (0..count).map(|_| char::from(b"0123456789abcdef"[random.below(16) as usize])).collect();
        let answer = desk.answer(&digits).to_string();
        assert_ne!(Answer::read(&answer), Err(Refusal::Unreadable), "{digits}: {answer}");
        assert!(is_the_desks(digits.as_bytes()) || counter.answer(&digits) == answer);

        let (op, fields) = [
            (1, 13),
            (2, 18),
            (3, 20),
            (4, 7),
            (5, 0),
            (6, 0),
            (7, 0),
            (0x11, 18),
            (0x12, 11),
            (0x13, 2),
            (0x14, 2),
            (0x15, 0),
            (0x16, 0),
            (0x17, 0),
            (0x18, 0),
            (0x19, 0),
            (0x1a, 0),
        ][random.below(17) as usize];
        let mut frame = vec![op];
        // small numbers mostly, so that fields are often in their ranges
        frame.extend((0..fields).map(|_| if random.below(8) == 0 { random.below(256) as u8 } else { random.below(3) as u8 }));
        let frame = line(&frame);
        let answer = desk.answer(&frame).to_string();
        let read = Answer::read(&answer);
        assert_ne!(read, Err(Refusal::Unreadable), "{frame}: {answer}");
        assert_eq!(read == Err(Refusal::NotUnderstood), request_of(frame.as_bytes()).is_none(), "{frame}");
        assert!(answer == MALFORMED || numbers(&answer)[0] == op);
        assert!(is_the_desks(frame.as_bytes()) || counter.answer(&frame) == answer);
        carried_out += usize::from(read.is_ok());
        for frame in [&frame, TIDY] {
            let answer = tidying.answer(frame);
            assert_ne!(Answer::read(answer), Err(Refusal::Unreadable), "{frame}: {answer}");
            assert!(answer == MALFORMED && frame != TIDY || answer[..2] == frame[..2]);
        }
        assert!(matches!(tidying.ask(&Request::Tidy), Ok(Answer::Tidied(0)) | Err(Refusal::NoSheet)));
    }
    assert!(carried_out > 2_000, "{carried_out}");
}

const SIDES: [u32; 6] = [0, 1, 60, 67_108_863, 67_108_864, u32::MAX];

/// Marks of extreme numbers.
fn marks() -> Vec<Mark> {
    let mut marks = vec![];
    for layout in [0, 1, u16::MAX] {
        for place in [0, 1, 254, 255, 256, 257, u16::MAX] {
            marks.extend([0, 1, 2, 1_000_000, u32::MAX].map(|serial| Mark::from_numbers(layout, place, serial)));
        }
    }
    marks
}

/// Parts of extreme numbers.
fn parts() -> Vec<Part> {
    let mut parts = vec![];
    for width in SIDES {
        for height in SIDES {
            parts
                .extend([Turn::Either, Turn::Default, Turn::Rotated].map(|turn| Part::new(u16::MAX, width, height).turned(turn)));
        }
    }
    parts
}

/// Every offer that can be said.
fn offers() -> Vec<Offer> {
    let shapes = [Shape::AlongCurrentCut, Shape::AcrossCurrentCut, Shape::AlongThenAcross, Shape::AcrossThenAlong];
    [Rotation::Default, Rotation::Rotated]
        .into_iter()
        .flat_map(|rotation| shapes.map(|shape| Offer { rotation, shape }))
        .collect()
}

/// Extreme numbers in every call of a sheet, on the smallest and on the largest: an answer or a refusal with a number of the papers, never a line that is not
/// understood and never an answer that can't be read.
#[test]
fn extreme_numbers_in_every_call() {
    let (marks, parts, offers) = (marks(), parts(), offers());
    for side in [1, 67_108_863] {
        let mut sheet = Sheet::open(1, side, side, Way::Horizontal, 254).expect("inside the limits");
        let sound = |refusal: Refusal| assert!((2..=12).contains(&refusal.number()), "{refusal}");
        for mark in &marks {
            for part in &parts {
                let (offered, reasons) = (sheet.offers(*mark, *part), sheet.why_not(*mark, *part));
                assert_eq!(offered.as_ref().err(), reasons.as_ref().err());
                offered.map_or_else(sound, |offers| assert!(offers.len() <= 4));
            }
            sheet.remove(*mark).map_or_else(sound, |_| ());
        }
        for (place, mark) in marks.iter().enumerate() {
            let (part, offer) = (parts[place % parts.len()], offers[place % offers.len()]);
            sheet.insert(*mark, part, offer).map_or_else(sound, |_| ());
        }
        for part in &parts {
            sheet.room_light(*part).map_or_else(sound, |_| ());
        }
    }
    // a place that no layout has is gone, and is not taken for another one
    let mut sheet = Sheet::open(1, 100, 60, Way::Vertical, 3).expect("inside the limits");
    let free = sheet.free_pieces().expect("a sheet")[0];
    for place in [255, 256, 257, 256 + free.place(), u16::MAX] {
        let mark = Mark::from_numbers(free.layout(), place, free.serial());
        assert_eq!(mark.place(), place);
        assert_eq!(sheet.offers(mark, Part::new(7, 1, 1)), Err(Refusal::Gone), "{place}");
        assert_eq!(sheet.remove(mark), Err(Refusal::Gone));
    }
}

/// Every opening of extreme numbers is a sheet, or is refused with 2.
#[test]
fn extreme_openings() {
    for number in [0, 1, u16::MAX] {
        for (width, height) in SIDES.iter().flat_map(|width| SIDES.iter().map(move |height| (*width, *height))) {
            for stages in [0, 1, 254, 255] {
                let inside = [width, height].iter().all(|side| (1..=67_108_863).contains(side)) && (1..=254).contains(&stages);
                for blade in [0, 100, 101, 255] {
                    let opened = Sheet::open_with_blade(number, width, height, Way::Horizontal, stages, blade);
                    let refused = !inside || blade > 100;
                    assert_eq!(opened.as_ref().err(), refused.then_some(&Refusal::SheetOutsideLimits));
                    let Ok(sheet) = opened else { continue };
                    assert_eq!(sheet.free_pieces(), Ok(vec![Mark::from_numbers(number, 1, 2)]));
                    assert_eq!(sheet.figures().map(|figures| figures.free_area), Ok(u64::from(width) * u64::from(height)));
                    assert_eq!(sheet.eaten_area(), Ok(0));
                }
                let opened = Sheet::open(number, width, height, Way::Horizontal, stages);
                assert_eq!(opened.err(), (!inside).then_some(Refusal::SheetOutsideLimits));
            }
        }
    }
}

/// A sheet goes to another thread, and is looked at from several.
#[test]
fn sheets_and_threads() {
    fn sent_and_shared<T: Send + Sync>() {}
    sent_and_shared::<(Sheet, Desk, Counter, Refusal, Request, Answer)>();
    let sheet = Sheet::open(1, 100, 60, Way::Vertical, 3).expect("inside the limits");
    let tree = sheet.snapshot().expect("a sheet has a tree");
    assert_eq!(tree.len(), 2);
    std::thread::scope(|scope| {
        for _ in 0..4 {
            scope.spawn(|| assert_eq!(sheet.snapshot().as_ref(), Ok(&tree)));
        }
    });
}

/// A refusal goes where errors go, with its words.
#[test]
fn a_refusal_is_an_error() {
    fn book() -> Result<(), Box<dyn std::error::Error>> {
        Sheet::open(1, 0, 60, Way::Vertical, 3)?;
        Ok(())
    }
    let error = book().expect_err("a side of 0");
    assert_eq!(error.to_string(), "a sheet that we don't take (refusal 2; the counter: look at sides, stages and blade)");
    assert_eq!(error.downcast_ref(), Some(&Refusal::SheetOutsideLimits));
    assert_eq!(format!("{:?} {:?}", Desk::new(), Sheet::open(1, 9, 9, Way::Vertical, 3)), "Desk { .. } Ok(Sheet { .. })");
}
