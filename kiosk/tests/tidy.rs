//! Tidying (document 02, change request 5), by typed calls and by frames: what is taken out, what comes back, which marks are gone, and what is refused.

mod common;

use std::thread;

use common::typed::MALFORMED;
use common::{insert, line, lines_of, mark, numbers, part, remove, KEEP, OPEN, OPENED, OPEN_WITH_BLADE, RESTORE, TIDY};
use nickelgrove_kiosk::{
    Answer, Booking, Counter, Desk, Kind, Mark, Node, Part, Reason, Refusal, Request, Rotation, Shape, Sheet, Way,
};

const SHAPES: [Shape; 4] = [Shape::AlongCurrentCut, Shape::AcrossCurrentCut, Shape::AlongThenAcross, Shape::AcrossThenAlong];

/// Document 01's sheet, 100 x 60, first cut Vertical, with so many stages and a blade so wide.
fn opened(stages: u8, blade: u8) -> Sheet {
    Sheet::open_with_blade(1, 100, 60, Way::Vertical, stages, blade).expect("inside the limits")
}

/// Books a part of these sides, in rotation Default and by this shape, in the first free piece that offers it.
fn book(sheet: &mut Sheet, number: u16, width: u32, height: u32, shape: Shape) -> Booking {
    let part = Part::new(number, width, height);
    for piece in sheet.free_pieces().expect("a sheet") {
        let offers = sheet.offers(piece, part).expect("a free piece");
        if let Some(offer) = offers.into_iter().find(|offer| (offer.rotation, offer.shape) == (Rotation::Default, shape)) {
            return sheet.insert(piece, part, offer).expect("it was offered");
        }
    }
    panic!("no piece offers {width} x {height} by {shape:?}");
}

/// What a snapshot shows: the kind as a letter, level, width, height, and what is eaten behind it.
fn shown(sheet: &Sheet) -> Vec<(char, u8, u32, u32, u8)> {
    let letter = |node: &Node| match node.kind {
        Kind::Free => 'f',
        Kind::Part { .. } => 'p',
        Kind::Structure => 's',
    };
    let nodes = sheet.snapshot().expect("a sheet");
    nodes.iter().map(|node| (letter(node), node.level, node.width, node.height, node.eaten)).collect()
}

/// Case k of docs/RULES.md: the part is out, its structure stays, and the board turns a part away that it took before. Tidying gives the opening's tree back.
#[test]
fn case_k() {
    let mut sheet = opened(2, 0);
    let before = sheet.snapshot();
    let panel = Part::new(8, 40, 30);
    let shelf = book(&mut sheet, 7, 100, 20, Shape::AcrossCurrentCut);
    let free = sheet.remove(shelf.part).expect("it is there").free;
    assert_eq!(shown(&sheet), [('s', 0, 100, 60, 0), ('s', 1, 100, 60, 0), ('f', 2, 100, 60, 0)]);
    assert_eq!(sheet.why_not(free, panel).map(|reasons| reasons.default), Ok(Reason::StagesUsedUp));
    assert_eq!(sheet.room_light(panel), Ok(None));
    assert_eq!(sheet.tidy(), Ok(1));
    assert_eq!(sheet.snapshot(), before);
    // the next serial, and the lowest place
    assert_eq!(sheet.free_pieces(), Ok(vec![Mark::from_numbers(1, 1, 7)]));
    assert_eq!(sheet.room_light(panel), Ok(Some(Mark::from_numbers(1, 1, 7))));
    // what went is gone: the structure, the free piece in it
    assert_eq!((sheet.remove(shelf.first), sheet.offers(free, panel)), (Err(Refusal::Gone), Err(Refusal::Gone)));
    // and there is nothing more to do: the sheet itself, which has one free piece, stays
    assert_eq!(sheet.tidy(), Ok(0));
    assert_eq!(sheet.free_pieces(), Ok(vec![Mark::from_numbers(1, 1, 7)]));
}

/// A tidy sheet: booking by each shape, removing the part and tidying gives the same tree, with any blade, on an empty sheet and beside other parts. The
/// structures of the shape are what is taken out.
#[test]
fn each_shape_comes_back() {
    for blade in [0, 1, 3, 40, 100] {
        for (shape, (width, height), structures) in
            [(SHAPES[0], (40, 60), 0), (SHAPES[1], (100, 20), 1), (SHAPES[2], (40, 30), 1), (SHAPES[3], (40, 30), 2)]
        {
            let mut sheet = opened(3, blade);
            let before = sheet.snapshot();
            let booking = book(&mut sheet, 7, width, height, shape);
            assert_eq!(sheet.tidy(), Ok(0), "a part is in each structure: {shape:?}");
            sheet.remove(booking.part).expect("it is there");
            assert_eq!(sheet.tidy(), Ok(structures), "{shape:?}, blade {blade}");
            assert_eq!(sheet.snapshot(), before, "{shape:?}, blade {blade}");
        }
        // beside three parts, in the greatest free piece
        let mut sheet = Sheet::open_with_blade(1, 1_000, 600, Way::Vertical, 5, blade).expect("inside the limits");
        book(&mut sheet, 1, 300, 600, Shape::AlongCurrentCut);
        book(&mut sheet, 2, 200, 100, Shape::AlongThenAcross);
        book(&mut sheet, 3, 150, 90, Shape::AcrossThenAlong);
        assert_eq!(sheet.tidy(), Ok(0));
        for shape in SHAPES {
            let before = sheet.snapshot().expect("a sheet");
            let greatest = before.iter().filter(|node| node.kind == Kind::Free).max_by_key(|node| node.width * node.height);
            let greatest = greatest.expect("a free piece");
            let (whole, some) = ((greatest.width, greatest.height), (greatest.width / 3, greatest.height / 3));
            // along the cut of a free piece it is as tall as that, if the cut is Horizontal
            let (along, across) = match greatest.cut {
                Way::Horizontal => ((some.0, whole.1), (whole.0, some.1)),
                Way::Vertical => ((whole.0, some.1), (some.0, whole.1)),
            };
            let (width, height) = match shape {
                Shape::AlongCurrentCut => along,
                Shape::AcrossCurrentCut => across,
                _ => some,
            };
            let booking = book(&mut sheet, 9, width, height, shape);
            sheet.remove(booking.part).expect("it is there");
            sheet.tidy().expect("there are serials");
            assert_eq!(sheet.snapshot(), Ok(before), "{shape:?}, blade {blade}");
        }
    }
}

/// What was eaten behind a structure comes back with it, and what was eaten behind the others stays. The used area doesn't change; without a blade neither does
/// the free one.
#[test]
fn what_was_eaten_comes_back() {
    let figures = |sheet: &Sheet| {
        let figures = sheet.figures().expect("a sheet");
        (figures.used_area, figures.free_area, sheet.eaten_area().expect("a sheet"))
    };
    for (blade, untidy, tidy) in [(0, (1_200, 4_800, 0), (1_200, 4_800, 0)), (3, (1_200, 4_440, 360), (1_200, 4_620, 180))] {
        let mut sheet = opened(3, blade);
        let first = book(&mut sheet, 1, 40, 30, Shape::AlongThenAcross);
        let second = book(&mut sheet, 2, 20, 60, Shape::AlongCurrentCut);
        sheet.remove(first.part).expect("it is there");
        let rest = 40 - 2 * u32::from(blade);
        let row = [('s', 1, 40, 60, blade), ('f', 2, 40, 60, 0), ('p', 1, 20, 60, blade), ('f', 1, rest, 60, 0)];
        assert_eq!(shown(&sheet)[1..], row, "blade {blade}");
        assert_eq!(figures(&sheet), untidy);
        assert_eq!(sheet.tidy(), Ok(1));
        assert_eq!(figures(&sheet), tidy);
        assert_eq!(shown(&sheet)[1..], [('p', 1, 20, 60, blade), ('f', 1, 80 - u32::from(blade), 60, 0)], "blade {blade}");
        // the part has its mark, and its amount
        assert_eq!(sheet.part_numbers(), Ok(vec![2]));
        assert!(sheet.removable().expect("a sheet").contains(&second.part));
    }
}

/// A row whose last child is no free piece gets one at its end.
#[test]
fn a_row_without_a_free_piece() {
    let mut sheet = opened(3, 0);
    let first = book(&mut sheet, 1, 40, 30, Shape::AlongThenAcross);
    let second = book(&mut sheet, 2, 60, 20, Shape::AcrossCurrentCut);
    assert_eq!(shown(&sheet)[4..], [('s', 1, 60, 60, 0), ('p', 2, 60, 20, 0), ('f', 2, 60, 40, 0)]);
    sheet.remove(first.part).expect("it is there");
    assert_eq!(sheet.tidy(), Ok(1));
    let row = [('s', 1, 60, 60, 0), ('p', 2, 60, 20, 0), ('f', 2, 60, 40, 0), ('f', 1, 40, 60, 0)];
    assert_eq!(shown(&sheet)[1..], row);
    // and then the other: all is one free piece again
    sheet.remove(second.part).expect("its mark is what it was");
    assert_eq!(sheet.tidy(), Ok(1));
    assert_eq!(shown(&sheet), shown(&opened(3, 0)));
}

/// Those that hold one free piece alone only when another has gone are taken out too. Serials are issued in the order in which they go, the lowest place first.
#[test]
fn one_after_another() {
    let mut sheet = opened(5, 3);
    let first = book(&mut sheet, 1, 40, 30, Shape::AcrossThenAlong);
    sheet.remove(first.part).expect("it is there");
    assert_eq!(shown(&sheet).iter().filter(|node| node.0 == 's').count(), 3);
    assert_eq!(sheet.tidy(), Ok(2));
    assert_eq!(shown(&sheet), shown(&opened(5, 3)));
    // 2 at the opening, 5 by the booking, 1 by the removal, 2 by tidying
    assert_eq!(sheet.free_pieces(), Ok(vec![Mark::from_numbers(1, 1, 10)]));
}

/// Restore puts the sheet back that was kept, untidy as it was; the marks that tidying issued are gone for ever.
#[test]
fn tidied_and_put_back() {
    let mut sheet = opened(3, 0);
    let booking = book(&mut sheet, 7, 40, 30, Shape::AlongThenAcross);
    sheet.remove(booking.part).expect("it is there");
    let (untidy, free) = (sheet.snapshot(), sheet.free_pieces());
    sheet.keep().expect("a sheet");
    assert_eq!(sheet.tidy(), Ok(1));
    let issued = sheet.free_pieces().expect("a sheet")[0];
    sheet.restore().expect("it was kept");
    assert_eq!((sheet.snapshot(), sheet.free_pieces()), (untidy, free));
    assert_eq!(sheet.offers(issued, Part::new(8, 1, 1)), Err(Refusal::Gone));
    assert_eq!(sheet.tidy(), Ok(1));
    let again = sheet.free_pieces().expect("a sheet")[0];
    assert_eq!((again.place(), again.serial()), (issued.place(), issued.serial() + 1));
    assert_eq!(sheet.offers(issued, Part::new(8, 1, 1)), Err(Refusal::Gone));
}

/// The deepest chain that calls make, 251 structures one in another, without its part: all of it in one call, on a quarter of the stack that a thread has by
/// default.
#[test]
fn the_deepest_chain() {
    let chain = || {
        let mut desk = Desk::new();
        let lines = lines_of("docs/pictures/chain.frames");
        let (last, before) = lines.split_last().expect("lines");
        for frame in before {
            assert_eq!(numbers(desk.answer(frame))[1], 0);
        }
        let Ok(Answer::Booked(booking)) = Answer::read(desk.answer(last)) else { panic!("a booking") };
        desk.ask(&Request::Remove { piece: booking.part }).expect("it is there");
        let nodes = |desk: &mut Desk| match desk.ask(&Request::Snapshot) {
            Ok(Answer::Snapshot(nodes)) => nodes,
            other => panic!("{other:?}"),
        };
        let untidy = nodes(&mut desk);
        assert_eq!((untidy.len(), untidy[252].level, untidy[252].kind), (253, 252, Kind::Free));
        assert_eq!(desk.ask(&Request::Tidy), Ok(Answer::Tidied(251)));
        let tidy = nodes(&mut desk);
        let mut free = untidy[1];
        free.kind = Kind::Free;
        assert_eq!(tidy, [untidy[0], free]);
        assert_eq!(desk.ask(&Request::Tidy), Ok(Answer::Tidied(0)));
    };
    let thread = thread::Builder::new().stack_size(512 << 10).spawn(chain);
    thread.expect("a thread").join().expect("every answer was right");
}

/// As bytes: before an opening, on a sheet that is tidy, on one that isn't, with a byte too many, and at the counter. What was kept stays.
#[test]
fn the_frame() {
    assert_eq!((Request::Tidy.op(), Request::Tidy.line().as_str()), (0x1b, TIDY));
    let (mut desk, mut counter) = (Desk::new(), Counter::new());
    assert_eq!(desk.answer(TIDY), "1b01e4");
    assert_eq!(desk.ask(&Request::Tidy), Err(Refusal::NoSheet));
    for opening in [OPEN, OPEN_WITH_BLADE] {
        assert_eq!((desk.answer(opening), counter.answer(opening)), (OPENED, OPENED));
        assert_eq!(desk.answer(TIDY), "1b000000e5");
        let booking = insert(&mark(1, 2), &part(40, 30), 4);
        for frame in [&booking, KEEP, &remove(&mark(3, 5))] {
            assert_eq!(numbers(desk.answer(frame))[1], 0);
            assert_eq!(numbers(counter.answer(frame))[1], 0);
        }
        assert_eq!(desk.answer(line(&[0x1b, 0])), MALFORMED);
        assert_eq!(counter.answer(TIDY), MALFORMED);
        assert_eq!(desk.answer(TIDY), "1b000002e3");
        // the lowest place of the sheet, and the serial behind 8 and 9
        assert_eq!(desk.answer("130000ed"), line(&[&[0x13, 0], mark(1, 10).as_slice()].concat()));
        assert_eq!(desk.answer(TIDY), "1b000000e5");
        assert_eq!(desk.answer(RESTORE), "0600fa");
        assert_eq!(desk.ask(&Request::PartNumbers), Ok(Answer::PartNumbers(vec![7])));
        assert_eq!(desk.answer(TIDY), "1b000000e5");
    }
}
