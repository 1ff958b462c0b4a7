//! The blade's width (document 02, change request 4), by typed calls and by frames: what is eaten behind a piece, what is given back, and what an opening may say.

mod common;

use common::typed::MALFORMED;
use common::{line, numbers, KEEP, OPEN, OPENED, OPEN_WITH_BLADE, RESTORE};
use nickelgrove_kiosk::{
    Answer, Counter, Cut, Desk, Kind, Mark, Node, Part, Piece, Refusal, Request, Rotation, Shape, Sheet, Way,
};

/// Document 01's sheet, 100 x 60, first cut Vertical, stages 3, with a blade so wide.
fn opened(blade: u8) -> Sheet {
    Sheet::open_with_blade(1, 100, 60, Way::Vertical, 3, blade).expect("inside the limits")
}

/// Books a part of these sides in the free piece that is greatest, by the shape. The free pieces that it leaves come with the booking.
fn book(sheet: &mut Sheet, number: u16, width: u32, height: u32, shape: Shape) -> (Mark, Vec<Mark>) {
    let part = Part::new(number, width, height);
    let free = sheet.room_light(part).expect("a part inside the limits").expect("room");
    let offers = sheet.offers(free, part).expect("a free piece");
    let offer = offers
        .into_iter()
        .find(|offer| (offer.rotation, offer.shape) == (Rotation::Default, shape))
        .expect("the shape is offered");
    let booking = sheet.insert(free, part, offer).expect("it was offered");
    (booking.part, booking.free)
}

/// What a snapshot shows: the kind as a letter, width, height, and what is eaten behind it.
fn shown(sheet: &Sheet) -> Vec<(char, u32, u32, u8)> {
    let letter = |node: &Node| match node.kind {
        Kind::Free => 'f',
        Kind::Part { .. } => 'p',
        Kind::Structure => 's',
    };
    let nodes = sheet.snapshot().expect("a sheet");
    nodes.iter().map(|node| (letter(node), node.width, node.height, node.eaten)).collect()
}

/// What is used, free and eaten makes the sheet.
fn adds_up(sheet: &Sheet, areas: (u64, u64, u64)) {
    let figures = sheet.figures().expect("a sheet");
    assert_eq!((figures.used_area, figures.free_area, sheet.eaten_area().expect("a sheet")), areas);
    assert_eq!(areas.0 + areas.1 + areas.2, 6_000);
}

/// Each shape: what is cut off loses the blade's width behind it, be it a part, a strip or a structure; one of full size is cut from nothing. Free pieces lose nothing.
#[test]
fn each_shape_eats_behind_what_it_cuts_off() {
    let shapes = [
        (40, 60, Shape::AlongCurrentCut, vec![('p', 40, 60, 3), ('f', 57, 60, 0)]),
        (100, 20, Shape::AcrossCurrentCut, vec![('s', 100, 60, 0), ('p', 100, 20, 3), ('f', 100, 37, 0)]),
        (40, 30, Shape::AlongThenAcross, vec![('s', 40, 60, 3), ('p', 40, 30, 3), ('f', 40, 27, 0), ('f', 57, 60, 0)]),
        (
            40,
            30,
            Shape::AcrossThenAlong,
            vec![('s', 100, 60, 0), ('s', 100, 30, 3), ('p', 40, 30, 3), ('f', 57, 30, 0), ('f', 100, 27, 0)],
        ),
    ];
    for (width, height, shape, below) in shapes {
        let mut sheet = opened(3);
        book(&mut sheet, 7, width, height, shape);
        assert_eq!(shown(&sheet), [vec![('s', 100, 60, 0)], below].concat(), "{shape:?}");
        let eaten = sheet.eaten_area().expect("a sheet");
        let free = sheet.figures().expect("a sheet").free_area;
        adds_up(&sheet, (u64::from(width) * u64::from(height), free, eaten));
        // with a blade of 0 the same tree has no amounts
        let mut other = opened(0);
        book(&mut other, 7, width, height, shape);
        assert!(shown(&other).iter().all(|(.., eaten)| *eaten == 0) && other.eaten_area() == Ok(0));
        assert_eq!(sheet.part_numbers(), other.part_numbers());
    }
}

/// Of what lies behind a piece no more than all is eaten; an exact fit eats nothing. What is offered doesn't change with the blade.
#[test]
fn no_more_is_eaten_than_there_is() {
    for (width, eaten, left) in [(96, 3, 1), (97, 3, 0), (98, 2, 0), (99, 1, 0), (100, 0, 0)] {
        let mut sheet = opened(3);
        let (free, part) = (sheet.free_pieces().expect("a sheet")[0], Part::new(7, width, 60));
        assert_eq!(sheet.offers(free, part), opened(0).offers(free, part), "{width}");
        assert_eq!(sheet.why_not(free, part), opened(0).why_not(free, part), "{width}");
        book(&mut sheet, 7, width, 60, Shape::AlongCurrentCut);
        assert_eq!(shown(&sheet)[1..], [('p', width, 60, eaten), ('f', left, 60, 0)]);
        let (width, eaten, left) = (u64::from(width), u64::from(eaten), u64::from(left));
        adds_up(&sheet, (60 * width, 60 * left, 60 * eaten));
        // a usage of exactly 1 wants that nothing was eaten
        let figures = sheet.figures().expect("a sheet");
        assert_eq!((figures.sheet_usage == 1.0, figures.tree_usage == 1.0), (width == 100, width == 100));
    }
    // with a blade of 100 too
    let mut sheet = opened(100);
    book(&mut sheet, 7, 40, 30, Shape::AcrossThenAlong);
    assert_eq!(shown(&sheet)[1..], [('s', 100, 60, 0), ('s', 100, 30, 30), ('p', 40, 30, 60), ('f', 0, 30, 0), ('f', 100, 0, 0)]);
    adds_up(&sheet, (1_200, 0, 4_800));
}

/// What is removed gives back what was eaten behind it, and the others keep theirs: with the last free piece of its row, and alone where the row ends with another piece.
#[test]
fn a_removal_gives_the_amount_back() {
    let mut sheet = opened(3);
    let (first, _) = book(&mut sheet, 1, 20, 60, Shape::AlongCurrentCut);
    let (second, _) = book(&mut sheet, 2, 30, 60, Shape::AlongCurrentCut);
    assert_eq!(shown(&sheet)[1..], [('p', 20, 60, 3), ('p', 30, 60, 3), ('f', 44, 60, 0)]);
    // merged: 20 and 3 with the 44
    sheet.remove(first).expect("it is there");
    assert_eq!(shown(&sheet)[1..], [('p', 30, 60, 3), ('f', 67, 60, 0)]);
    adds_up(&sheet, (1_800, 4_020, 180));
    sheet.remove(second).expect("it is there");
    assert_eq!(shown(&sheet), shown(&opened(3)));
    adds_up(&sheet, (0, 6_000, 0));

    // alone: the row ends with a structure, which has the place of the last free piece
    let (first, _) = book(&mut sheet, 1, 20, 60, Shape::AlongCurrentCut);
    book(&mut sheet, 2, 77, 30, Shape::AcrossCurrentCut);
    assert_eq!(shown(&sheet)[1..], [('p', 20, 60, 3), ('s', 77, 60, 0), ('p', 77, 30, 3), ('f', 77, 27, 0)]);
    sheet.remove(first).expect("it is there");
    assert_eq!(shown(&sheet)[1..], [('s', 77, 60, 0), ('p', 77, 30, 3), ('f', 77, 27, 0), ('f', 23, 60, 0)]);
    adds_up(&sheet, (2_310, 77 * 27 + 23 * 60, 3 * 77));
}

/// The rule looks at what is left when a piece is cut off: so 49 and 51 can be booked on a sheet of 100, though no saw of 3 can cut both (docs/RULES.md, "The blade").
#[test]
fn forty_nine_and_fifty_one() {
    let mut sheet = opened(3);
    let (first, _) = book(&mut sheet, 48, 48, 60, Shape::AlongCurrentCut);
    book(&mut sheet, 49, 49, 60, Shape::AlongCurrentCut);
    assert_eq!(shown(&sheet)[1..], [('p', 48, 60, 3), ('p', 49, 60, 0), ('f', 0, 60, 0)]);
    assert_eq!(sheet.remove(first).expect("it is there").parts, [48]);
    // the second still records that nothing was eaten behind it, though 51 lie there now
    assert_eq!(shown(&sheet)[1..], [('p', 49, 60, 0), ('f', 51, 60, 0)]);
    book(&mut sheet, 51, 51, 60, Shape::AlongCurrentCut);
    assert_eq!(shown(&sheet)[1..], [('p', 49, 60, 0), ('p', 51, 60, 0), ('f', 0, 60, 0)]);
    adds_up(&sheet, (6_000, 0, 0));
    assert_eq!(sheet.figures().map(|figures| (figures.sheet_usage, figures.tree_usage)), Ok((1.0, 1.0)));
    let cut = Cut { place: 0, way: Way::Vertical, distance: 49, piece: Piece::Part, left: Piece::Part, eaten: 0 };
    assert_eq!(sheet.cuts(), Ok(vec![cut]));
}

/// The list has what the blade eats with each cut, from the two frames of the desk: as many as there are cuts, in their order.
#[test]
fn cuts_with_what_they_lose() {
    let mut sheet = opened(3);
    book(&mut sheet, 1, 40, 58, Shape::AlongThenAcross);
    book(&mut sheet, 2, 55, 60, Shape::AlongCurrentCut);
    let cut = |place, way, distance, piece, left, eaten| Cut { place, way, distance, piece, left, eaten };
    let cuts = [
        cut(0, Way::Vertical, 40, Piece::Structure, Piece::Several, 3),
        // nothing is left below it, and so what comes behind has place 1
        cut(0, Way::Horizontal, 58, Piece::Part, Piece::Free, 2),
        cut(1, Way::Vertical, 55, Piece::Part, Piece::Free, 2),
    ];
    assert_eq!(sheet.cuts(), Ok(cuts.to_vec()));
    // the counter says the same
    let mut counter = Counter::new();
    for line in [
        OPEN_WITH_BLADE.to_string(),
        line(&[3, 0, 1, 1, 0, 0, 0, 2, 0, 1, 0, 0, 0, 40, 0, 0, 0, 58, 0, 0, 3]),
        line(&[3, 0, 1, 4, 0, 0, 0, 6, 0, 2, 0, 0, 0, 55, 0, 0, 0, 60, 0, 0, 1]),
    ] {
        assert_eq!(numbers(counter.answer(line))[1], 0);
    }
    assert_eq!(counter.cuts(), Some(cuts.to_vec()));
}

/// Restore brings the width back with the sheet, whatever was opened in between.
#[test]
fn restore_brings_the_width_back() {
    let mut desk = Desk::new();
    let open = |blade| Request::Open { number: 1, width: 100, height: 60, first_cut: Way::Vertical, stages: 3, blade };
    let part = Part::new(7, 40, 60);
    let eaten = |desk: &mut Desk| {
        let Ok(Answer::FreePiece(piece)) = desk.ask(&Request::FreePiece { position: 0 }) else { panic!("a free piece") };
        let Ok(Answer::Offers(offers)) = desk.ask(&Request::Offers { piece, part }) else { panic!("offers") };
        desk.ask(&Request::Insert { piece, part, offer: offers[0] }).expect("it was offered");
        let Ok(Answer::CutAmounts(amounts)) = desk.ask(&Request::CutAmounts) else { panic!("amounts") };
        amounts
    };
    for (first, second) in [(3, 0), (0, 3), (3, 10), (100, 1)] {
        desk.ask(&open(first)).expect("inside the limits");
        desk.ask(&Request::Keep).expect("a sheet");
        desk.ask(&open(second)).expect("inside the limits");
        assert_eq!(eaten(&mut desk), [second.min(60)]);
        desk.ask(&Request::Restore).expect("the same layout number");
        assert_eq!(eaten(&mut desk), [first.min(60)], "kept with {first}, and then opened with {second}");
        desk.ask(&Request::Restore).expect("what was kept stays");
        assert_eq!(desk.ask(&Request::EatenArea), Ok(Answer::EatenArea(0)));
        assert_eq!(eaten(&mut desk), [first.min(60)]);
    }
}

/// A blade of 0 to 100 is taken, and a wider one is refused with 2, by frames and by typed calls, in words that name it. The sheet that was there stays.
#[test]
fn widths_that_are_taken() {
    let (mut counter, mut desk) = (Counter::new(), Desk::new());
    assert_eq!((counter.answer(OPEN), desk.answer(OPEN)), (OPENED, OPENED));
    for blade in 0..=255 {
        let frame = line(&[1, 0, 1, 0, 0, 0, 100, 0, 0, 0, 60, 1, 3, blade]);
        let request = Request::Open { number: 1, width: 100, height: 60, first_cut: Way::Vertical, stages: 3, blade };
        assert_eq!(request.line(), frame);
        let answer = if blade <= 100 { OPENED.to_string() } else { line(&[1, 2]) };
        assert_eq!((counter.answer(&frame), desk.answer(&frame)), (answer.as_str(), answer.as_str()), "{blade}");
        let refused = (blade > 100).then_some(Refusal::SheetOutsideLimits);
        assert_eq!(Sheet::open_with_blade(1, 100, 60, Way::Vertical, 3, blade).err(), refused);
        assert_eq!(desk.ask(&request).err(), refused);
    }
    assert!(Refusal::SheetOutsideLimits.to_string().contains("blade"));
    // the last one that was taken is still there: 100 wide
    assert_eq!(numbers(desk.answer(line(&[3, 0, 1, 1, 0, 0, 0, 2, 0, 7, 0, 0, 0, 1, 0, 0, 0, 60, 0, 0, 1])))[1], 0);
    assert_eq!(desk.ask(&Request::CutAmounts), Ok(Answer::CutAmounts(vec![99])));
}

/// A line of op 01 as it was before there was a blade, 28 characters, is malformed, and so is one of a byte too many.
#[test]
fn an_opening_without_a_width_is_malformed() {
    let (mut counter, mut desk) = (Counter::new(), Desk::new());
    for old in ["010001000000640000003c01035a".to_string(), line(&[1, 0, 1, 0, 0, 0, 100, 0, 0, 0, 60, 1, 3, 0, 0])] {
        assert_eq!((counter.answer(&old), desk.answer(&old)), (MALFORMED, MALFORMED), "{old}");
    }
    // with 00 before its check it is the same sheet, with a blade of 0
    assert_eq!((OPEN, counter.answer(OPEN)), ("010001000000640000003c0103005a", OPENED));
    // with a blade of 3 the check is 3 less
    assert_eq!((OPEN_WITH_BLADE, counter.answer(OPEN_WITH_BLADE)), ("010001000000640000003c01030357", OPENED));
    assert_eq!(counter.answer(KEEP), "0500fb");
    assert_eq!(counter.answer(RESTORE), "0600fa");
}

/// The two frames, as bytes: on document 01's sheet with its part on it, before an opening, and with a byte too many.
#[test]
fn the_two_frames() {
    let mut desk = Desk::new();
    for (frame, refused) in [("19e7", "1901e6"), ("1ae6", "1a01e5")] {
        assert_eq!(desk.answer(frame), refused);
    }
    desk.answer(OPEN_WITH_BLADE);
    assert_eq!(desk.answer("19e7"), "19000000000000000000e7");
    assert_eq!(desk.answer("1ae6"), "1a000000e6");
    desk.answer("03000101000000020007000000280000003c0000018d");
    assert_eq!(desk.answer("19e7"), "190000000000000000b433");
    assert_eq!(desk.answer("1ae6"), "1a00000103e2");
    assert_eq!(desk.ask(&Request::EatenArea), Ok(Answer::EatenArea(180)));
    assert_eq!(desk.ask(&Request::CutAmounts), Ok(Answer::CutAmounts(vec![3])));
    for op in [0x19, 0x1a] {
        assert_eq!(desk.answer(line(&[op, 0])), MALFORMED);
        assert_eq!(Counter::new().answer(line(&[op])), MALFORMED);
    }
}
