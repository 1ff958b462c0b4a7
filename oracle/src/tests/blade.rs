//! The blade (document 02, change request 4), by hand: what it eats, what a removal gives back, what the list of cuts says.

use super::*;

const BLADE_3: Opening = Opening { blade: 3, ..SHEET };

/// A board 100 long, with a blade of 3 and parts in a single row.
const BOARD: Opening = Opening { height: 1, stages: 1, ..BLADE_3 };

/// A node of a snapshot with so much eaten behind it.
fn eaten(amount: u8, node: String) -> String {
    format!("{}{amount:02x}", &node[..node.len() - 2])
}

/// The tree of a row on the board: the parts, each with what was eaten behind it, and then the free piece.
fn row(parts: &[(u32, u8)], free: u32) -> String {
    let parts = parts.iter().map(|(length, amount)| eaten(*amount, node(1, PART, 0, 7, *length, 1)));
    node(0, STRUCTURE, 1, 0, 100, 1) + &parts.collect::<String>() + &node(1, FREE_PIECE, 0, 0, free, 1)
}

fn areas(line: &Line) -> [u64; 3] {
    let figure = |index: usize| u64::from_str_radix(&line.figures()[16 * index..16 * index + 16], 16).expect("a figure");
    [figure(0), figure(1), figure(4)]
}

/// The pieces that the simple saw makes of a sheet by the cuts on a line and the amounts beside them.
fn sawn(line: &Line, width: u32, height: u32) -> Vec<(u32, u32)> {
    let number = |text: &str| u32::from_str_radix(text, 16).expect("a number");
    let list = line.cuts().as_bytes().chunks(18).map(|entry| std::str::from_utf8(entry).expect("hexadecimal"));
    let amounts = line.amounts().as_bytes().chunks(2).map(|amount| std::str::from_utf8(amount).expect("hexadecimal"));
    let cuts = list.zip(amounts).map(|(entry, amount)| Cut {
        place: number(&entry[..4]) as u16,
        way: if &entry[4..6] == "01" { Vertical } else { Horizontal },
        distance: number(&entry[6..14]),
        piece: number(&entry[14..16]) as u8,
        left: number(&entry[16..]) as u8,
        amount: number(amount) as u8,
    });
    let pile = saw::saw(Rectangle { width, height }, &cuts.collect::<Vec<_>>()).expect("cuts of what is there");
    pile.into_iter().map(|piece| (piece.width, piece.height)).collect()
}

#[test]
fn the_blade_eats_behind_each_piece_that_is_cut_off() {
    let top = node(0, STRUCTURE, 1, 0, 100, 60);
    let structure = node(1, STRUCTURE, 0, 0, 100, 60);
    let insert = |part, offer| Counter::with(BLADE_3).insert(FREE, part, offer);

    let line = insert(part(40, 60), ALONG);
    assert_eq!(line.snapshot(), [top.clone(), eaten(3, node(1, 1, 0, 7, 40, 60)), node(1, 0, 0, 0, 57, 60)].concat());
    assert_eq!(areas(&line), [2400, 3420, 180]);

    let line = insert(part(100, 20), ACROSS);
    let inside = eaten(3, node(2, 1, 1, 7, 100, 20)) + &node(2, 0, 1, 0, 100, 37);
    assert_eq!(line.snapshot(), [top.clone(), structure.clone(), inside].concat());
    assert_eq!(areas(&line), [2000, 3700, 300]);

    let line = insert(part(40, 30), ALONG_THEN_ACROSS);
    let inside = eaten(3, node(2, 1, 1, 7, 40, 30)) + &node(2, 0, 1, 0, 40, 27);
    let column = eaten(3, node(1, 2, 0, 0, 40, 60)) + &inside;
    assert_eq!(line.snapshot(), [top.clone(), column, node(1, 0, 0, 0, 57, 60)].concat());
    assert_eq!(areas(&line), [1200, 40 * 27 + 57 * 60, 3 * 60 + 3 * 40]);

    let line = insert(part(40, 30), ACROSS_THEN_ALONG);
    let inside = eaten(3, node(3, 1, 0, 7, 40, 30)) + &node(3, 0, 0, 0, 57, 30);
    let strip = eaten(3, node(2, 2, 1, 0, 100, 30)) + &inside;
    assert_eq!(line.snapshot(), [top, structure, strip, node(2, 0, 1, 0, 100, 27)].concat());
    assert_eq!(areas(&line), [1200, 57 * 30 + 100 * 27, 3 * 100 + 3 * 30]);
}

#[test]
fn the_blade_eats_along_the_other_axis_too() {
    let lying = Opening { width: 60, height: 100, cut: Horizontal, ..BLADE_3 };
    let line = Counter::with(lying).insert(FREE, part(30, 40), ALONG_THEN_ACROSS);
    let inside = eaten(3, node(2, 1, 0, 7, 30, 40)) + &node(2, 0, 0, 0, 27, 40);
    let column = eaten(3, node(1, 2, 1, 0, 60, 40)) + &inside;
    assert_eq!(line.snapshot(), [node(0, 2, 0, 0, 60, 100), column, node(1, 0, 1, 0, 60, 57)].concat());
    assert_eq!(areas(&line), [1200, 27 * 40 + 60 * 57, 3 * 60 + 3 * 40]);
    assert_eq!(line.cuts(), cut(0, 0, 40, STRUCTURE, FREE_PIECE) + &cut(0, 1, 30, PART, FREE_PIECE));
    assert_eq!(line.amounts(), "0303");
}

#[test]
fn the_blade_eats_no_more_than_the_remainder() {
    for (length, amount, free) in [(95, 3, 2), (96, 3, 1), (97, 3, 0), (98, 2, 0), (99, 1, 0), (100, 0, 0)] {
        let mut counter = Counter::with(BOARD);
        counter.assert_offers(part(length, 1), &[ALONG]);
        assert_eq!(counter.light(part(length, 1)), lit(FREE));
        let line = counter.insert(FREE, part(length, 1), ALONG);
        assert_eq!(line.snapshot(), row(&[(length, amount)], free));
        assert_eq!(areas(&line), [u64::from(length), u64::from(free), u64::from(amount)]);
        assert_eq!(counter.remove(mark(1, 3)).snapshot(), row(&[], 100));
    }
}

#[test]
fn a_usage_of_1_only_where_nothing_was_eaten() {
    let one = format!("{:016x}", 1.0_f64.to_bits());
    let line = Counter::with(BOARD).insert(FREE, part(98, 1), ALONG);
    assert_eq!(areas(&line), [98, 0, 2]);
    assert!(!line.figures().contains(&one));
    let line = Counter::with(BOARD).insert(FREE, part(100, 1), ALONG);
    assert_eq!(line.figures()[32..64], one.repeat(2));
}

/// The sound rule can't say that what is eaten is the least of the blade and what lies behind: here a part has nothing eaten behind it, and 51 free.
#[test]
fn parts_of_49_and_51_on_a_board_of_100() {
    let mut counter = Counter::with(BOARD);
    assert_eq!(counter.insert(FREE, part(48, 1), ALONG).snapshot(), row(&[(48, 3)], 49));
    assert_eq!(counter.insert(mark(2, 4), part(49, 1), ALONG).snapshot(), row(&[(48, 3), (49, 0)], 0));
    let line = counter.remove(mark(1, 3));
    assert_eq!(line.snapshot(), row(&[(49, 0)], 51));
    assert_eq!((line.cuts(), line.amounts()), (cut(0, 1, 49, PART, FREE_PIECE).as_str(), "00"));
    let line = counter.insert(mark(1, 7), part(51, 1), ALONG);
    assert_eq!(line.snapshot(), row(&[(49, 0), (51, 0)], 0));
    assert_eq!(areas(&line), [100, 0, 0]);
}

#[test]
fn a_removal_gives_its_own_amount_back_and_no_other() {
    let mut counter = Counter::with(BOARD);
    counter.insert(FREE, part(20, 1), ALONG);
    counter.insert(mark(2, 4), part(30, 1), ALONG);
    let line = counter.insert(mark(3, 6), part(10, 1), ALONG);
    assert_eq!(line.snapshot(), row(&[(20, 3), (30, 3), (10, 3)], 31));
    let line = counter.remove(mark(2, 5));
    assert_eq!(line.snapshot(), row(&[(20, 3), (10, 3)], 64));
    assert_eq!(areas(&line), [30, 64, 6]);
}

#[test]
fn a_removal_gives_its_amount_back_alone() {
    let mut counter = Counter::with(BLADE_3);
    counter.insert(FREE, part(40, 60), ALONG);
    counter.insert(mark(2, 4), part(57, 20), ACROSS);
    let line = counter.remove(mark(1, 3));
    let inside = eaten(3, node(2, 1, 1, 7, 57, 20)) + &node(2, 0, 1, 0, 57, 37);
    let tree = [node(0, 2, 1, 0, 100, 60), node(1, 2, 0, 0, 57, 60), inside, node(1, 0, 0, 0, 43, 60)];
    assert_eq!(line.snapshot(), tree.concat());
}

#[test]
fn a_removed_structure_gives_its_amount_back() {
    let mut counter = Counter::with(BLADE_3);
    counter.insert(FREE, part(40, 30), ALONG_THEN_ACROSS);
    let line = counter.remove(mark(1, 3));
    assert_eq!(line.snapshot(), [node(0, 2, 1, 0, 100, 60), node(1, 0, 0, 0, 100, 60)].concat());
}

#[test]
fn a_cut_is_listed_before_an_empty_offcut_where_something_was_eaten() {
    let mut counter = Counter::with(BOARD);
    let line = counter.insert(FREE, part(48, 1), ALONG);
    assert_eq!((line.cuts(), line.amounts()), (cut(0, 1, 48, PART, FREE_PIECE).as_str(), "03"));
    let line = counter.insert(mark(2, 4), part(47, 1), ALONG);
    // the second part and what is eaten behind it are cut again
    let list = cut(0, 1, 48, PART, SEVERAL) + &cut(1, 1, 47, PART, FREE_PIECE);
    assert_eq!((line.cuts(), line.amounts()), (list.as_str(), "0302"));
    assert_eq!(sawn(&line, 100, 1), [(48, 1), (47, 1)]);
    let line = Counter::with(BOARD).insert(FREE, part(100, 1), ALONG);
    assert_eq!((line.cuts(), line.amounts()), ("-", "-"));
}

#[test]
fn what_the_blade_takes_whole_has_no_place_in_the_pile() {
    let mut counter = Counter::with(BLADE_3);
    let line = counter.insert(FREE, part(40, 58), ALONG_THEN_ACROSS);
    let inside = cut(0, 0, 58, PART, FREE_PIECE);
    assert_eq!(line.cuts(), cut(0, 1, 40, STRUCTURE, FREE_PIECE) + &inside);
    assert_eq!(line.amounts(), "0302");
    let line = counter.insert(mark(4, 6), part(30, 60), ALONG);
    assert_eq!(line.cuts(), cut(0, 1, 40, STRUCTURE, SEVERAL) + &inside + &cut(1, 1, 30, PART, FREE_PIECE));
    assert_eq!(line.amounts(), "030203");
    assert_eq!(sawn(&line, 100, 60), [(40, 58), (30, 60), (24, 60)]);
}

/// Why the amounts stand beside the list: by the list alone these two sheets can't be told apart.
#[test]
fn one_list_of_cuts_and_other_pieces() {
    let sheet = Opening { width: 3, height: 1, stages: 1, blade: 1, ..SHEET };
    let mut counter = Counter::with(sheet);
    let first = counter.insert(FREE, part(1, 1), ALONG);
    assert_eq!((sawn(&first, 3, 1), first.amounts()), (vec![(1, 1), (1, 1)], "01"));
    counter.insert(mark(2, 4), part(1, 1), ALONG);
    let second = counter.remove(mark(1, 3));
    assert_eq!((sawn(&second, 3, 1), second.amounts()), (vec![(1, 1), (2, 1)], "00"));
    assert_eq!(first.cuts(), second.cuts());
    assert_eq!(first.cuts(), cut(0, 1, 1, PART, FREE_PIECE));
}

#[test]
fn the_saw_loses_the_amount_with_each_cut() {
    let sheet = Rectangle { width: 100, height: 60 };
    let wide = |width| Rectangle { width, ..sheet };
    let cut = Cut { place: 0, way: Vertical, distance: 40, piece: PART, left: FREE_PIECE, amount: 3 };
    assert_eq!(saw::saw(sheet, &[cut]), Ok(vec![wide(40), wide(57)]));
    assert_eq!(saw::saw(sheet, &[Cut { distance: 97, ..cut }]), Ok(vec![wide(97)]));
    for distance in [0, 98, 100] {
        assert!(saw::saw(sheet, &[Cut { distance, ..cut }]).is_err(), "{distance}");
    }
}

#[test]
fn a_blade_of_100_is_the_widest() {
    let mut counter = Counter::with(Opening { blade: 100, ..SHEET });
    let line = counter.insert(FREE, part(40, 60), ALONG);
    assert_eq!(areas(&line), [2400, 0, 3600]);
    for blade in [101, 128, 255] {
        let refused_line = counter.send(Request::Open(Opening { blade, ..SHEET }));
        assert_eq!(refused_line.answer(), refused(1, 2), "{blade}");
        assert_eq!(refused_line.snapshot(), line.snapshot());
    }
}

#[test]
fn an_opening_without_its_blade_is_malformed() {
    let mut counter = Counter(Session::default());
    assert_eq!(counter.send_line("010001000000640000003c01035a").answer(), "ff0ef3");
    assert_eq!(counter.send_line("010001000000640000003c010300005a").answer(), "ff0ef3");
    assert_eq!(counter.send_line("010001000000640000003c01030357").answer(), success(1, &bytes_of(&[FREE])));
}

#[test]
fn a_restore_brings_the_blade_back() {
    let mut counter = Counter::with(BOARD);
    counter.send(Request::Keep);
    counter.open(Opening { blade: 0, ..BOARD });
    counter.insert(FREE, part(40, 1), ALONG);
    assert_eq!(counter.send(Request::Restore).snapshot(), row(&[], 100));
    assert_eq!(counter.insert(FREE, part(40, 1), ALONG).snapshot(), row(&[(40, 3)], 57));

    counter.open(Opening { blade: 0, ..BOARD });
    counter.send(Request::Keep);
    counter.open(Opening { blade: 100, ..BOARD });
    counter.insert(FREE, part(40, 1), ALONG);
    counter.send(Request::Restore);
    // the sheet with the blade had serials to 4
    let line = counter.insert(FREE, part(40, 1), ALONG);
    assert_eq!(line.snapshot(), row(&[(40, 0)], 60));
    assert_eq!(line.free_list(), marks(&[mark(2, 6)]));
}

#[test]
fn the_rust_judges_where_the_blade_eats_nothing() {
    let mut counter = Counter::with(BOARD);
    let judge = |counter: &Counter| counter.0.sheet().expect("an open sheet").judge();
    counter.send(Request::Keep);
    assert_eq!(judge(&counter), "model");
    counter.open(Opening { blade: 0, ..BOARD });
    assert_eq!(judge(&counter), "rust");
    counter.send(Request::Restore);
    assert_eq!(judge(&counter), "model");

    counter.open(Opening { blade: 0, ..BOARD });
    counter.send(Request::Keep);
    counter.open(BOARD);
    counter.send(Request::Restore);
    assert_eq!(judge(&counter), "rust");
}

#[test]
#[should_panic(expected = "the Rust, on the left, and the model agree")]
fn the_driver_stops_where_the_judges_differ() {
    crate::sheet::agreed(Some(vec![ALONG]), Some(vec![ACROSS]));
}
