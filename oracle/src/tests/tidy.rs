//! Tidying (document 02, change request 5), by hand: what is taken out, in which order, what is given back, when it is refused; and that another order gives
//! the same tree, on random sheets.

use super::*;
use crate::orders;

const BLADE_3: Opening = Opening { blade: 3, ..SHEET };

/// The answer to a tidying that took out so many.
fn tidied(count: u16) -> String {
    success(0x1b, &count.to_be_bytes())
}

/// The tree of a sheet as it was opened.
fn whole() -> String {
    node(0, STRUCTURE, 1, 0, 100, 60) + &node(1, FREE_PIECE, 0, 0, 100, 60)
}

impl Counter {
    fn tidy(&mut self) -> Line {
        self.send(Request::Tidy)
    }

    /// Sets the last serial issued.
    fn spend_serials_to(&mut self, last: u32) {
        self.0.sheet_mut().spend_serials_to(last);
    }
}

#[test]
fn table_k_tidied() {
    let mut counter = Counter::with_stages(2);
    counter.insert(FREE, part(100, 20), ACROSS);
    counter.remove(mark(2, 4));
    let shelf = Part { number: 8, width: 40, height: 30, turn: 1 };
    assert_eq!(counter.light(shelf), DARK);
    let line = counter.tidy();
    assert_eq!(line.answer(), tidied(1));
    assert_eq!(line.snapshot(), whole());
    assert_eq!(line.free_list(), marks(&[mark(1, 7)]));
    assert_eq!(line.removable_list(), marks(&[TOP]));
    assert_eq!(counter.light(shelf), lit(mark(1, 7)));
    assert_eq!(counter.remove(mark(1, 3)).answer(), refused(4, 5));
    assert_eq!(counter.remove(mark(2, 6)).answer(), refused(4, 5));
}

#[test]
fn a_tidy_sheet_stays_as_it_is() {
    let mut counter = Counter::with_stages(3);
    let before = counter.insert(FREE, part(40, 30), ALONG_THEN_ACROSS);
    let line = counter.tidy();
    assert_eq!(line.answer(), tidied(0));
    assert_eq!(line.0[1..6], before.0[1..6]);
    assert_eq!(line.light(), "-");
}

#[test]
fn the_top_is_never_taken_out() {
    assert_eq!(Counter::with_stages(3).tidy().answer(), tidied(0));
    assert_eq!(Counter::with_stages(3).tidy().snapshot(), whole());
}

#[test]
fn no_tidying_without_a_sheet() {
    let mut counter = Counter(Session::default());
    assert_eq!(
        counter.tidy().0,
        [refused(0x1b, 1), "-".into(), "-".into(), "-".into(), "-".into(), "-".into(), "-".into(), "-".into(), "-".into()]
    );
}

#[test]
fn a_booking_its_removal_and_a_tidying_give_the_tree_back() {
    for opening in [SHEET, BLADE_3] {
        for (sides, offer, count) in
            [((40, 60), ALONG, 0), ((100, 20), ACROSS, 1), ((40, 30), ALONG_THEN_ACROSS, 1), ((40, 30), ACROSS_THEN_ALONG, 2)]
        {
            let mut counter = Counter::with(opening);
            let booked = counter.insert(FREE, part(sides.0, sides.1), offer);
            assert_ne!(booked.snapshot(), whole());
            let number = usize::from(offer.shape) - 1;
            counter.remove(mark([1, 2, 2, 3][number], [3, 4, 4, 5][number]));
            let line = counter.tidy();
            assert_eq!((line.answer(), line.snapshot()), (tidied(count).as_str(), whole().as_str()), "{offer:?}");
        }
    }
}

/// Two structures in different rows: the one at place 5 comes before the one at place 4 in the tree. Which went first shows in the serials.
#[test]
fn the_lowest_place_goes_first() {
    let mut counter = Counter::with_stages(3);
    counter.insert(FREE, part(40, 30), ALONG_THEN_ACROSS);
    counter.insert(mark(3, 5), part(40, 10), ALONG);
    counter.insert(mark(4, 6), part(60, 20), ACROSS);
    let line = counter.insert(mark(5, 8), part(10, 20), ACROSS);
    assert_eq!(line.answer(), success(3, &[bytes_of(&[mark(5, 12), mark(8, 13)]), vec![1], bytes_of(&[mark(9, 14)])].concat()));
    counter.remove(mark(8, 13));
    counter.remove(mark(6, 10));
    let line = counter.tidy();
    assert_eq!(line.answer(), tidied(2));
    assert_eq!(line.free_list(), marks(&[mark(4, 17), mark(5, 18)]));
}

#[test]
fn a_structure_goes_once_what_was_in_it_is_out() {
    let mut counter = Counter::with_stages(3);
    counter.insert(FREE, part(40, 30), ACROSS_THEN_ALONG);
    let line = counter.remove(mark(3, 5));
    // the strip has one child, which is free; the structure above it has two
    let strip = node(2, STRUCTURE, 1, 0, 100, 30) + &node(3, FREE_PIECE, 0, 0, 100, 30);
    let tree = [node(0, 2, 1, 0, 100, 60), node(1, 2, 0, 0, 100, 60), strip, node(2, 0, 1, 0, 100, 30)];
    assert_eq!(line.snapshot(), tree.concat());
    let line = counter.tidy();
    assert_eq!((line.answer(), line.snapshot()), (tidied(2).as_str(), whole().as_str()));
}

#[test]
fn a_structure_with_two_children_stays() {
    let mut counter = Counter::with_stages(3);
    counter.insert(FREE, part(100, 20), ACROSS);
    let before = counter.insert(mark(3, 5), part(100, 10), ALONG);
    assert_eq!(counter.tidy().snapshot(), before.snapshot());
    let before = counter.remove(mark(2, 4));
    assert_eq!(counter.tidy().snapshot(), before.snapshot());
}

/// A structure that fills the row it stands in to the end, before it a part: the new free piece is alone, and as large as the structure.
#[test]
fn alone_and_merged() {
    let mut counter = Counter::with(BLADE_3);
    counter.insert(FREE, part(40, 30), ALONG_THEN_ACROSS);
    counter.insert(mark(4, 6), part(57, 20), ACROSS);
    // the first structure has 3 eaten behind it, and the last of the row is a structure
    counter.remove(mark(2, 4));
    let line = counter.tidy();
    assert_eq!(line.answer(), tidied(1));
    let held = node(2, PART, 1, 7, 57, 20);
    let held = format!("{}03", &held[..held.len() - 2]) + &node(2, FREE_PIECE, 1, 0, 57, 37);
    let tree = [node(0, 2, 1, 0, 100, 60), node(1, 2, 0, 0, 57, 60), held, node(1, 0, 0, 0, 43, 60)];
    assert_eq!(line.snapshot(), tree.concat());
    // now the other one, merged with the free piece of 43
    counter.remove(mark(5, 8));
    let line = counter.tidy();
    assert_eq!((line.answer(), line.snapshot()), (tidied(1).as_str(), whole().as_str()));
}

#[test]
fn an_amount_comes_back_with_the_structure() {
    let mut counter = Counter::with(BLADE_3);
    counter.insert(FREE, part(40, 30), ALONG_THEN_ACROSS);
    let line = counter.remove(mark(2, 4));
    assert_eq!(&line.figures()[64..], format!("{:016x}", 3 * 60));
    let line = counter.tidy();
    assert_eq!(line.snapshot(), whole());
    assert_eq!(&line.figures()[64..], format!("{:016x}", 0));
}

#[test]
fn a_restore_brings_back_what_a_tidying_took_out() {
    let mut counter = Counter::with_stages(2);
    counter.insert(FREE, part(100, 20), ACROSS);
    let untidy = counter.remove(mark(2, 4));
    counter.send(Request::Keep);
    counter.tidy();
    let line = counter.send(Request::Restore);
    assert_eq!(line.0[1..6], untidy.0[1..6]);
    // serial 7 was issued by the tidying and isn't issued again
    assert_eq!(counter.tidy().free_list(), marks(&[mark(1, 8)]));
}

#[test]
fn serials_for_the_whole_or_none() {
    let emptied = |last| {
        let mut counter = Counter::with_stages(3);
        counter.insert(FREE, part(40, 30), ACROSS_THEN_ALONG);
        counter.remove(mark(3, 5));
        counter.spend_serials_to(last);
        counter
    };
    let mut counter = emptied(999_998);
    let line = counter.tidy();
    assert_eq!((line.answer(), line.free_list()), (tidied(2).as_str(), marks(&[mark(1, 1_000_000)]).as_str()));
    // a tidy sheet asks for none
    assert_eq!(counter.tidy().answer(), tidied(0));
    for last in [999_999, 1_000_000] {
        let mut counter = emptied(last);
        let before = counter.send(Request::Report);
        let line = counter.tidy();
        assert_eq!(line.answer(), refused(0x1b, 9), "{last}");
        assert_eq!(line.0[1..6], before.0[1..6], "{last}");
    }
}

#[test]
fn at_the_counter_it_is_malformed() {
    let mut counter = Counter(Session::at_counter());
    counter.open(Opening { stages: 2, ..SHEET });
    counter.insert(FREE, part(100, 20), ACROSS);
    let before = counter.remove(mark(2, 4));
    let line = counter.tidy();
    assert_eq!(line.answer(), "ff0ef3");
    assert_eq!(line.snapshot(), before.snapshot());
}

#[test]
fn malformed_tidyings() {
    let mut counter = Counter::with_stages(3);
    for line in ["1b", "1be4", "1b00e5", "1BE5", "1be5 ", "1a00e6", "1ce4"] {
        assert_eq!(counter.send_line(line).answer(), "ff0ef3", "{line:?}");
    }
    assert_eq!(counter.send_line("1be5").answer(), "1b000000e5");
}

#[test]
fn the_same_tree_in_another_order() {
    for kind in ["mixed+tidy", "mixed+blade+tidy"] {
        let tried = orders::tried(11, 150, kind).expect("a kind of session");
        assert!(tried.states > 100 && tried.others_first > 10, "{tried:?}");
        assert!(tried.bookings.iter().all(|count| *count > 0), "{tried:?}");
    }
}
