//! Two clerks on one sheet (document 02, change request 10): they call their steps in turn, and the tree doesn't depend on whose turn comes first.
//!
//! A step books a part in a free piece, or takes a part or a structure out. All steps of a list name pieces of one sheet as it stands at the start. Two steps are
//! apart there if their pieces differ, neither piece lies inside the other, and, where one books and the other removes, the pieces don't have the same parent.
//! Steps that are apart give the same tree and bring the same parts out in every order, and no call is refused but for too many pieces. Of other steps some
//! orders are refused, and those that are accepted give the same tree.
//!
//! What lies inside what is read off a plain tree with marks. The tests keep it beside the sheet, by docs/RULES.md, and compare it with the snapshots.

mod common;

use std::collections::HashSet;

use common::Random;
use nickelgrove_kiosk::{Kind, Mark, Node, Offer, Part, Refusal, Rotation, Shape, Sheet, Way};

/// A clerk's step: a booking in the piece, or its removal.
#[derive(Clone, Copy, Debug)]
struct Step {
    piece: Mark,
    booking: Option<(Part, Offer)>,
}

impl Step {
    /// A booking in rotation Default.
    fn book(piece: Mark, number: u16, width: u32, height: u32, shape: Shape) -> Self {
        Step { piece, booking: Some((Part::new(number, width, height), Offer { rotation: Rotation::Default, shape })) }
    }

    fn remove(piece: Mark) -> Self {
        Step { piece, booking: None }
    }

    fn books(&self) -> bool {
        self.booking.is_some()
    }

    /// Calls it. Gives the numbers of the parts that come out, which are none of a booking.
    fn call(&self, sheet: &mut Sheet) -> Result<Vec<u16>, Refusal> {
        match self.booking {
            Some((part, offer)) => sheet.insert(self.piece, part, offer).map(|_| vec![]),
            None => sheet.remove(self.piece).map(|removal| removal.parts),
        }
    }
}

/// The pieces of a sheet in the order of its snapshot, with their marks: by docs/RULES.md, and not by calls.
#[derive(Clone, Debug)]
struct Tree {
    marks: Vec<Mark>,
    nodes: Vec<Node>,
    serial: u32,
    blade: u32,
}

impl Tree {
    fn find(&self, piece: Mark) -> usize {
        self.marks.iter().position(|mark| *mark == piece).expect("a piece of the tree")
    }

    /// Where what is inside a piece ends.
    fn end(&self, at: usize) -> usize {
        at + 1 + self.nodes[at + 1..].iter().take_while(|node| node.level > self.nodes[at].level).count()
    }

    fn parent(&self, at: usize) -> Option<usize> {
        self.nodes[..at].iter().rposition(|node| node.level < self.nodes[at].level)
    }

    fn are_apart(&self, one: &Step, other: &Step) -> bool {
        let (here, there) = (self.find(one.piece), self.find(other.piece));
        let is_inside = |inner, outer| (outer + 1..self.end(outer)).contains(&inner);
        let joins = one.books() != other.books() && self.parent(here) == self.parent(there);
        here != there && !is_inside(here, there) && !is_inside(there, here) && !joins
    }

    /// Puts a new piece here. It takes the next serial, and the lowest place that holds none.
    fn put(&mut self, at: usize, node: Node) {
        let place = (0..255).find(|place| self.marks.iter().all(|mark| mark.place() != *place)).expect("a place");
        self.serial += 1;
        self.marks.insert(at, Mark::from_numbers(1, place, self.serial));
        self.nodes.insert(at, node);
    }

    /// Carries out a step that is accepted, and gives what its call gives.
    fn take(&mut self, step: &Step) -> Vec<u16> {
        let at = self.find(step.piece);
        let Some((part, offer)) = step.booking else { return self.remove(at) };
        self.marks.remove(at);
        let free = self.nodes.remove(at);
        for (behind, node) in made(free, part, offer, self.blade).into_iter().enumerate() {
            self.put(at + behind, node);
        }
        vec![]
    }

    /// Takes a piece out, and joins it with what was eaten behind it and with the free piece at the end of its row.
    fn remove(&mut self, at: usize) -> Vec<u16> {
        let (parent, end) = (self.parent(at).expect("it is not the sheet itself"), self.end(at));
        self.marks.drain(at..end);
        let gone: Vec<Node> = self.nodes.drain(at..end).collect();
        let (mut free, mut end) = (gone[0], self.end(parent));
        *length(&mut free) += u32::from(free.eaten);
        (free.kind, free.eaten) = (Kind::Free, 0);
        if (self.nodes[end - 1].level, self.nodes[end - 1].kind) == (free.level, Kind::Free) {
            end -= 1;
            self.marks.remove(end);
            *length(&mut free) += *length(&mut self.nodes.remove(end));
        }
        self.put(end, free);
        gone.iter().filter_map(Node::part_number).collect()
    }
}

/// The side of a piece that lies along its row.
fn length(node: &mut Node) -> &mut u32 {
    match node.cut {
        Way::Horizontal => &mut node.width,
        Way::Vertical => &mut node.height,
    }
}

/// Cuts so much off a free piece: what is cut off, with what the blade eats behind it, and what is left.
fn cut_off(free: Node, much: u32, kind: Kind, blade: u32) -> [Node; 2] {
    let (mut piece, mut left) = (free, free);
    let behind = *length(&mut left) - much;
    let eaten = behind.min(blade);
    (*length(&mut piece), *length(&mut left)) = (much, behind - eaten);
    (piece.kind, piece.eaten) = (kind, eaten as u8);
    [piece, left]
}

/// What a booking makes of a free piece, in the order of the table in docs/RULES.md, "Insertion". What is across in a piece is along in one that fills it.
fn made(free: Node, part: Part, offer: Offer, blade: u32) -> Vec<Node> {
    let by_width = (free.cut == Way::Horizontal) == (offer.rotation == Rotation::Default);
    let along = if by_width { part.width } else { part.height };
    let inside = |mut node: Node, shape| {
        (node.level, node.kind, node.eaten) = (node.level + 1, Kind::Free, 0);
        node.cut = if node.cut == Way::Vertical { Way::Horizontal } else { Way::Vertical };
        made(node, part, Offer { shape, ..offer }, blade)
    };
    let mut whole = free;
    whole.kind = Kind::Structure;
    match offer.shape {
        Shape::AlongCurrentCut => cut_off(free, along, Kind::Part { number: part.number }, blade).to_vec(),
        Shape::AcrossCurrentCut => [vec![whole], inside(whole, Shape::AlongCurrentCut)].concat(),
        Shape::AlongThenAcross => {
            let [strip, left] = cut_off(free, along, Kind::Structure, blade);
            [vec![strip], inside(strip, Shape::AlongCurrentCut), vec![left]].concat()
        }
        Shape::AcrossThenAlong => [vec![whole], inside(whole, Shape::AlongThenAcross)].concat(),
    }
}

/// Width, height, first cut, stages and blade.
type Opening = (u32, u32, Way, u8, u8);

fn opened((width, height, first_cut, stages, blade): Opening) -> Sheet {
    Sheet::open_with_blade(1, width, height, first_cut, stages, blade).expect("inside the limits")
}

/// What an order of a list gives: the tree, and the parts that each step of the list brought out.
type Outcome = (Vec<Node>, Vec<Vec<u16>>);

/// A sheet at the start of a list, with its past, and the plain tree beside it.
#[derive(Debug)]
struct Start {
    opening: Opening,
    past: Vec<Step>,
    sheet: Sheet,
    tree: Tree,
}

impl Start {
    fn open(opening: Opening) -> Self {
        let (sheet, marks) = (opened(opening), vec![Mark::from_numbers(1, 0, 1), Mark::from_numbers(1, 1, 2)]);
        let tree = Tree { marks, nodes: sheet.snapshot().expect("a sheet"), serial: 2, blade: opening.4.into() };
        Start { opening, past: vec![], sheet, tree }
    }

    /// A sheet after random steps, of which so many are tried. No large structure is taken out, and what a full sheet refuses is left out.
    fn random(random: &mut Random, opening: Opening, tries: usize) -> Self {
        let mut start = Start::open(opening);
        for _ in 0..tries {
            let at = random.below(start.tree.nodes.len() as u64) as usize;
            let Some(step) = start.step(random, at) else { continue };
            if step.books() || (start.tree.end(at) - at < 8 && random.below(6) == 0) {
                start.take(step).unwrap_or_else(|refusal| assert_eq!(refusal.number(), 8, "{step:?}"));
            }
        }
        start
    }

    /// Calls a step. Where it is accepted the plain tree takes it too, and has to be the sheet's.
    fn take(&mut self, step: Step) -> Result<(), Refusal> {
        let parts = step.call(&mut self.sheet)?;
        self.past.push(step);
        assert_eq!(parts, self.tree.take(&step), "{self:?}");
        assert_eq!(self.sheet.snapshot().as_ref(), Ok(&self.tree.nodes), "{self:?}");
        Ok(())
    }

    /// Another sheet with the same past, and so with the same marks.
    fn again(&self) -> Sheet {
        let mut sheet = opened(self.opening);
        for step in &self.past {
            step.call(&mut sheet).expect("it was accepted before");
        }
        sheet
    }

    /// Calls the steps of the list in this order. Where one is refused, gives which one, and the number of the refusal.
    fn run(&self, list: &[Step], order: &[usize]) -> Result<Outcome, (usize, u8)> {
        let (mut sheet, mut parts) = (self.again(), vec![vec![]; list.len()]);
        for at in order {
            parts[*at] = list[*at].call(&mut sheet).map_err(|refusal| (*at, refusal.number()))?;
        }
        Ok((sheet.snapshot().expect("a sheet"), parts))
    }

    /// A step for the piece that the snapshot has here, if there is one. A part gets the free piece's serial for its number: no other part has that.
    fn step(&self, random: &mut Random, at: usize) -> Option<Step> {
        let (piece, node) = (self.tree.marks[at], self.tree.nodes[at]);
        if node.kind != Kind::Free {
            return (at > 0).then_some(Step::remove(piece));
        }
        let (one, other) = (side(random, node.width), side(random, node.height));
        let (width, height) = one_of(random, &[(one, other), (other, one)]);
        let part = Part::new(piece.serial() as u16, width, height);
        let offers = self.sheet.offers(piece, part).expect("a free piece");
        (!offers.is_empty()).then(|| Step { piece, booking: Some((part, one_of(random, &offers))) })
    }

    /// A step for each piece that has one, in a random order. The pieces are those of the sheet's two lists.
    fn steps(&self, random: &mut Random) -> Vec<Step> {
        let listed = [self.sheet.free_pieces(), self.sheet.removable()].map(|list| list.expect("a sheet")).concat();
        let set = |marks: &[Mark]| -> HashSet<Mark> { marks.iter().copied().collect() };
        assert_eq!(set(&listed), set(&self.tree.marks), "{self:?}");
        let mut steps: Vec<Step> = (0..listed.len()).filter_map(|at| self.step(random, at)).collect();
        shuffle(random, &mut steps);
        steps
    }

    /// A list of steps that are apart, as long as a random choice finds it, the removals first. Bookings that a full sheet refuses even then are left out.
    fn steps_apart(&self, random: &mut Random) -> Vec<Step> {
        let mut list: Vec<Step> = vec![];
        for step in self.steps(random) {
            if list.iter().all(|other| self.tree.are_apart(&step, other)) {
                list.push(step);
            }
        }
        list.sort_by_key(Step::books);
        let mut sheet = self.again();
        let refused = |refusal: Refusal| assert_eq!(refusal.number(), 8, "{self:?}");
        list.retain(|step| step.call(&mut sheet).map_err(refused).is_ok());
        list
    }
}

fn one_of<T: Copy>(random: &mut Random, list: &[T]) -> T {
    list[random.below(list.len() as u64) as usize]
}

fn shuffle<T>(random: &mut Random, list: &mut [T]) {
    list.sort_by_cached_key(|_| random.below(u64::MAX));
}

/// A side of a part for a piece that has so much: now and then all of it, else up to a third.
fn side(random: &mut Random, of: u32) -> u32 {
    let third = 1 + random.below(u64::from(of / 3 + 1)) as u32;
    one_of(random, &[of.max(1), third, third, third])
}

fn random_opening(random: &mut Random) -> Opening {
    let largest = one_of(random, &[100, 1_000, 10_000, 67_108_863]);
    let (width, height) = (1 + random.below(largest) as u32, 1 + random.below(largest) as u32);
    let first_cut = one_of(random, &[Way::Horizontal, Way::Vertical]);
    (width, height, first_cut, one_of(random, &[1, 2, 3, 4, 6, 9, 254]), one_of(random, &[0, 0, 1, 3, 10, 100]))
}

/// Every order of so many steps.
fn orders(count: usize) -> Vec<Vec<usize>> {
    let Some(last) = count.checked_sub(1) else { return vec![vec![]] };
    let with_last = |order: Vec<usize>| (0..count).map(move |at| [&order[..at], &[last], &order[at..]].concat());
    orders(last).into_iter().flat_map(with_last).collect()
}

/// Steps that are apart, on random sheets, every twentieth a full one: the removals first, the bookings first, and in random orders. What is accepted has one
/// outcome, which is that of the rules, and nothing is refused but for too many pieces.
#[test]
fn apart_in_any_order() {
    let (mut random, mut of_three, mut of_both_kinds, mut accepted, mut refused) = (Random(10), 0, 0, 0, 0);
    for round in 0..200 {
        let to_be_full = ((90_000, 60_000, Way::Vertical, 9, 3), 1_000);
        let (opening, tries) = if round % 20 == 0 { to_be_full } else { (random_opening(&mut random), 60) };
        let start = Start::random(&mut random, opening, tries);
        let list = start.steps_apart(&mut random);
        of_three += usize::from(list.len() >= 3);
        of_both_kinds += usize::from(list.iter().any(Step::books) && !list.iter().all(Step::books));
        let mut tree = start.tree.clone();
        let parts = list.iter().map(|step| tree.take(step)).collect();
        let right = Ok((tree.nodes, parts));
        let mut order: Vec<usize> = (0..list.len()).collect();
        assert_eq!(start.run(&list, &order), right, "{list:?}, {start:?}");
        order.reverse();
        for _ in 0..6 {
            let outcome = start.run(&list, &order);
            if matches!(outcome, Err((_, 8))) {
                refused += 1;
            } else {
                assert_eq!(outcome, right, "{order:?} of {list:?}, {start:?}");
                accepted += 1;
            }
            shuffle(&mut random, &mut order);
        }
    }
    let counts = [of_three, of_both_kinds, accepted, refused];
    assert!(counts.iter().zip([120, 80, 1_000, 20]).all(|(count, least)| *count >= least), "{counts:?}");
}

/// Any three or four steps, in every order: those orders that are accepted have one outcome.
#[test]
fn any_steps_in_every_order() {
    let (mut random, mut of_two, mut of_two_and_refused) = (Random(11), 0, 0);
    for _ in 0..200 {
        let opening = random_opening(&mut random);
        let start = Start::random(&mut random, opening, 25);
        let steps = start.steps(&mut random);
        let count = if steps.is_empty() { 0 } else { 3 + random.below(2) };
        let list: Vec<Step> = (0..count).map(|_| one_of(&mut random, &steps)).collect();
        let outcomes: Vec<_> = orders(list.len()).iter().map(|order| start.run(&list, order)).collect();
        let accepted: Vec<&Outcome> = outcomes.iter().flatten().collect();
        assert!(accepted.windows(2).all(|pair| pair[0] == pair[1]), "{list:?}, {start:?}");
        of_two += usize::from(accepted.len() >= 2);
        of_two_and_refused += usize::from((2..outcomes.len()).contains(&accepted.len()));
    }
    assert!(of_two >= 60 && of_two_and_refused >= 40, "{of_two}, {of_two_and_refused}");
}

/// A full sheet: the booking is refused with 8 until a part is out that lies elsewhere. Else the order of the two doesn't matter.
#[test]
fn full_until_a_part_is_out() {
    let mut start = Start::open((1_000, 600, Way::Vertical, 3, 0));
    start.take(Step::book(start.tree.marks[1], 1, 40, 30, Shape::AlongThenAcross)).expect("the sheet is empty");
    for number in 2..=251 {
        let free = start.tree.marks[start.tree.marks.len() - 1];
        start.take(Step::book(free, number, 1, 600, Shape::AlongCurrentCut)).expect("the sheet is not full yet");
    }
    let list = [Step::book(start.tree.marks[254], 252, 1, 600, Shape::AlongCurrentCut), Step::remove(start.tree.marks[2])];
    assert!(start.tree.are_apart(&list[0], &list[1]));
    assert_eq!(start.run(&list, &[0, 1]), Err((0, 8)));
    let (nodes, parts) = start.run(&list, &[1, 0]).expect("the part is out first");
    assert_eq!((nodes.len(), parts), (255, vec![vec![], vec![1]]));
    // the refused booking has changed nothing
    let mut sheet = start.again();
    let called = [0, 1, 0].map(|at| list[at].call(&mut sheet));
    assert_eq!(called, [Err(Refusal::TooManyPieces), Ok(vec![1]), Ok(vec![])]);
    assert_eq!(sheet.snapshot(), Ok(nodes));
}

/// A booking in a free piece, and the removal of the part beside it: the removal joins the two, and the free piece is gone if it comes first.
#[test]
fn under_one_parent() {
    for blade in [0, 3] {
        let mut start = Start::open((100, 60, Way::Vertical, 3, blade));
        start.take(Step::book(start.tree.marks[1], 7, 40, 60, Shape::AlongCurrentCut)).expect("the sheet is empty");
        let list = [Step::book(start.tree.marks[2], 8, 20, 60, Shape::AlongCurrentCut), Step::remove(start.tree.marks[1])];
        assert!(!start.tree.are_apart(&list[0], &list[1]));
        let (nodes, parts) = start.run(&list, &[0, 1]).expect("the booking comes first");
        assert_eq!((nodes[1].width, nodes[2].width, parts), (20, 80 - u32::from(blade), vec![vec![], vec![7]]));
        assert_eq!(start.run(&list, &[1, 0]), Err((0, 5)));
    }
}

/// A booking in a free piece, and the removal of a structure that it lies in, as a child or deeper: the free piece is gone if the removal comes first.
#[test]
fn one_inside_the_other() {
    for (free, width, height) in [(4, 20, 30), (5, 100, 10)] {
        let mut start = Start::open((100, 60, Way::Vertical, 3, 0));
        let empty = start.tree.nodes.clone();
        start.take(Step::book(start.tree.marks[1], 7, 40, 30, Shape::AcrossThenAlong)).expect("the sheet is empty");
        let (free, whole) = (start.tree.marks[free], start.tree.marks[1]);
        let list = [Step::book(free, 8, width, height, Shape::AlongCurrentCut), Step::remove(whole)];
        assert!(!start.tree.are_apart(&list[0], &list[1]));
        assert_eq!(start.run(&list, &[0, 1]), Ok((empty, vec![vec![], vec![7, 8]])));
        assert_eq!(start.run(&list, &[1, 0]), Err((0, 5)));
    }
}
