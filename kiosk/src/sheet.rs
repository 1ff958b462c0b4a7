//! A sheet, with every proved call in Rust's types.

use std::fmt;

use crate::{Answer, Booking, Cut, Desk, Figures, Mark, Node, Offer, Part, Reasons, Refusal, Removal, Request, Way};

/// A stock sheet on a desk of its own.
///
/// Each call writes a frame, has the proved archive answer it, and reads the answer: nothing is worked out here. A sheet is made by an opening that was accepted,
/// and by nothing else.
///
/// A call that is refused changes nothing. Those that only look take `&self`, and change nothing either. A call works on copies of the session: 512 KiB of stack
/// are enough.
///
/// Two refusals stand in the `Result` of every call and don't come: [`Refusal::NoSheet`], since a sheet is open (of [`Sheet::restore`] it says that nothing was
/// kept), and [`Refusal::Unreadable`], since the archive's answers are proved. The calls name the others.
///
/// It can't be copied: of two sheets with one past, each would issue the other's marks for pieces of its own.
///
/// ```compile_fail
/// use nickelgrove_kiosk::{Sheet, Way};
///
/// let sheet = Sheet::open(1, 100, 60, Way::Vertical, 3).unwrap();
/// let copy = sheet.clone();
/// ```
pub struct Sheet {
    desk: Desk,
}

/// What a request is answered with, by the variant of its op. No other can come (desk.rs compares the ops).
macro_rules! answered {
    ($answer:expr, $variant:pat => $value:expr) => {
        match $answer? {
            $variant => Ok($value),
            _ => Err(Refusal::Unreadable),
        }
    };
}

impl Sheet {
    /// Opens a sheet: its layout number, its sides, the way in which it is cut first, and how many cuts deep the saw goes. Its blade eats nothing;
    /// [`Sheet::open_with_blade`] is for one that does.
    ///
    /// Give each sheet a layout number of its own. A mark names its sheet by it: marks of two sheets with one number could be taken for each other.
    ///
    /// ```
    /// use nickelgrove_kiosk::{Refusal, Sheet, Way};
    ///
    /// let sheet = Sheet::open(1, 100, 60, Way::Vertical, 3)?;
    /// assert_eq!(sheet.free_pieces()?.len(), 1);
    /// assert_eq!(Sheet::open(2, 0, 60, Way::Vertical, 3).err(), Some(Refusal::SheetOutsideLimits));
    /// # Ok::<(), Refusal>(())
    /// ```
    ///
    /// # Errors
    /// [`Refusal::SheetOutsideLimits`]: a side is not 1 to 67,108,863, or the stages are not 1 to 254.
    ///
    /// # Panics
    /// Where the archive is of another build, with other sizes than this crate has.
    pub fn open(number: u16, width: u32, height: u32, first_cut: Way, stages: u8) -> Result<Self, Refusal> {
        Sheet::open_with_blade(number, width, height, first_cut, stages, 0)
    }

    /// Opens a sheet for a saw whose blade is so wide: each piece that is cut off costs so much of what lies behind it, or all of that if it is less.
    ///
    /// What is removed gives back what was eaten behind it. What is offered doesn't change: a part has an offer where it fits, also if the blade then eats all that
    /// is left. docs/RULES.md, "The blade", has the rules, and where they differ from a real saw.
    ///
    /// ```
    /// use nickelgrove_kiosk::{Part, Refusal, Sheet, Way};
    ///
    /// // sheet 1, 100 x 60, first cut vertical, three stages, and a blade that is 3 wide
    /// let mut sheet = Sheet::open_with_blade(1, 100, 60, Way::Vertical, 3, 3)?;
    /// let (free, part) = (sheet.free_pieces()?[0], Part::new(7, 40, 60));
    /// sheet.insert(free, part, sheet.offers(free, part)?[0])?;
    /// let nodes = sheet.snapshot()?;
    /// assert_eq!((nodes[1].width, nodes[1].eaten, nodes[2].width), (40, 3, 57));
    /// assert_eq!(Sheet::open_with_blade(2, 100, 60, Way::Vertical, 3, 101).err(), Some(Refusal::SheetOutsideLimits));
    /// # Ok::<(), Refusal>(())
    /// ```
    ///
    /// # Errors
    /// [`Refusal::SheetOutsideLimits`]: a side is not 1 to 67,108,863, the stages are not 1 to 254, or the blade is more than 100 wide.
    ///
    /// # Panics
    /// Where the archive is of another build, with other sizes than this crate has.
    pub fn open_with_blade(number: u16, width: u32, height: u32, first_cut: Way, stages: u8, blade: u8) -> Result<Self, Refusal> {
        let mut desk = Desk::new();
        let request = Request::Open { number, width, height, first_cut, stages, blade };
        answered!(desk.ask(&request), Answer::Opened(_) => Sheet { desk })
    }

    /// The ways to book the part in the free piece, none to four of them.
    ///
    /// ```
    /// use nickelgrove_kiosk::{Offer, Part, Refusal, Rotation, Shape, Sheet, Way};
    ///
    /// let sheet = Sheet::open(1, 100, 60, Way::Vertical, 3)?;
    /// let free = sheet.free_pieces()?[0];
    /// let along = Offer { rotation: Rotation::Default, shape: Shape::AlongCurrentCut };
    /// assert_eq!(sheet.offers(free, Part::new(7, 40, 60))?[0], along);
    /// // too wide either way: no offers, and no refusal
    /// assert_eq!(sheet.offers(free, Part::new(7, 101, 101))?, []);
    /// # Ok::<(), Refusal>(())
    /// ```
    ///
    /// # Errors
    /// [`Refusal::PartOutsideLimits`], [`Refusal::OtherSheet`], [`Refusal::Gone`], [`Refusal::NotFree`], in this order.
    pub fn offers(&self, piece: Mark, part: Part) -> Result<Vec<Offer>, Refusal> {
        answered!(self.desk.look(&Request::Offers { piece, part }), Answer::Offers(offers) => offers)
    }

    /// Why the free piece doesn't take the part, in each rotation.
    ///
    /// ```
    /// use nickelgrove_kiosk::{Part, Reason, Refusal, Sheet, Turn, Way};
    ///
    /// let sheet = Sheet::open(1, 100, 60, Way::Vertical, 3)?;
    /// let free = sheet.free_pieces()?[0];
    /// let reasons = sheet.why_not(free, Part::new(7, 101, 60))?;
    /// assert_eq!((reasons.default, reasons.rotated), (Reason::TooWide, Reason::TooTall));
    /// let reasons = sheet.why_not(free, Part::new(7, 101, 60).turned(Turn::Default))?;
    /// assert_eq!(reasons.rotated, Reason::TurnForbidden);
    /// # Ok::<(), Refusal>(())
    /// ```
    ///
    /// # Errors
    /// As of [`Sheet::offers`].
    pub fn why_not(&self, piece: Mark, part: Part) -> Result<Reasons, Refusal> {
        answered!(self.desk.look(&Request::WhyNot { piece, part }), Answer::Reasons(reasons) => reasons)
    }

    /// Books the part in the free piece, in one of the ways that were offered. The free piece's mark is gone then.
    ///
    /// ```
    /// use nickelgrove_kiosk::{Part, Refusal, Sheet, Way};
    ///
    /// let mut sheet = Sheet::open(1, 100, 60, Way::Vertical, 3)?;
    /// let (free, part) = (sheet.free_pieces()?[0], Part::new(7, 40, 60));
    /// let offer = sheet.offers(free, part)?[0];
    /// let booking = sheet.insert(free, part, offer)?;
    /// assert_eq!(sheet.free_pieces()?, booking.free);
    /// assert_eq!(sheet.insert(free, part, offer), Err(Refusal::Gone));
    /// # Ok::<(), Refusal>(())
    /// ```
    ///
    /// # Errors
    /// [`Refusal::PartOutsideLimits`], [`Refusal::OtherSheet`], [`Refusal::Gone`], [`Refusal::NotFree`], [`Refusal::NotOffered`], [`Refusal::TooManyPieces`],
    /// [`Refusal::SerialsUsedUp`], in this order.
    pub fn insert(&mut self, piece: Mark, part: Part, offer: Offer) -> Result<Booking, Refusal> {
        answered!(self.desk.ask(&Request::Insert { piece, part, offer }), Answer::Booked(booking) => booking)
    }

    /// Takes a part out, or a structure with all that is in it. What the blade ate behind it comes back with it. The structures that it lay in stay;
    /// [`Sheet::tidy`] takes out those that hold nothing any more.
    ///
    /// ```
    /// use nickelgrove_kiosk::{Part, Refusal, Sheet, Way};
    ///
    /// let mut sheet = Sheet::open(1, 100, 60, Way::Vertical, 3)?;
    /// let (free, part) = (sheet.free_pieces()?[0], Part::new(7, 40, 60));
    /// let booking = sheet.insert(free, part, sheet.offers(free, part)?[0])?;
    /// let removal = sheet.remove(booking.part)?;
    /// assert_eq!(removal.parts, [7]);
    /// assert_eq!(sheet.free_pieces()?, [removal.free]);
    /// assert_eq!(sheet.remove(removal.free), Err(Refusal::NothingToRemove));
    /// # Ok::<(), Refusal>(())
    /// ```
    ///
    /// # Errors
    /// [`Refusal::OtherSheet`], [`Refusal::Gone`], [`Refusal::WholeSheet`], [`Refusal::NothingToRemove`], [`Refusal::SerialsUsedUp`], in this order.
    pub fn remove(&mut self, piece: Mark) -> Result<Removal, Refusal> {
        answered!(self.desk.ask(&Request::Remove { piece }), Answer::Removed(removal) => removal)
    }

    /// Tidies the sheet. A structure that holds one free piece and nothing else is taken out, as [`Sheet::remove`] takes it out; then the next one, until there
    /// is none. Gives how many were taken out: 0 where the sheet was tidy.
    ///
    /// A part that is removed leaves its structures behind, and their board, whole again, lies stages down, where it turns parts away. Tidying joins it with
    /// the free piece of the row above. Parts stay, and so do their marks; the marks of the structures and of the free pieces that go are gone. Of a sheet that
    /// was tidy, booking a part, removing it and tidying gives the same tree back (docs/RULES.md, "Tidying").
    ///
    /// ```
    /// use nickelgrove_kiosk::{Part, Reason, Refusal, Sheet, Way};
    ///
    /// // two stages
    /// let mut sheet = Sheet::open(1, 100, 60, Way::Vertical, 2)?;
    /// let (free, shelf) = (sheet.free_pieces()?[0], Part::new(7, 100, 20));
    /// let booking = sheet.insert(free, shelf, sheet.offers(free, shelf)?[0])?;
    /// sheet.remove(booking.part)?;
    /// // the board is whole again, but it lies in the shelf's structure, at the second stage
    /// let (free, panel) = (sheet.free_pieces()?[0], Part::new(8, 40, 30));
    /// assert_eq!(sheet.why_not(free, panel)?.default, Reason::StagesUsedUp);
    /// assert_eq!(sheet.tidy()?, 1);
    /// assert_eq!(sheet.offers(free, panel), Err(Refusal::Gone));
    /// assert!(sheet.room_light(panel)?.is_some());
    /// assert_eq!(sheet.tidy()?, 0);
    /// # Ok::<(), Refusal>(())
    /// ```
    ///
    /// # Errors
    /// [`Refusal::SerialsUsedUp`]: each structure that is taken out takes a serial, and there are not enough for all of them. None is taken out then.
    pub fn tidy(&mut self) -> Result<u16, Refusal> {
        answered!(self.desk.ask(&Request::Tidy), Answer::Tidied(count) => count)
    }

    /// Remembers the sheet as it stands, in place of what was kept before.
    ///
    /// ```
    /// use nickelgrove_kiosk::{Refusal, Sheet, Way};
    ///
    /// let mut sheet = Sheet::open(1, 100, 60, Way::Vertical, 3)?;
    /// sheet.keep()?;
    /// # Ok::<(), Refusal>(())
    /// ```
    ///
    /// # Errors
    /// None but those of every call, which don't come.
    pub fn keep(&mut self) -> Result<(), Refusal> {
        answered!(self.desk.ask(&Request::Keep), Answer::Kept => ())
    }

    /// Puts the sheet back as it was kept. What was kept stays. Marks that were issued since then are gone for ever.
    ///
    /// ```
    /// use nickelgrove_kiosk::{Part, Refusal, Sheet, Way};
    ///
    /// let mut sheet = Sheet::open(1, 100, 60, Way::Vertical, 3)?;
    /// assert_eq!(sheet.restore(), Err(Refusal::NoSheet));
    /// sheet.keep()?;
    /// let (free, part) = (sheet.free_pieces()?[0], Part::new(7, 40, 60));
    /// let booking = sheet.insert(free, part, sheet.offers(free, part)?[0])?;
    /// sheet.restore()?;
    /// assert_eq!(sheet.remove(booking.part), Err(Refusal::Gone));
    /// assert_eq!(sheet.free_pieces()?, [free]);
    /// # Ok::<(), Refusal>(())
    /// ```
    ///
    /// # Errors
    /// [`Refusal::NoSheet`]: nothing was kept.
    pub fn restore(&mut self) -> Result<(), Refusal> {
        answered!(self.desk.ask(&Request::Restore), Answer::Restored => ())
    }

    /// Whether there is room for the part on the sheet: the first piece of the free list that has an offer for it.
    ///
    /// ```
    /// use nickelgrove_kiosk::{Part, Refusal, Sheet, Way};
    ///
    /// let sheet = Sheet::open(1, 100, 60, Way::Vertical, 3)?;
    /// assert_eq!(sheet.room_light(Part::new(7, 40, 60))?, Some(sheet.free_pieces()?[0]));
    /// assert_eq!(sheet.room_light(Part::new(7, 101, 101))?, None);
    /// # Ok::<(), Refusal>(())
    /// ```
    ///
    /// # Errors
    /// [`Refusal::PartOutsideLimits`].
    pub fn room_light(&self, part: Part) -> Result<Option<Mark>, Refusal> {
        answered!(self.desk.look(&Request::RoomLight { part }), Answer::Light(piece) => piece)
    }

    /// The saw cuts that make the parts and the free pieces, in the order in which they are made, each with what the blade eats. A free piece without area is
    /// left out; where the blade ate something before it, the cut is listed.
    ///
    /// ```
    /// use nickelgrove_kiosk::{Cut, Part, Piece, Refusal, Sheet, Way};
    ///
    /// let mut sheet = Sheet::open(1, 100, 60, Way::Vertical, 3)?;
    /// let (free, part) = (sheet.free_pieces()?[0], Part::new(7, 40, 60));
    /// sheet.insert(free, part, sheet.offers(free, part)?[0])?;
    /// let cut = Cut { place: 0, way: Way::Vertical, distance: 40, piece: Piece::Part, left: Piece::Free, eaten: 0 };
    /// assert_eq!(sheet.cuts()?, [cut]);
    /// # Ok::<(), Refusal>(())
    /// ```
    ///
    /// # Errors
    /// None but those of every call, which don't come.
    pub fn cuts(&self) -> Result<Vec<Cut>, Refusal> {
        let listed = answered!(self.desk.look(&Request::Cuts), Answer::Cuts(listed) => listed)?;
        let amounts = answered!(self.desk.look(&Request::CutAmounts), Answer::CutAmounts(amounts) => amounts)?;
        // the two are of one sheet, and so are equally long
        Cut::all(&listed, &amounts).ok_or(Refusal::Unreadable)
    }

    /// The free pieces: the greatest area first, and of equal areas the older one.
    ///
    /// ```
    /// use nickelgrove_kiosk::{Part, Refusal, Rotation, Sheet, Way};
    ///
    /// let mut sheet = Sheet::open(1, 100, 60, Way::Vertical, 3)?;
    /// let (free, part) = (sheet.free_pieces()?[0], Part::new(7, 40, 30));
    /// let booking = sheet.insert(free, part, sheet.offers(free, part)?[0])?;
    /// // 40 x 30 below the part, and 60 x 60 beside it
    /// assert_eq!(sheet.free_pieces()?, [booking.free[1], booking.free[0]]);
    /// # Ok::<(), Refusal>(())
    /// ```
    ///
    /// # Errors
    /// None but those of every call, which don't come.
    pub fn free_pieces(&self) -> Result<Vec<Mark>, Refusal> {
        self.list(|position| Request::FreePiece { position })
    }

    /// The parts and the structures, the sheet itself among them, in no order that means anything.
    ///
    /// ```
    /// use nickelgrove_kiosk::{Part, Refusal, Sheet, Way};
    ///
    /// let mut sheet = Sheet::open(1, 100, 60, Way::Vertical, 3)?;
    /// let (free, part) = (sheet.free_pieces()?[0], Part::new(7, 40, 60));
    /// let booking = sheet.insert(free, part, sheet.offers(free, part)?[0])?;
    /// let removable = sheet.removable()?;
    /// assert_eq!(removable.len(), 2);
    /// assert!(removable.contains(&booking.part));
    /// # Ok::<(), Refusal>(())
    /// ```
    ///
    /// # Errors
    /// None but those of every call, which don't come.
    pub fn removable(&self) -> Result<Vec<Mark>, Refusal> {
        self.list(|position| Request::RemovablePiece { position })
    }

    /// The marks of a list, position by position until its end.
    fn list(&self, at: impl Fn(u16) -> Request) -> Result<Vec<Mark>, Refusal> {
        let mut marks = Vec::new();
        for position in 0..=u16::MAX {
            match self.desk.look(&at(position)) {
                Ok(Answer::FreePiece(mark) | Answer::RemovablePiece(mark)) => marks.push(mark),
                Ok(_) => return Err(Refusal::Unreadable),
                Err(Refusal::PastTheEnd) => return Ok(marks),
                Err(refusal) => return Err(refusal),
            }
        }
        // no list is so long
        Err(Refusal::Unreadable)
    }

    /// The numbers of the parts on the sheet, by place.
    ///
    /// ```
    /// use nickelgrove_kiosk::{Part, Refusal, Sheet, Way};
    ///
    /// let mut sheet = Sheet::open(1, 100, 60, Way::Vertical, 3)?;
    /// let (free, part) = (sheet.free_pieces()?[0], Part::new(7, 40, 60));
    /// sheet.insert(free, part, sheet.offers(free, part)?[0])?;
    /// assert_eq!(sheet.part_numbers()?, [7]);
    /// # Ok::<(), Refusal>(())
    /// ```
    ///
    /// # Errors
    /// None but those of every call, which don't come.
    pub fn part_numbers(&self) -> Result<Vec<u16>, Refusal> {
        answered!(self.desk.look(&Request::PartNumbers), Answer::PartNumbers(numbers) => numbers)
    }

    /// The figures: areas, nodes and usages. The area that the blade has eaten is [`Sheet::eaten_area`].
    ///
    /// ```
    /// use nickelgrove_kiosk::{Part, Refusal, Sheet, Way};
    ///
    /// let mut sheet = Sheet::open(1, 100, 60, Way::Vertical, 3)?;
    /// let (free, part) = (sheet.free_pieces()?[0], Part::new(7, 40, 60));
    /// sheet.insert(free, part, sheet.offers(free, part)?[0])?;
    /// let figures = sheet.figures()?;
    /// assert_eq!((figures.used_area, figures.free_area, figures.nodes), (2_400, 3_600, 3));
    /// assert_eq!((figures.sheet_usage, figures.tree_usage), (0.4, 0.4));
    /// # Ok::<(), Refusal>(())
    /// ```
    ///
    /// # Errors
    /// None but those of every call, which don't come.
    pub fn figures(&self) -> Result<Figures, Refusal> {
        answered!(self.desk.look(&Request::Figures), Answer::Figures(figures) => figures)
    }

    /// The area that the blade has eaten. With the used area and the free area of [`Sheet::figures`] it makes the sheet.
    ///
    /// ```
    /// use nickelgrove_kiosk::{Part, Refusal, Sheet, Way};
    ///
    /// let mut sheet = Sheet::open_with_blade(1, 100, 60, Way::Vertical, 3, 3)?;
    /// let (free, part) = (sheet.free_pieces()?[0], Part::new(7, 40, 60));
    /// let booking = sheet.insert(free, part, sheet.offers(free, part)?[0])?;
    /// let figures = sheet.figures()?;
    /// assert_eq!((figures.used_area, figures.free_area, sheet.eaten_area()?), (2_400, 3_420, 180));
    /// // what is removed gives back what was eaten behind it
    /// sheet.remove(booking.part)?;
    /// assert_eq!((sheet.figures()?.free_area, sheet.eaten_area()?), (6_000, 0));
    /// # Ok::<(), Refusal>(())
    /// ```
    ///
    /// # Errors
    /// None but those of every call, which don't come.
    pub fn eaten_area(&self) -> Result<u64, Refusal> {
        answered!(self.desk.look(&Request::EatenArea), Answer::EatenArea(area) => area)
    }

    /// The tree: each node before its children, and a child with all that is below it before the next child. The first node is the sheet itself.
    ///
    /// ```
    /// use nickelgrove_kiosk::{Kind, Part, Refusal, Sheet, Way};
    ///
    /// let mut sheet = Sheet::open(1, 100, 60, Way::Vertical, 3)?;
    /// let (free, part) = (sheet.free_pieces()?[0], Part::new(7, 40, 60));
    /// sheet.insert(free, part, sheet.offers(free, part)?[0])?;
    /// let nodes = sheet.snapshot()?;
    /// let shown: Vec<_> = nodes.iter().map(|node| (node.level, node.kind, node.width, node.height)).collect();
    /// assert_eq!(shown, [(0, Kind::Structure, 100, 60), (1, Kind::Part { number: 7 }, 40, 60), (1, Kind::Free, 60, 60)]);
    /// # Ok::<(), Refusal>(())
    /// ```
    ///
    /// # Errors
    /// None but those of every call, which don't come.
    pub fn snapshot(&self) -> Result<Vec<Node>, Refusal> {
        answered!(self.desk.look(&Request::Snapshot), Answer::Snapshot(nodes) => nodes)
    }
}

impl fmt::Debug for Sheet {
    fn fmt(&self, f: &mut fmt::Formatter<'_>) -> fmt::Result {
        f.debug_struct("Sheet").finish_non_exhaustive()
    }
}

#[cfg(test)]
mod tests;
