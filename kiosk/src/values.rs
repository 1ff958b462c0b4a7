//! What the calls take and give: marks, parts, offers, reasons, bookings, removals and figures.

use std::fmt;

/// The name of a piece outside its sheet: layout number, place and serial.
///
/// A mark comes from an answer. In the life of one sheet, which is opened once, it names the piece that it was issued for, or it is gone
/// ([`Refusal::Gone`](crate::Refusal::Gone)); it never names another one.
///
/// It can't be put together from fields:
///
/// ```compile_fail
/// let mark = nickelgrove_kiosk::Mark { layout: 1, place: 1, serial: 2 };
/// ```
#[derive(Clone, Copy, Debug, PartialEq, Eq, Hash)]
pub struct Mark {
    layout: u16,
    place: u16,
    serial: u32,
}

impl Mark {
    /// A mark by its three numbers, for a program that has stored or sent them and now gets its mark back.
    ///
    /// The numbers are taken as they are. Those of no mark that was issued name nothing, and are refused as gone or as another sheet's. But a mark that is guessed,
    /// or that was issued by another sheet with the same layout number, may name a piece that somebody else was promised. Take numbers from answers alone.
    ///
    /// ```
    /// use nickelgrove_kiosk::{Mark, Refusal, Sheet, Way};
    ///
    /// let mut sheet = Sheet::open(1, 100, 60, Way::Vertical, 3)?;
    /// let mark = sheet.free_pieces()?[0];
    /// assert_eq!(Mark::from_numbers(mark.layout(), mark.place(), mark.serial()), mark);
    /// assert_eq!(sheet.remove(Mark::from_numbers(1, 9, 9)), Err(Refusal::Gone));
    /// # Ok::<(), Refusal>(())
    /// ```
    #[must_use]
    pub fn from_numbers(layout: u16, place: u16, serial: u32) -> Self {
        Mark { layout, place, serial }
    }

    /// The number of the layout that issued it.
    #[must_use]
    pub fn layout(self) -> u16 {
        self.layout
    }

    /// Where the piece stands in the layout's table.
    #[must_use]
    pub fn place(self) -> u16 {
        self.place
    }

    /// The piece's serial, which is issued once.
    #[must_use]
    pub fn serial(self) -> u32 {
        self.serial
    }

    /// Its bytes in a frame: layout number 2, place 1, serial 4, highest byte first. No layout has a place past 254: each of them is written as 255, and is gone.
    pub(crate) fn bytes(self) -> [u8; 7] {
        let [l1, l0] = self.layout.to_be_bytes();
        let place = u8::try_from(self.place).unwrap_or(u8::MAX);
        let [s3, s2, s1, s0] = self.serial.to_be_bytes();
        [l1, l0, place, s3, s2, s1, s0]
    }

    pub(crate) fn read(bytes: [u8; 7]) -> Self {
        let [l1, l0, place, s3, s2, s1, s0] = bytes;
        Mark { layout: u16::from_be_bytes([l1, l0]), place: place.into(), serial: u32::from_be_bytes([s3, s2, s1, s0]) }
    }
}

/// A part that a customer wants: its number, its sides and how it may lie.
///
/// ```
/// use nickelgrove_kiosk::{Part, Turn};
///
/// let shelf = Part::new(7, 95, 10);
/// assert_eq!(shelf.turn, Turn::Either);
/// // with a grain, it lies as it is
/// assert_eq!(shelf.turned(Turn::Default).turn, Turn::Default);
/// ```
#[derive(Clone, Copy, Debug, PartialEq, Eq, Hash)]
pub struct Part {
    /// The part number: the merchant's own, any.
    pub number: u16,
    /// Its width, as it is.
    pub width: u32,
    /// Its height, as it is.
    pub height: u32,
    /// How it may lie.
    pub turn: Turn,
}

impl Part {
    /// A part that may lie either way.
    #[must_use]
    pub fn new(number: u16, width: u32, height: u32) -> Self {
        Part { number, width, height, turn: Turn::Either }
    }

    /// The same part, which may lie so.
    #[must_use]
    pub fn turned(self, turn: Turn) -> Self {
        Part { turn, ..self }
    }

    /// Its bytes in a frame: number 2, width 4, height 4, turn 1, highest byte first.
    pub(crate) fn bytes(self) -> [u8; 11] {
        let [n1, n0] = self.number.to_be_bytes();
        let ([w3, w2, w1, w0], [h3, h2, h1, h0]) = (self.width.to_be_bytes(), self.height.to_be_bytes());
        [n1, n0, w3, w2, w1, w0, h3, h2, h1, h0, self.turn.number()]
    }
}

/// How a part may lie.
#[derive(Clone, Copy, Debug, Default, PartialEq, Eq, Hash)]
pub enum Turn {
    /// Either way.
    #[default]
    Either,
    /// As it is.
    Default,
    /// Turned: its sides exchanged.
    Rotated,
}

impl Turn {
    fn number(self) -> u8 {
        match self {
            Turn::Either => 0,
            Turn::Default => 1,
            Turn::Rotated => 2,
        }
    }
}

/// How a part lies.
#[derive(Clone, Copy, Debug, PartialEq, Eq, Hash)]
pub enum Rotation {
    /// As it is.
    Default,
    /// Its sides exchanged.
    Rotated,
}

impl Rotation {
    pub(crate) fn number(self) -> u8 {
        match self {
            Rotation::Default => 0,
            Rotation::Rotated => 1,
        }
    }

    fn read(number: u8) -> Option<Self> {
        match number {
            0 => Some(Rotation::Default),
            1 => Some(Rotation::Rotated),
            _ => None,
        }
    }
}

/// The shape of a booking: how the part is cut out of the free piece (docs/RULES.md, "Insertion", has a drawing of each).
#[derive(Clone, Copy, Debug, PartialEq, Eq, Hash)]
pub enum Shape {
    /// The part is cut off the free piece; the rest stays beside it.
    AlongCurrentCut,
    /// The free piece becomes a structure; the part is cut off it the other way, the rest stays in it.
    AcrossCurrentCut,
    /// A strip is cut off the free piece, and the part off that strip.
    AlongThenAcross,
    /// The free piece becomes a structure; a strip is cut off it the other way, and the part off that strip.
    AcrossThenAlong,
}

impl Shape {
    pub(crate) fn number(self) -> u8 {
        match self {
            Shape::AlongCurrentCut => 1,
            Shape::AcrossCurrentCut => 2,
            Shape::AlongThenAcross => 3,
            Shape::AcrossThenAlong => 4,
        }
    }

    fn read(number: u8) -> Option<Self> {
        match number {
            1 => Some(Shape::AlongCurrentCut),
            2 => Some(Shape::AcrossCurrentCut),
            3 => Some(Shape::AlongThenAcross),
            4 => Some(Shape::AcrossThenAlong),
            _ => None,
        }
    }
}

/// A way to book a part in a free piece: how the part lies, and the shape. One that the free piece doesn't offer is refused
/// ([`Refusal::NotOffered`](crate::Refusal::NotOffered)).
#[derive(Clone, Copy, Debug, PartialEq, Eq, Hash)]
pub struct Offer {
    /// How the part lies.
    pub rotation: Rotation,
    /// The shape of the booking.
    pub shape: Shape,
}

impl Offer {
    pub(crate) fn read(rotation: u8, shape: u8) -> Option<Self> {
        Some(Offer { rotation: Rotation::read(rotation)?, shape: Shape::read(shape)? })
    }
}

/// Why a free piece does not take a part in one rotation, or that it does (document 02, change request 2).
#[derive(Clone, Copy, Debug, PartialEq, Eq, Hash)]
pub enum Reason {
    /// The part may not lie so.
    TurnForbidden,
    /// It is wider than the piece.
    TooWide,
    /// It is taller than the piece.
    TooTall,
    /// It is both.
    TooWideAndTooTall,
    /// It fits, but the saw goes no deeper.
    StagesUsedUp,
    /// There is an offer in this rotation.
    Offered,
}

impl Reason {
    pub(crate) fn read(number: u8) -> Option<Self> {
        match number {
            0 => Some(Reason::TurnForbidden),
            1 => Some(Reason::TooWide),
            2 => Some(Reason::TooTall),
            3 => Some(Reason::TooWideAndTooTall),
            4 => Some(Reason::StagesUsedUp),
            5 => Some(Reason::Offered),
            _ => None,
        }
    }
}

/// In the words of docs/RULES.md.
impl fmt::Display for Reason {
    fn fmt(&self, f: &mut fmt::Formatter<'_>) -> fmt::Result {
        f.write_str(match self {
            Reason::TurnForbidden => "turn forbidden",
            Reason::TooWide => "too wide",
            Reason::TooTall => "too tall",
            Reason::TooWideAndTooTall => "too wide and too tall",
            Reason::StagesUsedUp => "stages used up",
            Reason::Offered => "offered",
        })
    }
}

/// The reason in each rotation.
#[derive(Clone, Copy, Debug, PartialEq, Eq, Hash)]
#[non_exhaustive]
pub struct Reasons {
    /// With the part as it is.
    pub default: Reason,
    /// With its sides exchanged.
    pub rotated: Reason,
}

impl Reasons {
    /// The reason in this rotation.
    ///
    /// ```
    /// # use nickelgrove_kiosk::{Part, Refusal, Rotation, Sheet, Way};
    /// # let sheet = Sheet::open(1, 100, 60, Way::Vertical, 3)?;
    /// # let free = sheet.free_pieces()?[0];
    /// let reasons = sheet.why_not(free, Part::new(7, 40, 80))?;
    /// assert_eq!(reasons.of(Rotation::Default).to_string(), "too tall");
    /// assert_eq!(reasons.of(Rotation::Rotated).to_string(), "offered");
    /// # Ok::<(), Refusal>(())
    /// ```
    #[must_use]
    pub fn of(self, rotation: Rotation) -> Reason {
        match rotation {
            Rotation::Default => self.default,
            Rotation::Rotated => self.rotated,
        }
    }
}

/// What a booking made.
#[derive(Clone, Debug, PartialEq, Eq, Hash)]
#[non_exhaustive]
pub struct Booking {
    /// The first node made. To remove it gives the sheet back as it was.
    pub first: Mark,
    /// The part.
    pub part: Mark,
    /// The free pieces, in the order in which they were made.
    pub free: Vec<Mark>,
}

/// What a removal left.
#[derive(Clone, Debug, PartialEq, Eq, Hash)]
#[non_exhaustive]
pub struct Removal {
    /// The new free piece.
    pub free: Mark,
    /// The numbers of the parts that came out, in tree order.
    pub parts: Vec<u16>,
}

/// The figures of a sheet. The usages have the exact bits that the archive says.
#[derive(Clone, Copy, Debug, PartialEq)]
#[non_exhaustive]
pub struct Figures {
    /// The areas of the parts, added.
    pub used_area: u64,
    /// The areas of the free pieces, added.
    pub free_area: u64,
    /// How many nodes are held.
    pub nodes: u16,
    /// Whether the sheet is empty. It never is: it has a free piece at least.
    pub is_empty: bool,
    /// The used area by the sheet's area. It is exactly 1 where nothing is free and nothing was eaten, and in no other case.
    pub sheet_usage: f64,
    /// The usage of the tree: by area, from the leaves to the top.
    pub tree_usage: f64,
}

/// The counter's report: three of the figures.
#[derive(Clone, Copy, Debug, PartialEq)]
#[non_exhaustive]
pub struct Report {
    /// The areas of the parts, added.
    pub used_area: u64,
    /// How many nodes are held.
    pub nodes: u16,
    /// The used area by the sheet's area, with the exact bits that the archive says.
    pub sheet_usage: f64,
}
