//! The refusals, in words (docs/REFUSALS.md).

use std::error::Error;
use std::fmt;

/// Why a call was not carried out. Nothing has changed then: not the sheet, and not what was kept.
///
/// Each refusal has its number. docs/REFUSALS.md says of each what it means and what to do at the counter. More numbers may come.
///
/// ```
/// use nickelgrove_kiosk::Refusal;
///
/// assert_eq!(Refusal::Gone.number(), 5);
/// assert_eq!(Refusal::Gone.to_string(), "the piece is gone (refusal 5; the counter: ask for the room again)");
/// assert_eq!(Refusal::from_number(5), Some(Refusal::Gone));
/// ```
#[derive(Clone, Copy, Debug, PartialEq, Eq, Hash)]
#[non_exhaustive]
pub enum Refusal {
    /// 1: nothing is open, or nothing was kept, or the sheet's memory was spoilt.
    NoSheet,
    /// 2: a side of the sheet is not 1 to 67,108,863, the stages are not 1 to 254, or the blade is more than 100 wide.
    SheetOutsideLimits,
    /// 3: a side of the part is not 1 to 67,108,863. A part that is only too large for the sheet is no refusal: it has no offers.
    PartOutsideLimits,
    /// 4: the mark, or what was kept, belongs to another sheet.
    OtherSheet,
    /// 5: the piece that the mark was given for is no longer there. It was booked, removed, joined with its neighbour, or put back.
    Gone,
    /// 6: the mark names a part or a structure, and only a free piece has room.
    NotFree,
    /// 7: the free piece does not offer the part in this rotation and this shape.
    NotOffered,
    /// 8: after the booking the sheet would have more than 255 nodes.
    TooManyPieces,
    /// 9: the sheet has issued its last serial.
    SerialsUsedUp,
    /// 10: the mark names the whole sheet, which can't be removed.
    WholeSheet,
    /// 11: the mark names a free piece, in which there is nothing to remove.
    NothingToRemove,
    /// 12: the list has no entry at this position.
    PastTheEnd,
    /// 13: the memory that was lent is too short. No call of this crate lends too little.
    MemoryTooShort,
    /// 14: the line is no frame. No typed call writes such a line.
    NotUnderstood,
    /// No refusal of the archive's: its answer could not be read. It can't come from the proved archive of this build, whatever it is asked. The call is as if it
    /// had not been made. Its number is 255, which no refusal has.
    Unreadable,
}

/// Each refusal with its number, its words and what to do: the table of docs/REFUSALS.md, and what is this crate's own.
const TABLE: [(Refusal, u8, &str, &str); 15] = [
    (Refusal::NoSheet, 1, "no sheet, or a spoilt one", "the counter: open a sheet, or keep one first"),
    (Refusal::SheetOutsideLimits, 2, "a sheet that we don't take", "the counter: look at sides, stages and blade"),
    (Refusal::PartOutsideLimits, 3, "a part that we don't take", "the customer: look at the sides"),
    (Refusal::OtherSheet, 4, "the mark is another sheet's", "the program: it mixed up two sheets"),
    (Refusal::Gone, 5, "the piece is gone", "the counter: ask for the room again"),
    (Refusal::NotFree, 6, "the piece is taken", "the counter: choose a free piece"),
    (Refusal::NotOffered, 7, "not offered there", "the counter: ask for offers, take one of them"),
    (Refusal::TooManyPieces, 8, "the sheet has too many pieces", "the counter: use another sheet"),
    (Refusal::SerialsUsedUp, 9, "the sheet's serials are used up", "the counter: open the sheet under a new number"),
    (Refusal::WholeSheet, 10, "the whole sheet can't be removed", "the counter: open a sheet instead"),
    (Refusal::NothingToRemove, 11, "there is nothing to remove", "the counter: choose a part or a structure"),
    (Refusal::PastTheEnd, 12, "the list is shorter", "the program: it asked past the end"),
    (Refusal::MemoryTooShort, 13, "the memory lent is too short", "the program: it has to lend more"),
    (Refusal::NotUnderstood, 14, "not understood", "the program: the line is no frame"),
    (Refusal::Unreadable, 255, "the answer can't be read", "the program: it was built with another archive"),
];

/// The rows stand in the order of the variants, and each variant has one.
const _: () = {
    assert!(TABLE.len() == Refusal::Unreadable as usize + 1);
    let mut place = 0;
    while place < TABLE.len() {
        assert!(TABLE[place].0 as usize == place);
        place += 1;
    }
};

impl Refusal {
    /// Its number, as in docs/REFUSALS.md; 255 of [`Refusal::Unreadable`], which is not there.
    #[must_use]
    pub fn number(self) -> u8 {
        self.row().1
    }

    /// The refusal with this number; none where no refusal has it.
    #[must_use]
    pub fn from_number(number: u8) -> Option<Self> {
        TABLE.iter().find(|row| row.1 == number).map(|row| row.0)
    }

    /// What it means, in a word: for the customer's screen.
    ///
    /// ```
    /// # use nickelgrove_kiosk::Refusal;
    /// assert_eq!(Refusal::Gone.words(), "the piece is gone");
    /// ```
    #[must_use]
    pub fn words(self) -> &'static str {
        self.row().2
    }

    /// Who can put it right, and how: for the person at the counter.
    ///
    /// ```
    /// # use nickelgrove_kiosk::Refusal;
    /// assert_eq!(Refusal::Gone.advice(), "the counter: ask for the room again");
    /// ```
    #[must_use]
    pub fn advice(self) -> &'static str {
        self.row().3
    }

    fn row(self) -> &'static (Refusal, u8, &'static str, &'static str) {
        &TABLE[self as usize]
    }
}

impl fmt::Display for Refusal {
    fn fmt(&self, f: &mut fmt::Formatter<'_>) -> fmt::Result {
        write!(f, "{} (refusal {}; {})", self.words(), self.number(), self.advice())
    }
}

impl Error for Refusal {}

#[cfg(test)]
mod tests {
    use super::*;

    #[test]
    fn each_has_its_own_row() {
        for (place, (refusal, number, ..)) in TABLE.into_iter().enumerate() {
            assert_eq!((refusal as usize, refusal.number()), (place, number));
            assert_eq!(Refusal::from_number(number), Some(refusal));
        }
        assert_eq!((0..=255).filter_map(Refusal::from_number).count(), TABLE.len());
    }

    /// The words are those of the table of docs/REFUSALS.md, row for row.
    #[test]
    fn the_words_are_the_papers() {
        let paper = include_str!("../../docs/REFUSALS.md");
        let rows: Vec<Vec<&str>> = paper
            .lines()
            .skip_while(|line| !line.starts_with("| no. |"))
            .skip(2)
            .take_while(|line| line.starts_with('|'))
            .map(|line| line.trim_matches('|').split('|').map(str::trim).collect())
            .collect();
        let ours = TABLE.iter().filter(|row| row.0 != Refusal::Unreadable);
        assert_eq!(
            rows,
            ours.map(|(_, number, words, advice)| vec![number.to_string(), words.to_string(), advice.to_string()])
                .collect::<Vec<_>>()
        );
    }
}
