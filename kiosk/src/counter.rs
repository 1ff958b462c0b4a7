//! The counter: frames in, answers out.

use std::fmt;

use crate::records::{SessionRecord, DESK_LONGEST, LONGEST, NO_LIST, ROOM};
use crate::{archive, Answer, Cut, ListedCut, Request};

/// A counter: a sheet and a kept snapshot of it, none of both at the start.
///
/// It can't be copied: of two counters with one past, each would issue the other's marks for pieces of its own.
pub struct Counter {
    session: Box<SessionRecord>,
    answer: [u8; LONGEST],
}

impl Counter {
    /// A counter with no sheet on it.
    ///
    /// # Panics
    /// Where the archive is of another build, with other sizes than this crate has.
    #[must_use]
    pub fn new() -> Self {
        archive::compare();
        Counter { session: Box::new(SessionRecord::ZERO), answer: [0; LONGEST] }
    }

    /// The answer to a line, both without their newlines. Any bytes are a line; one that is no frame is answered as malformed. The call works on copies of
    /// the session: 512 KiB of stack are enough.
    ///
    /// ```
    /// let mut counter = nickelgrove_kiosk::Counter::new();
    /// assert_eq!(counter.answer("010001000000640000003c0103005a"), "010000010100000002fb");
    /// ```
    ///
    /// # Panics
    /// Never with the archive of this build: its answers are proved to be hexadecimal, with a newline at the end.
    pub fn answer(&mut self, line: impl AsRef<[u8]>) -> &str {
        let count = archive::step(&mut self.session, line.as_ref(), &mut self.answer);
        let (_newline, answer) = self.answer[..count].split_last().expect("an answer ends with its newline");
        std::str::from_utf8(answer).expect("an answer is hexadecimal")
    }

    /// The saw cuts that make the sheet's parts and free pieces, in the order in which they are made; none before a sheet is opened. A saw that makes them
    /// ends with exactly these pieces, in the order of the tree snapshot; a free piece without area is left out. The stack as for an answer.
    ///
    /// ```
    /// use nickelgrove_kiosk::{Counter, Cut, Piece, Way};
    ///
    /// let mut counter = Counter::new();
    /// assert_eq!(counter.cuts(), None);
    /// counter.answer("010001000000640000003c0103005a");
    /// counter.answer("03000101000000020007000000280000003c0000018d");
    /// let cut = Cut { place: 0, way: Way::Vertical, distance: 40, piece: Piece::Part, left: Piece::Free, eaten: 0 };
    /// assert_eq!(counter.cuts(), Some(vec![cut]));
    /// ```
    ///
    /// # Panics
    /// Never with the archive of this build: its lists are proved to be whole cuts of the listed ways and kinds, with an amount for each.
    #[must_use]
    pub fn cuts(&self) -> Option<Vec<Cut>> {
        let mut list = [0; ROOM];
        let count = archive::cuts(&self.session, &mut list);
        if count == NO_LIST {
            return None;
        }
        let listed = ListedCut::read_all(&list[..usize::from(count)]).expect("a list is whole cuts of the listed ways and kinds");
        Some(Cut::all(&listed, &self.amounts()).expect("each cut has its amount"))
    }

    /// What the blade eats with each cut: by the desk's frame, on a copy of the session, since the counter has none for it.
    fn amounts(&self) -> Vec<u8> {
        let (mut copy, mut answer) = (self.session.clone(), [0; DESK_LONGEST]);
        let count = archive::desk(&mut copy, Request::CutAmounts.line().as_bytes(), &mut answer);
        let line = answer[..count].strip_suffix(b"\n").expect("an answer ends with its newline");
        match Answer::read(line) {
            Ok(Answer::CutAmounts(amounts)) => amounts,
            other => panic!("the sheet has cuts, and of their amounts it is said {other:?}"),
        }
    }
}

impl Default for Counter {
    fn default() -> Self {
        Counter::new()
    }
}

impl fmt::Debug for Counter {
    fn fmt(&self, f: &mut fmt::Formatter<'_>) -> fmt::Result {
        f.debug_struct("Counter").finish_non_exhaustive()
    }
}
