//! The desk: every proved call, by frames.

use std::fmt;

use crate::records::{SessionRecord, DESK_LONGEST};
use crate::{archive, Answer, Refusal, Request};

/// A desk: a counter that answers the questions about its sheet too, and tidies it. It has a sheet and a kept snapshot of it, none of both at the start.
///
/// Its frames are the counter's and eleven more (docs/DESK.md). A [`Sheet`](crate::Sheet) has the same calls with Rust's types; take a desk where frames come
/// from outside, or where sheets are opened one after another and share what was kept.
///
/// It can't be copied: of two desks with one past, each would issue the other's marks for pieces of its own.
///
/// ```compile_fail
/// let desk = nickelgrove_kiosk::Desk::new();
/// let copy = desk.clone();
/// ```
pub struct Desk {
    session: Box<SessionRecord>,
    answer: Box<[u8; DESK_LONGEST]>,
}

impl Desk {
    /// A desk with no sheet on it.
    ///
    /// # Panics
    /// Where the archive is of another build, with other sizes than this crate has.
    #[must_use]
    pub fn new() -> Self {
        archive::compare();
        Desk { session: Box::new(SessionRecord::ZERO), answer: Box::new([0; DESK_LONGEST]) }
    }

    /// The answer to a line, both without their newlines. Any bytes are a line; one that is no frame is answered as malformed. The call works on copies of
    /// the session: 512 KiB of stack are enough.
    ///
    /// ```
    /// let mut desk = nickelgrove_kiosk::Desk::new();
    /// assert_eq!(desk.answer("010001000000640000003c0103005a"), "010000010100000002fb");
    /// // the first of the free list: layout 1, place 1, serial 2
    /// assert_eq!(desk.answer("130000ed"), "130000010100000002e9");
    /// assert_eq!(desk.answer("no frame"), "ff0ef3");
    /// ```
    ///
    /// # Panics
    /// Never with the archive of this build: its answers are proved to be hexadecimal, with a newline at the end.
    pub fn answer(&mut self, line: impl AsRef<[u8]>) -> &str {
        let count = archive::desk(&mut self.session, line.as_ref(), &mut self.answer);
        let (_newline, answer) = self.answer[..count].split_last().expect("an answer ends with its newline");
        std::str::from_utf8(answer).expect("an answer is hexadecimal")
    }

    /// The answer to a request: its frame is written, answered, and the answer read.
    ///
    /// ```
    /// use nickelgrove_kiosk::{Answer, Desk, Mark, Refusal, Request, Way};
    ///
    /// let mut desk = Desk::new();
    /// assert_eq!(desk.ask(&Request::Figures), Err(Refusal::NoSheet));
    /// desk.ask(&Request::Open { number: 1, width: 100, height: 60, first_cut: Way::Vertical, stages: 3, blade: 0 })?;
    /// assert_eq!(desk.ask(&Request::FreePiece { position: 0 }), Ok(Answer::FreePiece(Mark::from_numbers(1, 1, 2))));
    /// # Ok::<(), Refusal>(())
    /// ```
    ///
    /// # Errors
    /// The refusal of the request. Nothing has changed then.
    pub fn ask(&mut self, request: &Request) -> Result<Answer, Refusal> {
        let (next, answer) = self.asked(request);
        let answer = answer?;
        self.session = next;
        Ok(answer)
    }

    /// The answer to a request that only looks.
    pub(crate) fn look(&self, request: &Request) -> Result<Answer, Refusal> {
        self.asked(request).1
    }

    /// The answer to a request, and the session behind it. The archive is lent a copy: so a call that looks needs no `&mut`, and one whose answer is refused or
    /// can't be read is as if it had not been made.
    fn asked(&self, request: &Request) -> (Box<SessionRecord>, Result<Answer, Refusal>) {
        let mut next = self.session.clone();
        let mut answer = [0; DESK_LONGEST];
        let count = archive::desk(&mut next, request.line().as_bytes(), &mut answer);
        (next, read(request, answer.get(..count).unwrap_or_default()))
    }
}

/// The answer to this request, from its line.
fn read(request: &Request, line: &[u8]) -> Result<Answer, Refusal> {
    let line = line.strip_suffix(b"\n").ok_or(Refusal::Unreadable)?;
    let answer = Answer::read(line);
    // another op's answer is none to this request
    if line.starts_with(format!("{:02x}", request.op()).as_bytes()) || answer == Err(Refusal::NotUnderstood) {
        answer
    } else {
        Err(Refusal::Unreadable)
    }
}

impl Default for Desk {
    fn default() -> Self {
        Desk::new()
    }
}

impl fmt::Debug for Desk {
    fn fmt(&self, f: &mut fmt::Formatter<'_>) -> fmt::Result {
        f.debug_struct("Desk").finish_non_exhaustive()
    }
}

#[cfg(test)]
impl Desk {
    /// A desk with the same past, for tests that look what a call would do.
    pub(crate) fn copy(&self) -> Self {
        Desk { session: self.session.clone(), ..Desk::new() }
    }

    /// The places of the nodes, in the order of the snapshot.
    pub(crate) fn places(&self) -> Vec<u16> {
        self.session.places()
    }
}
