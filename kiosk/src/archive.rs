//! The calls into the archive: the only unsafe code of this crate.
#![allow(unsafe_code)]

use crate::records::{SessionRecord, DESK_LONGEST, LONGEST, ROOM, SIZES};

extern "C" {
    /// The sizes of what is lent, as the archive has them: the most nodes of a layout, the bytes of an answer, of an answer of the desk, of a list of saw cuts and
    /// of a session.
    fn nickelgrove_limit() -> usize;
    fn nickelgrove_longest() -> usize;
    fn nickelgrove_desk_longest() -> usize;
    fn nickelgrove_room() -> usize;
    fn nickelgrove_session_bytes() -> usize;

    /// `nickelgrove_step` of crates/kiosk. A lent slice crosses as its address and its length.
    fn nickelgrove_step(session: *mut SessionRecord, line: *const u8, length: usize, answer: *mut [u8; LONGEST]) -> usize;

    /// `nickelgrove_desk` of crates/kiosk: the same with the desk's lines and its longer answers.
    fn nickelgrove_desk(session: *mut SessionRecord, line: *const u8, length: usize, answer: *mut [u8; DESK_LONGEST]) -> usize;

    /// `nickelgrove_cuts` of crates/kiosk.
    fn nickelgrove_cuts(session: *const SessionRecord, list: *mut [u8; ROOM]) -> u16;
}

/// Compares the archive's sizes with this side's, and panics where one differs: an archive of another build is lent nothing.
pub fn compare() {
    // SAFETY: these five take nothing, return a number each and touch nothing else.
    let theirs = unsafe {
        [nickelgrove_limit(), nickelgrove_longest(), nickelgrove_desk_longest(), nickelgrove_room(), nickelgrove_session_bytes()]
    };
    for ((what, ours), theirs) in SIZES.into_iter().zip(theirs) {
        assert!(ours == theirs, "libkiosk.a is of another build: {what} is {theirs} there, and {ours} here");
    }
}

/// Answers a line, and gives how many characters of `answer` are the answer, its newline among them.
pub fn step(session: &mut SessionRecord, line: &[u8], answer: &mut [u8; LONGEST]) -> usize {
    // SAFETY: the function is proved to meet its contract on every session, line and buffer, and asks nothing of them but what their types say: it
    // has no `requires`, and takes any numbers in a record. It reads and writes through these three references alone, which are valid for the call and
    // apart from each other, as Rust has it of two `&mut` and a `&`; it keeps none of them and has no state of its own. The records have the
    // layout that it expects (records.rs), and the sizes were compared when the counter was made.
    unsafe { nickelgrove_step(session, line.as_ptr(), line.len(), answer) }
}

/// Answers a line of the desk, and gives how many characters of `answer` are the answer, its newline among them; zeros are behind it.
pub fn desk(session: &mut SessionRecord, line: &[u8], answer: &mut [u8; DESK_LONGEST]) -> usize {
    // SAFETY: as of `step`: the function is proved to meet its contract on every session, line and buffer, and has no `requires`. It reads and writes through
    // these three references alone, which are valid for the call and apart from each other, keeps none of them and has no state of its own. The records have
    // the layout that it expects (records.rs), and the sizes, that of this buffer among them, were compared when the desk was made.
    unsafe { nickelgrove_desk(session, line.as_ptr(), line.len(), answer) }
}

/// Writes the session's list of saw cuts, and gives how many bytes of `list` it has, or `NO_LIST`.
pub fn cuts(session: &SessionRecord, list: &mut [u8; ROOM]) -> u16 {
    // SAFETY: as of `step`: the function is proved to meet its contract on every session and every buffer, and has no `requires`. It reads the session
    // and writes the buffer, which are valid for the call and apart from each other, keeps neither and has no state of its own. The record and the buffer
    // have the layout and the length that it expects (records.rs).
    unsafe { nickelgrove_cuts(session, list) }
}
