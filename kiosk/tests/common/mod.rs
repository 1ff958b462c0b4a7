//! What the tests share: the checkout's files, frames on document 01's sheet, and random numbers. No test takes all of it.
#![allow(dead_code)]

pub mod typed;

use std::fs;
use std::path::Path;

use nickelgrove_kiosk::Counter;

/// The lines of a file of the checkout, without their newlines.
pub fn lines_of(file: &str) -> Vec<Vec<u8>> {
    let file = fs::read(Path::new(env!("CARGO_MANIFEST_DIR")).join("..").join(file)).expect("a file of the checkout");
    file.strip_suffix(b"\n").expect("whole lines").split(|byte| *byte == b'\n').map(<[u8]>::to_vec).collect()
}

/// The same up to the first line that asks to tidy, which the counter doesn't know. (The short sessions end with some that tidy.)
pub fn counters_lines_of(file: &str) -> Vec<Vec<u8>> {
    lines_of(file).into_iter().take_while(|line| line != TIDY.as_bytes()).collect()
}

/// Document 01's sheet: 100 x 60, first cut Vertical, stages 3.
pub const OPEN: &str = "010001000000640000003c0103005a";
/// The same with a blade that is 3 wide.
pub const OPEN_WITH_BLADE: &str = "010001000000640000003c01030357";
pub const OPENED: &str = "010000010100000002fb";
pub const KEEP: &str = "05fb";
pub const RESTORE: &str = "06fa";
pub const REPORT: &str = "07f9";
pub const TIDY: &str = "1be5";

/// A counter with document 01's sheet on it, and the mark of its free piece.
pub fn opened() -> (Counter, Vec<u8>) {
    opened_by(OPEN)
}

/// The same by another line.
pub fn opened_by(line: &str) -> (Counter, Vec<u8>) {
    let mut counter = Counter::new();
    assert_eq!(counter.answer(line), OPENED);
    (counter, mark(1, 2))
}

/// A mark of layout 1.
pub fn mark(place: u8, serial: u32) -> Vec<u8> {
    [&[0, 1, place], serial.to_be_bytes().as_slice()].concat()
}

/// Part 7, in either rotation.
pub fn part(width: u32, height: u32) -> Vec<u8> {
    [[0, 7].as_slice(), &width.to_be_bytes(), &height.to_be_bytes(), &[0]].concat()
}

pub fn insert(mark: &[u8], part: &[u8], shape: u8) -> String {
    line(&[&[3], mark, part, &[0, shape]].concat())
}

pub fn remove(mark: &[u8]) -> String {
    line(&[&[4], mark].concat())
}

/// The line for these bytes, with the check that makes them add to 0.
pub fn line(bytes: &[u8]) -> String {
    let sum = bytes.iter().fold(0, |sum: u8, byte| sum.wrapping_add(*byte));
    hex(&[bytes, &[sum.wrapping_neg()]].concat())
}

/// These bytes, two characters each.
pub fn hex(bytes: &[u8]) -> String {
    bytes.iter().map(|byte| format!("{byte:02x}")).collect()
}

/// The bytes that an answer stands for.
pub fn numbers(answer: &str) -> Vec<u8> {
    let digit = |place| &answer[place..place + 2];
    (0..answer.len()).step_by(2).map(|place| u8::from_str_radix(digit(place), 16).expect("hexadecimal")).collect()
}

/// Random numbers (splitmix64), the same on every machine.
pub struct Random(pub u64);

impl Random {
    pub fn below(&mut self, limit: u64) -> u64 {
        self.0 = self.0.wrapping_add(0x9e37_79b9_7f4a_7c15);
        let mut word = self.0;
        word = (word ^ (word >> 30)).wrapping_mul(0xbf58_476d_1ce4_e5b9);
        word = (word ^ (word >> 27)).wrapping_mul(0x94d0_49bb_1331_11eb);
        (word ^ (word >> 31)) % limit
    }
}
