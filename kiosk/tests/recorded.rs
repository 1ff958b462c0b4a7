//! The Rust's recorded answers, line by line (recorded/README.md), and the counter's own recorded run. Those that tidy are the desk's.

mod common;

use std::thread;

use common::{lines_of, TIDY};
use nickelgrove_kiosk::{Counter, Desk};

/// Frames with their answers, from two files of the checkout; of a line of `inspect` the first field alone.
fn pairs(frames: &str, answers: &str) -> Vec<(Vec<u8>, String)> {
    let frames = lines_of(frames);
    let field = |line: Vec<u8>| String::from_utf8(line).expect("hexadecimal").split(' ').next().expect("a field").to_string();
    let answers: Vec<String> = lines_of(answers).into_iter().map(field).collect();
    assert_eq!(frames.len(), answers.len());
    frames.into_iter().zip(answers).collect()
}

fn long() -> Vec<(Vec<u8>, String)> {
    pairs("recorded/long.in", "recorded/long.out")
}

/// Up to the first line that asks to tidy, which the counter doesn't know.
fn short() -> Vec<(Vec<u8>, String)> {
    tidying().into_iter().take_while(|(frame, _)| frame != TIDY.as_bytes()).collect()
}

fn tidying() -> Vec<(Vec<u8>, String)> {
    pairs("recorded/sessions.in", "recorded/sessions.out")
}

fn long_tidying() -> Vec<(Vec<u8>, String)> {
    pairs("recorded/tidy.in", "recorded/tidy.out")
}

fn replay(pairs: &[(Vec<u8>, String)]) {
    let mut counter = Counter::new();
    for (place, (frame, answer)) in pairs.iter().enumerate() {
        assert_eq!(counter.answer(frame), answer, "line {}", place + 1);
    }
}

#[test]
fn long_sessions() {
    replay(&long());
}

#[test]
fn short_sessions() {
    assert!(short().len() > 5_000);
    replay(&short());
}

fn replay_at_the_desk(pairs: &[(Vec<u8>, String)]) {
    let mut desk = Desk::new();
    for (place, (frame, answer)) in pairs.iter().enumerate() {
        assert_eq!(desk.answer(frame), answer, "line {}", place + 1);
    }
    let found = pairs.iter().filter(|(_, answer)| answer.starts_with("1b00") && !answer.starts_with("1b000000")).count();
    assert!(found >= 10, "{found} found something to tidy");
}

#[test]
fn short_sessions_that_tidy() {
    replay_at_the_desk(&tidying());
}

/// With full tables, chains to level 253 among them, on a quarter of what a thread has by default.
#[test]
fn long_sessions_that_tidy_on_a_small_stack() {
    let thread = thread::Builder::new().stack_size(512 << 10).spawn(|| replay_at_the_desk(&long_tidying()));
    thread.expect("a thread").join().expect("every answer was right");
}

/// Document 01's session, a frame for each refusal that a few lines can reach, a line of each malformed kind, and the long sessions.
#[test]
fn the_counters_own_run() {
    replay(&pairs("crates/counter/stdin", "crates/counter/stdout"));
}

#[test]
fn two_sessions_line_by_line_in_turn() {
    let (mut one, mut other) = (Counter::new(), Counter::new());
    for ((frame, answer), (frame_of_other, answer_of_other)) in long().iter().zip(&short()) {
        assert_eq!(one.answer(frame), answer);
        assert_eq!(other.answer(frame_of_other), answer_of_other);
    }
}

#[test]
fn counters_on_threads_of_their_own() {
    thread::scope(|scope| {
        for pairs in [long(), short(), long()] {
            scope.spawn(move || replay(&pairs));
        }
    });
}

/// The deepest trees that calls can make, on a quarter of what a thread has by default. tools/stack finds the least.
#[test]
fn long_sessions_on_a_small_stack() {
    let thread = thread::Builder::new().stack_size(512 << 10).spawn(|| replay(&long()));
    thread.expect("a thread").join().expect("every answer was right");
}
