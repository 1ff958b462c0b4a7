//! The Rust as judge: its own layout code, compiled unchanged, answering counter frames as our programs do; and beside it a model, which is the
//! judge where a blade eats something.

#[cfg(feature = "bench")]
mod bench;
mod coverage;
mod differences;
mod frame;
mod generate;
mod inspect;
mod marks;
mod orders;
mod records;
mod rng;
mod saw;
mod session;
mod sheet;
#[cfg(test)]
mod tests;
mod tree;

// The Rust's own modules `core`, `optimization` and `util`, with our stubs among them.
include!(concat!(env!("OUT_DIR"), "/rust.rs"));

use std::env;
use std::fs::File;
use std::io::{self, BufRead, BufReader, BufWriter, Write};
use std::process::ExitCode;

use coverage::Coverage;
use session::Session;
use sheet::Sheet;

const USAGE: &str = "usage:
  oracle run [--counter | --desk]            answer the frames on standard input as inspect (or counter, or desk) does
  oracle run --judges                        say who judges each of them: rust (with the model beside it), model, or none before an opening
  oracle check [--counter | --desk] FRAMES ANSWERS    replay recorded frames and report every answer that differs
  oracle gen SEED SESSIONS [KIND]            write the frames of random sessions; more SESSIONS KIND may follow
  oracle offers SEED COUNT                   write records of what a free piece offers
  oracle blocks SEED COUNT                   write records of the nodes that a shape makes
  oracle coverage FRAMES...                  count what recorded frames reach; fails if something is never reached
  oracle orders SEED SESSIONS KIND           tidy the states of random sessions in other orders too; panics where the trees differ
  oracle differences                         show by running where the Rust and document 01 differ";

/// What is printed for a line: as `inspect` does; or the answer alone, as `counter` and `desk` do; or who judges the sheet that is there after it.
#[derive(Clone, Copy)]
enum View {
    Inspect,
    Counter,
    Desk,
    Judges,
}

impl View {
    /// The view that a word asks for.
    fn named(word: &str) -> Option<Self> {
        match word {
            "--counter" => Some(View::Counter),
            "--desk" => Some(View::Desk),
            _ => None,
        }
    }

    /// A session as the program of this view begins it.
    fn session(self) -> Session {
        match self {
            View::Counter => Session::at_counter(),
            _ => Session::default(),
        }
    }

    /// Answers one line, and gives what the program of this view prints for it.
    fn answer(self, session: &mut Session, line: &[u8]) -> String {
        let reply = session.answer(line);
        match self {
            View::Inspect => inspect::line(session, &reply),
            View::Counter | View::Desk => reply.answer,
            View::Judges => session.sheet().map_or("none", Sheet::judge).to_string(),
        }
    }
}

fn main() -> ExitCode {
    let words: Vec<String> = env::args().skip(1).collect();
    let words: Vec<&str> = words.iter().map(String::as_str).collect();
    match command(&words) {
        Ok(true) => ExitCode::SUCCESS,
        Ok(false) => ExitCode::FAILURE,
        Err(problem) => {
            eprintln!("oracle: {problem}");
            ExitCode::from(2)
        }
    }
}

/// Runs a command; gives whether all was well.
fn command(words: &[&str]) -> Result<bool, String> {
    match words {
        ["run"] => run(View::Inspect),
        ["run", "--judges"] => run(View::Judges),
        ["run", word] => run(View::named(word).ok_or(USAGE)?),
        ["check", frames, answers] => check(View::Inspect, frames, answers),
        ["check", word, frames, answers] => check(View::named(word).ok_or(USAGE)?, frames, answers),
        ["gen", seed, sessions] => gen(seed, &[sessions, "mixed"]),
        ["gen", seed, asked @ ..] if !asked.is_empty() && asked.len() % 2 == 0 => gen(seed, asked),
        ["offers", seed, count] => {
            records::offers(number(seed)?, number(count)?);
            Ok(true)
        }
        ["blocks", seed, count] => {
            records::blocks(number(seed)?, number(count)?);
            Ok(true)
        }
        ["coverage", files @ ..] if !files.is_empty() => cover(files),
        ["orders", seed, sessions, kind] => orders(number(seed)?, number(sessions)?, kind),
        ["differences"] => {
            differences::show();
            Ok(true)
        }
        #[cfg(feature = "bench")]
        ["count", times, sides @ ..] => bench::count(number(times)?, sides),
        #[cfg(feature = "bench")]
        ["bench", sides @ ..] => bench::run(sides),
        _ => Err(USAGE.to_string()),
    }
}

fn number<N: std::str::FromStr>(word: &str) -> Result<N, String> {
    word.parse().map_err(|_| format!("{word} is no number"))
}

fn words_of(problem: io::Error) -> String {
    problem.to_string()
}

/// The next line of an input with its newline, if it has one; empty at the end.
fn next_line(input: &mut impl BufRead) -> Result<Vec<u8>, String> {
    let mut line = Vec::new();
    input.read_until(b'\n', &mut line).map_err(words_of)?;
    Ok(line)
}

/// Hands on the lines of an input. One that lacks its newline is malformed, which no frame of ours can be mistaken for.
fn each_line(mut input: impl BufRead, mut take: impl FnMut(&[u8]) -> Result<(), String>) -> Result<(), String> {
    loop {
        match next_line(&mut input)?.split_last() {
            None => return Ok(()),
            Some((b'\n', frame)) => take(frame)?,
            Some(_) => take(b"")?,
        }
    }
}

fn open(path: &str) -> Result<BufReader<File>, String> {
    File::open(path).map(BufReader::new).map_err(|problem| format!("{path}: {problem}"))
}

fn run(view: View) -> Result<bool, String> {
    let mut session = view.session();
    let mut out = BufWriter::new(io::stdout().lock());
    each_line(io::stdin().lock(), |line| writeln!(out, "{}", view.answer(&mut session, line)).map_err(words_of))?;
    out.flush().map_err(words_of)?;
    Ok(true)
}

/// Writes the frames of what is asked for: numbers of sessions, each with its kind behind it.
fn gen(seed: &str, asked: &[&str]) -> Result<bool, String> {
    let asked: Result<Vec<_>, String> = asked.chunks(2).map(|pair| Ok((number(pair[0])?, pair[1]))).collect();
    let lines = generate::lines(number(seed)?, &asked?)?;
    let mut out = BufWriter::new(io::stdout().lock());
    for line in lines {
        writeln!(out, "{line}").map_err(words_of)?;
    }
    out.flush().map_err(words_of)?;
    Ok(true)
}

/// Replays frames and compares with the recorded answers, line by line and byte for byte.
fn check(view: View, frames: &str, answers: &str) -> Result<bool, String> {
    let mut recorded = open(answers)?;
    let mut session = view.session();
    let (mut lines, mut different, mut surplus) = (0, 0, 0);
    each_line(open(frames)?, |line| {
        lines += 1;
        let ours = view.answer(&mut session, line) + "\n";
        let theirs = next_line(&mut recorded)?;
        if ours.as_bytes() != theirs {
            different += 1;
            let difference = first_difference(&ours, &String::from_utf8_lossy(&theirs));
            println!("line {lines}, frame {}: {difference}", String::from_utf8_lossy(line));
        }
        Ok(())
    })?;
    while !next_line(&mut recorded)?.is_empty() {
        surplus += 1;
    }
    println!("{lines} lines, {different} different, {surplus} recorded answers too many");
    Ok(lines > 0 && different == 0 && surplus == 0)
}

/// Names the first field in which two lines differ, with both its values.
fn first_difference(ours: &str, theirs: &str) -> String {
    let (mut ours, mut theirs) = (ours.trim_end_matches('\n').split(' '), theirs.trim_end_matches('\n').split(' '));
    for name in inspect::FIELDS {
        let (mine, other) = (ours.next(), theirs.next());
        if mine != other {
            return format!("{name}: the judge gives {}, recorded {}", mine.unwrap_or("nothing"), other.unwrap_or("nothing"));
        }
    }
    "more fields than there are, or no newline".to_string()
}

fn orders(seed: u64, sessions: u32, kind: &str) -> Result<bool, String> {
    let tried = orders::tried(seed, sessions, kind)?;
    println!("{tried:?}");
    Ok(tried.others_first > 0 && tried.bookings.iter().all(|count| *count > 0))
}

fn cover(files: &[&str]) -> Result<bool, String> {
    let mut coverage = Coverage::default();
    for file in files {
        let mut session = Session::default();
        let mut lines = 0;
        each_line(open(file)?, |line| {
            lines += 1;
            coverage.count(&mut session, line);
            Ok(())
        })?;
        if lines == 0 {
            return Err(format!("{file}: no frames"));
        }
    }
    Ok(coverage.report())
}
