//! For the people at the counter: `nickelgrove draw` shows a sheet's cut diagram, `nickelgrove say` reads its saw cuts aloud, `nickelgrove counter` and
//! `nickelgrove desk` answer frames.
//! What is drawn and said comes from the proved calls alone. Output is made in full before any of it is written.
#![deny(unsafe_code)]

mod counter;
mod input;
mod output;
mod picture;
mod say;
mod sheet;
mod svg;
#[cfg(test)]
mod tests;
mod text;

use std::ffi::{OsStr, OsString};
use std::io::Read;
use std::path::PathBuf;
use std::process::ExitCode;
use std::{env, fs, io};

use nickelgrove_kiosk::{Counter, Desk};
use sheet::Sheet;

const USAGE: &str = "\
nickelgrove: a sheet as a picture and in words

    nickelgrove draw [--text] [--snapshot | --each] [-o FILE] [FILE]
    nickelgrove say [--snapshot | --each] [-o FILE] [FILE]
    nickelgrove counter
    nickelgrove desk
    nickelgrove --help

draw     the cut diagram of a sheet as SVG: each piece with its name and size, free
         pieces hatched, what the blade eats dark, the cuts numbered in the order of
         the list
say      the list of saw cuts, a numbered sentence a cut. Boards count from 1 in the
         order in which they lie; the two pieces of a cut lie where their board lay
counter  answers each line of standard input at once (docs/FRAMES.md)
desk     the same, with the ops of the desk too

FILE, or standard input without one or with -, has a session's frames, a line each:
those of the counter and of the desk. What is shown is the sheet that they leave. A
line that is refused changes nothing; one that is no frame is an error.

--text      draw for a terminal: 78 columns, 40 rows, and a list of the pieces
--snapshot  FILE has a tree snapshot, in a second line its list of saw cuts, and in a
            third one what these lose, as the desk answers 17e9, 18e8 and 1ae6, or as
            `inspect` shows them. The third may be left out where the blade eats
            nothing. draw takes the first alone too, and then numbers no cut
--each      show the sheet after each line that leaves one
-o FILE     write to FILE, all of it or nothing

Lengths are in the sheet's own unit, whatever that is. The status is 0 if all went
well. It is 1 if the input is wrong, with the line's number, or if reading or writing
failed; and 2 if the command is not one of these. What failed is said on standard
error, and then nothing is written, but by counter and desk, which have answered the
lines before.
";

/// What went wrong: the words, and the status.
struct Failed(String, u8);

fn main() -> ExitCode {
    match run(env::args_os().skip(1).collect()) {
        Ok(()) => ExitCode::SUCCESS,
        Err(Failed(what, status)) => {
            // where nobody hears it the status still tells
            let _ = output::say(&format!("nickelgrove: {what}\n"));
            ExitCode::from(status)
        }
    }
}

fn run(words: Vec<OsString>) -> Result<(), Failed> {
    let Some((command, words)) = words.split_first() else {
        return Err(wrong_use("draw, say, counter or desk?"));
    };
    match command.to_str() {
        Some("draw") => show(Wanted::read(words, true)?),
        Some("say") => show(Wanted::read(words, false)?),
        Some("counter" | "desk") if !words.is_empty() => Err(wrong_use("counter and desk take no more words")),
        Some("counter") => {
            let mut counter = Counter::new();
            serve(|line, answers| answers.extend_from_slice(counter.answer(line).as_bytes()))
        }
        Some("desk") => {
            let mut desk = Desk::new();
            serve(|line, answers| answers.extend_from_slice(desk.answer(line).as_bytes()))
        }
        Some("--help" | "-h") => output::write(None, USAGE.as_bytes()).map_err(|what| Failed(what, 1)),
        _ => Err(wrong_use(&format!("no such command: {}", command.to_string_lossy()))),
    }
}

fn serve(answer: impl FnMut(&[u8], &mut Vec<u8>)) -> Result<(), Failed> {
    counter::serve(io::stdin().lock(), io::stdout().lock(), answer).map_err(|what| Failed(what, 1))
}

fn wrong_use(what: &str) -> Failed {
    Failed(format!("{what}\n`nickelgrove --help` says what there is"), 2)
}

/// What is asked for.
#[derive(Default)]
struct Wanted {
    draw: bool,
    text: bool,
    snapshot: bool,
    each: bool,
    to: Option<PathBuf>,
    from: Option<PathBuf>,
}

impl Wanted {
    fn read(words: &[OsString], draw: bool) -> Result<Self, Failed> {
        let mut wanted = Wanted { draw, ..Wanted::default() };
        let (mut words, mut options) = (words.iter(), true);
        while let Some(word) = words.next() {
            match word.to_str() {
                Some("--") if options => options = false,
                Some("--text") if options && draw => wanted.text = true,
                Some("--snapshot") if options => wanted.snapshot = true,
                Some("--each") if options => wanted.each = true,
                Some("-o") if options => wanted.to(words.next())?,
                Some(word) if options && word.starts_with('-') && word != "-" => {
                    return Err(wrong_use(&format!("no such option: {word}")))
                }
                _ => wanted.from(word)?,
            }
        }
        if wanted.snapshot && wanted.each {
            return Err(wrong_use("--each goes along a session, and a snapshot is none"));
        }
        Ok(wanted)
    }

    fn to(&mut self, file: Option<&OsString>) -> Result<(), Failed> {
        let file = file.ok_or_else(|| wrong_use("-o wants a file"))?;
        match self.to.replace(file.into()) {
            None => Ok(()),
            Some(_) => Err(wrong_use("-o is there twice")),
        }
    }

    fn from(&mut self, file: &OsStr) -> Result<(), Failed> {
        match self.from.replace(file.into()) {
            None => Ok(()),
            Some(_) => Err(wrong_use("one file at a time")),
        }
    }

    /// The file's name, for messages.
    fn name(&self) -> String {
        match &self.from {
            Some(file) if file.as_os_str() != "-" => file.display().to_string(),
            _ => "standard input".into(),
        }
    }

    fn input(&self) -> Result<Vec<u8>, Failed> {
        let read = match &self.from {
            Some(file) if file.as_os_str() != "-" => fs::read(file),
            _ => {
                let mut text = Vec::new();
                io::stdin().lock().read_to_end(&mut text).map(|_| text)
            }
        };
        read.map_err(|error| Failed(format!("reading {}: {error}", self.name()), 1))
    }

    /// A sheet as it is wanted; none where there is nothing to say.
    fn shown(&self, sheet: &Sheet) -> Option<String> {
        match (self.draw, self.text) {
            (true, true) => Some(text::text(sheet)),
            (true, false) => Some(svg::svg(sheet)),
            (false, _) => say::say(sheet),
        }
    }

    /// The line over a sheet that is one of several.
    fn heading(&self, number: usize) -> String {
        if self.draw && !self.text {
            format!("<!-- after line {number} -->\n")
        } else {
            format!("After line {number}:\n")
        }
    }

    /// All that is to be written.
    fn all(&self, text: &[u8]) -> Result<String, input::Failure> {
        if self.each {
            let mut all = String::new();
            input::each(text, |number, sheet| {
                all.push_str(&self.heading(number));
                all.push_str(&self.shown(sheet).unwrap_or_default());
            })?;
            return Ok(all);
        }
        let sheet = if self.snapshot { input::snapshot(text)? } else { input::session(text)? };
        self.shown(&sheet).ok_or((2, "no list of saw cuts: the desk's answer to 18e8 belongs here".into()))
    }
}

fn show(wanted: Wanted) -> Result<(), Failed> {
    let text = wanted.input()?;
    let all = wanted.all(&text).map_err(|(line, what)| Failed(format!("{}, line {line}: {what}", wanted.name()), 1))?;
    output::write(wanted.to.as_deref(), all.as_bytes()).map_err(|what| Failed(what, 1))
}
