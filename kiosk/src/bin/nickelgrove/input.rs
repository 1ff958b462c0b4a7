//! What is drawn or said: a session's frames, which the desk answers, or a tree snapshot with its list of saw cuts and what these lose. A line that can't be read is
//! told by its number.

use nickelgrove_kiosk::Desk;

use crate::sheet::{Sheet, Wrong, CUT, NODE};

/// The desk's frames that ask for the tree snapshot, for the saw cuts and for what these lose.
const SNAPSHOT: &str = "17e9";
const CUTS: &str = "18e8";
const AMOUNTS: &str = "1ae6";

/// The answers to them: the op, and how many bytes each entry has.
const SHOWN: (u8, usize) = (0x17, NODE);
const LISTED: (u8, usize) = (0x18, CUT);
const LOST: (u8, usize) = (0x1a, 1);

/// The most characters of a frame.
const LONGEST: usize = 64;

/// What is wrong, with the number of its line.
pub type Failure = (usize, String);

/// The lines of a text, without their newlines. The last one must have its own.
fn lines(text: &[u8]) -> Result<Vec<&[u8]>, Failure> {
    let Some(text) = text.strip_suffix(b"\n") else {
        let last = text.iter().filter(|byte| **byte == b'\n').count() + 1;
        return Err((
            last,
            if text.is_empty() { "there is nothing: no line" } else { "the newline at the end is missing" }.into(),
        ));
    };
    Ok(text.split(|byte| *byte == b'\n').collect())
}

/// The sheet that a session leaves.
pub fn session(text: &[u8]) -> Result<Sheet, Failure> {
    let mut desk = Desk::new();
    let lines = lines(text)?;
    for (at, line) in lines.iter().enumerate() {
        step(&mut desk, line, at + 1)?;
    }
    sheet_on(&mut desk, lines.len())?.ok_or((lines.len(), "no sheet is open after this line".into()))
}

/// The sheet after each line of a session, with the line's number; lines that leave no sheet are left out.
pub fn each(text: &[u8], mut show: impl FnMut(usize, &Sheet)) -> Result<(), Failure> {
    let mut desk = Desk::new();
    for (at, line) in lines(text)?.iter().enumerate() {
        step(&mut desk, line, at + 1)?;
        if let Some(sheet) = sheet_on(&mut desk, at + 1)? {
            show(at + 1, &sheet);
        }
    }
    Ok(())
}

/// Hands a line to the desk. A refusal is an answer like others: it changes nothing. What is no frame is a failure.
fn step(desk: &mut Desk, line: &[u8], number: usize) -> Result<(), Failure> {
    if desk.answer(line) == "ff0ef3" {
        return Err((number, why_not(line)));
    }
    Ok(())
}

/// The sheet on the desk, by its three proved calls; none where they refuse.
fn sheet_on(desk: &mut Desk, number: usize) -> Result<Option<Sheet>, Failure> {
    let mut ask = |frame: &str, answer: (u8, usize)| field(desk.answer(frame).as_bytes(), answer);
    let (Some(snapshot), Some(list), Some(amounts)) = (ask(SNAPSHOT, SHOWN), ask(CUTS, LISTED), ask(AMOUNTS, LOST)) else {
        return Ok(None);
    };
    match Sheet::new(&snapshot, Some((&list, &amounts))) {
        Ok(sheet) => Ok(Some(sheet)),
        // can't come from the proved calls
        Err(Wrong::Snapshot(what) | Wrong::Cuts(what) | Wrong::Amounts(what)) => {
            Err((number, format!("the snapshot and the cuts don't agree: {what}")))
        }
    }
}

/// What an answer holds: as many entries as it says, behind the op, 00 and their count, and before the check.
fn field(answer: &[u8], (op, entry): (u8, usize)) -> Option<Vec<u8>> {
    let bytes = bytes(answer)?;
    let [begin, 0, high, low, held @ .., _check] = bytes.as_slice() else { return None };
    let count = usize::from(u16::from_be_bytes([*high, *low]));
    let sum = bytes.iter().fold(0, |sum: u8, byte| sum.wrapping_add(*byte));
    (*begin == op && held.len() == count * entry && sum == 0).then(|| held.to_vec())
}

/// The bytes of hexadecimal digits.
fn bytes(digits: &[u8]) -> Option<Vec<u8>> {
    let digit = |byte: &u8| match byte {
        b'0'..=b'9' => Some(byte - b'0'),
        b'a'..=b'f' => Some(byte - b'a' + 10),
        _ => None,
    };
    let pair = |pair: &[u8]| match pair {
        [high, low] => Some(digit(high)? << 4 | digit(low)?),
        _ => None,
    };
    digits.chunks(2).map(pair).collect()
}

/// A tree snapshot, in a second line its list of saw cuts, and in a third one what each of these loses: each as the desk answers, or its bytes alone, as `inspect` shows
/// them. `-` is an empty list. The third line may be left out where nothing is lost.
pub fn snapshot(text: &[u8]) -> Result<Sheet, Failure> {
    let lines = lines(text)?;
    let shown = held(lines[0], SHOWN)
        .ok_or((1, "no tree snapshot: it is lower-case hexadecimal, or the desk's answer to 17e9".to_string()))?;
    let list = match lines.get(1) {
        Some(line) => Some(
            held(line, LISTED)
                .ok_or((2, "no list of saw cuts: it is lower-case hexadecimal, or the desk's answer to 18e8".to_string()))?,
        ),
        None => None,
    };
    if lines.len() > 3 {
        return Err((4, "a snapshot is one line, its saw cuts are another, and what these lose a third: there are more".into()));
    }
    let told = |wrong: Wrong| match wrong {
        Wrong::Snapshot(what) => (1, what),
        Wrong::Cuts(what) => (2, what),
        Wrong::Amounts(what) => (3, what),
    };
    let Some(list) = list else { return Sheet::new(&shown, None).map_err(told) };
    let count = list.len() / CUT;
    let wanted = || (3, "no amounts of the cuts: lower-case hexadecimal, or the desk's answer to 1ae6, belongs here".to_string());
    let amounts = match lines.get(2) {
        Some(line) => lost(line, count).ok_or_else(wanted)?,
        // what is wrong with the snapshot is told before what is missing
        None if Sheet::new(&shown, None).map_err(told)?.strips.is_empty() => vec![0; count],
        None => return Err(wanted()),
    };
    Sheet::new(&shown, Some((&list, &amounts))).map_err(told)
}

/// The amounts of so many cuts: a byte each, or the answer that holds them, which is longer. (A first amount may be that answer's op.)
fn lost(line: &[u8], count: usize) -> Option<Vec<u8>> {
    if line == b"-" {
        return Some(Vec::new());
    }
    let own = bytes(line)?;
    if own.len() == count {
        return Some(own);
    }
    field(line, LOST)
}

/// The bytes that a line holds: those of an answer of this op, or its own. (A snapshot and a list begin with 00.)
fn held(line: &[u8], answer: (u8, usize)) -> Option<Vec<u8>> {
    if line == b"-" {
        return Some(Vec::new());
    }
    let own = bytes(line)?;
    if own.first() == Some(&answer.0) {
        field(line, answer)
    } else {
        Some(own)
    }
}

/// Why a line is no frame.
fn why_not(line: &[u8]) -> String {
    let listed = |byte: &u8| matches!(byte, b'0'..=b'9' | b'a'..=b'f');
    let what = if line.is_empty() {
        "the line is empty".into()
    } else if line.len() > LONGEST {
        format!("it has {} characters, and {LONGEST} is the most", line.len())
    } else if line.ends_with(b"\r") {
        "it ends with a carriage return".into()
    } else if let Some(at) = line.iter().position(|byte| !listed(byte)) {
        format!("character {} is not one of 0 to 9 and a to f", at + 1)
    } else if line.len() % 2 == 1 {
        "a character is missing: two are a byte".into()
    } else if bytes(line).is_some_and(|bytes| bytes.iter().fold(0, |sum: u8, byte| sum.wrapping_add(*byte)) != 0) {
        "the check is wrong: the bytes don't add to a multiple of 256".into()
    } else {
        "the op is not listed, or a field isn't, or the length is another op's".into()
    };
    format!("no frame: {what} (docs/FRAMES.md)")
}
