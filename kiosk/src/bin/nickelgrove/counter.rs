//! The counter and the desk on standard input and output: the lines and the answers of the programs `counter` and `desk`, with a status that tells how they ended.

use std::io::{ErrorKind, Read, Write};
use std::thread;
use std::time::Duration;

/// The most characters of a frame. Of a longer line no more than one character more is kept.
const LONGEST: usize = 64;

/// How long to wait for an end that isn't ready.
const PAUSE: Duration = Duration::from_millis(1);

/// Answers each line as soon as it is whole: before more is read, its answer is written. What failed is handed back in words. `answer` puts the answer to a line
/// behind what it is handed.
pub fn serve(mut input: impl Read, mut output: impl Write, mut answer: impl FnMut(&[u8], &mut Vec<u8>)) -> Result<(), String> {
    let mut chunk = [0; 4096];
    let mut line = Vec::new();
    let mut number = 1;
    loop {
        let count = read(&mut input, &mut chunk).map_err(|error| format!("line {number}: reading: {error}"))?;
        let mut answers = Vec::new();
        let first = number;
        for byte in &chunk[..count] {
            if *byte == b'\n' {
                answer(&line, &mut answers);
                answers.push(b'\n');
                line.clear();
                number += 1;
            } else if line.len() <= LONGEST {
                line.push(*byte);
            }
        }
        if count == 0 && !line.is_empty() {
            // a last line without its newline is no frame, and nor is an empty line
            answer(b"", &mut answers);
            answers.push(b'\n');
        }
        write(&mut output, &answers).map_err(|error| format!("line {first}: writing: {error}"))?;
        if count == 0 {
            return Ok(());
        }
    }
}

/// Whether to make a call again that a signal has ended, or for which an end wasn't ready; then after a pause.
fn again(error: &std::io::Error) -> bool {
    if error.kind() == ErrorKind::WouldBlock {
        thread::sleep(PAUSE);
    }
    matches!(error.kind(), ErrorKind::Interrupted | ErrorKind::WouldBlock)
}

/// What is there, as soon as something is; 0 at the end.
fn read(input: &mut impl Read, chunk: &mut [u8]) -> std::io::Result<usize> {
    loop {
        match input.read(chunk) {
            Err(error) if again(&error) => (),
            other => return other,
        }
    }
}

/// All of it, and nothing is kept back.
pub fn write(output: &mut impl Write, mut bytes: &[u8]) -> std::io::Result<()> {
    while !bytes.is_empty() {
        match output.write(bytes) {
            Ok(0) => return Err(ErrorKind::WriteZero.into()),
            Ok(count) => bytes = &bytes[count..],
            Err(error) if again(&error) => (),
            Err(error) => return Err(error),
        }
    }
    loop {
        match output.flush() {
            Err(error) if again(&error) => (),
            other => return other,
        }
    }
}
