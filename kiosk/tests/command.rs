//! The command `nickelgrove`, run: the counter's lines and its status, what is drawn and said of a session, and what is told of input that is wrong.

mod common;

use std::fs::{self, File};
use std::io::{BufRead, BufReader, Read, Write};
use std::os::unix::net::UnixListener;
use std::path::{Path, PathBuf};
use std::process::{Child, Command, Output, Stdio};
use std::sync::mpsc;
use std::time::Duration;
use std::{env, process, thread};

use common::{counters_lines_of, lines_of};

fn command(words: &[&str]) -> Command {
    let mut command = Command::new(env!("CARGO_BIN_EXE_nickelgrove"));
    command.args(words).stdin(Stdio::null()).stdout(Stdio::piped()).stderr(Stdio::piped());
    command
}

/// Runs it on this input, whatever of that it reads.
fn run(words: &[&str], input: &[u8]) -> Output {
    let mut child = command(words).stdin(Stdio::piped()).spawn().expect("the command");
    let mut pipe = child.stdin.take().expect("a pipe");
    let input = input.to_vec();
    let writer = thread::spawn(move || pipe.write_all(&input));
    let output = child.wait_with_output().expect("an end");
    let _ = writer.join();
    output
}

fn said(output: &Output) -> String {
    String::from_utf8(output.stderr.clone()).expect("words")
}

fn checkout(file: &str) -> Vec<u8> {
    fs::read(Path::new(env!("CARGO_MANIFEST_DIR")).join("..").join(file)).expect("a file of the checkout")
}

/// A folder of this test's own, which goes when it ends.
struct Room(PathBuf);

impl Room {
    fn new(name: &str) -> Self {
        let room = env::temp_dir().join(format!("nickelgrove.{}.{name}", process::id()));
        fs::create_dir(&room).expect("a new folder");
        Room(room)
    }

    fn file(&self, name: &str) -> String {
        self.0.join(name).to_str().expect("a name").to_string()
    }

    /// The names in it.
    fn names(&self) -> Vec<String> {
        let names = fs::read_dir(&self.0).expect("a folder").map(|entry| entry.expect("an entry").file_name());
        names.map(|name| name.into_string().expect("a name")).collect()
    }
}

impl Drop for Room {
    fn drop(&mut self) {
        let _ = fs::remove_dir_all(&self.0);
    }
}

/// The lines of the program `counter`, and of `inspect` the first field.
#[test]
fn counter_answers_as_the_program_does() {
    for (frames, answers) in [("recorded/long.in", "recorded/long.out"), ("crates/counter/stdin", "crates/counter/stdout")] {
        let output = run(&["counter"], &checkout(frames));
        assert!(output.status.success() && output.stderr.is_empty());
        assert!(output.stdout == checkout(answers), "{frames}");
    }
    let fields = lines_of("recorded/sessions.out")
        .into_iter()
        .map(|line| line.split(|byte| *byte == b' ').next().expect("a field").to_vec());
    let answers: Vec<Vec<u8>> = fields.map(|field| [field.as_slice(), b"\n"].concat()).collect();
    // the counter doesn't know tidying: it gets the lines before the first that asks for it, and the desk gets all
    let frames = counters_lines_of("recorded/sessions.in");
    assert!(frames.len() > 5_000);
    assert!(
        run(&["counter"], &[frames.join(b"\n".as_slice()), b"\n".to_vec()].concat()).stdout == answers[..frames.len()].concat()
    );
    assert!(run(&["desk"], &checkout("recorded/sessions.in")).stdout == answers.concat());
    assert!(run(&["desk"], &checkout("recorded/tidy.in")).stdout == checkout("recorded/tidy.out"));
}

/// Lines that are no frames, and the ends that an input may have: as tests/counter_lines.sh has them of the program.
#[test]
fn counter_on_lines_that_are_no_frames() {
    let (long, longer) = (vec![b'0'; 64], vec![b'0'; 300_000]);
    let texts: [(Vec<u8>, &str); 13] = [
        (b"".to_vec(), ""),
        (b"07f9\n".to_vec(), "0701f8\n"),
        (b"\n".to_vec(), "ff0ef3\n"),
        (b"07f9\r\n07F9\n".to_vec(), "ff0ef3\nff0ef3\n"),
        (b"\x00\n\xff\xff\n07f\xb9\n".to_vec(), "ff0ef3\nff0ef3\nff0ef3\n"),
        ([&long, b"\n07f9\n".as_slice()].concat(), "ff0ef3\n0701f8\n"),
        ([&longer, b"\n07f9\n".as_slice()].concat(), "ff0ef3\n0701f8\n"),
        (longer.clone(), "ff0ef3\n"),
        (b"07f9\n07f9".to_vec(), "0701f8\nff0ef3\n"),
        (b"11ef\n17e9\n".to_vec(), "ff0ef3\nff0ef3\n"),
        // an opening without a blade's width, as it was written before there was one; one with it; and one with too much of it
        (b"010001000000640000003c01035a\n".to_vec(), "ff0ef3\n"),
        (b"010001000000640000003c01030357\n".to_vec(), "010000010100000002fb\n"),
        (b"010001000000640000003c010365f5\n".to_vec(), "0102fd\n"),
    ];
    for (text, answers) in texts {
        let output = run(&["counter"], &text);
        assert_eq!(String::from_utf8_lossy(&output.stdout), answers);
        assert!(output.status.success() && output.stderr.is_empty());
    }
}

fn counter() -> (Child, process::ChildStdin, process::ChildStdout) {
    let mut child = command(&["counter"]).stdin(Stdio::piped()).spawn().expect("the command");
    let (input, output) = (child.stdin.take().expect("a pipe"), child.stdout.take().expect("a pipe"));
    (child, input, output)
}

/// Each answer comes before the next line is sent, however a line is cut into writes.
#[test]
fn counter_answers_at_once() {
    let (mut child, mut input, output) = counter();
    let (give, answers) = mpsc::channel();
    thread::spawn(move || BufReader::new(output).lines().try_for_each(|line| give.send(line.expect("an answer"))));
    for (frame, right) in lines_of("recorded/long.in").iter().zip(lines_of("recorded/long.out")).take(40) {
        for byte in frame {
            input.write_all(&[*byte]).expect("a write");
        }
        input.write_all(b"\n").expect("a write");
        let answer = answers.recv_timeout(Duration::from_secs(60)).expect("an answer while more could be sent");
        assert_eq!(answer.as_bytes(), right);
    }
    drop(input);
    assert!(child.wait().expect("an end").success());
}

/// Nobody reads: said, and told by the status, though no signal ends it.
#[test]
fn counter_with_a_broken_pipe() {
    let (child, mut input, output) = counter();
    drop(output);
    input.write_all(b"07f9\n").expect("a write");
    drop(input);
    let output = child.wait_with_output().expect("an end");
    assert_eq!(output.status.code(), Some(1));
    assert!(said(&output).starts_with("nickelgrove: line 1: writing: Broken pipe"), "{}", said(&output));
}

#[test]
fn counter_on_ends_that_fail() {
    let full = File::options().write(true).open("/dev/full").expect("a full device");
    let frames = Path::new(env!("CARGO_MANIFEST_DIR")).join("../recorded/long.in");
    let output = command(&["counter"]).stdin(File::open(frames).expect("frames")).stdout(full).output().expect("an end");
    assert_eq!(output.status.code(), Some(1));
    assert!(said(&output).starts_with("nickelgrove: line 1: writing: No space left on device"), "{}", said(&output));

    let folder = File::open(env!("CARGO_MANIFEST_DIR")).expect("a folder");
    let output = command(&["counter"]).stdin(folder).output().expect("an end");
    assert_eq!((output.status.code(), output.stdout.len()), (Some(1), 0));
    assert!(said(&output).starts_with("nickelgrove: line 1: reading: Is a directory"), "{}", said(&output));
}

const OPEN: &str = "010001000000640000003c0103005a\n";
const BOOKING: &str = "03000101000000020007000000280000001e000003a9\n";

/// Case i of docs/RULES.md: what is said of it, and what stands in its pictures.
#[test]
fn a_session_is_said_and_drawn() {
    let session = format!("{OPEN}{BOOKING}");
    let output = run(&["say"], session.as_bytes());
    assert!(output.status.success() && output.stderr.is_empty());
    let lines = "Sheet 100 by 60: 2 cuts make 3 pieces.\n\
        1. Take board 1, 100 by 60. Cut down, 40 from the left. Left: board 1, 40 by 60, to cut again. Right: offcut 60 by 60.\n\
        2. Take board 1, 40 by 60. Cut across, 30 from the top. Above: panel 7, 40 by 30. Below: offcut 40 by 30.\n";
    assert_eq!(String::from_utf8_lossy(&output.stdout), lines);
    // a refused line changes nothing: the same booking again, of a piece that is gone
    assert_eq!(run(&["say", "-"], format!("{session}{BOOKING}").as_bytes()).stdout, output.stdout);

    let svg = String::from_utf8(run(&["draw"], session.as_bytes()).stdout).expect("a picture");
    for words in ["<svg ", ">panel 7<", ">40 x 30<", ">60 x 60<", "url(#free)", "Drawn to scale.", ">2</text></g>", "</svg>\n"] {
        assert!(svg.contains(words), "{words}");
    }
    assert_eq!(svg.matches("http").count(), 1, "no more than the name of the language");
    let text = String::from_utf8(run(&["draw", "--text"], session.as_bytes()).stdout).expect("a picture");
    assert!(text.lines().all(|line| line.len() <= 78) && text.contains(" 1 panel 7 ") && text.contains("3 offcut"), "{text}");
}

/// Panel 7 is taken out of it, which leaves its strip, and the sheet is tidied: what is said and drawn then is the board of the opening.
#[test]
fn a_tidied_session_is_said_and_drawn() {
    let untidy = format!("{OPEN}{BOOKING}0400010200000004f5\n");
    let lines = "Sheet 100 by 60: 1 cut makes 2 pieces.\n\
        1. Take board 1, 100 by 60. Cut down, 40 from the left. Left: offcut 40 by 60. Right: offcut 60 by 60.\n";
    assert_eq!(String::from_utf8_lossy(&run(&["say"], untidy.as_bytes()).stdout), lines);
    let tidy = format!("{untidy}1be5\n");
    for (session, pieces) in [(untidy.as_str(), 2), (OPEN, 1), (tidy.as_str(), 1)] {
        let svg = String::from_utf8(run(&["draw"], session.as_bytes()).stdout).expect("a picture");
        assert_eq!(svg.matches(">offcut<").count(), pieces);
    }
    for words in [["say"].as_slice(), &["draw"], &["draw", "--text"]] {
        let output = run(words, tidy.as_bytes());
        assert!(output.status.success() && output.stderr.is_empty());
        assert_eq!(output.stdout, run(words, OPEN.as_bytes()).stdout, "{words:?}");
    }
    let each = String::from_utf8(run(&["say", "--each"], tidy.as_bytes()).stdout).expect("words");
    assert!(each.ends_with("After line 4:\nSheet 100 by 60: no cut. It is offcut 100 by 60.\n"), "{each}");
    let desk = run(&["desk"], format!("1be5\n{tidy}1be5\n1b00e5\n").as_bytes());
    assert!(desk.status.success() && desk.stdout.ends_with(b"\n1b000001e4\n1b000000e5\nff0ef3\n"));
    assert!(desk.stdout.starts_with(b"1b01e4\n"));
    assert!(run(&["counter"], tidy.as_bytes()).stdout.ends_with(b"\nff0ef3\n"));
}

const OPEN_WITH_BLADE: &str = "010001000000640000003c01030357\n";

/// The same with a blade that is 3 wide: what it takes is said with each cut, and is drawn dark between the pieces.
#[test]
fn a_session_with_a_blade_is_said_and_drawn() {
    let session = format!("{OPEN_WITH_BLADE}{BOOKING}");
    let lines = "Sheet 100 by 60: 2 cuts make 3 pieces. Of the area 6000 the saw takes 300. Panels have 1200 of it, offcuts 4500.\n\
        1. Take board 1, 100 by 60. Cut down, 40 from the left; the saw takes 3. Left: board 1, 40 by 60, to cut again. \
        Right: offcut 57 by 60.\n\
        2. Take board 1, 40 by 60. Cut across, 30 from the top; the saw takes 3. Above: panel 7, 40 by 30. Below: offcut 40 by 27.\n";
    assert_eq!(String::from_utf8_lossy(&run(&["say"], session.as_bytes()).stdout), lines);
    let svg = String::from_utf8(run(&["draw"], session.as_bytes()).stdout).expect("a picture");
    for words in [
        r##"<rect x="440" y="80" width="30" height="600" fill="#555"><title>saw: 3 x 60, 40 from the left, 0 from the top</title>"##,
        r##"<rect x="40" y="380" width="400" height="30" fill="#555"><title>saw: 40 x 3, 0 from the left, 30 from the top</title>"##,
        ">57 x 60<",
        ">40 x 27<",
        "Drawn to scale.",
        ">Of the area 6000 the saw takes 300.<",
        ">Panels have 1200 of it, offcuts 4500.<",
    ] {
        assert!(svg.contains(words), "{words}");
    }
    let text = String::from_utf8(run(&["draw", "--text"], session.as_bytes()).stdout).expect("a picture");
    assert!(text.lines().all(|line| line.len() <= 78) && text.contains("####") && text.contains("#  Of the area 6000"), "{text}");

    // part 8, 57 x 58, ends the second strip: of the 2 that are below it the blade takes all
    let session = format!("{session}03000104000000060008000000390000003a00000275\n");
    let said = String::from_utf8(run(&["say"], session.as_bytes()).stdout).expect("words");
    let last =
        "3. Take board 3, 57 by 60. Cut across, 58 from the top; the saw takes 2. Above: panel 8, 57 by 58. Below: nothing.\n";
    assert!(said.starts_with("Sheet 100 by 60: 3 cuts make 3 pieces. ") && said.ends_with(last), "{said}");
}

/// The sheets of docs/pictures are drawn and said as when they were looked at.
#[test]
fn pictures_are_as_they_were_looked_at() {
    for name in ["one", "k", "forty", "chain", "stair", "row", "thin", "blade", "wide", "ends"] {
        let frames = checkout(&format!("docs/pictures/{name}.frames"));
        for (words, ending) in [(&["draw"][..], "svg"), (&["draw", "--text"], "txt"), (&["say"], "said")] {
            let output = run(words, &frames);
            assert!(output.status.success() && output.stderr.is_empty());
            assert!(output.stdout == checkout(&format!("docs/pictures/{name}.{ending}")), "{name}.{ending}");
        }
    }
}

/// From a file, to a file, and from the lines that the desk answers with: the same bytes.
#[test]
fn files_and_snapshots() {
    for opening in [OPEN, OPEN_WITH_BLADE] {
        files_and_snapshots_of(opening);
    }
}

fn files_and_snapshots_of(opening: &str) {
    let room = Room::new("files");
    let (frames, shown, svg) = (room.file("frames"), room.file("shown"), room.file("svg"));
    fs::write(&frames, format!("{opening}{BOOKING}")).expect("a file");
    let drawn = run(&["draw", &frames], b"").stdout;
    let output = run(&["draw", "-o", &svg, &frames], b"");
    assert!(output.status.success() && output.stdout.is_empty());
    assert!(fs::read(&svg).expect("a picture") == drawn);

    let mut desk = nickelgrove_kiosk::Desk::new();
    for line in [opening, BOOKING] {
        desk.answer(line.trim_end());
    }
    let [snapshot, cuts, amounts] = ["17e9", "18e8", "1ae6"].map(|frame| desk.answer(frame).to_string());
    // the third line may be left out where the blade eats nothing
    let short = format!("{snapshot}\n{cuts}\n");
    fs::write(&shown, if opening == OPEN { short } else { format!("{short}{amounts}\n") }).expect("a file");
    assert!(run(&["draw", "--snapshot", &shown], b"").stdout == drawn);
    assert_eq!(run(&["say", "--snapshot", &shown], b"").stdout, run(&["say", &frames], b"").stdout);
    assert!(run(&["draw", "--snapshot"], format!("{snapshot}\n").as_bytes()).status.success());

    let each = String::from_utf8(run(&["say", "--each", &frames], b"").stdout).expect("words");
    assert!(
        each.starts_with(
            "After line 1:\nSheet 100 by 60: no cut. It is offcut 100 by 60.\nAfter line 2:\nSheet 100 by 60: 2 cuts"
        ),
        "{each}"
    );
}

/// What is wrong is told with the line's number; the status is 1, nothing is written, and a file that was there is as it was.
#[test]
fn input_that_is_wrong_is_told() {
    let room = Room::new("wrong");
    let kept = room.file("kept");
    fs::write(&kept, "as it was").expect("a file");
    let sessions: [(&str, &str); 10] = [
        ("", "line 1: there is nothing: no line"),
        ("010001000000640000003c0103005a", "line 1: the newline at the end is missing"),
        ("07f9\n", "line 1: no sheet is open after this line"),
        ("010001000000640000003c0103005a\n\n", "line 2: no frame: the line is empty"),
        ("010001000000640000003c0103005a\r\n", "line 1: no frame: it ends with a carriage return"),
        ("010001000000640000003c0103005a\n07F9\n", "line 2: no frame: character 3 is not one of 0 to 9 and a to f"),
        ("010001000000640000003c0103005a\n07f\n", "line 2: no frame: a character is missing: two are a byte"),
        ("010001000000640000003c0103005a\n07f9\n07f8\n", "line 3: no frame: the check is wrong"),
        ("010001000000640000003c0103005a\n08f8\n", "line 2: no frame: the op is not listed"),
        (
            "00000000000000000000000000000000000000000000000000000000000000000\n",
            "line 1: no frame: it has 65 characters, and 64 is the most",
        ),
    ];
    // README's sheet, 100 x 60: part 7, 40 x 60, and what is left
    let sheet = "0002010000000000640000003c000101000007000000280000003c0001000000000000003c0000003c00";
    let cut = |list: &str| format!("{sheet}\n{list}\n");
    let lists = [
        ("000001000000290100", "line 2: board 1 of the last pile isn't that piece of the tree"),
        ("000001000000280001", "line 2: board 1 of the last pile isn't that piece of the tree"),
        ("000101000000280100", "line 2: cut 1 takes a board that is not there"),
        ("000002000000280100", "line 2: cut 1 has a way or a kind that is not listed"),
        ("000001000000640100", "line 2: cut 1 doesn't lie inside its board"),
        ("000001000000280100000001000000140100", "line 2: cut 2 takes a board that is done"),
        ("18000001000001000000280100be", "line 2: no list of saw cuts: it is"),
        ("18000002000001000000280100bc", "line 2: no list of saw cuts: it is"),
        ("-", "line 2: the cuts make 1 board, and the tree has 2 pieces"),
    ];
    let snapshots: [(&str, &str); 18] = [
        ("\n", "line 1: no tree snapshot: 0 bytes"),
        ("zz\n", "line 1: no tree snapshot"),
        ("00020100000000006400\n", "line 1: no tree snapshot: 10 bytes"),
        ("1701e8\n", "line 1: no tree snapshot"),
        ("0000010000000000640000003c00\n", "line 1: node 1 of the tree snapshot is the sheet itself, and no structure"),
        ("0002010000000000640000003c00\n", "line 1: node 1 of the tree snapshot has children that don't fill it"),
        (
            "0002010000000000640000003c000100000000000000640000003d00\n",
            "line 1: node 2 of the tree snapshot doesn't fit into its parent",
        ),
        (
            "0002010000000000640000003c000100010000000000640000003c00\n",
            "line 1: node 2 of the tree snapshot has the cut of its parent",
        ),
        ("0002010000000000640000003c000100000000000000640000003c00\n00\n", "line 2: no list of saw cuts: 1 byte"),
        (
            "0002010000000000640000003c000100000000000000640000003c00\n000001000000280100\n",
            "line 2: the cuts make 2 boards, and the tree has 1 piece",
        ),
        ("0002010000000000640000003c000100000000000000640000003c00\n-\n07f9\n", "line 3: no amounts of the cuts"),
        ("0002010000000000640000003c000100000000000000640000003c00\n-\n-\n-\n", "line 4: a snapshot is one line"),
        // a byte a node too few, as it was before there was a blade
        (
            "0002010000000000640000003c0100000000000000640000003c\n",
            "line 1: no tree snapshot: 26 bytes, and a node has 14, of 2 to 255 nodes",
        ),
        // what is eaten: behind the sheet, behind the last child, behind a free piece, more than a blade can, more than there is
        (
            "0002010000000000640000003c030100000000000000640000003c00\n",
            "line 1: node 1 of the tree snapshot is the sheet itself, and something is eaten behind it",
        ),
        (
            "0002010000000000640000003c000101000007000000610000003c03\n",
            "line 1: node 1 of the tree snapshot has something eaten behind its last child",
        ),
        (
            "0002010000000000640000003c000100000000000000610000003c03\n",
            "line 1: node 2 of the tree snapshot has more eaten behind it than a blade can",
        ),
        (
            "0002010000000000ff0000003c0001010000070000009a0000003c650100000000000000000000003c00\n",
            "line 1: node 2 of the tree snapshot has more eaten behind it than a blade can",
        ),
        (
            "0002010000000000640000003c000101000007000000620000003c030100000000000000000000003c00\n",
            "line 1: node 2 of the tree snapshot doesn't fit into its parent",
        ),
    ];
    let tell = |words: &[&str], input: &str, what: &str| {
        let output = run(words, input.as_bytes());
        assert_eq!((output.status.code(), output.stdout.len()), (Some(1), 0), "{words:?} {input:?}");
        assert!(said(&output).starts_with(&format!("nickelgrove: standard input, {what}")), "{}", said(&output));
        assert_eq!(said(&output).lines().count(), 1);
        assert_eq!(fs::read(&kept).expect("a file"), b"as it was");
        assert_eq!(room.names(), ["kept"]);
    };
    for (input, what) in sessions {
        for words in [&["draw"][..], &["draw", "--text"], &["say"], &["draw", "-o", &kept], &["say", "-o", &kept]] {
            tell(words, input, what);
        }
        if !what.contains("no sheet is open") {
            tell(&["draw", "--each"], input, what);
        }
    }
    for (input, what) in snapshots {
        for words in [&["draw", "--snapshot"][..], &["say", "--snapshot"], &["draw", "--text", "--snapshot", "-o", &kept]] {
            tell(words, input, what);
        }
    }
    for (list, what) in lists {
        tell(&["draw", "--snapshot"], &cut(list), what);
        tell(&["say", "--snapshot", "-o", &kept], &cut(list), what);
    }
    for list in ["000001000000280100", "18000001000001000000280100bd"] {
        assert!(run(&["say", "--snapshot"], cut(list).as_bytes()).status.success(), "{list}");
    }
    // the same with a blade of 3, and what each cut loses in a third line
    let sheet = "0002010000000000640000003c000101000007000000280000003c030100000000000000390000003c00";
    let lost = |list: &str, amounts: &str| format!("{sheet}\n{list}\n{amounts}");
    let one = "000001000000280100";
    for (list, amounts, what) in [
        (one, "", "line 3: no amounts of the cuts: lower-case hexadecimal, or the desk's answer to 1ae6, belongs here"),
        (one, "-\n", "line 3: no amounts of the cuts: 0 amounts, of 1 cut"),
        (one, "0\n", "line 3: no amounts of the cuts: lower-case"),
        (one, "1a00000203e1\n", "line 3: no amounts of the cuts: lower-case"),
        (one, "1a0000020300e1\n", "line 3: no amounts of the cuts: 2 amounts, of 1 cut"),
        (one, "3d\n", "line 3: cut 1 loses more than its board has"),
        (one, "02\n", "line 2: board 2 of the last pile isn't that piece of the tree"),
        (one, "00\n", "line 2: board 2 of the last pile isn't that piece of the tree"),
        (one, "3c\n", "line 2: the cuts make 1 board, and the tree has 2 pieces"),
        ("000001000000280101", "3c\n", "line 2: cut 1 leaves nothing, and says that it leaves something"),
        ("000001000000290100", "02\n", "line 2: board 1 of the last pile isn't that piece of the tree"),
    ] {
        tell(&["draw", "--snapshot"], &lost(list, amounts), what);
        tell(&["say", "--snapshot", "-o", &kept], &lost(list, amounts), what);
    }
    for amounts in ["03\n", "1a00000103e2\n"] {
        assert!(run(&["say", "--snapshot"], lost(one, amounts).as_bytes()).status.success(), "{amounts}");
    }
    tell(&["say", "--snapshot"], "0002010000000000640000003c000100000000000000640000003c00\n", "line 2: no list of saw cuts");
}

/// Files that can't be read or written.
#[test]
fn files_that_fail_are_told() {
    let room = Room::new("failing");
    let session = format!("{OPEN}{BOOKING}");
    let (missing, socket) = (room.file("missing"), room.file("socket"));
    // what is there and no file, and nobody misses if it were replaced
    let _listening = UnixListener::bind(&socket).expect("a socket");
    let cases: [(&[&str], &str); 5] = [
        (&["draw", &missing], "nickelgrove: reading "),
        (&["say", env!("CARGO_MANIFEST_DIR")], "nickelgrove: reading "),
        (&["draw", "-o", &socket], "nickelgrove: writing "),
        (&["draw", "-o", &room.file("no/such/folder")], "nickelgrove: writing "),
        (&["say", "-o", env!("CARGO_MANIFEST_DIR")], "nickelgrove: writing "),
    ];
    for (words, what) in cases {
        let output = run(words, session.as_bytes());
        assert_eq!((output.status.code(), output.stdout.len()), (Some(1), 0), "{words:?}");
        assert!(said(&output).starts_with(what), "{}", said(&output));
    }
    assert_eq!(room.names(), ["socket"]);
    assert!(!fs::metadata(&socket).expect("a socket").is_file());

    let full = File::options().write(true).open("/dev/full").expect("a full device");
    let mut child = command(&["draw"]).stdin(Stdio::piped()).stdout(full).spawn().expect("the command");
    child.stdin.take().expect("a pipe").write_all(session.as_bytes()).expect("a write");
    let output = child.wait_with_output().expect("an end");
    assert_eq!(output.status.code(), Some(1));
    assert!(said(&output).starts_with("nickelgrove: writing: No space left on device"), "{}", said(&output));
}

/// Words that are no command: status 2, and what to ask.
#[test]
fn wrong_words_are_told() {
    let cases: [&[&str]; 10] = [
        &[],
        &["paint"],
        &["counter", "file"],
        &["desk", "-"],
        &["draw", "--loud"],
        &["say", "--text"],
        &["draw", "one", "two"],
        &["draw", "-o"],
        &["draw", "-o", "one", "-o", "two"],
        &["draw", "--each", "--snapshot"],
    ];
    for words in cases {
        let output = run(words, b"");
        assert_eq!((output.status.code(), output.stdout.len()), (Some(2), 0), "{words:?}");
        assert!(said(&output).starts_with("nickelgrove: ") && said(&output).contains("nickelgrove --help"), "{}", said(&output));
    }
    let mut help = String::new();
    run(&["--help"], b"").stdout.as_slice().read_to_string(&mut help).expect("words");
    assert!(
        ["draw", "say", "counter", "--text", "--snapshot", "--each", "-o FILE"].iter().all(|word| help.contains(word)),
        "{help}"
    );
    assert!(help.lines().all(|line| line.len() <= 90));
}
