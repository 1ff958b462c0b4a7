//! The reader of answers: each kind by hand, and whatever bytes it is handed.

use super::*;
use crate::common::typed::{said, MALFORMED};
use crate::common::{line, lines_of, numbers, Random};
use crate::{Kind, Piece, Rotation, Shape, Way};

/// An answer of each op, with its line; the spaces and the check are not in these words.
fn one_of_each() -> Vec<(String, Answer)> {
    let mark = Mark::from_numbers;
    let offers = [(Rotation::Default, Shape::AlongThenAcross), (Rotation::Rotated, Shape::AcrossThenAlong)];
    let offers = offers.map(|(rotation, shape)| Offer { rotation, shape });
    let top = Node { level: 0, kind: Kind::Structure, cut: Way::Vertical, width: 100, height: 60, eaten: 0 };
    let part = Node { level: 1, kind: Kind::Part { number: 0x0708 }, cut: Way::Horizontal, width: 40, height: 60, eaten: 3 };
    let free = Node { kind: Kind::Free, width: 0x0102_0304, eaten: 0, ..part };
    let cut =
        ListedCut { place: 0x0102, way: Way::Horizontal, distance: 0x0304_0506, piece: Piece::Structure, left: Piece::Several };
    let (used_area, nodes, sheet_usage) = (0x0102_0304_0506_0708, 255, 0.4);
    let pairs = vec![
        ("01 00 0102 03 04050607", Answer::Opened(mark(0x0102, 3, 0x0405_0607))),
        ("02 00 02 0003 0104", Answer::Offers(offers.to_vec())),
        (
            "03 00 0001 01 00000003 0001 02 00000004 01 0001 03 00000005",
            Answer::Booked(Booking { first: mark(1, 1, 3), part: mark(1, 2, 4), free: vec![mark(1, 3, 5)] }),
        ),
        ("04 00 0001 01 00000009 02 0007 0102", Answer::Removed(Removal { free: mark(1, 1, 9), parts: vec![7, 0x0102] })),
        ("05 00", Answer::Kept),
        ("06 00", Answer::Restored),
        ("07 00 0102030405060708 ff 3fd999999999999a", Answer::Report(Report { used_area, nodes, sheet_usage })),
        ("11 00 00 05", Answer::Reasons(Reasons { default: Reason::TurnForbidden, rotated: Reason::Offered })),
        ("12 00 01 0001 05 00000007", Answer::Light(Some(mark(1, 5, 7)))),
        ("12 00 00 0000 00 00000000", Answer::Light(None)),
        ("13 00 0001 01 00000002", Answer::FreePiece(mark(1, 1, 2))),
        ("14 00 0001 00 00000001", Answer::RemovablePiece(mark(1, 0, 1))),
        ("15 00 0002 0007 ffff", Answer::PartNumbers(vec![7, 65_535])),
        (
            "16 00 0102030405060708 0000000000000e10 00ff 00 3fd999999999999a 3ff0000000000000",
            Answer::Figures(Figures { used_area, free_area: 3_600, nodes, is_empty: false, sheet_usage, tree_usage: 1.0 }),
        ),
        (
            "17 00 0003 000201 0000 00000064 0000003c 00 010100 0708 00000028 0000003c 03 010000 0000 01020304 0000003c 00",
            Answer::Snapshot(vec![top, part, free]),
        ),
        ("18 00 0001 0102 00 03040506 02 03", Answer::Cuts(vec![cut])),
        ("19 00 0102030405060708", Answer::EatenArea(used_area)),
        ("1a 00 0003 00 03 64", Answer::CutAmounts(vec![0, 3, 100])),
        ("1b 00 0102", Answer::Tidied(0x0102)),
    ];
    pairs.into_iter().map(|(words, answer)| (line(&numbers(&words.replace(' ', ""))), answer)).collect()
}

#[test]
fn each_answer_is_read() {
    for (line, answer) in one_of_each() {
        assert_eq!(Answer::read(&line), Ok(answer), "{line}");
    }
    // an f64 is its bits
    let Ok(Answer::Report(report)) =
        Answer::read(line(&[&[7, 0], [0; 8].as_slice(), &[2], &0.1_f64.to_bits().to_be_bytes()].concat()))
    else {
        panic!("no report");
    };
    assert_eq!(report.sheet_usage.to_bits(), 0.1_f64.to_bits());
}

#[test]
fn each_refusal_is_read() {
    for op in (0x01..=0x07).chain(0x11..=0x1b) {
        for number in 1..=13 {
            assert_eq!(Answer::read(line(&[op, number])).err().map(Refusal::number), Some(number));
        }
    }
    assert_eq!(Answer::read(MALFORMED), Err(Refusal::NotUnderstood));
}

/// What is no answer: the characters, the check, an op or a number that isn't there, a field that isn't listed, a byte too few or too many.
#[test]
fn what_is_no_answer() {
    let lines = ["", "0", "05", "0500", "0500f", "0500fc", "0500FB", "0500fb\n", " 0500fb", "0500fb00", "é"].map(str::to_string);
    let frames = [
        vec![],
        vec![0],
        vec![0, 0],
        vec![8, 0],
        vec![0x10, 0],
        vec![0x1c, 0],
        vec![0xff, 0],
        vec![0xff, 13],
        vec![0xff, 15],
        vec![8, 1],
        vec![0x1c, 1],
        vec![3, 14],
        vec![3, 15],
        vec![3, 255],
        vec![3, 5, 0],
        // a light that is neither yes nor no, and a no with a mark
        [&[0x12, 0, 2], [0; 7].as_slice()].concat(),
        [&[0x12, 0, 0], [0, 1, 5, 0, 0, 0, 7].as_slice()].concat(),
        // no such reason, rotation, shape
        vec![0x11, 0, 6, 0],
        vec![0x11, 0, 0, 6],
        vec![2, 0, 1, 2, 1],
        vec![2, 0, 1, 0, 0],
        vec![2, 0, 1, 0, 5],
        // nodes: no such kind, no such cut, a free piece and a structure with a part number, and one of an archive that knows no blade
        vec![0x17, 0, 0, 1, 0, 3, 1, 0, 0, 0, 0, 0, 9, 0, 0, 0, 9, 0],
        vec![0x17, 0, 0, 1, 0, 2, 2, 0, 0, 0, 0, 0, 9, 0, 0, 0, 9, 0],
        vec![0x17, 0, 0, 1, 0, 0, 1, 0, 1, 0, 0, 0, 9, 0, 0, 0, 9, 0],
        vec![0x17, 0, 0, 1, 0, 2, 1, 1, 0, 0, 0, 0, 9, 0, 0, 0, 9, 0],
        vec![0x17, 0, 0, 1, 0, 2, 1, 0, 0, 0, 0, 0, 9, 0, 0, 0, 9],
        // cuts: no such way, no such kinds
        vec![0x18, 0, 0, 1, 0, 0, 2, 0, 0, 0, 9, 0, 0],
        vec![0x18, 0, 0, 1, 0, 0, 1, 0, 0, 0, 9, 4, 0],
        vec![0x18, 0, 0, 1, 0, 0, 1, 0, 0, 0, 9, 0, 4],
        // a count without its items
        vec![0x15, 0, 255, 255],
        vec![0x17, 0, 255, 255],
        vec![0x18, 0, 255, 255],
        vec![0x1a, 0, 255, 255],
        // an amount too few, and one too many
        vec![0x1a, 0, 0, 2, 3],
        vec![0x1a, 0, 0, 1, 3, 3],
        // how many were taken out: nothing, a byte, three bytes
        vec![0x1b, 0],
        vec![0x1b, 0, 1],
        vec![0x1b, 0, 0, 0, 1],
        // an area of seven bytes
        [&[0x19, 0], [0; 7].as_slice()].concat(),
        // neither empty nor not
        [&[0x16, 0], [0; 18].as_slice(), &[2], &[0; 16]].concat(),
    ];
    for line in lines.into_iter().chain(frames.iter().map(|frame| line(frame))) {
        assert_eq!(Answer::read(&line), Err(Refusal::Unreadable), "{line}");
    }
}

/// Whatever is read says again exactly the bytes that it was read from: nothing is lost, and nothing is taken for something else.
fn says_again(bytes: &[u8]) -> bool {
    let text = line(bytes);
    let answer = Answer::read(&text);
    if answer == Err(Refusal::Unreadable) {
        return false;
    }
    assert_eq!(said(bytes[0], &answer), text);
    true
}

/// Each byte of an answer made another, bytes taken away and bytes put behind, with the check right again.
#[test]
fn damaged_answers() {
    let mut read = 0;
    for (text, _) in one_of_each() {
        let bytes = numbers(&text);
        let frame = &bytes[..bytes.len() - 1];
        assert!(says_again(frame));
        for place in 0..frame.len() {
            for byte in 0..=255 {
                let mut damaged = frame.to_vec();
                damaged[place] = byte;
                read += usize::from(says_again(&damaged));
            }
            assert!(!says_again(&frame[..place]), "{text} to {place}");
        }
        assert!(!says_again(&[frame, &[0]].concat()), "{text} and a byte");
    }
    assert!(read > 10_000, "{read}");
}

#[test]
fn random_bytes() {
    let (mut random, mut read) = (Random(21), 0);
    let ops: Vec<u8> = (0x01..=0x07).chain(0x11..=0x1b).collect();
    for _ in 0..200_000 {
        let mut bytes: Vec<u8> = (0..random.below(40))
            .map(|_| if random.below(4) == 0 { random.below(256) as u8 } else { random.below(4) as u8 })
            .collect();
        assert_eq!(Answer::read(&bytes), Err(Refusal::Unreadable));
        // with the op and the 00 of an answer
        bytes.splice(0..0, [ops[random.below(18) as usize], 0]);
        read += usize::from(says_again(&bytes));
    }
    assert!(read > 1_000, "{read}");
}

/// The Rust's recorded answers.
#[test]
fn recorded_answers() {
    for text in lines_of("recorded/long.out") {
        let text = String::from_utf8(text).expect("hexadecimal");
        assert_eq!(said(numbers(&text)[0], &Answer::read(&text)), text);
    }
}
