//! Document 01's session and rules, asked of the counter by frames.

mod common;

use common::{insert, line, mark, numbers, opened, part, remove, Random, KEEP, OPEN, OPENED, REPORT, RESTORE};
use nickelgrove_kiosk::Counter;

const MALFORMED: &str = "ff0ef3";

fn offers(mark: &[u8], part: &[u8]) -> String {
    line(&[&[2], mark, part].concat())
}

fn refused(op: u8, number: u8) -> String {
    line(&[op, number])
}

#[test]
fn document_01_session() {
    let mut counter = Counter::new();
    let booking = "03000101000000020007000000280000003c0000018d";
    assert_eq!(counter.answer(OPEN), OPENED);
    assert_eq!(counter.answer(booking), "030000010100000003000101000000030100010200000004eb");
    assert_eq!(counter.answer(booking), "0305f8");
}

#[test]
fn nothing_is_sound_before_an_opening() {
    let mut counter = Counter::default();
    let (free, part) = (mark(1, 2), part(0, 0));
    let lines = [offers(&free, &part), insert(&free, &part, 1), remove(&free), KEEP.into(), RESTORE.into(), REPORT.into()];
    for (op, line) in (2..).zip(lines) {
        assert_eq!(counter.answer(line), refused(op, 1));
    }
    assert_eq!(counter.answer(line(&[1, 0, 1, 0, 0, 0, 0, 0, 0, 0, 60, 1, 3, 0])), refused(1, 2));
    assert_eq!(counter.answer(REPORT), refused(7, 1));
}

#[test]
fn refusals_in_document_01s_order() {
    let (mut counter, free) = opened();
    let (top, gone, elsewhere) = (mark(0, 1), mark(9, 9), [&[0, 2], &mark(9, 9)[2..]].concat());
    let booked = part(40, 30);
    let asked = [
        (insert(&elsewhere, &part(0, 1), 2), refused(3, 3)),
        (insert(&elsewhere, &part(1, 67_108_864), 2), refused(3, 3)),
        (insert(&elsewhere, &booked, 2), refused(3, 4)),
        (insert(&gone, &booked, 2), refused(3, 5)),
        (insert(&mark(255, 0), &booked, 2), refused(3, 5)),
        (insert(&top, &booked, 2), refused(3, 6)),
        (insert(&free, &booked, 2), refused(3, 7)),
        (offers(&elsewhere, &part(0, 1)), refused(2, 3)),
        (offers(&elsewhere, &booked), refused(2, 4)),
        (offers(&gone, &booked), refused(2, 5)),
        (offers(&top, &booked), refused(2, 6)),
        (remove(&elsewhere), refused(4, 4)),
        (remove(&gone), refused(4, 5)),
        (remove(&top), refused(4, 10)),
        (remove(&free), refused(4, 11)),
        (RESTORE.to_string(), refused(6, 1)),
    ];
    for (line, answer) in asked {
        assert_eq!(counter.answer(&line), answer, "{line}");
    }
    // none of them changed anything
    assert_eq!(counter.answer(insert(&free, &booked, 3)), insertion(&[3, 4], &[5, 6]));
    assert_eq!(counter.answer(KEEP), line(&[5, 0]));
    assert_eq!(
        counter.answer(line(&[1, 0, 2, 0, 0, 0, 9, 0, 0, 0, 9, 0, 9, 0])),
        line(&[&[1, 0, 0, 2], &mark(1, 2)[2..]].concat())
    );
    assert_eq!(counter.answer(RESTORE), refused(6, 4), "the snapshot is of another layout");
}

/// The answer to an insertion of layout 1 on its opening sheet, where a node's place is two less than its serial.
fn insertion(first_and_part: &[u32], free: &[u32]) -> String {
    let marks = |serials: &[u32]| serials.iter().flat_map(|serial| mark(*serial as u8 - 2, *serial)).collect::<Vec<u8>>();
    line(&[&[3, 0], marks(first_and_part).as_slice(), &[free.len() as u8], &marks(free)].concat())
}

/// Parts of breadth 1 along the cut, each of which adds one node, until the table holds 255.
#[test]
fn a_full_table_refuses_a_booking() {
    let mut counter = Counter::new();
    let opening = counter.answer(line(&[1, 0, 1, 0, 0, 1, 44, 0, 0, 0, 60, 1, 3, 0])).to_string();
    let mut free = numbers(&opening)[2..9].to_vec();
    for held in 2..255 {
        let answer = numbers(counter.answer(insert(&free, &part(1, 60), 1)));
        assert_eq!(answer[..2], [3, 0], "{held} nodes held");
        free = answer[17..24].to_vec();
    }
    assert_eq!(counter.answer(insert(&free, &part(1, 60), 1)), refused(3, 8));
    assert_eq!(numbers(counter.answer(REPORT))[10], 255);
}

/// Blocks of five nodes fill the table and are restored away, over and over: a serial is not issued twice, and at the millionth that is the end of bookings.
#[test]
fn the_last_serial_is_refused_and_not_issued_again() {
    let mut counter = Counter::new();
    let side = 67_108_863_u32.to_be_bytes();
    let opening = [[1, 0, 1].as_slice(), &side, &side, &[1, 254, 0]].concat();
    assert_eq!(counter.answer(line(&opening)), OPENED);
    assert_eq!(counter.answer(KEEP), line(&[5, 0]));
    let mut last = 2;
    let ending = 'restored: loop {
        let mut free = mark(1, 2);
        loop {
            let answer = numbers(counter.answer(insert(&free, &part(1, 1), 4)));
            match answer[1] {
                0 => {
                    free = answer[24..31].to_vec();
                    let serial = u32::from_be_bytes([free[3], free[4], free[5], free[6]]);
                    assert_eq!(serial, last + 5);
                    last = serial;
                }
                8 => break,
                other => break 'restored other,
            }
        }
        assert_eq!(counter.answer(RESTORE), line(&[6, 0]));
    };
    assert_eq!(ending, 9);
    assert!(last + 5 > 1_000_000);
    assert_eq!(counter.answer(RESTORE), line(&[6, 0]));
    assert_eq!(counter.answer(insert(&mark(1, 2), &part(1, 1), 4)), refused(3, 9));
    assert_eq!(numbers(counter.answer(REPORT))[10], 2);
}

#[test]
fn a_restored_sheet_refuses_a_stale_mark() {
    let (mut counter, free) = opened();
    let booking = insert(&free, &part(40, 60), 1);
    assert_eq!(counter.answer(KEEP), line(&[5, 0]));
    assert_eq!(counter.answer(&booking), insertion(&[3, 3], &[4]));
    assert_eq!(counter.answer(RESTORE), line(&[6, 0]));
    let (stale, stale_free) = (mark(1, 3), mark(2, 4));
    assert_eq!(counter.answer(remove(&stale)), refused(4, 5));
    assert_eq!(counter.answer(insert(&stale_free, &part(1, 1), 3)), refused(3, 5));
    // the place is taken again by another piece, and the mark of the first one stays gone
    let answer = line(&[&[3, 0], mark(1, 5).as_slice(), &mark(1, 5), &[1], &mark(2, 6)].concat());
    assert_eq!(counter.answer(&booking), answer);
    assert_eq!(counter.answer(remove(&stale)), refused(4, 5));
    assert_eq!(counter.answer(insert(&stale_free, &part(1, 1), 3)), refused(3, 5));
}

#[test]
fn lines_that_are_no_frames() {
    let (mut counter, _) = opened();
    let long = "0".repeat(65);
    let lines = [
        "",
        "0",
        "05",
        "05fc",
        "05FB",
        "05fb\r",
        "05fb\n",
        "05fb00",
        "0800f8",
        "00",
        "0100 100000064000000 3c0103005a",
        "é",
        &long,
    ];
    for line in lines {
        assert_eq!(counter.answer(line), MALFORMED, "{line:?}");
    }
    assert_eq!(counter.answer([0xff; 4]), MALFORMED);
    assert_eq!(counter.answer(vec![b'0'; 1 << 20]), MALFORMED);
    assert_eq!(counter.answer(REPORT), "07000000000000000000020000000000000000f7");
}

#[test]
fn two_counters_do_not_mix() {
    let (mut one, free) = opened();
    let mut other = Counter::new();
    assert_eq!(other.answer(REPORT), refused(7, 1));
    assert_eq!(other.answer(OPEN), OPENED);
    assert_eq!(one.answer(insert(&free, &part(40, 60), 1)), insertion(&[3, 3], &[4]));
    assert_eq!(other.answer(remove(&mark(1, 3))), refused(4, 5));
    assert_eq!(other.answer(insert(&free, &part(40, 30), 4)), insertion(&[3, 5], &[6, 7]));
    assert_eq!(one.answer(remove(&mark(1, 3))), line(&[&[4, 0], mark(1, 5).as_slice(), &[1, 0, 7]].concat()));
    assert_eq!(one.answer(KEEP), line(&[5, 0]));
    assert_eq!(other.answer(RESTORE), refused(6, 1));
}

/// Random bytes, random digits, and frames of random fields with a right check, on sheets that stay open: each line has one answer of its op.
#[test]
fn random_lines_are_answered() {
    let mut random = Random(7);
    let mut counter = Counter::new();
    for _ in 0..50_000 {
        let count = random.below(40) as usize;
        let bytes: Vec<u8> = (0..count).map(|_| random.below(256) as u8).collect();
        let answer = numbers(counter.answer(&bytes));
        assert_eq!(answer, [0xff, 0x0e, 0xf3], "{bytes:?}");

        let digits: String = (0..count).map(|_| char::from(b"0123456789abcdef"[random.below(16) as usize])).collect();
        sensible(&numbers(counter.answer(&digits)));

        let op = 1 + random.below(7) as u8;
        let mut bytes = vec![op];
        bytes.resize([0, 14, 19, 21, 8, 1, 1, 1][usize::from(op)], 0);
        for byte in &mut bytes[1..] {
            // small numbers mostly, so that fields are often in their ranges
            *byte = if random.below(8) == 0 { random.below(256) as u8 } else { random.below(3) as u8 };
        }
        let answer = numbers(counter.answer(line(&bytes)));
        sensible(&answer);
        assert!(answer[0] == op || answer[0] == 0xff, "{bytes:?}");
    }
}

/// An answer's bytes add to 0, and it is a success, a refusal or `ff0ef3`.
fn sensible(answer: &[u8]) {
    assert_eq!(answer.iter().fold(0, |sum: u8, byte| sum.wrapping_add(*byte)), 0);
    assert!(matches!(answer, [1..=7, 0, ..] | [1..=7, 1..=11, _] | [0xff, 0x0e, 0xf3]), "{answer:02x?}");
}
