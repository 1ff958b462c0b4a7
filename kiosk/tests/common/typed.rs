//! Frames, answers and the fields of `inspect`, as the tests read and write them: by code of their own, which the crate's is compared with.
// the crate's own tests share this file, and inside the crate its enums have no variants but these
#![allow(unreachable_patterns)]

use nickelgrove_kiosk::{
    Answer, Cut, Kind, ListedCut, Mark, Node, Offer, Part, Piece, Reason, Refusal, Request, Rotation, Shape, Sheet, Turn, Way,
};

use super::{hex, line, numbers};

/// The line of the answer to one that is malformed.
pub const MALFORMED: &str = "ff0ef3";

/// What a line asks, by docs/FRAMES.md and docs/DESK.md; nothing where it is malformed.
pub fn request_of(line: &[u8]) -> Option<Request> {
    let hexadecimal = line.iter().all(|character| matches!(character, b'0'..=b'9' | b'a'..=b'f'));
    if line.len() > 64 || line.len() % 2 == 1 || !hexadecimal {
        return None;
    }
    let bytes = numbers(std::str::from_utf8(line).expect("hexadecimal"));
    if bytes.iter().fold(0, |sum: u8, byte| sum.wrapping_add(*byte)) != 0 {
        return None;
    }
    let (_check, frame) = bytes.split_last()?;
    let (op, fields) = frame.split_first()?;
    let request = match (op, fields.len()) {
        (0x01, 13) => Request::Open {
            number: two(fields),
            width: four(&fields[2..]),
            height: four(&fields[6..]),
            first_cut: way_of(fields[10])?,
            stages: fields[11],
            blade: fields[12],
        },
        (0x02, 18) => Request::Offers { piece: mark_of(fields), part: part_of(&fields[7..])? },
        (0x03, 20) => {
            let offer = Offer { rotation: rotation_of(fields[18])?, shape: shape_of(fields[19])? };
            Request::Insert { piece: mark_of(fields), part: part_of(&fields[7..])?, offer }
        }
        (0x04, 7) => Request::Remove { piece: mark_of(fields) },
        (0x05, 0) => Request::Keep,
        (0x06, 0) => Request::Restore,
        (0x07, 0) => Request::Report,
        (0x11, 18) => Request::WhyNot { piece: mark_of(fields), part: part_of(&fields[7..])? },
        (0x12, 11) => Request::RoomLight { part: part_of(fields)? },
        (0x13, 2) => Request::FreePiece { position: two(fields) },
        (0x14, 2) => Request::RemovablePiece { position: two(fields) },
        (0x15, 0) => Request::PartNumbers,
        (0x16, 0) => Request::Figures,
        (0x17, 0) => Request::Snapshot,
        (0x18, 0) => Request::Cuts,
        (0x19, 0) => Request::EatenArea,
        (0x1a, 0) => Request::CutAmounts,
        (0x1b, 0) => Request::Tidy,
        _ => return None,
    };
    Some(request)
}

fn two(bytes: &[u8]) -> u16 {
    u16::from_be_bytes(bytes[..2].try_into().expect("two bytes"))
}

fn four(bytes: &[u8]) -> u32 {
    u32::from_be_bytes(bytes[..4].try_into().expect("four bytes"))
}

fn mark_of(bytes: &[u8]) -> Mark {
    Mark::from_numbers(two(bytes), bytes[2].into(), four(&bytes[3..]))
}

fn part_of(bytes: &[u8]) -> Option<Part> {
    let turn = [Turn::Either, Turn::Default, Turn::Rotated].get(usize::from(bytes[10]))?;
    Some(Part::new(two(bytes), four(&bytes[2..]), four(&bytes[6..])).turned(*turn))
}

fn way_of(number: u8) -> Option<Way> {
    [Way::Horizontal, Way::Vertical].get(usize::from(number)).copied()
}

fn rotation_of(number: u8) -> Option<Rotation> {
    [Rotation::Default, Rotation::Rotated].get(usize::from(number)).copied()
}

const SHAPES: [Shape; 4] = [Shape::AlongCurrentCut, Shape::AcrossCurrentCut, Shape::AlongThenAcross, Shape::AcrossThenAlong];

fn shape_of(number: u8) -> Option<Shape> {
    SHAPES.get(usize::from(number).checked_sub(1)?).copied()
}

/// The op of a request, by docs/FRAMES.md and docs/DESK.md.
pub fn op_of(request: &Request) -> u8 {
    match request {
        Request::Open { .. } => 0x01,
        Request::Offers { .. } => 0x02,
        Request::Insert { .. } => 0x03,
        Request::Remove { .. } => 0x04,
        Request::Keep => 0x05,
        Request::Restore => 0x06,
        Request::Report => 0x07,
        Request::WhyNot { .. } => 0x11,
        Request::RoomLight { .. } => 0x12,
        Request::FreePiece { .. } => 0x13,
        Request::RemovablePiece { .. } => 0x14,
        Request::PartNumbers => 0x15,
        Request::Figures => 0x16,
        Request::Snapshot => 0x17,
        Request::Cuts => 0x18,
        Request::EatenArea => 0x19,
        Request::CutAmounts => 0x1a,
        Request::Tidy => 0x1b,
        _ => panic!("{request:?}"),
    }
}

/// The line with which an op says this, by docs/FRAMES.md and docs/DESK.md.
pub fn said(op: u8, answer: &Result<Answer, Refusal>) -> String {
    match answer {
        Err(Refusal::NotUnderstood) => MALFORMED.into(),
        Err(refusal) => line(&[op, refusal.number()]),
        Ok(answer) => line(&[[op, 0].as_slice(), &bytes_of(answer)].concat()),
    }
}

/// The bytes of an answer between its first two and its check.
pub fn bytes_of(answer: &Answer) -> Vec<u8> {
    match answer {
        Answer::Opened(mark) | Answer::FreePiece(mark) | Answer::RemovablePiece(mark) => mark_bytes(*mark),
        Answer::Offers(offers) => {
            let pair = |offer: &Offer| {
                let shape = SHAPES.iter().position(|shape| *shape == offer.shape).expect("a shape");
                [u8::from(offer.rotation == Rotation::Rotated), shape as u8 + 1]
            };
            [vec![offers.len() as u8], offers.iter().flat_map(pair).collect()].concat()
        }
        Answer::Booked(booking) => {
            [mark_bytes(booking.first), mark_bytes(booking.part), vec![booking.free.len() as u8], marks_bytes(&booking.free)]
                .concat()
        }
        Answer::Removed(removal) => {
            [mark_bytes(removal.free), vec![removal.parts.len() as u8], numbers_bytes(&removal.parts)].concat()
        }
        Answer::Kept | Answer::Restored => vec![],
        Answer::Report(report) => {
            let usage = report.sheet_usage.to_bits().to_be_bytes();
            [report.used_area.to_be_bytes().as_slice(), &[report.nodes as u8], &usage].concat()
        }
        Answer::Reasons(reasons) => [reasons.default, reasons.rotated].map(reason_number).to_vec(),
        Answer::Light(None) => vec![0; 8],
        Answer::Light(Some(mark)) => [vec![1], mark_bytes(*mark)].concat(),
        Answer::PartNumbers(held) => [count_bytes(held), numbers_bytes(held)].concat(),
        Answer::Figures(figures) => [
            figures.used_area.to_be_bytes().as_slice(),
            &figures.free_area.to_be_bytes(),
            &figures.nodes.to_be_bytes(),
            &[figures.is_empty.into()],
            &figures.sheet_usage.to_bits().to_be_bytes(),
            &figures.tree_usage.to_bits().to_be_bytes(),
        ]
        .concat(),
        Answer::Snapshot(nodes) => [count_bytes(nodes), nodes_bytes(nodes)].concat(),
        Answer::Cuts(cuts) => [count_bytes(cuts), cuts.iter().flat_map(listed_bytes).collect()].concat(),
        Answer::EatenArea(area) => area.to_be_bytes().to_vec(),
        Answer::CutAmounts(amounts) => [count_bytes(amounts), amounts.clone()].concat(),
        Answer::Tidied(count) => count.to_be_bytes().to_vec(),
        _ => panic!("{answer:?}"),
    }
}

fn count_bytes<T>(list: &[T]) -> Vec<u8> {
    (list.len() as u16).to_be_bytes().to_vec()
}

fn mark_bytes(mark: Mark) -> Vec<u8> {
    let place = u8::try_from(mark.place()).expect("a place of an answer");
    [mark.layout().to_be_bytes().as_slice(), &[place], &mark.serial().to_be_bytes()].concat()
}

fn marks_bytes(marks: &[Mark]) -> Vec<u8> {
    marks.iter().flat_map(|mark| mark_bytes(*mark)).collect()
}

fn numbers_bytes(numbers: &[u16]) -> Vec<u8> {
    numbers.iter().flat_map(|number| number.to_be_bytes()).collect()
}

fn way_number(way: Way) -> u8 {
    u8::from(way == Way::Vertical)
}

fn reason_number(reason: Reason) -> u8 {
    match reason {
        Reason::TurnForbidden => 0,
        Reason::TooWide => 1,
        Reason::TooTall => 2,
        Reason::TooWideAndTooTall => 3,
        Reason::StagesUsedUp => 4,
        Reason::Offered => 5,
    }
}

fn nodes_bytes(nodes: &[Node]) -> Vec<u8> {
    let bytes = |node: &Node| {
        let (kind, number) = match node.kind {
            Kind::Free => (0, 0),
            Kind::Part { number } => (1, number),
            Kind::Structure => (2, 0),
        };
        assert_eq!(node.part_number(), (kind == 1).then_some(number));
        let sides = [node.width.to_be_bytes(), node.height.to_be_bytes()].concat();
        [[node.level, kind, way_number(node.cut)].as_slice(), &number.to_be_bytes(), &sides, &[node.eaten]].concat()
    };
    nodes.iter().flat_map(bytes).collect()
}

/// The bytes of a cut, but for what the blade eats.
fn cut_bytes(place: u16, way: Way, distance: u32, kinds: [Piece; 2]) -> Vec<u8> {
    let kind = |piece: Piece| match piece {
        Piece::Free => 0,
        Piece::Part => 1,
        Piece::Structure => 2,
        Piece::Several => 3,
    };
    [place.to_be_bytes().as_slice(), &[way_number(way)], &distance.to_be_bytes(), &kinds.map(kind)].concat()
}

fn listed_bytes(cut: &ListedCut) -> Vec<u8> {
    cut_bytes(cut.place, cut.way, cut.distance, [cut.piece, cut.left])
}

fn cuts_bytes(cuts: &[Cut]) -> Vec<u8> {
    cuts.iter().flat_map(|cut| cut_bytes(cut.place, cut.way, cut.distance, [cut.piece, cut.left])).collect()
}

/// The fields of a line of `inspect` behind the answer (recorded/README.md), by the typed calls: tree snapshot, free list, removable list, figures with the eaten
/// area, part numbers, room light for the part that the line asked about, saw cuts, and what these lose. Before an opening each call refuses with 1.
pub fn fields(sheet: &Sheet, part: Option<Part>) -> [String; 8] {
    [
        field(sheet.snapshot().map(|nodes| nodes_bytes(&nodes))),
        field(sheet.free_pieces().map(|marks| marks_bytes(&marks))),
        field(sheet.removable().map(|marks| marks_bytes(&marks))),
        field(sheet.figures().map(|figures| {
            assert_eq!(Ok(usize::from(figures.nodes)), sheet.snapshot().map(|nodes| nodes.len()));
            assert!(!figures.is_empty);
            let usages = [figures.sheet_usage, figures.tree_usage].map(|usage| usage.to_bits().to_be_bytes()).concat();
            let eaten = sheet.eaten_area().expect("there are figures").to_be_bytes();
            [[figures.used_area, figures.free_area].map(u64::to_be_bytes).concat(), usages, eaten.to_vec()].concat()
        })),
        field(sheet.part_numbers().map(|held| numbers_bytes(&held))),
        part.map_or("-".into(), |part| match sheet.room_light(part) {
            Ok(None) => hex(&[0; 9]),
            Ok(Some(mark)) => hex(&[vec![0, 1], mark_bytes(mark)].concat()),
            Err(refusal) => hex(&[refusal.number()]),
        }),
        field(sheet.cuts().map(|cuts| cuts_bytes(&cuts))),
        field(sheet.cuts().map(|cuts| cuts.iter().map(|cut| cut.eaten).collect())),
    ]
}

/// A field, `-` where it is empty or where no sheet is open.
fn field(bytes: Result<Vec<u8>, Refusal>) -> String {
    match bytes {
        Ok(bytes) if !bytes.is_empty() => hex(&bytes),
        Ok(_) | Err(Refusal::NoSheet) => "-".into(),
        Err(refusal) => panic!("{refusal}"),
    }
}

/// The part that `inspect` asks the room light for: that of an offers or an insert frame.
pub fn part_asked(request: &Request) -> Option<Part> {
    match request {
        Request::Offers { part, .. } | Request::Insert { part, .. } => Some(*part),
        _ => None,
    }
}
