//! What the archive does to what is lent: it has the same records, writes within them, refuses those that are no sound sheet, and leaves them as they were
//! where it refuses.

use super::*;
use crate::archive;
use crate::common::typed::MALFORMED;
use crate::common::{
    insert, line, lines_of, mark, numbers, part, remove, Random, KEEP, OPEN, OPEN_WITH_BLADE, REPORT, RESTORE, TIDY,
};

/// Document 01's booking on its sheet: part 7 of 40 x 60 along the cut.
const BOOKING: &str = "03000101000000020007000000280000003c0000018d";

impl SessionRecord {
    /// The places of the sheet's nodes in the order of its snapshot, along the links; none where there is no sheet.
    pub fn places(&self) -> Vec<u16> {
        let (nodes, none) = (&self.layout.nodes, LIMIT as u16);
        let (mut places, mut next) = (vec![], if self.layout.held > 0 { vec![0] } else { vec![] });
        while let Some(place) = next.pop() {
            if place != none {
                places.push(place);
                let NodeRecord { first, next: behind, .. } = nodes[usize::from(place)];
                next.extend([behind, first]);
            }
        }
        places
    }
}

/// The desk's answer to a line, without its newline; zeros are behind it. The counter's is the same, and so is its session, but where the op is the desk's own.
fn answer(session: &mut SessionRecord, line: impl AsRef<[u8]>) -> String {
    let line = line.as_ref();
    let (mut counters, mut said) = (session.clone(), [7; LONGEST]);
    let count = archive::step(&mut counters, line, &mut said);
    assert!(said[count - 1] == b'\n' && said[count..].iter().all(|byte| *byte == 0));

    let mut answer = [7; DESK_LONGEST];
    let desk_count = archive::desk(session, line, &mut answer);
    assert!(answer[desk_count - 1] == b'\n' && answer[desk_count..].iter().all(|byte| *byte == 0));
    if matches!(line, [b'1', b'1'..=b'9' | b'a' | b'b', ..]) {
        assert_eq!(said[..count - 1], *MALFORMED.as_bytes(), "an op of the desk alone");
    } else {
        assert_eq!(answer[..desk_count], said[..count]);
        assert!(*session == counters);
    }
    String::from_utf8(answer[..desk_count - 1].to_vec()).expect("hexadecimal")
}

/// Document 01's sheet with its part on it, kept.
fn booked() -> SessionRecord {
    let mut session = SessionRecord::ZERO;
    for line in [OPEN, BOOKING, KEEP] {
        assert_eq!(answer(&mut session, line)[2..4], *"00");
    }
    session
}

/// A line for each op that looks at the sheet, with its op: part 1 x 1 into the free piece, and part 7 out; then the desk's questions, and tidying.
fn looks() -> Vec<(u8, String)> {
    let (free, small) = (mark(2, 4), part(1, 1));
    let offers = line(&[&[2], free.as_slice(), &small].concat());
    let lines = [offers, insert(&free, &small, 3), remove(&mark(1, 3)), KEEP.into(), RESTORE.into(), REPORT.into()];
    (2..).zip(lines).chain(questions()).chain([(0x1b, TIDY.into())]).collect()
}

/// A line for each question of the desk's own, with its op. None of them changes anything.
fn questions() -> Vec<(u8, String)> {
    let (free, small) = (mark(2, 4), part(1, 1));
    let fields = [[free.as_slice(), &small].concat(), small, vec![0, 0], vec![0, 0]];
    let fields = fields.into_iter().chain(std::iter::repeat(vec![]).take(6));
    (0x11..).zip(fields).map(|(op, fields)| (op, line(&[vec![op], fields].concat()))).collect()
}

fn refused(op: u8, number: u8) -> String {
    line(&[op, number])
}

/// The line is answered so, and nothing of the session is changed.
fn stays(session: &mut SessionRecord, line: impl AsRef<[u8]>, said: &str) {
    let before = session.clone();
    assert_eq!(answer(session, line), said);
    assert!(*session == before);
}

/// The archive writes each number where this side reads it: document 01's sheet with a part on it, kept; and the same with a blade.
#[test]
fn the_archive_has_the_same_records() {
    has_the_same_records(booked(), 0);
    has_the_same_records(booked_with_blade(), 3);
}

/// Document 01's sheet with its part on it, kept, and a blade that is 3 wide.
fn booked_with_blade() -> SessionRecord {
    let mut session = SessionRecord::ZERO;
    for line in [OPEN_WITH_BLADE, BOOKING, KEEP] {
        assert_eq!(answer(&mut session, line)[2..4], *"00");
    }
    session
}

fn has_the_same_records(session: SessionRecord, eaten: u8) {
    for layout in [&session.layout, &session.kept] {
        let [top, part, free] = [0, 1, 2].map(|place| layout.nodes[place]);
        let datum = |node: NodeRecord| {
            let datum = node.datum;
            (datum.serial, datum.width, datum.height, datum.number, datum.level, datum.kind, datum.cut, datum.eaten)
        };
        let links = |node: NodeRecord| [node.parent, node.first, node.last, node.prev, node.next];
        let none = LIMIT as u16;
        assert_eq!((datum(top), links(top)), ((1, 100, 60, 0, 0, 2, 1, 0), [none, 1, 2, none, none]));
        assert_eq!((datum(part), links(part)), ((3, 40, 60, 7, 1, 1, 0, eaten), [0, none, none, none, 2]));
        assert_eq!((datum(free), links(free)), ((4, 60 - u32::from(eaten), 60, 0, 1, 0, 0, 0), [0, none, none, 1, none]));
        assert_eq!((layout.free[0], layout.removable[0], layout.removable[1]), (2, 1, 0));
        assert_eq!((layout.held, layout.frees, layout.removables), (3, 1, 2));
        assert_eq!((layout.used, layout.serial, layout.number, layout.stages, layout.blade), (2400, 4, 1, 3, eaten));
        assert_eq!((layout.width, layout.height), (100, 60));
    }
}

/// The archive writes a list within the room of this side, and nothing behind the list; where there is none, nothing at all.
#[test]
fn the_archive_has_the_same_room() {
    #[repr(C)]
    struct Lent {
        list: [u8; ROOM],
        behind: [u8; ROOM],
    }
    let mut lent = Lent { list: [7; ROOM], behind: [7; ROOM] };
    assert_eq!(archive::cuts(&SessionRecord::ZERO, &mut lent.list), NO_LIST);
    assert_eq!((lent.list, lent.behind), ([7; ROOM], [7; ROOM]));
    assert_eq!(archive::cuts(&booked(), &mut lent.list), 9);
    assert_eq!(lent.list[..9], [0, 0, 1, 0, 0, 0, 40, 1, 0]);
    assert!(lent.list[9..].iter().chain(&lent.behind).all(|byte| *byte == 7));
}

/// The archive writes a session and an answer within those of this side, and nothing around them: on every line of the long sessions, with their longest
/// answers and fullest tables, and on a line that is malformed.
#[test]
fn the_archive_writes_within_what_is_lent() {
    #[repr(C)]
    struct Lent {
        before: [u64; 512],
        session: SessionRecord,
        between: [u64; 512],
        answer: [u8; LONGEST],
        behind: [u8; 4096],
    }
    let guard = u64::from_ne_bytes([7; 8]);
    let (before, between) = ([guard; 512], [guard; 512]);
    let mut lent = Box::new(Lent { before, session: SessionRecord::ZERO, between, answer: [7; LONGEST], behind: [7; 4096] });
    let mut longest = 0;
    for line in lines_of("recorded/long.in").iter().chain([&b"no frame".to_vec()]) {
        longest = longest.max(archive::step(&mut lent.session, line, &mut lent.answer));
        assert!(lent.before == before && lent.between == between && lent.behind == [7; 4096]);
    }
    assert!(longest > 1000, "{longest}");
}

/// The same of the desk, whose longest answer has 7,151 characters: a snapshot of 255 nodes. Each of its questions is asked behind every line of the long sessions,
/// of which some fill the table; then the sheet is tidied, and put back as it was.
#[test]
fn the_desk_writes_within_what_is_lent() {
    #[repr(C)]
    struct Lent {
        before: [u64; 512],
        session: SessionRecord,
        between: [u64; 512],
        answer: [u8; DESK_LONGEST],
        behind: [u8; 4096],
    }
    let guard = u64::from_ne_bytes([7; 8]);
    let (before, between) = ([guard; 512], [guard; 512]);
    let mut lent = Box::new(Lent { before, session: SessionRecord::ZERO, between, answer: [7; DESK_LONGEST], behind: [7; 4096] });
    assert_eq!(DESK_LONGEST, 7151);
    let questions: Vec<Vec<u8>> = questions().into_iter().map(|(_, line)| line.into_bytes()).collect();
    let (mut longest, mut untidy) = (0, 0);
    for line in lines_of("recorded/long.in").iter().chain([&b"no frame".to_vec()]) {
        for line in [line].into_iter().chain(&questions) {
            let count = archive::desk(&mut lent.session, line, &mut lent.answer);
            assert!(lent.before == before && lent.between == between && lent.behind == [7; 4096]);
            assert!(lent.answer[count - 1] == b'\n' && lent.answer[count..].iter().all(|byte| *byte == 0));
            longest = longest.max(count);
        }
        let as_it_was = lent.session.clone();
        let count = archive::desk(&mut lent.session, TIDY.as_bytes(), &mut lent.answer);
        assert!(lent.before == before && lent.between == between && lent.behind == [7; 4096]);
        assert!(lent.answer[count - 1] == b'\n' && lent.answer[count..].iter().all(|byte| *byte == 0));
        assert!(lent.session.kept == as_it_was.kept);
        untidy += usize::from(lent.session != as_it_was);
        lent.session = as_it_was;
    }
    assert_eq!(longest, DESK_LONGEST);
    assert!(untidy > 20, "{untidy}");
}

/// Each way to spoil a record by one number that document 01 doesn't list, at a place that is held and at one that isn't.
fn unlisted() -> Vec<impl Fn(&mut LayoutRecord)> {
    let spoil = |place: usize, kind: Option<u8>, cut: Option<u8>| {
        move |layout: &mut LayoutRecord| {
            let datum = &mut layout.nodes[place].datum;
            datum.kind = kind.unwrap_or(datum.kind);
            datum.cut = cut.unwrap_or(datum.cut);
        }
    };
    let numbers = [(Some(3), None), (Some(255), None), (None, Some(2)), (None, Some(255))];
    [0, 1, 2, 3, 254].into_iter().flat_map(|place| numbers.map(|(kind, cut)| spoil(place, kind, cut))).collect()
}

/// A layout's record with an unlisted kind or cut is no sound sheet: 1 from every op that looks at it, and the session stays as it was, whatever refuses.
#[test]
fn an_unlisted_kind_or_cut_is_refused() {
    for spoil in unlisted() {
        let mut session = booked();
        spoil(&mut session.layout);
        for (op, line) in looks() {
            stays(&mut session, line, &refused(op, 1));
        }
        stays(&mut session, "no frame", MALFORMED);
        stays(&mut session, line(&[1, 0, 1, 0, 0, 0, 0, 0, 0, 0, 60, 1, 3, 0]), &refused(1, 2));
        let mut list = [7; ROOM];
        assert_eq!((archive::cuts(&session, &mut list), list), (NO_LIST, [7; ROOM]));
        // an opening looks at none: it takes the record's place, and what is kept stays
        let kept = session.kept;
        assert_eq!(answer(&mut session, OPEN), "010000010100000002fb");
        assert!(session.kept == kept);
        assert_eq!(answer(&mut session, RESTORE), line(&[6, 0]));
    }
}

/// A kept record with an unlisted kind or cut is refused by restore alone; it stays as it is until a sheet is kept.
#[test]
fn an_unlisted_kind_or_cut_is_not_restored() {
    for spoil in unlisted() {
        let mut session = booked();
        spoil(&mut session.kept);
        stays(&mut session, RESTORE, &refused(6, 1));
        let kept = session.kept;
        let lines = questions().into_iter().chain(looks().into_iter().filter(|(op, _)| [2, 3, 4, 7, 0x1b].contains(op)));
        for (op, line) in lines {
            assert_eq!(answer(&mut session, line)[..4], format!("{op:02x}00"));
            assert!(session.kept == kept);
        }
        stays(&mut session, RESTORE, &refused(6, 1));
        assert_eq!(answer(&mut session, KEEP), line(&[5, 0]));
        assert!(session.kept == session.layout);
    }
}

/// What a blade and the amounts may be. They are bounded from above: one that is less than the blade is sound, where all adds up.
#[test]
fn amounts_that_are_not_sound_are_refused() {
    type Spoil = fn(&mut LayoutRecord);
    let spoils: [(bool, Spoil); 10] = [
        (true, |_| ()),
        (true, |layout| (layout.nodes[1].datum.eaten, layout.nodes[2].datum.width) = (2, 58)),
        (true, |layout| (layout.nodes[1].datum.eaten, layout.nodes[2].datum.width) = (0, 60)),
        (true, |layout| layout.blade = 100),
        (false, |layout| layout.blade = 101),
        (false, |layout| layout.blade = 2),
        (false, |layout| layout.nodes[1].datum.eaten = 2),
        (false, |layout| layout.nodes[0].datum.eaten = 1),
        (false, |layout| (layout.nodes[2].datum.eaten, layout.nodes[2].datum.width) = (1, 56)),
        (false, |layout| layout.nodes[3].datum.eaten = 1),
    ];
    for (number, (sound, spoil)) in spoils.into_iter().enumerate() {
        let mut session = booked_with_blade();
        spoil(&mut session.layout);
        if sound {
            for (op, line) in questions() {
                assert_eq!(answer(&mut session, line)[..4], format!("{op:02x}00"), "spoilt so: {number}");
            }
            continue;
        }
        for (op, line) in looks() {
            stays(&mut session, line, &refused(op, 1));
        }
        let mut session = booked_with_blade();
        spoil(&mut session.kept);
        stays(&mut session, RESTORE, &refused(6, 1));
    }
}

/// Offers, report and the desk's questions change nothing where they accept either, and tidying nothing where all is tidy; each other refusal of document 01
/// that a few lines can reach leaves the session as it was.
#[test]
fn what_refuses_and_what_only_looks_changes_nothing() {
    let mut session = booked();
    let (free, gone, elsewhere) = (mark(2, 4), mark(9, 9), [&[0, 2], &mark(9, 9)[2..]].concat());
    for (op, line) in looks().into_iter().filter(|(op, _)| [2, 7].contains(op) || *op > 0x10) {
        let before = session.clone();
        assert_eq!(answer(&mut session, line)[..4], format!("{op:02x}00"));
        assert!(session == before);
    }
    let asked = [
        (line(&[1, 0, 1, 0, 0, 0, 100, 0, 0, 0, 60, 1, 255, 0]), 1, 2),
        (line(&[1, 0, 1, 0, 0, 0, 100, 0, 0, 0, 60, 1, 3, 101]), 1, 2),
        (insert(&elsewhere, &part(0, 1), 2), 3, 3),
        (insert(&elsewhere, &part(1, 1), 2), 3, 4),
        (insert(&gone, &part(1, 1), 2), 3, 5),
        (insert(&mark(0, 1), &part(1, 1), 2), 3, 6),
        (insert(&free, &part(1, 1), 2), 3, 7),
        (remove(&mark(0, 1)), 4, 10),
        (remove(&free), 4, 11),
        (why_not(&elsewhere, &part(0, 1)), 0x11, 3),
        (why_not(&elsewhere, &part(1, 1)), 0x11, 4),
        (why_not(&gone, &part(1, 1)), 0x11, 5),
        (why_not(&mark(0, 1), &part(1, 1)), 0x11, 6),
        (line(&[vec![0x12], part(1, 0)].concat()), 0x12, 3),
        (line(&[0x13, 0, 1]), 0x13, 12),
        (line(&[0x13, 255, 255]), 0x13, 12),
        (line(&[0x14, 0, 2]), 0x14, 12),
        (line(&[0x14, 255, 255]), 0x14, 12),
    ];
    for (line, op, number) in asked {
        stays(&mut session, line, &refused(op, number));
    }
    for line in ["", "05fc", "0800f8", "no frame"] {
        stays(&mut session, line, MALFORMED);
    }
    // a field too few or too many, a turn that is not listed, an op that is none
    for (op, frame) in questions() {
        let bytes = numbers(&frame);
        let fields = &bytes[..bytes.len() - 1];
        stays(&mut session, line(&[fields, &[0]].concat()), MALFORMED);
        if fields.len() > 1 {
            stays(&mut session, line(&fields[..fields.len() - 1]), MALFORMED);
        }
        if [0x11, 0x12].contains(&op) {
            stays(&mut session, line(&[&fields[..fields.len() - 1], &[3]].concat()), MALFORMED);
        }
    }
    stays(&mut session, line(&[0x1b, 0]), MALFORMED);
    for op in (8..=0x10).chain(0x1c..=255).chain([0]) {
        stays(&mut session, line(&[op]), MALFORMED);
    }
}

/// Document 01's sheet, kept, on which part 7 of 40 x 30 was booked by AcrossThenAlong and taken out again: a structure with a strip in it, and no part. 8
/// serials are issued.
fn untidy() -> SessionRecord {
    let mut session = SessionRecord::ZERO;
    for line in [OPEN.to_string(), KEEP.into(), insert(&mark(1, 2), &part(40, 30), 4), remove(&mark(3, 5))] {
        assert_eq!(answer(&mut session, line)[2..4], *"00");
    }
    assert_eq!((session.layout.held, session.layout.serial), (5, 8));
    session
}

/// Tidying writes the layout alone: the sheet is the one of the opening, with two serials more, and what was kept stays.
#[test]
fn tidying_writes_the_layout() {
    let mut session = untidy();
    let kept = session.kept;
    assert_eq!(answer(&mut session, TIDY), line(&[0x1b, 0, 0, 2]));
    assert!(session.kept == kept);
    let mut right = kept;
    right.serial = 10;
    right.nodes[1].datum.serial = 10;
    assert!(session.layout == right);
    stays(&mut session, TIDY, &line(&[0x1b, 0, 0, 0]));
}

/// It takes a serial for each structure that goes, also for one that holds one free piece alone only when another has gone. Where these don't last for all of
/// them it is refused with 9, and none goes. Where all is tidy it takes none.
#[test]
fn tidying_wants_serials_for_all_that_goes() {
    for (serial, lasts) in [(8, true), (999_997, true), (999_998, true), (999_999, false), (1_000_000, false)] {
        let mut session = untidy();
        session.layout.serial = serial;
        if lasts {
            assert_eq!(answer(&mut session, TIDY), line(&[0x1b, 0, 0, 2]), "{serial}");
            assert_eq!((session.layout.serial, session.layout.held), (serial + 2, 2));
        } else {
            stays(&mut session, TIDY, &refused(0x1b, 9));
        }
    }
    let mut session = booked();
    session.layout.serial = 1_000_000;
    stays(&mut session, TIDY, &line(&[0x1b, 0, 0, 0]));
}

fn why_not(mark: &[u8], part: &[u8]) -> String {
    line(&[&[0x11], mark, part].concat())
}

/// Records of random numbers, small ones among them: whatever they hold, what refuses leaves them as they were.
#[test]
fn random_records_stay_as_they_were() {
    let mut random = Random(11);
    for _ in 0..200 {
        let mut session = SessionRecord { layout: scrambled(&mut random), kept: scrambled(&mut random) };
        for (op, line) in looks() {
            stays(&mut session, line, &refused(op, 1));
        }
        stays(&mut session, "no frame", MALFORMED);
    }
}

fn scrambled(random: &mut Random) -> LayoutRecord {
    let most = [4, 300, u64::MAX][random.below(3) as usize];
    let mut number = || random.below(most);
    let mut layout = LayoutRecord::ZERO;
    for node in &mut layout.nodes {
        let datum = DatumRecord {
            serial: number() as u32,
            width: number() as u32,
            height: number() as u32,
            number: number() as u16,
            level: number() as u8,
            kind: number() as u8,
            cut: number() as u8,
            eaten: number() as u8,
        };
        let [parent, first, last, prev, next] = [0; 5].map(|_| number() as u16);
        *node = NodeRecord { datum, parent, first, last, prev, next };
    }
    for place in layout.free.iter_mut().chain(&mut layout.removable) {
        *place = number() as u16;
    }
    let [held, frees, removables] = [0; 3].map(|_| number() as u16);
    let (used, serial, width, height) = (number(), number() as u32, number() as u32, number() as u32);
    let (stages, blade) = (number() as u8, number() as u8);
    LayoutRecord { held, frees, removables, used, serial, number: 1, stages, blade, width, height, ..layout }
}
