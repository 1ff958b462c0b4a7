//! The pictures and the sentences, over every state of the recorded sessions and of random ones with a blade. What they are compared with is read here anew, from the
//! desk's answers: the pieces and what is eaten between them from the tree snapshot, the pile from the list of saw cuts and the amounts beside it.

use std::path::Path;
use std::{fs, thread};

use nickelgrove_kiosk::{Answer, Desk, Part, Request, Turn, Way};

use crate::input;
use crate::picture::{share, Drawn, Picture};
use crate::say::say;
use crate::sheet::{Area, Sheet};
use crate::svg::{signs, svg};
use crate::text::{self, text};

/// A rectangle: left, top, width, height.
type Rectangle = [u64; 4];

/// What a snapshot shows of a piece: its name, and where it lies. What is eaten has the name `saw`.
type Shown = (String, Rectangle);

/// A state of a session: the bytes of its tree snapshot, of its list of cuts and of what these lose, as the desk answers, and the sheet that the command makes of them.
struct State {
    line: usize,
    snapshot: Vec<u8>,
    cuts: Vec<u8>,
    amounts: Vec<u8>,
    sheet: Sheet,
}

fn file(name: &str) -> Vec<u8> {
    fs::read(Path::new(env!("CARGO_MANIFEST_DIR")).join("..").join(name)).expect("a file of the checkout")
}

fn bytes(digits: &str) -> Vec<u8> {
    (0..digits.len()).step_by(2).map(|at| u8::from_str_radix(&digits[at..at + 2], 16).expect("hexadecimal")).collect()
}

fn number(bytes: &[u8]) -> u64 {
    bytes.iter().fold(0, |number, byte| number * 256 + u64::from(*byte))
}

/// What the desk answers, behind the op, 00 and the count, and before the check; none where it refuses.
fn asked(desk: &mut Desk, frame: &str) -> Option<Vec<u8>> {
    let answer = bytes(desk.answer(frame));
    (answer[1] == 0).then(|| answer[4..answer.len() - 1].to_vec())
}

/// What the desk answers to the three frames that a sheet is made of.
fn three(desk: &mut Desk) -> Option<[Vec<u8>; 3]> {
    Some([asked(desk, "17e9")?, asked(desk, "18e8")?, asked(desk, "1ae6")?])
}

/// Looks at each state of both recorded sessions, the short and the long one, and of the sessions with a blade, on a quarter of the stack that a thread has by default.
fn states(look: fn(&State)) {
    let along = move |name: &str, lines: Vec<Vec<u8>>| {
        let mut desk = Desk::new();
        let (mut seen, mut eaten) = (0, 0);
        for (at, line) in lines.iter().enumerate() {
            desk.answer(line);
            let Some([snapshot, cuts, amounts]) = three(&mut desk) else { continue };
            let sheet = Sheet::new(&snapshot, Some((&cuts, &amounts)));
            let sheet = sheet.unwrap_or_else(|wrong| panic!("{name}, line {}: {wrong:?}", at + 1));
            eaten += usize::from(!sheet.strips.is_empty());
            look(&State { line: at + 1, snapshot, cuts, amounts, sheet });
            seen += 1;
        }
        (seen, eaten)
    };
    let recorded = |name: &'static str| (name, file(name).split(|byte| *byte == b'\n').map(<[u8]>::to_vec).collect());
    let sessions = [recorded("recorded/sessions.in"), recorded("recorded/long.in"), ("with a blade", with_a_blade())];
    let start = |(name, lines)| thread::Builder::new().stack_size(512 << 10).spawn(move || along(name, lines)).expect("a thread");
    let seen = sessions.map(start).map(|thread| thread.join().expect("every state was right"));
    let [seen, eaten] = [seen.iter().map(|(seen, _)| seen).sum::<usize>(), seen.iter().map(|(_, eaten)| eaten).sum()];
    assert!(seen > 7000 && eaten > 1000, "{seen} states, {eaten} with something eaten");
}

/// Random sessions with a blade, one behind the other: parts that leave less than the blade, or just that, as often as others; some go out again.
fn with_a_blade() -> Vec<Vec<u8>> {
    let (mut random, mut desk, mut lines) = (Random(4), Desk::new(), Vec::new());
    for session in 0..60 {
        let blade = [1, 3, 4, 4, 10, 100][random.below(6) as usize];
        let (width, height) = [(100, 60), (2440, 1220), (300, 4000), (67_108_863, 67_108_863)][random.below(4) as usize];
        let (first_cut, stages) =
            ([Way::Horizontal, Way::Vertical][random.below(2) as usize], [2, 3, 4, 254][random.below(4) as usize]);
        let mut ask = |request: Request| {
            lines.push(request.line().into_bytes());
            desk.ask(&request)
        };
        ask(Request::Open { number: session, width, height, first_cut, stages, blade }).expect("inside the limits");
        for number in 0..10 + random.below(40) as u16 {
            let position = random.below(4) as u16;
            if random.below(5) == 0 {
                if let Ok(Answer::RemovablePiece(piece)) = ask(Request::RemovablePiece { position }) {
                    let _ = ask(Request::Remove { piece });
                }
                continue;
            }
            let (Ok(Answer::FreePiece(piece)), Ok(Answer::Snapshot(nodes))) =
                (ask(Request::FreePiece { position }), ask(Request::Snapshot))
            else {
                continue;
            };
            let frees: Vec<_> =
                nodes.iter().filter(|node| node.part_number().is_none() && node.width > 0 && node.height > 0).collect();
            let like = frees[random.below(frees.len() as u64) as usize];
            let mut side = |of: u32| match random.below(6) {
                0 => of,
                1 | 2 => of.saturating_sub(random.below(u64::from(blade) + 3) as u32).max(1),
                3 => of / 2 + 1,
                _ => 1 + random.below(of.into()) as u32,
            };
            let part = Part::new(number, side(like.width), side(like.height)).turned(Turn::Either);
            let Ok(Answer::Offers(offers)) = ask(Request::Offers { piece, part }) else { continue };
            if !offers.is_empty() {
                let offer = offers[random.below(offers.len() as u64) as usize];
                let _ = ask(Request::Insert { piece, part, offer });
            }
        }
    }
    lines
}

/// The pieces of a snapshot with an area, and what is eaten between them, by recursion along its nodes: from a node and its corner, to the node behind all that is in it.
fn shown(snapshot: &[u8]) -> Vec<Shown> {
    fn walk(nodes: &[&[u8]], at: usize, left: u64, top: u64, pieces: &mut Vec<Shown>) -> usize {
        let (width, height) = (number(&nodes[at][5..9]), number(&nodes[at][9..13]));
        let name = match nodes[at][1] {
            0 => "offcut".to_string(),
            1 => format!("panel {}", number(&nodes[at][3..5])),
            _ => String::new(),
        };
        if !name.is_empty() && width * height > 0 {
            pieces.push((name, [left, top, width, height]));
        }
        let (mut next, mut x, mut y) = (at + 1, left, top);
        while next < nodes.len() && nodes[next][0] == nodes[at][0] + 1 {
            let (child, eaten) = (nodes[next], u64::from(nodes[next][13]));
            next = walk(nodes, next, x, y, pieces);
            let strip = if nodes[at][2] == 1 {
                x += number(&child[5..9]) + eaten;
                [x - eaten, y, eaten, height]
            } else {
                y += number(&child[9..13]) + eaten;
                [x, y - eaten, width, eaten]
            };
            if eaten > 0 {
                pieces.push(("saw".into(), strip));
            }
        }
        next
    }
    let nodes: Vec<&[u8]> = snapshot.chunks(14).collect();
    let mut pieces = Vec::new();
    assert_eq!(walk(&nodes, 0, 0, 0, &mut pieces), nodes.len());
    pieces
}

/// The pieces alone, and what is eaten alone.
fn parted(shown: Vec<Shown>) -> (Vec<Shown>, Vec<Shown>) {
    shown.into_iter().partition(|(name, _)| name != "saw")
}

/// The sheet's sides, in a snapshot.
fn sides(snapshot: &[u8]) -> (u64, u64) {
    (number(&snapshot[5..9]), number(&snapshot[9..13]))
}

fn apart([left, top, width, height]: Rectangle, [x, y, w, h]: Rectangle) -> bool {
    left + width <= x || x + w <= left || top + height <= y || y + h <= top
}

fn within([left, top, width, height]: Rectangle, [x, y, w, h]: Rectangle) -> bool {
    x <= left && y <= top && left + width <= x + w && top + height <= y + h
}

/// These tile this rectangle: each lies within it, no two share a point of it, and the areas add to its own.
fn tile(pieces: &[Rectangle], whole: Rectangle) -> bool {
    let area = |[.., width, height]: Rectangle| width * height;
    let inside = pieces.iter().all(|piece| within(*piece, whole));
    let each = |(at, one): (usize, &Rectangle)| pieces[at + 1..].iter().all(|other| apart(*one, *other));
    inside && pieces.iter().enumerate().all(each) && pieces.iter().map(|piece| area(*piece)).sum::<u64>() == area(whole)
}

fn rectangle(drawn: &Drawn) -> Rectangle {
    [drawn.left, drawn.top, drawn.width, drawn.height]
}

/// The number behind these words.
fn behind(text: &str, words: &str) -> u64 {
    let rest = &text[text.find(words).unwrap_or_else(|| panic!("{words} in {text}")) + words.len()..];
    rest[..rest.find(|digit: char| !digit.is_ascii_digit()).unwrap_or(rest.len())].parse().expect("a number")
}

/// What an SVG says of a piece, or of what is eaten, where it is drawn, and where it says that it lies.
fn drawn(line: &str) -> (String, Rectangle, Rectangle) {
    let at = [" x=\"", " y=\"", " width=\"", " height=\""].map(|word| behind(line, word));
    let title = line.split("<title>").nth(1).expect("a title");
    let words: Vec<&str> = title.split([':', ',']).map(str::trim).collect();
    // a piece has its number before its name, and its level at the end
    let words = if words[0] == "saw" { &words[..] } else { &words[1..] };
    let (width, height) = words[1].split_once(" x ").expect("a size");
    let first = |words: &str| words.split(' ').next().expect("a word").parse().expect("a number");
    let sheet = [first(words[2]), first(words[3]), width.parse().expect("a width"), height.parse().expect("a height")];
    (words[0].to_string(), at, sheet)
}

/// In each picture: the pieces and what is eaten are those of the snapshot, in its order; they tile the sheet, in its own unit; and as they are drawn they tile the drawn
/// sheet, but that what is eaten is seen, be it drawn less wide than a line.
#[test]
fn drawn_pieces_tile_the_sheet() {
    states(|state| {
        let svg = svg(&state.sheet);
        let lines = svg.lines().filter(|line| line.contains("from the left") && line.starts_with("<rect"));
        let drawn: Vec<_> = lines.map(drawn).collect();
        let said: Vec<Shown> = drawn.iter().map(|(name, _, sheet)| (name.clone(), *sheet)).collect();
        let (pieces, strips) = parted(shown(&state.snapshot));
        assert_eq!(said, [pieces, strips.clone()].concat(), "line {}", state.line);
        let (width, height) = sides(&state.snapshot);
        let lying: Vec<Rectangle> = drawn.iter().map(|(_, _, sheet)| *sheet).collect();
        assert!(tile(&lying, [0, 0, width, height]), "line {}: in the sheet's unit", state.line);
        let edge = svg.lines().find(|line| line.contains("stroke-width=\"2\"") && line.starts_with("<rect")).expect("an edge");
        let whole = [" x=\"", " y=\"", " width=\"", " height=\""].map(|word| behind(edge, word));
        let picture = Picture::new(&state.sheet);
        let at: Vec<Rectangle> = drawn.iter().map(|(_, at, _)| *at).collect();
        let (pieces, inked) = at.split_at(at.len() - strips.len());
        let exact: Vec<Rectangle> = picture.strips.iter().map(rectangle).collect();
        assert!(tile(&[pieces, &exact].concat(), whole), "line {}: as they are drawn", state.line);
        // what is eaten is drawn where it lies, and two lines wide at least, so that it is seen; and it stays in the sheet
        let least = 2 * picture.signs.k;
        for ([x, y, w, h], [left, top, width, height]) in inked.iter().zip(exact) {
            assert_eq!((*x, *y), (left, top));
            assert!(*w >= least && *h >= least, "line {}: it is seen", state.line);
            assert!((*w == width || *w == least && width < least) && (*h == height || *h == least && height < least));
            assert!(within([*x, *y, *w, *h], whole), "line {}: within the sheet", state.line);
        }
    });
}

/// What is said of the areas: nothing where nothing is eaten; else what the snapshot has, in the picture and in the first sentence. They add to the sheet.
#[test]
fn areas_are_told_where_something_is_eaten() {
    states(|state| {
        let (pieces, strips) = parted(shown(&state.snapshot));
        let area = |shown: &[Shown]| shown.iter().map(|(_, [.., width, height])| width * height).sum::<u64>();
        let (panels, offcuts): (Vec<Shown>, Vec<Shown>) = pieces.into_iter().partition(|(name, _)| name != "offcut");
        let (width, height) = sides(&state.snapshot);
        assert_eq!(area(&panels) + area(&offcuts) + area(&strips), width * height, "line {}", state.line);
        let taken = format!("Of the area {} the saw takes {}.", width * height, area(&strips));
        let rest = format!("Panels have {} of it, offcuts {}.", area(&panels), area(&offcuts));
        let (svg, text, said) = (svg(&state.sheet), text(&state.sheet), say(&state.sheet).expect("a list of cuts"));
        let first = said.lines().next().expect("a first line");
        assert_eq!(
            first.ends_with(&format!("s. {taken} {rest}")) || first.ends_with(&format!("e. {taken} {rest}")),
            !strips.is_empty()
        );
        assert_eq!(svg.contains(&format!(">{taken}</text>")) && svg.contains(&format!(">{rest}</text>")), !strips.is_empty());
        assert_eq!(text.contains(&format!("\n#  {taken}\n   {rest}\n")), !strips.is_empty());
        for (what, words) in [("a picture", &svg), ("a text", &text), ("sentences", &said)] {
            let dark = words.contains("#555") || words.contains('#') && what == "a text" || words.contains("saw");
            assert_eq!(dark, !strips.is_empty(), "line {}: {what}", state.line);
        }
    });
}

/// A picture that says that it is to scale is: each edge is where it should be, but for less than a unit at each cut on the way to it.
#[test]
fn pictures_to_scale_are() {
    states(|state| {
        let picture = Picture::new(&state.sheet);
        let (width, height) = sides(&state.snapshot);
        let one = 1000.0 / width.max(height) as f64;
        let most = state.sheet.nodes.iter().map(|node| node.level).max().unwrap_or_default() as f64 + 1.0;
        let far = |drawn: u64, begin: u64, lies: u32| (drawn as f64 - begin as f64 - f64::from(lies) * one).abs();
        for (piece, drawn) in state.sheet.pieces.iter().zip(&picture.pieces) {
            let off = far(drawn.left, picture.sheet.left, piece.area.left).max(far(drawn.top, picture.sheet.top, piece.area.top));
            assert!(picture.bent || off <= most, "line {}: {off} units off", state.line);
        }
    });
}

/// In each picture a label lies within its piece, and covers no number of a cut; and no two numbers cover each other.
#[test]
fn labels_and_numbers_are_clear_of_each_other() {
    states(|state| {
        let picture = Picture::new(&state.sheet);
        let (labels, numbers) = signs(&state.sheet, &picture);
        assert_eq!((labels.len(), numbers.len()), (picture.pieces.len(), state.cuts.len() / 9));
        for (label, piece) in labels.iter().zip(&picture.pieces) {
            assert!(within(rectangle(label), rectangle(piece)), "line {}: a label within its piece", state.line);
        }
        // and none lies in what is eaten; as that is drawn, it touches no more than a label's margin
        let strips: Vec<_> =
            svg(&state.sheet).lines().filter(|line| line.contains("<title>saw")).map(|line| drawn(line).1).collect();
        let k = picture.signs.k;
        for label in &labels {
            let clear = |strip: &Drawn| apart(rectangle(strip), rectangle(label));
            assert!(picture.strips.iter().all(clear), "line {}: a label and what is eaten", state.line);
            let [x, y, w, h] = rectangle(label);
            let inner = [x + k, y + k, w - 2 * k, h - 2 * k];
            assert!(strips.iter().all(|strip| apart(*strip, inner)), "line {}: a label and what is drawn of that", state.line);
        }
        for (at, number) in numbers.iter().enumerate() {
            assert!(within(rectangle(number), rectangle(&picture.sheet)), "line {}: cut {}", state.line, at + 1);
            let clear = |other: &Drawn| apart(rectangle(number), rectangle(other));
            assert!(labels.iter().all(clear), "line {}: cut {} and the labels", state.line, at + 1);
            assert!(numbers[at + 1..].iter().all(clear), "line {}: cut {} and those behind it", state.line, at + 1);
        }
    });
}

/// A board of the saw's pile in the sentences: its sides, and the words for it, if it is done.
#[derive(Clone, Debug, PartialEq)]
struct Board {
    sides: (u64, u64),
    done: Option<String>,
}

/// A board as a sentence names it: `panel 7, 40 by 30`, `offcut 40 by 30`, `board 2, 40 by 30, to cut again`. With its number, if it has one.
fn named(words: &str) -> (Board, Option<usize>) {
    let again = words.strip_suffix(", to cut again");
    let (what, size) = match again.unwrap_or(words).rsplit_once(", ") {
        Some((what, size)) => (what.to_string(), size),
        None => ("offcut".to_string(), words.strip_prefix("offcut ").expect("an offcut")),
    };
    let (width, height) = size.split_once(" by ").expect("a size");
    let sides = (width.parse().expect("a width"), height.parse().expect("a height"));
    match again {
        Some(_) => (Board { sides, done: None }, Some(what.strip_prefix("board ").expect("a board").parse().expect("a number"))),
        None => (Board { sides, done: Some(what) }, None),
    }
}

/// A sentence, read: the board's number and sides, whether the saw goes down, how far, what it takes, and the boards made, two or one.
struct Said {
    taken: usize,
    sides: (u64, u64),
    down: bool,
    distance: u64,
    eaten: u64,
    made: Vec<(Board, Option<usize>)>,
}

fn read(sentence: &str, number: usize) -> Said {
    let rest = sentence
        .strip_prefix(&format!("{number}. Take board "))
        .unwrap_or_else(|| panic!("{sentence}"))
        .strip_suffix('.')
        .expect("an end");
    let parts: Vec<&str> = rest.split(". ").collect();
    let [board, cut, one, other] = parts[..] else { panic!("{sentence}") };
    let (taken, size) = board.split_once(", ").expect("a board");
    let (width, height) = size.split_once(" by ").expect("a size");
    let down = cut.starts_with("Cut down, ");
    let (distance, edges) = if down {
        (behind(cut, "Cut down, "), ["Left: ", "Right: "])
    } else {
        (behind(cut, "Cut across, "), ["Above: ", "Below: "])
    };
    let (cut, eaten) = match cut.split_once("; the saw takes ") {
        Some((cut, eaten)) => (cut, eaten.parse().expect("an amount")),
        None => (cut, 0),
    };
    assert!(cut.ends_with(if down { "from the left" } else { "from the top" }));
    let made = [one.strip_prefix(edges[0]), other.strip_prefix(edges[1])].map(|words| words.expect("an edge"));
    let made = made.into_iter().filter(|words| *words != "nothing").map(named).collect();
    let sides = (width.parse().expect("a width"), height.parse().expect("a height"));
    Said { taken: taken.parse().expect("a number"), sides, down, distance, eaten, made }
}

/// Each sentence is its cut, and its sizes are those of the saw's pile. A saw that does what they say ends with the pieces of the snapshot, by their names.
#[test]
fn sentences_are_the_saws() {
    states(|state| {
        let said = say(&state.sheet).expect("a list of cuts");
        let mut lines = said.lines();
        let ((pieces, _), (width, height)) = (parted(shown(&state.snapshot)), sides(&state.snapshot));
        let first = lines.next().expect("a first line");
        assert!(first.starts_with(&format!("Sheet {width} by {height}: ")), "{first}");
        let mut pile = vec![Board { sides: (width, height), done: None }];
        let cuts: Vec<&[u8]> = state.cuts.chunks(9).collect();
        for (at, cut) in cuts.iter().enumerate() {
            let sentence = lines.next().expect("a sentence");
            let said = read(sentence, at + 1);
            let (place, down, distance) = (number(&cut[..2]) as usize, cut[2] == 1, number(&cut[3..7]));
            let eaten = u64::from(state.amounts[at]);
            assert_eq!((said.taken, said.down, said.distance), (place + 1, down, distance), "line {}", state.line);
            // what the saw takes is said where it takes something
            assert_eq!((said.eaten, sentence.contains("saw")), (eaten, eaten > 0), "line {}", state.line);
            let board = pile[place].clone();
            assert_eq!(
                Board { sides: said.sides, done: None },
                board,
                "line {}: a board that is there, and not done",
                state.line
            );
            let (width, height) = board.sides;
            let made = if down {
                [(distance, height), (width - distance - eaten, height)]
            } else {
                [(width, distance), (width, height - distance - eaten)]
            };
            let made: Vec<_> = made.into_iter().filter(|(width, height)| width * height > 0).collect();
            assert_eq!(said.made.iter().map(|(board, _)| board.sides).collect::<Vec<_>>(), made, "line {}", state.line);
            for (behind, (_, named)) in said.made.iter().enumerate() {
                assert!(named.map_or(true, |named| named == place + 1 + behind), "line {}", state.line);
            }
            pile.splice(place..=place, said.made.into_iter().map(|(board, _)| board));
        }
        assert_eq!(lines.next(), None);
        if cuts.is_empty() {
            let (name, _) = &pieces[0];
            let comma = if name == "offcut" { "" } else { "," };
            assert_eq!(first, format!("Sheet {width} by {height}: no cut. It is {name}{comma} {width} by {height}."));
            return;
        }
        let count = |count: usize, what: &str| format!("{count} {what}{}", if count == 1 { "" } else { "s" });
        let make = if cuts.len() == 1 { "makes" } else { "make" };
        let counts = format!(": {} {make} {}.", count(cuts.len(), "cut"), count(pieces.len(), "piece"));
        assert!(first.contains(&counts), "{first}");
        let ended: Vec<_> = pile.into_iter().map(|board| (board.done.expect("a board that is done"), board.sides)).collect();
        let pieces: Vec<_> = pieces.into_iter().map(|(name, [.., width, height])| (name, (width, height))).collect();
        assert_eq!(ended, pieces, "line {}", state.line);
    });
}

/// Each diagram for a terminal fits into 78 columns and 40 rows, its boxes and strips tile it, the boxes have every piece once, in order, and the list has every piece.
#[test]
fn text_fits_and_lists_every_piece() {
    states(|state| {
        let shown_there = text::shown(&state.sheet);
        let (places, strips) = shown_there.places();
        let all = [places.clone(), strips.clone()].concat();
        let whole =
            all.iter().fold([0, 0, 0, 0], |[.., width, height], [x, y, w, h]| [0, 0, width.max(x + w), height.max(y + h)]);
        assert!(whole[2] <= 77 && whole[3] <= 39 && tile(&all, whole), "line {}: {whole:?}", state.line);
        assert!(places.iter().all(|[.., width, height]| *width >= 4 && *height >= 2));
        let mut next = 0;
        for framed in &shown_there.boxes {
            assert!(framed.first == next && framed.last >= framed.first);
            next = framed.last + 1;
        }
        let (pieces, eaten) = parted(shown(&state.snapshot));
        assert_eq!(next, pieces.len(), "line {}", state.line);
        let text = text(&state.sheet);
        // each strip that is shown is at least a line of #, but for edges and numbers, and there is no other #
        let mut grid: Vec<Vec<u8>> =
            text.lines().skip(2).take_while(|line| !line.is_empty()).map(|line| line.bytes().collect()).collect();
        for [x, y, w, h] in strips {
            let row = |at: u64| grid[at as usize][x as usize..=(x + w) as usize].to_vec();
            let inked: Vec<u8> = (y..=y + h).flat_map(row).collect();
            assert!(inked.contains(&b'#') && inked.iter().all(|byte| matches!(byte, b'#' | b'+' | b'-' | b'|' | b'0'..=b'9')));
        }
        for [x, y, w, h] in shown_there.places().1 {
            (y..=y + h).for_each(|row| grid[row as usize][x as usize..=(x + w) as usize].fill(b' '));
        }
        assert!(grid.iter().flatten().all(|byte| *byte != b'#'), "line {}", state.line);
        // where there is room for each piece, there is for each strip; the last of a row may have none
        let alone = shown_there.boxes.iter().all(|framed| framed.first == framed.last);
        let ends = state.sheet.nodes.iter().filter(|node| node.children.last().is_some_and(|last| state.sheet.ends(node, *last)));
        assert!(!alone || shown_there.places().1.len() + ends.count() >= eaten.len(), "line {}", state.line);
        let list: Vec<&str> = text.lines().filter(|line| line.contains(" from the left, ")).collect();
        assert_eq!(list.len(), pieces.len());
        for (at, (line, (name, [left, top, width, height]))) in list.iter().zip(pieces).enumerate() {
            let words: Vec<&str> = line.split_whitespace().collect();
            let said = format!("{} {name} {width} x {height} {left} from the left, {top} from the top", at + 1);
            assert_eq!(words.join(" "), said, "line {}", state.line);
        }
    });
}

/// From the desk's three answers, or from the three fields that `inspect` shows, the same is drawn and said as from the session.
#[test]
fn a_snapshot_shows_what_its_session_does() {
    let (frames, lines) = (file("recorded/sessions.in"), String::from_utf8(file("recorded/sessions.out")).expect("hexadecimal"));
    let mut desk = Desk::new();
    let mut seen = 0;
    for (frame, line) in frames.split(|byte| *byte == b'\n').zip(lines.lines()) {
        desk.answer(frame);
        let fields: Vec<&str> = line.split(' ').collect();
        if fields[1] == "-" {
            continue;
        }
        let answers = ["17e9", "18e8", "1ae6"].map(|frame| desk.answer(frame).to_string());
        let one = input::snapshot(format!("{}\n", answers.join("\n")).as_bytes()).expect("a sheet");
        let other = input::snapshot(format!("{}\n{}\n{}\n", fields[1], fields[7], fields[8]).as_bytes()).expect("a sheet");
        assert_eq!((svg(&one), say(&one)), (svg(&other), say(&other)));
        // the third may be left out where nothing is eaten
        let short = input::snapshot(format!("{}\n{}\n", answers[0], answers[1]).as_bytes());
        match short {
            Ok(short) => assert!(one.strips.is_empty() && say(&short) == say(&one)),
            Err((line, what)) => assert!(!one.strips.is_empty() && line == 3 && what.starts_with("no amounts"), "{what}"),
        }
        // without the cuts the same pieces are drawn, no cut is numbered, and nothing is said
        let alone = input::snapshot(format!("{}\n", fields[1]).as_bytes()).expect("a sheet");
        assert_eq!((&alone.pieces, say(&alone)), (&one.pieces, None));
        assert!(!svg(&alone).contains("<g>"));
        seen += 1;
    }
    assert!(seen > 4000, "{seen} states");
}

/// Random numbers (splitmix64), the same on every machine.
struct Random(u64);

impl Random {
    fn below(&mut self, limit: u64) -> u64 {
        self.0 = self.0.wrapping_add(0x9e37_79b9_7f4a_7c15);
        let mut word = self.0;
        word = (word ^ (word >> 30)).wrapping_mul(0xbf58_476d_1ce4_e5b9);
        word = (word ^ (word >> 27)).wrapping_mul(0x94d0_49bb_1331_11eb);
        (word ^ (word >> 31)) % limit
    }
}

/// A drawn length is shared out whole; each gets its least, and what is more than that is to scale among those that get more.
#[test]
fn a_row_is_shared_out_whole() {
    let mut random = Random(23);
    for _ in 0..20_000 {
        let count = 1 + random.below(12);
        let longest = [3, 100, 67_108_863][random.below(3) as usize];
        // a strip within a row has no least
        let row: Vec<(u64, u64)> =
            (0..count).map(|_| (1 + random.below(longest), [0, 1 + random.below(40)][random.below(4).min(1) as usize])).collect();
        let drawn = row.iter().map(|(_, least)| least).sum::<u64>() + random.below(900);
        let mut bent = false;
        let shares = share(drawn, &row, &mut bent);
        assert_eq!(shares.iter().sum::<u64>(), drawn, "{row:?}");
        assert!(shares.iter().zip(&row).all(|(share, (_, least))| share >= least), "{row:?}");
        let total: u64 = row.iter().map(|(size, _)| size).sum();
        assert_eq!(bent, row.iter().any(|(size, least)| size * drawn < least * total), "{row:?}");
        // of two that got more than their least, the longer one got no less, but for a unit
        let more: Vec<_> = shares.iter().zip(&row).filter(|(share, (_, least))| *share > least).collect();
        for (one, (size, _)) in &more {
            assert!(more.iter().all(|(other, (length, _))| size < length || *one + 1 >= **other), "{row:?}");
        }
    }
}

/// Bytes that are no snapshot or no list of cuts are told, and nothing panics; where a change makes another sheet, its pieces are drawn.
#[test]
fn changed_bytes_are_told_or_drawn() {
    let mut random = Random(5);
    let (mut desk, mut told, mut drawn) = (Desk::new(), 0, 0);
    let recorded = file("recorded/sessions.in");
    for line in recorded.split(|byte| *byte == b'\n').map(<[u8]>::to_vec).chain(with_a_blade()) {
        desk.answer(&line);
        let Some([mut snapshot, mut cuts, mut amounts]) = three(&mut desk) else { continue };
        for _ in 0..8 {
            let bytes = match random.below(5) {
                0 | 1 if !cuts.is_empty() => &mut cuts,
                2 if !amounts.is_empty() => &mut amounts,
                _ => &mut snapshot,
            };
            let at = random.below(bytes.len() as u64) as usize;
            match random.below(8) {
                0 => bytes.truncate(at),
                1 => bytes.insert(at, random.below(256) as u8),
                2 => bytes[at] = random.below(256) as u8,
                _ => bytes[at] = random.below(4) as u8,
            }
            if snapshot.is_empty() {
                break;
            }
            match Sheet::new(&snapshot, Some((&cuts, &amounts))) {
                Err(_) => told += 1,
                Ok(sheet) => {
                    drawn +=
                        svg(&sheet).len().min(1) + text(&sheet).len().min(1) + say(&sheet).map_or(0, |said| said.len().min(1));
                }
            }
            if let Ok(sheet) = Sheet::new(&snapshot, None) {
                let place = |area: Area| [area.left, area.top, area.width, area.height].map(u64::from);
                let pieces: Vec<Shown> = sheet.pieces.iter().map(|piece| (piece.to_string(), place(piece.area))).collect();
                let strips: Vec<Shown> = sheet.strips.iter().map(|strip| ("saw".into(), place(strip.area))).collect();
                assert_eq!((pieces, strips), parted(shown(&snapshot)));
                assert!(!svg(&sheet).is_empty() && !text(&sheet).is_empty());
            }
        }
    }
    assert!(told > 10_000 && drawn > 100, "{told} told, {drawn} drawn");
}

/// Children that are together longer than any number holds are told, like others that don't fit.
#[test]
fn children_that_overflow_are_told() {
    let node = |level: u8, kind: u8, cut: u8, eaten: u8| {
        [&[level, kind, cut, 0, 0], 67_108_863_u32.to_be_bytes().as_slice(), &67_108_863_u32.to_be_bytes(), &[eaten]].concat()
    };
    for (eaten, which) in [(0, 3), (1, 2), (100, 2)] {
        let mut snapshot = node(0, 2, 1, 0);
        for _ in 0..200 {
            snapshot.extend(node(1, 1, 0, eaten));
        }
        let wrong = Sheet::new(&snapshot, None).expect_err("no sheet");
        assert_eq!(format!("{wrong:?}"), format!("Snapshot(\"node {which} of the tree snapshot doesn't fit into its parent\")"));
    }
}
