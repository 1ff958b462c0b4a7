//! A sheet as the proved calls show it: the pieces of its tree snapshot with the strips that the blade eats between them, and the boards that its saw cuts make.
//! What is drawn and said is read off this alone. A sheet is only made where the two agree: the saw ends with exactly the pieces of the snapshot, each where the
//! tree has it.

use std::fmt;

/// The longest side, the most nodes, and the widest blade, that a sheet has.
const LONGEST: u32 = 67_108_863;
const MOST: usize = 255;
const WIDEST: u32 = 100;

/// The bytes of a node in a snapshot, and of a cut in a list.
pub const NODE: usize = 14;
pub const CUT: usize = 9;

/// The way of a cut: of a node, how its children lie; of the saw, how it goes.
#[derive(Clone, Copy, Debug, PartialEq, Eq)]
pub enum Way {
    Horizontal,
    Vertical,
}

#[derive(Clone, Copy, Debug, PartialEq, Eq)]
pub enum Kind {
    Free,
    Part(u16),
    Structure,
}

/// A rectangle, from its left upper corner.
#[derive(Clone, Copy, Debug, PartialEq, Eq)]
pub struct Area {
    pub left: u32,
    pub top: u32,
    pub width: u32,
    pub height: u32,
}

/// A node of the tree. Its children are those with an area, by their places in the list of nodes.
#[derive(Clone, Debug)]
pub struct Node {
    pub level: u8,
    pub kind: Kind,
    pub cut: Way,
    pub area: Area,
    /// What the blade ate behind it.
    pub eaten: u32,
    pub children: Vec<usize>,
}

/// A part, or a free piece with an area: what the saw makes.
#[derive(Clone, Copy, Debug, PartialEq, Eq)]
pub struct Piece {
    /// Its place in the list of nodes.
    pub node: usize,
    /// The cut of its parent.
    pub across: Way,
    pub level: u8,
    /// Its part number; none of a free piece.
    pub part: Option<u16>,
    pub area: Area,
}

/// What the blade ate behind a node.
#[derive(Clone, Copy, Debug, PartialEq, Eq)]
pub struct Strip {
    /// The node's place in the list of nodes.
    pub node: usize,
    /// The cut of its parent.
    pub across: Way,
    pub area: Area,
}

/// What a sheet is filled with, by its place in the list of pieces or of strips.
#[derive(Clone, Copy, Debug, PartialEq, Eq)]
pub enum Tile {
    Piece(usize),
    Strip(usize),
}

/// A board that lies in the pile at some time: its area, and its tiles by their places, the first and the last.
#[derive(Clone, Copy, Debug, PartialEq, Eq)]
pub struct Board {
    pub area: Area,
    pub first: usize,
    pub last: usize,
    /// The piece that it is, by its place, if no cut takes it again.
    pub done: Option<usize>,
}

/// A cut, with the board that it takes, the one that it cuts off, what the blade eats behind that, and what is left, if something is.
#[derive(Clone, Copy, Debug, PartialEq, Eq)]
pub struct Cut {
    /// The board's place in the pile, from 0.
    pub place: usize,
    pub way: Way,
    pub distance: u32,
    pub eaten: u32,
    pub board: Board,
    pub off: Board,
    pub left: Option<Board>,
}

/// A sheet with its pieces, its strips and all its tiles in tree order, and its cuts in the order of the list; without a list, none.
#[derive(Debug)]
pub struct Sheet {
    pub nodes: Vec<Node>,
    pub pieces: Vec<Piece>,
    pub strips: Vec<Strip>,
    pub tiles: Vec<Tile>,
    pub cuts: Option<Vec<Cut>>,
}

/// The areas of a sheet, added up.
pub struct Areas {
    pub sheet: u64,
    pub panels: u64,
    pub offcuts: u64,
    pub eaten: u64,
}

impl Way {
    fn read(number: u8) -> Option<Self> {
        match number {
            0 => Some(Way::Horizontal),
            1 => Some(Way::Vertical),
            _ => None,
        }
    }

    /// Of two lengths, width and height, the one that a cut this way divides, and the other one.
    pub fn laid<T>(self, width: T, height: T) -> (T, T) {
        match self {
            Way::Horizontal => (height, width),
            Way::Vertical => (width, height),
        }
    }
}

impl Area {
    /// The part of it that begins so far along a cut this way and is so long there.
    fn slice(self, way: Way, begin: u32, length: u32) -> Self {
        match way {
            Way::Horizontal => Area { top: self.top + begin, height: length, ..self },
            Way::Vertical => Area { left: self.left + begin, width: length, ..self },
        }
    }

    /// How much it is.
    fn amount(self) -> u64 {
        u64::from(self.width) * u64::from(self.height)
    }
}

impl fmt::Display for Piece {
    fn fmt(&self, f: &mut fmt::Formatter) -> fmt::Result {
        match self.part {
            Some(number) => write!(f, "panel {number}"),
            None => f.write_str("offcut"),
        }
    }
}

impl Sheet {
    /// From the bytes of a snapshot, and of a list of cuts with what the blade eats with each. Where they are no sheet, what is wrong.
    pub fn new(snapshot: &[u8], list: Option<(&[u8], &[u8])>) -> Result<Self, Wrong> {
        let nodes = nodes(snapshot).map_err(Wrong::Snapshot)?;
        let mut sheet = Sheet { pieces: vec![], strips: vec![], tiles: vec![], cuts: None, nodes };
        sheet.fill();
        sheet.cuts = list.map(|(list, amounts)| cuts(&sheet, list, amounts)).transpose()?;
        Ok(sheet)
    }

    /// Puts the tiles of the tree where they belong, in its order.
    fn fill(&mut self) {
        // what is still to come: a node, under a cut, or the strip behind one
        let mut next: Vec<(usize, Option<Way>, bool)> = vec![(0, None, false)];
        while let Some((place, across, behind)) = next.pop() {
            let Node { level, kind, area, cut, eaten, .. } = self.nodes[place];
            match (across, kind) {
                (Some(across), _) if behind => {
                    let (length, _) = across.laid(area.width, area.height);
                    self.tiles.push(Tile::Strip(self.strips.len()));
                    self.strips.push(Strip { node: place, across, area: area.slice(across, length, eaten) });
                }
                (Some(across), Kind::Free | Kind::Part(_)) => {
                    let part = if let Kind::Part(number) = kind { Some(number) } else { None };
                    self.tiles.push(Tile::Piece(self.pieces.len()));
                    self.pieces.push(Piece { node: place, across, level, part, area });
                }
                _ => {
                    for child in self.nodes[place].children.iter().rev() {
                        if self.nodes[*child].eaten > 0 {
                            next.push((*child, Some(cut), true));
                        }
                        next.push((*child, Some(cut), false));
                    }
                }
            }
        }
    }

    pub fn width(&self) -> u32 {
        self.nodes[0].area.width
    }

    pub fn height(&self) -> u32 {
        self.nodes[0].area.height
    }

    /// What stands over a picture: its sides, and how many pieces and cuts there are.
    pub fn head(&self) -> String {
        let pieces = counted(self.pieces.len(), "piece");
        let cuts = match self.cuts.as_deref() {
            None => String::new(),
            Some([]) => ", no cut".into(),
            Some(cuts) => format!(", {}", counted(cuts.len(), "cut")),
        };
        format!("Sheet {} x {}: {pieces}{cuts}", self.width(), self.height())
    }

    /// The areas, where the blade eats something.
    pub fn areas(&self) -> Option<Areas> {
        let sum =
            |part: bool| self.pieces.iter().filter(|piece| piece.part.is_some() == part).map(|piece| piece.area.amount()).sum();
        (!self.strips.is_empty()).then(|| Areas {
            sheet: self.nodes[0].area.amount(),
            panels: sum(true),
            offcuts: sum(false),
            eaten: self.strips.iter().map(|strip| strip.area.amount()).sum(),
        })
    }

    /// Whether the row of children ends with this one and the strip behind it.
    pub fn ends(&self, node: &Node, child: usize) -> bool {
        node.children.last() == Some(&child) && self.nodes[child].eaten > 0
    }
}

impl Areas {
    /// What the blade eats, and what is left of it, in two sentences.
    pub fn said(&self) -> [String; 2] {
        let Areas { sheet, panels, offcuts, eaten } = self;
        [format!("Of the area {sheet} the saw takes {eaten}."), format!("Panels have {panels} of it, offcuts {offcuts}.")]
    }
}

/// What is no sheet: the snapshot, the list of cuts beside it, or the amounts of these.
#[derive(Debug)]
pub enum Wrong {
    Snapshot(String),
    Cuts(String),
    Amounts(String),
}

/// A number of things, in words.
pub fn counted(count: usize, what: &str) -> String {
    format!("{count} {what}{}", if count == 1 { "" } else { "s" })
}

fn four(bytes: &[u8]) -> u32 {
    bytes.iter().fold(0, |number, byte| number << 8 | u32::from(*byte))
}

/// The tree of a snapshot, examined: levels, kinds, cuts, sides, and that the children of each node tile it.
fn nodes(bytes: &[u8]) -> Result<Vec<Node>, String> {
    if bytes.is_empty() || bytes.len() % NODE != 0 || bytes.len() / NODE > MOST {
        return Err(format!("no tree snapshot: {}, and a node has {NODE}, of 2 to {MOST} nodes", counted(bytes.len(), "byte")));
    }
    let mut nodes: Vec<Node> = Vec::new();
    // the nodes from the top to the last one, how much of each is taken by its children, and what is eaten behind the last of these
    let mut path: Vec<(usize, u32, u32)> = Vec::new();
    for (place, bytes) in bytes.chunks(NODE).enumerate() {
        let wrong = |what: &str| format!("node {} of the tree snapshot {what}", place + 1);
        let mut node = node(bytes).map_err(wrong)?;
        let level = usize::from(node.level);
        if level > path.len() || (level == 0) != path.is_empty() {
            return Err(wrong("has a level that can't follow"));
        }
        close(&nodes, &mut path, level)?;
        if let Some((parent, taken, last)) = path.last_mut() {
            node.area = below(&nodes[*parent], &node, taken).map_err(wrong)?;
            *last = node.eaten;
            if node.area.width > 0 && node.area.height > 0 {
                nodes[*parent].children.push(place);
            }
        } else if node.kind != Kind::Structure {
            return Err(wrong("is the sheet itself, and no structure"));
        } else if node.eaten > 0 {
            return Err(wrong("is the sheet itself, and something is eaten behind it"));
        }
        nodes.push(node);
        path.push((place, 0, 0));
    }
    close(&nodes, &mut path, 0)?;
    Ok(nodes)
}

/// Takes the nodes from this level on off the path. Their children, and what is eaten between them, must fill them.
fn close(nodes: &[Node], path: &mut Vec<(usize, u32, u32)>, level: usize) -> Result<(), String> {
    while path.len() > level {
        let Some((place, taken, last)) = path.pop() else { break };
        let node = &nodes[place];
        let wrong = |what: &str| Err(format!("node {} of the tree snapshot {what}", place + 1));
        let (along, _) = node.cut.laid(node.area.width, node.area.height);
        if node.kind == Kind::Structure && taken != along {
            return wrong("has children that don't fill it");
        }
        if last > 0 {
            return wrong("has something eaten behind its last child");
        }
    }
    Ok(())
}

/// A node by itself, at the left upper corner.
fn node(bytes: &[u8]) -> Result<Node, &'static str> {
    let (number, width, height) = (four(&bytes[3..5]) as u16, four(&bytes[5..9]), four(&bytes[9..13]));
    let kind = match (bytes[1], number) {
        (0, 0) => Kind::Free,
        (1, number) => Kind::Part(number),
        (2, 0) => Kind::Structure,
        _ => return Err("has a kind that is not listed, or is no part and has a part number"),
    };
    let cut = Way::read(bytes[2]).ok_or("has a cut that is not listed")?;
    if width > LONGEST || height > LONGEST || kind != Kind::Free && (width == 0 || height == 0) {
        return Err("has a side outside the limits");
    }
    let eaten = u32::from(bytes[13]);
    if eaten > WIDEST || kind == Kind::Free && eaten > 0 {
        return Err("has more eaten behind it than a blade can");
    }
    Ok(Node { level: bytes[0], kind, cut, area: Area { left: 0, top: 0, width, height }, eaten, children: Vec::new() })
}

/// Where a child lies in its parent, behind what is taken; it is taken then, with what is eaten behind it.
fn below(parent: &Node, node: &Node, taken: &mut u32) -> Result<Area, &'static str> {
    if parent.kind != Kind::Structure {
        return Err("is in a piece that is no structure");
    }
    if node.cut == parent.cut {
        return Err("has the cut of its parent");
    }
    let (room, breadth) = parent.cut.laid(parent.area.width, parent.area.height);
    let (length, own) = parent.cut.laid(node.area.width, node.area.height);
    if own != breadth || length + node.eaten > room - *taken {
        return Err("doesn't fit into its parent");
    }
    let area = parent.area.slice(parent.cut, *taken, length);
    *taken += length + node.eaten;
    Ok(area)
}

/// A cut as it stands in a list: place, way, distance, what is said of the two boards; and what the blade eats with it.
struct Listed {
    place: usize,
    way: Way,
    distance: u32,
    said: [u8; 2],
    eaten: u32,
}

fn listed(bytes: &[u8], eaten: u8) -> Option<Listed> {
    let (said, way) = ([bytes[7], bytes[8]], Way::read(bytes[2])?);
    let (place, distance) = (four(&bytes[..2]) as usize, four(&bytes[3..7]));
    // what is cut off is never several
    (said[0] < 3 && said[1] < 4).then_some(Listed { place, way, distance, said, eaten: eaten.into() })
}

/// A cut that was made, and the boards by their places: the one that it took, the one that it cut off, and what is left, if something is.
struct Made {
    cut: Listed,
    board: usize,
    off: usize,
    left: Option<usize>,
}

/// A cut list, run by a simple saw: each cut finds its board and lies inside it, loses what is eaten, and the last pile is the pieces.
fn cuts(sheet: &Sheet, bytes: &[u8], amounts: &[u8]) -> Result<Vec<Cut>, Wrong> {
    if bytes.len() % CUT != 0 {
        return Err(Wrong::Cuts(format!("no list of saw cuts: {}, and a cut has {CUT}", counted(bytes.len(), "byte"))));
    }
    if amounts.len() != bytes.len() / CUT {
        let (amounts, cuts) = (counted(amounts.len(), "amount"), counted(bytes.len() / CUT, "cut"));
        return Err(Wrong::Amounts(format!("no amounts of the cuts: {amounts}, of {cuts}")));
    }
    // every board that ever lies in the pile, what is said of it, and the pile by places in that list
    let mut boards = vec![(sheet.nodes[0].area, 2)];
    let mut pile = vec![0];
    let mut made = Vec::new();
    for (number, (bytes, eaten)) in bytes.chunks(CUT).zip(amounts).enumerate() {
        let wrong = |what: &str| Wrong::Cuts(format!("cut {} {what}", number + 1));
        let cut = listed(bytes, *eaten).ok_or_else(|| wrong("has a way or a kind that is not listed"))?;
        let board = *pile.get(cut.place).ok_or_else(|| wrong("takes a board that is not there"))?;
        let (area, said) = boards[board];
        let (side, _) = cut.way.laid(area.width, area.height);
        if said < 2 {
            return Err(wrong("takes a board that is done"));
        }
        if cut.distance == 0 || cut.distance >= side {
            return Err(wrong("doesn't lie inside its board"));
        }
        let Some(rest) = (side - cut.distance).checked_sub(cut.eaten) else {
            return Err(Wrong::Amounts(format!("cut {} loses more than its board has", number + 1)));
        };
        if rest == 0 && cut.said[1] != 0 {
            return Err(wrong("leaves nothing, and says that it leaves something"));
        }
        let off = boards.len();
        boards.push((area.slice(cut.way, 0, cut.distance), cut.said[0]));
        let left = (rest > 0).then_some(off + 1);
        if left.is_some() {
            boards.push((area.slice(cut.way, cut.distance + cut.eaten, rest), cut.said[1]));
        }
        pile.splice(cut.place..=cut.place, [off].into_iter().chain(left));
        made.push(Made { cut, board, off, left });
    }
    same(&pile, &boards, &sheet.pieces).map_err(Wrong::Cuts)?;
    with_tiles(sheet, &made, &pile, &boards).map_err(Wrong::Cuts)
}

/// The last pile is the pieces: as many, the same sides at the same corners, and what was said of each.
fn same(pile: &[usize], boards: &[(Area, u8)], pieces: &[Piece]) -> Result<(), String> {
    if pile.len() != pieces.len() {
        return Err(format!(
            "the cuts make {}, and the tree has {}",
            counted(pile.len(), "board"),
            counted(pieces.len(), "piece")
        ));
    }
    for (number, (board, piece)) in pile.iter().zip(pieces).enumerate() {
        let (area, said) = boards[*board];
        let right = match said {
            0 => piece.part.is_none(),
            1 => piece.part.is_some(),
            said => said == 2,
        };
        if area != piece.area || !right {
            return Err(format!("board {} of the last pile isn't that piece of the tree", number + 1));
        }
    }
    Ok(())
}

/// The cuts with their boards, and these with their tiles: a board that is done is a piece, and a board that is cut has the tiles of what is cut off, the strip behind
/// that, and the tiles of what is left.
fn with_tiles(sheet: &Sheet, made: &[Made], pile: &[usize], areas: &[(Area, u8)]) -> Result<Vec<Cut>, String> {
    let mut boards: Vec<Board> = areas.iter().map(|(area, _)| Board { area: *area, first: 0, last: 0, done: None }).collect();
    let pieces = sheet.tiles.iter().enumerate().filter(|(_, tile)| matches!(tile, Tile::Piece(_)));
    for (number, (board, (place, _))) in pile.iter().zip(pieces).enumerate() {
        boards[*board] = Board { first: place, last: place, done: Some(number), ..boards[*board] };
    }
    for (number, Made { cut, board, off, left }) in made.iter().enumerate().rev() {
        let off = boards[*off];
        let strip = off.area.slice(cut.way, cut.distance, cut.eaten);
        let next = off.last + usize::from(cut.eaten > 0);
        let there = |place: usize| matches!(sheet.tiles.get(place), Some(Tile::Strip(at)) if sheet.strips[*at].area == strip);
        let follows = left.map_or(true, |left| boards[left].first == next + 1);
        if cut.eaten > 0 && !there(next) || !follows {
            return Err(format!("cut {} doesn't lose what the tree has behind that piece", number + 1));
        }
        boards[*board].first = off.first;
        boards[*board].last = left.map_or(next, |left| boards[left].last);
    }
    let cut = |Made { cut, board, off, left }: &Made| {
        let Listed { place, way, distance, eaten, .. } = *cut;
        Cut { place, way, distance, eaten, board: boards[*board], off: boards[*off], left: left.map(|left| boards[left]) }
    };
    Ok(made.iter().map(cut).collect())
}
