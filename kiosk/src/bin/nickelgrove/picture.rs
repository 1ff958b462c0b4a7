//! Where each piece of a sheet is drawn, and each strip that the blade eats, in whole units. A picture is to scale where it can be: a piece that is too narrow to be
//! seen or to carry its number is drawn wider, and its neighbours give way. So is a strip at the end of a row, which nothing but the number of its cut stands in;
//! other strips are to scale, be that nothing. The drawn pieces and strips tile the drawn sheet.

use crate::sheet::{Cut, Kind, Node, Piece, Sheet, Tile, Way};

/// The drawn longer side of a sheet, and the least that a side of it has.
const LONG: u64 = 1000;
const LEAST: u64 = 120;

/// So many pieces are few.
const FEW: usize = 20;

/// Where the sheet lies in the picture.
pub const LEFT: u64 = 40;
pub const TOP: u64 = 80;

/// A drawn rectangle.
#[derive(Clone, Copy, Debug, Default, PartialEq, Eq)]
pub struct Drawn {
    pub left: u64,
    pub top: u64,
    pub width: u64,
    pub height: u64,
}

/// The sizes of a picture's signs: all have the factor `k`.
#[derive(Clone, Copy, Debug)]
pub struct Signs {
    pub k: u64,
    /// The room that the cuts' numbers take at the start of a line.
    pub band: u64,
}

/// The least that each node is drawn with, and a strip at the end of a row along that.
pub struct Needs {
    pub nodes: Vec<(u64, u64)>,
    pub end: (u64, u64),
}

/// A picture: its signs, the sheet, the pieces and the strips where they are drawn, and whether some of them are drawn wider than to scale.
pub struct Picture {
    pub signs: Signs,
    pub sheet: Drawn,
    pub pieces: Vec<Drawn>,
    pub strips: Vec<Drawn>,
    pub bent: bool,
}

impl Drawn {
    pub fn right(self) -> u64 {
        self.left + self.width
    }

    pub fn bottom(self) -> u64 {
        self.top + self.height
    }

    fn slice(self, way: Way, begin: u64, length: u64) -> Self {
        match way {
            Way::Horizontal => Drawn { top: self.top + begin, height: length, ..self },
            Way::Vertical => Drawn { left: self.left + begin, width: length, ..self },
        }
    }
}

impl Signs {
    /// With this factor; and the least that is drawn.
    fn new(sheet: &Sheet, k: u64) -> (Self, Needs) {
        let band = k * (9 + (5 * digits(sheet.cuts.as_ref().map_or(0, Vec::len))).max(8));
        let (along, across) = (12 * k, band + k * (6 * digits(sheet.pieces.len()) + 2) + 5 * k);
        let least = |piece: &Piece| match piece.across {
            Way::Horizontal => (across, along),
            Way::Vertical => (along, across),
        };
        (Signs { k, band }, needs(sheet, (along, along), least))
    }
}

/// How many digits a number has.
pub fn digits(number: usize) -> u64 {
    number.to_string().len() as u64
}

impl Picture {
    /// To scale with large signs, if they find room. Else few pieces are stretched, so that the signs stay large; and many are drawn with small signs, to scale if
    /// these find room.
    pub fn new(sheet: &Sheet) -> Self {
        let few = sheet.pieces.len() <= FEW;
        let large = Picture::to_scale(sheet, 2).or_else(|| few.then(|| Picture::stretched(sheet, 2)));
        large.or_else(|| Picture::to_scale(sheet, 1)).unwrap_or_else(|| Picture::stretched(sheet, 1))
    }

    /// With signs of this size, where every piece has room for them.
    fn to_scale(sheet: &Sheet, k: u64) -> Option<Self> {
        let (signs, needs) = Signs::new(sheet, k);
        let (width, height) = sides(sheet);
        let drawn = Drawn { left: LEFT, top: TOP, width, height };
        let room = width >= needs.nodes[0].0.max(LEAST) && height >= needs.nodes[0].1.max(LEAST);
        let picture = room.then(|| Picture::with(sheet, signs, &needs, drawn))?;
        (!picture.bent).then_some(picture)
    }

    /// As large as its pieces need, and half as large as to scale besides, so that what is large still looks large.
    fn stretched(sheet: &Sheet, k: u64) -> Self {
        let (signs, needs) = Signs::new(sheet, k);
        let (width, height) = sides(sheet);
        let side = |side: u64, need: u64| side.max(need + side / 2).max(LEAST);
        let (least_width, least_height) = needs.nodes[0];
        let drawn = Drawn { left: LEFT, top: TOP, width: side(width, least_width), height: side(height, least_height) };
        Picture { bent: true, ..Picture::with(sheet, signs, &needs, drawn) }
    }

    fn with(sheet: &Sheet, signs: Signs, needs: &Needs, drawn: Drawn) -> Self {
        let mut bent = false;
        let (places, behind) = places(sheet, needs, drawn, &mut bent);
        let pieces = sheet.pieces.iter().map(|piece| places[piece.node]).collect();
        let strips = sheet.strips.iter().map(|strip| behind[strip.node]).collect();
        Picture { signs, sheet: drawn, pieces, strips, bent }
    }

    fn tile(&self, sheet: &Sheet, place: usize) -> Drawn {
        match sheet.tiles[place] {
            Tile::Piece(at) => self.pieces[at],
            Tile::Strip(at) => self.strips[at],
        }
    }

    /// Where the line of a cut lies, from edge to edge of its board and right behind what it cuts off: from here, and to there.
    pub fn line(&self, sheet: &Sheet, cut: &Cut) -> ((u64, u64), (u64, u64)) {
        let (first, last, off) =
            (self.tile(sheet, cut.board.first), self.tile(sheet, cut.board.last), self.tile(sheet, cut.off.last));
        match cut.way {
            Way::Horizontal => ((first.left, off.bottom()), (last.right(), off.bottom())),
            Way::Vertical => ((off.right(), first.top), (off.right(), last.bottom())),
        }
    }
}

/// The sheet's sides to scale.
fn sides(sheet: &Sheet) -> (u64, u64) {
    let (width, height) = (u64::from(sheet.width()), u64::from(sheet.height()));
    let to_scale = |side: u64| LONG * side / width.max(height);
    (to_scale(width), to_scale(height))
}

/// The least width and height of every node, from those of the pieces and of the strips at the ends of rows.
pub fn needs(sheet: &Sheet, end: (u64, u64), of_piece: impl Fn(&Piece) -> (u64, u64)) -> Needs {
    let mut needs = vec![(0, 0); sheet.nodes.len()];
    for piece in &sheet.pieces {
        needs[piece.node] = of_piece(piece);
    }
    // children come behind their parent
    for (place, node) in sheet.nodes.iter().enumerate().rev() {
        if node.kind == Kind::Structure {
            let ends = node.children.last().is_some_and(|child| sheet.ends(node, *child));
            let strip = if ends { node.cut.laid(end.0, end.1).0 } else { 0 };
            let children = node.children.iter().map(|child| needs[*child]);
            let (width, height) = children.fold((0, 0), |(width, height), (w, h)| match node.cut {
                Way::Horizontal => (width.max(w), height + h),
                Way::Vertical => (width + w, height.max(h)),
            });
            needs[place] = match node.cut {
                Way::Horizontal => (width, height + strip),
                Way::Vertical => (width + strip, height),
            };
        }
    }
    Needs { nodes: needs, end }
}

/// What stands along a node's cut: a child, or the strip behind it; its true length, and the least that it is drawn with.
pub struct Item {
    pub child: usize,
    pub strip: bool,
    pub size: u64,
    pub least: u64,
}

/// The children of a node and the strips behind them, in their order.
pub fn row(sheet: &Sheet, needs: &Needs, node: &Node) -> Vec<Item> {
    let along = |(width, height): (u64, u64)| node.cut.laid(width, height).0;
    let mut row = Vec::new();
    for child in &node.children {
        let Node { area, eaten, .. } = sheet.nodes[*child];
        let size = u64::from(node.cut.laid(area.width, area.height).0);
        row.push(Item { child: *child, strip: false, size, least: along(needs.nodes[*child]) });
        if eaten > 0 {
            let least = if sheet.ends(node, *child) { along(needs.end) } else { 0 };
            row.push(Item { child: *child, strip: true, size: eaten.into(), least });
        }
    }
    row
}

/// Where every node is drawn, within the sheet's rectangle, and the strip behind it.
fn places(sheet: &Sheet, needs: &Needs, drawn: Drawn, bent: &mut bool) -> (Vec<Drawn>, Vec<Drawn>) {
    let mut places = vec![Drawn::default(); sheet.nodes.len()];
    let mut behind = places.clone();
    places[0] = drawn;
    for (place, node) in sheet.nodes.iter().enumerate() {
        let own = places[place];
        let (length, _) = node.cut.laid(own.width, own.height);
        let row = row(sheet, needs, node);
        let lengths: Vec<(u64, u64)> = row.iter().map(|item| (item.size, item.least)).collect();
        let mut begin = 0;
        for (item, length) in row.iter().zip(share(length, &lengths, bent)) {
            let list = if item.strip { &mut behind } else { &mut places };
            list[item.child] = own.slice(node.cut, begin, length);
            begin += length;
        }
    }
    (places, behind)
}

/// Divides a drawn length among a row of true lengths, each with the least that it is drawn with; these add to at most the drawn length. To scale, but for those
/// that would get less than their least: they get that.
pub fn share(drawn: u64, row: &[(u64, u64)], bent: &mut bool) -> Vec<u64> {
    let mut shares: Vec<Option<u64>> = vec![None; row.len()];
    let (mut left, mut total) = (drawn, row.iter().map(|(size, _)| size).sum::<u64>());
    loop {
        let (before, of) = (left, total);
        for (share, (size, least)) in shares.iter_mut().zip(row) {
            if share.is_none() && size * before < least * of {
                *share = Some(*least);
                left = left.saturating_sub(*least);
                total -= size;
            }
        }
        if total == of {
            break;
        }
        *bent = true;
    }
    let mut sum = 0;
    let mut next = |size: u64| {
        let begin = sum * left / total;
        sum += size;
        sum * left / total - begin
    };
    shares.into_iter().zip(row).map(|(share, (size, _))| share.unwrap_or_else(|| next(*size))).collect()
}
