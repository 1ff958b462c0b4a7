//! Sheets with a given number of nodes, each reached by frames, and the calls that are timed on them.

use crate::core::orientation::Orientation;
use crate::frame::{self, Mark, Offer, Opening, Part, Request};
use crate::rng::Rng;
use crate::session::Session;
use crate::sheet;
use crate::tree::{Node, Piece, PART, STRUCTURE};

/// A sheet that takes some hundred columns of parts, and the stages of an ordinary saw.
const OPENING: Opening = Opening { layout: 1, width: 60_000, height: 40_000, cut: Orientation::Vertical, stages: 6, blade: 0 };

/// A part that leaves most of a great piece, and gets all four offers there.
const SMALL: Part = Part { number: 7, width: 300, height: 5_000, turn: 0 };

/// A call to be timed, and whether it changes the sheet.
pub struct Op {
    pub name: &'static str,
    pub request: Request,
    pub changes: bool,
}

/// A sheet as it was reached and kept.
pub struct Sheet {
    model: Session,
    lines: Vec<String>,
    ops: Vec<Op>,
}

impl Sheet {
    /// Columns of parts beside each other, as an ordinary cutting plan has them; some parts were taken out on the way.
    pub fn of(nodes: usize) -> Self {
        let mut sheet = Sheet { model: Session::default(), lines: Vec::new(), ops: Vec::new() };
        let mut rng = Rng::new(nodes as u64);
        sheet.send(Request::Open(OPENING));
        while sheet.nodes() < nodes {
            if nodes > 10 && rng.chance(10) {
                sheet.remove_some_part(&mut rng);
            } else {
                sheet.book(&mut rng, nodes - sheet.nodes());
            }
        }
        sheet.book_and_take_out();
        sheet.send(Request::Keep);
        sheet.ops = sheet.all_ops();
        sheet
    }

    pub fn nodes(&self) -> usize {
        self.sheet().held()
    }

    pub fn model(&self) -> &Session {
        &self.model
    }

    /// The frames that reach it.
    pub fn lines(&self) -> &[String] {
        &self.lines
    }

    pub fn ops(&self) -> &[Op] {
        &self.ops
    }

    /// The frames that reach it, and then those of each call, with its restore.
    pub fn all_lines(&self) -> Vec<String> {
        let requests = self.ops.iter().flat_map(|op| [op.request, Request::Restore]);
        self.lines.iter().cloned().chain(requests.map(|request| frame::line(request.bytes()))).collect()
    }

    fn sheet(&self) -> &sheet::Sheet {
        self.model.sheet().expect("a sheet was opened")
    }

    fn send(&mut self, request: Request) {
        let line = frame::line(request.bytes());
        let answer = self.model.answer(line.as_bytes()).answer;
        assert_eq!(&answer[2..4], "00", "a call that is accepted");
        self.lines.push(line);
    }

    /// Books a part, with at most so many nodes more than before: a new column, or something in one that is there.
    fn book(&mut self, rng: &mut Rng, more: usize) {
        let sheet = self.sheet();
        let top_piece = self.top_piece();
        let piece = if rng.chance(40) { top_piece } else { rng.pick(&sheet.free_pieces()) };
        let (width, height) = (piece.width, piece.height);
        let mut sides = [rng.between(200, 400), rng.between(2_000, 8_000)];
        if piece != top_piece {
            sides = [width, height].map(|side| rng.between(1, side.max(1)));
            match rng.between(0, 2) {
                0 => sides[0] = width.max(1),
                1 => sides[1] = height.max(1),
                _ => {}
            }
        } else if more < 3 {
            sides[1] = height;
        }
        let part = Part { number: rng.between(0, 999) as u16, width: sides[0], height: sides[1], turn: 1 };
        // a shape adds as many nodes as its number says; across the first piece would leave no room beside the columns
        let fits = |offer: &Offer| usize::from(offer.shape) <= more && (piece != top_piece || offer.shape % 2 == 1);
        let offers: Vec<Offer> = sheet.offers(piece.mark, &part).into_iter().filter(fits).collect();
        if !offers.is_empty() {
            let offer = rng.pick(&offers);
            self.send(Request::Insert { mark: piece.mark, part, offer });
        }
    }

    /// Leaves the tree as it is, and room in the Rust's arena: a booking that is timed then takes no time for a larger one.
    fn book_and_take_out(&mut self) {
        let mark = self.top_piece().mark;
        self.send(Request::Insert { mark, part: SMALL, offer: Offer { rotation: 0, shape: 4 } });
        let column = self.last_at_top();
        self.send(Request::Remove { mark: column.mark });
    }

    fn remove_some_part(&mut self, rng: &mut Rng) {
        let parts = self.parts();
        if !parts.is_empty() {
            let mark = rng.pick(&parts);
            self.send(Request::Remove { mark });
        }
    }

    /// The free piece beside the columns.
    fn top_piece(&self) -> Piece {
        Some(self.last_at_top()).filter(Piece::is_free).expect("room beside the columns")
    }

    fn last_at_top(&self) -> Piece {
        self.sheet().tree().children.last().expect("the top has a child").piece
    }

    /// By place.
    fn parts(&self) -> Vec<Mark> {
        let tree = self.sheet().tree();
        let parts = tree.in_order().into_iter().filter(|node| node.piece.kind == PART);
        let mut marks: Vec<Mark> = parts.map(|node| node.piece.mark).collect();
        marks.sort_by_key(|mark| mark.place);
        marks
    }

    /// The column whose number of nodes is nearest to six, that of the lowest place.
    fn column(&self) -> Mark {
        let tree = self.sheet().tree();
        let columns = tree.children.iter().filter(|node| node.piece.kind == STRUCTURE);
        let nearness = |node: &&Node| (node.in_order().len().abs_diff(6), node.piece.mark.place);
        columns.min_by_key(nearness).expect("a column").piece.mark
    }

    fn all_ops(&self) -> Vec<Op> {
        let Piece { mark, width, height, .. } = self.top_piece();
        let insert = |part, shape| Request::Insert { mark, part, offer: Offer { rotation: 0, shape } };
        let parts = self.parts();
        let still = |name, request| Op { name, request, changes: false };
        let changing = |name, request| Op { name, request, changes: true };
        vec![
            still("offers", Request::Offers { mark, part: SMALL }),
            changing("insert, AlongCurrentCut", insert(Part { height, ..SMALL }, 1)),
            changing("insert, AcrossCurrentCut", insert(Part { width, ..SMALL }, 2)),
            changing("insert, AlongThenAcross", insert(SMALL, 3)),
            changing("insert, AcrossThenAlong", insert(SMALL, 4)),
            changing("remove a part", Request::Remove { mark: parts[parts.len() / 2] }),
            changing("remove a structure", Request::Remove { mark: self.column() }),
            still("keep", Request::Keep),
            still("restore", Request::Restore),
            still("report", Request::Report),
        ]
    }
}
