//! The Rust's own calls, with no frame, mark or refusal around them.

use std::hint::black_box;

use super::Side;
use crate::core::entities::layout::Layout;
use crate::core::entities::node::NodeKey;
use crate::core::entities::parttype::PartType;
use crate::core::entities::sheettype::SheetType;
use crate::core::insertion::insertion_blueprint::InsertionBlueprint;
use crate::core::insertion::insertion_option::InsertionOption;
use crate::core::orientation::Orientation;
use crate::frame::{Opening, Part, Request};
use crate::optimization::problem::Problem;
use crate::optimization::rr::cache_updates::IOCUpdates;
use crate::session::Session;
use crate::sheet::LEFTOVER_POWER;

/// What a frame asks of the Rust, with its keys in place of marks.
pub enum Call {
    Open(usize, &'static SheetType, Orientation),
    Offers(NodeKey, &'static PartType),
    Insert(InsertionBlueprint<'static>),
    Remove(NodeKey),
    Keep,
    Restore,
    Report,
}

pub struct Bare {
    problem: Option<Problem<'static>>,
    kept: Option<Layout<'static>>,
    blueprints: Vec<InsertionBlueprint<'static>>,
}

impl Bare {
    fn problem(&mut self) -> &mut Problem<'static> {
        self.problem.as_mut().expect("a sheet was opened")
    }
}

impl Side for Bare {
    const NAME: &'static str = "bare";
    const REFUSES: bool = false;
    type Step = Call;

    fn new() -> Self {
        Bare { problem: None, kept: None, blueprints: Vec::new() }
    }

    /// The call of a line that will be accepted. The keys are those of the model's layout: the same calls give the same keys.
    fn ready(model: &Session, line: &str) -> Option<Call> {
        let request = Request::read(line.as_bytes())?;
        if let Request::Open(Opening { layout, width, height, cut, stages, .. }) = request {
            let kind = SheetType::new(0, width.into(), height.into(), 0, None, stages);
            return Some(Call::Open(layout.into(), Box::leak(Box::new(kind)), cut));
        }
        let sheet = model.sheet()?.rust()?;
        let free = |mark, part: &Part| sheet.marks().find(mark).filter(|key| part.in_domain() && sheet.node(*key).is_empty());
        match request {
            Request::Offers { mark, part } => {
                let (piece, part) = (free(mark, &part)?, leaked(&part));
                // a fixed rotation that does not fit is no call of the Rust's
                (part.fixed_rotation().is_none() || !sheet.blueprints(piece, part).is_empty())
                    .then_some(Call::Offers(piece, part))
            }
            Request::Insert { mark, part, offer } => {
                let (piece, part) = (free(mark, &part)?, leaked(&part));
                let (_, blueprint) = sheet.blueprints(piece, part).into_iter().find(|(listed, _)| *listed == offer)?;
                Some(Call::Insert(blueprint))
            }
            Request::Remove { mark } => sheet.marks().find(mark).map(Call::Remove),
            Request::Keep => Some(Call::Keep),
            Request::Restore => Some(Call::Restore),
            Request::Report => Some(Call::Report),
            // the Rust has no such call
            Request::Open(_) | Request::Tidy => None,
        }
    }

    fn take(&mut self, call: &Call) {
        match call {
            Call::Open(number, kind, cut) => self.problem = Some(Problem::of(Layout::new(*number, kind, *cut, LEFTOVER_POWER))),
            Call::Offers(piece, part) => {
                let problem = self.problem.as_ref().expect("a sheet was opened");
                self.blueprints.clear();
                InsertionOption::new(problem.index(), *piece, part, part.fixed_rotation())
                    .append_blueprints(problem, &mut self.blueprints);
                black_box(&self.blueprints);
            }
            Call::Insert(blueprint) => {
                let problem = self.problem();
                let mut updates = IOCUpdates::new(problem.index(), *blueprint.original_node_index());
                problem.only_mut().implement_insertion_blueprint(blueprint, &mut updates);
                black_box(&updates);
            }
            Call::Remove(key) => drop(black_box(self.problem().only_mut().remove_node(*key))),
            Call::Keep => self.kept = Some(self.problem().only().clone()),
            Call::Restore => {
                let kept = self.kept.as_ref().expect("a sheet was kept");
                self.problem.as_mut().expect("a sheet was opened").only_mut().restore_from(kept);
            }
            Call::Report => {
                let layout = self.problem().only();
                black_box((layout.usage(), layout.nodes().len()));
            }
        }
    }
}

/// The Rust borrows its part types; this one stays for as long as the program runs.
fn leaked(part: &Part) -> &'static PartType {
    Box::leak(Box::new(part.parttype()))
}
