//! A session at the counter or the desk: the layout and the kept snapshot, and the answer to each line.
//!
//! The refusals, which the Rust does not have, are tested in document 01's order ("What a call says no with"), each op's as far as they concern it. At
//! the desk a line may also ask to tidy (document 02, change request 5); the desk's questions are not known here.

use crate::frame::{self, Mark, Offer, Opening, Part, Request};
use crate::marks::{LAST_SERIAL, PLACES};
use crate::sheet::Sheet;
use crate::tree::Piece;

/// The numbers of document 01's refusals.
pub mod refusal {
    pub const NOT_SOUND: u8 = 1;
    pub const OPENING: u8 = 2;
    pub const PART_SIDE: u8 = 3;
    pub const OTHER_LAYOUT: u8 = 4;
    pub const GONE: u8 = 5;
    pub const NOT_FREE: u8 = 6;
    pub const NOT_OFFERED: u8 = 7;
    pub const TABLE_FULL: u8 = 8;
    pub const SERIALS_SPENT: u8 = 9;
    pub const TOP: u8 = 10;
    pub const FREE_PIECE: u8 = 11;
}

type Outcome = Result<Vec<u8>, u8>;

#[derive(Default)]
pub struct Session {
    sheet: Option<Sheet>,
    kept: Option<Sheet>,
    /// Whether a line that asks to tidy is malformed, as it is at the counter.
    at_counter: bool,
}

/// What a line was read as, none if malformed, and how it was answered.
pub struct Reply {
    pub request: Option<Request>,
    pub answer: String,
}

impl Session {
    pub fn at_counter() -> Self {
        Session { at_counter: true, ..Session::default() }
    }

    /// The sheet on the table, if one was opened. Every opened sheet is sound.
    pub fn sheet(&self) -> Option<&Sheet> {
        self.sheet.as_ref()
    }

    /// Answers one line, given without its newline.
    pub fn answer(&mut self, line: &[u8]) -> Reply {
        let request = Request::read(line).filter(|request| !self.at_counter || *request != Request::Tidy);
        let answer = match &request {
            Some(request) => frame::answer(request.op(), &self.call(request)),
            None => frame::MALFORMED.to_string(),
        };
        Reply { request, answer }
    }

    fn call(&mut self, request: &Request) -> Outcome {
        match *request {
            Request::Open(opening) => self.open(opening),
            Request::Offers { mark, part } => self.offers(mark, &part),
            Request::Insert { mark, part, offer } => self.insert(mark, &part, offer),
            Request::Remove { mark } => self.remove(mark),
            Request::Keep => self.keep(),
            Request::Restore => self.restore(),
            Request::Report => self.report(),
            Request::Tidy => self.tidy(),
        }
    }

    fn opened(&self) -> Result<&Sheet, u8> {
        self.sheet.as_ref().ok_or(refusal::NOT_SOUND)
    }

    fn open(&mut self, opening: Opening) -> Outcome {
        if !opening.in_domain() {
            return Err(refusal::OPENING);
        }
        let sheet = Sheet::open(opening);
        let free = sheet.free_list()[0];
        self.sheet = Some(sheet);
        Ok(bytes_of(&[free]))
    }

    fn offers(&self, mark: Mark, part: &Part) -> Outcome {
        let sheet = self.opened()?;
        free_piece(sheet, mark, part)?;
        let offers = sheet.offers(mark, part);
        let mut given = vec![offers.len() as u8];
        given.extend(offers.iter().flat_map(|offer| [offer.rotation, offer.shape]));
        Ok(given)
    }

    fn insert(&mut self, mark: Mark, part: &Part, offer: Offer) -> Outcome {
        let sheet = self.opened()?;
        free_piece(sheet, mark, part)?;
        let new = sheet.nodes_made(mark, part, offer).ok_or(refusal::NOT_OFFERED)?;
        if sheet.held() - 1 + new > PLACES {
            return Err(refusal::TABLE_FULL);
        }
        serials_left(sheet, new)?;

        let inserted = self.sheet_mut().insert(mark, part, offer);
        let mut given = bytes_of(&[inserted.first, inserted.part]);
        given.push(inserted.free.len() as u8);
        given.extend(bytes_of(&inserted.free));
        Ok(given)
    }

    fn remove(&mut self, mark: Mark) -> Outcome {
        let sheet = self.opened()?;
        let piece = find(sheet, mark)?;
        if piece.level == 0 {
            return Err(refusal::TOP);
        }
        if piece.is_free() {
            return Err(refusal::FREE_PIECE);
        }
        serials_left(sheet, 1)?;

        let (free, numbers) = self.sheet_mut().remove(mark);
        let mut given = bytes_of(&[free]);
        given.push(numbers.len() as u8);
        given.extend(numbers.into_iter().flat_map(u16::to_be_bytes));
        Ok(given)
    }

    /// The whole is tidied on a copy first: where the serials don't last for all of it, nothing is changed.
    fn tidy(&mut self) -> Outcome {
        let sheet = self.opened()?;
        let mut tidied = sheet.clone();
        let count = tidied.tidy();
        serials_left(sheet, count)?;

        self.sheet = Some(tidied);
        Ok(u16::try_from(count).expect("no more than there are places").to_be_bytes().to_vec())
    }

    fn keep(&mut self) -> Outcome {
        self.kept = Some(self.opened()?.clone());
        Ok(Vec::new())
    }

    fn restore(&mut self) -> Outcome {
        let sheet = self.sheet.as_mut().ok_or(refusal::NOT_SOUND)?;
        let kept = self.kept.as_ref().ok_or(refusal::NOT_SOUND)?;
        if kept.number() != sheet.number() {
            return Err(refusal::OTHER_LAYOUT);
        }
        sheet.restore(kept);
        Ok(Vec::new())
    }

    fn report(&self) -> Outcome {
        let sheet = self.opened()?;
        let figures = sheet.figures();
        let mut given = figures.used_area.to_be_bytes().to_vec();
        given.push(sheet.held() as u8);
        given.extend(figures.sheet_usage.to_be_bytes());
        Ok(given)
    }

    /// The room light for a part: the piece that it names, if there is room; or the number of its refusal.
    pub fn light(&self, part: &Part) -> Result<Option<Mark>, u8> {
        let sheet = self.opened()?;
        if !part.in_domain() {
            return Err(refusal::PART_SIDE);
        }
        Ok(sheet.room_for(part))
    }

    pub fn sheet_mut(&mut self) -> &mut Sheet {
        self.sheet.as_mut().expect("tested before")
    }
}

/// The node that a mark names: refusals 4 and 5.
fn find(sheet: &Sheet, mark: Mark) -> Result<Piece, u8> {
    if mark.layout != sheet.number() {
        return Err(refusal::OTHER_LAYOUT);
    }
    sheet.find(mark).ok_or(refusal::GONE)
}

/// Whether a mark names a free piece for a part: refusals 3 to 6.
fn free_piece(sheet: &Sheet, mark: Mark, part: &Part) -> Result<(), u8> {
    if !part.in_domain() {
        return Err(refusal::PART_SIDE);
    }
    if !find(sheet, mark)?.is_free() {
        return Err(refusal::NOT_FREE);
    }
    Ok(())
}

fn serials_left(sheet: &Sheet, new: usize) -> Result<(), u8> {
    if sheet.last_serial() as usize + new > LAST_SERIAL as usize {
        return Err(refusal::SERIALS_SPENT);
    }
    Ok(())
}

pub fn bytes_of(marks: &[Mark]) -> Vec<u8> {
    let mut bytes = Vec::new();
    for mark in marks {
        mark.write(&mut bytes);
    }
    bytes
}
