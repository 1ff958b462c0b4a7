//! A board merchant's kiosk: room on a stock sheet is offered, booked, and put back on a timeout.
//!
//! All of it is the proved crate `kiosk`, linked as an archive: offers, bookings, removals, figures, the tree, the saw cuts, and that every call is answered.
//! Here are the memory of a session, the calls, and their types. Three types have calls:
//!
//! - [`Sheet`]: a stock sheet, with every call in Rust's types. Start here.
//! - [`Desk`]: the same by frames (docs/DESK.md), line in and line out, or as a [`Request`] and its [`Answer`].
//! - [`Counter`]: the frames of document 01 alone, and the list of saw cuts.
//!
//! ```
//! use nickelgrove_kiosk::{Part, Refusal, Sheet, Way};
//!
//! // sheet 1, 100 x 60, first cut vertical, three stages
//! let mut sheet = Sheet::open(1, 100, 60, Way::Vertical, 3)?;
//! let part = Part::new(7, 40, 60);
//! let free = sheet.room_light(part)?.expect("there is room on an empty sheet");
//! let offers = sheet.offers(free, part)?;
//! sheet.keep()?;
//! let booking = sheet.insert(free, part, offers[0])?;
//! assert_eq!(sheet.figures()?.sheet_usage, 0.4);
//! sheet.restore()?; // the customer has gone: the sheet stands as it was
//! assert_eq!(sheet.remove(booking.part), Err(Refusal::Gone));
//! # Ok::<(), Refusal>(())
//! ```
#![deny(unsafe_code)]
#![warn(missing_docs)]

#[cfg(test)]
#[path = "../tests/common/mod.rs"]
mod common;
#[cfg(test)]
extern crate self as nickelgrove_kiosk;

mod answer;
mod archive;
mod counter;
mod cuts;
mod desk;
mod nodes;
mod records;
mod refusal;
mod request;
mod sheet;
mod values;

pub use answer::Answer;
pub use counter::Counter;
pub use cuts::{Cut, ListedCut, Piece, Way};
pub use desk::Desk;
pub use nodes::{Kind, Node};
pub use refusal::Refusal;
pub use request::Request;
pub use sheet::Sheet;
pub use values::{Booking, Figures, Mark, Offer, Part, Reason, Reasons, Removal, Report, Rotation, Shape, Turn};
