//! A kiosk's day: a customer is offered room and confirms; the next one walks away, and the sheet is put back; his old offer is refused, though the board is booked
//! again; one is told why not; in the evening the saw gets its list.
//!
//! `cargo run --example kiosk_day` prints examples/kiosk_day.out.

use std::error::Error;

use nickelgrove_kiosk::{Booking, Mark, Offer, Part, Refusal, Sheet, Turn, Way};

/// What the kiosk has promised to a customer: a part, in a free piece, in one of the ways that were offered.
#[derive(Clone, Copy)]
struct Promise {
    part: Part,
    piece: Mark,
    offer: Offer,
}

/// The first offer for the part; none where there is no room.
fn promise(sheet: &Sheet, part: Part) -> Result<Option<Promise>, Refusal> {
    let Some(piece) = sheet.room_light(part)? else { return Ok(None) };
    let offers = sheet.offers(piece, part)?;
    Ok(offers.first().map(|offer| Promise { part, piece, offer: *offer }))
}

/// Books what was promised.
fn book(sheet: &mut Sheet, promise: Promise) -> Result<Booking, Refusal> {
    sheet.insert(promise.piece, promise.part, promise.offer)
}

fn usage(sheet: &Sheet) -> Result<String, Refusal> {
    Ok(format!("{:.1} % of the sheet is booked", 100.0 * sheet.figures()?.sheet_usage))
}

fn main() -> Result<(), Box<dyn Error>> {
    // millimetres; the saw makes three cuts deep
    let mut sheet = Sheet::open(1, 2_800, 2_070, Way::Vertical, 3)?;
    println!("08:00 sheet 1 is on the saw, 2800 x 2070");

    let shelf = promise(&sheet, Part::new(11, 800, 300))?.ok_or("no room for a shelf")?;
    println!("09:10 Anna wants a shelf, 800 x 300: offered {:?}, {:?}", shelf.offer.rotation, shelf.offer.shape);
    let annas = book(&mut sheet, shelf)?;
    println!("09:12 Anna confirms: {}", usage(&sheet)?);

    // booked while he thinks, so that nobody else is promised the same board
    let door = promise(&sheet, Part::new(12, 600, 1_900).turned(Turn::Default))?.ok_or("no room for a door")?;
    sheet.keep()?;
    let bens = book(&mut sheet, door)?;
    println!("10:30 Ben looks at a door, 600 x 1900, and it is held for him: {}", usage(&sheet)?);
    sheet.restore()?;
    println!("10:40 Ben has walked away, and the sheet stands as it was: {}", usage(&sheet)?);

    let table = promise(&sheet, Part::new(13, 1_800, 900))?.ok_or("no room for a table")?;
    let carlas = book(&mut sheet, table)?;
    println!("11:00 Carla takes a table top, 1800 x 900: {}", usage(&sheet)?);
    // the table stands where Ben's door was held, under another serial
    let stale = sheet.remove(bens.part).expect_err("Ben's mark names nothing");
    println!("11:05 Ben comes back and wants his door off: {stale}");
    let stale = book(&mut sheet, door).expect_err("and neither does his offer");
    println!("11:06 Ben wants it booked after all: {stale}");

    let beam = Part::new(14, 2_900, 100).turned(Turn::Default);
    assert!(promise(&sheet, beam)?.is_none());
    println!("14:00 Dora wants a beam, 2900 x 100, and there is no room for it:");
    for piece in sheet.free_pieces()? {
        println!("      the free piece with serial {}: {}", piece.serial(), sheet.why_not(piece, beam)?.default);
    }

    let removal = sheet.remove(annas.part)?;
    println!("16:00 Anna has measured again; out come the parts {:?}: {}", removal.parts, usage(&sheet)?);
    let (before, count) = (sheet.figures()?.nodes, sheet.tidy()?);
    println!(
        "16:05 the sheet is tidied: {count} structure is taken out, and {} of {before} nodes are left",
        sheet.figures()?.nodes
    );

    assert!(sheet.removable()?.contains(&carlas.part));
    println!("18:00 the saw's list for the parts {:?}:", sheet.part_numbers()?);
    for cut in sheet.cuts()? {
        println!("      board {}: {:?} at {}, into {:?} and {:?}", cut.place, cut.way, cut.distance, cut.piece, cut.left);
    }
    Ok(())
}
