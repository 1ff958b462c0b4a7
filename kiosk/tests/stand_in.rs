//! An archive of another build is refused when a counter, a desk or a sheet is made, before anything is lent to it. The archive is tests/c/stand_in.c, which `kiosk/test` compiles
//! and links here; with the proved one there is nothing to see, so this is left out by `cargo test`.

use std::{env, panic};

use nickelgrove_kiosk::{Counter, Desk, Refusal, Sheet, Way};

/// What is said where one is made.
fn said(what: &str, made: fn()) -> String {
    let refused = panic::catch_unwind(made).err().unwrap_or_else(|| panic!("{what} was made"));
    refused.downcast_ref::<String>().expect("a message").clone()
}

fn open() -> Result<Sheet, Refusal> {
    Sheet::open(1, 100, 60, Way::Vertical, 3)
}

#[test]
#[ignore = "wants the stand-in archive: run kiosk/test"]
fn an_archive_of_another_build_is_refused() {
    for (other, message) in [
        ("limit", "the most nodes of a layout is 263 there, and 255 here"),
        ("longest", "the longest answer is 1043 there, and 1035 here"),
        ("desk_longest", "the longest answer of the desk is 7159 there, and 7151 here"),
        ("room", "the room for a list of saw cuts is 2303 there, and 2295 here"),
        ("session_bytes", "the size of a session is 18440 there, and 18432 here"),
    ] {
        env::set_var("NICKELGROVE_OTHER", other);
        let message = format!("libkiosk.a is of another build: {message}");
        assert_eq!(said("a counter", || drop(Counter::new())), message);
        assert_eq!(said("a desk", || drop(Desk::new())), message);
        assert_eq!(said("a sheet", || drop(open())), message);
    }
    // with this side's sizes it is taken
    env::remove_var("NICKELGROVE_OTHER");
    drop(Counter::new());
    // but what it answers can't be read: that is said, and is no sheet
    assert_eq!(open().err(), Some(Refusal::Unreadable));
    for request in [nickelgrove_kiosk::Request::Keep, nickelgrove_kiosk::Request::Tidy] {
        assert_eq!(Desk::new().ask(&request), Err(Refusal::Unreadable));
    }
}
