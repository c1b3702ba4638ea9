//! Values as texts, what a test makes of an error, and whether a text is the one that is wanted.
use crate::booking::{Booking, State};
use crate::guest::Guest;
use std::alloc::{AllocError, Global};
use std::process::Abort;

/// The guests in order, as `id name visits` each.
pub fn guests(alloc: Global, guests: &Vec<Guest>) -> Result<String, AllocError> {
    let mut text = String::new(alloc);
    for guest in guests {
        text.push_str(guest.id.as_str())?;
        text.push(' ')?;
        text.push_str(guest.name.as_str())?;
        text.push(' ')?;
        text.push_str(guest.visits.to_string(alloc)?.as_str())?;
        text.push(',')?;
    }
    Ok(text)
}

/// The bookings in order, as `room night guest` each, and what is paid after them.
pub fn bookings(alloc: Global, bookings: &Vec<Booking>) -> Result<String, AllocError> {
    let mut text = String::new(alloc);
    for booking in bookings {
        text.push_str(booking.room.as_str())?;
        text.push(' ')?;
        text.push_str(booking.night.to_string(alloc)?.as_str())?;
        text.push(' ')?;
        text.push_str(booking.guest_name.as_str())?;
        if let State::Paid { cents } = booking.state {
            text.push(' ')?;
            text.push_str(cents.to_string(alloc)?.as_str())?;
        }
        text.push(',')?;
    }
    Ok(text)
}

/// Fails the test with the text of the error, if there is one.
pub fn passes(rt: &impl Abort, done: anyhow::Result<()>) {
    if let Err(error) = done {
        assert!(rt; false, "{error}");
    }
}

/// Whether this is what is wanted, of which a `..` at the end stands for any text.
pub fn fits(said: &str, wanted: &str) -> bool {
    match wanted.strip_suffix("..") {
        Some(start) => said.starts_with(start),
        None => said == wanted,
    }
}
