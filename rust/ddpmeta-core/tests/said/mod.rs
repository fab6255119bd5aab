//! What a refusal says: its number, in a panic or in an error.

use ddpmeta_core::error::{Error, Result};
use std::panic::{catch_unwind, AssertUnwindSafe};
use zelamodurk::Why;

/// The number in the message of a panic, which has the refusal's name too.
#[track_caller]
pub fn panics<T>(call: impl FnOnce() -> T) -> u8 {
    let Err(why) = catch_unwind(AssertUnwindSafe(call)) else {
        panic!("it answers");
    };
    let said = why.downcast_ref::<String>().unwrap();
    let number = number(said);
    let name = format!(" ({:?})", Why::of_number(number));
    assert!(said.ends_with(&name), "{said}");
    number
}

/// The number in the text of an error.
#[track_caller]
pub fn refuses<T>(done: Result<T>) -> u8 {
    match done {
        Ok(_) => panic!("it answers"),
        Err(Error::Truncated(said) | Error::Unsupported(said) | Error::Invalid(said)) => {
            number(&said)
        }
        Err(error) => panic!("{error}"),
    }
}

#[track_caller]
fn number(said: &str) -> u8 {
    let (_, rest) = said.split_once(": refused with ").unwrap();
    let (number, rest) = rest.split_once(" at bit ").unwrap();
    assert!(rest.contains(": "), "{said}");
    number.parse().unwrap()
}
