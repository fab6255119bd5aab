//! The command line as its users meet it: exactly what it writes and how it ends, on files that are made of
//! the samples, good ones and bad.
#![forbid(unsafe_code)]

mod batch;
mod bits;
mod check;
mod damage;
mod fix;
mod formats;
mod huge;
mod json;
mod kinds;
mod readme;
mod reseal;
mod room;
mod terminal;
mod usage;
