//! The C boundary, and the only module with `unsafe`: the functions of `include/zelamodurk.h` and a
//! safe function over each.
//!
//! Each call is safe for the same reasons. The declarations are the header's and the core's, which a test
//! compares. A slice gives a pointer that is not null, also where it is empty, and its own length. Room
//! that is lent for writing is a local, a `&mut` slice or fields of a `&mut` struct, so it overlaps
//! nothing. The core keeps nothing between calls.
#![allow(unsafe_code)]

mod bytes;
#[cfg(feature = "cursor")]
mod elements;
#[cfg(feature = "cursor")]
mod slots;

pub use bytes::{
    bits_get, bits_range_eq, bits_range_zero, bits_set, crc16, crc16_zeros, crc_status, probe,
    repair,
};
#[cfg(feature = "cursor")]
pub use elements::{
    check_tiling, close_span, element_at, read_element, read_raw, read_tail, role_is_checksum,
    role_is_drc, role_is_span, span,
};
#[cfg(feature = "cursor")]
pub use slots::{
    aht, allocate, allocate_block, allocate_none, conventional, delta_code, read_delta,
    read_exponents,
};
