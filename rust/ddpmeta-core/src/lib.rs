//! ddpmeta's core over the proved one: the modules `bits`, `crc`, `error`, `syntax`, `alloc`, `blocks` and
//! `frame` with the names, types and signatures of the Rust that Zelamodurk was ported from. A parser that
//! was written on those modules is compiled on these:
//!
//! ```text
//! pub use ddpmeta_core::{alloc, bits, blocks, crc, error, frame, syntax};
//! pub mod bitalloc_tables;
//! pub mod eac3;
//! pub mod tables;
//! ```
//!
//! The proved functions do the work; on this side stand the texts of names, the `Vec`s, and the other forms
//! of what they are handed and answer. Tables that only a parser needs stay with the parser. So do HEARING and
//! LOG_ADD, which the core is lent: the program hands them over once, before the first frame, by
//! [`lent::lend`]`(&tables::HEARING, &tables::LOG_ADD)`. Until then allocation is refused with 21.
//!
//! # Refusals
//!
//! An error is [`Truncated`](error::Error::Truncated) for refusal 1, [`Unsupported`](error::Error::Unsupported)
//! for 5, and [`Invalid`](error::Error::Invalid) for every other, as in the original. Its text has what was
//! asked for and the refusal: `dialnorm: refused with 1 at bit 45: ..`. The texts are not the original's, nor is
//! what `Display` writes before them.
//!
//! Where the original would panic or wrap, or document 01 refuses what it answers, a function that has a
//! `Result` refuses by it:
//!
//! | Function | Refused |
//! |---|---|
//! | `Cursor::get_role` and all reads, `raw` | 6: a width above 32 |
//! | all readers, `span`, the walks | 6: a limit past the data, or past 32,768 bits, where a read passes what is sound of it; 1: an end past every number |
//! | `check_contiguous`, `read_tail` | 6: more than 4,096 elements, or one past 32 bits |
//! | `read_tail` | 6: a total past the limit; 16: a cursor whose tail would end past every number; 19: no room for the tail among 4,096 elements |
//! | `read_exponents`, `read_delta`, `delta_code`, `allocate_block` | 6: a slot above 6 |
//! | `AllocState::params`, `allocate_block` | 11: a code past its table |
//! | `allocate_block` | 6: a slot asked for twice, a range past bin 253, more than 65,536 pointers; 8: an exponent outside 0 to 24; 11: more than 8 segments; 12: fewer exponents than the range has; 21: tables not lent, or unfit |
//! | `conventional`, `aht` | 6: a range that ends before its start, or past the codes or bin 256 |
//!
//! Where the signature has no `Result`, it panics, with the refusal's number, bit, words and name in the message:
//!
//! | Function | Panics |
//! |---|---|
//! | `bits::get`, `set`, `Writer::put` | 6: a width above 32 |
//! | `bits::get`, `set`, `range_eq`, `range_zero`, `Writer::copy` | 1: a range past its buffer, also one of width 0 |
//! | `Writer::zeros` | 6: a length past every number |
//! | `crc::append_frame_crc` | 20: under 2 bytes |
//! | `Field::end`, `Frame::total_bits`, `ac3_five_eighths_bits` | 6: past every number |
//! | `Cursor::close_span` | 6: a start past the cursor, or a cursor past its limit, or past what is sound of it |
//! | `alloc::allocate` | 6: a table that is neither of TS's two, a range past bin 253, more than 65,536 pointers; 8: an exponent outside 0 to 24, or not there; 11: a number that no code has, or more than 8 segments; 21: tables not lent, or unfit |
//! | `frame::crc_status`, `fix_crcs` | 20: a length that is odd, above 4,096, or below 8 in AC-3 and 4 in E-AC-3 |
//!
//! The last can come from a feed: `frame::probe` answers 2 bytes for an E-AC-3 header with frmsiz 0, as the
//! original does, whose `crc_status` then answers for no byte at all. A program tests that length before it asks.
//!
//! # What is not from the proved functions
//!
//! Since the core has no function for them:
//!
//! - `Writer`'s length, `Field::end`, `ac3_five_eighths_bits` and the lookups of [`frame::Frame`];
//! - which bytes `frame_crc_ok` and `append_frame_crc` run the checksum over;
//! - the parameters that `AllocState::params` decodes, the codes that `alloc::allocate` finds back from decoded
//!   numbers (both by document 01's code tables), and which of TS's two tables of pointers it was handed;
//! - how many pointers an allocation answers, and that a set covers no bin that it has no exponent for;
//! - what is sound of a cursor's limit, and that a read past that part is refused with 6.
//!
//! The [`Field`](syntax::Field) of an element that a parser reads is put together here, out of what the parser asks
//! for, the cursor's bit and the value that the core reads.
#![forbid(unsafe_code)]

pub mod alloc;
pub mod bits;
pub mod blocks;
pub mod crc;
pub mod error;
pub mod frame;
pub mod lent;
pub mod syntax;
