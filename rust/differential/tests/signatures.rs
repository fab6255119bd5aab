//! The drop-in core has the names, types and signatures of the Rust's modules: this compiles.
#![forbid(unsafe_code)]
#![cfg(oracle)]

/// Every public item of the seven modules by its type, every struct with all its fields, every enum with all
/// its cases. One text for both sides: what it takes in one it takes in the other.
macro_rules! signatures {
    ($named:ident, $side:ident) => {
        mod $named {
            #![allow(dead_code, clippy::too_many_arguments)]
            use $side::alloc::{Channel, DeltaSeg, Params};
            use $side::bits::Writer;
            use $side::blocks::{AllocState, ExpSet, Groups, SlotAlloc};
            use $side::error::{Error, Result};
            use $side::frame::{Codec, CrcStatus, Frame};
            use $side::syntax::{Cursor, Field, Role};
            use $side::{alloc, bits, blocks, crc, error, frame, syntax};

            const GET: fn(&[u8], usize, usize) -> u32 = bits::get;
            const SET: fn(&mut [u8], usize, usize, u32) = bits::set;
            const RANGE_EQ: fn(&[u8], usize, &[u8], usize, usize) -> bool = bits::range_eq;
            const RANGE_ZERO: fn(&[u8], usize, usize) -> bool = bits::range_zero;
            const WRITER: fn() -> Writer = Writer::new;
            const LEN: fn(&Writer) -> usize = Writer::len;
            const IS_EMPTY: fn(&Writer) -> bool = Writer::is_empty;
            const PUT: fn(&mut Writer, usize, u32) = Writer::put;
            const ZEROS: fn(&mut Writer, usize) = Writer::zeros;
            const COPY: fn(&mut Writer, &[u8], usize, usize) = Writer::copy;
            const INTO_BYTES: fn(Writer) -> Vec<u8> = Writer::into_bytes;

            const CRC16: fn(u16, &[u8]) -> u16 = crc::crc16;
            const FRAME_CRC_OK: fn(&[u8]) -> bool = crc::frame_crc_ok;
            const APPEND: fn(&mut Vec<u8>) = crc::append_frame_crc;

            const UNSUPPORTED: fn(&'static str) -> Result<u8> = error::unsupported::<u8>;
            const INVALID: fn(String) -> Result<u8> = error::invalid::<u8>;

            const IS_DRC: fn(Role) -> bool = Role::is_drc;
            const IS_CHECKSUM: fn(Role) -> bool = Role::is_checksum;
            const IS_SPAN: fn(Role) -> bool = Role::is_span;
            const END: fn(&Field) -> usize = Field::end;
            const CHECK: fn(&[Field], usize) -> Result<()> = syntax::check_contiguous;

            type Role16<'a> = fn(&mut Cursor<'a>, &'static str, Role, i16, usize) -> Result<u32>;
            fn cursor<'a>() -> (
                fn(&'a [u8], usize) -> Cursor<'a>,
                Role16<'a>,
                fn(&mut Cursor<'a>, &'static str, usize) -> Result<u32>,
                fn(&mut Cursor<'a>, &'static str, usize, usize) -> Result<u32>,
                fn(&mut Cursor<'a>, &'static str) -> Result<bool>,
                fn(&mut Cursor<'a>, &'static str, usize) -> Result<bool>,
                fn(&mut Cursor<'a>, &'static str, Role, usize) -> Result<()>,
                fn(&mut Cursor<'a>, &'static str, Role, usize),
                fn(&mut Cursor<'a>, usize, &str) -> Result<u32>,
            ) {
                (
                    Cursor::new,
                    Cursor::get_role,
                    Cursor::get,
                    Cursor::geti,
                    Cursor::flag,
                    Cursor::flagi,
                    Cursor::span,
                    Cursor::close_span,
                    Cursor::raw,
                )
            }

            const ALLOCATE: fn(&Channel<'_>, &Params, &[u8; 64]) -> Vec<u8> = alloc::allocate;

            const SLOTS: [usize; 3] = [blocks::CPL, blocks::LFE, blocks::SLOTS];
            type Exponents = fn(&mut Cursor<'_>, usize, u8, usize, usize) -> Result<ExpSet>;
            const READ_EXPONENTS: Exponents = blocks::read_exponents;
            const PARAMS: fn(&AllocState, usize) -> Result<Params> = AllocState::params;
            type Delta = fn(&mut AllocState, &mut Cursor<'_>, usize) -> Result<()>;
            const READ_DELTA: Delta = AllocState::read_delta;
            const DELTA_CODE: fn(&mut AllocState, usize, u32, bool) -> Result<()> =
                AllocState::delta_code;
            type Allocate = fn(&AllocState, usize, &[SlotAlloc<'_>]) -> Result<[Vec<u8>; 7]>;
            const ALLOCATE_BLOCK: Allocate = blocks::allocate_block;
            type Walk = fn(&mut Cursor<'_>, &[u8], usize, usize, &mut Groups) -> Result<()>;
            const CONVENTIONAL: Walk = blocks::conventional;
            const AHT: fn(&mut Cursor<'_>, &[u8], usize, usize) -> Result<usize> = blocks::aht;
            const REFUSE: fn(&str) -> Result<u8> = blocks::refuse::<u8>;

            const PROBE: fn(&[u8]) -> Result<(Codec, usize)> = frame::probe;
            const READ_TAIL: fn(&mut Cursor<'_>, usize, Codec) -> Result<()> = frame::read_tail;
            const FIVE_EIGHTHS: fn(usize) -> usize = frame::ac3_five_eighths_bits;
            const CRC_STATUS: fn(Codec, &[u8]) -> CrcStatus = frame::crc_status;
            const FIX_CRCS: fn(Codec, &mut [u8]) = frame::fix_crcs;
            const TOTAL_BITS: fn(&Frame) -> usize = Frame::total_bits;
            const FIND: fn(&Frame, Role, i8) -> Option<&Field> = Frame::find;
            const VALUE: fn(&Frame, Role, i8) -> Option<u32> = Frame::value;
            const AUX_PADDING: fn(&Frame) -> usize = Frame::aux_padding;
            fn lookups<'a>(frame: &'a Frame, name: &str) -> (Option<&'a Field>, usize) {
                (frame.named(name), frame.all(Role::Sync).count())
            }

            fn fields(frame: Frame) {
                for field in frame.fields {
                    let Field {
                        name: &_,
                        role: Role::Plain,
                        block: 0_i8,
                        index: 0_i16,
                        pos: 0_usize,
                        width: 0_usize,
                        value: 0_u32,
                    } = field
                    else {
                        return;
                    };
                }
            }

            fn taken_apart(cursor: Cursor<'_>) -> Cursor<'_> {
                let Cursor {
                    data,
                    pos,
                    limit,
                    fields,
                    block,
                } = cursor;
                Cursor {
                    data,
                    pos,
                    limit,
                    fields,
                    block,
                }
            }

            fn a_block() -> (AllocState, ExpSet) {
                let state = AllocState {
                    bai: Some([0_u8; 5]),
                    csnroffst: Some(0_u8),
                    fsnroffst: [0_u8; 7],
                    fgaincod: [0_u8; 7],
                    cplleak: Some((0_u8, 0_u8)),
                    delta: [const { Vec::<DeltaSeg>::new() }; 7],
                };
                let set = ExpSet {
                    exp: vec![0_i16],
                    start: 0,
                    end: 0,
                };
                (state, set)
            }

            fn a_slot(exps: &ExpSet) -> SlotAlloc<'_> {
                SlotAlloc {
                    slot: 0,
                    exps,
                    start: 0,
                    end: 0,
                    high_efficiency: true,
                }
            }

            fn a_channel<'a>(exp: &'a [i16], delta: &'a [DeltaSeg]) -> (Channel<'a>, Params) {
                let channel = Channel {
                    exp,
                    start: 0,
                    end: 0,
                    fgain: 0_i32,
                    snroffset: 0_i32,
                    leak: Some((0_i32, 0_i32)),
                    delta,
                };
                let params = Params {
                    sdecay: 0_i32,
                    fdecay: 0_i32,
                    sgain: 0_i32,
                    dbknee: 0_i32,
                    floor: 0_i32,
                    fscod: 0_usize,
                };
                (channel, params)
            }

            const SEGMENT: DeltaSeg = DeltaSeg {
                offset: 0_u8,
                len: 0_u8,
                ba: 0_u8,
            };
            const STATUS: CrcStatus = CrcStatus {
                crc1: Some(true),
                crc2: true,
            };

            fn cases(error: Error, codec: Codec, role: Role) -> (usize, u8, u8) {
                let said: String = match error {
                    Error::Truncated(said)
                    | Error::Unsupported(said)
                    | Error::Invalid(said)
                    | Error::NotSupportedYet(said)
                    | Error::Protected(said)
                    | Error::Io(said) => said,
                };
                let codec = match codec {
                    Codec::Ac3 => 0,
                    Codec::Eac3 => 1,
                };
                let programme: u8 = match role {
                    Role::Dialnorm(programme)
                    | Role::ComprExists(programme)
                    | Role::Compr(programme)
                    | Role::DynrngExists(programme)
                    | Role::Dynrng(programme) => programme,
                    Role::Plain
                    | Role::Sync
                    | Role::Crc1
                    | Role::Crc2
                    | Role::CrcRsv
                    | Role::FrameSize
                    | Role::Skiple
                    | Role::Skipl
                    | Role::Skipfld
                    | Role::Addbsi
                    | Role::Mantissas
                    | Role::AuxBits
                    | Role::AuxDataL
                    | Role::AuxDataE
                    | Role::BlkStrtInfoE
                    | Role::BlkStrtInfo => 0,
                };
                (said.len(), codec, programme)
            }

            /// What the traits that are derived are used for.
            fn derived() -> (Writer, ExpSet, AllocState, Groups) {
                fn all<T: Clone + std::fmt::Debug + PartialEq + Eq>() {}
                fn copied<T: Copy>() {}
                fn hashed<T: std::hash::Hash>() {}
                (
                    all::<Error>(),
                    all::<Role>(),
                    all::<Field>(),
                    all::<Params>(),
                );
                (all::<DeltaSeg>(), all::<Codec>(), all::<CrcStatus>());
                (copied::<Role>(), copied::<Params>(), copied::<DeltaSeg>());
                (copied::<Codec>(), copied::<CrcStatus>(), hashed::<Role>());
                let _: &dyn std::error::Error = &Error::Io(String::new());
                let (writer, set) = (Writer::default().clone(), ExpSet::default().clone());
                (
                    writer,
                    set,
                    AllocState::default().clone(),
                    Groups::default(),
                )
            }
        }
    };
}

signatures!(rusts, oracle);
signatures!(ours, parser);
