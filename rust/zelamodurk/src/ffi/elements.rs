//! The boundary of elements, their log and the tail. Each call is safe as the module above says.

use crate::frame::{Codec, UserBits};
use crate::refusal::{outcome, Refusal};
use crate::syntax::{Ask, Element, Place, Role, Span};

extern "C" {
    fn zela_role_is_drc(role: u32, is: *mut bool) -> u8;
    fn zela_role_is_checksum(role: u32, is: *mut bool) -> u8;
    fn zela_role_is_span(role: u32, is: *mut bool) -> u8;
    fn zela_read_element(
        frame: *const u8,
        frame_len: usize,
        log: *mut u32,
        log_words: usize,
        pos: *mut usize,
        limit: usize,
        block: i8,
        count: *mut usize,
        name: u32,
        role: u32,
        index: i16,
        width: usize,
        value: *mut u32,
        bit: *mut usize,
    ) -> u8;
    fn zela_read_raw(
        frame: *const u8,
        frame_len: usize,
        pos: *mut usize,
        limit: usize,
        width: usize,
        value: *mut u32,
        bit: *mut usize,
    ) -> u8;
    fn zela_span(
        frame: *const u8,
        frame_len: usize,
        log: *mut u32,
        log_words: usize,
        pos: *mut usize,
        limit: usize,
        block: i8,
        count: *mut usize,
        name: u32,
        role: u32,
        width: usize,
        bit: *mut usize,
    ) -> u8;
    fn zela_close_span(
        frame: *const u8,
        frame_len: usize,
        log: *mut u32,
        log_words: usize,
        pos: usize,
        limit: usize,
        block: i8,
        count: *mut usize,
        name: u32,
        role: u32,
        start: usize,
        bit: *mut usize,
    ) -> u8;
    fn zela_check_tiling(
        log: *const u32,
        log_words: usize,
        count: usize,
        total: usize,
        bit: *mut usize,
    ) -> u8;
    fn zela_element_at(
        log: *const u32,
        log_words: usize,
        count: usize,
        k: usize,
        name: *mut u32,
        role: *mut u32,
        block: *mut i8,
        index: *mut i16,
        pos: *mut u32,
        width: *mut u32,
        value: *mut u32,
        bit: *mut usize,
    ) -> u8;
    fn zela_read_tail(
        frame: *const u8,
        frame_len: usize,
        log: *mut u32,
        log_words: usize,
        pos: *mut usize,
        limit: usize,
        block: *mut i8,
        count: *mut usize,
        total: usize,
        eac3: bool,
        user_start: *mut usize,
        user_bits: *mut usize,
        bit: *mut usize,
    ) -> u8;
}

#[inline]
pub fn role_is_drc(role: Role) -> bool {
    let mut is = false;
    // SAFETY: as the module says. The answer is always 0: this function never refuses.
    unsafe { zela_role_is_drc(role.word(), &mut is) };
    is
}

#[inline]
pub fn role_is_checksum(role: Role) -> bool {
    let mut is = false;
    // SAFETY: as the module says. The answer is always 0: this function never refuses.
    unsafe { zela_role_is_checksum(role.word(), &mut is) };
    is
}

#[inline]
pub fn role_is_span(role: Role) -> bool {
    let mut is = false;
    // SAFETY: as the module says. The answer is always 0: this function never refuses.
    unsafe { zela_role_is_span(role.word(), &mut is) };
    is
}

#[inline]
pub fn read_element(
    frame: &[u8],
    log: &mut [u32],
    place: &mut Place,
    ask: &Ask,
) -> Result<u32, Refusal> {
    let (mut value, mut bit) = (0, 0);
    // SAFETY: as the module says.
    let number = unsafe {
        zela_read_element(
            frame.as_ptr(),
            frame.len(),
            log.as_mut_ptr(),
            log.len(),
            &mut place.pos,
            place.limit,
            place.block,
            &mut place.count,
            ask.name,
            ask.role.word(),
            ask.index,
            ask.width,
            &mut value,
            &mut bit,
        )
    };
    outcome(number, bit, value)
}

#[inline]
pub fn read_raw(frame: &[u8], pos: &mut usize, limit: usize, width: usize) -> Result<u32, Refusal> {
    let (mut value, mut bit) = (0, 0);
    // SAFETY: as the module says.
    let number = unsafe {
        zela_read_raw(
            frame.as_ptr(),
            frame.len(),
            pos,
            limit,
            width,
            &mut value,
            &mut bit,
        )
    };
    outcome(number, bit, value)
}

/// `zela_span` and `zela_close_span`, which take the position as room and as a number.
type Logs<P> = unsafe extern "C" fn(
    frame: *const u8,
    frame_len: usize,
    log: *mut u32,
    log_words: usize,
    pos: P,
    limit: usize,
    block: i8,
    count: *mut usize,
    name: u32,
    role: u32,
    last: usize,
    bit: *mut usize,
) -> u8;

/// # Safety
/// `pos` is what `logs` takes: room for the position that nothing else is lent, or a number.
#[inline]
unsafe fn logged<P>(logs: Logs<P>, at: Span, pos: P, last: usize) -> Result<(), Refusal> {
    let mut bit = 0;
    // SAFETY: as the module and this function say.
    let number = unsafe {
        logs(
            at.frame.as_ptr(),
            at.frame.len(),
            at.log.as_mut_ptr(),
            at.log.len(),
            pos,
            at.limit,
            at.block,
            at.count,
            at.name,
            at.role.word(),
            last,
            &mut bit,
        )
    };
    outcome(number, bit, ())
}

#[inline]
pub fn span(at: Span, pos: &mut usize, width: usize) -> Result<(), Refusal> {
    // SAFETY: it is room that is borrowed for this call alone.
    unsafe { logged(zela_span, at, pos, width) }
}

#[inline]
pub fn close_span(at: Span, pos: usize, start: usize) -> Result<(), Refusal> {
    // SAFETY: it is a number.
    unsafe { logged(zela_close_span, at, pos, start) }
}

#[inline]
pub fn check_tiling(log: &[u32], count: usize, total: usize) -> Result<(), Refusal> {
    let mut bit = 0;
    // SAFETY: as the module says.
    let number = unsafe { zela_check_tiling(log.as_ptr(), log.len(), count, total, &mut bit) };
    outcome(number, bit, ())
}

#[inline]
pub fn element_at(log: &[u32], count: usize, k: usize) -> Result<Element, Refusal> {
    let (mut name, mut role, mut block, mut index) = (0, 0, 0, 0);
    let (mut pos, mut width, mut value, mut bit) = (0, 0, 0, 0);
    // SAFETY: as the module says.
    let number = unsafe {
        zela_element_at(
            log.as_ptr(),
            log.len(),
            count,
            k,
            &mut name,
            &mut role,
            &mut block,
            &mut index,
            &mut pos,
            &mut width,
            &mut value,
            &mut bit,
        )
    };
    let element = Element {
        name,
        role: Role::of_word(role),
        block,
        index,
        pos,
        width,
        value,
    };
    outcome(number, bit, element)
}

#[inline]
pub fn read_tail(
    frame: &[u8],
    log: &mut [u32],
    place: &mut Place,
    total: usize,
    codec: Codec,
) -> Result<UserBits, Refusal> {
    let (mut start, mut width, mut bit) = (0, 0, 0);
    // SAFETY: as the module says.
    let number = unsafe {
        zela_read_tail(
            frame.as_ptr(),
            frame.len(),
            log.as_mut_ptr(),
            log.len(),
            &mut place.pos,
            place.limit,
            &mut place.block,
            &mut place.count,
            total,
            codec.is_eac3(),
            &mut start,
            &mut width,
            &mut bit,
        )
    };
    outcome(number, bit, UserBits { start, width })
}
