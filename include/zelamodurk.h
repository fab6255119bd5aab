/*
 * Zelamodurk: the proved core that reads AC-3 and E-AC-3 (ETSI TS 102 366 V1.4.1).
 *
 * C99, and C++11. Link libzelamodurk.a, which `./install PREFIX` puts in place. In the project's own folder it is two archives,
 * libcapi.a and libcapi_bytes.a, which `docs/archive` writes to target/staticlib/. The second has the functions of bits, crc,
 * probe and repair below, and is enough for those.
 *
 * THE CALLING CONVENTION, the same for every function here
 *
 *  - A function answers 0 where the call is taken, or the number of the refusal (enum zela_refusal).
 *  - What it finds goes into room that the caller lends: `value`, `is`, `bap`, `tags`, a set of exponents. Where the
 *    call is refused, that room holds 0 (false).
 *  - A function that can refuse has `bit` as its last argument: where the call is refused, the cursor's bit
 *    that the refusal carries, which is 0 where there is no cursor; where it is taken, 0.
 *    A function without `bit` never refuses.
 *  - So all such room is written by every call, and nothing of what stood in it is read. Room that is read and written,
 *    as a cursor's position, says so.
 *  - Bytes and states that a call may change (`uint8_t *bytes`, `struct zela_state *state`) are changed as the function
 *    says, and by a refused call not at all.
 *  - Bytes and words are lent as a pointer and then their number, an array whose size the prototype says as a
 *    pointer alone. A pointer is never NULL, also where the number is 0; what is lent to one call for writing
 *    overlaps nothing else that is lent to it.
 *  - Any bytes and any numbers may be handed in. Nothing is kept between calls, and nothing is allocated.
 *
 * "In this order": of several refusals that apply, the first named is given.
 */
#ifndef ZELAMODURK_H
#define ZELAMODURK_H

#include <stdbool.h>
#include <stddef.h>
#include <stdint.h>

#ifdef __cplusplus
extern "C" {
#endif

/* The refusal numbers. */
enum zela_refusal {
    ZELA_TAKEN = 0,
    ZELA_PAST_LIMIT = 1,         /* an element would pass the limit, or a bit range its buffer */
    ZELA_NO_SYNC = 2,            /* the first 16 bits aren't 0x0B77 */
    ZELA_SHORT_HEADER = 3,       /* probe gets under 6 bytes */
    ZELA_BAD_SIZE = 4,           /* AC-3 fscod 3, or frmsizecod above 37 */
    ZELA_BAD_BSID = 5,           /* bsid 9, 10, or above 16 */
    ZELA_BAD_ARGUMENT = 6,       /* slot, strategy, width, range, total, log count or group state is unfit */
    ZELA_GROUP_ABOVE = 7,        /* grouped exponent above 124 */
    ZELA_EXPONENT_OUTSIDE = 8,   /* exponent outside 0..24 */
    ZELA_SET_TOO_SHORT = 9,      /* exponent set shorter than its range */
    ZELA_NOT_SENT = 10,          /* csnroffst, the five parameters, or coupling leak used before sent */
    ZELA_CODE_PAST_TABLE = 11,   /* a side-information code is past its table */
    ZELA_NOT_COVERED = 12,       /* the exponent range doesn't cover the asked range */
    ZELA_POINTER_ABOVE = 13,     /* bap above 15 or hebap above 19 met on a walk */
    ZELA_GAIN_ABOVE = 14,        /* composite GAQ gain above 26 */
    ZELA_BAD_DELTA = 15,         /* deltbae 0 in block 0, or deltbae above 2 */
    ZELA_NO_ROOM_FOR_TAIL = 16,  /* total below position + 18 */
    ZELA_BAD_AUX = 17,           /* auxdatal overlaps audio, or exceeds auxbits */
    ZELA_NOT_TILED = 18,         /* the elements don't tile the frame */
    ZELA_LOG_FULL = 19,          /* the log is full */
    ZELA_BAD_LENGTH = 20,        /* frame length unfit for a CRC */
    ZELA_BAD_TABLES = 21         /* the lent tables are unfit */
};

/* ---- bits: most significant first; bit 0 is the top bit of byte 0 ---- */

/*
 * The n bits of bytes from bit pos on.
 * Refuses, in this order: 6 where n is above 32; 1 where pos + n passes the end of bytes (also where n is 0).
 * Taken: *value is the bits as a number below 2^n. Refused: *value is 0, *bit is 0.
 */
uint8_t zela_bits_get(const uint8_t *bytes, size_t bytes_len, size_t pos, size_t n, uint32_t *value, size_t *bit);

/*
 * Makes the n bits of bytes from bit pos on the low n bits of value.
 * Refuses, in this order: 6 where n is above 32; 1 where pos + n passes the end of bytes (also where n is 0).
 * Taken: no other bit of bytes is changed. Refused: no bit is, *bit is 0.
 */
uint8_t zela_bits_set(uint8_t *bytes, size_t bytes_len, size_t pos, size_t n, uint32_t value, size_t *bit);

/*
 * Whether the n bits of x from bit a on are those of y from bit b on. n may be any number.
 * Refuses: 1 where a + n passes the end of x, or b + n that of y.
 * Taken: *is says so. Refused: *is is false, *bit is 0.
 */
uint8_t zela_bits_range_eq(const uint8_t *x, size_t x_len, size_t a, const uint8_t *y, size_t y_len, size_t b,
                           size_t n, bool *is, size_t *bit);

/*
 * Whether the n bits of x from bit a on are all 0. n may be any number.
 * Refuses: 1 where a + n passes the end of x.
 * Taken: *is says so. Refused: *is is false, *bit is 0.
 */
uint8_t zela_bits_range_zero(const uint8_t *x, size_t x_len, size_t a, size_t n, bool *is, size_t *bit);

/* ---- crc: CRC-16 with the polynomial 0x8005, most significant bit first, no final inversion ---- */

/* The register after bytes, from the start value init. Never refuses: answers 0, and *value is the register. */
uint8_t zela_crc16(uint16_t init, const uint8_t *bytes, size_t bytes_len, uint16_t *value);

/* The register after n zero bytes, from the start value init. Never refuses: answers 0, and *value is the register. */
uint8_t zela_crc16_zeros(uint16_t init, size_t n, uint16_t *value);

/* ---- syntax: elements, the log, spans, tiling ---- */

/*
 * THE PLACE. A cursor over a frame's bytes is four numbers that the caller keeps: pos, its bit; limit, the bit that
 * nothing read may pass; block, the audio block (-1 outside); count, how many elements are logged. A call that reads
 * or logs moves *pos and *count where it is taken. Where it is refused, it leaves them as they were; one that reads
 * several elements leaves them after those that it read.
 * A place is sound where limit is at most 32,768 and at most 8 * frame_len; pos may be any number.
 *
 * THE LOG. Room of `log_words` words that the caller lends, eight to an element: name, role, block, index, position,
 * width, value, and one that is 0. Role is the role's number (enum zela_role) and 32 times its programme; block and
 * index are two's complement in 16 bits. At most 4,096 elements are taken, and no more than the words have room for.
 * A call changes the words of the elements that it logs, and no others.
 *
 * A role is handed over as its word. A number that no role has counts as ZELA_PLAIN, a programme is a byte.
 */
enum zela_role {
    ZELA_PLAIN = 0,
    ZELA_SYNC = 1,
    ZELA_CRC1 = 2,
    ZELA_CRC2 = 3,
    ZELA_CRCRSV = 4,         /* AC-3 crcrsv or E-AC-3 encinfo */
    ZELA_FRAME_SIZE = 5,
    ZELA_DIALNORM = 6,       /* carries its programme */
    ZELA_COMPR_EXISTS = 7,   /* carries its programme */
    ZELA_COMPR = 8,          /* carries its programme */
    ZELA_DYNRNG_EXISTS = 9,  /* carries its programme */
    ZELA_DYNRNG = 10,        /* carries its programme */
    ZELA_SKIPLE = 11,
    ZELA_SKIPL = 12,
    ZELA_SKIPFLD = 13,
    ZELA_ADDBSI = 14,
    ZELA_MANTISSAS = 15,
    ZELA_AUX_BITS = 16,
    ZELA_AUX_DATA_L = 17,
    ZELA_AUX_DATA_E = 18,
    ZELA_BLK_STRT_INFO_E = 19,
    ZELA_BLK_STRT_INFO = 20
};

/* Whether a role holds a gain word or its presence flag; a checksum over the frame; a span. Never refuse. */
uint8_t zela_role_is_drc(uint32_t role, bool *is);
uint8_t zela_role_is_checksum(uint32_t role, bool *is);
uint8_t zela_role_is_span(uint32_t role, bool *is);

/*
 * Reads one element of `width` bits at the cursor, and logs it.
 * Refuses, in this order: 6 where width is above 32, the place is not sound, or *count passes the log's room; 1 where
 * *pos + width passes the limit; 19 where the log is full. Each leaves the cursor before the element, *bit is *pos.
 * Taken: *value is the bits, *pos is width further, *count one more.
 */
uint8_t zela_read_element(const uint8_t *frame, size_t frame_len, uint32_t *log, size_t log_words, size_t *pos,
                          size_t limit, int8_t block, size_t *count, uint32_t name, uint32_t role, int16_t index,
                          size_t width, uint32_t *value, size_t *bit);

/*
 * Reads `width` bits at the cursor and logs nothing.
 * Refuses, in this order: 6 where width is above 32 or the place is not sound; 1 where *pos + width passes the limit.
 * *bit is *pos then. Taken: *value is the bits, *pos is width further.
 */
uint8_t zela_read_raw(const uint8_t *frame, size_t frame_len, size_t *pos, size_t limit, size_t width,
                      uint32_t *value, size_t *bit);

/*
 * Logs the next `width` bits, any number of them, as one element with index -1 and value 0.
 * Refuses, in this order: 6 where the place is not sound, or *count passes the log's room; 1 where *pos + width passes
 * the limit; 19 where the log is full. *bit is *pos then. Taken: *pos is width further, *count one more.
 */
uint8_t zela_span(const uint8_t *frame, size_t frame_len, uint32_t *log, size_t log_words, size_t *pos, size_t limit,
                  int8_t block, size_t *count, uint32_t name, uint32_t role, size_t width, size_t *bit);

/*
 * Logs the bits from `start` to the cursor, which stays, as one element with index -1 and value 0.
 * Refuses, in this order: 6 where the place is not sound, *count passes the log's room, start is past pos, or pos is
 * past the limit; 19 where the log is full. *bit is pos then. Taken: *count is one more.
 */
uint8_t zela_close_span(const uint8_t *frame, size_t frame_len, uint32_t *log, size_t log_words, size_t pos,
                        size_t limit, int8_t block, size_t *count, uint32_t name, uint32_t role, size_t start,
                        size_t *bit);

/*
 * Whether the first `count` elements of the log tile the bits below `total`: the first starts at 0, each other where the
 * one before it ends, and the last ends at total.
 * Refuses, in this order: 6 where count passes the log's room; 18 where they don't. *bit is 0 then.
 */
uint8_t zela_check_tiling(const uint32_t *log, size_t log_words, size_t count, size_t total, size_t *bit);

/*
 * Element k of a log of `count` elements.
 * Refuses: 6 where count passes the log's room, or k is not below count; all lent room is 0 then, *bit too.
 */
uint8_t zela_element_at(const uint32_t *log, size_t log_words, size_t count, size_t k, uint32_t *name, uint32_t *role,
                        int8_t *block, int16_t *index, uint32_t *pos, uint32_t *width, uint32_t *value, size_t *bit);

/* ---- alloc: bit allocation of one channel, TS 6.2.2 ---- */

/*
 * The pointers of a channel's 256 bins, from its exponents and its side information, not yet decoded.
 *
 * exponents   by bin; those from bin start up to bin end, which is not of the range, are looked at, and no others
 * codes       sdcycod, fdcycod, sgaincod, dbpbcod, floorcod, fgaincod, csnroffst, fsnroffst, fscod
 * has_leak    whether the channel begins with leaks, as the coupling channel does: cplfleak and cplsleak, which are
 *             not looked at otherwise; a leak not given is 0, 0 when decoded
 * segments    how many delta segments there are; of offset (deltoffst), length (deltlen) and ba (deltba) so many
 *             entries are looked at
 * high        pointers by the table of TS E.2.4.3.1 (hebap), else by that of TS 6.2.2.7 (bap)
 * hearing     the hearing threshold: 150 entries of 0 to 4095, 50 bands for each fscod
 * log_add     log addition: 256 entries of 0 to 64
 *
 * Refuses, in this order:
 * 21 where hearing or log_add has another number of entries, or an entry above its largest;
 * 11 where sdcycod, fdcycod, sgaincod or dbpbcod is above 3, floorcod or fgaincod above 7, csnroffst above 63,
 *    fsnroffst above 15, fscod above 2; with has_leak, cplfleak or cplsleak above 7; segments above 8, or of one of
 *    them the offset above 31, the length above 15, the ba above 7;
 * where end is at most start the range is empty, and the call is taken;
 * 6  where end is above 253;
 * 8  where an exponent of the range is above 24.
 * Taken: bap has the pointers of the range, and 0 outside it. Refused: bap is all 0, *bit is 0.
 */
uint8_t zela_allocate(const uint8_t exponents[256], size_t start, size_t end, const uint8_t codes[9], bool has_leak,
                      uint8_t cplfleak, uint8_t cplsleak, uint8_t segments, const uint8_t offset[8],
                      const uint8_t length[8], const uint8_t ba[8], bool high, const uint16_t *hearing,
                      size_t hearing_len, const uint8_t *log_add, size_t log_add_len, uint8_t bap[256], size_t *bit);

/* ---- exponents: the exponents of one channel, TS 6.1.3 ---- */

/*
 * Reads the exponents of a slot for the bins from start up to end, which is not of the range: the absolute exponent and
 * the groups, each of them an element that is logged.
 *
 * slot        0 to 4 the full bandwidth channels, 5 coupling, 6 LFE
 * strategy    1, 2 or 3: D15, D25, D45
 *
 * Refuses, in this order:
 * 6  where slot is above 6, strategy is not 1 to 3, start is not below end, or end is above 256;
 * then for each element what zela_read_element refuses, and of a group that has been read
 * 7  where it is above 124,
 * 8  where one of its three exponents is outside 0 to 24;
 * 9  last, where the exponents end before the range does.
 * Taken: exponents has all that were read, from bin 0 on or for coupling from start on, without those past bin 255; a bin
 * without one has 0. *exp_start is start, *exp_end is end.
 * Refused: exponents is all 0, *exp_start and *exp_end are 0; the elements that were read stay logged, *pos and *count are
 * after them, and *bit is that *pos.
 */
uint8_t zela_read_exponents(const uint8_t *frame, size_t frame_len, uint32_t *log, size_t log_words, size_t *pos,
                            size_t limit, int8_t block, size_t *count, uint8_t slot, uint8_t strategy, size_t start,
                            size_t end, uint8_t exponents[256], size_t *exp_start, size_t *exp_end, size_t *bit);

/* ---- walks: how far the mantissas of a channel reach, TS 6.3.5 ---- */

/*
 * Moves the cursor over the mantissas of the bins from start up to end, which is not of the range, by their codes in bap.
 * Reads no mantissa and logs nothing.
 *
 * g1, g2, g4  read and written: how many members the open groups of codes 1, 2 and 4 have. All channels of a block share
 *             them: they are 0 before its first walk, and each other walk takes what the one before it left
 *
 * Refuses, in this order: 6 where the place is not sound, end is before start or above 256, *g1 or *g2 is above 2, or *g4
 * above 1; then for each bin 13 where its code is above 15, 1 where its bits pass the limit.
 * Taken: *pos is after the last mantissa. Refused: *pos is before the mantissa that is refused, and *bit is that *pos; the
 * groups count the mantissas before it, and where it is refused with 1, that one too.
 */
uint8_t zela_conventional(const uint8_t *frame, size_t frame_len, size_t *pos, size_t limit, const uint8_t bap[256],
                          size_t start, size_t end, uint8_t *g1, uint8_t *g2, uint8_t *g4, size_t *bit);

/* ---- aht: the mantissas of a channel that uses AHT, TS E.2.4.2, E.2.4.4 ---- */

/*
 * Moves the cursor over a channel's mantissas of all six blocks in the bins from start up to end, which is not of the
 * range: gaqmod, the gain words, and the mantissas bin by bin, by their codes in hebap. Logs nothing.
 *
 * Refuses, in this order: 6 where the place is not sound, or end is before start or above 256; then where the walk stands
 * 1 where the next bits pass the limit, 14 where a composite gain that has been read is above 26, and among the bins 13
 * where a code is above 19.
 * Taken: *pos is after the last mantissa, *tags is how many tags of large mantissas were met. Refused: *pos is where the
 * walk ended, and *bit is that *pos; *tags is 0.
 */
uint8_t zela_aht(const uint8_t *frame, size_t frame_len, size_t *pos, size_t limit, const uint8_t hebap[256],
                 size_t start, size_t end, size_t *tags, size_t *bit);

/* ---- blocks: side information carried from block to block, and the allocation of a block, TS 6.2.2 ---- */

/*
 * THE STATE. The side information that a frame's blocks carry on, by its names in TS and not yet decoded; a caller keeps
 * one for each frame. Beside what may be unsent stands whether it was sent, 0 where not: bai_sent for the five codes after
 * it, csnroffst_sent, and cplleak_sent for cplfleak and cplsleak. What stands for each slot stands in the slots' order: 0
 * to 4 the full bandwidth channels, 5 coupling, 6 LFE.
 */
struct zela_delta {
    uint8_t count;     /* how many segments there are: the first so many of each array */
    uint8_t offset[8]; /* deltoffst */
    uint8_t len[8];    /* deltlen */
    uint8_t ba[8];     /* deltba */
};

struct zela_state {
    uint8_t bai_sent;
    uint8_t sdcycod;
    uint8_t fdcycod;
    uint8_t sgaincod;
    uint8_t dbpbcod;
    uint8_t floorcod;
    uint8_t csnroffst_sent;
    uint8_t csnroffst;
    uint8_t fsnroffst[7];
    uint8_t fgaincod[7];
    uint8_t cplleak_sent;
    uint8_t cplfleak;
    uint8_t cplsleak;
    struct zela_delta delta[7];
};

/* The core reads a state as 200 bytes. */
#ifdef __cplusplus
static_assert(sizeof(struct zela_state) == 200, "struct zela_state has 200 bytes");
#else
typedef char zela_state_has_200_bytes[sizeof(struct zela_state) == 200 ? 1 : -1];
#endif

/*
 * Takes a slot's deltbae code: 2 ends its segments, 0 and 1 leave them. The state is read and written.
 * Refuses, in this order: 6 where slot is above 6; 15 where code is above 2, or 0 with block0, since block 0 has nothing to
 * keep. *bit is 0 then.
 * Taken: with code 2, the slot's delta is all 0; nothing else of the state is changed. Refused: nothing is.
 */
uint8_t zela_delta_code(struct zela_state *state, size_t slot, uint32_t code, bool block0, size_t *bit);

/*
 * Reads a slot's segments, deltnseg and one segment more than it says, each of the numbers an element that is logged. The
 * state is read and written.
 * Refuses, in this order: 6 where slot is above 6; then for each element what zela_read_element refuses.
 * Taken: the slot's delta has the segments, and 0 after them; nothing else of the state is changed.
 * Refused: nothing of the state is changed; the elements that were read stay logged, *pos and *count are after them, and
 * *bit is that *pos.
 */
uint8_t zela_read_delta(const uint8_t *frame, size_t frame_len, uint32_t *log, size_t log_words, size_t *pos,
                        size_t limit, int8_t block, size_t *count, struct zela_state *state, size_t slot, size_t *bit);

/*
 * The pointers of a block's slots.
 *
 * present     for each slot, whether it is there; of one that is not, the exponents and ranges are not looked at
 * high        for each slot, pointers by the table of TS E.2.4.3.1 (hebap), else by that of TS 6.2.2.7 (bap)
 * exponents   256 for each slot, slot by slot, by bin
 * ranges      for each slot four bins: start and end of the range that its exponents were read for, and start and end of
 *             the range asked for
 * hearing, log_add   as for zela_allocate
 *
 * Refuses, in this order:
 * 21 where hearing or log_add is unfit, as for zela_allocate;
 * 11 where, of what was sent, sdcycod, fdcycod, sgaincod or dbpbcod is above 3, floorcod above 7, csnroffst above 63,
 *    cplfleak or cplsleak above 7; where of any slot, there or not, fgaincod is above 7, fsnroffst above 15, its count of
 *    segments above 8, or of one of them the offset above 31, the len above 15, the ba above 7; or where fscod is above 2;
 * 10 where csnroffst was not sent, then where the five codes were not;
 * where csnroffst and the fsnroffst of every slot that is there are 0, the call is taken, and bap is all 0;
 * then for each slot that is there
 * 12 where the range of its exponents does not cover the range asked for,
 * 10 where it is coupling, and the leak was not sent,
 * where end is at most start its range is empty, and the next slot follows,
 * 6  where end is above 253,
 * 8  where an exponent of the range is above 24.
 * Taken: bap has 256 pointers for each slot, slot by slot: 0 outside its range, and all 0 where it is not there. The
 * segments of LFE are not applied. Refused: bap is all 0, *bit is 0.
 */
uint8_t zela_allocate_block(const struct zela_state *state, uint8_t fscod, const bool present[7], const bool high[7],
                            const uint8_t exponents[1792], const size_t ranges[28], const uint16_t *hearing,
                            size_t hearing_len, const uint8_t *log_add, size_t log_add_len, uint8_t bap[1792],
                            size_t *bit);

/* ---- probe: which syntax a frame has, and how long it is ---- */

/*
 * The syntax and the length of the frame that begins with these bytes; the rest of it need not be there.
 * Refuses, in this order: 3 where frame_len is under 6; 2 where the first 16 bits aren't 0x0B77; 5 where bsid is 9, 10, or
 * above 16; 4 where bsid is at most 8, and fscod is 3 or frmsizecod above 37.
 * Taken: *eac3 says whether it is E-AC-3, else it is AC-3; *bytes is its length. Refused: *eac3 is false, *bytes and *bit
 * are 0.
 */
uint8_t zela_probe(const uint8_t *frame, size_t frame_len, bool *eac3, size_t *bytes, size_t *bit);

/* ---- frame: the tail, TS 4.3.4, 4.3.5, E.1.2.5, E.1.2.6 ---- */

/*
 * Reads the tail of a frame of `total` bits from the end of its audio on: auxbits, auxdatal where auxdatae is 1,
 * auxdatae, the reserved bit and crc2, each of them an element that is logged. Then the elements of the log must tile the
 * frame.
 *
 * block       read and written: a tail stands outside of any block
 * eac3        whether the frame is E-AC-3, whose reserved bit has another name
 *
 * Refuses, in this order:
 * 6  where total is above limit, the place is not sound, or *count passes the log's room;
 * 16 where total is below *pos + 18;
 * 17 where auxdatae is 1, and auxdatal would begin before *pos;
 * then for each element 19 where the log is full, and after auxdatal
 * 17 where it is above the width of auxbits;
 * 18 last, where the elements don't tile the bits below total.
 * Taken: the user bits are the first of auxbits, *user_bits of them from *user_start on, none where auxdatae is 0. *pos is
 * total, *block is -1.
 * Refused: *user_start and *user_bits are 0, *bit is *pos. With 6, 16 and the first 17 nothing is logged, and the cursor is
 * as it was. After those *block is -1; the elements that were read stay logged, and *pos and *count are after them.
 */
uint8_t zela_read_tail(const uint8_t *frame, size_t frame_len, uint32_t *log, size_t log_words, size_t *pos,
                       size_t limit, int8_t *block, size_t *count, size_t total, bool eac3, size_t *user_start,
                       size_t *user_bits, size_t *bit);

/* ---- repair: the checksums of a frame, TS 4.4.5.1, 6.10.1 ---- */

/*
 * Which checksums of a frame are good. With eac3 it is an E-AC-3 frame, which has no crc1.
 * Refuses: 20 where frame_len is odd, above 4,096, or below 8 (4 with eac3).
 * Taken: *crc1 says whether the CRC of bytes 2 up to the 5/8 point is 0, and is false with eac3; *crc2 says whether that
 * of bytes 2 up to the end is 0. Refused: both are false, *bit is 0.
 */
uint8_t zela_crc_status(const uint8_t *frame, size_t frame_len, bool eac3, bool *crc1, bool *crc2, size_t *bit);

/*
 * Makes the checksums of a frame good: sets bytes 2 and 3, which are crc1 and stay with eac3, and then the last two, which
 * are crc2. Where crc2 would be 0x0B77 without eac3, the low bit of the byte before it is turned over, and crc2 is 0x8B72.
 * Refuses: 20 where frame_len is odd, above 4,096, or below 8 (4 with eac3).
 * Taken: no other bit of frame is changed. Refused: no bit is, *bit is 0.
 */
uint8_t zela_repair(uint8_t *frame, size_t frame_len, bool eac3, size_t *bit);

#ifdef __cplusplus
}
#endif

#endif
