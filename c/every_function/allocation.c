/* Allocation of a channel and of a block, and the side information that a block carries. */
#include "every_function.h"
#include <string.h>

/* ---- one channel, with one thing of what it is given unfit ---- */

enum { BINS = 256, SLOTS = 7, CODES = 9, SEGMENTS = 8, HEARING = 150, LOG_ADD = 256 };

struct channel {
    uint8_t exponents[BINS];
    size_t start, end;
    uint8_t codes[CODES];
    bool has_leak;
    uint8_t cplfleak, cplsleak, segments;
    uint8_t offset[SEGMENTS], length[SEGMENTS], ba[SEGMENTS];
};

struct tables {
    uint16_t hearing[HEARING];
    size_t hearing_len;
    uint8_t log_add[LOG_ADD];
    size_t log_add_len;
};

/* The highest csnroffst and fsnroffst, so that every pointer is the largest. */
static const struct channel good_channel = {.start = 2, .end = 200, .codes = {0, 0, 0, 0, 0, 0, 63, 15, 0}};
static const struct tables good_tables = {.hearing_len = HEARING, .log_add_len = LOG_ADD};

static struct channel channel;
static struct tables tables;

static void good(void) {
    channel = good_channel;
    tables = good_tables;
}

static void allocate(uint8_t number, uint8_t pointer) {
    function = "zela_allocate";
    lend_nothing();
    const uint8_t *exponents = READ(channel.exponents), *codes = READ(channel.codes);
    const uint8_t *offset = READ(channel.offset), *length = READ(channel.length), *ba = READ(channel.ba);
    const uint16_t *hearing = READ(tables.hearing);
    const uint8_t *log_add = READ(tables.log_add);
    uint8_t *bap = lend(NULL, BINS, true);
    ready();
    ANSWERED(zela_allocate(exponents, channel.start, channel.end, codes, channel.has_leak, channel.cplfleak,
                           channel.cplsleak, channel.segments, offset, length, ba, false, hearing, tables.hearing_len,
                           log_add, tables.log_add_len, bap, bit),
             number, 0);
    EXPECT(all(bap, 2, 0) && all(bap + 2, 198, pointer) && all(bap + 200, 56, 0));
    good();
}

static void allocation_codes(void) {
    static const uint8_t most[CODES] = {3, 3, 3, 3, 7, 7, 63, 15, 2};
    for (size_t i = 0; i < CODES; i++) {
        channel.codes[i] = most[i] + 1;
        allocate(ZELA_CODE_PAST_TABLE, 0);
    }
    channel.has_leak = true;
    channel.cplfleak = 8;
    allocate(ZELA_CODE_PAST_TABLE, 0);
    channel.has_leak = true;
    channel.cplsleak = 8;
    allocate(ZELA_CODE_PAST_TABLE, 0);
    channel.segments = SEGMENTS + 1;
    allocate(ZELA_CODE_PAST_TABLE, 0);
    channel.segments = SEGMENTS;
    channel.offset[7] = 32;
    allocate(ZELA_CODE_PAST_TABLE, 0);
    channel.segments = SEGMENTS;
    channel.length[7] = 16;
    allocate(ZELA_CODE_PAST_TABLE, 0);
    channel.segments = SEGMENTS;
    channel.ba[7] = 8;
    allocate(ZELA_CODE_PAST_TABLE, 0);
}

static void channels(void) {
    good();
    allocate(ZELA_TAKEN, 15);
    tables.hearing_len = HEARING - 1;
    allocate(ZELA_BAD_TABLES, 0);
    tables.hearing[HEARING - 1] = 4096;
    allocate(ZELA_BAD_TABLES, 0);
    tables.log_add_len = LOG_ADD - 1;
    allocate(ZELA_BAD_TABLES, 0);
    tables.log_add[LOG_ADD - 1] = 65;
    allocate(ZELA_BAD_TABLES, 0);
    allocation_codes();
    channel.start = channel.end;
    allocate(ZELA_TAKEN, 0);
    channel.end = 254;
    allocate(ZELA_BAD_ARGUMENT, 0);
    channel.exponents[199] = 25;
    allocate(ZELA_EXPONENT_OUTSIDE, 0);
    channel.exponents[200] = 25;
    allocate(ZELA_TAKEN, 15);
}

/* ---- blocks ---- */

static struct zela_state state;

static void good_state(void) {
    memset(&state, 0, sizeof state);
    state.bai_sent = state.csnroffst_sent = 1;
    state.csnroffst = 63;
    memset(state.fsnroffst, 15, sizeof state.fsnroffst);
    state.delta[1] = (struct zela_delta){.count = 1, .offset = {31}, .len = {15}, .ba = {7}};
}

/* Whether a state is the one above with this delta in slot 1. */
static bool state_has(const struct zela_state *now, const struct zela_delta *delta) {
    struct zela_state wanted = state;
    wanted.delta[1] = *delta;
    return memcmp(now, &wanted, sizeof wanted) == 0;
}

static void delta_code(size_t slot, uint32_t code, bool block0, uint8_t number, const struct zela_delta *after) {
    function = "zela_delta_code";
    lend_nothing();
    struct zela_state *now = CHANGED(state);
    ready();
    ANSWERED(zela_delta_code(now, slot, code, block0, bit), number, 0);
    EXPECT(state_has(now, after));
}

static void read_delta(struct standing at, size_t slot, struct end end, const struct zela_delta *after) {
    function = "zela_read_delta";
    stand(&at);
    struct zela_state *now = CHANGED(state);
    ready();
    STANDS(&at,
           zela_read_delta(frame, at.frame_len, logged, at.elements * WORDS, pos, at.limit, 0, count, now, slot, bit),
           &end);
    EXPECT(state_has(now, after));
}

static void deltas(void) {
    static const struct zela_delta none, read = {.count = 1, .offset = {1}, .len = {2}, .ba = {3}};
    /* deltnseg 0, then offset 1, length 2, ba 3. */
    static const uint8_t segment[2] = {0x01, 0x26};
    good_state();
    const struct zela_delta was = state.delta[1];
    delta_code(1, 2, true, ZELA_TAKEN, &none);
    delta_code(1, 0, false, ZELA_TAKEN, &was);
    delta_code(7, 3, false, ZELA_BAD_ARGUMENT, &was);
    delta_code(SIZE_MAX, 2, false, ZELA_BAD_ARGUMENT, &was);
    delta_code(1, 3, false, ZELA_BAD_DELTA, &was);
    delta_code(1, 0, true, ZELA_BAD_DELTA, &was);
    struct standing at = {segment, 2, 4, 0, 16, 0};
    read_delta(at, 1, (struct end){ZELA_TAKEN, 15, 4}, &read);
    read_delta(at, 7, (struct end){ZELA_BAD_ARGUMENT, 0, 0}, &was);
    at.limit = 17;
    read_delta(at, 1, (struct end){ZELA_BAD_ARGUMENT, 0, 0}, &was);
    at.limit = 8;
    read_delta(at, 1, (struct end){ZELA_PAST_LIMIT, 8, 2}, &was);
    at.limit = 16;
    at.elements = 1;
    read_delta(at, 1, (struct end){ZELA_LOG_FULL, 3, 1}, &was);
}

static bool present[SLOTS], high[SLOTS];
static uint8_t block_exponents[SLOTS * BINS];
static size_t ranges[SLOTS * 4];
static uint8_t fscod;

/* Slot 5 alone is there, with exponents from bin 2 to bin 200, all of which are asked for. */
static void good_block(void) {
    good();
    good_state();
    state.cplleak_sent = 1;
    memset(present, 0, sizeof present);
    present[5] = true;
    memset(block_exponents, 0, sizeof block_exponents);
    ranges[20] = ranges[22] = 2;
    ranges[21] = ranges[23] = 200;
    fscod = 0;
}

static void allocate_block(uint8_t number, uint8_t pointer) {
    function = "zela_allocate_block";
    lend_nothing();
    const struct zela_state *now = lend(&state, sizeof state, false);
    const bool *there = READ(present), *by_hebap = READ(high);
    const uint8_t *exponents = READ(block_exponents);
    const size_t *bins = READ(ranges);
    const uint16_t *hearing = READ(tables.hearing);
    const uint8_t *log_add = READ(tables.log_add);
    uint8_t *bap = lend(NULL, SLOTS * BINS, true);
    ready();
    ANSWERED(zela_allocate_block(now, fscod, there, by_hebap, exponents, bins, hearing, tables.hearing_len, log_add,
                                 tables.log_add_len, bap, bit),
             number, 0);
    const uint8_t *coupling = bap + 5 * BINS;
    EXPECT(all(bap, 5 * BINS + 2, 0) && all(coupling + 2, 198, pointer) && all(coupling + 200, 56 + BINS, 0));
    good_block();
}

static void block_codes(void) {
    uint8_t *const past[] = {&state.sdcycod,       &state.fdcycod,         &state.sgaincod,         &state.dbpbcod,
                             &state.floorcod,      &state.csnroffst,       &state.cplfleak,         &state.cplsleak,
                             &state.fgaincod[6],   &state.fsnroffst[6],    &state.delta[1].count,   &fscod,
                             state.delta[1].offset, state.delta[1].len,     state.delta[1].ba};
    static const uint8_t most[] = {3, 3, 3, 3, 7, 63, 7, 7, 7, 15, 8, 2, 31, 15, 7};
    for (size_t i = 0; i < sizeof most; i++) {
        *past[i] = most[i] + 1;
        allocate_block(ZELA_CODE_PAST_TABLE, 0);
    }
}

static void blocks(void) {
    good_block();
    allocate_block(ZELA_TAKEN, 15);
    tables.hearing_len = 0;
    allocate_block(ZELA_BAD_TABLES, 0);
    tables.log_add[0] = 65;
    allocate_block(ZELA_BAD_TABLES, 0);
    block_codes();
    state.csnroffst_sent = 0;
    allocate_block(ZELA_NOT_SENT, 0);
    state.bai_sent = 0;
    allocate_block(ZELA_NOT_SENT, 0);
    state.csnroffst = state.fsnroffst[5] = 0;
    allocate_block(ZELA_TAKEN, 0);
    ranges[23] = 201;
    allocate_block(ZELA_NOT_COVERED, 0);
    state.cplleak_sent = 0;
    allocate_block(ZELA_NOT_SENT, 0);
    ranges[23] = 2;
    allocate_block(ZELA_TAKEN, 0);
    ranges[21] = ranges[23] = 254;
    allocate_block(ZELA_BAD_ARGUMENT, 0);
    block_exponents[5 * BINS + 199] = 25;
    allocate_block(ZELA_EXPONENT_OUTSIDE, 0);
}

void allocation(void) {
    channels();
    deltas();
    blocks();
}
