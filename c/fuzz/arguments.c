/* Good arguments, mutated ones and random ones. */
#include "fuzz.h"
#include <string.h>

/* The bins of a channel, the slots of a block, and the numbers of a slot among its ranges. */
enum { BINS = 256, SLOTS = 7, RANGE = 4 };

uint8_t samples[SAMPLES];
size_t samples_len;

/* What the arguments of a case have in common: the frame, the place, the log's elements, the bins. */
static struct {
    size_t len, limit, pos, elements, count, start, end;
} good;

static size_t least(size_t a, size_t b) {
    return a < b ? a : b;
}

static void choose_good(void) {
    static const size_t longest[] = {8, 24, 300, MOST + 2};
    good.len = to(longest[to(3)]);
    good.limit = least(8 * good.len, 8 * MOST);
    good.pos = one_of(2) ? to(good.limit) : to(least(good.limit, 40));
    good.count = one_of(2000) ? MOST + to(1) : to(6);
    good.elements = good.count + to(8);
    good.start = one_of(2) ? 0 : to(30);
    good.end = least(good.start + 1 + (one_of(4) ? to(252) : to(12)), 253);
}

/* A number at times with another in its place: near it, near the largest, or any. */
static word mutated(word number) {
    if (!one_of(16)) {
        return number;
    }
    switch (to(5)) {
    case 0:
        return number + 1;
    case 1:
        return number - 1;
    case 2:
        return number ^ UINT64_C(1) << to(63);
    case 3:
        number = to(2);
        return (UINT64_C(1) << to(63)) - number;
    case 4:
        return to(300);
    default:
        return random_bits();
    }
}

/* Puts a few other bytes among bytes. */
static void mutate(uint8_t *bytes, size_t len) {
    for (size_t left = len > 0 ? 1 + to(2) : 0; left > 0; left--) {
        size_t at = to(len - 1);
        bytes[at] = (uint8_t)random_bits();
    }
}

/* Bytes to `most`, at times all of them the same. */
static void fill(uint8_t *bytes, size_t len, uint8_t most) {
    uint8_t level = (uint8_t)to(most);
    bool even = one_of(4);
    for (size_t i = 0; i < len; i++) {
        bytes[i] = even ? level : (uint8_t)to(most);
    }
}

/* A piece of the samples, often from the start of a frame and often mutated there, or random bytes. */
static void fill_frame(uint8_t *bytes, size_t len) {
    if (one_of(4)) {
        fill(bytes, len, 0xFF);
        return;
    }
    size_t from = to(samples_len - len), last = samples_len - len;
    if (one_of(2)) {
        while (from + 1 < last && (samples[from] != 0x0B || samples[from + 1] != 0x77)) {
            from++;
        }
    }
    memcpy(bytes, samples + from, len);
    if (one_of(2)) {
        mutate(bytes, one_of(2) ? least(len, 6) : len);
    }
}

/* A log of so many words whose elements tile the bits up to the cursor, at times with another word among them. */
static void fill_log(uint32_t *log, size_t count) {
    size_t at = 0;
    for (size_t k = 0; k < good.count; k++) {
        size_t width = k + 1 < good.count ? to(least(good.pos - at, 40)) : good.pos - at;
        log[k * WORDS + 4] = (uint32_t)at;
        log[k * WORDS + 5] = (uint32_t)width;
        at += width;
    }
    if (count > 0 && one_of(4)) {
        size_t other = to(count - 1);
        log[other] = (uint32_t)mutated(to(64));
    }
}

/* Side information that was sent and is inside its tables, at times mutated. */
static void fill_state(struct zela_state *state) {
    state->bai_sent = !one_of(8);
    state->sdcycod = (uint8_t)to(3);
    state->fdcycod = (uint8_t)to(3);
    state->sgaincod = (uint8_t)to(3);
    state->dbpbcod = (uint8_t)to(3);
    state->floorcod = (uint8_t)to(7);
    state->csnroffst_sent = !one_of(8);
    state->csnroffst = one_of(8) ? 0 : (uint8_t)to(63);
    fill(state->fsnroffst, SLOTS, one_of(8) ? 0 : 15);
    fill(state->fgaincod, SLOTS, 7);
    state->cplleak_sent = !one_of(4);
    state->cplfleak = (uint8_t)to(7);
    state->cplsleak = (uint8_t)to(7);
    for (size_t slot = 0; slot < SLOTS; slot++) {
        struct zela_delta *delta = &state->delta[slot];
        delta->count = (uint8_t)to(8);
        fill(delta->offset, 8, 31);
        fill(delta->len, 8, 15);
        fill(delta->ba, 8, 7);
    }
    if (one_of(4)) {
        mutate((uint8_t *)state, sizeof *state);
    }
}

/* The codes of one channel, seldom one past its table. */
static const uint8_t codes_most[9] = {3, 3, 3, 3, 7, 7, 63, 15, 2};

static void fill_codes(uint8_t *codes) {
    for (size_t i = 0; i < sizeof codes_most; i++) {
        codes[i] = (uint8_t)to(codes_most[i] + one_of(64));
    }
}

static void fill_flags(bool *flags) {
    for (size_t i = 0; i < SLOTS; i++) {
        flags[i] = one_of(2);
    }
}

/* For each slot the range of its exponents, and the same or a part of it as the range asked for. */
static void fill_ranges(size_t *ranges) {
    for (size_t i = 0; i < SLOTS * RANGE; i += RANGE) {
        size_t start = to(20), end = one_of(64) ? 254 : start + to(60), asked = start + to(end - start);
        const size_t bins[RANGE] = {start, end, one_of(2) ? start : asked, end};
        for (size_t k = 0; k < RANGE; k++) {
            ranges[i + k] = one_of(8) ? (size_t)mutated(bins[k]) : bins[k];
        }
    }
}

/* ---- lending ---- */

word words[ARGUMENTS];
static size_t words_end;
uint8_t kinds[ROOMS];

static void *lend_kind(enum kind kind, size_t len, bool writing) {
    kinds[lents] = (uint8_t)kind;
    void *at = lend(NULL, len, writing);
    words[words_end++] = (word)(uintptr_t)at;
    return at;
}

/* A lent table's length is seldom another than the right one. */
static size_t table_len(size_t right) {
    return one_of(64) ? to(right + 2) : right;
}

/* Lends what passes as a pointer and a number. */
static void lend_counted(enum kind kind) {
    size_t count = good.len;
    if (kind == BYTES || kind == CHANGED_BYTES) {
        fill_frame(lend_kind(kind, count, kind == CHANGED_BYTES), count);
    } else if (kind == LOG || kind == READ_LOG) {
        count = good.elements * WORDS;
        /* A last element without its last word is none. */
        count -= count > 0 && one_of(16);
        fill_log(lend_kind(kind, count * sizeof(uint32_t), kind == LOG), count);
    } else if (kind == HEARING) {
        count = table_len(150);
        uint16_t *hearing = lend_kind(kind, count * sizeof *hearing, false);
        for (size_t i = 0; i < count; i++) {
            hearing[i] = (uint16_t)to(4095);
        }
        if (count > 0 && one_of(64)) {
            hearing[count - 1] = 4096;
        }
    } else {
        count = table_len(256);
        fill(lend_kind(kind, count, false), count, one_of(64) ? 65 : 64);
    }
    words[words_end++] = count;
}

/* What passes as a pointer alone: its bytes, and the most that a good one of them is, where that is all there is to say. */
static const struct {
    size_t len;
    uint8_t most;
} arrays[] = {
    [EXPONENTS] = {BINS, 24},
    [CODES] = {sizeof codes_most, 0},
    [OFFSETS] = {8, 31},
    [LENGTHS] = {8, 15},
    [BAS] = {8, 7},
    [BAP] = {BINS, 15},
    [HEBAP] = {BINS, 19},
    [BLOCK_EXPONENTS] = {SLOTS * BINS, 24},
    [RANGES] = {SLOTS * RANGE * sizeof(size_t), 0},
    [FLAGS] = {SLOTS, 0},
    [READ_STATE] = {sizeof(struct zela_state), 0},
    [STATE] = {sizeof(struct zela_state), 0},
    [POS] = {sizeof(size_t), 0},
    [COUNT] = {sizeof(size_t), 0},
    [GROUP_OF_3] = {1, 2},
    [GROUP_OF_2] = {1, 1},
    [BLOCK_ROOM] = {1, 255},
    [BOOL_ROOM] = {sizeof(bool), 0},
    [BYTE_ROOM] = {1, 0},
    [HALF_ROOM] = {sizeof(uint16_t), 0},
    [WORD_ROOM] = {sizeof(uint32_t), 0},
    [SIZE_ROOM] = {sizeof(size_t), 0},
    [POINTERS] = {BINS, 0},
    [BLOCK_POINTERS] = {SLOTS * BINS, 0},
    [BIT] = {sizeof(size_t), 0},
};

/* Lends what passes as a pointer alone; what a call fills stays stale. */
static void lend_array(enum kind kind) {
    void *at = lend_kind(kind, arrays[kind].len, kind >= STATE);
    if (kind == CODES) {
        fill_codes(at);
    } else if (kind == RANGES) {
        fill_ranges(at);
    } else if (kind == FLAGS) {
        fill_flags(at);
    } else if (kind == READ_STATE || kind == STATE) {
        fill_state(at);
    } else if (kind == POS || kind == COUNT) {
        *(size_t *)at = (size_t)mutated(kind == POS ? good.pos : good.count);
    } else if (kind < BOOL_ROOM) {
        fill(at, arrays[kind].len, arrays[kind].most);
        if (one_of(16)) {
            mutate(at, arrays[kind].len);
        }
    }
}

/* Numbers that stand alone: the most that a good one is, and the bits of its type. */
static const struct {
    uint32_t most;
    uint8_t bits;
} numbers[] = {
    [WIDTH] = {32, 64},
    [SLOT] = {6, 64},
    [SMALL_SLOT] = {6, 8},
    [STRATEGY] = {3, 8},
    [DELTBAE] = {2, 32},
    [FSCOD] = {2, 8},
    [FLAG] = {1, 1},
    [LEAK] = {7, 8},
    [SEGMENTS] = {8, 8},
    [ROLE] = {52, 32},
    [HALF] = {UINT16_MAX, 16},
    [WORD] = {UINT32_MAX, 32},
    [ANY_SIZE] = {MOST, 64},
};

/* A number as a register has it: no more bits than its type has, and the sign of one that has a sign. */
static word number_of(enum kind kind) {
    switch (kind) {
    case AT:
        return mutated(good.pos);
    case LIMIT:
        return mutated(one_of(8) ? to(good.limit) : good.limit);
    case LONG_WIDTH:
        return mutated(to(good.limit - good.pos));
    case ELEMENTS:
        return mutated(good.count);
    case ELEMENT:
        return mutated(to(good.count));
    case TOTAL:
        return mutated(good.limit);
    case START:
        return mutated(good.start);
    case END:
        return mutated(good.end);
    case BLOCK:
        return (word)(int64_t)(int8_t)random_bits();
    case INDEX:
        return (word)(int64_t)(int16_t)random_bits();
    default:
        return mutated(to(numbers[kind].most)) & UINT64_MAX >> (64 - numbers[kind].bits);
    }
}

void lend_arguments(void) {
    choose_good();
    lend_nothing();
    memset(words, 0, sizeof words);
    words_end = 0;
    for (size_t i = 0; i < ARGUMENTS && function->arguments[i] != NONE; i++) {
        enum kind kind = function->arguments[i];
        if (kind <= LOG_ADD) {
            lend_counted(kind);
        } else if (kind <= BIT) {
            lend_array(kind);
        } else {
            words[words_end++] = number_of(kind);
        }
    }
    lend_all();
}
