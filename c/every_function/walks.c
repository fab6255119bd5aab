/* Exponents and walks. */
#include "every_function.h"
#include <string.h>

enum { BINS = 256 };

static void read_exponents(struct standing at, uint8_t slot, uint8_t strategy, size_t end_bin, struct end end) {
    function = "zela_read_exponents";
    bool taken = end.number == ZELA_TAKEN;
    stand(&at);
    uint8_t *exponents = lend(NULL, BINS, true);
    size_t *exp_start = FILLED(size_t), *exp_end = FILLED(size_t);
    ready();
    STANDS(&at,
           zela_read_exponents(frame, at.frame_len, logged, at.elements * WORDS, pos, at.limit, 0, count, slot, strategy,
                               0, end_bin, exponents, exp_start, exp_end, bit),
           &end);
    EXPECT(all(exponents, 4, taken ? 5 : 0) && all(exponents + 4, BINS - 4, 0));
    EXPECT(*exp_start == 0 && *exp_end == (taken ? 4 : 0));
}

static void exponent_reading(void) {
    /* An absolute exponent of 4 bits and a group of 7: 5 and 62, 5 and 125, 1 and 0. */
    static const uint8_t level[2] = {0x57, 0xC0}, above[2] = {0x5F, 0xA0}, below[2] = {0x10, 0x00};
    struct standing at = {level, 2, 4, 0, 16, 0};
    read_exponents(at, 0, 1, 4, (struct end){ZELA_TAKEN, 11, 2});
    read_exponents(at, 7, 1, 4, (struct end){ZELA_BAD_ARGUMENT, 0, 0});
    read_exponents(at, 0, 0, 4, (struct end){ZELA_BAD_ARGUMENT, 0, 0});
    read_exponents(at, 0, 4, 4, (struct end){ZELA_BAD_ARGUMENT, 0, 0});
    read_exponents(at, 0, 1, 0, (struct end){ZELA_BAD_ARGUMENT, 0, 0});
    read_exponents(at, 0, 1, 257, (struct end){ZELA_BAD_ARGUMENT, 0, 0});
    read_exponents(at, 0, 1, 2, (struct end){ZELA_SET_TOO_SHORT, 4, 1});
    at.limit = 17;
    read_exponents(at, 0, 1, 4, (struct end){ZELA_BAD_ARGUMENT, 0, 0});
    at.limit = 10;
    read_exponents(at, 0, 1, 4, (struct end){ZELA_PAST_LIMIT, 4, 1});
    at.limit = 16;
    at.elements = 1;
    read_exponents(at, 0, 1, 4, (struct end){ZELA_LOG_FULL, 4, 1});
    at.elements = 4;
    at.frame = above;
    read_exponents(at, 0, 1, 4, (struct end){ZELA_GROUP_ABOVE, 11, 2});
    at.frame = below;
    read_exponents(at, 0, 1, 4, (struct end){ZELA_EXPONENT_OUTSIDE, 11, 2});
}

static uint8_t codes[BINS];
static uint8_t groups[3];

static void conventional(struct standing at, size_t start, size_t end_bin, struct end end, const uint8_t after[3]) {
    function = "zela_conventional";
    stand(&at);
    const uint8_t *bap = READ(codes);
    uint8_t *g1 = CHANGED(groups[0]), *g2 = CHANGED(groups[1]), *g4 = CHANGED(groups[2]);
    ready();
    STANDS(&at, zela_conventional(frame, at.frame_len, pos, at.limit, bap, start, end_bin, g1, g2, g4, bit), &end);
    EXPECT(*g1 == after[0] && *g2 == after[1] && *g4 == after[2]);
}

static void conventional_walks(void) {
    static const uint8_t none[3] = {0, 0, 0}, each[3] = {1, 1, 1}, first[3] = {1, 0, 0};
    struct standing at = {frame_room, 8, 0, 0, 64, 0};
    memcpy(codes, (const uint8_t[]){1, 2, 4, 3, 0, 15, 16}, 7);
    conventional(at, 0, 6, (struct end){ZELA_TAKEN, 38, 0}, each);
    conventional(at, 6, 5, (struct end){ZELA_BAD_ARGUMENT, 0, 0}, none);
    conventional(at, 0, 257, (struct end){ZELA_BAD_ARGUMENT, 0, 0}, none);
    conventional(at, 0, 7, (struct end){ZELA_POINTER_ABOVE, 38, 0}, each);
    at.limit = 4;
    conventional(at, 0, 6, (struct end){ZELA_PAST_LIMIT, 0, 0}, first);
    at.limit = 65;
    conventional(at, 0, 6, (struct end){ZELA_BAD_ARGUMENT, 0, 0}, none);
    at.limit = 64;
    for (size_t i = 0; i < 3; i++) {
        groups[i] = i == 2 ? 2 : 3;
        conventional(at, 0, 6, (struct end){ZELA_BAD_ARGUMENT, 0, 0}, groups);
        groups[i] = 0;
    }
}

static void aht(struct standing at, size_t start, size_t end_bin, struct end end, size_t met) {
    function = "zela_aht";
    stand(&at);
    const uint8_t *hebap = READ(codes);
    size_t *tags = FILLED(size_t);
    ready();
    STANDS(&at, zela_aht(frame, at.frame_len, pos, at.limit, hebap, start, end_bin, tags, bit), &end);
    EXPECT(*tags == met);
}

static void aht_walks(void) {
    /* gaqmod 2, a gain of 4 and six tags; gaqmod 3 and the composite gain 27. */
    static const uint8_t tagged[4] = {0xBF, 0xFF, 0xFF, 0xE0}, above[4] = {0xF6, 0, 0, 0};
    struct standing at = {tagged, 4, 0, 0, 32, 0};
    memcpy(codes, (const uint8_t[]){8, 20}, 2);
    aht(at, 0, 1, (struct end){ZELA_TAKEN, 27, 0}, 6);
    aht(at, 1, 0, (struct end){ZELA_BAD_ARGUMENT, 0, 0}, 0);
    aht(at, 0, 257, (struct end){ZELA_BAD_ARGUMENT, 0, 0}, 0);
    aht(at, 0, 2, (struct end){ZELA_POINTER_ABOVE, 27, 0}, 0);
    at.limit = 33;
    aht(at, 0, 1, (struct end){ZELA_BAD_ARGUMENT, 0, 0}, 0);
    at.limit = 1;
    aht(at, 0, 1, (struct end){ZELA_PAST_LIMIT, 0, 0}, 0);
    at.limit = 32;
    at.frame = above;
    aht(at, 0, 1, (struct end){ZELA_GAIN_ABOVE, 7, 0}, 0);
}

void exponents_and_walks(void) {
    exponent_reading();
    conventional_walks();
    aht_walks();
}
