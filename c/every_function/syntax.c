/* The cursor, and the elements of a log. */
#include "every_function.h"
#include <string.h>

static bool element_is(size_t k, const uint32_t words[WORDS]) {
    return memcmp(logged + k * WORDS, words, WORDS * sizeof *words) == 0;
}

static const uint8_t two[2] = {0x12, 0x34};
static const struct standing sound = {two, 2, 2, 4, 16, 0};

static void read_element(struct standing at, size_t width, struct end end) {
    static const uint32_t element[WORDS] = {7, ZELA_DIALNORM + 32, 0xFFFF, 3, 4, 8, 0x23, 0};
    function = "zela_read_element";
    stand(&at);
    uint32_t *value = FILLED(uint32_t);
    ready();
    STANDS(&at,
           zela_read_element(frame, at.frame_len, logged, at.elements * WORDS, pos, at.limit, -1, count, 7,
                             ZELA_DIALNORM + 32, 3, width, value, bit),
           &end);
    EXPECT(*value == (end.number == ZELA_TAKEN ? 0x23 : 0));
    EXPECT(end.number != ZELA_TAKEN || element_is(0, element));
}

static void read_raw(struct standing at, size_t width, struct end end) {
    function = "zela_read_raw";
    stand(&at);
    uint32_t *value = FILLED(uint32_t);
    ready();
    STANDS(&at, zela_read_raw(frame, at.frame_len, pos, at.limit, width, value, bit), &end);
    EXPECT(*value == (end.number == ZELA_TAKEN ? 0x23 : 0));
}

static void span(struct standing at, size_t width, struct end end) {
    static const uint32_t element[WORDS] = {9, ZELA_SKIPFLD, 5, 0xFFFF, 4, 12, 0, 0};
    function = "zela_span";
    stand(&at);
    ready();
    STANDS(&at,
           zela_span(frame, at.frame_len, logged, at.elements * WORDS, pos, at.limit, 5, count, 9, ZELA_SKIPFLD, width,
                     bit),
           &end);
    EXPECT(end.number != ZELA_TAKEN || element_is(0, element));
}

static void close_span(struct standing at, size_t start, struct end end) {
    static const uint32_t element[WORDS] = {9, ZELA_SKIPFLD, 5, 0xFFFF, 1, 3, 0, 0};
    function = "zela_close_span";
    stand(&at);
    ready();
    STANDS(&at,
           zela_close_span(frame, at.frame_len, logged, at.elements * WORDS, at.pos, at.limit, 5, count, 9,
                           ZELA_SKIPFLD, start, bit),
           &end);
    EXPECT(end.number != ZELA_TAKEN || element_is(0, element));
}

/* A place with one of its numbers another. */
static struct standing with_limit(size_t limit) {
    struct standing at = sound;
    at.limit = limit;
    return at;
}

static struct standing with_count(size_t logged_before) {
    struct standing at = sound;
    at.count = logged_before;
    return at;
}

static struct standing with_pos(size_t position) {
    struct standing at = sound;
    at.pos = position;
    return at;
}

/* A frame and a log that are longer than any that is used. */
static struct standing large(size_t limit, size_t logged_before) {
    struct standing at = {frame_room, sizeof frame_room, MOST + 1, 4, limit, logged_before};
    return at;
}

static void cursor(void) {
    read_element(sound, 8, (struct end){ZELA_TAKEN, 12, 1});
    read_element(sound, 33, (struct end){ZELA_BAD_ARGUMENT, 4, 0});
    read_element(with_limit(17), 8, (struct end){ZELA_BAD_ARGUMENT, 4, 0});
    read_element(large(8 * MOST + 1, 0), 8, (struct end){ZELA_BAD_ARGUMENT, 4, 0});
    read_element(with_count(3), 8, (struct end){ZELA_BAD_ARGUMENT, 4, 3});
    read_element(large(8 * MOST, MOST + 1), 8, (struct end){ZELA_BAD_ARGUMENT, 4, MOST + 1});
    read_element(sound, 13, (struct end){ZELA_PAST_LIMIT, 4, 0});
    read_element(with_pos(SIZE_MAX), 8, (struct end){ZELA_PAST_LIMIT, SIZE_MAX, 0});
    read_element(with_count(2), 8, (struct end){ZELA_LOG_FULL, 4, 2});
    read_element(large(8 * MOST, MOST), 8, (struct end){ZELA_LOG_FULL, 4, MOST});
    read_raw(sound, 8, (struct end){ZELA_TAKEN, 12, 0});
    read_raw(sound, 33, (struct end){ZELA_BAD_ARGUMENT, 4, 0});
    read_raw(with_limit(17), 8, (struct end){ZELA_BAD_ARGUMENT, 4, 0});
    read_raw(sound, 13, (struct end){ZELA_PAST_LIMIT, 4, 0});
    span(sound, 12, (struct end){ZELA_TAKEN, 16, 1});
    span(with_limit(17), 8, (struct end){ZELA_BAD_ARGUMENT, 4, 0});
    span(with_count(3), 8, (struct end){ZELA_BAD_ARGUMENT, 4, 3});
    span(sound, SIZE_MAX, (struct end){ZELA_PAST_LIMIT, 4, 0});
    span(with_count(2), 8, (struct end){ZELA_LOG_FULL, 4, 2});
    close_span(sound, 1, (struct end){ZELA_TAKEN, 4, 1});
    close_span(with_limit(17), 1, (struct end){ZELA_BAD_ARGUMENT, 4, 0});
    close_span(with_count(3), 1, (struct end){ZELA_BAD_ARGUMENT, 4, 3});
    close_span(sound, 5, (struct end){ZELA_BAD_ARGUMENT, 4, 0});
    close_span(with_pos(17), 1, (struct end){ZELA_BAD_ARGUMENT, 17, 0});
    close_span(with_count(2), 1, (struct end){ZELA_LOG_FULL, 4, 2});
}

/* A log of two elements that tile 16 bits. */
static const uint32_t tiled[2 * WORDS] = {1, ZELA_DYNRNG + 32, 0xFFFF, 0xFFFE, 0, 5,  21, 0,
                                          2, ZELA_SKIPFLD,     2,      0xFFFF, 5, 11, 0,  0};

static void check_tiling(size_t elements, size_t total, uint8_t number) {
    function = "zela_check_tiling";
    lend_nothing();
    const uint32_t *words = READ(tiled);
    ready();
    ANSWERED(zela_check_tiling(words, 2 * WORDS, elements, total, bit), number, 0);
}

static void element_at(size_t elements, size_t k, uint8_t number) {
    function = "zela_element_at";
    bool taken = number == ZELA_TAKEN;
    lend_nothing();
    const uint32_t *words = READ(tiled);
    uint32_t *name = FILLED(uint32_t), *role = FILLED(uint32_t);
    int8_t *block = FILLED(int8_t);
    int16_t *index = FILLED(int16_t);
    uint32_t *at = FILLED(uint32_t), *width = FILLED(uint32_t), *value = FILLED(uint32_t);
    ready();
    ANSWERED(zela_element_at(words, 2 * WORDS, elements, k, name, role, block, index, at, width, value, bit), number, 0);
    EXPECT(*name == (taken ? 1 : 0) && *role == (taken ? ZELA_DYNRNG + 32 : 0));
    EXPECT(*block == (taken ? -1 : 0) && *index == (taken ? -2 : 0));
    EXPECT(*at == 0 && *width == (taken ? 5 : 0) && *value == (taken ? 21 : 0));
}

static void elements(void) {
    check_tiling(2, 16, ZELA_TAKEN);
    check_tiling(3, 16, ZELA_BAD_ARGUMENT);
    check_tiling(SIZE_MAX, 16, ZELA_BAD_ARGUMENT);
    check_tiling(2, 17, ZELA_NOT_TILED);
    element_at(2, 0, ZELA_TAKEN);
    element_at(3, 0, ZELA_BAD_ARGUMENT);
    element_at(2, 2, ZELA_BAD_ARGUMENT);
    element_at(2, SIZE_MAX, ZELA_BAD_ARGUMENT);
}

void syntax(void) {
    cursor();
    elements();
}
