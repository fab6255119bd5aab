/* What is expected of a call. */
#include "every_function.h"
#include <stdio.h>

const char *function;
int calls, wrong;
size_t *bit;

void expect(bool holds, const char *what, const char *file, int line) {
    if (!holds) {
        printf("%s:%d: %s: not so: %s\n", file, line, function, what);
        wrong++;
    }
}

void ready(void) {
    bit = FILLED(size_t);
    lend_all();
    calls++;
}

void answered(uint8_t number, uint8_t wanted, size_t wanted_bit, const char *file, int line) {
    if (number != wanted || *bit != wanted_bit) {
        printf("%s:%d: %s answers %d at bit %zu, not %d at %zu\n", file, line, function, number, *bit, wanted, wanted_bit);
        wrong++;
    }
    expect(outside_kept(), "nothing but what is lent for writing is changed", file, line);
}

bool all(const uint8_t *bytes, size_t n, uint8_t byte) {
    for (size_t i = 0; i < n; i++) {
        if (bytes[i] != byte) {
            return false;
        }
    }
    return true;
}

uint8_t frame_room[MOST + 2];
uint32_t log_room[(MOST + 1) * WORDS];
const uint8_t *frame;
uint32_t *logged;
size_t *pos, *count;

void stand(const struct standing *at) {
    lend_nothing();
    frame = lend(at->frame, at->frame_len, false);
    logged = lend(log_room, at->elements * WORDS * sizeof *logged, true);
    pos = CHANGED(at->pos);
    count = CHANGED(at->count);
}

void stands(const struct standing *at, uint8_t number, const struct end *end, const char *file, int line) {
    answered(number, end->number, end->number == ZELA_TAKEN ? 0 : end->pos, file, line);
    expect(*pos == end->pos, "the cursor's position", file, line);
    expect(*count == end->count, "the cursor's count", file, line);
    size_t first = at->count * WORDS, past = end->count * WORDS, words = at->elements * WORDS;
    if (first > words) {
        first = past = words;
    }
    expect(kept(logged, first * sizeof *logged), "the log before what is logged", file, line);
    expect(kept(logged + past, (words - past) * sizeof *logged), "the log after what is logged", file, line);
}
