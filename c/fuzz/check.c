/* What every answer keeps. */
#include "fuzz.h"
#include <stdio.h>
#include <stdlib.h>
#include <string.h>

static uint8_t after[ROOM];

void fail(const char *what) {
    printf("fuzz: %s, case %llu of seed %llu: %s\n", function->name, (unsigned long long)turn, (unsigned long long)seed,
           what);
    exit(1);
}

static uint8_t call(void) {
    const word *w = words;
    return function->call(w[0], w[1], w[2], w[3], w[4], w[5], w[6], w[7], w[8], w[9], w[10], w[11], w[12], w[13], w[14],
                          w[15], w[16], w[17]);
}

static size_t size_at(const uint8_t *bytes, size_t at) {
    size_t number;
    memcpy(&number, bytes + at, sizeof number);
    return number;
}

static bool zeros(size_t at, size_t len) {
    for (size_t i = 0; i < len; i++) {
        if (room.bytes[at + i] != 0) {
            return false;
        }
    }
    return true;
}

/* Only the words of the elements from the old count to the new one may change. */
static bool log_kept(const struct lent *log, size_t old_count, size_t new_count) {
    size_t element = WORDS * sizeof(uint32_t), past = log->len;
    const uint8_t *at = room.bytes + log->at;
    if (new_count == old_count) {
        return kept(at, past);
    }
    if (new_count < old_count || new_count * element > past) {
        return false;
    }
    return kept(at, old_count * element) && kept(at + new_count * element, past - new_count * element);
}

/* The room of a kind, or NULL. */
static const struct lent *of_kind(enum kind kind) {
    for (size_t i = 0; i < lents; i++) {
        if (kinds[i] == kind) {
            return &lent[i];
        }
    }
    return NULL;
}

/* The cursor's bit that a refusal carries. */
static size_t refusal_bit(void) {
    const struct lent *pos = of_kind(POS);
    if (pos != NULL) {
        return size_at(room.bytes, pos->at);
    }
    return function->call == (any *)(void (*)(void))zela_close_span ? (size_t)words[4] : 0;
}

static void check_room(uint8_t number, enum kind kind, const struct lent *is) {
    bool refused = number != ZELA_TAKEN, same = kept(room.bytes + is->at, is->len);
    if (kind == BIT) {
        if (size_at(room.bytes, is->at) != (refused ? refusal_bit() : 0)) {
            fail("another bit");
        }
    } else if (kind >= BOOL_ROOM && kind < BIT) {
        if (refused && !zeros(is->at, is->len)) {
            fail("refused, and room that is filled is not 0");
        }
        if (kind == BOOL_ROOM && room.bytes[is->at] > 1) {
            fail("a truth value that is neither");
        }
    } else if (refused && (kind == CHANGED_BYTES || kind == STATE) && !same) {
        fail("refused, and bytes or a state are changed");
    } else if (refused && !(function->moved & R(number)) && is->writing && !same) {
        fail("refused at once, and the place, the log or the groups are changed");
    }
}

static void check_answer(uint8_t number) {
    if (!outside_kept()) {
        fail("a byte outside of what was lent for writing is changed");
    }
    if (number >= NUMBERS || (number != ZELA_TAKEN && !(function->refusals & R(number)))) {
        fail("a number that the header does not list");
    }
    for (size_t i = 0; i < lents; i++) {
        check_room(number, kinds[i], &lent[i]);
    }
    const struct lent *log = of_kind(LOG), *count = of_kind(COUNT);
    if (log != NULL && !log_kept(log, size_at(before.bytes, count->at), size_at(room.bytes, count->at))) {
        fail("a word of the log is changed that belongs to no new element");
    }
}

/* The same call again, with other bytes in the room that it fills and around all that is lent: it must write the same, or
 * its answer leans on a byte that it may not read. */
static void check_again(uint8_t number) {
    memcpy(after, room.bytes, room_end);
    memset(room.bytes, (uint8_t)~MARK, room_end);
    for (size_t i = 0; i < lents; i++) {
        uint8_t *at = room.bytes + lent[i].at;
        if (kinds[i] >= BOOL_ROOM) {
            memset(at, (uint8_t)~STALE, lent[i].len);
        } else {
            memcpy(at, before.bytes + lent[i].at, lent[i].len);
        }
    }
    lend_all();
    if (call() != number) {
        fail("the same call has another number");
    }
    check_answer(number);
    for (size_t i = 0; i < lents; i++) {
        if (memcmp(after + lent[i].at, room.bytes + lent[i].at, lent[i].len) != 0) {
            fail("the same call writes something else");
        }
    }
}

uint8_t check_call(void) {
    uint8_t number = call();
    check_answer(number);
    check_again(number);
    return number;
}
