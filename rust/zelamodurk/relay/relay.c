/*
 * Runs the archives for a caller on another processor: reads calls from standard input and writes
 * what each answers to standard output, until the input ends. src/relay.rs is the other side.
 *
 * A call is the function's place in the table below and how many arguments follow, a byte each, and
 * then the arguments in the header's order: a kind (1 byte) and a number (8 bytes, low byte first),
 * which for lent bytes is how many there are, followed by themselves; a word of a log is four bytes, and
 * a half two. An answer is the function's own (1 byte), and then all lent bytes as they are after the
 * call, in order.
 */
#include "zelamodurk.h"

/* The few functions of the C library that are needed; the kit has the library and no headers. */
extern long read(int file, void *room, size_t n);
extern long write(int file, const void *bytes, size_t n);
extern void *realloc(void *room, size_t n);
extern void *memcpy(void *to, const void *from, size_t n);
extern void _exit(int status) __attribute__((noreturn));

/* What an argument is: a number; lent bytes that pass as a pointer and their number; lent room, or an
 * array, that passes as a pointer alone; a lent log, or lent halves, that pass as a pointer and the number
 * of their words. */
enum kind { NUMBER, BYTES, ROOM, LOG, HALVES, KINDS };
enum { WORDS = 18, LENT = 9, GUARD = 16, MARK = 0xA5 };

/* On x86-64 each argument is a word of 8 bytes, in a register or on the stack, and a function reads
 * those that it has, so one type serves to call them all. */
typedef uint64_t word;
typedef uint8_t any(word, word, word, word, word, word, word, word, word, word, word, word, word, word, word, word,
                    word, word);
#define FUNCTION(name) (any *)(void (*)(void))name
static any *const functions[] = {
    FUNCTION(zela_bits_get),        FUNCTION(zela_bits_set),         FUNCTION(zela_bits_range_eq),
    FUNCTION(zela_bits_range_zero), FUNCTION(zela_crc16),            FUNCTION(zela_crc16_zeros),
    FUNCTION(zela_probe),           FUNCTION(zela_crc_status),       FUNCTION(zela_repair),
#ifdef ZELA_CURSOR /* build.rs defines it with the feature `cursor`, which links libcapi.a */
    FUNCTION(zela_role_is_drc),     FUNCTION(zela_role_is_checksum), FUNCTION(zela_role_is_span),
    FUNCTION(zela_read_element),    FUNCTION(zela_read_raw),         FUNCTION(zela_span),
    FUNCTION(zela_close_span),      FUNCTION(zela_check_tiling),     FUNCTION(zela_element_at),
    FUNCTION(zela_read_tail),       FUNCTION(zela_allocate),         FUNCTION(zela_read_exponents),
    FUNCTION(zela_conventional),    FUNCTION(zela_aht),              FUNCTION(zela_delta_code),
    FUNCTION(zela_read_delta),      FUNCTION(zela_allocate_block),
#endif
};

static uint8_t ahead[65536];
static size_t ahead_at, ahead_end;

/* The next n bytes of the input; the program ends where the input does. */
static void take(uint8_t *room, size_t n) {
    while (n > 0) {
        if (ahead_at == ahead_end) {
            long got = read(0, ahead, sizeof ahead);
            if (got <= 0) {
                _exit(got < 0);
            }
            ahead_at = 0;
            ahead_end = (size_t)got;
        }
        size_t part = ahead_end - ahead_at < n ? ahead_end - ahead_at : n;
        memcpy(room, ahead + ahead_at, part);
        ahead_at += part;
        room += part;
        n -= part;
    }
}

static uint8_t behind[65536];
static size_t behind_end;

static void flush(void) {
    for (size_t at = 0; at < behind_end;) {
        long put = write(1, behind + at, behind_end - at);
        if (put <= 0) {
            _exit(1);
        }
        at += (size_t)put;
    }
    behind_end = 0;
}

/* n bytes more of the output; an answer is sent as a whole. */
static void give(const uint8_t *bytes, size_t n) {
    while (n > 0) {
        if (behind_end == sizeof behind) {
            flush();
        }
        size_t part = sizeof behind - behind_end < n ? sizeof behind - behind_end : n;
        memcpy(behind + behind_end, bytes, part);
        behind_end += part;
        bytes += part;
        n -= part;
    }
}

static word number(void) {
    uint8_t digits[8];
    word value = 0;
    take(digits, sizeof digits);
    for (int i = 7; i >= 0; i--) {
        value = value << 8 | digits[i];
    }
    return value;
}

static uint8_t byte(uint8_t below) {
    uint8_t value;
    take(&value, 1);
    if (value >= below) {
        _exit(1);
    }
    return value;
}

/* Bytes that are lent to a call, with a guard on either side that no call may touch. */
static struct lent {
    uint8_t *room, *at;
    size_t len;
} lent[LENT];

static void take_bytes(struct lent *to, size_t len) {
    to->len = len;
    to->room = realloc(to->room, len + 2 * GUARD);
    if (to->room == 0) {
        _exit(1);
    }
    to->at = to->room + GUARD;
    take(to->at, len);
    for (size_t i = 0; i < GUARD; i++) {
        to->room[i] = to->at[len + i] = MARK;
    }
}

static void give_bytes(const struct lent *from) {
    for (size_t i = 0; i < GUARD; i++) {
        if (from->room[i] != MARK || from->at[from->len + i] != MARK) {
            _exit(2);
        }
    }
    give(from->at, from->len);
}

/* The size of what a kind's number counts. */
static size_t size(enum kind kind) {
    switch (kind) {
    case LOG:
        return sizeof(uint32_t);
    case HALVES:
        return sizeof(uint16_t);
    default:
        return 1;
    }
}

static void relay(any *f) {
    word w[WORDS] = {0};
    size_t words = 0, lents = 0;
    for (uint8_t left = byte(WORDS); left > 0; left--) {
        enum kind kind = byte(KINDS);
        word value = number();
        if (kind != NUMBER) {
            if (lents == LENT || words == WORDS) {
                _exit(1);
            }
            take_bytes(&lent[lents], value);
            w[words++] = (word)lent[lents++].at;
        }
        if (kind != ROOM) {
            if (words == WORDS) {
                _exit(1);
            }
            w[words++] = value / size(kind);
        }
    }
    uint8_t answer = f(w[0], w[1], w[2], w[3], w[4], w[5], w[6], w[7], w[8], w[9], w[10], w[11], w[12], w[13], w[14],
                       w[15], w[16], w[17]);
    give(&answer, 1);
    for (size_t i = 0; i < lents; i++) {
        give_bytes(&lent[i]);
    }
    flush();
}

int main(void) {
    for (;;) {
        relay(functions[byte(sizeof functions / sizeof functions[0])]);
    }
}
