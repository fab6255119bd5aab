/* Whole frames: headers, tails, checksums. */
#include "every_function.h"
#include <string.h>

static void probe(const uint8_t header[6], size_t len, uint8_t number, bool is_eac3, size_t length) {
    function = "zela_probe";
    lend_nothing();
    const uint8_t *bytes = lend(header, len, false);
    bool *eac3 = FILLED(bool);
    size_t *found = FILLED(size_t);
    ready();
    ANSWERED(zela_probe(bytes, len, eac3, found, bit), number, 0);
    EXPECT(all((uint8_t *)eac3, 1, is_eac3) && *found == length);
}

static void headers(void) {
    probe((const uint8_t[6]){0x0B, 0x77, 0, 0, 0x00, 0x40}, 6, ZELA_TAKEN, false, 128);
    probe((const uint8_t[6]){0x0B, 0x77, 0, 0x3F, 0x00, 0x80}, 6, ZELA_TAKEN, true, 128);
    probe((const uint8_t[6]){0x0B, 0x77, 0, 0, 0x00, 0x40}, 5, ZELA_SHORT_HEADER, false, 0);
    probe((const uint8_t[6]){0x0B, 0x77, 0, 0, 0x00, 0x40}, 0, ZELA_SHORT_HEADER, false, 0);
    probe((const uint8_t[6]){0x0B, 0x76, 0, 0, 0x00, 0x40}, 6, ZELA_NO_SYNC, false, 0);
    probe((const uint8_t[6]){0x0B, 0x77, 0, 0, 0xC0, 0x40}, 6, ZELA_BAD_SIZE, false, 0);
    probe((const uint8_t[6]){0x0B, 0x77, 0, 0, 0x26, 0x40}, 6, ZELA_BAD_SIZE, false, 0);
    probe((const uint8_t[6]){0x0B, 0x77, 0, 0, 0x00, 0x48}, 6, ZELA_BAD_BSID, false, 0);
    probe((const uint8_t[6]){0x0B, 0x77, 0, 0, 0x00, 0x88}, 6, ZELA_BAD_BSID, false, 0);
}

/* The tail of a frame of 64 bits, with the bits before pos logged as one element. */
static void read_tail(struct standing at, size_t total, struct end end, int8_t block_after, size_t user_width) {
    function = "zela_read_tail";
    log_room[4] = 0;
    log_room[5] = (uint32_t)at.pos;
    static const int8_t three = 3;
    stand(&at);
    int8_t *block = CHANGED(three);
    size_t *user_start = FILLED(size_t), *user_bits = FILLED(size_t);
    ready();
    STANDS(&at,
           zela_read_tail(frame, at.frame_len, logged, at.elements * WORDS, pos, at.limit, block, count, total, false,
                          user_start, user_bits, bit),
           &end);
    EXPECT(*block == block_after);
    EXPECT(*user_bits == user_width && (end.number == ZELA_TAKEN || *user_start == 0));
    EXPECT(user_width == 0 || *user_start == at.pos);
}

static void tails(void) {
    /* auxdatae 0; auxdatae 1 with an auxdatal of 12, and of 13. */
    static const uint8_t plain[8], user[8] = {0, 0, 0, 0, 0, 0x32, 0, 0}, above[8] = {0, 0, 0, 0, 0, 0x36, 0, 0};
    struct standing at = {plain, 8, 6, 40, 64, 1};
    read_tail(at, 64, (struct end){ZELA_TAKEN, 64, 5}, -1, 0);
    read_tail(at, 65, (struct end){ZELA_BAD_ARGUMENT, 40, 1}, 3, 0);
    read_tail(at, 57, (struct end){ZELA_NO_ROOM_FOR_TAIL, 40, 1}, 3, 0);
    at.limit = 65;
    read_tail(at, 64, (struct end){ZELA_BAD_ARGUMENT, 40, 1}, 3, 0);
    at.limit = 64;
    at.count = 7;
    read_tail(at, 64, (struct end){ZELA_BAD_ARGUMENT, 40, 7}, 3, 0);
    at.count = 0;
    read_tail(at, 64, (struct end){ZELA_NOT_TILED, 64, 4}, -1, 0);
    at.count = at.elements = 1;
    read_tail(at, 64, (struct end){ZELA_LOG_FULL, 40, 1}, -1, 0);
    at.elements = 6;
    at.frame = user;
    read_tail(at, 64, (struct end){ZELA_BAD_AUX, 40, 1}, 3, 0);
    at.pos = 20;
    read_tail(at, 64, (struct end){ZELA_TAKEN, 64, 6}, -1, 12);
    at.frame = above;
    read_tail(at, 64, (struct end){ZELA_BAD_AUX, 46, 3}, -1, 0);
}

static void crc_status(const uint8_t *from, size_t len, bool is_eac3, uint8_t number, bool good1, bool good2) {
    function = "zela_crc_status";
    lend_nothing();
    const uint8_t *bytes = lend(from, len, false);
    bool *crc1 = FILLED(bool), *crc2 = FILLED(bool);
    ready();
    ANSWERED(zela_crc_status(bytes, len, is_eac3, crc1, crc2, bit), number, 0);
    EXPECT(all((uint8_t *)crc1, 1, good1) && all((uint8_t *)crc2, 1, good2));
}

/* A frame of ones is repaired, and looked at again. */
static void repair(size_t len, bool is_eac3, uint8_t number) {
    static uint8_t ones[MOST + 2];
    memset(ones, 0xFF, sizeof ones);
    crc_status(ones, len, is_eac3, number, false, false);
    function = "zela_repair";
    lend_nothing();
    uint8_t *bytes = lend(ones, len, true);
    ready();
    ANSWERED(zela_repair(bytes, len, is_eac3, bit), number, 0);
    if (number != ZELA_TAKEN) {
        EXPECT(kept(bytes, len));
        return;
    }
    EXPECT(kept(bytes, 2) && kept(bytes + 4, len - 6) && (!is_eac3 || kept(bytes + 2, 2)));
    memcpy(ones, bytes, len);
    crc_status(ones, len, is_eac3, ZELA_TAKEN, !is_eac3, true);
}

static void checksums(void) {
    repair(128, false, ZELA_TAKEN);
    repair(128, true, ZELA_TAKEN);
    repair(MOST, false, ZELA_TAKEN);
    repair(6, false, ZELA_BAD_LENGTH);
    repair(2, true, ZELA_BAD_LENGTH);
    repair(0, true, ZELA_BAD_LENGTH);
    repair(127, false, ZELA_BAD_LENGTH);
    repair(MOST + 2, false, ZELA_BAD_LENGTH);
}

void frames(void) {
    headers();
    tails();
    checksums();
}
