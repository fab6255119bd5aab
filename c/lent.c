#include "lent.h"
#include <string.h>

union room room, before;
struct lent lent[ROOMS];
size_t lents, room_end;

static void guard(void) {
    size_t len = 2 * GUARD - room_end % GUARD;
    memset(room.bytes + room_end, MARK, len);
    room_end += len;
}

void lend_nothing(void) {
    lents = room_end = 0;
    guard();
}

void *lend(const void *from, size_t len, bool writing) {
    uint8_t *at = room.bytes + room_end;
    if (from != NULL) {
        memcpy(at, from, len);
    } else {
        memset(at, STALE, len);
    }
    lent[lents].at = room_end;
    lent[lents].len = len;
    lent[lents++].writing = writing;
    room_end += len;
    guard();
    return at;
}

void lend_all(void) {
    memcpy(before.bytes, room.bytes, room_end);
}

bool kept(const void *bytes, size_t len) {
    return memcmp(bytes, before.bytes + ((const uint8_t *)bytes - room.bytes), len) == 0;
}

bool outside_kept(void) {
    size_t from = 0;
    for (size_t i = 0; i < lents; i++) {
        if (lent[i].writing) {
            if (!kept(room.bytes + from, lent[i].at - from)) {
                return false;
            }
            from = lent[i].at + lent[i].len;
        }
    }
    return kept(room.bytes + from, room_end - from);
}
