/*
 * Room that is lent to a call of the core, all of it in one place with guards before, between and after, so that it shows
 * where a call writes what it may not.
 */
#ifndef LENT_H
#define LENT_H

#include "zelamodurk.h"

/* A guard has GUARD bytes at least, more than any array that is lent but a frame or a log, and each room begins where any number
 * may; STALE is what stands in room before a call fills it. */
enum { GUARD = 2048, MARK = 0xA5, STALE = 0x5A, ROOM = 1 << 19, ROOMS = 24 };

/* The room, and how it stood before the call. */
extern union room {
    uint8_t bytes[ROOM];
    size_t aligned;
} room, before;
extern size_t room_end;

/* What is lent now. A call may change that which is lent for writing. */
extern struct lent {
    size_t at, len;
    bool writing;
} lent[ROOMS];
extern size_t lents;

/* Nothing is lent. */
void lend_nothing(void);

/* Lends a copy of len bytes, or stale ones where from is NULL. */
void *lend(const void *from, size_t len, bool writing);

/* All is lent: keeps how it stands before the call. */
void lend_all(void);

/* Whether bytes that are lent now are as they were before the call. */
bool kept(const void *bytes, size_t len);

/* Whether every byte outside what is lent for writing is as it was before the call. */
bool outside_kept(void);

#endif
