/* What the parts of the program share: what is expected, and where a call stands that logs. */
#ifndef EVERY_FUNCTION_H
#define EVERY_FUNCTION_H

#include "../lent.h"

/* The parts. Each calls its functions once or more as it should be, and once for each reason to refuse that the header
 * names. */
void bits(void);
void crc_and_roles(void);
void syntax(void);
void exponents_and_walks(void);
void allocation(void);
void frames(void);

/* The function that is called now; how many calls there were, and how many things were not as expected. */
extern const char *function;
extern int calls, wrong;

void expect(bool holds, const char *what, const char *file, int line);
#define EXPECT(what) expect(what, #what, __FILE__, __LINE__)

/* Room for one thing that a call fills; a thing that it reads and writes; an array that it reads. */
#define FILLED(type) ((type *)lend(NULL, sizeof(type), true))
#define CHANGED(thing) lend(&(thing), sizeof(thing), true)
#define READ(array) lend(array, sizeof(array), false)

/* All but bit is lent: lends it. */
extern size_t *bit;
void ready(void);

/* The number and the bit that a call must have, with nothing changed but what is lent for writing. */
void answered(uint8_t number, uint8_t wanted, size_t wanted_bit, const char *file, int line);
#define ANSWERED(number, wanted, wanted_bit) answered(number, wanted, wanted_bit, __FILE__, __LINE__)

bool all(const uint8_t *bytes, size_t n, uint8_t byte);

/* The words of an element; the most bytes that a frame has, which is also the most elements of a log. */
enum { WORDS = 8, MOST = 4096 };
extern uint8_t frame_room[MOST + 2];
extern uint32_t log_room[(MOST + 1) * WORDS];

/* Where a call that logs stands: so many of a frame's first bytes, room for so many elements, and the place. */
struct standing {
    const uint8_t *frame;
    size_t frame_len, elements, pos, limit, count;
};
/* How it ends: its number, and the place after it. */
struct end {
    uint8_t number;
    size_t pos, count;
};

/* Lends these. */
extern const uint8_t *frame;
extern uint32_t *logged;
extern size_t *pos, *count;
void stand(const struct standing *at);

/* A refused call's bit is the position that it leaves, and the log is changed from count to count alone. */
void stands(const struct standing *at, uint8_t number, const struct end *end, const char *file, int line);
#define STANDS(at, number, end) stands(at, number, end, __FILE__, __LINE__)

#endif
