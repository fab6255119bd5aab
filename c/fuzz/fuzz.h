/* What the parts of the program share: random numbers, the functions, a case and its check. */
#ifndef FUZZ_H
#define FUZZ_H

#include "../lent.h"

/* The seed, and the number of the case. */
extern uint64_t seed, turn;

/* Begins the random numbers of the case: splitmix64 (Steele, Lea and Flood, 2014). */
void begin_random(void);
uint64_t random_bits(void);

/* A number from 0 to most; whether one of so many cases is met. */
size_t to(size_t most);
bool one_of(size_t cases);

/* What an argument is. */
enum kind {
    NONE,
    /* lent as a pointer and a number: for reading, but for changed bytes and the log */
    BYTES, CHANGED_BYTES, LOG, READ_LOG, HEARING, LOG_ADD,
    /* arrays for reading */
    EXPONENTS, CODES, OFFSETS, LENGTHS, BAS, BAP, HEBAP, BLOCK_EXPONENTS, RANGES, FLAGS, READ_STATE,
    /* read and written */
    STATE, POS, COUNT, GROUP_OF_3, GROUP_OF_2, BLOCK_ROOM,
    /* filled */
    BOOL_ROOM, BYTE_ROOM, HALF_ROOM, WORD_ROOM, SIZE_ROOM, POINTERS, BLOCK_POINTERS, BIT,
    /* numbers */
    AT, LIMIT, WIDTH, LONG_WIDTH, ELEMENTS, ELEMENT, TOTAL, START, END, SLOT, SMALL_SLOT, STRATEGY, DELTBAE, FSCOD,
    FLAG, LEAK, SEGMENTS, BLOCK, INDEX, ROLE, HALF, WORD, ANY_SIZE
};
enum { ARGUMENTS = 18, NUMBERS = 22 };

/* On x86-64 and aarch64 Linux each argument is a word of 8 bytes, in a register or on the stack, and a function reads those
 * that it has, so one type serves to call them all. */
typedef uint64_t word;
typedef uint8_t any(word, word, word, word, word, word, word, word, word, word, word, word, word, word, word, word,
                    word, word);

/* The bit of a refusal's number in a set of them. */
#define R(number) (UINT32_C(1) << (number))

/* A function, the numbers that it may refuse with, those of them with which a cursor or groups may have moved on before
 * the refusal, and its arguments. */
struct function {
    const char *name;
    any *call;
    uint32_t refusals, moved;
    uint8_t arguments[ARGUMENTS];
};
enum { FUNCTIONS = 26 };
extern const struct function functions[FUNCTIONS];

/* The function that the case calls. */
extern const struct function *function;

/* What frames are pieces of. */
enum { WORDS = 8, MOST = 4096, SAMPLES = 1 << 18 };
extern uint8_t samples[SAMPLES];
extern size_t samples_len;

/* Lends the arguments of the case; the kinds of what is lent, and the words that pass. */
void lend_arguments(void);
extern uint8_t kinds[ROOMS];
extern word words[ARGUMENTS];

/* Calls the function twice, and looks at what every answer keeps. */
uint8_t check_call(void);
void fail(const char *what);

#endif
