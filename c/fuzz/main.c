/*
 * fuzz SECONDS SEED FILE..: calls every function of zelamodurk.h for so long, with arguments that are good ones, mutated
 * ones and random ones. Frames are pieces of the files. After each call it looks whether a byte outside of what was lent
 * for writing has changed, and whether the answer keeps what the header says of every answer. Case n of a seed is the same
 * on every machine.
 */
#include "fuzz.h"
#include <signal.h>
#include <stdio.h>
#include <stdlib.h>
#include <time.h>

const struct function *function;

/* How often each function answered each number. */
static uint64_t met[FUNCTIONS][NUMBERS];

static void fell(int number) {
    (void)number;
    fail("the call crashes");
}

static void run_case(void) {
    begin_random();
    size_t which = to(FUNCTIONS - 1);
    function = &functions[which];
    lend_arguments();
    met[which][check_call()]++;
}

/* Each number that a function may answer with must have been met, or the cases are too poor. */
static int report(void) {
    int missed = 0;
    for (size_t i = 0; i < FUNCTIONS; i++) {
        printf("  %-22s", functions[i].name);
        for (uint8_t number = 0; number < NUMBERS; number++) {
            if (number == ZELA_TAKEN || functions[i].refusals & R(number)) {
                printf(" %u:%llu", number, (unsigned long long)met[i][number]);
                missed += met[i][number] == 0;
            }
        }
        printf("\n");
    }
    return missed;
}

static void read_samples(const char *name) {
    FILE *file = fopen(name, "rb");
    if (file == NULL) {
        perror(name);
        exit(2);
    }
    samples_len += fread(samples + samples_len, 1, sizeof samples - samples_len, file);
    fclose(file);
}

int main(int argc, char **argv) {
    for (int i = 3; i < argc; i++) {
        read_samples(argv[i]);
    }
    if (samples_len <= MOST + 2) {
        fprintf(stderr, "usage: fuzz SECONDS SEED FILE.., with more than %d bytes in the files\n", MOST + 2);
        return 2;
    }
    const int crashes[] = {SIGSEGV, SIGFPE, SIGILL, SIGABRT};
    for (size_t i = 0; i < sizeof crashes / sizeof crashes[0]; i++) {
        signal(crashes[i], fell);
    }
    seed = strtoull(argv[2], NULL, 0);
    time_t end = time(NULL) + strtol(argv[1], NULL, 0);
    printf("fuzz: seed %llu\n", (unsigned long long)seed);
    do {
        for (int i = 0; i < 1000; i++, turn++) {
            run_case();
        }
    } while (time(NULL) < end);
    if (report() > 0) {
        printf("fuzz: an answer that the header lists was not met\n");
        return 1;
    }
    printf("fuzz: %llu cases, each called twice, and no byte outside of what was lent has changed, to %d around it\n",
           (unsigned long long)turn, (int)GUARD);
    return 0;
}
