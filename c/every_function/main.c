/*
 * Calls each function of zelamodurk.h from C, with good arguments and with bad ones. Looks at the number, the bit, and all
 * that was lent, and at guards around it.
 */
#include "every_function.h"
#include <stdio.h>

int main(void) {
    bits();
    crc_and_roles();
    syntax();
    exponents_and_walks();
    allocation();
    frames();
    if (wrong > 0) {
        printf("%d of the answers to C are wrong\n", wrong);
        return 1;
    }
    printf("each function answers C as the header says: %d calls\n", calls);
    return 0;
}
