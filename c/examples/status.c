/* Whether the first frame of standard input is good. Any bytes may be handed over: the core refuses by a number. */
#include <stdio.h>
#include <zelamodurk.h>

int main(void) {
    uint8_t bytes[4096]; /* no frame is longer */
    size_t len = fread(bytes, 1, sizeof bytes, stdin), frame_len, bit;
    bool eac3, crc1, crc2, good = false;

    uint8_t refused = zela_probe(bytes, len, &eac3, &frame_len, &bit);
    if (!refused && frame_len <= len) { /* it is not cut off */
        refused = zela_crc_status(bytes, frame_len, eac3, &crc1, &crc2, &bit);
        good = crc2 && (crc1 || eac3); /* E-AC-3 has no crc1 */
    }
    if (refused)
        printf("refused with %d\n", refused);
    else
        puts(good ? "good" : "bad");
    return 0;
}
