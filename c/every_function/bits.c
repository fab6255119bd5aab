/* bits; and what never refuses, crc and roles. */
#include "every_function.h"

static const uint8_t two[2] = {0x12, 0x34};

static void bits_get(size_t from, size_t n, uint8_t number, uint32_t value) {
    function = "zela_bits_get";
    lend_nothing();
    const uint8_t *bytes = READ(two);
    uint32_t *found = FILLED(uint32_t);
    ready();
    ANSWERED(zela_bits_get(bytes, sizeof two, from, n, found, bit), number, 0);
    EXPECT(*found == value);
}

static void bits_set(size_t from, size_t n, uint8_t number, uint8_t first, uint8_t second) {
    function = "zela_bits_set";
    lend_nothing();
    uint8_t *bytes = CHANGED(two);
    ready();
    ANSWERED(zela_bits_set(bytes, sizeof two, from, n, 0xFAB, bit), number, 0);
    EXPECT(bytes[0] == first && bytes[1] == second);
}

static void bits_range_eq(size_t a, size_t b, size_t n, uint8_t number, bool is) {
    static const uint8_t moved[3] = {0x01, 0x23, 0x40};
    function = "zela_bits_range_eq";
    lend_nothing();
    const uint8_t *x = READ(two), *y = READ(moved);
    bool *found = FILLED(bool);
    ready();
    ANSWERED(zela_bits_range_eq(x, sizeof two, a, y, sizeof moved, b, n, found, bit), number, 0);
    EXPECT(all((uint8_t *)found, 1, is));
}

static void bits_range_zero(size_t a, size_t n, uint8_t number, bool is) {
    static const uint8_t one_bit[2] = {0x00, 0x10};
    function = "zela_bits_range_zero";
    lend_nothing();
    const uint8_t *x = READ(one_bit);
    bool *found = FILLED(bool);
    ready();
    ANSWERED(zela_bits_range_zero(x, sizeof one_bit, a, n, found, bit), number, 0);
    EXPECT(all((uint8_t *)found, 1, is));
}

void bits(void) {
    bits_get(4, 8, ZELA_TAKEN, 0x23);
    bits_get(0, 33, ZELA_BAD_ARGUMENT, 0);
    bits_get(SIZE_MAX, SIZE_MAX, ZELA_BAD_ARGUMENT, 0);
    bits_get(9, 8, ZELA_PAST_LIMIT, 0);
    bits_get(17, 0, ZELA_PAST_LIMIT, 0);
    bits_get(SIZE_MAX, 1, ZELA_PAST_LIMIT, 0);
    bits_set(4, 8, ZELA_TAKEN, 0x1A, 0xB4);
    bits_set(0, 33, ZELA_BAD_ARGUMENT, 0x12, 0x34);
    bits_set(9, 8, ZELA_PAST_LIMIT, 0x12, 0x34);
    bits_set(SIZE_MAX, 32, ZELA_PAST_LIMIT, 0x12, 0x34);
    bits_range_eq(0, 4, 16, ZELA_TAKEN, true);
    bits_range_eq(0, 0, 8, ZELA_TAKEN, false);
    bits_range_eq(9, 0, 8, ZELA_PAST_LIMIT, false);
    bits_range_eq(0, 17, 8, ZELA_PAST_LIMIT, false);
    bits_range_eq(1, 0, SIZE_MAX, ZELA_PAST_LIMIT, false);
    bits_range_zero(0, 11, ZELA_TAKEN, true);
    bits_range_zero(0, 12, ZELA_TAKEN, false);
    bits_range_zero(16, 1, ZELA_PAST_LIMIT, false);
    bits_range_zero(1, SIZE_MAX, ZELA_PAST_LIMIT, false);
}

/* ---- what never refuses: crc and roles ---- */

static void crc16(uint16_t init, size_t len, uint16_t value) {
    static const uint8_t one = 0x01;
    function = "zela_crc16";
    lend_nothing();
    const uint8_t *bytes = lend(&one, len, false);
    uint16_t *found = FILLED(uint16_t);
    ready();
    EXPECT(zela_crc16(init, bytes, len, found) == ZELA_TAKEN && outside_kept());
    EXPECT(*found == value && kept(bit, sizeof *bit));
}

static void crc16_zeros(uint16_t init, size_t n, uint16_t value) {
    function = "zela_crc16_zeros";
    lend_nothing();
    uint16_t *found = FILLED(uint16_t);
    ready();
    EXPECT(zela_crc16_zeros(init, n, found) == ZELA_TAKEN && outside_kept());
    EXPECT(*found == value && kept(bit, sizeof *bit));
}

static void role_is(uint8_t (*test)(uint32_t, bool *), uint32_t role, bool is) {
    lend_nothing();
    bool *found = FILLED(bool);
    ready();
    EXPECT(test(role, found) == ZELA_TAKEN && outside_kept());
    EXPECT(all((uint8_t *)found, 1, is) && kept(bit, sizeof *bit));
}

void crc_and_roles(void) {
    crc16(0, 1, 0x8005);
    crc16(0x0B77, 0, 0x0B77);
    crc16_zeros(0x0100, 1, 0x8005);
    crc16_zeros(0x0B77, 0, 0x0B77);
    crc16_zeros(0, SIZE_MAX, 0);
    function = "zela_role_is_drc";
    role_is(zela_role_is_drc, ZELA_DYNRNG + 32, true);
    role_is(zela_role_is_drc, ZELA_SYNC, false);
    role_is(zela_role_is_drc, UINT32_MAX, false);
    function = "zela_role_is_checksum";
    role_is(zela_role_is_checksum, ZELA_CRC2, true);
    role_is(zela_role_is_checksum, ZELA_SYNC, false);
    role_is(zela_role_is_checksum, UINT32_MAX, false);
    function = "zela_role_is_span";
    role_is(zela_role_is_span, ZELA_MANTISSAS, true);
    role_is(zela_role_is_span, ZELA_SYNC, false);
    role_is(zela_role_is_span, UINT32_MAX, false);
}
