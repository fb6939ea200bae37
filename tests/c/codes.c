/* The code of the TPS words. */
#include "check.h"

#include <stdio.h>
#include <string.h>

/* Whether an answer tells so many mended bits, at these places. */
static int told(SaltDecoded read, size_t count, size_t first, size_t second) {
    return read.mended == count && read.first == first && read.second == second;
}

/* The slow decoder answers and leaves the same as the fast one did. */
static void slowly(const uint8_t *code, SaltDecoded read, const uint8_t *left) {
    uint8_t back[SALT_TPS_INFORMATION_BITS];
    memset(back, 9, sizeof back);
    SaltDecoded slow = salt_tps_bch_decode_slow(code, SALT_TPS_CODEWORD_BITS, back, sizeof back);
    CHECK(slow.number == read.number && slow.count == read.count && told(slow, read.mended, read.first, read.second));
    CHECK(memcmp(back, left, sizeof back) == 0);
}

/* Every codeword with no, one or two wrong bits is read as it was, and the wrong bits are told. */
static void mended(const uint8_t *info, uint8_t *code) {
    uint8_t back[SALT_TPS_INFORMATION_BITS];
    for (size_t first = 0; first < SALT_TPS_CODEWORD_BITS; first++) {
        for (size_t second = first; second < SALT_TPS_CODEWORD_BITS; second++) {
            code[first] ^= 1;
            code[second] ^= first == second ? 0 : 1;
            memset(back, 9, sizeof back);
            SaltDecoded read = salt_tps_bch_decode(code, SALT_TPS_CODEWORD_BITS, back, sizeof back);
            CHECK(read.number == SALT_ACCEPTED && read.count == sizeof back && memcmp(back, info, sizeof back) == 0);
            CHECK(first == second ? told(read, 1, first, SALT_NO_PLACE) : told(read, 2, first, second));
            if (first % 8 == 0) {
                slowly(code, read, back);
            }
            code[first] ^= 1;
            code[second] ^= first == second ? 0 : 1;
        }
    }
    SaltDecoded read = salt_tps_bch_decode(code, SALT_TPS_CODEWORD_BITS, back, sizeof back);
    CHECK(read.number == SALT_ACCEPTED && memcmp(back, info, sizeof back) == 0 && told(read, 0, SALT_NO_PLACE, SALT_NO_PLACE));
}

/* Three wrong bits: of all 47,905 patterns, how many are read as another codeword and how many are refused. */
static void count_three_wrong(uint8_t *code) {
    unsigned long read = 0, refused = 0, own = 0;
    for (size_t i = 0; i < SALT_TPS_CODEWORD_BITS; i++) {
        for (size_t j = i + 1; j < SALT_TPS_CODEWORD_BITS; j++) {
            for (size_t k = j + 1; k < SALT_TPS_CODEWORD_BITS; k++) {
                uint8_t back[SALT_TPS_INFORMATION_BITS];
                code[i] ^= 1, code[j] ^= 1, code[k] ^= 1;
                uint8_t number = salt_tps_bch_decode(code, SALT_TPS_CODEWORD_BITS, back, sizeof back).number;
                code[i] ^= 1, code[j] ^= 1, code[k] ^= 1;
                *(number == SALT_ACCEPTED ? &read : &refused) += 1;
                own += number == SALT_ACCEPTED && memcmp(back, code, sizeof back) == 0;
                CHECK(number == SALT_ACCEPTED || number == SALT_NO_WORD);
            }
        }
    }
    CHECK(read == 6480 && refused == 41425 && own == 0);
    printf("three wrong bits: %lu patterns are read as another codeword, %lu are refused\n", read, refused);
}

/* The parity of a codeword as a number. */
static unsigned parity(const uint8_t *code) {
    unsigned number = 0;
    for (size_t i = SALT_TPS_INFORMATION_BITS; i < SALT_TPS_CODEWORD_BITS; i++) {
        number = 2 * number + code[i];
    }
    return number;
}

void test_codes(void) {
    uint8_t info[SALT_TPS_INFORMATION_BITS] = {0}, code[SALT_TPS_CODEWORD_BITS], none[SALT_TPS_CODEWORD_BITS] = {0};
    CHECK(salt_tps_bch_encode(info, sizeof info, code, sizeof code).count == sizeof code && parity(code) == 0);
    count_three_wrong(code);
    info[52] = 1;
    CHECK(salt_tps_bch_encode(info, sizeof info, code, sizeof code).count == sizeof code && parity(code) == 0x0377);
    CHECK(memcmp(code, info, sizeof info) == 0);
    for (size_t i = 0; i < sizeof info; i++) {
        info[i] = noise() & 1;
    }
    CHECK(salt_tps_bch_encode(info, sizeof info, code, sizeof code).number == SALT_ACCEPTED);
    mended(info, code);
    count_three_wrong(code);

    none[66 - 7] = none[66 - 3] = none[66] = 1;
    SaltDecoded refused = salt_tps_bch_decode(none, sizeof none, info, sizeof info);
    CHECK(refused.number == SALT_NO_WORD && refused.count == 0 && told(refused, 0, SALT_NO_PLACE, SALT_NO_PLACE));
    memset(info, 9, sizeof info);
    slowly(none, refused, info);
    none[0] = 2;
    CHECK(salt_tps_bch_decode_slow(none, sizeof none, info, 0).number == SALT_NOT_A_BIT);
    CHECK(salt_tps_bch_decode(none, sizeof none, info, 0).number == SALT_NOT_A_BIT);
    CHECK(salt_tps_bch_decode(none, 66, info, 0).number == SALT_LENGTH);
    info[0] = 255;
    CHECK(salt_tps_bch_encode(info, sizeof info, code, 0).number == SALT_NOT_A_BIT);
    CHECK(salt_tps_bch_encode(info, sizeof info - 1, code, 0).number == SALT_LENGTH);
}
