/* The TPS word. */
#include "check.h"

#include <string.h>

static int same_word(SaltTpsWord a, SaltTpsWord b) {
    return a.frame_number == b.frame_number && a.constellation == b.constellation && a.code_rate_hp == b.code_rate_hp && a.guard == b.guard
           && a.cell_id == b.cell_id;
}

/* Whether an answer tells so many mended bits, at these places. */
static int told(SaltUnpacked read, size_t count, size_t first, size_t second) {
    return read.mended == count && read.first == first && read.second == second;
}

/* Every word but for its cell id, packed and unpacked with two bits wrong, s0 aside. */
static void there_and_back(void) {
    for (unsigned code = 0; code < 4 * 3 * 5 * 4; code++) {
        const SaltTpsWord word = {(uint8_t)(code % 4), (uint8_t)(code / 4 % 3), (uint8_t)(code / 12 % 5), (uint8_t)(code / 60), noise()};
        uint8_t bits[SALT_TPS_WORD_BITS];
        CHECK(salt_tps_word_pack(word, bits, sizeof bits).count == sizeof bits && bits[0] == 0);
        const size_t one = code % 67, other = (code + 30) % 67;
        bits[1 + one] ^= 1;
        bits[1 + other] ^= 1;
        bits[0] = code & 1;
        SaltUnpacked read = salt_tps_word_unpack(bits, sizeof bits);
        CHECK(read.number == SALT_ACCEPTED && same_word(read.word, word));
        CHECK(told(read, 2, one < other ? one : other, one < other ? other : one));
    }
}

/* What is refused, in 01's order. */
static void refusals(void) {
    const SaltTpsWord zero = {0, 0, 0, 0, 0}, word = {7, 2, 4, 3, 0xFF};
    const SaltTpsWord reserved[3] = {{0, 3, 0, 0, 0}, {0, 0, 5, 0, 0}, {0, 0, 0, 4, 0}};
    Lent bits = lend(SALT_TPS_WORD_BITS, 1);
    for (size_t i = 0; i < 3; i++) {
        SaltCounted refused = salt_tps_word_pack(reserved[i], bits.at, bits.length);
        CHECK(refused.number == SALT_RESERVED && refused.count == 0 && unchanged_from(&bits, 0));
        CHECK(salt_tps_word_pack(reserved[i], bits.at, bits.length - 1).number == SALT_OUTPUT_SHORT);
    }
    uint8_t *at = bits.at;
    CHECK(salt_tps_word_pack(word, at, bits.length).number == SALT_ACCEPTED);
    at[0] = 1;
    SaltUnpacked read = salt_tps_word_unpack(at, bits.length);
    CHECK(read.word.frame_number == 3 && told(read, 0, SALT_NO_PLACE, SALT_NO_PLACE));
    at[0] = 2;
    CHECK(salt_tps_word_unpack(at, bits.length).number == SALT_NOT_A_BIT);
    CHECK(salt_tps_word_unpack(at, bits.length - 1).number == SALT_LENGTH);
    memset(at, 0, bits.length);
    at[67 - 7] = at[67 - 3] = at[67] = 1;
    SaltUnpacked refused = salt_tps_word_unpack(at, bits.length);
    CHECK(refused.number == SALT_NO_WORD && same_word(refused.word, zero) && told(refused, 0, SALT_NO_PLACE, SALT_NO_PLACE));
    memset(at, 0, bits.length);
    at[25] = at[26] = 1;
    uint8_t code[SALT_TPS_CODEWORD_BITS];
    CHECK(salt_tps_bch_encode(at + 1, SALT_TPS_INFORMATION_BITS, code, sizeof code).number == SALT_ACCEPTED);
    memcpy(at + 1, code, sizeof code);
    refused = salt_tps_word_unpack(at, bits.length);
    CHECK(refused.number == SALT_RESERVED && same_word(refused.word, zero) && told(refused, 0, SALT_NO_PLACE, SALT_NO_PLACE));
    give_back(&bits);
}

void test_words(void) {
    there_and_back();
    refusals();
}
