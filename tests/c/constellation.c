/* Gray mapping, hard and soft demapping. */
#include "check.h"

#include <math.h>
#include <string.h>

static const float scales[3] = {0.70710677f, 0.31622776f, 0.15430336f};

/* Each point of a group size is one of its own, and demaps to its bits, hard and soft. */
static void points_of(size_t v) {
    for (unsigned group = 0; group < 1u << v; group++) {
        uint8_t bits[6], back[6];
        for (size_t i = 0; i < v; i++) {
            bits[i] = group >> i & 1;
        }
        SaltMapped mapped = salt_dvb_t_map_symbol(bits, v);
        CHECK(mapped.number == SALT_ACCEPTED);
        SaltCounted hard = salt_dvb_t_demap_symbol(mapped.point, v, back, v);
        CHECK(hard.number == SALT_ACCEPTED && hard.count == v && memcmp(back, bits, v) == 0);
        SaltSoft soft = salt_dvb_t_soft_llr(mapped.point, v);
        CHECK(soft.number == SALT_ACCEPTED && soft.count == v);
        for (size_t i = 0; i < SALT_SOFT_VALUES; i++) {
            CHECK(i < v ? (bits[i] == 0 ? soft.values[i] > 0 : soft.values[i] < 0) : same_float(soft.values[i], 0.0f));
        }
    }
}

/* Document 01's two points, and one of each other size. */
static void known_points(void) {
    const uint8_t four[4] = {0, 0, 1, 0}, six[6] = {1, 0, 1, 0, 0, 1}, two[2] = {0, 1};
    SaltCell point = salt_dvb_t_map_symbol(four, 4).point;
    CHECK(same_float(point.re, scales[1]) && same_float(point.im, 3 * scales[1]));
    point = salt_dvb_t_map_symbol(six, 6).point;
    CHECK(same_float(point.re, -scales[2]) && same_float(point.im, 5 * scales[2]));
    point = salt_dvb_t_map_symbol(two, 2).point;
    CHECK(same_float(point.re, scales[0]) && same_float(point.im, -scales[0]));
}

/* Cells that are no number, and refusals. */
static void edges(void) {
    const uint8_t bits[8] = {0, 2, 0, 0, 0, 0, 0, 0};
    uint8_t out[6] = {9, 9, 9, 9, 9, 9};
    const SaltCell strange = {NAN, -INFINITY};
    CHECK(salt_dvb_t_demap_symbol(strange, 6, out, 6).count == 6);
    CHECK(out[0] + out[1] + out[2] + out[3] + out[4] + out[5] == 0);
    SaltSoft soft = salt_dvb_t_soft_llr(strange, 2);
    CHECK(soft.count == 2 && soft.values[0] != soft.values[0] && soft.values[1] != soft.values[1]);
    SaltMapped refused = salt_dvb_t_map_symbol(bits, 2);
    CHECK(refused.number == SALT_NOT_A_BIT && same_float(refused.point.re, 0.0f) && same_float(refused.point.im, 0.0f));
    for (size_t v = 0; v < 9; v++) {
        int taken = v == 2 || v == 4 || v == 6;
        CHECK(salt_dvb_t_map_symbol(bits, v).number == (taken ? SALT_NOT_A_BIT : SALT_LENGTH));
        CHECK(salt_dvb_t_demap_symbol(strange, v, out, 0).number == (taken ? SALT_OUTPUT_SHORT : SALT_LENGTH));
        soft = salt_dvb_t_soft_llr(strange, v);
        CHECK(soft.number == (taken ? SALT_ACCEPTED : SALT_LENGTH) && soft.count == (taken ? v : 0));
    }
}

void test_constellation(void) {
    points_of(2);
    points_of(4);
    points_of(6);
    known_points();
    edges();
}
