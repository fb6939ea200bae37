/* Carriers and pilots. */
#include "check.h"

#include <string.h>

/* The three counts of every active carrier, and every number that is none. */
static void counts(void) {
    for (unsigned active = 0; active <= UINT16_MAX; active++) {
        SaltSigned by_sign = salt_active_to_signed((uint16_t)active);
        if (active >= SALT_ACTIVE_CARRIERS) {
            CHECK(by_sign.number == SALT_LENGTH && by_sign.index == 0);
            continue;
        }
        CHECK(by_sign.number == SALT_ACCEPTED && by_sign.index == (int)active - SALT_SIGNED_LAST);
        SaltCarrier bin = salt_signed_to_bin(by_sign.index);
        CHECK(bin.number == SALT_ACCEPTED && bin.index == (active + SALT_SYMBOL_CELLS - SALT_SIGNED_LAST) % SALT_SYMBOL_CELLS);
        SaltCarrier back = salt_bin_to_active(bin.index);
        CHECK(back.number == SALT_ACCEPTED && back.index == active);
    }
    CHECK(salt_signed_to_bin(853).number == SALT_LENGTH && salt_signed_to_bin(-853).number == SALT_LENGTH);
    CHECK(salt_bin_to_active(853).number == SALT_LENGTH && salt_bin_to_active(1195).number == SALT_LENGTH);
    CHECK(salt_bin_to_active(2048).number == SALT_LENGTH && salt_bin_to_active(1196).number == SALT_ACCEPTED);
}

/* Marks carriers, given by active index or by bin, and checks that none was marked before and that they rise. */
static void mark(uint8_t *marks, const uint16_t *carriers, size_t count, int by_bin) {
    unsigned last = 0;
    for (size_t i = 0; i < count; i++) {
        SaltCarrier active = {SALT_ACCEPTED, carriers[i]};
        if (by_bin) {
            active = salt_bin_to_active(carriers[i]);
        }
        CHECK(active.number == SALT_ACCEPTED && active.index < SALT_ACTIVE_CARRIERS);
        CHECK(i == 0 || active.index > last);
        CHECK(marks[active.index]++ == 0);
        last = active.index;
    }
}

/* In a phase every active carrier is a data, a TPS or a reference carrier, and only one of them. */
static void every_carrier(size_t phase) {
    uint8_t marks[SALT_ACTIVE_CARRIERS] = {0}, w[SALT_ACTIVE_CARRIERS];
    uint16_t data[SALT_DATA_CELLS], bins[SALT_REFERENCE_PILOTS], scattered[SALT_SCATTERED_MOST];
    float values[SALT_REFERENCE_FLOATS];
    SaltTps tps = salt_tps_carrier_bins();
    CHECK(salt_data_bins(phase, data, SALT_DATA_CELLS).count == SALT_DATA_CELLS);
    CHECK(salt_reference_pilot_bins(phase, bins, SALT_REFERENCE_PILOTS, values, SALT_REFERENCE_FLOATS).count == SALT_REFERENCE_PILOTS);
    mark(marks, data, SALT_DATA_CELLS, 1);
    mark(marks, bins, SALT_REFERENCE_PILOTS, 1);
    mark(marks, tps.carriers, SALT_TPS_CARRIERS, 1);
    CHECK(memchr(marks, 0, sizeof marks) == NULL);
    salt_wk_prbs(w, sizeof w);
    for (size_t i = 0; i < SALT_REFERENCE_PILOTS; i++) {
        float re = w[salt_bin_to_active(bins[i]).index] == 0 ? 1.3333334f : -1.3333334f;
        CHECK(same_float(values[2 * i], re) && same_float(values[2 * i + 1], 0.0f));
    }
    SaltCounted count = salt_scattered_pilot_indices(phase, scattered, SALT_SCATTERED_MOST);
    CHECK(count.number == SALT_ACCEPTED && count.count == (phase % SALT_SCATTERED_PHASES == 0 ? 143 : 142));
    for (size_t i = 0; i < count.count; i++) {
        CHECK(scattered[i] == 3 * (phase % SALT_SCATTERED_PHASES) + 12 * i);
    }
}

/* The lists by active index and by bin are of the same carriers, and the static grid's data are all but the continual ones. */
static void lists(void) {
    uint8_t marks[SALT_ACTIVE_CARRIERS] = {0}, twice[SALT_ACTIVE_CARRIERS] = {0};
    uint16_t data[SALT_STATIC_DATA_CELLS];
    SaltContinual continual = salt_continual_pilot_indices(), bins = salt_continual_pilot_bins();
    CHECK(salt_static_data_bins(data, SALT_STATIC_DATA_CELLS).count == SALT_STATIC_DATA_CELLS);
    mark(marks, data, SALT_STATIC_DATA_CELLS, 1);
    mark(marks, continual.carriers, SALT_CONTINUAL_CARRIERS, 0);
    CHECK(memchr(marks, 0, sizeof marks) == NULL);
    mark(twice, bins.carriers, SALT_CONTINUAL_CARRIERS, 1);
    CHECK(salt_bin_to_active(bins.carriers[44]).index == continual.carriers[44] && continual.carriers[44] == 1704);
    SaltTps tps = salt_tps_carrier_indices(), tps_bins = salt_tps_carrier_bins();
    for (size_t i = 0; i < SALT_TPS_CARRIERS; i++) {
        CHECK(salt_bin_to_active(tps_bins.carriers[i]).index == tps.carriers[i]);
    }
    CHECK(tps.carriers[0] == 34 && tps.carriers[16] == 1687);
}

void test_pilots(void) {
    const uint8_t begins[16] = {1, 1, 1, 1, 1, 1, 1, 1, 1, 1, 1, 0, 0, 1, 1, 0};
    uint8_t w[16];
    salt_wk_prbs(w, sizeof w);
    CHECK(memcmp(w, begins, sizeof w) == 0);
    CHECK(same_float(salt_boosted_pilot_value(0).point.re, 1.3333334f) && same_float(salt_boosted_pilot_value(1).point.re, -1.3333334f));
    CHECK(salt_boosted_pilot_value(2).number == SALT_NOT_A_BIT && same_float(salt_boosted_pilot_value(2).point.re, 0.0f));
    counts();
    every_carrier(0);
    every_carrier(1);
    every_carrier(2);
    every_carrier(3);
    every_carrier(SIZE_MAX);
    lists();
}
