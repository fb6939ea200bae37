/* The energy-dispersal whitener. */
#include "check.h"

#include <string.h>

void test_whitener(void) {
    const uint8_t zeros[6] = {0}, first[4] = {0x03, 0xF6, 0x08, 0x34};
    uint8_t whole[6], parts[6] = {0};
    SaltDvbTEnergyDispersal start = salt_dvb_t_energy_dispersal_new();
    CHECK(start.reg == 0x4A80);
    SaltFed fed = salt_dvb_t_energy_dispersal_feed(start, zeros, sizeof zeros, whole, sizeof whole);
    CHECK(fed.answer.number == SALT_ACCEPTED && fed.answer.count == sizeof zeros && memcmp(whole, first, sizeof first) == 0);

    SaltDvbTEnergyDispersal moved = salt_dvb_t_energy_dispersal_feed_in_place(start, parts, 2);
    moved = salt_dvb_t_energy_dispersal_advance_byte(moved);
    moved = salt_dvb_t_energy_dispersal_feed_in_place(moved, parts + 3, 3);
    CHECK(memcmp(parts, whole, 2) == 0 && parts[2] == 0 && memcmp(parts + 3, whole + 3, 3) == 0);
    CHECK(moved.reg == fed.whitener.reg);
    CHECK(salt_dvb_t_energy_dispersal_reset(moved).reg == start.reg);

    SaltDvbTEnergyDispersal other = {0xCA80};
    SaltFed refused = salt_dvb_t_energy_dispersal_feed(other, zeros, sizeof zeros, whole, 5);
    CHECK(refused.answer.number == SALT_OUTPUT_SHORT && refused.answer.count == 0 && refused.whitener.reg == 0xCA80);
    CHECK(memcmp(whole, first, sizeof first) == 0);
    CHECK(salt_dvb_t_energy_dispersal_advance_byte(other).reg == salt_dvb_t_energy_dispersal_advance_byte(start).reg);
}
