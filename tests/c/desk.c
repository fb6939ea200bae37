/* The desk. */
#include "check.h"

/* The word of a super-frame with a number and a byte of the cell id. */
static SaltTpsWord word_of(uint8_t number, uint8_t byte) {
    const SaltTpsWord word = {number, 2, 1, 2, byte};
    return word;
}

static int same_parameters(SaltParameters a, SaltParameters b) {
    return a.constellation == b.constellation && a.code_rate_hp == b.code_rate_hp && a.guard == b.guard;
}

static int same_desk(SaltDesk a, SaltDesk b) {
    return a.wanted == b.wanted && a.high == b.high && a.low == b.low && same_parameters(a.parameters, b.parameters);
}

/* Whether an answer has this number, no super-frame and this desk. */
static int incomplete(SaltDeskTaken taken, uint8_t number, SaltDesk desk) {
    const SaltParameters none = {0, 0, 0};
    return taken.number == number && taken.complete == 0 && taken.cell_id == 0 && same_parameters(taken.parameters, none)
           && same_desk(taken.desk, desk);
}

/* The desk that has gathered so many words of a super-frame of the id 0x12AB. */
static SaltDesk gathered(uint8_t count) {
    SaltDesk desk = salt_desk_new();
    for (uint8_t number = 0; number < count; number++) {
        desk = salt_desk_take(desk, word_of(number, number % 2 == 0 ? 0x12 : 0xAB)).desk;
    }
    return desk;
}

/* Every id's super-frame, one behind the other. */
static void ids(void) {
    SaltDesk desk = salt_desk_new();
    const SaltParameters shared = {2, 1, 2};
    for (uint32_t id = 0; id < 65536; id += 251) {
        for (uint8_t number = 0; number < 4; number++) {
            const SaltDeskTaken taken = salt_desk_take(desk, word_of(number, (uint8_t)(number % 2 == 0 ? id >> 8 : id & 255)));
            desk = taken.desk;
            CHECK(taken.number == SALT_ACCEPTED && taken.complete == (number == 3));
            CHECK(number < 3 || (taken.cell_id == id && same_parameters(taken.parameters, shared)));
        }
        CHECK(same_desk(desk, salt_desk_new()));
    }
}

/* Each number at each place: the one wanted goes on, 0 starts afresh, and any other drops what was gathered. */
static void steps(void) {
    for (uint8_t count = 0; count < 4; count++) {
        for (unsigned number = 0; number < 256; number++) {
            const SaltDeskTaken taken = salt_desk_take(gathered(count), word_of((uint8_t)number, number % 2 == 0 ? 0x12 : 0xAB));
            if (number != count) {
                CHECK(incomplete(taken, SALT_OUT_OF_STEP, gathered(number == 0 ? 1 : 0)));
            } else {
                CHECK(count == 3 ? taken.complete == 1 && taken.cell_id == 0x12AB : incomplete(taken, SALT_ACCEPTED, gathered((uint8_t)(count + 1))));
            }
        }
    }
}

/* A word that differs in one thing from those gathered; and a code that stands for nothing, which leaves the desk as it was. */
static void refusals(void) {
    for (uint8_t count = 0; count < 4; count++) {
        const SaltDesk before = gathered(count);
        const uint8_t byte = count % 2 == 0 ? 0x12 : 0xAB;
        SaltTpsWord others[3] = {word_of(count, byte), word_of(count, byte), word_of(count, byte)};
        others[0].constellation = 1;
        others[1].code_rate_hp = 4;
        others[2].guard = 3;
        for (size_t i = 0; i < 3 && count > 0; i++) {
            CHECK(incomplete(salt_desk_take(before, others[i]), SALT_MISMATCH, salt_desk_new()));
        }
        if (count > 1) {
            CHECK(incomplete(salt_desk_take(before, word_of(count, byte ^ 1)), SALT_MISMATCH, salt_desk_new()));
        }
        others[0].constellation = 3;
        others[1].code_rate_hp = 5;
        others[2].guard = 4;
        for (size_t i = 0; i < 3; i++) {
            CHECK(incomplete(salt_desk_take(before, others[i]), SALT_RESERVED, before));
            others[i].frame_number ^= 1;
            CHECK(incomplete(salt_desk_take(before, others[i]), SALT_RESERVED, before));
        }
    }
}

/* Desks made by hand. */
static void by_hand(void) {
    const SaltDesk above = {4, 1, 2, {1, 1, 1}}, strange = {1, 0x12, 0, {9, 1, 2}};
    CHECK(incomplete(salt_desk_take(above, word_of(0, 0x12)), SALT_ACCEPTED, gathered(1)));
    CHECK(incomplete(salt_desk_take(above, word_of(4, 0x12)), SALT_OUT_OF_STEP, salt_desk_new()));
    CHECK(incomplete(salt_desk_take(strange, word_of(1, 0xAB)), SALT_MISMATCH, salt_desk_new()));
}

void test_desk(void) {
    ids();
    steps();
    refusals();
    by_hand();
}
