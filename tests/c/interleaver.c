/* The symbol interleaver and its inverse. */
#include "check.h"

#include <string.h>

enum { CELL = 2 * sizeof(float) };

/* The first ten places of the permutation. */
static const size_t places[] = {0, 1024, 16, 1025, 128, 1056, 2, 1280, 4, 1088};

/* One symbol there and back, and the first ten cells at their places. */
static void one_symbol(size_t symbol) {
    Lent cells = lend(SALT_DATA_FLOATS, sizeof(float)), sent = lend(SALT_DATA_FLOATS + 1, sizeof(float)), back = lend(SALT_DATA_FLOATS + 3, sizeof(float));
    SaltCounted answer = salt_interleave(symbol, cells.at, cells.length, sent.at, sent.length);
    CHECK(answer.number == SALT_ACCEPTED && answer.count == SALT_DATA_CELLS);
    CHECK(unchanged_from(&cells, 0) && unchanged_from(&sent, SALT_DATA_FLOATS));
    for (size_t q = 0; q < sizeof places / sizeof places[0]; q++) {
        size_t from = symbol % 2 == 0 ? q : places[q], to = symbol % 2 == 0 ? places[q] : q;
        CHECK(memcmp((float *)sent.at + 2 * to, (float *)cells.at + 2 * from, CELL) == 0);
    }
    answer = salt_deinterleave(symbol, sent.at, sent.length, back.at, back.length);
    CHECK(answer.number == SALT_ACCEPTED && answer.count == SALT_DATA_CELLS);
    CHECK(memcmp(back.at, cells.at, SALT_DATA_FLOATS * sizeof(float)) == 0 && unchanged_from(&back, SALT_DATA_FLOATS));
    answer = salt_deinterleave(symbol + 1, cells.at, cells.length, back.at, back.length);
    CHECK(answer.count == SALT_DATA_CELLS && memcmp(back.at, sent.at, SALT_DATA_FLOATS * sizeof(float)) == 0);
    give_back(&cells);
    give_back(&sent);
    give_back(&back);
}

void test_interleaver(void) {
    for (size_t symbol = 0; symbol < SALT_TPS_WORD_BITS; symbol++) {
        one_symbol(symbol);
    }
    one_symbol(SIZE_MAX - 1);
    one_symbol(SIZE_MAX);
}
