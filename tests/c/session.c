/* The receive session. */
#include "check.h"

#include <math.h>
#include <string.h>

static const SaltTpsWord word = {2, 2, 1, 3, 0x7E};

/* A frame of symbols that is fed, and the session before each. */
static float symbols[SALT_TPS_WORD_BITS][SALT_SYMBOL_FLOATS], data[SALT_TPS_WORD_BITS][SALT_DATA_FLOATS];
static uint8_t bits[SALT_TPS_WORD_BITS];
static SaltSession before[SALT_TPS_WORD_BITS + 1];

/* Whether two sessions are the same; between and behind their parts there may be unused bytes. */
static int same_session(const SaltSession *a, const SaltSession *b) {
    return memcmp(a->prev, b->prev, sizeof a->prev) == 0 && memcmp(a->bits, b->bits, sizeof a->bits) == 0 && a->count == b->count
        && a->frames == b->frames && a->behind == b->behind;
}

/* Makes the symbols: noise on the data carriers, and the word's cells on the TPS carriers. */
static void make_symbols(void) {
    SaltScatteredPilotMapper mapper = salt_scattered_pilot_mapper_new();
    SaltTpsEncoder encoder = salt_tps_encoder_new();
    SaltTps bins = salt_tps_carrier_bins();
    CHECK(salt_tps_word_pack(word, bits, sizeof bits).number == SALT_ACCEPTED);
    for (size_t n = 0; n < SALT_TPS_WORD_BITS; n++) {
        float cells[SALT_TPS_FLOATS];
        for (size_t i = 0; i < SALT_DATA_FLOATS; i++) {
            data[n][i] = noise_float();
        }
        mapper = salt_scattered_pilot_mapper_map_symbol(mapper, data[n], SALT_DATA_FLOATS, symbols[n], SALT_SYMBOL_FLOATS).mapper;
        encoder = salt_tps_encoder_next_symbol(encoder, bits[n], cells, SALT_TPS_FLOATS).encoder;
        for (size_t k = 0; k < SALT_TPS_CARRIERS; k++) {
            memcpy(symbols[n] + 2 * bins.carriers[k], cells + 2 * k, 2 * sizeof(float));
        }
    }
}

/* Feeds the frame: data, bit, phase, and the journal's place, of which nothing else is written. */
static void feed_all(Lent *journal) {
    SaltTps bins = salt_tps_carrier_bins();
    SaltSession session = salt_session_new();
    for (size_t n = 0; n < SALT_TPS_WORD_BITS; n++) {
        Lent out = lend(SALT_DATA_FLOATS + 1, sizeof(float));
        CHECK(salt_session_phase(session) == n % SALT_SCATTERED_PHASES && salt_session_word(session).number == SALT_INCOMPLETE);
        before[n] = session;
        SaltSessionFed fed = salt_session_feed(session, symbols[n], SALT_SYMBOL_FLOATS, out.at, out.length, journal->at, journal->length);
        CHECK(fed.number == SALT_ACCEPTED && fed.bit == bits[n] && fed.session.count == n + 1);
        CHECK(memcmp(out.at, data[n], sizeof data[n]) == 0 && unchanged_from(&out, SALT_DATA_FLOATS));
        const float *place = (float *)journal->at + SALT_TPS_FLOATS * n;
        for (size_t k = 0; k < SALT_TPS_CARRIERS; k++) {
            CHECK(memcmp(place + 2 * k, symbols[n] + 2 * bins.carriers[k], 2 * sizeof(float)) == 0);
        }
        CHECK(unchanged_from(journal, SALT_TPS_FLOATS * (n + 1)));
        session = fed.session;
        give_back(&out);
    }
    before[SALT_TPS_WORD_BITS] = session;
}

/* Steps back through the whole frame, to each session as it was, and writes nothing. */
static void back_to_the_start(Lent *journal) {
    SaltSession session = before[SALT_TPS_WORD_BITS];
    memcpy(journal->was, journal->at, journal->length * journal->width);
    for (size_t n = SALT_TPS_WORD_BITS; n-- > 0;) {
        SaltSessionStepped stepped = salt_session_step_back(session, journal->at, journal->length);
        CHECK(stepped.number == SALT_ACCEPTED && same_session(&stepped.session, &before[n]) && unchanged_from(journal, 0));
        session = stepped.session;
    }
    SaltSessionStepped refused = salt_session_step_back(session, journal->at, journal->length);
    CHECK(refused.number == SALT_EMPTY && same_session(&refused.session, &session));
    CHECK(salt_session_step_back(session, journal->at, journal->length - 1).number == SALT_OUTPUT_SHORT);
}

/* Feeds over the frame's end and goes back over it: the next frame stands in the other half, and nothing else is written. */
static void over_the_end(Lent *journal) {
    float out[SALT_DATA_FLOATS];
    const size_t half = SALT_JOURNAL_FLOATS / 2;
    SaltSession session = before[SALT_TPS_WORD_BITS];
    memcpy(journal->was, journal->at, journal->length * journal->width);
    SaltSessionFed fed = salt_session_feed(session, symbols[0], SALT_SYMBOL_FLOATS, out, SALT_DATA_FLOATS, journal->at, journal->length);
    CHECK(fed.number == SALT_ACCEPTED && fed.bit == bits[0] && memcmp(out, data[0], sizeof data[0]) == 0);
    CHECK(fed.session.count == 1 && fed.session.frames == 1 && fed.session.behind == 0 && salt_session_phase(fed.session) == 1);
    CHECK(salt_session_word(fed.session).number == SALT_INCOMPLETE);
    CHECK(memcmp(journal->at, journal->was, half * sizeof(float)) == 0);
    CHECK(memcmp((float *)journal->at + half, journal->at, SALT_TPS_FLOATS * sizeof(float)) == 0 && unchanged_from(journal, half + SALT_TPS_FLOATS));
    SaltSessionStepped stepped = salt_session_step_back(fed.session, journal->at, journal->length);
    session.behind = 1;
    CHECK(stepped.number == SALT_ACCEPTED && same_session(&stepped.session, &session) && salt_session_word(stepped.session).number == SALT_ACCEPTED);
    fed.session.behind = 9;
    stepped = salt_session_step_back(fed.session, journal->at, journal->length);
    CHECK(stepped.number == SALT_EMPTY && same_session(&stepped.session, &fed.session));
}

/* A full session: its word, and what it refuses, in 01's order; and one whose counts are past 68 and 1,000,000. */
static void full(Lent *journal) {
    float out[SALT_DATA_FLOATS] = {0};
    SaltSession session = before[SALT_TPS_WORD_BITS];
    memcpy(journal->was, journal->at, journal->length * journal->width);
    session.frames = SALT_LAST_FRAME;
    SaltUnpacked read = salt_session_word(session);
    CHECK(read.number == SALT_ACCEPTED && memcmp(&read.word, &word, sizeof word) == 0 && read.mended == 0 && read.first == SALT_NO_PLACE);
    SaltSessionFed refused = salt_session_feed(session, symbols[0], SALT_SYMBOL_FLOATS, out, SALT_DATA_FLOATS, journal->at, journal->length);
    CHECK(refused.number == SALT_FULL && refused.bit == 0 && same_session(&refused.session, &session) && unchanged_from(journal, 0));
    CHECK(salt_session_feed(session, symbols[0], SALT_SYMBOL_FLOATS, out, SALT_DATA_FLOATS, journal->at, 0).number == SALT_OUTPUT_SHORT);
    CHECK(salt_session_feed(session, symbols[0], SALT_SYMBOL_FLOATS, out, 0, journal->at, 0).number == SALT_OUTPUT_SHORT);
    CHECK(salt_session_feed(session, symbols[0], SALT_SYMBOL_FLOATS - 1, out, 0, journal->at, 0).number == SALT_LENGTH);
    session.count = SIZE_MAX;
    session.frames = SIZE_MAX;
    CHECK(salt_session_feed(session, symbols[0], SALT_SYMBOL_FLOATS, out, SALT_DATA_FLOATS, journal->at, journal->length).number == SALT_FULL);
    CHECK(salt_session_phase(session) == 0 && salt_session_word(session).number == SALT_ACCEPTED);
    SaltSessionStepped stepped = salt_session_step_back(session, journal->at, journal->length);
    before[SALT_TPS_WORD_BITS - 1].frames = SALT_LAST_FRAME;
    CHECK(stepped.number == SALT_ACCEPTED && same_session(&stepped.session, &before[SALT_TPS_WORD_BITS - 1]));
    session = salt_session_reset(session);
    CHECK(same_session(&session, &before[0]));
}

/* Cells are the same by their bits, any NaN counting as any other. */
static void same_cells(void) {
    const SaltCell zero = {0.0f, 0.0f}, minus = {0.0f, -0.0f}, nan = {NAN, 1.0f}, other = {-NAN, 1.0f};
    CHECK(salt_cell_same(zero, zero) == 1 && salt_cell_same(zero, minus) == 0);
    CHECK(salt_cell_same(nan, other) == 1 && salt_cell_same(nan, zero) == 0 && salt_cell_same(zero, nan) == 0);
}

void test_session(void) {
    Lent journal = lend(SALT_JOURNAL_FLOATS, sizeof(float));
    make_symbols();
    feed_all(&journal);
    back_to_the_start(&journal);
    over_the_end(&journal);
    full(&journal);
    same_cells();
    give_back(&journal);
}
