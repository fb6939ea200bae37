/* Symbols from data cells, and data cells from symbols. */
#include "check.h"

#include <string.h>

/* Whether the cells at bins are those of a list. */
static int cells_at(const float *symbol, const uint16_t *bins, const float *cells, size_t count) {
    for (size_t i = 0; i < count; i++) {
        if (memcmp(symbol + 2 * bins[i], cells + 2 * i, 2 * sizeof(float)) != 0) {
            return 0;
        }
    }
    return 1;
}

/* One symbol of the mapper, read back by the extractor; gives both on in their next phase. */
static void one_symbol(SaltScatteredPilotMapper *mapper, SaltScatteredPilotExtractor *extractor) {
    Lent cells = lend(SALT_DATA_FLOATS, sizeof(float)), symbol = lend(SALT_SYMBOL_FLOATS + 2, sizeof(float)), back = lend(SALT_DATA_FLOATS, sizeof(float));
    uint16_t data[SALT_DATA_CELLS], pilots[SALT_REFERENCE_PILOTS];
    float values[SALT_REFERENCE_FLOATS], zero[2] = {0.0f, 0.0f};
    SaltMapAnswer mapped = salt_scattered_pilot_mapper_map_symbol(*mapper, cells.at, cells.length, symbol.at, symbol.length);
    CHECK(mapped.number == SALT_ACCEPTED && mapped.mapper.phase == (mapper->phase + 1) % SALT_SCATTERED_PHASES);
    CHECK(unchanged_from(&cells, 0) && unchanged_from(&symbol, SALT_SYMBOL_FLOATS));
    CHECK(salt_scattered_pilot_extractor_data_bins(*extractor, data, SALT_DATA_CELLS).count == SALT_DATA_CELLS);
    CHECK(salt_scattered_pilot_extractor_current_pilot_bins(*extractor, pilots, SALT_REFERENCE_PILOTS, values, SALT_REFERENCE_FLOATS).count
          == SALT_REFERENCE_PILOTS);
    CHECK(cells_at(symbol.at, data, cells.at, SALT_DATA_CELLS) && cells_at(symbol.at, pilots, values, SALT_REFERENCE_PILOTS));
    CHECK(memcmp((float *)symbol.at + 2 * 853, zero, sizeof zero) == 0 && memcmp((float *)symbol.at + 2 * 1195, zero, sizeof zero) == 0);
    SaltExtractAnswer read = salt_scattered_pilot_extractor_extract_symbol(*extractor, symbol.at, symbol.length, back.at, back.length);
    CHECK(read.number == SALT_ACCEPTED && memcmp(back.at, cells.at, SALT_DATA_FLOATS * sizeof(float)) == 0);
    CHECK(salt_scattered_pilot_extractor_phase(read.extractor) == mapped.mapper.phase);
    *mapper = mapped.mapper;
    *extractor = read.extractor;
    give_back(&cells);
    give_back(&symbol);
    give_back(&back);
}

/* A refused call gives the state back as it went in, whatever it is. */
static void refused_states(void) {
    float cells[SALT_DATA_FLOATS] = {0}, symbol[SALT_SYMBOL_FLOATS] = {0};
    SaltScatteredPilotMapper mapper = {7};
    SaltScatteredPilotExtractor extractor = {SIZE_MAX};
    SaltMapAnswer mapped = salt_scattered_pilot_mapper_map_symbol(mapper, cells, SALT_DATA_FLOATS - 1, symbol, 0);
    CHECK(mapped.number == SALT_LENGTH && mapped.mapper.phase == 7);
    SaltExtractAnswer read = salt_scattered_pilot_extractor_extract_symbol(extractor, symbol, SALT_SYMBOL_FLOATS, cells, 0);
    CHECK(read.number == SALT_OUTPUT_SHORT && read.extractor.phase == SIZE_MAX);
    CHECK(salt_scattered_pilot_extractor_phase(extractor) == 3);
    CHECK(salt_scattered_pilot_mapper_map_symbol(mapper, cells, SALT_DATA_FLOATS, symbol, SALT_SYMBOL_FLOATS).mapper.phase == 0);
    CHECK(salt_scattered_pilot_mapper_reset(mapper).phase == 0 && salt_scattered_pilot_extractor_reset(extractor).phase == 0);
}

/* The static grid: its symbols are read, and none is made. */
static void static_grid(void) {
    Lent cells = lend(SALT_STATIC_DATA_FLOATS, sizeof(float)), symbol = lend(SALT_SYMBOL_FLOATS, sizeof(float));
    Lent back = lend(SALT_STATIC_DATA_FLOATS, sizeof(float));
    uint16_t data[SALT_STATIC_DATA_CELLS];
    SaltCounted mapped = salt_grid_map(cells.at, cells.length, symbol.at, symbol.length);
    CHECK(mapped.number == SALT_RETIRED && mapped.count == 0);
    CHECK(salt_grid_map(cells.at, cells.length, symbol.at, 0).number == SALT_RETIRED);
    CHECK(salt_grid_map(cells.at, cells.length - 1, symbol.at, 0).number == SALT_LENGTH);
    CHECK(unchanged_from(&symbol, 0));
    CHECK(salt_static_data_bins(data, SALT_STATIC_DATA_CELLS).count == SALT_STATIC_DATA_CELLS);
    CHECK(salt_grid_extract(symbol.at, symbol.length, back.at, back.length).count == SALT_STATIC_DATA_CELLS);
    CHECK(cells_at(symbol.at, data, back.at, SALT_STATIC_DATA_CELLS));
    give_back(&cells);
    give_back(&symbol);
    give_back(&back);
}

void test_symbols(void) {
    SaltScatteredPilotMapper mapper = salt_scattered_pilot_mapper_new();
    SaltScatteredPilotExtractor extractor = salt_scattered_pilot_extractor_new();
    CHECK(mapper.phase == 0 && salt_scattered_pilot_extractor_phase(extractor) == 0);
    for (int i = 0; i < 5; i++) {
        one_symbol(&mapper, &extractor);
    }
    refused_states();
    static_grid();
}
