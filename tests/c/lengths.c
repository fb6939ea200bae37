/* Every function that takes a slice, at the lengths 0, 1, one short, exact and one over of each of its slices: the refusal, and what is left. */
#include "check.h"

#include <stdio.h>
#include <string.h>

enum { MOST_SLICES = 3, LENGTHS = 5 };

/* What an accepted call writes of a slice: nothing, its exact front, or all of it. */
typedef enum Written { READ, FRONT, WHOLE } Written;

/* A slice: the bytes of an item, the exact length, what is written, and the numbers owed at the five lengths. */
typedef struct Slice {
    size_t width;
    size_t exact;
    Written written;
    uint8_t owed[LENGTHS];
} Slice;

/* A function: its call with lent slices, whose answer's number it gives. */
typedef struct Function {
    const char *name;
    uint8_t (*call)(const Lent *lent);
    Slice slices[MOST_SLICES];
} Function;

#define AT(i) lent[i].at, lent[i].length

/* Owed of an input of one length, of an input that may be longer, of an output, of an input that needs more output, of an input and an output of what is retired, and where no length is refused. */
#define ONE_LENGTH {SALT_LENGTH, SALT_LENGTH, SALT_LENGTH, SALT_ACCEPTED, SALT_LENGTH}
#define AT_LEAST {SALT_LENGTH, SALT_LENGTH, SALT_LENGTH, SALT_ACCEPTED, SALT_ACCEPTED}
#define OUTPUT {SALT_OUTPUT_SHORT, SALT_OUTPUT_SHORT, SALT_OUTPUT_SHORT, SALT_ACCEPTED, SALT_ACCEPTED}
#define GROWS {SALT_ACCEPTED, SALT_ACCEPTED, SALT_ACCEPTED, SALT_ACCEPTED, SALT_OUTPUT_SHORT}
#define NO_MORE {SALT_LENGTH, SALT_LENGTH, SALT_LENGTH, SALT_RETIRED, SALT_RETIRED}
#define IN_VAIN {SALT_RETIRED, SALT_RETIRED, SALT_RETIRED, SALT_RETIRED, SALT_RETIRED}
#define ANY {SALT_ACCEPTED, SALT_ACCEPTED, SALT_ACCEPTED, SALT_ACCEPTED, SALT_ACCEPTED}

static const SaltCell cell = {0.25f, -0.25f};
static const SaltScatteredPilotMapper mapper = {2};
static const SaltScatteredPilotExtractor extractor = {3};
static const SaltTpsWord word = {3, 1, 2, 1, 99};

/* Functions of packets. The register of a whitener that was fed isn't 0. */
static uint8_t packetize(const Lent *lent) { return salt_ts_packetize_dispersed(AT(0), AT(1)).number; }
static uint8_t depacketize(const Lent *lent) { return salt_ts_depacketize(AT(0), AT(1)).number; }
static uint8_t stuff(const Lent *lent) { return salt_ts_stuff_null_packets(AT(0), SALT_PACKET_BYTES, 2).number; }
static uint8_t disperse(const Lent *lent) { return salt_ts_energy_disperse(AT(0)).number; }
static uint8_t feed(const Lent *lent) { return salt_dvb_t_energy_dispersal_feed(salt_dvb_t_energy_dispersal_new(), AT(0), AT(1)).answer.number; }
static uint8_t feed_in_place(const Lent *lent) { return salt_dvb_t_energy_dispersal_feed_in_place(salt_dvb_t_energy_dispersal_new(), AT(0)).reg == 0; }

/* Functions of cells and carriers. */
static uint8_t map(const Lent *lent) { return salt_dvb_t_map_symbol(AT(0)).number; }
static uint8_t demap_two(const Lent *lent) { return salt_dvb_t_demap_symbol(cell, 2, AT(0)).number; }
static uint8_t demap_four(const Lent *lent) { return salt_dvb_t_demap_symbol(cell, 4, AT(0)).number; }
static uint8_t demap_six(const Lent *lent) { return salt_dvb_t_demap_symbol(cell, 6, AT(0)).number; }
static uint8_t wk(const Lent *lent) { salt_wk_prbs(AT(0)); return 0; }
static uint8_t scattered_first(const Lent *lent) { return salt_scattered_pilot_indices(4, AT(0)).number; }
static uint8_t scattered_other(const Lent *lent) { return salt_scattered_pilot_indices(3, AT(0)).number; }
static uint8_t data(const Lent *lent) { return salt_data_bins(1, AT(0)).number; }
static uint8_t static_data(const Lent *lent) { return salt_static_data_bins(AT(0)).number; }
static uint8_t reference(const Lent *lent) { return salt_reference_pilot_bins(2, AT(0), AT(1)).number; }

/* Functions of symbols. */
static uint8_t map_symbol(const Lent *lent) { return salt_scattered_pilot_mapper_map_symbol(mapper, AT(0), AT(1)).number; }
static uint8_t data_of(const Lent *lent) { return salt_scattered_pilot_extractor_data_bins(extractor, AT(0)).number; }
static uint8_t pilots_of(const Lent *lent) { return salt_scattered_pilot_extractor_current_pilot_bins(extractor, AT(0), AT(1)).number; }
static uint8_t extract_symbol(const Lent *lent) { return salt_scattered_pilot_extractor_extract_symbol(extractor, AT(0), AT(1)).number; }
static uint8_t grid_map(const Lent *lent) { return salt_grid_map(AT(0), AT(1)).number; }
static uint8_t grid_extract(const Lent *lent) { return salt_grid_extract(AT(0), AT(1)).number; }
static uint8_t interleave_even(const Lent *lent) { return salt_interleave(2, AT(0), AT(1)).number; }
static uint8_t interleave_odd(const Lent *lent) { return salt_interleave(67, AT(0), AT(1)).number; }
static uint8_t deinterleave_even(const Lent *lent) { return salt_deinterleave(2, AT(0), AT(1)).number; }
static uint8_t deinterleave_odd(const Lent *lent) { return salt_deinterleave(67, AT(0), AT(1)).number; }

/* Functions of TPS. */
static uint8_t encode(const Lent *lent) { return salt_tps_bch_encode(AT(0), AT(1)).number; }
static uint8_t decode(const Lent *lent) { return salt_tps_bch_decode(AT(0), AT(1)).number; }
static uint8_t decode_slow(const Lent *lent) { return salt_tps_bch_decode_slow(AT(0), AT(1)).number; }
static uint8_t pack(const Lent *lent) { return salt_tps_word_pack(word, AT(0)).number; }
static uint8_t unpack(const Lent *lent) { return salt_tps_word_unpack(AT(0)).number; }
static uint8_t next_symbol(const Lent *lent) { return salt_tps_encoder_next_symbol(salt_tps_encoder_new(), 1, AT(0)).answer.number; }
static uint8_t feed_symbol(const Lent *lent) { return salt_tps_decoder_feed_symbol(salt_tps_decoder_new(), AT(0)).number; }
static uint8_t feed_symbol_in_place(const Lent *lent) {
    SaltTpsDecoder decoder = salt_tps_decoder_new();
    return salt_tps_decoder_feed_in_place(&decoder.prev[0].re, decoder.bits, &decoder.count, AT(0)).number;
}
static uint8_t bits_of(size_t count, const Lent *lent) {
    SaltTpsDecoder decoder = salt_tps_decoder_new();
    decoder.count = count;
    return salt_tps_decoder_bits(decoder, AT(0)).number;
}
static uint8_t bits_of_five(const Lent *lent) { return bits_of(5, lent); }
static uint8_t bits_of_frame(const Lent *lent) { return bits_of(SIZE_MAX, lent); }

/* Functions of the session. A session with one symbol standing has one to take back. */
static uint8_t session_feed(const Lent *lent) { return salt_session_feed(salt_session_new(), AT(0), AT(1), AT(2)).number; }
static uint8_t session_step_back(const Lent *lent) {
    SaltSession session = salt_session_new();
    session.count = 1;
    return salt_session_step_back(session, AT(0)).number;
}

/* Functions of the report. A line is of digits. */
static uint8_t read_line(const Lent *lent) {
    memset(lent->at, '0', lent->length);
    memset(lent->was, '0', lent->length);
    return salt_read_line(AT(0)).number;
}
static uint8_t put_heading(const Lent *lent) { return salt_put_heading(AT(0)).number; }
static uint8_t put_line(const Lent *lent) {
    const SaltUnpacked answer = {0, word, 0, SALT_NO_PLACE, SALT_NO_PLACE};
    return salt_put_line(1, answer, AT(0)).number;
}
static uint8_t reader_feed(const Lent *lent) { return salt_reader_feed(salt_reader_new(), AT(0), AT(1)).answer.number; }
static uint8_t reader_feed_slow(const Lent *lent) { return salt_reader_feed_slow(salt_reader_new(), AT(0), AT(1)).answer.number; }
static uint8_t reader_close_slow(const Lent *lent) { return salt_reader_close_slow(salt_reader_new(), AT(0)).number; }
static uint8_t reader_close(const Lent *lent) { return salt_reader_close(salt_reader_new(), AT(0)).number; }

static const Function functions[] = {
    {"ts_packetize_dispersed", packetize, {{1, 187, READ, GROWS}, {1, 188, FRONT, OUTPUT}}},
    {"ts_depacketize", depacketize, {{1, 188, READ, ONE_LENGTH}, {1, 187, FRONT, OUTPUT}}},
    {"ts_stuff_null_packets", stuff, {{1, 376, FRONT, {SALT_LENGTH, SALT_LENGTH, SALT_OUTPUT_SHORT, SALT_ACCEPTED, SALT_ACCEPTED}}}},
    {"ts_energy_disperse", disperse, {{1, 188, FRONT, {SALT_ACCEPTED, SALT_LENGTH, SALT_LENGTH, SALT_ACCEPTED, SALT_LENGTH}}}},
    {"DvbTEnergyDispersal::feed", feed, {{1, 21, READ, GROWS}, {1, 21, FRONT, OUTPUT}}},
    {"DvbTEnergyDispersal::feed_in_place", feed_in_place, {{1, 21, WHOLE, ANY}}},
    {"dvb_t_map_symbol, 2", map, {{1, 2, READ, ONE_LENGTH}}},
    {"dvb_t_map_symbol, 4", map, {{1, 4, READ, ONE_LENGTH}}},
    {"dvb_t_map_symbol, 6", map, {{1, 6, READ, ONE_LENGTH}}},
    {"dvb_t_demap_symbol, 2", demap_two, {{1, 2, FRONT, OUTPUT}}},
    {"dvb_t_demap_symbol, 4", demap_four, {{1, 4, FRONT, OUTPUT}}},
    {"dvb_t_demap_symbol, 6", demap_six, {{1, 6, FRONT, OUTPUT}}},
    {"wk_prbs", wk, {{1, SALT_ACTIVE_CARRIERS, WHOLE, ANY}}},
    {"scattered_pilot_indices, phase 0", scattered_first, {{2, SALT_SCATTERED_MOST, FRONT, OUTPUT}}},
    {"scattered_pilot_indices, phase 3", scattered_other, {{2, SALT_SCATTERED_MOST - 1, FRONT, OUTPUT}}},
    {"data_bins", data, {{2, SALT_DATA_CELLS, FRONT, OUTPUT}}},
    {"static_data_bins", static_data, {{2, SALT_STATIC_DATA_CELLS, FRONT, OUTPUT}}},
    {"reference_pilot_bins", reference, {{2, SALT_REFERENCE_PILOTS, FRONT, OUTPUT}, {4, SALT_REFERENCE_FLOATS, FRONT, OUTPUT}}},
    {"ScatteredPilotMapper::map_symbol", map_symbol, {{4, SALT_DATA_FLOATS, READ, AT_LEAST}, {4, SALT_SYMBOL_FLOATS, FRONT, OUTPUT}}},
    {"ScatteredPilotExtractor::data_bins", data_of, {{2, SALT_DATA_CELLS, FRONT, OUTPUT}}},
    {"ScatteredPilotExtractor::current_pilot_bins", pilots_of, {{2, SALT_REFERENCE_PILOTS, FRONT, OUTPUT}, {4, SALT_REFERENCE_FLOATS, FRONT, OUTPUT}}},
    {"ScatteredPilotExtractor::extract_symbol", extract_symbol, {{4, SALT_SYMBOL_FLOATS, READ, AT_LEAST}, {4, SALT_DATA_FLOATS, FRONT, OUTPUT}}},
    {"grid_map", grid_map, {{4, SALT_STATIC_DATA_FLOATS, READ, NO_MORE}, {4, SALT_SYMBOL_FLOATS, FRONT, IN_VAIN}}},
    {"grid_extract", grid_extract, {{4, SALT_SYMBOL_FLOATS, READ, AT_LEAST}, {4, SALT_STATIC_DATA_FLOATS, FRONT, OUTPUT}}},
    {"interleave, even", interleave_even, {{4, SALT_DATA_FLOATS, READ, AT_LEAST}, {4, SALT_DATA_FLOATS, FRONT, OUTPUT}}},
    {"interleave, odd", interleave_odd, {{4, SALT_DATA_FLOATS, READ, AT_LEAST}, {4, SALT_DATA_FLOATS, FRONT, OUTPUT}}},
    {"deinterleave, even", deinterleave_even, {{4, SALT_DATA_FLOATS, READ, AT_LEAST}, {4, SALT_DATA_FLOATS, FRONT, OUTPUT}}},
    {"deinterleave, odd", deinterleave_odd, {{4, SALT_DATA_FLOATS, READ, AT_LEAST}, {4, SALT_DATA_FLOATS, FRONT, OUTPUT}}},
    {"tps_bch_encode", encode, {{1, SALT_TPS_INFORMATION_BITS, READ, ONE_LENGTH}, {1, SALT_TPS_CODEWORD_BITS, FRONT, OUTPUT}}},
    {"tps_bch_decode", decode, {{1, SALT_TPS_CODEWORD_BITS, READ, ONE_LENGTH}, {1, SALT_TPS_INFORMATION_BITS, FRONT, OUTPUT}}},
    {"tps_bch_decode_slow", decode_slow, {{1, SALT_TPS_CODEWORD_BITS, READ, ONE_LENGTH}, {1, SALT_TPS_INFORMATION_BITS, FRONT, OUTPUT}}},
    {"TpsWord::pack", pack, {{1, SALT_TPS_WORD_BITS, FRONT, OUTPUT}}},
    {"TpsWord::unpack", unpack, {{1, SALT_TPS_WORD_BITS, READ, ONE_LENGTH}}},
    {"TpsEncoder::next_symbol", next_symbol, {{4, SALT_TPS_FLOATS, FRONT, OUTPUT}}},
    {"TpsDecoder::feed_symbol", feed_symbol, {{4, SALT_TPS_FLOATS, READ, AT_LEAST}}},
    {"TpsDecoder::feed_symbol, in place", feed_symbol_in_place, {{4, SALT_TPS_FLOATS, READ, AT_LEAST}}},
    {"TpsDecoder::bits, 5", bits_of_five, {{1, 5, FRONT, OUTPUT}}},
    {"TpsDecoder::bits, 68", bits_of_frame, {{1, SALT_TPS_WORD_BITS, FRONT, OUTPUT}}},
    {"Session::feed", session_feed, {{4, SALT_SYMBOL_FLOATS, READ, AT_LEAST}, {4, SALT_DATA_FLOATS, FRONT, OUTPUT}, {4, SALT_JOURNAL_FLOATS, FRONT, OUTPUT}}},
    {"Session::step_back", session_step_back, {{4, SALT_JOURNAL_FLOATS, READ, OUTPUT}}},
    {"read_line", read_line, {{1, SALT_LINE_DIGITS, READ, {SALT_BAD_LINE, SALT_BAD_LINE, SALT_BAD_LINE, SALT_ACCEPTED, SALT_BAD_LINE}}}},
    {"put_heading", put_heading, {{1, SALT_HEADING_BYTES, FRONT, OUTPUT}}},
    {"put_line", put_line, {{1, SALT_LINE_ROOM, FRONT, OUTPUT}}},
    {"Reader::feed", reader_feed, {{1, 2, READ, GROWS}, {1, 2 * SALT_LINE_ROOM, FRONT, OUTPUT}}},
    {"Reader::feed, slow", reader_feed_slow, {{1, 2, READ, GROWS}, {1, 2 * SALT_LINE_ROOM, FRONT, OUTPUT}}},
    {"Reader::close, slow", reader_close_slow, {{1, SALT_CLOSE_ROOM, FRONT, OUTPUT}}},
    {"Reader::close", reader_close, {{1, SALT_CLOSE_ROOM, FRONT, OUTPUT}}},
};

/* From which item on a slice must be as it was. */
static size_t stays_from(const Slice *slice, const Lent *lent, uint8_t number) {
    if (number != SALT_ACCEPTED || slice->written == READ) {
        return 0;
    }
    return slice->written == FRONT ? slice->exact : lent->length;
}

/* One call with slices of these lengths: the number owed, and nothing written that isn't said. Inputs are zeros, which are bits. */
static void with_lengths(const Function *function, const size_t *lengths, uint8_t owed) {
    Lent lent[MOST_SLICES];
    unsigned long before = checks_failed;
    for (size_t i = 0; i < MOST_SLICES; i++) {
        const Slice *slice = &function->slices[i];
        lent[i] = (slice->written == READ ? lend_zeros : lend)(lengths[i], slice->width);
    }
    uint8_t number = function->call(lent);
    CHECK(number == owed);
    for (size_t i = 0; i < MOST_SLICES; i++) {
        CHECK(unchanged_from(&lent[i], stays_from(&function->slices[i], &lent[i], number)));
        give_back(&lent[i]);
    }
    if (checks_failed != before) {
        printf("%s with lengths %zu, %zu, %zu: number %u, owed %u\n", function->name, lengths[0], lengths[1], lengths[2], number, owed);
    }
}

/* One slice at each of the five lengths, the others exact. */
static void one_varied(const Function *function, size_t varied) {
    const size_t exact = function->slices[varied].exact, five[LENGTHS] = {0, 1, exact - 1, exact, exact + 1};
    for (size_t at = 0; at < LENGTHS; at++) {
        size_t lengths[MOST_SLICES];
        for (size_t i = 0; i < MOST_SLICES; i++) {
            lengths[i] = i == varied ? five[at] : function->slices[i].exact;
        }
        with_lengths(function, lengths, function->slices[varied].owed[at]);
    }
}

/* All slices empty that may not be: of LENGTH and OUTPUT SHORT the first is given. */
static void all_empty(const Function *function) {
    size_t lengths[MOST_SLICES];
    uint8_t owed = SALT_ACCEPTED;
    for (size_t i = 0; i < MOST_SLICES; i++) {
        uint8_t own = function->slices[i].owed[0];
        lengths[i] = own == SALT_ACCEPTED ? function->slices[i].exact : 0;
        owed = owed == SALT_ACCEPTED || own == SALT_LENGTH ? own : owed;
    }
    with_lengths(function, lengths, owed);
}

/* The lengths that a failed read hands on, as if they were a slice's: wherever the call can refuse, it does, and reads and writes nothing. */
static void failed_read(size_t length) {
    uint8_t in[1] = {0}, out[60] = {0};
    CHECK(salt_ts_packetize_dispersed(in, length, out, sizeof out).number == SALT_OUTPUT_SHORT);
    CHECK(salt_ts_depacketize(in, length, out, sizeof out).number == SALT_LENGTH);
    CHECK(salt_ts_energy_disperse(out, length).number == SALT_LENGTH);
    CHECK(salt_ts_stuff_null_packets(out, sizeof out, length, 0).number == SALT_LENGTH);
    CHECK(salt_dvb_t_energy_dispersal_feed(salt_dvb_t_energy_dispersal_new(), in, length, out, sizeof out).answer.number == SALT_OUTPUT_SHORT);
    CHECK(salt_dvb_t_map_symbol(in, length).number == SALT_LENGTH);
    CHECK(salt_tps_bch_encode(in, length, out, sizeof out).number == SALT_LENGTH);
    CHECK(salt_tps_bch_decode(in, length, out, sizeof out).number == SALT_LENGTH);
    CHECK(salt_tps_word_unpack(in, length).number == SALT_LENGTH);
    CHECK(salt_read_line(in, length).number == SALT_BAD_LINE);
    CHECK(salt_reader_feed(salt_reader_new(), in, length, out, sizeof out).answer.number == SALT_OUTPUT_SHORT);
}

void test_lengths(void) {
    failed_read(SIZE_MAX);
    failed_read(SIZE_MAX - 185);
    for (size_t f = 0; f < sizeof functions / sizeof functions[0]; f++) {
        for (size_t i = 0; i < MOST_SLICES && functions[f].slices[i].exact != 0; i++) {
            one_varied(&functions[f], i);
        }
        all_empty(&functions[f]);
    }
}
