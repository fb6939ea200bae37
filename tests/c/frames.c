/* The TPS frame, sent and received. */
#include "check.h"

#include <string.h>

static const SaltTpsWord word = {1, 1, 3, 2, 0x5A};

/* Whether two receivers have the same bits. */
static int same_receiver(const SaltTpsDecoder *a, const SaltTpsDecoder *b) {
    return memcmp(a->prev, b->prev, sizeof a->prev) == 0 && memcmp(a->bits, b->bits, sizeof a->bits) == 0 && a->count == b->count;
}

/* Feeds a symbol in place, and holds the answer and the receiver to those of feeding it by value. */
static SaltTpsBit feed(SaltTpsDecoder *decoder, const float *cells, size_t cells_length) {
    SaltTpsFed by_value = salt_tps_decoder_feed_symbol(*decoder, cells, cells_length);
    SaltTpsBit fed = salt_tps_decoder_feed_in_place(&decoder->prev[0].re, decoder->bits, &decoder->count, cells, cells_length);
    CHECK(fed.number == by_value.number && fed.bit == by_value.bit && same_receiver(decoder, &by_value.decoder));
    return fed;
}

/* Feeding a symbol is refused with this number, and changes nothing. */
static void refused_feed(SaltTpsDecoder decoder, const float *cells, size_t cells_length, uint8_t number) {
    SaltTpsDecoder before = decoder;
    SaltTpsBit fed = feed(&decoder, cells, cells_length);
    CHECK(fed.number == number && fed.bit == 0 && same_receiver(&decoder, &before));
}

/* The received bits are these, at the front of an output that is longer; one that is shorter is refused. */
static void received(SaltTpsDecoder decoder, const uint8_t *bits, size_t count) {
    Lent longer = lend(count + 1, 1), shorter = lend(count == 0 ? 0 : count - 1, 1);
    SaltCounted answer = salt_tps_decoder_bits(decoder, longer.at, longer.length), refused = salt_tps_decoder_bits(decoder, shorter.at, shorter.length);
    CHECK(answer.number == SALT_ACCEPTED && answer.count == count && memcmp(longer.at, bits, count) == 0 && unchanged_from(&longer, count));
    CHECK(refused.number == (count == 0 ? SALT_ACCEPTED : SALT_OUTPUT_SHORT) && refused.count == 0 && unchanged_from(&shorter, 0));
    give_back(&longer);
    give_back(&shorter);
}

/* A frame is sent and received bit by bit; gives the full receiver. */
static SaltTpsDecoder whole_frame(void) {
    uint8_t bits[SALT_TPS_WORD_BITS], w[SALT_ACTIVE_CARRIERS];
    float cells[SALT_TPS_FLOATS];
    SaltTpsEncoder encoder = salt_tps_encoder_new();
    SaltTpsDecoder decoder = salt_tps_decoder_new();
    SaltTps carriers = salt_tps_carrier_indices();
    salt_wk_prbs(w, sizeof w);
    CHECK(salt_tps_word_pack(word, bits, sizeof bits).number == SALT_ACCEPTED);
    float sign = 1.0f;
    for (size_t n = 0; n < SALT_TPS_WORD_BITS; n++) {
        CHECK(salt_tps_decoder_is_complete(decoder) == 0 && salt_tps_decoder_word(decoder).number == SALT_INCOMPLETE);
        SaltSent sent = salt_tps_encoder_next_symbol(encoder, bits[n], cells, SALT_TPS_FLOATS);
        CHECK(sent.answer.number == SALT_ACCEPTED && sent.answer.count == SALT_TPS_CARRIERS && sent.encoder.started);
        sign = bits[n] == 1 ? -sign : sign;
        for (size_t k = 0; k < SALT_TPS_CARRIERS; k++) {
            CHECK(same_float(cells[2 * k], w[carriers.carriers[k]] == 0 ? sign : -sign) && same_float(cells[2 * k + 1], 0.0f));
        }
        received(decoder, bits, n);
        refused_feed(decoder, cells, SALT_TPS_FLOATS - 1, SALT_LENGTH);
        SaltTpsBit fed = feed(&decoder, cells, SALT_TPS_FLOATS);
        CHECK(fed.number == SALT_ACCEPTED && fed.bit == bits[n] && decoder.count == n + 1 && decoder.bits[n] == bits[n]);
        CHECK(memcmp(decoder.prev, cells, sizeof cells) == 0);
        encoder = sent.encoder;
    }
    received(decoder, bits, SALT_TPS_WORD_BITS);
    return decoder;
}

/* A full receiver gives its word, and refuses another symbol. */
static void full(SaltTpsDecoder decoder) {
    float cells[SALT_TPS_FLOATS] = {0};
    SaltUnpacked read = salt_tps_decoder_word(decoder);
    CHECK(salt_tps_decoder_is_complete(decoder) == 1 && read.number == SALT_ACCEPTED && memcmp(&read.word, &word, sizeof word) == 0);
    CHECK(read.mended == 0 && read.first == SALT_NO_PLACE && read.second == SALT_NO_PLACE);
    refused_feed(decoder, cells, SALT_TPS_FLOATS, SALT_FULL);
    refused_feed(decoder, cells, SALT_TPS_FLOATS - 1, SALT_LENGTH);
    uint8_t bits[SALT_TPS_WORD_BITS];
    memcpy(bits, decoder.bits, sizeof bits);
    decoder.count = SIZE_MAX;
    for (size_t n = 0; n < SALT_TPS_WORD_BITS; n++) {
        decoder.bits[n] = bits[n] == 0 ? 0 : 200;
    }
    CHECK(salt_tps_decoder_is_complete(decoder) == 1 && salt_tps_decoder_word(decoder).number == SALT_ACCEPTED);
    received(decoder, bits, SALT_TPS_WORD_BITS);
    refused_feed(decoder, cells, SALT_TPS_FLOATS, SALT_FULL);
    decoder = salt_tps_decoder_reset(decoder);
    CHECK(decoder.count == 0 && decoder.bits[67] == 0 && same_float(decoder.prev[16].re, 0.0f));
}

/* A receiver whose parts stand apart: two symbols fill the front of its bits, what stood behind them reads 0, and the last one's cells are its own. */
static void in_parts(void) {
    Lent prev = lend(SALT_TPS_FLOATS, sizeof(float)), bits = lend(SALT_TPS_WORD_BITS, 1), count = lend_zeros(1, sizeof(size_t));
    float cells[SALT_TPS_FLOATS];
    for (size_t n = 0; n < 2; n++) {
        for (size_t k = 0; k < SALT_TPS_FLOATS; k++) {
            cells[k] = n == 0 ? 0.5f : -0.5f;
        }
        SaltTpsBit fed = salt_tps_decoder_feed_in_place(prev.at, bits.at, count.at, cells, SALT_TPS_FLOATS);
        uint8_t held[SALT_TPS_WORD_BITS] = {0, n == 1};
        CHECK(fed.number == SALT_ACCEPTED && fed.bit == n && memcmp(bits.at, held, sizeof held) == 0);
        CHECK(memcmp(prev.at, cells, sizeof cells) == 0 && *(size_t *)count.at == n + 1);
    }
    give_back(&prev);
    give_back(&bits);
    give_back(&count);
}

/* A refused sender stays as it was. */
static void refused_sender(void) {
    float cells[SALT_TPS_FLOATS];
    SaltTpsEncoder encoder = salt_tps_encoder_next_symbol(salt_tps_encoder_new(), 0, cells, SALT_TPS_FLOATS).encoder;
    encoder = salt_tps_encoder_next_symbol(encoder, 1, cells, SALT_TPS_FLOATS).encoder;
    SaltSent refused = salt_tps_encoder_next_symbol(encoder, 2, cells, 0);
    CHECK(refused.answer.number == SALT_NOT_A_BIT && refused.answer.count == 0);
    CHECK(refused.encoder.started && memcmp(refused.encoder.signs, encoder.signs, sizeof encoder.signs) == 0);
    refused = salt_tps_encoder_next_symbol(encoder, 1, cells, SALT_TPS_FLOATS - 1);
    CHECK(refused.answer.number == SALT_OUTPUT_SHORT && memcmp(refused.encoder.signs, encoder.signs, sizeof encoder.signs) == 0);
    SaltTpsEncoder fresh = salt_tps_encoder_new(), reset = salt_tps_encoder_reset(encoder);
    CHECK(!fresh.started && !reset.started && memcmp(reset.signs, fresh.signs, sizeof fresh.signs) == 0);
    CHECK(memcmp(encoder.signs, fresh.signs, sizeof fresh.signs) != 0);
}

void test_frames(void) {
    full(whole_frame());
    in_parts();
    refused_sender();
}
