/*
 * Saltkernel: the DVB-T 2K waveform layer of a bench analyser. C99 and C++.
 *
 * Link with libsaltkernel.a (`tests/archive` has target/staticlib/libsaltkernel.a written, for x86-64).
 * `include/generate` makes include/saltkernel.h and rust/src/sys.rs from crates/saltkernel: change them there.
 *
 * A slice is two arguments, a pointer and a length in items. The pointer isn't null, even where the length is 0, and
 * is aligned for its type. The slices of one call don't overlap. A `const` one is only read; into any other the call
 * writes what is said of it and nothing behind that. A pointer with no length beside it is a slice whose length is
 * said at its function.
 *
 * Every function is defined for all values and all lengths. A call that can't be done is refused: its answer has the
 * refusal's number, every other part of the answer is 0, SALT_NO_PLACE or the state as it went in, and every slice is
 * unchanged; 10 and 11 alone change a state, the desk's. Number 0 is accepted. Of several refusals that apply the
 * first is given, in the order in which each function names them.
 *
 * State is passed and returned by value, or lent to salt_tps_decoder_feed_in_place; no function keeps any, so calls
 * may be made from any thread. What a state's fields hold is no secret: a state that is copied is a second one, and a
 * state that is made by hand is read as said at its type.
 *
 * A cell is a carrier's value, two floats: re, then im. A slice of n cells is 2 n floats, re and im in turn. A bit is
 * a byte that is 0 or 1.
 *
 * ETSI EN 300 744 is the standard that sections (4.3.1 and others) refer to.
 */
#ifndef SALTKERNEL_H
#define SALTKERNEL_H

#include <stddef.h>
#include <stdint.h>

#ifdef __cplusplus
extern "C" {
#endif

/* ---- Refusals */

/* The numbers of an answer. */
enum {
    SALT_ACCEPTED = 0,
    SALT_LENGTH = 1,       /* an input slice, group size, byte count or carrier index is outside what the call takes */
    SALT_NOT_A_BIT = 2,    /* a bit argument, or an item of a bit slice, is above 1 */
    SALT_OUTPUT_SHORT = 3, /* a lent output or journal is shorter than needed */
    SALT_NO_WORD = 4,      /* no codeword lies within distance two */
    SALT_RESERVED = 5,     /* constellation 3 or rate 5, 6 or 7 received, or a code handed in above those that exist */
    SALT_FULL = 6,         /* a symbol is fed to a receiver when 68 stand, or to a session when 68 stand in its last frame */
    SALT_EMPTY = 7,        /* a step back when none stands, or into a frame that is no longer kept */
    SALT_INCOMPLETE = 8,   /* a word is asked for with fewer than 68 */
    SALT_BAD_LINE = 9,     /* the report's input line isn't 17 digits from 0-9 and a-f */
    SALT_OUT_OF_STEP = 10, /* a word that the desk takes hasn't the number that is wanted */
    SALT_MISMATCH = 11,    /* a word that the desk takes differs from those gathered */
    SALT_RETIRED = 12      /* mapping onto the static grid, which is retired */
};

/* ---- Sizes */

#define SALT_PACKET_BYTES 188  /* a transport packet */
#define SALT_PAYLOAD_BYTES 187 /* of which payload */
#define SALT_SYNC_BYTE 0x47    /* the first byte of a packet */
#define SALT_GROUP_PACKETS 8   /* packets from one restart of the whitener's register to the next */
#define SALT_SOFT_VALUES 6     /* room for the soft values of one cell */

#define SALT_SYMBOL_CELLS 2048       /* the bins of a symbol */
#define SALT_SYMBOL_FLOATS 4096      /* their floats, re and im in turn */
#define SALT_DATA_CELLS 1512         /* the data carriers of a symbol */
#define SALT_DATA_FLOATS 3024        /* their floats */
#define SALT_STATIC_DATA_CELLS 1660  /* the data carriers of the static grid */
#define SALT_STATIC_DATA_FLOATS 3320 /* their floats */
#define SALT_REFERENCE_PILOTS 176    /* the continual and scattered carriers of a symbol */
#define SALT_REFERENCE_FLOATS 352    /* their floats */
#define SALT_SCATTERED_PHASES 4      /* the phases of the scattered pilots */
#define SALT_SCATTERED_MOST 143      /* the scattered carriers of phase 0; the other phases have 142 */
#define SALT_CONTINUAL_CARRIERS 45   /* the continual carriers */
#define SALT_TPS_CARRIERS 17         /* the TPS carriers */
#define SALT_TPS_FLOATS 34           /* their floats */
#define SALT_ACTIVE_CARRIERS 1705    /* active indices are 0 to 1704 */
#define SALT_SIGNED_LAST 852         /* signed indices are -852 to 852 */

#define SALT_TPS_INFORMATION_BITS 53 /* the information bits of a TPS codeword */
#define SALT_TPS_CODEWORD_BITS 67    /* the bits of a TPS codeword */
#define SALT_NO_PLACE 255            /* a place of a codeword that stands for none */
#define SALT_TPS_WORD_BITS 68        /* a zero bit s0 and the codeword; the symbols of a frame are as many */
#define SALT_JOURNAL_FLOATS 4624     /* a session's journal: the TPS cells of the 68 symbols of two frames */
#define SALT_LAST_FRAME 1000000      /* the largest count of frames before a session's current one */

#define SALT_LINE_DIGITS 17   /* a line of the report's input: the 68 bits of a word, four a digit */
#define SALT_HEADING_BYTES 41 /* the report's heading */
#define SALT_LINE_ROOM 60     /* room for every line of the report */
#define SALT_CLOSE_ROOM 120   /* room for the report's end */

/* ---- Cells */

/* A cell by value. */
typedef struct SaltCell {
    float re;
    float im;
} SaltCell;

/* 1 where both parts of two cells have the same bits, any NaN counting as any other; else 0. */
uint8_t salt_cell_same(SaltCell cell, SaltCell other);

/* ---- Transport packets, and energy dispersal over them (4.3.1) */

/* A count, or a refusal's number and the count 0. */
typedef struct SaltCounted {
    uint8_t number;
    size_t count;
} SaltCounted;

/* The bytes of a packet. */
typedef struct SaltPacket {
    uint8_t bytes[SALT_PACKET_BYTES];
} SaltPacket;

/*
 * Puts a payload into packets and whitens them: each is 0x47 and 187 bytes of the payload, the last one filled with
 * zeros, and then what salt_ts_energy_disperse makes of it, so that nothing is sent clear. An empty payload gives one
 * packet. Answers the bytes written, 188 max(1, ceil(payload_length / 187)).
 * Refusals: 3 OUTPUT SHORT.
 */
SaltCounted salt_ts_packetize_dispersed(const uint8_t *payload, size_t payload_length, uint8_t *out,
                                        size_t out_length);

/*
 * Takes packets apart: the 187 bytes behind each first byte, which isn't checked. Answers the bytes written, 187 a
 * packet.
 * Refusals: 1 LENGTH (no byte, or not whole packets), 3 OUTPUT SHORT.
 */
SaltCounted salt_ts_depacketize(const uint8_t *packets, size_t packets_length, uint8_t *out, size_t out_length);

/* The null packet: 47 1F FF 10, then 184 bytes FF. */
SaltPacket salt_ts_null_packet(void);

/*
 * Writes null packets behind the `used` bytes in use at the front of the buffer, up to a target in packets; a target
 * at or below what is there writes nothing. The null packets are clear, as those in use have to be: whitened ones are
 * whitened again first, and all of them behind it. Answers the bytes then in use.
 * Refusals: 1 LENGTH (used is past the buffer, or not whole packets), 3 OUTPUT SHORT (the target is past the buffer).
 */
SaltCounted salt_ts_stuff_null_packets(uint8_t *ts, size_t ts_length, size_t used, size_t target);

/*
 * Whitens packets in place, or gives whitened ones back: in every group of eight the register restarts at the first
 * packet, whose first byte is XORed with 0xFF; the other first bytes stay. Answers the packets; an empty buffer has 0.
 * Refusals: 1 LENGTH (not whole packets).
 */
SaltCounted salt_ts_energy_disperse(uint8_t *packets, size_t packets_length);

/* ---- The whitener of energy dispersal (4.3.1) */

/* The whitener: its register is the low 15 bits. */
typedef struct SaltDvbTEnergyDispersal {
    uint16_t reg;
} SaltDvbTEnergyDispersal;

/* A whitener, and the count or the refusal. */
typedef struct SaltFed {
    SaltDvbTEnergyDispersal whitener;
    SaltCounted answer;
} SaltFed;

/* A whitener at the start, register 0x4A80. */
SaltDvbTEnergyDispersal salt_dvb_t_energy_dispersal_new(void);

/* The whitener at the start again. */
SaltDvbTEnergyDispersal salt_dvb_t_energy_dispersal_reset(SaltDvbTEnergyDispersal whitener);

/* The whitener eight steps on, as over a byte that stays as it is. */
SaltDvbTEnergyDispersal salt_dvb_t_energy_dispersal_advance_byte(SaltDvbTEnergyDispersal whitener);

/* Whitens bytes in place, high bit first, and returns the whitener behind them. */
SaltDvbTEnergyDispersal salt_dvb_t_energy_dispersal_feed_in_place(SaltDvbTEnergyDispersal whitener, uint8_t *bytes,
                                                                  size_t bytes_length);

/*
 * Whitens bytes into an output. Answers the bytes written and the whitener behind them.
 * Refusals: 3 OUTPUT SHORT.
 */
SaltFed salt_dvb_t_energy_dispersal_feed(SaltDvbTEnergyDispersal whitener, const uint8_t *bytes, size_t bytes_length,
                                         uint8_t *out, size_t out_length);

/* ---- Gray mapping, hard and soft demapping (4.3.5) */

/* A cell, or a refusal's number and the cell +0.0, +0.0. */
typedef struct SaltMapped {
    uint8_t number;
    SaltCell point;
} SaltMapped;

/*
 * The first `count` values, 2, 4 or 6, and +0.0 behind them; or a refusal's number, the count 0 and +0.0 throughout.
 */
typedef struct SaltSoft {
    uint8_t number;
    size_t count;
    float values[SALT_SOFT_VALUES];
} SaltSoft;

/*
 * The point of a group of 2, 4 or 6 bits (QPSK, 16-QAM, 64-QAM): even bits, high first, index the I axis, odd bits the
 * Q axis.
 * Refusals: 1 LENGTH (another group size), 2 NOT A BIT.
 */
SaltMapped salt_dvb_t_map_symbol(const uint8_t *bits, size_t bits_length);

/*
 * The v bits of the point nearest to a cell: on each axis the first index with the least distance. NaN or an infinity
 * gives index 0 on its axis. Answers v.
 * Refusals: 1 LENGTH (v isn't 2, 4 or 6), 3 OUTPUT SHORT.
 */
SaltCounted salt_dvb_t_demap_symbol(SaltCell sym, size_t v, uint8_t *out, size_t out_length);

/*
 * The soft values of a cell's v bits: the least squared distance to a level whose bit is 1 minus the same for 0, so
 * positive where 0 is likelier. A NaN or infinite coordinate gives NaN on its axis.
 * Refusals: 1 LENGTH (v isn't 2, 4 or 6).
 */
SaltSoft salt_dvb_t_soft_llr(SaltCell sym, size_t v);

/* ---- Carriers and pilots (4.5) */

/*
 * A carrier is counted in three ways, and each argument and answer says in which: an active index, 0 to 1704; a signed
 * index, active - 852; a bin, signed modulo 2,048. A phase of the scattered pilots is taken modulo 4.
 */

/* A signed index, or a refusal's number and the index 0. */
typedef struct SaltSigned {
    uint8_t number;
    int16_t index;
} SaltSigned;

/* An active index or a bin, or a refusal's number and the index 0. */
typedef struct SaltCarrier {
    uint8_t number;
    uint16_t index;
} SaltCarrier;

/* The continual carriers, in rising active order. */
typedef struct SaltContinual {
    uint16_t carriers[SALT_CONTINUAL_CARRIERS];
} SaltContinual;

/* The TPS carriers, in rising active order. */
typedef struct SaltTps {
    uint16_t carriers[SALT_TPS_CARRIERS];
} SaltTps;

/*
 * The signed index of an active one.
 * Refusals: 1 LENGTH (past 1704).
 */
SaltSigned salt_active_to_signed(uint16_t active);

/*
 * The bin of a signed index.
 * Refusals: 1 LENGTH (outside -852 to 852).
 */
SaltCarrier salt_signed_to_bin(int16_t signed_index);

/*
 * The active index of a bin.
 * Refusals: 1 LENGTH (no active carrier has this bin).
 */
SaltCarrier salt_bin_to_active(uint16_t bin);

/*
 * Fills the output with the pilot sequence w from its start, a bit a byte; the bit of an active carrier stands at its
 * index.
 */
void salt_wk_prbs(uint8_t *out, size_t out_length);

/*
 * The boosted pilot of a bit of the pilot sequence: +4/3 for 0 and -4/3 for 1, imaginary part +0.0.
 * Refusals: 2 NOT A BIT.
 */
SaltMapped salt_boosted_pilot_value(uint8_t wk);

/* The active indices of the 45 continual carriers. */
SaltContinual salt_continual_pilot_indices(void);

/* The bins of the 45 continual carriers. */
SaltContinual salt_continual_pilot_bins(void);

/* The active indices of the 17 TPS carriers. */
SaltTps salt_tps_carrier_indices(void);

/* The bins of the 17 TPS carriers. */
SaltTps salt_tps_carrier_bins(void);

/*
 * The active indices of a phase's scattered carriers: 3p, 3p + 12, .. up to 1704. Answers how many: 143 in phase 0,
 * else 142.
 * Refusals: 3 OUTPUT SHORT.
 */
SaltCounted salt_scattered_pilot_indices(size_t phase, uint16_t *out, size_t out_length);

/*
 * The bins of a phase's 1,512 data carriers, in rising active order. Answers 1,512.
 * Refusals: 3 OUTPUT SHORT.
 */
SaltCounted salt_data_bins(size_t phase, uint16_t *out, size_t out_length);

/*
 * The bins of the static grid's 1,660 data carriers, in rising active order. Answers 1,660.
 * Refusals: 3 OUTPUT SHORT.
 */
SaltCounted salt_static_data_bins(uint16_t *out, size_t out_length);

/*
 * The bins and the boosted values (176 cells) of a phase's reference pilots, in rising active order; TPS carriers
 * aren't among them. Answers 176.
 * Refusals: 3 OUTPUT SHORT (either).
 */
SaltCounted salt_reference_pilot_bins(size_t phase, uint16_t *bins, size_t bins_length, float *values,
                                      size_t values_length);

/* ---- Symbols from data cells, and data cells from symbols (4.5) */

/* The mapper: the phase of its next symbol, taken modulo 4. */
typedef struct SaltScatteredPilotMapper {
    size_t phase;
} SaltScatteredPilotMapper;

/* The mapper in the next phase; or a refusal's number and the mapper as it went in. */
typedef struct SaltMapAnswer {
    uint8_t number;
    SaltScatteredPilotMapper mapper;
} SaltMapAnswer;

/* The extractor: the phase of its next symbol, taken modulo 4. */
typedef struct SaltScatteredPilotExtractor {
    size_t phase;
} SaltScatteredPilotExtractor;

/* The extractor in the next phase; or a refusal's number and the extractor as it went in. */
typedef struct SaltExtractAnswer {
    uint8_t number;
    SaltScatteredPilotExtractor extractor;
} SaltExtractAnswer;

/* A mapper in phase 0. */
SaltScatteredPilotMapper salt_scattered_pilot_mapper_new(void);

/* The mapper in phase 0 again. */
SaltScatteredPilotMapper salt_scattered_pilot_mapper_reset(SaltScatteredPilotMapper mapper);

/*
 * Makes a symbol: 2,048 cells +0.0, then the 1,512 data cells in their bins, then the boosted value on every reserved
 * carrier, TPS carriers among them.
 * Refusals: 1 LENGTH (fewer than 3,024 floats of cells), 3 OUTPUT SHORT (room for fewer than 4,096 floats).
 */
SaltMapAnswer salt_scattered_pilot_mapper_map_symbol(SaltScatteredPilotMapper mapper, const float *cells,
                                                     size_t cells_length, float *symbol, size_t symbol_length);

/* An extractor in phase 0. */
SaltScatteredPilotExtractor salt_scattered_pilot_extractor_new(void);

/* The extractor in phase 0 again. */
SaltScatteredPilotExtractor salt_scattered_pilot_extractor_reset(SaltScatteredPilotExtractor extractor);

/* The phase of the extractor's next symbol, 0 to 3. */
size_t salt_scattered_pilot_extractor_phase(SaltScatteredPilotExtractor extractor);

/*
 * The bins of the 1,512 data carriers of the extractor's next symbol, as salt_data_bins gives them. Answers 1,512.
 * Refusals: 3 OUTPUT SHORT.
 */
SaltCounted salt_scattered_pilot_extractor_data_bins(SaltScatteredPilotExtractor extractor, uint16_t *out,
                                                     size_t out_length);

/*
 * The bins and values of the 176 reference pilots of the extractor's next symbol, as salt_reference_pilot_bins gives
 * them. Answers 176.
 * Refusals: 3 OUTPUT SHORT (either).
 */
SaltCounted salt_scattered_pilot_extractor_current_pilot_bins(SaltScatteredPilotExtractor extractor, uint16_t *bins,
                                                              size_t bins_length, float *values, size_t values_length);

/*
 * Reads the 1,512 data cells of a symbol, in rising active order.
 * Refusals: 1 LENGTH (fewer than 4,096 floats of symbol), 3 OUTPUT SHORT (room for fewer than 3,024 floats).
 */
SaltExtractAnswer salt_scattered_pilot_extractor_extract_symbol(SaltScatteredPilotExtractor extractor,
                                                                const float *symbol, size_t symbol_length, float *out,
                                                                size_t out_length);

/*
 * Mapping onto the static grid is retired: nothing is written. Symbols made before it was are read by
 * salt_grid_extract.
 * Refusals: 1 LENGTH (fewer than 3,320 floats of cells), 12 RETIRED (any other cells, and any symbol).
 */
SaltCounted salt_grid_map(const float *cells, size_t cells_length, float *symbol, size_t symbol_length);

/*
 * Reads the 1,660 data cells of a symbol of the static grid, in rising active order. Answers 1,660, the cells written.
 * Refusals: 1 LENGTH (fewer than 4,096 floats of symbol), 3 OUTPUT SHORT (room for fewer than 3,320 floats).
 */
SaltCounted salt_grid_extract(const float *symbol, size_t symbol_length, float *out, size_t out_length);

/* ---- The symbol interleaver (4.3.4.2) */

/*
 * Interleaves the 1,512 data cells of a symbol. Of the symbol's number only even and odd count: in even symbols cell q
 * is written at place H(q), in odd ones the cell at place H(q) is written at q. Answers 1,512, the cells written.
 * Refusals: 1 LENGTH (fewer than 3,024 floats of cells), 3 OUTPUT SHORT (room for fewer than 3,024 floats).
 */
SaltCounted salt_interleave(size_t symbol, const float *cells, size_t cells_length, float *out, size_t out_length);

/*
 * Undoes what salt_interleave did to the 1,512 data cells of a symbol with this number. Answers 1,512, the cells
 * written.
 * Refusals: 1 LENGTH (fewer than 3,024 floats of cells), 3 OUTPUT SHORT (room for fewer than 3,024 floats).
 */
SaltCounted salt_deinterleave(size_t symbol, const float *cells, size_t cells_length, float *out, size_t out_length);

/* ---- The code of the TPS words (4.6.2.11) */

/* A count of information bits and the bits that were changed, or a refusal's number, the counts 0 and no place. */
typedef struct SaltDecoded {
    uint8_t number;
    uint8_t mended; /* how many of the 67 bits were changed, 0 to 2 */
    uint8_t first;  /* their places, 0 to 66 and rising, or SALT_NO_PLACE */
    uint8_t second;
    size_t count;
} SaltDecoded;

/*
 * The codeword of 53 information bits: these, then 14 bits of parity. Answers 67.
 * Refusals: 1 LENGTH (not 53), 2 NOT A BIT, 3 OUTPUT SHORT.
 */
SaltCounted salt_tps_bch_encode(const uint8_t *info, size_t info_length, uint8_t *out, size_t out_length);

/*
 * The 53 information bits of the codeword within distance two of 67 bits. Answers 53, and the bits that were changed.
 * Refusals: 1 LENGTH (not 67), 2 NOT A BIT, 3 OUTPUT SHORT, 4 NO WORD.
 */
SaltDecoded salt_tps_bch_decode(const uint8_t *code, size_t code_length, uint8_t *out, size_t out_length);

/*
 * The same by the slow decoder, which tries the bits as they are, each single change and each pair.
 * Refusals: 1 LENGTH (not 67), 2 NOT A BIT, 3 OUTPUT SHORT, 4 NO WORD.
 */
SaltDecoded salt_tps_bch_decode_slow(const uint8_t *code, size_t code_length, uint8_t *out, size_t out_length);

/* ---- The TPS word (4.6.2) */

/* The parameters that a frame signals; constellation, rate and guard interval by their codes. */
typedef struct SaltTpsWord {
    uint8_t frame_number;  /* its low two bits are sent */
    uint8_t constellation; /* 0 QPSK, 1 16-QAM, 2 64-QAM */
    uint8_t code_rate_hp;  /* 0 to 4 for 1/2, 2/3, 3/4, 5/6, 7/8 */
    uint8_t guard;         /* 0 to 3 for 1/32, 1/16, 1/8, 1/4 */
    uint8_t cell_id;
} SaltTpsWord;

/* A word and the bits that were changed to read it, or a refusal's number, zeros and no place. */
typedef struct SaltUnpacked {
    uint8_t number;
    SaltTpsWord word;
    uint8_t mended; /* how many of s1 to s67 were changed, 0 to 2 */
    uint8_t first;  /* their places, rising, from 0 for s1 to 66 for s67, or SALT_NO_PLACE */
    uint8_t second;
} SaltUnpacked;

/*
 * The 68 bits s0 to s67 of a word: s0 is zero, then the codeword, whose s33 to s35 are 000. Answers 68.
 * Refusals: 3 OUTPUT SHORT, 5 RESERVED (constellation above 2, rate above 4 or guard above 3).
 */
SaltCounted salt_tps_word_pack(SaltTpsWord word, uint8_t *out, size_t out_length);

/*
 * The word that 68 received bits s0 to s67 say, with up to two wrong bits mended; s0 is ignored. The frame number is 0
 * to 3.
 * Refusals: 1 LENGTH (not 68), 2 NOT A BIT, 4 NO WORD, 5 RESERVED.
 */
SaltUnpacked salt_tps_word_unpack(const uint8_t *bits, size_t bits_length);

/* ---- The TPS frame, sent and received (4.6.3) */

/* The sender: each carrier's sign, and whether the frame's first symbol is sent, which any number but 0 says. */
typedef struct SaltTpsEncoder {
    float signs[17];
    uint8_t started;
} SaltTpsEncoder;

/* The count or the refusal, and the sender behind the symbol or, refused, as it went in. */
typedef struct SaltSent {
    SaltCounted answer;
    SaltTpsEncoder encoder;
} SaltSent;

/*
 * The receiver: the previous symbol's cells, the bits, and how many symbols stand. A count above 68 is read as 68, and
 * a held bit above 1 as 1, which a feed makes it; it makes bits that don't stand 0.
 */
typedef struct SaltTpsDecoder {
    SaltCell prev[17];
    uint8_t bits[68];
    size_t count;
} SaltTpsDecoder;

/* The symbol's bit and the receiver behind it; or a refusal's number, the bit 0 and the receiver as it went in. */
typedef struct SaltTpsFed {
    uint8_t number;
    uint8_t bit;
    SaltTpsDecoder decoder;
} SaltTpsFed;

/* The symbol's bit, or a refusal's number and the bit 0. */
typedef struct SaltTpsBit {
    uint8_t number;
    uint8_t bit;
} SaltTpsBit;

/* A sender at the start of a frame. */
SaltTpsEncoder salt_tps_encoder_new(void);

/* The sender at the start of a frame again. */
SaltTpsEncoder salt_tps_encoder_reset(SaltTpsEncoder encoder);

/*
 * The 17 TPS cells of the next symbol, in rising active order: at symbol 0 the signs of w, whatever the bit; later a 1
 * turns all signs. Answers 17, the cells written. Sending has no last symbol.
 * Refusals: 2 NOT A BIT, 3 OUTPUT SHORT (room for fewer than 34 floats).
 */
SaltSent salt_tps_encoder_next_symbol(SaltTpsEncoder encoder, uint8_t bit, float *out, size_t out_length);

/* A receiver at the start of a frame. */
SaltTpsDecoder salt_tps_decoder_new(void);

/* The receiver at the start of a frame again. */
SaltTpsDecoder salt_tps_decoder_reset(SaltTpsDecoder decoder);

/*
 * Reads the bit of a symbol's 17 TPS cells, in rising active order: at symbol 0 it is 0; later 1 where the sum of the
 * products with the previous symbol's cells is below zero.
 * Refusals: 1 LENGTH (fewer than 34 floats), 6 FULL.
 */
SaltTpsFed salt_tps_decoder_feed_symbol(SaltTpsDecoder decoder, const float *cells, size_t cells_length);

/*
 * The same on a receiver that is lent in parts, which are as it leaves them: 34 floats of previous cells, 68 bits and
 * one count; of a SaltTpsDecoder d they are &d.prev[0].re, d.bits and &d.count. Nothing is moved, so it is quicker
 * than by value. Refused, it changes nothing.
 * Refusals: 1 LENGTH (fewer than 34 floats of cells), 6 FULL.
 */
SaltTpsBit salt_tps_decoder_feed_in_place(float *prev, uint8_t *bits, size_t *count, const float *cells,
                                          size_t cells_length);

/* 1 where 68 symbols stand, else 0. */
uint8_t salt_tps_decoder_is_complete(SaltTpsDecoder decoder);

/*
 * The received bits s0 and on, one for each symbol that stands. Answers how many, 0 to 68.
 * Refusals: 3 OUTPUT SHORT.
 */
SaltCounted salt_tps_decoder_bits(SaltTpsDecoder decoder, uint8_t *out, size_t out_length);

/*
 * The word of 68 received bits.
 * Refusals: 8 INCOMPLETE, 4 NO WORD, 5 RESERVED.
 */
SaltUnpacked salt_tps_decoder_word(SaltTpsDecoder decoder);

/* ---- The receive session */

/*
 * The extractor and the TPS decoder joined, with a journal of two frames that steps back. With n symbols standing in
 * frame c, the frames since the reset being counted from 0, the phase is n mod 4, and where n is below 68 the 34
 * floats of the journal from 2,312 (c mod 2) + 34 n on are the next symbol's. A feed with 68 standing begins the
 * next frame, and the frame before the previous one can't be gone back to any more. The caller lends one journal for
 * each session, always the same, and writes nothing to it in between.
 */

/*
 * The session: the previous symbol's TPS cells, the bits and how many symbols stand in the current frame, how many
 * frames are before it since the reset, and whether a later one was begun, which any number but 0 says. A count above
 * 68 is read as 68, one of frames above 1,000,000 as that, a held bit above 1 as 1, and a bit that doesn't stand as 0.
 */
typedef struct SaltSession {
    SaltCell prev[17];
    uint8_t bits[68];
    size_t count;
    size_t frames;
    uint8_t behind;
} SaltSession;

/* The symbol's TPS bit and the session behind it; or a refusal's number, the bit 0 and the session as it went in. */
typedef struct SaltSessionFed {
    uint8_t number;
    uint8_t bit;
    SaltSession session;
} SaltSessionFed;

/* The session before its latest symbol; or a refusal's number and the session as it went in. */
typedef struct SaltSessionStepped {
    uint8_t number;
    SaltSession session;
} SaltSessionStepped;

/* A session with no symbol standing, in frame 0; its journal may hold anything. */
SaltSession salt_session_new(void);

/* The session with no symbol standing again. */
SaltSession salt_session_reset(SaltSession session);

/*
 * Takes one symbol: its 1,512 data cells to the output, its 17 TPS cells to their place of the journal, both in rising
 * active order, and its TPS bit. With 68 standing it is the first symbol of the next frame.
 * Refusals: 1 LENGTH (fewer than 4,096 floats of symbol), 3 OUTPUT SHORT (room for fewer than 3,024 floats, or a
 * journal under 4,624), 6 FULL (68 stand and 1,000,000 frames are before them).
 */
SaltSessionFed salt_session_feed(SaltSession session, const float *symbol, size_t symbol_length, float *out,
                                 size_t out_length, float *journal, size_t journal_length);

/*
 * Takes the latest standing symbol back; the first of a later frame leaves the 68 of the frame before standing. The
 * journal is only read.
 * Refusals: 3 OUTPUT SHORT (a journal under 4,624), 7 EMPTY (none stands; or a third frame was begun, the current one
 * is the one before the furthest begun, and one symbol stands in it).
 */
SaltSessionStepped salt_session_step_back(SaltSession session, const float *journal, size_t journal_length);

/* The phase of the session's next symbol, 0 to 3. */
size_t salt_session_phase(SaltSession session);

/*
 * The word of the 68 standing symbols of the current frame.
 * Refusals: 8 INCOMPLETE, 4 NO WORD, 5 RESERVED.
 */
SaltUnpacked salt_session_word(SaltSession session);

/* ---- The desk */

/*
 * It takes words that were read, in order, and names the super-frame: the words of four frames whose numbers are 0,
 * 1, 2 and 3, with one high byte of the cell id in 0 and 2, one low byte in 1 and 3, and the same parameters
 * throughout. A word that is refused by 10 or 11 drops what was gathered, and one with number 0 starts afresh, the
 * refused one too: unlike all others these two refusals change the state. Behind a complete super-frame, and at the
 * start, number 0 is wanted.
 */

/* What the words of a super-frame share, by EN 300 744's codes. */
typedef struct SaltParameters {
    uint8_t constellation;
    uint8_t code_rate_hp;
    uint8_t guard;
} SaltParameters;

/*
 * What is gathered of a super-frame: the number of the word that is wanted next, and the high byte, the low byte and
 * the parameters of the words before it. With 0 wanted none of these is read, and with 1 no low byte. Of a desk that
 * is made by hand a number above 3 is read as 0, and parameters that no word has agree with none.
 */
typedef struct SaltDesk {
    uint8_t wanted;
    uint8_t high;
    uint8_t low;
    SaltParameters parameters;
} SaltDesk;

/*
 * The answer to a word, and the desk after it. Where `complete` is 1 a super-frame is complete, with its cell id and
 * its parameters by their codes; else these are 0.
 */
typedef struct SaltDeskTaken {
    uint8_t number;
    uint8_t complete; /* 1 where the word completes a super-frame, else 0 */
    uint16_t cell_id;
    SaltParameters parameters;
    SaltDesk desk;
} SaltDeskTaken;

/* A desk with nothing gathered. */
SaltDesk salt_desk_new(void);

/*
 * Takes the next word that was read: it is gathered, or completes a super-frame.
 * Refusals: 5 RESERVED (constellation above 2, rate above 4 or guard above 3; the desk stays as it was), 10 OUT OF
 * STEP (not the number wanted), 11 MISMATCH (the first word at which a byte of the cell id or a parameter differs).
 */
SaltDeskTaken salt_desk_take(SaltDesk desk, SaltTpsWord word);

/* ---- The report on received words */

/*
 * Its input is lines, each a word in 17 hexadecimal digits of lower case, the first digit's high bit s0; its output is
 * text: a heading, a line for each line of the input, numbered from 1 on, and a closing line with the counts of lines
 * and of refused lines. A line ends at a newline or the end of the input; an empty line counts, and no line follows a
 * final newline. In whatever parts the input is fed, the report is the same.
 */

/*
 * What is held of the input so far: the open line's first 17 characters, how many it has, 18 where they are more, how
 * many lines ended, and how many of those were refused; behind 2^64 - 1 a count starts again. Of a reader that is made
 * by hand a count above 17 is read as 18.
 */
typedef struct SaltReader {
    uint8_t held[17];
    size_t count;
    uint64_t lines;
    uint64_t refused;
} SaltReader;

/* The bytes written or the refusal, and the reader behind the part or, refused, as it went in. */
typedef struct SaltReaderFed {
    SaltCounted answer;
    SaltReader reader;
} SaltReaderFed;

/*
 * The word that a line says, given without its newline, with up to two wrong bits mended; s0 is ignored.
 * Refusals: 9 BAD LINE, 4 NO WORD, 5 RESERVED.
 */
SaltUnpacked salt_read_line(const uint8_t *line, size_t line_length);

/*
 * Writes the heading, `line frame points rate guard cell mended` and a newline. Answers 41.
 * Refusals: 3 OUTPUT SHORT.
 */
SaltCounted salt_put_heading(uint8_t *out, size_t out_length);

/*
 * Writes the report's line for a line's number and its answer: a word where the answer's number is 0, else that
 * refusal. A count of mended bits above 2 is written as 2, and their places aren't written. Answers the bytes written.
 * Refusals: 3 OUTPUT SHORT (room for fewer than 60), 5 RESERVED (a word whose constellation is above 2, rate above 4
 * or guard above 3).
 */
SaltCounted salt_put_line(uint64_t number, SaltUnpacked answer, uint8_t *out, size_t out_length);

/* A reader at the start of the input. */
SaltReader salt_reader_new(void);

/*
 * Takes a part of the input, of any size, and writes the report's lines for the lines that end in it. Answers the
 * bytes written.
 * Refusals: 3 OUTPUT SHORT (room for fewer than 60 a byte of the part).
 */
SaltReaderFed salt_reader_feed(SaltReader reader, const uint8_t *part, size_t part_length, uint8_t *out,
                               size_t out_length);

/*
 * The same by the slow decoder, with the same text.
 * Refusals: 3 OUTPUT SHORT (room for fewer than 60 a byte of the part).
 */
SaltReaderFed salt_reader_feed_slow(SaltReader reader, const uint8_t *part, size_t part_length, uint8_t *out,
                                    size_t out_length);

/*
 * Ends the input: writes the report's line for a line that is open there, and the closing line. Answers the bytes
 * written.
 * Refusals: 3 OUTPUT SHORT (room for fewer than 120).
 */
SaltCounted salt_reader_close(SaltReader reader, uint8_t *out, size_t out_length);

/*
 * The same by the slow decoder, with the same text.
 * Refusals: 3 OUTPUT SHORT (room for fewer than 120).
 */
SaltCounted salt_reader_close_slow(SaltReader reader, uint8_t *out, size_t out_length);

/* ---- The layout */

/*
 * `include/generate` makes the number of the layout, and this text, from the structs and from the parameters and
 * results of all functions. The archive has a function that carries the number in its name, so a program that calls
 * SALT_LAYOUT links only with an archive of this layout.
 */

/* The number of the layout. */
uint32_t salt_layout_7188a159(void);

#define SALT_LAYOUT salt_layout_7188a159

#ifdef __cplusplus
}
#endif

#endif
