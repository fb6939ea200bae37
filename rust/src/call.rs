//! A safe function over each function of the C interface: a slice becomes its pointer and its length. The comparison
//! with orion-sdr (`oracle/`) calls the library by these functions too.
//! `include/generate` makes this file from crates/saltkernel: change it there.
//!
//! Why each is safe: the library is proved to read and write only inside the slices and arrays that it is given, for all
//! lengths and values, and a result is plain numbers, each of whose values is one of its type.

use crate::sys::*;

/// A receiver's cells as the floats that are lent of it: a cell is two floats and no more.
pub fn floats_of(cells: &mut [SaltCell; SALT_TPS_CARRIERS]) -> &mut [f32; SALT_TPS_FLOATS] {
    unsafe { &mut *cells.as_mut_ptr().cast() }
}

// ---- Cells

pub fn cell_same(cell: SaltCell, other: SaltCell) -> u8 {
    unsafe { salt_cell_same(cell, other) }
}

// ---- Transport packets, and energy dispersal over them (4.3.1)

pub fn ts_packetize_dispersed(payload: &[u8], out: &mut [u8]) -> SaltCounted {
    unsafe { salt_ts_packetize_dispersed(payload.as_ptr(), payload.len(), out.as_mut_ptr(), out.len()) }
}

pub fn ts_depacketize(packets: &[u8], out: &mut [u8]) -> SaltCounted {
    unsafe { salt_ts_depacketize(packets.as_ptr(), packets.len(), out.as_mut_ptr(), out.len()) }
}

pub fn ts_null_packet() -> SaltPacket {
    unsafe { salt_ts_null_packet() }
}

pub fn ts_stuff_null_packets(ts: &mut [u8], used: usize, target: usize) -> SaltCounted {
    unsafe { salt_ts_stuff_null_packets(ts.as_mut_ptr(), ts.len(), used, target) }
}

pub fn ts_energy_disperse(packets: &mut [u8]) -> SaltCounted {
    unsafe { salt_ts_energy_disperse(packets.as_mut_ptr(), packets.len()) }
}

// ---- The whitener of energy dispersal (4.3.1)

pub fn dvb_t_energy_dispersal_new() -> SaltDvbTEnergyDispersal {
    unsafe { salt_dvb_t_energy_dispersal_new() }
}

pub fn dvb_t_energy_dispersal_reset(whitener: SaltDvbTEnergyDispersal) -> SaltDvbTEnergyDispersal {
    unsafe { salt_dvb_t_energy_dispersal_reset(whitener) }
}

pub fn dvb_t_energy_dispersal_advance_byte(whitener: SaltDvbTEnergyDispersal) -> SaltDvbTEnergyDispersal {
    unsafe { salt_dvb_t_energy_dispersal_advance_byte(whitener) }
}

pub fn dvb_t_energy_dispersal_feed_in_place(whitener: SaltDvbTEnergyDispersal, bytes: &mut [u8]) -> SaltDvbTEnergyDispersal {
    unsafe { salt_dvb_t_energy_dispersal_feed_in_place(whitener, bytes.as_mut_ptr(), bytes.len()) }
}

pub fn dvb_t_energy_dispersal_feed(whitener: SaltDvbTEnergyDispersal, bytes: &[u8], out: &mut [u8]) -> SaltFed {
    unsafe { salt_dvb_t_energy_dispersal_feed(whitener, bytes.as_ptr(), bytes.len(), out.as_mut_ptr(), out.len()) }
}

// ---- Gray mapping, hard and soft demapping (4.3.5)

pub fn dvb_t_map_symbol(bits: &[u8]) -> SaltMapped {
    unsafe { salt_dvb_t_map_symbol(bits.as_ptr(), bits.len()) }
}

pub fn dvb_t_demap_symbol(sym: SaltCell, v: usize, out: &mut [u8]) -> SaltCounted {
    unsafe { salt_dvb_t_demap_symbol(sym, v, out.as_mut_ptr(), out.len()) }
}

pub fn dvb_t_soft_llr(sym: SaltCell, v: usize) -> SaltSoft {
    unsafe { salt_dvb_t_soft_llr(sym, v) }
}

// ---- Carriers and pilots (4.5)

pub fn active_to_signed(active: u16) -> SaltSigned {
    unsafe { salt_active_to_signed(active) }
}

pub fn signed_to_bin(signed: i16) -> SaltCarrier {
    unsafe { salt_signed_to_bin(signed) }
}

pub fn bin_to_active(bin: u16) -> SaltCarrier {
    unsafe { salt_bin_to_active(bin) }
}

pub fn wk_prbs(out: &mut [u8]) {
    unsafe { salt_wk_prbs(out.as_mut_ptr(), out.len()) }
}

pub fn boosted_pilot_value(wk: u8) -> SaltMapped {
    unsafe { salt_boosted_pilot_value(wk) }
}

pub fn continual_pilot_indices() -> SaltContinual {
    unsafe { salt_continual_pilot_indices() }
}

pub fn continual_pilot_bins() -> SaltContinual {
    unsafe { salt_continual_pilot_bins() }
}

pub fn tps_carrier_indices() -> SaltTps {
    unsafe { salt_tps_carrier_indices() }
}

pub fn tps_carrier_bins() -> SaltTps {
    unsafe { salt_tps_carrier_bins() }
}

pub fn scattered_pilot_indices(phase: usize, out: &mut [u16]) -> SaltCounted {
    unsafe { salt_scattered_pilot_indices(phase, out.as_mut_ptr(), out.len()) }
}

pub fn data_bins(phase: usize, out: &mut [u16]) -> SaltCounted {
    unsafe { salt_data_bins(phase, out.as_mut_ptr(), out.len()) }
}

pub fn static_data_bins(out: &mut [u16]) -> SaltCounted {
    unsafe { salt_static_data_bins(out.as_mut_ptr(), out.len()) }
}

pub fn reference_pilot_bins(phase: usize, bins: &mut [u16], values: &mut [f32]) -> SaltCounted {
    unsafe { salt_reference_pilot_bins(phase, bins.as_mut_ptr(), bins.len(), values.as_mut_ptr(), values.len()) }
}

// ---- Symbols from data cells, and data cells from symbols (4.5)

pub fn scattered_pilot_mapper_new() -> SaltScatteredPilotMapper {
    unsafe { salt_scattered_pilot_mapper_new() }
}

pub fn scattered_pilot_mapper_reset(mapper: SaltScatteredPilotMapper) -> SaltScatteredPilotMapper {
    unsafe { salt_scattered_pilot_mapper_reset(mapper) }
}

pub fn scattered_pilot_mapper_map_symbol(mapper: SaltScatteredPilotMapper, cells: &[f32], symbol: &mut [f32]) -> SaltMapAnswer {
    unsafe { salt_scattered_pilot_mapper_map_symbol(mapper, cells.as_ptr(), cells.len(), symbol.as_mut_ptr(), symbol.len()) }
}

pub fn scattered_pilot_extractor_new() -> SaltScatteredPilotExtractor {
    unsafe { salt_scattered_pilot_extractor_new() }
}

pub fn scattered_pilot_extractor_reset(extractor: SaltScatteredPilotExtractor) -> SaltScatteredPilotExtractor {
    unsafe { salt_scattered_pilot_extractor_reset(extractor) }
}

pub fn scattered_pilot_extractor_phase(extractor: SaltScatteredPilotExtractor) -> usize {
    unsafe { salt_scattered_pilot_extractor_phase(extractor) }
}

pub fn scattered_pilot_extractor_data_bins(extractor: SaltScatteredPilotExtractor, out: &mut [u16]) -> SaltCounted {
    unsafe { salt_scattered_pilot_extractor_data_bins(extractor, out.as_mut_ptr(), out.len()) }
}

pub fn scattered_pilot_extractor_current_pilot_bins(extractor: SaltScatteredPilotExtractor, bins: &mut [u16], values: &mut [f32]) -> SaltCounted {
    unsafe { salt_scattered_pilot_extractor_current_pilot_bins(extractor, bins.as_mut_ptr(), bins.len(), values.as_mut_ptr(), values.len()) }
}

pub fn scattered_pilot_extractor_extract_symbol(extractor: SaltScatteredPilotExtractor, symbol: &[f32], out: &mut [f32]) -> SaltExtractAnswer {
    unsafe { salt_scattered_pilot_extractor_extract_symbol(extractor, symbol.as_ptr(), symbol.len(), out.as_mut_ptr(), out.len()) }
}

pub fn grid_map(cells: &[f32], symbol: &mut [f32]) -> SaltCounted {
    unsafe { salt_grid_map(cells.as_ptr(), cells.len(), symbol.as_mut_ptr(), symbol.len()) }
}

pub fn grid_extract(symbol: &[f32], out: &mut [f32]) -> SaltCounted {
    unsafe { salt_grid_extract(symbol.as_ptr(), symbol.len(), out.as_mut_ptr(), out.len()) }
}

// ---- The symbol interleaver (4.3.4.2)

pub fn interleave(symbol: usize, cells: &[f32], out: &mut [f32]) -> SaltCounted {
    unsafe { salt_interleave(symbol, cells.as_ptr(), cells.len(), out.as_mut_ptr(), out.len()) }
}

pub fn deinterleave(symbol: usize, cells: &[f32], out: &mut [f32]) -> SaltCounted {
    unsafe { salt_deinterleave(symbol, cells.as_ptr(), cells.len(), out.as_mut_ptr(), out.len()) }
}

// ---- The code of the TPS words (4.6.2.11)

pub fn tps_bch_encode(info: &[u8], out: &mut [u8]) -> SaltCounted {
    unsafe { salt_tps_bch_encode(info.as_ptr(), info.len(), out.as_mut_ptr(), out.len()) }
}

pub fn tps_bch_decode(code: &[u8], out: &mut [u8]) -> SaltDecoded {
    unsafe { salt_tps_bch_decode(code.as_ptr(), code.len(), out.as_mut_ptr(), out.len()) }
}

pub fn tps_bch_decode_slow(code: &[u8], out: &mut [u8]) -> SaltDecoded {
    unsafe { salt_tps_bch_decode_slow(code.as_ptr(), code.len(), out.as_mut_ptr(), out.len()) }
}

// ---- The TPS word (4.6.2)

pub fn tps_word_pack(word: SaltTpsWord, out: &mut [u8]) -> SaltCounted {
    unsafe { salt_tps_word_pack(word, out.as_mut_ptr(), out.len()) }
}

pub fn tps_word_unpack(bits: &[u8]) -> SaltUnpacked {
    unsafe { salt_tps_word_unpack(bits.as_ptr(), bits.len()) }
}

// ---- The TPS frame, sent and received (4.6.3)

pub fn tps_encoder_new() -> SaltTpsEncoder {
    unsafe { salt_tps_encoder_new() }
}

pub fn tps_encoder_reset(encoder: SaltTpsEncoder) -> SaltTpsEncoder {
    unsafe { salt_tps_encoder_reset(encoder) }
}

pub fn tps_encoder_next_symbol(encoder: SaltTpsEncoder, bit: u8, out: &mut [f32]) -> SaltSent {
    unsafe { salt_tps_encoder_next_symbol(encoder, bit, out.as_mut_ptr(), out.len()) }
}

pub fn tps_decoder_new() -> SaltTpsDecoder {
    unsafe { salt_tps_decoder_new() }
}

pub fn tps_decoder_reset(decoder: SaltTpsDecoder) -> SaltTpsDecoder {
    unsafe { salt_tps_decoder_reset(decoder) }
}

pub fn tps_decoder_feed_symbol(decoder: SaltTpsDecoder, cells: &[f32]) -> SaltTpsFed {
    unsafe { salt_tps_decoder_feed_symbol(decoder, cells.as_ptr(), cells.len()) }
}

pub fn tps_decoder_feed_in_place(prev: &mut [f32; SALT_TPS_FLOATS], bits: &mut [u8; SALT_TPS_WORD_BITS], count: &mut usize, cells: &[f32]) -> SaltTpsBit {
    unsafe { salt_tps_decoder_feed_in_place(prev.as_mut_ptr(), bits.as_mut_ptr(), count, cells.as_ptr(), cells.len()) }
}

pub fn tps_decoder_is_complete(decoder: SaltTpsDecoder) -> u8 {
    unsafe { salt_tps_decoder_is_complete(decoder) }
}

pub fn tps_decoder_bits(decoder: SaltTpsDecoder, out: &mut [u8]) -> SaltCounted {
    unsafe { salt_tps_decoder_bits(decoder, out.as_mut_ptr(), out.len()) }
}

pub fn tps_decoder_word(decoder: SaltTpsDecoder) -> SaltUnpacked {
    unsafe { salt_tps_decoder_word(decoder) }
}

// ---- The receive session

pub fn session_new() -> SaltSession {
    unsafe { salt_session_new() }
}

pub fn session_reset(session: SaltSession) -> SaltSession {
    unsafe { salt_session_reset(session) }
}

pub fn session_feed(session: SaltSession, symbol: &[f32], out: &mut [f32], journal: &mut [f32]) -> SaltSessionFed {
    unsafe { salt_session_feed(session, symbol.as_ptr(), symbol.len(), out.as_mut_ptr(), out.len(), journal.as_mut_ptr(), journal.len()) }
}

pub fn session_step_back(session: SaltSession, journal: &[f32]) -> SaltSessionStepped {
    unsafe { salt_session_step_back(session, journal.as_ptr(), journal.len()) }
}

pub fn session_phase(session: SaltSession) -> usize {
    unsafe { salt_session_phase(session) }
}

pub fn session_word(session: SaltSession) -> SaltUnpacked {
    unsafe { salt_session_word(session) }
}

// ---- The desk

pub fn desk_new() -> SaltDesk {
    unsafe { salt_desk_new() }
}

pub fn desk_take(desk: SaltDesk, word: SaltTpsWord) -> SaltDeskTaken {
    unsafe { salt_desk_take(desk, word) }
}

// ---- The report on received words

pub fn read_line(line: &[u8]) -> SaltUnpacked {
    unsafe { salt_read_line(line.as_ptr(), line.len()) }
}

pub fn put_heading(out: &mut [u8]) -> SaltCounted {
    unsafe { salt_put_heading(out.as_mut_ptr(), out.len()) }
}

pub fn put_line(number: u64, answer: SaltUnpacked, out: &mut [u8]) -> SaltCounted {
    unsafe { salt_put_line(number, answer, out.as_mut_ptr(), out.len()) }
}

pub fn reader_new() -> SaltReader {
    unsafe { salt_reader_new() }
}

pub fn reader_feed(reader: SaltReader, part: &[u8], out: &mut [u8]) -> SaltReaderFed {
    unsafe { salt_reader_feed(reader, part.as_ptr(), part.len(), out.as_mut_ptr(), out.len()) }
}

pub fn reader_feed_slow(reader: SaltReader, part: &[u8], out: &mut [u8]) -> SaltReaderFed {
    unsafe { salt_reader_feed_slow(reader, part.as_ptr(), part.len(), out.as_mut_ptr(), out.len()) }
}

pub fn reader_close(reader: SaltReader, out: &mut [u8]) -> SaltCounted {
    unsafe { salt_reader_close(reader, out.as_mut_ptr(), out.len()) }
}

pub fn reader_close_slow(reader: SaltReader, out: &mut [u8]) -> SaltCounted {
    unsafe { salt_reader_close_slow(reader, out.as_mut_ptr(), out.len()) }
}
