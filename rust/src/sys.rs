//! The library's C interface, declared as in `include/saltkernel.h`, which says what each part is.
//! `include/generate` makes this file from crates/saltkernel: change it there.

// ---- Refusals

pub const SALT_LENGTH: u8 = 1;
pub const SALT_NOT_A_BIT: u8 = 2;
pub const SALT_OUTPUT_SHORT: u8 = 3;
pub const SALT_NO_WORD: u8 = 4;
pub const SALT_RESERVED: u8 = 5;
pub const SALT_FULL: u8 = 6;
pub const SALT_EMPTY: u8 = 7;
pub const SALT_INCOMPLETE: u8 = 8;
pub const SALT_BAD_LINE: u8 = 9;
pub const SALT_OUT_OF_STEP: u8 = 10;
pub const SALT_MISMATCH: u8 = 11;
pub const SALT_RETIRED: u8 = 12;

// ---- Sizes

#[allow(dead_code)]
mod sizes {
    pub const SALT_PACKET_BYTES: usize = 188;
    pub const SALT_PAYLOAD_BYTES: usize = 187;
    pub const SALT_SYNC_BYTE: u8 = 0x47;
    pub const SALT_GROUP_PACKETS: usize = 8;
    pub const SALT_SOFT_VALUES: usize = 6;
    pub const SALT_SYMBOL_CELLS: usize = 2048;
    pub const SALT_SYMBOL_FLOATS: usize = 4096;
    pub const SALT_DATA_CELLS: usize = 1512;
    pub const SALT_DATA_FLOATS: usize = 3024;
    pub const SALT_STATIC_DATA_CELLS: usize = 1660;
    pub const SALT_STATIC_DATA_FLOATS: usize = 3320;
    pub const SALT_REFERENCE_PILOTS: usize = 176;
    pub const SALT_REFERENCE_FLOATS: usize = 352;
    pub const SALT_SCATTERED_PHASES: usize = 4;
    pub const SALT_SCATTERED_MOST: usize = 143;
    pub const SALT_CONTINUAL_CARRIERS: usize = 45;
    pub const SALT_TPS_CARRIERS: usize = 17;
    pub const SALT_TPS_FLOATS: usize = 34;
    pub const SALT_ACTIVE_CARRIERS: usize = 1705;
    pub const SALT_SIGNED_LAST: usize = 852;
    pub const SALT_TPS_INFORMATION_BITS: usize = 53;
    pub const SALT_TPS_CODEWORD_BITS: usize = 67;
    pub const SALT_NO_PLACE: u8 = 255;
    pub const SALT_TPS_WORD_BITS: usize = 68;
    pub const SALT_JOURNAL_FLOATS: usize = 4624;
    pub const SALT_LAST_FRAME: usize = 1000000;
    pub const SALT_LINE_DIGITS: usize = 17;
    pub const SALT_HEADING_BYTES: usize = 41;
    pub const SALT_LINE_ROOM: usize = 60;
    pub const SALT_CLOSE_ROOM: usize = 120;
}
pub use sizes::*;

// ---- Cells

#[repr(C)]
#[derive(Clone, Copy, Debug, PartialEq)]
pub struct SaltCell {
    pub re: f32,
    pub im: f32,
}

extern "C" {
    pub fn salt_cell_same(cell: SaltCell, other: SaltCell) -> u8;
}

// ---- Transport packets, and energy dispersal over them (4.3.1)

#[repr(C)]
#[derive(Clone, Copy, Debug, PartialEq, Eq)]
pub struct SaltCounted {
    pub number: u8,
    pub count: usize,
}

#[repr(C)]
#[derive(Clone, Copy, Debug, PartialEq, Eq)]
pub struct SaltPacket {
    pub bytes: [u8; SALT_PACKET_BYTES],
}

extern "C" {
    pub fn salt_ts_packetize_dispersed(payload: *const u8, payload_length: usize, out: *mut u8, out_length: usize) -> SaltCounted;
    pub fn salt_ts_depacketize(packets: *const u8, packets_length: usize, out: *mut u8, out_length: usize) -> SaltCounted;
    pub fn salt_ts_null_packet() -> SaltPacket;
    pub fn salt_ts_stuff_null_packets(ts: *mut u8, ts_length: usize, used: usize, target: usize) -> SaltCounted;
    pub fn salt_ts_energy_disperse(packets: *mut u8, packets_length: usize) -> SaltCounted;
}

// ---- The whitener of energy dispersal (4.3.1)

#[repr(C)]
#[derive(Clone, Copy, Debug, PartialEq, Eq)]
pub struct SaltDvbTEnergyDispersal {
    pub reg: u16,
}

#[repr(C)]
#[derive(Clone, Copy, Debug, PartialEq, Eq)]
pub struct SaltFed {
    pub whitener: SaltDvbTEnergyDispersal,
    pub answer: SaltCounted,
}

extern "C" {
    pub fn salt_dvb_t_energy_dispersal_new() -> SaltDvbTEnergyDispersal;
    pub fn salt_dvb_t_energy_dispersal_reset(whitener: SaltDvbTEnergyDispersal) -> SaltDvbTEnergyDispersal;
    pub fn salt_dvb_t_energy_dispersal_advance_byte(whitener: SaltDvbTEnergyDispersal) -> SaltDvbTEnergyDispersal;
    pub fn salt_dvb_t_energy_dispersal_feed_in_place(whitener: SaltDvbTEnergyDispersal, bytes: *mut u8, bytes_length: usize) -> SaltDvbTEnergyDispersal;
    pub fn salt_dvb_t_energy_dispersal_feed(
        whitener: SaltDvbTEnergyDispersal,
        bytes: *const u8,
        bytes_length: usize,
        out: *mut u8,
        out_length: usize,
    ) -> SaltFed;
}

// ---- Gray mapping, hard and soft demapping (4.3.5)

#[repr(C)]
#[derive(Clone, Copy, Debug, PartialEq)]
pub struct SaltMapped {
    pub number: u8,
    pub point: SaltCell,
}

#[repr(C)]
#[derive(Clone, Copy, Debug, PartialEq)]
pub struct SaltSoft {
    pub number: u8,
    pub count: usize,
    pub values: [f32; SALT_SOFT_VALUES],
}

extern "C" {
    pub fn salt_dvb_t_map_symbol(bits: *const u8, bits_length: usize) -> SaltMapped;
    pub fn salt_dvb_t_demap_symbol(sym: SaltCell, v: usize, out: *mut u8, out_length: usize) -> SaltCounted;
    pub fn salt_dvb_t_soft_llr(sym: SaltCell, v: usize) -> SaltSoft;
}

// ---- Carriers and pilots (4.5)

#[repr(C)]
#[derive(Clone, Copy, Debug, PartialEq, Eq)]
pub struct SaltSigned {
    pub number: u8,
    pub index: i16,
}

#[repr(C)]
#[derive(Clone, Copy, Debug, PartialEq, Eq)]
pub struct SaltCarrier {
    pub number: u8,
    pub index: u16,
}

#[repr(C)]
#[derive(Clone, Copy, Debug, PartialEq, Eq)]
pub struct SaltContinual {
    pub carriers: [u16; SALT_CONTINUAL_CARRIERS],
}

#[repr(C)]
#[derive(Clone, Copy, Debug, PartialEq, Eq)]
pub struct SaltTps {
    pub carriers: [u16; SALT_TPS_CARRIERS],
}

extern "C" {
    pub fn salt_active_to_signed(active: u16) -> SaltSigned;
    pub fn salt_signed_to_bin(signed: i16) -> SaltCarrier;
    pub fn salt_bin_to_active(bin: u16) -> SaltCarrier;
    pub fn salt_wk_prbs(out: *mut u8, out_length: usize);
    pub fn salt_boosted_pilot_value(wk: u8) -> SaltMapped;
    pub fn salt_continual_pilot_indices() -> SaltContinual;
    pub fn salt_continual_pilot_bins() -> SaltContinual;
    pub fn salt_tps_carrier_indices() -> SaltTps;
    pub fn salt_tps_carrier_bins() -> SaltTps;
    pub fn salt_scattered_pilot_indices(phase: usize, out: *mut u16, out_length: usize) -> SaltCounted;
    pub fn salt_data_bins(phase: usize, out: *mut u16, out_length: usize) -> SaltCounted;
    pub fn salt_static_data_bins(out: *mut u16, out_length: usize) -> SaltCounted;
    pub fn salt_reference_pilot_bins(phase: usize, bins: *mut u16, bins_length: usize, values: *mut f32, values_length: usize) -> SaltCounted;
}

// ---- Symbols from data cells, and data cells from symbols (4.5)

#[repr(C)]
#[derive(Clone, Copy, Debug, PartialEq, Eq)]
pub struct SaltScatteredPilotMapper {
    pub phase: usize,
}

#[repr(C)]
#[derive(Clone, Copy, Debug, PartialEq, Eq)]
pub struct SaltMapAnswer {
    pub number: u8,
    pub mapper: SaltScatteredPilotMapper,
}

#[repr(C)]
#[derive(Clone, Copy, Debug, PartialEq, Eq)]
pub struct SaltScatteredPilotExtractor {
    pub phase: usize,
}

#[repr(C)]
#[derive(Clone, Copy, Debug, PartialEq, Eq)]
pub struct SaltExtractAnswer {
    pub number: u8,
    pub extractor: SaltScatteredPilotExtractor,
}

extern "C" {
    pub fn salt_scattered_pilot_mapper_new() -> SaltScatteredPilotMapper;
    pub fn salt_scattered_pilot_mapper_reset(mapper: SaltScatteredPilotMapper) -> SaltScatteredPilotMapper;
    pub fn salt_scattered_pilot_mapper_map_symbol(
        mapper: SaltScatteredPilotMapper,
        cells: *const f32,
        cells_length: usize,
        symbol: *mut f32,
        symbol_length: usize,
    ) -> SaltMapAnswer;
    pub fn salt_scattered_pilot_extractor_new() -> SaltScatteredPilotExtractor;
    pub fn salt_scattered_pilot_extractor_reset(extractor: SaltScatteredPilotExtractor) -> SaltScatteredPilotExtractor;
    pub fn salt_scattered_pilot_extractor_phase(extractor: SaltScatteredPilotExtractor) -> usize;
    pub fn salt_scattered_pilot_extractor_data_bins(extractor: SaltScatteredPilotExtractor, out: *mut u16, out_length: usize) -> SaltCounted;
    pub fn salt_scattered_pilot_extractor_current_pilot_bins(
        extractor: SaltScatteredPilotExtractor,
        bins: *mut u16,
        bins_length: usize,
        values: *mut f32,
        values_length: usize,
    ) -> SaltCounted;
    pub fn salt_scattered_pilot_extractor_extract_symbol(
        extractor: SaltScatteredPilotExtractor,
        symbol: *const f32,
        symbol_length: usize,
        out: *mut f32,
        out_length: usize,
    ) -> SaltExtractAnswer;
    pub fn salt_grid_map(cells: *const f32, cells_length: usize, symbol: *mut f32, symbol_length: usize) -> SaltCounted;
    pub fn salt_grid_extract(symbol: *const f32, symbol_length: usize, out: *mut f32, out_length: usize) -> SaltCounted;
}

// ---- The symbol interleaver (4.3.4.2)

extern "C" {
    pub fn salt_interleave(symbol: usize, cells: *const f32, cells_length: usize, out: *mut f32, out_length: usize) -> SaltCounted;
    pub fn salt_deinterleave(symbol: usize, cells: *const f32, cells_length: usize, out: *mut f32, out_length: usize) -> SaltCounted;
}

// ---- The code of the TPS words (4.6.2.11)

#[repr(C)]
#[derive(Clone, Copy, Debug, PartialEq, Eq)]
pub struct SaltDecoded {
    pub number: u8,
    pub mended: u8,
    pub first: u8,
    pub second: u8,
    pub count: usize,
}

extern "C" {
    pub fn salt_tps_bch_encode(info: *const u8, info_length: usize, out: *mut u8, out_length: usize) -> SaltCounted;
    pub fn salt_tps_bch_decode(code: *const u8, code_length: usize, out: *mut u8, out_length: usize) -> SaltDecoded;
    pub fn salt_tps_bch_decode_slow(code: *const u8, code_length: usize, out: *mut u8, out_length: usize) -> SaltDecoded;
}

// ---- The TPS word (4.6.2)

#[repr(C)]
#[derive(Clone, Copy, Debug, PartialEq, Eq)]
pub struct SaltTpsWord {
    pub frame_number: u8,
    pub constellation: u8,
    pub code_rate_hp: u8,
    pub guard: u8,
    pub cell_id: u8,
}

#[repr(C)]
#[derive(Clone, Copy, Debug, PartialEq, Eq)]
pub struct SaltUnpacked {
    pub number: u8,
    pub word: SaltTpsWord,
    pub mended: u8,
    pub first: u8,
    pub second: u8,
}

extern "C" {
    pub fn salt_tps_word_pack(word: SaltTpsWord, out: *mut u8, out_length: usize) -> SaltCounted;
    pub fn salt_tps_word_unpack(bits: *const u8, bits_length: usize) -> SaltUnpacked;
}

// ---- The TPS frame, sent and received (4.6.3)

#[repr(C)]
#[derive(Clone, Copy, Debug, PartialEq)]
pub struct SaltTpsEncoder {
    pub signs: [f32; 17],
    pub started: u8,
}

#[repr(C)]
#[derive(Clone, Copy, Debug, PartialEq)]
pub struct SaltSent {
    pub answer: SaltCounted,
    pub encoder: SaltTpsEncoder,
}

#[repr(C)]
#[derive(Clone, Copy, Debug, PartialEq)]
pub struct SaltTpsDecoder {
    pub prev: [SaltCell; 17],
    pub bits: [u8; 68],
    pub count: usize,
}

#[repr(C)]
#[derive(Clone, Copy, Debug, PartialEq)]
pub struct SaltTpsFed {
    pub number: u8,
    pub bit: u8,
    pub decoder: SaltTpsDecoder,
}

#[repr(C)]
#[derive(Clone, Copy, Debug, PartialEq, Eq)]
pub struct SaltTpsBit {
    pub number: u8,
    pub bit: u8,
}

extern "C" {
    pub fn salt_tps_encoder_new() -> SaltTpsEncoder;
    pub fn salt_tps_encoder_reset(encoder: SaltTpsEncoder) -> SaltTpsEncoder;
    pub fn salt_tps_encoder_next_symbol(encoder: SaltTpsEncoder, bit: u8, out: *mut f32, out_length: usize) -> SaltSent;
    pub fn salt_tps_decoder_new() -> SaltTpsDecoder;
    pub fn salt_tps_decoder_reset(decoder: SaltTpsDecoder) -> SaltTpsDecoder;
    pub fn salt_tps_decoder_feed_symbol(decoder: SaltTpsDecoder, cells: *const f32, cells_length: usize) -> SaltTpsFed;
    pub fn salt_tps_decoder_feed_in_place(prev: *mut f32, bits: *mut u8, count: *mut usize, cells: *const f32, cells_length: usize) -> SaltTpsBit;
    pub fn salt_tps_decoder_is_complete(decoder: SaltTpsDecoder) -> u8;
    pub fn salt_tps_decoder_bits(decoder: SaltTpsDecoder, out: *mut u8, out_length: usize) -> SaltCounted;
    pub fn salt_tps_decoder_word(decoder: SaltTpsDecoder) -> SaltUnpacked;
}

// ---- The receive session

#[repr(C)]
#[derive(Clone, Copy, Debug, PartialEq)]
pub struct SaltSession {
    pub prev: [SaltCell; 17],
    pub bits: [u8; 68],
    pub count: usize,
    pub frames: usize,
    pub behind: u8,
}

#[repr(C)]
#[derive(Clone, Copy, Debug, PartialEq)]
pub struct SaltSessionFed {
    pub number: u8,
    pub bit: u8,
    pub session: SaltSession,
}

#[repr(C)]
#[derive(Clone, Copy, Debug, PartialEq)]
pub struct SaltSessionStepped {
    pub number: u8,
    pub session: SaltSession,
}

extern "C" {
    pub fn salt_session_new() -> SaltSession;
    pub fn salt_session_reset(session: SaltSession) -> SaltSession;
    pub fn salt_session_feed(
        session: SaltSession,
        symbol: *const f32,
        symbol_length: usize,
        out: *mut f32,
        out_length: usize,
        journal: *mut f32,
        journal_length: usize,
    ) -> SaltSessionFed;
    pub fn salt_session_step_back(session: SaltSession, journal: *const f32, journal_length: usize) -> SaltSessionStepped;
    pub fn salt_session_phase(session: SaltSession) -> usize;
    pub fn salt_session_word(session: SaltSession) -> SaltUnpacked;
}

// ---- The desk

#[repr(C)]
#[derive(Clone, Copy, Debug, PartialEq, Eq)]
pub struct SaltParameters {
    pub constellation: u8,
    pub code_rate_hp: u8,
    pub guard: u8,
}

#[repr(C)]
#[derive(Clone, Copy, Debug, PartialEq, Eq)]
pub struct SaltDesk {
    pub wanted: u8,
    pub high: u8,
    pub low: u8,
    pub parameters: SaltParameters,
}

#[repr(C)]
#[derive(Clone, Copy, Debug, PartialEq, Eq)]
pub struct SaltDeskTaken {
    pub number: u8,
    pub complete: u8,
    pub cell_id: u16,
    pub parameters: SaltParameters,
    pub desk: SaltDesk,
}

extern "C" {
    pub fn salt_desk_new() -> SaltDesk;
    pub fn salt_desk_take(desk: SaltDesk, word: SaltTpsWord) -> SaltDeskTaken;
}

// ---- The report on received words

#[repr(C)]
#[derive(Clone, Copy, Debug, PartialEq, Eq)]
pub struct SaltReader {
    pub held: [u8; 17],
    pub count: usize,
    pub lines: u64,
    pub refused: u64,
}

#[repr(C)]
#[derive(Clone, Copy, Debug, PartialEq, Eq)]
pub struct SaltReaderFed {
    pub answer: SaltCounted,
    pub reader: SaltReader,
}

extern "C" {
    pub fn salt_read_line(line: *const u8, line_length: usize) -> SaltUnpacked;
    pub fn salt_put_heading(out: *mut u8, out_length: usize) -> SaltCounted;
    pub fn salt_put_line(number: u64, answer: SaltUnpacked, out: *mut u8, out_length: usize) -> SaltCounted;
    pub fn salt_reader_new() -> SaltReader;
    pub fn salt_reader_feed(reader: SaltReader, part: *const u8, part_length: usize, out: *mut u8, out_length: usize) -> SaltReaderFed;
    pub fn salt_reader_feed_slow(reader: SaltReader, part: *const u8, part_length: usize, out: *mut u8, out_length: usize) -> SaltReaderFed;
    pub fn salt_reader_close(reader: SaltReader, out: *mut u8, out_length: usize) -> SaltCounted;
    pub fn salt_reader_close_slow(reader: SaltReader, out: *mut u8, out_length: usize) -> SaltCounted;
}

// ---- The layout

extern "C" {
    pub fn salt_layout_7188a159() -> u32;
}

/// Refers to the layout, so that nothing links with an archive of another one; it is called as a program starts, since
/// a linker drops nothing of what is.
#[used]
#[link_section = ".init_array"]
static LAYOUT: unsafe extern "C" fn() -> u32 = salt_layout_7188a159;
