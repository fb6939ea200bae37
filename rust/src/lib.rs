//! The DVB-T 2K waveform layer of a bench analyser: transport packets, energy dispersal, the symbol interleaver, Gray
//! mapping, the pilot grid, TPS (ETSI EN 300 744, 4.3 to 4.6), a receive session that steps back, a report on received
//! words, and a desk that names super-frames by their whole cell id.
//!
//! The work is done by a library that is proved, for all inputs, to do what document 01 says; this crate is a safe cover over its C interface
//! and has no dependencies. Functions take slices and give a `Result` whose error is a [`Refusal`]; a refused call changes nothing, but for the desk's own two.
//!
//! ```
//! use saltkernel::waveform::dvb_t_ts::{ts_depacketize, ts_energy_disperse, ts_packetize_dispersed};
//! use saltkernel::Refusal;
//!
//! let mut packets = ts_packetize_dispersed(b"salt");
//! assert_eq!((packets.len(), packets[0]), (188, 0xB8));
//! assert_eq!(ts_energy_disperse(&mut packets), Ok(1));
//! assert_eq!(&ts_depacketize(&packets)?[..4], b"salt");
//! assert_eq!(ts_depacketize(&packets[1..]), Err(Refusal::Length));
//! # Ok::<(), Refusal>(())
//! ```
//!
//! # From orion-sdr
//!
//! Modules and names are orion-sdr's: where a caller had `use orion_sdr::waveform::dvb_t_ts::..`, it has `use saltkernel::waveform::dvb_t_ts::..`.
//! Where the two part:
//!
//! | here | orion-sdr |
//! |---|---|
//! | `Result<_, Refusal>` | `Option`, a panic or a silent no-op; `.ok()` gives its `Option` back |
//! | a call that answers a `Vec` has a second form, `.._into`, that writes into a lent slice and gives the count; surplus isn't written | `Vec` alone |
//! | [`Complex32`]: `re` and `im`, no arithmetic | num-complex's, of the same layout |
//! | [`Active`], [`Signed`] and [`Bin`], none in another's place; the number is the field `.0`, and `usize::from` gives an index | `usize` and `i32` |
//! | lists are functions (`continual_pilot_indices`, `data_bins`, `reference_pilot_bins`, ..) and given by value | constants, and slices that a grid holds |
//! | [`ts_packetize_dispersed`] makes packets and whitens them, so that none is sent clear | `ts_packetize`, then `ts_energy_disperse` |
//! | [`ts_stuff_null_packets`] refuses ragged bytes | asserts in debug, appends in release |
//! | [`map_symbol`], [`extract_symbol`], [`next_symbol`] and [`feed_symbol`] give a `Result`; the last tells the bit | `()` or cells |
//! | [`ConstellationOrder`] has three cases | and BPSK and 256-QAM |
//! | [`GridExtract`] is that of the 2K plan with continual pilots alone; `process` is its own | any `CarrierGrid`; `process` is a trait's |
//! | [`GridMap`] is retired, and refuses every call | maps |
//! | [`feed_symbol`] refuses a 69th symbol | collected |
//! | `TpsWord::pack` writes 000 in s33 to s35, as the standard has it without hierarchy | the rate again |
//! | [`tps_bch_decode_mended`], [`unpack_mended`] and [`word_mended`] tell which bits were mended, too | not told |
//! | [`tps_bch_decode_slow`] and [`Reader::by`] read by trying each change, with the same answers | one decoder |
//! | left out | `TS_SYNC_BYTE_INVERTED`, `is_dvb_t_constellation`, plans, guard lengths in samples, bandwidths, configurations |
//!
//! The guard interval that a mapper or extractor is made for plays no part in the grid, there and here.
//!
//! # The archive
//!
//! `build.rs` takes `libsaltkernel.a` from the folder that `SALTKERNEL_LIB_DIR` names, else the repository's, which `tests/archive` has proved and
//! written where it is missing or stale. With an archive whose structs or functions are declared otherwise than here nothing links.
//!
//! [`Active`]: waveform::dvb_t::Active
//! [`Signed`]: waveform::dvb_t::Signed
//! [`Bin`]: waveform::dvb_t::Bin
//! [`ts_packetize_dispersed`]: waveform::dvb_t_ts::ts_packetize_dispersed
//! [`ts_stuff_null_packets`]: waveform::dvb_t_ts::ts_stuff_null_packets
//! [`map_symbol`]: waveform::dvb_t::ScatteredPilotMapper::map_symbol
//! [`extract_symbol`]: waveform::dvb_t::ScatteredPilotExtractor::extract_symbol
//! [`next_symbol`]: waveform::dvb_t_tps::TpsEncoder::next_symbol
//! [`feed_symbol`]: waveform::dvb_t_tps::TpsDecoder::feed_symbol
//! [`tps_bch_decode_mended`]: waveform::dvb_t_tps::tps_bch_decode_mended
//! [`tps_bch_decode_slow`]: waveform::dvb_t_tps::tps_bch_decode_slow
//! [`Reader::by`]: report::Reader::by
//! [`unpack_mended`]: waveform::dvb_t_tps::TpsWord::unpack_mended
//! [`word_mended`]: waveform::dvb_t_tps::TpsDecoder::word_mended
//! [`GridMap`]: multicarrier::GridMap
//! [`GridExtract`]: multicarrier::GridExtract
//! [`ConstellationOrder`]: modulate::ConstellationOrder

#![deny(unsafe_code)]
#![warn(missing_docs)]

// All of the interface is declared and covered; feeding a receiver by value is called by a test alone.
#[allow(unsafe_code)]
#[cfg_attr(not(test), allow(dead_code))]
mod call;
#[allow(unsafe_code)]
mod numbers;
#[allow(unsafe_code)]
#[cfg_attr(not(test), allow(dead_code))]
mod sys;

mod carrier;
mod complex;
mod constellation;
pub mod desk;
mod dispersal;
mod frames;
pub mod interleaver;
mod packets;
mod pilots;
mod refusal;
pub mod report;
pub mod session;
mod symbols;
mod words;

pub use complex::Complex32;
pub use refusal::Refusal;

/// The layers of the waveform, as orion-sdr has them.
pub mod waveform {
    /// Energy dispersal, Gray mapping, carriers and pilots, and the scattered pilot grid.
    pub mod dvb_t {
        pub use crate::carrier::{active_to_signed, bin_to_active, signed_to_bin, Active, Bin, Signed};
        pub use crate::constellation::*;
        pub use crate::dispersal::*;
        pub use crate::pilots::*;
        pub use crate::symbols::{ScatteredPilotExtractor, ScatteredPilotMapper};
        pub use crate::words::GuardInterval;
    }

    /// Transport packets, null packets and stuffing, and energy dispersal over packets.
    pub mod dvb_t_ts {
        pub use crate::packets::*;
    }

    /// TPS: the code, the word, the sender and the receiver.
    pub mod dvb_t_tps {
        pub use crate::frames::*;
        pub use crate::words::{tps_bch_decode, tps_bch_decode_into, tps_bch_decode_mended, tps_bch_encode, tps_bch_encode_into};
        pub use crate::words::{tps_bch_decode_slow, tps_bch_decode_slow_mended};
        pub use crate::words::{Mended, TpsWord, TPS_CODEWORD_BITS, TPS_INFO_BITS, TPS_PARITY_BITS};
    }
}

/// The static grid.
pub mod multicarrier {
    pub use crate::symbols::{static_data_bins, static_data_bins_into, GridExtract, GridMap, WorkReport, STATIC_DATA_CARRIERS};
}

/// The constellations.
pub mod modulate {
    pub use crate::words::ConstellationOrder;
}

/// The rates of the inner code.
pub mod fec {
    pub use crate::words::PunctureRate;
}
