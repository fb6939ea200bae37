//! The bits of a TPS word as they are owed (document 02, E2): orion-sdr's but s33..s35, where it repeats the rate and EN 300 744 has 000 without a
//! hierarchy, and with the parity that is due to that.

use crate::mended::codeword;
use orion_sdr::waveform::dvb_t_tps::TpsWord;

/// The bits s0..s67 of a word.
pub fn packed(word: TpsWord) -> [u8; 68] {
    let mut bits = word.pack();
    bits[33..36].fill(0);
    let codeword = codeword(&bits[1..54]);
    bits[1..].copy_from_slice(&codeword);
    bits
}
