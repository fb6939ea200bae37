//! Document 01's report line by line, over orion-sdr's `TpsWord::unpack`: what a line says, and the text of a word's line. The bits that are mended are
//! those of mended.rs.

use crate::mended::{Mended, mended};
use crate::refusals::{BAD_LINE, NO_WORD, RESERVED};
use orion_sdr::fec::PunctureRate;
use orion_sdr::modulate::ConstellationOrder;
use orion_sdr::waveform::dvb_t::GuardInterval;
use orion_sdr::waveform::dvb_t_tps::{TpsWord, tps_bch_decode};
use std::io::{self, Write};

/// The report's first line.
pub const HEADING: &str = "line frame points rate guard cell mended\n";
/// Digits of a line.
pub const DIGITS: usize = 17;

/// The word of a line and the bits that are mended, or the refusal's number.
pub fn read_line(line: &[u8]) -> Result<(TpsWord, Mended), u8> {
    if line.len() != DIGITS {
        return Err(BAD_LINE);
    }
    let mut bits = [0u8; 4 * DIGITS];
    for (digit, four) in line.iter().zip(bits.chunks_exact_mut(4)) {
        let value = match digit {
            b'0'..=b'9' => digit - b'0',
            b'a'..=b'f' => digit - b'a' + 10,
            _ => return Err(BAD_LINE),
        };
        four.copy_from_slice(&[value >> 3, value >> 2 & 1, value >> 1 & 1, value & 1]);
    }
    let read = TpsWord::unpack(&bits).map(|word| (word, mended(&bits[1..]).expect("a codeword near bits that orion-sdr reads")));
    read.ok_or_else(|| if tps_bch_decode(&bits[1..]).is_some() { RESERVED } else { NO_WORD })
}

/// The line of a word.
pub fn put_word(output: &mut impl Write, line: u64, (word, mended): (TpsWord, Mended)) -> io::Result<()> {
    let points = match word.constellation {
        ConstellationOrder::Qpsk => "4",
        ConstellationOrder::Qam16 => "16",
        _ => "64",
    };
    let rate = match word.code_rate_hp {
        PunctureRate::R1_2 => "1/2",
        PunctureRate::R2_3 => "2/3",
        PunctureRate::R3_4 => "3/4",
        PunctureRate::R5_6 => "5/6",
        PunctureRate::R7_8 => "7/8",
    };
    let guard = match word.guard {
        GuardInterval::G1_32 => "1/32",
        GuardInterval::G1_16 => "1/16",
        GuardInterval::G1_8 => "1/8",
        GuardInterval::G1_4 => "1/4",
    };
    writeln!(output, "{line} {} {points} {rate} {guard} {:02x} {}", word.frame_number, word.cell_id, mended.count)
}
