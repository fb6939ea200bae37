//! The stored answers of TPS's sender and receiver: send and receive.

use crate::points::pattern;
use crate::random::Random;
use crate::store_codes::bits;
use crate::{Lines, patterns, turned_floats};
use num_complex::Complex32;
use orion_sdr::fec::PunctureRate;
use orion_sdr::modulate::ConstellationOrder;
use orion_sdr::waveform::dvb_t::GuardInterval;
use orion_sdr::waveform::dvb_t_tps::{TpsDecoder, TpsEncoder, TpsWord};

/// A symbol's cells on the TPS carriers.
type Cells = [Complex32; 17];

/// The cells that a new sender makes of a run of bits.
fn sent(bits: &[u8]) -> Vec<Cells> {
    let mut encoder = TpsEncoder::new();
    bits.iter().map(|bit| encoder.next_symbol(*bit)).collect()
}

/// The bits that a new receiver makes of a run of cells.
pub fn received(symbols: &[Cells]) -> Vec<u8> {
    let mut decoder = TpsDecoder::new();
    symbols.iter().for_each(|cells| decoder.feed_symbol(cells));
    decoder.bits().to_vec()
}

/// Cells as floats, re and im in turn.
fn floats(symbols: &[Cells]) -> Vec<f32> {
    symbols.iter().flatten().flat_map(|cell| [cell.re, cell.im]).collect()
}

/// The bits of a frame's word.
fn frame() -> Vec<u8> {
    let word = TpsWord {
        frame_number: 1,
        constellation: ConstellationOrder::Qam64,
        code_rate_hp: PunctureRate::R3_4,
        guard: GuardInterval::G1_8,
        cell_id: 0xC5,
    };
    word.pack().to_vec()
}

/// Short runs of all bits, longer random ones, a whole frame, and two with a bit turned.
pub fn send(lines: &mut Lines) {
    let mut runs: Vec<Vec<u8>> = [&[0][..], &[1], &[0, 0], &[0, 1], &[1, 0], &[1, 1], &[0, 1, 1, 1, 0, 0, 1, 0]].map(<[u8]>::to_vec).to_vec();
    runs.extend((0..3).map(|_| bits(&mut lines.random, 8)));
    runs.push(frame());
    for run in runs {
        let cells = patterns(&floats(&sent(&run)), pattern);
        lines.answer("TpsEncoder", 0, &run, Some(&cells));
    }
    for bit in [0, 32, 3 * 34 * 32] {
        let run = [1, 0, 1, 1];
        turned_floats(lines, "TpsEncoder", 0, &run, &floats(&sent(&run)), bit);
    }
}

/// A random number from -1 to 1.
fn unit(random: &mut Random) -> f32 {
    random.between(0, 2_000_000) as f32 / 1_000_000.0 - 1.0
}

/// Sent cells turned by the channel, with noise of a size.
fn noisy(random: &mut Random, bits: &[u8], size: f32) -> Vec<Cells> {
    let channel = Complex32::new(unit(random), unit(random));
    let mut symbols = sent(bits);
    for cell in symbols.iter_mut().flatten() {
        *cell = *cell * channel + Complex32::new(size * unit(random), size * unit(random));
    }
    symbols
}

/// Floats that a product or a sum could go wrong at: zeros, infinities, NaN, subnormals, the largest, and some whose products overflow or vanish.
const CORNERS: [u32; 16] = [
    0x0000_0000, 0x8000_0000, 0x7f80_0000, 0xff80_0000, 0x7fc0_0000, 0xff80_0001, 0x0000_0001, 0x8000_0001, //
    0x007f_ffff, 0x0080_0000, 0x7f7f_ffff, 0xff7f_ffff, 0x3f80_0000, 0xbf80_0000, 0x6000_0000, 0x1f80_0001,
];

/// Sent cells in some of which a coordinate is replaced.
fn with_corners(random: &mut Random, bits: &[u8], corners: &[u32], count: usize) -> Vec<Cells> {
    let mut symbols = sent(bits);
    for _ in 0..count {
        let corner = f32::from_bits(corners[random.below(corners.len())]);
        let place = random.below(symbols.len());
        let cell = &mut symbols[place][random.below(17)];
        if random.below(2) == 0 { cell.re = corner } else { cell.im = corner }
    }
    symbols
}

/// Two symbols whose sum has another sign where it is summed from the end, or where it isn't rounded after each operation: two large products cancel.
fn rounded(random: &mut Random) -> Vec<Cells> {
    loop {
        let large = 2f32.powi(random.between(22, 30) as i32);
        let (one, other) = (random.below(17), random.below(17));
        let before: Cells = std::array::from_fn(|_| Complex32::new(unit(random), unit(random)));
        let mut cells: Cells = std::array::from_fn(|_| Complex32::new(unit(random), unit(random)));
        cells[one] = cells[one] + before[other] * large;
        cells[other] = cells[other] - before[one] * large;
        let product = |(one, two): (&Complex32, &Complex32)| f64::from(one.re) * f64::from(two.re) + f64::from(one.im) * f64::from(two.im);
        let products: Vec<f64> = cells.iter().zip(&before).map(product).collect();
        let backward = products.iter().rev().fold(0.0f32, |sum, product| sum + *product as f32) < 0.0;
        let exact = products.iter().sum::<f64>() < 0.0;
        let bit = received(&[before, cells])[1] == 1;
        if bit != backward && bit != exact {
            return vec![before, cells];
        }
    }
}

/// Runs: clean, turned by a channel with noise, with a few or many floats of every kind, and with sums that round to another sign.
pub fn receive(lines: &mut Lines) {
    let mut runs = vec![sent(&[0, 1, 1, 0, 1, 0, 0, 1]), sent(&[1, 1])];
    for size in [0.1, 0.5, 1.0, 2.0, 4.0] {
        let bits = bits(&mut lines.random, 8);
        runs.push(noisy(&mut lines.random, &bits, size));
    }
    runs.push(noisy(&mut lines.random, &frame(), 0.7));
    for corner in CORNERS {
        let bits = bits(&mut lines.random, 4);
        runs.push(with_corners(&mut lines.random, &bits, &[corner], 3));
    }
    for count in [1, 2, 8, 200] {
        let bits = bits(&mut lines.random, 8);
        runs.push(with_corners(&mut lines.random, &bits, &CORNERS, count));
    }
    runs.extend((0..8).map(|_| rounded(&mut lines.random)));
    for run in runs {
        lines.answer("TpsDecoder", 0, &patterns(&floats(&run), f32::to_bits), Some(&received(&run)));
    }
    for place in [0, 3, 7] {
        let bits = bits(&mut lines.random, 8);
        let run = noisy(&mut lines.random, &bits, 0.5);
        lines.turned("TpsDecoder", 0, &patterns(&floats(&run), f32::to_bits), &received(&run), 8 * place + 7);
    }
}
