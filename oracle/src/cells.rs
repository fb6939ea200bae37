//! Floats for cells: of all kinds, as the cells that orion-sdr takes, and plainer or fewer ones to try in place of some that show a difference.

use crate::random::Random;
use crate::shrink;
use num_complex::Complex32;

/// Floats as whole cells.
pub fn cells(floats: &[f32]) -> Vec<Complex32> {
    floats.chunks_exact(2).map(|cell| Complex32::new(cell[0], cell[1])).collect()
}

/// Floats that a copy or a clearing could change: zeros, infinities, NaN, subnormals, pilots, the largest ones.
pub const CORNERS: [u32; 20] = [
    0x0000_0000, 0x8000_0000, 0x7f80_0000, 0xff80_0000, // zeros and infinities
    0x7fc0_0000, 0xffc0_0000, 0x7f80_0001, 0xff80_0001, 0x7fbf_ffff, 0x7fff_ffff, 0xffff_ffff, 0x7fd2_3456, // NaN, quiet and signalling
    0x0000_0001, 0x8000_0001, 0x007f_ffff, 0x0080_0000, // subnormals, and the least normal float
    0x3faa_aaab, 0xbfaa_aaab, 0x7f7f_ffff, 0xff7f_ffff, // the pilots' values, the largest floats
];

/// A random float of a random kind.
pub fn some_float(random: &mut Random) -> f32 {
    let word = random.next();
    let bits = word as u32;
    f32::from_bits(match word >> 60 {
        0..=2 => CORNERS[(word >> 32) as usize % CORNERS.len()],
        3 => bits | 0x7f80_0001,
        4 => bits & 0x807f_ffff,
        _ => bits,
    })
}

/// So many random floats.
pub fn some_floats(random: &mut Random, length: usize) -> Vec<f32> {
    (0..length).map(|_| some_float(random)).collect()
}

/// Fronts of a slice: those about the needed length, and by strides.
pub fn shorter(slice: &[f32], needed: usize) -> impl Iterator<Item = Vec<f32>> + use<'_> {
    let lengths = [0, 1, 2, needed - 2, needed - 1, needed].into_iter().chain(shrink::numbers(slice.len()));
    lengths.filter(|length| *length < slice.len()).map(|length| slice[..length].to_vec())
}

/// Single floats are made plainer at the first so many places.
const SINGLE: usize = 8;

/// Slices of the same length with more zeros, then with a plainer float at one of the first places that are not zero.
pub fn plainer(slice: &[f32]) -> impl Iterator<Item = Vec<f32>> + use<'_> {
    let sizes = (0..usize::BITS).map(|halvings| slice.len() >> halvings).take_while(|size| *size > 0);
    let parts = sizes.flat_map(move |size| (0..slice.len()).step_by(size).map(move |start| start..slice.len().min(start + size)));
    let parts = parts.filter(|part| slice[part.clone()].iter().any(|float| float.to_bits() != 0));
    let zeroed = parts.map(|part| {
        let mut plain = slice.to_vec();
        plain[part].fill(0.0);
        plain
    });
    let places = (0..slice.len()).filter(|place| slice[*place].to_bits() != 0).take(SINGLE);
    let single = places.flat_map(|place| shrink::floats(slice[place]).map(move |float| (place, float)));
    zeroed.chain(single.map(|(place, float)| {
        let mut plain = slice.to_vec();
        plain[place] = float;
        plain
    }))
}
