//! Received points for demapping: coordinates that it could get wrong, and random ones of many kinds.

use crate::random::Random;
use orion_sdr::waveform::dvb_t as orion;

/// The sizes of a bit group.
pub const SIZES: [usize; 3] = [2, 4, 6];

/// All groups of so many bits, in rising order.
pub fn groups(size: usize) -> impl Iterator<Item = Vec<u8>> {
    (0..1usize << size).map(move |group| (0..size).rev().map(|place| (group >> place & 1) as u8).collect())
}

/// The levels of an axis in rising order, as orion-sdr's mapping has them.
pub fn levels(size: usize) -> Vec<f32> {
    let point = |bits: Vec<u8>| orion::dvb_t_map_symbol(&bits).expect("a group's size");
    let mut levels: Vec<f32> = groups(size).map(|bits| point(bits).re).collect();
    levels.sort_by(f32::total_cmp);
    levels.dedup();
    levels
}

/// The midpoint of every two levels.
pub fn midpoints(levels: &[f32]) -> Vec<f32> {
    let pairs = levels.iter().enumerate().flat_map(|(place, one)| levels[..place].iter().map(move |two| (one, two)));
    let mut midpoints: Vec<f32> = pairs.map(|(one, two)| (one + two) / 2.0).collect();
    midpoints.sort_by(f32::total_cmp);
    midpoints.dedup();
    midpoints
}

/// The finite float so many units in the last place above one, or below it.
pub fn beside(float: f32, units: i32) -> f32 {
    let turned = |bits: i32| if bits < 0 { i32::MIN.wrapping_sub(bits) } else { bits };
    f32::from_bits(turned(turned(float.to_bits() as i32).wrapping_add(units)) as u32)
}

/// A float's bits, where every NaN has the same.
pub fn pattern(float: f32) -> u32 {
    if float.is_nan() { 0x7fc0_0000 } else { float.to_bits() }
}

/// Coordinates apart from any constellation, without those that the sign bit gives: zero, subnormal, huge, infinite, NaN.
const FAR: [u32; 22] = [
    0x0000_0000, 0x0000_0001, 0x0000_0002, 0x0040_0000, 0x007f_ffff, 0x0080_0000, // zero, subnormals, the least normal float
    0x5f7f_ffff, 0x5f80_0000, 0x5f80_0001, // the last whose square is finite, and two whose square overflows
    0x60ad_78ec, 0x7149_f2ca, 0x7e96_7699, 0x7f7f_c99e, // 1e20, 1e30, 1e38, 3.4e38
    0x7f7f_fffe, 0x7f7f_ffff, 0x7f80_0000, // the largest floats, the infinity
    0x7f80_0001, 0x7f92_3456, 0x7fbf_ffff, 0x7fc0_0000, 0x7fd2_3456, 0x7fff_ffff, // NaN, signalling and quiet
];

/// The exponents of powers of two where distances begin to round equal, and where squares begin to overflow.
const POWERS: [i32; 19] = [20, 21, 22, 23, 24, 25, 26, 27, 28, 29, 30, 31, 32, 62, 63, 64, 65, 66, 127];

/// The points of one group size.
pub struct Points {
    levels: Vec<f32>,
    corners: Vec<f32>,
}

impl Points {
    /// The points for a group size.
    pub fn new(size: usize) -> Self {
        let levels = levels(size);
        let far = FAR.into_iter().map(f32::from_bits).chain(POWERS.map(|power| 2f32.powi(power)));
        let mut corners: Vec<f32> = far.flat_map(|float| [float, -float]).collect();
        let near = levels.iter().copied().chain(midpoints(&levels));
        corners.extend(near.flat_map(|float| (-2..=2).map(move |units| beside(float, units))));
        Self { levels, corners }
    }

    /// Hands over all pairs of corners and then so many random points; gives how many they were.
    pub fn each(&self, random: &mut Random, count: usize, mut point: impl FnMut(f32, f32)) -> usize {
        for re in &self.corners {
            self.corners.iter().for_each(|im| point(*re, *im));
        }
        for _ in 0..count {
            point(self.coordinate(random), self.coordinate(random));
        }
        self.corners.len() * self.corners.len() + count
    }

    /// A coordinate of a random kind.
    pub fn coordinate(&self, random: &mut Random) -> f32 {
        let word = random.next();
        let (kind, bits) = (word >> 60, word as u32);
        match kind {
            0..=3 => self.received(random),
            4..=6 => beside(self.corners[random.below(self.corners.len())], (bits % 9) as i32 - 4),
            7 => f32::from_bits(bits),
            8 => f32::from_bits(bits | 0x7f80_0001),
            9 => f32::from_bits(bits & 0x807f_ffff),
            10 | 11 => with_exponent(bits, random.between(4, 40)),
            12 => with_exponent(bits, random.between(60, 67)),
            13 => with_exponent(bits, random.between(64, 127)),
            _ => bits as i32 as f32 / i32::MAX as f32 * 1.5,
        }
    }

    /// A coordinate as a receiver sees it: a level and some noise.
    pub fn received(&self, random: &mut Random) -> f32 {
        let word = random.next();
        let level = self.levels[(word >> 48) as usize % self.levels.len()];
        let noise = (0..3).map(|part| (word >> (16 * part)) as u16 as f32 / 65536.0 - 0.5).sum::<f32>();
        level + noise * 0.2
    }
}

/// A float of random sign and fraction, with its exponent.
fn with_exponent(bits: u32, exponent: usize) -> f32 {
    f32::from_bits(bits & 0x807f_ffff | (exponent as u32 + 127) << 23)
}
