//! The code by a plain second writing of the rule (EN 300 744, 4.6.2.11), and which bits of a received codeword are wrong (document 02, E1): orion-sdr
//! mends them and doesn't tell. A word is divided by the generator bit after bit, and its remainder looked up among those of all patterns of at most two places.

use std::sync::OnceLock;

/// Bits of a codeword.
const CODEWORD: u8 = 67;
/// The generator's coefficients, x^14 first.
const GENERATOR: u16 = 0x4377;
/// The generator's degree, which is as many bits as a remainder has.
const DEGREE: usize = 14;
/// What stands for no place.
pub const NO_PLACE: u8 = 255;

/// How many bits are mended, 0 to 2, and their places, rising.
#[derive(Clone, Copy, Debug, PartialEq)]
pub struct Mended {
    pub count: u8,
    pub first: u8,
    pub second: u8,
}

impl Mended {
    /// No bit mended, which is what a refusal tells too.
    pub const NONE: Self = Self { count: 0, first: NO_PLACE, second: NO_PLACE };

    /// The places at which two words differ, of which the first two are told.
    pub fn differing(one: &[u8], other: &[u8]) -> Self {
        let places = || (0..CODEWORD).filter(|place| one[usize::from(*place)] != other[usize::from(*place)]);
        let told = |nth| places().nth(nth).unwrap_or(NO_PLACE);
        Self { count: places().count() as u8, first: told(0), second: told(1) }
    }
}

/// What is left of bits in long division by the generator.
fn remainder(bits: &[u8]) -> u16 {
    bits.iter().fold(0, |left, bit| {
        let brought_down = left << 1 | u16::from(*bit);
        if brought_down >> DEGREE == 1 { brought_down ^ GENERATOR } else { brought_down }
    })
}

/// The codeword of information: behind it the remainder of the information with 14 zeros behind it.
pub fn codeword(information: &[u8]) -> Vec<u8> {
    let left = remainder(&[information, &[0; DEGREE]].concat());
    let parity = (0..DEGREE).rev().map(|power| (left >> power & 1) as u8);
    information.iter().copied().chain(parity).collect()
}

/// No place, each one, and each two of a codeword.
fn patterns() -> impl Iterator<Item = Mended> {
    let single = (0..CODEWORD).map(|first| Mended { count: 1, first, second: NO_PLACE });
    let pairs = (0..CODEWORD).flat_map(|first| (first + 1..CODEWORD).map(move |second| Mended { count: 2, first, second }));
    std::iter::once(Mended::NONE).chain(single).chain(pairs)
}

/// The pattern of each remainder, where there is one; no two have the same.
fn by_remainder() -> Vec<Option<Mended>> {
    let mut table = vec![None; 1 << DEGREE];
    for pattern in patterns() {
        let bits: Vec<u8> = (0..CODEWORD).map(|place| u8::from(place == pattern.first || place == pattern.second)).collect();
        let before = table[usize::from(remainder(&bits))].replace(pattern);
        assert!(before.is_none(), "{before:?} and {pattern:?} have the same remainder");
    }
    table
}

/// The bits by which 67 bits differ from the codeword within distance two; None where there is no such codeword.
pub fn mended(word: &[u8]) -> Option<Mended> {
    static TABLE: OnceLock<Vec<Option<Mended>>> = OnceLock::new();
    assert_eq!(word.len(), usize::from(CODEWORD));
    TABLE.get_or_init(by_remainder)[usize::from(remainder(word))]
}
