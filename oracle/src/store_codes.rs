//! The stored answers of the TPS code and of TPS words: encode, decode, pack and unpack.

use crate::Lines;
use crate::fields::{orion_fields, orion_word};
use crate::packed;
use crate::random::Random;
use crate::refusals::{LENGTH, NO_WORD, RESERVED};
use orion_sdr::waveform::dvb_t_tps::{TpsWord, tps_bch_decode, tps_bch_encode};

/// Bits of the information.
const INFORMATION: usize = 53;
/// Bits of a codeword.
const CODEWORD: usize = 67;

/// So many random bits.
pub fn bits(random: &mut Random, length: usize) -> Vec<u8> {
    random.bytes(length).iter().map(|byte| byte & 1).collect()
}

/// Bits that are 0 but at some places.
fn ones(length: usize, places: &[usize]) -> Vec<u8> {
    (0..length).map(|place| u8::from(places.contains(&place))).collect()
}

/// The bits with so many turned over, from a place on.
fn wrong(random: &mut Random, bits: &[u8], from: usize, count: usize) -> Vec<u8> {
    let mut places = vec![];
    while places.len() < count {
        let place = random.between(from, bits.len() - 1);
        if !places.contains(&place) {
            places.push(place);
        }
    }
    bits.iter().enumerate().map(|(place, bit)| bit ^ u8::from(places.contains(&place))).collect()
}

/// The codeword of random information.
fn codeword(random: &mut Random) -> Vec<u8> {
    tps_bch_encode(&bits(random, INFORMATION)).to_vec()
}

/// Zeros, ones, single ones and random informations.
pub fn encode(lines: &mut Lines) {
    let mut informations = vec![vec![0; INFORMATION], vec![1; INFORMATION]];
    informations.extend((0..INFORMATION).step_by(4).map(|place| ones(INFORMATION, &[place])));
    informations.extend((0..24).map(|_| bits(&mut lines.random, INFORMATION)));
    for info in informations {
        lines.answer("tps_bch_encode", 0, &info, Some(&tps_bch_encode(&info)));
    }
    for place in [0, 52, 53, 66] {
        let info = bits(&mut lines.random, INFORMATION);
        lines.turned("tps_bch_encode", 0, &info, &tps_bch_encode(&info), 8 * place + 7);
    }
}

/// The remainder of x^degree divided by the generator, as the last bits of a word; x^degree stands in a shortened place from 67 on.
fn shortened(degree: usize) -> Vec<u8> {
    let register = (0..degree).fold(1u32, |register, _| if register & 0x2000 == 0 { register << 1 } else { register << 1 ^ 0x4377 });
    (0..CODEWORD).map(|place| (u64::from(register) >> (CODEWORD - 1 - place) & 1) as u8).collect()
}

/// Words without remainder zero that the decoder has to refuse or to mend: wrong places of which one or two are shortened ones.
fn beyond(random: &mut Random) -> Vec<Vec<u8>> {
    let mut words = vec![];
    for degree in [67, 68, 90, 126] {
        let place = random.below(CODEWORD);
        let one = shortened(degree);
        words.push(codeword(random).iter().zip(&one).map(|(bit, other)| bit ^ other).collect());
        words.push(one.iter().enumerate().map(|(at, bit)| bit ^ u8::from(at == place)).collect());
        words.push(one.iter().zip(shortened(degree - 1)).map(|(bit, other)| bit ^ other).collect());
        words.push(one);
    }
    words
}

/// Words with none to four wrong bits, with a wrong place among the shortened ones, document 01's three bits, and lengths that are refused.
pub fn decode(lines: &mut Lines) {
    let mut words = vec![vec![0; CODEWORD], vec![1; CODEWORD], ones(CODEWORD, &[66 - 7, 66 - 3, 66])];
    for count in (0..8).flat_map(|_| 0..=4) {
        let word = codeword(&mut lines.random);
        words.push(wrong(&mut lines.random, &word, 0, count));
    }
    words.extend(beyond(&mut lines.random));
    for word in words {
        match tps_bch_decode(&word) {
            Some(info) => lines.answer("tps_bch_decode", 0, &word, Some(&info)),
            None => lines.refused("tps_bch_decode", 0, &word, NO_WORD),
        }
    }
    for length in [0, 1, 53, 66, 68] {
        let word = bits(&mut lines.random, length);
        assert!(tps_bch_decode(&word).is_none());
        lines.refused("tps_bch_decode", 0, &word, LENGTH);
    }
    for (count, place) in [(0, 0), (1, 26), (2, 52)] {
        let word = codeword(&mut lines.random);
        let word = wrong(&mut lines.random, &word, 0, count);
        lines.turned("tps_bch_decode", 0, &word, &tps_bch_decode(&word).expect("a word near a codeword"), 8 * place + 7);
    }
    let word = ones(CODEWORD, &[66 - 7, 66 - 3, 66]);
    assert!(tps_bch_decode(&word).is_none());
    lines.wrong("tps_bch_decode", 0, &word, RESERVED, &[]);
    lines.wrong("tps_bch_decode", 0, &word, 0, &word[..INFORMATION]);
}

/// The bits of a word with these fields.
fn packed(fields: [u8; 5]) -> [u8; CODEWORD + 1] {
    packed::packed(orion_word(fields).expect("codes of the enums"))
}

/// Words of every constellation, rate and guard, with any frame number and cell id.
fn words(random: &mut Random) -> Vec<[u8; 5]> {
    let mut words = vec![[0; 5], [3, 2, 4, 3, 255], [255, 1, 2, 1, 128]];
    for (place, (constellation, rate)) in (0..3).flat_map(|one| (0..5).map(move |two| (one, two))).enumerate() {
        for guard in 0..4u8 {
            let frame = if guard == 0 { random.next() as u8 } else { (place as u8 + guard) % 4 };
            words.push([frame, constellation, rate, guard, random.next() as u8]);
        }
    }
    words
}

/// The words, and four with a bit turned.
pub fn pack(lines: &mut Lines) {
    for fields in words(&mut lines.random) {
        lines.answer("TpsWord::pack", 0, &fields, Some(&packed(fields)));
    }
    for (fields, place) in [([1, 0, 3, 2, 77], 0), ([2, 1, 0, 3, 1], 1), ([3, 2, 4, 0, 200], 24), ([0, 0, 0, 0, 0], 67)] {
        lines.turned("TpsWord::pack", 0, &fields, &packed(fields), 8 * place + 7);
    }
}

/// Adds what unpacking answers; its None is LENGTH, NO WORD where the code has no word, and else RESERVED.
fn unpacked(lines: &mut Lines, bits: &[u8]) {
    match TpsWord::unpack(bits) {
        Some(word) => lines.answer("TpsWord::unpack", 0, bits, Some(&orion_fields(word))),
        None if bits.len() != CODEWORD + 1 => lines.refused("TpsWord::unpack", 0, bits, LENGTH),
        None if tps_bch_decode(&bits[1..]).is_none() => lines.refused("TpsWord::unpack", 0, bits, NO_WORD),
        None => lines.refused("TpsWord::unpack", 0, bits, RESERVED),
    }
}

/// A word of random information, in which a constellation or a rate may be reserved and every other field is any.
fn any_word(random: &mut Random) -> Vec<u8> {
    let mut word = bits(random, 1);
    word.extend(codeword(random));
    word
}

/// Packed words with none to three wrong bits, words of any information with none to two, and lengths that are refused.
pub fn unpack(lines: &mut Lines) {
    for (place, fields) in words(&mut lines.random).into_iter().step_by(2).enumerate() {
        let word = wrong(&mut lines.random, &packed(fields), 0, place % 4);
        unpacked(lines, &word);
    }
    for count in (0..12).flat_map(|_| 0..=2) {
        let word = any_word(&mut lines.random);
        let word = wrong(&mut lines.random, &word, 1, count);
        unpacked(lines, &word);
    }
    for length in [0, 1, 53, 67, 69] {
        let word = bits(&mut lines.random, length);
        unpacked(lines, &word);
    }
    for bit in [7, 8 + 7, 2 * 8 + 5, 3 * 8 + 6, 4 * 8] {
        let fields = [2, 1, 3, 0, 0x5A];
        lines.turned("TpsWord::unpack", 0, &packed(fields), &fields, bit);
    }
    let reserved = tps_bch_encode(&ones(INFORMATION, &[24, 25]));
    let word: Vec<u8> = std::iter::once(0).chain(reserved).collect();
    assert!(TpsWord::unpack(&word).is_none());
    lines.wrong("TpsWord::unpack", 0, &word, NO_WORD, &[]);
}
