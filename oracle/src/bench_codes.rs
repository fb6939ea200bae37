//! The rows of the benchmark for the code of the TPS words.

use super::{Row, Side};
use crate::call;
use crate::random::Random;
use orion_sdr::waveform::dvb_t_tps::{self as orion, TPS_CODEWORD_BITS, TPS_INFO_BITS};
use std::hint::black_box;

/// Calls of one action, each with a word of its own.
const WORDS: usize = 4096;

/// The rows that count calls.
pub fn rows() -> Vec<Row> {
    vec![
        encode(),
        decode("tps_bch_decode, none wrong", 0),
        decode("tps_bch_decode, 1 wrong", 1),
        decode("tps_bch_decode, 2 wrong", 2),
        decode("tps_bch_decode, 3 wrong", 3),
    ]
}

/// The rows of the slow decoder, which count thousandths of a call.
pub fn slow_rows() -> Vec<Row> {
    vec![
        decode_slow("tps_bch_decode_slow, none wrong", 0),
        decode_slow("tps_bch_decode_slow, 1 wrong", 1),
        decode_slow("tps_bch_decode_slow, 2 wrong", 2),
        decode_slow("tps_bch_decode_slow, 3 wrong", 3),
    ]
}

/// Calls of one action of the slow decoder.
const SLOW_WORDS: usize = 128;

/// A row over `WORDS` calls that each take so many bits.
fn row(name: &'static str, bits: usize, asked: f64, orion: impl FnMut() + 'static, ours: impl FnMut() + 'static) -> Row {
    Row { name, size: bits, amount: WORDS, asked: Some(asked), orion: Side::new(orion), ours: Side::new(ours), copy: None }
}

/// Random informations.
fn informations() -> Vec<[u8; TPS_INFO_BITS]> {
    let mut random = Random::new(4);
    (0..WORDS).map(|_| std::array::from_fn(|_| random.next() as u8 & 1)).collect()
}

/// The bits with so many turned over from a place on, at different places.
pub fn turned<const N: usize>(random: &mut Random, sent: [u8; N], from: usize, wrong: usize) -> [u8; N] {
    let mut bits = sent;
    while bits.iter().zip(&sent).filter(|(now, before)| now != before).count() < wrong {
        let place = random.between(from, N - 1);
        bits[place] = 1 - sent[place];
    }
    bits
}

/// Codewords with so many bits turned over.
fn received(wrong: usize) -> Vec<[u8; TPS_CODEWORD_BITS]> {
    let mut random = Random::new(5);
    informations().iter().map(|info| turned(&mut random, orion::tps_bch_encode(info), 0, wrong)).collect()
}

/// Encoding random informations.
fn encode() -> Row {
    let (theirs, ours, mut out) = (informations(), informations(), [0; TPS_CODEWORD_BITS]);
    let orion = move || {
        for info in &theirs {
            black_box(orion::tps_bch_encode(black_box(info)));
        }
    };
    row("tps_bch_encode", TPS_INFO_BITS, 2.0, orion, move || {
        for info in &ours {
            black_box(call::tps_bch_encode(black_box(info), black_box(&mut out)));
        }
    })
}

/// Decoding words with so many wrong bits.
fn decode(name: &'static str, wrong: usize) -> Row {
    let (theirs, ours, mut out) = (received(wrong), received(wrong), [0; TPS_INFO_BITS]);
    let orion = move || {
        for word in &theirs {
            black_box(orion::tps_bch_decode(black_box(word)));
        }
    };
    row(name, TPS_CODEWORD_BITS, 4.0, orion, move || {
        for word in &ours {
            black_box(call::tps_bch_decode(black_box(word), black_box(&mut out)));
        }
    })
}

/// Decoding fewer words with so many wrong bits by the slow decoder; no ratio is asked.
fn decode_slow(name: &'static str, wrong: usize) -> Row {
    let (theirs, ours, mut out) = (received(wrong), received(wrong), [0; TPS_INFO_BITS]);
    let orion = move || {
        for word in &theirs[..SLOW_WORDS] {
            black_box(orion::tps_bch_decode(black_box(word)));
        }
    };
    let ours = move || {
        for word in &ours[..SLOW_WORDS] {
            black_box(call::tps_bch_decode_slow(black_box(word), black_box(&mut out)));
        }
    };
    Row { name, size: TPS_CODEWORD_BITS, amount: 1000 * SLOW_WORDS, asked: None, orion: Side::new(orion), ours: Side::new(ours), copy: None }
}
