//! The rows of the benchmark for the TPS word, its sender and its receiver.

use super::{Row, Side};
use crate::bench_codes::turned;
use crate::call;
use crate::fields::orion_word;
use crate::random::Random;
use crate::sys::{SaltTpsDecoder, SaltTpsWord};
use num_complex::Complex32;
use orion_sdr::waveform::dvb_t_tps::{TpsDecoder, TpsEncoder, TpsWord};
use std::hint::black_box;

/// Words of one action.
const WORDS: usize = 4096;
/// Frames of one action; a symbol is sent or fed at each call.
const FRAMES: usize = 16;
/// Symbols of a frame, and bits of a word.
const WORD: usize = 68;
/// Floats of a symbol's cells.
const CELLS: usize = 34;

/// The rows that count calls.
pub fn rows() -> Vec<Row> {
    vec![
        pack(),
        unpack("TpsWord::unpack, none wrong", 0),
        unpack("TpsWord::unpack, 2 wrong", 2),
        next_symbol(),
        feed_symbol("TpsDecoder::feed_symbol", Some(0.8), |SaltTpsDecoder { prev, bits, count }, cells| {
            black_box(call::tps_decoder_feed_in_place(call::floats_of(prev), bits, count, cells));
        }),
        feed_symbol("TpsDecoder::feed_symbol, by value", None, |decoder, cells| *decoder = call::tps_decoder_feed_symbol(*decoder, cells).decoder),
    ]
}

/// A row over so many calls.
fn row(name: &'static str, size: usize, calls: usize, asked: Option<f64>, orion: impl FnMut() + 'static, ours: impl FnMut() + 'static) -> Row {
    Row { name, size, amount: calls, asked, orion: Side::new(orion), ours: Side::new(ours), copy: None }
}

/// Random words: as orion-sdr's, and as the port's.
fn words() -> Vec<(TpsWord, SaltTpsWord)> {
    let mut random = Random::new(8);
    let mut word = || {
        let [frame_number, cell_id] = [random.next() as u8, random.next() as u8];
        let [constellation, code_rate_hp, guard] = [3, 5, 4].map(|codes| random.below(codes) as u8);
        let theirs = orion_word([frame_number, constellation, code_rate_hp, guard, cell_id]).expect("codes of the enums");
        (theirs, SaltTpsWord { frame_number, constellation, code_rate_hp, guard, cell_id })
    };
    (0..WORDS).map(|_| word()).collect()
}

/// The bits of random words with so many turned over behind s0.
fn received(wrong: usize) -> Vec<[u8; WORD]> {
    let mut random = Random::new(9);
    words().into_iter().map(|(word, _)| turned(&mut random, word.pack(), 1, wrong)).collect()
}

/// Packing random words.
fn pack() -> Row {
    let (theirs, ours, mut out) = (words(), words(), [0; WORD]);
    let orion = move || {
        for (word, _) in &theirs {
            black_box(black_box(*word).pack());
        }
    };
    row("TpsWord::pack", WORD, WORDS, None, orion, move || {
        for (_, word) in &ours {
            black_box(call::tps_word_pack(black_box(*word), black_box(&mut out)));
        }
    })
}

/// Unpacking words with so many wrong bits.
fn unpack(name: &'static str, wrong: usize) -> Row {
    let (theirs, ours) = (received(wrong), received(wrong));
    let orion = move || {
        for bits in &theirs {
            black_box(TpsWord::unpack(black_box(bits)));
        }
    };
    row(name, WORD, WORDS, None, orion, move || {
        for bits in &ours {
            black_box(call::tps_word_unpack(black_box(bits)));
        }
    })
}

/// The bits of frames.
fn frames() -> Vec<[u8; WORD]> {
    received(0).into_iter().take(FRAMES).collect()
}

/// Sending frames, each from a reset.
fn next_symbol() -> Row {
    let (theirs, ours, mut out) = (frames(), frames(), [0.0; CELLS]);
    let (mut their_encoder, mut our_encoder) = (TpsEncoder::new(), call::tps_encoder_new());
    let orion = move || {
        for bits in &theirs {
            their_encoder.reset();
            for bit in bits {
                black_box(their_encoder.next_symbol(black_box(*bit)));
            }
        }
    };
    row("TpsEncoder::next_symbol", 1, FRAMES * WORD, None, orion, move || {
        for bits in &ours {
            our_encoder = call::tps_encoder_reset(our_encoder);
            bits.iter().for_each(|bit| our_encoder = call::tps_encoder_next_symbol(our_encoder, black_box(*bit), black_box(&mut out)).encoder);
        }
    })
}

/// The cells of sent frames with noise.
fn symbols() -> Vec<Vec<[Complex32; CELLS / 2]>> {
    let mut random = Random::new(10);
    let mut noise = || random.next() as i32 as f32 / i32::MAX as f32 * 0.3;
    let mut noisy = |cells: [Complex32; CELLS / 2]| cells.map(|cell| Complex32::new(cell.re + noise(), cell.im + noise()));
    let mut sent = |bits: [u8; WORD]| {
        let mut encoder = TpsEncoder::new();
        bits.iter().map(|bit| noisy(encoder.next_symbol(*bit))).collect()
    };
    frames().into_iter().map(&mut sent).collect()
}

/// Feeding frames, each from a reset; ours by a function that feeds one symbol.
fn feed_symbol(name: &'static str, asked: Option<f64>, feed: impl Fn(&mut SaltTpsDecoder, &[f32]) + 'static) -> Row {
    let theirs = symbols();
    let floats = |cells: &[Complex32; CELLS / 2]| cells.iter().flat_map(|cell| [cell.re, cell.im]).collect();
    let ours: Vec<Vec<Vec<f32>>> = theirs.iter().map(|frame| frame.iter().map(floats).collect()).collect();
    let (mut their_decoder, mut our_decoder) = (TpsDecoder::new(), call::tps_decoder_new());
    let orion = move || {
        for frame in &theirs {
            their_decoder.reset();
            frame.iter().for_each(|cells| black_box(&mut their_decoder).feed_symbol(black_box(cells)));
        }
    };
    row(name, 1, FRAMES * WORD, asked, orion, move || {
        for frame in &ours {
            our_decoder = call::tps_decoder_reset(our_decoder);
            frame.iter().for_each(|cells| feed(black_box(&mut our_decoder), black_box(cells)));
        }
    })
}
