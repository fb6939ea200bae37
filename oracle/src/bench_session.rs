//! The rows of the benchmark for the receive session, which orion-sdr has not: a feed against its extract_symbol and feed_symbol together, a step back
//! against our own feeds of all symbols that stand, and one over a frame's beginning against ten of our own feeds.

use super::{Row, Side, copying};
use crate::call;
use crate::random::Random;
use num_complex::Complex32;
use orion_sdr::waveform::dvb_t::{GuardInterval, ScatteredPilotExtractor, tps_carrier_bins};
use orion_sdr::waveform::dvb_t_tps::TpsDecoder;
use std::hint::black_box;

/// Cells of a symbol, and of its data.
const SYMBOL: usize = 2048;
const DATA: usize = 1512;
/// Floats of a journal.
const JOURNAL: usize = 4624;
/// Symbols of a frame: those of one action of the first row.
const FRAME: usize = 68;
/// Symbols that stand before the step back.
const STANDING: usize = 34;

/// Random symbols, as floats in turn.
fn symbols(count: usize) -> Vec<Vec<f32>> {
    let mut random = Random::new(11);
    (0..count).map(|_| (0..2 * SYMBOL).map(|_| random.next() as i32 as f32 / i32::MAX as f32).collect()).collect()
}

/// Feeding four symbols over and over, each frame from a reset; the TPS cells are picked for orion-sdr beforehand.
pub fn feed() -> Row {
    let ours = symbols(4);
    let theirs: Vec<Vec<Complex32>> = ours.iter().map(|symbol| symbol.chunks_exact(2).map(|cell| Complex32::new(cell[0], cell[1])).collect()).collect();
    let picked: Vec<[Complex32; 17]> = theirs.iter().map(|symbol| tps_carrier_bins().map(|bin| symbol[bin])).collect();
    let (mut extractor, mut decoder, mut data) = (ScatteredPilotExtractor::new(GuardInterval::G1_32), TpsDecoder::new(), vec![Complex32::default(); DATA]);
    let orion = move || {
        (extractor.reset(), decoder.reset());
        for place in 0..FRAME {
            extractor.extract_symbol(black_box(&theirs[place % 4]), black_box(&mut data));
            black_box(&mut decoder).feed_symbol(black_box(&picked[place % 4]));
        }
    };
    let (mut session, mut out, mut journal) = (call::session_new(), vec![0.0; 2 * DATA], vec![0.0; JOURNAL]);
    let ours = move || {
        session = call::session_reset(session);
        for place in 0..FRAME {
            session = call::session_feed(session, black_box(&ours[place % 4]), black_box(&mut out), black_box(&mut journal)).session;
        }
    };
    let mut copy = copying(DATA * size_of::<Complex32>());
    let copy = Side::new(move || (0..FRAME).for_each(|_| copy()));
    Row { name: "Session::feed", size: DATA, amount: FRAME * 1000, asked: Some(1.0), orion: Side::new(orion), ours: Side::new(ours), copy: Some(copy) }
}

/// A step back where 34 symbols stand, against feeding these again by our own feed.
pub fn step_back() -> Row {
    let (symbols, mut out, mut journal) = (symbols(STANDING), vec![0.0; 2 * DATA], vec![0.0; JOURNAL]);
    let mut again = move |journal: &mut [f32]| {
        let fed = |session, symbol: &Vec<f32>| call::session_feed(session, black_box(symbol), black_box(&mut out), black_box(journal)).session;
        symbols.iter().fold(call::session_new(), fed)
    };
    let session = again(&mut journal);
    let mut other = journal.clone();
    let again = move || {
        black_box(again(&mut other));
    };
    let back = move || {
        black_box(call::session_step_back(black_box(session), black_box(&journal)));
    };
    Row { name: "Session::step_back", size: STANDING, amount: 1000, asked: Some(20.0), orion: Side::new(again), ours: Side::new(back), copy: None }
}

/// A step back of the first symbol of a frame, against ten of our own feeds.
pub fn step_back_over() -> Row {
    let (symbols, mut out, mut journal) = (symbols(FRAME + 1), vec![0.0; 2 * DATA], vec![0.0; JOURNAL]);
    let fed = |session, symbol: &Vec<f32>| call::session_feed(session, symbol, &mut out, &mut journal).session;
    let session = symbols.iter().fold(call::session_new(), fed);
    let mut other = journal.clone();
    let ten = move || {
        let fed = |session, symbol: &Vec<f32>| call::session_feed(session, black_box(symbol), black_box(&mut out), black_box(&mut other)).session;
        black_box(symbols[..10].iter().fold(call::session_new(), fed));
    };
    let back = move || {
        black_box(call::session_step_back(black_box(session), black_box(&journal)));
    };
    Row { name: "Session::step_back, over a frame", size: FRAME, amount: 1000, asked: Some(1.0), orion: Side::new(ten), ours: Side::new(back), copy: None }
}
