//! The rows of the benchmark for mapping and extracting symbols; both sides' objects are made once and write into lent outputs.

use super::{Row, Side, copying};
use crate::call;
use crate::random::Random;
use num_complex::Complex32;
use orion_sdr::core::Block;
use orion_sdr::multicarrier::{CarrierGrid, GridExtract};
use orion_sdr::waveform::dvb_t::{GuardInterval, ScatteredPilotExtractor, ScatteredPilotMapper, dvb_t_2k_plan};
use std::hint::black_box;

/// Symbols of one action: one in each phase.
const SYMBOLS: usize = 4;
/// Cells of a symbol.
const SYMBOL: usize = 2048;
/// Cells of a symbol's data.
const DATA: usize = 1512;
/// Cells of a symbol's data in the static grid.
const STATIC_DATA: usize = 1660;
/// The guard interval that orion-sdr is given.
const GUARD: GuardInterval = GuardInterval::G1_32;

/// The rows that count symbols, in thousands a second.
pub fn rows() -> Vec<Row> {
    vec![map_symbol(), extract_symbol(), grid_extract()]
}

/// A row over calls that each write so many cells, done for `SYMBOLS` symbols in an action.
fn row(name: &'static str, cells: usize, mut orion: impl FnMut() + 'static, mut ours: impl FnMut() + 'static) -> Row {
    let mut copy = copying(cells * size_of::<Complex32>());
    let orion = Side::new(move || (0..SYMBOLS).for_each(|_| orion()));
    let ours = Side::new(move || (0..SYMBOLS).for_each(|_| ours()));
    let copy = Side::new(move || (0..SYMBOLS).for_each(|_| copy()));
    Row { name, size: cells, amount: SYMBOLS * 1000, asked: Some(1.0), orion, ours, copy: Some(copy) }
}

/// Random cells for both sides: as cells, and as floats in turn.
fn some_cells(count: usize) -> (Vec<Complex32>, Vec<f32>) {
    let mut random = Random::new(3);
    let floats: Vec<f32> = (0..2 * count).map(|_| random.next() as i32 as f32 / i32::MAX as f32).collect();
    (floats.chunks_exact(2).map(|cell| Complex32::new(cell[0], cell[1])).collect(), floats)
}

/// Mapping, phase after phase.
fn map_symbol() -> Row {
    let ((their_data, our_data), (mut their_symbol, mut our_symbol)) = (some_cells(DATA), some_cells(SYMBOL));
    let (mut theirs, mut ours) = (ScatteredPilotMapper::new(GUARD), call::scattered_pilot_mapper_new());
    let orion = move || theirs.map_symbol(black_box(&their_data), black_box(&mut their_symbol));
    row("map_symbol", SYMBOL, orion, move || ours = call::scattered_pilot_mapper_map_symbol(ours, black_box(&our_data), black_box(&mut our_symbol)).mapper)
}

/// Extraction, phase after phase.
fn extract_symbol() -> Row {
    let ((their_symbol, our_symbol), (mut their_data, mut our_data)) = (some_cells(SYMBOL), some_cells(DATA));
    let (mut theirs, mut ours) = (ScatteredPilotExtractor::new(GUARD), call::scattered_pilot_extractor_new());
    let orion = move || theirs.extract_symbol(black_box(&their_symbol), black_box(&mut their_data));
    row("extract_symbol", DATA, orion, move || ours = call::scattered_pilot_extractor_extract_symbol(ours, black_box(&our_symbol), black_box(&mut our_data)).extractor)
}

/// Extraction of the static grid.
fn grid_extract() -> Row {
    let ((their_symbol, our_symbol), (mut their_data, mut our_data)) = (some_cells(SYMBOL), some_cells(STATIC_DATA));
    let mut theirs = GridExtract::new(CarrierGrid::from_plan(&dvb_t_2k_plan(GUARD)));
    let orion = move || {
        black_box(theirs.process(black_box(&their_symbol), black_box(&mut their_data)));
    };
    row("GridExtract::process", STATIC_DATA, orion, move || {
        black_box(call::grid_extract(black_box(&our_symbol), black_box(&mut our_data)));
    })
}
