//! The rows of the benchmark for the symbol interleaver, beside a plain copy through an index array in Rust.

use super::{Row, Side, copying};
use crate::call;
use crate::permutation::{CELLS, permutation};
use crate::sys::SaltCounted;
use num_complex::Complex32;
use std::hint::black_box;

/// Outputs of one action, each a part of one buffer: how fast either side is swings with where its output lies.
const OUTPUTS: usize = 8;
/// Cells between the beginnings of two outputs, 512 bytes.
const APART: usize = 64;
/// Symbols of one action: an even and an odd one for each output.
const SYMBOLS: usize = 2 * OUTPUTS;
/// Within 1.5 times of the copy.
const ASKED: f64 = 0.67;

/// The rows that count symbols, in thousands a second.
pub fn rows() -> Vec<Row> {
    vec![row("interleave", call::interleave, 0), row("deinterleave", call::deinterleave, 1)]
}

/// A row of a call that writes the cells at their places in symbols of one parity and reads them there in the others.
fn row(name: &'static str, port: fn(usize, &[f32], &mut [f32]) -> SaltCounted, spreads: usize) -> Row {
    let cells: Vec<Complex32> = (0..CELLS).map(|q| Complex32::new(q as f32, -1.0)).collect();
    let floats: Vec<f32> = cells.iter().flat_map(|cell| [cell.re, cell.im]).collect();
    let mut their_output = vec![Complex32::default(); CELLS + OUTPUTS * APART];
    let mut our_output = vec![0.0; 2 * their_output.len()];
    let places: Vec<u16> = permutation().into_iter().map(|place| place as u16).collect();
    let plain = move || {
        for symbol in 0..SYMBOLS {
            let (copy, from) = (if symbol % 2 == spreads { spread } else { gather }, symbol / 2 * APART);
            copy(black_box(&places), black_box(&cells), black_box(&mut their_output[from..from + CELLS]));
        }
    };
    let ours = move || {
        for symbol in 0..SYMBOLS {
            let from = symbol / 2 * 2 * APART;
            black_box(port(symbol, black_box(&floats), black_box(&mut our_output[from..from + 2 * CELLS])));
        }
    };
    let mut copy = copying(CELLS * size_of::<Complex32>());
    let copy = Side::new(move || (0..SYMBOLS).for_each(|_| copy()));
    Row { name, size: CELLS, amount: SYMBOLS * 1000, asked: Some(ASKED), orion: Side::new(plain), ours: Side::new(ours), copy: Some(copy) }
}

/// Each cell written at its place.
fn spread(places: &[u16], cells: &[Complex32], output: &mut [Complex32]) {
    for (place, cell) in places.iter().zip(cells) {
        output[usize::from(*place)] = *cell;
    }
}

/// Each cell read at its place.
fn gather(places: &[u16], cells: &[Complex32], output: &mut [Complex32]) {
    for (place, cell) in places.iter().zip(output) {
        *cell = cells[usize::from(*place)];
    }
}
