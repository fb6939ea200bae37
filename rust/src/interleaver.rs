//! The symbol interleaver and its inverse (EN 300 744, 4.3.4.2), which orion-sdr doesn't have: the 1,512 data cells of a symbol in the order in which
//! they are coded, and in the order in which they are sent.
//!
//! ```
//! use saltkernel::interleaver::{deinterleave, interleave, INTERLEAVED_CELLS};
//! use saltkernel::{Complex32, Refusal};
//!
//! let cells: Vec<Complex32> = (0..INTERLEAVED_CELLS).map(|q| Complex32::new(q as f32, 0.0)).collect();
//! let (mut sent, mut back) = (vec![Complex32::default(); 1512], vec![Complex32::default(); 1512]);
//! interleave(0, &cells, &mut sent)?;
//! assert_eq!((sent[1024], sent[16]), (cells[1], cells[2]));
//! interleave(1, &cells, &mut sent)?;
//! assert_eq!((sent[1], sent[2]), (cells[1024], cells[16]));
//! assert_eq!(deinterleave(1, &sent, &mut back), Ok(1512));
//! assert_eq!(back, cells);
//! assert_eq!(interleave(0, &cells[1..], &mut sent), Err(Refusal::Length));
//! # Ok::<(), Refusal>(())
//! ```

use crate::call;
use crate::complex::Complex32;
use crate::numbers::{floats, floats_mut};
use crate::packets::count_of;
use crate::refusal::Refusal;
use crate::sys::SALT_DATA_CELLS;

/// The cells that are interleaved: the data cells of a symbol.
pub const INTERLEAVED_CELLS: usize = SALT_DATA_CELLS;

/// Interleaves the 1,512 data cells of a symbol and gives their number. Of the symbol's number only even and odd count: in even symbols cell q is
/// written at place H(q), in odd ones the cell at place H(q) is written at q; the cells keep their bits. Refusals: [`Refusal::Length`] for fewer cells,
/// then [`Refusal::OutputShort`]. Surplus isn't written.
pub fn interleave(symbol: usize, cells: &[Complex32], out: &mut [Complex32]) -> Result<usize, Refusal> {
    count_of(call::interleave(symbol, floats(cells), floats_mut(out)))
}

/// Undoes what [`interleave`] did to the 1,512 data cells of a symbol with this number, and gives their number. Refusals as there.
pub fn deinterleave(symbol: usize, cells: &[Complex32], out: &mut [Complex32]) -> Result<usize, Refusal> {
    count_of(call::deinterleave(symbol, floats(cells), floats_mut(out)))
}
