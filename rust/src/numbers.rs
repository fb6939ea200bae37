//! Slices of cells and of carriers, viewed as the plain numbers that the library takes.
//!
//! Why each is safe: `Complex32` is two f32 and no more (`repr(C)`), and `Active` and `Bin` are one u16 (`repr(transparent)`), so a view covers the same
//! memory at the same alignment; any number in it is a valid one on either side; and it borrows the slice for as long as it lives.

use crate::carrier::{Active, Bin};
use crate::complex::Complex32;
use std::slice::{from_raw_parts, from_raw_parts_mut};

/// The floats of cells, re and im in turn.
pub fn floats(cells: &[Complex32]) -> &[f32] {
    unsafe { from_raw_parts(cells.as_ptr().cast(), 2 * cells.len()) }
}

/// The floats of cells that are lent to be written.
pub fn floats_mut(cells: &mut [Complex32]) -> &mut [f32] {
    unsafe { from_raw_parts_mut(cells.as_mut_ptr().cast(), 2 * cells.len()) }
}

/// The numbers of active indices that are lent to be written.
pub fn indices_mut(indices: &mut [Active]) -> &mut [u16] {
    unsafe { from_raw_parts_mut(indices.as_mut_ptr().cast(), indices.len()) }
}

/// The numbers of bins that are lent to be written.
pub fn bins_mut(bins: &mut [Bin]) -> &mut [u16] {
    unsafe { from_raw_parts_mut(bins.as_mut_ptr().cast(), bins.len()) }
}
