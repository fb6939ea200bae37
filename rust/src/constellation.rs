//! Gray mapping, hard and soft demapping.

use crate::call;
use crate::complex::Complex32;
use crate::packets::count_of;
use crate::refusal::{accepted, Refusal};
use std::ops::Deref;

/// The point of a group of 2, 4 or 6 bits (QPSK, 16-QAM, 64-QAM): even bits, high first, index the I axis, odd bits the Q axis (EN 300 744, 4.3.5).
/// Refusals: [`Refusal::Length`], then [`Refusal::NotABit`].
///
/// ```
/// use saltkernel::waveform::dvb_t::{dvb_t_demap_symbol, dvb_t_map_symbol, dvb_t_soft_llr};
/// use saltkernel::Refusal;
///
/// let point = dvb_t_map_symbol(&[0, 0, 1, 0])?;
/// assert_eq!((point.re, point.im), (0.31622776, 3.0 * 0.31622776));
/// assert_eq!(dvb_t_demap_symbol(point, 4)?, [0, 0, 1, 0]);
/// let soft = dvb_t_soft_llr(point, 4)?;
/// assert!(soft[0] > 0.0 && soft[1] > 0.0 && soft[2] < 0.0 && soft[3] > 0.0);
/// # Ok::<(), Refusal>(())
/// ```
pub fn dvb_t_map_symbol(bits: &[u8]) -> Result<Complex32, Refusal> {
    let answer = call::dvb_t_map_symbol(bits);
    accepted(answer.number, answer.point.into())
}

/// The `v` bits of the point nearest to a cell: on each axis the first index with the least distance. Another group size than 2, 4 or 6 is
/// [`Refusal::Length`].
pub fn dvb_t_demap_symbol(sym: Complex32, v: usize) -> Result<Vec<u8>, Refusal> {
    let mut out = [0; 6];
    let count = dvb_t_demap_symbol_into(sym, v, &mut out)?;
    Ok(out[..count].to_vec())
}

/// [`dvb_t_demap_symbol`] into a lent output; gives the bits written. Refusals: [`Refusal::Length`], then [`Refusal::OutputShort`].
///
/// ```
/// use saltkernel::waveform::dvb_t::dvb_t_demap_symbol_into;
/// use saltkernel::{Complex32, Refusal};
///
/// let mut bits = [9; 3];
/// assert_eq!(dvb_t_demap_symbol_into(Complex32::new(0.2, -3.0), 2, &mut bits), Ok(2));
/// assert_eq!(bits, [0, 1, 9]);
/// assert_eq!(dvb_t_demap_symbol_into(Complex32::new(0.2, -3.0), 4, &mut bits), Err(Refusal::OutputShort));
/// ```
pub fn dvb_t_demap_symbol_into(sym: Complex32, v: usize, out: &mut [u8]) -> Result<usize, Refusal> {
    count_of(call::dvb_t_demap_symbol(sym.into(), v, out))
}

/// The soft values of a cell's `v` bits: the least squared distance to a level whose bit is 1 minus the same for 0, so positive where 0 is likelier.
/// Another group size than 2, 4 or 6 is [`Refusal::Length`].
pub fn dvb_t_soft_llr(sym: Complex32, v: usize) -> Result<Vec<f32>, Refusal> {
    dvb_t_soft_llr_by_value(sym, v).map(|soft| soft.to_vec())
}

/// Two, four or six soft values by value, read as a slice.
#[derive(Clone, Copy, Debug, PartialEq)]
pub struct SoftValues {
    values: [f32; 6],
    count: usize,
}

impl Deref for SoftValues {
    type Target = [f32];

    fn deref(&self) -> &[f32] {
        &self.values[..self.count]
    }
}

/// [`dvb_t_soft_llr`] without a `Vec`.
///
/// ```
/// use saltkernel::waveform::dvb_t::dvb_t_soft_llr_by_value;
/// use saltkernel::Complex32;
///
/// let soft = dvb_t_soft_llr_by_value(Complex32::new(-0.7, 0.1), 2)?;
/// assert_eq!(soft.len(), 2);
/// assert!(soft[0] < 0.0 && soft[1] > 0.0);
/// # Ok::<(), saltkernel::Refusal>(())
/// ```
pub fn dvb_t_soft_llr_by_value(sym: Complex32, v: usize) -> Result<SoftValues, Refusal> {
    let answer = call::dvb_t_soft_llr(sym.into(), v);
    accepted(answer.number, SoftValues { values: answer.values, count: answer.count })
}
