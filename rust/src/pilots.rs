//! The carriers of a symbol and their pilots.

use crate::call;
use crate::carrier::{Active, Bin};
use crate::complex::Complex32;
use crate::numbers::{bins_mut, floats_mut, indices_mut};
use crate::packets::count_of;
use crate::refusal::{accepted, Refusal};
use crate::sys::*;

/// The cells of a symbol.
pub const DVB_T_N_FFT: usize = SALT_SYMBOL_CELLS;
/// The last active index.
pub const DVB_T_KMAX: usize = SALT_ACTIVE_CARRIERS - 1;
/// The active carriers.
pub const DVB_T_ACTIVE_CARRIERS: usize = SALT_ACTIVE_CARRIERS;
/// The data carriers of a symbol.
pub const DVB_T_DATA_CARRIERS: usize = SALT_DATA_CELLS;
/// The continual carriers.
pub const DVB_T_CONTINUAL_CARRIERS: usize = SALT_CONTINUAL_CARRIERS;
/// The phases of the scattered pilots.
pub const DVB_T_SCATTERED_PHASES: usize = SALT_SCATTERED_PHASES;
/// The reference pilots of a symbol: its continual and scattered carriers.
pub const DVB_T_REFERENCE_PILOTS: usize = SALT_REFERENCE_PILOTS;

/// The first `len` bits of the pilot sequence w; the bit of an active carrier stands at its index (EN 300 744, 4.5.2).
///
/// ```
/// assert_eq!(saltkernel::waveform::dvb_t::wk_prbs(16), [1, 1, 1, 1, 1, 1, 1, 1, 1, 1, 1, 0, 0, 1, 1, 0]);
/// ```
pub fn wk_prbs(len: usize) -> Vec<u8> {
    let mut out = vec![0; len];
    wk_prbs_into(&mut out);
    out
}

/// Fills a lent output with the pilot sequence from its start.
pub fn wk_prbs_into(out: &mut [u8]) {
    call::wk_prbs(out);
}

/// The boosted pilot of a bit of the pilot sequence: +4/3 for 0 and -4/3 for 1. A bit above 1 is [`Refusal::NotABit`].
///
/// ```
/// use saltkernel::waveform::dvb_t::boosted_pilot_value;
/// use saltkernel::{Complex32, Refusal};
///
/// assert_eq!(boosted_pilot_value(1), Ok(Complex32::new(-4.0 / 3.0, 0.0)));
/// assert_eq!(boosted_pilot_value(2), Err(Refusal::NotABit));
/// ```
pub fn boosted_pilot_value(wk: u8) -> Result<Complex32, Refusal> {
    let answer = call::boosted_pilot_value(wk);
    accepted(answer.number, answer.point.into())
}

/// The active indices of the continual carriers, rising.
pub fn continual_pilot_indices() -> [Active; DVB_T_CONTINUAL_CARRIERS] {
    call::continual_pilot_indices().carriers.map(Active)
}

/// The bins of the continual carriers, in rising active order.
pub fn continual_pilot_bins() -> [Bin; DVB_T_CONTINUAL_CARRIERS] {
    call::continual_pilot_bins().carriers.map(Bin)
}

/// The active indices of the TPS carriers, rising.
///
/// ```
/// use saltkernel::waveform::dvb_t::{tps_carrier_bins, tps_carrier_indices, Active, Bin};
///
/// assert_eq!(tps_carrier_indices()[0], Active(34));
/// assert_eq!(tps_carrier_bins()[0], Bin(1230));
/// ```
pub fn tps_carrier_indices() -> [Active; 17] {
    call::tps_carrier_indices().carriers.map(Active)
}

/// The bins of the TPS carriers, in rising active order.
pub fn tps_carrier_bins() -> [Bin; 17] {
    call::tps_carrier_bins().carriers.map(Bin)
}

/// The active indices of a phase's scattered carriers, rising; a phase is taken modulo 4.
///
/// ```
/// use saltkernel::waveform::dvb_t::{scattered_pilot_indices, Active};
///
/// assert_eq!(scattered_pilot_indices(0).len(), 143);
/// assert_eq!(scattered_pilot_indices(1).len(), 142);
/// assert_eq!(scattered_pilot_indices(5)[..2], [Active(3), Active(15)]);
/// ```
pub fn scattered_pilot_indices(phase: usize) -> Vec<Active> {
    let mut out = vec![Active(0); SALT_SCATTERED_MOST];
    let count = scattered_pilot_indices_into(phase, &mut out).expect("the output is as long as needed");
    out.truncate(count);
    out
}

/// [`scattered_pilot_indices`] into a lent output; gives how many, or [`Refusal::OutputShort`].
pub fn scattered_pilot_indices_into(phase: usize, out: &mut [Active]) -> Result<usize, Refusal> {
    count_of(call::scattered_pilot_indices(phase, indices_mut(out)))
}

/// The bins of a phase's data carriers, in rising active order; a phase is taken modulo 4.
///
/// ```
/// use saltkernel::waveform::dvb_t::{data_bins, Bin};
///
/// assert_eq!(data_bins(0).len(), 1512);
/// assert_eq!(data_bins(0)[0], Bin(1197));
/// ```
pub fn data_bins(phase: usize) -> Vec<Bin> {
    let mut out = vec![Bin(0); DVB_T_DATA_CARRIERS];
    data_bins_into(phase, &mut out).expect("the output is as long as needed");
    out
}

/// [`data_bins`] into a lent output; gives 1,512, or [`Refusal::OutputShort`].
pub fn data_bins_into(phase: usize, out: &mut [Bin]) -> Result<usize, Refusal> {
    count_of(call::data_bins(phase, bins_mut(out)))
}

/// The bins and boosted values of a phase's reference pilots, in rising active order; TPS carriers aren't among them. A phase is taken modulo 4.
///
/// ```
/// use saltkernel::waveform::dvb_t::{reference_pilot_bins, Bin};
/// use saltkernel::Complex32;
///
/// let pilots = reference_pilot_bins(0);
/// assert_eq!(pilots.len(), 176);
/// assert_eq!(pilots[0], (Bin(1196), Complex32::new(-4.0 / 3.0, 0.0)));
/// ```
pub fn reference_pilot_bins(phase: usize) -> Vec<(Bin, Complex32)> {
    let mut bins = [Bin(0); DVB_T_REFERENCE_PILOTS];
    let mut values = [Complex32::default(); DVB_T_REFERENCE_PILOTS];
    reference_pilot_bins_into(phase, &mut bins, &mut values).expect("the outputs are as long as needed");
    bins.into_iter().zip(values).collect()
}

/// [`reference_pilot_bins`] into two lent outputs; gives 176, or [`Refusal::OutputShort`].
pub fn reference_pilot_bins_into(phase: usize, bins: &mut [Bin], values: &mut [Complex32]) -> Result<usize, Refusal> {
    count_of(call::reference_pilot_bins(phase, bins_mut(bins), floats_mut(values)))
}
