//! The three counts of a carrier.

use crate::call;
use crate::refusal::{accepted, Refusal};

/// An active index, 0 to 1704.
///
/// ```
/// use saltkernel::waveform::dvb_t::{active_to_signed, bin_to_active, signed_to_bin, Active, Bin, Signed};
/// use saltkernel::Refusal;
///
/// assert_eq!(active_to_signed(Active(0)), Ok(Signed(-852)));
/// assert_eq!(signed_to_bin(Signed(-852)), Ok(Bin(1196)));
/// assert_eq!(bin_to_active(Bin(1196)), Ok(Active(0)));
/// assert_eq!(active_to_signed(Active(1705)), Err(Refusal::Length));
/// ```
#[derive(Clone, Copy, Debug, Default, PartialEq, Eq, PartialOrd, Ord, Hash)]
#[repr(transparent)]
pub struct Active(pub u16);

/// A signed index, -852 to 852: active - 852.
#[derive(Clone, Copy, Debug, Default, PartialEq, Eq, PartialOrd, Ord, Hash)]
#[repr(transparent)]
pub struct Signed(pub i16);

/// A bin, 0 to 2,047: signed modulo 2,048, and the cell's place in a symbol.
#[derive(Clone, Copy, Debug, Default, PartialEq, Eq, PartialOrd, Ord, Hash)]
#[repr(transparent)]
pub struct Bin(pub u16);

impl From<Active> for usize {
    fn from(active: Active) -> usize {
        active.0.into()
    }
}

impl From<Bin> for usize {
    fn from(bin: Bin) -> usize {
        bin.0.into()
    }
}

/// The signed index of an active one; past 1704 is [`Refusal::Length`].
pub fn active_to_signed(active: Active) -> Result<Signed, Refusal> {
    let answer = call::active_to_signed(active.0);
    accepted(answer.number, Signed(answer.index))
}

/// The bin of a signed index; outside -852 to 852 is [`Refusal::Length`].
pub fn signed_to_bin(signed: Signed) -> Result<Bin, Refusal> {
    let answer = call::signed_to_bin(signed.0);
    accepted(answer.number, Bin(answer.index))
}

/// The active index of a bin; a bin that no active carrier has is [`Refusal::Length`].
pub fn bin_to_active(bin: Bin) -> Result<Active, Refusal> {
    let answer = call::bin_to_active(bin.0);
    accepted(answer.number, Active(answer.index))
}
