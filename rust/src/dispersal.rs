//! The energy-dispersal whitener.

use crate::call;
use crate::packets::count_of;
use crate::refusal::Refusal;
use crate::sys::SaltDvbTEnergyDispersal;

/// The whitener's register at the start.
pub const DVB_T_PRBS_INIT: u16 = 0x4A80;

/// The whitener: a register of 15 bits whose outputs are XORed over bytes, high bit first (EN 300 744, 4.3.1).
///
/// ```
/// use saltkernel::waveform::dvb_t::DvbTEnergyDispersal;
///
/// let mut whitener = DvbTEnergyDispersal::new();
/// let whitened = whitener.feed(&[0, 0, 0, 0]);
/// assert_eq!(whitened, [0x03, 0xF6, 0x08, 0x34]);
/// whitener.reset();
/// assert_eq!(whitener.feed(&whitened), [0, 0, 0, 0]);
/// ```
#[derive(Clone, Copy, Debug, PartialEq, Eq)]
pub struct DvbTEnergyDispersal {
    state: SaltDvbTEnergyDispersal,
}

impl Default for DvbTEnergyDispersal {
    fn default() -> Self {
        Self::new()
    }
}

impl DvbTEnergyDispersal {
    /// A whitener at the start.
    pub fn new() -> Self {
        Self { state: call::dvb_t_energy_dispersal_new() }
    }

    /// Goes back to the start.
    pub fn reset(&mut self) {
        self.state = call::dvb_t_energy_dispersal_reset(self.state);
    }

    /// Whitens bytes in place, and stands behind them.
    pub fn feed_in_place(&mut self, data: &mut [u8]) {
        self.state = call::dvb_t_energy_dispersal_feed_in_place(self.state, data);
    }

    /// Whitens bytes, and stands behind them.
    pub fn feed(&mut self, data: &[u8]) -> Vec<u8> {
        let mut out = data.to_vec();
        self.feed_in_place(&mut out);
        out
    }

    /// [`feed`](Self::feed) into a lent output; gives the bytes written, or [`Refusal::OutputShort`].
    pub fn feed_into(&mut self, data: &[u8], out: &mut [u8]) -> Result<usize, Refusal> {
        let fed = call::dvb_t_energy_dispersal_feed(self.state, data, out);
        self.state = fed.whitener;
        count_of(fed.answer)
    }

    /// Moves eight steps on, as over a byte that stays as it is.
    pub fn advance_byte(&mut self) {
        self.state = call::dvb_t_energy_dispersal_advance_byte(self.state);
    }
}
