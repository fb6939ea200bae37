//! The TPS frame, sent and received.

use crate::call;
use crate::complex::Complex32;
use crate::numbers::{floats, floats_mut};
use crate::refusal::{accepted, Refusal};
use crate::sys::{SaltTpsDecoder, SaltTpsEncoder, SALT_TPS_CARRIERS, SALT_TPS_WORD_BITS};
use crate::words::{mended_word_of, word_of, Mended, TpsWord};

/// The TPS carriers of a symbol.
pub const TPS_CARRIER_COUNT: usize = SALT_TPS_CARRIERS;
/// The symbols of a frame, a bit of the word each.
pub const TPS_SYMBOLS_PER_FRAME: usize = SALT_TPS_WORD_BITS;

/// The sender of a frame's TPS cells (EN 300 744, 4.6.3).
///
/// ```
/// use saltkernel::fec::PunctureRate;
/// use saltkernel::modulate::ConstellationOrder;
/// use saltkernel::waveform::dvb_t::GuardInterval;
/// use saltkernel::waveform::dvb_t_tps::{TpsDecoder, TpsEncoder, TpsWord};
/// use saltkernel::Refusal;
///
/// let word = TpsWord {
///     frame_number: 1,
///     constellation: ConstellationOrder::Qpsk,
///     code_rate_hp: PunctureRate::R1_2,
///     guard: GuardInterval::G1_4,
///     cell_id: 7,
/// };
/// let (mut encoder, mut decoder) = (TpsEncoder::new(), TpsDecoder::new());
/// assert_eq!(decoder.word(), Err(Refusal::Incomplete));
/// for bit in word.pack() {
///     let cells = encoder.next_symbol(bit)?;
///     assert_eq!(decoder.feed_symbol(&cells), Ok(bit));
/// }
/// assert_eq!(decoder.word(), Ok(word));
/// assert_eq!(decoder.feed_symbol(&encoder.next_symbol(0)?), Err(Refusal::Full));
/// # Ok::<(), Refusal>(())
/// ```
#[derive(Clone, Copy, Debug)]
pub struct TpsEncoder {
    state: SaltTpsEncoder,
}

impl Default for TpsEncoder {
    fn default() -> Self {
        Self::new()
    }
}

impl TpsEncoder {
    /// A sender at the start of a frame.
    pub fn new() -> Self {
        Self { state: call::tps_encoder_new() }
    }

    /// Goes back to the start of a frame.
    pub fn reset(&mut self) {
        self.state = call::tps_encoder_reset(self.state);
    }

    /// The TPS cells of the next symbol, in rising active order: at symbol 0 the signs of w, whatever the bit; later a 1 turns all signs. A bit above 1 is
    /// [`Refusal::NotABit`].
    pub fn next_symbol(&mut self, bit: u8) -> Result<[Complex32; TPS_CARRIER_COUNT], Refusal> {
        let mut out = [Complex32::default(); TPS_CARRIER_COUNT];
        self.next_symbol_into(bit, &mut out)?;
        Ok(out)
    }

    /// [`next_symbol`](Self::next_symbol) into a lent output; gives 17. Refusals: [`Refusal::NotABit`], then [`Refusal::OutputShort`].
    pub fn next_symbol_into(&mut self, bit: u8, out: &mut [Complex32]) -> Result<usize, Refusal> {
        let sent = call::tps_encoder_next_symbol(self.state, bit, floats_mut(out));
        self.state = sent.encoder;
        accepted(sent.answer.number, sent.answer.count)
    }
}

/// The receiver of a frame's TPS cells (EN 300 744, 4.6.3).
#[derive(Clone, Copy, Debug)]
pub struct TpsDecoder {
    state: SaltTpsDecoder,
}

impl Default for TpsDecoder {
    fn default() -> Self {
        Self::new()
    }
}

impl TpsDecoder {
    /// A receiver at the start of a frame.
    pub fn new() -> Self {
        Self { state: call::tps_decoder_new() }
    }

    /// Goes back to the start of a frame.
    pub fn reset(&mut self) {
        self.state = call::tps_decoder_reset(self.state);
    }

    /// Reads the bit of a symbol's TPS cells, in rising active order: at symbol 0 it is 0; later 1 where the sum of the products with the previous symbol's
    /// cells is below zero. Refusals: [`Refusal::Length`] for fewer than 17 cells, then [`Refusal::Full`] when 68 symbols stand.
    pub fn feed_symbol(&mut self, cells: &[Complex32]) -> Result<u8, Refusal> {
        let SaltTpsDecoder { prev, bits, count } = &mut self.state;
        let fed = call::tps_decoder_feed_in_place(call::floats_of(prev), bits, count, floats(cells));
        accepted(fed.number, fed.bit)
    }

    /// Whether 68 symbols stand.
    pub fn is_complete(&self) -> bool {
        call::tps_decoder_is_complete(self.state) == 1
    }

    /// The bits of the symbols that stand.
    pub fn bits(&self) -> &[u8] {
        // The state is always one that the library made, so at most 68 symbols stand and each bit is 0 or 1.
        &self.state.bits[..self.state.count]
    }

    /// [`bits`](Self::bits) into a lent output; gives how many. Refusal: [`Refusal::OutputShort`].
    pub fn bits_into(&self, out: &mut [u8]) -> Result<usize, Refusal> {
        let answer = call::tps_decoder_bits(self.state, out);
        accepted(answer.number, answer.count)
    }

    /// The word of 68 received bits. Refusals: [`Refusal::Incomplete`], [`Refusal::NoWord`], then [`Refusal::Reserved`].
    pub fn word(&self) -> Result<TpsWord, Refusal> {
        word_of(call::tps_decoder_word(self.state))
    }

    /// [`word`](Self::word), and the bits of s1 to s67 that were mended.
    ///
    /// ```
    /// use saltkernel::waveform::dvb_t_tps::{TpsDecoder, TpsEncoder};
    ///
    /// let (mut encoder, mut decoder) = (TpsEncoder::new(), TpsDecoder::new());
    /// for n in 0..68 {
    ///     decoder.feed_symbol(&encoder.next_symbol(u8::from(n == 5))?)?;
    /// }
    /// assert_eq!(decoder.word_mended()?.1.places(), [4]);
    /// # Ok::<(), saltkernel::Refusal>(())
    /// ```
    pub fn word_mended(&self) -> Result<(TpsWord, Mended), Refusal> {
        mended_word_of(call::tps_decoder_word(self.state))
    }
}

#[cfg(test)]
mod tests {
    use super::*;

    /// A receiver's state as numbers, floats by their bits.
    fn numbers(state: &SaltTpsDecoder) -> (Vec<[u32; 2]>, Vec<u8>, usize) {
        (state.prev.iter().map(|cell| [cell.re.to_bits(), cell.im.to_bits()]).collect(), state.bits.to_vec(), state.count)
    }

    #[test]
    fn a_symbol_is_fed_in_place_as_by_value() {
        let (mut encoder, mut decoder) = (TpsEncoder::new(), TpsDecoder::new());
        for n in 0..TPS_SYMBOLS_PER_FRAME + 2 {
            let cells = encoder.next_symbol((n * n % 7 % 2) as u8).unwrap();
            for length in [TPS_CARRIER_COUNT - 1, TPS_CARRIER_COUNT] {
                let by_value = call::tps_decoder_feed_symbol(decoder.state, floats(&cells[..length]));
                assert_eq!(decoder.feed_symbol(&cells[..length]), accepted(by_value.number, by_value.bit));
                assert_eq!(numbers(&decoder.state), numbers(&by_value.decoder));
            }
        }
        assert!(decoder.is_complete());
    }
}
