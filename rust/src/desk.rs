//! The desk: the whole cell id of a super-frame, out of the words of its four frames.

use crate::call;
use crate::refusal::{accepted, Refusal};
use crate::sys::SaltDesk;
use crate::words::{codes_of, ConstellationOrder, GuardInterval, PunctureRate, TpsWord, CONSTELLATIONS, GUARDS, RATES};

/// A super-frame: its sixteen bits of cell id, and what its four words share.
#[derive(Clone, Copy, Debug, PartialEq, Eq, Hash)]
pub struct SuperFrame {
    /// The cell id: the high byte is that of the words 0 and 2, the low byte that of the words 1 and 3.
    pub cell_id: u16,
    /// The constellation of the data cells.
    pub constellation: ConstellationOrder,
    /// The rate of the inner code.
    pub code_rate_hp: PunctureRate,
    /// The guard interval.
    pub guard: GuardInterval,
}

/// Takes words that were read, in order, and names a super-frame where the word and the three before it have the numbers 0, 1, 2 and 3, one high
/// byte, one low byte and the same parameters.
///
/// ```
/// use saltkernel::desk::Desk;
/// use saltkernel::fec::PunctureRate;
/// use saltkernel::modulate::ConstellationOrder;
/// use saltkernel::waveform::dvb_t::GuardInterval;
/// use saltkernel::waveform::dvb_t_tps::TpsWord;
/// use saltkernel::Refusal;
///
/// let word = |frame_number, cell_id| TpsWord {
///     frame_number,
///     constellation: ConstellationOrder::Qam64,
///     code_rate_hp: PunctureRate::R2_3,
///     guard: GuardInterval::G1_8,
///     cell_id,
/// };
/// let mut desk = Desk::new();
/// for (number, byte) in [(0, 0x12), (1, 0xAB), (2, 0x12)] {
///     assert_eq!(desk.take(word(number, byte)), Ok(None));
/// }
/// let frame = desk.take(word(3, 0xAB))?.expect("four words that agree");
/// assert_eq!((frame.cell_id, frame.guard), (0x12AB, GuardInterval::G1_8));
///
/// // 0 is wanted, and then 1: a word with number 0 starts afresh, the refused one too.
/// assert_eq!(desk.take(word(3, 0xAB)), Err(Refusal::OutOfStep));
/// assert_eq!(desk.take(word(0, 0x12)), Ok(None));
/// assert_eq!(desk.take(word(0, 0x13)), Err(Refusal::OutOfStep));
/// assert_eq!(desk.take(word(1, 0xAB)), Ok(None));
/// assert_eq!(desk.take(word(2, 0x12)), Err(Refusal::Mismatch));
/// # Ok::<(), Refusal>(())
/// ```
#[derive(Clone, Copy, Debug, PartialEq, Eq)]
pub struct Desk {
    state: SaltDesk,
}

impl Default for Desk {
    fn default() -> Self {
        Self::new()
    }
}

impl Desk {
    /// A desk with nothing gathered.
    pub fn new() -> Self {
        Self { state: call::desk_new() }
    }

    /// Takes the next word: `None` where it is gathered, else the super-frame that it completes. Refusals: [`Refusal::OutOfStep`] where its number
    /// isn't the one wanted, then [`Refusal::Mismatch`] where it differs from the words gathered. Unlike others these change the state: what was
    /// gathered is dropped, and a word with number 0 starts afresh.
    pub fn take(&mut self, word: TpsWord) -> Result<Option<SuperFrame>, Refusal> {
        let taken = call::desk_take(self.state, codes_of(word));
        self.state = taken.desk;
        let codes = taken.parameters;
        let frame = SuperFrame {
            cell_id: taken.cell_id,
            constellation: CONSTELLATIONS[usize::from(codes.constellation)],
            code_rate_hp: RATES[usize::from(codes.code_rate_hp)],
            guard: GUARDS[usize::from(codes.guard)],
        };
        accepted(taken.number, (taken.complete == 1).then(|| frame))
    }
}
