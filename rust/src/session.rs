//! The receive session.

use crate::call;
use crate::complex::Complex32;
use crate::numbers::{floats, floats_mut};
use crate::refusal::{accepted, Refusal};
use crate::sys::{SaltSession, SALT_JOURNAL_FLOATS};
use crate::words::{mended_word_of, word_of, Mended, TpsWord};

/// The receive session: the extractor and the TPS decoder joined, and it can step back. With n symbols standing in the current frame the phase is n mod 4.
///
/// A feed with 68 standing begins the next frame, and the session goes back from there into the frame before: it keeps two frames. The journal that this
/// needs is the session's own, so nobody else can write to it.
///
/// ```
/// use saltkernel::session::Session;
/// use saltkernel::waveform::dvb_t::{tps_carrier_bins, GuardInterval, ScatteredPilotMapper};
/// use saltkernel::waveform::dvb_t_tps::TpsEncoder;
/// use saltkernel::{Complex32, Refusal};
///
/// let (mut mapper, mut encoder, mut session) = (ScatteredPilotMapper::new(GuardInterval::G1_32), TpsEncoder::new(), Session::new());
/// let (data, mut symbol, mut out) = (vec![Complex32::new(0.5, 0.5); 1512], vec![Complex32::default(); 2048], vec![Complex32::default(); 1512]);
/// for bit in [0, 1, 1] {
///     mapper.map_symbol(&data, &mut symbol)?;
///     for (bin, cell) in tps_carrier_bins().into_iter().zip(encoder.next_symbol(bit)?) {
///         symbol[usize::from(bin)] = cell;
///     }
///     assert_eq!(session.feed(&symbol, &mut out), Ok(bit));
///     assert_eq!(out, data);
/// }
/// assert_eq!((session.bits(), session.phase()), (&[0, 1, 1][..], 3));
/// session.step_back()?;
/// assert_eq!((session.bits(), session.phase()), (&[0, 1][..], 2));
/// assert_eq!(session.word(), Err(Refusal::Incomplete));
/// # Ok::<(), Refusal>(())
/// ```
///
/// Over a frame's beginning and back:
///
/// ```
/// use saltkernel::session::Session;
/// use saltkernel::{Complex32, Refusal};
///
/// let (symbol, mut out) = (vec![Complex32::new(1.0, 0.0); 2048], vec![Complex32::default(); 1512]);
/// let mut session = Session::new();
/// for _ in 0..70 {
///     session.feed(&symbol, &mut out)?;
/// }
/// assert_eq!((session.frame(), session.len(), session.phase()), (1, 2, 2));
/// assert_eq!(session.word(), Err(Refusal::Incomplete));
/// session.step_back()?;
/// session.step_back()?;
/// assert_eq!((session.frame(), session.len(), session.phase()), (0, 68, 0));
/// assert_eq!(session.bits(), [0; 68]);
/// assert!(session.word().is_ok());
/// # Ok::<(), Refusal>(())
/// ```
#[derive(Clone, Debug)]
pub struct Session {
    state: SaltSession,
    journal: Box<[f32; SALT_JOURNAL_FLOATS]>,
}

impl Default for Session {
    fn default() -> Self {
        Self::new()
    }
}

impl Session {
    /// A session with no symbol standing.
    pub fn new() -> Self {
        Self { state: call::session_new(), journal: Box::new([0.0; SALT_JOURNAL_FLOATS]) }
    }

    /// Goes back to no symbol standing.
    pub fn reset(&mut self) {
        self.state = call::session_reset(self.state);
    }

    /// Takes one symbol of 2,048 cells: gives its TPS bit, and writes its 1,512 data cells to the lent output, in rising active order. Refusals:
    /// [`Refusal::Length`], [`Refusal::OutputShort`], then [`Refusal::Full`] when 68 symbols stand and 1,000,000 frames are before them.
    ///
    /// With 68 standing it begins the next frame, and the frame before the previous one can't be gone back to any more.
    pub fn feed(&mut self, freq: &[Complex32], data_out: &mut [Complex32]) -> Result<u8, Refusal> {
        let fed = call::session_feed(self.state, floats(freq), floats_mut(data_out), &mut self.journal[..]);
        self.state = fed.session;
        accepted(fed.number, fed.bit)
    }

    /// Takes the latest standing symbol back; the first of a later frame leaves the 68 of the frame before standing. [`Refusal::Empty`] where none stands,
    /// and, once a third frame has begun, where one stands in the frame before the furthest begun.
    pub fn step_back(&mut self) -> Result<(), Refusal> {
        let stepped = call::session_step_back(self.state, &self.journal[..]);
        self.state = stepped.session;
        accepted(stepped.number, ())
    }

    /// The phase of the next symbol, 0 to 3.
    pub fn phase(&self) -> usize {
        call::session_phase(self.state)
    }

    /// How many frames are before the current one since the reset, 0 to 1,000,000.
    pub fn frame(&self) -> usize {
        self.state.frames
    }

    /// How many symbols of the current frame stand, 0 to 68.
    pub fn len(&self) -> usize {
        self.state.count
    }

    /// The TPS bits of the current frame's symbols that stand.
    pub fn bits(&self) -> &[u8] {
        &self.state.bits[..self.state.count]
    }

    /// The word of the current frame's 68 symbols. Refusals: [`Refusal::Incomplete`], [`Refusal::NoWord`], then [`Refusal::Reserved`].
    pub fn word(&self) -> Result<TpsWord, Refusal> {
        word_of(call::session_word(self.state))
    }

    /// [`word`](Self::word), and the bits of s1 to s67 that were mended.
    ///
    /// ```
    /// use saltkernel::session::Session;
    /// use saltkernel::Complex32;
    ///
    /// let (mut session, mut out) = (Session::new(), vec![Complex32::default(); 1512]);
    /// for n in 0..68 {
    ///     let sign = if n < 7 { 1.0 } else { -1.0 };
    ///     session.feed(&vec![Complex32::new(sign, 0.0); 2048], &mut out)?;
    /// }
    /// assert_eq!(session.word_mended()?.1.places(), [6]);
    /// # Ok::<(), saltkernel::Refusal>(())
    /// ```
    pub fn word_mended(&self) -> Result<(TpsWord, Mended), Refusal> {
        mended_word_of(call::session_word(self.state))
    }
}
