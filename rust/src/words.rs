//! TPS: the code and the word.

use crate::call;
use crate::packets::count_of;
use crate::refusal::{accepted, Refusal};
use crate::sys::{SaltDecoded, SaltTpsWord, SaltUnpacked, SALT_NO_PLACE, SALT_TPS_CODEWORD_BITS, SALT_TPS_INFORMATION_BITS};

/// The bits of a codeword.
pub const TPS_CODEWORD_BITS: usize = SALT_TPS_CODEWORD_BITS;
/// The information bits of a codeword.
pub const TPS_INFO_BITS: usize = SALT_TPS_INFORMATION_BITS;
/// The parity bits of a codeword.
pub const TPS_PARITY_BITS: usize = TPS_CODEWORD_BITS - TPS_INFO_BITS;

/// The bits of a codeword that were mended: none, one or two.
#[derive(Clone, Copy, Debug, PartialEq, Eq, Hash)]
pub struct Mended {
    count: usize,
    both: [usize; 2],
}

impl Default for Mended {
    /// None.
    fn default() -> Self {
        Mended::of(0, SALT_NO_PLACE, SALT_NO_PLACE)
    }
}

impl Mended {
    /// By the numbers of an answer.
    pub(crate) fn of(count: u8, first: u8, second: u8) -> Self {
        Mended { count: count.into(), both: [first.into(), second.into()] }
    }

    /// The numbers of an answer again.
    pub(crate) fn numbers(self) -> [u8; 3] {
        [self.count, self.both[0], self.both[1]].map(|number| number as u8)
    }

    /// Their places, rising, from 0 to 66; of a word, place 0 is s1 and place 66 is s67.
    pub fn places(&self) -> &[usize] {
        &self.both[..self.count]
    }
}

/// The codeword of 53 information bits: these, then 14 bits of parity. Refusals: [`Refusal::Length`], then [`Refusal::NotABit`].
///
/// ```
/// use saltkernel::waveform::dvb_t_tps::{tps_bch_decode, tps_bch_encode};
/// use saltkernel::Refusal;
///
/// let mut word = tps_bch_encode(&[1; 53])?;
/// word[3] ^= 1;
/// word[60] ^= 1;
/// assert_eq!(tps_bch_decode(&word), Ok([1; 53]));
/// assert_eq!(tps_bch_decode(&word[1..]), Err(Refusal::Length));
/// # Ok::<(), Refusal>(())
/// ```
pub fn tps_bch_encode(info: &[u8]) -> Result<[u8; TPS_CODEWORD_BITS], Refusal> {
    let mut out = [0; TPS_CODEWORD_BITS];
    tps_bch_encode_into(info, &mut out)?;
    Ok(out)
}

/// [`tps_bch_encode`] into a lent output; gives 67. Refusals: [`Refusal::Length`], [`Refusal::NotABit`], then [`Refusal::OutputShort`].
pub fn tps_bch_encode_into(info: &[u8], out: &mut [u8]) -> Result<usize, Refusal> {
    count_of(call::tps_bch_encode(info, out))
}

/// The 53 information bits of the codeword within distance two of 67 bits. Refusals: [`Refusal::Length`], [`Refusal::NotABit`], then
/// [`Refusal::NoWord`].
pub fn tps_bch_decode(codeword: &[u8]) -> Result<[u8; TPS_INFO_BITS], Refusal> {
    tps_bch_decode_mended(codeword).map(|(information, _)| information)
}

/// [`tps_bch_decode`], and the bits that were mended: those at which the codeword and the given bits differ.
///
/// ```
/// use saltkernel::waveform::dvb_t_tps::{tps_bch_decode_mended, tps_bch_encode};
///
/// let mut word = tps_bch_encode(&[1; 53])?;
/// word[60] ^= 1;
/// word[3] ^= 1;
/// let (information, mended) = tps_bch_decode_mended(&word)?;
/// assert_eq!((information, mended.places()), ([1; 53], &[3, 60][..]));
/// # Ok::<(), saltkernel::Refusal>(())
/// ```
pub fn tps_bch_decode_mended(codeword: &[u8]) -> Result<([u8; TPS_INFO_BITS], Mended), Refusal> {
    decoded(call::tps_bch_decode, codeword)
}

/// [`tps_bch_decode`] by the slow decoder, which tries the bits as they are, each single change and each pair: the same for every input.
pub fn tps_bch_decode_slow(codeword: &[u8]) -> Result<[u8; TPS_INFO_BITS], Refusal> {
    tps_bch_decode_slow_mended(codeword).map(|(information, _)| information)
}

/// [`tps_bch_decode_slow`], and the bits that were mended.
///
/// ```
/// use saltkernel::waveform::dvb_t_tps::{tps_bch_decode_mended, tps_bch_decode_slow_mended, tps_bch_encode};
///
/// let mut word = tps_bch_encode(&[1; 53])?;
/// for place in [3, 60, 66] {
///     word[place] ^= 1;
///     assert_eq!(tps_bch_decode_slow_mended(&word), tps_bch_decode_mended(&word));
/// }
/// # Ok::<(), saltkernel::Refusal>(())
/// ```
pub fn tps_bch_decode_slow_mended(codeword: &[u8]) -> Result<([u8; TPS_INFO_BITS], Mended), Refusal> {
    decoded(call::tps_bch_decode_slow, codeword)
}

/// What a decoder of the library reads.
fn decoded(decode: fn(&[u8], &mut [u8]) -> SaltDecoded, codeword: &[u8]) -> Result<([u8; TPS_INFO_BITS], Mended), Refusal> {
    let mut out = [0; TPS_INFO_BITS];
    let answer = decode(codeword, &mut out);
    accepted(answer.number, (out, Mended::of(answer.mended, answer.first, answer.second)))
}

/// [`tps_bch_decode`] into a lent output; gives 53. Refusals: [`Refusal::Length`], [`Refusal::NotABit`], [`Refusal::OutputShort`], then
/// [`Refusal::NoWord`].
pub fn tps_bch_decode_into(codeword: &[u8], out: &mut [u8]) -> Result<usize, Refusal> {
    let answer = call::tps_bch_decode(codeword, out);
    accepted(answer.number, answer.count)
}

/// The constellation of the data cells.
#[derive(Clone, Copy, Debug, PartialEq, Eq, Hash)]
pub enum ConstellationOrder {
    /// Two bits a cell.
    Qpsk,
    /// Four bits a cell.
    Qam16,
    /// Six bits a cell.
    Qam64,
}

/// The rate of the inner code.
#[derive(Clone, Copy, Debug, PartialEq, Eq, Hash)]
pub enum PunctureRate {
    /// 1/2.
    R1_2,
    /// 2/3.
    R2_3,
    /// 3/4.
    R3_4,
    /// 5/6.
    R5_6,
    /// 7/8.
    R7_8,
}

/// The guard interval, as a part of the symbol.
#[derive(Clone, Copy, Debug, PartialEq, Eq, Hash)]
pub enum GuardInterval {
    /// 1/32.
    G1_32,
    /// 1/16.
    G1_16,
    /// 1/8.
    G1_8,
    /// 1/4.
    G1_4,
}

pub(crate) const CONSTELLATIONS: [ConstellationOrder; 3] = [ConstellationOrder::Qpsk, ConstellationOrder::Qam16, ConstellationOrder::Qam64];
pub(crate) const RATES: [PunctureRate; 5] = [PunctureRate::R1_2, PunctureRate::R2_3, PunctureRate::R3_4, PunctureRate::R5_6, PunctureRate::R7_8];
pub(crate) const GUARDS: [GuardInterval; 4] = [GuardInterval::G1_32, GuardInterval::G1_16, GuardInterval::G1_8, GuardInterval::G1_4];

/// The parameters that a frame signals (EN 300 744, 4.6.2).
///
/// ```
/// use saltkernel::fec::PunctureRate;
/// use saltkernel::modulate::ConstellationOrder;
/// use saltkernel::waveform::dvb_t::GuardInterval;
/// use saltkernel::waveform::dvb_t_tps::TpsWord;
/// use saltkernel::Refusal;
///
/// let word = TpsWord {
///     frame_number: 2,
///     constellation: ConstellationOrder::Qam64,
///     code_rate_hp: PunctureRate::R3_4,
///     guard: GuardInterval::G1_8,
///     cell_id: 0xA5,
/// };
/// let mut bits = word.pack();
/// bits[5] ^= 1;
/// bits[67] ^= 1;
/// assert_eq!(TpsWord::unpack(&bits), Ok(word));
/// assert_eq!(TpsWord::unpack(&bits[1..]), Err(Refusal::Length));
/// ```
#[derive(Clone, Copy, Debug, PartialEq, Eq, Hash)]
pub struct TpsWord {
    /// The frame's number; its low two bits are sent.
    pub frame_number: u8,
    /// The constellation of the data cells.
    pub constellation: ConstellationOrder,
    /// The rate of the inner code.
    pub code_rate_hp: PunctureRate,
    /// The guard interval.
    pub guard: GuardInterval,
    /// A byte of the cell id.
    pub cell_id: u8,
}

impl TpsWord {
    /// The 68 bits s0 to s67 of the word: s0 is zero, then the codeword. s33 to s35 are 000, where orion-sdr repeats the
    /// rate.
    pub fn pack(self) -> [u8; 68] {
        let mut out = [0; 68];
        self.pack_into(&mut out).expect("the output is as long as needed, and no code is reserved");
        out
    }

    /// [`pack`](Self::pack) into a lent output; gives 68, or [`Refusal::OutputShort`].
    pub fn pack_into(self, out: &mut [u8]) -> Result<usize, Refusal> {
        count_of(call::tps_word_pack(codes_of(self), out))
    }

    /// The word that 68 received bits s0 to s67 say, with up to two wrong bits mended; s0 is ignored. Refusals: [`Refusal::Length`],
    /// [`Refusal::NotABit`], [`Refusal::NoWord`], then [`Refusal::Reserved`].
    pub fn unpack(bits: &[u8]) -> Result<Self, Refusal> {
        word_of(call::tps_word_unpack(bits))
    }

    /// [`unpack`](Self::unpack), and the bits of s1 to s67 that were mended.
    ///
    /// ```
    /// use saltkernel::waveform::dvb_t_tps::TpsWord;
    ///
    /// let mut bits = [0; 68];
    /// bits[0] = 1;
    /// bits[1] = 1;
    /// bits[67] = 1;
    /// let (word, mended) = TpsWord::unpack_mended(&bits)?;
    /// assert_eq!((word.cell_id, mended.places()), (0, &[0, 66][..]));
    /// # Ok::<(), saltkernel::Refusal>(())
    /// ```
    pub fn unpack_mended(bits: &[u8]) -> Result<(Self, Mended), Refusal> {
        mended_word_of(call::tps_word_unpack(bits))
    }
}

/// The codes of a word.
pub(crate) fn codes_of(word: TpsWord) -> SaltTpsWord {
    SaltTpsWord {
        frame_number: word.frame_number,
        constellation: word.constellation as u8,
        code_rate_hp: word.code_rate_hp as u8,
        guard: word.guard as u8,
        cell_id: word.cell_id,
    }
}

/// The word of an answer, or its refusal.
pub(crate) fn word_of(answer: SaltUnpacked) -> Result<TpsWord, Refusal> {
    accepted(answer.number, answer.word).map(|codes| TpsWord {
        frame_number: codes.frame_number,
        constellation: CONSTELLATIONS[usize::from(codes.constellation)],
        code_rate_hp: RATES[usize::from(codes.code_rate_hp)],
        guard: GUARDS[usize::from(codes.guard)],
        cell_id: codes.cell_id,
    })
}

/// The word of an answer and the bits that were mended, or its refusal.
pub(crate) fn mended_word_of(answer: SaltUnpacked) -> Result<(TpsWord, Mended), Refusal> {
    let mended = Mended::of(answer.mended, answer.first, answer.second);
    word_of(answer).map(|word| (word, mended))
}
