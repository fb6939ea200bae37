//! The refusals of documents 01 and 02.

use crate::sys::*;
use std::fmt;

/// Why a call was refused, by document 01's or 02's name and number. A later request may add one.
///
/// A refused call changes nothing: neither a lent slice nor the state it was made on. [`OutOfStep`](Self::OutOfStep) and
/// [`Mismatch`](Self::Mismatch) alone change the desk that gives them.
///
/// ```
/// use saltkernel::waveform::dvb_t::dvb_t_map_symbol;
/// use saltkernel::Refusal;
///
/// assert_eq!(dvb_t_map_symbol(&[0, 1, 1]), Err(Refusal::Length));
/// assert_eq!(dvb_t_map_symbol(&[0, 2]), Err(Refusal::NotABit));
/// assert_eq!(Refusal::NotABit.number(), 2);
/// assert_eq!(Refusal::NotABit.to_string(), "NOT A BIT");
/// ```
#[derive(Clone, Copy, Debug, PartialEq, Eq, Hash)]
#[repr(u8)]
#[non_exhaustive]
pub enum Refusal {
    /// An input slice, group size, byte count or carrier index is outside what the call takes.
    Length = SALT_LENGTH,
    /// A bit argument, or an item of a bit slice, is above 1.
    NotABit = SALT_NOT_A_BIT,
    /// A lent output or journal is shorter than needed.
    OutputShort = SALT_OUTPUT_SHORT,
    /// No codeword lies within distance two.
    NoWord = SALT_NO_WORD,
    /// Constellation code 3, or rate code 5, 6 or 7.
    Reserved = SALT_RESERVED,
    /// A symbol is fed to a receiver when 68 stand, or to a session when 68 stand in its last frame.
    Full = SALT_FULL,
    /// A step back when none stands, or into a frame that is no longer kept.
    Empty = SALT_EMPTY,
    /// A word is asked for with fewer than 68.
    Incomplete = SALT_INCOMPLETE,
    /// A line of the report's input isn't 17 digits from 0-9 and a-f.
    BadLine = SALT_BAD_LINE,
    /// A word that the desk takes hasn't the number that is wanted.
    OutOfStep = SALT_OUT_OF_STEP,
    /// A word that the desk takes differs from those gathered.
    Mismatch = SALT_MISMATCH,
    /// Mapping onto the static grid, which is retired.
    Retired = SALT_RETIRED,
}

impl Refusal {
    /// All, by number.
    pub const ALL: &'static [Refusal] = &[
        Refusal::Length,
        Refusal::NotABit,
        Refusal::OutputShort,
        Refusal::NoWord,
        Refusal::Reserved,
        Refusal::Full,
        Refusal::Empty,
        Refusal::Incomplete,
        Refusal::BadLine,
        Refusal::OutOfStep,
        Refusal::Mismatch,
        Refusal::Retired,
    ];

    /// The documents' number, from 1 on.
    pub const fn number(self) -> u8 {
        self as u8
    }

    /// The documents' name.
    pub const fn name(self) -> &'static str {
        match self {
            Refusal::Length => "LENGTH",
            Refusal::NotABit => "NOT A BIT",
            Refusal::OutputShort => "OUTPUT SHORT",
            Refusal::NoWord => "NO WORD",
            Refusal::Reserved => "RESERVED",
            Refusal::Full => "FULL",
            Refusal::Empty => "EMPTY",
            Refusal::Incomplete => "INCOMPLETE",
            Refusal::BadLine => "BAD LINE",
            Refusal::OutOfStep => "OUT OF STEP",
            Refusal::Mismatch => "MISMATCH",
            Refusal::Retired => "RETIRED",
        }
    }

    /// The refusal of a number; `None` for a number that none has.
    pub const fn from_number(number: u8) -> Option<Refusal> {
        if number >= 1 && number as usize <= Self::ALL.len() {
            Some(Self::ALL[number as usize - 1])
        } else {
            None
        }
    }
}

impl fmt::Display for Refusal {
    fn fmt(&self, f: &mut fmt::Formatter<'_>) -> fmt::Result {
        f.write_str(self.name())
    }
}

impl std::error::Error for Refusal {}

/// The value of an answer with number 0, else the refusal.
pub(crate) fn accepted<T>(number: u8, value: T) -> Result<T, Refusal> {
    match number {
        0 => Ok(value),
        _ => Err(Refusal::from_number(number).expect("the library gives the documents' numbers alone")),
    }
}
