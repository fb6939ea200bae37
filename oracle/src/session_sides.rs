//! The two sides of a session's script: the port's session, and orion-sdr's ScatteredPilotExtractor and TpsDecoder run afresh on the symbols
//! that stand, the decoder reset at each frame.

use crate::call;
use crate::cells::cells;
use crate::points::pattern;
use crate::receiver::HANDED;
use crate::refusals::INCOMPLETE;
use crate::session_calls::{DATA, JOURNAL, Level, Memory, SYMBOL, Seen, Step, place_of};
use crate::signals::CELLS;
use crate::sys::{SaltSession, SaltUnpacked};
use crate::words::{WORD, owed, refused};
use num_complex::Complex32;
use orion_sdr::waveform::dvb_t::{GuardInterval, ScatteredPilotExtractor, tps_carrier_bins};
use orion_sdr::waveform::dvb_t_tps::TpsDecoder;

/// Someone who is called: the port, or orion-sdr.
pub trait Side {
    /// Makes a call on lent memory, and gives what is seen after it.
    fn call(&mut self, step: &Step, memory: &mut Memory) -> Seen;
}

/// The port's session.
pub struct Ours {
    session: SaltSession,
}

impl Ours {
    /// One in which no symbol stands.
    pub fn new() -> Self {
        Self { session: call::session_new() }
    }
}

impl Side for Ours {
    fn call(&mut self, step: &Step, memory: &mut Memory) -> Seen {
        let before = self.session;
        let (number, bit, after) = match step {
            Step::Feed(feed) => {
                let (symbol, output, journal) = memory.lent(feed);
                let fed = call::session_feed(before, symbol, output, journal);
                (fed.number, fed.bit, fed.session)
            }
            Step::StepBack(room) => {
                let stepped = call::session_step_back(before, memory.journal(room.size(JOURNAL)));
                (stepped.number, 0, stepped.session)
            }
            Step::Reset => (0, 0, call::session_reset(before)),
            Step::Hand { count, one, other } => (0, 0, handed(before, *count, *one, *other)),
            Step::HandFrame { frames, behind } => (0, 0, SaltSession { frames: *frames, behind: *behind, ..before }),
        };
        self.session = after;
        let all_bits = number == 0 && !step.is_hand();
        let bits = std::array::from_fn(|place| if all_bits || place < after.count { after.bits[place].min(1) } else { 0 });
        let prev = std::array::from_fn(|place| {
            let cell = after.prev[place / 2];
            pattern(if place % 2 == 0 { cell.re } else { cell.im })
        });
        let kept = number == 0 || same(&after, &before);
        let (phase, word) = (call::session_phase(after), call::session_word(after));
        Seen { number, bit, kept, frames: after.frames, behind: after.behind != 0, count: after.count, bits, prev, phase, word }
    }
}

/// Whether two sessions have the same bits.
fn same(one: &SaltSession, other: &SaltSession) -> bool {
    let numbers = |session: &SaltSession| session.prev.map(|cell| [cell.re.to_bits(), cell.im.to_bits()]);
    let counts = |session: &SaltSession| (session.count, session.frames, session.behind);
    one.bits == other.bits && counts(one) == counts(other) && numbers(one) == numbers(other)
}

/// The state with another count where 68 stand, other previous cells where none does, another byte for each bit of 1, and one for each bit that
/// doesn't stand.
fn handed(mut session: SaltSession, count: usize, one: u8, other: u8) -> SaltSession {
    let standing = session.count;
    session.bits = std::array::from_fn(|place| match session.bits[place] {
        _ if place >= standing => other,
        1 => one,
        bit => bit,
    });
    match standing {
        0 => session.prev = [HANDED; CELLS / 2],
        1..WORD => (),
        _ => session.count = count,
    }
    session
}

/// orion-sdr's extractor and decoder.
pub struct Orion {
    extractor: ScatteredPilotExtractor,
    decoder: TpsDecoder,
    data: Vec<Complex32>,
}

impl Orion {
    /// An extractor for a guard interval, and a decoder.
    pub fn new(guard: GuardInterval) -> Self {
        Self { extractor: ScatteredPilotExtractor::new(guard), decoder: TpsDecoder::new(), data: vec![Complex32::default(); DATA / 2] }
    }

    /// Starts the extractor again and extracts symbols; the last one's data stay in `data`.
    fn extract<'a>(&mut self, symbols: impl Iterator<Item = &'a [Complex32]>) {
        self.extractor.reset();
        symbols.for_each(|symbol| self.extractor.extract_symbol(symbol, &mut self.data));
    }

    /// Starts the decoder again and feeds it symbols.
    fn decode(&mut self, symbols: &[Standing]) {
        self.decoder.reset();
        symbols.iter().for_each(|symbol| self.decoder.feed_symbol(&symbol.cells));
    }
}

/// A symbol that stands: its TPS cells, and all its cells where the extractor is to have them again.
struct Standing {
    cells: [Complex32; CELLS / 2],
    symbol: Vec<Complex32>,
}

/// A symbol of zeros, to move the extractor on.
static ZEROS: [Complex32; SYMBOL / 2] = [Complex32::new(0.0, 0.0); SYMBOL / 2];

/// orion-sdr's side: the symbols that stand since the reset, or since a frame count was handed in those of that frame; the count that was handed in where
/// 68 stand, the frame count that was, and the previous cells where none stands.
pub struct Theirs<'a> {
    orion: &'a mut Orion,
    afresh: bool,
    standing: Vec<Standing>,
    level: Level,
    handed: Option<usize>,
    handed_frames: Option<usize>,
    none: Complex32,
    bins: [usize; CELLS / 2],
}

impl<'a> Theirs<'a> {
    /// A side on which no symbol stands. Where `afresh`, the extractor extracts and the decoder is fed all standing symbols again at each call, and else
    /// as many symbols of zeros as there are standing ones beyond whole rounds of four, and those of the current frame.
    pub fn new(orion: &'a mut Orion, afresh: bool) -> Self {
        orion.extract(std::iter::empty());
        orion.decode(&[]);
        let (level, none, bins) = (Level::default(), Complex32::default(), tps_carrier_bins());
        Self { orion, afresh, standing: vec![], level, handed: None, handed_frames: None, none, bins }
    }

    /// Feeds the decoder, which is reset at each frame, the standing symbols.
    fn decode_standing(&mut self) {
        let current = self.standing.len() - self.level.standing;
        if self.afresh {
            self.standing[..current].chunks(WORD).for_each(|frame| self.orion.decode(frame));
        }
        self.orion.decode(&self.standing[current..]);
    }

    /// Takes the latest symbol back. Where a frame count was handed in and none stands any more, the frame before is what the journal has.
    fn step_back(&mut self, memory: &Memory) {
        self.standing.pop();
        if self.standing.is_empty() && self.level.is_first_of_later() {
            let places = memory.places(self.level.frames - 1, WORD).chunks_exact(CELLS).map(cells);
            let zeros = if self.afresh { ZEROS.to_vec() } else { vec![] };
            self.standing = places.map(|place| Standing { cells: place.try_into().expect("a place"), symbol: zeros.clone() }).collect();
        }
    }

    /// Brings the extractor behind the standing symbols.
    fn extract_standing(&mut self) {
        let count = self.standing.len();
        if self.afresh {
            self.orion.extract(self.standing.iter().map(|standing| &standing.symbol[..]));
        } else {
            self.orion.extract((0..count % 4).map(|_| &ZEROS[..]));
        }
    }

    /// Feeds a symbol: orion-sdr's extraction goes into the output, the TPS cells into the journal and among what stands.
    fn feed(&mut self, symbol: &[f32], output: &mut [f32], journal: &mut [f32]) {
        let symbol = cells(&symbol[..SYMBOL]);
        let tps = self.bins.map(|bin| symbol[bin]);
        self.extract_standing();
        self.orion.extractor.extract_symbol(&symbol, &mut self.orion.data);
        put(output, &self.orion.data);
        let after = if self.level.standing == WORD { place_of(self.level.frames + 1, 0) } else { place_of(self.level.frames, self.level.standing) };
        put(&mut journal[after..], &tps);
        self.standing.push(Standing { cells: tps, symbol: if self.afresh { symbol } else { vec![] } });
    }

    /// What is owed for the word.
    fn word(&self) -> SaltUnpacked {
        match self.orion.decoder.is_complete() {
            true => owed(self.orion.decoder.word(), self.orion.decoder.bits()),
            false => refused(INCOMPLETE),
        }
    }
}

/// Puts cells at the front of floats.
fn put(floats: &mut [f32], cells: &[Complex32]) {
    floats.chunks_exact_mut(2).zip(cells).for_each(|(floats, cell)| floats.copy_from_slice(&[cell.re, cell.im]));
}

impl Side for Theirs<'_> {
    /// Makes the call where it isn't refused; the decoder is then fed the standing symbols again.
    fn call(&mut self, step: &Step, memory: &mut Memory) -> Seen {
        let number = step.number(self.level);
        let fed = number == 0 && matches!(step, Step::Feed(_));
        if number == 0 && !step.is_hand() {
            (self.handed, self.handed_frames, self.none) = (None, None, Complex32::default());
        }
        match step {
            _ if number != 0 => (),
            Step::Feed(feed) => {
                let (symbol, output, journal) = memory.lent(feed);
                self.feed(symbol, output, journal);
            }
            Step::StepBack(_) => self.step_back(memory),
            Step::Reset => self.standing.clear(),
            Step::Hand { count, .. } => {
                self.handed = (self.level.standing == WORD).then_some(*count);
                self.none = Complex32::new(HANDED.re, HANDED.im);
            }
            Step::HandFrame { frames, .. } => {
                self.handed_frames = Some(*frames);
                self.standing.drain(..self.standing.len() - self.level.standing);
            }
        }
        self.level = self.level.after(step);
        if number == 0 && !fed {
            self.extract_standing();
        }
        self.decode_standing();
        let standing = self.orion.decoder.bits();
        let bit = if fed { standing[standing.len() - 1] } else { 0 };
        let mut bits = [0; WORD];
        bits[..standing.len()].copy_from_slice(standing);
        let last = self.standing.last().map_or([self.none; CELLS / 2], |standing| standing.cells);
        let prev = std::array::from_fn(|place| pattern(if place % 2 == 0 { last[place / 2].re } else { last[place / 2].im }));
        let (count, phase) = (self.handed.unwrap_or(standing.len()), self.orion.extractor.phase());
        let (frames, behind) = (self.handed_frames.unwrap_or(self.level.frames), self.level.begun > self.level.frames);
        Seen { number, bit, kept: true, frames, behind, count, bits, prev, phase, word: self.word() }
    }
}
