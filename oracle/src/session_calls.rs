//! One call on a receive session, the memory that is lent for it, and what is seen after it.

use crate::answer::{Answer, floats};
use crate::cells::some_floats;
use crate::lent::{Room, UNTOUCHED};
use crate::random::Random;
use crate::receiver::HANDED;
use crate::refusals::{EMPTY, FULL, LENGTH, OUTPUT_SHORT};
use crate::signals::{CELLS, Cells};
use crate::sys::SaltUnpacked;
use crate::words::{WORD, with_word};
use orion_sdr::waveform::dvb_t as orion;
use std::ops::Range;

/// Floats of a symbol.
pub const SYMBOL: usize = 4096;
/// Floats of a symbol's data.
pub const DATA: usize = 3024;
/// Floats of a journal: two frames.
pub const JOURNAL: usize = 2 * WORD * CELLS;
/// The largest count of frames before the current one.
pub const LAST_FRAME: usize = 1_000_000;
/// At most so many floats are lent beyond those.
pub const SURPLUS: usize = 64;

/// One call on a session; `Hand` and `HandFrame` are none. With `Hand` the state is handed in with another count where 68 stand, other previous cells
/// where none does, another byte for each bit of 1, and one for each bit that doesn't stand; with `HandFrame` with another count of frames, which is of
/// the same half, and another byte for whether a later one was begun.
#[derive(Clone)]
pub enum Step {
    Feed(Feed),
    StepBack(Room),
    Reset,
    Hand { count: usize, one: u8, other: u8 },
    HandFrame { frames: usize, behind: u8 },
}

/// What stands, as far as a call's number depends on it: how many symbols in the current frame, how many frames are before it, and the furthest begun.
#[derive(Clone, Copy, Default)]
pub struct Level {
    pub standing: usize,
    pub frames: usize,
    pub begun: usize,
}

impl Level {
    /// Whether the latest symbol is the first of a later frame.
    pub fn is_first_of_later(self) -> bool {
        self.standing == 1 && self.frames > 0
    }

    /// What stands after a call.
    pub fn after(self, step: &Step) -> Self {
        match step {
            _ if step.number(self) != 0 => self,
            Step::Feed(_) if self.standing == WORD => Self { standing: 1, frames: self.frames + 1, begun: self.begun.max(self.frames + 1) },
            Step::Feed(_) => Self { standing: self.standing + 1, ..self },
            Step::StepBack(_) if self.is_first_of_later() => Self { standing: WORD, frames: self.frames - 1, ..self },
            Step::StepBack(_) => Self { standing: self.standing - 1, ..self },
            Step::Reset => Self::default(),
            Step::Hand { .. } => self,
            Step::HandFrame { frames, behind } => {
                let frames = (*frames).min(LAST_FRAME);
                Self { frames, begun: frames + usize::from(*behind != 0), ..self }
            }
        }
    }
}

/// A feed: the symbol that begins at a place of the pool, with other TPS cells in it; and the sizes of symbol, output and journal.
#[derive(Clone)]
pub struct Feed {
    pub place: usize,
    pub cells: Cells,
    pub rooms: [Room; 3],
}

impl Feed {
    /// How many floats of symbol, output and journal are lent.
    pub fn lengths(&self) -> [usize; 3] {
        [self.rooms[0].size(SYMBOL), self.rooms[1].size(DATA), self.rooms[2].size(JOURNAL)]
    }
}

impl Step {
    /// The number of the call by documents 01 and 02, where so much stands.
    pub fn number(&self, level: Level) -> u8 {
        match self {
            Step::Feed(feed) => match feed.lengths() {
                [symbol, _, _] if symbol < SYMBOL => LENGTH,
                [_, output, journal] if output < DATA || journal < JOURNAL => OUTPUT_SHORT,
                _ if level.frames == LAST_FRAME && level.standing == WORD => FULL,
                _ => 0,
            },
            Step::StepBack(room) if room.size(JOURNAL) < JOURNAL => OUTPUT_SHORT,
            Step::StepBack(_) if level.standing == 0 => EMPTY,
            Step::StepBack(_) if level.begun >= 2 && level.frames + 1 == level.begun && level.standing == 1 => EMPTY,
            _ => 0,
        }
    }

    /// Whether it is no call: a state is handed in.
    pub fn is_hand(&self) -> bool {
        matches!(self, Step::Hand { .. } | Step::HandFrame { .. })
    }

    /// The call in words.
    pub fn show(&self) -> String {
        match self {
            Step::Reset => "reset".to_string(),
            Step::StepBack(room) => format!("step_back with a journal of {} f32", room.size(JOURNAL)),
            Step::Hand { count, one, other } => {
                format!("handed in with count {count} where 68 stand, cells of {HANDED:?} where none does, {one} for each bit of 1 and {other} for each other")
            }
            Step::HandFrame { frames, behind } => format!("handed in with {frames} frames before, and {behind} for a later one"),
            Step::Feed(feed) => {
                let ([symbol, output, journal], cells) = (feed.lengths(), floats(&feed.cells.map(f32::to_bits)));
                let place = feed.place;
                format!("feed of {symbol} f32 from place {place} of the pool with TPS cells {cells}, output of {output}, journal of {journal} f32")
            }
        }
    }
}

/// What is seen of a session after a call.
#[derive(PartialEq)]
pub struct Seen {
    pub number: u8,
    pub bit: u8,
    /// Whether a refusal gave the session back as it went in.
    pub kept: bool,
    pub frames: usize,
    /// Whether a later frame was begun.
    pub behind: bool,
    pub count: usize,
    /// The bits, one above 1 as 1; those that don't stand are seen after an accepted call.
    pub bits: [u8; WORD],
    /// The previous cells, where every NaN is one.
    pub prev: [u32; CELLS],
    pub phase: usize,
    pub word: SaltUnpacked,
}

impl Seen {
    /// An answer with all of it.
    fn added(&self, answer: Answer, name: &dyn Fn(&str) -> String) -> Answer {
        let answer = answer.number(&name("number"), u64::from(self.number)).number(&name("bit"), u64::from(self.bit));
        let answer = answer.number(&name("session as it went in where refused"), u64::from(self.kept));
        let answer = answer.number(&name("frames before"), self.frames as u64).number(&name("a later frame begun"), u64::from(self.behind));
        let answer = answer.number(&name("symbols standing"), self.count as u64).number(&name("phase"), self.phase as u64);
        let answer = answer.bytes(&name("bits"), &self.bits).floats(&name("previous cells"), &self.prev.map(f32::from_bits));
        with_word(answer, &name(""), self.word)
    }
}

/// Floats before and behind what is lent.
const GUARD: usize = 64;
/// Where the output and the journal begin in their memory, at different alignments.
const OUTPUT_START: usize = GUARD + 3;
const JOURNAL_START: usize = GUARD + 1;
/// Floats of the pool of symbols; so many at its front are zeros.
const POOL: usize = 16_000;
const ZEROS: usize = SYMBOL + SURPLUS;
/// Places of the pool where a symbol can begin; at the first all of it is zeros.
pub const PLACES: Range<usize> = GUARD..POOL - SYMBOL - SURPLUS - GUARD;

/// The memory of a script: a pool of floats in which the symbols stand, the output and the journal, each between guards.
#[derive(Clone)]
pub struct Memory {
    symbols: Vec<f32>,
    output: Vec<f32>,
    journal: Vec<f32>,
    bins: [usize; CELLS / 2],
}

impl Memory {
    /// Memory of floats of all kinds, the same at each time.
    pub fn new() -> Self {
        let mut random = Random::new(7);
        let mut symbols = some_floats(&mut random, POOL);
        symbols[GUARD..GUARD + ZEROS].fill(0.0);
        let output = some_floats(&mut random, OUTPUT_START + DATA + SURPLUS + GUARD);
        let journal = some_floats(&mut random, JOURNAL_START + JOURNAL + SURPLUS + GUARD);
        Self { symbols, output, journal, bins: orion::tps_carrier_bins() }
    }

    /// What is lent for a feed: symbol, output and journal.
    pub fn lent(&mut self, feed: &Feed) -> (&[f32], &mut [f32], &mut [f32]) {
        let [symbol, output, journal] = feed.lengths();
        let output = &mut self.output[OUTPUT_START..OUTPUT_START + output];
        (&self.symbols[feed.place..feed.place + symbol], output, &mut self.journal[JOURNAL_START..JOURNAL_START + journal])
    }

    /// So many floats of the journal.
    pub fn journal(&self, length: usize) -> &[f32] {
        &self.journal[JOURNAL_START..JOURNAL_START + length]
    }

    /// The floats of the journal that the first symbols of a frame have, so many of them.
    pub fn places(&self, frame: usize, count: usize) -> &[f32] {
        let start = JOURNAL_START + place_of(frame, 0);
        &self.journal[start..start + count * CELLS]
    }

    /// Puts a feed's TPS cells into its symbol, or takes them out again: exchanges them with those of the feed.
    pub fn exchange(&mut self, step: &mut Step) {
        let Step::Feed(feed) = step else { return };
        for (cell, bin) in feed.cells.chunks_exact_mut(2).zip(self.bins) {
            cell.swap_with_slice(&mut self.symbols[feed.place + 2 * bin..feed.place + 2 * bin + 2]);
        }
    }

    /// The memory about a symbol.
    fn about(&self, step: &Step) -> &[f32] {
        let place = if let Step::Feed(feed) = step { feed.place } else { GUARD };
        &self.symbols[place - GUARD..place + SYMBOL + SURPLUS + GUARD]
    }

    /// Whether a call left this memory as another, any NaN that it wrote as any other; such a NaN is then made the same.
    pub fn agrees(&mut self, other: &Self, step: &Step, seen: &Seen) -> bool {
        let (output, journal) = written(step, seen);
        same(self.about(step), other.about(step)) && agree(&mut self.output, &other.output, output) && agree(&mut self.journal, &other.journal, journal)
    }

    /// Whether the pools are alike.
    pub fn has_symbols_of(&self, other: &Self) -> bool {
        same(&self.symbols, &other.symbols)
    }

    /// Where a call changed memory that it may not write, counted from what is lent.
    fn trespass(&self, before: &Self, step: &Step, seen: &Seen) -> String {
        let (output, journal) = written(step, seen);
        let start = if let Step::Feed(feed) = step { feed.place } else { 0 };
        let symbols = changed("symbol", &before.symbols, &self.symbols, start, 0..0);
        let output = changed("output", &before.output, &self.output, OUTPUT_START, output);
        let found = [symbols, output, changed("journal", &before.journal, &self.journal, JOURNAL_START, journal)];
        found.into_iter().flatten().next().unwrap_or(UNTOUCHED.to_string())
    }

    /// An answer with what a call gave, and this memory behind it.
    pub fn added(&self, answer: Answer, place: usize, before: &Self, step: &Step, seen: &Seen) -> Answer {
        let name = |part: &str| format!("call {place}: {part}");
        let answer = seen.added(answer, &name).floats(&name("data"), &self.output[written(step, seen).0]);
        let answer = answer.floats(&name("used journal"), self.places(seen.frames.min(LAST_FRAME), seen.count.min(WORD)));
        answer.surroundings(&self.trespass(before, step, seen))
    }
}

/// What an accepted feed may write of the output's and of the journal's memory.
fn written(step: &Step, seen: &Seen) -> (Range<usize>, Range<usize>) {
    if seen.number != 0 || !matches!(step, Step::Feed(_)) {
        return (0..0, 0..0);
    }
    let place = JOURNAL_START + place_of(seen.frames, seen.count.clamp(1, WORD) - 1);
    (OUTPUT_START..OUTPUT_START + DATA, place..place + CELLS)
}

/// Where the place of a symbol of a frame begins in the journal.
pub fn place_of(frame: usize, symbol: usize) -> usize {
    (frame % 2 * WORD + symbol) * CELLS
}

/// Whether floats have the same bits.
fn same(ours: &[f32], theirs: &[f32]) -> bool {
    ours.iter().zip(theirs).fold(0, |seen, (one, two)| seen | one.to_bits() ^ two.to_bits()) == 0
}

/// Whether floats have the same bits, any NaN that was written as any other; such a NaN is then made the same.
fn agree(ours: &mut [f32], theirs: &[f32], written: Range<usize>) -> bool {
    if same(ours, theirs) {
        return true;
    }
    let equal = |place: usize| ours[place].to_bits() == theirs[place].to_bits() || ours[place].is_nan() && theirs[place].is_nan() && written.contains(&place);
    let all = (0..ours.len()).all(equal);
    ours.copy_from_slice(theirs);
    all
}

/// The first place outside a part where memory was changed, counted from a start.
fn changed(name: &str, before: &[f32], after: &[f32], start: usize, part: Range<usize>) -> Option<String> {
    if same(before, after) {
        return None;
    }
    let mut places = (0..before.len()).filter(|place| !part.contains(place));
    let place = places.find(|place| before[*place].to_bits() != after[*place].to_bits())?;
    Some(format!("changed at {name} {}", place as isize - start as isize))
}
