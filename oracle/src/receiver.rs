//! The TPS receiver: orion-sdr's TpsDecoder of dvb_t_tps.rs.
//! Its previous cells are private there; document 01 says that they are those of the last standing symbol, and later bits show them.

use crate::answer::{Answer, floats};
use crate::cells::{cells, plainer, shorter, some_floats};
use crate::harness::{Cases, Expected, Run, Subject};
use crate::lent::{Lent, Room, UNTOUCHED, background, surroundings};
use crate::points::pattern;
use crate::random::Random;
use crate::refusals::{FULL, INCOMPLETE, LENGTH, OUTPUT_SHORT};
use crate::sender::every_room;
use crate::signals::{CELLS, Cells, Signal};
use crate::sys::{SaltCell, SaltCounted, SaltTpsBit, SaltTpsDecoder, SaltUnpacked};
use crate::words::{WORD, owed, refused, with_word};
use crate::{call, shrink};
use orion_sdr::waveform::dvb_t_tps::TpsDecoder;

/// So many symbols are fed in bulk.
const SYMBOLS: usize = 1_000_000;

/// Compares all functions of this module, each over sequences of calls; after each call all that can be asked is asked.
pub fn compare(run: &mut Run) {
    let by_value = |cases, bulk| Receiver { cases, way: Way::ByValue, bulk };
    run.compare("TpsDecoder::new", by_value(new_cases, 0));
    run.compare("TpsDecoder::feed_symbol", by_value(feed_symbol_cases, SYMBOLS));
    run.compare("TpsDecoder::feed_symbol, in place", Receiver { cases: in_place_cases, way: Way::InPlace, bulk: SYMBOLS });
    run.compare("TpsDecoder::reset", by_value(reset_cases, 0));
    run.compare("TpsDecoder::is_complete", by_value(is_complete_cases, 0));
    run.compare("TpsDecoder::bits", by_value(bits_cases, 0));
    run.compare("TpsDecoder::word", by_value(word_cases, 0));
}

/// How the port's receiver is fed.
#[derive(Clone, Copy)]
enum Way {
    ByValue,
    InPlace,
}

/// One call on a receiver; `Hand` is none: the state is handed in with another count where 68 stand, other previous cells where none does, and
/// another byte for each bit of 1.
#[derive(Clone)]
enum Step {
    Reset,
    Feed(Vec<f32>),
    Bits(Room),
    Hand { count: usize, one: u8 },
}

impl Step {
    /// Calls with less in them.
    fn smaller(&self) -> impl Iterator<Item = Step> + use<'_> {
        let (slice, rooms): (&[f32], _) = match self {
            Step::Feed(floats) => (floats, vec![]),
            Step::Bits(room) => (&[], room.smaller()),
            _ => (&[], vec![]),
        };
        shorter(slice, CELLS).chain(plainer(slice)).map(Step::Feed).chain(rooms.into_iter().map(Step::Bits))
    }

    /// The call in words.
    fn show(&self) -> String {
        let list = |slice: &[f32]| floats(&slice.iter().map(|float| float.to_bits()).collect::<Vec<_>>());
        match self {
            Step::Reset => "reset".to_string(),
            Step::Feed(floats) => format!("feed_symbol of {} f32: {}", floats.len(), list(floats)),
            Step::Bits(Room::Exact) => "bits".to_string(),
            Step::Bits(Room::Longer(surplus)) => format!("bits, {surplus} bytes over"),
            Step::Bits(Room::Short(missing)) => format!("bits, {} bytes missing", missing.min(&WORD)),
            Step::Hand { count, one } => {
                format!("handed in with count {count} where 68 stand, cells of {HANDED:?} where none does, and {one} for each bit of 1")
            }
        }
    }
}

/// What is seen of a receiver after a call.
#[derive(PartialEq)]
struct Seen {
    number: u8,
    bit: u8,
    /// What a call for the bits counted, and all of its output.
    told: Option<(usize, Vec<u8>)>,
    /// Whether a refusal left the receiver as it went in.
    kept: bool,
    count: usize,
    /// The bits, one above 1 as 1, and 0 where none stands.
    bits: [u8; WORD],
    prev: [u32; CELLS],
    complete: u8,
    word: SaltUnpacked,
}

impl Seen {
    /// An answer with all of it.
    fn added(&self, answer: Answer, place: usize) -> Answer {
        let name = |part: &str| format!("call {place}: {part}");
        let answer = answer.number(&name("number"), u64::from(self.number)).number(&name("bit"), u64::from(self.bit));
        let answer = match &self.told {
            Some((count, out)) => answer.number(&name("count"), *count as u64).bytes(&name("output"), out),
            None => answer,
        };
        let answer = answer.number(&name("receiver as it went in where refused"), u64::from(self.kept));
        let answer = answer.number(&name("symbols standing"), self.count as u64).bytes(&name("bits"), &self.bits);
        let answer = answer.floats(&name("cells of the last symbol"), &self.prev.map(f32::from_bits));
        with_word(answer.number(&name("is_complete"), u64::from(self.complete)), &name(""), self.word)
    }
}

/// A state with its cells as numbers, so that two can be compared by bits.
fn as_numbers(decoder: &SaltTpsDecoder) -> ([[u32; 2]; 17], [u8; WORD], usize) {
    (decoder.prev.map(|cell| [cell.re.to_bits(), cell.im.to_bits()]), decoder.bits, decoder.count)
}

/// The cells of a state, re and im in turn.
fn flat(prev: [SaltCell; CELLS / 2]) -> Cells {
    std::array::from_fn(|place| if place % 2 == 0 { prev[place / 2].re } else { prev[place / 2].im })
}

/// The port's receiver, and what the last call left of the memory that it may not write; a feed's is seen only where feeds are watched.
struct Ours {
    decoder: SaltTpsDecoder,
    way: Way,
    watched: bool,
    found: String,
}

impl Ours {
    /// One before its first symbol.
    fn new(way: Way, watched: bool) -> Self {
        Self { decoder: call::tps_decoder_new(), way, watched, found: UNTOUCHED.to_string() }
    }

    /// Makes a call.
    fn call(&mut self, step: &Step) -> Seen {
        let before = self.decoder;
        let (number, bit, told) = match step {
            Step::Reset => {
                self.decoder = call::tps_decoder_reset(before);
                (0, 0, None)
            }
            Step::Feed(floats) => {
                let fed = if self.watched { self.feed_watched(floats) } else { self.feed(floats) };
                (fed.number, fed.bit, None)
            }
            Step::Bits(room) => {
                let (answer, out) = self.bits(*room);
                (answer.number, 0, Some((answer.count, out)))
            }
            Step::Hand { count, one } => {
                self.decoder = handed(before, *count, *one);
                (0, 0, None)
            }
        };
        let after = self.decoder;
        let kept = number == 0 || as_numbers(&after) == as_numbers(&before);
        let (bits, prev) = (after.bits.map(|bit| bit.min(1)), flat(after.prev).map(pattern));
        let (complete, word) = (call::tps_decoder_is_complete(after), call::tps_decoder_word(after));
        Seen { number, bit, told, kept, count: after.count, bits, prev, complete, word }
    }

    /// Feeds a symbol.
    fn feed(&mut self, floats: &[f32]) -> SaltTpsBit {
        match self.way {
            Way::ByValue => {
                let fed = call::tps_decoder_feed_symbol(self.decoder, floats);
                self.decoder = fed.decoder;
                SaltTpsBit { number: fed.number, bit: fed.bit }
            }
            Way::InPlace => {
                let SaltTpsDecoder { prev, bits, count } = &mut self.decoder;
                call::tps_decoder_feed_in_place(call::floats_of(prev), bits, count, floats)
            }
        }
    }

    /// Feeds a symbol whose cells stand between guards, and in place the receiver's parts too.
    fn feed_watched(&mut self, floats: &[f32]) -> SaltTpsBit {
        let mut cells = Lent::to_read("cells", floats);
        let (fed, others) = match self.way {
            Way::ByValue => (self.feed(cells.slice()), vec![]),
            Way::InPlace => self.feed_parts(cells.slice()),
        };
        let found = [surroundings(&mut [&mut cells])].into_iter().chain(others).find(|found| found != UNTOUCHED);
        self.found = found.unwrap_or(UNTOUCHED.to_string());
        fed
    }

    /// Feeds a symbol to the receiver's parts, each between guards, and says what it left of these.
    fn feed_parts(&mut self, cells: &[f32]) -> (SaltTpsBit, Vec<String>) {
        let SaltTpsDecoder { prev, bits, count } = self.decoder;
        let (mut prev, mut bits, mut count) = (Lent::to_write("prev", &prev), Lent::to_write("bits", &bits), Lent::to_write("count", &[count]));
        let lent = (prev.slice_mut().try_into().unwrap(), bits.slice_mut().try_into().unwrap(), &mut count.slice_mut()[0]);
        let fed = call::tps_decoder_feed_in_place(call::floats_of(lent.0), lent.1, lent.2, cells);
        self.decoder = SaltTpsDecoder { prev: prev.slice().try_into().unwrap(), bits: bits.slice().try_into().unwrap(), count: count.slice()[0] };
        (fed, vec![surroundings(&mut [&mut prev]), surroundings(&mut [&mut bits]), surroundings(&mut [&mut count])])
    }

    /// Asks for the bits, into an output that stands between guards; gives all of it too.
    fn bits(&mut self, room: Room) -> (SaltCounted, Vec<u8>) {
        let mut out = Lent::to_write("output", &background(room.size(self.decoder.count.min(WORD))));
        let answer = call::tps_decoder_bits(self.decoder, out.slice_mut());
        self.found = surroundings(&mut [&mut out]);
        (answer, out.slice().to_vec())
    }
}

/// The previous cells that are handed in where no symbol stands: the first one's bit would depend on them, and must not.
pub const HANDED: SaltCell = SaltCell { re: -1.0, im: 1.0 };

/// The state with another count where 68 stand, other previous cells where none does, and another byte for each bit of 1.
fn handed(mut decoder: SaltTpsDecoder, count: usize, one: u8) -> SaltTpsDecoder {
    decoder.bits = decoder.bits.map(|bit| if bit == 1 { one } else { bit });
    match decoder.count {
        0 => decoder.prev = [HANDED; CELLS / 2],
        1..WORD => (),
        _ => decoder.count = count,
    }
    decoder
}

/// orion-sdr's receiver, with the cells of the last symbol and the count that was handed in, where 68 stand.
struct Theirs {
    decoder: TpsDecoder,
    prev: Cells,
    handed: Option<usize>,
}

impl Theirs {
    /// One before its first symbol.
    fn new() -> Self {
        Self { decoder: TpsDecoder::new(), prev: [0.0; CELLS], handed: None }
    }

    /// Makes a call and gives what is owed; a refused call is not made.
    fn call(&mut self, step: &Step) -> Seen {
        let number = self.number(step);
        match step {
            Step::Reset => {
                self.decoder.reset();
                (self.prev, self.handed) = ([0.0; CELLS], None);
            }
            Step::Feed(floats) if number == 0 => {
                self.decoder.feed_symbol(&cells(floats));
                self.prev.copy_from_slice(&floats[..CELLS]);
            }
            Step::Feed(_) | Step::Bits(_) => (),
            Step::Hand { count, .. } => {
                self.handed = self.decoder.is_complete().then_some(*count);
                if self.decoder.bits().is_empty() {
                    self.prev = std::array::from_fn(|place| if place % 2 == 0 { HANDED.re } else { HANDED.im });
                }
            }
        }
        let standing = self.decoder.bits();
        let fed = matches!(step, Step::Feed(_)) && number == 0;
        let bit = if fed { standing[standing.len() - 1] } else { 0 };
        let told = if let Step::Bits(room) = step { Some(self.told(*room)) } else { None };
        let mut bits = [0; WORD];
        bits[..standing.len()].copy_from_slice(standing);
        let (count, complete) = (self.handed.unwrap_or(standing.len()), u8::from(self.decoder.is_complete()));
        Seen { number, bit, told, kept: true, count, bits, prev: self.prev.map(pattern), complete, word: self.word() }
    }

    /// What is owed for the bits, into a room: the count, and all of the output.
    fn told(&self, room: Room) -> (usize, Vec<u8>) {
        let standing = self.decoder.bits();
        let mut out = background(room.size(standing.len()));
        match out.get_mut(..standing.len()) {
            Some(front) => front.copy_from_slice(standing),
            None => return (0, out),
        }
        (standing.len(), out)
    }

    /// Document 01's number for a call.
    fn number(&self, step: &Step) -> u8 {
        match step {
            Step::Feed(floats) if floats.len() < CELLS => LENGTH,
            Step::Feed(_) if self.decoder.is_complete() => FULL,
            Step::Bits(room) if room.size(self.decoder.bits().len()) < self.decoder.bits().len() => OUTPUT_SHORT,
            _ => 0,
        }
    }

    /// What is owed for the word.
    fn word(&self) -> SaltUnpacked {
        match self.decoder.is_complete() {
            true => owed(self.decoder.word(), self.decoder.bits()),
            false => refused(INCOMPLETE),
        }
    }
}

/// A function of the receiver, by the sequences of calls that try it; so many symbols are fed in bulk.
struct Receiver {
    cases: Cases<Vec<Step>>,
    way: Way,
    bulk: usize,
}

impl Subject for Receiver {
    type Case = Vec<Step>;

    fn each_case(&self, random: &mut Random, compare: &mut dyn FnMut(Vec<Step>)) {
        (self.cases)(random, compare);
    }

    /// Runs of up to a frame; both sides are called in turn, and what is seen of them compared after each call.
    fn in_bulk(&self, random: &mut Random, differs: &mut dyn FnMut(Vec<Step>)) -> usize {
        let mut compared = 0;
        while compared < random.part_of(self.bulk) {
            let run = some_run(random, WORD);
            let (mut ours, mut theirs) = (Ours::new(self.way, false), Theirs::new());
            let equal = |step: &Step| ours.call(step) == theirs.call(step);
            compared += run.len();
            if !run.iter().all(equal) {
                differs(run);
            }
        }
        compared
    }

    fn ours(&self, case: &Vec<Step>) -> Answer {
        let mut ours = Ours::new(self.way, true);
        let steps = case.iter().enumerate();
        steps.fold(Answer::default(), |answer, (place, step)| ours.call(step).added(answer, place).surroundings(&ours.found))
    }

    /// What orion-sdr's receiver gives; a refused call isn't made on it, and what is handed in is treated as document 01 says.
    fn expected(&self, case: &Vec<Step>) -> Expected {
        let (mut theirs, mut by_document) = (Theirs::new(), false);
        let answer = case.iter().enumerate().fold(Answer::default(), |answer, (place, step)| {
            by_document |= theirs.number(step) != 0 || matches!(step, Step::Hand { .. });
            theirs.call(step).added(answer, place).surroundings(UNTOUCHED)
        });
        if by_document { Expected::document(answer) } else { Expected::orion(answer) }
    }

    fn smaller<'a>(&'a self, case: &'a Vec<Step>) -> Box<dyn Iterator<Item = Vec<Step>> + 'a> {
        shrink::calls(case, Step::smaller)
    }

    fn show(&self, case: &Vec<Step>) -> String {
        format!("new{}", case.iter().map(|step| format!("; {}", step.show())).collect::<String>())
    }
}

/// So many symbols of one signal.
fn some_run(random: &mut Random, count: usize) -> Vec<Step> {
    let signal = Signal::some(random);
    symbols(random, &signal, count)
}

/// So many symbols of a signal.
fn symbols(random: &mut Random, signal: &Signal, count: usize) -> Vec<Step> {
    let mut previous = [0.0; CELLS];
    let symbol = |place| {
        previous = signal.symbol(random, place, &previous);
        Step::Feed(previous.to_vec())
    };
    (0..count).map(symbol).collect()
}

/// A feed of floats of all kinds: one cell missing, half a cell missing or over, or many more.
fn any_length(random: &mut Random) -> Step {
    let length = [0, 1, 2, 17, 32, 33, 34, 35, 36, 68, 1000][random.below(11)];
    Step::Feed(some_floats(random, length))
}

/// The start alone, and some symbols behind it; the same with other previous cells handed in.
fn new_cases(random: &mut Random, compare: &mut dyn FnMut(Vec<Step>)) {
    for count in 0..=10 {
        let run = some_run(random, count);
        compare(run.clone());
        compare([vec![Step::Hand { count: WORD, one: 1 }], run].concat());
    }
}

/// Runs of up to a frame and of more, which is FULL, with slices of all lengths among them.
fn feed_symbol_cases(random: &mut Random, compare: &mut dyn FnMut(Vec<Step>)) {
    for _ in 0..300 {
        let count = random.between(1, WORD + 3);
        compare(some_run(random, count));
        let mut steps = some_run(random, count);
        for _ in 0..random.between(1, 5) {
            let place = random.below(steps.len() + 1);
            steps.insert(place, any_length(random));
        }
        compare(steps);
    }
    for length in 0..=100 {
        let steps = [some_run(random, 2), vec![Step::Feed(some_floats(random, length))], some_run(random, 1)].concat();
        compare(steps);
    }
}

/// All cases of the functions that leave a receiver.
fn in_place_cases(random: &mut Random, compare: &mut dyn FnMut(Vec<Step>)) {
    let all: [Cases<Vec<Step>>; 5] = [new_cases, feed_symbol_cases, reset_cases, is_complete_cases, word_cases];
    all.into_iter().for_each(|cases| cases(random, compare));
}

/// Runs with resets in between.
fn reset_cases(random: &mut Random, compare: &mut dyn FnMut(Vec<Step>)) {
    for count in (0..=WORD + 1).chain([1, 2, 3]) {
        let more = random.below(WORD + 2);
        let steps = [some_run(random, count), vec![Step::Reset], some_run(random, more), vec![any_length(random)]].concat();
        compare(steps);
    }
}

/// Counts above 68: the next ones, those that a narrower number would cut, and the widest.
pub fn counts() -> impl Iterator<Item = usize> + Clone {
    let cut = [8, 16, 32, 63].into_iter().flat_map(|power| [0, 1, 67, 68, 69].map(|above| (1usize << power) + above));
    [69, 70, 100, usize::MAX - 1, usize::MAX].into_iter().chain(cut)
}

/// Every number of symbols to 68, and every count above 68 handed in.
fn is_complete_cases(random: &mut Random, compare: &mut dyn FnMut(Vec<Step>)) {
    (0..=WORD).for_each(|count| compare(some_run(random, count)));
    for count in counts() {
        let steps = [some_run(random, WORD), vec![Step::Hand { count, one: 1 }], some_run(random, 1)].concat();
        compare(steps);
    }
}

/// Every number of symbols to 68 and one refused, in every kind of room; and every byte above 1 and counts above 68 handed in.
fn bits_cases(random: &mut Random, compare: &mut dyn FnMut(Vec<Step>)) {
    for count in 0..=WORD + 1 {
        let run = some_run(random, count);
        every_room(random).into_iter().for_each(|room| compare([&run[..], &[Step::Bits(room)]].concat()));
    }
    for (one, count) in (2..=u8::MAX).zip(counts().cycle()) {
        let (frame, more) = (some_run(random, WORD), random.below(WORD));
        let (hand, asked) = ([Step::Hand { count, one }], every_room(random).map(Step::Bits));
        compare([&frame[..], &hand, &asked].concat());
        compare([&frame[..more], &hand, &asked, &frame[more..], &asked].concat());
    }
}

/// Sent frames with wrong bits, and the same with every byte above 1 and counts above 68 handed in.
fn word_cases(random: &mut Random, compare: &mut dyn FnMut(Vec<Step>)) {
    for _ in 0..500 {
        let signal = Signal::sent(random);
        compare(symbols(random, &signal, WORD));
    }
    for (one, count) in (2..=u8::MAX).zip(counts().cycle()) {
        let signal = Signal::sent(random);
        let (frame, more) = (symbols(random, &signal, WORD), random.below(WORD));
        compare([&frame[..], &[Step::Hand { count, one }], &frame[..1], &[Step::Reset], &frame[..more]].concat());
        compare([&frame[..more], &[Step::Hand { count, one }], &frame[more..]].concat());
    }
}
