//! The whitener: orion-sdr's DvbTEnergyDispersal of dvb_t.rs.
//! Its register is private there, so two whiteners are compared by what they make of later bytes.

use crate::answer::{Answer, shown};
use crate::harness::{Cases, Expected, Run, Subject};
use crate::lent::{EMPTY, Lent, Room, UNTOUCHED, background, surroundings};
use crate::random::Random;
use crate::refusals::OUTPUT_SHORT;
use crate::sys::SaltDvbTEnergyDispersal;
use crate::{call, shrink};
use orion_sdr::waveform::dvb_t::DvbTEnergyDispersal;

/// Compares all functions of this module, each over sequences of itself and those before it.
pub fn compare(run: &mut Run) {
    run.compare("DvbTEnergyDispersal::new", Whitener { cases: new_cases });
    run.compare("DvbTEnergyDispersal::feed_in_place", Whitener { cases: feed_in_place_cases });
    run.compare("DvbTEnergyDispersal::advance_byte", Whitener { cases: advance_byte_cases });
    run.compare("DvbTEnergyDispersal::reset", Whitener { cases: reset_cases });
    run.compare("DvbTEnergyDispersal::feed", Whitener { cases: feed_cases });
}

/// One call on a whitener (`AdvanceByte` so many times); `Hand` is none: the whitener is handed in with the bit above its register set.
#[derive(Clone)]
enum Step {
    Hand,
    Reset,
    AdvanceByte(usize),
    FeedInPlace(Vec<u8>),
    Feed(Vec<u8>, Room),
}

impl Step {
    /// Makes the call on the port's whitener, and adds what it answers.
    fn ours(&self, whitener: SaltDvbTEnergyDispersal, answer: Answer) -> (SaltDvbTEnergyDispersal, Answer) {
        match self {
            Step::Hand => (SaltDvbTEnergyDispersal { reg: whitener.reg | 1 << REGISTER }, answer),
            Step::Reset => (call::dvb_t_energy_dispersal_reset(whitener), answer),
            Step::AdvanceByte(times) => ((0..*times).fold(whitener, |state, _| call::dvb_t_energy_dispersal_advance_byte(state)), answer),
            Step::FeedInPlace(bytes) => {
                let mut data = Lent::to_write("data", bytes);
                let after = call::dvb_t_energy_dispersal_feed_in_place(whitener, data.slice_mut());
                let found = surroundings(&mut [&mut data]);
                (after, answer.bytes("data", data.slice()).surroundings(&found))
            }
            Step::Feed(bytes, room) => {
                let mut data = Lent::to_read("data", bytes);
                let mut out = Lent::to_write("output", &background(room.size(bytes.len())));
                let fed = call::dvb_t_energy_dispersal_feed(whitener, data.slice(), out.slice_mut());
                let found = surroundings(&mut [&mut data, &mut out]);
                let answer = answer.number("number", u64::from(fed.answer.number)).number("count", fed.answer.count as u64);
                (fed.whitener, answer.bytes("output", out.slice()).surroundings(&found))
            }
        }
    }

    /// Makes the call on orion-sdr's whitener, and adds what is owed; a refused feed leaves the whitener as it was.
    fn theirs(&self, whitener: &mut DvbTEnergyDispersal, answer: Answer) -> Answer {
        match self {
            Step::Hand => (),
            Step::Reset => whitener.reset(),
            Step::AdvanceByte(times) => (0..*times).for_each(|_| whitener.advance_byte()),
            Step::FeedInPlace(bytes) => {
                let mut data = bytes.clone();
                whitener.feed_in_place(&mut data);
                return answer.bytes("data", &data).surroundings(UNTOUCHED);
            }
            Step::Feed(bytes, room) => {
                let mut out = background(room.size(bytes.len()));
                let refused = out.len() < bytes.len();
                if !refused {
                    out[..bytes.len()].copy_from_slice(&whitener.feed(bytes));
                }
                let (number, count) = if refused { (OUTPUT_SHORT, 0) } else { (0, bytes.len()) };
                let answer = answer.number("number", u64::from(number)).number("count", count as u64);
                return answer.bytes("output", &out).surroundings(UNTOUCHED);
            }
        }
        answer
    }

    /// Whether document 01 refuses the call.
    fn refused(&self) -> bool {
        matches!(self, Step::Feed(bytes, room) if room.size(bytes.len()) < bytes.len())
    }

    /// Whether the bit above the register is set after the call: a refusal gives the whitener back as it went in.
    fn leaves_above(&self, above: bool) -> bool {
        matches!(self, Step::Hand) || above && self.refused()
    }

    /// Calls with less in them.
    fn smaller(&self) -> Box<dyn Iterator<Item = Step> + '_> {
        match self {
            Step::Hand | Step::Reset => Box::new(std::iter::empty()),
            Step::AdvanceByte(times) => Box::new(shrink::numbers(*times).filter(|less| *less > 0).map(Step::AdvanceByte)),
            Step::FeedInPlace(bytes) => Box::new(shrink::bytes(bytes).map(Step::FeedInPlace)),
            Step::Feed(bytes, room) => {
                let rooms = room.smaller().into_iter().map(|room| Step::Feed(bytes.clone(), room));
                Box::new(rooms.chain(shrink::bytes(bytes).map(|less| Step::Feed(less, *room))))
            }
        }
    }

    /// The call in words.
    fn show(&self) -> String {
        match self {
            Step::Hand => "handed in with bit 15 of the register's number set".to_string(),
            Step::Reset => "reset".to_string(),
            Step::AdvanceByte(times) => format!("advance_byte {times} times"),
            Step::FeedInPlace(bytes) => format!("feed_in_place of {} bytes: {}", bytes.len(), shown(bytes)),
            Step::Feed(bytes, room) => format!("feed of {} bytes: {}, output of {} bytes lent", bytes.len(), shown(bytes), room.size(bytes.len())),
        }
    }
}

/// Bits of the register.
const REGISTER: u32 = 15;

/// An answer with whether a bit above the register is set.
fn above(answer: Answer, set: bool) -> Answer {
    answer.number("a bit above the register's 15", u64::from(set))
}

/// A function of the whitener, by the sequences of calls that try it.
struct Whitener {
    cases: Cases<Vec<Step>>,
}

impl Subject for Whitener {
    type Case = Vec<Step>;

    fn each_case(&self, random: &mut Random, compare: &mut dyn FnMut(Vec<Step>)) {
        (self.cases)(random, compare);
    }

    fn ours(&self, case: &Vec<Step>) -> Answer {
        let start = call::dvb_t_energy_dispersal_new();
        let start = (start, above(Answer::default(), start.reg >> REGISTER != 0));
        let called = case.iter().chain([&probe()]).fold(start, |(whitener, answer), step| {
            let (after, answer) = step.ours(whitener, answer);
            (after, above(answer, after.reg >> REGISTER != 0))
        });
        called.1
    }

    fn expected(&self, case: &Vec<Step>) -> Expected {
        let (mut whitener, mut set) = (DvbTEnergyDispersal::new(), false);
        let answer = case.iter().chain([&probe()]).fold(above(Answer::default(), false), |answer, step| {
            set = step.leaves_above(set);
            above(step.theirs(&mut whitener, answer), set)
        });
        if case.iter().any(|step| step.refused() || matches!(step, Step::Hand)) { Expected::document(answer) } else { Expected::orion(answer) }
    }

    fn smaller<'a>(&'a self, case: &'a Vec<Step>) -> Box<dyn Iterator<Item = Vec<Step>> + 'a> {
        shrink::calls(case, Step::smaller)
    }

    fn show(&self, case: &Vec<Step>) -> String {
        let calls: Vec<String> = case.iter().chain([&probe()]).map(Step::show).collect();
        format!("new; then {}", calls.join("; then "))
    }
}

/// The last call of each case, eight zeros fed: 64 outputs show all of a 15-bit register.
fn probe() -> Step {
    Step::FeedInPlace(vec![0; 8])
}

/// The start alone, then some bytes fed at once.
fn new_cases(random: &mut Random, compare: &mut dyn FnMut(Vec<Step>)) {
    compare(vec![]);
    for length in 0..=64 {
        compare(vec![Step::FeedInPlace(random.bytes(length))]);
    }
}

/// All lengths to 600, the register's whole round of 32,767 bytes, and sequences.
fn feed_in_place_cases(random: &mut Random, compare: &mut dyn FnMut(Vec<Step>)) {
    for length in (0..=600).chain([15_040, 32_766, 32_767, 32_768, 40_000]) {
        compare(vec![Step::FeedInPlace(random.bytes(length))]);
    }
    for _ in 0..200 {
        compare(sequence(random, 1));
    }
}

/// Each count to 300, random counts to a whole round, and sequences with feeding between.
fn advance_byte_cases(random: &mut Random, compare: &mut dyn FnMut(Vec<Step>)) {
    for count in (1..=300).chain([32_766, 32_767, 32_768]) {
        compare(vec![Step::AdvanceByte(count)]);
    }
    for _ in 0..200 {
        let count = random.between(1, 32_767);
        compare(vec![Step::AdvanceByte(count)]);
        compare(sequence(random, 2));
    }
}

/// A reset at once, and sequences that a reset ends, with feeding behind it in some.
fn reset_cases(random: &mut Random, compare: &mut dyn FnMut(Vec<Step>)) {
    compare(vec![Step::Reset]);
    for _ in 0..300 {
        let mut steps = sequence(random, 3);
        steps.push(Step::Reset);
        compare(steps.clone());
        steps.extend(sequence(random, 3));
        compare(steps);
    }
}

/// All lengths to 300 in every kind of room, and sequences of all calls.
fn feed_cases(random: &mut Random, compare: &mut dyn FnMut(Vec<Step>)) {
    for length in (0..=300).chain([15_040, 32_768]) {
        let bytes = random.bytes(length);
        let short = Room::Short(random.between(1, length.max(1)));
        for room in [Room::Exact, Room::Longer(1), Room::Longer(100), Room::Short(1), short, EMPTY] {
            compare(vec![Step::Feed(bytes.clone(), room)]);
        }
    }
    for _ in 0..400 {
        compare(sequence(random, 4));
        compare(sequence(random, 5));
    }
}

/// Up to 10 calls out of the first so many kinds.
fn sequence(random: &mut Random, kinds: usize) -> Vec<Step> {
    (0..random.between(1, 10)).map(|_| step(random, kinds)).collect()
}

/// A call out of the first so many kinds: feed_in_place, advance_byte, reset, feed, and the whitener handed in.
fn step(random: &mut Random, kinds: usize) -> Step {
    let length = random.below(400) >> random.below(8);
    match random.below(kinds) {
        0 => Step::FeedInPlace(random.bytes(length)),
        1 => Step::AdvanceByte(random.between(1, 40)),
        2 => Step::Reset,
        3 => Step::Feed(random.bytes(length), room(random)),
        _ => Step::Hand,
    }
}

/// Any room, an exact one most often.
fn room(random: &mut Random) -> Room {
    match random.below(6) {
        0 => Room::Longer(random.between(1, 60)),
        1 => Room::Short(random.between(1, 60)),
        _ => Room::Exact,
    }
}
