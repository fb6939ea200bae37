//! The TPS sender: orion-sdr's TpsEncoder of dvb_t_tps.rs.
//! Its signs are private there, so what the port's sender holds is compared with the cells that orion-sdr's sent last, or sends at symbol 0.

use crate::answer::Answer;
use crate::harness::{Cases, Expected, Run, Subject};
use crate::lent::{EMPTY, Lent, Room, UNTOUCHED, surroundings};
use crate::pilots::no_values;
use crate::random::Random;
use crate::refusals::{NOT_A_BIT, OUTPUT_SHORT};
use crate::sys::SaltTpsEncoder;
use crate::{call, shrink};
use orion_sdr::waveform::dvb_t_tps::TpsEncoder;

/// Floats of a symbol's cells.
const CELLS: usize = 34;
/// The count that an accepted call answers.
const CARRIERS: usize = 17;
/// So many sequences of calls are compared, each of up to `BITS` bits.
const SEQUENCES: usize = 2000;
const BITS: usize = 200;

/// Compares all functions of this module, each over sequences of calls.
pub fn compare(run: &mut Run) {
    run.compare("TpsEncoder::new", Sender { cases: new_cases });
    run.compare("TpsEncoder::next_symbol", Sender { cases: next_symbol_cases });
    run.compare("TpsEncoder::reset", Sender { cases: reset_cases });
}

/// One call on a sender.
#[derive(Clone, Copy)]
enum Step {
    Reset,
    Next(u8, Room),
}

impl Step {
    /// Document 01's number for the call.
    fn number(self) -> u8 {
        match self {
            Step::Next(bit, _) if bit > 1 => NOT_A_BIT,
            Step::Next(_, room) if room.size(CELLS) < CELLS => OUTPUT_SHORT,
            _ => 0,
        }
    }

    /// Makes the call on the port's sender, and adds what it answers, with whether a refusal gave the sender back as it went in.
    fn ours(self, (encoder, answer): (SaltTpsEncoder, Answer), place: usize) -> (SaltTpsEncoder, Answer) {
        let Step::Next(bit, room) = self else {
            let reset = call::tps_encoder_reset(encoder);
            return (reset, holding(answer, &reset.signs, reset.started));
        };
        let mut out = Lent::to_write("cells", &no_values(room.size(CELLS)));
        let sent = call::tps_encoder_next_symbol(encoder, bit, out.slice_mut());
        let found = surroundings(&mut [&mut out]);
        let kept = sent.answer.number == 0 || same(&sent.encoder, &encoder);
        let answer = answered(answer, place, sent.answer.number, sent.answer.count, out.slice(), kept).surroundings(&found);
        (sent.encoder, holding(answer, &sent.encoder.signs, sent.encoder.started))
    }

    /// Makes the call on orion-sdr's sender, and adds what is owed; a refused call is not made.
    fn theirs(self, sender: &mut Theirs, answer: Answer, place: usize) -> Answer {
        let Step::Next(bit, room) = self else {
            sender.encoder.reset();
            (sender.signs, sender.started) = (first_signs(), 0);
            return holding(answer, &sender.signs, sender.started);
        };
        let (number, mut out) = (self.number(), no_values(room.size(CELLS)));
        if number == 0 {
            let cells = sender.encoder.next_symbol(bit);
            out.chunks_exact_mut(2).zip(&cells).for_each(|(floats, cell)| floats.copy_from_slice(&[cell.re, cell.im]));
            (sender.signs, sender.started) = (cells.map(|cell| cell.re), 1);
        }
        let count = if number == 0 { CARRIERS } else { 0 };
        holding(answered(answer, place, number, count, &out, true).surroundings(UNTOUCHED), &sender.signs, sender.started)
    }

    /// Calls with less in them.
    fn smaller(self) -> impl Iterator<Item = Step> {
        let (bit, room) = if let Step::Next(bit, room) = self { (bit, room) } else { (0, Room::Exact) };
        let rooms = room.smaller().into_iter().map(move |room| Step::Next(bit, room));
        (0..bit).map(move |bit| Step::Next(bit, room)).chain(rooms)
    }

    /// The call in words.
    fn show(&self) -> String {
        match self {
            Step::Reset => "reset".to_string(),
            Step::Next(bit, room) => format!("bit {bit} into {} f32", room.size(CELLS)),
        }
    }
}

/// orion-sdr's sender, the signs of the cells that it sent last, or sends at symbol 0, and 1 where it sent any.
struct Theirs {
    encoder: TpsEncoder,
    signs: [f32; CARRIERS],
    started: u8,
}

/// The signs of the cells at symbol 0.
fn first_signs() -> [f32; CARRIERS] {
    TpsEncoder::new().next_symbol(0).map(|cell| cell.re)
}

/// An answer with what a sender holds.
fn holding(answer: Answer, signs: &[f32], started: u8) -> Answer {
    answer.exact_floats("signs held", signs).number("started", u64::from(started))
}

/// Whether two senders have the same bits.
fn same(one: &SaltTpsEncoder, other: &SaltTpsEncoder) -> bool {
    one.started == other.started && one.signs.map(f32::to_bits) == other.signs.map(f32::to_bits)
}

/// An answer with what a call gives.
fn answered(answer: Answer, place: usize, number: u8, count: usize, cells: &[f32], kept: bool) -> Answer {
    let name = |part: &str| format!("call {place}: {part}");
    let answer = answer.number(&name("number"), u64::from(number)).number(&name("count"), count as u64);
    answer.exact_floats(&name("cells"), cells).number(&name("sender as it went in where refused"), u64::from(kept))
}

/// A function of the sender, by the sequences of calls that try it.
struct Sender {
    cases: Cases<Vec<Step>>,
}

/// The last calls of each case: a bit of 1 and one of 0 show whether the sender has started, and its signs.
const PROBE: [Step; 2] = [Step::Next(1, Room::Exact), Step::Next(0, Room::Exact)];

impl Subject for Sender {
    type Case = Vec<Step>;

    fn each_case(&self, random: &mut Random, compare: &mut dyn FnMut(Vec<Step>)) {
        (self.cases)(random, compare);
    }

    fn ours(&self, case: &Vec<Step>) -> Answer {
        let encoder = call::tps_encoder_new();
        let start = (encoder, holding(Answer::default(), &encoder.signs, encoder.started));
        case.iter().chain(&PROBE).enumerate().fold(start, |so_far, (place, step)| step.ours(so_far, place)).1
    }

    fn expected(&self, case: &Vec<Step>) -> Expected {
        let mut sender = Theirs { encoder: TpsEncoder::new(), signs: first_signs(), started: 0 };
        let start = holding(Answer::default(), &sender.signs, sender.started);
        let answer = case.iter().chain(&PROBE).enumerate().fold(start, |answer, (place, step)| step.theirs(&mut sender, answer, place));
        if case.iter().any(|step| step.number() != 0) { Expected::document(answer) } else { Expected::orion(answer) }
    }

    fn smaller<'a>(&'a self, case: &'a Vec<Step>) -> Box<dyn Iterator<Item = Vec<Step>> + 'a> {
        shrink::calls(case, |step| step.smaller())
    }

    fn show(&self, case: &Vec<Step>) -> String {
        let calls: Vec<String> = case.iter().chain(&PROBE).map(Step::show).collect();
        format!("new; then {}", calls.join("; then "))
    }
}

/// Every kind of room.
pub fn every_room(random: &mut Random) -> [Room; 7] {
    let (longer, short) = (Room::Longer(random.between(2, 200)), Room::Short(random.between(3, CELLS)));
    [Room::Exact, Room::Longer(1), longer, Room::Short(1), Room::Short(2), short, EMPTY]
}

/// A bit that is accepted.
fn accepted(random: &mut Random) -> Step {
    let room = if random.below(8) == 0 { Room::Longer(random.between(1, 100)) } else { Room::Exact };
    Step::Next(random.next() as u8 & 1, room)
}

/// So many bits that are accepted.
fn all_accepted(random: &mut Random, count: usize) -> Vec<Step> {
    (0..count).map(|_| accepted(random)).collect()
}

/// A call of any kind: a bit most often, else a byte above 1, a room of any kind or a reset.
fn any(random: &mut Random) -> Step {
    match random.below(16) {
        0 => Step::Reset,
        1 => Step::Next(random.next() as u8, every_room(random)[random.below(7)]),
        2 => Step::Next(random.next() as u8 & 1, every_room(random)[random.below(7)]),
        _ => accepted(random),
    }
}

/// The start alone, and some bits behind it.
fn new_cases(random: &mut Random, compare: &mut dyn FnMut(Vec<Step>)) {
    for count in 0..=10 {
        compare(all_accepted(random, count));
    }
}

/// Sequences of bits, every byte in every kind of room at the first symbols, and sequences with refused calls and resets in between.
fn next_symbol_cases(random: &mut Random, compare: &mut dyn FnMut(Vec<Step>)) {
    for _ in 0..SEQUENCES {
        let count = random.between(1, BITS);
        compare(all_accepted(random, count));
        compare((0..count).map(|_| any(random)).collect());
    }
    for (before, byte) in (0..3).flat_map(|before| (0..=u8::MAX).map(move |byte| (before, byte))) {
        for room in every_room(random) {
            let mut steps = all_accepted(random, before);
            steps.push(Step::Next(byte, room));
            compare(steps);
        }
    }
}

/// Sequences that a reset ends, at every length to a frame and more.
fn reset_cases(random: &mut Random, compare: &mut dyn FnMut(Vec<Step>)) {
    for count in 0..=BITS {
        let mut steps = all_accepted(random, count);
        steps.push(Step::Reset);
        compare(steps.clone());
        steps.extend((0..random.below(20)).map(|_| any(random)));
        compare(steps);
    }
}
