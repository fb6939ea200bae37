//! Symbols: orion-sdr's ScatteredPilotMapper and ScatteredPilotExtractor of dvb_t.rs, and its GridMap and GridExtract of grid.rs.
//! A cell is two floats, re and im in turn; lengths are in floats, so that half a cell can be missing or over.

use crate::answer::{Answer, floats};
use crate::cells::{cells, plainer, shorter, some_floats};
use crate::fields::GUARDS;
use crate::harness::{Expected, Run, Subject};
use crate::lent::{EMPTY, Lent, Room, UNTOUCHED, surroundings};
use crate::pilots::phases;
use crate::random::Random;
use crate::refusals::{LENGTH, OUTPUT_SHORT, RETIRED};
use crate::sys::{SaltCounted, SaltScatteredPilotExtractor, SaltScatteredPilotMapper};
use crate::{call, shrink};
use num_complex::Complex32;
use orion_sdr::core::Block;
use orion_sdr::multicarrier::{CarrierGrid, GridExtract, GridMap};
use orion_sdr::waveform::dvb_t::{GuardInterval, ScatteredPilotExtractor, ScatteredPilotMapper, dvb_t_2k_plan};
use std::cell::RefCell;

/// So many symbols are compared in sequences of their own, apart from refusals, resets and phases handed in.
const SYMBOLS: usize = 10_000;
/// Floats of a symbol.
const SYMBOL: usize = 4096;
/// Floats of a symbol's data.
const DATA: usize = 3024;
/// Floats of a symbol's data in the static grid.
const STATIC_DATA: usize = 3320;

/// Compares all functions of this module, those with a state over sequences of calls.
pub fn compare(run: &mut Run) {
    run.compare("ScatteredPilotMapper::new", Cycle::new(&MAPPER, new_cases));
    run.compare("ScatteredPilotMapper::map_symbol", Cycle::new(&MAPPER, symbol_cases));
    run.compare("ScatteredPilotMapper::reset", Cycle::new(&MAPPER, reset_cases));
    run.compare("ScatteredPilotExtractor::new", Cycle::new(&EXTRACTOR, new_cases));
    run.compare("ScatteredPilotExtractor::extract_symbol", Cycle::new(&EXTRACTOR, symbol_cases));
    run.compare("ScatteredPilotExtractor::reset", Cycle::new(&EXTRACTOR, reset_cases));
    run.compare("GridMap::process", Retired);
    run.compare("GridExtract::process", Static::new(&GRID_EXTRACT, call::grid_extract, |grid| Box::new(GridExtract::new(grid))));
    run.compare("GridExtract::process, of GridMap's symbols", Kept);
}

/// What a call reads and writes, with the floats that it needs of each.
pub struct Shape {
    pub reads: &'static str,
    pub input: usize,
    pub writes: &'static str,
    pub output: usize,
}

const MAP: Shape = Shape { reads: "data", input: DATA, writes: "symbol", output: SYMBOL };
const EXTRACT: Shape = Shape { reads: "symbol", input: SYMBOL, writes: "data", output: DATA };
const GRID_MAP: Shape = Shape { reads: "data", input: STATIC_DATA, writes: "symbol", output: SYMBOL };
const GRID_EXTRACT: Shape = Shape { reads: "symbol", input: SYMBOL, writes: "data", output: STATIC_DATA };

/// The two slices of a call, the output as it stands before it.
#[derive(Clone)]
pub struct Call {
    pub input: Vec<f32>,
    pub output: Vec<f32>,
}

impl Call {
    /// A call with floats of all kinds, in rooms against what the shape needs.
    pub fn some(random: &mut Random, shape: &Shape, input: Room, output: Room) -> Self {
        let (input, output) = (input.size(shape.input), output.size(shape.output));
        Self { input: some_floats(random, input), output: some_floats(random, output) }
    }

    /// A call that is not refused.
    pub fn accepted(random: &mut Random, shape: &Shape) -> Self {
        let (input, output) = (enough(random), enough(random));
        Self::some(random, shape, input, output)
    }

    /// Document 01's number for it.
    pub fn number(&self, shape: &Shape) -> u8 {
        match () {
            _ if self.input.len() < shape.input => LENGTH,
            _ if self.output.len() < shape.output => OUTPUT_SHORT,
            _ => 0,
        }
    }

    /// Makes the call on lent memory; gives its answer, the output behind it, and what became of the other memory.
    pub fn lent<R>(&self, shape: &Shape, call: impl FnOnce(&[f32], &mut [f32]) -> R) -> (R, Vec<f32>, String) {
        let mut input = Lent::to_read(shape.reads, &self.input);
        let mut output = Lent::to_write(shape.writes, &self.output);
        let answer = call(input.slice(), output.slice_mut());
        let found = surroundings(&mut [&mut input, &mut output]);
        (answer, output.slice().to_vec(), found)
    }

    /// The output behind a call of orion-sdr's, which takes whole cells.
    fn on_cells(&self, call: impl FnOnce(&[Complex32], &mut [Complex32])) -> Vec<f32> {
        let (input, mut cells, mut output) = (cells(&self.input), cells(&self.output), self.output.clone());
        call(&input, &mut cells);
        output.chunks_exact_mut(2).zip(cells).for_each(|(floats, cell)| floats.copy_from_slice(&[cell.re, cell.im]));
        output
    }

    /// Shorter slices, then plainer ones.
    pub fn smaller<'a>(&'a self, shape: &Shape) -> impl Iterator<Item = Call> + use<'a> {
        let inputs = shorter(&self.input, shape.input).chain(plainer(&self.input)).map(|input| Call { input, ..self.clone() });
        let outputs = shorter(&self.output, shape.output).chain(plainer(&self.output)).map(|output| Call { output, ..self.clone() });
        inputs.chain(outputs)
    }

    /// The call in words.
    pub fn show(&self, shape: &Shape) -> String {
        let list = |slice: &[f32]| floats(&slice.iter().map(|float| float.to_bits()).collect::<Vec<_>>());
        let (input, output) = (list(&self.input), list(&self.output));
        format!("{} of {} f32: {input}; lent {} of {} f32, before: {output}", shape.reads, self.input.len(), shape.writes, self.output.len())
    }
}

/// An answer with an output behind a call: what an accepted call writes with any NaN as any other, the rest by its bits.
fn with_output(answer: Answer, name: &str, shape: &Shape, number: u8, output: &[f32]) -> Answer {
    let written = if number == 0 { shape.output.min(output.len()) } else { 0 };
    let answer = answer.floats(&format!("{name}{}", shape.writes), &output[..written]);
    answer.exact_floats(&format!("{name}rest of the {}", shape.writes), &output[written..])
}

/// A room that is large enough, an exact one most often.
fn enough(random: &mut Random) -> Room {
    match random.below(8) {
        0 => Room::Longer(1),
        1 => Room::Longer(2),
        2 => Room::Longer(random.between(3, 400)),
        _ => Room::Exact,
    }
}

/// Every kind of room.
pub fn every_room(random: &mut Random) -> [Room; 7] {
    let (longer, short) = (Room::Longer(random.between(2, 5_000)), Room::Short(random.between(3, SYMBOL)));
    [Room::Exact, Room::Longer(1), longer, Room::Short(1), Room::Short(2), short, EMPTY]
}

/// The port's mapper or extractor; its state is its phase.
struct Side {
    shape: Shape,
    new: fn() -> usize,
    reset: fn(usize) -> usize,
    symbol: fn(usize, &[f32], &mut [f32]) -> (u8, usize),
    theirs: fn(GuardInterval) -> Box<dyn Theirs>,
}

const MAPPER: Side = Side {
    shape: MAP,
    new: || call::scattered_pilot_mapper_new().phase,
    reset: |phase| call::scattered_pilot_mapper_reset(SaltScatteredPilotMapper { phase }).phase,
    symbol: |phase, data, symbol| {
        let answer = call::scattered_pilot_mapper_map_symbol(SaltScatteredPilotMapper { phase }, data, symbol);
        (answer.number, answer.mapper.phase)
    },
    theirs: |guard| Box::new(ScatteredPilotMapper::new(guard)),
};

const EXTRACTOR: Side = Side {
    shape: EXTRACT,
    new: || call::scattered_pilot_extractor_new().phase,
    reset: |phase| call::scattered_pilot_extractor_reset(SaltScatteredPilotExtractor { phase }).phase,
    symbol: |phase, symbol, data| {
        let answer = call::scattered_pilot_extractor_extract_symbol(SaltScatteredPilotExtractor { phase }, symbol, data);
        (answer.number, answer.extractor.phase)
    },
    theirs: |guard| Box::new(ScatteredPilotExtractor::new(guard)),
};

/// orion-sdr's mapper or extractor.
trait Theirs {
    /// Starts again at phase 0.
    fn reset(&mut self);
    /// Maps or extracts one symbol.
    fn symbol(&mut self, input: &[Complex32], output: &mut [Complex32]);
    /// The phase of the next symbol after one of this phase; the mapper keeps its own private, so it is counted.
    fn phase_after(&self, phase: usize) -> usize {
        (phase % 4 + 1) % 4
    }
}

impl Theirs for ScatteredPilotMapper {
    fn reset(&mut self) {
        ScatteredPilotMapper::reset(self);
    }

    fn symbol(&mut self, input: &[Complex32], output: &mut [Complex32]) {
        self.map_symbol(input, output);
    }
}

impl Theirs for ScatteredPilotExtractor {
    fn reset(&mut self) {
        ScatteredPilotExtractor::reset(self);
    }

    fn symbol(&mut self, input: &[Complex32], output: &mut [Complex32]) {
        self.extract_symbol(input, output);
    }

    fn phase_after(&self, _: usize) -> usize {
        self.phase()
    }
}

/// One call on a mapper or an extractor.
#[derive(Clone)]
enum Step {
    Reset,
    Symbol(Call),
}

/// A sequence of calls on a new mapper or extractor, or on one whose phase is handed in; and orion-sdr's guard interval.
#[derive(Clone)]
struct Frame {
    guard: usize,
    start: Option<usize>,
    steps: Vec<Step>,
}

impl Frame {
    /// A sequence on a new one.
    fn fresh(random: &mut Random, steps: Vec<Step>) -> Self {
        Self { guard: random.below(GUARDS.len()), start: None, steps }
    }

    /// A sequence on one whose phase is handed in.
    fn handed(random: &mut Random, phase: usize, steps: Vec<Step>) -> Self {
        Self { guard: random.below(GUARDS.len()), start: Some(phase), steps }
    }

    /// The sequence with another step at a place.
    fn replaced(&self, place: usize, step: Step) -> Self {
        let mut frame = self.clone();
        frame.steps[place] = step;
        frame
    }

    /// The sequence with only some of its steps.
    fn only(&self, places: impl Iterator<Item = usize>) -> Self {
        Self { steps: places.map(|place| self.steps[place].clone()).collect(), ..*self }
    }
}

/// So many symbols that are not refused.
fn accepted(random: &mut Random, shape: &Shape, count: usize) -> Vec<Step> {
    (0..count).map(|_| Step::Symbol(Call::accepted(random, shape))).collect()
}

/// No call, and up to a round and more of symbols.
fn new_cases(shape: &Shape, random: &mut Random, compare: &mut dyn FnMut(Frame)) {
    for count in 0..=9 {
        let steps = accepted(random, shape, count);
        compare(Frame::fresh(random, steps));
    }
}

/// `SYMBOLS` symbols in sequences, symbols from every phase handed in, and refused calls between others.
fn symbol_cases(shape: &Shape, random: &mut Random, compare: &mut dyn FnMut(Frame)) {
    let mut left = SYMBOLS;
    while left > 0 {
        let count = random.between(1, 16).min(left);
        let steps = accepted(random, shape, count);
        compare(Frame::fresh(random, steps));
        left -= count;
    }
    for phase in phases(random) {
        let count = random.between(1, 5);
        let steps = accepted(random, shape, count);
        compare(Frame::handed(random, phase, steps));
    }
    for (phase, input) in (0..4).flat_map(|phase| every_room(random).map(|input| (phase, input))).collect::<Vec<_>>() {
        for output in every_room(random) {
            let call = Step::Symbol(Call::some(random, shape, input, output));
            let wide = phase + 4 * random.below(usize::MAX / 4);
            compare(Frame::handed(random, phase, vec![call.clone()]));
            compare(Frame::handed(random, wide, vec![call.clone()]));
            let steps = [accepted(random, shape, phase), vec![call], accepted(random, shape, 1)].concat();
            compare(Frame::fresh(random, steps));
        }
    }
}

/// Resets of every phase handed in, and sequences of resets, symbols and refused calls.
fn reset_cases(shape: &Shape, random: &mut Random, compare: &mut dyn FnMut(Frame)) {
    for phase in phases(random) {
        let steps = [vec![Step::Reset], accepted(random, shape, 1)].concat();
        compare(Frame::handed(random, phase, steps));
    }
    for _ in 0..500 {
        let steps = (0..random.between(2, 12)).map(|_| some_step(random, shape)).collect();
        compare(Frame::fresh(random, steps));
    }
}

/// A symbol most often, else a reset or a call in any rooms.
fn some_step(random: &mut Random, shape: &Shape) -> Step {
    match random.below(8) {
        0 | 1 => Step::Reset,
        2 => {
            let (input, output) = (every_room(random)[random.below(7)], every_room(random)[random.below(7)]);
            Step::Symbol(Call::some(random, shape, input, output))
        }
        _ => Step::Symbol(Call::accepted(random, shape)),
    }
}

/// A function of the mapper or the extractor, and the sequences of calls that try it.
struct Cycle {
    side: &'static Side,
    cases: fn(&Shape, &mut Random, &mut dyn FnMut(Frame)),
    theirs: [RefCell<Box<dyn Theirs>>; 4],
}

impl Cycle {
    /// The function with orion-sdr's mappers or extractors, one for each guard interval.
    fn new(side: &'static Side, cases: fn(&Shape, &mut Random, &mut dyn FnMut(Frame))) -> Self {
        Self { side, cases, theirs: GUARDS.map(|guard| RefCell::new((side.theirs)(guard))) }
    }

    /// Makes a call on the port's, and adds what it answers.
    fn ours(&self, (phase, answer): (usize, Answer), place: usize, step: &Step) -> (usize, Answer) {
        let Step::Symbol(call) = step else {
            let after = (self.side.reset)(phase);
            return (after, answer.number(&format!("call {place}: phase after"), after as u64));
        };
        let ((number, after), output, found) = call.lent(&self.side.shape, |input, output| (self.side.symbol)(phase, input, output));
        (after, self.answered(answer, place, number, after, &output).surroundings(&found))
    }

    /// Makes a call on orion-sdr's, and adds what is owed; a refused call is not made and leaves the phase as it was.
    fn theirs(&self, theirs: &mut dyn Theirs, (phase, answer): (usize, Answer), place: usize, step: &Step) -> (usize, Answer) {
        let Step::Symbol(call) = step else {
            theirs.reset();
            return (0, answer.number(&format!("call {place}: phase after"), 0));
        };
        let number = call.number(&self.side.shape);
        if number != 0 {
            return (phase, self.answered(answer, place, number, phase, &call.output).surroundings(UNTOUCHED));
        }
        let output = call.on_cells(|input, output| theirs.symbol(input, output));
        let after = theirs.phase_after(phase);
        (after, self.answered(answer, place, 0, after, &output).surroundings(UNTOUCHED))
    }

    /// An answer with what a call on a symbol gives.
    fn answered(&self, answer: Answer, place: usize, number: u8, after: usize, output: &[f32]) -> Answer {
        let name = format!("call {place}: ");
        let answer = answer.number(&format!("{name}number"), u64::from(number)).number(&format!("{name}phase after"), after as u64);
        with_output(answer, &name, &self.side.shape, number, output)
    }

    /// Whether document 01 refuses a call.
    fn refused(&self, step: &Step) -> bool {
        matches!(step, Step::Symbol(call) if call.number(&self.side.shape) != 0)
    }
}

/// Brings orion-sdr's mapper or extractor to a phase.
fn go_to(theirs: &mut dyn Theirs, phase: usize) {
    theirs.reset();
    let (input, mut output) = ([Complex32::default(); SYMBOL / 2], [Complex32::default(); SYMBOL / 2]);
    (0..phase % 4).for_each(|_| theirs.symbol(&input, &mut output));
}

impl Subject for Cycle {
    type Case = Frame;

    fn each_case(&self, random: &mut Random, compare: &mut dyn FnMut(Frame)) {
        (self.cases)(&self.side.shape, random, compare);
    }

    fn ours(&self, case: &Frame) -> Answer {
        let phase = case.start.unwrap_or_else(self.side.new);
        let start = (phase, Answer::default().number("phase at the start", phase as u64));
        case.steps.iter().enumerate().fold(start, |so_far, (place, step)| self.ours(so_far, place, step)).1
    }

    fn expected(&self, case: &Frame) -> Expected {
        let mut theirs = self.theirs[case.guard].borrow_mut();
        let phase = case.start.unwrap_or(0);
        go_to(&mut **theirs, phase);
        let start = (phase, Answer::default().number("phase at the start", phase as u64));
        let steps = case.steps.iter().enumerate();
        let answer = steps.fold(start, |so_far, (place, step)| self.theirs(&mut **theirs, so_far, place, step)).1;
        if case.steps.iter().any(|step| self.refused(step)) { Expected::document(answer) } else { Expected::orion(answer) }
    }

    /// Fewer calls, a lower phase or none handed in, the first guard interval, then less in the calls.
    fn smaller<'a>(&'a self, case: &'a Frame) -> Box<dyn Iterator<Item = Frame> + 'a> {
        let count = case.steps.len();
        let fronts = (0..count).map(|length| case.only(0..length));
        let without = (0..count).map(move |place| case.only((0..count).filter(move |other| *other != place)));
        let phases = case.start.into_iter().flat_map(|phase| std::iter::once(None).chain(shrink::numbers(phase).map(Some)));
        let phases = phases.map(|start| Frame { start, ..case.clone() });
        let guards = (0..case.guard).map(|guard| Frame { guard, ..case.clone() });
        let within = (0..count).flat_map(move |place| {
            let Step::Symbol(call) = &case.steps[place] else { return Box::new(std::iter::empty()) as Box<dyn Iterator<Item = Frame>> };
            Box::new(call.smaller(&self.side.shape).map(move |call| case.replaced(place, Step::Symbol(call))))
        });
        Box::new(fronts.chain(without).chain(phases).chain(guards).chain(within))
    }

    fn show(&self, case: &Frame) -> String {
        let start = case.start.map_or("new".to_string(), |phase| format!("phase {phase} handed in"));
        let step = |step: &Step| match step {
            Step::Reset => "reset".to_string(),
            Step::Symbol(call) => format!("call with {}", call.show(&self.side.shape)),
        };
        let calls: String = case.steps.iter().map(|one| format!("; {}", step(one))).collect();
        format!("{start}{calls}; orion-sdr's guard {:?}", GUARDS[case.guard])
    }
}

/// orion-sdr's mapping or extraction of the static grid.
type Process = Box<dyn Block<In = Complex32, Out = Complex32>>;

/// Mapping or extraction of the static grid.
struct Static {
    shape: &'static Shape,
    ours: fn(&[f32], &mut [f32]) -> SaltCounted,
    theirs: [RefCell<Process>; 4],
}

/// A call, and orion-sdr's guard interval.
struct Single {
    guard: usize,
    call: Call,
}

impl Static {
    /// The function with orion-sdr's, one for each guard interval.
    fn new(shape: &'static Shape, ours: fn(&[f32], &mut [f32]) -> SaltCounted, theirs: fn(CarrierGrid) -> Process) -> Self {
        let theirs = GUARDS.map(|guard| RefCell::new(theirs(CarrierGrid::from_plan(&dvb_t_2k_plan(guard)))));
        Self { shape, ours, theirs }
    }

    /// An answer with its number, its count of cells and the output.
    fn answer(&self, number: u8, count: usize, output: &[f32]) -> Answer {
        with_output(Answer::counted(number, count), "", self.shape, number, output)
    }
}

impl Subject for Static {
    type Case = Single;

    /// `SYMBOLS` symbols, and calls in all rooms.
    fn each_case(&self, random: &mut Random, compare: &mut dyn FnMut(Single)) {
        for _ in 0..SYMBOLS {
            compare(Single { guard: random.below(GUARDS.len()), call: Call::accepted(random, self.shape) });
        }
        for (guard, input) in (0..GUARDS.len()).flat_map(|guard| every_room(random).map(|input| (guard, input))).collect::<Vec<_>>() {
            for output in every_room(random) {
                compare(Single { guard, call: Call::some(random, self.shape, input, output) });
            }
        }
    }

    fn ours(&self, case: &Single) -> Answer {
        let (answer, output, found) = case.call.lent(self.shape, self.ours);
        self.answer(answer.number, answer.count, &output).surroundings(&found)
    }

    /// On short slices orion-sdr does nothing and answers so; document 01 refuses.
    fn expected(&self, case: &Single) -> Expected {
        let number = case.call.number(self.shape);
        if number != 0 {
            return Expected::document(self.answer(number, 0, &case.call.output).surroundings(UNTOUCHED));
        }
        let mut count = 0;
        let mut theirs = self.theirs[case.guard].borrow_mut();
        let output = case.call.on_cells(|input, output| count = theirs.process(input, output).out_written);
        Expected::orion(self.answer(0, count, &output).surroundings(UNTOUCHED))
    }

    fn smaller<'a>(&'a self, case: &'a Single) -> Box<dyn Iterator<Item = Single> + 'a> {
        let guards = (0..case.guard).map(|guard| Single { guard, call: case.call.clone() });
        Box::new(guards.chain(case.call.smaller(self.shape).map(|call| Single { guard: case.guard, call })))
    }

    fn show(&self, case: &Single) -> String {
        format!("{}; orion-sdr's guard {:?}", case.call.show(self.shape), GUARDS[case.guard])
    }
}

/// Mapping onto the static grid, which is refused whatever is lent.
struct Retired;

impl Subject for Retired {
    type Case = Call;

    /// Document 02 retired it, so orion-sdr's isn't asked.
    fn in_orion(&self) -> bool {
        false
    }

    /// Symbols that orion-sdr would make, and calls in all rooms.
    fn each_case(&self, random: &mut Random, compare: &mut dyn FnMut(Call)) {
        for _ in 0..SYMBOLS / 10 {
            compare(Call::accepted(random, &GRID_MAP));
        }
        for input in every_room(random) {
            for output in every_room(random) {
                compare(Call::some(random, &GRID_MAP, input, output));
            }
        }
    }

    fn ours(&self, case: &Call) -> Answer {
        let (answer, output, found) = case.lent(&GRID_MAP, call::grid_map);
        with_output(Answer::counted(answer.number, answer.count), "", &GRID_MAP, answer.number, &output).surroundings(&found)
    }

    /// LENGTH, else RETIRED, which goes before OUTPUT SHORT; the symbol stays as it is.
    fn expected(&self, case: &Call) -> Expected {
        let number = if case.input.len() < GRID_MAP.input { LENGTH } else { RETIRED };
        Expected::document(with_output(Answer::counted(number, 0), "", &GRID_MAP, number, &case.output).surroundings(UNTOUCHED))
    }

    fn smaller<'a>(&'a self, case: &'a Call) -> Box<dyn Iterator<Item = Call> + 'a> {
        Box::new(case.smaller(&GRID_MAP))
    }

    fn show(&self, case: &Call) -> String {
        case.show(&GRID_MAP)
    }
}

/// Static symbols that were kept: orion-sdr's GridMap made them, and the port reads their data back.
struct Kept;

impl Subject for Kept {
    type Case = Single;

    /// Data of all kinds.
    fn each_case(&self, random: &mut Random, compare: &mut dyn FnMut(Single)) {
        for _ in 0..SYMBOLS / 10 {
            let call = Call::some(random, &GRID_MAP, Room::Exact, Room::Exact);
            compare(Single { guard: random.below(GUARDS.len()), call });
        }
    }

    /// The data that are read out of orion-sdr's symbol.
    fn ours(&self, case: &Single) -> Answer {
        let mut theirs = GridMap::new(CarrierGrid::from_plan(&dvb_t_2k_plan(GUARDS[case.guard])));
        let symbol = case.call.on_cells(|input, output| drop(theirs.process(input, output)));
        let read = Call { input: symbol, output: vec![0.0; STATIC_DATA] };
        let (answer, output, found) = read.lent(&GRID_EXTRACT, call::grid_extract);
        with_output(Answer::counted(answer.number, answer.count), "", &GRID_EXTRACT, answer.number, &output).surroundings(&found)
    }

    /// The data that orion-sdr was given.
    fn expected(&self, case: &Single) -> Expected {
        let count = Answer::counted(0, STATIC_DATA / 2);
        Expected::orion(with_output(count, "", &GRID_EXTRACT, 0, &case.call.input).surroundings(UNTOUCHED))
    }

    fn smaller<'a>(&'a self, case: &'a Single) -> Box<dyn Iterator<Item = Single> + 'a> {
        Box::new(plainer(&case.call.input).map(|input| Single { guard: case.guard, call: Call { input, ..case.call.clone() } }))
    }

    fn show(&self, case: &Single) -> String {
        format!("{}; orion-sdr's guard {:?}", case.call.show(&GRID_MAP), GUARDS[case.guard])
    }
}
