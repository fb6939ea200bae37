//! The receive session, which orion-sdr has not: it must show after every call what orion-sdr's extractor and decoder give on the symbols that stand, the
//! decoder reset at each frame.

use crate::answer::Answer;
use crate::fields::GUARDS;
use crate::harness::{Cases, Expected, Run, Source, Subject};
use crate::random::Random;
use crate::session_calls::{Feed, Memory, PLACES, Step};
use crate::session_scripts as scripts;
use crate::session_sides::{Orion, Ours, Side, Theirs};
use crate::{cells, shrink};
use std::cell::RefCell;

/// So many random scripts are compared in bulk, and so many over frames, of which one in four goes back into the frame before at least twice.
const SCRIPTS: usize = 10_000;
const OVER_FRAMES: usize = 10_000;
const TWICE: usize = 4;
/// One script in so many has orion-sdr's extractor extract all standing symbols again at each call: in bulk, and of the others.
const AFRESH: usize = 20;
const AFRESH_OTHERWISE: usize = 4;

/// Compares all functions of this module, each over scripts of calls; after each call all that can be asked is asked.
pub fn compare(run: &mut Run) {
    let random: Bulk = |random, _| scripts::script(random);
    let framed: Bulk = |random, number| scripts::over_frames(random, number % TWICE == 0);
    run.compare("Session::feed", Session::new(scripts::feeds, 0, random));
    run.compare("Session::step_back", Session::new(scripts::step_backs, 0, random));
    run.compare("Session::reset", Session::new(scripts::resets, 0, random));
    run.compare("Session::word", Session::new(scripts::words, 0, random));
    run.compare("Session, states handed in", Session::new(scripts::handed_in, 0, random));
    run.compare("Session, frame counts handed in", Session::new(scripts::frames_handed_in, 0, random));
    run.compare("Session, random scripts", Session::new(scripts::some, SCRIPTS, random));
    run.compare("Session, over frames", Session::new(scripts::frames, OVER_FRAMES, framed));
}

/// Calls on a new session; orion-sdr's guard interval, and whether its extractor extracts all standing symbols again at each call.
#[derive(Clone)]
pub struct Script {
    guard: usize,
    afresh: bool,
    steps: Vec<Step>,
}

impl Script {
    /// The script of a number: one in so many is afresh, and those take the guard intervals in turn.
    fn numbered(number: usize, afresh: usize, steps: Vec<Step>) -> Self {
        Self { guard: number / afresh % GUARDS.len(), afresh: number % afresh == 0, steps }
    }
}

/// Who says what a script's answer is.
fn who_says(script: &Script) -> Source {
    if scripts::by_document(&script.steps) { Source::Document } else { Source::Orion }
}

/// The script of a number among those that are compared in bulk.
type Bulk = fn(&mut Random, usize) -> Vec<Step>;

/// Scripts that try a function of the session; so many more are compared in bulk.
struct Session {
    cases: Cases<Vec<Step>>,
    bulk: usize,
    script: Bulk,
    memory: Memory,
    orion: [RefCell<Orion>; 4],
}

impl Session {
    /// The function with orion-sdr's extractors, one for each guard interval.
    fn new(cases: Cases<Vec<Step>>, bulk: usize, script: Bulk) -> Self {
        Self { cases, bulk, script, memory: Memory::new(), orion: GUARDS.map(|guard| RefCell::new(Orion::new(guard))) }
    }

    /// Calls one side, and gives all that it answers.
    fn answer(&self, script: &Script, side: &mut dyn Side) -> Answer {
        let mut memory = self.memory.clone();
        script.steps.iter().enumerate().fold(Answer::default(), |answer, (place, step)| {
            let mut step = step.clone();
            memory.exchange(&mut step);
            let before = memory.clone();
            let seen = side.call(&step, &mut memory);
            let answer = memory.added(answer, place, &before, &step, &seen);
            memory.exchange(&mut step);
            answer
        })
    }

    /// Calls both sides in turn; whether what is seen of them and their memory are equal after each call.
    fn equal(&self, script: &Script) -> bool {
        let mut orion = self.orion[script.guard].borrow_mut();
        let (mut ours, mut our_memory) = (Ours::new(), self.memory.clone());
        let (mut theirs, mut their_memory) = (Theirs::new(&mut orion, script.afresh), self.memory.clone());
        let equal = |step: &Step| {
            let (mut our_step, mut their_step) = (step.clone(), step.clone());
            our_memory.exchange(&mut our_step);
            their_memory.exchange(&mut their_step);
            let owed = theirs.call(step, &mut their_memory);
            let equal = ours.call(step, &mut our_memory) == owed && our_memory.agrees(&their_memory, step, &owed);
            our_memory.exchange(&mut our_step);
            their_memory.exchange(&mut their_step);
            equal
        };
        script.steps.iter().all(equal) && our_memory.has_symbols_of(&self.memory)
    }
}

impl Subject for Session {
    type Case = Script;

    fn each_case(&self, random: &mut Random, compare: &mut dyn FnMut(Script)) {
        let mut number = 0;
        (self.cases)(random, &mut |steps| {
            compare(Script::numbered(number, AFRESH_OTHERWISE, steps));
            number += 1;
        });
    }

    fn in_bulk(&self, random: &mut Random, differs: &mut dyn FnMut(Script)) -> usize {
        let count = random.part_of(self.bulk);
        for number in 0..count {
            let script = Script::numbered(number, AFRESH, (self.script)(random, number));
            if !self.equal(&script) {
                differs(script);
            }
        }
        count
    }

    fn quickly(&self, case: &Script) -> Option<Source> {
        self.equal(case).then(|| who_says(case))
    }

    fn ours(&self, case: &Script) -> Answer {
        self.answer(case, &mut Ours::new())
    }

    /// What orion-sdr gives on the standing symbols; a refused call isn't made, and what is handed in is treated as document 01 says.
    fn expected(&self, case: &Script) -> Expected {
        let mut orion = self.orion[case.guard].borrow_mut();
        let answer = self.answer(case, &mut Theirs::new(&mut orion, case.afresh));
        Expected { source: who_says(case), answer }
    }

    /// Fewer calls, the first guard interval, then less in one of the calls.
    fn smaller<'a>(&'a self, case: &'a Script) -> Box<dyn Iterator<Item = Script> + 'a> {
        let count = case.steps.len();
        let with = |steps: Vec<Step>| Script { steps, ..*case };
        let fronts = shrink::lengths(count).map(move |length| with(case.steps[..length].to_vec()));
        let sizes = (1..usize::BITS).map(move |halvings| count >> halvings).take_while(|size| *size > 0);
        let parts = sizes.flat_map(move |size| (0..=count - size).step_by(size).map(move |start| start..start + size));
        let without = parts.map(move |part| with([&case.steps[..part.start], &case.steps[part.end..]].concat()));
        let guards = (0..case.guard).map(|guard| Script { guard, ..case.clone() });
        let within = (0..count).flat_map(move |place| {
            less_in(&case.steps[place]).into_iter().map(move |step| with([&case.steps[..place], &[step], &case.steps[place + 1..]].concat()))
        });
        Box::new(fronts.chain(without).chain(guards).chain(within))
    }

    fn show(&self, case: &Script) -> String {
        let calls: String = case.steps.iter().map(|step| format!("; {}", step.show())).collect();
        format!("new{calls}; orion-sdr's guard {:?} (at place {} the pool has a symbol of zeros)", GUARDS[case.guard], PLACES.start)
    }
}

/// Calls with less in them: a symbol of zeros, rooms nearer to the exact one, plainer TPS cells.
fn less_in(step: &Step) -> Vec<Step> {
    let feed = match step {
        Step::Feed(feed) => feed,
        Step::StepBack(room) => return room.smaller().into_iter().map(Step::StepBack).collect(),
        _ => return vec![],
    };
    let zeros = (feed.place > PLACES.start).then(|| Feed { place: PLACES.start, ..feed.clone() });
    let rooms = (0..3).flat_map(|slice| feed.rooms[slice].smaller().into_iter().map(move |room| (slice, room)));
    let rooms = rooms.map(|(slice, room)| {
        let mut feed = feed.clone();
        feed.rooms[slice] = room;
        feed
    });
    let plainer = cells::plainer(&feed.cells).map(|cells| Feed { cells: cells.try_into().expect("as many"), ..feed.clone() });
    zeros.into_iter().chain(rooms).chain(plainer).map(Step::Feed).collect()
}
