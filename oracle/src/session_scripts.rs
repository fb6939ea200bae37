//! Scripts of calls on a receive session.

use crate::lent::{EMPTY, Room};
use crate::random::Random;
use crate::receiver::counts;
use crate::session_calls::{Feed, LAST_FRAME, Level, PLACES, SURPLUS, Step};
use crate::signals::{CELLS, Cells, Signal};
use crate::words::WORD;

/// A random script has at most so many calls.
const CALLS: usize = 300;

/// Whether the documents say what a script's answer is: a call is refused, or a state is handed in.
pub fn by_document(steps: &[Step]) -> bool {
    let mut level = Level::default();
    steps.iter().any(|step| {
        let refused = step.number(level) != 0;
        level = level.after(step);
        refused || step.is_hand()
    })
}

/// How many step backs of a script lead into the frame before.
fn crossings(steps: &[Step]) -> usize {
    let mut level = Level::default();
    let crosses = |step: &&Step| {
        let crosses = matches!(step, Step::StepBack(_)) && level.is_first_of_later() && step.number(level) == 0;
        level = level.after(step);
        crosses
    };
    steps.iter().filter(crosses).count()
}

/// A script that grows: its calls, the signal that its symbols come from, what stands, and the TPS cells of the symbols fed last.
struct Growing {
    steps: Vec<Step>,
    signal: Signal,
    level: Level,
    fed: Vec<Cells>,
}

impl Growing {
    /// No call yet.
    fn new(signal: Signal) -> Self {
        Self { steps: vec![], signal, level: Level::default(), fed: vec![] }
    }

    /// Adds a call.
    fn push(&mut self, step: Step) {
        match &step {
            _ if step.number(self.level) != 0 => (),
            Step::Feed(feed) => self.fed.push(feed.cells),
            Step::StepBack(_) => drop(self.fed.pop()),
            Step::Reset => self.fed.clear(),
            _ => (),
        }
        self.level = self.level.after(&step);
        self.steps.push(step);
    }

    /// Adds a feed of the signal's next symbol, in these rooms.
    fn feed_in(&mut self, random: &mut Random, rooms: [Room; 3]) {
        let previous = self.fed.last().copied().unwrap_or([0.0; CELLS]);
        let cells = self.signal.symbol(random, self.level.standing, &previous);
        let place = if random.below(16) == 0 { PLACES.start } else { random.between(PLACES.start, PLACES.end - 1) };
        self.push(Step::Feed(Feed { place, cells, rooms }));
    }

    /// Adds a feed in rooms that are large enough.
    fn feed(&mut self, random: &mut Random) {
        let rooms = [(); 3].map(|()| enough(random));
        self.feed_in(random, rooms);
    }

    /// Adds so many feeds.
    fn feeds(&mut self, random: &mut Random, count: usize) {
        (0..count).for_each(|_| self.feed(random));
    }

    /// Adds a step back with a journal that is large enough.
    fn step_back(&mut self, random: &mut Random) {
        let room = enough(random);
        self.push(Step::StepBack(room));
    }

    /// Adds so many step backs.
    fn step_backs(&mut self, random: &mut Random, count: usize) {
        (0..count).for_each(|_| self.step_back(random));
    }

    /// Adds a call in any rooms: a feed most often, else a step back.
    fn any(&mut self, random: &mut Random) {
        let rooms = [(); 3].map(|()| any_room(random));
        if random.below(3) == 0 { self.push(Step::StepBack(rooms[0])) } else { self.feed_in(random, rooms) }
    }

    /// Adds a feed or a step back, which one in four times is where none can go back any more.
    fn go_on(&mut self, random: &mut Random, up: bool) {
        match up {
            true => self.feed(random),
            false if Step::StepBack(Room::Exact).number(self.level) != 0 && random.below(4) > 0 => (),
            false => self.step_back(random),
        }
    }

    /// Feeds until so many stand in the current frame.
    fn feed_up_to(&mut self, random: &mut Random, standing: usize) {
        while self.level.standing < standing {
            self.feed(random);
        }
    }

    /// Goes over the end of the frame and back into it, and on again, by a few symbols each time.
    fn about_the_end(&mut self, random: &mut Random) {
        let (short, back) = (random.below(4), random.below(4));
        self.feed_up_to(random, WORD - short);
        self.step_backs(random, back);
        self.feed_up_to(random, WORD);
        let on = random.between(1, 4);
        self.feeds(random, on);
        let back = random.between(on, on + 4);
        self.step_backs(random, back);
        if random.below(4) == 0 {
            self.any(random);
        }
        self.feed_up_to(random, WORD);
    }
}

/// A room that is large enough, an exact one most often.
fn enough(random: &mut Random) -> Room {
    if random.below(8) == 0 { Room::Longer(random.between(1, SURPLUS)) } else { Room::Exact }
}

/// A room of any kind.
fn any_room(random: &mut Random) -> Room {
    match random.below(6) {
        0 => Room::Short(1),
        1 => Room::Short(2),
        2 => Room::Short(random.between(3, 5000)),
        3 => EMPTY,
        _ => enough(random),
    }
}

/// Every kind of room.
fn every_room(random: &mut Random) -> [Room; 5] {
    [Room::Exact, Room::Longer(random.between(1, SURPLUS)), Room::Short(1), Room::Short(random.between(2, 3023)), EMPTY]
}

/// A random script: feeds and step backs in rows of up to 80, refused calls and resets, and now and then another signal.
pub fn script(random: &mut Random) -> Vec<Step> {
    let (calls, mut growing) = (random.between(1, CALLS), Growing::new(Signal::some(random)));
    while growing.steps.len() < calls {
        let (kind, most) = (random.below(16), [3, 15, 80][random.below(3)]);
        let row = random.between(1, most);
        match kind {
            0..=7 => (0..row).for_each(|_| growing.go_on(random, true)),
            8..=11 => (0..row).for_each(|_| growing.go_on(random, false)),
            12 | 13 => growing.any(random),
            14 => growing.signal = Signal::some(random),
            _ if random.below(2) == 0 => growing.push(Step::Reset),
            _ => (),
        }
    }
    growing.steps.truncate(calls);
    growing.steps
}

/// A script over up to five frames, with step backs about the end of each, then some way back, to where it can't go on one in three times. It goes back
/// into the frame before at least twice where that is asked.
pub fn over_frames(random: &mut Random, twice: bool) -> Vec<Step> {
    let mut growing = Growing::new(Signal::some(random));
    let ends = random.between(if twice { 2 } else { 1 }, 4);
    for _ in 0..ends {
        growing.about_the_end(random);
        growing.feed(random);
        if random.below(8) == 0 {
            growing.signal = Signal::some(random);
        }
    }
    let on = random.below(3);
    growing.feeds(random, on);
    let back = if random.below(3) == 0 { 2 * WORD } else { random.below(8) };
    (0..back).for_each(|_| growing.go_on(random, false));
    let (on, reset) = (random.below(6), random.below(8) == 0);
    growing.feeds(random, on);
    if reset {
        growing.push(Step::Reset);
        growing.any(random);
    }
    assert!(crossings(&growing.steps) >= if twice { 2 } else { 1 }, "a script that doesn't go back into the frame before");
    growing.steps
}

/// Scripts over frames.
pub fn frames(random: &mut Random, compare: &mut dyn FnMut(Vec<Step>)) {
    (0..20).for_each(|number| compare(over_frames(random, number % 2 == 0)));
}

/// Frame counts about 1,000,000 and above it handed in with each byte of a few for a later frame, at the beginning, in the midst and at the end of an even
/// and of an odd frame; and feeds over its end, step backs over its beginning and feeds again behind it.
pub fn frames_handed_in(random: &mut Random, compare: &mut dyn FnMut(Vec<Step>)) {
    let counts = (LAST_FRAME - 3..=LAST_FRAME + 3).chain([0, 1, 2, 3, 1 << 32, usize::MAX - 1, usize::MAX]);
    for (frames, behind) in counts.flat_map(|frames| [0, 1, 2, u8::MAX].map(|behind| (frames, behind))) {
        for standing in [0, 1, 2, 40, WORD - 1, WORD] {
            let odd = frames.min(LAST_FRAME) % 2;
            if odd == 1 && standing == 0 {
                continue;
            }
            let mut growing = Growing::new(Signal::sent(random));
            growing.feeds(random, odd * WORD + standing);
            compare(growing.steps.clone());
            growing.push(Step::HandFrame { frames, behind });
            growing.any(random);
            compare(growing.steps.clone());
            let back = random.between(1, 4);
            growing.step_backs(random, back);
            growing.feed_up_to(random, WORD - 1);
            growing.feeds(random, 4);
            growing.step_backs(random, 6);
            growing.feeds(random, WORD + 2);
            growing.step_backs(random, 2 * WORD + 3);
            compare(growing.steps);
        }
    }
}

/// Random scripts.
pub fn some(random: &mut Random, compare: &mut dyn FnMut(Vec<Step>)) {
    (0..20).for_each(|_| compare(script(random)));
}

/// Feeds alone, up to 68 and into the next frame; and one in rooms of every kind in each phase and where 68 stand, with a feed and a step back behind it.
pub fn feeds(random: &mut Random, compare: &mut dyn FnMut(Vec<Step>)) {
    for count in 0..=WORD + 5 {
        let mut growing = Growing::new(Signal::some(random));
        growing.feeds(random, count);
        compare(growing.steps);
    }
    for count in [0, 1, 2, 3, 67, WORD] {
        let kinds = [(); 3].map(|()| every_room(random));
        for choice in 0..5 * 5 * 5 {
            let mut growing = Growing::new(Signal::some(random));
            growing.feeds(random, count);
            growing.feed_in(random, [kinds[0][choice / 25], kinds[1][choice / 5 % 5], kinds[2][choice % 5]]);
            growing.feed(random);
            growing.step_back(random);
            compare(growing.steps);
        }
    }
}

/// From each number of standing symbols back to none and beyond, back by some and on again, and in rooms of every kind.
pub fn step_backs(random: &mut Random, compare: &mut dyn FnMut(Vec<Step>)) {
    for count in 0..=WORD {
        let mut growing = Growing::new(Signal::some(random));
        growing.feeds(random, count);
        growing.step_backs(random, count + 1);
        growing.feeds(random, 2);
        compare(growing.steps);
        let mut growing = Growing::new(Signal::some(random));
        growing.feeds(random, count);
        let back = random.below(count + 1);
        growing.step_backs(random, back);
        growing.feeds(random, back + 2);
        compare(growing.steps);
    }
    for (count, kind) in [0, 1, 2, 5, WORD, WORD + 1].into_iter().flat_map(|count| (0..5).map(move |kind| (count, kind))) {
        let mut growing = Growing::new(Signal::some(random));
        growing.feeds(random, count);
        growing.push(Step::StepBack(every_room(random)[kind]));
        growing.feeds(random, 2);
        compare(growing.steps);
    }
}

/// A reset at each number of standing symbols, and calls of all kinds behind it.
pub fn resets(random: &mut Random, compare: &mut dyn FnMut(Vec<Step>)) {
    for count in 0..=WORD {
        let mut growing = Growing::new(Signal::some(random));
        growing.feeds(random, count);
        growing.push(Step::Reset);
        compare(growing.steps.clone());
        growing.step_back(random);
        let more = random.below(20);
        growing.feeds(random, more);
        growing.any(random);
        compare(growing.steps);
    }
}

/// Sent frames, none to eight of whose bits are wrong; the same with some symbols taken back and fed again.
pub fn words(random: &mut Random, compare: &mut dyn FnMut(Vec<Step>)) {
    for _ in 0..200 {
        let mut growing = Growing::new(Signal::sent(random));
        growing.feeds(random, WORD);
        compare(growing.steps.clone());
        let back = random.between(1, WORD);
        growing.step_backs(random, back);
        growing.feeds(random, back);
        compare(growing.steps);
    }
}

/// Each count above 68 and each byte above 1 handed in with 68 standing, with fewer and with none; and step backs, feeds and resets behind it.
pub fn handed_in(random: &mut Random, compare: &mut dyn FnMut(Vec<Step>)) {
    for count in 0..=10 {
        let mut growing = Growing::new(Signal::sent(random));
        growing.push(Step::Hand { count: WORD, one: 1, other: random.next() as u8 });
        growing.any(random);
        growing.feeds(random, count);
        growing.step_backs(random, count + 1);
        compare(growing.steps);
    }
    for (one, count) in (2..=u8::MAX).zip(counts().cycle()) {
        let hand = Step::Hand { count, one, other: random.next() as u8 };
        let mut growing = Growing::new(Signal::sent(random));
        growing.feeds(random, WORD);
        compare(growing.steps.clone());
        growing.push(hand.clone());
        growing.feed(random);
        growing.any(random);
        let (back, before) = (random.below(4), random.below(WORD));
        growing.step_backs(random, back);
        growing.feeds(random, back + 1);
        growing.push(Step::Reset);
        growing.feeds(random, before);
        growing.push(hand.clone());
        growing.any(random);
        growing.step_backs(random, back);
        growing.push(hand);
        growing.feeds(random, WORD + 1 - before);
        compare(growing.steps);
    }
}
