//! The report's reader: an input that comes in parts of any size, beside the report of its lines.

use crate::answer::Answer;
use crate::harness::{Expected, Run, Subject};
use crate::lent::{Lent, Room, UNTOUCHED, background, surroundings};
use crate::lines::{DIGITS, read_line};
use crate::random::Random;
use crate::refusals::{BAD_LINE, OUTPUT_SHORT};
use crate::reports::{LINE_ROOM, line_text, owed_text, rooms, some_digits, texted};
use crate::sys::{SaltCounted, SaltReader, SaltReaderFed};
use crate::{call, shrink};

/// Compares the three functions of the reader, each over inputs in parts; after each part all that can be asked is asked.
pub fn compare(run: &mut Run) {
    let fast = |most| Reader { most, inputs: 3000, feed: call::reader_feed, close: call::reader_close };
    run.compare("Reader::feed", fast(12));
    run.compare("Reader::close", fast(1));
    run.compare("Reader, by the slow decoder", Reader { most: 12, inputs: 500, feed: call::reader_feed_slow, close: call::reader_close_slow });
}

/// A part of an input, and the rooms that are lent for feeding it and for closing behind it.
type Part = (Vec<u8>, Room, Room);

/// An input in parts, the counts that the reader is handed in with, and the room for closing before the first part.
#[derive(Clone)]
struct Input {
    lines: u64,
    refused: u64,
    close: Room,
    parts: Vec<Part>,
}

/// Inputs of so many lines at most, so many of them, and the functions that read them.
struct Reader {
    most: usize,
    inputs: usize,
    feed: fn(SaltReader, &[u8], &mut [u8]) -> SaltReaderFed,
    close: fn(SaltReader, &mut [u8]) -> SaltCounted,
}

impl Reader {
    /// What closing the port's reader gives, with what it holds.
    fn closed(&self, reader: SaltReader, room: Room) -> Answer {
        let mut out = Lent::to_write("output", &background(room.size(2 * LINE_ROOM)));
        let answer = (self.close)(reader, out.slice_mut());
        holding(texted(out, answer), &reader.held[..reader.count.min(DIGITS)], reader.count, reader.lines, reader.refused)
    }
}

/// A line of any kind: a received word most often; else one that is no line of digits, or none.
fn some_line(random: &mut Random) -> Vec<u8> {
    let mut line = some_digits(random);
    match random.below(8) {
        0 => line.truncate(random.below(DIGITS)),
        1 => line.extend(some_digits(random).iter().take(random.between(1, 4))),
        2 => line[random.below(DIGITS)] = random.next() as u8,
        3 => line.push(b'\r'),
        _ => (),
    }
    line
}

/// An input with lines of any kind, cut into parts of any size, in rooms all of which are enough, or most.
fn some_input(random: &mut Random, most: usize) -> Input {
    let mut rest = Vec::new();
    for _ in 0..random.below(most + 1) {
        rest.extend(some_line(random));
        rest.push(b'\n');
    }
    if random.below(2) == 0 {
        rest.extend(some_line(random));
    }
    let (mut parts, largest, scarce) = (Vec::new(), [1, 3, 20, 1000][random.below(4)], random.below(3) == 0);
    let room = |random: &mut Random| {
        let kinds = if scarce && random.below(3) == 0 { 6 } else { 3 };
        rooms(random)[random.below(kinds)]
    };
    while !rest.is_empty() {
        let behind = rest.split_off(rest.len().min(random.below(largest + 1)));
        parts.push((std::mem::replace(&mut rest, behind), room(random), room(random)));
    }
    let [lines, refused] = [(); 2].map(|()| if random.below(4) == 0 { u64::MAX - random.below(4) as u64 } else { 0 });
    Input { lines, refused, close: room(random), parts }
}

/// What the reader is beside: the open line, and the lines counted so far.
struct Beside {
    open: Vec<u8>,
    lines: u64,
    refused: u64,
}

impl Beside {
    /// Ends the open line: counts it, and gives its line of the report.
    fn end(&mut self) -> Vec<u8> {
        let says = read_line(&self.open);
        self.open.clear();
        self.lines = self.lines.wrapping_add(1);
        self.refused = self.refused.wrapping_add(u64::from(says.is_err()));
        line_text(self.lines, &says)
    }

    /// Takes a part, and gives the lines of the report for the lines that end in it.
    fn feed(&mut self, part: &[u8]) -> Vec<u8> {
        let mut text = Vec::new();
        for byte in part {
            match byte {
                b'\n' => text.extend(self.end()),
                _ => self.open.push(*byte),
            }
        }
        text
    }

    /// The text behind the input: the line of an open line, and the closing line.
    fn close(&self) -> Vec<u8> {
        let mut last = Beside { open: self.open.clone(), ..*self };
        let mut text = if last.open.is_empty() { vec![] } else { last.end() };
        text.extend(format!("read {} refused {}\n", last.lines, last.refused).bytes());
        text
    }

    /// What is owed of closing here, with what the reader holds.
    fn closed(&self, room: Room) -> Answer {
        let (size, text) = (room.size(2 * LINE_ROOM), self.close());
        let answer = owed_text(size, if size < 2 * LINE_ROOM { Err(OUTPUT_SHORT) } else { Ok(&text) });
        let held = &self.open[..self.open.len().min(DIGITS)];
        holding(answer, held, self.open.len().min(DIGITS + 1), self.lines, self.refused)
    }
}

/// An answer with what a reader holds.
fn holding(answer: Answer, held: &[u8], count: usize, lines: u64, refused: u64) -> Answer {
    answer.bytes("characters held", held).number("their count", count as u64).number("lines", lines).number("refused lines", refused)
}

impl Subject for Reader {
    type Case = Input;

    fn each_case(&self, random: &mut Random, compare: &mut dyn FnMut(Input)) {
        compare(Input { lines: 0, refused: 0, close: Room::Exact, parts: vec![] });
        (0..self.inputs).for_each(|_| compare(some_input(random, self.most)));
    }

    fn ours(&self, case: &Input) -> Answer {
        let mut reader = call::reader_new();
        (reader.lines, reader.refused) = (reader.lines.wrapping_add(case.lines), reader.refused.wrapping_add(case.refused));
        case.parts.iter().fold(self.closed(reader, case.close), |answer, (part, room, close)| {
            let (mut lent, mut out) = (Lent::to_read("part", part), Lent::to_write("output", &background(room.size(LINE_ROOM * part.len()))));
            let fed = (self.feed)(reader, lent.slice(), out.slice_mut());
            reader = fed.reader;
            answer.and(texted(out, fed.answer)).surroundings(&surroundings(&mut [&mut lent])).and(self.closed(reader, *close))
        })
    }

    /// orion-sdr reads the words; where a call is refused or no line is one of digits, all is document 01's.
    fn expected(&self, case: &Input) -> Expected {
        let mut beside = Beside { open: vec![], lines: case.lines, refused: case.refused };
        let (mut read, mut short) = (false, false);
        let answer = case.parts.iter().fold(beside.closed(case.close), |answer, (part, room, close)| {
            let size = room.size(LINE_ROOM * part.len());
            let refused = size < LINE_ROOM * part.len();
            short |= refused || close.size(2 * LINE_ROOM) < 2 * LINE_ROOM;
            let text = if refused { Err(OUTPUT_SHORT) } else { Ok(beside.feed(part)) };
            read |= read_line(&beside.open) != Err(BAD_LINE) || text.as_ref().is_ok_and(|text| text.contains(&b'/'));
            answer.and(owed_text(size, text.as_deref().map_err(|number| *number))).surroundings(UNTOUCHED).and(beside.closed(*close))
        });
        if read && !short { Expected::orion(answer) } else { Expected::document(answer) }
    }

    /// Fewer parts, shorter ones, rooms nearer to the exact one, counts from zero.
    fn smaller<'a>(&'a self, case: &'a Input) -> Box<dyn Iterator<Item = Input> + 'a> {
        let counts = (case.lines, case.refused) != (0, 0);
        let zero = counts.then(|| Input { lines: 0, refused: 0, ..case.clone() });
        let close = case.close.smaller().into_iter().map(|close| Input { close, ..case.clone() });
        let parts = shrink::calls(&case.parts, |(part, room, close)| {
            let fronts = shrink::lengths(part.len()).map(|length| (part[..length].to_vec(), *room, *close));
            let rooms = room.smaller().into_iter().map(|room| (part.clone(), room, *close));
            fronts.chain(rooms).chain(close.smaller().into_iter().map(|close| (part.clone(), *room, close)))
        });
        Box::new(zero.into_iter().chain(parts.map(|parts| Input { parts, ..*case })).chain(close))
    }

    fn show(&self, case: &Input) -> String {
        let close = |room: &Room| format!("close into {} bytes", room.size(2 * LINE_ROOM));
        let part = |(part, room, behind): &Part| {
            let size = room.size(LINE_ROOM * part.len());
            format!("; feed of {:?} into {size} bytes; {}", String::from_utf8_lossy(part), close(behind))
        };
        let parts: String = case.parts.iter().map(part).collect();
        format!("a new reader that is handed in with {} lines and {} refused more; {}{parts}", case.lines, case.refused, close(&case.close))
    }
}
