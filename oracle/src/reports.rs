//! The report on received words, which orion-sdr has not: its words are orion-sdr's `TpsWord::unpack`'s, its mended bits those of mended.rs, and its texts
//! document 01's.

use crate::answer::{Answer, shown};
use crate::fields::{orion_fields, orion_word};
use crate::harness::{Expected, Run, Subject};
use crate::lent::{EMPTY, Lent, Room, UNTOUCHED, background, surroundings};
use crate::lines::{DIGITS, HEADING, put_word, read_line};
use crate::mended::Mended;
use crate::random::Random;
use crate::refusals::{BAD_LINE, OUTPUT_SHORT, RESERVED};
use crate::sys::SaltCounted;
use crate::words::{refused, some_received, unpacked, with_word};
use crate::{call, shrink};
use orion_sdr::waveform::dvb_t_tps::TpsWord;

/// Bytes of room that a call asks for, for each line that it may write.
pub const LINE_ROOM: usize = 60;
/// So many lines are read, and so many written.
const LINES: usize = 100_000;

/// Compares the functions of a line; those of the reader stand in reader.rs.
pub fn compare(run: &mut Run) {
    run.compare("read_line", ReadLine);
    run.compare("put_heading", PutHeading);
    run.compare("put_line", PutLine);
}

/// The line of the report for a line's number and what the line says.
pub fn line_text(number: u64, says: &Result<(TpsWord, Mended), u8>) -> Vec<u8> {
    let mut text = Vec::new();
    match says {
        Ok(read) => put_word(&mut text, number, *read).expect("memory takes all"),
        Err(refusal) => text.extend(format!("{number} refused {refusal}\n").bytes()),
    }
    text
}

/// A received word as a line's digits.
pub fn some_digits(random: &mut Random) -> Vec<u8> {
    let bits = some_received(random);
    bits.chunks_exact(4).map(|four| b"0123456789abcdef"[four.iter().fold(0, |value, bit| 2 * value + usize::from(*bit))]).collect()
}

/// Every kind of room.
pub fn rooms(random: &mut Random) -> [Room; 6] {
    [Room::Exact, Room::Longer(1), Room::Longer(random.between(2, 100)), Room::Short(1), Room::Short(random.between(2, 40)), EMPTY]
}

/// What a call answers that writes a text, with the output behind it.
pub fn texted(mut out: Lent<u8>, answer: SaltCounted) -> Answer {
    let found = surroundings(&mut [&mut out]);
    Answer::counted(answer.number, answer.count).bytes("output", out.slice()).surroundings(&found)
}

/// What is owed of such a call: the text in front of the output, or a refusal and the output as it was.
pub fn owed_text(size: usize, text: Result<&[u8], u8>) -> Answer {
    let mut out = background(size);
    let (number, count) = match text {
        Ok(text) => {
            out[..text.len()].copy_from_slice(text);
            (0, text.len())
        }
        Err(number) => (number, 0),
    };
    Answer::counted(number, count).bytes("output", &out).surroundings(UNTOUCHED)
}

struct ReadLine;

impl Subject for ReadLine {
    type Case = Vec<u8>;

    /// Received words; every byte at every place of one; all lengths to 40 and longer ones, of digits and of any bytes.
    fn each_case(&self, random: &mut Random, compare: &mut dyn FnMut(Vec<u8>)) {
        (0..LINES).for_each(|_| compare(some_digits(random)));
        for (place, byte) in (0..DIGITS).flat_map(|place| (0..=u8::MAX).map(move |byte| (place, byte))) {
            let mut line = some_digits(random);
            line[place] = byte;
            compare(line);
        }
        for length in (0..=40).chain([DIGITS + (1 << 8), DIGITS + (1 << 16)]) {
            compare(some_digits(random).into_iter().cycle().take(length).collect());
            compare(vec![b'0'; length]);
            compare(random.bytes(length));
        }
    }

    fn ours(&self, case: &Vec<u8>) -> Answer {
        let mut line = Lent::to_read("line", case);
        let read = call::read_line(line.slice());
        let found = surroundings(&mut [&mut line]);
        with_word(Answer::default(), "", read).surroundings(&found)
    }

    fn expected(&self, case: &Vec<u8>) -> Expected {
        let owed = read_line(case).map_or_else(refused, |(word, mended)| unpacked(0, orion_fields(word), mended));
        let answer = with_word(Answer::default(), "", owed).surroundings(UNTOUCHED);
        if owed.number == BAD_LINE { Expected::document(answer) } else { Expected::orion(answer) }
    }

    fn smaller<'a>(&'a self, case: &'a Vec<u8>) -> Box<dyn Iterator<Item = Vec<u8>> + 'a> {
        let zeros = (0..case.len()).filter(|place| case[*place] != b'0').map(|place| [&case[..place], b"0", &case[place + 1..]].concat());
        Box::new(shrink::lengths(case.len()).map(|length| case[..length].to_vec()).chain(zeros))
    }

    fn show(&self, case: &Vec<u8>) -> String {
        format!("the line {:?}", String::from_utf8_lossy(case))
    }
}

struct PutHeading;

impl Subject for PutHeading {
    type Case = Room;

    fn in_orion(&self) -> bool {
        false
    }

    fn each_case(&self, random: &mut Random, compare: &mut dyn FnMut(Room)) {
        (0..100).for_each(|_| rooms(random).into_iter().for_each(&mut *compare));
    }

    fn ours(&self, case: &Room) -> Answer {
        let mut out = Lent::to_write("output", &background(case.size(HEADING.len())));
        let answer = call::put_heading(out.slice_mut());
        texted(out, answer)
    }

    fn expected(&self, case: &Room) -> Expected {
        let size = case.size(HEADING.len());
        Expected::document(owed_text(size, if size < HEADING.len() { Err(OUTPUT_SHORT) } else { Ok(HEADING.as_bytes()) }))
    }

    fn smaller<'a>(&'a self, case: &'a Room) -> Box<dyn Iterator<Item = Room> + 'a> {
        Box::new(case.smaller().into_iter())
    }

    fn show(&self, case: &Room) -> String {
        format!("output of {} bytes lent", case.size(HEADING.len()))
    }
}

/// A line's number and answer, and the size of the lent output.
#[derive(Clone)]
struct Putting {
    line: u64,
    number: u8,
    fields: [u8; 5],
    mended: Mended,
    room: Room,
}

struct PutLine;

impl PutLine {
    /// A line's number: of any count of binary digits.
    fn some_number(random: &mut Random) -> u64 {
        let shift = random.below(64);
        random.next() >> shift
    }

    /// Bits mended, so many, at places that are any numbers: they aren't written.
    fn some_mended(random: &mut Random, count: u8) -> Mended {
        let [first, second] = [(); 2].map(|()| random.next() as u8);
        Mended { count, first, second }
    }
}

impl Subject for PutLine {
    type Case = Putting;

    /// Numbers about every power of ten and of two, all refusals, every byte in each field of a word, every count of mended bits, and random lines of
    /// received words, in all rooms.
    fn each_case(&self, random: &mut Random, compare: &mut dyn FnMut(Putting)) {
        let powers = (0..20).map(|power| 10u64.pow(power)).chain((0..64).map(|power| 1 << power)).chain([u64::MAX]);
        for line in powers.flat_map(|power| [power.wrapping_sub(1), power, power.wrapping_add(1)]) {
            let mended = Self::some_mended(random, (line % 3) as u8);
            rooms(random).into_iter().for_each(|room| compare(Putting { line, number: 0, fields: [0; 5], mended, room }));
        }
        for (field, code) in (0..5).flat_map(|field| (0..=u8::MAX).map(move |code| (field, code))) {
            let mut fields = [0; 5];
            fields[field] = code;
            for number in [0, 1 + random.below(255) as u8, code] {
                let (line, count) = (Self::some_number(random), random.below(3) as u8);
                let mended = Self::some_mended(random, count);
                rooms(random).into_iter().for_each(|room| compare(Putting { line, number, fields, mended, room }));
            }
        }
        for count in 0..=u8::MAX {
            for number in [0, 1 + random.below(255) as u8] {
                let (line, mended) = (Self::some_number(random), Self::some_mended(random, count));
                rooms(random).into_iter().for_each(|room| compare(Putting { line, number, fields: [0; 5], mended, room }));
            }
        }
        for _ in 0..LINES {
            let (line, says) = (Self::some_number(random), read_line(&some_digits(random)));
            let (number, fields, mended) = says.map_or_else(|number| (number, [0; 5], Mended::NONE), |(word, mended)| (0, orion_fields(word), mended));
            compare(Putting { line, number, fields, mended, room: Room::Exact });
        }
    }

    fn ours(&self, case: &Putting) -> Answer {
        let mut out = Lent::to_write("output", &background(case.room.size(LINE_ROOM)));
        let answer = call::put_line(case.line, unpacked(case.number, case.fields, case.mended), out.slice_mut());
        texted(out, answer)
    }

    /// The text of a word that orion-sdr has; a code outside its enum is RESERVED, behind OUTPUT SHORT, and beside a refusal a word isn't looked at. More
    /// than two mended bits, which no call answers, are written as 2.
    fn expected(&self, case: &Putting) -> Expected {
        let size = case.room.size(LINE_ROOM);
        if size < LINE_ROOM {
            return Expected::document(owed_text(size, Err(OUTPUT_SHORT)));
        }
        let says = match (case.number, orion_word(case.fields)) {
            (0, None) => return Expected::document(owed_text(size, Err(RESERVED))),
            (0, Some(word)) => Ok((word, Mended { count: case.mended.count.min(2), ..case.mended })),
            (number, _) => Err(number),
        };
        let answer = owed_text(size, Ok(&line_text(case.line, &says)));
        if says.is_ok() && case.mended.count <= 2 { Expected::orion(answer) } else { Expected::document(answer) }
    }

    fn smaller<'a>(&'a self, case: &'a Putting) -> Box<dyn Iterator<Item = Putting> + 'a> {
        let rooms = case.room.smaller().into_iter().map(|room| Putting { room, ..*case });
        let lines = shrink::numbers(case.line as usize).map(|line| Putting { line: line as u64, ..*case });
        let numbers = shrink::numbers(usize::from(case.number)).map(|number| Putting { number: number as u8, ..*case });
        let fields = shrink::plainer(&case.fields).map(|fields| Putting { fields: fields.try_into().expect("five"), ..*case });
        let mended = shrink::numbers(case.mended.count.into()).map(|count| Putting { mended: Mended { count: count as u8, ..Mended::NONE }, ..*case });
        Box::new(rooms.chain(lines).chain(numbers).chain(mended).chain(fields.collect::<Vec<_>>()))
    }

    fn show(&self, case: &Putting) -> String {
        let (size, fields) = (case.room.size(LINE_ROOM), shown(&case.fields));
        let Putting { line, number, mended: Mended { count, first, second }, .. } = case;
        let mended = format!("{count} bits mended at {first} and {second}");
        format!("line {line}, number {number}, word (frame number, codes, cell id) {fields}, {mended}; output of {size} bytes lent")
    }
}
