//! The desk, which orion-sdr has not: held to a plain second writing of its rule, super_frames.rs, over lists of words.

use crate::answer::{Answer, shown};
use crate::harness::{Expected, Run, Subject};
use crate::random::Random;
use crate::refusals::RESERVED;
use crate::super_frames::{Word, answer, held};
use crate::sys::{SaltDesk, SaltParameters};
use crate::words::our_word;
use crate::call;

/// So many lists of words are handed to a desk.
const LISTS: usize = 100_000;
/// Words of a list at most.
const MOST: usize = 40;

/// Compares both functions.
pub fn compare(run: &mut Run) {
    run.compare("Desk::new", New);
    run.compare("Desk::take", Take);
}

/// A desk as it is handed in, by its six bytes, and the words that it takes.
#[derive(Clone)]
struct Handed {
    desk: [u8; 6],
    words: Vec<Word>,
}

/// The bytes of a desk.
fn bytes_of(SaltDesk { wanted, high, low, parameters: SaltParameters { constellation, code_rate_hp, guard } }: SaltDesk) -> [u8; 6] {
    [wanted, high, low, constellation, code_rate_hp, guard]
}

/// The desk with these bytes.
fn desk_of([wanted, high, low, constellation, code_rate_hp, guard]: [u8; 6]) -> SaltDesk {
    SaltDesk { wanted, high, low, parameters: SaltParameters { constellation, code_rate_hp, guard } }
}

/// Whether a code of a word stands for nothing.
fn reserved([_, constellation, rate, guard, _]: Word) -> bool {
    constellation > 2 || rate > 4 || guard > 3
}

/// The words that a desk made by hand would have gathered: none where the number that it wants is above 3.
fn words_in([wanted, high, low, constellation, rate, guard]: [u8; 6]) -> Vec<Word> {
    let count = if wanted > 3 { 0 } else { wanted };
    (0..count).map(|number| [number, constellation, rate, guard, [high, low][usize::from(number % 2)]]).collect()
}

/// The bytes of the answers in turn: number, whether a super-frame is complete, its id and codes, and the desk behind it.
fn shown_answers(each: impl Iterator<Item = (u8, u8, u16, [u8; 3], [u8; 6])>) -> Answer {
    let bytes: Vec<u8> = each.flat_map(|(number, complete, id, codes, desk)| [&[number, complete][..], &id.to_be_bytes(), &codes, &desk].concat()).collect();
    Answer::default().bytes("answers", &bytes)
}

struct New;

impl Subject for New {
    type Case = ();

    fn in_orion(&self) -> bool {
        false
    }

    fn each_case(&self, _: &mut Random, compare: &mut dyn FnMut(())) {
        compare(());
    }

    fn ours(&self, (): &()) -> Answer {
        Answer::default().bytes("desk", &bytes_of(call::desk_new()))
    }

    fn expected(&self, (): &()) -> Expected {
        Expected::document(Answer::default().bytes("desk", &held(&[])))
    }

    fn smaller<'a>(&'a self, (): &'a ()) -> Box<dyn Iterator<Item = ()> + 'a> {
        Box::new(std::iter::empty())
    }

    fn show(&self, (): &()) -> String {
        "a new desk".into()
    }
}

struct Take;

/// A word in step more often than not, of a few parameters and bytes; one in twenty has a code that stands for nothing.
fn some_word(random: &mut Random, number: u8) -> Word {
    let number = if random.below(12) == 0 { random.below(6) as u8 } else { number };
    let rare = |random: &mut Random, codes: usize| if random.below(30) == 0 { random.below(codes) as u8 } else { 1 };
    let byte = [0x12, 0xAB][usize::from(number % 2)] ^ u8::from(random.below(25) == 0);
    [number, rare(random, 5), rare(random, 7), rare(random, 6), byte]
}

/// A list of words, most of them in step.
fn some_words(random: &mut Random) -> Vec<Word> {
    (0..random.below(MOST)).map(|place| some_word(random, (place % 4) as u8)).collect()
}

/// A desk made by hand, whose bytes are small or any.
fn some_desk(random: &mut Random) -> [u8; 6] {
    [6, 3, 3, 4, 6, 5].map(|limit| if random.below(8) == 0 { random.next() as u8 } else { random.below(limit) as u8 })
}

impl Subject for Take {
    type Case = Handed;

    fn in_orion(&self) -> bool {
        false
    }

    /// Every list of six numbers to 4; a super-frame of which one field of one word has another value; random lists, on new desks and on any.
    fn each_case(&self, random: &mut Random, compare: &mut dyn FnMut(Handed)) {
        for list in 0..5usize.pow(6) {
            let words = (0..6).map(|place| [(list / 5usize.pow(place) % 5) as u8, 0, 0, 0, 7]).collect();
            compare(Handed { desk: [0; 6], words });
        }
        let frame: Vec<Word> = [(0, 0x12), (1, 0xAB), (2, 0x12), (3, 0xAB)].map(|(number, byte)| [number, 2, 1, 2, byte]).into();
        for (word, field, value) in (0..4).flat_map(|word| (0..5).flat_map(move |field| (0..=u8::MAX).map(move |value| (word, field, value)))) {
            let mut words = [&frame[..], &frame[..], &frame[..]].concat();
            words[4 + word][field] = value;
            compare(Handed { desk: [0; 6], words });
        }
        for _ in 0..LISTS {
            let words = some_words(random);
            compare(Handed { desk: [0; 6], words: words.clone() });
            compare(Handed { desk: some_desk(random), words });
        }
    }

    fn ours(&self, Handed { desk, words }: &Handed) -> Answer {
        let mut desk = desk_of(*desk);
        shown_answers(words.iter().map(|word| {
            let taken = call::desk_take(desk, our_word(*word));
            desk = taken.desk;
            let SaltParameters { constellation, code_rate_hp, guard } = taken.parameters;
            (taken.number, taken.complete, taken.cell_id, [constellation, code_rate_hp, guard], bytes_of(desk))
        }))
    }

    fn expected(&self, Handed { desk, words }: &Handed) -> Expected {
        let (mut handed, mut now) = (words_in(*desk), *desk);
        Expected::document(shown_answers(words.iter().map(|word| {
            if reserved(*word) {
                return (RESERVED, 0, 0, [0; 3], now);
            }
            handed.push(*word);
            now = held(&handed);
            match answer(&handed) {
                Ok(None) => (0, 0, 0, [0; 3], now),
                Ok(Some((id, codes))) => (0, 1, id, codes, now),
                Err(number) => (number, 0, 0, [0; 3], now),
            }
        })))
    }

    fn smaller<'a>(&'a self, case: &'a Handed) -> Box<dyn Iterator<Item = Handed> + 'a> {
        let fewer = (0..case.words.len()).map(move |place| {
            let mut less = case.clone();
            less.words.remove(place);
            less
        });
        let plainer = (0..case.words.len()).flat_map(|place| (1..5).map(move |field| (place, field))).filter_map(move |(place, field)| {
            let mut less = case.clone();
            let was = std::mem::take(&mut less.words[place][field]);
            (was != 0).then_some(less)
        });
        let new = (case.desk != [0; 6]).then(|| Handed { desk: [0; 6], words: case.words.clone() });
        Box::new(new.into_iter().chain(fewer).chain(plainer))
    }

    fn show(&self, Handed { desk, words }: &Handed) -> String {
        let words: Vec<String> = words.iter().map(|word| shown(word)).collect();
        format!("a desk of {} takes {}", shown(desk), words.join(", "))
    }
}
