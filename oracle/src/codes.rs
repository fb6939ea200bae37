//! The code of the TPS words: tps_bch_encode and tps_bch_decode of orion-sdr's dvb_t_tps.rs, the latter beside both decoders of the port. Which bits are mended orion-sdr doesn't tell; mended.rs does.

use crate::answer::{Answer, shown};
use crate::harness::{Expected, Run, Subject};
use crate::lent::{EMPTY, Lent, Room, UNTOUCHED, background, surroundings};
use crate::mended::{Mended, mended};
use crate::random::Random;
use crate::refusals::{LENGTH, NO_WORD, NOT_A_BIT, OUTPUT_SHORT};
use crate::sys::SaltDecoded;
use crate::{call, shrink};
use orion_sdr::waveform::dvb_t_tps as orion;

/// Bits of the information.
const INFORMATION: usize = 53;
/// Bits of a codeword.
const CODEWORD: usize = 67;
/// So many random informations are encoded.
const WORDS: usize = 1_000_000;

/// Compares all functions of this module.
pub fn compare(run: &mut Run) {
    run.compare("tps_bch_encode", Encode);
    run.compare("tps_bch_decode", Decode::FAST);
    run.compare("tps_bch_decode_slow", Decode::SLOW);
}

/// A function of the port that reads bits and writes bits; encoding mends none.
type Call = fn(&[u8], &mut [u8]) -> SaltDecoded;

/// What is written, and the bits that are mended for it.
type Written<const N: usize> = ([u8; N], Mended);

/// An answer of a call.
fn answer(number: u8, count: usize, Mended { count: mended, first, second }: Mended) -> SaltDecoded {
    SaltDecoded { number, count, mended, first, second }
}

/// An answer with a count of mended bits and their places more.
pub fn with_mended(answer: Answer, name: &str, Mended { count, first, second }: Mended) -> Answer {
    let answer = answer.number(&format!("{name}bits mended"), count.into());
    answer.number(&format!("{name}first place"), first.into()).number(&format!("{name}second place"), second.into())
}

/// Input bits and the size of a lent output.
struct Coding {
    bits: Vec<u8>,
    room: Room,
}

impl Coding {
    /// How an output of this case stands before a call that writes so many bits.
    fn output(&self, needed: usize) -> Vec<u8> {
        background(self.room.size(needed))
    }

    /// The port's answer to a call that writes so many bits.
    fn ours(&self, needed: usize, call: Call) -> Answer {
        let mut input = Lent::to_read("input", &self.bits);
        let mut out = Lent::to_write("output", &self.output(needed));
        let answer = call(input.slice(), out.slice_mut());
        let found = surroundings(&mut [&mut input, &mut out]);
        Self::answer(answer).bytes("output", out.slice()).surroundings(&found)
    }

    /// What a call answers, as it is compared.
    fn answer(SaltDecoded { number, count, mended, first, second }: SaltDecoded) -> Answer {
        with_mended(Answer::counted(number, count), "", Mended { count: mended, first, second })
    }

    /// What is owed for a refusal: the number, no bit mended, and the output as it was.
    fn refused(&self, needed: usize, number: u8) -> Answer {
        Self::answer(answer(number, 0, Mended::NONE)).bytes("output", &self.output(needed)).surroundings(UNTOUCHED)
    }

    /// What is owed for bits of the right number: document 01's NOT A BIT and then OUTPUT SHORT, else orion-sdr's answer, whose None is NO WORD.
    fn owed<const N: usize>(&self, orion: impl FnOnce(&[u8]) -> Option<Written<N>>) -> Expected {
        let mut out = self.output(N);
        if self.bits.iter().any(|bit| *bit > 1) {
            return Expected::document(self.refused(N, NOT_A_BIT));
        }
        if out.len() < N {
            return Expected::document(self.refused(N, OUTPUT_SHORT));
        }
        let Some((written, mended)) = orion(&self.bits) else {
            return Expected::orion(self.refused(N, NO_WORD));
        };
        out[..N].copy_from_slice(&written);
        Expected::orion(Self::answer(answer(0, N, mended)).bytes("output", &out).surroundings(UNTOUCHED))
    }

    /// A room nearer to the exact one, fewer bits, or more zeros.
    fn smaller(&self) -> Box<dyn Iterator<Item = Coding> + '_> {
        let rooms = self.room.smaller().into_iter().map(|room| Coding { bits: self.bits.clone(), room });
        Box::new(rooms.chain(shrink::bytes(&self.bits).map(|bits| Coding { bits, room: self.room })))
    }

    /// The case in words.
    fn show(&self, needed: usize) -> String {
        format!("bits of length {}: {}; output of {} bytes lent", self.bits.len(), shown(&self.bits), self.room.size(needed))
    }
}

/// The memory of a call in bulk: the input and the output between bytes that the call may not write.
const BULK: [u8; 160] = [0xA5; 160];
/// Where the input begins in it.
const INPUT: usize = 8;
/// Where the output begins in it.
const OUTPUT: usize = 84;

/// Whether the port answers and writes what is owed (None for NO WORD), and all other memory is as it was.
fn same<const N: usize>(bits: &[u8], owed: Option<Written<N>>, call: Call) -> bool {
    let mut memory = BULK;
    memory[INPUT..INPUT + bits.len()].copy_from_slice(bits);
    let mut after = memory;
    let owed = match owed {
        Some((written, mended)) => {
            after[OUTPUT..OUTPUT + N].copy_from_slice(&written);
            answer(0, N, mended)
        }
        None => answer(NO_WORD, 0, Mended::NONE),
    };
    let (before, behind) = memory.split_at_mut(OUTPUT);
    let ours = call(&before[INPUT..INPUT + bits.len()], &mut behind[..N]);
    ours == owed && *std::hint::black_box(&mut memory) == after
}

/// Hands over bits with every kind of room.
fn in_every_room(random: &mut Random, bits: &[u8], needed: usize, compare: &mut dyn FnMut(Coding)) {
    let (longer, short) = (Room::Longer(random.between(2, 100)), Room::Short(random.between(1, needed)));
    for room in [Room::Exact, Room::Longer(1), longer, Room::Short(1), short, EMPTY] {
        compare(Coding { bits: bits.to_vec(), room });
    }
}

/// Hands over what a call that takes so many bits refuses, and some that it accepts, in every kind of room.
fn lengths_and_items(random: &mut Random, takes: usize, needed: usize, compare: &mut dyn FnMut(Coding)) {
    for length in (0..=takes + 8).chain([2 * takes, 200, takes + (1 << 8), takes + (1 << 16)]) {
        let bits: Vec<u8> = (0..length).map(|_| random.next() as u8 & 1).collect();
        in_every_room(random, &bits, needed, compare);
        let bytes = random.bytes(length);
        in_every_room(random, &bytes, needed, compare);
    }
    for (place, byte) in (0..takes).flat_map(|place| (2..=255).map(move |byte| (place, byte))) {
        let mut bits: Vec<u8> = (0..takes).map(|_| random.next() as u8 & 1).collect();
        bits[place] = byte;
        in_every_room(random, &bits, needed, compare);
    }
    for byte in 2..=255 {
        for bits in two_items(random, byte, takes) {
            in_every_room(random, &bits, needed, compare);
        }
    }
}

/// Zeros but for two items that cancel: alike, and with 256 as their sum.
pub fn two_items(random: &mut Random, byte: u8, length: usize) -> [Vec<u8>; 2] {
    let first = random.below(length);
    let second = (first + random.between(1, length - 1)) % length;
    [byte, byte.wrapping_neg()].map(|other| {
        let mut bits = vec![0; length];
        (bits[first], bits[second]) = (byte, other);
        bits
    })
}

/// The bits with those turned over that a number has ones for.
pub fn turned<const N: usize>(bits: [u8; N], places: u128) -> [u8; N] {
    std::array::from_fn(|place| bits[place] ^ (places >> place & 1) as u8)
}

/// No place, each one and each two of so many, as the ones of a number.
fn up_to_two(length: usize) -> impl Iterator<Item = u128> {
    let pairs = (0..length).flat_map(move |first| (first..length).map(move |second| 1 << first | 1 << second));
    std::iter::once(0).chain(pairs)
}

/// So many different places of a codeword, as the ones of a number.
pub fn some_places(random: &mut Random, count: usize) -> u128 {
    let mut places = 0u128;
    while (places.count_ones() as usize) < count {
        places |= 1 << random.below(CODEWORD);
    }
    places
}

/// Random information.
pub fn information(random: &mut Random) -> [u8; INFORMATION] {
    turned([0; INFORMATION], u128::from(random.next()))
}

/// The codeword of random information.
fn codeword(random: &mut Random) -> [u8; CODEWORD] {
    orion::tps_bch_encode(&information(random))
}

struct Encode;

impl Encode {
    /// The port's encoding.
    fn ours(info: &[u8], out: &mut [u8]) -> SaltDecoded {
        let counted = call::tps_bch_encode(info, out);
        answer(counted.number, counted.count, Mended::NONE)
    }

    /// orion-sdr's encoding.
    fn theirs(info: &[u8]) -> Option<Written<CODEWORD>> {
        Some((orion::tps_bch_encode(info), Mended::NONE))
    }

    /// Hands over the informations with at most two ones or at most two zeros, and random ones.
    fn each_information(random: &mut Random, mut see: impl FnMut([u8; INFORMATION])) {
        for places in up_to_two(INFORMATION) {
            see(turned([0; INFORMATION], places));
            see(turned([1; INFORMATION], places));
        }
        (0..random.part_of(WORDS)).for_each(|_| see(information(random)));
    }
}

impl Subject for Encode {
    type Case = Coding;

    /// All lengths to 61 and longer ones, every byte above 1 at every place, and informations in every kind of room.
    fn each_case(&self, random: &mut Random, compare: &mut dyn FnMut(Coding)) {
        lengths_and_items(random, INFORMATION, CODEWORD, compare);
        for info in [[0; INFORMATION], [1; INFORMATION]] {
            in_every_room(random, &info, CODEWORD, compare);
        }
        for _ in 0..1000 {
            let info = information(random);
            in_every_room(random, &info, CODEWORD, compare);
        }
    }

    fn in_bulk(&self, random: &mut Random, differs: &mut dyn FnMut(Coding)) -> usize {
        let mut compared = 0;
        Self::each_information(random, |info| {
            compared += 1;
            if !same(&info, Self::theirs(&info), Self::ours) {
                differs(Coding { bits: info.to_vec(), room: Room::Exact });
            }
        });
        compared
    }

    fn ours(&self, case: &Coding) -> Answer {
        case.ours(CODEWORD, Self::ours)
    }

    /// orion-sdr panics on any other length than 53 and passes items above 1 on; it isn't called for either.
    fn expected(&self, case: &Coding) -> Expected {
        if case.bits.len() != INFORMATION {
            return Expected::document(case.refused(CODEWORD, LENGTH));
        }
        case.owed(Self::theirs)
    }

    fn smaller<'a>(&'a self, case: &'a Coding) -> Box<dyn Iterator<Item = Coding> + 'a> {
        case.smaller()
    }

    fn show(&self, case: &Coding) -> String {
        case.show(CODEWORD)
    }
}

/// Words with the same remainder and fewer ones: a codeword added, the nearest, that of the information or one with a single information bit.
pub fn with_fewer_ones(word: &[u8]) -> Vec<Vec<u8>> {
    if word.len() != CODEWORD || word.iter().any(|bit| *bit > 1) {
        return vec![];
    }
    let ones = |bits: &[u8]| bits.iter().filter(|bit| **bit == 1).count();
    let single = (0..INFORMATION).map(|place| turned([0; INFORMATION], 1 << place));
    let informations = orion::tps_bch_decode(word).into_iter().chain(word[..INFORMATION].try_into()).chain(single);
    let added = informations.map(|info| orion::tps_bch_encode(&info).iter().zip(word).map(|(one, two)| one ^ two).collect());
    added.filter(|less: &Vec<u8>| ones(less) < ones(word)).collect()
}

/// A decoder of the port, and how many words it is tried with.
struct Decode {
    ours: Call,
    /// Each remainder is tried with so many informations.
    informations: usize,
    /// So many codewords have all the words near them decoded.
    codewords: usize,
    /// So many words have random wrong bits, from so many to so many.
    words: usize,
    wrong: [usize; 2],
}

impl Decode {
    const FAST: Self = Self { ours: call::tps_bch_decode, informations: 4, codewords: 1000, words: WORDS, wrong: [3, 6] };
    const SLOW: Self = Self { ours: call::tps_bch_decode_slow, informations: 1, codewords: 1, words: 20_000, wrong: [0, 4] };

    /// orion-sdr's decoding, and the bits that the search finds, which are those where the word and orion-sdr's codeword of that information differ.
    fn theirs(word: &[u8]) -> Option<Written<INFORMATION>> {
        let (info, mended) = (orion::tps_bch_decode(word), mended(word));
        let differing = info.map(|info| Mended::differing(&orion::tps_bch_encode(&info), word));
        assert_eq!(differing, mended, "the bits that orion-sdr mends, and the search, in {}", shown(word));
        info.zip(mended)
    }

    /// Hands over words with every remainder, all words near some codewords, and words with random wrong bits.
    fn each_word(&self, random: &mut Random, mut see: impl FnMut([u8; CODEWORD])) {
        for remainder in (0..self.informations).flat_map(|_| 0..1 << (CODEWORD - INFORMATION)) {
            see(turned(codeword(random), remainder << INFORMATION));
        }
        let extremes = [[0; INFORMATION], [1; INFORMATION]].map(|info| orion::tps_bch_encode(&info));
        let codewords: Vec<_> = (0..random.part_of(self.codewords)).map(|_| codeword(random)).collect();
        for word in extremes.into_iter().chain(codewords) {
            up_to_two(CODEWORD).for_each(|places| see(turned(word, places)));
        }
        for _ in 0..random.part_of(self.words) {
            let wrong = random.between(self.wrong[0], self.wrong[1]);
            see(turned(codeword(random), some_places(random, wrong)));
        }
    }
}

impl Subject for Decode {
    type Case = Coding;

    /// All lengths to 75 and longer ones, every byte above 1 at every place, and words with up to six wrong bits in every kind of room.
    fn each_case(&self, random: &mut Random, compare: &mut dyn FnMut(Coding)) {
        lengths_and_items(random, CODEWORD, INFORMATION, compare);
        for word in [[0; CODEWORD], [1; CODEWORD]] {
            in_every_room(random, &word, INFORMATION, compare);
        }
        for wrong in (0..300).flat_map(|_| 0..=6) {
            let word = turned(codeword(random), some_places(random, wrong));
            in_every_room(random, &word, INFORMATION, compare);
        }
    }

    fn in_bulk(&self, random: &mut Random, differs: &mut dyn FnMut(Coding)) -> usize {
        let mut compared = 0;
        self.each_word(random, |word| {
            compared += 1;
            if !same(&word, Self::theirs(&word), self.ours) {
                differs(Coding { bits: word.to_vec(), room: Room::Exact });
            }
        });
        compared
    }

    fn ours(&self, case: &Coding) -> Answer {
        case.ours(INFORMATION, self.ours)
    }

    /// orion-sdr's None is LENGTH where the length isn't 67, whatever the items are; it passes items above 1 on and isn't called for them.
    fn expected(&self, case: &Coding) -> Expected {
        if case.bits.len() != CODEWORD {
            assert!(orion::tps_bch_decode(&case.bits).is_none(), "orion-sdr decodes {} bits", case.bits.len());
            return Expected::orion(case.refused(INFORMATION, LENGTH));
        }
        case.owed(Self::theirs)
    }

    fn smaller<'a>(&'a self, case: &'a Coding) -> Box<dyn Iterator<Item = Coding> + 'a> {
        let words = with_fewer_ones(&case.bits).into_iter().map(|bits| Coding { bits, room: case.room });
        Box::new(words.chain(case.smaller()))
    }

    fn show(&self, case: &Coding) -> String {
        case.show(INFORMATION)
    }
}
