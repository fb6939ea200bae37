//! The TPS word: pack and unpack of orion-sdr's TpsWord in dvb_t_tps.rs; the bits that are mended are those of mended.rs.

use crate::answer::{Answer, shown};
use crate::codes::{information, some_places, turned, two_items, with_fewer_ones, with_mended};
use crate::fields::{orion_fields, orion_word};
use crate::harness::{Expected, Run, Subject};
use crate::lent::{EMPTY, Lent, Room, UNTOUCHED, background, surroundings};
use crate::mended::{Mended, mended};
use crate::packed::packed;
use crate::random::Random;
use crate::refusals::{LENGTH, NO_WORD, NOT_A_BIT, OUTPUT_SHORT, RESERVED};
use crate::sys::{SaltTpsWord, SaltUnpacked};
use crate::{call, shrink};
use orion_sdr::waveform::dvb_t_tps::{self as orion, TpsWord};

/// Bits of a word.
pub const WORD: usize = 68;
/// Bits of the information, behind s0.
const INFORMATION: usize = 53;
/// So many received words are unpacked.
const WORDS: usize = 1_000_000;

/// Compares both functions of this module.
pub fn compare(run: &mut Run) {
    run.compare("TpsWord::pack", Pack);
    run.compare("TpsWord::unpack", Unpack);
}

/// The port's word with these fields.
pub fn our_word([frame_number, constellation, code_rate_hp, guard, cell_id]: [u8; 5]) -> SaltTpsWord {
    SaltTpsWord { frame_number, constellation, code_rate_hp, guard, cell_id }
}

/// The port's answer with a number, the word with these fields, and the bits that were mended.
pub fn unpacked(number: u8, fields: [u8; 5], Mended { count: mended, first, second }: Mended) -> SaltUnpacked {
    SaltUnpacked { number, word: our_word(fields), mended, first, second }
}

/// What is owed for a refusal: the number, zeros, and no bit mended.
pub fn refused(number: u8) -> SaltUnpacked {
    unpacked(number, [0; 5], Mended::NONE)
}

/// What is owed for 68 bits of which orion-sdr read this word: where it read none, NO WORD if its decoder finds none, else RESERVED.
pub fn owed(read: Option<TpsWord>, bits: &[u8]) -> SaltUnpacked {
    let number = match (read, orion::tps_bch_decode(&bits[1..])) {
        (Some(word), _) => return unpacked(0, orion_fields(word), mended(&bits[1..]).expect("a codeword near bits that orion-sdr reads")),
        (None, None) => NO_WORD,
        (None, Some(info)) => {
            assert!(has_reserved_code(&info), "orion-sdr reads no word from codes that aren't reserved: {}", shown(&info));
            RESERVED
        }
    };
    refused(number)
}

/// Whether information has constellation code 3 (s25, s26) or rate code 5, 6 or 7 (s30 to s32).
fn has_reserved_code(info: &[u8; INFORMATION]) -> bool {
    info[24..26] == [1, 1] || info[29] == 1 && info[30..32] != [0, 0]
}

/// Random fields of a word.
fn some_fields(random: &mut Random) -> [u8; 5] {
    let [frame, cell] = [random.next() as u8, random.next() as u8];
    [frame, random.below(3) as u8, random.below(5) as u8, random.below(4) as u8, cell]
}

/// The bits of a word as it is sent: packed most often, as here or as orion-sdr does; else random information, or packed with a reserved code.
pub fn some_sent(random: &mut Random) -> [u8; WORD] {
    let word = orion_word(some_fields(random)).expect("codes of the enums");
    let mut bits = if random.below(2) == 0 { packed(word) } else { word.pack() };
    match random.below(4) {
        0 => bits[1..=INFORMATION].copy_from_slice(&information(random)),
        1 => bits[25..27].fill(1),
        2 => {
            bits[30] = 1;
            bits[31 + random.below(2)] = 1;
        }
        _ => return bits,
    }
    let sent = orion::tps_bch_encode(&bits[1..=INFORMATION]);
    bits[1..].copy_from_slice(&sent);
    bits
}

/// The bits of a word as it is received: random ones, or those of a sent word with none to six wrong; s0 is either.
pub fn some_received(random: &mut Random) -> [u8; WORD] {
    let s0 = random.next() & 1;
    if random.below(8) == 0 {
        return turned([0; WORD], u128::from(random.next()) << 4 | u128::from(random.next() & 15));
    }
    let wrong = random.below(7);
    turned(some_sent(random), some_places(random, wrong) << 1 | u128::from(s0))
}

/// The fields of a word to pack, and the size of the lent output.
struct Packing {
    fields: [u8; 5],
    room: Room,
}

impl Packing {
    /// How the output stands before the call.
    fn output(&self) -> Vec<u8> {
        background(self.room.size(WORD))
    }

    /// What is owed for a refusal: the number, and the output as it was.
    fn refused(&self, number: u8) -> Expected {
        Expected::document(Answer::counted(number, 0).bytes("output", &self.output()).surroundings(UNTOUCHED))
    }
}

struct Pack;

/// The memory of a call in bulk: the output between bytes that the call may not write.
const BULK: [u8; 100] = [0xA5; 100];
/// Where the output stands in it.
const OUTPUT: std::ops::Range<usize> = 16..16 + WORD;

impl Pack {
    /// Hands over the word with every kind of room.
    fn in_every_room(random: &mut Random, fields: [u8; 5], compare: &mut dyn FnMut(Packing)) {
        let (longer, short) = (Room::Longer(random.between(2, 100)), Room::Short(random.between(2, WORD)));
        for room in [Room::Exact, Room::Longer(1), longer, Room::Short(1), short, EMPTY] {
            compare(Packing { fields, room });
        }
    }

    /// Whether the port writes the bits that are owed, and all other memory is as it was.
    fn same(fields: [u8; 5], owed: [u8; WORD]) -> bool {
        let (mut memory, mut after) = (BULK, BULK);
        after[OUTPUT].copy_from_slice(&owed);
        let answer = call::tps_word_pack(our_word(fields), &mut memory[OUTPUT]);
        answer.number == 0 && answer.count == WORD && *std::hint::black_box(&mut memory) == after
    }
}

impl Subject for Pack {
    type Case = Packing;

    /// Words in every kind of room: random ones, and such with every code of each field, in the enum or outside.
    fn each_case(&self, random: &mut Random, compare: &mut dyn FnMut(Packing)) {
        for (field, code) in (0..5).flat_map(|field| (0..=u8::MAX).map(move |code| (field, code))) {
            for mut fields in [[0; 5], some_fields(random), std::array::from_fn(|_| random.next() as u8)] {
                fields[field] = code;
                Self::in_every_room(random, fields, compare);
            }
        }
        for _ in 0..1000 {
            let fields = some_fields(random);
            Self::in_every_room(random, fields, compare);
        }
    }

    /// All words: every frame number, constellation, rate, guard interval and cell id.
    fn in_bulk(&self, _: &mut Random, differs: &mut dyn FnMut(Packing)) -> usize {
        let mut compared = 0;
        for [points, rate, guard] in (0..3).flat_map(|points| (0..5).flat_map(move |rate| (0..4).map(move |guard| [points, rate, guard]))) {
            for (frame, cell) in (0..=u8::MAX).flat_map(|frame| (0..=u8::MAX).map(move |cell| (frame, cell))) {
                let fields = [frame, points, rate, guard, cell];
                compared += 1;
                if !Self::same(fields, packed(orion_word(fields).expect("codes of the enums"))) {
                    differs(Packing { fields, room: Room::Exact });
                }
            }
        }
        compared
    }

    fn ours(&self, case: &Packing) -> Answer {
        let mut out = Lent::to_write("output", &case.output());
        let answer = call::tps_word_pack(our_word(case.fields), out.slice_mut());
        let found = surroundings(&mut [&mut out]);
        Answer::counted(answer.number, answer.count).bytes("output", out.slice()).surroundings(&found)
    }

    /// A code outside its enum can't be given to orion-sdr; RESERVED is owed, behind OUTPUT SHORT.
    fn expected(&self, case: &Packing) -> Expected {
        let mut out = case.output();
        if out.len() < WORD {
            return case.refused(OUTPUT_SHORT);
        }
        let Some(word) = orion_word(case.fields) else {
            return case.refused(RESERVED);
        };
        out[..WORD].copy_from_slice(&packed(word));
        Expected::orion(Answer::counted(0, WORD).bytes("output", &out).surroundings(UNTOUCHED))
    }

    fn smaller<'a>(&'a self, case: &'a Packing) -> Box<dyn Iterator<Item = Packing> + 'a> {
        let rooms = case.room.smaller().into_iter().map(|room| Packing { fields: case.fields, room });
        let fields = (0..5).flat_map(move |field| shrink::numbers(usize::from(case.fields[field])).map(move |less| (field, less)));
        let words = fields.map(|(field, less)| {
            let mut fields = case.fields;
            fields[field] = less as u8;
            Packing { fields, room: case.room }
        });
        Box::new(rooms.chain(words))
    }

    fn show(&self, case: &Packing) -> String {
        let [frame, constellation, rate, guard, cell] = case.fields;
        let lent = case.room.size(WORD);
        format!("frame number {frame}, constellation code {constellation}, rate code {rate}, guard code {guard}, cell id {cell}; output of {lent} bytes lent")
    }
}

struct Unpack;

impl Unpack {
    /// A number, a word and the bits that were mended, as they are compared.
    fn answer(unpacked: SaltUnpacked) -> Answer {
        with_word(Answer::default(), "", unpacked)
    }
}

/// An answer with a number, a word and the bits that were mended more.
pub fn with_word(answer: Answer, name: &str, unpacked: SaltUnpacked) -> Answer {
    let SaltUnpacked { number, word, mended, first, second } = unpacked;
    let SaltTpsWord { frame_number, constellation, code_rate_hp, guard, cell_id } = word;
    let answer = answer.number(&format!("{name}word's number"), u64::from(number));
    let answer = answer.bytes(&format!("{name}word (frame number, codes, cell id)"), &[frame_number, constellation, code_rate_hp, guard, cell_id]);
    with_mended(answer, name, Mended { count: mended, first, second })
}

impl Subject for Unpack {
    type Case = Vec<u8>;

    /// All lengths to 76 and longer ones, every byte above 1 at every place, two such that cancel, and received words.
    fn each_case(&self, random: &mut Random, compare: &mut dyn FnMut(Vec<u8>)) {
        for length in (0..=WORD + 8).chain([2 * WORD, 200, WORD + (1 << 8), WORD + (1 << 16)]) {
            compare((0..length).map(|_| random.next() as u8 & 1).collect());
            compare(random.bytes(length));
        }
        for (place, byte) in (0..WORD).flat_map(|place| (2..=u8::MAX).map(move |byte| (place, byte))) {
            let mut bits = some_received(random);
            bits[place] = byte;
            compare(bits.to_vec());
        }
        for byte in 2..=u8::MAX {
            two_items(random, byte, WORD).into_iter().for_each(&mut *compare);
        }
        (0..10_000).for_each(|_| compare(some_received(random).to_vec()));
    }

    fn in_bulk(&self, random: &mut Random, differs: &mut dyn FnMut(Vec<u8>)) -> usize {
        let count = random.part_of(WORDS);
        for _ in 0..count {
            let bits = some_received(random);
            if call::tps_word_unpack(&bits) != owed(TpsWord::unpack(&bits), &bits) {
                differs(bits.to_vec());
            }
        }
        count
    }

    fn ours(&self, case: &Vec<u8>) -> Answer {
        let mut bits = Lent::to_read("bits", case);
        let unpacked = call::tps_word_unpack(bits.slice());
        let found = surroundings(&mut [&mut bits]);
        Self::answer(unpacked).surroundings(&found)
    }

    /// orion-sdr's None is LENGTH where the length isn't 68, whatever the items are; it passes items above 1 on and isn't called for them.
    fn expected(&self, case: &Vec<u8>) -> Expected {
        let refused = |number| Self::answer(refused(number)).surroundings(UNTOUCHED);
        if case.len() != WORD {
            assert!(TpsWord::unpack(case).is_none(), "orion-sdr unpacks {} bits", case.len());
            return Expected::orion(refused(LENGTH));
        }
        if case.iter().any(|bit| *bit > 1) {
            return Expected::document(refused(NOT_A_BIT));
        }
        Expected::orion(Self::answer(owed(TpsWord::unpack(case), case)).surroundings(UNTOUCHED))
    }

    fn smaller<'a>(&'a self, case: &'a Vec<u8>) -> Box<dyn Iterator<Item = Vec<u8>> + 'a> {
        let code = case.get(1..).unwrap_or_default();
        let words = with_fewer_ones(code).into_iter().map(|less| [&case[..1], &less].concat());
        Box::new(words.chain(shrink::bytes(case)))
    }

    fn show(&self, case: &Vec<u8>) -> String {
        format!("{} bits: {}", case.len(), shown(case))
    }
}
