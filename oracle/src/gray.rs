//! Gray mapping, hard and soft demapping: dvb_t_map_symbol, dvb_t_demap_symbol and dvb_t_soft_llr of orion-sdr's dvb_t.rs.

use crate::answer::{Answer, float, shown};
use crate::harness::{Expected, Run, Subject};
use crate::lent::{EMPTY, Lent, Room, UNTOUCHED, background, surroundings};
use crate::points::{Points, SIZES, groups, pattern};
use crate::random::Random;
use crate::refusals::{LENGTH, NOT_A_BIT, OUTPUT_SHORT};
use crate::sys::{SaltCell, SaltSoft};
use crate::{call, shrink};
use num_complex::Complex32;
use orion_sdr::waveform::dvb_t as orion;

/// So many random points of each group size are compared in bulk.
const POINTS: usize = 2_000_000;

/// Compares all functions of this module, demapping by group sizes.
pub fn compare(run: &mut Run) {
    run.compare("dvb_t_map_symbol", Map);
    run.compare("dvb_t_demap_symbol, 2 bits", Demap { size: Some(2) });
    run.compare("dvb_t_demap_symbol, 4 bits", Demap { size: Some(4) });
    run.compare("dvb_t_demap_symbol, 6 bits", Demap { size: Some(6) });
    run.compare("dvb_t_demap_symbol, other sizes", Demap { size: None });
    run.compare("dvb_t_soft_llr, 2 bits", Soft { size: Some(2) });
    run.compare("dvb_t_soft_llr, 4 bits", Soft { size: Some(4) });
    run.compare("dvb_t_soft_llr, 6 bits", Soft { size: Some(6) });
    run.compare("dvb_t_soft_llr, other sizes", Soft { size: None });
}

struct Map;

impl Map {
    /// An answer with its number and point.
    fn answer(number: u8, re: f32, im: f32) -> Answer {
        Answer::default().number("number", u64::from(number)).floats("point", &[re, im])
    }
}

impl Subject for Map {
    type Case = Vec<u8>;

    /// All groups, all pairs of bytes, each byte above 1 at each place, all lengths to 9 with and without such bytes, and long ones.
    fn each_case(&self, random: &mut Random, compare: &mut dyn FnMut(Vec<u8>)) {
        SIZES.into_iter().flat_map(groups).for_each(&mut *compare);
        (0..=u16::MAX).for_each(|pair| compare(pair.to_be_bytes().to_vec()));
        for length in 0..=9 {
            for (place, byte) in (0..length).flat_map(|place| (2..=255).map(move |byte| (place, byte))) {
                let mut bits = some_bits(random, length);
                bits[place] = byte;
                compare(bits);
            }
            (0..200).for_each(|_| compare(some_bits(random, length)));
            (0..200).for_each(|_| compare(random.bytes(length)));
        }
        for length in [8, 1 << 8, 1 << 16, 1 << 20].into_iter().flat_map(|length| [length, length + 2, length + 4, length + 6]) {
            compare(some_bits(random, length));
            compare(random.bytes(length));
        }
    }

    fn ours(&self, case: &Vec<u8>) -> Answer {
        let mut bits = Lent::to_read("bits", case);
        let mapped = call::dvb_t_map_symbol(bits.slice());
        Self::answer(mapped.number, mapped.point.re, mapped.point.im).surroundings(&surroundings(&mut [&mut bits]))
    }

    /// orion-sdr's None is LENGTH, whatever the bits are; a bit above 1 in a group is refused by document 01.
    fn expected(&self, case: &Vec<u8>) -> Expected {
        let refused = |number| Self::answer(number, 0.0, 0.0).surroundings(UNTOUCHED);
        match orion::dvb_t_map_symbol(case) {
            None => Expected::orion(refused(LENGTH)),
            Some(_) if case.iter().any(|bit| *bit > 1) => Expected::document(refused(NOT_A_BIT)),
            Some(point) => Expected::orion(Self::answer(0, point.re, point.im).surroundings(UNTOUCHED)),
        }
    }

    fn smaller<'a>(&'a self, case: &'a Vec<u8>) -> Box<dyn Iterator<Item = Vec<u8>> + 'a> {
        Box::new(shrink::bytes(case))
    }

    fn show(&self, case: &Vec<u8>) -> String {
        format!("group of length {}: {}", case.len(), shown(case))
    }
}

/// So many random bits, a byte each.
fn some_bits(random: &mut Random, length: usize) -> Vec<u8> {
    (0..length).map(|_| random.next() as u8 & 1).collect()
}

/// A received point and a group size.
#[derive(Clone, Copy)]
struct Received {
    re: f32,
    im: f32,
    size: usize,
}

impl Received {
    /// The point as the port takes it.
    fn ours(self) -> SaltCell {
        SaltCell { re: self.re, im: self.im }
    }

    /// The point as orion-sdr takes it.
    fn theirs(self) -> Complex32 {
        Complex32::new(self.re, self.im)
    }

    /// Plainer coordinates, and a smaller group size where it is none that a group has.
    fn smaller(self) -> impl Iterator<Item = Received> {
        let sizes = shrink::numbers(self.size).filter(move |less| !SIZES.contains(&self.size) && !SIZES.contains(less));
        let sizes = sizes.map(move |size| Received { size, ..self });
        let res = shrink::floats(self.re).map(move |re| Received { re, ..self });
        sizes.chain(res).chain(shrink::floats(self.im).map(move |im| Received { im, ..self }))
    }

    /// The point in words.
    fn show(self) -> String {
        format!("group size {}; re {}; im {}", self.size, float(self.re.to_bits()), float(self.im.to_bits()))
    }
}

/// Group sizes that are none: all the others to 9, those that a narrower number would take for one, and the widest.
fn other_sizes(random: &mut Random) -> Vec<usize> {
    let cut = [8, 16, 32, 63].into_iter().flat_map(|power| SIZES.map(|size| (1usize << power) + size));
    let wide = [10, 12, 16, 64, usize::MAX, usize::MAX - 1, usize::MAX - 3, usize::MAX - 5, usize::MAX / 2 + 1, random.next() as usize];
    (0..=9).chain(cut).chain(wide).filter(|size| !SIZES.contains(size)).collect()
}

/// Hands over a few points of a group size, or of every size that is none.
fn few_points(random: &mut Random, size: Option<usize>, count: usize, mut compare: impl FnMut(&mut Random, Received)) {
    let points = Points::new(size.unwrap_or(6));
    for size in size.map_or_else(|| other_sizes(random), |size| vec![size]) {
        for _ in 0..count {
            let (re, im) = (points.coordinate(random), points.coordinate(random));
            compare(random, Received { re, im, size });
        }
    }
}

/// Hands over all the points of a group size whose answers are not the same; gives how many points there were.
fn in_bulk(random: &mut Random, size: Option<usize>, same: impl Fn(Received) -> bool, mut differs: impl FnMut(Received)) -> usize {
    let Some(size) = size else { return 0 };
    Points::new(size).each(random, random.part_of(POINTS), |re, im| {
        let received = Received { re, im, size };
        if !same(received) {
            differs(received);
        }
    })
}

/// Hard demapping at one group size, or at the sizes that are none.
struct Demap {
    size: Option<usize>,
}

/// A received point and the size of a lent output.
struct Demapping {
    received: Received,
    room: Room,
}

impl Demapping {
    /// How an output of this case stands before the call; at a size that is none, some bytes are lent.
    fn output(&self) -> Vec<u8> {
        background(self.room.size(self.received.size.min(9)))
    }
}

/// The memory of a call in bulk: the output between bytes that it may not write.
const BULK: [u8; 24] = [0xA5; 24];
/// Where the output begins in it.
const START: usize = 8;

impl Demap {
    /// Whether both sides give the same bits, and all other memory is as it was.
    fn same(received: Received) -> bool {
        let size = received.size;
        let (mut memory, mut owed) = (BULK, BULK);
        let answer = call::dvb_t_demap_symbol(received.ours(), size, &mut memory[START..START + size]);
        owed[START..START + size].copy_from_slice(&orion::dvb_t_demap_symbol(received.theirs(), size).expect("a group's size"));
        answer.number == 0 && answer.count == size && *std::hint::black_box(&mut memory) == owed
    }
}

impl Subject for Demap {
    type Case = Demapping;

    /// Points in every kind of room.
    fn each_case(&self, random: &mut Random, compare: &mut dyn FnMut(Demapping)) {
        few_points(random, self.size, 1000, |random, received| {
            let (longer, short) = (Room::Longer(random.between(2, 100)), Room::Short(random.between(1, 6)));
            for room in [Room::Exact, Room::Longer(1), longer, Room::Short(1), short, EMPTY] {
                compare(Demapping { received, room });
            }
        });
    }

    fn in_bulk(&self, random: &mut Random, differs: &mut dyn FnMut(Demapping)) -> usize {
        in_bulk(random, self.size, Self::same, |received| differs(Demapping { received, room: Room::Exact }))
    }

    fn ours(&self, case: &Demapping) -> Answer {
        let mut out = Lent::to_write("output", &case.output());
        let answer = call::dvb_t_demap_symbol(case.received.ours(), case.received.size, out.slice_mut());
        let found = surroundings(&mut [&mut out]);
        Answer::counted(answer.number, answer.count).bytes("output", out.slice()).surroundings(&found)
    }

    /// orion-sdr's None is LENGTH, whatever output is lent.
    fn expected(&self, case: &Demapping) -> Expected {
        let mut out = case.output();
        let answer = |number, count, out: &[u8]| Answer::counted(number, count).bytes("output", out).surroundings(UNTOUCHED);
        let Some(bits) = orion::dvb_t_demap_symbol(case.received.theirs(), case.received.size) else {
            return Expected::orion(answer(LENGTH, 0, &out));
        };
        if out.len() < bits.len() {
            return Expected::document(answer(OUTPUT_SHORT, 0, &out));
        }
        out[..bits.len()].copy_from_slice(&bits);
        Expected::orion(answer(0, bits.len(), &out))
    }

    fn smaller<'a>(&'a self, case: &'a Demapping) -> Box<dyn Iterator<Item = Demapping> + 'a> {
        let rooms = case.room.smaller().into_iter().map(|room| Demapping { received: case.received, room });
        Box::new(rooms.chain(case.received.smaller().map(|received| Demapping { received, room: case.room })))
    }

    fn show(&self, case: &Demapping) -> String {
        format!("{}; output of {} bytes lent", case.received.show(), case.output().len())
    }
}

/// Soft demapping at one group size, or at the sizes that are none.
struct Soft {
    size: Option<usize>,
}

impl Soft {
    /// What is owed: orion-sdr's values with +0.0 behind them; its None is LENGTH.
    fn owed(received: Received) -> SaltSoft {
        let Some(found) = orion::dvb_t_soft_llr(received.theirs(), received.size) else {
            return SaltSoft { number: LENGTH, count: 0, values: [0.0; 6] };
        };
        let mut values = [0.0; 6];
        values[..found.len()].copy_from_slice(&found);
        SaltSoft { number: 0, count: found.len(), values }
    }

    /// Whether both sides give the same values, by bits and any NaN as any other.
    fn same(received: Received) -> bool {
        let (ours, owed) = (call::dvb_t_soft_llr(received.ours(), received.size), Self::owed(received));
        ours.number == owed.number && ours.count == owed.count && ours.values.map(pattern) == owed.values.map(pattern)
    }

    /// A soft answer as it is compared.
    fn answer(soft: SaltSoft) -> Answer {
        Answer::counted(soft.number, soft.count).floats("values", &soft.values)
    }
}

impl Subject for Soft {
    type Case = Received;

    fn each_case(&self, random: &mut Random, compare: &mut dyn FnMut(Received)) {
        few_points(random, self.size, 1000, |_, received| compare(received));
    }

    fn in_bulk(&self, random: &mut Random, differs: &mut dyn FnMut(Received)) -> usize {
        in_bulk(random, self.size, Self::same, differs)
    }

    fn ours(&self, case: &Received) -> Answer {
        Self::answer(call::dvb_t_soft_llr(case.ours(), case.size))
    }

    fn expected(&self, case: &Received) -> Expected {
        Expected::orion(Self::answer(Self::owed(*case)))
    }

    fn smaller<'a>(&'a self, case: &'a Received) -> Box<dyn Iterator<Item = Received> + 'a> {
        Box::new(case.smaller())
    }

    fn show(&self, case: &Received) -> String {
        case.show()
    }
}
