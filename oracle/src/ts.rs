//! Transport packets and energy dispersal over them: orion-sdr's dvb_t_ts.rs.

use crate::answer::{Answer, shown};
use crate::harness::{Expected, Run, Subject};
use crate::lent::{EMPTY, Lent, Room, UNTOUCHED, background, surroundings};
use crate::random::Random;
use crate::refusals::{LENGTH, OUTPUT_SHORT};
use crate::sys::SaltCounted;
use crate::{call, shrink};
use orion_sdr::waveform::dvb_t_ts as orion;

/// Bytes of a packet.
const PACKET: usize = 188;
/// Bytes of a packet's payload.
const PAYLOAD: usize = 187;

/// Compares all functions of this module.
pub fn compare(run: &mut Run) {
    run.compare("ts_packetize_dispersed", PacketizeDispersed);
    run.compare("ts_depacketize", Depacketize);
    run.compare("ts_null_packet", NullPacket);
    run.compare("ts_stuff_null_packets", StuffNullPackets);
    run.compare("ts_energy_disperse", EnergyDisperse);
}

/// Input bytes and the size of a lent output.
struct Through {
    input: Vec<u8>,
    room: Room,
}

impl Through {
    /// The port's answer to a call that reads the input and writes an output of so many bytes.
    fn ours(&self, needed: usize, call: fn(&[u8], &mut [u8]) -> SaltCounted) -> Answer {
        let mut input = Lent::to_read("input", &self.input);
        let mut out = Lent::to_write("output", &background(self.room.size(needed)));
        let answer = call(input.slice(), out.slice_mut());
        let found = surroundings(&mut [&mut input, &mut out]);
        Answer::counted(answer.number, answer.count).bytes("output", out.slice()).surroundings(&found)
    }

    /// What is owed where the output's beginning is known: it, or OUTPUT SHORT where it doesn't fit.
    fn owed(&self, written: &[u8]) -> Expected {
        let mut out = background(self.room.size(written.len()));
        if out.len() < written.len() {
            return Expected::document(refused(OUTPUT_SHORT, "output", &out));
        }
        out[..written.len()].copy_from_slice(written);
        Expected::orion(Answer::counted(0, written.len()).bytes("output", &out).surroundings(UNTOUCHED))
    }

    /// Less input, plainer input, or a room nearer to the exact one.
    fn smaller(&self) -> Box<dyn Iterator<Item = Through> + '_> {
        let inputs = shrink::bytes(&self.input).map(|input| Through { input, room: self.room });
        let rooms = self.room.smaller().into_iter().map(|room| Through { input: self.input.clone(), room });
        Box::new(rooms.chain(inputs))
    }

    /// The case in words.
    fn show(&self, needed: usize) -> String {
        format!("input of {} bytes: {}; output of {} bytes lent", self.input.len(), shown(&self.input), self.room.size(needed))
    }
}

/// A refusal that left a slice as it was.
fn refused(number: u8, name: &str, slice: &[u8]) -> Answer {
    Answer::counted(number, 0).bytes(name, slice).surroundings(UNTOUCHED)
}

/// Hands over an input with every kind of room.
fn in_every_room(random: &mut Random, input: &[u8], needed: usize, compare: &mut dyn FnMut(Through)) {
    let longer = Room::Longer(random.between(2, 400));
    let short = Room::Short(random.between(1, needed.max(1)));
    for room in [Room::Exact, Room::Longer(1), longer, Room::Short(1), short, EMPTY] {
        compare(Through { input: input.to_vec(), room });
    }
}

struct PacketizeDispersed;

impl PacketizeDispersed {
    /// The bytes that a payload's packets have.
    fn needed(payload: usize) -> usize {
        payload.div_ceil(PAYLOAD).max(1) * PACKET
    }
}

impl Subject for PacketizeDispersed {
    type Case = Through;

    /// All lengths to 1,700, which are nine packets and more, and random ones to 200,000 with their neighbours at a packet's end.
    fn each_case(&self, random: &mut Random, compare: &mut dyn FnMut(Through)) {
        let mut lengths: Vec<usize> = (0..=1700).collect();
        for _ in 0..12 {
            let length = random.below(200_001);
            let whole = length / PAYLOAD * PAYLOAD;
            lengths.extend([length, whole, whole + 1, (whole + 186).min(200_000)]);
        }
        for length in lengths {
            let payload = random.bytes(length);
            in_every_room(random, &payload, Self::needed(length), compare);
        }
    }

    fn ours(&self, case: &Through) -> Answer {
        case.ours(Self::needed(case.input.len()), call::ts_packetize_dispersed)
    }

    /// orion-sdr's two calls in turn.
    fn expected(&self, case: &Through) -> Expected {
        let mut packets = orion::ts_packetize(&case.input);
        orion::ts_energy_disperse(&mut packets);
        case.owed(&packets)
    }

    fn smaller<'a>(&'a self, case: &'a Through) -> Box<dyn Iterator<Item = Through> + 'a> {
        case.smaller()
    }

    fn show(&self, case: &Through) -> String {
        case.show(Self::needed(case.input.len()))
    }
}

struct Depacketize;

impl Depacketize {
    /// The payload bytes of the whole packets in so many bytes.
    fn needed(packets: usize) -> usize {
        packets / PACKET * PAYLOAD
    }
}

impl Subject for Depacketize {
    type Case = Through;

    /// Whole packets with any first byte, packets as packetizing makes them, and lengths around whole ones.
    fn each_case(&self, random: &mut Random, compare: &mut dyn FnMut(Through)) {
        let mut lengths: Vec<usize> = (0..=400).chain((3..=40).flat_map(|n| [n * PACKET - 1, n * PACKET, n * PACKET + 1])).collect();
        for _ in 0..30 {
            let packets = random.between(41, 1000);
            lengths.extend([packets * PACKET, packets * PACKET + random.between(1, 187)]);
        }
        for length in lengths {
            let packets = random.bytes(length);
            in_every_room(random, &packets, Self::needed(length), compare);
        }
        for _ in 0..20 {
            let length = random.below(4000);
            let packets = orion::ts_packetize(&random.bytes(length));
            in_every_room(random, &packets, Self::needed(packets.len()), compare);
        }
    }

    fn ours(&self, case: &Through) -> Answer {
        case.ours(Self::needed(case.input.len()), call::ts_depacketize)
    }

    /// orion-sdr's None is LENGTH, whatever output is lent.
    fn expected(&self, case: &Through) -> Expected {
        match orion::ts_depacketize(&case.input) {
            Some(payload) => case.owed(&payload),
            None => Expected::orion(refused(LENGTH, "output", &background(case.room.size(Self::needed(case.input.len()))))),
        }
    }

    fn smaller<'a>(&'a self, case: &'a Through) -> Box<dyn Iterator<Item = Through> + 'a> {
        case.smaller()
    }

    fn show(&self, case: &Through) -> String {
        case.show(Self::needed(case.input.len()))
    }
}

struct NullPacket;

impl Subject for NullPacket {
    type Case = ();

    /// The one case there is.
    fn each_case(&self, _: &mut Random, compare: &mut dyn FnMut(())) {
        compare(());
    }

    fn ours(&self, _: &()) -> Answer {
        Answer::default().bytes("packet", &call::ts_null_packet().bytes)
    }

    fn expected(&self, _: &()) -> Expected {
        Expected::orion(Answer::default().bytes("packet", &orion::ts_null_packet()))
    }

    fn smaller<'a>(&'a self, _: &'a ()) -> Box<dyn Iterator<Item = ()> + 'a> {
        Box::new(std::iter::empty())
    }

    fn show(&self, _: &()) -> String {
        "none".to_string()
    }
}

struct StuffNullPackets;

/// A buffer, the bytes in use and the target in packets.
struct Stuffing {
    buffer: Vec<u8>,
    used: usize,
    target: usize,
}

impl Stuffing {
    /// The case with a packet less in use and a target less by one.
    fn without_first_packet(&self) -> Option<Stuffing> {
        let fits = self.used >= PACKET && self.buffer.len() >= PACKET && self.target > 0;
        fits.then(|| Stuffing { buffer: self.buffer[PACKET..].to_vec(), used: self.used - PACKET, target: self.target - 1 })
    }

    /// The case with a target less by one and a buffer shorter by a packet.
    fn with_nearer_target(&self) -> Option<Stuffing> {
        let fits = self.buffer.len() >= PACKET && self.target > 0;
        fits.then(|| Stuffing { buffer: self.buffer[..self.buffer.len() - PACKET].to_vec(), used: self.used, target: self.target - 1 })
    }
}

impl StuffNullPackets {
    /// Targets around what is there and around what fits, and those whose bytes no usize holds.
    fn targets(random: &mut Random, have: usize, fits: usize) -> Vec<usize> {
        let wide = [usize::MAX, usize::MAX - 1, usize::MAX / PACKET, usize::MAX / PACKET + 1, usize::MAX / PACKET + 2, 1 << 63, 1 << 62, 1 << 32];
        let near = [0, 1, have.saturating_sub(1), have, have + 1, fits.saturating_sub(1), fits, fits + 1, random.between(0, fits + 3)];
        near.into_iter().chain(wide).chain([random.next() as usize]).collect()
    }

    /// Bytes in use around whole packets, around the buffer's end, and far beyond it.
    fn uses(random: &mut Random, have: usize, length: usize) -> Vec<usize> {
        let near = [have * PACKET, have * PACKET + 1, (have * PACKET).saturating_sub(1), length, length + 1, random.between(0, length)];
        let beyond = [(length / PACKET + 1) * PACKET, usize::MAX, usize::MAX / PACKET * PACKET, 1 << 63];
        near.into_iter().chain(beyond).collect()
    }
}

impl Subject for StuffNullPackets {
    type Case = Stuffing;

    /// Buffers of 0 to 12 packets and random ones to 300 with all uses and targets of interest, and random ones that are accepted.
    fn each_case(&self, random: &mut Random, compare: &mut dyn FnMut(Stuffing)) {
        let mut lengths: Vec<usize> = (0..=12).flat_map(|n| [n * PACKET, n * PACKET + 1, n * PACKET + 187]).collect();
        for _ in 0..10 {
            lengths.push(random.below(300 * PACKET));
        }
        for _ in 0..300 {
            let (have, target, surplus) = (random.below(20), random.below(30), random.below(400));
            compare(Stuffing { buffer: random.bytes(have.max(target) * PACKET + surplus), used: have * PACKET, target });
        }
        for length in lengths {
            let buffer = random.bytes(length);
            for have in [0, length / PACKET / 2, length / PACKET] {
                for used in Self::uses(random, have, length) {
                    for target in Self::targets(random, have, length / PACKET) {
                        compare(Stuffing { buffer: buffer.clone(), used, target });
                    }
                }
            }
        }
    }

    fn ours(&self, case: &Stuffing) -> Answer {
        let mut buffer = Lent::to_write("buffer", &case.buffer);
        let answer = call::ts_stuff_null_packets(buffer.slice_mut(), case.used, case.target);
        let found = surroundings(&mut [&mut buffer]);
        Answer::counted(answer.number, answer.count).bytes("buffer", buffer.slice()).surroundings(&found)
    }

    /// orion-sdr is asked where the bytes in use are whole packets within the buffer and the target fits.
    fn expected(&self, case: &Stuffing) -> Expected {
        if case.used % PACKET != 0 || case.used > case.buffer.len() {
            return Expected::document(refused(LENGTH, "buffer", &case.buffer));
        }
        if case.target > case.used / PACKET && case.target as u128 * PACKET as u128 > case.buffer.len() as u128 {
            return Expected::document(refused(OUTPUT_SHORT, "buffer", &case.buffer));
        }
        let mut stream = case.buffer[..case.used].to_vec();
        orion::ts_stuff_null_packets(&mut stream, case.target);
        let in_use = stream.len();
        stream.extend_from_slice(&case.buffer[in_use..]);
        Expected::orion(Answer::counted(0, in_use).bytes("buffer", &stream).surroundings(UNTOUCHED))
    }

    fn smaller<'a>(&'a self, case: &'a Stuffing) -> Box<dyn Iterator<Item = Stuffing> + 'a> {
        let Stuffing { buffer, used, target } = case;
        let packets = case.without_first_packet().into_iter().chain(case.with_nearer_target());
        let uses = [0, used % PACKET, used.saturating_sub(PACKET)].into_iter().chain(shrink::numbers(*used)).filter(|less| less < used);
        let less_used = uses.map(|less| Stuffing { buffer: buffer.clone(), used: less, target: *target });
        let less_target = shrink::numbers(*target).map(|less| Stuffing { buffer: buffer.clone(), used: *used, target: less });
        let less_buffer = shrink::bytes(buffer).map(|less| Stuffing { buffer: less, used: *used, target: *target });
        Box::new(packets.chain(less_used).chain(less_target).chain(less_buffer))
    }

    fn show(&self, case: &Stuffing) -> String {
        format!("buffer of {} bytes: {}; used {}; target {}", case.buffer.len(), shown(&case.buffer), case.used, case.target)
    }
}

struct EnergyDisperse;

impl EnergyDisperse {
    /// Disperses lent packets once, and adds what the port answers.
    fn dispersed(packets: &mut Lent<u8>, before: Answer) -> Answer {
        let answer = call::ts_energy_disperse(packets.slice_mut());
        let found = surroundings(&mut [packets]);
        before.and(Answer::counted(answer.number, answer.count).bytes("packets", packets.slice()).surroundings(&found))
    }
}

impl Subject for EnergyDisperse {
    type Case = Vec<u8>;

    /// 0 to 40 packets of random bytes, some large buffers, packets with sync bytes, and ragged lengths.
    fn each_case(&self, random: &mut Random, compare: &mut dyn FnMut(Vec<u8>)) {
        for packets in (0..4).flat_map(|_| 0..=40) {
            compare(random.bytes(packets * PACKET));
            compare(orion::ts_packetize(&random.bytes(packets * PAYLOAD)));
            compare(random.bytes(packets * PACKET + 1));
            compare(random.bytes(packets * PACKET + 187));
            let ragged = random.between(1, 187);
            compare(random.bytes(packets * PACKET + ragged));
        }
        for packets in [100, 1000, random.between(41, 2000)] {
            compare(random.bytes(packets * PACKET));
        }
        (0..=600).for_each(|length| compare(random.bytes(length)));
    }

    /// Dispersing a second time is part of the answer: it gives the bytes back.
    fn ours(&self, case: &Vec<u8>) -> Answer {
        let mut packets = Lent::to_write("packets", case);
        let first = Self::dispersed(&mut packets, Answer::default());
        Self::dispersed(&mut packets, first)
    }

    /// orion-sdr panics on a ragged length and isn't called for one.
    fn expected(&self, case: &Vec<u8>) -> Expected {
        if case.len() % PACKET != 0 {
            let refusal = || refused(LENGTH, "packets", case);
            return Expected::document(refusal().and(refusal()));
        }
        let mut packets = case.clone();
        let count = orion::ts_energy_disperse(&mut packets);
        let answer = |bytes: &[u8]| Answer::counted(0, count).bytes("packets", bytes).surroundings(UNTOUCHED);
        Expected::orion(answer(&packets).and(answer(case)))
    }

    fn smaller<'a>(&'a self, case: &'a Vec<u8>) -> Box<dyn Iterator<Item = Vec<u8>> + 'a> {
        Box::new(shrink::bytes(case))
    }

    fn show(&self, case: &Vec<u8>) -> String {
        format!("packets of {} bytes: {}", case.len(), shown(case))
    }
}
