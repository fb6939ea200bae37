//! Writes stored answers of orion-sdr's for the replay program, one line each (README.md).

#[allow(dead_code)]
mod fields;
#[allow(dead_code)]
mod mended;
mod packed;
#[allow(dead_code)]
mod points;
#[allow(dead_code)]
mod random;
#[allow(dead_code)]
mod refusals;
mod store_codes;
mod store_symbols;
mod store_tps;

use num_complex::Complex32;
use orion_sdr::waveform::dvb_t as gray;
use orion_sdr::waveform::dvb_t::DvbTEnergyDispersal;
use orion_sdr::waveform::dvb_t_ts as orion;
use points::{Points, SIZES, beside, groups, levels, midpoints, pattern};
use random::Random;

/// The seed of the stored inputs; the same file comes of it at every run.
const SEED: u64 = 1_504;
/// Bytes of a packet.
const PACKET: usize = 188;
/// The bytes that the replay has room for.
const ROOM: usize = 1_310_720;
/// The bytes of a field that the replay has room for.
const FIELD: usize = 16_384;

fn main() {
    let file = std::env::args().nth(1).expect("store FILE");
    let mut lines = Lines { random: Random::new(SEED), text: String::new() };
    packetize_dispersed(&mut lines);
    depacketize(&mut lines);
    null(&mut lines);
    stuff(&mut lines);
    disperse(&mut lines);
    feed(&mut lines);
    map(&mut lines);
    demap(&mut lines);
    soft(&mut lines);
    store_codes::encode(&mut lines);
    store_codes::decode(&mut lines);
    store_codes::pack(&mut lines);
    store_codes::unpack(&mut lines);
    store_tps::send(&mut lines);
    store_tps::receive(&mut lines);
    store_symbols::extract(&mut lines);
    store_symbols::mapped(&mut lines);
    store_symbols::session(&mut lines);
    assert!(lines.text.len() < ROOM, "the file is too large");
    std::fs::write(&file, &lines.text).expect("the stored answers can be written");
    println!("{} lines, {} of them wrong on purpose, {} bytes", lines.count(""), lines.count("~"), lines.text.len());
}

/// The lines so far, and where random inputs come from.
struct Lines {
    random: Random,
    text: String,
}

impl Lines {
    /// Adds an answer as orion-sdr gave it; None is the refusal 1.
    fn answer(&mut self, function: &str, number: usize, input: &[u8], output: Option<&[u8]>) {
        self.line(' ', function, number, u8::from(output.is_none()), input, output.unwrap_or_default());
    }

    /// Adds a refusal of document 01's that stands for orion-sdr's None.
    fn refused(&mut self, function: &str, number: usize, input: &[u8], refusal: u8) {
        self.line(' ', function, number, refusal, input, &[]);
    }

    /// Adds an answer that is wrong, which the replay must call different.
    fn wrong(&mut self, function: &str, number: usize, input: &[u8], refusal: u8, output: &[u8]) {
        self.line('~', function, number, refusal, input, output);
    }

    /// Adds an answer with one bit turned.
    fn turned(&mut self, function: &str, number: usize, input: &[u8], output: &[u8], bit: usize) {
        let mut wrong = output.to_vec();
        wrong[bit / 8] ^= 0x80 >> (bit % 8);
        self.wrong(function, number, input, 0, &wrong);
    }

    /// Adds a line that keeps the sizes which the replay can hold.
    fn line(&mut self, mark: char, function: &str, number: usize, refusal: u8, input: &[u8], output: &[u8]) {
        assert!(function.len() < 24 && number < 65_536 && input.len() + 3 <= FIELD && output.len() <= FIELD, "a line is too long");
        let (input, output) = (hexadecimal(input), hexadecimal(output));
        self.text.push_str(&format!("{mark}{function:24}{number:04x}{refusal:02x}{input}>{output}\n"));
    }

    /// How many lines begin so.
    fn count(&self, beginning: &str) -> usize {
        self.text.lines().filter(|line| line.starts_with(beginning)).count()
    }
}

/// Bytes as lower-case hexadecimal digits.
fn hexadecimal(bytes: &[u8]) -> String {
    bytes.iter().map(|byte| format!("{byte:02x}")).collect()
}

/// The whitened packets of a payload: orion-sdr's two calls in turn.
fn whitened(payload: &[u8]) -> Vec<u8> {
    let mut packets = orion::ts_packetize(payload);
    orion::ts_energy_disperse(&mut packets);
    packets
}

/// Payloads around whole packets and whole groups, of zeros, of ones and of sync bytes; and, wrong on purpose, packets that were sent clear.
fn packetize_dispersed(lines: &mut Lines) {
    let lengths = [0, 1, 2, 100, 185, 186, 187, 188, 189, 373, 374, 375, 376, 561, 562, 935, 1496, 2000];
    let mut payloads: Vec<Vec<u8>> = lengths.iter().map(|length| lines.random.bytes(*length)).collect();
    payloads.extend([vec![0; 5], vec![0xFF; 187], vec![0x47; 188]]);
    for payload in payloads {
        lines.answer("ts_packetize_dispersed", 0, &payload, Some(&whitened(&payload)));
    }
    for (length, bit) in [(0, 8 * PACKET - 1), (188, 8 * PACKET)] {
        let payload = lines.random.bytes(length);
        lines.turned("ts_packetize_dispersed", 0, &payload, &whitened(&payload), bit);
    }
    for payload in [vec![], vec![0x47; 188]] {
        lines.wrong("ts_packetize_dispersed", 0, &payload, 0, &orion::ts_packetize(&payload));
    }
}

/// Whole packets with any first byte, one that packetizing made, and lengths that are refused.
fn depacketize(lines: &mut Lines) {
    for length in [0, 1, 187, 189, 375, 377, 1503, 2000] {
        let packets = lines.random.bytes(length);
        assert!(orion::ts_depacketize(&packets).is_none());
        lines.answer("ts_depacketize", 0, &packets, None);
    }
    let mut inputs: Vec<Vec<u8>> = [1, 2, 3, 4, 7, 8, 10].iter().map(|packets| lines.random.bytes(packets * PACKET)).collect();
    inputs.push(orion::ts_packetize(&lines.random.bytes(300)));
    for packets in inputs {
        let payload = orion::ts_depacketize(&packets).expect("whole packets");
        lines.answer("ts_depacketize", 0, &packets, Some(&payload));
    }
    for (count, bit) in [(1, 0), (3, 8 * 3 * 187 - 1)] {
        let packets = lines.random.bytes(count * PACKET);
        let payload = orion::ts_depacketize(&packets).expect("whole packets");
        lines.turned("ts_depacketize", 0, &packets, &payload, bit);
    }
}

/// The null packet, and two that are not.
fn null(lines: &mut Lines) {
    let packet = orion::ts_null_packet();
    lines.answer("ts_null_packet", 0, &[], Some(&packet));
    lines.turned("ts_null_packet", 0, &[], &packet, 8 * 3 + 7);
    lines.turned("ts_null_packet", 0, &[], &packet, 8 * PACKET - 1);
}

/// Targets below, at and above what is there.
fn stuff(lines: &mut Lines) {
    let pairs = [(0, 0), (0, 1), (0, 2), (0, 15), (1, 0), (1, 1), (1, 2), (1, 5), (2, 1), (2, 2), (2, 3), (3, 1), (3, 8), (4, 4), (5, 12), (9, 3), (10, 11)];
    for (have, target) in pairs {
        let packets = lines.random.bytes(have * PACKET);
        lines.answer("ts_stuff_null_packets", target, &packets, Some(&stuffed(&packets, target)));
    }
    for (have, target, bit) in [(1, 3, 8 * 2 * PACKET), (2, 1, 8 * 2 * PACKET - 1)] {
        let packets = lines.random.bytes(have * PACKET);
        lines.turned("ts_stuff_null_packets", target, &packets, &stuffed(&packets, target), bit);
    }
}

/// Packets with null packets behind them, up to a target.
fn stuffed(packets: &[u8], target: usize) -> Vec<u8> {
    let mut stream = packets.to_vec();
    orion::ts_stuff_null_packets(&mut stream, target);
    stream
}

/// 0 to 10 packets of random bytes, zeros over a group's end, packets with sync bytes, and packets that are undone.
fn disperse(lines: &mut Lines) {
    let mut inputs: Vec<Vec<u8>> = (0..=10).map(|packets| lines.random.bytes(packets * PACKET)).collect();
    inputs.push(vec![0; 9 * PACKET]);
    inputs.push(orion::ts_packetize(&lines.random.bytes(500)));
    inputs.push(dispersed(&inputs[2]));
    for packets in inputs {
        lines.answer("ts_energy_disperse", 0, &packets, Some(&dispersed(&packets)));
    }
    for (count, bit) in [(1, 0), (2, 8 * PACKET), (9, 8 * (8 * PACKET + 1))] {
        let packets = lines.random.bytes(count * PACKET);
        lines.turned("ts_energy_disperse", 0, &packets, &dispersed(&packets), bit);
    }
}

/// Packets after dispersal.
fn dispersed(packets: &[u8]) -> Vec<u8> {
    let mut stream = packets.to_vec();
    orion::ts_energy_disperse(&mut stream);
    stream
}

/// Bytes fed after so many bytes were passed over, up to the register's whole round of 32,767.
fn feed(lines: &mut Lines) {
    for length in [0, 1, 2, 3, 7, 8, 9, 15, 16, 17, 63, 64, 65, 187, 188, 500, 1500] {
        let bytes = lines.random.bytes(length);
        lines.answer("DvbTEnergyDispersal", 0, &bytes, Some(&fed(0, &bytes)));
    }
    for before in [1, 2, 3, 7, 8, 9, 187, 188, 1000, 1503, 4096, 32_766, 32_767, 32_768] {
        let length = lines.random.between(1, 80);
        let bytes = lines.random.bytes(length);
        lines.answer("DvbTEnergyDispersal", before, &bytes, Some(&fed(before, &bytes)));
    }
    for (before, length, bit) in [(0, 1, 7), (5, 40, 0)] {
        let bytes = lines.random.bytes(length);
        lines.turned("DvbTEnergyDispersal", before, &bytes, &fed(before, &bytes), bit);
    }
}

/// Bytes whitened after so many bytes were passed over.
fn fed(before: usize, bytes: &[u8]) -> Vec<u8> {
    let mut whitener = DvbTEnergyDispersal::new();
    (0..before).for_each(|_| whitener.advance_byte());
    whitener.feed(bytes)
}

/// Floats as bytes, high ones first; every NaN as one where they are an answer.
fn patterns(floats: &[f32], bits: fn(f32) -> u32) -> Vec<u8> {
    floats.iter().flat_map(|float| bits(*float).to_be_bytes()).collect()
}

/// Adds floats with one bit turned such that the value isn't NaN before or after.
fn turned_floats(lines: &mut Lines, function: &str, number: usize, input: &[u8], output: &[f32], bit: usize) {
    let value = output[bit / 32];
    let wrong = f32::from_bits(value.to_bits() ^ 0x8000_0000 >> (bit % 32));
    assert!(!value.is_nan() && !wrong.is_nan(), "a turned bit that doesn't show");
    lines.turned(function, number, input, &patterns(output, pattern), bit);
}

/// All groups, and lengths that are refused.
fn map(lines: &mut Lines) {
    let point = |bits: &[u8]| gray::dvb_t_map_symbol(bits).map(|point| [point.re, point.im]);
    for bits in SIZES.into_iter().flat_map(groups) {
        lines.answer("dvb_t_map_symbol", 0, &bits, point(&bits).map(|point| patterns(&point, pattern)).as_deref());
    }
    for length in [0, 1, 3, 5, 7, 8, 9] {
        let bits: Vec<u8> = lines.random.bytes(length).iter().map(|byte| byte & 1).collect();
        assert!(point(&bits).is_none());
        lines.answer("dvb_t_map_symbol", 0, &bits, None);
    }
    for (bits, bit) in [(&[0, 1][..], 31), (&[1, 0, 0, 1], 32), (&[1, 0, 1, 0, 0, 1], 63), (&[0; 6], 0)] {
        turned_floats(lines, "dvb_t_map_symbol", 0, bits, &point(bits).expect("a group's size"), bit);
    }
}

/// Stored coordinates apart from any constellation: NaN, infinite, zero, subnormal, the largest, huge, and around the largest with a finite square.
const FAR: [u32; 20] = [
    0x7fc0_0000, 0xffc0_0000, 0x7f80_0001, 0xff92_3456, 0x7f80_0000, 0xff80_0000, 0x0000_0000, 0x8000_0000, 0x0000_0001, 0x807f_ffff, //
    0x7f7f_ffff, 0xff7f_ffff, 0x4b80_0000, 0xcb80_0000, 0x4c00_0001, 0xd015_02f9, 0x5f7f_ffff, 0x5f80_0000, 0x60ad_78ec, 0xe0ad_78ec,
];

/// Some 40 points of a group size: the far coordinates, midpoints of neighbours with the floats beside them, levels and received ones, each as re and as im.
fn cells(random: &mut Random, size: usize) -> Vec<[f32; 2]> {
    let (levels, points) = (levels(size), Points::new(size));
    let between = levels.windows(2).flat_map(midpoints).flat_map(|float| [-1, 0, 1].map(|units| beside(float, units)));
    let mut floats: Vec<f32> = FAR.map(f32::from_bits).into_iter().chain(between).chain(levels.clone()).collect();
    while floats.len() < 40 {
        floats.push(points.received(random));
    }
    let others = floats.iter().cycle().skip(floats.len() / 2);
    floats.iter().zip(others).map(|(re, im)| [*re, *im]).collect()
}

/// Adds what a function answers at a size that is refused, for each such size to 9.
fn refused(lines: &mut Lines, function: &str, answers: impl Fn([f32; 2], usize) -> bool) {
    for size in (0..=9).filter(|size| !SIZES.contains(size)) {
        let cell = [Points::new(6).received(&mut lines.random), f32::NAN];
        assert!(!answers(cell, size));
        lines.answer(function, size, &patterns(&cell, f32::to_bits), None);
    }
}

/// The points of each size, sizes that are refused, and exact points with a bit turned.
fn demap(lines: &mut Lines) {
    let bits = |[re, im]: [f32; 2], size| gray::dvb_t_demap_symbol(Complex32::new(re, im), size);
    for size in SIZES {
        for cell in cells(&mut lines.random, size) {
            lines.answer("dvb_t_demap_symbol", size, &patterns(&cell, f32::to_bits), bits(cell, size).as_deref());
        }
    }
    refused(lines, "dvb_t_demap_symbol", |cell, size| bits(cell, size).is_some());
    for (size, cell, place) in [(2, [0.5, -0.0], 1), (4, [f32::NAN, 2f32.powi(30)], 2), (6, [-2f32.powi(30), 0.4], 0), (6, [0.1, -0.9], 5)] {
        let right = bits(cell, size).expect("a group's size");
        lines.turned("dvb_t_demap_symbol", size, &patterns(&cell, f32::to_bits), &right, 8 * place + 7);
    }
}

/// The points of each size, sizes that are refused, and points with a bit turned: the last of a value, its sign, its exponent's last.
fn soft(lines: &mut Lines) {
    let values = |[re, im]: [f32; 2], size| gray::dvb_t_soft_llr(Complex32::new(re, im), size);
    for size in SIZES {
        for cell in cells(&mut lines.random, size) {
            let right = values(cell, size).map(|values| patterns(&values, pattern));
            lines.answer("dvb_t_soft_llr", size, &patterns(&cell, f32::to_bits), right.as_deref());
        }
    }
    refused(lines, "dvb_t_soft_llr", |cell, size| values(cell, size).is_some());
    for (size, cell, bit) in [(2, [0.5, -0.25], 31), (4, [f32::NAN, -0.3], 3 * 32), (6, [0.2, f32::INFINITY], 4 * 32 + 31), (6, [-0.7, 0.9], 5 * 32 + 8)] {
        let right = values(cell, size).expect("a group's size");
        turned_floats(lines, "dvb_t_soft_llr", size, &patterns(&cell, f32::to_bits), &right, bit);
    }
}
