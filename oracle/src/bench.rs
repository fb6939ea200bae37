//! The port's speed against orion-sdr's, both built for release, measured in turn in one run.

mod bench_codes;
mod bench_desk;
mod bench_interleaver;
mod bench_pilots;
mod bench_report;
mod bench_session;
mod bench_tps;
#[allow(dead_code)]
#[path = "../../rust/src/call.rs"]
mod call;
#[allow(dead_code)]
mod fields;
mod permutation;
#[allow(dead_code)]
mod points;
#[allow(dead_code)]
mod random;
#[allow(dead_code)]
mod refusals;
#[allow(dead_code)]
mod super_frames;
#[allow(dead_code)]
#[path = "../../rust/src/sys.rs"]
mod sys;

use num_complex::Complex32;
use orion_sdr::waveform::dvb_t as gray;
use orion_sdr::waveform::dvb_t::DvbTEnergyDispersal;
use orion_sdr::waveform::dvb_t_ts as orion;
use points::Points;
use random::Random;
use std::hint::black_box;
use std::time::Instant;
use sys::SaltCell;

/// Bytes of a packet.
const PACKET: usize = 188;
/// Each side's best of so many rounds counts.
const ROUNDS: usize = 100;
/// And of so many for whole programs.
const RUNS: usize = 10;
/// One measurement takes at least so many seconds.
const SPAN: f64 = 0.002;
/// Points of a measurement's one round over them: the data carriers of four OFDM symbols.
const POINTS: usize = 4 * 1512;

fn main() {
    let (mut bytes, mut calls, mut symbols) = (byte_rows(), call_rows(), bench_pilots::rows());
    calls.extend(bench_codes::rows().into_iter().chain(bench_tps::rows()));
    symbols.extend(bench_interleaver::rows());
    symbols.push(bench_session::feed());
    calls.push(bench_desk::take());
    let (mut slow, mut steps) = (bench_codes::slow_rows(), vec![bench_session::step_back(), bench_session::step_back_over()]);
    let mut reports = vec![bench_report::row()];
    for _ in 0..ROUNDS {
        bytes.iter_mut().chain(&mut calls).chain(&mut slow).chain(&mut symbols).chain(&mut steps).for_each(Row::measure);
    }
    (0..RUNS).for_each(|_| reports.iter_mut().for_each(Row::measure));
    println!("{:<34} {:>8} {:>15} {:>10} {:>10} {:>8} {:>7}", "function", "bytes", "orion-sdr MB/s", "ours MB/s", "copy MB/s", "ratio", "asked");
    bytes.iter().for_each(Row::print);
    println!("{:<34} {:>8} {:>15} {:>10} {:>10} {:>8} {:>7}", "function", "bits", "orion-sdr Mc/s", "ours Mc/s", "", "ratio", "asked");
    calls.iter().for_each(Row::print);
    println!("{:<34} {:>8} {:>15} {:>10} {:>10} {:>8} {:>7}", "function", "bits", "orion-sdr kc/s", "ours kc/s", "", "ratio", "asked");
    slow.iter().for_each(Row::print);
    println!("{:<34} {:>8} {:>15} {:>10} {:>10} {:>8} {:>7}", "function", "cells", "orion-sdr ks/s", "ours ks/s", "copy ks/s", "ratio", "asked");
    symbols.iter().for_each(Row::print);
    println!("{:<34} {:>8} {:>15} {:>10} {:>10} {:>8} {:>7}", "function", "standing", "fed again kc/s", "ours kc/s", "", "ratio", "asked");
    steps.iter().for_each(Row::print);
    println!("{:<34} {:>8} {:>15} {:>10} {:>10} {:>8} {:>7}", "program", "lines", "in Rust Ml/s", "ours Ml/s", "", "ratio", "asked");
    reports.iter().for_each(Row::print);
    println!("Ml/s: million lines a second, best of {RUNS} runs of each program in turn; the one in Rust is oracle/src/report.rs over orion-sdr's TpsWord::unpack.");
    println!("Best of {ROUNDS} rounds in turn; ratio is ours by orion-sdr's, copy a plain copy of as many bytes: the limit.");
    println!("ts_packetize_dispersed is beside orion-sdr's ts_packetize and ts_energy_disperse in turn; orion-sdr's ts_packetize and ts_depacketize");
    println!("allocate the Vec that they answer; ours write into a lent buffer.");
    println!("Mc/s: million calls a second, on points as a receiver sees them. orion-sdr's dvb_t_demap_symbol and dvb_t_soft_llr allocate");
    println!("the Vec that they answer, and one for each axis; ours write into a lent buffer and answer by value.");
    println!("Desk::take is beside the rule over the last four words in Rust (oracle/src/super_frames.rs), since orion-sdr has no desk.");
    println!("orion-sdr's tps_bch_decode makes the tables of its field at each call.");
    println!("ks/s: thousand symbols a second, phase after phase; both sides' objects are made once and write into a lent buffer.");
    println!("interleave and deinterleave, even and odd symbols in turn, are beside a copy through an index array in Rust.");
    println!("Session::feed is beside orion-sdr's extract_symbol and feed_symbol together; Session::step_back beside our own feeds of all that stand");
    println!("(kc/s: thousand calls a second, all the feeds being one), and where it leads into the frame before beside ten feeds.");
    let rows: Vec<Row> = bytes.into_iter().chain(calls).chain(slow).chain(symbols).chain(steps).chain(reports).collect();
    let below = rows.iter().filter(|row| row.below()).count();
    let asked = rows.iter().filter(|row| row.asked.is_some()).count();
    println!("{} of {asked} asked ratios met", asked - below);
    std::process::exit(if below > 0 { 1 } else { 0 });
}

/// Something to do a number of times.
type Action = Box<dyn FnMut(usize)>;

/// One side of a row: what to do, how often in one measurement, and the best time of one.
struct Side {
    action: Action,
    times: usize,
    best: f64,
}

impl Side {
    /// A side that is done so often that a measurement takes long enough.
    fn new(action: impl FnMut() + 'static) -> Self {
        let mut side = Self { action: repeated(action), times: 1, best: f64::INFINITY };
        while side.once() < SPAN {
            side.times *= 2;
        }
        side
    }

    /// Seconds of one measurement.
    fn once(&mut self) -> f64 {
        let start = Instant::now();
        (self.action)(self.times);
        start.elapsed().as_secs_f64()
    }

    /// Measures once more.
    fn measure(&mut self) {
        let seconds = self.once() / self.times as f64;
        self.best = self.best.min(seconds);
    }
}

/// An action done a number of times.
fn repeated(mut action: impl FnMut() + 'static) -> Action {
    Box::new(move |times| (0..times).for_each(|_| action()))
}

/// One line of a table: the bytes of a call, the bits of a group, the cells that a call writes or the symbols that stand, and how many bytes,
/// calls, thousandths of a call or thousandths of a symbol an action comes to.
struct Row {
    name: &'static str,
    size: usize,
    amount: usize,
    asked: Option<f64>,
    orion: Side,
    ours: Side,
    copy: Option<Side>,
}

impl Row {
    /// A row over so many bytes, with the ratio that is asked for.
    fn new(name: &'static str, bytes: usize, asked: Option<f64>, orion: impl FnMut() + 'static, ours: impl FnMut() + 'static) -> Self {
        let copy = Some(Side::new(copying(bytes)));
        Self { name, size: bytes, amount: bytes, asked, orion: Side::new(orion), ours: Side::new(ours), copy }
    }

    /// A row over calls at a group size, `POINTS` of them in one action.
    fn calls(name: &'static str, size: usize, asked: Option<f64>, orion: impl FnMut() + 'static, ours: impl FnMut() + 'static) -> Self {
        Self { name, size, amount: POINTS, asked, orion: Side::new(orion), ours: Side::new(ours), copy: None }
    }

    /// Measures all sides once, in turn.
    fn measure(&mut self) {
        self.orion.measure();
        self.ours.measure();
        self.copy.iter_mut().for_each(Side::measure);
    }

    /// How many times as fast ours is.
    fn ratio(&self) -> f64 {
        self.orion.best / self.ours.best
    }

    /// Whether the ratio is below what is asked.
    fn below(&self) -> bool {
        self.asked.is_some_and(|asked| self.ratio() < asked)
    }

    /// Prints the row.
    fn print(&self) {
        let digits = if self.copy.is_some() { 0 } else { 1 };
        let speed = |side: &Side| format!("{:.digits$}", self.amount as f64 / side.best / 1e6);
        let copy = self.copy.as_ref().map_or(String::new(), speed);
        let asked = self.asked.map_or("-".to_string(), |asked| asked.to_string());
        let mark = if self.below() { "  below" } else { "" };
        println!(
            "{:<34} {:>8} {:>15} {:>10} {copy:>10} {:>8.2} {:>7}{mark}",
            self.name, self.size, speed(&self.orion), speed(&self.ours), self.ratio(), asked
        );
    }
}

/// The rows that count bytes.
fn byte_rows() -> Vec<Row> {
    vec![
        disperse(1, None),
        disperse(8, Some(20.0)),
        disperse(100, Some(80.0)),
        disperse(1000, Some(80.0)),
        packetize_dispersed(1_496, 20.0),
        packetize_dispersed(187_000, 80.0),
        depacketize(8),
        depacketize(1000),
        stuff(2, 8),
        stuff(20, 1000),
        feed_in_place(187),
        feed_in_place(15_040),
    ]
}

/// The rows that count calls.
fn call_rows() -> Vec<Row> {
    vec![
        map_symbol(2, None),
        map_symbol(4, None),
        map_symbol(6, Some(1.0)),
        demap_symbol(2, None),
        demap_symbol(4, None),
        demap_symbol(6, Some(4.0)),
        soft_llr(2, None),
        soft_llr(4, None),
        soft_llr(6, Some(4.0)),
    ]
}

/// Bytes that are not all alike.
fn some_bytes(length: usize) -> Vec<u8> {
    (0..length).map(|place| (place * 37 + place / 188) as u8).collect()
}

/// A plain copy of so many bytes.
fn copying(length: usize) -> impl FnMut() {
    let (from, mut to) = (some_bytes(length), vec![0; length]);
    move || black_box(&mut to[..]).copy_from_slice(black_box(&from))
}

/// Energy dispersal over so many packets, in place.
fn disperse(packets: usize, asked: Option<f64>) -> Row {
    let mut theirs = some_bytes(packets * PACKET);
    let mut ours = theirs.clone();
    let orion = move || {
        black_box(orion::ts_energy_disperse(black_box(&mut theirs)));
    };
    Row::new("ts_energy_disperse", packets * PACKET, asked, orion, move || {
        black_box(call::ts_energy_disperse(black_box(&mut ours)));
    })
}

/// Whitened packets of so many bytes, beside orion-sdr's two calls in turn.
fn packetize_dispersed(bytes: usize, asked: f64) -> Row {
    let payload = some_bytes(bytes);
    let (theirs, mut out) = (payload.clone(), orion::ts_packetize(&payload));
    let orion = move || {
        let mut packets = orion::ts_packetize(black_box(&theirs));
        black_box(orion::ts_energy_disperse(black_box(&mut packets)));
    };
    Row::new("ts_packetize_dispersed", bytes, Some(asked), orion, move || {
        black_box(call::ts_packetize_dispersed(black_box(&payload), black_box(&mut out)));
    })
}

/// Taking so many packets apart.
fn depacketize(packets: usize) -> Row {
    let stream = some_bytes(packets * PACKET);
    let (theirs, mut out) = (stream.clone(), vec![0; packets * (PACKET - 1)]);
    let orion = move || drop(black_box(orion::ts_depacketize(black_box(&theirs))));
    Row::new("ts_depacketize", packets * PACKET, Some(0.8), orion, move || {
        black_box(call::ts_depacketize(black_box(&stream), black_box(&mut out)));
    })
}

/// Stuffing from so many packets to a target; orion-sdr's Vec keeps its room from one time to the next.
fn stuff(have: usize, target: usize) -> Row {
    let mut theirs = some_bytes(have * PACKET);
    let mut ours = some_bytes(target * PACKET);
    let orion = move || {
        theirs.truncate(have * PACKET);
        orion::ts_stuff_null_packets(black_box(&mut theirs), black_box(target));
    };
    Row::new("ts_stuff_null_packets", (target - have) * PACKET, None, orion, move || {
        black_box(call::ts_stuff_null_packets(black_box(&mut ours), black_box(have * PACKET), black_box(target)));
    })
}

/// Whitening so many bytes in place, the register going on from one time to the next.
fn feed_in_place(bytes: usize) -> Row {
    let (mut theirs, mut ours) = (some_bytes(bytes), some_bytes(bytes));
    let (mut their_state, mut our_state) = (DvbTEnergyDispersal::new(), call::dvb_t_energy_dispersal_new());
    let orion = move || their_state.feed_in_place(black_box(&mut theirs));
    Row::new("feed_in_place", bytes, None, orion, move || our_state = call::dvb_t_energy_dispersal_feed_in_place(our_state, black_box(&mut ours)))
}

/// Mapping random groups of so many bits.
fn map_symbol(size: usize, asked: Option<f64>) -> Row {
    let ours: Vec<u8> = Random::new(1).bytes(POINTS * size).iter().map(|byte| byte & 1).collect();
    let theirs = ours.clone();
    let orion = move || {
        for bits in theirs.chunks_exact(size) {
            black_box(gray::dvb_t_map_symbol(black_box(bits)));
        }
    };
    Row::calls("dvb_t_map_symbol", size, asked, orion, move || {
        for bits in ours.chunks_exact(size) {
            black_box(call::dvb_t_map_symbol(black_box(bits)));
        }
    })
}

/// Points of a constellation as a receiver sees them.
fn received(size: usize) -> Vec<(f32, f32)> {
    let (points, mut random) = (Points::new(size), Random::new(2));
    (0..POINTS).map(|_| (points.received(&mut random), points.received(&mut random))).collect()
}

/// Hard demapping of received points.
fn demap_symbol(size: usize, asked: Option<f64>) -> Row {
    let (theirs, ours, mut out) = (received(size), received(size), vec![0; size]);
    let orion = move || {
        for (re, im) in &theirs {
            drop(black_box(gray::dvb_t_demap_symbol(black_box(Complex32::new(*re, *im)), black_box(size))));
        }
    };
    Row::calls("dvb_t_demap_symbol", size, asked, orion, move || {
        for (re, im) in &ours {
            black_box(call::dvb_t_demap_symbol(black_box(SaltCell { re: *re, im: *im }), black_box(size), black_box(&mut out)));
        }
    })
}

/// Soft values of received points.
fn soft_llr(size: usize, asked: Option<f64>) -> Row {
    let (theirs, ours) = (received(size), received(size));
    let orion = move || {
        for (re, im) in &theirs {
            drop(black_box(gray::dvb_t_soft_llr(black_box(Complex32::new(*re, *im)), black_box(size))));
        }
    };
    Row::calls("dvb_t_soft_llr", size, asked, orion, move || {
        for (re, im) in &ours {
            black_box(call::dvb_t_soft_llr(black_box(SaltCell { re: *re, im: *im }), black_box(size)));
        }
    })
}
