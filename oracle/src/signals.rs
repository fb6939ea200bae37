//! The TPS cells of symbols as a receiver could get them: sent frames with noise and wrong symbols, sums that cancel, vanish or overflow,
//! and floats of all kinds.

use crate::cells::{CORNERS, some_float};
use crate::points::beside;
use crate::random::Random;
use crate::words::{WORD, some_sent};
use orion_sdr::waveform::dvb_t_tps::TpsEncoder;

/// Floats of a symbol's TPS cells.
pub const CELLS: usize = 34;

/// A symbol's TPS cells, re and im in turn.
pub type Cells = [f32; CELLS];

/// What a run of symbols is made of.
#[derive(Clone, Copy)]
enum Kind {
    /// A sent frame, at an amplitude and an angle, with noise.
    Sent { re: f32, im: f32, noise: f32 },
    /// Floats of all kinds.
    Any,
    /// Small whole numbers: their sums are exact, and often zero.
    Whole,
    /// The symbol before, each cell turned by a right angle and a little off: the sum is what its roundings make of it.
    Turned,
    /// Each second carrier takes back what the one before it gave, at sizes far apart.
    Cancelling,
    /// Floats whose products round to subnormals and zeros.
    Tiny,
    /// Floats whose products or sums overflow.
    Huge,
}

/// The symbols of a run.
pub struct Signal {
    kind: Kind,
    frame: [Cells; WORD],
    /// One in so many floats is a corner; 0 for none.
    corners: usize,
}

impl Signal {
    /// A signal of a random kind.
    pub fn some(random: &mut Random) -> Self {
        let kind = match random.below(10) {
            0 => Kind::Any,
            1 => Kind::Whole,
            2 => Kind::Turned,
            3 => Kind::Cancelling,
            4 => Kind::Tiny,
            5 => Kind::Huge,
            _ => return Self::sent(random),
        };
        let corners = [0, 0, 500, 2000][random.below(4)];
        Self { kind, frame: [[0.0; CELLS]; WORD], corners }
    }

    /// A sent frame, none to eight of whose bits are wrong.
    pub fn sent(random: &mut Random) -> Self {
        let (angle, size) = (unit(random) * 3.2, size(random, -20, 20));
        let noise = [0.0, 0.1, 0.5, 1.0][random.below(4)] * size;
        let corners = if random.below(8) == 0 { 2000 } else { 0 };
        Self { kind: Kind::Sent { re: size * angle.cos(), im: size * angle.sin(), noise }, frame: some_frame(random), corners }
    }

    /// The cells of a symbol that is fed when so many stand, of which these are the last's.
    pub fn symbol(&self, random: &mut Random, standing: usize, previous: &Cells) -> Cells {
        let mut cells = match self.kind {
            Kind::Sent { re, im, noise } => received(random, &self.frame[standing % WORD], (re, im), noise),
            Kind::Any => each(|_| some_float(random)),
            Kind::Whole => each(|_| [0.0, -0.0, 1.0, -1.0, 2.0, -2.0, 3.0, -3.0][random.below(8)]),
            Kind::Turned => turned(random, previous),
            Kind::Cancelling => cancelling(random, previous),
            Kind::Tiny => each(|_| unit(random) * size(random, -149, -60)),
            Kind::Huge => each(|_| unit(random) * size(random, 55, 127)),
        };
        for float in cells.iter_mut().filter(|_| self.corners > 0) {
            if random.below(self.corners) == 0 {
                *float = f32::from_bits(CORNERS[random.below(CORNERS.len())]);
            }
        }
        cells
    }
}

/// Floats by their places.
fn each(float: impl FnMut(usize) -> f32) -> Cells {
    std::array::from_fn(float)
}

/// A float from -1 to 1.
fn unit(random: &mut Random) -> f32 {
    random.next() as i32 as f32 / i32::MAX as f32
}

/// A power of two between two.
fn size(random: &mut Random, low: i32, high: i32) -> f32 {
    let power = low + random.below((high - low + 1) as usize) as i32;
    2f64.powi(power) as f32
}

/// A sent frame; none to four times one of its symbols is turned over, which makes two bits wrong, or all from one on, which makes one bit wrong.
fn some_frame(random: &mut Random) -> [Cells; WORD] {
    let (bits, mut encoder) = (some_sent(random), TpsEncoder::new());
    let mut frame = bits.map(|bit| {
        let cells = encoder.next_symbol(bit);
        each(|place| if place % 2 == 0 { cells[place / 2].re } else { cells[place / 2].im })
    });
    for _ in 0..random.below(5) {
        let first = random.below(WORD);
        let behind = [first + 1, WORD][random.below(2)];
        frame[first..behind].iter_mut().flatten().for_each(|float| *float = -*float);
    }
    frame
}

/// Sent cells behind a channel that multiplies by a number and adds noise.
fn received(random: &mut Random, sent: &Cells, (re, im): (f32, f32), noise: f32) -> Cells {
    each(|place| {
        let (cell, even) = (place / 2 * 2, place % 2 == 0);
        let (first, second) = if even { (re, -im) } else { (im, re) };
        sent[cell] * first + sent[cell + 1] * second + noise * unit(random)
    })
}

/// The cells before, or others where there are none to turn, each turned by a right angle; some are a float beside that.
fn turned(random: &mut Random, previous: &Cells) -> Cells {
    if previous.iter().any(|float| !float.is_finite()) || previous.iter().all(|float| *float == 0.0) {
        return each(|_| unit(random) * size(random, -3, 3));
    }
    let factor = [1.0, -1.0, 0.5, 0.7, 1.3][random.below(5)];
    each(|place| {
        let other = if place % 2 == 0 { -previous[place + 1] } else { previous[place - 1] };
        beside(other * factor, [0, 0, 0, 1, -1, 2][random.below(6)])
    })
}

/// Cells of many sizes, each second carrier taking back the product of the one before it.
fn cancelling(random: &mut Random, previous: &Cells) -> Cells {
    let mut cells = each(|_| unit(random) * size(random, -12, 12));
    for carrier in (1..CELLS / 2).step_by(2) {
        let (here, before) = (2 * carrier, 2 * carrier - 2);
        let given = cells[before] * previous[before] + cells[before + 1] * previous[before + 1];
        let back = -given / previous[here];
        (cells[here], cells[here + 1]) = if back.is_finite() { (back, 0.0) } else { (cells[here], cells[here + 1]) };
    }
    cells
}
