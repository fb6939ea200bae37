//! The symbol interleaver and its inverse, which orion-sdr doesn't have, beside a second writing of the rule (permutation.rs).
//! A cell is two floats; lengths are in floats, so that half a cell can be missing or over. Every float is compared by its bits, a NaN's too.

use crate::answer::Answer;
use crate::harness::{Expected, Run, Subject};
use crate::lent::UNTOUCHED;
use crate::permutation::{CELLS, permutation};
use crate::random::Random;
use crate::symbols::{Call, Shape, every_room};
use crate::sys::SaltCounted;
use crate::{call, shrink};

/// So many symbols of each function, apart from refusals.
const SYMBOLS: usize = 10_000;
/// What both calls read and write.
const SHAPE: Shape = Shape { reads: "cells", input: 2 * CELLS, writes: "output", output: 2 * CELLS };

/// A call of the port's: a symbol's number, its cells and the output.
type Port = fn(usize, &[f32], &mut [f32]) -> SaltCounted;

/// Compares both functions, and what each makes of the other's output.
pub fn compare(run: &mut Run) {
    let places = permutation();
    run.compare("interleave", Reorder { port: call::interleave, owed: Owed::Rule { places: places.clone(), spreads: 0 } });
    run.compare("deinterleave", Reorder { port: call::deinterleave, owed: Owed::Rule { places, spreads: 1 } });
    run.compare("deinterleave after interleave", Reorder { port: call::deinterleave, owed: Owed::Back(call::interleave) });
    run.compare("interleave after deinterleave", Reorder { port: call::interleave, owed: Owed::Back(call::deinterleave) });
}

/// What a call owes: by the rule, the cells written at their places in symbols of one parity and read there in the others; or, after another call,
/// what that one was given.
enum Owed {
    Rule { places: Vec<usize>, spreads: usize },
    Back(Port),
}

/// A call, and what it owes.
struct Reorder {
    port: Port,
    owed: Owed,
}

/// A symbol's number, and the slices of a call.
#[derive(Clone)]
struct Case {
    symbol: usize,
    call: Call,
}

impl Reorder {
    /// An answer with its number, its count and the output, all by bits.
    fn answer(number: u8, count: usize, output: &[f32]) -> Answer {
        Answer::counted(number, count).exact_floats(SHAPE.writes, output)
    }

    /// The floats that an accepted call owes at the front of its output.
    fn front(&self, symbol: usize, cells: &[f32]) -> Vec<f32> {
        let Owed::Rule { places, spreads } = &self.owed else { return cells.to_vec() };
        let mut front = vec![0.0; 2 * CELLS];
        for (q, place) in places.iter().enumerate() {
            let (from, to) = if symbol % 2 == *spreads { (q, *place) } else { (*place, q) };
            front[2 * to] = cells[2 * from];
            front[2 * to + 1] = cells[2 * from + 1];
        }
        front
    }
}

/// Numbers of symbols: those of a frame's beginning and end, large ones and any.
fn symbols(random: &mut Random) -> Vec<usize> {
    let mut symbols: Vec<usize> = (0..6).chain([66, 67, 68, 1 << 32, usize::MAX - 1, usize::MAX]).collect();
    symbols.extend((0..4).map(|_| random.next() as usize));
    symbols
}

impl Subject for Reorder {
    type Case = Case;

    fn in_orion(&self) -> bool {
        false
    }

    /// Cells that are all different, `SYMBOLS` symbols with floats of all kinds, and all rooms in symbols of either parity.
    fn each_case(&self, random: &mut Random, compare: &mut dyn FnMut(Case)) {
        for symbol in symbols(random) {
            let input = (0..SHAPE.input).map(|k| k as f32 - 0.5).collect();
            compare(Case { symbol, call: Call { input, output: vec![-1.0; SHAPE.output] } });
        }
        for symbol in 0..SYMBOLS {
            compare(Case { symbol, call: Call::accepted(random, &SHAPE) });
        }
        for symbol in symbols(random) {
            for input in every_room(random) {
                for output in every_room(random) {
                    compare(Case { symbol, call: Call::some(random, &SHAPE, input, output) });
                }
            }
        }
    }

    fn ours(&self, case: &Case) -> Answer {
        let mut call = case.call.clone();
        if let (Owed::Back(first), true) = (&self.owed, case.call.input.len() >= SHAPE.input) {
            first(case.symbol, &case.call.input, &mut call.input);
        }
        let (answer, output, found) = call.lent(&SHAPE, |cells, output| (self.port)(case.symbol, cells, output));
        Self::answer(answer.number, answer.count, &output).surroundings(&found)
    }

    fn expected(&self, case: &Case) -> Expected {
        let (number, mut output) = (case.call.number(&SHAPE), case.call.output.clone());
        if number == 0 {
            output[..SHAPE.output].copy_from_slice(&self.front(case.symbol, &case.call.input[..SHAPE.input]));
        }
        let count = if number == 0 { CELLS } else { 0 };
        Expected::document(Self::answer(number, count, &output).surroundings(UNTOUCHED))
    }

    /// A lower number, then less in the call.
    fn smaller<'a>(&'a self, case: &'a Case) -> Box<dyn Iterator<Item = Case> + 'a> {
        let symbols = shrink::numbers(case.symbol).map(|symbol| Case { symbol, call: case.call.clone() });
        Box::new(symbols.chain(case.call.smaller(&SHAPE).map(|call| Case { symbol: case.symbol, call })))
    }

    fn show(&self, case: &Case) -> String {
        format!("symbol {}; {}", case.symbol, case.call.show(&SHAPE))
    }
}
