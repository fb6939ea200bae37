//! The row of the benchmark for the desk, which orion-sdr has not: beside it stands the rule over the last four words, super_frames.rs.

use super::{Row, Side};
use crate::call;
use crate::random::Random;
use crate::super_frames::{Word, answer};
use crate::sys::SaltTpsWord;
use std::hint::black_box;

/// Words of one action.
const WORDS: usize = 4096;
/// Words that the rule looks at.
const LAST: usize = 4;

/// Words of super-frames, of which one in sixteen has another number.
fn words() -> Vec<Word> {
    let mut random = Random::new(17);
    (0..WORDS)
        .map(|place| {
            let number = if random.below(16) == 0 { random.below(4) } else { place % 4 } as u8;
            [number, 2, 1, 2, [0x12, 0xAB][usize::from(number % 2)]]
        })
        .collect()
}

/// Taking word after word.
pub fn take() -> Row {
    let theirs = words();
    let ours: Vec<SaltTpsWord> = theirs
        .iter()
        .map(|[frame_number, constellation, code_rate_hp, guard, cell_id]| SaltTpsWord {
            frame_number: *frame_number,
            constellation: *constellation,
            code_rate_hp: *code_rate_hp,
            guard: *guard,
            cell_id: *cell_id,
        })
        .collect();
    let rule = move || {
        for end in 1..=WORDS {
            black_box(answer(black_box(&theirs[end.saturating_sub(LAST)..end]))).ok();
        }
    };
    let desk = move || {
        let mut desk = call::desk_new();
        for word in &ours {
            desk = black_box(call::desk_take(desk, black_box(*word))).desk;
        }
    };
    Row { name: "Desk::take", size: 68, amount: WORDS, asked: None, orion: Side::new(rule), ours: Side::new(desk), copy: None }
}
