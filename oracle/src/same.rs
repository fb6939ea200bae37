//! The comparison of cells by bits, any NaN as any other, which orion-sdr has not.

use crate::answer::{Answer, floats};
use crate::cells::{CORNERS, some_float};
use crate::harness::{Expected, Run, Subject};
use crate::points::pattern;
use crate::random::Random;
use crate::sys::SaltCell;
use crate::{call, shrink};

/// Compares the function.
pub fn compare(run: &mut Run) {
    run.compare("Cell::same", Same);
}

/// Two cells: re and im of one, re and im of the other.
type Two = [f32; 4];

struct Same;

impl Subject for Same {
    type Case = Two;

    fn in_orion(&self) -> bool {
        false
    }

    /// All pairs of special floats in one part, with the other parts alike or not; random ones, of which one bit differs, or none.
    fn each_case(&self, random: &mut Random, compare: &mut dyn FnMut(Two)) {
        let pairs = CORNERS.into_iter().flat_map(|one| CORNERS.map(|two| [one, two].map(f32::from_bits)));
        for [one, two] in pairs {
            let beside = some_float(random);
            [[one, beside, two, beside], [beside, one, beside, two], [one, two, two, one], [one, one, two, two]].into_iter().for_each(&mut *compare);
        }
        for _ in 0..100_000 {
            let [re, im] = [(); 2].map(|()| some_float(random));
            let turned = |float: f32, place: usize| f32::from_bits(float.to_bits() ^ 1u32.checked_shl(place as u32).unwrap_or(0));
            compare([re, im, turned(re, random.below(64)), turned(im, random.below(64))]);
        }
    }

    fn ours(&self, [re, im, other_re, other_im]: &Two) -> Answer {
        let same = call::cell_same(SaltCell { re: *re, im: *im }, SaltCell { re: *other_re, im: *other_im });
        Answer::default().number("same", u64::from(same))
    }

    fn expected(&self, case: &Two) -> Expected {
        let [re, im, other_re, other_im] = case.map(pattern);
        Expected::document(Answer::default().number("same", u64::from(re == other_re && im == other_im)))
    }

    fn smaller<'a>(&'a self, case: &'a Two) -> Box<dyn Iterator<Item = Two> + 'a> {
        Box::new((0..4).flat_map(move |place| {
            shrink::floats(case[place]).map(move |float| {
                let mut less = *case;
                less[place] = float;
                less
            })
        }))
    }

    fn show(&self, case: &Two) -> String {
        format!("re and im of one cell and of the other: {}", floats(&case.map(f32::to_bits)))
    }
}
