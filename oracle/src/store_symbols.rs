//! The stored answers of symbols and of the receive session: extract, mapped and session. Symbols come of a rule, so that none is stored.

use crate::points::pattern;
use crate::store_tps::received;
use crate::{Lines, patterns, turned_floats};
use num_complex::Complex32;
use orion_sdr::waveform::dvb_t::{GuardInterval, ScatteredPilotExtractor, ScatteredPilotMapper, tps_carrier_bins};

/// Cells of a symbol.
const SYMBOL: usize = 2048;
/// Data cells of a symbol.
const DATA: usize = 1512;
/// Symbols of a frame.
const FRAME: usize = 68;
/// The byte of a script that steps back; a lower one feeds the symbol of its number.
const STEP_BACK: u8 = 254;
/// The byte of a script that resets.
const RESET: u8 = 255;

/// Symbol k by the rule: float j is 4096 k + j, with a minus where k leaves 1 on division by 3.
fn ruled(number: u8) -> Vec<Complex32> {
    let float = |place: usize| (4096 * usize::from(number) + place) as f32 * if number % 3 == 1 { -1.0 } else { 1.0 };
    (0..SYMBOL).map(|bin| Complex32::new(float(2 * bin), float(2 * bin + 1))).collect()
}

/// Cells as floats, re and im in turn.
fn floats(cells: &[Complex32]) -> Vec<f32> {
    cells.iter().flat_map(|cell| [cell.re, cell.im]).collect()
}

/// The data cells of the last of some symbols, as an extractor reads them one after another, and its phase at the last.
fn extracted(numbers: &[u8]) -> (u8, Vec<Complex32>) {
    let mut extractor = ScatteredPilotExtractor::new(GuardInterval::G1_32);
    let (mut phase, mut data) = (0, vec![Complex32::default(); DATA]);
    for number in numbers {
        phase = extractor.phase() as u8;
        extractor.extract_symbol(&ruled(*number), &mut data);
    }
    (phase, data)
}

/// Symbol p in phase p, and two with a bit of a float turned.
pub fn extract(lines: &mut Lines) {
    let answer = |phase: u8| floats(&extracted(&(0..=phase).collect::<Vec<_>>()).1);
    for phase in 0..4 {
        lines.answer("ScatteredPilotExtractor", usize::from(phase), &[], Some(&patterns(&answer(phase), pattern)));
    }
    for (phase, bit) in [(1, 31), (3, 64 * DATA - 1)] {
        turned_floats(lines, "ScatteredPilotExtractor", usize::from(phase), &[], &answer(phase), bit);
    }
}

/// The symbol of phase p whose data cells are the first cells of symbol 0 by the rule, and one with a pilot's sign turned.
pub fn mapped(lines: &mut Lines) {
    let mut mapper = ScatteredPilotMapper::new(GuardInterval::G1_32);
    for phase in 0..4 {
        let mut symbol = vec![Complex32::new(f32::NAN, f32::NAN); SYMBOL];
        mapper.map_symbol(&ruled(0)[..DATA], &mut symbol);
        lines.answer("ScatteredPilotMapper", phase, &[], Some(&patterns(&floats(&symbol), pattern)));
        if phase == 2 {
            turned_floats(lines, "ScatteredPilotMapper", phase, &[], &floats(&symbol), 64 * tps_carrier_bins()[5]);
        }
    }
}

/// The symbols that stand behind a script, frame by frame: a step back does nothing where none stands and, once a third frame has begun, where one
/// stands in the frame before the furthest begun.
fn standing(script: &[u8]) -> Vec<Vec<u8>> {
    let (mut frames, mut begun) = (vec![vec![]], 0);
    for call in script {
        let (current, many) = (frames.len() - 1, frames[frames.len() - 1].len());
        match *call {
            RESET => (frames, begun) = (vec![vec![]], 0),
            STEP_BACK if begun >= 2 && current + 1 == begun && many == 1 => (),
            STEP_BACK if current > 0 && many == 1 => drop(frames.pop()),
            STEP_BACK => drop(frames[current].pop()),
            number if many == FRAME => frames.push(vec![number]),
            number => frames[current].push(number),
        }
        begun = begun.max(frames.len() - 1);
    }
    frames
}

/// What orion-sdr's extractor and decoder give, each run afresh on symbols, the decoder on those of the last frame: the last one's data, the phase in
/// which it is read, its bit, how many symbols stand, how many frames are before, and the bits in the room of 68.
fn afresh(to_extract: &[u8], to_decode: &[u8], frames: u8) -> Vec<u8> {
    let (phase, data) = extracted(to_extract);
    let tps = to_decode.iter().map(|number| tps_carrier_bins().map(|bin| ruled(*number)[bin])).collect::<Vec<_>>();
    let mut bits = received(&tps);
    let mut answer = patterns(&floats(&data), pattern);
    answer.extend([phase, *bits.last().expect("a symbol that stands"), bits.len() as u8, frames]);
    bits.resize(FRAME, 0);
    answer.extend(bits);
    answer
}

/// Scripts that end with a feed: feeds alone, steps back, resets, steps back where none stands, up to 68 symbols; over a frame's beginning and back
/// into the frame before, and as far back as three frames allow and on again.
fn scripts() -> Vec<Vec<u8>> {
    let mut scripts: Vec<Vec<u8>> = [
        &[0][..], &[1], &[0, 1], &[0, 1, 2, 3, 4], &[0, STEP_BACK, 1], &[STEP_BACK, 2], &[0, 1, STEP_BACK, 2], &[0, 1, 2, STEP_BACK, 3],
        &[0, 1, 2, STEP_BACK, STEP_BACK, 4], &[5, 7, STEP_BACK, STEP_BACK, STEP_BACK, 9, 10], &[0, 1, 2, RESET, 4, 5],
        &[0, 1, RESET, STEP_BACK, 3, 4, STEP_BACK, 6, 7, 9],
    ].map(<[u8]>::to_vec).to_vec();
    scripts.push((100..168).collect());
    scripts.push((0..68).chain([STEP_BACK; 3]).chain(70..72).chain([STEP_BACK, 253]).collect());
    scripts.push((0..70).chain([STEP_BACK; 3]).chain([200]).collect());
    scripts.push((0..138).chain([STEP_BACK; 75]).chain(140..209).collect());
    scripts
}

/// The scripts; then the fault of June, a feed behind a step back read in the phase of the symbol that was taken back, whole and by its parts.
pub fn session(lines: &mut Lines) {
    for script in scripts() {
        let frames = standing(&script);
        let before = frames.len() - 1;
        lines.answer("Session", 0, &script, Some(&afresh(&frames.concat(), &frames[before], before as u8)));
    }
    let script = [0, 1, STEP_BACK, 2];
    let right = afresh(&[0, 2], &[0, 2], 0);
    let phase_kept = afresh(&[0, 1, 2], &[0, 2], 0);
    let cells_kept = afresh(&[0, 2], &[1, 2], 0);
    let data_only = [&phase_kept[..8 * DATA], &right[8 * DATA..]].concat();
    let (phase, bit) = (8 * DATA, 8 * DATA + 1);
    assert!(right[phase] == 1 && phase_kept[phase] == 2 && right[..phase] != phase_kept[..phase] && right[bit] == 0 && cells_kept[bit] == 1);
    for wrong in [phase_kept, data_only, cells_kept] {
        lines.wrong("Session", 0, &script, 0, &wrong);
    }
    lines.turned("Session", 0, &script, &right, 8 * (8 * DATA + 4) + 7);
}
