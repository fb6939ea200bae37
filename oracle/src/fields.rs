//! A TPS word as five bytes: the frame number, document 01's codes for three enums of orion-sdr's, and the cell id.

use orion_sdr::fec::PunctureRate;
use orion_sdr::modulate::ConstellationOrder;
use orion_sdr::waveform::dvb_t::GuardInterval;
use orion_sdr::waveform::dvb_t_tps::TpsWord;

/// orion-sdr's constellations, each at the place of its code.
const CONSTELLATIONS: [ConstellationOrder; 3] = [ConstellationOrder::Qpsk, ConstellationOrder::Qam16, ConstellationOrder::Qam64];
/// Its rates.
const RATES: [PunctureRate; 5] = [PunctureRate::R1_2, PunctureRate::R2_3, PunctureRate::R3_4, PunctureRate::R5_6, PunctureRate::R7_8];
/// Its guard intervals.
pub const GUARDS: [GuardInterval; 4] = [GuardInterval::G1_32, GuardInterval::G1_16, GuardInterval::G1_8, GuardInterval::G1_4];

/// orion-sdr's word with these fields; none where a code is outside its enum.
pub fn orion_word([frame_number, constellation, rate, guard, cell_id]: [u8; 5]) -> Option<TpsWord> {
    Some(TpsWord {
        frame_number,
        constellation: *CONSTELLATIONS.get(usize::from(constellation))?,
        code_rate_hp: *RATES.get(usize::from(rate))?,
        guard: *GUARDS.get(usize::from(guard))?,
        cell_id,
    })
}

/// The fields of a word of orion-sdr's.
pub fn orion_fields(word: TpsWord) -> [u8; 5] {
    let (constellation, rate) = (code(&CONSTELLATIONS, word.constellation), code(&RATES, word.code_rate_hp));
    [word.frame_number, constellation, rate, code(&GUARDS, word.guard), word.cell_id]
}

/// The code of an enum's case.
fn code<T: PartialEq>(cases: &[T], case: T) -> u8 {
    cases.iter().position(|one| *one == case).expect("a case that has a code") as u8
}
