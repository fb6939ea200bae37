//! Carriers and pilots: the three counts of a carrier, the pilot sequence and the lists of orion-sdr's dvb_t.rs and grid.rs.
//! orion-sdr's grids are built for a guard interval, and the port's have none.

use crate::answer::Answer;
use crate::fields::GUARDS;
use crate::harness::{Expected, Run, Subject};
use crate::lent::{EMPTY, Lent, Room, UNTOUCHED, background, surroundings};
use crate::random::Random;
use crate::refusals::{LENGTH, NOT_A_BIT, OUTPUT_SHORT};
use crate::sys::SaltCounted;
use crate::sys::SaltScatteredPilotExtractor as Extractor;
use crate::{call, shrink};
use num_complex::Complex32;
use orion_sdr::multicarrier::{CarrierGrid, CarrierPlan};
use orion_sdr::waveform::dvb_t as orion;
use std::ops::RangeInclusive;

/// The last active carrier.
const LAST: i32 = orion::DVB_T_KMAX as i32;
/// The signed index of the last active carrier.
const HALF: i32 = LAST / 2;

/// Compares all functions of this module.
pub fn compare(run: &mut Run) {
    conversions().into_iter().for_each(|conversion| run.compare(conversion.name, conversion));
    run.compare("wk_prbs", Sequence);
    run.compare("boosted_pilot_value", Boosted);
    tables().into_iter().for_each(|table| run.compare(table.name, table));
    lists().into_iter().for_each(|list| run.compare(list.name, list));
    references().into_iter().for_each(|reference| run.compare(reference.name, reference));
    run.compare("ScatteredPilotExtractor::phase", Phase { extractors: extractors() });
}

/// A conversion from one count of a carrier to another, over all that its argument's type holds.
struct Conversion {
    name: &'static str,
    inputs: RangeInclusive<i32>,
    ours: fn(i32) -> (u8, i32),
    theirs: Box<dyn Fn(i32) -> Option<i32>>,
}

/// The three conversions; each has an answer of orion-sdr's where document 01 has one.
fn conversions() -> [Conversion; 3] {
    let signed: Vec<i32> = (0..=LAST).map(|active| orion::active_to_signed(active as usize)).collect();
    let bins = bins_of(signed);
    let active_of = move |bin| bins.iter().position(|one| *one as i32 == bin).map(|active| active as i32);
    [
        Conversion {
            name: "active_to_signed",
            inputs: 0..=i32::from(u16::MAX),
            ours: |active| {
                let answer = call::active_to_signed(active as u16);
                (answer.number, i32::from(answer.index))
            },
            theirs: Box::new(|active| (active <= LAST).then(|| orion::active_to_signed(active as usize))),
        },
        Conversion {
            name: "signed_to_bin",
            inputs: i32::from(i16::MIN)..=i32::from(i16::MAX),
            ours: |signed| {
                let answer = call::signed_to_bin(signed as i16);
                (answer.number, i32::from(answer.index))
            },
            theirs: Box::new(|signed| (-HALF..=HALF).contains(&signed).then(|| bins_of(vec![signed])[0] as i32)),
        },
        Conversion {
            name: "bin_to_active",
            inputs: 0..=i32::from(u16::MAX),
            ours: |bin| {
                let answer = call::bin_to_active(bin as u16);
                (answer.number, i32::from(answer.index))
            },
            theirs: Box::new(active_of),
        },
    ]
}

/// The bins of signed indices, by orion-sdr's grid.
fn bins_of(signed: Vec<i32>) -> Vec<usize> {
    CarrierGrid::from_plan(&CarrierPlan::new(orion::DVB_T_N_FFT, 0).with_data_carriers(signed)).data_bins().to_vec()
}

impl Conversion {
    /// A number and an index as they are compared.
    fn answer((number, index): (u8, i32)) -> Answer {
        Answer::default().number("number", u64::from(number)).signed("index", index)
    }
}

impl Subject for Conversion {
    type Case = i32;

    fn each_case(&self, _: &mut Random, compare: &mut dyn FnMut(i32)) {
        self.inputs.clone().for_each(compare);
    }

    fn ours(&self, case: &i32) -> Answer {
        Self::answer((self.ours)(*case))
    }

    /// Where no active carrier has the index, LENGTH is owed by document 01; orion-sdr casts.
    fn expected(&self, case: &i32) -> Expected {
        match (self.theirs)(*case) {
            Some(index) => Expected::orion(Self::answer((0, index))),
            None => Expected::document(Self::answer((LENGTH, 0))),
        }
    }

    fn smaller<'a>(&'a self, case: &'a i32) -> Box<dyn Iterator<Item = i32> + 'a> {
        let nearer = shrink::numbers(case.unsigned_abs() as usize).map(|size| size as i32 * case.signum());
        Box::new((*case < 0).then_some(-case).into_iter().filter(|other| self.inputs.contains(other)).chain(nearer))
    }

    fn show(&self, case: &i32) -> String {
        format!("index {case}")
    }
}

/// The pilot sequence, at a length.
struct Sequence;

impl Subject for Sequence {
    type Case = usize;

    /// Short lengths, all around the carriers and the period, and random ones.
    fn each_case(&self, random: &mut Random, compare: &mut dyn FnMut(usize)) {
        (0..=100).chain(1700..=1710).chain(2040..=2060).chain([5_000, 3 * 2_047, 65_535, 65_536, 65_537, 200_000]).for_each(&mut *compare);
        (0..200).for_each(|_| compare(random.below(20_000)));
    }

    fn ours(&self, case: &usize) -> Answer {
        let mut out = Lent::to_write("output", &background(*case));
        call::wk_prbs(out.slice_mut());
        let found = surroundings(&mut [&mut out]);
        Answer::default().bytes("output", out.slice()).surroundings(&found)
    }

    fn expected(&self, case: &usize) -> Expected {
        Expected::orion(Answer::default().bytes("output", &orion::wk_prbs(*case)).surroundings(UNTOUCHED))
    }

    fn smaller<'a>(&'a self, case: &'a usize) -> Box<dyn Iterator<Item = usize> + 'a> {
        shrink::lengths(*case)
    }

    fn show(&self, case: &usize) -> String {
        format!("length {case}")
    }
}

/// The boosted value of a bit, over all bytes.
struct Boosted;

impl Boosted {
    /// A number and a value as they are compared.
    fn answer(number: u8, re: f32, im: f32) -> Answer {
        Answer::default().number("number", u64::from(number)).exact_floats("value", &[re, im])
    }
}

impl Subject for Boosted {
    type Case = u8;

    fn each_case(&self, _: &mut Random, compare: &mut dyn FnMut(u8)) {
        (0..=u8::MAX).for_each(compare);
    }

    fn ours(&self, case: &u8) -> Answer {
        let answer = call::boosted_pilot_value(*case);
        Self::answer(answer.number, answer.point.re, answer.point.im)
    }

    /// A byte above 1 is refused by document 01; orion-sdr computes with it.
    fn expected(&self, case: &u8) -> Expected {
        let value = orion::boosted_pilot_value(*case);
        if *case > 1 { Expected::document(Self::answer(NOT_A_BIT, 0.0, 0.0)) } else { Expected::orion(Self::answer(0, value.re, value.im)) }
    }

    fn smaller<'a>(&'a self, case: &'a u8) -> Box<dyn Iterator<Item = u8> + 'a> {
        Box::new(0..*case)
    }

    fn show(&self, case: &u8) -> String {
        format!("w {case}")
    }
}

/// A list that is always the same.
struct Table {
    name: &'static str,
    ours: fn() -> Vec<u16>,
    theirs: fn() -> Vec<usize>,
}

/// The lists that are always the same and answered by value.
fn tables() -> [Table; 4] {
    [
        Table {
            name: "continual_pilot_indices",
            ours: || call::continual_pilot_indices().carriers.to_vec(),
            theirs: || orion::DVB_T_CONTINUAL_PILOTS_2K.to_vec(),
        },
        Table {
            name: "continual_pilot_bins",
            ours: || call::continual_pilot_bins().carriers.to_vec(),
            theirs: || orion::continual_pilot_bins().to_vec(),
        },
        Table {
            name: "tps_carrier_indices",
            ours: || call::tps_carrier_indices().carriers.to_vec(),
            theirs: || orion::tps_carrier_indices().to_vec(),
        },
        Table {
            name: "tps_carrier_bins",
            ours: || call::tps_carrier_bins().carriers.to_vec(),
            theirs: || orion::tps_carrier_bins().to_vec(),
        },
    ]
}

impl Subject for Table {
    type Case = ();

    fn each_case(&self, _: &mut Random, compare: &mut dyn FnMut(())) {
        compare(());
    }

    fn ours(&self, _: &()) -> Answer {
        Answer::default().indices("list", &(self.ours)())
    }

    fn expected(&self, _: &()) -> Expected {
        Expected::orion(Answer::default().indices("list", &narrow(&(self.theirs)())))
    }

    fn smaller<'a>(&'a self, _: &'a ()) -> Box<dyn Iterator<Item = ()> + 'a> {
        Box::new(std::iter::empty())
    }

    fn show(&self, _: &()) -> String {
        "none".to_string()
    }
}

/// orion-sdr's indices as the port has them.
fn narrow(indices: &[usize]) -> Vec<u16> {
    indices.iter().map(|index| u16::try_from(*index).expect("an index of 16 bits")).collect()
}

/// How a lent output of indices stands before a call: none of them is a carrier's.
fn no_carriers(length: usize) -> Vec<u16> {
    (0..length).map(|place| 0x9000 + (place * 37 % 4_093) as u16).collect()
}

/// How a lent output of values stands before a call: floats that a value could be mixed up with, or not be cleared from.
pub fn no_values(length: usize) -> Vec<f32> {
    let patterns = [0x7fc1_2345, 0xc020_0000, 0x7f80_0000, 0x8000_0000, 0xff80_0000, 0xffc0_0001, 0x0000_0001, 0x40e0_0000, 0x7fa0_0000];
    (0..length).map(|place| f32::from_bits(patterns[place % patterns.len()])).collect()
}

/// Phases: the four, some rounds more, those that a narrower number would cut, the widest, and random ones.
pub fn phases(random: &mut Random) -> Vec<usize> {
    let cut = [8, 16, 32, 63].into_iter().flat_map(|power| (0..8).map(move |above| (1usize << power) - 4 + above));
    let wide = (0..8).map(|below| usize::MAX - below);
    let some: Vec<usize> = (0..40).map(|_| random.next() as usize >> random.below(64)).collect();
    (0..16).chain(cut).chain(wide).chain(some).collect()
}

/// orion-sdr's extractors, by guard interval and phase.
type Extractors = [[orion::ScatteredPilotExtractor; 4]; 4];

/// An extractor of orion-sdr's in each phase, for each guard interval.
fn extractors() -> Extractors {
    let (symbol, mut data) = ([Complex32::default(); orion::DVB_T_N_FFT], [Complex32::default(); orion::DVB_T_DATA_CARRIERS]);
    GUARDS.map(|guard| {
        let mut extractor = orion::ScatteredPilotExtractor::new(guard);
        std::array::from_fn(|_| {
            let here = extractor.clone();
            extractor.extract_symbol(&symbol, &mut data);
            here
        })
    })
}

/// A phase, one of orion-sdr's guard intervals, and the rooms of the lent outputs.
#[derive(Clone, Copy)]
struct Listing {
    phase: usize,
    guard: usize,
    rooms: [Room; 2],
}

impl Listing {
    /// Hands over every phase and guard interval in rooms of every kind.
    fn each(random: &mut Random, outputs: usize, mut compare: impl FnMut(Listing)) {
        for phase in phases(random) {
            let (longer, short) = (Room::Longer(random.between(2, 500)), Room::Short(random.between(2, 200)));
            let kinds = [Room::Exact, Room::Longer(1), longer, Room::Short(1), short, EMPTY];
            let seconds = &kinds[..if outputs > 1 { kinds.len() } else { 1 }];
            for (first, second) in kinds.iter().flat_map(|first| seconds.iter().map(move |second| (*first, *second))) {
                (0..GUARDS.len()).for_each(|guard| compare(Listing { phase, guard, rooms: [first, second] }));
            }
        }
    }

    /// Earlier phases, the first guard interval, and rooms nearer to the exact one.
    fn smaller(self) -> impl Iterator<Item = Listing> {
        let phases = shrink::numbers(self.phase).chain([self.phase % 4]).filter(move |less| *less < self.phase);
        let guards = (0..self.guard).map(move |guard| Listing { guard, ..self });
        let firsts = self.rooms[0].smaller().into_iter().map(move |room| Listing { rooms: [room, self.rooms[1]], ..self });
        let seconds = self.rooms[1].smaller().into_iter().map(move |room| Listing { rooms: [self.rooms[0], room], ..self });
        phases.map(move |phase| Listing { phase, ..self }).chain(guards).chain(firsts).chain(seconds)
    }
}

/// A list that is written into a lent output.
struct List {
    name: &'static str,
    ours: fn(usize, &mut [u16]) -> SaltCounted,
    theirs: Box<dyn Fn(usize, usize) -> Vec<usize>>,
}

/// The lists that are written into a lent output; orion-sdr's by phase and guard interval.
fn lists() -> [List; 4] {
    let static_grids = GUARDS.map(|guard| CarrierGrid::from_plan(&orion::dvb_t_2k_plan(guard)));
    let grids = GUARDS.map(|guard| orion::dvb_t_2k_plans(guard).each_ref().map(CarrierGrid::from_plan));
    let extractors = extractors();
    [
        List {
            name: "scattered_pilot_indices",
            ours: call::scattered_pilot_indices,
            theirs: Box::new(|phase, _| orion::scattered_pilot_indices(phase)),
        },
        List {
            name: "data_bins",
            ours: call::data_bins,
            theirs: Box::new(move |phase, guard| grids[guard][phase % 4].data_bins().to_vec()),
        },
        List {
            name: "static_data_bins",
            ours: |_, out| call::static_data_bins(out),
            theirs: Box::new(move |_, guard| static_grids[guard].data_bins().to_vec()),
        },
        List {
            name: "ScatteredPilotExtractor::data_bins",
            ours: |phase, out| call::scattered_pilot_extractor_data_bins(Extractor { phase }, out),
            theirs: Box::new(move |phase, guard| extractors[guard][phase % 4].data_bins().to_vec()),
        },
    ]
}

impl List {
    /// orion-sdr's list, and how the output stands before the call.
    fn given(&self, case: &Listing) -> (Vec<u16>, Vec<u16>) {
        let list = narrow(&(self.theirs)(case.phase, case.guard));
        let out = no_carriers(case.rooms[0].size(list.len()));
        (list, out)
    }
}

impl Subject for List {
    type Case = Listing;

    fn each_case(&self, random: &mut Random, compare: &mut dyn FnMut(Listing)) {
        Listing::each(random, 1, compare);
    }

    fn ours(&self, case: &Listing) -> Answer {
        let mut out = Lent::to_write("output", &self.given(case).1);
        let answer = (self.ours)(case.phase, out.slice_mut());
        let found = surroundings(&mut [&mut out]);
        Answer::counted(answer.number, answer.count).indices("output", out.slice()).surroundings(&found)
    }

    fn expected(&self, case: &Listing) -> Expected {
        let (list, mut out) = self.given(case);
        let answer = |number, count, out: &[u16]| Answer::counted(number, count).indices("output", out).surroundings(UNTOUCHED);
        if out.len() < list.len() {
            return Expected::document(answer(OUTPUT_SHORT, 0, &out));
        }
        out[..list.len()].copy_from_slice(&list);
        Expected::orion(answer(0, list.len(), &out))
    }

    fn smaller<'a>(&'a self, case: &'a Listing) -> Box<dyn Iterator<Item = Listing> + 'a> {
        Box::new(case.smaller())
    }

    fn show(&self, case: &Listing) -> String {
        format!("phase {}; output of {} items lent; orion-sdr's guard {:?}", case.phase, self.given(case).1.len(), GUARDS[case.guard])
    }
}

/// Reference pilots: the bins into one lent output, the values into another.
struct Reference {
    name: &'static str,
    ours: fn(usize, &mut [u16], &mut [f32]) -> SaltCounted,
    extractors: Extractors,
}

/// The two functions that give reference pilots.
fn references() -> [Reference; 2] {
    let by_extractor = |phase, bins: &mut [u16], values: &mut [f32]| call::scattered_pilot_extractor_current_pilot_bins(Extractor { phase }, bins, values);
    [
        Reference { name: "reference_pilot_bins", ours: call::reference_pilot_bins, extractors: extractors() },
        Reference { name: "ScatteredPilotExtractor::current_pilot_bins", ours: by_extractor, extractors: extractors() },
    ]
}

impl Reference {
    /// orion-sdr's bins and values, re and im in turn.
    fn pilots(&self, case: &Listing) -> (Vec<u16>, Vec<f32>) {
        let pilots = self.extractors[case.guard][case.phase % 4].current_pilot_bins();
        let bins: Vec<usize> = pilots.iter().map(|(bin, _)| *bin).collect();
        (narrow(&bins), pilots.iter().flat_map(|(_, value)| [value.re, value.im]).collect())
    }

    /// How the two outputs stand before the call.
    fn outputs(&self, case: &Listing) -> (Vec<u16>, Vec<f32>) {
        let (bins, values) = self.pilots(case);
        (no_carriers(case.rooms[0].size(bins.len())), no_values(case.rooms[1].size(values.len())))
    }

    /// An answer with its two outputs.
    fn answer(number: u8, count: usize, bins: &[u16], values: &[f32]) -> Answer {
        Answer::counted(number, count).indices("bins", bins).exact_floats("values", values)
    }
}

impl Subject for Reference {
    type Case = Listing;

    fn each_case(&self, random: &mut Random, compare: &mut dyn FnMut(Listing)) {
        Listing::each(random, 2, compare);
    }

    fn ours(&self, case: &Listing) -> Answer {
        let (bins, values) = self.outputs(case);
        let (mut bins, mut values) = (Lent::to_write("bins", &bins), Lent::to_write("values", &values));
        let answer = (self.ours)(case.phase, bins.slice_mut(), values.slice_mut());
        let found = (surroundings(&mut [&mut bins]), surroundings(&mut [&mut values]));
        Self::answer(answer.number, answer.count, bins.slice(), values.slice()).surroundings(&found.0).surroundings(&found.1)
    }

    fn expected(&self, case: &Listing) -> Expected {
        let ((bins, values), mut out) = (self.pilots(case), self.outputs(case));
        let refused = out.0.len() < bins.len() || out.1.len() < values.len();
        if !refused {
            out.0[..bins.len()].copy_from_slice(&bins);
            out.1[..values.len()].copy_from_slice(&values);
        }
        let (number, count) = if refused { (OUTPUT_SHORT, 0) } else { (0, bins.len()) };
        let answer = Self::answer(number, count, &out.0, &out.1).surroundings(UNTOUCHED).surroundings(UNTOUCHED);
        if refused { Expected::document(answer) } else { Expected::orion(answer) }
    }

    fn smaller<'a>(&'a self, case: &'a Listing) -> Box<dyn Iterator<Item = Listing> + 'a> {
        Box::new(case.smaller())
    }

    fn show(&self, case: &Listing) -> String {
        let (bins, values) = self.outputs(case);
        format!("phase {}; {} bins and {} f32 of values lent; orion-sdr's guard {:?}", case.phase, bins.len(), values.len(), GUARDS[case.guard])
    }
}

/// The phase that an extractor tells.
struct Phase {
    extractors: Extractors,
}

impl Subject for Phase {
    type Case = usize;

    fn each_case(&self, random: &mut Random, compare: &mut dyn FnMut(usize)) {
        phases(random).into_iter().for_each(compare);
    }

    fn ours(&self, case: &usize) -> Answer {
        Answer::default().number("phase", call::scattered_pilot_extractor_phase(Extractor { phase: *case }) as u64)
    }

    fn expected(&self, case: &usize) -> Expected {
        Expected::orion(Answer::default().number("phase", self.extractors[0][case % 4].phase() as u64))
    }

    fn smaller<'a>(&'a self, case: &'a usize) -> Box<dyn Iterator<Item = usize> + 'a> {
        Box::new(shrink::numbers(*case))
    }

    fn show(&self, case: &usize) -> String {
        format!("extractor of phase {case}")
    }
}
