//! Symbols from data cells, and data cells from symbols.

use crate::call;
use crate::carrier::Bin;
use crate::complex::Complex32;
use crate::numbers::{bins_mut, floats, floats_mut};
use crate::packets::count_of;
use crate::pilots::{DVB_T_DATA_CARRIERS, DVB_T_N_FFT, DVB_T_REFERENCE_PILOTS};
use crate::refusal::{accepted, Refusal};
use crate::sys::{SaltScatteredPilotExtractor, SaltScatteredPilotMapper, SALT_STATIC_DATA_CELLS};
use crate::words::GuardInterval;

/// The mapper: makes symbols, each in the phase after the last one's (EN 300 744, 4.5).
///
/// ```
/// use saltkernel::waveform::dvb_t::{GuardInterval, ScatteredPilotExtractor, ScatteredPilotMapper};
/// use saltkernel::{Complex32, Refusal};
///
/// let mut mapper = ScatteredPilotMapper::new(GuardInterval::G1_32);
/// let mut extractor = ScatteredPilotExtractor::new(GuardInterval::G1_32);
/// let data: Vec<Complex32> = (0..1512).map(|k| Complex32::new(k as f32, -1.0)).collect();
/// let (mut symbol, mut back) = (vec![Complex32::default(); 2048], vec![Complex32::default(); 1512]);
/// mapper.map_symbol(&data, &mut symbol)?;
/// assert_eq!(symbol[1196], Complex32::new(-4.0 / 3.0, 0.0));
/// extractor.extract_symbol(&symbol, &mut back)?;
/// assert_eq!(back, data);
/// assert_eq!(extractor.phase(), 1);
/// assert_eq!(mapper.map_symbol(&data[1..], &mut symbol), Err(Refusal::Length));
/// # Ok::<(), Refusal>(())
/// ```
#[derive(Clone, Copy, Debug, PartialEq, Eq)]
pub struct ScatteredPilotMapper {
    state: SaltScatteredPilotMapper,
}

impl ScatteredPilotMapper {
    /// A mapper in phase 0; the guard interval plays no part in the grid.
    pub fn new(_guard: GuardInterval) -> Self {
        Self { state: call::scattered_pilot_mapper_new() }
    }

    /// The data carriers of a symbol, 1,512.
    pub fn num_data_carriers(&self) -> usize {
        DVB_T_DATA_CARRIERS
    }

    /// The cells of a symbol, 2,048.
    pub fn n_fft(&self) -> usize {
        DVB_T_N_FFT
    }

    /// Goes back to phase 0.
    pub fn reset(&mut self) {
        self.state = call::scattered_pilot_mapper_reset(self.state);
    }

    /// Makes a symbol: 2,048 cells +0.0, then the 1,512 data cells in their bins, then the boosted value on every reserved carrier, TPS carriers among
    /// them. Refusals: [`Refusal::Length`] for fewer data cells, then [`Refusal::OutputShort`].
    pub fn map_symbol(&mut self, data: &[Complex32], freq_out: &mut [Complex32]) -> Result<(), Refusal> {
        let answer = call::scattered_pilot_mapper_map_symbol(self.state, floats(data), floats_mut(freq_out));
        self.state = answer.mapper;
        accepted(answer.number, ())
    }
}

/// The extractor: reads symbols, each in the phase after the last one's (EN 300 744, 4.5).
#[derive(Clone, Copy, Debug, PartialEq, Eq)]
pub struct ScatteredPilotExtractor {
    state: SaltScatteredPilotExtractor,
}

impl ScatteredPilotExtractor {
    /// An extractor in phase 0; the guard interval plays no part in the grid.
    pub fn new(_guard: GuardInterval) -> Self {
        Self { state: call::scattered_pilot_extractor_new() }
    }

    /// The data carriers of a symbol, 1,512.
    pub fn num_data_carriers(&self) -> usize {
        DVB_T_DATA_CARRIERS
    }

    /// The cells of a symbol, 2,048.
    pub fn n_fft(&self) -> usize {
        DVB_T_N_FFT
    }

    /// Goes back to phase 0.
    pub fn reset(&mut self) {
        self.state = call::scattered_pilot_extractor_reset(self.state);
    }

    /// The phase of the next symbol, 0 to 3.
    pub fn phase(&self) -> usize {
        call::scattered_pilot_extractor_phase(self.state)
    }

    /// The bins and values of the next symbol's reference pilots, as [`reference_pilot_bins`](crate::waveform::dvb_t::reference_pilot_bins) gives them.
    pub fn current_pilot_bins(&self) -> Vec<(Bin, Complex32)> {
        let mut bins = [Bin(0); DVB_T_REFERENCE_PILOTS];
        let mut values = [Complex32::default(); DVB_T_REFERENCE_PILOTS];
        self.current_pilot_bins_into(&mut bins, &mut values).expect("the outputs are as long as needed");
        bins.into_iter().zip(values).collect()
    }

    /// [`current_pilot_bins`](Self::current_pilot_bins) into two lent outputs; gives 176, or [`Refusal::OutputShort`].
    pub fn current_pilot_bins_into(&self, bins: &mut [Bin], values: &mut [Complex32]) -> Result<usize, Refusal> {
        count_of(call::scattered_pilot_extractor_current_pilot_bins(self.state, bins_mut(bins), floats_mut(values)))
    }

    /// The bins of the next symbol's data carriers, as [`data_bins`](crate::waveform::dvb_t::data_bins) gives them.
    pub fn data_bins(&self) -> Vec<Bin> {
        let mut out = vec![Bin(0); DVB_T_DATA_CARRIERS];
        self.data_bins_into(&mut out).expect("the output is as long as needed");
        out
    }

    /// [`data_bins`](Self::data_bins) into a lent output; gives 1,512, or [`Refusal::OutputShort`].
    pub fn data_bins_into(&self, out: &mut [Bin]) -> Result<usize, Refusal> {
        count_of(call::scattered_pilot_extractor_data_bins(self.state, bins_mut(out)))
    }

    /// Reads the 1,512 data cells of a symbol, in rising active order. Refusals: [`Refusal::Length`] for fewer than 2,048 cells, then
    /// [`Refusal::OutputShort`].
    pub fn extract_symbol(&mut self, freq: &[Complex32], data_out: &mut [Complex32]) -> Result<(), Refusal> {
        let answer = call::scattered_pilot_extractor_extract_symbol(self.state, floats(freq), floats_mut(data_out));
        self.state = answer.extractor;
        accepted(answer.number, ())
    }
}

// ---- the static grid

/// The data carriers of the static grid.
pub const STATIC_DATA_CARRIERS: usize = SALT_STATIC_DATA_CELLS;

/// The cells that a call of the static grid read and wrote.
#[derive(Clone, Copy, Debug, Default, PartialEq, Eq)]
pub struct WorkReport {
    /// The cells read.
    pub in_read: usize,
    /// The cells written.
    pub out_written: usize,
}

/// The bins of the static grid's data carriers, in rising active order.
pub fn static_data_bins() -> Vec<Bin> {
    let mut out = vec![Bin(0); STATIC_DATA_CARRIERS];
    static_data_bins_into(&mut out).expect("the output is as long as needed");
    out
}

/// [`static_data_bins`] into a lent output; gives 1,660, or [`Refusal::OutputShort`].
pub fn static_data_bins_into(out: &mut [Bin]) -> Result<usize, Refusal> {
    count_of(call::static_data_bins(bins_mut(out)))
}

/// Made symbols of the static grid, and is retired: every call is refused. Symbols made before are read by [`GridExtract`].
///
/// ```
/// use saltkernel::multicarrier::GridMap;
/// use saltkernel::{Complex32, Refusal};
///
/// let (data, mut symbol) = (vec![Complex32::new(0.5, 0.25); 1660], vec![Complex32::default(); 2048]);
/// assert_eq!(GridMap::new().process(&data, &mut symbol), Err(Refusal::Retired));
/// assert_eq!(GridMap::new().process(&data[1..], &mut symbol), Err(Refusal::Length));
/// assert_eq!(symbol, vec![Complex32::default(); 2048]);
/// ```
#[derive(Clone, Copy, Debug, Default)]
pub struct GridMap;

impl GridMap {
    /// The static grid's mapper.
    pub fn new() -> Self {
        Self
    }

    /// The data carriers of a symbol, 1,660.
    pub fn num_data_carriers(&self) -> usize {
        STATIC_DATA_CARRIERS
    }

    /// The cells of a symbol, 2,048.
    pub fn n_fft(&self) -> usize {
        DVB_T_N_FFT
    }

    /// Is refused, and leaves the output as it is: [`Refusal::Length`] for fewer than 1,660 data cells, else [`Refusal::Retired`].
    pub fn process(&mut self, input: &[Complex32], output: &mut [Complex32]) -> Result<WorkReport, Refusal> {
        let out_written = count_of(call::grid_map(floats(input), floats_mut(output)))?;
        Ok(WorkReport { in_read: STATIC_DATA_CARRIERS, out_written })
    }
}

/// Reads symbols of the static grid: 1,660 data cells, and boosted pilots on the continual carriers alone.
///
/// ```
/// use saltkernel::multicarrier::{static_data_bins, GridExtract};
/// use saltkernel::{Complex32, Refusal};
///
/// let (mut symbol, mut back) = (vec![Complex32::default(); 2048], vec![Complex32::default(); 1660]);
/// let last = static_data_bins()[1659];
/// symbol[usize::from(last)] = Complex32::new(0.5, 0.25);
/// assert_eq!(GridExtract::new().process(&symbol, &mut back)?.out_written, 1660);
/// assert_eq!(back[1659], Complex32::new(0.5, 0.25));
/// # Ok::<(), Refusal>(())
/// ```
#[derive(Clone, Copy, Debug, Default)]
pub struct GridExtract;

impl GridExtract {
    /// The static grid's extractor.
    pub fn new() -> Self {
        Self
    }

    /// The data carriers of a symbol, 1,660.
    pub fn num_data_carriers(&self) -> usize {
        STATIC_DATA_CARRIERS
    }

    /// The cells of a symbol, 2,048.
    pub fn n_fft(&self) -> usize {
        DVB_T_N_FFT
    }

    /// Reads the data cells of a symbol. Refusals: [`Refusal::Length`] for fewer than 2,048 cells, then [`Refusal::OutputShort`].
    pub fn process(&mut self, input: &[Complex32], output: &mut [Complex32]) -> Result<WorkReport, Refusal> {
        let out_written = count_of(call::grid_extract(floats(input), floats_mut(output)))?;
        Ok(WorkReport { in_read: DVB_T_N_FFT, out_written })
    }
}
