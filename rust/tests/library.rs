//! The crate as a caller has it: answers, refusals, and states that a refused call leaves as they were.

use saltkernel::desk::{Desk, SuperFrame};
use saltkernel::fec::PunctureRate;
use saltkernel::interleaver::{deinterleave, interleave, INTERLEAVED_CELLS};
use saltkernel::modulate::ConstellationOrder;
use saltkernel::multicarrier::*;
use saltkernel::report::{put_heading, put_line, read_line, read_line_mended, Reader, CLOSE_ROOM, HEADING_BYTES, LINE_ROOM};
use saltkernel::session::Session;
use saltkernel::waveform::dvb_t::*;
use saltkernel::waveform::dvb_t_tps::*;
use saltkernel::waveform::dvb_t_ts::*;
use saltkernel::{Complex32, Refusal};

/// Bytes of noise.
fn noise(count: usize) -> Vec<u8> {
    let mut state = 1u32;
    let mut next = || {
        state = state.wrapping_mul(1664525).wrapping_add(1013904223);
        (state >> 24) as u8
    };
    (0..count).map(|_| next()).collect()
}

/// Cells of noise.
fn cells(count: usize) -> Vec<Complex32> {
    noise(2 * count).chunks(2).map(|pair| Complex32::new(f32::from(pair[0]) - 128.0, f32::from(pair[1]) / 8.0)).collect()
}

const ZERO: Complex32 = Complex32::new(0.0, 0.0);
const WORD: TpsWord =
    TpsWord { frame_number: 3, constellation: ConstellationOrder::Qam16, code_rate_hp: PunctureRate::R7_8, guard: GuardInterval::G1_16, cell_id: 0xC3 };

#[test]
fn refusals_have_their_numbers_and_names() {
    let names = ["LENGTH", "NOT A BIT", "OUTPUT SHORT", "NO WORD", "RESERVED", "FULL", "EMPTY", "INCOMPLETE", "BAD LINE", "OUT OF STEP", "MISMATCH", "RETIRED"];
    assert_eq!(Refusal::ALL.len(), names.len());
    for (refusal, (number, name)) in Refusal::ALL.iter().copied().zip((1..).zip(names)) {
        assert_eq!((refusal.number(), refusal.to_string().as_str()), (number, name));
        assert_eq!(Refusal::from_number(number), Some(refusal));
    }
    assert_eq!((Refusal::from_number(0), Refusal::from_number(13)), (None, None));
}

#[test]
fn payloads_come_back_out_of_packets() {
    let payload = noise(1800);
    for length in 0..payload.len() {
        let mut packets = ts_packetize_dispersed(&payload[..length]);
        let count = usize::max(1, (length + 186) / 187);
        assert_eq!((packets.len(), packets[0]), (188 * count, 0xB8));
        assert_eq!(ts_energy_disperse(&mut packets), Ok(count));
        assert!(packets.chunks(188).all(|packet| packet[0] == 0x47));
        let back = ts_depacketize(&packets).unwrap();
        assert_eq!(back[..length], payload[..length]);
        assert!(back[length..].iter().all(|&byte| byte == 0));
    }
    let mut out = [9; 190];
    assert_eq!(ts_packetize_dispersed_into(&payload[..5], &mut out), Ok(188));
    assert_eq!(out[188..], [9, 9]);
    assert_eq!(ts_depacketize(&[]), Err(Refusal::Length));
    assert_eq!(ts_depacketize_into(&out[..188], &mut [0; 186]), Err(Refusal::OutputShort));
}

#[test]
fn stuffing_grows_whole_packets_alone() {
    let mut ts = noise(188);
    let before = ts.clone();
    assert_eq!(ts_stuff_null_packets(&mut ts, 1), Ok(()));
    assert_eq!(ts, before);
    assert_eq!(ts_stuff_null_packets(&mut ts, usize::MAX), Err(Refusal::OutputShort));
    assert_eq!(ts_stuff_null_packets(&mut ts, usize::MAX / 188), Err(Refusal::OutputShort));
    assert_eq!(ts, before);
    assert_eq!(ts_stuff_null_packets(&mut ts, 4), Ok(()));
    assert_eq!((ts.len(), &ts[..188], &ts[564..]), (752, &before[..], &ts_null_packet()[..]));
    ts.push(0);
    assert_eq!(ts_stuff_null_packets(&mut ts, 9), Err(Refusal::Length));
    assert_eq!(ts.len(), 753);
    assert_eq!(ts_stuff_null_packets_into(&mut ts, 188, 4), Ok(752));
    assert_eq!(ts_stuff_null_packets_into(&mut ts, 188, 5), Err(Refusal::OutputShort));
    assert_eq!(ts_stuff_null_packets_into(&mut ts, 940, 5), Err(Refusal::Length));
}

#[test]
fn dispersal_is_its_own_inverse() {
    let clear = noise(188 * 17);
    let mut packets = clear.clone();
    assert_eq!(ts_energy_disperse(&mut packets), Ok(17));
    assert_ne!(packets, clear);
    assert_eq!(ts_energy_disperse(&mut packets), Ok(17));
    assert_eq!(packets, clear);
    assert_eq!(ts_energy_disperse(&mut packets[1..]), Err(Refusal::Length));
    assert_eq!(packets, clear);
    assert_eq!(ts_energy_disperse(&mut []), Ok(0));
}

#[test]
fn the_whitener_goes_on_where_it_stands() {
    let clear = noise(100);
    let (mut whole, mut parts) = (DvbTEnergyDispersal::default(), DvbTEnergyDispersal::new());
    let whitened = whole.feed(&clear);
    let mut out = [0; 60];
    assert_eq!(parts.feed_into(&clear[..60], &mut out), Ok(60));
    assert_eq!(out[..], whitened[..60]);
    let before = parts;
    assert_eq!(parts.feed_into(&clear, &mut out), Err(Refusal::OutputShort));
    assert_eq!(parts, before);
    parts.advance_byte();
    let mut rest = clear[61..].to_vec();
    parts.feed_in_place(&mut rest);
    assert_eq!(rest, whitened[61..]);
    assert_eq!(parts, whole);
    parts.reset();
    assert_eq!(parts, DvbTEnergyDispersal::new());
}

#[test]
fn points_demap_to_their_bits() {
    for v in [2, 4, 6] {
        for group in 0..1u8 << v {
            let bits: Vec<u8> = (0..v).map(|i| group >> i & 1).collect();
            let point = dvb_t_map_symbol(&bits).unwrap();
            assert_eq!(dvb_t_demap_symbol(point, v), Ok(bits.clone()));
            let soft = dvb_t_soft_llr(point, v).unwrap();
            assert_eq!(soft.iter().map(|&value| u8::from(value < 0.0)).collect::<Vec<_>>(), bits);
            assert_eq!(dvb_t_soft_llr_by_value(point, v).unwrap()[..], soft[..]);
        }
    }
    for v in [0, 1, 3, 5, 7, usize::MAX] {
        assert_eq!(dvb_t_demap_symbol(ZERO, v), Err(Refusal::Length));
        assert_eq!(dvb_t_soft_llr(ZERO, v), Err(Refusal::Length));
    }
    assert_eq!(dvb_t_map_symbol(&[0, 0, 0, 255]), Err(Refusal::NotABit));
    assert!(dvb_t_soft_llr(Complex32::new(f32::NAN, 1.0), 2).unwrap()[0].is_nan());
}

#[test]
fn each_active_carrier_is_data_or_pilot_or_tps() {
    let w = wk_prbs(DVB_T_ACTIVE_CARRIERS);
    for phase in 0..DVB_T_SCATTERED_PHASES {
        let pilots = reference_pilot_bins(phase);
        let bins = data_bins(phase).into_iter().chain(pilots.iter().map(|&(bin, _)| bin)).chain(tps_carrier_bins());
        let mut actives: Vec<usize> = bins.map(|bin| bin_to_active(bin).unwrap().into()).collect();
        actives.sort_unstable();
        assert!(actives.into_iter().eq(0..=DVB_T_KMAX));
        for (bin, value) in pilots {
            let bit = w[usize::from(bin_to_active(bin).unwrap())];
            assert_eq!(boosted_pilot_value(bit), Ok(value));
        }
        assert_eq!(scattered_pilot_indices(phase).len(), if phase == 0 { 143 } else { 142 });
    }
    assert_eq!(data_bins(usize::MAX), data_bins(3));
    assert_eq!(data_bins_into(0, &mut [Bin(0); 1511]), Err(Refusal::OutputShort));
    assert_eq!(scattered_pilot_indices_into(0, &mut [Active(0); 142]), Err(Refusal::OutputShort));
    assert_eq!(reference_pilot_bins_into(0, &mut [Bin(0); 176], &mut [ZERO; 175]), Err(Refusal::OutputShort));
}

#[test]
fn carriers_are_counted_in_three_ways() {
    for active in (0..=1704).map(Active) {
        let bin = active_to_signed(active).and_then(signed_to_bin).unwrap();
        assert_eq!(bin_to_active(bin), Ok(active));
    }
    assert_eq!(continual_pilot_indices().map(|a| active_to_signed(a).and_then(signed_to_bin).unwrap()), continual_pilot_bins());
    assert_eq!(tps_carrier_indices().map(|a| active_to_signed(a).and_then(signed_to_bin).unwrap()), tps_carrier_bins());
    assert_eq!(active_to_signed(Active(u16::MAX)), Err(Refusal::Length));
    assert_eq!(signed_to_bin(Signed(i16::MIN)), Err(Refusal::Length));
    assert_eq!(bin_to_active(Bin(1000)), Err(Refusal::Length));
}

#[test]
fn symbols_come_back_in_every_phase() {
    let (mut mapper, mut extractor) = (ScatteredPilotMapper::new(GuardInterval::G1_4), ScatteredPilotExtractor::new(GuardInterval::G1_4));
    assert_eq!((mapper.num_data_carriers(), extractor.n_fft()), (1512, 2048));
    for phase in [0, 1, 2, 3, 0] {
        assert_eq!(extractor.phase(), phase);
        assert_eq!((extractor.data_bins(), extractor.current_pilot_bins()), (data_bins(phase), reference_pilot_bins(phase)));
        let (data, mut symbol, mut back) = (cells(1512), vec![Complex32::new(7.0, 7.0); 2049], vec![ZERO; 1512]);
        let before = mapper;
        assert_eq!(mapper.map_symbol(&data[..1511], &mut symbol), Err(Refusal::Length));
        assert_eq!(mapper.map_symbol(&data, &mut symbol[..2047]), Err(Refusal::OutputShort));
        assert_eq!((mapper, symbol[0]), (before, Complex32::new(7.0, 7.0)));
        mapper.map_symbol(&data, &mut symbol).unwrap();
        assert_eq!((symbol[1000], symbol[2048]), (ZERO, Complex32::new(7.0, 7.0)));
        for (bin, value) in extractor.current_pilot_bins() {
            assert_eq!(symbol[usize::from(bin)], value);
        }
        assert_eq!(extractor.extract_symbol(&symbol[..2047], &mut back), Err(Refusal::Length));
        assert_eq!(extractor.extract_symbol(&symbol, &mut back[..1511]), Err(Refusal::OutputShort));
        extractor.extract_symbol(&symbol, &mut back).unwrap();
        assert_eq!(back, data);
    }
    extractor.reset();
    mapper.reset();
    assert_eq!((extractor.phase(), mapper), (0, ScatteredPilotMapper::new(GuardInterval::G1_32)));
}

#[test]
fn interleaved_cells_come_back_by_bits() {
    let mut data = cells(INTERLEAVED_CELLS + 1);
    (data[3].re, data[4].im, data[5].re) = (f32::from_bits(0xFFC1_2345), f32::NEG_INFINITY, -0.0);
    let bits = |cells: &[Complex32]| cells[..INTERLEAVED_CELLS].iter().map(|cell| (cell.re.to_bits(), cell.im.to_bits())).collect::<Vec<_>>();
    for symbol in [0, 1, 66, 67, usize::MAX] {
        let (mut sent, mut back) = (vec![ZERO; INTERLEAVED_CELLS + 2], vec![ZERO; INTERLEAVED_CELLS]);
        assert_eq!(interleave(symbol, &data, &mut sent), Ok(INTERLEAVED_CELLS));
        assert_eq!((bits(&sent) == bits(&data), &sent[INTERLEAVED_CELLS..]), (false, &[ZERO, ZERO][..]));
        assert_eq!(deinterleave(symbol, &sent, &mut back), Ok(INTERLEAVED_CELLS));
        assert_eq!(bits(&back), bits(&data));
        assert_eq!(deinterleave(symbol ^ 1, &data, &mut back), Ok(INTERLEAVED_CELLS));
        assert_eq!(bits(&back), bits(&sent));
        let before = sent.clone();
        assert_eq!(interleave(symbol, &data[..1511], &mut sent[..1511]), Err(Refusal::Length));
        assert_eq!(deinterleave(symbol, &data, &mut sent[..1511]), Err(Refusal::OutputShort));
        assert_eq!(bits(&before), bits(&sent));
    }
}

#[test]
fn static_symbols_are_read_and_no_more_made() {
    let (data, mut symbol, mut back) = (cells(1660), cells(2048), vec![ZERO; 1660]);
    for (k, bin) in static_data_bins().into_iter().enumerate() {
        symbol[usize::from(bin)] = data[k];
    }
    assert_eq!(GridExtract::new().process(&symbol, &mut back), Ok(WorkReport { in_read: 2048, out_written: 1660 }));
    assert_eq!(back, data);
    let before = symbol.clone();
    assert_eq!(GridMap::new().process(&data, &mut symbol), Err(Refusal::Retired));
    assert_eq!(GridMap::new().process(&data, &mut symbol[..2047]), Err(Refusal::Retired));
    assert_eq!(GridMap::new().process(&data[1..], &mut symbol), Err(Refusal::Length));
    assert_eq!(symbol, before);
    assert_eq!(GridExtract::new().process(&symbol, &mut back[1..]), Err(Refusal::OutputShort));
    assert_eq!(static_data_bins_into(&mut []), Err(Refusal::OutputShort));
}

#[test]
fn two_wrong_bits_are_mended() {
    let info: Vec<u8> = noise(53).iter().map(|byte| byte & 1).collect();
    let code = tps_bch_encode(&info).unwrap();
    assert_eq!(code[..53], info[..]);
    for place in 0..67 {
        let mut wrong = code;
        wrong[place] ^= 1;
        wrong[(place + 11) % 67] ^= 1;
        assert_eq!(tps_bch_decode(&wrong).unwrap()[..], info[..]);
        let mut places = [place, (place + 11) % 67];
        places.sort_unstable();
        assert_eq!(tps_bch_decode_mended(&wrong).unwrap().1.places(), places);
    }
    assert_eq!(tps_bch_decode_mended(&code).unwrap().1, Mended::default());
    let mut none = [0; 67];
    (none[59], none[63], none[66]) = (1, 1, 1);
    assert_eq!(tps_bch_decode(&none), Err(Refusal::NoWord));
    assert_eq!(tps_bch_decode_mended(&none), Err(Refusal::NoWord));
    assert_eq!(tps_bch_decode_into(&none, &mut [0; 52]), Err(Refusal::OutputShort));
    none[0] = 2;
    assert_eq!(tps_bch_decode(&none), Err(Refusal::NotABit));
    assert_eq!(tps_bch_encode(&none[..53]), Err(Refusal::NotABit));
    assert_eq!(tps_bch_encode(&none), Err(Refusal::Length));
    assert_eq!(tps_bch_encode_into(&info, &mut [0; 66]), Err(Refusal::OutputShort));
}

#[test]
fn words_come_back() {
    for constellation in [ConstellationOrder::Qpsk, ConstellationOrder::Qam16, ConstellationOrder::Qam64] {
        for code_rate_hp in [PunctureRate::R1_2, PunctureRate::R2_3, PunctureRate::R3_4, PunctureRate::R5_6, PunctureRate::R7_8] {
            for guard in [GuardInterval::G1_32, GuardInterval::G1_16, GuardInterval::G1_8, GuardInterval::G1_4] {
                let word = TpsWord { constellation, code_rate_hp, guard, ..WORD };
                assert_eq!(TpsWord::unpack(&word.pack()), Ok(word));
            }
        }
    }
    assert_eq!(TpsWord::unpack(&TpsWord { frame_number: 6, ..WORD }.pack()).unwrap().frame_number, 2);
    assert_eq!(WORD.pack_into(&mut [0; 67]), Err(Refusal::OutputShort));
    let mut info = [0; 53];
    (info[24], info[25]) = (1, 1);
    let mut bits = [0; 68];
    bits[1..].copy_from_slice(&tps_bch_encode(&info).unwrap());
    assert_eq!(TpsWord::unpack(&bits), Err(Refusal::Reserved));
    bits[0] = 2;
    assert_eq!(TpsWord::unpack(&bits), Err(Refusal::NotABit));
}

#[test]
fn the_second_rate_is_zero_and_ignored() {
    let word = TpsWord { code_rate_hp: PunctureRate::R7_8, ..WORD };
    let mut bits = word.pack();
    assert_eq!((&bits[30..33], &bits[33..36]), (&[1, 0, 0][..], &[0, 0, 0][..]));
    for second in 0..8u8 {
        bits[33..36].copy_from_slice(&[second >> 2, second >> 1 & 1, second & 1]);
        let sent = tps_bch_encode(&bits[1..54]).unwrap();
        bits[1..].copy_from_slice(&sent);
        (bits[5], bits[34]) = (1 - bits[5], 1 - bits[34]);
        assert_eq!(TpsWord::unpack(&bits), Ok(word));
        (bits[5], bits[34]) = (1 - bits[5], 1 - bits[34]);
    }
}

#[test]
fn a_frame_is_sent_and_received() {
    let (mut encoder, mut decoder) = (TpsEncoder::default(), TpsDecoder::default());
    for (n, bit) in WORD.pack().into_iter().enumerate() {
        assert_eq!((decoder.is_complete(), decoder.bits().len(), decoder.word()), (false, n, Err(Refusal::Incomplete)));
        assert_eq!(encoder.next_symbol(2), Err(Refusal::NotABit));
        assert_eq!(encoder.next_symbol_into(bit, &mut [ZERO; 16]), Err(Refusal::OutputShort));
        let sent = encoder.next_symbol(bit).unwrap();
        assert_eq!(decoder.feed_symbol(&sent[..16]), Err(Refusal::Length));
        assert_eq!(decoder.feed_symbol(&sent), Ok(bit));
        let mut out = [9; 69];
        assert_eq!(decoder.bits_into(&mut out[..n]), Err(Refusal::OutputShort));
        assert_eq!((decoder.bits_into(&mut out), &out[..=n], out[n + 1]), (Ok(n + 1), decoder.bits(), 9));
    }
    assert_eq!((decoder.is_complete(), decoder.bits(), decoder.word()), (true, &WORD.pack()[..], Ok(WORD)));
    assert_eq!(decoder.word_mended(), Ok((WORD, Mended::default())));
    assert_eq!(decoder.feed_symbol(&[ZERO; 17]), Err(Refusal::Full));
    assert_eq!(decoder.bits().len(), 68);
    let first = TpsEncoder::new().next_symbol(0);
    let held = encoder.next_symbol(0);
    assert_ne!(encoder.next_symbol(1), held);
    encoder.reset();
    decoder.reset();
    assert_eq!((encoder.next_symbol(1), decoder.bits().len()), (first, 0));
}

#[test]
fn a_session_steps_back_to_where_it_was() {
    let (mut mapper, mut encoder, mut session) = (ScatteredPilotMapper::new(GuardInterval::G1_8), TpsEncoder::new(), Session::default());
    let (mut symbol, mut out, mut fed) = (vec![ZERO; 2048], vec![ZERO; 1512], Vec::new());
    assert_eq!(session.step_back(), Err(Refusal::Empty));
    for (n, bit) in WORD.pack().into_iter().enumerate() {
        let data = cells(1512 + n).split_off(n);
        mapper.map_symbol(&data, &mut symbol).unwrap();
        for (bin, cell) in tps_carrier_bins().into_iter().zip(encoder.next_symbol(bit).unwrap()) {
            symbol[usize::from(bin)] = cell;
        }
        assert_eq!((session.phase(), session.bits().len(), session.word()), (n % 4, n, Err(Refusal::Incomplete)));
        assert_eq!(session.feed(&symbol[1..], &mut out), Err(Refusal::Length));
        assert_eq!(session.feed(&symbol, &mut out[1..]), Err(Refusal::OutputShort));
        fed.push((symbol.clone(), data, bit));
        // Forward, back, and forward again: one symbol more, and two steps back where there are two.
        for _ in 0..usize::min(n, 2) {
            session.step_back().unwrap();
        }
        for (symbol, data, bit) in &fed[session.bits().len()..] {
            assert_eq!(session.feed(symbol, &mut out), Ok(*bit));
            assert_eq!(&out, data);
        }
    }
    assert_eq!((session.bits(), session.word()), (&WORD.pack()[..], Ok(WORD)));
    assert_eq!(session.word_mended(), Ok((WORD, Mended::default())));
    let copy = session.clone();
    for n in (0..68).rev() {
        session.step_back().unwrap();
        assert_eq!((session.bits(), session.phase()), (&WORD.pack()[..n], n % 4));
    }
    session.reset();
    assert_eq!((session.step_back(), copy.word()), (Err(Refusal::Empty), Ok(WORD)));
}

#[test]
fn a_session_steps_back_into_the_frame_before() {
    let (mut session, mut out) = (Session::new(), vec![ZERO; 1512]);
    let symbols: Vec<_> = (0..206).map(|n| cells(2048 + n).split_off(n)).collect();
    let mut shown = vec![];
    for symbol in &symbols[..206] {
        shown.push(session.clone());
        session.feed(symbol, &mut out).unwrap();
    }
    assert_eq!((session.frame(), session.len(), session.phase()), (3, 2, 2));
    // Back over the beginning of frame 3 to the first symbol of frame 2, which is the last that can be gone back to.
    for n in (2 * 68 + 1..206).rev() {
        session.step_back().unwrap();
        let then = &shown[n];
        // With 68 standing the next symbol's frame isn't begun yet.
        assert_eq!((session.frame(), session.len(), session.bits(), session.phase()), (then.frame(), then.len(), then.bits(), then.phase()));
        assert_eq!(session.word(), then.word());
    }
    assert_eq!((session.frame(), session.len(), session.step_back()), (2, 1, Err(Refusal::Empty)));
    // And on again, over the same beginning.
    for symbol in &symbols[2 * 68 + 1..206] {
        session.feed(symbol, &mut out).unwrap();
    }
    assert_eq!((session.frame(), session.len()), (3, 2));
    session.reset();
    assert_eq!((session.frame(), session.len(), session.step_back()), (0, 0, Err(Refusal::Empty)));
}

/// The line of a word.
fn line_of(word: TpsWord) -> Vec<u8> {
    word.pack().chunks(4).map(|bits| b"0123456789abcdef"[bits.iter().fold(0, |digit, bit| 2 * digit + usize::from(*bit))]).collect()
}

#[test]
fn a_desk_names_super_frames() {
    let word = |frame_number, cell_id| TpsWord { frame_number, cell_id, ..WORD };
    let mut desk = Desk::new();
    for id in [0x12AB, 0xFFFF, 0, 0x00FF] {
        let [high, low] = u16::to_be_bytes(id);
        for (number, byte) in [(0, high), (1, low), (2, high)] {
            assert_eq!(desk.take(word(number, byte)), Ok(None));
        }
        let frame = SuperFrame { cell_id: id, constellation: WORD.constellation, code_rate_hp: WORD.code_rate_hp, guard: WORD.guard };
        assert_eq!(desk.take(word(3, low)), Ok(Some(frame)));
        assert_eq!(desk, Desk::new());
    }
    // A number above 3 is in step nowhere, and every other parameter that differs is a mismatch.
    assert_eq!(desk.take(word(4, 0)), Err(Refusal::OutOfStep));
    let others = [
        TpsWord { constellation: ConstellationOrder::Qpsk, ..word(1, 0) },
        TpsWord { code_rate_hp: PunctureRate::R1_2, ..word(1, 0) },
        TpsWord { guard: GuardInterval::G1_4, ..word(1, 0) },
    ];
    for other in others {
        assert_eq!(desk.take(word(0, 9)), Ok(None));
        assert_eq!(desk.take(other), Err(Refusal::Mismatch));
        assert_eq!(desk, Desk::new());
    }
}

#[test]
fn lines_are_read_and_written() {
    let mut out = [b'.'; LINE_ROOM];
    let line = line_of(WORD);
    assert_eq!(read_line(&line), Ok(WORD));
    assert_eq!(read_line(&line[1..]), Err(Refusal::BadLine));
    assert_eq!(read_line(&line.to_ascii_uppercase()), Err(Refusal::BadLine));
    let clean = Ok((WORD, Mended::default()));
    assert_eq!(read_line_mended(&line), clean);
    assert_eq!(put_line(7, clean, &mut out[1..]), Err(Refusal::OutputShort));
    assert_eq!(out, [b'.'; LINE_ROOM]);
    let text = b"18446744073709551615 3 16 7/8 1/16 c3 0\n";
    assert_eq!(put_line(u64::MAX, clean, &mut out), Ok(text.len()));
    assert_eq!(&out[..text.len()], text);
    for &refusal in Refusal::ALL {
        let count = put_line(1, Err(refusal), &mut out).unwrap();
        assert_eq!(out[..count], *format!("1 refused {}\n", refusal.number()).as_bytes());
    }
    assert_eq!(put_heading(&mut out[..HEADING_BYTES - 1]), Err(Refusal::OutputShort));
    assert_eq!(put_heading(&mut out), Ok(HEADING_BYTES));
}

#[test]
fn a_report_is_the_same_in_all_parts() {
    let input = [&line_of(WORD)[..], b"\n\n", &[b'0'; 200], b"\n", &[b'0'; 17]].concat();
    let whole = b"1 3 16 7/8 1/16 c3 0\n2 refused 9\n3 refused 9\n4 0 4 1/2 1/32 00 0\nread 4 refused 2\n";
    for size in 1..=input.len() {
        let mut reader = Reader::new();
        let mut report: Vec<u8> = input.chunks(size).flat_map(|part| reader.feed(part)).collect();
        assert_eq!(reader.feed_into(b"\n", &mut [0; LINE_ROOM - 1]), Err(Refusal::OutputShort));
        assert_eq!(reader.close_into(&mut [0; CLOSE_ROOM - 1]), Err(Refusal::OutputShort));
        report.extend(reader.close());
        assert_eq!(report, whole);
    }
}
