//! Transport packets, and energy dispersal over packets.

use crate::call;
use crate::refusal::{accepted, Refusal};
use crate::sys::{SaltCounted, SALT_GROUP_PACKETS, SALT_PACKET_BYTES, SALT_PAYLOAD_BYTES, SALT_SYNC_BYTE};

/// The bytes of a transport packet.
pub const TS_PACKET_LEN: usize = SALT_PACKET_BYTES;
/// The payload bytes of a packet.
pub const TS_PAYLOAD_LEN: usize = SALT_PAYLOAD_BYTES;
/// The first byte of a packet.
pub const TS_SYNC_BYTE: u8 = SALT_SYNC_BYTE;
/// Packets from one restart of the whitener's register to the next.
pub const TS_DISPERSAL_GROUP: usize = SALT_GROUP_PACKETS;

/// The count of an answer, or its refusal.
pub(crate) fn count_of(answer: SaltCounted) -> Result<usize, Refusal> {
    accepted(answer.number, answer.count)
}

/// Puts a payload into packets and whitens them, orion-sdr's `ts_packetize` and [`ts_energy_disperse`] in one: each packet is 0x47 and 187 bytes of
/// the payload, the last one filled with zeros, and is then whitened. An empty payload gives one packet.
///
/// ```
/// use saltkernel::waveform::dvb_t_ts::{ts_depacketize, ts_energy_disperse, ts_packetize_dispersed};
/// use saltkernel::Refusal;
///
/// assert_eq!(ts_packetize_dispersed(&[]).len(), 188);
/// assert_eq!(ts_packetize_dispersed(&[0; 188]).len(), 376);
/// let mut packets = ts_packetize_dispersed(&[0; 187]);
/// assert_eq!(packets[..5], [0xB8, 0x03, 0xF6, 0x08, 0x34]);
/// ts_energy_disperse(&mut packets)?;
/// assert_eq!(packets[..5], [0x47, 0, 0, 0, 0]);
/// assert_eq!(ts_depacketize(&packets)?, [0; 187]);
/// # Ok::<(), Refusal>(())
/// ```
pub fn ts_packetize_dispersed(payload: &[u8]) -> Vec<u8> {
    let whole = payload.len() / TS_PAYLOAD_LEN;
    let packets = if payload.is_empty() || payload.len() % TS_PAYLOAD_LEN != 0 { whole + 1 } else { whole };
    let mut out = vec![0; TS_PACKET_LEN * packets];
    ts_packetize_dispersed_into(payload, &mut out).expect("the output is as long as needed");
    out
}

/// [`ts_packetize_dispersed`] into a lent output; gives the bytes written, or [`Refusal::OutputShort`].
///
/// ```
/// use saltkernel::waveform::dvb_t_ts::ts_packetize_dispersed_into;
/// use saltkernel::Refusal;
///
/// assert_eq!(ts_packetize_dispersed_into(b"salt", &mut [0; 200]), Ok(188));
/// assert_eq!(ts_packetize_dispersed_into(b"salt", &mut [0; 187]), Err(Refusal::OutputShort));
/// ```
pub fn ts_packetize_dispersed_into(payload: &[u8], out: &mut [u8]) -> Result<usize, Refusal> {
    count_of(call::ts_packetize_dispersed(payload, out))
}

/// Takes packets apart: the 187 bytes behind each first byte, which isn't checked. No byte, or not whole packets, is [`Refusal::Length`].
pub fn ts_depacketize(packets: &[u8]) -> Result<Vec<u8>, Refusal> {
    let mut out = vec![0; packets.len() / TS_PACKET_LEN * TS_PAYLOAD_LEN];
    ts_depacketize_into(packets, &mut out)?;
    Ok(out)
}

/// [`ts_depacketize`] into a lent output; gives the bytes written. Refusals: [`Refusal::Length`], then [`Refusal::OutputShort`].
pub fn ts_depacketize_into(packets: &[u8], out: &mut [u8]) -> Result<usize, Refusal> {
    count_of(call::ts_depacketize(packets, out))
}

/// The null packet: 47 1F FF 10, then 184 bytes FF.
///
/// ```
/// assert_eq!(saltkernel::waveform::dvb_t_ts::ts_null_packet()[..5], [0x47, 0x1F, 0xFF, 0x10, 0xFF]);
/// ```
pub fn ts_null_packet() -> [u8; TS_PACKET_LEN] {
    call::ts_null_packet().bytes
}

/// Appends null packets up to a target in packets; a target at or below what is there appends nothing. Bytes that aren't whole packets are
/// [`Refusal::Length`], a target that no memory holds is [`Refusal::OutputShort`]; the bytes then stay as they are.
///
/// ```
/// use saltkernel::waveform::dvb_t_ts::{ts_null_packet, ts_stuff_null_packets};
/// use saltkernel::Refusal;
///
/// let mut ts = Vec::new();
/// ts_stuff_null_packets(&mut ts, 3)?;
/// assert_eq!(ts.len(), 3 * 188);
/// assert_eq!(ts[376..], ts_null_packet());
/// ts.pop();
/// assert_eq!(ts_stuff_null_packets(&mut ts, 4), Err(Refusal::Length));
/// # Ok::<(), Refusal>(())
/// ```
pub fn ts_stuff_null_packets(ts: &mut Vec<u8>, target_packets: usize) -> Result<(), Refusal> {
    let used = ts.len();
    let needed = target_packets.saturating_mul(TS_PACKET_LEN);
    if used % TS_PACKET_LEN == 0 && used < needed && ts.try_reserve_exact(needed - used).is_ok() {
        ts.resize(needed, 0);
    }
    let answer = ts_stuff_null_packets_into(ts, used, target_packets);
    ts.truncate(answer.unwrap_or(used));
    answer.map(|_| ())
}

/// Writes null packets behind the `used` bytes in use at the front of a lent buffer, up to a target in packets; gives the bytes then in use.
/// Refusals: [`Refusal::Length`] where `used` is past the buffer or not whole packets, then [`Refusal::OutputShort`] where the target is past the buffer.
pub fn ts_stuff_null_packets_into(ts: &mut [u8], used: usize, target_packets: usize) -> Result<usize, Refusal> {
    count_of(call::ts_stuff_null_packets(ts, used, target_packets))
}

/// Whitens packets in place, or gives whitened ones back; gives the packets. In every group of eight the register restarts at the first packet, whose
/// first byte is flipped; the other first bytes stay. Bytes that aren't whole packets are [`Refusal::Length`].
pub fn ts_energy_disperse(packets: &mut [u8]) -> Result<usize, Refusal> {
    count_of(call::ts_energy_disperse(packets))
}
