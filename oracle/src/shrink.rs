//! Smaller inputs to try in place of one that shows a difference: each is strictly smaller than what it is made from.

/// Up to here every shorter length is tried, from 0 upwards.
const ALL_LENGTHS: usize = 4096;

/// Numbers below one, large strides first.
pub fn numbers(number: usize) -> impl Iterator<Item = usize> {
    let strides = (0..usize::BITS).map(move |halvings| number >> halvings).take_while(|stride| *stride > 0);
    strides.map(move |stride| number - stride)
}

/// Lengths below one: all where it is small, else strides (whole packets too), then the small ones.
pub fn lengths(length: usize) -> Box<dyn Iterator<Item = usize>> {
    if length <= ALL_LENGTHS {
        return Box::new(0..length);
    }
    let strides = numbers(length).flat_map(|shorter| [shorter / 188 * 188, shorter]);
    Box::new(strides.chain(0..ALL_LENGTHS).chain([length - 188, length - 187]))
}

/// Byte strings below one: shorter prefixes, then zeros in place of ever smaller parts, then ones in place of single bytes.
pub fn bytes(bytes: &[u8]) -> impl Iterator<Item = Vec<u8>> + '_ {
    lengths(bytes.len()).map(|length| bytes[..length].to_vec()).chain(plainer(bytes))
}

/// Byte strings of the same length with more zeros, or a one in place of a byte above one.
pub fn plainer(bytes: &[u8]) -> impl Iterator<Item = Vec<u8>> + '_ {
    let sizes = (0..usize::BITS).map(|halvings| bytes.len() >> halvings).take_while(|size| *size > 0);
    let parts = sizes.flat_map(|size| (0..bytes.len()).step_by(size).map(move |start| (start, size)));
    let zeroed = parts.filter_map(|(start, size)| zeroed(bytes, start, size));
    let places = (0..bytes.len()).filter(|place| bytes[*place] > 1);
    zeroed.chain(places.map(|place| with(bytes, place, 1)))
}

/// The bytes with a part set to zero, where that changes anything.
fn zeroed(bytes: &[u8], start: usize, size: usize) -> Option<Vec<u8>> {
    let end = bytes.len().min(start + size);
    if bytes[start..end].iter().all(|byte| *byte == 0) {
        return None;
    }
    let mut plain = bytes.to_vec();
    plain[start..end].fill(0);
    Some(plain)
}

/// The bytes with one of them replaced.
fn with(bytes: &[u8], place: usize, byte: u8) -> Vec<u8> {
    let mut changed = bytes.to_vec();
    changed[place] = byte;
    changed
}

/// Floats below one: zero, one, then ever fewer of its low bits cleared, then single bits; each has a smaller bit pattern.
pub fn floats(float: f32) -> impl Iterator<Item = f32> {
    let bits = float.to_bits();
    let plain = [0, 1f32.to_bits(), bits & 0x7fff_ffff].into_iter();
    let shorter = (1..32).rev().map(move |low| bits >> low << low);
    let cleared = (0..32).map(move |place| bits & !(1 << place));
    plain.chain(shorter).chain(cleared).filter(move |less| *less < bits).map(f32::from_bits)
}

/// Sequences of calls below one: fewer calls, then less in one of them.
pub fn calls<'a, Call: Clone, Less: Iterator<Item = Call> + 'a>(
    calls: &'a [Call],
    less: impl Fn(&'a Call) -> Less + 'a,
) -> Box<dyn Iterator<Item = Vec<Call>> + 'a> {
    let fronts = (0..calls.len()).map(|length| calls[..length].to_vec());
    let without = (0..calls.len()).map(|place| [&calls[..place], &calls[place + 1..]].concat());
    let within = (0..calls.len()).flat_map(move |place| {
        less(&calls[place]).map(move |call| [&calls[..place], &[call], &calls[place + 1..]].concat())
    });
    Box::new(fronts.chain(without).chain(within))
}
