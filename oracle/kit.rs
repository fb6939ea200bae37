//! What the library calls of the kit, for its source compiled by rustc: each does what the kit's promise says.

/// Writes a number's decimal digits at the start of the output, and gives how many they are.
pub fn decimal(number: u64, out: &mut [u8; 20]) -> usize {
    let text = number.to_string();
    out[..text.len()].copy_from_slice(text.as_bytes());
    text.len()
}

/// The sum modulo 2^64.
pub fn wrapping_add_u64(one: u64, other: u64) -> u64 {
    one.wrapping_add(other)
}
