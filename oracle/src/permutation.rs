//! The permutation of EN 300 744, 4.3.4.2, for the 2K mode, written a second time: a register of single bits, and nothing of the port's.

/// The places of a symbol's data cells.
pub const CELLS: usize = 1512;
/// The bits of R that bits 9, 8, .., 0 of the register become.
const WIRES: [usize; 10] = [0, 7, 5, 1, 8, 2, 6, 9, 3, 4];

/// H(0), H(1), ..: the register runs through all its steps, and an address that is a place is the next one.
pub fn permutation() -> Vec<usize> {
    let (mut register, mut places) = ([false; 10], Vec::new());
    for step in 0..2048 {
        match step {
            0 | 1 => {}
            2 => register[0] = true,
            _ => {
                let enters = register[0] != register[3];
                register.rotate_left(1);
                register[9] = enters;
            }
        }
        let wired = (0..10).rev().zip(WIRES).filter(|(from, _)| register[*from]).map(|(_, to)| 1 << to);
        let address = step % 2 * 1024 + wired.sum::<usize>();
        if address < CELLS {
            places.push(address);
        }
    }
    places
}
