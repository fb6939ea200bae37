//! A carrier's value.

use crate::call;
use crate::sys::SaltCell;

/// A carrier's value, two f32; num-complex's `Complex32` has the same layout.
///
/// ```
/// use saltkernel::Complex32;
///
/// let cell = Complex32::new(1.0, -0.5);
/// assert_eq!((cell.re, cell.im), (1.0, -0.5));
/// assert_eq!(Complex32::default(), Complex32::new(0.0, 0.0));
/// ```
#[derive(Clone, Copy, Debug, Default, PartialEq)]
#[repr(C)]
pub struct Complex32 {
    /// The in-phase part.
    pub re: f32,
    /// The quadrature part.
    pub im: f32,
}

impl Complex32 {
    /// The value with these two parts.
    pub const fn new(re: f32, im: f32) -> Self {
        Self { re, im }
    }

    /// Whether both parts have the same bits, any NaN counting as any other. `==` has 0.0 equal to -0.0, and a NaN to nothing.
    ///
    /// ```
    /// use saltkernel::Complex32;
    ///
    /// let cell = Complex32::new(f32::NAN, 0.0);
    /// assert!(cell.same(cell) && cell != cell);
    /// assert!(!cell.same(Complex32::new(f32::NAN, -0.0)));
    /// ```
    pub fn same(self, other: Self) -> bool {
        call::cell_same(self.into(), other.into()) == 1
    }
}

impl From<SaltCell> for Complex32 {
    fn from(cell: SaltCell) -> Self {
        Self::new(cell.re, cell.im)
    }
}

impl From<Complex32> for SaltCell {
    fn from(cell: Complex32) -> Self {
        SaltCell { re: cell.re, im: cell.im }
    }
}
