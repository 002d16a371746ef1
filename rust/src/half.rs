//! Floating-point numbers of 16 bits. The crate `tiff` takes them from the crate `half`; this crate
//! depends on no other, so it has a type of its own under that name.

use std::cmp::Ordering;
use std::fmt;

/// A floating-point number of 16 bits, as IEEE 754 has it.
#[allow(non_camel_case_types)]
#[derive(Clone, Copy, Default)]
#[repr(transparent)]
pub struct f16(u16);

impl f16 {
    /// Returns the number with these bits.
    pub const fn from_bits(bits: u16) -> f16 {
        f16(bits)
    }

    /// Returns the bits of the number.
    pub const fn to_bits(self) -> u16 {
        self.0
    }

    /// Returns the same number in 32 bits, which have every number of 16 bits.
    pub fn to_f32(self) -> f32 {
        let sign = u32::from(self.0 >> 15) << 31;
        let exponent = u32::from(self.0 >> 10 & 0x1f);
        let fraction = u32::from(self.0 & 0x3ff);
        match exponent {
            // A number without a leading one counts steps of 2^-24.
            0 => {
                let size = fraction as f32 / (1 << 24) as f32;
                f32::from_bits(size.to_bits() | sign)
            }
            31 => f32::from_bits(sign | 0xff << 23 | fraction << 13),
            _ => f32::from_bits(sign | (exponent + (127 - 15)) << 23 | fraction << 13),
        }
    }

    /// Returns the same number in 64 bits.
    pub fn to_f64(self) -> f64 {
        f64::from(self.to_f32())
    }

    /// Tells whether this is no number.
    pub const fn is_nan(self) -> bool {
        self.0 & 0x7fff > 0x7c00
    }
}

impl PartialEq for f16 {
    fn eq(&self, other: &f16) -> bool {
        self.to_f32() == other.to_f32()
    }
}

impl PartialOrd for f16 {
    fn partial_cmp(&self, other: &f16) -> Option<Ordering> {
        self.to_f32().partial_cmp(&other.to_f32())
    }
}

impl fmt::Debug for f16 {
    fn fmt(&self, f: &mut fmt::Formatter<'_>) -> fmt::Result {
        fmt::Debug::fmt(&self.to_f32(), f)
    }
}

impl fmt::Display for f16 {
    fn fmt(&self, f: &mut fmt::Formatter<'_>) -> fmt::Result {
        fmt::Display::fmt(&self.to_f32(), f)
    }
}

impl From<f16> for f32 {
    fn from(number: f16) -> f32 {
        number.to_f32()
    }
}

impl From<f16> for f64 {
    fn from(number: f16) -> f64 {
        number.to_f64()
    }
}

#[cfg(test)]
mod tests {
    use super::f16;

    #[test]
    fn numbers_are_the_same_in_32_bits() {
        let cases = [
            (0x0000, 0.0),
            (0x0001, 2f32.powi(-24)),
            (0x03ff, 1023.0 * 2f32.powi(-24)),
            (0x0400, 2f32.powi(-14)),
            (0x3800, 0.5),
            (0x3c00, 1.0),
            (0x3c01, 1.0 + 2f32.powi(-10)),
            (0xc000, -2.0),
            (0x7bff, 65504.0),
            (0x7c00, f32::INFINITY),
            (0xfc00, f32::NEG_INFINITY),
        ];
        for (bits, number) in cases {
            assert_eq!(f16::from_bits(bits).to_f32(), number, "{bits:#06x}");
            assert_eq!(f16::from_bits(bits).to_bits(), bits);
        }
        assert!(f16::from_bits(0x8000).to_f32().is_sign_negative());
        assert!(f16::from_bits(0x7e00).is_nan() && f16::from_bits(0x7e00).to_f32().is_nan());
    }

    #[test]
    fn numbers_are_compared_as_numbers() {
        assert_eq!(f16::from_bits(0x8000), f16::from_bits(0));
        assert_ne!(f16::from_bits(0x7e00), f16::from_bits(0x7e00));
        assert!(f16::from_bits(0x3c00) < f16::from_bits(0x4000));
        assert_eq!(
            format!("{:?} {}", f16::from_bits(0x3e00), f16::from_bits(0x3e00)),
            "1.5 1.5"
        );
    }
}
