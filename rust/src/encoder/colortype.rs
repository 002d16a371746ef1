//! What the samples of an image are.
//!
//! [`Gray1`], [`Gray2`] and [`Gray4`] are this package's. A sample of these is a byte of packed pixels
//! of one row, the leftmost pixel in the highest bits, where 0 is black. Each row begins with a new
//! byte: it has as many as its pixels fill, the last one partly, which are those that a reader of the
//! page returns. They have no extra samples and no predictor.

use std::mem::size_of;

use super::TiffValue;
use crate::tags::{PhotometricInterpretation, SampleFormat};

/// What the samples of an image are.
///
/// A type of one's own is written if its constants are those of a type of this module; any other is
/// refused.
pub trait ColorType {
    /// The number type of a sample.
    type Inner: TiffValue;
    /// What the samples mean.
    const TIFF_VALUE: PhotometricInterpretation;
    /// How many bits each sample of a pixel has.
    const BITS_PER_SAMPLE: &'static [u16];
    /// What the bits of each sample of a pixel are.
    const SAMPLE_FORMAT: &'static [SampleFormat];

    /// Appends a row of samples to `result`: those of the first pixel, and of each other one the
    /// differences from those of the pixel on its left. It appends nothing of a row that is shorter
    /// than a pixel. Floating-point samples have no differences: it ends the program.
    fn horizontal_predict(row: &[Self::Inner], result: &mut Vec<Self::Inner>);
}

/// A number that may have a difference.
trait Difference: Copy {
    /// Returns the difference from another number, without what passes the bits.
    fn difference(self, from: Self) -> Self;
}

macro_rules! differences {
    ($($number:ty)*) => {
        $(impl Difference for $number {
            fn difference(self, from: Self) -> Self {
                self.wrapping_sub(from)
            }
        })*
    };
}

differences!(u8 u16 u32 u64 i8 i16 i32 i64);

macro_rules! no_differences {
    ($($number:ty)*) => {
        $(impl Difference for $number {
            fn difference(self, _: Self) -> Self {
                unreachable!("floating-point samples have no differences")
            }
        })*
    };
}

no_differences!(f32 f64);

/// Appends the differences of a row whose pixels have so many samples.
fn append_differences<T: Difference>(samples: usize, row: &[T], result: &mut Vec<T>) {
    if row.len() < samples {
        return;
    }
    let (first, rest) = row.split_at(samples);
    result.extend_from_slice(first);
    let pairs = rest.iter().zip(row);
    result.extend(pairs.map(|(sample, left)| sample.difference(*left)));
}

/// The interpretation, the bits and the formats of a color type.
type Constants = (
    PhotometricInterpretation,
    &'static [u16],
    &'static [SampleFormat],
);

/// Returns how many bits a sample has: those of its number type, or fewer of packed pixels.
const fn bits_of(number_type: usize, packed: u16) -> u16 {
    match packed {
        0 => 8 * number_type as u16,
        bits => bits,
    }
}

/// Declares the color types, in the order of the header for C: the name, the number type of a
/// sample, the interpretation, how many samples a pixel has, what their bits are, and of packed
/// pixels how many bits one has, else 0.
macro_rules! color_types {
    ($($name:ident $inner:ident $interpretation:ident $samples:literal $format:ident $packed:literal $about:literal;)*) => {
        $(
            #[doc = concat!($about, ": `", stringify!($inner), "` samples.")]
            pub struct $name;

            impl ColorType for $name {
                type Inner = $inner;
                const TIFF_VALUE: PhotometricInterpretation =
                    PhotometricInterpretation::$interpretation;
                const BITS_PER_SAMPLE: &'static [u16] =
                    &[bits_of(size_of::<$inner>(), $packed); $samples];
                const SAMPLE_FORMAT: &'static [SampleFormat] = &[SampleFormat::$format; $samples];

                fn horizontal_predict(row: &[$inner], result: &mut Vec<$inner>) {
                    append_differences($samples, row, result);
                }
            }
        )*

        const ALL: [Constants; 33] = [
            $(($name::TIFF_VALUE, $name::BITS_PER_SAMPLE, $name::SAMPLE_FORMAT),)*
        ];
    };
}

color_types! {
    Gray8 u8 BlackIsZero 1 Uint 0 "Gray";
    Gray16 u16 BlackIsZero 1 Uint 0 "Gray";
    Gray32 u32 BlackIsZero 1 Uint 0 "Gray";
    Gray64 u64 BlackIsZero 1 Uint 0 "Gray";
    GrayI8 i8 BlackIsZero 1 Int 0 "Gray";
    GrayI16 i16 BlackIsZero 1 Int 0 "Gray";
    GrayI32 i32 BlackIsZero 1 Int 0 "Gray";
    GrayI64 i64 BlackIsZero 1 Int 0 "Gray";
    Gray32Float f32 BlackIsZero 1 IEEEFP 0 "Gray";
    Gray64Float f64 BlackIsZero 1 IEEEFP 0 "Gray";
    RGB8 u8 RGB 3 Uint 0 "Red, green and blue";
    RGB16 u16 RGB 3 Uint 0 "Red, green and blue";
    RGB32 u32 RGB 3 Uint 0 "Red, green and blue";
    RGB64 u64 RGB 3 Uint 0 "Red, green and blue";
    RGB32Float f32 RGB 3 IEEEFP 0 "Red, green and blue";
    RGB64Float f64 RGB 3 IEEEFP 0 "Red, green and blue";
    RGBA8 u8 RGB 4 Uint 0 "Red, green, blue and alpha";
    RGBA16 u16 RGB 4 Uint 0 "Red, green, blue and alpha";
    RGBA32 u32 RGB 4 Uint 0 "Red, green, blue and alpha";
    RGBA64 u64 RGB 4 Uint 0 "Red, green, blue and alpha";
    RGBA32Float f32 RGB 4 IEEEFP 0 "Red, green, blue and alpha";
    RGBA64Float f64 RGB 4 IEEEFP 0 "Red, green, blue and alpha";
    CMYK8 u8 CMYK 4 Uint 0 "Cyan, magenta, yellow and black";
    CMYK16 u16 CMYK 4 Uint 0 "Cyan, magenta, yellow and black";
    CMYK32 u32 CMYK 4 Uint 0 "Cyan, magenta, yellow and black";
    CMYK64 u64 CMYK 4 Uint 0 "Cyan, magenta, yellow and black";
    CMYK32Float f32 CMYK 4 IEEEFP 0 "Cyan, magenta, yellow and black";
    CMYK64Float f64 CMYK 4 IEEEFP 0 "Cyan, magenta, yellow and black";
    YCbCr8 u8 YCbCr 3 Uint 0 "Luma and two samples of chroma for each pixel";
    CMYKA8 u8 CMYK 5 Uint 0 "Cyan, magenta, yellow, black and alpha";
    Gray1 u8 BlackIsZero 1 Uint 1 "Gray, 1 bit, eight pixels to a sample";
    Gray2 u8 BlackIsZero 1 Uint 2 "Gray, 2 bits, four pixels to a sample";
    Gray4 u8 BlackIsZero 1 Uint 4 "Gray, 4 bits, two pixels to a sample";
}

/// Returns the number of a color type in the header for C, if it has one.
pub(super) fn number_of<C: ColorType>() -> Option<u32> {
    let constants = (C::TIFF_VALUE, C::BITS_PER_SAMPLE, C::SAMPLE_FORMAT);
    let bits = match packed_bits::<C>() {
        0 => 8 * u16::from(C::Inner::BYTE_LEN),
        bits if C::Inner::BYTE_LEN == 1 => bits,
        _ => return None,
    };
    let (number, _) = (0..).zip(ALL).find(|(_, color)| *color == constants)?;
    C::BITS_PER_SAMPLE.starts_with(&[bits]).then_some(number)
}

/// Returns how many bits a packed pixel has; 0 of color types whose samples have whole bytes.
pub(super) fn packed_bits<C: ColorType>() -> u16 {
    match C::BITS_PER_SAMPLE {
        [bits @ (1 | 2 | 4)] => *bits,
        _ => 0,
    }
}

#[cfg(test)]
mod tests {
    use super::*;

    #[test]
    fn color_types_have_the_numbers_of_the_header() {
        assert_eq!(number_of::<Gray8>(), Some(0));
        assert_eq!(number_of::<GrayI64>(), Some(7));
        assert_eq!(number_of::<Gray64Float>(), Some(9));
        assert_eq!(number_of::<RGB32Float>(), Some(14));
        assert_eq!(number_of::<RGBA8>(), Some(16));
        assert_eq!(number_of::<CMYK64Float>(), Some(27));
        assert_eq!(number_of::<YCbCr8>(), Some(28));
        assert_eq!(number_of::<CMYKA8>(), Some(29));
        assert_eq!(number_of::<Gray1>(), Some(30));
        assert_eq!(number_of::<Gray2>(), Some(31));
        assert_eq!(number_of::<Gray4>(), Some(32));
    }

    #[test]
    fn differences_are_those_of_neighbors() {
        let mut result = vec![9];
        RGB8::horizontal_predict(&[1, 2, 3, 3, 2, 1], &mut result);
        assert_eq!(result, [9, 1, 2, 3, 2, 0, 254]);
        RGB8::horizontal_predict(&[1, 2], &mut result);
        assert_eq!(result.len(), 7);
        let mut result = Vec::new();
        GrayI16::horizontal_predict(&[i16::MIN, i16::MAX, 0], &mut result);
        assert_eq!(result, [i16::MIN, -1, -32767]);
        let mut result = Vec::new();
        Gray32Float::horizontal_predict(&[1.5], &mut result);
        assert_eq!(result, [1.5]);
    }
}
