//! Values of tags, and numbers of samples.

use std::borrow::Cow;
use std::mem::size_of;
use std::slice::from_ref;

use crate::ffi;
use crate::tags::{self, Type};

/// Values of a tag, or samples.
#[cfg_attr(
    has_diagnostics,
    diagnostic::on_unimplemented(
        message = "`{Self}` is no value of a tag",
        note = "numbers, slices by reference such as `&vec[..]`, arrays, and `&str` are"
    )
)]
pub trait TiffValue {
    /// How many bytes a value has.
    const BYTE_LEN: u8;
    /// The type of the values.
    const FIELD_TYPE: Type;

    /// Returns how many values there are. The zero at the end of a text counts.
    fn count(&self) -> usize;

    /// Returns how many bytes the values have.
    fn bytes(&self) -> usize {
        self.count() * usize::from(Self::BYTE_LEN)
    }

    /// Returns the bytes of the values, in the byte order of this machine. A text that isn't ASCII
    /// or has a zero within has none.
    fn data(&self) -> Cow<'_, [u8]>;
}

/// Numbers whose memory is their bytes.
macro_rules! numbers {
    ($($number:ty: $ty:ident;)*) => {$(
        impl TiffValue for [$number] {
            const BYTE_LEN: u8 = size_of::<$number>() as u8;
            const FIELD_TYPE: Type = Type::$ty;

            fn count(&self) -> usize {
                self.len()
            }

            fn data(&self) -> Cow<'_, [u8]> {
                Cow::Borrowed(ffi::bytes_of(self))
            }
        }

        impl TiffValue for $number {
            const BYTE_LEN: u8 = size_of::<$number>() as u8;
            const FIELD_TYPE: Type = Type::$ty;

            fn count(&self) -> usize {
                1
            }

            fn data(&self) -> Cow<'_, [u8]> {
                Cow::Borrowed(ffi::bytes_of(from_ref(self)))
            }
        }
    )*};
}

numbers! {
    u8: BYTE;
    i8: SBYTE;
    u16: SHORT;
    i16: SSHORT;
    u32: LONG;
    i32: SLONG;
    u64: LONG8;
    i64: SLONG8;
    f32: FLOAT;
    f64: DOUBLE;
}

/// The offset of a directory, of 32 bits.
#[derive(Clone, Debug)]
pub struct Ifd(pub u32);

/// The offset of a directory, of 64 bits.
#[derive(Clone, Debug)]
pub struct Ifd8(pub u64);

/// A fraction of unsigned numbers.
#[derive(Clone, Debug)]
pub struct Rational {
    /// The numerator.
    pub n: u32,
    /// The denominator.
    pub d: u32,
}

/// A fraction of signed numbers.
#[derive(Clone, Debug)]
pub struct SRational {
    /// The numerator.
    pub n: i32,
    /// The denominator.
    pub d: i32,
}

/// A type whose values are made of numbers: the numbers behind `=>`, of `$value`. Each is a value
/// by itself or only in slices.
macro_rules! made_of_numbers {
    (@slice $type:ty: $ty:ident, $len:literal, $value:ident => $($number:expr),+) => {
        impl TiffValue for [$type] {
            const BYTE_LEN: u8 = $len;
            const FIELD_TYPE: Type = Type::$ty;

            fn count(&self) -> usize {
                self.len()
            }

            fn data(&self) -> Cow<'_, [u8]> {
                let mut bytes = Vec::with_capacity(self.len() * $len);
                for $value in self {
                    $(bytes.extend_from_slice(&$number.to_ne_bytes());)+
                }
                Cow::Owned(bytes)
            }
        }
    };
    (@single $type:ty: $ty:ident, $len:literal, $value:ident => $($number:expr),+) => {
        impl TiffValue for $type {
            const BYTE_LEN: u8 = $len;
            const FIELD_TYPE: Type = Type::$ty;

            fn count(&self) -> usize {
                1
            }

            fn data(&self) -> Cow<'_, [u8]> {
                let $value = self;
                let mut bytes = Vec::with_capacity($len);
                $(bytes.extend_from_slice(&$number.to_ne_bytes());)+
                Cow::Owned(bytes)
            }
        }
    };
    (@both $($all:tt)*) => {
        made_of_numbers!(@single $($all)*);
        made_of_numbers!(@slice $($all)*);
    };
}

made_of_numbers!(@both Ifd: IFD, 4, value => value.0);
made_of_numbers!(@both Ifd8: IFD8, 8, value => value.0);
made_of_numbers!(@both Rational: RATIONAL, 8, value => value.n, value.d);
made_of_numbers!(@both SRational: SRATIONAL, 8, value => value.n, value.d);
made_of_numbers!(@single tags::CompressionMethod: SHORT, 2, value => value.to_u16());
made_of_numbers!(@single tags::PhotometricInterpretation: SHORT, 2, value => value.to_u16());
made_of_numbers!(@single tags::PlanarConfiguration: SHORT, 2, value => value.to_u16());
made_of_numbers!(@single tags::Predictor: SHORT, 2, value => value.to_u16());
made_of_numbers!(@single tags::ResolutionUnit: SHORT, 2, value => value.to_u16());
made_of_numbers!(@slice tags::SampleFormat: SHORT, 2, value => value.to_u16());
made_of_numbers!(@slice tags::ExtraSamples: SHORT, 2, value => value.to_u16());

impl TiffValue for str {
    const BYTE_LEN: u8 = 1;
    const FIELD_TYPE: Type = Type::ASCII;

    fn count(&self) -> usize {
        self.len() + 1
    }

    fn data(&self) -> Cow<'_, [u8]> {
        if self.is_ascii() && !self.contains('\0') {
            Cow::Owned([self.as_bytes(), &[0]].concat())
        } else {
            Cow::Borrowed(&[])
        }
    }
}

#[cfg_attr(has_diagnostics, diagnostic::do_not_recommend)]
impl<T: TiffValue + ?Sized> TiffValue for &T {
    const BYTE_LEN: u8 = T::BYTE_LEN;
    const FIELD_TYPE: Type = T::FIELD_TYPE;

    fn count(&self) -> usize {
        T::count(self)
    }

    fn data(&self) -> Cow<'_, [u8]> {
        T::data(self)
    }
}

impl<T, const N: usize> TiffValue for [T; N]
where
    [T]: TiffValue,
{
    const BYTE_LEN: u8 = <[T]>::BYTE_LEN;
    const FIELD_TYPE: Type = <[T]>::FIELD_TYPE;

    fn count(&self) -> usize {
        self.as_slice().count()
    }

    fn data(&self) -> Cow<'_, [u8]> {
        self.as_slice().data()
    }
}

#[cfg(test)]
mod tests {
    use super::*;

    fn of<T: TiffValue>(value: T) -> (Type, usize, Vec<u8>) {
        assert_eq!(value.bytes(), value.count() * usize::from(T::BYTE_LEN));
        (T::FIELD_TYPE, value.count(), value.data().into_owned())
    }

    #[test]
    fn values_have_types_counts_and_bytes() {
        assert_eq!(of(7u8), (Type::BYTE, 1, vec![7]));
        assert_eq!(of(&[-1i8, 2][..]), (Type::SBYTE, 2, vec![255, 2]));
        let shorts = [1u16.to_ne_bytes(), 2u16.to_ne_bytes()].concat();
        assert_eq!(of([1u16, 2]), (Type::SHORT, 2, shorts));
        assert_eq!(of(1.5f64), (Type::DOUBLE, 1, 1.5f64.to_ne_bytes().to_vec()));
        let fraction = [(-1i32).to_ne_bytes(), 2i32.to_ne_bytes()].concat();
        assert_eq!(
            of(SRational { n: -1, d: 2 }),
            (Type::SRATIONAL, 1, fraction)
        );
        let pointers = [3u64.to_ne_bytes(), 4u64.to_ne_bytes()].concat();
        assert_eq!(of(&[Ifd8(3), Ifd8(4)][..]), (Type::IFD8, 2, pointers));
        let unit = 2u16.to_ne_bytes().to_vec();
        assert_eq!(of(tags::ResolutionUnit::Inch), (Type::SHORT, 1, unit));
        assert_eq!(of("ab"), (Type::ASCII, 3, b"ab\0".to_vec()));
        assert_eq!(of("é"), (Type::ASCII, 3, vec![]));
        assert_eq!(of("a\0b"), (Type::ASCII, 4, vec![]));
    }
}
