//! Samples that were read, and how they lie.

use std::mem::size_of;
use std::num::NonZeroUsize;

use super::Limits;
use crate::ffi;
use crate::half::f16;
use crate::tags::SampleFormat;
use crate::{div_ceil, TiffError, TiffResult, TiffUnsupportedError};

/// Declares the enums that have a variant for each number type of samples.
macro_rules! number_types {
    ($($variant:ident $number:ty, $about:literal;)*) => {
        /// Samples of a number type.
        #[derive(Debug)]
        pub enum DecodingResult {
            $(
                #[doc = $about]
                $variant(Vec<$number>),
            )*
        }

        impl DecodingResult {
            /// Returns the samples from the number `start` on, to be changed. It ends the program if
            /// there are fewer.
            pub fn as_buffer(&mut self, start: usize) -> DecodingBuffer<'_> {
                match self {
                    $(DecodingResult::$variant(samples) => {
                        DecodingBuffer::$variant(&mut samples[start..])
                    })*
                }
            }

            /// Returns zeros, of as many bytes at least.
            fn zeros(ty: DecodingSampleType, bytes: usize, limits: &Limits) -> TiffResult<Self> {
                match ty {
                    $(DecodingSampleType::$variant => {
                        let size = size_of::<$number>();
                        let count = div_ceil(bytes, size);
                        if count > limits.decoding_buffer_size / size {
                            return Err(TiffError::LimitsExceeded);
                        }
                        Ok(DecodingResult::$variant(vec![<$number>::default(); count]))
                    })*
                }
            }
        }

        /// Samples of a number type, in a buffer of the caller's.
        pub enum DecodingBuffer<'a> {
            $(
                #[doc = $about]
                $variant(&'a mut [$number]),
            )*
        }

        impl DecodingBuffer<'_> {
            /// Returns the bytes of the samples, in the byte order of this machine.
            pub fn as_bytes(&self) -> &[u8] {
                match self {
                    $(DecodingBuffer::$variant(samples) => ffi::bytes_of(samples),)*
                }
            }

            /// Returns the bytes of the samples, in the byte order of this machine, to be changed.
            pub fn as_bytes_mut(&mut self) -> &mut [u8] {
                match self {
                    $(DecodingBuffer::$variant(samples) => ffi::bytes_of_mut(samples),)*
                }
            }
        }

        /// The number type of samples.
        #[derive(Debug, Clone, Copy, PartialEq, Eq, Hash)]
        pub enum DecodingSampleType {
            $(
                #[doc = $about]
                $variant,
            )*
        }

        impl DecodingSampleType {
            /// Returns how many bytes a sample has.
            pub(super) fn byte_len(self) -> usize {
                match self {
                    $(DecodingSampleType::$variant => size_of::<$number>(),)*
                }
            }
        }
    };
}

number_types! {
    U8 u8, "Unsigned numbers of 8 bits, or of fewer, which lie side by side in rows of whole bytes.";
    U16 u16, "Unsigned numbers of 16 bits.";
    U32 u32, "Unsigned numbers of 32 bits.";
    U64 u64, "Unsigned numbers of 64 bits.";
    F16 f16, "Floating-point numbers of 16 bits.";
    F32 f32, "Floating-point numbers of 32 bits.";
    F64 f64, "Floating-point numbers of 64 bits.";
    I8 i8, "Signed numbers of 8 bits, or of fewer, which lie side by side in rows of whole bytes.";
    I16 i16, "Signed numbers of 16 bits.";
    I32 i32, "Signed numbers of 32 bits.";
    I64 i64, "Signed numbers of 64 bits.";
}

impl DecodingResult {
    /// Puts zeros in place of the samples: as many as the layout has in all its planes.
    pub fn resize_to(
        &mut self,
        buffer: &BufferLayoutPreference,
        limits: &Limits,
    ) -> Result<(), TiffError> {
        let ty = buffer
            .sample_type
            .ok_or(TiffUnsupportedError::UnknownInterpretation)?;
        self.resize(ty, buffer.complete_len, limits)
    }

    /// Puts zeros in place of the samples.
    pub(super) fn resize(
        &mut self,
        ty: DecodingSampleType,
        bytes: usize,
        limits: &Limits,
    ) -> TiffResult<()> {
        *self = DecodingResult::zeros(ty, bytes, limits)?;
        Ok(())
    }

    /// Returns zeros, of as many bytes at least.
    pub(super) fn new(
        ty: DecodingSampleType,
        bytes: usize,
        limits: &Limits,
    ) -> TiffResult<DecodingResult> {
        DecodingResult::zeros(ty, bytes, limits)
    }
}

impl DecodingBuffer<'_> {
    /// Returns how many bytes the samples have.
    pub fn byte_len(&self) -> usize {
        self.as_bytes().len()
    }
}

impl DecodingSampleType {
    /// Returns the number type of samples of a format and a depth, if there is one.
    pub(super) fn of(format: SampleFormat, bits: u8) -> Option<DecodingSampleType> {
        use DecodingSampleType::*;
        Some(match (format, bits) {
            (SampleFormat::Uint, 0..=8) => U8,
            (SampleFormat::Uint, 9..=16) => U16,
            (SampleFormat::Uint, 17..=32) => U32,
            (SampleFormat::Uint, 33..=64) => U64,
            (SampleFormat::Int, 0..=8) => I8,
            (SampleFormat::Int, 9..=16) => I16,
            (SampleFormat::Int, 17..=32) => I32,
            (SampleFormat::Int, 33..=64) => I64,
            (SampleFormat::IEEEFP, 16) => F16,
            (SampleFormat::IEEEFP, 32) => F32,
            (SampleFormat::IEEEFP, 64) => F64,
            _ => return None,
        })
    }
}

/// How the samples of an image, or of a part of it, lie in a buffer.
#[non_exhaustive]
#[derive(Debug, Clone)]
pub struct BufferLayoutPreference {
    /// How many bytes a plane has.
    pub len: usize,
    /// What the bits of a sample are.
    pub sample_format: SampleFormat,
    /// The number type of the samples, if there is one.
    pub sample_type: Option<DecodingSampleType>,
    /// How many bytes a row has.
    pub row_stride: Option<NonZeroUsize>,
    /// How many planes there are.
    pub planes: usize,
    /// How many bytes a plane is behind the one before it.
    pub plane_stride: Option<NonZeroUsize>,
    /// How many bytes all planes have.
    pub complete_len: usize,
}

#[cfg(test)]
mod tests {
    use super::*;

    #[test]
    fn samples_have_a_number_type() {
        use DecodingSampleType::*;
        use SampleFormat::*;
        for (format, bits, ty) in [
            (Uint, 1, Some(U8)),
            (Uint, 8, Some(U8)),
            (Uint, 12, Some(U16)),
            (Uint, 64, Some(U64)),
            (Uint, 65, None),
            (Int, 8, Some(I8)),
            (Int, 24, Some(I32)),
            (IEEEFP, 16, Some(F16)),
            (IEEEFP, 24, None),
            (IEEEFP, 64, Some(F64)),
            (Void, 8, None),
        ] {
            assert_eq!(
                DecodingSampleType::of(format, bits),
                ty,
                "{format:?} {bits}"
            );
        }
    }

    #[test]
    fn zeros_are_made_within_the_limit() {
        let limits = Limits {
            decoding_buffer_size: 6,
            ..Limits::default()
        };
        let mut samples = DecodingResult::new(DecodingSampleType::U16, 5, &limits).unwrap();
        assert!(matches!(&samples, DecodingResult::U16(numbers) if numbers == &[0; 3]));
        assert_eq!(samples.as_buffer(1).byte_len(), 4);
        samples.as_buffer(0).as_bytes_mut()[2..4].copy_from_slice(&7u16.to_ne_bytes());
        assert!(matches!(&samples, DecodingResult::U16(numbers) if numbers == &[0, 7, 0]));
        let refused = DecodingResult::new(DecodingSampleType::U32, 8, &limits);
        assert!(matches!(refused, Err(TiffError::LimitsExceeded)));
    }

    #[test]
    fn a_layout_resizes_samples() {
        let mut layout = BufferLayoutPreference {
            len: 3,
            sample_format: SampleFormat::Int,
            sample_type: Some(DecodingSampleType::I8),
            row_stride: NonZeroUsize::new(3),
            planes: 2,
            plane_stride: NonZeroUsize::new(3),
            complete_len: 6,
        };
        let mut samples = DecodingResult::U8(vec![1]);
        samples.resize_to(&layout, &Limits::default()).unwrap();
        assert!(matches!(&samples, DecodingResult::I8(numbers) if numbers == &[0; 6]));
        layout.sample_type = None;
        let refused = samples.resize_to(&layout, &Limits::default()).unwrap_err();
        assert_eq!(
            refused.to_string(),
            "unsupported error: unknown photometric interpretation"
        );
    }
}
