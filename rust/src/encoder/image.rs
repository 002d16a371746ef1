//! An image that is written.

use std::io::{self, Seek, Write};
use std::marker::PhantomData;
use std::mem;

use super::colortype::{self, ColorType};
use super::{Compression, DirectoryEncoder, Predictor, Rational, TiffEncoder, TiffKind, TiffValue};
use crate::ffi::NewPage;
use crate::tags::{ByteOrder, ExtraSamples, ResolutionUnit, SampleFormat, Tag};
use crate::{div_ceil, TiffError, TiffFormatError, TiffResult, TiffUnsupportedError, UsageError};

/// An image that is written: its settings, its tags, and its samples, strip by strip.
///
/// It becomes a page of the file as [`write_data`](ImageEncoder::write_data) or
/// [`finish`](ImageEncoder::finish) ends it, or as it is dropped behind its last strip. An image that
/// is dropped before its last strip is no page, and [`TiffEncoder::finish`] returns an error then.
pub struct ImageEncoder<'a, W: 'a + Write + Seek, C: ColorType, K: TiffKind> {
    encoder: DirectoryEncoder<'a, W, K>,
    page: NewPage,
    /// How many samples a row has.
    row_samples: u64,
    /// How many strips are written.
    strips: u64,
    is_ended: bool,
    color: PhantomData<C>,
}

/// The error of samples that are too few or too many.
fn invalid_data(text: &'static str) -> TiffError {
    io::Error::new(io::ErrorKind::InvalidData, text).into()
}

fn invalid_input(text: &'static str) -> TiffError {
    io::Error::new(io::ErrorKind::InvalidInput, text).into()
}

/// Refuses a predictor that samples of a color type don't have.
fn check_predictor<C: ColorType>(predictor: Predictor) -> TiffResult<()> {
    let is_floating = matches!(
        C::SAMPLE_FORMAT.first(),
        Some(SampleFormat::IEEEFP | SampleFormat::Void)
    );
    let has_none = is_floating || colortype::packed_bits::<C>() != 0;
    match predictor {
        Predictor::Horizontal if has_none => Err(UsageError::PredictorIncompatible.into()),
        Predictor::FloatingPoint => Err(UsageError::PredictorUnavailable.into()),
        _ => Ok(()),
    }
}

/// Returns the number of a color type for the C library, which refuses all others.
fn color_number<C: ColorType>() -> TiffResult<u32> {
    colortype::number_of::<C>().ok_or_else(|| {
        let bits = C::BITS_PER_SAMPLE.iter().map(|&bits| bits as u8).collect();
        TiffUnsupportedError::InterpretationWithBits(C::TIFF_VALUE, bits).into()
    })
}

/// Returns how many samples a row of so many pixels has: of packed pixels, how many bytes.
fn row_samples<C: ColorType>(width: u32) -> u64 {
    match u64::from(colortype::packed_bits::<C>()) {
        0 => u64::from(width) * C::BITS_PER_SAMPLE.len() as u64,
        bits => (u64::from(width) * bits + 7) / 8,
    }
}

impl<'a, W: 'a + Write + Seek, T: ColorType, K: TiffKind> ImageEncoder<'a, W, T, K> {
    pub(super) fn new(
        encoder: &'a mut TiffEncoder<W, K>,
        width: u32,
        height: u32,
    ) -> TiffResult<Self> {
        if width == 0 || height == 0 {
            return Err(TiffFormatError::InvalidDimensions(width, height).into());
        }
        let (compression, predictor) = (encoder.compression, encoder.predictor);
        check_predictor::<T>(predictor)?;
        let color = color_number::<T>()?;
        let row_samples = row_samples::<T>(width);
        let row_bytes = row_samples * u64::from(T::Inner::BYTE_LEN);
        let rows_per_strip = match compression {
            Compression::Packbits => 1,
            Compression::Uncompressed => div_ceil(1_000_000, row_bytes) as u32,
        };
        Ok(ImageEncoder {
            encoder: DirectoryEncoder::new(encoder),
            page: NewPage {
                color,
                width,
                height,
                rows_per_strip,
                method: compression.method().to_u16(),
                predictor: predictor.to_u16(),
                ..NewPage::default()
            },
            row_samples,
            strips: 0,
            is_ended: false,
            color: PhantomData,
        })
    }

    /// Adds samples to each pixel, behind those of its color and those that were added before.
    /// Errors: behind a strip, `ReconfiguredAfterImageWrite`; packed pixels, which have none, an
    /// `IoError` of the kind [`InvalidInput`](io::ErrorKind::InvalidInput); more than 65,535 samples in
    /// a pixel, `IntSizeError`.
    pub fn extra_samples(&mut self, extra: &[ExtraSamples]) -> Result<(), TiffError> {
        if self.strips != 0 {
            return Err(UsageError::ReconfiguredAfterImageWrite.into());
        }
        if colortype::packed_bits::<T>() != 0 {
            return Err(invalid_input("packed pixels have no extra samples"));
        }
        let before = T::BITS_PER_SAMPLE.len() + self.page.extra_samples.len();
        let samples = u16::try_from(before + extra.len())?;
        let numbers = extra.iter().map(ExtraSamples::to_u16);
        self.page.extra_samples.extend(numbers);
        self.row_samples = u64::from(self.page.width) * u64::from(samples);
        self.encoder.forget(Tag::ExtraSamples);
        Ok(())
    }

    /// Returns how many samples the next strip has: 0 behind the last one.
    pub fn next_strip_sample_count(&self) -> u64 {
        let height = u64::from(self.page.height);
        let rows = u64::from(self.page.rows_per_strip);
        let left = height.saturating_sub(self.strips.saturating_mul(rows));
        left.min(rows).saturating_mul(self.row_samples)
    }

    /// Writes the next strip: its samples row by row from the top, those of a pixel side by side.
    /// Other than [`next_strip_sample_count`](Self::next_strip_sample_count) samples, and any strip
    /// behind the last one, are an `IoError` of the kind [`InvalidData`](io::ErrorKind::InvalidData).
    pub fn write_strip(&mut self, value: &[T::Inner]) -> TiffResult<()>
    where
        [T::Inner]: TiffValue,
    {
        let samples = self.next_strip_sample_count();
        if samples == 0 || value.len() as u64 != samples {
            return Err(invalid_data("not as many samples as the strip has"));
        }
        self.append(value)?;
        self.strips += 1;
        Ok(())
    }

    /// Appends samples to those of the page.
    fn append(&mut self, value: &[T::Inner]) -> TiffResult<()>
    where
        [T::Inner]: TiffValue,
    {
        let size = usize::from(T::Inner::BYTE_LEN);
        let data = value.data();
        if data.len() != value.len() * size {
            return Err(invalid_data("not as many bytes as the samples have"));
        }
        let samples = &mut self.page.samples;
        let start = samples.len();
        samples.extend_from_slice(&data);
        let order = ByteOrder::native();
        order.convert_numbers(size, &mut samples[start..], ByteOrder::LittleEndian);
        Ok(())
    }

    /// Returns how many samples the strips have that aren't written.
    fn samples_left(&self) -> TiffResult<u64> {
        let height = u64::from(self.page.height);
        let rows = self.strips * u64::from(self.page.rows_per_strip);
        if height.checked_mul(self.row_samples).is_none() {
            return Err(invalid_input("the samples of the image pass 64 bits"));
        }
        Ok(height.saturating_sub(rows) * self.row_samples)
    }

    /// Writes all strips that are left, and ends the image. The samples are those of one strip behind
    /// the other; those behind the last strip are ignored. Too few are an `IoError` of the kind
    /// [`InvalidData`](io::ErrorKind::InvalidData), and there is no page then.
    pub fn write_data(mut self, data: &[T::Inner]) -> TiffResult<()>
    where
        [T::Inner]: TiffValue,
    {
        self.is_ended = true;
        let left = self.samples_left()?;
        let data = usize::try_from(left)
            .ok()
            .and_then(|left| data.get(..left))
            .ok_or_else(|| invalid_data("fewer samples than the image has"))?;
        self.page.samples.reserve_exact(mem::size_of_val(data));
        self.append(data)?;
        self.add_page();
        Ok(())
    }

    /// Sets the pixels in a unit, along rows and columns.
    pub fn resolution(&mut self, unit: ResolutionUnit, value: Rational) {
        self.resolution_unit(unit);
        self.x_resolution(value.clone());
        self.y_resolution(value);
    }

    /// Sets the unit of the resolutions.
    pub fn resolution_unit(&mut self, unit: ResolutionUnit) {
        self.set(Tag::ResolutionUnit, unit);
    }

    /// Sets the pixels in a unit, along rows.
    pub fn x_resolution(&mut self, value: Rational) {
        self.set(Tag::XResolution, value);
    }

    /// Sets the pixels in a unit, along columns.
    pub fn y_resolution(&mut self, value: Rational) {
        self.set(Tag::YResolution, value);
    }

    /// Sets a tag to one number, which no file refuses.
    fn set<V: TiffValue>(&mut self, tag: Tag, value: V) {
        let set = self.encoder.write_tag(tag, value);
        debug_assert!(set.is_ok());
    }

    /// Sets how many rows a strip has. 0, and any number behind a strip, is an `IoError` of the kind
    /// [`InvalidInput`](io::ErrorKind::InvalidInput).
    pub fn rows_per_strip(&mut self, value: u32) -> TiffResult<()> {
        if self.strips != 0 {
            return Err(invalid_input(
                "a strip is written, so strips have their rows",
            ));
        }
        if value == 0 {
            return Err(invalid_input("a strip of no rows"));
        }
        self.page.rows_per_strip = value;
        self.page.has_own_strips = true;
        self.encoder.forget(Tag::RowsPerStrip);
        Ok(())
    }

    /// Returns what sets the image's tags.
    pub fn encoder(&mut self) -> &mut DirectoryEncoder<'a, W, K> {
        &mut self.encoder
    }

    /// Ends the image behind its last strip. Before that it is an `IoError` of the kind
    /// [`InvalidData`](io::ErrorKind::InvalidData), and there is no page then.
    pub fn finish(mut self) -> TiffResult<()> {
        self.is_ended = true;
        if self.samples_left()? != 0 {
            return Err(invalid_data("fewer strips than the image has"));
        }
        self.add_page();
        Ok(())
    }
}

impl<W: Write + Seek, C: ColorType, K: TiffKind> ImageEncoder<'_, W, C, K> {
    fn add_page(&mut self) {
        let page = mem::take(&mut self.page);
        self.encoder.add(page);
    }
}

impl<W: Write + Seek, C: ColorType, K: TiffKind> Drop for ImageEncoder<'_, W, C, K> {
    fn drop(&mut self) {
        if self.is_ended {
            return;
        }
        if self.next_strip_sample_count() == 0 {
            self.add_page();
        } else {
            self.encoder.lose();
        }
    }
}
