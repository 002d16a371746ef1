//! Writes files of pages.
//!
//! The C library writes whole files, so an encoder keeps its pages in memory. It writes the file as
//! [`TiffEncoder::finish`] ends it, or as it is dropped:
//!
//! ```no_run
//! use std::fs::File;
//! use tiff::encoder::{colortype::RGB8, Rational, TiffEncoder};
//! use tiff::tags::{ResolutionUnit, Tag};
//!
//! # fn main() -> tiff::TiffResult<()> {
//! let mut encoder = TiffEncoder::new(File::create("page.tif")?)?;
//! let mut image = encoder.new_image::<RGB8>(50, 50)?;
//! image.resolution(ResolutionUnit::Inch, Rational { n: 300, d: 1 });
//! image.encoder().write_tag(Tag::Artist, "Ada")?;
//! image.write_data(&[255; 7500])?;
//! encoder.finish()?;
//! # Ok(())
//! # }
//! ```

use std::io::{self, Seek, SeekFrom, Write};
use std::marker::PhantomData;
use std::num::TryFromIntError;

use self::colortype::ColorType;
use crate::error::plain_error;
use crate::ffi::{self, NewPage};
use crate::tags::CompressionMethod;
use crate::TiffResult;

pub mod colortype;
pub mod compression;
mod directory;
mod image;
mod tiff_value;

pub use self::directory::DirectoryEncoder;
pub use self::image::ImageEncoder;
pub use self::tiff_value::{Ifd, Ifd8, Rational, SRational, TiffValue};

/// What is done to samples before they are compressed.
pub type Predictor = crate::tags::Predictor;

/// The version in the header of a classic file.
const CLASSIC: u16 = 42;

/// The version in the header of a BigTIFF file.
const BIG: u16 = 43;

/// The method by which strips are compressed.
#[derive(Clone, Copy, Debug, PartialEq, Eq, Default)]
pub enum Compression {
    /// None.
    #[default]
    Uncompressed,
    /// PackBits.
    Packbits,
}

impl Compression {
    fn method(self) -> CompressionMethod {
        match self {
            Compression::Uncompressed => CompressionMethod::None,
            Compression::Packbits => CompressionMethod::PackBits,
        }
    }
}

mod kind {
    /// The kinds that there are.
    pub trait Sealed {
        /// The version in the header.
        const VERSION: u16;
    }
}

/// The kind of a file: [`TiffKindStandard`] or [`TiffKindBig`].
pub trait TiffKind: kind::Sealed {
    /// The number type of offsets and counts.
    type OffsetType: TryFrom<usize, Error = TryFromIntError> + Into<u64> + TiffValue;

    /// Several offsets or counts.
    type OffsetArrayType: ?Sized + TiffValue;

    /// Returns an offset or a count, if a file of this kind has it; else `IntSizeError`.
    fn convert_offset(offset: u64) -> TiffResult<Self::OffsetType>;

    /// Returns several offsets or counts.
    fn convert_slice(slice: &[Self::OffsetType]) -> &Self::OffsetArrayType;
}

/// A classic file, of less than 4 GiB.
pub struct TiffKindStandard;

impl kind::Sealed for TiffKindStandard {
    const VERSION: u16 = CLASSIC;
}

impl TiffKind for TiffKindStandard {
    type OffsetType = u32;
    type OffsetArrayType = [u32];

    fn convert_offset(offset: u64) -> TiffResult<u32> {
        Ok(u32::try_from(offset)?)
    }

    fn convert_slice(slice: &[u32]) -> &[u32] {
        slice
    }
}

/// A BigTIFF file.
pub struct TiffKindBig;

impl kind::Sealed for TiffKindBig {
    const VERSION: u16 = BIG;
}

impl TiffKind for TiffKindBig {
    type OffsetType = u64;
    type OffsetArrayType = [u64];

    fn convert_offset(offset: u64) -> TiffResult<u64> {
        Ok(offset)
    }

    fn convert_slice(slice: &[u64]) -> &[u64] {
        slice
    }
}

/// Writes a file of pages, in the order of their images.
///
/// The pages stay in memory until [`finish`](TiffEncoder::finish) or a drop writes the file. A drop
/// can't return an error: a file that matters is ended by `finish`.
pub struct TiffEncoder<W, K: TiffKind = TiffKindStandard> {
    writer: W,
    /// Writes a file to the writer. With this a drop needs no bounds of `W`, as the crate has none.
    put: fn(&mut W, &[u8]) -> io::Result<()>,
    pages: Vec<NewPage>,
    has_lost_image: bool,
    is_ended: bool,
    predictor: Predictor,
    compression: Compression,
    kind: PhantomData<K>,
}

impl<W: Write + Seek> TiffEncoder<W> {
    /// Begins a classic file. See [`new_generic`](TiffEncoder::new_generic).
    pub fn new(writer: W) -> TiffResult<TiffEncoder<W, TiffKindStandard>> {
        TiffEncoder::new_generic(writer)
    }
}

impl<W: Write + Seek> TiffEncoder<W, TiffKindBig> {
    /// Begins a BigTIFF file. See [`new_generic`](TiffEncoder::new_generic).
    pub fn new_big(writer: W) -> TiffResult<Self> {
        TiffEncoder::new_generic(writer)
    }
}

impl<W: Write + Seek, K: TiffKind> TiffEncoder<W, K> {
    /// Begins a file. A writer that isn't at its start is an `IoError` of the kind
    /// [`Unsupported`](io::ErrorKind::Unsupported), since offsets count from there.
    pub fn new_generic(mut writer: W) -> TiffResult<Self> {
        if writer.stream_position()? != 0 {
            let text = "a file at another place than the start of its writer";
            return Err(io::Error::new(io::ErrorKind::Unsupported, text).into());
        }
        Ok(TiffEncoder {
            writer,
            put,
            pages: Vec::new(),
            has_lost_image: false,
            is_ended: false,
            predictor: Predictor::None,
            compression: Compression::Uncompressed,
            kind: PhantomData,
        })
    }

    /// Returns the encoder with a predictor of the images that follow.
    pub fn with_predictor(mut self, predictor: Predictor) -> Self {
        self.predictor = predictor;
        self
    }

    /// Returns the encoder with a compression of the images that follow.
    pub fn with_compression(mut self, compression: Compression) -> Self {
        self.compression = compression;
        self
    }

    /// Begins an image, of a width and a height in pixels. Errors, in this order: a side of 0,
    /// `InvalidDimensions`; [`Predictor::Horizontal`] of floating-point samples,
    /// `PredictorIncompatible`; [`Predictor::FloatingPoint`], `PredictorUnavailable`; a color type
    /// of one's own that isn't one of [`colortype`], `InterpretationWithBits`.
    pub fn new_image<C: ColorType>(
        &mut self,
        width: u32,
        height: u32,
    ) -> TiffResult<ImageEncoder<'_, W, C, K>> {
        ImageEncoder::new(self, width, height)
    }

    /// Adds an image, of a width and a height in pixels: its samples row by row from the top, those
    /// of a pixel side by side. Errors: those of [`new_image`](TiffEncoder::new_image) and of
    /// [`ImageEncoder::write_data`].
    pub fn write_image<C: ColorType>(
        &mut self,
        width: u32,
        height: u32,
        data: &[C::Inner],
    ) -> TiffResult<()>
    where
        [C::Inner]: TiffValue,
    {
        self.new_image::<C>(width, height)?.write_data(data)
    }

    /// Writes the file, from the start of the writer on, and flushes the writer. A file without
    /// images is a header. Errors: a file that its kind can't hold, or an image with more tags than
    /// that, `IntSizeError`; those of the writer; and, behind the file of the other images, one that
    /// was dropped before its last strip, an `IoError` of the kind
    /// [`InvalidData`](io::ErrorKind::InvalidData).
    pub fn finish(mut self) -> TiffResult<()> {
        self.write_file()?;
        if self.has_lost_image {
            let text = "an image was dropped before its last strip";
            return Err(io::Error::new(io::ErrorKind::InvalidData, text).into());
        }
        Ok(())
    }
}

impl<W, K: TiffKind> TiffEncoder<W, K> {
    fn write_file(&mut self) -> TiffResult<()> {
        self.is_ended = true;
        let file = ffi::write_pages(K::VERSION, &self.pages).map_err(plain_error)?;
        (self.put)(&mut self.writer, &file)?;
        Ok(())
    }
}

/// Writes a file from the start of a writer on.
fn put<W: Write + Seek>(writer: &mut W, file: &[u8]) -> io::Result<()> {
    writer.seek(SeekFrom::Start(0))?;
    writer.write_all(file)?;
    writer.flush()
}

impl<W, K: TiffKind> Drop for TiffEncoder<W, K> {
    fn drop(&mut self) {
        if !self.is_ended {
            // An error is lost here, as the head of the type says.
            let _ = self.write_file();
        }
    }
}
