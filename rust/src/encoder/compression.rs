//! Methods of compression.

use std::io::{self, Write};

use super::colortype::{self, Gray8};
use crate::error::plain_error;
use crate::ffi::{self, NewPage, Place};
use crate::tags::{CompressionMethod, Predictor, Tag};
use crate::{TiffError, TiffResult};

/// Packs bytes.
pub trait CompressionAlgorithm {
    /// Writes bytes, packed, and returns how many it wrote.
    fn write_to<W: Write>(&mut self, writer: &mut W, bytes: &[u8]) -> Result<u64, io::Error>;
}

/// A method of compression.
pub trait Compression: CompressionAlgorithm {
    /// The value of the tag Compression.
    const COMPRESSION_METHOD: CompressionMethod;

    /// Returns what packs bytes.
    fn get_algorithm(&self) -> Compressor;
}

/// One of the methods of compression.
#[derive(Debug, Clone, Copy, PartialEq, Eq)]
#[non_exhaustive]
pub enum Compressor {
    /// None.
    Uncompressed(Uncompressed),
    /// PackBits.
    Packbits(Packbits),
}

impl Default for Compressor {
    fn default() -> Self {
        Compressor::Uncompressed(Uncompressed)
    }
}

impl CompressionAlgorithm for Compressor {
    fn write_to<W: Write>(&mut self, writer: &mut W, bytes: &[u8]) -> Result<u64, io::Error> {
        match self {
            Compressor::Uncompressed(method) => method.write_to(writer, bytes),
            Compressor::Packbits(method) => method.write_to(writer, bytes),
        }
    }
}

/// No compression.
#[derive(Debug, Clone, Copy, PartialEq, Eq, Default)]
pub struct Uncompressed;

impl Compression for Uncompressed {
    const COMPRESSION_METHOD: CompressionMethod = CompressionMethod::None;

    fn get_algorithm(&self) -> Compressor {
        Compressor::Uncompressed(*self)
    }
}

impl CompressionAlgorithm for Uncompressed {
    fn write_to<W: Write>(&mut self, writer: &mut W, bytes: &[u8]) -> Result<u64, io::Error> {
        writer.write_all(bytes)?;
        Ok(bytes.len() as u64)
    }
}

/// PackBits (TIFF 6.0 section 9).
#[derive(Debug, Clone, Copy, PartialEq, Eq, Default)]
pub struct Packbits;

impl Compression for Packbits {
    const COMPRESSION_METHOD: CompressionMethod = CompressionMethod::PackBits;

    fn get_algorithm(&self) -> Compressor {
        Compressor::Packbits(*self)
    }
}

impl CompressionAlgorithm for Packbits {
    /// Writes bytes, packed, and returns how many it wrote. Errors: no bytes,
    /// [`WriteZero`](io::ErrorKind::WriteZero); 2^32 or more,
    /// [`InvalidInput`](io::ErrorKind::InvalidInput); those of the writer.
    fn write_to<W: Write>(&mut self, writer: &mut W, bytes: &[u8]) -> Result<u64, io::Error> {
        if bytes.is_empty() {
            return Err(io::ErrorKind::WriteZero.into());
        }
        let packed = pack(bytes).map_err(|err| match err {
            TiffError::IoError(err) => err,
            other => io::Error::new(io::ErrorKind::InvalidInput, other),
        })?;
        writer.write_all(&packed)?;
        Ok(packed.len() as u64)
    }
}

/// Packs bytes, which are not none. The C library packs rows of images: it writes an image whose one
/// row they are, and this returns the strip of that row.
fn pack(bytes: &[u8]) -> TiffResult<Vec<u8>> {
    let row = NewPage {
        color: colortype::number_of::<Gray8>().unwrap_or_default(),
        width: u32::try_from(bytes.len())?,
        height: 1,
        rows_per_strip: 1,
        method: Packbits::COMPRESSION_METHOD.to_u16(),
        predictor: Predictor::None.to_u16(),
        samples: bytes.to_vec(),
        ..NewPage::default()
    };
    let file = ffi::write_pages(super::BIG, &[row]).map_err(plain_error)?;
    let number = |tag: Tag| ffi::tag_number(Place::first(&file), tag.to_u16());
    let offset = number(Tag::StripOffsets).map_err(plain_error)? as usize;
    let len = number(Tag::StripByteCounts).map_err(plain_error)? as usize;
    Ok(file[offset..offset + len].to_vec())
}
