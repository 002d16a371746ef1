//! A file in memory, and what this crate reads of it itself: the header, and the entries of
//! directories. The C library has no call that lists the entries of a directory, and none that
//! has the values that the crate's errors name.

use std::fmt;
use std::io;

use super::ifd::{Entry, Value};
use crate::error::plain_error;
use crate::ffi::{self, Fault, Place};
use crate::tags::{
    ByteOrder, CompressionMethod, IfdPointer, PhotometricInterpretation, PlanarConfiguration,
    SampleFormat, Tag, Type,
};
use crate::{ColorType, Directory, TiffError, TiffFormatError, TiffResult, TiffUnsupportedError};

/// The bytes of a file, which the C library has read once at least.
pub(super) struct File {
    bytes: Vec<u8>,
    pub(super) order: ByteOrder,
    pub(super) is_big: bool,
}

impl fmt::Debug for File {
    fn fmt(&self, f: &mut fmt::Formatter<'_>) -> fmt::Result {
        f.debug_struct("File")
            .field("len", &self.bytes.len())
            .field("order", &self.order)
            .field("is_big", &self.is_big)
            .finish()
    }
}

/// The bytes that are still to be read.
struct Reader<'a> {
    rest: &'a [u8],
    order: ByteOrder,
    is_big: bool,
}

impl Reader<'_> {
    /// Reads bytes.
    fn bytes<const N: usize>(&mut self) -> TiffResult<[u8; N]> {
        let bytes = self.rest.get(..N).ok_or_else(ends_early)?;
        self.rest = &self.rest[N..];
        let mut read = [0; N];
        read.copy_from_slice(bytes);
        Ok(read)
    }

    /// Reads the bytes of a number, and returns them in this machine's byte order.
    fn number<const N: usize>(&mut self) -> TiffResult<[u8; N]> {
        let mut number = self.bytes()?;
        self.order
            .convert_numbers(N, &mut number, ByteOrder::native());
        Ok(number)
    }

    fn short(&mut self) -> TiffResult<u16> {
        Ok(u16::from_ne_bytes(self.number()?))
    }

    /// Reads a number of 32 bits, in BigTIFF of 64.
    fn offset(&mut self) -> TiffResult<u64> {
        Ok(if self.is_big {
            u64::from_ne_bytes(self.number()?)
        } else {
            u32::from_ne_bytes(self.number()?).into()
        })
    }

    /// Reads an entry. One of unknown type is skipped.
    fn entry(&mut self) -> TiffResult<Option<(Tag, Entry)>> {
        let tag = Tag::from_u16_exhaustive(self.short()?);
        let ty = Type::from_u16(self.short()?);
        let count = self.offset()?;
        let field = if self.is_big {
            self.bytes()?
        } else {
            let [a, b, c, d] = self.bytes()?;
            [a, b, c, d, 0, 0, 0, 0]
        };
        Ok(ty.map(|ty| (tag, Entry::new_u64(ty, count, field))))
    }

    /// Reads a directory.
    fn directory(&mut self) -> TiffResult<Directory> {
        let count = if self.is_big {
            self.offset()?
        } else {
            self.short()?.into()
        };
        let mut entries = Vec::new();
        for _ in 0..count {
            entries.extend(self.entry()?);
        }
        let mut directory: Directory = entries.into_iter().collect();
        directory.set_next(Some(IfdPointer(self.offset()?)));
        Ok(directory)
    }
}

/// The error of bytes that lie behind the end of the file.
pub(super) fn ends_early() -> TiffError {
    io::Error::from(io::ErrorKind::UnexpectedEof).into()
}

impl File {
    /// Takes the bytes of a file.
    pub(super) fn new(bytes: Vec<u8>) -> File {
        let order = if bytes.starts_with(b"MM") {
            ByteOrder::BigEndian
        } else {
            ByteOrder::LittleEndian
        };
        let version = match order {
            ByteOrder::BigEndian => [0, 43],
            ByteOrder::LittleEndian => [43, 0],
        };
        File {
            is_big: bytes.get(2..4) == Some(version.as_slice()),
            bytes,
            order,
        }
    }

    /// Returns all bytes.
    pub(super) fn bytes(&self) -> &[u8] {
        &self.bytes
    }

    /// Returns how many bytes there are.
    pub(super) fn len(&self) -> u64 {
        self.bytes.len() as u64
    }

    /// Returns the first page, for the C library.
    pub(super) fn first_page(&self) -> Place<'_> {
        Place::first(&self.bytes)
    }

    /// Returns the directory at an offset, for the C library.
    pub(super) fn place(&self, pointer: IfdPointer) -> Place<'_> {
        Place::at(&self.bytes, pointer.0)
    }

    /// Tells whether values of so many bytes lie in their entry, and not at an offset.
    pub(super) fn is_in_entry(&self, bytes: u64) -> bool {
        bytes <= if self.is_big { 8 } else { 4 }
    }

    /// Reads the directory at an offset.
    pub(super) fn directory(&self, pointer: IfdPointer) -> TiffResult<Directory> {
        let rest = usize::try_from(pointer.0)
            .ok()
            .and_then(|offset| self.bytes.get(offset..))
            .unwrap_or_default();
        let mut directory = self.reader(rest).directory()?;
        directory.place = Some(pointer);
        Ok(directory)
    }

    fn reader<'a>(&self, rest: &'a [u8]) -> Reader<'a> {
        Reader {
            rest,
            order: self.order,
            is_big: self.is_big,
        }
    }

    /// Returns the bytes of the values of an entry, if the file has them.
    fn bytes_of<'a>(&'a self, entry: &'a Entry) -> Option<&'a [u8]> {
        let len = entry.field_type().value_bytes(entry.count()).ok()?;
        let size = usize::try_from(len).ok()?;
        if self.is_in_entry(len) {
            return Some(&entry.offset()[..size]);
        }
        let offset = usize::try_from(self.reader(entry.offset()).offset().ok()?).ok()?;
        self.bytes.get(offset..offset.checked_add(size)?)
    }

    /// Returns the values of a tag, if they are unsigned numbers.
    fn numbers(&self, directory: &Directory, tag: Tag) -> Option<Vec<u64>> {
        let entry = directory.get(tag)?;
        let bytes = self.bytes_of(entry)?;
        let is_in_entry = self.is_in_entry(bytes.len() as u64);
        Value::of_bytes(entry.field_type(), bytes, self.order, is_in_entry)
            .into_u64_vec()
            .ok()
    }

    /// Returns the error of a call on the whole file, or on a directory that isn't there.
    pub(super) fn fault(&self, fault: Fault) -> TiffError {
        self.fault_of(fault, &Directory::empty(), None)
    }

    /// Returns the error of the header, or of the first page.
    pub(super) fn first_fault(&self, fault: Fault) -> TiffError {
        let rest = self.bytes.get(if self.is_big { 8 } else { 4 }..);
        let first = self.reader(rest.unwrap_or_default()).offset();
        self.page_fault(fault, IfdPointer(first.unwrap_or(0)))
    }

    /// Returns the error of the page at an offset, which is refused.
    pub(super) fn page_fault(&self, fault: Fault, pointer: IfdPointer) -> TiffError {
        let directory = self.directory(pointer);
        self.fault_of(
            fault,
            &directory.unwrap_or_else(|_| Directory::empty()),
            None,
        )
    }

    /// Returns the error of a call on a page with this directory and color, with the values that it
    /// names.
    pub(super) fn fault_of(
        &self,
        fault: Fault,
        directory: &Directory,
        color: Option<ColorType>,
    ) -> TiffError {
        Told {
            file: self,
            directory,
            color,
        }
        .error(fault)
    }
}

/// The facts of a page, for the errors that name them.
struct Told<'a> {
    file: &'a File,
    directory: &'a Directory,
    color: Option<ColorType>,
}

impl Told<'_> {
    /// Returns the values of a tag; those that the C library took for absent or for no numbers are
    /// none.
    fn all(&self, tag: Tag) -> Vec<u64> {
        self.file.numbers(self.directory, tag).unwrap_or_default()
    }

    /// Returns the first value of a tag, or a default if there is none.
    fn first(&self, tag: Tag, absent: u16) -> u64 {
        self.all(tag).first().copied().unwrap_or(absent.into())
    }

    fn short(&self, tag: Tag, absent: u16) -> u16 {
        self.first(tag, absent) as u16
    }

    /// Returns the bits of a sample.
    fn bits(&self) -> u8 {
        self.short(Tag::BitsPerSample, 1) as u8
    }

    fn color(&self) -> ColorType {
        self.color.unwrap_or(ColorType::Gray(self.bits()))
    }

    fn interpretation(&self) -> PhotometricInterpretation {
        let number = self.short(Tag::PhotometricInterpretation, 0);
        PhotometricInterpretation::from_u16(number)
            .unwrap_or(PhotometricInterpretation::WhiteIsZero)
    }

    fn dimensions(&self) -> TiffFormatError {
        TiffFormatError::InvalidDimensions(
            self.first(Tag::ImageWidth, 0) as u32,
            self.first(Tag::ImageLength, 0) as u32,
        )
    }

    /// Returns the first tag that a page needs and this one doesn't have.
    fn missing(&self) -> Tag {
        let needed = [Tag::ImageWidth, Tag::ImageLength, Tag::TileWidth];
        needed
            .into_iter()
            .find(|&tag| !self.directory.contains(tag))
            .unwrap_or(Tag::TileLength)
    }

    /// Returns the first tag of a value that the page may not have.
    fn misvalued(&self) -> Tag {
        let formats = self.all(Tag::SampleFormat);
        let has_formats = self.directory.contains(Tag::SampleFormat);
        let any_over = |numbers: &[u64], most: u16| numbers.iter().any(|&n| n > most.into());
        if has_formats && (formats.is_empty() || any_over(&formats, u16::MAX)) {
            Tag::SampleFormat
        } else if any_over(&self.all(Tag::BitsPerSample), u8::MAX.into()) {
            Tag::BitsPerSample
        } else if any_over(&self.all(Tag::ChromaSubsampling), u16::MAX) {
            Tag::ChromaSubsampling
        } else if self.first(Tag::TileWidth, 1) == 0 {
            Tag::TileWidth
        } else {
            Tag::TileLength
        }
    }

    fn count(&self, tag: Tag) -> usize {
        self.directory
            .get(tag)
            .map_or(0, |entry| entry.count() as usize)
    }

    fn depths(&self) -> Vec<u8> {
        let bits = self.all(Tag::BitsPerSample);
        bits.into_iter().map(|bits| bits as u8).collect()
    }

    fn equal_depths(&self) -> Vec<u8> {
        let samples = self.short(Tag::SamplesPerPixel, 1);
        vec![self.bits(); samples.into()]
    }

    fn formats(&self) -> Vec<SampleFormat> {
        let formats = self.all(Tag::SampleFormat);
        formats
            .into_iter()
            .map(|number| SampleFormat::from_u16_exhaustive(number as u16))
            .collect()
    }

    /// Returns the error of a number of the header.
    fn error(&self, fault: Fault) -> TiffError {
        match fault.number() {
            20..=35 => self.format_error(fault),
            40..=55 => self.unsupported_error(fault),
            _ => plain_error(fault),
        }
    }

    fn format_error(&self, fault: Fault) -> TiffError {
        use TiffFormatError::*;
        let error = match fault.number() {
            20 => TiffSignatureNotFound,
            21 => TiffSignatureInvalid,
            22 => ImageFileDirectoryNotFound,
            23 => InconsistentSizesEncountered,
            24 => self.dimensions(),
            25 => InvalidTag,
            26 => InvalidTagValueType(self.misvalued()),
            27 => RequiredTagNotFound(self.missing()),
            28 => UnknownPredictor(self.short(Tag::Predictor, 1)),
            29 => UnknownPlanarConfiguration(self.short(Tag::PlanarConfiguration, 1)),
            30 => InvalidTypeForTag,
            31 => InvalidCountForTag(Tag::ChromaSubsampling, self.count(Tag::ChromaSubsampling)),
            32 => StripTileTagConflict,
            33 => CycleInOffsets,
            34 => SamplesPerPixelIsZero,
            35 => CompressedDataCorrupt(ffi::fault_text(fault)),
            _ => return plain_error(fault),
        };
        error.into()
    }

    fn unsupported_error(&self, fault: Fault) -> TiffError {
        use TiffUnsupportedError::*;
        let error = match fault.number() {
            40 => FloatingPointPredictor(self.color()),
            41 => HorizontalPredictor(self.color()),
            42 => InconsistentBitsPerSample(self.depths()),
            43 => InterpretationWithBits(self.interpretation(), self.equal_depths()),
            44 => UnknownInterpretation,
            45 => UnknownCompressionMethod,
            46 => UnsupportedCompressionMethod(CompressionMethod::from_u16_exhaustive(
                self.short(Tag::Compression, 1),
            )),
            47 => UnsupportedSampleDepth(self.bits()),
            48 => UnsupportedSampleFormat(self.formats()),
            49 => UnsupportedColorType(self.color()),
            50 => UnsupportedBitsPerChannel(self.bits()),
            51 => UnsupportedPlanarConfig(PlanarConfiguration::from_u16(
                self.short(Tag::PlanarConfiguration, 1),
            )),
            52 => UnsupportedDataType,
            53 => UnsupportedInterpretation(self.interpretation()),
            54 => ChromaSubsampling,
            55 => MisalignedTileBoundaries,
            _ => return plain_error(fault),
        };
        error.into()
    }
}
