//! The errors of this crate. Variants and texts are those of the crate `tiff`.

use std::error::Error;
use std::fmt;
use std::io;
use std::num::TryFromIntError;
use std::str::Utf8Error;
use std::string::FromUtf8Error;

use crate::decoder::ChunkType;
use crate::ffi::{self, Fault};
use crate::tags::{
    CompressionMethod, PhotometricInterpretation, PlanarConfiguration, SampleFormat, Tag, Type,
};
use crate::ColorType;

/// Why a call was refused.
#[derive(Debug)]
pub enum TiffError {
    /// The file does not have TIFF's form.
    FormatError(TiffFormatError),
    /// The file has what is not supported.
    UnsupportedError(TiffUnsupportedError),
    /// The reader failed, or the file ends too early.
    IoError(io::Error),
    /// The limits of the decoder, or those of the C library, don't allow the call.
    LimitsExceeded,
    /// A number doesn't fit into its type.
    IntSizeError,
    /// The call doesn't fit the page, or its arguments don't.
    UsageError(UsageError),
}

impl fmt::Display for TiffError {
    fn fmt(&self, f: &mut fmt::Formatter<'_>) -> fmt::Result {
        match self {
            TiffError::FormatError(err) => write!(f, "format error: {err}"),
            TiffError::UnsupportedError(err) => write!(f, "unsupported error: {err}"),
            TiffError::IoError(err) => err.fmt(f),
            TiffError::LimitsExceeded => f.write_str("decoder limits exceeded"),
            TiffError::IntSizeError => f.write_str("platform or format size limits exceeded"),
            TiffError::UsageError(err) => write!(f, "usage error: {err}"),
        }
    }
}

impl Error for TiffError {
    fn source(&self) -> Option<&(dyn Error + 'static)> {
        match self {
            TiffError::FormatError(err) => Some(err),
            TiffError::UnsupportedError(err) => Some(err),
            TiffError::IoError(err) => Some(err),
            TiffError::UsageError(err) => Some(err),
            TiffError::LimitsExceeded | TiffError::IntSizeError => None,
        }
    }
}

/// How a file differs from TIFF's form.
#[derive(Debug, Clone, PartialEq)]
#[non_exhaustive]
pub enum TiffFormatError {
    /// The file does not begin with a byte order, or its BigTIFF header is none.
    TiffSignatureNotFound,
    /// The version in the header is neither 42 nor 43.
    TiffSignatureInvalid,
    /// There is no such page in the chain of directories.
    ImageFileDirectoryNotFound,
    /// Sizes that the file has twice differ.
    InconsistentSizesEncountered,
    /// A width or a height of 0.
    InvalidDimensions(u32, u32),
    /// A text is none.
    InvalidTag,
    /// The value of the tag is not one that is expected.
    InvalidTagValueType(Tag),
    /// The directory has no such tag.
    RequiredTagNotFound(Tag),
    /// The tag Predictor has an unknown value.
    UnknownPredictor(u16),
    /// The tag PlanarConfiguration has an unknown value.
    UnknownPlanarConfiguration(u16),
    /// The type of the tag's value is not the one that is read.
    InvalidTypeForTag,
    /// The tag has so many values, which is not how many it should have.
    InvalidCountForTag(Tag, usize),
    /// The page has neither strips nor tiles, or has tags of both.
    StripTileTagConflict,
    /// The chain of directories leads back into itself.
    CycleInOffsets,
    /// The tag SamplesPerPixel is 0.
    SamplesPerPixelIsZero,
    /// Compressed data is broken.
    CompressedDataCorrupt(String),
}

impl fmt::Display for TiffFormatError {
    fn fmt(&self, f: &mut fmt::Formatter<'_>) -> fmt::Result {
        use TiffFormatError::*;
        match self {
            TiffSignatureNotFound => f.write_str("TIFF signature not found"),
            TiffSignatureInvalid => f.write_str("TIFF signature invalid"),
            ImageFileDirectoryNotFound => f.write_str("image file directory not found"),
            InconsistentSizesEncountered => f.write_str("inconsistent sizes encountered"),
            InvalidDimensions(width, height) => write!(f, "invalid dimensions: {width}x{height}"),
            InvalidTag => f.write_str("image contains invalid tag"),
            InvalidTagValueType(tag) => {
                write!(f, "tag `{tag:?}` did not have the expected value type")
            }
            RequiredTagNotFound(tag) => write!(f, "required tag `{tag:?}` not found"),
            UnknownPredictor(value) => write!(f, "unknown predictor “{value}” encountered"),
            UnknownPlanarConfiguration(value) => {
                write!(f, "unknown planar configuration “{value}”")
            }
            InvalidTypeForTag => f.write_str("tag has invalid type"),
            InvalidCountForTag(tag, len) => {
                write!(
                    f,
                    "tag `{tag:?}` with incorrect number of elements ({len}) encountered"
                )
            }
            StripTileTagConflict => f.write_str(
                "file should contain either (StripByteCounts and StripOffsets) or \
                 (TileByteCounts and TileOffsets), other combination was found",
            ),
            CycleInOffsets => f.write_str("file contained a cycle in the list of IFDs"),
            SamplesPerPixelIsZero => f.write_str("samples per pixel is zero"),
            CompressedDataCorrupt(message) => write!(f, "compressed data is corrupt: {message}"),
        }
    }
}

impl Error for TiffFormatError {}

/// What a file has that is not supported.
#[derive(Debug, Clone, PartialEq, Eq, Hash)]
#[non_exhaustive]
pub enum TiffUnsupportedError {
    /// The byte-plane predictor with samples of this color.
    FloatingPointPredictor(ColorType),
    /// Differences of samples of this color.
    HorizontalPredictor(ColorType),
    /// The samples of a pixel have different depths, or a depth of 0.
    InconsistentBitsPerSample(Vec<u8>),
    /// The interpretation with samples of these depths.
    InterpretationWithBits(PhotometricInterpretation, Vec<u8>),
    /// The interpretation has no name, or its samples can't be inverted.
    UnknownInterpretation,
    /// The method of compression has no name.
    UnknownCompressionMethod,
    /// A method of compression that is not unpacked.
    UnsupportedCompressionMethod(CompressionMethod),
    /// Samples of this depth, with their format.
    UnsupportedSampleDepth(u8),
    /// Samples of these formats.
    UnsupportedSampleFormat(Vec<SampleFormat>),
    /// Pixels of this color.
    UnsupportedColorType(ColorType),
    /// Samples of this depth.
    UnsupportedBitsPerChannel(u8),
    /// The planes of the page.
    UnsupportedPlanarConfig(Option<PlanarConfiguration>),
    /// The type of the samples.
    UnsupportedDataType,
    /// The interpretation.
    UnsupportedInterpretation(PhotometricInterpretation),
    /// YCbCr with fewer samples of chroma than pixels.
    ChromaSubsampling,
    /// Tiles side by side whose rows don't end at bytes.
    MisalignedTileBoundaries,
}

impl fmt::Display for TiffUnsupportedError {
    fn fmt(&self, f: &mut fmt::Formatter<'_>) -> fmt::Result {
        use TiffUnsupportedError::*;
        match self {
            FloatingPointPredictor(color) => {
                write!(f, "floating point predictor for {color:?} is unsupported")
            }
            HorizontalPredictor(color) => {
                write!(f, "horizontal predictor for {color:?} is unsupported")
            }
            InconsistentBitsPerSample(bits) => {
                write!(f, "inconsistent bits per sample: {bits:?}")
            }
            InterpretationWithBits(interpretation, bits) => write!(
                f,
                "Photometric interpretation {interpretation:?} with bits per sample {bits:?} is \
                 unsupported"
            ),
            UnknownInterpretation => f.write_str("unknown photometric interpretation"),
            UnknownCompressionMethod => f.write_str("unknown compression method"),
            UnsupportedCompressionMethod(method) => {
                write!(f, "compression method {method:?} is unsupported")
            }
            UnsupportedSampleDepth(depth) => {
                write!(f, "{depth} samples per pixel is unsupported")
            }
            UnsupportedSampleFormat(formats) => {
                write!(f, "sample format {formats:?} is unsupported")
            }
            UnsupportedColorType(color) => write!(f, "color type {color:?} is unsupported"),
            UnsupportedBitsPerChannel(bits) => {
                write!(f, "{bits} bits per channel not supported")
            }
            UnsupportedPlanarConfig(planar) => {
                write!(f, "unsupported planar configuration “{planar:?}”")
            }
            UnsupportedDataType => f.write_str("unsupported data type."),
            UnsupportedInterpretation(interpretation) => {
                write!(
                    f,
                    "unsupported photometric interpretation \"{interpretation:?}\""
                )
            }
            ChromaSubsampling => f.write_str("chroma subsampling of YCbCr color is unsupported"),
            MisalignedTileBoundaries => f.write_str("tile rows are not aligned to byte boundaries"),
        }
    }
}

impl Error for TiffUnsupportedError {}

/// How a call doesn't fit the page, or its arguments don't fit.
#[derive(Debug)]
#[non_exhaustive]
pub enum UsageError {
    /// The call is for the first kind of chunk, and the page has the second.
    InvalidChunkType(ChunkType, ChunkType),
    /// There is no chunk of this number.
    InvalidChunkIndex(u32),
    /// There is no plane of this number.
    InvalidPlaneIndex(u16),
    /// There is no coding unit of the first number: the second is how many there are.
    InvalidCodingUnit(u32, u32),
    /// The predictor doesn't fit the compression.
    PredictorCompressionMismatch,
    /// The predictor doesn't fit the samples.
    PredictorIncompatible,
    /// The predictor is not available.
    PredictorUnavailable,
    /// The buffer is too short.
    InsufficientOutputBufferSize {
        /// How many bytes it needs.
        needed: usize,
        /// How many bytes it has.
        provided: usize,
    },
    /// Rows at this distance would lie over each other.
    InsufficientOutputRowStride {
        /// How many bytes a row has.
        needed: usize,
        /// The distance that the caller wants.
        requested: usize,
    },
    /// The offset 0 as that of a directory that is written.
    ZeroIfdPointer,
    /// Settings of an encoder after it began to write.
    ReconfiguredAfterImageWrite,
    /// Data of another byte order than the file's.
    ByteOrderMismatch,
    /// Bytes that are no whole number of values.
    MismatchedEntryLength {
        /// The type of the values.
        ty: Type,
        /// How many bytes there are.
        found: usize,
    },
}

impl fmt::Display for UsageError {
    fn fmt(&self, f: &mut fmt::Formatter<'_>) -> fmt::Result {
        use UsageError::*;
        match self {
            InvalidChunkType(expected, actual) => write!(
                f,
                "requested operation is only valid for images with chunk encoding of type \
                 {expected:?} but got {actual:?}"
            ),
            InvalidChunkIndex(index) => write!(f, "invalid chunk index ({index}) requested"),
            InvalidPlaneIndex(index) => write!(f, "invalid plane index ({index}) requested"),
            InvalidCodingUnit(index, have) => write!(
                f,
                "out of bounds coding unit ({index}) requested, only {have} available"
            ),
            PredictorCompressionMismatch => {
                f.write_str("requested predictor is not compatible with the requested compression")
            }
            PredictorIncompatible => {
                f.write_str("the requested predictor is not compatible with the image's format")
            }
            PredictorUnavailable => f.write_str("the requested predictor is not available"),
            InsufficientOutputBufferSize { needed, provided } => write!(
                f,
                "the borrowed output buffer is not large enough for the decoded data, needed \
                 {needed} but have {provided}"
            ),
            InsufficientOutputRowStride { needed, requested } => write!(
                f,
                "the provided output row stride would alias rows of decoded data, needed \
                 {needed} but have {requested}"
            ),
            ZeroIfdPointer => f.write_str("the offset 0 can not point to a valid IFD"),
            ReconfiguredAfterImageWrite => {
                f.write_str("attempted to reconfigure the encoder after image writing has started")
            }
            ByteOrderMismatch => f.write_str(
                "attempted to use data with a byte order that does not match the required one",
            ),
            MismatchedEntryLength { ty, found } => write!(
                f,
                "the length of data is not a multiple of the size of the type {ty:?}, found \
                 {found}"
            ),
        }
    }
}

impl Error for UsageError {}

impl From<TiffFormatError> for TiffError {
    fn from(err: TiffFormatError) -> TiffError {
        TiffError::FormatError(err)
    }
}

impl From<TiffUnsupportedError> for TiffError {
    fn from(err: TiffUnsupportedError) -> TiffError {
        TiffError::UnsupportedError(err)
    }
}

impl From<io::Error> for TiffError {
    fn from(err: io::Error) -> TiffError {
        TiffError::IoError(err)
    }
}

impl From<UsageError> for TiffError {
    fn from(err: UsageError) -> TiffError {
        TiffError::UsageError(err)
    }
}

impl From<Utf8Error> for TiffError {
    fn from(_: Utf8Error) -> TiffError {
        TiffFormatError::InvalidTag.into()
    }
}

impl From<FromUtf8Error> for TiffError {
    fn from(_: FromUtf8Error) -> TiffError {
        TiffFormatError::InvalidTag.into()
    }
}

impl From<TryFromIntError> for TiffError {
    fn from(_: TryFromIntError) -> TiffError {
        TiffError::IntSizeError
    }
}

/// Returns the error of a number of the header, if it names nothing of a page. One that no call of
/// this crate should return has the library's text.
pub(crate) fn plain_error(fault: Fault) -> TiffError {
    let kind = match fault.number() {
        1 => return TiffError::LimitsExceeded,
        2 => return TiffError::IntSizeError,
        3 => io::ErrorKind::OutOfMemory,
        10 => io::ErrorKind::UnexpectedEof,
        11 => io::ErrorKind::InvalidData,
        12 => io::ErrorKind::InvalidInput,
        13 => io::ErrorKind::WriteZero,
        _ => return io::Error::new(io::ErrorKind::Other, ffi::fault_text(fault)).into(),
    };
    io::Error::from(kind).into()
}

/// What a call of this crate returns.
pub type TiffResult<T> = Result<T, TiffError>;

#[cfg(test)]
mod tests {
    use super::*;

    #[test]
    fn errors_of_the_form_have_the_texts_of_the_crate() {
        use TiffFormatError::*;
        for (error, text) in [
            (TiffSignatureNotFound, "TIFF signature not found"),
            (TiffSignatureInvalid, "TIFF signature invalid"),
            (ImageFileDirectoryNotFound, "image file directory not found"),
            (InconsistentSizesEncountered, "inconsistent sizes encountered"),
            (InvalidDimensions(0, 5), "invalid dimensions: 0x5"),
            (InvalidTag, "image contains invalid tag"),
            (
                InvalidTagValueType(Tag::TileWidth),
                "tag `TileWidth` did not have the expected value type",
            ),
            (
                RequiredTagNotFound(Tag::Unknown(65000)),
                "required tag `Unknown(65000)` not found",
            ),
            (UnknownPredictor(4), "unknown predictor “4” encountered"),
            (UnknownPlanarConfiguration(3), "unknown planar configuration “3”"),
            (InvalidTypeForTag, "tag has invalid type"),
            (
                InvalidCountForTag(Tag::ChromaSubsampling, 1),
                "tag `ChromaSubsampling` with incorrect number of elements (1) encountered",
            ),
            (
                StripTileTagConflict,
                "file should contain either (StripByteCounts and StripOffsets) or (TileByteCounts and TileOffsets), other combination was found",
            ),
            (CycleInOffsets, "file contained a cycle in the list of IFDs"),
            (SamplesPerPixelIsZero, "samples per pixel is zero"),
            (
                CompressedDataCorrupt("a reason".into()),
                "compressed data is corrupt: a reason",
            ),
        ] {
            assert_eq!(error.to_string(), text);
            let text = format!("format error: {text}");
            assert_eq!(TiffError::from(error).to_string(), text);
        }
    }

    #[test]
    fn errors_of_what_is_not_supported_have_the_texts_of_the_crate() {
        use TiffUnsupportedError::*;
        let color = ColorType::Multiband {
            bit_depth: 8,
            num_samples: 2,
        };
        for (error, text) in [
            (
                FloatingPointPredictor(color),
                "floating point predictor for Multiband { bit_depth: 8, num_samples: 2 } is unsupported",
            ),
            (
                HorizontalPredictor(ColorType::Gray(4)),
                "horizontal predictor for Gray(4) is unsupported",
            ),
            (
                InconsistentBitsPerSample(vec![8, 4]),
                "inconsistent bits per sample: [8, 4]",
            ),
            (
                InterpretationWithBits(PhotometricInterpretation::RGB, vec![8]),
                "Photometric interpretation RGB with bits per sample [8] is unsupported",
            ),
            (UnknownInterpretation, "unknown photometric interpretation"),
            (UnknownCompressionMethod, "unknown compression method"),
            (
                UnsupportedCompressionMethod(CompressionMethod::LZW),
                "compression method LZW is unsupported",
            ),
            (UnsupportedSampleDepth(8), "8 samples per pixel is unsupported"),
            (
                UnsupportedSampleFormat(vec![SampleFormat::Void, SampleFormat::Unknown(5)]),
                "sample format [Void, Unknown(5)] is unsupported",
            ),
            (
                UnsupportedColorType(ColorType::Lab(8)),
                "color type Lab(8) is unsupported",
            ),
            (UnsupportedBitsPerChannel(3), "3 bits per channel not supported"),
            (
                UnsupportedPlanarConfig(Some(PlanarConfiguration::Planar)),
                "unsupported planar configuration “Some(Planar)”",
            ),
            (UnsupportedDataType, "unsupported data type."),
            (
                UnsupportedInterpretation(PhotometricInterpretation::YCbCr),
                "unsupported photometric interpretation \"YCbCr\"",
            ),
            (
                ChromaSubsampling,
                "chroma subsampling of YCbCr color is unsupported",
            ),
            (
                MisalignedTileBoundaries,
                "tile rows are not aligned to byte boundaries",
            ),
        ] {
            assert_eq!(error.to_string(), text);
            let text = format!("unsupported error: {text}");
            assert_eq!(TiffError::from(error).to_string(), text);
        }
    }

    #[test]
    fn errors_of_usage_have_the_texts_of_the_crate() {
        use UsageError::*;
        for (error, text) in [
            (
                InvalidChunkType(ChunkType::Strip, ChunkType::Tile),
                "requested operation is only valid for images with chunk encoding of type Strip but got Tile",
            ),
            (InvalidChunkIndex(7), "invalid chunk index (7) requested"),
            (InvalidPlaneIndex(7), "invalid plane index (7) requested"),
            (
                InvalidCodingUnit(7, 3),
                "out of bounds coding unit (7) requested, only 3 available",
            ),
            (
                PredictorCompressionMismatch,
                "requested predictor is not compatible with the requested compression",
            ),
            (
                PredictorIncompatible,
                "the requested predictor is not compatible with the image's format",
            ),
            (PredictorUnavailable, "the requested predictor is not available"),
            (
                InsufficientOutputBufferSize {
                    needed: 2,
                    provided: 1,
                },
                "the borrowed output buffer is not large enough for the decoded data, needed 2 but have 1",
            ),
            (
                InsufficientOutputRowStride {
                    needed: 4,
                    requested: 3,
                },
                "the provided output row stride would alias rows of decoded data, needed 4 but have 3",
            ),
            (ZeroIfdPointer, "the offset 0 can not point to a valid IFD"),
            (
                ReconfiguredAfterImageWrite,
                "attempted to reconfigure the encoder after image writing has started",
            ),
            (
                ByteOrderMismatch,
                "attempted to use data with a byte order that does not match the required one",
            ),
            (
                MismatchedEntryLength {
                    ty: Type::SHORT,
                    found: 3,
                },
                "the length of data is not a multiple of the size of the type SHORT, found 3",
            ),
        ] {
            assert_eq!(error.to_string(), text);
            let text = format!("usage error: {text}");
            assert_eq!(TiffError::from(error).to_string(), text);
        }
    }

    #[test]
    fn other_errors_are_converted() {
        let io = TiffError::from(io::Error::from(io::ErrorKind::UnexpectedEof));
        assert_eq!(io.to_string(), "unexpected end of file");
        assert!(io.source().map_or(false, |source| source.is::<io::Error>()));
        let limits = TiffError::LimitsExceeded;
        assert_eq!(limits.to_string(), "decoder limits exceeded");
        assert!(limits.source().is_none());
        let size = TiffError::from(u8::try_from(256).unwrap_err());
        assert_eq!(size.to_string(), "platform or format size limits exceeded");
        let text = TiffError::from(String::from_utf8(vec![0xff]).unwrap_err());
        assert_eq!(text.to_string(), "format error: image contains invalid tag");
        let source = text.source().and_then(|source| source.downcast_ref());
        assert_eq!(source, Some(&TiffFormatError::InvalidTag));
    }
}
