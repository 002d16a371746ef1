//! Tags, types of values, and the numbers that tags have as values.

use std::fmt;

use crate::encoder::TiffValue;
use crate::{TiffError, TiffResult};

/// Declares an enum of named numbers of 16 bits, with `from_u16` and `to_u16`. Behind `else` is the
/// name of a variant for all other numbers, which comes with `from_u16_exhaustive`.
macro_rules! numbers {
    (
        $(#[$about:meta])*
        $name:ident { $($(#[$doc:meta])* $variant:ident = $number:literal,)* }
    ) => {
        $(#[$about])*
        #[derive(Clone, Copy, PartialEq, Eq, Debug, Hash)]
        #[non_exhaustive]
        #[repr(u16)]
        pub enum $name {
            $($(#[$doc])* $variant = $number,)*
        }

        numbers!(@calls $name { $($variant = $number,)* });
    };
    // Beside a variant with a value, others have numbers in the enum itself only since Rust 1.66.
    (
        $(#[$about:meta])*
        $name:ident { $($(#[$doc:meta])* $variant:ident = $number:literal,)* } else $unknown:ident
    ) => {
        $(#[$about])*
        #[derive(Clone, Copy, PartialEq, Eq, Debug, Hash)]
        #[non_exhaustive]
        pub enum $name {
            $($(#[$doc])* $variant,)*
            /// Any other number.
            $unknown(u16),
        }

        numbers!(@calls $name { $($variant = $number,)* } $unknown);

        impl $name {
            /// Returns the variant of a number: of one without a name, the last variant.
            #[inline(always)]
            pub const fn from_u16_exhaustive(val: u16) -> Self {
                match Self::from_u16(val) {
                    Some(known) => known,
                    None => $name::$unknown(val),
                }
            }
        }
    };
    (@calls $name:ident { $($variant:ident = $number:literal,)* } $($unknown:ident)?) => {
        impl $name {
            /// Returns the variant that has a name for this number, if there is one.
            #[inline(always)]
            pub const fn from_u16(val: u16) -> Option<Self> {
                match val {
                    $($number => Some($name::$variant),)*
                    _ => None,
                }
            }

            /// Returns the number.
            #[inline(always)]
            pub const fn to_u16(&self) -> u16 {
                match *self {
                    $($name::$variant => $number,)*
                    $($name::$unknown(number) => number,)?
                }
            }
        }
    };
}

numbers! {
    /// The tag of an entry of a directory.
    Tag {
        /// Who made the image.
        Artist = 315,
        /// How many bits each sample of a pixel has.
        BitsPerSample = 258,
        /// The rows of a dithering matrix.
        CellLength = 265,
        /// The columns of a dithering matrix.
        CellWidth = 264,
        /// The colors of a palette.
        ColorMap = 320,
        /// The method by which chunks are compressed.
        Compression = 259,
        /// When the image was made.
        DateTime = 306,
        /// What the samples behind those of the color are.
        ExtraSamples = 338,
        /// The order of bits in a byte.
        FillOrder = 266,
        /// The lengths of unused strings of bytes.
        FreeByteCounts = 289,
        /// The offsets of unused strings of bytes.
        FreeOffsets = 288,
        /// The density of each gray.
        GrayResponseCurve = 291,
        /// The unit of the densities of grays.
        GrayResponseUnit = 290,
        /// The computer on which the image was made.
        HostComputer = 316,
        /// What the image shows.
        ImageDescription = 270,
        /// The height of the image in pixels.
        ImageLength = 257,
        /// The width of the image in pixels.
        ImageWidth = 256,
        /// Who made the scanner.
        Make = 271,
        /// The largest value of a sample.
        MaxSampleValue = 281,
        /// The smallest value of a sample.
        MinSampleValue = 280,
        /// The model of the scanner.
        Model = 272,
        /// What the page is for.
        NewSubfileType = 254,
        /// Where the first row and column are.
        Orientation = 274,
        /// What the samples mean.
        PhotometricInterpretation = 262,
        /// Whether samples lie pixel by pixel, or plane by plane.
        PlanarConfiguration = 284,
        /// The unit of the resolutions.
        ResolutionUnit = 296,
        /// The rows of a strip.
        RowsPerStrip = 278,
        /// How many samples a pixel has.
        SamplesPerPixel = 277,
        /// The program that wrote the file.
        Software = 305,
        /// The bytes of each strip in the file.
        StripByteCounts = 279,
        /// The offset of each strip.
        StripOffsets = 273,
        /// What the page is for, in old files.
        SubfileType = 255,
        /// How gray became black and white.
        Threshholding = 263,
        /// Pixels in a unit, along a row.
        XResolution = 282,
        /// Pixels in a unit, along a column.
        YResolution = 283,
        /// What was done to samples before they were compressed.
        Predictor = 317,
        /// The columns of a tile.
        TileWidth = 322,
        /// The rows of a tile.
        TileLength = 323,
        /// The offset of each tile.
        TileOffsets = 324,
        /// The bytes of each tile in the file.
        TileByteCounts = 325,
        /// The offsets of directories below this one.
        SubIfd = 330,
        /// What the bits of each sample are.
        SampleFormat = 339,
        /// The smallest value of each sample.
        SMinSampleValue = 340,
        /// The largest value of each sample.
        SMaxSampleValue = 341,
        /// The tables of JPEG streams.
        JPEGTables = 347,
        /// How many pixels share samples of chroma.
        #[doc(alias = "YCbCrSubsampling")]
        ChromaSubsampling = 530,
        /// Where samples of chroma lie.
        #[doc(alias = "YCbCrPositioning")]
        ChromaPositioning = 531,
        /// GeoTIFF: the size of a pixel.
        ModelPixelScaleTag = 33550,
        /// GeoTIFF: the matrix from pixels to places.
        ModelTransformationTag = 34264,
        /// GeoTIFF: pixels and their places.
        ModelTiepointTag = 33922,
        /// Who has the rights.
        Copyright = 33432,
        /// The offset of an Exif directory.
        ExifDirectory = 34665,
        /// The offset of a GPS directory.
        GpsDirectory = 34853,
        /// A color profile.
        IccProfile = 34675,
        /// GeoTIFF: the keys.
        GeoKeyDirectoryTag = 34735,
        /// GeoTIFF: numbers of the keys.
        GeoDoubleParamsTag = 34736,
        /// GeoTIFF: texts of the keys.
        GeoAsciiParamsTag = 34737,
        /// The version of Exif.
        ExifVersion = 36864,
        /// GDAL: the value of pixels without data.
        GdalNodata = 42113,
    } else Unknown
}

/// The offset of a directory in a file.
#[derive(Clone, Copy, PartialEq, Eq, Debug, Hash)]
pub struct IfdPointer(pub u64);

impl fmt::LowerHex for IfdPointer {
    fn fmt(&self, f: &mut fmt::Formatter<'_>) -> fmt::Result {
        fmt::LowerHex::fmt(&self.0, f)
    }
}

impl fmt::UpperHex for IfdPointer {
    fn fmt(&self, f: &mut fmt::Formatter<'_>) -> fmt::Result {
        fmt::UpperHex::fmt(&self.0, f)
    }
}

numbers! {
    /// The type of the values of an entry.
    Type {
        /// Unsigned numbers of 8 bits.
        BYTE = 1,
        /// Characters of 7 bits, with a zero at the end.
        ASCII = 2,
        /// Unsigned numbers of 16 bits.
        SHORT = 3,
        /// Unsigned numbers of 32 bits.
        LONG = 4,
        /// Fractions of two LONG.
        RATIONAL = 5,
        /// Signed numbers of 8 bits.
        SBYTE = 6,
        /// Bytes of any meaning.
        UNDEFINED = 7,
        /// Signed numbers of 16 bits.
        SSHORT = 8,
        /// Signed numbers of 32 bits.
        SLONG = 9,
        /// Fractions of two SLONG.
        SRATIONAL = 10,
        /// Floating-point numbers of 32 bits.
        FLOAT = 11,
        /// Floating-point numbers of 64 bits.
        DOUBLE = 12,
        /// Offsets of directories, of 32 bits.
        IFD = 13,
        /// Unsigned numbers of 64 bits.
        LONG8 = 16,
        /// Signed numbers of 64 bits.
        SLONG8 = 17,
        /// Offsets of directories, of 64 bits.
        IFD8 = 18,
    }
}

impl Type {
    /// Returns how many bytes a value has.
    pub(crate) fn byte_len(self) -> usize {
        match self {
            Type::BYTE | Type::SBYTE | Type::ASCII | Type::UNDEFINED => 1,
            Type::SHORT | Type::SSHORT => 2,
            Type::LONG | Type::SLONG | Type::FLOAT | Type::IFD => 4,
            Type::LONG8
            | Type::SLONG8
            | Type::DOUBLE
            | Type::RATIONAL
            | Type::SRATIONAL
            | Type::IFD8 => 8,
        }
    }

    /// Returns how many bytes the numbers have of which a value consists.
    fn number_len(self) -> usize {
        match self {
            Type::RATIONAL | Type::SRATIONAL => 4,
            other => other.byte_len(),
        }
    }

    /// Returns how many bytes so many values have.
    pub(crate) fn value_bytes(self, count: u64) -> TiffResult<u64> {
        count
            .checked_mul(self.byte_len() as u64)
            .ok_or(TiffError::LimitsExceeded)
    }
}

numbers! {
    /// A method of compression.
    CompressionMethod {
        /// None.
        None = 1,
        /// Runs of black and white, of CCITT group 3, row by row.
        Huffman = 2,
        /// CCITT group 3.
        Fax3 = 3,
        /// CCITT group 4.
        Fax4 = 4,
        /// LZW.
        LZW = 5,
        /// JPEG, of old files.
        JPEG = 6,
        /// JPEG.
        ModernJPEG = 7,
        /// Deflate.
        Deflate = 8,
        /// Deflate, of old files.
        OldDeflate = 32946,
        /// PackBits.
        PackBits = 32773,
        /// ZSTD.
        ZSTD = 50000,
        /// WebP.
        WebP = 50001,
    } else Unknown
}

numbers! {
    /// What the samples of a page mean.
    PhotometricInterpretation {
        /// Gray, of which 0 is white.
        WhiteIsZero = 0,
        /// Gray, of which 0 is black.
        BlackIsZero = 1,
        /// Red, green and blue.
        RGB = 2,
        /// Indices into a table of colors.
        RGBPalette = 3,
        /// A mask.
        TransparencyMask = 4,
        /// Inks.
        CMYK = 5,
        /// Luma and chroma.
        YCbCr = 6,
        /// CIE L*a*b*.
        CIELab = 8,
        /// ICC L*a*b*.
        IccLab = 9,
        /// ITU L*a*b*.
        ItuLab = 10,
    }
}

numbers! {
    /// How the samples of a pixel lie.
    PlanarConfiguration {
        /// Side by side.
        Chunky = 1,
        /// In a plane each.
        Planar = 2,
    }
}

numbers! {
    /// What was done to samples before they were compressed.
    Predictor {
        /// Nothing.
        None = 1,
        /// Samples are differences of neighbors.
        Horizontal = 2,
        /// The bytes of floating-point samples are apart, and differences of neighbors.
        FloatingPoint = 3,
    }
}

numbers! {
    /// The unit of resolutions.
    ResolutionUnit {
        /// None: only the ratio counts.
        None = 1,
        /// Inches.
        Inch = 2,
        /// Centimeters.
        Centimeter = 3,
    }
}

numbers! {
    /// What the bits of a sample are.
    SampleFormat {
        /// An unsigned number.
        Uint = 1,
        /// A signed number.
        Int = 2,
        /// A floating-point number.
        IEEEFP = 3,
        /// Undefined.
        Void = 4,
    } else Unknown
}

numbers! {
    /// What a sample behind those of the color is.
    ExtraSamples {
        /// Anything.
        Unspecified = 0,
        /// Alpha by which the color is multiplied.
        AssociatedAlpha = 1,
        /// Alpha.
        UnassociatedAlpha = 2,
    }
}

/// Values of an entry, as bytes in a byte order.
pub struct ValueBuffer {
    bytes: Vec<u8>,
    ty: Type,
    count: u64,
    byte_order: ByteOrder,
}

impl ValueBuffer {
    /// Returns a buffer without values.
    pub fn empty(ty: Type) -> Self {
        ValueBuffer {
            bytes: Vec::new(),
            ty,
            count: 0,
            byte_order: ByteOrder::native(),
        }
    }

    /// Returns a buffer of values, in the byte order of this machine.
    pub fn from_value<T: TiffValue>(value: &T) -> Self {
        ValueBuffer {
            bytes: value.data().into_owned(),
            ty: T::FIELD_TYPE,
            count: value.count() as u64,
            byte_order: ByteOrder::native(),
        }
    }

    /// Returns the byte order of the values.
    pub fn byte_order(&self) -> ByteOrder {
        self.byte_order
    }

    /// Returns the type of the values.
    pub fn data_type(&self) -> Type {
        self.ty
    }

    /// Returns how many values there are.
    pub fn count(&self) -> u64 {
        self.count
    }

    /// Returns the bytes of the values.
    pub fn as_bytes(&self) -> &[u8] {
        &self.bytes
    }

    /// Returns the bytes of the values, to be changed.
    pub fn as_bytes_mut(&mut self) -> &mut [u8] {
        &mut self.bytes
    }

    /// Turns the values into another byte order.
    pub fn set_byte_order(&mut self, byte_order: ByteOrder) {
        self.byte_order
            .convert(self.ty, &mut self.bytes, byte_order);
        self.byte_order = byte_order;
    }

    /// Puts so many values in place of these. `bytes` are their bytes.
    pub(crate) fn assume(&mut self, ty: Type, count: u64, order: ByteOrder, bytes: Vec<u8>) {
        debug_assert!(ty
            .value_bytes(count)
            .map_or(false, |len| len == bytes.len() as u64));
        *self = ValueBuffer {
            bytes,
            ty,
            count,
            byte_order: order,
        };
    }
}

/// The order of the bytes of a number.
#[derive(Clone, Copy, Debug, PartialEq, Eq)]
pub enum ByteOrder {
    /// The lowest byte first.
    LittleEndian,
    /// The highest byte first.
    BigEndian,
}

impl ByteOrder {
    /// Returns the byte order of this machine.
    pub const fn native() -> Self {
        if cfg!(target_endian = "big") {
            ByteOrder::BigEndian
        } else {
            ByteOrder::LittleEndian
        }
    }

    /// Turns values of a type from this byte order into another. Bytes behind the last whole number
    /// stay.
    pub fn convert(self, ty: Type, buffer: &mut [u8], to: ByteOrder) {
        self.convert_numbers(ty.number_len(), buffer, to);
    }

    /// Turns numbers of so many bytes.
    pub(crate) fn convert_numbers(self, len: usize, buffer: &mut [u8], to: ByteOrder) {
        if self != to {
            for number in buffer.chunks_exact_mut(len) {
                number.reverse();
            }
        }
    }
}

#[cfg(test)]
mod tests {
    use super::*;

    #[test]
    fn numbers_have_names() {
        assert_eq!(Tag::from_u16(256), Some(Tag::ImageWidth));
        assert_eq!(Tag::from_u16(65000), None);
        assert_eq!(Tag::from_u16_exhaustive(65000), Tag::Unknown(65000));
        assert_eq!(Tag::Unknown(65000).to_u16(), 65000);
        assert_eq!(Tag::ExifDirectory.to_u16(), 0x8769);
        assert_eq!(Tag::GpsDirectory.to_u16(), 0x8825);
        assert_eq!(Tag::ExifVersion.to_u16(), 0x9000);
        assert_eq!(CompressionMethod::OldDeflate.to_u16(), 0x80B2);
        assert_eq!(CompressionMethod::PackBits.to_u16(), 0x8005);
        assert_eq!(CompressionMethod::ZSTD.to_u16(), 0xC350);
        assert_eq!(
            CompressionMethod::from_u16_exhaustive(9),
            CompressionMethod::Unknown(9)
        );
        assert_eq!(
            SampleFormat::from_u16_exhaustive(5),
            SampleFormat::Unknown(5)
        );
        assert_eq!(PhotometricInterpretation::from_u16(7), None);
        assert_eq!(Type::from_u16(14), None);
        assert_eq!(Type::from_u16(18), Some(Type::IFD8));
        assert_eq!(Predictor::from_u16(4), None);
        assert_eq!(
            ExtraSamples::from_u16(2),
            Some(ExtraSamples::UnassociatedAlpha)
        );
        for number in 0..=u16::MAX {
            assert_eq!(Tag::from_u16_exhaustive(number).to_u16(), number);
            assert_eq!(
                CompressionMethod::from_u16_exhaustive(number).to_u16(),
                number
            );
            if let Some(ty) = Type::from_u16(number) {
                assert_eq!(ty.to_u16(), number);
            }
        }
    }

    #[test]
    fn values_are_turned_number_by_number() {
        let turned = |ty, bytes: &[u8]| {
            let mut bytes = bytes.to_vec();
            ByteOrder::BigEndian.convert(ty, &mut bytes, ByteOrder::LittleEndian);
            bytes
        };
        assert_eq!(turned(Type::BYTE, &[1, 2, 3]), [1, 2, 3]);
        assert_eq!(turned(Type::SHORT, &[1, 2, 3, 4, 5]), [2, 1, 4, 3, 5]);
        assert_eq!(
            turned(Type::RATIONAL, &[1, 2, 3, 4, 5, 6, 7, 8]),
            [4, 3, 2, 1, 8, 7, 6, 5]
        );
        assert_eq!(
            turned(Type::DOUBLE, &[1, 2, 3, 4, 5, 6, 7, 8]),
            [8, 7, 6, 5, 4, 3, 2, 1]
        );
        let mut same = [1, 2];
        ByteOrder::BigEndian.convert(Type::SHORT, &mut same, ByteOrder::BigEndian);
        assert_eq!(same, [1, 2]);
    }

    #[test]
    fn a_pointer_is_printed_in_hexadecimal() {
        let pointer = IfdPointer(0xab);
        assert_eq!(
            format!("{pointer:x} {pointer:#X} {pointer:?}"),
            "ab 0xAB IfdPointer(171)"
        );
    }
}
