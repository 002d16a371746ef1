//! The names of the crate `tiff` 0.11.3 that this crate has, each with its signature there: that
//! this file compiles is the test.

#![allow(clippy::type_complexity)]

use std::borrow::Cow;
use std::fmt::Debug;
use std::fs::File;
use std::hash::Hash;
use std::io::{self, BufReader, BufWriter, Cursor, Seek, Write};
use std::num::NonZeroUsize;

use tiff::decoder::ifd::{Entry, Value};
use tiff::decoder::{
    BufferLayoutPreference, ChunkType, Decoder, DecodingBuffer, DecodingResult, DecodingSampleType,
    IfdDecoder, Limits, TiffCodingUnit,
};
use tiff::encoder::colortype::{self, ColorType as Color};
use tiff::encoder::compression::{self, CompressionAlgorithm, Compressor, Packbits, Uncompressed};
use tiff::encoder::{
    Compression, DirectoryEncoder, Ifd, Ifd8, ImageEncoder, Rational, SRational, TiffEncoder,
    TiffKind, TiffKindBig, TiffKindStandard, TiffValue,
};
use tiff::tags::{
    ByteOrder, CompressionMethod, ExtraSamples, IfdPointer, PhotometricInterpretation,
    PlanarConfiguration, Predictor, ResolutionUnit, SampleFormat, Tag, Type, ValueBuffer,
};
use tiff::{
    ColorType, Directory, TiffError, TiffFormatError, TiffResult, TiffUnsupportedError, UsageError,
};

type Buffer = DecodingBuffer<'static>;
type R = BufReader<File>;
type D = Decoder<R>;

/// Checks that each call has a signature.
macro_rules! calls {
    ($($signature:ty: $($call:expr),+;)*) => {
        $($(let _: $signature = $call;)+)*
    };
}

#[test]
fn the_decoder_has_the_calls_of_the_crate() {
    calls! {
        fn(R) -> TiffResult<D>: D::new;
        fn(D, Limits) -> D: D::with_limits;
        fn(&mut D) -> TiffResult<(u32, u32)>: D::dimensions;
        fn(&mut D) -> TiffResult<ColorType>: D::colortype;
        fn(&mut D) -> Option<IfdPointer>: D::ifd_pointer;
        fn(&mut D, usize) -> TiffResult<()>: D::seek_to_image;
        fn(&mut D) -> TiffResult<()>: D::next_image;
        fn(&D) -> bool: D::more_images;
        fn(&D) -> ByteOrder: D::byte_order;
        fn(&mut D) -> Result<u64, io::Error>: D::read_ifd_offset, D::read_long8;
        fn(&mut D) -> &mut R: D::inner;
        fn(&mut D) -> Result<u8, io::Error>: D::read_byte;
        fn(&mut D) -> Result<u16, io::Error>: D::read_short;
        fn(&mut D) -> Result<i16, io::Error>: D::read_sshort;
        fn(&mut D) -> Result<u32, io::Error>: D::read_long;
        fn(&mut D) -> Result<i32, io::Error>: D::read_slong;
        fn(&mut D) -> Result<f32, io::Error>: D::read_float;
        fn(&mut D) -> Result<f64, io::Error>: D::read_double;
        fn(&mut D) -> Result<i64, io::Error>: D::read_slong8;
        fn(&mut D, usize) -> TiffResult<String>: D::read_string;
        fn(&mut D) -> TiffResult<[u8; 4]>: D::read_offset;
        fn(&mut D) -> Result<[u8; 8], io::Error>: D::read_offset_u64;
        fn(&mut D, u32) -> io::Result<()>: D::goto_offset;
        fn(&mut D, u64) -> io::Result<()>: D::goto_offset_u64;
        fn(&mut D, IfdPointer) -> TiffResult<Directory>: D::read_directory;
        fn(&D) -> ChunkType: D::get_chunk_type;
        fn(&mut D) -> TiffResult<u32>: D::strip_count, D::tile_count;
        fn(&mut D, u32) -> TiffResult<BufferLayoutPreference>: D::image_chunk_buffer_layout;
        fn(&mut D, TiffCodingUnit) -> TiffResult<BufferLayoutPreference>: D::image_coding_unit_layout;
        fn(&mut D, u32) -> TiffResult<DecodingResult>: D::read_chunk;
        fn(&mut D, u32, &mut [u8]) -> TiffResult<()>: D::read_chunk_bytes;
        fn(&mut D, &mut DecodingResult, u32, usize) -> TiffResult<()>: D::read_chunk_to_buffer;
        fn(&mut D, TiffCodingUnit, &mut [u8]) -> TiffResult<()>: D::read_coding_unit_bytes;
        fn(&D) -> (u32, u32): D::chunk_dimensions;
        fn(&D, u32) -> (u32, u32): D::chunk_data_dimensions;
        fn(&mut D) -> TiffResult<BufferLayoutPreference>: D::image_buffer_layout;
        fn(&mut D) -> TiffResult<DecodingResult>: D::read_image;
        fn(&mut D, &mut DecodingResult) -> TiffResult<BufferLayoutPreference>: D::read_image_to_buffer;
        fn(&mut D, &mut [u8]) -> TiffResult<()>: D::read_image_bytes;
        fn(&mut D) -> IfdDecoder<'_>: D::image_ifd;
        for<'a> fn(&'a mut D, &'a Directory) -> IfdDecoder<'a>: D::read_directory_tags;
        fn(&mut D, Tag) -> TiffResult<Option<Value>>: D::find_tag;
        fn(&mut D, Tag) -> TiffResult<Option<u16>>: D::find_tag_unsigned;
        fn(&mut D, Tag) -> TiffResult<Option<Vec<u8>>>: D::find_tag_unsigned_vec;
        fn(&mut D, Tag) -> TiffResult<usize>: D::get_tag_unsigned;
        fn(&mut D, Tag) -> TiffResult<Value>: D::get_tag;
        fn(&mut D, Tag) -> TiffResult<u32>: D::get_tag_u32;
        fn(&mut D, Tag) -> TiffResult<u64>: D::get_tag_u64;
        fn(&mut D, Tag) -> TiffResult<f32>: D::get_tag_f32;
        fn(&mut D, Tag) -> TiffResult<f64>: D::get_tag_f64;
        fn(&mut D, Tag) -> TiffResult<Vec<u8>>: D::get_tag_u8_vec;
        fn(&mut D, Tag) -> TiffResult<Vec<u16>>: D::get_tag_u16_vec;
        fn(&mut D, Tag) -> TiffResult<Vec<u32>>: D::get_tag_u32_vec;
        fn(&mut D, Tag) -> TiffResult<Vec<u64>>: D::get_tag_u64_vec;
        fn(&mut D, Tag) -> TiffResult<Vec<f32>>: D::get_tag_f32_vec;
        fn(&mut D, Tag) -> TiffResult<Vec<f64>>: D::get_tag_f64_vec;
        fn(&mut D, Tag) -> TiffResult<String>: D::get_tag_ascii_string;
    }
    fn iterate(decoder: &mut D) -> impl Iterator<Item = TiffResult<(Tag, Value)>> + '_ {
        decoder.tag_iter()
    }
    let _ = iterate;
}

#[test]
fn the_tags_of_a_directory_have_the_calls_of_the_crate() {
    type I = IfdDecoder<'static>;
    calls! {
        fn(&I, Tag) -> Option<Entry>: I::find_entry;
        fn(&mut I, Tag) -> TiffResult<Option<Value>>: I::find_tag;
        fn(&mut I, Tag, &mut ValueBuffer) -> TiffResult<Option<Entry>>: I::find_tag_buf;
        fn(&mut I, Tag, &mut [u8], u64) -> TiffResult<Option<usize>>: I::find_tag_bytes;
        fn(&mut I, Tag) -> TiffResult<Option<u16>>: I::find_tag_unsigned;
        fn(&mut I, Tag) -> TiffResult<Option<Vec<u8>>>: I::find_tag_unsigned_vec;
        fn(&mut I, Tag) -> TiffResult<usize>: I::get_tag_unsigned;
        fn(&mut I, Tag) -> TiffResult<Value>: I::get_tag;
        fn(&mut I, Tag) -> TiffResult<u32>: I::get_tag_u32;
        fn(&mut I, Tag) -> TiffResult<u64>: I::get_tag_u64;
        fn(&mut I, Tag) -> TiffResult<f32>: I::get_tag_f32;
        fn(&mut I, Tag) -> TiffResult<f64>: I::get_tag_f64;
        fn(&mut I, Tag) -> TiffResult<Vec<u8>>: I::get_tag_u8_vec;
        fn(&mut I, Tag) -> TiffResult<Vec<u16>>: I::get_tag_u16_vec;
        fn(&mut I, Tag) -> TiffResult<Vec<u32>>: I::get_tag_u32_vec;
        fn(&mut I, Tag) -> TiffResult<Vec<u64>>: I::get_tag_u64_vec;
        fn(&mut I, Tag) -> TiffResult<Vec<f32>>: I::get_tag_f32_vec;
        fn(&mut I, Tag) -> TiffResult<Vec<f64>>: I::get_tag_f64_vec;
        fn(&mut I, Tag) -> TiffResult<String>: I::get_tag_ascii_string;
        for<'a> fn(&'a I) -> &'a Directory: I::directory;
        fn() -> Directory: Directory::empty;
        for<'a> fn(&'a Directory, Tag) -> Option<&'a Entry>: Directory::get;
        fn(&Directory, Tag) -> bool: Directory::contains;
        fn(&mut Directory, Vec<(Tag, Entry)>) -> (): Directory::extend;
        fn(&Directory) -> usize: Directory::len;
        fn(&Directory) -> bool: Directory::is_empty;
        fn(&Directory) -> Option<IfdPointer>: Directory::next;
        fn(&mut Directory, Option<IfdPointer>) -> (): Directory::set_next;
        fn(Type, u32, [u8; 4]) -> Entry: Entry::new;
        fn(Type, u64, [u8; 8]) -> Entry: Entry::new_u64;
        fn(&Entry) -> Type: Entry::field_type;
        fn(&Entry) -> u64: Entry::count;
        fn(Type) -> ValueBuffer: ValueBuffer::empty;
        fn(&[u16; 3]) -> ValueBuffer: ValueBuffer::from_value;
        fn(&ValueBuffer) -> ByteOrder: ValueBuffer::byte_order;
        fn(&ValueBuffer) -> Type: ValueBuffer::data_type;
        fn(&ValueBuffer) -> u64: ValueBuffer::count;
        for<'a> fn(&'a ValueBuffer) -> &'a [u8]: ValueBuffer::as_bytes;
        for<'a> fn(&'a mut ValueBuffer) -> &'a mut [u8]: ValueBuffer::as_bytes_mut;
        fn(&mut ValueBuffer, ByteOrder) -> (): ValueBuffer::set_byte_order;
        fn() -> ByteOrder: ByteOrder::native;
        fn(ByteOrder, Type, &mut [u8], ByteOrder) -> (): ByteOrder::convert;
    }
    fn iterate<'l>(tags: IfdDecoder<'l>) -> impl Iterator<Item = TiffResult<(Tag, Value)>> + 'l {
        tags.tag_iter()
    }
    fn entries(directory: &Directory) -> impl Iterator<Item = (Tag, &Entry)> + '_ {
        directory.iter()
    }
    let _ = (iterate, entries);
}

#[test]
fn values_and_buffers_have_the_calls_of_the_crate() {
    calls! {
        fn(Value) -> TiffResult<u8>: Value::into_u8;
        fn(Value) -> TiffResult<i8>: Value::into_i8;
        fn(Value) -> TiffResult<u16>: Value::into_u16;
        fn(Value) -> TiffResult<i16>: Value::into_i16;
        fn(Value) -> TiffResult<u32>: Value::into_u32;
        fn(Value) -> TiffResult<i32>: Value::into_i32;
        fn(Value) -> TiffResult<u64>: Value::into_u64;
        fn(Value) -> TiffResult<i64>: Value::into_i64;
        fn(Value) -> TiffResult<f32>: Value::into_f32;
        fn(Value) -> TiffResult<f64>: Value::into_f64;
        fn(Value) -> TiffResult<IfdPointer>: Value::into_ifd_pointer;
        fn(Value) -> TiffResult<String>: Value::into_string;
        fn(Value) -> TiffResult<Vec<u8>>: Value::into_u8_vec;
        fn(Value) -> TiffResult<Vec<u16>>: Value::into_u16_vec;
        fn(Value) -> TiffResult<Vec<u32>>: Value::into_u32_vec;
        fn(Value) -> TiffResult<Vec<i32>>: Value::into_i32_vec;
        fn(Value) -> TiffResult<Vec<u64>>: Value::into_u64_vec;
        fn(Value) -> TiffResult<Vec<i64>>: Value::into_i64_vec;
        fn(Value) -> TiffResult<Vec<f32>>: Value::into_f32_vec;
        fn(Value) -> TiffResult<Vec<f64>>: Value::into_f64_vec;
        fn(Value) -> TiffResult<Vec<IfdPointer>>: Value::into_ifd_vec;
        fn(&mut DecodingResult, &BufferLayoutPreference, &Limits) -> Result<(), TiffError>: DecodingResult::resize_to;
        for<'a> fn(&'a mut DecodingResult, usize) -> DecodingBuffer<'a>: DecodingResult::as_buffer;
        for<'a> fn(&'a Buffer) -> &'a [u8]: Buffer::as_bytes;
        for<'a> fn(&'a mut Buffer) -> &'a mut [u8]: Buffer::as_bytes_mut;
        fn(&Buffer) -> usize: Buffer::byte_len;
        fn() -> Limits: Limits::unlimited, Limits::default;
        fn(&ColorType) -> u8: ColorType::bit_depth;
        fn(&ColorType) -> u16: ColorType::num_samples;
        fn(u16) -> Option<Tag>: Tag::from_u16;
        fn(u16) -> Tag: Tag::from_u16_exhaustive;
        fn(&Tag) -> u16: Tag::to_u16;
        fn(u16) -> Option<Type>: Type::from_u16;
        fn(u16) -> CompressionMethod: CompressionMethod::from_u16_exhaustive;
        fn(u16) -> Option<PhotometricInterpretation>: PhotometricInterpretation::from_u16;
        fn(u16) -> Option<PlanarConfiguration>: PlanarConfiguration::from_u16;
        fn(u16) -> Option<Predictor>: Predictor::from_u16;
        fn(u16) -> Option<ResolutionUnit>: ResolutionUnit::from_u16;
        fn(u16) -> SampleFormat: SampleFormat::from_u16_exhaustive;
        fn(u16) -> Option<ExtraSamples>: ExtraSamples::from_u16;
    }
    let _: fn(BufferLayoutPreference) -> _ = |layout| {
        let _: (usize, usize, usize) = (layout.len, layout.planes, layout.complete_len);
        let _: (SampleFormat, Option<DecodingSampleType>) =
            (layout.sample_format, layout.sample_type);
        let _: (Option<NonZeroUsize>, Option<NonZeroUsize>) =
            (layout.row_stride, layout.plane_stride);
    };
}

type W = BufWriter<File>;

#[test]
fn the_encoder_has_the_calls_of_the_crate() {
    type E = TiffEncoder<W>;
    type B = TiffEncoder<W, TiffKindBig>;
    type Image<'a> = ImageEncoder<'a, W, colortype::RGB16, TiffKindStandard>;
    type I = Image<'static>;
    type T = DirectoryEncoder<'static, W, TiffKindStandard>;
    calls! {
        fn(W) -> TiffResult<E>: E::new, E::new_generic;
        fn(W) -> TiffResult<B>: B::new_big, B::new_generic;
        fn(E, tiff::encoder::Predictor) -> E: E::with_predictor;
        fn(E, Compression) -> E: E::with_compression;
        for<'a> fn(&'a mut E, u32, u32) -> TiffResult<Image<'a>>: E::new_image::<colortype::RGB16>;
        fn(&mut B, u32, u32, &[f32]) -> TiffResult<()>: B::write_image::<colortype::CMYK32Float>;
        fn(&mut I, &[ExtraSamples]) -> Result<(), TiffError>: I::extra_samples;
        fn(&I) -> u64: I::next_strip_sample_count;
        fn(&mut I, &[u16]) -> TiffResult<()>: I::write_strip;
        fn(I, &[u16]) -> TiffResult<()>: I::write_data;
        fn(&mut I, ResolutionUnit, Rational) -> (): I::resolution;
        fn(&mut I, ResolutionUnit) -> (): I::resolution_unit;
        fn(&mut I, Rational) -> (): I::x_resolution, I::y_resolution;
        fn(&mut I, u32) -> TiffResult<()>: I::rows_per_strip;
        for<'b> fn(&'b mut I) -> &'b mut T: I::encoder;
        fn(I) -> TiffResult<()>: I::finish;
        fn(&mut T, Tag, &'static str) -> TiffResult<()>: T::write_tag;
        fn(&mut T, Tag, [Rational; 3]) -> TiffResult<()>: T::write_tag;
        fn(&mut T, Tag, &ValueBuffer) -> TiffResult<()>: T::write_tag_buf;
        fn(&mut Packbits, &mut Vec<u8>, &[u8]) -> Result<u64, io::Error>: Packbits::write_to;
        fn(&Uncompressed) -> Compressor: compression::Compression::get_algorithm;
        fn(&[u8], &mut Vec<u8>) -> (): colortype::YCbCr8::horizontal_predict;
        fn(u64) -> TiffResult<u32>: TiffKindStandard::convert_offset;
        for<'a> fn(&'a [u64]) -> &'a [u64]: TiffKindBig::convert_slice;
        fn(&f64) -> usize: f64::count, f64::bytes;
        for<'a> fn(&'a [Ifd8]) -> Cow<'a, [u8]>: <[Ifd8]>::data;
    }
    // As programs have them: without bounds of the encoder's own.
    struct Holder<X, K: TiffKind> {
        _encoder: TiffEncoder<X, K>,
    }
    fn write<X: Write + Seek, K: TiffKind, C: Color>(
        encoder: &mut TiffEncoder<X, K>,
        samples: &[C::Inner],
    ) -> TiffResult<()>
    where
        [C::Inner]: TiffValue,
    {
        let mut image: ImageEncoder<X, C, K> = encoder.new_image(1, 1)?;
        image.encoder().write_tag(Tag::ExifVersion, &b"0232"[..])?;
        image.write_data(samples)
    }
    let _: fn(&mut TiffEncoder<Cursor<Vec<u8>>, TiffKindBig>, &[u8]) -> TiffResult<()> =
        write::<_, _, colortype::Gray8>;
    let _: fn(Holder<W, TiffKindBig>) = drop;
}

#[test]
fn values_of_tags_have_the_types_of_the_crate() {
    fn value<T: TiffValue + ?Sized>(ty: Type, len: u8) {
        assert_eq!((T::FIELD_TYPE, T::BYTE_LEN), (ty, len));
    }
    macro_rules! values {
        ($($type:ty: $ty:ident $len:literal;)*) => {
            $(value::<$type>(Type::$ty, $len);)*
        };
    }
    values! {
        u8: BYTE 1; [u8]: BYTE 1; i8: SBYTE 1; [i8]: SBYTE 1;
        u16: SHORT 2; [u16]: SHORT 2; i16: SSHORT 2; [i16]: SSHORT 2;
        u32: LONG 4; [u32]: LONG 4; i32: SLONG 4; [i32]: SLONG 4;
        u64: LONG8 8; [u64]: LONG8 8; i64: SLONG8 8; [i64]: SLONG8 8;
        f32: FLOAT 4; [f32]: FLOAT 4; f64: DOUBLE 8; [f64]: DOUBLE 8;
        Ifd: IFD 4; [Ifd]: IFD 4; Ifd8: IFD8 8; [Ifd8]: IFD8 8;
        Rational: RATIONAL 8; [Rational]: RATIONAL 8;
        SRational: SRATIONAL 8; [SRational]: SRATIONAL 8;
        str: ASCII 1; &str: ASCII 1; &&[u16]: SHORT 2; [u32; 4]: LONG 4;
        CompressionMethod: SHORT 2; PhotometricInterpretation: SHORT 2;
        PlanarConfiguration: SHORT 2; Predictor: SHORT 2; ResolutionUnit: SHORT 2;
        [SampleFormat]: SHORT 2; [ExtraSamples]: SHORT 2;
    }
}

fn plain<T: Copy + Clone + PartialEq + Eq + Debug + Hash>() {}

fn cloned<T: Clone + Debug>() {}

fn failure<T: std::error::Error + Send + Sync + 'static>() {}

fn threaded<T: Send + Sync>() {}

#[test]
fn types_have_the_traits_of_the_crate() {
    plain::<ColorType>();
    plain::<Tag>();
    plain::<Type>();
    plain::<IfdPointer>();
    plain::<CompressionMethod>();
    plain::<PhotometricInterpretation>();
    plain::<PlanarConfiguration>();
    plain::<Predictor>();
    plain::<ResolutionUnit>();
    plain::<SampleFormat>();
    plain::<ExtraSamples>();
    plain::<TiffCodingUnit>();
    plain::<DecodingSampleType>();
    cloned::<ByteOrder>();
    cloned::<ChunkType>();
    cloned::<Limits>();
    cloned::<BufferLayoutPreference>();
    cloned::<Value>();
    cloned::<Entry>();
    cloned::<TiffFormatError>();
    cloned::<TiffUnsupportedError>();
    failure::<TiffError>();
    failure::<TiffFormatError>();
    failure::<TiffUnsupportedError>();
    failure::<UsageError>();
    threaded::<D>();
    threaded::<DecodingResult>();
    threaded::<Directory>();
    threaded::<TiffEncoder<W>>();
    cloned::<Rational>();
    cloned::<Compression>();
}
