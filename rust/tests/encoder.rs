//! Cases of the tests of the Rust crate `tiff` that write, and what this crate refuses.

mod common;

use std::borrow::Cow;
use std::io::{self, Cursor, Seek, SeekFrom, Write};

use common::{open, try_jobs, write_image, write_jobs, Image, Reader, BIG, CLASSIC};
use tiff::decoder::ifd::Value;
use tiff::decoder::{Decoder, DecodingResult};
use tiff::encoder::colortype::{
    self, ColorType as _, Gray1, Gray16, Gray2, Gray32Float, Gray4, Gray8, GrayI16, RGB16, RGB8,
};
use tiff::encoder::compression::{CompressionAlgorithm, Compressor, Packbits, Uncompressed};
use tiff::encoder::{
    Compression, Ifd, Ifd8, Predictor, Rational, SRational, TiffEncoder, TiffKind, TiffKindBig,
    TiffKindStandard, TiffValue,
};
use tiff::tags::{
    ByteOrder, CompressionMethod, ExtraSamples, PhotometricInterpretation, ResolutionUnit,
    SampleFormat, Tag, Type, ValueBuffer,
};
use tiff::{ColorType, TiffError, TiffFormatError, TiffUnsupportedError, UsageError};

const fn own(number: u16) -> Tag {
    Tag::from_u16_exhaustive(number)
}

/// Returns the file that an encoder writes.
fn file_of<K: TiffKind>(write: impl FnOnce(&mut TiffEncoder<&mut Cursor<Vec<u8>>, K>)) -> Vec<u8> {
    let mut file = Cursor::new(Vec::new());
    let mut encoder = TiffEncoder::<_, K>::new_generic(&mut file).unwrap();
    write(&mut encoder);
    encoder.finish().unwrap();
    file.into_inner()
}

/// Returns the classic file that an encoder writes.
fn classic(write: impl FnOnce(&mut TiffEncoder<&mut Cursor<Vec<u8>>>)) -> Vec<u8> {
    file_of::<TiffKindStandard>(write)
}

fn u8s(samples: DecodingResult) -> Vec<u8> {
    match samples {
        DecodingResult::U8(samples) => samples,
        other => panic!("{other:?}"),
    }
}

fn kind_of<T>(result: Result<T, TiffError>) -> io::ErrorKind {
    match result {
        Err(TiffError::IoError(err)) => err.kind(),
        Err(other) => panic!("{other}"),
        Ok(_) => panic!("no error"),
    }
}

/// The samples of `encode_decode`.
fn gradient() -> Vec<u8> {
    (0..100)
        .flat_map(|x| (0..100).flat_map(move |y| [x + y; 3]))
        .collect()
}

fn encode_decode<K: TiffKind>(number: fn(u32) -> Value, strip: u32) {
    let samples = gradient();
    let file = file_of::<K>(|encoder| {
        let mut image = encoder.new_image::<RGB8>(100, 100).unwrap();
        image
            .encoder()
            .write_tag(Tag::Artist, "Image-tiff")
            .unwrap();
        image.write_data(&samples).unwrap();
    });
    let mut decoder = open(&file).unwrap();
    assert_eq!(decoder.colortype().unwrap(), ColorType::RGB(8));
    assert_eq!(decoder.dimensions().unwrap(), (100, 100));
    let shorts = |number| Value::List(vec![Value::Short(number); 3]);
    let expected = [
        (Tag::ImageWidth, Value::Unsigned(100)),
        (Tag::ImageLength, Value::Unsigned(100)),
        (Tag::BitsPerSample, shorts(8)),
        (Tag::Compression, Value::Short(1)),
        (Tag::PhotometricInterpretation, Value::Short(2)),
        (Tag::StripOffsets, number(strip)),
        (Tag::SamplesPerPixel, Value::Short(3)),
        (Tag::RowsPerStrip, Value::Unsigned(3334)),
        (Tag::StripByteCounts, number(30000)),
        (Tag::XResolution, Value::Rational(1, 1)),
        (Tag::YResolution, Value::Rational(1, 1)),
        (Tag::ResolutionUnit, Value::Short(1)),
        (Tag::Artist, Value::Ascii("Image-tiff".into())),
        (Tag::Predictor, Value::Short(1)),
        (Tag::SampleFormat, shorts(1)),
    ];
    let tags: Vec<(Tag, Value)> = decoder.tag_iter().map(Result::unwrap).collect();
    assert_eq!(tags, expected);
    assert_eq!(u8s(decoder.read_image().unwrap()), samples);
}

/// `encode_decode`, `encode_decode_big`.
#[test]
fn a_page_with_a_text_is_written() {
    encode_decode::<TiffKindStandard>(Value::Unsigned, 35);
    encode_decode::<TiffKindBig>(|number| Value::UnsignedBig(number.into()), 27);
}

/// `test_encode_ifd`.
#[test]
fn pointers_are_written() {
    let file = classic(|encoder| {
        let mut image = encoder.new_image::<Gray8>(1, 1).unwrap();
        image.write_strip(&[1]).unwrap();
        let tags = image.encoder();
        tags.write_tag(own(65000), Ifd(42)).unwrap();
        tags.write_tag(own(65001), &[Ifd(100)][..]).unwrap();
        let pointers = [Ifd(1), Ifd(2), Ifd(3)];
        tags.write_tag(own(65002), &pointers[..]).unwrap();
        tags.write_tag(own(65010), Ifd8(43)).unwrap();
        tags.write_tag(own(65011), &[Ifd8(100)][..]).unwrap();
        tags.write_tag(own(65012), [Ifd8(1), Ifd8(2), Ifd8(3)])
            .unwrap();
    });
    let mut decoder = open(&file).unwrap();
    assert_eq!(decoder.get_tag_u32(own(65000)).unwrap(), 42);
    assert_eq!(decoder.get_tag_u64(own(65010)).unwrap(), 43);
    for (tag, numbers) in [
        (65000, vec![42]),
        (65001, vec![100]),
        (65002, vec![1, 2, 3]),
    ] {
        assert_eq!(decoder.get_tag_u32_vec(own(tag)).unwrap(), numbers);
    }
    for (tag, numbers) in [
        (65010, vec![43]),
        (65011, vec![100]),
        (65012, vec![1, 2, 3]),
    ] {
        assert_eq!(decoder.get_tag_u64_vec(own(tag)).unwrap(), numbers);
    }
}

/// `test_multiple_byte`.
#[test]
fn one_to_five_bytes_are_written() {
    let file = classic(|encoder| {
        let mut image = encoder.new_image::<Gray8>(1, 1).unwrap();
        image.write_strip(&[1]).unwrap();
        for count in 1..=5u8 {
            let bytes: Vec<u8> = (1..=count).collect();
            let tag = own(64999 + u16::from(count));
            image.encoder().write_tag(tag, &bytes[..]).unwrap();
        }
    });
    let mut decoder = open(&file).unwrap();
    for count in 1..=5u16 {
        let numbers = decoder.get_tag_u32_vec(own(64999 + count)).unwrap();
        assert_eq!(numbers, (1..=count.into()).collect::<Vec<u32>>());
    }
}

/// `test_signed`.
#[test]
fn numbers_with_a_sign_are_written() {
    let hundredths = |n| SRational { n, d: 100 };
    let file = classic(|encoder| {
        let mut image = encoder.new_image::<Gray8>(1, 1).unwrap();
        image.write_strip(&[1]).unwrap();
        let tags = image.encoder();
        tags.write_tag(own(65000), -1i8).unwrap();
        tags.write_tag(own(65004), &[-1i8, 2, -3, 4][..]).unwrap();
        tags.write_tag(own(65005), &[-1i8, 2, -3, 4, -5][..])
            .unwrap();
        tags.write_tag(own(65010), -1i16).unwrap();
        tags.write_tag(own(65013), &[-1i16, 2, -3][..]).unwrap();
        tags.write_tag(own(65020), -1i32).unwrap();
        tags.write_tag(own(65022), [-1i32, 2]).unwrap();
        tags.write_tag(own(65030), -1i64).unwrap();
        tags.write_tag(own(65032), &[-1i64, 2][..]).unwrap();
        tags.write_tag(own(65040), hundredths(-1)).unwrap();
        tags.write_tag(own(65041), &[hundredths(-1), hundredths(2)][..])
            .unwrap();
    });
    let mut decoder = open(&file).unwrap();
    for (tag, numbers) in [
        (65000, vec![-1]),
        (65004, vec![-1, 2, -3, 4]),
        (65005, vec![-1, 2, -3, 4, -5]),
        (65010, vec![-1]),
        (65013, vec![-1, 2, -3]),
        (65020, vec![-1]),
        (65022, vec![-1, 2]),
        (65030, vec![-1]),
        (65032, vec![-1, 2]),
        (65040, vec![-1, 100]),
        (65041, vec![-1, 100, 2, 100]),
    ] {
        let value = decoder.get_tag(own(tag)).unwrap();
        assert_eq!(value.into_i64_vec().unwrap(), numbers);
    }
}

/// `test_encode_undersized_buffer`.
#[test]
fn too_few_samples_are_refused() {
    let file = classic(|encoder| {
        let invalid = io::ErrorKind::InvalidData;
        assert_eq!(
            kind_of(encoder.write_image::<RGB8>(50, 50, &[1, 2, 3])),
            invalid
        );
        // The crate counts pixels here, and ends the program at the first strip.
        assert_eq!(
            kind_of(encoder.write_image::<RGB8>(50, 50, &[1; 2500])),
            invalid
        );
        let mut image = encoder.new_image::<RGB8>(50, 50).unwrap();
        assert_eq!(kind_of(image.write_strip(&[1; 7499])), invalid);
        assert_eq!(kind_of(image.finish()), invalid);
        encoder.write_image::<Gray8>(1, 1, &[7]).unwrap();
    });
    // What was refused is no page.
    let mut decoder = open(&file).unwrap();
    assert_eq!(u8s(decoder.read_image().unwrap()), [7]);
    assert!(!decoder.more_images());
}

/// `test_multipage_image`.
#[test]
fn pages_are_written_in_their_order() {
    let file = classic(|encoder| {
        encoder.write_image::<Gray16>(2, 2, &[1, 2, 3, 4]).unwrap();
        let samples = [9, 8, 7, 6, 5, 4, 3, 2, 1];
        encoder.write_image::<Gray8>(3, 3, &samples).unwrap();
    });
    let mut decoder = open(&file).unwrap();
    assert_eq!(decoder.dimensions().unwrap(), (2, 2));
    assert!(matches!(decoder.read_image().unwrap(), DecodingResult::U16(s) if s == [1, 2, 3, 4]));
    decoder.next_image().unwrap();
    assert_eq!(decoder.dimensions().unwrap(), (3, 3));
    let samples = u8s(decoder.read_image().unwrap());
    assert_eq!(samples, [9, 8, 7, 6, 5, 4, 3, 2, 1]);
    assert!(!decoder.more_images());
}

/// `test_rows_per_strip`.
#[test]
fn strips_are_written() {
    let file = classic(|encoder| {
        let mut image = encoder.new_image::<Gray8>(100, 100).unwrap();
        assert_eq!(image.next_strip_sample_count(), 100 * 100);
        image.rows_per_strip(2).unwrap();
        assert_eq!(image.next_strip_sample_count(), 2 * 100);
        image.write_strip(&[0; 200]).unwrap();
        let refused = image.rows_per_strip(5);
        assert_eq!(kind_of(refused), io::ErrorKind::InvalidInput);
        for strip in 1..50 {
            image.write_strip(&[strip; 200]).unwrap();
        }
        let refused = image.write_strip(&[0; 200]);
        assert_eq!(kind_of(refused), io::ErrorKind::InvalidData);
        assert_eq!(image.next_strip_sample_count(), 0);
        image.finish().unwrap();
    });
    let mut decoder = open(&file).unwrap();
    assert_eq!(decoder.get_tag_u64(Tag::RowsPerStrip).unwrap(), 2);
    assert_eq!(decoder.strip_count().unwrap(), 50);
    for strip in 0..50 {
        assert_eq!(u8s(decoder.read_chunk(strip).unwrap()), [strip as u8; 200]);
    }
}

/// `encode_decode_without_compression`, `encode_decode_with_packbits`.
#[test]
fn pages_are_written_by_each_method() {
    let colors: Vec<u16> = (0..20 * 12)
        .flat_map(|n| [n, n * 250, n % 20 * 3000])
        .collect();
    let grays: Vec<u8> = (0..210).map(|n| (n % 21 + n / 21) as u8).collect();
    for (method, number) in [
        (Compression::Uncompressed, CompressionMethod::None),
        (Compression::Packbits, CompressionMethod::PackBits),
    ] {
        let mut file = Cursor::new(Vec::new());
        {
            let mut encoder = TiffEncoder::new(&mut file)
                .unwrap()
                .with_compression(method);
            encoder.write_image::<RGB16>(20, 12, &colors).unwrap();
            encoder.write_image::<Gray8>(21, 10, &grays).unwrap();
        }
        let mut decoder = Decoder::new(file).unwrap();
        assert_eq!(
            decoder.get_tag_unsigned::<u16>(Tag::Compression).unwrap(),
            number.to_u16()
        );
        assert!(matches!(decoder.read_image().unwrap(), DecodingResult::U16(s) if s == colors));
        decoder.next_image().unwrap();
        assert_eq!(u8s(decoder.read_image().unwrap()), grays);
    }
}

/// `write_extra_bits_image`, `extra_bits_rgb`, `extra_bits_gray`.
#[test]
fn extra_samples_are_written() {
    let file = classic(|encoder| {
        let mut image = encoder.new_image::<RGB8>(8, 8).unwrap();
        image.extra_samples(&[ExtraSamples::Unspecified]).unwrap();
        assert_eq!(image.next_strip_sample_count(), 256);
        let samples: [u8; 256] = std::array::from_fn(|n| (n as u8 % 4).saturating_sub(2));
        image.write_data(&samples).unwrap();

        let mut image = encoder.new_image::<GrayI16>(2, 1).unwrap();
        image.extra_samples(&[ExtraSamples::Unspecified]).unwrap();
        image
            .extra_samples(&[ExtraSamples::UnassociatedAlpha])
            .unwrap();
        assert!(matches!(
            image.extra_samples(&[ExtraSamples::Unspecified; 65533]),
            Err(TiffError::IntSizeError)
        ));
        image.write_strip(&[1, 2, 3, -4, -5, -6]).unwrap();
        assert!(matches!(
            image.extra_samples(&[]),
            Err(TiffError::UsageError(
                UsageError::ReconfiguredAfterImageWrite
            ))
        ));
    });
    let mut decoder = open(&file).unwrap();
    assert_eq!(decoder.colortype().unwrap(), ColorType::RGB(8));
    assert_eq!(u8s(decoder.read_image().unwrap()), [0; 192]);
    decoder.next_image().unwrap();
    let bands = ColorType::Multiband {
        bit_depth: 16,
        num_samples: 3,
    };
    assert_eq!(decoder.colortype().unwrap(), bands);
    let extra = decoder.get_tag_u16_vec(Tag::ExtraSamples).unwrap();
    assert_eq!(extra, [0, 2]);
    assert!(
        matches!(decoder.read_image().unwrap(), DecodingResult::I16(s) if s == [1, 2, 3, -4, -5, -6])
    );
}

/// A writer that takes a byte less than it could.
struct Short(Cursor<Vec<u8>>);

impl Write for Short {
    fn write(&mut self, bytes: &[u8]) -> io::Result<usize> {
        let len = bytes.len().saturating_sub(1).max(bytes.len().min(1));
        self.0.write(&bytes[..len])
    }

    fn flush(&mut self) -> io::Result<()> {
        self.0.flush()
    }
}

impl Seek for Short {
    fn seek(&mut self, to: SeekFrom) -> io::Result<u64> {
        self.0.seek(to)
    }
}

/// `encoder_on_short_writes`.
#[test]
fn a_writer_may_take_less_than_it_gets() {
    for method in [Compression::Uncompressed, Compression::Packbits] {
        let mut writer = Short(Cursor::new(Vec::new()));
        {
            let mut encoder = TiffEncoder::new(&mut writer)
                .unwrap()
                .with_compression(method);
            encoder
                .write_image::<Gray8>(100, 100, &[42; 10000])
                .unwrap();
        }
        let mut decoder = open(writer.0.get_ref()).unwrap();
        assert_eq!(u8s(decoder.read_image().unwrap()), [42; 10000]);
    }
}

/// The tests of `src/encoder/compression`.
#[test]
fn bytes_are_packed() {
    let packed = |bytes: &[u8]| {
        let mut packed = Vec::new();
        let count = Packbits.write_to(&mut packed, bytes).unwrap();
        assert_eq!(count, packed.len() as u64);
        packed
    };
    assert_eq!(packed(&[0x3f]), [0, 0x3f]);
    assert_eq!(
        packed(b"This is a string for checking various compression algorithms."),
        b"\x3cThis is a string for checking various compression algorithms."
    );
    let runs = [b"This st".as_slice(), &[b'r'; 48], b"ing hangs."].concat();
    assert_eq!(packed(&runs), b"\x06This st\xD1r\x09ing hangs.");

    let counted: Vec<u8> = (0..158).collect();
    let long = [b"This st", &[b'r'; 158][..], b"ing hangs.", &counted].concat();
    let expected = [
        b"\x06This st\x81r\xE3r\x7Fing hangs.".as_slice(),
        &counted[..118],
        b"\x27",
        &counted[118..],
    ];
    assert_eq!(packed(&long), expected.concat());

    let refused = Packbits.write_to(&mut Vec::new(), &[]).unwrap_err();
    assert_eq!(refused.kind(), io::ErrorKind::WriteZero);
    let mut plain = Vec::new();
    assert_eq!(Uncompressed.write_to(&mut plain, &[1, 2]).unwrap(), 2);
    assert_eq!(Compressor::default().write_to(&mut plain, &[3]).unwrap(), 1);
    assert_eq!(plain, [1, 2, 3]);
}

/// The tests of predictors.
#[test]
fn differences_are_written() {
    let samples: Vec<u16> = (0..60).map(|n| n * n * 18).collect();
    let mut file = Cursor::new(Vec::new());
    {
        let mut encoder = TiffEncoder::new(&mut file)
            .unwrap()
            .with_predictor(Predictor::Horizontal);
        encoder.write_image::<RGB16>(5, 4, &samples).unwrap();
    }
    let mut decoder = open(file.get_ref()).unwrap();
    assert!(matches!(decoder.read_image().unwrap(), DecodingResult::U16(s) if s == samples));

    // The strip has the differences that the color type makes.
    let offset = decoder.get_tag_u32(Tag::StripOffsets).unwrap() as usize;
    let mut differences = Vec::new();
    for row in samples.chunks(15) {
        RGB16::horizontal_predict(row, &mut differences);
    }
    let bytes: Vec<u8> = differences.iter().flat_map(|n| n.to_le_bytes()).collect();
    assert_eq!(file.get_ref()[offset..offset + 120], bytes);
}

#[test]
fn resolutions_are_written() {
    let file = classic(|encoder| {
        let mut image = encoder.new_image::<Gray8>(1, 1).unwrap();
        image.resolution(ResolutionUnit::Inch, Rational { n: 300, d: 1 });
        image.write_data(&[1]).unwrap();
        let mut image = encoder.new_image::<Gray8>(1, 1).unwrap();
        image.resolution_unit(ResolutionUnit::Centimeter);
        image.x_resolution(Rational { n: 145, d: 2 });
        image.y_resolution(Rational { n: 1, d: 3 });
        image.write_data(&[1]).unwrap();
    });
    let mut decoder = open(&file).unwrap();
    let mut expect = |unit, x, y| {
        assert_eq!(
            decoder.get_tag(Tag::ResolutionUnit).unwrap(),
            Value::Short(unit)
        );
        assert_eq!(decoder.get_tag(Tag::XResolution).unwrap(), x);
        assert_eq!(decoder.get_tag(Tag::YResolution).unwrap(), y);
        let _ = decoder.next_image();
    };
    expect(2, Value::Rational(300, 1), Value::Rational(300, 1));
    expect(3, Value::Rational(145, 2), Value::Rational(1, 3));
}

#[test]
fn the_last_value_of_a_tag_counts() {
    let file = classic(|encoder| {
        let mut image = encoder.new_image::<Gray8>(2, 4).unwrap();
        let tags = image.encoder();
        tags.write_tag(Tag::Artist, "first").unwrap();
        tags.write_tag(Tag::XResolution, Rational { n: 5, d: 1 })
            .unwrap();
        tags.write_tag(Tag::RowsPerStrip, 1u32).unwrap();
        tags.write_tag(Tag::BitsPerSample, 16u16).unwrap();
        tags.write_tag(Tag::Artist, "second").unwrap();
        image.x_resolution(Rational { n: 6, d: 1 });
        image.rows_per_strip(3).unwrap();
        image.write_data(&[1, 2, 3, 4, 5, 6, 7, 8]).unwrap();
    });
    let mut decoder = open(&file).unwrap();
    assert_eq!(decoder.get_tag_ascii_string(Tag::Artist).unwrap(), "second");
    assert_eq!(
        decoder.get_tag(Tag::XResolution).unwrap(),
        Value::Rational(6, 1)
    );
    assert_eq!(decoder.get_tag_u32(Tag::RowsPerStrip).unwrap(), 3);
    assert_eq!(decoder.colortype().unwrap(), ColorType::Gray(8));
    assert_eq!(decoder.strip_count().unwrap(), 2);
    let samples = u8s(decoder.read_image().unwrap());
    assert_eq!(samples, [1, 2, 3, 4, 5, 6, 7, 8]);
}

/// A value of one's own, with fewer bytes than it says.
struct Cut;

impl TiffValue for Cut {
    const BYTE_LEN: u8 = 2;
    const FIELD_TYPE: Type = Type::SHORT;

    fn count(&self) -> usize {
        2
    }

    fn data(&self) -> Cow<'_, [u8]> {
        Cow::Borrowed(&[1, 2, 3])
    }
}

#[test]
fn values_of_tags_are_refused() {
    let mut file = Cursor::new(Vec::new());
    let mut encoder = TiffEncoder::new(&mut file).unwrap();
    let mut image = encoder.new_image::<Gray8>(1, 1).unwrap();
    let tags = image.encoder();
    for text in ["é", "a\0b"] {
        for refused in [
            tags.write_tag(Tag::Artist, text),
            tags.write_tag_buf(Tag::Artist, &ValueBuffer::from_value(&text)),
        ] {
            assert!(matches!(
                refused,
                Err(TiffError::FormatError(TiffFormatError::InvalidTag))
            ));
        }
    }
    assert!(matches!(
        tags.write_tag(own(65002), Cut),
        Err(TiffError::UsageError(UsageError::MismatchedEntryLength {
            ty: Type::SHORT,
            found: 3
        }))
    ));
    let mut value = ValueBuffer::from_value(&[1u16, 2]);
    tags.write_tag_buf(own(65000), &value).unwrap();
    value.set_byte_order(match ByteOrder::native() {
        ByteOrder::LittleEndian => ByteOrder::BigEndian,
        ByteOrder::BigEndian => ByteOrder::LittleEndian,
    });
    assert!(matches!(
        tags.write_tag_buf(own(65001), &value),
        Err(TiffError::UsageError(UsageError::ByteOrderMismatch))
    ));
    image.write_data(&[1]).unwrap();
    encoder.finish().unwrap();
    let mut decoder = open(file.get_ref()).unwrap();
    assert_eq!(decoder.get_tag_u16_vec(own(65000)).unwrap(), [1, 2]);
    assert!(decoder.find_tag(own(65001)).unwrap().is_none());
    assert!(decoder.find_tag(Tag::Artist).unwrap().is_none());
}

/// A color type of one's own, equal to one that is there.
struct Shade;

impl colortype::ColorType for Shade {
    type Inner = u8;
    const TIFF_VALUE: PhotometricInterpretation = PhotometricInterpretation::BlackIsZero;
    const BITS_PER_SAMPLE: &'static [u16] = &[8];
    const SAMPLE_FORMAT: &'static [SampleFormat] = &[SampleFormat::Uint];

    fn horizontal_predict(_: &[u8], _: &mut Vec<u8>) {}
}

/// A color type that isn't there.
struct Ink;

impl colortype::ColorType for Ink {
    type Inner = u16;
    const TIFF_VALUE: PhotometricInterpretation = PhotometricInterpretation::CMYK;
    const BITS_PER_SAMPLE: &'static [u16] = &[16, 16];
    const SAMPLE_FORMAT: &'static [SampleFormat] = &[SampleFormat::Uint; 2];

    fn horizontal_predict(_: &[u16], _: &mut Vec<u16>) {}
}

#[test]
fn images_are_refused() {
    let file = classic(|encoder| {
        assert!(matches!(
            encoder.new_image::<Gray8>(0, 5).err(),
            Some(TiffError::FormatError(TiffFormatError::InvalidDimensions(
                0, 5
            )))
        ));
        let refused = encoder.write_image::<Ink>(1, 1, &[1, 2]).unwrap_err();
        let cause = TiffUnsupportedError::InterpretationWithBits(
            PhotometricInterpretation::CMYK,
            vec![16, 16],
        );
        assert!(matches!(refused, TiffError::UnsupportedError(err) if err == cause));
        let mut image = encoder.new_image::<Gray8>(2, 2).unwrap();
        let refused = image.rows_per_strip(0);
        assert_eq!(kind_of(refused), io::ErrorKind::InvalidInput);
        image.write_data(&[1, 2, 3, 4]).unwrap();
        encoder.write_image::<Shade>(1, 1, &[5]).unwrap();

        let large = encoder.new_image::<RGB8>(u32::MAX, u32::MAX).unwrap();
        let refused = large.write_data(&[1]);
        assert_eq!(kind_of(refused), io::ErrorKind::InvalidInput);
        let mut large = encoder.new_image::<RGB8>(u32::MAX, u32::MAX).unwrap();
        large.rows_per_strip(u32::MAX).unwrap();
        assert_eq!(large.next_strip_sample_count(), u64::MAX);
        assert_eq!(kind_of(large.finish()), io::ErrorKind::InvalidInput);
    });
    let mut decoder = open(&file).unwrap();
    assert_eq!(u8s(decoder.read_image().unwrap()), [1, 2, 3, 4]);
    decoder.next_image().unwrap();
    assert_eq!(u8s(decoder.read_image().unwrap()), [5]);
    assert!(!decoder.more_images());
}

#[test]
fn predictors_are_refused() {
    let encoder = || TiffEncoder::new(Cursor::new(Vec::new())).unwrap();
    let mut horizontal = encoder().with_predictor(Predictor::Horizontal);
    assert!(matches!(
        horizontal.write_image::<Gray32Float>(1, 1, &[1.5]),
        Err(TiffError::UsageError(UsageError::PredictorIncompatible))
    ));
    let mut floating = encoder().with_predictor(Predictor::FloatingPoint);
    assert!(matches!(
        floating.write_image::<Gray32Float>(1, 1, &[1.5]),
        Err(TiffError::UsageError(UsageError::PredictorUnavailable))
    ));
}

#[test]
fn packed_pixels_have_bytes_as_samples() {
    let rows = [0x80, 0, 0x40, 0xff, 0x80, 0x7f];
    let file = classic(|encoder| {
        let mut image = encoder.new_image::<Gray1>(9, 3).unwrap();
        let extra = image.extra_samples(&[ExtraSamples::Unspecified]);
        assert_eq!(kind_of(extra), io::ErrorKind::InvalidInput);
        assert_eq!(image.next_strip_sample_count(), 6);
        image.rows_per_strip(2).unwrap();
        assert_eq!(image.next_strip_sample_count(), 4);
        assert_eq!(
            kind_of(image.write_strip(&rows)),
            io::ErrorKind::InvalidData
        );
        image.write_strip(&rows[..4]).unwrap();
        assert_eq!(image.next_strip_sample_count(), 2);
        image.write_data(&rows[4..]).unwrap();
        encoder.write_image::<Gray4>(3, 1, &[0x12, 0x30]).unwrap();
    });
    let jobs = "image Gray1 9 3\nrows_per_strip 2\nwrite_data 128 0 64 255 128 127\nimage Gray4 3 1\nwrite_data 18 48\n";
    assert_eq!(file, write_jobs(CLASSIC, jobs));
    let mut decoder = open(&file).unwrap();
    assert_eq!(decoder.colortype().unwrap(), ColorType::Gray(1));
    assert_eq!(u8s(decoder.read_image().unwrap()), rows);

    let mut encoder = TiffEncoder::new(Cursor::new(Vec::new()))
        .unwrap()
        .with_predictor(Predictor::Horizontal);
    assert!(matches!(
        encoder.write_image::<Gray2>(4, 1, &[27]),
        Err(TiffError::UsageError(UsageError::PredictorIncompatible))
    ));
}

#[test]
fn a_file_begins_at_the_start_of_its_writer() {
    let mut writer = Cursor::new(vec![7; 4]);
    writer.set_position(4);
    let refused = TiffEncoder::new(&mut writer);
    assert_eq!(kind_of(refused), io::ErrorKind::Unsupported);
    assert_eq!(writer.get_ref(), &[7; 4]);

    // What lies behind the file stays.
    let mut writer = Cursor::new(vec![7; 1000]);
    let mut encoder = TiffEncoder::new(&mut writer).unwrap();
    encoder.write_image::<Gray8>(1, 1, &[5]).unwrap();
    encoder.finish().unwrap();
    let len = writer.position() as usize;
    assert!(writer.get_ref()[len..].iter().all(|&byte| byte == 7));
    assert_eq!(
        u8s(open(writer.get_ref()).unwrap().read_image().unwrap()),
        [5]
    );
}

/// A writer that nobody reads any more.
struct Closed(u64);

impl Write for Closed {
    fn write(&mut self, _: &[u8]) -> io::Result<usize> {
        Err(io::ErrorKind::BrokenPipe.into())
    }

    fn flush(&mut self) -> io::Result<()> {
        Ok(())
    }
}

impl Seek for Closed {
    fn seek(&mut self, _: SeekFrom) -> io::Result<u64> {
        Ok(self.0)
    }
}

#[test]
fn finish_returns_the_errors() {
    let mut encoder = TiffEncoder::new(Closed(0)).unwrap();
    encoder.write_image::<Gray8>(1, 1, &[5]).unwrap();
    assert_eq!(kind_of(encoder.finish()), io::ErrorKind::BrokenPipe);
    // A drop hides it.
    drop(TiffEncoder::new_big(Closed(0)).unwrap());

    let mut file = Cursor::new(Vec::new());
    let mut encoder = TiffEncoder::new(&mut file).unwrap();
    let mut image = encoder.new_image::<Gray8>(1, 2).unwrap();
    image.rows_per_strip(1).unwrap();
    image.write_strip(&[1]).unwrap();
    drop(image);
    encoder.write_image::<Gray8>(1, 1, &[5]).unwrap();
    assert_eq!(kind_of(encoder.finish()), io::ErrorKind::InvalidData);
    let mut decoder = open(file.get_ref()).unwrap();
    assert_eq!(u8s(decoder.read_image().unwrap()), [5]);
    assert!(!decoder.more_images());
}

#[test]
fn a_page_with_too_many_tags_is_refused() {
    let mut file = Cursor::new(Vec::new());
    let mut encoder = TiffEncoder::new(&mut file).unwrap();
    let mut image = encoder.new_image::<Gray8>(1, 1).unwrap();
    for number in 0..=u16::MAX {
        image.encoder().write_tag(own(number), 1u8).unwrap();
    }
    image.write_data(&[1]).unwrap();
    assert!(matches!(encoder.finish(), Err(TiffError::IntSizeError)));
    assert!(file.get_ref().is_empty());
}

#[test]
fn files_are_those_of_the_other_calls() {
    assert_eq!(classic(|_| {}), write_jobs(CLASSIC, ""));
    assert_eq!(file_of::<TiffKindBig>(|_| {}), write_jobs(BIG, ""));
    assert!(try_jobs(CLASSIC, "").is_ok());

    let samples = gradient();
    let image = Image {
        color: 10,
        width: 100,
        height: 100,
        version: BIG,
        method: 32773,
        predictor: 2,
    };
    let mut file = Cursor::new(Vec::new());
    {
        let mut encoder = TiffEncoder::new_big(&mut file)
            .unwrap()
            .with_compression(Compression::Packbits)
            .with_predictor(Predictor::Horizontal);
        encoder.write_image::<RGB8>(100, 100, &samples).unwrap();
    }
    assert_eq!(file.get_ref(), &write_image(image, &samples).unwrap());

    let file = classic(|encoder| {
        let mut image = encoder.new_image::<GrayI16>(3, 3).unwrap();
        image.rows_per_strip(2).unwrap();
        image.encoder().write_tag(own(270), "a text").unwrap();
        image.encoder().write_tag(own(33550), [1.5f64; 3]).unwrap();
        image.write_data(&[1, -2, 3, -4, 5, -6, 7, -8, 9]).unwrap();
    });
    let jobs = "image GrayI16 3 3\nrows_per_strip 2\nwrite_tag 270 text a text\nwrite_tag 33550 f64 1.5*3\nwrite_data 1 -2 3 -4 5 -6 7 -8 9\n";
    assert_eq!(file, write_jobs(CLASSIC, jobs));
}

#[test]
fn an_image_by_itself_is_the_page_with_the_same_settings() {
    let samples = gradient();
    for (method, rows) in [
        (Compression::Uncompressed, 3334),
        (Compression::Packbits, 1),
    ] {
        let file = |rows: Option<u32>| {
            let mut file = Cursor::new(Vec::new());
            let mut encoder = TiffEncoder::new(&mut file)
                .unwrap()
                .with_compression(method);
            let mut image = encoder.new_image::<RGB8>(100, 100).unwrap();
            if let Some(rows) = rows {
                image.rows_per_strip(rows).unwrap();
            }
            image.write_data(&samples).unwrap();
            encoder.finish().unwrap();
            file.into_inner()
        };
        assert_eq!(file(None), file(Some(rows)));
    }
}

/// `equivalence_of_tag_readers`, with a buffer of values.
#[test]
fn a_buffer_has_the_values_of_a_tag() {
    let file = classic(|encoder| {
        encoder.write_image::<RGB8>(1, 1, &[1, 2, 3]).unwrap();
    });
    let mut decoder: Reader = open(&file).unwrap();
    let mut value = ValueBuffer::from_value(&[0u16; 4]);
    assert_eq!((value.data_type(), value.count()), (Type::SHORT, 4));
    let mut tags = decoder.image_ifd();
    tags.find_tag_buf(Tag::BitsPerSample, &mut value).unwrap();
    value.set_byte_order(ByteOrder::native());
    let expected = ValueBuffer::from_value(&[8u16; 3]);
    assert_eq!(value.as_bytes(), expected.as_bytes());
}
