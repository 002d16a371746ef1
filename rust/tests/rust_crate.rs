//! Cases of the tests of the Rust crate `tiff` that read. Jobs write the files: where those tests
//! read a sample image, a file of the same shape.

mod common;

use std::io::{Cursor, Read, Seek, SeekFrom};

use common::{open, open_jobs, write_jobs, BIG, CLASSIC};
use tiff::decoder::ifd::Value;
use tiff::decoder::{Decoder, DecodingResult, Limits, TiffCodingUnit};
use tiff::tags::{ByteOrder, CompressionMethod, Tag, Type, ValueBuffer};
use tiff::{ColorType, TiffError, TiffFormatError};

const fn own(number: u16) -> Tag {
    Tag::from_u16_exhaustive(number)
}

/// Returns the words of numbers.
fn words<T: ToString>(numbers: impl IntoIterator<Item = T>) -> String {
    let words: Vec<String> = numbers
        .into_iter()
        .map(|number| number.to_string())
        .collect();
    words.join(" ")
}

fn u8s(samples: DecodingResult) -> Vec<u8> {
    match samples {
        DecodingResult::U8(samples) => samples,
        other => panic!("{other:?}"),
    }
}

/// `encode_decode`, `encode_decode_big`, `test_decode_data`.
#[test]
fn a_page_with_a_text_is_read() {
    let samples: Vec<u8> = (0..100)
        .flat_map(|x| (0..100).flat_map(move |y| [x + y; 3]))
        .collect();
    let jobs = format!(
        "image RGB8 100 100\nwrite_tag 315 text Image-tiff\nwrite_data {}\n",
        words(&samples)
    );
    for version in [CLASSIC, BIG] {
        let mut file = Cursor::new(write_jobs(version, &jobs));
        let mut decoder = Decoder::new(&mut file).unwrap();
        assert_eq!(decoder.colortype().unwrap(), ColorType::RGB(8));
        assert_eq!(decoder.dimensions().unwrap(), (100, 100));
        let offset = match version {
            CLASSIC => Value::Unsigned(35),
            _ => Value::UnsignedBig(27),
        };
        let count = match version {
            CLASSIC => Value::Unsigned(30000),
            _ => Value::UnsignedBig(30000),
        };
        let short = Value::Short;
        let shorts = |number| Value::List(vec![Value::Short(number); 3]);
        let tags: Vec<(Tag, Value)> = decoder.tag_iter().filter_map(Result::ok).collect();
        let expected = [
            (Tag::ImageWidth, Value::Unsigned(100)),
            (Tag::ImageLength, Value::Unsigned(100)),
            (Tag::BitsPerSample, shorts(8)),
            (Tag::Compression, short(1)),
            (Tag::PhotometricInterpretation, short(2)),
            (Tag::StripOffsets, offset),
            (Tag::SamplesPerPixel, short(3)),
            (Tag::RowsPerStrip, Value::Unsigned(3334)),
            (Tag::StripByteCounts, count),
            (Tag::XResolution, Value::Rational(1, 1)),
            (Tag::YResolution, Value::Rational(1, 1)),
            (Tag::ResolutionUnit, short(1)),
            (Tag::Artist, Value::Ascii("Image-tiff".into())),
            (Tag::Predictor, short(1)),
            (Tag::SampleFormat, shorts(1)),
        ];
        assert_eq!(tags, expected);
        let artist = decoder.get_tag(Tag::Artist).unwrap();
        assert_eq!(artist, Value::Ascii("Image-tiff".into()));
        let mut read = DecodingResult::U8(Vec::new());
        decoder.read_image_to_buffer(&mut read).unwrap();
        assert_eq!(u8s(read), samples);
    }
}

/// `test_multipage_image`, `decode_seek_chain`.
#[test]
fn pages_are_gone_through_and_sought() {
    let mut decoder = open_jobs(
        "image Gray16 2 2\nwrite_data 1 2 3 4\nimage Gray8 3 3\nwrite_data 9 8 7 6 5 4 3 2 1\nimage Gray8 1 1\nwrite_data 5\n",
    );
    assert_eq!(decoder.dimensions().unwrap(), (2, 2));
    let first = decoder.ifd_pointer().unwrap();
    decoder.next_image().unwrap();
    assert_eq!(decoder.dimensions().unwrap(), (3, 3));
    let second = decoder.ifd_pointer().unwrap();
    decoder.next_image().unwrap();
    let third = decoder.ifd_pointer().unwrap();
    assert!(!decoder.more_images());
    assert_eq!(u8s(decoder.read_image().unwrap()), [5]);

    decoder.seek_to_image(0).unwrap();
    assert_eq!(decoder.ifd_pointer(), Some(first));
    assert!(matches!(decoder.read_image().unwrap(), DecodingResult::U16(s) if s == [1, 2, 3, 4]));
    decoder.next_image().unwrap();
    assert_eq!(decoder.ifd_pointer(), Some(second));
    assert_eq!(
        u8s(decoder.read_image().unwrap()),
        [9, 8, 7, 6, 5, 4, 3, 2, 1]
    );
    decoder.next_image().unwrap();
    assert_eq!(decoder.ifd_pointer(), Some(third));
    assert!(!decoder.more_images());
    assert!(matches!(
        decoder.next_image(),
        Err(TiffError::FormatError(
            TiffFormatError::ImageFileDirectoryNotFound
        ))
    ));
}

/// `test_rows_per_strip`.
#[test]
fn strips_are_read() {
    let samples = words((0..50u8).flat_map(|strip| [strip; 200]));
    let jobs = format!("image Gray8 100 100\nrows_per_strip 2\nwrite_data {samples}\n");
    let mut decoder = open_jobs(&jobs);
    assert_eq!(decoder.get_tag_u64(Tag::RowsPerStrip).unwrap(), 2);
    assert_eq!(decoder.strip_count().unwrap(), 50);
    for strip in 0..50 {
        assert_eq!(u8s(decoder.read_chunk(strip).unwrap()), [strip as u8; 200]);
    }
}

/// `test_multiple_byte`.
#[test]
fn one_to_five_bytes_are_read() {
    let mut decoder = open_jobs(
        "image Gray8 1 1\nwrite_tag 65000 u8 1\nwrite_tag 65001 u8 1 2\nwrite_tag 65002 u8 1 2 3\nwrite_tag 65003 u8 1 2 3 4\nwrite_tag 65004 u8 1 2 3 4 5\nwrite_data 1\n",
    );
    for count in 1..=5 {
        let numbers = decoder.get_tag_u32_vec(own(64999 + count)).unwrap();
        assert_eq!(numbers, (1..=count.into()).collect::<Vec<u32>>());
    }
}

/// `test_signed`.
#[test]
fn numbers_with_a_sign_are_read() {
    let mut jobs = String::from("image Gray8 1 1\n");
    let all: [i64; 5] = [-1, 2, -3, 4, -5];
    let types = [
        ("i8", 65000),
        ("i16", 65010),
        ("i32", 65020),
        ("i64", 65030),
    ];
    for (ty, tag) in types {
        for count in 1..=5 {
            let tag = tag + count as u16;
            jobs += &format!("write_tag {tag} {ty} {}\n", words(&all[..count]));
        }
    }
    jobs +=
        "write_tag 65040 srational -1/100\nwrite_tag 65041 srational -1/100 2/100\nwrite_data 1\n";
    for version in [CLASSIC, BIG] {
        let mut decoder = open(&write_jobs(version, &jobs)).unwrap();
        for (_, tag) in types {
            let single = decoder.get_tag(own(tag + 1)).unwrap();
            assert_eq!(single.into_i64().unwrap(), -1);
            for count in 1..=5 {
                let value = decoder.get_tag(own(tag + count as u16)).unwrap();
                assert_eq!(value.clone().into_i64_vec().unwrap(), all[..count]);
                let narrow = value.into_i32_vec().unwrap();
                assert!(narrow
                    .into_iter()
                    .map(i64::from)
                    .eq(all[..count].iter().copied()));
            }
        }
        let fraction = decoder.get_tag(own(65040)).unwrap();
        assert_eq!(fraction, Value::SRational(-1, 100));
        let fractions = decoder.get_tag(own(65041)).unwrap();
        assert_eq!(fractions.into_i32_vec().unwrap(), [-1, 100, 2, 100]);
    }
}

/// `test_encode_ifd`.
#[test]
fn pointers_are_read() {
    let mut decoder = open_jobs(
        "image Gray8 1 1\nwrite_tag 65000 ifd 42\nwrite_tag 65002 ifd 1 2 3\nwrite_tag 65010 ifd8 43\nwrite_tag 65012 ifd8 1 2 3\nwrite_data 1\n",
    );
    let pointer = |value: Value| value.into_ifd_pointer().unwrap().0;
    assert_eq!(pointer(decoder.get_tag(own(65000)).unwrap()), 42);
    assert_eq!(pointer(decoder.get_tag(own(65010)).unwrap()), 43);
    for tag in [65002, 65012] {
        assert_eq!(decoder.get_tag_u64_vec(own(tag)).unwrap(), [1, 2, 3]);
        let pointers = decoder.get_tag(own(tag)).unwrap().into_ifd_vec().unwrap();
        assert_eq!(pointers.iter().map(|p| p.0).collect::<Vec<_>>(), [1, 2, 3]);
    }
}

/// `test_auxiliary_directory`.
#[test]
fn a_directory_out_of_the_chain_is_read() {
    let mut decoder = open_jobs(
        "image Gray8 1 1\nwrite_strip 1\nfinish\nextra_directory\nwrite_tag 315 text Auxiliary-tiff\nfinish\nimage Gray8 2 1\nwrite_strip 1 2\nwrite_tag 34665 u32 215\nfinish\n",
    );
    assert_eq!(decoder.dimensions().unwrap(), (1, 1));
    assert_eq!(u8s(decoder.read_image().unwrap()), [1]);
    decoder.next_image().unwrap();
    assert_eq!(decoder.dimensions().unwrap(), (2, 1));
    assert_eq!(u8s(decoder.read_image().unwrap()), [1, 2]);

    let exif = decoder.get_tag(Tag::ExifDirectory).unwrap();
    let mut exif = decoder
        .read_directory(exif.into_ifd_pointer().unwrap())
        .unwrap();
    assert_eq!((exif.len(), exif.next()), (1, None));
    let mut tags = decoder.read_directory_tags(&exif);
    assert_eq!(
        tags.get_tag_ascii_string(Tag::Artist).unwrap(),
        "Auxiliary-tiff"
    );
    assert!(tags.find_tag(Tag::Model).unwrap().is_none());
    assert_eq!(tags.directory().len(), 1);
    let all: Vec<_> = tags.tag_iter().map(Result::unwrap).collect();
    assert_eq!(all, [(Tag::Artist, Value::Ascii("Auxiliary-tiff".into()))]);

    // Values are read by the place of a directory, so those of any other are refused, by name.
    exif.extend([]);
    let refused = decoder
        .read_directory_tags(&exif)
        .get_tag(Tag::Artist)
        .unwrap_err();
    assert_eq!(
        refused.to_string(),
        "the values of a directory that wasn't read from the file"
    );
    assert!(
        matches!(refused, TiffError::IoError(err) if err.kind() == std::io::ErrorKind::Unsupported)
    );
}

/// `equivalence_of_tag_readers`.
#[test]
fn all_readers_of_a_tag_agree() {
    let mut decoder = open_jobs("image RGB8 1 1\nwrite_data 1 2 3\n");
    let order = decoder.byte_order();
    let mut ifd = decoder.image_ifd();
    let value = ifd.find_tag(Tag::BitsPerSample).unwrap().unwrap();
    assert_eq!(value.into_u16_vec().unwrap(), [8, 8, 8]);

    let native: Vec<u8> = [8u16; 3]
        .iter()
        .flat_map(|number| number.to_ne_bytes())
        .collect();
    let mut buffer = ValueBuffer::empty(Type::BYTE);
    let entry = ifd
        .find_tag_buf(Tag::BitsPerSample, &mut buffer)
        .unwrap()
        .unwrap();
    assert_eq!((entry.field_type(), entry.count()), (Type::SHORT, 3));
    assert_eq!((buffer.data_type(), buffer.count()), (Type::SHORT, 3));
    buffer.set_byte_order(ByteOrder::native());
    assert_eq!(buffer.as_bytes(), native);

    let mut bytes = [0; 8];
    let found = ifd
        .find_tag_bytes(Tag::BitsPerSample, &mut bytes, 0)
        .unwrap();
    assert_eq!(found, Some(6));
    let entry = ifd.find_entry(Tag::BitsPerSample).unwrap();
    order.convert(entry.field_type(), &mut bytes[..6], ByteOrder::native());
    assert_eq!(bytes[..6], native);
}

/// `test_geo_tiff`.
#[test]
fn bands_and_the_tags_of_a_map_are_read() {
    let samples: Vec<i16> = (0..500).map(|number| number * 7 - 999).collect();
    let jobs = format!(
        "image GrayI16 10 10\nextra_samples 0 0 0 0\nwrite_tag 33550 f64 60 60 0\nwrite_tag 34736 f64 0.5\nwrite_tag 42113 text -9999\nwrite_data {}\n",
        words(&samples)
    );
    let mut decoder = open_jobs(&jobs).with_limits(Limits::unlimited());
    assert_eq!(decoder.dimensions().unwrap(), (10, 10));
    let bands = ColorType::Multiband {
        bit_depth: 16,
        num_samples: 5,
    };
    assert_eq!(decoder.colortype().unwrap(), bands);
    assert_eq!(decoder.get_tag_u64(Tag::StripByteCounts).unwrap(), 1000);
    let scale = decoder.get_tag(Tag::ModelPixelScaleTag).unwrap();
    assert_eq!(scale.into_f64_vec().unwrap(), [60.0, 60.0, 0.0]);
    assert_eq!(decoder.get_tag_f64(Tag::GeoDoubleParamsTag).unwrap(), 0.5);
    assert_eq!(
        decoder.get_tag_ascii_string(Tag::GdalNodata).unwrap(),
        "-9999"
    );
    assert!(matches!(decoder.read_image().unwrap(), DecodingResult::I16(s) if s == samples));
}

/// `read_all_planes`, `read_first_coding_unit`, `read_planes_by_limits`, `test_read_planar_bands`.
#[test]
fn planes_are_read() {
    let planes: Vec<Vec<u8>> = (0..3u8)
        .map(|plane| (0..20).map(|n| plane * 50 + n).collect())
        .collect();
    let pixels = (0..20).flat_map(|pixel| planes.iter().map(move |plane| plane[pixel]));
    let jobs = format!(
        "image RGB8 5 4\nplanar\nrows_per_strip 2\nwrite_data {}\n",
        words(pixels)
    );
    let mut decoder = open_jobs(&jobs);
    assert_eq!(decoder.strip_count().unwrap(), 6);
    let layout = decoder.image_buffer_layout().unwrap();
    assert_eq!(
        (layout.planes, layout.len, layout.complete_len),
        (3, 20, 60)
    );
    let mut bytes = vec![0; 60];
    decoder.read_image_bytes(&mut bytes).unwrap();
    assert_eq!(bytes, planes.concat());
    assert_eq!(u8s(decoder.read_image().unwrap()), planes[0]);
    for plane in 0..3u32 {
        let strip = u8s(decoder.read_chunk(2 * plane + 1).unwrap());
        assert_eq!(strip, planes[plane as usize][10..]);
    }

    let layout = decoder.image_coding_unit_layout(TiffCodingUnit(1)).unwrap();
    assert_eq!(
        (layout.planes, layout.len, layout.complete_len),
        (3, 10, 30)
    );
    let mut unit = vec![0; 30];
    decoder
        .read_coding_unit_bytes(TiffCodingUnit(1), &mut unit)
        .unwrap();
    assert_eq!(
        unit,
        planes
            .iter()
            .flat_map(|plane| &plane[10..])
            .copied()
            .collect::<Vec<_>>()
    );

    let mut read = DecodingResult::U8(Vec::new());
    for (limit, len) in [(20, 20), (40, 20), (60, 60), (80, 60)] {
        let mut limits = Limits::default();
        limits.decoding_buffer_size = limit;
        decoder = decoder.with_limits(limits);
        decoder.read_image_to_buffer(&mut read).unwrap();
        assert_eq!(read.as_buffer(0).byte_len(), len);
    }
}

/// `test_tiled_rgb_u8`, `test_tiled_incremental`, `test_inner_access`.
#[test]
fn tiles_are_read() {
    let sample = |x: usize, y: usize, band: usize| (x * 7 + y * 11 + band * 60) as u8;
    let samples =
        (0..20).flat_map(|y| (0..35).flat_map(move |x| (0..3).map(move |b| sample(x, y, b))));
    let samples: Vec<u8> = samples.collect();
    let jobs = format!(
        "image RGB8 35 20\ntiles 16 16\nwrite_data {}\n",
        words(&samples)
    );
    let mut decoder = open_jobs(&jobs);
    assert_eq!(u8s(decoder.read_image().unwrap()), samples);
    assert_eq!(decoder.tile_count().unwrap(), 6);
    assert_eq!(decoder.chunk_dimensions(), (16, 16));
    for tile in 0..6 {
        let (left, top) = (tile % 3 * 16, tile / 3 * 16);
        let (width, height) = decoder.chunk_data_dimensions(tile);
        assert_eq!((width, height), (16.min(35 - left), 16.min(20 - top)));
        let shown = (top..top + height).flat_map(|y| {
            let from = (y * 35 + left) as usize * 3;
            samples[from..from + width as usize * 3].to_vec()
        });
        assert_eq!(
            u8s(decoder.read_chunk(tile).unwrap()),
            shown.collect::<Vec<_>>()
        );
    }

    let method = decoder
        .get_tag(Tag::Compression)
        .unwrap()
        .into_u16()
        .unwrap();
    assert_eq!(method, CompressionMethod::None.to_u16());
    let offset = decoder.get_tag_u32_vec(Tag::TileOffsets).unwrap()[0];
    let count = decoder.get_tag_u32_vec(Tag::TileByteCounts).unwrap()[0];
    decoder
        .inner()
        .seek(SeekFrom::Start(offset.into()))
        .unwrap();
    let mut raw = vec![0; count as usize];
    decoder.inner().read_exact(&mut raw).unwrap();
    assert_eq!(u8s(decoder.read_chunk(0).unwrap()), raw);
}

/// `test_string_tags`: a text ends before its first zero.
#[test]
fn a_text_ends_before_its_first_zero() {
    let mut decoder = open_jobs(
        "image Gray8 1 1\nwrite_tag_buf 305 2 little 5048543100000000\nwrite_tag_buf 271 2 little 414200\nwrite_data 1\n",
    );
    assert_eq!(
        decoder.get_tag(Tag::Software).unwrap(),
        Value::Ascii("PHT1".into())
    );
    assert_eq!(decoder.get_tag_ascii_string(Tag::Make).unwrap(), "AB");
}

/// `test_div_zero`.
#[test]
fn a_file_without_chunks_is_refused() {
    let file = [
        73, 73, 42, 0, 8, 0, 0, 0, 8, 0, 0, 1, 4, 0, 1, 0, 0, 0, 1, 0, 0, 0, 0, 0, 0, 40, 1, 0, 0,
        0, 158, 0, 0, 251, 3, 1, 3, 0, 1, 0, 0, 0, 1, 0, 0, 39, 6, 1, 3, 0, 1, 0, 0, 0, 0, 0, 0, 0,
        17, 1, 4, 0, 1, 0, 0, 0, 0, 0, 0, 0, 1, 1, 3, 0, 1, 0, 0, 0, 158, 0, 0, 251, 67, 1, 3, 0,
        1, 0, 0, 0, 40, 0, 0, 0, 66, 1, 4, 0, 1, 0, 0, 0, 0, 0, 0, 0, 0, 0, 48, 178, 178, 178, 178,
        178, 178, 178,
    ];
    let refused = Decoder::new(Cursor::new(&file)).unwrap_err();
    assert!(matches!(
        refused,
        TiffError::FormatError(TiffFormatError::StripTileTagConflict)
    ));
}

/// The tests of predictors, and those of PackBits.
#[test]
fn differences_and_packed_samples_are_read() {
    let samples: Vec<u16> = (0..60).map(|number| number * number * 18).collect();
    for settings in [
        "",
        "predictor 2\n",
        "compression packbits\n",
        "predictor 2\ncompression packbits\n",
    ] {
        let jobs = format!(
            "{settings}image RGB16 5 4\nwrite_data {}\n",
            words(&samples)
        );
        let mut decoder = open_jobs(&jobs);
        assert!(matches!(decoder.read_image().unwrap(), DecodingResult::U16(s) if s == samples));
    }
}
