//! What the decoder gives of files that the tests make byte by byte, of both byte orders and kinds.

mod common;

use std::io::{self, Cursor, ErrorKind, Read, Seek, SeekFrom};

use common::{open, Forge, Reader, FORGES};
use tiff::decoder::ifd::Value;
use tiff::decoder::{ChunkType, Decoder, DecodingResult, Limits};
use tiff::half::f16;
use tiff::tags::{ByteOrder, IfdPointer, Tag, Type, ValueBuffer};
use tiff::{ColorType, TiffError, TiffFormatError, TiffUnsupportedError, UsageError};

/// The kind of a file, for the text of a failed test.
fn kind(forge: &Forge) -> String {
    let order = if forge.is_big_endian { "MM" } else { "II" };
    format!("{order}, BigTIFF: {}", forge.is_big)
}

/// The entries that a page needs: one sample of 8 bits, the byte at offset 0.
fn page_entries(forge: &Forge) -> Vec<(u16, u16, u64, Vec<u8>)> {
    vec![
        (256, 3, 1, forge.number(1, 2)),
        (257, 3, 1, forge.number(1, 2)),
        (258, 3, 1, forge.number(8, 2)),
        (262, 3, 1, forge.number(1, 2)),
        (273, 4, 1, forge.number(0, 4)),
        (279, 4, 1, forge.number(1, 4)),
    ]
}

/// Each type, the bytes of a number of it, and the value that the bytes 1 to 8 are, lowest first.
fn types() -> [(Type, usize, Value); 15] {
    use Value::*;
    [
        (Type::BYTE, 1, Byte(1)),
        (Type::SHORT, 2, Short(0x0201)),
        (Type::LONG, 4, Unsigned(0x04030201)),
        (Type::RATIONAL, 4, Rational(0x04030201, 0x08070605)),
        (Type::SBYTE, 1, SignedByte(1)),
        (Type::UNDEFINED, 1, Byte(1)),
        (Type::SSHORT, 2, SignedShort(0x0201)),
        (Type::SLONG, 4, Signed(0x04030201)),
        (Type::SRATIONAL, 4, SRational(0x04030201, 0x08070605)),
        (Type::FLOAT, 4, Float(f32::from_bits(0x04030201))),
        (Type::DOUBLE, 8, Double(f64::from_bits(0x0807060504030201))),
        (Type::IFD, 4, Ifd(0x04030201)),
        (Type::LONG8, 8, UnsignedBig(0x0807060504030201)),
        (Type::SLONG8, 8, SignedBig(0x0807060504030201)),
        (Type::IFD8, 8, IfdBig(0x0807060504030201)),
    ]
}

/// Returns the bytes of so many values, each the same.
fn values(forge: &Forge, ty: Type, number_len: usize, count: usize) -> Vec<u8> {
    let fraction = matches!(ty, Type::RATIONAL | Type::SRATIONAL);
    let one: Vec<u8> = match fraction {
        true => [forge.number(0x04030201, 4), forge.number(0x08070605, 4)].concat(),
        false => forge.number(0x0807060504030201, number_len),
    };
    one.repeat(count)
}

#[test]
fn values_of_all_types_and_counts_are_read() {
    for forge in &FORGES {
        for (ty, number_len, value) in types() {
            for count in [0, 1, 2, 3, 9] {
                let bytes = values(forge, ty, number_len, count);
                let mut entries = page_entries(forge);
                entries.push((65000, ty.to_u16(), count as u64, bytes.clone()));
                let mut decoder = open(&forge.file(&entries)).unwrap();
                let tag = Tag::Unknown(65000);
                let what = format!("{ty:?} {count} {}", kind(forge));

                let is_in_entry = bytes.len() <= if forge.is_big { 8 } else { 4 };
                let expected = match (count, ty) {
                    (1, _) => value.clone(),
                    (_, Type::BYTE) if is_in_entry => Value::List(vec![Value::Unsigned(1); count]),
                    (_, Type::SBYTE) if is_in_entry => Value::List(vec![Value::Signed(1); count]),
                    _ => Value::List(vec![value.clone(); count]),
                };
                assert_eq!(
                    decoder.find_tag(tag).unwrap(),
                    Some(expected.clone()),
                    "{what}"
                );
                let (last, found) = decoder.tag_iter().last().unwrap().unwrap();
                assert_eq!((last, found), (tag, expected), "{what}");

                let mut ifd = decoder.image_ifd();
                let entry = ifd.find_entry(tag).unwrap();
                assert_eq!(
                    (entry.field_type(), entry.count()),
                    (ty, count as u64),
                    "{what}"
                );
                let mut buffer = ValueBuffer::empty(Type::ASCII);
                assert!(ifd.find_tag_buf(tag, &mut buffer).unwrap().is_some());
                assert_eq!(buffer.as_bytes(), bytes, "{what}");
                assert_eq!((buffer.data_type(), buffer.count()), (ty, count as u64));
                let order = match forge.is_big_endian {
                    true => ByteOrder::BigEndian,
                    false => ByteOrder::LittleEndian,
                };
                assert_eq!(buffer.byte_order(), order);
                let mut part = [7; 4];
                let copied = ifd.find_tag_bytes(tag, &mut part, 1).unwrap().unwrap();
                assert_eq!(copied, bytes.len().saturating_sub(1).min(4), "{what}");
                assert!(
                    copied == 0 || part[..copied] == bytes[1..1 + copied],
                    "{what}"
                );
            }
        }
    }
}

#[test]
fn texts_are_read_or_refused() {
    for forge in &FORGES {
        let read = |text: &[u8]| {
            let mut entries = page_entries(forge);
            entries.push((65000, 2, text.len() as u64, text.to_vec()));
            open(&forge.file(&entries))
                .unwrap()
                .get_tag_ascii_string(Tag::Unknown(65000))
        };
        assert_eq!(read(b"\0").unwrap(), "");
        assert_eq!(read(b"ab\0").unwrap(), "ab");
        assert_eq!(read(b"\0ab\0").unwrap(), "ab");
        assert_eq!(
            read(b"a text of words\0 and more").unwrap(),
            "a text of words"
        );
        assert_eq!(
            read("Zürich, Genève\0".as_bytes()).unwrap(),
            "Zürich, Genève"
        );
        for refused in [&b"a"[..], b"abcd", b"\xff\0", b"a long text \xff\0"] {
            let err = read(refused).unwrap_err();
            assert!(
                matches!(err, TiffError::FormatError(TiffFormatError::InvalidTag)),
                "{err} of {refused:?}, {}",
                kind(forge)
            );
        }
    }
}

#[test]
fn values_behind_the_end_or_past_a_limit_are_refused() {
    for forge in &FORGES {
        let mut entries = page_entries(forge);
        entries.push((65000, 3, 40, values(forge, Type::SHORT, 2, 40)));
        entries.push((65001, 2, 40, vec![b'a'; 40]));
        let file = forge.file(&entries);
        let (numbers, text) = (Tag::Unknown(65000), Tag::Unknown(65001));

        let mut cut = open(&file[..file.len() - 1]).unwrap();
        assert_eq!(cut.get_tag_u16_vec(numbers).unwrap(), [0x0201; 40]);
        let err = cut.get_tag(text).unwrap_err();
        assert!(matches!(err, TiffError::IoError(err) if err.kind() == ErrorKind::UnexpectedEof));
        assert!(cut.tag_iter().last().unwrap().is_err());
        assert_eq!(cut.tag_iter().count(), entries.len());

        let mut limits = Limits::default();
        limits.decoding_buffer_size = 40 * 32;
        let mut limited = open(&file).unwrap().with_limits(limits.clone());
        assert_eq!(limited.get_tag_u16_vec(numbers).unwrap(), [0x0201; 40]);
        limits.decoding_buffer_size = 40 * 32 - 1;
        limited = limited.with_limits(limits.clone());
        assert!(matches!(
            limited.get_tag(numbers),
            Err(TiffError::LimitsExceeded)
        ));
        assert_eq!(limited.get_tag_ascii_string(text).unwrap(), "a".repeat(40));
        limits.decoding_buffer_size = 39;
        limited = limited.with_limits(limits);
        assert!(matches!(
            limited.get_tag(text),
            Err(TiffError::LimitsExceeded)
        ));
        let mut buffer = ValueBuffer::empty(Type::BYTE);
        let refused = limited.image_ifd().find_tag_buf(text, &mut buffer);
        assert!(matches!(refused, Err(TiffError::LimitsExceeded)));
    }
}

#[test]
fn tags_are_found_as_numbers_or_refused() {
    let forge = &FORGES[1];
    let mut entries = page_entries(forge);
    entries.push((65000, 4, 1, forge.number(300, 4)));
    let mut decoder = open(&forge.file(&entries)).unwrap();
    let tag = Tag::Unknown(65000);
    assert_eq!(decoder.find_tag_unsigned::<u16>(tag).unwrap(), Some(300));
    assert_eq!(decoder.get_tag_unsigned::<u64>(tag).unwrap(), 300);
    assert_eq!(
        decoder.find_tag_unsigned_vec::<u32>(tag).unwrap(),
        Some(vec![300])
    );
    assert_eq!(decoder.find_tag_unsigned::<u8>(Tag::Artist).unwrap(), None);
    assert_eq!(
        decoder.find_tag_unsigned_vec::<u8>(Tag::Artist).unwrap(),
        None
    );
    for err in [
        decoder.find_tag_unsigned::<u8>(tag).unwrap_err(),
        decoder.find_tag_unsigned_vec::<u8>(tag).unwrap_err(),
    ] {
        let text = "format error: tag `Unknown(65000)` did not have the expected value type";
        assert_eq!(err.to_string(), text);
    }
    let err = decoder.get_tag_unsigned::<u8>(Tag::Artist).unwrap_err();
    assert_eq!(
        err.to_string(),
        "format error: required tag `Artist` not found"
    );
}

#[test]
fn samples_of_both_byte_orders_are_read() {
    for forge in &FORGES {
        let what = kind(forge);
        let sample = |bits: u64, len| [forge.number(bits, len), forge.number(1, len)].concat();
        let read = |bits, format, samples: &[u8]| {
            let mut decoder = open(&forge.page(2, 1, bits, format, samples)).unwrap();
            assert_eq!(decoder.colortype().unwrap(), ColorType::Gray(bits as u8));
            let image = decoder.read_image().unwrap();
            let mut bytes = vec![0; samples.len()];
            decoder.read_image_bytes(&mut bytes).unwrap();
            (image, bytes)
        };
        let (image, bytes) = read(16, 1, &sample(0x0102, 2));
        assert!(
            matches!(image, DecodingResult::U16(s) if s == [0x0102, 1]),
            "{what}"
        );
        assert_eq!(bytes, [0x0102u16, 1].map(u16::to_ne_bytes).concat());
        let (image, _) = read(16, 2, &sample(0xfffe, 2));
        assert!(
            matches!(image, DecodingResult::I16(s) if s == [-2, 1]),
            "{what}"
        );
        let (image, _) = read(16, 3, &sample(0x3c00, 2));
        let half = [0x3c00, 1].map(f16::from_bits);
        assert!(
            matches!(image, DecodingResult::F16(s) if s == half),
            "{what}"
        );
        let (image, _) = read(32, 1, &sample(0x01020304, 4));
        assert!(
            matches!(image, DecodingResult::U32(s) if s == [0x01020304, 1]),
            "{what}"
        );
        let (image, _) = read(32, 3, &sample(1.5f32.to_bits().into(), 4));
        assert!(
            matches!(image, DecodingResult::F32(s) if s[0] == 1.5),
            "{what}"
        );
        let (image, bytes) = read(64, 2, &sample(u64::MAX - 1, 8));
        assert!(
            matches!(image, DecodingResult::I64(s) if s == [-2, 1]),
            "{what}"
        );
        assert_eq!(bytes, [-2i64, 1].map(i64::to_ne_bytes).concat());
        let (image, _) = read(64, 3, &sample(1.5f64.to_bits(), 8));
        assert!(
            matches!(image, DecodingResult::F64(s) if s[0] == 1.5),
            "{what}"
        );
        let (image, _) = read(4, 1, &[0x12]);
        assert!(
            matches!(image, DecodingResult::U8(s) if s == [0x12]),
            "{what}"
        );
    }
}

#[test]
fn numbers_are_read_by_the_reader() {
    for forge in &FORGES {
        let mut entries = page_entries(forge);
        entries.push((65000, 2, 9, b"text\0more".to_vec()));
        let file = forge.file(&entries);
        let at = (file.len() - 9) as u32;
        let header = if forge.is_big { 16 } else { 8 };
        let mut decoder = open(&file).unwrap();
        decoder.goto_offset(2).unwrap();
        assert_eq!(
            decoder.read_short().unwrap(),
            if forge.is_big { 43 } else { 42 }
        );
        decoder
            .goto_offset_u64(if forge.is_big { 8 } else { 4 })
            .unwrap();
        assert_eq!(decoder.read_ifd_offset().unwrap(), header);
        assert_eq!(decoder.inner().stream_position().unwrap(), header);
        decoder.goto_offset(at).unwrap();
        assert_eq!(decoder.read_string(9).unwrap(), "text");
        decoder.goto_offset(at).unwrap();
        let err = decoder.read_string(10).unwrap_err();
        assert!(matches!(err, TiffError::IoError(err) if err.kind() == ErrorKind::UnexpectedEof));
        decoder.goto_offset(at).unwrap();
        assert_eq!(decoder.read_byte().unwrap(), b't');
        assert_eq!(decoder.read_offset_u64().unwrap(), *b"ext\0more");
        assert_eq!(
            decoder.read_byte().unwrap_err().kind(),
            ErrorKind::UnexpectedEof
        );
        decoder.goto_offset(at).unwrap();
        match decoder.read_offset() {
            Ok(bytes) => assert!(bytes == *b"text" && !forge.is_big),
            Err(err) => assert!(
                forge.is_big && err.to_string() == "format error: inconsistent sizes encountered"
            ),
        }
        let number = |decoder: &mut Reader, len: u64| {
            decoder.goto_offset(at).unwrap();
            let bytes = forge.number(u64::from_le_bytes(*b"text\0mor"), 8);
            let bytes = if forge.is_big_endian {
                bytes.into_iter().rev().collect()
            } else {
                bytes
            };
            let word: Vec<u8> = bytes[..len as usize].to_vec();
            word.iter().enumerate().fold(0u64, |sum, (index, &byte)| {
                let place = if forge.is_big_endian {
                    len - 1 - index as u64
                } else {
                    index as u64
                };
                sum | u64::from(byte) << (8 * place)
            })
        };
        let expected = number(&mut decoder, 2);
        assert_eq!(u64::from(decoder.read_short().unwrap()), expected);
        let expected = number(&mut decoder, 2);
        assert_eq!(decoder.read_sshort().unwrap(), expected as i16);
        let expected = number(&mut decoder, 4);
        assert_eq!(u64::from(decoder.read_long().unwrap()), expected);
        let expected = number(&mut decoder, 4);
        assert_eq!(decoder.read_slong().unwrap(), expected as i32);
        let expected = number(&mut decoder, 4);
        assert_eq!(decoder.read_float().unwrap().to_bits(), expected as u32);
        let expected = number(&mut decoder, 8);
        assert_eq!(decoder.read_long8().unwrap(), expected);
        let expected = number(&mut decoder, 8);
        assert_eq!(decoder.read_slong8().unwrap(), expected as i64);
        let expected = number(&mut decoder, 8);
        assert_eq!(decoder.read_double().unwrap().to_bits(), expected);
    }
}

/// A reader that fails.
struct Fails;

impl Read for Fails {
    fn read(&mut self, _: &mut [u8]) -> io::Result<usize> {
        Err(io::Error::new(
            ErrorKind::PermissionDenied,
            "no reading here",
        ))
    }
}

impl Seek for Fails {
    fn seek(&mut self, _: SeekFrom) -> io::Result<u64> {
        Ok(0)
    }
}

#[test]
fn a_file_is_read_from_its_start_and_an_error_of_the_reader_is_told() {
    let file = FORGES[0].page(2, 1, 8, 1, &[5, 6]);
    let mut reader = Cursor::new(file);
    reader.set_position(20);
    let mut decoder = Decoder::new(&mut reader).unwrap();
    assert!(matches!(decoder.read_image().unwrap(), DecodingResult::U8(s) if s == [5, 6]));
    let err = Decoder::new(Fails).map(|_| ()).expect_err("opened");
    assert_eq!(err.to_string(), "no reading here");
}

#[test]
fn chunks_that_are_too_long_for_a_limit_or_a_buffer_are_refused() {
    let file = FORGES[3].page(3, 2, 8, 1, &[1, 2, 3, 4, 5, 6]);
    let mut limits = Limits::default();
    limits.intermediate_buffer_size = 5;
    let mut decoder = open(&file).unwrap();
    let mut short = [0; 5];
    let err = decoder.read_image_bytes(&mut short).unwrap_err();
    assert!(matches!(
        err,
        TiffError::UsageError(UsageError::InsufficientOutputBufferSize {
            needed: 6,
            provided: 5
        })
    ));
    assert!(decoder.read_chunk_bytes(0, &mut short).is_err());
    let err = decoder.tile_count().unwrap_err();
    assert!(matches!(
        err,
        TiffError::UsageError(UsageError::InvalidChunkType(
            ChunkType::Tile,
            ChunkType::Strip
        ))
    ));
    let mut decoder = decoder.with_limits(limits.clone());
    assert!(matches!(
        decoder.read_image(),
        Err(TiffError::LimitsExceeded)
    ));
    assert!(matches!(
        decoder.read_chunk(0),
        Err(TiffError::LimitsExceeded)
    ));
    limits.intermediate_buffer_size = 6;
    limits.decoding_buffer_size = 6;
    let mut decoder = decoder.with_limits(limits.clone());
    assert!(decoder.read_image().is_ok() && decoder.read_chunk(0).is_ok());
    limits.decoding_buffer_size = 5;
    let mut decoder = decoder.with_limits(limits);
    assert!(matches!(
        decoder.read_image(),
        Err(TiffError::LimitsExceeded)
    ));
    assert!(matches!(
        decoder.read_chunk(0),
        Err(TiffError::LimitsExceeded)
    ));
    let mut buffer = DecodingResult::U8(Vec::new());
    let refused = decoder.read_chunk_to_buffer(&mut buffer, 0, 4);
    assert!(matches!(refused, Err(TiffError::LimitsExceeded)));
}

#[test]
fn the_rows_of_a_chunk_are_put_apart() {
    let samples: Vec<u8> = [[1u16, 2], [3, 4], [5, 6]]
        .concat()
        .iter()
        .flat_map(|n| n.to_le_bytes())
        .collect();
    let mut decoder = open(&FORGES[0].page(2, 3, 16, 1, &samples)).unwrap();
    let mut read = DecodingResult::U8(Vec::new());
    decoder.read_chunk_to_buffer(&mut read, 0, 6).unwrap();
    assert!(matches!(&read, DecodingResult::U16(s) if s == &[1, 2, 0, 3, 4, 0, 5, 6, 0]));
    decoder.read_chunk_to_buffer(&mut read, 0, 4).unwrap();
    assert!(matches!(&read, DecodingResult::U16(s) if s == &[1, 2, 3, 4, 5, 6]));
}

#[test]
fn errors_name_what_the_page_tells() {
    let forge = &FORGES[1];
    let with = |changes: &[(u16, u16, u64, Vec<u8>)]| {
        let mut entries = page_entries(forge);
        for change in changes {
            entries.retain(|entry| entry.0 != change.0);
            entries.push(change.clone());
        }
        entries.retain(|entry| entry.2 != 0);
        entries.sort_by_key(|entry| entry.0);
        forge.file(&entries)
    };
    let short = |number: u64| forge.number(number, 2);
    for (changes, text) in [
        (vec![(256, 3, 0, vec![])], "format error: required tag `ImageWidth` not found"),
        (vec![(257, 3, 0, vec![])], "format error: required tag `ImageLength` not found"),
        (vec![(257, 3, 1, short(0))], "format error: invalid dimensions: 1x0"),
        (
            vec![(258, 3, 1, short(256))],
            "format error: tag `BitsPerSample` did not have the expected value type",
        ),
        (
            vec![(258, 3, 2, [short(8), short(4)].concat()), (277, 3, 1, short(2))],
            "unsupported error: inconsistent bits per sample: [8, 4]",
        ),
        (vec![(277, 3, 1, short(0))], "format error: samples per pixel is zero"),
        (vec![(284, 3, 1, short(3))], "format error: unknown planar configuration “3”"),
        (vec![(317, 3, 1, short(4))], "format error: unknown predictor “4” encountered"),
        (
            vec![(339, 4, 1, forge.number(1 << 16, 4))],
            "format error: tag `SampleFormat` did not have the expected value type",
        ),
        (
            vec![(339, 3, 2, [short(1), short(4)].concat())],
            "unsupported error: sample format [Uint, Void] is unsupported",
        ),
        (
            vec![(530, 3, 1, short(1))],
            "format error: tag `ChromaSubsampling` with incorrect number of elements (1) encountered",
        ),
        (
            vec![(530, 4, 2, [forge.number(1 << 16, 4), forge.number(1, 4)].concat())],
            "format error: tag `ChromaSubsampling` did not have the expected value type",
        ),
        (vec![(262, 3, 1, short(7))], "unsupported error: unknown photometric interpretation"),
    ] {
        let err = open(&with(&changes))
            .err()
            .unwrap_or_else(|| panic!("opened, in place of {text}"));
        assert_eq!(err.to_string(), text);
    }
    let tiles = |width, height| {
        vec![
            (273, 4, 0, vec![]),
            (279, 4, 0, vec![]),
            (322, 3, u64::from(width < 2), short(width)),
            (323, 3, u64::from(height < 2), short(height)),
            (324, 4, 1, forge.number(0, 4)),
            (325, 4, 1, forge.number(1, 4)),
        ]
    };
    for (width, height, text) in [
        (2, 1, "format error: required tag `TileWidth` not found"),
        (1, 2, "format error: required tag `TileLength` not found"),
        (
            0,
            1,
            "format error: tag `TileWidth` did not have the expected value type",
        ),
        (
            1,
            0,
            "format error: tag `TileLength` did not have the expected value type",
        ),
    ] {
        assert_eq!(
            open(&with(&tiles(width, height))).unwrap_err().to_string(),
            text
        );
    }
    for (changes, text) in [
        (
            vec![(259, 3, 1, short(5))],
            "unsupported error: compression method LZW is unsupported",
        ),
        (
            vec![(259, 3, 1, short(999))],
            "unsupported error: compression method Unknown(999) is unsupported",
        ),
        (vec![(258, 3, 1, short(12))], "unsupported error: color type Gray(12) is unsupported"),
        (
            vec![(317, 3, 1, short(3))],
            "unsupported error: floating point predictor for Gray(8) is unsupported",
        ),
        (
            vec![(258, 3, 1, short(4)), (317, 3, 1, short(2))],
            "unsupported error: horizontal predictor for Gray(4) is unsupported",
        ),
        (
            vec![(262, 3, 1, short(3))],
            "unsupported error: Photometric interpretation RGBPalette with bits per sample [8] is unsupported",
        ),
        (
            vec![(262, 3, 1, short(6)), (277, 3, 1, short(3))],
            "unsupported error: chroma subsampling of YCbCr color is unsupported",
        ),
        (
            vec![(339, 3, 1, short(4))],
            "unsupported error: sample format [Void] is unsupported",
        ),
        (vec![(339, 3, 1, short(3))], "unsupported error: 8 samples per pixel is unsupported"),
    ] {
        let mut decoder = open(&with(&changes)).unwrap();
        assert_eq!(decoder.read_image().unwrap_err().to_string(), text);
        assert_eq!(decoder.read_chunk(0).unwrap_err().to_string(), text);
    }
}

#[test]
fn a_refused_page_is_passed() {
    let forge = &FORGES[0];
    let entries = page_entries(forge);
    let mut file = forge.file(&entries);
    let first = file.len() as u64;
    // The link of the first directory, which ends the file, leads to a second one without entries.
    file.truncate(file.len() - 4);
    file.extend(forge.number(first, 4));
    file.extend(forge.number(0, 2));
    file.extend(forge.number(0, 4));
    let mut decoder = open(&file).unwrap();
    assert!(decoder.more_images());
    let err = decoder.next_image().unwrap_err();
    assert!(matches!(
        err,
        TiffError::FormatError(TiffFormatError::RequiredTagNotFound(Tag::ImageWidth))
    ));
    assert_eq!(decoder.ifd_pointer(), Some(IfdPointer(first)));
    assert!(!decoder.more_images());
    assert_eq!(decoder.dimensions().unwrap(), (1, 1));
    assert!(decoder
        .read_directory(IfdPointer(first))
        .unwrap()
        .is_empty());
    decoder.seek_to_image(0).unwrap();
    assert_eq!(decoder.ifd_pointer(), Some(IfdPointer(8)));
}

#[test]
fn a_color_that_is_not_read_is_told() {
    let forge = &FORGES[2];
    let mut entries = page_entries(forge);
    entries[3].3 = forge.number(9, 2);
    entries.insert(5, (277, 3, 1, forge.number(3, 2)));
    let mut decoder = open(&forge.file(&entries)).unwrap();
    assert_eq!(decoder.colortype().unwrap(), ColorType::Lab(8));
    let err = decoder.read_image().unwrap_err();
    assert!(matches!(
        err,
        TiffError::UnsupportedError(TiffUnsupportedError::UnsupportedColorType(ColorType::Lab(
            8
        )))
    ));
}

#[test]
fn the_library_is_of_the_version_of_the_calls() {
    assert!(common::version() >= 3);
}
