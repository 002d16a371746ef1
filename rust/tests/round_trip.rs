//! Random files that the encoder writes, read back: images of all color types, of both kinds, by
//! both methods, with differences or without, in strips, with extra samples and tags.

mod common;

use std::io::Cursor;
use std::mem::size_of;

use common::{bytes_of, little, open, Random, Reader};
use tiff::encoder::colortype::{self, ColorType as _};
use tiff::encoder::{
    Compression, Ifd, Ifd8, ImageEncoder, Predictor, Rational, SRational, TiffEncoder, TiffKind,
    TiffKindBig, TiffKindStandard, TiffValue,
};
use tiff::tags::{ByteOrder, ExtraSamples, ResolutionUnit, SampleFormat, Tag, ValueBuffer};
use tiff::ColorType;

type File<'a> = &'a mut Cursor<Vec<u8>>;

/// Numbers by their bits.
trait Number: Copy {
    fn of(bits: u64) -> Self;
}

macro_rules! numbers {
    ($($number:ty: $bits:ident => $value:expr;)*) => {
        $(impl Number for $number {
            fn of($bits: u64) -> Self {
                $value
            }
        })*
    };
}

numbers! {
    u8: bits => bits as u8;
    u16: bits => bits as u16;
    u32: bits => bits as u32;
    u64: bits => bits;
    i8: bits => bits as i8;
    i16: bits => bits as i16;
    i32: bits => bits as i32;
    i64: bits => bits as i64;
    f32: bits => f32::from_bits(bits as u32);
    f64: bits => f64::from_bits(bits);
}

/// What a page has to be.
struct Page {
    what: String,
    color: ColorType,
    sides: (u32, u32),
    rows: u32,
    method: u16,
    predictor: u16,
    /// The samples that are read, each with its lowest byte first; and how many bytes one has.
    samples: Vec<u8>,
    size: u8,
    tags: Vec<(Tag, ValueBuffer)>,
}

/// Returns random numbers, with runs.
fn numbers<T: Number>(random: &mut Random, count: usize) -> Vec<T> {
    let bytes = random.bytes(count * size_of::<T>());
    let number = |bytes: &[u8]| {
        let bits = bytes.iter().rev();
        T::of(bits.fold(0, |bits, &byte| bits << 8 | u64::from(byte)))
    };
    bytes.chunks(size_of::<T>()).map(number).collect()
}

/// Sets a tag to a value, and notes it.
fn set<W, K, C, T>(
    image: &mut ImageEncoder<'_, W, C, K>,
    tags: &mut Vec<(Tag, ValueBuffer)>,
    value: T,
) where
    W: std::io::Write + std::io::Seek,
    K: TiffKind,
    C: colortype::ColorType,
    T: TiffValue,
{
    let tag = Tag::Unknown(65000 + tags.len() as u16);
    let buffer = ValueBuffer::from_value(&value);
    if tags.len() % 2 == 0 {
        image.encoder().write_tag(tag, value).unwrap();
    } else {
        image.encoder().write_tag_buf(tag, &buffer).unwrap();
    }
    tags.push((tag, buffer));
}

/// Sets a tag to values of a random type.
fn set_any<K: TiffKind, C: colortype::ColorType>(
    image: &mut ImageEncoder<'_, File<'_>, C, K>,
    tags: &mut Vec<(Tag, ValueBuffer)>,
    random: &mut Random,
) {
    let count = random.below(7);
    let number = random.next();
    let (n, d) = (number as u32, (number >> 32) as u32);
    let signed = |n: u32| n as i32;
    match random.below(18) {
        0 => set(image, tags, &numbers::<u8>(random, count)[..]),
        1 => set(image, tags, &numbers::<i8>(random, count)[..]),
        2 => set(image, tags, &numbers::<u16>(random, count)[..]),
        3 => set(image, tags, &numbers::<i16>(random, count)[..]),
        4 => set(image, tags, &numbers::<u32>(random, count)[..]),
        5 => set(image, tags, &numbers::<i32>(random, count)[..]),
        6 => set(image, tags, &numbers::<u64>(random, count)[..]),
        7 => set(image, tags, &numbers::<i64>(random, count)[..]),
        8 => set(image, tags, &numbers::<f32>(random, count)[..]),
        9 => set(image, tags, &numbers::<f64>(random, count)[..]),
        10 => set(image, tags, "a text of some length".get(..count).unwrap()),
        11 => set(image, tags, Rational { n, d }),
        12 => set(image, tags, vec![Rational { n, d }; count].as_slice()),
        13 => set(
            image,
            tags,
            [(n, d), (d, n)].map(|(n, d)| SRational {
                n: signed(n),
                d: signed(d),
            }),
        ),
        14 => set(image, tags, vec![Ifd(n); count].as_slice()),
        15 => set(image, tags, Ifd8(number)),
        16 => set(image, tags, number as i16),
        _ => set(image, tags, f64::from_bits(number)),
    }
}

/// Writes the samples: in strips, at once, or some in strips and the others at once.
fn write_samples<K: TiffKind, C: colortype::ColorType>(
    mut image: ImageEncoder<'_, File<'_>, C, K>,
    samples: &[C::Inner],
    random: &mut Random,
) where
    [C::Inner]: TiffValue,
{
    let way = random.below(3);
    let mut rest = samples;
    while way > 0 && !rest.is_empty() {
        if way == 1 && random.below(4) == 0 {
            break;
        }
        let (strip, behind) = rest.split_at(image.next_strip_sample_count() as usize);
        image.write_strip(strip).unwrap();
        rest = behind;
    }
    match way {
        2 if random.below(2) == 0 => drop(image),
        2 => image.finish().unwrap(),
        _ => image.write_data(rest).unwrap(),
    }
}

/// Adds a random image to a file, and returns what its page has to be.
fn add<K: TiffKind, C: colortype::ColorType>(
    encoder: &mut TiffEncoder<File<'_>, K>,
    color: ColorType,
    random: &mut Random,
) -> Page
where
    C::Inner: Number,
    [C::Inner]: TiffValue,
{
    let sides = (1 + random.below(60) as u32, 1 + random.below(40) as u32);
    let mut image = encoder.new_image::<C>(sides.0, sides.1).unwrap();
    let mut tags = Vec::new();
    let mut color = color;
    let mut count = C::BITS_PER_SAMPLE.len();
    let is_packed = color.bit_depth() < 8;
    if matches!(color, ColorType::Gray(_)) && !is_packed && random.below(3) == 0 {
        image.extra_samples(&[ExtraSamples::Unspecified]).unwrap();
        image
            .extra_samples(&[ExtraSamples::UnassociatedAlpha])
            .unwrap();
        color = ColorType::Multiband {
            bit_depth: color.bit_depth(),
            num_samples: 3,
        };
        count = 3;
    }
    if random.below(2) == 0 {
        let rows = 1 + random.below(sides.1 as usize) as u32;
        image.rows_per_strip(rows).unwrap();
    }
    let pixels = u64::from(sides.0);
    let row = match is_packed {
        true => (pixels * u64::from(color.bit_depth()) + 7) / 8,
        false => pixels * count as u64,
    };
    let rows = (image.next_strip_sample_count() / row) as u32;
    if random.below(2) == 0 {
        let value = Rational { n: 72, d: 1 };
        image.resolution(ResolutionUnit::Inch, value.clone());
        for tag in [Tag::XResolution, Tag::YResolution] {
            tags.push((tag, ValueBuffer::from_value(&value)));
        }
        let unit = ValueBuffer::from_value(&ResolutionUnit::Inch);
        tags.push((Tag::ResolutionUnit, unit));
    }
    for _ in 0..random.below(5) {
        set_any(&mut image, &mut tags, random);
    }
    let samples = numbers::<C::Inner>(random, row as usize * sides.1 as usize);
    let size = C::Inner::BYTE_LEN;
    write_samples(image, &samples, random);
    Page {
        what: format!("{color:?} {sides:?} of {rows} rows"),
        color,
        sides,
        rows,
        method: 0,
        predictor: 0,
        samples: little(&samples.data(), 8 * size),
        size,
        tags,
    }
}

/// Reads a page, which has to be as it was written.
fn read_back(decoder: &mut Reader, page: &Page) {
    let what = &page.what;
    assert_eq!(decoder.dimensions().unwrap(), page.sides, "{what}");
    assert_eq!(decoder.colortype().unwrap(), page.color, "{what}");
    let mut number = |tag| decoder.get_tag_unsigned::<u32>(tag).unwrap();
    assert_eq!(number(Tag::Compression), page.method.into(), "{what}");
    assert_eq!(number(Tag::Predictor), page.predictor.into(), "{what}");
    let strips = (page.sides.1 + page.rows - 1) / page.rows;
    assert_eq!(decoder.strip_count().unwrap(), strips, "{what}");

    let bits = 8 * page.size;
    let mut image = decoder.read_image().unwrap();
    assert!(bytes_of(&mut image, bits) == page.samples, "{what}");
    let mut chunks = Vec::new();
    for strip in 0..strips {
        chunks.extend(bytes_of(&mut decoder.read_chunk(strip).unwrap(), bits));
    }
    assert!(chunks == page.samples, "{what}");

    for (tag, expected) in &page.tags {
        let mut found = ValueBuffer::empty(expected.data_type());
        let entry = decoder.image_ifd().find_tag_buf(*tag, &mut found).unwrap();
        assert_eq!(entry.unwrap().count(), expected.count(), "{what} {tag:?}");
        found.set_byte_order(ByteOrder::native());
        assert_eq!(found.data_type(), expected.data_type(), "{what} {tag:?}");
        assert_eq!(found.as_bytes(), expected.as_bytes(), "{what} {tag:?}");
    }
}

/// Writes a file of images of each color type, and reads it back.
fn round_trip<K: TiffKind>(method: Compression, predictor: Predictor, random: &mut Random) {
    let mut file = Cursor::new(Vec::new());
    let mut encoder = TiffEncoder::<_, K>::new_generic(&mut file)
        .unwrap()
        .with_compression(method)
        .with_predictor(predictor);
    let mut pages = Vec::new();
    macro_rules! add {
        ($($name:ident $color:ident $bits:literal;)*) => {
            $(
                let is_floating = colortype::$name::SAMPLE_FORMAT[0] == SampleFormat::IEEEFP;
                if predictor == Predictor::None || !(is_floating || $bits < 8) {
                    let color = ColorType::$color($bits);
                    let page = add::<K, colortype::$name>(&mut encoder, color, random);
                    pages.push(page);
                }
            )*
        };
    }
    add! {
        Gray8 Gray 8; Gray16 Gray 16; Gray32 Gray 32; Gray64 Gray 64;
        GrayI8 Gray 8; GrayI16 Gray 16; GrayI32 Gray 32; GrayI64 Gray 64;
        Gray32Float Gray 32; Gray64Float Gray 64;
        RGB8 RGB 8; RGB16 RGB 16; RGB32 RGB 32; RGB64 RGB 64;
        RGB32Float RGB 32; RGB64Float RGB 64;
        RGBA8 RGBA 8; RGBA16 RGBA 16; RGBA32 RGBA 32; RGBA64 RGBA 64;
        RGBA32Float RGBA 32; RGBA64Float RGBA 64;
        CMYK8 CMYK 8; CMYK16 CMYK 16; CMYK32 CMYK 32; CMYK64 CMYK 64;
        CMYK32Float CMYK 32; CMYK64Float CMYK 64;
        YCbCr8 YCbCr 8; CMYKA8 CMYKA 8;
        Gray1 Gray 1; Gray2 Gray 2; Gray4 Gray 4;
    }
    encoder.finish().unwrap();
    let mut decoder = open(file.get_ref()).unwrap();
    for (index, page) in pages.iter_mut().enumerate() {
        page.method = match method {
            Compression::Uncompressed => 1,
            Compression::Packbits => 32773,
        };
        page.predictor = predictor.to_u16();
        if index > 0 {
            decoder.next_image().unwrap();
        }
        read_back(&mut decoder, page);
    }
    assert!(!decoder.more_images());
}

#[test]
fn images_are_read_back_as_they_were_written() {
    let mut random = Random(521288629);
    for _ in 0..6 {
        for method in [Compression::Uncompressed, Compression::Packbits] {
            for predictor in [Predictor::None, Predictor::Horizontal] {
                round_trip::<TiffKindStandard>(method, predictor, &mut random);
                round_trip::<TiffKindBig>(method, predictor, &mut random);
            }
        }
    }
}
