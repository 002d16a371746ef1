//! Random images of each color type that the C library writes, read back.

mod common;

use common::{
    bytes_of, little, open, write_image, write_jobs, Image, Random, Reader, BIG, CLASSIC, PACKBITS,
    UNCOMPRESSED,
};
use tiff::decoder::DecodingResult;
use tiff::ColorType;

/// What the bits of a sample are.
#[derive(Clone, Copy, PartialEq)]
enum Kind {
    Unsigned,
    Signed,
    Floating,
}

use Kind::{Floating, Signed, Unsigned};

/// The color types, by their number in the header for C.
const COLORS: [(&str, ColorType, Kind); 33] = [
    ("Gray8", ColorType::Gray(8), Unsigned),
    ("Gray16", ColorType::Gray(16), Unsigned),
    ("Gray32", ColorType::Gray(32), Unsigned),
    ("Gray64", ColorType::Gray(64), Unsigned),
    ("GrayI8", ColorType::Gray(8), Signed),
    ("GrayI16", ColorType::Gray(16), Signed),
    ("GrayI32", ColorType::Gray(32), Signed),
    ("GrayI64", ColorType::Gray(64), Signed),
    ("Gray32Float", ColorType::Gray(32), Floating),
    ("Gray64Float", ColorType::Gray(64), Floating),
    ("RGB8", ColorType::RGB(8), Unsigned),
    ("RGB16", ColorType::RGB(16), Unsigned),
    ("RGB32", ColorType::RGB(32), Unsigned),
    ("RGB64", ColorType::RGB(64), Unsigned),
    ("RGB32Float", ColorType::RGB(32), Floating),
    ("RGB64Float", ColorType::RGB(64), Floating),
    ("RGBA8", ColorType::RGBA(8), Unsigned),
    ("RGBA16", ColorType::RGBA(16), Unsigned),
    ("RGBA32", ColorType::RGBA(32), Unsigned),
    ("RGBA64", ColorType::RGBA(64), Unsigned),
    ("RGBA32Float", ColorType::RGBA(32), Floating),
    ("RGBA64Float", ColorType::RGBA(64), Floating),
    ("CMYK8", ColorType::CMYK(8), Unsigned),
    ("CMYK16", ColorType::CMYK(16), Unsigned),
    ("CMYK32", ColorType::CMYK(32), Unsigned),
    ("CMYK64", ColorType::CMYK(64), Unsigned),
    ("CMYK32Float", ColorType::CMYK(32), Floating),
    ("CMYK64Float", ColorType::CMYK(64), Floating),
    ("YCbCr8", ColorType::YCbCr(8), Unsigned),
    ("CMYKA8", ColorType::CMYKA(8), Unsigned),
    ("Gray1", ColorType::Gray(1), Unsigned),
    ("Gray2", ColorType::Gray(2), Unsigned),
    ("Gray4", ColorType::Gray(4), Unsigned),
];

/// Returns how many bytes a row of so many pixels has.
fn row_bytes(color: ColorType, width: usize) -> usize {
    let bits = usize::from(color.num_samples()) * usize::from(color.bit_depth());
    (width * bits + 7) / 8
}

/// Returns the name of the number type of samples.
fn type_of(samples: &DecodingResult) -> &'static str {
    match samples {
        DecodingResult::U8(_) => "U8",
        DecodingResult::U16(_) => "U16",
        DecodingResult::U32(_) => "U32",
        DecodingResult::U64(_) => "U64",
        DecodingResult::F16(_) => "F16",
        DecodingResult::F32(_) => "F32",
        DecodingResult::F64(_) => "F64",
        DecodingResult::I8(_) => "I8",
        DecodingResult::I16(_) => "I16",
        DecodingResult::I32(_) => "I32",
        DecodingResult::I64(_) => "I64",
    }
}

/// Reads an image by all calls that read one.
fn read_back(decoder: &mut Reader, color: ColorType, kind: Kind, samples: &[u8], what: &str) {
    let bits = color.bit_depth().max(8);
    assert_eq!(decoder.colortype().unwrap(), color, "{what}");
    let mut image = decoder.read_image().unwrap();
    let letter = match kind {
        Unsigned => 'U',
        Signed => 'I',
        Floating => 'F',
    };
    assert_eq!(type_of(&image), format!("{letter}{bits}"), "{what}");
    assert_eq!(bytes_of(&mut image, bits), samples, "{what}");

    let layout = decoder.image_buffer_layout().unwrap();
    assert_eq!(
        (layout.len, layout.planes, layout.complete_len),
        (samples.len(), 1, samples.len())
    );
    let mut bytes = vec![7; samples.len() + 3];
    decoder.read_image_bytes(&mut bytes).unwrap();
    assert_eq!(little(&bytes[..samples.len()], bits), samples, "{what}");
    assert_eq!(bytes[samples.len()..], [7; 3]);

    let mut again = DecodingResult::U8(Vec::new());
    decoder.read_image_to_buffer(&mut again).unwrap();
    assert_eq!(bytes_of(&mut again, bits), samples, "{what}");

    let mut chunks = Vec::new();
    for chunk in 0..decoder.strip_count().unwrap() {
        let mut part = decoder.read_chunk(chunk).unwrap();
        let layout = decoder.image_chunk_buffer_layout(chunk).unwrap();
        let mut bytes = vec![0; layout.len];
        decoder.read_chunk_bytes(chunk, &mut bytes).unwrap();
        assert_eq!(bytes_of(&mut part, bits), little(&bytes, bits));
        chunks.extend(bytes_of(&mut part, bits));
    }
    assert_eq!(chunks, samples, "{what}");
}

#[test]
fn images_of_each_color_type_are_read_back() {
    let mut random = Random(88172645463325252);
    for (number, (name, color, kind)) in (0..).zip(COLORS) {
        let has_none = kind == Floating || color.bit_depth() < 8;
        let predictors: &[u16] = if has_none { &[1] } else { &[1, 2] };
        for (width, height) in [(1, 1), (7, 5), (129, 40)] {
            let samples = random.bytes(row_bytes(color, width as usize) * height as usize);
            for version in [CLASSIC, BIG] {
                for method in [UNCOMPRESSED, PACKBITS] {
                    for &predictor in predictors {
                        let image = Image {
                            color: number,
                            width,
                            height,
                            version,
                            method,
                            predictor,
                        };
                        let file = write_image(image, &samples).unwrap();
                        let mut decoder = open(&file).unwrap();
                        assert_eq!(decoder.dimensions().unwrap(), (width, height));
                        let what =
                            format!("{name} {width} {height} {version} {method} {predictor}");
                        read_back(&mut decoder, color, kind, &samples, &what);
                    }
                }
            }
        }
    }
}

#[test]
fn images_in_strips_are_read_back() {
    let mut random = Random(362436069);
    for (name, color, kind) in COLORS {
        let size = usize::from(color.bit_depth().max(8)) / 8;
        let (width, height, rows) = (5usize, 11usize, 3);
        let samples = random.bytes(row_bytes(color, width) * height);
        let words = samples.chunks(size).map(|sample| {
            let mut number = [0; 8];
            number[..size].copy_from_slice(sample);
            let bits = u64::from_le_bytes(number);
            let shift = 64 - 8 * size;
            match kind {
                Unsigned => bits.to_string(),
                Signed => ((bits << shift) as i64 >> shift).to_string(),
                Floating => format!("{bits:#x}"),
            }
        });
        let words = words.collect::<Vec<_>>().join(" ");
        for method in ["uncompressed", "packbits"] {
            let jobs = format!(
                "compression {method}\nimage {name} {width} {height}\nrows_per_strip {rows}\nwrite_data {words}\n"
            );
            for version in [CLASSIC, BIG] {
                let mut decoder = open(&write_jobs(version, &jobs)).unwrap();
                assert_eq!(decoder.strip_count().unwrap(), 4);
                assert_eq!(decoder.chunk_dimensions(), (5, 3));
                assert_eq!(decoder.chunk_data_dimensions(3), (5, 2));
                read_back(
                    &mut decoder,
                    color,
                    kind,
                    &samples,
                    &format!("{name} {method}"),
                );
            }
        }
    }
}
