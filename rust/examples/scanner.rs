//! Puts scanned pages, gray PGM images of 8 bits, into one TIFF file, packed by PackBits, with their
//! resolution and their name each. A strip has one row, as it has without `rows_per_strip`: libtiff
//! reads no packed strips of several rows by `TIFFReadScanline`.
//!
//!     cargo run --example scanner 300 page1.pgm page2.pgm > pages.tif

mod common;

use std::io::Cursor;
use std::{env, fs};

use tiff::encoder::colortype::Gray8;
use tiff::encoder::{Compression, Rational, TiffEncoder};
use tiff::tags::{ResolutionUnit, Tag};

fn main() -> common::Outcome {
    let words: Vec<String> = env::args().skip(1).collect();
    let (dpi, names) = match &words[..] {
        [dpi, names @ ..] if !names.is_empty() => (dpi.parse::<u32>()?, names),
        _ => return Err("usage: scanner DPI PGM .. > FILE".into()),
    };
    let mut file = Cursor::new(Vec::new());
    let mut encoder = TiffEncoder::new(&mut file)?.with_compression(Compression::Packbits);
    for name in names {
        let scan = common::read_netpbm(&fs::read(name)?)?;
        if scan.is_rgb || scan.has_two_bytes {
            return Err(format!("{name} isn't a PGM of 8 bits").into());
        }
        let mut page = encoder.new_image::<Gray8>(scan.width, scan.height)?;
        page.resolution(ResolutionUnit::Inch, Rational { n: dpi, d: 1 });
        page.encoder()
            .write_tag(Tag::ImageDescription, name.as_str())?;
        page.write_data(&scan.samples)?;
    }
    encoder.finish()?;
    common::write_stdout(file.get_ref())
}
