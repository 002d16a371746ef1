//! Reads a PGM (gray) or a PPM (RGB) of 8 or 16 bits a sample, and writes it as a TIFF file, packed
//! by PackBits.
//!
//!     cargo run --example write < page.pgm > page.tif

mod common;

use std::io::{self, Cursor, Read, Seek, Write};

use common::Netpbm;
use tiff::encoder::colortype::{Gray16, Gray8, RGB16, RGB8};
use tiff::encoder::{Compression, TiffEncoder};
use tiff::TiffResult;

/// Writes an image as the file's next page.
fn write<W: Write + Seek>(encoder: &mut TiffEncoder<W>, image: &Netpbm) -> TiffResult<()> {
    let (width, height) = (image.width, image.height);
    if !image.has_two_bytes {
        return match image.is_rgb {
            true => encoder.write_image::<RGB8>(width, height, &image.samples),
            false => encoder.write_image::<Gray8>(width, height, &image.samples),
        };
    }
    let pairs = image.samples.chunks_exact(2);
    let samples: Vec<u16> = pairs.map(|of| u16::from_be_bytes([of[0], of[1]])).collect();
    match image.is_rgb {
        true => encoder.write_image::<RGB16>(width, height, &samples),
        false => encoder.write_image::<Gray16>(width, height, &samples),
    }
}

fn main() -> common::Outcome {
    let mut input = Vec::new();
    io::stdin().read_to_end(&mut input)?;
    let image = common::read_netpbm(&input)?;
    let mut file = Cursor::new(Vec::new());
    let mut encoder = TiffEncoder::new(&mut file)?.with_compression(Compression::Packbits);
    write(&mut encoder, &image)?;
    encoder.finish()?;
    common::write_stdout(file.get_ref())
}
