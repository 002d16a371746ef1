//! Reads the first page of a TIFF file and writes it as PGM (gray) or PPM (RGB), of 8 bits a sample;
//! one of 16 rows and columns or more, in a quarter of its width and height.
//!
//!     cargo run --example thumbnail page.tif > page.pgm

mod common;

use std::env;
use std::fs::File;
use std::io::BufReader;

use tiff::decoder::{Decoder, DecodingResult};
use tiff::ColorType;

fn main() -> common::Outcome {
    let name = env::args().nth(1).ok_or("usage: thumbnail FILE")?;
    let mut decoder = Decoder::new(BufReader::new(File::open(name)?))?;
    let kind = match decoder.colortype()? {
        ColorType::Gray(8) => 5,
        ColorType::RGB(8) => 6,
        other => return Err(format!("not 8 bits of gray or RGB, but {other:?}").into()),
    };
    let pixel = usize::from(decoder.colortype()?.num_samples());
    let pixels = match decoder.read_image()? {
        DecodingResult::U8(samples) if decoder.image_buffer_layout()?.planes == 1 => samples,
        _ => return Err("not unsigned samples, pixel by pixel".into()),
    };
    let (width, height) = decoder.dimensions()?;
    let step = if width >= 16 && height >= 16 { 4 } else { 1 };
    let mut picture = format!("P{kind}\n{} {}\n255\n", width / step, height / step).into_bytes();
    let rows = pixels.chunks_exact(width as usize * pixel);
    for row in rows.step_by(step as usize).take((height / step) as usize) {
        let chosen = row.chunks_exact(pixel).step_by(step as usize);
        picture.extend(chosen.take((width / step) as usize).flatten());
    }
    common::write_stdout(&picture)
}
