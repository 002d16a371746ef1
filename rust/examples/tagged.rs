//! Writes a page of 16 by 16 gray pixels with two tags of one's own: a description, and the size of a
//! pixel in a map's units (ModelPixelScale).
//!
//!     cargo run --example tagged > page.tif

mod common;

use std::io::Cursor;

use tiff::encoder::colortype::Gray8;
use tiff::encoder::TiffEncoder;
use tiff::tags::Tag;

fn main() -> common::Outcome {
    let ramp: Vec<u8> = (0..=255).collect();
    let mut file = Cursor::new(Vec::new());
    let mut encoder = TiffEncoder::new(&mut file)?;
    let mut image = encoder.new_image::<Gray8>(16, 16)?;
    let tags = image.encoder();
    tags.write_tag(Tag::ImageDescription, "a ramp")?;
    tags.write_tag(Tag::ModelPixelScaleTag, [0.5, 0.5, 0.0])?;
    image.write_data(&ramp)?;
    encoder.finish()?;
    common::write_stdout(file.get_ref())
}
