//! Writes one tile of the first page as its bytes: that of the first plane in which a pixel lies.
//! The others aren't read. The numbers are the pixel's row and column.
//!
//!     cargo run --example tile map.tif 12000 34000 > tile.bytes

mod common;

use std::env;
use std::fs::File;
use std::io::BufReader;

use tiff::decoder::Decoder;

fn main() -> common::Outcome {
    let words: Vec<String> = env::args().skip(1).collect();
    let (name, row, column) = match &words[..] {
        [name, row, column] => (name, row.parse::<u32>()?, column.parse::<u32>()?),
        _ => return Err("usage: tile FILE ROW COLUMN".into()),
    };
    let mut decoder = Decoder::new(BufReader::new(File::open(name)?))?;
    let (width, height) = decoder.dimensions()?;
    if row >= height || column >= width {
        return Err("no such pixel".into());
    }
    let (tile_width, tile_height) = decoder.chunk_dimensions();
    let across = (width - 1) / tile_width + 1;
    let number = row / tile_height * across + column / tile_width;
    let layout = decoder.image_chunk_buffer_layout(number)?;
    let mut tile = vec![0; layout.len];
    decoder.read_chunk_bytes(number, &mut tile)?;
    common::write_stdout(&tile)
}
