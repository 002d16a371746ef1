//! Lists the pages of a TIFF file: number, offset, sides, color, method, chunks; or why a page is
//! refused.
//!
//!     cargo run --example list page.tif

mod common;

use std::env;
use std::fs::File;
use std::io::{BufReader, Read, Seek};

use tiff::decoder::{ChunkType, Decoder};
use tiff::tags::Tag;
use tiff::TiffResult;

/// Describes the page that the decoder is at.
fn page<R: Read + Seek>(decoder: &mut Decoder<R>) -> TiffResult<String> {
    let offset = decoder.ifd_pointer().map_or(0, |pointer| pointer.0);
    let (width, height) = decoder.dimensions()?;
    let color = decoder
        .colortype()
        .map_or("no color".to_string(), |color| format!("{color:?}"));
    let method: u16 = decoder.find_tag_unsigned(Tag::Compression)?.unwrap_or(1);
    let (count, kind) = match decoder.get_chunk_type() {
        ChunkType::Strip => (decoder.strip_count()?, "strips"),
        ChunkType::Tile => (decoder.tile_count()?, "tiles"),
    };
    Ok(format!(
        "{offset} {width}x{height} {color}, method {method}, {count} {kind}"
    ))
}

fn main() -> common::Outcome {
    let name = env::args().nth(1).ok_or("usage: list FILE")?;
    let mut decoder = Decoder::new(BufReader::new(File::open(name)?))?;
    let mut lines = String::new();
    let mut found = page(&mut decoder);
    for number in 0.. {
        let text = found.unwrap_or_else(|err| format!("error: {err}"));
        lines += &format!("{number} {text}\n");
        if !decoder.more_images() {
            break;
        }
        found = decoder.next_image().and_then(|()| page(&mut decoder));
    }
    common::write_stdout(lines.as_bytes())
}
