//! Files with bytes changed: no call ends the program, and what calls return agrees.

mod common;

use std::fs;
use std::path::Path;

use common::{list_tags, open, Random, Reader, FORGES};
use tiff::decoder::{ChunkType, DecodingResult, Limits, TiffCodingUnit};
use tiff::tags::{Type, ValueBuffer};

/// Reads the tags of a directory, in each way.
fn read_tags(decoder: &mut Reader) {
    let mut ifd = decoder.image_ifd();
    let tags: Vec<_> = ifd
        .directory()
        .iter()
        .map(|(tag, entry)| (tag, entry.field_type(), entry.count()))
        .collect();
    for &(tag, ty, count) in &tags {
        let mut buffer = ValueBuffer::empty(Type::BYTE);
        if ifd.find_tag_buf(tag, &mut buffer).is_ok() {
            assert_eq!((buffer.data_type(), buffer.count()), (ty, count));
            let mut bytes = vec![0; buffer.as_bytes().len()];
            let copied = ifd.find_tag_bytes(tag, &mut bytes, 0).unwrap();
            assert_eq!(copied, Some(bytes.len()));
            assert_eq!(bytes, buffer.as_bytes());
            assert!(ifd.find_tag(tag).is_ok() || ty == Type::ASCII);
        }
    }
    assert_eq!(ifd.tag_iter().count(), tags.len());
}

/// Compares the entries of a page's directory with those that the C library lists.
fn compare_entries(file: &[u8], decoder: &mut Reader) {
    let pointer = match decoder.ifd_pointer() {
        Some(pointer) => pointer,
        None => return,
    };
    let directory = decoder.read_directory(pointer);
    let listed = list_tags(file, pointer.0);
    assert_eq!(directory.is_ok(), listed.is_ok());
    let (directory, listed) = match (directory, listed) {
        (Ok(directory), Ok(listed)) => (directory, listed),
        _ => return,
    };
    let entries = directory.iter().map(|(tag, entry)| {
        let kind = entry.field_type().to_u16();
        (tag.to_u16(), kind, entry.count())
    });
    assert!(entries.eq(listed
        .iter()
        .map(|entry| (entry.number, entry.kind, entry.count))));
}

/// Reads the chunks of a page, and returns whether it has few enough to be read.
fn read_chunks(decoder: &mut Reader) {
    let count = match decoder.get_chunk_type() {
        ChunkType::Strip => decoder.strip_count(),
        ChunkType::Tile => decoder.tile_count(),
    };
    let (width, height) = decoder.chunk_dimensions();
    for chunk in 0..count.unwrap_or(1).min(20) {
        let (columns, rows) = decoder.chunk_data_dimensions(chunk);
        assert!(0 < columns && columns <= width && 0 < rows && rows <= height);
        let read = decoder.read_chunk(chunk);
        let layout = match decoder.image_chunk_buffer_layout(chunk) {
            Ok(layout) => layout,
            Err(_) => {
                assert!(read.is_err());
                continue;
            }
        };
        if layout.len > 1 << 16 {
            continue;
        }
        let mut bytes = vec![0; layout.len];
        let again = decoder.read_chunk_bytes(chunk, &mut bytes);
        assert_eq!(read.is_ok(), again.is_ok());
        if let Ok(mut samples) = read {
            assert_eq!(samples.as_buffer(0).as_bytes(), bytes);
            let row = layout.row_stride.map_or(0, |row| row.get());
            let mut apart = DecodingResult::U8(Vec::new());
            decoder
                .read_chunk_to_buffer(&mut apart, chunk, row)
                .unwrap();
            assert_eq!(apart.as_buffer(0).as_bytes(), bytes);
        }
        let unit = TiffCodingUnit(chunk);
        if let Ok(layout) = decoder.image_coding_unit_layout(unit) {
            let mut planes = vec![0; layout.complete_len.min(1 << 16)];
            let _ = decoder.read_coding_unit_bytes(unit, &mut planes);
        }
    }
}

/// Reads the image of a page.
fn read_image(decoder: &mut Reader) {
    let read = decoder.read_image();
    let layout = match decoder.image_buffer_layout() {
        Ok(layout) => layout,
        Err(_) => {
            assert!(read.is_err());
            return;
        }
    };
    if layout.complete_len > 1 << 16 {
        return;
    }
    let mut bytes = vec![0; layout.len];
    if let Ok(mut samples) = read {
        decoder.read_image_bytes(&mut bytes).unwrap();
        assert_eq!(samples.as_buffer(0).as_bytes()[..bytes.len()], bytes);
    }
    let mut all = DecodingResult::U8(Vec::new());
    if decoder.read_image_to_buffer(&mut all).is_ok() {
        assert_eq!(all.as_buffer(0).as_bytes()[..bytes.len()], bytes);
    }
}

/// Makes the calls of a decoder on each page.
fn read(file: &[u8]) -> bool {
    let mut decoder = match open(file) {
        Ok(decoder) => decoder,
        Err(_) => return false,
    };
    let mut limits = Limits::default();
    limits.decoding_buffer_size = 1 << 20;
    decoder = decoder.with_limits(limits);
    for _ in 0..10 {
        let _ = (decoder.dimensions().unwrap(), decoder.colortype());
        compare_entries(file, &mut decoder);
        read_tags(&mut decoder);
        read_image(&mut decoder);
        read_chunks(&mut decoder);
        if !decoder.more_images() {
            break;
        }
        let before = decoder.ifd_pointer();
        if decoder.next_image().is_err() && decoder.ifd_pointer() == before {
            assert!(!decoder.more_images());
        }
    }
    decoder.seek_to_image(0).unwrap();
    true
}

#[test]
fn files_with_changed_bytes_are_read_or_refused() {
    let data = Path::new(env!("CARGO_MANIFEST_DIR")).join("../crates/test_lists/data");
    let mut files: Vec<Vec<u8>> = fs::read_dir(data)
        .unwrap()
        .map(|entry| entry.unwrap().path())
        .filter(|path| {
            path.extension()
                .map_or(false, |extension| extension == "tif")
        })
        .map(|path| fs::read(path).unwrap())
        .filter(|file| file.len() < 3000)
        .collect();
    assert_eq!(files.len(), 13);
    files.extend(FORGES.iter().map(|forge| forge.page(5, 3, 16, 1, &[7; 30])));
    let mut random = Random(88172645463325252);
    let (mut opened, mut refused) = (0, 0);
    for file in &files {
        for _ in 0..400 {
            let mut changed = file.clone();
            for _ in 0..1 + random.below(3) {
                let at = random.below(changed.len());
                changed[at] = match random.below(3) {
                    0 => random.below(256) as u8,
                    1 => random.below(16) as u8,
                    _ => changed[at] ^ 1 << random.below(8),
                };
            }
            if random.below(10) == 0 {
                changed.truncate(random.below(changed.len()));
            }
            match read(&changed) {
                true => opened += 1,
                false => refused += 1,
            }
        }
    }
    assert!(
        opened > 2000 && refused > 1000,
        "{opened} opened, {refused} refused"
    );
}
