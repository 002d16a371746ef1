//! The lists of calls of `crates/test_lists`, with the replies in them.

mod common;

use std::fmt::{Debug, Write};
use std::fs;
use std::path::{Path, PathBuf};

use common::{open, try_jobs, Reader, BIG, CLASSIC};
use tiff::decoder::{DecodingResult, Limits, TiffCodingUnit};
use tiff::tags::{IfdPointer, Tag, Type, ValueBuffer};
use tiff::{Directory, TiffResult};

/// The calls on a reader's own offset, which isn't that of a decoder in memory.
const BY_READER: [&str; 15] = [
    "goto_offset",
    "goto_offset_u64",
    "read_byte",
    "read_double",
    "read_float",
    "read_ifd_offset",
    "read_long",
    "read_long8",
    "read_offset",
    "read_offset_u64",
    "read_short",
    "read_slong",
    "read_slong8",
    "read_sshort",
    "read_string",
];

/// Calls that the crate `tiff` doesn't have, and that move the decoder: the test makes no further calls on the file.
const MOVES: [&str; 2] = ["check", "list"];

fn data() -> PathBuf {
    Path::new(env!("CARGO_MANIFEST_DIR")).join("../crates/test_lists/data")
}

/// Returns bytes by their hexadecimal digits.
fn bytes_of(digits: &str) -> Vec<u8> {
    (0..digits.len() / 2)
        .map(|at| u8::from_str_radix(&digits[2 * at..2 * at + 2], 16).unwrap())
        .collect()
}

/// Returns the file that a line names, if its words are for a file in memory.
fn file_of(words: &[&str], written: &Option<Vec<u8>>) -> Option<Vec<u8>> {
    let mut file = match words[0] {
        "written" => written.clone()?,
        "-" => Vec::new(),
        name if name.ends_with(".tif") => fs::read(data().join(name)).ok()?,
        digits if digits.bytes().all(|digit| digit.is_ascii_hexdigit()) => bytes_of(digits),
        _ => return None,
    };
    let mut words = words[1..].iter();
    while let Some(word) = words.next() {
        match *word {
            "at" => {
                let at: usize = words.next()?.parse().ok()?;
                let bytes = bytes_of(words.next()?);
                file[at..at + bytes.len()].copy_from_slice(&bytes);
            }
            "add" => file.extend(bytes_of(words.next()?)),
            "cut" => file.truncate(words.next()?.parse().ok()?),
            "bytewise" => {}
            _ => return None,
        }
    }
    Some(file)
}

/// Writes a result as the lists do.
fn reply_of<T>(result: TiffResult<T>, show: impl Fn(T) -> String) -> String {
    match result {
        Ok(value) => show(value),
        Err(err) => {
            let form = format!("{err:?}")
                .replace("IoError(Kind(UnexpectedEof))", "IoError(UnexpectedEof)");
            format!("refused: {err} ({form})")
        }
    }
}

fn shown<T: Debug>(result: TiffResult<T>) -> String {
    reply_of(result, |value| format!("{value:?}"))
}

/// Writes samples as the lists do: floating-point numbers by their bits.
fn samples(samples: &DecodingResult) -> String {
    fn bits<T: Debug>(name: &str, ty: &str, bits: impl Iterator<Item = T>) -> String {
        let items: Vec<String> = bits.map(|bits| format!("{ty}({bits:?})")).collect();
        format!("{name}([{}])", items.join(", "))
    }
    match samples {
        DecodingResult::F16(numbers) => bits("F16", "Bits16", numbers.iter().map(|n| n.to_bits())),
        DecodingResult::F32(numbers) => bits("F32", "Bits32", numbers.iter().map(|n| n.to_bits())),
        DecodingResult::F64(numbers) => bits("F64", "Bits64", numbers.iter().map(|n| n.to_bits())),
        others => format!("{others:?}"),
    }
}

/// Writes a directory as the lists do.
fn directory(directory: Directory) -> String {
    let mut text = String::from("Directory { entries: {");
    for (index, (tag, entry)) in directory.iter().enumerate() {
        let comma = if index == 0 { "" } else { ", " };
        write!(text, "{comma}{}: {entry:?}", tag.to_u16()).unwrap();
    }
    let next = directory.next().map_or(0, |pointer| pointer.0);
    text + &format!("}}, next: {next} }}")
}

fn buffer(buffer: &ValueBuffer) -> String {
    format!(
        "ValueBuffer {{ order: {:?}, data_type: {:?}, bytes: {:?} }}",
        buffer.byte_order(),
        buffer.data_type(),
        buffer.as_bytes()
    )
}

/// Puts what a call left behind its reply.
fn with(reply: String, left: String) -> String {
    format!("{reply}, {left}")
}

/// Makes a call, and returns its reply; no reply of a call that this test doesn't know.
fn reply(decoder: &mut Reader, call: &str, numbers: &[u64]) -> Option<String> {
    let number = |index: usize| numbers.get(index).copied().unwrap_or_default();
    let tag = Tag::from_u16_exhaustive(number(0) as u16);
    let chunk = number(0) as u32;
    Some(match call {
        "dimensions" => shown(decoder.dimensions()),
        "colortype" => shown(decoder.colortype()),
        "byte_order" => format!("{:?}", decoder.byte_order()),
        "ifd_pointer" => format!("{:?}", decoder.ifd_pointer()),
        "more_images" => decoder.more_images().to_string(),
        "next_image" => shown(decoder.next_image()),
        "seek_to_image" => shown(decoder.seek_to_image(number(0) as usize)),
        "read_image" => reply_of(decoder.read_image(), |read| samples(&read)),
        "read_chunk" => reply_of(decoder.read_chunk(chunk), |read| samples(&read)),
        "read_image_bytes" => {
            let mut bytes = vec![0; number(0) as usize];
            with(
                shown(decoder.read_image_bytes(&mut bytes)),
                format!("{bytes:?}"),
            )
        }
        "read_chunk_bytes" => {
            let mut bytes = vec![0; number(1) as usize];
            with(
                shown(decoder.read_chunk_bytes(chunk, &mut bytes)),
                format!("{bytes:?}"),
            )
        }
        "read_coding_unit_bytes" => {
            let mut bytes = vec![0; number(1) as usize];
            let read = decoder.read_coding_unit_bytes(TiffCodingUnit(chunk), &mut bytes);
            with(shown(read), format!("{bytes:?}"))
        }
        "read_chunk_to_buffer" => {
            let mut read = DecodingResult::U8(Vec::new());
            let done = decoder.read_chunk_to_buffer(&mut read, chunk, number(1) as usize);
            with(shown(done), samples(&read))
        }
        "read_image_to_buffer" => {
            let mut read = DecodingResult::U8(Vec::new());
            let done = decoder.read_image_to_buffer(&mut read);
            with(shown(done), samples(&read))
        }
        "get_chunk_type" => format!("{:?}", decoder.get_chunk_type()),
        "strip_count" => shown(decoder.strip_count()),
        "tile_count" => shown(decoder.tile_count()),
        "chunk_dimensions" => format!("{:?}", decoder.chunk_dimensions()),
        "chunk_data_dimensions" => format!("{:?}", decoder.chunk_data_dimensions(chunk)),
        "image_buffer_layout" => shown(decoder.image_buffer_layout()),
        "image_chunk_buffer_layout" => shown(decoder.image_chunk_buffer_layout(chunk)),
        "image_coding_unit_layout" => {
            shown(decoder.image_coding_unit_layout(TiffCodingUnit(chunk)))
        }
        "read_directory" => reply_of(decoder.read_directory(IfdPointer(number(0))), directory),
        "find_entry" => format!("{:?}", decoder.image_ifd().find_entry(tag)),
        "find_tag" => shown(decoder.find_tag(tag)),
        "find_tag_unsigned" => shown(decoder.find_tag_unsigned::<u64>(tag)),
        "find_tag_unsigned_vec" => shown(decoder.find_tag_unsigned_vec::<u64>(tag)),
        "find_tag_bytes" => {
            let mut bytes = vec![0; number(1) as usize];
            let found = decoder
                .image_ifd()
                .find_tag_bytes(tag, &mut bytes, number(2));
            with(shown(found), format!("{bytes:?}"))
        }
        "find_tag_buf" => {
            let mut values = ValueBuffer::empty(Type::BYTE);
            let found = decoder.image_ifd().find_tag_buf(tag, &mut values);
            with(shown(found), buffer(&values))
        }
        "get_tag" => shown(decoder.get_tag(tag)),
        "get_tag_unsigned" => shown(decoder.get_tag_unsigned::<u64>(tag)),
        "get_tag_u32" => shown(decoder.get_tag_u32(tag)),
        "get_tag_u64" => shown(decoder.get_tag_u64(tag)),
        "get_tag_f32" => reply_of(decoder.get_tag_f32(tag), |n| {
            format!("Bits32({})", n.to_bits())
        }),
        "get_tag_f64" => reply_of(decoder.get_tag_f64(tag), |n| {
            format!("Bits64({})", n.to_bits())
        }),
        "get_tag_u8_vec" => shown(decoder.get_tag_u8_vec(tag)),
        "get_tag_u16_vec" => shown(decoder.get_tag_u16_vec(tag)),
        "get_tag_u32_vec" => shown(decoder.get_tag_u32_vec(tag)),
        "get_tag_u64_vec" => shown(decoder.get_tag_u64_vec(tag)),
        "get_tag_f32_vec" => reply_of(decoder.get_tag_f32_vec(tag), |numbers| {
            let items = numbers.iter().map(|n| format!("Bits32({})", n.to_bits()));
            format!("[{}]", items.collect::<Vec<_>>().join(", "))
        }),
        "get_tag_f64_vec" => reply_of(decoder.get_tag_f64_vec(tag), |numbers| {
            let items = numbers.iter().map(|n| format!("Bits64({})", n.to_bits()));
            format!("[{}]", items.collect::<Vec<_>>().join(", "))
        }),
        "get_tag_ascii_string" => shown(decoder.get_tag_ascii_string(tag)),
        "tag_iter" => format!("{:?}", decoder.tag_iter().collect::<Vec<_>>()),
        _ => return None,
    })
}

/// Returns what is expected in this crate's words: an entry has the fields of the crate `tiff`, and
/// floating-point values are numbers.
fn expected_here(expected: &str) -> String {
    let mut text = expected
        .replace("Entry { field_type:", "Entry { type_:")
        .replace(", value: [", ", offset: [");
    for (name, size) in [("Float(Bits32(", 32), ("Double(Bits64(", 64)] {
        while let Some(at) = text.find(name) {
            let from = at + name.len();
            let to = from + text[from..].find("))").unwrap();
            let bits: u64 = text[from..to].parse().unwrap();
            let number = match size {
                32 => format!("{:?}", f32::from_bits(bits as u32)),
                _ => format!("{:?}", f64::from_bits(bits)),
            };
            let word = name.split('(').next().unwrap();
            text.replace_range(at..to + 2, &format!("{word}({number})"));
        }
    }
    text
}

/// Tells whether a reply is the one that is expected. What a refused call leaves isn't specified.
fn agrees(reply: &str, expected: &str) -> bool {
    let up_to_error = |text: &str| match (text.starts_with("refused: "), text.find("), ")) {
        (true, Some(end)) => text[..end + 1].to_string(),
        _ => text.to_string(),
    };
    up_to_error(reply) == up_to_error(expected)
}

/// What the lists of a theme gave.
#[derive(Default)]
struct Run {
    replies: usize,
    differ: Vec<String>,
    unknown: Vec<String>,
}

impl Run {
    fn compare(&mut self, line: &str, reply: &str, expected: &str) {
        self.replies += 1;
        if !agrees(reply, &expected_here(expected)) {
            self.differ
                .push(format!("{line}\n    {reply}\n    {expected}"));
        }
    }
}

/// Makes the calls of a theme.
fn run(theme: &str) -> Run {
    let text = fs::read_to_string(data().join("lists").join(theme)).unwrap();
    let mut ran = Run::default();
    let mut decoder: Option<Reader> = None;
    let mut limits = Limits::default();
    let mut jobs: Option<(u16, String)> = None;
    let mut written = None;
    for line in text.lines() {
        if line.is_empty() || line.starts_with(['#', ' ']) {
            continue;
        }
        let (words, expected) = line.split_once(" -> ").unwrap_or((line, ""));
        let split: Vec<&str> = words.split(' ').collect();
        if let Some((version, list)) = &mut jobs {
            if split[0] == "done" {
                written = try_jobs(*version, list).ok();
                jobs = None;
            } else {
                list.push_str(words);
                list.push('\n');
            }
            continue;
        }
        match split[0] {
            "jobs" => {
                let version = if split.contains(&"big") { BIG } else { CLASSIC };
                jobs = Some((version, String::new()));
                decoder = None;
            }
            "cuts" => decoder = None,
            "file" => {
                decoder = None;
                limits = Limits::default();
                if expected == "no such file" {
                    continue;
                }
                let file = match file_of(&split[1..], &written) {
                    Some(file) => file,
                    None => continue,
                };
                let opened = open(&file);
                let reply = match &opened {
                    Ok(_) => "opened".to_string(),
                    Err(_) => shown(opened.as_ref().map(|_| ()).map_err(again)),
                };
                ran.compare(words, &reply, expected);
                decoder = opened.ok();
            }
            "set_limits" => {
                let numbers: Vec<usize> = split[1..]
                    .iter()
                    .filter_map(|word| match *word {
                        "max" => Some(usize::MAX),
                        word => word.parse().ok(),
                    })
                    .collect();
                if let [decoding, values, stored] = numbers[..] {
                    limits.decoding_buffer_size = decoding;
                    limits.ifd_value_size = values;
                    limits.intermediate_buffer_size = stored;
                    decoder = decoder.map(|decoder| decoder.with_limits(limits.clone()));
                }
            }
            call if MOVES.contains(&call) => decoder = None,
            call if call == "asked" || BY_READER.contains(&call) => {}
            call => {
                let decoder = match &mut decoder {
                    Some(decoder) => decoder,
                    None => continue,
                };
                if expected == "no such call" {
                    continue;
                }
                let numbers: Vec<u64> = split[1..]
                    .iter()
                    .map(|word| word.parse().unwrap())
                    .collect();
                match reply(decoder, call, &numbers) {
                    Some(reply) => ran.compare(words, &reply, expected),
                    None => ran.unknown.push(line.to_string()),
                }
            }
        }
    }
    ran
}

/// Returns an error of the same text, to be shown.
fn again(err: &tiff::TiffError) -> tiff::TiffError {
    use tiff::TiffError::*;
    match err {
        FormatError(err) => FormatError(err.clone()),
        UnsupportedError(err) => UnsupportedError(err.clone()),
        IoError(err) => IoError(err.kind().into()),
        LimitsExceeded => LimitsExceeded,
        IntSizeError => IntSizeError,
        other => panic!("{other}"),
    }
}

/// Makes the calls of a theme, which has as many replies at least.
fn agree(theme: &str, least: usize) {
    let ran = run(theme);
    assert!(
        ran.differ.is_empty() && ran.unknown.is_empty(),
        "{} of {} replies differ:\n{}\nunknown: {:?}",
        ran.differ.len(),
        ran.replies,
        ran.differ.join("\n"),
        ran.unknown
    );
    println!("{theme}: {} replies", ran.replies);
    assert!(ran.replies >= least, "only {} replies", ran.replies);
}

macro_rules! themes {
    ($($name:ident $theme:literal $least:literal)*) => {
        $(
            #[test]
            fn $name() {
                agree($theme, $least);
            }
        )*
    };
}

themes! {
    files "01-files.txt" 40
    chain "02-chain.txt" 42
    values "03-values.txt" 73
    pages "04-pages.txt" 22
    chunks "05-chunks.txt" 165
    tiles_and_planes "06-tiles-and-planes.txt" 39
    images "07-images.txt" 28
    forged "08-forged.txt" 147
    cuts "09-cuts.txt" 205
    calls "11-calls.txt" 44
    page_lists "12-page-lists.txt" 73
    images_written "16-images-written.txt" 78
    color_types "20-color-types.txt" 82
    rust_crate "23-rust-crate.txt" 124
}
