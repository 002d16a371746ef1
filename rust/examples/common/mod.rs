//! What the examples have in common, each a part of it: Netpbm images as input, and standard output.

#![allow(dead_code)]

use std::error::Error;
use std::io::{self, Write};
use std::str::FromStr;

/// What an example ends with.
pub type Outcome = Result<(), Box<dyn Error>>;

/// A PGM (gray) or a PPM (RGB).
pub struct Netpbm {
    pub is_rgb: bool,
    pub width: u32,
    pub height: u32,
    /// One byte for each sample, or two, the highest first.
    pub samples: Vec<u8>,
    pub has_two_bytes: bool,
}

/// Takes the next word of a header, a number, with the space behind it.
fn number<T: FromStr>(rest: &mut &[u8]) -> Option<T> {
    let start = rest.iter().position(|byte| !byte.is_ascii_whitespace())?;
    let len = rest[start..].iter().position(u8::is_ascii_whitespace)?;
    let (word, behind) = rest[start..].split_at(len);
    *rest = &behind[1..];
    std::str::from_utf8(word).ok()?.parse().ok()
}

/// Reads the header of an image, whose samples follow.
fn header(rest: &mut &[u8]) -> Option<Netpbm> {
    let is_rgb = match rest.get(..2)? {
        b"P5" => false,
        b"P6" => true,
        _ => return None,
    };
    *rest = &rest[2..];
    Some(Netpbm {
        is_rgb,
        width: number(rest)?,
        height: number(rest)?,
        has_two_bytes: number::<u16>(rest)? > 255,
        samples: Vec::new(),
    })
}

/// Reads an image, whose header has no comments.
pub fn read_netpbm(mut file: &[u8]) -> Result<Netpbm, &'static str> {
    let mut image = header(&mut file).ok_or("not a PGM or a PPM")?;
    image.samples = file.to_vec();
    Ok(image)
}

/// Writes to standard output.
pub fn write_stdout(bytes: &[u8]) -> Outcome {
    let mut stdout = io::stdout();
    stdout
        .write_all(bytes)
        .and_then(|()| stdout.flush())
        .map_err(|err| format!("cannot write standard output: {err}").into())
}
