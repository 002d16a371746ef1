//! Reads and writes TIFF and BigTIFF files by the names of the crate `tiff` 0.11.3. What a file holds
//! is decided by a C library, whose code is proved; this crate declares its calls and gives their
//! results the crate's types. README.md has the table of the crate's names that it doesn't have,
//! and of what it does itself. [`encoder`] has an example of writing; this one reads:
//!
//! ```no_run
//! use std::fs::File;
//! use std::io::BufReader;
//! use tiff::decoder::{Decoder, DecodingResult};
//!
//! # fn main() -> tiff::TiffResult<()> {
//! let mut decoder = Decoder::new(BufReader::new(File::open("page.tif")?))?;
//! let (width, height) = decoder.dimensions()?;
//! println!("{width} by {height} pixels, {:?}", decoder.colortype()?);
//! match decoder.read_image()? {
//!     DecodingResult::U8(samples) => println!("{} samples of 8 bits", samples.len()),
//!     DecodingResult::U16(samples) => println!("{} samples of 16 bits", samples.len()),
//!     _ => println!("other samples"),
//! }
//! # Ok(())
//! # }
//! ```

#![deny(unsafe_code)]
#![warn(missing_docs)]

#[cfg(not(target_pointer_width = "64"))]
compile_error!("the C library is for machines with addresses of 64 bits");

use std::ops::{Add, Div, Rem};

pub mod decoder;
mod directory;
pub mod encoder;
mod error;
#[allow(unsafe_code)]
mod ffi;
pub mod half;
pub mod tags;

pub use self::directory::Directory;
pub use self::error::{TiffError, TiffFormatError, TiffResult, TiffUnsupportedError, UsageError};

/// Returns a quotient, rounded up. The method of this name is newer than the oldest Rust that builds
/// this crate.
fn div_ceil<N>(number: N, by: N) -> N
where
    N: Copy + PartialEq + From<bool> + Add<Output = N> + Div<Output = N> + Rem<Output = N>,
{
    number / by + N::from(number % by != N::from(false))
}

/// What the samples of a pixel are. The number is how many bits a sample has.
#[derive(Copy, PartialEq, Eq, Debug, Clone, Hash)]
#[non_exhaustive]
pub enum ColorType {
    /// Gray.
    Gray(u8),

    /// Red, green and blue.
    RGB(u8),

    /// An index into a table of colors. No page has it: a palette is refused.
    Palette(u8),

    /// Gray and alpha. No page has it: two gray samples are `Multiband`.
    GrayA(u8),

    /// Red, green, blue and alpha.
    RGBA(u8),

    /// Cyan, magenta, yellow and black.
    CMYK(u8),

    /// Cyan, magenta, yellow, black and alpha.
    CMYKA(u8),

    /// Luma and two samples of chroma.
    YCbCr(u8),

    /// Lightness and two samples of color, as ICC profiles have them.
    Lab(u8),

    /// Several samples of one kind.
    Multiband {
        /// How many bits a sample has.
        bit_depth: u8,
        /// How many samples a pixel has.
        num_samples: u16,
    },
}

impl ColorType {
    /// Returns how many bits a sample has.
    pub fn bit_depth(&self) -> u8 {
        match *self {
            ColorType::Gray(bits)
            | ColorType::RGB(bits)
            | ColorType::Palette(bits)
            | ColorType::GrayA(bits)
            | ColorType::RGBA(bits)
            | ColorType::CMYK(bits)
            | ColorType::CMYKA(bits)
            | ColorType::YCbCr(bits)
            | ColorType::Lab(bits)
            | ColorType::Multiband {
                bit_depth: bits, ..
            } => bits,
        }
    }

    /// Returns how many samples a pixel has.
    pub fn num_samples(&self) -> u16 {
        match *self {
            ColorType::Gray(_) | ColorType::Palette(_) => 1,
            ColorType::GrayA(_) => 2,
            ColorType::RGB(_) | ColorType::YCbCr(_) | ColorType::Lab(_) => 3,
            ColorType::RGBA(_) | ColorType::CMYK(_) => 4,
            ColorType::CMYKA(_) => 5,
            ColorType::Multiband { num_samples, .. } => num_samples,
        }
    }
}
