//! What the tests share: the C library's calls that write files, and random numbers.

#![allow(unsafe_code, dead_code)]

use std::io::Cursor;

use tiff::decoder::{Decoder, DecodingResult};
use tiff::TiffResult;

#[repr(C)]
#[derive(Clone, Copy)]
pub struct Image {
    pub color: u32,
    pub width: u32,
    pub height: u32,
    pub version: u16,
    pub method: u16,
    pub predictor: u16,
}

/// An entry of a directory, as the C library lists it.
#[repr(C)]
#[derive(Clone, Copy, Default)]
pub struct TagEntry {
    pub count: u64,
    pub offset: u64,
    pub number: u16,
    pub kind: u16,
    pub in_place: u32,
}

#[repr(C)]
#[derive(Default, Debug)]
struct JobsEnd {
    line: usize,
    job: usize,
}

pub const CLASSIC: u16 = 42;
pub const BIG: u16 = 43;
pub const UNCOMPRESSED: u16 = 1;
pub const PACKBITS: u16 = 32773;

const DONE: u32 = 0;
const INSUFFICIENT_OUTPUT_BUFFER_SIZE: u32 = 67;

extern "C" {
    fn tiff_write_image(
        image: *const Image,
        samples: *const u8,
        samples_len: usize,
        buffer: *mut u8,
        size: usize,
        len: *mut usize,
    ) -> u32;
    fn tiff_write_jobs(
        version: u16,
        jobs: *const u8,
        jobs_len: usize,
        buffer: *mut u8,
        size: usize,
        len: *mut usize,
        end: *mut JobsEnd,
    ) -> u32;
    fn tiff_list_tags(
        file: *const u8,
        len: usize,
        page: usize,
        entries: *mut TagEntry,
        capacity: usize,
        count: *mut usize,
    ) -> u32;
    fn tiff_version() -> u32;
}

/// Calls with a buffer that is too short, and then with one that is long enough.
fn written(mut call: impl FnMut(&mut [u8], &mut usize) -> u32) -> Result<Vec<u8>, u32> {
    let mut len = 0;
    match call(&mut [], &mut len) {
        INSUFFICIENT_OUTPUT_BUFFER_SIZE => {}
        status => return Err(status),
    }
    let mut file = vec![0; len];
    match call(&mut file, &mut len) {
        DONE => Ok(file),
        status => Err(status),
    }
}

/// Returns the file of an image.
pub fn write_image(image: Image, samples: &[u8]) -> Result<Vec<u8>, u32> {
    // SAFETY: slices and references, of the lengths that are passed.
    written(|buffer, len| unsafe {
        tiff_write_image(
            &image,
            samples.as_ptr(),
            samples.len(),
            buffer.as_mut_ptr(),
            buffer.len(),
            len,
        )
    })
}

/// Returns the file of a list of jobs.
pub fn try_jobs(version: u16, jobs: &str) -> Result<Vec<u8>, u32> {
    let mut end = JobsEnd::default();
    // SAFETY: slices and references, of the lengths that are passed.
    written(|buffer, len| unsafe {
        tiff_write_jobs(
            version,
            jobs.as_ptr(),
            jobs.len(),
            buffer.as_mut_ptr(),
            buffer.len(),
            len,
            &mut end,
        )
    })
}

/// Returns the file of a list of jobs, which has to be one.
pub fn write_jobs(version: u16, jobs: &str) -> Vec<u8> {
    try_jobs(version, jobs).unwrap_or_else(|status| panic!("status {status} of the jobs\n{jobs}"))
}

/// Returns the entries of the directory at an offset.
pub fn list_tags(file: &[u8], offset: u64) -> Result<Vec<TagEntry>, u32> {
    let page = offset as usize | 1 << 63;
    let mut entries = Vec::new();
    for _ in 0..2 {
        let mut count = 0;
        // SAFETY: slices and a reference, of the lengths that are passed.
        let status = unsafe {
            tiff_list_tags(
                file.as_ptr(),
                file.len(),
                page,
                entries.as_mut_ptr(),
                entries.len(),
                &mut count,
            )
        };
        if status != DONE {
            return Err(status);
        }
        entries.resize(count, TagEntry::default());
    }
    Ok(entries)
}

/// Returns the version of the C library.
pub fn version() -> u32 {
    // SAFETY: the call takes nothing.
    unsafe { tiff_version() }
}

/// A decoder of bytes.
pub type Reader = Decoder<Cursor<Vec<u8>>>;

/// Opens a file.
pub fn open(file: &[u8]) -> TiffResult<Reader> {
    Decoder::new(Cursor::new(file.to_vec()))
}

/// Opens the file of a list of jobs.
pub fn open_jobs(jobs: &str) -> Reader {
    open(&write_jobs(CLASSIC, jobs)).unwrap()
}

/// Random numbers, the same in each run.
pub struct Random(pub u64);

impl Random {
    /// Returns the next number.
    pub fn next(&mut self) -> u64 {
        self.0 ^= self.0 << 13;
        self.0 ^= self.0 >> 7;
        self.0 ^= self.0 << 17;
        self.0
    }

    /// Returns bytes with runs and without, so that PackBits has both.
    pub fn bytes(&mut self, len: usize) -> Vec<u8> {
        let mut bytes = Vec::with_capacity(len);
        while bytes.len() < len {
            let number = self.next();
            let run = match number % 3 {
                0 => 1 + number as usize / 3 % 200,
                _ => 1,
            };
            bytes.resize((bytes.len() + run).min(len), (number >> 32) as u8);
        }
        bytes
    }

    /// Returns a number below another.
    pub fn below(&mut self, end: usize) -> usize {
        (self.next() >> 20) as usize % end
    }
}

/// Returns the bytes of samples, each with its lowest byte first.
pub fn bytes_of(samples: &mut DecodingResult, bits: u8) -> Vec<u8> {
    little(samples.as_buffer(0).as_bytes(), bits)
}

/// Turns numbers of this machine into ones with their lowest byte first.
pub fn little(bytes: &[u8], bits: u8) -> Vec<u8> {
    let mut bytes = bytes.to_vec();
    if cfg!(target_endian = "big") {
        for number in bytes.chunks_exact_mut(usize::from(bits) / 8) {
            number.reverse();
        }
    }
    bytes
}

/// A file that a test makes byte by byte: of any byte order and kind, with any entries.
pub struct Forge {
    pub is_big_endian: bool,
    pub is_big: bool,
}

impl Forge {
    /// Returns the lowest bytes of a number, in the byte order of the file.
    pub fn number(&self, number: u64, len: usize) -> Vec<u8> {
        let mut bytes = number.to_le_bytes()[..len].to_vec();
        if self.is_big_endian {
            bytes.reverse();
        }
        bytes
    }

    fn offset_len(&self) -> usize {
        if self.is_big {
            8
        } else {
            4
        }
    }

    /// Returns the header, of a file whose first directory is at an offset.
    fn header(&self, first: u64) -> Vec<u8> {
        let mut header = if self.is_big_endian { b"MM" } else { b"II" }.to_vec();
        header.extend(self.number(if self.is_big { 43 } else { 42 }, 2));
        if self.is_big {
            header.extend(self.number(8, 2));
            header.extend(self.number(0, 2));
        }
        header.extend(self.number(first, self.offset_len()));
        header
    }

    /// Returns a file of one page, with these entries: tag, type, count and the bytes of the
    /// values. Those of an entry that are too many for it lie behind the directory.
    pub fn file(&self, entries: &[(u16, u16, u64, Vec<u8>)]) -> Vec<u8> {
        let len = self.offset_len();
        let start = if self.is_big { 16 } else { 8 };
        let mut file = self.header(start);
        let count_len = if self.is_big { 8 } else { 2 };
        let mut behind: Vec<u8> = Vec::new();
        let end = start as usize + count_len + entries.len() * (4 + 2 * len) + len;
        file.extend(self.number(entries.len() as u64, count_len));
        for (tag, ty, count, values) in entries {
            file.extend(self.number((*tag).into(), 2));
            file.extend(self.number((*ty).into(), 2));
            file.extend(self.number(*count, len));
            let mut field = values.clone();
            if field.len() > len {
                field = self.number((end + behind.len()) as u64, len);
                behind.extend_from_slice(values);
            }
            field.resize(len, 0);
            file.extend(field);
        }
        file.extend(self.number(0, len));
        file.extend(behind);
        file
    }

    /// Returns a file of one page of gray samples in one strip, which ends the file.
    pub fn page(&self, width: u32, height: u32, bits: u16, format: u16, samples: &[u8]) -> Vec<u8> {
        let entries = |offset: usize| {
            [
                (256, 4, 1, self.number(width.into(), 4)),
                (257, 4, 1, self.number(height.into(), 4)),
                (258, 3, 1, self.number(bits.into(), 2)),
                (262, 3, 1, self.number(1, 2)),
                (273, 4, 1, self.number(offset as u64, 4)),
                (279, 4, 1, self.number(samples.len() as u64, 4)),
                (339, 3, 1, self.number(format.into(), 2)),
            ]
        };
        let mut file = self.file(&entries(0));
        file = self.file(&entries(file.len()));
        file.extend(samples);
        file
    }
}

/// All four kinds of files.
pub const FORGES: [Forge; 4] = [
    Forge {
        is_big_endian: false,
        is_big: false,
    },
    Forge {
        is_big_endian: true,
        is_big: false,
    },
    Forge {
        is_big_endian: false,
        is_big: true,
    },
    Forge {
        is_big_endian: true,
        is_big: true,
    },
];
