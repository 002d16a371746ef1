//! The calls of the C library, over slices. All `unsafe` of this crate is here.
//!
//! The header requires of each call with pointers that none is null, that the memory that
//! the call reads stays as it is meanwhile, and that the memory that it writes lies apart from that.
//! Slices and references give all of it: their pointers are never null, also not of an empty slice;
//! nobody writes behind a `&`, and nothing else points to what is behind a `&mut`. A call reads and
//! writes no more of a slice than its length, which is passed with it, and keeps no pointer. The
//! structs below are those of the header, and each pattern of bits is a value of them, so whatever
//! a call writes into one is a value.

use std::mem::size_of_val;
use std::num::NonZeroU32;

use crate::div_ceil;

/// What is read: a file of the caller's memory, and the number of a page or the offset of a
/// directory in it.
#[derive(Clone, Copy)]
pub(crate) struct Place<'a> {
    file: &'a [u8],
    page: usize,
}

impl<'a> Place<'a> {
    /// Returns the first page.
    pub(crate) fn first(file: &'a [u8]) -> Place<'a> {
        Place { file, page: 0 }
    }

    /// Returns the directory at an offset. One at 2^63 or behind is in no file.
    pub(crate) fn at(file: &'a [u8], offset: u64) -> Place<'a> {
        Place {
            file,
            page: offset as usize | 1 << 63,
        }
    }
}

/// The number of an error.
#[derive(Clone, Copy, Debug, PartialEq, Eq)]
pub(crate) struct Fault(NonZeroU32);

impl Fault {
    /// Returns the number, as the header has it.
    pub(crate) fn number(self) -> u32 {
        self.0.get()
    }

    /// Returns the error of a status, if it is one.
    pub(crate) fn of(status: u32) -> Option<Fault> {
        NonZeroU32::new(status).map(Fault)
    }
}

/// Returns the result of a call, or its error.
fn result_of<T>(status: u32, result: T) -> Result<T, Fault> {
    match Fault::of(status) {
        None => Ok(result),
        Some(fault) => Err(fault),
    }
}

/// `struct tiff_layout`.
#[derive(Clone, Copy, Debug, Default, PartialEq, Eq)]
#[repr(C)]
pub(crate) struct Layout {
    pub(crate) len: usize,
    pub(crate) complete_len: usize,
}

/// `struct tiff_color`.
#[derive(Clone, Copy, Debug, Default, PartialEq, Eq)]
#[repr(C)]
pub(crate) struct Color {
    pub(crate) kind: u32,
    pub(crate) bits: u32,
    pub(crate) samples: u32,
}

/// `struct tiff_chunks`.
#[derive(Clone, Copy, Debug, Default, PartialEq, Eq)]
#[repr(C)]
pub(crate) struct Chunks {
    pub(crate) kind: u32,
    pub(crate) count: u32,
    pub(crate) width: u32,
    pub(crate) height: u32,
}

/// `struct tiff_listed_page`.
#[derive(Clone, Copy, Debug, Default, PartialEq, Eq)]
#[repr(C)]
pub(crate) struct ListedPage {
    pub(crate) offset: u64,
    pub(crate) status: u32,
    pub(crate) width: u32,
    pub(crate) height: u32,
    pub(crate) method: u32,
    pub(crate) color_status: u32,
    pub(crate) color: Color,
    pub(crate) chunk_kind: u32,
    pub(crate) count_status: u32,
    pub(crate) count: u32,
}

/// `struct tiff_field`.
#[derive(Clone, Copy, Debug, Default, PartialEq, Eq)]
#[repr(C)]
pub(crate) struct Field {
    pub(crate) kind: u32,
    pub(crate) count: u64,
}

/// A tag of a page that is written: its number, its type, how many values it has, and their bytes,
/// of each number the lowest byte first.
#[derive(Clone, Debug)]
pub(crate) struct NewTag {
    pub(crate) number: u16,
    pub(crate) ty: u16,
    pub(crate) count: usize,
    pub(crate) values: Vec<u8>,
}

/// A page that is written, in strips, the samples of a pixel side by side. Each number has its
/// lowest byte first.
#[derive(Clone, Debug, Default)]
pub(crate) struct NewPage {
    pub(crate) color: u32,
    pub(crate) width: u32,
    pub(crate) height: u32,
    pub(crate) rows_per_strip: u32,
    /// Whether the caller said how many rows a strip has.
    pub(crate) has_own_strips: bool,
    pub(crate) method: u16,
    pub(crate) predictor: u16,
    pub(crate) extra_samples: Vec<u16>,
    pub(crate) tags: Vec<NewTag>,
    pub(crate) samples: Vec<u8>,
}

/// The declarations of the header.
mod c {
    use super::{Chunks, Field, Layout, ListedPage};

    /// `struct tiff_image`.
    #[repr(C)]
    pub(super) struct Image {
        pub(super) color: u32,
        pub(super) width: u32,
        pub(super) height: u32,
        pub(super) version: u16,
        pub(super) method: u16,
        pub(super) predictor: u16,
    }

    /// `struct tiff_fraction`.
    #[derive(Clone, Copy)]
    #[repr(C)]
    pub(super) struct Fraction {
        pub(super) n: u32,
        pub(super) d: u32,
    }

    /// `struct tiff_new_tag`.
    #[repr(C)]
    pub(super) struct NewTag {
        pub(super) number: u16,
        pub(super) ty: u16,
        pub(super) count: usize,
        pub(super) values: *const u8,
        pub(super) values_len: usize,
    }

    /// `struct tiff_new_page`.
    #[repr(C)]
    pub(super) struct NewPage {
        pub(super) color: u32,
        pub(super) width: u32,
        pub(super) height: u32,
        pub(super) rows_per_strip: u32,
        pub(super) tile_width: u32,
        pub(super) tile_length: u32,
        pub(super) method: u16,
        pub(super) predictor: u16,
        pub(super) planar: u16,
        pub(super) resolution_unit: u16,
        pub(super) x_resolution: Fraction,
        pub(super) y_resolution: Fraction,
        pub(super) extra_samples: *const u16,
        pub(super) extra_samples_len: usize,
        pub(super) tags: *const NewTag,
        pub(super) tags_len: usize,
        pub(super) samples: *const u8,
        pub(super) samples_len: usize,
        pub(super) parent: usize,
        pub(super) tile_bytes: usize,
    }

    /// `struct tiff_pages_end`.
    #[derive(Default)]
    #[repr(C)]
    pub(super) struct PagesEnd {
        pub(super) page: usize,
        pub(super) field: u32,
    }

    extern "C" {
        pub(super) fn tiff_list_pages(
            file: *const u8,
            len: usize,
            pages: *mut ListedPage,
            capacity: usize,
            count: *mut usize,
        ) -> u32;
        pub(super) fn tiff_page_layout(
            file: *const u8,
            len: usize,
            page: usize,
            layout: *mut Layout,
        ) -> u32;
        pub(super) fn tiff_page_chunks(
            file: *const u8,
            len: usize,
            page: usize,
            chunks: *mut Chunks,
        ) -> u32;
        pub(super) fn tiff_read_image_bytes(
            file: *const u8,
            len: usize,
            page: usize,
            buffer: *mut u8,
            size: usize,
        ) -> u32;
        pub(super) fn tiff_read_chunk_bytes(
            file: *const u8,
            len: usize,
            page: usize,
            chunk: u32,
            buffer: *mut u8,
            size: usize,
        ) -> u32;
        pub(super) fn tiff_read_coding_unit_bytes(
            file: *const u8,
            len: usize,
            page: usize,
            unit: u32,
            buffer: *mut u8,
            size: usize,
        ) -> u32;
        pub(super) fn tiff_tag_field(
            file: *const u8,
            len: usize,
            page: usize,
            tag: u16,
            field: *mut Field,
        ) -> u32;
        pub(super) fn tiff_tag_number(
            file: *const u8,
            len: usize,
            page: usize,
            tag: u16,
            number: *mut u64,
        ) -> u32;
        pub(super) fn tiff_tag_numbers(
            file: *const u8,
            len: usize,
            page: usize,
            tag: u16,
            numbers: *mut u64,
            capacity: usize,
            count: *mut usize,
        ) -> u32;
        pub(super) fn tiff_tag_bytes(
            file: *const u8,
            len: usize,
            page: usize,
            tag: u16,
            at: u64,
            buffer: *mut u8,
            size: usize,
            written: *mut usize,
        ) -> u32;
        pub(super) fn tiff_tag_text(
            file: *const u8,
            len: usize,
            page: usize,
            tag: u16,
            text: *mut u8,
            size: usize,
            len_of_text: *mut usize,
        ) -> u32;
        pub(super) fn tiff_write_image(
            image: *const Image,
            samples: *const u8,
            samples_len: usize,
            buffer: *mut u8,
            size: usize,
            len: *mut usize,
        ) -> u32;
        pub(super) fn tiff_write_pages(
            version: u16,
            pages: *const NewPage,
            count: usize,
            buffer: *mut u8,
            size: usize,
            len: *mut usize,
            end: *mut PagesEnd,
        ) -> u32;
        pub(super) fn tiff_fault_text(status: u32, buffer: *mut u8, size: usize) -> usize;
    }
}

/// Lists the pages of a file: as many as fit. Returns how many there are, and the
/// error by which their chain ends.
fn list_into(file: &[u8], pages: &mut [ListedPage]) -> (usize, Option<Fault>) {
    let mut count = 0;
    // SAFETY: slices and a reference, as the head of this file says; `ListedPage` is the header's.
    let status = unsafe {
        c::tiff_list_pages(
            file.as_ptr(),
            file.len(),
            pages.as_mut_ptr(),
            pages.len(),
            &mut count,
        )
    };
    (count, Fault::of(status))
}

/// Lists the pages of a file, and returns the error by which their chain ends. A file of which no
/// page is listed has the error of its header or of its first page.
pub(crate) fn list_pages(file: &[u8]) -> (Vec<ListedPage>, Option<Fault>) {
    // Most files have few pages, so one call is enough.
    let mut pages = vec![ListedPage::default(); 8];
    let (mut count, mut end) = list_into(file, &mut pages);
    if count > pages.len() {
        pages.resize(count, ListedPage::default());
        (count, end) = list_into(file, &mut pages);
    }
    pages.truncate(count);
    (pages, end)
}

/// Returns how many bytes the image of a page has.
pub(crate) fn page_layout(place: Place<'_>) -> Result<Layout, Fault> {
    let Place { file, page } = place;
    let mut layout = Layout::default();
    // SAFETY: a slice and a reference, as the head of this file says; `Layout` is the header's.
    let status = unsafe { c::tiff_page_layout(file.as_ptr(), file.len(), page, &mut layout) };
    result_of(status, layout)
}

/// Returns the chunks of a page.
pub(crate) fn page_chunks(place: Place<'_>) -> Result<Chunks, Fault> {
    let Place { file, page } = place;
    let mut chunks = Chunks::default();
    // SAFETY: a slice and a reference, as the head of this file says; `Chunks` is the header's.
    let status = unsafe { c::tiff_page_chunks(file.as_ptr(), file.len(), page, &mut chunks) };
    result_of(status, chunks)
}

/// Reads the image of a page.
pub(crate) fn read_image(place: Place<'_>, buffer: &mut [u8]) -> Result<(), Fault> {
    let Place { file, page } = place;
    // SAFETY: slices, as the head of this file says.
    let status = unsafe {
        c::tiff_read_image_bytes(
            file.as_ptr(),
            file.len(),
            page,
            buffer.as_mut_ptr(),
            buffer.len(),
        )
    };
    result_of(status, ())
}

/// Reads a chunk of a page.
pub(crate) fn read_chunk(place: Place<'_>, chunk: u32, buffer: &mut [u8]) -> Result<(), Fault> {
    let Place { file, page } = place;
    // SAFETY: slices, as the head of this file says.
    let status = unsafe {
        c::tiff_read_chunk_bytes(
            file.as_ptr(),
            file.len(),
            page,
            chunk,
            buffer.as_mut_ptr(),
            buffer.len(),
        )
    };
    result_of(status, ())
}

/// Reads a coding unit of a page.
pub(crate) fn read_coding_unit(
    place: Place<'_>,
    unit: u32,
    buffer: &mut [u8],
) -> Result<(), Fault> {
    let Place { file, page } = place;
    // SAFETY: slices, as the head of this file says.
    let status = unsafe {
        c::tiff_read_coding_unit_bytes(
            file.as_ptr(),
            file.len(),
            page,
            unit,
            buffer.as_mut_ptr(),
            buffer.len(),
        )
    };
    result_of(status, ())
}

/// Returns the type and the count of the values of a tag.
pub(crate) fn tag_field(place: Place<'_>, tag: u16) -> Result<Field, Fault> {
    let Place { file, page } = place;
    let mut field = Field::default();
    // SAFETY: a slice and a reference, as the head of this file says; `Field` is the header's.
    let status = unsafe { c::tiff_tag_field(file.as_ptr(), file.len(), page, tag, &mut field) };
    result_of(status, field)
}

/// Returns the value of a tag that has one, an unsigned number.
pub(crate) fn tag_number(place: Place<'_>, tag: u16) -> Result<u64, Fault> {
    let Place { file, page } = place;
    let mut number = 0;
    // SAFETY: a slice and a reference, as the head of this file says.
    let status = unsafe { c::tiff_tag_number(file.as_ptr(), file.len(), page, tag, &mut number) };
    result_of(status, number)
}

/// Puts the values of a tag, unsigned numbers, into a slice, and returns how many there are.
fn numbers_into(place: Place<'_>, tag: u16, numbers: &mut [u64]) -> Result<usize, Fault> {
    let Place { file, page } = place;
    let mut count = 0;
    // SAFETY: slices and a reference, as the head of this file says.
    let status = unsafe {
        c::tiff_tag_numbers(
            file.as_ptr(),
            file.len(),
            page,
            tag,
            numbers.as_mut_ptr(),
            numbers.len(),
            &mut count,
        )
    };
    result_of(status, count)
}

/// Returns the values of a tag, unsigned numbers.
pub(crate) fn tag_numbers(place: Place<'_>, tag: u16) -> Result<Vec<u64>, Fault> {
    let mut numbers = vec![0; 8];
    let mut count = numbers_into(place, tag, &mut numbers)?;
    if count > numbers.len() {
        numbers.resize(count, 0);
        count = numbers_into(place, tag, &mut numbers)?;
    }
    numbers.truncate(count);
    Ok(numbers)
}

/// Copies bytes of the values of a tag, from byte `at` on, and returns how many.
pub(crate) fn tag_bytes(
    place: Place<'_>,
    tag: u16,
    at: u64,
    buffer: &mut [u8],
) -> Result<usize, Fault> {
    let Place { file, page } = place;
    let mut written = 0;
    // SAFETY: slices and a reference, as the head of this file says.
    let status = unsafe {
        c::tiff_tag_bytes(
            file.as_ptr(),
            file.len(),
            page,
            tag,
            at,
            buffer.as_mut_ptr(),
            buffer.len(),
            &mut written,
        )
    };
    result_of(status, written)
}

/// Returns the text of a tag that has so many values.
pub(crate) fn tag_text(place: Place<'_>, tag: u16, count: usize) -> Result<Vec<u8>, Fault> {
    let Place { file, page } = place;
    let mut text = vec![0; count];
    let mut len = 0;
    // SAFETY: slices and a reference, as the head of this file says.
    let status = unsafe {
        c::tiff_tag_text(
            file.as_ptr(),
            file.len(),
            page,
            tag,
            text.as_mut_ptr(),
            text.len(),
            &mut len,
        )
    };
    text.truncate(len);
    result_of(status, text)
}

/// `TIFF_INSUFFICIENT_OUTPUT_BUFFER_SIZE` of the header.
const BUFFER_TOO_SHORT: u32 = 67;

/// `TIFF_CHUNKY` of the header.
const CHUNKY: u16 = 1;

impl NewTag {
    /// Returns the tag as the header has it, with a pointer to its values.
    fn to_c(&self) -> c::NewTag {
        c::NewTag {
            number: self.number,
            ty: self.ty,
            count: self.count,
            values: self.values.as_ptr(),
            values_len: self.values.len(),
        }
    }
}

impl NewPage {
    /// Returns the page as the header has it, with pointers to its lists and to these tags. The
    /// resolutions of a page are among its tags, so it names no unit.
    fn to_c(&self, tags: &[c::NewTag]) -> c::NewPage {
        let none = c::Fraction { n: 0, d: 1 };
        c::NewPage {
            color: self.color,
            width: self.width,
            height: self.height,
            rows_per_strip: self.rows_per_strip,
            tile_width: 0,
            tile_length: 0,
            method: self.method,
            predictor: self.predictor,
            planar: CHUNKY,
            resolution_unit: 0,
            x_resolution: none,
            y_resolution: none,
            extra_samples: self.extra_samples.as_ptr(),
            extra_samples_len: self.extra_samples.len(),
            tags: tags.as_ptr(),
            tags_len: tags.len(),
            samples: self.samples.as_ptr(),
            samples_len: self.samples.len(),
            parent: 0,
            tile_bytes: 0,
        }
    }

    /// Tells whether the page has nothing but its samples.
    fn is_plain(&self) -> bool {
        !self.has_own_strips && self.extra_samples.is_empty() && self.tags.is_empty()
    }

    /// Returns how many bytes the page most likely has in a file, or a few more: PackBits adds one
    /// to 128 bytes at most, and one to each row; a strip has an offset and a count, and a tag a
    /// field and its values.
    fn expected_len(&self) -> usize {
        let strips = div_ceil(self.height, self.rows_per_strip.max(1)) as usize;
        let tags: usize = self.tags.iter().map(|tag| 32 + tag.values.len()).sum();
        let samples = self.samples.len();
        1024 + samples + samples / 64 + self.height as usize + 24 * strips + tags
    }
}

/// Returns the file that a call writes into a buffer: one of the expected length, or else of the
/// length that the call returns.
fn written(expected: usize, call: impl Fn(&mut [u8], &mut usize) -> u32) -> Result<Vec<u8>, Fault> {
    let mut file = vec![0; expected];
    let mut len = 0;
    let mut status = call(&mut file, &mut len);
    if status == BUFFER_TOO_SHORT {
        file.resize(len, 0);
        status = call(&mut file, &mut len);
    }
    file.truncate(len);
    result_of(status, file)
}

/// Returns a file of one image, with a version in its header. The image has no tags of its own and
/// no extra samples, and the library says how many rows its strips have.
fn write_image(version: u16, page: &NewPage) -> Result<Vec<u8>, Fault> {
    let image = c::Image {
        color: page.color,
        width: page.width,
        height: page.height,
        version,
        method: page.method,
        predictor: page.predictor,
    };
    written(page.expected_len(), |buffer, len| {
        // SAFETY: slices and references, as the head of this file says; `Image` is the header's.
        unsafe {
            c::tiff_write_image(
                &image,
                page.samples.as_ptr(),
                page.samples.len(),
                buffer.as_mut_ptr(),
                buffer.len(),
                len,
            )
        }
    })
}

/// Returns a file of pages, with a version in its header.
pub(crate) fn write_pages(version: u16, pages: &[NewPage]) -> Result<Vec<u8>, Fault> {
    // The library writes the same file by both calls, and an image by itself in less memory.
    if let [page] = pages {
        if page.is_plain() {
            return write_image(version, page);
        }
    }
    let tags: Vec<Vec<c::NewTag>> = pages
        .iter()
        .map(|page| page.tags.iter().map(NewTag::to_c).collect())
        .collect();
    let c_pages: Vec<c::NewPage> = pages
        .iter()
        .zip(&tags)
        .map(|(page, tags)| page.to_c(tags))
        .collect();
    let expected = pages.iter().map(NewPage::expected_len).sum::<usize>() + 16;
    written(expected, |buffer, len| {
        let mut end = c::PagesEnd::default();
        // SAFETY: slices and references, as the head of this file says; the structs are the
        // header's. Their pointers are those of slices of `pages` and `tags`, with their lengths,
        // which are borrowed here until the call ends.
        unsafe {
            c::tiff_write_pages(
                version,
                c_pages.as_ptr(),
                c_pages.len(),
                buffer.as_mut_ptr(),
                buffer.len(),
                len,
                &mut end,
            )
        }
    })
}

/// Returns the library's text of an error.
pub(crate) fn fault_text(fault: Fault) -> String {
    let mut text = [0; 128];
    // SAFETY: a slice, as the head of this file says.
    let len = unsafe { c::tiff_fault_text(fault.number(), text.as_mut_ptr(), text.len()) };
    String::from_utf8_lossy(&text[..len.min(text.len())]).into_owned()
}

/// A number type without padding, of which each pattern of bits is a value.
///
/// # Safety
///
/// That has to be true of the type.
pub(crate) unsafe trait Plain: Copy + Default {}

macro_rules! plain {
    ($($number:ty)*) => {
        // SAFETY: the numbers of the language are such types, and `f16` is a `u16` in its memory.
        $(unsafe impl Plain for $number {})*
    };
}

plain!(u8 u16 u32 u64 i8 i16 i32 i64 f32 f64 crate::half::f16);

/// Returns the bytes of numbers.
pub(crate) fn bytes_of<T: Plain>(numbers: &[T]) -> &[u8] {
    // SAFETY: the memory of the slice, of the same length in bytes; a byte is aligned anywhere, and
    // without padding each byte has a value.
    unsafe { std::slice::from_raw_parts(numbers.as_ptr().cast(), size_of_val(numbers)) }
}

/// Returns the bytes of numbers, to be changed.
pub(crate) fn bytes_of_mut<T: Plain>(numbers: &mut [T]) -> &mut [u8] {
    // SAFETY: as above, borrowed for as long; whatever bytes are written make numbers.
    unsafe { std::slice::from_raw_parts_mut(numbers.as_mut_ptr().cast(), size_of_val(numbers)) }
}

#[cfg(test)]
mod tests {
    use std::mem::{align_of, size_of};

    use super::*;

    #[test]
    fn structs_are_laid_out_as_in_the_header() {
        assert_eq!((size_of::<Layout>(), size_of::<Color>()), (16, 12));
        assert_eq!((size_of::<Chunks>(), size_of::<Field>()), (16, 16));
        assert_eq!((size_of::<ListedPage>(), align_of::<ListedPage>()), (56, 8));
        assert_eq!((size_of::<c::Image>(), align_of::<c::Image>()), (20, 4));
        assert_eq!((size_of::<c::NewTag>(), size_of::<c::PagesEnd>()), (32, 16));
        assert_eq!((size_of::<c::NewPage>(), align_of::<c::NewPage>()), (112, 8));
    }

    #[test]
    fn numbers_are_seen_as_bytes() {
        let mut numbers = [0x0102u16, 0x0304];
        let expected: Vec<u8> = numbers.iter().flat_map(|n| n.to_ne_bytes()).collect();
        assert_eq!(bytes_of(&numbers), expected);
        bytes_of_mut(&mut numbers)[..2].copy_from_slice(&7u16.to_ne_bytes());
        assert_eq!(numbers, [7, 0x0304]);
        assert!(bytes_of::<f64>(&[]).is_empty());
    }
}
