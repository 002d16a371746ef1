//! Reads the pages of a file.

use std::io::{self, Read, Seek, SeekFrom};

use self::file::File;
use self::ifd::Value;
use self::image::{Image, Part};
use crate::ffi::{self, Fault, ListedPage};
use crate::tags::{ByteOrder, IfdPointer, Tag};
use crate::{ColorType, Directory, TiffError, TiffFormatError, TiffResult, UsageError};

mod buffer;
mod file;
pub mod ifd;
mod ifd_decoder;
mod image;

pub use self::buffer::{
    BufferLayoutPreference, DecodingBuffer, DecodingResult, DecodingSampleType,
};
pub use self::ifd_decoder::IfdDecoder;

/// The number of a coding unit: a chunk of the first plane, with the chunks of the other planes
/// that cover the same pixels.
#[derive(Clone, Copy, Debug, PartialEq, Eq, Hash)]
pub struct TiffCodingUnit(pub u32);

/// How an image is cut.
#[derive(Debug, Copy, Clone, PartialEq)]
pub enum ChunkType {
    /// Into strips of rows.
    Strip,
    /// Into tiles.
    Tile,
}

/// How much memory a decoder takes by what a file claims. The file itself doesn't count.
#[derive(Clone, Debug)]
#[non_exhaustive]
pub struct Limits {
    /// How many bytes the samples or the values may have that a call returns.
    pub decoding_buffer_size: usize,
    /// No call needs it.
    pub ifd_value_size: usize,
    /// How many bytes a chunk may have in the file.
    pub intermediate_buffer_size: usize,
}

impl Limits {
    /// Returns no limits. The C library has some that stay: see README.md.
    pub fn unlimited() -> Limits {
        Limits {
            decoding_buffer_size: usize::MAX,
            ifd_value_size: usize::MAX,
            intermediate_buffer_size: usize::MAX,
        }
    }
}

impl Default for Limits {
    fn default() -> Limits {
        Limits {
            decoding_buffer_size: 256 << 20,
            ifd_value_size: 1 << 20,
            intermediate_buffer_size: 128 << 20,
        }
    }
}

/// Reads the pages of a file.
///
/// A decoder reads all bytes of `R` into memory as it is made, and then reads pages and tags of
/// that memory: what changes in `R` later isn't seen. Only `inner`, `goto_offset` and the calls that
/// read single numbers, such as `read_byte`, read `R` itself.
#[derive(Debug)]
pub struct Decoder<R>
where
    R: Read + Seek,
{
    reader: R,
    file: File,
    limits: Limits,
    /// The pages of the chain of directories, also those that are refused.
    pages: Vec<ListedPage>,
    /// The error by which the chain ends, if it does by one.
    end: Option<Fault>,
    /// The directory of the chain that was entered last.
    current: Option<usize>,
    /// The one that comes next: behind the last page, the error.
    next: Option<usize>,
    /// How many directories of the chain were entered: `seek_to_image` goes to them at once.
    known: usize,
    image: Image,
}

/// The error of a page that isn't in the chain.
fn not_found<T>() -> TiffResult<T> {
    Err(TiffFormatError::ImageFileDirectoryNotFound.into())
}

/// Returns which directory comes behind the one with this index.
fn behind(index: usize, pages: &[ListedPage], end: Option<Fault>) -> Option<usize> {
    let next = index + 1;
    (next < pages.len() || end.is_some()).then_some(next)
}

/// Asks what a page is.
fn load(file: &File, index: usize, page: ListedPage) -> TiffResult<Image> {
    match Fault::of(page.status) {
        None => Image::new(file, index, page),
        Some(fault) => Err(file.page_fault(fault, IfdPointer(page.offset))),
    }
}

/// Refuses a buffer that is shorter than a plane.
fn enough(needed: usize, buffer: &[u8]) -> TiffResult<()> {
    let provided = buffer.len();
    if provided < needed {
        return Err(UsageError::InsufficientOutputBufferSize { needed, provided }.into());
    }
    Ok(())
}

/// Returns the numbers of the chunks of the first planes, of as many as fit into a buffer.
fn chunks_of(planes: usize, chunks: u32, per_plane: u32, first: u32) -> impl Iterator<Item = u32> {
    let plane = (0..).map(move |plane: u32| first.saturating_add(plane.saturating_mul(per_plane)));
    plane
        .take(planes)
        .flat_map(move |first| first..first.saturating_add(chunks))
}

/// Moves rows of bytes, which lie side by side at the front of a buffer, so that one begins every
/// `stride` bytes. Between them come zeros.
fn spread(buffer: &mut [u8], part: &Part, stride: usize) {
    if stride == part.row {
        return;
    }
    for index in (0..part.height as usize).rev() {
        let (from, to) = (index * part.row, index * stride);
        buffer.copy_within(from..from + part.row, to);
        buffer[to + part.row..to + stride].fill(0);
    }
}

impl<R: Read + Seek> Decoder<R> {
    /// Reads a file from its start to its end, and goes to its first page.
    pub fn new(mut r: R) -> TiffResult<Decoder<R>> {
        let mut bytes = Vec::new();
        r.seek(SeekFrom::Start(0))?;
        r.read_to_end(&mut bytes)?;
        let file = File::new(bytes);
        let (pages, end) = ffi::list_pages(file.bytes());
        let first = match (pages.first(), end) {
            (Some(&first), _) => first,
            (None, Some(fault)) => return Err(file.first_fault(fault)),
            (None, None) => return not_found(),
        };
        let image = load(&file, 0, first)?;
        Ok(Decoder {
            reader: r,
            file,
            limits: Limits::default(),
            current: Some(0),
            next: behind(0, &pages, end),
            known: 1,
            pages,
            end,
            image,
        })
    }

    /// Returns the decoder with these limits.
    pub fn with_limits(mut self, limits: Limits) -> Decoder<R> {
        self.limits = limits;
        self
    }

    /// Returns the width and the height of the page, in pixels.
    pub fn dimensions(&mut self) -> TiffResult<(u32, u32)> {
        Ok(self.image.dimensions())
    }

    /// Returns the color of the page.
    pub fn colortype(&mut self) -> TiffResult<ColorType> {
        self.image.color(&self.file)
    }

    /// Returns the offset of the directory that was entered last. After `seek_to_image` of a page
    /// that isn't there, there is none.
    pub fn ifd_pointer(&mut self) -> Option<IfdPointer> {
        self.current
            .map(|index| IfdPointer(self.pages[index].offset))
    }

    /// Goes to the page with a number of the chain, from 0.
    pub fn seek_to_image(&mut self, ifd_index: usize) -> TiffResult<()> {
        if ifd_index >= self.known {
            if self.next.is_none() {
                self.current = None;
                return not_found();
            }
            loop {
                self.enter_next()?;
                if self.next.is_none() || ifd_index < self.known {
                    break;
                }
            }
        }
        if ifd_index >= self.known {
            return not_found();
        }
        self.current = Some(ifd_index);
        self.next = behind(ifd_index, &self.pages, self.end);
        self.image = load(&self.file, ifd_index, self.pages[ifd_index])?;
        Ok(())
    }

    /// Enters the directory that comes next in the chain, and returns its index.
    fn enter_next(&mut self) -> TiffResult<usize> {
        let index = match self.next.take() {
            Some(index) => index,
            None => return not_found(),
        };
        if index >= self.pages.len() {
            return match self.end {
                Some(fault) => Err(self.file.fault(fault)),
                None => not_found(),
            };
        }
        self.known = self.known.max(index + 1);
        self.current = Some(index);
        self.next = behind(index, &self.pages, self.end);
        Ok(index)
    }

    /// Goes to the next page of the chain. A page that is refused is passed: the next call goes to
    /// the one behind it.
    pub fn next_image(&mut self) -> TiffResult<()> {
        let index = self.enter_next()?;
        self.image = load(&self.file, index, self.pages[index])?;
        Ok(())
    }

    /// Tells whether the directory has a link to another.
    pub fn more_images(&self) -> bool {
        self.next.is_some()
    }

    /// Returns the byte order of the file.
    pub fn byte_order(&self) -> ByteOrder {
        self.file.order
    }

    /// Reads an offset where the reader is: 32 bits, in BigTIFF 64.
    #[inline]
    pub fn read_ifd_offset(&mut self) -> Result<u64, io::Error> {
        if self.file.is_big {
            self.read_long8()
        } else {
            self.read_long().map(u64::from)
        }
    }

    /// Returns the reader. What is written there isn't seen by the decoder.
    pub fn inner(&mut self) -> &mut R {
        &mut self.reader
    }

    /// Reads bytes where the reader is.
    fn read_bytes<const N: usize>(&mut self) -> Result<[u8; N], io::Error> {
        let mut bytes = [0; N];
        self.reader.read_exact(&mut bytes)?;
        Ok(bytes)
    }

    /// Reads a number where the reader is, and returns its bytes in this machine's byte order.
    fn read_number<const N: usize>(&mut self) -> Result<[u8; N], io::Error> {
        let mut number = self.read_bytes()?;
        self.file
            .order
            .convert_numbers(N, &mut number, ByteOrder::native());
        Ok(number)
    }

    /// Reads a number where the reader is.
    #[inline]
    pub fn read_byte(&mut self) -> Result<u8, io::Error> {
        Ok(u8::from_ne_bytes(self.read_bytes()?))
    }

    /// Reads a number where the reader is.
    #[inline]
    pub fn read_short(&mut self) -> Result<u16, io::Error> {
        Ok(u16::from_ne_bytes(self.read_number()?))
    }

    /// Reads a number where the reader is.
    #[inline]
    pub fn read_sshort(&mut self) -> Result<i16, io::Error> {
        Ok(i16::from_ne_bytes(self.read_number()?))
    }

    /// Reads a number where the reader is.
    #[inline]
    pub fn read_long(&mut self) -> Result<u32, io::Error> {
        Ok(u32::from_ne_bytes(self.read_number()?))
    }

    /// Reads a number where the reader is.
    #[inline]
    pub fn read_slong(&mut self) -> Result<i32, io::Error> {
        Ok(i32::from_ne_bytes(self.read_number()?))
    }

    /// Reads a number where the reader is.
    #[inline]
    pub fn read_float(&mut self) -> Result<f32, io::Error> {
        Ok(f32::from_ne_bytes(self.read_number()?))
    }

    /// Reads a number where the reader is.
    #[inline]
    pub fn read_double(&mut self) -> Result<f64, io::Error> {
        Ok(f64::from_ne_bytes(self.read_number()?))
    }

    /// Reads a number where the reader is.
    #[inline]
    pub fn read_long8(&mut self) -> Result<u64, io::Error> {
        Ok(u64::from_ne_bytes(self.read_number()?))
    }

    /// Reads a number where the reader is.
    #[inline]
    pub fn read_slong8(&mut self) -> Result<i64, io::Error> {
        Ok(i64::from_ne_bytes(self.read_number()?))
    }

    /// Reads `length` bytes where the reader is, and returns the text before their first zero.
    #[inline]
    pub fn read_string(&mut self, length: usize) -> TiffResult<String> {
        let mut text = Vec::new();
        let read = self
            .reader
            .by_ref()
            .take(length as u64)
            .read_to_end(&mut text)?;
        if read < length {
            return Err(file::ends_early());
        }
        if let Some(end) = text.iter().position(|&byte| byte == 0) {
            text.truncate(end);
        }
        Ok(String::from_utf8(text)?)
    }

    /// Reads the bytes of an offset of a classic file where the reader is.
    #[inline]
    pub fn read_offset(&mut self) -> TiffResult<[u8; 4]> {
        if self.file.is_big {
            return Err(TiffFormatError::InconsistentSizesEncountered.into());
        }
        Ok(self.read_bytes()?)
    }

    /// Reads the bytes of an offset of a BigTIFF file where the reader is.
    #[inline]
    pub fn read_offset_u64(&mut self) -> Result<[u8; 8], io::Error> {
        self.read_bytes()
    }

    /// Moves the reader.
    #[inline]
    pub fn goto_offset(&mut self, offset: u32) -> io::Result<()> {
        self.goto_offset_u64(offset.into())
    }

    /// Moves the reader.
    #[inline]
    pub fn goto_offset_u64(&mut self, offset: u64) -> io::Result<()> {
        self.reader.seek(SeekFrom::Start(offset)).map(|_| ())
    }

    /// Reads the directory at an offset, which need not be a page.
    pub fn read_directory(&mut self, ptr: IfdPointer) -> TiffResult<Directory> {
        self.file.directory(ptr)
    }

    /// Returns the kind of the page's chunks.
    pub fn get_chunk_type(&self) -> ChunkType {
        self.image.chunk_type()
    }

    /// Returns how many strips the page has, in all planes.
    pub fn strip_count(&mut self) -> TiffResult<u32> {
        self.image.chunk_count(&self.file, ChunkType::Strip)
    }

    /// Returns how many tiles the page has, in all planes.
    pub fn tile_count(&mut self) -> TiffResult<u32> {
        self.image.chunk_count(&self.file, ChunkType::Tile)
    }

    /// Returns how the samples of a chunk lie, in the buffer of their number type that `read_chunk`
    /// returns.
    pub fn image_chunk_buffer_layout(
        &mut self,
        chunk_index: u32,
    ) -> TiffResult<BufferLayoutPreference> {
        let part = self.image.part(&self.file, chunk_index)?;
        self.image.part_layout(&part)
    }

    /// Returns how the samples of a coding unit lie, plane by plane.
    pub fn image_coding_unit_layout(
        &mut self,
        code_unit: TiffCodingUnit,
    ) -> TiffResult<BufferLayoutPreference> {
        if !self.image.is_planar() {
            return self.image_chunk_buffer_layout(code_unit.0);
        }
        let part = self.image.part(&self.file, code_unit.0)?;
        let layout = self.image.unit_layout(&part)?;
        self.is_unit(code_unit)?;
        Ok(layout)
    }

    /// Refuses the number of a coding unit that the page doesn't have.
    fn is_unit(&self, unit: TiffCodingUnit) -> TiffResult<()> {
        let have = self.image.chunks_per_plane();
        if unit.0 >= have {
            return Err(UsageError::InvalidCodingUnit(unit.0, have).into());
        }
        Ok(())
    }

    /// Reads a chunk into the front of a buffer, which is long enough.
    fn read_part(&mut self, chunk: u32, part: &Part, buffer: &mut [u8]) -> TiffResult<()> {
        let limit = self.limits.intermediate_buffer_size;
        self.image
            .within(&self.file, limit, std::iter::once(chunk))?;
        ffi::read_chunk(self.image.place(&self.file), chunk, buffer)
            .map_err(|fault| self.image.fault(&self.file, fault))?;
        self.image.turn(&mut buffer[..part.len]);
        Ok(())
    }

    /// Reads a chunk, as it is in the image, cut at its edges, and in one plane.
    pub fn read_chunk(&mut self, chunk_index: u32) -> TiffResult<DecodingResult> {
        let part = self.image.part(&self.file, chunk_index)?;
        self.image.complete_len(&part)?;
        let ty = self.image.sample_type()?;
        let mut result = DecodingResult::new(ty, part.len, &self.limits)?;
        let mut buffer = result.as_buffer(0);
        self.read_part(chunk_index, &part, buffer.as_bytes_mut())?;
        Ok(result)
    }

    /// Reads a chunk into a buffer, as [`Decoder::read_chunk`] does. Numbers are in the byte order
    /// of this machine.
    pub fn read_chunk_bytes(&mut self, chunk_index: u32, buffer: &mut [u8]) -> TiffResult<()> {
        let part = self.image.part(&self.file, chunk_index)?;
        self.image.complete_len(&part)?;
        enough(part.len, buffer)?;
        self.read_part(chunk_index, &part, buffer)
    }

    /// Reads a chunk into a buffer, which gets as many samples, with a row every `output_width`
    /// bytes and zeros between the rows.
    pub fn read_chunk_to_buffer(
        &mut self,
        buffer: &mut DecodingResult,
        chunk_index: u32,
        output_width: usize,
    ) -> TiffResult<()> {
        let part = self.image.part(&self.file, chunk_index)?;
        self.image.complete_len(&part)?;
        if output_width < part.row {
            return Err(UsageError::InsufficientOutputRowStride {
                needed: part.row,
                requested: output_width,
            }
            .into());
        }
        let len = output_width
            .checked_mul(part.height as usize)
            .ok_or(TiffError::LimitsExceeded)?;
        buffer.resize(self.image.sample_type()?, len, &self.limits)?;
        let mut view = buffer.as_buffer(0);
        let bytes = view.as_bytes_mut();
        self.read_part(chunk_index, &part, bytes)?;
        spread(bytes, &part, output_width);
        Ok(())
    }

    /// Reads a coding unit into a buffer: its planes one behind the other, as many as fit whole.
    pub fn read_coding_unit_bytes(
        &mut self,
        slice: TiffCodingUnit,
        buffer: &mut [u8],
    ) -> TiffResult<()> {
        let part = self.image.part(&self.file, slice.0)?;
        let complete_len = self.image.complete_len(&part)?;
        self.is_unit(slice)?;
        enough(part.len, buffer)?;
        let len = complete_len.min(buffer.len() / part.len * part.len);
        let per_plane = self.image.chunks_per_plane();
        let chunks = chunks_of(len / part.len, 1, per_plane, slice.0);
        let limit = self.limits.intermediate_buffer_size;
        self.image.within(&self.file, limit, chunks)?;
        ffi::read_coding_unit(self.image.place(&self.file), slice.0, buffer)
            .map_err(|fault| self.image.fault(&self.file, fault))?;
        self.image.turn(&mut buffer[..len]);
        Ok(())
    }

    /// Returns the width and the height of a chunk that isn't cut.
    pub fn chunk_dimensions(&self) -> (u32, u32) {
        self.image.chunk_dimensions
    }

    /// Returns the width and the height of a chunk as it is in the image, cut at its edges.
    pub fn chunk_data_dimensions(&self, chunk_index: u32) -> (u32, u32) {
        self.image.chunk_data_dimensions(chunk_index)
    }

    /// Returns how the samples of the image lie in a buffer.
    pub fn image_buffer_layout(&mut self) -> TiffResult<BufferLayoutPreference> {
        self.image.buffer_layout(&self.file)
    }

    /// Reads the image; of a page in planes, the first plane.
    pub fn read_image(&mut self) -> TiffResult<DecodingResult> {
        let layout = self.image.layout(&self.file)?;
        let ty = self.image.sample_type()?;
        let mut result = DecodingResult::new(ty, layout.len, &self.limits)?;
        self.read_image_bytes(result.as_buffer(0).as_bytes_mut())?;
        Ok(result)
    }

    /// Reads the image into a buffer, which gets as many samples: all planes, or the first one if
    /// the limit doesn't allow for all.
    pub fn read_image_to_buffer(
        &mut self,
        result: &mut DecodingResult,
    ) -> TiffResult<BufferLayoutPreference> {
        let layout = self.image.buffer_layout(&self.file)?;
        let len = if layout.complete_len <= self.limits.decoding_buffer_size {
            layout.complete_len
        } else {
            layout.len
        };
        result.resize(self.image.sample_type()?, len, &self.limits)?;
        self.read_image_bytes(result.as_buffer(0).as_bytes_mut())?;
        Ok(layout)
    }

    /// Reads the image into a buffer: its planes one behind the other, as many as fit whole.
    /// Numbers are in the byte order of this machine.
    pub fn read_image_bytes(&mut self, buffer: &mut [u8]) -> TiffResult<()> {
        let layout = self.image.layout(&self.file)?;
        enough(layout.len, buffer)?;
        let len = layout
            .complete_len
            .min(buffer.len() / layout.len * layout.len);
        let per_plane = self.image.chunks_per_plane();
        let chunks = chunks_of(len / layout.len, per_plane, per_plane, 0);
        let limit = self.limits.intermediate_buffer_size;
        self.image.within(&self.file, limit, chunks)?;
        ffi::read_image(self.image.place(&self.file), buffer)
            .map_err(|fault| self.image.fault(&self.file, fault))?;
        self.image.turn(&mut buffer[..len]);
        Ok(())
    }

    /// Returns what reads the tags of the page.
    pub fn image_ifd(&mut self) -> IfdDecoder<'_> {
        let place = self.image.place(&self.file);
        IfdDecoder::new(&self.file, &self.limits, &self.image.directory, Some(place))
    }

    /// Returns what reads the tags of a directory that [`Decoder::read_directory`] returned. Those
    /// of any other directory are refused, by an [`io::Error`] of the kind
    /// [`Unsupported`](io::ErrorKind::Unsupported).
    pub fn read_directory_tags<'ifd>(&'ifd mut self, ifd: &'ifd Directory) -> IfdDecoder<'ifd> {
        let place = ifd.place.map(|pointer| self.file.place(pointer));
        IfdDecoder::new(&self.file, &self.limits, ifd, place)
    }

    /// Returns the value of a tag of the page, if there is the tag.
    pub fn find_tag(&mut self, tag: Tag) -> TiffResult<Option<Value>> {
        self.image_ifd().find_tag(tag)
    }

    /// Returns the value of a tag of the page as an unsigned number, if there is the tag.
    pub fn find_tag_unsigned<T: TryFrom<u64>>(&mut self, tag: Tag) -> TiffResult<Option<T>> {
        self.image_ifd().find_tag_unsigned(tag)
    }

    /// Returns the values of a tag of the page as unsigned numbers, if there is the tag.
    pub fn find_tag_unsigned_vec<T: TryFrom<u64>>(
        &mut self,
        tag: Tag,
    ) -> TiffResult<Option<Vec<T>>> {
        self.image_ifd().find_tag_unsigned_vec(tag)
    }

    /// Returns the value of a tag of the page as an unsigned number.
    pub fn get_tag_unsigned<T: TryFrom<u64>>(&mut self, tag: Tag) -> TiffResult<T> {
        self.image_ifd().get_tag_unsigned(tag)
    }

    /// Returns the value of a tag of the page.
    pub fn get_tag(&mut self, tag: Tag) -> TiffResult<Value> {
        self.image_ifd().get_tag(tag)
    }

    /// Returns the value of a tag of the page, by [`Value::into_u32`].
    pub fn get_tag_u32(&mut self, tag: Tag) -> TiffResult<u32> {
        self.get_tag(tag)?.into_u32()
    }

    /// Returns the value of a tag of the page, by [`Value::into_u64`].
    pub fn get_tag_u64(&mut self, tag: Tag) -> TiffResult<u64> {
        self.get_tag(tag)?.into_u64()
    }

    /// Returns the value of a tag of the page, by [`Value::into_f32`].
    pub fn get_tag_f32(&mut self, tag: Tag) -> TiffResult<f32> {
        self.get_tag(tag)?.into_f32()
    }

    /// Returns the value of a tag of the page, by [`Value::into_f64`].
    pub fn get_tag_f64(&mut self, tag: Tag) -> TiffResult<f64> {
        self.get_tag(tag)?.into_f64()
    }

    /// Returns the values of a tag of the page, by [`Value::into_u32_vec`].
    pub fn get_tag_u32_vec(&mut self, tag: Tag) -> TiffResult<Vec<u32>> {
        self.get_tag(tag)?.into_u32_vec()
    }

    /// Returns the values of a tag of the page, by [`Value::into_u16_vec`].
    pub fn get_tag_u16_vec(&mut self, tag: Tag) -> TiffResult<Vec<u16>> {
        self.get_tag(tag)?.into_u16_vec()
    }

    /// Returns the values of a tag of the page, by [`Value::into_u64_vec`].
    pub fn get_tag_u64_vec(&mut self, tag: Tag) -> TiffResult<Vec<u64>> {
        self.get_tag(tag)?.into_u64_vec()
    }

    /// Returns the values of a tag of the page, by [`Value::into_f32_vec`].
    pub fn get_tag_f32_vec(&mut self, tag: Tag) -> TiffResult<Vec<f32>> {
        self.get_tag(tag)?.into_f32_vec()
    }

    /// Returns the values of a tag of the page, by [`Value::into_f64_vec`].
    pub fn get_tag_f64_vec(&mut self, tag: Tag) -> TiffResult<Vec<f64>> {
        self.get_tag(tag)?.into_f64_vec()
    }

    /// Returns the values of a tag of the page, by [`Value::into_u8_vec`].
    pub fn get_tag_u8_vec(&mut self, tag: Tag) -> TiffResult<Vec<u8>> {
        self.get_tag(tag)?.into_u8_vec()
    }

    /// Returns the text of a tag of the page.
    pub fn get_tag_ascii_string(&mut self, tag: Tag) -> TiffResult<String> {
        self.get_tag(tag)?.into_string()
    }

    /// Goes through the tags of the page and their values, in the order of the tags' numbers.
    pub fn tag_iter(&mut self) -> impl Iterator<Item = TiffResult<(Tag, Value)>> + '_ {
        self.image_ifd().tag_iter()
    }
}
