//! The page that a decoder is at.

use std::num::NonZeroUsize;

use super::buffer::{BufferLayoutPreference, DecodingSampleType};
use super::file::File;
use super::ifd_decoder::NO_SUCH_TAG;
use super::ChunkType;
use crate::ffi::{self, Color, Fault, Layout, ListedPage, Place};
use crate::tags::{ByteOrder, IfdPointer, PlanarConfiguration, SampleFormat, Tag};
use crate::{
    div_ceil, ColorType, Directory, TiffError, TiffResult, TiffUnsupportedError, UsageError,
};

/// `TIFF_INT_SIZE_ERROR` and `TIFF_CHROMA_SUBSAMPLING` of the header.
const INT_SIZE_ERROR: u32 = 2;
const CHROMA_SUBSAMPLING: u32 = 54;

/// What the C library returns for a page.
#[derive(Debug)]
pub(super) struct Image {
    is_first: bool,
    facts: ListedPage,
    pub(super) directory: Directory,
    pub(super) chunk_dimensions: (u32, u32),
    is_planar: bool,
    samples: u16,
    format: SampleFormat,
    /// How many bytes each chunk has in the file, once that was read.
    stored: Option<Vec<u64>>,
}

/// A part of a plane of an image: how many bytes a row of it has, and how many all rows.
pub(super) struct Part {
    pub(super) height: u32,
    pub(super) row: usize,
    pub(super) len: usize,
}

/// Returns a color by its numbers for C.
fn color_of(color: Color) -> ColorType {
    let bits = color.bits as u8;
    match color.kind {
        0 => ColorType::Gray(bits),
        1 => ColorType::RGB(bits),
        2 => ColorType::Palette(bits),
        3 => ColorType::GrayA(bits),
        4 => ColorType::RGBA(bits),
        5 => ColorType::CMYK(bits),
        6 => ColorType::CMYKA(bits),
        7 => ColorType::YCbCr(bits),
        8 => ColorType::Lab(bits),
        _ => ColorType::Multiband {
            bit_depth: bits,
            num_samples: color.samples as u16,
        },
    }
}

impl Image {
    /// Asks what a page is, which is not refused.
    pub(super) fn new(file: &File, index: usize, facts: ListedPage) -> TiffResult<Image> {
        let pointer = IfdPointer(facts.offset);
        let mut image = Image {
            is_first: index == 0,
            facts,
            directory: file.directory(pointer)?,
            chunk_dimensions: (facts.width, facts.height),
            is_planar: false,
            samples: 1,
            format: SampleFormat::Uint,
            stored: None,
        };
        let place = image.place(file);
        let number = |tag: Tag| absent(ffi::tag_number(place, tag.to_u16()));
        let fault = |fault| file.fault_of(fault, &image.directory, None);
        let planar = number(Tag::PlanarConfiguration).map_err(fault)?;
        let samples = number(Tag::SamplesPerPixel).map_err(fault)?;
        let formats = ffi::tag_numbers(place, Tag::SampleFormat.to_u16());
        let formats = absent(formats).map_err(fault)?.unwrap_or_default();
        let chunks = match ffi::page_chunks(place) {
            Ok(chunks) => (chunks.width, chunks.height),
            // Only strips may be too many, of which the tag has the rows.
            Err(err) if err.number() == INT_SIZE_ERROR => {
                let rows = number(Tag::RowsPerStrip).map_err(fault)?;
                (facts.width, rows.map_or(facts.height, |rows| rows as u32))
            }
            Err(err) => return Err(fault(err)),
        };
        image.is_planar = planar == Some(PlanarConfiguration::Planar.to_u16().into());
        image.samples = samples.map_or(1, |samples| samples as u16);
        image.format = formats.first().map_or(SampleFormat::Uint, |&format| {
            SampleFormat::from_u16_exhaustive(format as u16)
        });
        image.chunk_dimensions = chunks;
        Ok(image)
    }

    /// Returns the page, for the C library.
    pub(super) fn place<'a>(&self, file: &'a File) -> Place<'a> {
        if self.is_first {
            file.first_page()
        } else {
            file.place(IfdPointer(self.facts.offset))
        }
    }

    /// Returns the width and the height, in pixels.
    pub(super) fn dimensions(&self) -> (u32, u32) {
        (self.facts.width, self.facts.height)
    }

    /// Returns the kind of the chunks.
    pub(super) fn chunk_type(&self) -> ChunkType {
        match self.facts.chunk_kind {
            0 => ChunkType::Strip,
            _ => ChunkType::Tile,
        }
    }

    /// Returns how many chunks there are, which have to be of this kind.
    pub(super) fn chunk_count(&self, file: &File, wanted: ChunkType) -> TiffResult<u32> {
        let actual = self.chunk_type();
        if wanted != actual {
            return Err(UsageError::InvalidChunkType(wanted, actual).into());
        }
        match Fault::of(self.facts.count_status) {
            None => Ok(self.facts.count),
            Some(fault) => Err(self.fault(file, fault)),
        }
    }

    /// Returns the color, or the error of a page without one.
    pub(super) fn color(&self, file: &File) -> TiffResult<ColorType> {
        match Fault::of(self.facts.color_status) {
            None => Ok(color_of(self.facts.color)),
            Some(fault) => Err(file.fault_of(fault, &self.directory, None)),
        }
    }

    /// Returns the error of a call on this page.
    pub(super) fn fault(&self, file: &File, fault: Fault) -> TiffError {
        let color = match self.facts.color_status {
            0 => Some(color_of(self.facts.color)),
            _ => None,
        };
        file.fault_of(fault, &self.directory, color)
    }

    /// Returns how many bytes the image has.
    pub(super) fn layout(&self, file: &File) -> TiffResult<Layout> {
        ffi::page_layout(self.place(file)).map_err(|fault| self.fault(file, fault))
    }

    /// Returns how the image lies in a buffer.
    pub(super) fn buffer_layout(&self, file: &File) -> TiffResult<BufferLayoutPreference> {
        let layout = self.layout(file)?;
        let row = layout.len / self.facts.height as usize;
        let planes = layout.complete_len.checked_div(layout.len).unwrap_or(1);
        Ok(self.preference(row, layout.len, planes, layout.complete_len))
    }

    /// Returns how planes lie in a buffer that have so many bytes in a row and in all.
    fn preference(
        &self,
        row: usize,
        len: usize,
        planes: usize,
        complete_len: usize,
    ) -> BufferLayoutPreference {
        BufferLayoutPreference {
            len,
            sample_format: self.format,
            sample_type: DecodingSampleType::of(self.format, self.facts.color.bits as u8),
            row_stride: NonZeroUsize::new(row),
            planes,
            plane_stride: NonZeroUsize::new(len),
            complete_len,
        }
    }

    /// Returns how a part of one plane lies in a buffer of its number type.
    pub(super) fn part_layout(&self, part: &Part) -> TiffResult<BufferLayoutPreference> {
        let size = self.sample_type()?.byte_len();
        let bytes = div_ceil(part.len, size)
            .checked_mul(size)
            .filter(|&bytes| isize::try_from(bytes).is_ok())
            .ok_or(TiffError::LimitsExceeded)?;
        Ok(BufferLayoutPreference {
            plane_stride: NonZeroUsize::new(part.len),
            ..self.preference(part.row, bytes, 1, bytes)
        })
    }

    /// Returns how a part of all planes lies in a buffer.
    pub(super) fn unit_layout(&self, part: &Part) -> TiffResult<BufferLayoutPreference> {
        let complete_len = self.complete_len(part)?;
        Ok(self.preference(part.row, part.len, self.planes(), complete_len))
    }

    /// Returns the number type of the samples.
    pub(super) fn sample_type(&self) -> TiffResult<DecodingSampleType> {
        let bits = self.facts.color.bits as u8;
        DecodingSampleType::of(self.format, bits).ok_or_else(|| {
            match self.format {
                SampleFormat::Uint | SampleFormat::Int | SampleFormat::IEEEFP => {
                    TiffUnsupportedError::UnsupportedSampleDepth(bits)
                }
                other => TiffUnsupportedError::UnsupportedSampleFormat(vec![other]),
            }
            .into()
        })
    }

    /// Returns how many planes a buffer has for the image.
    fn planes(&self) -> usize {
        if self.is_planar {
            self.facts.color.samples as usize
        } else {
            1
        }
    }

    /// Tells whether the samples of a pixel lie in planes.
    pub(super) fn is_planar(&self) -> bool {
        self.is_planar
    }

    /// Returns how many chunks a plane has.
    pub(super) fn chunks_per_plane(&self) -> u32 {
        let (across, down) = self.chunks_across_and_down();
        across.saturating_mul(down)
    }

    fn chunks_across_and_down(&self) -> (u32, u32) {
        let (width, height) = self.chunk_dimensions;
        (
            div_ceil(self.facts.width, width),
            div_ceil(self.facts.height, height),
        )
    }

    /// Returns the width and the height of a chunk as it is in the image, cut at its edges.
    pub(super) fn chunk_data_dimensions(&self, chunk: u32) -> (u32, u32) {
        let (across, _) = self.chunks_across_and_down();
        let index = chunk % self.chunks_per_plane();
        let (width, height) = self.chunk_dimensions;
        let left = index % across * width;
        let top = index / across * height;
        (
            width.min(self.facts.width - left),
            height.min(self.facts.height - top),
        )
    }

    /// Returns how many bytes a chunk has, cut at the edges of the image.
    pub(super) fn part(&self, file: &File, chunk: u32) -> TiffResult<Part> {
        let color = self.color(file)?;
        if matches!(color, ColorType::YCbCr(_)) {
            if let Err(fault) = ffi::page_layout(self.place(file)) {
                if fault.number() == CHROMA_SUBSAMPLING {
                    return Err(self.fault(file, fault));
                }
            }
        }
        let (width, height) = self.chunk_data_dimensions(chunk);
        let samples = if self.is_planar {
            1
        } else {
            color.num_samples()
        };
        let bits = u64::from(width) * u64::from(color.bit_depth()) * u64::from(samples);
        let row = usize::try_from(div_ceil(bits, 8))?;
        // The crate `tiff` also has to count the bytes of a chunk that isn't cut.
        let (_, rows) = self.chunk_dimensions;
        match (
            row.checked_mul(rows as usize),
            row.checked_mul(height as usize),
        ) {
            (Some(_), Some(len)) => Ok(Part { height, row, len }),
            _ => Err(TiffError::LimitsExceeded),
        }
    }

    /// Returns how many bytes a part has in all planes.
    pub(super) fn complete_len(&self, part: &Part) -> TiffResult<usize> {
        part.len
            .checked_mul(self.planes())
            .ok_or(TiffError::LimitsExceeded)
    }

    /// Refuses chunks that have more bytes in the file than the limit allows.
    pub(super) fn within(
        &mut self,
        file: &File,
        limit: usize,
        mut chunks: impl Iterator<Item = u32>,
    ) -> TiffResult<()> {
        // No chunk of a page has more bytes than fit into this.
        if limit == usize::MAX {
            return Ok(());
        }
        let place = self.place(file);
        let stored = match &mut self.stored {
            Some(stored) => stored,
            none => {
                let tag = match self.facts.chunk_kind {
                    0 => Tag::StripByteCounts,
                    _ => Tag::TileByteCounts,
                };
                let counts = ffi::tag_numbers(place, tag.to_u16());
                none.insert(counts.map_err(|fault| file.fault(fault))?)
            }
        };
        let is_over = |chunk: u32| {
            stored
                .get(chunk as usize)
                .map_or(false, |&bytes| bytes > limit as u64)
        };
        if chunks.any(is_over) {
            return Err(TiffError::LimitsExceeded);
        }
        Ok(())
    }

    /// Turns numbers that the C library wrote, with their lowest byte first, into those of this
    /// machine.
    pub(super) fn turn(&self, numbers: &mut [u8]) {
        let len = match self.facts.color.bits {
            0..=8 => 1,
            9..=16 => 2,
            17..=32 => 4,
            _ => 8,
        };
        ByteOrder::LittleEndian.convert_numbers(len, numbers, ByteOrder::native());
    }
}

/// Returns the value of a tag, or none where there is no such tag.
fn absent<T>(result: Result<T, Fault>) -> Result<Option<T>, Fault> {
    match result {
        Ok(value) => Ok(Some(value)),
        Err(fault) if fault.number() == NO_SUCH_TAG => Ok(None),
        Err(fault) => Err(fault),
    }
}
