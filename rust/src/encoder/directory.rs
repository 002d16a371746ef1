//! The tags of an image.

use super::{TiffEncoder, TiffKind, TiffValue};
use crate::ffi::{NewPage, NewTag};
use crate::tags::{ByteOrder, Tag, Type, ValueBuffer};
use crate::{TiffFormatError, TiffResult, UsageError};

/// The tags of an image, which [`ImageEncoder::encoder`](super::ImageEncoder::encoder) returns.
///
/// Of several values of a tag the last one counts, also against what the image sets itself. The tags
/// BitsPerSample, SampleFormat, StripOffsets and StripByteCounts are always those of the image.
pub struct DirectoryEncoder<'a, W, K: TiffKind> {
    encoder: &'a mut TiffEncoder<W, K>,
    tags: Vec<NewTag>,
}

impl<'a, W, K: TiffKind> DirectoryEncoder<'a, W, K> {
    pub(super) fn new(encoder: &'a mut TiffEncoder<W, K>) -> Self {
        DirectoryEncoder {
            encoder,
            tags: Vec::new(),
        }
    }

    /// Sets a tag. Errors: a text that isn't ASCII or has a zero within, `InvalidTag`; values of a
    /// type of one's own that have other bytes than their type and count say,
    /// `MismatchedEntryLength`; more values than a file of this kind counts, `IntSizeError`.
    pub fn write_tag<T: TiffValue>(&mut self, tag: Tag, value: T) -> TiffResult<()> {
        let values = value.data().into_owned();
        self.push(tag, T::FIELD_TYPE, value.count() as u64, values)
    }

    /// Sets a tag to the values of a buffer. Errors: values that aren't in the byte order of this
    /// machine, `ByteOrderMismatch`; those of [`write_tag`](DirectoryEncoder::write_tag).
    pub fn write_tag_buf(&mut self, tag: Tag, value: &ValueBuffer) -> TiffResult<()> {
        if value.byte_order() != ByteOrder::native() {
            return Err(UsageError::ByteOrderMismatch.into());
        }
        let values = value.as_bytes().to_vec();
        self.push(tag, value.data_type(), value.count(), values)
    }

    /// Sets a tag to values, whose bytes are in the byte order of this machine.
    fn push(&mut self, tag: Tag, ty: Type, count: u64, mut values: Vec<u8>) -> TiffResult<()> {
        let found = values.len();
        if ty.value_bytes(count)? != found as u64 {
            return Err(match ty {
                Type::ASCII => TiffFormatError::InvalidTag.into(),
                ty => UsageError::MismatchedEntryLength { ty, found }.into(),
            });
        }
        K::convert_offset(count)?;
        ByteOrder::native().convert(ty, &mut values, ByteOrder::LittleEndian);
        self.tags.push(NewTag {
            number: tag.to_u16(),
            ty: ty.to_u16(),
            count: count as usize,
            values,
        });
        Ok(())
    }

    /// Forgets what a tag was set to.
    pub(super) fn forget(&mut self, tag: Tag) {
        self.tags.retain(|own| own.number != tag.to_u16());
    }

    /// Adds the image to the pages of the file, with these tags.
    pub(super) fn add(&mut self, mut page: NewPage) {
        page.tags = std::mem::take(&mut self.tags);
        self.encoder.pages.push(page);
    }

    /// Notes that the image isn't added, an error that no call returned.
    pub(super) fn lose(&mut self) {
        self.encoder.has_lost_image = true;
    }
}
