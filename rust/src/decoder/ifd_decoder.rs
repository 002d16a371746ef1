//! The tags of a directory.

use std::io;
use std::mem::size_of;

use super::file::{ends_early, File};
use super::ifd::{Entry, Value};
use super::Limits;
use crate::ffi::{self, Fault, Place};
use crate::tags::{Tag, Type, ValueBuffer};
use crate::{Directory, TiffError, TiffFormatError, TiffResult};

/// `TIFF_REQUIRED_TAG_NOT_FOUND` of the header.
pub(super) const NO_SUCH_TAG: u32 = 27;

/// Reads the values of the tags of a directory.
pub struct IfdDecoder<'lt> {
    file: &'lt File,
    limits: &'lt Limits,
    directory: &'lt Directory,
    place: Option<Place<'lt>>,
}

/// The type and the count of the values of an entry, and how many bytes they have.
struct Field {
    ty: Type,
    count: u64,
    bytes: u64,
    is_in_entry: bool,
}

impl<'lt> IfdDecoder<'lt> {
    /// Reads the values of the tags of a directory, by its place.
    pub(super) fn new(
        file: &'lt File,
        limits: &'lt Limits,
        directory: &'lt Directory,
        place: Option<Place<'lt>>,
    ) -> Self {
        IfdDecoder {
            file,
            limits,
            directory,
            place,
        }
    }

    /// Goes through the tags and their values, in the order of the tags' numbers.
    pub fn tag_iter(self) -> impl Iterator<Item = TiffResult<(Tag, Value)>> + 'lt {
        self.directory
            .iter()
            .filter_map(move |(tag, _)| match self.value(tag) {
                Ok(value) => Some(Ok((tag, value?))),
                Err(err) => Some(Err(err)),
            })
    }

    /// Returns the place of the directory in the file.
    fn place(&self) -> TiffResult<Place<'lt>> {
        self.place.ok_or_else(|| {
            let text = "the values of a directory that wasn't read from the file";
            io::Error::new(io::ErrorKind::Unsupported, text).into()
        })
    }

    /// Returns the error of the C library.
    fn fault(&self, fault: Fault) -> TiffError {
        self.file.fault_of(fault, self.directory, None)
    }

    /// Returns the type and the count of the values of a tag, if there is the tag.
    fn field(&self, tag: Tag) -> TiffResult<Option<Field>> {
        let field = match ffi::tag_field(self.place()?, tag.to_u16()) {
            Ok(field) => field,
            Err(fault) if fault.number() == NO_SUCH_TAG => return Ok(None),
            Err(fault) => return Err(self.fault(fault)),
        };
        let ty = u16::try_from(field.kind).ok().and_then(Type::from_u16);
        let ty = ty.ok_or(TiffFormatError::InvalidTypeForTag)?;
        if field.count == 0 {
            return Ok(Some(Field {
                ty,
                count: 0,
                bytes: 0,
                is_in_entry: true,
            }));
        }
        let bytes = ty.value_bytes(field.count)?;
        Ok(Some(Field {
            ty,
            count: field.count,
            bytes,
            is_in_entry: self.file.is_in_entry(bytes),
        }))
    }

    /// Returns the bytes of the values of a tag. Memory is taken for as many as the file may have.
    fn bytes(&self, tag: Tag, field: &Field) -> TiffResult<Vec<u8>> {
        if field.bytes > self.file.len() {
            return Err(ends_early());
        }
        let mut bytes = vec![0; field.bytes as usize];
        ffi::tag_bytes(self.place()?, tag.to_u16(), 0, &mut bytes)
            .map_err(|fault| self.fault(fault))?;
        Ok(bytes)
    }

    /// Returns the text of a tag.
    fn text(&self, tag: Tag, field: &Field) -> TiffResult<Value> {
        let most = self.limits.decoding_buffer_size as u64;
        if !field.is_in_entry && field.count > most {
            return Err(TiffError::LimitsExceeded);
        }
        if field.bytes > self.file.len() {
            return Err(ends_early());
        }
        let text = ffi::tag_text(self.place()?, tag.to_u16(), field.bytes as usize)
            .map_err(|fault| self.fault(fault))?;
        Ok(Value::Ascii(String::from_utf8(text)?))
    }

    /// Returns the value of a tag, if there is the tag.
    fn value(&self, tag: Tag) -> TiffResult<Option<Value>> {
        let field = match self.field(tag)? {
            Some(field) => field,
            None => return Ok(None),
        };
        if field.count == 0 {
            return Ok(Some(Value::List(Vec::new())));
        }
        if field.ty == Type::ASCII {
            return self.text(tag, &field).map(Some);
        }
        let most = (self.limits.decoding_buffer_size / size_of::<Value>()) as u64;
        if !field.is_in_entry && field.count > 1 && field.count > most {
            return Err(TiffError::LimitsExceeded);
        }
        let bytes = self.bytes(tag, &field)?;
        let order = self.file.order;
        Ok(Some(Value::of_bytes(
            field.ty,
            &bytes,
            order,
            field.is_in_entry,
        )))
    }
}

impl IfdDecoder<'_> {
    /// Returns the entry of a tag, if there is one.
    pub fn find_entry(&self, tag: Tag) -> Option<Entry> {
        self.directory.get(tag).cloned()
    }

    /// Returns the value of a tag, if there is the tag.
    pub fn find_tag(&mut self, tag: Tag) -> TiffResult<Option<Value>> {
        self.value(tag)
    }

    /// Puts the values of a tag into a buffer, in the byte order of the file, if there is the tag,
    /// and returns its entry.
    pub fn find_tag_buf(&mut self, tag: Tag, buf: &mut ValueBuffer) -> TiffResult<Option<Entry>> {
        let field = match self.field(tag)? {
            Some(field) => field,
            None => return Ok(None),
        };
        if field.bytes > self.limits.decoding_buffer_size as u64 {
            return Err(TiffError::LimitsExceeded);
        }
        buf.assume(field.ty, 0, self.file.order, Vec::new());
        let bytes = self.bytes(tag, &field)?;
        buf.assume(field.ty, field.count, self.file.order, bytes);
        Ok(self.find_entry(tag))
    }

    /// Copies the bytes of the values of a tag into a buffer, from the byte `offset` of them on, as
    /// many as fit, in the byte order of the file. Returns how many, if there is the tag.
    pub fn find_tag_bytes(
        &mut self,
        tag: Tag,
        buf: &mut [u8],
        offset: u64,
    ) -> TiffResult<Option<usize>> {
        match ffi::tag_bytes(self.place()?, tag.to_u16(), offset, buf) {
            Ok(count) => Ok(Some(count)),
            Err(fault) if fault.number() == NO_SUCH_TAG => Ok(None),
            Err(fault) => Err(self.fault(fault)),
        }
    }

    /// Returns the value of a tag as an unsigned number, if there is the tag.
    pub fn find_tag_unsigned<T: TryFrom<u64>>(&mut self, tag: Tag) -> TiffResult<Option<T>> {
        match self.find_tag(tag)? {
            Some(value) => number(tag, value.into_u64()?).map(Some),
            None => Ok(None),
        }
    }

    /// Returns the values of a tag as unsigned numbers, if there is the tag.
    pub fn find_tag_unsigned_vec<T: TryFrom<u64>>(
        &mut self,
        tag: Tag,
    ) -> TiffResult<Option<Vec<T>>> {
        let numbers = match self.find_tag(tag)? {
            Some(value) => value.into_u64_vec()?.into_iter(),
            None => return Ok(None),
        };
        numbers
            .map(|value| number(tag, value))
            .collect::<TiffResult<_>>()
            .map(Some)
    }

    /// Returns the value of a tag as an unsigned number.
    pub fn get_tag_unsigned<T: TryFrom<u64>>(&mut self, tag: Tag) -> TiffResult<T> {
        self.find_tag_unsigned(tag)?
            .ok_or_else(|| TiffFormatError::RequiredTagNotFound(tag).into())
    }

    /// Returns the value of a tag.
    pub fn get_tag(&mut self, tag: Tag) -> TiffResult<Value> {
        self.find_tag(tag)?
            .ok_or_else(|| TiffFormatError::RequiredTagNotFound(tag).into())
    }

    /// Returns the value of a tag, by [`Value::into_u32`].
    pub fn get_tag_u32(&mut self, tag: Tag) -> TiffResult<u32> {
        self.get_tag(tag)?.into_u32()
    }

    /// Returns the value of a tag, by [`Value::into_u64`].
    pub fn get_tag_u64(&mut self, tag: Tag) -> TiffResult<u64> {
        self.get_tag(tag)?.into_u64()
    }

    /// Returns the value of a tag, by [`Value::into_f32`].
    pub fn get_tag_f32(&mut self, tag: Tag) -> TiffResult<f32> {
        self.get_tag(tag)?.into_f32()
    }

    /// Returns the value of a tag, by [`Value::into_f64`].
    pub fn get_tag_f64(&mut self, tag: Tag) -> TiffResult<f64> {
        self.get_tag(tag)?.into_f64()
    }

    /// Returns the values of a tag, by [`Value::into_u32_vec`].
    pub fn get_tag_u32_vec(&mut self, tag: Tag) -> TiffResult<Vec<u32>> {
        self.get_tag(tag)?.into_u32_vec()
    }

    /// Returns the values of a tag, by [`Value::into_u16_vec`].
    pub fn get_tag_u16_vec(&mut self, tag: Tag) -> TiffResult<Vec<u16>> {
        self.get_tag(tag)?.into_u16_vec()
    }

    /// Returns the values of a tag, by [`Value::into_u64_vec`].
    pub fn get_tag_u64_vec(&mut self, tag: Tag) -> TiffResult<Vec<u64>> {
        self.get_tag(tag)?.into_u64_vec()
    }

    /// Returns the values of a tag, by [`Value::into_f32_vec`].
    pub fn get_tag_f32_vec(&mut self, tag: Tag) -> TiffResult<Vec<f32>> {
        self.get_tag(tag)?.into_f32_vec()
    }

    /// Returns the values of a tag, by [`Value::into_f64_vec`].
    pub fn get_tag_f64_vec(&mut self, tag: Tag) -> TiffResult<Vec<f64>> {
        self.get_tag(tag)?.into_f64_vec()
    }

    /// Returns the values of a tag, by [`Value::into_u8_vec`].
    pub fn get_tag_u8_vec(&mut self, tag: Tag) -> TiffResult<Vec<u8>> {
        self.get_tag(tag)?.into_u8_vec()
    }

    /// Returns the text of a tag.
    pub fn get_tag_ascii_string(&mut self, tag: Tag) -> TiffResult<String> {
        self.get_tag(tag)?.into_string()
    }

    /// Returns the directory.
    pub fn directory(&self) -> &Directory {
        self.directory
    }
}

/// Returns a number in another type, if that has it.
fn number<T: TryFrom<u64>>(tag: Tag, value: u64) -> TiffResult<T> {
    T::try_from(value).map_err(|_| TiffFormatError::InvalidTagValueType(tag).into())
}
