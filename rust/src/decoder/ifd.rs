//! Entries of directories, and their values.

use std::collections::HashMap;
use std::fmt;

use crate::tags::{ByteOrder, IfdPointer, Tag, Type};
use crate::{TiffError, TiffFormatError, TiffResult};

/// The value of an entry.
#[derive(Debug, Clone, PartialEq)]
#[non_exhaustive]
pub enum Value {
    /// An unsigned number of 8 bits, or a byte of any meaning.
    Byte(u8),
    /// An unsigned number of 16 bits.
    Short(u16),
    /// A signed number of 8 bits.
    SignedByte(i8),
    /// A signed number of 16 bits.
    SignedShort(i16),
    /// A signed number of 32 bits.
    Signed(i32),
    /// A signed number of 64 bits.
    SignedBig(i64),
    /// An unsigned number of 32 bits.
    Unsigned(u32),
    /// An unsigned number of 64 bits.
    UnsignedBig(u64),
    /// A floating-point number of 32 bits.
    Float(f32),
    /// A floating-point number of 64 bits.
    Double(f64),
    /// Several values, or none.
    List(Vec<Value>),
    /// A fraction of unsigned numbers.
    Rational(u32, u32),
    /// A fraction that no file has.
    #[deprecated(
        note = "Not implemented in BigTIFF with a standard tag value",
        since = "0.11.1"
    )]
    RationalBig(u64, u64),
    /// A fraction of signed numbers.
    SRational(i32, i32),
    /// A fraction that no file has.
    #[deprecated(
        note = "Not implemented in BigTIFF with a standard tag value",
        since = "0.11.1"
    )]
    SRationalBig(i64, i64),
    /// A text.
    Ascii(String),
    /// The offset of a directory, in 32 bits.
    Ifd(u32),
    /// The offset of a directory, in 64 bits.
    IfdBig(u64),
}

use Value::{
    Ascii, Byte, Double, Float, Ifd, IfdBig, List, Rational, SRational, Short, Signed, SignedBig,
    SignedByte, SignedShort, Unsigned, UnsignedBig,
};

/// The error of a value of another type than the one that is read.
fn other_type<T>() -> TiffResult<T> {
    Err(TiffFormatError::InvalidTypeForTag.into())
}

impl Value {
    /// Returns the value if it is a `Byte`.
    pub fn into_u8(self) -> TiffResult<u8> {
        match self {
            Byte(val) => Ok(val),
            _ => other_type(),
        }
    }

    /// Returns the value if it is a `SignedByte`.
    pub fn into_i8(self) -> TiffResult<i8> {
        match self {
            SignedByte(val) => Ok(val),
            _ => other_type(),
        }
    }

    /// Returns the value if it is an unsigned number. One of more bits has to fit.
    pub fn into_u16(self) -> TiffResult<u16> {
        match self {
            Byte(val) => Ok(val.into()),
            Short(val) => Ok(val),
            Unsigned(val) => Ok(val.try_into()?),
            UnsignedBig(val) => Ok(val.try_into()?),
            _ => other_type(),
        }
    }

    /// Returns the value if it is a signed number. One of more bits has to fit.
    pub fn into_i16(self) -> TiffResult<i16> {
        Ok(self.into_i64()?.try_into()?)
    }

    /// Returns the value if it is an unsigned number or the offset of a directory. One of more bits
    /// has to fit.
    pub fn into_u32(self) -> TiffResult<u32> {
        Ok(self.into_u64()?.try_into()?)
    }

    /// Returns the value if it is a signed number. One of more bits has to fit.
    pub fn into_i32(self) -> TiffResult<i32> {
        Ok(self.into_i64()?.try_into()?)
    }

    /// Returns the value if it is an unsigned number or the offset of a directory.
    pub fn into_u64(self) -> TiffResult<u64> {
        match self {
            Byte(val) => Ok(val.into()),
            Short(val) => Ok(val.into()),
            Unsigned(val) | Ifd(val) => Ok(val.into()),
            UnsignedBig(val) | IfdBig(val) => Ok(val),
            _ => other_type(),
        }
    }

    /// Returns the value if it is a signed number.
    pub fn into_i64(self) -> TiffResult<i64> {
        match self {
            SignedByte(val) => Ok(val.into()),
            SignedShort(val) => Ok(val.into()),
            Signed(val) => Ok(val.into()),
            SignedBig(val) => Ok(val),
            _ => other_type(),
        }
    }

    /// Returns the value if it is a `Float`.
    pub fn into_f32(self) -> TiffResult<f32> {
        match self {
            Float(val) => Ok(val),
            _ => other_type(),
        }
    }

    /// Returns the value if it is a `Double`.
    pub fn into_f64(self) -> TiffResult<f64> {
        match self {
            Double(val) => Ok(val),
            _ => other_type(),
        }
    }

    /// Returns the value as the offset of a directory, if it is an `Ifd`, an `IfdBig` or an
    /// `Unsigned`.
    pub fn into_ifd_pointer(self) -> TiffResult<IfdPointer> {
        match self {
            Unsigned(val) | Ifd(val) => Ok(IfdPointer(val.into())),
            IfdBig(val) => Ok(IfdPointer(val)),
            _ => other_type(),
        }
    }

    /// Returns the value if it is a text.
    pub fn into_string(self) -> TiffResult<String> {
        match self {
            Ascii(val) => Ok(val),
            _ => other_type(),
        }
    }

    /// Returns the values if each is an unsigned number or the offset of a directory. A single
    /// fraction is two numbers, and a text is the numbers of its characters.
    pub fn into_u32_vec(self) -> TiffResult<Vec<u32>> {
        match self {
            List(values) => each(values, Value::into_u32),
            single => Ok(single
                .into_u64_vec()?
                .into_iter()
                .map(u32::try_from)
                .collect::<Result<_, _>>()?),
        }
    }

    /// Returns the values if each is a `Byte`.
    pub fn into_u8_vec(self) -> TiffResult<Vec<u8>> {
        match self {
            List(values) => each(values, Value::into_u8),
            single => Ok(vec![single.into_u8()?]),
        }
    }

    /// Returns the values if each is an unsigned number. A single one has to be a `Byte` or a
    /// `Short`.
    pub fn into_u16_vec(self) -> TiffResult<Vec<u16>> {
        match self {
            List(values) => each(values, Value::into_u16),
            single @ (Byte(_) | Short(_)) => Ok(vec![single.into_u16()?]),
            _ => other_type(),
        }
    }

    /// Returns the values if each is a signed number. A fraction is two numbers.
    pub fn into_i32_vec(self) -> TiffResult<Vec<i32>> {
        self.into_signed_vec()
    }

    /// Returns the values if each is a `Float`.
    pub fn into_f32_vec(self) -> TiffResult<Vec<f32>> {
        match self {
            List(values) => each(values, Value::into_f32),
            single => Ok(vec![single.into_f32()?]),
        }
    }

    /// Returns the values if each is a `Double`.
    pub fn into_f64_vec(self) -> TiffResult<Vec<f64>> {
        match self {
            List(values) => each(values, Value::into_f64),
            single => Ok(vec![single.into_f64()?]),
        }
    }

    /// Returns the values if each is an unsigned number or the offset of a directory. A single
    /// fraction is two numbers, and a text is the numbers of its characters.
    pub fn into_u64_vec(self) -> TiffResult<Vec<u64>> {
        match self {
            List(values) => each(values, Value::into_u64),
            Rational(numerator, denominator) => Ok(vec![numerator.into(), denominator.into()]),
            #[allow(deprecated)]
            Value::RationalBig(numerator, denominator) => Ok(vec![numerator, denominator]),
            Ascii(text) => Ok(text.chars().map(|c| u32::from(c).into()).collect()),
            single => Ok(vec![single.into_u64()?]),
        }
    }

    /// Returns the values if each is a signed number. A fraction is two numbers.
    pub fn into_i64_vec(self) -> TiffResult<Vec<i64>> {
        self.into_signed_vec()
    }

    /// Returns the values if each is a signed number that fits. A fraction is two numbers.
    fn into_signed_vec<T: TryFrom<i64>>(self) -> TiffResult<Vec<T>> {
        let values = match self {
            List(values) => values,
            single => vec![single],
        };
        let mut numbers = Vec::with_capacity(values.len());
        let mut push = |number| match T::try_from(number) {
            Ok(number) => {
                numbers.push(number);
                Ok(())
            }
            Err(_) => Err(TiffError::IntSizeError),
        };
        for value in values {
            match value {
                SRational(numerator, denominator) => {
                    push(numerator.into())?;
                    push(denominator.into())?;
                }
                #[allow(deprecated)]
                Value::SRationalBig(numerator, denominator) => {
                    push(numerator)?;
                    push(denominator)?;
                }
                single => push(single.into_i64()?)?,
            }
        }
        Ok(numbers)
    }

    /// Returns the values as offsets of directories, if each is an `Ifd`, an `IfdBig` or an
    /// `Unsigned`.
    pub fn into_ifd_vec(self) -> TiffResult<Vec<IfdPointer>> {
        match self {
            List(values) => each(values, Value::into_ifd_pointer),
            single => Ok(vec![single.into_ifd_pointer()?]),
        }
    }

    /// Returns the values of an entry by their bytes. `is_in_entry` says whether they lie in the
    /// entry itself: several numbers of 8 bits have 32 bits then. A text has no such bytes.
    pub(crate) fn of_bytes(ty: Type, bytes: &[u8], order: ByteOrder, is_in_entry: bool) -> Value {
        let one = |bytes| Value::one(ty, bytes, order);
        let mut values = bytes.chunks_exact(ty.byte_len());
        match (values.len(), ty) {
            (1, _) => values.next().map_or(List(Vec::new()), one),
            (_, Type::BYTE) if is_in_entry => {
                List(bytes.iter().map(|&byte| Unsigned(byte.into())).collect())
            }
            (_, Type::SBYTE) if is_in_entry => List(
                bytes
                    .iter()
                    .map(|&byte| Signed((byte as i8).into()))
                    .collect(),
            ),
            _ => List(values.map(one).collect()),
        }
    }

    /// Returns a value by its bytes.
    fn one(ty: Type, bytes: &[u8], order: ByteOrder) -> Value {
        /// Returns the bytes of the number with this index, in this machine's byte order.
        fn number<const N: usize>(bytes: &[u8], index: usize, order: ByteOrder) -> [u8; N] {
            let mut number = [0; N];
            number.copy_from_slice(&bytes[index * N..(index + 1) * N]);
            order.convert_numbers(N, &mut number, ByteOrder::native());
            number
        }

        macro_rules! number {
            ($type:ty) => {
                number!($type, 0)
            };
            ($type:ty, $index:expr) => {
                <$type>::from_ne_bytes(number(bytes, $index, order))
            };
        }

        match ty {
            Type::BYTE | Type::UNDEFINED | Type::ASCII => Byte(number!(u8)),
            Type::SBYTE => SignedByte(number!(i8)),
            Type::SHORT => Short(number!(u16)),
            Type::SSHORT => SignedShort(number!(i16)),
            Type::LONG => Unsigned(number!(u32)),
            Type::SLONG => Signed(number!(i32)),
            Type::FLOAT => Float(number!(f32)),
            Type::IFD => Ifd(number!(u32)),
            Type::LONG8 => UnsignedBig(number!(u64)),
            Type::SLONG8 => SignedBig(number!(i64)),
            Type::DOUBLE => Double(number!(f64)),
            Type::IFD8 => IfdBig(number!(u64)),
            Type::RATIONAL => Rational(number!(u32, 0), number!(u32, 1)),
            Type::SRATIONAL => SRational(number!(i32, 0), number!(i32, 1)),
        }
    }
}

/// Converts each of several values.
fn each<T>(values: Vec<Value>, convert: fn(Value) -> TiffResult<T>) -> TiffResult<Vec<T>> {
    values.into_iter().map(convert).collect()
}

/// An entry of a directory: the type of its values, how many there are, and the bytes of its field,
/// which are the values or their offset.
#[derive(Clone)]
pub struct Entry {
    type_: Type,
    count: u64,
    offset: [u8; 8],
}

impl fmt::Debug for Entry {
    fn fmt(&self, f: &mut fmt::Formatter<'_>) -> fmt::Result {
        f.debug_struct("Entry")
            .field("type_", &self.type_)
            .field("count", &self.count)
            .field("offset", &self.offset)
            .finish()
    }
}

impl Entry {
    /// Returns an entry of a classic file.
    pub fn new(type_: Type, count: u32, offset: [u8; 4]) -> Entry {
        let [a, b, c, d] = offset;
        Entry::new_u64(type_, count.into(), [a, b, c, d, 0, 0, 0, 0])
    }

    /// Returns an entry of a BigTIFF file.
    pub fn new_u64(type_: Type, count: u64, offset: [u8; 8]) -> Entry {
        Entry {
            type_,
            count,
            offset,
        }
    }

    /// Returns the type of the values.
    pub fn field_type(&self) -> Type {
        self.type_
    }

    /// Returns how many values there are.
    pub fn count(&self) -> u64 {
        self.count
    }

    /// Returns the bytes of the field: in a classic file, the first four of them.
    pub(crate) fn offset(&self) -> &[u8; 8] {
        &self.offset
    }
}

#[doc(hidden)]
#[deprecated = "Use struct `tiff::Directory` instead which contains all fields relevant to an Image File Directory, including the offset to the next directory"]
pub type Directory = HashMap<Tag, Entry>;

#[cfg(test)]
mod tests {
    use super::*;

    fn refused<T: fmt::Debug>(result: TiffResult<T>) -> String {
        result.unwrap_err().to_string()
    }

    const TYPE: &str = "format error: tag has invalid type";
    const SIZE: &str = "platform or format size limits exceeded";

    #[test]
    fn single_values_are_converted_or_refused() {
        assert_eq!(Byte(7).into_u8().unwrap(), 7);
        assert_eq!(refused(Short(7).into_u8()), TYPE);
        assert_eq!(SignedByte(-7).into_i8().unwrap(), -7);
        assert_eq!(refused(Byte(7).into_i8()), TYPE);
        assert_eq!(Unsigned(65535).into_u16().unwrap(), 65535);
        assert_eq!(refused(Unsigned(65536).into_u16()), SIZE);
        assert_eq!(refused(UnsignedBig(65536).into_u16()), SIZE);
        assert_eq!(refused(Ifd(8).into_u16()), TYPE);
        assert_eq!(Ifd(8).into_u32().unwrap(), 8);
        assert_eq!(refused(IfdBig(1 << 32).into_u32()), SIZE);
        assert_eq!(IfdBig(1 << 32).into_u64().unwrap(), 1 << 32);
        assert_eq!(refused(Signed(1).into_u64()), TYPE);
        assert_eq!(Signed(-32768).into_i16().unwrap(), -32768);
        assert_eq!(refused(Signed(-32769).into_i16()), SIZE);
        assert_eq!(refused(SignedBig(1 << 31).into_i32()), SIZE);
        assert_eq!(SignedBig(-1).into_i64().unwrap(), -1);
        assert_eq!(refused(Short(1).into_i64()), TYPE);
        assert_eq!(Float(1.5).into_f32().unwrap(), 1.5);
        assert_eq!(refused(Float(1.5).into_f64()), TYPE);
        assert_eq!(Double(1.5).into_f64().unwrap(), 1.5);
        assert_eq!(Unsigned(8).into_ifd_pointer().unwrap(), IfdPointer(8));
        assert_eq!(refused(Short(8).into_ifd_pointer()), TYPE);
        assert_eq!(Ascii("a".into()).into_string().unwrap(), "a");
        assert_eq!(refused(Byte(7).into_string()), TYPE);
    }

    #[test]
    fn lists_are_converted_or_refused() {
        let list = List(vec![Byte(1), Short(2), Unsigned(3)]);
        assert_eq!(list.clone().into_u16_vec().unwrap(), [1, 2, 3]);
        assert_eq!(list.clone().into_u32_vec().unwrap(), [1, 2, 3]);
        assert_eq!(list.clone().into_u64_vec().unwrap(), [1, 2, 3]);
        assert_eq!(refused(list.into_u8_vec()), TYPE);
        assert_eq!(refused(Unsigned(3).into_u16_vec()), TYPE);
        assert_eq!(Short(3).into_u16_vec().unwrap(), [3]);
        assert_eq!(Byte(3).into_u8_vec().unwrap(), [3]);
        assert_eq!(Rational(3, 4).into_u32_vec().unwrap(), [3, 4]);
        assert_eq!(Rational(3, 4).into_u64_vec().unwrap(), [3, 4]);
        assert_eq!(refused(List(vec![Rational(3, 4)]).into_u64_vec()), TYPE);
        assert_eq!(Ascii("é".into()).into_u32_vec().unwrap(), [233]);
        assert_eq!(refused(UnsignedBig(1 << 32).into_u32_vec()), SIZE);
        let fractions = List(vec![SRational(-1, 2), Signed(3)]);
        assert_eq!(fractions.clone().into_i32_vec().unwrap(), [-1, 2, 3]);
        assert_eq!(fractions.into_i64_vec().unwrap(), [-1, 2, 3]);
        assert_eq!(SRational(-1, 2).into_i64_vec().unwrap(), [-1, 2]);
        assert_eq!(refused(SignedBig(1 << 31).into_i32_vec()), SIZE);
        assert_eq!(List(vec![Float(1.0)]).into_f32_vec().unwrap(), [1.0]);
        assert_eq!(Double(2.0).into_f64_vec().unwrap(), [2.0]);
        let links = List(vec![Ifd(8), IfdBig(9), Unsigned(10)]);
        assert_eq!(links.into_ifd_vec().unwrap(), [8, 9, 10].map(IfdPointer));
        assert_eq!(refused(Short(8).into_ifd_vec()), TYPE);
        assert!(List(vec![]).into_u8_vec().unwrap().is_empty());
    }

    #[test]
    fn values_are_made_of_bytes() {
        use ByteOrder::{BigEndian, LittleEndian};
        let bytes = [1, 2, 3, 4, 5, 6, 7, 8];
        let of = |ty, len, order| Value::of_bytes(ty, &bytes[..len], order, false);
        assert_eq!(of(Type::SHORT, 2, LittleEndian), Short(0x0201));
        assert_eq!(of(Type::SHORT, 2, BigEndian), Short(0x0102));
        assert_eq!(
            of(Type::RATIONAL, 8, BigEndian),
            Rational(0x01020304, 0x05060708)
        );
        assert_eq!(
            of(Type::SLONG8, 8, BigEndian),
            SignedBig(0x0102030405060708)
        );
        assert_eq!(of(Type::BYTE, 2, BigEndian), List(vec![Byte(1), Byte(2)]));
        assert_eq!(
            of(Type::SHORT, 4, BigEndian),
            List(vec![Short(0x0102), Short(0x0304)])
        );
        let in_entry = |ty| Value::of_bytes(ty, &[1, 255], LittleEndian, true);
        assert_eq!(in_entry(Type::BYTE), List(vec![Unsigned(1), Unsigned(255)]));
        assert_eq!(in_entry(Type::SBYTE), List(vec![Signed(1), Signed(-1)]));
        assert_eq!(in_entry(Type::UNDEFINED), List(vec![Byte(1), Byte(255)]));
        assert_eq!(
            Value::of_bytes(Type::BYTE, &[9], LittleEndian, true),
            Byte(9)
        );
    }

    #[test]
    fn an_entry_is_printed_with_its_field() {
        let entry = Entry::new(Type::SHORT, 1, [1, 2, 3, 4]);
        let text = "Entry { type_: SHORT, count: 1, offset: [1, 2, 3, 4, 0, 0, 0, 0] }";
        assert_eq!(format!("{entry:?}"), text);
    }
}
