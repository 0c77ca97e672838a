//! Types that are read and written.
#[cfg(feature = "alloc")]
use crate::{to_vec, ObjectIdentifierBuf};
use crate::{
    Any, BitString, Error, ErrorKind, Integer, ObjectIdentifier, Reader, Reason, Result, Rules, Tag, Time,
    Writer,
};
#[cfg(feature = "alloc")]
use alloc::{string::String, vec::Vec};

/// A type that [`Reader::value`] reads. Implement it for your own types, field by field.
///
/// ```
/// use dumarewhi::{Decode, Reader, Result};
///
/// /// SEQUENCE { number INTEGER, names SEQUENCE OF UTF8String, critical BOOLEAN DEFAULT FALSE,
/// ///     note UTF8String OPTIONAL }
/// struct Entry<'a> {
///     number: u64,
///     names: Vec<&'a str>,
///     critical: bool,
///     note: Option<&'a str>,
/// }
///
/// impl<'a> Decode<'a> for Entry<'a> {
///     fn decode(r: &mut Reader<'a>) -> Result<Entry<'a>> {
///         r.open_sequence(|r| {
///             Ok(Entry {
///                 number: r.value()?,
///                 names: r.value()?,
///                 critical: r.value_or(false)?,
///                 note: r.value()?,
///             })
///         })
///     }
/// }
///
/// let entry = Entry::from_der(&[0x30, 0x08, 0x02, 0x01, 0x05, 0x30, 0x03, 0x0c, 0x01, b'a'])?;
/// assert_eq!((entry.number, &entry.names[..]), (5, &["a"][..]));
/// assert_eq!((entry.critical, entry.note), (false, None));
/// # Ok::<(), dumarewhi::Error>(())
/// ```
pub trait Decode<'a>: Sized {
    /// Reads the elements of the value.
    fn decode(r: &mut Reader<'a>) -> Result<Self>;

    /// Whether a value may begin with this tag: it tells whether an OPTIONAL one is present. By default the tag is
    /// SEQUENCE.
    fn begins_with(tag: Tag) -> bool {
        tag == Tag::SEQUENCE
    }

    /// Reads an input that is one value in DER.
    fn from_der(input: &'a [u8]) -> Result<Self> {
        read_whole(Reader::new(input))
    }

    /// Reads an input that is one value in BER.
    fn from_ber(input: &'a [u8]) -> Result<Self> {
        read_whole(Reader::with_rules(input, Rules::BER))
    }
}

fn read_whole<'a, T: Decode<'a>>(mut reader: Reader<'a>) -> Result<T> {
    let value = reader.value()?;
    reader.end()?;
    Ok(value)
}

/// A type that [`Writer::put`] writes. Implement it for your own types, field by field.
///
/// ```
/// use dumarewhi::{Encode, Result, Writer};
///
/// /// SEQUENCE { number INTEGER, names SEQUENCE OF UTF8String, critical BOOLEAN DEFAULT FALSE,
/// ///     note UTF8String OPTIONAL }
/// struct Entry {
///     number: u64,
///     names: Vec<String>,
///     critical: bool,
///     note: Option<String>,
/// }
///
/// impl Encode for Entry {
///     fn encode(&self, w: &mut Writer<'_>) -> Result<()> {
///         w.open_sequence(|w| {
///             w.put(&self.number)?;
///             w.put(&self.names)?;
///             w.put_default(&self.critical, &false)?;
///             w.put(&self.note)
///         })
///     }
/// }
///
/// let entry = Entry { number: 5, names: vec!["a".into()], critical: false, note: None };
/// assert_eq!(entry.to_der()?, [0x30, 0x08, 0x02, 0x01, 0x05, 0x30, 0x03, 0x0c, 0x01, b'a']);
/// # Ok::<(), dumarewhi::Error>(())
/// ```
pub trait Encode {
    /// Writes the elements of the value.
    fn encode(&self, w: &mut Writer<'_>) -> Result<()>;

    /// The encoding of the value.
    #[cfg(feature = "alloc")]
    fn to_der(&self) -> Result<Vec<u8>> {
        to_vec(|w| self.encode(w))
    }
}

impl Writer<'_> {
    /// Writes a value.
    ///
    /// ```
    /// use dumarewhi::to_vec;
    ///
    /// let octets = to_vec(|w| {
    ///     w.put(&true)?;
    ///     w.put(&Some(7_u64))?;
    ///     w.put(&None::<u64>)
    /// })?;
    /// assert_eq!(octets, [0x01, 0x01, 0xff, 0x02, 0x01, 0x07]);
    /// # Ok::<(), dumarewhi::Error>(())
    /// ```
    pub fn put(&mut self, value: &(impl Encode + ?Sized)) -> Result<()> {
        value.encode(self)
    }

    /// Writes a value unless it equals its default (X.690 11.5).
    ///
    /// ```
    /// use dumarewhi::to_vec;
    ///
    /// let octets = to_vec(|w| {
    ///     w.put_default(&false, &false)?;
    ///     w.put_default(&2_u64, &0)
    /// })?;
    /// assert_eq!(octets, [0x02, 0x01, 0x02]);
    /// # Ok::<(), dumarewhi::Error>(())
    /// ```
    pub fn put_default<T: Encode + PartialEq>(&mut self, value: &T, default: &T) -> Result<()> {
        if value == default {
            return Ok(());
        }
        value.encode(self)
    }
}

/// A type that has one tag, and how it is read.
macro_rules! decodes {
    ($(#[$meta:meta])* $type:ty: $tag:ident, |$r:ident| $read:expr) => {
        $(#[$meta])*
        impl<'a> Decode<'a> for $type {
            fn decode($r: &mut Reader<'a>) -> Result<$type> {
                $read
            }

            fn begins_with(tag: Tag) -> bool {
                tag == Tag::$tag
            }
        }
    };
}

/// A type, and how it is written.
macro_rules! encodes {
    ($(#[$meta:meta])* $type:ty: |$w:ident, $it:ident| $write:expr) => {
        $(#[$meta])*
        #[allow(clippy::needless_lifetimes)]
        impl<'a> Encode for $type {
            fn encode(&self, $w: &mut Writer<'_>) -> Result<()> {
                let $it = self;
                $write;
                Ok(())
            }
        }
    };
}

/// Types that have one tag, and how they are read and written.
macro_rules! types {
    ($($(#[$meta:meta])* $type:ty: $tag:ident, |$r:ident| $read:expr, |$w:ident, $it:ident| $write:expr;)*) => {
        $(decodes! { $(#[$meta])* $type: $tag, |$r| $read }
        encodes! { $(#[$meta])* $type: |$w, $it| $write })*
    };
}

types! {
    /// A BOOLEAN.
    bool: BOOLEAN, |r| r.boolean(), |w, it| w.put_bool(*it);
    /// An INTEGER.
    u16: INTEGER, |r| number(r), |w, it| w.put_u64((*it).into());
    /// An INTEGER.
    u32: INTEGER, |r| number(r), |w, it| w.put_u64((*it).into());
    /// An INTEGER.
    u64: INTEGER, |r| r.u64(), |w, it| w.put_u64(*it);
    /// An INTEGER.
    i16: INTEGER, |r| number(r), |w, it| w.put_i64((*it).into());
    /// An INTEGER.
    i32: INTEGER, |r| number(r), |w, it| w.put_i64((*it).into());
    /// An INTEGER.
    i64: INTEGER, |r| r.i64(), |w, it| w.put_i64(*it);
    /// An INTEGER, as [`Writer::put_integer`].
    Integer<'a>: INTEGER, |r| r.integer(), |w, it| w.put_integer(*it)?;
    /// A NULL.
    (): NULL, |r| r.null(), |w, _it| w.put_null();
    /// An OBJECT IDENTIFIER.
    ObjectIdentifier<'a>: OBJECT_IDENTIFIER, |r| r.oid(), |w, it| w.put_oid(*it);
    /// An OBJECT IDENTIFIER.
    #[cfg(feature = "alloc")]
    ObjectIdentifierBuf: OBJECT_IDENTIFIER, |r| r.oid().map(Self::from), |w, it| w.put_oid(it.as_oid());
    /// A BIT STRING.
    BitString<'a>: BIT_STRING, |r| r.bits(), |w, it| w.put_bits(it.unused_bits(), it.raw_bytes());
    /// A UTF8String.
    #[cfg(feature = "alloc")]
    String: UTF8_STRING, |r| r.utf8_string().map(String::from), |w, it| w.put_utf8(it);
}

fn number<'a, T: TryFrom<Integer<'a>, Error = Reason>>(r: &mut Reader<'a>) -> Result<T> {
    let offset = r.offset();
    let error = |reason| Error::new(ErrorKind::Value(reason), offset);
    r.attempt(|r| T::try_from(r.integer()?).map_err(error))
}

decodes! {
    /// An OCTET STRING.
    &'a [u8]: OCTET_STRING, |r| r.octets()
}

encodes! {
    /// An OCTET STRING.
    [u8]: |w, it| w.put_octets(it)
}

decodes! {
    /// A UTF8String.
    &'a str: UTF8_STRING, |r| r.utf8_string()
}

encodes! {
    /// A UTF8String.
    str: |w, it| w.put_utf8(it)
}

/// A UTCTime or a GeneralizedTime.
impl<'a> Decode<'a> for Time {
    fn decode(r: &mut Reader<'a>) -> Result<Time> {
        r.time()
    }

    fn begins_with(tag: Tag) -> bool {
        matches!(tag, Tag::UTC_TIME | Tag::GENERALIZED_TIME)
    }
}

/// A UTCTime for the years 1950 to 2049 without a fraction, else a GeneralizedTime (RFC 5280 4.1.2.5).
impl Encode for Time {
    fn encode(&self, w: &mut Writer<'_>) -> Result<()> {
        match (self.year, self.nanosecond) {
            (1950..=2049, 0) => w.put_utc_time(*self),
            _ => w.put_generalized_time(*self),
        }
    }
}

/// An element of any type.
impl<'a> Decode<'a> for Any<'a> {
    fn decode(r: &mut Reader<'a>) -> Result<Any<'a>> {
        r.any()
    }

    fn begins_with(_: Tag) -> bool {
        true
    }
}

encodes! {
    /// The element's octets as they were read. One in BER stays in BER: [`write_der`] converts it.
    ///
    /// [`write_der`]: crate::write_der
    Any<'a>: |w, it| w.put_elements(it.octets())
}

/// An OPTIONAL field.
impl<'a, T: Decode<'a>> Decode<'a> for Option<T> {
    fn decode(r: &mut Reader<'a>) -> Result<Option<T>> {
        match r.has(T::begins_with)? {
            true => r.value().map(Some),
            false => Ok(None),
        }
    }

    fn begins_with(tag: Tag) -> bool {
        T::begins_with(tag)
    }
}

/// An OPTIONAL field.
impl<T: Encode> Encode for Option<T> {
    fn encode(&self, w: &mut Writer<'_>) -> Result<()> {
        self.as_ref().map_or(Ok(()), |value| value.encode(w))
    }
}

/// A SEQUENCE OF.
#[cfg(feature = "alloc")]
impl<'a, T: Decode<'a>> Decode<'a> for Vec<T> {
    fn decode(r: &mut Reader<'a>) -> Result<Vec<T>> {
        r.open_sequence(|r| {
            let mut values = Vec::new();
            while !r.is_empty() {
                let offset = r.offset();
                values.push(r.value()?);
                if r.offset() == offset {
                    let text = "a value of no octets is in a list";
                    return Err(Error::new(ErrorKind::Other(text), offset));
                }
            }
            Ok(values)
        })
    }
}

/// A SEQUENCE OF.
impl<T: Encode> Encode for [T] {
    fn encode(&self, w: &mut Writer<'_>) -> Result<()> {
        w.open_sequence(|w| self.iter().try_for_each(|value| value.encode(w)))
    }
}

/// As a slice.
#[cfg(feature = "alloc")]
impl<T> Encode for Vec<T>
where
    [T]: Encode,
{
    fn encode(&self, w: &mut Writer<'_>) -> Result<()> {
        self[..].encode(w)
    }
}

/// As the value that it refers to.
impl<T: Encode + ?Sized> Encode for &T {
    fn encode(&self, w: &mut Writer<'_>) -> Result<()> {
        (**self).encode(w)
    }
}
