//! Element after element.
use crate::error::{ErrorKind, Reason, Result};
use crate::ffi::{self, Fields};
use crate::{Class, Error, Integer, ObjectIdentifier, Tag, Time};
#[cfg(feature = "alloc")]
use {crate::write::zeros, alloc::vec::Vec};

/// Writes DER into a buffer, element after element.
///
/// Elements that don't fit are only counted, and [`finish`](Writer::finish) returns whether all fit. A writer never
/// allocates; [`to_vec`] writes to a vector.
///
/// ```
/// use dumarewhi::{Result, Tag, Writer};
///
/// // SEQUENCE { version [0] EXPLICIT INTEGER OPTIONAL, name UTF8String, critical BOOLEAN DEFAULT FALSE }
/// fn write(w: &mut Writer<'_>, version: u64, name: &str, critical: bool) {
///     w.open_sequence(|w| {
///         w.open_tagged(Tag::context(0), |w| w.put_u64(version));
///         w.put_utf8(name);
///         if critical {
///             w.put_bool(true);
///         }
///     });
/// }
///
/// let mut buffer = [0; 32];
/// let mut writer = Writer::new(&mut buffer);
/// write(&mut writer, 2, "hi", false);
/// let length = writer.finish()?;
/// assert_eq!(buffer[..length], [0x30, 0x09, 0xa0, 0x03, 0x02, 0x01, 0x02, 0x0c, 0x02, b'h', b'i']);
/// # Ok::<(), dumarewhi::Error>(())
/// ```
///
/// A call that takes a function returns its result. If the function may fail, use `?` inside and outside:
///
/// ```
/// use dumarewhi::{to_vec, Reason};
///
/// let error = to_vec(|w| w.open_set(|w| w.put_printable("a@b"))).unwrap_err();
/// assert_eq!(error.to_string(), "invalid character in string at offset 2");
/// ```
#[derive(Debug)]
pub struct Writer<'b> {
    fields: Fields<'b>,
}

/// Calls that write a value of one type: the arguments, and what the library's call takes.
macro_rules! values {
    ($($(#[$doc:meta])* $name:ident($($it:ident: $type:ty),*) = ($($value:expr),*);)*) => {
        impl Writer<'_> {
            $($(#[$doc])* pub fn $name(&mut self, $($it: $type),*) {
                self.fields.$name($($value),*);
            })*
        }
    };
}

values! {
    /// Writes elements that are encoded already. They aren't checked.
    put_elements(octets: &[u8]) = (octets);
    /// Writes a BOOLEAN.
    put_bool(value: bool) = (value.into());
    /// Writes a non-negative INTEGER.
    put_u64(value: u64) = (value);
    /// Writes an INTEGER.
    put_i64(value: i64) = (value);
    /// Writes a non-negative INTEGER of any size from big-endian octets. Leading zeros are left out.
    ///
    /// ```
    /// use dumarewhi::to_vec;
    ///
    /// let octets = to_vec(|w| Ok(w.put_magnitude(&[0x00, 0x00, 0xff])))?;
    /// assert_eq!(octets, [0x02, 0x02, 0x00, 0xff]);
    /// # Ok::<(), dumarewhi::Error>(())
    /// ```
    put_magnitude(octets: &[u8]) = (octets);
    /// Writes a non-negative ENUMERATED.
    put_enumerated(value: u64) = (value);
    /// Writes an ENUMERATED that may be negative.
    put_enumerated_i64(value: i64) = (value);
    /// Writes a NULL.
    put_null() = ();
    /// Writes an OBJECT IDENTIFIER with its own octets.
    ///
    /// ```
    /// use dumarewhi::{oid, to_vec};
    ///
    /// let octets = to_vec(|w| Ok(w.put_oid(oid!(2, 5, 4, 3))))?;
    /// assert_eq!(octets, [0x06, 0x03, 0x55, 0x04, 0x03]);
    /// # Ok::<(), dumarewhi::Error>(())
    /// ```
    put_oid(identifier: ObjectIdentifier<'_>) = (identifier.as_bytes());
    /// Writes an OCTET STRING.
    put_octets(octets: &[u8]) = (octets);
    /// Writes a BIT STRING with at most seven unused bits at the end, which are written as 0.
    put_bits(unused: u8, octets: &[u8]) = (unused, octets);
}

impl<'b> Writer<'b> {
    /// A writer at the start of a buffer.
    pub fn new(buffer: &'b mut [u8]) -> Writer<'b> {
        Writer {
            fields: Fields::new(buffer),
        }
    }

    /// The number of octets so far, whether they fit or not.
    pub fn offset(&self) -> usize {
        self.fields.count()
    }

    /// Returns the number of octets written. The rest of the buffer stays as it was. If the buffer is too small, the
    /// error has the size that is needed.
    ///
    /// ```
    /// use dumarewhi::{ErrorKind, Writer};
    ///
    /// let mut writer = Writer::new(&mut []);
    /// writer.put_octets(&[0; 200]);
    /// assert_eq!(writer.finish().unwrap_err().kind(), ErrorKind::NoRoom { needed: 203 });
    /// ```
    pub fn finish(self) -> Result<usize> {
        match self.fields.finish() {
            (ffi::OK, length) => Ok(length),
            (ffi::NO_ROOM, needed) => Err(Error::new(ErrorKind::NoRoom { needed }, 0)),
            _ => Err(self.error(ErrorKind::Other("an element isn't closed"))),
        }
    }

    /// An error where the next element begins.
    fn error(&self, kind: ErrorKind) -> Error {
        Error::new(kind, self.offset())
    }

    /// The error with this number, if it isn't 0.
    fn checked(&self, number: u32) -> Result<()> {
        match number {
            0 => Ok(()),
            number => Err(self.error(ErrorKind::Value(Reason(number)))),
        }
    }

    /// Writes a SEQUENCE with the elements that the function writes.
    pub fn open_sequence<T>(&mut self, function: impl FnOnce(&mut Writer<'b>) -> T) -> T {
        let mark = self.fields.open_sequence();
        self.inside(mark, function)
    }

    /// Writes a SET with the elements that the function writes, in that order. [`open_set_of`](Writer::open_set_of) sorts them.
    pub fn open_set<T>(&mut self, function: impl FnOnce(&mut Writer<'b>) -> T) -> T {
        let mark = self.fields.open_set();
        self.inside(mark, function)
    }

    /// Writes a SET OF the elements that the function writes, sorted in the buffer (X.690 11.6). For n elements that
    /// takes up to n²/2 comparisons.
    ///
    /// ```
    /// use dumarewhi::to_vec;
    ///
    /// let octets = to_vec(|w| {
    ///     w.open_set_of(|w| {
    ///         w.put_u64(5);
    ///         w.put_bool(true);
    ///         w.put_u64(3);
    ///     });
    ///     Ok(())
    /// })?;
    /// assert_eq!(octets, [0x31, 0x09, 0x01, 0x01, 0xff, 0x02, 0x01, 0x03, 0x02, 0x01, 0x05]);
    /// # Ok::<(), dumarewhi::Error>(())
    /// ```
    pub fn open_set_of<T>(&mut self, function: impl FnOnce(&mut Writer<'b>) -> T) -> T {
        let mark = self.fields.open_set();
        let value = function(self);
        self.fields.close_set_of(mark);
        value
    }

    /// Writes a constructed element with this tag around what the function writes: an EXPLICIT tag, or a SEQUENCE or
    /// SET under an IMPLICIT one.
    ///
    /// ```
    /// use dumarewhi::{to_vec, Tag};
    ///
    /// // [APPLICATION 1] IMPLICIT SEQUENCE { INTEGER, [0] EXPLICIT INTEGER }
    /// let octets = to_vec(|w| {
    ///     w.open_tagged(Tag::application(1), |w| {
    ///         w.put_u64(5);
    ///         w.open_tagged(Tag::context(0), |w| w.put_u64(7));
    ///     });
    ///     Ok(())
    /// })?;
    /// assert_eq!(octets, [0x61, 0x08, 0x02, 0x01, 0x05, 0xa0, 0x03, 0x02, 0x01, 0x07]);
    /// # Ok::<(), dumarewhi::Error>(())
    /// ```
    pub fn open_tagged<T>(&mut self, tag: Tag, function: impl FnOnce(&mut Writer<'b>) -> T) -> T {
        let mark = match tag.class {
            Class::ContextSpecific => self.fields.open_tagged(tag.number),
            class => self.fields.open(class as u8, 1, tag.number),
        };
        self.inside(mark, function)
    }

    /// Writes an OCTET STRING that contains the elements that the function writes.
    pub fn open_octet_string<T>(&mut self, function: impl FnOnce(&mut Writer<'b>) -> T) -> T {
        let mark = self.fields.open_octet_string();
        self.inside(mark, function)
    }

    fn inside<T>(&mut self, mark: ffi::Mark, function: impl FnOnce(&mut Writer<'b>) -> T) -> T {
        let value = function(self);
        self.fields.close(mark);
        value
    }

    /// The next primitive element gets this IMPLICIT tag instead of its type's. For a SEQUENCE or SET call
    /// [`open_tagged`](Writer::open_tagged). After an error the tag is still pending. A constructed element and
    /// [`put_elements`](Writer::put_elements) drop it.
    ///
    /// ```
    /// use dumarewhi::{to_vec, Tag};
    ///
    /// // dNSName [2] IMPLICIT IA5String
    /// let octets = to_vec(|w| w.implicit(Tag::context(2)).put_ia5("a.b"))?;
    /// assert_eq!(octets, [0x82, 0x03, b'a', b'.', b'b']);
    /// # Ok::<(), dumarewhi::Error>(())
    /// ```
    pub fn implicit(&mut self, tag: Tag) -> &mut Writer<'b> {
        self.fields.implicit(tag.class as u8, tag.number);
        self
    }

    /// Writes an INTEGER of any size. An error if its octets are padded (X.690 8.3.2).
    pub fn put_integer(&mut self, value: Integer<'_>) -> Result<()> {
        let put = self.fields.put_integer(value.as_bytes());
        self.checked(put)
    }

    /// Writes an OBJECT IDENTIFIER with these arcs. An error if there are fewer than two, or the first two aren't
    /// allowed (X.690 8.19.4).
    ///
    /// ```
    /// use dumarewhi::to_vec;
    ///
    /// assert_eq!(to_vec(|w| w.put_arcs(&[2, 5, 4, 3]))?, [0x06, 0x03, 0x55, 0x04, 0x03]);
    /// assert!(to_vec(|w| w.put_arcs(&[1, 40])).is_err());
    /// # Ok::<(), dumarewhi::Error>(())
    /// ```
    pub fn put_arcs(&mut self, arcs: &[u64]) -> Result<()> {
        let put = self.fields.put_arcs(arcs);
        self.checked(put)
    }

    /// Writes a UTF8String.
    pub fn put_utf8(&mut self, text: &str) {
        // A `str` is UTF-8, so no error is returned.
        let _ = self.put_text(Tag::UTF8_STRING, text);
    }

    /// Writes a PrintableString. An error if a character isn't in its set.
    pub fn put_printable(&mut self, text: &str) -> Result<()> {
        self.put_text(Tag::PRINTABLE_STRING, text)
    }

    /// Writes an IA5String. An error if a character isn't in its set.
    pub fn put_ia5(&mut self, text: &str) -> Result<()> {
        self.put_text(Tag::IA5_STRING, text)
    }

    /// Writes a BMPString, two octets for each character. An error if a character has a number above 0xffff.
    ///
    /// ```
    /// use dumarewhi::to_vec;
    ///
    /// let octets = to_vec(|w| w.put_bmp("é€"))?;
    /// assert_eq!(octets, [0x1e, 0x04, 0x00, 0xe9, 0x20, 0xac]);
    /// assert!(to_vec(|w| w.put_bmp("\u{1f600}")).is_err());
    /// # Ok::<(), dumarewhi::Error>(())
    /// ```
    pub fn put_bmp(&mut self, text: &str) -> Result<()> {
        if text.chars().any(|character| u32::from(character) > 0xffff) {
            return Err(self.error(ErrorKind::Value(Reason::INVALID_CHARACTER)));
        }
        let of_type = (Class::Universal as u8, Tag::BMP_STRING.number);
        let (class, number) = self.fields.implicit_tag().unwrap_or(of_type);
        let mark = self.fields.open(class, 0, number);
        for unit in text.encode_utf16() {
            self.fields.put_elements(&unit.to_be_bytes());
        }
        self.fields.close(mark);
        Ok(())
    }

    /// Writes a character string of any type of [`Any::as_str`](crate::Any::as_str). An error if a character isn't in
    /// its set.
    pub fn put_text(&mut self, tag: Tag, text: &str) -> Result<()> {
        if !tag.is_text() {
            return Err(self.error(ErrorKind::Other("the tag is of no type of text")));
        }
        let put = self.fields.put_text(tag.number, text.as_bytes());
        self.checked(put)
    }

    /// Writes a UTCTime. An error unless the zone is UTC and the year 1950 to 2049, without a fraction.
    pub fn put_utc_time(&mut self, time: Time) -> Result<()> {
        self.put_time(Tag::UTC_TIME, time)
    }

    /// Writes a GeneralizedTime. An error unless the zone is UTC and the year at most 9999.
    pub fn put_generalized_time(&mut self, time: Time) -> Result<()> {
        self.put_time(Tag::GENERALIZED_TIME, time)
    }

    fn put_time(&mut self, tag: Tag, time: Time) -> Result<()> {
        let put = self.fields.put_time(tag.number, &time.into());
        self.checked(put)
    }
}

/// Writes to a vector that is allocated once. The function is called twice: to count, and to write.
///
/// ```
/// use dumarewhi::{check_der, to_vec};
///
/// let octets = to_vec(|w| {
///     w.open_sequence(|w| {
///         w.put_u64(5);
///         w.put_arcs(&[2, 5, 4, 3])?;
///         w.put_null();
///         Ok(())
///     })
/// })?;
/// assert_eq!(octets, b"\x30\x0a\x02\x01\x05\x06\x03\x55\x04\x03\x05\x00");
/// assert_eq!(check_der(&octets), Ok(4));
/// # Ok::<(), dumarewhi::Error>(())
/// ```
#[cfg(feature = "alloc")]
pub fn to_vec(mut function: impl FnMut(&mut Writer<'_>) -> Result<()>) -> Result<Vec<u8>> {
    let mut counter = Writer::new(&mut []);
    function(&mut counter)?;
    let mut octets = zeros(counter.offset())?;
    let mut writer = Writer::new(&mut octets);
    function(&mut writer)?;
    let written = writer.finish()?;
    octets.truncate(written);
    Ok(octets)
}
