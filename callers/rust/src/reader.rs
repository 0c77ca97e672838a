//! Field after field.
use crate::error::{ErrorKind, Result};
use crate::ffi::{self, Cursor, Fault};
use crate::{Any, BitString, Class, Decode, Error, Integer, ObjectIdentifier, Reason, Rules, Tag, Time};

/// Reads the fields of an ASN.1 type, one after another.
///
/// Each call reads the next element and compares its tag. A function that reads a list must read all of it.
/// [`any`](Reader::any) also checks what is inside the element. After an error the reader's position is unchanged. It
/// never allocates. By BER more than 49 nested indefinite lengths are an error.
///
/// ```
/// use dumarewhi::{Reader, Tag};
///
/// // SEQUENCE { version [0] EXPLICIT INTEGER OPTIONAL, name UTF8String, critical BOOLEAN DEFAULT FALSE }
/// let input = [0x30, 0x09, 0xa0, 0x03, 0x02, 0x01, 0x02, 0x0c, 0x02, b'h', b'i'];
/// let mut reader = Reader::new(&input);
/// let (version, name, critical) = reader.open_sequence(|r| {
///     let version = r.optional_tagged(Tag::context(0), |r| r.u64())?;
///     let name = r.utf8_string()?;
///     let critical = r.optional(Tag::BOOLEAN, |r| r.boolean())?.unwrap_or(false);
///     Ok((version, name, critical))
/// })?;
/// reader.end()?;
/// assert_eq!((version, name, critical), (Some(2), "hi", false));
/// # Ok::<(), dumarewhi::Error>(())
/// ```
#[derive(Clone, Debug)]
pub struct Reader<'a> {
    cursor: Cursor<'a>,
    /// The largest depth of elements.
    max_depth: usize,
}

/// Calls that read a value of one type: what it is, its tag, the call of the cursor, and the value of what that reads.
macro_rules! values {
    ($($(#[$doc:meta])* $name:ident: $type:ty = $tag:ident, |$value:pat_param| $of:expr;)*) => {
        impl<'a> Reader<'a> {
            $($(#[$doc])* pub fn $name(&mut self) -> Result<$type> {
                self.next(Tag::$tag, Cursor::$name).map(|$value| $of)
            })*
        }
    };
}

values! {
    /// Reads a BOOLEAN.
    boolean: bool = BOOLEAN, |value| value != 0;
    /// Reads an INTEGER of any size.
    integer: Integer<'a> = INTEGER, |octets| octets.into();
    /// Reads an INTEGER from 0 to 2^64-1.
    u64: u64 = INTEGER, |number| number;
    /// Reads an INTEGER from -2^63 to 2^63-1.
    i64: i64 = INTEGER, |number| number;
    /// Reads a NULL.
    null: () = NULL, |()| ();
    /// Reads an OBJECT IDENTIFIER.
    ///
    /// ```
    /// use dumarewhi::Reader;
    ///
    /// let mut reader = Reader::new(&[0x06, 0x03, 0x55, 0x04, 0x03]);
    /// assert!(reader.oid()? == "2.5.4.3");
    /// # Ok::<(), dumarewhi::Error>(())
    /// ```
    oid: ObjectIdentifier<'a> = OBJECT_IDENTIFIER, |octets| octets.into();
    /// Reads an OCTET STRING.
    octets: &'a [u8] = OCTET_STRING, |octets| octets.into();
    /// Reads a BIT STRING.
    bits: BitString<'a> = BIT_STRING, |bits| bits.into();
    /// Reads a UTCTime.
    utc_time: Time = UTC_TIME, |time| time.into();
    /// Reads a GeneralizedTime.
    generalized_time: Time = GENERALIZED_TIME, |time| time.into();
}

impl<'a> Reader<'a> {
    /// A reader of elements in DER.
    pub fn new(input: &'a [u8]) -> Reader<'a> {
        Reader::with_rules(input, Rules::DER)
    }

    /// A reader of elements by these rules.
    ///
    /// ```
    /// use dumarewhi::{Reader, Rules};
    ///
    /// let input = [0x30, 0x80, 0x02, 0x01, 0x05, 0x00, 0x00];
    /// let mut reader = Reader::with_rules(&input, Rules::BER);
    /// assert_eq!(reader.open_sequence(|r| r.i64())?, 5);
    /// # Ok::<(), dumarewhi::Error>(())
    /// ```
    pub fn with_rules(input: &'a [u8], rules: Rules) -> Reader<'a> {
        let cursor = Cursor {
            left: ffi::Octets::of(input),
            rules: rules.is_der().into(),
            ..Cursor::default()
        };
        Reader {
            cursor,
            max_depth: rules.max_depth(),
        }
    }

    /// A reader of an element's octets, at this offset of the outermost input.
    pub(crate) fn inside(octets: &'a [u8], offset: usize, rules: Rules) -> Reader<'a> {
        let mut reader = Reader::with_rules(octets, rules);
        reader.cursor.offset = offset;
        reader.cursor.is_inside = 1;
        reader
    }

    fn rules(&self) -> Rules {
        match self.cursor.rules {
            0 => Rules::BER.with_max_depth(self.max_depth),
            _ => Rules::DER.with_max_depth(self.max_depth),
        }
    }

    /// The offset of the next element in the outermost input.
    pub fn offset(&self) -> usize {
        self.cursor.offset
    }

    /// The octets that aren't read yet.
    pub fn remaining(&self) -> &'a [u8] {
        self.cursor.left.get()
    }

    /// Whether all octets are read.
    pub fn is_empty(&self) -> bool {
        self.remaining().is_empty()
    }

    /// An error unless all octets are read.
    pub fn end(self) -> Result<()> {
        self.expect_end()
    }

    fn expect_end(&self) -> Result<()> {
        let left = |fault: Fault| Error::new(ErrorKind::TrailingData, fault.offset);
        self.cursor.end().map_err(left)
    }

    /// Whether an element with this tag is next, primitive or constructed.
    pub fn is_next(&self, tag: Tag) -> bool {
        self.cursor.is_next(tag)
    }

    /// The tag of the next element, or `None` at the end.
    ///
    /// ```
    /// use dumarewhi::{Reader, Tag};
    ///
    /// let mut reader = Reader::new(&[0x02, 0x01, 0x05]);
    /// assert_eq!(reader.peek()?, Some(Tag::INTEGER));
    /// assert_eq!(reader.i64()?, 5);
    /// assert_eq!(reader.peek()?, None);
    /// # Ok::<(), dumarewhi::Error>(())
    /// ```
    pub fn peek(&self) -> Result<Option<Tag>> {
        match self.is_empty() {
            true => Ok(None),
            false => self.clone().header().map(Some),
        }
    }

    /// Reads an element of any type, whose content isn't checked, and returns its tag.
    fn header(&mut self) -> Result<Tag> {
        let fields = self.cursor.any().map_err(|fault| self.error(fault, None))?;
        Ok(Tag::of(fields.tag_class, fields.number))
    }

    /// Reads by a call for the type with this tag, or for the implicit tag in its place.
    fn next<T>(&mut self, tag: Tag, call: impl FnOnce(&mut Cursor<'a>) -> Result<T, Fault>) -> Result<T> {
        if self.max_depth == 0 {
            return Err(Error::new(ErrorKind::Malformed(Reason::MAX_DEPTH), self.offset()));
        }
        call(&mut self.cursor).map_err(|fault| self.error(fault, Some(tag)))
    }

    /// The error of the next element, which should have the implicit tag that is expected, or else this one.
    #[cold]
    fn error(&self, fault: Fault, tag: Option<Tag>) -> Error {
        let expected = self.cursor.implicit_tag().or(tag);
        let kind = match (Reason(fault.error), expected) {
            _ if self.is_empty() && self.cursor.is_inside != 0 => ErrorKind::MissingElement,
            (Reason::UNEXPECTED_TAG | Reason::UNEXPECTED_CLASS, expected) => match self.peek() {
                Ok(Some(actual)) => ErrorKind::UnexpectedTag { expected, actual },
                _ => Error::of_fault(fault).kind(),
            },
            (Reason::CONSTRUCTED_EXPECTED, Some(tag)) => ErrorKind::ConstructedExpected(tag),
            (Reason::PRIMITIVE_EXPECTED, Some(tag)) => ErrorKind::PrimitiveExpected(tag),
            (Reason::INVALID_TIME, Some(tag))
                if tag.class == Class::Universal && self.clone().any().is_ok() =>
            {
                ErrorKind::Value(Reason::INVALID_TIME)
            }
            (reason @ Reason::INVALID_CHARACTER, _) => ErrorKind::Value(reason),
            _ => Error::of_fault(fault).kind(),
        };
        Error::new(kind, fault.offset)
    }

    /// Whether the value that is next may begin with such a tag, or has the implicit tag. If not, that is forgotten.
    pub(crate) fn has(&mut self, begins_with: impl FnOnce(Tag) -> bool) -> Result<bool> {
        let has = match self.cursor.implicit_tag() {
            Some(tag) => self.is_next(tag),
            None => self.peek()?.map_or(false, begins_with),
        };
        if !has {
            self.cursor.implicit = 0;
        }
        Ok(has)
    }

    /// Reads with the function. After an error the position is unchanged.
    pub(crate) fn attempt<T>(&mut self, function: impl FnOnce(&mut Reader<'a>) -> Result<T>) -> Result<T> {
        let before = self.cursor;
        let value = function(self);
        if value.is_err() {
            self.cursor = before;
        }
        value
    }

    /// Reads a value.
    ///
    /// ```
    /// use dumarewhi::Reader;
    ///
    /// let mut reader = Reader::new(&[0x01, 0x01, 0xff, 0x02, 0x01, 0x07]);
    /// assert!(reader.value::<bool>()?);
    /// assert_eq!(reader.value::<Option<&str>>()?, None);
    /// assert_eq!(reader.value::<u64>()?, 7);
    /// # Ok::<(), dumarewhi::Error>(())
    /// ```
    pub fn value<T: Decode<'a>>(&mut self) -> Result<T> {
        T::decode(self)
    }

    /// Reads a value, or returns its default if it is absent. By DER an encoded default is an error (X.690 11.5).
    ///
    /// ```
    /// use dumarewhi::Reader;
    ///
    /// assert!(!Reader::new(&[]).value_or(false)?);
    /// assert!(Reader::new(&[0x01, 0x01, 0xff]).value_or(false)?);
    /// assert!(Reader::new(&[0x01, 0x01, 0x00]).value_or(false).is_err());
    /// # Ok::<(), dumarewhi::Error>(())
    /// ```
    pub fn value_or<T: Decode<'a> + PartialEq>(&mut self, default: T) -> Result<T> {
        let offset = self.offset();
        self.attempt(|r| match r.value::<Option<T>>()? {
            Some(value) if r.rules().is_der() && value == default => {
                let text = "a default value is written (X.690 11.5)";
                Err(Error::new(ErrorKind::Other(text), offset))
            }
            value => Ok(value.unwrap_or(default)),
        })
    }

    /// Reads an element of any type and checks what is inside it.
    ///
    /// ```
    /// use dumarewhi::Reader;
    ///
    /// let mut reader = Reader::new(&[0x05, 0x00, 0x02, 0x01, 0x07]);
    /// assert!(reader.any()?.is_null());
    /// assert_eq!(reader.any()?.octets(), [0x02, 0x01, 0x07]);
    /// # Ok::<(), dumarewhi::Error>(())
    /// ```
    pub fn any(&mut self) -> Result<Any<'a>> {
        self.attempt(|r| {
            let (octets, offset) = (r.remaining(), r.offset());
            r.header()?;
            let length = octets.len().saturating_sub(r.remaining().len());
            let octets = octets.get(..length).unwrap_or_default();
            let element = r
                .rules()
                .list_first(octets)
                .map_err(|error| error.after(offset))?;
            Ok(Any::new(octets, element, offset, r.rules()))
        })
    }

    /// Reads a SEQUENCE. The function must read all its elements.
    pub fn open_sequence<T>(&mut self, function: impl FnOnce(&mut Reader<'a>) -> Result<T>) -> Result<T> {
        self.list(Tag::SEQUENCE, Cursor::sequence, function)
    }

    /// Reads a SET. The function must read all its elements.
    ///
    /// ```
    /// use dumarewhi::Reader;
    ///
    /// // SET OF INTEGER
    /// let mut reader = Reader::new(&[0x31, 0x06, 0x02, 0x01, 0x05, 0x02, 0x01, 0x07]);
    /// let numbers = reader.open_set(|r| {
    ///     let mut numbers = Vec::new();
    ///     while !r.is_empty() {
    ///         numbers.push(r.u64()?);
    ///     }
    ///     Ok(numbers)
    /// })?;
    /// assert_eq!(numbers, [5, 7]);
    /// # Ok::<(), dumarewhi::Error>(())
    /// ```
    pub fn open_set<T>(&mut self, function: impl FnOnce(&mut Reader<'a>) -> Result<T>) -> Result<T> {
        self.list(Tag::SET, Cursor::set, function)
    }

    /// Reads a constructed element with this tag: an EXPLICIT tag, or a SEQUENCE or SET under an IMPLICIT one. The
    /// function must read all elements inside it.
    ///
    /// ```
    /// use dumarewhi::{Reader, Tag};
    ///
    /// // [APPLICATION 1] IMPLICIT SEQUENCE { INTEGER, [0] EXPLICIT INTEGER }
    /// let mut reader = Reader::new(&[0x61, 0x08, 0x02, 0x01, 0x05, 0xa0, 0x03, 0x02, 0x01, 0x07]);
    /// let pair = reader.open_tagged(Tag::application(1), |r| {
    ///     Ok((r.u64()?, r.open_tagged(Tag::context(0), |r| r.u64())?))
    /// })?;
    /// assert_eq!(pair, (5, 7));
    /// # Ok::<(), dumarewhi::Error>(())
    /// ```
    pub fn open_tagged<T>(
        &mut self,
        tag: Tag,
        function: impl FnOnce(&mut Reader<'a>) -> Result<T>,
    ) -> Result<T> {
        self.list(tag, |cursor| cursor.content(tag, true), function)
    }

    fn list<T>(
        &mut self,
        tag: Tag,
        call: impl FnOnce(&mut Cursor<'a>) -> Result<Cursor<'a>, Fault>,
        function: impl FnOnce(&mut Reader<'a>) -> Result<T>,
    ) -> Result<T> {
        self.attempt(|r| {
            let mut items = Reader {
                cursor: r.next(tag, call)?,
                max_depth: r.rules().inside().max_depth(),
            };
            let value = function(&mut items)?;
            items.expect_end()?;
            Ok(value)
        })
    }

    /// The next element has this IMPLICIT tag instead of its type's. For a SEQUENCE or SET call
    /// [`open_tagged`](Reader::open_tagged).
    ///
    /// ```
    /// use dumarewhi::{Reader, Tag};
    ///
    /// // dNSName [2] IMPLICIT IA5String
    /// let mut reader = Reader::new(&[0x82, 0x03, b'a', b'.', b'b', 0x81, 0x02, 0x00, 0x05]);
    /// assert_eq!(reader.implicit(Tag::context(2)).ia5_string()?, "a.b");
    /// // [1] IMPLICIT INTEGER, with a leading zero that DER doesn't allow
    /// assert!(reader.implicit(Tag::context(1)).u64().is_err());
    /// # Ok::<(), dumarewhi::Error>(())
    /// ```
    pub fn implicit(&mut self, tag: Tag) -> &mut Reader<'a> {
        self.cursor.implicit = (tag.class as u32).saturating_add(1);
        self.cursor.number = tag.number;
        self
    }

    /// Reads with the function if the next element has this tag.
    pub fn optional<T>(
        &mut self,
        tag: Tag,
        function: impl FnOnce(&mut Reader<'a>) -> Result<T>,
    ) -> Result<Option<T>> {
        match self.is_next(tag) {
            true => function(self).map(Some),
            false => Ok(None),
        }
    }

    /// Reads as [`open_tagged`](Reader::open_tagged) if the next element has this tag.
    pub fn optional_tagged<T>(
        &mut self,
        tag: Tag,
        function: impl FnOnce(&mut Reader<'a>) -> Result<T>,
    ) -> Result<Option<T>> {
        self.optional(tag, |reader| reader.open_tagged(tag, function))
    }

    /// Reads an ENUMERATED from -2^63 to 2^63-1 (X.690 8.4).
    pub fn enumerated(&mut self) -> Result<i64> {
        let tag = self.cursor.implicit_tag().unwrap_or(Tag::ENUMERATED);
        self.attempt(|r| r.implicit(tag).i64())
    }

    /// Reads a UTF8String.
    pub fn utf8_string(&mut self) -> Result<&'a str> {
        self.text(Tag::UTF8_STRING)
    }

    /// Reads a PrintableString.
    pub fn printable_string(&mut self) -> Result<&'a str> {
        self.text(Tag::PRINTABLE_STRING)
    }

    /// Reads an IA5String.
    pub fn ia5_string(&mut self) -> Result<&'a str> {
        self.text(Tag::IA5_STRING)
    }

    /// Reads a character string of any type of [`Any::as_str`].
    pub fn any_text(&mut self) -> Result<&'a str> {
        let tag = self.peek()?.unwrap_or(Tag::UTF8_STRING);
        self.text(tag)
    }

    /// Reads a character string of the type with this tag.
    pub fn text(&mut self, tag: Tag) -> Result<&'a str> {
        let offset = self.offset();
        if !tag.is_text() {
            let (expected, actual) = (None, tag);
            return Err(Error::new(ErrorKind::UnexpectedTag { expected, actual }, offset));
        }
        self.attempt(|r| {
            let text = r.next(tag, |cursor| cursor.text(tag))?;
            core::str::from_utf8(text.get())
                .map_err(|_| Error::new(ErrorKind::Other("the text isn't UTF-8"), offset))
        })
    }

    /// Reads a UTCTime or a GeneralizedTime; under an implicit tag a GeneralizedTime.
    pub fn time(&mut self) -> Result<Time> {
        match self.is_next(Tag::UTC_TIME) {
            true => self.utc_time(),
            false => self.generalized_time(),
        }
    }
}
