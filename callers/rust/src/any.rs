//! One element and its value.
use crate::element::{whole, Rules};
use crate::error::{ErrorKind, Result};
use crate::{BitString, Class, Element, Error, Integer, ObjectIdentifier, Reader, Tag, Time};
use core::fmt;
use core::hash::{Hash, Hasher};
use core::ops::Range;

/// An element of any type.
///
/// Its `as_` calls return a value if the element has the tag of that type. Its parts are slices of the input. Two
/// elements are equal if their tags and octets are, at any offset.
///
/// ```
/// use dumarewhi::{Any, Tag};
///
/// let any = Any::from_der(&[0x0c, 0x02, b'h', b'i'])?;
/// assert_eq!(any.tag(), Tag::UTF8_STRING);
/// assert_eq!(any.as_str()?, "hi");
/// assert_eq!((any.header(), any.content()), (&[0x0c, 0x02][..], &b"hi"[..]));
/// assert!(any.as_u64().is_err());
/// # Ok::<(), dumarewhi::Error>(())
/// ```
#[derive(Clone, Copy)]
pub struct Any<'a> {
    input: &'a [u8],
    /// Its offsets in the input.
    element: Element,
    /// Offset of the input in the outermost one.
    base: usize,
    rules: Rules,
}

impl<'a> Any<'a> {
    /// Reads an input that is one element in DER, and checks what is inside it.
    pub fn from_der(input: &'a [u8]) -> Result<Any<'a>> {
        whole(input, Rules::DER.any(input)?)
    }

    /// Reads by BER, as [`from_der`](Any::from_der) does by DER.
    pub fn from_ber(input: &'a [u8]) -> Result<Any<'a>> {
        whole(input, Rules::BER.any(input)?)
    }

    /// The element at its offset in an input that begins at `base` of the outermost one.
    pub(crate) fn new(input: &'a [u8], element: Element, base: usize, rules: Rules) -> Any<'a> {
        Any {
            input,
            element,
            base,
            rules,
        }
    }

    /// The tag.
    pub fn tag(&self) -> Tag {
        self.element.tag()
    }

    /// Whether it is constructed, by its identifier octets (X.690 8.1.2.5).
    pub fn is_constructed(&self) -> bool {
        self.element.is_constructed()
    }

    /// The offset of the content octets in the input.
    pub fn content_offset(&self) -> usize {
        self.base.saturating_add(self.element.content)
    }

    /// The rules that the element was read by.
    #[cfg(feature = "alloc")]
    pub(crate) fn rules(&self) -> Rules {
        self.rules
    }

    /// A part of the input, in which it is.
    fn part(&self, range: Range<usize>) -> &'a [u8] {
        self.input.get(range).unwrap_or_default()
    }

    /// Reads it as a value of a type with this tag.
    fn read<T>(&self, tag: Tag, read: impl FnOnce(&mut Reader<'a>) -> Result<T>) -> Result<T> {
        if self.tag() != tag {
            return Err(self.unexpected(Some(tag)));
        }
        let mut reader = Reader::inside(self.octets(), self.offset(), self.rules);
        read(reader.implicit(tag))
    }

    fn unexpected(&self, expected: Option<Tag>) -> Error {
        let actual = self.tag();
        Error::new(ErrorKind::UnexpectedTag { expected, actual }, self.offset())
    }

    /// Reads an INTEGER, or an ENUMERATED, which is one but for its tag (X.690 8.4).
    fn read_number<T>(&self, read: impl FnOnce(&mut Reader<'a>) -> Result<T>) -> Result<T> {
        match self.tag() {
            Tag::ENUMERATED => self.read(Tag::ENUMERATED, read),
            _ => self.read(Tag::INTEGER, read),
        }
    }
}

/// Calls of an [`Any`], which a [`Node`](crate::Node) has too.
macro_rules! calls {
    ($($(#[$doc:meta])* $name:ident: $type:ty = |$it:ident| $value:expr;)*) => {
        impl<'a> Any<'a> {
            $($(#[$doc])* pub fn $name(&self) -> $type {
                let $it = self;
                $value
            })*
        }

        #[cfg(feature = "alloc")]
        impl<'a> crate::Node<'_, 'a> {
            $($(#[$doc])* pub fn $name(&self) -> $type {
                self.any().$name()
            })*
        }
    };
}

calls! {
    /// The class of the tag.
    class: Class = |it| it.tag().class;
    /// The offset of the element in the input.
    offset: usize = |it| it.base.saturating_add(it.element.header);
    /// The identifier and length octets.
    header: &'a [u8] = |it| it.part(it.element.header_range());
    /// The content octets, without end-of-contents octets.
    content: &'a [u8] = |it| it.part(it.element.content_range());
    /// All octets: header, content, and the end-of-contents octets (X.690 8.1.5) after an indefinite length.
    octets: &'a [u8] = |it| it.part(it.element.range());
    /// A reader of the elements inside a constructed element, by the same rules.
    ///
    /// ```
    /// use dumarewhi::Any;
    ///
    /// let any = Any::from_der(&[0xa0, 0x03, 0x02, 0x01, 0x02])?;
    /// let mut reader = any.reader()?;
    /// assert_eq!(reader.u64()?, 2);
    /// reader.end()?;
    /// # Ok::<(), dumarewhi::Error>(())
    /// ```
    reader: Result<Reader<'a>> = |it| match it.is_constructed() {
        true => Ok(Reader::inside(it.content(), it.content_offset(), it.rules.inside())),
        false => Err(Error::new(ErrorKind::ConstructedExpected(it.tag()), it.offset())),
    };
    /// A BOOLEAN (X.690 8.2).
    as_bool: Result<bool> = |it| it.read(Tag::BOOLEAN, Reader::boolean);
    /// An INTEGER or an ENUMERATED from 0 to 2^64-1.
    as_u64: Result<u64> = |it| it.read_number(Reader::u64);
    /// An INTEGER or an ENUMERATED from -2^63 to 2^63-1.
    as_i64: Result<i64> = |it| it.read_number(Reader::i64);
    /// An INTEGER or an ENUMERATED of any size.
    as_integer: Result<Integer<'a>> = |it| it.read_number(Reader::integer);
    /// An OBJECT IDENTIFIER (X.690 8.19).
    as_oid: Result<ObjectIdentifier<'a>> = |it| it.read(Tag::OBJECT_IDENTIFIER, Reader::oid);
    /// A character string (X.690 8.23): UTF8String, NumericString, PrintableString, IA5String, VisibleString,
    /// TeletexString, VideotexString, GraphicString, GeneralString or ObjectDescriptor. The last five are read as
    /// UTF-8. A BMPString or UniversalString is no `&str`: take its content octets.
    as_str: Result<&'a str> = |it| match it.tag().is_text() {
        true => it.read(it.tag(), |reader| reader.text(it.tag())),
        false => Err(it.unexpected(None)),
    };
    /// An OCTET STRING (X.690 8.7). The parts of a constructed one aren't joined: [`reader`](Any::reader) reads them.
    as_bytes: Result<&'a [u8]> = |it| it.read(Tag::OCTET_STRING, Reader::octets);
    /// A BIT STRING (X.690 8.6).
    as_bit_string: Result<BitString<'a>> = |it| it.read(Tag::BIT_STRING, Reader::bits);
    /// A UTCTime or a GeneralizedTime (X.690 11.7 and 11.8).
    as_time: Result<Time> = |it| match it.tag() {
        Tag::UTC_TIME => it.read(Tag::UTC_TIME, Reader::utc_time),
        _ => it.read(Tag::GENERALIZED_TIME, Reader::generalized_time),
    }.map_err(Error::without_value);
    /// Whether it is a NULL (X.690 8.8).
    is_null: bool = |it| it.tag() == Tag::NULL;
}

impl Rules {
    /// Reads the first element, and checks what is inside it. Returns the rest of the input, and the element.
    ///
    /// ```
    /// use dumarewhi::Rules;
    ///
    /// let (rest, any) = Rules::DER.any(&[0x02, 0x01, 0x05, 0x05, 0x00])?;
    /// assert_eq!((rest, any.as_i64()?), (&[0x05, 0x00][..], 5));
    /// # Ok::<(), dumarewhi::Error>(())
    /// ```
    pub fn any(self, input: &[u8]) -> Result<(&[u8], Any<'_>)> {
        let element = self.list_first(input)?;
        let rest = input.get(element.range().end..).unwrap_or_default();
        Ok((rest, Any::new(input, element, 0, self)))
    }

    /// The first element, with what is inside it checked.
    pub(crate) fn list_first(self, input: &[u8]) -> Result<Element> {
        let mut elements = [Element::default()];
        self.list(input, &mut elements)?;
        let [element] = elements;
        Ok(element)
    }
}

forward!(TryFrom by from_der for Any, Error);
forward!(AsRef by octets for Any<'_>);

impl PartialEq for Any<'_> {
    fn eq(&self, other: &Self) -> bool {
        (self.tag(), self.octets()) == (other.tag(), other.octets())
    }
}

impl Eq for Any<'_> {}

impl Hash for Any<'_> {
    fn hash<H: Hasher>(&self, state: &mut H) {
        (self.tag(), self.octets()).hash(state);
    }
}

impl fmt::Debug for Any<'_> {
    fn fmt(&self, f: &mut fmt::Formatter<'_>) -> fmt::Result {
        f.debug_struct("Any")
            .field("tag", &self.tag())
            .field("constructed", &self.is_constructed())
            .field("offset", &self.offset())
            .field("content", &self.content())
            .finish()
    }
}
