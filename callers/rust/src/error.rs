//! Why an input can't be read, or a value can't be written.
use crate::ffi::{self, Fault};
use crate::x509::Field;
use crate::{Rules, Tag};
use core::fmt;

/// Why an input can't be read or has no such value, and where. An error of a certificate also has the field, and
/// displays it.
///
/// ```
/// use dumarewhi::{check_der, ErrorKind};
///
/// // The BOOLEAN at 2 has the octet 7f (X.690 11.1).
/// let error = check_der(&[0x30, 0x03, 0x01, 0x01, 0x7f]).unwrap_err();
/// assert_eq!(error.offset(), 2);
/// assert!(matches!(error.kind(), ErrorKind::Malformed(_)));
///
/// // One more octet may complete this INTEGER.
/// let error = check_der(&[0x02]).unwrap_err();
/// assert!(error.is_incomplete());
/// ```
#[derive(Clone, Copy, PartialEq, Eq, Hash)]
pub struct Error {
    kind: ErrorKind,
    /// The library's error of a certificate; for another input only its offset.
    fault: Fault,
    /// Of a certificate: the tag of the element, if it isn't the expected one.
    found: Option<Tag>,
    /// Of a certificate: whether the input is PEM.
    is_pem: bool,
}

/// What is wrong.
#[derive(Clone, Copy, Debug, PartialEq, Eq, Hash)]
#[non_exhaustive]
pub enum ErrorKind {
    /// The input breaks a rule of its encoding. More input doesn't help.
    Malformed(Reason),
    /// The content octets have no value of this type, such as a number above `u64`, or a time of BER that isn't a
    /// [`Time`](crate::Time).
    Value(Reason),
    /// The input is cut short: more octets may complete it.
    Incomplete {
        /// Number of missing octets, as far as the input shows: up to the end of the outermost element, once its header
        /// gives its length.
        missing: usize,
    },
    /// An element runs past the end of content that [`Node::parse_content`] reads. More input doesn't help. In other
    /// content this is [`Reason::OVERRUN`].
    ///
    /// [`Node::parse_content`]: crate::Node::parse_content
    Overrun {
        /// Number of octets that the content lacks.
        missing: usize,
    },
    /// There is trailing data where the input, or the content of an element, should end.
    TrailingData,
    /// The content of an element ends where another element is expected.
    MissingElement,
    /// An element has another tag than the expected one.
    UnexpectedTag {
        /// The expected tag, if there is only one.
        expected: Option<Tag>,
        /// The tag of the element.
        actual: Tag,
    },
    /// An element with this tag is primitive instead of constructed.
    ConstructedExpected(Tag),
    /// An element with this tag is constructed instead of primitive.
    PrimitiveExpected(Tag),
    /// An element is longer than the limit of a [`Buffer`](crate::Buffer).
    TooLong {
        /// The limit in octets.
        limit: usize,
    },
    /// The buffer of a [`Writer`](crate::Writer) is too small.
    NoRoom {
        /// Number of octets that are needed.
        needed: usize,
    },
    /// An allocation failed.
    OutOfMemory,
    /// An error of your own.
    Other(&'static str),
}

/// The number of an error in `dumarewhi.h`. It displays as its text.
///
/// ```
/// use dumarewhi::{check_der, ErrorKind, Reason};
///
/// let error = check_der(&[0x01, 0x01, 0x7f]).unwrap_err();
/// assert_eq!(error.kind(), ErrorKind::Malformed(Reason::BOOLEAN_VALUE));
/// assert_eq!(Reason::BOOLEAN_VALUE.to_string(), "a BOOLEAN is neither 00 nor ff (X.690 11.1)");
/// assert_eq!(format!("{:?}", error.kind()), "Malformed(BOOLEAN_VALUE)");
/// ```
#[derive(Clone, Copy, PartialEq, Eq, Hash, PartialOrd, Ord)]
pub struct Reason(pub(crate) u32);

/// The result of a call of this crate.
pub type Result<T, E = Error> = core::result::Result<T, E>;

impl Error {
    /// An error at this offset. Make your own errors with [`ErrorKind::Other`].
    ///
    /// ```
    /// use dumarewhi::{Error, ErrorKind};
    ///
    /// let error = Error::new(ErrorKind::Other("the version isn't 3"), 4);
    /// assert_eq!(error.to_string(), "the version isn't 3 at offset 4");
    /// ```
    pub const fn new(kind: ErrorKind, offset: usize) -> Error {
        let fault = Fault {
            offset,
            list_end: 0,
            needed: 0,
            status: ffi::OK,
            error: 0,
            field: 0,
            is_in_list: 0,
        };
        Error {
            kind,
            fault,
            found: None,
            is_pem: false,
        }
    }

    /// What the library says of a certificate, or of a field.
    pub(crate) fn of_fault(fault: Fault) -> Error {
        let kind = match (fault.status, Reason(fault.error)) {
            (ffi::INCOMPLETE, _) => ErrorKind::Incomplete {
                missing: fault.needed,
            },
            (_, reason @ (Reason::INTEGER_TOO_LARGE | Reason::INTEGER_NEGATIVE)) => ErrorKind::Value(reason),
            (_, reason) => ErrorKind::Malformed(reason),
        };
        Error {
            fault,
            ..Error::new(kind, fault.offset)
        }
    }

    /// What the library says of this input.
    pub(crate) fn of_input(fault: Fault, input: &[u8]) -> Error {
        let found = match Reason(fault.error) {
            Reason::UNEXPECTED_TAG | Reason::UNEXPECTED_CLASS => input.get(fault.offset..),
            _ => None,
        };
        let found = found.and_then(|octets| Rules::DER.first(octets).ok());
        Error {
            found: found.map(|element| element.tag()),
            is_pem: input.starts_with(b"-----BEGIN"),
            ..Error::of_fault(fault)
        }
    }

    /// What is wrong.
    pub const fn kind(&self) -> ErrorKind {
        self.kind
    }

    /// The offset of the innermost element that is wrong. If the input is cut short: its end, or from a
    /// [`Reader`](crate::Reader) and of a certificate the offset of the unfinished element.
    pub const fn offset(&self) -> usize {
        self.fault.offset
    }

    /// The first wrong field of a certificate. [`Field::None`] for another input.
    pub fn field(&self) -> Field {
        Field::from_number(self.fault.field)
    }

    /// For a certificate: the end of the element around the wrong one. `None` if it is outermost.
    pub fn list_end(&self) -> Option<usize> {
        (self.fault.is_in_list != 0).then_some(self.fault.list_end)
    }

    /// Of a certificate: the tag of the element, if it isn't the expected one.
    ///
    /// ```
    /// use dumarewhi::{x509::Certificate, Tag};
    ///
    /// let error = Certificate::from_der(&[0x30, 0x02, 0x6a, 0x00]).unwrap_err();
    /// assert_eq!(error.found(), Some(Tag::application(10)));
    /// assert_eq!(error.to_string(), "tbsCertificate at 2: unexpected class, found [APPLICATION 10]");
    /// ```
    pub const fn found(&self) -> Option<Tag> {
        self.found
    }

    /// The broken rule, if it has a number.
    pub const fn reason(&self) -> Option<Reason> {
        match self.kind {
            ErrorKind::Malformed(reason) | ErrorKind::Value(reason) => Some(reason),
            _ => None,
        }
    }

    /// Whether more input may help.
    pub const fn is_incomplete(&self) -> bool {
        matches!(self.kind, ErrorKind::Incomplete { .. })
    }

    /// Number of missing octets, as far as the input shows, if more input may help.
    pub const fn missing(&self) -> Option<usize> {
        match self.kind {
            ErrorKind::Incomplete { missing } => Some(missing),
            _ => None,
        }
    }

    /// For a certificate: number of octets that an element needs, as far as the input shows, if it is cut short or runs
    /// past the end of the element around it.
    pub fn needed(&self) -> Option<usize> {
        (self.fault.needed != 0).then_some(self.fault.needed)
    }

    /// The same error of an input that begins at this offset of another one, and has no octets after it there.
    #[cfg(feature = "alloc")]
    pub(crate) fn inside(self, offset: usize) -> Error {
        let kind = match self.kind {
            ErrorKind::Incomplete { missing } => ErrorKind::Overrun { missing },
            kind => kind,
        };
        Error::new(kind, self.offset()).after(offset)
    }

    /// The same error of content octets that keep the rules of their type: so they have no value.
    pub(crate) fn without_value(self) -> Error {
        match self.kind {
            ErrorKind::Malformed(reason) => Error {
                kind: ErrorKind::Value(reason),
                ..self
            },
            _ => self,
        }
    }

    /// The same error of an input that begins at this offset of another one.
    pub(crate) fn after(self, offset: usize) -> Error {
        Error::new(self.kind, self.offset().saturating_add(offset))
    }
}

/// What the function makes of a text that is written to a slice, and whose length is returned. One of more than `N`
/// octets is written in memory that is allocated for it: without the feature `alloc` there is none.
pub(crate) fn with_text<const N: usize, T>(
    write: impl Fn(&mut [u8]) -> Option<usize>,
    function: impl FnOnce(&str) -> T,
) -> Option<T> {
    let mut short = [0; N];
    let length = write(&mut short)?;
    if let Some(text) = short.get(..length) {
        return core::str::from_utf8(text).ok().map(function);
    }
    #[cfg(feature = "alloc")]
    let mut long = alloc::vec![0; length];
    #[cfg(not(feature = "alloc"))]
    let mut long = [];
    write(&mut long)?;
    core::str::from_utf8(long.get(..length)?).ok().map(function)
}

/// Shows a text that is written to a slice.
pub(crate) fn show(f: &mut fmt::Formatter<'_>, write: impl Fn(&mut [u8]) -> usize) -> fmt::Result {
    with_text::<{ ffi::TEXT_OCTETS }, _>(|text| Some(write(text)), |text| f.write_str(text))
        .unwrap_or(Err(fmt::Error))
}

impl Reason {
    /// The number.
    pub const fn number(self) -> u32 {
        self.0
    }
}

/// The name of its constant, or its number.
impl fmt::Debug for Reason {
    fn fmt(&self, f: &mut fmt::Formatter<'_>) -> fmt::Result {
        match self.name() {
            Some(name) => f.write_str(name),
            None => write!(f, "Reason({})", self.0),
        }
    }
}

impl fmt::Display for Reason {
    fn fmt(&self, f: &mut fmt::Formatter<'_>) -> fmt::Result {
        show(f, |text| ffi::error_text(self.0, text))
    }
}

impl fmt::Display for ErrorKind {
    fn fmt(&self, f: &mut fmt::Formatter<'_>) -> fmt::Result {
        match self {
            ErrorKind::Malformed(reason) | ErrorKind::Value(reason) => reason.fmt(f),
            ErrorKind::Incomplete { missing } => write!(f, "incomplete, needs {missing}"),
            ErrorKind::Overrun { missing: past } => {
                write!(f, "an element runs {past} past the end of the content around it")
            }
            ErrorKind::TrailingData => f.write_str("octets are left"),
            ErrorKind::MissingElement => f.write_str("an element is missing"),
            ErrorKind::UnexpectedTag { expected, actual } => match expected {
                Some(expected) => write!(f, "unexpected tag (expected {expected}, actual {actual})"),
                None => write!(f, "unexpected tag {actual}"),
            },
            ErrorKind::ConstructedExpected(tag) => write!(f, "constructed encoding expected for {tag}"),
            ErrorKind::PrimitiveExpected(tag) => write!(f, "primitive encoding expected for {tag}"),
            ErrorKind::TooLong { limit } => write!(f, "an element is longer than {limit} octets"),
            ErrorKind::NoRoom { needed } => write!(f, "no room, needs {needed}"),
            ErrorKind::OutOfMemory => f.write_str("out of memory"),
            ErrorKind::Other(text) => f.write_str(text),
        }
    }
}

/// With the name of its kind, and of a certificate with that of its field.
impl fmt::Debug for Error {
    fn fmt(&self, f: &mut fmt::Formatter<'_>) -> fmt::Result {
        let mut shown = f.debug_struct("Error");
        shown.field("kind", &self.kind).field("offset", &self.offset());
        if self.field() != Field::None {
            shown.field("field", &self.field());
        }
        shown.finish()
    }
}

impl fmt::Display for Error {
    fn fmt(&self, f: &mut fmt::Formatter<'_>) -> fmt::Result {
        if self.fault.status == ffi::OK {
            return write!(f, "{} at offset {}", self.kind, self.offset());
        }
        if self.is_pem {
            return Reason::PEM_INPUT.fmt(f);
        }
        show(f, |text| ffi::fault_text(&self.fault, text))?;
        self.found.map_or(Ok(()), |tag| write!(f, ", found {tag}"))
    }
}

#[cfg(feature = "std")]
impl std::error::Error for Error {}

#[cfg(feature = "std")]
impl std::error::Error for Reason {}

/// `UnexpectedEof` if the input is cut short, `OutOfMemory` if an allocation failed, else `InvalidData`.
#[cfg(feature = "std")]
impl From<Error> for std::io::Error {
    fn from(error: Error) -> std::io::Error {
        let kind = match error.kind {
            ErrorKind::Incomplete { .. } => std::io::ErrorKind::UnexpectedEof,
            ErrorKind::OutOfMemory => std::io::ErrorKind::OutOfMemory,
            _ => std::io::ErrorKind::InvalidData,
        };
        std::io::Error::new(kind, error)
    }
}

#[cfg(test)]
mod tests;
