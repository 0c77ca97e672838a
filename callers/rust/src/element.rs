//! Elements in a buffer of the caller's, without allocating.
use crate::error::{ErrorKind, Reason, Result};
use crate::ffi::{self, Element, Outcome};
use crate::{Error, Tag};
use core::ops::Range;

/// The default and largest depth of elements; [`Rules::with_max_depth`] allows less. The outermost element has depth 1.
/// A level takes at most 1024 octets of stack, as measured.
pub const MAX_DEPTH: usize = ffi::MAX_DEPTH;

/// BER or DER, and the largest depth of elements.
///
/// Its calls read the first element of an input and leave the rest.
///
/// ```
/// use dumarewhi::Rules;
///
/// // A SEQUENCE of indefinite length (X.690 8.1.3.6) with a NULL, and another NULL.
/// let input = [0x30, 0x80, 0x05, 0x00, 0x00, 0x00, 0x05, 0x00];
/// let found = Rules::BER.check(&input)?;
/// assert_eq!((found.elements, found.length), (2, 6));
/// assert!(Rules::DER.check(&input).is_err());
/// assert!(Rules::BER.with_max_depth(1).check(&input).is_err());
/// # Ok::<(), dumarewhi::Error>(())
/// ```
#[derive(Clone, Copy, Debug, PartialEq, Eq, Hash)]
pub struct Rules {
    der: bool,
    max_depth: usize,
}

/// The size of the first element of an input.
#[derive(Clone, Copy, Debug, PartialEq, Eq, Hash)]
pub struct Found {
    /// Number of elements: itself and those inside it.
    pub elements: usize,
    /// Number of octets, with its header and end-of-contents octets.
    pub length: usize,
}

impl Rules {
    /// The Basic Encoding Rules (X.690 clause 8), to [`MAX_DEPTH`].
    pub const BER: Rules = Rules {
        der: false,
        max_depth: MAX_DEPTH,
    };

    /// The Distinguished Encoding Rules (X.690 clauses 8, 10 and 11), to [`MAX_DEPTH`].
    pub const DER: Rules = Rules {
        der: true,
        max_depth: MAX_DEPTH,
    };

    /// The same rules with another depth, at most [`MAX_DEPTH`]. With 1 no element may be inside another.
    pub const fn with_max_depth(self, max_depth: usize) -> Rules {
        Rules {
            der: self.der,
            max_depth,
        }
    }

    /// The largest depth of elements.
    pub const fn max_depth(self) -> usize {
        self.max_depth
    }

    /// Whether the rules are those of DER.
    pub const fn is_der(self) -> bool {
        self.der
    }

    /// Checks the first element, and counts those inside it.
    pub fn check(self, input: &[u8]) -> Result<Found> {
        found(ffi::check(self.der, input, self.max_depth), input)
    }

    /// Lists the first element and those inside it in preorder. If the buffer is too small, it gets the first ones;
    /// [`Found::elements`] counts all. After an error its contents are unspecified.
    pub fn list(self, input: &[u8], elements: &mut [Element]) -> Result<Found> {
        found(ffi::list(self.der, input, self.max_depth, elements), input)
    }

    /// Returns the number of octets of the first element, without checking its content. More than 49 nested indefinite
    /// lengths are an error.
    ///
    /// ```
    /// use dumarewhi::Rules;
    ///
    /// assert_eq!(Rules::DER.first_length(&[0x04, 0x02, 0x61, 0x62, 0x05])?, 4);
    /// let error = Rules::DER.first_length(&[0x04, 0x02, 0x61]).unwrap_err();
    /// assert_eq!(error.missing(), Some(1));
    /// # Ok::<(), dumarewhi::Error>(())
    /// ```
    pub fn first_length(self, input: &[u8]) -> Result<usize> {
        found(ffi::first(self.der, input).0, input).map(|found| found.length)
    }

    /// Returns the first element without checking or counting what is inside it. More than 49 nested indefinite lengths
    /// are an error.
    ///
    /// ```
    /// use dumarewhi::{Rules, Tag};
    ///
    /// let element = Rules::DER.first(&[0x30, 0x02, 0xff, 0xff, 0x05])?;
    /// assert_eq!(element.tag(), Tag::SEQUENCE);
    /// assert_eq!((element.content_range(), element.descendants()), (2..4, 0));
    /// # Ok::<(), dumarewhi::Error>(())
    /// ```
    pub fn first(self, input: &[u8]) -> Result<Element> {
        let (outcome, element) = ffi::first(self.der, input);
        found(outcome, input).map(|_| element)
    }

    /// The rules for what is inside an element.
    pub(crate) fn inside(self) -> Rules {
        self.with_max_depth(self.max_depth.min(MAX_DEPTH).saturating_sub(1))
    }
}

/// The outcome as a result.
pub(crate) fn found(outcome: Outcome, input: &[u8]) -> Result<Found> {
    match outcome.status {
        ffi::OK => Ok(Found {
            elements: outcome.elements,
            length: outcome.length,
        }),
        ffi::INCOMPLETE => Err(Error::new(
            ErrorKind::Incomplete {
                missing: outcome.missing,
            },
            input.len(),
        )),
        _ => Err(Error::new(
            ErrorKind::Malformed(Reason(outcome.error)),
            outcome.place,
        )),
    }
}

/// The result of a read, if nothing is left of the input.
pub(crate) fn whole<T>(input: &[u8], (rest, value): (&[u8], T)) -> Result<T> {
    match rest.len() {
        0 => Ok(value),
        left => Err(Error::new(
            ErrorKind::TrailingData,
            input.len().saturating_sub(left),
        )),
    }
}

/// The number of elements of an input without trailing data.
fn count(input: &[u8], found: Found) -> Result<usize> {
    let rest = input.get(found.length..).unwrap_or_default();
    whole(input, (rest, found.elements))
}

/// Checks that the input is one element in DER, without trailing data. Returns the number of elements: itself and those
/// inside it.
///
/// ```
/// use dumarewhi::check_der;
///
/// assert_eq!(check_der(&[0x30, 0x03, 0x02, 0x01, 0x05]), Ok(2));
/// assert!(check_der(&[0x30, 0x03, 0x02, 0x01, 0x05, 0x00]).is_err());
/// ```
pub fn check_der(input: &[u8]) -> Result<usize> {
    count(input, Rules::DER.check(input)?)
}

/// Checks by BER, as [`check_der`] does by DER.
///
/// ```
/// use dumarewhi::check_ber;
///
/// assert_eq!(check_ber(&[0x30, 0x80, 0x02, 0x01, 0x05, 0x00, 0x00]), Ok(2));
/// ```
pub fn check_ber(input: &[u8]) -> Result<usize> {
    count(input, Rules::BER.check(input)?)
}

/// Lists an input that is one element in DER, with those inside it, in preorder. If the buffer is too small, it gets
/// the first ones. Returns the number of all.
///
/// ```
/// use dumarewhi::{check_der, list_der, Element};
///
/// let input = [0x30, 0x06, 0x02, 0x01, 0x05, 0x02, 0x01, 0x07];
/// let mut elements = [Element::default(); 2];
/// let count = list_der(&input, &mut elements)?;
/// assert_eq!(count, 3); // there was no room for the last
/// assert_eq!(elements[1].content(&input), Some(&[5][..]));
/// # Ok::<(), dumarewhi::Error>(())
/// ```
pub fn list_der(input: &[u8], elements: &mut [Element]) -> Result<usize> {
    count(input, Rules::DER.list(input, elements)?)
}

/// Lists by BER, as [`list_der`] does by DER.
///
/// ```
/// use dumarewhi::{list_ber, Element};
///
/// let input = [0x30, 0x80, 0x05, 0x00, 0x00, 0x00];
/// let mut elements = [Element::default(); 2];
/// assert_eq!(list_ber(&input, &mut elements)?, 2);
/// assert!(!elements[0].is_definite());
/// assert_eq!((elements[0].content_range(), elements[0].range()), (2..4, 0..6));
/// # Ok::<(), dumarewhi::Error>(())
/// ```
pub fn list_ber(input: &[u8], elements: &mut [Element]) -> Result<usize> {
    count(input, Rules::BER.list(input, elements)?)
}

impl Element {
    /// Its tag.
    pub fn tag(&self) -> Tag {
        Tag::of(self.tag_class, self.number)
    }

    /// Whether it is constructed, by its identifier octets (X.690 8.1.2.5).
    pub fn is_constructed(&self) -> bool {
        self.constructed != 0
    }

    /// Whether its length is definite (X.690 8.1.3). By DER it always is.
    pub fn is_definite(&self) -> bool {
        self.definite != 0
    }

    /// Number of elements inside it, at any depth: the next ones in the list.
    pub fn descendants(&self) -> usize {
        self.inside
    }

    /// The offset of its header.
    pub fn offset(&self) -> usize {
        self.header
    }

    /// The offsets of its identifier and length octets.
    pub fn header_range(&self) -> Range<usize> {
        self.header..self.content
    }

    /// The offsets of its content octets.
    pub fn content_range(&self) -> Range<usize> {
        self.content..self.end
    }

    /// The offsets of all its octets, with end-of-contents octets.
    pub fn range(&self) -> Range<usize> {
        self.header..self.after()
    }

    /// Its content octets in the input that it was listed from. `None` if the input is too short for that.
    pub fn content<'a>(&self, input: &'a [u8]) -> Option<&'a [u8]> {
        input.get(self.content_range())
    }

    /// The offset after it: end-of-contents octets are two.
    fn after(&self) -> usize {
        if self.is_definite() {
            self.end
        } else {
            self.end.saturating_add(2)
        }
    }
}
