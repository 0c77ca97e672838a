//! Object identifiers.
#[cfg(feature = "alloc")]
mod buf;

use crate::error::{with_text, Reason};
use crate::ffi::{self, Octets};
#[cfg(feature = "alloc")]
pub use buf::ObjectIdentifierBuf;
use core::cmp::Ordering;
use core::fmt;
use core::iter::FusedIterator;

/// An OBJECT IDENTIFIER (X.690 8.19), over its content octets. It displays as in `2.5.4.3`.
///
/// [`oid!`](crate::oid!) makes one at compile time, and `ObjectIdentifierBuf` from a text. They compare by content
/// octets and sort by arcs. One without octets has no arcs and an empty text.
///
/// ```
/// use dumarewhi::{oid, Any, ObjectIdentifier};
///
/// const COMMON_NAME: ObjectIdentifier<'static> = oid!(2, 5, 4, 3);
///
/// let read = Any::from_der(&[0x06, 0x03, 0x55, 0x04, 0x03])?.as_oid()?;
/// assert_eq!(read, COMMON_NAME);
/// assert_eq!(read.to_string(), "2.5.4.3");
/// assert!(read.arcs().eq([2, 5, 4, 3]));
/// assert_eq!(ObjectIdentifier::from_content(&[0x55, 0x04, 0x03]), Ok(COMMON_NAME));
/// # Ok::<(), dumarewhi::Error>(())
/// ```
#[derive(Clone, Copy, PartialEq, Eq, Hash)]
pub struct ObjectIdentifier<'a>(&'a [u8]);

/// A longer text is written to allocated memory, with the feature `alloc`.
const SHORT_TEXT: usize = 256;

impl<'a> ObjectIdentifier<'a> {
    /// An identifier from content octets. An error if the last arc is unfinished, or a subidentifier is 2^128 or more.
    pub fn from_content(content: &'a [u8]) -> Result<ObjectIdentifier<'a>, Reason> {
        ffi::read_oid(content, &mut []).map_err(Reason)?;
        Ok(ObjectIdentifier(content))
    }

    /// The content octets.
    pub fn as_bytes(self) -> &'a [u8] {
        self.0
    }

    /// The arcs in order. The first subidentifier has two (X.690 8.19.4). An arc of 2^128 or more, which only a read
    /// identifier may have, counts as 2^128-1.
    ///
    /// ```
    /// use dumarewhi::oid;
    ///
    /// assert!(oid!(1, 2, 840, 113549).arcs().eq([1, 2, 840, 113549]));
    /// ```
    pub fn arcs(self) -> Arcs<'a> {
        Arcs {
            rest: self.0,
            second: None,
            started: false,
        }
    }

    /// Whether its arcs begin with those of the other.
    ///
    /// ```
    /// use dumarewhi::oid;
    ///
    /// assert!(oid!(2, 5, 29, 17).starts_with(oid!(2, 5, 29)));
    /// assert!(!oid!(2, 5, 4, 3).starts_with(oid!(2, 5, 29)));
    /// ```
    pub fn starts_with(self, other: ObjectIdentifier<'_>) -> bool {
        self.0.starts_with(other.0)
    }

    /// What the function makes of the text, if there is memory to write it.
    fn with_text<T>(self, function: impl FnOnce(&str) -> T) -> Option<T> {
        with_text::<SHORT_TEXT, _>(|text| ffi::read_oid(self.0, text).ok(), function)
    }
}

/// An identifier that the library has read. It may have an arc of 2^128 or more.
impl<'a> From<Octets<'a>> for ObjectIdentifier<'a> {
    fn from(content: Octets<'a>) -> ObjectIdentifier<'a> {
        ObjectIdentifier(content.get())
    }
}

forward!(TryFrom by from_content for ObjectIdentifier, Reason);
forward!(AsRef by as_bytes for ObjectIdentifier<'_>);
forward!(PartialOrd for ObjectIdentifier<'_>);

/// By arcs; different encodings of the same arcs by octets.
impl Ord for ObjectIdentifier<'_> {
    fn cmp(&self, other: &Self) -> Ordering {
        self.arcs().cmp(other.arcs()).then_with(|| self.0.cmp(other.0))
    }
}

/// Arcs with points. With an arc of 2^128 or more: `#` and the content octets in hex. Without the feature `alloc` also
/// if the text has more than 256 octets.
impl fmt::Display for ObjectIdentifier<'_> {
    fn fmt(&self, f: &mut fmt::Formatter<'_>) -> fmt::Result {
        if let Some(shown) = self.with_text(|text| f.pad(text)) {
            return shown;
        }
        f.write_str("#")?;
        self.0.iter().try_for_each(|octet| write!(f, "{octet:02x}"))
    }
}

impl fmt::Debug for ObjectIdentifier<'_> {
    fn fmt(&self, f: &mut fmt::Formatter<'_>) -> fmt::Result {
        write!(f, "ObjectIdentifier({self})")
    }
}

impl PartialEq<str> for ObjectIdentifier<'_> {
    fn eq(&self, text: &str) -> bool {
        self.with_text(|own| own == text) == Some(true)
    }
}

impl PartialEq<&str> for ObjectIdentifier<'_> {
    fn eq(&self, text: &&str) -> bool {
        *self == **text
    }
}

/// The arcs of an [`ObjectIdentifier`].
#[derive(Clone, Debug)]
pub struct Arcs<'a> {
    /// The subidentifiers that aren't read.
    rest: &'a [u8],
    /// The second arc, which the first subidentifier has too.
    second: Option<u128>,
    started: bool,
}

impl Iterator for Arcs<'_> {
    type Item = u128;

    fn next(&mut self) -> Option<u128> {
        if let Some(second) = self.second.take() {
            return Some(second);
        }
        let last = self.rest.iter().position(|octet| octet & 0x80 == 0)?;
        let subidentifier = self.rest.get(..=last)?;
        self.rest = self.rest.get(last.saturating_add(1)..)?;
        let digits = subidentifier.iter().map(|octet| u128::from(octet & 0x7f));
        let number = digits.fold(0_u128, |number, digit| number.saturating_mul(128) | digit);
        if self.started {
            return Some(number);
        }
        self.started = true;
        let first = (number / 40).min(2);
        self.second = Some(number.saturating_sub(first.saturating_mul(40)));
        Some(first)
    }
}

impl FusedIterator for Arcs<'_> {}

/// Makes an [`ObjectIdentifier`] at compile time from its arcs. Arcs that aren't allowed (X.690 8.19.4) don't compile.
///
/// ```
/// use dumarewhi::{oid, ObjectIdentifier};
///
/// const SUBJECT_ALT_NAME: ObjectIdentifier<'static> = oid!(2, 5, 29, 17);
/// assert_eq!(SUBJECT_ALT_NAME.as_bytes(), [0x55, 0x1d, 0x11]);
/// ```
///
/// ```compile_fail
/// let identifier = dumarewhi::oid!(1, 40);
/// ```
#[macro_export]
macro_rules! oid {
    ($($arc:expr),+ $(,)?) => {{
        const ARCS: &[u128] = &[$($arc),+];
        const OCTETS: &[u8] = &$crate::oid_octets::<{ $crate::oid_length(ARCS) }>(ARCS);
        $crate::oid_of(OCTETS)
    }};
}

/// What [`oid!`](crate::oid!) has at its end.
#[doc(hidden)]
pub const fn oid_of(octets: &'static [u8]) -> ObjectIdentifier<'static> {
    ObjectIdentifier(octets)
}

/// The number of content octets of an identifier with these arcs.
#[doc(hidden)]
pub const fn oid_length(arcs: &[u128]) -> usize {
    let mut next = first_subidentifier(arcs);
    assert!(
        next.is_some(),
        "no object identifier has these arcs (X.690 8.19.4)"
    );
    let mut length = 0_usize;
    while let Some((number, rest)) = next {
        length = length.saturating_add(octet_count(number) as usize);
        next = next_subidentifier(rest);
    }
    length
}

/// The content octets of an identifier with these arcs.
#[doc(hidden)]
// In a function that runs while a program is compiled, an array has no `get_mut` before Rust 1.83.
#[allow(clippy::indexing_slicing)]
pub const fn oid_octets<const N: usize>(arcs: &[u128]) -> [u8; N] {
    let mut octets = [0; N];
    let mut length = 0_usize;
    let mut next = first_subidentifier(arcs);
    while let Some((number, rest)) = next {
        let mut following = octet_count(number);
        while following > 0 && length < N {
            following = following.saturating_sub(1);
            octets[length] = octet(number, following);
            length = length.saturating_add(1);
        }
        next = next_subidentifier(rest);
    }
    octets
}

/// The subidentifier that the first two arcs have, and the arcs after them. `None` if no identifier has these arcs: it
/// has two at least, and the first subidentifier is below 2^128 (X.690 8.19.4).
const fn first_subidentifier(arcs: &[u128]) -> Option<(u128, &[u128])> {
    let (subidentifier, rest) = match arcs {
        [0, second, rest @ ..] if *second < 40 => (Some(*second), rest),
        [1, second, rest @ ..] if *second < 40 => (second.checked_add(40), rest),
        [2, second, rest @ ..] => (second.checked_add(80), rest),
        _ => return None,
    };
    match subidentifier {
        Some(number) => Some((number, rest)),
        None => None,
    }
}

/// The subidentifier that a further arc is, and the arcs after it.
const fn next_subidentifier(arcs: &[u128]) -> Option<(u128, &[u128])> {
    match arcs {
        [number, rest @ ..] => Some((*number, rest)),
        [] => None,
    }
}

/// How many octets a subidentifier has: one for each seven bits.
const fn octet_count(number: u128) -> u32 {
    match u128::BITS.saturating_sub(number.leading_zeros()) {
        0 => 1,
        bits => bits.saturating_add(6) / 7,
    }
}

/// The octet of a subidentifier that so many follow. All but the last have the highest bit (X.690 8.19.2).
const fn octet(number: u128, following: u32) -> u8 {
    let bits = number.wrapping_shr(following.saturating_mul(7)) as u8 & 0x7f;
    match following {
        0 => bits,
        _ => bits | 0x80,
    }
}
