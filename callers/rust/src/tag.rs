//! Tags.
use crate::error::{with_text, ErrorKind, Reason};
use crate::{ffi, Class};
use core::fmt;

/// A tag: class and number. The constructed bit isn't part of it.
///
/// ```
/// use dumarewhi::{Class, Tag};
///
/// assert_eq!(Tag::INTEGER, Tag { class: Class::Universal, number: 2 });
/// assert_eq!(Tag::context(0).to_string(), "[0]");
/// assert_eq!(Tag::OCTET_STRING.to_string(), "OCTET STRING");
/// ```
#[derive(Clone, Copy, Debug, PartialEq, Eq, PartialOrd, Ord, Hash)]
pub struct Tag {
    /// The class.
    pub class: Class,
    /// The number.
    pub number: u32,
}

/// A call for each class.
macro_rules! classes {
    ($($(#[$doc:meta])* $name:ident: $class:ident;)*) => {
        impl Tag {
            $($(#[$doc])* pub const fn $name(number: u32) -> Tag {
                Tag { class: Class::$class, number }
            })*
        }
    };
}

classes! {
    /// A universal tag.
    universal: Universal;
    /// A tag of the class application, as `[APPLICATION 3]`.
    application: Application;
    /// A tag of the class context-specific, as `[0]`.
    context: ContextSpecific;
    /// A tag of the class private, as `[PRIVATE 1]`.
    private: Private;
}

impl Tag {
    /// The tag with this class, as a number.
    pub(crate) fn of(class: u8, number: u32) -> Tag {
        let class = Class::from_number(class.into());
        Tag { class, number }
    }

    /// Whether the tag is that of a string type whose content this crate gives as `&str`.
    pub(crate) const fn is_text(self) -> bool {
        matches!(
            (self.class, self.number),
            (Class::Universal, 7 | 12 | 18..=22 | 25..=27)
        )
    }

    /// The text that content octets are of the string type with this tag.
    pub(crate) fn text_of(self, content: &[u8]) -> Result<&str, ErrorKind> {
        ffi::check_text(self.number, content).map_err(|number| ErrorKind::Value(Reason(number)))?;
        core::str::from_utf8(content).map_err(|_| ErrorKind::Other("the text isn't UTF-8"))
    }
}

/// As in ASN.1: `INTEGER`, `[0]`, `[APPLICATION 3]`, `[PRIVATE 1]`, `[UNIVERSAL 15]`.
impl fmt::Display for Tag {
    fn fmt(&self, f: &mut fmt::Formatter<'_>) -> fmt::Result {
        let text = |text: &mut [u8]| Some(ffi::tag_text(self.class as u8, self.number, text));
        with_text::<{ ffi::TEXT_OCTETS }, _>(text, |text| f.pad(text)).unwrap_or(Err(fmt::Error))
    }
}

#[cfg(test)]
mod tests {
    use super::*;
    use std::string::ToString;

    #[test]
    fn tags_are_shown() {
        assert_eq!(Tag::T61_STRING.to_string(), "T61String");
        assert_eq!(Tag::universal(15).to_string(), "[UNIVERSAL 15]");
        assert_eq!(Tag::application(10).to_string(), "[APPLICATION 10]");
        assert_eq!(Tag::context(u32::MAX).to_string(), "[4294967295]");
        assert_eq!(Tag::private(2).to_string(), "[PRIVATE 2]");
    }
}
