//! Names.
use crate::error::with_text;
use crate::ffi::{self, Octets};
use crate::{ObjectIdentifier, Tag};
use core::fmt;
use core::iter::FusedIterator;

list! {
    /// The name of an issuer or a subject (RFC 5280 4.1.2.4). Its items are relative names in order, mostly of one
    /// attribute each. It displays by RFC 4514, the last relative name first.
    ///
    /// Names compare by octets. RFC 5280 7.1 also treats names as equal that differ in case or spaces.
    Name, RelativeNames of RelativeName<'a> => next_relative_name
}

impl<'a> Name<'a> {
    /// Its relative names, as [`iter`](Name::iter).
    pub fn relative_names(self) -> RelativeNames<'a> {
        self.iter()
    }

    /// The attributes of all relative names, in order.
    pub fn attributes(self) -> Attributes<'a> {
        Attributes {
            relative: Octets::default(),
            names: self.iter(),
        }
    }

    /// It displays as the name does, but in UTF-8. Only control characters, and those that change the direction of a
    /// text, are escaped.
    pub fn utf8(self) -> impl fmt::Display + 'a {
        Utf8(self)
    }

    fn show(self, utf8: bool, f: &mut fmt::Formatter<'_>) -> fmt::Result {
        let write = |text: &mut [u8]| Some(ffi::name_text(utf8, self.as_bytes(), text));
        with_text::<SHORT_TEXT, _>(write, |text| f.pad(text)).unwrap_or(Err(fmt::Error))
    }

    /// The first attribute of a type, such as `oid!(2, 5, 4, 3)`, commonName.
    pub fn find(self, identifier: ObjectIdentifier<'_>) -> Option<Attribute<'a>> {
        self.attributes()
            .find(|attribute| attribute.identifier() == identifier)
    }
}

/// A longer text is written to allocated memory.
const SHORT_TEXT: usize = 512;

/// By RFC 4514, such as `CN=example.org,O=Example\, Inc.`. Characters outside of ASCII are escaped UTF-8, such as
/// `\c3\a9`. Without the feature `alloc`, a text of more than 512 octets is an error.
impl fmt::Display for Name<'_> {
    fn fmt(&self, f: &mut fmt::Formatter<'_>) -> fmt::Result {
        self.show(false, f)
    }
}

/// A name that displays in UTF-8.
struct Utf8<'a>(Name<'a>);

impl fmt::Display for Utf8<'_> {
    fn fmt(&self, f: &mut fmt::Formatter<'_>) -> fmt::Result {
        self.0.show(true, f)
    }
}

/// A relative name of a [`Name`]: a set of attributes.
#[derive(Clone, Copy, PartialEq, Eq, Hash)]
pub struct RelativeName<'a>(Octets<'a>);

impl<'a> RelativeName<'a> {
    /// Its attributes, at least one.
    pub fn attributes(self) -> Attributes<'a> {
        Attributes {
            relative: self.0,
            names: Name::from(Octets::default()).iter(),
        }
    }
}

impl<'a> From<Octets<'a>> for RelativeName<'a> {
    fn from(octets: Octets<'a>) -> RelativeName<'a> {
        RelativeName(octets)
    }
}

impl fmt::Debug for RelativeName<'_> {
    fn fmt(&self, f: &mut fmt::Formatter<'_>) -> fmt::Result {
        f.debug_set().entries(self.attributes()).finish()
    }
}

forward!(IntoIterator by attributes for ['a] RelativeName<'a> as Attributes<'a>);

/// The attributes of a [`Name`] or of a relative name.
#[derive(Clone, Debug)]
pub struct Attributes<'a> {
    /// What is left of the part that is read.
    relative: Octets<'a>,
    names: RelativeNames<'a>,
}

impl<'a> Iterator for Attributes<'a> {
    type Item = Attribute<'a>;

    fn next(&mut self) -> Option<Attribute<'a>> {
        loop {
            if let Some(fields) = ffi::next_attribute(&mut self.relative) {
                return Some(fields.into());
            }
            self.relative = self.names.next()?.0;
        }
    }
}

impl FusedIterator for Attributes<'_> {}

parts! {
    /// An attribute of a name: a type and a value.
    Attribute: AttributeFields;
    /// The type.
    identifier as ObjectIdentifier<'a>,
    /// The content octets of the value.
    value as &'a [u8],
}

impl<'a> Attribute<'a> {
    /// The tag of the value.
    pub fn tag(&self) -> Tag {
        Tag::of(self.0.tag_class, self.0.number)
    }

    /// Whether the value is constructed.
    pub fn is_constructed(&self) -> bool {
        self.0.constructed != 0
    }

    /// The value, if it is a character string of a type of [`Any::as_str`](crate::Any::as_str).
    pub fn as_str(&self) -> Option<&'a str> {
        match self.is_constructed() || !self.tag().is_text() {
            true => None,
            false => self.tag().text_of(self.value()).ok(),
        }
    }
}
