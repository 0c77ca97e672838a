//! Owned object identifiers.
use super::{first_subidentifier, next_subidentifier, octet, octet_count, ObjectIdentifier};
use crate::error::Reason;
use alloc::vec::Vec;
use core::cmp::Ordering;
use core::fmt;
use core::str::FromStr;

/// An owned [`ObjectIdentifier`].
///
/// ```
/// use dumarewhi::{oid, ObjectIdentifierBuf};
///
/// let identifier: ObjectIdentifierBuf = "2.5.4.3".parse()?;
/// assert_eq!(identifier.as_oid(), oid!(2, 5, 4, 3));
/// assert!("2.5.04.3".parse::<ObjectIdentifierBuf>().is_err());
/// # Ok::<(), dumarewhi::Reason>(())
/// ```
#[derive(Clone, PartialEq, Eq, Hash)]
pub struct ObjectIdentifierBuf(Vec<u8>);

impl ObjectIdentifierBuf {
    /// An identifier from its arcs. An error if there are fewer than two, or if the first two aren't allowed (X.690
    /// 8.19.4).
    pub fn from_arcs(arcs: &[u128]) -> Result<ObjectIdentifierBuf, Reason> {
        if arcs.len() < 2 {
            return Err(Reason::INVALID_LENGTH);
        }
        let mut next = Some(first_subidentifier(arcs).ok_or(Reason::WRONG_VALUE)?);
        let mut content = Vec::new();
        while let Some((number, rest)) = next {
            let following = (0..octet_count(number)).rev();
            content.extend(following.map(|following| octet(number, following)));
            next = next_subidentifier(rest);
        }
        Ok(ObjectIdentifierBuf(content))
    }

    /// The content octets.
    pub fn as_bytes(&self) -> &[u8] {
        &self.0
    }

    /// The borrowed identifier.
    pub fn as_oid(&self) -> ObjectIdentifier<'_> {
        ObjectIdentifier(&self.0)
    }
}

/// Arcs with points, without leading zeros, each below 2^128. The result displays as the text.
impl FromStr for ObjectIdentifierBuf {
    type Err = Reason;

    fn from_str(text: &str) -> Result<ObjectIdentifierBuf, Reason> {
        let arcs: Result<Vec<_>, _> = text.split('.').map(str::parse).collect();
        let identifier = ObjectIdentifierBuf::from_arcs(&arcs.map_err(|_| Reason::INVALID_VALUE)?)?;
        match identifier.as_oid() == *text {
            true => Ok(identifier),
            false => Err(Reason::INVALID_VALUE),
        }
    }
}

impl From<ObjectIdentifier<'_>> for ObjectIdentifierBuf {
    fn from(identifier: ObjectIdentifier<'_>) -> ObjectIdentifierBuf {
        ObjectIdentifierBuf(identifier.as_bytes().to_vec())
    }
}

impl PartialEq<ObjectIdentifier<'_>> for ObjectIdentifierBuf {
    fn eq(&self, other: &ObjectIdentifier<'_>) -> bool {
        self.as_oid() == *other
    }
}

impl PartialEq<ObjectIdentifierBuf> for ObjectIdentifier<'_> {
    fn eq(&self, other: &ObjectIdentifierBuf) -> bool {
        *self == other.as_oid()
    }
}

forward!(AsRef by as_bytes for ObjectIdentifierBuf);
forward!(PartialOrd for ObjectIdentifierBuf);

/// As an [`ObjectIdentifier`].
impl Ord for ObjectIdentifierBuf {
    fn cmp(&self, other: &Self) -> Ordering {
        self.as_oid().cmp(&other.as_oid())
    }
}

impl fmt::Display for ObjectIdentifierBuf {
    fn fmt(&self, f: &mut fmt::Formatter<'_>) -> fmt::Result {
        fmt::Display::fmt(&self.as_oid(), f)
    }
}

impl fmt::Debug for ObjectIdentifierBuf {
    fn fmt(&self, f: &mut fmt::Formatter<'_>) -> fmt::Result {
        fmt::Debug::fmt(&self.as_oid(), f)
    }
}
