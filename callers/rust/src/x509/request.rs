//! Certification requests.
use super::{Algorithm, Error, Extensions, Name, PublicKey};
use crate::ffi::{self, Octets};
use crate::{oid, BitString, ObjectIdentifier};

/// The attribute extensionRequest (RFC 2985 5.4.2).
const EXTENSION_REQUEST: ObjectIdentifier<'static> = oid!(1, 2, 840, 113549, 1, 9, 14);

parts! {
    /// A certification request (RFC 2986 4).
    CertificationRequest: RequestFields by read_request;
    /// The encoding of certificationRequestInfo: the octets that are signed.
    info as &'a [u8],
    /// The subject.
    subject as Name<'a>,
    /// The attributes, in order.
    attributes as RequestAttributes<'a>,
    /// The algorithm of the signature.
    signature_algorithm as Algorithm<'a>,
    /// The signature. It isn't verified.
    signature as BitString<'a>,
}

impl<'a> CertificationRequest<'a> {
    /// The subject's key.
    pub fn public_key(&self) -> PublicKey<'a> {
        PublicKey::new(self.0.key_algorithm, self.0.key)
    }

    /// The extensions in the attribute extensionRequest, if any. Offsets of errors count from the start of the
    /// attribute's values.
    pub fn extensions(&self) -> Result<Extensions<'a>, Error> {
        let mut attributes = self.attributes().iter();
        match attributes.find(|attribute| attribute.identifier() == EXTENSION_REQUEST) {
            Some(attribute) => ffi::read_extension_request(attribute.values()).map(Extensions::from),
            None => Ok(Octets::default().into()),
        }
    }
}

list! {
    /// The attributes of a [`CertificationRequest`].
    RequestAttributes, RequestAttributesIter of RequestAttribute<'a> => next_request_attribute
}

parts! {
    /// An attribute of a request (RFC 2986 4.1) or of a subject (RFC 5280 4.2.1.8).
    RequestAttribute: RequestAttributeFields;
    /// Its type.
    identifier as ObjectIdentifier<'a>,
    /// The encodings of its values: read them with a [`Reader`](crate::Reader).
    values as &'a [u8],
}
