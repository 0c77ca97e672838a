//! Keys. `Debug` doesn't show secrets.
use crate::ffi::{self, KeyKindFields};
use crate::{BitString, Integer, ObjectIdentifier, Tag};

parts! {
    /// A private key (PKCS #8: RFC 5208 5, RFC 5958 2). An encrypted one is an [`EncryptedPrivateKey`].
    PrivateKey: PrivateKeyFields from read_private_key showing algorithm;
    /// The key's algorithm.
    algorithm as ObjectIdentifier<'a>,
    /// The parameters of the algorithm: the tag, and the content octets, which aren't read.
    parameters as (Tag, &'a [u8]) where has_parameters,
    /// The key as its algorithm encodes it.
    private_key as &'a [u8],
    /// The content octets of the attributes, which aren't read.
    attributes as &'a [u8] where has_attributes,
    /// The public key.
    public_key as Option<BitString<'a>>,
    /// As encoded: 1 if there is a public key, else 0.
    version as u32,
}

parts! {
    /// An RSA private key (RFC 8017 A.1.2), from [`PrivateKey::private_key`].
    RsaPrivateKey: RsaPrivateKeyFields from read_rsa_private_key showing modulus;
    /// modulus
    modulus as Integer<'a>,
    /// publicExponent
    public_exponent as Integer<'a>,
    /// privateExponent
    private_exponent as Integer<'a>,
    /// prime1
    prime1 as Integer<'a>,
    /// prime2
    prime2 as Integer<'a>,
    /// exponent1
    exponent1 as Integer<'a>,
    /// exponent2
    exponent2 as Integer<'a>,
    /// coefficient
    coefficient as Integer<'a>,
    /// The content octets of further primes, which aren't read.
    other_primes as &'a [u8] where has_other_primes,
    /// 1 if there are further primes, else 0.
    version as u32,
}

parts! {
    /// An EC private key (SEC 1 C.4, RFC 5915 3), from [`PrivateKey::private_key`] or a file.
    EcPrivateKey: EcPrivateKeyFields from read_ec_private_key showing parameters;
    /// The key, a number with as many octets as the curve's order.
    private_key as &'a [u8],
    /// The curve, mostly an identifier (RFC 5480 2.1.1): the tag, and the content octets, which aren't read.
    parameters as (Tag, &'a [u8]) where has_parameters,
    /// The public key.
    public_key as Option<BitString<'a>>,
    /// Always 1.
    version as u32,
}

parts! {
    /// An encrypted private key (RFC 5958 3). It isn't decrypted.
    EncryptedPrivateKey: EncryptedPrivateKeyFields from read_encrypted_private_key;
    /// The algorithm of the encryption.
    algorithm as ObjectIdentifier<'a>,
    /// The parameters of the algorithm: the tag, and the content octets, which aren't read.
    parameters as (Tag, &'a [u8]) where has_parameters,
    /// The encrypted key.
    encrypted_data as &'a [u8],
}

parts! {
    /// A public key (RFC 5280 4.1.2.7), such as in a PEM block PUBLIC KEY.
    SubjectPublicKeyInfo: PublicKeyFields from read_public_key;
    /// The key's algorithm.
    algorithm as ObjectIdentifier<'a>,
    /// The parameters of the algorithm: the tag, and the content octets, which aren't read.
    parameters as (Tag, &'a [u8]) where has_parameters,
    /// The key as its algorithm encodes it.
    public_key as BitString<'a>,
}

impl SubjectPublicKeyInfo<'_> {
    fn kind(&self) -> KeyKindFields {
        ffi::public_key_type(&self.0)
    }
}

key_kind!(SubjectPublicKeyInfo);

parts! {
    /// An RSA public key (RFC 8017 A.1.1), from the octets of a public key.
    RsaPublicKey: RsaPublicKeyFields from read_rsa_public_key;
    /// modulus
    modulus as Integer<'a>,
    /// publicExponent
    public_exponent as Integer<'a>,
}
