//! Made by callers/make of the repository.
use crate::error::Reason;
use crate::x509::KeyUsage;
use crate::{ObjectIdentifier, Tag};

reasons! {
    WRONG_TYPE = 1, "wrong type";
    WRONG_VALUE = 2, "wrong value";
    MAX_DEPTH = 3, "maximum depth reached";
    INVALID_LENGTH = 4, "invalid length";
    INVALID_TAG = 5, "invalid tag";
    UNKNOWN_TAG = 6, "unknown tag";
    UNEXPECTED_TAG = 7, "unexpected tag";
    UNEXPECTED_CLASS = 8, "unexpected class";
    CONSTRUCTED_EXPECTED = 9, "constructed encoding expected";
    PRIMITIVE_EXPECTED = 10, "primitive encoding expected";
    INTEGER_TOO_LARGE = 11, "integer too large";
    INTEGER_NEGATIVE = 12, "integer negative";
    INVALID_VALUE = 13, "invalid value";
    INVALID_CHARACTER = 14, "invalid character in string";
    INVALID_TIME = 15, "invalid date or time";
    UNSUPPORTED = 16, "unsupported";
    OVERRUN = 17, "item runs past the end of its container";
    PARSER_FAULT = 18, "parser fault";
    INDEFINITE_LENGTH = 32, "DER constraint failed: indefinite length";
    LENGTH_NOT_MINIMAL = 33, "DER constraint failed: length not minimal";
    CONSTRUCTED = 34, "DER constraint failed: constructed";
    INVALID_BOOLEAN = 35, "DER constraint failed: invalid boolean";
    INTEGER_EMPTY = 36, "DER constraint failed: integer empty";
    INTEGER_LEADING_ZEROES = 37, "DER constraint failed: integer with leading zeroes";
    INTEGER_LEADING_FF = 38, "DER constraint failed: integer with leading ff";
    MISSING_TIME_ZONE = 39, "DER constraint failed: missing time zone";
    MISSING_SECONDS = 40, "DER constraint failed: missing seconds";
    FRACTION_NOT_MINIMAL = 41, "DER constraint failed: fraction not minimal";
    UNUSED_BITS_NOT_ZERO = 42, "DER constraint failed: unused bits not zero";
    SET_OUT_OF_ORDER = 43, "DER constraint failed: set out of order";
    NO_END_MARKER = 48, "an indefinite length has no end-of-contents octets (X.690 8.1.3.6)";
    STRAY_END_MARKER = 49, "end-of-contents octets, and no indefinite length ends here (X.690 8.1.5)";
    PART_OF_ANOTHER_TYPE = 50, "a part of a constructed string isn't an OCTET STRING, or of a BIT STRING no BIT STRING \
        (X.690 8.6.4 and 8.7.3)";
    UNUSED_BITS_INSIDE = 51, "a part of a BIT STRING has unused bits, and another part follows (X.690 8.6.4)";
    NOT_DER = 52, "these are no elements of DER (X.690 10)";
    BOOLEAN_LENGTH = 64, "a BOOLEAN isn't one octet (X.690 8.2.1)";
    BOOLEAN_VALUE = 65, "a BOOLEAN is neither 00 nor ff (X.690 11.1)";
    NUMBER_EMPTY = 66, "a number has no octets (X.690 8.3.1)";
    NUMBER_PADDED = 67, "the first nine bits of a number are alike (X.690 8.3.2)";
    UNUSED_BITS_MISSING = 68, "a BIT STRING has no octets (X.690 8.6.2.1)";
    UNUSED_BITS_ABOVE_SEVEN = 69, "more than seven bits are unused (X.690 8.6.2.2)";
    UNUSED_BITS_OF_NONE = 70, "a BIT STRING without bits has unused ones (X.690 8.6.2.3)";
    UNUSED_BIT_IS_SET = 71, "an unused bit isn't 0 (X.690 11.2.1)";
    NULL_NOT_EMPTY = 72, "a NULL has octets (X.690 8.8.2)";
    IDENTIFIER_EMPTY = 73, "an identifier has no octets (X.690 8.19.2, 8.20.2)";
    ARC_OPEN = 74, "the last arc has no end (X.690 8.19.2, 8.20.2)";
    ARC_PADDED = 75, "an arc begins with 80 (X.690 8.19.2, 8.20.2)";
    REAL_BASE_RESERVED = 76, "the base of a REAL is a reserved one (X.690 8.5.7.2)";
    REAL_EXPONENT_MISSING = 77, "a REAL has no exponent (X.690 8.5.7.4)";
    REAL_MANTISSA_MISSING = 78, "a REAL has no mantissa (X.690 8.5.7.5)";
    REAL_EXPONENT_PADDED = 79, "the first nine bits of an exponent are alike (X.690 8.5.7.4)";
    REAL_BASE_OR_SCALE = 80, "a REAL has a base other than 2 or a scaling factor (X.690 11.3.1)";
    REAL_EXPONENT_NOT_FEWEST = 81, "an exponent isn't in its fewest octets (X.690 11.3.1)";
    REAL_MANTISSA_NOT_FEWEST = 82, "a mantissa is even or begins with 00 (X.690 11.3.1)";
    REAL_SPECIAL = 83, "a special value of a REAL isn't known (X.690 8.5.9)";
    REAL_DECIMAL = 84, "a decimal REAL isn't in its form of ISO 6093 (X.690 8.5.8)";
    REAL_DECIMAL_NOT_STRICT = 85, "a decimal REAL has needless characters (X.690 11.3.2)";
    NOT_UTF8 = 86, "a text isn't UTF-8 (X.690 8.21, 8.22, 8.23.10)";
    CHARACTER_OUTSIDE = 87, "an octet is outside of the character set (X.690 8.23)";
    UNIVERSAL_STRING_LENGTH = 88, "a UniversalString isn't groups of four octets (X.690 8.23.7)";
    BMP_STRING_LENGTH = 89, "a BMPString isn't pairs of octets (X.690 8.23.9)";
    TIME_TEXT = 90, "a time isn't a text of its type (X.690 8.25)";
    TIME_NOT_IN_Z = 91, "a time doesn't end in Z (X.690 11.7.1, 11.8.1)";
    TIME_WITHOUT_SECONDS = 92, "a time has no seconds (X.690 11.7.2, 11.8.2)";
    TIME_COMMA = 93, "a fraction has a comma (X.690 11.7.4)";
    TIME_LAST_ZERO = 94, "a fraction ends in 0 (X.690 11.7.3)";
    SEQUENCE_PRIMITIVE = 95, "a SEQUENCE is primitive (X.690 8.9.1)";
    SET_PRIMITIVE = 96, "a SET is primitive (X.690 8.11.1)";
    EMBEDDED_PDV_PRIMITIVE = 97, "an EMBEDDED PDV is primitive (X.690 8.17)";
    EXTERNAL_PRIMITIVE = 98, "an EXTERNAL is primitive (X.690 8.18.1)";
    CHARACTER_STRING_PRIMITIVE = 99, "a CHARACTER STRING is primitive (X.690 8.24)";
    ALGORITHMS_DIFFER = 128, "the signature algorithms differ";
    SERIAL_NUMBER_NOT_POSITIVE = 129, "the serial number is not positive";
    SERIAL_NUMBER_TOO_LONG = 130, "the serial number has more than 20 octets";
    ISSUER_EMPTY = 131, "the issuer has no name";
    ATTRIBUTES_OUT_OF_ORDER = 132, "attributes of a relative name are out of order";
    EARLY_GENERALIZED_TIME = 133, "a time before 2050 is a GeneralizedTime";
    TIME_WITH_FRACTION = 134, "a time has a fraction of a second";
    UNIQUE_ID_IN_VERSION_1 = 135, "a unique identifier in version 1";
    EXTENSIONS_BEFORE_VERSION_3 = 136, "extensions before version 3";
    EXTENSION_REPEATED = 137, "an extension is repeated, or there are more than 512";
    SUBJECT_WITHOUT_NAME = 138, "the subject has no name";
    VALUE_NOT_DER = 139, "a value of any type is not DER";
    PEM_NO_BLOCK = 192, "no line -----BEGIN ..-----";
    PEM_NO_END = 193, "a block without its line -----END ..-----";
    PEM_LABELS_DIFFER = 194, "a block whose first and last line have other labels";
    PEM_ENCRYPTED = 195, "the block is encrypted";
    PEM_BASE64 = 196, "invalid base64";
    PEM_NO_ROOM = 197, "a buffer is too small for the block";
    PEM_INPUT = 198, "this is PEM, which dm_decode_input decodes";
}

universal! {
    BOOLEAN = 1;
    INTEGER = 2;
    BIT_STRING = 3;
    OCTET_STRING = 4;
    NULL = 5;
    OBJECT_IDENTIFIER = 6;
    OBJECT_DESCRIPTOR = 7;
    EXTERNAL = 8;
    REAL = 9;
    ENUMERATED = 10;
    EMBEDDED_PDV = 11;
    UTF8_STRING = 12;
    RELATIVE_OID = 13;
    SEQUENCE = 16;
    SET = 17;
    NUMERIC_STRING = 18;
    PRINTABLE_STRING = 19;
    T61_STRING = 20;
    VIDEOTEX_STRING = 21;
    IA5_STRING = 22;
    UTC_TIME = 23;
    GENERALIZED_TIME = 24;
    GRAPHIC_STRING = 25;
    VISIBLE_STRING = 26;
    GENERAL_STRING = 27;
    UNIVERSAL_STRING = 28;
    CHARACTER_STRING = 29;
    BMP_STRING = 30;
}

usages! {
    digital_signature = 1, "digitalSignature";
    content_commitment = 2, "contentCommitment";
    key_encipherment = 4, "keyEncipherment";
    data_encipherment = 8, "dataEncipherment";
    key_agreement = 16, "keyAgreement";
    key_cert_sign = 32, "keyCertSign";
    crl_sign = 64, "cRLSign";
    encipher_only = 128, "encipherOnly";
    decipher_only = 256, "decipherOnly";
}

identifiers! {
    COMMON_NAME = 2, 5, 4, 3 => "2.5.4.3";
    SERIAL_NUMBER = 2, 5, 4, 5 => "2.5.4.5";
    COUNTRY_NAME = 2, 5, 4, 6 => "2.5.4.6";
    LOCALITY_NAME = 2, 5, 4, 7 => "2.5.4.7";
    STATE_OR_PROVINCE_NAME = 2, 5, 4, 8 => "2.5.4.8";
    ORGANIZATION_NAME = 2, 5, 4, 10 => "2.5.4.10";
    ORGANIZATIONAL_UNIT_NAME = 2, 5, 4, 11 => "2.5.4.11";
    DOMAIN_COMPONENT = 0, 9, 2342, 19200300, 100, 1, 25 => "0.9.2342.19200300.100.1.25";
    EMAIL_ADDRESS = 1, 2, 840, 113549, 1, 9, 1 => "1.2.840.113549.1.9.1";
    RSA_ENCRYPTION = 1, 2, 840, 113549, 1, 1, 1 => "1.2.840.113549.1.1.1";
    EC_PUBLIC_KEY = 1, 2, 840, 10045, 2, 1 => "1.2.840.10045.2.1";
    ED25519 = 1, 3, 101, 112 => "1.3.101.112";
    SHA256_WITH_RSA_ENCRYPTION = 1, 2, 840, 113549, 1, 1, 11 => "1.2.840.113549.1.1.11";
    SHA384_WITH_RSA_ENCRYPTION = 1, 2, 840, 113549, 1, 1, 12 => "1.2.840.113549.1.1.12";
    SHA512_WITH_RSA_ENCRYPTION = 1, 2, 840, 113549, 1, 1, 13 => "1.2.840.113549.1.1.13";
    ECDSA_WITH_SHA256 = 1, 2, 840, 10045, 4, 3, 2 => "1.2.840.10045.4.3.2";
    ECDSA_WITH_SHA384 = 1, 2, 840, 10045, 4, 3, 3 => "1.2.840.10045.4.3.3";
    SERVER_AUTH = 1, 3, 6, 1, 5, 5, 7, 3, 1 => "1.3.6.1.5.5.7.3.1";
    CLIENT_AUTH = 1, 3, 6, 1, 5, 5, 7, 3, 2 => "1.3.6.1.5.5.7.3.2";
    CODE_SIGNING = 1, 3, 6, 1, 5, 5, 7, 3, 3 => "1.3.6.1.5.5.7.3.3";
    EMAIL_PROTECTION = 1, 3, 6, 1, 5, 5, 7, 3, 4 => "1.3.6.1.5.5.7.3.4";
    TIME_STAMPING = 1, 3, 6, 1, 5, 5, 7, 3, 8 => "1.3.6.1.5.5.7.3.8";
    OCSP_SIGNING = 1, 3, 6, 1, 5, 5, 7, 3, 9 => "1.3.6.1.5.5.7.3.9";
    OCSP = 1, 3, 6, 1, 5, 5, 7, 48, 1 => "1.3.6.1.5.5.7.48.1";
    CA_ISSUERS = 1, 3, 6, 1, 5, 5, 7, 48, 2 => "1.3.6.1.5.5.7.48.2";
    ANY_POLICY = 2, 5, 29, 32, 0 => "2.5.29.32.0";
    CHALLENGE_PASSWORD = 1, 2, 840, 113549, 1, 9, 7 => "1.2.840.113549.1.9.7";
    EXTENSION_REQUEST = 1, 2, 840, 113549, 1, 9, 14 => "1.2.840.113549.1.9.14";
}

numbered! {
    /// The class of a tag (X.690 8.1.2.2).
    #[derive(Clone, Copy, Debug, PartialEq, Eq, PartialOrd, Ord, Hash)]
    #[non_exhaustive]
    pub enum Class or Universal {
        /// The types of X.680.
        Universal = 0,
        /// Tags that mean one thing throughout an application.
        Application = 1,
        /// Tags that mean one thing in the type around them.
        ContextSpecific = 2,
        /// Tags of an enterprise.
        Private = 3,
    }
}

numbered! {
    /// The fields of certificates (RFC 5280 4.1), CRLs (5.1), requests (RFC 2986 4), private keys (RFC 5958 2, 3; RSA:
    /// RFC 8017 A.1.2; EC: RFC 5915 3), and public keys (RFC 5280 4.1.2.7, RFC 8017 A.1.1).
    #[derive(Clone, Copy, Debug, PartialEq, Eq, PartialOrd, Ord, Hash)]
    #[non_exhaustive]
    pub enum Field or None {
        /// Of a call that reads one value.
        None = 0,
        /// Certificate (octets after it, or a rule of dm_read_strict_certificate).
        Certificate = 1,
        /// tbsCertificate.
        TbsCertificate = 2,
        /// tbsCertificate.version.
        Version = 3,
        /// tbsCertificate.serialNumber.
        SerialNumber = 4,
        /// tbsCertificate.signature.
        Signature = 5,
        /// tbsCertificate.issuer.
        Issuer = 6,
        /// tbsCertificate.validity.
        Validity = 7,
        /// tbsCertificate.subject.
        Subject = 8,
        /// tbsCertificate.subjectPublicKeyInfo.
        SubjectPublicKeyInfo = 9,
        /// tbsCertificate.issuerUniqueID.
        IssuerUniqueId = 10,
        /// tbsCertificate.subjectUniqueID.
        SubjectUniqueId = 11,
        /// tbsCertificate.extensions.
        Extensions = 12,
        /// signatureAlgorithm.
        SignatureAlgorithm = 13,
        /// signatureValue.
        SignatureValue = 14,
        /// CertificateList.
        List = 32,
        /// tbsCertList.
        TbsList = 33,
        /// tbsCertList.version.
        ListVersion = 34,
        /// tbsCertList.signature.
        ListSignature = 35,
        /// tbsCertList.issuer.
        ListIssuer = 36,
        /// tbsCertList.thisUpdate.
        ThisUpdate = 37,
        /// tbsCertList.nextUpdate.
        NextUpdate = 38,
        /// tbsCertList.revokedCertificates.
        RevokedCertificates = 39,
        /// tbsCertList.crlExtensions.
        ListExtensions = 40,
        /// SignatureAlgorithm (CertificateList).
        ListSignatureAlgorithm = 41,
        /// SignatureValue (CertificateList).
        ListSignatureValue = 42,
        /// CertificationRequest.
        Request = 64,
        /// certificationRequestInfo.
        RequestInfo = 65,
        /// certificationRequestInfo.version.
        RequestVersion = 66,
        /// certificationRequestInfo.subject.
        RequestSubject = 67,
        /// certificationRequestInfo.subjectPKInfo.
        RequestKey = 68,
        /// certificationRequestInfo.attributes.
        RequestAttributes = 69,
        /// SignatureAlgorithm (CertificationRequest).
        RequestSignatureAlgorithm = 70,
        /// Signature (CertificationRequest).
        RequestSignature = 71,
        /// PrivateKeyInfo.
        Key = 96,
        /// Version (PrivateKeyInfo).
        KeyVersion = 97,
        /// PrivateKeyAlgorithm (PrivateKeyInfo).
        KeyAlgorithm = 98,
        /// PrivateKey (PrivateKeyInfo).
        KeyOctets = 99,
        /// Attributes (PrivateKeyInfo).
        KeyAttributes = 100,
        /// PublicKey (PrivateKeyInfo).
        KeyPublicKey = 101,
        /// RSAPrivateKey.
        RsaKey = 112,
        /// Version (RSAPrivateKey).
        RsaVersion = 113,
        /// Modulus (RSAPrivateKey).
        RsaModulus = 114,
        /// PublicExponent (RSAPrivateKey).
        RsaPublicExponent = 115,
        /// PrivateExponent (RSAPrivateKey).
        RsaPrivateExponent = 116,
        /// Prime1 (RSAPrivateKey).
        RsaPrime1 = 117,
        /// Prime2 (RSAPrivateKey).
        RsaPrime2 = 118,
        /// Exponent1 (RSAPrivateKey).
        RsaExponent1 = 119,
        /// Exponent2 (RSAPrivateKey).
        RsaExponent2 = 120,
        /// Coefficient (RSAPrivateKey).
        RsaCoefficient = 121,
        /// OtherPrimeInfos (RSAPrivateKey).
        RsaOtherPrimes = 122,
        /// ECPrivateKey.
        EcKey = 128,
        /// Version (ECPrivateKey).
        EcVersion = 129,
        /// PrivateKey (ECPrivateKey).
        EcOctets = 130,
        /// Parameters (ECPrivateKey).
        EcParameters = 131,
        /// PublicKey (ECPrivateKey).
        EcPublicKey = 132,
        /// EncryptedPrivateKeyInfo.
        EncryptedKey = 144,
        /// EncryptionAlgorithm (EncryptedPrivateKeyInfo).
        EncryptedAlgorithm = 145,
        /// EncryptedData (EncryptedPrivateKeyInfo).
        EncryptedData = 146,
        /// SubjectPublicKeyInfo.
        PublicKey = 160,
        /// Algorithm (SubjectPublicKeyInfo).
        PublicAlgorithm = 161,
        /// SubjectPublicKey (SubjectPublicKeyInfo).
        PublicBits = 162,
        /// RSAPublicKey.
        PublicRsaKey = 176,
        /// Modulus (RSAPublicKey).
        PublicRsaModulus = 177,
        /// PublicExponent (RSAPublicKey).
        PublicRsaExponent = 178,
    }
}

numbered! {
    /// Why a certificate is revoked (RFC 5280 5.3.1).
    #[derive(Clone, Copy, Debug, PartialEq, Eq, PartialOrd, Ord, Hash)]
    #[non_exhaustive]
    pub enum RevocationReason or Unspecified {
        /// unspecified.
        Unspecified = 0,
        /// keyCompromise.
        KeyCompromise = 1,
        /// cACompromise.
        CaCompromise = 2,
        /// affiliationChanged.
        AffiliationChanged = 3,
        /// superseded.
        Superseded = 4,
        /// cessationOfOperation.
        CessationOfOperation = 5,
        /// certificateHold.
        CertificateHold = 6,
        /// removeFromCRL.
        RemoveFromCrl = 8,
        /// privilegeWithdrawn.
        PrivilegeWithdrawn = 9,
        /// aACompromise.
        AaCompromise = 10,
    }
}

numbered! {
    /// The types of public keys.
    #[derive(Clone, Copy, Debug, PartialEq, Eq, PartialOrd, Ord, Hash)]
    #[non_exhaustive]
    pub enum KeyType or Other {
        /// Another type.
        Other = 0,
        /// RSA (RFC 8017 A.1).
        Rsa = 1,
        /// RSASSA-PSS (RFC 8017 A.2.3).
        RsaPss = 2,
        /// Elliptic curves (RFC 5480 2.1.1).
        Ec = 3,
        /// RFC 8410 3.
        Ed25519 = 4,
        /// RFC 8410 3.
        Ed448 = 5,
        /// RFC 8410 3.
        X25519 = 6,
        /// RFC 8410 3.
        X448 = 7,
        /// RFC 3279 2.3.2.
        Dsa = 8,
        /// Diffie-Hellman (RFC 3279 2.3.3, PKCS #3).
        Dh = 9,
    }
}

numbered! {
    /// The curves of keys of type DM_KEY_EC (RFC 5480 2.1.1.1, SEC 2, RFC 5639).
    #[derive(Clone, Copy, Debug, PartialEq, Eq, PartialOrd, Ord, Hash)]
    #[non_exhaustive]
    pub enum Curve or Other {
        /// Another curve, or none.
        Other = 0,
        /// secp192r1.
        Secp192r1 = 1,
        /// secp224r1.
        Secp224r1 = 2,
        /// secp256r1.
        Secp256r1 = 3,
        /// secp384r1.
        Secp384r1 = 4,
        /// secp521r1.
        Secp521r1 = 5,
        /// secp256k1.
        Secp256k1 = 6,
        /// sect163k1.
        Sect163k1 = 7,
        /// sect163r2.
        Sect163r2 = 8,
        /// sect233k1.
        Sect233k1 = 9,
        /// sect233r1.
        Sect233r1 = 10,
        /// sect283k1.
        Sect283k1 = 11,
        /// sect283r1.
        Sect283r1 = 12,
        /// sect409k1.
        Sect409k1 = 13,
        /// sect409r1.
        Sect409r1 = 14,
        /// sect571k1.
        Sect571k1 = 15,
        /// sect571r1.
        Sect571r1 = 16,
        /// brainpoolP256r1.
        BrainpoolP256r1 = 17,
        /// brainpoolP384r1.
        BrainpoolP384r1 = 18,
        /// brainpoolP512r1.
        BrainpoolP512r1 = 19,
    }
}

numbered! {
    /// Kinds of extensions (4.2, 5.2, 5.3). Numbers below 256 are the last arc of the OID, under 2.5.29 (id-ce). The
    /// two information accesses and DM_QC_STATEMENTS are under 1.3.6.1.5.5.7.1 (id-pe).
    #[derive(Clone, Copy, Debug, PartialEq, Eq, PartialOrd, Ord, Hash)]
    #[non_exhaustive]
    pub(crate) enum ExtensionKind or ExtensionOther {
        ExtensionOther = 0,
        AuthorityInfoAccess = 1,
        /// RFC 3739 3.2.6.
        QcStatements = 3,
        SubjectDirectoryAttributes = 9,
        SubjectInfoAccess = 11,
        SubjectKeyIdentifier = 14,
        KeyUsage = 15,
        SubjectAltName = 17,
        IssuerAltName = 18,
        BasicConstraints = 19,
        /// CRL.
        CrlNumber = 20,
        /// CRL entry.
        ReasonCode = 21,
        /// CRL entry.
        InvalidityDate = 24,
        /// CRL.
        DeltaCrlIndicator = 27,
        /// CRL.
        IssuingDistributionPoint = 28,
        /// CRL entry.
        CertificateIssuer = 29,
        NameConstraints = 30,
        CrlDistributionPoints = 31,
        CertificatePolicies = 32,
        PolicyMappings = 33,
        AuthorityKeyIdentifier = 35,
        PolicyConstraints = 36,
        ExtendedKeyUsage = 37,
        FreshestCrl = 46,
        InhibitAnyPolicy = 54,
        /// RFC 9608 2.
        NoRevAvail = 56,
        /// 1.3.6.1.5.5.7.1.24 (RFC 7633 6).
        TlsFeatures = 256,
        /// 1.3.6.1.5.5.7.48.1.5 (RFC 6960 4.2.2.2.1).
        OcspNoCheck = 257,
        /// 1.3.6.1.4.1.11129.2.4.2 (RFC 6962 3.3).
        SignedCertificateTimestamps = 258,
        /// 1.3.6.1.4.1.11129.2.4.3 (RFC 6962 3.1).
        PrecertificatePoison = 259,
        /// 2.23.140.3.1 (CA/B Forum, EV Guidelines 9.8.2).
        OrganizationIdentifier = 260,
    }
}

numbered! {
    /// The kinds of general names, by the numbers of their tags.
    #[derive(Clone, Copy, Debug, PartialEq, Eq, PartialOrd, Ord, Hash)]
    #[non_exhaustive]
    pub(crate) enum GeneralNameKind or OtherName {
        OtherName = 0,
        /// Text of IA5String (ASCII).
        Rfc822Name = 1,
        /// Text of IA5String.
        DnsName = 2,
        X400Address = 3,
        DirectoryName = 4,
        EdiPartyName = 5,
        /// Text of IA5String.
        Uri = 6,
        /// 4 octets of IPv4, 16 of IPv6; the length isn't checked.
        IpAddress = 7,
        RegisteredId = 8,
    }
}
