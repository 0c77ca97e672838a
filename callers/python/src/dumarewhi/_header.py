"""Made by callers/make of the repository."""
from __future__ import annotations

import ctypes
import enum
from ctypes import c_int64, c_int8, c_size_t, c_uint16, c_uint32, c_uint64, c_uint8, c_void_p
from typing import TYPE_CHECKING, ClassVar, Dict, Type

from ._records import Record, call, declared

if TYPE_CHECKING:
    from ._tag import Tag
    from ._values import ObjectIdentifier

OK = 0
ERROR = 1
INCOMPLETE = 2
NO_ROOM = 3
NOT_CLOSED = 4
LOCAL = 0
UTC = 1
OFFSET = 2
RULE_NONE = 0
RULE_MUST = 1
RULE_SHOULD = 2
MAX_DEPTH = 101
MAX_BROKEN_RULES = 256
DIGEST_OCTETS = 32


class Reason(enum.IntEnum):
    """The numbers of errors; 0 is none. Calls of this header don't return all of them."""

    WRONG_TYPE = 1
    WRONG_VALUE = 2
    MAX_DEPTH = 3
    INVALID_LENGTH = 4
    INVALID_TAG = 5
    UNKNOWN_TAG = 6
    UNEXPECTED_TAG = 7
    UNEXPECTED_CLASS = 8
    CONSTRUCTED_EXPECTED = 9
    PRIMITIVE_EXPECTED = 10
    INTEGER_TOO_LARGE = 11
    INTEGER_NEGATIVE = 12
    INVALID_VALUE = 13
    INVALID_CHARACTER = 14
    INVALID_TIME = 15
    UNSUPPORTED = 16
    OVERRUN = 17
    PARSER_FAULT = 18
    INDEFINITE_LENGTH = 32
    LENGTH_NOT_MINIMAL = 33
    CONSTRUCTED = 34
    INVALID_BOOLEAN = 35
    INTEGER_EMPTY = 36
    INTEGER_LEADING_ZEROES = 37
    INTEGER_LEADING_FF = 38
    MISSING_TIME_ZONE = 39
    MISSING_SECONDS = 40
    FRACTION_NOT_MINIMAL = 41
    UNUSED_BITS_NOT_ZERO = 42
    SET_OUT_OF_ORDER = 43
    NO_END_MARKER = 48
    STRAY_END_MARKER = 49
    PART_OF_ANOTHER_TYPE = 50
    UNUSED_BITS_INSIDE = 51
    NOT_DER = 52
    BOOLEAN_LENGTH = 64
    BOOLEAN_VALUE = 65
    NUMBER_EMPTY = 66
    NUMBER_PADDED = 67
    UNUSED_BITS_MISSING = 68
    UNUSED_BITS_ABOVE_SEVEN = 69
    UNUSED_BITS_OF_NONE = 70
    UNUSED_BIT_IS_SET = 71
    NULL_NOT_EMPTY = 72
    IDENTIFIER_EMPTY = 73
    ARC_OPEN = 74
    ARC_PADDED = 75
    REAL_BASE_RESERVED = 76
    REAL_EXPONENT_MISSING = 77
    REAL_MANTISSA_MISSING = 78
    REAL_EXPONENT_PADDED = 79
    REAL_BASE_OR_SCALE = 80
    REAL_EXPONENT_NOT_FEWEST = 81
    REAL_MANTISSA_NOT_FEWEST = 82
    REAL_SPECIAL = 83
    REAL_DECIMAL = 84
    REAL_DECIMAL_NOT_STRICT = 85
    NOT_UTF8 = 86
    CHARACTER_OUTSIDE = 87
    UNIVERSAL_STRING_LENGTH = 88
    BMP_STRING_LENGTH = 89
    TIME_TEXT = 90
    TIME_NOT_IN_Z = 91
    TIME_WITHOUT_SECONDS = 92
    TIME_COMMA = 93
    TIME_LAST_ZERO = 94
    SEQUENCE_PRIMITIVE = 95
    SET_PRIMITIVE = 96
    EMBEDDED_PDV_PRIMITIVE = 97
    EXTERNAL_PRIMITIVE = 98
    CHARACTER_STRING_PRIMITIVE = 99
    ALGORITHMS_DIFFER = 128
    SERIAL_NUMBER_NOT_POSITIVE = 129
    SERIAL_NUMBER_TOO_LONG = 130
    ISSUER_EMPTY = 131
    ATTRIBUTES_OUT_OF_ORDER = 132
    EARLY_GENERALIZED_TIME = 133
    TIME_WITH_FRACTION = 134
    UNIQUE_ID_IN_VERSION_1 = 135
    EXTENSIONS_BEFORE_VERSION_3 = 136
    EXTENSION_REPEATED = 137
    SUBJECT_WITHOUT_NAME = 138
    VALUE_NOT_DER = 139
    PEM_NO_BLOCK = 192
    PEM_NO_END = 193
    PEM_LABELS_DIFFER = 194
    PEM_ENCRYPTED = 195
    PEM_BASE64 = 196
    PEM_NO_ROOM = 197
    PEM_INPUT = 198


class Class(enum.IntEnum):
    """The class of a tag (X.690 8.1.2.2)."""

    UNIVERSAL = 0
    APPLICATION = 1
    CONTEXT_SPECIFIC = 2
    PRIVATE = 3


class Field(enum.IntEnum):
    """The fields of certificates (RFC 5280 4.1), CRLs (5.1), requests (RFC 2986 4), private keys (RFC 5958 2, 3; RSA:
    RFC 8017 A.1.2; EC: RFC 5915 3), and public keys (RFC 5280 4.1.2.7, RFC 8017 A.1.1)."""

    NONE = 0
    CERTIFICATE = 1
    TBS_CERTIFICATE = 2
    VERSION = 3
    SERIAL_NUMBER = 4
    SIGNATURE = 5
    ISSUER = 6
    VALIDITY = 7
    SUBJECT = 8
    SUBJECT_PUBLIC_KEY_INFO = 9
    ISSUER_UNIQUE_ID = 10
    SUBJECT_UNIQUE_ID = 11
    EXTENSIONS = 12
    SIGNATURE_ALGORITHM = 13
    SIGNATURE_VALUE = 14
    LIST = 32
    TBS_LIST = 33
    LIST_VERSION = 34
    LIST_SIGNATURE = 35
    LIST_ISSUER = 36
    THIS_UPDATE = 37
    NEXT_UPDATE = 38
    REVOKED_CERTIFICATES = 39
    LIST_EXTENSIONS = 40
    LIST_SIGNATURE_ALGORITHM = 41
    LIST_SIGNATURE_VALUE = 42
    REQUEST = 64
    REQUEST_INFO = 65
    REQUEST_VERSION = 66
    REQUEST_SUBJECT = 67
    REQUEST_KEY = 68
    REQUEST_ATTRIBUTES = 69
    REQUEST_SIGNATURE_ALGORITHM = 70
    REQUEST_SIGNATURE = 71
    KEY = 96
    KEY_VERSION = 97
    KEY_ALGORITHM = 98
    KEY_OCTETS = 99
    KEY_ATTRIBUTES = 100
    KEY_PUBLIC_KEY = 101
    RSA_KEY = 112
    RSA_VERSION = 113
    RSA_MODULUS = 114
    RSA_PUBLIC_EXPONENT = 115
    RSA_PRIVATE_EXPONENT = 116
    RSA_PRIME1 = 117
    RSA_PRIME2 = 118
    RSA_EXPONENT1 = 119
    RSA_EXPONENT2 = 120
    RSA_COEFFICIENT = 121
    RSA_OTHER_PRIMES = 122
    EC_KEY = 128
    EC_VERSION = 129
    EC_OCTETS = 130
    EC_PARAMETERS = 131
    EC_PUBLIC_KEY = 132
    ENCRYPTED_KEY = 144
    ENCRYPTED_ALGORITHM = 145
    ENCRYPTED_DATA = 146
    PUBLIC_KEY = 160
    PUBLIC_ALGORITHM = 161
    PUBLIC_BITS = 162
    PUBLIC_RSA_KEY = 176
    PUBLIC_RSA_MODULUS = 177
    PUBLIC_RSA_EXPONENT = 178


class KeyUsage(enum.IntFlag):
    """KeyUsage (4.2.1.3): named bits, maybe none."""

    DIGITAL_SIGNATURE = 1
    CONTENT_COMMITMENT = 2
    KEY_ENCIPHERMENT = 4
    DATA_ENCIPHERMENT = 8
    KEY_AGREEMENT = 16
    KEY_CERT_SIGN = 32
    CRL_SIGN = 64
    ENCIPHER_ONLY = 128
    DECIPHER_ONLY = 256


class RevocationReason(enum.IntEnum):
    """Why a certificate is revoked (RFC 5280 5.3.1)."""

    UNSPECIFIED = 0
    KEY_COMPROMISE = 1
    CA_COMPROMISE = 2
    AFFILIATION_CHANGED = 3
    SUPERSEDED = 4
    CESSATION_OF_OPERATION = 5
    CERTIFICATE_HOLD = 6
    REMOVE_FROM_CRL = 8
    PRIVILEGE_WITHDRAWN = 9
    AA_COMPROMISE = 10


class KeyType(enum.IntEnum):
    """The types of public keys."""

    OTHER = 0
    RSA = 1
    RSA_PSS = 2
    EC = 3
    ED25519 = 4
    ED448 = 5
    X25519 = 6
    X448 = 7
    DSA = 8
    DH = 9


class Curve(enum.IntEnum):
    """The curves of keys of type DM_KEY_EC (RFC 5480 2.1.1.1, SEC 2, RFC 5639)."""

    OTHER = 0
    SECP192R1 = 1
    SECP224R1 = 2
    SECP256R1 = 3
    SECP384R1 = 4
    SECP521R1 = 5
    SECP256K1 = 6
    SECT163K1 = 7
    SECT163R2 = 8
    SECT233K1 = 9
    SECT233R1 = 10
    SECT283K1 = 11
    SECT283R1 = 12
    SECT409K1 = 13
    SECT409R1 = 14
    SECT571K1 = 15
    SECT571R1 = 16
    BRAINPOOL_P256R1 = 17
    BRAINPOOL_P384R1 = 18
    BRAINPOOL_P512R1 = 19


class ExtensionKind(enum.IntEnum):
    """Kinds of extensions (4.2, 5.2, 5.3). Numbers below 256 are the last arc of the OID, under 2.5.29 (id-ce). The two
    information accesses and DM_QC_STATEMENTS are under 1.3.6.1.5.5.7.1 (id-pe)."""

    EXTENSION_OTHER = 0
    AUTHORITY_INFO_ACCESS = 1
    QC_STATEMENTS = 3
    SUBJECT_DIRECTORY_ATTRIBUTES = 9
    SUBJECT_INFO_ACCESS = 11
    SUBJECT_KEY_IDENTIFIER = 14
    KEY_USAGE = 15
    SUBJECT_ALT_NAME = 17
    ISSUER_ALT_NAME = 18
    BASIC_CONSTRAINTS = 19
    CRL_NUMBER = 20
    REASON_CODE = 21
    INVALIDITY_DATE = 24
    DELTA_CRL_INDICATOR = 27
    ISSUING_DISTRIBUTION_POINT = 28
    CERTIFICATE_ISSUER = 29
    NAME_CONSTRAINTS = 30
    CRL_DISTRIBUTION_POINTS = 31
    CERTIFICATE_POLICIES = 32
    POLICY_MAPPINGS = 33
    AUTHORITY_KEY_IDENTIFIER = 35
    POLICY_CONSTRAINTS = 36
    EXTENDED_KEY_USAGE = 37
    FRESHEST_CRL = 46
    INHIBIT_ANY_POLICY = 54
    NO_REV_AVAIL = 56
    TLS_FEATURES = 256
    OCSP_NO_CHECK = 257
    SIGNED_CERTIFICATE_TIMESTAMPS = 258
    PRECERTIFICATE_POISON = 259
    ORGANIZATION_IDENTIFIER = 260


class GeneralNameKind(enum.IntEnum):
    """The kinds of general names, by the numbers of their tags."""

    OTHER_NAME = 0
    RFC822_NAME = 1
    DNS_NAME = 2
    X400_ADDRESS = 3
    DIRECTORY_NAME = 4
    EDI_PARTY_NAME = 5
    URI = 6
    IP_ADDRESS = 7
    REGISTERED_ID = 8


USAGES = {
    1: "digitalSignature",
    2: "contentCommitment",
    4: "keyEncipherment",
    8: "dataEncipherment",
    16: "keyAgreement",
    32: "keyCertSign",
    64: "cRLSign",
    128: "encipherOnly",
    256: "decipherOnly",
}


class UniversalTags:
    """The tag numbers of universal types (X.680 8.6, table 1)."""

    BOOLEAN: ClassVar[Tag]
    INTEGER: ClassVar[Tag]
    BIT_STRING: ClassVar[Tag]
    OCTET_STRING: ClassVar[Tag]
    NULL: ClassVar[Tag]
    OBJECT_IDENTIFIER: ClassVar[Tag]
    OBJECT_DESCRIPTOR: ClassVar[Tag]
    EXTERNAL: ClassVar[Tag]
    REAL: ClassVar[Tag]
    ENUMERATED: ClassVar[Tag]
    EMBEDDED_PDV: ClassVar[Tag]
    UTF8_STRING: ClassVar[Tag]
    RELATIVE_OID: ClassVar[Tag]
    SEQUENCE: ClassVar[Tag]
    SET: ClassVar[Tag]
    NUMERIC_STRING: ClassVar[Tag]
    PRINTABLE_STRING: ClassVar[Tag]
    T61_STRING: ClassVar[Tag]
    VIDEOTEX_STRING: ClassVar[Tag]
    IA5_STRING: ClassVar[Tag]
    UTC_TIME: ClassVar[Tag]
    GENERALIZED_TIME: ClassVar[Tag]
    GRAPHIC_STRING: ClassVar[Tag]
    VISIBLE_STRING: ClassVar[Tag]
    GENERAL_STRING: ClassVar[Tag]
    UNIVERSAL_STRING: ClassVar[Tag]
    CHARACTER_STRING: ClassVar[Tag]
    BMP_STRING: ClassVar[Tag]


class Identifiers:
    """Some identifiers."""

    __slots__ = ()

    COMMON_NAME: ClassVar[ObjectIdentifier]
    SERIAL_NUMBER: ClassVar[ObjectIdentifier]
    COUNTRY_NAME: ClassVar[ObjectIdentifier]
    LOCALITY_NAME: ClassVar[ObjectIdentifier]
    STATE_OR_PROVINCE_NAME: ClassVar[ObjectIdentifier]
    ORGANIZATION_NAME: ClassVar[ObjectIdentifier]
    ORGANIZATIONAL_UNIT_NAME: ClassVar[ObjectIdentifier]
    DOMAIN_COMPONENT: ClassVar[ObjectIdentifier]
    EMAIL_ADDRESS: ClassVar[ObjectIdentifier]
    RSA_ENCRYPTION: ClassVar[ObjectIdentifier]
    EC_PUBLIC_KEY: ClassVar[ObjectIdentifier]
    ED25519: ClassVar[ObjectIdentifier]
    SHA256_WITH_RSA_ENCRYPTION: ClassVar[ObjectIdentifier]
    SHA384_WITH_RSA_ENCRYPTION: ClassVar[ObjectIdentifier]
    SHA512_WITH_RSA_ENCRYPTION: ClassVar[ObjectIdentifier]
    ECDSA_WITH_SHA256: ClassVar[ObjectIdentifier]
    ECDSA_WITH_SHA384: ClassVar[ObjectIdentifier]
    SERVER_AUTH: ClassVar[ObjectIdentifier]
    CLIENT_AUTH: ClassVar[ObjectIdentifier]
    CODE_SIGNING: ClassVar[ObjectIdentifier]
    EMAIL_PROTECTION: ClassVar[ObjectIdentifier]
    TIME_STAMPING: ClassVar[ObjectIdentifier]
    OCSP_SIGNING: ClassVar[ObjectIdentifier]
    OCSP: ClassVar[ObjectIdentifier]
    CA_ISSUERS: ClassVar[ObjectIdentifier]
    ANY_POLICY: ClassVar[ObjectIdentifier]
    CHALLENGE_PASSWORD: ClassVar[ObjectIdentifier]
    EXTENSION_REQUEST: ClassVar[ObjectIdentifier]


OIDS = {
    "COMMON_NAME": "2.5.4.3",
    "SERIAL_NUMBER": "2.5.4.5",
    "COUNTRY_NAME": "2.5.4.6",
    "LOCALITY_NAME": "2.5.4.7",
    "STATE_OR_PROVINCE_NAME": "2.5.4.8",
    "ORGANIZATION_NAME": "2.5.4.10",
    "ORGANIZATIONAL_UNIT_NAME": "2.5.4.11",
    "DOMAIN_COMPONENT": "0.9.2342.19200300.100.1.25",
    "EMAIL_ADDRESS": "1.2.840.113549.1.9.1",
    "RSA_ENCRYPTION": "1.2.840.113549.1.1.1",
    "EC_PUBLIC_KEY": "1.2.840.10045.2.1",
    "ED25519": "1.3.101.112",
    "SHA256_WITH_RSA_ENCRYPTION": "1.2.840.113549.1.1.11",
    "SHA384_WITH_RSA_ENCRYPTION": "1.2.840.113549.1.1.12",
    "SHA512_WITH_RSA_ENCRYPTION": "1.2.840.113549.1.1.13",
    "ECDSA_WITH_SHA256": "1.2.840.10045.4.3.2",
    "ECDSA_WITH_SHA384": "1.2.840.10045.4.3.3",
    "SERVER_AUTH": "1.3.6.1.5.5.7.3.1",
    "CLIENT_AUTH": "1.3.6.1.5.5.7.3.2",
    "CODE_SIGNING": "1.3.6.1.5.5.7.3.3",
    "EMAIL_PROTECTION": "1.3.6.1.5.5.7.3.4",
    "TIME_STAMPING": "1.3.6.1.5.5.7.3.8",
    "OCSP_SIGNING": "1.3.6.1.5.5.7.3.9",
    "OCSP": "1.3.6.1.5.5.7.48.1",
    "CA_ISSUERS": "1.3.6.1.5.5.7.48.2",
    "ANY_POLICY": "2.5.29.32.0",
    "CHALLENGE_PASSWORD": "1.2.840.113549.1.9.7",
    "EXTENSION_REQUEST": "1.2.840.113549.1.9.14",
}


UNIVERSAL = {
    "BOOLEAN": 1,
    "INTEGER": 2,
    "BIT_STRING": 3,
    "OCTET_STRING": 4,
    "NULL": 5,
    "OBJECT_IDENTIFIER": 6,
    "OBJECT_DESCRIPTOR": 7,
    "EXTERNAL": 8,
    "REAL": 9,
    "ENUMERATED": 10,
    "EMBEDDED_PDV": 11,
    "UTF8_STRING": 12,
    "RELATIVE_OID": 13,
    "SEQUENCE": 16,
    "SET": 17,
    "NUMERIC_STRING": 18,
    "PRINTABLE_STRING": 19,
    "T61_STRING": 20,
    "VIDEOTEX_STRING": 21,
    "IA5_STRING": 22,
    "UTC_TIME": 23,
    "GENERALIZED_TIME": 24,
    "GRAPHIC_STRING": 25,
    "VISIBLE_STRING": 26,
    "GENERAL_STRING": 27,
    "UNIVERSAL_STRING": 28,
    "CHARACTER_STRING": 29,
    "BMP_STRING": 30,
}


class OutcomeStruct(ctypes.Structure):
    """``dm_outcome``."""

    elements: int
    length: int
    place: int
    missing: int
    status: int
    error: int
    _fields_ = [
        ("elements", c_size_t),
        ("length", c_size_t),
        ("place", c_size_t),
        ("missing", c_size_t),
        ("status", c_uint32),
        ("error", c_uint32),
    ]


class TimeStruct(ctypes.Structure):
    """``dm_time``."""

    year: int
    nanosecond: int
    month: int
    day: int
    hour: int
    minute: int
    second: int
    zone: int
    zone_hours: int
    zone_minutes: int
    _fields_ = [
        ("year", c_uint32),
        ("nanosecond", c_uint32),
        ("month", c_uint8),
        ("day", c_uint8),
        ("hour", c_uint8),
        ("minute", c_uint8),
        ("second", c_uint8),
        ("zone", c_uint8),
        ("zone_hours", c_int8),
        ("zone_minutes", c_int8),
    ]


class WriterStruct(ctypes.Structure):
    """``dm_writer``."""

    octets: int
    capacity: int
    count: int
    innermost: int
    implicit: int
    number: int
    _fields_ = [
        ("octets", c_void_p),
        ("capacity", c_size_t),
        ("count", c_size_t),
        ("innermost", c_size_t),
        ("implicit", c_uint32),
        ("number", c_uint32),
    ]


class MarkStruct(ctypes.Structure):
    """``dm_mark``."""

    start: int
    outer: int
    _fields_ = [
        ("start", c_size_t),
        ("outer", c_size_t),
    ]


@declared("dm_time", "IIBBBBBBbb")
class TimeFields(Record):
    year: int
    nanosecond: int
    month: int
    day: int
    hour: int
    minute: int
    second: int
    zone: int
    zone_hours: int
    zone_minutes: int


@declared("dm_octets", "PN")
class OctetsFields(Record):
    octets: int
    length: int


@declared("dm_fault", "NNNIIII")
class FaultFields(Record):
    offset: int
    list_end: int
    needed: int
    status: int
    error: int
    field: int
    is_in_list: int


@declared("dm_algorithm", "PNPN")
class AlgorithmFields(Record):
    identifier: OctetsFields
    parameters: OctetsFields


@declared("dm_bits", "PNII")
class BitsFields(Record):
    octets: OctetsFields
    unused: int
    is_present: int


@declared("dm_any", "PNIBBH")
class AnyFields(Record):
    content: OctetsFields
    number: int
    tag_class: int
    constructed: int
    reserved: int


@declared("dm_moment", "IIBBBBBBbbI")
class MomentFields(Record):
    time: TimeFields
    number: int


@declared("dm_certificate", "PNPNPNPNPNPNPNPNPNIIPNIIPNIIPNPNPNPNIIIIBBBBBBbbIIIBBBBBBbbIII")
class CertificateFields(Record):
    tbs: OctetsFields
    serial_number: OctetsFields
    signature: AlgorithmFields
    issuer: OctetsFields
    subject: OctetsFields
    key_algorithm: AlgorithmFields
    key: BitsFields
    issuer_unique_id: BitsFields
    subject_unique_id: BitsFields
    extensions: OctetsFields
    signature_algorithm: AlgorithmFields
    signature_value: BitsFields
    not_before: MomentFields
    not_after: MomentFields
    version: int
    reserved: int


@declared("dm_attribute", "PNPNIBBH")
class AttributeFields(Record):
    identifier: OctetsFields
    value: OctetsFields
    number: int
    tag_class: int
    constructed: int
    reserved: int


@declared("dm_extension", "PNPNII")
class ExtensionFields(Record):
    identifier: OctetsFields
    value: OctetsFields
    critical: int
    kind: int


@declared("dm_basic_constraints", "III")
class BasicConstraintsFields(Record):
    ca: int
    has_path_length: int
    path_length: int


@declared("dm_general_name", "PNPNII")
class GeneralNameFields(Record):
    octets: OctetsFields
    identifier: OctetsFields
    kind: int
    reserved: int


@declared("dm_authority_key_identifier", "PNPNPNIIII")
class AuthorityKeyIdentifierFields(Record):
    key_identifier: OctetsFields
    issuer: OctetsFields
    serial_number: OctetsFields
    has_key_identifier: int
    has_issuer: int
    has_serial_number: int
    reserved: int


@declared("dm_policy", "PNPN")
class PolicyFields(Record):
    identifier: OctetsFields
    qualifiers: OctetsFields


@declared("dm_policy_qualifier", "PNPNIBBH")
class PolicyQualifierFields(Record):
    identifier: OctetsFields
    value: AnyFields


@declared("dm_distribution_point", "PNPNPNIIPN")
class DistributionPointFields(Record):
    full_name: OctetsFields
    relative_name: OctetsFields
    reasons: BitsFields
    crl_issuer: OctetsFields


@declared("dm_name_constraints", "PNPN")
class NameConstraintsFields(Record):
    permitted: OctetsFields
    excluded: OctetsFields


@declared("dm_subtree", "PNPNIIIIII")
class SubtreeFields(Record):
    base: GeneralNameFields
    minimum: int
    maximum: int
    has_maximum: int
    reserved: int


@declared("dm_access_description", "PNPNPNII")
class AccessDescriptionFields(Record):
    method: OctetsFields
    location: GeneralNameFields


@declared("dm_policy_mapping", "PNPN")
class PolicyMappingFields(Record):
    issuer_policy: OctetsFields
    subject_policy: OctetsFields


@declared("dm_policy_constraints", "IIII")
class PolicyConstraintsFields(Record):
    has_require_explicit_policy: int
    require_explicit_policy: int
    has_inhibit_policy_mapping: int
    inhibit_policy_mapping: int


@declared("dm_request_attribute", "PNPN")
class RequestAttributeFields(Record):
    identifier: OctetsFields
    values: OctetsFields


@declared("dm_qc_statement", "PNPNIBBHII")
class QcStatementFields(Record):
    identifier: OctetsFields
    info: AnyFields
    has_info: int
    reserved: int


@declared("dm_organization_identifier", "PNPNPNPNII")
class OrganizationIdentifierFields(Record):
    scheme: OctetsFields
    country: OctetsFields
    state_or_province: OctetsFields
    reference: OctetsFields
    has_state_or_province: int
    reserved: int


@declared("dm_certificate_list", "PNPNPNPNPNPNPNPNPNIIIIBBBBBBbbIIIBBBBBBbbIII")
class CertificateListFields(Record):
    tbs: OctetsFields
    signature: AlgorithmFields
    issuer: OctetsFields
    revoked: OctetsFields
    extensions: OctetsFields
    signature_algorithm: AlgorithmFields
    signature_value: BitsFields
    this_update: MomentFields
    next_update: MomentFields
    version: int
    has_revoked: int


@declared("dm_revoked", "PNPNIIBBBBBBbbII")
class RevokedFields(Record):
    serial_number: OctetsFields
    extensions: OctetsFields
    date: MomentFields
    reserved: int


@declared("dm_issuing_distribution_point", "PNPNPNIIIIII")
class IssuingDistributionPointFields(Record):
    full_name: OctetsFields
    relative_name: OctetsFields
    reasons: BitsFields
    only_contains_user_certs: int
    only_contains_ca_certs: int
    indirect_crl: int
    only_contains_attribute_certs: int


@declared("dm_request", "PNPNPNPNPNIIPNPNPNPNII")
class RequestFields(Record):
    info: OctetsFields
    subject: OctetsFields
    key_algorithm: AlgorithmFields
    key: BitsFields
    attributes: OctetsFields
    signature_algorithm: AlgorithmFields
    signature: BitsFields


@declared("dm_private_key", "PNPNIBBHPNPNPNIIIIII")
class PrivateKeyFields(Record):
    algorithm: OctetsFields
    parameters: AnyFields
    private_key: OctetsFields
    attributes: OctetsFields
    public_key: BitsFields
    version: int
    has_parameters: int
    has_attributes: int
    reserved: int


@declared("dm_rsa_private_key", "PNPNPNPNPNPNPNPNPNII")
class RsaPrivateKeyFields(Record):
    modulus: OctetsFields
    public_exponent: OctetsFields
    private_exponent: OctetsFields
    prime1: OctetsFields
    prime2: OctetsFields
    exponent1: OctetsFields
    exponent2: OctetsFields
    coefficient: OctetsFields
    other_primes: OctetsFields
    version: int
    has_other_primes: int


@declared("dm_ec_private_key", "PNPNIBBHPNIIII")
class EcPrivateKeyFields(Record):
    private_key: OctetsFields
    parameters: AnyFields
    public_key: BitsFields
    version: int
    has_parameters: int


@declared("dm_encrypted_private_key", "PNPNIBBHPNII")
class EncryptedPrivateKeyFields(Record):
    algorithm: OctetsFields
    parameters: AnyFields
    encrypted_data: OctetsFields
    has_parameters: int
    reserved: int


@declared("dm_public_key", "PNPNIBBHPNIIII")
class PublicKeyFields(Record):
    algorithm: OctetsFields
    parameters: AnyFields
    public_key: BitsFields
    has_parameters: int
    reserved: int


@declared("dm_rsa_public_key", "PNPN")
class RsaPublicKeyFields(Record):
    modulus: OctetsFields
    public_exponent: OctetsFields


@declared("dm_key_kind", "III")
class KeyKindFields(Record):
    key_type: int
    curve: int
    bits: int


@declared("dm_pem", "PNN")
class PemFields(Record):
    label: OctetsFields
    length: int


STRUCTS: Dict[str, Type[ctypes.Structure]] = {
    "dm_outcome": OutcomeStruct,
    "dm_time": TimeStruct,
    "dm_writer": WriterStruct,
    "dm_mark": MarkStruct,
}

version = call("dm_version", c_uint32)
parse_der = call("dm_parse_der", c_uint32, c_void_p, c_size_t, c_size_t, c_void_p, c_size_t, c_void_p)
parse_ber = call("dm_parse_ber", c_uint32, c_void_p, c_size_t, c_size_t, c_void_p, c_size_t, c_void_p)
check_der = call("dm_check_der", c_uint32, c_void_p, c_size_t, c_size_t, c_void_p)
check_ber = call("dm_check_ber", c_uint32, c_void_p, c_size_t, c_size_t, c_void_p)
first_der = call("dm_first_der", c_uint32, c_void_p, c_size_t, c_void_p, c_void_p)
first_ber = call("dm_first_ber", c_uint32, c_void_p, c_size_t, c_void_p, c_void_p)
write_der = call("dm_write_der", c_uint32, c_void_p, c_size_t, c_void_p, c_size_t, c_void_p)
error_text = call("dm_error_text", c_size_t, c_uint32, c_void_p, c_size_t)
read_i64 = call("dm_read_i64", c_uint32, c_void_p, c_size_t, c_void_p)
read_u64 = call("dm_read_u64", c_uint32, c_void_p, c_size_t, c_void_p)
read_bool = call("dm_read_bool", c_uint32, c_void_p, c_size_t, c_void_p)
read_oid = call("dm_read_oid", c_uint32, c_void_p, c_size_t, c_void_p, c_size_t, c_void_p)
oid_from_text = call("dm_oid_from_text", c_uint32, c_void_p, c_size_t, c_void_p, c_size_t, c_void_p)
check_text = call("dm_check_text", c_uint32, c_uint32, c_void_p, c_size_t)
read_time = call("dm_read_time", c_uint32, c_uint32, c_void_p, c_size_t, c_void_p)
open_sequence = call("dm_open_sequence", MarkStruct, c_void_p)
open_set = call("dm_open_set", MarkStruct, c_void_p)
open_octet_string = call("dm_open_octet_string", MarkStruct, c_void_p)
open_tagged = call("dm_open_tagged", MarkStruct, c_void_p, c_uint32)
open = call("dm_open", MarkStruct, c_void_p, c_uint8, c_uint8, c_uint32)
close = call("dm_close", None, c_void_p, MarkStruct)
close_set_of = call("dm_close_set_of", None, c_void_p, MarkStruct)
implicit = call("dm_implicit", None, c_void_p, c_uint8, c_uint32)
put_bool = call("dm_put_bool", None, c_void_p, c_uint8)
put_i64 = call("dm_put_i64", None, c_void_p, c_int64)
put_u64 = call("dm_put_u64", None, c_void_p, c_uint64)
put_enumerated = call("dm_put_enumerated", None, c_void_p, c_uint64)
put_enumerated_i64 = call("dm_put_enumerated_i64", None, c_void_p, c_int64)
put_octets = call("dm_put_octets", None, c_void_p, c_void_p, c_size_t)
put_null = call("dm_put_null", None, c_void_p)
put_magnitude = call("dm_put_magnitude", None, c_void_p, c_void_p, c_size_t)
put_bits = call("dm_put_bits", None, c_void_p, c_uint8, c_void_p, c_size_t)
put_oid = call("dm_put_oid", None, c_void_p, c_void_p, c_size_t)
put_elements = call("dm_put_elements", None, c_void_p, c_void_p, c_size_t)
put_integer = call("dm_put_integer", c_uint32, c_void_p, c_void_p, c_size_t)
put_arcs = call("dm_put_arcs", c_uint32, c_void_p, c_void_p, c_size_t)
put_text = call("dm_put_text", c_uint32, c_void_p, c_uint32, c_void_p, c_size_t)
put_time = call("dm_put_time", c_uint32, c_void_p, c_uint32, c_void_p)
finish = call("dm_finish", c_uint32, c_void_p, c_void_p)
fault_text = call("dm_fault_text", c_size_t, c_void_p, c_void_p, c_size_t)
named_fault_text = call("dm_named_fault_text", c_size_t, c_void_p, c_void_p, c_size_t, c_void_p, c_size_t)
found_text = call("dm_found_text", c_size_t, c_void_p, c_void_p, c_size_t, c_void_p, c_size_t)
tag_text = call("dm_tag_text", c_size_t, c_uint8, c_uint32, c_void_p, c_size_t)
read_certificate = call("dm_read_certificate", c_uint32, c_void_p, c_size_t, c_void_p, c_void_p)
read_strict_certificate = call("dm_read_strict_certificate", c_uint32, c_void_p, c_size_t, c_void_p, c_void_p)
is_valid_at = call("dm_is_valid_at", c_uint32, c_void_p, c_uint64)
next_relative_name = call("dm_next_relative_name", c_uint32, c_void_p, c_void_p)
next_attribute = call("dm_next_attribute", c_uint32, c_void_p, c_void_p)
name_text = call("dm_name_text", c_size_t, c_void_p, c_size_t, c_void_p, c_size_t)
name_utf8 = call("dm_name_utf8", c_size_t, c_void_p, c_size_t, c_void_p, c_size_t)
next_extension = call("dm_next_extension", c_uint32, c_void_p, c_void_p)
find_extension = call("dm_find_extension", c_uint32, c_void_p, c_uint32, c_void_p)
has_unknown_critical = call("dm_has_unknown_critical", c_uint32, c_void_p, c_size_t)
read_basic_constraints = call("dm_read_basic_constraints", c_uint32, c_void_p, c_size_t, c_void_p, c_void_p)
read_key_usage = call("dm_read_key_usage", c_uint32, c_void_p, c_size_t, c_void_p, c_void_p)
read_general_names = call("dm_read_general_names", c_uint32, c_void_p, c_size_t, c_void_p, c_void_p)
next_general_name = call("dm_next_general_name", c_uint32, c_void_p, c_void_p)
next_dns_name = call("dm_next_dns_name", c_uint32, c_void_p, c_void_p)
read_subject_alt_names = call("dm_read_subject_alt_names", c_uint32, c_void_p, c_void_p, c_void_p)
read_extended_key_usage = call("dm_read_extended_key_usage", c_uint32, c_void_p, c_size_t, c_void_p, c_void_p)
next_key_purpose = call("dm_next_key_purpose", c_uint32, c_void_p, c_void_p)
read_subject_key_identifier = call("dm_read_subject_key_identifier", c_uint32, c_void_p, c_size_t, c_void_p, c_void_p)
read_authority_key_identifier = call("dm_read_authority_key_identifier", c_uint32, c_void_p, c_size_t, c_void_p,
    c_void_p)
read_certificate_policies = call("dm_read_certificate_policies", c_uint32, c_void_p, c_size_t, c_void_p, c_void_p)
next_policy = call("dm_next_policy", c_uint32, c_void_p, c_void_p)
next_policy_qualifier = call("dm_next_policy_qualifier", c_uint32, c_void_p, c_void_p)
read_distribution_points = call("dm_read_distribution_points", c_uint32, c_void_p, c_size_t, c_void_p, c_void_p)
next_distribution_point = call("dm_next_distribution_point", c_uint32, c_void_p, c_void_p)
read_name_constraints = call("dm_read_name_constraints", c_uint32, c_void_p, c_size_t, c_void_p, c_void_p)
next_subtree = call("dm_next_subtree", c_uint32, c_void_p, c_void_p)
read_information_access = call("dm_read_information_access", c_uint32, c_void_p, c_size_t, c_void_p, c_void_p)
next_access_description = call("dm_next_access_description", c_uint32, c_void_p, c_void_p)
read_policy_mappings = call("dm_read_policy_mappings", c_uint32, c_void_p, c_size_t, c_void_p, c_void_p)
next_policy_mapping = call("dm_next_policy_mapping", c_uint32, c_void_p, c_void_p)
read_policy_constraints = call("dm_read_policy_constraints", c_uint32, c_void_p, c_size_t, c_void_p, c_void_p)
read_inhibit_any_policy = call("dm_read_inhibit_any_policy", c_uint32, c_void_p, c_size_t, c_void_p, c_void_p)
read_directory_attributes = call("dm_read_directory_attributes", c_uint32, c_void_p, c_size_t, c_void_p, c_void_p)
next_directory_attribute = call("dm_next_directory_attribute", c_uint32, c_void_p, c_void_p)
read_signed_certificate_timestamps = call("dm_read_signed_certificate_timestamps", c_uint32, c_void_p, c_size_t,
    c_void_p, c_void_p)
next_timestamp = call("dm_next_timestamp", c_uint32, c_void_p, c_void_p)
read_null_extension = call("dm_read_null_extension", c_uint32, c_void_p, c_size_t, c_void_p)
read_tls_features = call("dm_read_tls_features", c_uint32, c_void_p, c_size_t, c_void_p, c_void_p)
next_tls_feature = call("dm_next_tls_feature", c_uint32, c_void_p, c_void_p)
read_qc_statements = call("dm_read_qc_statements", c_uint32, c_void_p, c_size_t, c_void_p, c_void_p)
next_qc_statement = call("dm_next_qc_statement", c_uint32, c_void_p, c_void_p)
read_organization_identifier = call("dm_read_organization_identifier", c_uint32, c_void_p, c_size_t, c_void_p, c_void_p)
read_certificate_list = call("dm_read_certificate_list", c_uint32, c_void_p, c_size_t, c_void_p, c_void_p)
next_revoked = call("dm_next_revoked", c_uint32, c_void_p, c_void_p)
read_reason = call("dm_read_reason", c_uint32, c_void_p, c_size_t, c_void_p, c_void_p)
read_invalidity_date = call("dm_read_invalidity_date", c_uint32, c_void_p, c_size_t, c_void_p, c_void_p)
read_crl_number = call("dm_read_crl_number", c_uint32, c_void_p, c_size_t, c_void_p, c_void_p)
read_issuing_distribution_point = call("dm_read_issuing_distribution_point", c_uint32, c_void_p, c_size_t, c_void_p,
    c_void_p)
broken_rules = call("dm_broken_rules", c_uint32, c_void_p, c_size_t, c_void_p, c_size_t, c_void_p, c_void_p)
broken_crl_rules = call("dm_broken_crl_rules", c_uint32, c_void_p, c_size_t, c_void_p, c_size_t, c_void_p, c_void_p)
rule_text = call("dm_rule_text", c_size_t, c_uint32, c_void_p, c_size_t)
rule_kind = call("dm_rule_kind", c_uint32, c_uint32)
read_request = call("dm_read_request", c_uint32, c_void_p, c_size_t, c_void_p, c_void_p)
next_request_attribute = call("dm_next_request_attribute", c_uint32, c_void_p, c_void_p)
read_extension_request = call("dm_read_extension_request", c_uint32, c_void_p, c_size_t, c_void_p, c_void_p)
read_private_key = call("dm_read_private_key", c_uint32, c_void_p, c_size_t, c_void_p, c_void_p)
read_rsa_private_key = call("dm_read_rsa_private_key", c_uint32, c_void_p, c_size_t, c_void_p, c_void_p)
read_ec_private_key = call("dm_read_ec_private_key", c_uint32, c_void_p, c_size_t, c_void_p, c_void_p)
read_encrypted_private_key = call("dm_read_encrypted_private_key", c_uint32, c_void_p, c_size_t, c_void_p, c_void_p)
read_public_key = call("dm_read_public_key", c_uint32, c_void_p, c_size_t, c_void_p, c_void_p)
read_rsa_public_key = call("dm_read_rsa_public_key", c_uint32, c_void_p, c_size_t, c_void_p, c_void_p)
key_type = call("dm_key_type", c_uint32, c_void_p, c_void_p, c_void_p)
public_key_type = call("dm_public_key_type", c_uint32, c_void_p, c_void_p)
next_pem = call("dm_next_pem", c_uint32, c_void_p, c_void_p, c_size_t, c_void_p, c_size_t, c_void_p)
find_pem = call("dm_find_pem", c_uint32, c_void_p, c_size_t, c_void_p)
decode_input = call("dm_decode_input", c_uint32, c_void_p, c_size_t, c_void_p, c_size_t, c_void_p)
sha256 = call("dm_sha256", None, c_void_p, c_size_t, c_void_p)
