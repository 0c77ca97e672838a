/* Made by callers/make of the repository. */

/* Reads BER and DER (ITU-T X.690) and certificates (RFC 5280), and writes DER. The repository's docs/GUARANTEES.md has
 * what is proved.
 *
 * No call allocates or keeps a pointer. All state is in the caller's structs: threads may call at the same time, each
 * with its own writers, cursors and lists.
 *
 * The caller must ensure, and nothing checks, that
 * - each pointer may be read or written for the length passed beside it, is aligned, and isn't NULL unless that length
 *   is 0. Memory that is only written may be uninitialised;
 * - what is written overlaps nothing else that is passed;
 * - the stack has space for DM_MAX_DEPTH levels of DM_LEVEL_OCTETS each.
 *
 * Offsets (`place`, `offset`) count octets from the start of the input. */
#ifndef DUMAREWHI_H
#define DUMAREWHI_H

#include <stddef.h>
#include <stdint.h>

#ifdef __cplusplus
extern "C" {
#endif

/* The version of the header; dm_version returns the library's. 10000 * major + 100 * minor + patch (semver.org). */
#define DM_VERSION_MAJOR 0
#define DM_VERSION_MINOR 1
#define DM_VERSION_PATCH 0
#define DM_VERSION (DM_VERSION_MAJOR * 10000 + DM_VERSION_MINOR * 100 + DM_VERSION_PATCH)
uint32_t dm_version(void);

/* The tag numbers of universal types (X.680 8.6, table 1). */
enum dm_universal {
    DM_BOOLEAN = 1, DM_INTEGER = 2, DM_BIT_STRING = 3, DM_OCTET_STRING = 4, DM_NULL = 5, DM_OBJECT_IDENTIFIER = 6,
    DM_OBJECT_DESCRIPTOR = 7, DM_EXTERNAL = 8, DM_REAL = 9, DM_ENUMERATED = 10, DM_EMBEDDED_PDV = 11,
    DM_UTF8_STRING = 12, DM_RELATIVE_OID = 13, DM_SEQUENCE = 16, DM_SET = 17, DM_NUMERIC_STRING = 18,
    DM_PRINTABLE_STRING = 19, DM_T61_STRING = 20, DM_VIDEOTEX_STRING = 21, DM_IA5_STRING = 22, DM_UTC_TIME = 23,
    DM_GENERALIZED_TIME = 24, DM_GRAPHIC_STRING = 25, DM_VISIBLE_STRING = 26, DM_GENERAL_STRING = 27,
    DM_UNIVERSAL_STRING = 28, DM_CHARACTER_STRING = 29, DM_BMP_STRING = 30
};

/* One element of the input: its tag (X.690 8.1.2) and offsets. */
typedef struct dm_element {
    size_t header;       /* offset of the identifier octets */
    size_t content;      /* offset of the content octets */
    size_t end;          /* end of the content octets; end-of-contents octets may follow */
    size_t inside;       /* number of elements inside this one, at any depth: they follow it */
    uint32_t number;     /* the tag number */
    uint8_t tag_class;   /* one of enum dm_class */
    uint8_t constructed; /* the constructed bit (8.1.2.5), 0 or 1 */
    uint8_t definite;    /* 1 if the length is definite (8.1.3.3), 0 if it is indefinite (8.1.3.6) */
    uint8_t reserved;    /* 0 */
} dm_element;

/* The class of a tag (X.690 8.1.2.2). */
enum dm_class {
    DM_UNIVERSAL = 0,        /* the types of X.680 */
    DM_APPLICATION = 1,      /* tags that mean one thing throughout an application */
    DM_CONTEXT_SPECIFIC = 2, /* tags that mean one thing in the type around them */
    DM_PRIVATE = 3           /* tags of an enterprise */
};

/* The result of a call. */
enum dm_status {
    DM_OK = 0,         /* the input begins with an element; dm_write_der: all of it is elements */
    DM_ERROR = 1,      /* a prefix of the input breaks a rule, whatever follows; dm_write_der: see there */
    DM_INCOMPLETE = 2, /* the input is cut short: more octets may complete it */
    DM_NO_ROOM = 3,    /* dm_write_der, dm_finish: the buffer is too small */
    DM_NOT_CLOSED = 4  /* dm_finish: an element is still open */
};

/* Each field is for the status named; with others it is 0. */
typedef struct dm_outcome {
    size_t elements; /* DM_OK: number of elements, even if the buffer holds fewer */
    size_t length;   /* DM_OK: number of octets read, or written by dm_write_der. DM_NO_ROOM: the capacity that is
                      * needed */
    size_t place;    /* DM_ERROR: offset of the innermost element that breaks the rule */
    size_t missing;  /* DM_INCOMPLETE: number of missing octets, as far as the input shows: up to the end of the
                      * outermost element, once its header gives its length */
    uint32_t status; /* one of enum dm_status */
    uint32_t error;  /* DM_ERROR: one of enum dm_error */
} dm_outcome;

/* The largest depth of elements, where the outermost one has depth 1. Larger values of max_depth count as this one. */
#define DM_MAX_DEPTH 101

/* The most octets of stack that a level takes. Measured, not proved. */
#define DM_LEVEL_OCTETS 1024

/* Lists the first element of the input and those inside it in preorder, by DER or by BER, and returns the status.
 *
 * `room` is the buffer's capacity in elements. If there are more, the first ones are written and the rest counted, so 0
 * counts all. Unless the status is DM_OK, the buffer's contents are unspecified.
 *
 * The content of a constructed element of any class is elements (8.1.4), at most max_depth deep. The content of a
 * primitive element is checked by its universal type (8.2 to 8.25, for DER also 11; errors from 64 on). Other types and
 * classes have any content. Rules that need the ASN.1 type aren't checked, such as the order of a SET; nor are the
 * types of the parts of a constructed string (8.6.4, 8.7.3).
 *
 * An element that is too deep is DM_ERROR_MAX_DEPTH, unless its header or length is wrong. */
uint32_t dm_parse_der(const uint8_t *input, size_t length, size_t max_depth, dm_element *elements, size_t room,
                      dm_outcome *outcome);
uint32_t dm_parse_ber(const uint8_t *input, size_t length, size_t max_depth, dm_element *elements, size_t room,
                      dm_outcome *outcome);

/* Check as dm_parse_der and dm_parse_ber do, without a buffer. */
uint32_t dm_check_der(const uint8_t *input, size_t length, size_t max_depth, dm_outcome *outcome);
uint32_t dm_check_ber(const uint8_t *input, size_t length, size_t max_depth, dm_outcome *outcome);

/* Finds the first element by its header, and by BER its end, without checking its content. Returns the status.
 *
 * With DM_OK the element is written with `inside` 0, `elements` is 1, and `length` counts the header, the content and
 * the end-of-contents octets. Otherwise the element is left alone, and with DM_ERROR `place` is 0. By BER more than 49
 * nested indefinite lengths are DM_ERROR_MAX_DEPTH. */
uint32_t dm_first_der(const uint8_t *input, size_t length, dm_element *element, dm_outcome *outcome);
uint32_t dm_first_ber(const uint8_t *input, size_t length, dm_element *element, dm_outcome *outcome);

/* Converts elements from BER to DER and returns the status: lengths in the fewest octets (10.1), strings primitive
 * (10.2), BOOLEANs as 00 or ff (11.1), unused bits as 0 (11.2.1). Elements that are DER already are copied. The content
 * of a constructed element of any class is elements (8.1.4), at most DM_MAX_DEPTH deep. The order of a SET OF, default
 * values and types under other tags depend on the ASN.1 and stay as they are. Any other value that isn't DER, such as a
 * time without seconds, is an error.
 *
 * - DM_OK: the buffer begins with `length` octets, the DER encoding of the whole input. `elements` is 0.
 * - DM_NO_ROOM: call again with a capacity of `length` octets. With a capacity of 0 the call counts.
 * - DM_ERROR, DM_INCOMPLETE: the input isn't elements by BER, an element or a constructed string has no form in DER, or
 *   the input has 2^60 octets or more (DM_ERROR_NOT_DER).
 *
 * An error is the first of the input, whatever follows and whatever the capacity. Only the content of a constructed
 * string is checked last, if the capacity suffices: the error is then the first rule of its type that it breaks, at the
 * string's offset. Unless the status is DM_OK, the buffer's contents are unspecified. */
uint32_t dm_write_der(const uint8_t *input, size_t length, uint8_t *out, size_t room, dm_outcome *outcome);

/* The numbers of errors; 0 is none. Calls of this header don't return all of them. */
enum dm_error {
    DM_ERROR_WRONG_TYPE = 1,                    /* wrong type */
    DM_ERROR_WRONG_VALUE = 2,                   /* wrong value */
    DM_ERROR_MAX_DEPTH = 3,                     /* maximum depth reached */
    DM_ERROR_INVALID_LENGTH = 4,                /* invalid length */
    DM_ERROR_INVALID_TAG = 5,                   /* invalid tag */
    DM_ERROR_UNKNOWN_TAG = 6,                   /* unknown tag */
    DM_ERROR_UNEXPECTED_TAG = 7,                /* unexpected tag */
    DM_ERROR_UNEXPECTED_CLASS = 8,              /* unexpected class */
    DM_ERROR_CONSTRUCTED_EXPECTED = 9,          /* constructed encoding expected */
    DM_ERROR_PRIMITIVE_EXPECTED = 10,           /* primitive encoding expected */
    DM_ERROR_INTEGER_TOO_LARGE = 11,            /* integer too large */
    DM_ERROR_INTEGER_NEGATIVE = 12,             /* integer negative */
    DM_ERROR_INVALID_VALUE = 13,                /* invalid value */
    DM_ERROR_INVALID_CHARACTER = 14,            /* invalid character in string */
    DM_ERROR_INVALID_TIME = 15,                 /* invalid date or time */
    DM_ERROR_UNSUPPORTED = 16,                  /* unsupported */
    DM_ERROR_OVERRUN = 17,                      /* item runs past the end of its container (more octets don't help) */
    DM_ERROR_PARSER_FAULT = 18,                 /* parser fault */
    /* rules of DER (X.690 8.3, 10 and 11) */
    DM_ERROR_INDEFINITE_LENGTH = 32,            /* DER constraint failed: indefinite length */
    DM_ERROR_LENGTH_NOT_MINIMAL = 33,           /* DER constraint failed: length not minimal */
    DM_ERROR_CONSTRUCTED = 34,                  /* DER constraint failed: constructed */
    DM_ERROR_INVALID_BOOLEAN = 35,              /* DER constraint failed: invalid boolean */
    DM_ERROR_INTEGER_EMPTY = 36,                /* DER constraint failed: integer empty */
    DM_ERROR_INTEGER_LEADING_ZEROES = 37,       /* DER constraint failed: integer with leading zeroes */
    DM_ERROR_INTEGER_LEADING_FF = 38,           /* DER constraint failed: integer with leading ff */
    DM_ERROR_MISSING_TIME_ZONE = 39,            /* DER constraint failed: missing time zone */
    DM_ERROR_MISSING_SECONDS = 40,              /* DER constraint failed: missing seconds */
    DM_ERROR_FRACTION_NOT_MINIMAL = 41,         /* DER constraint failed: fraction not minimal */
    DM_ERROR_UNUSED_BITS_NOT_ZERO = 42,         /* DER constraint failed: unused bits not zero */
    DM_ERROR_SET_OUT_OF_ORDER = 43,             /* DER constraint failed: set out of order */
    /* end-of-contents octets (8.1.5) */
    DM_ERROR_NO_END_MARKER = 48,                /* an indefinite length has no end-of-contents octets (X.690 8.1.3.6) */
    DM_ERROR_STRAY_END_MARKER = 49,             /* end-of-contents octets, and no indefinite length ends here (X.690
                                                 * 8.1.5) */
    /* only of dm_write_der */
    DM_ERROR_PART_OF_ANOTHER_TYPE = 50,         /* a part of a constructed string isn't an OCTET STRING, or of a BIT
                                                 * STRING no BIT STRING (X.690 8.6.4 and 8.7.3) */
    DM_ERROR_UNUSED_BITS_INSIDE = 51,           /* a part of a BIT STRING has unused bits, and another part follows
                                                 * (X.690 8.6.4) */
    DM_ERROR_NOT_DER = 52,                      /* these are no elements of DER (X.690 10) */
    /* rules of content octets, of the calls that list, check and write elements */
    DM_ERROR_BOOLEAN_LENGTH = 64,               /* a BOOLEAN isn't one octet (X.690 8.2.1) */
    DM_ERROR_BOOLEAN_VALUE = 65,                /* a BOOLEAN is neither 00 nor ff (X.690 11.1) */
    DM_ERROR_NUMBER_EMPTY = 66,                 /* a number has no octets (X.690 8.3.1) */
    DM_ERROR_NUMBER_PADDED = 67,                /* the first nine bits of a number are alike (X.690 8.3.2) */
    DM_ERROR_UNUSED_BITS_MISSING = 68,          /* a BIT STRING has no octets (X.690 8.6.2.1) */
    DM_ERROR_UNUSED_BITS_ABOVE_SEVEN = 69,      /* more than seven bits are unused (X.690 8.6.2.2) */
    DM_ERROR_UNUSED_BITS_OF_NONE = 70,          /* a BIT STRING without bits has unused ones (X.690 8.6.2.3) */
    DM_ERROR_UNUSED_BIT_IS_SET = 71,            /* an unused bit isn't 0 (X.690 11.2.1) */
    DM_ERROR_NULL_NOT_EMPTY = 72,               /* a NULL has octets (X.690 8.8.2) */
    DM_ERROR_IDENTIFIER_EMPTY = 73,             /* an identifier has no octets (X.690 8.19.2, 8.20.2) */
    DM_ERROR_ARC_OPEN = 74,                     /* the last arc has no end (X.690 8.19.2, 8.20.2) */
    DM_ERROR_ARC_PADDED = 75,                   /* an arc begins with 80 (X.690 8.19.2, 8.20.2) */
    DM_ERROR_REAL_BASE_RESERVED = 76,           /* the base of a REAL is a reserved one (X.690 8.5.7.2) */
    DM_ERROR_REAL_EXPONENT_MISSING = 77,        /* a REAL has no exponent (X.690 8.5.7.4) */
    DM_ERROR_REAL_MANTISSA_MISSING = 78,        /* a REAL has no mantissa (X.690 8.5.7.5) */
    DM_ERROR_REAL_EXPONENT_PADDED = 79,         /* the first nine bits of an exponent are alike (X.690 8.5.7.4) */
    DM_ERROR_REAL_BASE_OR_SCALE = 80,           /* a REAL has a base other than 2 or a scaling factor (X.690 11.3.1) */
    DM_ERROR_REAL_EXPONENT_NOT_FEWEST = 81,     /* an exponent isn't in its fewest octets (X.690 11.3.1) */
    DM_ERROR_REAL_MANTISSA_NOT_FEWEST = 82,     /* a mantissa is even or begins with 00 (X.690 11.3.1) */
    DM_ERROR_REAL_SPECIAL = 83,                 /* a special value of a REAL isn't known (X.690 8.5.9) */
    DM_ERROR_REAL_DECIMAL = 84,                 /* a decimal REAL isn't in its form of ISO 6093 (X.690 8.5.8) */
    DM_ERROR_REAL_DECIMAL_NOT_STRICT = 85,      /* a decimal REAL has needless characters (X.690 11.3.2) */
    DM_ERROR_NOT_UTF8 = 86,                     /* a text isn't UTF-8 (X.690 8.21, 8.22, 8.23.10) */
    DM_ERROR_CHARACTER_OUTSIDE = 87,            /* an octet is outside of the character set (X.690 8.23) */
    DM_ERROR_UNIVERSAL_STRING_LENGTH = 88,      /* a UniversalString isn't groups of four octets (X.690 8.23.7) */
    DM_ERROR_BMP_STRING_LENGTH = 89,            /* a BMPString isn't pairs of octets (X.690 8.23.9) */
    DM_ERROR_TIME_TEXT = 90,                    /* a time isn't a text of its type (X.690 8.25) */
    DM_ERROR_TIME_NOT_IN_Z = 91,                /* a time doesn't end in Z (X.690 11.7.1, 11.8.1) */
    DM_ERROR_TIME_WITHOUT_SECONDS = 92,         /* a time has no seconds (X.690 11.7.2, 11.8.2) */
    DM_ERROR_TIME_COMMA = 93,                   /* a fraction has a comma (X.690 11.7.4) */
    DM_ERROR_TIME_LAST_ZERO = 94,               /* a fraction ends in 0 (X.690 11.7.3) */
    DM_ERROR_SEQUENCE_PRIMITIVE = 95,           /* a SEQUENCE is primitive (X.690 8.9.1) */
    DM_ERROR_SET_PRIMITIVE = 96,                /* a SET is primitive (X.690 8.11.1) */
    DM_ERROR_EMBEDDED_PDV_PRIMITIVE = 97,       /* an EMBEDDED PDV is primitive (X.690 8.17) */
    DM_ERROR_EXTERNAL_PRIMITIVE = 98,           /* an EXTERNAL is primitive (X.690 8.18.1) */
    DM_ERROR_CHARACTER_STRING_PRIMITIVE = 99,   /* a CHARACTER STRING is primitive (X.690 8.24) */
    /* rules of RFC 5280 that its ASN.1 doesn't say, of dm_read_strict_certificate */
    DM_ERROR_ALGORITHMS_DIFFER = 128,           /* the signature algorithms differ (4.1.1.2) */
    DM_ERROR_SERIAL_NUMBER_NOT_POSITIVE = 129,  /* the serial number is not positive (4.1.2.2) */
    DM_ERROR_SERIAL_NUMBER_TOO_LONG = 130,      /* the serial number has more than 20 octets (4.1.2.2) */
    DM_ERROR_ISSUER_EMPTY = 131,                /* the issuer has no name (4.1.2.4) */
    DM_ERROR_ATTRIBUTES_OUT_OF_ORDER = 132,     /* attributes of a relative name are out of order (4.1, X.690 11.6) */
    DM_ERROR_EARLY_GENERALIZED_TIME = 133,      /* a time before 2050 is a GeneralizedTime (4.1.2.5) */
    DM_ERROR_TIME_WITH_FRACTION = 134,          /* a time has a fraction of a second (4.1.2.5.2) */
    DM_ERROR_UNIQUE_ID_IN_VERSION_1 = 135,      /* a unique identifier in version 1 (4.1.2.8) */
    DM_ERROR_EXTENSIONS_BEFORE_VERSION_3 = 136, /* extensions before version 3 (4.1.2.9) */
    DM_ERROR_EXTENSION_REPEATED = 137,          /* an extension is repeated, or there are more than 512 (4.2) */
    DM_ERROR_SUBJECT_WITHOUT_NAME = 138,        /* the subject has no name (4.1.2.6, 4.2.1.6) */
    DM_ERROR_VALUE_NOT_DER = 139,               /* a value of any type is not DER (X.690 10) */
    /* of dm_next_pem (RFC 7468 2, 3) */
    DM_ERROR_PEM_NO_BLOCK = 192,                /* no line -----BEGIN ..----- */
    DM_ERROR_PEM_NO_END = 193,                  /* a block without its line -----END ..----- */
    DM_ERROR_PEM_LABELS_DIFFER = 194,           /* a block whose first and last line have other labels */
    DM_ERROR_PEM_ENCRYPTED = 195,               /* the block is encrypted (RFC 1421 4.6.1.1) */
    DM_ERROR_PEM_BASE64 = 196,                  /* invalid base64 (RFC 4648 4) */
    DM_ERROR_PEM_NO_ROOM = 197,                 /* a buffer is too small for the block */
    /* the text of dm_found_text */
    DM_ERROR_PEM_INPUT = 198                    /* this is PEM, which dm_decode_input decodes */
};

/* Writes the text of an error without a terminating 0, cut to `room` octets. Returns the length of the whole text, at
 * most DM_TEXT_OCTETS. The texts are tested, not proved. */
size_t dm_error_text(uint32_t error, uint8_t *text, size_t room);

#define DM_TEXT_OCTETS 160

/* The text of an error as a string of C. */
static inline const char *dm_error_string(uint32_t error) {
    switch (error) {
    case 0: return "no error";
    case DM_ERROR_WRONG_TYPE: return "wrong type";
    case DM_ERROR_WRONG_VALUE: return "wrong value";
    case DM_ERROR_MAX_DEPTH: return "maximum depth reached";
    case DM_ERROR_INVALID_LENGTH: return "invalid length";
    case DM_ERROR_INVALID_TAG: return "invalid tag";
    case DM_ERROR_UNKNOWN_TAG: return "unknown tag";
    case DM_ERROR_UNEXPECTED_TAG: return "unexpected tag";
    case DM_ERROR_UNEXPECTED_CLASS: return "unexpected class";
    case DM_ERROR_CONSTRUCTED_EXPECTED: return "constructed encoding expected";
    case DM_ERROR_PRIMITIVE_EXPECTED: return "primitive encoding expected";
    case DM_ERROR_INTEGER_TOO_LARGE: return "integer too large";
    case DM_ERROR_INTEGER_NEGATIVE: return "integer negative";
    case DM_ERROR_INVALID_VALUE: return "invalid value";
    case DM_ERROR_INVALID_CHARACTER: return "invalid character in string";
    case DM_ERROR_INVALID_TIME: return "invalid date or time";
    case DM_ERROR_UNSUPPORTED: return "unsupported";
    case DM_ERROR_OVERRUN: return "item runs past the end of its container";
    case DM_ERROR_PARSER_FAULT: return "parser fault";
    case DM_ERROR_INDEFINITE_LENGTH: return "DER constraint failed: indefinite length";
    case DM_ERROR_LENGTH_NOT_MINIMAL: return "DER constraint failed: length not minimal";
    case DM_ERROR_CONSTRUCTED: return "DER constraint failed: constructed";
    case DM_ERROR_INVALID_BOOLEAN: return "DER constraint failed: invalid boolean";
    case DM_ERROR_INTEGER_EMPTY: return "DER constraint failed: integer empty";
    case DM_ERROR_INTEGER_LEADING_ZEROES: return "DER constraint failed: integer with leading zeroes";
    case DM_ERROR_INTEGER_LEADING_FF: return "DER constraint failed: integer with leading ff";
    case DM_ERROR_MISSING_TIME_ZONE: return "DER constraint failed: missing time zone";
    case DM_ERROR_MISSING_SECONDS: return "DER constraint failed: missing seconds";
    case DM_ERROR_FRACTION_NOT_MINIMAL: return "DER constraint failed: fraction not minimal";
    case DM_ERROR_UNUSED_BITS_NOT_ZERO: return "DER constraint failed: unused bits not zero";
    case DM_ERROR_SET_OUT_OF_ORDER: return "DER constraint failed: set out of order";
    case DM_ERROR_NO_END_MARKER: return "an indefinite length has no end-of-contents octets (X.690 8.1.3.6)";
    case DM_ERROR_STRAY_END_MARKER: return "end-of-contents octets, and no indefinite length ends here (X.690 8.1.5)";
    case DM_ERROR_PART_OF_ANOTHER_TYPE:
        return "a part of a constructed string isn't an OCTET STRING, or of a BIT STRING no BIT STRING (X.690 8.6.4 "
               "and 8.7.3)";
    case DM_ERROR_UNUSED_BITS_INSIDE:
        return "a part of a BIT STRING has unused bits, and another part follows (X.690 8.6.4)";
    case DM_ERROR_NOT_DER: return "these are no elements of DER (X.690 10)";
    case DM_ERROR_BOOLEAN_LENGTH: return "a BOOLEAN isn't one octet (X.690 8.2.1)";
    case DM_ERROR_BOOLEAN_VALUE: return "a BOOLEAN is neither 00 nor ff (X.690 11.1)";
    case DM_ERROR_NUMBER_EMPTY: return "a number has no octets (X.690 8.3.1)";
    case DM_ERROR_NUMBER_PADDED: return "the first nine bits of a number are alike (X.690 8.3.2)";
    case DM_ERROR_UNUSED_BITS_MISSING: return "a BIT STRING has no octets (X.690 8.6.2.1)";
    case DM_ERROR_UNUSED_BITS_ABOVE_SEVEN: return "more than seven bits are unused (X.690 8.6.2.2)";
    case DM_ERROR_UNUSED_BITS_OF_NONE: return "a BIT STRING without bits has unused ones (X.690 8.6.2.3)";
    case DM_ERROR_UNUSED_BIT_IS_SET: return "an unused bit isn't 0 (X.690 11.2.1)";
    case DM_ERROR_NULL_NOT_EMPTY: return "a NULL has octets (X.690 8.8.2)";
    case DM_ERROR_IDENTIFIER_EMPTY: return "an identifier has no octets (X.690 8.19.2, 8.20.2)";
    case DM_ERROR_ARC_OPEN: return "the last arc has no end (X.690 8.19.2, 8.20.2)";
    case DM_ERROR_ARC_PADDED: return "an arc begins with 80 (X.690 8.19.2, 8.20.2)";
    case DM_ERROR_REAL_BASE_RESERVED: return "the base of a REAL is a reserved one (X.690 8.5.7.2)";
    case DM_ERROR_REAL_EXPONENT_MISSING: return "a REAL has no exponent (X.690 8.5.7.4)";
    case DM_ERROR_REAL_MANTISSA_MISSING: return "a REAL has no mantissa (X.690 8.5.7.5)";
    case DM_ERROR_REAL_EXPONENT_PADDED: return "the first nine bits of an exponent are alike (X.690 8.5.7.4)";
    case DM_ERROR_REAL_BASE_OR_SCALE: return "a REAL has a base other than 2 or a scaling factor (X.690 11.3.1)";
    case DM_ERROR_REAL_EXPONENT_NOT_FEWEST: return "an exponent isn't in its fewest octets (X.690 11.3.1)";
    case DM_ERROR_REAL_MANTISSA_NOT_FEWEST: return "a mantissa is even or begins with 00 (X.690 11.3.1)";
    case DM_ERROR_REAL_SPECIAL: return "a special value of a REAL isn't known (X.690 8.5.9)";
    case DM_ERROR_REAL_DECIMAL: return "a decimal REAL isn't in its form of ISO 6093 (X.690 8.5.8)";
    case DM_ERROR_REAL_DECIMAL_NOT_STRICT: return "a decimal REAL has needless characters (X.690 11.3.2)";
    case DM_ERROR_NOT_UTF8: return "a text isn't UTF-8 (X.690 8.21, 8.22, 8.23.10)";
    case DM_ERROR_CHARACTER_OUTSIDE: return "an octet is outside of the character set (X.690 8.23)";
    case DM_ERROR_UNIVERSAL_STRING_LENGTH: return "a UniversalString isn't groups of four octets (X.690 8.23.7)";
    case DM_ERROR_BMP_STRING_LENGTH: return "a BMPString isn't pairs of octets (X.690 8.23.9)";
    case DM_ERROR_TIME_TEXT: return "a time isn't a text of its type (X.690 8.25)";
    case DM_ERROR_TIME_NOT_IN_Z: return "a time doesn't end in Z (X.690 11.7.1, 11.8.1)";
    case DM_ERROR_TIME_WITHOUT_SECONDS: return "a time has no seconds (X.690 11.7.2, 11.8.2)";
    case DM_ERROR_TIME_COMMA: return "a fraction has a comma (X.690 11.7.4)";
    case DM_ERROR_TIME_LAST_ZERO: return "a fraction ends in 0 (X.690 11.7.3)";
    case DM_ERROR_SEQUENCE_PRIMITIVE: return "a SEQUENCE is primitive (X.690 8.9.1)";
    case DM_ERROR_SET_PRIMITIVE: return "a SET is primitive (X.690 8.11.1)";
    case DM_ERROR_EMBEDDED_PDV_PRIMITIVE: return "an EMBEDDED PDV is primitive (X.690 8.17)";
    case DM_ERROR_EXTERNAL_PRIMITIVE: return "an EXTERNAL is primitive (X.690 8.18.1)";
    case DM_ERROR_CHARACTER_STRING_PRIMITIVE: return "a CHARACTER STRING is primitive (X.690 8.24)";
    case DM_ERROR_ALGORITHMS_DIFFER: return "the signature algorithms differ";
    case DM_ERROR_SERIAL_NUMBER_NOT_POSITIVE: return "the serial number is not positive";
    case DM_ERROR_SERIAL_NUMBER_TOO_LONG: return "the serial number has more than 20 octets";
    case DM_ERROR_ISSUER_EMPTY: return "the issuer has no name";
    case DM_ERROR_ATTRIBUTES_OUT_OF_ORDER: return "attributes of a relative name are out of order";
    case DM_ERROR_EARLY_GENERALIZED_TIME: return "a time before 2050 is a GeneralizedTime";
    case DM_ERROR_TIME_WITH_FRACTION: return "a time has a fraction of a second";
    case DM_ERROR_UNIQUE_ID_IN_VERSION_1: return "a unique identifier in version 1";
    case DM_ERROR_EXTENSIONS_BEFORE_VERSION_3: return "extensions before version 3";
    case DM_ERROR_EXTENSION_REPEATED: return "an extension is repeated, or there are more than 512";
    case DM_ERROR_SUBJECT_WITHOUT_NAME: return "the subject has no name";
    case DM_ERROR_VALUE_NOT_DER: return "a value of any type is not DER";
    case DM_ERROR_PEM_NO_BLOCK: return "no line -----BEGIN ..-----";
    case DM_ERROR_PEM_NO_END: return "a block without its line -----END ..-----";
    case DM_ERROR_PEM_LABELS_DIFFER: return "a block whose first and last line have other labels";
    case DM_ERROR_PEM_ENCRYPTED: return "the block is encrypted";
    case DM_ERROR_PEM_BASE64: return "invalid base64";
    case DM_ERROR_PEM_NO_ROOM: return "a buffer is too small for the block";
    case DM_ERROR_PEM_INPUT: return "this is PEM, which dm_decode_input decodes";
    default: return "unknown error";
    }
}

/* These read content octets. Each writes the value and returns 0, or returns an enum dm_error and writes nothing. */

/* An INTEGER or an ENUMERATED (8.3). Padding is accepted, and no octets are 0. */
uint32_t dm_read_i64(const uint8_t *content, size_t length, int64_t *value);
uint32_t dm_read_u64(const uint8_t *content, size_t length, uint64_t *value);

/* A BOOLEAN (8.2): 0 or 1. */
uint32_t dm_read_bool(const uint8_t *content, size_t length, uint8_t *value);

/* An OBJECT IDENTIFIER (8.19) as a text such as 2.5.4.3, without a terminating 0 and cut to `room` octets. `needed` is
 * the length of the whole text, 0 for no octets. A padded arc (8.19.2) is accepted. An unfinished subidentifier, or one
 * of 2^128 or more, is an error. */
uint32_t dm_read_oid(const uint8_t *content, size_t length, uint8_t *text, size_t room, size_t *needed);

/* Writes the content octets of the OBJECT IDENTIFIER with a dotted text, cut to `room` octets, and returns 0. `needed`
 * is the length of all of them. Any other text is DM_ERROR_WRONG_VALUE, and nothing is written.
 *
 * A text has at least two arcs in decimal digits, with a point between them; leading zeros are accepted. The first arc
 * is 0, 1 or 2, the second is below 40 after 0 or 1 (8.19.4), and each subidentifier is below 2^128. */
uint32_t dm_oid_from_text(const char *text, size_t length, uint8_t *octets, size_t room, size_t *needed);

/* The dotted texts of some OBJECT IDENTIFIERs: types of attributes (RFC 5280 A, RFC 4519), keys (RFC 8017, RFC 5480,
 * RFC 8410), signatures (RFC 8017, RFC 5758), purposes (RFC 5280 4.2.1.12), access to information (4.2.2.1), anyPolicy
 * (4.2.1.4), and attributes of requests (RFC 2985). */
#define DM_OID_COMMON_NAME "2.5.4.3"
#define DM_OID_SERIAL_NUMBER "2.5.4.5"
#define DM_OID_COUNTRY_NAME "2.5.4.6"
#define DM_OID_LOCALITY_NAME "2.5.4.7"
#define DM_OID_STATE_OR_PROVINCE_NAME "2.5.4.8"
#define DM_OID_ORGANIZATION_NAME "2.5.4.10"
#define DM_OID_ORGANIZATIONAL_UNIT_NAME "2.5.4.11"
#define DM_OID_DOMAIN_COMPONENT "0.9.2342.19200300.100.1.25"
#define DM_OID_EMAIL_ADDRESS "1.2.840.113549.1.9.1"
#define DM_OID_RSA_ENCRYPTION "1.2.840.113549.1.1.1"
#define DM_OID_EC_PUBLIC_KEY "1.2.840.10045.2.1"
#define DM_OID_ED25519 "1.3.101.112"
#define DM_OID_SHA256_WITH_RSA_ENCRYPTION "1.2.840.113549.1.1.11"
#define DM_OID_SHA384_WITH_RSA_ENCRYPTION "1.2.840.113549.1.1.12"
#define DM_OID_SHA512_WITH_RSA_ENCRYPTION "1.2.840.113549.1.1.13"
#define DM_OID_ECDSA_WITH_SHA256 "1.2.840.10045.4.3.2"
#define DM_OID_ECDSA_WITH_SHA384 "1.2.840.10045.4.3.3"
#define DM_OID_SERVER_AUTH "1.3.6.1.5.5.7.3.1"
#define DM_OID_CLIENT_AUTH "1.3.6.1.5.5.7.3.2"
#define DM_OID_CODE_SIGNING "1.3.6.1.5.5.7.3.3"
#define DM_OID_EMAIL_PROTECTION "1.3.6.1.5.5.7.3.4"
#define DM_OID_TIME_STAMPING "1.3.6.1.5.5.7.3.8"
#define DM_OID_OCSP_SIGNING "1.3.6.1.5.5.7.3.9"
#define DM_OID_OCSP "1.3.6.1.5.5.7.48.1"
#define DM_OID_CA_ISSUERS "1.3.6.1.5.5.7.48.2"
#define DM_OID_ANY_POLICY "2.5.29.32.0"
#define DM_OID_CHALLENGE_PASSWORD "1.2.840.113549.1.9.7"
#define DM_OID_EXTENSION_REQUEST "1.2.840.113549.1.9.14"

/* Checks a text of the string type with this tag number (8.23), and returns 0 or an error. Another number is an error.
 * - By character set: 18 NumericString, 19 PrintableString, 22 IA5String, 26 VisibleString.
 * - As UTF-8: 7 ObjectDescriptor, 12 UTF8String, 20 T61String, 21 VideotexString, 25 GraphicString, 27 GeneralString.
 * - As big-endian UTF-16: 30 BMPString. */
uint32_t dm_check_text(uint32_t number, const uint8_t *content, size_t length);

/* The fields of a UTCTime (23) or a GeneralizedTime (24). */
typedef struct dm_time {
    uint32_t year;       /* UTCTime: 1950 to 2049 (RFC 5280 4.1.2.5.1) */
    uint32_t nanosecond; /* 0 if there is no fraction */
    uint8_t month;       /* 1 to 12 */
    uint8_t day;         /* 1 to 31, whatever the month */
    uint8_t hour;        /* 0 to 23 */
    uint8_t minute;      /* 0 to 59 */
    uint8_t second;      /* 0 to 59 */
    uint8_t zone;        /* one of enum dm_zone */
    int8_t zone_hours;   /* DM_OFFSET: hours from UTC, negative to the west */
    int8_t zone_minutes; /* DM_OFFSET: minutes, with the same sign */
} dm_time;

enum dm_zone { DM_LOCAL = 0, DM_UTC = 1, DM_OFFSET = 2 };

/* A UTCTime (number 23) or a GeneralizedTime (24). Any other number is an error. */
uint32_t dm_read_time(uint32_t number, const uint8_t *content, size_t length, dm_time *time);

/* Writes DER, element after element, into a buffer:
 *
 *     dm_writer w = dm_writer_over(buffer, sizeof buffer);
 *     dm_mark pair = dm_open_sequence(&w);
 *     dm_put_u64(&w, 5);
 *     dm_put_bool(&w, 1);
 *     dm_close(&w, pair);
 *     if (dm_finish(&w, &length) == DM_OK) send(buffer, length);
 *
 * Elements that don't fit are only counted, and dm_finish returns whether all fit. So a capacity of 0 counts. Octets
 * after the counted ones stay as they are. The buffer is the caller's: no call frees or moves it. */
typedef struct dm_writer {
    uint8_t *octets;   /* the buffer */
    size_t capacity;   /* its size in octets */
    size_t count;      /* octets so far, whether they fit or not */
    size_t innermost;  /* offset of the innermost open element's length; 0 if none is open */
    uint32_t implicit; /* 0, or 1 + the enum dm_class of the next element's implicit tag */
    uint32_t number;   /* the number of that tag */
} dm_writer;

/* An element that is open. */
typedef struct dm_mark {
    size_t start; /* offset of its length */
    size_t outer; /* offset of the length of the element around it; 0 if there is none */
} dm_mark;

/* A writer at the start of a buffer. */
static inline dm_writer dm_writer_over(uint8_t *octets, size_t capacity) {
    dm_writer writer = {octets, capacity, 0, 0, 0, 0};
    return writer;
}

/* Open an element. What is put until it is closed is its content. dm_open takes the fields of a dm_element.
 * dm_open_tagged opens a context-specific one: an explicit tag (8.14.2), or a SEQUENCE or SET with an implicit tag
 * (8.14.3). dm_open_octet_string opens an OCTET STRING that contains elements. */
dm_mark dm_open_sequence(dm_writer *writer);
dm_mark dm_open_set(dm_writer *writer);
dm_mark dm_open_octet_string(dm_writer *writer);
dm_mark dm_open_tagged(dm_writer *writer, uint32_t number);
dm_mark dm_open(dm_writer *writer, uint8_t tag_class, uint8_t constructed, uint32_t number);

/* Close an element. If one inside it is still open, nothing is closed. dm_close_set_of also sorts its elements in the
 * buffer (11.6), with up to n^2/2 comparisons for n elements. */
void dm_close(dm_writer *writer, dm_mark mark);
void dm_close_set_of(dm_writer *writer, dm_mark mark);

/* Puts the next primitive element under an implicit tag (8.14.3). After a call that returns an error the tag is still
 * pending. Calls that open or close an element, and dm_put_elements, drop it. */
void dm_implicit(dm_writer *writer, uint8_t tag_class, uint32_t number);

/* Each puts one element. A BOOLEAN is true unless the value is 0. */
void dm_put_bool(dm_writer *writer, uint8_t value);
void dm_put_i64(dm_writer *writer, int64_t value);
void dm_put_u64(dm_writer *writer, uint64_t value);
void dm_put_enumerated(dm_writer *writer, uint64_t value);
void dm_put_enumerated_i64(dm_writer *writer, int64_t value);
void dm_put_octets(dm_writer *writer, const uint8_t *octets, size_t length);
void dm_put_null(dm_writer *writer);

/* A non-negative INTEGER of any size: big-endian octets. Leading zeros are left out. */
void dm_put_magnitude(dm_writer *writer, const uint8_t *octets, size_t length);

/* A BIT STRING whose last `unused` bits, at most seven, aren't used (8.6). They are put as 0 (11.2). */
void dm_put_bits(dm_writer *writer, uint8_t unused, const uint8_t *octets, size_t length);

/* An OBJECT IDENTIFIER with these content octets, which aren't checked. */
void dm_put_oid(dm_writer *writer, const uint8_t *content, size_t length);

/* Elements that are encoded already. They aren't checked. */
void dm_put_elements(dm_writer *writer, const uint8_t *octets, size_t length);

/* These check what is put. Each returns 0, or an enum dm_error and leaves the writer as it was. */

/* An INTEGER with these content octets, in two's complement, without padding (8.3.2). */
uint32_t dm_put_integer(dm_writer *writer, const uint8_t *content, size_t length);

/* An OBJECT IDENTIFIER with these arcs. Fewer than two are DM_ERROR_INVALID_LENGTH. A first arc above 2, a second one
 * above 39 after 0 or 1, or above 2^64-81, is DM_ERROR_WRONG_VALUE. */
uint32_t dm_put_arcs(dm_writer *writer, const uint64_t *arcs, size_t count);

/* A string type, by its tag number, with these octets: the types and character sets of dm_check_text. A BMPString (30)
 * with an odd number of octets is DM_ERROR_INVALID_CHARACTER. */
uint32_t dm_put_text(dm_writer *writer, uint32_t number, const uint8_t *octets, size_t length);

/* A UTCTime (23) in 1950 to 2049 without a fraction, or a GeneralizedTime (24) in 0 to 9999. The zone must be DM_UTC;
 * its hours and minutes aren't read. Any other number or value is an error. */
uint32_t dm_put_time(dm_writer *writer, uint32_t number, const dm_time *time);

/* Returns the status, and writes a length. Writing may go on after each.
 * - DM_OK: the buffer begins with so many octets.
 * - DM_NO_ROOM: so many are needed. The buffer's first `count` octets are unspecified.
 * - DM_NOT_CLOSED, and 0: an element is open, or marks were closed in the wrong order. */
uint32_t dm_finish(const dm_writer *writer, size_t *length);

/* A part of the input, which isn't copied: it is valid as long as the input. An empty one may point anywhere. */
typedef struct dm_octets {
    const uint8_t *octets;
    size_t length;
} dm_octets;

/* Returns 1 if content octets are the OBJECT IDENTIFIER with this dotted text, such as DM_OID_COMMON_NAME, else 0. A
 * text of more than 128 characters is never one. */
static inline uint32_t dm_is_oid(dm_octets content, const char *dotted) {
    uint8_t text[128];
    size_t length = 0, needed = 0;
    while (length <= sizeof text && dotted[length] != 0) length++;
    if (dm_read_oid(content.octets, content.length, text, sizeof text, &needed) != 0) return 0;
    if (needed != length || length > sizeof text) return 0;
    while (length > 0 && text[length - 1] == (uint8_t)dotted[length - 1]) length--;
    return length == 0;
}

/* A list is a dm_octets too: the encodings of its items. A call dm_next_.. writes the first item, removes it from the
 * list and returns 1. At the end, or if the octets begin with no such item, it returns 0 and changes nothing. A list
 * that was read with a certificate contains only items. */

/* Why an input was rejected. With DM_OK all fields are 0. */
typedef struct dm_fault {
    size_t offset;       /* offset of the wrong element */
    size_t list_end;     /* offset of the end of the element around it, if is_in_list is 1 */
    size_t needed;       /* DM_INCOMPLETE, DM_ERROR_OVERRUN: number of missing octets, or for a value of a universal
                          * type its length, as far as the input shows. 0 if that isn't known */
    uint32_t status;     /* DM_OK, DM_ERROR or DM_INCOMPLETE */
    uint32_t error;      /* DM_ERROR: one of enum dm_error */
    uint32_t field;      /* one of enum dm_field: the first field that is wrong */
    uint32_t is_in_list; /* 1 if the element is inside another, 0 if it is outermost */
} dm_fault;

/* The fields of certificates (RFC 5280 4.1), CRLs (5.1), requests (RFC 2986 4), private keys (RFC 5958 2, 3; RSA: RFC
 * 8017 A.1.2; EC: RFC 5915 3), and public keys (RFC 5280 4.1.2.7, RFC 8017 A.1.1). */
enum dm_field {
    DM_FIELD_NONE = 0,                         /* of a call that reads one value */
    DM_FIELD_CERTIFICATE = 1,                  /* Certificate (octets after it, or a rule of
                                                * dm_read_strict_certificate) */
    DM_FIELD_TBS_CERTIFICATE = 2,              /* tbsCertificate */
    DM_FIELD_VERSION = 3,                      /* tbsCertificate.version */
    DM_FIELD_SERIAL_NUMBER = 4,                /* tbsCertificate.serialNumber */
    DM_FIELD_SIGNATURE = 5,                    /* tbsCertificate.signature */
    DM_FIELD_ISSUER = 6,                       /* tbsCertificate.issuer */
    DM_FIELD_VALIDITY = 7,                     /* tbsCertificate.validity */
    DM_FIELD_SUBJECT = 8,                      /* tbsCertificate.subject */
    DM_FIELD_SUBJECT_PUBLIC_KEY_INFO = 9,      /* tbsCertificate.subjectPublicKeyInfo */
    DM_FIELD_ISSUER_UNIQUE_ID = 10,            /* tbsCertificate.issuerUniqueID */
    DM_FIELD_SUBJECT_UNIQUE_ID = 11,           /* tbsCertificate.subjectUniqueID */
    DM_FIELD_EXTENSIONS = 12,                  /* tbsCertificate.extensions */
    DM_FIELD_SIGNATURE_ALGORITHM = 13,         /* signatureAlgorithm */
    DM_FIELD_SIGNATURE_VALUE = 14,             /* signatureValue */
    DM_FIELD_LIST = 32,                        /* CertificateList */
    DM_FIELD_TBS_LIST = 33,                    /* tbsCertList */
    DM_FIELD_LIST_VERSION = 34,                /* tbsCertList.version */
    DM_FIELD_LIST_SIGNATURE = 35,              /* tbsCertList.signature */
    DM_FIELD_LIST_ISSUER = 36,                 /* tbsCertList.issuer */
    DM_FIELD_THIS_UPDATE = 37,                 /* tbsCertList.thisUpdate */
    DM_FIELD_NEXT_UPDATE = 38,                 /* tbsCertList.nextUpdate */
    DM_FIELD_REVOKED_CERTIFICATES = 39,        /* tbsCertList.revokedCertificates */
    DM_FIELD_LIST_EXTENSIONS = 40,             /* tbsCertList.crlExtensions */
    DM_FIELD_LIST_SIGNATURE_ALGORITHM = 41,    /* signatureAlgorithm (CertificateList) */
    DM_FIELD_LIST_SIGNATURE_VALUE = 42,        /* signatureValue (CertificateList) */
    DM_FIELD_REQUEST = 64,                     /* CertificationRequest */
    DM_FIELD_REQUEST_INFO = 65,                /* certificationRequestInfo */
    DM_FIELD_REQUEST_VERSION = 66,             /* certificationRequestInfo.version */
    DM_FIELD_REQUEST_SUBJECT = 67,             /* certificationRequestInfo.subject */
    DM_FIELD_REQUEST_KEY = 68,                 /* certificationRequestInfo.subjectPKInfo */
    DM_FIELD_REQUEST_ATTRIBUTES = 69,          /* certificationRequestInfo.attributes */
    DM_FIELD_REQUEST_SIGNATURE_ALGORITHM = 70, /* signatureAlgorithm (CertificationRequest) */
    DM_FIELD_REQUEST_SIGNATURE = 71,           /* signature (CertificationRequest) */
    DM_FIELD_KEY = 96,                         /* PrivateKeyInfo */
    DM_FIELD_KEY_VERSION = 97,                 /* version (PrivateKeyInfo) */
    DM_FIELD_KEY_ALGORITHM = 98,               /* privateKeyAlgorithm (PrivateKeyInfo) */
    DM_FIELD_KEY_OCTETS = 99,                  /* privateKey (PrivateKeyInfo) */
    DM_FIELD_KEY_ATTRIBUTES = 100,             /* attributes (PrivateKeyInfo) */
    DM_FIELD_KEY_PUBLIC_KEY = 101,             /* publicKey (PrivateKeyInfo) */
    DM_FIELD_RSA_KEY = 112,                    /* RSAPrivateKey */
    DM_FIELD_RSA_VERSION = 113,                /* version (RSAPrivateKey) */
    DM_FIELD_RSA_MODULUS = 114,                /* modulus (RSAPrivateKey) */
    DM_FIELD_RSA_PUBLIC_EXPONENT = 115,        /* publicExponent (RSAPrivateKey) */
    DM_FIELD_RSA_PRIVATE_EXPONENT = 116,       /* privateExponent (RSAPrivateKey) */
    DM_FIELD_RSA_PRIME1 = 117,                 /* prime1 (RSAPrivateKey) */
    DM_FIELD_RSA_PRIME2 = 118,                 /* prime2 (RSAPrivateKey) */
    DM_FIELD_RSA_EXPONENT1 = 119,              /* exponent1 (RSAPrivateKey) */
    DM_FIELD_RSA_EXPONENT2 = 120,              /* exponent2 (RSAPrivateKey) */
    DM_FIELD_RSA_COEFFICIENT = 121,            /* coefficient (RSAPrivateKey) */
    DM_FIELD_RSA_OTHER_PRIMES = 122,           /* otherPrimeInfos (RSAPrivateKey) */
    DM_FIELD_EC_KEY = 128,                     /* ECPrivateKey */
    DM_FIELD_EC_VERSION = 129,                 /* version (ECPrivateKey) */
    DM_FIELD_EC_OCTETS = 130,                  /* privateKey (ECPrivateKey) */
    DM_FIELD_EC_PARAMETERS = 131,              /* parameters (ECPrivateKey) */
    DM_FIELD_EC_PUBLIC_KEY = 132,              /* publicKey (ECPrivateKey) */
    DM_FIELD_ENCRYPTED_KEY = 144,              /* EncryptedPrivateKeyInfo */
    DM_FIELD_ENCRYPTED_ALGORITHM = 145,        /* encryptionAlgorithm (EncryptedPrivateKeyInfo) */
    DM_FIELD_ENCRYPTED_DATA = 146,             /* encryptedData (EncryptedPrivateKeyInfo) */
    DM_FIELD_PUBLIC_KEY = 160,                 /* SubjectPublicKeyInfo */
    DM_FIELD_PUBLIC_ALGORITHM = 161,           /* algorithm (SubjectPublicKeyInfo) */
    DM_FIELD_PUBLIC_BITS = 162,                /* subjectPublicKey (SubjectPublicKeyInfo) */
    DM_FIELD_PUBLIC_RSA_KEY = 176,             /* RSAPublicKey */
    DM_FIELD_PUBLIC_RSA_MODULUS = 177,         /* modulus (RSAPublicKey) */
    DM_FIELD_PUBLIC_RSA_EXPONENT = 178         /* publicExponent (RSAPublicKey) */
};

/* The name of a field as a string of C; "" for DM_FIELD_NONE and other numbers. */
static inline const char *dm_field_string(uint32_t field) {
    switch (field) {
    case DM_FIELD_CERTIFICATE: return "Certificate";
    case DM_FIELD_TBS_CERTIFICATE: return "tbsCertificate";
    case DM_FIELD_VERSION: return "tbsCertificate.version";
    case DM_FIELD_SERIAL_NUMBER: return "tbsCertificate.serialNumber";
    case DM_FIELD_SIGNATURE: return "tbsCertificate.signature";
    case DM_FIELD_ISSUER: return "tbsCertificate.issuer";
    case DM_FIELD_VALIDITY: return "tbsCertificate.validity";
    case DM_FIELD_SUBJECT: return "tbsCertificate.subject";
    case DM_FIELD_SUBJECT_PUBLIC_KEY_INFO: return "tbsCertificate.subjectPublicKeyInfo";
    case DM_FIELD_ISSUER_UNIQUE_ID: return "tbsCertificate.issuerUniqueID";
    case DM_FIELD_SUBJECT_UNIQUE_ID: return "tbsCertificate.subjectUniqueID";
    case DM_FIELD_EXTENSIONS: return "tbsCertificate.extensions";
    case DM_FIELD_SIGNATURE_ALGORITHM: return "signatureAlgorithm";
    case DM_FIELD_SIGNATURE_VALUE: return "signatureValue";
    case DM_FIELD_LIST: return "CertificateList";
    case DM_FIELD_TBS_LIST: return "tbsCertList";
    case DM_FIELD_LIST_VERSION: return "tbsCertList.version";
    case DM_FIELD_LIST_SIGNATURE: return "tbsCertList.signature";
    case DM_FIELD_LIST_ISSUER: return "tbsCertList.issuer";
    case DM_FIELD_THIS_UPDATE: return "tbsCertList.thisUpdate";
    case DM_FIELD_NEXT_UPDATE: return "tbsCertList.nextUpdate";
    case DM_FIELD_REVOKED_CERTIFICATES: return "tbsCertList.revokedCertificates";
    case DM_FIELD_LIST_EXTENSIONS: return "tbsCertList.crlExtensions";
    case DM_FIELD_LIST_SIGNATURE_ALGORITHM: return "signatureAlgorithm";
    case DM_FIELD_LIST_SIGNATURE_VALUE: return "signatureValue";
    case DM_FIELD_REQUEST: return "CertificationRequest";
    case DM_FIELD_REQUEST_INFO: return "certificationRequestInfo";
    case DM_FIELD_REQUEST_VERSION: return "certificationRequestInfo.version";
    case DM_FIELD_REQUEST_SUBJECT: return "certificationRequestInfo.subject";
    case DM_FIELD_REQUEST_KEY: return "certificationRequestInfo.subjectPKInfo";
    case DM_FIELD_REQUEST_ATTRIBUTES: return "certificationRequestInfo.attributes";
    case DM_FIELD_REQUEST_SIGNATURE_ALGORITHM: return "signatureAlgorithm";
    case DM_FIELD_REQUEST_SIGNATURE: return "signature";
    case DM_FIELD_KEY: return "PrivateKeyInfo";
    case DM_FIELD_KEY_VERSION: return "version";
    case DM_FIELD_KEY_ALGORITHM: return "privateKeyAlgorithm";
    case DM_FIELD_KEY_OCTETS: return "privateKey";
    case DM_FIELD_KEY_ATTRIBUTES: return "attributes";
    case DM_FIELD_KEY_PUBLIC_KEY: return "publicKey";
    case DM_FIELD_RSA_KEY: return "RSAPrivateKey";
    case DM_FIELD_RSA_VERSION: return "version";
    case DM_FIELD_RSA_MODULUS: return "modulus";
    case DM_FIELD_RSA_PUBLIC_EXPONENT: return "publicExponent";
    case DM_FIELD_RSA_PRIVATE_EXPONENT: return "privateExponent";
    case DM_FIELD_RSA_PRIME1: return "prime1";
    case DM_FIELD_RSA_PRIME2: return "prime2";
    case DM_FIELD_RSA_EXPONENT1: return "exponent1";
    case DM_FIELD_RSA_EXPONENT2: return "exponent2";
    case DM_FIELD_RSA_COEFFICIENT: return "coefficient";
    case DM_FIELD_RSA_OTHER_PRIMES: return "otherPrimeInfos";
    case DM_FIELD_EC_KEY: return "ECPrivateKey";
    case DM_FIELD_EC_VERSION: return "version";
    case DM_FIELD_EC_OCTETS: return "privateKey";
    case DM_FIELD_EC_PARAMETERS: return "parameters";
    case DM_FIELD_EC_PUBLIC_KEY: return "publicKey";
    case DM_FIELD_ENCRYPTED_KEY: return "EncryptedPrivateKeyInfo";
    case DM_FIELD_ENCRYPTED_ALGORITHM: return "encryptionAlgorithm";
    case DM_FIELD_ENCRYPTED_DATA: return "encryptedData";
    case DM_FIELD_PUBLIC_KEY: return "SubjectPublicKeyInfo";
    case DM_FIELD_PUBLIC_ALGORITHM: return "algorithm";
    case DM_FIELD_PUBLIC_BITS: return "subjectPublicKey";
    case DM_FIELD_PUBLIC_RSA_KEY: return "RSAPublicKey";
    case DM_FIELD_PUBLIC_RSA_MODULUS: return "modulus";
    case DM_FIELD_PUBLIC_RSA_EXPONENT: return "publicExponent";
    default: return "";
    }
}

/* Writes the text of a fault, such as "tbsCertificate.version at 9: wrong value", as dm_error_text writes one. */
size_t dm_fault_text(const dm_fault *fault, uint8_t *text, size_t room);

/* Writes your name of a field before a fault of a cursor, such as "request.serial at 9: wrong value". The whole text
 * has at most DM_TEXT_OCTETS + 1 octets more than the name. */
size_t dm_named_fault_text(const dm_fault *fault, const uint8_t *name, size_t length, uint8_t *text, size_t room);

/* Writes the text of a fault of this input. For DM_ERROR_UNEXPECTED_TAG and DM_ERROR_UNEXPECTED_CLASS the element's tag
 * follows, such as ", found [APPLICATION 10]". If the input begins as PEM does, it is the text of
 * DM_ERROR_PEM_INPUT. */
size_t dm_found_text(const dm_fault *fault, const uint8_t *input, size_t length, uint8_t *text, size_t room);

/* Writes a tag, such as "OCTET STRING" (X.680 8.4) or "[APPLICATION 10]". A class above 3 counts as DM_PRIVATE. Returns
 * the length, at most DM_TEXT_OCTETS. */
size_t dm_tag_text(uint8_t tag_class, uint32_t number, uint8_t *text, size_t room);

/* An algorithm (RFC 5280 4.1.1.2). */
typedef struct dm_algorithm {
    dm_octets identifier; /* the content octets of the OBJECT IDENTIFIER: dm_read_oid writes its text */
    dm_octets parameters; /* one element of any type, with its header; empty if there is none */
} dm_algorithm;

/* A BIT STRING. */
typedef struct dm_bits {
    dm_octets octets;
    uint32_t unused;     /* number of unused bits at the end */
    uint32_t is_present; /* 0 if it is optional and absent: the other fields are then empty and 0. Else 1 */
} dm_bits;

/* An element of any type. Its content isn't read. */
typedef struct dm_any {
    dm_octets content;   /* its content octets */
    uint32_t number;     /* the tag number */
    uint8_t tag_class;   /* one of enum dm_class */
    uint8_t constructed; /* the constructed bit, 0 or 1 */
    uint16_t reserved;   /* 0 */
} dm_any;

/* A Time (4.1.2.5). By DER it is in UTC. */
typedef struct dm_moment {
    dm_time time;
    uint32_t number; /* DM_UTC_TIME or DM_GENERALIZED_TIME; 0 if it is optional and absent: then all fields are 0 */
} dm_moment;

/* A certificate (4.1). */
typedef struct dm_certificate {
    dm_octets tbs;              /* the encoding of TBSCertificate: the octets that are signed */
    dm_octets serial_number;    /* the content octets of the INTEGER, in two's complement */
    dm_algorithm signature;     /* the algorithm that is signed with the rest */
    dm_octets issuer;           /* the relative names: dm_next_relative_name */
    dm_octets subject;          /* as the issuer */
    dm_algorithm key_algorithm; /* of the subject's key */
    dm_bits key;
    dm_bits issuer_unique_id;
    dm_bits subject_unique_id;
    dm_octets extensions;       /* dm_next_extension. Empty if there are none */
    dm_algorithm signature_algorithm;
    dm_bits signature_value;    /* it isn't verified */
    dm_moment not_before;
    dm_moment not_after;
    uint32_t version;           /* 1, 2 or 3 */
    uint32_t reserved;          /* 0 */
} dm_certificate;

/* Reads a certificate in DER by the ASN.1 of RFC 5280, and returns the fault's status. Trailing data is an error. The
 * signature isn't verified. The content of values of any type (parameters, attributes) isn't checked. Unless the status
 * is DM_OK, the certificate stays as it was. The fault is always written. */
uint32_t dm_read_certificate(const uint8_t *input, size_t length, dm_certificate *certificate, dm_fault *fault);

/* Reads a certificate and also checks the rules of the errors 128 to 139. The fault is the first broken rule in that
 * order, with DM_FIELD_CERTIFICATE and offset 0. More than 512 extensions are DM_ERROR_EXTENSION_REPEATED.
 * dm_broken_rules finds all rules that are broken, and knows more rules. */
uint32_t dm_read_strict_certificate(const uint8_t *input, size_t length, dm_certificate *certificate, dm_fault *fault);

/* Returns 1 if a certificate is valid at this time, both ends included, else 0. The time is in seconds since 1970-01-01
 * 00:00:00 UTC, as time(NULL) returns it. */
uint32_t dm_is_valid_at(const dm_certificate *certificate, uint64_t seconds);

/* Names (4.1.2.4). dm_next_relative_name writes the attributes of a name's next relative name. */
typedef struct dm_attribute {
    dm_octets identifier; /* the content octets of its type, an OBJECT IDENTIFIER */
    dm_octets value;      /* the content octets of its value */
    uint32_t number;      /* the tag number of the value, such as DM_UTF8_STRING */
    uint8_t tag_class;    /* its class, one of enum dm_class */
    uint8_t constructed;  /* its constructed bit, 0 or 1 */
    uint16_t reserved;    /* 0 */
} dm_attribute;

uint32_t dm_next_relative_name(dm_octets *names, dm_octets *attributes);
uint32_t dm_next_attribute(dm_octets *attributes, dm_attribute *attribute);

/* Write a certificate's name by RFC 4514 as text, such as CN=example.org,O=Example\, Inc. dm_name_utf8 writes it in
 * UTF-8, and dm_name_text in ASCII: there other characters are escaped UTF-8, such as \c3\a9. Control characters and
 * those that change the direction of a text are escaped by both. The text is cut to `room` octets, without a
 * terminating 0. Each returns the length of the whole text. */
size_t dm_name_text(const uint8_t *name, size_t length, uint8_t *text, size_t room);
size_t dm_name_utf8(const uint8_t *name, size_t length, uint8_t *text, size_t room);

/* The next extension of a list (4.1.2.9). */
typedef struct dm_extension {
    dm_octets identifier; /* the content octets of the OBJECT IDENTIFIER */
    dm_octets value;      /* the octets of the OCTET STRING: the encoding of a type that the identifier names */
    uint32_t critical;    /* 0 or 1 */
    uint32_t kind;        /* one of enum dm_extension_kind */
} dm_extension;

uint32_t dm_next_extension(dm_octets *extensions, dm_extension *extension);

/* Finds the first extension of a list with one of enum dm_extension_kind, writes it, and returns 1. If there is none,
 * returns 0 and writes nothing. */
uint32_t dm_find_extension(const dm_octets *extensions, uint32_t kind, dm_extension *extension);

/* Kinds of extensions (4.2, 5.2, 5.3). Numbers below 256 are the last arc of the OID, under 2.5.29 (id-ce). The two
 * information accesses and DM_QC_STATEMENTS are under 1.3.6.1.5.5.7.1 (id-pe). */
enum dm_extension_kind {
    DM_EXTENSION_OTHER = 0,
    DM_AUTHORITY_INFO_ACCESS = 1,
    DM_QC_STATEMENTS = 3,                   /* RFC 3739 3.2.6 */
    DM_SUBJECT_DIRECTORY_ATTRIBUTES = 9,
    DM_SUBJECT_INFO_ACCESS = 11,
    DM_SUBJECT_KEY_IDENTIFIER = 14,
    DM_KEY_USAGE = 15,
    DM_SUBJECT_ALT_NAME = 17,
    DM_ISSUER_ALT_NAME = 18,
    DM_BASIC_CONSTRAINTS = 19,
    DM_CRL_NUMBER = 20,                     /* CRL */
    DM_REASON_CODE = 21,                    /* CRL entry */
    DM_INVALIDITY_DATE = 24,                /* CRL entry */
    DM_DELTA_CRL_INDICATOR = 27,            /* CRL */
    DM_ISSUING_DISTRIBUTION_POINT = 28,     /* CRL */
    DM_CERTIFICATE_ISSUER = 29,             /* CRL entry */
    DM_NAME_CONSTRAINTS = 30,
    DM_CRL_DISTRIBUTION_POINTS = 31,
    DM_CERTIFICATE_POLICIES = 32,
    DM_POLICY_MAPPINGS = 33,
    DM_AUTHORITY_KEY_IDENTIFIER = 35,
    DM_POLICY_CONSTRAINTS = 36,
    DM_EXTENDED_KEY_USAGE = 37,
    DM_FRESHEST_CRL = 46,
    DM_INHIBIT_ANY_POLICY = 54,
    DM_NO_REV_AVAIL = 56,                   /* RFC 9608 2 */
    DM_TLS_FEATURES = 256,                  /* 1.3.6.1.5.5.7.1.24 (RFC 7633 6) */
    DM_OCSP_NO_CHECK = 257,                 /* 1.3.6.1.5.5.7.48.1.5 (RFC 6960 4.2.2.2.1) */
    DM_SIGNED_CERTIFICATE_TIMESTAMPS = 258, /* 1.3.6.1.4.1.11129.2.4.2 (RFC 6962 3.3) */
    DM_PRECERTIFICATE_POISON = 259,         /* 1.3.6.1.4.1.11129.2.4.3 (RFC 6962 3.1) */
    DM_ORGANIZATION_IDENTIFIER = 260        /* 2.23.140.3.1 (CA/B Forum, EV Guidelines 9.8.2) */
};

/* Returns 1 if a critical extension is DM_EXTENSION_OTHER, else 0. If you know no other extensions, reject such a
 * certificate, CRL or entry (4.2, 5.2, 5.3). The call stops at octets that aren't an extension; a list that was read
 * with a certificate has none. */
uint32_t dm_has_unknown_critical(const uint8_t *extensions, size_t length);

/* Values of extensions (4.2, 5.2, 5.3). Each call reads the value of a dm_extension in DER, and returns the fault's
 * status. Trailing data is an error. Offsets count from the start of the value. Unless the status is DM_OK, the result
 * stays as it was. The fault is always written, with DM_FIELD_NONE. Calls dm_next_.. are as above. */

typedef struct dm_basic_constraints {
    uint32_t ca;              /* 0 or 1 */
    uint32_t has_path_length; /* 0 or 1 */
    uint32_t path_length;     /* 0 if it is absent. Above 2^32-1 is an error */
} dm_basic_constraints;

uint32_t dm_read_basic_constraints(const uint8_t *value, size_t length, dm_basic_constraints *constraints,
                                   dm_fault *fault);

/* Reads a set of enum dm_key_usage. */
uint32_t dm_read_key_usage(const uint8_t *value, size_t length, uint32_t *usage, dm_fault *fault);

/* KeyUsage (4.2.1.3): named bits, maybe none. */
enum dm_key_usage {
    DM_USAGE_DIGITAL_SIGNATURE = 1,  /* digitalSignature */
    DM_USAGE_CONTENT_COMMITMENT = 2, /* contentCommitment */
    DM_USAGE_KEY_ENCIPHERMENT = 4,   /* keyEncipherment */
    DM_USAGE_DATA_ENCIPHERMENT = 8,  /* dataEncipherment */
    DM_USAGE_KEY_AGREEMENT = 16,     /* keyAgreement */
    DM_USAGE_KEY_CERT_SIGN = 32,     /* keyCertSign */
    DM_USAGE_CRL_SIGN = 64,          /* cRLSign */
    DM_USAGE_ENCIPHER_ONLY = 128,    /* encipherOnly */
    DM_USAGE_DECIPHER_ONLY = 256     /* decipherOnly */
};

/* SubjectAltName, IssuerAltName or CertificateIssuer (5.3.3): at least one name, read by dm_next_general_name. */
uint32_t dm_read_general_names(const uint8_t *value, size_t length, dm_octets *names, dm_fault *fault);

typedef struct dm_general_name {
    dm_octets octets;     /* text, address, OID content octets, relative names, or unchecked content octets;
                           * DM_OTHER_NAME: the content octets of its value */
    dm_octets identifier; /* DM_OTHER_NAME: the content octets of its type, an OBJECT IDENTIFIER. Else empty */
    uint32_t kind;        /* one of enum dm_general_name_kind */
    uint32_t reserved;    /* 0 */
} dm_general_name;

/* The kinds of general names, by the numbers of their tags. */
enum dm_general_name_kind {
    DM_OTHER_NAME = 0,
    DM_RFC822_NAME = 1, /* text of IA5String (ASCII) */
    DM_DNS_NAME = 2,    /* text of IA5String */
    DM_X400_ADDRESS = 3,
    DM_DIRECTORY_NAME = 4,
    DM_EDI_PARTY_NAME = 5,
    DM_URI = 6,         /* text of IA5String */
    DM_IP_ADDRESS = 7,  /* 4 octets of IPv4, 16 of IPv6; the length isn't checked */
    DM_REGISTERED_ID = 8
};

uint32_t dm_next_general_name(dm_octets *names, dm_general_name *name);

/* Takes the names up to the next DNS name, writes its text, and returns 1. If there is none, returns 0 and changes
 * nothing. */
uint32_t dm_next_dns_name(dm_octets *names, dm_octets *text);

/* Reads the names of a subject from its extensions, those of a certificate or a request: the value of the one
 * SubjectAltName (4.2.1.6). Without the extension there are no names. If it is repeated, the fault is the one of
 * dm_read_strict_certificate. */
uint32_t dm_read_subject_alt_names(const dm_octets *extensions, dm_octets *names, dm_fault *fault);

/* ExtendedKeyUsage: at least one purpose. dm_next_key_purpose writes the content octets of its OID. */
uint32_t dm_read_extended_key_usage(const uint8_t *value, size_t length, dm_octets *purposes, dm_fault *fault);
uint32_t dm_next_key_purpose(dm_octets *purposes, dm_octets *identifier);

/* SubjectKeyIdentifier: its octets. */
uint32_t dm_read_subject_key_identifier(const uint8_t *value, size_t length, dm_octets *identifier, dm_fault *fault);

/* AuthorityKeyIdentifier. An absent field is empty. */
typedef struct dm_authority_key_identifier {
    dm_octets key_identifier;
    dm_octets issuer;            /* general names: dm_next_general_name */
    dm_octets serial_number;     /* the content octets of the INTEGER, in two's complement */
    uint32_t has_key_identifier; /* 0 or 1 */
    uint32_t has_issuer;         /* 0 or 1 */
    uint32_t has_serial_number;  /* 0 or 1 */
    uint32_t reserved;           /* 0 */
} dm_authority_key_identifier;

uint32_t dm_read_authority_key_identifier(const uint8_t *value, size_t length, dm_authority_key_identifier *identifier,
                                          dm_fault *fault);

/* CertificatePolicies (4.2.1.4): at least one policy. Repetition isn't checked. */
typedef struct dm_policy {
    dm_octets identifier; /* the content octets of the OBJECT IDENTIFIER */
    dm_octets qualifiers; /* dm_next_policy_qualifier. Empty if there are none */
} dm_policy;

typedef struct dm_policy_qualifier {
    dm_octets identifier; /* the content octets of its type, an OBJECT IDENTIFIER */
    dm_any value;
} dm_policy_qualifier;

uint32_t dm_read_certificate_policies(const uint8_t *value, size_t length, dm_octets *policies, dm_fault *fault);
uint32_t dm_next_policy(dm_octets *policies, dm_policy *policy);
uint32_t dm_next_policy_qualifier(dm_octets *qualifiers, dm_policy_qualifier *qualifier);

/* CRLDistributionPoints (4.2.1.13) or FreshestCRL (4.2.1.15): at least one point. A point may lack both name and
 * issuer. */
typedef struct dm_distribution_point {
    dm_octets full_name;     /* general names: dm_next_general_name. Empty if there are none */
    dm_octets relative_name; /* relative to the issuer: dm_next_attribute. Empty if there is none */
    dm_bits reasons;         /* a bit for each reason, keyCompromise (1) to aACompromise (8). Absent: all reasons */
    dm_octets crl_issuer;    /* general names. Empty if there are none */
} dm_distribution_point;

uint32_t dm_read_distribution_points(const uint8_t *value, size_t length, dm_octets *points, dm_fault *fault);
uint32_t dm_next_distribution_point(dm_octets *points, dm_distribution_point *point);

/* NameConstraints (4.2.1.10). */
typedef struct dm_name_constraints {
    dm_octets permitted; /* dm_next_subtree. Empty if there are none */
    dm_octets excluded;  /* as permitted */
} dm_name_constraints;

typedef struct dm_subtree {
    dm_general_name base; /* DM_IP_ADDRESS: address and mask, 8 octets of IPv4, 32 of IPv6 */
    uint32_t minimum;     /* RFC 5280 allows only 0, which isn't checked. Above 2^32-1 is an error */
    uint32_t maximum;     /* 0 if it is absent. Above 2^32-1 is an error */
    uint32_t has_maximum; /* 0 or 1. RFC 5280 allows only 0, which isn't checked */
    uint32_t reserved;    /* 0 */
} dm_subtree;

uint32_t dm_read_name_constraints(const uint8_t *value, size_t length, dm_name_constraints *constraints,
                                  dm_fault *fault);
uint32_t dm_next_subtree(dm_octets *subtrees, dm_subtree *subtree);

/* AuthorityInfoAccess or SubjectInfoAccess (4.2.2): at least one description. */
typedef struct dm_access_description {
    dm_octets method; /* the content octets of the OBJECT IDENTIFIER */
    dm_general_name location;
} dm_access_description;

uint32_t dm_read_information_access(const uint8_t *value, size_t length, dm_octets *descriptions, dm_fault *fault);
uint32_t dm_next_access_description(dm_octets *descriptions, dm_access_description *description);

/* PolicyMappings (4.2.1.5): at least one pair. anyPolicy is accepted. */
typedef struct dm_policy_mapping {
    dm_octets issuer_policy;  /* the content octets of the OBJECT IDENTIFIER issuerDomainPolicy */
    dm_octets subject_policy; /* those of subjectDomainPolicy */
} dm_policy_mapping;

uint32_t dm_read_policy_mappings(const uint8_t *value, size_t length, dm_octets *mappings, dm_fault *fault);
uint32_t dm_next_policy_mapping(dm_octets *mappings, dm_policy_mapping *mapping);

/* PolicyConstraints (4.2.1.11): how many certificates may follow in a path before each needs an acceptable policy, and
 * before policies are no longer mapped. A number above 2^32-1 is an error. Both may be absent. */
typedef struct dm_policy_constraints {
    uint32_t has_require_explicit_policy; /* 0 or 1 */
    uint32_t require_explicit_policy;     /* 0 if it is absent */
    uint32_t has_inhibit_policy_mapping;  /* 0 or 1 */
    uint32_t inhibit_policy_mapping;      /* 0 if it is absent */
} dm_policy_constraints;

uint32_t dm_read_policy_constraints(const uint8_t *value, size_t length, dm_policy_constraints *constraints,
                                    dm_fault *fault);

/* InhibitAnyPolicy (4.2.1.14): how many certificates may follow in a path before anyPolicy no longer counts. A number
 * above 2^32-1 is an error. */
uint32_t dm_read_inhibit_any_policy(const uint8_t *value, size_t length, uint32_t *number, dm_fault *fault);

/* SubjectDirectoryAttributes (4.2.1.8): at least one attribute. The order of values isn't checked. */
typedef struct dm_request_attribute {
    dm_octets identifier; /* the content octets of its type, an OBJECT IDENTIFIER */
    dm_octets values;     /* the encodings of its values */
} dm_request_attribute;

uint32_t dm_read_directory_attributes(const uint8_t *value, size_t length, dm_octets *attributes, dm_fault *fault);
uint32_t dm_next_directory_attribute(dm_octets *attributes, dm_request_attribute *attribute);

/* Signed certificate timestamps (RFC 6962 3.3): at least one. dm_next_timestamp writes the octets of one (3.2), which
 * aren't checked. */
uint32_t dm_read_signed_certificate_timestamps(const uint8_t *value, size_t length, dm_octets *timestamps,
                                               dm_fault *fault);
uint32_t dm_next_timestamp(dm_octets *timestamps, dm_octets *timestamp);

/* OCSP no-check or the precertificate poison: a NULL. */
uint32_t dm_read_null_extension(const uint8_t *value, size_t length, dm_fault *fault);

/* TLS features that a server must support (RFC 7633 4.1), maybe none. dm_next_tls_feature writes the number of one,
 * such as 5 (status_request). A number above 2^32-1 is an error. */
uint32_t dm_read_tls_features(const uint8_t *value, size_t length, dm_octets *features, dm_fault *fault);
uint32_t dm_next_tls_feature(dm_octets *features, uint32_t *number);

/* Statements of a qualified certificate (RFC 3739 3.2.6), maybe none. */
typedef struct dm_qc_statement {
    dm_octets identifier; /* the content octets of the OBJECT IDENTIFIER */
    dm_any info;          /* empty and 0 if has_info is 0 */
    uint32_t has_info;    /* 0 or 1 */
    uint32_t reserved;    /* 0 */
} dm_qc_statement;

uint32_t dm_read_qc_statements(const uint8_t *value, size_t length, dm_octets *statements, dm_fault *fault);
uint32_t dm_next_qc_statement(dm_octets *statements, dm_qc_statement *statement);

/* The register of an organization (EV Guidelines 9.8.2). The characters of scheme and country aren't checked. */
typedef struct dm_organization_identifier {
    dm_octets scheme;               /* kind of register, such as VAT: three characters of PrintableString */
    dm_octets country;              /* two characters */
    dm_octets state_or_province;    /* at most 128 characters. Empty if there is none */
    dm_octets reference;            /* the organization's number in the register: UTF-8 */
    uint32_t has_state_or_province; /* 0 or 1 */
    uint32_t reserved;              /* 0 */
} dm_organization_identifier;

uint32_t dm_read_organization_identifier(const uint8_t *value, size_t length, dm_organization_identifier *identifier,
                                         dm_fault *fault);

/* A CRL (RFC 5280 5.1). */
typedef struct dm_certificate_list {
    dm_octets tbs;           /* the encoding of TBSCertList: the octets that are signed */
    dm_algorithm signature;  /* the algorithm that is signed with the rest */
    dm_octets issuer;        /* the relative names: dm_next_relative_name */
    dm_octets revoked;       /* dm_next_revoked. Empty if there are none */
    dm_octets extensions;    /* dm_next_extension. Empty if there are none */
    dm_algorithm signature_algorithm;
    dm_bits signature_value; /* it isn't verified */
    dm_moment this_update;
    dm_moment next_update;   /* number 0 if it is absent */
    uint32_t version;        /* 1 or 2 */
    uint32_t has_revoked;    /* 1 if revokedCertificates is present, else 0 */
} dm_certificate_list;

/* Reads a CRL, as dm_read_certificate reads a certificate. */
uint32_t dm_read_certificate_list(const uint8_t *input, size_t length, dm_certificate_list *list, dm_fault *fault);

/* An entry of a CRL (5.1.2.6). */
typedef struct dm_revoked {
    dm_octets serial_number; /* the content octets of the INTEGER, in two's complement */
    dm_octets extensions;    /* dm_next_extension. Empty if there are none */
    dm_moment date;
    uint32_t reserved;       /* 0 */
} dm_revoked;

uint32_t dm_next_revoked(dm_octets *revoked, dm_revoked *entry);

/* DM_REASON_CODE of an entry (5.3.1): one of enum dm_reason. Any other number is an error. */
uint32_t dm_read_reason(const uint8_t *value, size_t length, uint32_t *reason, dm_fault *fault);

/* Why a certificate is revoked (RFC 5280 5.3.1). */
enum dm_reason {
    DM_REASON_UNSPECIFIED = 0,            /* unspecified */
    DM_REASON_KEY_COMPROMISE = 1,         /* keyCompromise */
    DM_REASON_CA_COMPROMISE = 2,          /* cACompromise */
    DM_REASON_AFFILIATION_CHANGED = 3,    /* affiliationChanged */
    DM_REASON_SUPERSEDED = 4,             /* superseded */
    DM_REASON_CESSATION_OF_OPERATION = 5, /* cessationOfOperation */
    DM_REASON_CERTIFICATE_HOLD = 6,       /* certificateHold */
    DM_REASON_REMOVE_FROM_CRL = 8,        /* removeFromCRL */
    DM_REASON_PRIVILEGE_WITHDRAWN = 9,    /* privilegeWithdrawn */
    DM_REASON_AA_COMPROMISE = 10          /* aACompromise */
};

/* DM_INVALIDITY_DATE of an entry (5.3.2): when its key became invalid. It may have a fraction of a second. */
uint32_t dm_read_invalidity_date(const uint8_t *value, size_t length, dm_time *date, dm_fault *fault);

/* DM_CRL_NUMBER (5.2.3) or DM_DELTA_CRL_INDICATOR (5.2.4): the content octets of a non-negative INTEGER. */
uint32_t dm_read_crl_number(const uint8_t *value, size_t length, dm_octets *number, dm_fault *fault);

/* Which certificates a CRL is about (5.2.5). No field, or fields that exclude each other, are accepted. */
typedef struct dm_issuing_distribution_point {
    dm_octets full_name;                    /* general names: dm_next_general_name. Empty if there are none */
    dm_octets relative_name;                /* dm_next_attribute. Empty if there is none */
    dm_bits reasons;                        /* as in dm_distribution_point */
    uint32_t only_contains_user_certs;      /* 0 or 1: only end entities */
    uint32_t only_contains_ca_certs;        /* 0 or 1: only CAs */
    uint32_t indirect_crl;                  /* 0 or 1: other issuers too */
    uint32_t only_contains_attribute_certs; /* 0 or 1: only attribute certificates */
} dm_issuing_distribution_point;

uint32_t dm_read_issuing_distribution_point(const uint8_t *value, size_t length, dm_issuing_distribution_point *point,
                                            dm_fault *fault);

/* The rules of RFC 5280's text that the octets show, and of RFCs beside it, by their numbers. Those of certificates
 * begin at 1, those of CRLs at DM_FIRST_CRL_RULE. In another version a number may be another rule's: keep the text. */
#define DM_FIRST_CRL_RULE 1001

/* The most rules of either that one input breaks. */
#define DM_MAX_BROKEN_RULES 256

/* Read a certificate or a CRL, as dm_read_certificate and dm_read_certificate_list do, and write the numbers of all
 * rules that it breaks: first those with MUST, then those with SHOULD. `room` is the buffer's capacity in numbers. If
 * there are more, the first ones are written, and `count` is the number of all. So with 0 the call counts. Unless the
 * status is DM_OK, nothing but the fault is written. */
uint32_t dm_broken_rules(const uint8_t *input, size_t length, uint32_t *rules, size_t room, size_t *count,
                         dm_fault *fault);
uint32_t dm_broken_crl_rules(const uint8_t *input, size_t length, uint32_t *rules, size_t room, size_t *count,
                             dm_fault *fault);

/* Writes the text of a rule with its section, such as "nameConstraints isn't critical (RFC 5280 4.2.1.10)", as
 * dm_error_text writes one. Returns 0 if no rule has the number. */
size_t dm_rule_text(uint32_t rule, uint8_t *text, size_t room);

/* Returns one of enum dm_rule_kind. */
uint32_t dm_rule_kind(uint32_t rule);

enum dm_rule_kind {
    DM_RULE_NONE = 0,  /* no rule has the number */
    DM_RULE_MUST = 1,  /* MUST or MUST NOT */
    DM_RULE_SHOULD = 2 /* SHOULD or SHOULD NOT */
};

/* A certification request (RFC 2986 4). Its version is 0. */
typedef struct dm_request {
    dm_octets info;             /* the encoding of CertificationRequestInfo, which is signed */
    dm_octets subject;          /* the relative names: dm_next_relative_name */
    dm_algorithm key_algorithm; /* of the subject's key */
    dm_bits key;
    dm_octets attributes;       /* dm_next_request_attribute. Empty if there are none */
    dm_algorithm signature_algorithm;
    dm_bits signature;          /* it isn't verified */
} dm_request;

/* Reads a request, as dm_read_certificate reads a certificate. */
uint32_t dm_read_request(const uint8_t *input, size_t length, dm_request *request, dm_fault *fault);

/* The next attribute (4.1). */
uint32_t dm_next_request_attribute(dm_octets *attributes, dm_request_attribute *attribute);

/* The extensions in the values of the attribute extensionRequest, 1.2.840.113549.1.9.14 (RFC 2985 5.4.2). Offsets count
 * from the start of the values. */
uint32_t dm_read_extension_request(const uint8_t *values, size_t length, dm_octets *extensions, dm_fault *fault);

/* A private key (PKCS #8: RFC 5208 5, RFC 5958 2). */
typedef struct dm_private_key {
    dm_octets algorithm;     /* the content octets of the OBJECT IDENTIFIER */
    dm_any parameters;       /* of the algorithm. Its content isn't read */
    dm_octets private_key;   /* the octets of the OCTET STRING: the key as its algorithm encodes it */
    dm_octets attributes;    /* content octets that aren't read. Empty if there are none */
    dm_bits public_key;      /* its is_present is 0 if there is none */
    uint32_t version;        /* as encoded: 1 if there is a public key, else 0 */
    uint32_t has_parameters; /* 0 or 1. With 0 the fields of `parameters` are empty and 0 */
    uint32_t has_attributes; /* 0 or 1 */
    uint32_t reserved;       /* 0 */
} dm_private_key;

/* Reads a private key, as dm_read_certificate reads a certificate. An encrypted one is an error. */
uint32_t dm_read_private_key(const uint8_t *input, size_t length, dm_private_key *key, dm_fault *fault);

/* An RSA private key (RFC 8017 A.1.2), from `private_key`. Each number is the content octets of an INTEGER, in two's
 * complement. */
typedef struct dm_rsa_private_key {
    dm_octets modulus;
    dm_octets public_exponent;
    dm_octets private_exponent;
    dm_octets prime1;
    dm_octets prime2;
    dm_octets exponent1;
    dm_octets exponent2;
    dm_octets coefficient;
    dm_octets other_primes;    /* content octets that aren't read. Empty if there are none */
    uint32_t version;          /* 1 if there are further primes, else 0 */
    uint32_t has_other_primes; /* 0 or 1 */
} dm_rsa_private_key;

uint32_t dm_read_rsa_private_key(const uint8_t *input, size_t length, dm_rsa_private_key *key, dm_fault *fault);

/* An EC private key (SEC 1 C.4, RFC 5915 3), from `private_key` or from a file. */
typedef struct dm_ec_private_key {
    dm_octets private_key;   /* a number, in as many octets as the curve's order */
    dm_any parameters;       /* the curve, mostly an OBJECT IDENTIFIER (RFC 5480 2.1.1). Its content isn't read */
    dm_bits public_key;      /* its is_present is 0 if there is none */
    uint32_t version;        /* 1 */
    uint32_t has_parameters; /* 0 or 1. With 0 the fields of `parameters` are empty and 0 */
} dm_ec_private_key;

uint32_t dm_read_ec_private_key(const uint8_t *input, size_t length, dm_ec_private_key *key, dm_fault *fault);

/* An encrypted private key (RFC 5958 3). It isn't decrypted. */
typedef struct dm_encrypted_private_key {
    dm_octets algorithm;      /* the content octets of the OBJECT IDENTIFIER: how it is encrypted */
    dm_any parameters;        /* of the algorithm. Its content isn't read */
    dm_octets encrypted_data; /* the octets of the OCTET STRING */
    uint32_t has_parameters;  /* 0 or 1. With 0 the fields of `parameters` are empty and 0 */
    uint32_t reserved;        /* 0 */
} dm_encrypted_private_key;

uint32_t dm_read_encrypted_private_key(const uint8_t *input, size_t length, dm_encrypted_private_key *key,
                                       dm_fault *fault);

/* A public key (RFC 5280 4.1.2.7), such as in a PEM block PUBLIC KEY. */
typedef struct dm_public_key {
    dm_octets algorithm;     /* the content octets of the OBJECT IDENTIFIER */
    dm_any parameters;       /* of the algorithm. Its content isn't read */
    dm_bits public_key;      /* the key as its algorithm encodes it */
    uint32_t has_parameters; /* 0 or 1. With 0 the fields of `parameters` are empty and 0 */
    uint32_t reserved;       /* 0 */
} dm_public_key;

uint32_t dm_read_public_key(const uint8_t *input, size_t length, dm_public_key *key, dm_fault *fault);

/* An RSA public key (RFC 8017 A.1.1), from the octets of `public_key`: the content octets of its numbers, in two's
 * complement. */
typedef struct dm_rsa_public_key {
    dm_octets modulus;
    dm_octets public_exponent;
} dm_rsa_public_key;

uint32_t dm_read_rsa_public_key(const uint8_t *input, size_t length, dm_rsa_public_key *key, dm_fault *fault);

/* The types of public keys. */
enum dm_key_type {
    DM_KEY_OTHER = 0,   /* another type */
    DM_KEY_RSA = 1,     /* RSA (RFC 8017 A.1) */
    DM_KEY_RSA_PSS = 2, /* RSASSA-PSS (RFC 8017 A.2.3) */
    DM_KEY_EC = 3,      /* elliptic curves (RFC 5480 2.1.1) */
    DM_KEY_ED25519 = 4, /* RFC 8410 3 */
    DM_KEY_ED448 = 5,   /* RFC 8410 3 */
    DM_KEY_X25519 = 6,  /* RFC 8410 3 */
    DM_KEY_X448 = 7,    /* RFC 8410 3 */
    DM_KEY_DSA = 8,     /* RFC 3279 2.3.2 */
    DM_KEY_DH = 9       /* Diffie-Hellman (RFC 3279 2.3.3, PKCS #3) */
};

/* The curves of keys of type DM_KEY_EC (RFC 5480 2.1.1.1, SEC 2, RFC 5639). */
enum dm_curve {
    DM_CURVE_OTHER = 0,             /* another curve, or none */
    DM_CURVE_SECP192R1 = 1,         /* secp192r1 */
    DM_CURVE_SECP224R1 = 2,         /* secp224r1 */
    DM_CURVE_SECP256R1 = 3,         /* secp256r1 */
    DM_CURVE_SECP384R1 = 4,         /* secp384r1 */
    DM_CURVE_SECP521R1 = 5,         /* secp521r1 */
    DM_CURVE_SECP256K1 = 6,         /* secp256k1 */
    DM_CURVE_SECT163K1 = 7,         /* sect163k1 */
    DM_CURVE_SECT163R2 = 8,         /* sect163r2 */
    DM_CURVE_SECT233K1 = 9,         /* sect233k1 */
    DM_CURVE_SECT233R1 = 10,        /* sect233r1 */
    DM_CURVE_SECT283K1 = 11,        /* sect283k1 */
    DM_CURVE_SECT283R1 = 12,        /* sect283r1 */
    DM_CURVE_SECT409K1 = 13,        /* sect409k1 */
    DM_CURVE_SECT409R1 = 14,        /* sect409r1 */
    DM_CURVE_SECT571K1 = 15,        /* sect571k1 */
    DM_CURVE_SECT571R1 = 16,        /* sect571r1 */
    DM_CURVE_BRAINPOOL_P256R1 = 17, /* brainpoolP256r1 */
    DM_CURVE_BRAINPOOL_P384R1 = 18, /* brainpoolP384r1 */
    DM_CURVE_BRAINPOOL_P512R1 = 19  /* brainpoolP512r1 */
};

/* The name of a curve as a string of C; "" for DM_CURVE_OTHER and other numbers. */
static inline const char *dm_curve_string(uint32_t curve) {
    switch (curve) {
    case DM_CURVE_SECP192R1: return "secp192r1";
    case DM_CURVE_SECP224R1: return "secp224r1";
    case DM_CURVE_SECP256R1: return "secp256r1";
    case DM_CURVE_SECP384R1: return "secp384r1";
    case DM_CURVE_SECP521R1: return "secp521r1";
    case DM_CURVE_SECP256K1: return "secp256k1";
    case DM_CURVE_SECT163K1: return "sect163k1";
    case DM_CURVE_SECT163R2: return "sect163r2";
    case DM_CURVE_SECT233K1: return "sect233k1";
    case DM_CURVE_SECT233R1: return "sect233r1";
    case DM_CURVE_SECT283K1: return "sect283k1";
    case DM_CURVE_SECT283R1: return "sect283r1";
    case DM_CURVE_SECT409K1: return "sect409k1";
    case DM_CURVE_SECT409R1: return "sect409r1";
    case DM_CURVE_SECT571K1: return "sect571k1";
    case DM_CURVE_SECT571R1: return "sect571r1";
    case DM_CURVE_BRAINPOOL_P256R1: return "brainpoolP256r1";
    case DM_CURVE_BRAINPOOL_P384R1: return "brainpoolP384r1";
    case DM_CURVE_BRAINPOOL_P512R1: return "brainpoolP512r1";
    default: return "";
    }
}

/* What a public key is. */
typedef struct dm_key_kind {
    uint32_t key_type; /* one of enum dm_key_type */
    uint32_t curve;    /* one of enum dm_curve */
    uint32_t bits;     /* the size: of the modulus, of the prime of DSA and DH, or of the curve's field. 0 if it is
                        * unknown */
} dm_key_kind;

/* Writes what the key of a certificate or a request is, and returns its type. Parameters and keys that can't be read
 * have the size 0. */
uint32_t dm_key_type(const dm_algorithm *algorithm, const dm_bits *key, dm_key_kind *kind);

/* The same of a public key by itself. */
uint32_t dm_public_key_type(const dm_public_key *key, dm_key_kind *kind);

/* Blocks of PEM (RFC 7468), with any text around them:
 *
 *     dm_octets text = {file, length};
 *     while ((error = dm_next_pem(&text, characters, length, octets, length, &block)) == 0) ..
 *     if (error != DM_ERROR_PEM_NO_BLOCK) ..
 *
 * A block begins at the start of a line, or after white space, quotes or a mark >. */
typedef struct dm_pem {
    dm_octets label; /* such as CERTIFICATE: a part of the text */
    size_t length;   /* number of decoded octets, at the start of the buffer `octets` */
} dm_pem;

/* Decodes the next block of a text, removes what it read from the text, and returns 0. `characters` is scratch for the
 * base64 (RFC 4648 4, 5), and `octets` gets the result. Capacities of the text's length always suffice. Octets after
 * `length` are unspecified.
 *
 * After DM_ERROR_PEM_NO_BLOCK, DM_ERROR_PEM_NO_END and DM_ERROR_PEM_LABELS_DIFFER there is no further block: text and
 * block stay as they were. After any other error the label is written, the length is 0, and the text goes on after the
 * block. */
uint32_t dm_next_pem(dm_octets *text, uint8_t *characters, size_t room, uint8_t *octets, size_t capacity,
                     dm_pem *block);

/* Writes the offset of the first block and returns 1. If there is none, returns 0 and writes nothing. */
uint32_t dm_find_pem(const uint8_t *text, size_t length, size_t *offset);

/* Writes the octets of an input of DER or PEM to a buffer: those of the first block of PEM, or the input as it is if it
 * isn't PEM. `size` is how many there are, 0 after an error. Returns 0 or the error. A capacity of twice the input's
 * length always suffices. Also an input that is neither is copied: the call that reads it says what is wrong. */
uint32_t dm_decode_input(const uint8_t *input, size_t length, uint8_t *octets, size_t room, size_t *size);

/* The SHA-256 digest (FIPS 180-4), such as a certificate's fingerprint. */
typedef struct dm_digest {
    uint8_t octets[32];
} dm_digest;

void dm_sha256(const uint8_t *input, size_t length, dm_digest *digest);

/* Reads field after field of a format, by DER or by BER:
 *
 *     dm_cursor input = dm_cursor_over(octets, length, DM_DER), fields;
 *     if (dm_next_sequence(&input, &fields, &fault) == DM_OK && dm_next_u64(&fields, &version, &fault) == DM_OK
 *         && dm_next_octets(&fields, &key, &fault) == DM_OK && dm_end(&fields, &fault) == DM_OK
 *         && dm_end(&input, &fault) == DM_OK) ..
 *
 * A cursor is the rest of an input, or of an element's content. Unless the status is DM_OK, the cursor and the value
 * stay as they were. */
typedef struct dm_cursor {
    dm_octets left;     /* the rest; empty at the end */
    size_t offset;      /* its offset in the input */
    uint32_t rules;     /* one of enum dm_rules */
    uint32_t is_inside; /* 0 for the input. 1 for the content of an element: one cut short there is DM_ERROR_OVERRUN,
                         * since more octets don't help */
    uint32_t implicit;  /* 0, or 1 + the enum dm_class of the next element's implicit tag */
    uint32_t number;    /* the number of that tag */
} dm_cursor;

enum dm_rules { DM_BER = 0, DM_DER = 1 };

/* A cursor at the start of an input. */
static inline dm_cursor dm_cursor_over(const uint8_t *input, size_t length, uint32_t rules) {
    dm_cursor cursor = {{input, length}, 0, rules, 0, 0, 0};
    return cursor;
}

/* The next element has this implicit tag instead of its type's (8.14.3). After an error the tag is still pending. */
static inline void dm_next_implicit(dm_cursor *cursor, uint32_t tag_class, uint32_t number) {
    cursor->implicit = 1 + tag_class;
    cursor->number = number;
}

/* Returns 1 if nothing is left, else 0. */
static inline uint32_t dm_is_empty(const dm_cursor *cursor) {
    return cursor->left.length == 0;
}

/* Returns 1 if an element of this class and tag number is next, else 0: for optional fields. */
uint32_t dm_is_next(const dm_cursor *cursor, uint8_t tag_class, uint32_t number);

/* Each reads the next element as this type, by the cursor's rules, and returns the fault's status. The fault is always
 * written, with DM_FIELD_NONE. Errors come in this order:
 * - of the header, and by BER of the end of an indefinite length;
 * - DM_ERROR_UNEXPECTED_CLASS, DM_ERROR_UNEXPECTED_TAG, DM_ERROR_PRIMITIVE_EXPECTED (a constructed string too),
 *   DM_ERROR_CONSTRUCTED_EXPECTED;
 * - of the content. Also by BER an empty number is DM_ERROR_INTEGER_EMPTY (8.3.1), a padded one
 *   DM_ERROR_INTEGER_LEADING_ZEROES or DM_ERROR_INTEGER_LEADING_FF (8.3.2), more than seven unused bits are
 *   DM_ERROR_INVALID_VALUE, and unused bits of no octets DM_ERROR_UNUSED_BITS_NOT_ZERO (8.6.2). */
uint32_t dm_next_bool(dm_cursor *cursor, uint8_t *value, dm_fault *fault);
uint32_t dm_next_u64(dm_cursor *cursor, uint64_t *value, dm_fault *fault);
uint32_t dm_next_i64(dm_cursor *cursor, int64_t *value, dm_fault *fault);
uint32_t dm_next_enumerated(dm_cursor *cursor, uint64_t *value, dm_fault *fault);
uint32_t dm_next_integer(dm_cursor *cursor, dm_octets *content, dm_fault *fault); /* two's complement, of any size */
uint32_t dm_next_octets(dm_cursor *cursor, dm_octets *octets, dm_fault *fault);   /* an OCTET STRING */
uint32_t dm_next_oid(dm_cursor *cursor, dm_octets *content, dm_fault *fault);     /* dm_read_oid writes its text */
uint32_t dm_next_bits(dm_cursor *cursor, dm_bits *bits, dm_fault *fault);
uint32_t dm_next_null(dm_cursor *cursor, dm_fault *fault);
uint32_t dm_next_utc_time(dm_cursor *cursor, dm_time *time, dm_fault *fault);
uint32_t dm_next_generalized_time(dm_cursor *cursor, dm_time *time, dm_fault *fault);

/* The same for a text of the string type with this tag number, such as DM_UTF8_STRING: one of dm_check_text but 30.
 * Another number is DM_ERROR_WRONG_TYPE. */
uint32_t dm_next_text(dm_cursor *cursor, uint32_t number, dm_octets *text, dm_fault *fault);

/* Read the next element, a SEQUENCE (8.9) or a SET (8.11), into a cursor over its items. dm_next_content takes any
 * class, constructed bit and tag number, such as an explicit tag (8.14.2) or a string type, and doesn't check the
 * content. */
uint32_t dm_next_sequence(dm_cursor *cursor, dm_cursor *items, dm_fault *fault);
uint32_t dm_next_set(dm_cursor *cursor, dm_cursor *items, dm_fault *fault);
uint32_t dm_next_content(dm_cursor *cursor, uint8_t tag_class, uint8_t constructed, uint32_t number, dm_cursor *content,
                         dm_fault *fault);

/* An element of any type. Its content isn't read. */
uint32_t dm_next_any(dm_cursor *cursor, dm_any *element, dm_fault *fault);

/* DM_OK if nothing is left, else DM_ERROR_PARSER_FAULT. */
uint32_t dm_end(const dm_cursor *cursor, dm_fault *fault);

#ifdef __cplusplus
}
#endif
#endif
