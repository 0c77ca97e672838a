/* Reads fields with a cursor, by the rules of X.690: what is read, where the cursor goes on, and each error. */
#include "dumarewhi.h"

#include <stdio.h>
#include <string.h>

static int passed, failed;

static void expect(int is_so, const char *what) {
    if (is_so) {
        passed++;
    } else {
        failed++;
        printf("fields: %s\n", what);
    }
}

static int is_at(dm_octets part, const uint8_t *input, size_t offset, size_t length) {
    return part.octets == input + offset && part.length == length;
}

/* The cursor has this offset, and so much is left. */
static int is_left(const dm_cursor *cursor, size_t offset, size_t left) {
    return cursor->offset == offset && cursor->left.length == left;
}

static int has_fault(const dm_fault *fault, uint32_t error, size_t offset) {
    return fault->status == DM_ERROR && fault->error == error && fault->offset == offset
           && fault->field == DM_FIELD_NONE;
}

/* Texts of string types (X.690 8.23), by their tag numbers: "hi" as UTF8String, "a*" as PrintableString, "\xff" as
 * UTF8String, and "hi" under [1]. */
static void test_texts(void) {
    static const uint8_t input[] = {0x0c, 0x02, 0x68, 0x69, 0x13, 0x02, 0x61, 0x2a};
    static const uint8_t others[] = {0x0c, 0x01, 0xff, 0x81, 0x02, 0x68, 0x69};
    dm_cursor fields = dm_cursor_over(input, sizeof input, DM_DER);
    dm_octets text = {NULL, 0};
    dm_fault f;
    expect(dm_next_text(&fields, DM_IA5_STRING, &text, &f) == DM_ERROR && has_fault(&f, DM_ERROR_UNEXPECTED_TAG, 0)
               && is_left(&fields, 0, 8),
           "a text of another type");
    expect(dm_next_text(&fields, DM_OCTET_STRING, &text, &f) == DM_ERROR && has_fault(&f, DM_ERROR_WRONG_TYPE, 0),
           "a type that is no text");
    expect(dm_next_text(&fields, DM_UTF8_STRING, &text, &f) == DM_OK && is_at(text, input, 2, 2)
               && is_left(&fields, 4, 4),
           "UTF8String");
    expect(dm_next_text(&fields, DM_PRINTABLE_STRING, &text, &f) == DM_ERROR
               && has_fault(&f, DM_ERROR_INVALID_CHARACTER, 4) && is_at(text, input, 2, 2) && is_left(&fields, 4, 4),
           "a character that isn't printable");
    fields = dm_cursor_over(others, sizeof others, DM_DER);
    expect(dm_next_text(&fields, DM_UTF8_STRING, &text, &f) == DM_ERROR && has_fault(&f, DM_ERROR_INVALID_CHARACTER, 0),
           "an octet that isn't UTF-8");
    fields = dm_cursor_over(&others[3], 4, DM_BER);
    dm_next_implicit(&fields, DM_CONTEXT_SPECIFIC, 1);
    expect(dm_next_text(&fields, DM_IA5_STRING, &text, &f) == DM_OK && is_at(text, others, 5, 2), "an implicit tag");
}

/* A value of each type in a SEQUENCE, by DER. */
static void test_types(void) {
    static const uint8_t input[] = {
        0x30, 0x51, 0x01, 0x01, 0xff, 0x02, 0x02, 0x01, 0x02, 0x02, 0x01, 0xfe, 0x0a, 0x01, 0x03, 0x02, 0x01,
        0x7f, 0x04, 0x02, 0xaa, 0xbb, 0x06, 0x02, 0x2a, 0x03, 0x03, 0x02, 0x04, 0xf0, 0x05, 0x00, 0x17, 0x0d,
        0x32, 0x36, 0x30, 0x31, 0x30, 0x32, 0x30, 0x33, 0x30, 0x34, 0x30, 0x35, 0x5a, 0x18, 0x0f, 0x32, 0x30,
        0x35, 0x31, 0x30, 0x32, 0x30, 0x33, 0x30, 0x34, 0x30, 0x35, 0x30, 0x36, 0x5a, 0x31, 0x03, 0x02, 0x01,
        0x05, 0xa1, 0x03, 0x80, 0x01, 0x09, 0x82, 0x01, 0x07, 0x9f, 0x21, 0x01, 0xcc, 0x0c, 0x00};
    dm_cursor whole = dm_cursor_over(input, sizeof input, DM_DER), fields, inner;
    dm_fault f;
    uint8_t truth;
    uint64_t number;
    int64_t integer;
    dm_octets octets;
    dm_bits bits;
    dm_time time;
    dm_any any;
    expect(dm_next_sequence(&whole, &fields, &f) == DM_OK && is_left(&whole, 83, 0) && is_left(&fields, 2, 81),
           "SEQUENCE");
    expect(fields.is_inside == 1 && fields.rules == DM_DER && fields.implicit == 0 && fields.number == 0, "its cursor");
    expect(dm_next_bool(&fields, &truth, &f) == DM_OK && truth == 1 && is_left(&fields, 5, 78), "BOOLEAN");
    expect(dm_next_u64(&fields, &number, &f) == DM_OK && number == 258 && is_left(&fields, 9, 74), "INTEGER");
    expect(dm_next_u64(&fields, &number, &f) == DM_ERROR && has_fault(&f, DM_ERROR_INTEGER_NEGATIVE, 9)
               && f.list_end == 83 && f.is_in_list == 1 && number == 258 && is_left(&fields, 9, 74),
           "a negative one");
    expect(dm_next_i64(&fields, &integer, &f) == DM_OK && integer == -2 && is_left(&fields, 12, 71), "the same");
    expect(dm_next_enumerated(&fields, &number, &f) == DM_OK && number == 3, "ENUMERATED");
    expect(dm_next_integer(&fields, &octets, &f) == DM_OK && is_at(octets, input, 17, 1), "INTEGER as octets");
    expect(dm_next_oid(&fields, &octets, &f) == DM_ERROR && has_fault(&f, DM_ERROR_UNEXPECTED_TAG, 18), "another type");
    expect(dm_next_octets(&fields, &octets, &f) == DM_OK && is_at(octets, input, 20, 2), "OCTET STRING");
    expect(dm_next_oid(&fields, &octets, &f) == DM_OK && is_at(octets, input, 24, 2), "OBJECT IDENTIFIER");
    expect(dm_next_bits(&fields, &bits, &f) == DM_OK && is_at(bits.octets, input, 29, 1) && bits.unused == 4
               && bits.is_present == 1,
           "BIT STRING");
    expect(dm_next_null(&fields, &f) == DM_OK && is_left(&fields, 32, 51), "NULL");
    expect(dm_next_utc_time(&fields, &time, &f) == DM_OK && time.year == 2026 && time.second == 5, "UTCTime");
    expect(dm_next_generalized_time(&fields, &time, &f) == DM_OK && time.year == 2051 && time.second == 6, "its twin");
    expect(dm_next_set(&fields, &inner, &f) == DM_OK && is_left(&inner, 66, 3) && is_left(&fields, 69, 14), "SET");
    expect(dm_is_next(&fields, DM_CONTEXT_SPECIFIC, 1) == 1 && dm_is_next(&fields, DM_CONTEXT_SPECIFIC, 2) == 0
               && dm_is_next(&fields, DM_PRIVATE, 1) == 0,
           "which is next");
    expect(dm_next_content(&fields, DM_CONTEXT_SPECIFIC, 1, 1, &inner, &f) == DM_OK && is_left(&inner, 71, 3), "[1]");
    dm_next_implicit(&inner, DM_CONTEXT_SPECIFIC, 0);
    expect(dm_next_u64(&inner, &number, &f) == DM_OK && number == 9 && dm_end(&inner, &f) == DM_OK, "an implicit tag");
    dm_next_implicit(&fields, DM_CONTEXT_SPECIFIC, 3);
    expect(dm_next_octets(&fields, &octets, &f) == DM_ERROR && has_fault(&f, DM_ERROR_UNEXPECTED_TAG, 74)
               && fields.implicit == 3 && fields.number == 3,
           "another one");
    dm_next_implicit(&fields, DM_CONTEXT_SPECIFIC, 2);
    expect(dm_next_octets(&fields, &octets, &f) == DM_OK && is_at(octets, input, 76, 1) && fields.implicit == 0, "[2]");
    expect(dm_end(&fields, &f) == DM_ERROR && has_fault(&f, DM_ERROR_PARSER_FAULT, 77), "octets left over");
    expect(dm_next_any(&fields, &any, &f) == DM_OK && is_at(any.content, input, 80, 1) && any.number == 33
               && any.tag_class == DM_CONTEXT_SPECIFIC && any.constructed == 0 && any.reserved == 0,
           "any element");
    expect(dm_next_any(&fields, &any, &f) == DM_OK && any.number == DM_UTF8_STRING && any.content.length == 0,
           "a text");
    expect(dm_end(&fields, &f) == DM_OK && f.error == 0 && dm_end(&whole, &f) == DM_OK, "the end");
    expect(dm_next_any(&fields, &any, &f) == DM_ERROR && has_fault(&f, DM_ERROR_OVERRUN, 83) && f.list_end == 83,
           "nothing is left in a list");
    expect(dm_next_any(&whole, &any, &f) == DM_INCOMPLETE && f.offset == 83 && f.is_in_list == 0 && f.needed == 1,
           "nor in the input");
}

/* What BER has and DER doesn't, and elements that are cut short. */
static void test_rules(void) {
    static const uint8_t indefinite[] = {0x30, 0x80, 0x01, 0x01, 0x07, 0x00, 0x00, 0x05, 0x00};
    static const uint8_t cut[] = {0x30, 0x05, 0x04, 0x06, 0xaa, 0xbb, 0xcc};
    dm_cursor whole = dm_cursor_over(indefinite, sizeof indefinite, DM_BER), fields;
    dm_fault f;
    uint8_t truth;
    dm_octets octets;
    expect(dm_next_sequence(&whole, &fields, &f) == DM_OK && is_left(&whole, 7, 2) && is_left(&fields, 2, 3), "by BER");
    expect(fields.rules == DM_BER && dm_next_bool(&fields, &truth, &f) == DM_OK && truth == 1, "TRUE is 07 by BER");
    expect(dm_next_null(&whole, &f) == DM_OK && dm_end(&whole, &f) == DM_OK, "what follows an end marker");
    whole = dm_cursor_over(indefinite, sizeof indefinite, DM_DER);
    expect(dm_next_sequence(&whole, &fields, &f) == DM_ERROR && has_fault(&f, DM_ERROR_INDEFINITE_LENGTH, 0)
               && f.is_in_list == 0 && is_left(&whole, 0, 9),
           "not by DER");
    whole = dm_cursor_over(indefinite + 2, 3, DM_DER);
    expect(dm_next_bool(&whole, &truth, &f) == DM_ERROR && has_fault(&f, DM_ERROR_INVALID_BOOLEAN, 0), "nor is 07");
    whole = dm_cursor_over(cut, sizeof cut, DM_DER);
    expect(dm_next_sequence(&whole, &fields, &f) == DM_OK, "a list");
    expect(dm_next_octets(&fields, &octets, &f) == DM_ERROR && has_fault(&f, DM_ERROR_OVERRUN, 2) && f.list_end == 7,
           "an element runs past the end of its list");
    whole = dm_cursor_over(cut, 4, DM_DER);
    expect(dm_next_sequence(&whole, &fields, &f) == DM_INCOMPLETE && f.needed == 3 && f.error == 0,
           "an input cut short");
    whole = dm_cursor_over(NULL, 0, DM_DER);
    expect(dm_next_sequence(&whole, &fields, &f) == DM_INCOMPLETE && dm_end(&whole, &f) == DM_OK, "no octets");
}

/* The number of unused bits (8.6.2.2, 8.6.2.3), by either rules: its fault, or those of the value. */
static void test_bits(void) {
    static const struct {
        uint8_t octets[4];
        size_t length;
        uint32_t rules, error, unused;
    } rows[] = {
        {{0x03, 0x01, 0x00}, 3, DM_BER, 0, 0},
        {{0x03, 0x02, 0x07, 0xff}, 4, DM_BER, 0, 7},
        {{0x03, 0x02, 0x07, 0x80}, 4, DM_DER, 0, 7},
        {{0x03, 0x01, 0x01}, 3, DM_BER, DM_ERROR_UNUSED_BITS_NOT_ZERO, 0},
        {{0x03, 0x01, 0x01}, 3, DM_DER, DM_ERROR_UNUSED_BITS_NOT_ZERO, 0},
        {{0x03, 0x01, 0x07}, 3, DM_BER, DM_ERROR_UNUSED_BITS_NOT_ZERO, 0},
        {{0x03, 0x01, 0x08}, 3, DM_BER, DM_ERROR_INVALID_VALUE, 0},
        {{0x03, 0x02, 0x08, 0x00}, 4, DM_BER, DM_ERROR_INVALID_VALUE, 0},
        {{0x03, 0x02, 0x08, 0x00}, 4, DM_DER, DM_ERROR_INVALID_VALUE, 0},
        {{0x03, 0x02, 0xff, 0x00}, 4, DM_BER, DM_ERROR_INVALID_VALUE, 0},
        {{0x83, 0x02, 0xff, 0x00}, 4, DM_BER, DM_ERROR_INVALID_VALUE, 0}};
    for (size_t i = 0; i < sizeof rows / sizeof *rows; i++) {
        dm_cursor cursor = dm_cursor_over(rows[i].octets, rows[i].length, rows[i].rules);
        dm_bits bits = {{NULL, 0}, 99, 99};
        dm_fault f;
        if (rows[i].octets[0] == 0x83) dm_next_implicit(&cursor, DM_CONTEXT_SPECIFIC, 3);
        uint32_t implicit = cursor.implicit, status = dm_next_bits(&cursor, &bits, &f);
        if (rows[i].error == 0) {
            expect(status == DM_OK && bits.unused == rows[i].unused && bits.is_present == 1
                       && is_at(bits.octets, rows[i].octets, 3, rows[i].length - 3)
                       && is_left(&cursor, rows[i].length, 0),
                   "a number of unused bits");
        } else {
            expect(status == DM_ERROR && has_fault(&f, rows[i].error, 0) && f.is_in_list == 0 && bits.unused == 99
                       && bits.is_present == 99 && is_left(&cursor, 0, rows[i].length) && cursor.implicit == implicit,
                   "unused bits that there can't be");
        }
    }
    static const uint8_t inside[] = {0x30, 0x80, 0x05, 0x00, 0x03, 0x01, 0x01, 0x00, 0x00};
    dm_cursor whole = dm_cursor_over(inside, sizeof inside, DM_BER), fields;
    dm_bits bits;
    dm_fault f;
    expect(dm_next_sequence(&whole, &fields, &f) == DM_OK && dm_next_null(&fields, &f) == DM_OK
               && dm_next_bits(&fields, &bits, &f) == DM_ERROR && has_fault(&f, DM_ERROR_UNUSED_BITS_NOT_ZERO, 4)
               && f.is_in_list == 1 && f.list_end == 7,
           "those in a list");
}

/* Each call for a number reads the element, or refuses it and leaves the value and the cursor. */
static void test_number(const uint8_t *octets, size_t length, uint32_t rules, uint32_t error, int64_t value) {
    for (int call = 0; call < 4; call++) {
        uint8_t element[8];
        memcpy(element, octets, length);
        if (call == 3) element[0] = DM_ENUMERATED;
        for (int tagged = 0; tagged < 2; tagged++) {
            dm_cursor cursor = dm_cursor_over(element, length, rules);
            uint64_t natural = 99;
            int64_t number = 99;
            dm_octets content = {NULL, 99};
            dm_fault f;
            if (tagged) {
                element[0] = 0x83;
                dm_next_implicit(&cursor, DM_CONTEXT_SPECIFIC, 3);
            }
            uint32_t implicit = cursor.implicit;
            uint32_t status = call == 0   ? dm_next_integer(&cursor, &content, &f)
                              : call == 1 ? dm_next_u64(&cursor, &natural, &f)
                              : call == 2 ? dm_next_i64(&cursor, &number, &f)
                                          : dm_next_enumerated(&cursor, &natural, &f);
            int is_natural = call == 1 || call == 3;
            uint32_t expected = error == 0 && is_natural && value < 0 ? DM_ERROR_INTEGER_NEGATIVE : error;
            if (expected == 0) {
                expect(status == DM_OK && is_left(&cursor, length, 0) && cursor.implicit == 0
                           && (call != 0 || is_at(content, element, 2, length - 2))
                           && (!is_natural || natural == (uint64_t)value) && (call != 2 || number == value),
                       "a number in its fewest octets");
            } else {
                expect(status == DM_ERROR && has_fault(&f, expected, 0) && f.is_in_list == 0 && content.length == 99
                           && natural == 99 && number == 99 && is_left(&cursor, 0, length)
                           && cursor.implicit == implicit,
                       "a number in other octets");
            }
        }
    }
}

/* An INTEGER or ENUMERATED has octets, and the fewest for its number (8.3.1, 8.3.2), by either rules. */
static void test_numbers(void) {
    static const struct {
        uint8_t octets[4];
        size_t length;
        uint32_t error;
        int64_t value;
    } rows[] = {
        {{0x02, 0x01, 0x00}, 3, 0, 0},
        {{0x02, 0x01, 0x80}, 3, 0, -128},
        {{0x02, 0x02, 0x00, 0x80}, 4, 0, 128},
        {{0x02, 0x02, 0xff, 0x7f}, 4, 0, -129},
        {{0x02, 0x00}, 2, DM_ERROR_INTEGER_EMPTY, 0},
        {{0x02, 0x02, 0x00, 0x01}, 4, DM_ERROR_INTEGER_LEADING_ZEROES, 0},
        {{0x02, 0x02, 0x00, 0x7f}, 4, DM_ERROR_INTEGER_LEADING_ZEROES, 0},
        {{0x02, 0x02, 0xff, 0x80}, 4, DM_ERROR_INTEGER_LEADING_FF, 0},
        {{0x02, 0x02, 0xff, 0xff}, 4, DM_ERROR_INTEGER_LEADING_FF, 0}};
    for (size_t i = 0; i < sizeof rows / sizeof *rows; i++) {
        test_number(rows[i].octets, rows[i].length, DM_BER, rows[i].error, rows[i].value);
        test_number(rows[i].octets, rows[i].length, DM_DER, rows[i].error, rows[i].value);
    }
    static const uint8_t inside[] = {0x30, 0x80, 0x05, 0x00, 0x0a, 0x81, 0x02, 0x00, 0x01, 0x00, 0x00};
    static const uint8_t large[] = {0x02, 0x0a, 0x00, 0x00, 0xff, 0xff, 0xff, 0xff, 0xff, 0xff, 0xff, 0xff};
    dm_cursor whole = dm_cursor_over(inside, sizeof inside, DM_BER), fields;
    uint64_t number;
    dm_fault f;
    expect(dm_next_sequence(&whole, &fields, &f) == DM_OK && dm_next_null(&fields, &f) == DM_OK
               && dm_next_enumerated(&fields, &number, &f) == DM_ERROR
               && has_fault(&f, DM_ERROR_INTEGER_LEADING_ZEROES, 4) && f.is_in_list == 1 && f.list_end == 9,
           "one in a list");
    whole = dm_cursor_over(large, sizeof large, DM_BER);
    expect(dm_next_u64(&whole, &number, &f) == DM_ERROR && has_fault(&f, DM_ERROR_INTEGER_LEADING_ZEROES, 0),
           "one that is large too");
    whole = dm_cursor_over(inside + 4, 5, DM_BER);
    expect(dm_next_u64(&whole, &number, &f) == DM_ERROR && has_fault(&f, DM_ERROR_UNEXPECTED_TAG, 0),
           "an ENUMERATED is no INTEGER");
}

int main(void) {
    test_texts();
    test_types();
    test_rules();
    test_bits();
    test_numbers();
    expect(sizeof(dm_cursor) == 40 && sizeof(dm_any) == 24, "a cursor has 40 octets, an element 24");
    printf("fields: %d passed, %d failed\n", passed, failed);
    return failed != 0;
}
