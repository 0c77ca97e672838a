/* Inputs with the outcome that X.690 and the rules of this project give, of each call. */
#include "dumarewhi.h"

#include <stdio.h>
#include <string.h>

static int passed, failed;

static void expect(int is_so, const char *call, const char *row) {
    if (is_so) {
        passed++;
    } else {
        failed++;
        printf("rows: %s of %s\n", call, row);
    }
}

static size_t octets_of(const char *hex, uint8_t *octets) {
    size_t length = 0;
    unsigned value;
    for (; *hex != 0; hex++) {
        if (*hex == ' ') continue;
        if (sscanf(hex, "%2x", &value) != 1) break;
        octets[length++] = (uint8_t)value;
        hex++;
    }
    return length;
}

enum rules { DER, BER };

struct row {
    const char *hex;
    enum rules rules;
    size_t depth;
    uint32_t status, error;
    size_t first, second; /* elements and length, place and 0, or missing and 0 */
};

#define OK(elements, length) DM_OK, 0, elements, length
#define FAULT(error, place) DM_ERROR, error, place, 0
#define CUT(missing) DM_INCOMPLETE, 0, missing, 0

/* What decides is named by its clause of X.690, in front of the rows. */
static const struct row rows[] = {
    /* X.690 8.2: TRUE. A BOOLEAN is one octet, and primitive. By DER true is ff alone (11.1). */
    {"01 01 ff", DER, 50, OK(1, 3)},
    {"01 01 ff", BER, 50, OK(1, 3)},
    {"01 01 01", BER, 50, OK(1, 3)},
    {"01 01 01", DER, 50, FAULT(65, 0)},
    {"01 02 ff ff", BER, 50, FAULT(64, 0)},
    {"21 01 ff", BER, 50, FAULT(10, 0)},
    {"21 01 ff", DER, 50, FAULT(10, 0)},
    /* 8.3: one octet at least, the fewest, and primitive; so is an ENUMERATED (8.4), of any number */
    {"02 02 00 80", DER, 50, OK(1, 4)},
    {"02 02 00 7f", DER, 50, FAULT(67, 0)},
    {"02 02 ff 80", DER, 50, FAULT(67, 0)},
    {"02 00", DER, 50, FAULT(66, 0)},
    {"02 02 00 7f", BER, 50, FAULT(67, 0)},
    {"02 00", BER, 50, FAULT(66, 0)},
    {"22 03 02 01 05", BER, 50, FAULT(10, 0)},
    {"0a 01 ff", DER, 50, OK(1, 3)},
    {"0a 09 01 00 00 00 00 00 00 00 00", DER, 50, OK(1, 11)},
    /* 8.5.9: minus zero, and no special value */
    {"09 01 43", DER, 50, OK(1, 3)},
    {"09 01 44", BER, 50, FAULT(83, 0)},
    /* 8.6.4.2: 44 bits, and their constructed form, which DER forbids (10.2). 8.6.2, 11.2.1: unused bits */
    {"03 07 04 0a 3b 5f 29 1c d0", DER, 50, OK(1, 9)},
    {"03 07 04 0a 3b 5f 29 1c d1", DER, 50, FAULT(71, 0)},
    {"03 02 08 00", BER, 50, FAULT(69, 0)},
    {"03 01 07", BER, 50, FAULT(70, 0)},
    {"03 00", BER, 50, FAULT(68, 0)},
    {"23 80 03 03 00 0a 3b 03 05 04 5f 29 1c d0 00 00", BER, 50, OK(3, 16)},
    {"23 07 03 05 04 5f 29 1c d0", DER, 50, FAULT(34, 0)},
    /* 8.8: NULL */
    {"05 00", DER, 50, OK(1, 2)},
    {"05 01 00", DER, 50, FAULT(72, 0)},
    {"05 01 00", BER, 50, FAULT(72, 0)},
    {"25 00", BER, 50, FAULT(10, 0)},
    /* 8.9.3: SEQUENCE {name "Smith", ok TRUE}, in each form of length */
    {"30 0a 16 05 53 6d 69 74 68 01 01 ff", DER, 50, OK(3, 12)},
    {"30 80 16 05 53 6d 69 74 68 01 01 ff 00 00", BER, 50, OK(3, 14)},
    {"30 81 0a 16 05 53 6d 69 74 68 01 01 ff", BER, 50, OK(3, 13)},
    {"30 81 0a 16 05 53 6d 69 74 68 01 01 ff", DER, 50, FAULT(33, 0)},
    {"30 80 16 05 53 6d 69 74 68 01 01 ff 00 00", DER, 50, FAULT(32, 0)},
    {"30 0a 16 05 53 6d 69 74 68 01 01 07", DER, 50, FAULT(65, 9)},
    {"10 00", DER, 50, FAULT(95, 0)},
    {"11 00", BER, 50, FAULT(96, 0)},
    /* 8.14: tagged types; the content of a constructed element of any class is elements (8.1.4) */
    {"43 05 4a 6f 6e 65 73", DER, 50, OK(1, 7)},
    {"a2 07 43 05 4a 6f 6e 65 73", DER, 50, OK(2, 9)},
    {"67 07 43 05 4a 6f 6e 65 73", DER, 50, OK(2, 9)},
    {"82 05 4a 6f 6e 65 73", DER, 50, OK(1, 7)},
    {"a0 03 02 02 05", DER, 50, FAULT(17, 2)},
    {"a0 03 01 01 07", DER, 50, FAULT(65, 2)},
    {"30 06 a0 80 05 00 00 00", BER, 50, OK(3, 8)},
    /* 8.17, 8.18, 8.24: always constructed */
    {"08 00", BER, 50, FAULT(98, 0)},
    {"0b 00", BER, 50, FAULT(97, 0)},
    {"1d 00", BER, 50, FAULT(99, 0)},
    /* 8.19.5 and 8.20.5: identifiers; 8.19.2: one arc at least, with its last octet, and no padding; so 8.20.2 */
    {"06 03 88 37 03", DER, 50, OK(1, 5)},
    {"0d 04 c2 7b 03 02", DER, 50, OK(1, 6)},
    {"06 00", DER, 50, FAULT(73, 0)},
    {"06 00", BER, 50, FAULT(73, 0)},
    {"0d 00", DER, 50, FAULT(73, 0)},
    {"0d 00", BER, 50, FAULT(73, 0)},
    {"06 01 ff", DER, 50, FAULT(74, 0)},
    {"06 01 ff", BER, 50, FAULT(74, 0)},
    {"06 03 55 04 83", DER, 50, FAULT(74, 0)},
    {"06 03 55 04 83", BER, 50, FAULT(74, 0)},
    {"06 01 80", DER, 50, FAULT(74, 0)},
    {"06 01 80", BER, 50, FAULT(74, 0)},
    {"06 03 80 55 04", BER, 50, FAULT(75, 0)},
    /* 8.23: the VisibleString "Jones", and its constructed form */
    {"1a 05 4a 6f 6e 65 73", DER, 50, OK(1, 7)},
    {"3a 09 04 03 4a 6f 6e 04 02 65 73", BER, 50, OK(3, 11)},
    /* 8.25, 11.7, 11.8: times; no second 60 (X.680 47.3) */
    {"17 0d 39 31 30 35 30 36 32 33 34 35 34 30 5a", DER, 50, OK(1, 15)},
    {"17 0d 31 36 31 32 33 31 32 33 35 39 36 30 5a", DER, 50, FAULT(90, 0)},
    {"17 0b 39 31 30 35 30 36 32 33 34 35 5a", DER, 50, FAULT(92, 0)},
    {"17 0b 39 31 30 35 30 36 32 33 34 35 5a", BER, 50, OK(1, 13)},
    {"17 11 39 31 30 35 30 36 31 36 34 35 34 30 2d 30 37 30 30", DER, 50, FAULT(91, 0)},
    {"18 11 31 39 39 32 30 37 32 32 31 33 32 31 30 30 2e 30 5a", DER, 50, FAULT(94, 0)},
    {"18 11 31 39 39 32 30 37 32 32 31 33 32 31 30 30 2e 33 5a", DER, 50, OK(1, 19)},
    {"17 0d 39 31 31 33 30 36 32 33 34 35 34 30 5a", DER, 50, FAULT(90, 0)},
    /* 8.23: character sets. T61String has any octets */
    {"13 01 2a", DER, 50, FAULT(87, 0)},
    {"0c 02 c3 28", BER, 50, FAULT(86, 0)},
    {"1e 01 41", BER, 50, FAULT(89, 0)},
    {"1c 03 00 00 00", BER, 50, FAULT(88, 0)},
    {"14 01 e9", DER, 50, OK(1, 3)},
    /* 8.1.2.4: tag numbers from 31 on; a first octet of 80, and numbers above 2^32-1 */
    {"1f 1f 00", DER, 50, OK(1, 3)},
    {"9f 8f ff ff ff 7f 00", DER, 50, OK(1, 7)},
    {"9f 90 80 80 80 00 00", DER, 50, FAULT(5, 0)},
    /* 8.1.3.5 c: the length octet ff is reserved */
    {"04 ff", BER, 50, FAULT(4, 0)},
    /* 8.1.3.2: a primitive element has a definite length */
    {"04 80", BER, 50, FAULT(9, 0)},
    /* 8.1.5: end-of-contents octets are no element, and no other octets of that type are */
    {"00 00", BER, 50, FAULT(49, 0)},
    {"30 02 00 00", BER, 50, FAULT(49, 2)},
    {"30 80 00 81 00 00 00", BER, 50, FAULT(49, 2)},
    {"30 04 30 80 05 00", BER, 50, FAULT(48, 2)},
    {"30 04 30 80 02 00", BER, 50, FAULT(66, 4)}, /* 8.3.1: the INTEGER comes first */
    /* depth */
    {"30 04 30 02 05 00", DER, 3, OK(3, 6)},
    {"30 04 30 02 05 00", DER, 2, FAULT(3, 4)},
    {"a0 04 a0 02 05 00", DER, 2, FAULT(3, 4)},
    {"05 00", DER, 0, FAULT(3, 0)},
    /* 8.1.3: an item runs past its list, whatever follows */
    {"30 03 02 02 01 00 00", DER, 50, FAULT(17, 2)},
    /* cut short: two octets at least are an element, and end an indefinite length */
    {"", DER, 50, CUT(2)},
    {"", BER, 50, CUT(2)},
    {"30", DER, 50, CUT(1)},
    {"04 05 61 62", BER, 50, CUT(3)},
    {"04 05 61 62", DER, 50, CUT(3)},
    {"30 0a 02 01 05", DER, 50, CUT(7)},
    {"30 80", BER, 50, CUT(2)},
    {"30 82 01", DER, 50, CUT(1)},
    /* 8.1.3: no end limits a length, up to 2^64-1: all content octets are missing */
    {"02 88 ff ff ff ff ff ff ff f6", DER, 50, CUT(0xfffffffffffffff6)},
    {"02 88 ff ff ff ff ff ff ff f6", BER, 50, CUT(0xfffffffffffffff6)},
    {"02 88 ff ff ff ff ff ff ff f5", DER, 50, CUT(0xfffffffffffffff5)},
    {"02 88 ff ff ff ff ff ff ff f5", BER, 50, CUT(0xfffffffffffffff5)},
    {"02 88 ff ff ff ff ff ff ff ff", DER, 50, CUT(0xffffffffffffffff)},
    {"02 88 ff ff ff ff ff ff ff ff", BER, 50, CUT(0xffffffffffffffff)},
    {"30 88 ff ff ff ff ff ff ff f5", DER, 50, CUT(0xfffffffffffffff5)},
    {"30 88 ff ff ff ff ff ff ff f5", BER, 50, CUT(0xfffffffffffffff5)},
    /* 8.1.3.6: an outermost indefinite length says no more than its end marker, so not how long the inner list is */
    {"30 80 30 05", BER, 50, CUT(2)},
    /* what follows is left */
    {"05 00 05 00 ff", DER, 50, OK(1, 2)},
};

static int is_outcome(const struct row *row, const dm_outcome *o, int is_first) {
    dm_outcome want;
    memset(&want, 0, sizeof want);
    want.status = row->status;
    want.error = row->error;
    if (row->status == DM_OK) {
        want.elements = is_first ? 1 : row->first;
        want.length = row->second;
    }
    if (row->status == DM_ERROR) want.place = row->first;
    if (row->status == DM_INCOMPLETE) want.missing = row->first;
    return memcmp(&want, o, sizeof want) == 0;
}

static void test_rows(void) {
    for (size_t i = 0; i < sizeof rows / sizeof *rows; i++) {
        const struct row *row = &rows[i];
        uint8_t input[64];
        dm_element elements[8];
        dm_element element;
        dm_outcome listed, checked, first;
        size_t length = octets_of(row->hex, input);
        uint32_t status = row->rules == DER ? dm_parse_der(input, length, row->depth, elements, 8, &listed)
                                            : dm_parse_ber(input, length, row->depth, elements, 8, &listed);
        expect(status == row->status && is_outcome(row, &listed, 0), "dm_parse", row->hex);
        status = row->rules == DER ? dm_check_der(input, length, row->depth, &checked)
                                   : dm_check_ber(input, length, row->depth, &checked);
        expect(status == row->status && is_outcome(row, &checked, 0), "dm_check", row->hex);
        if (row->status == DM_OK) {
            status = row->rules == DER ? dm_first_der(input, length, &element, &first)
                                       : dm_first_ber(input, length, &element, &first);
            expect(status == DM_OK && is_outcome(row, &first, 1), "dm_first", row->hex);
            elements[0].inside = 0;
            expect(memcmp(&element, &elements[0], sizeof element) == 0, "dm_first's element", row->hex);
        }
    }
}

/* Of the first element alone: its header is wrong, or it is cut short, or its content isn't looked at. */
static const struct {
    struct row row;
    dm_element element; /* DM_OK */
} firsts[] = {
    {{"30 03 ff ff ff 07", DER, 0, OK(1, 5)}, {0, 2, 5, 0, 16, DM_UNIVERSAL, 1, 1, 0}},
    {{"30 81 03 ff ff ff", DER, 0, FAULT(33, 0)}, {0}},
    {{"30 81 03 ff ff ff", BER, 0, OK(1, 6)}, {0, 3, 6, 0, 16, DM_UNIVERSAL, 1, 1, 0}},
    {{"30 80 05 00 00 00 07", BER, 0, OK(1, 6)}, {0, 2, 4, 0, 16, DM_UNIVERSAL, 1, 0, 0}},
    {{"30 80 05 00 00 00", DER, 0, FAULT(32, 0)}, {0}},
    {{"bf 8f ff ff ff 7f 80 30 80 00 00 00 00 01", BER, 0, OK(1, 13)},
     {0, 7, 11, 0, 0xffffffff, DM_CONTEXT_SPECIFIC, 1, 0, 0}},
    {{"5f 1f 02 61 62 63", DER, 0, OK(1, 5)}, {0, 3, 5, 0, 31, DM_APPLICATION, 0, 1, 0}},
    {{"c3 00 00", BER, 0, OK(1, 2)}, {0, 2, 2, 0, 3, DM_PRIVATE, 0, 1, 0}},
    {{"04 03 00", DER, 0, CUT(2)}, {0}},
    {{"24 80 04 03 00", BER, 0, CUT(2)}, {0}},
};

static void test_firsts(void) {
    for (size_t i = 0; i < sizeof firsts / sizeof *firsts; i++) {
        const struct row *row = &firsts[i].row;
        uint8_t input[64];
        dm_element element, before;
        dm_outcome first;
        size_t length = octets_of(row->hex, input);
        memset(&element, 0xaa, sizeof element);
        before = element;
        uint32_t status = row->rules == DER ? dm_first_der(input, length, &element, &first)
                                            : dm_first_ber(input, length, &element, &first);
        expect(status == row->status && is_outcome(row, &first, 1), "dm_first", row->hex);
        expect(memcmp(&element, status == DM_OK ? &firsts[i].element : &before, sizeof element) == 0,
               "dm_first's element", row->hex);
    }
}

/* Elements as DER writes them: the examples of X.690 8.6.4.2, 8.9.3, 8.14.3 and 8.23 in BER and in DER, and the rules
 * of 8.3.2, 10 and 11. What has no DER is refused with its number and place, and cut input by what is missing. */
static const struct {
    const char *hex;
    const char *der; /* NULL: not written */
    uint32_t status, error;
    size_t place; /* or missing */
} writings[] = {
    {"", "", DM_OK, 0, 0},
    {"30 80 16 05 53 6d 69 74 68 01 01 ff 00 00", "30 0a 16 05 53 6d 69 74 68 01 01 ff", DM_OK, 0, 0},
    {"30 81 0a 16 05 53 6d 69 74 68 01 01 01", "30 0a 16 05 53 6d 69 74 68 01 01 ff", DM_OK, 0, 0},
    {"30 0a 16 05 53 6d 69 74 68 01 01 ff", "30 0a 16 05 53 6d 69 74 68 01 01 ff", DM_OK, 0, 0},
    {"a2 80 43 81 05 4a 6f 6e 65 73 00 00", "a2 07 43 05 4a 6f 6e 65 73", DM_OK, 0, 0},
    {"7f 81 00 84 00 00 00 02 05 00", "7f 81 00 02 05 00", DM_OK, 0, 0},
    {"23 80 03 03 00 0a 3b 03 05 04 5f 29 1c d0 00 00", "03 07 04 0a 3b 5f 29 1c d0", DM_OK, 0, 0},
    {"23 00", "03 01 00", DM_OK, 0, 0},
    {"24 0b 24 80 04 01 61 00 00 04 02 62 63", "04 03 61 62 63", DM_OK, 0, 0},
    {"3a 09 04 03 4a 6f 6e 04 02 65 73", "1a 05 4a 6f 6e 65 73", DM_OK, 0, 0},
    {"02 02 00 80 0a 81 01 7f", "02 02 00 80 0a 01 7f", DM_OK, 0, 0},
    {"09 81 03 80 00 01", "09 03 80 00 01", DM_OK, 0, 0},
    {"03 02 04 ff", "03 02 04 f0", DM_OK, 0, 0},
    {"05 00 05 00", "05 00 05 00", DM_OK, 0, 0},
    /* 11.8.2: a time without seconds. 11.8.1: without Z */
    {"30 80 05 00 17 0b 39 39 31 32 33 31 32 33 35 39 5a 00 00", NULL, DM_ERROR, 92, 4},
    {"a0 13 17 11 39 31 30 35 30 36 31 36 34 35 34 30 2d 30 37 30 30", NULL, DM_ERROR, 91, 2},
    /* 8.6.4, 8.7.3: parts of another type, and unused bits inside */
    {"24 80 02 01 05 00 00", NULL, DM_ERROR, 50, 2},
    {"24 03 84 01 61", NULL, DM_ERROR, 50, 2},
    {"23 08 03 02 01 80 03 02 00 80", NULL, DM_ERROR, 51, 6},
    /* 8.1.5: end-of-contents octets */
    {"30 02 00 00", NULL, DM_ERROR, 49, 2},
    {"00 00", NULL, DM_ERROR, 49, 0},
    {"30 06 30 80 02 01 05 07", NULL, DM_ERROR, 17, 7},
    {"30 05 30 80 02 01 05", NULL, DM_ERROR, 48, 2},
    {"30 04 30 80 05 00", NULL, DM_ERROR, 48, 2},
    {"30 04 30 80 02 00", NULL, DM_ERROR, 66, 4},
    /* The first fault, whatever follows: 8.4 as 8.3.1, no octets; 11.8.2, no seconds; 8.25, one octet of seconds */
    {"0a 00", NULL, DM_ERROR, 66, 0},
    {"0a 00 00", NULL, DM_ERROR, 66, 0},
    {"17 0b 30 34 30 33 30 38 30 33 31 36 5a", NULL, DM_ERROR, 92, 0},
    {"17 0b 30 34 30 33 30 38 30 33 31 36 5a 01 02 00 00", NULL, DM_ERROR, 92, 0},
    {"17 0b 30 34 30 33 30 38 30 33 31 36 33 35 5a", NULL, DM_ERROR, 90, 0},
    {"17 0b 30 34 30 33 30 38 30 33 31 36 33 35 5a 01 02 00 00", NULL, DM_ERROR, 90, 0},
    /* 8.19.2, 8.20.2 */
    {"06 00", NULL, DM_ERROR, 73, 0},
    {"0d 00", NULL, DM_ERROR, 73, 0},
    {"06 01 ff", NULL, DM_ERROR, 74, 0},
    {"06 03 55 04 83", NULL, DM_ERROR, 74, 0},
    {"06 01 80", NULL, DM_ERROR, 74, 0},
    /* 8.3.1, 8.1.2.4, 8.1.3.5, 8.23 and 8.1.3 */
    {"22 03 02 01 05", NULL, DM_ERROR, 10, 0},
    {"02 03 00 00 80", NULL, DM_ERROR, 67, 0},
    {"30 80 02 02 ff 80 00 00", NULL, DM_ERROR, 67, 2},
    {"30 80 05 01 00 00 00", NULL, DM_ERROR, 72, 2},
    {"30 80 28 80 00 00 08 01 00 00 00", NULL, DM_ERROR, 98, 6},
    {"05 00 9f 80 01 00", NULL, DM_ERROR, 5, 2},
    {"04 ff", NULL, DM_ERROR, 4, 0},
    {"30 04 0c 02 c3 28", NULL, DM_ERROR, 86, 2},
    {"30 03 02 02 05", NULL, DM_ERROR, 17, 2},
    /* cut short */
    {"30 80 05 00", NULL, DM_INCOMPLETE, 0, 2},
    {"04 05 61 62", NULL, DM_INCOMPLETE, 0, 3},
    {"02", NULL, DM_INCOMPLETE, 0, 1},
    /* 8.1.3.6: an outermost indefinite length says no more than its end marker */
    {"30 80 30 05", NULL, DM_INCOMPLETE, 0, 2},
    /* 8.1.3: all content octets, of lengths up to 2^64-1 */
    {"02 88 ff ff ff ff ff ff ff f6", NULL, DM_INCOMPLETE, 0, 0xfffffffffffffff6},
    {"02 88 ff ff ff ff ff ff ff f5", NULL, DM_INCOMPLETE, 0, 0xfffffffffffffff5},
    {"02 88 ff ff ff ff ff ff ff ff", NULL, DM_INCOMPLETE, 0, 0xffffffffffffffff},
    {"30 88 ff ff ff ff ff ff ff f5", NULL, DM_INCOMPLETE, 0, 0xfffffffffffffff5},
};

static void test_writings(void) {
    for (size_t i = 0; i < sizeof writings / sizeof *writings; i++) {
        uint8_t input[64], der[64];
        size_t length = octets_of(writings[i].hex, input);
        size_t size = writings[i].der == NULL ? 0 : octets_of(writings[i].der, der);
        for (size_t room = writings[i].der == NULL ? 40 : 0; room <= 42; room++) {
            uint8_t out[43];
            dm_outcome outcome, want;
            memset(out, '#', sizeof out);
            memset(&want, 0, sizeof want);
            want.status = writings[i].der != NULL && room < size ? DM_NO_ROOM : writings[i].status;
            want.error = writings[i].error;
            if (writings[i].der != NULL) want.length = size;
            if (want.status == DM_ERROR) want.place = writings[i].place;
            if (want.status == DM_INCOMPLETE) want.missing = writings[i].place;
            expect(dm_write_der(input, length, out, room, &outcome) == want.status
                       && memcmp(&outcome, &want, sizeof want) == 0,
                   "dm_write_der", writings[i].hex);
            if (want.status == DM_OK) expect(memcmp(out, der, size) == 0, "dm_write_der's octets", writings[i].hex);
            for (size_t j = want.status == DM_OK ? size : room; j < sizeof out; j++) {
                if (out[j] != '#') expect(0, "dm_write_der past its end", writings[i].hex);
            }
        }
    }
}

/* Elements that are 101 deep are written, and deeper ones are refused at the first that is too deep. */
static void test_deep_writings(void) {
    uint8_t input[4 * DM_MAX_DEPTH + 4], out[2 * sizeof input];
    dm_outcome outcome;
    for (size_t depth = DM_MAX_DEPTH; depth <= DM_MAX_DEPTH + 1; depth++) {
        memset(input, 0, sizeof input);
        for (size_t i = 0; i < depth; i++) memcpy(input + 2 * i, "\x30\x80", 2);
        uint32_t status = dm_write_der(input, 4 * depth, out, sizeof out, &outcome);
        if (depth == DM_MAX_DEPTH) {
            /* 64 levels have a header of two octets: 30 7e and what it holds have 128. Each other has three. */
            expect(status == DM_OK && outcome.length == 64 * 2 + 37 * 3, "dm_write_der", "101 deep");
            expect(memcmp(out, "\x30\x81\xec\x30\x81\xe9", 6) == 0, "dm_write_der's octets", "101 deep");
        } else {
            expect(status == DM_ERROR && outcome.error == 3 && outcome.place == 2 * DM_MAX_DEPTH, "dm_write_der",
                   "102 deep");
        }
    }
}

/* Lists one inside another, one more than DM_MAX_DEPTH: a greater depth is clamped, so the innermost is too deep. */
static void test_clamped_depth(void) {
    uint8_t input[4 * (DM_MAX_DEPTH + 1)];
    size_t levels = DM_MAX_DEPTH + 1, length = 4 * levels;
    dm_outcome outcome;
    for (size_t i = 0; i < levels; i++) {
        size_t inside = 4 * (levels - 1 - i);
        uint8_t header[4] = {0x30, 0x82, (uint8_t)(inside >> 8), (uint8_t)inside};
        memcpy(input + 4 * i, header, sizeof header);
    }
    for (size_t depth = DM_MAX_DEPTH; depth <= DM_MAX_DEPTH + 2; depth++) {
        expect(dm_check_ber(input, length, depth, &outcome) == DM_ERROR && outcome.error == 3, "dm_check_ber", "deep");
        expect(dm_check_ber(input + 4, length - 4, depth, &outcome) == DM_OK, "dm_check_ber", "as deep as may be");
    }
}

/* An element that is too deep, with a fault of its own: one of its header or length comes before the depth, and one of
 * its content octets after it. */
static void test_faults_that_are_too_deep(void) {
    static const struct {
        const char *octets;
        uint32_t error;
    } rows[] = {
        {"\x01\x81\x01", DM_ERROR_LENGTH_NOT_MINIMAL},
        {"\x02\x05\x00", DM_ERROR_OVERRUN},
        {"\x22\x01\x00", DM_ERROR_MAX_DEPTH},
        {"\x01\x01\x7f", DM_ERROR_MAX_DEPTH},
        {"\x01\x01\xff", DM_ERROR_MAX_DEPTH}};
    static const size_t depths[] = {1, 50, DM_MAX_DEPTH - 1, DM_MAX_DEPTH, DM_MAX_DEPTH + 1};
    uint8_t input[4 * DM_MAX_DEPTH + 3];
    dm_outcome outcome;
    for (size_t i = 0; i < sizeof depths / sizeof *depths; i++) {
        size_t levels = depths[i] < DM_MAX_DEPTH ? depths[i] : DM_MAX_DEPTH, length = 4 * levels + 3;
        for (size_t row = 0; row < sizeof rows / sizeof *rows; row++) {
            uint8_t *at = input + length - 3;
            memcpy(at, rows[row].octets, 3);
            for (size_t level = 0; level < levels; level++) {
                /* By DER the innermost ones have a header of two octets. */
                size_t inside = (size_t)(input + length - at);
                if (inside < 128) *--at = (uint8_t)inside;
                else if (inside < 256) *--at = (uint8_t)inside, *--at = 0x81;
                else *--at = (uint8_t)inside, *--at = (uint8_t)(inside >> 8), *--at = 0x82;
                *--at = 0x30;
            }
            size_t size = (size_t)(input + length - at);
            expect(dm_check_der(at, size, depths[i], &outcome) == DM_ERROR && outcome.error == rows[row].error
                       && outcome.place == size - 3,
                   "dm_check_der", "a fault that is too deep");
        }
    }
}

/* X.690 8.9.3 in BER, with each place; the buffer has room for two of three. */
static void test_places(void) {
    uint8_t input[64];
    size_t length = octets_of("30 80 16 81 05 53 6d 69 74 68 01 01 ff 00 00", input);
    dm_element want[3] = {
        {0, 2, 13, 2, 16, DM_UNIVERSAL, 1, 0, 0},
        {2, 5, 10, 0, 22, DM_UNIVERSAL, 0, 1, 0},
        {10, 12, 13, 0, 1, DM_UNIVERSAL, 0, 1, 0},
    };
    for (size_t room = 0; room <= 3; room++) {
        dm_element elements[3];
        dm_outcome outcome;
        memset(elements, 0xaa, sizeof elements);
        expect(dm_parse_ber(input, length, 50, elements, room, &outcome) == DM_OK, "dm_parse_ber", "8.9.3");
        expect(outcome.elements == 3 && outcome.length == 15, "the count", "8.9.3");
        expect(memcmp(elements, want, room * sizeof *want) == 0, "the places", "8.9.3");
        for (size_t i = room; i < 3; i++) expect(elements[i].header == (size_t)-1 / 255 * 0xaa, "no room", "8.9.3");
    }
}

/* Integers (8.3): the octets, then the results and the numbers; UINT32_MAX stands for no call. */
static const struct {
    const char *hex;
    uint32_t is_signed, is_unsigned;
    int64_t value;
} integers[] = {
    {"", 0, 0, 0},
    {"00", 0, 0, 0},
    {"7f", 0, 0, 127},
    {"00 80", 0, 0, 128},
    {"80", 0, 12, -128},
    {"ff 7f", 0, 12, -129},
    {"00 00 00 00 00 00 00 00 00 05", 0, 0, 5},
    {"7f ff ff ff ff ff ff ff", 0, 0, INT64_MAX},
    {"80 00 00 00 00 00 00 00", 0, 12, INT64_MIN},
    {"00 ff ff ff ff ff ff ff ff", 11, 0, -1},
    {"ff 7f ff ff ff ff ff ff ff", 11, 12, 0},
    {"01 00 00 00 00 00 00 00 00", 11, 11, 0},
};

static void test_integers(void) {
    for (size_t i = 0; i < sizeof integers / sizeof *integers; i++) {
        uint8_t content[16];
        size_t length = octets_of(integers[i].hex, content);
        int64_t number = 77;
        uint64_t natural = 77;
        uint32_t result = dm_read_i64(content, length, &number);
        expect(result == integers[i].is_signed && number == (result == 0 ? integers[i].value : 77), "dm_read_i64",
               integers[i].hex);
        result = dm_read_u64(content, length, &natural);
        expect(result == integers[i].is_unsigned && natural == (result == 0 ? (uint64_t)integers[i].value : 77),
               "dm_read_u64", integers[i].hex);
    }
}

/* Booleans (8.2): the octets, the result, the value. */
static void test_booleans(void) {
    static const struct {
        const char *hex;
        uint32_t result;
        uint8_t value;
    } booleans[] = {{"00", 0, 0}, {"ff", 0, 1}, {"01", 0, 1}, {"", 4, 7}, {"00 00", 4, 7}};
    for (size_t i = 0; i < sizeof booleans / sizeof *booleans; i++) {
        uint8_t content[4], value = 7;
        size_t length = octets_of(booleans[i].hex, content);
        expect(dm_read_bool(content, length, &value) == booleans[i].result && value == booleans[i].value,
               "dm_read_bool", booleans[i].hex);
    }
}

/* Identifiers: 8.19.5, RFC 5280 and RFC 3279; the greatest subidentifiers of nine octets and of 128 bits; X.667; two
   that are none. */
static const struct {
    const char *hex;
    const char *text;
} identifiers[] = {
    {"88 37 03", "2.999.3"},
    {"55 04 03", "2.5.4.3"},
    {"2a 86 48 86 f7 0d 01 01 0b", "1.2.840.113549.1.1.11"},
    {"2b 06 01 02 01 01 01 00", "1.3.6.1.2.1.1.1.0"},
    {"00", "0.0"},
    {"27", "0.39"},
    {"28", "1.0"},
    {"7f", "2.47"},
    {"80 01", "0.1"},
    {"2a ff ff ff ff ff ff ff ff 7f", "1.2.9223372036854775807"},
    {"2a 81 80 80 80 80 80 80 80 80 00", "1.2.9223372036854775808"},
    {"69 83 f0 9d a7 eb cf de e0 c7 a1 a7 b2 c0 94 8c c8 f9 d7 76", "2.25.329800735698586629295641978511506172918"},
    {"69 83 ff ff ff ff ff ff ff ff ff ff ff ff ff ff ff ff ff 7f", "2.25.340282366920938463463374607431768211455"},
    {"", ""},
    {"2a 86", NULL},
    {"69 84 80 80 80 80 80 80 80 80 80 80 80 80 80 80 80 80 80 00", NULL},
};

static void test_identifiers(void) {
    for (size_t i = 0; i < sizeof identifiers / sizeof *identifiers; i++) {
        uint8_t content[32];
        size_t length = octets_of(identifiers[i].hex, content);
        for (size_t room = 0; room <= 48; room++) {
            uint8_t text[49];
            size_t needed = 77;
            memset(text, '#', sizeof text);
            uint32_t result = dm_read_oid(content, length, text, room, &needed);
            size_t written = 0;
            if (identifiers[i].text == NULL) {
                expect(result == 2 && needed == 77, "dm_read_oid", identifiers[i].hex);
            } else {
                size_t size = strlen(identifiers[i].text);
                written = size < room ? size : room;
                expect(result == 0 && needed == size && memcmp(text, identifiers[i].text, written) == 0, "dm_read_oid",
                       identifiers[i].hex);
            }
            for (size_t j = written; j < sizeof text; j++) {
                if (text[j] != '#') expect(0, "dm_read_oid past its room", identifiers[i].hex);
            }
        }
    }
}

/* Texts (8.23): the type, the octets, the result. */
static void test_texts(void) {
    static const struct {
        uint32_t number;
        const char *hex;
        uint32_t result;
    } texts[] = {
        {12, "c3 a9", 0},  {12, "c3 28", 14}, {18, "31 20", 0}, {18, "41", 14},    {19, "41 2d", 0}, {19, "2a", 14},
        {22, "7f", 0},     {22, "80", 14},    {26, "7e", 0},    {26, "7f", 14},    {20, "41", 0},    {27, "ff", 14},
        {30, "00 41", 0},  {30, "41", 16},    {30, "d8 00", 14}, {30, "d8 00 dc 00", 0}, {28, "00", 1}, {2, "00", 1},
        {7, "", 0},        {0, "", 1},
    };
    for (size_t i = 0; i < sizeof texts / sizeof *texts; i++) {
        uint8_t content[16];
        size_t length = octets_of(texts[i].hex, content);
        expect(dm_check_text(texts[i].number, content, length) == texts[i].result, "dm_check_text", texts[i].hex);
    }
}

/* Times: the examples of X.690 11.7.5 and 11.8.4, RFC 5280 4.1.2.5.1's years, and zones. */
static void test_times(void) {
    static const struct {
        uint32_t number;
        const char *text;
        uint32_t result;
        dm_time time;
    } times[] = {
        {24, "19920521000000Z", 0, {1992, 0, 5, 21, 0, 0, 0, DM_UTC, 0, 0}},
        {24, "19920722132100.3Z", 0, {1992, 300000000, 7, 22, 13, 21, 0, DM_UTC, 0, 0}},
        {24, "19920520240000Z", 15, {0, 0, 0, 0, 0, 0, 0, 0, 0, 0}},
        {24, "198511062106", 0, {1985, 0, 11, 6, 21, 6, 0, DM_LOCAL, 0, 0}},
        {23, "920521000000Z", 0, {1992, 0, 5, 21, 0, 0, 0, DM_UTC, 0, 0}},
        {23, "491231235959Z", 0, {2049, 0, 12, 31, 23, 59, 59, DM_UTC, 0, 0}},
        {23, "500101000000Z", 0, {1950, 0, 1, 1, 0, 0, 0, DM_UTC, 0, 0}},
        {23, "9105061645-0700", 0, {1991, 0, 5, 6, 16, 45, 0, DM_OFFSET, -7, 0}},
        {23, "9105061645+0530", 0, {1991, 0, 5, 6, 16, 45, 0, DM_OFFSET, 5, 30}},
        {23, "9105061645", 15, {0, 0, 0, 0, 0, 0, 0, 0, 0, 0}},
        {24, "9105061645Z", 15, {0, 0, 0, 0, 0, 0, 0, 0, 0, 0}},
        {22, "920521000000Z", 15, {0, 0, 0, 0, 0, 0, 0, 0, 0, 0}},
    };
    for (size_t i = 0; i < sizeof times / sizeof *times; i++) {
        dm_time time;
        memset(&time, 0, sizeof time);
        expect(dm_read_time(times[i].number, (const uint8_t *)times[i].text, strlen(times[i].text), &time)
                       == times[i].result
                   && memcmp(&time, &times[i].time, sizeof time) == 0,
               "dm_read_time", times[i].text);
    }
}

static void expect_text(uint32_t error, const char *words) {
    uint8_t text[DM_TEXT_OCTETS];
    size_t size = dm_error_text(error, text, sizeof text);
    expect(size == strlen(words) && memcmp(text, words, size) == 0, "dm_error_text", words);
}

static void test_error_texts(void) {
    for (size_t i = 0; i < sizeof rows / sizeof *rows; i++) {
        uint8_t text[DM_TEXT_OCTETS], cut[4];
        size_t size = dm_error_text(rows[i].error, text, sizeof text);
        expect(size >= 8 && size < sizeof text && (size != 13 || memcmp(text, "unknown error", 13) != 0),
               "dm_error_text", rows[i].hex);
        expect(dm_error_text(rows[i].error, cut, 4) == size && memcmp(text, cut, 4) == 0, "dm_error_text cut",
               rows[i].hex);
    }
    for (size_t i = 0; i < sizeof writings / sizeof *writings; i++) {
        uint8_t text[DM_TEXT_OCTETS];
        size_t size = dm_error_text(writings[i].error, text, sizeof text);
        expect(size >= 8 && size < sizeof text && (size != 13 || memcmp(text, "unknown error", 13) != 0),
               "dm_error_text", writings[i].hex);
    }
    expect_text(35, "DER constraint failed: invalid boolean");
    expect_text(14, "invalid character in string");
    expect_text(66, "a number has no octets (X.690 8.3.1)");
}

/* NULL is taken with length 0, as an empty std::vector has it. */
static void test_none(void) {
    static const uint8_t digest_of_none[] = {0xe3, 0xb0, 0xc4, 0x42, 0x98, 0xfc, 0x1c, 0x14, 0x9a, 0xfb, 0xf4,
                                             0xc8, 0x99, 0x6f, 0xb9, 0x24, 0x27, 0xae, 0x41, 0xe4, 0x64, 0x9b,
                                             0x93, 0x4c, 0xa4, 0x95, 0x99, 0x1b, 0x78, 0x52, 0xb8, 0x55};
    dm_outcome outcome;
    dm_certificate certificate;
    dm_extension extension;
    dm_octets none = {NULL, 0}, item;
    dm_attribute attribute;
    dm_general_name name;
    dm_digest digest;
    dm_fault fault;
    uint64_t number = 7;
    size_t length = 7;
    expect(dm_check_der(NULL, 0, 9, &outcome) == DM_INCOMPLETE && outcome.missing > 0, "check", "NULL");
    expect(dm_parse_ber(NULL, 0, 9, NULL, 0, &outcome) == DM_INCOMPLETE, "parse", "NULL");
    expect(dm_write_der(NULL, 0, NULL, 0, &outcome) == DM_OK && outcome.length == 0, "write", "NULL");
    expect(dm_read_u64(NULL, 0, &number) == 0 && number == 0, "read_u64", "NULL");
    expect(dm_read_oid(NULL, 0, NULL, 0, &length) == 0 && length == 0, "read_oid", "NULL");
    expect(dm_oid_from_text(NULL, 0, NULL, 0, &length) == DM_ERROR_WRONG_VALUE && length == 0, "oid_from_text", "NULL");
    expect(dm_error_text(0, NULL, 0) == 8, "error_text", "NULL");
    expect(dm_read_certificate(NULL, 0, &certificate, &fault) == DM_INCOMPLETE && fault.needed == 1, "certificate",
           "NULL");
    expect(dm_name_text(NULL, 0, NULL, 0) == 0 && dm_name_utf8(NULL, 0, NULL, 0) == 0, "name_text", "NULL");
    expect(dm_next_extension(&none, &extension) == 0 && dm_next_relative_name(&none, &item) == 0, "lists", "NULL");
    expect(dm_next_attribute(&none, &attribute) == 0 && dm_next_general_name(&none, &name) == 0, "lists", "NULL");
    dm_sha256(NULL, 0, &digest);
    expect(memcmp(digest.octets, digest_of_none, sizeof digest_of_none) == 0, "sha256", "NULL");
    dm_writer writer = dm_writer_over(NULL, 0);
    dm_put_octets(&writer, NULL, 0);
    expect(dm_finish(&writer, &length) == DM_NO_ROOM && length == 2, "writer", "NULL");
}

int main(void) {
    test_none();
    test_rows();
    test_firsts();
    test_writings();
    test_deep_writings();
    test_clamped_depth();
    test_faults_that_are_too_deep();
    test_places();
    test_integers();
    test_booleans();
    test_identifiers();
    test_texts();
    test_times();
    test_error_texts();
    printf("rows: %d passed, %d failed\n", passed, failed);
    return failed != 0;
}
