/* Compares the texts of errors and fields in the header with those that the library has for their numbers. */
#include "dumarewhi.h"

#include <stdio.h>
#include <string.h>

static int passed, failed;

static void expect_text(uint32_t error) {
    uint8_t found[DM_TEXT_OCTETS];
    const char *text = dm_error_string(error);
    size_t size = dm_error_text(error, found, sizeof found);
    if (size == strlen(text) && memcmp(found, text, size) == 0) {
        passed++;
    } else {
        failed++;
        printf("errors: %u is %.*s, and not %s\n", (unsigned)error, (int)(size < sizeof found ? size : 0),
               (const char *)found, text);
    }
}

/* The text of a fault behind a name, in buffers of each capacity. */
static void expect_named(void) {
    static const uint8_t input[] = {0x30, 0x03, 0x02, 0x01, 0xff};
    static const char wanted[] = "request.serial at 2: integer negative", name[] = "request.serial";
    uint8_t found[sizeof wanted];
    dm_cursor whole = dm_cursor_over(input, sizeof input, DM_DER), fields;
    uint64_t number;
    dm_fault fault;
    int is_refused = dm_next_sequence(&whole, &fields, &fault) == DM_OK
                     && dm_next_u64(&fields, &number, &fault) == DM_ERROR;
    if (!is_refused) failed++;
    for (size_t room = 0; room < sizeof wanted; room++) {
        memset(found, 0, sizeof found);
        size_t size = dm_named_fault_text(&fault, (const uint8_t *)name, strlen(name), found, room);
        if (size == strlen(wanted) && memcmp(found, wanted, room) == 0 && found[room] == 0) {
            passed++;
        } else {
            failed++;
            printf("errors: in %zu octets %.*s\n", room, (int)room, (const char *)found);
        }
    }
}

static void expect_octets(const uint8_t *found, size_t size, const char *wanted) {
    if (size == strlen(wanted) && memcmp(found, wanted, size) == 0) {
        passed++;
    } else {
        failed++;
        printf("errors: %.*s, and not %s\n", (int)size, (const char *)found, wanted);
    }
}

/* A number without a field has no name. */
static void expect_fields(void) {
    for (uint32_t field = 0; field < 300; field++) {
        char wanted[DM_TEXT_OCTETS];
        uint8_t text[DM_TEXT_OCTETS];
        const char *name = dm_field_string(field);
        dm_fault fault = {0};
        fault.offset = 9;
        fault.status = DM_ERROR;
        fault.error = DM_ERROR_WRONG_VALUE;
        fault.field = field;
        snprintf(wanted, sizeof wanted, "%s%sat 9: wrong value", name, *name == 0 ? "" : " ");
        expect_octets(text, dm_fault_text(&fault, text, sizeof text), wanted);
    }
}

/* The tag that an element has in place of the expected one. The classes have tags with the same numbers. */
static void expect_found(void) {
    static const struct {
        uint8_t identifier;
        const char *text, *found;
    } tags[] = {
        {0x6a, "at 2: unexpected class", ", found [APPLICATION 10]"},
        {0xaa, "at 2: unexpected class", ", found [10]"},
        {0xea, "at 2: unexpected class", ", found [PRIVATE 10]"},
        {0x0a, "at 2: unexpected tag", ", found ENUMERATED"},
        {0x0f, "at 2: unexpected tag", ", found [UNIVERSAL 15]"},
        {0x22, "at 2: primitive encoding expected", ""},
    };
    uint8_t input[] = {0x30, 0x02, 0x00, 0x00}, text[DM_TEXT_OCTETS];
    for (size_t i = 0; i < sizeof tags / sizeof *tags; i++) {
        char wanted[DM_TEXT_OCTETS];
        dm_cursor whole = dm_cursor_over(input, sizeof input, DM_DER), fields;
        uint64_t number;
        dm_fault fault;
        input[2] = tags[i].identifier;
        dm_next_sequence(&whole, &fields, &fault);
        dm_next_u64(&fields, &number, &fault);
        snprintf(wanted, sizeof wanted, "%s%s", tags[i].text, tags[i].found);
        expect_octets(text, dm_found_text(&fault, input, sizeof input, text, sizeof text), wanted);
        /* In an input that ends before it there is no element. */
        expect_octets(text, dm_found_text(&fault, NULL, 0, text, sizeof text), tags[i].text);
        expect_octets(text, dm_found_text(&fault, input, 2, text, sizeof text), tags[i].text);
    }
}

static void expect_tags(void) {
    uint8_t text[DM_TEXT_OCTETS];
    expect_octets(text, dm_tag_text(DM_UNIVERSAL, DM_OCTET_STRING, text, sizeof text), "OCTET STRING");
    expect_octets(text, dm_tag_text(DM_UNIVERSAL, DM_BMP_STRING, text, sizeof text), "BMPString");
    expect_octets(text, dm_tag_text(DM_UNIVERSAL, 15, text, sizeof text), "[UNIVERSAL 15]");
    expect_octets(text, dm_tag_text(DM_APPLICATION, 10, text, sizeof text), "[APPLICATION 10]");
    expect_octets(text, dm_tag_text(DM_CONTEXT_SPECIFIC, UINT32_MAX, text, sizeof text), "[4294967295]");
    expect_octets(text, dm_tag_text(DM_PRIVATE, 2, text, sizeof text), "[PRIVATE 2]");
    expect_octets(text, dm_tag_text(200, 2, text, sizeof text), "[PRIVATE 2]");
    text[3] = 7;
    expect_octets(text, dm_tag_text(DM_UNIVERSAL, DM_SET, text, 3), "SET");
    if (text[3] != 7 || dm_tag_text(DM_UNIVERSAL, DM_SET, NULL, 0) != 3) failed++;
}

int main(void) {
    expect_named();
    expect_fields();
    expect_found();
    expect_tags();
    for (uint32_t error = 0; error < 1000; error++) expect_text(error);
    expect_text(UINT32_MAX);
    printf("errors: %d passed, %d failed\n", passed, failed);
    return failed != 0;
}
