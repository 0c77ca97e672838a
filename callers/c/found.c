/* What one call finds in a certificate: an extension, the subject's names, whether it is valid. With seconds since 1970
 * as arguments it also prints whether the certificate on standard input, in DER or PEM, is valid at each, and its DNS
 * names:  found [SECONDS..] */
#include "dumarewhi.h"

#include <stdio.h>
#include <stdlib.h>
#include <string.h>

static int failed;

static void expect(int is_so, const char *what) {
    if (is_so) return;
    failed++;
    printf("found: %s\n", what);
}

static int is(dm_octets octets, const void *wanted, size_t length) {
    return octets.length == length && (length == 0 || memcmp(octets.octets, wanted, length) == 0);
}

/* KeyUsage (RFC 5280 4.2.1.3), SubjectAltName (4.2.1.6) of an address, of an address and two DNS names, and of none. */
#define USAGE "\x30\x0b\x06\x03\x55\x1d\x0f\x04\x04\x03\x02\x07\x80"
#define NAMES "\x30\x16\x06\x03\x55\x1d\x11\x04\x0f\x30\x0d\x87\x04\xc0\x00\x02\x01\x82\x01" "a\x82\x02" "b."
#define EMPTY "\x30\x09\x06\x03\x55\x1d\x11\x04\x02\x30\x00"

/* Reads the names of a list of extensions, into `names` that aren't empty before. */
static uint32_t read(const char *octets, size_t length, dm_octets *names, dm_fault *fault) {
    dm_octets extensions = {(const uint8_t *)octets, length};
    *names = (dm_octets){(const uint8_t *)"x", 1};
    return dm_read_subject_alt_names(&extensions, names, fault);
}

#define READ(text) read(text, sizeof text - 1, &names, &fault)

static void test_names(void) {
    dm_octets names, name = {NULL, 0};
    dm_fault fault, of_value;
    expect(READ("") == DM_OK && names.length == 0, "no extensions");
    expect(READ(USAGE) == DM_OK && names.length == 0, "no SubjectAltName");
    expect(READ(NAMES USAGE) == DM_OK && is(names, &NAMES[11], 13), "the first extension");
    expect(READ(USAGE NAMES) == DM_OK && is(names, &NAMES[11], 13), "the second extension");
    expect(dm_next_dns_name(&names, &name) == 1 && is(name, "a", 1), "a DNS name behind an address");
    expect(dm_next_dns_name(&names, &name) == 1 && is(name, "b.", 2), "the next DNS name");
    expect(dm_next_dns_name(&names, &name) == 0 && is(name, "b.", 2) && names.length == 0, "no DNS name");
    names = (dm_octets){(const uint8_t *)&NAMES[11], 6};
    expect(dm_next_dns_name(&names, &name) == 0 && is(names, &NAMES[11], 6), "an address alone");
    expect(READ(NAMES USAGE NAMES) == DM_ERROR && fault.error == DM_ERROR_EXTENSION_REPEATED && is(names, "x", 1),
           "a repeated extension");
    expect(READ(EMPTY NAMES) == DM_ERROR && fault.error == DM_ERROR_EXTENSION_REPEATED, "an empty one before another");
    dm_read_general_names((const uint8_t *)&EMPTY[9], 2, &name, &of_value);
    expect(READ(USAGE EMPTY) == DM_ERROR && memcmp(&fault, &of_value, sizeof fault) == 0 && is(names, "x", 1),
           "no general names");
}

static void test_extensions(void) {
    const dm_octets list = {(const uint8_t *)USAGE NAMES EMPTY, sizeof USAGE NAMES EMPTY - 1};
    dm_extension found = {{NULL, 0}, {NULL, 0}, 7, 7};
    expect(dm_find_extension(&list, DM_BASIC_CONSTRAINTS, &found) == 0 && found.kind == 7, "an extension of no kind");
    expect(dm_find_extension(&list, DM_SUBJECT_ALT_NAME, &found) == 1 && is(found.value, &NAMES[9], 15), "the first");
    expect(dm_find_extension(&list, DM_KEY_USAGE, &found) == 1 && found.critical == 0 && is(found.value, &USAGE[9], 4),
           "a KeyUsage");
    expect(dm_find_extension(&list, DM_EXTENSION_OTHER, &found) == 0, "no unknown extension");
}

/* The first block of PEM, or what isn't PEM as it is; each capacity up to the one that suffices. */
static void test_decode(void) {
    static const char text[] = "a text\n-----BEGIN A-----\nAQI=\n-----END A-----\n-----BEGIN B-----\nAw==\n-----END B-----\n";
    static const char cut[] = "-----BEGIN A-----\nAQI=\n", wrong[] = "-----BEGIN A-----\nA!\n-----END A-----\n";
    uint8_t octets[2 * sizeof text];
    size_t size = 7, room = 0;
    expect(dm_decode_input((const uint8_t *)"\x30\x00", 2, octets, 1, &size) == DM_ERROR_PEM_NO_ROOM && size == 0,
           "DER that doesn't fit");
    expect(dm_decode_input((const uint8_t *)"\x30\x00", 2, octets, 2, &size) == 0 && size == 2
               && memcmp(octets, "\x30", 2) == 0,
           "DER");
    expect(dm_decode_input(NULL, 0, NULL, 0, &size) == 0 && size == 0, "nothing");
    while (dm_decode_input((const uint8_t *)text, sizeof text - 1, octets, room, &size) == DM_ERROR_PEM_NO_ROOM) {
        expect(size == 0 && room < sizeof octets, "PEM that doesn't fit");
        room++;
    }
    expect(size == 2 && memcmp(octets, "\1\2", 2) == 0, "PEM");
    expect(dm_decode_input((const uint8_t *)cut, sizeof cut - 1, octets, sizeof octets, &size) == DM_ERROR_PEM_NO_END,
           "PEM that is cut short");
    expect(dm_decode_input((const uint8_t *)wrong, sizeof wrong - 1, octets, sizeof octets, &size)
               == DM_ERROR_PEM_BASE64,
           "PEM of no base64");
}

/* Each identifier is the one of its text, and no other. */
static void test_identifiers(void) {
    static const uint8_t name[] = {0x55, 0x04, 0x03}, policy[] = {0x55, 0x1d, 0x20, 0x00}, cut[] = {0x55, 0x84};
    static const uint8_t mail[] = {0x2a, 0x86, 0x48, 0x86, 0xf7, 0x0d, 0x01, 0x09, 0x01};
    expect(dm_is_oid((dm_octets){name, sizeof name}, DM_OID_COMMON_NAME), "commonName");
    expect(!dm_is_oid((dm_octets){name, 2}, DM_OID_COMMON_NAME), "more arcs");
    expect(dm_is_oid((dm_octets){policy, sizeof policy}, DM_OID_ANY_POLICY), "anyPolicy");
    expect(dm_is_oid((dm_octets){mail, sizeof mail}, DM_OID_EMAIL_ADDRESS), "emailAddress");
    expect(!dm_is_oid((dm_octets){name, sizeof name}, DM_OID_SERIAL_NUMBER), "another arc");
    expect(!dm_is_oid((dm_octets){name, sizeof name}, "2.5.4.30"), "a longer arc");
    expect(!dm_is_oid((dm_octets){name, sizeof name}, "2.5.4"), "fewer arcs");
    expect(!dm_is_oid((dm_octets){name, sizeof name}, "") && dm_is_oid((dm_octets){NULL, 0}, ""), "no arcs");
    expect(!dm_is_oid((dm_octets){name, 1}, "1.5"), "another first arc");
    expect(!dm_is_oid((dm_octets){cut, sizeof cut}, "2.5.4"), "an unfinished arc");
    expect(!dm_is_oid((dm_octets){cut, sizeof cut}, ""), "no arcs of an unfinished one");
    uint8_t octets[65];
    char dotted[2 * sizeof octets + 3] = "0.10";
    memset(octets, 1, sizeof octets);
    octets[0] = 10;
    for (size_t i = 1; i < sizeof octets; i++) {
        dm_octets content = {octets, i};
        expect(dm_is_oid(content, dotted) == (strlen(dotted) <= 128), "a long identifier");
        size_t end = strlen(dotted);
        strcpy(&dotted[end], "1");
        expect(!dm_is_oid(content, dotted), "a long identifier with another arc");
        strcpy(&dotted[end], ".1");
    }
}

static void test_end(void) {
    for (size_t length = 0; length < 3; length++) {
        dm_cursor cursor = dm_cursor_over((const uint8_t *)"\x05\x00", length, DM_DER);
        expect(dm_is_empty(&cursor) == (length == 0), "octets are left");
    }
}

/* PEM where DER is read. */
static void test_text_of_pem(void) {
    static const char text[] = "-----BEGIN A-----\nAQI=\n-----END A-----\n";
    const char *wanted = dm_error_string(DM_ERROR_PEM_INPUT);
    uint8_t found[DM_TEXT_OCTETS], own[DM_TEXT_OCTETS];
    dm_certificate certificate;
    dm_fault fault, none = {0, 0, 0, 0, 0, 0, 0};
    for (size_t length = 0; length < sizeof text; length++) {
        expect(dm_read_certificate((const uint8_t *)text, length, &certificate, &fault) != DM_OK, "PEM is no DER");
        size_t size = dm_found_text(&fault, (const uint8_t *)text, length, found, sizeof found);
        int is_pem = size == strlen(wanted) && memcmp(found, wanted, size) == 0;
        expect(is_pem == (length >= strlen("-----BEGIN")), "the text of PEM");
    }
    size_t size = dm_found_text(&none, (const uint8_t *)text, sizeof text, found, sizeof found);
    expect(size == dm_fault_text(&none, own, sizeof own) && memcmp(found, own, size) == 0, "the text of no fault");
}

static int print(int count, char **seconds) {
    static uint8_t input[1 << 16], der[1 << 17];
    size_t length = fread(input, 1, sizeof input, stdin), size;
    dm_certificate it;
    dm_octets names, name;
    dm_fault fault;
    if (dm_decode_input(input, length, der, sizeof der, &size) != 0) return 2;
    if (dm_read_certificate(der, size, &it, &fault) != DM_OK) return 2;
    for (int i = 0; i < count; i++) printf("%u", (unsigned)dm_is_valid_at(&it, strtoull(seconds[i], NULL, 10)));
    printf("\n");
    if (dm_read_subject_alt_names(&it.extensions, &names, &fault) != DM_OK) return 3;
    while (dm_next_dns_name(&names, &name)) printf("%.*s\n", (int)name.length, (const char *)name.octets);
    return 0;
}

int main(int count, char **words) {
    test_names();
    test_extensions();
    test_decode();
    test_identifiers();
    test_end();
    test_text_of_pem();
    if (failed != 0) return 1;
    return count > 1 ? print(count - 1, &words[1]) : 0;
}
