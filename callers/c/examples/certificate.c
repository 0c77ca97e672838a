/* Prints fields of the certificates in a file, in DER or PEM (RFC 5280, RFC 7468):  certificate [FILE] */
#include "dumarewhi.h"

#include <stdio.h>
#include <string.h>

enum { CAPACITY = 1 << 20 };

static uint8_t input[CAPACITY], characters[CAPACITY], octets[CAPACITY], text[CAPACITY];

/* An attacker may have chosen the text: what isn't printable ASCII is printed as \xNN. */
static void print_text(dm_octets it) {
    for (size_t i = 0; i < it.length; i++) {
        uint8_t octet = it.octets[i];
        if (octet >= 0x20 && octet < 0x7f && octet != '\\') putchar(octet);
        else printf("\\x%02x", octet);
    }
}

static void print_hex(dm_octets it) {
    for (size_t i = 0; i < it.length; i++) printf("%02x", it.octets[i]);
}

static void print_identifier(const char *title, dm_octets it) {
    size_t length;
    printf("%s: ", title);
    if (dm_read_oid(it.octets, it.length, text, sizeof text, &length) == 0 && length <= sizeof text) {
        print_text((dm_octets){text, length});
    } else {
        print_hex(it);
    }
}

/* The text of a name is printable ASCII (RFC 4514). */
static void print_name(const char *title, dm_octets name) {
    size_t length = dm_name_text(name.octets, name.length, text, sizeof text);
    int is_long = length > sizeof text;
    printf("%s: %.*s%s\n", title, (int)(is_long ? sizeof text : length), (const char *)text, is_long ? ".." : "");
}

static void print_moment(const char *title, const dm_moment *moment) {
    const dm_time *t = &moment->time;
    printf("%s: %04u-%02d-%02dT%02d:%02d:%02dZ\n", title, t->year, t->month, t->day, t->hour, t->minute, t->second);
}

static void print_key(const dm_certificate *it) {
    dm_key_kind kind;
    dm_key_type(&it->key_algorithm, &it->key, &kind);
    print_identifier("key", it->key_algorithm.identifier);
    if (kind.curve != DM_CURVE_OTHER) printf(", %s", dm_curve_string(kind.curve));
    if (kind.bits != 0) printf(", %u bits", (unsigned)kind.bits);
    printf("\n");
}

/* The DNS names in subjectAltName (RFC 5280 4.2.1.6). */
static void print_hosts(dm_octets extensions) {
    dm_octets names, name;
    dm_fault fault;
    if (dm_read_subject_alt_names(&extensions, &names, &fault) != DM_OK) return;
    while (dm_next_dns_name(&names, &name)) {
        printf("DNS: ");
        print_text(name);
        printf("\n");
    }
}

/* Returns 1 if the octets aren't a certificate. */
static int print_certificate(const uint8_t *der, size_t length) {
    dm_certificate it;
    dm_fault fault;
    if (dm_read_certificate(der, length, &it, &fault) != DM_OK) {
        size_t size = dm_found_text(&fault, der, length, text, sizeof text);
        fprintf(stderr, "%.*s\n", (int)size, (const char *)text);
        return 1;
    }
    printf("version: %u\nserial: ", it.version);
    print_hex(it.serial_number);
    print_identifier("\nsignature", it.signature_algorithm.identifier);
    printf("\n");
    print_name("issuer", it.issuer);
    print_moment("not before", &it.not_before);
    print_moment("not after", &it.not_after);
    print_name("subject", it.subject);
    print_key(&it);
    print_hosts(it.extensions);
    return 0;
}

/* Prints the blocks CERTIFICATE of a text. Returns 1 if one can't be read, or there is none. */
static int print_blocks(size_t length) {
    static const char label[] = "CERTIFICATE";
    dm_octets left = {input, length};
    dm_pem block;
    uint32_t error;
    int is_wrong = 0, found = 0;
    while ((error = dm_next_pem(&left, characters, length, octets, length, &block)) != DM_ERROR_PEM_NO_BLOCK) {
        if (error != 0) {
            fprintf(stderr, "%s\n", dm_error_string(error));
            if (error == DM_ERROR_PEM_NO_END || error == DM_ERROR_PEM_LABELS_DIFFER) return 1;
            is_wrong = 1;
        } else if (block.label.length == strlen(label) && memcmp(block.label.octets, label, strlen(label)) == 0) {
            is_wrong |= print_certificate(octets, block.length);
            found = 1;
        }
    }
    if (!found && !is_wrong) fprintf(stderr, "no block has the label CERTIFICATE\n");
    return is_wrong || !found;
}

int main(int count, char **words) {
    FILE *file = count > 1 ? fopen(words[1], "rb") : stdin;
    if (file == NULL) {
        perror(words[1]);
        return 2;
    }
    size_t length = fread(input, 1, sizeof input, file), offset;
    if (length == sizeof input) {
        fprintf(stderr, "the file has more than %zu octets\n", sizeof input - 1);
        return 2;
    }
    /* A certificate in DER may hold a block of PEM in a text, so DER is tried first. */
    dm_outcome outcome;
    if (dm_check_der(input, length, DM_MAX_DEPTH, &outcome) == DM_OK && outcome.length == length) {
        return print_certificate(input, length);
    }
    if (dm_find_pem(input, length, &offset)) return print_blocks(length);
    if (length > 0 && input[0] == 0x30) return print_certificate(input, length);
    fprintf(stderr, "neither DER nor PEM\n");
    return 1;
}
