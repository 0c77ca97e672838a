/* Prints the fields of a certificate in DER on standard input as openssl prints them:
 *
 *     openssl x509 -noout -serial -subject -issuer -dates -fingerprint -sha256 -nameopt RFC2253 -dateopt iso_8601
 *         -ext basicConstraints,keyUsage,subjectKeyIdentifier,authorityKeyIdentifier,subjectAltName
 */
#include "dumarewhi.h"

#include <stdio.h>
#include <stdlib.h>
#include <string.h>

static uint8_t input[1 << 16];

static void print_hex(dm_octets octets, const char *between) {
    for (size_t i = 0; i < octets.length; i++) printf("%s%02X", i == 0 ? "" : between, octets.octets[i]);
}

/* The number of an INTEGER: the octet 00 before a first bit 1 isn't printed. */
static void print_serial(dm_octets number) {
    if (number.length > 1 && number.octets[0] == 0) {
        number.octets++;
        number.length--;
    }
    printf("serial=");
    print_hex(number, "");
    printf("\n");
}

static void print_name(const char *title, dm_octets name) {
    uint8_t none;
    size_t length = dm_name_text(name.octets, name.length, &none, 0);
    uint8_t *text = malloc(length + 1);
    if (text == NULL || dm_name_text(name.octets, name.length, text, length) != length) exit(2);
    printf("%s=%.*s\n", title, (int)length, (const char *)text);
    free(text);
}

static void print_moment(const char *title, const dm_moment *moment) {
    const dm_time *t = &moment->time;
    printf("%s=%04u-%02u-%02u %02u:%02u:%02uZ\n", title, (unsigned)t->year, t->month, t->day, t->hour, t->minute,
           t->second);
}

static void print_constraints(dm_octets value) {
    dm_basic_constraints constraints;
    dm_fault fault;
    if (dm_read_basic_constraints(value.octets, value.length, &constraints, &fault) != DM_OK) exit(3);
    printf(constraints.ca ? "CA:TRUE" : "CA:FALSE");
    if (constraints.has_path_length) printf(", pathlen:%u", (unsigned)constraints.path_length);
}

static void print_usage(dm_octets value) {
    static const char *const names[] = {"Digital Signature", "Non Repudiation",  "Key Encipherment",
                                        "Data Encipherment", "Key Agreement",    "Certificate Sign",
                                        "CRL Sign",          "Encipher Only",    "Decipher Only"};
    const char *before = "";
    uint32_t usage;
    dm_fault fault;
    if (dm_read_key_usage(value.octets, value.length, &usage, &fault) != DM_OK) exit(3);
    for (size_t i = 0; i < 9; i++) {
        if ((usage >> i & 1) == 0) continue;
        printf("%s%s", before, names[i]);
        before = ", ";
    }
}

static void print_subject_key(dm_octets value) {
    dm_octets identifier;
    dm_fault fault;
    if (dm_read_subject_key_identifier(value.octets, value.length, &identifier, &fault) != DM_OK) exit(3);
    print_hex(identifier, ":");
}

static void print_authority_key(dm_octets value) {
    dm_authority_key_identifier identifier;
    dm_fault fault;
    if (dm_read_authority_key_identifier(value.octets, value.length, &identifier, &fault) != DM_OK) exit(3);
    print_hex(identifier.key_identifier, ":");
    if (identifier.has_issuer) printf(" issuer");
}

static void print_names(dm_octets value) {
    static const char *const kinds[] = {"othername", "email", "DNS", "X400Name", "DirName", "EdiPartyName", "URI",
                                        "IP Address", "Registered ID"};
    dm_octets names;
    dm_general_name name;
    dm_fault fault;
    if (dm_read_general_names(value.octets, value.length, &names, &fault) != DM_OK) exit(3);
    for (const char *before = ""; dm_next_general_name(&names, &name); before = ", ") {
        const uint8_t *octets = name.octets.octets;
        printf("%s%s:", before, kinds[name.kind]);
        if (name.kind == DM_IP_ADDRESS && name.octets.length == 4) {
            printf("%d.%d.%d.%d", octets[0], octets[1], octets[2], octets[3]);
        } else {
            printf("%.*s", (int)name.octets.length, (const char *)octets);
        }
    }
}

static void print_extension(const char *title, const dm_extension *extension, void (*print)(dm_octets)) {
    printf("X509v3 %s: %s\n    ", title, extension->critical ? "critical" : "");
    print(extension->value);
    printf("\n");
}

int main(void) {
    dm_certificate certificate;
    dm_extension extension;
    dm_digest digest;
    dm_fault fault;
    size_t length = fread(input, 1, sizeof input, stdin);
    if (dm_read_certificate(input, length, &certificate, &fault) != DM_OK) {
        uint8_t text[DM_TEXT_OCTETS];
        printf("%.*s\n", (int)dm_fault_text(&fault, text, sizeof text), (const char *)text);
        return 1;
    }
    print_serial(certificate.serial_number);
    print_name("subject", certificate.subject);
    print_name("issuer", certificate.issuer);
    print_moment("notBefore", &certificate.not_before);
    print_moment("notAfter", &certificate.not_after);
    dm_sha256(input, length, &digest);
    dm_octets octets = {digest.octets, sizeof digest.octets};
    printf("sha256 Fingerprint=");
    print_hex(octets, ":");
    printf("\n");
    while (dm_next_extension(&certificate.extensions, &extension)) {
        switch (extension.kind) {
        case DM_BASIC_CONSTRAINTS: print_extension("Basic Constraints", &extension, print_constraints); break;
        case DM_KEY_USAGE: print_extension("Key Usage", &extension, print_usage); break;
        case DM_SUBJECT_KEY_IDENTIFIER:
            print_extension("Subject Key Identifier", &extension, print_subject_key);
            break;
        case DM_AUTHORITY_KEY_IDENTIFIER:
            print_extension("Authority Key Identifier", &extension, print_authority_key);
            break;
        case DM_SUBJECT_ALT_NAME: print_extension("Subject Alternative Name", &extension, print_names); break;
        default: break;
        }
    }
    return 0;
}
