/* Writes a certification request (RFC 2986) in DER to standard output, the part that is signed first:
 *
 *     openssl pkey -in private.pem -pubout -outform DER > key
 *     csr info key example.org > info
 *     openssl dgst -sha256 -sign private.pem info > signature
 *     csr request info signature > request
 *
 * The key is an EC key. */
#include "dumarewhi.h"

#include <stdio.h>
#include <string.h>

static uint8_t first[1 << 14], second[1 << 14], written[1 << 15];

static const uint64_t common_name[] = {2, 5, 4, 3};
static const uint64_t extension_request[] = {1, 2, 840, 113549, 1, 9, 14};
static const uint64_t subject_alt_name[] = {2, 5, 29, 17};
static const uint64_t ecdsa_with_sha256[] = {1, 2, 840, 10045, 4, 3, 2};

#define COUNT(array) (sizeof(array) / sizeof *(array))

static uint32_t put_text(dm_writer *w, uint32_t number, const char *text) {
    return dm_put_text(w, number, (const uint8_t *)text, strlen(text));
}

/* Name ::= SEQUENCE OF SET OF SEQUENCE { type OBJECT IDENTIFIER, value } */
static uint32_t put_name(dm_writer *w, const char *text) {
    dm_mark name = dm_open_sequence(w);
    dm_mark set = dm_open_set(w);
    dm_mark attribute = dm_open_sequence(w);
    dm_put_arcs(w, common_name, COUNT(common_name));
    uint32_t error = put_text(w, DM_UTF8_STRING, text);
    dm_close(w, attribute);
    dm_close(w, set);
    dm_close(w, name);
    return error;
}

/* Extensions ::= SEQUENCE OF SEQUENCE { extnID OBJECT IDENTIFIER, extnValue OCTET STRING } with one subjectAltName:
 * SEQUENCE OF GeneralName, with one dNSName [2] IMPLICIT IA5String */
static uint32_t put_extensions(dm_writer *w, const char *host) {
    dm_mark extensions = dm_open_sequence(w);
    dm_mark extension = dm_open_sequence(w);
    dm_put_arcs(w, subject_alt_name, COUNT(subject_alt_name));
    dm_mark value = dm_open_octet_string(w);
    dm_mark names = dm_open_sequence(w);
    dm_implicit(w, DM_CONTEXT_SPECIFIC, DM_DNS_NAME);
    uint32_t error = put_text(w, DM_IA5_STRING, host);
    dm_close(w, names);
    dm_close(w, value);
    dm_close(w, extension);
    dm_close(w, extensions);
    return error;
}

/* CertificationRequestInfo ::= SEQUENCE {
 *     version INTEGER { v1(0) }, subject Name, subjectPKInfo SubjectPublicKeyInfo,
 *     attributes [0] IMPLICIT SET OF SEQUENCE { type OBJECT IDENTIFIER, values SET } } */
static uint32_t put_info(dm_writer *w, const uint8_t *key, size_t length, const char *host) {
    dm_mark info = dm_open_sequence(w);
    dm_put_u64(w, 0);
    uint32_t error = put_name(w, host);
    dm_put_elements(w, key, length);
    dm_mark attributes = dm_open_tagged(w, 0);
    dm_mark attribute = dm_open_sequence(w);
    dm_put_arcs(w, extension_request, COUNT(extension_request));
    dm_mark values = dm_open_set(w);
    if (error == 0) error = put_extensions(w, host);
    dm_close(w, values);
    dm_close(w, attribute);
    dm_close(w, attributes);
    dm_close(w, info);
    return error;
}

/* CertificationRequest ::= SEQUENCE { certificationRequestInfo, signatureAlgorithm, signature BIT STRING } */
static void put_request(dm_writer *w, const uint8_t *info, size_t length, const uint8_t *signature, size_t size) {
    dm_mark request = dm_open_sequence(w);
    dm_put_elements(w, info, length);
    dm_mark algorithm = dm_open_sequence(w);
    dm_put_arcs(w, ecdsa_with_sha256, COUNT(ecdsa_with_sha256));
    dm_close(w, algorithm);
    dm_put_bits(w, 0, signature, size);
    dm_close(w, request);
}

/* Reads a file and returns the number of octets, or 0. */
static size_t read_file(const char *name, uint8_t *octets, size_t capacity) {
    FILE *file = fopen(name, "rb");
    if (file == NULL) return 0;
    size_t length = fread(octets, 1, capacity, file);
    fclose(file);
    return length;
}

int main(int count, char **words) {
    dm_writer w = dm_writer_over(written, sizeof written);
    uint32_t error = 0;
    size_t length = count == 4 ? read_file(words[2], first, sizeof first) : 0;
    int is_info = count == 4 && strcmp(words[1], "info") == 0;
    size_t size = count == 4 && !is_info ? read_file(words[3], second, sizeof second) : 0;
    if (length == 0 || (!is_info && size == 0)) {
        fprintf(stderr, "csr info KEY HOST, or csr request INFO SIGNATURE\n");
        return 2;
    }
    if (is_info) error = put_info(&w, first, length, words[3]);
    else put_request(&w, first, length, second, size);
    if (error != 0) {
        uint8_t text[64];
        fprintf(stderr, "no host: %.*s\n", (int)dm_error_text(error, text, sizeof text), (const char *)text);
        return 1;
    }
    if (dm_finish(&w, &length) != DM_OK) {
        fprintf(stderr, "%zu octets are too many\n", length);
        return 1;
    }
    return fwrite(written, 1, length, stdout) != length;
}
