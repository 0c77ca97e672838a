/* Reads public keys, and compares their types, curves and sizes with those of their rows:  keys keys.rows */
#include "dumarewhi.h"

#include <stdio.h>
#include <string.h>

static const char *const types[] = {"OTHER", "RSA", "RSA_PSS", "EC", "ED25519", "ED448", "X25519", "X448", "DSA", "DH"};

static char line[4096];
static uint8_t octets[2048];

/* As a key by itself, and as in a certificate. */
static int read_key(size_t length, dm_key_kind *kind) {
    dm_cursor whole = dm_cursor_over(octets, length, DM_DER), info, parts;
    dm_public_key key;
    dm_algorithm algorithm;
    dm_key_kind other;
    dm_bits bits;
    dm_fault fault;
    if (dm_read_public_key(octets, length, &key, &fault) != DM_OK) return 0;
    if (dm_next_sequence(&whole, &info, &fault) != DM_OK || dm_next_sequence(&info, &parts, &fault) != DM_OK) return 0;
    if (dm_next_oid(&parts, &algorithm.identifier, &fault) != DM_OK) return 0;
    algorithm.parameters = parts.left;
    return dm_next_bits(&info, &bits, &fault) == DM_OK && dm_public_key_type(&key, kind) == kind->key_type
           && dm_key_type(&algorithm, &bits, &other) == kind->key_type && memcmp(kind, &other, sizeof other) == 0;
}

int main(int count, char **words) {
    FILE *rows = count == 2 ? fopen(words[1], "r") : NULL;
    int passed = 0, failed = 0;
    if (rows == NULL) return 2;
    while (fgets(line, sizeof line, rows) != NULL) {
        char found[64];
        const char *digits = strrchr(line, ' ') + 1;
        dm_key_kind kind;
        size_t length = 0;
        unsigned octet;
        if (line[0] == '#') continue;
        for (; sscanf(digits, "%2x", &octet) == 1; digits += 2) octets[length++] = (uint8_t)octet;
        if (!read_key(length, &kind)) return printf("keys: %s isn't read\n", line), 1;
        const char *curve = kind.curve == DM_CURVE_OTHER ? "-" : dm_curve_string(kind.curve);
        sprintf(found, "%s %s %u ", types[kind.key_type], curve, (unsigned)kind.bits);
        if (strncmp(line, found, strlen(found)) == 0) passed++;
        else failed++, printf("keys: %.40s.. is %s\n", line, found);
    }
    fclose(rows);
    printf("keys: %d passed, %d failed\n", passed, failed);
    return passed == 0 || failed != 0;
}
