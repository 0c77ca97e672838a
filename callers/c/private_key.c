/* Prints the fields of a private key in DER on standard input (RFC 5958 2), and those of RSA (RFC 8017 A.1.2) or of a
 * curve (RFC 5915 3): the algorithm, the tag of the parameters, and the numbers as `openssl asn1parse` prints them.
 * With the word `octets` it writes the octets of the key itself. With `curve` it prints those of a key of a curve in a
 * file of its own, with `public` those of a public key (RFC 5280 4.1.2.7, RFC 8017 A.1.1), and with `encrypted` those
 * of an encrypted private one (RFC 5958 3). */
#include "dumarewhi.h"

#include <stdio.h>
#include <string.h>

static uint8_t input[1 << 16];

static int print_fault(const dm_fault *fault) {
    uint8_t text[DM_TEXT_OCTETS];
    printf("%.*s\n", (int)dm_fault_text(fault, text, sizeof text), (const char *)text);
    return 1;
}

/* A number that isn't negative, without a first octet 00. */
static void print_number(dm_octets number) {
    if (number.length > 1 && number.octets[0] == 0) {
        number.octets++;
        number.length--;
    }
    for (size_t i = 0; i < number.length; i++) printf("%02X", number.octets[i]);
    printf("\n");
}

static int print_numbers(dm_octets octets) {
    dm_rsa_private_key key;
    dm_fault fault;
    if (dm_read_rsa_private_key(octets.octets, octets.length, &key, &fault) != DM_OK) return print_fault(&fault);
    printf("%02X\n", (unsigned)key.version);
    const dm_octets numbers[] = {key.modulus, key.public_exponent, key.private_exponent, key.prime1,
                                 key.prime2,  key.exponent1,       key.exponent2,        key.coefficient};
    for (size_t i = 0; i < sizeof numbers / sizeof *numbers; i++) print_number(numbers[i]);
    return 0;
}

static int print_octets(dm_octets octets) {
    for (size_t i = 0; i < octets.length; i++) printf("%02X", octets.octets[i]);
    printf("\n");
    return 0;
}

static int print_curve(dm_octets octets) {
    dm_ec_private_key key;
    dm_fault fault;
    if (dm_read_ec_private_key(octets.octets, octets.length, &key, &fault) != DM_OK) return print_fault(&fault);
    printf("%02X\n", (unsigned)key.version);
    print_octets(key.private_key);
    if (key.has_parameters) printf("parameters of tag %u\n", (unsigned)key.parameters.number);
    return key.public_key.is_present ? print_octets(key.public_key.octets) : 0;
}

static int print_algorithm(dm_octets algorithm, const dm_any *parameters, uint32_t has_parameters) {
    uint8_t text[128];
    size_t needed = 0;
    if (dm_read_oid(algorithm.octets, algorithm.length, text, sizeof text, &needed) != 0) return 2;
    printf("%.*s", (int)needed, (const char *)text);
    if (has_parameters) printf(", parameters of tag %u", (unsigned)parameters->number);
    printf("\n");
    return 0;
}

static int print_public(size_t length) {
    dm_public_key key;
    dm_rsa_public_key rsa;
    dm_fault fault;
    if (dm_read_public_key(input, length, &key, &fault) != DM_OK) return print_fault(&fault);
    if (print_algorithm(key.algorithm, &key.parameters, key.has_parameters) != 0) return 2;
    dm_octets octets = key.public_key.octets;
    if (!dm_is_oid(key.algorithm, DM_OID_RSA_ENCRYPTION)) return print_octets(octets);
    if (dm_read_rsa_public_key(octets.octets, octets.length, &rsa, &fault) != DM_OK) return print_fault(&fault);
    print_number(rsa.modulus);
    print_number(rsa.public_exponent);
    return 0;
}

static int print_encrypted(size_t length) {
    dm_encrypted_private_key key;
    dm_fault fault;
    if (dm_read_encrypted_private_key(input, length, &key, &fault) != DM_OK) return print_fault(&fault);
    if (print_algorithm(key.algorithm, &key.parameters, key.has_parameters) != 0) return 2;
    return print_octets(key.encrypted_data);
}

int main(int count, char **words) {
    dm_private_key key;
    dm_fault fault;
    size_t length = fread(input, 1, sizeof input, stdin);
    dm_octets whole = {input, length};
    if (count == 2 && strcmp(words[1], "curve") == 0) return print_curve(whole);
    if (count == 2 && strcmp(words[1], "public") == 0) return print_public(length);
    if (count == 2 && strcmp(words[1], "encrypted") == 0) return print_encrypted(length);
    if (dm_read_private_key(input, length, &key, &fault) != DM_OK) return print_fault(&fault);
    if (count == 2 && strcmp(words[1], "octets") == 0) {
        return fwrite(key.private_key.octets, 1, key.private_key.length, stdout) != key.private_key.length;
    }
    if (print_algorithm(key.algorithm, &key.parameters, key.has_parameters) != 0) return 2;
    if (dm_is_oid(key.algorithm, DM_OID_EC_PUBLIC_KEY)) return print_curve(key.private_key);
    return dm_is_oid(key.algorithm, DM_OID_RSA_ENCRYPTION) ? print_numbers(key.private_key) : 0;
}
