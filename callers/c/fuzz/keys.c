/* Private keys, those of RSA and of curves, encrypted ones, and public keys. */
#include "fuzz.h"

static void test_rsa(const uint8_t *input, size_t length) {
    dm_rsa_private_key key;
    dm_fault fault;
    expect_fault(&fault, dm_read_rsa_private_key(input, length, &key, &fault), length);
    if (fault.status != DM_OK) return;
    expect(key.modulus.length > 0 && key.coefficient.length > 0);
    expect_part(key.modulus, input, length);
    expect_part(key.private_exponent, input, length);
    expect_part(key.coefficient, input, length);
    expect_part(key.other_primes, input, length);
    expect(key.version == key.has_other_primes);
}

static void test_others(const uint8_t *input, size_t length) {
    dm_ec_private_key curve;
    dm_encrypted_private_key encrypted;
    dm_public_key key;
    dm_rsa_public_key rsa;
    dm_fault fault;
    expect_fault(&fault, dm_read_ec_private_key(input, length, &curve, &fault), length);
    if (fault.status == DM_OK) {
        expect_part(curve.private_key, input, length);
        expect_any(&curve.parameters, input, length);
        expect_bits(&curve.public_key, input, length);
        expect(curve.version == 1 && curve.has_parameters <= 1);
    }
    expect_fault(&fault, dm_read_encrypted_private_key(input, length, &encrypted, &fault), length);
    if (fault.status == DM_OK) {
        expect_any(&encrypted.parameters, input, length);
        expect_part(encrypted.encrypted_data, input, length);
    }
    expect_fault(&fault, dm_read_public_key(input, length, &key, &fault), length);
    if (fault.status == DM_OK) {
        expect_any(&key.parameters, input, length);
        expect_bits(&key.public_key, input, length);
        expect(key.public_key.is_present == 1);
    }
    expect_fault(&fault, dm_read_rsa_public_key(input, length, &rsa, &fault), length);
    if (fault.status == DM_OK) {
        expect_part(rsa.modulus, input, length);
        expect_part(rsa.public_exponent, input, length);
    }
}

int LLVMFuzzerTestOneInput(const uint8_t *input, size_t length) {
    dm_private_key key;
    dm_fault fault;
    test_rsa(input, length);
    test_others(input, length);
    expect_fault(&fault, dm_read_private_key(input, length, &key, &fault), length);
    if (fault.status != DM_OK) return 0;
    expect_part(key.algorithm, input, length);
    expect_any(&key.parameters, input, length);
    expect_part(key.attributes, input, length);
    expect_bits(&key.public_key, input, length);
    expect(key.version == key.public_key.is_present && key.reserved == 0);
    test_rsa(key.private_key.octets, key.private_key.length);
    test_others(key.private_key.octets, key.private_key.length);
    return 0;
}
