/* Certificates, by the ASN.1 and by all rules, and names as text. */
#include "fuzz.h"

static void test_text(dm_octets name) {
    uint8_t text[64], again[64];
    size_t length = dm_name_text(name.octets, name.length, text, sizeof text), room = length < 8 ? length : 8;
    expect(dm_name_text(name.octets, name.length, again, room) == length && memcmp(text, again, room) == 0);
}

int LLVMFuzzerTestOneInput(const uint8_t *input, size_t length) {
    dm_certificate certificate, strict;
    dm_fault fault;
    uint32_t status = dm_read_certificate(input, length, &certificate, &fault);
    expect_fault(&fault, status, length);
    if (status == DM_OK) {
        expect_part(certificate.tbs, input, length);
        expect_part(certificate.serial_number, input, length);
        expect_part(certificate.signature.parameters, input, length);
        expect_bits(&certificate.key, input, length);
        expect_bits(&certificate.signature_value, input, length);
        expect_name(certificate.issuer, input, length);
        expect_name(certificate.subject, input, length);
        expect_extensions(certificate.extensions, input, length);
        test_text(certificate.issuer);
        expect(certificate.version >= 1 && certificate.version <= 3);
    }
    uint32_t strictly = dm_read_strict_certificate(input, length, &strict, &fault);
    expect_fault(&fault, strictly, length);
    expect(status == DM_OK ? strictly != DM_INCOMPLETE : strictly == status);
    dm_octets any = {input, length};
    test_text(any);
    return 0;
}
