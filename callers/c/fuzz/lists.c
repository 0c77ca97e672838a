/* Lists of revoked certificates, and requests. */
#include "fuzz.h"

static void test_list(const uint8_t *input, size_t length) {
    dm_certificate_list list;
    dm_revoked entry;
    dm_fault fault;
    expect_fault(&fault, dm_read_certificate_list(input, length, &list, &fault), length);
    if (fault.status != DM_OK) return;
    expect_part(list.tbs, input, length);
    expect_name(list.issuer, input, length);
    expect_extensions(list.extensions, input, length);
    expect_bits(&list.signature_value, input, length);
    while (dm_next_revoked(&list.revoked, &entry)) {
        expect_part(entry.serial_number, input, length);
        expect_extensions(entry.extensions, input, length);
    }
    expect(list.revoked.length == 0 && (list.version == 1 || list.version == 2));
}

int LLVMFuzzerTestOneInput(const uint8_t *input, size_t length) {
    dm_request request;
    dm_request_attribute attribute;
    dm_octets extensions;
    dm_fault fault;
    test_list(input, length);
    expect_fault(&fault, dm_read_request(input, length, &request, &fault), length);
    if (fault.status != DM_OK) return 0;
    expect_part(request.info, input, length);
    expect_name(request.subject, input, length);
    expect_bits(&request.key, input, length);
    while (dm_next_request_attribute(&request.attributes, &attribute)) {
        dm_octets values = attribute.values;
        expect_part(values, input, length);
        uint32_t status = dm_read_extension_request(values.octets, values.length, &extensions, &fault);
        expect_fault(&fault, status, values.length);
        if (status == DM_OK) expect_extensions(extensions, input, length);
    }
    expect(request.attributes.length == 0);
    return 0;
}
