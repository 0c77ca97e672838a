/* Values of extensions: each call reads the octets, and lists end. */
#include "fuzz.h"

static void test_simple(const uint8_t *input, size_t length) {
    dm_fault fault;
    dm_basic_constraints constraints;
    dm_authority_key_identifier authority;
    dm_octets octets;
    uint32_t number = 0;
    expect_fault(&fault, dm_read_basic_constraints(input, length, &constraints, &fault), length);
    expect_fault(&fault, dm_read_key_usage(input, length, &number, &fault), length);
    expect(fault.status != DM_OK || number < 512);
    expect_fault(&fault, dm_read_reason(input, length, &number, &fault), length);
    expect(fault.status != DM_OK || (number <= DM_REASON_AA_COMPROMISE && number != 7));
    expect_fault(&fault, dm_read_subject_key_identifier(input, length, &octets, &fault), length);
    if (fault.status == DM_OK) expect_part(octets, input, length);
    expect_fault(&fault, dm_read_authority_key_identifier(input, length, &authority, &fault), length);
    if (fault.status == DM_OK) expect_part(authority.issuer, input, length);
}

static void test_names(dm_octets list, const uint8_t *input, size_t length) {
    dm_general_name name;
    while (dm_next_general_name(&list, &name)) expect_general_name(&name, input, length);
    expect(list.length == 0);
}

static void test_policies(dm_octets list, const uint8_t *input, size_t length) {
    dm_policy policy;
    dm_policy_qualifier qualifier;
    while (dm_next_policy(&list, &policy)) {
        expect_part(policy.identifier, input, length);
        while (dm_next_policy_qualifier(&policy.qualifiers, &qualifier)) expect_any(&qualifier.value, input, length);
        expect(policy.qualifiers.length == 0);
    }
    expect(list.length == 0);
}

static void test_points(dm_octets list, const uint8_t *input, size_t length) {
    dm_distribution_point point;
    while (dm_next_distribution_point(&list, &point)) {
        test_names(point.full_name, input, length);
        test_names(point.crl_issuer, input, length);
        expect_part(point.relative_name, input, length);
        expect_bits(&point.reasons, input, length);
        expect(point.full_name.length == 0 || point.relative_name.length == 0);
    }
    expect(list.length == 0);
}

static void test_subtrees(dm_octets list, const uint8_t *input, size_t length) {
    dm_subtree subtree;
    while (dm_next_subtree(&list, &subtree)) expect_general_name(&subtree.base, input, length);
    expect(list.length == 0);
}

/* The extensions about policies in a path and about lists of revoked certificates. */
static void test_further(const uint8_t *input, size_t length) {
    dm_fault fault;
    dm_octets list;
    dm_policy_mapping mapping;
    dm_policy_constraints constraints;
    dm_request_attribute attribute;
    dm_issuing_distribution_point point;
    dm_time date;
    uint32_t number;
    expect_fault(&fault, dm_read_policy_mappings(input, length, &list, &fault), length);
    while (fault.status == DM_OK && dm_next_policy_mapping(&list, &mapping)) {
        expect_part(mapping.issuer_policy, input, length);
        expect_part(mapping.subject_policy, input, length);
    }
    expect(fault.status != DM_OK || list.length == 0);
    expect_fault(&fault, dm_read_policy_constraints(input, length, &constraints, &fault), length);
    expect(fault.status != DM_OK || constraints.has_require_explicit_policy <= 1);
    expect_fault(&fault, dm_read_inhibit_any_policy(input, length, &number, &fault), length);
    expect_fault(&fault, dm_read_directory_attributes(input, length, &list, &fault), length);
    while (fault.status == DM_OK && dm_next_directory_attribute(&list, &attribute)) {
        expect_part(attribute.values, input, length);
    }
    expect(fault.status != DM_OK || list.length == 0);
    expect_fault(&fault, dm_read_crl_number(input, length, &list, &fault), length);
    if (fault.status == DM_OK) expect_part(list, input, length);
    expect_fault(&fault, dm_read_issuing_distribution_point(input, length, &point, &fault), length);
    if (fault.status == DM_OK) {
        test_names(point.full_name, input, length);
        expect_part(point.relative_name, input, length);
        expect_bits(&point.reasons, input, length);
    }
    expect_fault(&fault, dm_read_invalidity_date(input, length, &date, &fault), length);
    expect(fault.status != DM_OK || (date.year <= 9999 && date.zone == DM_UTC));
}

/* Those of the web. */
static void test_web(const uint8_t *input, size_t length) {
    dm_fault fault;
    dm_octets list, timestamp;
    dm_qc_statement statement;
    dm_organization_identifier identifier;
    uint32_t number;
    expect_fault(&fault, dm_read_signed_certificate_timestamps(input, length, &list, &fault), length);
    while (fault.status == DM_OK && dm_next_timestamp(&list, &timestamp)) expect_part(timestamp, input, length);
    expect(fault.status != DM_OK || list.length == 0);
    expect_fault(&fault, dm_read_null_extension(input, length, &fault), length);
    expect_fault(&fault, dm_read_tls_features(input, length, &list, &fault), length);
    while (fault.status == DM_OK && dm_next_tls_feature(&list, &number)) expect_part(list, input, length);
    expect(fault.status != DM_OK || list.length == 0);
    expect_fault(&fault, dm_read_qc_statements(input, length, &list, &fault), length);
    while (fault.status == DM_OK && dm_next_qc_statement(&list, &statement)) {
        expect_part(statement.identifier, input, length);
        expect_any(&statement.info, input, length);
    }
    expect(fault.status != DM_OK || list.length == 0);
    expect_fault(&fault, dm_read_organization_identifier(input, length, &identifier, &fault), length);
    if (fault.status == DM_OK) {
        expect_part(identifier.reference, input, length);
        expect(identifier.scheme.length == 3 && identifier.country.length == 2);
    }
    expect(dm_has_unknown_critical(input, length) <= 1);
}

int LLVMFuzzerTestOneInput(const uint8_t *input, size_t length) {
    dm_fault fault;
    dm_octets list, item;
    dm_name_constraints constraints;
    dm_access_description description;
    test_simple(input, length);
    test_further(input, length);
    test_web(input, length);
    expect_fault(&fault, dm_read_general_names(input, length, &list, &fault), length);
    if (fault.status == DM_OK) test_names(list, input, length);
    expect_fault(&fault, dm_read_extended_key_usage(input, length, &list, &fault), length);
    while (fault.status == DM_OK && dm_next_key_purpose(&list, &item)) expect_part(item, input, length);
    expect_fault(&fault, dm_read_certificate_policies(input, length, &list, &fault), length);
    if (fault.status == DM_OK) test_policies(list, input, length);
    expect_fault(&fault, dm_read_distribution_points(input, length, &list, &fault), length);
    if (fault.status == DM_OK) test_points(list, input, length);
    expect_fault(&fault, dm_read_name_constraints(input, length, &constraints, &fault), length);
    if (fault.status == DM_OK) {
        test_subtrees(constraints.permitted, input, length);
        test_subtrees(constraints.excluded, input, length);
    }
    expect_fault(&fault, dm_read_information_access(input, length, &list, &fault), length);
    while (fault.status == DM_OK && dm_next_access_description(&list, &description)) {
        expect_general_name(&description.location, input, length);
    }
    return 0;
}
