/* Prints what each input of a file is as a certificate:  certificates FILE
 *
 * An input is the number of its octets, in four octets, the lowest first, and then its octets. For each there are two
 * lines: of dm_read_certificate and of dm_read_strict_certificate. */
#include "dumarewhi.h"

#include <inttypes.h>
#include <stdio.h>
#include <stdlib.h>

typedef uint32_t read_certificate(const uint8_t *, size_t, dm_certificate *, dm_fault *);

static void *room_for(size_t size) {
    void *room = malloc(size + 1);
    if (room == NULL) exit(2);
    return room;
}

static void print_octets(dm_octets part) {
    printf(part.length == 0 ? " -" : " ");
    for (size_t i = 0; i < part.length; i++) printf("%02x", part.octets[i]);
}

static void print_bits(dm_bits bits) {
    if (bits.is_present) printf(" %" PRIu32, bits.unused);
    print_octets(bits.octets);
}

static void print_algorithm(dm_algorithm algorithm) {
    print_octets(algorithm.identifier);
    print_octets(algorithm.parameters);
}

static void print_time(dm_time t) {
    printf(" %04" PRIu32 "-%02u-%02uT%02u:%02u:%02u", t.year, t.month, t.day, t.hour, t.minute, t.second);
    printf(".%06" PRIu32, t.nanosecond / 1000);
}

static void print_moment(dm_moment moment) { print_time(moment.time); }

static void print_fault(const dm_fault *fault, const uint8_t *input, size_t length) {
    uint8_t text[DM_TEXT_OCTETS];
    size_t size = dm_found_text(fault, input, length, text, sizeof text);
    printf(" fault %" PRIu32 " %zu %" PRIu32 " %zu (%.*s)", fault->field, fault->offset, fault->error, fault->needed,
           (int)size, (const char *)text);
}

static void print_attributes(dm_octets attributes) {
    dm_attribute it;
    printf(" {");
    while (dm_next_attribute(&attributes, &it)) {
        print_octets(it.identifier);
        printf(" %u.%" PRIu32 ".%u", it.tag_class, it.number, it.constructed);
        print_octets(it.value);
    }
    printf(" }");
}

static void print_name(dm_octets names) {
    uint8_t *text = room_for(16 * names.length);
    size_t length = dm_name_text(names.octets, names.length, text, 16 * names.length);
    dm_octets whole = {text, length}, attributes;
    print_octets(whole);
    while (dm_next_relative_name(&names, &attributes)) print_attributes(attributes);
    free(text);
}

static void print_general_name(const dm_general_name *it) {
    printf(" %" PRIu32, it->kind);
    if (it->kind == DM_OTHER_NAME) print_octets(it->identifier);
    if (it->kind == DM_DIRECTORY_NAME) print_name(it->octets);
    else print_octets(it->octets);
}

static void print_general_names(dm_octets names) {
    dm_general_name it;
    while (dm_next_general_name(&names, &it)) print_general_name(&it);
}

static void print_authority(const dm_authority_key_identifier *it) {
    printf(" key");
    if (it->has_key_identifier) print_octets(it->key_identifier);
    printf(" issuer");
    if (it->has_issuer) print_general_names(it->issuer);
    printf(" serial");
    if (it->has_serial_number) print_octets(it->serial_number);
}

static void print_any(const dm_any *it) {
    printf(" %u.%" PRIu32, it->tag_class, it->number);
    print_octets(it->content);
}

static void print_policies(dm_octets policies) {
    dm_policy it;
    dm_policy_qualifier qualifier;
    while (dm_next_policy(&policies, &it)) {
        printf(" policy");
        print_octets(it.identifier);
        while (dm_next_policy_qualifier(&it.qualifiers, &qualifier)) {
            printf(" qualifier");
            print_octets(qualifier.identifier);
            print_any(&qualifier.value);
        }
    }
}

static void print_points(dm_octets points) {
    dm_distribution_point it;
    while (dm_next_distribution_point(&points, &it)) {
        printf(" point");
        print_general_names(it.full_name);
        print_attributes(it.relative_name);
        print_bits(it.reasons);
        printf(" of");
        print_general_names(it.crl_issuer);
    }
}

static void print_subtrees(dm_octets subtrees) {
    dm_subtree it;
    while (dm_next_subtree(&subtrees, &it)) {
        print_general_name(&it.base);
        printf(" from %" PRIu32, it.minimum);
        if (it.has_maximum) printf(" to %" PRIu32, it.maximum);
    }
}

static void print_constraints(const dm_name_constraints *it) {
    printf(" permitted");
    print_subtrees(it->permitted);
    printf(" excluded");
    print_subtrees(it->excluded);
}

static void print_access(dm_octets descriptions) {
    dm_access_description it;
    while (dm_next_access_description(&descriptions, &it)) {
        printf(" access");
        print_octets(it.method);
        print_general_name(&it.location);
    }
}

static void print_mappings(dm_octets mappings) {
    dm_policy_mapping it;
    while (dm_next_policy_mapping(&mappings, &it)) {
        printf(" mapping");
        print_octets(it.issuer_policy);
        print_octets(it.subject_policy);
    }
}

static void print_path(const dm_policy_constraints *it) {
    printf(" constraints");
    if (it->has_require_explicit_policy) printf(" explicit %" PRIu32, it->require_explicit_policy);
    if (it->has_inhibit_policy_mapping) printf(" mapping %" PRIu32, it->inhibit_policy_mapping);
}

static void print_directory(dm_octets attributes) {
    dm_request_attribute it;
    while (dm_next_directory_attribute(&attributes, &it)) {
        printf(" attribute");
        print_octets(it.identifier);
        print_octets(it.values);
    }
}

static void print_issuing_point(const dm_issuing_distribution_point *it) {
    printf(" issuing");
    print_general_names(it->full_name);
    print_attributes(it->relative_name);
    print_bits(it->reasons);
    printf(" %" PRIu32 "%" PRIu32 "%" PRIu32 "%" PRIu32, it->only_contains_user_certs, it->only_contains_ca_certs,
           it->indirect_crl, it->only_contains_attribute_certs);
}

static void print_timestamps(dm_octets timestamps) {
    dm_octets it;
    while (dm_next_timestamp(&timestamps, &it)) {
        printf(" timestamp");
        print_octets(it);
    }
}

static void print_features(dm_octets features) {
    uint32_t number;
    printf(" features");
    while (dm_next_tls_feature(&features, &number)) printf(" %" PRIu32, number);
}

static void print_statements(dm_octets statements) {
    dm_qc_statement it;
    printf(" statements");
    while (dm_next_qc_statement(&statements, &it)) {
        print_octets(it.identifier);
        if (it.has_info) print_any(&it.info);
    }
}

static void print_organization(const dm_organization_identifier *it) {
    printf(" organization");
    print_octets(it->scheme);
    print_octets(it->country);
    if (it->has_state_or_province) printf(" of");
    if (it->has_state_or_province) print_octets(it->state_or_province);
    print_octets(it->reference);
}

/* Values of the further extensions. */
static void print_further_value(const dm_extension *extension) {
    const uint8_t *value = extension->value.octets;
    size_t length = extension->value.length;
    dm_fault fault = {0};
    dm_policy_constraints constraints;
    dm_issuing_distribution_point point;
    dm_organization_identifier organization;
    dm_octets part;
    dm_time date;
    uint32_t number;
    switch (extension->kind) {
    case DM_POLICY_MAPPINGS:
        if (dm_read_policy_mappings(value, length, &part, &fault) == DM_OK) print_mappings(part);
        break;
    case DM_POLICY_CONSTRAINTS:
        if (dm_read_policy_constraints(value, length, &constraints, &fault) == DM_OK) print_path(&constraints);
        break;
    case DM_INHIBIT_ANY_POLICY:
        if (dm_read_inhibit_any_policy(value, length, &number, &fault) == DM_OK) printf(" any %" PRIu32, number);
        break;
    case DM_SUBJECT_DIRECTORY_ATTRIBUTES:
        if (dm_read_directory_attributes(value, length, &part, &fault) == DM_OK) print_directory(part);
        break;
    case DM_CRL_NUMBER:
    case DM_DELTA_CRL_INDICATOR:
        if (dm_read_crl_number(value, length, &part, &fault) == DM_OK) print_octets(part);
        break;
    case DM_ISSUING_DISTRIBUTION_POINT:
        if (dm_read_issuing_distribution_point(value, length, &point, &fault) == DM_OK) print_issuing_point(&point);
        break;
    case DM_INVALIDITY_DATE:
        if (dm_read_invalidity_date(value, length, &date, &fault) == DM_OK) print_time(date);
        break;
    case DM_SIGNED_CERTIFICATE_TIMESTAMPS:
        if (dm_read_signed_certificate_timestamps(value, length, &part, &fault) == DM_OK) print_timestamps(part);
        break;
    case DM_TLS_FEATURES:
        if (dm_read_tls_features(value, length, &part, &fault) == DM_OK) print_features(part);
        break;
    case DM_QC_STATEMENTS:
        if (dm_read_qc_statements(value, length, &part, &fault) == DM_OK) print_statements(part);
        break;
    case DM_ORGANIZATION_IDENTIFIER:
        if (dm_read_organization_identifier(value, length, &organization, &fault) != DM_OK) break;
        print_organization(&organization);
        break;
    case DM_NO_REV_AVAIL:
    case DM_OCSP_NO_CHECK:
    case DM_PRECERTIFICATE_POISON:
        if (dm_read_null_extension(value, length, &fault) == DM_OK) printf(" null");
        break;
    default: print_octets(extension->value);
    }
    if (fault.status != DM_OK) print_fault(&fault, value, length);
}

static void print_value(const dm_extension *extension) {
    const uint8_t *value = extension->value.octets;
    size_t length = extension->value.length;
    dm_fault fault = {0};
    dm_basic_constraints constraints;
    dm_authority_key_identifier authority;
    dm_name_constraints names;
    dm_octets part, purpose;
    uint32_t number;
    switch (extension->kind) {
    case DM_BASIC_CONSTRAINTS:
        if (dm_read_basic_constraints(value, length, &constraints, &fault) != DM_OK) break;
        printf(" ca %" PRIu32, constraints.ca);
        if (constraints.has_path_length) printf(" %" PRIu32, constraints.path_length);
        break;
    case DM_KEY_USAGE:
        if (dm_read_key_usage(value, length, &number, &fault) == DM_OK) printf(" usage %" PRIu32, number);
        break;
    case DM_REASON_CODE:
        if (dm_read_reason(value, length, &number, &fault) == DM_OK) printf(" reason %" PRIu32, number);
        break;
    case DM_CERTIFICATE_POLICIES:
        if (dm_read_certificate_policies(value, length, &part, &fault) == DM_OK) print_policies(part);
        break;
    case DM_CRL_DISTRIBUTION_POINTS:
    case DM_FRESHEST_CRL:
        if (dm_read_distribution_points(value, length, &part, &fault) == DM_OK) print_points(part);
        break;
    case DM_NAME_CONSTRAINTS:
        if (dm_read_name_constraints(value, length, &names, &fault) == DM_OK) print_constraints(&names);
        break;
    case DM_AUTHORITY_INFO_ACCESS:
    case DM_SUBJECT_INFO_ACCESS:
        if (dm_read_information_access(value, length, &part, &fault) == DM_OK) print_access(part);
        break;
    case DM_SUBJECT_ALT_NAME:
    case DM_ISSUER_ALT_NAME:
    case DM_CERTIFICATE_ISSUER:
        if (dm_read_general_names(value, length, &part, &fault) == DM_OK) print_general_names(part);
        break;
    case DM_EXTENDED_KEY_USAGE:
        if (dm_read_extended_key_usage(value, length, &part, &fault) != DM_OK) break;
        while (dm_next_key_purpose(&part, &purpose)) print_octets(purpose);
        break;
    case DM_SUBJECT_KEY_IDENTIFIER:
        if (dm_read_subject_key_identifier(value, length, &part, &fault) == DM_OK) print_octets(part);
        break;
    case DM_AUTHORITY_KEY_IDENTIFIER:
        if (dm_read_authority_key_identifier(value, length, &authority, &fault) == DM_OK) print_authority(&authority);
        break;
    default: print_further_value(extension);
    }
    if (fault.status != DM_OK) print_fault(&fault, value, length);
}

static void print_certificate(const dm_certificate *it) {
    dm_octets extensions = it->extensions;
    dm_extension extension;
    printf(" version %" PRIu32, it->version);
    print_octets(it->tbs);
    print_octets(it->serial_number);
    print_algorithm(it->signature);
    print_name(it->issuer);
    print_moment(it->not_before);
    print_moment(it->not_after);
    print_name(it->subject);
    print_algorithm(it->key_algorithm);
    print_bits(it->key);
    print_bits(it->issuer_unique_id);
    print_bits(it->subject_unique_id);
    print_algorithm(it->signature_algorithm);
    print_bits(it->signature_value);
    while (dm_next_extension(&extensions, &extension)) {
        printf(" extension");
        print_octets(extension.identifier);
        printf(" %" PRIu32, extension.critical);
        print_value(&extension);
    }
    printf(" unknown %" PRIu32, dm_has_unknown_critical(it->extensions.octets, it->extensions.length));
}

static void print_line(read_certificate *read, const uint8_t *input, size_t length) {
    dm_certificate certificate;
    dm_fault fault;
    if (read(input, length, &certificate, &fault) == DM_OK) print_certificate(&certificate);
    else print_fault(&fault, input, length);
    putchar('\n');
}

/* A number of four octets. Returns whether there is one. */
static int read_number(FILE *file, size_t *number) {
    uint8_t octets[4];
    if (fread(octets, 1, 4, file) != 4) return 0;
    *number = (size_t)octets[0] | (size_t)octets[1] << 8 | (size_t)octets[2] << 16 | (size_t)octets[3] << 24;
    return 1;
}

int main(int count, char **words) {
    FILE *file = count == 2 ? fopen(words[1], "rb") : NULL;
    size_t length;
    if (file == NULL) return 2;
    while (read_number(file, &length)) {
        uint8_t *input = room_for(length);
        if (fread(input, 1, length, file) != length) return 2;
        print_line(dm_read_certificate, input, length);
        print_line(dm_read_strict_certificate, input, length);
        free(input);
    }
    return 0;
}
