/* Damaged certificates, lists of revoked ones, requests, private keys and texts in PEM, for the sanitizers:
 * hostile_certificate FILE INPUTS
 *
 * Each input is a part of the file with octets changed, removed or cut, in a block of memory of its own size. Whatever
 * is read has to lie in the input, and lists have to end. */
#include "dumarewhi.h"

#include <stdio.h>
#include <stdlib.h>
#include <string.h>

static uint64_t state = 88172645463325252u;

/* A number below a bound, by xorshift: the same numbers in each run. */
static size_t below(size_t bound) {
    state ^= state << 13;
    state ^= state >> 7;
    state ^= state << 17;
    return bound == 0 ? 0 : (size_t)(state % bound);
}

static unsigned long failed, statuses[3], rules, others, extensions, values[3], items, keys, blocks, names, attributes;
static const uint8_t *begin, *end;

static void expect(int is_so, const char *what) {
    if (!is_so && failed++ < 10) printf("hostile_certificate: %s\n", what);
}

/* A part is empty or lies in the input. */
static void test_part(dm_octets part, const char *what) {
    expect(part.octets != NULL && (part.length == 0 || (part.octets >= begin && part.octets < end
                                                        && part.length <= (size_t)(end - part.octets))),
           what);
}

static void test_bits(const dm_bits *bits, int is_required) {
    test_part(bits->octets, "bits outside");
    expect(bits->is_present <= 1 && bits->unused <= 7 && (bits->is_present == 1 || !is_required), "bits");
    expect(bits->is_present == 1 || (bits->octets.length == 0 && bits->unused == 0), "absent bits");
}

static void test_algorithm(const dm_algorithm *algorithm) {
    test_part(algorithm->identifier, "an identifier outside");
    test_part(algorithm->parameters, "parameters outside");
    expect(algorithm->identifier.length > 0, "no identifier");
}

static void test_moment(const dm_moment *moment) {
    expect(moment->number == DM_UTC_TIME || moment->number == DM_GENERALIZED_TIME, "the type of a time");
    expect(moment->time.year <= 9999 && moment->time.month >= 1 && moment->time.month <= 12
               && moment->time.zone == DM_UTC,
           "a time");
}

/* The first octets of a text in a smaller buffer are those of the whole. */
static void test_text(dm_octets name) {
    uint8_t none = 0;
    size_t length = dm_name_text(name.octets, name.length, &none, 0), room = below(length + 2);
    uint8_t *whole = malloc(length + 1), *some = malloc(room + (room == 0));
    if (whole == NULL || some == NULL) exit(2);
    expect(dm_name_text(name.octets, name.length, whole, length) == length, "the length of a name's text");
    expect(dm_name_text(name.octets, name.length, some, room) == length, "it depends on the capacity");
    expect(memcmp(whole, some, room < length ? room : length) == 0, "the text of a name");
    for (size_t i = 0; i < length; i++) expect(whole[i] >= ' ' && whole[i] <= '~', "a character of a name");
    free(whole);
    free(some);
}

static void test_name(dm_octets name) {
    dm_octets relative_name;
    dm_attribute attribute;
    test_text(name);
    while (dm_next_relative_name(&name, &relative_name)) {
        test_part(relative_name, "a relative name outside");
        expect(relative_name.length > 0, "a relative name without attributes");
        while (dm_next_attribute(&relative_name, &attribute)) {
            attributes++;
            test_part(attribute.identifier, "an attribute's type outside");
            test_part(attribute.value, "an attribute's value outside");
            expect(attribute.tag_class <= 3 && attribute.constructed <= 1 && attribute.reserved == 0, "an attribute");
        }
        expect(relative_name.length == 0, "attributes are left");
    }
    expect(name.length == 0, "relative names are left");
}

static void test_fault(const dm_fault *fault, size_t length, int has_fields) {
    uint8_t text[DM_TEXT_OCTETS];
    expect(fault->status <= DM_INCOMPLETE && fault->offset <= length && fault->list_end <= length, "a fault");
    expect(fault->is_in_list <= 1 && (fault->is_in_list == 1 || fault->list_end == 0), "a list's end");
    expect((fault->status == DM_ERROR) == (fault->error != 0), "an error has a number");
    expect(fault->status == DM_OK || (fault->field != DM_FIELD_NONE) == has_fields, "a field");
    size_t size = dm_fault_text(fault, text, sizeof text);
    expect(size > 0 && size <= sizeof text, "the text of a fault");
}

static void test_general_name(const dm_general_name *name) {
    test_part(name->octets, "a name outside");
    test_part(name->identifier, "a name's type outside");
    expect(name->kind <= DM_REGISTERED_ID && name->reserved == 0, "a name");
}

static void test_any(const dm_any *any) {
    test_part(any->content, "an element outside");
    expect(any->tag_class <= 3 && any->constructed <= 1 && any->reserved == 0, "an element");
}

static void test_policies(dm_octets list) {
    dm_policy policy;
    dm_policy_qualifier qualifier;
    for (; dm_next_policy(&list, &policy); items++) {
        test_part(policy.identifier, "a policy outside");
        test_part(policy.qualifiers, "qualifiers outside");
        while (dm_next_policy_qualifier(&policy.qualifiers, &qualifier)) {
            test_part(qualifier.identifier, "a qualifier outside");
            test_any(&qualifier.value);
        }
        expect(policy.qualifiers.length == 0, "qualifiers are left");
    }
    expect(list.length == 0, "policies are left");
}

static void test_points(dm_octets list) {
    dm_distribution_point point;
    dm_general_name name;
    dm_attribute attribute;
    for (; dm_next_distribution_point(&list, &point); items++) {
        test_part(point.full_name, "a point's name outside");
        test_part(point.relative_name, "its relative name outside");
        test_part(point.crl_issuer, "its issuer outside");
        test_bits(&point.reasons, 0);
        expect(point.full_name.length == 0 || point.relative_name.length == 0, "two names of a point");
        while (dm_next_general_name(&point.full_name, &name)) test_general_name(&name);
        while (dm_next_attribute(&point.relative_name, &attribute)) test_part(attribute.value, "its value outside");
        while (dm_next_general_name(&point.crl_issuer, &name)) test_general_name(&name);
        expect(point.full_name.length == 0 && point.relative_name.length == 0 && point.crl_issuer.length == 0,
               "names of a point are left");
    }
    expect(list.length == 0, "points are left");
}

static void test_subtrees(dm_octets list) {
    dm_subtree subtree;
    for (; dm_next_subtree(&list, &subtree); items++) {
        test_general_name(&subtree.base);
        expect(subtree.has_maximum == 1 || (subtree.has_maximum == 0 && subtree.maximum == 0), "a maximum");
        expect(subtree.reserved == 0, "a subtree");
    }
    expect(list.length == 0, "subtrees are left");
}

static void test_access(dm_octets list) {
    dm_access_description description;
    for (; dm_next_access_description(&list, &description); items++) {
        test_part(description.method, "a method outside");
        test_general_name(&description.location);
    }
    expect(list.length == 0, "descriptions are left");
}

/* Reads octets as the value of each kind of extension that is a list, and as a reason. */
static void test_list_value(dm_octets value, dm_fault *fault) {
    dm_octets list;
    dm_name_constraints constraints;
    uint32_t reason = 99;
    const uint8_t *octets = value.octets;
    size_t length = value.length;
    if (dm_read_certificate_policies(octets, length, &list, &fault[0]) == DM_OK) test_policies(list);
    if (dm_read_distribution_points(octets, length, &list, &fault[1]) == DM_OK) test_points(list);
    if (dm_read_information_access(octets, length, &list, &fault[2]) == DM_OK) test_access(list);
    if (dm_read_name_constraints(octets, length, &constraints, &fault[3]) == DM_OK) {
        test_subtrees(constraints.permitted);
        test_subtrees(constraints.excluded);
    }
    uint32_t status = dm_read_reason(octets, length, &reason, &fault[4]);
    expect(status == DM_OK ? reason <= DM_REASON_AA_COMPROMISE && reason != 7 : reason == 99, "a reason");
}

/* Reads octets as the value of an extension about policies in a path or about a list of revoked certificates. */
static void test_value_of_list(dm_octets value, dm_fault *fault) {
    dm_octets list;
    dm_policy_mapping mapping;
    dm_policy_constraints constraints;
    dm_request_attribute attribute;
    dm_issuing_distribution_point point;
    dm_time date;
    uint32_t number = 99;
    const uint8_t *octets = value.octets;
    size_t length = value.length;
    if (dm_read_policy_mappings(octets, length, &list, &fault[0]) == DM_OK) {
        for (; dm_next_policy_mapping(&list, &mapping); items++) {
            test_part(mapping.issuer_policy, "an issuer's policy outside");
            test_part(mapping.subject_policy, "a subject's policy outside");
        }
        expect(list.length == 0, "mappings are left");
    }
    if (dm_read_policy_constraints(octets, length, &constraints, &fault[1]) == DM_OK) {
        expect(constraints.has_require_explicit_policy <= 1 && constraints.has_inhibit_policy_mapping <= 1, "numbers");
    }
    uint32_t status = dm_read_inhibit_any_policy(octets, length, &number, &fault[2]);
    expect(status == DM_OK || number == 99, "a number that isn't read is written");
    if (dm_read_directory_attributes(octets, length, &list, &fault[3]) == DM_OK) {
        for (; dm_next_directory_attribute(&list, &attribute); items++) {
            test_part(attribute.identifier, "an attribute outside");
            test_part(attribute.values, "its values outside");
            expect(attribute.values.length > 0, "an attribute without values");
        }
        expect(list.length == 0, "attributes are left");
    }
    if (dm_read_crl_number(octets, length, &list, &fault[4]) == DM_OK) {
        test_part(list, "the number of a list outside");
        expect(list.length > 0 && list.octets[0] < 0x80, "the number of a list");
    }
    if (dm_read_issuing_distribution_point(octets, length, &point, &fault[5]) == DM_OK) {
        test_part(point.full_name, "a point's name outside");
        test_part(point.relative_name, "its relative name outside");
        test_bits(&point.reasons, 0);
        expect(point.full_name.length == 0 || point.relative_name.length == 0, "two names of a point");
        expect(point.only_contains_user_certs <= 1 && point.only_contains_ca_certs <= 1 && point.indirect_crl <= 1
                   && point.only_contains_attribute_certs <= 1,
               "flags of a point");
    }
    if (dm_read_invalidity_date(octets, length, &date, &fault[6]) == DM_OK) {
        expect(date.year <= 9999 && date.month >= 1 && date.month <= 12 && date.zone == DM_UTC, "a date");
    }
}

/* Reads octets as the value of an extension of the web. */
static void test_value_of_web(dm_octets value, dm_fault *fault) {
    dm_octets list, timestamp;
    dm_qc_statement statement;
    dm_organization_identifier identifier;
    uint32_t number;
    const uint8_t *octets = value.octets;
    size_t length = value.length;
    if (dm_read_signed_certificate_timestamps(octets, length, &list, &fault[0]) == DM_OK) {
        for (; dm_next_timestamp(&list, &timestamp); items++) {
            test_part(timestamp, "a timestamp outside");
            expect(timestamp.length > 0, "a timestamp of no octets");
        }
        expect(list.length == 0, "timestamps are left");
    }
    if (dm_read_null_extension(octets, length, &fault[1]) == DM_OK) expect(length == 2, "a NULL");
    if (dm_read_tls_features(octets, length, &list, &fault[2]) == DM_OK) {
        while (dm_next_tls_feature(&list, &number)) items++;
        expect(list.length == 0, "features are left");
    }
    if (dm_read_qc_statements(octets, length, &list, &fault[3]) == DM_OK) {
        for (; dm_next_qc_statement(&list, &statement); items++) {
            test_part(statement.identifier, "a statement outside");
            test_any(&statement.info);
            expect(statement.has_info <= 1 && statement.reserved == 0, "a statement");
        }
        expect(list.length == 0, "statements are left");
    }
    if (dm_read_organization_identifier(octets, length, &identifier, &fault[4]) == DM_OK) {
        test_part(identifier.scheme, "a register outside");
        test_part(identifier.country, "a country outside");
        test_part(identifier.state_or_province, "a state outside");
        test_part(identifier.reference, "a reference outside");
        expect(identifier.scheme.length == 3 && identifier.country.length == 2, "a register");
        expect(identifier.state_or_province.length <= 128 && identifier.reserved == 0, "a state");
    }
}

/* Reads octets as the value of each kind of extension. */
static void test_value(dm_octets value) {
    dm_fault fault[23];
    dm_basic_constraints constraints;
    dm_authority_key_identifier authority;
    dm_octets list, identifier, part;
    dm_general_name name;
    uint32_t usage = 0;
    const uint8_t *octets = value.octets;
    size_t length = value.length;
    if (dm_read_basic_constraints(octets, length, &constraints, &fault[0]) == DM_OK) {
        expect(constraints.ca <= 1 && constraints.has_path_length <= 1, "constraints");
    }
    if (dm_read_key_usage(octets, length, &usage, &fault[1]) == DM_OK) expect(usage > 0 && usage < 512, "a usage");
    if (dm_read_general_names(octets, length, &list, &fault[2]) == DM_OK) {
        while (dm_next_general_name(&list, &name)) {
            names++;
            test_general_name(&name);
        }
        expect(list.length == 0, "names are left");
    }
    if (dm_read_extended_key_usage(octets, length, &list, &fault[3]) == DM_OK) {
        while (dm_next_key_purpose(&list, &part)) test_part(part, "a purpose outside");
        expect(list.length == 0, "purposes are left");
    }
    if (dm_read_subject_key_identifier(octets, length, &identifier, &fault[4]) == DM_OK) {
        test_part(identifier, "an identifier outside");
    }
    if (dm_read_authority_key_identifier(octets, length, &authority, &fault[5]) == DM_OK) {
        test_part(authority.key_identifier, "a key identifier outside");
        test_part(authority.issuer, "an issuer outside");
        test_part(authority.serial_number, "a serial number outside");
    }
    test_list_value(value, &fault[6]);
    test_value_of_list(value, &fault[11]);
    test_value_of_web(value, &fault[18]);
    for (size_t i = 0; i < sizeof fault / sizeof *fault; i++) {
        test_fault(&fault[i], length, 0);
        values[fault[i].status]++;
    }
}

/* One call finds the names of a subject that calls for each extension and each name find. */
static void test_found(const dm_octets list) {
    dm_octets left = list, names = {list.octets, 0}, wanted = {list.octets, 0}, text;
    dm_extension next, first, found;
    dm_general_name name;
    dm_fault fault, of_value;
    size_t count = 0, hosts = 0;
    memset(&first, 0xaa, sizeof first);
    memset(&found, 0xaa, sizeof found);
    while (dm_next_extension(&left, &next)) {
        if (next.kind == DM_SUBJECT_ALT_NAME && count++ == 0) first = next;
    }
    expect(dm_find_extension(&list, DM_SUBJECT_ALT_NAME, &found) == (count > 0), "whether there is an extension");
    expect(memcmp(&found, &first, sizeof first) == 0, "the first extension of a kind");
    uint32_t status = dm_read_subject_alt_names(&list, &names, &fault);
    expect(status == fault.status, "the status of names");
    if (count > 1) {
        expect(fault.error == DM_ERROR_EXTENSION_REPEATED && names.length == 0, "names of two extensions");
        return;
    }
    if (count == 1) {
        dm_read_general_names(first.value.octets, first.value.length, &wanted, &of_value);
        expect(memcmp(&fault, &of_value, sizeof fault) == 0, "the fault of names");
    }
    expect(count == 1 || status == DM_OK, "no names");
    expect(names.length == wanted.length && (count == 0 || names.octets == wanted.octets), "names");
    while (dm_next_general_name(&wanted, &name)) hosts += name.kind == DM_DNS_NAME;
    while (dm_next_dns_name(&names, &text)) {
        hosts--;
        test_part(text, "a DNS name outside");
    }
    expect(hosts == 0, "DNS names");
}

static void test_extensions(dm_octets list) {
    dm_extension extension;
    test_found(list);
    expect(dm_has_unknown_critical(list.octets, list.length) <= 1, "whether one isn't known");
    while (dm_next_extension(&list, &extension)) {
        extensions++;
        test_part(extension.identifier, "an extension's identifier outside");
        test_part(extension.value, "an extension's value outside");
        expect(extension.critical <= 1, "an extension");
        test_value(extension.value);
    }
    expect(list.length == 0, "extensions are left");
}

static void test_certificate(const dm_certificate *certificate) {
    test_part(certificate->tbs, "the signed octets outside");
    test_part(certificate->serial_number, "the serial number outside");
    test_algorithm(&certificate->signature);
    test_algorithm(&certificate->key_algorithm);
    test_algorithm(&certificate->signature_algorithm);
    test_bits(&certificate->key, 1);
    test_bits(&certificate->signature_value, 1);
    test_bits(&certificate->issuer_unique_id, 0);
    test_bits(&certificate->subject_unique_id, 0);
    test_moment(&certificate->not_before);
    test_moment(&certificate->not_after);
    expect(certificate->version >= 1 && certificate->version <= 3 && certificate->reserved == 0, "the version");
    test_name(certificate->issuer);
    test_name(certificate->subject);
    test_extensions(certificate->extensions);
}

/* Reads octets as a list of each kind, which needn't be one. */
static void test_lists(dm_octets octets) {
    dm_octets list = octets, item;
    dm_attribute attribute;
    dm_extension extension;
    dm_general_name name;
    dm_revoked entry;
    dm_request_attribute asked;
    dm_policy policy;
    dm_policy_qualifier qualifier;
    dm_distribution_point point;
    dm_subtree subtree;
    dm_access_description access;
    dm_policy_mapping mapping;
    dm_qc_statement statement;
    uint32_t number;
    while (dm_next_relative_name(&list, &item)) test_part(item, "an item outside");
    for (list = octets; dm_next_policy_mapping(&list, &mapping);) test_part(mapping.subject_policy, "an item outside");
    for (list = octets; dm_next_directory_attribute(&list, &asked);) test_part(asked.values, "an item outside");
    for (list = octets; dm_next_timestamp(&list, &item);) test_part(item, "an item outside");
    for (list = octets; dm_next_tls_feature(&list, &number);) test_part(list, "what follows an item outside");
    for (list = octets; dm_next_qc_statement(&list, &statement);) test_any(&statement.info);
    for (list = octets; dm_next_attribute(&list, &attribute);) test_part(attribute.value, "an item outside");
    for (list = octets; dm_next_extension(&list, &extension);) test_part(extension.value, "an item outside");
    for (list = octets; dm_next_general_name(&list, &name);) test_part(name.octets, "an item outside");
    for (list = octets; dm_next_key_purpose(&list, &item);) test_part(item, "an item outside");
    for (list = octets; dm_next_revoked(&list, &entry);) test_part(entry.serial_number, "an item outside");
    for (list = octets; dm_next_request_attribute(&list, &asked);) test_part(asked.values, "an item outside");
    for (list = octets; dm_next_policy(&list, &policy);) test_part(policy.qualifiers, "an item outside");
    for (list = octets; dm_next_policy_qualifier(&list, &qualifier);) test_any(&qualifier.value);
    for (list = octets; dm_next_distribution_point(&list, &point);) test_part(point.full_name, "an item outside");
    for (list = octets; dm_next_subtree(&list, &subtree);) test_general_name(&subtree.base);
    for (list = octets; dm_next_access_description(&list, &access);) test_general_name(&access.location);
    test_text(octets);
    test_value(octets);
}

/* Reads the input as a list of revoked certificates and as a request, if it is one. */
static void test_others(const uint8_t *input, size_t length) {
    dm_certificate_list list;
    dm_revoked entry;
    dm_request request;
    dm_request_attribute attribute;
    dm_fault fault;
    if (dm_read_certificate_list(input, length, &list, &fault) == DM_OK) {
        others++;
        test_part(list.tbs, "a list outside");
        test_name(list.issuer);
        test_extensions(list.extensions);
        test_algorithm(&list.signature);
        test_bits(&list.signature_value, 1);
        test_moment(&list.this_update);
        while (dm_next_revoked(&list.revoked, &entry)) {
            test_part(entry.serial_number, "an entry outside");
            test_extensions(entry.extensions);
            test_moment(&entry.date);
        }
        expect(list.revoked.length == 0, "entries are left");
    }
    test_fault(&fault, length, 1);
    if (dm_read_request(input, length, &request, &fault) == DM_OK) {
        others++;
        test_part(request.info, "a request outside");
        test_name(request.subject);
        test_algorithm(&request.key_algorithm);
        test_bits(&request.key, 1);
        while (dm_next_request_attribute(&request.attributes, &attribute)) {
            dm_octets asked;
            test_part(attribute.identifier, "an attribute outside");
            test_part(attribute.values, "its values outside");
            if (dm_read_extension_request(attribute.values.octets, attribute.values.length, &asked, &fault) == DM_OK) {
                test_extensions(asked);
            }
        }
        expect(request.attributes.length == 0, "attributes are left");
    }
}

/* Reads octets as a key of each other kind. */
static void test_other_keys(dm_octets octets) {
    dm_ec_private_key curve;
    dm_encrypted_private_key encrypted;
    dm_public_key key;
    dm_rsa_public_key rsa;
    dm_fault fault[4];
    if (dm_read_ec_private_key(octets.octets, octets.length, &curve, &fault[0]) == DM_OK) {
        keys++;
        test_part(curve.private_key, "the key of a curve outside");
        test_any(&curve.parameters);
        test_bits(&curve.public_key, 0);
        expect(curve.version == 1 && curve.has_parameters <= 1, "the version of the key of a curve");
    }
    if (dm_read_encrypted_private_key(octets.octets, octets.length, &encrypted, &fault[1]) == DM_OK) {
        keys++;
        test_part(encrypted.algorithm, "an algorithm outside");
        test_any(&encrypted.parameters);
        test_part(encrypted.encrypted_data, "encrypted octets outside");
        expect(encrypted.has_parameters <= 1 && encrypted.reserved == 0, "an encrypted key");
    }
    if (dm_read_public_key(octets.octets, octets.length, &key, &fault[2]) == DM_OK) {
        keys++;
        test_part(key.algorithm, "an algorithm outside");
        test_any(&key.parameters);
        test_bits(&key.public_key, 1);
        expect(key.has_parameters <= 1 && key.reserved == 0, "a public key");
    }
    if (dm_read_rsa_public_key(octets.octets, octets.length, &rsa, &fault[3]) == DM_OK) {
        keys++;
        test_part(rsa.modulus, "a modulus outside");
        test_part(rsa.public_exponent, "an exponent outside");
        expect(rsa.modulus.length > 0 && rsa.public_exponent.length > 0, "a number of no octets");
    }
    for (size_t i = 0; i < sizeof fault / sizeof *fault; i++) test_fault(&fault[i], octets.length, 1);
}

/* Reads octets as a key of each kind. */
static void test_keys(dm_octets octets) {
    dm_private_key key;
    dm_rsa_private_key rsa;
    dm_fault fault;
    if (dm_read_private_key(octets.octets, octets.length, &key, &fault) == DM_OK) {
        keys++;
        test_part(key.algorithm, "an algorithm outside");
        test_any(&key.parameters);
        test_part(key.private_key, "a private key outside");
        test_part(key.attributes, "attributes outside");
        test_bits(&key.public_key, 0);
        expect(key.version == key.public_key.is_present && key.reserved == 0, "the version of a key");
        expect(key.has_attributes <= 1 && (key.has_attributes == 1 || key.attributes.length == 0), "attributes");
        expect(key.has_parameters <= 1 && (key.has_parameters == 1 || key.parameters.number == 0), "parameters");
        test_keys(key.private_key);
    }
    test_fault(&fault, octets.length, 1);
    if (dm_read_rsa_private_key(octets.octets, octets.length, &rsa, &fault) == DM_OK) {
        keys++;
        const dm_octets numbers[] = {rsa.modulus, rsa.public_exponent, rsa.private_exponent, rsa.prime1,
                                     rsa.prime2,  rsa.exponent1,       rsa.exponent2,        rsa.coefficient};
        for (size_t i = 0; i < sizeof numbers / sizeof *numbers; i++) {
            test_part(numbers[i], "a number outside");
            expect(numbers[i].length > 0, "a number of no octets");
        }
        test_part(rsa.other_primes, "primes outside");
        expect(rsa.version == rsa.has_other_primes && rsa.version <= 1, "the version of a key of RSA");
    }
    test_fault(&fault, octets.length, 1);
    test_other_keys(octets);
}

/* Takes the blocks of a text, in buffers that suffice and in others. */
static void test_text_of_blocks(dm_octets text) {
    size_t room = text.length, offset = text.length, small = below(room + 1);
    uint8_t *characters = malloc(room + (room == 0)), *octets = malloc(room + (room == 0));
    if (characters == NULL || octets == NULL) exit(2);
    dm_pem block = {{NULL, 0}, 99};
    uint32_t error = 0, is_found = dm_find_pem(text.octets, text.length, &offset);
    expect(is_found <= 1 && (is_found == 1 ? offset + 11 <= text.length : offset == text.length), "where PEM begins");
    while (error == 0 || error >= DM_ERROR_PEM_ENCRYPTED) {
        dm_octets before = text, other = text;
        dm_pem by_less = block;
        error = dm_next_pem(&text, characters, room, octets, room, &block);
        expect(error != DM_ERROR_PEM_NO_ROOM, "room for a block");
        uint32_t less = dm_next_pem(&other, characters, small, octets, small, &by_less);
        expect(less == error || (less == DM_ERROR_PEM_NO_ROOM && error != DM_ERROR_PEM_ENCRYPTED), "in less room");
        expect(other.octets == text.octets && other.length == text.length, "the text after a block");
        if (error == 0 || error >= DM_ERROR_PEM_ENCRYPTED) {
            blocks++;
            test_part(text, "the text after a block outside");
            test_part(block.label, "a label outside");
            expect(text.length < before.length && block.length <= room, "a block");
            expect(error == 0 || block.length == 0, "octets of a block that isn't decoded");
        } else {
            expect(text.octets == before.octets && text.length == before.length, "a text without a block");
            is_found = dm_find_pem(text.octets, text.length, &offset);
            expect((error == DM_ERROR_PEM_NO_BLOCK) == (is_found == 0), "no block");
        }
    }
    expect(error >= DM_ERROR_PEM_NO_BLOCK && error <= DM_ERROR_PEM_LABELS_DIFFER, "the last error of a text");
    free(characters);
    free(octets);
}

/* The rules that a certificate breaks, one at least if `is_broken`. Other inputs have the fault of the reader. */
static void test_rules(const uint8_t *input, size_t length, const dm_fault *fault, int is_broken) {
    uint32_t broken[DM_MAX_BROKEN_RULES];
    size_t count = 1000;
    dm_fault own;
    uint32_t status = dm_broken_rules(input, length, broken, DM_MAX_BROKEN_RULES, &count, &own);
    expect(status == fault->status && memcmp(&own, fault, sizeof own) == 0, "the fault of rules");
    if (status != DM_OK) {
        expect(count == 1000, "rules of no certificate");
        return;
    }
    expect(count <= DM_MAX_BROKEN_RULES && (count > 0 || !is_broken), "how many rules are broken");
    for (size_t i = 0; i < count; i++)
        expect(dm_rule_kind(broken[i]) != DM_RULE_NONE && (i == 0 || broken[i] > broken[i - 1]), "a broken rule");
}

static void test_input(const uint8_t *input, size_t length) {
    dm_certificate certificate, strict, before;
    dm_fault fault, strict_fault;
    begin = input;
    end = input + length;
    memset(&certificate, 0xaa, sizeof certificate);
    memset(&before, 0xaa, sizeof before);
    uint32_t status = dm_read_certificate(input, length, &certificate, &fault);
    expect(status == fault.status && status <= 2, "the status");
    statuses[status]++;
    test_fault(&fault, length, 1);
    if (status == DM_OK) {
        test_certificate(&certificate);
    } else {
        expect(memcmp(&certificate, &before, sizeof before) == 0, "a certificate that isn't read is written");
    }
    uint32_t strictly = dm_read_strict_certificate(input, length, &strict, &strict_fault);
    if (status != DM_OK) {
        expect(strictly == status && memcmp(&fault, &strict_fault, sizeof fault) == 0, "the fault by all rules");
    } else if (strictly == DM_OK) {
        test_certificate(&strict);
    } else {
        rules++;
        expect(strict_fault.error >= DM_ERROR_ALGORITHMS_DIFFER && strict_fault.error <= DM_ERROR_VALUE_NOT_DER,
               "a rule");
        test_fault(&strict_fault, length, 1);
    }
    test_rules(input, length, &fault, strictly != DM_OK);
    test_others(input, length);
    dm_octets part = {input, length};
    test_keys(part);
    test_text_of_blocks(part);
    part.octets += below(length + 1);
    part.length = below((size_t)(end - part.octets) + 1);
    test_lists(part);
}

/* A part of the octets, or all, with up to three octets changed, in a block of its own size. */
static void damage(const uint8_t *octets, size_t length) {
    size_t from = below(8) == 0 ? below(length) : 0, to = below(4) == 0 ? from + below(length - from + 1) : length;
    uint8_t *input = malloc(to - from + (to == from));
    if (input == NULL) exit(2);
    memcpy(input, octets + from, to - from);
    for (size_t changes = below(4); changes > 0 && to > from; changes--) {
        size_t at = below(to - from);
        input[at] = below(2) == 0 ? (uint8_t)below(256) : (uint8_t)(input[at] ^ (1u << below(8)));
    }
    test_input(input, to - from);
    free(input);
}

int main(int count, char **words) {
    static uint8_t octets[1 << 16];
    FILE *file = count == 3 ? fopen(words[1], "rb") : NULL;
    if (file == NULL) return 2;
    size_t length = fread(octets, 1, sizeof octets, file);
    fclose(file);
    for (unsigned long i = strtoul(words[2], NULL, 10); i > 0; i--) damage(octets, length);
    printf("hostile_certificate: %lu read, %lu errors, %lu cut short, %lu break a rule, %lu of other types; ",
           statuses[0], statuses[1], statuses[2], rules, others);
    printf("%lu attributes, %lu extensions, %lu values, %lu errors of values, %lu names, %lu items; ", attributes,
           extensions, values[0], values[1] + values[2], names, items);
    printf("%lu keys, %lu blocks; %lu failed\n", keys, blocks, failed);
    return failed != 0;
}
