/* Makes the calls of the library for C on a file, for tools/growth:  growth-calls FILE */
#include "dumarewhi.h"

#include <stdio.h>
#include <stdlib.h>

enum { MOST_OCTETS = 1 << 26, SPARE = 16 };

static uint8_t *input, *characters, *octets;
static size_t length;
static dm_fault fault;

static void read_name(dm_octets name) {
    dm_octets attributes;
    dm_attribute attribute;
    dm_name_text(name.octets, name.length, octets, MOST_OCTETS);
    while (dm_next_relative_name(&name, &attributes)) {
        while (dm_next_attribute(&attributes, &attribute)) {}
    }
}

static void read_general_names(dm_octets names) {
    dm_general_name name;
    while (dm_next_general_name(&names, &name)) {
        if (name.kind == DM_DIRECTORY_NAME) read_name(name.octets);
    }
}

/* Reads a value as all types that have a list: only the one that it is of takes long. */
static void read_value(dm_octets value) {
    dm_octets list, item;
    dm_policy policy;
    dm_policy_qualifier qualifier;
    dm_policy_mapping mapping;
    dm_distribution_point point;
    dm_name_constraints constraints;
    dm_subtree subtree;
    dm_access_description description;
    dm_request_attribute attribute;
    dm_qc_statement statement;
    uint32_t number;
    if (dm_read_general_names(value.octets, value.length, &list, &fault) == DM_OK) read_general_names(list);
    if (dm_read_extended_key_usage(value.octets, value.length, &list, &fault) == DM_OK) {
        while (dm_next_key_purpose(&list, &item)) {}
    }
    if (dm_read_certificate_policies(value.octets, value.length, &list, &fault) == DM_OK) {
        while (dm_next_policy(&list, &policy)) {
            while (dm_next_policy_qualifier(&policy.qualifiers, &qualifier)) {}
        }
    }
    if (dm_read_policy_mappings(value.octets, value.length, &list, &fault) == DM_OK) {
        while (dm_next_policy_mapping(&list, &mapping)) {}
    }
    if (dm_read_distribution_points(value.octets, value.length, &list, &fault) == DM_OK) {
        while (dm_next_distribution_point(&list, &point)) read_general_names(point.full_name);
    }
    if (dm_read_name_constraints(value.octets, value.length, &constraints, &fault) == DM_OK) {
        while (dm_next_subtree(&constraints.permitted, &subtree)) {}
    }
    if (dm_read_information_access(value.octets, value.length, &list, &fault) == DM_OK) {
        while (dm_next_access_description(&list, &description)) {}
    }
    if (dm_read_directory_attributes(value.octets, value.length, &list, &fault) == DM_OK) {
        while (dm_next_directory_attribute(&list, &attribute)) {}
    }
    if (dm_read_signed_certificate_timestamps(value.octets, value.length, &list, &fault) == DM_OK) {
        while (dm_next_timestamp(&list, &item)) {}
    }
    if (dm_read_tls_features(value.octets, value.length, &list, &fault) == DM_OK) {
        while (dm_next_tls_feature(&list, &number)) {}
    }
    if (dm_read_qc_statements(value.octets, value.length, &list, &fault) == DM_OK) {
        while (dm_next_qc_statement(&list, &statement)) {}
    }
}

static void read_extensions(dm_octets list) {
    dm_extension extension;
    dm_has_unknown_critical(list.octets, list.length);
    while (dm_next_extension(&list, &extension)) read_value(extension.value);
}

static void read_formats(void) {
    dm_certificate certificate;
    dm_certificate_list list;
    dm_revoked entry;
    dm_request request;
    dm_request_attribute attribute;
    dm_octets extensions;
    dm_read_strict_certificate(input, length, &certificate, &fault);
    if (dm_read_certificate(input, length, &certificate, &fault) == DM_OK) {
        read_name(certificate.subject);
        read_extensions(certificate.extensions);
    }
    if (dm_read_certificate_list(input, length, &list, &fault) == DM_OK) {
        while (dm_next_revoked(&list.revoked, &entry)) read_extensions(entry.extensions);
        read_extensions(list.extensions);
    }
    if (dm_read_request(input, length, &request, &fault) == DM_OK) {
        while (dm_next_request_attribute(&request.attributes, &attribute)) {
            dm_octets values = attribute.values;
            if (dm_read_extension_request(values.octets, values.length, &extensions, &fault) == DM_OK) {
                read_extensions(extensions);
            }
        }
    }
}

/* Reads octets as all keys. */
static void read_keys(void) {
    dm_private_key private_key;
    dm_rsa_private_key rsa_private_key;
    dm_ec_private_key ec_private_key;
    dm_encrypted_private_key encrypted;
    dm_public_key public_key;
    dm_rsa_public_key rsa_public_key;
    dm_read_private_key(input, length, &private_key, &fault);
    dm_read_rsa_private_key(input, length, &rsa_private_key, &fault);
    dm_read_ec_private_key(input, length, &ec_private_key, &fault);
    dm_read_encrypted_private_key(input, length, &encrypted, &fault);
    dm_read_public_key(input, length, &public_key, &fault);
    dm_read_rsa_public_key(input, length, &rsa_public_key, &fault);
}

/* Reads contents as those of all types. */
static void read_content(const uint8_t *content, size_t size) {
    int64_t i64;
    uint64_t u64;
    uint8_t byte;
    size_t needed;
    dm_time time;
    dm_read_i64(content, size, &i64);
    dm_read_u64(content, size, &u64);
    dm_read_bool(content, size, &byte);
    dm_read_oid(content, size, octets, MOST_OCTETS, &needed);
    dm_oid_from_text((const char *)content, size, octets, MOST_OCTETS, &needed);
    for (uint32_t number = 12; number <= 30; number++) {
        dm_check_text(number, content, size);
        dm_read_time(number, content, size, &time);
    }
}

static void read_elements(void) {
    dm_outcome outcome;
    dm_element *elements = NULL;
    dm_check_ber(input, length, DM_MAX_DEPTH, &outcome);
    if (dm_parse_der(input, length, DM_MAX_DEPTH, NULL, 0, &outcome) == DM_OK) {
        elements = malloc(outcome.elements * sizeof *elements);
        if (elements == NULL) exit(2);
        dm_parse_der(input, length, DM_MAX_DEPTH, elements, outcome.elements, &outcome);
        for (size_t i = 0; i < outcome.elements; i++) {
            const dm_element *it = &elements[i];
            if (!it->constructed) read_content(input + it->content, it->end - it->content);
        }
    }
    free(elements);
    dm_write_der(input, length, octets, MOST_OCTETS, &outcome);
}

/* Each block, and what follows the begin of one that doesn't end. */
static void read_blocks(void) {
    dm_octets text = {input, length};
    dm_pem block;
    size_t begin;
    while (dm_find_pem(text.octets, text.length, &begin)) {
        size_t left = text.length;
        dm_next_pem(&text, characters, MOST_OCTETS, octets, MOST_OCTETS, &block);
        if (text.length == left) {
            text.octets += begin + SPARE;
            text.length = begin + SPARE < left ? left - begin - SPARE : 0;
        }
    }
}

int main(int count, char **words) {
    FILE *file = count == 2 ? fopen(words[1], "rb") : NULL;
    input = malloc(MOST_OCTETS), characters = malloc(MOST_OCTETS), octets = malloc(MOST_OCTETS);
    if (!file || !input || !characters || !octets) return 2;
    length = fread(input, 1, MOST_OCTETS, file);
    read_elements();
    read_formats();
    read_keys();
    read_blocks();
    return 0;
}
