/* Reads the files of rows about certificates, and compares what they say with what the library returns:
 * certificate_rows FILE..
 *
 * A row has octets, a result and a remark, with bars between them. The calls that return it are in brackets above it:
 * strict_certificate, certification_request, those of a value of an extension, reasons, and `certificate of` octets (or
 * of those of a request, a list or a key), whose rows are changes of them. Rows of other calls are passed over.
 *
 * The rows of `text` and `list_text` have a rule each, in the order of their numbers. They stand before those of
 * `must`, `should`, `list_must` and `list_should`, which name the rules that are broken. */
#include "dumarewhi.h"

#include <stdio.h>
#include <stdlib.h>
#include <string.h>

static char line[1 << 14], calls[1 << 14], found[1 << 12];
static uint8_t octets[1 << 14];
static size_t compared, failed;

static int begins(const char *text, const char *prefix) { return strncmp(text, prefix, strlen(prefix)) == 0; }

/* Adds to the result. */
static void add(const char *text) { strncat(found, text, sizeof found - strlen(found) - 1); }

/* The octets in digits, with a space before each but the first of the result. */
static void add_octets(const char *title, dm_octets part) {
    char digits[4];
    add(title);
    for (size_t i = 0; i < part.length; i++) {
        sprintf(digits, found[0] == 0 ? "%02x" : " %02x", part.octets[i]);
        add(digits);
    }
}

static void add_text(const char *title, dm_octets part) {
    add(title);
    snprintf(found + strlen(found), sizeof found - strlen(found), "%.*s", (int)part.length, (const char *)part.octets);
}

static void add_fault(const dm_fault *fault) {
    uint8_t text[DM_TEXT_OCTETS];
    dm_octets whole = {text, dm_fault_text(fault, text, sizeof text)};
    add_text("", whole);
}

/* The octets of numbers of two digits, where 61*258 is one so many times, in a block of their own size, so that a tool
 * for memory sees each access past them. */
static uint8_t *octets_of(const char *text, size_t *length) {
    unsigned octet;
    *length = 0;
    for (; *text != 0 && *text != '|'; text++) {
        if (*text == ' ') continue;
        if (sscanf(text++, "%2x", &octet) != 1) continue;
        unsigned long count = 1;
        if (text[0] != 0 && text[1] == '*') {
            char *after;
            count = strtoul(text + 2, &after, 10);
            text = after - 1;
        }
        for (; count > 0 && *length < sizeof octets; count--) octets[(*length)++] = (uint8_t)octet;
    }
    uint8_t *block = malloc(*length + (*length == 0));
    if (block == NULL) exit(2);
    memcpy(block, octets, *length);
    return block;
}

static void read_strictly(const uint8_t *input, size_t length) {
    static const char *const rules[] = {
        "SameAlgorithms", "PositiveSerialNumber", "ShortSerialNumber", "NamedIssuer", "OrderedAttributes",
        "UtcTimeTo2049", "WholeSeconds", "UniqueIdVersion", "ExtensionsVersion", "DistinctExtensions", "NamedSubject",
        "DerValues"};
    dm_certificate certificate;
    dm_fault fault;
    if (dm_read_certificate(input, length, &certificate, &fault) != DM_OK) {
        add_fault(&fault);
        return;
    }
    add("read");
    if (dm_read_strict_certificate(input, length, &certificate, &fault) == DM_OK) return;
    add(" breaks ");
    if (fault.field == DM_FIELD_CERTIFICATE && fault.error - 128 < 12) add(rules[fault.error - 128]);
}

static void read_certificate(const uint8_t *input, size_t length) {
    dm_certificate certificate;
    dm_fault fault;
    if (dm_read_certificate(input, length, &certificate, &fault) != DM_OK) {
        add_fault(&fault);
        return;
    }
    add("read");
}

static void read_constraints(const uint8_t *value, size_t length) {
    dm_basic_constraints constraints;
    dm_fault fault;
    char path[24];
    if (dm_read_basic_constraints(value, length, &constraints, &fault) != DM_OK) {
        add_fault(&fault);
        return;
    }
    add(constraints.ca == 1 ? "ca true" : "ca false");
    sprintf(path, " path %u", (unsigned)constraints.path_length);
    if (constraints.has_path_length == 1) add(path);
}

static void read_usage(const uint8_t *value, size_t length) {
    static const char *const names[] = {
        "digital_signature", "content_commitment", "key_encipherment", "data_encipherment", "key_agreement",
        "key_cert_sign", "crl_sign", "encipher_only", "decipher_only"};
    uint32_t usage;
    dm_fault fault;
    if (dm_read_key_usage(value, length, &usage, &fault) != DM_OK) {
        add_fault(&fault);
        return;
    }
    for (size_t i = 0; i < 9; i++) {
        if ((usage >> i & 1) == 0) continue;
        if (found[0] != 0) add(" ");
        add(names[i]);
    }
}

static void read_names(const uint8_t *value, size_t length) {
    static const char *const kinds[] = {"otherName", "email", "DNS", "x400", "dirName", "edi", "URI", "IP", "RID"};
    dm_octets names;
    dm_general_name name;
    dm_fault fault;
    if (dm_read_general_names(value, length, &names, &fault) != DM_OK) {
        add_fault(&fault);
        return;
    }
    while (dm_next_general_name(&names, &name)) {
        if (found[0] != 0) add(" ");
        add_octets(kinds[name.kind], name.octets);
    }
}

/* How many items a list has. */
static void add_count(unsigned count) {
    sprintf(found, "%u values", count);
}

static void read_purposes(const uint8_t *value, size_t length) {
    dm_octets purposes, identifier;
    dm_fault fault;
    unsigned count = 0;
    if (dm_read_extended_key_usage(value, length, &purposes, &fault) != DM_OK) {
        add_fault(&fault);
        return;
    }
    while (dm_next_key_purpose(&purposes, &identifier)) count++;
    add_count(count);
}

static void read_subject_key(const uint8_t *value, size_t length) {
    dm_octets identifier;
    dm_fault fault;
    if (dm_read_subject_key_identifier(value, length, &identifier, &fault) != DM_OK) {
        add_fault(&fault);
        return;
    }
    add_octets("", identifier);
}

static void read_authority_key(const uint8_t *value, size_t length) {
    dm_authority_key_identifier identifier;
    dm_fault fault;
    if (dm_read_authority_key_identifier(value, length, &identifier, &fault) != DM_OK) {
        add_fault(&fault);
        return;
    }
    if (identifier.has_key_identifier == 1) add_octets("key", identifier.key_identifier);
    if (identifier.has_issuer == 1) add_octets(" issuer", identifier.issuer);
    if (identifier.has_serial_number == 1) add_octets(" serial", identifier.serial_number);
}

static void add_identifier(const char *title, dm_octets identifier) {
    uint8_t text[256];
    size_t needed = 0;
    if (found[0] != 0) add(" ");
    (void)dm_read_oid(identifier.octets, identifier.length, text, sizeof text, &needed);
    dm_octets whole = {text, needed};
    add_text(title, whole);
}

static void add_extensions(dm_octets values) {
    dm_octets extensions;
    dm_extension extension;
    dm_fault fault;
    if (dm_read_extension_request(values.octets, values.length, &extensions, &fault) != DM_OK) {
        add(" no extensions");
        return;
    }
    while (dm_next_extension(&extensions, &extension)) {
        add_identifier("extension ", extension.identifier);
        if (extension.critical == 1) add(" critical");
    }
}

static void read_request(const uint8_t *input, size_t length) {
    static const uint8_t extension_request[] = {0x2a, 0x86, 0x48, 0x86, 0xf7, 0x0d, 0x01, 0x09, 0x0e};
    dm_request request;
    dm_octets relative_name;
    dm_attribute attribute;
    dm_request_attribute asked;
    dm_fault fault;
    if (dm_read_request(input, length, &request, &fault) != DM_OK) {
        add_fault(&fault);
        return;
    }
    while (dm_next_relative_name(&request.subject, &relative_name)) {
        while (dm_next_attribute(&relative_name, &attribute)) {
            add_identifier("subject ", attribute.identifier);
            add_text("=", attribute.value);
        }
    }
    add_identifier("key ", request.key_algorithm.identifier);
    while (dm_next_request_attribute(&request.attributes, &asked)) {
        int is_asked = asked.identifier.length == sizeof extension_request
                       && memcmp(asked.identifier.octets, extension_request, sizeof extension_request) == 0;
        if (is_asked) add_extensions(asked.values);
    }
    add_identifier("signature ", request.signature_algorithm.identifier);
    add_octets("", request.signature.octets);
}

static void read_policies(const uint8_t *value, size_t length) {
    dm_octets policies;
    dm_policy policy;
    dm_fault fault;
    unsigned count = 0;
    if (dm_read_certificate_policies(value, length, &policies, &fault) != DM_OK) {
        add_fault(&fault);
        return;
    }
    while (dm_next_policy(&policies, &policy)) count++;
    add_count(count);
}

static void read_access(const uint8_t *value, size_t length) {
    dm_octets descriptions;
    dm_access_description description;
    dm_fault fault;
    unsigned count = 0;
    if (dm_read_information_access(value, length, &descriptions, &fault) != DM_OK) {
        add_fault(&fault);
        return;
    }
    while (dm_next_access_description(&descriptions, &description)) count++;
    add_count(count);
}

static void add_number(const char *title, uint32_t number) {
    char text[48];
    snprintf(text, sizeof text, "%s%u", title, (unsigned)number);
    add(text);
}

/* The numbers of the bits that are 1. */
static void add_bits(dm_bits bits) {
    for (size_t i = 0; i < 8 * bits.octets.length; i++) {
        if (bits.octets.octets[i / 8] >> (7 - i % 8) & 1) add_number(" ", (uint32_t)i);
    }
}

/* The points, with the numbers of the reasons of each. */
static void read_points(const uint8_t *value, size_t length) {
    dm_octets points;
    dm_distribution_point point;
    dm_fault fault;
    if (dm_read_distribution_points(value, length, &points, &fault) != DM_OK) {
        add_fault(&fault);
        return;
    }
    while (dm_next_distribution_point(&points, &point)) {
        add(found[0] == 0 ? "point" : " point");
        if (point.reasons.is_present == 1) add(" reasons");
        add_bits(point.reasons);
    }
}

static void read_name_constraints(const uint8_t *value, size_t length) {
    dm_name_constraints constraints;
    dm_fault fault;
    if (dm_read_name_constraints(value, length, &constraints, &fault) != DM_OK) {
        add_fault(&fault);
        return;
    }
    if (constraints.permitted.length > 0) add_octets("permitted", constraints.permitted);
    if (constraints.excluded.length > 0) {
        add_octets(found[0] == 0 ? "excluded" : " excluded", constraints.excluded);
    }
}

static void read_mappings(const uint8_t *value, size_t length) {
    dm_octets mappings;
    dm_policy_mapping mapping;
    dm_fault fault;
    if (dm_read_policy_mappings(value, length, &mappings, &fault) != DM_OK) {
        add_fault(&fault);
        return;
    }
    while (dm_next_policy_mapping(&mappings, &mapping)) {
        add_octets("", mapping.issuer_policy);
        add_octets(" is", mapping.subject_policy);
    }
}

static void read_policy_constraints(const uint8_t *value, size_t length) {
    dm_policy_constraints constraints;
    dm_fault fault;
    if (dm_read_policy_constraints(value, length, &constraints, &fault) != DM_OK) {
        add_fault(&fault);
        return;
    }
    add("constraints");
    if (constraints.has_require_explicit_policy == 1) add_number(" explicit ", constraints.require_explicit_policy);
    if (constraints.has_inhibit_policy_mapping == 1) add_number(" mapping ", constraints.inhibit_policy_mapping);
}

static void read_any_policy(const uint8_t *value, size_t length) {
    uint32_t number;
    dm_fault fault;
    if (dm_read_inhibit_any_policy(value, length, &number, &fault) != DM_OK) {
        add_fault(&fault);
        return;
    }
    add_number("", number);
}

static void read_directory_attributes(const uint8_t *value, size_t length) {
    dm_octets attributes;
    dm_request_attribute attribute;
    dm_any element;
    dm_fault fault;
    if (dm_read_directory_attributes(value, length, &attributes, &fault) != DM_OK) {
        add_fault(&fault);
        return;
    }
    while (dm_next_directory_attribute(&attributes, &attribute)) {
        dm_cursor values = dm_cursor_over(attribute.values.octets, attribute.values.length, DM_DER);
        add_octets("", attribute.identifier);
        while (!dm_is_empty(&values) && dm_next_any(&values, &element, &fault) == DM_OK) {
            add_octets(" value", element.content);
        }
    }
}

static void read_crl_number(const uint8_t *value, size_t length) {
    dm_octets number;
    dm_fault fault;
    if (dm_read_crl_number(value, length, &number, &fault) != DM_OK) {
        add_fault(&fault);
        return;
    }
    add_octets("", number);
}

static void read_issuing_point(const uint8_t *value, size_t length) {
    dm_issuing_distribution_point point;
    dm_fault fault;
    if (dm_read_issuing_distribution_point(value, length, &point, &fault) != DM_OK) {
        add_fault(&fault);
        return;
    }
    add("point");
    if (point.full_name.length > 0) add_octets(" full", point.full_name);
    if (point.relative_name.length > 0) add_octets(" relative", point.relative_name);
    if (point.only_contains_user_certs == 1) add(" users");
    if (point.only_contains_ca_certs == 1) add(" authorities");
    if (point.reasons.is_present == 1) add(" reasons");
    add_bits(point.reasons);
    if (point.indirect_crl == 1) add(" indirect");
    if (point.only_contains_attribute_certs == 1) add(" attributes");
}

static void read_date(const uint8_t *value, size_t length) {
    dm_time date;
    dm_fault fault;
    char text[24];
    if (dm_read_invalidity_date(value, length, &date, &fault) != DM_OK) {
        add_fault(&fault);
        return;
    }
    snprintf(text, sizeof text, "%04u%02d%02d%02d%02d%02dZ", (unsigned)date.year, date.month, date.day, date.hour,
             date.minute, date.second);
    add(text);
}

static void read_null(const uint8_t *value, size_t length) {
    dm_fault fault;
    if (dm_read_null_extension(value, length, &fault) != DM_OK) {
        add_fault(&fault);
        return;
    }
    add("null");
}

static void read_features(const uint8_t *value, size_t length) {
    dm_octets features;
    uint32_t number;
    dm_fault fault;
    if (dm_read_tls_features(value, length, &features, &fault) != DM_OK) {
        add_fault(&fault);
        return;
    }
    add("features");
    while (dm_next_tls_feature(&features, &number)) add_number(" ", number);
}

static void read_timestamps(const uint8_t *value, size_t length) {
    dm_octets timestamps, timestamp;
    dm_fault fault;
    if (dm_read_signed_certificate_timestamps(value, length, &timestamps, &fault) != DM_OK) {
        add_fault(&fault);
        return;
    }
    while (dm_next_timestamp(&timestamps, &timestamp)) {
        add_octets(found[0] == 0 ? "timestamp" : " timestamp", timestamp);
    }
}

static void read_statements(const uint8_t *value, size_t length) {
    dm_octets statements;
    dm_qc_statement statement;
    dm_fault fault;
    if (dm_read_qc_statements(value, length, &statements, &fault) != DM_OK) {
        add_fault(&fault);
        return;
    }
    add("statements");
    while (dm_next_qc_statement(&statements, &statement)) {
        add_octets("", statement.identifier);
        if (statement.has_info == 1) add_octets(" info", statement.info.content);
    }
}

static void read_organization(const uint8_t *value, size_t length) {
    dm_organization_identifier identifier;
    dm_fault fault;
    if (dm_read_organization_identifier(value, length, &identifier, &fault) != DM_OK) {
        add_fault(&fault);
        return;
    }
    add_text("", identifier.scheme);
    add_text(" ", identifier.country);
    if (identifier.has_state_or_province == 1) add_text(" state ", identifier.state_or_province);
    add_text(" ", identifier.reference);
}

static void read_unknown(const uint8_t *extensions, size_t length) {
    add(dm_has_unknown_critical(extensions, length) == 1 ? "true" : "false");
}

static void add_reason(const uint8_t *value, size_t length) {
    uint32_t reason = 99;
    dm_fault fault;
    char text[24];
    if (found[0] != 0) add(" ");
    if (dm_read_reason(value, length, &reason, &fault) != DM_OK) {
        add("refused ");
        add_fault(&fault);
        return;
    }
    sprintf(text, "reason %u", (unsigned)reason);
    add(text);
}

/* The serial numbers of a list, each with the first reason of its entry. */
static void read_reasons(const uint8_t *input, size_t length) {
    dm_certificate_list list;
    dm_revoked entry;
    dm_extension extension;
    dm_fault fault;
    if (dm_read_certificate_list(input, length, &list, &fault) != DM_OK || list.has_revoked == 0) {
        add(fault.status == DM_OK ? "none" : "no list");
        return;
    }
    while (dm_next_revoked(&list.revoked, &entry)) {
        int has_reason = 0;
        add_octets("", entry.serial_number);
        while (!has_reason && dm_next_extension(&entry.extensions, &extension)) {
            has_reason = extension.kind == DM_REASON_CODE;
            if (has_reason) add_reason(extension.value.octets, extension.value.length);
        }
        if (!has_reason) add(" no reason");
    }
}

static void read_key(const uint8_t *input, size_t length) {
    dm_private_key key;
    dm_fault fault;
    if (dm_read_private_key(input, length, &key, &fault) != DM_OK) {
        add_fault(&fault);
        return;
    }
    add("read");
}

static void read_rsa_key(const uint8_t *input, size_t length) {
    dm_rsa_private_key key;
    dm_fault fault;
    if (dm_read_rsa_private_key(input, length, &key, &fault) != DM_OK) {
        add_fault(&fault);
        return;
    }
    add("read");
}

static void read_list(const uint8_t *input, size_t length) {
    dm_certificate_list list;
    dm_fault fault;
    if (dm_read_certificate_list(input, length, &list, &fault) != DM_OK) {
        add_fault(&fault);
        return;
    }
    add("read");
}

/* The names of the rules, in the order of their numbers: of certificates, and of CRLs. */
static char rules[2][DM_MAX_BROKEN_RULES][80];
static uint32_t rule_count[2];
static const uint32_t first_rules[2] = {1, DM_FIRST_CRL_RULE};

static void add_rule(uint32_t rule) {
    uint8_t text[DM_TEXT_OCTETS];
    dm_octets whole = {text, dm_rule_text(rule, text, sizeof text)};
    add_text("", whole);
}

/* The names of the broken rules of a kind, or their texts. */
static void add_broken(const uint8_t *input, size_t length, int of_list, uint32_t kind, int as_text) {
    uint32_t (*call)(const uint8_t *, size_t, uint32_t *, size_t, size_t *, dm_fault *) =
        of_list ? dm_broken_crl_rules : dm_broken_rules;
    uint32_t broken[DM_MAX_BROKEN_RULES], first[2] = {0, 7};
    size_t count, again;
    dm_fault fault;
    if (call(input, length, broken, DM_MAX_BROKEN_RULES, &count, &fault) != DM_OK) {
        add_fault(&fault);
        return;
    }
    if (call(input, length, first, 1, &again, &fault) != DM_OK || again != count || first[1] != 7
        || first[0] != (count == 0 ? 0 : broken[0])) {
        add("other rules with less room");
    }
    for (size_t i = 0; i < count; i++) {
        if (dm_rule_kind(broken[i]) != kind) continue;
        if (found[0] != 0) add(", ");
        if (as_text) {
            add_rule(broken[i]);
        } else {
            add(rules[of_list][broken[i] - first_rules[of_list]]);
        }
    }
}

static void read_must(const uint8_t *input, size_t length) { add_broken(input, length, 0, DM_RULE_MUST, 0); }
static void read_should(const uint8_t *input, size_t length) { add_broken(input, length, 0, DM_RULE_SHOULD, 0); }
static void read_texts(const uint8_t *input, size_t length) { add_broken(input, length, 0, DM_RULE_MUST, 1); }
static void read_list_must(const uint8_t *input, size_t length) { add_broken(input, length, 1, DM_RULE_MUST, 0); }
static void read_list_should(const uint8_t *input, size_t length) { add_broken(input, length, 1, DM_RULE_SHOULD, 0); }
static void read_list_texts(const uint8_t *input, size_t length) { add_broken(input, length, 1, DM_RULE_MUST, 1); }

/* The text of a name in UTF-8, where _ is a space. The other text has each octet outside of ASCII in digits. */
static void read_written_name(const uint8_t *input, size_t length) {
    static uint8_t text[sizeof found], ascii[3 * sizeof found], wanted[sizeof ascii];
    dm_cursor whole = dm_cursor_over(input, length, DM_DER), name;
    dm_fault fault;
    if (dm_next_sequence(&whole, &name, &fault) != DM_OK) return add_fault(&fault);
    size_t size = dm_name_utf8(name.left.octets, name.left.length, text, sizeof text), count = 0;
    for (size_t i = 0; i < size; i++) {
        if (text[i] < 0x80) wanted[count++] = text[i];
        else count += (size_t)sprintf((char *)&wanted[count], "\\%02x", text[i]);
        if (text[i] == ' ') text[i] = '_';
    }
    add_text("", (dm_octets){text, size});
    size = dm_name_text(name.left.octets, name.left.length, ascii, sizeof ascii);
    if (size != count || memcmp(ascii, wanted, count) != 0) add_text(", and in ASCII ", (dm_octets){ascii, size});
}

typedef void reader(const uint8_t *, size_t);

static const struct {
    const char *name;
    reader *read;
} readers[] = {
    {"certification_request", read_request},
    {"strict_certificate", read_strictly},
    {"basic_constraints", read_constraints},
    {"key_usage", read_usage},
    {"general_names", read_names},
    {"extended_key_usage", read_purposes},
    {"subject_key_identifier", read_subject_key},
    {"authority_key_identifier", read_authority_key},
    {"certificate_policies", read_policies},
    {"information_access", read_access},
    {"crl_distribution_points", read_points},
    {"name_constraints", read_name_constraints},
    {"policy_mappings", read_mappings},
    {"policy_constraints", read_policy_constraints},
    {"inhibit_any_policy", read_any_policy},
    {"subject_directory_attributes", read_directory_attributes},
    {"crl_number", read_crl_number},
    {"issuing_distribution_point", read_issuing_point},
    {"invalidity_date", read_date},
    {"ocsp_no_check", read_null},
    {"precertificate_poison", read_null},
    {"tls_features", read_features},
    {"signed_certificate_timestamps", read_timestamps},
    {"qc_statements", read_statements},
    {"organization_identifier", read_organization},
    {"written_name", read_written_name},
    {"has_unknown_critical", read_unknown},
    {"reason_code", add_reason},
    {"reasons", read_reasons},
    {"must", read_must},
    {"should", read_should},
    {"texts", read_texts},
    {"list_must", read_list_must},
    {"list_should", read_list_should},
    {"list_texts", read_list_texts},
};

/* Those whose rows are changes of the octets above. */
static const struct {
    const char *name;
    reader *read;
} readers_of_changes[] = {
    {"certificate of ", read_certificate},    {"certification_request of ", read_request},
    {"certificate_list of ", read_list},      {"reasons of ", read_reasons},
    {"private_key of ", read_key},            {"rsa_private_key of ", read_rsa_key},
};

/* The text without spaces around it. */
static char *trimmed(char *text) {
    text += strspn(text, " ");
    size_t length = strlen(text);
    while (length > 0 && text[length - 1] == ' ') text[--length] = 0;
    return text;
}

/* Whether the result is the row's, whose texts of errors have values too, after the text. */
static void compare(const char *call, const char *wanted) {
    size_t length = strlen(found);
    const char *more = begins(wanted, found) ? wanted + length : "no";
    int is_text = strstr(found, "at ") != NULL && (begins(more, " (") || begins(more, " for "));
    /* (the text of a wrong name is that of its first relative names) */
    if (strcmp(call, "written_name") == 0 && begins(wanted, "at ")) return;
    compared++;
    if (more[0] == 0 || is_text) return;
    failed++;
    printf("certificate_rows: %s: %s, and not %s\n", call, found, wanted);
}

/* A change of the octets above: `to 9` cuts them, `8=03` sets one or adds it, and nothing leaves them. */
static void try_change(reader *read, const char *base, const char *change, const char *wanted) {
    size_t length;
    uint8_t *block = octets_of(base, &length);
    int is_cut = begins(change, "to ");
    unsigned long at = strtoul(is_cut ? change + 3 : change, NULL, 10);
    const char *value = strchr(change, '=');
    if (is_cut) {
        length = at;
    } else if (value != NULL) {
        block = realloc(block, length + 1);
        if (block == NULL) exit(2);
        if (at == length) length++;
        if (at < length) block[at] = (uint8_t)strtoul(value + 1, NULL, 16);
    }
    uint8_t *own = malloc(length + (length == 0));
    if (own == NULL) exit(2);
    memcpy(own, block, length);
    found[0] = 0;
    read(own, length);
    compare(change, wanted);
    free(own);
    free(block);
}

/* The text of the next rule. */
static void try_rule(int of_list, const char *name, const char *wanted) {
    uint32_t number = first_rules[of_list] + rule_count[of_list];
    /* (the last rows are rules that are in neither list) */
    if (dm_rule_kind(number) == DM_RULE_NONE) return;
    strncat(rules[of_list][rule_count[of_list]++], name, sizeof rules[0][0] - 1);
    found[0] = 0;
    add_rule(number);
    compare(name, wanted);
}

/* After the last rule no number has one. */
static void try_numbers(void) {
    uint8_t text[DM_TEXT_OCTETS];
    for (int of_list = 0; of_list < 2; of_list++) {
        uint32_t end = first_rules[of_list] + rule_count[of_list];
        if (dm_rule_kind(end) == DM_RULE_NONE && dm_rule_text(end, text, sizeof text) == 0
            && dm_rule_kind(end - 1) == DM_RULE_SHOULD && dm_rule_kind(first_rules[of_list]) == DM_RULE_MUST
            && dm_rule_kind(first_rules[of_list] - 1) == DM_RULE_NONE && rule_count[of_list] < DM_MAX_BROKEN_RULES)
            continue;
        failed++;
        printf("certificate_rows: other numbers of rules\n");
    }
}

static void try_row(char *input, const char *wanted) {
    static char copy[sizeof calls];
    if (strcmp(calls, "text") == 0 || strcmp(calls, "list_text") == 0) {
        try_rule(calls[0] == 'l', trimmed(input), wanted);
        return;
    }
    const char *base = strstr(calls, " of ");
    if (base != NULL) {
        for (size_t i = 0; i < sizeof readers_of_changes / sizeof *readers_of_changes; i++) {
            if (!begins(calls, readers_of_changes[i].name)) continue;
            try_change(readers_of_changes[i].read, base + 4, input, wanted);
        }
        return;
    }
    strcpy(copy, calls);
    for (char *call = strtok(copy, ","); call != NULL; call = strtok(NULL, ",")) {
        for (size_t i = 0; i < sizeof readers / sizeof *readers; i++) {
            if (strcmp(trimmed(call), readers[i].name) != 0) continue;
            size_t length;
            uint8_t *block = octets_of(input, &length);
            found[0] = 0;
            readers[i].read(block, length);
            compare(readers[i].name, wanted);
            free(block);
        }
    }
}

/* A remark, calls or a row. */
static void try_line(void) {
    line[strcspn(line, "\r\n")] = 0;
    char *bracket = strrchr(line, ']'), *wanted = strchr(line, '|');
    if (line[0] == '#' || line[0] == 0) return;
    if (line[0] == '[' && bracket != NULL) {
        *bracket = 0;
        strcpy(calls, line + 1);
    } else if (wanted != NULL) {
        *wanted++ = 0;
        wanted[strcspn(wanted, "|")] = 0;
        try_row(line, trimmed(wanted));
    }
}

int main(int count, char **files) {
    for (int i = 1; i < count; i++) {
        FILE *rows = fopen(files[i], "r");
        calls[0] = 0;
        while (rows != NULL && fgets(line, sizeof line, rows) != NULL) try_line();
        if (rows == NULL || fclose(rows) != 0) {
            failed++;
            printf("certificate_rows: %s isn't read\n", files[i]);
        }
    }
    if (rule_count[0] > 0) try_numbers();
    printf("certificate_rows: %zu rows in %d files, %zu failed\n", compared, count - 1, failed);
    return compared == 0 || failed != 0;
}
