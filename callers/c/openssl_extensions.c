/* Prints values of extensions of a certificate in DER on standard input in the words of `openssl x509 -noout -ext` with
 * the names of these extensions. */
#include "dumarewhi.h"

#include <stdio.h>
#include <string.h>

static uint8_t input[1 << 16];

/* What an identifier that ends in an octet is called, if the octets before it are these. */
static int ends(dm_octets identifier, const char *before, size_t length, int last) {
    return identifier.length == length + 1 && memcmp(identifier.octets, before, length) == 0
           && identifier.octets[length] == last;
}

static void print_identifier(dm_octets identifier) {
    uint8_t text[256];
    size_t needed = 0;
    (void)dm_read_oid(identifier.octets, identifier.length, text, sizeof text, &needed);
    printf("%.*s", (int)needed, (const char *)text);
}

static void print_text(const char *title, dm_octets text) {
    printf("%s%.*s\n", title, (int)text.length, (const char *)text.octets);
}

static void print_name(const dm_general_name *name) {
    static const char *const kinds[] = {"othername", "email", "DNS", "X400Name", "DirName", "EdiPartyName", "URI",
                                        "IP", "Registered ID"};
    const uint8_t *octets = name->octets.octets;
    printf("%s:", kinds[name->kind]);
    if (name->kind == DM_IP_ADDRESS && name->octets.length == 8) {
        printf("%d.%d.%d.%d/%d.%d.%d.%d\n", octets[0], octets[1], octets[2], octets[3], octets[4], octets[5], octets[6],
               octets[7]);
    } else {
        print_text("", name->octets);
    }
}

static void print_names(dm_octets names) {
    dm_general_name name;
    while (dm_next_general_name(&names, &name)) print_name(&name);
}

/* UserNotice ::= SEQUENCE { noticeRef NoticeReference OPTIONAL, explicitText DisplayText OPTIONAL }
 * (RFC 5280 4.2.1.4) */
static void print_notice(const dm_any *value) {
    dm_cursor fields = dm_cursor_over(value->content.octets, value->content.length, DM_DER);
    dm_any text;
    dm_fault fault;
    printf("User Notice:\n");
    while (!dm_is_empty(&fields) && dm_next_any(&fields, &text, &fault) == DM_OK) {
        if (text.number != DM_SEQUENCE) print_text("Explicit Text: ", text.content);
    }
}

static int print_policies(dm_octets value) {
    dm_octets policies;
    dm_policy policy;
    dm_policy_qualifier qualifier;
    dm_fault fault;
    if (dm_read_certificate_policies(value.octets, value.length, &policies, &fault) != DM_OK) return 0;
    while (dm_next_policy(&policies, &policy)) {
        printf("Policy: ");
        print_identifier(policy.identifier);
        printf("\n");
        while (dm_next_policy_qualifier(&policy.qualifiers, &qualifier)) {
            /* id-qt, 1.3.6.1.5.5.7.2 */
            if (ends(qualifier.identifier, "\x2b\x06\x01\x05\x05\x07\x02", 7, 1)) {
                print_text("CPS: ", qualifier.value.content);
            } else if (ends(qualifier.identifier, "\x2b\x06\x01\x05\x05\x07\x02", 7, 2)) {
                print_notice(&qualifier.value);
            }
        }
    }
    return 1;
}

static void print_reasons(const dm_bits *reasons) {
    static const char *const names[] = {"Unused",           "Key Compromise", "CA Compromise",
                                        "Affiliation Changed", "Superseded",  "Cessation Of Operation",
                                        "Certificate Hold", "Privilege Withdrawn", "AA Compromise"};
    const char *before = "Reasons:\n";
    for (size_t i = 0; i < 9 && i < 8 * reasons->octets.length; i++) {
        if ((reasons->octets.octets[i / 8] >> (7 - i % 8) & 1) == 0) continue;
        printf("%s%s", before, names[i]);
        before = ", ";
    }
    printf("\n");
}

static int print_points(dm_octets value) {
    dm_octets points;
    dm_distribution_point point;
    dm_attribute attribute;
    dm_fault fault;
    if (dm_read_distribution_points(value.octets, value.length, &points, &fault) != DM_OK) return 0;
    while (dm_next_distribution_point(&points, &point)) {
        if (point.full_name.length > 0) printf("Full Name:\n");
        print_names(point.full_name);
        if (point.relative_name.length > 0) printf("Relative Name:\n");
        while (dm_next_attribute(&point.relative_name, &attribute)) {
            /* id-at, 2.5.4 */
            print_text(ends(attribute.identifier, "\x55\x04", 2, 11) ? "OU = " : "another = ", attribute.value);
        }
        if (point.reasons.is_present) print_reasons(&point.reasons);
        if (point.crl_issuer.length > 0) printf("CRL Issuer:\n");
        print_names(point.crl_issuer);
    }
    return 1;
}

static void print_subtrees(const char *title, dm_octets subtrees) {
    dm_subtree subtree;
    if (subtrees.length > 0) printf("%s:\n", title);
    while (dm_next_subtree(&subtrees, &subtree)) {
        print_name(&subtree.base);
        if (subtree.minimum != 0 || subtree.has_maximum) printf("with a distance\n");
    }
}

static int print_constraints(dm_octets value) {
    dm_name_constraints constraints;
    dm_fault fault;
    if (dm_read_name_constraints(value.octets, value.length, &constraints, &fault) != DM_OK) return 0;
    print_subtrees("Permitted", constraints.permitted);
    print_subtrees("Excluded", constraints.excluded);
    return 1;
}

static int print_access(dm_octets value) {
    dm_octets descriptions;
    dm_access_description description;
    dm_fault fault;
    if (dm_read_information_access(value.octets, value.length, &descriptions, &fault) != DM_OK) return 0;
    while (dm_next_access_description(&descriptions, &description)) {
        /* id-ad, 1.3.6.1.5.5.7.48 */
        if (ends(description.method, "\x2b\x06\x01\x05\x05\x07\x30", 7, 1)) {
            printf("OCSP");
        } else if (ends(description.method, "\x2b\x06\x01\x05\x05\x07\x30", 7, 2)) {
            printf("CA Issuers");
        } else if (ends(description.method, "\x2b\x06\x01\x05\x05\x07\x30", 7, 5)) {
            printf("CA Repository");
        } else {
            print_identifier(description.method);
        }
        printf(" - ");
        print_name(&description.location);
    }
    return 1;
}

static int print_mappings(dm_octets value) {
    dm_octets mappings;
    dm_policy_mapping mapping;
    dm_fault fault;
    const char *before = "";
    if (dm_read_policy_mappings(value.octets, value.length, &mappings, &fault) != DM_OK) return 0;
    while (dm_next_policy_mapping(&mappings, &mapping)) {
        printf("%s", before);
        print_identifier(mapping.issuer_policy);
        printf(":");
        print_identifier(mapping.subject_policy);
        before = ", ";
    }
    printf("\n");
    return 1;
}

static int print_policy_constraints(dm_octets value) {
    dm_policy_constraints constraints;
    dm_fault fault;
    if (dm_read_policy_constraints(value.octets, value.length, &constraints, &fault) != DM_OK) return 0;
    if (constraints.has_require_explicit_policy) {
        printf("Require Explicit Policy:%u", (unsigned)constraints.require_explicit_policy);
    }
    if (constraints.has_inhibit_policy_mapping) {
        printf("%sInhibit Policy Mapping:%u", constraints.has_require_explicit_policy ? ", " : "",
               (unsigned)constraints.inhibit_policy_mapping);
    }
    printf("\n");
    return 1;
}

static int print_any_policy(dm_octets value) {
    uint32_t number;
    dm_fault fault;
    if (dm_read_inhibit_any_policy(value.octets, value.length, &number, &fault) != DM_OK) return 0;
    printf("%u\n", (unsigned)number);
    return 1;
}

/* RFC 6066 8, RFC 6961 2.1 */
static int print_features(dm_octets value) {
    dm_octets features;
    uint32_t number;
    dm_fault fault;
    const char *before = "";
    if (dm_read_tls_features(value.octets, value.length, &features, &fault) != DM_OK) return 0;
    for (; dm_next_tls_feature(&features, &number); before = ", ") {
        if (number == 5 || number == 17) {
            printf("%sstatus_request%s", before, number == 5 ? "" : "_v2");
        } else {
            printf("%s%u", before, (unsigned)number);
        }
    }
    printf("\n");
    return 1;
}

static int print_no_check(dm_octets value) {
    dm_fault fault;
    return dm_read_null_extension(value.octets, value.length, &fault) == DM_OK;
}

static int print_issuing_point(dm_octets value) {
    dm_issuing_distribution_point point;
    dm_fault fault;
    if (dm_read_issuing_distribution_point(value.octets, value.length, &point, &fault) != DM_OK) return 0;
    if (point.full_name.length > 0) printf("Full Name:\n");
    print_names(point.full_name);
    if (point.only_contains_user_certs) printf("Only User Certificates\n");
    if (point.indirect_crl) printf("Indirect CRL\n");
    if (point.only_contains_ca_certs) printf("Only CA Certificates\n");
    if (point.only_contains_attribute_certs) printf("Only Attribute Certificates\n");
    if (point.reasons.is_present) {
        printf("Only Some ");
        print_reasons(&point.reasons);
    }
    return 1;
}

/* A number of up to eight octets. */
static int print_list_number(dm_octets value) {
    dm_octets content;
    uint64_t number;
    dm_fault fault;
    if (dm_read_crl_number(value.octets, value.length, &content, &fault) != DM_OK
        || dm_read_u64(content.octets, content.length, &number) != 0) {
        return 0;
    }
    printf("%llu\n", (unsigned long long)number);
    return 1;
}

static int print_date(dm_octets value) {
    static const char *const months[] = {"Jan", "Feb", "Mar", "Apr", "May", "Jun",
                                         "Jul", "Aug", "Sep", "Oct", "Nov", "Dec"};
    dm_time date;
    dm_fault fault;
    if (dm_read_invalidity_date(value.octets, value.length, &date, &fault) != DM_OK) return 0;
    printf("%s %2d %02d:%02d:%02d %u GMT\n", months[date.month - 1], date.day, date.hour, date.minute, date.second,
           (unsigned)date.year);
    return 1;
}

static int print_issuer(dm_octets value) {
    dm_octets names;
    dm_fault fault;
    if (dm_read_general_names(value.octets, value.length, &names, &fault) != DM_OK) return 0;
    print_names(names);
    return 1;
}

static const struct {
    uint32_t kind;
    const char *title;
    int (*print)(dm_octets);
} printers[] = {
    {DM_CERTIFICATE_POLICIES, "X509v3 Certificate Policies", print_policies},
    {DM_CRL_DISTRIBUTION_POINTS, "X509v3 CRL Distribution Points", print_points},
    {DM_NAME_CONSTRAINTS, "X509v3 Name Constraints", print_constraints},
    {DM_AUTHORITY_INFO_ACCESS, "Authority Information Access", print_access},
    {DM_SUBJECT_INFO_ACCESS, "Subject Information Access", print_access},
    {DM_POLICY_MAPPINGS, "X509v3 Policy Mappings", print_mappings},
    {DM_POLICY_CONSTRAINTS, "X509v3 Policy Constraints", print_policy_constraints},
    {DM_INHIBIT_ANY_POLICY, "X509v3 Inhibit Any Policy", print_any_policy},
    {DM_TLS_FEATURES, "TLS Feature", print_features},
    {DM_OCSP_NO_CHECK, "OCSP No Check", print_no_check},
    {DM_ISSUING_DISTRIBUTION_POINT, "X509v3 Issuing Distribution Point", print_issuing_point},
    {DM_CRL_NUMBER, "X509v3 CRL Number", print_list_number},
    {DM_DELTA_CRL_INDICATOR, "X509v3 Delta CRL Indicator", print_list_number},
    {DM_INVALIDITY_DATE, "Invalidity Date", print_date},
    {DM_CERTIFICATE_ISSUER, "X509v3 Certificate Issuer", print_issuer},
    {DM_FRESHEST_CRL, "X509v3 Freshest CRL", print_points},
};

static int print_extension(const char *title, const dm_extension *extension, int (*print)(dm_octets)) {
    printf("%s: %s\n", title, extension->critical ? "critical" : "");
    return print(extension->value);
}

int main(void) {
    dm_certificate certificate;
    dm_extension extension;
    dm_fault fault;
    int is_read = 1;
    size_t length = fread(input, 1, sizeof input, stdin);
    if (dm_read_certificate(input, length, &certificate, &fault) != DM_OK) return 1;
    while (is_read && dm_next_extension(&certificate.extensions, &extension)) {
        for (size_t i = 0; i < sizeof printers / sizeof *printers; i++) {
            if (extension.kind != printers[i].kind) continue;
            is_read = is_read && print_extension(printers[i].title, &extension, printers[i].print);
        }
    }
    /* All critical ones have a kind. */
    return !is_read || dm_has_unknown_critical(certificate.extensions.octets, certificate.extensions.length) != 0;
}
