/* Reads SNMP messages (RFC 3416, in BER) from a stream that may be cut anywhere, and prints one line for each:
 * snmp < STREAM
 *
 * While the first message in the buffer is incomplete, it reads the missing octets. */
#include "dumarewhi.h"

#include <stdio.h>
#include <string.h>

static uint8_t buffer[1 << 16];

static const char *const requests[] = {"get", "get-next", "response", "set"};

enum { REQUESTS = sizeof requests / sizeof *requests };

/* An attacker may have chosen the text: what isn't printable ASCII is printed as \xNN. */
static void print_text(dm_octets text) {
    for (size_t i = 0; i < text.length; i++) {
        uint8_t octet = text.octets[i];
        if (octet >= 0x20 && octet < 0x7f && octet != '\\') putchar(octet);
        else printf("\\x%02x", octet);
    }
}

/* VarBind ::= SEQUENCE { name ObjectName, value ANY } */
static uint32_t print_name(dm_cursor *bindings, dm_fault *fault) {
    dm_cursor binding;
    dm_octets name;
    dm_any value;
    uint8_t text[256];
    size_t needed;
    if (dm_next_sequence(bindings, &binding, fault) != DM_OK || dm_next_oid(&binding, &name, fault) != DM_OK
        || dm_next_any(&binding, &value, fault) != DM_OK || dm_end(&binding, fault) != DM_OK) {
        return fault->status;
    }
    if (dm_read_oid(name.octets, name.length, text, sizeof text, &needed) == 0 && needed <= sizeof text) {
        printf(" %.*s", (int)needed, (const char *)text);
    } else {
        printf(" (a long name)");
    }
    return DM_OK;
}

/* PDU ::= [n] IMPLICIT SEQUENCE { request-id, error-status, error-index INTEGER, variable-bindings } */
static uint32_t print_request(dm_cursor *pdu, const char *kind, dm_fault *fault) {
    int64_t id, status, index;
    dm_cursor bindings;
    if (dm_next_i64(pdu, &id, fault) != DM_OK || dm_next_i64(pdu, &status, fault) != DM_OK
        || dm_next_i64(pdu, &index, fault) != DM_OK || dm_next_sequence(pdu, &bindings, fault) != DM_OK
        || dm_end(pdu, fault) != DM_OK) {
        return fault->status;
    }
    printf(": %s %lld", kind, (long long)id);
    while (!dm_is_empty(&bindings)) {
        if (print_name(&bindings, fault) != DM_OK) return fault->status;
    }
    return DM_OK;
}

/* Message ::= SEQUENCE { version INTEGER, community OCTET STRING, data PDUs } */
static uint32_t print_message(size_t length, dm_fault *fault) {
    dm_cursor input = dm_cursor_over(buffer, length, DM_BER), message, pdu;
    int64_t version;
    dm_octets community;
    uint32_t kind = 0;
    if (dm_next_sequence(&input, &message, fault) != DM_OK || dm_next_i64(&message, &version, fault) != DM_OK
        || dm_next_octets(&message, &community, fault) != DM_OK) {
        return fault->status;
    }
    while (kind + 1 < REQUESTS && !dm_is_next(&message, DM_CONTEXT_SPECIFIC, kind)) kind++;
    if (dm_next_content(&message, DM_CONTEXT_SPECIFIC, 1, kind, &pdu, fault) != DM_OK
        || dm_end(&message, fault) != DM_OK) {
        return fault->status;
    }
    printf("version %lld, community ", (long long)version);
    print_text(community);
    return print_request(&pdu, requests[kind], fault);
}

int main(void) {
    size_t filled = 0;
    for (;;) {
        dm_outcome outcome;
        dm_element element;
        dm_fault fault;
        uint8_t text[DM_TEXT_OCTETS + 32];
        uint32_t status = dm_first_ber(buffer, filled, &element, &outcome);
        if (status == DM_INCOMPLETE) {
            /* At least this many octets are missing, so waiting for them is never too long. */
            size_t want = outcome.missing;
            if (want > sizeof buffer - filled) {
                fprintf(stderr, "a message is too long\n");
                return 1;
            }
            size_t got = fread(buffer + filled, 1, want, stdin);
            filled += got;
            if (got < want) {
                if (filled == 0) return 0;
                fprintf(stderr, "the stream ends within a message, %zu octets are missing\n", want - got);
                return 1;
            }
            continue;
        }
        if (status == DM_ERROR) {
            fprintf(stderr, "at %zu: %s\n", outcome.place, dm_error_string(outcome.error));
            return 1;
        }
        if (print_message(outcome.length, &fault) != DM_OK) {
            size_t size = dm_found_text(&fault, buffer, outcome.length, text, sizeof text);
            fprintf(stderr, "no message of SNMP: %.*s\n", (int)(size < sizeof text ? size : sizeof text),
                    (const char *)text);
            return 1;
        }
        putchar('\n');
        filled -= outcome.length;
        memmove(buffer, buffer + outcome.length, filled);
    }
}
