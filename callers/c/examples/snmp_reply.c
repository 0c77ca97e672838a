/* Answers a GetRequest of SNMP (RFC 3416, in BER) on standard input, with a Response on standard output:
 * snmp_reply < REQUEST > RESPONSE
 *
 * It knows sysDescr.0 and sysUpTime.0. */
#include "dumarewhi.h"

#include <stdio.h>
#include <string.h>

enum { REQUEST = 0, RESPONSE = 2, TIME_TICKS = 3 };

static const uint8_t sys_descr[] = {0x2b, 6, 1, 2, 1, 1, 1, 0};
static const uint8_t sys_up_time[] = {0x2b, 6, 1, 2, 1, 1, 3, 0};

static uint8_t input[1 << 16], written[1 << 16];

static int is_name(dm_octets it, const uint8_t *name, size_t length) {
    return it.length == length && memcmp(it.octets, name, length) == 0;
}

/* VarBind ::= SEQUENCE { name ObjectName, value ObjectSyntax } */
static void put_binding(dm_writer *w, dm_octets name) {
    dm_mark binding = dm_open_sequence(w);
    dm_put_oid(w, name.octets, name.length);
    if (is_name(name, sys_descr, sizeof sys_descr)) {
        static const char text[] = "an example of dumarewhi";
        dm_put_octets(w, (const uint8_t *)text, sizeof text - 1);
    } else if (is_name(name, sys_up_time, sizeof sys_up_time)) {
        dm_implicit(w, DM_APPLICATION, TIME_TICKS);
        dm_put_u64(w, 4200);
    } else {
        dm_implicit(w, DM_CONTEXT_SPECIFIC, 0); /* noSuchObject [0] IMPLICIT NULL */
        dm_put_null(w);
    }
    dm_close(w, binding);
}

/* The names of a SEQUENCE OF VarBind, each with its answer. */
static uint32_t put_bindings(dm_writer *w, dm_cursor *bindings, dm_fault *fault) {
    dm_mark list = dm_open_sequence(w);
    while (!dm_is_empty(bindings)) {
        dm_cursor binding;
        dm_octets name;
        dm_any value;
        if (dm_next_sequence(bindings, &binding, fault) != DM_OK || dm_next_oid(&binding, &name, fault) != DM_OK
            || dm_next_any(&binding, &value, fault) != DM_OK || dm_end(&binding, fault) != DM_OK) {
            return fault->status;
        }
        put_binding(w, name);
    }
    dm_close(w, list);
    return DM_OK;
}

/* PDU ::= [n] IMPLICIT SEQUENCE { request-id, error-status, error-index INTEGER, variable-bindings } */
static uint32_t put_response(dm_writer *w, dm_cursor *pdu, dm_fault *fault) {
    int64_t id, status, index;
    dm_cursor bindings;
    if (dm_next_i64(pdu, &id, fault) != DM_OK || dm_next_i64(pdu, &status, fault) != DM_OK
        || dm_next_i64(pdu, &index, fault) != DM_OK || dm_next_sequence(pdu, &bindings, fault) != DM_OK
        || dm_end(pdu, fault) != DM_OK) {
        return fault->status;
    }
    dm_mark response = dm_open_tagged(w, RESPONSE);
    dm_put_i64(w, id);
    dm_put_u64(w, 0);
    dm_put_u64(w, 0);
    if (put_bindings(w, &bindings, fault) != DM_OK) return fault->status;
    dm_close(w, response);
    return DM_OK;
}

/* Message ::= SEQUENCE { version INTEGER, community OCTET STRING, data PDUs } */
static uint32_t put_message(dm_writer *w, size_t length, dm_fault *fault) {
    dm_cursor whole = dm_cursor_over(input, length, DM_BER), message, pdu;
    int64_t version;
    dm_octets community;
    if (dm_next_sequence(&whole, &message, fault) != DM_OK || dm_end(&whole, fault) != DM_OK
        || dm_next_i64(&message, &version, fault) != DM_OK || dm_next_octets(&message, &community, fault) != DM_OK
        || dm_next_content(&message, DM_CONTEXT_SPECIFIC, 1, REQUEST, &pdu, fault) != DM_OK
        || dm_end(&message, fault) != DM_OK) {
        return fault->status;
    }
    dm_mark answer = dm_open_sequence(w);
    dm_put_i64(w, version);
    dm_put_octets(w, community.octets, community.length);
    if (put_response(w, &pdu, fault) != DM_OK) return fault->status;
    dm_close(w, answer);
    return DM_OK;
}

int main(void) {
    dm_writer w = dm_writer_over(written, sizeof written);
    dm_fault fault;
    size_t length = fread(input, 1, sizeof input, stdin);
    if (put_message(&w, length, &fault) != DM_OK) {
        uint8_t text[DM_TEXT_OCTETS + 32];
        size_t size = dm_found_text(&fault, input, length, text, sizeof text);
        fprintf(stderr, "no GetRequest: %.*s\n", (int)(size < sizeof text ? size : sizeof text), (const char *)text);
        return 1;
    }
    if (dm_finish(&w, &length) != DM_OK) {
        fprintf(stderr, "the answer is too long\n");
        return 1;
    }
    return fwrite(written, 1, length, stdout) != length;
}
