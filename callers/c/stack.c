/* Reads and writes inputs that are nested to the greatest depth in threads with the stack that the header names. With
 * less than the calls take the program ends by a signal. */
#define _POSIX_C_SOURCE 200809L
#include "dumarewhi.h"

#include <pthread.h>
#include <stdio.h>
#include <string.h>

static uint8_t definite[1 << 10], indefinite[1 << 10], framed[1 << 10];
static size_t definite_length, indefinite_length, framed_length;

/* How many indefinite lengths may be inside one another where a call only frames them. */
enum { FRAMED = 49 };

/* Lists in lists, of indefinite lengths. */
static size_t make_indefinite(uint8_t *octets, size_t levels) {
    for (size_t level = 0; level < levels; level++) {
        octets[2 * level] = 0x30;
        octets[2 * level + 1] = 0x80;
    }
    memset(octets + 2 * levels, 0, 2 * levels);
    return 4 * levels;
}

/* Lists in lists, from the inside out, with lengths of DER. */
static void make_inputs(void) {
    size_t at = sizeof definite;
    for (size_t level = 0; level < DM_MAX_DEPTH; level++) {
        size_t size = sizeof definite - at;
        if (size < 128) {
            definite[--at] = (uint8_t)size;
        } else if (size < 256) {
            definite[--at] = (uint8_t)size;
            definite[--at] = 0x81;
        } else {
            definite[--at] = (uint8_t)(size & 255);
            definite[--at] = (uint8_t)(size >> 8);
            definite[--at] = 0x82;
        }
        definite[--at] = 0x30;
    }
    definite_length = sizeof definite - at;
    memmove(definite, definite + at, definite_length);
    indefinite_length = make_indefinite(indefinite, DM_MAX_DEPTH);
    framed_length = make_indefinite(framed, FRAMED);
}

static uint8_t unwritten[1 << 10], written[1 << 10];
static size_t unwritten_length;

/* Indefinite lengths as deep as elements are written, and inside them a time without seconds, which DER doesn't
 * have. */
static void make_unwritten(void) {
    static const uint8_t time[] = {0x17, 0x0b, '9', '9', '1', '2', '3', '1', '2', '3', '5', '9', 'Z'};
    for (size_t level = 1; level < DM_MAX_DEPTH; level++) {
        unwritten[unwritten_length++] = 0x30;
        unwritten[unwritten_length++] = 0x80;
    }
    memcpy(unwritten + unwritten_length, time, sizeof time);
    unwritten_length += sizeof time + 2 * (DM_MAX_DEPTH - 1);
}

static void *write_all(void *failed) {
    dm_outcome outcome;
    int *faults = failed;
    *faults += dm_write_der(unwritten, unwritten_length, written, sizeof written, &outcome) != DM_ERROR;
    *faults += outcome.error != DM_ERROR_TIME_WITHOUT_SECONDS || outcome.place != 2 * (DM_MAX_DEPTH - 1);
    /* As an OCTET STRING it is written. */
    unwritten[outcome.place] = 0x04;
    *faults += dm_write_der(unwritten, unwritten_length, written, sizeof written, &outcome) != DM_OK;
    return NULL;
}

static void *read_all(void *failed) {
    dm_element elements[4];
    dm_outcome outcome;
    int *faults = failed;
    *faults += dm_parse_der(definite, definite_length, DM_MAX_DEPTH, elements, 4, &outcome) != DM_OK;
    *faults += outcome.elements != DM_MAX_DEPTH;
    *faults += dm_parse_ber(definite, definite_length, DM_MAX_DEPTH, elements, 4, &outcome) != DM_OK;
    *faults += dm_check_der(definite, definite_length, (size_t)-1, &outcome) != DM_OK;
    *faults += dm_check_ber(definite, definite_length, (size_t)-1, &outcome) != DM_OK;
    *faults += dm_check_der(definite, definite_length, DM_MAX_DEPTH - 1, &outcome) != DM_ERROR || outcome.error != 3;
    *faults += dm_parse_ber(indefinite, indefinite_length, DM_MAX_DEPTH, elements, 4, &outcome) != DM_OK;
    *faults += outcome.elements != DM_MAX_DEPTH;
    *faults += dm_parse_ber(indefinite, indefinite_length - 1, DM_MAX_DEPTH, elements, 4, &outcome) != DM_INCOMPLETE;
    *faults += dm_check_ber(indefinite, indefinite_length, DM_MAX_DEPTH - 1, &outcome) != DM_ERROR;
    *faults += outcome.error != DM_ERROR_MAX_DEPTH || outcome.place != 2 * (DM_MAX_DEPTH - 1);
    *faults += dm_first_ber(framed, framed_length, elements, &outcome) != DM_OK;
    return NULL;
}

/* Runs a function in a thread whose stack has room for DM_MAX_DEPTH levels. What a thread takes for itself, and a
 * system's least, is on top. */
static int run(void *(*function)(void *), int *failed) {
    pthread_attr_t attributes;
    pthread_t thread;
    pthread_attr_init(&attributes);
    return pthread_attr_setstacksize(&attributes, DM_MAX_DEPTH * DM_LEVEL_OCTETS + 32768) != 0
           || pthread_create(&thread, &attributes, function, failed) != 0 || pthread_join(thread, NULL) != 0;
}

int main(void) {
    int failed = 0;
    make_inputs();
    make_unwritten();
    if (run(read_all, &failed) != 0 || run(write_all, &failed) != 0) {
        printf("stack: no thread\n");
        return 2;
    }
    printf("stack: %d failed, %d levels in %d octets\n", failed, DM_MAX_DEPTH, DM_MAX_DEPTH * DM_LEVEL_OCTETS);
    return failed != 0;
}
