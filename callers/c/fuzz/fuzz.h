/* What the targets for libFuzzer share. Each reads any octets, and ends the run where a promise of dumarewhi.h is
 * broken:
 *
 *     clang -fsanitize=fuzzer,address,undefined -I../include elements.c libdumarewhi_c.a && ./a.out -max_total_time=20
 */
#ifndef DUMAREWHI_FUZZ_H
#define DUMAREWHI_FUZZ_H

#include "dumarewhi.h"

#include <stdlib.h>
#include <string.h>

int LLVMFuzzerTestOneInput(const uint8_t *input, size_t length);

static inline void expect(int is_so) {
    if (!is_so) abort();
}

/* A part is empty or lies in the octets. */
static inline void expect_part(dm_octets part, const uint8_t *octets, size_t length) {
    if (part.length == 0) return;
    expect(part.octets >= octets && part.octets < octets + length);
    expect(part.length <= (size_t)(octets + length - part.octets));
}

static inline void expect_bits(const dm_bits *bits, const uint8_t *octets, size_t length) {
    expect_part(bits->octets, octets, length);
    expect(bits->is_present <= 1 && bits->unused <= (bits->octets.length == 0 ? 0 : 7));
}

static inline void expect_any(const dm_any *any, const uint8_t *octets, size_t length) {
    expect_part(any->content, octets, length);
    expect(any->tag_class <= DM_PRIVATE && any->constructed <= 1 && any->reserved == 0);
}

static inline void expect_general_name(const dm_general_name *name, const uint8_t *octets, size_t length) {
    expect_part(name->octets, octets, length);
    expect_part(name->identifier, octets, length);
    expect(name->kind <= DM_REGISTERED_ID && name->reserved == 0);
}

/* A fault of an input has its offsets in it, and a text. */
static inline void expect_fault(const dm_fault *fault, uint32_t status, size_t length) {
    uint8_t text[DM_TEXT_OCTETS];
    expect(fault->status == status && status <= DM_INCOMPLETE);
    expect((status == DM_ERROR) == (fault->error != 0));
    expect(fault->offset <= length && fault->list_end <= length && fault->is_in_list <= 1);
    size_t size = dm_fault_text(fault, text, sizeof text);
    expect(size > 0 && size <= sizeof text);
}

/* The lists of names and of extensions that a certificate or the like has. */
static inline void expect_name(dm_octets name, const uint8_t *octets, size_t length) {
    dm_octets attributes;
    dm_attribute attribute;
    while (dm_next_relative_name(&name, &attributes)) {
        expect(attributes.length > 0);
        while (dm_next_attribute(&attributes, &attribute)) expect_part(attribute.value, octets, length);
        expect(attributes.length == 0);
    }
    expect(name.length == 0);
}

static inline void expect_extensions(dm_octets list, const uint8_t *octets, size_t length) {
    dm_extension extension;
    while (dm_next_extension(&list, &extension)) {
        expect_part(extension.identifier, octets, length);
        expect_part(extension.value, octets, length);
        expect(extension.critical <= 1);
    }
    expect(list.length == 0);
}

#endif
