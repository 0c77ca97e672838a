/* Makes the calls of the page on a file, as page/src/module.js does, for tools/growth:  growth-page FILE */
#include <stddef.h>
#include <stdint.h>
#include <stdio.h>
#include <stdlib.h>
#include <string.h>

enum { MOST_OCTETS = 1 << 26, BER = 0, DER = 1, NO_BLOCK = 13 };
enum { PEM = 1, DIGITS, BASE64 };

typedef struct { uint64_t numbers[8]; } page_row;
typedef struct { size_t rows, place, depth; uint32_t refused; } page_outcome;
typedef struct { const uint8_t *octets; size_t length; } page_octets;
typedef struct { page_octets label, rest; size_t size; } page_block_found;

uint32_t page_form(const uint8_t *, size_t);
size_t page_kind(const uint8_t *, size_t, uint8_t *, size_t);
uint32_t page_digits(const uint8_t *, size_t, uint8_t *, size_t, uint8_t *, size_t, size_t *);
uint32_t page_base64(const uint8_t *, size_t, uint8_t *, size_t, uint8_t *, size_t, size_t *);
uint32_t page_block(const uint8_t *, size_t, uint8_t *, size_t, uint8_t *, size_t, page_block_found *);
void page_list(const uint8_t *, size_t, uint32_t, page_row *, size_t, page_outcome *);
uint32_t page_is_elements(const uint8_t *, size_t, uint32_t);
size_t page_name(const page_row *, uint8_t *, size_t);
size_t page_value(const uint8_t *, size_t, const page_row *, uint32_t, uint8_t *, size_t);
size_t page_remark(const uint8_t *, size_t, const page_row *, uint8_t *, size_t);
size_t page_line(const uint8_t *, size_t, const page_row *, uint32_t, uint8_t *, size_t);
size_t page_path(const page_row *, size_t, size_t, uint8_t *, size_t);
size_t page_refusal(const uint8_t *, size_t, uint32_t, uint32_t, uint8_t *, size_t);
size_t page_fields(const uint8_t *, size_t, uint8_t *, size_t);
size_t page_shown(const uint8_t *, size_t, uint64_t, uint8_t *, size_t);
uint32_t page_canonical(const uint8_t *, size_t, uint8_t *, size_t, size_t *);
size_t page_canonical_fault(const uint8_t *, size_t, uint8_t *, size_t, uint8_t *, size_t);

static uint8_t *input, *characters, *octets;
static size_t length;

static void read_row(const page_row *row) {
    page_name(row, octets, MOST_OCTETS);
    page_value(input, length, row, 1, octets, MOST_OCTETS);
    page_remark(input, length, row, octets, MOST_OCTETS);
    page_line(input, length, row, 0, octets, MOST_OCTETS);
}

static void read_elements(void) {
    page_outcome outcome;
    size_t needed;
    page_list(input, length, BER, (page_row *)octets, 0, &outcome);
    page_row *rows = malloc((outcome.rows + 1) * sizeof *rows);
    if (rows == NULL) exit(2);
    page_list(input, length, BER, rows, outcome.rows, &outcome);
    page_is_elements(input, length, DER);
    for (size_t i = 0; i < outcome.rows; i++) read_row(&rows[i]);
    if (outcome.rows > 0) page_path(rows, outcome.rows, outcome.rows - 1, octets, MOST_OCTETS);
    free(rows);
    page_refusal(input, length, DER, 0, octets, MOST_OCTETS);
    page_fields(input, length, octets, MOST_OCTETS);
    page_shown(input, length, 0, octets, MOST_OCTETS);
    if (page_canonical(input, length, octets, MOST_OCTETS, &needed) != 0) {
        page_canonical_fault(input, length, octets, MOST_OCTETS, characters, MOST_OCTETS);
    }
}

static void read_blocks(void) {
    page_block_found block = {{input, 0}, {input, length}, 0};
    page_octets rest;
    do rest = block.rest;
    while (page_block(rest.octets, rest.length, characters, MOST_OCTETS, octets, MOST_OCTETS, &block) != NO_BLOCK);
}

/* What text encodes is then the input. */
static void decode(uint32_t form) {
    size_t size = 0;
    if (form == DIGITS) page_digits(input, length, characters, MOST_OCTETS, octets, MOST_OCTETS, &size);
    else page_base64(input, length, characters, MOST_OCTETS, octets, MOST_OCTETS, &size);
    memcpy(input, octets, size);
    length = size;
}

int main(int count, char **words) {
    FILE *file = count == 2 ? fopen(words[1], "rb") : NULL;
    input = malloc(MOST_OCTETS), characters = malloc(MOST_OCTETS), octets = malloc(MOST_OCTETS);
    if (!file || !input || !characters || !octets) return 2;
    length = fread(input, 1, MOST_OCTETS, file);
    uint32_t form = page_form(input, length);
    page_kind(input, length, octets, MOST_OCTETS);
    if (form == DIGITS || form == BASE64) decode(form);
    if (form == PEM) read_blocks();
    else read_elements();
    return 0;
}
