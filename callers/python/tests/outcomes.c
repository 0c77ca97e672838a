/* Prints what each call returns for each input of a file:  outcomes FILE
 *
 * An input is the numbers of its octets and of the depth, each in four octets, the lowest first, and then its octets.
 * For each there are three lines: of dm_parse_der, of dm_parse_ber and of dm_write_der. */
#include "dumarewhi.h"

#include <inttypes.h>
#include <stdio.h>
#include <stdlib.h>

typedef uint32_t parse(const uint8_t *, size_t, size_t, dm_element *, size_t, dm_outcome *);

static void *room_for(size_t size) {
    void *room = malloc(size + 1);
    if (room == NULL) exit(2);
    return room;
}

/* An error, or what is missing. */
static void print_failure(const dm_outcome *outcome) {
    if (outcome->status == DM_ERROR) printf("error %" PRIu32 " at %zu\n", outcome->error, outcome->place);
    else printf("missing %zu\n", outcome->missing);
}

static void print_elements(const uint8_t *input, size_t length, size_t depth, parse *parse) {
    dm_outcome outcome;
    dm_element *elements = room_for((length / 2 + 1) * sizeof *elements);
    if (parse(input, length, depth, elements, length / 2 + 1, &outcome) != DM_OK) {
        print_failure(&outcome);
    } else {
        printf("%zu elements in %zu:", outcome.elements, outcome.length);
        for (size_t i = 0; i < outcome.elements; i++) {
            const dm_element *e = &elements[i];
            printf(" %zu.%zu.%zu.%zu.%" PRIu32 ".%u.%u.%u", e->header, e->content, e->end, e->inside, e->number,
                   (unsigned)e->tag_class, (unsigned)e->constructed, (unsigned)e->definite);
        }
        putchar('\n');
    }
    free(elements);
}

static void print_written(const uint8_t *input, size_t length) {
    dm_outcome outcome;
    dm_write_der(input, length, room_for(0), 0, &outcome);
    size_t room = outcome.length;
    uint8_t *out = room_for(room);
    if (dm_write_der(input, length, out, room, &outcome) != DM_OK) {
        print_failure(&outcome);
    } else {
        printf("der ");
        for (size_t i = 0; i < outcome.length; i++) printf("%02x", out[i]);
        putchar('\n');
    }
    free(out);
}

/* A number of four octets. Returns whether there is one. */
static int read_number(FILE *file, size_t *number) {
    uint8_t octets[4];
    if (fread(octets, 1, 4, file) != 4) return 0;
    *number = (size_t)octets[0] | (size_t)octets[1] << 8 | (size_t)octets[2] << 16 | (size_t)octets[3] << 24;
    return 1;
}

int main(int count, char **words) {
    FILE *file = count == 2 ? fopen(words[1], "rb") : NULL;
    size_t length, depth;
    if (file == NULL) return 2;
    while (read_number(file, &length) && read_number(file, &depth)) {
        uint8_t *input = room_for(length);
        if (fread(input, 1, length, file) != length) return 2;
        print_elements(input, length, depth, dm_parse_der);
        print_elements(input, length, depth, dm_parse_ber);
        print_written(input, length);
        free(input);
    }
    return 0;
}
