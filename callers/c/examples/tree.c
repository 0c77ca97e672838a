/* Prints the elements of a file in DER or BER as a tree:  tree der|ber FILE */
#include "dumarewhi.h"

#include <stdio.h>
#include <stdlib.h>
#include <string.h>

static uint8_t *read_file(const char *name, size_t *length) {
    FILE *file = fopen(name, "rb");
    size_t room = 1 << 16;
    uint8_t *octets = malloc(room);
    size_t got;
    *length = 0;
    if (file == NULL || octets == NULL) return NULL;
    while ((got = fread(octets + *length, 1, room - *length, file)) > 0) {
        *length += got;
        if (*length == room) {
            room *= 2;
            octets = realloc(octets, room);
            if (octets == NULL) return NULL;
        }
    }
    fclose(file);
    return octets;
}

static const char *const classes[] = {"universal", "application", "context", "private"};

/* An attacker may have chosen the text: what isn't printable ASCII is printed as \xNN. */
static void print_text(const uint8_t *text, size_t length) {
    for (size_t i = 0; i < length; i++) {
        if (text[i] >= 0x20 && text[i] < 0x7f && text[i] != '\\' && text[i] != '"') putchar(text[i]);
        else printf("\\x%02x", text[i]);
    }
}

/* The value of some universal types, and the octets of every other primitive element. */
static void print_content(const uint8_t *content, size_t length, const dm_element *element) {
    int is_universal = element->tag_class == DM_UNIVERSAL;
    int64_t number;
    uint8_t truth, text[128];
    size_t needed;
    if (is_universal && element->number == DM_BOOLEAN && dm_read_bool(content, length, &truth) == 0) {
        printf(" %s", truth ? "true" : "false");
    } else if (is_universal && element->number == DM_INTEGER && dm_read_i64(content, length, &number) == 0) {
        printf(" %lld", (long long)number);
    } else if (is_universal && element->number == DM_OBJECT_IDENTIFIER
               && dm_read_oid(content, length, text, sizeof text, &needed) == 0 && needed <= sizeof text) {
        printf(" %.*s", (int)needed, (const char *)text);
    } else if (is_universal && element->number != DM_BMP_STRING
               && dm_check_text(element->number, content, length) == 0) {
        printf(" \"");
        print_text(content, length);
        printf("\"");
    } else {
        for (size_t i = 0; i < length && i < 16; i++) printf(" %02x", content[i]);
        if (length > 16) printf(" .. (%zu octets)", length);
    }
}

/* The elements inside an element follow it, so its depth is the number of elements still open. */
static void print_tree(const uint8_t *input, const dm_element *elements, size_t count) {
    size_t last[DM_MAX_DEPTH + 1];
    size_t depth = 0;
    for (size_t i = 0; i < count; i++) {
        const dm_element *element = &elements[i];
        while (depth > 0 && last[depth - 1] < i) depth--;
        printf("%6zu %*s[%s %u]", element->header, (int)(2 * depth), "", classes[element->tag_class], element->number);
        if (!element->constructed) {
            print_content(input + element->content, element->end - element->content, element);
        } else {
            printf(" %zu octets%s", element->end - element->content, element->definite ? "" : ", indefinite");
        }
        putchar('\n');
        if (element->inside > 0) last[depth++] = i + element->inside;
    }
}

int main(int count, char **words) {
    dm_outcome outcome;
    size_t length;
    if (count != 3) {
        fprintf(stderr, "tree der|ber FILE\n");
        return 2;
    }
    uint8_t *input = read_file(words[2], &length);
    if (input == NULL) {
        perror(words[2]);
        return 2;
    }
    int is_ber = strcmp(words[1], "ber") == 0;
    /* The first call counts the elements, and the second lists them. */
    uint32_t status = is_ber ? dm_check_ber(input, length, DM_MAX_DEPTH, &outcome)
                             : dm_check_der(input, length, DM_MAX_DEPTH, &outcome);
    if (status == DM_ERROR) {
        uint8_t text[DM_TEXT_OCTETS];
        size_t size = dm_error_text(outcome.error, text, sizeof text);
        fprintf(stderr, "at %zu: %.*s\n", outcome.place, (int)size, (const char *)text);
        return 1;
    }
    if (status == DM_INCOMPLETE) {
        fprintf(stderr, "cut short: %zu octets are missing\n", outcome.missing);
        return 1;
    }
    dm_element *elements = malloc(outcome.elements * sizeof *elements);
    if (elements == NULL) return 2;
    if (is_ber) {
        dm_parse_ber(input, length, DM_MAX_DEPTH, elements, outcome.elements, &outcome);
    } else {
        dm_parse_der(input, length, DM_MAX_DEPTH, elements, outcome.elements, &outcome);
    }
    print_tree(input, elements, outcome.elements);
    printf("%zu elements in %zu octets, %zu octets follow\n", outcome.elements, outcome.length,
           length - outcome.length);
    free(elements);
    free(input);
    return 0;
}
