/* Encodes dotted texts, in buffers of each size, and compares the octets with those of the rows:
 *     identifiers identifiers.rows */
#include "dumarewhi.h"

#include <stdio.h>
#include <stdlib.h>
#include <string.h>

enum { MOST = 64, LONG = 1 << 20 };

static char line[256], text[256];
static size_t length;
static int passed, failed;

static void expect(int is_so, const char *what) {
    if (is_so) passed++;
    else failed++, printf("identifiers: %s of %s", what, line);
}

/* The octets of a row, and its text: what stands between quotes. */
static int read_row(uint8_t *octets, size_t *size) {
    const char *at = line, *begin = strchr(line, '"'), *end = strrchr(line, '"');
    unsigned octet;
    if (begin == NULL || begin == end) return 0;
    for (*size = 0; sscanf(at, "%2x", &octet) == 1; at += 2) octets[(*size)++] = (uint8_t)octet;
    for (length = 0, at = begin + 1; at < end; at++) {
        int is_zero = at[0] == '\\' && at[1] == '0';
        text[length++] = is_zero ? 0 : *at;
        at += is_zero;
    }
    return 1;
}

static int is_filled(const uint8_t *octets, size_t from) {
    while (from < MOST && octets[from] == '#') from++;
    return from == MOST;
}

static void test_octets(const uint8_t *wanted, size_t size) {
    uint8_t dotted[256];
    size_t again = 77, needed = 77;
    for (size_t room = 0; room <= size + 1; room++) {
        uint8_t octets[MOST];
        size_t written = room < size ? room : size;
        memset(octets, '#', sizeof octets);
        expect(dm_oid_from_text(text, length, octets, room, &needed) == 0 && needed == size, "the size");
        expect(memcmp(octets, wanted, written) == 0 && is_filled(octets, written), "the octets");
    }
    uint8_t octets[MOST];
    expect(dm_read_oid(wanted, size, dotted, sizeof dotted, &again) == 0 && again <= length
               && dm_oid_from_text((const char *)dotted, again, octets, sizeof octets, &needed) == 0 && needed == size
               && memcmp(octets, wanted, size) == 0,
           "the text that is read");
}

static void test_error(void) {
    for (size_t room = 0; room <= MOST; room++) {
        uint8_t octets[MOST];
        size_t needed = 77;
        memset(octets, '#', sizeof octets);
        expect(dm_oid_from_text(text, length, octets, room, &needed) == DM_ERROR_WRONG_VALUE, "the error");
        expect(needed == 77 && is_filled(octets, 0), "what is written");
    }
}

/* A text of a million characters: it begins with `first`, and then has `part` again and again. */
static void test_long(const char *first, const char *part, uint32_t wanted, size_t size) {
    char *long_text = malloc(LONG);
    size_t needed = 0, end = strlen(first);
    if (long_text == NULL) exit(2);
    memcpy(long_text, first, end);
    for (; end + strlen(part) <= LONG; end += strlen(part)) memcpy(long_text + end, part, strlen(part));
    uint32_t result = dm_oid_from_text(long_text, end, NULL, 0, &needed);
    strcpy(line, "a long text\n");
    expect(result == wanted && needed == size, part);
    free(long_text);
}

int main(int count, char **words) {
    FILE *rows = count == 2 ? fopen(words[1], "r") : NULL;
    if (rows == NULL) return 2;
    while (fgets(line, sizeof line, rows) != NULL) {
        uint8_t octets[MOST];
        size_t size;
        if (line[0] == '#') continue;
        if (!read_row(octets, &size)) return printf("identifiers: %s isn't read\n", line), 1;
        if (line[0] == '-') test_error();
        else test_octets(octets, size);
    }
    fclose(rows);
    test_long("1.2", ".1", 0, 1 + (LONG - 3) / 2);
    test_long("1.0", "0", 0, 1);
    test_long("1.2.", "9", DM_ERROR_WRONG_VALUE, 0);
    test_long("1.2", ".", DM_ERROR_WRONG_VALUE, 0);
    printf("identifiers: %d passed, %d failed\n", passed, failed);
    return passed == 0 || failed != 0;
}
