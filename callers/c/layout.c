/* Compares the layouts of the header's structs with layout.h, and with those of the library: calls on known inputs write
 * numbers that differ from field to field, into memory that was filled before, and each has to be in its field and
 * nowhere else:  layout layout.rows */
#include "dumarewhi.h"

#include <stdio.h>
#include <stdlib.h>
#include <string.h>

static int passed, failed;

static void expect(int is_so, const char *what) {
    if (is_so) {
        passed++;
    } else {
        failed++;
        printf("layout: %s\n", what);
    }
}

/* Whether all octets from a place to another are as they were before the call. */
static int is_untouched(const void *memory, size_t from, size_t to) {
    const uint8_t *octets = memory;
    for (size_t i = from; i < to; i++) {
        if (octets[i] != 0xaa) return 0;
    }
    return 1;
}

/* A SEQUENCE: [PRIVATE 0xfedcba98] that holds an OCTET STRING of 286 octets, a BOOLEAN, and an empty OCTET STRING. */
static size_t make_input(uint8_t *input) {
    static const uint8_t front[] = {0x30, 0x82, 0x01, 0x2f, 0xff, 0x8f, 0xf6, 0xf2, 0xf5, 0x18, 0x82, 0x01, 0x22};
    static const uint8_t inside[] = {0x04, 0x82, 0x01, 0x1e};
    static const uint8_t last[] = {0x01, 0x01, 0xff};
    memcpy(input, front, sizeof front);
    memset(input + sizeof front, 0, 290);
    memcpy(input + sizeof front, inside, sizeof inside);
    memcpy(input + sizeof front + 290, last, sizeof last);
    input[306] = 0x04;
    input[307] = 0x00;
    input[3] = (uint8_t)(306 + 2 - 4);
    return 308;
}

static void test_sizes(void) {
#define STRUCT(of, size) expect(sizeof(of) == size, "the size of " #of);
#define FIELD(of, name, offset, size, type) \
    expect(offsetof(of, name) == offset && sizeof(((of *)0)->name) == size, #of "." #name);
#include "layout.h"
}

static void test_elements(void) {
    uint8_t input[400];
    union {
        dm_element elements[6];
        uint8_t octets[6 * sizeof(dm_element)];
    } memory;
    dm_outcome outcome;
    size_t length = make_input(input);
    memset(&memory, 0xaa, sizeof memory);
    expect(dm_parse_der(input, length, 9, memory.elements, 6, &outcome) == DM_OK, "the input is read");
    expect(outcome.elements == 5 && outcome.length == 308, "elements and length");
    const dm_element *e = memory.elements;
    expect(e[0].header == 0 && e[0].content == 4 && e[0].end == 308 && e[0].inside == 4, "places of the sequence");
    expect(e[0].number == 16 && e[0].tag_class == 0 && e[0].constructed == 1 && e[0].definite == 1, "its identifier");
    expect(e[1].header == 4 && e[1].content == 13 && e[1].end == 303 && e[1].inside == 1, "places of the second");
    expect(e[1].number == 0xfedcba98u && e[1].tag_class == DM_PRIVATE && e[1].constructed == 1, "its identifier");
    expect(e[1].definite == 1 && e[1].reserved == 0, "its last fields");
    expect(e[2].header == 13 && e[2].content == 17 && e[2].end == 303 && e[2].inside == 0, "places of the third");
    expect(e[3].header == 303 && e[3].content == 305 && e[3].end == 306, "places of the fourth");
    expect(e[3].number == 1 && e[3].constructed == 0, "its identifier");
    expect(e[4].header == 306 && e[4].content == 308 && e[4].end == 308 && e[4].number == 4, "the fifth");
    expect(is_untouched(&memory, 5 * sizeof(dm_element), sizeof memory), "the sixth is untouched");

    memset(&memory, 0xaa, sizeof memory);
    expect(dm_first_der(input + 4, length - 4, memory.elements, &outcome) == DM_OK, "the second is found");
    expect(e[0].header == 0 && e[0].content == 9 && e[0].end == 299 && e[0].inside == 0, "its places");
    expect(e[0].number == 0xfedcba98u && e[0].tag_class == DM_PRIVATE && e[0].constructed == 1, "its identifier");
    expect(e[0].definite == 1 && e[0].reserved == 0, "its last fields");
    expect(is_untouched(&memory, sizeof(dm_element), sizeof memory), "nothing after it is written");

    static const uint8_t indefinite[] = {0x30, 0x80, 0x00, 0x00};
    memset(&memory, 0xaa, sizeof memory);
    expect(dm_parse_ber(indefinite, 4, 9, memory.elements, 6, &outcome) == DM_OK, "an indefinite length is read");
    expect(e[0].definite == 0 && e[0].constructed == 1 && e[0].end == 2, "and told");
}

static int has_outcome(const dm_outcome *o, const size_t want[6]) {
    return o->elements == want[0] && o->length == want[1] && o->place == want[2] && o->missing == want[3]
           && o->status == want[4] && o->error == want[5];
}

static void test_outcomes(void) {
    static const uint8_t read[] = {0x30, 0x03, 0x02, 0x01, 0x05, 0x00};
    static const uint8_t wrong[] = {0x30, 0x05, 0x05, 0x00, 0x01, 0x01, 0x07};
    static const uint8_t cut[] = {0x04, 0x09, 0x00};
    static const size_t want[3][6] = {{2, 5, 0, 0, 0, 0}, {0, 0, 4, 0, 1, 65}, {0, 0, 0, 8, 2, 0}};
    struct {
        dm_outcome outcome;
        uint8_t after[16];
    } memory;
    memset(&memory, 0xaa, sizeof memory);
    expect(dm_check_der(read, sizeof read, 9, &memory.outcome) == 0 && has_outcome(&memory.outcome, want[0]), "Ok");
    memset(&memory, 0xaa, sizeof memory);
    expect(dm_check_der(wrong, sizeof wrong, 9, &memory.outcome) == 1 && has_outcome(&memory.outcome, want[1]),
           "an error");
    memset(&memory, 0xaa, sizeof memory);
    expect(dm_check_der(cut, sizeof cut, 9, &memory.outcome) == 2 && has_outcome(&memory.outcome, want[2]), "cut");
    expect(is_untouched(memory.after, 0, sizeof memory.after), "nothing after an outcome is written");
}

static void test_times(void) {
    struct {
        dm_time time;
        uint8_t after[16];
    } memory;
    const char *text = "19851106210627.123456789-0530";
    memset(&memory, 0xaa, sizeof memory);
    expect(dm_read_time(24, (const uint8_t *)text, strlen(text), &memory.time) == 0, "a time is read");
    const dm_time *t = &memory.time;
    expect(t->year == 1985 && t->nanosecond == 123456789, "year and fraction");
    expect(t->month == 11 && t->day == 6 && t->hour == 21 && t->minute == 6 && t->second == 27, "from month to second");
    expect(t->zone == DM_OFFSET && t->zone_hours == -5 && t->zone_minutes == -30, "zone");
    expect(is_untouched(memory.after, 0, sizeof memory.after), "nothing after a time is written");
}

static void test_writers(void) {
    static uint8_t buffer[400];
    struct {
        dm_writer writer;
        uint8_t after[16];
    } memory;
    struct {
        dm_mark mark;
        uint8_t after[16];
    } outer, inner;
    memset(&memory, 0xaa, sizeof memory);
    memset(&outer, 0xaa, sizeof outer);
    memset(&inner, 0xaa, sizeof inner);
    dm_writer *w = &memory.writer;
    *w = dm_writer_over(buffer, sizeof buffer);
    dm_put_null(w);
    outer.mark = dm_open(w, DM_PRIVATE, 1, 1234567);
    inner.mark = dm_open_sequence(w);
    expect(outer.mark.start == 6 && outer.mark.outer == 0, "the outer mark");
    expect(inner.mark.start == 8 && inner.mark.outer == 6, "the inner mark");
    dm_implicit(w, DM_CONTEXT_SPECIFIC, 0xfedcba98u);
    expect(w->octets == buffer && w->capacity == 400 && w->count == 9, "buffer, capacity and count");
    expect(w->innermost == 8 && w->implicit == 3 && w->number == 0xfedcba98u, "the rest of the state");
    expect(is_untouched(memory.after, 0, 16) && is_untouched(outer.after, 0, 16) && is_untouched(inner.after, 0, 16),
           "nothing after a writer or a mark is written");
}

/* A field of a struct, with its type. One without a name is the size of a struct. */
typedef struct {
    const char *of, *name, *type;
    size_t offset, size;
} field;

static const field fields[] = {
#define STRUCT(of, size) {#of, NULL, NULL, 0, size},
#define FIELD(of, name, offset, size, type) {#of, #name, #type, offset, size},
#include "layout.h"
};

/* The calls that read an input, or an item of a list, and their results. */
#define READ(call, type)                                                                  \
    static uint32_t try_##call(dm_octets *part, void *result) {                           \
        dm_fault fault;                                                                   \
        return call(part->octets, part->length, (type *)result, &fault) == DM_OK;         \
    }
#define NEXT(call, type)                                                                  \
    static uint32_t try_##call(dm_octets *part, void *result) { return call(part, (type *)result); }
#include "layout.h"

static const struct {
    const char *name, *type;
    size_t size;
    uint32_t (*call)(dm_octets *, void *);
} calls[] = {
#define READ(call, type) {#call, #type, sizeof(type), try_##call},
#define NEXT(call, type) {#call, #type, sizeof(type), try_##call},
#include "layout.h"
};

static uint8_t input[400];
static char found[1000];

/* Adds a number of so many octets to what was found. */
static void add_number(const uint8_t *memory, size_t size) {
    uint64_t number = 0;
    memcpy(&number, memory, size);
    sprintf(found + strlen(found), "%s%lu", found[0] == 0 ? "" : " ", (unsigned long)number);
}

/* Adds all that is in a struct, those inside it too. */
static void add_fields(const char *type, const uint8_t *memory) {
    if (strcmp(type, "dm_octets") == 0) {
        dm_octets part;
        memcpy(&part, memory, sizeof part);
        const char *space = found[0] == 0 ? "" : " ";
        if (part.length == 0) sprintf(found + strlen(found), "%s-", space);
        else sprintf(found + strlen(found), "%s%d+%d", space, (int)(part.octets - input), (int)part.length);
        return;
    }
    size_t count = 0;
    for (size_t i = 0; i < sizeof fields / sizeof *fields; i++) {
        if (strcmp(fields[i].of, type) != 0 || fields[i].name == NULL) continue;
        count++;
        if (strncmp(fields[i].type, "dm_", 3) == 0) add_fields(fields[i].type, memory + fields[i].offset);
        else add_number(memory + fields[i].offset, fields[i].size);
    }
    if (count == 0) add_number(memory, sizeof(uint32_t));
}

/* The part that a row names: octets, which are the input from there on, or an offset and a length in it. */
static dm_octets part_of(const char *text) {
    unsigned offset, length, octet;
    if (sscanf(text, "%u+%u", &offset, &length) == 2) return (dm_octets){input + offset, length};
    for (length = 0; sscanf(text, "%2x", &octet) == 1; text += 3) input[length++] = (uint8_t)octet;
    return (dm_octets){input, length};
}

/* Compares what a call wrote with its row, and whether nothing after the result is written. */
static void test_row(char *line) {
    const char *name = strtok(line, "|\n"), *part = strtok(NULL, "|\n"), *wanted = strtok(NULL, "|\n");
    for (size_t i = 0; i < sizeof calls / sizeof *calls; i++) {
        if (strncmp(calls[i].name + 3, name, strlen(calls[i].name + 3)) != 0 || name[strlen(calls[i].name + 3)] != ' ')
            continue;
        dm_octets octets = part_of(part + 1);
        uint8_t *memory = malloc(calls[i].size + 16);
        if (memory == NULL) exit(2);
        memset(memory, 0xaa, calls[i].size + 16);
        found[0] = 0;
        expect(calls[i].call(&octets, memory) == 1, calls[i].name);
        add_fields(calls[i].type, memory);
        expect(strcmp(found, wanted + 1) == 0, line);
        expect(is_untouched(memory, calls[i].size, calls[i].size + 16), "nothing after a result is written");
        free(memory);
        return;
    }
    expect(0, line);
}

/* Each struct that a call writes is in a row. */
static void test_rows(FILE *file) {
    static char line[2000], seen[sizeof calls / sizeof *calls];
    while (fgets(line, sizeof line, file) != NULL) {
        if (line[0] == '#') continue;
        for (size_t i = 0; i < sizeof calls / sizeof *calls; i++) {
            size_t length = strlen(calls[i].name + 3);
            if (strncmp(line, calls[i].name + 3, length) == 0 && line[length] == ' ') seen[i] = 1;
        }
        test_row(line);
    }
    for (size_t i = 0; i < sizeof calls / sizeof *calls; i++) {
        int is_seen = 0;
        for (size_t j = 0; j < sizeof calls / sizeof *calls; j++)
            is_seen |= seen[j] && strcmp(calls[i].type, calls[j].type) == 0;
        expect(is_seen, calls[i].type);
    }
}

/* A fault has its fields, and leaves the result alone. */
static void test_faults(void) {
    static const uint8_t octets[] = {0x30, 0x0a, 0x02, 0x01, 0x00, 0x30, 0x03, 0x06, 0x01, 0x2a, 0x04, 0x00};
    uint8_t wrong[sizeof octets];
    struct {
        dm_fault fault;
        uint8_t after[16];
    } memory;
    dm_private_key key;
    memset(&memory, 0xaa, sizeof memory);
    const dm_fault *f = &memory.fault;
    expect(dm_read_private_key(octets, sizeof octets, &key, &memory.fault) == DM_OK, "a private key");
    expect(f->status == 0 && f->error == 0 && f->field == 0 && f->needed == 0, "no fault");
    expect(dm_read_private_key(octets, sizeof octets - 1, &key, &memory.fault) == DM_INCOMPLETE, "cut short");
    expect(f->needed == 1 && f->is_in_list == 0 && f->offset == 0, "one octet is missing");
    expect(f->field == DM_FIELD_KEY && f->error == 0, "of the key");
    memcpy(wrong, octets, sizeof octets);
    wrong[7] = DM_OCTET_STRING;
    expect(dm_read_private_key(wrong, sizeof wrong, &key, &memory.fault) == DM_ERROR, "an error");
    expect(f->offset == 7 && f->list_end == 10 && f->is_in_list == 1, "its offset and list");
    expect(f->error == DM_ERROR_UNEXPECTED_TAG && f->field == DM_FIELD_KEY_ALGORITHM, "its number and field");
    expect(key.algorithm.octets == octets + 9 && key.algorithm.length == 1, "the key stays");
    expect(is_untouched(memory.after, 0, 16), "nothing after a fault is written");
}

int main(int count, char **words) {
    FILE *file = count == 2 ? fopen(words[1], "r") : NULL;
    if (file == NULL) return 2;
    test_sizes();
    test_elements();
    test_outcomes();
    test_times();
    test_writers();
    test_rows(file);
    test_faults();
    fclose(file);
    printf("layout: %d passed, %d failed\n", passed, failed);
    return failed != 0;
}
