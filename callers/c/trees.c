/* Random trees that are written:  trees FOLDER TREES
 *
 * Each is a list of elements with their content octets, and put by dm_writer. dm_parse_der has to find these elements.
 * The file trees.der of the folder has the octets of all, and trees.lines what openssl asn1parse has to print of them:
 * offset, depth, lengths, constructed bit and type of each element, and the number of an INTEGER or ENUMERATED. */
#include "dumarewhi.h"

#include <inttypes.h>
#include <stddef.h>
#include <stdio.h>
#include <stdlib.h>
#include <string.h>

enum { NODES = 4096, DEPTH = 5, CONTENT = 300, SIZE = 1 << 21 };

/* What is put of an element. */
enum kind { BOOLEAN, NUMBER, NATURAL, MAGNITUDE, ENUMERATED, BITS, OCTETS, NONE, ARCS, TEXT, TIME, LIST, STRING };

struct node {
    enum kind kind;
    uint8_t tag_class, constructed, implicit;
    uint32_t number;
    size_t inside, length;     /* how many of those that follow are inside it; how many content octets it has */
    int64_t value;             /* of a number; which identifier; which type of text or time */
    uint8_t content[CONTENT];  /* the content octets, if nothing is inside */
};

static struct node nodes[NODES];
static size_t count;
static unsigned long failed, elements, octets_in_all;

static void expect(int is_so, const char *what) {
    if (!is_so && failed++ < 10) printf("trees: %s\n", what);
}

static uint64_t state = 88172645463325252u;

/* A number below a bound, by xorshift: the same numbers in each run. */
static size_t below(size_t bound) {
    state ^= state << 13;
    state ^= state >> 7;
    state ^= state << 17;
    return bound == 0 ? 0 : (size_t)(state % bound);
}

/* Sizes around those that change a length (X.690 8.1.3.4, 8.1.3.5), and small ones. */
static size_t some_size(void) {
    static const size_t sizes[] = {126, 127, 128, 129, 254, 255, 256, 257};
    return below(4) == 0 ? sizes[below(8)] : below(20);
}

/* A tag number that openssl takes. */
static uint32_t some_number(void) { return (uint32_t)below(INT32_MAX) >> below(31); }

/* Identifiers, as openssl asn1parse -genstr OID:.. writes them. */
static const struct {
    uint64_t arcs[6];
    size_t count;
    const char *content;
} identifiers[] = {
    {{2, 5, 4, 3}, 4, "\x55\x04\x03"},
    {{2, 999, 3}, 3, "\x88\x37\x03"},
    {{1, 2, 840, 113549, 1, 9}, 6, "\x2a\x86\x48\x86\xf7\x0d\x01\x09"},
    {{0, 39}, 2, "\x27"},
};

static const uint32_t texts[] = {12, 18, 19, 20, 22, 26, 27};

static void fill(struct node *n, size_t length) {
    n->length = length;
    for (size_t i = 0; i < length; i++) n->content[i] = (uint8_t)below(256);
}

/* The fewest octets of a number in two's complement (8.3.2), of up to 8 octets that are chosen first. */
static void fill_number(struct node *n, int is_natural) {
    do {
        fill(n, 1 + below(8));
        if (is_natural) n->content[0] &= 0x7f;
    } while (n->length > 1 && n->content[0] == (n->content[1] < 128 ? 0 : 255));
    uint64_t value = n->content[0] < 128 ? 0 : UINT64_MAX;
    for (size_t i = 0; i < n->length; i++) value = value << 8 | n->content[i];
    n->value = (int64_t)value;
}

/* 13 or 15 digits: a UTCTime or GeneralizedTime of 2026. */
static void fill_time(struct node *n) {
    static const char form[] = "20261127090500Z";
    n->value = (int64_t)(10 + below(50));
    char text[16];
    memcpy(text, form, sizeof form);
    text[12] = (char)('0' + n->value / 10);
    text[13] = (char)('0' + n->value % 10);
    const char *begin = n->number == 23 ? text + 2 : text;
    n->length = strlen(begin);
    memcpy(n->content, begin, n->length);
}

static void fill_text(struct node *n) {
    n->number = texts[below(sizeof texts / sizeof *texts)];
    n->length = some_size();
    for (size_t i = 0; i < n->length; i++) n->content[i] = (uint8_t)('0' + below(10));
}

static void fill_bits(struct node *n) {
    size_t length = below(20), unused = length == 0 ? 0 : below(8);
    fill(n, 1 + length);
    n->content[0] = (uint8_t)unused;
    if (length > 0) n->content[length] = (uint8_t)(n->content[length] >> unused << unused);
}

static void fill_identifier(struct node *n) {
    n->value = (int64_t)below(sizeof identifiers / sizeof *identifiers);
    const char *content = identifiers[n->value].content;
    n->length = strlen(content);
    memcpy(n->content, content, n->length);
}

/* The universal type of a kind (X.680 8.4); that of a text or time is chosen. */
static const uint32_t types[] = {1, 2, 2, 2, 10, 3, 4, 5, 6, 0, 0, 16, 4};

static void fill_leaf(struct node *n) {
    switch (n->kind) {
    case BOOLEAN: fill(n, 1); n->content[0] = n->content[0] < 128 ? 0 : 255; break;
    case NUMBER: case ENUMERATED: fill_number(n, 0); break;
    case NATURAL: fill_number(n, 1); break;
    case MAGNITUDE: fill(n, 2 + below(40)); n->content[0] = 0, n->content[1] |= 0x80; break;
    case BITS: fill_bits(n); break;
    case OCTETS: fill(n, some_size()); break;
    case ARCS: fill_identifier(n); break;
    case TEXT: fill_text(n); break;
    case TIME: n->number = (uint32_t)(23 + below(2)); fill_time(n); break;
    default: break;
    }
}

/* How many octets a header has (8.1.2, 8.1.3, 10.1). */
static size_t header_size(uint32_t number, size_t length) {
    size_t size = 2;
    if (number > 30) do size++; while ((number >>= 7) > 0);
    if (length > 127) do size++; while ((length >>= 8) > 0);
    return size;
}

/* Makes a list of elements, and returns the size of them all. */
static size_t make_elements(size_t depth, size_t fields);

/* Makes an element, and returns its size. */
static size_t make_element(size_t depth) {
    struct node *n = &nodes[count++];
    memset(n, 0, offsetof(struct node, content));
    n->kind = depth == DEPTH ? LIST : (enum kind)below(depth == 0 ? LIST : LIST + 5);
    if (n->kind > STRING) n->kind = LIST;
    n->number = types[n->kind];
    fill_leaf(n);
    if (n->kind == LIST && below(3) == 0) n->number = 17;
    n->constructed = n->kind == LIST;
    if (below(4) == 0) n->tag_class = (uint8_t)(1 + below(3)), n->number = some_number(), n->implicit = 1;
    size_t before = count;
    if (n->kind >= LIST) n->length = make_elements(depth - 1, below(5));
    n->inside = count - before;
    return header_size(n->number, n->length) + n->length;
}

static size_t make_elements(size_t depth, size_t fields) {
    size_t size = 0;
    for (; fields > 0 && count < NODES / 2; fields--) size += make_element(depth);
    return size;
}

static void put_time(dm_writer *w, const struct node *n, uint32_t type) {
    dm_time time = {2026, 0, 11, 27, 9, 5, (uint8_t)n->value, DM_UTC, 0, 0};
    expect(dm_put_time(w, type, &time) == 0, "a time");
}

static void put_leaf(dm_writer *w, const struct node *n) {
    /* The type of a text or time under an implicit tag is any that has these octets. */
    uint32_t text = n->implicit ? 12 : n->number, time = n->length == 13 ? 23 : 24;
    if (n->implicit) dm_implicit(w, n->tag_class, n->number);
    switch (n->kind) {
    case BOOLEAN: dm_put_bool(w, n->content[0]); break;
    case NUMBER: dm_put_i64(w, n->value); break;
    case NATURAL: dm_put_u64(w, (uint64_t)n->value); break;
    case MAGNITUDE: dm_put_magnitude(w, n->content, n->length); break;
    case ENUMERATED: dm_put_enumerated_i64(w, n->value); break;
    case BITS: dm_put_bits(w, n->content[0], n->content + 1, n->length - 1); break;
    case OCTETS: dm_put_octets(w, n->content, n->length); break;
    case NONE: dm_put_null(w); break;
    case ARCS: expect(dm_put_arcs(w, identifiers[n->value].arcs, identifiers[n->value].count) == 0, "arcs"); break;
    case TEXT: expect(dm_put_text(w, text, n->content, n->length) == 0, "a text"); break;
    case TIME: put_time(w, n, time); break;
    default: break;
    }
}

/* Puts the elements from one index to another. */
static void put(dm_writer *w, size_t begin, size_t end) {
    for (size_t i = begin; i < end; i += 1 + nodes[i].inside) {
        const struct node *n = &nodes[i];
        if (n->kind < LIST) {
            put_leaf(w, n);
            continue;
        }
        dm_mark mark = dm_open(w, n->tag_class, n->constructed, n->number);
        put(w, i + 1, i + 1 + n->inside);
        dm_close(w, mark);
    }
}

/* How many elements readers list: those in an OCTET STRING aren't. */
static size_t listed(size_t begin, size_t end) {
    size_t all = 0;
    for (size_t i = begin; i < end; i += 1 + nodes[i].inside)
        all += 1 + (nodes[i].kind == STRING ? 0 : listed(i + 1, i + 1 + nodes[i].inside));
    return all;
}

/* Whether the elements that were read are those from one index to another. */
static size_t compare(const uint8_t *octets, const dm_element *e, size_t begin, size_t end) {
    size_t read = 0;
    for (size_t i = begin; i < end; i += 1 + nodes[i].inside) {
        const struct node *n = &nodes[i];
        const dm_element *found = &e[read++];
        size_t length = found->end - found->content;
        expect(found->tag_class == n->tag_class && found->constructed == n->constructed && found->number == n->number,
               "the tag of an element");
        expect(length == n->length && found->content - found->header == header_size(n->number, length), "its lengths");
        if (n->kind < LIST) expect(memcmp(octets + found->content, n->content, length) == 0, "its content octets");
        if (n->kind != STRING) read += compare(octets, e + read, i + 1, i + 1 + n->inside);
    }
    return read;
}

/* The name that openssl asn1parse has for a tag. */
static void name_of(const struct node *n, char *name, size_t size) {
    static const char *const universal[31] = {
        [1] = "BOOLEAN", [2] = "INTEGER", [3] = "BIT STRING", [4] = "OCTET STRING", [5] = "NULL", [6] = "OBJECT",
        [10] = "ENUMERATED", [12] = "UTF8STRING", [16] = "SEQUENCE", [17] = "SET", [18] = "NUMERICSTRING",
        [19] = "PRINTABLESTRING", [20] = "T61STRING", [22] = "IA5STRING", [23] = "UTCTIME", [24] = "GENERALIZEDTIME",
        [26] = "VISIBLESTRING", [27] = "GENERALSTRING",
    };
    static const char *const classes[] = {"", "appl", "cont", "priv"};
    if (n->tag_class == 0) snprintf(name, size, "%s", universal[n->number]);
    else snprintf(name, size, "%s [ %" PRIu32 " ]", classes[n->tag_class], n->number);
}

/* The number of an INTEGER: its sign, and its octets without one that has the sign alone. */
static void print_number(FILE *lines, const struct node *n) {
    int is_negative = n->content[0] > 127;
    fputs(is_negative ? ":-" : ":", lines);
    uint8_t octets[CONTENT];
    unsigned carry = is_negative;
    for (size_t i = n->length; i-- > 0; carry >>= 8) {
        carry += is_negative ? 255u - n->content[i] : n->content[i];
        octets[i] = (uint8_t)carry;
    }
    for (size_t i = n->length > 1 && octets[0] == 0; i < n->length; i++) fprintf(lines, "%02X", octets[i]);
}

/* A line of each element, with its offset: what openssl asn1parse prints of it, without a value that is no number. */
static void print(FILE *lines, size_t offset, size_t depth, size_t begin, size_t end) {
    for (size_t i = begin; i < end; i += 1 + nodes[i].inside) {
        const struct node *n = &nodes[i];
        size_t header = header_size(n->number, n->length);
        char name[40];
        name_of(n, name, sizeof name);
        fprintf(lines, "%zu:d=%zu hl=%zu l=%zu %s: %s", offset, depth, header, n->length,
                n->constructed ? "cons" : "prim", name);
        if (n->tag_class == 0 && (n->number == 2 || n->number == 10)) print_number(lines, n);
        fputc('\n', lines);
        elements++;
        if (n->kind != STRING) print(lines, offset + header, depth + 1, i + 1, i + 1 + n->inside);
        offset += header + n->length;
    }
}

static void test_tree(FILE *trees, FILE *lines) {
    static uint8_t octets[SIZE];
    static dm_element found[NODES];
    count = 0;
    size_t size = make_element(DEPTH), length = 0;
    dm_writer w = dm_writer_over(octets, SIZE);
    put(&w, 0, count);
    expect(dm_finish(&w, &length) == DM_OK && length == size, "the size of a tree");
    dm_outcome outcome;
    expect(dm_parse_der(octets, length, DM_MAX_DEPTH, found, NODES, &outcome) == DM_OK && outcome.length == length,
           "a tree is read");
    if (outcome.elements == listed(0, count)) compare(octets, found, 0, count);
    else expect(0, "as many elements as were put");
    expect(fwrite(octets, 1, length, trees) == length, "a tree is written to the file");
    print(lines, octets_in_all, 0, 0, count);
    octets_in_all += length;
}

static FILE *file_in(const char *folder, const char *name) {
    char path[512];
    snprintf(path, sizeof path, "%s/%s", folder, name);
    FILE *file = fopen(path, "wb");
    if (file == NULL) exit(2);
    return file;
}

int main(int words_count, char **words) {
    if (words_count != 3) {
        fprintf(stderr, "trees FOLDER TREES\n");
        return 2;
    }
    FILE *trees = file_in(words[1], "trees.der"), *lines = file_in(words[1], "trees.lines");
    unsigned long many = strtoul(words[2], NULL, 10);
    for (unsigned long i = 0; i < many; i++) test_tree(trees, lines);
    expect(fclose(trees) == 0 && fclose(lines) == 0, "the files are written");
    printf("trees: %lu trees of %lu elements and %lu octets, %lu failed\n", many, elements, octets_in_all, failed);
    return failed != 0;
}
