/* Tests of dm_writer, for the sanitizers:  writer FOLDER
 *
 * Each buffer is a block of memory of its own size: one of every capacity up to what is needed, and more. What is
 * written is compared with octets of the standard, and read back. Contents of each size of a length are written to
 * files of the folder, for openssl to read. */
#include "dumarewhi.h"

#include <stdio.h>
#include <stdlib.h>
#include <string.h>

static unsigned long passed, failed, buffers;

static void expect(int is_so, const char *what) {
    if (is_so) {
        passed++;
    } else if (failed++ < 10) {
        printf("writer: %s\n", what);
    }
}

static uint64_t state = 88172645463325252u;

/* A number below a bound, by xorshift: the same numbers in each run. */
static size_t below(size_t bound) {
    state ^= state << 13;
    state ^= state >> 7;
    state ^= state << 17;
    return bound == 0 ? 0 : (size_t)(state % bound);
}

static uint8_t *block(size_t size) {
    uint8_t *octets = malloc(size + (size == 0));
    if (octets == NULL) exit(2);
    memset(octets, 0xaa, size);
    return octets;
}

static const uint8_t *octets_of(const char *text) { return (const uint8_t *)text; }

typedef void make(dm_writer *w, const void *what);

/* Makes it in a buffer of this capacity: it is these octets if there is room, and else so many are needed. What is
 * behind them stays. */
static void test_capacity(make *make, const void *what, const uint8_t *octets, size_t needed, size_t capacity) {
    uint8_t *buffer = block(capacity);
    dm_writer w = dm_writer_over(buffer, capacity);
    size_t length = 1234567;
    make(&w, what);
    uint32_t status = dm_finish(&w, &length);
    buffers++;
    expect(w.octets == buffer && w.capacity == capacity && w.innermost == 0 && w.implicit == 0, "the state at the end");
    expect(length == needed && w.count == needed, "how many octets are needed");
    expect(status == (capacity < needed ? DM_NO_ROOM : DM_OK), "the status of a capacity");
    if (status == DM_OK) {
        expect(memcmp(buffer, octets, needed) == 0, "the octets");
        for (size_t i = needed; i < capacity; i++) expect(buffer[i] == 0xaa, "an octet behind is written");
    }
    free(buffer);
}

/* Every capacity up to 300 octets, and those around what is needed. */
static void test_capacities(make *make, const void *what, const uint8_t *octets, size_t needed) {
    for (size_t capacity = 0; capacity <= needed + 3; capacity++) {
        if (capacity < 300 || capacity + 300 > needed) test_capacity(make, what, octets, needed, capacity);
    }
}

/* The personnel record of X.690 A.3. */
static const char record[] =
    "\x60\x81\x85\x61\x10\x1a\x04John\x1a\x01P\x1a\x05Smith\xa0\x0a\x1a\x08" "Director\x42\x01\x33\xa1\x0a\x43\x08"
    "19710917\xa2\x12\x61\x10\x1a\x04Mary\x1a\x01T\x1a\x05Smith\xa3\x42\x31\x1f\x61\x11\x1a\x05Ralph\x1a\x01T\x1a\x05"
    "Smith\xa0\x0a\x43\x08" "19571111\x31\x1f\x61\x11\x1a\x05Susan\x1a\x01" "B\x1a\x05Jones\xa0\x0a\x43\x08" "19590717";

static void put_visible(dm_writer *w, const char *text) {
    expect(dm_put_text(w, 26, octets_of(text), strlen(text)) == 0, "a VisibleString");
}

static void put_name(dm_writer *w, const char *given, const char *initial, const char *family) {
    dm_mark name = dm_open(w, DM_APPLICATION, 1, 1);
    put_visible(w, given);
    put_visible(w, initial);
    put_visible(w, family);
    dm_close(w, name);
}

static void put_date(dm_writer *w, const char *text) {
    dm_implicit(w, DM_APPLICATION, 3);
    put_visible(w, text);
}

static void put_child(dm_writer *w, const char *given, const char *initial, const char *family, const char *born) {
    dm_mark child = dm_open_set(w);
    put_name(w, given, initial, family);
    dm_mark date = dm_open_tagged(w, 0);
    put_date(w, born);
    dm_close(w, date);
    dm_close(w, child);
}

static void make_record(dm_writer *w, const void *what) {
    (void)what;
    dm_mark person = dm_open(w, DM_APPLICATION, 1, 0);
    put_name(w, "John", "P", "Smith");
    dm_mark title = dm_open_tagged(w, 0);
    put_visible(w, "Director");
    dm_close(w, title);
    dm_implicit(w, DM_APPLICATION, 2);
    dm_put_i64(w, 51);
    dm_mark hired = dm_open_tagged(w, 1);
    put_date(w, "19710917");
    dm_close(w, hired);
    dm_mark spouse = dm_open_tagged(w, 2);
    put_name(w, "Mary", "T", "Smith");
    dm_close(w, spouse);
    dm_mark children = dm_open_tagged(w, 3);
    put_child(w, "Ralph", "T", "Smith", "19571111");
    put_child(w, "Susan", "B", "Jones", "19590717");
    dm_close(w, children);
    dm_close(w, person);
}

/* SEQUENCE { INTEGER 5, OCTET STRING of so many octets, OCTET STRING of an OCTET STRING of as many } */
static void make_sized(dm_writer *w, const void *what) {
    size_t size = *(const size_t *)what;
    uint8_t *content = block(size);
    dm_mark list = dm_open_sequence(w);
    dm_put_u64(w, 5);
    dm_put_octets(w, content, size);
    dm_mark inside = dm_open_octet_string(w);
    dm_put_octets(w, content, size);
    dm_close(w, inside);
    dm_close(w, list);
    free(content);
}

/* How many octets a header has with one identifier octet: its length has the fewest (X.690 10.1). */
static size_t header_size(size_t content) { return content < 128 ? 2 : content < 256 ? 3 : content < 65536 ? 4 : 5; }

static void write_file(const char *folder, size_t name, const uint8_t *octets, size_t length) {
    char path[512];
    snprintf(path, sizeof path, "%s/sized.%zu", folder, name);
    FILE *file = fopen(path, "wb");
    expect(file != NULL && fwrite(octets, 1, length, file) == length && fclose(file) == 0, "a file is written");
}

static void test_sized(const char *folder, size_t size) {
    size_t one = header_size(size) + size, two = header_size(one) + one;
    size_t content = 3 + one + two, needed = header_size(content) + content, length;
    uint8_t *octets = block(needed);
    dm_writer w = dm_writer_over(octets, needed);
    make_sized(&w, &size);
    expect(dm_finish(&w, &length) == DM_OK && length == needed, "the size of an element");
    dm_element e[5];
    dm_outcome outcome;
    expect(dm_parse_der(octets, needed, 9, e, 5, &outcome) == DM_OK && outcome.length == needed, "it is read");
    expect(outcome.elements == 4 && e[0].inside == 3 && e[1].number == 2 && e[2].number == 4, "its elements");
    expect(e[2].end - e[2].content == size && e[3].end - e[3].content == one, "their sizes");
    expect(dm_parse_der(octets + e[3].content, one, 9, e, 5, &outcome) == DM_OK && outcome.length == one, "inside it");
    write_file(folder, size, octets, needed);
    test_capacities(make_sized, &size, octets, needed);
    free(octets);
}

/* Starts a writer over a small buffer. */
static uint8_t small[64];

static dm_writer start(void) {
    memset(small, 0xaa, sizeof small);
    return dm_writer_over(small, sizeof small);
}

static void expect_octets(const dm_writer *w, const char *octets, size_t size, const char *what) {
    size_t length;
    expect(dm_finish(w, &length) == DM_OK && length == size && memcmp(small, octets, size) == 0, what);
}

#define EXPECT_OCTETS(put, octets)                               \
    do {                                                         \
        dm_writer w = start();                                   \
        put;                                                     \
        expect_octets(&w, octets, sizeof(octets) - 1, #put);     \
    } while (0)

static void test_numbers(void) {
    EXPECT_OCTETS(dm_put_bool(&w, 0), "\x01\x01\x00");
    EXPECT_OCTETS(dm_put_bool(&w, 1), "\x01\x01\xff");
    EXPECT_OCTETS(dm_put_bool(&w, 2), "\x01\x01\xff");
    EXPECT_OCTETS(dm_put_i64(&w, 0), "\x02\x01\x00");
    EXPECT_OCTETS(dm_put_i64(&w, 127), "\x02\x01\x7f");
    EXPECT_OCTETS(dm_put_i64(&w, 128), "\x02\x02\x00\x80");
    EXPECT_OCTETS(dm_put_i64(&w, -1), "\x02\x01\xff");
    EXPECT_OCTETS(dm_put_i64(&w, -128), "\x02\x01\x80");
    EXPECT_OCTETS(dm_put_i64(&w, -129), "\x02\x02\xff\x7f");
    EXPECT_OCTETS(dm_put_i64(&w, INT64_MAX), "\x02\x08\x7f\xff\xff\xff\xff\xff\xff\xff");
    EXPECT_OCTETS(dm_put_i64(&w, INT64_MIN), "\x02\x08\x80\x00\x00\x00\x00\x00\x00\x00");
    EXPECT_OCTETS(dm_put_u64(&w, 255), "\x02\x02\x00\xff");
    EXPECT_OCTETS(dm_put_u64(&w, 256), "\x02\x02\x01\x00");
    EXPECT_OCTETS(dm_put_u64(&w, UINT64_MAX), "\x02\x09\x00\xff\xff\xff\xff\xff\xff\xff\xff");
    EXPECT_OCTETS(dm_put_enumerated(&w, 3), "\x0a\x01\x03");
    EXPECT_OCTETS(dm_put_enumerated_i64(&w, 128), "\x0a\x02\x00\x80");
    EXPECT_OCTETS(dm_put_enumerated_i64(&w, -1), "\x0a\x01\xff");
    EXPECT_OCTETS(dm_put_enumerated_i64(&w, -129), "\x0a\x02\xff\x7f");
    EXPECT_OCTETS(dm_put_enumerated_i64(&w, INT64_MIN), "\x0a\x08\x80\x00\x00\x00\x00\x00\x00\x00");
    EXPECT_OCTETS(dm_put_magnitude(&w, octets_of("\0\0\xff"), 3), "\x02\x02\x00\xff");
    EXPECT_OCTETS(dm_put_magnitude(&w, octets_of("\0\x7f"), 2), "\x02\x01\x7f");
    EXPECT_OCTETS(dm_put_magnitude(&w, octets_of(""), 0), "\x02\x01\x00");
    EXPECT_OCTETS(dm_put_integer(&w, octets_of("\xff\x7f"), 2), "\x02\x02\xff\x7f");
}

static void test_strings(void) {
    static const uint64_t example[] = {2, 999, 3}, least[] = {0, 0}, greatest[] = {2, UINT64_MAX - 80};
    EXPECT_OCTETS(dm_put_bits(&w, 4, octets_of("\x0a\x3b\x5f\x29\x1c\xdf"), 6), "\x03\x07\x04\x0a\x3b\x5f\x29\x1c\xd0");
    EXPECT_OCTETS(dm_put_bits(&w, 0, octets_of("\xff"), 1), "\x03\x02\x00\xff");
    EXPECT_OCTETS(dm_put_bits(&w, 9, octets_of("\xff"), 1), "\x03\x02\x07\x80");
    EXPECT_OCTETS(dm_put_bits(&w, 3, octets_of(""), 0), "\x03\x01\x00");
    EXPECT_OCTETS(dm_put_octets(&w, octets_of("\x03\xc9"), 2), "\x04\x02\x03\xc9");
    EXPECT_OCTETS(dm_put_octets(&w, octets_of(""), 0), "\x04\x00");
    EXPECT_OCTETS(dm_put_null(&w), "\x05\x00");
    EXPECT_OCTETS(dm_put_oid(&w, octets_of("\x88\x37\x03"), 3), "\x06\x03\x88\x37\x03");
    EXPECT_OCTETS(dm_put_arcs(&w, example, 3), "\x06\x03\x88\x37\x03");
    EXPECT_OCTETS(dm_put_arcs(&w, least, 2), "\x06\x01\x00");
    EXPECT_OCTETS(dm_put_arcs(&w, greatest, 2), "\x06\x0a\x81\xff\xff\xff\xff\xff\xff\xff\xff\x7f");
    EXPECT_OCTETS(dm_put_text(&w, 12, octets_of("\xc3\xa9"), 2), "\x0c\x02\xc3\xa9");
    EXPECT_OCTETS(dm_put_text(&w, 19, octets_of("NZ"), 2), "\x13\x02NZ");
    EXPECT_OCTETS(dm_put_text(&w, 22, octets_of("a@b"), 3), "\x16\x03" "a@b");
    EXPECT_OCTETS(dm_put_text(&w, 30, octets_of("\0A\0b"), 4), "\x1e\x04\x00\x41\x00\x62");
    EXPECT_OCTETS(dm_put_text(&w, 30, octets_of("\0\xe9\x20\xac"), 4), "\x1e\x04\x00\xe9\x20\xac");
    EXPECT_OCTETS(dm_put_text(&w, 30, octets_of(""), 0), "\x1e\x00");
    EXPECT_OCTETS(dm_put_elements(&w, octets_of("\x05\x00\x05\x00"), 4), "\x05\x00\x05\x00");
    EXPECT_OCTETS((dm_implicit(&w, DM_CONTEXT_SPECIFIC, 2), dm_put_null(&w), dm_put_null(&w)), "\x82\x00\x05\x00");
    EXPECT_OCTETS((dm_implicit(&w, DM_PRIVATE, 31), dm_put_null(&w)), "\xdf\x1f\x00");
    EXPECT_OCTETS((dm_implicit(&w, DM_UNIVERSAL, 30), dm_put_octets(&w, octets_of("\0A"), 2)), "\x1e\x02\x00\x41");
    EXPECT_OCTETS((dm_implicit(&w, 200, 0), dm_put_null(&w)), "\xc0\x00");
}

static void test_times(void) {
    dm_time time = {2026, 0, 11, 27, 9, 5, 0, DM_UTC, 0, 0};
    EXPECT_OCTETS(dm_put_time(&w, 23, &time), "\x17\x0d" "261127090500Z");
    EXPECT_OCTETS(dm_put_time(&w, 24, &time), "\x18\x0f" "20261127090500Z");
    time.nanosecond = 120000000;
    EXPECT_OCTETS(dm_put_time(&w, 24, &time), "\x18\x12" "20261127090500.12Z");
    time = (dm_time){1950, 0, 1, 1, 0, 0, 0, DM_UTC, 0, 0};
    EXPECT_OCTETS(dm_put_time(&w, 23, &time), "\x17\x0d" "500101000000Z");
    time = (dm_time){7, 1, 12, 31, 23, 59, 59, DM_UTC, 0, 0};
    EXPECT_OCTETS(dm_put_time(&w, 24, &time), "\x18\x19" "00071231235959.000000001Z");
}

/* Such a value is refused with this error, the writer stays as it was, and its implicit tag is for the next element. */
#define EXPECT_REFUSED(put, number)                                                                       \
    do {                                                                                                  \
        dm_writer w = start();                                                                            \
        dm_put_null(&w);                                                                                  \
        dm_implicit(&w, DM_CONTEXT_SPECIFIC, 7);                                                          \
        dm_writer before = w;                                                                             \
        expect((put) == (number) && memcmp(&w, &before, sizeof w) == 0 && small[2] == 0xaa, #put);        \
        dm_put_null(&w);                                                                                  \
        expect_octets(&w, "\x05\x00\x87\x00", 4, "what follows " #put);                                   \
    } while (0)

static void test_refused(void) {
    static const uint64_t high[] = {3, 1}, second[] = {1, 40}, large[] = {2, UINT64_MAX - 79};
    EXPECT_REFUSED(dm_put_integer(&w, octets_of(""), 0), DM_ERROR_INTEGER_EMPTY);
    EXPECT_REFUSED(dm_put_integer(&w, octets_of("\0\x7f"), 2), DM_ERROR_INTEGER_LEADING_ZEROES);
    EXPECT_REFUSED(dm_put_integer(&w, octets_of("\xff\x80"), 2), DM_ERROR_INTEGER_LEADING_FF);
    EXPECT_REFUSED(dm_put_arcs(&w, high, 0), DM_ERROR_INVALID_LENGTH);
    EXPECT_REFUSED(dm_put_arcs(&w, high, 1), DM_ERROR_INVALID_LENGTH);
    EXPECT_REFUSED(dm_put_arcs(&w, high, 2), DM_ERROR_WRONG_VALUE);
    EXPECT_REFUSED(dm_put_arcs(&w, second, 2), DM_ERROR_WRONG_VALUE);
    EXPECT_REFUSED(dm_put_arcs(&w, large, 2), DM_ERROR_WRONG_VALUE);
    EXPECT_REFUSED(dm_put_text(&w, 19, octets_of("a@b"), 3), DM_ERROR_INVALID_CHARACTER);
    EXPECT_REFUSED(dm_put_text(&w, 12, octets_of("\xc3"), 1), DM_ERROR_INVALID_CHARACTER);
    EXPECT_REFUSED(dm_put_text(&w, 30, octets_of("\0A\0"), 3), DM_ERROR_INVALID_CHARACTER);
    EXPECT_REFUSED(dm_put_text(&w, 30, octets_of("\xd8\0"), 2), DM_ERROR_INVALID_CHARACTER);
    EXPECT_REFUSED(dm_put_text(&w, 4, octets_of("A"), 1), DM_ERROR_WRONG_TYPE);
    dm_time good = {2026, 0, 11, 27, 9, 5, 0, DM_UTC, 0, 0}, time = good;
    EXPECT_REFUSED(dm_put_time(&w, 22, &time), DM_ERROR_INVALID_TIME);
    time.year = 2050;
    EXPECT_REFUSED(dm_put_time(&w, 23, &time), DM_ERROR_INVALID_TIME);
    time.year = 1949;
    EXPECT_REFUSED(dm_put_time(&w, 23, &time), DM_ERROR_INVALID_TIME);
    time.year = 10000;
    EXPECT_REFUSED(dm_put_time(&w, 24, &time), DM_ERROR_INVALID_TIME);
    time = good, time.nanosecond = 1;
    EXPECT_REFUSED(dm_put_time(&w, 23, &time), DM_ERROR_INVALID_TIME);
    time.nanosecond = 1000000000;
    EXPECT_REFUSED(dm_put_time(&w, 24, &time), DM_ERROR_INVALID_TIME);
    for (int field = 0; field < 9; field++) {
        time = good;
        if (field == 0) time.month = 0;
        if (field == 1) time.month = 13;
        if (field == 2) time.day = 0;
        if (field == 3) time.day = 32;
        if (field == 4) time.hour = 24;
        if (field == 5) time.minute = 60;
        if (field == 6) time.second = 60;
        if (field == 7) time.zone = DM_LOCAL;
        if (field == 8) time.zone = DM_OFFSET;
        EXPECT_REFUSED(dm_put_time(&w, 24, &time), DM_ERROR_INVALID_TIME);
    }
}

static void test_marks(void) {
    dm_writer w = start();
    size_t length = 9;
    dm_mark outer = dm_open_sequence(&w);
    expect(dm_finish(&w, &length) == DM_NOT_CLOSED && length == 0, "an open element");
    dm_mark inner = dm_open_set(&w);
    dm_writer before = w;
    dm_close(&w, outer);
    expect(memcmp(&w, &before, sizeof w) == 0, "the outer mark is closed first");
    dm_close(&w, inner);
    expect(dm_finish(&w, &length) == DM_NOT_CLOSED, "the outer element is still open");
    dm_close(&w, outer);
    expect_octets(&w, "\x30\x02\x31\x00", 4, "both are closed");
    dm_close(&w, outer);
    expect_octets(&w, "\x30\x02\x31\x00", 4, "a mark is closed twice");
    EXPECT_OCTETS(dm_close(&w, dm_open(&w, DM_APPLICATION, 0, 4096)), "\x5f\xa0\x00\x00");
}

/* An implicit tag is for the next primitive element. What opens or closes another one drops it, also where nothing is
 * closed, and so do elements that are put as they are. */
static void test_dropped_tags(void) {
    dm_mark a, b;
#define TAG(w) dm_implicit(&(w), DM_CONTEXT_SPECIFIC, 2)
    EXPECT_OCTETS((TAG(w), a = dm_open_sequence(&w), dm_put_null(&w), dm_close(&w, a)), "\x30\x02\x05\x00");
    EXPECT_OCTETS((TAG(w), a = dm_open_set(&w), dm_put_null(&w), dm_close(&w, a)), "\x31\x02\x05\x00");
    EXPECT_OCTETS((TAG(w), a = dm_open_octet_string(&w), dm_put_null(&w), dm_close(&w, a)), "\x04\x02\x05\x00");
    EXPECT_OCTETS((TAG(w), a = dm_open_tagged(&w, 7), dm_put_null(&w), dm_close(&w, a)), "\xa7\x02\x05\x00");
    EXPECT_OCTETS((TAG(w), a = dm_open(&w, DM_PRIVATE, 1, 7), dm_put_null(&w), dm_close(&w, a)), "\xe7\x02\x05\x00");
    EXPECT_OCTETS((a = dm_open_sequence(&w), TAG(w), dm_close(&w, a), dm_put_null(&w)), "\x30\x00\x05\x00");
    EXPECT_OCTETS((a = dm_open_set(&w), TAG(w), dm_close_set_of(&w, a), dm_put_null(&w)), "\x31\x00\x05\x00");
    EXPECT_OCTETS((a = dm_open_sequence(&w), b = dm_open_set(&w), TAG(w), dm_close(&w, a), dm_put_null(&w),
                   dm_close(&w, b), dm_close(&w, a)),
                  "\x30\x04\x31\x02\x05\x00");
    EXPECT_OCTETS((TAG(w), dm_put_elements(&w, octets_of("\x05\x00"), 2), dm_put_null(&w)), "\x05\x00\x05\x00");
    EXPECT_OCTETS((TAG(w), dm_put_elements(&w, octets_of(""), 0), dm_put_null(&w)), "\x05\x00");
    size_t length;
    EXPECT_OCTETS((TAG(w), dm_finish(&w, &length), dm_put_null(&w)), "\x82\x00");
#undef TAG
}

/* A SET OF elements, which openssl asn1parse -genconf writes in this order. */
static void put_set_of(dm_writer *w) {
    dm_mark set = dm_open_set(w);
    dm_put_i64(w, 5);
    dm_put_i64(w, 3);
    dm_put_bool(w, 1);
    dm_put_octets(w, octets_of("a"), 1);
    dm_close_set_of(w, set);
}

static void test_sets_of(void) {
    EXPECT_OCTETS(put_set_of(&w), "\x31\x0c\x01\x01\xff\x02\x01\x03\x02\x01\x05\x04\x01" "a");
    EXPECT_OCTETS(dm_close_set_of(&w, dm_open_set(&w)), "\x31\x00");
    dm_writer w = start();
    dm_mark outer = dm_open_set(&w);
    (void)dm_open_set(&w);
    dm_writer before = w;
    dm_close_set_of(&w, outer);
    expect(memcmp(&w, &before, sizeof w) == 0, "the outer SET OF is closed first");
}

/* Any numbers in a writer and a mark are safe: nothing outside the buffer is touched. */
static void test_any_state(void) {
    static const size_t numbers[] = {0, 1, 2, 5, 30, 31, 32, 33, 34, 200, SIZE_MAX / 2, SIZE_MAX - 1, SIZE_MAX};
    size_t count = sizeof numbers / sizeof *numbers, length;
    for (size_t i = 0; i < count * count * count; i++) {
        uint8_t *buffer = block(32);
        dm_writer w = {buffer, 32, numbers[i % count], numbers[i / count % count], (uint32_t)i, (uint32_t)~i};
        dm_mark mark = {numbers[i / count / count], numbers[i % count]};
        dm_put_i64(&w, -70000);
        dm_put_bits(&w, 255, octets_of("abc"), 3);
        dm_close(&w, mark);
        mark = dm_open(&w, 255, 255, UINT32_MAX);
        dm_put_octets(&w, octets_of("abc"), 3);
        dm_close(&w, mark);
        mark.start = numbers[i % count], mark.outer = w.innermost = numbers[i / count % count];
        dm_close_set_of(&w, mark);
        (void)dm_finish(&w, &length);
        buffers++;
        free(buffer);
    }
}

/* Puts random elements, and returns how many there are that dm_parse_der lists. */
static size_t put_random(dm_writer *w, size_t depth) {
    static const uint8_t octets[300] = {0x12};
    static const uint64_t arcs[] = {2, 5, 29, 1234567890123u};
    size_t count = 0;
    for (size_t fields = below(5); fields > 0; fields--) {
        dm_mark mark;
        count++;
        switch (below(depth == 0 ? 8 : 11)) {
        case 0: dm_put_bool(w, (uint8_t)below(2)); break;
        case 1: dm_put_i64(w, (int64_t)(below(SIZE_MAX) >> below(64)) * (below(2) == 0 ? 1 : -1)); break;
        case 2: dm_put_u64(w, below(SIZE_MAX) >> below(64)); break;
        case 3: dm_put_octets(w, octets, below(sizeof octets)); break;
        case 4: dm_put_bits(w, (uint8_t)below(9), octets, below(4)); break;
        case 5: (void)dm_put_arcs(w, arcs, 2 + below(3)); break;
        case 6: dm_put_magnitude(w, octets, below(30)); break;
        case 7:
            dm_implicit(w, (uint8_t)(1 + below(3)), (uint32_t)(below(UINT32_MAX) >> below(32)));
            dm_put_octets(w, octets, below(sizeof octets));
            break;
        case 8:
            mark = dm_open_octet_string(w);
            (void)put_random(w, depth - 1);
            dm_close(w, mark);
            break;
        case 9:
            mark = dm_open(w, (uint8_t)(1 + below(3)), 1, (uint32_t)(below(UINT32_MAX) >> below(32)));
            count += put_random(w, depth - 1);
            dm_close(w, mark);
            break;
        default:
            mark = below(2) == 0 ? dm_open_sequence(w) : dm_open_set(w);
            count += put_random(w, depth - 1);
            dm_close(w, mark);
        }
    }
    return count;
}

struct random {
    uint64_t state;
    size_t elements;
};

static void make_random(dm_writer *w, const void *what) {
    struct random *random = (struct random *)what;
    uint64_t kept = state;
    state = random->state;
    dm_mark list = dm_open_sequence(w);
    random->elements = 1 + put_random(w, 5);
    dm_close(w, list);
    state = kept;
}

/* Random elements are DER that is read, and that dm_write_der writes as it is. */
static void test_random(void) {
    struct random random = {below(SIZE_MAX) | 1, 0};
    uint8_t none;
    size_t length;
    dm_outcome outcome;
    dm_writer counter = dm_writer_over(&none, 0);
    make_random(&counter, &random);
    expect(dm_finish(&counter, &length) == DM_NO_ROOM && length > 0, "random elements are counted");
    uint8_t *octets = block(length), *copy = block(length);
    dm_writer w = dm_writer_over(octets, length);
    make_random(&w, &random);
    expect(dm_finish(&w, &length) == DM_OK, "random elements are written");
    expect(dm_check_der(octets, length, DM_MAX_DEPTH, &outcome) == DM_OK && outcome.length == length, "they are DER");
    expect(outcome.elements == random.elements, "as many as were put");
    expect(dm_write_der(octets, length, copy, length, &outcome) == DM_OK && outcome.length == length
               && memcmp(octets, copy, length) == 0,
           "they are in DER");
    for (int i = 0; i < 20; i++) test_capacity(make_random, &random, octets, length, below(length + 4));
    free(octets);
    free(copy);
}

int main(int count, char **words) {
    static const size_t sizes[] = {0, 1, 125, 126, 127, 128, 255, 256, 65535, 65536};
    if (count != 2) {
        fprintf(stderr, "writer FOLDER\n");
        return 2;
    }
    test_capacities(make_record, NULL, octets_of(record), sizeof record - 1);
    for (size_t i = 0; i < sizeof sizes / sizeof *sizes; i++) test_sized(words[1], sizes[i]);
    test_numbers();
    test_strings();
    test_times();
    test_refused();
    test_marks();
    test_dropped_tags();
    test_sets_of();
    test_any_state();
    for (int i = 0; i < 2000; i++) test_random();
    printf("writer: %lu buffers, %lu passed, %lu failed\n", buffers, passed, failed);
    return failed != 0;
}
