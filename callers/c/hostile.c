/* Damaged inputs, for the sanitizers:  hostile FILE INPUTS
 *
 * Each input is a part of the file with octets changed, removed or cut, in a block of memory of its own size. Each
 * call's outcome is compared with the others', and each buffer, of a room from 0 to the number of elements and one
 * more, with the whole list. Places have to be within the input. */
#include "dumarewhi.h"

#include <stdio.h>
#include <stdlib.h>
#include <string.h>

static uint64_t state = 88172645463325252u;

/* A number below a bound, by xorshift: the same numbers in each run. */
static size_t below(size_t bound) {
    state ^= state << 13;
    state ^= state >> 7;
    state ^= state << 17;
    return bound == 0 ? 0 : (size_t)(state % bound);
}

static unsigned long failed, statuses[3], writings[4], errors[128], rooms;

static void expect(int is_so, const char *what) {
    if (!is_so && failed++ < 10) printf("hostile: %s\n", what);
}

static void test_values(const uint8_t *content, size_t length, uint32_t number) {
    int64_t i;
    uint64_t u;
    uint8_t truth, text[24];
    dm_time time;
    size_t needed = 0;
    (void)dm_read_i64(content, length, &i);
    (void)dm_read_u64(content, length, &u);
    (void)dm_read_bool(content, length, &truth);
    (void)dm_read_oid(content, length, text, below(sizeof text + 1), &needed);
    (void)dm_oid_from_text((const char *)content, length, text, below(sizeof text + 1), &needed);
    (void)dm_check_text(number, content, length);
    (void)dm_read_time(23 + (uint32_t)below(2), content, length, &time);
}

/* The content of a constructed element is the elements inside it, one after another; nothing is inside another. */
static void test_inside(const dm_element *e) {
    size_t at = e->content;
    for (size_t i = 1; i <= e->inside; i += 1 + e[i].inside) {
        expect(e[i].header == at, "an element doesn't begin where the one before it ends");
        at = e[i].end + (e[i].definite ? 0 : 2);
    }
    expect(e->constructed ? at == e->end : e->inside == 0, "the content isn't the elements inside");
}

/* Whether each element is within the input, and the elements inside follow it. */
static void test_elements(const uint8_t *input, size_t length, const dm_element *elements, size_t count) {
    for (size_t i = 0; i < count; i++) {
        const dm_element *e = &elements[i];
        expect(e->header < e->content && e->content <= e->end && e->end <= length, "a place is outside the input");
        expect(e->inside <= count - i - 1, "more elements are inside than follow");
        expect(e->tag_class <= 3 && e->constructed <= 1 && e->definite <= 1 && e->reserved == 0, "a field is wrong");
        if (e->inside <= count - i - 1) test_inside(e);
        if (!e->constructed && e->end <= length) test_values(input + e->content, e->end - e->content, e->number);
    }
}

typedef uint32_t parse(const uint8_t *, size_t, size_t, dm_element *, size_t, dm_outcome *);
typedef uint32_t check(const uint8_t *, size_t, size_t, dm_outcome *);
typedef uint32_t first(const uint8_t *, size_t, dm_element *, dm_outcome *);

static void test_input(const uint8_t *input, size_t length, size_t depth, parse *parse, check *check, first *first) {
    dm_outcome whole, again, element;
    uint32_t status = check(input, length, depth, &whole);
    expect(status == whole.status && status <= 2, "the status");
    statuses[status]++;
    if (status == DM_ERROR) {
        errors[whole.error < 128 ? whole.error : 0]++;
        expect(whole.error != 0 && whole.place <= length, "an error has a number and a place");
    }
    if (status == DM_INCOMPLETE) expect(whole.missing > 0, "nothing is missing");
    dm_element front;
    if (first(input, length, &front, &element) == DM_OK) {
        expect(front.header == 0 && front.content <= front.end && front.end <= element.length
                   && element.length <= length && front.inside == 0,
               "the first's places");
    }
    if (status == DM_OK) expect(element.status == DM_OK && element.length == whole.length, "the first's length");
    size_t count = status == DM_OK ? whole.elements : 2;
    dm_element *list = malloc((count + 1) * sizeof *list);
    if (list == NULL) exit(2);
    expect(parse(input, length, depth, list, count + 1, &again) == status && memcmp(&whole, &again, sizeof whole) == 0,
           "parse and check differ");
    if (status == DM_OK) {
        test_elements(input, whole.length, list, count);
        front.inside = list[0].inside;
        expect(memcmp(&front, &list[0], sizeof front) == 0, "the first isn't the list's");
    }
    /* Lists of many elements: some rooms. */
    for (size_t room = 0; room <= count; room += count > 24 ? 1 + below(count / 8) : 1) {
        dm_element *some = malloc(room * sizeof *some + (room == 0));
        if (some == NULL) exit(2);
        memset(some, 0xaa, room * sizeof *some);
        expect(parse(input, length, depth, some, room, &again) == status && memcmp(&whole, &again, sizeof whole) == 0,
               "the outcome depends on the room");
        if (status == DM_OK) expect(memcmp(some, list, room * sizeof *some) == 0, "elements depend on the room");
        rooms++;
        free(some);
    }
    free(list);
}

/* Writes the input to a buffer of this room, in memory of its own size, which the caller frees. */
static uint8_t *write_in_room(const uint8_t *input, size_t length, size_t room, dm_outcome *outcome) {
    uint8_t *out = malloc(room + (room == 0));
    if (out == NULL) exit(2);
    expect(dm_write_der(input, length, out, room, outcome) == outcome->status, "the status of writing");
    rooms++;
    return out;
}

/* DM_OK if the octets are elements, one after another, or the status of the first that is none. */
static uint32_t check_all(check *check, const uint8_t *octets, size_t length) {
    dm_outcome outcome;
    for (size_t at = 0; at < length; at += outcome.length) {
        uint32_t status = check(octets + at, length - at, DM_MAX_DEPTH, &outcome);
        if (status != DM_OK) return status;
    }
    return DM_OK;
}

/* What is DER is written as it is. What isn't BER is an error too where it is written, or is cut short. */
static void compare_checks(const uint8_t *input, size_t length, const uint8_t *out, const dm_outcome *written) {
    if (check_all(dm_check_der, input, length) == DM_OK) {
        expect(written->status == DM_OK && written->length == length && memcmp(out, input, length) == 0,
               "what is DER isn't written as it is");
    }
    uint32_t status = check_all(dm_check_ber, input, length);
    if (status == DM_ERROR) expect(written->status == DM_ERROR, "what isn't BER is written");
    if (status == DM_INCOMPLETE) {
        expect(written->status == DM_INCOMPLETE || written->status == DM_ERROR, "what is cut short is written");
    }
    if (written->status == DM_INCOMPLETE) expect(status == DM_INCOMPLETE, "what isn't cut short isn't written so");
}

/* The input as DER writes it: the room that is counted is enough, with less it is counted again, and what is written
 * is DER that is written as it is. */
static void test_writing(const uint8_t *input, size_t length) {
    dm_outcome counted, written, again;
    free(write_in_room(input, length, 0, &counted));
    if (counted.status == DM_ERROR) expect(counted.error != 0 && counted.place <= length, "an error of writing");
    if (counted.status == DM_INCOMPLETE) expect(counted.missing > 0, "nothing is missing to write");
    if (counted.status == DM_OK) expect(counted.length == 0 && length == 0, "elements in no octets");
    uint8_t *out = write_in_room(input, length, counted.length, &written);
    writings[written.status < 4 ? written.status : 3]++;
    expect(written.status != DM_NO_ROOM, "the room that is counted is too small");
    compare_checks(input, length, out, &written);
    if (counted.status != DM_NO_ROOM) expect(memcmp(&counted, &written, sizeof written) == 0, "writing twice");
    if (written.status == DM_OK) {
        expect(written.length == counted.length && check_all(dm_check_der, out, written.length) == DM_OK,
               "what is written isn't DER");
        uint8_t *twice = write_in_room(out, written.length, written.length, &again);
        expect(again.status == DM_OK && again.length == written.length && memcmp(out, twice, written.length) == 0,
               "DER is changed");
        free(twice);
    }
    free(out);
    if (counted.status == DM_NO_ROOM) {
        free(write_in_room(input, length, below(counted.length), &again));
        expect(memcmp(&counted, &again, sizeof again) == 0, "what is needed depends on the room");
    }
}

/* A damaged copy, of which the memory ends where the input does. */
static uint8_t *damage(const uint8_t *octets, size_t size, size_t *length) {
    size_t begin = below(3) == 0 ? below(size) : 0;
    size_t end = below(3) == 0 ? begin + below(size - begin + 1) : size;
    *length = end - begin;
    uint8_t *copy = malloc(*length + (*length == 0));
    if (copy == NULL) exit(2);
    memcpy(copy, octets + begin, *length);
    for (size_t changes = below(4); changes > 0 && *length > 0; changes--) {
        static const uint8_t marks[] = {0x00, 0x80, 0xff, 0x30, 0x1f, 0x7f, 0x24, 0x81, 0x84, 0x88};
        size_t at = below(3) == 0 ? below(*length) : below(*length < 64 ? *length : 64);
        copy[at] = below(2) == 0 ? (uint8_t)below(256) : marks[below(sizeof marks)];
    }
    return copy;
}

int main(int count, char **words) {
    static uint8_t octets[1 << 14];
    FILE *file = count == 3 ? fopen(words[1], "rb") : NULL;
    if (file == NULL) {
        fprintf(stderr, "hostile FILE INPUTS\n");
        return 2;
    }
    size_t size = fread(octets, 1, sizeof octets, file);
    unsigned long inputs = strtoul(words[2], NULL, 10);
    fclose(file);
    for (unsigned long i = 0; i < inputs; i++) {
        size_t length;
        uint8_t *input = damage(octets, size, &length);
        size_t depth = below(8) == 0 ? below(6) : below(2) == 0 ? 50 : (size_t)-1;
        test_input(input, length, depth, dm_parse_der, dm_check_der, dm_first_der);
        test_input(input, length, depth, dm_parse_ber, dm_check_ber, dm_first_ber);
        test_writing(input, length);
        free(input);
    }
    unsigned long kinds = 0;
    for (size_t i = 0; i < sizeof errors / sizeof *errors; i++) kinds += errors[i] > 0;
    expect(statuses[0] > 0 && statuses[1] > 0 && statuses[2] > 0 && kinds > 4, "too few inputs of a kind");
    expect(writings[0] > 0 && writings[1] > 0 && writings[2] > 0, "too few writings of a kind");
    printf("hostile: %lu inputs, %lu read, %lu refused by %lu errors, %lu cut short, %lu written, %lu buffers,"
           " %lu failed\n",
           2 * inputs, statuses[0], statuses[1], kinds, statuses[2], writings[0], rooms, failed);
    return failed != 0;
}
