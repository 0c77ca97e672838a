/* Reads the files of rows of the library's tests, and compares what they say of elements with what the library returns:
 * tables FILE..
 *
 * A row has an input, an answer and a name, with bars between them. The calls that answer so stand in brackets above
 * it. These are compared: are_elements and is_element with a depth, whose answer is by which rules the octets are
 * elements; refused and walk with the rules, whose answer ends with the first fault. Of every other call only the input
 * is taken: what is checked as elements has to be written. */
#include "dumarewhi.h"

#include <stdio.h>
#include <stdlib.h>
#include <string.h>

enum rules { BER, DER };

static char line[1 << 14], calls[1 << 14];
static uint8_t octets[1 << 16];
static size_t answers, inputs, failed;

/* The errors whose texts in rows are those of causes: how a text begins, or the name of the cause. */
static const struct {
    const char *text;
    uint32_t number;
} causes[] = {
    {"it ends ", DM_ERROR_OVERRUN},
    {"the tag number isn't in the fewest octets", DM_ERROR_INVALID_TAG},
    {"the first length octet is ff", DM_ERROR_INVALID_LENGTH},
    {"the tag number is above ", DM_ERROR_INVALID_TAG},
    {"the length is above ", DM_ERROR_INVALID_LENGTH},
    {"a primitive element has an indefinite length", DM_ERROR_CONSTRUCTED_EXPECTED},
    {"a length is indefinite", DM_ERROR_INDEFINITE_LENGTH},
    {"a length isn't in the fewest octets", DM_ERROR_LENGTH_NOT_MINIMAL},
    {"the encoding of this type must be primitive", DM_ERROR_PRIMITIVE_EXPECTED},
    {"a string is constructed", DM_ERROR_CONSTRUCTED},
    {"elements are nested more than 100 deep", DM_ERROR_MAX_DEPTH},
    {"PastEnd ", DM_ERROR_OVERRUN},
    {"NoEndMarker ", DM_ERROR_NO_END_MARKER},
    {"ConstructedString ", DM_ERROR_CONSTRUCTED},
    {"ArcPadded ", DM_ERROR_ARC_PADDED},
    {"CharacterOutside ", DM_ERROR_CHARACTER_OUTSIDE},
    {"BmpStringLength ", DM_ERROR_BMP_STRING_LENGTH},
    {"TimeText ", DM_ERROR_TIME_TEXT},
};

struct word {
    const char *text;
    size_t length;
};

/* The word at a place of a text, of length 0 behind the last one. The place moves behind it. */
static struct word next_word(const char **at) {
    struct word word;
    *at += strspn(*at, " ");
    word.text = *at;
    word.length = strcspn(*at, " ");
    *at += word.length;
    return word;
}

/* Adds the octets of numbers of two digits with points between them. Returns how many octets there are then. */
static size_t push_numbers(struct word word, size_t end, size_t length) {
    unsigned octet;
    for (size_t i = 0; i + 2 <= end && length < sizeof octets; i += 3) {
        if (sscanf(word.text + i, "%2x", &octet) == 1) octets[length++] = (uint8_t)octet;
    }
    return length;
}

/* The octets of a text as `02 01 05` or `30.80*2`, in a block of their own size, so that a tool for memory sees each
 * access past them. */
static uint8_t *octets_of(const char *text, size_t *length) {
    *length = 0;
    for (struct word word = next_word(&text); word.length != 0; word = next_word(&text)) {
        const char *star = memchr(word.text, '*', word.length);
        size_t end = star == NULL ? word.length : (size_t)(star - word.text);
        unsigned long count = star == NULL ? 1 : strtoul(star + 1, NULL, 10);
        while (count-- > 0) *length = push_numbers(word, end, *length);
    }
    uint8_t *block = malloc(*length + (*length == 0));
    if (block == NULL) exit(2);
    memcpy(block, octets, *length);
    return block;
}

static uint32_t check(enum rules rules, const uint8_t *input, size_t length, size_t depth, dm_outcome *outcome) {
    return rules == DER ? dm_check_der(input, length, depth, outcome) : dm_check_ber(input, length, depth, outcome);
}

/* The outcome of the first octets that are no element, where elements should follow one another. */
static dm_outcome check_all(enum rules rules, const uint8_t *input, size_t length, size_t depth) {
    dm_outcome outcome = {0, 0, 0, 0, DM_OK, 0};
    for (size_t at = 0; at < length; at += outcome.length) {
        if (check(rules, input + at, length - at, depth, &outcome) == DM_OK) continue;
        outcome.place += at;
        break;
    }
    return outcome;
}

/* Whether a text begins with another. */
static int begins(const char *text, const char *front) { return strncmp(text, front, strlen(front)) == 0; }

/* By which rules the octets are elements, or one element. */
static int is_checked(const char *call, const char *answer, const uint8_t *input, size_t length) {
    size_t depth = strtoull(strchr(call, ' ') + 1, NULL, 10);
    int are[2];
    for (int rules = BER; rules <= DER; rules++) {
        dm_outcome outcome;
        if (begins(call, "are_elements")) {
            are[rules] = check_all(rules, input, length, depth).status == DM_OK;
        } else {
            are[rules] = check(rules, input, length, depth, &outcome) == DM_OK && outcome.length == length;
        }
    }
    return strcmp(answer, are[BER] ? are[DER] ? "BER and DER" : "BER" : are[DER] ? "DER" : "none") == 0;
}

/* Whether an error has this text, or is of a cause that has it. What `der` says of the outermost element isn't in it. */
static int has_text(uint32_t error, const char *text) {
    uint8_t own[DM_TEXT_OCTETS];
    size_t size = dm_error_text(error, own, sizeof own);
    const char *outermost = strstr(text, "; the outermost element claims ");
    size_t length = outermost == NULL ? strlen(text) : (size_t)(outermost - text);
    if (size == length && memcmp(own, text, size) == 0) return 1;
    for (size_t i = 0; i < sizeof causes / sizeof *causes; i++) {
        if (begins(text, causes[i].text)) return causes[i].number == error;
    }
    return 0;
}

/* Whether the first fault is the one that is stated: `1 at 5, PATH: TEXT`, where the text of cut input says how many
 * octets are missing; or `0 2 CAUSE at 2`, where the cause of cut input is `Cut` with that number. */
static int is_fault(enum rules rules, const char *answer, const uint8_t *input, size_t length) {
    dm_outcome outcome = check_all(rules, input, length, DM_MAX_DEPTH);
    const char *at = strstr(answer, " at "), *text = strstr(answer, ": "), *missing = strstr(answer, "at least ");
    if (at == NULL) return outcome.status == DM_OK;
    if (text == NULL) {
        text = answer + strcspn(answer, "ABCDEFGHIJKLMNOPQRSTUVWXYZ");
        missing = begins(text, "Cut ") ? text + strlen("Cut ") : NULL;
    } else {
        text += strlen(": ");
        if (missing != NULL) missing += strlen("at least ");
    }
    if (missing != NULL) return outcome.status == DM_INCOMPLETE && outcome.missing == strtoull(missing, NULL, 10);
    size_t place = strtoull(at + strlen(" at "), NULL, 10);
    /* (what follows the last element is read as one here, which may be cut) */
    if (strstr(text, " after the end") != NULL && outcome.status == DM_INCOMPLETE) return place < length;
    return outcome.status == DM_ERROR && outcome.place == place
           && (strstr(text, " after the end") != NULL || has_text(outcome.error, text));
}

/* Whether the octets are written as DER if they are elements, and as they are if they are DER. */
static int is_written(const uint8_t *input, size_t length) {
    dm_outcome written;
    uint8_t *out = malloc(length + (length == 0));
    if (out == NULL) exit(2);
    dm_outcome by_ber = check_all(BER, input, length, DM_MAX_DEPTH);
    dm_outcome by_der = check_all(DER, input, length, DM_MAX_DEPTH);
    uint32_t status = dm_write_der(input, length, out, length, &written);
    int is_so = by_ber.status == DM_OK ? status != DM_INCOMPLETE : status == DM_INCOMPLETE || status == DM_ERROR;
    if (by_der.status == DM_OK) {
        is_so = is_so && status == DM_OK && written.length == length && memcmp(out, input, length) == 0;
    }
    free(out);
    return is_so;
}

/* The rules that a call of walk or refused names, or -1 for a call that isn't compared. */
static int rules_of(const char *call) {
    if (strcmp(call, "refused BER") == 0 || strcmp(call, "walk BER") == 0) return BER;
    if (strcmp(call, "refused DER") == 0 || strcmp(call, "walk DER keeping") == 0) return DER;
    return -1;
}

static void try_call(const char *call, const char *answer, const uint8_t *input, size_t length, const char *name) {
    int is_check = begins(call, "are_elements ") || begins(call, "is_element "), rules = rules_of(call);
    if (!is_check && rules < 0) return;
    answers++;
    if (is_check ? !is_checked(call, answer, input, length) : !is_fault(rules, answer, input, length)) {
        failed++;
        printf("tables: %s: %s: %s\n", call, answer, name);
    }
}

/* The text without spaces around it. */
static char *trimmed(char *text) {
    text += strspn(text, " ");
    size_t length = strlen(text);
    while (length > 0 && text[length - 1] == ' ') text[--length] = 0;
    return text;
}

/* Compares the answers of the calls that stand above a row. */
static void try_row(const char *input, char *answer, const char *name) {
    static char copy[sizeof calls];
    size_t length;
    uint8_t *block = octets_of(input, &length);
    strcpy(copy, calls);
    for (char *call = strtok(copy, ","); call != NULL; call = strtok(NULL, ",")) {
        try_call(trimmed(call), trimmed(answer), block, length, name);
    }
    inputs++;
    if (!is_written(block, length)) {
        failed++;
        printf("tables: writing %s: %s\n", input, name);
    }
    free(block);
}

/* Whether a line is a remark, calls or a row. */
static int try_line(void) {
    line[strcspn(line, "\r\n")] = 0;
    char *bracket = strrchr(line, ']');
    if (line[0] == 0 || line[0] == '#') return 1;
    if (line[0] == '[' && bracket != NULL && bracket[1] == 0) {
        *bracket = 0;
        strcpy(calls, line + 1);
        return 1;
    }
    char *answer = strchr(line, '|');
    char *name = answer == NULL ? NULL : strchr(answer + 1, '|');
    if (name == NULL || calls[0] == 0) return 0;
    *answer++ = 0;
    *name++ = 0;
    try_row(line, answer, name);
    return 1;
}

static int try_file(const char *file) {
    FILE *rows = fopen(file, "r");
    if (rows == NULL) return 0;
    calls[0] = 0;
    while (fgets(line, sizeof line, rows) != NULL) {
        if (strchr(line, '\n') == NULL || !try_line()) {
            failed++;
            printf("tables: %s: no row: %s\n", file, line);
        }
    }
    return fclose(rows) == 0;
}

int main(int count, char **files) {
    for (int i = 1; i < count; i++) {
        if (!try_file(files[i])) {
            failed++;
            printf("tables: %s isn't read\n", files[i]);
        }
    }
    printf("tables: %zu answers, %zu inputs in %d files, %zu failed\n", answers, inputs, count - 1, failed);
    return answers == 0 || failed != 0;
}
