/* Whether inputs are elements and nothing else, by BER and by DER:  agreement FILE
 *
 * The file has inputs, each after its length in four octets. Prints a digit for each: 1 if it is elements of BER, and 2
 * more if it is elements of DER. */
#include "dumarewhi.h"

#include <stdio.h>

static uint8_t octets[1 << 20];

typedef uint32_t check(const uint8_t *, size_t, size_t, dm_outcome *);

static int are_elements(check *check, size_t length) {
    dm_outcome outcome;
    for (size_t at = 0; at < length; at += outcome.length)
        if (check(octets + at, length - at, DM_MAX_DEPTH, &outcome) != DM_OK) return 0;
    return 1;
}

int main(int count, char **words) {
    FILE *file = count == 2 ? fopen(words[1], "rb") : NULL;
    if (file == NULL) {
        fprintf(stderr, "agreement FILE\n");
        return 2;
    }
    uint8_t head[4];
    while (fread(head, 1, sizeof head, file) == sizeof head) {
        size_t length = (size_t)head[0] << 24 | (size_t)head[1] << 16 | (size_t)head[2] << 8 | head[3];
        if (length > sizeof octets || fread(octets, 1, length, file) != length) return 2;
        putchar('0' + are_elements(dm_check_ber, length) + 2 * are_elements(dm_check_der, length));
    }
    putchar('\n');
    fclose(file);
    return 0;
}
