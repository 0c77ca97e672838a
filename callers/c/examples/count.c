/* Counts the elements of a file in DER or BER without a buffer for them:  count der|ber FILE */
#include "dumarewhi.h"

#include <stdio.h>
#include <stdlib.h>
#include <string.h>

int main(int count, char **words) {
    FILE *file = count == 3 ? fopen(words[2], "rb") : NULL;
    if (file == NULL || fseek(file, 0, SEEK_END) != 0) {
        fprintf(stderr, "count der|ber FILE\n");
        return 2;
    }
    long size = ftell(file);
    rewind(file);
    uint8_t *input = malloc(size > 0 ? (size_t)size : 1);
    if (size < 0 || input == NULL || fread(input, 1, (size_t)size, file) != (size_t)size) {
        perror(words[2]);
        return 2;
    }
    fclose(file);
    int is_ber = strcmp(words[1], "ber") == 0;
    size_t objects = 0, outermost = 0, at = 0, length = (size_t)size;
    while (at < length) {
        dm_outcome outcome;
        uint32_t status = is_ber ? dm_check_ber(input + at, length - at, DM_MAX_DEPTH, &outcome)
                                 : dm_check_der(input + at, length - at, DM_MAX_DEPTH, &outcome);
        if (status != DM_OK) {
            fprintf(stderr, "at %zu: %s\n", at + outcome.place, status == DM_ERROR ? "an error" : "cut short");
            return 1;
        }
        objects += outcome.elements;
        outermost++;
        at += outcome.length;
    }
    printf("%zu objects, %zu of them outermost, in %zu octets\n", objects, outermost, length);
    free(input);
    return 0;
}
