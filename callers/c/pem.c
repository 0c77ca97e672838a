/* Prints the blocks of PEM (RFC 7468) on standard input: the label, how many octets each has, and their SHA-256 digest;
 * or why a block has none. It ends with status 1 where a block isn't read. */
#include "dumarewhi.h"

#include <stdio.h>
#include <stdlib.h>

static uint8_t input[1 << 20], characters[1 << 20], octets[1 << 20];

static void print_block(const dm_pem *block) {
    dm_digest digest;
    dm_sha256(octets, block->length, &digest);
    printf("%.*s %zu ", (int)block->label.length, (const char *)block->label.octets, block->length);
    for (size_t i = 0; i < sizeof digest.octets; i++) printf("%02x", digest.octets[i]);
    printf("\n");
}

int main(void) {
    size_t length = fread(input, 1, sizeof input, stdin);
    dm_octets text = {input, length};
    dm_pem block;
    int is_refused = 0;
    for (;;) {
        uint32_t error = dm_next_pem(&text, characters, length, octets, length, &block);
        if (error == DM_ERROR_PEM_NO_BLOCK) return is_refused;
        if (error == 0) {
            print_block(&block);
            continue;
        }
        is_refused = 1;
        printf("%s\n", dm_error_string(error));
        if (error == DM_ERROR_PEM_NO_END || error == DM_ERROR_PEM_LABELS_DIFFER) return is_refused;
    }
}
