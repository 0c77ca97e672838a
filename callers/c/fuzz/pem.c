/* Blocks of PEM: a text ends, and the buffers suffice. */
#include "fuzz.h"

int LLVMFuzzerTestOneInput(const uint8_t *input, size_t length) {
    uint8_t *characters = malloc(length + (length == 0)), *octets = malloc(length + (length == 0));
    if (characters == NULL || octets == NULL) abort();
    dm_octets text = {input, length};
    dm_pem block;
    uint32_t error;
    do {
        size_t before = text.length;
        error = dm_next_pem(&text, characters, length, octets, length, &block);
        expect(error != DM_ERROR_PEM_NO_ROOM);
        expect_part(text, input, length);
        if (error == 0 || error == DM_ERROR_PEM_ENCRYPTED || error == DM_ERROR_PEM_BASE64) {
            expect(text.length < before && block.length <= length);
            expect_part(block.label, input, length);
        } else {
            expect(text.length == before && error >= DM_ERROR_PEM_NO_BLOCK && error <= DM_ERROR_PEM_LABELS_DIFFER);
            break;
        }
    } while (1);
    free(characters);
    free(octets);
    return 0;
}
