#include "dumarewhi.h"
#include <stdio.h>
int main(void) {
    const uint8_t input[] = {0x30, 0x06, 0x02, 0x01, 0x05, 0x01, 0x01, 0xff};
    dm_element e[8];
    dm_outcome found;
    if (dm_parse_der(input, sizeof input, DM_MAX_DEPTH, e, 8, &found) != DM_OK) return 1;
    for (size_t i = 0; i < found.elements && i < 8; i++)
        printf("type %u, octets %zu to %zu\n", e[i].number, e[i].content, e[i].end);
}
