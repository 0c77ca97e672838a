/* Writing: elements that the octets choose, in a buffer of each capacity. What is written is DER. */
#include "fuzz.h"

static void put(dm_writer *writer, uint8_t call, const uint8_t *octets, size_t length) {
    dm_time time = {2000, 0, 1, 1, 0, 0, 0, DM_UTC, 0, 0};
    uint64_t arcs[3] = {2, 5, length};
    time.day = call & 63;
    switch (call % 12) {
    case 0: dm_put_bool(writer, call & 64); break;
    case 1: dm_put_i64(writer, (int64_t)length - 100); break;
    case 2: dm_put_enumerated(writer, length); break;
    case 3: dm_put_octets(writer, octets, length); break;
    case 4: dm_put_null(writer); break;
    case 5: dm_put_magnitude(writer, octets, length); break;
    case 6: dm_put_bits(writer, call & 7, octets, length); break;
    case 7: (void)dm_put_integer(writer, octets, length); break;
    case 8: (void)dm_put_arcs(writer, arcs, 3); break;
    case 9: (void)dm_put_text(writer, call & 31, octets, length); break;
    case 10: (void)dm_put_time(writer, call & 64 ? DM_UTC_TIME : DM_GENERALIZED_TIME, &time); break;
    default: dm_implicit(writer, DM_CONTEXT_SPECIFIC, call); break;
    }
}

static size_t write_all(const uint8_t *input, size_t length, uint8_t *out, size_t room, uint32_t *status) {
    dm_writer writer = dm_writer_over(out, room);
    dm_mark list = dm_open_sequence(&writer), set = dm_open_set(&writer);
    size_t size = 0;
    for (size_t i = 0; i < length; i++) put(&writer, input[i], input + i, (length - i) % (input[i] + 1u));
    dm_close_set_of(&writer, set);
    dm_close(&writer, list);
    *status = dm_finish(&writer, &size);
    return size;
}

int LLVMFuzzerTestOneInput(const uint8_t *input, size_t length) {
    static uint8_t out[1 << 14], none[1];
    uint32_t counted, status;
    if (length > 64) length = 64;
    size_t size = write_all(input, length, none, 0, &counted);
    expect(counted == DM_NO_ROOM && size > 0 && size <= sizeof out);
    uint8_t *own = malloc(size);
    if (own == NULL) return 0;
    expect(write_all(input, length, own, size, &status) == size && status == DM_OK);
    expect(write_all(input, length, out, size - 1, &status) == size && status == DM_NO_ROOM);
    dm_outcome outcome;
    expect(dm_check_der(own, size, DM_MAX_DEPTH, &outcome) == DM_OK && outcome.length == size);
    free(own);
    return 0;
}
