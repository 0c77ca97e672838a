/* Fields: a cursor of BER or DER, whose calls the first octets choose. */
#include "fuzz.h"

static uint32_t next_bits(dm_cursor *cursor, dm_fault *fault) {
    dm_octets left = cursor->left;
    dm_bits bits;
    uint32_t status = dm_next_bits(cursor, &bits, fault);
    if (status == DM_OK) expect_bits(&bits, left.octets, left.length);
    return status;
}

static uint32_t next(dm_cursor *cursor, dm_cursor *inner, uint8_t call, dm_fault *fault) {
    uint8_t truth;
    uint64_t number;
    int64_t signed_number;
    dm_octets octets;
    dm_time time;
    dm_any any;
    switch (call % 15) {
    case 0: return dm_next_bool(cursor, &truth, fault);
    case 1: return dm_next_u64(cursor, &number, fault);
    case 2: return dm_next_i64(cursor, &signed_number, fault);
    case 3: return dm_next_enumerated(cursor, &number, fault);
    case 4: return dm_next_integer(cursor, &octets, fault);
    case 5: return dm_next_octets(cursor, &octets, fault);
    case 6: return dm_next_oid(cursor, &octets, fault);
    case 7: return next_bits(cursor, fault);
    case 8: return dm_next_null(cursor, fault);
    case 9: return dm_next_utc_time(cursor, &time, fault);
    case 10: return dm_next_generalized_time(cursor, &time, fault);
    case 11: return dm_next_sequence(cursor, inner, fault);
    case 12: return dm_next_set(cursor, inner, fault);
    case 13: return dm_next_content(cursor, call >> 4 & 3, call >> 6 & 1, call >> 2 & 15, inner, fault);
    default: return dm_next_any(cursor, &any, fault);
    }
}

int LLVMFuzzerTestOneInput(const uint8_t *input, size_t length) {
    static const uint8_t name[] = "field";
    uint8_t text[DM_TEXT_OCTETS + sizeof name];
    size_t calls = length < 16 ? length : 16;
    dm_cursor cursor = dm_cursor_over(input + calls, length - calls, calls > 0 && input[0] >= 128);
    for (size_t i = 0; i < calls; i++) {
        dm_cursor before = cursor, inner = cursor;
        dm_fault fault;
        if (input[i] >= 224) dm_next_implicit(&cursor, DM_CONTEXT_SPECIFIC, input[i] & 7);
        dm_cursor at = cursor;
        uint32_t status = next(&cursor, &inner, input[i], &fault);
        expect_fault(&fault, status, length - calls);
        expect_part(cursor.left, input + calls, length - calls);
        expect_part(inner.left, input + calls, length - calls);
        if (status == DM_OK) {
            expect(cursor.left.length < before.left.length && cursor.implicit == 0);
            expect(cursor.offset + cursor.left.length == before.offset + before.left.length);
            if (inner.is_inside && !before.is_inside) cursor = inner;
        } else {
            expect(memcmp(&cursor, &at, sizeof at) == 0);
            expect(dm_named_fault_text(&fault, name, sizeof name, text, sizeof text) <= sizeof text + 1);
        }
        expect(dm_end(&cursor, &fault) == (cursor.left.length == 0 ? DM_OK : DM_ERROR));
    }
    return 0;
}
