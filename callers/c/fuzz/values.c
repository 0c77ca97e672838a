/* Values of content octets, and texts of errors. */
#include "fuzz.h"

int LLVMFuzzerTestOneInput(const uint8_t *input, size_t length) {
    int64_t signed_number = 7;
    uint64_t number = 7;
    uint8_t truth = 7, text[64], again[64];
    size_t needed = 7, same = 7;
    dm_time time;
    if (dm_read_i64(input, length, &signed_number) != 0) expect(signed_number == 7);
    if (dm_read_u64(input, length, &number) != 0) expect(number == 7);
    if (dm_read_bool(input, length, &truth) == 0) expect(truth <= 1);
    if (dm_read_oid(input, length, text, sizeof text, &needed) == 0) {
        size_t room = needed < 8 ? needed : 8;
        expect(dm_read_oid(input, length, again, room, &same) == 0 && same == needed);
        expect(memcmp(text, again, room) == 0);
        if (needed > 0 && needed <= sizeof text) {
            expect(dm_oid_from_text((const char *)text, needed, again, sizeof again, &same) == 0 && same <= length);
        }
    } else {
        expect(needed == 7);
    }
    needed = 7;
    if (dm_oid_from_text((const char *)input, length, again, sizeof again, &needed) == 0) {
        expect(needed < length);
        if (needed <= sizeof again) expect(dm_read_oid(again, needed, text, sizeof text, &same) == 0 && same <= length);
    } else {
        expect(needed == 7);
    }
    for (uint32_t type = DM_UTC_TIME; type <= DM_GENERALIZED_TIME; type++) {
        if (dm_read_time(type, input, length, &time) != 0) continue;
        expect(time.month >= 1 && time.month <= 12 && time.day >= 1 && time.day <= 31 && time.hour <= 23);
        expect(time.minute <= 59 && time.second <= 59 && time.nanosecond < 1000000000 && time.zone <= DM_OFFSET);
    }
    uint32_t type = length == 0 ? 0 : input[0];
    uint32_t error = dm_check_text(type, input, length);
    size_t size = dm_error_text(error, text, sizeof text);
    expect(size == strlen(dm_error_string(error)));
    return 0;
}
