/* Elements: lists, checks, the first one, and what DER writes. */
#include "fuzz.h"

static void test_rules(const uint8_t *input, size_t length, int is_der) {
    dm_element elements[64], first;
    dm_outcome listed, checked, found;
    uint32_t (*parse)(const uint8_t *, size_t, size_t, dm_element *, size_t, dm_outcome *) =
        is_der ? dm_parse_der : dm_parse_ber;
    uint32_t (*check)(const uint8_t *, size_t, size_t, dm_outcome *) = is_der ? dm_check_der : dm_check_ber;
    uint32_t (*find)(const uint8_t *, size_t, dm_element *, dm_outcome *) = is_der ? dm_first_der : dm_first_ber;
    uint32_t status = parse(input, length, DM_MAX_DEPTH, elements, 64, &listed);
    expect(status == listed.status && check(input, length, DM_MAX_DEPTH, &checked) == status);
    expect(memcmp(&listed, &checked, sizeof listed) == 0);
    expect((status == DM_ERROR) == (listed.error != 0) && listed.length <= length && listed.place <= length);
    for (size_t i = 0; status == DM_OK && i < listed.elements && i < 64; i++) {
        expect(elements[i].header < elements[i].content && elements[i].content <= elements[i].end);
        expect(elements[i].end <= listed.length && elements[i].inside < listed.elements);
    }
    /* By BER the framing of deeper elements is refused. */
    int is_found = find(input, length, &first, &found) == DM_OK;
    if (status == DM_OK) expect(is_found ? found.length == listed.length : !is_der);
}

int LLVMFuzzerTestOneInput(const uint8_t *input, size_t length) {
    static uint8_t out[1 << 14];
    dm_outcome written, checked;
    test_rules(input, length, 1);
    test_rules(input, length, 0);
    size_t room = length < sizeof out ? length : sizeof out;
    uint32_t status = dm_write_der(input, length, out, room, &written);
    expect(status == written.status && status <= DM_NO_ROOM);
    if (status == DM_OK && written.length > 0) {
        expect(written.length <= room && dm_check_der(out, written.length, DM_MAX_DEPTH, &checked) == DM_OK);
    }
    return 0;
}
