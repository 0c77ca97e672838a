// Prints the serial number and the dates of a certificate in DER (RFC 5280 4.1):  certificate < FILE
#include "dumarewhi.h"

#include <algorithm>
#include <cstdio>
#include <iostream>
#include <iterator>
#include <string>
#include <vector>

static void print_time(const char *name, const dm_time &time) {
    std::printf("%s: %04u-%02u-%02u\n", name, time.year, time.month, time.day);
}

int main() {
    std::cin >> std::noskipws;
    const std::vector<uint8_t> input{std::istream_iterator<char>(std::cin), {}};
    dm_certificate it;
    dm_fault fault;
    if (dm_read_certificate(input.data(), input.size(), &it, &fault) != DM_OK) {
        std::vector<uint8_t> text(2 * DM_TEXT_OCTETS);
        const size_t size = dm_found_text(&fault, input.data(), input.size(), text.data(), text.size());
        std::cerr << std::string(text.begin(), text.begin() + std::min(size, text.size())) << "\n";
        return 1;
    }
    std::printf("serial: ");
    for (size_t i = 0; i < it.serial_number.length; i++) std::printf("%02x", it.serial_number.octets[i]);
    std::printf("\n");
    print_time("not before", it.not_before.time);
    print_time("not after", it.not_after.time);
}
