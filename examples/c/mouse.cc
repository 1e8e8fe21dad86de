// The same mouse with no handle: its elements in a vector, and their numbers in a report.
#include "hidstack.h"
#include <cstdint>
#include <cstdio>
#include <vector>

int main()
{
    const std::vector<std::uint8_t> mouse{
        0x05, 0x01, 0x09, 0x02, 0xA1, 0x01, 0x09, 0x01, 0xA1, 0x00, 0x05, 0x09, 0x19, 0x01, 0x29, 0x03, 0x15,
        0x00, 0x25, 0x01, 0x95, 0x03, 0x75, 0x01, 0x81, 0x02, 0x95, 0x01, 0x75, 0x05, 0x81, 0x01, 0x05, 0x01,
        0x09, 0x30, 0x09, 0x31, 0x15, 0x81, 0x25, 0x7F, 0x75, 0x08, 0x95, 0x02, 0x81, 0x06, 0xC0, 0xC0};
    const std::vector<std::uint8_t> report{0x05, 0x7F, 0x81};
    hidstack_tabled tabled;
    std::vector<hidstack_element_info> table;
    while (hidstack_table(mouse.data(), mouse.size(), table.data(), table.size(), &tabled) == HIDSTACK_NO_ROOM)
        table.resize(tabled.elements);
    for (const hidstack_element_info &element : table) {
        std::int64_t value;
        if (hidstack_number(&element, report.data(), report.size(), &value) == HIDSTACK_OK)
            std::printf("%02X:%02X %lld\n", element.page, element.id, static_cast<long long>(value));
    }
}
