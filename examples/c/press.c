/* Presses left Shift and A in a report of a boot keyboard, reads the report as a host does, and lets go of both. */
#include <hidstack.h>
#include <stdio.h>
#include <stdlib.h>

/* The place of a usage in an item's usage list; or how many usages the list has. */
static uint64_t place_of(struct hidstack *device, const struct hidstack_element_info *element, uint16_t page, uint16_t id)
{
    struct hidstack_usage_info usage;
    uint64_t place = 0;
    while (hidstack_usage(device, element->item, place, &usage) == HIDSTACK_OK && (usage.page != page || usage.id != id))
        place++;
    return place;
}

/* Presses a key in an Input report: a switch becomes 1, and an array names the key in its first element without one. */
static int press(struct hidstack *device, uint64_t items, uint8_t *report, size_t length, uint16_t page, uint16_t id)
{
    struct hidstack_element_info element;
    uint64_t item, index, place;
    int64_t number;
    for (item = 0; item < items; item++)
        for (index = 0; hidstack_element(device, item, index, &element) == HIDSTACK_OK && element.kind == HIDSTACK_INPUT; index++) {
            if (!element.is_array && element.page == page && element.id == id)
                return hidstack_put(&element, report, length, 1) == HIDSTACK_OK;
            if (!element.is_array || (place = place_of(device, &element, page, id)) == element.usages)
                continue;
            if (hidstack_number(&element, report, length, &number) == HIDSTACK_OK && number == 0)
                return hidstack_put(&element, report, length, element.min + (int64_t)place) == HIDSTACK_OK;
        }
    return 0;
}

static void print(const struct hidstack_event *events, uint64_t count)
{
    uint64_t i;
    for (i = 0; i < count; i++)
        printf("%s %02X:%02X\n", events[i].kind == HIDSTACK_DOWN ? "down" : "up", events[i].page, events[i].id);
}

int main(void)
{
    struct hidstack device = HIDSTACK_INIT;
    struct hidstack_opened opened;
    struct hidstack_event *events;
    uint8_t descriptor[64], report[8];
    uint64_t length, count, i;
    if (hidstack_boot_descriptor(HIDSTACK_BOOT_KEYBOARD, descriptor, sizeof descriptor, &length) != HIDSTACK_OK ||
        hidstack_open(descriptor, length, &device, &opened) != HIDSTACK_OK)
        return 1;
    events = calloc(opened.room, sizeof *events);
    if (!events || hidstack_blank(&device, HIDSTACK_INPUT, 0, report, sizeof report, &length) != HIDSTACK_OK ||
        !press(&device, opened.items, report, length, 0x07, 0xE1) || !press(&device, opened.items, report, length, 0x07, 0x04))
        return 1;
    for (i = 0; i < length; i++)
        printf("%02X%c", report[i], i + 1 < length ? ' ' : '\n');
    if (hidstack_feed(&device, report, length, events, opened.room, &count) == HIDSTACK_OK)
        print(events, count);
    if (hidstack_release(&device, events, opened.room, &count) == HIDSTACK_OK)
        print(events, count);
    hidstack_close(&device);
    free(events);
    return 0;
}
