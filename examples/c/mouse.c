/* The boot mouse of HID 1.11, appendix E.10: its elements, and the events of two reports. */
#include "hidstack.h"
#include <inttypes.h>
#include <stdio.h>
#include <stdlib.h>

static const uint8_t mouse[] = {
    0x05, 0x01, 0x09, 0x02, 0xA1, 0x01, 0x09, 0x01, 0xA1, 0x00, 0x05, 0x09, 0x19, 0x01, 0x29, 0x03, 0x15,
    0x00, 0x25, 0x01, 0x95, 0x03, 0x75, 0x01, 0x81, 0x02, 0x95, 0x01, 0x75, 0x05, 0x81, 0x01, 0x05, 0x01,
    0x09, 0x30, 0x09, 0x31, 0x15, 0x81, 0x25, 0x7F, 0x75, 0x08, 0x95, 0x02, 0x81, 0x06, 0xC0, 0xC0};

/* Prints the events of a report; `events` has the `room` places that the opening asked for. */
static void feed(struct hidstack *device, const uint8_t *report, size_t length, struct hidstack_event *events, uint64_t room)
{
    static const char *const words[] = {"up", "down", "value", "null", "motion", "dropped"};
    uint64_t count, i;
    if (hidstack_feed(device, report, length, events, room, &count) != HIDSTACK_OK)
        return;
    for (i = 0; i < count; i++)
        printf("%s %02X:%02X %" PRId64 "\n", words[events[i].kind], events[i].page, events[i].id, events[i].value);
}

int main(void)
{
    static const uint8_t pressed[] = {0x05, 0x7F, 0x81}, released[] = {0x04, 0x00, 0x00};
    struct hidstack device = HIDSTACK_INIT;
    struct hidstack_opened opened;
    struct hidstack_event *events;
    uint64_t item, index;
    uint32_t held;
    if (hidstack_open(mouse, sizeof mouse, &device, &opened) != HIDSTACK_OK) {
        printf("refused: L%" PRIu32 " at %" PRIu64 "\n", opened.cause, opened.at);
        return 1;
    }
    printf("%" PRIu64 " items, room for %" PRIu64 " events\n", opened.items, opened.room);
    for (item = 0; item < opened.items; item++) {
        struct hidstack_element_info element;
        for (index = 0; hidstack_element(&device, item, index, &element) == HIDSTACK_OK; index++)
            printf("%02X:%02X at bit %" PRIu32 ", %" PRIu32 " wide, %" PRId64 " to %" PRId64 "\n", element.page,
                   element.id, element.bit, element.width, element.min, element.max);
    }
    events = calloc(opened.room, sizeof *events);
    if (events) {
        feed(&device, pressed, sizeof pressed, events, opened.room);
        feed(&device, released, sizeof released, events, opened.room);
    }
    if (hidstack_held(&device, 0, 2, &held) == HIDSTACK_OK)
        printf("button 3 is %s\n", held ? "held" : "up");
    free(events);
    hidstack_close(&device);
    return 0;
}
