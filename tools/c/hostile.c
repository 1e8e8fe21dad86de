/* Wrong calls: each returns its status, and changes nothing. Run it by itself, under valgrind and under the address
 * sanitizer: buffers have their exact size, so an access past one of their ends is seen. */
#include "hidstack.h"
#include <stdio.h>
#include <stdlib.h>
#include <string.h>

static const uint8_t mouse[] = {
    0x05, 0x01, 0x09, 0x02, 0xA1, 0x01, 0x09, 0x01, 0xA1, 0x00, 0x05, 0x09, 0x19, 0x01, 0x29, 0x03, 0x15,
    0x00, 0x25, 0x01, 0x95, 0x03, 0x75, 0x01, 0x81, 0x02, 0x95, 0x01, 0x75, 0x05, 0x81, 0x01, 0x05, 0x01,
    0x09, 0x30, 0x09, 0x31, 0x15, 0x81, 0x25, 0x7F, 0x75, 0x08, 0x95, 0x02, 0x81, 0x06, 0xC0, 0xC0};
/* two Input reports, with IDs 1 and 2, of one byte each, and a Feature report with ID 3 */
static const uint8_t numbered[] = {
    0x05, 0x01, 0x09, 0x30, 0xA1, 0x01, 0x15, 0x00, 0x25, 0x7F, 0x75, 0x08, 0x95, 0x01, 0x85, 0x01, 0x09,
    0x30, 0x81, 0x02, 0x85, 0x02, 0x09, 0x31, 0x81, 0x02, 0x85, 0x03, 0x09, 0x32, 0xB1, 0x02, 0xC0};
static int wrong;

static void want(const char *what, uint64_t have, uint64_t wanted)
{
    if (have != wanted) {
        printf("%s: %llu, wanted %llu\n", what, (unsigned long long)have, (unsigned long long)wanted);
        wrong = 1;
    }
}

/* Bytes in a block of their exact length. */
static uint8_t *copy_of(const uint8_t *bytes, size_t length)
{
    uint8_t *made = malloc(length ? length : 1);
    if (!made)
        exit(2);
    memcpy(made, bytes, length);
    return made;
}

static void closed_handles(void)
{
    struct hidstack device = HIDSTACK_INIT;
    struct hidstack_event event = {0, 0, 0, 0, 0, 77};
    struct hidstack_element_info element;
    struct hidstack_report_info report;
    struct hidstack_usage_info usage;
    struct hidstack_collection_info collection;
    uint64_t count = 9;
    uint32_t held = 9;
    int64_t value = 9;
    want("feed a closed one", hidstack_feed(&device, mouse, 3, &event, 1, &count), HIDSTACK_CLOSED);
    want("count", count, 0);
    want("table as it was", event.kind, 77);
    want("report of a closed one", hidstack_report(&device, 0, &report), HIDSTACK_CLOSED);
    want("element of a closed one", hidstack_element(&device, 0, 0, &element), HIDSTACK_CLOSED);
    want("usage of a closed one", hidstack_usage(&device, 0, 0, &usage), HIDSTACK_CLOSED);
    want("collection of a closed one", hidstack_collection(&device, 0, 0, &collection), HIDSTACK_CLOSED);
    want("held of a closed one", hidstack_held(&device, 0, 0, &held), HIDSTACK_CLOSED);
    want("value of a closed one", hidstack_value(&device, 0, 0, &value), HIDSTACK_CLOSED);
    want("as they were", held == 9 && value == 9, 1);
    hidstack_close(&device);
    hidstack_close(&device);
    want("closed still", device.session == NULL, 1);
}

static void places(struct hidstack *device)
{
    static const uint64_t far[] = {3, 4096, 0x100000000u, UINT64_MAX};
    struct hidstack_element_info element;
    struct hidstack_report_info report;
    struct hidstack_usage_info usage;
    struct hidstack_collection_info collection;
    uint32_t held;
    int64_t value = 5;
    size_t i;
    for (i = 0; i < sizeof far / sizeof *far; i++) {
        want("no report there", hidstack_report(device, far[i], &report), HIDSTACK_NONE);
        want("no item there", hidstack_element(device, far[i], 0, &element), HIDSTACK_NONE);
        want("no element there", hidstack_element(device, 0, far[i], &element), HIDSTACK_NONE);
        want("no usage there", hidstack_usage(device, 0, far[i], &usage), HIDSTACK_NONE);
        want("no list there", hidstack_usage(device, far[i], 0, &usage), HIDSTACK_NONE);
        want("no collection there", hidstack_collection(device, 0, far[i], &collection), HIDSTACK_NONE);
        want("no path there", hidstack_collection(device, far[i], 0, &collection), HIDSTACK_NONE);
        want("no control there", hidstack_held(device, far[i], far[i], &held), HIDSTACK_OK);
        want("not held", held, 0);
        want("no value there", hidstack_value(device, far[i], 0, &value), HIDSTACK_NONE);
    }
    want("padding has no element", hidstack_element(device, 1, 0, &element), HIDSTACK_NONE);
    want("a switch has no value", hidstack_value(device, 0, 0, &value), HIDSTACK_NONE);
    want("as it was", (uint64_t)value, 5);
    want("the pointer's collection", hidstack_collection(device, 0, 1, &collection), HIDSTACK_OK);
    want("its kind", collection.kind, 0);
    want("its usage", collection.page == 1 && collection.id == 1 && collection.has_usage, 1);
    want("the third button's usage", hidstack_usage(device, 0, 2, &usage), HIDSTACK_OK);
    want("its page and ID", usage.page == 9 && usage.id == 3, 1);
    want("the report", hidstack_report(device, 0, &report), HIDSTACK_OK);
    want("its bytes", report.bytes == 3 && report.bits == 24 && report.kind == HIDSTACK_INPUT && report.id == 0, 1);
}

static void lengths(void)
{
    struct hidstack device = HIDSTACK_INIT;
    struct hidstack_opened opened;
    struct hidstack_event *events = calloc(5, sizeof *events);
    uint64_t count;
    size_t length;
    want("open", hidstack_open(mouse, sizeof mouse, &device, &opened), HIDSTACK_OK);
    want("what it has", opened.room == 5 && opened.items == 3 && opened.reports == 1 && !opened.numbered, 1);
    want("open an open one", hidstack_open(mouse, sizeof mouse, &device, &opened), HIDSTACK_BUSY);
    want("with a wrong descriptor", hidstack_open(mouse, 1, &device, &opened), HIDSTACK_BUSY);
    want("the result stays", opened.room == 5 && opened.items == 3 && opened.reports == 1 && opened.cause == 0, 1);
    for (length = 0; length < 3; length++) {
        uint8_t *report = copy_of(mouse, length);
        want("cut short", hidstack_feed(&device, report, length, events, 5, &count), HIDSTACK_SHORT);
        free(report);
    }
    want("no bytes at null", hidstack_feed(&device, NULL, 0, events, 5, &count), HIDSTACK_SHORT);
    want("no places at null", hidstack_feed(&device, mouse, 3, NULL, 0, &count), HIDSTACK_NO_ROOM);
    want("the room that is needed", count, 5);
    want("too few places", hidstack_feed(&device, mouse, 3, events, 4, &count), HIDSTACK_NO_ROOM);
    want("more bytes than it has", hidstack_feed(&device, mouse, sizeof mouse, events, 5, &count), HIDSTACK_OK);
    places(&device);
    hidstack_close(&device);
    free(events);
    for (length = 0; length < sizeof mouse; length++) {
        uint8_t *front = copy_of(mouse, length);
        uint32_t status = hidstack_open(front, length, &device, &opened);
        want("a front is refused or open", status == HIDSTACK_REFUSED ? opened.cause >= 1 && opened.cause <= 16 && opened.at <= length : status, status == HIDSTACK_REFUSED);
        hidstack_close(&device);
        free(front);
    }
    want("no descriptor at null", hidstack_open(NULL, 0, &device, &opened), HIDSTACK_REFUSED);
    want("ends in its first item", opened.cause == 1 && opened.at + opened.room + opened.items + opened.reports == 0, 1);
    want("is closed still", device.session == NULL, 1);
    want("no descriptor at a place", hidstack_open(mouse, 0, &device, &opened) == HIDSTACK_REFUSED && opened.cause == 1, 1);
    want("a byte of a descriptor", hidstack_open(mouse, 1, &device, &opened) == HIDSTACK_REFUSED && opened.cause == 1, 1);
    want("an item", hidstack_open(mouse, 2, &device, &opened) == HIDSTACK_OK && opened.room + opened.items + opened.reports == 0, 1);
    want("nothing to feed", hidstack_feed(&device, mouse, 3, NULL, 0, &count), HIDSTACK_UNKNOWN);
    hidstack_close(&device);
}

static void reports_with_ids(void)
{
    struct hidstack device = HIDSTACK_INIT;
    struct hidstack_opened opened;
    struct hidstack_event events[2];
    struct hidstack_element_info element;
    struct hidstack_report_info report;
    uint64_t count;
    int64_t value;
    want("open", hidstack_open(numbered, sizeof numbered, &device, &opened), HIDSTACK_OK);
    want("numbered", opened.numbered == 1 && opened.reports == 3, 1);
    want("ID 4", hidstack_feed(&device, (const uint8_t[]){4, 9}, 2, events, 2, &count), HIDSTACK_UNKNOWN);
    want("no byte", hidstack_feed(&device, NULL, 0, events, 2, &count), HIDSTACK_SHORT);
    want("ID alone", hidstack_feed(&device, (const uint8_t[]){2}, 1, events, 2, &count), HIDSTACK_SHORT);
    want("ID 2", hidstack_feed(&device, (const uint8_t[]){2, 9}, 2, events, 2, &count), HIDSTACK_OK);
    want("its event", count == 1 && events[0].kind == HIDSTACK_VALUE && events[0].value == 9 && events[0].item == 1 && events[0].id == 0x31, 1);
    want("its value", hidstack_value(&device, 1, 0, &value), HIDSTACK_OK);
    want("is kept", (uint64_t)value, 9);
    want("the last report", hidstack_report(&device, 2, &report), HIDSTACK_OK);
    want("is Feature 3", report.kind == HIDSTACK_FEATURE && report.id == 3 && report.bytes == 2, 1);
    want("its element", hidstack_element(&device, 2, 0, &element), HIDSTACK_OK);
    want("lies after the ID", element.bit == 8 && element.report == 3 && element.kind == HIDSTACK_FEATURE, 1);
    want("its number", hidstack_number(&element, (const uint8_t[]){3, 7}, 2, &value), HIDSTACK_OK);
    want("is 7", (uint64_t)value, 7);
    want("another ID", hidstack_number(&element, (const uint8_t[]){2, 7}, 2, &value), HIDSTACK_UNKNOWN);
    want("too short", hidstack_number(&element, (const uint8_t[]){3}, 1, &value), HIDSTACK_SHORT);
    want("no bytes at null", hidstack_number(&element, NULL, 0, &value), HIDSTACK_SHORT);
    want("as it was", (uint64_t)value, 7);
    hidstack_close(&device);
}

/* Fed with reports of 0 to 257 bytes of ones: those that are shorter than 256 are refused. */
static void long_ones(struct hidstack *device, uint8_t id, struct hidstack_event *events, size_t room)
{
    static const size_t lengths[] = {0, 1, 255, 256, 257};
    uint64_t count, told = room;
    size_t i;
    for (i = 0; i < sizeof lengths / sizeof *lengths; i++) {
        uint8_t *report = malloc(lengths[i] ? lengths[i] : 1);
        if (!report)
            exit(2);
        memset(report, 0xFF, lengths[i]);
        if (lengths[i] && id)
            report[0] = id;
        want("by its length", hidstack_feed(device, report, lengths[i], events, room, &count), lengths[i] < 256 ? HIDSTACK_SHORT : HIDSTACK_OK);
        want("its events, once", count, lengths[i] == 256 ? told : 0);
        free(report);
    }
}

static void longest_reports(void)
{
    /* 2,048 buttons; 255 values after an ID; 16,384 values; a byte more than a report has, without an ID and with one */
    static const uint8_t bits[] = {0x05, 0x09, 0x19, 0x01, 0x2A, 0x00, 0x08, 0x15, 0x00, 0x25, 0x01, 0x75, 0x01, 0x96, 0x00, 0x08, 0x81, 0x02};
    static const uint8_t named[] = {0x05, 0x01, 0x09, 0x30, 0x85, 0x09, 0x15, 0x81, 0x25, 0x7F, 0x75, 0x08, 0x95, 0xFF, 0x81, 0x02};
    static const uint8_t over[] = {0x05, 0x01, 0x09, 0x30, 0x15, 0x81, 0x25, 0x7F, 0x75, 0x08, 0x96, 0x01, 0x40, 0x81, 0x02};
    static const uint8_t named_over[] = {0x05, 0x01, 0x09, 0x30, 0x85, 0x09, 0x15, 0x81, 0x25, 0x7F, 0x75, 0x08, 0x96, 0x00, 0x40, 0x81, 0x02};
    static const uint8_t longest[] = {0x05, 0x01, 0x09, 0x30, 0x15, 0x81, 0x25, 0x7F, 0x75, 0x08, 0x96, 0x00, 0x40, 0x81, 0x02};
    struct hidstack device = HIDSTACK_INIT;
    struct hidstack_opened opened;
    struct hidstack_event *events = calloc(16384, sizeof *events);
    uint8_t *report = calloc(1, 16384);
    uint64_t count;
    size_t i;
    if (!events || !report)
        exit(2);
    want("16,385 bytes", hidstack_open(over, sizeof over, &device, &opened), HIDSTACK_REFUSED);
    want("are L15 at the item", opened.cause == 15 && opened.at == 13, 1);
    want("16,385 bytes with an ID", hidstack_open(named_over, sizeof named_over, &device, &opened), HIDSTACK_REFUSED);
    want("are L15 at the item", opened.cause == 15 && opened.at == 15, 1);
    want("256 bytes", hidstack_open(bits, sizeof bits, &device, &opened), HIDSTACK_OK);
    want("room for each button", opened.room, 2048);
    want("one place too few", hidstack_feed(&device, NULL, 0, events, 2047, &count), HIDSTACK_NO_ROOM);
    long_ones(&device, 0, events, 2048);
    for (i = 0; i < 2048; i++)
        want("each button is down", events[i].kind == HIDSTACK_DOWN && events[i].id == i + 1 && events[i].index == i, 1);
    hidstack_close(&device);
    want("256 bytes with an ID", hidstack_open(named, sizeof named, &device, &opened), HIDSTACK_OK);
    want("room for each value", opened.room, 255);
    long_ones(&device, 9, events, 255);
    want("another ID", hidstack_feed(&device, (const uint8_t[]){8}, 1, events, 255, &count), HIDSTACK_UNKNOWN);
    hidstack_close(&device);
    want("16,384 bytes", hidstack_open(longest, sizeof longest, &device, &opened), HIDSTACK_OK);
    want("room for each value", opened.room, 16384);
    memset(report, 1, 16384);
    want("a byte too few", hidstack_feed(&device, report, 16383, events, 16384, &count), HIDSTACK_SHORT);
    want("all bytes", hidstack_feed(&device, report, 16384, events, 16384, &count), HIDSTACK_OK);
    want("each value", count == 16384 && events[16383].value == 1 && events[16383].index == 16383, 1);
    hidstack_close(&device);
    free(report);
    free(events);
}

/* A hat of 0 to 7 that has a null state, a value of 1 to 4 and one of -5 to 5. */
static void first_values(void)
{
    static const uint8_t hat[] = {0x05, 0x01, 0x09, 0x39, 0x15, 0x00, 0x25, 0x07, 0x75, 0x04, 0x95, 0x01, 0x81, 0x42, 0x09, 0x30, 0x15, 0x01, 0x25, 0x04, 0x81, 0x02, 0x09, 0x31, 0x15, 0xFB, 0x25, 0x05, 0x75, 0x08, 0x81, 0x02};
    struct hidstack device = HIDSTACK_INIT;
    struct hidstack_opened opened;
    struct hidstack_event events[3];
    uint64_t count;
    int64_t value = 9;
    want("open", hidstack_open(hat, sizeof hat, &device, &opened), HIDSTACK_OK);
    want("room", opened.room, 3);
    want("a hat has no value at first", hidstack_value(&device, 0, 0, &value), HIDSTACK_NONE);
    want("as it was", (uint64_t)value, 9);
    want("the least value where 0 is out of range", hidstack_value(&device, 1, 0, &value) == HIDSTACK_OK && value == 1, 1);
    want("0 where it is in range", hidstack_value(&device, 2, 0, &value) == HIDSTACK_OK && value == 0, 1);
    want("north", hidstack_feed(&device, (const uint8_t[]){0x10, 0}, 2, events, 3, &count), HIDSTACK_OK);
    want("is reported", count == 1 && events[0].kind == HIDSTACK_VALUE && events[0].value == 0 && events[0].id == 0x39, 1);
    want("let go", hidstack_feed(&device, (const uint8_t[]){0x18, 0}, 2, events, 3, &count), HIDSTACK_OK);
    want("is reported", count == 1 && events[0].kind == HIDSTACK_NULL && events[0].value == 0, 1);
    want("no value any more", hidstack_value(&device, 0, 0, &value), HIDSTACK_NONE);
    hidstack_close(&device);
}

/* An array of two keys, and a switch before it: the events of each report, in order. */
static void orders(void)
{
    static const uint8_t keys[] = {0x05, 0x09, 0x09, 0x01, 0x15, 0x00, 0x25, 0x01, 0x75, 0x08, 0x95, 0x01, 0x81, 0x02, 0x05, 0x07, 0x19, 0x00, 0x29, 0x65, 0x15, 0x00, 0x25, 0x65, 0x95, 0x02, 0x81, 0x00};
    struct hidstack device = HIDSTACK_INIT;
    struct hidstack_opened opened;
    struct hidstack_event *events;
    uint64_t count;
    want("open", hidstack_open(keys, sizeof keys, &device, &opened), HIDSTACK_OK);
    events = calloc(opened.room, sizeof *events);
    want("two keys", hidstack_feed(&device, (const uint8_t[]){0, 6, 4}, 3, events, opened.room, &count), HIDSTACK_OK);
    want("by rising place", count == 2 && events[0].id == 4 && events[1].id == 6 && events[0].kind == HIDSTACK_DOWN, 1);
    want("two others, and the switch", hidstack_feed(&device, (const uint8_t[]){1, 7, 5}, 3, events, opened.room, &count), HIDSTACK_OK);
    want("the switch first", count == 5 && events[0].page == 9 && events[0].kind == HIDSTACK_DOWN, 1);
    want("then what went up", events[1].kind == HIDSTACK_UP && events[1].id == 4 && events[2].kind == HIDSTACK_UP && events[2].id == 6, 1);
    want("then what went down", events[3].kind == HIDSTACK_DOWN && events[3].id == 5 && events[4].kind == HIDSTACK_DOWN && events[4].id == 7, 1);
    free(events);
    hidstack_close(&device);
}

static void wild_elements(void)
{
    uint8_t report[64];
    uint32_t seed = 1;
    int64_t value;
    int i;
    memset(report, 0xA5, sizeof report);
    for (i = 0; i < 100000; i++) {
        struct hidstack_element_info element;
        uint8_t *byte = (uint8_t *)&element;
        size_t at, length;
        for (at = 0; at < sizeof element; at++) {
            seed = seed * 1664525u + 1013904223u;
            byte[at] = (uint8_t)(seed >> 24);
        }
        if (i % 2) {
            element.bit %= 520;
            element.width %= 34;
            element.report = 0;
        }
        length = seed % 65;
        {
            uint8_t *bytes = copy_of(report, length);
            uint32_t status = hidstack_number(&element, bytes, length, &value);
            int lies = element.width >= 1 && element.width <= 32 && (uint64_t)element.bit + element.width <= 8 * length;
            want("wild element", status == HIDSTACK_SHORT, !lies);
            free(bytes);
        }
    }
}

static void tables(void)
{
    struct hidstack_element_info *table = calloc(5, sizeof *table);
    struct hidstack_tabled tabled;
    want("no places", hidstack_table(mouse, sizeof mouse, NULL, 0, &tabled), HIDSTACK_NO_ROOM);
    want("five are needed", tabled.elements, 5);
    want("four places", hidstack_table(mouse, sizeof mouse, table, 4, &tabled), HIDSTACK_NO_ROOM);
    want("as they were", table[0].width, 0);
    want("five places", hidstack_table(mouse, sizeof mouse, table, 5, &tabled), HIDSTACK_OK);
    want("the last one", table[4].bit == 16 && table[4].min == -127 && table[4].is_signed && table[4].flags == (HIDSTACK_VARIABLE | HIDSTACK_RELATIVE) && table[4].collections == 2, 1);
    want("cut off", hidstack_table(mouse, sizeof mouse - 1, table, 5, &tabled), HIDSTACK_REFUSED);
    want("L7 at its end", tabled.cause == 7 && tabled.at == sizeof mouse - 1 && tabled.elements == 0, 1);
    free(table);
}

static void any_descriptors(void)
{
    uint32_t seed = 7;
    int i;
    for (i = 0; i < 3000; i++) {
        struct hidstack device = HIDSTACK_INIT;
        struct hidstack_opened opened;
        uint8_t *bytes = copy_of(mouse, sizeof mouse);
        int n;
        for (n = 0; n < 3; n++) {
            seed = seed * 1664525u + 1013904223u;
            bytes[(seed >> 8) % sizeof mouse] = (uint8_t)(seed >> 24);
        }
        if (hidstack_open(bytes, sizeof mouse, &device, &opened) == HIDSTACK_OK) {
            struct hidstack_event *events = malloc(opened.room ? opened.room * sizeof *events : 1);
            uint64_t count;
            hidstack_feed(&device, bytes, sizeof mouse, events, opened.room, &count);
            want("no more than there is room for", count <= opened.room, 1);
            free(events);
        }
        hidstack_close(&device);
        free(bytes);
    }
}

static void texts(void)
{
    uint8_t text[9];
    uint64_t told;
    want("L10", hidstack_cause_text(10, text, 3, &told), HIDSTACK_OK);
    want("its text", told == 3 && memcmp(text, "L10", 3) == 0, 1);
    want("too little room", hidstack_cause_text(10, text, 2, &told), HIDSTACK_NO_ROOM);
    want("it needs 3", told, 3);
    want("no cause 0", hidstack_cause_text(0, text, 9, &told), HIDSTACK_NONE);
    want("no cause 18", hidstack_cause_text(18, text, 9, &told), HIDSTACK_NONE);
    want("01:30", hidstack_usage_text(1, 0x30, text, 9, &told), HIDSTACK_OK);
    want("its text", told == 5 && memcmp(text, "01:30", 5) == 0, 1);
    want("the longest", hidstack_usage_text(0xFFFF, 0xFFFF, text, 9, &told), HIDSTACK_OK);
    want("has 9 bytes", told == 9 && memcmp(text, "FFFF:FFFF", 9) == 0, 1);
    want("no room at null", hidstack_usage_text(1, 2, NULL, 0, &told), HIDSTACK_NO_ROOM);
}

static void refusals(void)
{
    static const char pop[] = "L3 at 0: a Pop without a Push", truncated[] = "L1 at 0: the descriptor ends in the middle of an item";
    static const char longest[] = "L15 at 15: Feature report 68 has 20000 bytes, over 16384";
    /* Report ID 68, a Feature item of 19,999 bytes */
    static const uint8_t feature[] = {0x06, 0x00, 0xFF, 0x09, 0x01, 0x85, 0x44, 0x26, 0xFF, 0x00, 0x75, 0x08, 0x96, 0x1F, 0x4E, 0xB1, 0x02};
    static const uint8_t pops[] = {0xB4}, cut[] = {0x05};
    uint8_t text[128];
    uint64_t told;
    want("a Pop", hidstack_refusal_text(pops, sizeof pops, text, sizeof text, &told), HIDSTACK_OK);
    want("in words", told == sizeof pop - 1 && memcmp(text, pop, sizeof pop - 1) == 0, 1);
    want("a cut item", hidstack_refusal_text(cut, sizeof cut, text, sizeof truncated - 1, &told), HIDSTACK_OK);
    want("in words", told == sizeof truncated - 1 && memcmp(text, truncated, sizeof truncated - 1) == 0, 1);
    want("a long report", hidstack_refusal_text(feature, sizeof feature, text, sizeof text, &told), HIDSTACK_OK);
    want("by its name", told == sizeof longest - 1 && memcmp(text, longest, sizeof longest - 1) == 0, 1);
    want("one byte too few", hidstack_refusal_text(feature, sizeof feature, text, sizeof longest - 2, &told), HIDSTACK_NO_ROOM);
    want("its length is reported", told, sizeof longest - 1);
    want("no byte", hidstack_refusal_text(NULL, 0, text, sizeof text, &told), HIDSTACK_OK);
    want("in words", told == sizeof truncated - 1 && memcmp(text, truncated, sizeof truncated - 1) == 0, 1);
    want("nothing is refused", hidstack_refusal_text(feature, 3, text, sizeof text, &told), HIDSTACK_NONE);
    want("nothing is reported", told, 0);
}

static void words(void)
{
    static const char pop[] = "a Pop without a Push", mouse_name[] = "Mouse", button[] = "Button 65535";
    uint8_t text[128], shortest[sizeof pop - 1];
    uint64_t told;
    uint32_t number, page, id;
    want("L3 in words", hidstack_cause_words(3, shortest, sizeof shortest, &told), HIDSTACK_OK);
    want("its words", told == sizeof shortest && memcmp(shortest, pop, sizeof shortest) == 0, 1);
    want("one byte too few", hidstack_cause_words(3, text, sizeof shortest - 1, &told), HIDSTACK_NO_ROOM);
    want("its length is reported", told, sizeof shortest);
    for (number = 1; number <= 17; number++)
        want("each cause has words", hidstack_cause_words(number, text, sizeof text, &told) == HIDSTACK_OK && told > 0, 1);
    want("no words of 0", hidstack_cause_words(0, text, sizeof text, &told), HIDSTACK_NONE);
    want("nothing is reported", told, 0);
    want("no words of 18", hidstack_cause_words(18, text, sizeof text, &told), HIDSTACK_NONE);
    want("no words of the greatest", hidstack_cause_words(UINT32_MAX, NULL, 0, &told), HIDSTACK_NONE);
    refusals();
    want("01:02", hidstack_usage_name(1, 2, text, sizeof mouse_name - 1, &told), HIDSTACK_OK);
    want("is a mouse", told == 5 && memcmp(text, mouse_name, 5) == 0, 1);
    want("one byte too few", hidstack_usage_name(1, 2, text, 4, &told), HIDSTACK_NO_ROOM);
    want("it needs 5", told, 5);
    want("the last button", hidstack_usage_name(9, UINT16_MAX, text, sizeof text, &told), HIDSTACK_OK);
    want("has its number", told == sizeof button - 1 && memcmp(text, button, sizeof button - 1) == 0, 1);
    want("no button 0", hidstack_usage_name(9, 0, text, sizeof text, &told), HIDSTACK_NONE);
    want("nothing is reported", told, 0);
    want("no name of a vendor's", hidstack_usage_name(0xFF00, 1, NULL, 0, &told), HIDSTACK_NONE);
    want("no room at null", hidstack_usage_name(1, 0x30, NULL, 0, &told), HIDSTACK_NO_ROOM);
    for (page = 0; page <= 0xFFFF; page += page < 0x120 ? 1 : 0x101)
        for (id = 0; id <= 0x400; id++) {
            uint32_t status = hidstack_usage_name((uint16_t)page, (uint16_t)id, text, sizeof text, &told);
            want("a name, or none", (status == HIDSTACK_OK && told > 0) || (status == HIDSTACK_NONE && told == 0), 1);
        }
}

/* A script of 1,500 empty lines, and one that is refused after them. */
static void late_line(void)
{
    static const char fault[] = "line 1501: X1\n";
    uint8_t script[1501], line[sizeof fault - 1];
    struct hidstack_ran ran;
    memset(script, '\n', sizeof script);
    script[sizeof script - 1] = 'x';
    want("a late line", hidstack_run(script, sizeof script, 0, NULL, 0, line, sizeof line, &ran), HIDSTACK_REFUSED);
    want("its number", ran.line == 1501 && ran.fault == sizeof line && memcmp(line, fault, sizeof line) == 0, 1);
}

static void runs(void)
{
    static const char script[] = "layout 05 01 09 30 15 81 25 7F 75 08 95 01 81 06\nvalues 81\nnonsense\n";
    static const char told[] = "report input 0 bytes 1\nitem 0 input 0 at 0 8x1 relative -127..127 01:30\nvalue 0.0 -127 01:30\n";
    static const char fault[] = "line 3: X1\n";
    const uint8_t *bytes = (const uint8_t *)script;
    uint8_t out[sizeof told - 1], line[sizeof fault - 1];
    struct hidstack_ran ran;
    want("all but the last line", hidstack_run(bytes, sizeof script - 10, 0, out, sizeof out, NULL, 0, &ran), HIDSTACK_OK);
    want("its text", ran.length == sizeof out && memcmp(out, told, sizeof out) == 0 && ran.line == 0, 1);
    want("the whole", hidstack_run(bytes, sizeof script - 1, 0, out, sizeof out, line, sizeof line, &ran), HIDSTACK_REFUSED);
    want("the line", ran.line == 3 && ran.fault == sizeof line && memcmp(line, fault, sizeof line) == 0, 1);
    want("too little room", hidstack_run(bytes, sizeof script - 1, 0, out, sizeof out - 1, line, sizeof line, &ran), HIDSTACK_NO_ROOM);
    want("all three are reported", ran.length == sizeof out && ran.fault == sizeof line && ran.line == 3, 1);
    want("no line", hidstack_run(NULL, 0, 0, NULL, 0, NULL, 0, &ran), HIDSTACK_OK);
    want("options that there aren't", hidstack_run(bytes, sizeof script - 10, ~3u, out, sizeof out, NULL, 0, &ran), HIDSTACK_OK);
    late_line();
}

int main(void)
{
    closed_handles();
    lengths();
    reports_with_ids();
    longest_reports();
    first_values();
    orders();
    wild_elements();
    tables();
    any_descriptors();
    texts();
    words();
    runs();
    puts(wrong ? "WRONG" : "as wanted");
    return wrong;
}
