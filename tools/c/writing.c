/* Reports written, what is held let go, and the boot descriptors: right calls and wrong ones. The buffers of bytes_of are blocks
 * of their exact size, so an access past one of their ends is seen under valgrind. */
#include "hidstack.h"
#include <stdio.h>
#include <stdlib.h>
#include <string.h>

/* two Input reports, with IDs 1 and 2, of one byte each, and a Feature report with ID 3 */
static const uint8_t numbered[] = {
    0x05, 0x01, 0x09, 0x30, 0xA1, 0x01, 0x15, 0x00, 0x25, 0x7F, 0x75, 0x08, 0x95, 0x01, 0x85, 0x01, 0x09,
    0x30, 0x81, 0x02, 0x85, 0x02, 0x09, 0x31, 0x81, 0x02, 0x85, 0x03, 0x09, 0x32, 0xB1, 0x02, 0xC0};
/* a hat of 0 to 7 with a null state, a value of 1 to 4 and one of -5 to 5 */
static const uint8_t hat[] = {0x05, 0x01, 0x09, 0x39, 0x15, 0x00, 0x25, 0x07, 0x75, 0x04, 0x95, 0x01, 0x81, 0x42, 0x09, 0x30,
    0x15, 0x01, 0x25, 0x04, 0x81, 0x02, 0x09, 0x31, 0x15, 0xFB, 0x25, 0x05, 0x75, 0x08, 0x81, 0x02};
static int wrong;

static void want(const char *what, uint64_t have, uint64_t wanted)
{
    if (have != wanted) {
        printf("%s: %llu, wanted %llu\n", what, (unsigned long long)have, (unsigned long long)wanted);
        wrong = 1;
    }
}

/* Bytes in a block of their exact length, each of this value. */
static uint8_t *bytes_of(size_t length, int value)
{
    uint8_t *made = malloc(length ? length : 1);
    if (!made)
        exit(2);
    memset(made, value, length);
    return made;
}

/* The boot keyboard: a report of zeros is made one with Shift and a, and read; then all is let go. */
static void keyboard(void)
{
    static const uint8_t pressed[8] = {0x02, 0, 0x04, 0, 0, 0, 0, 0};
    uint8_t descriptor[63], report[8];
    struct hidstack device = HIDSTACK_INIT;
    struct hidstack_opened opened;
    struct hidstack_element_info shift, key;
    struct hidstack_event *events;
    uint64_t length, count;
    uint32_t held;
    want("a boot keyboard", hidstack_boot_descriptor(HIDSTACK_BOOT_KEYBOARD, descriptor, sizeof descriptor, &length), HIDSTACK_OK);
    want("has 63 bytes", length, 63);
    want("open", hidstack_open(descriptor, length, &device, &opened), HIDSTACK_OK);
    events = calloc(opened.room, sizeof *events);
    want("a blank report", hidstack_blank(&device, HIDSTACK_INPUT, 0, report, sizeof report, &length), HIDSTACK_OK);
    want("has 8 bytes", length, 8);
    want("left Shift", hidstack_element(&device, 0, 1, &shift), HIDSTACK_OK);
    want("the first key", hidstack_element(&device, 4, 0, &key), HIDSTACK_OK);
    want("is an array", key.is_array, 1);
    want("put Shift", hidstack_put(&shift, report, sizeof report, 1), HIDSTACK_OK);
    want("put a", hidstack_put(&key, report, sizeof report, 4), HIDSTACK_OK);
    want("02 00 04 00 00 00 00 00", memcmp(report, pressed, 8) == 0, 1);
    want("2 in a bit", hidstack_put(&shift, report, sizeof report, 2), HIDSTACK_RANGE);
    want("-1 in a bit", hidstack_put(&shift, report, sizeof report, -1), HIDSTACK_RANGE);
    want("a report cut short", hidstack_put(&key, report, 2, 5), HIDSTACK_SHORT);
    want("as it was", memcmp(report, pressed, 8) == 0, 1);
    want("feed", hidstack_feed(&device, report, sizeof report, events, opened.room, &count), HIDSTACK_OK);
    want("two went down", count, 2);
    want("one place too few", hidstack_release(&device, events, opened.room - 1, &count), HIDSTACK_NO_ROOM);
    want("the room that is needed", count, opened.room);
    want("still held", hidstack_held(&device, 0, 1, &held) == HIDSTACK_OK && held == 1, 1);
    want("let go", hidstack_release(&device, events, opened.room, &count), HIDSTACK_OK);
    want("two went up", count == 2 && events[0].kind == HIDSTACK_UP && events[1].kind == HIDSTACK_UP, 1);
    want("Shift and a", events[0].id == 0xE1 && events[1].id == 4 && events[1].page == 7, 1);
    want("not held", hidstack_held(&device, 0, 1, &held) == HIDSTACK_OK && held == 0, 1);
    want("let go again", hidstack_release(&device, events, opened.room, &count), HIDSTACK_OK);
    want("nothing more", count, 0);
    want("feed again", hidstack_feed(&device, report, sizeof report, events, opened.room, &count), HIDSTACK_OK);
    want("both are new", count == 2 && events[0].kind == HIDSTACK_DOWN, 1);
    free(events);
    hidstack_close(&device);
}

/* The same report after what was held is let go has events again, also if it is kept as one without events. */
static void a_still_report(void)
{
    uint8_t descriptor[50], report[3] = {1, 0, 0};
    struct hidstack device = HIDSTACK_INIT;
    struct hidstack_opened opened;
    struct hidstack_event events[5];
    uint64_t length, count;
    want("a boot mouse", hidstack_boot_descriptor(HIDSTACK_BOOT_MOUSE, descriptor, sizeof descriptor, &length), HIDSTACK_OK);
    want("open", hidstack_open(descriptor, length, &device, &opened), HIDSTACK_OK);
    want("a button", hidstack_feed(&device, report, 3, events, 5, &count) == HIDSTACK_OK && count == 1, 1);
    want("held", hidstack_feed(&device, report, 3, events, 5, &count) == HIDSTACK_OK && count == 0, 1);
    want("let go", hidstack_release(&device, events, 5, &count) == HIDSTACK_OK && count == 1, 1);
    want("pressed again", hidstack_feed(&device, report, 3, events, 5, &count) == HIDSTACK_OK && count == 1, 1);
    hidstack_close(&device);
}

/* Values go back to the first ones: null, the least value, and 0. */
static void first_values(void)
{
    struct hidstack device = HIDSTACK_INIT;
    struct hidstack_opened opened;
    struct hidstack_event events[3];
    uint64_t count;
    int64_t value;
    want("open", hidstack_open(hat, sizeof hat, &device, &opened), HIDSTACK_OK);
    want("all change", hidstack_feed(&device, (const uint8_t[]){0x32, 0xFD}, 2, events, 3, &count) == HIDSTACK_OK && count == 3, 1);
    want("let go", hidstack_release(&device, events, 3, &count) == HIDSTACK_OK && count == 3, 1);
    want("null", events[0].kind == HIDSTACK_NULL && events[0].item == 0, 1);
    want("the least", events[1].kind == HIDSTACK_VALUE && events[1].value == 1, 1);
    want("0", events[2].kind == HIDSTACK_VALUE && events[2].value == 0, 1);
    want("no value", hidstack_value(&device, 0, 0, &value), HIDSTACK_NONE);
    hidstack_close(&device);
}

static void reports_with_ids(void)
{
    struct hidstack device = HIDSTACK_INIT;
    struct hidstack_opened opened;
    struct hidstack_element_info element;
    uint8_t *report = bytes_of(2, 0xEE);
    uint64_t length = 9;
    int64_t value = 0;
    want("blank of a closed one", hidstack_blank(&device, HIDSTACK_FEATURE, 3, report, 2, &length), HIDSTACK_CLOSED);
    want("nothing", length == 0 && report[0] == 0xEE, 1);
    want("open", hidstack_open(numbered, sizeof numbered, &device, &opened), HIDSTACK_OK);
    want("no room", hidstack_blank(&device, HIDSTACK_FEATURE, 3, report, 1, &length), HIDSTACK_NO_ROOM);
    want("2 bytes are needed", length == 2 && report[0] == 0xEE, 1);
    want("no room at null", hidstack_blank(&device, HIDSTACK_INPUT, 1, NULL, 0, &length), HIDSTACK_NO_ROOM);
    want("no Input report 3", hidstack_blank(&device, HIDSTACK_INPUT, 3, report, 2, &length), HIDSTACK_NONE);
    want("no report 0", hidstack_blank(&device, HIDSTACK_FEATURE, 0, report, 2, &length), HIDSTACK_NONE);
    want("no kind 3", hidstack_blank(&device, 3, 3, report, 2, &length), HIDSTACK_NONE);
    want("no kind 258", hidstack_blank(&device, 258, 3, report, 2, &length), HIDSTACK_NONE);
    want("nothing", length == 0 && report[0] == 0xEE, 1);
    want("Feature 3", hidstack_blank(&device, HIDSTACK_FEATURE, 3, report, 2, &length), HIDSTACK_OK);
    want("03 00", length == 2 && report[0] == 3 && report[1] == 0, 1);
    want("its element", hidstack_element(&device, 2, 0, &element), HIDSTACK_OK);
    want("255 of 0 to 127 has a pattern", hidstack_put(&element, report, 2, 255), HIDSTACK_OK);
    want("03 FF", report[0] == 3 && report[1] == 0xFF, 1);
    want("is read again", hidstack_number(&element, report, 2, &value) == HIDSTACK_OK && value == 255, 1);
    want("256 has none", hidstack_put(&element, report, 2, 256), HIDSTACK_RANGE);
    report[0] = 2;
    want("another ID", hidstack_put(&element, report, 2, 1), HIDSTACK_UNKNOWN);
    element.bit = 7;
    want("in the ID", hidstack_put(&element, report, 2, 1), HIDSTACK_SHORT);
    want("as it was", report[0] == 2 && report[1] == 0xFF, 1);
    want("no bytes at null", hidstack_put(&element, NULL, 0, 1), HIDSTACK_SHORT);
    hidstack_close(&device);
    want("release a closed one", hidstack_release(&device, NULL, 0, &length), HIDSTACK_CLOSED);
    want("no events", length, 0);
    free(report);
}

static void boot_descriptors(void)
{
    uint8_t *bytes = bytes_of(62, 0xEE);
    uint64_t length;
    want("one byte too few", hidstack_boot_descriptor(1, bytes, 62, &length), HIDSTACK_NO_ROOM);
    want("63 are needed", length == 63 && bytes[0] == 0xEE, 1);
    want("a mouse", hidstack_boot_descriptor(2, bytes, 62, &length), HIDSTACK_OK);
    want("has 50 bytes", length == 50 && bytes[0] == 5 && bytes[49] == 0xC0 && bytes[50] == 0xEE, 1);
    want("no protocol 0", hidstack_boot_descriptor(0, bytes, 62, &length) == HIDSTACK_NONE && length == 0, 1);
    want("no protocol 3", hidstack_boot_descriptor(3, NULL, 0, &length), HIDSTACK_NONE);
    free(bytes);
}

/* A bit of a report; 0 past its end. */
static int bit_of(const uint8_t *bytes, uint64_t n)
{
    return bytes[n / 8] >> n % 8 & 1;
}

/* What hidstack_put should return: the header's rules, computed anew. */
static uint32_t put_status(const struct hidstack_element_info *element, const uint8_t *bytes, size_t length, int64_t value)
{
    uint64_t end = (uint64_t)element->bit + element->width;
    int64_t half;
    if (element->width < 1 || element->width > 32 || end > 8 * length || (element->report && element->bit < 8))
        return HIDSTACK_SHORT;
    if (element->report && bytes[0] != element->report)
        return HIDSTACK_UNKNOWN;
    half = (int64_t)1 << (element->width - 1);
    if (element->is_signed ? value < -half || value >= half : value < 0 || value >= 2 * half)
        return HIDSTACK_RANGE;
    return HIDSTACK_OK;
}

/* Puts a number into an element; returns whether it was written. */
static int put_one(const struct hidstack_element_info *element, size_t length, int64_t value)
{
    uint8_t *before = bytes_of(length, 0xA5), *after = bytes_of(length, 0xA5);
    uint32_t status = hidstack_put(element, after, length, value);
    int64_t read = 0;
    size_t at;
    want("the status", status, put_status(element, before, length, value));
    if (status == HIDSTACK_OK) {
        want("read again", hidstack_number(element, after, length, &read) == HIDSTACK_OK && read == value, 1);
        for (at = 0; at < 8 * length; at++)
            if (at < element->bit || at >= (uint64_t)element->bit + element->width)
                want("no other bit", (uint64_t)bit_of(after, at), (uint64_t)bit_of(before, at));
    } else {
        want("nothing changes", length == 0 || memcmp(before, after, length) == 0, 1);
    }
    free(before);
    free(after);
    return status == HIDSTACK_OK;
}

/* Elements of random contents, and random numbers. */
static void wild_elements(void)
{
    uint32_t seed = 5;
    int i, written = 0;
    for (i = 0; i < 100000; i++) {
        struct hidstack_element_info element;
        uint8_t *byte = (uint8_t *)&element;
        uint64_t number = 0;
        size_t at;
        for (at = 0; at < sizeof element; at++)
            byte[at] = (uint8_t)((seed = seed * 1664525u + 1013904223u) >> 24);
        for (at = 0; at < 8; at++)
            number = number << 8 | (seed = seed * 1664525u + 1013904223u) >> 24;
        if (i % 4) {
            element.bit %= 520;
            element.width %= 34;
            element.report = i % 8 == 1 ? 0xA5 : i % 8 == 2 ? 0xA4 : 0;
            element.is_signed %= 2;
        }
        if (i % 4 == 3 && element.width >= 1 && element.width <= 32)
            number &= ((uint64_t)1 << element.width) - 1;
        written += put_one(&element, (seed >> 8) % 65, (int64_t)number);
    }
    want("many are written", written > 5000, 1);
}

int main(void)
{
    keyboard();
    a_still_report();
    first_values();
    reports_with_ids();
    boot_descriptors();
    wild_elements();
    return wrong;
}
