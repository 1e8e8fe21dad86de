/* Virtual devices: right calls, wrong states, null rooms and hostile lengths. What a device answers is written out from USB 2.0,
 * chapter 9, and HID 1.11, 7.2. The buffers of bytes_of are blocks of their exact size, so an access past one of their ends is seen
 * under valgrind. */
#include "hidstack.h"
#include <stdio.h>
#include <stdlib.h>
#include <string.h>

/* X and Y of -5 to 5 and one of 0 to 5, all relative; a hat of 0 to 7 with a null state, and a value of 1 to 4 */
static const uint8_t axes[] = {0x05, 0x01, 0x09, 0x30, 0x09, 0x31, 0x15, 0xFB, 0x25, 0x05, 0x75, 0x08, 0x95, 0x02, 0x81, 0x06, 0x09, 0x32,
    0x15, 0x00, 0x95, 0x01, 0x81, 0x06, 0x09, 0x39, 0x25, 0x07, 0x81, 0x42, 0x09, 0x36, 0x15, 0x01, 0x25, 0x04, 0x81, 0x02};
/* an array of one element of the keys a to m, without a code for more of them */
static const uint8_t one_key[] = {
    0x05, 0x07, 0x19, 0x04, 0x29, 0x10, 0x15, 0x01, 0x25, 0x0D, 0x75, 0x08, 0x95, 0x01, 0x81, 0x00};
/* an Input report of 200 bytes, an Output report of 2 and a Feature report of 3, each with ID 7 */
static const uint8_t long_report[] = {0x06, 0x00, 0xFF, 0x85, 0x07, 0x15, 0x00, 0x26, 0xFF, 0x00, 0x75, 0x08, 0x95, 0xC7, 0x09, 0x01,
    0x81, 0x02, 0x95, 0x01, 0x09, 0x02, 0x91, 0x02, 0x95, 0x02, 0x09, 0x03, 0xB1, 0x02};
static const struct hidstack_config plain = {0x1234, 0xABCD, 10, 0, 0};
static const struct hidstack_setup configure = {0x00, 9, 1, 0, 0};
static uint32_t seed = 7;
static int wrong;

static void want(const char *what, uint64_t have, uint64_t wanted)
{
    if (have != wanted) {
        printf("%s: %llu, wanted %llu\n", what, (unsigned long long)have, (unsigned long long)wanted);
        wrong = 1;
    }
}

/* Bytes in a block of their exact length, each of this value. */
static uint8_t *bytes_of(size_t length, int value)
{
    uint8_t *made = malloc(length ? length : 1);
    if (!made)
        exit(2);
    memset(made, value, length);
    return made;
}

static uint32_t some(uint32_t count)
{
    return (seed = seed * 1664525u + 1013904223u) / 65536 % count;
}

static void open_device(struct hidstack_device *device, uint8_t boot, const uint8_t *descriptor, size_t length)
{
    struct hidstack_config config = plain;
    struct hidstack_device_opened opened = {1, 1, 1};
    config.boot = boot;
    want("open a device", hidstack_device_open(&config, descriptor, length, device, &opened), HIDSTACK_OK);
    want("nothing is refused", opened.at + opened.cause + opened.spare, 0);
}

/* A request that has no data, or reads into this room: its status. */
static uint32_t ask(struct hidstack_device *device, struct hidstack_setup setup, uint8_t *answer, size_t room, uint64_t *answered)
{
    return hidstack_device_control(device, &setup, NULL, 0, answer, room, answered);
}

static void refusals(void)
{
    static const uint8_t pop[] = {0xB4};
    static const uint8_t no_code[] = {0x05, 0x09, 0x19, 0x01, 0x29, 0x02, 0x15, 0x00, 0x25, 0x01, 0x75, 0x01, 0x95, 0x01, 0x81, 0x00};
    static const uint8_t no_zero[] = {0x05, 0x01, 0x09, 0x30, 0x15, 0x01, 0x25, 0x05, 0x75, 0x08, 0x95, 0x01, 0x81, 0x06};
    uint8_t mouse[50];
    struct hidstack_device device = HIDSTACK_DEVICE_INIT;
    struct hidstack_device_opened opened = {9, 9, 9};
    struct hidstack_config config = plain;
    uint64_t length;
    want("a mouse", hidstack_boot_descriptor(HIDSTACK_BOOT_MOUSE, mouse, sizeof mouse, &length), HIDSTACK_OK);
    want("V3", hidstack_device_open(&config, pop, 1, &device, &opened), HIDSTACK_REFUSED);
    want("is 3 at 0", opened.cause == 3 && opened.at == 0 && opened.spare == 0, 1);
    want("V7", hidstack_device_open(&config, mouse, 48, &device, &opened), HIDSTACK_REFUSED);
    want("a collection is open at its end", opened.cause, 7);
    want("V18", hidstack_device_open(&config, no_code, sizeof no_code, &device, &opened) == HIDSTACK_REFUSED && opened.cause == 18, 1);
    want("V19", hidstack_device_open(&config, no_zero, sizeof no_zero, &device, &opened) == HIDSTACK_REFUSED && opened.cause == 19, 1);
    config.interval = 0;
    want("V20", hidstack_device_open(&config, mouse, 50, &device, &opened) == HIDSTACK_REFUSED && opened.cause == 20, 1);
    config.interval = 1;
    config.boot = HIDSTACK_BOOT_KEYBOARD;
    want("a keyboard that is a mouse", hidstack_device_open(&config, mouse, 50, &device, &opened) == HIDSTACK_REFUSED && opened.cause == 20, 1);
    config.boot = 3;
    want("no boot device", hidstack_device_open(&config, mouse, 50, &device, &opened) == HIDSTACK_REFUSED && opened.cause == 20, 1);
    want("at 0", opened.at, 0);
    want("still closed", device.gadget == NULL, 1);
    config.boot = HIDSTACK_BOOT_MOUSE;
    for (config.spare = 1; config.spare != 0; config.spare <<= 1)
        want("what is spare isn't 0", hidstack_device_open(&config, mouse, 50, &device, &opened) == HIDSTACK_REFUSED && opened.cause == 20 && opened.at == 0, 1);
    want("a boot mouse", hidstack_device_open(&config, mouse, 50, &device, &opened) == HIDSTACK_OK && opened.cause == 0, 1);
    opened.at = 5;
    want("busy", hidstack_device_open(&config, mouse, 50, &device, &opened) == HIDSTACK_BUSY && opened.at == 5, 1);
    hidstack_device_close(&device);
    want("closed", device.gadget == NULL, 1);
    hidstack_device_close(&device);
    want("no bytes are no layout's refusal", hidstack_device_open(&plain, NULL, 0, &device, &opened), HIDSTACK_OK);
    hidstack_device_close(&device);
}

static void closed(void)
{
    struct hidstack_device device = HIDSTACK_DEVICE_INIT;
    uint8_t *room = bytes_of(8, 0xEE);
    uint64_t item = 5, index = 6, length = 7;
    uint32_t configured = 8, i;
    want("find", hidstack_device_find(&device, 7, 4, 0, &item, &index) == HIDSTACK_CLOSED && item == 5 && index == 6, 1);
    want("press", hidstack_device_press(&device, 0, 0), HIDSTACK_CLOSED);
    want("release", hidstack_device_release(&device, 0, 0), HIDSTACK_CLOSED);
    want("set", hidstack_device_set(&device, 0, 0, 1), HIDSTACK_CLOSED);
    want("null", hidstack_device_null(&device, 0, 0), HIDSTACK_CLOSED);
    want("move", hidstack_device_move(&device, 0, 0, 1), HIDSTACK_CLOSED);
    want("release_all", hidstack_device_release_all(&device), HIDSTACK_CLOSED);
    want("frame", hidstack_device_frame(&device), HIDSTACK_CLOSED);
    want("halt", hidstack_device_halt(&device), HIDSTACK_CLOSED);
    want("reset", hidstack_device_reset(&device), HIDSTACK_CLOSED);
    want("configured", hidstack_device_configured(&device, &configured) == HIDSTACK_CLOSED && configured == 8, 1);
    want("control", hidstack_device_control(&device, &configure, NULL, 0, room, 8, &length) == HIDSTACK_CLOSED && length == 0, 1);
    length = 7;
    want("report", hidstack_device_report(&device, room, 8, &length) == HIDSTACK_CLOSED && length == 0, 1);
    length = 7;
    want("output", hidstack_device_output(&device, 1, 0, room, 8, &length) == HIDSTACK_CLOSED && length == 0, 1);
    for (i = 0; i < 8; i++)
        want("nothing is written", room[i], 0xEE);
    free(room);
}

/* What a host reads of a boot keyboard, and how it is configured (USB 2.0, 9.4 and 9.6). */
static void enumeration(struct hidstack_device *device)
{
    static const uint8_t first[12] = {18, 1, 0x00, 0x02, 0, 0, 0, 8, 0x34, 0x12, 0xCD, 0xAB};
    uint8_t *answer = bytes_of(64, 0xEE), own[63];
    uint64_t answered = 99, length;
    uint32_t configured = 9;
    want("18 bytes in 17", ask(device, (struct hidstack_setup){0x80, 6, 0x0100, 0, 18}, answer, 17, &answered), HIDSTACK_NO_ROOM);
    want("18 are needed", answered == 18 && answer[0] == 0xEE, 1);
    want("a null room", ask(device, (struct hidstack_setup){0x80, 6, 0x0100, 0, 18}, NULL, 0, &answered), HIDSTACK_NO_ROOM);
    want("nothing in a null room", ask(device, (struct hidstack_setup){0x80, 6, 0x0100, 0, 0}, NULL, 0, &answered), HIDSTACK_OK);
    want("the device descriptor", ask(device, (struct hidstack_setup){0x80, 6, 0x0100, 0, 64}, answer, 64, &answered), HIDSTACK_OK);
    want("has 18 bytes, and no more", answered == 18 && answer[18] == 0xEE, 1);
    want("its first", memcmp(answer, first, 8) == 0, 1);
    want("vendor and product", memcmp(answer + 8, first + 8, 4) == 0, 1);
    want("8 bytes of it", ask(device, (struct hidstack_setup){0x80, 6, 0x0100, 0, 8}, answer, 64, &answered) == HIDSTACK_OK && answered == 8, 1);
    want("its configuration", ask(device, (struct hidstack_setup){0x80, 6, 0x0200, 0, 64}, answer, 64, &answered), HIDSTACK_OK);
    want("has 34 bytes", answered == 34 && answer[0] == 9 && answer[2] == 34 && answer[33] == 10, 1);
    want("of a boot keyboard", answer[14] == 3 && answer[15] == 1 && answer[16] == 1, 1);
    want("its report descriptor", ask(device, (struct hidstack_setup){0x81, 6, 0x2200, 0, 63}, answer, 64, &answered), HIDSTACK_OK);
    want("is E.6", hidstack_boot_descriptor(1, own, 63, &length) == HIDSTACK_OK && answered == 63 && memcmp(answer, own, 63) == 0, 1);
    memset(answer, 0xEE, 64);
    want("no qualifier", ask(device, (struct hidstack_setup){0x80, 6, 0x0600, 0, 10}, answer, 64, &answered), HIDSTACK_STALLED);
    want("nothing is answered", answered == 0 && answer[0] == 0xEE, 1);
    want("not configured", hidstack_device_configured(device, &configured) == HIDSTACK_OK && configured == 0, 1);
    want("so no report", hidstack_device_report(device, answer, 64, &answered) == HIDSTACK_NONE && answered == 0, 1);
    want("no configuration 2", ask(device, (struct hidstack_setup){0x00, 9, 2, 0, 0}, NULL, 0, &answered), HIDSTACK_STALLED);
    want("still not", hidstack_device_configured(device, &configured) == HIDSTACK_OK && configured == 0, 1);
    want("configuration 1", ask(device, configure, NULL, 0, &answered), HIDSTACK_OK);
    want("configured", hidstack_device_configured(device, &configured) == HIDSTACK_OK && configured == 1, 1);
    free(answer);
}

/* Keys of a boot keyboard, its reports, and its LEDs. */
static void keyboard(void)
{
    static const uint8_t a_down[8] = {0, 0, 4}, nothing_down[8] = {0};
    uint8_t descriptor[63], *report = bytes_of(8, 0xEE), leds[2] = {2, 9}, byte = 7;
    struct hidstack_device device = HIDSTACK_DEVICE_INIT;
    const struct hidstack_setup set_leds = {0x21, 9, 0x0200, 0, 1}, set_two = {0x21, 9, 0x0200, 0, 2}, clear = {0x02, 1, 0, 0x81, 0},
                                set_idle = {0x21, 10, 0x0100, 0, 0};
    uint64_t item = 0, index = 0, length = 0, i;
    want("a keyboard", hidstack_boot_descriptor(HIDSTACK_BOOT_KEYBOARD, descriptor, 63, &length), HIDSTACK_OK);
    open_device(&device, HIDSTACK_BOOT_KEYBOARD, descriptor, 63);
    enumeration(&device);
    want("a", hidstack_device_find(&device, 7, 4, 0, &item, &index), HIDSTACK_OK);
    want("no second a", hidstack_device_find(&device, 7, 4, 1, &item, &index), HIDSTACK_NONE);
    want("nor a last", hidstack_device_find(&device, 7, 4, UINT64_MAX, &item, &index), HIDSTACK_NONE);
    want("no X", hidstack_device_find(&device, 1, 0x30, 0, &item, &index), HIDSTACK_NONE);
    want("its place", item == 4 && index == 4, 1);
    want("nothing is due", hidstack_device_report(&device, report, 8, &length) == HIDSTACK_NONE && report[0] == 0xEE, 1);
    want("press a", hidstack_device_press(&device, item, index), HIDSTACK_OK);
    want("no room", hidstack_device_report(&device, report, 7, &length) == HIDSTACK_NO_ROOM && length == 64 && report[0] == 0xEE, 1);
    want("a null room", hidstack_device_report(&device, NULL, 0, &length) == HIDSTACK_NO_ROOM && length == 64, 1);
    want("a report", hidstack_device_report(&device, report, 8, &length) == HIDSTACK_OK && length == 8, 1);
    want("00 00 04", memcmp(report, a_down, 8) == 0, 1);
    want("once", hidstack_device_report(&device, report, 8, &length) == HIDSTACK_NONE && length == 0, 1);
    want("halt", hidstack_device_release(&device, item, index) == HIDSTACK_OK && hidstack_device_halt(&device) == HIDSTACK_OK, 1);
    want("halted", hidstack_device_report(&device, report, 8, &length) == HIDSTACK_STALLED && length == 0 && report[2] == 4, 1);
    want("clear", hidstack_device_control(&device, &clear, NULL, 0, NULL, 0, &length), HIDSTACK_OK);
    want("a is up", hidstack_device_report(&device, report, 8, &length) == HIDSTACK_OK && length == 8 && report[2] == 0, 1);
    for (i = 4; i < 11; i++)
        want("seven keys", hidstack_device_press(&device, item, i), HIDSTACK_OK);
    want("roll over", hidstack_device_report(&device, report, 8, &length) == HIDSTACK_OK && report[2] == 1 && report[7] == 1, 1);
    want("both Shifts", hidstack_device_press(&device, 0, 1) == HIDSTACK_OK && hidstack_device_press(&device, 0, 5) == HIDSTACK_OK, 1);
    want("are down", hidstack_device_report(&device, report, 8, &length) == HIDSTACK_OK && report[0] == 0x22 && report[2] == 1, 1);
    want("all are let go of", hidstack_device_release_all(&device), HIDSTACK_OK);
    want("in one report", hidstack_device_report(&device, report, 8, &length) == HIDSTACK_OK && length == 8 && memcmp(report, nothing_down, 8) == 0, 1);
    want("once for all", hidstack_device_release_all(&device) == HIDSTACK_OK && hidstack_device_report(&device, report, 8, &length) == HIDSTACK_NONE, 1);
    for (i = 4; i < 11; i++)
        want("seven keys again", hidstack_device_press(&device, item, i), HIDSTACK_OK);
    want("roll over again", hidstack_device_report(&device, report, 8, &length) == HIDSTACK_OK && report[0] == 0 && report[2] == 1, 1);
    want("LEDs at first", hidstack_device_output(&device, HIDSTACK_OUTPUT, 0, &byte, 1, &length) == HIDSTACK_OK && byte == 0, 1);
    want("LEDs without data", hidstack_device_control(&device, &set_leds, NULL, 0, NULL, 0, &length), HIDSTACK_SHORT);
    want("no LED yet", hidstack_device_output(&device, HIDSTACK_OUTPUT, 0, &byte, 1, &length) == HIDSTACK_OK && byte == 0, 1);
    want("LEDs", hidstack_device_control(&device, &set_leds, leds, 2, NULL, 0, &length) == HIDSTACK_OK && length == 0, 1);
    want("Caps Lock", hidstack_device_output(&device, HIDSTACK_OUTPUT, 0, &byte, 1, &length) == HIDSTACK_OK && byte == 2 && length == 1, 1);
    want("two bytes of one", hidstack_device_control(&device, &set_two, leds, 2, NULL, 0, &length), HIDSTACK_STALLED);
    byte = 7;
    want("no room", hidstack_device_output(&device, HIDSTACK_OUTPUT, 0, NULL, 0, &length) == HIDSTACK_NO_ROOM && length == 1, 1);
    want("no Feature report", hidstack_device_output(&device, HIDSTACK_FEATURE, 0, &byte, 1, &length) == HIDSTACK_NONE && length == 0, 1);
    want("no Input report", hidstack_device_output(&device, HIDSTACK_INPUT, 0, &byte, 1, &length), HIDSTACK_NONE);
    want("no kind 257", hidstack_device_output(&device, 257, 0, &byte, 1, &length), HIDSTACK_NONE);
    want("no ID 1", hidstack_device_output(&device, HIDSTACK_OUTPUT, 1, &byte, 1, &length) == HIDSTACK_NONE && byte == 7, 1);
    want("an idle time of 4 ms", hidstack_device_control(&device, &set_idle, NULL, 0, NULL, 0, &length), HIDSTACK_OK);
    for (i = 0; i < 3; i++)
        want("a frame", hidstack_device_frame(&device), HIDSTACK_OK);
    want("3 ms", hidstack_device_report(&device, report, 8, &length), HIDSTACK_NONE);
    want("a frame more", hidstack_device_frame(&device), HIDSTACK_OK);
    want("4 ms", hidstack_device_report(&device, report, 8, &length), HIDSTACK_OK);
    want("reset", hidstack_device_reset(&device), HIDSTACK_OK);
    want("no LED", hidstack_device_output(&device, HIDSTACK_OUTPUT, 0, &byte, 1, &length) == HIDSTACK_OK && byte == 0, 1);
    want("no report", hidstack_device_report(&device, report, 8, &length), HIDSTACK_NONE);
    want("configure it", hidstack_device_control(&device, &configure, NULL, 0, NULL, 0, &length), HIDSTACK_OK);
    want("the keys stay", hidstack_device_report(&device, report, 8, &length) == HIDSTACK_OK && report[2] == 1, 1);
    free(report);
    hidstack_device_close(&device);
}

/* Each refusal of a change, beside the nearest that is done; and that a refused one leaves the report as it was. */
static void changes(void)
{
    struct hidstack_device device = HIDSTACK_DEVICE_INIT;
    uint8_t report[5] = {0};
    uint64_t item, index, length;
    open_device(&device, 0, axes, sizeof axes);
    want("configure", hidstack_device_control(&device, &configure, NULL, 0, NULL, 0, &length), HIDSTACK_OK);
    want("Y", hidstack_device_find(&device, 1, 0x31, 0, &item, &index) == HIDSTACK_OK && item == 0 && index == 1, 1);
    want("X by 7", hidstack_device_move(&device, 0, 0, 7), HIDSTACK_OK);
    want("no third of the two", hidstack_device_move(&device, 0, 2, 1), HIDSTACK_NONE);
    want("no item 9", hidstack_device_move(&device, 9, 0, 1), HIDSTACK_NONE);
    want("no last place", hidstack_device_move(&device, UINT64_MAX, UINT64_MAX, 1), HIDSTACK_NONE);
    want("X isn't pressed", hidstack_device_press(&device, 0, 0), HIDSTACK_WRONG_KIND);
    want("nor set", hidstack_device_set(&device, 0, 0, 1), HIDSTACK_WRONG_KIND);
    want("a hat doesn't move", hidstack_device_move(&device, 2, 0, 1), HIDSTACK_WRONG_KIND);
    want("Z goes one way", hidstack_device_move(&device, 1, 0, -1), HIDSTACK_NO_DIRECTION);
    want("that", hidstack_device_move(&device, 1, 0, 0), HIDSTACK_OK);
    want("Y far", hidstack_device_move(&device, 0, 1, INT32_MAX), HIDSTACK_OK);
    want("too far", hidstack_device_move(&device, 0, 1, 1), HIDSTACK_FULL);
    want("and back", hidstack_device_move(&device, 0, 1, INT32_MIN) == HIDSTACK_OK && hidstack_device_move(&device, 0, 1, 1) == HIDSTACK_OK, 1);
    want("north-west", hidstack_device_set(&device, 2, 0, 7), HIDSTACK_OK);
    want("no 8", hidstack_device_set(&device, 2, 0, 8), HIDSTACK_RANGE);
    want("nor the least number", hidstack_device_set(&device, 2, 0, INT64_MIN), HIDSTACK_RANGE);
    want("the last has no null", hidstack_device_null(&device, 3, 0), HIDSTACK_NO_NULL);
    want("4", hidstack_device_set(&device, 3, 0, 4), HIDSTACK_OK);
    want("a report", hidstack_device_report(&device, report, 5, &length) == HIDSTACK_OK && length == 5, 1);
    want("5 0 0 7 4", report[0] == 5 && report[1] == 0 && report[2] == 0 && report[3] == 7 && report[4] == 4, 1);
    want("null", hidstack_device_null(&device, 2, 0), HIDSTACK_OK);
    want("the rest", hidstack_device_report(&device, report, 5, &length) == HIDSTACK_OK && report[0] == 2 && report[3] > 7, 1);
    hidstack_device_close(&device);
    open_device(&device, 0, one_key, sizeof one_key);
    want("a", hidstack_device_press(&device, 0, 0), HIDSTACK_OK);
    want("a again", hidstack_device_press(&device, 0, 0), HIDSTACK_OK);
    want("b as well", hidstack_device_press(&device, 0, 1), HIDSTACK_FULL);
    want("not a", hidstack_device_release(&device, 0, 0), HIDSTACK_OK);
    want("b", hidstack_device_press(&device, 0, 1), HIDSTACK_OK);
    want("no n", hidstack_device_press(&device, 0, 13), HIDSTACK_NONE);
    want("it isn't set", hidstack_device_set(&device, 0, 1, 1), HIDSTACK_WRONG_KIND);
    hidstack_device_close(&device);
}

/* A report of 200 bytes in rooms of many lengths, which come one after the other. */
static void pieces(void)
{
    static const size_t rooms[] = {0, 63, 64, 127, 7, 8, 200}, wanted[] = {0, 0, 64, 64, 0, 0, 72};
    struct hidstack_device device = HIDSTACK_DEVICE_INIT;
    const struct hidstack_setup set = {0x21, 9, 0x0307, 0, 3}, get = {0xA1, 1, 0x0307, 0, 65535};
    uint8_t *all = bytes_of(65535, 0xEE), sent[3] = {7, 1, 2}, got[200];
    uint64_t length, at = 0, i, j;
    open_device(&device, 0, long_report, sizeof long_report);
    want("configure", hidstack_device_control(&device, &configure, NULL, 0, NULL, 0, &length), HIDSTACK_OK);
    for (i = 0; i < 199; i++)
        want("set", hidstack_device_set(&device, 0, i, (int64_t)i), HIDSTACK_OK);
    for (i = 0; i < 7; i++) {
        uint8_t *room = bytes_of(rooms[i], 0xEE);
        want("a room", hidstack_device_report(&device, room, rooms[i], &length), wanted[i] ? HIDSTACK_OK : HIDSTACK_NO_ROOM);
        want("its bytes", length, wanted[i] ? wanted[i] : 64);
        if (wanted[i])
            memcpy(got + at, room, length);
        for (j = wanted[i]; j < rooms[i]; j++)
            want("no more", room[j], 0xEE);
        at += wanted[i];
        free(room);
    }
    want("200 bytes", at, 200);
    for (i = 0; i < 200; i++)
        want("of the report", got[i], i ? i - 1 : 7);
    want("a Feature report", hidstack_device_control(&device, &set, sent, 3, NULL, 0, &length), HIDSTACK_OK);
    want("65,535 in one less", hidstack_device_control(&device, &get, NULL, 0, all, 65534, &length) == HIDSTACK_NO_ROOM && length == 65535, 1);
    want("is read", hidstack_device_control(&device, &get, NULL, 0, all, 65535, &length) == HIDSTACK_OK && length == 3, 1);
    want("07 01 02", memcmp(all, sent, 3) == 0 && all[3] == 0xEE, 1);
    free(all);
    hidstack_device_close(&device);
}

/* Two controls of one usage: the first and the second Tip Switch of a touch screen. */
static void fingers(void)
{
    static const uint8_t two[] = {0x05, 0x0D, 0x15, 0x00, 0x25, 0x01, 0x75, 0x01, 0x95, 0x01, 0x09, 0x42, 0x81, 0x02, 0x95, 0x07, 0x81, 0x03,
        0x95, 0x01, 0x09, 0x42, 0x81, 0x02, 0x95, 0x03, 0x09, 0x32, 0x09, 0x42, 0x81, 0x02, 0x95, 0x04, 0x81, 0x03};
    static const uint64_t items[] = {0, 2, 3, 3}, indices[] = {0, 0, 1, 2};
    struct hidstack_device device = HIDSTACK_DEVICE_INIT;
    uint64_t item, index, i;
    open_device(&device, 0, two, sizeof two);
    for (i = 0; i < 4; i++)
        want("a Tip Switch", hidstack_device_find(&device, 0x0D, 0x42, i, &item, &index) == HIDSTACK_OK && item == items[i] && index == indices[i], 1);
    want("and no more", hidstack_device_find(&device, 0x0D, 0x42, 4, &item, &index) == HIDSTACK_NONE && item == 3 && index == 2, 1);
    hidstack_device_close(&device);
}

/* What is pressed is let go of; a value and a motion stay. */
static void released(void)
{
    static const uint8_t mixed[] = {0x05, 0x09, 0x15, 0x00, 0x25, 0x01, 0x75, 0x01, 0x95, 0x02, 0x19, 0x01, 0x29, 0x02, 0x81, 0x02, 0x95, 0x06, 0x81, 0x03,
        0x05, 0x01, 0x09, 0x30, 0x25, 0x7F, 0x75, 0x08, 0x95, 0x01, 0x81, 0x02, 0x09, 0x38, 0x15, 0x81, 0x81, 0x06};
    struct hidstack_device device = HIDSTACK_DEVICE_INIT;
    uint8_t report[3];
    uint64_t length;
    open_device(&device, 0, mixed, sizeof mixed);
    want("configured", hidstack_device_control(&device, &configure, NULL, 0, NULL, 0, &length), HIDSTACK_OK);
    want("two buttons", hidstack_device_press(&device, 0, 0) == HIDSTACK_OK && hidstack_device_press(&device, 0, 1) == HIDSTACK_OK, 1);
    want("X is 77", hidstack_device_set(&device, 2, 0, 77), HIDSTACK_OK);
    want("03 4D 00", hidstack_device_report(&device, report, 3, &length) == HIDSTACK_OK && report[0] == 3 && report[1] == 77 && report[2] == 0, 1);
    want("a wheel turns", hidstack_device_move(&device, 3, 0, -2), HIDSTACK_OK);
    want("buttons go up", hidstack_device_release_all(&device), HIDSTACK_OK);
    want("00 4D FE", hidstack_device_report(&device, report, 3, &length) == HIDSTACK_OK && report[0] == 0 && report[1] == 77 && report[2] == 0xFE, 1);
    hidstack_device_close(&device);
}

/* A random request, often one of those that a device knows. */
static struct hidstack_setup some_setup(void)
{
    static const struct hidstack_setup known[] = {{0x80, 6, 0x0100, 0, 0}, {0x80, 6, 0x0200, 0, 0}, {0x81, 6, 0x2200, 0, 0}, {0x81, 6, 0x2100, 0, 0},
        {0x80, 0, 0, 0, 2}, {0x00, 9, 1, 0, 0}, {0x00, 9, 0, 0, 0}, {0x21, 9, 0x0207, 0, 2}, {0x21, 9, 0x0307, 0, 3}, {0xA1, 1, 0x0107, 0, 0},
        {0xA1, 1, 0x0307, 0, 0}, {0x21, 10, 0x0100, 0, 0}, {0x02, 1, 0, 0x81, 0}, {0x02, 3, 0, 0x81, 0}, {0x82, 0, 0, 0x81, 2}};
    struct hidstack_setup setup = known[some(sizeof known / sizeof *known)];
    if (some(4) == 0)
        setup.request_type = (uint8_t)some(256);
    if (some(4) == 0)
        setup.value = (uint16_t)some(65536);
    if (some(8) == 0)
        setup.request = (uint8_t)some(256);
    if (setup.request_type >= 0x80 || some(4) == 0)
        setup.length = (uint16_t)(some(2) ? some(300) : some(65536));
    return setup;
}

/* One random request with random rooms: it ends as the header says, and writes no more than it says. */
static void wild_control(struct hidstack_device *device)
{
    struct hidstack_setup setup = some_setup();
    size_t length = some(8) ? setup.length + some(3) : some(300), room = some(8) ? setup.length + some(3) : some(300), i;
    uint8_t *data = bytes_of(length, 0x5A), *answer = bytes_of(room, 0xEE);
    uint64_t answered = 12345;
    uint32_t status = hidstack_device_control(device, &setup, data, length, answer, room, &answered);
    int reads = setup.request_type >= 0x80;
    if (reads && room < setup.length)
        want("a read without room", status == HIDSTACK_NO_ROOM && answered == setup.length, 1);
    else if (!reads && length < setup.length)
        want("a write without its data", status == HIDSTACK_SHORT && answered == 0, 1);
    else
        want("done or refused", status == HIDSTACK_OK || (status == HIDSTACK_STALLED && answered == 0), 1);
    want("at most wLength", answered <= setup.length && (reads || answered == 0), 1);
    for (i = status == HIDSTACK_OK ? answered : 0; i < room; i++)
        if (answer[i] != 0xEE)
            want("no more is written", answer[i], 0xEE);
    free(data);
    free(answer);
}

/* Random calls of a device; and the answers that one has to give whatever was called. */
static void wild_calls(int count)
{
    uint64_t length = 0;
    int calls = count;
    struct hidstack_device device = HIDSTACK_DEVICE_INIT;
    int done = 0, reports = 0;
    open_device(&device, 0, long_report, sizeof long_report);
    want("configure", ask(&device, configure, NULL, 0, &length), HIDSTACK_OK);
    for (; calls > 0; calls--) {
        uint64_t item = some(3), index = some(16) ? some(210) : UINT64_MAX - some(3);
        size_t room = some(260), i;
        uint8_t *report = bytes_of(room, 0xEE);
        uint32_t status;
        switch (some(12)) {
        case 0: done += hidstack_device_set(&device, item, index, (int64_t)some(300) - 20) == HIDSTACK_OK; break;
        case 1: want("no switch", hidstack_device_press(&device, 0, some(199)), HIDSTACK_WRONG_KIND); break;
        case 2: want("no null", hidstack_device_null(&device, 0, some(199)), HIDSTACK_NO_NULL); break;
        case 3: want("no motion", hidstack_device_move(&device, 0, some(199), 1), HIDSTACK_WRONG_KIND); break;
        case 4: want("a frame", hidstack_device_frame(&device), HIDSTACK_OK); break;
        case 5: want("a halt", some(8) ? 0 : hidstack_device_halt(&device), HIDSTACK_OK); break;
        case 6: want("a reset", some(32) ? 0 : hidstack_device_reset(&device), HIDSTACK_OK); break;
        case 7:
            status = hidstack_device_output(&device, some(4), (uint8_t)(some(4) ? 7 : some(256)), report, room, &length);
            want("an output", status == HIDSTACK_OK || status == HIDSTACK_NONE || (status == HIDSTACK_NO_ROOM && room < length), 1);
            break;
        case 8:
        case 9:
            status = hidstack_device_report(&device, report, room, &length);
            want("a report", status == HIDSTACK_OK ? length > 0 && length <= room : status == HIDSTACK_NO_ROOM ? length == 64 && room < 64
                : length == 0 && (status == HIDSTACK_NONE || status == HIDSTACK_STALLED), 1);
            for (i = status == HIDSTACK_OK ? length : 0; i < room; i++)
                if (report[i] != 0xEE)
                    want("no more of it", report[i], 0xEE);
            reports += status == HIDSTACK_OK;
            break;
        default: wild_control(&device);
        }
        free(report);
    }
    want("some values were set", done > count / 200, 1);
    want("some reports came", reports > count / 1000, 1);
    hidstack_device_close(&device);
}

/* Random descriptors, opened and closed. */
static void wild_descriptors(int count)
{
    int opened_count = 0;
    while (count--) {
        const uint8_t *from = some(2) ? axes : long_report;
        size_t length = from == axes ? sizeof axes : sizeof long_report;
        uint8_t *descriptor = bytes_of(length, 0);
        struct hidstack_device device = HIDSTACK_DEVICE_INIT;
        struct hidstack_device_opened opened;
        uint32_t status, i;
        memcpy(descriptor, from, length);
        for (i = some(4); i > 0; i--)
            descriptor[some((uint32_t)length)] = (uint8_t)some(256);
        status = hidstack_device_open(&plain, descriptor, length - some(3), &device, &opened);
        if (status == HIDSTACK_OK) {
            opened_count++;
            want("configure", hidstack_device_control(&device, &configure, NULL, 0, NULL, 0, &opened.at), HIDSTACK_OK);
            for (i = 0; i < 8; i++)
                wild_control(&device);
        } else {
            want("refused", status == HIDSTACK_REFUSED && opened.cause >= 1 && opened.cause <= 19 && opened.at <= length, 1);
        }
        hidstack_device_close(&device);
        free(descriptor);
    }
    want("some are accepted", opened_count > 10, 1);
}

int main(int words, char **word)
{
    int count = words > 1 ? atoi(word[1]) : 20000;
    refusals();
    closed();
    keyboard();
    changes();
    pieces();
    fingers();
    released();
    wild_calls(count);
    wild_descriptors(count / 10);
    return wrong;
}
