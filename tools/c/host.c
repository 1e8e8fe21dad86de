/* Hosts of real devices: right calls, wrong states, null rooms and hostile lengths. What a host asks is written out from USB 2.0,
 * chapter 9, and HID 1.11, 7.2; the device is one of the library, or answers written here. The buffers of bytes_of are blocks of
 * their exact size, so an access past one of their ends is seen under valgrind. */
#include "hidstack.h"
#include <stdio.h>
#include <stdlib.h>
#include <string.h>

/* two HID interfaces: number 0, a boot keyboard at endpoint 1, and number 2, two buttons at endpoint 3 */
static const uint8_t device_answer[18] = {18, 1, 0, 2, 0, 0, 0, 64, 0x34, 0x12, 0xCD, 0xAB, 0, 1, 0, 0, 0, 1};
static const uint8_t two[59] = {9, 2, 59, 0, 2, 7, 0, 0xA0, 50,
    9, 4, 0, 0, 1, 3, 1, 1, 0, 9, 0x21, 0x11, 1, 0, 1, 0x22, 63, 0, 7, 5, 0x81, 3, 8, 0, 10,
    9, 4, 2, 0, 1, 3, 0, 0, 0, 9, 0x21, 0x11, 1, 0, 1, 0x22, 16, 0, 7, 5, 0x83, 3, 4, 0, 1};
static const uint8_t buttons[16] = {0x05, 0x09, 0x19, 0x01, 0x29, 0x02, 0x15, 0x00, 0x25, 0x01, 0x75, 0x01, 0x95, 0x02, 0x81, 0x02};
static uint8_t keyboard[63];
static uint32_t seed = 11;
static int wrong;

static void want(const char *what, uint64_t have, uint64_t wanted)
{
    if (have != wanted) {
        printf("%s: %llu, wanted %llu\n", what, (unsigned long long)have, (unsigned long long)wanted);
        wrong = 1;
    }
}

/* Bytes in a block of their exact length, each of this value. */
static uint8_t *bytes_of(size_t length, int value)
{
    uint8_t *made = malloc(length ? length : 1);
    if (!made)
        exit(2);
    memset(made, value, length);
    return made;
}

static uint32_t some(uint32_t count)
{
    return (seed = seed * 1664525u + 1013904223u) / 65536 % count;
}

/* The request that is to be made has these fields, and sends nothing. */
static void asks(const char *what, struct hidstack_host *host, uint8_t type, uint8_t request, uint16_t value, uint16_t index, uint16_t length)
{
    struct hidstack_setup setup = {1, 1, 1, 1, 1};
    uint64_t sent = 9;
    want(what, hidstack_host_todo(host, &setup, NULL, 0, &sent), HIDSTACK_OK);
    want("it sends nothing", sent, 0);
    if (setup.request_type != type || setup.request != request || setup.value != value || setup.index != index || setup.length != length) {
        printf("%s: %02X %02X %04X %04X %04X\n", what, setup.request_type, setup.request, setup.value, setup.index, setup.length);
        wrong = 1;
    }
}

/* A request is done with these bytes, and leads to this step of the interface at this place. */
static void done(struct hidstack_host *host, const uint8_t *bytes, size_t length, uint32_t step, uint64_t interface)
{
    struct hidstack_moved moved = {9, 9, 9, 9, 9};
    want("done", hidstack_host_done(host, HIDSTACK_OK, bytes, length, &moved), HIDSTACK_OK);
    want("its step", moved.step, step);
    want("its interface", moved.interface, interface);
    want("and no cause", moved.cause + moved.detail + moved.spare, 0);
}

/* A request comes to this outcome and is refused: the cause, and its inner code. */
static void refused(struct hidstack_host *host, uint32_t outcome, const uint8_t *bytes, size_t length, uint32_t cause, uint32_t detail)
{
    struct hidstack_moved moved = {9, 9, 9, 9, 9};
    want("refused", hidstack_host_done(host, outcome, bytes, length, &moved), HIDSTACK_REFUSED);
    want("its cause", moved.cause, cause);
    want("its detail", moved.detail, detail);
    want("no step", moved.interface + moved.step + moved.spare, 0);
}

static uint32_t state_of(struct hidstack_host *host)
{
    struct hidstack_host_info info;
    want("the device", hidstack_host_device(host, &info), HIDSTACK_OK);
    return info.state;
}

/* Brings up the device of two interfaces, whose requests are as the standard has them. */
static void comes_up(struct hidstack_host *host)
{
    want("open", hidstack_host_open(host), HIDSTACK_OK);
    asks("GET_DESCRIPTOR, device", host, 0x80, 6, 0x0100, 0, 18);
    done(host, device_answer, 18, HIDSTACK_MOVE_ONWARD, 0);
    asks("GET_DESCRIPTOR, 9 bytes", host, 0x80, 6, 0x0200, 0, 9);
    done(host, two, 9, HIDSTACK_MOVE_ONWARD, 0);
    asks("GET_DESCRIPTOR, configuration", host, 0x80, 6, 0x0200, 0, 59);
    done(host, two, 59, HIDSTACK_MOVE_ONWARD, 0);
    asks("SET_CONFIGURATION", host, 0x00, 9, 7, 0, 0);
    done(host, NULL, 0, HIDSTACK_MOVE_ONWARD, 0);
    asks("SET_IDLE of number 0", host, 0x21, 10, 0, 0, 0);
    done(host, NULL, 0, HIDSTACK_MOVE_ONWARD, 0);
    asks("GET_DESCRIPTOR, report, of number 0", host, 0x81, 6, 0x2200, 0, 63);
    done(host, keyboard, 63, HIDSTACK_MOVE_LIVE, 0);
    asks("SET_IDLE of number 2", host, 0x21, 10, 0, 2, 0);
    want("a device that has none", hidstack_host_done(host, HIDSTACK_STALLED, NULL, 0, &(struct hidstack_moved){0, 0, 0, 0, 0}), HIDSTACK_OK);
    asks("GET_DESCRIPTOR, report, of number 2", host, 0x81, 6, 0x2200, 2, 16);
    want("waits", state_of(host), HIDSTACK_HOST_WAITING);
    done(host, buttons, 16, HIDSTACK_MOVE_LIVE, 1);
    want("ready", state_of(host), HIDSTACK_HOST_READY);
}

static void known(struct hidstack_host *host)
{
    struct hidstack_interface_info info;
    struct hidstack_host_info device;
    struct hidstack_element_info element = {0};
    uint8_t room[8];
    uint64_t length = 9;
    uint32_t held = 9;
    int64_t value = 9;
    want("the device", hidstack_host_device(host, &device), HIDSTACK_OK);
    want("1234:ABCD of two interfaces", device.vendor == 0x1234 && device.product == 0xABCD && device.interfaces == 2, 1);
    want("8 modifiers, 6 keys twice, 2 buttons", device.room, 8 + 12 + 2);
    want("interface 1", hidstack_host_interface(host, 1, &info), HIDSTACK_OK);
    want("is number 2 at endpoint 3", info.number == 2 && info.endpoint == 3 && info.packet_size == 4 && info.interval == 1, 1);
    want("has one report of one item", info.reports == 1 && info.items == 1 && info.numbered == 0 && info.room == 2, 1);
    want("is live", info.state == HIDSTACK_INTERFACE_LIVE && info.letter == 0 && info.cause == 0 && info.at == 0 && info.spare == 0, 1);
    want("interface 0", hidstack_host_interface(host, 0, &info), HIDSTACK_OK);
    want("is a boot keyboard", info.number == 0 && info.endpoint == 1 && info.subclass == 1 && info.protocol == HIDSTACK_BOOT_KEYBOARD, 1);
    want("there is no third", hidstack_host_interface(host, 2, &info), HIDSTACK_NONE);
    want("nor one at the end of numbers", hidstack_host_interface(host, UINT64_MAX, &info), HIDSTACK_NONE);
    want("button 2", hidstack_host_element(host, 1, 0, 1, &element) == HIDSTACK_OK && element.page == 9 && element.id == 2 && element.bit == 1, 1);
    want("no button 3", hidstack_host_element(host, 1, 0, 2, &element), HIDSTACK_NONE);
    want("no element of a third", hidstack_host_element(host, 2, 0, 0, &element), HIDSTACK_NONE);
    want("button 2 by its usage", hidstack_host_find(host, 1, HIDSTACK_INPUT, 9, 2, 0, &element) == HIDSTACK_OK && element.item == 0 && element.index == 1, 1);
    want("of Input reports alone", hidstack_host_find(host, 1, HIDSTACK_OUTPUT, 9, 2, 0, &element), HIDSTACK_NONE);
    want("one alone", hidstack_host_find(host, 1, HIDSTACK_INPUT, 9, 2, 1, &element), HIDSTACK_NONE);
    want("no last one", hidstack_host_find(host, 1, HIDSTACK_INPUT, 9, 2, UINT64_MAX, &element), HIDSTACK_NONE);
    want("none of kind 256", hidstack_host_find(host, 1, 256, 9, 2, 0, &element), HIDSTACK_NONE);
    want("none of a third", hidstack_host_find(host, 2, HIDSTACK_INPUT, 9, 2, 0, &element), HIDSTACK_NONE);
    want("no key by its usage", hidstack_host_find(host, 0, HIDSTACK_INPUT, 7, 4, 0, &element), HIDSTACK_NONE);
    want("the second element of the array", hidstack_host_find(host, 0, HIDSTACK_INPUT, 0, 0, 1, &element) == HIDSTACK_OK && element.is_array == 1 && element.index == 1, 1);
    want("nothing was written by the others", hidstack_host_find(host, UINT64_MAX, UINT32_MAX, 65535, 65535, 0, &element) == HIDSTACK_NONE && element.index == 1, 1);
    want("button 1 is up", hidstack_host_held(host, 1, 0, 0, &held) == HIDSTACK_OK && held == 0, 1);
    want("held of no interface", hidstack_host_held(host, 9, 0, 0, &held), HIDSTACK_NONE);
    want("a button has no value", hidstack_host_value(host, 1, 0, 0, &value) == HIDSTACK_NONE && value == 9, 1);
    want("a blank report", hidstack_host_blank(host, 1, HIDSTACK_INPUT, 0, room, 8, &length) == HIDSTACK_OK && length == 1 && room[0] == 0, 1);
    want("no room for it", hidstack_host_blank(host, 0, HIDSTACK_INPUT, 0, NULL, 0, &length) == HIDSTACK_NO_ROOM && length == 8, 1);
    want("no Feature report", hidstack_host_blank(host, 0, HIDSTACK_FEATURE, 0, room, 8, &length) == HIDSTACK_NONE && length == 0, 1);
    want("no kind 7", hidstack_host_blank(host, 0, 7, 0, room, 8, &length) == HIDSTACK_NONE && length == 0, 1);
}

/* Reports of both interfaces: their events, under their places. */
static void reports(struct hidstack_host *host)
{
    static const uint8_t a[8] = {0, 0, 4, 0, 0, 0, 0, 0}, one[1] = {1};
    struct hidstack_host_event events[22] = {{{0, 0, 0, 0, 0, 0}, 0}};
    struct hidstack_host_result result = {9, 9, 9};
    uint32_t held = 0;
    events[1].interface = 77;
    want("a report", hidstack_host_report(host, 0, HIDSTACK_OK, a, 8, events, 22, &result), HIDSTACK_OK);
    want("has one event", result.count == 1 && result.cause == 0 && result.detail == 0, 1);
    want("07:04 down", events[0].event.kind == HIDSTACK_DOWN && events[0].event.page == 7 && events[0].event.id == 4, 1);
    want("of interface 0", events[0].interface, 0);
    want("and no more", events[1].interface, 77);
    want("a button", hidstack_host_report(host, 1, HIDSTACK_OK, one, 1, events, 22, &result) == HIDSTACK_OK && result.count == 1, 1);
    want("is of interface 1", events[0].interface == 1 && events[0].event.page == 9 && events[0].event.id == 1, 1);
    want("and held", hidstack_host_held(host, 1, 0, 0, &held) == HIDSTACK_OK && held == 1, 1);
    want("a failed transfer", hidstack_host_report(host, 1, HIDSTACK_FAILED, NULL, 0, events, 22, &result) == HIDSTACK_OK && result.count == 0, 1);
    want("any other number is one", hidstack_host_report(host, 1, 4711, a, 8, events, 22, &result) == HIDSTACK_OK && result.count == 0, 1);
    want("a room of 21", hidstack_host_report(host, 1, HIDSTACK_OK, one, 0, events, 21, &result) == HIDSTACK_NO_ROOM && result.count == 22, 1);
    want("no room", hidstack_host_report(host, 1, HIDSTACK_OK, NULL, 0, NULL, 0, &result) == HIDSTACK_NO_ROOM && result.count == 22, 1);
    want("no bytes: U8", hidstack_host_report(host, 1, HIDSTACK_OK, NULL, 0, events, 22, &result), HIDSTACK_REFUSED);
    want("is H12 U8", result.cause == 12 && result.detail == 8 && result.count == 0, 1);
    want("no third interface", hidstack_host_report(host, 2, HIDSTACK_OK, one, 1, events, 22, &result), HIDSTACK_REFUSED);
    want("is H3", result.cause == 3 && result.detail == 0 && result.count == 0, 1);
    want("a long one", hidstack_host_report(host, 1, HIDSTACK_OK, a, 8, events, 22, &result) == HIDSTACK_REFUSED && result.cause == 13, 1);
}

/* LEDs are set, a report is asked for, and what can't be asked is refused. */
static void asked(struct hidstack_host *host)
{
    struct hidstack_ask ask = {HIDSTACK_SET_REPORT, HIDSTACK_OUTPUT, 0, 0, 0xEE};
    struct hidstack_host_result result = {9, 9, 9};
    struct hidstack_setup setup = {1, 1, 1, 1, 1};
    struct hidstack_element_info led;
    uint8_t leds[1], sent[2] = {0xEE, 0xEE};
    uint64_t length = 9;
    want("Caps Lock", hidstack_host_find(host, 0, HIDSTACK_OUTPUT, 8, 2, 0, &led) == HIDSTACK_OK && led.page == 8 && led.id == 2 && led.bit == 1 && led.index == 1, 1);
    want("blank LEDs", hidstack_host_blank(host, 0, HIDSTACK_OUTPUT, 0, leds, 1, &length), HIDSTACK_OK);
    want("Caps Lock on", hidstack_put(&led, leds, 1, 1) == HIDSTACK_OK && leds[0] == 2, 1);
    want("SET_REPORT", hidstack_host_ask(host, 0, &ask, leds, 1, &result) == HIDSTACK_OK && result.count + result.cause + result.detail == 0, 1);
    leds[0] = 0xEE;
    want("no room for the data", hidstack_host_todo(host, &setup, NULL, 0, &length) == HIDSTACK_NO_ROOM && length == 1 && setup.value == 1, 1);
    want("the request", hidstack_host_todo(host, &setup, sent, 2, &length) == HIDSTACK_OK && length == 1, 1);
    want("21 09 00 02 00 00 01 00", setup.request_type == 0x21 && setup.request == 9 && setup.value == 0x0200 && setup.index == 0 && setup.length == 1, 1);
    want("its data were copied", sent[0] == 2 && sent[1] == 0xEE, 1);
    want("H5: another first", hidstack_host_ask(host, 1, &ask, leds, 1, &result) == HIDSTACK_REFUSED && result.cause == 5, 1);
    done(host, NULL, 0, HIDSTACK_MOVE_ANSWERED, 0);
    want("nothing to do", hidstack_host_todo(host, &setup, NULL, 0, &length) == HIDSTACK_NONE && length == 0 && setup.request == 9, 1);
    refused(host, HIDSTACK_OK, NULL, 0, 1, 0);
    ask.request = HIDSTACK_GET_REPORT;
    want("GET_REPORT", hidstack_host_ask(host, 0, &ask, NULL, 0, &result), HIDSTACK_OK);
    asks("of Output report 0", host, 0xA1, 1, 0x0200, 0, 1);
    refused(host, HIDSTACK_STALLED, NULL, 0, 8, 0);
    want("ready still", state_of(host), HIDSTACK_HOST_READY);
    ask.kind = HIDSTACK_INPUT;
    want("of interface 1", hidstack_host_ask(host, 1, &ask, NULL, 0, &result), HIDSTACK_OK);
    asks("which is number 2", host, 0xA1, 1, 0x0100, 2, 1);
    refused(host, HIDSTACK_FAILED, NULL, 0, 9, 0);
    ask.request = HIDSTACK_SET_IDLE;
    ask.kind = 0xEE;
    ask.time = 125;
    want("SET_IDLE", hidstack_host_ask(host, 1, &ask, NULL, 0, &result), HIDSTACK_OK);
    asks("of 500 ms", host, 0x21, 10, 0x7D00, 2, 0);
    done(host, NULL, 0, HIDSTACK_MOVE_ANSWERED, 0);
    ask.request = HIDSTACK_SET_REPORT;
    want("no kind EE", hidstack_host_ask(host, 0, &ask, leds, 1, &result) == HIDSTACK_NONE && result.count + result.cause + result.detail == 0, 1);
    ask.request = 0x100 + HIDSTACK_SET_REPORT;
    want("no request 109", hidstack_host_ask(host, 0, &ask, leds, 1, &result), HIDSTACK_NONE);
    ask.request = HIDSTACK_SET_REPORT;
    ask.kind = HIDSTACK_FEATURE;
    want("H6: no Feature report", hidstack_host_ask(host, 0, &ask, leds, 1, &result) == HIDSTACK_REFUSED && result.cause == 6, 1);
    ask.kind = HIDSTACK_OUTPUT;
    want("H7: too long", hidstack_host_ask(host, 0, &ask, sent, 2, &result) == HIDSTACK_REFUSED && result.cause == 7, 1);
    want("H3: no interface", hidstack_host_ask(host, UINT64_MAX, &ask, leds, 1, &result) == HIDSTACK_REFUSED && result.cause == 3, 1);
    want("ready still", state_of(host), HIDSTACK_HOST_READY);
}

/* A halt is cleared; the boot protocol lets go of what is held; and a reset of all. */
static void ends(struct hidstack_host *host)
{
    struct hidstack_host_event events[22];
    struct hidstack_host_result result = {9, 9, 9};
    struct hidstack_interface_info info;
    struct hidstack_host_info device;
    want("a STALL", hidstack_host_report(host, 1, HIDSTACK_STALLED, NULL, 0, events, 22, &result) == HIDSTACK_OK && result.count == 0, 1);
    want("halts it", hidstack_host_interface(host, 1, &info) == HIDSTACK_OK && info.state == HIDSTACK_INTERFACE_HALTED, 1);
    asks("CLEAR_FEATURE of endpoint 3", host, 0x02, 1, 0, 0x83, 0);
    done(host, NULL, 0, HIDSTACK_MOVE_CLEARED, 1);
    want("live again", hidstack_host_interface(host, 1, &info) == HIDSTACK_OK && info.state == HIDSTACK_INTERFACE_LIVE, 1);
    want("H15: no boot protocol", hidstack_host_protocol(host, 1, HIDSTACK_PROTOCOL_BOOT, events, 22, &result) == HIDSTACK_REFUSED && result.cause == 15, 1);
    want("no room", hidstack_host_protocol(host, 0, HIDSTACK_PROTOCOL_BOOT, events, 21, &result) == HIDSTACK_NO_ROOM && result.count == 22, 1);
    want("the boot protocol", hidstack_host_protocol(host, 0, HIDSTACK_PROTOCOL_BOOT, events, 22, &result) == HIDSTACK_OK && result.count == 1, 1);
    want("07:04 up", events[0].event.kind == HIDSTACK_UP && events[0].event.id == 4 && events[0].interface == 0, 1);
    asks("SET_PROTOCOL 0", host, 0x21, 11, 0, 0, 0);
    done(host, NULL, 0, HIDSTACK_MOVE_ANSWERED, 0);
    want("sends boot reports", hidstack_host_interface(host, 0, &info) == HIDSTACK_OK && info.state == HIDSTACK_INTERFACE_BOOT, 1);
    want("H14", hidstack_host_report(host, 0, HIDSTACK_OK, NULL, 0, events, 22, &result) == HIDSTACK_REFUSED && result.cause == 14, 1);
    want("no room for a reset", hidstack_host_reset(host, events, 1, &result) == HIDSTACK_NO_ROOM && result.count == 2, 1);
    want("a reset", hidstack_host_reset(host, events, 2, &result) == HIDSTACK_OK && result.count == 1, 1);
    want("09:01 up", events[0].event.kind == HIDSTACK_UP && events[0].event.page == 9 && events[0].interface == 1, 1);
    want("knows nothing", hidstack_host_device(host, &device) == HIDSTACK_OK && device.interfaces + device.room + device.state + device.vendor == 0, 1);
    asks("GET_DESCRIPTOR, device", host, 0x80, 6, 0x0100, 0, 18);
    want("a reset of nothing", hidstack_host_reset(host, NULL, 0, &result) == HIDSTACK_OK && result.count == 0, 1);
}

/* Answers that can't be read: the device is refused, or an interface. */
static void bad_answers(void)
{
    uint8_t cut[59];
    struct hidstack_host host = HIDSTACK_HOST_INIT;
    struct hidstack_interface_info info;
    struct hidstack_host_result result;
    struct hidstack_setup setup;
    struct hidstack_moved moved;
    uint64_t length;
    want("open", hidstack_host_open(&host), HIDSTACK_OK);
    want("busy", hidstack_host_open(&host), HIDSTACK_BUSY);
    refused(&host, HIDSTACK_OK, two, 18, 10, 2);
    want("refused", state_of(&host), HIDSTACK_HOST_REFUSED);
    want("nothing to do", hidstack_host_todo(&host, &setup, NULL, 0, &length), HIDSTACK_NONE);
    want("until a reset", hidstack_host_reset(&host, NULL, 0, &result), HIDSTACK_OK);
    refused(&host, HIDSTACK_STALLED, NULL, 0, 8, 0);
    want("and again", hidstack_host_reset(&host, NULL, 0, &result), HIDSTACK_OK);
    done(&host, device_answer, 18, HIDSTACK_MOVE_ONWARD, 0);
    refused(&host, HIDSTACK_OK, two, 8, 11, 1);
    hidstack_host_close(&host);
    /* the second interface has the number of the first: B13; the report descriptor of the first is cut: B6, or has a Pop: L3 */
    memcpy(cut, two, sizeof cut);
    cut[36] = 0;
    want("open again", hidstack_host_open(&host), HIDSTACK_OK);
    done(&host, device_answer, 18, HIDSTACK_MOVE_ONWARD, 0);
    done(&host, cut, 9, HIDSTACK_MOVE_ONWARD, 0);
    done(&host, cut, 59, HIDSTACK_MOVE_ONWARD, 0);
    done(&host, NULL, 0, HIDSTACK_MOVE_ONWARD, 0);
    want("B13", hidstack_host_interface(&host, 1, &info) == HIDSTACK_OK && info.state == HIDSTACK_INTERFACE_REFUSED && info.letter == 'B' && info.cause == 13, 1);
    done(&host, NULL, 0, HIDSTACK_MOVE_ONWARD, 0);
    done(&host, keyboard, 62, HIDSTACK_MOVE_REFUSED, 0);
    want("B6", hidstack_host_interface(&host, 0, &info) == HIDSTACK_OK && info.letter == 'B' && info.cause == 6 && info.at == 0, 1);
    want("ready with none", state_of(&host), HIDSTACK_HOST_READY);
    want("H4", hidstack_host_report(&host, 0, HIDSTACK_OK, NULL, 0, NULL, 0, &result) == HIDSTACK_REFUSED && result.cause == 4, 1);
    hidstack_host_close(&host);
    memcpy(cut, two, sizeof cut);
    cut[25] = 3;
    want("open once more", hidstack_host_open(&host), HIDSTACK_OK);
    done(&host, device_answer, 18, HIDSTACK_MOVE_ONWARD, 0);
    done(&host, cut, 9, HIDSTACK_MOVE_ONWARD, 0);
    done(&host, cut, 59, HIDSTACK_MOVE_ONWARD, 0);
    done(&host, NULL, 0, HIDSTACK_MOVE_ONWARD, 0);
    done(&host, NULL, 0, HIDSTACK_MOVE_ONWARD, 0);
    done(&host, (const uint8_t[]){0x05, 0x01, 0xB4}, 3, HIDSTACK_MOVE_REFUSED, 0);
    want("L3 at 2", hidstack_host_interface(&host, 0, &info) == HIDSTACK_OK && info.letter == 'L' && info.cause == 3 && info.at == 2, 1);
    want("H9", hidstack_host_done(&host, HIDSTACK_OK, NULL, 0, &moved) == HIDSTACK_OK && hidstack_host_done(&host, HIDSTACK_FAILED, NULL, 0, &moved) == HIDSTACK_OK, 1);
    want("of interface 1", hidstack_host_interface(&host, 1, &info) == HIDSTACK_OK && info.letter == 'H' && info.cause == 9, 1);
    hidstack_host_close(&host);
}

static void closed(void)
{
    struct hidstack_host host = HIDSTACK_HOST_INIT;
    struct hidstack device = HIDSTACK_INIT;
    struct hidstack_host_event event = {{0, 0, 0, 0, 0, 77}, 77};
    struct hidstack_host_result result = {9, 9, 9};
    struct hidstack_setup setup = {5, 5, 5, 5, 5};
    struct hidstack_moved moved = {5, 5, 5, 5, 5};
    struct hidstack_ask ask = {0, 0, 0, 0, 0};
    struct hidstack_host_info info = {5, 5, 5, 5, 5};
    struct hidstack_interface_info interface = {5, 0, 0, 0, 0, 0, 0, 0, 0, 0, 0, 0, 0, 0, 0};
    struct hidstack_element_info element = {5, 0, 0, 0, 0, 0, 0, 0, 0, 0, 0, 0, 0, 0, 0, 0};
    uint8_t data[2] = {5, 5};
    uint64_t length = 9;
    uint32_t held = 9;
    int64_t value = 9;
    want("todo", hidstack_host_todo(&host, &setup, data, 2, &length) == HIDSTACK_CLOSED && length == 0 && setup.value == 5 && data[0] == 5, 1);
    want("done", hidstack_host_done(&host, HIDSTACK_OK, data, 2, &moved) == HIDSTACK_CLOSED && moved.step == 5, 1);
    want("report", hidstack_host_report(&host, 0, HIDSTACK_OK, data, 2, &event, 1, &result) == HIDSTACK_CLOSED && result.count == 0, 1);
    want("ask", hidstack_host_ask(&host, 0, &ask, data, 2, &result), HIDSTACK_CLOSED);
    want("protocol", hidstack_host_protocol(&host, 0, 0, &event, 1, &result), HIDSTACK_CLOSED);
    want("reset", hidstack_host_reset(&host, &event, 1, &result), HIDSTACK_CLOSED);
    want("the table as it was", event.event.kind == 77 && event.interface == 77, 1);
    want("device", hidstack_host_device(&host, &info) == HIDSTACK_CLOSED && info.room == 5, 1);
    want("interface", hidstack_host_interface(&host, 0, &interface) == HIDSTACK_CLOSED && interface.at == 5, 1);
    want("element", hidstack_host_element(&host, 0, 0, 0, &element) == HIDSTACK_CLOSED && element.min == 5, 1);
    want("find", hidstack_host_find(&host, 0, 1, 8, 2, 0, &element) == HIDSTACK_CLOSED && element.min == 5, 1);
    want("held", hidstack_host_held(&host, 0, 0, 0, &held) == HIDSTACK_CLOSED && held == 9, 1);
    want("value", hidstack_host_value(&host, 0, 0, 0, &value) == HIDSTACK_CLOSED && value == 9, 1);
    want("blank", hidstack_host_blank(&host, 0, 0, 0, data, 2, &length) == HIDSTACK_CLOSED && length == 0 && data[1] == 5, 1);
    hidstack_host_close(&host);
    hidstack_host_close(NULL);
    hidstack_device_close(NULL);
    hidstack_close(NULL);
    hidstack_close(&device);
    want("closed still", host.driver == NULL && device.session == NULL, 1);
}

/* A virtual keyboard at the other end: whatever is asked goes to it, and what it answers comes back, as it is. */
static void beside_a_device(void)
{
    struct hidstack_device device = HIDSTACK_DEVICE_INIT;
    struct hidstack_host host = HIDSTACK_HOST_INIT;
    struct hidstack_config config = {0x1234, 0xABCD, 10, HIDSTACK_BOOT_KEYBOARD, 0};
    struct hidstack_device_opened opened;
    struct hidstack_host_event events[20];
    struct hidstack_host_result result;
    struct hidstack_setup setup;
    struct hidstack_moved moved;
    uint8_t data[256], answer[256];
    uint64_t length, answered, item, index;
    uint32_t outcome, transfers = 0;
    want("a device", hidstack_device_open(&config, keyboard, 63, &device, &opened), HIDSTACK_OK);
    want("a host", hidstack_host_open(&host), HIDSTACK_OK);
    while (hidstack_host_todo(&host, &setup, data, sizeof data, &length) == HIDSTACK_OK && transfers++ < 9) {
        outcome = hidstack_device_control(&device, &setup, data, length, answer, sizeof answer, &answered);
        want("goes on", hidstack_host_done(&host, outcome, answer, answered, &moved), HIDSTACK_OK);
    }
    want("six transfers", transfers, 6);
    want("ready", state_of(&host), HIDSTACK_HOST_READY);
    want("a", hidstack_device_find(&device, 7, 4, 0, &item, &index) == HIDSTACK_OK && hidstack_device_press(&device, item, index) == HIDSTACK_OK, 1);
    outcome = hidstack_device_report(&device, answer, sizeof answer, &length);
    want("goes down", hidstack_host_report(&host, 0, outcome, answer, length, events, 20, &result) == HIDSTACK_OK && result.count == 1, 1);
    want("at its place", events[0].event.kind == HIDSTACK_DOWN && events[0].event.item == item && events[0].event.index == index, 1);
    want("a halt", hidstack_device_halt(&device), HIDSTACK_OK);
    outcome = hidstack_device_report(&device, answer, sizeof answer, &length);
    want("is a STALL", outcome == HIDSTACK_STALLED && hidstack_host_report(&host, 0, outcome, NULL, 0, events, 20, &result) == HIDSTACK_OK, 1);
    want("to be cleared", hidstack_host_todo(&host, &setup, NULL, 0, &length), HIDSTACK_OK);
    outcome = hidstack_device_control(&device, &setup, NULL, 0, NULL, 0, &answered);
    want("and is", hidstack_host_done(&host, outcome, NULL, 0, &moved) == HIDSTACK_OK && moved.step == HIDSTACK_MOVE_CLEARED, 1);
    want("unplugged", hidstack_host_reset(&host, events, 20, &result) == HIDSTACK_OK && result.count == 1 && events[0].event.kind == HIDSTACK_UP, 1);
    hidstack_device_close(&device);
    hidstack_host_close(&host);
}

/* Random calls, lengths and bytes: each returns a status, and what goes down goes up. */
static void random_calls(uint32_t count)
{
    struct hidstack_host host = HIDSTACK_HOST_INIT;
    struct hidstack_host_result result;
    struct hidstack_host_info info;
    struct hidstack_moved moved;
    struct hidstack_ask ask;
    int64_t down = 0;
    uint64_t k;
    comes_up(&host);
    while (count--) {
        size_t length = some(4) ? some(12) : some(300), room = some(4) ? 22 : some(22);
        uint8_t *bytes = bytes_of(length, (int)some(256));
        struct hidstack_host_event *events = (struct hidstack_host_event *)(void *)bytes_of(room * sizeof *events, 0);
        uint32_t status = HIDSTACK_OK, outcome = some(8) ? HIDSTACK_OK : some(16), call = some(64);
        if (length > 2)
            bytes[some((uint32_t)length)] = (uint8_t)some(256);
        memset(&result, 0, sizeof result);
        memset(&ask, (int)some(256), sizeof ask);
        ask.request = some(12);
        if (call < 40)
            status = hidstack_host_report(&host, some(3), outcome, bytes, length, events, room, &result);
        else if (call < 52)
            status = hidstack_host_done(&host, outcome, bytes, length, &moved);
        else if (call < 58)
            status = hidstack_host_ask(&host, some(3), &ask, bytes, length, &result);
        else if (call < 61)
            status = hidstack_host_protocol(&host, some(3), some(3), events, room, &result);
        else if (call < 63)
            status = HIDSTACK_OK;
        else if ((status = hidstack_host_reset(&host, events, room, &result)) == HIDSTACK_OK) {
            for (k = 0; k < result.count; k++)
                down -= events[k].event.kind == HIDSTACK_UP;
            want("all that went down went up", (uint64_t)down, 0);
            result.count = 0;
            hidstack_host_close(&host);
            comes_up(&host);
        }
        if (status == HIDSTACK_OK)
            for (k = 0; k < result.count; k++)
                down += events[k].event.kind == HIDSTACK_DOWN ? 1 : events[k].event.kind == HIDSTACK_UP ? -1 : 0;
        want("a status of a host", status == HIDSTACK_OK || status == HIDSTACK_REFUSED || status == HIDSTACK_NO_ROOM || status == HIDSTACK_NONE, 1);
        want("which knows its state", hidstack_host_device(&host, &info) == HIDSTACK_OK && info.state <= HIDSTACK_HOST_REFUSED, 1);
        free(bytes);
        free(events);
    }
    hidstack_host_close(&host);
}

int main(int count, char **words)
{
    struct hidstack_host host = HIDSTACK_HOST_INIT;
    uint64_t length;
    want("a boot keyboard", hidstack_boot_descriptor(HIDSTACK_BOOT_KEYBOARD, keyboard, sizeof keyboard, &length), HIDSTACK_OK);
    closed();
    bad_answers();
    comes_up(&host);
    known(&host);
    reports(&host);
    asked(&host);
    ends(&host);
    hidstack_host_close(&host);
    beside_a_device();
    random_calls(count > 1 ? (uint32_t)strtoul(words[1], NULL, 10) : 20000);
    return wrong;
}
