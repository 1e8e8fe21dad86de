/* Handles in threads: threads at once with a reader, a virtual device and a host each, which make each call of the header; handles
 * that they use in turn; and handles that one thread opens and another closes. Each step has its results wherever it runs. It
 * is for helgrind, which sees the library's loads and stores, and the thread sanitizer, which sees those of this program and each
 * malloc and free. cc -pthread */
#include "hidstack.h"
#include <pthread.h>
#include <stdio.h>
#include <stdlib.h>
#include <string.h>

/* A reader, a virtual keyboard, and a host that has it at its other end; and how often a key was pressed. */
struct desk {
    struct hidstack reader;
    struct hidstack_device device;
    struct hidstack_host host;
    uint64_t item, index;
    int turns, wrong;
};

static const struct hidstack_config config = {0x1209, 1, 10, HIDSTACK_BOOT_KEYBOARD, 0};
static int rounds = 300;

static void want(struct desk *desk, const char *what, int is_so)
{
    if (!is_so) {
        printf("%s\n", what);
        desk->wrong = 1;
    }
}

/* Opens all three, and brings the host up beside the device: six transfers. */
static void opens(struct desk *desk)
{
    uint8_t descriptor[63], answer[255], data[8];
    struct hidstack_device_opened made;
    struct hidstack_opened opened;
    struct hidstack_setup setup;
    struct hidstack_moved moved;
    uint64_t length, answered;
    uint32_t outcome;
    int transfers = 0;
    want(desk, "a descriptor", hidstack_boot_descriptor(HIDSTACK_BOOT_KEYBOARD, descriptor, 63, &length) == HIDSTACK_OK);
    want(desk, "a reader", hidstack_open(descriptor, 63, &desk->reader, &opened) == HIDSTACK_OK);
    want(desk, "a device", hidstack_device_open(&config, descriptor, 63, &desk->device, &made) == HIDSTACK_OK);
    want(desk, "a host", hidstack_host_open(&desk->host) == HIDSTACK_OK);
    want(desk, "a key", hidstack_device_find(&desk->device, 7, 4, 0, &desk->item, &desk->index) == HIDSTACK_OK);
    for (; hidstack_host_todo(&desk->host, &setup, data, sizeof data, &length) == HIDSTACK_OK && transfers < 9; transfers++) {
        outcome = hidstack_device_control(&desk->device, &setup, data, length, answer, sizeof answer, &answered);
        want(desk, "goes on", hidstack_host_done(&desk->host, outcome, answer, answered, &moved) == HIDSTACK_OK);
    }
    want(desk, "six transfers", transfers == 6);
}

/* A key goes down or up: the host and the reader have one event of it; and a report of LEDs goes the other way. */
static void turn(struct desk *desk)
{
    struct hidstack_host_event told[20];
    struct hidstack_event events[20];
    struct hidstack_host_result result;
    struct hidstack_ask ask = {HIDSTACK_SET_REPORT, HIDSTACK_OUTPUT, 0, 0, 0};
    struct hidstack_element_info table[30];
    struct hidstack_tabled tabled;
    struct hidstack_setup setup;
    struct hidstack_moved moved;
    const uint8_t leds[1] = {(uint8_t)(desk->turns % 8)};
    uint8_t report[8], data[1], byte = 9, text[16], descriptor[63];
    uint64_t length, count, answered;
    uint32_t kind = desk->turns % 2 ? HIDSTACK_UP : HIDSTACK_DOWN, held = 9;
    want(desk, "a change", (kind ? hidstack_device_press : hidstack_device_release)(&desk->device, desk->item, desk->index) == HIDSTACK_OK);
    want(desk, "a report", hidstack_device_report(&desk->device, report, 8, &length) == HIDSTACK_OK && length == 8);
    want(desk, "read by the host", hidstack_host_report(&desk->host, 0, HIDSTACK_OK, report, 8, told, 20, &result) == HIDSTACK_OK && result.count == 1);
    want(desk, "at its place", told[0].event.kind == kind && told[0].event.item == desk->item && told[0].event.index == desk->index);
    want(desk, "read", hidstack_feed(&desk->reader, report, 8, events, 20, &count) == HIDSTACK_OK && count == 1 && events[0].kind == kind);
    want(desk, "held", hidstack_held(&desk->reader, desk->item, desk->index, &held) == HIDSTACK_OK && held == kind);
    want(desk, "LEDs", hidstack_host_ask(&desk->host, 0, &ask, leds, 1, &result) == HIDSTACK_OK);
    want(desk, "are sent", hidstack_host_todo(&desk->host, &setup, data, 1, &length) == HIDSTACK_OK && length == 1 && data[0] == leds[0]);
    want(desk, "are taken", hidstack_device_control(&desk->device, &setup, data, 1, NULL, 0, &answered) == HIDSTACK_OK);
    want(desk, "are there", hidstack_device_output(&desk->device, HIDSTACK_OUTPUT, 0, &byte, 1, &length) == HIDSTACK_OK && byte == leds[0]);
    want(desk, "are done", hidstack_host_done(&desk->host, HIDSTACK_OK, NULL, 0, &moved) == HIDSTACK_OK && moved.step == HIDSTACK_MOVE_ANSWERED);
    want(desk, "a name", hidstack_usage_name(9, 1, text, sizeof text, &length) == HIDSTACK_OK && length == 8);
    want(desk, "a descriptor", hidstack_boot_descriptor(HIDSTACK_BOOT_KEYBOARD, descriptor, 63, &length) == HIDSTACK_OK);
    want(desk, "a table", hidstack_table(descriptor, 63, table, 30, &tabled) == HIDSTACK_OK && tabled.elements == 19);
    desk->turns++;
}

/* What a reader has of the boot keyboard, whose first item is the eight modifiers: it reads, and lets go of a shift. */
static void reads(struct desk *desk)
{
    static const uint8_t shift[8] = {2};
    struct hidstack_event events[20];
    struct hidstack_report_info report;
    struct hidstack_element_info element;
    struct hidstack_usage_info usage;
    struct hidstack_collection_info collection;
    uint8_t blank[8];
    uint64_t count, length;
    int64_t value = 9;
    want(desk, "a shift goes down", hidstack_feed(&desk->reader, shift, 8, events, 20, &count) == HIDSTACK_OK && count == 1 && events[0].id == 0xE1);
    want(desk, "the report", hidstack_report(&desk->reader, 0, &report) == HIDSTACK_OK && report.bytes == 8);
    want(desk, "the shift", hidstack_element(&desk->reader, 0, 1, &element) == HIDSTACK_OK && element.id == 0xE1);
    want(desk, "its usage", hidstack_usage(&desk->reader, 0, 1, &usage) == HIDSTACK_OK && usage.id == 0xE1);
    want(desk, "its collection", hidstack_collection(&desk->reader, 0, 0, &collection) == HIDSTACK_OK && collection.id == 6);
    want(desk, "no value", hidstack_value(&desk->reader, 0, 1, &value) == HIDSTACK_NONE && value == 9);
    want(desk, "zeros", hidstack_blank(&desk->reader, HIDSTACK_INPUT, 0, blank, 8, &length) == HIDSTACK_OK && length == 8);
    want(desk, "a shift in it", hidstack_put(&element, blank, 8, 1) == HIDSTACK_OK && memcmp(blank, shift, 8) == 0);
    want(desk, "is 1", hidstack_number(&element, blank, 8, &value) == HIDSTACK_OK && value == 1);
    want(desk, "it goes up", hidstack_release(&desk->reader, events, 20, &count) == HIDSTACK_OK && count == 1 && events[0].kind == HIDSTACK_UP);
}

/* What a host knows of the boot keyboard, and a protocol that the keyboard refuses. */
static void knows(struct desk *desk)
{
    struct hidstack_host_event told[20];
    struct hidstack_host_info info;
    struct hidstack_host_result result;
    struct hidstack_interface_info interface;
    struct hidstack_element_info element, found;
    uint8_t blank[1];
    uint64_t length;
    int64_t value = 9;
    uint32_t held = 9;
    want(desk, "the device", hidstack_host_device(&desk->host, &info) == HIDSTACK_OK && info.vendor == 0x1209 && info.room == 20);
    want(desk, "the interface", hidstack_host_interface(&desk->host, 0, &interface) == HIDSTACK_OK && interface.state == HIDSTACK_INTERFACE_LIVE);
    want(desk, "Num Lock", hidstack_host_find(&desk->host, 0, HIDSTACK_OUTPUT, 8, 1, 0, &found) == HIDSTACK_OK && found.bit == 0);
    want(desk, "at its place", hidstack_host_element(&desk->host, 0, found.item, found.index, &element) == HIDSTACK_OK && memcmp(&element, &found, sizeof found) == 0);
    want(desk, "no shift", hidstack_host_held(&desk->host, 0, 0, 1, &held) == HIDSTACK_OK && held == 0);
    want(desk, "no value of it", hidstack_host_value(&desk->host, 0, 0, 1, &value) == HIDSTACK_NONE && value == 9);
    want(desk, "LEDs of zeros", hidstack_host_blank(&desk->host, 0, HIDSTACK_OUTPUT, 0, blank, 1, &length) == HIDSTACK_OK && length == 1 && blank[0] == 0);
    want(desk, "a protocol", hidstack_host_protocol(&desk->host, 0, HIDSTACK_PROTOCOL_REPORT, told, 20, &result) == HIDSTACK_OK);
    want(desk, "all let go", hidstack_host_reset(&desk->host, told, 20, &result) == HIDSTACK_OK && result.count == 0);
}

/* What changes a device beside keys that go down and up one by one: the boot keyboard has no values. */
static void changes(struct desk *desk)
{
    uint32_t configured = 9;
    want(desk, "configured", hidstack_device_configured(&desk->device, &configured) == HIDSTACK_OK && configured == 1);
    want(desk, "no value", hidstack_device_set(&desk->device, 0, 1, 1) == HIDSTACK_WRONG_KIND);
    want(desk, "nor null", hidstack_device_null(&desk->device, 0, 1) == HIDSTACK_WRONG_KIND);
    want(desk, "nor motion", hidstack_device_move(&desk->device, 0, 1, 1) == HIDSTACK_WRONG_KIND);
    want(desk, "a key", hidstack_device_press(&desk->device, desk->item, desk->index) == HIDSTACK_OK);
    want(desk, "goes up", hidstack_device_release_all(&desk->device) == HIDSTACK_OK);
    want(desk, "a millisecond", hidstack_device_frame(&desk->device) == HIDSTACK_OK);
    want(desk, "a halt", hidstack_device_halt(&desk->device) == HIDSTACK_OK);
    want(desk, "a reset", hidstack_device_reset(&desk->device) == HIDSTACK_OK);
    want(desk, "as new", hidstack_device_configured(&desk->device, &configured) == HIDSTACK_OK && configured == 0);
}

/* Scripts and texts, without a handle. */
static void texts(struct desk *desk)
{
    static const uint8_t script[] = "usage 1:30\n", bad[] = {0xC0};
    uint8_t out[256], fault[64];
    struct hidstack_ran ran;
    uint64_t length;
    want(desk, "a script", hidstack_run(script, sizeof script - 1, HIDSTACK_LAYOUTS, out, sizeof out, fault, sizeof fault, &ran) == HIDSTACK_REFUSED && ran.line == 1);
    want(desk, "a cause", hidstack_cause_text(3, out, sizeof out, &length) == HIDSTACK_OK && length == 2);
    want(desk, "its words", hidstack_cause_words(3, out, sizeof out, &length) == HIDSTACK_OK && memcmp(out, "a Pop without a Push", 20) == 0);
    want(desk, "a refusal", hidstack_refusal_text(bad, 1, out, sizeof out, &length) == HIDSTACK_OK && memcmp(out, "L6 at 0: ", 9) == 0);
    want(desk, "a usage", hidstack_usage_text(1, 0x30, out, sizeof out, &length) == HIDSTACK_OK && memcmp(out, "01:30", 5) == 0);
}

static void closes(struct desk *desk)
{
    hidstack_close(&desk->reader);
    hidstack_device_close(&desk->device);
    hidstack_host_close(&desk->host);
    want(desk, "all closed", !desk->reader.session && !desk->device.gadget && !desk->host.driver);
}

/* A desk of its own, opened and closed again and again. */
static void *alone(void *unused)
{
    static const struct desk none;
    struct desk desk = none;
    int i;
    for (i = 0; i < 4; i++) {
        opens(&desk);
        for (desk.turns = 0; desk.turns < rounds;)
            turn(&desk);
        reads(&desk);
        knows(&desk);
        changes(&desk);
        texts(&desk);
        closes(&desk);
    }
    return desk.wrong ? &rounds : unused;
}

static struct desk shared;
static pthread_mutex_t one_at_a_time = PTHREAD_MUTEX_INITIALIZER;

/* Takes turns at the desk of both. */
static void *in_turn(void *unused)
{
    int i;
    for (i = 0; i < rounds; i++) {
        pthread_mutex_lock(&one_at_a_time);
        turn(&shared);
        pthread_mutex_unlock(&one_at_a_time);
    }
    return unused;
}

/* Works at a desk that another thread opened, and closes it. */
static void *handed_over(void *desk)
{
    turn(desk);
    closes(desk);
    return NULL;
}

/* Three threads at once: whether something was wrong in one. */
static int together(void *(*work)(void *))
{
    pthread_t threads[3];
    void *result;
    int i, made, wrong = 0;
    for (made = 0; made < 3 && pthread_create(&threads[made], NULL, work, NULL) == 0; made++)
        ;
    for (i = 0; i < made; i++)
        wrong |= pthread_join(threads[i], &result) != 0 || result != NULL;
    return wrong || made < 3;
}

int main(int words, char **word)
{
    pthread_t thread;
    if (words > 1)
        rounds = 2 * (atoi(word[1]) / 2); /* each key that goes down goes up */
    if (together(alone))
        return 1;
    opens(&shared);
    if (together(in_turn) || shared.turns != 3 * rounds)
        return 1;
    if (pthread_create(&thread, NULL, handed_over, &shared) || pthread_join(thread, NULL))
        return 1;
    return shared.wrong;
}
