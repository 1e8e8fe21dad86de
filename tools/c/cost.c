/* cost WORK COUNT: makes COUNT turns of a piece of work, whose instructions are counted from outside; `cost` alone lists the works.
 * A turn of `nothing` is what a turn takes by itself. */
#include "hidstack.h"
#include <stdio.h>
#include <stdlib.h>
#include <string.h>

static uint8_t mouse[50], keyboard[63];
static const struct hidstack_config config = {1, 2, 10, HIDSTACK_BOOT_MOUSE, 0};
static const struct hidstack_config keys = {1, 2, 10, HIDSTACK_BOOT_KEYBOARD, 0};
static struct hidstack reader = HIDSTACK_INIT, key_reader = HIDSTACK_INIT;
static struct hidstack_device pointer = HIDSTACK_DEVICE_INIT, typist = HIDSTACK_DEVICE_INIT;
static struct hidstack_host host = HIDSTACK_HOST_INIT, key_host = HIDSTACK_HOST_INIT;
static struct hidstack_opened opened;
static struct hidstack_device_opened made;
static struct hidstack_moved moved;
static struct hidstack_host_result result;
static struct hidstack_element_info table[5];
static struct hidstack_tabled tabled;
static struct hidstack_event events[20];
static struct hidstack_host_event told[5];
/* of the mouse button and motion, and motion, in turn, and rest; of the keyboard rest and a key */
static const uint8_t reports[2][3] = {{1, 5, 0}, {0, 5, 0}}, rest[3] = {0, 0, 0}, strokes[2][8] = {{0}, {0, 0, 4}}, lights[1] = {2};
static const struct hidstack_setup read_descriptor = {0x81, 6, 0x2200, 0, 63}, set_idle = {0x21, 10, 0, 0, 0}, set_lights = {0x21, 9, 0x0200, 0, 1},
                                   read_device = {0x80, 6, 0x0100, 0, 18};
static uint8_t answer[64];
static uint64_t count, key_item, key_index;
static struct hidstack_element_info caps_lock;
static uint8_t leds[1];
static uint32_t held;

/* Brings a host up beside its device. */
static void bring_up(struct hidstack_host *at, struct hidstack_device *beside)
{
    struct hidstack_setup setup;
    uint64_t length, answered;
    hidstack_host_open(at);
    while (hidstack_host_todo(at, &setup, answer, sizeof answer, &length) == HIDSTACK_OK) {
        uint32_t outcome = hidstack_device_control(beside, &setup, NULL, 0, answer, sizeof answer, &answered);
        hidstack_host_done(at, outcome, answer, outcome == HIDSTACK_OK ? answered : 0, &moved);
    }
}

static void nothing(long i)
{
    count += (uint64_t)i & 1;
}

static void open(long i)
{
    (void)i;
    hidstack_close(&reader);
    hidstack_open(mouse, sizeof mouse, &reader, &opened);
}

static void feed(long i)
{
    hidstack_feed(&reader, reports[i & 1], 3, events, 5, &count);
}

static void key(long i)
{
    hidstack_feed(&key_reader, strokes[i & 1], 8, events, 20, &count);
}

static void idle(long i)
{
    (void)i;
    hidstack_feed(&key_reader, strokes[0], 8, events, 20, &count);
}

static void is_held(long i)
{
    (void)i;
    hidstack_held(&reader, 0, 0, &held);
}

static void elements(long i)
{
    (void)i;
    hidstack_table(mouse, sizeof mouse, table, 5, &tabled);
}

static void device(long i)
{
    (void)i;
    hidstack_device_close(&pointer);
    hidstack_device_open(&config, mouse, sizeof mouse, &pointer, &made);
}

static void report(long i)
{
    (void)i;
    hidstack_device_move(&pointer, 2, 0, 5);
    hidstack_device_report(&pointer, answer, sizeof answer, &count);
}

static void none_due(long i)
{
    (void)i;
    hidstack_device_report(&pointer, answer, sizeof answer, &count);
}

static void find(long i)
{
    uint64_t item, index;
    (void)i;
    hidstack_device_find(&pointer, 1, 0x30, 0, &item, &index);
}

static void released(long i)
{
    (void)i;
    hidstack_device_release_all(&typist);
}

static void descriptor(long i)
{
    (void)i;
    hidstack_device_control(&typist, &read_descriptor, NULL, 0, answer, sizeof answer, &count);
}

static void idle_time(long i)
{
    (void)i;
    hidstack_device_control(&typist, &set_idle, NULL, 0, NULL, 0, &count);
}

static void set_leds(long i)
{
    (void)i;
    hidstack_device_control(&typist, &set_lights, lights, 1, NULL, 0, &count);
}

static void device_descriptor(long i)
{
    (void)i;
    hidstack_device_control(&typist, &read_device, NULL, 0, answer, sizeof answer, &count);
}

static void up(long i)
{
    (void)i;
    hidstack_host_close(&host);
    bring_up(&host, &pointer);
}

static void host_report(long i)
{
    hidstack_host_report(&host, 0, HIDSTACK_OK, reports[i & 1], 3, told, 5, &result);
}

static void host_idle(long i)
{
    (void)i;
    hidstack_host_report(&host, 0, HIDSTACK_OK, rest, 3, told, 5, &result);
}

static void element(long i)
{
    struct hidstack_element_info y;
    (void)i;
    hidstack_host_find(&host, 0, HIDSTACK_INPUT, 1, 0x31, 0, &y);
}

static void todo(long i)
{
    struct hidstack_setup setup;
    (void)i;
    hidstack_host_todo(&host, &setup, answer, sizeof answer, &count);
}

/* An idle time is asked for, and the device takes it. */
static void ask(long i)
{
    static const struct hidstack_ask time = {HIDSTACK_SET_IDLE, 0, 0, 4, 0};
    (void)i;
    hidstack_host_ask(&host, 0, &time, NULL, 0, &result);
    hidstack_host_done(&host, HIDSTACK_OK, NULL, 0, &moved);
}

/* A key goes down, and up in the next turn; each has its report. */
static void press(long i)
{
    (i & 1 ? hidstack_device_release : hidstack_device_press)(&typist, key_item, key_index);
    hidstack_device_report(&typist, answer, sizeof answer, &count);
}

static void frame(long i)
{
    (void)i;
    hidstack_device_frame(&typist);
}

static void configured(long i)
{
    (void)i;
    hidstack_device_configured(&typist, &held);
}

static void output(long i)
{
    (void)i;
    hidstack_device_output(&typist, HIDSTACK_OUTPUT, 0, leds, 1, &count);
}

static void known(long i)
{
    struct hidstack_host_info info;
    (void)i;
    hidstack_host_device(&host, &info);
}

static void interface(long i)
{
    struct hidstack_interface_info info;
    (void)i;
    hidstack_host_interface(&host, 0, &info);
}

static void host_blank(long i)
{
    (void)i;
    hidstack_host_blank(&key_host, 0, HIDSTACK_OUTPUT, 0, leds, 1, &count);
}

static void put(long i)
{
    hidstack_put(&caps_lock, leds, 1, i & 1);
}

static void number(long i)
{
    int64_t value;
    (void)i;
    hidstack_number(&caps_lock, leds, 1, &value);
}

/* A report of LEDs is asked for, and sent, and the device takes it. */
static void send(long i)
{
    static const struct hidstack_ask report = {HIDSTACK_SET_REPORT, HIDSTACK_OUTPUT, 0, 0, 0};
    struct hidstack_setup setup;
    (void)i;
    hidstack_host_ask(&key_host, 0, &report, lights, 1, &result);
    hidstack_host_todo(&key_host, &setup, answer, sizeof answer, &count);
    hidstack_host_done(&key_host, HIDSTACK_OK, NULL, 0, &moved);
}

/* A STALL halts the endpoint, and the device clears the halt. */
static void halt(long i)
{
    (void)i;
    hidstack_host_report(&host, 0, HIDSTACK_STALLED, NULL, 0, told, 5, &result);
    hidstack_host_done(&host, HIDSTACK_OK, NULL, 0, &moved);
}

static void let_go(long i)
{
    (void)i;
    hidstack_release(&reader, events, 5, &count);
}

static const struct {
    const char *name;
    void (*turn)(long i);
} works[] = {{"nothing", nothing}, {"open", open}, {"feed", feed}, {"key", key}, {"idle", idle}, {"held", is_held}, {"table", elements}, {"device", device}, {"report", report},
    {"none", none_due}, {"find", find}, {"released", released}, {"descriptor", descriptor}, {"time", idle_time}, {"lights", set_leds}, {"control", device_descriptor}, {"up", up},
    {"host", host_report}, {"rest", host_idle}, {"element", element}, {"todo", todo}, {"ask", ask}, {"press", press}, {"frame", frame}, {"configured", configured},
    {"output", output}, {"known", known}, {"interface", interface}, {"blank", host_blank}, {"put", put}, {"number", number}, {"send", send}, {"halt", halt}, {"release", let_go}};

int main(int argc, char **argv)
{
    long i, n = argc == 3 ? atol(argv[2]) : 0;
    size_t work;
    hidstack_boot_descriptor(HIDSTACK_BOOT_MOUSE, mouse, sizeof mouse, &count);
    hidstack_boot_descriptor(HIDSTACK_BOOT_KEYBOARD, keyboard, sizeof keyboard, &count);
    hidstack_open(mouse, sizeof mouse, &reader, &opened);
    hidstack_open(keyboard, sizeof keyboard, &key_reader, &opened);
    hidstack_device_open(&config, mouse, sizeof mouse, &pointer, &made);
    hidstack_device_open(&keys, keyboard, sizeof keyboard, &typist, &made);
    bring_up(&host, &pointer);
    bring_up(&key_host, &typist);
    hidstack_device_find(&typist, 7, 4, 0, &key_item, &key_index);
    hidstack_host_find(&key_host, 0, HIDSTACK_OUTPUT, 8, 2, 0, &caps_lock);
    for (work = 0; work < sizeof works / sizeof *works; work++)
        if (argc < 2)
            puts(works[work].name);
        else if (strcmp(argv[1], works[work].name) == 0)
            for (i = 0; i < n; i++)
                works[work].turn(i);
    hidstack_close(&reader);
    hidstack_close(&key_reader);
    hidstack_device_close(&pointer);
    hidstack_device_close(&typist);
    hidstack_host_close(&host);
    hidstack_host_close(&key_host);
    return 0;
}
