/* A KVM switch: one keyboard for two machines. A struct hidstack_host reads the keyboard, and each machine sees a boot keyboard, a
 * struct hidstack_device. Scroll Lock goes to the other machine: what is held is let go first. The LEDs are those of the machine
 * in use.
 *
 * So that the program runs anywhere, the keyboard is a virtual device too, and each machine is a host, which prints its events. On
 * a board the transfers of `control` and `poll_report` are those of controllers: that of the keyboard makes them, and those of
 * the machines answer them. */
#include <hidstack.h>
#include <stdio.h>
#include <stdlib.h>

struct kvm {
    struct hidstack_host keyboard;      /* reads the keyboard .. */
    struct hidstack_host_event *events; /* .. whose events have `room` places */
    uint64_t room;
    struct hidstack_device machines[2]; /* the keyboard that each machine sees */
    int active;                         /* the machine in use */
    uint8_t lit;                        /* the LEDs that the keyboard shows, LED 1 in the first bit */
    uint8_t asked, wanted;              /* the LEDs of the report that is on its way to the keyboard, and which of them it lights */
};

/* Pages of the HID Usage Tables, and the key that changes machines */
enum { KEYS = 0x07, LEDS = 0x08, SCROLL_LOCK = 0x47 };

static int open_kvm(struct kvm *kvm)
{
    struct hidstack_config config = {0x1209, 0x0001, 1, HIDSTACK_BOOT_KEYBOARD, 0}; /* polled each ms, more often than the keyboard */
    struct hidstack_device_opened opened;
    uint8_t descriptor[64];
    uint64_t length;
    return hidstack_boot_descriptor(HIDSTACK_BOOT_KEYBOARD, descriptor, sizeof descriptor, &length) == HIDSTACK_OK &&
           hidstack_device_open(&config, descriptor, length, &kvm->machines[0], &opened) == HIDSTACK_OK &&
           hidstack_device_open(&config, descriptor, length, &kvm->machines[1], &opened) == HIDSTACK_OK &&
           hidstack_host_open(&kvm->keyboard) == HIDSTACK_OK;
}

static void close_kvm(struct kvm *kvm)
{
    hidstack_host_close(&kvm->keyboard);
    hidstack_device_close(&kvm->machines[0]);
    hidstack_device_close(&kvm->machines[1]);
    free(kvm->events);
}

/* Lets go of all keys of the machine in use, and goes to the other. */
static void change(struct kvm *kvm)
{
    hidstack_device_release_all(&kvm->machines[kvm->active]);
    kvm->active = !kvm->active;
}

/* Passes what happened to the keyboard to the machine in use. A key that a boot keyboard doesn't have goes nowhere. */
static void pass(struct kvm *kvm, uint64_t count)
{
    uint64_t i, item, index;
    for (i = 0; i < count; i++) {
        const struct hidstack_event *event = &kvm->events[i].event;
        struct hidstack_device *machine = &kvm->machines[kvm->active];
        if (event->page == KEYS && event->id == SCROLL_LOCK) {
            if (event->kind == HIDSTACK_DOWN)
                change(kvm);
        } else if (hidstack_device_find(machine, event->page, event->id, 0, &item, &index) == HIDSTACK_OK) {
            if (event->kind == HIDSTACK_DOWN)
                hidstack_device_press(machine, item, index);
            else if (event->kind == HIDSTACK_UP)
                hidstack_device_release(machine, item, index);
        }
    }
}

/* Asks an interface of the keyboard to take its report of this ID, with the LEDs of `on`. The report may have them at other places
 * than a boot keyboard's, whose first bit is LED 1: each is found by its usage. */
static void ask_for_leds(struct kvm *kvm, uint64_t interface, uint8_t report_id, uint8_t on)
{
    const struct hidstack_ask ask = {HIDSTACK_SET_REPORT, HIDSTACK_OUTPUT, report_id, 0, 0};
    static uint8_t report[16384]; /* no report is longer */
    struct hidstack_host_result result;
    struct hidstack_element_info led;
    uint64_t length;
    uint16_t id;
    if (hidstack_host_blank(&kvm->keyboard, interface, HIDSTACK_OUTPUT, report_id, report, sizeof report, &length) != HIDSTACK_OK)
        return;
    kvm->asked = 0;
    kvm->wanted = on;
    for (id = 1; id <= 5; id++)
        if (hidstack_host_find(&kvm->keyboard, interface, HIDSTACK_OUTPUT, LEDS, id, 0, &led) == HIDSTACK_OK && led.report == report_id) {
            hidstack_put(&led, report, length, on >> (id - 1) & 1);
            kvm->asked |= (uint8_t)(1 << (id - 1));
        }
    hidstack_host_ask(&kvm->keyboard, interface, &ask, report, length, &result);
}

/* Asks the keyboard for the first LED that it doesn't show as the machine in use has it. The LEDs of other reports follow in the next
 * turns. */
static void pass_leds(struct kvm *kvm)
{
    struct hidstack_interface_info info;
    struct hidstack_element_info led;
    uint64_t place, length;
    uint16_t id;
    uint8_t on;
    if (hidstack_device_output(&kvm->machines[kvm->active], HIDSTACK_OUTPUT, 0, &on, 1, &length) != HIDSTACK_OK)
        return;
    for (id = 1; id <= 5; id++)
        for (place = 0; ((on ^ kvm->lit) >> (id - 1) & 1) && hidstack_host_interface(&kvm->keyboard, place, &info) == HIDSTACK_OK; place++)
            if (hidstack_host_find(&kvm->keyboard, place, HIDSTACK_OUTPUT, LEDS, id, 0, &led) == HIDSTACK_OK) {
                ask_for_leds(kvm, place, led.report, on);
                return;
            }
}

static struct hidstack_device *bad_cable; /* the next report that is sent to this device is lost */

/* Makes a control transfer: its outcome. */
static uint32_t control(struct hidstack_device *device, const struct hidstack_setup *setup, const uint8_t *data, uint64_t length, uint8_t *answer,
                        size_t room, uint64_t *answered)
{
    if (device != bad_cable || setup->request != HIDSTACK_SET_REPORT)
        return hidstack_device_control(device, setup, data, length, answer, room, answered);
    bad_cable = NULL;
    return HIDSTACK_FAILED;
}

/* Makes the control transfers that a host wants of a device: whether what it was asked for is done. A board's controller makes one
 * at a time, and goes on as it is done. */
static int transfer(struct hidstack_host *host, struct hidstack_device *device)
{
    static uint8_t data[16384], answer[16384];
    struct hidstack_setup setup;
    struct hidstack_moved moved;
    uint64_t length, answered;
    uint32_t outcome, status = HIDSTACK_OK;
    int done = 0;
    while (status != HIDSTACK_MEMORY && hidstack_host_todo(host, &setup, data, sizeof data, &length) == HIDSTACK_OK) {
        outcome = control(device, &setup, data, length, answer, sizeof answer, &answered);
        status = hidstack_host_done(host, outcome, answer, outcome == HIDSTACK_OK ? answered : 0, &moved);
        done |= status == HIDSTACK_OK && moved.step == HIDSTACK_MOVE_ANSWERED;
    }
    return done;
}

/* Makes the interrupt transfer that is due from a device to an interface of its host, if one is: how many events came. */
static uint64_t poll_report(struct hidstack_host *host, uint64_t interface, struct hidstack_device *device, struct hidstack_host_event *events, uint64_t room)
{
    struct hidstack_host_result result;
    uint8_t report[64];
    uint64_t length;
    uint32_t outcome = hidstack_device_report(device, report, sizeof report, &length);
    if (outcome == HIDSTACK_NONE ||
        hidstack_host_report(host, interface, outcome, report, outcome == HIDSTACK_OK ? length : 0, events, room, &result) != HIDSTACK_OK)
        return 0;
    return result.count;
}

/* A turn of the switch: what the keyboard has to say goes to the machine in use, and that one's LEDs to the keyboard. A report of LEDs
 * that it didn't take is sent again. */
static int turn(struct kvm *kvm, struct hidstack_device *keyboard)
{
    struct hidstack_host_info info;
    struct hidstack_interface_info interface;
    struct hidstack_host_event *events;
    uint64_t place;
    if (transfer(&kvm->keyboard, keyboard))
        kvm->lit = (uint8_t)((kvm->lit & ~kvm->asked) | (kvm->wanted & kvm->asked));
    if (hidstack_host_device(&kvm->keyboard, &info) != HIDSTACK_OK)
        return 0;
    if (info.room > kvm->room) {
        if (!(events = realloc(kvm->events, info.room * sizeof *events)))
            return 0;
        kvm->events = events;
        kvm->room = info.room;
    }
    for (place = 0; hidstack_host_interface(&kvm->keyboard, place, &interface) == HIDSTACK_OK; place++)
        if (interface.state == HIDSTACK_INTERFACE_LIVE)
            pass(kvm, poll_report(&kvm->keyboard, place, keyboard, kvm->events, kvm->room));
    pass_leds(kvm);
    return 1;
}

/* The keyboard is unplugged: what is held goes up, also in the machine. */
static void unplug(struct kvm *kvm)
{
    struct hidstack_host_result result;
    if (hidstack_host_reset(&kvm->keyboard, kvm->events, kvm->room, &result) == HIDSTACK_OK)
        pass(kvm, result.count);
    kvm->lit = 0;
}

/* ---- That was the switch. From here on: what stands in for a desk, and what happens there ---- */

/* A keyboard with Report IDs: modifiers, the keys up to F20, three LEDs after three bits of padding; two LEDs in a report of their own;
 * and two volume keys. */
static const uint8_t descriptor[] = {
    0x05, 0x01, 0x09, 0x06, 0xA1, 0x01, 0x85, 0x01, 0x05, 0x07, 0x19, 0xE0, 0x29, 0xE7, 0x15, 0x00, 0x25, 0x01, 0x75, 0x01, 0x95, 0x08,
    0x81, 0x02, 0x19, 0x04, 0x29, 0x6F, 0x95, 0x6C, 0x81, 0x02, 0x95, 0x04, 0x81, 0x01, 0x05, 0x08, 0x95, 0x03, 0x91, 0x01, 0x19, 0x01,
    0x29, 0x03, 0x91, 0x02, 0x95, 0x02, 0x91, 0x01, 0x85, 0x03, 0x19, 0x04, 0x29, 0x05, 0x91, 0x02, 0x95, 0x06, 0x91, 0x01, 0xC0, 0x05,
    0x0C, 0x09, 0x01, 0xA1, 0x01, 0x85, 0x02, 0x09, 0xE9, 0x09, 0xEA, 0x95, 0x02, 0x81, 0x02, 0x95, 0x06, 0x81, 0x01, 0xC0};

struct desk {
    struct hidstack_device keyboard;
    struct hidstack_host machines[2];
    uint8_t leds[2]; /* of its reports 1 and 3, as they were printed last */
};

static void print(int machine, const struct hidstack_event *event)
{
    uint8_t name[80];
    uint64_t length;
    if (hidstack_usage_name(event->page, event->id, name, sizeof name, &length) == HIDSTACK_OK)
        printf("  machine %d: %.*s %s\n", machine + 1, (int)length, (const char *)name, event->kind == HIDSTACK_DOWN ? "down" : "up");
}

/* Prints the LEDs of the keyboard where they changed. */
static void print_leds(struct desk *desk)
{
    uint8_t first[2], last[2];
    uint64_t length;
    if (hidstack_device_output(&desk->keyboard, HIDSTACK_OUTPUT, 1, first, sizeof first, &length) != HIDSTACK_OK ||
        hidstack_device_output(&desk->keyboard, HIDSTACK_OUTPUT, 3, last, sizeof last, &length) != HIDSTACK_OK ||
        (first[1] == desk->leds[0] && last[1] == desk->leds[1]))
        return;
    desk->leds[0] = first[1];
    desk->leds[1] = last[1];
    printf("  LEDs of the keyboard: %02X %02X\n", first[1], last[1]);
}

/* Some milliseconds pass: turns of the switch, and transfers of the machines, which print what comes to them. */
static void wait_for_all(struct kvm *kvm, struct desk *desk)
{
    struct hidstack_host_event events[20]; /* a report of a boot keyboard gives no more: 8 modifiers, 6 keys up and 6 down */
    uint64_t count, i;
    int machine, turns;
    for (turns = 0; turns < 5 && turn(kvm, &desk->keyboard); turns++)
        for (machine = 0; machine < 2; machine++) {
            transfer(&desk->machines[machine], &kvm->machines[machine]);
            count = poll_report(&desk->machines[machine], 0, &kvm->machines[machine], events, 20);
            for (i = 0; i < count; i++)
                print(machine, &events[i].event);
        }
    print_leds(desk);
}

/* A finger presses a key of the keyboard, or lets go of it. */
static void finger(struct kvm *kvm, struct desk *desk, const char *what, uint16_t page, uint16_t id, int down)
{
    uint64_t item, index;
    printf("%s\n", what);
    if (hidstack_device_find(&desk->keyboard, page, id, 0, &item, &index) == HIDSTACK_OK)
        (down ? hidstack_device_press : hidstack_device_release)(&desk->keyboard, item, index);
    wait_for_all(kvm, desk);
}

/* A machine lights LEDs of its keyboard: 1 Num Lock, 2 Caps Lock, 4 Scroll Lock, 16 Kana. */
static void light(struct kvm *kvm, struct desk *desk, const char *what, int machine, uint8_t leds)
{
    const struct hidstack_ask ask = {HIDSTACK_SET_REPORT, HIDSTACK_OUTPUT, 0, 0, 0};
    struct hidstack_host_result result;
    printf("%s\n", what);
    hidstack_host_ask(&desk->machines[machine], 0, &ask, &leds, 1, &result);
    wait_for_all(kvm, desk);
}

int main(void)
{
    static struct kvm kvm; /* all zero: its handles are closed */
    static struct desk desk;
    struct hidstack_config config = {0x1209, 0x0002, 10, 0, 0};
    struct hidstack_device_opened opened;
    int done = open_kvm(&kvm) && hidstack_device_open(&config, descriptor, sizeof descriptor, &desk.keyboard, &opened) == HIDSTACK_OK &&
               hidstack_host_open(&desk.machines[0]) == HIDSTACK_OK && hidstack_host_open(&desk.machines[1]) == HIDSTACK_OK;
    if (done) {
        wait_for_all(&kvm, &desk);
        finger(&kvm, &desk, "Shift goes down", KEYS, 0xE1, 1);
        finger(&kvm, &desk, "A goes down", KEYS, 0x04, 1);
        light(&kvm, &desk, "machine 1 lights Caps Lock", 0, 2);
        finger(&kvm, &desk, "Scroll Lock goes down", KEYS, SCROLL_LOCK, 1);
        finger(&kvm, &desk, "Scroll Lock goes up", KEYS, SCROLL_LOCK, 0);
        finger(&kvm, &desk, "A goes up", KEYS, 0x04, 0);
        finger(&kvm, &desk, "B goes down", KEYS, 0x05, 1);
        finger(&kvm, &desk, "Volume Up goes down", 0x0C, 0xE9, 1);
        light(&kvm, &desk, "machine 2 lights Num Lock", 1, 1);
        light(&kvm, &desk, "machine 1 lights Caps Lock and Scroll Lock", 0, 6);
        finger(&kvm, &desk, "Scroll Lock goes down", KEYS, SCROLL_LOCK, 1);
        finger(&kvm, &desk, "C goes down", KEYS, 0x06, 1);
        bad_cable = &desk.keyboard;
        light(&kvm, &desk, "machine 1 lights Num Lock and Kana, and a report to the keyboard is lost", 0, 17);
        printf("the keyboard is unplugged\n");
        hidstack_device_close(&desk.keyboard);
        unplug(&kvm);
        wait_for_all(&kvm, &desk);
    }
    close_kvm(&kvm);
    hidstack_device_close(&desk.keyboard);
    hidstack_host_close(&desk.machines[0]);
    hidstack_host_close(&desk.machines[1]);
    return !done;
}
