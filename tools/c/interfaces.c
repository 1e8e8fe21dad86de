/* The KVM switch of examples/c/kvm.c with a device of two interfaces, a boot mouse and a boot keyboard: a key of the second goes to the
 * machine in use. What the device answers is written out from USB 2.0, chapter 9, and HID 1.11, 7.1. */
#include "hidstack.h"
#include <string.h>

static const uint8_t device_answer[18] = {18, 1, 0, 2, 0, 0, 0, 64, 0x34, 0x12, 0xCD, 0xAB, 0, 1, 0, 0, 0, 1};
static const uint8_t configuration_answer[59] = {9, 2, 59, 0, 2, 1, 0, 0xA0, 50,
    9, 4, 0, 0, 1, 3, 1, 2, 0, 9, 0x21, 0x11, 1, 0, 1, 0x22, 50, 0, 7, 5, 0x81, 3, 8, 0, 10,
    9, 4, 1, 0, 1, 3, 1, 1, 0, 9, 0x21, 0x11, 1, 0, 1, 0x22, 63, 0, 7, 5, 0x82, 3, 8, 0, 10};
static struct hidstack_device *of_two; /* the device of two interfaces */

static uint32_t answer_control(struct hidstack_device *device, const struct hidstack_setup *setup, const uint8_t *data, size_t length, uint8_t *answer,
                               size_t room, uint64_t *answered)
{
    const uint8_t *from = setup->value == 0x0100 ? device_answer : configuration_answer;
    *answered = setup->length;
    if (device != of_two)
        return hidstack_device_control(device, setup, data, length, answer, room, answered);
    if (setup->request_type < 0x80)
        *answered = 0;
    else if (setup->value == 0x2200)
        return hidstack_boot_descriptor(setup->index == 1 ? HIDSTACK_BOOT_KEYBOARD : HIDSTACK_BOOT_MOUSE, answer, room, answered);
    else
        memcpy(answer, from, *answered);
    return HIDSTACK_OK;
}

/* Each transfer has a key, A, or a motion of the mouse. */
static uint32_t answer_report(struct hidstack_device *device, uint8_t *report, size_t room, uint64_t *length)
{
    static const uint8_t key[8] = {0, 0, 4};
    if (device != of_two)
        return hidstack_device_report(device, report, room, length);
    *length = sizeof key;
    memcpy(report, key, sizeof key);
    return HIDSTACK_OK;
}

#define hidstack_device_control answer_control
#define hidstack_device_report answer_report
#define main main_of_kvm
#include "../../examples/c/kvm.c"
#undef main

/* Without a word it is kvm.c itself. */
int main(int words, char **word)
{
    static struct kvm kvm;
    static struct desk desk;
    int done;
    (void)word;
    if (words < 2)
        return main_of_kvm();
    done = open_kvm(&kvm) && hidstack_host_open(&desk.machines[0]) == HIDSTACK_OK && hidstack_host_open(&desk.machines[1]) == HIDSTACK_OK;
    of_two = &desk.keyboard;
    if (done)
        wait_for_all(&kvm, &desk);
    close_kvm(&kvm);
    hidstack_host_close(&desk.machines[0]);
    hidstack_host_close(&desk.machines[1]);
    return !done;
}
