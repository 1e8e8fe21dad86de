/* Reads Input reports by Linux's HID core: the device is a report descriptor in hex.
 *
 * tools/python/linux_source.py compiles it with what it cuts out of a tree of Linux: hid_core.c and three headers. Nothing of
 * Linux's input layer is there: an event is counted where that layer would begin, so the real kernel takes more for each. */
#include "kernel.h"
#include "reads.h"
#include "uapi_hid.h"
#include "hid.h"
#include "hid_ids.h"

static bool hid_ignore_special_drivers;
int hid_hw_raw_request(struct hid_device *to, unsigned char id, u8 *bytes, size_t length, enum hid_report_type kind, enum hid_class_request request)
{
    return -1;
}
void hid_hw_request(struct hid_device *to, struct hid_report *report, enum hid_class_request request)
{
}
#include "hid_core.c"

/* newer trees ask for the room of the bytes too */
#ifdef ROOM_IS_GIVEN
#define ROOM MOST_BYTES,
#else
#define ROOM
#endif
static struct hid_device *device;
static long count;

/* A change of a value, a motion that isn't 0, and a key that goes down or up, of a usage that isn't 0: as Linux's input layer takes them. */
void hidinput_hid_event(struct hid_device *from, struct hid_field *field, struct hid_usage *usage, s32 value)
{
    bool is_variable = field->flags & HID_MAIN_ITEM_VARIABLE, is_relative = field->flags & HID_MAIN_ITEM_RELATIVE;
    if (field->flags & HID_MAIN_ITEM_CONSTANT || !(usage->hid & 0xFFFF))
        return;
    if (is_variable && (is_relative ? value == 0 : field->value[usage->usage_index] == value))
        return;
    count++;
}
void hidinput_report_event(struct hid_device *from, struct hid_report *report)
{
}

static int open_device(const u8 *descriptor, size_t length)
{
    static struct hid_ll_driver transport;
    static struct hid_driver driver;
    device = calloc(1, sizeof *device);
    for (int kind = 0; kind < HID_REPORT_TYPES; kind++)
        INIT_LIST_HEAD(&device->report_enum[kind].report_list);
    INIT_LIST_HEAD(&device->inputs);
    INIT_LIST_HEAD(&device->debug_list);
    device->ll_driver = &transport;
    device->driver = &driver;
    device->claimed = HID_CLAIMED_INPUT;
    device->dev_rdesc = (void *)descriptor;
    device->dev_rsize = length;
    if (hid_open_report(device))
        return 1;
    hid_process_ordering(device);
    return 0;
}

static long read_report(const u8 *report, size_t length)
{
    long before = count;
    return hid_report_raw_event(device, HID_INPUT_REPORT, (u8 *)report, ROOM length, 1) < 0 ? -1 : count - before;
}

int main(int words, char **word)
{
    static u8 descriptor[65536];
    if (words < 4 || open_device(descriptor, of_hex(word[3], descriptor))) {
        fputs("Linux refuses the descriptor\n", stderr);
        return 1;
    }
    return read_reports(words, word, read_report);
}
