/* hidstack: HID report descriptors and reports, virtual devices, and hosts of real ones, by code that is proved (HID 1.11).
 *
 * What each call promises is a contract that was proved of the library's code: docs/C.md names the contract of each call. No
 * proof covers the C program that calls, so it must keep these rules:
 *
 *   - Pointers are to what their types say, and live for the call. The pointer of a descriptor, a report or a script is to as
 *     many bytes as its length says, and that of a table or a text to as many places as its room says: no call can check
 *     this. A pointer may be null only with a length or room of 0, and at the calls that close a handle. Nothing that a call
 *     writes overlaps another of its arguments.
 *   - A `struct hidstack` is all bytes zero before its first call (HIDSTACK_INIT), or was left by a call. While it is
 *     open, don't copy it, and end it by hidstack_close alone: otherwise its memory leaks.
 *   - No two calls work on one `struct hidstack` at once, not even calls that only read it. It may go from one thread to
 *     another, as any variable may. Two handles never share anything, and the calls without a handle share nothing: they
 *     may run in any threads at once.
 *   - No call comes from a signal handler. `malloc`, `realloc` and `free` are the C library's own.
 *
 * Apart from these rules bytes, lengths, rooms, items, indices, options and the contents of an element may have any values:
 * errors are reported by the status. Every call returns.
 *
 * Places: an `item` is the place of a listed item, the Input, Output and Feature items of a descriptor that have bits,
 * from 0 in its order. An `index` is the place of an element in its item, and of a control the place of its element, or
 * of an array the place of its key in the item's usage list. Bytes and numbers are those of x86-64. Each struct but
 * `struct hidstack` has only fields of fixed width, each at a multiple of its own width.
 *
 * What is said of a `struct hidstack` is so of a `struct hidstack_device` and a `struct hidstack_host` too, with the calls of
 * their own.
 *
 * Memory: an opening takes memory, of a host hidstack_host_done too; the closing gives it back. No other call on a handle
 * takes any, nor do hidstack_number, hidstack_put, hidstack_boot_descriptor and hidstack_cause_words. The rest give back what
 * they took. Of stack a call takes up to 10 kB, hidstack_host_done 11 kB, hidstack_device_open 23 kB and hidstack_run 37 kB, with
 * what a thread takes itself (measured: docs/C.md).
 *
 * It compiles as C99 and as C++17. Link with -lhidstack. docs/C.md, docs/FORMATS.md and docs/SCRIPT.md are installed below PREFIX
 * as share/doc/rulohevian, with the Debian package as /usr/share/doc/libhidstack-dev. */
#ifndef HIDSTACK_H
#define HIDSTACK_H

/* The version of this header. A library with the same MAJOR has all that it declares, from this MINOR on. */
#define HIDSTACK_VERSION_MAJOR 1
#define HIDSTACK_VERSION_MINOR 0
#define HIDSTACK_VERSION_PATCH 0
#define HIDSTACK_VERSION "1.0.0"

#ifndef __x86_64__
#error "libhidstack is for x86-64 alone"
#endif

#include <stddef.h>
#include <stdint.h>

#if SIZE_MAX < UINT64_MAX
#error "libhidstack is for programs with pointers of 64 bits"
#endif

#ifdef __cplusplus
extern "C" {
#endif

/* What calls return. A call that doesn't return HIDSTACK_OK writes only what its comment says. */
enum hidstack_status {
    HIDSTACK_OK = 0,            /* done */
    HIDSTACK_REFUSED = 1,       /* the descriptor, device or call is refused, or the script ended at a line: the cause is
                                   returned */
    HIDSTACK_BUSY = 2,          /* the handle is open already */
    HIDSTACK_CLOSED = 3,        /* the handle is closed */
    HIDSTACK_NO_ROOM = 4,       /* the table or text is too small: the room that it needs is returned */
    HIDSTACK_SHORT = 5,         /* the report has fewer bytes than it should, or no such bits */
    HIDSTACK_UNKNOWN = 6,       /* no Input report of the device, or another report than the element's */
    HIDSTACK_NONE = 7,          /* nothing stands at that place, or it has no value; no report is due, no transfer is to be made,
                                   or nothing is asked for */
    HIDSTACK_MEMORY = 8,        /* out of memory */
    HIDSTACK_RANGE = 9,         /* the element's bits, or the control's range, don't hold the number */
    HIDSTACK_STALLED = 10,      /* the device refuses the transfer: STALL */
    HIDSTACK_FAILED = 11,       /* the transfer failed: what came of one, for a host; no call returns it */
    HIDSTACK_WRONG_KIND = 12,   /* a control of this kind can't change so */
    HIDSTACK_NO_NULL = 13,      /* the control has no null */
    HIDSTACK_NO_DIRECTION = 14, /* the control can't send a motion in this direction */
    HIDSTACK_FULL = 15          /* all elements of the array are taken; or the motion is too long */
};

/* The kind of a report. */
enum hidstack_report_kind {
    HIDSTACK_INPUT = 0,  /* from the device to the host */
    HIDSTACK_OUTPUT = 1, /* from the host to the device */
    HIDSTACK_FEATURE = 2 /* settings, either way */
};

/* What an event says of its control. */
enum hidstack_event_kind {
    HIDSTACK_UP = 0,     /* a switch or a key that was held is up; value 0 */
    HIDSTACK_DOWN = 1,   /* a switch or a key that was up is held; value 1 */
    HIDSTACK_VALUE = 2,  /* an absolute control has this value now */
    HIDSTACK_NULL = 3,   /* an absolute control has no value now; value 0 */
    HIDSTACK_MOTION = 4, /* a relative control moved by this value */
    HIDSTACK_DROPPED = 5 /* a motion that a reset, a halt or a clear dropped; no call reports it today */
};

/* Bits of the flags of an element (HID 1.11, 6.2.2.5). */
enum hidstack_flag {
    HIDSTACK_CONSTANT = 0x001,
    HIDSTACK_VARIABLE = 0x002,
    HIDSTACK_RELATIVE = 0x004,
    HIDSTACK_WRAP = 0x008,
    HIDSTACK_NONLINEAR = 0x010,
    HIDSTACK_NO_PREFERRED = 0x020,
    HIDSTACK_NULL_STATE = 0x040,
    HIDSTACK_VOLATILE = 0x080,
    HIDSTACK_BUFFERED_BYTES = 0x100
};

/* What hidstack_boot_descriptor describes: a bInterfaceProtocol (HID 1.11, 4.3). */
enum hidstack_boot {
    HIDSTACK_BOOT_KEYBOARD = 1,
    HIDSTACK_BOOT_MOUSE = 2
};

/* Options of hidstack_run, to be joined by |. */
enum hidstack_option {
    HIDSTACK_LAYOUTS = 1, /* the layout of each device that is attached */
    HIDSTACK_POLLS = 2    /* a line for each poll, and for each try of a transfer */
};

/* A handle of a device: its layout, and what was read from its reports; nothing while the handle is closed. */
struct hidstack {
    void *session; /* the library's own; null where the handle is closed */
};

#define HIDSTACK_INIT {NULL}

/* The result of hidstack_open. */
struct hidstack_opened {
    uint64_t at;       /* where the refused item begins, in bytes; else 0 */
    uint64_t room;     /* how many events a report gives at most: the room that hidstack_feed asks for */
    uint64_t reports;  /* how many reports the device has, of all kinds */
    uint64_t items;    /* how many listed items it has */
    uint32_t cause;    /* 1 for L1 to 17 for L17 of docs/FORMATS.md, where the descriptor is refused; else 0 */
    uint32_t numbered; /* 1 where the bytes of reports begin with their ID, else 0 */
};

/* What happened to one control. */
struct hidstack_event {
    int64_t value;  /* in the units of the control */
    uint64_t item;  /* the control: its item .. */
    uint64_t index; /* .. and its place there */
    uint16_t page;  /* the page of its usage .. */
    uint16_t id;    /* .. and the ID on that page */
    uint32_t kind;  /* enum hidstack_event_kind */
};

/* A data element of a report. */
struct hidstack_element_info {
    int64_t min;          /* Logical Minimum */
    int64_t max;          /* Logical Maximum */
    uint64_t item;        /* the place of its item .. */
    uint64_t index;       /* .. and its place there */
    uint64_t collections; /* how many collections enclose it */
    uint32_t bit;         /* where it begins in the bytes of its report, in bits; a Report ID is counted */
    uint32_t width;       /* in bits, 1 to 32 */
    uint32_t usages;      /* how many usages its item lists */
    uint16_t page;        /* the page of its usage .. */
    uint16_t id;          /* .. and the ID on that page; both 0 of an array, whose numbers name usages of the list */
    uint16_t flags;       /* enum hidstack_flag, of its item */
    uint8_t kind;         /* enum hidstack_report_kind, of its report */
    uint8_t report;       /* the Report ID, the first byte of the report; 0 where reports have none */
    uint8_t is_signed;    /* 1 where it is in two's complement, else 0 */
    uint8_t is_array;     /* 1 where its number names a usage, else 0 */
    uint16_t spare;       /* 0 */
};

/* A report that has at least one bit. */
struct hidstack_report_info {
    uint64_t bytes; /* with a Report ID */
    uint32_t bits;  /* of its items, without a Report ID */
    uint8_t kind;   /* enum hidstack_report_kind */
    uint8_t id;     /* the Report ID; 0 where reports have none */
    uint16_t spare; /* 0 */
};

/* A usage: a page of the usage tables, and an ID on that page. */
struct hidstack_usage_info {
    uint16_t page;
    uint16_t id;
};

/* A collection that encloses an item. */
struct hidstack_collection_info {
    uint8_t kind;      /* 0 Physical, 1 Application, 2 Logical, 3 Report, 4 Named Array, 5 Usage Switch, 6 Usage Modifier;
                          other numbers as they stand */
    uint8_t has_usage; /* 1 where it has a usage, else 0 */
    uint16_t page;     /* the page of its usage, else 0 .. */
    uint16_t id;       /* .. and the ID, else 0 */
};

/* The result of hidstack_table. */
struct hidstack_tabled {
    uint64_t at;       /* where the refused item begins, in bytes; else 0 */
    uint64_t elements; /* how many elements the descriptor has; 0 where it is refused */
    uint32_t cause;    /* 1 for L1 to 17 for L17, where the descriptor is refused; else 0 */
    uint32_t spare;    /* 0 */
};

/* The setup data of a control transfer, by their fields (USB 2.0, table 9-2). */
struct hidstack_setup {
    uint8_t request_type; /* bmRequestType: 0x80 and over are reads, whose data go to the host */
    uint8_t request;      /* bRequest */
    uint16_t value;       /* wValue */
    uint16_t index;       /* wIndex */
    uint16_t length;      /* wLength: the most bytes that a read answers, and the bytes that a write sends */
};

/* A virtual device; nothing while the handle is closed. */
struct hidstack_device {
    void *gadget; /* the library's own; null where the handle is closed */
};

#define HIDSTACK_DEVICE_INIT {NULL}

/* What the descriptors of a virtual device say beside its report descriptor. */
struct hidstack_config {
    uint16_t vendor;  /* idVendor */
    uint16_t product; /* idProduct */
    uint8_t interval; /* bInterval: how often it is polled, in frames of 1 ms, from 1 */
    uint8_t boot;     /* enum hidstack_boot of a device with the boot protocol, whose report descriptor is then that of
                         hidstack_boot_descriptor; else 0 */
    uint16_t spare;   /* 0; any other number is refused */
};

/* The result of hidstack_device_open. */
struct hidstack_device_opened {
    uint64_t at;    /* where the refused item begins, in bytes; else 0 */
    uint32_t cause; /* 1 for V1 to 21 for V21 of docs/FORMATS.md, where there is no device; else 0 */
    uint32_t spare; /* 0 */
};

/* The result of hidstack_run. */
struct hidstack_ran {
    uint64_t line;   /* the line that was refused, from 1; 0 where none was */
    uint64_t length; /* of the text that the script prints, in bytes */
    uint64_t fault;  /* the length of the line that names the fault, with its end, in bytes */
};

/* A handle of the host of a real device: how far it has come, and what it read; nothing while the handle is closed. */
struct hidstack_host {
    void *driver; /* the library's own; null where the handle is closed */
};

#define HIDSTACK_HOST_INIT {NULL}

/* How far a host has come with its device. */
enum hidstack_host_state {
    HIDSTACK_HOST_WAITING = 0, /* it waits for the outcome of a request, which hidstack_host_todo has */
    HIDSTACK_HOST_READY = 1,   /* it reads reports, and waits for nothing */
    HIDSTACK_HOST_REFUSED = 2  /* its device can't be read: nothing is to be done until a reset */
};

/* How far a host has come with an interface. */
enum hidstack_interface_state {
    HIDSTACK_INTERFACE_WAITING = 0, /* its report descriptor wasn't read yet */
    HIDSTACK_INTERFACE_LIVE = 1,    /* its reports are read: poll it */
    HIDSTACK_INTERFACE_HALTED = 2,  /* its endpoint is halted until a CLEAR_FEATURE is done, which hidstack_host_todo has */
    HIDSTACK_INTERFACE_STOPPED = 3, /* its endpoint is halted, and the device didn't clear it: none is read until a reset */
    HIDSTACK_INTERFACE_BOOT = 4,    /* it sends boot reports, or may: none is read until it takes the report protocol */
    HIDSTACK_INTERFACE_REFUSED = 5  /* it can't be read: `letter` and `cause` say why */
};

/* What a request that was done led to. */
enum hidstack_move {
    HIDSTACK_MOVE_ONWARD = 0,  /* the next request */
    HIDSTACK_MOVE_LIVE = 1,    /* the reports of an interface are read from now on */
    HIDSTACK_MOVE_REFUSED = 2, /* an interface can't be read; the others stay */
    HIDSTACK_MOVE_CLEARED = 3, /* the halt of an interface's endpoint is cleared: its reports are read again */
    HIDSTACK_MOVE_STOPPED = 4, /* the halt of an interface's endpoint isn't cleared */
    HIDSTACK_MOVE_ANSWERED = 5 /* what was asked for is done */
};

/* The bRequest of what is asked of an interface (HID 1.11, 7.2). */
enum hidstack_request {
    HIDSTACK_GET_REPORT = 0x01, /* a report as it is now */
    HIDSTACK_SET_REPORT = 0x09, /* to take a report, as LEDs */
    HIDSTACK_SET_IDLE = 0x0A    /* to send a report again when a time is over without a change */
};

/* A protocol of an interface (HID 1.11, 7.2.5). */
enum hidstack_protocol {
    HIDSTACK_PROTOCOL_BOOT = 0,
    HIDSTACK_PROTOCOL_REPORT = 1
};

/* What is known of a host's device. */
struct hidstack_host_info {
    uint64_t interfaces; /* how many HID interfaces its configuration has, once it is read */
    uint64_t room;       /* how many events a transfer or a reset gives at most */
    uint32_t state;      /* enum hidstack_host_state */
    uint16_t vendor;     /* idVendor, once the device descriptor is read; else 0 */
    uint16_t product;    /* idProduct, once the device descriptor is read; else 0 */
};

/* What is known of an interface. Its endpoint is of interrupt transfers to the host: its address is 0x80 and the number
 * together. */
struct hidstack_interface_info {
    uint64_t at;          /* where the refused item of its report descriptor begins, in bytes; else 0 */
    uint64_t room;        /* how many events one of its reports gives at most */
    uint64_t reports;     /* how many reports it has, of all kinds, once its report descriptor is read */
    uint64_t items;       /* how many listed items it has, then */
    uint32_t cause;       /* where it is refused, the number of the code: 4 of B4; else 0 */
    uint16_t packet_size; /* in bytes, what an interrupt transfer asks for: wMaxPacketSize; 0 without an endpoint */
    uint8_t number;       /* bInterfaceNumber: wIndex of its requests */
    uint8_t endpoint;     /* the number of its endpoint, 1 to 15; 0 without one */
    uint8_t interval;     /* bInterval of the endpoint, at least 1; 0 without one */
    uint8_t subclass;     /* bInterfaceSubClass: 1 where it has the boot protocol */
    uint8_t protocol;     /* bInterfaceProtocol: enum hidstack_boot where the subclass is 1 */
    uint8_t numbered;     /* 1 where the bytes of its reports begin with their ID, else 0 */
    uint8_t state;        /* enum hidstack_interface_state */
    uint8_t letter;       /* where it is refused, the letter of the code in ASCII: B, L or H; else 0 */
    uint16_t spare;       /* 0 */
};

/* What came of a control transfer. */
struct hidstack_moved {
    uint64_t interface; /* of HIDSTACK_MOVE_LIVE, HIDSTACK_MOVE_REFUSED, HIDSTACK_MOVE_CLEARED and HIDSTACK_MOVE_STOPPED the
                           place of the interface; else 0 */
    uint32_t step;      /* enum hidstack_move; 0 where it is refused */
    uint32_t cause;     /* where it is refused, 1 for H1 to 16 for H16 of docs/FORMATS.md; else 0 */
    uint32_t detail;    /* of H10 and H11 the number of the inner code: 2 of `H10 B2`; else 0 */
    uint32_t spare;     /* 0 */
};

/* What is asked of an interface. */
struct hidstack_ask {
    uint32_t request; /* enum hidstack_request */
    uint8_t kind;     /* of a report, enum hidstack_report_kind */
    uint8_t id;       /* the Report ID, 0 where reports have none; of SET_IDLE, 0 for all reports */
    uint8_t time;     /* of SET_IDLE, in units of 4 ms; 0 is none: reports come on change alone */
    uint8_t spare;    /* not read */
};

/* What happened to one control of an interface. */
struct hidstack_host_event {
    struct hidstack_event event; /* as hidstack_feed gives it */
    uint64_t interface;          /* the place of the interface */
};

/* The result of a call of a host. */
struct hidstack_host_result {
    uint64_t count;  /* how many events it gave; with NO_ROOM, the room that it needs */
    uint32_t cause;  /* where it is refused, 1 for H1 to 16 for H16 of docs/FORMATS.md; else 0 */
    uint32_t detail; /* of H12 the number of the inner code: 8 of `H12 U8`; else 0 */
};

/* ---- A device, a report at a time ---- */

/* Reads a report descriptor of `length` bytes into a closed handle. It takes memory, which hidstack_close gives back.
 *   OK       the handle is open, and `opened` has its counts. Nothing is held. An absolute control has no value where
 *            it has a null state; else its value is 0 where 0 is in range, and else the least one
 *   REFUSED  the handle is closed still; `opened` has cause and place. Cause 17 at 0: out of memory. A descriptor of no byte is
 *            refused too, with cause 1 at 0
 *   BUSY     the handle was open; it stays as it was, and so does `opened` */
uint32_t hidstack_open(const uint8_t *descriptor, size_t length, struct hidstack *handle, struct hidstack_opened *opened);

/* Reads the bytes of an Input report, its ID first where reports have IDs, and writes its events into the first entries
 * of `events`, which has `room` places. Bytes after the report are ignored. It takes no memory.
 *   OK       `count` is how many events there are; the places after them are unchanged. They come by rising item,
 *            and in an item by rising index, but for an array: each key that went up, and then each that went down
 *   NO_ROOM  `room` is less than the `room` of hidstack_open, which `count` has; whatever the report is
 *   SHORT    the report has fewer bytes than it should; `count` is 0
 *   UNKNOWN  the bytes are of no Input report of the device; `count` is 0
 *   CLOSED   `count` is 0
 * But for OK the view and the table stay as they were. */
uint32_t hidstack_feed(struct hidstack *handle, const uint8_t *report, size_t length, struct hidstack_event *events, size_t room, uint64_t *count);

/* Lets go of all that is held, as of a device that was unplugged or reset: writes the events that lead back to what
 * hidstack_open left into the first entries of `events`, which has `room` places: keys and switches go up, and values become
 * the first ones. It takes no memory. Who passes events on to another machine passes on those that go up: a VALUE of a tablet's X
 * would move its pointer to the first place.
 *   OK       `count` is how many events there are; the places after them are unchanged. They come by rising item, and in an
 *            item by rising index. Nothing is held, and the handle reads on
 *   NO_ROOM  `room` is less than the `room` of hidstack_open, which `count` has
 *   CLOSED   `count` is 0
 * But for OK the view and the table stay as they were. */
uint32_t hidstack_release(struct hidstack *handle, struct hidstack_event *events, size_t room, uint64_t *count);

/* Closes a handle, and gives back its memory. A closed one stays as it is, and a null pointer is to none. */
void hidstack_close(struct hidstack *handle);

/* ---- Reading an open handle. No call here changes it, and but for OK it writes only what is said of it. ---- */

/* The report at a place, from 0, Input before Output before Feature and then by ID; NONE past the last. */
uint32_t hidstack_report(struct hidstack *handle, uint64_t place, struct hidstack_report_info *report);

/* A data element of a listed item; NONE of padding, past the last element and past the last item. */
uint32_t hidstack_element(struct hidstack *handle, uint64_t item, uint64_t index, struct hidstack_element_info *element);

/* A usage of a listed item's usage list, its ranges written out by rising ID; NONE past the last. */
uint32_t hidstack_usage(struct hidstack *handle, uint64_t item, uint64_t index, struct hidstack_usage_info *usage);

/* A collection that encloses a listed item, from 0 for the outermost; NONE past the innermost. */
uint32_t hidstack_collection(struct hidstack *handle, uint64_t item, uint64_t level, struct hidstack_collection_info *collection);

/* Whether a switch or a key is held: 1, else 0; 0 of another control too, and where there is none. */
uint32_t hidstack_held(struct hidstack *handle, uint64_t item, uint64_t index, uint32_t *held);

/* The value of an absolute control that is no switch; NONE where it is null, of another control, and where there is
 * none. */
uint32_t hidstack_value(struct hidstack *handle, uint64_t item, uint64_t index, int64_t *value);

/* A report of zeros of this kind (enum hidstack_report_kind) and Report ID, 0 where reports have none, over the first bytes of
 * `out`, which has `room`: its ID first where reports have IDs. hidstack_put makes it one with other numbers. Zeros aren't
 * always at rest: 0 of a hat of 0 to 7 is north, and 0 of an array from 0 is its first usage.
 *   OK       `length` is how many bytes it has; those after it are unchanged
 *   NO_ROOM  `length` is the room that it needs
 *   NONE     there is no such report; `length` is 0, as with CLOSED
 * But for OK `out` stays as it was. */
uint32_t hidstack_blank(struct hidstack *handle, uint32_t kind, uint8_t id, uint8_t *out, size_t room, uint64_t *length);

/* ---- A virtual device, a transfer at a time: for a controller that has packets, toggles and retries of its own ---- */

/* Makes a virtual device of a configuration and a report descriptor of `length` bytes in a closed handle. It isn't configured
 * yet, nothing is pressed and nothing has moved. It takes memory, which hidstack_device_close gives back; no other call of a
 * device does.
 *   OK       the handle is open, and `opened` is all 0
 *   REFUSED  the handle is closed still; `opened` has cause and place. 1 to 17: the report descriptor has that cause of
 *            hidstack_cause_words. 18: an array can't send that no key is pressed. 19: a relative control can't send 0. 20:
 *            the interval is 0, or `boot` is over 2, or `spare` isn't 0, or the report descriptor isn't that of
 *            hidstack_boot_descriptor for `boot`. 21: out of memory, as 17 is
 *   BUSY     the handle was open; it stays as it was, and so does `opened` */
uint32_t hidstack_device_open(const struct hidstack_config *config, const uint8_t *descriptor, size_t length, struct hidstack_device *device, struct hidstack_device_opened *opened);

/* Closes a handle, and gives back its memory. A closed one stays as it is, and a null pointer is to none. */
void hidstack_device_close(struct hidstack_device *device);

/* The place of a control by its usage: of those that have it, by item and then by index, the one of this number, from 0.
 *   OK       `item` and `index` are its place
 *   NONE     no more controls have the usage; nothing is written, as with CLOSED */
uint32_t hidstack_device_find(struct hidstack_device *device, uint16_t page, uint16_t id, uint64_t number, uint64_t *item, uint64_t *index);

/* Changes of a control: a switch or a key goes down, or up; an absolute control that is no switch has a value, or null; a
 * relative one moves, beside what it moved since its last report. A report says how its controls are as it is taken: a key that
 * goes down and up between two reports is in none. So take the report that is due before you let go of a key that was just pressed.
 *   OK            it is done
 *   NONE          no control stands there: no Input item, or no element or key
 *   WRONG_KIND    a control of this kind can't change so
 *   RANGE         a set: `value` is out of the control's range
 *   NO_NULL       a null: the control has none
 *   NO_DIRECTION  a move: no report can say a motion of this sign
 *   FULL          a press: all elements of the array are taken, and it has no code for more; a move: what isn't reported yet
 *                 would no longer fit an int32_t
 * But for OK the device stays as it was. */
uint32_t hidstack_device_press(struct hidstack_device *device, uint64_t item, uint64_t index);
uint32_t hidstack_device_release(struct hidstack_device *device, uint64_t item, uint64_t index);
uint32_t hidstack_device_set(struct hidstack_device *device, uint64_t item, uint64_t index, int64_t value);
uint32_t hidstack_device_null(struct hidstack_device *device, uint64_t item, uint64_t index);
uint32_t hidstack_device_move(struct hidstack_device *device, uint64_t item, uint64_t index, int32_t by);

/* Lets go of every switch and key that is pressed, as hidstack_device_release lets go of one: a KVM switch does so before it goes to
 * another machine. Values stay, and so does motion that isn't reported yet. */
uint32_t hidstack_device_release_all(struct hidstack_device *device);

/* A control transfer of endpoint 0, whole: SETUP, data and status. Of a write the first wLength of the `length` bytes at
 * `data` are sent, and take effect once; of a read up to wLength bytes are written over the first of `answer`, which has
 * `room`. `data` of a read and `answer` of a write may be null, with 0.
 *   OK       `answered` is how many bytes were answered; of a write 0
 *   STALLED  the device refuses the request: answer it with STALL. The device forgets the request before it, and stays as it was
 *            else. `answer` stays, and `answered` is 0
 *   NO_ROOM  a read: `room` is less than wLength, which `answered` has. 65,535 are always enough
 *   SHORT    a write: `length` is less than wLength
 * With NO_ROOM, SHORT and CLOSED nothing reaches the device, and `answer` stays; `answered` is 0 but for NO_ROOM. */
uint32_t hidstack_device_control(struct hidstack_device *device, const struct hidstack_setup *setup, const uint8_t *data, size_t length, uint8_t *answer, size_t room, uint64_t *answered);

/* An interrupt transfer from endpoint 1 of the device, whole: what is left of the report that is due is written over the
 * first bytes of `report`, which has `room`; where it doesn't fit, as many pieces of 64 bytes of it as do, and the next call
 * goes on. A report has up to 256 bytes.
 *   OK       `length` is how many bytes came; those after them are unchanged
 *   NONE     nothing is due, or the device isn't configured: answer NAK, and ask again
 *   STALLED  the endpoint is halted: answer STALL, until the host clears the halt
 *   NO_ROOM  the next piece has more than `room` bytes. Nothing of the report is taken, which is fixed as it is now. `length`
 *            is 64, which is enough for any piece
 * With NONE, STALLED and CLOSED `length` is 0; but for OK `report` stays. */
uint32_t hidstack_device_report(struct hidstack_device *device, uint8_t *report, size_t room, uint64_t *length);

/* The Output or Feature report of this kind (enum hidstack_report_kind) and Report ID, 0 where reports have none, as the host
 * set it last by SET_REPORT, over the first bytes of `out`, which has `room`: its ID first where reports have IDs; at first
 * zeros after it. A keyboard's LEDs are its Output report 0.
 *   OK       `length` is how many bytes it has; those after it are unchanged
 *   NO_ROOM  `length` is the room that it needs
 *   NONE     there is no such report, as no Input report is one; `length` is 0, as with CLOSED
 * But for OK `out` stays as it was. */
uint32_t hidstack_device_output(struct hidstack_device *device, uint32_t kind, uint8_t id, uint8_t *out, size_t room, uint64_t *length);

/* A frame of 1 ms passes: it counts for idle times (HID 1.11, 7.2.4), by which a report is due again and again. A device whose
 * host sets none needs no frames. */
uint32_t hidstack_device_frame(struct hidstack_device *device);

/* Halts endpoint 1: hidstack_device_report gives STALLED until the host clears the halt, configures the device or resets it. The
 * report that was underway is due again. A device that isn't configured stays as it was. */
uint32_t hidstack_device_halt(struct hidstack_device *device);

/* The bus is reset, or the device unplugged: it isn't configured, Output and Feature reports are zeros, and no idle time is set.
 * What is pressed, set or moved stays. */
uint32_t hidstack_device_reset(struct hidstack_device *device);

/* Whether a host has configured the device, so that it sends reports: 1, else 0; nothing is written with CLOSED. */
uint32_t hidstack_device_configured(struct hidstack_device *device, uint32_t *configured);

/* ---- The host of a real device, by whole transfers ----
 *
 * The program makes the transfers, by any controller or library. hidstack_host_todo has the control transfer that is to be
 * made, and hidstack_host_done takes what came of it, until nothing is to be done; then the interfaces that are live are
 * polled, and hidstack_host_report takes what came. At most one control transfer is made at a time; interrupt transfers go
 * beside it, one at a time for each interface, of `packet_size` bytes each. After a reset don't pass on outcomes of transfers
 * begun before it. An `interface` is the place of one in the configuration, from 0; its number is what requests name.
 *
 * An `outcome` is a status: OK where the transfer is done, with the bytes that came to the host, STALLED where the device
 * answered STALL, any other where it failed. What hidstack_device_control and hidstack_device_report return is one, but for
 * NONE, of which nothing came. Give bytes with OK alone, and else a length of 0: with NO_ROOM the length that those calls
 * return is the room that they need, and the buffer has less. */

/* A host that knows nothing of its device, in a closed handle. It takes memory, which hidstack_host_close gives back.
 *   BUSY    the handle was open, and stays as it was
 *   MEMORY  out of memory; the handle is closed still */
uint32_t hidstack_host_open(struct hidstack_host *host);

/* The control transfer that is to be made: its `setup`, and what it sends over the first bytes of `data`, which has `room`.
 * It stays the same until hidstack_host_done or hidstack_host_reset. No data are longer than a report, 16,384 bytes.
 *   OK       `length` is how many bytes are sent, 0 of a read; those after them are unchanged
 *   NONE     no control transfer is to be made; `length` is 0, as with CLOSED
 *   NO_ROOM  `length` is the room that it needs
 * But for OK `setup` and `data` stay as they were. */
uint32_t hidstack_host_todo(struct hidstack_host *host, struct hidstack_setup *setup, uint8_t *data, size_t room, uint64_t *length);

/* What came of the control transfer that was to be made; `bytes` of a write may be null, with 0. It takes memory where it reads
 * the configuration and each report descriptor, which is read again after a change back to the report protocol. The bytes of
 * a report that was asked for are the caller's to read: by hidstack_host_element and hidstack_number.
 *   OK       `moved` has what it led to, and the interface
 *   REFUSED  `moved` has the cause. H1: no transfer was to be made, and nothing changed. H8 or H9 of what was asked for or of a
 *            protocol: the device refused it, or the transfer failed, and the host goes on. Else the device can't be read:
 *            HIDSTACK_HOST_REFUSED
 *   MEMORY   out of memory: `moved` has the cause, H2, and the host stays as it was. Make the transfer again, or call again with the
 *            same bytes
 *   CLOSED   `moved` stays as it was */
uint32_t hidstack_host_done(struct hidstack_host *host, uint32_t outcome, const uint8_t *bytes, size_t length, struct hidstack_moved *moved);

/* What came of an interrupt transfer of a live interface: its bytes are joined to what came of a report before, and a report
 * that ends with them is read. Its events are written over the first entries of `events`, which has `room` places. A STALL
 * halts the interface, and hidstack_host_todo has the CLEAR_FEATURE then. A transfer that failed changes nothing. It takes no
 * memory.
 *   OK       `result` has how many events there are: 0 where the report goes on, and of any outcome but OK; the places after them are
 *            unchanged
 *   NO_ROOM  `room` is less than that of hidstack_host_device, which `result` has; nothing changes, and nothing is read
 *   REFUSED  `result` has the cause. H3: no interface stands there. H4, H14: it isn't live. H12, H13: the report is thrown
 *            away, and what is held stays
 *   CLOSED   `result` is all 0 */
uint32_t hidstack_host_report(struct hidstack_host *host, uint64_t interface, uint32_t outcome, const uint8_t *bytes, size_t length, struct hidstack_host_event *events, size_t room, struct hidstack_host_result *result);

/* Asks something of an interface: hidstack_host_todo has its request from then on. Of SET_REPORT the `length` bytes at `data`
 * are sent, its ID first where it has one, as hidstack_host_blank and hidstack_put make them; they are copied, and no memory
 * is taken.
 *   OK       what it came to is what hidstack_host_done says
 *   NONE     `ask` has another request or another kind of report than the enums; `result` is all 0, as with CLOSED
 *   REFUSED  `result` has the cause. H3: no interface stands there. H4: its report descriptor wasn't read, or is refused, or it
 *            may be in the boot protocol. H5: another request is to be made first. H6: it has no such report. H7, H16: the data
 *            are longer than the report, or don't begin with its ID
 * But for OK the host stays as it was. */
uint32_t hidstack_host_ask(struct hidstack_host *host, uint64_t interface, const struct hidstack_ask *ask, const uint8_t *data, size_t length, struct hidstack_host_result *result);

/* Asks an interface for the boot protocol (HIDSTACK_PROTOCOL_BOOT), or for the report protocol (any other number):
 * hidstack_host_todo has the request from then on. What is held of it is let go, with the events in the first entries of
 * `events`, which has `room` places. Its reports aren't read until it is in the report protocol and its report descriptor is
 * read again. It takes no memory. A struct hidstack_device answers the request with STALL once it is configured.
 *   OK       `result` has how many events there are; the places after them are unchanged
 *   NO_ROOM  `room` is less than that of hidstack_host_device, which `result` has
 *   REFUSED  `result` has the cause. H3: no interface stands there. H4: its report descriptor wasn't read, or is refused, or its
 *            halt couldn't be cleared. H5: another request is to be made first. H15: it has no boot protocol
 *   CLOSED   `result` is all 0
 * But for OK the host and the table stay as they were. */
uint32_t hidstack_host_protocol(struct hidstack_host *host, uint64_t interface, uint32_t protocol, struct hidstack_host_event *events, size_t room, struct hidstack_host_result *result);

/* The device was unplugged, or its bus was reset: what is held is let go, with the events in the first entries of `events`,
 * which has `room` places, interface by interface, as hidstack_release gives them. The host knows nothing of its device then,
 * as after hidstack_host_open. It takes no memory.
 *   OK       `result` has how many events there are; the places after them are unchanged
 *   NO_ROOM  `room` is less than that of hidstack_host_device, which `result` has; nothing changes
 *   CLOSED   `result` is all 0 */
uint32_t hidstack_host_reset(struct hidstack_host *host, struct hidstack_host_event *events, size_t room, struct hidstack_host_result *result);

/* Closes a handle, and gives back its memory. A closed one stays as it is, and a null pointer is to none. What is held is let
 * go by hidstack_host_reset before. */
void hidstack_host_close(struct hidstack_host *host);

/* What a host knows. No call here changes the host or takes memory, and but for OK it writes only what is said of it. */

/* What is known of the device. */
uint32_t hidstack_host_device(struct hidstack_host *host, struct hidstack_host_info *device);

/* What is known of the interface at a place; NONE past the last. */
uint32_t hidstack_host_interface(struct hidstack_host *host, uint64_t interface, struct hidstack_interface_info *info);

/* A data element of a listed item of an interface, as hidstack_element gives it; NONE of padding, past the last element, the
 * last item and the last interface, and where no report descriptor is read. */
uint32_t hidstack_host_element(struct hidstack_host *host, uint64_t interface, uint64_t item, uint64_t index, struct hidstack_element_info *element);

/* A data element of an interface by the kind of its report (enum hidstack_report_kind) and its usage: of those that have them, item by
 * item and in an item by index, the one of this number, from 0. Elements of arrays have the usage 00:00. NONE where no more have
 * them, past the last interface, and where no report descriptor is read. */
uint32_t hidstack_host_find(struct hidstack_host *host, uint64_t interface, uint32_t kind, uint16_t page, uint16_t id, uint64_t number, struct hidstack_element_info *element);

/* Whether a switch or a key of an interface is held, as hidstack_held gives it; NONE where no report descriptor is read. */
uint32_t hidstack_host_held(struct hidstack_host *host, uint64_t interface, uint64_t item, uint64_t index, uint32_t *held);

/* The value of an absolute control of an interface that is no switch, as hidstack_value gives it; NONE where it is null, of
 * another control, where there is none, and where no report descriptor is read. */
uint32_t hidstack_host_value(struct hidstack_host *host, uint64_t interface, uint64_t item, uint64_t index, int64_t *value);

/* A report of zeros of an interface, as hidstack_blank writes it; NONE also where no report descriptor is read. */
uint32_t hidstack_host_blank(struct hidstack_host *host, uint64_t interface, uint32_t kind, uint8_t id, uint8_t *out, size_t room, uint64_t *length);

/* ---- Without a handle ---- */

/* Reads a report descriptor, and writes its data elements, item by item, over the first places of `table`, which has
 * `room` places. It gives back the memory that it takes.
 *   OK       `tabled` has how many there are; the places after them are unchanged
 *   NO_ROOM  `tabled` has how many places they need, and the table stays as it was
 *   REFUSED  `tabled` has cause and place, and the table stays as it was */
uint32_t hidstack_table(const uint8_t *descriptor, size_t length, struct hidstack_element_info *table, size_t room, struct hidstack_tabled *tabled);

/* The number of an element in the bytes of a report. `element` may have any contents.
 *   SHORT    its bits don't lie in the bytes, or its width is 0 or over 32
 *   UNKNOWN  it has a Report ID, and the bytes don't begin with it
 * But for OK `value` stays as it was. */
uint32_t hidstack_number(const struct hidstack_element_info *element, const uint8_t *report, size_t length, int64_t *value);

/* Writes `value` into an element of a report: hidstack_number gives it again, and all other bits stay. `element` may have any
 * contents. A number out of the logical range is written too, as a null is; it need only have a pattern in the element's bits.
 * The number of an array's element is that of a key: `min` of the element and the key's place in the usage list together.
 *   SHORT    its bits don't lie in the bytes after the Report ID, or its width is 0 or over 32
 *   UNKNOWN  it has a Report ID, and the bytes don't begin with it
 *   RANGE    its bits don't hold the number: 8 of them hold -128 to 127 in two's complement, else 0 to 255
 * But for OK the bytes stay as they were. */
uint32_t hidstack_put(const struct hidstack_element_info *element, uint8_t *report, size_t length, int64_t value);

/* The report descriptor of a boot keyboard or mouse (enum hidstack_boot; HID 1.11, E.6 and E.10), over the first bytes of
 * `out`, which has `room`.
 *   OK       `length` is how many bytes it has
 *   NO_ROOM  `length` is the room that it needs
 *   NONE     another number than those two; `length` is 0 */
uint32_t hidstack_boot_descriptor(uint32_t protocol, uint8_t *out, size_t room, uint64_t *length);

/* ---- Scripts and texts. None is ended by a zero byte. ---- */

/* Runs a script of docs/SCRIPT.md, as `hidrun` does, and writes what it prints into the first bytes of `out`.
 *   OK       all lines were run, and `fault` stays as it was
 *   REFUSED  the run ended at a line: `out` has the text printed before it, `fault` the line that names the fault. A line
 *            is refused by X1 to X4 and X9; X7 means out of memory at the line, X6 out of memory for its text
 *   NO_ROOM  a text is longer than its room: `ran` has both lengths and the line, and neither text is written
 *   MEMORY   out of memory where no line can be named, or for the line that names the fault. Neither text is written, and `ran`
 *            is all 0 */
uint32_t hidstack_run(const uint8_t *script, size_t length, uint32_t options, uint8_t *out, size_t out_room, uint8_t *fault, size_t fault_room, struct hidstack_ran *ran);

/* The code of a cause, `L10` of 10, over the first bytes of `out`; `length` is its length in bytes.
 *   NO_ROOM  `length` is the room that it needs
 *   NONE     no cause has this number; `length` is 0
 *   MEMORY   out of memory; `length` is 0 */
uint32_t hidstack_cause_text(uint32_t cause, uint8_t *out, size_t room, uint64_t *length);

/* The words of a cause, `a Pop without a Push` of 3; else as hidstack_cause_text. It takes no memory. */
uint32_t hidstack_cause_words(uint32_t cause, uint8_t *out, size_t room, uint64_t *length);

/* Why a descriptor is refused, and where: `L3 at 0: a Pop without a Push`; a report that is too long is named, as in `L15 at
 * 326: Feature report 68 has 20000 bytes, over 16384`. NONE where the descriptor is accepted; else
 * as hidstack_cause_text. */
uint32_t hidstack_refusal_text(const uint8_t *descriptor, size_t length, uint8_t *out, size_t room, uint64_t *written);

/* A usage as page and ID in hex, `01:30`, of 5 to 9 bytes; else as hidstack_cause_text. */
uint32_t hidstack_usage_text(uint16_t page, uint16_t id, uint8_t *out, size_t room, uint64_t *length);

/* The name of a usage in the HID Usage Tables: `X`, `Button 1`; NONE where they have none that the library knows. Else
 * as hidstack_cause_text. */
uint32_t hidstack_usage_name(uint16_t page, uint16_t id, uint8_t *out, size_t room, uint64_t *length);

#ifdef __cplusplus
}
#endif

#endif
