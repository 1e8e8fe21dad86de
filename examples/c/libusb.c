/* libusb VENDOR:PRODUCT, in hex as lsusb prints them: reads a HID device through libusb, and prints the events of all its interfaces until
 * it is unplugged, or Ctrl+C is typed. What is held goes up then.
 *
 *     cc libusb.c $(pkg-config --cflags --libs hidstack libusb-1.0) -o libusb && sudo ./libusb 046d:c31c
 *
 * Meanwhile the system doesn't have the device: don't take the keyboard on which you type. It ends with 0; with 1 where the device
 * can't be read, or three transfers in a row fail; and with 2 where there is none, or memory runs out. */
#define _POSIX_C_SOURCE 200809L /* for sigaction, also with -std=c99 */
#include <hidstack.h>
#include <inttypes.h>
#include <libusb.h>
#include <signal.h>
#include <stdio.h>
#include <stdlib.h>
#include <sys/time.h>

enum { INTERFACES = 32, ERRORS = 3 }; /* at most as many interfaces are read; as many errors in a row end it */

static volatile sig_atomic_t stopped; /* by Ctrl+C */

struct reader;

/* The interrupt transfer of an interface. */
struct pipe {
    struct reader *reader;
    uint64_t interface;
    struct libusb_transfer *transfer;
    int underway;
    uint8_t packet[1024];
};

struct reader {
    libusb_device_handle *device;
    struct hidstack_host host;
    struct hidstack_host_event *events; /* has `room` places */
    uint64_t room;
    struct pipe pipes[INTERFACES];
    int errors; /* in a row */
    int gone;
};

static void stop(int signal)
{
    stopped = signal;
}

static void print(const struct hidstack_host_event *events, uint64_t count)
{
    static const char *const words[] = {"up", "down", "value", "null", "motion", "dropped"};
    uint64_t i;
    for (i = 0; i < count; i++)
        printf("%" PRIu64 " %s %02X:%02X %" PRId64 "\n", events[i].interface, words[events[i].event.kind], events[i].event.page, events[i].event.id,
               events[i].event.value);
    fflush(stdout);
}

/* What came of a libusb call, which gives a length or an error, as an outcome. */
static uint32_t outcome_of(struct reader *reader, int result)
{
    reader->gone |= result == LIBUSB_ERROR_NO_DEVICE;
    return result >= 0 ? HIDSTACK_OK : result == LIBUSB_ERROR_PIPE ? HIDSTACK_STALLED : HIDSTACK_FAILED;
}

/* Configures the device, if it isn't so already, and takes its HID interfaces from the system's driver. */
static int configure(struct reader *reader, int wanted)
{
    struct hidstack_interface_info info;
    uint64_t place;
    int now, result = libusb_get_configuration(reader->device, &now);
    if (result == 0 && now != wanted)
        result = libusb_set_configuration(reader->device, wanted);
    for (place = 0; result == 0 && hidstack_host_interface(&reader->host, place, &info) == HIDSTACK_OK; place++) {
        if (libusb_kernel_driver_active(reader->device, info.number) == 1)
            libusb_set_auto_detach_kernel_driver(reader->device, 1); /* it has the interface again at its release */
        result = libusb_claim_interface(reader->device, info.number);
    }
    return result;
}

/* Makes a control transfer. What the system keeps account of goes by its own calls: SET_CONFIGURATION, and CLEAR_FEATURE of an
 * endpoint, by which both ends begin at DATA0. */
static int control(struct reader *reader, const struct hidstack_setup *setup, uint8_t *data)
{
    if (setup->request_type == 0x00 && setup->request == LIBUSB_REQUEST_SET_CONFIGURATION)
        return configure(reader, setup->value);
    if (setup->request_type == 0x02 && setup->request == LIBUSB_REQUEST_CLEAR_FEATURE)
        return libusb_clear_halt(reader->device, (unsigned char)setup->index);
    return libusb_control_transfer(reader->device, setup->request_type, setup->request, setup->value, setup->index, data, setup->length, 1000);
}

/* Makes the control transfers that the host wants, and has room for the events that may come then. */
static int transfer_all(struct reader *reader)
{
    static uint8_t data[65536];
    struct hidstack_setup setup;
    struct hidstack_moved moved;
    struct hidstack_host_info info;
    uint64_t length;
    while (!reader->gone && hidstack_host_todo(&reader->host, &setup, data, sizeof data, &length) == HIDSTACK_OK) {
        int result = control(reader, &setup, data);
        uint64_t came = result > 0 && setup.request_type >= 0x80 ? (uint64_t)result : 0;
        if (hidstack_host_done(&reader->host, outcome_of(reader, result), data, came, &moved) == HIDSTACK_MEMORY)
            return 0;
    }
    if (hidstack_host_device(&reader->host, &info) == HIDSTACK_OK && info.room > reader->room) {
        struct hidstack_host_event *events = realloc(reader->events, info.room * sizeof *events);
        if (!events)
            return 0;
        reader->events = events;
        reader->room = info.room;
    }
    return 1;
}

static void LIBUSB_CALL came(struct libusb_transfer *transfer)
{
    struct pipe *pipe = transfer->user_data;
    struct reader *reader = pipe->reader;
    struct hidstack_host_result result;
    uint32_t outcome = transfer->status == LIBUSB_TRANSFER_COMPLETED ? HIDSTACK_OK
                       : transfer->status == LIBUSB_TRANSFER_STALL   ? HIDSTACK_STALLED
                                                                     : HIDSTACK_FAILED;
    pipe->underway = 0;
    reader->errors = outcome == HIDSTACK_FAILED ? reader->errors + 1 : 0;
    reader->gone |= transfer->status == LIBUSB_TRANSFER_NO_DEVICE;
    if (hidstack_host_report(&reader->host, pipe->interface, outcome, pipe->packet, (size_t)transfer->actual_length, reader->events, reader->room,
                             &result) == HIDSTACK_OK)
        print(reader->events, result.count);
    else if (result.cause)
        fprintf(stderr, "libusb: interface %" PRIu64 ": a report is refused: H%" PRIu32 "\n", pipe->interface, result.cause);
}

/* Asks for a report of each live interface of which none is asked for. */
static int poll_all(struct reader *reader)
{
    struct hidstack_interface_info info;
    uint64_t place;
    for (place = 0; place < INTERFACES && hidstack_host_interface(&reader->host, place, &info) == HIDSTACK_OK; place++) {
        struct pipe *pipe = &reader->pipes[place];
        if (info.state != HIDSTACK_INTERFACE_LIVE || pipe->underway || info.packet_size > sizeof pipe->packet)
            continue;
        if (!pipe->transfer && !(pipe->transfer = libusb_alloc_transfer(0)))
            return 0;
        pipe->reader = reader;
        pipe->interface = place;
        libusb_fill_interrupt_transfer(pipe->transfer, reader->device, 0x80 | info.endpoint, pipe->packet, info.packet_size, came, pipe, 0);
        pipe->underway = outcome_of(reader, libusb_submit_transfer(pipe->transfer)) == HIDSTACK_OK;
        reader->errors += !pipe->underway;
    }
    return 1;
}

/* Ends the transfers that are underway, and gives the interfaces back to the system. */
static void end_all(struct reader *reader)
{
    struct hidstack_interface_info info;
    int place;
    for (place = 0; place < INTERFACES; place++) {
        if (reader->pipes[place].underway)
            libusb_cancel_transfer(reader->pipes[place].transfer);
        while (reader->pipes[place].underway && libusb_handle_events(NULL) == 0)
            ;
        libusb_free_transfer(reader->pipes[place].transfer);
        if (hidstack_host_interface(&reader->host, (uint64_t)place, &info) == HIDSTACK_OK)
            libusb_release_interface(reader->device, info.number);
    }
}

static void print_refusals(struct reader *reader, const struct hidstack_host_info *host)
{
    struct hidstack_interface_info info;
    uint64_t place;
    if (host->state == HIDSTACK_HOST_REFUSED)
        fprintf(stderr, "libusb: the device can't be read\n");
    for (place = 0; hidstack_host_interface(&reader->host, place, &info) == HIDSTACK_OK; place++)
        if (info.state == HIDSTACK_INTERFACE_REFUSED)
            fprintf(stderr, "libusb: interface %" PRIu64 " can't be read: %c%" PRIu32 "\n", place, info.letter, info.cause);
}

/* Reads reports until the device is gone: how it ended. */
static int play(struct reader *reader)
{
    struct hidstack_host_info info = {0, 0, 0, 0, 0};
    if (!transfer_all(reader) || hidstack_host_device(&reader->host, &info) != HIDSTACK_OK)
        return 2;
    print_refusals(reader, &info);
    while (info.state != HIDSTACK_HOST_REFUSED && info.interfaces > 0 && !stopped) {
        struct timeval second = {1, 0};
        int result;
        if (!transfer_all(reader) || !poll_all(reader))
            return 2;
        if (reader->gone)
            return 0;
        if (reader->errors >= ERRORS) {
            fprintf(stderr, "libusb: %d transfers in a row failed\n", reader->errors);
            return 1;
        }
        result = libusb_handle_events_timeout_completed(NULL, &second, NULL);
        if (result != 0 && result != LIBUSB_ERROR_INTERRUPTED)
            return 2;
    }
    return !stopped;
}

int main(int argc, char **argv)
{
    static struct reader reader; /* all zero: its handle is closed */
    struct hidstack_host_result result;
    unsigned vendor, product;
    int status = 2;
    if (argc != 2 || sscanf(argv[1], "%4x:%4x", &vendor, &product) != 2 || libusb_init(NULL) != 0) {
        fprintf(stderr, "usage: libusb VENDOR:PRODUCT\n");
        return 2;
    }
    reader.device = libusb_open_device_with_vid_pid(NULL, (uint16_t)vendor, (uint16_t)product);
    if (!reader.device)
        fprintf(stderr, "libusb: there is no device %s, or you may not open it\n", argv[1]);
    if (reader.device && hidstack_host_open(&reader.host) == HIDSTACK_OK) {
        sigaction(SIGINT, &(struct sigaction){.sa_handler = stop}, NULL);
        status = play(&reader);
        end_all(&reader);
        if (hidstack_host_reset(&reader.host, reader.events, reader.room, &result) == HIDSTACK_OK)
            print(reader.events, result.count);
    }
    hidstack_host_close(&reader.host);
    if (reader.device)
        libusb_close(reader.device);
    libusb_exit(NULL);
    free(reader.events);
    return status;
}
