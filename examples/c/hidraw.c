/* hidraw DESCRIPTOR: reads Input reports from standard input and prints their events. A hidraw device of Linux gives a report with
 * each read: hidraw /sys/class/hidraw/hidraw0/device/report_descriptor < /dev/hidraw0
 *
 * So a report that is too short, or of no report of the device, is said on standard error, and the next ones are read. When the
 * device is unplugged, or the input ends, what is held goes up.
 *
 * It ends with 0; with 1 where the descriptor is refused, or a report couldn't be read; and with 2 where something can't be read or
 * written, or memory runs out. */
#include <errno.h>
#include <hidstack.h>
#include <inttypes.h>
#include <stdio.h>
#include <stdlib.h>
#include <string.h>
#include <unistd.h>

enum { DONE = 0, REFUSED = 1, FAILED = 2 };

static int failed(const char *what, int error)
{
    fprintf(stderr, "hidraw: %s: %s\n", what, strerror(error));
    return FAILED;
}

static int print(const struct hidstack_event *events, uint64_t count)
{
    static const char *const words[] = {"up", "down", "value", "null", "motion", "dropped"};
    uint8_t name[80];
    uint64_t length, i;
    for (i = 0; i < count; i++) {
        uint32_t named = hidstack_usage_name(events[i].page, events[i].id, name, sizeof name, &length);
        if (named == HIDSTACK_MEMORY)
            return failed("names", ENOMEM);
        printf("%s %02X:%02X %" PRId64, words[events[i].kind], events[i].page, events[i].id, events[i].value);
        if (named == HIDSTACK_OK)
            printf(" %.*s", (int)length, (const char *)name);
        putchar('\n');
    }
    return fflush(stdout) == 0 ? DONE : failed("standard output", errno);
}

static int refused(const uint8_t *descriptor, size_t length, const struct hidstack_opened *opened)
{
    uint8_t text[128];
    uint64_t written;
    if (hidstack_refusal_text(descriptor, length, text, sizeof text, &written) == HIDSTACK_OK)
        fprintf(stderr, "refused: %.*s\n", (int)written, (const char *)text);
    else
        fprintf(stderr, "refused: L%" PRIu32 " at %" PRIu64 "\n", opened->cause, opened->at);
    return opened->cause == 17 ? FAILED : REFUSED; /* 17: out of memory */
}

static int open_file(const char *name, struct hidstack *device, struct hidstack_opened *opened)
{
    static uint8_t descriptor[4097]; /* of more bytes any descriptor is refused (L2) */
    FILE *file = fopen(name, "rb");
    size_t length;
    int error;
    if (!file)
        return failed(name, errno);
    length = fread(descriptor, 1, sizeof descriptor, file);
    error = ferror(file) ? errno : 0;
    fclose(file);
    if (error)
        return failed(name, error);
    return hidstack_open(descriptor, length, device, opened) == HIDSTACK_OK ? DONE : refused(descriptor, length, opened);
}

/* Bytes of the next report; 0 at the end, and where the device is unplugged; less where it can't be read. */
static ssize_t next(uint8_t *report, size_t room)
{
    ssize_t got;
    do
        got = read(0, report, room);
    while (got < 0 && errno == EINTR);
    return got < 0 && (errno == EIO || errno == ENODEV) ? 0 : got;
}

/* Prints the events of all reports; `events` has `room` places. */
static int play(struct hidstack *device, struct hidstack_event *events, uint64_t room)
{
    static uint8_t report[16384]; /* as many as the longest report has */
    uint64_t count;
    ssize_t got;
    int status = DONE;
    while ((got = next(report, sizeof report)) > 0) {
        uint32_t fed = hidstack_feed(device, report, (size_t)got, events, room, &count);
        if (fed != HIDSTACK_OK) {
            fprintf(stderr, "hidraw: %s: %zd bytes\n", fed == HIDSTACK_SHORT ? "a report is too short" : "no report of the device", got);
            status = REFUSED;
        } else if (print(events, count) != DONE) {
            return FAILED;
        }
    }
    if (got < 0)
        return failed("standard input", errno);
    if (hidstack_release(device, events, room, &count) != HIDSTACK_OK || print(events, count) != DONE)
        return FAILED;
    return status;
}

int main(int argc, char **argv)
{
    struct hidstack device = HIDSTACK_INIT;
    struct hidstack_opened opened;
    struct hidstack_event *events;
    int status;
    if (argc != 2) {
        fprintf(stderr, "usage: hidraw DESCRIPTOR < /dev/hidraw0\n");
        return FAILED;
    }
    status = open_file(argv[1], &device, &opened);
    if (status != DONE)
        return status;
    events = calloc(opened.room + 1, sizeof *events);
    status = events ? play(&device, events, opened.room) : failed("events", ENOMEM);
    free(events);
    hidstack_close(&device);
    return status;
}
