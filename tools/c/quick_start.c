/* quick_start DEVICE: prints what the quick start of docs/C.md prints for reports of the device of this name. It is linked with
 * the code of that page. */
#include "hidstack.h"
#include <stdlib.h>
#include <string.h>
#include <sys/socket.h>
#include <unistd.h>

int play(const uint8_t *descriptor, size_t length, int hidraw);

/* three buttons and two axes: HID 1.11, appendix E.10 */
static const uint8_t mouse[] = {
    0x05, 0x01, 0x09, 0x02, 0xA1, 0x01, 0x09, 0x01, 0xA1, 0x00, 0x05, 0x09, 0x19, 0x01, 0x29, 0x03, 0x15,
    0x00, 0x25, 0x01, 0x95, 0x03, 0x75, 0x01, 0x81, 0x02, 0x95, 0x01, 0x75, 0x05, 0x81, 0x01, 0x05, 0x01,
    0x09, 0x30, 0x09, 0x31, 0x15, 0x81, 0x25, 0x7F, 0x75, 0x08, 0x95, 0x02, 0x81, 0x06, 0xC0, 0xC0};
/* 2,048 buttons: the longest report, and the most events */
static const uint8_t buttons[] = {0x05, 0x09, 0x19, 0x01, 0x2A, 0x00, 0x08, 0x15, 0x00, 0x25,
                                  0x01, 0x75, 0x01, 0x96, 0x00, 0x08, 0x81, 0x02};
/* 8 buttons, in a report with ID 1 */
static const uint8_t numbered[] = {0x85, 0x01, 0x05, 0x09, 0x19, 0x01, 0x29, 0x08, 0x15, 0x00,
                                   0x25, 0x01, 0x75, 0x01, 0x95, 0x08, 0x81, 0x02};
/* a byte of padding, a byte of Output, and an End Collection alone */
static const uint8_t padding[] = {0x75, 0x08, 0x95, 0x01, 0x81, 0x01};
static const uint8_t output[] = {0x05, 0x08, 0x09, 0x01, 0x15, 0x00, 0x25, 0x01, 0x75, 0x08, 0x95, 0x01, 0x91, 0x02};
static const uint8_t refused[] = {0xC0};

static const struct {
    const char *name;
    const uint8_t *descriptor;
    size_t length;
    uint8_t byte; /* its reports have this byte again and again */
} devices[] = {
    {"buttons", buttons, sizeof buttons, 0xFF},
    {"numbered", numbered, sizeof numbered, 0x01},
    {"padding", padding, sizeof padding, 0xFF},
    {"output", output, sizeof output, 0xFF},
    {"refused", refused, sizeof refused, 0xFF},
    {"none", NULL, 0, 0xFF},
};

/* Bytes in a block of their exact length, so that a read after their end is seen. */
static uint8_t *copy_of(const uint8_t *bytes, size_t length)
{
    uint8_t *made = malloc(length ? length : 1);
    if (!made)
        exit(2);
    if (length)
        memcpy(made, bytes, length);
    return made;
}

/* Reports of these lengths, which a read gives one at a time, as hidraw does. */
static int played(const uint8_t *descriptor, size_t length, const uint8_t *reports, const size_t *lengths, size_t count)
{
    int ends[2], status;
    uint8_t *own = copy_of(descriptor, length);
    if (socketpair(AF_UNIX, SOCK_SEQPACKET, 0, ends) != 0)
        exit(2);
    for (; count > 0; reports += *lengths++, count--)
        if (write(ends[0], reports, *lengths) != (ssize_t)*lengths)
            exit(2);
    close(ends[0]);
    status = play(own, length, ends[1]);
    free(own);
    close(ends[1]);
    return status != 0;
}

int main(int argc, char **argv)
{
    static const uint8_t moved[] = {0x05, 0x7F, 0x81, 0x00, 0x00, 0x04, 0x00, 0x00}; /* the second one is too short */
    static const size_t lengths[] = {3, 2, 3}, long_lengths[] = {256, 255, 256};
    uint8_t reports[767];
    size_t i;
    if (argc == 2 && strcmp(argv[1], "mouse") == 0)
        return played(mouse, sizeof mouse, moved, lengths, 3);
    for (i = 0; argc == 2 && i < sizeof devices / sizeof *devices; i++)
        if (strcmp(argv[1], devices[i].name) == 0) {
            memset(reports, devices[i].byte, sizeof reports);
            return played(devices[i].descriptor, devices[i].length, reports, long_lengths, 3);
        }
    return 2;
}
