/* descriptors COUNT [FIRST]: opens COUNT made descriptors of up to 4,200 bytes, from the FIRSTth on, and feeds reports of 0 to
 * 257 bytes to those that are accepted, and to each sixteenth reports of up to 16,385. It prints how many are accepted, and which
 * took longest; a wrong answer ends it with 1. A number always makes the same descriptor, so that one alone can be run under
 * valgrind. */
#include "hidstack.h"
#include <stdio.h>
#include <stdlib.h>
#include <string.h>
#include <time.h>

enum { MOST = 4096, LONGER = 4200, SHORT_REPORT = 256, LONGEST_REPORT = 16384 };

static const uint8_t mouse[] = {
    0x05, 0x01, 0x09, 0x02, 0xA1, 0x01, 0x09, 0x01, 0xA1, 0x00, 0x05, 0x09, 0x19, 0x01, 0x29, 0x03, 0x15,
    0x00, 0x25, 0x01, 0x95, 0x03, 0x75, 0x01, 0x81, 0x02, 0x95, 0x01, 0x75, 0x05, 0x81, 0x01, 0x05, 0x01,
    0x09, 0x30, 0x09, 0x31, 0x15, 0x81, 0x25, 0x7F, 0x75, 0x08, 0x95, 0x02, 0x81, 0x06, 0xC0, 0xC0};

/* What is repeated up to the end: each alone is a limit, or costs a parser most. */
static const char *const units[] = {
    "\xA4",                             /* Push */
    "\xA4\xB4",                         /* Push, Pop */
    "\xB4",                             /* Pop */
    "\xA1\x01",                         /* Collection */
    "\xA1\x01\xC0",                     /* Collection, End Collection */
    "\x09\x30",                         /* Usage */
    "\x19\x01\x2A\xFF\xFF",             /* a range of 65,535 usages */
    "\x09\x30\x75\x01\x95\x01\x81\x02", /* Usage, and one bit of Input */
    "\x09\x30\x95\x01\x91\x02",         /* one field of Output */
    "\x75\x01\x95\x01\x81\x01",         /* padding */
    "\x85\x01\x85\x02",                 /* Report ID */
    "\xFE\x01\xF0\x55",                 /* a long item */
    "\x09\x30\x75\x58\x95\x01\x81\x02", /* a field of 88 bits */
    "\x09\x30\x75\x08\x96\xFF\x3F\x91\x02", /* 16,383 values of Output */
    "\x75\x01\x09\x30\x96\xFF\x01\x81\x02", /* 511 bits of Input */
};

static uint64_t state;

static uint32_t any(uint32_t below)
{
    state = state * 6364136223846793005u + 1442695040888963407u;
    return (uint32_t)(state >> 33) % below;
}

/* Short items that are more often right than wrong. */
static size_t items(uint8_t *bytes, size_t most)
{
    static const uint8_t heads[] = {0x05, 0x09, 0x09, 0x09, 0x15, 0x19, 0x25, 0x29, 0x75, 0x81, 0x81, 0x81, 0x91, 0x95,
                                    0xA1, 0xA4, 0xB1, 0xB4, 0xC0, 0x85, 0x35, 0x45, 0x55, 0x65, 0x26, 0x27, 0x96};
    size_t length = 0;
    while (length + 5 <= most) {
        uint8_t head = heads[any(sizeof heads)];
        size_t data = head == 0xA4 || head == 0xB4 || head == 0xC0 ? 0 : (size_t)(1 << ((head & 3) - 1));
        bytes[length++] = head;
        for (; data > 0; data--)
            bytes[length++] = (uint8_t)any(head == 0x85 || head == 0x95 || (head == 0x75 && any(8)) ? 12 : head == 0x96 ? 16 : 256);
    }
    return length;
}

static size_t made(uint64_t number, uint8_t *bytes)
{
    size_t length = any(LONGER + 1), at, n;
    switch (number % 4) {
    case 0:
        for (at = 0; at < length; at++)
            bytes[at] = (uint8_t)any(256);
        return length;
    case 1:
        return items(bytes, length);
    case 2:
        for (at = 0; at < length; at++)
            bytes[at] = mouse[at % sizeof mouse];
        length -= length % sizeof mouse;
        for (n = any(4); n > 0 && length > 0; n--)
            bytes[any((uint32_t)length)] = (uint8_t)any(256);
        return length;
    default: {
        const char *unit = units[any(sizeof units / sizeof *units)];
        for (at = 0; at < length; at++)
            bytes[at] = (uint8_t)unit[at % strlen(unit)];
        if (length > MOST && any(2))
            length = MOST;
        return length;
    }
    }
}

/* The length of the nth of five reports. */
static size_t report_length(int n, int is_long)
{
    size_t most = is_long ? LONGEST_REPORT : SHORT_REPORT;
    return n == 3 ? most : n == 4 ? most + 1 : any(n == 0 ? 71 : (uint32_t)most);
}

/* What is wrong with the reading of a descriptor, or null. */
static const char *wrong_with(const uint8_t *bytes, size_t length, int is_long, long *accepted)
{
    struct hidstack device = HIDSTACK_INIT;
    struct hidstack_opened opened;
    uint32_t status = hidstack_open(bytes, length, &device, &opened);
    const char *told = NULL;
    if (status == HIDSTACK_OK) {
        struct hidstack_event *events = calloc(opened.room + 1, sizeof *events);
        int n;
        ++*accepted;
        if (length > MOST)
            told = "a longer one is accepted";
        for (n = 0; events && n < 5; n++) {
            uint64_t count;
            size_t at, given = report_length(n, is_long);
            uint8_t *report = malloc(given ? given : 1);
            if (!report)
                exit(2);
            for (at = 0; at < given; at++)
                report[at] = (uint8_t)(at == 0 && n % 2 ? 1u : any(256));
            status = hidstack_feed(&device, report, given, events, opened.room, &count);
            if (status != HIDSTACK_OK && status != HIDSTACK_SHORT && status != HIDSTACK_UNKNOWN)
                told = "a report has another status";
            if (count > opened.room || events[opened.room].kind != 0)
                told = "more events than there is room for";
            free(report);
        }
        free(events);
    } else if (status != HIDSTACK_REFUSED) {
        told = "another status";
    } else if (opened.cause < 1 || opened.cause > 16) {
        told = "another cause";
    } else if ((length > MOST) != (opened.cause == 2)) {
        told = "L2 exactly where it is too long";
    } else if (opened.at > length || (length > MOST && opened.at != MOST)) {
        told = "the place is after the end";
    }
    hidstack_close(&device);
    return told;
}

int main(int argc, char **argv)
{
    uint64_t count = argc > 1 ? strtoull(argv[1], NULL, 10) : 300000;
    uint64_t number = argc > 2 ? strtoull(argv[2], NULL, 10) : 0, end = number + count, slowest = 0;
    long accepted = 0, wrong = 0;
    double most = 0;
    for (; number < end; number++) {
        struct timespec from, to;
        uint8_t made_here[LONGER], *bytes;
        const char *told;
        size_t length;
        double took;
        state = number * 2654435761u + 1;
        length = made(number, made_here);
        bytes = malloc(length ? length : 1);
        if (!bytes)
            return 2;
        memcpy(bytes, made_here, length);
        clock_gettime(CLOCK_PROCESS_CPUTIME_ID, &from);
        told = wrong_with(bytes, length, number % 64 < 4, &accepted);
        clock_gettime(CLOCK_PROCESS_CPUTIME_ID, &to);
        took = (double)(to.tv_sec - from.tv_sec) + (double)(to.tv_nsec - from.tv_nsec) / 1e9;
        if (took > most) {
            most = took;
            slowest = number;
        }
        if (told) {
            wrong++;
            printf("descriptor %llu: %s\n", (unsigned long long)number, told);
        }
        free(bytes);
    }
    printf("%llu descriptors, %ld accepted, %ld wrong; number %llu took longest\n", (unsigned long long)count, accepted, wrong,
           (unsigned long long)slowest);
    return wrong != 0;
}
