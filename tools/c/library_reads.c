/* Reads Input reports by the C library: the device is a report descriptor in hex. `show` prints the events too. */
#include "hidstack.h"
#include "reads.h"

static struct hidstack handle = HIDSTACK_INIT;
static struct hidstack_opened opened;
static struct hidstack_event *events;
static int shows;

static long read_report(const uint8_t *report, size_t length)
{
    uint64_t count;
    if (hidstack_feed(&handle, report, length, events, opened.room, &count) != HIDSTACK_OK)
        return -1;
    for (uint64_t i = 0; shows && i < count; i++)
        printf("%u %lu.%lu %02X:%02X %ld\n", events[i].kind, events[i].item, events[i].index, events[i].page, events[i].id, events[i].value);
    return (long)count;
}

int main(int words, char **word)
{
    static uint8_t descriptor[65536];
    if (words < 4 || hidstack_open(descriptor, of_hex(word[3], descriptor), &handle, &opened) != HIDSTACK_OK) {
        fputs("the descriptor is refused\n", stderr);
        return 1;
    }
    events = calloc(opened.room + 1, sizeof *events);
    shows = strcmp(word[1], "show") == 0;
    return read_reports(words, word, read_report);
}
