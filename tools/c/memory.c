/* Each allocation of an opening, also of a virtual device, of a host until its interface is live, of a table, a run and a text fails
   in turn, alone and with all after it. Calls that only read take no memory, and a handle goes to another thread.
   cc -Wl,--wrap=malloc -Wl,--wrap=realloc -pthread */
#include "hidstack.h"
#include <pthread.h>
#include <stdio.h>
#include <stdlib.h>
#include <string.h>

static const uint8_t mouse[] = {
    0x05, 0x01, 0x09, 0x02, 0xA1, 0x01, 0x09, 0x01, 0xA1, 0x00, 0x05, 0x09, 0x19, 0x01, 0x29, 0x03, 0x15,
    0x00, 0x25, 0x01, 0x95, 0x03, 0x75, 0x01, 0x81, 0x02, 0x95, 0x01, 0x75, 0x05, 0x81, 0x01, 0x05, 0x01,
    0x09, 0x30, 0x09, 0x31, 0x15, 0x81, 0x25, 0x7F, 0x75, 0x08, 0x95, 0x02, 0x81, 0x06, 0xC0, 0xC0};
static struct hidstack_event events[8];
static long calls, fails = -1;
static int all; /* the allocations after it fail too */

void *__real_malloc(size_t n);
void *__real_realloc(void *p, size_t n);
void *__wrap_malloc(size_t n);
void *__wrap_realloc(void *p, size_t n);

static int refused(void)
{
    long call = calls++;
    return fails >= 0 && (call == fails || (all && call > fails));
}

void *__wrap_malloc(size_t n)
{
    return refused() ? NULL : __real_malloc(n);
}

void *__wrap_realloc(void *p, size_t n)
{
    return refused() ? NULL : __real_realloc(p, n);
}

static int openings(struct hidstack *device)
{
    struct hidstack_opened opened;
    for (fails = 0;; fails++) {
        uint32_t status;
        calls = 0;
        status = hidstack_open(mouse, sizeof mouse, device, &opened);
        if (calls <= fails)
            return status != HIDSTACK_OK;
        if (status == HIDSTACK_OK) /* it does without */
            hidstack_close(device);
        else if (status != HIDSTACK_REFUSED || opened.cause != 17 || opened.at != 0 || device->session)
            return 1;
    }
}

/* Every other call of a device, and its closing. */
static int transfers(struct hidstack_device *device)
{
    const struct hidstack_setup configure = {0, 9, 1, 0, 0}, read = {0x81, 6, 0x2200, 0, 64};
    uint8_t answer[64];
    uint64_t item, index, length;
    uint32_t configured;
    calls = 0;
    if (hidstack_device_control(device, &configure, NULL, 0, NULL, 0, &length) || hidstack_device_find(device, 1, 0x30, 0, &item, &index) ||
        hidstack_device_move(device, item, index, 5) || hidstack_device_press(device, 0, 0) || hidstack_device_release_all(device) ||
        hidstack_device_report(device, answer, 64, &length) || length != 3 || hidstack_device_frame(device) || hidstack_device_halt(device) ||
        hidstack_device_set(device, 0, 0, 1) != HIDSTACK_WRONG_KIND || hidstack_device_null(device, 0, 0) != HIDSTACK_WRONG_KIND ||
        hidstack_device_control(device, &read, NULL, 0, answer, 64, &length) || length != sizeof mouse || hidstack_device_reset(device) ||
        hidstack_device_output(device, HIDSTACK_OUTPUT, 0, answer, 64, &length) != HIDSTACK_NONE || hidstack_device_configured(device, &configured))
        return 1;
    hidstack_device_close(device);
    return calls != 0 || configured != 0 || device->gadget != NULL;
}

/* Each allocation of the opening of a virtual device fails; what is done with it then takes none. */
static int devices(void)
{
    static const struct hidstack_config config = {1, 2, 10, 0, 0};
    struct hidstack_device device = HIDSTACK_DEVICE_INIT;
    struct hidstack_device_opened opened;
    for (fails = 0;; fails++) {
        uint32_t status;
        calls = 0;
        status = hidstack_device_open(&config, mouse, sizeof mouse, &device, &opened);
        if (calls <= fails)
            return status != HIDSTACK_OK || transfers(&device);
        if (status == HIDSTACK_OK) /* it does without */
            hidstack_device_close(&device);
        else if (status != HIDSTACK_REFUSED || (opened.cause != 17 && opened.cause != 21) || opened.at != 0 || device.gadget)
            return 1;
    }
}

/* A mouse comes up at a host; a request for which memory runs out is made again. What it does then takes none. */
static int comes_up(struct hidstack_host *host, struct hidstack_device *device, int *retried)
{
    struct hidstack_host_event told[16];
    struct hidstack_host_result result;
    struct hidstack_setup setup, again;
    struct hidstack_moved moved;
    uint8_t answer[64];
    uint64_t length, answered;
    int steps = 0;
    while (hidstack_host_todo(host, &setup, NULL, 0, &length) == HIDSTACK_OK) {
        uint32_t status = hidstack_device_control(device, &setup, NULL, 0, answer, 64, &answered);
        status = hidstack_host_done(host, status, answer, answered, &moved);
        if (++steps > 99 || (status != HIDSTACK_OK && status != HIDSTACK_MEMORY))
            return 1;
        if (status == HIDSTACK_MEMORY) {
            ++*retried;
            if (moved.cause != 2 || hidstack_host_todo(host, &again, NULL, 0, &length) != HIDSTACK_OK || memcmp(&setup, &again, sizeof setup))
                return 1;
            if (all)
                return 0;
        }
    }
    calls = 0;
    answered = 0;
    hidstack_device_press(device, 0, 0);
    return hidstack_device_report(device, answer, 64, &length) || hidstack_host_report(host, 0, HIDSTACK_OK, answer, length, told, 16, &result) ||
        result.count != 1 || hidstack_host_reset(host, told, 16, &result) || result.count != 1 || calls != 0;
}

/* Each allocation of a host fails: of its opening, and of what it makes until its interface is live. */
static int hosts(void)
{
    static const struct hidstack_config config = {1, 2, 10, 0, 0};
    long fail;
    for (fail = 0;; fail++) {
        struct hidstack_device device = HIDSTACK_DEVICE_INIT;
        struct hidstack_host host = HIDSTACK_HOST_INIT;
        struct hidstack_device_opened opened;
        int retried = 0, wrong = 0;
        uint32_t status;
        fails = -1;
        if (hidstack_device_open(&config, mouse, sizeof mouse, &device, &opened))
            return 1;
        calls = 0;
        fails = fail;
        status = hidstack_host_open(&host);
        if (status == HIDSTACK_OK)
            wrong = comes_up(&host, &device, &retried);
        else
            wrong = status != HIDSTACK_MEMORY || host.driver != NULL || fail != 0;
        hidstack_host_close(&host);
        hidstack_device_close(&device);
        if (wrong)
            return 1;
        if (status == HIDSTACK_OK && !retried && fail > 40)
            return 0;
    }
}

static int tables(void)
{
    struct hidstack_element_info table[5];
    struct hidstack_tabled tabled;
    for (fails = 0;; fails++) {
        uint32_t status;
        calls = 0;
        status = hidstack_table(mouse, sizeof mouse, table, 5, &tabled);
        if (calls <= fails)
            return status != HIDSTACK_OK;
        if (status != HIDSTACK_OK && (status != HIDSTACK_REFUSED || tabled.cause != 17))
            return 1;
    }
}

/* A run ends whole, or at a line with X6 or X7, or without a word; where all memory is gone, always without a word. */
static int runs(void)
{
    static const char script[] = "device ready plain 05 01 09 30 15 81 25 7F 75 08 95 01 81 06\nmove 1 1:30 5\npoll 1 clean 20\n";
    static uint8_t out[4096];
    uint8_t fault[16];
    struct hidstack_ran ran;
    for (fails = 0;; fails++) {
        uint32_t status;
        int is_right;
        calls = 0;
        out[0] = fault[0] = 'U';
        status = hidstack_run((const uint8_t *)script, sizeof script - 1, HIDSTACK_POLLS, out, sizeof out, fault, sizeof fault, &ran);
        if (calls <= fails)
            return status != HIDSTACK_OK || ran.line != 0 || ran.length == 0 || ran.fault != 0;
        if (status == HIDSTACK_OK) /* it does without */
            is_right = !all && ran.line == 0 && fault[0] == 'U';
        else if (status == HIDSTACK_REFUSED)
            is_right = !all && ran.line >= 1 && ran.line <= 4 && ran.fault == 11 && (!memcmp(fault + 6, ": X6\n", 5) || !memcmp(fault + 6, ": X7\n", 5));
        else
            is_right = status == HIDSTACK_MEMORY && ran.line + ran.length + ran.fault == 0 && out[0] == 'U' && fault[0] == 'U';
        if (!is_right)
            return 1;
    }
}

static int codes(void)
{
    uint8_t text[3];
    uint64_t told;
    for (fails = 0;; fails++) {
        uint32_t status;
        calls = 0;
        status = hidstack_cause_text(10, text, 3, &told);
        if (calls <= fails)
            return status != HIDSTACK_OK || told != 3;
        if (status != HIDSTACK_OK && (status != HIDSTACK_MEMORY || told != 0))
            return 1;
    }
}

static int texts(void)
{
    uint8_t text[9];
    uint64_t told;
    for (fails = 0;; fails++) {
        uint32_t status;
        calls = 0;
        status = hidstack_usage_text(1, 0x30, text, 9, &told);
        if (calls <= fails)
            return status != HIDSTACK_OK || told != 5;
        if (status != HIDSTACK_OK && (status != HIDSTACK_MEMORY || told != 0))
            return 1;
    }
}

static int refusals(void)
{
    static const uint8_t longer[] = {0x85, 0x44, 0x75, 0x08, 0x96, 0x1F, 0x4E, 0xB1, 0x02};
    uint8_t text[128];
    uint64_t told;
    for (fails = 0;; fails++) {
        uint32_t status;
        calls = 0;
        status = hidstack_refusal_text(longer, sizeof longer, text, sizeof text, &told);
        if (calls <= fails)
            return status != HIDSTACK_OK || told != sizeof "L15 at 7: Feature report 68 has 20000 bytes, over 16384" - 1;
        if (status != HIDSTACK_OK && (status != HIDSTACK_MEMORY || told != 0))
            return 1;
    }
}

static int names(void)
{
    uint8_t text[16];
    uint64_t told;
    calls = 0;
    if (hidstack_cause_words(3, text, sizeof text, &told) != HIDSTACK_NO_ROOM || calls != 0) /* it takes none */
        return 1;
    for (fails = 0;; fails++) {
        uint32_t status;
        calls = 0;
        status = hidstack_usage_name(9, 300, text, sizeof text, &told);
        if (calls <= fails)
            return status != HIDSTACK_OK || told != 10;
        if (status != HIDSTACK_OK && (status != HIDSTACK_MEMORY || told != 0))
            return 1;
    }
}

static int feeds(struct hidstack *device)
{
    struct hidstack_opened opened;
    struct hidstack_element_info element;
    struct hidstack_report_info report;
    struct hidstack_usage_info usage;
    struct hidstack_collection_info collection;
    uint64_t count;
    uint32_t held;
    int64_t value;
    int i;
    calls = 0;
    if (hidstack_report(device, 0, &report) || hidstack_element(device, 2, 1, &element) || hidstack_usage(device, 2, 1, &usage) ||
        hidstack_collection(device, 2, 1, &collection) || hidstack_held(device, 0, 0, &held) || hidstack_number(&element, mouse, 3, &value) ||
        hidstack_value(device, 2, 0, &value) != HIDSTACK_NONE || hidstack_open(mouse, sizeof mouse, device, &opened) != HIDSTACK_BUSY)
        return 1;
    for (i = 0; i < 1000; i++) {
        const uint8_t report[] = {(uint8_t)(i & 7), (uint8_t)i, 1};
        if (hidstack_feed(device, report, 3, events, 8, &count) != HIDSTACK_OK)
            return 1;
    }
    return calls != 0;
}

static void *elsewhere(void *device)
{
    static const uint8_t up[] = {0, 0, 0};
    uint64_t count;
    uint32_t status = hidstack_feed(device, up, 3, events, 8, &count);
    hidstack_close(device);
    return status == HIDSTACK_OK && count == 3 ? NULL : device;
}

int main(void)
{
    struct hidstack device = HIDSTACK_INIT;
    struct hidstack_opened opened;
    pthread_t thread;
    void *answer;
    for (all = 0; all < 2; all++)
        if (openings(&device) || devices() || hosts() || tables() || runs() || codes() || texts() || refusals() || names())
            return 1;
        else
            hidstack_close(&device);
    fails = -1;
    if (hidstack_open(mouse, sizeof mouse, &device, &opened) != HIDSTACK_OK)
        return 1;
    if (feeds(&device) || pthread_create(&thread, NULL, elsewhere, &device) || pthread_join(thread, &answer))
        return 1;
    return answer != NULL || device.session != NULL;
}
