/* What Linux's HID core asks of the kernel around it, for a program in user space. No text of Linux is in this file: its names
 * and types are what that text calls, and here the C library does what they ask for, or nothing does. Locks, debugfs, hidraw
 * and messages are empty, so that only the parsing and reading of reports is left to count. */
#ifndef KERNEL_H
#define KERNEL_H
#include <errno.h>
#include <linux/input.h>
#include <stdbool.h>
#include <stddef.h>
#include <stdint.h>
#include <stdio.h>
#include <stdlib.h>
#include <string.h>

typedef uint8_t u8;
typedef uint16_t u16;
typedef uint32_t u32;
typedef int32_t s32;
typedef int64_t s64, ktime_t;
typedef unsigned gfp_t;
typedef unsigned long kernel_ulong_t;

/* words of the compiler */
#define unlikely(x) __builtin_expect(!!(x), 0)
#define __must_check
#define EXPORT_SYMBOL(x)
#define EXPORT_SYMBOL_GPL(x)
#define WARN_ON(x) (x)
#define BIT(n) (1UL << (n))

/* sizes and places */
#define container_of(at, type, member) ((type *)((char *)(at) - offsetof(type, member)))
#define DIV_ROUND_UP(a, b) (((a) + (b) - 1) / (b))
#define max(a, b) ((a) > (b) ? (a) : (b))
#define max_t(type, a, b) max((type)(a), (type)(b))
#define array3_size(a, b, c) ((size_t)(a) * (b) * (c))

/* memory */
#define kmalloc(size, flags) malloc(size)
#define kzalloc(size, flags) calloc(1, size)
#define kcalloc(count, size, flags) calloc(count, size)
#define krealloc(at, size, flags) realloc(at, size)
#define kmemdup(at, size, flags) copy_of(at, size)
#define kvzalloc(size, flags) calloc(1, size)
#define vzalloc(size) calloc(1, size)
#define kfree(at) free((void *)(at))
#define kvfree(at) free((void *)(at))
#define vfree(at) free((void *)(at))
static inline void *copy_of(const void *at, size_t size)
{
    void *copy = malloc(size + 1);
    return copy ? memcpy(copy, at, size) : NULL;
}

/* numbers */
static inline s32 sign_extend32(u32 number, int sign)
{
    u32 bit = (u32)1 << sign;
    return (s32)((number & (2 * bit - 1)) ^ bit) - (s32)bit;
}
static inline u16 get_unaligned_le16(const void *at)
{
    u16 number;
    memcpy(&number, at, sizeof number);
    return number;
}
static inline u32 get_unaligned_le32(const void *at)
{
    u32 number;
    memcpy(&number, at, sizeof number);
    return number;
}

/* lists in a ring */
struct list_head {
    struct list_head *next, *prev;
};
static inline void INIT_LIST_HEAD(struct list_head *ring)
{
    ring->prev = ring;
    ring->next = ring;
}
static inline bool list_empty(const struct list_head *ring)
{
    return ring->next == ring;
}
static inline void list_add_tail(struct list_head *link, struct list_head *before)
{
    link->next = before;
    link->prev = before->prev;
    link->prev->next = link;
    before->prev = link;
}
static inline void list_add(struct list_head *link, struct list_head *after)
{
    list_add_tail(link, after->next);
}
#define list_entry(at, type, member) container_of(at, type, member)
#define list_first_entry(ring, type, member) list_entry((ring)->next, type, member)
#define list_first_entry_or_null(ring, type, member) (list_empty(ring) ? NULL : list_first_entry(ring, type, member))
#define next_of(it, member) list_entry((it)->member.next, __typeof__(*(it)), member)
#define list_for_each_entry(it, ring, member) \
    for (it = list_first_entry(ring, __typeof__(*it), member); &it->member != (ring); it = next_of(it, member))
#define list_for_each_entry_safe(it, after, ring, member) \
    for (it = list_first_entry(ring, __typeof__(*it), member), after = next_of(it, member); &it->member != (ring); \
         it = after, after = next_of(it, member))

/* devices and locks, of which nothing is used */
struct device {
    struct device *parent;
    void *drvdata;
};
struct device_driver {
    const char *name;
};
struct bus_type {
    const char *name;
};
struct input_dev {
    const char *name;
    unsigned long *absbit, *relbit, *keybit, *ledbit, *mscbit;
};
struct work_struct {
    int none;
};
struct semaphore {
    int none;
};
struct mutex {
    int none;
};
struct kref {
    int none;
};
struct timer_list {
    int none;
};
typedef struct {
    int none;
} spinlock_t, wait_queue_head_t;
typedef struct {
    int event;
} pm_message_t;
struct hid_device_id {
    u16 bus, group;
    u32 vendor, product;
    kernel_ulong_t driver_data;
};
#define HID_ANY_ID (~0)
static inline void *dev_get_drvdata(const struct device *device)
{
    return device->drvdata;
}
static inline void dev_set_drvdata(struct device *device, void *data)
{
    device->drvdata = data;
}
static const struct {
    const char *comm;
} this_task = {"linux_reads"};
#define current (&this_task)

/* messages, which go nowhere, are calls as in the kernel, so that the code around them is compiled as there */
__attribute__((cold, noinline)) static int message(const void *device, ...)
{
    __asm__ volatile("" : : "r"(device));
    return 0;
}
#define once(...) ({ static bool done; if (!done) { done = true; message(__VA_ARGS__); } })
#define dev_name(device) "device"
#define dev_err(...) message(__VA_ARGS__)
#define dev_warn(...) message(__VA_ARGS__)
#define dev_warn_once(...) once(__VA_ARGS__)
#define dev_warn_ratelimited(...) message(__VA_ARGS__)
#define pr_debug(...) ((void)0)
#define printk(...) ((void)0)

/* what looks on */
#define hid_dump_input(...) ((void)0)
#define hidraw_report_event(...) 0
#define call_hid_bpf_rdesc_fixup(device, at, size) copy_of(at, *(size))
#endif
