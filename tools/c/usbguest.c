/* usbguest: what tools/compare/usbip does in its guest, and busybox can't.
 *
 *     watch                     prints the events of USB input devices, as they come and go, until it is killed:
 *         node N NAME             /dev/input/eventN was opened; no other program has its events, and auto-repeat is off
 *         N TYPE CODE VALUE TIME  an event of keys, motions and axes, and its microseconds; SYN_DROPPED is 0 3 0
 *         gone N
 *     led NODE CODE VALUE       sets an LED by evdev
 *     hidraw NODE input ID SIZE, feature ID SIZE, set-feature HEX.., output HEX..
 *                               a report is read, or set; each ID byte is there, also where it is 0
 *     usbfs NODE reset, clear-halt ENDPOINT, control SETUP HEX..
 *                               SETUP are the 8 bytes of a request, HEX what is written; what was read is printed
 *
 * A call that fails prints the system's words for it, and ends with status 1. */
#include <errno.h>
#include <fcntl.h>
#include <linux/hidraw.h>
#include <linux/input.h>
#include <linux/usbdevice_fs.h>
#include <poll.h>
#include <sched.h>
#include <stdio.h>
#include <stdlib.h>
#include <string.h>
#include <sys/ioctl.h>
#include <unistd.h>

enum { NODES = 64, EVENTS = 64, ROOM = 8192, TOLD = 1 << 22, TURN = 20, PATIENCE = 5000 };

static int nodes[NODES];

/* What watch tells, and standard output hasn't taken yet: it doesn't block, so that no event is missed meanwhile. */
static char told[TOLD];
static int kept;

static int failed(const char *what)
{
    printf("%s: %s\n", what, strerror(errno));
    return 1;
}

static int print_bytes(const unsigned char *bytes, int count)
{
    for (int i = 0; i < count; i++) printf("%s%02X", i ? " " : "", bytes[i]);
    printf("\n");
    return 0;
}

/* The bytes of words in hex. */
static int bytes_of(char **words, int count, unsigned char *into)
{
    for (int i = 0; i < count; i++) into[i] = strtol(words[i], NULL, 16);
    return count;
}

#define TELL(...) (kept += snprintf(told + kept, TOLD - kept, __VA_ARGS__))

/* Whether a node is there, and is a USB device's. The node isn't opened for that: to close it takes Linux 20 ms and more, in which
 * nothing is read. */
static int is_usb(int number)
{
    char path[96];
    unsigned bus = 0;
    snprintf(path, sizeof path, "/sys/class/input/event%d/device/id/bustype", number);
    FILE *file = fopen(path, "r");
    if (!file) return 0;
    int is_read = fscanf(file, "%x", &bus) == 1;
    fclose(file);
    return is_read && bus == BUS_USB;
}

/* Opens a node of a USB device that appeared, for this program alone. */
static void open_node(int number)
{
    char path[64], name[256] = "";
    unsigned never[2] = {0, 0};
    struct input_event event = {.type = EV_SYN, .code = SYN_REPORT};
    if (!is_usb(number)) return;
    snprintf(path, sizeof path, "/dev/input/event%d", number);
    int node = open(path, O_RDWR | O_NONBLOCK);
    if (node < 0) return;
    if (ioctl(node, EVIOCGRAB, 1)) { close(node); return; }
    if (!ioctl(node, EVIOCSREP, never) && write(node, &event, sizeof event) < 0) perror("auto-repeat");
    while (read(node, &event, sizeof event) == sizeof event) {}
    ioctl(node, EVIOCGNAME(sizeof name - 1), name);
    TELL("node %d %s\n", number, name);
    nodes[number] = node;
}

/* Tells the events of a node, as many as its buffer has at a time; closes it where its device is gone. */
static void tell_events(int number)
{
    struct input_event events[EVENTS];
    ssize_t size;
    while (kept < TOLD - ROOM && (size = read(nodes[number], events, sizeof events)) > 0)
        for (size_t i = 0; i < size / sizeof *events; i++) {
            struct input_event *event = events + i;
            int is_told = event->type == EV_SYN ? event->code == SYN_DROPPED : event->type <= EV_ABS;
            long long time = event->time.tv_sec * 1000000LL + event->time.tv_usec;
            if (is_told) TELL("%d %d %d %d %lld\n", number, event->type, event->code, event->value, time);
        }
    if (kept < TOLD - ROOM && size < 0 && errno == ENODEV) {
        TELL("gone %d\n", number);
        close(nodes[number]);
        nodes[number] = -1;
    }
}

/* Writes what standard output takes now. */
static void write_told(void)
{
    int done = write(STDOUT_FILENO, told, kept);
    if (done > 0) memmove(told, told + done, kept -= done);
}

/* Looks for nodes where no event came for a while. It goes ahead of all else, so that it reads events before their buffer is full:
 * Linux keeps 64 of a keyboard, some 21 of its reports. */
static void watch(void)
{
    struct pollfd waits[NODES + 1];
    struct sched_param first = {.sched_priority = 50};
    fcntl(STDOUT_FILENO, F_SETFL, O_NONBLOCK);
    if (sched_setscheduler(0, SCHED_FIFO, &first)) perror("priority");
    for (int i = 0; i < NODES; i++) nodes[i] = -1;
    while (kept < TOLD - ROOM) {
        for (int i = 0; i < NODES; i++) waits[i] = (struct pollfd){nodes[i], POLLIN, 0};
        waits[NODES] = (struct pollfd){kept ? STDOUT_FILENO : -1, POLLOUT, 0};
        int came = poll(waits, NODES + 1, TURN);
        for (int i = 0; i < NODES; i++)
            if (nodes[i] >= 0) tell_events(i);
            else if (!came) open_node(i);
        write_told();
    }
}

static int set_led(char **words)
{
    struct input_event set[2] = {{.type = EV_LED, .code = atoi(words[1]), .value = atoi(words[2])}, {.type = EV_SYN}};
    int node = open(words[0], O_RDWR);
    if (node < 0 || write(node, set, sizeof set) != sizeof set) return failed(words[0]);
    return 0;
}

static int ask_hidraw(char **words, int count)
{
    unsigned char bytes[ROOM] = {0};
    int node = open(words[0], O_RDWR), size = count - 2, done = -1;
    if (node < 0) return failed(words[0]);
    errno = EINVAL;
    if (!strcmp(words[1], "input") || !strcmp(words[1], "feature")) {
        bytes[0] = atoi(words[2]);
        size = atoi(words[3]);
        done = ioctl(node, words[1][0] == 'i' ? HIDIOCGINPUT(size) : HIDIOCGFEATURE(size), bytes);
        return done < 0 ? failed(words[1]) : print_bytes(bytes, done);
    }
    bytes_of(words + 2, size, bytes);
    if (!strcmp(words[1], "set-feature")) done = ioctl(node, HIDIOCSFEATURE(size), bytes);
    if (!strcmp(words[1], "output")) done = write(node, bytes, size);
    return done < 0 ? failed(words[1]) : 0;
}

static int ask_usbfs(char **words, int count)
{
    unsigned char setup[8], bytes[ROOM] = {0};
    int node = open(words[0], O_RDWR), done = -1;
    if (node < 0) return failed(words[0]);
    errno = EINVAL;
    if (!strcmp(words[1], "reset")) done = ioctl(node, USBDEVFS_RESET, 0);
    if (!strcmp(words[1], "clear-halt")) {
        unsigned endpoint = strtol(words[2], NULL, 16);
        done = ioctl(node, USBDEVFS_CLEAR_HALT, &endpoint);
    }
    if (!strcmp(words[1], "control") && count >= 10) {
        bytes_of(words + 2, 8, setup);
        bytes_of(words + 10, count - 10, bytes);
        struct usbdevfs_ctrltransfer asked = {setup[0], setup[1], setup[2] | setup[3] << 8, setup[4] | setup[5] << 8,
                                              setup[6] | setup[7] << 8, PATIENCE, bytes};
        done = ioctl(node, USBDEVFS_CONTROL, &asked);
        if (done >= 0 && setup[0] & 0x80) return print_bytes(bytes, done);
    }
    return done < 0 ? failed(words[1]) : 0;
}

int main(int argc, char **argv)
{
    static char buffer[1 << 16];
    setvbuf(stdout, buffer, _IOFBF, sizeof buffer);
    if (argc == 2 && !strcmp(argv[1], "watch")) watch();
    if (argc == 5 && !strcmp(argv[1], "led")) return set_led(argv + 2);
    if (argc >= 5 && !strcmp(argv[1], "hidraw")) return ask_hidraw(argv + 2, argc - 2);
    if (argc >= 4 && !strcmp(argv[1], "usbfs")) return ask_usbfs(argv + 2, argc - 2);
    fprintf(stderr, "usbguest: see the head of tools/c/usbguest.c\n");
    return 2;
}
