/* uhidplay FILE.hid ..: plays recordings into Linux's uhid, and prints what the kernel makes of each device and report.
 *
 *     file NAME
 *     device D LINE, then: refused (no driver took it), or
 *       node N NAME               an event node, in the order in which they were made
 *       same                      all below is as of the device before, whose descriptor is the same; or
 *       map USAGE ---> EVENT      a line of debugfs for each usage, in the kernel's order
 *       key INDEX USAGE CODE      EVIOCGKEYCODE_V2, usages of keys and those that have no code
 *       axis N CODE FUZZ          an absolute axis, and how far it is smoothed
 *     report D LINE, then:
 *       N TYPE CODE VALUE         its input events but EV_SYN, in the order of each node; auto-repeat is off
 *
 * It needs to be root of a system that does nothing else. */
#include <dirent.h>
#include <fcntl.h>
#include <linux/input.h>
#include <linux/netlink.h>
#include <linux/uhid.h>
#include <poll.h>
#include <stdio.h>
#include <stdlib.h>
#include <string.h>
#include <sys/ioctl.h>
#include <sys/socket.h>
#include <unistd.h>

enum { DEVICES = 16, NODES = 32, VENDOR = 0x16C0, PATIENCE = 5000 };

struct device { int uhid, nodes[NODES], count; };

static struct device devices[DEVICES];
static int uevents;

/* How many bytes stand after their number, or -1 where a word isn't two hex digits or the number isn't theirs: such a line
 * says nothing. */
static int bytes(char *text, unsigned char *into, int room)
{
    char *word = text ? strtok(text, " \t\r\n") : NULL;
    int count = 0, wanted = word ? atoi(word) : -1;
    while (word && count < room && (word = strtok(NULL, " \t\r\n"))) {
        if (strlen(word) != 2 || strspn(word, "0123456789abcdefABCDEF") != 2) return -1;
        into[count++] = strtol(word, NULL, 16);
    }
    return count == wanted ? count : -1;
}

/* Answers what the kernel asks of the device: it takes each report that is set, and has none to give. */
static void answer(int uhid)
{
    struct uhid_event asked, reply;
    while (read(uhid, &asked, sizeof asked) > 0) {
        memset(&reply, 0, sizeof reply);
        if (asked.type == UHID_SET_REPORT) {
            reply.type = UHID_SET_REPORT_REPLY;
            reply.u.set_report_reply.id = asked.u.set_report.id;
        } else if (asked.type == UHID_GET_REPORT) {
            reply.type = UHID_GET_REPORT_REPLY;
            reply.u.get_report_reply.id = asked.u.get_report.id;
            reply.u.get_report_reply.err = 5;
        } else {
            continue;
        }
        if (write(uhid, &reply, sizeof reply) < 0) perror("reply");
    }
}

/* Whether the descriptor is that of the device before; it is kept. */
static int is_same(const struct uhid_create2_req *device)
{
    static struct { int size; unsigned char data[HID_MAX_DESCRIPTOR_SIZE]; } last;
    if (last.size == (int)device->rd_size && !memcmp(last.data, device->rd_data, last.size)) return 1;
    last.size = device->rd_size;
    memcpy(last.data, device->rd_data, last.size);
    return 0;
}

/* Whether a driver took the device: its event "bind" says that probing is over. */
static int is_bound(int uhid, const char *id)
{
    struct pollfd waits[2] = {{uhid, POLLIN, 0}, {uevents, POLLIN, 0}};
    char message[4096];
    while (poll(waits, 2, PATIENCE) > 0) {
        answer(uhid);
        ssize_t size;
        while ((size = recv(uevents, message, sizeof message - 1, MSG_DONTWAIT)) > 0) {
            message[size] = 0;
            if (!strncmp(message, "bind@", 5) && strstr(message, id)) return 1;
        }
    }
    return 0;
}

/* Takes the node for this program, so that no key reaches the console, and puts auto-repeat off. */
static int take_node(int node)
{
    unsigned never[2] = {0, 0};
    struct input_event told = {.type = EV_SYN, .code = SYN_REPORT};
    if (ioctl(node, EVIOCGRAB, 1)) return 0;
    if (!ioctl(node, EVIOCSREP, never) && write(node, &told, sizeof told) < 0) perror("auto-repeat");
    while (read(node, &told, sizeof told) == sizeof told) {}
    return 1;
}

static void open_nodes(struct device *device, const char *where)
{
    for (int i = 0; i < 256 && device->count < NODES; i++) {
        char path[64], phys[64] = "", name[256] = "";
        snprintf(path, sizeof path, "/dev/input/event%d", i);
        int node = open(path, O_RDWR | O_NONBLOCK);
        if (node < 0) continue;
        ioctl(node, EVIOCGPHYS(sizeof phys - 1), phys);
        ioctl(node, EVIOCGNAME(sizeof name - 1), name);
        if (strcmp(phys, where) || !take_node(node)) { close(node); continue; }
        printf("node %d %s\n", device->count, name);
        device->nodes[device->count++] = node;
    }
}

static void print_keys(int node)
{
    struct input_keymap_entry entry = {.flags = INPUT_KEYMAP_BY_INDEX};
    for (int i = 0; i < 65536; i++) {
        entry.index = i;
        entry.len = sizeof(unsigned);
        if (ioctl(node, EVIOCGKEYCODE_V2, &entry) < 0) return;
        unsigned usage;
        memcpy(&usage, entry.scancode, sizeof usage);
        printf("key %d %08X %d\n", i, usage, entry.keycode);
    }
}

static void print_axes(int number, int node)
{
    unsigned char has[ABS_CNT / 8] = {0};
    struct input_absinfo axis;
    ioctl(node, EVIOCGBIT(EV_ABS, sizeof has), has);
    for (int code = 0; code < ABS_CNT; code++)
        if (has[code / 8] >> code % 8 & 1 && ioctl(node, EVIOCGABS(code), &axis) >= 0)
            printf("axis %d %d %d\n", number, code, axis.fuzz);
}

static void print_map(const char *id)
{
    DIR *folder = opendir("/sys/kernel/debug/hid");
    for (struct dirent *entry; folder && (entry = readdir(folder));) {
        char path[512], line[1024];
        if (!strstr(entry->d_name, id)) continue;
        snprintf(path, sizeof path, "/sys/kernel/debug/hid/%s/rdesc", entry->d_name);
        FILE *file = fopen(path, "r");
        while (file && fgets(line, sizeof line, file))
            if (strstr(line, " ---> ")) printf("map %s", line);
        if (file) fclose(file);
    }
    if (folder) closedir(folder);
}

static void unplug(struct device *device)
{
    struct uhid_event event = {.type = UHID_DESTROY};
    if (device->uhid <= 0) return;
    for (int i = 0; i < device->count; i++) close(device->nodes[i]);
    if (write(device->uhid, &event, sizeof event) < 0) perror("destroy");
    close(device->uhid);
    memset(device, 0, sizeof *device);
}

static void plug(int number, int line, char *text)
{
    static struct uhid_event event;
    struct device *device = &devices[number];
    char id[32];
    unplug(device);
    memset(&event, 0, sizeof event);
    event.type = UHID_CREATE2;
    strcpy((char *)event.u.create2.name, "played");
    snprintf((char *)event.u.create2.phys, sizeof event.u.create2.phys, "played/%d", number);
    int size = bytes(text, event.u.create2.rd_data, HID_MAX_DESCRIPTOR_SIZE);
    if (size < 0) return;
    event.u.create2.rd_size = size;
    event.u.create2.bus = BUS_USB;
    event.u.create2.vendor = VENDOR;
    event.u.create2.product = number + 1;
    snprintf(id, sizeof id, "0003:%04X:%04X.", VENDOR, number + 1);
    printf("device %d %d\n", number, line);
    device->uhid = open("/dev/uhid", O_RDWR | O_CLOEXEC | O_NONBLOCK);
    if (device->uhid < 0 || write(device->uhid, &event, sizeof event) < 0 || !is_bound(device->uhid, id)) {
        printf("refused\n");
        unplug(device);
        return;
    }
    open_nodes(device, (char *)event.u.create2.phys);
    if (is_same(&event.u.create2)) { printf("same\n"); return; }
    print_map(id);
    if (device->count) print_keys(device->nodes[0]);
    for (int i = 0; i < device->count; i++) print_axes(i, device->nodes[i]);
}

/* A report: the kernel has delivered its events when the write is over. */
static void send_report(int number, int line, char *text)
{
    static struct uhid_event event;
    struct device *device = &devices[number];
    struct input_event told;
    if (device->uhid <= 0) return;
    memset(&event, 0, sizeof event);
    event.type = UHID_INPUT2;
    int size = bytes(text, event.u.input2.data, UHID_DATA_MAX);
    if (size < 0) return;
    event.u.input2.size = size;
    printf("report %d %d\n", number, line);
    if (write(device->uhid, &event, sizeof event) < 0) perror("report");
    for (int i = 0; i < device->count; i++)
        while (read(device->nodes[i], &told, sizeof told) == sizeof told)
            if (told.type != EV_SYN || told.code == SYN_DROPPED)
                printf("%d %d %d %d\n", i, told.type, told.code, told.value);
    answer(device->uhid);
}

/* Where the bytes of a line begin, after its first `words` words. */
static char *behind(char *line, int words)
{
    for (char *at = line; at && words--;)
        if ((at = strpbrk(at, " \t"))) line = at += strspn(at, " \t");
        else return NULL;
    return line;
}

static void play(const char *path)
{
    char *line = NULL;
    size_t room = 0;
    int number = 0, count = 0;
    FILE *file = fopen(path, "r");
    if (!file) { perror(path); return; }
    printf("file %s\n", path);
    while (getline(&line, &room, file) > 0) {
        count++;
        if (!strncmp(line, "D:", 2) && atoi(line + 2) < DEVICES) number = atoi(line + 2);
        else if (!strncmp(line, "R:", 2)) plug(number, count, behind(line, 1));
        else if (!strncmp(line, "E:", 2)) send_report(number, count, behind(line, 2));
    }
    for (int i = 0; i < DEVICES; i++) unplug(&devices[i]);
    free(line);
    fclose(file);
}

int main(int argc, char **argv)
{
    struct sockaddr_nl all = {.nl_family = AF_NETLINK, .nl_groups = 1};
    static char buffer[1 << 16];
    setvbuf(stdout, buffer, _IOFBF, sizeof buffer);
    uevents = socket(AF_NETLINK, SOCK_DGRAM | SOCK_CLOEXEC, NETLINK_KOBJECT_UEVENT);
    if (uevents < 0 || bind(uevents, (struct sockaddr *)&all, sizeof all)) { perror("uevents"); return 1; }
    for (int i = 1; i < argc; i++) play(argv[i]);
    printf("end\n");
    return 0;
}
