// hidraw DESCRIPTOR: hidraw.c in C++17. Each read of standard input gives a report, as those of /dev/hidraw0 do. It ends as hidraw.c does.
#include <array>
#include <cerrno>
#include <cinttypes>
#include <cstdio>
#include <hidstack.h>
#include <memory>
#include <new>
#include <string>
#include <system_error>
#include <unistd.h>
#include <vector>

using Bytes = std::vector<std::uint8_t>;

enum { DONE = 0, REFUSED = 1, FAILED = 2 };

static std::system_error failure(const char *what)
{
    return {errno, std::generic_category(), what};
}

// A device of which reports are read, which closes itself.
class Reader {
    hidstack handle = HIDSTACK_INIT;
    std::vector<hidstack_event> table;

    // The events that a call wrote.
    std::vector<hidstack_event> first(std::uint64_t count) const { return {table.begin(), table.begin() + static_cast<std::ptrdiff_t>(count)}; }

public:
    Reader() = default;
    Reader(const Reader &) = delete;
    Reader &operator=(const Reader &) = delete;
    ~Reader() { hidstack_close(&handle); }

    // Whether the descriptor is accepted.
    bool open(const Bytes &descriptor)
    {
        hidstack_opened opened;
        if (hidstack_open(descriptor.data(), descriptor.size(), &handle, &opened) != HIDSTACK_OK) {
            if (opened.cause == 17)
                throw std::bad_alloc();
            return false;
        }
        table.resize(opened.room);
        return true;
    }

    // The events of a report: none unless the status is HIDSTACK_OK.
    std::vector<hidstack_event> feed(const std::uint8_t *report, std::size_t length, std::uint32_t &status)
    {
        std::uint64_t count;
        status = hidstack_feed(&handle, report, length, table.data(), table.size(), &count);
        return first(status == HIDSTACK_OK ? count : 0);
    }

    // The events that let go of all that is held.
    std::vector<hidstack_event> release()
    {
        std::uint64_t count;
        return first(hidstack_release(&handle, table.data(), table.size(), &count) == HIDSTACK_OK ? count : 0);
    }
};

// The text that a call writes into a room; nothing but for HIDSTACK_OK.
template <typename Call> std::string text(const Call &call)
{
    std::array<std::uint8_t, 128> room;
    std::uint64_t length;
    const std::uint32_t status = call(room.data(), room.size(), &length);
    if (status == HIDSTACK_MEMORY)
        throw std::bad_alloc();
    if (status != HIDSTACK_OK)
        return {};
    return {room.begin(), room.begin() + static_cast<std::ptrdiff_t>(length)};
}

static void print(const std::vector<hidstack_event> &events)
{
    static const std::array<const char *, 6> words{"up", "down", "value", "null", "motion", "dropped"};
    for (const hidstack_event &event : events) {
        const std::string name = text([&](auto... room) { return hidstack_usage_name(event.page, event.id, room...); });
        std::printf("%s %02X:%02X %" PRId64 "%s%s\n", words[event.kind], event.page, event.id, event.value, name.empty() ? "" : " ", name.c_str());
    }
    if (std::fflush(stdout) != 0)
        throw failure("standard output");
}

static Bytes read_descriptor(const char *name)
{
    const std::unique_ptr<std::FILE, int (*)(std::FILE *)> file(std::fopen(name, "rb"), std::fclose);
    if (!file)
        throw failure(name);
    Bytes descriptor(4097); // of more bytes any descriptor is refused (L2)
    descriptor.resize(std::fread(descriptor.data(), 1, descriptor.size(), file.get()));
    if (std::ferror(file.get()))
        throw failure(name);
    return descriptor;
}

// Bytes of the next report; 0 at the end, and where the device is unplugged.
static std::size_t next(std::uint8_t *report, std::size_t room)
{
    ssize_t got;
    do
        got = read(0, report, room);
    while (got < 0 && errno == EINTR);
    if (got < 0 && errno != EIO && errno != ENODEV)
        throw failure("standard input");
    return got < 0 ? 0 : static_cast<std::size_t>(got);
}

// Prints the events of all reports.
static int play(Reader &device)
{
    Bytes report(16384); // no report is longer
    int ended = DONE;
    while (const std::size_t got = next(report.data(), report.size())) {
        std::uint32_t status;
        print(device.feed(report.data(), got, status));
        if (status != HIDSTACK_OK) {
            std::fprintf(stderr, "hidraw: %s: %zu bytes\n", status == HIDSTACK_SHORT ? "a report is too short" : "no report of the device", got);
            ended = REFUSED;
        }
    }
    print(device.release());
    return ended;
}

int main(int argc, char **argv)
try {
    if (argc != 2) {
        std::fprintf(stderr, "usage: hidraw DESCRIPTOR < /dev/hidraw0\n");
        return FAILED;
    }
    const Bytes descriptor = read_descriptor(argv[1]);
    Reader device;
    if (device.open(descriptor))
        return play(device);
    const std::string why = text([&](auto... room) { return hidstack_refusal_text(descriptor.data(), descriptor.size(), room...); });
    std::fprintf(stderr, "refused: %s\n", why.c_str());
    return REFUSED;
} catch (const std::exception &why) {
    std::fprintf(stderr, "hidraw: %s\n", why.what());
    return FAILED;
}
