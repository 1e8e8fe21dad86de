// kvm.c in C++17, a KVM switch: one keyboard for two machines. A Host reads the keyboard, and each machine sees a boot keyboard, a
// Device. Scroll Lock goes to the other machine: what is held is let go first. The LEDs are those of the machine in use.
//
// So that the program runs anywhere, the keyboard is a virtual device too, and each machine is a host, which prints its events.
#include <array>
#include <cstdio>
#include <hidstack.h>
#include <optional>
#include <stdexcept>
#include <utility>
#include <vector>

using Bytes = std::vector<std::uint8_t>;

// A handle of the library, which closes itself.
template <typename Struct, void (*close)(Struct *)> struct Handle {
    Struct it{};
    Handle() = default;
    Handle(const Handle &) = delete;
    Handle &operator=(const Handle &) = delete;
    ~Handle() { close(&it); }
};

// A virtual device: the device's end of a cable.
struct Device : Handle<hidstack_device, hidstack_device_close> {
    bool loses = false; // whether the next report that is sent to it is lost on its cable

    Device(const hidstack_config &config, const Bytes &descriptor)
    {
        hidstack_device_opened opened;
        if (hidstack_device_open(&config, descriptor.data(), descriptor.size(), &it, &opened) != HIDSTACK_OK)
            throw std::runtime_error("no such device");
    }

    // Changes the control of this usage, if there is one.
    void change(std::uint32_t (*call)(hidstack_device *, std::uint64_t, std::uint64_t), std::uint16_t page, std::uint16_t id)
    {
        std::uint64_t item, index;
        if (hidstack_device_find(&it, page, id, 0, &item, &index) == HIDSTACK_OK)
            call(&it, item, index);
    }

    // A control transfer: its outcome, and the bytes that it answers.
    std::uint32_t control(const hidstack_setup &setup, const Bytes &data, Bytes &answer)
    {
        if (loses && setup.request == HIDSTACK_SET_REPORT) {
            loses = false;
            return HIDSTACK_FAILED;
        }
        std::uint64_t answered = 0;
        answer.resize(setup.request_type >= 0x80 ? setup.length : 0);
        const auto outcome = hidstack_device_control(&it, &setup, data.data(), data.size(), answer.data(), answer.size(), &answered);
        answer.resize(outcome == HIDSTACK_OK ? answered : 0);
        return outcome;
    }

    // The first byte after the ID of an Output report, as the host set it last.
    std::uint8_t output(std::uint8_t id)
    {
        std::array<std::uint8_t, 2> report{};
        std::uint64_t length;
        hidstack_device_output(&it, HIDSTACK_OUTPUT, id, report.data(), report.size(), &length);
        return report[id ? 1 : 0];
    }
};

// The host of a real device: the host's end of a cable.
struct Host : Handle<hidstack_host, hidstack_host_close> {
    std::vector<hidstack_host_event> events;

    Host()
    {
        if (hidstack_host_open(&it) != HIDSTACK_OK)
            throw std::bad_alloc();
    }

    // Makes the control transfers that the host wants of a device: whether what it was asked for is done.
    bool transfer(Device &device)
    {
        hidstack_setup setup;
        hidstack_moved moved;
        hidstack_host_info info{};
        Bytes data(16384), answer; // no data are longer
        std::uint64_t length;
        bool done = false;
        for (; data.resize(16384), hidstack_host_todo(&it, &setup, data.data(), data.size(), &length) == HIDSTACK_OK; answer.clear()) {
            data.resize(length);
            const auto outcome = device.control(setup, data, answer);
            const auto status = hidstack_host_done(&it, outcome, answer.data(), answer.size(), &moved);
            if (status == HIDSTACK_MEMORY)
                throw std::bad_alloc();
            done |= status == HIDSTACK_OK && moved.step == HIDSTACK_MOVE_ANSWERED;
        }
        hidstack_host_device(&it, &info);
        events.resize(info.room);
        return done;
    }

    // The first events of the table: none unless the call that wrote them was done.
    std::vector<hidstack_host_event> first(std::uint32_t status, const hidstack_host_result &result) const
    {
        return {events.begin(), events.begin() + static_cast<std::ptrdiff_t>(status == HIDSTACK_OK ? result.count : 0)};
    }

    // The events of the interrupt transfer that is due from a device to an interface, if one is.
    std::vector<hidstack_host_event> poll_report(std::uint64_t interface, Device &device)
    {
        std::array<std::uint8_t, 64> report;
        std::uint64_t length;
        hidstack_host_result result;
        const auto outcome = hidstack_device_report(&device.it, report.data(), report.size(), &length);
        if (outcome == HIDSTACK_NONE)
            return {};
        const auto came = outcome == HIDSTACK_OK ? length : 0;
        const auto status = hidstack_host_report(&it, interface, outcome, report.data(), came, events.data(), events.size(), &result);
        return first(status, result);
    }

    // The device is gone: the events that let go of all that is held.
    std::vector<hidstack_host_event> reset()
    {
        hidstack_host_result result;
        const auto status = hidstack_host_reset(&it, events.data(), events.size(), &result);
        return first(status, result);
    }

    // What is known of each interface.
    std::vector<hidstack_interface_info> interfaces()
    {
        std::vector<hidstack_interface_info> found;
        hidstack_interface_info info;
        while (hidstack_host_interface(&it, found.size(), &info) == HIDSTACK_OK)
            found.push_back(info);
        return found;
    }

    // The first Output element of a usage, and the place of its interface.
    std::optional<std::pair<std::uint64_t, hidstack_element_info>> find_output(std::uint16_t page, std::uint16_t id)
    {
        hidstack_element_info element;
        for (std::uint64_t interface = 0; interface < interfaces().size(); interface++)
            if (hidstack_host_find(&it, interface, HIDSTACK_OUTPUT, page, id, 0, &element) == HIDSTACK_OK)
                return std::pair{interface, element};
        return {};
    }

    // Asks an interface to take an Output report: whether it will be sent.
    bool send(std::uint64_t interface, std::uint8_t id, const Bytes &report)
    {
        const hidstack_ask ask{HIDSTACK_SET_REPORT, HIDSTACK_OUTPUT, id, 0, 0};
        hidstack_host_result result;
        return hidstack_host_ask(&it, interface, &ask, report.data(), report.size(), &result) == HIDSTACK_OK;
    }
};

// Pages of the HID Usage Tables, and the key that changes machines
constexpr std::uint16_t KEYS = 0x07, LEDS = 0x08, SCROLL_LOCK = 0x47;

static Bytes boot_keyboard()
{
    Bytes descriptor(64);
    std::uint64_t length;
    if (hidstack_boot_descriptor(HIDSTACK_BOOT_KEYBOARD, descriptor.data(), descriptor.size(), &length) == HIDSTACK_OK)
        descriptor.resize(length);
    return descriptor;
}

class Kvm {
    static constexpr hidstack_config config{0x1209, 0x0001, 1, HIDSTACK_BOOT_KEYBOARD, 0};
    Host keyboard;
    std::size_t active = 0;
    std::uint8_t lit = 0;               // the LEDs that the keyboard shows, LED 1 in the first bit
    std::uint8_t asked = 0, wanted = 0; // the LEDs of the report that is on its way to the keyboard, and which of them it lights

    // Lets go of all keys of the machine in use, and goes to the other.
    void change()
    {
        hidstack_device_release_all(&machines[active].it);
        active = 1 - active;
    }

    // Passes events to the machine in use. A key that a boot keyboard doesn't have goes nowhere.
    void pass(const std::vector<hidstack_host_event> &events)
    {
        for (const hidstack_host_event &each : events) {
            const hidstack_event &event = each.event;
            if (event.page == KEYS && event.id == SCROLL_LOCK) {
                if (event.kind == HIDSTACK_DOWN)
                    change();
            } else if (event.kind == HIDSTACK_DOWN || event.kind == HIDSTACK_UP) {
                machines[active].change(event.kind == HIDSTACK_DOWN ? hidstack_device_press : hidstack_device_release, event.page, event.id);
            }
        }
    }

    // Asks an interface of the keyboard to take its report of this ID, with the LEDs of `on`.
    void ask_for_leds(std::uint64_t interface, std::uint8_t report_id, std::uint8_t on)
    {
        Bytes report(16384); // no report is longer
        std::uint64_t length;
        if (hidstack_host_blank(&keyboard.it, interface, HIDSTACK_OUTPUT, report_id, report.data(), report.size(), &length) != HIDSTACK_OK)
            return;
        report.resize(length);
        asked = 0;
        wanted = on;
        for (std::uint16_t id = 1; id <= 5; id++)
            if (const auto led = keyboard.find_output(LEDS, id); led && led->first == interface && led->second.report == report_id) {
                hidstack_put(&led->second, report.data(), report.size(), on >> (id - 1) & 1);
                asked |= static_cast<std::uint8_t>(1 << (id - 1));
            }
        keyboard.send(interface, report_id, report);
    }

    // Asks the keyboard for the first LED that it doesn't show as the machine in use has it.
    void pass_leds()
    {
        const std::uint8_t on = machines[active].output(0); // its first bit is LED 1
        for (std::uint16_t id = 1; id <= 5; id++)
            if ((on ^ lit) >> (id - 1) & 1)
                if (const auto led = keyboard.find_output(LEDS, id))
                    return ask_for_leds(led->first, led->second.report, on);
    }

public:
    std::array<Device, 2> machines{Device{config, boot_keyboard()}, Device{config, boot_keyboard()}};

    // What the keyboard has to say goes to the machine in use, and that one's LEDs to the keyboard.
    void turn(Device &at_hand)
    {
        if (keyboard.transfer(at_hand))
            lit = static_cast<std::uint8_t>((lit & ~asked) | (wanted & asked));
        const auto interfaces = keyboard.interfaces();
        for (std::size_t place = 0; place < interfaces.size(); place++)
            if (interfaces[place].state == HIDSTACK_INTERFACE_LIVE)
                pass(keyboard.poll_report(place, at_hand));
        pass_leds();
    }

    // The keyboard is unplugged: what is held goes up, also in the machine.
    void unplug()
    {
        pass(keyboard.reset());
        lit = 0;
    }
};

// ---- That was the switch. From here on: what stands in for a desk, and what happens there ----

// A keyboard with Report IDs: modifiers, the keys up to F20, three LEDs after three bits of padding; two LEDs in a report of their own;
// and two volume keys.
static const Bytes descriptor{
    0x05, 0x01, 0x09, 0x06, 0xA1, 0x01, 0x85, 0x01, 0x05, 0x07, 0x19, 0xE0, 0x29, 0xE7, 0x15, 0x00, 0x25, 0x01, 0x75, 0x01, 0x95, 0x08,
    0x81, 0x02, 0x19, 0x04, 0x29, 0x6F, 0x95, 0x6C, 0x81, 0x02, 0x95, 0x04, 0x81, 0x01, 0x05, 0x08, 0x95, 0x03, 0x91, 0x01, 0x19, 0x01,
    0x29, 0x03, 0x91, 0x02, 0x95, 0x02, 0x91, 0x01, 0x85, 0x03, 0x19, 0x04, 0x29, 0x05, 0x91, 0x02, 0x95, 0x06, 0x91, 0x01, 0xC0, 0x05,
    0x0C, 0x09, 0x01, 0xA1, 0x01, 0x85, 0x02, 0x09, 0xE9, 0x09, 0xEA, 0x95, 0x02, 0x81, 0x02, 0x95, 0x06, 0x81, 0x01, 0xC0};

struct Desk {
    Kvm kvm;
    std::optional<Device> keyboard{std::in_place, hidstack_config{0x1209, 0x0002, 10, 0, 0}, descriptor};
    std::array<Host, 2> machines;
    std::pair<std::uint8_t, std::uint8_t> leds; // of the keyboard's reports 1 and 3, as they were printed last

    static void print(std::size_t machine, const hidstack_event &event)
    {
        std::array<std::uint8_t, 80> name;
        std::uint64_t length;
        if (hidstack_usage_name(event.page, event.id, name.data(), name.size(), &length) == HIDSTACK_OK)
            std::printf("  machine %zu: %.*s %s\n", machine + 1, static_cast<int>(length), reinterpret_cast<const char *>(name.data()), event.kind == HIDSTACK_DOWN ? "down" : "up");
    }

    // Some milliseconds pass: turns of the switch, and transfers of the machines, which print what comes to them.
    void wait()
    {
        for (int turns = 0; turns < 5; turns++) {
            if (keyboard)
                kvm.turn(*keyboard);
            for (std::size_t machine = 0; machine < machines.size(); machine++) {
                machines[machine].transfer(kvm.machines[machine]);
                for (const hidstack_host_event &each : machines[machine].poll_report(0, kvm.machines[machine]))
                    print(machine, each.event);
            }
        }
        const auto now = keyboard ? std::pair{keyboard->output(1), keyboard->output(3)} : leds;
        if (now != leds)
            std::printf("  LEDs of the keyboard: %02X %02X\n", now.first, now.second);
        leds = now;
    }

    void finger(const char *what, std::uint16_t page, std::uint16_t id, bool down)
    {
        std::puts(what);
        keyboard->change(down ? hidstack_device_press : hidstack_device_release, page, id);
        wait();
    }

    // A machine lights LEDs of its keyboard: 1 Num Lock, 2 Caps Lock, 4 Scroll Lock, 16 Kana.
    void light(const char *what, std::size_t machine, std::uint8_t lit)
    {
        std::puts(what);
        machines[machine].send(0, 0, {lit});
        wait();
    }
};

int main()
try {
    Desk desk;
    desk.wait();
    desk.finger("Shift goes down", KEYS, 0xE1, true);
    desk.finger("A goes down", KEYS, 0x04, true);
    desk.light("machine 1 lights Caps Lock", 0, 2);
    desk.finger("Scroll Lock goes down", KEYS, SCROLL_LOCK, true);
    desk.finger("Scroll Lock goes up", KEYS, SCROLL_LOCK, false);
    desk.finger("A goes up", KEYS, 0x04, false);
    desk.finger("B goes down", KEYS, 0x05, true);
    desk.finger("Volume Up goes down", 0x0C, 0xE9, true);
    desk.light("machine 2 lights Num Lock", 1, 1);
    desk.light("machine 1 lights Caps Lock and Scroll Lock", 0, 6);
    desk.finger("Scroll Lock goes down", KEYS, SCROLL_LOCK, true);
    desk.finger("C goes down", KEYS, 0x06, true);
    desk.keyboard->loses = true;
    desk.light("machine 1 lights Num Lock and Kana, and a report to the keyboard is lost", 0, 17);
    std::puts("the keyboard is unplugged");
    desk.keyboard.reset();
    desk.kvm.unplug();
    desk.wait();
} catch (const std::exception &why) {
    std::fprintf(stderr, "kvm: %s\n", why.what());
    return 1;
}
