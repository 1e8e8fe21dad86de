/* Decoders that were written by hand, each for the reports of one device, as a bound of what reading can cost: they know the
 * device's layout and nothing else, check length and ID, and write the same events as the C library (tools/measure/linux
 * compares them). The device is a name; `show` prints the events too. */
#include "hidstack.h"
#include "reads.h"

enum { MOUSE_AXES = 2, FINGERS = 5 };

/* What a decoder keeps of the reports before. */
static struct {
    uint32_t buttons;
    int64_t values[64];
    uint64_t keys[4];
    uint8_t last[256];
} kept;
static struct hidstack_event events[512];

static inline struct hidstack_event *put(struct hidstack_event *out, uint64_t item, uint64_t index, uint16_t page, uint16_t id, uint32_t kind, int64_t value)
{
    *out = (struct hidstack_event){value, item, index, page, id, kind};
    return out + 1;
}

/* Switches of one bit, side by side. */
static inline struct hidstack_event *put_switches(struct hidstack_event *out, uint64_t changed, uint64_t now, uint64_t item, uint16_t page, uint16_t first)
{
    for (; changed; changed &= changed - 1) {
        int place = __builtin_ctzll(changed), is_down = now >> place & 1;
        out = put(out, item, place, page, first + place, is_down, is_down);
    }
    return out;
}

static inline struct hidstack_event *put_buttons(struct hidstack_event *out, uint32_t now, uint64_t item)
{
    if (now != kept.buttons)
        out = put_switches(out, now ^ kept.buttons, now, item, 9, 1);
    kept.buttons = now;
    return out;
}

/* A motion of a range from -greatest to greatest. */
static inline struct hidstack_event *put_motion(struct hidstack_event *out, uint64_t item, uint64_t index, uint16_t page, uint16_t id, int motion, int greatest)
{
    return motion && motion >= -greatest ? put(out, item, index, page, id, HIDSTACK_MOTION, motion) : out;
}

/* A value of a range from 0 to greatest, which is kept at a place. */
static inline struct hidstack_event *put_value(struct hidstack_event *out, int place, uint64_t item, uint64_t index, uint16_t page, uint16_t id, int64_t value, int64_t greatest)
{
    if (value == kept.values[place] || value > greatest)
        return out;
    kept.values[place] = value;
    return put(out, item, index, page, id, HIDSTACK_VALUE, value);
}

static inline uint32_t word_at(const uint8_t *bytes)
{
    return bytes[0] | bytes[1] << 8;
}

static inline int of_12_bits(uint32_t number)
{
    return (int)(number << 20) >> 20;
}

static inline uint64_t eight_at(const uint8_t *bytes)
{
    uint64_t eight;
    memcpy(&eight, bytes, sizeof eight);
    return eight;
}

static long boot_mouse(const uint8_t *report, size_t length)
{
    if (length < 3)
        return -1;
    struct hidstack_event *out = put_buttons(events, report[0] & 7, 0);
    for (int axis = 0; axis < MOUSE_AXES; axis++)
        out = put_motion(out, 2, axis, 1, 0x30 + axis, (int8_t)report[1 + axis], 127);
    return out - events;
}

static long optical_mouse(const uint8_t *report, size_t length)
{
    if (length < 4)
        return -1;
    struct hidstack_event *out = put_buttons(events, report[0] & 7, 0);
    for (int axis = 0; axis < 3; axis++)
        out = put_motion(out, 2, axis, 1, axis < MOUSE_AXES ? 0x30 + axis : 0x38, (int8_t)report[1 + axis], 127);
    return out - events;
}

/* Reports 1 and 2: buttons with two wheels, and motions of 12 bits. */
static long mi_wireless_mouse(const uint8_t *report, size_t length)
{
    struct hidstack_event *out = events;
    if (length < 4 || report[0] < 1 || report[0] > 2)
        return -1;
    if (report[0] == 1) {
        out = put_buttons(out, report[1] & 31, 0);
        out = put_motion(out, 2, 0, 1, 0x38, (int8_t)report[2], 127);
        out = put_motion(out, 3, 0, 0xC, 0x238, (int8_t)report[3], 127);
    } else {
        out = put_motion(out, 4, 0, 1, 0x30, of_12_bits(word_at(report + 1)), 2047);
        out = put_motion(out, 4, 1, 1, 0x31, of_12_bits(word_at(report + 2) >> 4), 2047);
    }
    return out - events;
}

/* Six keys: each that went up, then each that went down. ErrorRollOver (1) leaves all; 0, 2 and 3 are no keys. */
static long boot_keyboard(const uint8_t *report, size_t length)
{
    if (length < 8)
        return -1;
    struct hidstack_event *out = events;
    uint64_t changed = eight_at(report) ^ eight_at(kept.last), now[2] = {0};
    if (changed & 0xFF)
        out = put_switches(out, changed & 0xFF, report[0], 0, 7, 0xE0);
    kept.last[0] = report[0];
    if (changed >> 16 == 0)
        return out - events;
    for (int place = 2; place < 8; place++) {
        uint8_t key = report[place];
        if (key == 1)
            return out - events;
        if (key > 3 && key <= 0x65)
            now[key >> 6] |= 1ull << (key & 63);
    }
    for (int is_down = 0; is_down < 2; is_down++)
        for (int word = 0; word < 2; word++) {
            uint64_t keys = is_down ? now[word] & ~kept.keys[word] : kept.keys[word] & ~now[word];
            for (; keys; keys &= keys - 1) {
                int key = 64 * word + __builtin_ctzll(keys);
                out = put(out, 4, key, 7, key, is_down, is_down);
            }
        }
    memcpy(kept.keys, now, sizeof now);
    memcpy(kept.last + 2, report + 2, 6);
    return out - events;
}

/* Report 2: one key of 16 bits, from 0 to 572. */
static long ite_keyboard(const uint8_t *report, size_t length)
{
    if (length < 3 || report[0] != 2)
        return -1;
    struct hidstack_event *out = events;
    uint32_t key = word_at(report + 1) <= 572 ? word_at(report + 1) : 0;
    if (key == kept.keys[0])
        return 0;
    if (kept.keys[0])
        out = put(out, 6, kept.keys[0], 0xC, kept.keys[0], HIDSTACK_UP, 0);
    if (key)
        out = put(out, 6, key, 0xC, key, HIDSTACK_DOWN, 1);
    kept.keys[0] = key;
    return out - events;
}

/* Tip, in range, X, Y and pressure. */
static long pen(const uint8_t *report, size_t length)
{
    if (length < 7)
        return -1;
    struct hidstack_event *out = events;
    uint32_t now = report[0] & 3, changed = now ^ kept.buttons;
    if (changed & 1)
        out = put(out, 0, 0, 0xD, 0x42, now & 1, now & 1);
    if (changed & 2)
        out = put(out, 1, 0, 0xD, 0x32, now >> 1, now >> 1);
    kept.buttons = now;
    out = put_value(out, 0, 3, 0, 1, 0x30, word_at(report + 1), 32767);
    out = put_value(out, 1, 4, 0, 1, 0x31, word_at(report + 3), 32767);
    out = put_value(out, 2, 5, 0, 0xD, 0x30, word_at(report + 5), 4095);
    return out - events;
}

static long qemu_tablet(const uint8_t *report, size_t length)
{
    if (length < 6)
        return -1;
    struct hidstack_event *out = put_buttons(events, report[0] & 7, 0);
    for (int axis = 0; axis < MOUSE_AXES; axis++)
        out = put_value(out, axis, 2, axis, 1, 0x30 + axis, word_at(report + 1 + 2 * axis), 32767);
    return put_motion(out, 3, 0, 1, 0x38, (int8_t)report[5], 127) - events;
}

/* Report 3: five fingers of confidence, tip, contact ID, X and Y; then scan time, contacts and a button. */
static long xps_touch_pad(const uint8_t *report, size_t length)
{
    if (length < 30 || report[0] != 3)
        return -1;
    struct hidstack_event *out = events;
    for (int finger = 0; finger < FINGERS; finger++) {
        const uint8_t *at = report + 1 + 5 * finger;
        uint64_t item = 3 + 5 * finger;
        uint32_t changed = (at[0] ^ kept.last[finger]) & 3;
        if (changed & 1)
            out = put(out, item, 0, 0xD, 0x47, at[0] & 1, at[0] & 1);
        if (changed & 2)
            out = put(out, item, 1, 0xD, 0x42, at[0] >> 1 & 1, at[0] >> 1 & 1);
        kept.last[finger] = at[0];
        out = put_value(out, 3 * finger, item + 1, 0, 0xD, 0x51, at[0] >> 2 & 7, 5);
        out = put_value(out, 3 * finger + 1, item + 3, 0, 1, 0x30, word_at(at + 1), 1216);
        out = put_value(out, 3 * finger + 2, item + 4, 0, 1, 0x31, word_at(at + 3), 680);
    }
    out = put_value(out, 15, 28, 0, 0xD, 0x56, word_at(report + 26), 65535);
    out = put_value(out, 16, 29, 0, 0xD, 0x54, report[28], 127);
    return put_buttons(out, report[29] & 1, 30) - events;
}

/* Report 1: axes, a hat, buttons, a counter, triggers and 54 bytes of the vendor, which are compared by eight. */
static long sony_dualshock4(const uint8_t *report, size_t length)
{
    static const uint16_t axes[] = {0x30, 0x31, 0x32, 0x35};
    static int has_hat;
    if (length < 64 || report[0] != 1)
        return -1;
    struct hidstack_event *out = events;
    for (int axis = 0; axis < 4; axis++)
        out = put_value(out, axis, 0, axis, 1, axes[axis], report[1 + axis], 255);
    int hat = report[5] & 15, is_on = hat <= 7;
    if (is_on != has_hat || (is_on && hat != kept.values[4])) {
        out = put(out, 1, 0, 1, 0x39, is_on ? HIDSTACK_VALUE : HIDSTACK_NULL, is_on ? hat : 0);
        kept.values[4] = hat;
        has_hat = is_on;
    }
    out = put_buttons(out, (report[5] >> 4 | word_at(report + 6) << 4) & 0x3FFF, 2);
    out = put_value(out, 5, 3, 0, 0xFF00, 0x20, report[7] >> 2, 127);
    for (int trigger = 0; trigger < 2; trigger++)
        out = put_value(out, 6 + trigger, 4, trigger, 1, 0x33 + trigger, report[8 + trigger], 255);
    for (int at = 0;; at = at + 16 > 54 ? 54 - 8 : at + 8) {
        uint64_t changed = eight_at(report + 10 + at) ^ eight_at(kept.last + at);
        while (changed) {
            int place = __builtin_ctzll(changed) / 8;
            out = put(out, 5, at + place, 0xFF00, 0x21, HIDSTACK_VALUE, report[10 + at + place]);
            changed &= ~(0xFFull << 8 * place);
        }
        memcpy(kept.last + at, report + 10 + at, 8);
        if (at == 54 - 8)
            return out - events;
    }
}

static const struct {
    const char *name;
    long (*reads)(const uint8_t *report, size_t length);
} decoders[] = {{"boot_mouse", boot_mouse}, {"optical_mouse", optical_mouse}, {"mi_wireless_mouse", mi_wireless_mouse},
                {"boot_keyboard", boot_keyboard}, {"ite_keyboard", ite_keyboard}, {"pen", pen}, {"qemu_tablet", qemu_tablet},
                {"xps_touch_pad", xps_touch_pad}, {"sony_dualshock4", sony_dualshock4}};
static long (*decoder)(const uint8_t *report, size_t length);

static long decode_and_show(const uint8_t *report, size_t length)
{
    long count = decoder(report, length);
    for (long i = 0; i < count; i++)
        printf("%u %lu.%lu %02X:%02X %ld\n", events[i].kind, events[i].item, events[i].index, events[i].page, events[i].id, events[i].value);
    return count;
}

int main(int words, char **word)
{
    for (size_t i = 0; words > 3 && i < sizeof decoders / sizeof *decoders; i++)
        if (strcmp(decoders[i].name, word[3]) == 0)
            decoder = decoders[i].reads;
    if (!decoder) {
        fputs("there is no decoder of that device\n", stderr);
        return 1;
    }
    return read_reports(words, word, strcmp(word[1], "show") == 0 ? decode_and_show : decoder);
}
