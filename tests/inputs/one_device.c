// A libusb with one device, whose HID interface has the report descriptor in the file $DESCRIPTOR. lsusb and usbhid-dump print what
// they read of it:
//   cc -shared -fPIC -o one_device.so one_device.c
//   DESCRIPTOR=mouse.bin LD_PRELOAD=$PWD/one_device.so lsusb -v
#include <libusb-1.0/libusb.h>
#include <stdio.h>
#include <stdlib.h>
#include <string.h>

static unsigned char report[65535], hid[9] = {9, 0x21, 0x11, 1, 0, 1, 0x22};
static int length;
static libusb_device *devices[2] = {(libusb_device *)report, 0};
static struct libusb_endpoint_descriptor endpoint = {7, 5, 0x81, 3, 8, 10, 0, 0, 0, 0};
static struct libusb_interface_descriptor setting = {9, 4, 0, 0, 1, 3, 1, 2, 0, &endpoint, hid, 9};
static struct libusb_interface interface = {&setting, 1};
static struct libusb_config_descriptor config = {9, 2, 34, 1, 1, 0, 0xA0, 49, &interface, 0, 0};

int libusb_init(libusb_context **context) {
    FILE *file = fopen(getenv("DESCRIPTOR"), "rb");
    length = fread(report, 1, sizeof report, file);
    fclose(file);
    hid[7] = length, hid[8] = length >> 8;
    if (context) *context = 0;
    return 0;
}
void libusb_exit(libusb_context *context) {}
int libusb_set_option(libusb_context *context, enum libusb_option option, ...) { return 0; }
ssize_t libusb_get_device_list(libusb_context *context, libusb_device ***list) { return *list = devices, 1; }
void libusb_free_device_list(libusb_device **list, int unref) {}
uint8_t libusb_get_bus_number(libusb_device *device) { return 1; }
uint8_t libusb_get_device_address(libusb_device *device) { return 2; }
int libusb_get_port_numbers(libusb_device *device, uint8_t *ports, int count) { return 0; }
int libusb_get_device_descriptor(libusb_device *device, struct libusb_device_descriptor *it) {
    *it = (struct libusb_device_descriptor){18, 1, 0x200, 0, 0, 0, 8, 0x1209, 1, 0x100, 0, 0, 0, 1};
    return 0;
}
int libusb_get_config_descriptor(libusb_device *device, uint8_t index, struct libusb_config_descriptor **it) { return *it = &config, 0; }
int libusb_get_active_config_descriptor(libusb_device *device, struct libusb_config_descriptor **it) { return *it = &config, 0; }
void libusb_free_config_descriptor(struct libusb_config_descriptor *it) {}
int libusb_open(libusb_device *device, libusb_device_handle **handle) { return *handle = (libusb_device_handle *)report, 0; }
void libusb_close(libusb_device_handle *handle) {}
libusb_device *libusb_get_device(libusb_device_handle *handle) { return devices[0]; }
int libusb_claim_interface(libusb_device_handle *handle, int number) { return getenv("BUSY") ? LIBUSB_ERROR_BUSY : 0; }
int libusb_release_interface(libusb_device_handle *handle, int number) { return 0; }
int libusb_detach_kernel_driver(libusb_device_handle *handle, int number) { return 0; }
int libusb_attach_kernel_driver(libusb_device_handle *handle, int number) { return 0; }
int libusb_get_string_descriptor_ascii(libusb_device_handle *handle, uint8_t index, unsigned char *text, int size) { return 0; }
// GET_DESCRIPTOR of the report descriptor; other requests aren't answered.
int libusb_control_transfer(libusb_device_handle *handle, uint8_t type, uint8_t request, uint16_t value, uint16_t index, unsigned char *data, uint16_t size, unsigned int wait) {
    if (request != 6 || value >> 8 != 0x22) return LIBUSB_ERROR_PIPE;
    int count = length < size ? length : size;
    memcpy(data, report, count);
    return count;
}
