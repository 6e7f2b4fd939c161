/* What a device tells, field by field: every kind of output, every reason, what waits and what is
 * open. A scanner gives commands, and this program is the wire. */
#include "cip_device.h"
#include <stdio.h>

static cip_device device = CIP_DEVICE_EMPTY;
static uint8_t buffer[CIP_MOST_BYTES];
static const uint8_t path[] = {0x02, 0x07, 0x20, 0x04, 0x24, 0x64, 0x2C, 0x65, 0x2C, 0x66};
static const uint8_t adapter[] = {0x07};
static const cip_timing timing = {7, 0xF9};

/* The outputs of a call. */
static void outputs(const char *call, uint32_t status) {
    cip_output o;
    printf("%s: %s\n", call, cip_error_text(status));
    while (cip_next(&device, &o, buffer, sizeof buffer) == CIP_DONE) {
        printf("  kind %u reason %u number %u instance %u of %u %u %u to %u %u %u length %zu:",
               o.kind, o.reason, o.number, o.instance, o.serial, o.vendor, o.originator, o.port,
               o.to_length, o.to[0], o.length);
        for (size_t i = 0; i < o.length; i++)
            printf(" %02X", buffer[i]);
        printf("\n");
    }
}

static void waiting(void) {
    cip_pending_row row;
    for (size_t at = 0; cip_pending(&device, at, &row) == CIP_DONE; at++)
        printf("waits: kind %u of %u %u %u, op %u, number %u, until %llu\n", row.kind, row.serial,
               row.vendor, row.originator, row.up.number, row.down.number,
               (unsigned long long)row.deadline);
}

static void open_now(void) {
    cip_connection_row row;
    for (size_t at = 0; cip_connection(&device, at, &row) == CIP_DONE; at++)
        printf("open: %u %u %u, op %u, ids %u %u, sizes %u %u, intervals %u %u, class %u, "
               "until %llu %llu\n",
               row.serial, row.vendor, row.originator, row.up.number, row.down.number, row.down_id,
               row.ot_size, row.to_size, row.ot_rpi, row.to_rpi, row.transport_class,
               (unsigned long long)row.up_deadline, (unsigned long long)row.down_deadline);
}

int main(void) {
    const cip_config config = {.kind = CIP_PLAIN,
                               .first_id = 0x11,
                               .first_number = 1,
                               .pending_room = 8,
                               .hop_room = 8,
                               .vendor = 0x0101,
                               .device_type = 14,
                               .product = 9,
                               .serial = 0x0A0B0C0D,
                               .major = 1,
                               .minor = 3};
    const cip_port port = {.number = 2, .last = 0xFE, .address_length = 1, .address = {5}};
    static const cip_assembly none[1];
    static const uint8_t identity[] = {0x01, 0x02, 0x20, 0x01, 0x24, 0x01};
    static const uint8_t wrapped[] = {0x52, 0x02, 0x20, 0x06, 0x24, 0x01};
    static const uint8_t reset[] = {0x05, 0x02, 0x20, 0x01, 0x24, 0x01};
    static const uint8_t opened[] = {0xD4, 0, 0, 0, 0x41, 0, 0, 0, 0x11, 0, 0, 0, 0x07, 0x00, 0x01,
                                     0x01, 0x0D, 0x0C, 0x0B, 0x0A, 0x20, 0x4E, 0, 0, 0x30, 0x75, 0,
                                     0, 0, 0};
    static const uint8_t opened_large[] = {0xDB, 0, 0, 0, 0x42, 0, 0, 0, 0x12, 0, 0, 0, 0x08, 0x00,
                                           0x01, 0x01, 0x0D, 0x0C, 0x0B, 0x0A, 0x40, 0x9C, 0, 0,
                                           0x50, 0xC3, 0, 0, 0, 0};
    static const uint8_t bytes[] = {0xCA, 0xFE, 0xBA, 0xBE, 0x00};
    const cip_open_params params = {.ot_rpi = 20000,
                                    .to_rpi = 30000,
                                    .ot_params = 0x4804,
                                    .to_params = 0x4802,
                                    .serial = 7,
                                    .multiplier = 3,
                                    .transport = 0};
    const cip_large_params large = {.ot_rpi = 40000,
                                    .to_rpi = 50000,
                                    .ot_params = 0x48000006,
                                    .to_params = 0x48000004,
                                    .serial = 8,
                                    .multiplier = 1,
                                    .transport = 1};
    if (cip_new(&device, &config, (const uint8_t *)"S", 1, (const uint8_t *)"SC", 2, &port, 1, none,
                0) != CIP_DONE)
        return 1;
    outputs("enter", cip_enter(&device, 9, bytes, 4));
    outputs("send", cip_send(&device, 1, timing, path, 2, identity, sizeof identity));
    outputs("send again", cip_send(&device, 1, timing, path, 2, identity, sizeof identity));
    outputs("send 52", cip_send(&device, 2, timing, path, 2, wrapped, sizeof wrapped));
    outputs("set", cip_set(&device, 102, bytes, 2));
    outputs("open", cip_open(&device, 3, timing, path, sizeof path, &params));
    outputs("large open", cip_large_open(&device, 4, timing, path, sizeof path, &large));
    waiting();
    outputs("opened", cip_reply(&device, 2, adapter, 1, 2, opened, sizeof opened));
    open_now();
    outputs("enter", cip_enter(&device, 3, bytes, 4));
    outputs("enter more", cip_enter(&device, 3, bytes, 5));
    outputs("datum", cip_data(&device, 2, adapter, 1, 0x11, bytes, 2));
    outputs("longer datum", cip_data(&device, 2, adapter, 1, 0x11, bytes, 3));
    outputs("foreign datum", cip_data(&device, 2, adapter, 1, 0x99, bytes, 2));
    outputs("cut reply", cip_reply(&device, 2, adapter, 1, 1, opened, 3));
    outputs("late reply", cip_reply(&device, 2, adapter, 1, 2, opened, sizeof opened));
    outputs("close", cip_close(&device, 5, 3, timing));
    waiting();
    outputs("opened", cip_reply(&device, 2, adapter, 1, 3, opened_large, sizeof opened_large));
    open_now();
    outputs("tick", cip_tick(&device, 400));
    outputs("reset", cip_send(&device, 6, timing, path, 0, reset, sizeof reset));
    waiting();
    open_now();
    cip_free(&device);
    return 0;
}
