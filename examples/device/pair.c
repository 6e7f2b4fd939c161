/* A scanner opens a connection to an adapter, both from the library; the wire is a loop over
 * outputs. */
#include "settings.h"
#include <stdio.h>

static uint8_t buffer[CIP_MOST_BYTES];

typedef struct frame {
    uint32_t kind, number;
    uint8_t from, to;
    size_t length;
    uint8_t bytes[CIP_MOST_BYTES];
} frame;

static frame wire[64];
static int first, last;

/* Puts what goes out on the wire, and prints the rest. */
static void outputs(const char *name, cip_device *device, uint8_t own) {
    cip_output o;
    while (cip_next(device, &o, buffer, sizeof buffer) == CIP_DONE) {
        if (o.kind <= CIP_OUT_DATA) {
            frame *f = &wire[last++ % 64];
            *f = (frame){
                .kind = o.kind, .number = o.number, .from = own, .to = o.to[0], .length = o.length};
            for (size_t i = 0; i < o.length; i++)
                f->bytes[i] = buffer[i];
        } else {
            printf("%s kind %u number %u instance %u:", name, o.kind, o.number, o.instance);
            for (size_t i = 0; i < o.length; i++)
                printf(" %02X", buffer[i]);
            printf("\n");
        }
    }
}

/* What waits, and how long nothing happens. */
static void waiting(cip_device *device) {
    cip_pending_row row;
    uint64_t milliseconds;
    for (size_t at = 0; cip_pending(device, at, &row) == CIP_DONE; at++)
        printf("waits: kind %u number %u to %u of op %u\n", row.kind, row.down.number,
               row.down.address[0], row.up.number);
    if (cip_next_deadline(device, &milliseconds) == CIP_DONE)
        printf("nothing for %u ms\n", (unsigned)milliseconds);
}

/* What is open, and how long nothing happens. */
static void connections(const char *name, cip_device *device) {
    cip_connection_row row;
    uint64_t milliseconds;
    for (size_t at = 0; cip_connection(device, at, &row) == CIP_DONE; at++)
        printf("%s serial %04X up %u %u down %u %u ids %u %u assemblies %u %u sizes %u %u "
               "intervals %u %u class %u\n",
               name, row.serial, row.up.is_link, row.up.number, row.down.is_link, row.down.number,
               row.up_id, row.down_id, row.consumed, row.produced, row.ot_size, row.to_size,
               row.ot_rpi, row.to_rpi, row.transport_class);
    if (cip_next_deadline(device, &milliseconds) == CIP_DONE)
        printf("%s: nothing for %u ms\n", name, (unsigned)milliseconds);
    else
        printf("%s: nothing waits or is open\n", name);
}

int main(void) {
    const cip_config config = {.kind = CIP_PLAIN,
                               .first_id = 0x11,
                               .first_number = 1,
                               .pending_room = 4,
                               .hop_room = 4,
                               .vendor = 0x0101,
                               .device_type = 14,
                               .product = 9,
                               .serial = 0x0A0B0C0D,
                               .major = 1,
                               .minor = 3};
    const cip_port port = {.number = 2, .last = 0xFE, .address_length = 1, .address = {5}};
    static const cip_assembly none[1];
    cip_device scanner = CIP_DEVICE_EMPTY, adapter = CIP_DEVICE_EMPTY;
    if (cip_version() != CIP_VERSION)
        return 4;
    if (cip_new(&scanner, &config, (const uint8_t *)"S", 1, (const uint8_t *)"SC", 2, &port, 1,
                none, 0) != CIP_DONE)
        return 1;
    if (adapter_new(&adapter, 7) != CIP_DONE)
        return 2;
    const cip_open_params params = {.ot_rpi = 10000,
                                    .to_rpi = 10000,
                                    .ot_params = 0x4806,
                                    .to_params = 0x4804,
                                    .serial = 0x1234,
                                    .multiplier = 1,
                                    .transport = 1};
    static const uint8_t path[] = {0x02, 0x07, 0x20, 0x04, 0x24, 0x64, 0x2C, 0x65, 0x2C, 0x66};
    static const uint8_t down[] = {1, 0, 0xDE, 0xAD, 0xBE, 0xEF}, up[] = {0xCA, 0xFE};
    static const uint8_t identity[] = {0x01, 0x02, 0x20, 0x01, 0x24, 0x01};
    const cip_timing timing = {7, 0xF9};
    uint32_t status = 0;
    for (int step = 0; step < 6; step++) {
        switch (step) {
        case 0:
            status = cip_send(&scanner, 1, timing, path, 2, identity, sizeof identity);
            break;
        case 1:
            status = cip_open(&scanner, 2, timing, path, sizeof path, &params);
            break;
        case 2:
            status = cip_enter(&scanner, 2, down, sizeof down);
            break;
        case 3:
            status = cip_set(&adapter, 102, up, sizeof up);
            break;
        case 4:
            status = cip_produce(&adapter, 102);
            break;
        case 5:
            status = cip_close(&scanner, 3, 2, timing);
            break;
        }
        printf("step %d: status %u\n", step, status);
        if (step <= 1)
            waiting(&scanner);
        outputs("S", &scanner, 5);
        outputs("E", &adapter, 7);
        while (first < last) {
            const frame f = wire[first++ % 64];
            cip_device *to = f.to == 7 ? &adapter : &scanner;
            status = f.kind == CIP_OUT_REQUEST
                         ? cip_request(to, 2, &f.from, 1, f.number, f.bytes, f.length)
                     : f.kind == CIP_OUT_REPLY
                         ? cip_reply(to, 2, &f.from, 1, f.number, f.bytes, f.length)
                         : cip_data(to, 2, &f.from, 1, f.number, f.bytes, f.length);
            if (status != CIP_DONE)
                printf("frame: status %u\n", status);
            outputs(f.to == 7 ? "E" : "S", to, f.to);
        }
        if (step == 1 || step == 5) {
            connections("S", &scanner);
            connections("E", &adapter);
        }
    }
    uint8_t assembly[8];
    size_t length;
    if (cip_get(&adapter, 102, &length, assembly, sizeof assembly) != CIP_DONE)
        return 3;
    printf("assembly 102:");
    for (size_t i = 0; i < length; i++)
        printf(" %02X", assembly[i]);
    printf("\nassembly 104: %s\n",
           cip_error_text(cip_get(&adapter, 104, &length, assembly, sizeof assembly)));
    cip_free(&scanner);
    cip_free(&adapter);
    return 0;
}
