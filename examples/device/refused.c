/* Refuses each allocation in turn: refused COUNT. A call that is refused leaves the device as it
 * was, and the same call then succeeds. The heap of this program stands in place of cip_heap.c. */
#include "settings.h"
#include <stdbool.h>
#include <stdio.h>
#include <stdlib.h>
#include <string.h>

struct tried {
    bool ok;
    void *at;
};
static char nothing;
static long before_refusal = -1;
static long asks, live;

static bool refuses(void) {
    asks++;
    return before_refusal >= 0 && before_refusal-- == 0;
}

struct tried rattle_alloc(size_t count, size_t align) {
    void *at = refuses() ? 0 : malloc(count ? count : align);
    live += at != 0;
    return (struct tried){at != 0, at ? at : &nothing};
}
struct tried rattle_realloc(void *at, size_t kept, size_t count, size_t align) {
    (void)kept;
    void *to = refuses() ? 0 : realloc(at, count ? count : align);
    return (struct tried){to != 0, to ? to : &nothing};
}
void rattle_dealloc(void *at) {
    live--;
    free(at);
}

static const uint8_t scanner[] = {0x05};
static uint8_t buffer[CIP_MOST_BYTES];
static uint8_t told[4096];
static size_t told_length;

static void drain(cip_device *device) {
    cip_output output;
    while (cip_next(device, &output, buffer, sizeof buffer) == CIP_DONE) {
        memcpy(told + told_length, &output.kind, 4);
        memcpy(told + told_length + 4, buffer, output.length);
        told_length += 4 + output.length;
    }
}

static void tell(const void *at, size_t length) {
    memcpy(told + told_length, at, length);
    told_length += length;
}

static uint32_t scanner_new(cip_device *device) {
    const cip_config config = {.kind = CIP_PLAIN,
                               .first_id = 1,
                               .first_number = 9,
                               .pending_room = 4,
                               .hop_room = 4,
                               .vendor = 0x0101,
                               .major = 1,
                               .minor = 3};
    const cip_port port = {.number = 2, .last = 0xFE, .address_length = 1, .address = {5}};
    static const cip_assembly none[1];
    return cip_new(device, &config, (const uint8_t *)"S", 1, (const uint8_t *)"SC", 2, &port, 1,
                   none, 0);
}

static uint32_t read_connection(cip_device *device) {
    cip_connection_row row;
    uint32_t status = cip_connection(device, 0, &row);
    if (status == CIP_DONE) {
        tell(&row.serial, sizeof row.serial);
        tell(row.up.address, row.up.address_length);
        tell(&row.up_deadline, sizeof row.up_deadline);
    }
    return status;
}

static uint32_t read_pending(cip_device *device) {
    cip_pending_row row;
    uint32_t status = cip_pending(device, 0, &row);
    if (status == CIP_DONE) {
        tell(&row.down.number, sizeof row.down.number);
        tell(&row.deadline, sizeof row.deadline);
    }
    return status;
}

static uint32_t read_deadline(cip_device *device) {
    uint64_t milliseconds;
    uint32_t status = cip_next_deadline(device, &milliseconds);
    if (status == CIP_DONE)
        tell(&milliseconds, sizeof milliseconds);
    return status;
}

/* Answers whether some call was refused. */
static bool run(long refuse_at) {
    static const uint8_t identity[] = {0x01, 0x02, 0x20, 0x01, 0x24, 0x01};
    static const uint8_t forward_open[] = {
        0x54, 0x02, 0x20, 0x06, 0x24, 0x01, 0x0A, 0x05, 0x00, 0x00, 0x00, 0x00, 0x77,
        0x00, 0x00, 0x00, 0x34, 0x12, 0x01, 0x01, 0x0D, 0x0C, 0x0B, 0x0A, 0x00, 0x00,
        0x00, 0x00, 0x10, 0x27, 0x00, 0x00, 0x06, 0x48, 0x10, 0x27, 0x00, 0x00, 0x04,
        0x48, 0x01, 0x04, 0x20, 0x04, 0x24, 0x64, 0x2C, 0x65, 0x2C, 0x66,
    };
    static const uint8_t datum[] = {0x01, 0x00, 0xDE, 0xAD, 0xBE, 0xEF}, produced[] = {0xCA, 0xFE};
    static const uint8_t path[] = {0x02, 0x07};
    const cip_timing timing = {7, 0xF9};
    cip_device device = CIP_DEVICE_EMPTY, second = CIP_DEVICE_EMPTY;
    size_t length;
    uint8_t assembly[8];
    bool was_refused = false;
    told_length = 0;
    before_refusal = refuse_at;
    for (int step = 0; step < 15;) {
        uint32_t status = CIP_DONE;
        switch (step) {
        case 0:
            status = adapter_new(&device, 7);
            break;
        case 1:
            status = cip_request(&device, ADAPTER_PORT, scanner, 1, 1, identity, sizeof identity);
            break;
        case 2:
            status = cip_request(&device, ADAPTER_PORT, scanner, 1, 2, forward_open,
                                 sizeof forward_open);
            break;
        case 3:
            status = cip_data(&device, ADAPTER_PORT, scanner, 1, 0x41, datum, sizeof datum);
            break;
        case 4:
            status = cip_set(&device, 102, produced, 2);
            break;
        case 5:
            status = cip_produce(&device, 102);
            break;
        case 6:
            status = read_connection(&device);
            break;
        case 7:
            status = read_deadline(&device);
            break;
        case 8:
            status = cip_get(&device, 102, &length, assembly, sizeof assembly);
            break;
        case 9:
            status = cip_tick(&device, 100);
            break;
        case 10:
            status = cip_tick(&device, 1000);
            break;
        case 11:
            status = scanner_new(&second);
            break;
        case 12:
            status = cip_send(&second, 1, timing, path, sizeof path, identity, sizeof identity);
            break;
        case 13:
            status = read_pending(&second);
            break;
        case 14:
            status = read_deadline(&second);
            break;
        }
        if (status == CIP_NO_MEMORY) {
            if (was_refused) {
                printf("refused twice\n");
                exit(1);
            }
            was_refused = true;
            if (step == 0 && device.at != 0) {
                printf("a device after a refused new\n");
                exit(1);
            }
            continue; /* the same call again */
        }
        if (status != CIP_DONE) {
            printf("step %d: status %u\n", step, status);
            exit(1);
        }
        drain(&device);
        drain(&second);
        step++;
    }
    cip_free(&device);
    cip_free(&second);
    if (live != 0) {
        printf("%ld blocks are left\n", live);
        exit(1);
    }
    return was_refused;
}

int main(void) {
    static uint8_t first[4096];
    run(-1);
    size_t length = told_length;
    long all = asks, refusals = 0;
    memcpy(first, told, length);
    for (long at = 0; at < all; at++) {
        refusals += run(at);
        if (told_length != length || memcmp(first, told, length) != 0) {
            printf("refusal %ld: other outputs\n", at);
            return 1;
        }
    }
    printf("%ld allocations, %ld refused, the outputs (%zu bytes) the same each time\n", all,
           refusals, length);
    return 0;
}
