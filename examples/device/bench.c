/* bench WHAT COUNT: opens a connection, then COUNT times one event and its outputs; for callgrind.
 */
#include "settings.h"
#include <stdlib.h>
#include <string.h>

static const uint8_t scanner[] = {0x05};
static uint8_t buffer[CIP_MOST_BYTES];
static unsigned long sum;

static void drain(cip_device *device) {
    cip_output output;
    while (cip_next(device, &output, buffer, sizeof buffer) == CIP_DONE)
        sum += output.length;
}

int main(int argc, char **argv) {
    static const uint8_t identity[] = {0x01, 0x02, 0x20, 0x01, 0x24, 0x01};
    static const uint8_t forward_open[] = {
        0x54, 0x02, 0x20, 0x06, 0x24, 0x01, 0x0A, 0x05, 0x00, 0x00, 0x00, 0x00, 0x77,
        0x00, 0x00, 0x00, 0x34, 0x12, 0x01, 0x01, 0x0D, 0x0C, 0x0B, 0x0A, 0x00, 0x00,
        0x00, 0x00, 0x10, 0x27, 0x00, 0x00, 0x06, 0x48, 0x10, 0x27, 0x00, 0x00, 0x04,
        0x48, 0x01, 0x04, 0x20, 0x04, 0x24, 0x64, 0x2C, 0x65, 0x2C, 0x66,
    };
    uint8_t datum[] = {0x01, 0x00, 0xDE, 0xAD, 0xBE, 0xEF}, produced[] = {0xCA, 0xFE};
    if (argc != 3)
        return 2;
    cip_device device = CIP_DEVICE_EMPTY;
    if (adapter_new(&device, 7) != CIP_DONE)
        return 3;
    if (cip_request(&device, ADAPTER_PORT, scanner, 1, 1, forward_open, sizeof forward_open) !=
        CIP_DONE)
        return 4;
    drain(&device);
    static const char *const names[] = {"data",     "produce",    "identity", "tick",
                                        "deadline", "connection", "empty"};
    int what = 0;
    while (what < 6 && strcmp(argv[1], names[what]) != 0)
        what++;
    long count = atol(argv[2]);
    for (long i = 0; i < count; i++) {
        uint32_t status;
        uint64_t milliseconds;
        cip_connection_row row;
        cip_device none = CIP_DEVICE_EMPTY;
        switch (what) {
        case 0:
            datum[0] = (uint8_t)(i & 0x7F);
            status = cip_data(&device, ADAPTER_PORT, scanner, 1, 0x41, datum, sizeof datum);
            break;
        case 1:
            if (cip_set(&device, 102, produced, 2) != CIP_DONE)
                return 6;
            drain(&device);
            status = cip_produce(&device, 102);
            break;
        case 2:
            status = cip_request(&device, ADAPTER_PORT, scanner, 1, (uint32_t)i + 2, identity,
                                 sizeof identity);
            break;
        case 3:
            status = cip_tick(&device, 1);
            break;
        case 4:
            status = cip_next_deadline(&device, &milliseconds);
            sum += milliseconds;
            break;
        case 5:
            status = cip_connection(&device, 0, &row);
            sum += row.up_id;
            break;
        default: /* a handle without a device, for what the loop itself takes */
            status = cip_tick(&none, 1) == CIP_NO_DEVICE ? CIP_DONE : 7;
        }
        if (status != CIP_DONE)
            return 5;
        drain(&device);
    }
    cip_free(&device);
    return sum == 12345678 ? 9 : 0;
}
