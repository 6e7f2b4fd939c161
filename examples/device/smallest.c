/* The smallest device: an adapter that is asked for its identity, by hand instead of by a network.
 */
#include "cip_device.h"
#include <stdio.h>

int main(void) {
    static const uint8_t get_all[] = {0x01, 0x02, 0x20, 0x01, 0x24, 0x01}, scanner[] = {5};
    static uint8_t bytes[CIP_MOST_BYTES];
    const cip_config config = {.kind = CIP_ADAPTER,
                               .first_id = 0x00010001,
                               .first_number = 0x00010001,
                               .pending_room = 4,
                               .hop_room = 4,
                               .vendor = 0x0101,
                               .device_type = 12,
                               .product = 3,
                               .serial = 0x0E0E,
                               .major = 1,
                               .minor = 3};
    const cip_port port = {.number = 2, .last = 0xFE, .address_length = 1, .address = {7}};
    const cip_assembly assembly = {101, 4};
    cip_device device = CIP_DEVICE_EMPTY;
    cip_output output;
    uint32_t status = cip_new(&device, &config, (const uint8_t *)"E", 1, (const uint8_t *)"EA", 2,
                              &port, 1, &assembly, 1);
    if (status == CIP_DONE)
        status = cip_tick(&device, 5); /* the time that went by, before the frame that came */
    if (status == CIP_DONE)
        status = cip_request(&device, 2, scanner, 1, 1, get_all, sizeof get_all);
    while (status == CIP_DONE && cip_next(&device, &output, bytes, sizeof bytes) == CIP_DONE) {
        printf("output %u to port %u address %u:", output.kind, output.port, output.to[0]);
        for (size_t i = 0; i < output.length; i++)
            printf(" %02X", bytes[i]);
        printf("\n");
    }
    cip_free(&device);
    return (int)status;
}
