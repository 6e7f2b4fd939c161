/* The adapter E of the chassis: assemblies 100 (configuration, 0 bytes), 101 (consumes 4), 102
 * (produces 2), 103 (a second output, 4). Its one port is 2, its address there one byte. */
#ifndef SETTINGS_H
#define SETTINGS_H
#include "cip_device.h"

#define ADAPTER_PORT 2

static inline uint32_t adapter_new(cip_device *device, uint8_t address) {
    const cip_config config = {
        .kind = CIP_ADAPTER,
        .first_id = 0x41,
        .first_number = 1,
        .pending_room = 16,
        .hop_room = 16,
        .vendor = 0x0101,
        .device_type = 12,
        .product = 3,
        .serial = 0x0E0E,
        .major = 1,
        .minor = 3,
    };
    const cip_port port = {.number = ADAPTER_PORT,
                           .first = 0,
                           .last = 0xFE,
                           .address_length = 1,
                           .address = {address}};
    const cip_assembly assemblies[] = {{100, 0}, {101, 4}, {102, 2}, {103, 4}};
    return cip_new(device, &config, (const uint8_t *)"E", 1, (const uint8_t *)"EA", 2, &port, 1,
                   assemblies, 4);
}
#endif
