/* What an adapter and a bridge keep of the data that they send by each open connection: the UDP
 * port that a Sockaddr Info item named, and how often one is due. Which connections are open is the
 * device's to say. */
#ifndef FLOWS_H
#define FLOWS_H

#include "cip_device.h"
#include "enip.h"

enum { MOST_FLOWS = 128 };

/* Data to this address by this port of the device, under this id; port 0 where there are none. */
typedef struct flow {
    uint16_t port, data_port;
    size_t to_length;
    uint8_t to[16];
    uint32_t id;
    uint32_t originator, instance; /* of the connection; 0 before it is looked at */
    uint32_t interval;             /* microseconds */
    uint64_t due;                  /* microseconds of the monotonic clock */
    bool is_due;
} flow;

static flow flows[MOST_FLOWS];
static int used_flows; /* none stands behind so many */

static inline bool goes_to(const flow *f, uint16_t port, const uint8_t *to, size_t to_length,
                           uint32_t id) {
    return f->port == port && f->id == id && f->to_length == to_length &&
           memcmp(f->to, to, to_length) == 0;
}

/* The flow of these data; null where there is none. */
static inline flow *flow_to(uint16_t port, const uint8_t *to, size_t to_length, uint32_t id) {
    for (int i = 0; i < used_flows; i++)
        if (goes_to(&flows[i], port, to, to_length, id))
            return &flows[i];
    return 0;
}

static inline bool is_side(const flow *f, const cip_side *side) {
    return side->is_link != 0 &&
           goes_to(f, side->port, side->address, side->address_length, side->number);
}

/* Forgets each flow that no open connection has, and learns the assemblies of the others; false
 * where memory is refused, and then none is forgotten. */
static inline bool forget_closed(cip_device *device) {
    bool is_open[MOST_FLOWS] = {false};
    cip_connection_row row;
    uint32_t status;
    for (size_t at = 0; (status = cip_connection(device, at, &row)) == CIP_DONE; at++)
        for (int i = 0; i < used_flows; i++)
            if (is_side(&flows[i], &row.up) || is_side(&flows[i], &row.down)) {
                is_open[i] = true;
                flows[i].instance = row.produced;
            }
    if (status != CIP_NOTHING)
        return false;
    for (int i = 0; i < used_flows; i++)
        if (!is_open[i])
            flows[i].port = 0;
    while (used_flows > 0 && flows[used_flows - 1].port == 0)
        used_flows--;
    return true;
}

/* A new flow of these data, in place of what was known of them; null where there is no room. */
static inline flow *new_flow(cip_device *device, uint16_t port, const uint8_t *to, size_t to_length,
                             uint32_t id) {
    flow *f = flow_to(port, to, to_length, id);
    for (int turn = 0; f == 0 && turn < 2; turn++) {
        if (turn == 1)
            forget_closed(device);
        for (int i = 0; f == 0 && i < MOST_FLOWS; i++)
            if (flows[i].port == 0)
                f = &flows[i];
    }
    if (f == 0)
        return 0;
    *f = (flow){.port = port, .data_port = DATA_PORT, .to_length = to_length, .id = id};
    memcpy(f->to, to, to_length);
    if (f - flows >= used_flows)
        used_flows = (int)(f - flows) + 1;
    return f;
}

#endif
