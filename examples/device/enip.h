/* What an adapter, a scanner and a bridge share of EtherNet/IP: the encapsulation and the items of
 * the common packet format (Volume 2, chapter 2), sockets and the clock. Numbers are little-endian.
 *
 * Data go to UDP port 2222, or to the port that a Sockaddr Info item beside the open or beside its
 * reply names: 8000 where the target takes O->T data, 8001 where the originator takes T->O data. An
 * item has 16 bytes, family 2, a port other than 0, and an address that is 0 or that end's own: so
 * nobody has data sent to a third, and there is no multicast. Its last 8 bytes are not looked at. A
 * message beside an item that is not so, or beside two of one type, is refused as bad data.
 */
#ifndef ENIP_H
#define ENIP_H

#include "cip_device.h"
#include <arpa/inet.h>
#include <stdbool.h>
#include <stdint.h>
#include <stdio.h>
#include <stdlib.h>
#include <string.h>
#include <sys/socket.h>
#include <time.h>
#include <unistd.h>

enum { TCP_PORT = 44818, DATA_PORT = 2222, HEADER = 24, MOST_FRAME = 1600, SOCKADDR = 16 };
enum { MOST_MESSAGE = MOST_FRAME - HEADER - 16 - 2 * (4 + SOCKADDR) };
enum {
    LIST_SERVICES = 0x04,
    LIST_IDENTITY = 0x63,
    REGISTER = 0x65,
    UNREGISTER = 0x66,
    SEND_RR_DATA = 0x6F
};
enum {
    ENIP_UNSUPPORTED = 0x01,
    ENIP_BAD_DATA = 0x03,
    ENIP_BAD_SESSION = 0x64,
    ENIP_BAD_LENGTH = 0x65,
    ENIP_BAD_VERSION = 0x69
};
enum {
    ITEM_NULL = 0x0000,
    ITEM_IDENTITY = 0x000C,
    ITEM_CONNECTED = 0x00B1,
    ITEM_UNCONNECTED = 0x00B2,
    ITEM_SERVICES = 0x0100,
    ITEM_OT_SOCKADDR = 0x8000,
    ITEM_TO_SOCKADDR = 0x8001,
    ITEM_SEQUENCED = 0x8002
};

static inline uint16_t word(const uint8_t *at) { return (uint16_t)(at[0] | at[1] << 8); }

static inline uint32_t double_word(const uint8_t *at) {
    return word(at) | (uint32_t)word(at + 2) << 16;
}

static inline uint8_t *put_word(uint8_t *at, uint16_t x) {
    at[0] = x & 0xFF;
    at[1] = x >> 8;
    return at + 2;
}

static inline uint8_t *put_double(uint8_t *at, uint32_t x) {
    return put_word(put_word(at, x & 0xFFFF), x >> 16);
}

/* The header of a frame whose data are already behind it; how long the frame is. */
static inline size_t put_header(uint8_t *frame, uint16_t command, uint32_t session, uint32_t status,
                                const uint8_t context[8], size_t length) {
    uint8_t *at = put_word(put_word(frame, command), (uint16_t)length);
    at = put_double(put_double(at, session), status);
    memmove(at, context, 8);
    put_double(at + 8, 0);
    return HEADER + length;
}

/* The two ends of a message on one network: the texts of their IP addresses. */
typedef struct endpoints {
    const char *originator, *target;
} endpoints;

/* The UDP ports that Sockaddr Info items name; 0 where there is no such item. */
typedef struct data_ports {
    uint16_t ot, to;
} data_ports;

static inline uint8_t *put_sockaddr(uint8_t *at, uint16_t item, const char *address,
                                    uint16_t port) {
    uint8_t fields[SOCKADDR] = {0, AF_INET, port >> 8, port & 0xFF};
    inet_pton(AF_INET, address, fields + 4);
    memcpy(put_word(put_word(at, item), SOCKADDR), fields, SOCKADDR);
    return at + 4 + SOCKADDR;
}

/* The port in a Sockaddr Info item for data to this address; 0 where it is to be refused. */
static inline uint16_t port_in(const uint8_t *item, size_t length, const char *address) {
    static const uint8_t none[4] = {0};
    uint8_t own[4];
    if (length != SOCKADDR || item[0] != 0 || item[1] != AF_INET ||
        inet_pton(AF_INET, address, own) != 1)
        return 0;
    if (memcmp(item + 4, none, 4) != 0 && memcmp(item + 4, own, 4) != 0)
        return 0;
    return (uint16_t)(item[2] << 8 | item[3]);
}

/* The data of SendRRData with this message, of at most MOST_MESSAGE bytes, and Sockaddr Info items
 * for those ports that are not 0; how many bytes. */
static inline size_t put_message(uint8_t *data, const uint8_t *message, size_t length,
                                 endpoints between, data_ports ports) {
    uint8_t *at = put_word(put_double(data, 0), 0); /* interface handle, timeout */
    at = put_word(at, (uint16_t)(2 + (ports.ot != 0) + (ports.to != 0)));
    at = put_word(put_word(at, ITEM_NULL), 0);
    at = put_word(put_word(at, ITEM_UNCONNECTED), (uint16_t)length);
    memcpy(at, message, length);
    at += length;
    if (ports.ot != 0)
        at = put_sockaddr(at, ITEM_OT_SOCKADDR, between.target, ports.ot);
    if (ports.to != 0)
        at = put_sockaddr(at, ITEM_TO_SOCKADDR, between.originator, ports.to);
    return (size_t)(at - data);
}

/* The message in the data of SendRRData, its length, and the ports that are named beside it; null
 * where there is none, or an item is to be refused. */
static inline const uint8_t *message_in(const uint8_t *data, size_t length, endpoints between,
                                        size_t *message_length, data_ports *ports) {
    *ports = (data_ports){0, 0};
    if (length < 8)
        return 0;
    const uint8_t *at = data + 8, *end = data + length, *message = 0;
    for (uint16_t items = word(data + 6); items > 0; items--) {
        if (end - at < 4 || end - at - 4 < word(at + 2))
            return 0;
        uint16_t item = word(at), count = word(at + 2);
        at += 4;
        if (item == ITEM_UNCONNECTED && message == 0) {
            message = at;
            *message_length = count;
        } else if (item == ITEM_OT_SOCKADDR || item == ITEM_TO_SOCKADDR) {
            bool is_ot = item == ITEM_OT_SOCKADDR;
            uint16_t *port = is_ot ? &ports->ot : &ports->to;
            if (*port != 0)
                return 0;
            *port = port_in(at, count, is_ot ? between.target : between.originator);
            if (*port == 0)
                return 0;
        }
        at += count;
    }
    return message;
}

/* What the reply to an open says where it succeeded. Intervals are in microseconds. */
typedef struct opened {
    uint32_t ot_id, to_id, originator, ot_interval, to_interval;
} opened;

static inline bool opened_in(const uint8_t *reply, size_t length, opened *open) {
    if (length < 30 || (reply[0] != 0xD4 && reply[0] != 0xDB) || reply[2] != 0)
        return false;
    *open = (opened){.ot_id = double_word(reply + 4),
                     .to_id = double_word(reply + 8),
                     .originator = double_word(reply + 16),
                     .ot_interval = double_word(reply + 20),
                     .to_interval = double_word(reply + 24)};
    return true;
}

/* When the next datum is due after one that was, in microseconds; none is sent to catch up. */
static inline uint64_t due_after(uint64_t due, uint32_t interval, uint64_t now) {
    uint64_t least = interval < 1000 ? 1000 : interval; /* no more than one in a millisecond */
    return due + least > now ? due + least : now + least;
}

/* How many milliseconds to wait until then, at most so many. */
static inline int wait_until(uint64_t due, uint64_t now, int most) {
    uint64_t wait = due > now ? (due - now + 999) / 1000 : 0;
    return wait < (uint64_t)most ? (int)wait : most;
}

/* A datum in its frame, with the count of all that were sent; how long it is, 0 where it is too
 * long. */
static inline size_t put_datum(uint8_t *frame, uint32_t id, uint32_t count, const uint8_t *bytes,
                               size_t length) {
    if (length > MOST_FRAME - 18)
        return 0;
    uint8_t *at = put_word(put_word(put_word(frame, 2), ITEM_SEQUENCED), 8);
    at = put_double(put_double(at, id), count);
    at = put_word(put_word(at, ITEM_CONNECTED), (uint16_t)length);
    memcpy(at, bytes, length);
    return (size_t)(at - frame) + length;
}

/* The datum in a frame, and its id and length; null where there is none. */
static inline const uint8_t *datum_in(const uint8_t *frame, size_t length, uint32_t *id,
                                      size_t *datum_length) {
    if (length < 18 || word(frame) != 2 || word(frame + 2) != ITEM_SEQUENCED ||
        word(frame + 4) != 8)
        return 0;
    if (word(frame + 14) != ITEM_CONNECTED || word(frame + 16) != length - 18)
        return 0;
    *id = double_word(frame + 6);
    *datum_length = length - 18;
    return frame + 18;
}

/* A device's link address is the text of its IP address: 7 to 15 bytes. */
static inline struct sockaddr_in at_address(const char *text, uint16_t port) {
    struct sockaddr_in at = {.sin_family = AF_INET, .sin_port = htons(port)};
    if (inet_pton(AF_INET, text, &at.sin_addr) != 1) {
        fprintf(stderr, "no address: %s\n", text);
        exit(2);
    }
    return at;
}

static inline int bound(int type, const char *address, uint16_t port) {
    int s = socket(AF_INET, type, 0), on = 1;
    struct sockaddr_in own = at_address(address, port);
    setsockopt(s, SOL_SOCKET, SO_REUSEADDR, &on, sizeof on);
    if (s < 0 || bind(s, (struct sockaddr *)&own, sizeof own) != 0) {
        perror("bind");
        exit(1);
    }
    return s;
}

/* A datum goes to this UDP port of the address that the device names. */
static inline void send_datum(int socket, const uint8_t *to, size_t to_length, uint16_t port,
                              uint32_t id, uint32_t count, const uint8_t *bytes, size_t length) {
    uint8_t frame[MOST_FRAME];
    char text[17] = {0};
    memcpy(text, to, to_length);
    struct sockaddr_in at = {.sin_family = AF_INET, .sin_port = htons(port)};
    size_t whole = put_datum(frame, id, count, bytes, length);
    if (whole == 0 || inet_pton(AF_INET, text, &at.sin_addr) != 1)
        return;
    (void)sendto(socket, frame, whole, 0, (struct sockaddr *)&at,
                 sizeof at); /* lost as on a wire */
}

/* A log of data, a line for each. */
static inline FILE *log_at(const char *path) {
    FILE *log = fopen(path, "w");
    if (log != 0)
        setvbuf(log, 0, _IOLBF, 0);
    return log;
}

/* A datum that went out or came in by a connection of this originator, for whoever compares them at
 * the end. */
static inline void note(FILE *log, const char *way, const uint8_t *bytes, size_t length,
                        uint32_t originator) {
    if (log == 0)
        return;
    fprintf(log, "%s ", way);
    for (size_t i = 0; i < length; i++)
        fprintf(log, "%02X", bytes[i]);
    fprintf(log, " %08X\n", originator);
}

static inline uint64_t milliseconds(void) {
    struct timespec t;
    clock_gettime(CLOCK_MONOTONIC, &t);
    return (uint64_t)t.tv_sec * 1000 + (uint64_t)t.tv_nsec / 1000000;
}

/* Time went by: the device ticks, at most 65,535 ms a call, and what comes of each tick is taken.
 * How far its clock has come: less than `now` where memory was refused, and then the same time is
 * given again. No frame is given before the clock has come so far: a connection is watched from the
 * time of the device's clock on, so with a clock that is behind it would end too early. */
static inline uint64_t pass_time(cip_device *device, uint64_t last, uint64_t now,
                                 void (*take_outputs)(void)) {
    while (last < now) {
        uint64_t by = now - last > 65535 ? 65535 : now - last;
        if (cip_tick(device, (uint16_t)by) != CIP_DONE)
            break;
        take_outputs();
        last += by;
    }
    return last;
}

/* A UDP port from a word of the command line. */
static inline uint16_t port_from(const char *text) {
    unsigned long port = strtoul(text, 0, 10);
    if (port == 0 || port > 65535) {
        fprintf(stderr, "no port: %s\n", text);
        exit(2);
    }
    return (uint16_t)port;
}

#endif
