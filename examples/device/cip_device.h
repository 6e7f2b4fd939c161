/* A module of a CIP chassis: a scanner or a bridge (plain, indexed) or an adapter.
 *
 * A handle is one pointer. It begins as CIP_DEVICE_EMPTY, and cip_free makes it so again. Whoever
 * has it calls one function at a time with it; another thread may have it later, handed over under
 * a lock or by joining a thread. No function keeps a pointer that it is given, and none blocks.
 *
 * What C owes: a handle that is CIP_DEVICE_EMPTY or as the last call left it, and is not copied;
 * pointers that are never null, not even at length 0, are aligned for what they point to, and point
 * to initialized memory; slices and structs of one call that do not overlap what the call writes;
 * and the three functions of the heap, which cip_heap.c has over malloc.
 *
 * What C gets: each function answers a status. Only CIP_DONE changes the device; after any other it
 * is as it was before. Nothing else is undefined: no handle, numbers or bytes.
 *
 * A slice is a pointer and a count. Addresses are link addresses of 1 to 16 bytes. Paths are padded
 * EPATHs (Volume 1, Appendix C); requests and replies are those of the Message Router (Volume 1,
 * chapter 2); the data of a connection begin with the sequence count where its class is 1.
 */
#ifndef CIP_DEVICE_H
#define CIP_DEVICE_H

#include <stddef.h>
#include <stdint.h>

#ifdef __cplusplus
extern "C" {
#endif

/* What cip_version answers, where the library has these functions. */
#define CIP_VERSION 2

typedef struct cip_device { void *at; } cip_device;
#define CIP_DEVICE_EMPTY { 0 }

enum cip_status {
    CIP_DONE = 0,
    CIP_NO_DEVICE = 1,    /* exactly where the handle is empty */
    CIP_IN_USE = 2,       /* cip_new: exactly where the handle has a device */
    CIP_UNREAD = 3,       /* exactly where outputs of the step before wait: call cip_next first */
    CIP_BAD_ARGUMENT = 4, /* an argument is out of its range: each call says which */
    CIP_NO_MEMORY = 5,    /* an allocation was refused: the same call may succeed later */
    CIP_CLOCK_FULL = 6,   /* cip_tick: exactly where the clock would pass 2^63 - 1 microseconds */
    CIP_NOTHING = 7,      /* cip_next: exactly where no output waits; cip_get: no such assembly;
                             cip_connection, cip_pending: past the last one; cip_next_deadline:
                             nothing ever happens by itself */
    CIP_SHORT = 8         /* the buffer is shorter than output->length, or *length, which is told */
};

/* What each call can answer at all. cip_new: DONE, IN_USE, BAD_ARGUMENT, NO_MEMORY. The calls that
 * give an event or a command: DONE, NO_DEVICE, UNREAD, NO_MEMORY, BAD_ARGUMENT where they say so,
 * and cip_tick CLOCK_FULL. cip_next: DONE, NO_DEVICE, NOTHING, SHORT. cip_get: these and NO_MEMORY.
 * cip_connection and cip_pending: DONE, NO_DEVICE, NO_MEMORY, NOTHING. cip_next_deadline: DONE,
 * NO_DEVICE, NOTHING. cip_incarnation: DONE, NO_DEVICE. */

enum cip_kind {
    CIP_PLAIN = 0,        /* originates, routes and answers */
    CIP_ADAPTER = 1,      /* answers alone, on one port */
    CIP_INDEXED = 2       /* as a plain one; what it passes on stays in the buffer it came in */
};

typedef struct cip_config {
    uint32_t kind;
    uint64_t clock;         /* the time at which it begins, in microseconds, below 2^63 */
    uint32_t first_id;      /* the first connection id: an incarnation in the high half, above every
                               one in which the device ever was (cip_incarnation), and a count from
                               1 in the low half */
    uint32_t first_number;  /* the first request number, in the same two halves */
    uint32_t pending_room;  /* how many requests may wait at once, 1 to 256 */
    uint32_t hop_room;      /* how many connections may be open or opening at once, 1 to 256 */
    uint32_t serial;
    uint16_t vendor, device_type, product, status; /* the Identity object */
    uint8_t major, minor;   /* major at most 127 */
} cip_config;

typedef struct cip_port {
    uint16_t number;        /* from 1 */
    uint8_t is_text;        /* 0: an address is one byte from first to last; else it has 1 to last
                               bytes from 21 to 7E, and last is 1 to 16 */
    uint8_t first, last;
    uint8_t address_length; /* 1 to 16 */
    uint8_t address[16];    /* the device's own */
} cip_port;

typedef struct cip_assembly { uint16_t instance, size; } cip_assembly; /* instance from 1; bytes */

typedef struct cip_timing { uint8_t tick, ticks; } cip_timing; /* ticks of 2^tick milliseconds */

/* Requested packet intervals are in microseconds (Volume 1, chapter 3, Forward_Open). */
typedef struct cip_open_params {
    uint32_t ot_rpi, to_rpi;
    uint16_t ot_params, to_params, serial;
    uint8_t multiplier, transport;
} cip_open_params;

/* The same of a Large_Forward_Open. */
typedef struct cip_large_params {
    uint32_t ot_rpi, to_rpi, ot_params, to_params;
    uint16_t serial;
    uint8_t multiplier, transport;
} cip_large_params;

enum cip_output_kind {
    CIP_OUT_REQUEST = 1,    /* send a request of this number by this port to this address */
    CIP_OUT_REPLY = 2,      /* send a reply to the request of this number there */
    CIP_OUT_DATA = 3,       /* send a datum of the connection of this id there */
    CIP_OUT_DONE = 4,       /* the op has come to its end; the bytes are the reply */
    CIP_OUT_REFUSED = 5,    /* the command is refused, for this reason */
    CIP_OUT_CONSUMED = 6,   /* a datum came to this instance; its bytes begin with the sequence
                               count where transport_class of its connection's row is 1 */
    CIP_OUT_ARRIVED = 7,    /* a datum came back to the open of this op; likewise */
    CIP_OUT_EXPIRED = 8,    /* the connection was silent for too long, and is gone */
    CIP_OUT_DROPPED = 9,    /* the frame is dropped, for this reason */
    CIP_OUT_ENDED = 10      /* the device was reset: what this op asked for or opened is gone */
};

enum cip_refused {
    CIP_REFUSED_OP_USED = 1, CIP_REFUSED_NOT_OPEN = 2, CIP_REFUSED_WRONG_SIZE = 3,
    CIP_REFUSED_RESERVED_SERVICE = 4, CIP_REFUSED_NO_INSTANCE = 5
};

enum cip_dropped {
    CIP_DROPPED_MALFORMED = 1, CIP_DROPPED_LATE = 2, CIP_DROPPED_UNKNOWN_ID = 3,
    CIP_DROPPED_WRONG_SIZE = 4
};

/* Which fields mean something goes by the kind; the others are 0. */
typedef struct cip_output {
    uint32_t kind;
    uint32_t reason;          /* refused, dropped */
    uint32_t number;          /* request, reply: number; data: id; done, arrived: op */
    uint32_t instance;        /* consumed */
    uint32_t originator;      /* consumed, expired: its serial number */
    uint16_t serial, vendor;  /* consumed, expired: of the connection, of its originator */
    uint16_t port, to_length; /* request, reply, data */
    uint8_t to[16];
    size_t length;            /* of the bytes, which are in the buffer after CIP_DONE */
} cip_output;

/* Where a connection or a request comes from or goes to. */
typedef struct cip_side {
    uint32_t is_link;         /* 1: a node by this port at this address; 0: an op of this device's
                                 own, or an end here, and both are 0 */
    uint32_t number;          /* what the node there knows it by, a connection id or a request
                                 number; or the op; 0 at an end */
    uint16_t port, address_length;
    uint8_t address[16];
} cip_side;

/* A connection that is open. Times are those of the device's clock in microseconds: config->clock
 * and all that cip_tick gave since. */
typedef struct cip_connection_row {
    uint32_t originator;      /* its originator's serial number */
    uint16_t serial, vendor;  /* of the connection, of its originator */
    cip_side up, down;        /* towards its originator, towards its target */
    uint32_t up_id, down_id;  /* the ids under which this device is sent data by each side, and 0
                                 where that is no link */
    uint32_t configuration, consumed, produced; /* its assemblies where it ends here, and else 0 */
    uint16_t ot_size, to_size;                  /* bytes of a datum, from and to its originator */
    uint32_t ot_rpi, to_rpi;  /* the intervals that were asked for, in microseconds, likewise */
    uint32_t transport_class; /* 1: its data begin with a sequence count of two bytes; 0: not so */
    uint64_t up_deadline, down_deadline;        /* when each side has been silent for too long, and
                                                   0 where it is no link */
} cip_connection_row;

enum cip_pending_kind {
    CIP_PENDING_SEND = 1,     /* an Unconnected_Send */
    CIP_PENDING_OPEN = 2,     /* a Forward_Open */
    CIP_PENDING_LARGE_OPEN = 3, /* a Large_Forward_Open */
    CIP_PENDING_CLOSE = 4     /* a Forward_Close */
};

/* A request that was sent on and waits for its reply. */
typedef struct cip_pending_row {
    uint64_t deadline;        /* when it is given up, in microseconds of the device's clock */
    uint32_t kind;
    uint32_t originator;      /* of the connection that it opens or closes; 0 at CIP_PENDING_SEND */
    uint16_t serial, vendor;
    cip_side up, down;        /* whom the reply goes to, where the request went */
} cip_pending_row;

/* The longest bytes of an output: a buffer of so many always holds them. */
#define CIP_MOST_BYTES 66000

/* A device in its initial state; time begins at config->clock, with no connection and assemblies of
 * zeros. Only into an empty handle. BAD_ARGUMENT: a setting is out of the range that is given
 * above; the name has other than 1 to 16 letters, digits, _ or -; the product name has more than 32
 * characters, or one outside 20 to 7E; there are no ports, more than 8 (an adapter: 1) or two of
 * one number; there are more than 64 assemblies or two of one instance. */
uint32_t cip_new(cip_device *device, const cip_config *config,
    const uint8_t *name, size_t name_length,
    const uint8_t *product_name, size_t product_name_length,
    const cip_port *ports, size_t port_count,
    const cip_assembly *assemblies, size_t assembly_count);

/* The handle is empty afterwards, as it may have been before. */
void cip_free(cip_device *device);

/* So much time went by. BAD_ARGUMENT exactly at 0. */
uint32_t cip_tick(cip_device *device, uint16_t milliseconds);

/* A frame came in by this port from this address. BAD_ARGUMENT exactly at port 0, or an address of
 * no bytes or of more than 16. Whoever sends a request chooses its number, and gets it back. */
uint32_t cip_request(cip_device *device, uint16_t port, const uint8_t *from, size_t from_length,
    uint32_t number, const uint8_t *bytes, size_t length);
uint32_t cip_reply(cip_device *device, uint16_t port, const uint8_t *from, size_t from_length,
    uint32_t number, const uint8_t *bytes, size_t length);
uint32_t cip_data(cip_device *device, uint16_t port, const uint8_t *from, size_t from_length,
    uint32_t id, const uint8_t *bytes, size_t length);

/* What the device's own application asks for. `op` names it, once for ever; `of` is the op of an
 * open. BAD_ARGUMENT exactly where the path cannot be read. */
uint32_t cip_send(cip_device *device, uint32_t op, cip_timing timing,
    const uint8_t *path, size_t path_length, const uint8_t *request, size_t length);
uint32_t cip_open(cip_device *device, uint32_t op, cip_timing timing,
    const uint8_t *path, size_t path_length, const cip_open_params *params);
uint32_t cip_large_open(cip_device *device, uint32_t op, cip_timing timing,
    const uint8_t *path, size_t path_length, const cip_large_params *params);
uint32_t cip_close(cip_device *device, uint32_t op, uint32_t of, cip_timing timing);

/* A datum goes by an open connection; an assembly is written; it is sent by each connection that
 * takes its data from it. */
uint32_t cip_enter(cip_device *device, uint32_t of, const uint8_t *bytes, size_t length);
uint32_t cip_set(cip_device *device, uint32_t instance, const uint8_t *bytes, size_t length);
uint32_t cip_produce(cip_device *device, uint32_t instance);

/* The next output of the last step. After DONE it is told, its bytes are in the buffer, and it
 * waits no more; after SHORT output->length says how long the buffer must be. */
uint32_t cip_next(cip_device *device, cip_output *output, uint8_t *buffer, size_t room);

/* The bytes of an assembly go to the buffer, and their count to *length. Nothing changes, and
 * outputs may wait. */
uint32_t cip_get(cip_device *device, uint16_t instance, size_t *length, uint8_t *buffer,
    size_t room);

/* The connection at this place among those that are open, in rising triad (connection serial
 * number, vendor, originator), or the request at this place among those that wait, in rising
 * number; places count from 0. NOTHING only past the last one. Nothing changes, and outputs may
 * wait. A call reads all tables, in memory that it gives back: a walk over n of them takes n times
 * that. A step between two calls may move the places. */
uint32_t cip_connection(cip_device *device, size_t at, cip_connection_row *connection);
uint32_t cip_pending(cip_device *device, size_t at, cip_pending_row *pending);

/* How long nothing happens of itself: any shorter tick changes the time alone, and at a tick of
 * *milliseconds, which is at least 1, a request is given up or a connection expires. It may be more
 * than one cip_tick can take, and end past the last time of the clock, which no tick then reaches;
 * what comes in before may change it. DONE exactly where a request waits for its time, or a side of
 * a connection, NOTHING where none does: then no tick does anything. Nothing changes, and outputs
 * may wait. A call takes no memory, and mostly no longer the more is open. */
uint32_t cip_next_deadline(cip_device *device, uint64_t *milliseconds);

/* The incarnation in which the device draws its connection ids, and that in which it draws its
 * request numbers: those of first_id and first_number, and one more for each Reset that was carried
 * out; what it draws until the next Reset has it in its high half. A device that starts again must
 * begin above every incarnation in which it ever was, or an id of an earlier life comes to stand
 * for a connection of this one: so keep the greater of both in memory that survives, before the
 * reply to a Reset goes out. The call may be made while outputs wait: behind the call that put out
 * the reply, and before cip_next tells it, it says whether a reset was carried out. Nothing
 * changes. */
uint32_t cip_incarnation(cip_device *device, uint16_t *ids, uint16_t *numbers);

/* CIP_VERSION of the header that the library belongs to. */
uint32_t cip_version(void);

/* A status in words. */
static inline const char *cip_error_text(uint32_t status) {
    static const char *const texts[] = {
        "done", "the handle has no device", "the handle has a device", "outputs wait to be read",
        "an argument is out of its range", "an allocation was refused",
        "the clock would pass its last time", "there is nothing", "the buffer is too short"
    };
    return status < sizeof texts / sizeof *texts ? texts[status] : "no status";
}

#ifdef __cplusplus
}
#endif
#endif
