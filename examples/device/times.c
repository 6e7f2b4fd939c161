/* Time that goes by is never lost: more than one tick takes, and a tick whose memory is refused. A
 * device that sleeps as long as nothing happens keeps a connection whose data come in time. The
 * heap of this program stands in place of cip_heap.c. */
#include "enip.h"
#include "settings.h"

struct tried {
    bool ok;
    void *at;
};
static char nothing;
static bool refuses_next;

static bool refuses(void) {
    bool refused = refuses_next;
    refuses_next = false;
    return refused;
}

struct tried rattle_alloc(size_t count, size_t align) {
    void *at = refuses() ? 0 : malloc(count ? count : align);
    return (struct tried){at != 0, at ? at : &nothing};
}
struct tried rattle_realloc(void *at, size_t kept, size_t count, size_t align) {
    (void)kept;
    void *to = refuses() ? 0 : realloc(at, count ? count : align);
    return (struct tried){to != 0, to ? to : &nothing};
}
void rattle_dealloc(void *at) {
    free(at);
}

static cip_device device = CIP_DEVICE_EMPTY;
static uint8_t buffer[CIP_MOST_BYTES];

static void take_outputs(void) {
    cip_output output;
    while (cip_next(&device, &output, buffer, sizeof buffer) == CIP_DONE)
        printf("output %u\n", output.kind);
}

/* The connection that is open, and how long nothing happens. */
static unsigned look(void) {
    cip_connection_row row;
    uint64_t milliseconds = 0;
    if (cip_connection(&device, 0, &row) != CIP_DONE)
        printf("nothing is open\n");
    else if (cip_next_deadline(&device, &milliseconds) == CIP_DONE)
        printf("open until %llu us, nothing for %llu ms\n", (unsigned long long)row.up_deadline,
               (unsigned long long)milliseconds);
    return (unsigned)milliseconds;
}

/* Lets the device come as far as this. */
static uint64_t pass(uint64_t last, uint64_t now) {
    uint64_t told = pass_time(&device, last, now, take_outputs);
    printf("%llu of %llu ms\n", (unsigned long long)told, (unsigned long long)now);
    return told;
}

int main(void) {
    /* An interval of 10 ms, and 4 of them times 2^1 until it is gone. */
    static const uint8_t forward_open[] = {
        0x54, 0x02, 0x20, 0x06, 0x24, 0x01, 0x0A, 0x05, 0x00, 0x00, 0x00, 0x00, 0x77,
        0x00, 0x00, 0x00, 0x34, 0x12, 0x01, 0x01, 0x0D, 0x0C, 0x0B, 0x0A, 0x01, 0x00,
        0x00, 0x00, 0x10, 0x27, 0x00, 0x00, 0x06, 0x48, 0x10, 0x27, 0x00, 0x00, 0x04,
        0x48, 0x01, 0x04, 0x20, 0x04, 0x24, 0x64, 0x2C, 0x65, 0x2C, 0x66,
    };
    static const uint8_t scanner[] = {0x05};
    uint8_t datum[] = {0x00, 0x00, 0xDE, 0xAD, 0xBE, 0xEF};
    if (adapter_new(&device, 7) != CIP_DONE)
        return 1;
    uint64_t now = pass(0, 70000);
    if (cip_request(&device, ADAPTER_PORT, scanner, 1, 1, forward_open, sizeof forward_open) !=
        CIP_DONE)
        return 2;
    take_outputs();
    for (int round = 0; round < 4; round++) {
        now = pass(now, now + look() - 1);
        datum[0]++;
        if (cip_data(&device, ADAPTER_PORT, scanner, 1, 0x41, datum, sizeof datum) != CIP_DONE)
            return 3;
        take_outputs();
    }
    uint64_t end = now + look() + 20;
    refuses_next = true;
    now = pass(now, end);
    look();
    pass(now, end);
    look();
    cip_free(&device);
    return 0;
}
