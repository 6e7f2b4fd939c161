/* An EtherNet/IP adapter: encapsulation over TCP and UDP port 44818, class 1 data over UDP port
 * 2222. All of CIP is the library's; here are sockets and the encapsulation alone.
 *
 * adapter [-k FILE] [-p DATA_PORT] [ADDRESS [MILLISECONDS [LOG]]]: on 127.0.0.1 for 5,000 ms, if
 * not said; then it ends. It keeps its incarnation in FILE (kept.h). It has the assemblies 100
 * (configuration), 101 and 103 (it consumes 4 bytes of each), 102 and 104 (it produces 2, a
 * counter). It sends by each connection at that connection's own interval, to the port that a
 * Sockaddr Info item beside the open names. It names ports in its reply where the open did, or
 * where it takes data on another port than 2222. Each datum goes into the log, if one is named. */
#include "flows.h"
#include "kept.h"
#include <poll.h>

enum { PORT = 2, MOST_PEERS = 32, MOST_WAITING = 64, MOST_WAIT = 5 };

typedef struct peer {
    int socket;
    uint32_t session; /* 0 before RegisterSession */
    char address[16];
    uint8_t in[MOST_FRAME];
    size_t filled;
} peer;

/* Who waits for the reply to the request of this number. */
typedef struct waiting {
    uint32_t number, session;
    int peer;
    data_ports ports; /* that stood beside it */
    uint8_t context[8];
} waiting;

static cip_device device = CIP_DEVICE_EMPTY;
static const char *address = "127.0.0.1";
static uint16_t own_port = DATA_PORT;
static peer peers[MOST_PEERS];
static waiting asked[MOST_WAITING];
static uint32_t last_number, last_session, sent;
static unsigned long consumed, expired, dropped;
static bool has_changed; /* what is open, since the flows were looked at */
static int data_socket;
static FILE *data_log;
static uint8_t identity[64]; /* what Get_Attributes_All of the Identity object says */
static size_t identity_length;

static void to_peer(peer *p, const uint8_t *frame, size_t length) {
    if (p->socket >= 0 && send(p->socket, frame, length, MSG_NOSIGNAL) != (ssize_t)length) {
        close(p->socket); /* it does not read: its session ends */
        p->socket = -1;
    }
}

/* The flow of a connection that was opened just now, and the ports to name in the reply. */
static data_ports begin_flow(const cip_output *output, const opened *open, data_ports asked_for) {
    flow *f = new_flow(&device, PORT, output->to, output->to_length, open->to_id);
    if (f == 0)
        return (data_ports){0, 0};
    f->originator = open->originator;
    f->interval = open->to_interval;
    f->due = milliseconds() * 1000 + f->interval;
    if (asked_for.to != 0)
        f->data_port = asked_for.to;
    has_changed = true;
    bool is_named = asked_for.ot != 0 || asked_for.to != 0 || own_port != DATA_PORT;
    return is_named ? (data_ports){own_port, f->data_port} : (data_ports){0, 0};
}

static void reply_to(const cip_output *output, const uint8_t *bytes) {
    uint32_t number = output->number;
    size_t length = output->length;
    waiting *w = &asked[number % MOST_WAITING];
    opened open;
    data_ports ports = {0, 0};
    if (number == 0) { /* our own request */
        identity_length = length < 4 || length - 4 > sizeof identity ? 0 : length - 4;
        memcpy(identity, bytes + 4, identity_length);
        return;
    }
    if (length > 0 && (bytes[0] == 0xCE || bytes[0] == 0x85))
        has_changed = true; /* a close, or a reset */
    if (opened_in(bytes, length, &open))
        ports = begin_flow(output, &open, w->number == number ? w->ports : ports);
    if (w->number != number || length > MOST_MESSAGE)
        return;
    w->number = 0;
    peer *p = &peers[w->peer];
    if (p->socket < 0 || p->session != w->session)
        return; /* the session has ended */
    uint8_t frame[MOST_FRAME];
    size_t data =
        put_message(frame + HEADER, bytes, length, (endpoints){p->address, address}, ports);
    to_peer(p, frame, put_header(frame, SEND_RR_DATA, p->session, 0, w->context, data));
}

/* A datum goes out by its flow, if it is due there. */
static void produced(const cip_output *output, const uint8_t *bytes) {
    flow *f = flow_to(PORT, output->to, output->to_length, output->number);
    if (f == 0 || !f->is_due)
        return;
    note(data_log, "out", bytes, output->length, f->originator);
    send_datum(data_socket, output->to, output->to_length, f->data_port, output->number, ++sent,
               bytes, output->length);
}

static void take_outputs(void) {
    keep_incarnation(&device);
    static uint8_t bytes[CIP_MOST_BYTES];
    cip_output output;
    while (cip_next(&device, &output, bytes, sizeof bytes) == CIP_DONE) {
        switch (output.kind) {
        case CIP_OUT_REPLY:
            reply_to(&output, bytes);
            break;
        case CIP_OUT_DATA:
            produced(&output, bytes);
            break;
        case CIP_OUT_CONSUMED:
            note(data_log, "in", bytes, output.length, output.originator);
            consumed++;
            break;
        case CIP_OUT_EXPIRED:
            expired++;
            has_changed = true;
            break;
        case CIP_OUT_DROPPED:
            dropped++;
            break;
        default:
            break; /* an adapter sends no requests and has no ops */
        }
    }
}

/* The data of a ListIdentity or ListServices reply. */
static size_t list(uint16_t command, uint8_t *data) {
    static const uint8_t get_all[] = {0x01, 0x02, 0x20, 0x01, 0x24, 0x01};
    uint8_t *at = put_word(data, 1);
    if (command == LIST_SERVICES) {
        at = put_word(put_word(at, ITEM_SERVICES), 20);
        at = put_word(put_word(at, 1), 0x0120); /* version 1; CIP over TCP, class 0 or 1 over UDP */
        memcpy(at, "Communications\0\0", 16);
        return (size_t)(at + 16 - data);
    }
    if (cip_request(&device, PORT, (const uint8_t *)address, strlen(address), 0, get_all,
                    sizeof get_all) == CIP_DONE)
        take_outputs();
    at = put_word(put_word(at, ITEM_IDENTITY), (uint16_t)(19 + identity_length));
    at = put_word(at, 1);
    struct sockaddr_in own = at_address(address, TCP_PORT);
    own.sin_family = htons(AF_INET); /* the item has it big-endian */
    memcpy(at, &own, 16);
    memcpy(at + 16, identity, identity_length);
    at[16 + identity_length] = 3; /* operational */
    return (size_t)(at + 17 + identity_length - data);
}

/* A request of the Message Router: the answer comes back by reply_to. */
static void ask(int which, const uint8_t *frame, size_t length) {
    peer *p = &peers[which];
    size_t message_length;
    data_ports ports;
    const uint8_t *message = message_in(frame + HEADER, length, (endpoints){p->address, address},
                                        &message_length, &ports);
    uint8_t back[MOST_FRAME];
    if (message == 0) {
        to_peer(p, back, put_header(back, SEND_RR_DATA, p->session, ENIP_BAD_DATA, frame + 12, 0));
        return;
    }
    uint32_t number = last_number = last_number == UINT32_MAX ? 1 : last_number + 1;
    waiting *w = &asked[number % MOST_WAITING];
    *w = (waiting){.number = number, .session = p->session, .peer = which, .ports = ports};
    memcpy(w->context, frame + 12, 8);
    uint32_t status = cip_request(&device, PORT, (const uint8_t *)p->address, strlen(p->address),
                                  number, message, message_length);
    if (status == CIP_DONE)
        take_outputs();
}

static void one_frame(int which, const uint8_t *frame, size_t length) {
    peer *p = &peers[which];
    uint8_t back[MOST_FRAME];
    uint16_t command = word(frame);
    uint32_t session = double_word(frame + 4), status = 0;
    size_t data = 0;
    switch (command) {
    case REGISTER:
        status = length != 4 ? ENIP_BAD_LENGTH : word(frame + HEADER) != 1 ? ENIP_BAD_VERSION : 0;
        if (status == 0 && p->session == 0)
            p->session = ++last_session;
        data = put_double(back + HEADER, 1) - (back + HEADER); /* version 1, no options */
        session = p->session;
        break;
    case UNREGISTER:
        close(p->socket);
        p->socket = -1;
        return;
    case LIST_IDENTITY:
    case LIST_SERVICES:
        data = list(command, back + HEADER);
        break;
    case SEND_RR_DATA:
        if (session == p->session && session != 0) {
            ask(which, frame, length);
            return;
        }
        status = ENIP_BAD_SESSION;
        break;
    default:
        status = ENIP_UNSUPPORTED;
    }
    to_peer(p, back, put_header(back, command, session, status, frame + 12, data));
}

static void from_peer(int which) {
    peer *p = &peers[which];
    ssize_t got = recv(p->socket, p->in + p->filled, sizeof p->in - p->filled, 0);
    size_t length = 0;
    if (got > 0)
        p->filled += (size_t)got;
    while (p->socket >= 0 && got > 0 && p->filled >= HEADER) {
        length = word(p->in + 2);
        if (HEADER + length > sizeof p->in || p->filled < HEADER + length)
            break;
        uint8_t frame[MOST_FRAME];
        memcpy(frame, p->in, HEADER + length);
        p->filled -= HEADER + length;
        memmove(p->in, p->in + HEADER + length, p->filled);
        one_frame(which, frame, length);
    }
    if (p->socket >= 0 &&
        (got <= 0 || HEADER + length > sizeof p->in)) { /* ended, or a bad length */
        close(p->socket);
        p->socket = -1;
    }
}

static void from_data(void) {
    uint8_t frame[MOST_FRAME];
    struct sockaddr_in from;
    socklen_t size = sizeof from;
    uint32_t id;
    size_t length;
    ssize_t got = recvfrom(data_socket, frame, sizeof frame, 0, (struct sockaddr *)&from, &size);
    const uint8_t *datum = got < 0 ? 0 : datum_in(frame, (size_t)got, &id, &length);
    if (datum == 0)
        return;
    char text[16];
    inet_ntop(AF_INET, &from.sin_addr, text, sizeof text);
    if (cip_data(&device, PORT, (const uint8_t *)text, strlen(text), id, datum, length) == CIP_DONE)
        take_outputs();
}

static void from_any(int udp) {
    uint8_t frame[MOST_FRAME], back[MOST_FRAME];
    struct sockaddr_in from;
    socklen_t size = sizeof from;
    ssize_t got = recvfrom(udp, frame, sizeof frame, 0, (struct sockaddr *)&from, &size);
    if (got < HEADER || (word(frame) != LIST_IDENTITY && word(frame) != LIST_SERVICES))
        return;
    size_t data = list(word(frame), back + HEADER);
    size_t length = put_header(back, word(frame), 0, 0, frame + 12, data);
    (void)sendto(udp, back, length, 0, (struct sockaddr *)&from, size);
}

static void new_peer(int listener) {
    struct sockaddr_in from;
    socklen_t size = sizeof from;
    int s = accept(listener, (struct sockaddr *)&from, &size), i = 0;
    while (i < MOST_PEERS && peers[i].socket >= 0)
        i++;
    if (s >= 0 && i == MOST_PEERS)
        close(s);
    if (s < 0 || i == MOST_PEERS)
        return;
    peers[i] = (peer){.socket = s};
    inet_ntop(AF_INET, &from.sin_addr, peers[i].address, sizeof peers[i].address);
}

/* The counter goes on, and this assembly is sent by those connections of it that are due. The
 * device counts for the others too: where connections of different intervals share an assembly, the
 * slower ones see counts left out. */
static void produce(uint32_t instance) {
    static uint16_t counter;
    uint8_t datum[2];
    put_word(datum, ++counter);
    if (cip_set(&device, instance, datum, sizeof datum) == CIP_DONE)
        take_outputs();
    if (cip_produce(&device, instance) == CIP_DONE)
        take_outputs();
}

/* Produces what is due; when something is due next. */
static uint64_t produce_due(uint64_t now) {
    uint64_t next = UINT64_MAX;
    if (has_changed)
        has_changed = !forget_closed(&device);
    for (int i = 0; i < used_flows; i++)
        flows[i].is_due = flows[i].port != 0 && flows[i].instance != 0 && flows[i].due <= now;
    for (int i = 0; i < used_flows; i++) {
        flow *first = &flows[i];
        if (first->is_due)
            produce(first->instance);
        for (flow *f = first; first->is_due && f < flows + used_flows; f++)
            if (f != first && f->instance == first->instance)
                f->is_due = false; /* it was sent with the first */
    }
    for (int i = 0; i < used_flows; i++) {
        flow *f = &flows[i];
        if (f->port != 0 && f->due <= now)
            f->due = due_after(f->due, f->interval, now);
        if (f->port != 0 && f->due < next)
            next = f->due;
    }
    return next;
}

static uint32_t make_device(void) {
    const uint32_t first = first_of_life();
    const cip_config config = {.kind = CIP_ADAPTER,
                               .first_id = first,
                               .first_number = first,
                               .pending_room = 16,
                               .hop_room = 64,
                               .vendor = 0x0101,
                               .device_type = 12,
                               .product = 3,
                               .serial = 0x0E0E,
                               .major = 1,
                               .minor = 3};
    cip_port port = {
        .number = PORT, .is_text = 1, .last = 16, .address_length = (uint8_t)strlen(address)};
    memcpy(port.address, address, port.address_length);
    const cip_assembly assemblies[] = {{100, 0}, {101, 4}, {102, 2}, {103, 4}, {104, 2}};
    return cip_new(&device, &config, (const uint8_t *)"E", 1, (const uint8_t *)"EA", 2, &port, 1,
                   assemblies, 5);
}

int main(int count, char **words) {
    for (int option; (option = getopt(count, words, "k:p:")) != -1;) {
        if (option == 'k')
            kept_in = optarg;
        else if (option == 'p')
            own_port = port_from(optarg);
        else
            return 2;
    }
    count -= optind - 1;
    words += optind - 1;
    if (count > 1)
        address = words[1];
    if (count > 3)
        data_log = log_at(words[3]);
    uint32_t status = make_device();
    if (status != CIP_DONE) {
        fprintf(stderr, "no device: %s\n", cip_error_text(status));
        return 1;
    }
    for (int i = 0; i < MOST_PEERS; i++)
        peers[i].socket = -1;
    int listener = bound(SOCK_STREAM, address, TCP_PORT),
        udp = bound(SOCK_DGRAM, address, TCP_PORT);
    data_socket = bound(SOCK_DGRAM, address, own_port);
    listen(listener, 16);
    printf("ready\n");
    fflush(stdout);
    uint64_t now = milliseconds(), last = now, next = UINT64_MAX,
             end = now + (count > 2 ? strtoull(words[2], 0, 10) : 5000);
    while (now < end) {
        struct pollfd fds[3 + MOST_PEERS] = {
            {listener, POLLIN, 0}, {udp, POLLIN, 0}, {data_socket, POLLIN, 0}};
        for (int i = 0; i < MOST_PEERS; i++)
            fds[3 + i] = (struct pollfd){peers[i].socket, POLLIN, 0};
        poll(fds, 3 + MOST_PEERS, wait_until(next, now * 1000, MOST_WAIT));
        now = milliseconds();
        last = pass_time(&device, last, now, take_outputs);
        if (last < now)
            continue; /* the frames wait until the time is taken */
        for (int i = 0; i < MOST_PEERS; i++)
            if (fds[3 + i].fd >= 0 && fds[3 + i].revents)
                from_peer(i);
        if (fds[0].revents & POLLIN)
            new_peer(listener);
        if (fds[1].revents & POLLIN)
            from_any(udp);
        if (fds[2].revents & POLLIN)
            from_data();
        next = produce_due(now * 1000);
    }
    for (int i = 0; i < MOST_PEERS; i++)
        if (peers[i].socket >= 0)
            close(peers[i].socket);
    close(listener);
    close(udp);
    close(data_socket);
    cip_free(&device);
    if (data_log != 0)
        fclose(data_log);
    printf("consumed %lu, expired %lu, dropped %lu\n", consumed, expired, dropped);
    return 0;
}
