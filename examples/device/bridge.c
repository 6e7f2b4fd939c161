/* A bridge of two EtherNet/IP networks: a module with a port on each. It answers what is asked of
 * itself, and forwards what a path leads to the other network: Unconnected_Send, Forward_Open large
 * or not, Forward_Close, and the data of connections. All of CIP is the library's; here are sockets
 * and the encapsulation alone.
 *
 * bridge [-k FILE] FIRST SECOND [MILLISECONDS]: its own IP addresses on the networks of its ports 2
 * and 3. It keeps its incarnation in FILE (kept.h). On each network it listens on TCP and UDP port
 * 44818, takes data on UDP port 2222, and connects to others on TCP port 44818. Data go to the port
 * that a Sockaddr Info item beside the open, or beside the reply to it, names. It ends after so
 * long, or else at SIGTERM. At SIGUSR1 the cable of the second network is cut: its TCP connections
 * end and data to it and from it are lost, until SIGUSR2. */
#include "flows.h"
#include "kept.h"
#include <errno.h>
#include <fcntl.h>
#include <poll.h>
#include <signal.h>

enum { NETWORKS = 2, MOST_PEERS = 64, MOST_LINKS = 16, MOST_WAITING = 512, ROOM = 64 };
enum { OWN = 0, BATCH = 64, MOST_IDLE = 1000 };

/* A buffer in which frames come together. */
typedef struct stream {
    int socket; /* -1 where there is none */
    uint8_t in[MOST_FRAME];
    size_t filled;
} stream;

/* Whoever has connected to us. */
typedef struct peer {
    stream from;
    uint32_t session; /* 0 before RegisterSession */
    char address[16];
} peer;

/* A device that we have connected to, and what waits until it has given us a session. */
typedef struct link {
    stream to;
    uint32_t session;
    char address[16];
    uint8_t out[8 * MOST_FRAME];
    size_t waits;
    bool registering;
} link_to;

typedef struct network {
    uint16_t port; /* of the device */
    const char *address;
    int listener, udp, data;
    peer peers[MOST_PEERS];
    link_to links[MOST_LINKS];
    bool cut;
} network;

/* Who waits for the reply to the request of this number. */
typedef struct waiting {
    uint32_t number, session;
    network *on;
    int peer;
    data_ports ports; /* that stood beside it */
    uint8_t context[8];
} waiting;

static cip_device device = CIP_DEVICE_EMPTY;
static network networks[NETWORKS] = {{.port = 2}, {.port = 3}};
static waiting asked[MOST_WAITING];
static uint32_t last_number, last_session, sent;
static unsigned long passed, replies, expired, dropped, lost, refused;
static uint8_t identity[64]; /* what Get_Attributes_All of the Identity object says */
static size_t identity_length;
static volatile sig_atomic_t ends, is_cut;

static void on_signal(int number) {
    if (number == SIGTERM)
        ends = 1;
    else
        is_cut = number == SIGUSR1;
}

static void hang_up(stream *s) {
    if (s->socket >= 0)
        close(s->socket);
    s->socket = -1;
    s->filled = 0;
}

/* A frame goes whole or the connection ends: who does not read loses its session. */
static void put(stream *to, const uint8_t *frame, size_t length) {
    if (to->socket >= 0 && send(to->socket, frame, length, MSG_NOSIGNAL) != (ssize_t)length)
        hang_up(to);
}

static network *network_of(uint16_t port) { return &networks[port == networks[1].port]; }

static uint32_t status_of(uint32_t status) {
    refused += status != CIP_DONE;
    return status;
}

/* ---- what goes out */

/* Data under this id go to this UDP port there, or to 2222 where none is named. */
static uint16_t send_to_port(const network *on, const uint8_t *to, size_t to_length, uint32_t id,
                             uint16_t named) {
    flow *f = flow_to(on->port, to, to_length, id);
    if (f != 0)
        f->port = 0; /* of an earlier connection */
    if (named == 0 || named == DATA_PORT)
        return DATA_PORT;
    f = new_flow(&device, on->port, to, to_length, id);
    if (f == 0)
        return DATA_PORT;
    return f->data_port = named;
}

static uint16_t port_of(const network *on, const cip_output *output) {
    const flow *f = flow_to(on->port, output->to, output->to_length, output->number);
    return f != 0 ? f->data_port : DATA_PORT;
}

static void reply_to(const cip_output *output, const uint8_t *bytes) {
    uint32_t number = output->number;
    size_t length = output->length;
    waiting *w = &asked[number % MOST_WAITING];
    opened open;
    data_ports ports = {0, 0};
    if (number == OWN) {
        identity_length = length < 4 || length - 4 > sizeof identity ? 0 : length - 4;
        memcpy(identity, bytes + 4, identity_length);
        return;
    }
    if (w->number != number || length > MOST_MESSAGE)
        return;
    w->number = 0;
    if (opened_in(bytes, length, &open)) {
        uint16_t to = send_to_port(w->on, output->to, output->to_length, open.to_id, w->ports.to);
        if (w->ports.ot != 0 || w->ports.to != 0)
            ports = (data_ports){DATA_PORT, to};
    }
    peer *p = &w->on->peers[w->peer];
    if (p->from.socket < 0 || p->session != w->session)
        return; /* the session has ended */
    uint8_t frame[MOST_FRAME];
    size_t data =
        put_message(frame + HEADER, bytes, length, (endpoints){p->address, w->on->address}, ports);
    replies++;
    put(&p->from, frame, put_header(frame, SEND_RR_DATA, p->session, 0, w->context, data));
}

/* The connection to a device on the network, begun where there is none yet. */
static link_to *link_at(network *on, const char *address) {
    link_to *free_one = 0;
    for (int i = 0; i < MOST_LINKS; i++) {
        link_to *l = &on->links[i];
        if (l->to.socket >= 0 && strcmp(l->address, address) == 0)
            return l;
        if (l->to.socket < 0)
            free_one = l;
    }
    struct sockaddr_in at = {.sin_family = AF_INET, .sin_port = htons(TCP_PORT)};
    if (on->cut || free_one == 0 || inet_pton(AF_INET, address, &at.sin_addr) != 1)
        return 0;
    int s = bound(SOCK_STREAM, on->address, 0);
    fcntl(s, F_SETFL, O_NONBLOCK);
    if (connect(s, (struct sockaddr *)&at, sizeof at) != 0 && errno != EINPROGRESS) {
        close(s);
        return 0;
    }
    *free_one = (link_to){.to.socket = s};
    strcpy(free_one->address, address);
    return free_one;
}

static void request_to(network *on, const cip_output *output, const uint8_t *bytes) {
    uint8_t frame[MOST_FRAME], context[8] = {0};
    char address[17] = {0};
    memcpy(address, output->to, output->to_length);
    if (output->length > MOST_MESSAGE || output->to_length > 15)
        return;
    link_to *l = link_at(on, address);
    if (l == 0)
        return;                          /* nobody is there: the time of the request runs out */
    put_double(context, output->number); /* it comes back with the reply */
    size_t data = put_message(frame + HEADER, bytes, output->length,
                              (endpoints){on->address, address}, (data_ports){0, 0});
    size_t length = put_header(frame, SEND_RR_DATA, l->session, 0, context, data);
    if (l->session != 0) {
        put(&l->to, frame, length);
    } else if (length <= sizeof l->out - l->waits) {
        memcpy(l->out + l->waits, frame, length);
        l->waits += length;
    }
}

static void take_outputs(void) {
    keep_incarnation(&device);
    static uint8_t bytes[CIP_MOST_BYTES];
    cip_output output;
    while (cip_next(&device, &output, bytes, sizeof bytes) == CIP_DONE) {
        network *on = network_of(output.port);
        switch (output.kind) {
        case CIP_OUT_REQUEST:
            request_to(on, &output, bytes);
            break;
        case CIP_OUT_REPLY:
            reply_to(&output, bytes);
            break;
        case CIP_OUT_DATA:
            passed++;
            if (on->cut)
                lost++;
            else
                send_datum(on->data, output.to, output.to_length, port_of(on, &output),
                           output.number, ++sent, bytes, output.length);
            break;
        case CIP_OUT_EXPIRED:
            expired++;
            break;
        case CIP_OUT_DROPPED:
            dropped++;
            break;
        default:
            break; /* this bridge has no ops of its own, and no assemblies */
        }
    }
}

/* ---- what comes in */

/* The data of a ListIdentity or ListServices reply. */
static size_t list(network *on, uint16_t command, uint8_t *data) {
    static const uint8_t get_all[] = {0x01, 0x02, 0x20, 0x01, 0x24, 0x01};
    uint8_t *at = put_word(data, 1);
    if (command == LIST_SERVICES) {
        at = put_word(put_word(at, ITEM_SERVICES), 20);
        at = put_word(put_word(at, 1), 0x0120); /* version 1; CIP over TCP, class 0 or 1 over UDP */
        memcpy(at, "Communications\0\0", 16);
        return (size_t)(at + 16 - data);
    }
    if (cip_request(&device, on->port, (const uint8_t *)on->address, strlen(on->address), OWN,
                    get_all, sizeof get_all) == CIP_DONE)
        take_outputs();
    at = put_word(put_word(at, ITEM_IDENTITY), (uint16_t)(19 + identity_length));
    at = put_word(at, 1);
    struct sockaddr_in own = at_address(on->address, TCP_PORT);
    own.sin_family = htons(AF_INET); /* the item has it big-endian */
    memcpy(at, &own, 16);
    memcpy(at + 16, identity, identity_length);
    at[16 + identity_length] = 3; /* operational */
    return (size_t)(at + 17 + identity_length - data);
}

/* A request of the Message Router: the answer comes back by reply_to. */
static void ask(network *on, int which, const uint8_t *frame, size_t length) {
    peer *p = &on->peers[which];
    size_t message_length;
    data_ports ports;
    const uint8_t *message = message_in(
        frame + HEADER, length, (endpoints){p->address, on->address}, &message_length, &ports);
    uint8_t back[MOST_FRAME];
    if (message == 0) {
        put(&p->from, back,
            put_header(back, SEND_RR_DATA, p->session, ENIP_BAD_DATA, frame + 12, 0));
        return;
    }
    uint32_t number = last_number = last_number == UINT32_MAX ? 1 : last_number + 1;
    waiting *w = &asked[number % MOST_WAITING];
    *w =
        (waiting){.number = number, .session = p->session, .on = on, .peer = which, .ports = ports};
    memcpy(w->context, frame + 12, 8);
    if (status_of(cip_request(&device, on->port, (const uint8_t *)p->address, strlen(p->address),
                              number, message, message_length)) == CIP_DONE)
        take_outputs();
}

static void frame_of_peer(network *on, int which, const uint8_t *frame, size_t length) {
    peer *p = &on->peers[which];
    uint8_t back[MOST_FRAME];
    uint16_t command = word(frame);
    uint32_t session = double_word(frame + 4), status = 0;
    size_t data = 0;
    switch (command) {
    case REGISTER:
        status = length != 4 ? ENIP_BAD_LENGTH : word(frame + HEADER) != 1 ? ENIP_BAD_VERSION : 0;
        if (status == 0 && p->session == 0)
            p->session = ++last_session;
        data = put_double(back + HEADER, 1) - (back + HEADER); /* version 1, no options */
        session = p->session;
        break;
    case UNREGISTER:
        hang_up(&p->from);
        return;
    case LIST_IDENTITY:
    case LIST_SERVICES:
        data = list(on, command, back + HEADER);
        break;
    case SEND_RR_DATA:
        if (session == p->session && session != 0) {
            ask(on, which, frame, length);
            return;
        }
        status = ENIP_BAD_SESSION;
        break;
    default:
        status = ENIP_UNSUPPORTED;
    }
    put(&p->from, back, put_header(back, command, session, status, frame + 12, data));
}

/* A session or a reply of a device that we have connected to. */
static void frame_of_link(network *on, int which, const uint8_t *frame, size_t length) {
    link_to *l = &on->links[which];
    size_t message_length = 0;
    data_ports ports;
    opened open;
    const uint8_t *message = message_in(
        frame + HEADER, length, (endpoints){on->address, l->address}, &message_length, &ports);
    if (double_word(frame + 8) != 0)
        return; /* it refuses: the time of the request runs out */
    if (word(frame) == SEND_RR_DATA && message != 0 && opened_in(message, message_length, &open))
        send_to_port(on, (const uint8_t *)l->address, strlen(l->address), open.ot_id, ports.ot);
    if (word(frame) == REGISTER && l->session == 0) {
        l->session = double_word(frame + 4);
        for (size_t at = 0; at < l->waits; at += HEADER + word(l->out + at + 2))
            put_double(l->out + at + 4, l->session);
        put(&l->to, l->out, l->waits);
        l->waits = 0;
    } else if (word(frame) == SEND_RR_DATA && message != 0 &&
               status_of(cip_reply(&device, on->port, (const uint8_t *)l->address,
                                   strlen(l->address), double_word(frame + 12), message,
                                   message_length)) == CIP_DONE) {
        take_outputs();
    }
}

/* Reads once, and hands each whole frame on; what is no frame ends the connection. */
static void read_frames(network *on, stream *s, int which,
                        void (*take)(network *, int, const uint8_t *, size_t)) {
    ssize_t got = recv(s->socket, s->in + s->filled, sizeof s->in - s->filled, MSG_DONTWAIT);
    if (got < 0 && (errno == EAGAIN || errno == EINTR))
        return;
    if (got <= 0) {
        hang_up(s);
        return;
    }
    s->filled += (size_t)got;
    while (s->socket >= 0 && s->filled >= HEADER) {
        size_t length = word(s->in + 2);
        if (HEADER + length > sizeof s->in) {
            hang_up(s);
            return;
        }
        if (s->filled < HEADER + length)
            return;
        uint8_t frame[MOST_FRAME];
        memcpy(frame, s->in, HEADER + length);
        s->filled -= HEADER + length;
        memmove(s->in, s->in + HEADER + length, s->filled);
        take(on, which, frame, length);
    }
}

/* A connection that we began stands, or has failed; then the session is asked for. */
static void link_stands(link_to *l) {
    int error = 0;
    socklen_t size = sizeof error;
    static const uint8_t context[8] = {0};
    uint8_t frame[HEADER + 4];
    getsockopt(l->to.socket, SOL_SOCKET, SO_ERROR, &error, &size);
    if (error != 0) {
        hang_up(&l->to);
        return;
    }
    l->registering = true;
    put_double(frame + HEADER, 1); /* version 1, no options */
    put(&l->to, frame, put_header(frame, REGISTER, 0, 0, context, 4));
}

static void from_data(network *on) {
    uint8_t frame[MOST_FRAME];
    struct sockaddr_in from;
    for (int i = 0; i < BATCH; i++) {
        socklen_t size = sizeof from;
        uint32_t id;
        size_t length;
        ssize_t got =
            recvfrom(on->data, frame, sizeof frame, MSG_DONTWAIT, (struct sockaddr *)&from, &size);
        if (got < 0)
            return;
        const uint8_t *datum = datum_in(frame, (size_t)got, &id, &length);
        if (datum != 0 && on->cut)
            lost++;
        else if (datum != 0) {
            char text[16];
            inet_ntop(AF_INET, &from.sin_addr, text, sizeof text);
            if (status_of(cip_data(&device, on->port, (const uint8_t *)text, strlen(text), id,
                                   datum, length)) == CIP_DONE)
                take_outputs();
        }
    }
}

static void from_any(network *on) {
    uint8_t frame[MOST_FRAME], back[MOST_FRAME];
    struct sockaddr_in from;
    socklen_t size = sizeof from;
    ssize_t got =
        recvfrom(on->udp, frame, sizeof frame, MSG_DONTWAIT, (struct sockaddr *)&from, &size);
    if (on->cut || got < HEADER || (word(frame) != LIST_IDENTITY && word(frame) != LIST_SERVICES))
        return;
    size_t data = list(on, word(frame), back + HEADER);
    size_t length = put_header(back, word(frame), 0, 0, frame + 12, data);
    (void)sendto(on->udp, back, length, 0, (struct sockaddr *)&from, size);
}

static void new_peer(network *on) {
    struct sockaddr_in from;
    socklen_t size = sizeof from;
    int s = accept(on->listener, (struct sockaddr *)&from, &size), i = 0;
    while (i < MOST_PEERS && on->peers[i].from.socket >= 0)
        i++;
    if (s >= 0 && (on->cut || i == MOST_PEERS)) {
        close(s);
        return;
    }
    if (s < 0)
        return;
    fcntl(s, F_SETFL, O_NONBLOCK);
    on->peers[i] = (peer){.from.socket = s};
    inet_ntop(AF_INET, &from.sin_addr, on->peers[i].address, sizeof on->peers[i].address);
}

/* ---- the loop */

/* How long to sleep where nothing comes in: until the device's next deadline. */
static int idle(uint64_t last, uint64_t end) {
    uint64_t most = end - last < MOST_IDLE ? end - last : MOST_IDLE, milliseconds;
    uint32_t status = cip_next_deadline(&device, &milliseconds);
    if (status == CIP_NOTHING)
        return (int)most;
    return status == CIP_DONE ? (int)(milliseconds < most ? milliseconds : most) : 1;
}

static uint32_t make_device(void) {
    const uint32_t first = first_of_life();
    const cip_config config = {.kind = CIP_INDEXED,
                               .first_id = first,
                               .first_number = first,
                               .pending_room = ROOM,
                               .hop_room = ROOM,
                               .vendor = 0x0101,
                               .device_type = 12,
                               .product = 5,
                               .serial = 0x0B0B,
                               .major = 1,
                               .minor = 3};
    cip_port ports[NETWORKS];
    const cip_assembly none = {0, 0};
    for (int i = 0; i < NETWORKS; i++) {
        const char *address = networks[i].address;
        ports[i] = (cip_port){.number = networks[i].port,
                              .is_text = 1,
                              .last = 16,
                              .address_length = (uint8_t)strlen(address)};
        memcpy(ports[i].address, address, ports[i].address_length);
    }
    return cip_new(&device, &config, (const uint8_t *)"B", 1, (const uint8_t *)"BRIDGE", 6, ports,
                   NETWORKS, &none, 0);
}

static void begin(network *on) {
    for (int i = 0; i < MOST_PEERS; i++)
        on->peers[i].from.socket = -1;
    for (int i = 0; i < MOST_LINKS; i++)
        on->links[i].to.socket = -1;
    on->listener = bound(SOCK_STREAM, on->address, TCP_PORT);
    on->udp = bound(SOCK_DGRAM, on->address, TCP_PORT);
    on->data = bound(SOCK_DGRAM, on->address, DATA_PORT);
    fcntl(on->listener, F_SETFL, O_NONBLOCK);
    listen(on->listener, 64);
}

static void hang_up_all(network *on) {
    for (int i = 0; i < MOST_PEERS; i++)
        hang_up(&on->peers[i].from);
    for (int i = 0; i < MOST_LINKS; i++)
        hang_up(&on->links[i].to);
}

static void end(network *on) {
    hang_up_all(on);
    close(on->listener);
    close(on->udp);
    close(on->data);
}

enum { FIXED = 3, EACH = FIXED + MOST_PEERS + MOST_LINKS };

static void list_sockets(const network *on, struct pollfd *fds) {
    fds[0] = (struct pollfd){on->listener, POLLIN, 0};
    fds[1] = (struct pollfd){on->udp, POLLIN, 0};
    fds[2] = (struct pollfd){on->data, POLLIN, 0};
    for (int i = 0; i < MOST_PEERS; i++)
        fds[FIXED + i] = (struct pollfd){on->peers[i].from.socket, POLLIN, 0};
    for (int i = 0; i < MOST_LINKS; i++) {
        const link_to *l = &on->links[i];
        fds[FIXED + MOST_PEERS + i] =
            (struct pollfd){l->to.socket, l->registering ? POLLIN : POLLOUT, 0};
    }
}

static void serve(network *on, const struct pollfd *fds) {
    for (int i = 0; i < MOST_LINKS; i++) {
        const struct pollfd *fd = &fds[FIXED + MOST_PEERS + i];
        link_to *l = &on->links[i];
        if (fd->fd < 0 || fd->fd != l->to.socket || fd->revents == 0)
            continue;
        if (l->registering)
            read_frames(on, &l->to, i, frame_of_link);
        else
            link_stands(l);
    }
    for (int i = 0; i < MOST_PEERS; i++) {
        const struct pollfd *fd = &fds[FIXED + i];
        if (fd->fd >= 0 && fd->fd == on->peers[i].from.socket && fd->revents != 0)
            read_frames(on, &on->peers[i].from, i, frame_of_peer);
    }
    if (fds[0].revents & POLLIN)
        new_peer(on);
    if (fds[1].revents & POLLIN)
        from_any(on);
    if (fds[2].revents & POLLIN)
        from_data(on);
}

int main(int count, char **words) {
    int option = getopt(count, words, "k:");
    if (option == 'k')
        kept_in = optarg;
    count -= optind - 1;
    words += optind - 1;
    if (option == '?' || count < 3) {
        fprintf(stderr, "usage: bridge [-k FILE] FIRST SECOND [MILLISECONDS]\n");
        return 2;
    }
    networks[0].address = words[1];
    networks[1].address = words[2];
    uint32_t status = make_device();
    if (status != CIP_DONE) {
        fprintf(stderr, "no device: %s\n", cip_error_text(status));
        return 1;
    }
    struct sigaction act = {.sa_handler = on_signal};
    sigaction(SIGTERM, &act, 0);
    sigaction(SIGUSR1, &act, 0);
    sigaction(SIGUSR2, &act, 0);
    for (int i = 0; i < NETWORKS; i++)
        begin(&networks[i]);
    printf("ready\n");
    fflush(stdout);
    uint64_t last = milliseconds(),
             until = count > 3 ? last + strtoull(words[3], 0, 10) : UINT64_MAX;
    while (ends == 0 && last < until) {
        struct pollfd fds[NETWORKS * EACH];
        for (int i = 0; i < NETWORKS; i++)
            list_sockets(&networks[i], fds + i * EACH);
        int ready = poll(fds, NETWORKS * EACH, 0);
        if (ready == 0)
            ready = poll(fds, NETWORKS * EACH, idle(last, until));
        uint64_t now = milliseconds();
        last = pass_time(&device, last, now, take_outputs);
        if (last < now) {
            refused++;
            continue; /* the frames wait until the time is taken */
        }
        if (is_cut != 0 && !networks[1].cut)
            hang_up_all(&networks[1]);
        networks[1].cut = is_cut != 0;
        for (int i = 0; ready > 0 && i < NETWORKS; i++)
            serve(&networks[i], fds + i * EACH);
    }
    for (int i = 0; i < NETWORKS; i++)
        end(&networks[i]);
    cip_free(&device);
    printf("passed %lu, replies %lu, expired %lu, dropped %lu, lost %lu, refused %lu\n", passed,
           replies, expired, dropped, lost, refused);
    return 0;
}
