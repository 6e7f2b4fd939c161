/* An EtherNet/IP scanner: asks an adapter for its identity and an assembly, opens a connection to
 * it, sends it a datum and takes one at each interval, and closes. A connection that expires is
 * opened again. All of CIP is the library's.
 *
 * scanner [-i INTERVAL] [-p DATA_PORT] [-s] [TARGET [OWN [MILLISECONDS [BY FINAL [LOG]]]]]:
 * 127.0.0.1 from 127.0.0.2 for 1,000 ms, if not said. With BY and FINAL, and BY not 0, the target
 * is a bridge, and the adapter FINAL stands on the network of its port BY. -i asks for another
 * interval than 10 ms, -s for the assemblies 103 and 104 instead of 101 and 102; -p takes data on
 * another port than 2222, and says so in a Sockaddr Info item. It sends to the port that the reply
 * names. Each datum goes into the log, if one is named. Status 0 where all was answered, open and
 * close succeeded and data came both ways. */
#include "cip_device.h"
#include "enip.h"
#include <poll.h>

enum { PORT = 2, MOST_WAIT = 5, RETRY = 100, SERIAL = 0x1234 };

static cip_device device = CIP_DEVICE_EMPTY;
static const char *target = "127.0.0.1", *own = "127.0.0.2";
static uint16_t own_port = DATA_PORT, target_port = DATA_PORT;
static uint32_t asked_interval = 10000, interval; /* microseconds; what was asked and what is */
static bool is_second;
static int tcp, data_socket;
static FILE *data_log;
static uint32_t session, sent, own_serial;
static unsigned long arrived, gaps, others, opens, expired;
static uint32_t ops;     /* the last op that was given */
static uint32_t open_op; /* the op of the open, once it succeeded; 0 where none is open */
static int answer;       /* to the last op: 0 none yet, 1 it succeeded, -1 it failed */
static uint64_t told;    /* how much of the monotonic clock the device was told, in milliseconds */
static uint8_t path[64], in[MOST_FRAME];
static size_t path_length, filled;

static void to_target(uint16_t command, uint32_t number, uint8_t *frame, size_t data) {
    uint8_t context[8] = {0};
    put_double(context, number); /* the target repeats it in its reply */
    size_t length = put_header(frame, command, session, 0, context, data);
    if (send(tcp, frame, length, MSG_NOSIGNAL) != (ssize_t)length)
        others++;
}

/* What to name beside a request of this service: an open says where data are taken. */
static data_ports named_ports(uint8_t service) {
    bool is_open = service == 0x54 || service == 0x5B;
    return (data_ports){0, is_open && own_port != DATA_PORT ? own_port : 0};
}

static void take_outputs(void) {
    static uint8_t bytes[CIP_MOST_BYTES];
    static uint32_t last_op;
    static uint16_t last_count;
    uint8_t frame[MOST_FRAME];
    opened open;
    cip_output output;
    while (cip_next(&device, &output, bytes, sizeof bytes) == CIP_DONE) {
        switch (output.kind) {
        case CIP_OUT_REQUEST:
            if (output.length > MOST_MESSAGE)
                break;
            to_target(SEND_RR_DATA, output.number, frame,
                      put_message(frame + HEADER, bytes, output.length, (endpoints){own, target},
                                  named_ports(bytes[0])));
            break;
        case CIP_OUT_DATA:
            note(data_log, "out", bytes, output.length, own_serial);
            send_datum(data_socket, output.to, output.to_length, target_port, output.number, ++sent,
                       bytes, output.length);
            break;
        case CIP_OUT_DONE:
            if (opened_in(bytes, output.length, &open))
                interval = open.ot_interval;
            if (output.number == ops)
                answer = output.length > 2 && bytes[2] == 0 ? 1 : -1;
            printf("op %u:", output.number);
            for (size_t i = 0; i < output.length; i++)
                printf(" %02X", bytes[i]);
            printf("\n");
            break;
        case CIP_OUT_ARRIVED:
            note(data_log, "in", bytes, output.length, own_serial);
            arrived++;
            if (output.number == last_op && word(bytes) != (uint16_t)(last_count + 1))
                gaps++;
            last_op = output.number;
            last_count = word(bytes);
            break;
        case CIP_OUT_EXPIRED:
            expired++;
            open_op = 0;
            answer = 0;
            break;
        default:
            others++;
        }
    }
}

static void from_target(void) {
    ssize_t got = recv(tcp, in + filled, sizeof in - filled, 0);
    if (got <= 0) {
        fprintf(stderr, "the target has closed\n");
        exit(1);
    }
    filled += (size_t)got;
    while (filled >= HEADER && filled - HEADER >= word(in + 2)) {
        size_t length = word(in + 2), message_length = 0;
        data_ports ports;
        opened open;
        const uint8_t *message =
            message_in(in + HEADER, length, (endpoints){own, target}, &message_length, &ports);
        if (message != 0 && opened_in(message, message_length, &open))
            target_port = ports.ot != 0 ? ports.ot : DATA_PORT;
        if (word(in) == REGISTER && double_word(in + 8) == 0)
            session = double_word(in + 4);
        if (word(in) == SEND_RR_DATA && double_word(in + 8) == 0 && message != 0 &&
            cip_reply(&device, PORT, (const uint8_t *)target, strlen(target), double_word(in + 12),
                      message, message_length) == CIP_DONE)
            take_outputs();
        filled -= HEADER + length;
        memmove(in, in + HEADER + length, filled);
    }
}

static void from_data(void) {
    uint8_t frame[MOST_FRAME];
    uint32_t id;
    size_t length;
    ssize_t got = recv(data_socket, frame, sizeof frame, 0);
    const uint8_t *datum = got < 0 ? 0 : datum_in(frame, (size_t)got, &id, &length);
    if (datum != 0 && cip_data(&device, PORT, (const uint8_t *)target, strlen(target), id, datum,
                               length) == CIP_DONE)
        take_outputs();
}

/* The device is told the time, before a frame or a command; whether it took all of it. */
static bool tell_time(uint64_t now) {
    told = pass_time(&device, told, now, take_outputs);
    return told >= now;
}

/* Runs for at most so long, or until the last op is answered; what is due is done each interval. */
static void run(uint64_t for_ms, bool until_answer, void (*each_interval)(void)) {
    uint64_t now = milliseconds(), end = now + for_ms, due = now * 1000;
    while (now < end && !(until_answer && answer != 0)) {
        struct pollfd fds[] = {{tcp, POLLIN, 0}, {data_socket, POLLIN, 0}};
        poll(fds, 2, wait_until(due, now * 1000, MOST_WAIT));
        now = milliseconds();
        if (!tell_time(now))
            continue; /* the frames wait until the time is taken */
        if (fds[0].revents)
            from_target();
        if (fds[1].revents & POLLIN)
            from_data();
        if (due > now * 1000)
            continue;
        if (each_interval != 0)
            each_interval();
        due = due_after(due, interval, now * 1000);
    }
}

static const cip_timing timing = {4, 125}; /* an answer within 2,000 ms */

/* Each open has an op and a serial number of its own. */
static void ask_for_open(void) {
    const uint8_t points[] = {
        0x20, 0x04, 0x24, 0x64, 0x2C, is_second ? 0x67 : 0x65, 0x2C, is_second ? 0x68 : 0x66};
    const cip_open_params params = {.ot_rpi = asked_interval,
                                    .to_rpi = asked_interval,
                                    .ot_params = 0x4806,
                                    .to_params = 0x4804,
                                    .serial = (uint16_t)(SERIAL + ++ops),
                                    .multiplier = 5 /* 128 intervals */,
                                    .transport = 1};
    uint8_t whole[sizeof path + sizeof points];
    memcpy(whole, path, path_length);
    memcpy(whole + path_length, points, sizeof points);
    answer = 0;
    if (cip_open(&device, ops, timing, whole, path_length + sizeof points, &params) == CIP_DONE)
        take_outputs();
}

/* A datum goes out by the connection; where none is open, one is asked for again and again. */
static void send_or_open(void) {
    static uint16_t count;
    static uint64_t again; /* when to ask again; 0 where nothing is asked for */
    uint8_t datum[6];
    if (open_op == 0 && answer > 0) {
        open_op = ops;
        opens++;
        again = 0;
    }
    if (open_op == 0) {
        if (again == 0 || (answer < 0 && milliseconds() >= again)) {
            ask_for_open();
            again = milliseconds() + RETRY;
        }
        return;
    }
    count++;
    put_double(put_word(datum, count), 0xBEEF0000u + count);
    if (cip_enter(&device, open_op, datum, sizeof datum) == CIP_DONE)
        take_outputs();
}

/* One request along the path; whether it succeeded. Without the time it isn't asked. */
static bool ask(const uint8_t *request, size_t length) {
    answer = 0;
    if (!tell_time(milliseconds()))
        return false;
    if (cip_send(&device, ++ops, timing, path, path_length, request, length) == CIP_DONE)
        take_outputs();
    run(3000, true, 0);
    return answer > 0;
}

/* The serial number is its address, so that two scanners are two originators. */
static uint32_t make_device(void) {
    const cip_config config = {.kind = CIP_PLAIN,
                               .first_id = 0x00010001,
                               .first_number = 0x00010001,
                               .pending_room = 16,
                               .hop_room = 16,
                               .vendor = 0x0101,
                               .device_type = 14,
                               .product = 9,
                               .serial = own_serial,
                               .major = 1,
                               .minor = 3};
    cip_port port = {
        .number = PORT, .is_text = 1, .last = 16, .address_length = (uint8_t)strlen(own)};
    memcpy(port.address, own, port.address_length);
    const cip_assembly none = {0, 0};
    return cip_new(&device, &config, (const uint8_t *)"S", 1, (const uint8_t *)"SC", 2, &port, 1,
                   &none, 0);
}

/* One more port segment of the path. */
static void add_to_path(uint8_t port, const char *address) {
    size_t length = strlen(address);
    if (length > 15 || path_length + 18 > sizeof path)
        exit(2);
    uint8_t *at = path + path_length;
    at[0] = 0x10 | port; /* with an extended link address */
    at[1] = (uint8_t)length;
    memcpy(at + 2, address, length);
    if (length % 2 == 1)
        at[2 + length++] = 0;
    path_length += 2 + length;
}

int main(int count, char **words) {
    static const uint8_t get_all[] = {0x01, 0x02, 0x20, 0x01, 0x24, 0x01};
    static const uint8_t get_data[] = {0x0E, 0x03, 0x20, 0x04, 0x24, 0x66, 0x30, 0x03};
    for (int option; (option = getopt(count, words, "i:p:s")) != -1;) {
        if (option == 'i')
            asked_interval = 1000 * (uint32_t)strtoul(optarg, 0, 10);
        else if (option == 'p')
            own_port = port_from(optarg);
        else if (option == 's')
            is_second = true;
        else
            return 2;
    }
    interval = asked_interval;
    count -= optind - 1;
    words += optind - 1;
    if (count > 1)
        target = words[1];
    if (count > 2)
        own = words[2];
    add_to_path(PORT, target);
    if (count > 5 && atoi(words[4]) != 0)
        add_to_path((uint8_t)atoi(words[4]), words[5]);
    if (count > 6)
        data_log = log_at(words[6]);
    own_serial = ntohl(at_address(own, 0).sin_addr.s_addr);
    told = milliseconds();
    if (make_device() != CIP_DONE)
        return 1;
    tcp = bound(SOCK_STREAM, own, 0);
    data_socket = bound(SOCK_DGRAM, own, own_port);
    struct sockaddr_in to = at_address(target, TCP_PORT);
    if (connect(tcp, (struct sockaddr *)&to, sizeof to) != 0) {
        perror("connect");
        return 1;
    }
    uint8_t frame[MOST_FRAME];
    put_double(frame + HEADER, 1); /* version 1, no options */
    to_target(REGISTER, 0, frame, 4);
    while (session == 0)
        from_target();
    bool is_answered = ask(get_all, sizeof get_all);
    is_answered = ask(get_data, sizeof get_data) && is_answered;
    answer = 0;
    run(count > 3 ? strtoull(words[3], 0, 10) : 1000, false, send_or_open);
    answer = 0;
    if (tell_time(milliseconds()) && open_op != 0 &&
        cip_close(&device, ++ops, open_op, timing) == CIP_DONE)
        take_outputs();
    run(3000, true, 0);
    bool is_closed = answer > 0;
    to_target(UNREGISTER, 0, frame, 0);
    close(tcp);
    close(data_socket);
    cip_free(&device);
    if (data_log != 0)
        fclose(data_log);
    printf("sent %u, arrived %lu, gaps %lu, opened %lu, expired %lu, others %lu\n", sent, arrived,
           gaps, opens, expired, others);
    return is_answered && is_closed && sent > 0 && arrived > 0 ? 0 : 1;
}
