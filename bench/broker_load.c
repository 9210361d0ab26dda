/*
 * A load for an MQTT 3.1.1 broker at 127.0.0.1. One thread runs all clients around one epoll.
 *
 *     broker_load PORT flow PUBLISHERS SUBSCRIBERS QOS BYTES SECONDS
 *         Publishers publish payloads of BYTES bytes (16 or more) for SECONDS seconds, as fast as
 *         the window allows. Prints the messages delivered in a second, to all subscribers
 *         together. If SUBSCRIBERS is 0, it prints the messages that the broker took in a second.
 *     broker_load PORT latency QOS IDLE
 *         The delay of 500 messages a second from one publisher to one subscriber, for 3 seconds,
 *         with IDLE further connections that do nothing.
 *     broker_load PORT idle COUNT
 *         Opens COUNT connections, prints the time that it took, and waits for a line on standard
 *         input.
 *     broker_load PORT connects SECONDS
 *         Opens and ends connections, eight at a time, and prints their number in a second.
 *     broker_load port
 *         A free port.
 *
 * Every subscriber must get each message once, in the order of its publisher, with the QoS of the
 * PUBLISH; otherwise the run fails. A window bounds the messages that some subscriber has not yet
 * acknowledged (QoS 1, 2) or received (QoS 0), so that no broker has to drop one.
 */
#define _GNU_SOURCE

#include <arpa/inet.h>
#include <errno.h>
#include <fcntl.h>
#include <netinet/in.h>
#include <netinet/tcp.h>
#include <stdarg.h>
#include <stdbool.h>
#include <stdint.h>
#include <stdio.h>
#include <stdlib.h>
#include <string.h>
#include <sys/epoll.h>
#include <sys/resource.h>
#include <sys/socket.h>
#include <time.h>
#include <unistd.h>

#define SECOND UINT64_C(1000000000)
#define START_LIMIT (5 * SECOND)
#define DRAIN_LIMIT (20 * SECOND)
#define MOST_PAYLOAD 262144
#define OUT_SIZE (2 * MOST_PAYLOAD)
#define HEAD 64

/* The greatest number of messages, of copies and of bytes in the window. */
#define WINDOW_QOS0 4000
#define WINDOW_QOS12 300
#define WINDOW_COPIES 40000
#define WINDOW_BYTES 524288

/* `latency` publishes a message every two milliseconds. */
#define INTERVAL (SECOND / 500)
#define PACED 1500

enum { CONNACK = 0x20, PUBLISH = 0x30, PUBACK = 0x40, PUBREC = 0x50, PUBREL = 0x62, PUBCOMP = 0x70, SUBACK = 0x90, PINGRESP = 0xd0 };

static const char topic[] = "load";

struct client {
    int socket;
    int number;
    bool is_publisher, is_ready, has_pong, wants_write;
    /* The beginning of a packet that is not complete yet, and the payload bytes to skip. */
    uint8_t head[HEAD];
    size_t head_size, skip;
    uint8_t *out;
    size_t out_begin, out_end, out_room;
    /* Of a publisher: its messages, and for each identifier the packet that must come next. */
    uint32_t published, in_flight;
    uint8_t *awaited;
    /* Of a subscriber: its messages, those whose flow has ended, and the next of each publisher. */
    uint64_t received, finished;
    uint32_t *next;
};

static struct client *clients;
static int publishers, subscribers, idle, qos, epoll;
static size_t payload = 16;
static uint16_t port;
static uint8_t filler[MOST_PAYLOAD];
static uint8_t input[1 << 18];
static uint64_t begun, first, last, stop_at, published, delivered, answered;
static bool is_paced;
static uint64_t delays[PACED];

static uint64_t now(void)
{
    struct timespec time;
    clock_gettime(CLOCK_MONOTONIC, &time);
    return (uint64_t)time.tv_sec * SECOND + (uint64_t)time.tv_nsec;
}

static _Noreturn void give_up(const char *form, ...)
{
    va_list parts;
    va_start(parts, form);
    fputs("broker_load: ", stderr);
    vfprintf(stderr, form, parts);
    fputc('\n', stderr);
    va_end(parts);
    exit(1);
}

static int count_all(void)
{
    return publishers + subscribers + idle;
}

/* ---- output */

static void put(struct client *client, const void *bytes, size_t size)
{
    if (client->out_room - client->out_end < size) {
        size_t held = client->out_end - client->out_begin;
        memmove(client->out, client->out + client->out_begin, held);
        client->out_begin = 0;
        client->out_end = held;
        if (client->out_room - held < size) {
            client->out_room = 2 * (held + size);
            client->out = realloc(client->out, client->out_room);
            if (client->out == NULL)
                give_up("no memory");
        }
    }
    memcpy(client->out + client->out_end, bytes, size);
    client->out_end += size;
}

static void put_number(struct client *client, unsigned number)
{
    uint8_t two[2] = {(uint8_t)(number >> 8), (uint8_t)number};
    put(client, two, 2);
}

static void put_answer(struct client *client, uint8_t kind, unsigned id)
{
    uint8_t four[4] = {kind, 2, (uint8_t)(id >> 8), (uint8_t)id};
    put(client, four, 4);
}

static void watch(struct client *client, bool write)
{
    struct epoll_event event = {.events = EPOLLIN | (write ? EPOLLOUT : 0), .data.ptr = client};
    if (client->wants_write == write)
        return;
    client->wants_write = write;
    epoll_ctl(epoll, EPOLL_CTL_MOD, client->socket, &event);
}

static void flush(struct client *client)
{
    while (client->out_begin < client->out_end) {
        ssize_t sent = send(client->socket, client->out + client->out_begin, client->out_end - client->out_begin, MSG_NOSIGNAL);
        if (sent < 0 && errno == EINTR)
            continue;
        if (sent < 0 && (errno == EAGAIN || errno == EWOULDBLOCK)) {
            watch(client, true);
            return;
        }
        if (sent < 0)
            give_up("client %d lost its connection: %s", client->number, strerror(errno));
        client->out_begin += (size_t)sent;
    }
    client->out_begin = client->out_end = 0;
    watch(client, false);
}

/* ---- packets that arrive */

static size_t length_bytes(size_t length)
{
    return length < 128 ? 1 : length < 16384 ? 2 : 3;
}

static size_t publish_rest(void)
{
    return 2 + strlen(topic) + (qos > 0 ? 2 : 0) + payload;
}

static void on_connack(struct client *client, const uint8_t *body)
{
    if (body[1] != 0)
        give_up("the broker refused client %d with code %d", client->number, body[1]);
    if (client->number < publishers || client->number >= publishers + subscribers) {
        client->is_ready = true;
        return;
    }
    uint8_t begin[4] = {0x82, (uint8_t)(2 + 2 + strlen(topic) + 1), 0, 1};
    put(client, begin, 4);
    put_number(client, (unsigned)strlen(topic));
    put(client, topic, strlen(topic));
    put(client, (uint8_t[]){(uint8_t)qos}, 1);
}

static void on_publish(struct client *client, const uint8_t *body, uint64_t at)
{
    const uint8_t *field = body + 2 + strlen(topic);
    uint32_t publisher, number;
    uint64_t sent;
    unsigned id = 0;
    if (qos > 0) {
        id = (unsigned)(field[0] << 8 | field[1]);
        field += 2;
    }
    memcpy(&publisher, field, 4);
    memcpy(&number, field + 4, 4);
    memcpy(&sent, field + 8, 8);
    if (publisher >= (uint32_t)publishers || number != client->next[publisher])
        give_up("subscriber %d got message %u of publisher %u, not %u", client->number, number, publisher,
                publisher < (uint32_t)publishers ? client->next[publisher] : 0);
    client->next[publisher]++;
    client->received++;
    if (is_paced && delivered < PACED)
        delays[delivered] = at - sent;
    delivered++;
    last = at;
    if (qos == 1)
        put_answer(client, PUBACK, id);
    if (qos == 2)
        put_answer(client, PUBREC, id);
    else
        client->finished++;
}

static void on_answer(struct client *client, uint8_t kind, unsigned id, uint64_t at)
{
    if (client->awaited == NULL || client->awaited[id] != kind)
        give_up("publisher %d got an unexpected packet %02x for identifier %u", client->number, kind, id);
    if (kind == PUBREC) {
        client->awaited[id] = PUBCOMP;
        put_answer(client, PUBREL, id);
        return;
    }
    client->awaited[id] = 0;
    client->in_flight--;
    answered++;
    if (subscribers == 0)
        last = at;
}

static void on_packet(struct client *client, uint8_t kind, const uint8_t *body, uint64_t at)
{
    unsigned id = (unsigned)(body[0] << 8 | body[1]);
    if (kind == CONNACK)
        on_connack(client, body);
    else if (kind == SUBACK && body[2] == qos)
        client->is_ready = true;
    else if (kind >> 4 == PUBLISH >> 4 && (kind >> 1 & 3) == qos && !client->is_publisher)
        on_publish(client, body, at);
    else if (kind == PUBREL) {
        put_answer(client, PUBCOMP, id);
        client->finished++;
    } else if (kind == PUBACK || kind == PUBREC || kind == PUBCOMP)
        on_answer(client, kind, id, at);
    else if (kind == PINGRESP) {
        client->has_pong = true;
        if (subscribers == 0)
            last = at;
    } else
        give_up("client %d got an unexpected packet %02x", client->number, kind);
}

struct extent {
    /* The bytes of the fixed header; the bytes that must be there before the packet can be handled;
       all bytes of the packet. */
    size_t header, need, size;
};

/* Reads a fixed header (2.2.3). False if it is not complete. */
static bool read_extent(const uint8_t *at, size_t left, struct extent *extent)
{
    size_t length = 0, i;
    for (i = 1; i < left && i < 5; i++) {
        length |= (size_t)(at[i] & 127) << 7 * (i - 1);
        if (at[i] < 128) {
            size_t front = 2 + strlen(topic) + (qos > 0 ? 2 : 0) + 16;
            bool is_long = at[0] >> 4 == PUBLISH >> 4 && length > front;
            *extent = (struct extent){i + 1, i + 1 + (is_long ? front : length), i + 1 + length};
            return true;
        }
    }
    return false;
}

/* Handles bytes that arrived. The payload after its first 16 bytes is skipped. */
static void take(struct client *client, const uint8_t *bytes, size_t count, uint64_t at)
{
    while (count > 0) {
        size_t held = client->head_size, step = count < client->skip ? count : client->skip;
        const uint8_t *from = bytes;
        size_t left = count;
        struct extent extent;
        client->skip -= step;
        bytes += step;
        count -= step;
        if (step > 0)
            continue;
        if (held > 0) {
            step = count < HEAD - held ? count : HEAD - held;
            memcpy(client->head + held, bytes, step);
            from = client->head;
            left = held + step;
        }
        if (!read_extent(from, left, &extent) || left < extent.need) {
            if (held == 0)
                memcpy(client->head, bytes, count);
            client->head_size = left;
            return;
        }
        on_packet(client, from[0], from + extent.header, at);
        client->head_size = 0;
        client->skip = extent.size - extent.need;
        bytes += extent.need - held;
        count -= extent.need - held;
    }
}

static void receive(struct client *client)
{
    ssize_t size = recv(client->socket, input, sizeof input, 0);
    if (size < 0 && (errno == EINTR || errno == EAGAIN || errno == EWOULDBLOCK))
        return;
    if (size <= 0)
        give_up("client %d lost its connection: %s", client->number, size == 0 ? "the broker closed it" : strerror(errno));
    take(client, input, (size_t)size, now());
    flush(client);
}

/* ---- publishing */

static void publish(struct client *client, uint64_t at)
{
    uint8_t head[5] = {(uint8_t)(PUBLISH | qos << 1)};
    size_t rest = publish_rest(), i;
    uint32_t number = (uint32_t)client->number;
    unsigned id = client->published % 65535 + 1;
    for (i = 1; i <= length_bytes(rest); i++)
        head[i] = (uint8_t)((rest >> 7 * (i - 1) & 127) | (i < length_bytes(rest) ? 128 : 0));
    put(client, head, i);
    put_number(client, (unsigned)strlen(topic));
    put(client, topic, strlen(topic));
    if (qos > 0) {
        put_number(client, id);
        client->awaited[id] = qos == 1 ? PUBACK : PUBREC;
        client->in_flight++;
    }
    put(client, &number, 4);
    put(client, &client->published, 4);
    put(client, &at, 8);
    put(client, filler, payload - 16);
    client->published++;
    published++;
}

static bool can_publish(const struct client *client, uint64_t window)
{
    if (client->out_end - client->out_begin > OUT_SIZE / 2)
        return false;
    return qos == 0 || (client->in_flight < window && client->awaited[client->published % 65535 + 1] == 0);
}

/* The messages in the window: those that the slowest subscriber has not finished, or, without a
   subscriber, those that the broker has not acknowledged. */
static uint64_t outstanding(void)
{
    uint64_t least = published;
    int i;
    if (subscribers == 0)
        return qos == 0 ? 0 : published - answered;
    for (i = publishers; i < publishers + subscribers; i++)
        if (clients[i].finished < least)
            least = clients[i].finished;
    return published - least;
}

static uint64_t window_size(void)
{
    uint64_t most = qos == 0 ? WINDOW_QOS0 : WINDOW_QOS12, fit = WINDOW_BYTES / (payload + 32);
    if (subscribers > 0 && fit > WINDOW_COPIES / (unsigned)subscribers)
        fit = WINDOW_COPIES / (unsigned)subscribers;
    return fit < 4 ? 4 : fit < most ? fit : most;
}

/* Publishers take turns, message by message. */
static void publish_all(void)
{
    static int turn;
    uint64_t at = now(), window = window_size(), used = outstanding(), most = used < window ? window - used : 0;
    int blocked = 0, i;
    if (is_paced) {
        uint64_t due = (at - first) / INTERVAL + 1;
        most = due > PACED ? PACED - published : due - published;
    } else if (at >= stop_at)
        return;
    while (most > 0 && blocked < publishers) {
        struct client *client = &clients[turn];
        turn = (turn + 1) % publishers;
        if (!can_publish(client, window)) {
            blocked++;
            continue;
        }
        blocked = 0;
        publish(client, at);
        most--;
    }
    for (i = 0; i < publishers; i++)
        flush(&clients[i]);
}

/* ---- the run */

static void wait_once(int limit)
{
    struct epoll_event events[256];
    int count = epoll_wait(epoll, events, 256, limit), i;
    for (i = 0; i < count; i++) {
        struct client *client = events[i].data.ptr;
        if ((events[i].events & EPOLLOUT) != 0)
            flush(client);
        if ((events[i].events & ~(uint32_t)EPOLLOUT) != 0)
            receive(client);
    }
}

static bool is_done(void)
{
    int i;
    if (is_paced && published < PACED)
        return false;
    for (i = 0; i < publishers + subscribers; i++) {
        const struct client *client = &clients[i];
        if (client->out_end > client->out_begin || client->in_flight > 0 || (client->is_publisher && !client->has_pong))
            return false;
        if (!client->is_publisher && client->finished < published)
            return false;
    }
    return true;
}

static void ping_all(void)
{
    int i;
    for (i = 0; i < publishers; i++) {
        put(&clients[i], (uint8_t[]){0xc0, 0}, 2);
        flush(&clients[i]);
    }
}

static void run(uint64_t length)
{
    bool has_pinged = false;
    first = last = now();
    stop_at = first + length;
    while (!is_done()) {
        uint64_t at = now();
        bool is_over = is_paced ? published == PACED : at >= stop_at;
        if (at > stop_at + DRAIN_LIMIT)
            give_up("%llu of %llu messages were delivered %d seconds after the last one", (unsigned long long)delivered,
                    (unsigned long long)published * (unsigned)subscribers, (int)(DRAIN_LIMIT / SECOND));
        if (is_over && !has_pinged) {
            has_pinged = true;
            ping_all();
        }
        if (!is_over)
            publish_all();
        wait_once(is_over ? 100 : is_paced ? 1 : outstanding() < window_size() && qos == 0 ? 0 : 1);
    }
}

/* ---- connections */

static int open_socket(void)
{
    struct sockaddr_in address = {.sin_family = AF_INET, .sin_port = htons(port), .sin_addr.s_addr = htonl(INADDR_LOOPBACK)};
    const struct timespec pause = {.tv_nsec = 10000000};
    const int yes = 1;
    for (;;) {
        int one = socket(AF_INET, SOCK_STREAM, 0);
        if (one < 0)
            give_up("no socket: %s", strerror(errno));
        if (connect(one, (const struct sockaddr *)&address, sizeof address) == 0) {
            fcntl(one, F_SETFL, O_NONBLOCK);
            setsockopt(one, IPPROTO_TCP, TCP_NODELAY, &yes, sizeof yes);
            return one;
        }
        if (now() > begun + START_LIMIT && errno == ECONNREFUSED)
            give_up("nobody listens on port %u", port);
        if (errno != ECONNREFUSED && errno != EAGAIN)
            give_up("no connection to port %u: %s", port, strerror(errno));
        close(one);
        nanosleep(&pause, NULL);
    }
}

static size_t connect_packet(uint8_t *out, const char *name)
{
    size_t size = strlen(name);
    memcpy(out, (uint8_t[]){0x10, (uint8_t)(12 + size), 0, 4, 'M', 'Q', 'T', 'T', 4, 2, 0, 0, 0, (uint8_t)size}, 14);
    memcpy(out + 14, name, size);
    return 14 + size;
}

static void open_client(int nth)
{
    struct client *client = &clients[nth];
    struct epoll_event event = {.events = EPOLLIN, .data.ptr = client};
    uint8_t packet[64];
    char name[24];
    client->number = nth;
    client->is_publisher = nth < publishers;
    client->out_room = nth < publishers ? OUT_SIZE : nth < publishers + subscribers ? 4096 : 32;
    client->out = malloc(client->out_room);
    client->awaited = client->is_publisher && qos > 0 ? calloc(65536, 1) : NULL;
    client->next = calloc((size_t)publishers + 1, sizeof *client->next);
    if (client->out == NULL || client->next == NULL)
        give_up("no memory");
    client->socket = open_socket();
    epoll_ctl(epoll, EPOLL_CTL_ADD, client->socket, &event);
    snprintf(name, sizeof name, "c%d", nth);
    put(client, packet, connect_packet(packet, name));
    flush(client);
}

static void open_all(void)
{
    int i, ready = 0;
    clients = calloc((size_t)count_all() + 1, sizeof *clients);
    if (clients == NULL)
        give_up("no memory");
    for (i = 0; i < count_all(); i++) {
        open_client(i);
        if (i % 100 == 99)
            wait_once(0);
    }
    while (ready < count_all()) {
        if (now() > begun + DRAIN_LIMIT)
            give_up("%d of %d clients were connected in %d seconds", ready, count_all(), (int)(DRAIN_LIMIT / SECOND));
        wait_once(100);
        for (ready = 0; ready < count_all() && clients[ready].is_ready; ready++)
            ;
    }
}

static int by_size(const void *one, const void *other)
{
    uint64_t a = *(const uint64_t *)one, b = *(const uint64_t *)other;
    return a < b ? -1 : a > b;
}

/* ---- commands */

static void flow(uint64_t length)
{
    uint64_t time;
    open_all();
    run(length);
    time = last > first ? last - first : 1;
    printf("%.0f\n", (double)(subscribers == 0 ? published : delivered) * (double)SECOND / (double)time);
}

static void latency(void)
{
    publishers = subscribers = 1;
    is_paced = true;
    open_all();
    run(PACED * INTERVAL);
    qsort(delays, delivered, sizeof delays[0], by_size);
    printf("%.0f %.0f\n", (double)delays[delivered / 2] / 1000, (double)delays[delivered * 99 / 100] / 1000);
}

static void stay(void)
{
    open_all();
    printf("%.3f\n", (double)(now() - begun) / (double)SECOND);
    fflush(stdout);
    getchar();
}

/* One connection after the other, eight at a time, each through CONNECT, CONNACK and DISCONNECT. */
static void connects(uint64_t length)
{
    uint64_t count = 0, start = now();
    while (now() < start + length) {
        int sockets[8], i;
        for (i = 0; i < 8; i++) {
            uint8_t packet[64];
            char name[24];
            snprintf(name, sizeof name, "n%llu", (unsigned long long)(count + (unsigned)i) % 4096);
            sockets[i] = open_socket();
            if (send(sockets[i], packet, connect_packet(packet, name), MSG_NOSIGNAL) < 0)
                give_up("a CONNECT was not sent: %s", strerror(errno));
        }
        for (i = 0; i < 8; i++) {
            uint8_t answer[4];
            fcntl(sockets[i], F_SETFL, 0);
            if (recv(sockets[i], answer, 4, MSG_WAITALL) != 4 || answer[3] != 0)
                give_up("a CONNECT was not accepted");
            send(sockets[i], (uint8_t[]){0xe0, 0}, 2, MSG_NOSIGNAL);
            close(sockets[i]);
        }
        count += 8;
    }
    printf("%.0f\n", (double)count * (double)SECOND / (double)(now() - start));
}

static int find_port(void)
{
    struct sockaddr_in address = {.sin_family = AF_INET, .sin_addr.s_addr = htonl(INADDR_LOOPBACK)};
    socklen_t size = sizeof address;
    int one = socket(AF_INET, SOCK_STREAM, 0);
    if (bind(one, (struct sockaddr *)&address, size) != 0 || getsockname(one, (struct sockaddr *)&address, &size) != 0)
        give_up("no free port: %s", strerror(errno));
    printf("%u\n", ntohs(address.sin_port));
    return 0;
}

static long number(const char *text, long most)
{
    char *end;
    long value = strtol(text, &end, 10);
    if (*text == 0 || *end != 0 || value < 0 || value > most)
        give_up("%s is no number up to %ld", text, most);
    return value;
}

int main(int count, char **words)
{
    struct rlimit files;
    const char *command = count > 2 ? words[2] : "";
    if (count == 2 && strcmp(words[1], "port") == 0)
        return find_port();
    getrlimit(RLIMIT_NOFILE, &files);
    files.rlim_cur = files.rlim_max;
    setrlimit(RLIMIT_NOFILE, &files);
    epoll = epoll_create1(0);
    port = count > 2 ? (uint16_t)number(words[1], 65535) : 0;
    begun = now();
    if (strcmp(command, "flow") == 0 && count == 8) {
        publishers = (int)number(words[3], 10000);
        subscribers = (int)number(words[4], 10000);
        qos = (int)number(words[5], 2);
        payload = (size_t)number(words[6], MOST_PAYLOAD);
        if (publishers == 0 || payload < 16)
            give_up("a flow has a publisher, and a payload has 16 bytes or more");
        flow((uint64_t)(strtod(words[7], NULL) * (double)SECOND));
    } else if (strcmp(command, "latency") == 0 && count == 5) {
        qos = (int)number(words[3], 2);
        idle = (int)number(words[4], 100000);
        latency();
    } else if (strcmp(command, "idle") == 0 && count == 4) {
        idle = (int)number(words[3], 100000);
        stay();
    } else if (strcmp(command, "connects") == 0 && count == 4) {
        connects((uint64_t)(strtod(words[3], NULL) * (double)SECOND));
    } else {
        fputs("usage: broker_load PORT flow|latency|idle|connects .., or broker_load port\n", stderr);
        return 2;
    }
    return 0;
}
