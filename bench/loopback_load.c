/*
 * A load for a broker of MQTT 3.1.1 at 127.0.0.1. Nothing of it is proved. All its clients are in
 * one thread, around one poll(). Publishers publish messages of 16 bytes to one topic as fast as
 * they can, and each subscriber gets all of them. The time starts when each subscriber has its
 * SUBACK.
 *
 *     loopback_load PORT pairs PUBLISHERS SUBSCRIBERS QOS MESSAGES
 *         messages a second: deliveries to all subscribers together, by the time from the first
 *         PUBLISH to the last delivery
 *     loopback_load PORT latency QOS
 *         the latency of messages, of which 500 a second are sent for 5 seconds
 *     loopback_load port
 *         a free port
 *
 * MESSAGES is the number of messages of all publishers together. Each subscriber must get every
 * message once, those of each publisher in order, with the published quality of service. All flows
 * of quality of service 1 and 2 must be completed. Anything else, or 30 seconds, ends the load: it
 * prints the reason and the messages until then, with status 1.
 */
#define _POSIX_C_SOURCE 200809L

#include <arpa/inet.h>
#include <errno.h>
#include <fcntl.h>
#include <netinet/in.h>
#include <netinet/tcp.h>
#include <poll.h>
#include <stdarg.h>
#include <stdbool.h>
#include <stdint.h>
#include <stdio.h>
#include <stdlib.h>
#include <string.h>
#include <sys/socket.h>
#include <time.h>
#include <unistd.h>

#define MOST_CLIENTS 64
#define MOST_MESSAGES 100000000
#define ROOM 65536
#define PAYLOAD 16
#define SECOND UINT64_C(1000000000)
#define MILLISECOND UINT64_C(1000000)

/* The time limit of a run, and how long it may take until the broker listens. */
#define LIMIT (30 * SECOND)
#define START_LIMIT (5 * SECOND)

/* What `latency` publishes. */
#define INTERVAL (2 * MILLISECOND)
#define PACED_MESSAGES 2500

/*
 * The maximum number of messages of quality of service 1 and 2 in flight, of all publishers
 * together: those that some subscriber has not completely acknowledged. A session of `mqtt serve`
 * has room for 100, and a message that exceeds it closes the connection of its publisher. A third
 * of that always fits, but half of it does not. Until the broker reads from a subscriber again, its
 * session may hold this number of messages three times: those acknowledged between its last read
 * and its last write, those acknowledged since that write, and new ones.
 */
#define IN_FLIGHT 33

/* The first byte of each kind of packet, PUBLISH without its flags. */
#define CONNECT 0x10
#define CONNACK 0x20
#define PUBLISH 0x30
#define PUBACK 0x40
#define PUBREC 0x50
#define PUBREL 0x62
#define PUBCOMP 0x70
#define SUBSCRIBE 0x82
#define SUBACK 0x90
#define DISCONNECT 0xe0

static const char topic[] = "load";

struct client {
    bool is_publisher;
    int number;
    int socket;
    bool is_ready;
    /* The received bytes of an incomplete packet, and pending output. */
    uint8_t in[ROOM];
    size_t in_size;
    uint8_t out[ROOM];
    size_t out_begin;
    size_t out_end;
    /* Of a publisher: the numbers of messages to publish, of published ones, and of incomplete
       flows. For each packet identifier, the type of the next expected packet, or 0. */
    uint32_t wanted;
    uint32_t published;
    uint32_t in_flight;
    uint8_t awaited[65536];
    /* Of a subscriber: the numbers of received messages and of completed flows, and the next one of
       each publisher. */
    uint64_t came;
    uint64_t through;
    uint32_t next[MOST_CLIENTS];
};

/* The publishers, then the subscribers. */
static struct client clients[MOST_CLIENTS];
static int publishers;
static int subscribers;
static int qos;
static uint32_t messages;
static bool is_paced;
static uint16_t port;

/* The times of the first PUBLISH and of the last delivery, and the processor time at both. */
static uint64_t begun;
static uint64_t first;
static uint64_t last;
static uint64_t first_busy;
static uint64_t last_busy;
static uint32_t published;
static uint64_t came;
static int turn;

/* The time of each message of `latency`, and the number of those sent over an interval late. */
static uint64_t delays[PACED_MESSAGES];
static uint32_t late;

/* The first byte of a PUBLISH, and how many bytes it has. */
static uint8_t publish_kind(void)
{
    return (uint8_t)(PUBLISH | qos << 1);
}

static size_t publish_size(void)
{
    return 2 + 2 + strlen(topic) + (qos > 0 ? 2 : 0) + PAYLOAD;
}

/* ---- Output */

static uint64_t time_of(clockid_t clock)
{
    struct timespec time;
    clock_gettime(clock, &time);
    return (uint64_t)time.tv_sec * SECOND + (uint64_t)time.tv_nsec;
}

static uint64_t now(void)
{
    return time_of(CLOCK_MONOTONIC);
}

static int by_size(const void *one, const void *other)
{
    uint64_t a = *(const uint64_t *)one, b = *(const uint64_t *)other;
    return a < b ? -1 : a > b;
}

/* The delay within which this percentage of the messages arrived. */
static double delay_of(unsigned of_hundred)
{
    return came == 0 ? 0 : (double)delays[(came * of_hundred + 99) / 100 - 1] / (double)MILLISECOND;
}

static void tell(void)
{
    uint64_t wanted = (uint64_t)messages * (uint64_t)subscribers, took = last - first;
    if (is_paced) {
        qsort(delays, came, sizeof delays[0], by_size);
        printf("p50 %.3f ms, p99 %.3f ms, greatest %.3f ms", delay_of(50), delay_of(99), delay_of(100));
        printf(" (%llu of %llu came, %u sent late)\n", (unsigned long long)came, (unsigned long long)wanted, late);
        return;
    }
    printf("%.0f messages a second", took == 0 ? 0 : (double)came * (double)SECOND / (double)took);
    printf(" (%llu of %llu came in %.3f s", (unsigned long long)came, (unsigned long long)wanted, (double)took / (double)SECOND);
    printf(", the load was busy %.0f%% of it)\n", took == 0 ? 0 : (double)(last_busy - first_busy) * 100 / (double)took);
}

/* Prints the reason for the end of the load, and the messages until now. */
static _Noreturn void give_up(const char *form, ...)
{
    va_list parts;
    va_start(parts, form);
    fputs("loopback_load: ", stderr);
    vfprintf(stderr, form, parts);
    fputc('\n', stderr);
    va_end(parts);
    tell();
    exit(1);
}

static const char *role(const struct client *client)
{
    return client->is_publisher ? "publisher" : "subscriber";
}

static _Noreturn void lose(const struct client *client, const char *why)
{
    give_up("the connection of %s %d was lost: %s", role(client), client->number, why);
}

/* ---- bytes out */

static void put_byte(struct client *client, uint8_t byte)
{
    client->out[client->out_end++] = byte;
}

static void put_number(struct client *client, uint16_t number)
{
    put_byte(client, (uint8_t)(number >> 8));
    put_byte(client, (uint8_t)(number & 0xff));
}

static void put_bytes(struct client *client, const void *bytes, size_t size)
{
    memcpy(client->out + client->out_end, bytes, size);
    client->out_end += size;
}

static void put_text(struct client *client, const char *text)
{
    put_number(client, (uint16_t)strlen(text));
    put_bytes(client, text, strlen(text));
}

/* A packet that has nothing but its identifier. */
static void put_answer(struct client *client, uint8_t kind, uint16_t id)
{
    put_byte(client, kind);
    put_byte(client, 2);
    put_number(client, id);
}

static bool has_output(const struct client *client)
{
    return client->out_begin < client->out_end;
}

/* Sends pending output, as far as the socket accepts it. */
static void flush(struct client *client)
{
    while (has_output(client)) {
        ssize_t sent = send(client->socket, client->out + client->out_begin, client->out_end - client->out_begin, MSG_NOSIGNAL);
        if (sent < 0 && errno == EINTR)
            continue;
        if (sent < 0 && (errno == EAGAIN || errno == EWOULDBLOCK))
            return;
        if (sent < 0)
            lose(client, strerror(errno));
        client->out_begin += (size_t)sent;
    }
    client->out_begin = client->out_end = 0;
}

/* ---- packets that come */

static void take_connack(struct client *client, const uint8_t *packet)
{
    if (packet[3] != 0)
        give_up("the CONNECT of %s %d was answered by code %d", role(client), client->number, packet[3]);
    if (client->is_publisher) {
        client->is_ready = true;
        return;
    }
    put_byte(client, SUBSCRIBE);
    put_byte(client, (uint8_t)(2 + 2 + strlen(topic) + 1));
    put_number(client, 1);
    put_text(client, topic);
    put_byte(client, (uint8_t)qos);
}

static void take_suback(struct client *client, const uint8_t *packet)
{
    if (packet[4] != qos)
        give_up("the SUBSCRIBE of subscriber %d was answered by code %d", client->number, packet[4]);
    client->is_ready = true;
}

/* A message of a publisher: its payload has the publisher's number, its own number and its time. */
static void take_publish(struct client *client, const uint8_t *packet, uint64_t moment)
{
    const uint8_t *at = packet + 2 + 2 + strlen(topic);
    uint32_t publisher, number;
    uint16_t id = 0;
    uint64_t sent;
    if (qos > 0) {
        id = (uint16_t)(at[0] << 8 | at[1]);
        at += 2;
    }
    memcpy(&publisher, at, 4);
    memcpy(&number, at + 4, 4);
    memcpy(&sent, at + 8, 8);
    if (publisher >= (uint32_t)publishers || packet[3] != strlen(topic) || memcmp(packet + 4, topic, strlen(topic)) != 0)
        give_up("subscriber %d got a message that nobody published", client->number);
    if (number != client->next[publisher])
        give_up("subscriber %d got message %u of publisher %u where %u was the next", client->number, number, publisher, client->next[publisher]);
    client->next[publisher]++;
    client->came++;
    if (is_paced)
        delays[came] = moment - sent;
    came++;
    if (qos == 1)
        put_answer(client, PUBACK, id);
    if (qos == 2)
        put_answer(client, PUBREC, id);
    else
        client->through++;
}

/* The next packet of a message's flow, at its publisher. */
static void take_answer(struct client *client, const uint8_t *packet)
{
    uint16_t id = (uint16_t)(packet[2] << 8 | packet[3]);
    if (client->awaited[id] != packet[0])
        give_up("publisher %d got a packet of kind %02x for identifier %u, out of its turn", client->number, packet[0], id);
    if (packet[0] == PUBREC) {
        client->awaited[id] = PUBCOMP;
        put_answer(client, PUBREL, id);
        return;
    }
    client->awaited[id] = 0;
    client->in_flight--;
}

static void take_pubrel(struct client *client, const uint8_t *packet)
{
    if (client->through == client->came)
        give_up("subscriber %d got a PUBREL without its message", client->number);
    put_answer(client, PUBCOMP, (uint16_t)(packet[2] << 8 | packet[3]));
    client->through++;
}

/* Whether a packet is of this type, with this number of bytes after its first two. */
static bool has_form(const uint8_t *packet, uint8_t kind, size_t size)
{
    return packet[0] == kind && packet[1] == size;
}

static bool is_answer(const uint8_t *packet)
{
    return has_form(packet, PUBACK, 2) || has_form(packet, PUBREC, 2) || has_form(packet, PUBCOMP, 2);
}

static void take_packet(struct client *client, const uint8_t *packet, uint64_t moment)
{
    bool is_up = client->is_ready, is_publisher = client->is_publisher;
    if (!is_up && has_form(packet, CONNACK, 2))
        take_connack(client, packet);
    else if (!is_up && !is_publisher && has_form(packet, SUBACK, 3))
        take_suback(client, packet);
    else if (is_up && is_publisher && is_answer(packet))
        take_answer(client, packet);
    else if (is_up && !is_publisher && has_form(packet, publish_kind(), publish_size() - 2))
        take_publish(client, packet, moment);
    else if (is_up && !is_publisher && has_form(packet, PUBREL, 2))
        take_pubrel(client, packet);
    else
        give_up("%s %d got a packet that begins with %02x %02x", role(client), client->number, packet[0], packet[1]);
}

/* Takes the complete packets. An expected packet has at most 127 bytes after the first two, and is
   at least as long as its response. So there is room for the responses if no output is pending. */
static void take_packets(struct client *client, uint64_t moment)
{
    const uint8_t *at = client->in;
    size_t left = client->in_size;
    while (left >= 2 && (at[1] > 127 || left >= 2 + (size_t)at[1])) {
        take_packet(client, at, moment);
        left -= 2 + (size_t)at[1];
        at += 2 + (size_t)at[1];
    }
    memmove(client->in, at, left);
    client->in_size = left;
}

/* Reads once, and responds to the packets. */
static void take_in(struct client *client)
{
    uint64_t before = came, moment;
    ssize_t size = recv(client->socket, client->in + client->in_size, ROOM - client->in_size, 0);
    if (size < 0 && (errno == EINTR || errno == EAGAIN || errno == EWOULDBLOCK))
        return;
    if (size <= 0)
        lose(client, size == 0 ? "the broker closed it" : strerror(errno));
    client->in_size += (size_t)size;
    moment = now();
    take_packets(client, moment);
    if (came > before) {
        last = moment;
        last_busy = time_of(CLOCK_PROCESS_CPUTIME_ID);
    }
    flush(client);
}

/* ---- publishing */

/* The identifier that a publisher's next message has: they go round. */
static uint16_t next_id(const struct client *client)
{
    return (uint16_t)(client->published % 65535 + 1);
}

static bool may_publish(const struct client *client)
{
    if (client->published == client->wanted || client->out_begin > 0 || ROOM - client->out_end < publish_size())
        return false;
    return qos == 0 || (client->in_flight < IN_FLIGHT && client->awaited[next_id(client)] == 0);
}

static void publish(struct client *client, uint64_t moment)
{
    uint32_t publisher = (uint32_t)client->number;
    uint16_t id = next_id(client);
    put_byte(client, publish_kind());
    put_byte(client, (uint8_t)(publish_size() - 2));
    put_text(client, topic);
    if (qos > 0) {
        put_number(client, id);
        client->awaited[id] = qos == 1 ? PUBACK : PUBREC;
        client->in_flight++;
    }
    put_bytes(client, &publisher, 4);
    put_bytes(client, &client->published, 4);
    put_bytes(client, &moment, 8);
    client->published++;
    published++;
}

/* The number of messages of quality of service 1 and 2 in flight. */
static uint32_t on_their_way(void)
{
    uint64_t least = published;
    int i;
    for (i = publishers; i < publishers + subscribers; i++)
        if (clients[i].through < least)
            least = clients[i].through;
    return (uint32_t)(published - least);
}

/* How many messages may be published now. */
static uint64_t allowance(uint64_t moment)
{
    uint64_t most = qos == 0 ? UINT64_MAX : IN_FLIGHT - on_their_way();
    uint64_t due = (moment - first) / INTERVAL + 1;
    if (!is_paced)
        return most;
    due = due > published ? due - published : 0;
    return due < most ? due : most;
}

/* The publishers take turns, message by message, until no more may be published. */
static void publish_all(void)
{
    uint64_t moment = now(), most = allowance(moment);
    int i, idle = 0;
    while (most > 0 && idle < publishers) {
        struct client *client = &clients[turn];
        turn = (turn + 1) % publishers;
        if (!may_publish(client)) {
            idle++;
            continue;
        }
        if (is_paced && moment - first > (published + 1) * INTERVAL)
            late++;
        publish(client, moment);
        most--;
        idle = 0;
    }
    for (i = 0; i < publishers; i++)
        flush(&clients[i]);
}

/* ---- the run */

static bool are_ready(void)
{
    int i;
    for (i = 0; i < publishers + subscribers; i++)
        if (!clients[i].is_ready)
            return false;
    return true;
}

/* Whether each subscriber received every message, and all flows are complete. */
static bool are_done(void)
{
    int i;
    for (i = 0; i < publishers + subscribers; i++) {
        const struct client *client = &clients[i];
        if (has_output(client) || client->published < client->wanted || client->in_flight > 0)
            return false;
        if (!client->is_publisher && (client->came < messages || client->through < messages))
            return false;
    }
    return true;
}

/* The number of milliseconds until this time, rounded up. */
static int left_until(uint64_t moment)
{
    uint64_t at = now();
    return at >= moment ? 0 : (int)((moment - at + MILLISECOND - 1) / MILLISECOND);
}

/* For how long nothing may be done but wait. */
static int wait_limit(bool is_publishing)
{
    int limit = left_until(begun + LIMIT), due;
    if (limit == 0)
        give_up("its time is up");
    if (!is_publishing || !is_paced || published == messages)
        return limit;
    due = left_until(first + published * INTERVAL);
    return due == 0 ? 1 : due < limit ? due : limit;
}

/* The events to poll for at a client. A client with pending output isn't read, so that there is
   room for its responses. */
static short events_of(const struct client *client, bool is_publishing)
{
    if (has_output(client))
        return POLLOUT;
    if (is_publishing && !is_paced && qos == 0 && client->published < client->wanted)
        return POLLIN | POLLOUT;
    return POLLIN;
}

/* Waits until something can be sent or read, and does it. */
static void wait_once(bool is_publishing)
{
    struct pollfd waits[MOST_CLIENTS];
    int i, count = publishers + subscribers;
    for (i = 0; i < count; i++)
        waits[i] = (struct pollfd){.fd = clients[i].socket, .events = events_of(&clients[i], is_publishing)};
    if (poll(waits, (nfds_t)count, wait_limit(is_publishing)) < 0 && errno != EINTR)
        give_up("poll: %s", strerror(errno));
    for (i = 0; i < count; i++) {
        if (waits[i].revents != 0)
            flush(&clients[i]);
        if ((waits[i].revents & ~POLLOUT) != 0 && !has_output(&clients[i]))
            take_in(&clients[i]);
    }
}

static void run(void)
{
    while (!are_ready())
        wait_once(false);
    first = last = now();
    first_busy = last_busy = time_of(CLOCK_PROCESS_CPUTIME_ID);
    for (;;) {
        publish_all();
        if (are_done())
            return;
        wait_once(true);
    }
}

/* ---- connections */

static struct sockaddr_in address_of(uint16_t number)
{
    struct sockaddr_in address = {.sin_family = AF_INET, .sin_port = htons(number), .sin_addr.s_addr = htonl(INADDR_LOOPBACK)};
    return address;
}

/* Opens a connection and waits for it. Returns whether it is open; if not, errno has the reason. */
static bool reach(int one)
{
    struct sockaddr_in address = address_of(port);
    struct pollfd wait = {.fd = one, .events = POLLOUT};
    socklen_t size = sizeof errno;
    int why = 0;
    if (connect(one, (const struct sockaddr *)&address, sizeof address) == 0)
        return true;
    if (errno != EINPROGRESS)
        return false;
    if (poll(&wait, 1, left_until(begun + LIMIT)) != 1)
        why = ETIMEDOUT;
    else if (getsockopt(one, SOL_SOCKET, SO_ERROR, &why, &size) != 0)
        return false;
    errno = why;
    return why == 0;
}

/* A connection to the broker, which may begin to listen only now. */
static int connected(void)
{
    const struct timespec pause = {.tv_nsec = 20 * MILLISECOND};
    const int yes = 1;
    for (;;) {
        int one = socket(AF_INET, SOCK_STREAM, 0);
        if (one < 0 || fcntl(one, F_SETFL, O_NONBLOCK) != 0 || setsockopt(one, IPPROTO_TCP, TCP_NODELAY, &yes, sizeof yes) != 0)
            give_up("no socket: %s", strerror(errno));
        if (reach(one))
            return one;
        if (errno != ECONNREFUSED || now() > begun + START_LIMIT)
            give_up("no connection to port %u: %s", port, strerror(errno));
        close(one);
        nanosleep(&pause, NULL);
    }
}

/* Connects a client, with a clean session and without a keep-alive. */
static void open_client(int nth)
{
    struct client *client = &clients[nth];
    char name[16];
    client->is_publisher = nth < publishers;
    client->number = client->is_publisher ? nth : nth - publishers;
    if (client->is_publisher)
        client->wanted = messages / (uint32_t)publishers + ((uint32_t)nth < messages % (uint32_t)publishers ? 1 : 0);
    client->socket = connected();
    snprintf(name, sizeof name, "%s%d", client->is_publisher ? "p" : "s", client->number);
    put_byte(client, CONNECT);
    put_byte(client, (uint8_t)(10 + 2 + strlen(name)));
    put_text(client, "MQTT");
    put_byte(client, 4);
    put_byte(client, 2);
    put_number(client, 0);
    put_text(client, name);
    flush(client);
}

static void close_client(struct client *client)
{
    put_byte(client, DISCONNECT);
    put_byte(client, 0);
    flush(client);
    close(client->socket);
}

static void load_all(void)
{
    int i;
    begun = first = last = now();
    for (i = 0; i < publishers + subscribers; i++)
        open_client(i);
    run();
    for (i = 0; i < publishers + subscribers; i++)
        close_client(&clients[i]);
    tell();
}

/* ---- words */

/* Prints a port of 127.0.0.1 that is free. */
static int find_port(void)
{
    struct sockaddr_in address = address_of(0);
    socklen_t size = sizeof address;
    int one = socket(AF_INET, SOCK_STREAM, 0);
    if (one < 0 || bind(one, (const struct sockaddr *)&address, size) != 0 || getsockname(one, (struct sockaddr *)&address, &size) != 0) {
        fprintf(stderr, "loopback_load: no port is free: %s\n", strerror(errno));
        return 1;
    }
    printf("%u\n", ntohs(address.sin_port));
    return 0;
}

static _Noreturn void refuse_words(void)
{
    fputs("usage: loopback_load PORT pairs PUBLISHERS SUBSCRIBERS QOS MESSAGES\n"
          "       loopback_load PORT latency QOS\n"
          "       loopback_load port\n"
          "PUBLISHERS and SUBSCRIBERS together are at most 64, and MESSAGES at most 100000000.\n",
          stderr);
    exit(2);
}

/* The number of a word, from the least to the most. */
static long number_of(const char *word, long least, long most)
{
    char *end;
    long number;
    errno = 0;
    number = strtol(word, &end, 10);
    if (errno != 0 || end == word || *end != '\0' || number < least || number > most)
        refuse_words();
    return number;
}

int main(int count, char **words)
{
    if (count == 2 && strcmp(words[1], "port") == 0)
        return find_port();
    if (count < 3)
        refuse_words();
    port = (uint16_t)number_of(words[1], 1, 65535);
    publishers = subscribers = 1;
    if (count == 7 && strcmp(words[2], "pairs") == 0) {
        publishers = (int)number_of(words[3], 1, MOST_CLIENTS - 1);
        subscribers = (int)number_of(words[4], 1, MOST_CLIENTS - publishers);
        qos = (int)number_of(words[5], 0, 2);
        messages = (uint32_t)number_of(words[6], 1, MOST_MESSAGES);
    } else if (count == 4 && strcmp(words[2], "latency") == 0) {
        qos = (int)number_of(words[3], 0, 2);
        messages = PACED_MESSAGES;
        is_paced = true;
    } else {
        refuse_words();
    }
    load_all();
    return 0;
}
