/* Subscribes to a topic filter, and prints each message until `count` have arrived.
 *
 *     subscribe HOST PORT CLIENT FILTER QOS COUNT */
#define _POSIX_C_SOURCE 200809L
#include <netdb.h>
#include <poll.h>
#include <poskvari.h>
#include <stdio.h>
#include <stdlib.h>
#include <string.h>
#include <sys/socket.h>
#include <time.h>
#include <unistd.h>

static uint64_t now(void) {
    struct timespec time;
    clock_gettime(CLOCK_MONOTONIC, &time);
    return (uint64_t)time.tv_sec * 1000 + (uint64_t)time.tv_nsec / 1000000;
}

static int fail(const char *what, const char *why) {
    fprintf(stderr, "%s: %s\n", what, why);
    return 1;
}

static int connect_to(const char *host, const char *port) {
    struct addrinfo hints = {.ai_socktype = SOCK_STREAM}, *found;
    if (getaddrinfo(host, port, &hints, &found)) return -1;
    int stream = socket(found->ai_family, found->ai_socktype, 0);
    if (stream >= 0 && connect(stream, found->ai_addr, found->ai_addrlen)) {
        close(stream);
        stream = -1;
    }
    freeaddrinfo(found);
    return stream;
}

/* Sends the pending output. */
static bool flush(posk_client *client, int stream) {
    uint8_t bytes[4096];
    size_t size;
    while ((size = posk_output(client, bytes, sizeof bytes)) > 0)
        for (size_t sent = 0; sent < size;) {
            ssize_t count = send(stream, bytes + sent, size - sent, MSG_NOSIGNAL);
            if (count < 0) return false;
            sent += (size_t)count;
        }
    return true;
}

/* Milliseconds until the next tick, for poll. */
static int pause_of(posk_client *client) {
    uint64_t deadline = posk_next_deadline(client), time = now();
    if (deadline == UINT64_MAX) return -1;
    return deadline <= time ? 0 : deadline - time > 60000 ? 60000 : (int)(deadline - time);
}

static int run(posk_client *client, int stream, char **words) {
    static uint8_t bytes[65536], buffer[1 << 20];
    int left = atoi(words[6]);
    if (posk_connect(client, now(), true)) return fail("connect", "out of memory");
    while (left > 0) {
        struct pollfd wait = {.fd = stream, .events = POLLIN};
        if (posk_tick(client, now()) || !flush(client, stream)) return fail("send", "failed");
        if (poll(&wait, 1, pause_of(client)) == 0) continue;
        ssize_t size = read(stream, bytes, sizeof bytes);
        if (size <= 0) return fail("read", "the server closed the connection");
        int closed = posk_receive(client, now(), bytes, (size_t)size), code;
        posk_event event;
        while (!(code = posk_next_event(client, &event, buffer, sizeof buffer)) && event.kind) {
            if (event.kind == POSK_EVENT_CONNECTED) {
                code = posk_subscribe(client, words[4], strlen(words[4]), (uint8_t)atoi(words[5]));
                if (code < 0) return fail("subscribe", posk_error_text(code));
            } else if (event.kind == POSK_EVENT_SUBSCRIBED) {
                printf("subscribed %d\n", buffer[0]);
                fflush(stdout);
            } else if (event.kind == POSK_EVENT_MESSAGE && left > 0) {
                printf("%.*s %d %.*s\n", (int)event.topic_size, (char *)buffer, event.qos,
                       (int)(event.size - event.topic_size), (char *)buffer + event.topic_size);
                fflush(stdout);
                left--;
            }
        }
        if (code) return fail("event", posk_error_text(code));
        if (closed) return fail("closed", "by the client's end");
    }
    posk_disconnect(client);
    return flush(client, stream) ? 0 : 1;
}

int main(int count, char **words) {
    if (count != 7) return fail("usage", "subscribe HOST PORT CLIENT FILTER QOS COUNT");
    posk_client client = POSK_CLIENT_NONE;
    posk_options options = {.id = {words[3], strlen(words[3])}, .keep_alive = 60};
    int code = posk_client_new(&client, &options);
    if (code) return fail("client", posk_error_text(code));
    int stream = connect_to(words[1], words[2]);
    int status = stream < 0 ? fail("connect", "failed") : run(&client, stream, words);
    if (stream >= 0) close(stream);
    posk_client_free(&client);
    return status;
}
