/* Measures a client of the library, for `make bench-client`: the processor's
 * nanoseconds of a message of 16 bytes with each quality of service, from posk_publish to the
 * acknowledgement, alone and while others are in flight, and the memory of an idle client. The
 * server's answers are made here. */
#define _POSIX_C_SOURCE 200809L
#include <poskvari.h>
#include <stdio.h>
#include <stdlib.h>
#include <time.h>

enum { ROUNDS = 5, MESSAGES = 300000, CLIENTS = 10000 };

static double seconds(void) {
    struct timespec time;
    clock_gettime(CLOCK_PROCESS_CPUTIME_ID, &time);
    return (double)time.tv_sec + (double)time.tv_nsec / 1e9;
}

static void fail(const char *what) {
    fprintf(stderr, "client: %s failed\n", what);
    exit(1);
}

static int compare(const void *a, const void *b) {
    double x = *(const double *)a, y = *(const double *)b;
    return (x > y) - (x < y);
}

static double median(double *times) {
    qsort(times, ROUNDS, sizeof *times, compare);
    return times[ROUNDS / 2];
}

static void receive(posk_client *client, uint8_t first, int id) {
    uint8_t bytes[] = {first, 2, (uint8_t)(id >> 8), (uint8_t)id};
    if (posk_receive(client, 0, bytes, sizeof bytes)) fail("receive");
}

static void send(posk_client *client) {
    uint8_t bytes[256];
    while (posk_output(client, bytes, sizeof bytes) > 0) continue;
}

static void connect_client(posk_client *client) {
    posk_event event;
    if (posk_connect(client, 0, true)) fail("connect");
    send(client);
    receive(client, 0x20, 0);
    if (posk_next_event(client, &event, NULL, 0)) fail("event");
}

static posk_client connected(void) {
    posk_client client = POSK_CLIENT_NONE;
    posk_options options = {.id = {"c", 1}, .capacity = 65535};
    if (posk_client_new(&client, &options)) fail("new");
    connect_client(&client);
    return client;
}

static int publish(posk_client *client, uint8_t qos) {
    int id = posk_publish(client, "greenhouse/4/north/temperature/c", 32, "0123456789abcdef", 16, qos,
                          false);
    if (id < 0) fail("publish");
    send(client);
    return id;
}

static void exchange(posk_client *client, uint8_t qos) {
    int id = publish(client, qos);
    if (qos == 1) receive(client, 0x40, id);
    if (qos == 2) {
        receive(client, 0x50, id);
        send(client);
        receive(client, 0x70, id);
    }
}

static void measure_messages(uint8_t qos) {
    posk_client client = connected();
    double times[ROUNDS];
    for (int round = 0; round < ROUNDS; round++) {
        double start = seconds();
        for (int i = 0; i < MESSAGES; i++) exchange(&client, qos);
        times[round] = seconds() - start;
    }
    printf("client qos=%d ns=%.0f\n", qos, median(times) * 1e9 / MESSAGES);
    posk_client_free(&client);
}

/* The message that was sent first is acknowledged after each one that is sent. */
static void measure_in_flight(int count) {
    posk_client client = connected();
    double times[ROUNDS];
    int first = 1;
    for (int i = 0; i < count; i++) publish(&client, 1);
    for (int round = 0; round < ROUNDS; round++) {
        double start = seconds();
        for (int i = 0; i < MESSAGES; i++) {
            publish(&client, 1);
            receive(&client, 0x40, first);
            first = first % 65535 + 1;
        }
        times[round] = seconds() - start;
    }
    printf("client in_flight=%d ns=%.0f\n", count, median(times) * 1e9 / MESSAGES);
    posk_client_free(&client);
}

static double resident(void) {
    FILE *file = fopen("/proc/self/statm", "r");
    long all, pages;
    if (!file || fscanf(file, "%ld %ld", &all, &pages) != 2) fail("/proc/self/statm");
    fclose(file);
    return (double)pages * 4096;
}

static void weigh_clients(void) {
    static posk_client clients[CLIENTS];
    posk_options options = {.id = {"c", 1}};
    double before = resident(), idle;
    for (int i = 0; i < CLIENTS; i++)
        if (posk_client_new(&clients[i], &options)) fail("new");
    idle = resident() - before;
    for (int i = 0; i < CLIENTS; i++) connect_client(&clients[i]);
    printf("client idle bytes=%.0f connected bytes=%.0f\n", idle / CLIENTS,
           (resident() - before) / CLIENTS);
    for (int i = 0; i < CLIENTS; i++) posk_client_free(&clients[i]);
}

int main(void) {
    weigh_clients();
    for (uint8_t qos = 0; qos < 3; qos++) measure_messages(qos);
    measure_in_flight(10);
    measure_in_flight(60000);
    return 0;
}
