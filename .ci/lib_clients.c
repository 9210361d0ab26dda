/* Makes, uses and frees clients, each through a cut at QoS 2 in both directions: lib_clients COUNT.
 * Then it refuses each allocation of a client in turn. .ci/lib-test runs it under valgrind and with
 * the address sanitizer; the linker wraps malloc and realloc. */
#include <poskvari.h>
#include <stdio.h>
#include <stdlib.h>
#include <string.h>

#define CHECK(fact) \
    do { \
        if (!(fact)) { \
            printf("line %d: %s\n", __LINE__, #fact); \
            exit(1); \
        } \
    } while (0)

static uint8_t out[512];
static size_t out_size;

/* Takes all output, seven bytes at a time. */
static void take(posk_client *client) {
    size_t size;
    out_size = 0;
    while ((size = posk_output(client, out + out_size, 7)) > 0) {
        out_size += size;
        CHECK(out_size + 7 < sizeof out);
    }
}

static void expect(posk_client *client, const void *bytes, size_t size) {
    take(client);
    CHECK(out_size == size && memcmp(out, bytes, size) == 0);
}

/* Delivers bytes in a block of their exact size. */
static int deliver(posk_client *client, uint64_t now, const void *bytes, size_t size) {
    uint8_t *copy = malloc(size ? size : 1);
    CHECK(copy);
    memcpy(copy, bytes, size);
    int closed = posk_receive(client, now, copy, size);
    free(copy);
    return closed;
}

static posk_event next(posk_client *client) {
    posk_event event;
    memset(&event, 0xff, sizeof event);
    int code = posk_next_event(client, &event, NULL, 0);
    if (code == POSK_ERROR_ROOM) {
        uint8_t *bytes = malloc(event.size);
        CHECK(bytes && posk_next_event(client, &event, bytes, event.size) == POSK_OK);
        if (event.kind == POSK_EVENT_MESSAGE)
            CHECK(event.size == 5 && memcmp(bytes, "b/chi", 5) == 0 && event.topic_size == 3);
        free(bytes);
    } else {
        CHECK(code == POSK_OK);
    }
    return event;
}

#define EVENTS(client, wanted) CHECK(next(client).kind == (wanted))
#define BYTES(text) text, sizeof text - 1

static void use(int number) {
    char id[16];
    int size = snprintf(id, sizeof id, "c%d", number % 10);
    posk_client client = POSK_CLIENT_NONE, second = POSK_CLIENT_NONE;
    posk_options options = {.id = {id, (size_t)size}, .keep_alive = 10};
    if (number % 2) {
        options.has_user_name = options.has_password = options.has_will = true;
        options.user_name = (posk_bytes){"name", 4};
        options.password = (posk_bytes){"secret", 6};
        options.will_topic = (posk_bytes){"gone", 4};
        options.will_payload = (posk_bytes){"x", 1};
        options.will_qos = 1;
    }
    CHECK(posk_client_new(&client, &options) == POSK_OK);
    CHECK(posk_client_new(&client, &options) == POSK_ERROR_ARGUMENT);
    CHECK(posk_publish(&client, BYTES("a"), BYTES("hi"), 0, false) == POSK_ERROR_NOT_CONNECTED);
    CHECK(posk_connect(&client, 1000, false) == POSK_OK);
    take(&client);
    CHECK(out[0] == 0x10);
    CHECK(deliver(&client, 1001, BYTES("\x20\x02\x00\x00")) == POSK_OK);
    CHECK(deliver(&client, 1001, BYTES("\xd0\x00")) == POSK_ERROR_EVENTS);
    EVENTS(&client, POSK_EVENT_CONNECTED);
    EVENTS(&client, POSK_EVENT_NONE);
    int request = posk_subscribe(&client, BYTES("b/+"), 2);
    CHECK(request == 1 && posk_subscribe(&client, BYTES("#a"), 2) == POSK_ERROR_ARGUMENT);
    expect(&client, BYTES("\x82\x08\x00\x01\x00\x03" "b/+\x02"));
    CHECK(deliver(&client, 1002, BYTES("\x90\x03\x00\x01\x02")) == POSK_OK);
    EVENTS(&client, POSK_EVENT_SUBSCRIBED);
    /* A message in each direction, and then a cut. */
    CHECK(posk_publish(&client, BYTES("a"), BYTES("hi"), 2, false) == 2);
    expect(&client, BYTES("\x34\x07\x00\x01" "a\x00\x02hi"));
    CHECK(deliver(&client, 1003, BYTES("\x34\x09\x00\x03" "b/c\x00\x05hi\x50")) == POSK_OK);
    EVENTS(&client, POSK_EVENT_MESSAGE);
    expect(&client, BYTES("\x50\x02\x00\x05"));
    CHECK(!posk_is_idle(&client));
    CHECK(posk_next_deadline(&client) == 11000 && posk_tick(&client, 11000) == POSK_OK);
    expect(&client, BYTES("\xc0\x00"));
    posk_dropped(&client);
    /* The session is saved, and a second client continues it. */
    uint8_t saved[256];
    CHECK(posk_save(&client, saved, 4) == POSK_ERROR_ROOM);
    ptrdiff_t saved_size = posk_save(&client, saved, sizeof saved);
    CHECK(saved_size > 4 && posk_session_check(saved, (size_t)saved_size) == POSK_OK);
    CHECK(posk_session_check(saved, 5) == POSK_ERROR_SESSION);
    CHECK(posk_load(&second, &options, saved, 5) == POSK_ERROR_SESSION && !second.at);
    CHECK(posk_load(&second, &options, saved, (size_t)saved_size) == POSK_OK);
    posk_client *both[] = {&client, &second};
    for (int i = 0; i < 2; i++) {
        posk_client *it = both[i];
        CHECK(posk_connect(it, 20000, false) == POSK_OK);
        take(it);
        CHECK(deliver(it, 20001, BYTES("\x20\x02\x01\x00")) == POSK_OK);
        CHECK(next(it).session_present);
        expect(it, BYTES("\x3c\x07\x00\x01" "a\x00\x02hi"));
        /* The message that came before is not delivered again. */
        CHECK(deliver(it, 20002, BYTES("\x3c\x09\x00\x03" "b/c\x00\x05hi\x50\x02\x00\x02\x62")) == 0);
        EVENTS(it, POSK_EVENT_NONE);
        expect(it, BYTES("\x50\x02\x00\x05\x62\x02\x00\x02"));
        CHECK(deliver(it, 20003, BYTES("\x02\x00\x05\x70\x02\x00\x02")) == POSK_OK);
        expect(it, BYTES("\x70\x02\x00\x05"));
        CHECK(posk_is_idle(it));
    }
    CHECK(posk_unsubscribe(&client, BYTES("b/+")) == 3);
    take(&client);
    CHECK(deliver(&client, 20004, BYTES("\xb0\x02\x00\x03\xd0\x00")) == POSK_OK);
    EVENTS(&client, POSK_EVENT_UNSUBSCRIBED);
    EVENTS(&client, POSK_EVENT_PONG);
    CHECK(posk_disconnect(&client) == POSK_OK);
    expect(&client, BYTES("\xe0\x00"));
    CHECK(posk_disconnect(&client) == POSK_ERROR_NOT_CONNECTED);
    /* Events that were not taken are freed with the client. */
    CHECK(deliver(&second, 20004, BYTES("\x30\x05\x00\x03" "b/c\xf0\x00")) == POSK_CLOSED_MALFORMED);
    posk_client_free(&client);
    posk_client_free(&client);
    posk_client_free(&second);
    CHECK(!client.at && posk_connect(&client, 0, true) == POSK_ERROR_ARGUMENT);
}

/* The number of the allocation that fails, counted from here; 0 for none. */
static long refused;

void *__real_malloc(size_t size);
void *__real_realloc(void *at, size_t size);

void *__wrap_malloc(size_t size) {
    return refused > 0 && --refused == 0 ? NULL : __real_malloc(size);
}

void *__wrap_realloc(void *at, size_t size) {
    return refused > 0 && --refused == 0 ? NULL : __real_realloc(at, size);
}

/* A call that is refused changes nothing, so it succeeds when it is made again. */
#define TWICE(call, wanted) \
    do { \
        ptrdiff_t code = (call); \
        if (code == POSK_ERROR_MEMORY) { \
            CHECK(refused == 0); \
            code = (call); \
        } \
        CHECK(code == (wanted)); \
    } while (0)

/* The end closes if an allocation fails while it processes bytes. */
#define HEAR(text) \
    do { \
        int closed = posk_receive(&client, 1, BYTES(text)); \
        CHECK(closed == POSK_OK || (closed == POSK_CLOSED_MEMORY && refused == 0)); \
        if (closed) goto end; \
        while (!posk_next_event(&client, &event, room, sizeof room) && event.kind) continue; \
    } while (0)

/* Uses a client while the allocation with this number fails. Returns whether there is none. */
static bool use_refused(long number) {
    static uint8_t room[256];
    posk_client client = POSK_CLIENT_NONE, second = POSK_CLIENT_NONE;
    posk_options options = {.id = {"c", 1}, .keep_alive = 10, .has_user_name = true};
    posk_event event;
    options.user_name = options.password = options.will_topic = options.will_payload = options.id;
    options.has_password = options.has_will = true;
    refused = number;
    TWICE(posk_client_new(&client, &options), POSK_OK);
    TWICE(posk_publish(&client, BYTES("a"), BYTES("hi"), 1, false), 1);
    TWICE(posk_connect(&client, 0, false), POSK_OK);
    HEAR("\x20\x02\x00\x00");
    TWICE(posk_subscribe(&client, BYTES("b/+"), 2), 2);
    TWICE(posk_unsubscribe(&client, BYTES("b/+")), 3);
    TWICE(posk_publish(&client, BYTES("a"), BYTES("hi"), 2, false), 4);
    HEAR("\x34\x09\x00\x03" "b/c\x00\x05hi\x34\x09\x00\x03" "b/c\x00\x06hi\x30");
    TWICE(posk_tick(&client, 10000), POSK_OK);
    TWICE(posk_match(BYTES("a/+"), BYTES("a/b")), 1);
    ptrdiff_t size = posk_save(&client, room, sizeof room);
    if (size < 0) size = posk_save(&client, room, sizeof room);
    TWICE(posk_session_check(room, (size_t)size), POSK_OK);
    TWICE(posk_load(&second, &options, room, (size_t)size), POSK_OK);
    TWICE(posk_disconnect(&client), POSK_OK);
end:
    posk_client_free(&client);
    posk_client_free(&second);
    return refused > 0;
}

int main(int count, char **words) {
    int clients = count > 1 ? atoi(words[1]) : 1000;
    for (int i = 0; i < clients; i++) use(i);
    long number = 1;
    while (!use_refused(number)) number++;
    CHECK(number > 20);
    printf("%d clients\n", clients);
    return 0;
}
