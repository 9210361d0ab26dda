/* poskvari.h: MQTT 3.1.1 packets, topics and a client, from the library libposkvari.
 *
 * The functions posk_* below are inline. They check their pointers and call the functions
 * poskvari_* of the library, whose pointers must not be null.
 *
 * Duties of the caller, which nothing checks:
 *
 * - A pointer with a size must point to that many bytes, which no other thread changes. It may be
 *   null if the size is 0. A buffer for output must not overlap an input.
 * - A posk_client must be set to POSK_CLIENT_NONE before posk_client_new. It must not be copied,
 *   changed or used after posk_client_free, except that posk_client_new may fill it again.
 * - One call at a time uses a client, always from the thread that made it.
 * - No call is made from a signal handler, or in a forked child of a process with threads.
 * - malloc, realloc and free must be those of one allocator of the C library.
 *
 * The library reads and writes nothing beyond the sizes that it is given. It keeps no pointer of
 * the caller. Times are in milliseconds, from any start, by a clock that does not go back. Sizes
 * are in bytes. */
#ifndef POSKVARI_H
#define POSKVARI_H

#include <stdbool.h>
#include <stddef.h>
#include <stdint.h>

#ifdef __cplusplus
extern "C" {
#endif

/* Results. Functions that return a size or a packet identifier return one of the errors if they
 * fail; all errors are negative. On an error nothing changes unless the function says otherwise. */
enum posk_code {
    POSK_OK = 0,
    POSK_MORE = 1,                   /* the packet is incomplete and has no fault so far */
    POSK_ERROR_MEMORY = -1,          /* an allocation failed */
    POSK_ERROR_ARGUMENT = -2,        /* a null pointer, or an argument that is not valid */
    POSK_ERROR_ROOM = -3,            /* the buffer for output is too small */
    POSK_ERROR_TOO_LARGE = -4,       /* the packet is over the limit */
    POSK_ERROR_TEXT = -5,            /* not UTF-8, over 65,535 bytes, or with U+0000 (1.5.3) */
    POSK_ERROR_NAME = -6,            /* not a topic name (4.7) */
    POSK_ERROR_FILTER = -7,          /* not a topic filter (4.7) */
    POSK_ERROR_SESSION = -8,         /* not a saved session */
    POSK_ERROR_MALFORMED = -9,       /* the bytes are not a packet */
    POSK_ERROR_NOT_CONNECTED = -10,  /* there is no established connection */
    POSK_ERROR_FULL = -11,           /* no packet identifier is free */
    POSK_ERROR_EVENTS = -12,         /* take all events first, by posk_next_event */
    POSK_ERROR_ANOTHER_CLIENT = -13  /* the saved session belongs to another client */
};

/* Returns the error as a sentence without a full stop. */
static inline const char *posk_error_text(int code) {
    switch (code) {
    case POSK_OK: return "no error";
    case POSK_MORE: return "the packet is incomplete";
    case POSK_ERROR_MEMORY: return "out of memory";
    case POSK_ERROR_ARGUMENT: return "an argument is not valid";
    case POSK_ERROR_ROOM: return "the buffer is too small";
    case POSK_ERROR_TOO_LARGE: return "the packet is over the limit";
    case POSK_ERROR_TEXT: return "the bytes are not an MQTT string";
    case POSK_ERROR_NAME: return "the text is not a topic name";
    case POSK_ERROR_FILTER: return "the text is not a topic filter";
    case POSK_ERROR_SESSION: return "the bytes are not a saved session";
    case POSK_ERROR_MALFORMED: return "the bytes are not a packet";
    case POSK_ERROR_NOT_CONNECTED: return "not connected";
    case POSK_ERROR_FULL: return "no packet identifier is free";
    case POSK_ERROR_EVENTS: return "events are pending";
    case POSK_ERROR_ANOTHER_CLIENT: return "the session belongs to another client";
    default: return "not an error of this library";
    }
}

/* ---- Packets */

/* The types of packets (2.2.1). */
enum posk_kind {
    POSK_CONNECT = 1,
    POSK_CONNACK,
    POSK_PUBLISH,
    POSK_PUBACK,
    POSK_PUBREC,
    POSK_PUBREL,
    POSK_PUBCOMP,
    POSK_SUBSCRIBE,
    POSK_SUBACK,
    POSK_UNSUBSCRIBE,
    POSK_UNSUBACK,
    POSK_PINGREQ,
    POSK_PINGRESP,
    POSK_DISCONNECT
};

/* The largest remaining length of a packet (2.2.3). */
#define POSK_MAX_PACKET 268435455u

/* A part of the buffer: the index of its first byte, and its number of bytes. */
typedef struct posk_field {
    size_t at;
    size_t size;
} posk_field;

/* A packet in a buffer. Fields that it doesn't have are 0. */
typedef struct posk_fields {
    uint8_t kind;           /* its type */
    uint8_t qos;            /* PUBLISH; CONNECT: of the will */
    bool retain;            /* PUBLISH; CONNECT: of the will */
    bool dup;               /* PUBLISH */
    bool clean_session;     /* CONNECT */
    bool has_will;          /* CONNECT: there are topic and payload */
    bool has_user_name;     /* CONNECT */
    bool has_password;      /* CONNECT */
    bool session_present;   /* CONNACK */
    uint8_t code;           /* CONNACK: the return code, 0 to 5 (3.2.2.3) */
    uint16_t id;            /* the packet identifier */
    uint16_t keep_alive;    /* CONNECT: in seconds */
    size_t size;            /* of the whole packet */
    posk_field topic;       /* PUBLISH; CONNECT: of the will */
    posk_field payload;     /* PUBLISH; CONNECT: of the will */
    posk_field list;        /* SUBSCRIBE, SUBACK, UNSUBSCRIBE: the items, see posk_next_filter */
    posk_field client_id;   /* CONNECT */
    posk_field user_name;   /* CONNECT */
    posk_field password;    /* CONNECT */
} posk_fields;

/* Why bytes are not a packet: the number of the fault, 1 to 20, and its place. */
typedef struct posk_fault {
    size_t place;
    uint8_t kind;
} posk_fault;

int32_t poskvari_packet(const uint8_t *bytes, size_t size, uint32_t max_packet, bool lenient,
                        posk_fields *fields, posk_fault *fault);
ptrdiff_t poskvari_encode_acknowledgement(uint8_t kind, uint16_t id, uint8_t *out, size_t room);
ptrdiff_t poskvari_encode_bare(uint8_t kind, uint8_t *out, size_t room);
ptrdiff_t poskvari_encode_list(uint8_t kind, uint16_t id, const uint8_t *items, size_t size,
                               uint8_t *out, size_t room);
ptrdiff_t poskvari_encode_connack(bool session_present, uint8_t code, uint8_t *out, size_t room);
ptrdiff_t poskvari_encode_publish(const uint8_t *topic, size_t topic_size, const uint8_t *payload,
                                  size_t payload_size, uint8_t qos, bool retain, bool dup,
                                  uint16_t id, uint8_t *out, size_t room);
ptrdiff_t poskvari_encode_connect(const uint8_t *client_id, size_t client_id_size,
                                  uint16_t keep_alive, bool clean_session, bool has_user_name,
                                  const uint8_t *user_name, size_t user_name_size,
                                  bool has_password, const uint8_t *password, size_t password_size,
                                  bool has_will, const uint8_t *will_topic, size_t will_topic_size,
                                  const uint8_t *will_payload, size_t will_payload_size,
                                  uint8_t will_qos, bool will_retain, uint8_t *out, size_t room);

/* Replaces a null pointer with size 0 by one that is not null. */
static inline const uint8_t *posk_bytes_(const void *bytes) {
    static const uint8_t none = 0;
    return bytes ? (const uint8_t *)bytes : &none;
}
static inline uint8_t *posk_room_(void *out) {
    static uint8_t none;
    return out ? (uint8_t *)out : &none;
}
/* Whether a pointer with a size may be passed on. */
#define POSK_IS_VALID_(pointer, size) ((pointer) != NULL || (size) == 0)

/* Finds the packet at the front of the buffer. max_packet, 64 to POSK_MAX_PACKET, limits its
 * remaining length. Returns POSK_OK and sets *fields; or POSK_MORE if the packet is incomplete; or
 * POSK_ERROR_MALFORMED and sets *fault; or POSK_ERROR_ARGUMENT. Allocates nothing. */
static inline int posk_packet(const void *bytes, size_t size, uint32_t max_packet,
                              posk_fields *fields, posk_fault *fault) {
    if (!POSK_IS_VALID_(bytes, size) || !fields || !fault) return POSK_ERROR_ARGUMENT;
    return poskvari_packet(posk_bytes_(bytes), size, max_packet, false, fields, fault);
}

/* The next item of the list of a SUBSCRIBE or UNSUBSCRIBE that posk_packet found. *at is an index
 * in the same buffer, at first fields->list.at. Sets *filter, and *qos for a SUBSCRIBE, and moves
 * *at on. Returns false at the end of the list. */
static inline bool posk_next_filter(const void *bytes, const posk_fields *fields, size_t *at,
                                    posk_field *filter, uint8_t *qos) {
    const uint8_t *b = (const uint8_t *)bytes;
    size_t end = fields->list.at + fields->list.size, next = *at;
    bool has_qos = fields->kind == POSK_SUBSCRIBE;
    if (next > end || end - next < (has_qos ? 3u : 2u)) return false;
    filter->at = next + 2;
    filter->size = (size_t)b[next] * 256 + b[next + 1];
    if (end - filter->at < filter->size + (has_qos ? 1u : 0u)) return false;
    next = filter->at + filter->size;
    if (has_qos) *qos = b[next++];
    *at = next;
    return true;
}

/* Bytes of the caller. */
typedef struct posk_bytes {
    const void *at;
    size_t size;
} posk_bytes;

/* The fields of a CONNECT (3.1), then options of posk_client_new. Set those that are not needed to
 * 0. */
typedef struct posk_options {
    posk_bytes id;           /* the client identifier (3.1.3.1) */
    uint16_t keep_alive;     /* in seconds; 0 for none (3.1.2.10) */
    bool has_user_name;
    posk_bytes user_name;
    bool has_password;       /* only with a user name */
    posk_bytes password;
    bool has_will;           /* the server publishes the will if the connection is lost (3.1.2.5) */
    posk_bytes will_topic;
    posk_bytes will_payload;
    uint8_t will_qos;
    bool will_retain;
    uint32_t max_packet;     /* the greatest remaining length of packets; 0: 1,048,576 */
    uint16_t capacity;       /* the most packet identifiers in use; 0: 1,000 */
    uint16_t window;         /* the most unreleased QoS 2 messages; 0 for no limit */
} posk_options;

/* Whether the pointers of the options may be passed on. */
static inline bool posk_are_valid_(const posk_options *o) {
    return POSK_IS_VALID_(o->id.at, o->id.size) &&
           POSK_IS_VALID_(o->user_name.at, o->user_name.size) &&
           POSK_IS_VALID_(o->password.at, o->password.size) &&
           POSK_IS_VALID_(o->will_topic.at, o->will_topic.size) &&
           POSK_IS_VALID_(o->will_payload.at, o->will_payload.size);
}

/* The following functions write a packet to the buffer `out` of `room` bytes. They return the size
 * of the packet, or POSK_ERROR_ARGUMENT if there is no such packet, POSK_ERROR_ROOM, or
 * POSK_ERROR_TOO_LARGE. Bytes behind the packet are unchanged; on an error all are. They allocate
 * nothing. */

/* PUBACK, PUBREC, PUBREL, PUBCOMP or UNSUBACK (3.4 to 3.7, 3.11). */
static inline ptrdiff_t posk_encode_acknowledgement(uint8_t kind, uint16_t id, void *out,
                                                    size_t room) {
    if (!POSK_IS_VALID_(out, room)) return POSK_ERROR_ARGUMENT;
    return poskvari_encode_acknowledgement(kind, id, posk_room_(out), room);
}

/* PINGREQ, PINGRESP or DISCONNECT (3.12 to 3.14). */
static inline ptrdiff_t posk_encode_bare(uint8_t kind, void *out, size_t room) {
    if (!POSK_IS_VALID_(out, room)) return POSK_ERROR_ARGUMENT;
    return poskvari_encode_bare(kind, posk_room_(out), room);
}

/* CONNECT (3.1). */
static inline ptrdiff_t posk_encode_connect(const posk_options *options, bool clean_session,
                                            void *out, size_t room) {
    const posk_options *o = options;
    if (!o || !posk_are_valid_(o) || !POSK_IS_VALID_(out, room)) return POSK_ERROR_ARGUMENT;
    return poskvari_encode_connect(
        posk_bytes_(o->id.at), o->id.size, o->keep_alive, clean_session, o->has_user_name,
        posk_bytes_(o->user_name.at), o->user_name.size, o->has_password,
        posk_bytes_(o->password.at), o->password.size, o->has_will, posk_bytes_(o->will_topic.at),
        o->will_topic.size, posk_bytes_(o->will_payload.at), o->will_payload.size, o->will_qos,
        o->will_retain, posk_room_(out), room);
}

/* CONNACK (3.2). `code` is 0 to 5, and `session_present` only with 0. */
static inline ptrdiff_t posk_encode_connack(bool session_present, uint8_t code, void *out,
                                            size_t room) {
    if (!POSK_IS_VALID_(out, room)) return POSK_ERROR_ARGUMENT;
    return poskvari_encode_connack(session_present, code, posk_room_(out), room);
}

/* PUBLISH (3.3). With QoS 0, `dup` must be false and `id` 0. */
static inline ptrdiff_t posk_encode_publish(const void *topic, size_t topic_size,
                                            const void *payload, size_t payload_size, uint8_t qos,
                                            bool retain, bool dup, uint16_t id, void *out,
                                            size_t room) {
    if (!POSK_IS_VALID_(topic, topic_size) || !POSK_IS_VALID_(payload, payload_size) ||
        !POSK_IS_VALID_(out, room))
        return POSK_ERROR_ARGUMENT;
    return poskvari_encode_publish(posk_bytes_(topic), topic_size, posk_bytes_(payload),
                                   payload_size, qos, retain, dup, id, posk_room_(out), room);
}

/* SUBSCRIBE (3.8), SUBACK (3.9) or UNSUBSCRIBE (3.10). `items` is the list as it is encoded: for a
 * SUBACK the return codes, otherwise what posk_add_filter made. */
static inline ptrdiff_t posk_encode_list(uint8_t kind, uint16_t id, const void *items, size_t size,
                                         void *out, size_t room) {
    if (!POSK_IS_VALID_(items, size) || !POSK_IS_VALID_(out, room)) return POSK_ERROR_ARGUMENT;
    return poskvari_encode_list(kind, id, posk_bytes_(items), size, posk_room_(out), room);
}

/* Appends a filter to a list of *size bytes in the buffer `items`, and changes *size: with its QoS
 * for a SUBSCRIBE, and without, if `qos` is negative, for an UNSUBSCRIBE. Returns false if the
 * filter is too long or does not fit, and then changes nothing. */
static inline bool posk_add_filter(void *items, size_t room, size_t *size, const void *filter,
                                   size_t filter_size, int qos) {
    const uint8_t *from = (const uint8_t *)filter;
    uint8_t *to = (uint8_t *)items + *size;
    size_t more = 2 + filter_size + (qos < 0 ? 0 : 1), i;
    if (filter_size > 65535 || *size > room || room - *size < more) return false;
    to[0] = (uint8_t)(filter_size >> 8);
    to[1] = (uint8_t)filter_size;
    for (i = 0; i < filter_size; i++) to[2 + i] = from[i];
    if (qos >= 0) to[2 + filter_size] = (uint8_t)qos;
    *size += more;
    return true;
}

/* ---- Topics and saved sessions */

int32_t poskvari_name_check(const uint8_t *name, size_t size);
int32_t poskvari_filter_check(const uint8_t *filter, size_t size);
int32_t poskvari_match(const uint8_t *filter, size_t filter_size, const uint8_t *name,
                       size_t name_size);
int32_t poskvari_session_check(const uint8_t *saved, size_t size);

/* Returns POSK_OK if the bytes are a topic name (4.7), otherwise POSK_ERROR_TEXT or
 * POSK_ERROR_NAME. Allocates nothing. */
static inline int posk_name_check(const void *name, size_t size) {
    if (!POSK_IS_VALID_(name, size)) return POSK_ERROR_ARGUMENT;
    return poskvari_name_check(posk_bytes_(name), size);
}

/* Returns POSK_OK if the bytes are a topic filter (4.7), otherwise POSK_ERROR_TEXT or
 * POSK_ERROR_FILTER. Allocates nothing. */
static inline int posk_filter_check(const void *filter, size_t size) {
    if (!POSK_IS_VALID_(filter, size)) return POSK_ERROR_ARGUMENT;
    return poskvari_filter_check(posk_bytes_(filter), size);
}

/* Returns 1 if the filter matches the name (4.7), 0 if not, or POSK_ERROR_TEXT, POSK_ERROR_FILTER,
 * POSK_ERROR_NAME or POSK_ERROR_MEMORY. */
static inline int posk_match(const void *filter, size_t filter_size, const void *name,
                             size_t name_size) {
    if (!POSK_IS_VALID_(filter, filter_size) || !POSK_IS_VALID_(name, name_size))
        return POSK_ERROR_ARGUMENT;
    return poskvari_match(posk_bytes_(filter), filter_size, posk_bytes_(name), name_size);
}

/* Returns POSK_OK if the bytes are a saved session (4.1), otherwise POSK_ERROR_SESSION or
 * POSK_ERROR_MEMORY. */
static inline int posk_session_check(const void *saved, size_t size) {
    if (!POSK_IS_VALID_(saved, size)) return POSK_ERROR_ARGUMENT;
    return poskvari_session_check(posk_bytes_(saved), size);
}

/* ---- A client */

/* A client's end of its connections, one after another, with its session (3.1.2.4). It opens no
 * socket: it takes received bytes, and gives bytes to send. */
typedef struct posk_client {
    void *at;
} posk_client;

#define POSK_CLIENT_NONE {NULL}

/* The kind of an event. */
enum posk_event_kind {
    POSK_EVENT_NONE,
    POSK_EVENT_CONNECTED,     /* the server accepted the connection (3.2) */
    POSK_EVENT_MESSAGE,       /* a message; the bytes are the topic name and then the payload */
    POSK_EVENT_SUBSCRIBED,    /* the response to SUBSCRIBE; the byte is the code, 128 is a refusal */
    POSK_EVENT_UNSUBSCRIBED,  /* the response to UNSUBSCRIBE */
    POSK_EVENT_PONG           /* the response to PINGREQ */
};

typedef struct posk_event {
    uint8_t kind;
    uint8_t qos;              /* of a message */
    bool retain;              /* of a message */
    bool session_present;     /* CONNECTED: the server had a session of this client */
    uint16_t id;              /* (UN)SUBSCRIBED: the identifier that the request returned */
    size_t topic_size;        /* MESSAGE: the number of bytes of the topic name */
    size_t size;              /* the number of all bytes */
} posk_event;

/* Why posk_receive reports that the client closed its end. Close the connection then. */
enum posk_close {
    POSK_CLOSED_MALFORMED = 1,     /* bytes that are not a packet */
    POSK_CLOSED_UNEXPECTED = 2,    /* an unexpected packet */
    POSK_CLOSED_SESSION_LOST = 4,  /* the server lost the session */
    POSK_CLOSED_MEMORY = 6,        /* an allocation failed */
    POSK_CLOSED_WINDOW = 11,       /* a QoS 2 message does not fit the window */
    POSK_CLOSED_REFUSED = 30       /* and the return code of CONNACK, 1 to 5, added */
};

int32_t poskvari_client_new(const uint8_t *id, size_t id_size, uint16_t keep_alive,
                            uint32_t max_packet, uint16_t capacity, uint16_t window,
                            bool has_user_name, const uint8_t *user_name, size_t user_name_size,
                            bool has_password, const uint8_t *password, size_t password_size,
                            bool has_will, const uint8_t *will_topic, size_t will_topic_size,
                            const uint8_t *will_payload, size_t will_payload_size, uint8_t will_qos,
                            bool will_retain, const uint8_t *saved, size_t saved_size,
                            posk_client *client);
void poskvari_client_free(posk_client *client);
int32_t poskvari_client_connect(posk_client *client, uint64_t now, bool clean);
int32_t poskvari_client_receive(posk_client *client, uint64_t now, const uint8_t *bytes,
                                size_t size);
size_t poskvari_client_output(posk_client *client, uint8_t *out, size_t room);
int32_t poskvari_client_publish(posk_client *client, const uint8_t *topic, size_t topic_size,
                                const uint8_t *payload, size_t payload_size, uint8_t qos,
                                bool retain);
int32_t poskvari_client_subscribe(posk_client *client, const uint8_t *filter, size_t size,
                                  uint8_t qos);
int32_t poskvari_client_unsubscribe(posk_client *client, const uint8_t *filter, size_t size);
int32_t poskvari_client_next_event(posk_client *client, posk_event *event, uint8_t *out,
                                   size_t room);
int32_t poskvari_client_tick(posk_client *client, uint64_t now);
uint64_t poskvari_client_next_deadline(posk_client *client);
void poskvari_client_dropped(posk_client *client);
int32_t poskvari_client_disconnect(posk_client *client);
ptrdiff_t poskvari_client_save(posk_client *client, uint8_t *out, size_t room);
bool poskvari_client_is_idle(posk_client *client);

/* Makes a client that continues the session that posk_save wrote to `saved`, or one without a
 * session if that has no bytes. *client must be POSK_CLIENT_NONE. Returns POSK_OK, or
 * POSK_ERROR_ARGUMENT, POSK_ERROR_MEMORY, POSK_ERROR_SESSION, POSK_ERROR_ANOTHER_CLIENT or
 * POSK_ERROR_TOO_LARGE, and then *client stays POSK_CLIENT_NONE. */
static inline int posk_load(posk_client *client, const posk_options *options, const void *saved,
                            size_t size) {
    const posk_options *o = options;
    if (!client || client->at || !o || !posk_are_valid_(o) || !POSK_IS_VALID_(saved, size))
        return POSK_ERROR_ARGUMENT;
    return poskvari_client_new(
        posk_bytes_(o->id.at), o->id.size, o->keep_alive, o->max_packet ? o->max_packet : 1048576,
        o->capacity ? o->capacity : 1000, o->window, o->has_user_name,
        posk_bytes_(o->user_name.at), o->user_name.size, o->has_password,
        posk_bytes_(o->password.at), o->password.size, o->has_will, posk_bytes_(o->will_topic.at),
        o->will_topic.size, posk_bytes_(o->will_payload.at), o->will_payload.size, o->will_qos,
        o->will_retain, posk_bytes_(saved), size, client);
}

/* Makes a client without a session. *client must be POSK_CLIENT_NONE. Returns POSK_OK, or
 * POSK_ERROR_ARGUMENT or POSK_ERROR_MEMORY, and then *client stays POSK_CLIENT_NONE. */
static inline int posk_client_new(posk_client *client, const posk_options *options) {
    return posk_load(client, options, NULL, 0);
}

/* Frees a client and sets it to POSK_CLIENT_NONE. Does nothing if it is that already. */
static inline void posk_client_free(posk_client *client) {
    if (client && client->at) poskvari_client_free(client);
}

/* Begins a connection at time `now`: queues CONNECT (3.1). Call it when the socket is connected.
 * `clean` discards the session. */
static inline int posk_connect(posk_client *client, uint64_t now, bool clean) {
    if (!client || !client->at) return POSK_ERROR_ARGUMENT;
    return poskvari_client_connect(client, now, clean);
}

/* Processes bytes that the server sent, received at time `now`. Returns POSK_OK; or why the client
 * closed its end, a positive number of enum posk_close; or POSK_ERROR_EVENTS if events of an
 * earlier call were not taken, and then nothing changes. Take all events afterwards, also if the
 * end closed. */
static inline int posk_receive(posk_client *client, uint64_t now, const void *bytes, size_t size) {
    if (!client || !client->at || !POSK_IS_VALID_(bytes, size)) return POSK_ERROR_ARGUMENT;
    return poskvari_client_receive(client, now, posk_bytes_(bytes), size);
}

/* Moves bytes that must be sent to the server and that fit to the buffer, and returns their number.
 * Call it after each other call until it returns 0. */
static inline size_t posk_output(posk_client *client, void *out, size_t room) {
    if (!client || !client->at || !out) return 0;
    return poskvari_client_output(client, (uint8_t *)out, room);
}

/* Publishes a message. Returns its packet identifier, or 0 with QoS 0. A message with QoS 1 or 2 is
 * stored until it is acknowledged, also without a connection. Errors: POSK_ERROR_ARGUMENT,
 * POSK_ERROR_NOT_CONNECTED (QoS 0 only), POSK_ERROR_TOO_LARGE, POSK_ERROR_FULL,
 * POSK_ERROR_MEMORY. */
static inline int posk_publish(posk_client *client, const void *topic, size_t topic_size,
                               const void *payload, size_t payload_size, uint8_t qos, bool retain) {
    if (!client || !client->at || !POSK_IS_VALID_(topic, topic_size) ||
        !POSK_IS_VALID_(payload, payload_size))
        return POSK_ERROR_ARGUMENT;
    return poskvari_client_publish(client, posk_bytes_(topic), topic_size, posk_bytes_(payload),
                                   payload_size, qos, retain);
}

/* Subscribes to a topic filter. Returns the packet identifier, which the event
 * POSK_EVENT_SUBSCRIBED repeats. The errors are those of posk_publish. */
static inline int posk_subscribe(posk_client *client, const void *filter, size_t size,
                                 uint8_t qos) {
    if (!client || !client->at || !POSK_IS_VALID_(filter, size)) return POSK_ERROR_ARGUMENT;
    return poskvari_client_subscribe(client, posk_bytes_(filter), size, qos);
}

/* Unsubscribes from a topic filter. Returns the packet identifier, which the event
 * POSK_EVENT_UNSUBSCRIBED repeats. The errors are those of posk_publish. */
static inline int posk_unsubscribe(posk_client *client, const void *filter, size_t size) {
    if (!client || !client->at || !POSK_IS_VALID_(filter, size)) return POSK_ERROR_ARGUMENT;
    return poskvari_client_unsubscribe(client, posk_bytes_(filter), size);
}

/* Takes the next event, and writes its bytes to the buffer. The kind is POSK_EVENT_NONE if there is
 * none. Returns POSK_OK, or POSK_ERROR_ROOM if the buffer is smaller than event->size, and then the
 * event stays. */
static inline int posk_next_event(posk_client *client, posk_event *event, void *out, size_t room) {
    if (!client || !client->at || !event || !POSK_IS_VALID_(out, room)) return POSK_ERROR_ARGUMENT;
    return poskvari_client_next_event(client, event, posk_room_(out), room);
}

/* Queues a PINGREQ if the keep-alive has elapsed (3.1.2.10). Call it at posk_next_deadline.
 * Returns POSK_OK or POSK_ERROR_MEMORY. */
static inline int posk_tick(posk_client *client, uint64_t now) {
    if (!client || !client->at) return POSK_ERROR_ARGUMENT;
    return poskvari_client_tick(client, now);
}

/* The time from which posk_tick does something, or UINT64_MAX. Ask again after each other call. */
static inline uint64_t posk_next_deadline(posk_client *client) {
    if (!client || !client->at) return UINT64_MAX;
    return poskvari_client_next_deadline(client);
}

/* Reports that the connection is lost. Discards pending output; the session stays. */
static inline void posk_dropped(posk_client *client) {
    if (client && client->at) poskvari_client_dropped(client);
}

/* Queues DISCONNECT, and closes the client's end (3.14). Send the output, then close the socket.
 * Returns POSK_OK, POSK_ERROR_NOT_CONNECTED or POSK_ERROR_MEMORY. */
static inline int posk_disconnect(posk_client *client) {
    if (!client || !client->at) return POSK_ERROR_ARGUMENT;
    return poskvari_client_disconnect(client);
}

/* Writes the session to the buffer, and returns its number of bytes, or POSK_ERROR_ROOM or
 * POSK_ERROR_MEMORY. posk_load continues it. */
static inline ptrdiff_t posk_save(posk_client *client, void *out, size_t room) {
    if (!client || !client->at || !POSK_IS_VALID_(out, room)) return POSK_ERROR_ARGUMENT;
    return poskvari_client_save(client, posk_room_(out), room);
}

/* Whether each message that was published with QoS 1 or 2 is acknowledged. */
static inline bool posk_is_idle(posk_client *client) {
    return client && client->at && poskvari_client_is_idle(client);
}

#ifdef __cplusplus
}
#endif

#endif
