/*
 * Control packets of MQTT 3.1.1 in plain C, next to the library libposkvari. Nothing of the plain C
 * is proved.
 *
 * Looked at: each packet is found and tested without a copy. Tested are the type and its flags,
 * the remaining length, UTF-8 and U+0000 of every text, wildcards of names and filters,
 * identifiers, the flags of CONNECT, codes, lists, and that a packet has no bytes left. The library
 * does the same in `posk_packet`.
 *
 * Owned: after the same tests each text, payload, binary and list is copied to memory of its own.
 * The packets of 65,536 bytes are kept in a list and then freed. A client of the library does the
 * same for the messages of a piece, hands each out, and queues its PUBACK.
 *
 * Encoded: the same tests of the fields, and then the bytes, by plain C and by `posk_encode_..`.
 *
 *     make bench-c      plain C alone
 *     make bench-lib    both, with WITH_LIBRARY
 *
 * Times are of the processor. A scan (the sum of all bytes) is timed in the same run.
 */
#define _POSIX_C_SOURCE 200809L
#include <stdbool.h>
#include <stdint.h>
#include <stdio.h>
#include <stdlib.h>
#include <string.h>
#include <time.h>
#ifdef WITH_LIBRARY
#include <poskvari.h>
#endif

#ifndef STREAM
#define STREAM 64000000u
#endif
#define ROUNDS 5
#define LIMIT 268435455u

/* ---- reading */

/* The bytes of a packet that are still to be read. */
struct fields {
    const uint8_t *at;
    size_t left;
};

/* A text or binary data that lies in a packet. */
struct part {
    const uint8_t *at;
    size_t size;
};

/* The fields of a packet, which are not copied. */
struct packet {
    uint8_t first;
    uint16_t id;
    struct part name;
    struct part rest;
    size_t size;
};

static bool take_byte(struct fields *fields, uint8_t *byte)
{
    if (fields->left < 1)
        return false;
    *byte = fields->at[0];
    fields->at += 1;
    fields->left -= 1;
    return true;
}

static bool take_number(struct fields *fields, uint16_t *number)
{
    if (fields->left < 2)
        return false;
    *number = (uint16_t)(fields->at[0] << 8 | fields->at[1]);
    fields->at += 2;
    fields->left -= 2;
    return true;
}

static bool take_id(struct fields *fields, uint16_t *id)
{
    return take_number(fields, id) && *id != 0;
}

static bool take_part(struct fields *fields, struct part *part)
{
    uint16_t size;
    if (!take_number(fields, &size) || fields->left < size)
        return false;
    part->at = fields->at;
    part->size = size;
    fields->at += size;
    fields->left -= size;
    return true;
}

/* The number of bytes of the first code point (Unicode 3.9, table 3-7); 0 if there is none, and for U+0000. */
static size_t code_point(const uint8_t *at, size_t left)
{
    uint8_t first = at[0], least = 0x80, most = 0xbf;
    size_t size, i;
    if (first < 0x80)
        return first != 0;
    if (first < 0xc2 || first > 0xf4)
        return 0;
    size = first < 0xe0 ? 2 : first < 0xf0 ? 3 : 4;
    if (left < size)
        return 0;
    if (first == 0xe0)
        least = 0xa0;
    if (first == 0xed)
        most = 0x9f;
    if (first == 0xf0)
        least = 0x90;
    if (first == 0xf4)
        most = 0x8f;
    if (at[1] < least || at[1] > most)
        return 0;
    for (i = 2; i < size; i++)
        if ((at[i] & 0xc0) != 0x80)
            return 0;
    return size;
}

/* Whether these are UTF-8 without U+0000, and, in a name, without wildcards: one after another. */
static bool is_text_slowly(struct part part, bool is_name)
{
    size_t i = 0, size;
    while (i < part.size) {
        if (is_name && (part.at[i] == '+' || part.at[i] == '#'))
            return false;
        size = code_point(part.at + i, part.size - i);
        if (size == 0)
            return false;
        i += size;
    }
    return true;
}

/* Of eight bytes at once: the high bit of each that is not ASCII, or this one. */
static uint64_t equal_or_high(uint64_t bytes, uint8_t one)
{
    uint64_t other = bytes ^ 0x0101010101010101u * one;
    uint64_t no = (other & 0x7f7f7f7f7f7f7f7fu) + 0x7f7f7f7f7f7f7f7fu;
    return (bytes | ~(no | other)) & 0x8080808080808080u;
}

/* The same as above; plain ASCII is skipped eight bytes at a time. */
static bool is_text(struct part part, bool is_name)
{
    uint64_t bytes, odd = 0;
    size_t i;
    if (part.size < 8)
        return is_text_slowly(part, is_name);
    for (i = 0; i < part.size; i += 8) {
        memcpy(&bytes, part.at + (i + 8 <= part.size ? i : part.size - 8), 8);
        odd |= equal_or_high(bytes, 0);
        if (is_name)
            odd |= equal_or_high(bytes, '+') | equal_or_high(bytes, '#');
    }
    return odd == 0 || is_text_slowly(part, is_name);
}

static bool take_text(struct fields *fields, struct part *text)
{
    return take_part(fields, text) && is_text(*text, false);
}

static bool take_name(struct fields *fields, struct part *name)
{
    return take_part(fields, name) && name->size > 0 && is_text(*name, true);
}

/* A filter (4.7.1): `+` fills its level, and `#` the last one. */
static bool take_filter(struct fields *fields)
{
    struct part filter;
    size_t i;
    if (!take_text(fields, &filter) || filter.size == 0)
        return false;
    for (i = 0; i < filter.size; i++) {
        bool is_first = i == 0 || filter.at[i - 1] == '/';
        bool is_end = i + 1 == filter.size;
        if (filter.at[i] == '+' && !(is_first && (is_end || filter.at[i + 1] == '/')))
            return false;
        if (filter.at[i] == '#' && !(is_first && is_end))
            return false;
    }
    return true;
}

static bool take_connect(struct fields *fields, struct packet *packet)
{
    struct part part;
    uint8_t level, flags;
    uint16_t keep_alive;
    packet->rest.at = fields->at;
    if (!take_text(fields, &part) || part.size != 4 || memcmp(part.at, "MQTT", 4) != 0)
        return false;
    if (!take_byte(fields, &level) || level != 4 || !take_byte(fields, &flags) || (flags & 1))
        return false;
    if ((flags & 4) ? (flags >> 3 & 3) == 3 : (flags & 0x38) != 0)
        return false;
    if (!(flags & 0x80) && (flags & 0x40))
        return false;
    if (!take_number(fields, &keep_alive) || !take_text(fields, &packet->name))
        return false;
    if ((flags & 4) && !(take_name(fields, &part) && take_part(fields, &part)))
        return false;
    if ((flags & 0x80) && !take_text(fields, &part))
        return false;
    if ((flags & 0x40) && !take_part(fields, &part))
        return false;
    packet->id = keep_alive;
    packet->rest.size = (size_t)(fields->at - packet->rest.at);
    return fields->left == 0;
}

static bool take_connack(struct fields *fields, struct packet *packet)
{
    uint8_t present, code;
    if (!take_byte(fields, &present) || present > 1 || !take_byte(fields, &code))
        return false;
    packet->id = code;
    return code <= (present ? 0 : 5);
}

static bool take_publish(struct fields *fields, struct packet *packet)
{
    if (!take_name(fields, &packet->name))
        return false;
    if ((packet->first & 6) && !take_id(fields, &packet->id))
        return false;
    packet->rest.at = fields->at;
    packet->rest.size = fields->left;
    return true;
}

/* SUBSCRIBE, SUBACK and UNSUBSCRIBE: an identifier, and at least one item. */
static bool take_list(struct fields *fields, struct packet *packet)
{
    uint8_t code = 0;
    if (!take_id(fields, &packet->id) || fields->left == 0)
        return false;
    packet->rest.at = fields->at;
    packet->rest.size = fields->left;
    while (fields->left > 0) {
        if (packet->first != 0x90 && !take_filter(fields))
            return false;
        if (packet->first != 0xa2 && !take_byte(fields, &code))
            return false;
        if (code > 2 && !(packet->first == 0x90 && code == 0x80))
            return false;
    }
    return true;
}

/* Whether these are all the fields of the packet. */
static bool take_fields(struct fields *fields, struct packet *packet)
{
    switch (packet->first) {
    case 0x10:
        return take_connect(fields, packet);
    case 0x20:
        return fields->left == 2 && take_connack(fields, packet);
    case 0x40: case 0x50: case 0x62: case 0x70: case 0xb0:
        return fields->left == 2 && take_id(fields, &packet->id);
    case 0x82: case 0x90: case 0xa2:
        return take_list(fields, packet);
    case 0xc0: case 0xd0: case 0xe0:
        return fields->left == 0;
    default:
        /* PUBLISH (3.3.1): no quality of service of 3, and no DUP without one */
        if (packet->first >> 4 != 3 || (packet->first & 6) == 6 || (packet->first & 14) == 8)
            return false;
        return take_publish(fields, packet);
    }
}

/* The packet at the front; without a size if it is incomplete or faulty. */
static struct packet packet_at(const uint8_t *bytes, size_t count)
{
    struct packet packet = {0}, none = {0};
    struct fields fields;
    uint32_t size = 0;
    size_t at = 1, digit = 0;
    do {
        if (digit == 4 || at == count)
            return none;
        size |= (uint32_t)(bytes[at] & 127) << 7 * digit++;
    } while (bytes[at++] >= 128);
    if ((digit > 1 && bytes[at - 1] == 0) || size > LIMIT || count - at < size)
        return none;
    packet.first = bytes[0];
    fields.at = bytes + at;
    fields.left = size;
    if (!take_fields(&fields, &packet))
        return none;
    packet.size = at + size;
    return packet;
}

/* ---- packets that own their fields */

#define PIECE 65536u

/* An item of a list: a filter (none in SUBACK) and a code (none in UNSUBSCRIBE). */
struct item {
    uint8_t *filter;
    size_t size;
    uint8_t code;
};

/* A packet whose texts, payload and lists are in memory of its own. CONNECT: at most five parts. */
struct owned {
    uint8_t first;
    uint8_t flags;
    uint16_t id;
    struct part name;
    struct part rest;
    struct part *parts;
    struct item *items;
    size_t count;
};

/* The packets of a piece. */
struct packets {
    struct owned *all;
    size_t count, room;
};

static void *take_memory(size_t size)
{
    void *memory = malloc(size > 0 ? size : 1);
    if (memory == NULL) {
        fputs("out of memory\n", stderr);
        exit(3);
    }
    return memory;
}

static struct part copy_of(struct part part)
{
    uint8_t *memory = take_memory(part.size);
    struct part copy = {memory, part.size};
    memcpy(memory, part.at, part.size);
    return copy;
}

/* The client identifier, the will, the user name and the password, which were tested. */
static void own_connect(struct owned *owned, struct part body)
{
    struct fields fields = {body.at + 10, body.size - 10};
    struct part part;
    owned->flags = body.at[7];
    owned->parts = take_memory(5 * sizeof *owned->parts);
    while (fields.left > 0 && owned->count < 5 && take_part(&fields, &part))
        owned->parts[owned->count++] = copy_of(part);
}

/* The items of a list, which were tested. */
static void own_list(struct owned *owned, struct part list)
{
    struct fields fields = {list.at, list.size};
    struct part filter;
    size_t room = 4;
    owned->items = take_memory(room * sizeof *owned->items);
    while (fields.left > 0) {
        struct item item = {NULL, 0, 0};
        if (owned->first != 0x90 && take_part(&fields, &filter)) {
            struct part copy = copy_of(filter);
            item.filter = (uint8_t *)copy.at;
            item.size = copy.size;
        }
        if (owned->first != 0xa2)
            take_byte(&fields, &item.code);
        if (owned->count == room) {
            struct item *more = take_memory(2 * room * sizeof *more);
            memcpy(more, owned->items, room * sizeof *more);
            free(owned->items);
            owned->items = more;
            room *= 2;
        }
        owned->items[owned->count++] = item;
    }
}

static struct owned own(const struct packet *packet)
{
    struct owned owned = {0};
    owned.first = packet->first;
    owned.id = packet->id;
    switch (packet->first >> 4) {
    case 1:
        own_connect(&owned, packet->rest);
        break;
    case 3:
        owned.name = copy_of(packet->name);
        owned.rest = copy_of(packet->rest);
        break;
    case 8: case 9: case 10:
        own_list(&owned, packet->rest);
        break;
    }
    return owned;
}

static void let_go(struct owned *owned)
{
    free((void *)owned->name.at);
    free((void *)owned->rest.at);
    for (size_t i = 0; i < owned->count; i++)
        free(owned->parts != NULL ? (void *)owned->parts[i].at : owned->items[i].filter);
    free(owned->parts);
    free(owned->items);
}

static void keep(struct packets *packets, struct owned owned)
{
    if (packets->count == packets->room) {
        size_t room = packets->room > 0 ? 2 * packets->room : 16;
        struct owned *more = realloc(packets->all, room * sizeof *more);
        if (more == NULL) {
            fputs("out of memory\n", stderr);
            exit(3);
        }
        packets->all = more;
        packets->room = room;
    }
    packets->all[packets->count++] = owned;
}

static void clear(struct packets *packets)
{
    for (size_t i = 0; i < packets->count; i++)
        let_go(&packets->all[i]);
    packets->count = 0;
}

/* How many packets there are, all of them whole, each of them owned until those of some 65,536 bytes are there. */
static __attribute__((noinline)) uint64_t own_all(const uint8_t *bytes, size_t count, uint64_t *sum)
{
    struct packets packets = {NULL, 0, 0};
    uint64_t all = 0;
    size_t gone = 0;
    while (count > 0) {
        struct packet packet = packet_at(bytes, count);
        if (packet.size == 0)
            break;
        keep(&packets, own(&packet));
        *sum += packet.first;
        bytes += packet.size;
        count -= packet.size;
        gone += packet.size;
        all++;
        if (gone >= PIECE) {
            clear(&packets);
            gone = 0;
        }
    }
    clear(&packets);
    free(packets.all);
    return count == 0 ? all : 0;
}

/* How many packets there are, all of them whole; what lies in them goes into a sum, so that it is read. */
static __attribute__((noinline)) uint64_t read_all(const uint8_t *bytes, size_t count, uint64_t *sum)
{
    uint64_t packets = 0;
    while (count > 0) {
        struct packet packet = packet_at(bytes, count);
        if (packet.size == 0)
            break;
        *sum += packet.first + packet.id + packet.name.size + packet.rest.size;
        bytes += packet.size;
        count -= packet.size;
        packets++;
    }
    return count == 0 ? packets : 0;
}

/* ---- encoding */

/* A multiple of seven, so that whole turns of `small` are encoded. */
#define ENCODED 1022

/* Writes the first byte and the remaining length if the packet fits; returns the bytes of both. */
static size_t encode_header(uint8_t first, size_t size, uint8_t *out, size_t room)
{
    size_t at = 1, rest = size;
    uint8_t length[4];
    if (size > LIMIT)
        return 0;
    do {
        length[at - 1] = (uint8_t)(rest & 127);
        rest >>= 7;
        if (rest > 0)
            length[at - 1] |= 128;
        at++;
    } while (rest > 0);
    if (room < at + size)
        return 0;
    out[0] = first;
    memcpy(out + 1, length, at - 1);
    return at;
}

static uint8_t *encode_number(uint8_t *out, uint16_t number)
{
    out[0] = (uint8_t)(number >> 8);
    out[1] = (uint8_t)number;
    return out + 2;
}

/* A valid PUBLISH or packet of two or four bytes; 0 if it is none or does not fit. */
static size_t encode(const struct packet *packet, uint8_t *out, size_t room)
{
    bool is_publish = packet->first >> 4 == 3;
    bool has_id = is_publish ? (packet->first & 6) != 0 : packet->first < 0xc0;
    size_t size = (has_id ? 2 : 0), start;
    uint8_t *at;
    if (has_id && packet->id == 0)
        return 0;
    if (is_publish) {
        if ((packet->first & 6) == 6 || (packet->first & 14) == 8)
            return 0;
        if (packet->name.size == 0 || packet->name.size > 65535 || !is_text(packet->name, true))
            return 0;
        size += 2 + packet->name.size + packet->rest.size;
    }
    start = encode_header(packet->first, size, out, room);
    if (start == 0)
        return 0;
    at = out + start;
    if (is_publish) {
        at = encode_number(at, (uint16_t)packet->name.size);
        memcpy(at, packet->name.at, packet->name.size);
        at += packet->name.size;
    }
    if (has_id)
        at = encode_number(at, packet->id);
    if (is_publish)
        memcpy(at, packet->rest.at, packet->rest.size);
    return start + size;
}

/* The first packets of a stream, which are encoded again. */
static struct packet encoded[ENCODED];
static uint8_t encoded_bytes[70000];

/* Encodes the first ENCODED packets over and over, as many times as the stream has packets. */
static __attribute__((noinline)) uint64_t encode_all(const uint8_t *bytes, size_t count, uint64_t *sum)
{
    uint64_t packets = 0;
    for (size_t i = 0; count > 0; i = (i + 1) % ENCODED) {
        size_t size = encode(&encoded[i], encoded_bytes, sizeof encoded_bytes);
        if (size == 0 || size > count)
            return 0;
        *sum += encoded_bytes[0];
        count -= size;
        packets++;
    }
    (void)bytes;
    return packets;
}

#ifdef WITH_LIBRARY
/* The same, where the library finds each packet. */
static __attribute__((noinline)) uint64_t read_by_library(const uint8_t *bytes, size_t count, uint64_t *sum)
{
    uint64_t packets = 0;
    posk_fields fields;
    posk_fault fault;
    while (count > 0 && posk_packet(bytes, count, LIMIT, &fields, &fault) == POSK_OK) {
        *sum += fields.kind + fields.id + fields.topic.size + fields.payload.size;
        bytes += fields.size;
        count -= fields.size;
        packets++;
    }
    return count == 0 ? packets : 0;
}

static ptrdiff_t encode_one(const struct packet *packet)
{
    uint8_t first = packet->first, *out = encoded_bytes;
    size_t room = sizeof encoded_bytes;
    if (first >> 4 == 3)
        return posk_encode_publish(packet->name.at, packet->name.size, packet->rest.at,
                                   packet->rest.size, first >> 1 & 3, first & 1, (first & 8) != 0,
                                   packet->id, out, room);
    if (first < 0xc0)
        return posk_encode_acknowledgement(first >> 4, packet->id, out, room);
    return posk_encode_bare(first >> 4, out, room);
}

/* The same as encode_all, where the library encodes each packet. */
static __attribute__((noinline)) uint64_t encode_by_library(const uint8_t *bytes, size_t count, uint64_t *sum)
{
    uint64_t packets = 0;
    for (size_t i = 0; count > 0; i = (i + 1) % ENCODED) {
        ptrdiff_t size = encode_one(&encoded[i]);
        if (size <= 0 || (size_t)size > count)
            return 0;
        *sum += encoded_bytes[0];
        count -= (size_t)size;
        packets++;
    }
    (void)bytes;
    return packets;
}

static uint8_t client_room[200000];

/* Takes the messages of a piece and the pending output. */
static uint64_t take_messages(posk_client *client, uint64_t *sum)
{
    uint64_t messages = 0;
    posk_event event;
    while (posk_next_event(client, &event, client_room, sizeof client_room) == POSK_OK) {
        if (event.kind == POSK_EVENT_NONE)
            break;
        messages += event.kind == POSK_EVENT_MESSAGE;
        *sum += event.size;
    }
    while (posk_output(client, client_room, sizeof client_room) > 0)
        continue;
    return messages;
}

/* The messages of a stream, in pieces, to a client. */
static __attribute__((noinline)) uint64_t feed_to_client(const uint8_t *bytes, size_t count, uint64_t *sum)
{
    posk_client client = POSK_CLIENT_NONE;
    posk_options options = {.id = {"c", 1}};
    uint64_t messages = 0;
    if (posk_client_new(&client, &options) || posk_connect(&client, 0, true))
        return 0;
    take_messages(&client, sum);
    if (posk_receive(&client, 0, "\x20\x02\0", 4) == POSK_OK) {
        take_messages(&client, sum);
        for (size_t at = 0; at < count; at += PIECE) {
            size_t size = count - at < PIECE ? count - at : PIECE;
            if (posk_receive(&client, 0, bytes + at, size))
                break;
            messages += take_messages(&client, sum);
        }
    }
    posk_client_free(&client);
    return messages;
}
#endif

static __attribute__((noinline)) uint64_t scan(const uint8_t *bytes, size_t count)
{
    uint64_t sum = 0;
    for (size_t i = 0; i < count; i++)
        sum += bytes[i];
    return sum;
}

/* ---- the streams */

struct buffer {
    uint8_t *bytes;
    size_t count, room;
    uint64_t packets;
};

static void put(struct buffer *out, const void *bytes, size_t count)
{
    if (out->room - out->count < count) {
        fputs("a turn is too long\n", stderr);
        exit(1);
    }
    memcpy(out->bytes + out->count, bytes, count);
    out->count += count;
}

static void put_byte(struct buffer *out, unsigned byte)
{
    uint8_t one = (uint8_t)byte;
    put(out, &one, 1);
}

static void put_number(struct buffer *out, unsigned number)
{
    put_byte(out, number >> 8 & 255);
    put_byte(out, number & 255);
}

static void put_header(struct buffer *out, unsigned first, size_t size)
{
    put_byte(out, first);
    do {
        put_byte(out, (unsigned)(size & 127) | (size > 127 ? 128 : 0));
        size >>= 7;
    } while (size > 0);
    out->packets++;
}

static void put_text(struct buffer *out, const char *text)
{
    put_number(out, (unsigned)strlen(text));
    put(out, text, strlen(text));
}

static void put_made_up(struct buffer *out, size_t size)
{
    for (size_t place = 0; place < size; place++)
        put_byte(out, (unsigned)(place % 251));
}

static void put_with_id(struct buffer *out, unsigned first, unsigned id)
{
    put_header(out, first, 2);
    put_number(out, id);
}

static void put_publish(struct buffer *out, unsigned id, size_t size)
{
    static const char topic[] = "greenhouse/4/north/temperature/c";
    put_header(out, 0x32, 2 + strlen(topic) + 2 + size);
    put_text(out, topic);
    put_number(out, id);
    put_made_up(out, size);
}

static void put_publishes(struct buffer *out, unsigned count, size_t size, bool is_acknowledged)
{
    for (unsigned id = 1; id <= count; id++) {
        put_publish(out, id, size);
        if (is_acknowledged)
            put_with_id(out, 0x40, id);
    }
}

static void put_small(struct buffer *out)
{
    for (unsigned id = 1; id <= 1024; id++) {
        put_with_id(out, 0x40, id);
        put_with_id(out, 0x50, id);
        put_with_id(out, 0x62, id);
        put_with_id(out, 0x70, id);
        put_header(out, 0xc0, 0);
        put_header(out, 0xd0, 0);
        put_header(out, 0xe0, 0);
    }
}

static void put_session(struct buffer *out)
{
    static const char *const filters[] = {"greenhouse/+/north/#", "greenhouse/4/+/temperature/c", "alarm/#"};
    put_header(out, 0x10, 10 + 20 + 19 + 18 + 12 + 26);
    put_text(out, "MQTT");
    put_byte(out, 4);
    put_byte(out, 0xee);
    put_number(out, 60);
    put_text(out, "greenhouse-4-north");
    put_text(out, "greenhouse/4/gone");
    put_number(out, 16);
    put_made_up(out, 16);
    put_text(out, "greenhouse");
    put_number(out, 24);
    put_made_up(out, 24);
    put_header(out, 0x20, 2);
    put_number(out, 0);
    put_header(out, 0x82, 2 + 23 + 31 + 10);
    put_number(out, 1);
    for (size_t i = 0; i < 3; i++) {
        put_text(out, filters[i]);
        put_byte(out, 1);
    }
    put_header(out, 0x90, 5);
    put_number(out, 1);
    for (size_t i = 0; i < 3; i++)
        put_byte(out, 1);
}

static bool put_turn(struct buffer *out, const char *name)
{
    if (strcmp(name, "small") == 0)
        put_small(out);
    else if (strcmp(name, "publish16") == 0)
        put_publishes(out, 1024, 16, false);
    else if (strcmp(name, "publish1024") == 0)
        put_publishes(out, 64, 1024, false);
    else if (strcmp(name, "publish65536") == 0)
        put_publishes(out, 1, 65536, false);
    else if (strcmp(name, "mixed") == 0) {
        put_session(out);
        put_publishes(out, 256, 16, true);
        put_publishes(out, 32, 1024, true);
        put_publishes(out, 1, 65536, true);
    } else
        return false;
    return true;
}

/* ---- measuring */

static double now(void)
{
    struct timespec time;
    clock_gettime(CLOCK_PROCESS_CPUTIME_ID, &time);
    return (double)time.tv_sec + (double)time.tv_nsec * 1e-9;
}

static int compare(const void *a, const void *b)
{
    double x = *(const double *)a, y = *(const double *)b;
    return (x > y) - (x < y);
}

/* One of the two works over the packets. */
typedef uint64_t (*work)(const uint8_t *, size_t, uint64_t *);

/* The median of the times of a work; below 0 if it does not reach the stream's end. */
static double time_of(work work, const struct buffer *stream, uint64_t packets, uint64_t *sum)
{
    double times[ROUNDS];
    for (int round = 0; round < ROUNDS; round++) {
        double start = now();
        if (work(stream->bytes, stream->count, sum) != packets)
            return -1;
        times[round] = now() - start;
    }
    qsort(times, ROUNDS, sizeof *times, compare);
    return times[ROUNDS / 2];
}

static void print_row(const char *name, const char *what, const struct buffer *stream, uint64_t packets, double scan, double time)
{
    printf("%-14s %-11s %9.2f ns a packet %8.0f MB/s %12.0f packets/s   %.3f of its scan\n", name, what,
           time * 1e9 / (double)packets, (double)stream->count / time / 1e6, (double)packets / time, scan / time);
}

/* Keeps the first packets of a stream to encode them again. */
static bool keep_first(const struct buffer *stream)
{
    size_t at = 0;
    for (size_t i = 0; i < ENCODED; i++) {
        encoded[i] = packet_at(stream->bytes + at, stream->count - at);
        at += encoded[i].size;
        if (encoded[i].size == 0 || at >= stream->count)
            at = 0;
    }
    return encoded[ENCODED - 1].size > 0;
}

#ifdef WITH_LIBRARY
static void compare_one(const char *name, const char *what, work work, const struct buffer *stream, uint64_t packets, double scan, double plain)
{
    uint64_t sum = 0;
    double time = plain < 0 ? -1 : time_of(work, stream, packets, &sum);
    if (time < 0)
        return;
    print_row(name, what, stream, packets, scan, time);
    printf("%-14s the library takes %.2f of plain C (%s)\n", name, time / plain, what);
}

static void compare_with_library(const char *name, const struct buffer *stream, uint64_t packets, double scan, double looked, double owned, double written)
{
    compare_one(name, "posk_packet", read_by_library, stream, packets, scan, looked);
    if (strncmp(name, "publish", 7) == 0)
        compare_one(name, "client", feed_to_client, stream, packets, scan, owned);
    compare_one(name, "posk_encode", encode_by_library, stream, packets, scan, written);
}
#endif

static bool measure(struct buffer *stream, const char *name)
{
    double scans[ROUNDS], looked, owned;
    uint64_t sum = 0, packets;
    size_t turn, turns;
    stream->count = 0;
    stream->packets = 0;
    if (!put_turn(stream, name)) {
        fprintf(stderr, "same_tests: cannot measure %s\n", name);
        return false;
    }
    turn = stream->count;
    turns = STREAM / turn;
    packets = stream->packets * turns;
    for (size_t i = 1; i < turns; i++)
        put(stream, stream->bytes, turn);
    for (int round = 0; round < ROUNDS; round++) {
        double start = now();
        sum += scan(stream->bytes, stream->count);
        scans[round] = now() - start;
    }
    qsort(scans, ROUNDS, sizeof *scans, compare);
    looked = time_of(read_all, stream, packets, &sum);
    owned = time_of(own_all, stream, packets, &sum);
    if (looked < 0 || owned < 0) {
        fprintf(stderr, "same_tests: %s is not read to its end\n", name);
        return false;
    }
    print_row(name, "looked at", stream, packets, scans[ROUNDS / 2], looked);
    print_row(name, "owned", stream, packets, scans[ROUNDS / 2], owned);
    double written = strcmp(name, "mixed") != 0 && keep_first(stream) ? time_of(encode_all, stream, packets, &sum) : -1;
    if (written >= 0)
        print_row(name, "encoded", stream, packets, scans[ROUNDS / 2], written);
#ifdef WITH_LIBRARY
    compare_with_library(name, stream, packets, scans[ROUNDS / 2], looked, owned, written);
#endif
    printf("%-14s the sum is %llu\n", name, (unsigned long long)sum);
    return true;
}

int main(int count, char **words)
{
    static const char *const all[] = {"small", "publish16", "publish1024", "publish65536", "mixed"};
    struct buffer stream = {malloc(STREAM + 200000), 0, STREAM + 200000, 0};
    bool is_done = true;
    if (stream.bytes == NULL)
        return 3;
    if (count == 1)
        for (size_t i = 0; i < 5; i++)
            is_done &= measure(&stream, all[i]);
    for (int i = 1; i < count; i++)
        is_done &= measure(&stream, words[i]);
    free(stream.bytes);
    return is_done ? 0 : 1;
}
