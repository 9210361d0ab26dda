/* Calls the functions over bytes with packets, changed packets and random bytes, each in a block of
 * its exact size, for a number of seconds: lib_fuzz SECONDS [START]. A client takes the same
 * bytes.
 *
 * lib_fuzz changed: reads packets from the standard input, a line of hexadecimal digits each.
 * Blanks don't count, and a line that begins with # is a comment. Each byte is set to each other
 * value: packets come of it that are written again as the bytes read, then an incomplete packet or
 * a fault. Cut at any place, each packet is incomplete. */
#include "lib_encode.h"
#include <stdio.h>
#include <stdlib.h>
#include <string.h>
#include <time.h>

static uint64_t state;

static uint32_t random_below(uint32_t most) {
    state ^= state << 13;
    state ^= state >> 7;
    state ^= state << 17;
    return (uint32_t)((state >> 16) % most);
}

#define CHECK(fact) \
    do { \
        if (!(fact)) { \
            printf("line %d: %s\n", __LINE__, #fact); \
            exit(1); \
        } \
    } while (0)

static bool is_within(posk_field field, size_t size) {
    return field.at <= size && field.size <= size - field.at;
}

/* The packet is written again, into a block of its size: the same bytes. */
static void encode_again(const uint8_t *bytes, const posk_fields *f) {
    for (size_t less = 0; less < 2; less++) {
        size_t room = f->size - less;
        uint8_t *out = malloc(room + 1);
        CHECK(out);
        memset(out, 0xa5, room + 1);
        ptrdiff_t size = encode(bytes, f, out, room);
        if (less)
            CHECK(size == POSK_ERROR_ROOM && out[0] == 0xa5);
        else
            CHECK(size == (ptrdiff_t)f->size && memcmp(out, bytes, f->size) == 0);
        CHECK(out[room] == 0xa5);
        free(out);
    }
}

static int look(const uint8_t *data, size_t size) {
    uint8_t *bytes = malloc(size ? size : 1);
    CHECK(bytes);
    memcpy(bytes, data, size);
    posk_fields f;
    posk_fault fault = {0, 0};
    int code = posk_packet(bytes, size, POSK_MAX_PACKET, &f, &fault);
    if (code == POSK_OK) {
        CHECK(f.kind >= 1 && f.kind <= 14 && f.size <= size && f.qos <= 2);
        CHECK(is_within(f.topic, size) && is_within(f.payload, size) && is_within(f.list, size));
        CHECK(is_within(f.client_id, size) && is_within(f.user_name, size));
        CHECK(is_within(f.password, size));
        if (f.kind == POSK_PUBLISH)
            CHECK(posk_name_check(bytes + f.topic.at, f.topic.size) == POSK_OK &&
                  f.payload.at + f.payload.size == f.size);
        encode_again(bytes, &f);
    } else if (code == POSK_ERROR_MALFORMED) {
        CHECK(fault.kind >= 1 && fault.kind <= 20 && fault.place <= size);
    } else {
        CHECK(code == POSK_MORE);
    }
    /* A lenient reader accepts the same packets and more. */
    posk_fields g;
    int32_t lenient = poskvari_packet(bytes, size, POSK_MAX_PACKET, true, &g, &fault);
    CHECK(code != POSK_OK || (lenient == POSK_OK && g.kind == f.kind && g.size == f.size));
    CHECK(code != POSK_MORE || lenient == POSK_MORE);
    posk_session_check(bytes, size);
    free(bytes);
    return code;
}

/* A client takes these bytes: its answers have at most as many bytes as came, apart from what it
 * publishes, and sends again when it connects. */
static void hear(const uint8_t *data, size_t size) {
    static posk_client client = POSK_CLIENT_NONE;
    static bool is_up;
    static size_t credit;
    const posk_options options = {
        .id = {"a", 1}, .keep_alive = 2, .max_packet = 64, .capacity = 4, .window = 3};
    uint8_t room[256];
    if (!client.at) CHECK(posk_client_new(&client, &options) == POSK_OK);
    if (!is_up) {
        posk_dropped(&client);
        CHECK(posk_connect(&client, 0, random_below(4) == 0) == POSK_OK);
        CHECK(posk_output(&client, room, sizeof room) > 0);
        is_up = true;
        credit = 0;
    }
    bool is_accepted = random_below(4) == 0;
    uint8_t *bytes = malloc(size + 4);
    CHECK(bytes);
    memcpy(bytes, is_accepted ? (const uint8_t *)"\x20\2\1\0" : data, is_accepted ? 4 : size);
    int closed = posk_receive(&client, 0, bytes, is_accepted ? 4 : size);
    free(bytes);
    CHECK(closed >= 0 && closed != POSK_CLOSED_MEMORY);
    credit += size + 4;
    for (posk_event event = {.kind = POSK_EVENT_PONG}; event.kind != POSK_EVENT_NONE;) {
        int code = posk_next_event(&client, &event, room, event.kind % 2 ? 0 : sizeof room);
        if (code == POSK_ERROR_ROOM) code = posk_next_event(&client, &event, room, event.size);
        CHECK(code == POSK_OK && event.size <= 64 && event.topic_size <= event.size);
        if (event.kind == POSK_EVENT_CONNECTED) credit += 4 * 64;
    }
    if (random_below(8) == 0) {
        int id = posk_publish(&client, "a/b", 3, data, size, (uint8_t)random_below(3), false);
        CHECK(id >= 0 || (id != POSK_ERROR_MEMORY && id != POSK_ERROR_ARGUMENT));
        credit += 16 + size;
    }
    for (size_t out; (out = posk_output(&client, room, sizeof room)) > 0; credit -= out)
        CHECK(out <= credit);
    if (closed > 0) is_up = false;
}

/* A second opinion of a match (4.7), by recursion over levels. */
static bool fits(const char *filter, const char *name) {
    if (filter[0] == '#') return true;
    if (filter[0] == '+') {
        while (*name && *name != '/') name++;
        filter++;
    } else {
        while (*filter && *filter != '/' && *filter == *name) filter++, name++;
        if (*filter && *filter != '/') return false;
        if (*name && *name != '/') return false;
    }
    if (!*filter) return !*name;
    if (!*name) return strcmp(filter, "/#") == 0;
    return fits(filter + 1, name + 1);
}

/* Random arguments give a packet that is found again, or an error. */
static void encode_random(const uint8_t *data, size_t size) {
    uint8_t out[128];
    posk_fields f;
    posk_fault fault;
    size_t cut = random_below((uint32_t)size + 1);
    uint8_t kind = (uint8_t)random_below(16), qos = (uint8_t)random_below(4);
    uint16_t id = (uint16_t)random_below(3);
    bool dup = random_below(2), retain = random_below(2);
    ptrdiff_t made[3] = {
        posk_encode_publish(data, cut, data + cut, size - cut, qos, retain, dup, id, out, 128)};
    if (made[0] > 0)
        CHECK(posk_packet(out, 128, POSK_MAX_PACKET, &f, &fault) == POSK_OK && f.id == id &&
              f.size == (size_t)made[0] && f.topic.size == cut && f.qos == qos && f.dup == dup &&
              f.retain == retain && memcmp(out + f.topic.at, data, cut) == 0);
    else
        CHECK(posk_name_check(data, cut) || qos > 2 || (qos == 0) != (id == 0) || (!qos && dup));
    made[1] = posk_encode_list(kind, id, data, size, out, 128);
    if (made[1] > 0)
        CHECK(posk_packet(out, 128, POSK_MAX_PACKET, &f, &fault) == POSK_OK && f.kind == kind &&
              f.id == id && f.list.size == size && memcmp(out + f.list.at, data, size) == 0);
    made[2] = posk_encode_connack(dup, kind, out, 128);
    CHECK(made[2] == (kind > 5 || (kind && dup) ? POSK_ERROR_ARGUMENT : 4));
    for (int i = 0; i < 3; i++) CHECK(made[i] > 0 || made[i] == POSK_ERROR_ARGUMENT);
}

static void match(void) {
    static const char *const parts[] = {"a", "b", "/", "+", "#", "$", "ab", "//"};
    char filter[32] = "", name[32] = "";
    for (uint32_t i = random_below(6); i > 0; i--) strcat(filter, parts[random_below(8)]);
    for (uint32_t i = random_below(6); i > 0; i--) strcat(name, parts[random_below(8)]);
    bool is_name = *name && !strpbrk(name, "+#");
    int name_code = posk_name_check(name, strlen(name));
    int filter_code = posk_filter_check(filter, strlen(filter));
    int code = posk_match(filter, strlen(filter), name, strlen(name));
    CHECK(name_code == (is_name ? POSK_OK : POSK_ERROR_NAME));
    if (filter_code)
        CHECK(code == filter_code);
    else if (!is_name)
        CHECK(code == POSK_ERROR_NAME);
    else
        CHECK(code == (fits(filter, name) && !(strchr("+#", filter[0]) && name[0] == '$')));
}

/* Lists that posk_add_filter makes are those of the packets. */
static void test_lists(void) {
    static const uint8_t wanted[] = "\x82\x0e\0\7\0\3a/+\1\0\3b/#\2";
    uint8_t items[12], out[16];
    size_t size = 0;
    CHECK(posk_add_filter(items, 12, &size, "a/+", 3, 1) && size == 6);
    CHECK(!posk_add_filter(items, 11, &size, "b/#", 3, 2) && size == 6);
    CHECK(posk_add_filter(items, 12, &size, "b/#", 3, 2) && size == 12);
    CHECK(posk_encode_list(POSK_SUBSCRIBE, 7, items, size, out, 16) == 16);
    CHECK(memcmp(out, wanted, 16) == 0);
    CHECK(posk_encode_list(POSK_UNSUBSCRIBE, 7, items, size, out, 16) == POSK_ERROR_ARGUMENT);
    size = 0;
    CHECK(posk_add_filter(items, 12, &size, "a/+", 3, -1) && size == 5);
    CHECK(posk_encode_list(POSK_UNSUBSCRIBE, 7, items, size, out, 16) == 9);
    CHECK(memcmp(out, "\xa2\7\0\7\0\3a/+", 9) == 0);
    CHECK(posk_encode_list(POSK_SUBACK, 7, "\1\x80", 2, out, 16) == 6);
    CHECK(posk_encode_list(POSK_SUBACK, 0, "\1\x80", 2, out, 16) == POSK_ERROR_ARGUMENT);
}

/* Finds each packet of the bytes, and writes it again. Returns the number of bytes behind them, or
 * -1 if those are faulty. */
static ptrdiff_t read_all(const uint8_t *data, size_t size) {
    uint8_t *bytes = malloc(size);
    CHECK(bytes);
    memcpy(bytes, data, size);
    posk_fields f;
    posk_fault fault;
    size_t at = 0;
    int code = POSK_OK;
    while (at < size) {
        code = posk_packet(bytes + at, size - at, POSK_MAX_PACKET, &f, &fault);
        if (code != POSK_OK) break;
        encode_again(bytes + at, &f);
        at += f.size;
    }
    free(bytes);
    CHECK(code == POSK_OK || code == POSK_MORE || code == POSK_ERROR_MALFORMED);
    return code == POSK_ERROR_MALFORMED ? -1 : (ptrdiff_t)(size - at);
}

/* The bytes of a line of digits. Returns their number. */
static size_t bytes_of_line(const char *line, uint8_t *bytes, size_t room) {
    static const char digits[] = "0123456789abcdef";
    size_t count = 0;
    for (; *line && *line != '\n'; line++) {
        if (*line == ' ') continue;
        const char *digit = strchr(digits, *line);
        CHECK(digit && count / 2 < room);
        uint8_t high = count % 2 ? bytes[count / 2] : 0;
        bytes[count / 2] = (uint8_t)(high * 16 + (digit - digits));
        count++;
    }
    CHECK(count % 2 == 0);
    return count / 2;
}

static void change_packets(void) {
    unsigned long packets = 0, changed = 0;
    char line[256];
    uint8_t bytes[64];
    while (fgets(line, sizeof line, stdin)) {
        if (*line == '#') continue;
        size_t size = bytes_of_line(line, bytes, sizeof bytes);
        CHECK(size > 0 && read_all(bytes, size) == 0);
        for (size_t cut = 1; cut < size; cut++) CHECK(read_all(bytes, cut) == (ptrdiff_t)cut);
        for (size_t place = 0; place < size; place++) {
            uint8_t was = bytes[place];
            for (unsigned more = 1; more < 256; more++, changed++) {
                bytes[place] = (uint8_t)(was + more);
                read_all(bytes, size);
            }
            bytes[place] = was;
        }
        packets++;
    }
    printf("%lu packets, %lu changed\n", packets, changed);
}

int main(int count, char **words) {
    static const char *const seeds[] = {
        "\x10\x23\0\4MQTT\4\xc6\0\x3c\0\2id\0\4gone\0\3bye\0\4name\0\2pw", "\x20\2\1\0",
        "\x3b\x0a\0\3a/b\0\7xyz", "\x40\2\0\7", "\x62\2\0\7", "\x82\x0e\0\7\0\3a/+\1\0\3b/#\2",
        "\x82\x08\0\7\0\3a/+\1", "\xa2\7\0\7\0\3a/+", "\x90\5\0\7\0\1\x80", "\xc0\0", "\xe0\0"};
    static const size_t sizes[] = {37, 4, 12, 4, 4, 16, 10, 9, 7, 2, 2};
    if (count > 1 && strcmp(words[1], "changed") == 0) {
        change_packets();
        return 0;
    }
    int seconds = count > 1 ? atoi(words[1]) : 10;
    state = count > 2 ? strtoull(words[2], NULL, 10) : 88172645463325252ull;
    time_t end = time(NULL) + seconds;
    unsigned long rounds = 0, found = 0;
    test_lists();
    while (!rounds || rounds % 1024 || time(NULL) < end) {
        uint8_t data[64];
        uint32_t seed = random_below(12);
        size_t size = seed < 11 ? sizes[seed] : random_below(24);
        if (seed < 11) memcpy(data, seeds[seed], size);
        else for (size_t i = 0; i < size; i++) data[i] = (uint8_t)random_below(256);
        for (uint32_t i = random_below(4); i > 0 && size; i--)
            data[random_below((uint32_t)size)] = (uint8_t)random_below(256);
        if (random_below(4) == 0) size = random_below((uint32_t)size + 1);
        found += look(data, size) == POSK_OK;
        hear(data, size);
        encode_random(data, size);
        match();
        rounds++;
    }
    printf("%lu rounds, %lu packets\n", rounds, found);
    return found == 0;
}
