/* Reads the rows of .ci/packet_rows from the standard input, and prints those whose outcome differs
 * and the number of rows: lib_rows < .ci/packet_rows. Each outcome is that of posk_packet, for
 * bytes in a block of their exact size; that of `fields` is the fields of the packet. */
#include "lib_encode.h"
#include <stdarg.h>
#include <stdio.h>
#include <stdlib.h>
#include <string.h>

enum { ROOM = 65536 };

/* The limit of a list. */
static uint32_t max_packet;
static bool is_lenient;

static void fail(const char *what) {
    printf("rows: %s\n", what);
    exit(1);
}

static void *block(size_t size) {
    void *found = malloc(size ? size : 1);
    if (!found) fail("out of memory");
    return found;
}

/* Whether the packet is encoded as these bytes. */
static bool is_encoded(const uint8_t *bytes, const posk_fields *fields) {
    uint8_t *out = block(fields->size);
    ptrdiff_t size = encode(bytes, fields, out, fields->size);
    bool same = size == (ptrdiff_t)fields->size && memcmp(out, bytes, fields->size) == 0;
    free(out);
    return same;
}

/* Writes the outcome of bytes: the packets, and the incomplete packet or the fault behind them. */
static void outcome(const uint8_t *data, size_t size, size_t before, char *text, size_t room) {
    uint8_t *bytes = block(size);
    memcpy(bytes, data, size);
    size_t at = 0, packets = 0;
    int code = POSK_OK;
    bool same = true;
    posk_fields fields;
    posk_fault fault = {0, 0};
    while (at < size) {
        code = poskvari_packet(bytes + at, size - at, max_packet, is_lenient, &fields, &fault);
        if (code != POSK_OK) break;
        same = is_encoded(bytes + at, &fields) && same;
        at += fields.size;
        packets++;
    }
    free(bytes);
    if (packets < before) fail("a packet before the bytes was not found");
    packets -= before;
    if (code == POSK_ERROR_MALFORMED)
        snprintf(text, room, "%zu F%u %zu", packets, fault.kind, fault.place);
    else
        snprintf(text, room, "%zu held %zu", packets, size - at);
    if (!same) strcat(text, ", encoded otherwise");
}

static void append(char *text, size_t room, const char *format, ...) {
    size_t size = strlen(text);
    va_list values;
    va_start(values, format);
    vsnprintf(text + size, room - size, format, values);
    va_end(values);
}

/* Appends a field as text, or as hexadecimal digits behind a `#`. */
static void append_field(char *text, size_t room, const uint8_t *bytes, posk_field field,
                         bool is_text) {
    append(text, room, is_text ? " " : " #");
    for (size_t i = field.at; i < field.at + field.size; i++)
        append(text, room, is_text ? "%c" : "%02x", bytes[i]);
}

static void append_message(char *text, size_t room, const uint8_t *bytes, const posk_fields *f) {
    append_field(text, room, bytes, f->topic, true);
    append_field(text, room, bytes, f->payload, false);
    append(text, room, " qos %u%s", f->qos, f->retain ? " retain" : "");
}

static void append_connect(char *text, size_t room, const uint8_t *bytes, const posk_fields *f) {
    append_field(text, room, bytes, f->client_id, true);
    append(text, room, "%s %u", f->clean_session ? " clean" : "", f->keep_alive);
    if (f->has_will) append_message(text, room, bytes, f);
    if (f->has_user_name) append_field(text, room, bytes, f->user_name, true);
    if (f->has_password) append_field(text, room, bytes, f->password, false);
}

static void append_list(char *text, size_t room, const uint8_t *bytes, const posk_fields *f) {
    size_t at = f->list.at;
    posk_field filter;
    uint8_t qos = 0;
    if (f->kind == POSK_SUBACK)
        for (; at < f->list.at + f->list.size; at++) append(text, room, " %u", bytes[at]);
    else
        while (posk_next_filter(bytes, f, &at, &filter, &qos)) {
            append_field(text, room, bytes, filter, true);
            if (f->kind == POSK_SUBSCRIBE) append(text, room, " %u", qos);
        }
}

/* Writes the fields of a packet: its type, its identifier, and the others. */
static void write_fields(const uint8_t *data, size_t size, char *text, size_t room) {
    uint8_t *bytes = block(size);
    memcpy(bytes, data, size);
    posk_fields f;
    posk_fault fault;
    if (posk_packet(bytes, size, max_packet, &f, &fault) != POSK_OK || f.size != size)
        fail("the bytes are no packet");
    snprintf(text, room, "%u", f.kind);
    if (f.id) append(text, room, " id %u%s", f.id, f.dup ? " dup" : "");
    if (f.kind == POSK_CONNECT) append_connect(text, room, bytes, &f);
    if (f.kind == POSK_CONNACK) append(text, room, " %u %u", f.session_present, f.code);
    if (f.kind == POSK_PUBLISH) append_message(text, room, bytes, &f);
    append_list(text, room, bytes, &f);
    if (!is_encoded(bytes, &f)) append(text, room, ", encoded otherwise");
    free(bytes);
}

/* The value of a digit, or 16. */
static unsigned digit(char glyph) {
    const char *digits = "0123456789abcdef", *found = glyph ? strchr(digits, glyph) : NULL;
    return found ? (unsigned)(found - digits) : 16;
}

/* The bytes of a field, `78` or `78*60`, behind `size` bytes. Returns the number of all. */
static size_t add_field(const char *field, uint8_t *bytes, size_t size) {
    const char *star = strchr(field, '*');
    size_t length = star ? (size_t)(star - field) : strlen(field);
    long times = star ? strtol(star + 1, NULL, 10) : 1;
    if (length % 2) fail(field);
    for (; times > 0; times--)
        for (size_t i = 0; i < length; i += 2) {
            unsigned high = digit(field[i]), low = digit(field[i + 1]);
            if (high > 15 || low > 15 || size == ROOM) fail(field);
            bytes[size++] = (uint8_t)(high * 16 + low);
        }
    return size;
}

static void set_limit(char *text) {
    is_lenient = strncmp(text, "lenient ", 8) == 0;
    max_packet = (uint32_t)strtoul(text + (is_lenient ? 8 : 0), NULL, 10);
}

/* Whether each front of the bytes is an incomplete packet, and the bytes have the same outcome
 * between a PINGREQ and the first byte of another one. */
static bool is_last(const uint8_t *bytes, size_t size, const char *wanted) {
    static uint8_t among[ROOM + 3];
    char text[128], held[128];
    for (size_t front = 0; front < size; front++) {
        outcome(bytes, front, 0, text, sizeof text);
        snprintf(held, sizeof held, "0 held %zu", front);
        if (strcmp(text, held)) return false;
    }
    memcpy(among, "\xc0\0", 2);
    memcpy(among + 2, bytes, size);
    among[2 + size] = 0xc0;
    outcome(among, size + 3, 1, text, sizeof text);
    if (strcmp(wanted, "1 held 0") == 0) return strcmp(text, "1 held 1") == 0;
    return strcmp(text, wanted) == 0;
}

/* Whether a row has its outcome, which is written to `text`. */
static bool is_right(char *act, const char *wanted, char *text, size_t room) {
    static uint8_t bytes[ROOM];
    char *kind = strtok(act, " "), *field;
    bool is_of_last = strcmp(kind, "last") == 0, has_fields = strcmp(kind, "fields") == 0;
    if (!is_of_last && !has_fields && strcmp(kind, "reads")) fail(kind);
    size_t size = 0;
    while ((field = strtok(NULL, "."))) size = add_field(field, bytes, size);
    if (has_fields)
        write_fields(bytes, size, text, room);
    else
        outcome(bytes, size, 0, text, room);
    return strcmp(text, wanted) == 0 && (!is_of_last || is_last(bytes, size, wanted));
}

int main(void) {
    static char line[4096], copy[4096], text[128];
    unsigned long rows = 0, differ = 0;
    while (fgets(line, sizeof line, stdin)) {
        line[strcspn(line, "\n")] = 0;
        if (!*line || *line == '#') continue;
        strcpy(copy, line);
        char *wanted = strstr(line, " = ");
        if (strncmp(line, "new bytes ", 10) == 0) {
            set_limit(line + 10);
            continue;
        }
        if (!wanted || !max_packet) fail(line);
        *wanted = 0;
        rows++;
        if (!is_right(line, wanted + 3, text, sizeof text)) {
            printf("%s\n  came: %s\n", copy, text);
            differ++;
        }
    }
    printf("%lu rows, %lu differ\n", rows, differ);
    return differ > 0;
}
