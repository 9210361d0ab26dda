/* Prints each packet of a file: its type, its size and its main fields.
 *
 *     decode FILE
 *
 * Ends with status 1 if the file ends inside a packet or has a malformed one. */
#include <poskvari.h>
#include <stdio.h>
#include <stdlib.h>

static const char *const names[] = {
    "",       "CONNECT",   "CONNACK", "PUBLISH",     "PUBACK",   "PUBREC",  "PUBREL",    "PUBCOMP",
    "SUBSCRIBE", "SUBACK", "UNSUBSCRIBE", "UNSUBACK", "PINGREQ", "PINGRESP", "DISCONNECT"};

static void show(const uint8_t *bytes, const posk_fields *fields) {
    printf("%s %zu", names[fields->kind], fields->size);
    if (fields->id) printf(" id=%d", fields->id);
    if (fields->kind == POSK_PUBLISH)
        printf(" topic=%.*s payload=%zu", (int)fields->topic.size,
               (const char *)bytes + fields->topic.at, fields->payload.size);
    if (fields->kind == POSK_CONNECT)
        printf(" client=%.*s", (int)fields->client_id.size,
               (const char *)bytes + fields->client_id.at);
    if (fields->kind == POSK_SUBSCRIBE || fields->kind == POSK_UNSUBSCRIBE) {
        size_t at = fields->list.at;
        posk_field filter;
        uint8_t qos;
        while (posk_next_filter(bytes, fields, &at, &filter, &qos))
            printf(" %.*s", (int)filter.size, (const char *)bytes + filter.at);
    }
    putchar('\n');
}

int main(int count, char **words) {
    FILE *file = count == 2 ? fopen(words[1], "rb") : NULL;
    if (!file) {
        fprintf(stderr, "usage: decode FILE\n");
        return 2;
    }
    uint8_t *bytes = malloc(1 << 24);
    size_t size = bytes ? fread(bytes, 1, 1 << 24, file) : 0, at = 0;
    fclose(file);
    int code = POSK_OK;
    while (at < size) {
        posk_fields fields;
        posk_fault fault;
        code = posk_packet(bytes + at, size - at, POSK_MAX_PACKET, &fields, &fault);
        if (code == POSK_ERROR_MALFORMED)
            printf("fault F%d at byte %zu\n", fault.kind, at + fault.place);
        if (code != POSK_OK) break;
        show(bytes + at, &fields);
        at += fields.size;
    }
    if (code != POSK_OK) printf("%s\n", posk_error_text(code));
    free(bytes);
    return code != POSK_OK;
}
