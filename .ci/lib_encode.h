/* Writes a packet that posk_packet found, for lib_fuzz.c and lib_rows.c. */
#ifndef LIB_ENCODE_H
#define LIB_ENCODE_H

#include <poskvari.h>

static posk_bytes bytes_of(const uint8_t *bytes, posk_field field) {
    return (posk_bytes){bytes + field.at, field.size};
}

static ptrdiff_t encode_connect(const uint8_t *bytes, const posk_fields *f, uint8_t *out,
                                size_t room) {
    posk_options options = {.id = bytes_of(bytes, f->client_id), .keep_alive = f->keep_alive};
    options.has_user_name = f->has_user_name;
    options.user_name = bytes_of(bytes, f->user_name);
    options.has_password = f->has_password;
    options.password = bytes_of(bytes, f->password);
    options.has_will = f->has_will;
    options.will_topic = bytes_of(bytes, f->topic);
    options.will_payload = bytes_of(bytes, f->payload);
    options.will_qos = f->qos;
    options.will_retain = f->retain;
    return posk_encode_connect(&options, f->clean_session, out, room);
}

static ptrdiff_t encode(const uint8_t *bytes, const posk_fields *f, uint8_t *out, size_t room) {
    switch (f->kind) {
    case POSK_CONNECT: return encode_connect(bytes, f, out, room);
    case POSK_CONNACK: return posk_encode_connack(f->session_present, f->code, out, room);
    case POSK_PUBLISH:
        return posk_encode_publish(bytes + f->topic.at, f->topic.size, bytes + f->payload.at,
                                   f->payload.size, f->qos, f->retain, f->dup, f->id, out, room);
    case POSK_SUBSCRIBE: case POSK_SUBACK: case POSK_UNSUBSCRIBE:
        return posk_encode_list(f->kind, f->id, bytes + f->list.at, f->list.size, out, room);
    case POSK_PINGREQ: case POSK_PINGRESP: case POSK_DISCONNECT:
        return posk_encode_bare(f->kind, out, room);
    default: return posk_encode_acknowledgement(f->kind, f->id, out, room);
    }
}

#endif
