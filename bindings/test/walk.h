/* A walk through a packet's bytes that owes nothing to the library: RFC 3550, 5.1 and 5.3.1, and RFC
 * 8285, 4.2 and 4.3. As the library, it passes over an element of id 0 that has length bits. */
#ifndef WALK_H
#define WALK_H

#include <stddef.h>
#include <stdint.h>

typedef struct {
    int cause;        /* 0, or the first of the causes for which it is no packet: 1 to 4, and 6 */
    int header_cause; /* the same of those for which no header is read: 1 to 6 */
    int form;         /* 0, 1 or 2; 3 of a block of another form */
    unsigned profile; /* the 16 bits at the front of a block */
    size_t csrc_count, body_at, body_len, header_len;
} walked;

static inline walked no_packet(int cause) {
    walked it = {0, 0, 0, 0, 0, 0, 0, 0};
    it.cause = it.header_cause = cause;
    return it;
}

static inline walked walk(const uint8_t *bytes, size_t len) {
    walked it = no_packet(0);
    if (len < 12) {
        return no_packet(1);
    }
    if (bytes[0] / 64 != 2) {
        return no_packet(2);
    }
    it.csrc_count = bytes[0] % 16;
    size_t at = 12 + it.csrc_count * 4;
    if (at > len) {
        return no_packet(3);
    }
    if ((bytes[0] & 0x10) != 0) {
        if (len - at < 4) {
            return no_packet(4);
        }
        it.profile = bytes[at] * 256u + bytes[at + 1];
        it.form = it.profile == 0xBEDE ? 1 : it.profile / 16 == 0x100 ? 2 : 3;
        it.body_len = (bytes[at + 2] * 256u + bytes[at + 3]) * 4u;
        at += 4;
        it.cause = len - at < it.body_len ? 6 : 0;
        it.header_cause = it.form == 3 ? 5 : it.cause;
        if (it.cause != 0) {
            return it;
        }
    }
    it.body_at = at;
    it.header_len = at + it.body_len;
    return it;
}

typedef struct {
    size_t start, data_at, data_len;
    unsigned id;
} found;

/* The first element from the offset on: 1, or 0 where there is none, as in a block of another form. */
static inline int walk_on(const uint8_t *body, size_t len, int form, size_t at, found *element) {
    if (form != 1 && form != 2) {
        return 0;
    }
    while (at < len && body[at] == 0) {
        at++;
    }
    size_t header_len = form == 1 ? 1 : 2;
    if (at >= len || len - at < header_len || (form == 1 && body[at] >= 0xF0)) {
        return 0;
    }
    element->start = at;
    element->data_at = at + header_len;
    element->id = form == 1 ? body[at] / 16u : body[at];
    element->data_len = form == 1 ? body[at] % 16u + 1 : body[at + 1];
    return element->data_len <= len - element->data_at;
}

/* The last element of the id: 1, or 0 where there is none. */
static inline int walk_last(const uint8_t *body, size_t len, int form, unsigned id, found *last) {
    found element;
    int is_found = 0;
    for (size_t at = 0; walk_on(body, len, form, at, &element); at = element.data_at + element.data_len) {
        if (element.id == id) {
            *last = element;
            is_found = 1;
        }
    }
    return is_found;
}

#endif
