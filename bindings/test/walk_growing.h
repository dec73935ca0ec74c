/* What a packet in a buffer becomes where it grows, or its block is made anew, put there or taken off: a writer of its
 * own, over the walk, by RFC 3550, 5.3.1, and RFC 8285, 4.1.2, 4.2 and 4.3. Each function writes to `expected`, which
 * has to be as `before`, where its status is RTPW_OK, and the new length of the packet too. */
#ifndef WALK_GROWING_H
#define WALK_GROWING_H

#include "hostile.h"

#include "walk.h"

/* The buffer before the call, and what it has to be after it. */
static uint8_t before[LONGEST], expected[LONGEST];

/* The elements of a body that is made anew, in a row. */
static uint8_t row[2 * LONGEST + 300];
static size_t row_len;

static void add_element(int form, unsigned id, const uint8_t *data, size_t len) {
    if (form == 1) {
        row[row_len++] = (uint8_t)(id * 16u + len - 1);
    } else {
        row[row_len++] = (uint8_t)id;
        row[row_len++] = (uint8_t)len;
    }
    memcpy(row + row_len, data, len);
    row_len += len;
}

/* How many elements of the packet have the id. */
static size_t count_of(const walked *it, unsigned id) {
    found element;
    size_t count = 0;
    const uint8_t *body = before + it->body_at;
    for (size_t at = 0; walk_on(body, it->body_len, it->form, at, &element);) {
        at = element.data_at + element.data_len;
        count += element.id == id;
    }
    return count;
}

/* Whether an element of the packet has an id above 14. */
static bool has_long_id(const walked *it) {
    found element;
    const uint8_t *body = before + it->body_at;
    bool is_long = false;
    for (size_t at = 0; walk_on(body, it->body_len, it->form, at, &element);) {
        at = element.data_at + element.data_len;
        is_long = is_long || element.id > 14;
    }
    return is_long;
}

/* Puts the packet's elements in a row in the form, with these data in place of the last one of the id, and none of the
 * id 0. With the id 256 it is the elements alone. */
static void make_row(const walked *it, int form, unsigned id, const uint8_t *data, size_t len) {
    found element;
    size_t left = count_of(it, id);
    const uint8_t *body = before + it->body_at;
    bool is_put = id == 256;
    row_len = 0;
    for (size_t at = 0; walk_on(body, it->body_len, it->form, at, &element);) {
        at = element.data_at + element.data_len;
        if (element.id == id) {
            left--;
            if (left == 0) {
                add_element(form, id, data, len);
                is_put = true;
            }
        } else if (element.id != 0) {
            add_element(form, element.id, body + element.data_at, element.data_len);
        }
    }
    if (!is_put) {
        add_element(form, id, data, len);
    }
}

/* Puts the packet's elements in a row in the form, without those of the id 0: false where it can't carry one. */
static bool make_row_in(const walked *it, int form) {
    found element;
    const uint8_t *body = before + it->body_at;
    row_len = 0;
    for (size_t at = 0; walk_on(body, it->body_len, it->form, at, &element);) {
        at = element.data_at + element.data_len;
        if (form == 1 && (element.id > 14 || element.data_len < 1 || element.data_len > 16)) {
            return false;
        }
        if (element.id != 0) {
            add_element(form, element.id, body + element.data_at, element.data_len);
        }
    }
    return true;
}

/* Gives the packet a block of this form, with the row and zeros as a body of so many bytes: its length. */
static size_t lay_out(const walked *it, size_t len, int form, size_t body_len) {
    size_t at = 12 + it->csrc_count * 4, payload_at = at + 4 + body_len;
    memmove(expected + payload_at, before + it->header_len, len - it->header_len);
    expected[0] |= 0x10;
    if (it->form != form) {
        expected[at] = form == 1 ? 0xBE : 0x10;
        expected[at + 1] = form == 1 ? 0xDE : 0;
    }
    expected[at + 2] = (uint8_t)(body_len / 1024);
    expected[at + 3] = (uint8_t)(body_len / 4);
    memset(expected + at + 4, 0, body_len);
    memcpy(expected + at + 4, row, row_len);
    return payload_at + (len - it->header_len);
}

/* The same, where the block may have so many words, and there is room: the status, and the length. */
static int32_t lay_out_within(const walked *it, size_t size, size_t *len, int form) {
    size_t body_len = (row_len + 3) / 4 * 4;
    body_len = body_len < it->body_len ? it->body_len : body_len;
    if (body_len > 262140) {
        return RTPW_LONG_BLOCK;
    }
    if (12 + it->csrc_count * 4 + 4 + body_len + (*len - it->header_len) > size) {
        return RTPW_SHORT_BUFFER;
    }
    *len = lay_out(it, *len, form, body_len);
    return RTPW_OK;
}

/* The packet, and the form that its block gets with the element, where the status is RTPW_OK. */
static int32_t form_with(walked *it, int *form, size_t size, size_t len, unsigned id, size_t data_len,
                         unsigned allowed) {
    if (allowed > 2 || len > size) {
        return RTPW_BAD_FIELD;
    }
    if (id == 0) {
        return RTPW_BAD_ID;
    }
    if (data_len > 255) {
        return RTPW_BAD_FIELD;
    }
    *it = walk(before, len);
    if (it->cause != 0) {
        return it->cause;
    }
    if (it->form == 3) {
        return RTPW_UNKNOWN_FORM;
    }
    if (allowed == 1 && id > 14) {
        return RTPW_LONG_ID;
    }
    int needed = it->form != 2 && id <= 14 && data_len >= 1 && data_len <= 16 ? 1 : 2;
    *form = allowed == 2 ? 2 : needed;
    return allowed == 1 && needed == 2 ? RTPW_FORM_NOT_ALLOWED : RTPW_OK;
}

/* What the packet becomes with the element in it: the status, and the length. */
static int32_t put(size_t size, size_t *len, unsigned id, const uint8_t *data, size_t data_len, unsigned allowed) {
    walked it;
    int form = 0;
    int32_t status = form_with(&it, &form, size, *len, id, data_len, allowed);
    if (status != RTPW_OK) {
        return status;
    }
    found last;
    const uint8_t *body = before + it.body_at;
    bool is_alone = count_of(&it, id) == 1 && count_of(&it, 0) == 0;
    if (it.form == form && is_alone && walk_last(body, it.body_len, form, id, &last) && last.data_len == data_len) {
        memcpy(expected + it.body_at + last.data_at, data, data_len);
        return RTPW_OK;
    }
    make_row(&it, form, id, data, data_len);
    return lay_out_within(&it, size, len, form);
}

/* The same with the element behind all others. */
static int32_t add(size_t size, size_t *len, unsigned id, const uint8_t *data, size_t data_len, unsigned allowed) {
    walked it;
    int form = 0;
    int32_t status = form_with(&it, &form, size, *len, id, data_len, allowed);
    if (status != RTPW_OK) {
        return status;
    }
    CHECK(make_row_in(&it, form));
    add_element(form, id, data, data_len);
    return lay_out_within(&it, size, len, form);
}

/* What the packet becomes with a block of this form in place of one of the other. */
static int32_t change_form(size_t size, size_t *len, unsigned form) {
    if ((form != 1 && form != 2) || *len > size) {
        return RTPW_BAD_FIELD;
    }
    walked it = walk(before, *len);
    if (it.cause != 0 || it.form == 3) {
        return it.cause != 0 ? it.cause : RTPW_UNKNOWN_FORM;
    }
    if (it.form == 0 || it.form == (int)form) {
        return RTPW_OK;
    }
    if (!make_row_in(&it, (int)form)) {
        return has_long_id(&it) ? RTPW_LONG_ID : RTPW_FORM_NOT_ALLOWED;
    }
    return lay_out_within(&it, size, len, (int)form);
}

/* What it becomes without its block. */
static inline int32_t remove_block(size_t size, size_t *len) {
    if (*len > size) {
        return RTPW_BAD_FIELD;
    }
    walked it = walk(before, *len);
    if (it.cause == 0 && it.form != 0) {
        size_t at = 12 + it.csrc_count * 4;
        expected[0] = (uint8_t)(before[0] & 0xEF);
        memcpy(expected + at, before + it.header_len, *len - it.header_len);
        *len -= it.header_len - at;
    }
    return it.cause;
}

/* What it becomes with a block of these 16 bits and this body in place of the one that is there. */
static int32_t put_block(size_t size, size_t *len, unsigned profile, const uint8_t *body, size_t body_len) {
    if (*len > size || body_len % 4 != 0) {
        return RTPW_BAD_FIELD;
    }
    if (body_len > 262140) {
        return RTPW_LONG_BLOCK;
    }
    walked it = walk(before, *len);
    if (it.cause != 0) {
        return it.cause;
    }
    size_t at = 12 + it.csrc_count * 4, payload_len = *len - it.header_len;
    if (at + 4 + body_len + payload_len > size) {
        return RTPW_SHORT_BUFFER;
    }
    memcpy(expected + at + 4 + body_len, before + it.header_len, payload_len);
    expected[0] |= 0x10;
    expected[at] = (uint8_t)(profile / 256);
    expected[at + 1] = (uint8_t)profile;
    expected[at + 2] = (uint8_t)(body_len / 1024);
    expected[at + 3] = (uint8_t)(body_len / 4);
    memcpy(expected + at + 4, body, body_len);
    *len = at + 4 + body_len + payload_len;
    return RTPW_OK;
}

/* What the packet becomes once it is as short as its elements allow. */
static int32_t compact(size_t size, size_t *len) {
    if (*len > size) {
        return RTPW_BAD_FIELD;
    }
    walked it = walk(before, *len);
    if (it.cause == 0 && (it.form == 1 || it.form == 2)) {
        make_row(&it, it.form, 256, NULL, 0);
        *len = lay_out(&it, *len, it.form, (row_len + 3) / 4 * 4);
    }
    return it.cause;
}

#endif
