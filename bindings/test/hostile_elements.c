/* rtpw_next_element, rtpw_next_elements, rtpw_last_element */
#include "hostile.h"

#include "../c/rtp_wire.h"
#include "walk.h"

static uint8_t copy[LONGEST];
static uint8_t *body;
static size_t len;

static void expect(int32_t status, int32_t expected_status, const rtpw_element *element, const rtpw_element *before,
                   const found *it) {
    CHECK(status == expected_status);
    if (expected_status == RTPW_OK) {
        CHECK(element->data_at == it->data_at);
        CHECK(element->data_len == it->data_len);
        CHECK(element->end == it->data_at + it->data_len);
        CHECK(element->id == it->id);
    } else {
        CHECK(memcmp(element, before, sizeof *before) == 0);
    }
    CHECK(memcmp(body, copy, len) == 0);
}

/* as many as there is room for, from the offset on */
static void several(uint8_t form, size_t at, bool is_within) {
    static memory listed;
    if (listed.size == 0) {
        listed = memory_of(9 * sizeof(rtpw_element));
    }
    size_t count = random_below(9);
    rtpw_element *elements = block_in(&listed, count * sizeof *elements), before[9];
    fill(elements, count * sizeof *elements);
    memcpy(before, elements, count * sizeof *elements);
    size_t found_count = rtpw_next_elements(body, len, form, at, elements, count);
    found it = {0, 0, 0, 0};
    size_t i = 0;
    for (; i < count && is_within && walk_on(copy, len, form, at, &it); i++) {
        expect(RTPW_OK, RTPW_OK, &elements[i], &before[i], &it);
        at = elements[i].end;
    }
    CHECK(found_count == i);
    CHECK(memcmp(&elements[i], &before[i], (count - i) * sizeof *elements) == 0);
}

void elements_round(void) {
    static memory bodies, elements;
    if (bodies.size == 0) {
        bodies = memory_of(LONGEST);
        elements = memory_of(sizeof(rtpw_element));
    }
    len = random_len();
    body = block_in(&bodies, len);
    uint8_t form = random_u64() % 16 == 0 ? (uint8_t)random_u64() : (uint8_t)(1 + random_u64() % 2);
    int is_form = form == 1 || form == 2;
    random_body(body, len, form == 1 ? 1 : 2);
    memcpy(copy, body, len);
    rtpw_element *element = block_in(&elements, sizeof *element), before;
    fill(element, sizeof *element);
    found it = {0, 0, 0, 0};

    /* a walk, from a random offset at times */
    size_t at = random_u64() % 2 == 0 ? 0 : random_below(len + 3);
    several(form, at, is_form && at <= len);
    int32_t status;
    int steps = 0;
    do {
        memcpy(&before, element, sizeof before);
        int is_there = is_form && at <= len && walk_on(copy, len, form, at, &it);
        status = rtpw_next_element(body, len, form, at, element);
        expect(status, !is_form || at > len ? RTPW_BAD_FIELD : is_there ? RTPW_OK : RTPW_NONE, element, &before, &it);
        at = it.data_at + it.data_len;
    } while (status == RTPW_OK && ++steps < 200);

    /* any offset at all */
    memcpy(&before, element, sizeof before);
    size_t far = len + 1 + (size_t)random_up_to_64_bits() % (SIZE_MAX - len);
    expect(rtpw_next_element(body, len, form, far, element), RTPW_BAD_FIELD, element, &before, &it);

    uint8_t id = random_id();
    int is_there = is_form && walk_last(copy, len, form, id, &it);
    status = rtpw_last_element(body, len, form, id, element);
    expect(status, !is_form ? RTPW_BAD_FIELD : is_there ? RTPW_OK : RTPW_NONE, element, &before, &it);
}
