/* rtpw_restarting_receive */
#include "hostile.h"

#include "../c/rtp_wire.h"

/* RFC 3550, A.1, over 16 bits, and the numbers above them counted beside it. */
typedef struct {
    bool is_started;
    uint64_t highest;
    bool taken[128]; /* highest - i */
    unsigned in_row;
    uint16_t next;
    unsigned max_dropout, before_first;
} model;

static model model_of(const rtpw_restarting_receiver *receiver) {
    model it;
    it.is_started = receiver->started != 0;
    it.highest = receiver->highest;
    for (uint64_t i = 0; i < 128; i++) {
        uint64_t n = receiver->highest - i; /* modulo 2^64, and 128 divides that */
        it.taken[i] = i == 0 || (receiver->words[n / 64 % 2] >> n % 64) % 2 != 0;
    }
    it.in_row = receiver->in_row;
    it.next = receiver->next;
    it.max_dropout = receiver->max_dropout == 0 ? 3000 : receiver->max_dropout;
    it.before_first = receiver->min_sequential == 0 ? 0 : receiver->min_sequential - 1u;
    return it;
}

static bool are_same(const model *a, const model *b) {
    bool are_in_row = a->in_row == b->in_row && (a->in_row == 0 || a->next == b->next);
    if (!are_in_row || a->is_started != b->is_started) {
        return false;
    }
    if (!a->is_started) {
        return true;
    }
    for (uint64_t i = 0; i < 128 && i <= a->highest; i++) {
        if (a->taken[i] != b->taken[i]) {
            return false;
        }
    }
    return a->highest == b->highest;
}

static void begin_at(model *it, uint64_t number) {
    memset(it->taken, 0, sizeof it->taken);
    it->is_started = it->taken[0] = true;
    it->highest = number;
    it->in_row = 0;
}

/* The verdict on a packet, and its number. */
static int32_t verdict(model *it, uint16_t low, uint64_t *number) {
    uint16_t ahead = (uint16_t)(low - it->highest);
    uint16_t behind = (uint16_t)(it->highest - low);
    /* 32,768 away on either side: under the rollover count of the highest number */
    bool is_ahead = ahead < 32768 || (ahead == 32768 && it->highest % 65536 < 32768);
    if (it->is_started && is_ahead && ahead < it->max_dropout && it->highest <= UINT64_MAX - ahead) {
        it->in_row = 0;
        if (ahead == 0) {
            return RTPW_REFUSED;
        }
        for (int i = 127; i >= 0; i--) {
            it->taken[i] = i == 0 || (i >= ahead && it->taken[i - ahead]);
        }
        *number = it->highest += ahead;
        return RTPW_OK;
    }
    if (it->is_started && !is_ahead && behind < 128 && it->highest >= behind) {
        it->in_row = 0;
        if (it->taken[behind]) {
            return RTPW_REFUSED;
        }
        it->taken[behind] = true;
        *number = it->highest - behind;
        return RTPW_OK;
    }
    unsigned before = low == it->next ? it->in_row : 0;
    if (!it->is_started && before >= it->before_first) {
        begin_at(it, *number = 65536u + low);
        return RTPW_OK;
    }
    if (it->is_started && before >= 1 && it->highest / 65536 + 2 < (uint64_t)1 << 48) {
        begin_at(it, *number = (it->highest / 65536 + 2) * 65536 + low);
        return RTPW_RESTARTED;
    }
    it->in_row = before < 255 ? before + 1 : 255;
    it->next = (uint16_t)(low + 1);
    return RTPW_REFUSED;
}

static uint16_t random_low(const rtpw_restarting_receiver *receiver) {
    uint64_t x = random_u64();
    switch (x % 8) {
    case 0: return (uint16_t)(x >> 32);
    case 1: return (uint16_t)(receiver->highest + receiver->max_dropout + x / 8 % 5 - 2);
    case 2: return (uint16_t)(receiver->highest - x / 8 % 140);
    case 3: return (uint16_t)(receiver->highest + x / 8 % 140);
    case 4: return (uint16_t)(receiver->highest + 3000 + x / 8 % 5 - 2);
    default: return receiver->next;
    }
}

void restarting_round(void) {
    static memory receivers, numbers;
    if (receivers.size == 0) {
        receivers = memory_of(sizeof(rtpw_restarting_receiver));
        numbers = memory_of(sizeof(uint64_t));
    }
    rtpw_restarting_receiver *receiver = block_in(&receivers, sizeof *receiver);
    uint64_t *number = block_in(&numbers, sizeof *number);
    fill(receiver, sizeof *receiver);
    uint64_t x = random_u64();
    receiver->started = x % 4 == 0 ? 0 : receiver->started;
    receiver->in_row = x / 4 % 4 == 0 ? receiver->in_row : (uint8_t)(x / 16 % 3);
    receiver->max_dropout = x / 64 % 2 == 0 ? 0 : receiver->max_dropout;
    receiver->min_sequential = x / 128 % 4 == 0 ? receiver->min_sequential : (uint8_t)(x / 512 % 4);
    if (x / 4096 % 2 == 0) {
        receiver->highest >>= x / 8192 % 64;
    } else if (x / 8192 % 4 == 0) {
        receiver->highest = 0 - (receiver->highest >> x / 65536 % 64);
    }
    for (int i = 0; i < 12; i++) {
        model it = model_of(receiver), after;
        uint64_t wanted = *number = random_u64();
        uint16_t low = random_low(receiver);
        int32_t status = verdict(&it, low, &wanted);
        CHECK(rtpw_restarting_receive(receiver, low, number) == status);
        CHECK(*number == wanted);
        after = model_of(receiver);
        CHECK(are_same(&after, &it));
        CHECK(after.max_dropout == it.max_dropout && after.before_first == it.before_first);
    }
}
