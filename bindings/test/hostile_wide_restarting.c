/* rtpw_wide_restarting_receive */
#include "hostile.h"

#include "../c/rtp_wire.h"

/* The most words that are tried: some above 512. */
#define MOST 520

/* RFC 3550, A.1, over 16 bits, and the numbers above them counted beside it; of size numbers, taken[i] is whether
 * highest - i is. */
typedef struct {
    bool is_started;
    uint64_t highest;
    uint64_t size;
    unsigned in_row;
    uint16_t next;
    unsigned max_dropout, max_misorder, before_first;
    bool taken[64 * MOST];
} model;

static void model_of(model *it, const rtpw_wide_restarting_receiver *receiver, const uint64_t *words, size_t count) {
    it->is_started = receiver->started != 0;
    it->highest = receiver->highest;
    it->size = 64 * (uint64_t)count;
    for (uint64_t i = 0; it->is_started && i < it->size && i <= receiver->highest; i++) {
        uint64_t n = receiver->highest - i;
        it->taken[i] = i == 0 || (words[n / 64 % count] >> n % 64) % 2 != 0;
    }
    it->in_row = receiver->in_row;
    it->next = receiver->next;
    it->max_dropout = receiver->max_dropout == 0 ? 3000 : receiver->max_dropout;
    it->max_misorder = receiver->max_misorder != 0 ? receiver->max_misorder : count > 46 ? (unsigned)it->size : 3000;
    it->before_first = receiver->min_sequential == 0 ? 0 : receiver->min_sequential - 1u;
}

/* Whether the receiver holds what the model holds, of the numbers from 0 on. */
static bool is_held(const model *it, const rtpw_wide_restarting_receiver *receiver, const uint64_t *words, size_t count) {
    if (receiver->in_row != it->in_row || (it->in_row != 0 && receiver->next != it->next) ||
        (receiver->started != 0) != it->is_started) {
        return false;
    }
    if (!it->is_started) {
        return true;
    }
    for (uint64_t i = 0; i < it->size && i <= it->highest; i++) {
        uint64_t n = it->highest - i;
        if ((i == 0 || (words[n / 64 % count] >> n % 64) % 2 != 0) != it->taken[i]) {
            return false;
        }
    }
    return receiver->highest == it->highest;
}

static void begin_at(model *it, uint64_t number) {
    memset(it->taken, 0, it->size);
    it->is_started = it->taken[0] = true;
    it->highest = number;
    it->in_row = 0;
}

static void move_up(model *it, uint64_t by) {
    uint64_t kept = by < it->size ? it->size - by : 0;
    memmove(it->taken + (it->size - kept), it->taken, kept);
    memset(it->taken, 0, it->size - kept);
    it->taken[0] = true;
    it->highest += by;
}

/* The verdict on a packet, and its number. */
static int32_t verdict(model *it, uint16_t low, uint64_t *number) {
    uint16_t ahead = (uint16_t)(low - it->highest);
    uint16_t behind = (uint16_t)(it->highest - low);
    /* 32,768 away on either side: under the rollover count of the highest number */
    bool is_ahead = ahead < 32768 || (ahead == 32768 && it->highest % 65536 < 32768);
    if (it->is_started && is_ahead && ahead < it->max_dropout && it->highest <= UINT64_MAX - ahead) {
        it->in_row = 0;
        if (ahead == 0) {
            return RTPW_REFUSED;
        }
        move_up(it, ahead);
        *number = it->highest;
        return RTPW_OK;
    }
    if (it->is_started && !is_ahead && behind < it->max_misorder && it->highest >= behind) {
        it->in_row = 0;
        if (behind >= it->size || it->taken[behind]) {
            return RTPW_REFUSED;
        }
        it->taken[behind] = true;
        *number = it->highest - behind;
        return RTPW_OK;
    }
    unsigned before = low == it->next ? it->in_row : 0;
    if (!it->is_started && before >= it->before_first) {
        begin_at(it, *number = 65536u + low);
        return RTPW_OK;
    }
    if (it->is_started && before >= 1 && it->highest / 65536 + 2 < (uint64_t)1 << 48) {
        begin_at(it, *number = (it->highest / 65536 + 2) * 65536 + low);
        return RTPW_RESTARTED;
    }
    it->in_row = before < 255 ? before + 1 : 255;
    it->next = (uint16_t)(low + 1);
    return RTPW_REFUSED;
}

static uint16_t random_low(const model *it) {
    uint64_t x = random_u64();
    switch (x % 8) {
    case 0: return (uint16_t)(x >> 32);
    case 1: return (uint16_t)(it->highest + it->max_dropout + x / 8 % 5 - 2);
    case 2: return (uint16_t)(it->highest - x / 8 % (it->size + 12));
    case 3: return (uint16_t)(it->highest + x / 8 % 140);
    case 4: return (uint16_t)(it->highest - it->max_misorder + x / 8 % 5 - 2);
    default: return it->next;
    }
}

static void random_receiver(rtpw_wide_restarting_receiver *receiver) {
    fill(receiver, sizeof *receiver);
    uint64_t x = random_u64();
    receiver->started = x % 4 == 0 ? 0 : receiver->started;
    receiver->in_row = x / 4 % 4 == 0 ? receiver->in_row : (uint8_t)(x / 16 % 3);
    receiver->max_dropout = x / 64 % 2 == 0 ? 0 : receiver->max_dropout;
    receiver->max_misorder = x / 128 % 2 == 0 ? (uint16_t)(x / 256 % 4 * 100) : receiver->max_misorder;
    receiver->min_sequential = x / 1024 % 4 == 0 ? receiver->min_sequential : (uint8_t)(x / 4096 % 4);
    if (x / 16384 % 2 == 0) {
        receiver->highest >>= x / 32768 % 64;
    } else if (x / 32768 % 4 == 0) {
        receiver->highest = 0 - (receiver->highest >> x / 262144 % 64);
    }
}

void wide_restarting_round(void) {
    static memory receivers, rooms, numbers;
    static model it;
    static uint64_t old_words[MOST];
    if (receivers.size == 0) {
        receivers = memory_of(sizeof(rtpw_wide_restarting_receiver));
        rooms = memory_of(MOST * sizeof(uint64_t));
        numbers = memory_of(sizeof(uint64_t));
    }
    size_t count = random_u64() % 64 == 0 ? random_below(MOST + 1) : random_below(20);
    rtpw_wide_restarting_receiver *receiver = block_in(&receivers, sizeof *receiver), before;
    uint64_t *words = block_in(&rooms, count * sizeof *words);
    uint64_t *number = block_in(&numbers, sizeof *number);
    bool is_window = count >= 1 && count <= 512;
    random_receiver(receiver);
    fill(words, count * sizeof *words);
    for (int i = 0; i < 8; i++) {
        memcpy(&before, receiver, sizeof before);
        memcpy(old_words, words, count * sizeof *words);
        model_of(&it, receiver, words, count);
        uint64_t wanted = *number = random_u64();
        uint16_t low = random_low(&it);
        int32_t status = is_window ? verdict(&it, low, &wanted) : RTPW_BAD_FIELD;
        CHECK(rtpw_wide_restarting_receive(receiver, words, count, low, number) == status);
        CHECK(*number == wanted);
        if (!is_window) {
            CHECK(memcmp(receiver, &before, sizeof before) == 0);
        } else {
            CHECK(is_held(&it, receiver, words, count));
        }
        if (status == RTPW_REFUSED || !is_window) {
            CHECK(memcmp(words, old_words, count * sizeof *words) == 0);
        }
        CHECK(receiver->max_dropout == before.max_dropout && receiver->max_misorder == before.max_misorder &&
              receiver->min_sequential == before.min_sequential);
    }
}
