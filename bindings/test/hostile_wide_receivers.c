/* rtpw_wide_receiver_start, rtpw_wide_receiver_number_of, rtpw_wide_receiver_accepts,
 * rtpw_wide_receiver_standing_of, rtpw_wide_receiver_record, rtpw_wide_receiver_receive */
#include "hostile.h"

#include "../c/rtp_wire.h"

/* The most words that are tried: some above 512. */
#define MOST 520

/* A receiver by the list of what it has taken: taken[i] is whether highest - i is, of size numbers. */
typedef struct {
    bool is_started;
    uint64_t highest;
    uint64_t size;
    bool taken[64 * MOST];
} model;

static void model_of(model *it, const rtpw_wide_receiver *receiver, const uint64_t *words, size_t count) {
    it->is_started = receiver->started != 0;
    it->highest = receiver->highest;
    it->size = 64 * (uint64_t)count;
    for (uint64_t i = 0; it->is_started && i < it->size; i++) {
        uint64_t at = (receiver->highest + it->size - i) / 64; /* round the words below number 0 */
        if (receiver->highest >= i) {
            at = (receiver->highest - i) / 64;
        }
        it->taken[i] = i == 0 || (words[at % count] >> (receiver->highest - i) % 64) % 2 != 0;
    }
}

static uint64_t number_of(const model *it, uint16_t low) {
    uint64_t number = it->highest / 65536 * 65536 + low;
    if (!it->is_started) {
        return number;
    }
    uint64_t away = number > it->highest ? number - it->highest : it->highest - number;
    if (away > 32768) {
        number += number > it->highest ? (uint64_t)0 - 65536 : 65536;
    }
    return number;
}

static bool accepts(const model *it, uint64_t number) {
    if (!it->is_started || number > it->highest) {
        return true;
    }
    return it->highest - number < it->size && !it->taken[it->highest - number];
}

static unsigned standing_of(const model *it, uint64_t number) {
    if (it->is_started && number <= it->highest && it->highest - number >= it->size) {
        return RTPW_TOO_OLD;
    }
    return accepts(it, number) ? RTPW_NEW : RTPW_TAKEN;
}

/* Whether the receiver holds what the model holds with the number, of the numbers from 0 on. */
static bool holds_with(const model *it, uint64_t number, const rtpw_wide_receiver *receiver, const uint64_t *words,
                       size_t count) {
    uint64_t highest = it->is_started && it->highest > number ? it->highest : number;
    if (receiver->started != 1 || receiver->highest != highest) {
        return false;
    }
    for (uint64_t i = 0; i < it->size && i <= highest; i++) {
        uint64_t n = highest - i;
        bool is_taken = (words[n / 64 % count] >> n % 64) % 2 != 0;
        bool was_taken = it->is_started && n <= it->highest && it->highest - n < it->size && it->taken[it->highest - n];
        if (is_taken != (n == number || was_taken)) {
            return false;
        }
    }
    return true;
}

static uint64_t random_number(uint64_t near, size_t count) {
    switch (random_u64() % 4) {
    case 0: return random_u64();
    case 1: return near + random_below(100 * (count + 1));
    default: return near - random_below(70 * (count + 1));
    }
}

static void random_receiver(rtpw_wide_receiver *receiver, uint64_t *words, size_t count) {
    fill(receiver, sizeof *receiver);
    fill(words, count * sizeof *words);
    uint64_t x = random_u64();
    if (x % 4 == 0) {
        receiver->started = 0;
    }
    if (x % 32 >= 16) {
        receiver->highest >>= x / 32 % 64;
    }
    if (x % 16 == 15) {
        receiver->highest = 0 - receiver->highest;
    }
}

/* One call that takes a number: of a packet, or where `number` is NULL of its own. */
static void judged(rtpw_wide_receiver *receiver, uint64_t *words, size_t count, uint64_t tried, uint64_t *number) {
    static model it;
    static uint64_t old_words[MOST];
    rtpw_wide_receiver before;
    memcpy(&before, receiver, sizeof before);
    memcpy(old_words, words, count * sizeof *words);
    model_of(&it, receiver, words, count);
    uint64_t wanted = number == NULL ? tried : number_of(&it, (uint16_t)tried), old_number = number == NULL ? 0 : *number;
    int32_t status = number == NULL ? rtpw_wide_receiver_record(receiver, words, count, tried)
                                    : rtpw_wide_receiver_receive(receiver, words, count, (uint16_t)tried, number);
    bool is_window = count >= 1 && count <= 512;
    if (!is_window || !accepts(&it, wanted)) {
        CHECK(status == (is_window ? RTPW_REFUSED : RTPW_BAD_FIELD));
        CHECK(number == NULL || *number == old_number);
        CHECK(memcmp(receiver, &before, sizeof before) == 0);
        CHECK(memcmp(words, old_words, count * sizeof *words) == 0);
        return;
    }
    CHECK(status == RTPW_OK);
    CHECK(number == NULL || *number == wanted);
    CHECK(holds_with(&it, wanted, receiver, words, count));
}

void wide_receivers_round(void) {
    static memory receivers, rooms, numbers;
    static model it;
    if (receivers.size == 0) {
        receivers = memory_of(sizeof(rtpw_wide_receiver));
        rooms = memory_of(MOST * sizeof(uint64_t));
        numbers = memory_of(sizeof(uint64_t));
    }
    size_t count = random_u64() % 64 == 0 ? random_below(MOST + 1) : random_below(20);
    rtpw_wide_receiver *receiver = block_in(&receivers, sizeof *receiver), before;
    uint64_t *words = block_in(&rooms, count * sizeof *words);
    uint64_t *number = block_in(&numbers, sizeof *number);
    fill(number, sizeof *number);
    random_receiver(receiver, words, count);
    memcpy(&before, receiver, sizeof before);
    model_of(&it, receiver, words, count);

    uint16_t low = (uint16_t)random_number(it.highest, count);
    uint64_t tried = random_number(it.highest, count);
    bool is_window = count >= 1 && count <= 512;
    CHECK(rtpw_wide_receiver_number_of(receiver, low) == number_of(&it, low));
    CHECK(rtpw_wide_receiver_accepts(receiver, words, count, tried) == (is_window && accepts(&it, tried)));
    CHECK(rtpw_wide_receiver_standing_of(receiver, words, count, tried) ==
          (is_window ? standing_of(&it, tried) : RTPW_NO_WINDOW));
    CHECK(memcmp(receiver, &before, sizeof before) == 0);
    for (int i = 0; i < 6; i++) {
        judged(receiver, words, count, random_number(receiver->highest, count), i % 2 == 0 ? number : NULL);
    }

    random_receiver(receiver, words, count);
    memcpy(&before, receiver, sizeof before);
    uint64_t rollovers = random_up_to_64_bits();
    bool is_count = rollovers < (uint64_t)1 << 48;
    CHECK(rtpw_wide_receiver_start(receiver, rollovers) == (is_count ? RTPW_OK : RTPW_BAD_FIELD));
    if (is_count) {
        CHECK(receiver->started == 0 && receiver->highest == rollovers * 65536);
    } else {
        CHECK(memcmp(receiver, &before, sizeof before) == 0);
    }
}
