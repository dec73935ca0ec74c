/* rtpw_receiver_start, rtpw_receiver_number_of, rtpw_receiver_accepts, rtpw_receiver_standing_of, rtpw_receiver_record,
 * rtpw_receiver_receive, rtpw_receive_many, rtpw_extend_u8, rtpw_extend_u15, rtpw_extend_u16, rtpw_extend_u32 */
#include "hostile.h"

#include "../c/rtp_wire.h"

/* A receiver by the list of what it has taken: taken[i] is whether highest - i is. */
typedef struct {
    bool is_started;
    uint64_t highest, rollover_count;
    bool taken[128];
} model;

static model model_of(const rtpw_receiver *receiver) {
    model it;
    it.is_started = receiver->started != 0;
    it.highest = receiver->highest;
    it.rollover_count = receiver->highest / 65536;
    for (unsigned i = 0; i < 128; i++) {
        uint64_t half = i < 64 ? receiver->recorded_low : receiver->recorded_high;
        it.taken[i] = i == 0 || (half >> i % 64) % 2 != 0;
    }
    return it;
}

static bool are_same(const model *a, const model *b) {
    if (!a->is_started || !b->is_started) {
        return a->is_started == b->is_started && a->rollover_count == b->rollover_count;
    }
    return a->highest == b->highest && memcmp(a->taken, b->taken, sizeof a->taken) == 0;
}

/* RFC 3711, 3.3.1: of the three numbers with these low bits about the previous one, the nearest. */
static uint64_t nearest(uint64_t previous, unsigned bits, uint64_t low) {
    uint64_t modulus = (uint64_t)1 << bits;
    uint64_t same = previous / modulus * modulus + low;
    uint64_t lower = same - modulus, higher = same + modulus;
    uint64_t away = same > previous ? same - previous : previous - same;
    if (away <= modulus / 2) {
        return same;
    }
    return same > previous ? lower : higher;
}

static uint64_t number_of(const model *it, uint16_t low) {
    return it->is_started ? nearest(it->highest, 16, low) : it->rollover_count * 65536 + low;
}

static bool accepts(const model *it, uint64_t number) {
    if (!it->is_started || number > it->highest) {
        return true;
    }
    return it->highest - number < 128 && !it->taken[it->highest - number];
}

static void record(model *it, uint64_t number) {
    if (!accepts(it, number)) {
        return;
    }
    if (it->is_started && number < it->highest) {
        it->taken[it->highest - number] = true;
        return;
    }
    model old = *it;
    it->highest = number;
    it->is_started = true;
    for (uint64_t i = 0; i < 128; i++) {
        uint64_t ahead = number - old.highest;
        it->taken[i] = i == 0 || (old.is_started && i >= ahead && old.taken[i - ahead]);
    }
}

static uint64_t random_number(uint64_t near) {
    switch (random_u64() % 4) {
    case 0: return random_u64();
    case 1: return near + random_below(200);
    default: return near - random_below(200);
    }
}

static void random_receiver(rtpw_receiver *receiver) {
    fill(receiver, sizeof *receiver);
    uint64_t x = random_u64();
    if (x % 4 == 0) {
        receiver->started = 0;
    }
    if (x % 32 >= 16) {
        receiver->highest >>= x / 32 % 64;
    }
    if (x % 16 == 15) {
        receiver->highest = 0 - receiver->highest;
    }
}

static void judged(rtpw_receiver *receiver, uint16_t low, uint64_t *number) {
    rtpw_receiver before;
    memcpy(&before, receiver, sizeof before);
    model it = model_of(receiver), after;
    uint64_t wanted = number_of(&it, low), old_number = *number;
    int32_t status = rtpw_receiver_receive(receiver, low, number);
    if (!accepts(&it, wanted)) {
        CHECK(status == RTPW_REFUSED);
        CHECK(*number == old_number);
        CHECK(memcmp(receiver, &before, sizeof before) == 0);
        return;
    }
    record(&it, wanted);
    after = model_of(receiver);
    CHECK(status == RTPW_OK);
    CHECK(*number == wanted);
    CHECK(are_same(&after, &it));
}

void receivers_round(void) {
    static memory receivers, numbers;
    if (receivers.size == 0) {
        receivers = memory_of(sizeof(rtpw_receiver));
        numbers = memory_of(sizeof(uint64_t));
    }
    rtpw_receiver *receiver = block_in(&receivers, sizeof *receiver), before;
    uint64_t *number = block_in(&numbers, sizeof *number);
    fill(number, sizeof *number);
    random_receiver(receiver);
    memcpy(&before, receiver, sizeof before);
    model it = model_of(receiver), after;

    uint16_t low = (uint16_t)random_number(it.highest);
    uint64_t tried = random_number(it.highest);
    CHECK(rtpw_receiver_number_of(receiver, low) == number_of(&it, low));
    CHECK(rtpw_receiver_accepts(receiver, tried) == accepts(&it, tried));
    bool is_behind = it.is_started && tried <= it.highest && it.highest - tried >= 128;
    unsigned refused_as = is_behind ? RTPW_TOO_OLD : RTPW_TAKEN;
    CHECK(rtpw_receiver_standing_of(receiver, tried) == (accepts(&it, tried) ? RTPW_NEW : refused_as));
    CHECK(rtpw_extend_u8(it.highest, (uint8_t)low) == nearest(it.highest, 8, low % 256));
    CHECK(rtpw_extend_u15(it.highest, low) == nearest(it.highest, 15, low % 32768));
    CHECK(rtpw_extend_u16(it.highest, low) == nearest(it.highest, 16, low));
    CHECK(rtpw_extend_u32(it.highest, (uint32_t)tried) == nearest(it.highest, 32, tried % ((uint64_t)1 << 32)));
    CHECK(memcmp(receiver, &before, sizeof before) == 0);

    rtpw_receiver_record(receiver, tried);
    record(&it, tried);
    after = model_of(receiver);
    CHECK(are_same(&after, &it));
    for (int i = 0; i < 8; i++) {
        judged(receiver, (uint16_t)random_number(receiver->highest), number);
    }

    random_receiver(receiver);
    memcpy(&before, receiver, sizeof before);
    uint64_t count = random_up_to_64_bits();
    bool is_count = count < (uint64_t)1 << 48;
    CHECK(rtpw_receiver_start(receiver, count) == (is_count ? RTPW_OK : RTPW_BAD_FIELD));
    if (is_count) {
        CHECK(receiver->started == 0);
        CHECK(receiver->highest == count * 65536);
        CHECK(receiver->recorded_low == 0 && receiver->recorded_high == 0);
    } else {
        CHECK(memcmp(receiver, &before, sizeof before) == 0);
    }
}

enum { RECEIVERS = 4, ARRIVALS = 12 };

/* What has to be told of the next arrival, by the models of all receivers. */
static void arrived(model *models, size_t receiver_count, rtpw_arrival *arrival) {
    if (arrival->receiver >= receiver_count) {
        arrival->status = RTPW_BAD_FIELD;
        return;
    }
    model *it = &models[arrival->receiver];
    uint64_t number = number_of(it, arrival->sequence_number);
    arrival->status = RTPW_REFUSED;
    if (accepts(it, number)) {
        record(it, number);
        arrival->status = RTPW_OK;
        arrival->number = number;
    }
}

void arrivals_round(void) {
    static memory all_receivers, all_arrivals;
    if (all_receivers.size == 0) {
        all_receivers = memory_of(RECEIVERS * sizeof(rtpw_receiver));
        all_arrivals = memory_of(ARRIVALS * sizeof(rtpw_arrival));
    }
    size_t receiver_count = random_below(RECEIVERS + 1), count = random_below(ARRIVALS + 1);
    rtpw_receiver *receivers = block_in(&all_receivers, receiver_count * sizeof *receivers), before[RECEIVERS];
    rtpw_arrival *arrivals = block_in(&all_arrivals, count * sizeof *arrivals), expected[ARRIVALS];
    model models[RECEIVERS], after;
    bool takes[RECEIVERS] = {false};
    for (size_t i = 0; i < receiver_count; i++) {
        random_receiver(&receivers[i]);
        models[i] = model_of(&receivers[i]);
        memcpy(&before[i], &receivers[i], sizeof before[i]);
    }
    for (size_t i = 0; i < count; i++) {
        rtpw_arrival *it = &arrivals[i];
        fill(it, sizeof *it);
        if (random_u64() % 8 != 0) {
            it->receiver = random_below(receiver_count + 1);
        }
        if (it->receiver < receiver_count) {
            it->sequence_number = (uint16_t)random_number(models[it->receiver].highest);
        }
        memcpy(&expected[i], it, sizeof expected[i]);
        arrived(models, receiver_count, &expected[i]);
        takes[it->receiver % RECEIVERS] |= expected[i].status == RTPW_OK;
    }

    rtpw_receive_many(receivers, receiver_count, arrivals, count);
    for (size_t i = 0; i < count; i++) {
        CHECK(arrivals[i].receiver == expected[i].receiver);
        CHECK(arrivals[i].sequence_number == expected[i].sequence_number);
        CHECK(arrivals[i].status == expected[i].status);
        CHECK(arrivals[i].number == expected[i].number);
    }
    for (size_t i = 0; i < receiver_count; i++) {
        after = model_of(&receivers[i]);
        CHECK(are_same(&after, &models[i]));
        CHECK(takes[i] || memcmp(&receivers[i], &before[i], sizeof before[i]) == 0);
    }
}
