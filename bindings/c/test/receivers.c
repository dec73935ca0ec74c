/* Windows of other sizes, and senders that start again. The expected values are worked out by hand from
 * RFC 3711, 3.3.1 and 3.3.2, and RFC 3550, appendix A.1. */
#include "../rtp_wire.h"

#include <stdio.h>
#include <string.h>

static int failed = 0;

#define CHECK(holds) \
    do { \
        if (!(holds)) { \
            printf("line %d: %s\n", __LINE__, #holds); \
            failed = 1; \
        } \
    } while (0)

/* What a packet is told as: its status, and its number, or 7 where none is written. */
typedef struct {
    uint16_t low;
    int32_t status;
    uint64_t number;
} row;

static void a_thousand_numbers(void) {
    static const rtpw_wide_receiver NEW = {0};
    static const row ROWS[] = {
        {5000, RTPW_OK, 5000}, {3977, RTPW_OK, 3977}, {3977, RTPW_REFUSED, 7}, {3976, RTPW_REFUSED, 7},
        {5001, RTPW_OK, 5001}, {3978, RTPW_OK, 3978}, {5001, RTPW_REFUSED, 7}};
    rtpw_wide_receiver receiver = NEW;
    uint64_t words[16], number;
    size_t i;
    memset(words, 0xA5, sizeof words); /* what they hold before the first number isn't read */
    for (i = 0; i < sizeof ROWS / sizeof *ROWS; i++) {
        number = 7;
        CHECK(rtpw_wide_receiver_receive(&receiver, words, 16, ROWS[i].low, &number) == ROWS[i].status);
        CHECK(number == ROWS[i].number);
    }
    CHECK(receiver.highest == 5001 && receiver.started == 1);
    CHECK(rtpw_wide_receiver_number_of(&receiver, 4000) == 4000);
    CHECK(rtpw_wide_receiver_accepts(&receiver, words, 16, 4000));
    CHECK(rtpw_wide_receiver_record(&receiver, words, 16, 4000) == RTPW_OK);
    CHECK(rtpw_wide_receiver_record(&receiver, words, 16, 4000) == RTPW_REFUSED);
    CHECK(!rtpw_wide_receiver_accepts(&receiver, words, 16, 4000));
    CHECK(words[4000 / 64 % 16] >> 4000 % 64 & 1);
}

static void counts_of_words(void) {
    static const rtpw_wide_receiver NEW = {0};
    rtpw_wide_receiver receiver = NEW;
    static uint64_t words[513];
    uint64_t number = 7;
    CHECK(rtpw_wide_receiver_receive(&receiver, NULL, 0, 9, &number) == RTPW_BAD_FIELD && number == 7);
    CHECK(rtpw_wide_receiver_receive(&receiver, words, 513, 9, &number) == RTPW_BAD_FIELD && number == 7);
    CHECK(rtpw_wide_receiver_record(&receiver, words, 513, 9) == RTPW_BAD_FIELD && receiver.started == 0);
    CHECK(!rtpw_wide_receiver_accepts(&receiver, NULL, 0, 9));
    CHECK(rtpw_wide_receiver_start(&receiver, (uint64_t)1 << 48) == RTPW_BAD_FIELD);
    CHECK(rtpw_wide_receiver_start(&receiver, 1) == RTPW_OK && receiver.highest == 65536);
    CHECK(rtpw_wide_receiver_receive(&receiver, words, 512, 5, &number) == RTPW_OK && number == 65541);
    CHECK(rtpw_wide_receiver_receive(&receiver, words, 512, 65533, &number) == RTPW_OK && number == 65533);
    CHECK(rtpw_wide_receiver_receive(&receiver, words, 512, 32774, &number) == RTPW_OK && number == 32774);
}

static void judged(rtpw_restarting_receiver *receiver, const row *rows, size_t count) {
    size_t i;
    for (i = 0; i < count; i++) {
        uint64_t number = 7;
        CHECK(rtpw_restarting_receive(receiver, rows[i].low, &number) == rows[i].status);
        CHECK(number == rows[i].number);
    }
}

static void senders_start_again(void) {
    static const rtpw_restarting_receiver NEW = {0};
    static const row ROWS[] = {
        {1000, RTPW_OK, 66536},     {3999, RTPW_OK, 69535},         {6999, RTPW_REFUSED, 7}, {7001, RTPW_REFUSED, 7},
        {7000, RTPW_REFUSED, 7},    {7001, RTPW_RESTARTED, 203609}, {7001, RTPW_REFUSED, 7}, {7000, RTPW_OK, 203608},
        {65535, RTPW_REFUSED, 7},   {7002, RTPW_OK, 203610},        {0, RTPW_REFUSED, 7},    {65535, RTPW_REFUSED, 7},
        {0, RTPW_RESTARTED, 327680}};
    static const row VALID[] = {
        {500, RTPW_REFUSED, 7}, {502, RTPW_REFUSED, 7}, {503, RTPW_OK, 66039}, {603, RTPW_REFUSED, 7}, {602, RTPW_OK, 66138}};
    rtpw_restarting_receiver receiver = NEW;
    judged(&receiver, ROWS, sizeof ROWS / sizeof *ROWS);
    CHECK(receiver.highest == 327680 && receiver.started == 1 && receiver.in_row == 0);
    receiver = NEW;
    receiver.max_dropout = 100;
    receiver.min_sequential = 2;
    judged(&receiver, VALID, sizeof VALID / sizeof *VALID);
}

/* The wide form, with the bounds that are safe where packets are sent again, and with those of RFC 3550, A.1. */
static void judged_by_words(rtpw_wide_restarting_receiver *receiver, uint64_t *words, size_t words_count, const row *rows,
                            size_t count) {
    size_t i;
    for (i = 0; i < count; i++) {
        uint64_t number = 7;
        CHECK(rtpw_wide_restarting_receive(receiver, words, words_count, rows[i].low, &number) == rows[i].status);
        CHECK(number == rows[i].number);
    }
}

static void late_packets_are_no_restart(void) {
    static const rtpw_wide_restarting_receiver NEW = {0};
    /* 1,023 below is in the window and 1,024 isn't; 2,999 below is of the stream and 3,000 isn't */
    static const row SAFE[] = {
        {5000, RTPW_OK, 70536},     {4800, RTPW_OK, 70336},     {4801, RTPW_OK, 70337},         {4801, RTPW_REFUSED, 7},
        {3977, RTPW_OK, 69513},     {3976, RTPW_REFUSED, 7},    {3977, RTPW_REFUSED, 7},        {2001, RTPW_REFUSED, 7},
        {2002, RTPW_REFUSED, 7},    {5001, RTPW_OK, 70537},     {2002, RTPW_REFUSED, 7},        {2001, RTPW_REFUSED, 7},
        {2002, RTPW_REFUSED, 7},    {2000, RTPW_REFUSED, 7},    {2001, RTPW_RESTARTED, 198609}, {2000, RTPW_OK, 198608}};
    /* the RFC's: 99 below is of the stream and 100 isn't, and a new source is valid with its second packet */
    static const row RFC[] = {
        {999, RTPW_REFUSED, 7},  {1000, RTPW_OK, 66536},  {901, RTPW_OK, 66437}, {900, RTPW_REFUSED, 7}, {902, RTPW_OK, 66438},
        {899, RTPW_REFUSED, 7},  {900, RTPW_RESTARTED, 197508}};
    uint64_t words[513], number = 7;
    rtpw_wide_restarting_receiver receiver = NEW;
    judged_by_words(&receiver, words, 16, SAFE, sizeof SAFE / sizeof *SAFE);
    CHECK(receiver.highest == 198609 && receiver.started == 1 && receiver.in_row == 0);
    receiver = NEW;
    receiver.max_misorder = 100;
    receiver.min_sequential = 2;
    judged_by_words(&receiver, words, 2, RFC, sizeof RFC / sizeof *RFC);
    /* a window of more than 3,000 numbers is the bound */
    receiver = NEW;
    CHECK(rtpw_wide_restarting_receive(&receiver, words, 512, 40000, &number) == RTPW_OK && number == 105536);
    CHECK(rtpw_wide_restarting_receive(&receiver, words, 512, 7233, &number) == RTPW_OK && number == 72769);
    CHECK(rtpw_wide_restarting_receive(&receiver, words, 0, 9, &number) == RTPW_BAD_FIELD && number == 72769);
    CHECK(rtpw_wide_restarting_receive(&receiver, words, 513, 9, &number) == RTPW_BAD_FIELD && receiver.highest == 105536);
}

/* A sender that starts again at 4,999 after 5,000 and 5,002 isn't seen: what was taken is refused, and all else is late. */
static void a_restart_that_is_not_seen(void) {
    static const row ROWS[] = {{5000, RTPW_OK, 70536}, {5002, RTPW_OK, 70538}, {4999, RTPW_OK, 70535},   {5000, RTPW_REFUSED, 7},
                               {5001, RTPW_OK, 70537}, {5002, RTPW_REFUSED, 7}, {5003, RTPW_OK, 70539}};
    rtpw_wide_restarting_receiver receiver = {0};
    uint64_t words[16];
    judged_by_words(&receiver, words, 16, ROWS, sizeof ROWS / sizeof *ROWS);
}

/* Of a row each packet has the number after that of the one before; another one outside of the stream begins a row. */
static void rows_have_numbers_one_after_another(void) {
    static const struct {
        uint16_t low;
        int32_t status;
        uint8_t in_row;
    } ROWS[] = {{5, RTPW_REFUSED, 1},  {9, RTPW_REFUSED, 1},     {10, RTPW_REFUSED, 2},    {20, RTPW_REFUSED, 1},
                {21, RTPW_REFUSED, 2}, {22, RTPW_OK, 0},         {30000, RTPW_REFUSED, 1}, {40000, RTPW_REFUSED, 1},
                {22, RTPW_REFUSED, 0}, {40001, RTPW_REFUSED, 1}, {40002, RTPW_RESTARTED, 0}};
    rtpw_restarting_receiver receiver = {0};
    rtpw_wide_restarting_receiver wide = {0};
    uint64_t words[16], number;
    size_t i;
    receiver.min_sequential = wide.min_sequential = 3;
    for (i = 0; i < sizeof ROWS / sizeof *ROWS; i++) {
        CHECK(rtpw_restarting_receive(&receiver, ROWS[i].low, &number) == ROWS[i].status);
        CHECK(receiver.in_row == ROWS[i].in_row);
        CHECK(rtpw_wide_restarting_receive(&wide, words, 16, ROWS[i].low, &number) == ROWS[i].status);
        CHECK(wide.in_row == ROWS[i].in_row);
    }
}

/* What is known of numbers at the ends of the window. */
static void numbers_are_told_apart(void) {
    rtpw_receiver receiver;
    rtpw_wide_receiver wide;
    uint64_t words[513], number;
    CHECK(rtpw_receiver_start(&receiver, 1) == RTPW_OK && rtpw_wide_receiver_start(&wide, 1) == RTPW_OK);
    CHECK(rtpw_receiver_standing_of(&receiver, 0) == RTPW_NEW);
    CHECK(rtpw_wide_receiver_standing_of(&wide, words, 16, 0) == RTPW_NEW);
    CHECK(rtpw_receiver_receive(&receiver, 1000, &number) == RTPW_OK && number == 66536);
    CHECK(rtpw_receiver_standing_of(&receiver, 66536) == RTPW_TAKEN && rtpw_receiver_standing_of(&receiver, 66537) == RTPW_NEW);
    CHECK(rtpw_receiver_standing_of(&receiver, 66409) == RTPW_NEW && rtpw_receiver_standing_of(&receiver, 66408) == RTPW_TOO_OLD);
    CHECK(rtpw_wide_receiver_record(&wide, words, 16, 66536) == RTPW_OK);
    CHECK(rtpw_wide_receiver_standing_of(&wide, words, 16, 66536) == RTPW_TAKEN);
    CHECK(rtpw_wide_receiver_standing_of(&wide, words, 16, 65513) == RTPW_NEW);
    CHECK(rtpw_wide_receiver_standing_of(&wide, words, 16, 65512) == RTPW_TOO_OLD);
    CHECK(rtpw_wide_receiver_standing_of(&wide, words, 513, 66537) == RTPW_NO_WINDOW);
    CHECK(rtpw_wide_receiver_standing_of(&wide, NULL, 0, 66537) == RTPW_NO_WINDOW);
}

int main(void) {
    a_thousand_numbers();
    counts_of_words();
    senders_start_again();
    late_packets_are_no_restart();
    a_restart_that_is_not_seen();
    rows_have_numbers_one_after_another();
    numbers_are_told_apart();
    return failed;
}
