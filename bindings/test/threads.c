/* Four threads read one const packet under one const map, and write one const header, at once. Each has a
 * receiver and a buffer of its own; with an argument they have one receiver, which ThreadSanitizer has to report. */
#include "../c/rtp_wire.h"

#include <pthread.h>
#include <stdio.h>
#include <string.h>

#define THREADS 4
#define ROUNDS 200000

/* V=2, X, M, PT=96; 5; 160; 7; the elements 1 (AA) and 2 (BB CC); a payload of two bytes */
static const uint8_t DATAGRAM[26] = {0x90, 0xE0, 0, 5, 0, 0, 0, 160, 0, 0, 0, 7, 0xBE,
                                     0xDE, 0, 2, 0x10, 0xAA, 0x21, 0xBB, 0xCC, 0, 0, 0, 1, 2};

static const rtpw_map MAP = {{0, RTPW_KIND_AUDIO_LEVEL, RTPW_KIND_TRANSPORT_NUMBER}};

static const rtpw_new_ids IDS = {{0, 2, 1}};

/* The header of DATAGRAM is written again as it was, and then has its two ids the other way round. */
static int is_written(void) {
    rtpw_header header;
    uint8_t buf[sizeof DATAGRAM];
    size_t len;
    return rtpw_parse(DATAGRAM, sizeof DATAGRAM, &MAP, &header) == RTPW_OK && header.header_len == 24 &&
           rtpw_write(&MAP, &header, buf, sizeof buf, &len) == RTPW_OK && len == 24 && memcmp(buf, DATAGRAM, 24) == 0 &&
           rtpw_renumber(buf, len, &IDS) == RTPW_OK && buf[16] == 0x20 && buf[18] == 0x11;
}

static rtpw_receiver shared;
static int is_shared;

static void *reads(void *failed) {
    rtpw_receiver own = {0, 0, 0, 0}, *receiver = is_shared ? &shared : &own;
    for (int i = 0; i < ROUNDS; i++) {
        rtpw_packet packet;
        rtpw_element element;
        rtpw_values values;
        uint64_t number;
        if (rtpw_packet_parse(DATAGRAM, sizeof DATAGRAM, &packet) != RTPW_OK || packet.ssrc != 7 ||
            packet.payload_len != 2 ||
            rtpw_last_element(DATAGRAM + packet.body_at, packet.body_len, packet.block_form, 2, &element) != RTPW_OK ||
            element.data_at != 3 || element.data_len != 2 ||
            rtpw_values_read(DATAGRAM + packet.body_at, packet.body_len, packet.block_form, &MAP, &values) != RTPW_OK ||
            values.audio_level != -42 || values.voice_activity != 1 || values.transport_number != 0xBBCC ||
            rtpw_receiver_receive(receiver, (uint16_t)i, &number) != RTPW_OK || number != (uint64_t)i ||
            !is_written()) {
            *(int *)failed = 1;
        }
    }
    return NULL;
}

int main(int argc, char **argv) {
    (void)argv;
    is_shared = argc > 1;
    pthread_t threads[THREADS];
    int failed[THREADS] = {0, 0, 0, 0};
    for (int i = 0; i < THREADS; i++) {
        if (pthread_create(&threads[i], NULL, reads, &failed[i]) != 0) {
            return 2;
        }
    }
    int all = 0;
    for (int i = 0; i < THREADS; i++) {
        pthread_join(threads[i], NULL);
        all |= failed[i];
    }
    printf("threads: %d of them, %d rounds each: %s\n", THREADS, ROUNDS, all ? "FAILED" : "same");
    return all;
}
