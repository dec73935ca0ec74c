/* Receives the packets of one stream, refuses replays, and goes on where its sender has started again. */
#include <inttypes.h>
#include <rtp_wire.h>
#include <stdio.h>
#include <string.h>

enum { WORDS = 16 }; /* a window of 1,024 numbers */

typedef struct {
    rtpw_wide_restarting_receiver receiver; /* one for each SSRC, of zeros */
    uint64_t words[WORDS];
} stream;

static void receive(stream *stream, const rtpw_map *map, const uint8_t *datagram, size_t len) {
    rtpw_whole_packet packet;
    uint64_t number;
    int32_t status = rtpw_read(datagram, len, map, &packet);
    if (status != RTPW_OK || !packet.padding_fits) { /* RTPW_RTCP goes to who answers it */
        puts(status != RTPW_OK ? rtpw_status_text(status) : "malformed padding");
        return;
    }
    status = rtpw_wide_restarting_receive(&stream->receiver, stream->words, WORDS, packet.header.sequence_number,
                                          &number);
    if (status == RTPW_RESTARTED) {
        puts("the sender has started again"); /* and its packet is taken */
    } else if (status != RTPW_OK) {
        puts("a replay, too old, or not of the stream yet");
        return;
    }
    if (packet.header.values.has_audio_level) { /* of the payload the padding is no media */
        printf("%" PRIu64 ": %d dB, %zu bytes\n", number, packet.header.values.audio_level, packet.unpadded_len);
    }
}

int main(void) {
    static const uint8_t packet[] = {0x90, 111,  0,    5, 0, 0,    0,    160, 0, 0, 0,
                                     7,    0xBE, 0xDE, 0, 1, 0x10, 0x8A, 0,   0, 1, 2};
    static const uint8_t padded[] = {0xB0, 111, 0, 6,    0,    0, 0, 161, 0, 0, 0, 7, 0xBE,
                                     0xDE, 0,   1, 0x10, 0x8B, 0, 0, 1,   2, 3, 0, 0, 3};
    static const uint8_t report[] = {0x80, 204, 0, 2, 0, 0, 0, 7, 'R', 'T', 'C', 'P'}; /* at the same port */
    uint8_t later[sizeof packet];
    rtpw_map map; /* of the ids that SDP negotiated; here the usual ones */
    rtpw_map_standard(&map);
    static stream stream;
    receive(&stream, &map, packet, sizeof packet);
    receive(&stream, &map, packet, sizeof packet);
    receive(&stream, &map, packet, 11);
    receive(&stream, &map, report, sizeof report);
    receive(&stream, &map, padded, sizeof padded);
    memcpy(later, packet, sizeof later);
    for (uint16_t number = 40000; number < 40003; number++) { /* the second of two in a row begins an epoch */
        if (rtpw_set_sequence_number(later, sizeof later, number) == RTPW_OK) {
            receive(&stream, &map, later, sizeof later);
        }
    }
}
