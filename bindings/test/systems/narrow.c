/*
 * Results that are narrower than a register, as a caller sees them who takes the whole register, which the rules of RISC-V and
 * Apple on ARM allow: 128 kinds above 127 in a map, and functions that give back a bool or a byte. On x86-64 nobody may.
 */
#include "../../c/rtp_wire.h"

#include <stdio.h>

#ifdef __riscv
typedef uint64_t whole;
#else
typedef uint32_t whole;
#endif
/* The function, as one that gives back a whole register: where the compiler doesn't see which one it is. */
typedef void (*function)(void);
static function passed(function volatile it) {
    return it;
}
#define WHOLE(name, ...) ((whole (*)(__VA_ARGS__))passed((function)name))

static int faults, looked_at;
static void expect(const char *what, whole result, unsigned wanted) {
    looked_at++;
    if (result != wanted) {
        faults++;
        printf("narrow: %s: %llx and not %x\n", what, (unsigned long long)result, wanted);
    }
}
#define EXPECT(call, wanted) expect(#call, call, wanted)

int main(void) {
    static rtpw_map map;
    static rtpw_receiver receiver;
    static const uint8_t rtcp[8] = {0x80, 200, 0, 1}, rtp[12] = {0x80, 96};
    static const uint8_t text[3] = {'a', 'b', 'c'};
    static const char uri[] = "urn:ietf:params:rtp-hdrext:sdes:mid";
    static const uint8_t bytes[3] = {0xFF, 0xFF, 0xFF};
    uint64_t number = 0;
    rtpw_map_standard(&map);
    for (unsigned kind = 128; kind < 256; kind++) {
        if (rtpw_map_set(&map, 7, (uint8_t)kind) == RTPW_OK) {
            EXPECT(WHOLE(rtpw_map_get, const rtpw_map *, uint8_t)(&map, 7), kind);
        }
    }
    EXPECT(WHOLE(rtpw_map_get, const rtpw_map *, uint8_t)(&map, 0), RTPW_KIND_NONE);
    EXPECT(WHOLE(rtpw_id_of, const rtpw_map *, uint8_t)(&map, 255), 7);
    EXPECT(WHOLE(rtpw_is_rtcp, const uint8_t *, size_t)(rtcp, sizeof rtcp), 1);
    EXPECT(WHOLE(rtpw_is_rtcp, const uint8_t *, size_t)(rtp, sizeof rtp), 0);
    EXPECT(WHOLE(rtpw_kind_of_uri, const uint8_t *, size_t)((const uint8_t *)uri, sizeof uri - 1), RTPW_KIND_MID);
    EXPECT(WHOLE(rtpw_kind_of_uri, const uint8_t *, size_t)(bytes, 3), RTPW_KIND_NONE);
    EXPECT(WHOLE(rtpw_is_token, const uint8_t *, size_t)(text, 3), 1);
    EXPECT(WHOLE(rtpw_is_token, const uint8_t *, size_t)(bytes, 3), 0);
    EXPECT(WHOLE(rtpw_is_stream_id, const uint8_t *, size_t)(text, 3), 1);
    EXPECT(WHOLE(rtpw_is_stream_id, const uint8_t *, size_t)(bytes, 3), 0);
    EXPECT(WHOLE(rtpw_has_structure, const uint8_t *, size_t)(rtp, 3), 0);
    if (rtpw_receiver_start(&receiver, 1) == RTPW_OK && rtpw_receiver_receive(&receiver, 5, &number) == RTPW_OK) {
        EXPECT(WHOLE(rtpw_receiver_accepts, const rtpw_receiver *, uint64_t)(&receiver, number + 1), 1);
        EXPECT(WHOLE(rtpw_receiver_accepts, const rtpw_receiver *, uint64_t)(&receiver, number), 0);
        EXPECT(WHOLE(rtpw_receiver_standing_of, const rtpw_receiver *, uint64_t)(&receiver, number), RTPW_TAKEN);
    }
    printf("narrow: %d of %d differ\n", faults, looked_at);
    return faults != 0 || looked_at < 140;
}
