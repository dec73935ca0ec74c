/* The three receivers of the examples, and what both programs read and print. */
#ifndef SFU_PEERS_H
#define SFU_PEERS_H

#include "sfu.h"
#include "utf8.h"

#include <stdio.h>
#include <stdlib.h>
#include <string.h>

/* An extension that the library doesn't know, and that two of the receivers agreed to. */
#define SEAT "urn:example:seat"
enum { SEAT_KIND = RTPW_KIND_OWN };

/* The kind whose URI this is. One that the library doesn't know gets a number of one's own, from RTPW_KIND_OWN on: the
 * same for the same URI in the maps of all peers, so that its elements go on. RTPW_KIND_NONE where these are used up. */
static inline uint8_t kind_of(const uint8_t *uri, size_t len) {
    static struct {
        const void *bytes;
        size_t len;
    } own[256 - RTPW_KIND_OWN] = {{SEAT, sizeof SEAT - 1}};
    static size_t count = 1;
    uint8_t kind = rtpw_kind_of_uri(uri, len);
    size_t at = 0;
    while (at < count && (own[at].len != len || memcmp(own[at].bytes, uri, len) != 0)) {
        at++;
    }
    if (kind == RTPW_KIND_NONE && at == count && count < sizeof own / sizeof *own) {
        void *kept = malloc(len);
        if (kept != NULL) {
            own[count].bytes = memcpy(kept, uri, len);
            own[count++].len = len;
        }
    }
    return kind != RTPW_KIND_NONE ? kind : at < count ? (uint8_t)(RTPW_KIND_OWN + at) : RTPW_KIND_NONE;
}

/* Low ids and short mids; ids and mids of the two-byte form; and one that agreed to no audio level. */
static const sfu_peer PEERS[3] = {
    {{.kind = {[2] = RTPW_KIND_MID, [5] = RTPW_KIND_TRANSPORT_NUMBER, [7] = RTPW_KIND_ABS_SEND_TIME,
               [9] = RTPW_KIND_AUDIO_LEVEL, [12] = SEAT_KIND}}, "m", 1000, 0},
    {{.kind = {[20] = RTPW_KIND_MID, [200] = RTPW_KIND_TRANSPORT_NUMBER, [255] = RTPW_KIND_ABS_SEND_TIME,
               [1] = RTPW_KIND_AUDIO_LEVEL, [254] = SEAT_KIND}}, "second_floor_camera_", 2000, 40000},
    {{.kind = {[14] = RTPW_KIND_MID, [1] = RTPW_KIND_TRANSPORT_NUMBER, [3] = RTPW_KIND_ABS_SEND_TIME}},
     "camera_of_alice", 3000, 65535},
};

static inline bool add_peers(sfu *sfu, const rtpw_map *sender) {
    return sfu_add(sfu, sender, &PEERS[0]) && sfu_add(sfu, sender, &PEERS[1]) && sfu_add(sfu, sender, &PEERS[2]);
}

/* How long a line of so many bytes is without its end: a line feed, and a carriage return before that. */
static inline size_t len_of(const char *line, size_t len) {
    if (len != 0 && line[len - 1] == '\n') {
        len -= len >= 2 && line[len - 2] == '\r' ? 2 : 1;
    }
    return len;
}

/* Whether the line maps an id of the sender, of one to three digits, which is done: `map ID URI`. */
static inline bool is_map_line(rtpw_map *map, const char *line, size_t len) {
    if (strncmp(line, "map ", 4) != 0) {
        return false;
    }
    size_t digits = strspn(line + 4, "0123456789");
    if (digits == 0 || digits > 3 || line[4 + digits] != ' ') {
        return false;
    }
    unsigned long id = strtoul(line + 4, NULL, 10);
    const uint8_t *uri = (const uint8_t *)line + 4 + digits + 1;
    size_t uri_len = len - 4 - digits - 1;
    if (id == 0 || id > 255 || uri_len == 0 || !is_utf8(uri, uri_len)) {
        return false;
    }
    if (rtpw_map_set(map, (uint8_t)id, kind_of(uri, uri_len)) != RTPW_OK) {
        rtpw_map_remove(map, (uint8_t)id); /* all numbers are used up: its elements go nowhere */
    }
    return true;
}

static inline void print_counts(const sfu_counts *it) {
    printf("taken %lu replays %lu late %lu rtcp %lu unreadable %lu strangers %lu sent %lu unsent %lu\n", it->taken,
           it->replays, it->late, it->rtcp, it->unreadable, it->strangers, it->sent, it->unsent);
}

#endif
