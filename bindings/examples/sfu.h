/*
 * The core of an SFU, without sockets, clock or memory of its own: the packets of a sender go on to each of
 * several receivers under SSRCs, numbers, ids of extensions and mids of their own. As many datagrams as have come are
 * read at once, where they lie. A sender that starts again under its SSRC goes on with its second packet. Receivers that
 * get the same ids, elements and lengths are a group, which is prepared once: of each packet one header is made for the
 * group, and then written for each of them. No payload is copied, and none goes on with its padding.
 */
#ifndef SFU_H
#define SFU_H

#include <rtp_wire.h>

enum {
    SFU_RECEIVERS = 8,  /* at most so many */
    SFU_STREAMS = 16,   /* and so many SSRCs of the sender */
    SFU_DATAGRAMS = 32, /* and so many datagrams at once */
    SFU_HEADER = 2048,  /* a header that is sent on has at most so many bytes */
    SFU_WORDS = 2,      /* of the window of a stream: so many times 64 numbers up to the highest one */
    SFU_LONGEST_MID = 32,
    SFU_DATA = SFU_LONGEST_MID + 2 + 3 /* of a mid, a transport number and a send time */
};

/* What a receiver agreed to, and under what it gets the streams. */
typedef struct {
    rtpw_map map;           /* its ids of extensions */
    const char *mid;        /* its mids begin so, and end in the stream's number, a hexadecimal digit */
    uint32_t first_ssrc;    /* of the stream 0; each other stream has the next one */
    uint16_t number_offset; /* what is added to each sequence number */
} sfu_peer;

/* The way to a receiver. */
typedef struct {
    sfu_peer peer;
    uint16_t transport_number; /* of the next packet */
} sfu_route;

/* What may be put into each packet. */
enum { SFU_MID, SFU_TRANSPORT_NUMBER, SFU_SEND_TIME, SFU_PUTS };

/* What the receivers of a group have in common. */
typedef struct {
    rtpw_new_ids ids;     /* from the sender's ids to theirs */
    uint8_t id[SFU_PUTS]; /* theirs; 0 where they have none */
    uint8_t mid_len;      /* with the stream's digit; 0 where they have no id for it */
    uint8_t wide;         /* whether their ids or mids need the two-byte form: 0 or 1 */
} sfu_terms;

typedef struct {
    sfu_terms terms;
    rtpw_group prepared[RTPW_OTHER_FORM + 1]; /* for a packet whose block has this form */
    size_t receivers[SFU_RECEIVERS];          /* the places of their routes */
    size_t receiver_count;
} sfu_group;

typedef struct {
    uint32_t ssrc;
    rtpw_wide_restarting_receiver receiver; /* not for SRTP: there rtpw_wide_receiver takes what is authentic */
    uint64_t words[SFU_WORDS];
} sfu_stream;

/* What became of the datagrams: each one is counted in one of the first six. */
typedef struct {
    unsigned long taken;
    unsigned long replays; /* taken before */
    unsigned long late;    /* too old to tell, or far from the stream */
    unsigned long rtcp;    /* for who answers it: here nobody */
    unsigned long unreadable; /* no packets, or with malformed padding */
    unsigned long strangers; /* of one more SSRC than there is room for */
    unsigned long sent;      /* packets to receivers */
    unsigned long unsent;    /* to a receiver whose header had no room */
} sfu_counts;

typedef struct {
    sfu_route routes[SFU_RECEIVERS];
    uint8_t data[SFU_RECEIVERS][SFU_DATA]; /* of the elements that were put into the last packet of each route */
    size_t route_count;
    sfu_group groups[SFU_RECEIVERS];
    size_t group_count;
    sfu_stream streams[SFU_STREAMS];
    size_t stream_count;
    sfu_counts counts;
} sfu;

/* A packet to the receiver of this place: its header and then its payload, each where it lies. */
typedef struct {
    size_t receiver;
    const uint8_t *header;
    size_t header_len;
    const uint8_t *payload; /* without its padding: P of the header is clear */
    size_t payload_len;
} sfu_packet;

/* What goes to the receivers, with the headers. */
typedef struct {
    sfu_packet packets[SFU_DATAGRAMS * SFU_RECEIVERS];
    size_t count;
    uint8_t headers[SFU_DATAGRAMS * SFU_RECEIVERS * SFU_HEADER];
    size_t headers_len;
} sfu_output;

/* Adds a receiver of what the sender with this map sends, to an SFU that is {0} at first; false where there is
 * no room for it. */
bool sfu_add(sfu *sfu, const rtpw_map *sender, const sfu_peer *peer);

/* Takes datagrams that came at this moment, at most SFU_DATAGRAMS of them, each by its place in the buffer and its
 * length, and tells what goes out: payloads as they lie in the buffer. */
void sfu_receive(sfu *sfu, const uint8_t *buf, size_t size, rtpw_datagram *datagrams, size_t count,
                 uint64_t microseconds, sfu_output *out);

#endif
