/* The parts of the programs `hostile` and `fuzz`. Each makes its calls once, with random bytes and values. */
#ifndef HOSTILE_H
#define HOSTILE_H

#include "memory.h"

#include "../c/rtp_wire.h"
#include "walk.h"

/* The longest datagram that is tried: the longest header and a little. */
#define LONGEST 262300

/* hostile.c makes these of random numbers, and fuzz.c of its input. */

/* A length, from 0 on: mostly short, at times past the longest header. */
size_t random_len(void);
/* Random bytes, most of which begin as a packet does. */
void random_packet(uint8_t *bytes, size_t len);
/* Random bytes, most of which are a block's elements. */
void random_body(uint8_t *body, size_t len, int form);
/* A packet of at most so many bytes, most of which has a block that is full of elements: how long it is. */
size_t filled_packet(uint8_t *bytes, size_t most);
/* An id, mostly one of those that the bodies have. */
uint8_t random_id(void);

/* A map in which most numbers are those of kinds. */
void random_map(rtpw_map *map);
/* A map of few ids, mostly; at times of ids up to 14 alone, and without a layer allocation. */
void sparse_map(rtpw_map *map);
/* A header, most of which can be written, and whether it can. */
void random_header(rtpw_header *header);
bool is_given(const rtpw_header *header);
/* Writes the fixed part and the CSRC list of a header that has at most 15 sources: how many bytes they take. */
size_t write_fixed(const rtpw_header *header, bool has_extension, uint8_t *bytes);
/* Writes the block of a header that can be written, with these bytes as its layer allocation where there are any. */
size_t write_block(const rtpw_map *map, const rtpw_values *values, const uint8_t *allocation, size_t len,
                   uint8_t *bytes);
/* The kinds of the header's values that rtpw_write leaves out, or rtpw_write_layers, each as its bit. */
uint32_t kinds_left(const rtpw_map *map, const rtpw_header *header, bool with_layers);

/* What has to be told of the packet that the bytes are, as the walk found it. */
void packet_told(const uint8_t *bytes, size_t len, const walked *it, rtpw_packet *packet);
/* What rtpw_read has to return of the bytes, as the walk found them. */
int32_t whole_status(const uint8_t *bytes, size_t len, const walked *it);
/* Whether this is told of the whole packet that the bytes are, as the walk found it. */
bool whole_is_told(const uint8_t *bytes, size_t len, const walked *it, const rtpw_map *map,
                   const rtpw_whole_packet *packet);
/* The bytes after the last field of a packet that is told may be anything. */
#define PACKET_BYTES (offsetof(rtpw_packet, block_profile) + 2)

void packets_round(void);
void datagrams_round(void);
void changes_round(void);
void growing_round(void);
void elements_round(void);
void receivers_round(void);
void arrivals_round(void);
void wide_receivers_round(void);
void restarting_round(void);
void reception_round(void);
void wide_restarting_round(void);
void values_round(void);
void headers_round(void);
void wholes_round(void);
void maps_round(void);
void writing_round(void);
void layers_round(void);
void written_elements_round(void);
void payload_round(void);
void standard_round(void);
void routed_round(void);
void filled_round(void);
void filled_routed_round(void);
void texts_round(void);
void places_round(void);
void one_value_round(void);

static inline void every_round(void) {
    packets_round();
    datagrams_round();
    changes_round();
    growing_round();
    elements_round();
    receivers_round();
    arrivals_round();
    wide_receivers_round();
    restarting_round();
    reception_round();
    wide_restarting_round();
    values_round();
    headers_round();
    wholes_round();
    maps_round();
    writing_round();
    layers_round();
    written_elements_round();
    payload_round();
    standard_round();
    routed_round();
    filled_round();
    filled_routed_round();
    texts_round();
    places_round();
    one_value_round();
}

#endif
