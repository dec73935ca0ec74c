/*
 * The SFU without a network: reads the datagrams of a sender, one a line in hexadecimal, the second one 20
 * milliseconds after the first and so on, and prints what each of three receivers gets: its number, 1 to 3, and
 * the packet. At last it prints what became of the datagrams. Lines `map ID URI` before the first datagram are
 * the sender's ids of extensions.
 *
 * usage: sfu_lines [REPEATS] < lines
 *        With REPEATS the datagrams are taken so many times, as many at once as can be, each time with sequence
 *        numbers that are higher by 1,000. No packet is printed, and of the time only that of the processor which
 *        this takes.
 */
#include "getline.h"
#include "sfu_peers.h"

#include <stdlib.h>
#include <time.h>

enum { MOST = 1000 }; /* so many datagrams at most are taken more than once */

/* Datagrams in one buffer. */
typedef struct {
    uint8_t *bytes;
    size_t len;
    rtpw_datagram datagrams[MOST];
    size_t count;
} kept;

/* How many bytes the line spells, which then stand at its beginning; -1 where it isn't hexadecimal. */
static long bytes_of(char *line, size_t len) {
    if (len % 2 != 0 || strspn(line, "0123456789abcdefABCDEF") != len) {
        return -1;
    }
    for (size_t i = 0; i < len / 2; i++) {
        char pair[3] = {line[2 * i], line[2 * i + 1], '\0'};
        line[i] = (char)strtoul(pair, NULL, 16);
    }
    return (long)(len / 2);
}

static void print_bytes(const uint8_t *bytes, size_t len) {
    for (size_t i = 0; i < len; i++) {
        printf("%02X", bytes[i]);
    }
}

/* Prints what the receivers get. */
static void print_packets(const sfu_output *out) {
    for (const sfu_packet *it = out->packets; it < out->packets + out->count; it++) {
        printf("%zu ", it->receiver + 1);
        print_bytes(it->header, it->header_len);
        print_bytes(it->payload, it->payload_len);
        putchar('\n');
    }
}

/* Keeps a datagram behind those that are kept; false where there is no room. */
static bool keep(kept *all, const char *bytes, size_t len) {
    uint8_t *grown = all->count == MOST ? NULL : realloc(all->bytes, all->len + len + 1);
    if (grown == NULL) {
        return false;
    }
    memcpy(grown + all->len, bytes, len);
    all->datagrams[all->count++] = (rtpw_datagram){.at = all->len, .len = len};
    all->bytes = grown;
    all->len += len;
    return true;
}

/* Takes so many datagrams, and makes their numbers higher. Returns how many bytes go to the receivers. */
static unsigned long long take(sfu *sfu, kept *all, rtpw_datagram *datagrams, size_t count, uint64_t microseconds,
                               sfu_output *out) {
    unsigned long long bytes = 0;
    sfu_receive(sfu, all->bytes, all->len, datagrams, count, microseconds, out);
    for (const sfu_packet *it = out->packets; it < out->packets + out->count; it++) {
        bytes += it->header_len + it->payload_len;
    }
    for (const rtpw_datagram *it = datagrams; it < datagrams + count; it++) {
        if (!it->is_rtcp && it->status == RTPW_OK) {
            (void)!rtpw_set_sequence_number(all->bytes + it->at, it->len,
                                            (uint16_t)(it->packet.sequence_number + 1000));
        }
    }
    return bytes;
}

/* Takes the datagrams so many times, and prints how long a million of them took. */
static void repeat(sfu *sfu, kept *all, unsigned long repeats, sfu_output *out) {
    unsigned long long bytes = 0;
    uint64_t microseconds = 0;
    clock_t start = clock();
    for (unsigned long i = 0; i < repeats; i++) {
        for (size_t at = 0, count; at < all->count; at += count, microseconds += 20000 * count) {
            count = all->count - at < SFU_DATAGRAMS ? all->count - at : SFU_DATAGRAMS;
            bytes += take(sfu, all, all->datagrams + at, count, microseconds, out);
        }
    }
    double seconds = (double)(clock() - start) / CLOCKS_PER_SEC;
    printf("%zu datagrams, %llu bytes to receivers, %.2f seconds of the processor for a million datagrams\n",
           repeats * all->count, bytes, seconds * 1e6 / (double)(repeats * all->count));
}

int main(int argc, char **argv) {
    static char *line;
    static kept all;
    static sfu sfu;
    static sfu_output out;
    unsigned long count = 0, lines = 0, repeats = argc == 2 ? strtoul(argv[1], NULL, 10) : 0;
    rtpw_map sender = {{0}};
    size_t room = 0;
    ssize_t read;
    while ((read = getline(&line, &room, stdin)) > 0) {
        size_t line_len = len_of(line, (size_t)read);
        lines++;
        if (count == 0 && is_map_line(&sender, line, line_len)) {
            continue;
        }
        long len = bytes_of(line, line_len);
        if (len < 0 || (count == 0 && !add_peers(&sfu, &sender))) {
            printf("line %lu: neither a map line nor hex\n", lines);
            return 2;
        }
        if (repeats == 0) {
            rtpw_datagram datagram = {.len = (size_t)len};
            sfu_receive(&sfu, (uint8_t *)line, datagram.len, &datagram, 1, 20000 * count, &out);
            print_packets(&out);
        } else if (!keep(&all, line, (size_t)len)) {
            return 3;
        }
        count++;
    }
    if (repeats != 0) {
        repeat(&sfu, &all, repeats, &out);
    }
    print_counts(&sfu.counts);
    return ferror(stdin) || fflush(stdout) != 0;
}
