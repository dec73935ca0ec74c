/*
 * The SFU on 127.0.0.1 (bindings/examples/sfu_sockets.c): what three receivers get of a short datagram and of a long
 * one, and how the program ends, also where a packet can't be sent. All ports are the system's choice. Expected values
 * are worked out by hand from RFC 3550, 5.1 and RFC 8285, 4.2 and 4.3.
 *
 * usage: udp PROGRAM
 */
#define _GNU_SOURCE
#include <arpa/inet.h>
#include <netinet/in.h>
#include <poll.h>
#include <sched.h>
#include <signal.h>
#include <stdint.h>
#include <stdio.h>
#include <stdlib.h>
#include <string.h>
#include <sys/socket.h>
#include <sys/wait.h>
#include <time.h>
#include <unistd.h>

#define CHECK(what) \
    do { \
        if (!(what)) { \
            printf("sfu_udp.c:%d: %s\n", __LINE__, #what); \
            exit(1); \
        } \
    } while (0)

enum { RECEIVERS = 3, FIXED = 12, SHORT = FIXED + 3, LONG = 60000, PATIENCE = 60 * 1000 /* milliseconds */ };

static struct sockaddr_in local(unsigned port) {
    struct sockaddr_in address = {0};
    address.sin_family = AF_INET;
    address.sin_addr.s_addr = htonl(INADDR_LOOPBACK);
    address.sin_port = htons((uint16_t)port);
    return address;
}

/* A socket at a free port, which is told. */
static int opened(unsigned *port) {
    struct sockaddr_in address = local(0);
    socklen_t len = sizeof address;
    int it = socket(AF_INET, SOCK_DGRAM, 0);
    CHECK(it >= 0);
    CHECK(bind(it, (struct sockaddr *)&address, len) == 0);
    CHECK(getsockname(it, (struct sockaddr *)&address, &len) == 0);
    *port = ntohs(address.sin_port);
    return it;
}

/* The program as it runs: its standard input and output, and its port. */
typedef struct {
    pid_t process;
    FILE *in, *out;
    unsigned port;
} running;

#define LEVEL_URI "urn:ietf:params:rtp-hdrext:ssrc-audio-level"

/* With these lines, and what ends them. */
static running started_with(const char *program, const unsigned *ports, const char *maps, const char *end) {
    running it;
    char words[RECEIVERS][8];
    int in[2], out[2];
    for (int i = 0; i < RECEIVERS; i++) { /* a decimal number, also with a zero before it */
        snprintf(words[i], sizeof words[i], "0%u", ports[i] & 0xFFFF);
    }
    CHECK(pipe(in) == 0 && pipe(out) == 0);
    it.process = fork();
    CHECK(it.process >= 0);
    if (it.process == 0) {
        signal(SIGPIPE, SIG_IGN);
        dup2(in[0], STDIN_FILENO);
        dup2(out[1], STDOUT_FILENO);
        close(in[0]), close(in[1]), close(out[0]), close(out[1]);
        execl(program, program, words[0], words[1], words[2], (char *)NULL);
        _exit(126);
    }
    close(in[0]), close(out[1]);
    it.in = fdopen(in[1], "w"), it.out = fdopen(out[0], "r");
    CHECK(it.in != NULL && it.out != NULL);
    CHECK(fputs(maps, it.in) >= 0 && fputs(end, it.in) >= 0 && fflush(it.in) == 0);
    CHECK(fscanf(it.out, "port %u", &it.port) == 1 && fgetc(it.out) == '\n');
    return it;
}

static running started(const char *program, const unsigned *ports) {
    return started_with(program, ports, "map 3 " LEVEL_URI "\n", "\n");
}

/* The input of the program has ended: what it prints then, and its status, are these. */
static void has_ended(running *it, const char *expected, int expected_status) {
    char said[200] = "";
    int status;
    CHECK(fgets(said, sizeof said, it->out) != NULL && strcmp(said, expected) == 0);
    CHECK(fgetc(it->out) == EOF && fclose(it->out) == 0);
    CHECK(waitpid(it->process, &status, 0) == it->process);
    CHECK(WIFEXITED(status) && WEXITSTATUS(status) == expected_status);
}

static void ends(running *it, const char *expected, int expected_status) {
    CHECK(fclose(it->in) == 0);
    has_ended(it, expected, expected_status);
}

/* What comes from the program, which sends from 127.0.0.1, within the time; what others send isn't looked at. */
static size_t received(int socket, unsigned port, uint8_t *bytes, size_t size) {
    for (;;) {
        struct pollfd waits = {socket, POLLIN, 0};
        struct sockaddr_in from = {0};
        socklen_t from_len = sizeof from;
        CHECK(poll(&waits, 1, PATIENCE) == 1);
        ssize_t len = recvfrom(socket, bytes, size, 0, (struct sockaddr *)&from, &from_len);
        CHECK(len >= 0);
        if (ntohs(from.sin_port) == port && from.sin_addr.s_addr == htonl(INADDR_LOOPBACK)) {
            return (size_t)len;
        }
    }
}

/* What each receiver gets before the payload, of the packet 5 with the level -10 dB and voice, and of the packet 6
 * without an extension; xyz is the time. */
#define OF(number, timestamp, ssrc) "\x90\x6F" number "\0\0\0" timestamp "\0\0" ssrc
#define SECOND "second_floor_camera_0"
#define ALICE "camera_of_alice0"
static const struct {
    const char *header;
    size_t len, time_at;
} EXPECTED[2][RECEIVERS] = {
    {{OF("\0\5", "\xA0", "\x03\xE8") "\xBE\xDE\0\3\x90\x8A\x21m0\x51\0\0\x72xyz", 28, 25},
     {OF("\x9C\x45", "\xA0", "\x07\xD0") "\x10\0\0\x09\1\1\x8A\x14\x15" SECOND "\xC8\2\0\0\xFF\3xyz\0", 52, 48},
     {OF("\0\4", "\xA0", "\x0B\xB8") "\xBE\xDE\0\6\xEF" ALICE "\x11\0\0\x32xyz", 40, 37}},
    {{OF("\0\6", "\xA1", "\x03\xE8") "\xBE\xDE\0\3\x21m0\x51\0\1\x72xyz\0\0", 28, 23},
     {OF("\x9C\x46", "\xA1", "\x07\xD0") "\x10\0\0\x08\x14\x15" SECOND "\xC8\2\0\1\xFF\3xyz", 48, 45},
     {OF("\0\5", "\xA1", "\x0B\xB8") "\xBE\xDE\0\6\xEF" ALICE "\x11\0\1\x32xyz", 40, 37}},
};

static uint8_t bytes[65536];

/* The time of the system in units of 2^-18 seconds, modulo 64 seconds: 24 bits. */
static uint32_t now(void) {
    struct timespec time;
    CHECK(clock_gettime(CLOCK_MONOTONIC, &time) == 0);
    return (uint32_t)(((uint64_t)time.tv_sec % 64 << 18) + ((uint64_t)(time.tv_nsec / 1000) << 18) / 1000000);
}

/* The receiver gets the packet of this place, with this payload, and it was sent since this time. */
static void comes_to(int socket, unsigned port, int packet, int receiver, const uint8_t *payload, size_t payload_len,
                     uint32_t since) {
    size_t len = received(socket, port, bytes, sizeof bytes);
    size_t header_len = EXPECTED[packet][receiver].len, time_at = EXPECTED[packet][receiver].time_at;
    const char *header = EXPECTED[packet][receiver].header;
    CHECK(len == header_len + payload_len);
    uint32_t time = (uint32_t)bytes[time_at] << 16 | (uint32_t)bytes[time_at + 1] << 8 | bytes[time_at + 2];
    CHECK(((time - since) & 0xFFFFFF) <= ((now() - since) & 0xFFFFFF));
    memcpy(bytes + time_at, "xyz", 3);
    CHECK(memcmp(bytes, header, header_len) == 0);
    CHECK(memcmp(bytes + header_len, payload, payload_len) == 0);
}

static const uint8_t LEVEL[] = {0x90, 0x6F, 0, 5, 0,    0,    0, 0xA0, 0, 0, 0, 0x2C,
                                0xBE, 0xDE, 0, 1, 0x30, 0x8A, 0, 0,    1, 2, 3};

static void sends(int socket, unsigned port, const uint8_t *datagram, size_t len) {
    struct sockaddr_in to = local(port);
    CHECK(sendto(socket, datagram, len, 0, (struct sockaddr *)&to, sizeof to) == (ssize_t)len);
}

static void stop(const running *it) {
    int status;
    CHECK(kill(it->process, SIGSTOP) == 0);
    CHECK(waitpid(it->process, &status, WUNTRACED) == it->process && WIFSTOPPED(status));
}

/* Where the system lets it, the clock of the programs that are started has counted 54 years more, 27,000,000 * 64 s:
 * its microseconds need more than 32 bits, and 2^18 times as much more than 64. */
static void go_on_for_years(void) {
#ifdef CLONE_NEWTIME
    FILE *offsets = unshare(CLONE_NEWTIME) == 0 ? fopen("/proc/self/timens_offsets", "w") : NULL;
    if (offsets != NULL) {
        fputs("monotonic 1728000000 0\n", offsets);
        fclose(offsets);
    }
#endif
}

/* How many datagrams of 1,212 bytes, for each of which Linux counts 2,304, fill three quarters of a room of 4 MiB, or
 * of the largest that a program may ask for: more than fit in the room that a socket has by itself. */
static unsigned long burst(void) {
    unsigned long room = 0;
    FILE *largest = fopen("/proc/sys/net/core/rmem_max", "r");
    if (largest == NULL || fscanf(largest, "%lu", &room) != 1 || room > 4 << 20) {
        room = 4 << 20;
    }
    CHECK(largest == NULL || fclose(largest) == 0);
    return room * 2 * 3 / 4 / 2304; /* Linux doubles what is asked for */
}

/* The sender's socket, and those of the receivers with their ports; a long datagram, the packet 6 without a block. */
static int sender, sockets[RECEIVERS];
static unsigned ports[RECEIVERS];
static uint8_t datagram[LONG] = {0x80, 0x6F, 0, 6, 0, 0, 0, 0xA1, 0, 0, 0, 0x2C};

/* Each receiver gets a short packet and a long one. */
static void of_each_length(const char *program) {
    running it = started(program, ports);
    uint32_t since = now();
    sends(sender, it.port, LEVEL, sizeof LEVEL);
    for (int i = 0; i < RECEIVERS; i++) {
        comes_to(sockets[i], it.port, 0, i, LEVEL + 20, 3, since);
    }
    since = now();
    sends(sender, it.port, datagram, LONG);
    for (int i = 0; i < RECEIVERS; i++) {
        comes_to(sockets[i], it.port, 1, i, datagram + FIXED, LONG - FIXED, since);
    }
    ends(&it, "taken 2 replays 0 late 0 rtcp 0 unreadable 0 strangers 0 sent 6 unsent 0\n", 0);
}

/* Nothing can be sent to the port 0: the other receivers get their packets, and the status says it. */
static void to_no_port(const char *program) {
    const unsigned to[RECEIVERS] = {ports[0], 0, ports[2]};
    running it = started(program, to);
    uint32_t since = now();
    sends(sender, it.port, LEVEL, sizeof LEVEL);
    comes_to(sockets[0], it.port, 0, 0, LEVEL + 20, 3, since);
    comes_to(sockets[2], it.port, 0, 2, LEVEL + 20, 3, since);
    ends(&it, "taken 1 replays 0 late 0 rtcp 0 unreadable 0 strangers 0 sent 3 unsent 0\n", 1);
}

/* Its lines may be long, end in a carriage return and a line feed, and have zeros before an id, which is decimal. It
 * takes nothing that is sent to another address, and no replay. */
static void with_other_lines(const char *program) {
    static char maps[70000];
    uint8_t thirteen[sizeof LEVEL];
    memset(maps, 'x', sizeof maps - 1);
    memcpy(maps, "map 7 ", 6);
    strcpy(maps + 65000, "\r\nmap 013 " LEVEL_URI "\r\nmap 09 " LEVEL_URI "\r\nmap 9 x\r\n");
    memcpy(thirteen, LEVEL, sizeof thirteen);
    thirteen[16] = 0xD0;
    running it = started_with(program, ports, maps, "\r\n");
    uint32_t since = now();
    sends(sender, it.port, thirteen, sizeof thirteen);
    for (int i = 0; i < RECEIVERS; i++) {
        comes_to(sockets[i], it.port, 0, i, LEVEL + 20, 3, since);
    }
    struct sockaddr_in elsewhere = local(it.port);
    elsewhere.sin_addr.s_addr = htonl(INADDR_LOOPBACK + 1);
    (void)!sendto(sender, datagram, 100, 0, (struct sockaddr *)&elsewhere, sizeof elsewhere);
    sends(sender, it.port, LEVEL, sizeof LEVEL);
    ends(&it, "taken 1 replays 1 late 0 rtcp 0 unreadable 0 strangers 0 sent 3 unsent 0\n", 0);
}

/* While it is stopped a datagram of no bytes comes, a short packet and a long one, and the end of its input: all are
 * taken, and go on as they are. */
static void while_it_is_stopped(const char *program) {
    running it = started(program, ports);
    uint32_t since = now();
    stop(&it);
    sends(sender, it.port, LEVEL, 0);
    sends(sender, it.port, LEVEL, sizeof LEVEL);
    sends(sender, it.port, datagram, LONG);
    CHECK(fclose(it.in) == 0 && kill(it.process, SIGCONT) == 0);
    for (int i = 0; i < RECEIVERS; i++) {
        comes_to(sockets[i], it.port, 0, i, LEVEL + 20, 3, since);
        comes_to(sockets[i], it.port, 1, i, datagram + FIXED, LONG - FIXED, since);
    }
    has_ended(&it, "taken 2 replays 0 late 0 rtcp 0 unreadable 1 strangers 0 sent 6 unsent 0\n", 0);
}

/* What comes while it is stopped waits, as much as its room holds. */
static void in_its_room(const char *program) {
    char expected[200];
    unsigned long count = burst();
    running it = started(program, ports);
    stop(&it);
    for (unsigned long i = 0; i < count; i++) {
        datagram[2] = (uint8_t)(i >> 8), datagram[3] = (uint8_t)i;
        sends(sender, it.port, datagram, 1212);
    }
    CHECK(fclose(it.in) == 0 && kill(it.process, SIGCONT) == 0);
    snprintf(expected, sizeof expected,
             "taken %lu replays 0 late 0 rtcp 0 unreadable 0 strangers 0 sent %lu unsent 0\n", count, 3 * count);
    has_ended(&it, expected, 0);
}

/* What it can't print is told by its status. */
static void unprinted(const char *program) {
    int status;
    running it = started(program, ports);
    CHECK(fclose(it.out) == 0 && fclose(it.in) == 0);
    CHECK(waitpid(it.process, &status, 0) == it.process && WIFEXITED(status) && WEXITSTATUS(status) == 1);
}

int main(int argc, char **argv) {
    unsigned own;
    CHECK(argc == 2);
    sender = opened(&own);
    for (int i = 0; i < RECEIVERS; i++) {
        sockets[i] = opened(&ports[i]);
    }
    for (size_t i = FIXED; i < LONG; i++) {
        datagram[i] = (uint8_t)(i * 7 + i / 256);
    }
    go_on_for_years();
    of_each_length(argv[1]);
    to_no_port(argv[1]);
    with_other_lines(argv[1]);
    while_it_is_stopped(argv[1]);
    in_its_room(argv[1]);
    unprinted(argv[1]);
    return 0;
}
