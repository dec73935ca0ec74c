/*
 * The SFU on 127.0.0.1: takes the datagrams of a sender at a UDP port that the system chooses, and sends each of
 * three receivers its packets, to the ports that are named.
 *
 * usage: sfu_sockets PORT PORT PORT
 *        From standard input come lines `map ID URI`, the sender's ids of extensions, and an empty line: then
 *        `port N` is printed. Where standard input ends, what has come by then is still sent, and what became of
 *        the datagrams is printed.
 *
 * It takes sockets of POSIX: Linux, where one call sends many datagrams, or macOS.
 */
#include "sendmmsg.h"
#include "sfu_peers.h"

#include <arpa/inet.h>
#include <netinet/in.h>
#include <poll.h>
#include <stdlib.h>
#include <sys/socket.h>
#include <sys/uio.h>
#include <time.h>
#include <unistd.h>

enum { ROOM = 65536 }; /* no datagram has so many bytes */

typedef struct {
    int socket;
    struct sockaddr_in to[3];
    unsigned long failed; /* packets that the system didn't send */
} network;

static struct sockaddr_in local(unsigned long port) {
    struct sockaddr_in address = {0};
    address.sin_family = AF_INET;
    address.sin_addr.s_addr = htonl(INADDR_LOOPBACK);
    address.sin_port = htons((uint16_t)port);
    return address;
}

/* A socket at a free port, with room for what comes while the program waits for a processor; -1 where there is
 * none. Prints the port. */
static int opened(void) {
    struct sockaddr_in address = local(0);
    socklen_t len = sizeof address;
    int room = 4 << 20, it = socket(AF_INET, SOCK_DGRAM, 0);
    if (it < 0 || setsockopt(it, SOL_SOCKET, SO_RCVBUF, &room, sizeof room) != 0 ||
        bind(it, (struct sockaddr *)&address, len) != 0 || getsockname(it, (struct sockaddr *)&address, &len) != 0) {
        return -1;
    }
    printf("port %u\n", (unsigned)ntohs(address.sin_port));
    return fflush(stdout) == 0 ? it : -1;
}

/* Sends what goes out, each header and payload from where it lies. One that can't be sent stops none behind it. */
static void send_packets(network *network, const sfu_output *out) {
    static struct mmsghdr messages[SFU_DATAGRAMS * SFU_RECEIVERS];
    static struct iovec parts[SFU_DATAGRAMS * SFU_RECEIVERS][2];
    for (size_t i = 0; i < out->count; i++) {
        const sfu_packet *it = &out->packets[i];
        parts[i][0] = (struct iovec){(void *)it->header, it->header_len};
        parts[i][1] = (struct iovec){(void *)it->payload, it->payload_len};
        messages[i].msg_hdr.msg_name = &network->to[it->receiver];
        messages[i].msg_hdr.msg_namelen = sizeof network->to[it->receiver];
        messages[i].msg_hdr.msg_iov = parts[i];
        messages[i].msg_hdr.msg_iovlen = 2;
    }
    for (size_t at = 0; at < out->count;) {
        int sent = sendmmsg(network->socket, messages + at, (unsigned)(out->count - at), 0);
        network->failed += sent <= 0;
        at += sent <= 0 ? 1 : (size_t)sent;
    }
}

/* Takes what has come. */
static void take(sfu *sfu, network *network) {
    static uint8_t buf[SFU_DATAGRAMS * ROOM];
    static sfu_output out;
    struct iovec places[SFU_DATAGRAMS];
    struct mmsghdr messages[SFU_DATAGRAMS] = {0};
    rtpw_datagram datagrams[SFU_DATAGRAMS];
    int count;
    for (size_t i = 0; i < SFU_DATAGRAMS; i++) {
        places[i] = (struct iovec){buf + i * ROOM, ROOM};
        messages[i].msg_hdr.msg_iov = &places[i];
        messages[i].msg_hdr.msg_iovlen = 1;
        datagrams[i].at = i * ROOM;
    }
    while ((count = recvmmsg(network->socket, messages, SFU_DATAGRAMS, MSG_DONTWAIT, NULL)) > 0) {
        struct timespec now;
        clock_gettime(CLOCK_MONOTONIC, &now);
        uint64_t microseconds = (uint64_t)now.tv_sec * 1000000 + (uint64_t)now.tv_nsec / 1000;
        for (int i = 0; i < count; i++) {
            datagrams[i].len = messages[i].msg_len;
        }
        sfu_receive(sfu, buf, sizeof buf, datagrams, (size_t)count, microseconds, &out);
        send_packets(network, &out);
    }
}

int main(int argc, char **argv) {
    static sfu sfu;
    static char *line;
    size_t room = 0, len;
    ssize_t read;
    rtpw_map sender = {{0}};
    network network = {0};
    while ((read = getline(&line, &room, stdin)) > 0 && (len = len_of(line, (size_t)read)) != 0) {
        if (!is_map_line(&sender, line, len)) {
            return 2;
        }
    }
    if (argc != 4 || !add_peers(&sfu, &sender)) {
        return 2;
    }
    for (int i = 0; i < 3; i++) {
        network.to[i] = local(strtoul(argv[i + 1], NULL, 10));
    }
    network.socket = opened();
    struct pollfd waits[2] = {{network.socket, POLLIN, 0}, {STDIN_FILENO, POLLIN, 0}};
    while (network.socket >= 0 && waits[1].revents == 0) {
        if (poll(waits, 2, -1) < 0) {
            return 1;
        }
        take(&sfu, &network);
    }
    print_counts(&sfu.counts);
    return network.socket < 0 || network.failed != 0 || ferror(stdin) || fflush(stdout) != 0;
}
