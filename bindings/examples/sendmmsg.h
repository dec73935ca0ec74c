/* sendmmsg and recvmmsg of Linux, and elsewhere, or where PLAIN_SOCKETS is defined, the same by a call for each datagram.
 * Include it first. */
#ifndef SENDMMSG_H
#define SENDMMSG_H

#ifdef _WIN32
#error "sockets of POSIX are needed: Linux, or macOS"
#elif defined(__linux__) && !defined(PLAIN_SOCKETS)
#define _GNU_SOURCE
#include <sys/socket.h>
#else
#define _DEFAULT_SOURCE
#include <sys/socket.h>
#include <sys/types.h>

struct mmsghdr {
    struct msghdr msg_hdr;
    unsigned msg_len;
};

/* How many were sent; -1 where the first one wasn't. */
static int sendmmsg(int socket, struct mmsghdr *messages, unsigned count, int flags) {
    unsigned at = 0;
    for (; at < count; at++) {
        ssize_t len = sendmsg(socket, &messages[at].msg_hdr, flags);
        if (len < 0) {
            break;
        }
        messages[at].msg_len = (unsigned)len;
    }
    return at == 0 && count != 0 ? -1 : (int)at;
}

/* How many have come, without waiting for more; -1 where there is none. */
static int recvmmsg(int socket, struct mmsghdr *messages, unsigned count, int flags, void *timeout) {
    unsigned at = 0;
    (void)timeout;
    for (; at < count; at++) {
        ssize_t len = recvmsg(socket, &messages[at].msg_hdr, flags);
        if (len < 0) {
            break;
        }
        messages[at].msg_len = (unsigned)len;
    }
    return at == 0 && count != 0 ? -1 : (int)at;
}
#endif

#endif
