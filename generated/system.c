/*
 * What the program calls of the system: why a call failed, and, on others than Linux on x86-64 and ARM, what their C
 * libraries have otherwise.
 */
#include <errno.h>
#include <signal.h>
#include <stddef.h>
#include <stdint.h>
#ifdef _WIN32
#include <fcntl.h>
#include <io.h>
#else
#include <unistd.h>
#endif
#ifdef __x86_64__
#include <cpuid.h>
#endif

int rattle_errno(void);
int64_t rtp_lines_read(int file, void *bytes, size_t len);
int64_t rtp_lines_write(int file, const void *bytes, size_t len);
void *rtp_lines_sysv_signal(int number, void *handler);
const uint32_t *rtp_lines_x86_get_cpuid_feature_leaf(unsigned leaf);

int rattle_errno(void) {
    return errno;
}

/* As much as each system takes by one call: macOS refuses 2^31 bytes, and Windows counts them in 32 bits. */
static unsigned at_once(size_t len) {
    return len < 0x40000000 ? (unsigned)len : 0x40000000;
}

int64_t rtp_lines_read(int file, void *bytes, size_t len) {
    return read(file, bytes, at_once(len));
}

int64_t rtp_lines_write(int file, const void *bytes, size_t len) {
    return write(file, bytes, at_once(len));
}

/* The first call of the program: that a reader has gone is told by a write that fails, and no signal. Windows has none, and
 * there the bytes are to stay what they are at the ends of lines. */
void *rtp_lines_sysv_signal(int number, void *handler) {
    (void)number;
    (void)handler;
#ifdef _WIN32
    _setmode(0, _O_BINARY);
    _setmode(1, _O_BINARY);
#else
    signal(SIGPIPE, SIG_IGN);
#endif
    return NULL;
}

/* What the processor has, as glibc tells it of two leaves of CPUID: four registers, and what can be used of them. Only on
 * x86-64 can there be too little for the program. */
const uint32_t *rtp_lines_x86_get_cpuid_feature_leaf(unsigned leaf) {
    static uint32_t all[2][8];
    uint32_t *told = all[leaf != 0];
#ifdef __x86_64__
    __get_cpuid(leaf == 0 ? 1 : 0x80000001, &told[4], &told[5], &told[6], &told[7]);
#else
    told[6] = UINT32_MAX;
#endif
    return told;
}
