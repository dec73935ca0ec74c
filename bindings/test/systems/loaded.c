/*
 * Does what Python's ctypes does with the library of a wheel: loads it from its path, asks for each function, has structs
 * of the sizes that the package declares, reads a packet and puts it into columns.
 *
 * usage: loaded LIBRARY        with sizes.h, a line SIZE(struct, bytes) for each struct and FUNCTION(name) for each function
 */
#include "../../c/rtp_wire.h"

#include <stdio.h>
#include <string.h>
#ifdef _WIN32
#include <windows.h>
static void *load(const char *path) {
    return (void *)LoadLibraryExA(path, NULL, LOAD_LIBRARY_SEARCH_DEFAULT_DIRS | LOAD_LIBRARY_SEARCH_DLL_LOAD_DIR);
}
static void *function(void *library, const char *name) {
    return (void *)(uintptr_t)GetProcAddress((HMODULE)library, name);
}
#else
#include <dlfcn.h>
static void *load(const char *path) {
    return dlopen(path, RTLD_NOW | RTLD_LOCAL);
}
static void *function(void *library, const char *name) {
    return dlsym(library, name);
}
#endif

#define CHECK(x)                                                                                                       \
    do {                                                                                                               \
        if (!(x)) {                                                                                                    \
            fprintf(stderr, "loaded.c:%d: %s\n", __LINE__, #x);                                                        \
            return 1;                                                                                                  \
        }                                                                                                              \
    } while (0)

/* A column of bindings/python/src/columns.c. */
typedef struct {
    size_t offset;
    size_t size;
    uint8_t *to;
    size_t stride;
} column;
typedef void (*standard)(rtpw_map *);
typedef int32_t (*read_packet)(const uint8_t *, size_t, const rtpw_map *, rtpw_whole_packet *);
typedef void (*parse_columns)(const uint8_t *, size_t, const rtpw_map *, const uint64_t *, const uint64_t *, size_t,
                              const column *, size_t, const column *, size_t, const column *);
typedef const char *(*version)(void);

/* RFC 3550, 5.1, and RFC 8285, 4.2: number 0x1234, time 160, source 7; one-byte form, id 1 (an audio level, by the usual
 * ids) with 0x85: a voice at -5 dBov (RFC 6464). */
static const uint8_t PACKET[24] = {0x90, 0x6F, 0x12, 0x34, 0, 0, 0, 160, 0, 0, 0, 7, 0xBE, 0xDE, 0, 1, 0x10, 0x85, 0, 0, 1, 2, 3, 4};
enum { COUNT = 100 };

static int reads(void *library, const rtpw_map *map) {
    rtpw_whole_packet packet;
    CHECK(((read_packet)(uintptr_t)function(library, "rtpw_read"))(PACKET, sizeof PACKET, map, &packet) == RTPW_OK);
    CHECK(packet.header.sequence_number == 0x1234 && packet.header.timestamp == 160 && packet.header.ssrc == 7);
    CHECK(packet.header.values.has_audio_level && packet.header.values.audio_level == -5);
    CHECK(packet.header.header_len == 20 && packet.unpadded_len == 4);
    CHECK(((read_packet)(uintptr_t)function(library, "rtpw_read"))(PACKET, 11, map, &packet) == RTPW_CUT_FIXED_PART);
    return 0;
}

/* More than are read at once, so that it calls the library several times. */
static int puts_columns(void *library, const rtpw_map *map) {
    static uint8_t buf[COUNT * sizeof PACKET];
    static uint64_t at[COUNT], len[COUNT];
    static uint32_t sources[COUNT];
    static int8_t levels[COUNT];
    static uint8_t are_rtp[COUNT];
    for (size_t i = 0; i < COUNT; i++) {
        memcpy(buf + i * sizeof PACKET, PACKET, sizeof PACKET);
        buf[i * sizeof PACKET + 11] = (uint8_t)i;
        at[i] = i * sizeof PACKET;
        len[i] = sizeof PACKET;
    }
    column source = {offsetof(rtpw_datagram, packet) + offsetof(rtpw_packet, ssrc), 4, (uint8_t *)sources, 4};
    column level = {offsetof(rtpw_whole_datagram, packet.header.values.audio_level), 1, (uint8_t *)levels, 1};
    column is_rtp = {0, 1, are_rtp, 1};
    ((parse_columns)(uintptr_t)function(library, "columns_parse"))(buf, sizeof buf, map, at, len, COUNT, &source, 1, &level, 1, &is_rtp);
    for (size_t i = 0; i < COUNT; i++) {
        CHECK(sources[i] == i && levels[i] == -5 && are_rtp[i] == 1);
    }
    return 0;
}

int main(int argc, char **argv) {
    CHECK(argc == 2);
    void *library = load(argv[1]);
    CHECK(library != NULL);
#define SIZE(type, bytes) CHECK(sizeof(type) == (bytes));
#define FUNCTION(name) CHECK(function(library, #name) != NULL);
#include "sizes.h"
    CHECK(strcmp(((version)(uintptr_t)function(library, "package_version"))(), VERSION) == 0);
    rtpw_map map;
    ((standard)(uintptr_t)function(library, "rtpw_map_standard"))(&map);
    return reads(library, &map) || puts_columns(library, &map);
}
