/*
 * Compares memmove, memcpy and memset of the package for Go with what each has to give, worked out byte by byte: that the
 * bytes are moved, that those around them stay, and what is returned.
 */
#include <stdint.h>
#include <stdio.h>
#include <stdlib.h>

void *go_memmove(void *to, const void *from, size_t len);
void *go_memcpy(void *to, const void *from, size_t len);
void *go_memset(void *to, int value, size_t len);

enum { ROOM = 6000, MIDDLE = 500, FARTHEST = 70 };
static const size_t LONGER[] = {255, 256, 257, 511, 512, 1000, 1023, 1024, 1025, 1500, 4095, 4096, 4097};
static uint8_t memory[ROOM], wanted[ROOM];
static unsigned long calls;

static void fail(const char *what, size_t len, int distance) {
    printf("%s of %zu bytes, %d apart\n", what, len, distance);
    exit(1);
}

static void begin(void) {
    for (int i = 0; i < ROOM; i++) {
        memory[i] = wanted[i] = (uint8_t)(i * 31 + i / 251);
    }
}

static void end(const char *what, const void *got, const uint8_t *to, size_t len, int distance) {
    calls++;
    if (got != to) {
        fail(what, len, distance);
    }
    for (int i = 0; i < ROOM; i++) {
        if (memory[i] != wanted[i]) {
            fail(what, len, distance);
        }
    }
}

static void moves(size_t len, int distance) {
    uint8_t *from = memory + MIDDLE, *to = from + distance;
    begin();
    for (size_t i = 0; i < len; i++) {
        wanted[MIDDLE + distance + (int)i] = memory[MIDDLE + (int)i];
    }
    end("memmove", go_memmove(to, from, len), to, len, distance);
    if ((size_t)abs(distance) >= len) {
        begin();
        for (size_t i = 0; i < len; i++) {
            wanted[MIDDLE + distance + (int)i] = memory[MIDDLE + (int)i];
        }
        end("memcpy", go_memcpy(to, from, len), to, len, distance);
    }
}

static void sets(size_t len, int at, int value) {
    begin();
    for (size_t i = 0; i < len; i++) {
        wanted[MIDDLE + at + (int)i] = (uint8_t)value;
    }
    end("memset", go_memset(memory + MIDDLE + at, value, len), memory + MIDDLE + at, len, at);
}

static void all(size_t len, int step) {
    for (int distance = -FARTHEST; distance <= FARTHEST; distance += step) {
        moves(len, distance);
    }
    for (int at = 0; at < 16; at++) {
        sets(len, at, 0x1a5);
        sets(len, at, 0);
    }
}

int main(void) {
    for (size_t len = 0; len <= 200; len++) {
        all(len, 1);
    }
    for (size_t i = 0; i < sizeof LONGER / sizeof *LONGER; i++) {
        all(LONGER[i], 7);
    }
    printf("memory: %lu calls\n", calls);
    return 0;
}
