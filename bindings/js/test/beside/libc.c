/*
 * As much of the C library as the tests of bindings/test and bindings/c/test call, for WebAssembly, and the call by which
 * JavaScript runs them: run(seed, rounds), 0 where each check held.
 */
#include <stdarg.h>
#include <stdbool.h>
#include <stdint.h>
#include <stdio.h>
#include <stdlib.h>
#include <string.h>
#include <sys/mman.h>

enum { PAGE = 65536, MOST_ROOMS = 512 };

__attribute__((import_module("host"), import_name("say"))) void say(uint32_t text, uint32_t len);

void *memchr(const void *of, int byte, size_t len) {
    for (const uint8_t *it = of; len-- != 0; it++) {
        if (*it == (uint8_t)byte) {
            return (void *)it;
        }
    }
    return NULL;
}

int memcmp(const void *a, const void *b, size_t len) {
    const uint8_t *left = a, *right = b;
    uint64_t x = 0, y = 0;
    for (; len >= 8 && x == y; len -= 8, left += 8, right += 8) {
        __builtin_memcpy(&x, left, 8);
        __builtin_memcpy(&y, right, 8);
    }
    if (x != y) {
        return __builtin_bswap64(x) < __builtin_bswap64(y) ? -1 : 1;
    }
    for (size_t i = 0; i < len; i++) {
        if (left[i] != right[i]) {
            return left[i] - right[i];
        }
    }
    return 0;
}

/* Single instructions of WebAssembly. */
void *memcpy(void *to, const void *from, size_t len) {
    return __builtin_memcpy(to, from, len);
}

void *memmove(void *to, const void *from, size_t len) {
    return __builtin_memmove(to, from, len);
}

void *memset(void *to, int byte, size_t len) {
    return __builtin_memset(to, byte, len);
}

size_t strlen(const char *of) {
    size_t len = 0;
    while (of[len] != '\0') {
        len++;
    }
    return len;
}

char *strchr(const char *of, int byte) {
    return memchr(of, byte, strlen(of) + 1);
}

int strcmp(const char *a, const char *b) {
    size_t len = strlen(a) < strlen(b) ? strlen(a) : strlen(b);
    return memcmp(a, b, len + 1);
}

unsigned long long strtoull(const char *text, char **end, int base) {
    unsigned long long number = 0;
    (void)end;
    while (*text != '\0') {
        number = number * (unsigned)base + (unsigned)(*text++ - '0');
    }
    return number;
}

/* ---- Memory, at the end of that which the module has ---- */

static uint8_t *next;
static struct {
    uint8_t *at;
    size_t size;
} rooms[MOST_ROOMS];
static size_t room_count;

static uint8_t *more(size_t size) {
    size_t pages = (size + PAGE - 1) / PAGE;
    size_t at = __builtin_wasm_memory_grow(0, pages);
    return at == SIZE_MAX ? NULL : (uint8_t *)(at * PAGE);
}

void *malloc(size_t size) {
    return more(size);
}

void free(void *block) {
    (void)block;
}

void *mmap(void *at, size_t size, int access, int flags, int file, long offset) {
    (void)at, (void)access, (void)flags, (void)file, (void)offset;
    next = more(size);
    if (next == NULL || room_count == MOST_ROOMS) {
        return MAP_FAILED;
    }
    rooms[room_count].at = next;
    rooms[room_count++].size = size;
    return next;
}

int mprotect(void *at, size_t size, int access) {
    (void)at, (void)size, (void)access;
    return 0;
}

/* Whether no byte was written in front of a room or behind it, as nothing there may be touched. */
static bool kept(void) {
    for (size_t i = 0; i < room_count; i++) {
        for (size_t at = 0; at < PAGE; at++) {
            if (rooms[i].at[at] != 0 || rooms[i].at[rooms[i].size - 1 - at] != 0) {
                return false;
            }
        }
    }
    return true;
}

static void (*at_end)(void);

int atexit(void (*function)(void)) {
    at_end = function;
    return 0;
}

/* ---- What is said ---- */

static char line[1024];
static size_t said;

static void put(char byte) {
    if (said < sizeof line) {
        line[said++] = byte;
    }
}

static void put_number(unsigned long long number) {
    if (number >= 10) {
        put_number(number / 10);
    }
    put((char)('0' + number % 10));
}

int puts(const char *text) {
    return printf("%s\n", text);
}

static void put_digits(unsigned long long number) {
    for (int shift = 60; shift >= 0; shift -= 4) {
        put("0123456789abcdef"[number >> shift & 15]);
    }
}

/* %s, %d of a number from 0 on, %llu, %016llx, and nothing else. */
int printf(const char *format, ...) {
    va_list given;
    va_start(given, format);
    said = 0;
    for (; *format != '\0'; format++) {
        if (*format != '%') {
            put(*format);
        } else if (*++format == 's') {
            for (const char *it = va_arg(given, const char *); *it != '\0'; it++) {
                put(*it);
            }
        } else if (*format == 'd') {
            put_number((unsigned)va_arg(given, int));
        } else if (*format == '0') {
            put_digits(va_arg(given, unsigned long long));
            format += 5;
        } else {
            put_number(va_arg(given, unsigned long long));
            format += 2;
        }
    }
    va_end(given);
    say((uint32_t)(uintptr_t)line, (uint32_t)said);
    return (int)said;
}

int fflush(int stream) {
    return stream;
}

static char *digits(char *end, uint32_t number) {
    *--end = '\0';
    do {
        *--end = (char)('0' + number % 10);
        number /= 10;
    } while (number != 0);
    return end;
}

#ifdef BY_HAND
int main_of_test(void);
#else
int main_of_test(int argc, char **argv);
#endif

/* What the test returns; 2 where a byte in front of a buffer or behind it was written. */
__attribute__((export_name("run"))) int run(uint32_t seed, uint32_t rounds) {
    char room[2][16];
    char *words[] = {(char *)"hostile", digits(room[0] + 16, seed), digits(room[1] + 16, rounds), NULL};
#ifdef BY_HAND
    (void)words;
    int status = main_of_test();
#else
    int status = main_of_test(3, words);
#endif
    if (at_end != NULL) {
        at_end();
    }
    return status != 0 ? status : kept() ? 0 : 2;
}
