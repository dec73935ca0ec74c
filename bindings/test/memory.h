/* Random numbers, and memory beside which nothing may be touched. */
#ifndef MEMORY_H
#define MEMORY_H

#include <stdbool.h>
#include <stddef.h>
#include <stdint.h>
#include <stdio.h>
#include <stdlib.h>
#include <string.h>
#include <sys/mman.h>

/* Which call of which round failed: `hostile SEED ROUNDS` shows it again. */
extern uint64_t round_number;

#define CHECK(holds) \
    do { \
        if (!(holds)) { \
            printf("%s:%d: round %llu: %s\n", __FILE__, __LINE__, (unsigned long long)round_number, #holds); \
            fflush(stdout); \
            abort(); \
        } \
    } while (0)

extern uint64_t random_state;

/* splitmix64 */
static inline uint64_t random_u64(void) {
    uint64_t x = random_state += 0x9E3779B97F4A7C15u;
    x = (x ^ (x >> 30)) * 0xBF58476D1CE4E5B9u;
    x = (x ^ (x >> 27)) * 0x94D049BB133111EBu;
    return x ^ (x >> 31);
}

/* A number below the bound, which isn't 0. */
static inline size_t random_below(size_t bound) {
    return (size_t)(random_u64() % bound);
}

/* A number of up to 64 bits, of each count of them. */
static inline uint64_t random_up_to_64_bits(void) {
    uint64_t x = random_u64();
    return x >> random_below(64);
}

static inline void fill(void *block, size_t len) {
    uint8_t *bytes = block;
    for (size_t i = 0; i < len; i += 8) {
        uint64_t x = random_u64();
        memcpy(bytes + i, &x, len - i < 8 ? len - i : 8);
    }
}

/* A room of whole pages between two that may not be touched, or, for a memory checker, blocks of malloc. */
typedef struct {
    uint8_t *room;
    size_t size;
    void *block;
} memory;

extern bool uses_malloc;

static inline memory memory_of(size_t size) {
    const size_t page = 65536; /* a multiple of each page size that is in use */
    memory it = {NULL, (size + page - 1) / page * page, NULL};
    if (!uses_malloc) {
        uint8_t *all = mmap(NULL, it.size + 2 * page, PROT_NONE, MAP_PRIVATE | MAP_ANONYMOUS, -1, 0);
        CHECK(all != MAP_FAILED);
        it.room = all + page;
        CHECK(mprotect(it.room, it.size, PROT_READ | PROT_WRITE) == 0);
    }
    return it;
}

/* A block of exactly this many bytes, at one of the two ends of the room; one of no bytes is NULL at times. The
 * one before it is gone. */
static inline void *block_in(memory *it, size_t len) {
    if (len == 0 && random_u64() % 2 == 0) {
        return NULL;
    }
    if (uses_malloc) {
        free(it->block);
        it->block = malloc(len);
        CHECK(it->block != NULL);
        return it->block;
    }
    CHECK(len <= it->size);
    return random_u64() % 4 == 0 ? it->room : it->room + it->size - len;
}

#endif
