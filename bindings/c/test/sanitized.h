/* The blocks that the cases of sanitized.c give to a call, and what a sanitizer has to tell of each. */
#ifndef SANITIZED_H
#define SANITIZED_H

#include <stdint.h>
#include <stdio.h>
#include <stdlib.h>
#include <string.h>
#include <sys/wait.h>
#include <unistd.h>

#if defined(__SANITIZE_THREAD__)
#define IS_THREAD
#elif defined(__has_feature)
#if __has_feature(memory_sanitizer)
#define IS_MEMORY
#include <sanitizer/msan_interface.h>
#elif __has_feature(thread_sanitizer)
#define IS_THREAD
#endif
#endif

#define REPORTED 9
const char *__asan_default_options(void);
const char *__asan_default_options(void) {
    return "exitcode=9:detect_leaks=0:symbolize=0";
}
const char *__msan_default_options(void);
const char *__msan_default_options(void) {
    return "exitcode=9:symbolize=0";
}
const char *__tsan_default_options(void);
const char *__tsan_default_options(void) {
    return "exitcode=9:halt_on_error=1:symbolize=0";
}

/* The blocks of a case are counted from 1 on in their order. One may be wrong: too short, or not set. */
static int wrong, blocks;
static const char *running; /* the case */
static struct block {
    uint8_t *at;
    size_t size;
    int is_read;
    int is_written;
} all[16];

#ifdef IS_THREAD
#include <pthread.h>
/* The same memory in each thread. */
static uint64_t rooms[16][256];
#endif

/* Memory of this size; of the wrong block with AddressSanitizer a byte less. */
static void *memory_of(size_t size) {
#ifdef IS_THREAD
    (void)size;
    return rooms[blocks];
#elif defined(IS_MEMORY)
    return malloc(size);
#else
    if (blocks == wrong && size == 1) {
        return (char *)malloc(1) + 1; /* malloc(0) would have a byte */
    }
    return malloc(blocks == wrong ? size - 1 : size);
#endif
}

/* A block that is written. */
static void *out(size_t size) {
    struct block *it = &all[++blocks];
    it->at = (uint8_t *)memory_of(size);
    it->size = size;
    it->is_read = 0;
    it->is_written = 1;
    return it->at;
}

/* The bytes are there, and ThreadSanitizer doesn't see how they came. */
#ifdef IS_THREAD
__attribute__((no_sanitize("thread")))
#endif
static void
copy(uint8_t *to, const void *from, size_t size) {
    const volatile uint8_t *bytes = (const volatile uint8_t *)from;
    for (size_t i = 0; i < size; i++) {
        to[i] = bytes[i];
    }
}

/* A block that is read and written. */
static void *in_out(const void *from, size_t size) {
    struct block *it = &all[blocks + 1];
    out(size);
    it->is_read = 1;
#ifdef IS_MEMORY
    copy(it->at, from, blocks == wrong ? 0 : size);
#else
    copy(it->at, from, blocks == wrong ? size - 1 : size);
#endif
    return it->at;
}

/* A block that is read. */
static void *in(const void *from, size_t size) {
    void *it = in_out(from, size);
    all[blocks].is_written = 0;
    return it;
}

#ifdef IS_MEMORY
static void stop(const char *why, const void *block) {
    int i = blocks;
    while (i > 0 && all[i].at != block) {
        i--;
    }
    printf("%s: %s, of the block %d\n", running, why, i);
    fflush(stdout);
    _exit(4);
}
#endif

/* So many bytes of a block were written: exactly these are set of one that is written alone. */
static void set(const void *block, size_t size) {
#ifdef IS_MEMORY
    if (__msan_test_shadow(block, size) >= 0) {
        stop("a byte that was written counts as not set", block);
    }
    for (int i = 1; i <= blocks; i++) {
        for (size_t at = size; all[i].at == block && !all[i].is_read && at < all[i].size; at++) {
            if (__msan_test_shadow(all[i].at + at, 1) != 0) {
                stop("a byte that wasn't written counts as set", block);
            }
        }
    }
#else
    (void)block;
    (void)size;
#endif
}

struct called {
    const char *name;
    void (*call)(void);
};

#ifdef IS_THREAD
static const struct called *raced;
static struct block other;
static int writes;
static volatile int is_called; /* it orders nothing that the threads do */

__attribute__((no_sanitize("thread"))) static void *calls(void *unused) {
    raced->call();
    is_called = 1;
    return unused;
}
__attribute__((no_sanitize("thread"))) static void await(void) {
    while (!is_called) {
    }
}
static void *touches(void *unused) {
    volatile uint64_t *words = (volatile uint64_t *)(void *)other.at; /* it remembers four accesses to each */
    await();
    for (size_t i = 0; i < other.size; i += 8) {
        if (writes) {
            words[i / 8] = 1;
        } else {
            (void)words[i / 8];
        }
    }
    return unused;
}
/* One thread makes the call, and another one reads the block or writes it. */
static void race(void) {
    pthread_t one, two;
    other = all[wrong];
    blocks = 0;
    if (pthread_create(&one, NULL, calls, NULL) == 0 && pthread_create(&two, NULL, touches, NULL) == 0) {
        pthread_join(one, NULL);
        pthread_join(two, NULL);
    }
}
#endif

/* The status with which a case ends where this block is wrong, or is raced for. */
static int ends(const struct called *it, int block) {
    int status = 0;
    pid_t child = fork();
    if (child == 0) {
        (void)!freopen("/dev/null", "w", stderr);
        wrong = block;
#ifdef IS_THREAD
        raced = it;
        race();
#else
        blocks = 0;
        it->call();
#endif
        _exit(0);
    }
    return waitpid(child, &status, 0) == child && WIFEXITED(status) ? WEXITSTATUS(status) : -1;
}

static int tried;
static int is_told(const struct called *it, int block, int wanted, const char *how) {
    int status = ends(it, block);
    tried++;
    if (status != (wanted ? REPORTED : 0)) {
        printf("%s: %s its block %d%s: the status is %d\n", it->name, wanted ? "nothing is told of" : "it is told of",
               block, how, status);
        return 0;
    }
    return 1;
}

/* Tries each block of a case; where the call is given what it is owed, nothing is told. */
static int is_right(const struct called *it) {
    int count, right = 1;
    blocks = wrong = 0;
    running = it->name;
    it->call();
    count = blocks;
    for (int block = 1; block <= count && right; block++) {
#if defined(IS_THREAD)
        writes = 1;
        right = is_told(it, block, 1, ", which another thread writes");
        writes = 0;
        right = right && is_told(it, block, all[block].is_written, ", which another thread reads");
#elif defined(IS_MEMORY)
        right = !all[block].is_read || is_told(it, block, 1, ", which isn't set");
#else
        right = is_told(it, block, 1, ", which is too short");
#endif
    }
    return right;
}

#endif
