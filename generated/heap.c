/*
 * What the program calls where it takes memory, for a target for which the toolchain brings no such
 * object. malloc aligns for every type that the program has, and answers NULL where it has no memory.
 */
#include <stddef.h>
#include <stdint.h>
#include <stdlib.h>

/* A block, or that there is no memory for it: `block` isn't NULL then either, but to no memory that is
 * owned. Given back in two registers, on Windows too. */
typedef struct {
    uint64_t is_given;
    void *block;
} growth;
#ifdef _WIN32
#define IN_REGISTERS __attribute__((sysv_abi))
#else
#define IN_REGISTERS
#endif

static const char nothing;

static growth given(void *block) {
    growth answer = {block != NULL, block != NULL ? block : (void *)&nothing};
    return answer;
}

/* A block of no bytes has an address too, so that NULL always means that memory is refused. */
static size_t at_least_one(size_t size, size_t align) {
    return size != 0 ? size : align;
}

IN_REGISTERS growth rattle_alloc(size_t size, size_t align) {
    return given(malloc(at_least_one(size, align)));
}

IN_REGISTERS growth rattle_realloc(void *block, size_t old_size, size_t size, size_t align) {
    (void)old_size;
    return given(realloc(block, at_least_one(size, align)));
}

void rattle_dealloc(void *block) {
    free(block);
}
