// Refuses one growth of memory to a program that it is loaded into (LD_PRELOAD): the one whose number
// REFUSE says, from 1; and those behind it, as many in a row as REFUSE_IN_A_ROW says. At the end it
// writes to standard error whether there was such a growth, and how many pieces of memory are still held.
#define _GNU_SOURCE
#include <dlfcn.h>
#include <stdio.h>
#include <stdlib.h>
#include <unistd.h>

// The function of this name that this one stands in front of.
#define BEHIND(name) ((__typeof__(&(name)))dlsym(RTLD_NEXT, #name))

static long growths, held;

static int is_refused(void)
{
    const char *number = getenv("REFUSE"), *in_a_row = getenv("REFUSE_IN_A_ROW");
    if (!number)
        return 0;
    long behind = ++growths - atol(number);
    return behind >= 0 && behind < (in_a_row ? atol(in_a_row) : 1);
}

void *malloc(size_t size)
{
    void *piece = is_refused() ? NULL : BEHIND(malloc)(size);
    held += piece != NULL;
    return piece;
}

void *realloc(void *old, size_t size)
{
    void *piece = is_refused() ? NULL : BEHIND(realloc)(old, size);
    held += piece != NULL && old == NULL;
    return piece;
}

void free(void *old)
{
    held -= old != NULL;
    BEHIND(free)(old);
}

__attribute__((destructor)) static void report(void)
{
    const char *number = getenv("REFUSE");
    char line[64];
    int len = snprintf(line, sizeof line, "%s, held %ld\n",
        number && growths >= atol(number) ? "refused" : "not refused", held);
    (void)!write(2, line, len);
}
