/* Memory of which no page can be closed: what lies in one that should be is looked at after all calls. */
#ifndef MMAN_H
#define MMAN_H
#include <stddef.h>
enum { PROT_NONE, PROT_READ, PROT_WRITE, MAP_PRIVATE = 0, MAP_ANONYMOUS = 0 };
#define MAP_FAILED ((void *)-1)
void *mmap(void *at, size_t size, int access, int flags, int file, long offset);
int mprotect(void *at, size_t size, int access);
#endif
