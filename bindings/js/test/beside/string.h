#ifndef STRING_H
#define STRING_H
#include <stddef.h>
void *memchr(const void *of, int byte, size_t len);
int memcmp(const void *a, const void *b, size_t len);
void *memcpy(void *to, const void *from, size_t len);
void *memmove(void *to, const void *from, size_t len);
void *memset(void *to, int byte, size_t len);
char *strchr(const char *of, int byte);
int strcmp(const char *a, const char *b);
size_t strlen(const char *of);
#endif
