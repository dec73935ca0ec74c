/* As much of the C library as the hostile tests call, for WebAssembly: libc.c. */
#ifndef STDIO_H
#define STDIO_H
#define stdout 0
#define stderr 0
int puts(const char *text);
int printf(const char *format, ...);
int fflush(int stream);
#endif
