/* getline as POSIX has it, also on Windows, which has none: there the lines that are read, and those that are printed, have
 * the bytes that they have, without a carriage return more or fewer. Include it first. */
#ifndef GETLINE_H
#define GETLINE_H

#ifndef _WIN32
#if defined(__linux__) && !defined(_POSIX_C_SOURCE)
#define _POSIX_C_SOURCE 200809L
#endif
#include <stdio.h>
#include <sys/types.h>
#else
#define __USE_MINGW_ANSI_STDIO 1 /* so that mingw's printf knows %zu */
#define _CRT_SECURE_NO_WARNINGS
#include <fcntl.h>
#include <io.h>
#include <stdio.h>
#include <stdlib.h>
#ifdef _MSC_VER
typedef long long ssize_t;
#else
#include <sys/types.h>
#endif

static ssize_t getline(char **line, size_t *room, FILE *in) {
    size_t len = 0;
    _setmode(_fileno(in), _O_BINARY);
    _setmode(_fileno(stdout), _O_BINARY);
    for (int byte = getc(in); byte != EOF; byte = getc(in)) {
        if (*line == NULL || *room - len < 2) {
            size_t grown = *line == NULL ? 256 : 2 * *room;
            char *it = realloc(*line, grown);
            if (it == NULL) {
                return -1;
            }
            *line = it;
            *room = grown;
        }
        (*line)[len++] = (char)byte;
        (*line)[len] = '\0';
        if (byte == '\n') {
            break;
        }
    }
    return len == 0 ? -1 : (ssize_t)len;
}
#endif

#endif
