/* Whether MemorySanitizer tells of a call, in a program that goes on where it does: build it with
 * -fsanitize-recover=memory. */
#ifndef TOLD_H
#define TOLD_H

#include <sanitizer/common_interface_defs.h>
#include <sanitizer/msan_interface.h>
#include <stdint.h>
#include <stdio.h>
#include <stdlib.h>

const char *__msan_default_options(void);
const char *__msan_default_options(void) {
    return "halt_on_error=0:exitcode=0:symbolize=0";
}

/* What it tells goes to a file, which grows. */
static int is_told(void (*call)(void)) {
    static FILE *told;
    static long before;
    long now;
    if (told == NULL) {
        told = tmpfile();
        if (told == NULL) {
            exit(2);
        }
        __sanitizer_set_report_fd((void *)(intptr_t)fileno(told));
    }
    call();
    if (fseek(told, 0, SEEK_END) != 0) {
        exit(2);
    }
    now = ftell(told);
    if (now == before) {
        return 0;
    }
    before = now;
    return 1;
}

#endif
