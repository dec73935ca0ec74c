/* The texts of the statuses, and the version: those of the header file itself. The expected ones are written by
 * hand. */
#include "../rtp_wire.h"

#include <stdio.h>
#include <string.h>

static int failed = 0;

#define CHECK(holds) \
    do { \
        if (!(holds)) { \
            printf("line %d: %s\n", __LINE__, #holds); \
            failed = 1; \
        } \
    } while (0)

static void statuses_are_told(void) {
    static const struct {
        int32_t status;
        const char *text;
    } rows[] = {
        {0, "done"},
        {1, "fewer than twelve bytes"},
        {2, "another version than 2"},
        {3, "the CSRC list is cut short"},
        {4, "the header of the extension block is cut short"},
        {5, "a header extension of an unknown form"},
        {6, "the extension block is cut short"},
        {7, "no status of this library"},
        {8, "a buffer is too short"},
        {9, "an argument is out of its range"},
        {10, "a replay, or too old to tell"},
        {11, "no such element"},
        {12, "taken, and the sender has started again"},
        {13, "the id 0, which no element has"},
        {14, "a form of the extension block that isn't allowed"},
        {15, "an extension block of more than 65,535 words"},
        {16, "an id above 14, which the one-byte form can't carry"},
        {17, "a packet of RTCP"},
        {18, "no status of this library"},
        {-1, "no status of this library"},
        {INT32_MAX, "no status of this library"},
        {INT32_MIN, "no status of this library"},
    };
    size_t i;
    for (i = 0; i < sizeof rows / sizeof *rows; i++) {
        if (strcmp(rtpw_status_text(rows[i].status), rows[i].text) != 0) {
            printf("status %ld: %s\n", (long)rows[i].status, rtpw_status_text(rows[i].status));
            failed = 1;
        }
    }
}

static void versions_agree(void) {
    unsigned major, minor, patch;
    char rest[6] = "";
    CHECK(strcmp(RTPW_VERSION, "1.1.0-dev") == 0);
    CHECK(sscanf(RTPW_VERSION, "%u.%u.%u%5s", &major, &minor, &patch, rest) >= 3);
    CHECK(strcmp(rest, "") == 0 || strcmp(rest, "-dev") == 0);
    CHECK(rtpw_version() == 65536 * major + 256 * minor + patch);
    CHECK(rtpw_version() == 65792);
    CHECK(RTPW_VERSION_NUMBER == 65792);
}

int main(void) {
    statuses_are_told();
    versions_agree();
    return failed;
}
