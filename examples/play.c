// Plays the trace on standard input with the proved player, and writes its report: what ./play does, from C.
#include <stdio.h>

#include "ladomysh.h"

#ifndef ROOM
#define ROOM LADOMYSH_REPORT
#endif

static unsigned char text[LADOMYSH_TEXT + 1]; // with one byte more than may be played, a text that is too long is told as such
static unsigned char report[ROOM];

int main(void) {
    size_t length = fread(text, 1, sizeof text, stdin);
    struct ladomysh_played played = ladomysh_play(text, length, report, sizeof report);
    fwrite(report, 1, played.end, stdout);
    if (!played.whole) {
        fputs("the report is longer than its buffer\n", stderr);
        return 1;
    }
    return 0;
}
