// The proved player, for C: declares what target/staticlib/libladomysh.a has (`tools/library` writes it; x86-64 Linux). docs/GUIDE.md says how to link it.
#ifndef LADOMYSH_H
#define LADOMYSH_H

#include <stdbool.h>
#include <stddef.h>

#ifdef __cplusplus
extern "C" {
#endif

enum {
    LADOMYSH_TEXT = 65536,   // the longest text that is played
    LADOMYSH_REPORT = 131072 // a buffer of this many bytes has room for the report of any text
};

struct ladomysh_played {
    size_t end; // the report is out[0] up to out[end - 1]
    bool whole; // false: the buffer was too small, and has as many whole lines as fit
};

// Plays a text, and writes its report from out[0] on; bytes behind the report stay as they were. Every text has a report, so there is no error to return.
//
// What a caller owes: neither pointer is null, even where the length is 0; the two don't overlap; and every byte of both has a value, which those of a fresh local array don't. Nothing is kept between calls, and threads may call at the same time.
struct ladomysh_played ladomysh_play(const unsigned char *text, size_t text_length, unsigned char *out, size_t out_length);

#ifdef __cplusplus
}
#endif
#endif
