/* An allocator's front that refuses the call of number REFUSE (from 1), gives all others on, and at the end writes to
   the file COUNT how many calls there were and how many bytes they asked for. */
#include "preload.h"

static atomic_long calls, bytes, refused = -1;

static int is_refused(size_t size) {
    bytes += size;
    if (refused < 0) refused = number_of("REFUSE", 0);
    return ++calls == refused;
}

static void write_count(void) {
    long made = calls, asked = bytes;
    write_line("COUNT", "%ld %ld\n", made, asked);
}

AT_THE_END(write_count)

EACH_GROWTH(is_refused)
