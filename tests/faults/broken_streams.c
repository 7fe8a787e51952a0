/* Streams that come in small pieces and break: a read of standard input gives three bytes at most, and a write to
   standard output or errors takes no more. The call of number BREAKS_AT (from 0) of the descriptor BROKEN fails; or,
   with the word TAKES_NONE, it is a write that takes nothing. At the end the file COUNTS gets the number of reads, and
   the numbers of writes to output and to errors. */
#include "preload.h"

#include <errno.h>

enum { MOST = 3, STREAMS = 3 };

static atomic_long calls[STREAMS];

/* Counts a call of a stream: whether it is the one that breaks. */
static int breaks(int stream) {
    long call = calls[stream]++;
    return stream == number_of("BROKEN", -1) && call == number_of("BREAKS_AT", -1);
}

static size_t piece(size_t size) { return size < MOST ? size : MOST; }

static void write_counts(void) {
    write_line("COUNTS", "%ld %ld %ld\n", (long)calls[0], (long)calls[1], (long)calls[2]);
}

AT_THE_END(write_counts)

ssize_t read(int file, void *to, size_t size) {
    static ssize_t (*real)(int, void *, size_t);
    if (!real) real = REAL(read);
    if (file != 0) return real(file, to, size);
    if (breaks(file)) return errno = EIO, -1;
    return real(file, to, piece(size));
}

ssize_t write(int file, const void *from, size_t size) {
    static ssize_t (*real)(int, const void *, size_t);
    if (!real) real = REAL(write);
    if (file != 1 && file != 2) return real(file, from, size);
    if (breaks(file)) return getenv("TAKES_NONE") ? 0 : (errno = EIO, -1);
    return real(file, from, piece(size));
}
