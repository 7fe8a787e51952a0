/* Writes a byte to the descriptor STARTED when the program has been loaded. */
#include "preload.h"

__attribute__((constructor)) static void write_mark(void) {
    long mark = number_of("STARTED", -1);
    if (mark >= 0 && write((int)mark, "+", 1) != 1) _exit(70);
}
