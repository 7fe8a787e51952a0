/* Refuses the thread of number REFUSE_THREAD (from 1), starts all others, and at the end writes to the file
   COUNT_THREADS how many were asked for, how many were started, and how many of these have come to their end, within a
   second. */
#include "preload.h"

#include <errno.h>

enum { MOST = 1024, LOOKS = 1000, MICROSECONDS = 1000 };

static struct {
    void *(*start)(void *);
    void *argument;
} threads[MOST];

static atomic_long asked, started, ended;

static void write_counts(void) {
    if (!getenv("COUNT_THREADS")) return;
    for (int i = 0; i < LOOKS && ended < started; i++) usleep(MICROSECONDS);
    write_line("COUNT_THREADS", "%ld %ld %ld\n", (long)asked, (long)started, (long)ended);
}

AT_THE_END(write_counts)

static void *run(void *at) {
    long number = (long)at;
    void *result = threads[number].start(threads[number].argument);
    ended++;
    return result;
}

int pthread_create(pthread_t *thread, const pthread_attr_t *attributes, void *(*start)(void *), void *argument) {
    long number = ++asked;
    if (number >= MOST || number == number_of("REFUSE_THREAD", 0)) return EAGAIN;
    threads[number].start = start;
    threads[number].argument = argument;
    int status = REAL(pthread_create)(thread, attributes, run, (void *)number);
    if (status == 0) started++;
    return status;
}
