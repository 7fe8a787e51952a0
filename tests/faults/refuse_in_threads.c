/* Refuses every growth that a thread asks for which the program started, gives all others on, and at the end writes to
   the file COUNT how many it refused. So that such a thread stops where a scheduler seldom stops it, a signal stops it
   for STOP microseconds again and again, each time after up to twice as many of its own; it spins then, since a thread
   that sleeps is woken late. Without STOP none is stopped. */
#include "preload.h"

#include <signal.h>
#include <time.h>

#ifndef sigev_notify_thread_id
#define sigev_notify_thread_id _sigev_un._tid
#endif

enum { MOST = 1024, MICROSECOND = 1000, SECOND = 1000000000 };

static struct {
    void *(*start)(void *);
    void *argument;
} threads[MOST];

static atomic_long asked, refused;
static long stop;
static __thread int is_started __attribute__((tls_model("initial-exec")));
static __thread timer_t timer __attribute__((tls_model("initial-exec")));
static __thread unsigned drawn __attribute__((tls_model("initial-exec")));

static int is_refused(size_t size) {
    (void)size;
    if (is_started) refused++;
    return is_started;
}

static long now(void) {
    struct timespec at;
    clock_gettime(CLOCK_MONOTONIC, &at);
    return at.tv_sec * SECOND + at.tv_nsec;
}

static void go_on(void) {
    drawn = drawn * 1664525u + 1013904223u;
    struct itimerspec next = {{0, 0}, {0, MICROSECOND + (drawn >> 8) % (2 * stop)}};
    timer_settime(timer, 0, &next, NULL);
}

static void stop_a_while(int signal) {
    (void)signal;
    for (long begin = now(); now() - begin < stop;) {}
    go_on();
}

__attribute__((constructor)) static void begin(void) {
    struct sigaction action = {.sa_handler = stop_a_while, .sa_flags = SA_RESTART};
    stop = number_of("STOP", 0) * MICROSECOND;
    sigaction(SIGUSR1, &action, NULL);
}

static void write_count(void) { write_line("COUNT", "%ld\n", (long)refused); }

AT_THE_END(write_count)

static void *run(void *at) {
    long number = (long)at;
    struct sigevent to_this_one = {.sigev_notify = SIGEV_THREAD_ID, .sigev_signo = SIGUSR1};
    to_this_one.sigev_notify_thread_id = gettid();
    drawn = (unsigned)(number + now());
    int stops = stop > 0 && timer_create(CLOCK_MONOTONIC, &to_this_one, &timer) == 0;
    is_started = 1;
    if (stops) go_on();
    void *result = threads[number].start(threads[number].argument);
    if (stops) timer_delete(timer);
    is_started = 0;
    return result;
}

int pthread_create(pthread_t *thread, const pthread_attr_t *attributes, void *(*start)(void *), void *argument) {
    long number = asked++;
    if (number >= MOST) abort();
    threads[number].start = start;
    threads[number].argument = argument;
    return REAL(pthread_create)(thread, attributes, run, (void *)number);
}

EACH_GROWTH(is_refused)
