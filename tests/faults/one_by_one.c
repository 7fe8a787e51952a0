/* Lets the threads that the program starts run one by one: the first begins once the program's own thread sleeps, so
   that it has started all others or was refused one, and each of the others once the thread before it has ended. The
   thread of number REFUSE_THREAD (from 1) is refused, and of the growths that started threads ask for the one of number
   REFUSE; at the end the file COUNT has how many growths started threads asked for, and how many after a refusal. */
#include "preload.h"

#include <errno.h>

enum { MOST = 1024, LOOKS = 20000, MICROSECONDS = 1000, FIELD = 512 };

static struct {
    void *(*start)(void *);
    void *argument;
} threads[MOST];

static atomic_long asked_threads, ended, grown, late;
static atomic_int is_over;
static __thread int is_started __attribute__((tls_model("initial-exec")));

static int is_refused(size_t size) {
    (void)size;
    if (!is_started) return 0;
    if (is_over) late++;
    if (++grown != number_of("REFUSE", 0)) return 0;
    is_over = 1;
    return 1;
}

static void write_counts(void) { write_line("COUNT", "%ld %ld\n", (long)grown, (long)late); }

AT_THE_END(write_counts)

/* Whether the program's own thread, which has the process's number, sleeps: its state follows its name. */
static int sleeps(void) {
    char path[FIELD], text[FIELD];
    snprintf(path, sizeof path, "/proc/self/task/%d/stat", getpid());
    int file = open(path, O_RDONLY);
    if (file < 0) return 0;
    ssize_t size = read(file, text, sizeof text - 1);
    close(file);
    for (ssize_t i = size; i > 0; i--)
        if (text[i - 1] == ')') return i + 1 < size && text[i + 1] == 'S';
    return 0;
}

static void *run(void *at) {
    long number = (long)at;
    for (int i = 0; i < LOOKS && (ended + 1 < number || !sleeps()); i++) usleep(MICROSECONDS);
    is_started = 1;
    void *result = threads[number].start(threads[number].argument);
    is_started = 0;
    ended++;
    return result;
}

int pthread_create(pthread_t *thread, const pthread_attr_t *attributes, void *(*start)(void *), void *argument) {
    long number = ++asked_threads;
    if (number >= MOST || number == number_of("REFUSE_THREAD", 0)) {
        is_over = 1;
        return EAGAIN;
    }
    threads[number].start = start;
    threads[number].argument = argument;
    return REAL(pthread_create)(thread, attributes, run, (void *)number);
}

EACH_GROWTH(is_refused)
