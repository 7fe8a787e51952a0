/* Limits what the program may have, once it has started THREADS threads and has then asked for memory AFTER times: from
   then on it may have as much of KIND (VmSize: address space; VmData: data) as it has at that time, and MORE bytes. The
   descriptor LIMITED gets a byte when that is done. */
#include "preload.h"

#include <string.h>
#include <sys/resource.h>

static atomic_long started, calls, after = -1;

static void set_limit(void) {
    char text[8192];
    int file = open("/proc/self/status", O_RDONLY);
    ssize_t size = file < 0 ? -1 : read(file, text, sizeof text - 1);
    const char *kind = getenv("KIND");
    if (size < 0 || !kind) _exit(70);
    close(file);
    text[size] = 0;
    char *at = strstr(text, kind);
    if (!at) _exit(70);
    rlim_t most = (rlim_t)(atol(at + strlen(kind) + 1) * 1024 + number_of("MORE", 0));
    struct rlimit limit = {most, most};
    if (setrlimit(strcmp(kind, "VmData") == 0 ? RLIMIT_DATA : RLIMIT_AS, &limit) != 0) _exit(70);
    if (write((int)number_of("LIMITED", 0), "+", 1) != 1) _exit(70);
}

/* The call of number AFTER sets the limit; no call before the last thread counts. None is refused here. */
static int note_call(size_t size) {
    (void)size;
    if (after >= 0 && calls++ == after) set_limit();
    return 0;
}

int pthread_create(pthread_t *thread, const pthread_attr_t *attributes, void *(*start)(void *), void *argument) {
    int status = REAL(pthread_create)(thread, attributes, start, argument);
    if (status == 0 && ++started == number_of("THREADS", 0)) after = number_of("AFTER", 0);
    return status;
}

EACH_GROWTH(note_call)
