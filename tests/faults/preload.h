/* What the libraries for LD_PRELOAD share. What they are told is in words of the environment. */
#define _GNU_SOURCE
#include <dlfcn.h>
#include <fcntl.h>
#include <pthread.h>
#include <stdarg.h>
#include <stdatomic.h>
#include <stddef.h>
#include <stdio.h>
#include <stdlib.h>
#include <unistd.h>

/* The program's own function, in place of which one of the same name is called. */
#define REAL(function) ((__typeof__(&function))dlsym(RTLD_NEXT, #function))

/* The number that a word has, or `without` if there is no such word. */
static inline long number_of(const char *name, long without) {
    const char *word = getenv(name);
    return word ? atol(word) : without;
}

/* Writes a line to the file that a word names; nothing without the word. */
__attribute__((format(printf, 2, 3))) static inline void write_line(const char *name, const char *format, ...) {
    const char *path = getenv(name);
    int file = path ? open(path, O_WRONLY | O_CREAT | O_TRUNC, 0644) : -1;
    if (file < 0) return;
    va_list numbers;
    va_start(numbers, format);
    vdprintf(file, format, numbers);
    va_end(numbers);
    close(file);
}

/* Has `function` called at the end. A program that has started threads ends by _exit, and no destructor runs. */
#define AT_THE_END(function) \
    __attribute__((destructor)) static void at_the_end(void) { function(); } \
    __attribute__((noreturn)) void _exit(int status) { \
        function(); \
        REAL(_exit)(status); \
        __builtin_unreachable(); \
    }

/* Puts a front before each call that asks for memory: it is refused if `is_refused` says so of its size. */
#define EACH_GROWTH(is_refused) \
    void *malloc(size_t size) { \
        static void *(*real)(size_t); \
        if (!real) real = REAL(malloc); \
        return is_refused(size) ? NULL : real(size); \
    } \
    void *realloc(void *old, size_t size) { \
        static void *(*real)(void *, size_t); \
        if (!real) real = REAL(realloc); \
        return is_refused(size) ? NULL : real(old, size); \
    } \
    void *aligned_alloc(size_t place, size_t size) { \
        static void *(*real)(size_t, size_t); \
        if (!real) real = REAL(aligned_alloc); \
        return is_refused(size) ? NULL : real(place, size); \
    } \
    int posix_memalign(void **to, size_t place, size_t size) { \
        static int (*real)(void **, size_t, size_t); \
        if (!real) real = REAL(posix_memalign); \
        return is_refused(size) ? 12 : real(to, place, size); \
    }
