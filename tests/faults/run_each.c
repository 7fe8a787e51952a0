/* Runs the program on many texts, each in a process of its own that is forked just before main: the program is loaded
   once, so a text takes a fraction of a millisecond. TEXTS and ANSWERS are two open descriptors.

   TEXTS is a file of texts, each after its length. For each text this writes to ANSWERS the status (or minus the
   signal), the lengths of standard output and standard error, and both. Numbers have 32 bits in the machine's own
   order. */
#include "preload.h"

#include <stdint.h>
#include <string.h>
#include <sys/mman.h>
#include <sys/stat.h>
#include <sys/wait.h>

enum { SECONDS = 60 };

static int texts_file, answers_file;

static void give_up(const char *what) {
    perror(what);
    _exit(70);
}

static void write_all(int file, const char *from, size_t length) {
    while (length > 0) {
        ssize_t count = write(file, from, length);
        if (count <= 0) give_up("write");
        from += count, length -= count;
    }
}

static void copy(int from, size_t length, int to) {
    char part[65536];
    if (lseek(from, 0, SEEK_SET) < 0) give_up("lseek");
    while (length > 0) {
        ssize_t count = read(from, part, length < sizeof part ? length : sizeof part);
        if (count <= 0) give_up("read");
        write_all(to, part, count);
        length -= count;
    }
}

static int made_file(void) {
    int file = memfd_create("stream", 0);
    if (file < 0) give_up("memfd_create");
    return file;
}

/* The file has just these bytes, and is read or written from its first place on. */
static void fill(int file, const char *text, size_t length) {
    if (ftruncate(file, 0) < 0 || lseek(file, 0, SEEK_SET) < 0) give_up("a stream");
    write_all(file, text, length);
    if (lseek(file, 0, SEEK_SET) < 0) give_up("a stream");
}

static void write_answer(int status, const int streams[3]) {
    int32_t ended = WIFSIGNALED(status) ? -WTERMSIG(status) : WEXITSTATUS(status);
    uint32_t lengths[2] = {lseek(streams[1], 0, SEEK_END), lseek(streams[2], 0, SEEK_END)};
    write_all(answers_file, (const char *)&ended, sizeof ended);
    write_all(answers_file, (const char *)lengths, sizeof lengths);
    copy(streams[1], lengths[0], answers_file);
    copy(streams[2], lengths[1], answers_file);
}

/* Returns in each child, which goes on to main. */
static void run_on(const char *texts, size_t size) {
    int streams[3] = {made_file(), made_file(), made_file()};
    for (size_t at = 0; at < size;) {
        uint32_t length;
        memcpy(&length, texts + at, sizeof length);
        fill(streams[0], texts + at + sizeof length, length);
        fill(streams[1], "", 0);
        fill(streams[2], "", 0);
        pid_t child = fork();
        if (child < 0) give_up("fork");
        if (child == 0) {
            for (int i = 0; i < 3; i++) dup2(streams[i], i), close(streams[i]);
            close(texts_file), close(answers_file);
            alarm(SECONDS);
            return;
        }
        int status;
        if (waitpid(child, &status, 0) < 0) give_up("waitpid");
        write_answer(status, streams);
        at += sizeof length + length;
    }
    _exit(0);
}

__attribute__((constructor)) static void run_each(void) {
    struct stat texts;
    const char *from = getenv("TEXTS"), *to = getenv("ANSWERS");
    if (!from || !to) return;
    texts_file = atoi(from), answers_file = atoi(to);
    if (fstat(texts_file, &texts) < 0) give_up("the texts");
    if (texts.st_size == 0) _exit(0);
    const char *all = mmap(NULL, texts.st_size, PROT_READ, MAP_PRIVATE, texts_file, 0);
    if (all == MAP_FAILED) give_up("mmap");
    run_on(all, texts.st_size);
}
