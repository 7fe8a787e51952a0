/* peak FILE PROGRAM WORD..: runs the program, ends with its status, and writes its peak memory in KiB to the file.

   Linux counts what a process had before it became the program, so that a program that a large process starts seems to be as
   large. This one is small. */
#include <signal.h>
#include <stdio.h>
#include <sys/prctl.h>
#include <sys/resource.h>
#include <sys/wait.h>
#include <unistd.h>

int main(int count, char **words) {
    if (count < 3) return 125;
    pid_t child = fork();
    if (child < 0) return 125;
    if (child == 0) {
        prctl(PR_SET_PDEATHSIG, SIGKILL);
        execv(words[2], words + 2);
        _exit(125);
    }
    int status;
    struct rusage use;
    if (wait4(child, &status, 0, &use) != child) return 125;
    FILE *file = fopen(words[1], "w");
    if (!file) return 125;
    fprintf(file, "%ld\n", use.ru_maxrss);
    fclose(file);
    return WIFEXITED(status) ? WEXITSTATUS(status) : 126;
}
