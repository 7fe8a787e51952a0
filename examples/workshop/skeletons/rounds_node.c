/* A node with a clock: the talking is done, the algorithm is yours. cc -O2 -o node rounds_node.c
   docs/learn/PROTOCOL.md says what the words mean. Identifiers have up to 128 binary digits; here they stay text, and
   two texts of different lengths don't compare as their numbers do. */
#include <stdio.h>
#include <string.h>

enum { NODES = 32768, PORTS = 1024, DIGITS = 64 };

/* What a node knows. What it has to remember from pulse to pulse belongs here too: with --one-process this program is
   all nodes, and `me` is the one that is meant. */
static struct node {
    char identifier[DIGITS];
    int degree, nodes, delta, bars, forests, last;
} all[NODES], *me = all;

/* The payload that came to it by a port in this pulse; `word` is empty if none did. */
static struct { char word[16], number[DIGITS]; } inbox[PORTS];

static void make_pulse(int pulse) {
    if (pulse == 0) {
        for (int port = 0; port < me->degree; port++) printf("put %d hello %s\n", port, me->identifier);
    }
    /* yours: `put PORT WORD NUMBER`, and in the last pulse `channel C` */
}

int main(void) {
    char line[32768];
    int pulse = 0, port, which;
    while (fgets(line, sizeof line, stdin)) {
        char word[16], number[DIGITS];
        if (sscanf(line, "to %d", &which) == 1) me = &all[which];
        sscanf(line, "identifier %63s", me->identifier);
        sscanf(line, "degree %d", &me->degree), sscanf(line, "nodes %d", &me->nodes);
        sscanf(line, "delta %d", &me->delta), sscanf(line, "bars %d", &me->bars);
        sscanf(line, "forests %d", &me->forests), sscanf(line, "last %d", &me->last);
        sscanf(line, "pulse %d", &pulse);   /* a line `barred N C1 C2 ..` is left to you */
        if (sscanf(line, "take %d %15s %63s", &port, word, number) == 3) {
            strcpy(inbox[port].word, word), strcpy(inbox[port].number, number);
        }
        if (strcmp(line, "end\n") != 0) continue;
        make_pulse(pulse);
        memset(inbox, 0, sizeof inbox);
        puts("end");
        fflush(stdout);                     /* without it the answer waits in a buffer */
    }
    return 0;
}
