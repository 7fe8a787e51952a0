/* A node without a clock: the talking is done, the synchroniser is yours. cc -O2 -o node alpha_node.c
   docs/learn/PROTOCOL.md says what the words mean. Identifiers have up to 128 binary digits; here they stay text, and
   two texts of different lengths don't compare as their numbers do. */
#include <stdio.h>
#include <string.h>

enum { NODES = 32768, DIGITS = 64 };

/* What a node knows. What it has to remember from wire to wire belongs here too: with --one-process this program is
   all nodes, and `me` is the one that is meant. */
static struct node {
    char identifier[DIGITS];
    int degree, nodes, delta, bars, forests, last;
} all[NODES], *me = all;

/* A wire: `kind` is payload, ack, safe or close. A close has no pulse, and only a payload has a word and a number. */
struct wire { char kind[16], word[16], number[DIGITS]; int pulse; };

/* What the node does at its start, in pulse 0. */
static void start(void) {
    for (int port = 0; port < me->degree; port++) printf("put %d payload 0 hello %s\n", port, me->identifier);
}

/* What it does after it has taken a wire. */
static void take(int port, const struct wire *wire) {
    /* yours: printf("put %d ack %d\n", port, wire->pulse), puts("pulse 1"), puts("channel 2") and so on */
}

int main(void) {
    char line[32768];
    struct wire wire;
    int port = 0, which, is_first = 0;
    while (fgets(line, sizeof line, stdin)) {
        if (sscanf(line, "to %d", &which) == 1) me = &all[which];
        if (strncmp(line, "workshop ", 9) == 0) is_first = 1;
        sscanf(line, "identifier %63s", me->identifier);
        sscanf(line, "degree %d", &me->degree), sscanf(line, "nodes %d", &me->nodes);
        sscanf(line, "delta %d", &me->delta), sscanf(line, "bars %d", &me->bars);
        sscanf(line, "forests %d", &me->forests), sscanf(line, "last %d", &me->last);
        if (strncmp(line, "take ", 5) == 0) {   /* a line `barred N C1 C2 ..` is left to you */
            memset(&wire, 0, sizeof wire);
            sscanf(line, "take %d %15s %d %15s %63s", &port, wire.kind, &wire.pulse, wire.word, wire.number);
        }
        if (strcmp(line, "end\n") != 0) continue;
        if (is_first) start(); else take(port, &wire);
        is_first = 0;
        puts("end");
        fflush(stdout);                         /* without it the answer waits in a buffer */
    }
    return 0;
}
