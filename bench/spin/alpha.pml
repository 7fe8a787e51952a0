/* Synchroniser alpha with the colouring on a network of 2 to 4 nodes: every schedule. It is written apart from
   src/forestplan/schedules, to be searched by Spin, which the script `search` beside it calls.

   The network and what each round's inbox holds come from a header, as triangle.h: N, ADJ(v,w), DELTA, U, R,
   DEGREE(v), CHANNEL(v), and DUE(v,p,w), one more than what w sends v at pulse p - 1, or 0. Nodes count from 0 here.

   A put is made as soon as it can be; with PUTS it is an event of its own. An event is a d_step: a take, a pulse, or a
   put. With REDUCE a safe or a close that comes next on its link is taken at once and alone, the one of the lowest node
   and neighbour first; the header has ANY_NEXT, whether there is one, and LOWER_NEXT(v,w), whether a lower one is. */
#include NET

#ifndef CAP
#define CAP 2
#endif
#define PAYLOAD 1
#define ACK 2
#define SAFE 3
#define CLOSE 4

#define IN(w) link[w * N + v]
#define NEXT(v,w) (link[(w) * N + (v)] ? [SAFE, _, _] || link[(w) * N + (v)] ? [CLOSE, _, _])
#ifdef REDUCE
#define FREE !ANY_NEXT
#else
#define FREE 1
#endif

chan link[N * N] = [CAP] of { byte, byte, byte };      /* from v to w at v * N + w; no wire finds it full */
#ifdef PUTS
chan out[N * N] = [CAP] of { byte, byte, byte };
#define EMIT(w,k,q,x) out[v * N + w] ! k, q, x
#define START out
#else
#define START link
#define EMIT(w,k,q,x) link[v * N + w] ! k, q, x
#endif

#ifdef WITHOUT_ACKS                                     /* nobody waits, so all are safe at once */
#define ALSO START[n * N + w] ! SAFE, 0, 0;
#define AT_ONCE 1
#else
#define ALSO
#define AT_ONCE 0
#endif

byte whole;                                             /* how many nodes are at the end, every port closed */

inline settle() {
    i = 0; j = 0;
#ifdef WITHOUT_ACKS
    do :: i < N -> waits[i] = 0; i++ :: else -> break od;
#else
    do :: i < N -> j = j + (waits[i] && ADJ(v, i)); i++ :: else -> break od;
#endif
    if
    :: p < R && j == 0 ->
        said = 1; i = 0;
        do
        :: i < N -> if :: ADJ(v, i) -> EMIT(i, SAFE, p, 0) :: else fi; i++
        :: else -> break
        od
    :: else
    fi;
    i = 0; j = 0
}

#define SEND(w,x) EMIT(w, PAYLOAD, p, (x)); waits[w] = 1

#define PROGRAM byte up[N], num[N], col[U], bef[U], old, merged, chosen;
#define ID(v) (v + 1)
#define LEAST(a,b) ((a != 0 && b != 0) -> 0 : ((a != 1 && b != 1) -> 1 : 2))

inline colours() {
    i = 0;
    do :: i < N -> if :: ADJ(v, i) && !up[i] -> SEND(i, col[num[i]]) :: else fi; i++ :: else -> break od
}

inline work() {
    f = 0;
    do
    :: f < U ->
        par = 0; i = 0;
        do :: i < N -> if :: ADJ(v, i) && up[i] && num[i] == f -> par = present[i] :: else fi; i++ :: else -> break od;
        if                                              /* par: 1 + the parent's colour, 0 at a root */
        :: p <= 6 ->
            j = 0;
            do :: par && ((col[f] >> j) & 1) == (((par - 1) >> j) & 1) -> j++ :: else -> break od;
            col[f] = 2 * j + ((col[f] >> j) & 1)
        :: p > 6 && p % 2 == 1 ->
            bef[f] = col[f];
            col[f] = (par -> par - 1 : LEAST(col[f], col[f]))
        :: p > 6 && p % 2 == 0 ->
            if
            :: col[f] == 9 - p / 2 -> col[f] = (par -> LEAST(bef[f], (par - 1)) : LEAST(bef[f], bef[f]))
            :: else
            fi
        fi;
        f++
    :: else -> break
    od
}

inline merge() {
    f = (p - 13) / (3 * (DELTA + 1)); j = (p - 13) % (3 * (DELTA + 1));
    if :: j == 0 -> old = merged; chosen = 0 :: else fi;
    i = 0;
    do :: i < N -> if :: present[i] -> chosen = chosen | (1 << (present[i] - 1)) :: else fi; i++ :: else -> break od;
    if
    :: col[f] == j / (DELTA + 1) && old == j % (DELTA + 1) ->
        merged = 0;
        do :: (chosen >> merged) & 1 -> merged++ :: else -> break od;
        i = 0;
        do
        :: i < N && j < 3 * (DELTA + 1) - 1 -> if :: ADJ(v, i) && num[i] <= f -> SEND(i, merged) :: else fi; i++
        :: else -> break
        od
    :: else
    fi
}

inline round() {
    if
    :: p == 1 ->
        i = 0;
        do
        :: i < N ->
            if
            :: ADJ(v, i) && present[i] - 1 > ID(v) ->
                up[i] = 1; j = 0;
                do
                :: j < N ->
                    if
                    :: present[j] && present[j] - 1 > ID(v) && present[j] < present[i] -> num[i] = num[i] + 1
                    :: else
                    fi;
                    j++
                :: else -> break
                od;
                SEND(i, num[i])
            :: else
            fi;
            i++
        :: else -> break
        od
    :: p == 2 ->
        i = 0;
        do :: i < N -> if :: ADJ(v, i) && !up[i] -> num[i] = present[i] - 1 :: else fi; i++ :: else -> break od;
        f = 0;
        do :: f < U -> col[f] = ID(v); f++ :: else -> break od;
        colours()
    :: p > 2 && p <= 12 -> work(); if :: p < 12 -> colours() :: else fi
    :: p > 12 -> merge()
    fi;
    if :: p == R -> assert(merged == CHANNEL(v)) :: else fi
}

inline finish() {
    i = 0; j = 0;
    do :: i < N -> j = j + closed[i]; i++ :: else -> break od;
    if :: p == R && j == DEGREE(v) -> whole++ :: else fi;
    i = 0; j = 0
}

inline pulse() {
    i = 0;
    do :: i < N -> assert(present[i] == DUE(v, (p + 1), i)); i++ :: else -> break od;       /* the round's inbox */
    p++; said = 0;
    round();
    i = 0;
    do
    :: i < N ->
        present[i] = early[i]; early[i] = 0; safe[i] = esafe[i]; esafe[i] = 0;
        if :: p == R && ADJ(v, i) -> EMIT(i, CLOSE, 0, 0) :: else fi;
        i++
    :: else -> break
    od;
    settle(); finish(); i = 0; j = 0; f = 0; par = 0
}

inline on_wire(w) {
    assert(!closed[w]);
    if
    :: k == PAYLOAD ->
#ifdef WITHOUT_SAFES
        assert(q <= p + 1);                             /* a payload of an earlier pulse is thrown away */
        if :: q == p -> present[w] = x + 1 :: q == p + 1 -> early[w] = x + 1 :: else fi;
#else
        assert(q == p + safe[w] + esafe[w] && q < R && (q == p || q == p + 1 && said));
        if
        :: q == p -> assert(!present[w]); present[w] = x + 1
        :: else -> assert(!early[w]); early[w] = x + 1
        fi;
#endif
        EMIT(w, ACK, q, 0)
#ifdef WITHOUT_ACKS
    :: k == ACK
#else
    :: k == ACK -> assert(q == p && waits[w]); waits[w] = 0; settle()
#endif
#ifdef WITHOUT_SAFES
    :: k == SAFE
    :: k == CLOSE -> closed[w] = 1; finish()
#else
    :: k == SAFE ->
        assert(q == p + safe[w] + esafe[w] && q < R && (q == p || q == p + 1 && said));
        if :: q == p -> safe[w] = 1 :: else -> esafe[w] = 1 fi
    :: k == CLOSE -> assert(p + safe[w] + esafe[w] == R && (p == R || p == R - 1 && said)); closed[w] = 1; finish()
#endif
    fi;
    k = 0; q = 0; x = 0
}

#ifdef REDUCE
#define MAY(w) nempty(IN(w)) && (FREE || NEXT(v,w) && !LOWER_NEXT(v,w))
#else
#define MAY(w) nempty(IN(w))
#endif
#define TAKE(w) :: d_step { MAY(w) -> IN(w) ? k, q, x; on_wire(w) }
#ifdef PUTS
#define PUT(w) :: d_step { FREE && nempty(out[v * N + w]) -> out[v * N + w] ? k, q, x; \
                           link[v * N + w] ! k, q, x; k = 0; q = 0; x = 0 }
#else
#define PUT(w)
#endif
#ifdef WITHOUT_SAFES
#define HAS(w) 1
#else
#define HAS(w) (safe[w] || !ADJ(v, w))
#endif
#if N == 2
#define ALL_SAFE (HAS(0) && HAS(1))
#elif N == 3
#define ALL_SAFE (HAS(0) && HAS(1) && HAS(2))
#else
#define ALL_SAFE (HAS(0) && HAS(1) && HAS(2) && HAS(3))
#endif

proctype Node(byte v) {
    byte p, i, j, f, par, k, q, x;
    bit said = AT_ONCE, waits[N] = 1, safe[N], esafe[N], closed[N];
    byte present[N], early[N];
    PROGRAM
end:
    do
    :: d_step { FREE && said && p < R && ALL_SAFE -> pulse() }
    TAKE(0) PUT(0)
    TAKE(1) PUT(1)
#if N > 2
    TAKE(2) PUT(2)
#endif
#if N > 3
    TAKE(3) PUT(3)
#endif
    od
}

init {
    byte n, w;
    atomic {                                            /* pulse 0: each node has sent its identifier on every port */
        do
        :: n < N ->
            w = 0;
            do
            :: w < N && ADJ(n, w) -> START[n * N + w] ! PAYLOAD, 0, n + 1; ALSO w++
            :: w < N && !ADJ(n, w) -> w++
            :: else -> break
            od;
            n++
        :: else -> break
        od;
        n = 0; w = 0;
        do :: n < N -> run Node(n); n++ :: else -> break od;
        n = 0
    }
    /* nothing is possible any more: then all is done, and each link is empty */
    timeout -> d_step {
        assert(whole == N);
        do :: n < N * N -> assert(empty(link[n])); n++ :: else -> break od
    }
}
