/* A plain incremental closure of differences, to compare cyp_diff with. It reads literals from standard input, a line each:
   kind (0 at most, 1 less, 2 equal), left place, right place, offset on the right. Place 0 is no variable. Words: how many
   rounds, and how many solves a round. It prints a line for each round, the nanoseconds of processor time of a solve and how
   many solves found values, and then the values. */
#include <inttypes.h>
#include <stdint.h>
#include <stdio.h>
#include <stdlib.h>
#include <time.h>

#define PLACES 33
#define LITERALS 4096
#define NONE (INT64_C(1) << 60)

struct literal {
    int kind, left, right;
    int64_t offset;
};

static int64_t d[PLACES][PLACES];

static void clear(int n) {
    for (int u = 0; u < n; u++)
        for (int v = 0; v < n; v++)
            d[u][v] = u == v ? 0 : NONE;
}

/* x_i - x_j <= c; 0 where that is a contradiction */
static int add(int n, int i, int j, int64_t c) {
    if (d[i][j] <= c)
        return 1;
    if (c + d[j][i] < 0)
        return 0;
    for (int u = 0; u < n; u++) {
        int64_t far = d[u][i] + c;
        for (int v = 0; v < n; v++) {
            int64_t way = far + d[j][v];
            d[u][v] = way < d[u][v] ? way : d[u][v];
        }
    }
    return 1;
}

static int add_all(int n, const struct literal *ls, int count) {
    clear(n);
    for (int k = 0; k < count; k++) {
        struct literal l = ls[k];
        if (!add(n, l.left, l.right, l.offset - (l.kind == 1)))
            return 0;
        if (l.kind == 2 && !add(n, l.right, l.left, -l.offset))
            return 0;
    }
    return 1;
}

static void solution(int n, int64_t *xs) {
    for (int u = 0; u < n; u++) {
        int64_t low = 0;
        for (int v = 0; v < n; v++)
            low = d[u][v] < low ? d[u][v] : low;
        xs[u] = low;
    }
}

static int64_t now(void) {
    struct timespec t;
    clock_gettime(CLOCK_THREAD_CPUTIME_ID, &t);
    return t.tv_sec * INT64_C(1000000000) + t.tv_nsec;
}

int main(int argc, char **argv) {
    long rounds = argc > 1 ? atol(argv[1]) : 1, repeats = argc > 2 ? atol(argv[2]) : 1;
    static struct literal ls[LITERALS];
    static int64_t xs[PLACES];
    int count = 0, n = 1;
    struct literal l;
    while (count < LITERALS && scanf("%d %d %d %" SCNd64, &l.kind, &l.left, &l.right, &l.offset) == 4) {
        if (l.kind < 0 || l.kind > 2 || l.left < 0 || l.left >= PLACES || l.right < 0 || l.right >= PLACES)
            return 2;
        ls[count++] = l;
        n = l.left >= n ? l.left + 1 : n;
        n = l.right >= n ? l.right + 1 : n;
    }
    int ok = 0;
    for (long r = 0; r < rounds; r++) {
        int64_t start = now();
        long found = 0;
        for (long k = 0; k < repeats; k++) {
            ok = add_all(n, ls, count);
            if (ok)
                solution(n, xs);
            __asm__ volatile("" : : "r"(xs) : "memory");
            found += ok;
        }
        printf("%" PRId64 " %ld\n", (now() - start) / repeats, found);
    }
    if (!ok) {
        puts("none");
        return 0;
    }
    for (int u = 1; u < n; u++)
        printf("%d %" PRId64 "\n", u - 1, xs[u] - xs[0]);
    return 0;
}
