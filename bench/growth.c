/* Asks the C library one question about two ranges of many alternatives: for bench/growth.
 *
 *   growth CALL OVER N
 *
 * Each range has N alternatives in an order of its own: releases (`1.2.3`), carets (`^1.2`), points (`1.0.0-a.7`), or bounds that lie within each
 * other (`>=7.0.0 <993.0.0`). It prints the nanoseconds of processor time that the call took, and the answer. */
#include "kept.h"
#include <time.h>

static range shuffled(const char *over, size_t n)
{
    size_t *order = room(n * sizeof *order);
    for (size_t k = 0; k < n; k++) {
        size_t other = below(k + 1);
        order[k] = order[other];
        order[other] = k;
    }
    char *text = room(n * 40), *at = text;
    for (size_t k = 0; k < n; k++) {
        int it = (int)order[k];
        at = stpcpy(at, k ? "||" : "");
        at += !strcmp(over, "releases") ? sprintf(at, "%d.%d.0", it / 100, it % 100)
            : !strcmp(over, "carets")   ? sprintf(at, "^%d.1.0", it)
            : !strcmp(over, "points")   ? sprintf(at, "1.0.0-a.%d", it)
                                        : sprintf(at, ">=%d.0.0 <%d.0.0", it, 2 * (int)n - it);
    }
    return range_of(text, n, n * 32);
}

int main(int argc, char **argv)
{
    if (argc != 4)
        return 2;
    size_t n = strtoul(argv[3], NULL, 10), count = 0, len, size = 2 * n * 32;
    range r = shuffled(argv[2], n), s = shuffled(argv[2], n);
    nodejs_semver_interval_parts *told = room(2 * n * sizeof *told);
    nodejs_semver_parts parts;
    char *out = room(size);
    bool yes = false;
    nodejs_semver_status status;
    clock_t began = clock();
    if (!strcmp(argv[1], "is_subset"))
        status = nodejs_semver_is_subset(r.at, r.len, s.at, s.len, false, &yes);
    else if (!strcmp(argv[1], "least_beyond"))
        status = nodejs_semver_least_beyond(r.at, r.len, s.at, s.len, false, &parts, out, size);
    else if (!strcmp(argv[1], "union"))
        status = nodejs_semver_union(r.at, r.len, s.at, s.len, told, 2 * n, &count, out, size, &len);
    else
        return 2;
    printf("%.0f %u %d %zu\n", (double)(clock() - began) * 1e9 / CLOCKS_PER_SEC, status, yes, count);
    return 0;
}
