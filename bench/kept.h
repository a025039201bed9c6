/* Random numbers, and versions and ranges that are read and kept: for bench/kept.c and bench/growth.c. */
#include "nodejs_semver.h"
#include <stdio.h>
#include <stdlib.h>
#include <string.h>

typedef struct {
    nodejs_semver_interval *at;
    size_t len;
} range;

static uint64_t state = 88172645463325252;

static uint64_t below(uint64_t end)
{
    state ^= state << 13;
    state ^= state >> 7;
    state ^= state << 17;
    return state % end;
}

static void *room(size_t size)
{
    void *at = malloc(size ? size : 1);
    if (!at)
        exit(1);
    return at;
}

/* The version of some parts, whose texts begin at a place, which moves behind them. */
static nodejs_semver_version kept(const nodejs_semver_parts *parts, const char **at)
{
    nodejs_semver_text pre = {*at, parts->pre_release_len}, build = {*at + pre.len, parts->build_len};
    *at = build.at + build.len;
    return (nodejs_semver_version){parts->major, parts->minor, parts->patch, pre, build};
}

/* The range of a text that has at most so many intervals, with texts of so many bytes. */
static range range_of(const char *text, size_t most, size_t bytes)
{
    nodejs_semver_interval_parts *told = room(most * sizeof *told);
    size_t count, len;
    char *texts = room(bytes);
    if (nodejs_semver_range_read(NODEJS_SEMVER_READING_PORT, text, strlen(text), false, told, most, &count, texts, bytes, &len))
        exit(1);
    const char *at = texts;
    range made = {room(count * sizeof *made.at), count};
    for (size_t n = 0; n < count; n++) {
        nodejs_semver_version lower = kept(&told[n].lower.version, &at), upper = kept(&told[n].upper.version, &at);
        made.at[n] = (nodejs_semver_interval){{told[n].lower.kind, lower}, {told[n].upper.kind, upper}};
    }
    free(told);
    return made;
}
