/* Nanoseconds of processor time a call of the C library, over the lines of a file, `KIND;TEXT;TEXT..`: for bench/in_process.
 *
 *   in_process CALL READING FILE
 *
 * It prints the time of a call, the best of some rounds, and the sum of what all calls answer. `each` asks one range about the versions of
 * 1,000 lines at once, `max` and `sort` ask about the versions of one line; their time is that of a version. */
#include "nodejs_semver.h"
#include <stdio.h>
#include <stdlib.h>
#include <string.h>
#include <time.h>

enum { ROUNDS = 7, MANY = 1000 };
typedef nodejs_semver_text text;
typedef struct { const text *texts; size_t count; } line;
#define IT(n) it.texts[n].at, it.texts[n].len

static uint32_t reading;

static double now(void)
{
    struct timespec t;
    clock_gettime(CLOCK_PROCESS_CPUTIME_ID, &t);
    return t.tv_sec * 1e9 + t.tv_nsec;
}

static long compare(line it)
{
    int32_t order = 0;
    nodejs_semver_version_compare(reading, IT(0), IT(1), &order);
    return order;
}

static long diff(line it)
{
    uint32_t kind = 0;
    nodejs_semver_version_diff(reading, IT(0), IT(1), &kind);
    return kind != 0;
}

static long satisfies(line it)
{
    bool answer = false;
    nodejs_semver_range_satisfies(reading, IT(0), IT(1), false, &answer);
    return answer;
}

static long outside(line it)
{
    bool answer = false;
    nodejs_semver_range_outside(reading, IT(0), IT(1), it.texts[2].at[0] == '>', false, &answer);
    return answer;
}

static long intersects(line it)
{
    bool answer = false;
    nodejs_semver_range_allows_any(reading, IT(0), IT(1), &answer);
    return answer;
}

/* What is printed counts by its length, up to a build, which node-semver does not print. */
static char out[1 << 16];

static long printed(nodejs_semver_status status, size_t len)
{
    char *build = status == NODEJS_SEMVER_OK ? memchr(out, '+', len) : out;
    return build ? build - out : (long)len;
}
#define PRINTED(call) size_t len = 0; nodejs_semver_status status = call; return printed(status, len);

static long inc(line it) { PRINTED(nodejs_semver_version_inc(reading, IT(0), IT(1), NULL, 0, 0, out, sizeof out, &len)) }
static long version(line it) { PRINTED(nodejs_semver_version_print(reading, IT(0), out, sizeof out, &len)) }
static long range(line it) { PRINTED(nodejs_semver_range_print(reading, IT(0), out, sizeof out, &len)) }
static long intersect(line it) { PRINTED(nodejs_semver_range_intersect(reading, IT(0), IT(1), out, sizeof out, &len)) }
static long difference(line it) { PRINTED(nodejs_semver_range_difference(reading, IT(0), IT(1), out, sizeof out, &len)) }
static long min_version(line it) { PRINTED(nodejs_semver_range_min_version(reading, IT(0), out, sizeof out, &len)) }

/* A range is a subset of another one where nothing lies beyond. */
static long subset(line it)
{
    size_t len = 0;
    return nodejs_semver_range_least_beyond(reading, IT(0), IT(1), out, sizeof out, &len) == NODEJS_SEMVER_NOTHING;
}

static long flaw(line it)
{
    uint32_t kind;
    size_t place = 0;
    return nodejs_semver_version_flaw(IT(0), &kind, &place) == NODEJS_SEMVER_OK;
}

static long ignored_words(line it)
{
    nodejs_semver_word words[8];
    size_t len = 0;
    nodejs_semver_range_ignored_words(IT(0), words, 8, &len);
    return len;
}

static long each(line it)
{
    uint8_t answers[MANY];
    long sum = 0;
    nodejs_semver_range_satisfies_each(reading, IT(0), it.texts + 1, it.count - 1, false, answers, MANY);
    for (size_t at = 0; at + 1 < it.count; at++)
        sum += answers[at] == NODEJS_SEMVER_ANSWER_YES;
    return sum;
}

static long max(line it)
{
    size_t index = 0;
    return nodejs_semver_range_max_satisfying(reading, IT(0), it.texts + 1, it.count - 1, &index) == NODEJS_SEMVER_OK;
}

static long sort(line it)
{
    size_t order[MANY], index;
    return nodejs_semver_versions_sort(reading, it.texts + 1, it.count - 1, order, MANY, &index) == NODEJS_SEMVER_OK;
}

static const struct {
    const char *name;
    long (*ask)(line);
} CALLS[] = {{"compare", compare}, {"diff", diff}, {"satisfies", satisfies}, {"outside", outside}, {"intersects", intersects}, {"inc", inc},
    {"version", version}, {"range", range}, {"intersect", intersect}, {"difference", difference}, {"minVersion", min_version},
    {"subset", subset}, {"flaw", flaw}, {"ignored words", ignored_words}, {"each", each}, {"max", max}, {"sort", sort}};

static char *content(const char *path, size_t *size)
{
    FILE *file = fopen(path, "rb");
    if (!file || fseek(file, 0, SEEK_END))
        exit(1);
    *size = ftell(file);
    rewind(file);
    char *bytes = malloc(*size + 1);
    if (!bytes || fread(bytes, 1, *size, file) != *size)
        exit(1);
    fclose(file);
    return bytes;
}

/* Cuts each line at its `;`, and returns how many lines there are. The word in front is left out. */
static size_t cut(char *bytes, size_t size, line **lines)
{
    size_t count = 0, fields = 0;
    for (size_t at = 0; at < size; at++) {
        count += bytes[at] == '\n';
        fields += bytes[at] == ';';
    }
    text *texts = malloc((fields + 1) * sizeof *texts);
    *lines = malloc((count + 1) * sizeof **lines);
    if (!texts || !*lines)
        exit(1);
    for (size_t at = 0; at < count; at++) {
        char *end = memchr(bytes, '\n', size);
        (*lines)[at] = (line){texts, 0};
        for (char *field = memchr(bytes, ';', end - bytes); field; (*lines)[at].count++) {
            char *next = memchr(field + 1, ';', end - field - 1);
            *texts++ = (text){field + 1, (next ? next : end) - field - 1};
            field = next;
        }
        size -= end + 1 - bytes;
        bytes = end + 1;
    }
    return count;
}

int main(int argc, char **argv)
{
    size_t size, call = 0, versions = 0;
    line *lines;
    if (argc != 4)
        return 2;
    while (strcmp(CALLS[call].name, argv[1]))
        if (++call == sizeof CALLS / sizeof *CALLS)
            return 2;
    reading = atoi(argv[2]);
    char *bytes = content(argv[3], &size);
    size_t count = cut(bytes, size, &lines);
    for (size_t at = 0; at < count; at++)
        versions += CALLS[call].ask == each || CALLS[call].ask == max || CALLS[call].ask == sort ? lines[at].count - 1 : 1;
    double best = 1e99;
    long sum = 0;
    for (int round = 0; round < ROUNDS; round++) {
        double began = now();
        sum = 0;
        for (size_t at = 0; at < count; at++)
            sum += CALLS[call].ask(lines[at]);
        double took = (now() - began) / versions;
        best = took < best ? took : best;
    }
    printf("%.1f %ld\n", best, sum);
    return 0;
}
