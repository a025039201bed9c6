/* Asks the C library one kind of question about versions and ranges that are kept: for bench/kept.
 *
 *   kept CALL:OVER ROUNDS
 *
 * Each round asks it 500 times, of an array 10 times. OVER says what the values are: releases, mixed or ties of versions; caret, two,
 * mixed or 20 of ranges. Texts are made from a fixed seed, read once before the first round. It prints a sum of the answers. */
#include "kept.h"

enum { COUNT = 500, MANY = 10, MOST = 512, ROOM = 1 << 14 };

static nodejs_semver_version versions[COUNT];
static range ranges[COUNT];

#define PICK(...) ((const char *const[]){__VA_ARGS__})[below(sizeof(const char *const[]){__VA_ARGS__} / sizeof(char *))]

static char *release(char *at)
{
    uint64_t major = below(9), minor = below(30), patch = below(60);
    return at + sprintf(at, "%d.%d.%d", (int)major, (int)minor, (int)patch);
}

static char *version_text(char *at, bool is_release)
{
    at = release(at);
    if (is_release)
        return at;
    at = stpcpy(at, PICK("", "", "", "", "-alpha.1", "-beta.2", "-rc.10", "-0", "-x.7.z.92"));
    return stpcpy(at, PICK("", "", "", "", "", "+build.7", "+sha.5114f85"));
}

static void tie_text(char *at)
{
    const char *name = PICK("alpha", "beta", "rc");
    sprintf(at, "1.2.3-%s.%d", name, (int)below(40));
}

static void range_text(char *at)
{
    uint64_t kind = below(8), first, count;
    switch (kind) {
    case 0: case 1: case 2:
        version_text(stpcpy(at, "^"), false);
        return;
    case 3:
        first = below(9);
        sprintf(at, "~%d.%d", (int)first, (int)below(9));
        return;
    case 4:
        at = version_text(stpcpy(at, ">="), false);
        sprintf(at, " <%d.0.0", (int)below(9) + 5);
        return;
    case 5:
        first = below(3);
        sprintf(at, "%d.0.0 - %d.2.0", (int)first, (int)below(3) + 3);
        return;
    case 6:
        count = below(3) + 2;
        for (uint64_t n = 0; n < count; n++)
            at = release(stpcpy(at, n ? " || ^" : "^"));
        return;
    default:
        strcpy(at, PICK("1.x", "*", "2", ">1.2", "<=3.4.5", "1.2.3"));
    }
}

static void alternatives(char *at)
{
    for (int n = 0; n < 20; n++)
        at += sprintf(at, "%s^%d.%d.0", n ? " || " : "", 3 * n + 1, (int)below(9));
}

static nodejs_semver_version version_of(const char *text)
{
    nodejs_semver_parts parts;
    char *texts = room(256);
    if (nodejs_semver_version_read(NODEJS_SEMVER_READING_PORT, text, strlen(text), &parts, texts, 256))
        exit(1);
    const char *at = texts;
    return kept(&parts, &at);
}

static bool answer;
static int32_t number;
static uint32_t kind;
static size_t count, len, place;
static char out[ROOM];
static uint8_t answers[COUNT];
static nodejs_semver_parts parts;
static nodejs_semver_interval_parts told[MOST];

/* The calls: each asks of the values at one place, `v` and `r`, and at another one, `w` and `s`, as often as is said, and returns the sum of
 * the answers. What is not answered counts as 0. */
#define ASK(name, times, asked)                                                                  \
    static uint64_t name(void)                                                                   \
    {                                                                                            \
        uint64_t sum = 0;                                                                        \
        for (int n = 0; n < times; n++) {                                                        \
            int other = (n * 7 + 3) % COUNT;                                                     \
            const nodejs_semver_version *v = &versions[n], *w = &versions[other];                \
            const range *r = &ranges[n], *s = &ranges[other];                                    \
            (void)v, (void)w, (void)r, (void)s;                                                  \
            sum += asked;                                                                        \
        }                                                                                        \
        return sum;                                                                              \
    }
#define R r->at, r->len
#define S s->at, s->len
#define TOLD told, MOST, &count, out, ROOM, &len
#define VERSIONS versions, COUNT, false

ASK(order, COUNT, nodejs_semver_order(v, w, &number) ? 0 : (uint64_t)(int64_t)number)
ASK(order_with_builds, COUNT, nodejs_semver_order_with_builds(v, w, &number) ? 0 : (uint64_t)(int64_t)number)
ASK(kind_of, COUNT, nodejs_semver_kind(v, w, &kind) ? 0 : kind != NODEJS_SEMVER_KIND_NONE)
ASK(print, COUNT, nodejs_semver_print(v, out, ROOM, &len) ? 0 : len)
ASK(print_range, COUNT, nodejs_semver_print_range(R, out, ROOM, &len) ? 0 : len)
ASK(accepts, COUNT, nodejs_semver_accepts(R, w, false, &answer) ? 0 : answer)
ASK(meets, COUNT, nodejs_semver_meets(R, S, &answer) ? 0 : answer)
ASK(covers, COUNT, nodejs_semver_covers(R, S, &answer) ? 0 : answer)
ASK(lies_outside, COUNT, nodejs_semver_lies_outside(R, w, true, false, &answer) ? 0 : answer)
ASK(is_subset, COUNT, nodejs_semver_is_subset(R, S, false, &answer) ? 0 : answer)
ASK(intersect, COUNT, !nodejs_semver_intersect(R, S, TOLD))
ASK(difference, COUNT, !nodejs_semver_difference(R, S, TOLD))
ASK(union_of, COUNT, !nodejs_semver_union(R, S, TOLD))
ASK(next, COUNT, nodejs_semver_next(v, "minor", 5, "", 0, NODEJS_SEMVER_BASE_ZERO, &parts, out, ROOM) ? 0 : parts.minor)
ASK(next_beta, COUNT, nodejs_semver_next(v, "prerelease", 10, "beta", 4, NODEJS_SEMVER_BASE_ZERO, &parts, out, ROOM) ? 0 : parts.minor)
ASK(least_version, COUNT, !nodejs_semver_least_version(R, &parts, out, ROOM))
ASK(least_beyond, COUNT, !nodejs_semver_least_beyond(R, S, false, &parts, out, ROOM))
ASK(greatest, MANY, !nodejs_semver_greatest(R, VERSIONS, &place))
ASK(least, MANY, !nodejs_semver_least(R, VERSIONS, &place))
ASK(accepts_each, MANY, nodejs_semver_accepts_each(R, VERSIONS, answers, COUNT) ? 0 : answers[0] == NODEJS_SEMVER_ANSWER_YES)

static const struct {
    const char *name;
    uint64_t (*ask)(void);
} CALLS[] = {{"order", order}, {"order_with_builds", order_with_builds}, {"kind", kind_of}, {"next", next}, {"next_beta", next_beta}, {"print", print}, {"print_range", print_range},
    {"accepts", accepts}, {"meets", meets}, {"covers", covers}, {"lies_outside", lies_outside}, {"is_subset", is_subset},
    {"intersect", intersect}, {"difference", difference}, {"union", union_of}, {"least_version", least_version},
    {"least_beyond", least_beyond}, {"greatest", greatest}, {"least", least}, {"accepts_each", accepts_each}};

static void make(const char *over)
{
    static char text[ROOM];
    bool is_mixed = !strcmp(over, "mixed"), is_tie = !strcmp(over, "ties");
    for (int n = 0; n < COUNT; n++) {
        is_tie ? tie_text(text) : (void)version_text(text, !is_mixed);
        versions[n] = version_of(text);
    }
    for (int n = 0; n < COUNT; n++) {
        char *at = text;
        if (!strcmp(over, "caret"))
            release(stpcpy(at, "^"));
        else if (!strcmp(over, "two")) {
            at = release(stpcpy(at, ">="));
            sprintf(at, " <%d.0.0", (int)below(9) + 9);
        } else if (!strcmp(over, "20"))
            alternatives(at);
        else
            range_text(at);
        ranges[n] = range_of(text, MOST, ROOM);
    }
}

int main(int argc, char **argv)
{
    char *over = argc == 3 ? strchr(argv[1], ':') : NULL;
    size_t call = 0;
    if (!over)
        return 2;
    *over++ = 0;
    while (strcmp(CALLS[call].name, argv[1]))
        if (++call == sizeof CALLS / sizeof *CALLS)
            return 2;
    make(over);
    uint64_t sum = 0;
    for (int rounds = atoi(argv[2]); rounds > 0; rounds--)
        sum += CALLS[call].ask();
    printf("%llu\n", (unsigned long long)sum);
    return 0;
}
