/* What a caller in C may do wrong, as far as a status can answer it: buffers that are too small, NULL with length 0, bytes that are no
 * UTF-8, lengths of 2^63. To be run under AddressSanitizer or valgrind. */
#include "nodejs_semver.h"
#include <stdio.h>
#include <stdlib.h>
#include <string.h>

#define T(s) (s), sizeof(s) - 1
#define PORT NODEJS_SEMVER_READING_PORT
#define NPM NODEJS_SEMVER_READING_NPM
#define LOOSE NODEJS_SEMVER_READING_NPM_LOOSE
#define HUGE_LENGTH ((size_t)1 << 63)

static int failures;

static void check(int line, bool is_so)
{
    if (!is_so) {
        failures++;
        printf("hostile.c, line %d: wrong\n", line);
    }
}
#define CHECK(c) check(__LINE__, c)

/* A copy in memory of its own size, so that a read behind it is noticed. */
static char *exact(const char *bytes, size_t len)
{
    char *copy = malloc(len ? len : 1);
    memcpy(copy, bytes, len);
    return copy;
}

/* Each buffer from none to one that is larger by a byte. */
static void buffers(void)
{
    for (size_t size = 0; size <= 15; size++) {
        char *out = malloc(size ? size : 1);
        memset(out, 'x', size ? size : 1);
        size_t len = 99;
        nodejs_semver_status status = nodejs_semver_range_intersect(PORT, T("^1.2.3"), T("<1.5.0"), size ? out : NULL, size, &len);
        CHECK(len == 14);
        if (size < 14)
            CHECK(status == NODEJS_SEMVER_TOO_SMALL && (!size || out[0] == 'x'));
        else
            CHECK(status == NODEJS_SEMVER_OK && !memcmp(out, ">=1.2.3 <1.5.0", 14) && (size == 14 || out[14] == 'x'));
        free(out);
    }
}

/* All that a function may write. */
typedef struct {
    char *out;
    size_t size, len, index, order[2];
    nodejs_semver_word words[2];
    nodejs_semver_parts parts;
    nodejs_semver_interval_parts intervals[2];
    nodejs_semver_alternative alternative;
    int32_t compared;
    uint32_t number;
    uint8_t answers[2];
    bool answer;
} written;

static const nodejs_semver_text VERSIONS[] = {{"1.2.0", 5}, {"1.3.0", 5}};
#define OUT w->out, w->size, &w->len
#define VERSION T("1.2.4-rc.1")
#define RANGE T("^1.2 || 3")

/* The calls of all functions, one for each text that is passed; the first ones print. */
enum { PRINTING = 17, CALLS = 46 };

static nodejs_semver_status call(int which, uint32_t reading, const char *text, size_t len, written *w)
{
    switch (which) {
    case 0: return nodejs_semver_version_print(reading, text, len, OUT);
    case 1: return nodejs_semver_version_inc(reading, text, len, T("prerelease"), T("beta"), 0, OUT);
    case 2: return nodejs_semver_version_inc(reading, VERSION, text, len, T("beta"), 0, OUT);
    case 3: return nodejs_semver_version_inc(reading, VERSION, T("prerelease"), text, len, 0, OUT);
    case 4: return nodejs_semver_range_print(reading, text, len, OUT);
    case 5: return nodejs_semver_range_min_version(reading, text, len, OUT);
    case 6: return nodejs_semver_range_intersect(reading, text, len, RANGE, OUT);
    case 7: return nodejs_semver_range_intersect(reading, RANGE, text, len, OUT);
    case 8: return nodejs_semver_range_difference(reading, text, len, RANGE, OUT);
    case 9: return nodejs_semver_range_difference(reading, RANGE, text, len, OUT);
    case 10: return nodejs_semver_range_least_beyond(reading, text, len, RANGE, OUT);
    case 11: return nodejs_semver_range_least_beyond(reading, RANGE, text, len, OUT);
    case 12: return nodejs_semver_version_clean(text, len, OUT);
    case 13: return nodejs_semver_version_coerce(text, len, false, true, true, OUT);
    case 14: return nodejs_semver_version_build_text(text, len, true, OUT);
    case 15: return nodejs_semver_range_union(reading, text, len, RANGE, OUT);
    case 16: return nodejs_semver_range_union(reading, RANGE, text, len, OUT);
    case 17: return nodejs_semver_version_check(reading, text, len);
    case 18: return nodejs_semver_version_compare(reading, text, len, VERSION, &w->compared);
    case 19: return nodejs_semver_version_compare(reading, VERSION, text, len, &w->compared);
    case 20: return nodejs_semver_version_diff(reading, text, len, VERSION, &w->number);
    case 21: return nodejs_semver_version_diff(reading, VERSION, text, len, &w->number);
    case 22: return nodejs_semver_version_flaw(text, len, &w->number, &w->index);
    case 23: return nodejs_semver_range_ignored_words(text, len, w->words, 2, &w->len);
    case 24: return nodejs_semver_range_satisfies(reading, text, len, VERSION, true, &w->answer);
    case 25: return nodejs_semver_range_satisfies(reading, RANGE, text, len, false, &w->answer);
    case 26: return nodejs_semver_range_satisfies_each(reading, text, len, VERSIONS, 2, true, w->answers, 2);
    case 27: return nodejs_semver_range_max_satisfying(reading, text, len, VERSIONS, 2, &w->index);
    case 28: return nodejs_semver_range_min_satisfying(reading, text, len, VERSIONS, 2, &w->index);
    case 29: return nodejs_semver_range_outside(reading, text, len, VERSION, true, true, &w->answer);
    case 30: return nodejs_semver_range_outside(reading, RANGE, text, len, false, false, &w->answer);
    case 31: return nodejs_semver_range_allows_all(reading, text, len, RANGE, &w->answer);
    case 32: return nodejs_semver_range_allows_all(reading, RANGE, text, len, &w->answer);
    case 33: return nodejs_semver_range_allows_any(reading, text, len, RANGE, &w->answer);
    case 34: return nodejs_semver_range_allows_any(reading, RANGE, text, len, &w->answer);
    case 35: return nodejs_semver_version_compare_build(reading, text, len, VERSION, &w->compared);
    case 36: return nodejs_semver_version_compare_build(reading, VERSION, text, len, &w->compared);
    case 37: return nodejs_semver_version_read(reading, text, len, &w->parts, w->out, w->size);
    case 38: return nodejs_semver_range_is_subset(reading, text, len, RANGE, true, &w->answer);
    case 39: return nodejs_semver_range_is_subset(reading, RANGE, text, len, false, &w->answer);
    case 40: return nodejs_semver_range_accepts_same(reading, text, len, RANGE, true, &w->answer);
    case 41: return nodejs_semver_range_accepts_same(reading, RANGE, text, len, false, &w->answer);
    case 42: return nodejs_semver_version_npm_flaw(text, len, &w->number, &w->index);
    case 43: return nodejs_semver_range_npm_flaw(text, len, true, &w->alternative);
    case 44: return nodejs_semver_range_read(reading, text, len, true, w->intervals, 2, &w->index, OUT);
    default: return nodejs_semver_versions_sort(reading, (nodejs_semver_text[]){{text, len}}, 1, w->order, 1, &w->index);
    }
}

/* Each text of each function in turn: of bytes that are no UTF-8, longer than memory, and NULL with length 0. With a status that rejects
 * it nothing is written, but the place in an array. */
static void texts(void)
{
    for (int which = 0; which < CALLS; which++)
        for (uint32_t reading = PORT; reading <= LOOSE; reading++) {
            char *invalid = exact("1.2.3\xff", 6), *out = exact("xxxxxxxx", 8);
            written was, now;
            memset(&was, 'x', sizeof was);
            was.out = out;
            was.size = 8;
            if (which == CALLS - 1)
                was.index = 0;
            memcpy(&now, &was, sizeof was);
            CHECK(call(which, reading, invalid, 6, &now) == NODEJS_SEMVER_NOT_UTF8 && !memcmp(&was, &now, sizeof was));
            CHECK(call(which, reading, invalid, HUGE_LENGTH, &now) == NODEJS_SEMVER_TOO_LONG && !memcmp(&was, &now, sizeof was));
            CHECK(call(which, reading, invalid, SIZE_MAX, &now) == NODEJS_SEMVER_TOO_LONG && !memcmp(&was, &now, sizeof was));
            CHECK(!memcmp(out, "xxxxxxxx", 8));
            if (which != CALLS - 1)
                CHECK(call(which, reading, NULL, 0, &now) <= NODEJS_SEMVER_BAD_IDENTIFIER);
            free(invalid);
            free(out);
        }
}

/* A buffer that is one byte short, and one that has just the room, for each text that is printed. */
static void short_by_one(void)
{
    const char *given[PRINTING] = {"1.2.3-a.b+c", "1.2.3", "minor", "rc.1", "^1.2 || ^3", "^1.2.3-a", ">1.5", "1", "*", "1.3", "*", "1.3",
                                  " =v1.2.3+b ", "a 1.2", "v1.2.3beta+007.a", "1", "1"};
    for (int which = 0; which < PRINTING; which++)
        for (uint32_t reading = PORT; reading <= LOOSE; reading++) {
            written none = {0};
            CHECK(call(which, reading, given[which], strlen(given[which]), &none) == NODEJS_SEMVER_TOO_SMALL && none.len > 4);
            for (size_t size = none.len - 1; size <= none.len; size++) {
                written now = {.out = malloc(size), .size = size};
                memset(now.out, 'x', size);
                nodejs_semver_status status = call(which, reading, given[which], strlen(given[which]), &now);
                CHECK(now.len == none.len && status == (size < none.len ? NODEJS_SEMVER_TOO_SMALL : NODEJS_SEMVER_OK));
                CHECK((memchr(now.out, 'x', size) == now.out) == (size < none.len));
                free(now.out);
            }
        }
}

/* Every cut of some texts, each in memory of its own size. */
static void cuts(void)
{
    const char *texts[] = {"v1.2.3-rc.1+build.7", ">=1.2.3-a.b <2.0.0 || ~1.2 || 3.x - 4", "1.2.3\xff", "\xf0\x9f\x92", "\xc2\xa0v1.2.3", "||||", "^1.2.3-"};
    for (size_t at = 0; at < sizeof texts / sizeof *texts; at++)
        for (size_t len = 0; len <= strlen(texts[at]); len++) {
            char *text = exact(texts[at], len), out[64];
            size_t written = 0, place = 0;
            uint32_t flaw;
            bool answer;
            nodejs_semver_word words[2];
            nodejs_semver_version_flaw(text, len, &flaw, &place);
            nodejs_semver_range_ignored_words(text, len, words, at % 3, &written);
            for (uint32_t reading = PORT; reading <= LOOSE + 1; reading++) {
                nodejs_semver_version_print(reading, text, len, out, sizeof out, &written);
                nodejs_semver_version_inc(reading, T("1.2.3"), text, len, text, len, 0, out, sizeof out, &written);
                nodejs_semver_range_print(reading, text, len, out, sizeof out, &written);
                nodejs_semver_range_min_version(reading, text, len, out, sizeof out, &written);
                nodejs_semver_range_satisfies(reading, text, len, text, len, true, &answer);
                nodejs_semver_range_allows_any(reading, text, len, text, len, &answer);
            }
            CHECK(written <= 200);
            free(text);
        }
}

static void nothing(void)
{
    bool answer = false;
    char out[8];
    size_t len = 5, index = 7;
    nodejs_semver_text texts[] = {{"1.2.0", 5}, {"", 0}};
    uint8_t answers[2] = {9, 9};
    CHECK(nodejs_semver_version_check(PORT, NULL, 0) == NODEJS_SEMVER_BAD_VERSION);
    CHECK(nodejs_semver_range_satisfies(PORT, NULL, 0, T("2.9.0"), false, &answer) == NODEJS_SEMVER_OK && answer);
    CHECK(nodejs_semver_version_print(PORT, T("1.2.3"), NULL, 0, &len) == NODEJS_SEMVER_TOO_SMALL && len == 5);
    CHECK(nodejs_semver_version_inc(PORT, T("1.2.3"), T("patch"), NULL, 0, 0, out, sizeof out, &len) == NODEJS_SEMVER_OK && len == 5);
    CHECK(nodejs_semver_range_max_satisfying(PORT, T("^1"), NULL, 0, &index) == NODEJS_SEMVER_NOTHING && index == 7);
    CHECK(nodejs_semver_range_satisfies_each(PORT, T("^1"), NULL, 0, false, NULL, 0) == NODEJS_SEMVER_OK);
    CHECK(nodejs_semver_range_satisfies_each(PORT, T("^1"), texts, 2, false, answers, 1) == NODEJS_SEMVER_TOO_SMALL && answers[0] == 9);
    CHECK(nodejs_semver_range_satisfies_each(PORT, T("^1"), texts, 2, false, answers, 2) == NODEJS_SEMVER_OK && answers[0] == 1 && answers[1] == 2);
    CHECK(nodejs_semver_range_max_satisfying(PORT, T("^1"), texts, 2, &index) == NODEJS_SEMVER_BAD_VERSION && index == 1);
}

/* A reading that there is none of, before any text is looked at. */
static void readings(void)
{
    char out[8];
    size_t len = 5;
    bool answer = true;
    CHECK(nodejs_semver_version_check(LOOSE + 1, NULL, 0) == NODEJS_SEMVER_BAD_ARGUMENT);
    CHECK(nodejs_semver_version_print(UINT32_MAX, T("\xff"), out, sizeof out, &len) == NODEJS_SEMVER_BAD_ARGUMENT && len == 5);
    CHECK(nodejs_semver_range_satisfies(LOOSE + 1, "^1", HUGE_LENGTH, T("1.0.0"), false, &answer) == NODEJS_SEMVER_BAD_ARGUMENT && answer);
    CHECK(nodejs_semver_range_satisfies(PORT, T(">=1.0.0, <2"), T("1.2.3 oops"), false, &answer) == NODEJS_SEMVER_OK);
    CHECK(nodejs_semver_range_satisfies(NPM, T(">=1.0.0, <2"), T("1.2.3"), false, &answer) == NODEJS_SEMVER_BAD_RANGE);
    CHECK(nodejs_semver_version_check(NPM, T("=v01.2.3beta")) == NODEJS_SEMVER_BAD_VERSION);
    CHECK(nodejs_semver_version_check(LOOSE, T("=v01.2.3beta")) == NODEJS_SEMVER_OK);
    CHECK(nodejs_semver_range_satisfies(LOOSE, T(">=01.2.3, <2"), T("1.3.0"), false, &answer) == NODEJS_SEMVER_OK && answer);
    CHECK(nodejs_semver_range_satisfies(LOOSE, T("latest"), T("1.3.0"), false, &answer) == NODEJS_SEMVER_BAD_RANGE);
    CHECK(nodejs_semver_range_satisfies(NPM, T(">=1.0.0 <2"), T("1.2.3 oops"), false, &answer) == NODEJS_SEMVER_BAD_VERSION);
}

static void sorts(void)
{
    nodejs_semver_text texts[] = {{"1.10.0", 6}, {"1.9.0+b", 7}, {"1.9.0", 5}, {"1", 1}};
    size_t order[4] = {9, 9, 9, 9}, index = 7;
    CHECK(nodejs_semver_versions_sort(NPM, texts, 3, order, 2, &index) == NODEJS_SEMVER_TOO_SMALL && order[0] == 9 && index == 7);
    CHECK(nodejs_semver_versions_sort(NPM, texts, 4, order, 4, &index) == NODEJS_SEMVER_BAD_VERSION && order[0] == 9 && index == 3);
    CHECK(nodejs_semver_versions_sort(NPM, texts, 3, order, 4, &index) == NODEJS_SEMVER_OK && index == 3);
    CHECK(order[0] == 1 && order[1] == 2 && order[2] == 0 && order[3] == 9);
    CHECK(nodejs_semver_versions_sort(NPM, NULL, 0, NULL, 0, &index) == NODEJS_SEMVER_OK);
    CHECK(nodejs_semver_versions_sort(NPM, texts, SIZE_MAX, order, SIZE_MAX, &index) == NODEJS_SEMVER_TOO_LONG && order[0] == 1);
}

/* As many words as there is room for, and their number. */
static void words(void)
{
    nodejs_semver_word found[2] = {{9, 9, 9}, {9, 9, 9}};
    size_t len = 5;
    CHECK(nodejs_semver_range_ignored_words(T("foo 1 ^* bar"), NULL, 0, &len) == NODEJS_SEMVER_TOO_SMALL && len == 3);
    CHECK(nodejs_semver_range_ignored_words(T("foo 1 ^* bar"), found, 1, &len) == NODEJS_SEMVER_TOO_SMALL && len == 3);
    CHECK(found[0].start == 0 && found[0].end == 3 && found[0].kind == NODEJS_SEMVER_WORD_MALFORMED && found[1].start == 9);
    CHECK(nodejs_semver_range_ignored_words(T("1 ^*"), found, 2, &len) == NODEJS_SEMVER_OK && len == 1);
    CHECK(found[0].start == 2 && found[0].end == 4 && found[0].kind == NODEJS_SEMVER_WORD_WITHOUT_BOUNDS && found[1].start == 9);
    CHECK(nodejs_semver_range_ignored_words(T("^1"), NULL, 0, &len) == NODEJS_SEMVER_OK && len == 0);
}

static nodejs_semver_version version_of(uint64_t patch, const char *pre_release, const char *build)
{
    nodejs_semver_version it = {1, 2, patch, {pre_release, strlen(pre_release)}, {build, strlen(build)}};
    return it;
}

/* The parts of a version, in buffers of each size, and the version that they make again. */
static void parts(void)
{
    for (size_t size = 0; size <= 9; size++) {
        char *texts = malloc(size ? size : 1), out[32];
        memset(texts, 'x', size ? size : 1);
        nodejs_semver_parts told = {9, 9, 9, 9, 9};
        nodejs_semver_status status = nodejs_semver_version_read(NPM, T("v1.2.3-rc.1+007"), &told, size ? texts : NULL, size);
        CHECK(told.major == 1 && told.minor == 2 && told.patch == 3 && told.pre_release_len == 4 && told.build_len == 1);
        if (size < 5) {
            CHECK(status == NODEJS_SEMVER_TOO_SMALL && (!size || texts[0] == 'x'));
        } else {
            nodejs_semver_version it = {told.major, told.minor, told.patch, {texts, 4}, {texts + 4, 1}};
            size_t len = 0;
            CHECK(status == NODEJS_SEMVER_OK && !memcmp(texts, "rc.17", 5) && (size == 5 || texts[5] == 'x'));
            CHECK(nodejs_semver_print(&it, out, sizeof out, &len) == NODEJS_SEMVER_OK && len == 12 && !memcmp(out, "1.2.3-rc.1+7", 12));
            CHECK(nodejs_semver_print(&it, NULL, 0, &len) == NODEJS_SEMVER_TOO_SMALL && len == 12);
        }
        free(texts);
    }
}

/* Versions that are kept: of any numbers, and of texts that spell no identifiers. */
static void kept(void)
{
    const char *wrong[] = {".", "a.", ".a", "a..b", "a_b", "a b", "\xff", "\xc3\xa9", "+", "a+b"};
    nodejs_semver_version release = version_of(3, "", ""), alpha = version_of(3, "alpha.1", "b"), beta = version_of(3, "alpha.beta", "a");
    nodejs_semver_version built = version_of(3, "", "1"), great = version_of(UINT64_MAX, "", "");
    int32_t order = 7;
    uint32_t kind = 9;
    size_t len = 5;
    char out[8];
    CHECK(nodejs_semver_order(&alpha, &release, &order) == NODEJS_SEMVER_OK && order == -1);
    CHECK(nodejs_semver_order(&beta, &alpha, &order) == NODEJS_SEMVER_OK && order == 1);
    CHECK(nodejs_semver_order(&release, &built, &order) == NODEJS_SEMVER_OK && order == 0);
    CHECK(nodejs_semver_order_with_builds(&release, &built, &order) == NODEJS_SEMVER_OK && order == -1);
    CHECK(nodejs_semver_order_with_builds(&beta, &alpha, &order) == NODEJS_SEMVER_OK && order == 1);
    CHECK(nodejs_semver_order(&great, &release, &order) == NODEJS_SEMVER_OK && order == 1);
    CHECK(nodejs_semver_kind(&great, &release, &kind) == NODEJS_SEMVER_OK && kind == NODEJS_SEMVER_KIND_PATCH);
    CHECK(nodejs_semver_kind(&alpha, &beta, &kind) == NODEJS_SEMVER_OK && kind == NODEJS_SEMVER_KIND_PRERELEASE);
    CHECK(nodejs_semver_kind(&release, &built, &kind) == NODEJS_SEMVER_OK && kind == NODEJS_SEMVER_KIND_NONE);
    for (size_t at = 0; at < sizeof wrong / sizeof *wrong; at++) {
        nodejs_semver_version pre = version_of(3, wrong[at], ""), build = version_of(3, "", wrong[at]);
        CHECK(nodejs_semver_check(&pre) == NODEJS_SEMVER_BAD_VERSION && nodejs_semver_check(&build) == NODEJS_SEMVER_BAD_VERSION);
        CHECK(nodejs_semver_order(&pre, &release, &order) == NODEJS_SEMVER_OK && order == -1);
        CHECK(nodejs_semver_order(&pre, &pre, &order) == NODEJS_SEMVER_OK && order == 0);
        CHECK(nodejs_semver_order_with_builds(&release, &build, &order) == NODEJS_SEMVER_OK && order == -1);
        CHECK(nodejs_semver_kind(&build, &release, &kind) == NODEJS_SEMVER_OK && kind == NODEJS_SEMVER_KIND_NONE);
        CHECK(nodejs_semver_kind(&pre, &great, &kind) == NODEJS_SEMVER_OK && kind == NODEJS_SEMVER_KIND_PATCH);
        CHECK(nodejs_semver_print(&pre, out, sizeof out, &len) == NODEJS_SEMVER_BAD_VERSION && len == 5);
    }
    CHECK(nodejs_semver_check(&alpha) == NODEJS_SEMVER_OK && nodejs_semver_check(&great) == NODEJS_SEMVER_OK);
    /* Pre-releases of the same numbers, by the pieces between their dots: no piece is 0, and digits past 64 bits are a text. */
    const struct { const char *low, *high; int32_t order; } ties[] = {
        {"a.9", "a.10", -1}, {"a..1", "a.0.1", 0}, {"a.", "a.0", 0}, {".", "0.0", 0}, {"a", "a.", -1}, {"007", "7", 0}, {"7", "7a", -1},
        {"18446744073709551615", "18446744073709551616", -1}, {"18446744073709551616", "9a", -1}, {"A", "a", -1}, {"-", "0", 1}, {"a\xff", "a_", 1},
    };
    for (size_t at = 0; at < sizeof ties / sizeof *ties; at++) {
        nodejs_semver_version low = version_of(3, ties[at].low, ties[at].low), high = version_of(3, ties[at].high, ties[at].high);
        CHECK(nodejs_semver_order(&low, &high, &order) == NODEJS_SEMVER_OK && order == ties[at].order);
        CHECK(nodejs_semver_order(&high, &low, &order) == NODEJS_SEMVER_OK && order == -ties[at].order);
        low.pre_release = high.pre_release = release.pre_release;
        CHECK(nodejs_semver_order_with_builds(&low, &high, &order) == NODEJS_SEMVER_OK && order == ties[at].order);
    }
    /* Of a length that no memory has, no byte is looked at: the text counts as the byte 0. */
    nodejs_semver_version vast = version_of(3, "", "");
    vast.pre_release = vast.build = (nodejs_semver_text){"", HUGE_LENGTH};
    CHECK(nodejs_semver_order(&vast, &release, &order) == NODEJS_SEMVER_OK && order == -1);
    CHECK(nodejs_semver_order(&vast, &alpha, &order) == NODEJS_SEMVER_OK && order == -1);
    CHECK(nodejs_semver_order_with_builds(&vast, &vast, &order) == NODEJS_SEMVER_OK && order == 0);
    CHECK(nodejs_semver_check(&vast) == NODEJS_SEMVER_TOO_LONG);
    built.build.len = SIZE_MAX;
    CHECK(nodejs_semver_order_with_builds(&release, &built, &order) == NODEJS_SEMVER_OK && order == -1);
    CHECK(nodejs_semver_print(&built, out, sizeof out, &len) == NODEJS_SEMVER_TOO_LONG && len == 5);
}

/* The intervals of what is told of a range that npm reads, and their number. */
static size_t kept_range(const char *text, nodejs_semver_interval *range, char *texts, size_t room)
{
    nodejs_semver_interval_parts told[4];
    size_t count = 0, len = 0, at = 0;
    CHECK(nodejs_semver_range_read(NPM, text, strlen(text), false, told, 4, &count, texts, room, &len) == NODEJS_SEMVER_OK);
    for (size_t place = 0; place < 2 * count; place++) {
        nodejs_semver_bound_parts it = place % 2 ? told[place / 2].upper : told[place / 2].lower;
        nodejs_semver_parts v = it.version;
        nodejs_semver_bound bound = {it.kind, {v.major, v.minor, v.patch, {texts + at, v.pre_release_len}, {NULL, 0}}};
        at += v.pre_release_len;
        bound.version.build = (nodejs_semver_text){texts + at, v.build_len};
        at += v.build_len;
        *(place % 2 ? &range[place / 2].upper : &range[place / 2].lower) = bound;
    }
    CHECK(at == len);
    return count;
}

/* What is told of a range, in arrays and buffers of each size. */
static void ranges_read(void)
{
    for (size_t room = 0; room <= 3; room++)
        for (size_t size = 0; size <= 6; size++) {
            nodejs_semver_interval_parts *told = malloc(room ? room * sizeof *told : 1);
            char *texts = malloc(size ? size : 1);
            memset(told, 'x', room ? room * sizeof *told : 1);
            memset(texts, 'x', size ? size : 1);
            size_t count = 9, len = 9;
            nodejs_semver_status status = nodejs_semver_range_read(
                NPM, T("^1.2.3-rc.1 || >2.0.0 <=3.0.0"), false, room ? told : NULL, room, &count, size ? texts : NULL, size, &len);
            CHECK(count == 2 && len == 5);
            if (room < 2 || size < 5) {
                CHECK(status == NODEJS_SEMVER_TOO_SMALL && (!size || texts[0] == 'x') && (!room || told[0].lower.kind == 0x78787878));
            } else {
                CHECK(status == NODEJS_SEMVER_OK && !memcmp(texts, "rc.10", 5) && (size == 5 || texts[5] == 'x'));
                CHECK(told[0].lower.kind == NODEJS_SEMVER_BOUND_CLOSED && told[0].upper.kind == NODEJS_SEMVER_BOUND_OPEN);
                CHECK(told[1].lower.kind == NODEJS_SEMVER_BOUND_OPEN && told[1].upper.kind == NODEJS_SEMVER_BOUND_CLOSED);
                CHECK(told[0].lower.version.patch == 3 && told[0].lower.version.pre_release_len == 4 && told[0].lower.version.build_len == 0);
                CHECK(told[0].upper.version.major == 2 && told[0].upper.version.pre_release_len == 1 && told[1].upper.version.major == 3);
                CHECK(room == 2 || told[2].lower.kind == 0x78787878);
            }
            free(told);
            free(texts);
        }
    nodejs_semver_interval_parts told[1];
    size_t count = 9, len = 9;
    CHECK(nodejs_semver_range_read(NPM, T("*"), false, told, 1, &count, NULL, 0, &len) == NODEJS_SEMVER_OK && count == 1 && len == 0);
    CHECK(told[0].lower.version.major == 0 && told[0].upper.kind == NODEJS_SEMVER_BOUND_NONE && told[0].upper.version.major == 0);
}

/* Ranges that are kept, and what is asked of them. */
static void kept_ranges(void)
{
    char texts[16], out[64];
    nodejs_semver_interval range[4], other[4];
    size_t count = kept_range("^1.2.3-rc.1 || >2.0.0 <=3.0.0", range, texts, sizeof texts), index = 7, len = 5;
    CHECK(count == 2 && kept_range(">=1.4.0", other, out, sizeof out) == 1);
    bool answer = false;
    nodejs_semver_version beta = version_of(3, "rc.2", "b"), later = version_of(4, "rc.2", ""), release = version_of(4, "", "");
    nodejs_semver_version great = version_of(UINT64_MAX, "", ""), wrong = version_of(3, "a..b", "");
    CHECK(nodejs_semver_accepts(range, count, &beta, false, &answer) == NODEJS_SEMVER_OK && answer);
    CHECK(nodejs_semver_accepts(range, count, &later, false, &answer) == NODEJS_SEMVER_OK && !answer);
    CHECK(nodejs_semver_accepts(range, count, &later, true, &answer) == NODEJS_SEMVER_OK && answer);
    CHECK(nodejs_semver_accepts(range, count, &great, false, &answer) == NODEJS_SEMVER_OK && answer);
    CHECK(nodejs_semver_accepts(range, count, &wrong, true, &answer) == NODEJS_SEMVER_OK && !answer);

    nodejs_semver_version versions[] = {later, release, beta, release, wrong};
    uint8_t answers[5] = {9, 9, 9, 9, 9};
    CHECK(nodejs_semver_accepts_each(range, count, versions, 5, false, answers, 4) == NODEJS_SEMVER_TOO_SMALL && answers[0] == 9);
    CHECK(nodejs_semver_accepts_each(range, count, versions, 5, false, answers, 5) == NODEJS_SEMVER_OK && !memcmp(answers, "\0\1\1\1\0", 5));
    CHECK(nodejs_semver_accepts_each(range, count, NULL, 0, false, NULL, 0) == NODEJS_SEMVER_OK);
    CHECK(nodejs_semver_greatest(range, count, versions, 4, false, &index) == NODEJS_SEMVER_OK && index == 3);
    CHECK(nodejs_semver_least(range, count, versions, 4, false, &index) == NODEJS_SEMVER_OK && index == 2);
    CHECK(nodejs_semver_least(range, count, versions, 2, false, &index) == NODEJS_SEMVER_OK && index == 1);
    CHECK(nodejs_semver_least(range, count, versions, 2, true, &index) == NODEJS_SEMVER_OK && index == 0);
    CHECK(nodejs_semver_greatest(range, count, versions, 1, false, &index) == NODEJS_SEMVER_NOTHING && index == 0);
    CHECK(nodejs_semver_greatest(range, count, NULL, 0, false, &index) == NODEJS_SEMVER_NOTHING && index == 0);
    CHECK(nodejs_semver_greatest(range, count, versions, 5, false, &index) == NODEJS_SEMVER_OK && index == 3);
    CHECK(nodejs_semver_check_range(range, count) == NODEJS_SEMVER_OK);

    CHECK(nodejs_semver_meets(range, count, other, 1, &answer) == NODEJS_SEMVER_OK && answer);
    CHECK(nodejs_semver_meets(range, count, &range[1], 1, &answer) == NODEJS_SEMVER_OK && answer);
    CHECK(nodejs_semver_meets(range, 1, &range[1], 1, &answer) == NODEJS_SEMVER_OK && !answer);
    CHECK(nodejs_semver_covers(other, 1, range, count, &answer) == NODEJS_SEMVER_OK && answer);
    CHECK(nodejs_semver_covers(range, count, other, 1, &answer) == NODEJS_SEMVER_OK && !answer);
    CHECK(nodejs_semver_lies_outside(other, 1, &beta, false, false, &answer) == NODEJS_SEMVER_OK && answer);
    CHECK(nodejs_semver_lies_outside(other, 1, &beta, true, false, &answer) == NODEJS_SEMVER_OK && !answer);
    CHECK(nodejs_semver_print_range(range, count, NULL, 0, &len) == NODEJS_SEMVER_TOO_SMALL && len == 37);
    CHECK(nodejs_semver_print_range(range, count, out, sizeof out, &len) == NODEJS_SEMVER_OK && !memcmp(out, ">=1.2.3-rc.1 <2.0.0-0||>2.0.0 <=3.0.0", 37));

    nodejs_semver_parts told = {9, 9, 9, 9, 9};
    CHECK(nodejs_semver_least_version(range, count, &told, out, 3) == NODEJS_SEMVER_TOO_SMALL && told.pre_release_len == 4 && out[0] == '>');
    CHECK(nodejs_semver_least_version(range, count, &told, out, 4) == NODEJS_SEMVER_OK && told.patch == 3 && !memcmp(out, "rc.1", 4));
    CHECK(nodejs_semver_least_version(&range[1], 1, &told, NULL, 0) == NODEJS_SEMVER_OK && told.major == 2 && told.patch == 1);
}

/* What two ranges that are kept make. */
static void kept_sets(void)
{
    char texts[16], more[16], out[16];
    nodejs_semver_interval range[4], other[4];
    size_t count = kept_range("^1.2.3-rc.1 || >2.0.0 <=3.0.0", range, texts, sizeof texts), told = 9, len = 9;
    CHECK(count == 2 && kept_range("<1.4.0", other, more, sizeof more) == 1);
    nodejs_semver_interval_parts parts[3];
    memset(parts, 'x', sizeof parts);
    memset(out, 'x', sizeof out);
    CHECK(nodejs_semver_intersect(range, count, other, 1, parts, 0, &told, out, 4, &len) == NODEJS_SEMVER_TOO_SMALL && told == 1 && len == 4);
    CHECK(nodejs_semver_intersect(range, count, other, 1, parts, 1, &told, out, 3, &len) == NODEJS_SEMVER_TOO_SMALL && out[0] == 'x');
    CHECK(nodejs_semver_intersect(range, count, other, 1, parts, 1, &told, out, 4, &len) == NODEJS_SEMVER_OK && !memcmp(out, "rc.1x", 5));
    CHECK(parts[0].lower.kind == NODEJS_SEMVER_BOUND_CLOSED && parts[0].lower.version.patch == 3 && parts[1].lower.kind == 0x78787878);
    CHECK(parts[0].upper.kind == NODEJS_SEMVER_BOUND_OPEN && parts[0].upper.version.minor == 4);
    CHECK(nodejs_semver_intersect(range, 1, &range[1], 1, parts, 1, &told, out, 4, &len) == NODEJS_SEMVER_NOTHING && told == 1);
    CHECK(nodejs_semver_difference(range, count, other, 1, parts, 3, &told, out, sizeof out, &len) == NODEJS_SEMVER_OK && told == 2 && len == 1);
    CHECK(parts[0].lower.version.minor == 4 && parts[0].upper.version.pre_release_len == 1 && parts[1].upper.version.major == 3 && out[0] == '0');
    CHECK(nodejs_semver_union(other, 1, range, count, parts, 3, &told, out, sizeof out, &len) == NODEJS_SEMVER_OK && told == 3 && len == 5);
    CHECK(parts[0].lower.kind == NODEJS_SEMVER_BOUND_NONE && parts[0].upper.version.minor == 4 && parts[2].lower.kind == NODEJS_SEMVER_BOUND_OPEN);
    nodejs_semver_parts found = {9, 9, 9, 9, 9};
    bool answer = true;
    CHECK(nodejs_semver_least_beyond(range, count, other, 1, false, &found, out, sizeof out) == NODEJS_SEMVER_OK && found.patch == 3 && found.pre_release_len == 4);
    CHECK(nodejs_semver_least_beyond(range, 1, range, count, false, &found, NULL, 0) == NODEJS_SEMVER_NOTHING && found.patch == 3);
    CHECK(nodejs_semver_least_beyond(range, count, other, 1, true, &found, NULL, 0) == NODEJS_SEMVER_OK && found.minor == 4 && found.patch == 0);
    CHECK(nodejs_semver_least_beyond(range, 1, range, count, true, &found, NULL, 0) == NODEJS_SEMVER_NOTHING && found.minor == 4);
    CHECK(nodejs_semver_is_subset(range, count, other, 1, false, &answer) == NODEJS_SEMVER_OK && !answer);
    CHECK(nodejs_semver_is_subset(range, 1, range, count, true, &answer) == NODEJS_SEMVER_OK && answer);
    range[1].lower.kind = 3;
    CHECK(nodejs_semver_intersect(other, 1, range, count, parts, 3, &told, out, sizeof out, &len) == NODEJS_SEMVER_BAD_RANGE && told == 3);
    CHECK(nodejs_semver_difference(range, count, other, 1, parts, 3, &told, out, sizeof out, &len) == NODEJS_SEMVER_BAD_RANGE && told == 3);
    CHECK(nodejs_semver_union(other, 1, range, count, parts, 3, &told, out, sizeof out, &len) == NODEJS_SEMVER_BAD_RANGE && told == 3);
    CHECK(nodejs_semver_least_beyond(other, 1, range, count, false, &found, out, sizeof out) == NODEJS_SEMVER_BAD_RANGE && found.minor == 4);
    CHECK(nodejs_semver_is_subset(range, count, other, 1, false, &answer) == NODEJS_SEMVER_BAD_RANGE && answer);
}

/* The smallest version that shows that a range is no subset, where only a pre-release does. */
static void witness(void)
{
    char texts[8], more[8], out[2] = "x";
    nodejs_semver_interval range[4], other[4];
    nodejs_semver_parts told = {9, 9, 9, 9, 9};
    bool answer = true;
    CHECK(kept_range(">1.0.0", range, texts, sizeof texts) == 1 && kept_range("<1.0.1-0 || >=1.0.1", other, more, sizeof more) == 2);
    CHECK(nodejs_semver_is_subset(range, 1, other, 2, false, &answer) == NODEJS_SEMVER_OK && answer);
    CHECK(nodejs_semver_least_beyond(range, 1, other, 2, false, &told, out, 1) == NODEJS_SEMVER_NOTHING && told.major == 9);
    CHECK(nodejs_semver_is_subset(range, 1, other, 2, true, &answer) == NODEJS_SEMVER_OK && !answer);
    CHECK(nodejs_semver_least_beyond(range, 1, other, 2, true, &told, out, 0) == NODEJS_SEMVER_TOO_SMALL && told.pre_release_len == 1 && out[0] == 'x');
    CHECK(nodejs_semver_least_beyond(range, 1, other, 2, true, &told, out, 1) == NODEJS_SEMVER_OK && told.patch == 1 && out[0] == '0');
}

/* The next versions of one that is kept, and why there is none. */
static void next(void)
{
    const struct {
        nodejs_semver_version it;
        const char *word, *identifier;
        uint32_t base, status;
        nodejs_semver_parts told;
        const char *texts;
    } given[] = {
        {version_of(3, "", "b.7"), "minor", "", 0, NODEJS_SEMVER_OK, {1, 3, 0, 0, 3}, "b.7"},
        {version_of(3, "rc.1", ""), "prerelease", "", 0, NODEJS_SEMVER_OK, {1, 2, 3, 4, 0}, "rc.2"},
        {version_of(3, "rc.1", ""), "release", "", 0, NODEJS_SEMVER_OK, {1, 2, 3, 0, 0}, ""},
        {version_of(3, "", ""), "prerelease", "beta", NODEJS_SEMVER_BASE_ZERO, NODEJS_SEMVER_OK, {1, 2, 4, 6, 0}, "beta.0"},
        {version_of(3, "", ""), "prerelease", "beta", NODEJS_SEMVER_BASE_ONE, NODEJS_SEMVER_OK, {1, 2, 4, 6, 0}, "beta.1"},
        {version_of(3, "", ""), "prerelease", "beta", NODEJS_SEMVER_BASE_NONE, NODEJS_SEMVER_OK, {1, 2, 4, 4, 0}, "beta"},
        {version_of(UINT64_MAX - 1, "", ""), "patch", "", 0, NODEJS_SEMVER_OK, {1, 2, UINT64_MAX, 0, 0}, ""},
        {version_of(UINT64_MAX, "", ""), "patch", "", 0, NODEJS_SEMVER_OVERFLOW, {9, 9, 9, 9, 9}, "x"},
        {version_of(3, "", ""), "release", "", 0, NODEJS_SEMVER_NOT_A_PRERELEASE, {9, 9, 9, 9, 9}, "x"},
        {version_of(3, "", ""), "sideways", "", 0, NODEJS_SEMVER_BAD_ARGUMENT, {9, 9, 9, 9, 9}, "x"},
        {version_of(3, "", ""), "patch", "", 3, NODEJS_SEMVER_BAD_ARGUMENT, {9, 9, 9, 9, 9}, "x"},
        {version_of(3, "", ""), "prepatch", "", NODEJS_SEMVER_BASE_NONE, NODEJS_SEMVER_BAD_ARGUMENT, {9, 9, 9, 9, 9}, "x"},
        {version_of(3, "beta", ""), "prerelease", "beta", NODEJS_SEMVER_BASE_NONE, NODEJS_SEMVER_BAD_ARGUMENT, {9, 9, 9, 9, 9}, "x"},
        {version_of(3, "", ""), "prepatch", "a_b", 0, NODEJS_SEMVER_BAD_IDENTIFIER, {9, 9, 9, 9, 9}, "x"},
        {version_of(3, "", ""), "patch", "\xff", 0, NODEJS_SEMVER_NOT_UTF8, {9, 9, 9, 9, 9}, "x"},
        {version_of(3, "a..b", ""), "patch", "", 0, NODEJS_SEMVER_BAD_VERSION, {9, 9, 9, 9, 9}, "x"},
    };
    for (size_t at = 0; at < sizeof given / sizeof *given; at++) {
        nodejs_semver_parts told = {9, 9, 9, 9, 9};
        char out[8] = "xxxxxxx";
        nodejs_semver_status status = nodejs_semver_next(
            &given[at].it, given[at].word, strlen(given[at].word), given[at].identifier, strlen(given[at].identifier), given[at].base, &told, out, sizeof out);
        CHECK(status == given[at].status && !memcmp(&told, &given[at].told, sizeof told));
        CHECK(!memcmp(out, given[at].texts, strlen(given[at].texts)) && out[strlen(given[at].texts)] == 'x');
    }
    nodejs_semver_version release = version_of(3, "", "");
    nodejs_semver_parts told = {9, 9, 9, 9, 9};
    char out[5] = "xxxxx";
    CHECK(nodejs_semver_next(&release, T("prepatch"), T("beta"), 0, &told, out, 5) == NODEJS_SEMVER_TOO_SMALL && told.pre_release_len == 6 && out[0] == 'x');
    CHECK(nodejs_semver_next(&release, T("patch"), "a", HUGE_LENGTH, 0, &told, out, 5) == NODEJS_SEMVER_TOO_LONG && told.pre_release_len == 6);
}

/* Ranges that are made simple for some versions. */
static void simple(void)
{
    char texts[8], out[8] = "xxxxxxx";
    nodejs_semver_interval range[4];
    nodejs_semver_interval_parts told[3];
    nodejs_semver_version versions[] = {version_of(3, "", ""), version_of(9, "rc.1", ""), version_of(3, "a..b", "")};
    size_t count = 9, len = 9, index = 9;
    memset(told, 'x', sizeof told);
    CHECK(kept_range("^0.1 || ^1 || ^2", range, texts, sizeof texts) == 3);
    CHECK(nodejs_semver_simplify(range, 3, versions, 2, told, 0, &count, out, 8, &len, &index) == NODEJS_SEMVER_TOO_SMALL && count == 1 && len == 1);
    CHECK(nodejs_semver_simplify(range, 3, versions, 2, told, 3, &count, out, 8, &len, &index) == NODEJS_SEMVER_OK && count == 1 && len == 1);
    CHECK(told[0].lower.version.major == 1 && told[0].upper.version.major == 2 && told[1].lower.kind == 0x78787878 && !memcmp(out, "0x", 2));
    CHECK(nodejs_semver_simplify(range, 3, versions + 1, 1, told, 3, &count, out, 8, &len, &index) == NODEJS_SEMVER_OK && count == 3 && len == 3);
    CHECK(nodejs_semver_simplify(range, 3, NULL, 0, told, 3, &count, out, 8, &len, &index) == NODEJS_SEMVER_OK && count == 3 && index == 9);
    CHECK(nodejs_semver_simplify(range, 3, versions, 3, told, 3, &count, out, 8, &len, &index) == NODEJS_SEMVER_BAD_VERSION && index == 2 && count == 3);
    CHECK(nodejs_semver_simplify(range, 0, versions, 3, told, 3, &count, out, 8, &len, &index) == NODEJS_SEMVER_BAD_RANGE && index == 2);
    CHECK(nodejs_semver_simplify(range, 3, versions, SIZE_MAX, told, 3, &count, out, 8, &len, &index) == NODEJS_SEMVER_TOO_LONG && index == 2);
}

/* Keys, in buffers of each size. */
static void keys(void)
{
    nodejs_semver_version it = {1, 10, 0, {"rc.2", 4}, {"b", 1}}, wrong = version_of(3, "a..b", "");
    for (size_t size = 0; size <= 11; size++) {
        char *out = malloc(size ? size : 1);
        memset(out, 'x', size ? size : 1);
        size_t len = 99;
        nodejs_semver_status status = nodejs_semver_key(&it, size ? out : NULL, size, &len);
        CHECK(len == 10);
        if (size < 10)
            CHECK(status == NODEJS_SEMVER_TOO_SMALL && (!size || out[0] == 'x'));
        else
            CHECK(status == NODEJS_SEMVER_OK && !memcmp(out, "\x01\x0a\x00\x02rc\x00\x01\x02\x00", 10) && (size == 10 || out[10] == 'x'));
        free(out);
    }
    char out[32] = "x";
    size_t len = 5;
    CHECK(nodejs_semver_key(&wrong, out, sizeof out, &len) == NODEJS_SEMVER_BAD_VERSION && len == 5 && out[0] == 'x');
    it = version_of(UINT64_MAX, "", "");
    CHECK(nodejs_semver_key(&it, out, sizeof out, &len) == NODEJS_SEMVER_OK && len == 12 && !memcmp(out, "\x01\x02\xfd\xff\xff\xff\xff\xff\xff\xff\xff\x03", 12));
}

/* Spans of keys, in arrays and buffers of each size. */
static void spans(void)
{
    char texts[8];
    nodejs_semver_interval range[4];
    CHECK(kept_range(">=1.2.3-beta.2 <2.0.0", range, texts, sizeof texts) == 1);
    for (size_t room = 0; room <= 3; room++)
        for (size_t size = 23; size <= 25; size++) {
            nodejs_semver_span_parts *told = malloc(room ? room * sizeof *told : 1);
            char *out = malloc(size);
            size_t count = 9, len = 9;
            memset(told, 'x', room ? room * sizeof *told : 1);
            memset(out, 'x', size);
            nodejs_semver_status status = nodejs_semver_key_spans(range, 1, false, room ? told : NULL, room, &count, out, size, &len);
            CHECK(count == 2 && len == 24);
            if (room < 2 || size < 24) {
                CHECK(status == NODEJS_SEMVER_TOO_SMALL && out[0] == 'x');
            } else {
                CHECK(status == NODEJS_SEMVER_OK && (size == 24 || out[24] == 'x'));
                CHECK(!memcmp(out, "\1\2\3\3\2\0\0\3\1\2\3\2" "beta\0\1\2\0" "\1\2\3\3", 24));
                CHECK(told[0].start_len == 4 && told[0].stop_len == 4 && told[0].releases_only);
                CHECK(told[1].start_len == 12 && told[1].stop_len == 4 && !told[1].releases_only);
            }
            free(told);
            free(out);
        }
    nodejs_semver_span_parts told[1];
    char out[16];
    size_t count = 9, len = 9;
    CHECK(kept_range("^1.2.3", range, texts, sizeof texts) == 1);
    CHECK(nodejs_semver_key_spans(range, 1, true, told, 1, &count, out, sizeof out, &len) == NODEJS_SEMVER_OK && count == 1 && len == 10);
    CHECK(!memcmp(out, "\1\2\3\3\2\0\0\1\0\0", 10) && told[0].stop_len == 6 && !told[0].releases_only);
    range[0].lower.kind = 3;
    CHECK(nodejs_semver_key_spans(range, 1, true, told, 1, &count, out, sizeof out, &len) == NODEJS_SEMVER_BAD_RANGE && count == 1);
}

/* Intervals that no range has: of kinds, numbers and texts that there are none of, of no versions, and none. */
static void no_ranges(void)
{
    const struct { nodejs_semver_interval it; nodejs_semver_status status; } given[] = {
        {{{3, {1, 0, 0, {"", 0}, {"", 0}}}, {0, {0, 0, 0, {"", 0}, {"", 0}}}}, NODEJS_SEMVER_BAD_RANGE},
        {{{0, {0, 0, 0, {"", 0}, {"", 0}}}, {UINT32_MAX, {1, 0, 0, {"", 0}, {"", 0}}}}, NODEJS_SEMVER_BAD_RANGE},
        {{{1, {2, 0, 0, {"", 0}, {"", 0}}}, {2, {2, 0, 0, {"", 0}, {"", 0}}}}, NODEJS_SEMVER_BAD_RANGE},
        {{{1, {2, 0, 0, {"", 0}, {"", 0}}}, {1, {1, 0, 0, {"", 0}, {"", 0}}}}, NODEJS_SEMVER_BAD_RANGE},
        {{{1, {9007199254740993, 0, 0, {"", 0}, {"", 0}}}, {0, {0, 0, 0, {"", 0}, {"", 0}}}}, NODEJS_SEMVER_BAD_RANGE},
        {{{0, {0, 0, 0, {"", 0}, {"", 0}}}, {2, {1, UINT64_MAX, 0, {"", 0}, {"", 0}}}}, NODEJS_SEMVER_BAD_RANGE},
        {{{1, {1, 0, 0, {"a_b", 3}, {"", 0}}}, {0, {0, 0, 0, {"", 0}, {"", 0}}}}, NODEJS_SEMVER_BAD_VERSION},
        {{{1, {1, 0, 0, {"", 0}, {"\xff", 1}}}, {0, {0, 0, 0, {"", 0}, {"", 0}}}}, NODEJS_SEMVER_BAD_VERSION},
        {{{0, {0, 0, 0, {"", 0}, {"", 0}}}, {2, {1, 0, 0, {"a", HUGE_LENGTH}, {"", 0}}}}, NODEJS_SEMVER_TOO_LONG},
        {{{0, {UINT64_MAX, 0, 0, {"a_b", HUGE_LENGTH}, {"", 0}}}, {2, {9007199254740992, 0, 0, {"", 0}, {"", 0}}}}, NODEJS_SEMVER_OK},
    };
    nodejs_semver_version release = version_of(3, "", "");
    for (size_t at = 0; at < sizeof given / sizeof *given; at++) {
        nodejs_semver_interval list[] = {given[9].it, given[at].it};
        nodejs_semver_status wanted = given[at].status;
        bool answer = false, is_wrong = wanted != NODEJS_SEMVER_OK;
        size_t index = 7, len = 5;
        char out[8] = "x";
        nodejs_semver_parts told = {9, 9, 9, 9, 9};
        CHECK(nodejs_semver_check_range(list, 2) == wanted && nodejs_semver_check_range(&list[1], 1) == wanted);
        CHECK(nodejs_semver_covers(list, 1, list, 2, &answer) == wanted && answer == !is_wrong);
        CHECK(nodejs_semver_least_version(list, 2, &told, NULL, 0) == wanted && told.major == (is_wrong ? 9 : 0));
        CHECK(nodejs_semver_print_range(list, 2, out, sizeof out, &len) == (is_wrong ? wanted : NODEJS_SEMVER_TOO_SMALL) && out[0] == 'x');
        /* What only asks answers: the first interval accepts the version, and meets itself. */
        uint8_t answers[1] = {9};
        answer = false;
        CHECK(nodejs_semver_accepts(list, 2, &release, false, &answer) == NODEJS_SEMVER_OK && answer);
        CHECK(nodejs_semver_accepts_each(list, 2, &release, 1, false, answers, 1) == NODEJS_SEMVER_OK && answers[0] == 1);
        CHECK(nodejs_semver_greatest(list, 2, &release, 1, false, &index) == NODEJS_SEMVER_OK && index == 0);
        index = 7;
        CHECK(nodejs_semver_least(list, 2, &release, 1, false, &index) == NODEJS_SEMVER_OK && index == 0);
        answer = false;
        CHECK(nodejs_semver_meets(list, 2, list, 1, &answer) == NODEJS_SEMVER_OK && answer);
        CHECK(nodejs_semver_lies_outside(list, 2, &release, true, false, &answer) == NODEJS_SEMVER_OK && !answer);
    }
    /* Bounds in the wrong order, or with nothing between them, meet nothing and accept nothing. */
    for (size_t at = 2; at < 4; at++) {
        bool answer = true;
        nodejs_semver_version two = {2, 0, 0, {"", 0}, {"", 0}};
        CHECK(nodejs_semver_meets(&given[at].it, 1, &given[9].it, 1, &answer) == NODEJS_SEMVER_OK && !answer);
        answer = true;
        CHECK(nodejs_semver_meets(&given[9].it, 1, &given[at].it, 1, &answer) == NODEJS_SEMVER_OK && !answer);
        answer = true;
        CHECK(nodejs_semver_accepts(&given[at].it, 1, &two, false, &answer) == NODEJS_SEMVER_OK && !answer);
    }
    bool answer = true;
    size_t index = 7;
    uint8_t answers[1] = {9};
    CHECK(nodejs_semver_accepts(NULL, 0, &release, false, &answer) == NODEJS_SEMVER_OK && !answer);
    CHECK(nodejs_semver_meets(NULL, 0, &given[9].it, 1, &answer) == NODEJS_SEMVER_OK && !answer);
    CHECK(nodejs_semver_lies_outside(NULL, 0, &release, true, false, &answer) == NODEJS_SEMVER_OK && answer);
    CHECK(nodejs_semver_greatest(NULL, 0, &release, 1, false, &index) == NODEJS_SEMVER_NOTHING && index == 7);
    CHECK(nodejs_semver_check_range(NULL, 0) == NODEJS_SEMVER_BAD_RANGE);
    CHECK(nodejs_semver_check_range(&given[9].it, HUGE_LENGTH) == NODEJS_SEMVER_TOO_LONG);
    CHECK(nodejs_semver_accepts(&given[9].it, HUGE_LENGTH, &release, false, &answer) == NODEJS_SEMVER_TOO_LONG && answer);
    CHECK(nodejs_semver_meets(&given[9].it, 1, &given[9].it, SIZE_MAX, &answer) == NODEJS_SEMVER_TOO_LONG && answer);
    CHECK(nodejs_semver_lies_outside(&given[9].it, SIZE_MAX, &release, false, false, &answer) == NODEJS_SEMVER_TOO_LONG && answer);
    CHECK(nodejs_semver_greatest(&given[9].it, 1, &release, SIZE_MAX, false, &index) == NODEJS_SEMVER_TOO_LONG && index == 7);
    CHECK(nodejs_semver_least(&given[9].it, HUGE_LENGTH, &release, 1, false, &index) == NODEJS_SEMVER_TOO_LONG && index == 7);
    CHECK(nodejs_semver_accepts_each(&given[9].it, 1, &release, HUGE_LENGTH, false, answers, 1) == NODEJS_SEMVER_TOO_LONG && answers[0] == 9);
}

/* What npm's reading finds wrong. */
static void flaws(void)
{
    const struct { const char *text; uint32_t flaw; size_t place; } given[] = {
        {"1.2", NODEJS_SEMVER_WRONG_DOT, 3},
        {"1.2.03", NODEJS_SEMVER_WRONG_LEADING_ZERO, 5},
        {"1.2.3 x", NODEJS_SEMVER_WRONG_BEHIND, 6},
        {"1.2.3beta", NODEJS_SEMVER_WRONG_MISSING_HYPHEN, 5},
        {"=1.2.3", NODEJS_SEMVER_WRONG_MARK, 0},
        {"1.2.3-", NODEJS_SEMVER_WRONG_IDENTIFIER, 6},
        {"1.x", NODEJS_SEMVER_WRONG_DIGIT, 2},
    };
    for (size_t at = 0; at < sizeof given / sizeof *given; at++) {
        uint32_t flaw = 9;
        size_t place = 99;
        CHECK(nodejs_semver_version_npm_flaw(given[at].text, strlen(given[at].text), &flaw, &place) == NODEJS_SEMVER_OK);
        CHECK(flaw == given[at].flaw && place == given[at].place);
    }
    uint32_t flaw = 9;
    size_t place = 99;
    nodejs_semver_alternative it = {9, 9, 9, 9};
    CHECK(nodejs_semver_version_npm_flaw(T(" v1.2.3-rc.1 "), &flaw, &place) == NODEJS_SEMVER_NOTHING && flaw == 9 && place == 99);
    CHECK(nodejs_semver_range_npm_flaw(T("^1.2 || >=2.0.0, <3 || 4"), false, &it) == NODEJS_SEMVER_OK);
    CHECK(it.start == 8 && it.end == 19 && it.word_start == 8 && it.word_end == 16);
    CHECK(nodejs_semver_range_npm_flaw(T("^1.2 || 4"), false, &it) == NODEJS_SEMVER_NOTHING && it.start == 8);
}

/* Subsets, with pre-releases and without them. */
static void subsets(void)
{
    bool answer = false;
    CHECK(nodejs_semver_range_is_subset(NPM, T(">=1 <3"), T("1 || 2"), false, &answer) == NODEJS_SEMVER_OK && answer);
    CHECK(nodejs_semver_range_is_subset(NPM, T("1 || 2"), T("1.x"), false, &answer) == NODEJS_SEMVER_OK && !answer);
    CHECK(nodejs_semver_range_accepts_same(NPM, T(">=1 <3"), T("1 || 2"), false, &answer) == NODEJS_SEMVER_OK && answer);
    CHECK(nodejs_semver_range_accepts_same(NPM, T("1"), T("1 || 2"), false, &answer) == NODEJS_SEMVER_OK && !answer);
    CHECK(nodejs_semver_range_is_subset(PORT, T(">=1.0.0 <2.0.0-0"), T(">=1.0.0 <1.5.0 || >=1.5.0 <2.0.0-0"), true, &answer) == NODEJS_SEMVER_OK && answer);
}

static void no_utf8(void)
{
    int32_t order = 7;
    CHECK(nodejs_semver_version_check(PORT, T("1.2.3\xff")) == NODEJS_SEMVER_NOT_UTF8);
    CHECK(nodejs_semver_version_check(PORT, T("\xed\xa0\x80")) == NODEJS_SEMVER_NOT_UTF8);
    CHECK(nodejs_semver_version_compare(PORT, T("1.2.3"), T("1.2.3\xc3"), &order) == NODEJS_SEMVER_NOT_UTF8 && order == 7);
    CHECK(nodejs_semver_version_compare(PORT, T("1.2"), T("\xff"), &order) == NODEJS_SEMVER_BAD_VERSION && order == 7);
}

static void huge(void)
{
    bool answer = true;
    char out[8];
    size_t len = 5, index = 7;
    uint8_t answers[1] = {9};
    nodejs_semver_text texts[] = {{"1.2.0", HUGE_LENGTH}};
    CHECK(nodejs_semver_version_check(PORT, "1.2.3", HUGE_LENGTH) == NODEJS_SEMVER_TOO_LONG);
    CHECK(nodejs_semver_version_check(PORT, "1.2.3", SIZE_MAX) == NODEJS_SEMVER_TOO_LONG);
    CHECK(nodejs_semver_range_satisfies(PORT, "^1", HUGE_LENGTH, T("1.0.0"), false, &answer) == NODEJS_SEMVER_TOO_LONG && answer);
    CHECK(nodejs_semver_version_inc(PORT, T("1.2.3"), "patch", HUGE_LENGTH, NULL, 0, 0, out, sizeof out, &len) == NODEJS_SEMVER_TOO_LONG && len == 5);
    CHECK(nodejs_semver_range_max_satisfying(PORT, T("^1"), texts, HUGE_LENGTH, &index) == NODEJS_SEMVER_TOO_LONG && index == 7);
    CHECK(nodejs_semver_range_max_satisfying(PORT, T("^1"), texts, 1, &index) == NODEJS_SEMVER_TOO_LONG && index == 0);
    CHECK(nodejs_semver_range_satisfies_each(PORT, T("^1"), texts, SIZE_MAX, false, answers, SIZE_MAX) == NODEJS_SEMVER_TOO_LONG && answers[0] == 9);
    CHECK(nodejs_semver_range_satisfies_each(PORT, T("^1"), texts, 1, false, answers, 1) == NODEJS_SEMVER_OK && answers[0] == 2);
}

/* The version of the library is that of the header, and each status says something. */
static void told(void)
{
    const size_t needed = sizeof NODEJS_SEMVER_VERSION - 1;
    for (size_t size = 0; size <= needed + 1; size++) {
        char *out = malloc(size ? size : 1);
        memset(out, 'x', size ? size : 1);
        size_t len = 99;
        nodejs_semver_status status = nodejs_semver_version_text(size ? out : NULL, size, &len);
        CHECK(len == needed);
        if (size < needed)
            CHECK(status == NODEJS_SEMVER_TOO_SMALL && (!size || out[0] == 'x'));
        else
            CHECK(status == NODEJS_SEMVER_OK && !memcmp(out, NODEJS_SEMVER_VERSION, needed) && (size == needed || out[needed] == 'x'));
        free(out);
    }
    char out[32];
    size_t len;
    CHECK(nodejs_semver_message(NODEJS_SEMVER_BAD_VERSION, out, sizeof out, &len) == NODEJS_SEMVER_OK && len == 11 && !memcmp(out, "bad version", 11));
    CHECK(nodejs_semver_message(99, out, sizeof out, &len) == NODEJS_SEMVER_BAD_ARGUMENT && len == 11);
}

int main(void)
{
    buffers();
    told();
    texts();
    short_by_one();
    cuts();
    nothing();
    readings();
    sorts();
    words();
    parts();
    kept();
    ranges_read();
    kept_ranges();
    kept_sets();
    witness();
    next();
    simple();
    keys();
    spans();
    no_ranges();
    flaws();
    subsets();
    no_utf8();
    huge();
    if (!failures)
        puts("passed");
    return failures != 0;
}
