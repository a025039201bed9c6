/* Each allocation fails in turn, and all behind it: a status, nothing written, nothing lost. It is linked with
 * -Wl,--wrap=malloc,--wrap=realloc and to be run under valgrind. */
#include "nodejs_semver.h"
#include <stdio.h>
#include <stdlib.h>
#include <string.h>

#define T(s) (s), sizeof(s) - 1
#define PORT NODEJS_SEMVER_READING_PORT
#define NPM NODEJS_SEMVER_READING_NPM
#define RANGE "^1.2.3-a.b || ^2 || ^3"
#define OTHER "1.5 || >=2.4.0-r.c <3.1.0-rc"

static long left = -1, asked;

void *__real_malloc(size_t size);
void *__real_realloc(void *block, size_t size);

static int refused(void)
{
    asked++;
    return left >= 0 && (left == 0 || left-- == 0);
}

void *__wrap_malloc(size_t size) { return refused() ? NULL : __real_malloc(size); }
void *__wrap_realloc(void *block, size_t size) { return refused() ? NULL : __real_realloc(block, size); }

/* All that the calls may write. */
typedef struct {
    char out[256];
    size_t len, index, order[3];
    nodejs_semver_word words[4];
    nodejs_semver_parts parts;
    nodejs_semver_interval_parts intervals[3];
    nodejs_semver_span_parts spans[6];
    int32_t compared;
    uint32_t number;
    uint8_t answers[3];
    bool answer;
} written;
#define OUT w->out, sizeof w->out, &w->len
#define TEXTS texts, sizeof texts / sizeof *texts

/* Calls from this number on make no request; each of the others does. */
enum { FIRST_WITHOUT = 31, CALLS = 64 };

static nodejs_semver_status call(int which, written *w)
{
    nodejs_semver_text texts[] = {{"1.2.0", 5}, {"2.4.0", 5}, {"3.0.0-rc.1", 10}};
    nodejs_semver_version kept = {1, 2, 3, {"a.b", 3}, {"c.d", 3}}, release = {1, 2, 3, {"", 0}, {"", 0}};
    nodejs_semver_bound none = {NODEJS_SEMVER_BOUND_NONE, kept}, from = {NODEJS_SEMVER_BOUND_CLOSED, kept};
    nodejs_semver_interval several[] = {{from, none}, {none, from}}, later[] = {{{NODEJS_SEMVER_BOUND_OPEN, kept}, none}};
    switch (which) {
    case 0: return nodejs_semver_range_intersect(PORT, T(RANGE), T(OTHER), OUT);
    case 1: return nodejs_semver_range_difference(NPM, T(RANGE), T(OTHER), OUT);
    case 2: return nodejs_semver_range_min_version(PORT, T(">1.2.3-a.b || >0.1.0-a <0.1.1-0"), OUT);
    case 3: return nodejs_semver_range_least_beyond(PORT, T(RANGE), T(OTHER), OUT);
    case 4: return nodejs_semver_version_inc(PORT, T("1.2.3-a.b+c.d"), T("prerelease"), T("beta.rc"), 0, OUT);
    case 5: return nodejs_semver_range_print(NPM, T(RANGE), OUT);
    case 6: return nodejs_semver_versions_sort(NPM, TEXTS, w->order, 3, &w->index);
    case 7: return nodejs_semver_range_satisfies(PORT, T(RANGE), T("2.9.0"), false, &w->answer);
    case 8: return nodejs_semver_range_max_satisfying(NPM, T(RANGE), TEXTS, &w->index);
    case 9: return nodejs_semver_range_min_satisfying(PORT, T(RANGE), TEXTS, &w->index);
    case 10: return nodejs_semver_range_satisfies_each(PORT, T(RANGE), TEXTS, false, w->answers, 3);
    case 11: return nodejs_semver_range_outside(NPM, T(RANGE), T("0.1.0"), false, true, &w->answer);
    case 12: return nodejs_semver_range_allows_all(PORT, T(RANGE), T(OTHER), &w->answer);
    case 13: return nodejs_semver_range_allows_any(NPM, T(RANGE), T(OTHER), &w->answer);
    case 14: return nodejs_semver_range_union(NPM, T(RANGE), T(OTHER), OUT);
    case 15: return nodejs_semver_range_is_subset(PORT, T(RANGE), T(OTHER), true, &w->answer);
    case 16: return nodejs_semver_range_accepts_same(NPM, T(RANGE), T(OTHER), false, &w->answer);
    case 17: return nodejs_semver_range_read(NPM, T(RANGE), true, w->intervals, 3, &w->index, OUT);
    case 18: return nodejs_semver_union(several, 1, several, 2, w->intervals, 3, &w->index, OUT);
    case 19: return nodejs_semver_simplify(several, 2, &kept, 1, w->intervals, 3, &w->index, OUT, &w->order[0]);
    case 20: return nodejs_semver_key(&kept, OUT);
    case 21: return nodejs_semver_key_spans(several, 2, false, w->spans, 6, &w->index, OUT);
    case 22: return nodejs_semver_least_beyond(several, 2, later, 1, false, &w->parts, w->out, sizeof w->out);
    case 23: return nodejs_semver_covers(several, 1, several, 2, &w->answer);
    case 24: return nodejs_semver_is_subset(several, 2, several, 2, false, &w->answer);
    case 25: return nodejs_semver_least_version(several, 1, &w->parts, w->out, sizeof w->out);
    case 26: return nodejs_semver_print_range(several, 2, OUT);
    case 27: return nodejs_semver_intersect(several, 2, several, 1, w->intervals, 3, &w->index, OUT);
    case 28: return nodejs_semver_difference(several, 2, later, 1, w->intervals, 3, &w->index, OUT);
    case 29: return nodejs_semver_next(&kept, T("prerelease"), T("beta"), 0, &w->parts, w->out, sizeof w->out);
    case 30: return nodejs_semver_least_beyond(several, 2, later, 1, true, &w->parts, w->out, sizeof w->out);
    case 31: return nodejs_semver_accepts_each(several, 2, &kept, 1, true, w->answers, 3);
    case 32: return nodejs_semver_greatest(several, 2, &kept, 1, true, &w->index);
    case 33: return nodejs_semver_least(several, 2, &kept, 1, false, &w->index);
    case 34: return nodejs_semver_accepts(several, 2, &kept, false, &w->answer);
    case 35: return nodejs_semver_meets(several, 2, several, 2, &w->answer);
    case 36: return nodejs_semver_lies_outside(several, 2, &kept, true, false, &w->answer);
    case 37: return nodejs_semver_version_compare(PORT, T("1.2.3-a.b"), T("1.2.3+c"), &w->compared);
    case 38: return nodejs_semver_version_check(NPM, T("1.2.3-a.b+c.d"));
    case 39: return nodejs_semver_version_diff(NPM, T("1.2.3-a.b"), T("1.2.3"), &w->number);
    case 40: return nodejs_semver_range_satisfies(NPM, T("^1.2.3-a.b"), T("1.2.3-a.c"), false, &w->answer);
    case 41: return nodejs_semver_version_flaw(T("1.2.3-a.b oops"), &w->number, &w->index);
    case 42: return nodejs_semver_range_ignored_words(T(RANGE " || foo"), w->words, 4, &w->len);
    case 43: return nodejs_semver_version_print(PORT, T("1.2.3-a.b+c.d"), OUT);
    case 44: return nodejs_semver_range_print(PORT, T(">1.2.3-a.b <=2.0.0-c.d+e"), OUT);
    case 45: return nodejs_semver_version_inc(NPM, T("1.2.3"), T("minor"), T(""), 0, OUT);
    case 46: return nodejs_semver_range_min_version(PORT, T("^1.2.3"), OUT);
    case 47: return nodejs_semver_range_allows_any(PORT, T("^1.2.3-a.b"), T("<2.0.0-rc"), &w->answer);
    case 49: return nodejs_semver_version_read(NPM, T("1.2.3-a.b+c.d"), &w->parts, w->out, sizeof w->out);
    case 50: return nodejs_semver_version_clean(T(" =v1.2.3-a.b+c.d"), OUT);
    case 51: return nodejs_semver_version_coerce(T("a 1.2.3-a.b"), false, false, true, OUT);
    case 52: return nodejs_semver_version_compare_build(PORT, T("1.2.3-a.b+c"), T("1.2.3-a.b+d"), &w->compared);
    case 53: return nodejs_semver_order_with_builds(&kept, &kept, &w->compared);
    case 54: return nodejs_semver_kind(&kept, &kept, &w->number);
    case 55: return nodejs_semver_print(&kept, OUT);
    case 56: return nodejs_semver_range_read(NPM, T("^1.2.3-a.b"), false, w->intervals, 3, &w->index, OUT);
    case 57: return nodejs_semver_accepts(several, 1, &kept, true, &w->answer);
    case 58: return nodejs_semver_meets(several, 1, several + 1, 1, &w->answer);
    case 59: return nodejs_semver_print_range(several, 1, OUT);
    case 60: return nodejs_semver_next(&release, T("minor"), T(""), 0, &w->parts, w->out, sizeof w->out);
    case 61: return nodejs_semver_version_build_text(T(" v1.2.3-a.b+00c.07 "), false, OUT);
    case 62: return nodejs_semver_check(&kept);
    case 63: return nodejs_semver_check_range(several, 2);
    default: return nodejs_semver_range_max_satisfying(PORT, T(">=1.2.0 <2.0.0-rc.1"), TEXTS, &w->index);
    }
}

int main(void)
{
    long failed = 0;
    for (int which = 0; which < CALLS; which++) {
        bool asks = false;
        for (long n = 0;; n++) {
            written was, now;
            memset(&was, 'x', sizeof was);
            memcpy(&now, &was, sizeof was);
            asked = 0;
            left = n;
            nodejs_semver_status status = call(which, &now);
            left = -1;
            asks |= asked > 0;
            if (status == NODEJS_SEMVER_NO_MEMORY) {
                failed++;
                if (memcmp(&was, &now, sizeof was))
                    return printf("call %d wrote, though allocation %ld failed\n", which, n), 1;
            } else if (status != NODEJS_SEMVER_OK) {
                return printf("call %d: status %u where allocation %ld failed\n", which, status, n), 1;
            } else if (asked <= n) {
                break;
            }
        }
        if (asks != (which < FIRST_WITHOUT))
            return printf("call %d asks for %s memory\n", which, asks ? "some" : "no"), 1;
    }
    printf("passed: %ld calls without memory\n", failed);
    return 0;
}
