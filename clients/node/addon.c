/* The functions that the JavaScript beside this file calls: each takes strings and flags, and returns
   what the C library answers. Where a text is rejected, those of `load` throw, and the others, whose
   names begin with `try`, return undefined. Where there is nothing, it is null. */
#include <node_api.h>
#include <stdlib.h>
#include <string.h>
#include "nodejs_semver.h"

/* A text of fewer bytes than FEW needs no block of the heap. */
enum { MOST_TEXTS = 3, MOST_ARGUMENTS = 5, FEW = 128, LONGEST_CHARACTER = 4 };
typedef struct { nodejs_semver_text texts[MOST_TEXTS]; char few[MOST_TEXTS][FEW]; napi_value others[MOST_ARGUMENTS]; bool failed; } arguments;

static const char *const MESSAGES[] = {
    [NODEJS_SEMVER_NOT_UTF8] = "not UTF-8", [NODEJS_SEMVER_BAD_VERSION] = "bad version", [NODEJS_SEMVER_BAD_RANGE] = "bad range",
    [NODEJS_SEMVER_BAD_ARGUMENT] = "bad argument", [NODEJS_SEMVER_BAD_IDENTIFIER] = "bad identifier",
    [NODEJS_SEMVER_NOT_A_PRERELEASE] = "not a prerelease", [NODEJS_SEMVER_OVERFLOW] = "overflow",
    [NODEJS_SEMVER_NO_MEMORY] = "out of memory", [NODEJS_SEMVER_TOO_LONG] = "too long"};

static bool read_text(napi_env env, napi_value value, char *few, nodejs_semver_text *text)
{
    size_t len;
    if (napi_get_value_string_utf8(env, value, few, FEW, &len) != napi_ok)
        return false;
    /* What did not fit is cut before a character. */
    if (len < FEW - LONGEST_CHARACTER) {
        *text = (nodejs_semver_text){few, len};
        return true;
    }
    if (napi_get_value_string_utf8(env, value, NULL, 0, &len) != napi_ok)
        return false;
    char *bytes = malloc(len + 1);
    if (!bytes || napi_get_value_string_utf8(env, value, bytes, len + 1, &len) != napi_ok) {
        free(bytes);
        return false;
    }
    *text = (nodejs_semver_text){bytes, len};
    return true;
}

/* The first arguments as texts, and all of them as they are. */
static void read_arguments(napi_env env, napi_callback_info info, size_t count, arguments *found)
{
    size_t given = MOST_ARGUMENTS;
    memset(found->texts, 0, sizeof found->texts);
    found->failed = false;
    napi_get_cb_info(env, info, &given, found->others, NULL, NULL);
    for (size_t at = 0; at < count; at++)
        found->failed |= at >= given || !read_text(env, found->others[at], found->few[at], &found->texts[at]);
    if (found->failed)
        napi_throw_type_error(env, NULL, "strings expected");
}

static void release(arguments *given)
{
    for (size_t at = 0; at < MOST_TEXTS; at++)
        if (given->texts[at].at != given->few[at])
            free((char *)given->texts[at].at);
}

static napi_value null_or_thrown(napi_env env, nodejs_semver_status status)
{
    napi_value none = NULL;
    if (status == NODEJS_SEMVER_NOTHING)
        napi_get_null(env, &none);
    else
        napi_throw_error(env, NULL, MESSAGES[status]);
    return none;
}

/* What is no answer and no wrong text is thrown even so. */
static napi_value null_or_undefined(napi_env env, nodejs_semver_status status)
{
    napi_value none = NULL;
    if (status == NODEJS_SEMVER_NOTHING || status == NODEJS_SEMVER_NO_MEMORY || status == NODEJS_SEMVER_TOO_LONG)
        return null_or_thrown(env, status);
    napi_get_undefined(env, &none);
    return none;
}

static bool flag(napi_env env, napi_value value)
{
    bool is_true = false;
    napi_get_value_bool(env, value, &is_true);
    return is_true;
}

/* npm's reading, strict or loose by the argument at a place, which may be missing. */
static uint32_t reading(napi_env env, const arguments *given, size_t at)
{
    return flag(env, given->others[at]) ? NODEJS_SEMVER_READING_NPM_LOOSE : NODEJS_SEMVER_READING_NPM;
}

/* Some numbers, as an array. */
static napi_value list_of(napi_env env, const double *numbers, uint32_t count)
{
    napi_value list, number;
    napi_create_array_with_length(env, count, &list);
    for (uint32_t at = 0; at < count; at++) {
        napi_create_double(env, numbers[at], &number);
        napi_set_element(env, list, at, number);
    }
    return list;
}

#define NPM NODEJS_SEMVER_READING_NPM

/* The bound of what was read of it. Its texts begin at a place, which moves behind them. */
static nodejs_semver_bound kept_bound(const nodejs_semver_bound_parts *told, const char **at)
{
    const nodejs_semver_parts *it = &told->version;
    const char *build = *at + it->pre_release_len;
    nodejs_semver_version version = {it->major, it->minor, it->patch,
        {*at, it->pre_release_len}, {build, it->build_len}};
    *at = build + it->build_len;
    return (nodejs_semver_bound){told->kind, version};
}

/* Prints a range, read with pre-releases included or without. With them it is read and kept, since a
   text is printed as it is read without them. */
static nodejs_semver_status print_range(
    uint32_t read, nodejs_semver_text it, bool pre, char *out, size_t size, size_t *len)
{
    if (!pre)
        return nodejs_semver_range_print(read, it.at, it.len, out, size, len);
    size_t count, bytes;
    nodejs_semver_status status =
        nodejs_semver_range_read(read, it.at, it.len, true, NULL, 0, &count, NULL, 0, &bytes);
    if (status != NODEJS_SEMVER_TOO_SMALL)
        return status;
    nodejs_semver_interval_parts *told = malloc(count * sizeof *told);
    nodejs_semver_interval *kept = malloc(count * sizeof *kept);
    char *texts = malloc(bytes + 1);
    const char *at = texts;
    status = NODEJS_SEMVER_NO_MEMORY;
    if (told && kept && texts)
        status = nodejs_semver_range_read(
            read, it.at, it.len, true, told, count, &count, texts, bytes, &bytes);
    if (status == NODEJS_SEMVER_OK) {
        for (size_t nth = 0; nth < count; nth++) {
            kept[nth].lower = kept_bound(&told[nth].lower, &at);
            kept[nth].upper = kept_bound(&told[nth].upper, &at);
        }
        status = nodejs_semver_print_range(kept, count, out, size, len);
    }
    free(texts);
    free(kept);
    free(told);
    return status;
}

#define TEXT(nth) given.texts[nth].at, given.texts[nth].len
#define FLAG(nth) flag(env, given.others[nth])
/* The reading by the flag at a place. */
#define READ(nth) reading(env, &given, nth)

/* A function that prints: CALL has OUT, SIZE and LEN in it. OTHERWISE says what it returns where it has no text. */
#define PRINTS(name, count, OTHERWISE, CALL)                                                                                     \
    static napi_value name(napi_env env, napi_callback_info info)                                                      \
    {                                                                                                                  \
        arguments given;                                                                                               \
        read_arguments(env, info, count, &given);                                                                      \
        napi_value answer = NULL;                                                                                      \
        char first[256], *out = first;                                                                                 \
        size_t size = sizeof first, len = 0;                                                                           \
        if (!given.failed) {                                                                                           \
            nodejs_semver_status status = CALL;                                                                        \
            if (status == NODEJS_SEMVER_TOO_SMALL) {                                                                   \
                size = len;                                                                                            \
                out = malloc(size);                                                                                    \
                status = out ? CALL : NODEJS_SEMVER_NO_MEMORY;                                                         \
            }                                                                                                          \
            if (status == NODEJS_SEMVER_OK)                                                                            \
                napi_create_string_utf8(env, out, len, &answer);                                                       \
            else                                                                                                       \
                answer = OTHERWISE(env, status);                                                                       \
        }                                                                                                              \
        if (out != first)                                                                                              \
            free(out);                                                                                                 \
        release(&given);                                                                                               \
        return answer;                                                                                                 \
    }

PRINTS(inc, 3, null_or_thrown, nodejs_semver_version_inc(NPM, TEXT(0), TEXT(1), TEXT(2), NODEJS_SEMVER_BASE_ZERO, out, size, &len))
PRINTS(intersect, 2, null_or_thrown, nodejs_semver_range_intersect(NPM, TEXT(0), TEXT(1), out, size, &len))
PRINTS(subtract, 2, null_or_thrown, nodejs_semver_range_difference(NPM, TEXT(0), TEXT(1), out, size, &len))
PRINTS(min_version, 1, null_or_thrown, nodejs_semver_range_min_version(NPM, TEXT(0), out, size, &len))
PRINTS(try_min_version, 1, null_or_undefined, nodejs_semver_range_min_version(READ(1), TEXT(0), out, size, &len))
PRINTS(try_range, 1, null_or_undefined,
    print_range(READ(2), given.texts[0], FLAG(1), out, size, &len))
PRINTS(try_union, 2, null_or_undefined,
    nodejs_semver_range_union(NPM, TEXT(0), TEXT(1), out, size, &len))
PRINTS(try_intersect, 2, null_or_undefined,
    nodejs_semver_range_intersect(READ(2), TEXT(0), TEXT(1), out, size, &len))
PRINTS(try_difference, 2, null_or_undefined,
    nodejs_semver_range_difference(NPM, TEXT(0), TEXT(1), out, size, &len))
PRINTS(try_clean, 1, null_or_undefined, nodejs_semver_version_clean(TEXT(0), out, size, &len))
PRINTS(try_coerce, 1, null_or_undefined, nodejs_semver_version_coerce(TEXT(0), FLAG(1), FLAG(2), FLAG(3), out, size, &len))
PRINTS(try_build_text, 1, null_or_undefined, nodejs_semver_version_build_text(TEXT(0), FLAG(1), out, size, &len))

/* The base of an increment is the fourth argument: 0, 1, or another number for none. */
static uint32_t base_of(napi_env env, napi_value value)
{
    uint32_t base = NODEJS_SEMVER_BASE_NONE;
    napi_get_value_uint32(env, value, &base);
    return base;
}

PRINTS(try_inc, 3, null_or_undefined,
    nodejs_semver_version_inc(NPM, TEXT(0), TEXT(1), TEXT(2), base_of(env, given.others[3]), out, size, &len))

/* A function of some texts that returns what CALL puts into `found`, a value of a type from which MAKE
   makes one of JavaScript. */
#define ANSWERS(name, count, type, MAKE, OTHERWISE, CALL)                                                              \
    static napi_value name(napi_env env, napi_callback_info info)                                                      \
    {                                                                                                                  \
        arguments given;                                                                                               \
        read_arguments(env, info, count, &given);                                                                      \
        napi_value answer = NULL;                                                                                      \
        type found = {0};                                                                                              \
        if (!given.failed) {                                                                                           \
            nodejs_semver_status status = CALL;                                                                        \
            if (status == NODEJS_SEMVER_OK)                                                                            \
                MAKE(env, found, &answer);                                                                             \
            else                                                                                                       \
                answer = OTHERWISE(env, status);                                                                       \
        }                                                                                                              \
        release(&given);                                                                                               \
        return answer;                                                                                                 \
    }
#define COUNTS(name, type, OTHERWISE, CALL) ANSWERS(name, 2, type, napi_create_int32, OTHERWISE, CALL)
#define TELLS(name, OTHERWISE, CALL) ANSWERS(name, 2, bool, napi_get_boolean, OTHERWISE, CALL)

COUNTS(compare, int32_t, null_or_thrown, nodejs_semver_version_compare(NPM, TEXT(0), TEXT(1), &found))
COUNTS(try_compare, int32_t, null_or_undefined, nodejs_semver_version_compare(READ(2), TEXT(0), TEXT(1), &found))
COUNTS(try_compare_build, int32_t, null_or_undefined, nodejs_semver_version_compare_build(READ(2), TEXT(0), TEXT(1), &found))
COUNTS(try_diff, uint32_t, null_or_undefined, nodejs_semver_version_diff(NPM, TEXT(0), TEXT(1), &found))
TELLS(satisfies, null_or_thrown, nodejs_semver_range_satisfies(NPM, TEXT(0), TEXT(1), FLAG(2), &found))
TELLS(try_satisfies, null_or_undefined, nodejs_semver_range_satisfies(READ(3), TEXT(0), TEXT(1), FLAG(2), &found))
TELLS(try_outside, null_or_undefined, nodejs_semver_range_outside(READ(4), TEXT(0), TEXT(1), FLAG(2), FLAG(3), &found))
TELLS(try_subset, null_or_undefined, nodejs_semver_range_is_subset(READ(3), TEXT(0), TEXT(1), FLAG(2), &found))

/* What is wrong with a version text, and its place: the kind and the byte. */
typedef struct { uint32_t kind; size_t place; } version_flaw;

static void make_version_flaw(napi_env env, version_flaw found, napi_value *answer)
{
    *answer = list_of(env, (double[]){found.kind, (double)found.place}, 2);
}

/* Of a range text the bytes of the first malformed word. */
static void make_range_flaw(napi_env env, nodejs_semver_alternative found, napi_value *answer)
{
    *answer = list_of(env, (double[]){(double)found.word_start, (double)found.word_end}, 2);
}

ANSWERS(try_version_flaw, 1, version_flaw, make_version_flaw, null_or_undefined,
    nodejs_semver_version_npm_flaw(TEXT(0), &found.kind, &found.place))
ANSWERS(try_range_flaw, 1, nodejs_semver_alternative, make_range_flaw, null_or_undefined,
    nodejs_semver_range_npm_flaw(TEXT(0), FLAG(1), &found))

/* The text of the pre-release of a version, read loosely by the third argument. Its numbers go into the second one, a Float64Array of three. */
static napi_value try_read(napi_env env, napi_callback_info info)
{
    arguments given;
    read_arguments(env, info, 1, &given);
    napi_value answer = NULL;
    nodejs_semver_parts parts;
    double *numbers;
    size_t count;
    napi_typedarray_type type;
    char few[256], *out = few;
    if (given.failed)
        return NULL;
    if (napi_get_typedarray_info(env, given.others[1], &type, &count, (void **)&numbers, NULL, NULL) != napi_ok || type != napi_float64_array || count < 3) {
        release(&given);
        napi_throw_type_error(env, NULL, "an array of three numbers expected");
        return NULL;
    }
    nodejs_semver_status status = nodejs_semver_version_read(READ(2), TEXT(0), &parts, out, sizeof few);
    if (status == NODEJS_SEMVER_TOO_SMALL) {
        size_t size = parts.pre_release_len + parts.build_len;
        out = malloc(size);
        status = out ? nodejs_semver_version_read(READ(2), TEXT(0), &parts, out, size) : NODEJS_SEMVER_NO_MEMORY;
    }
    if (status == NODEJS_SEMVER_OK) {
        numbers[0] = (double)parts.major;
        numbers[1] = (double)parts.minor;
        numbers[2] = (double)parts.patch;
        napi_create_string_latin1(env, out, parts.pre_release_len, &answer);
    } else
        answer = null_or_undefined(env, status);
    if (out != few)
        free(out);
    release(&given);
    return answer;
}

NAPI_MODULE_INIT()
{
    const struct { const char *name; napi_callback call; } functions[] = {
        {"compare", compare}, {"satisfies", satisfies}, {"inc", inc}, {"intersect", intersect}, {"subtract", subtract}, {"minVersion", min_version},
        {"tryRead", try_read}, {"tryCompare", try_compare}, {"tryCompareBuild", try_compare_build}, {"tryDiff", try_diff}, {"tryInc", try_inc},
        {"tryClean", try_clean}, {"tryCoerce", try_coerce}, {"tryBuildText", try_build_text}, {"tryRange", try_range},
        {"trySatisfies", try_satisfies},
        {"tryOutside", try_outside}, {"tryMinVersion", try_min_version}, {"trySubset", try_subset}, {"tryUnion", try_union},
        {"tryIntersect", try_intersect}, {"tryDifference", try_difference},
        {"tryVersionFlaw", try_version_flaw}, {"tryRangeFlaw", try_range_flaw}};
    for (size_t at = 0; at < sizeof functions / sizeof *functions; at++) {
        napi_value function;
        napi_create_function(env, functions[at].name, NAPI_AUTO_LENGTH, functions[at].call, NULL, &function);
        napi_set_named_property(env, exports, functions[at].name, function);
    }
    return exports;
}
