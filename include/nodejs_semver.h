/*
 * npm's versions and ranges, for C11 and C++17. Made by tools/c_header; docs/C.md says more.
 *
 * Every function returns a status: NODEJS_SEMVER_OK, or why there is no answer. The texts are read from the left, and the first that
 * is rejected decides the status.
 *
 * A text is a pointer to bytes in UTF-8 and their number; no byte 0 ends it, and the pointer is not NULL unless the number is 0. It is
 * only read. Nothing is kept between two calls, so nothing has to be freed, and any thread may call at any time.
 *
 * `reading` says how all texts of a call are read: NODEJS_SEMVER_READING_NPM, as npm reads them, or NODEJS_SEMVER_READING_PORT, which
 * ignores what it does not understand. Take the first, unless a program is ported from the Rust crate nodejs-semver.
 *
 * A printed text goes to the front of `out`, a buffer of the caller of `out_size` bytes, and its length to `len`. No byte 0 is added.
 * If the buffer is too small, the status is NODEJS_SEMVER_TOO_SMALL, `len` is the length that is needed, and the buffer is unchanged.
 * With every other status nothing is written, unless the function says otherwise.
 *
 * A version that was read once is kept as a nodejs_semver_version, which leads to texts in the caller's memory: nodejs_semver_version_read
 * tells its parts. A range is kept as an array of nodejs_semver_interval, one or more: nodejs_semver_range_read tells their parts. A
 * function that prints a kept version or range, or makes another one, rejects texts that spell no identifiers, and intervals that no range
 * has. One that only compares or asks checks nothing first: nodejs_semver_check and nodejs_semver_check_range say what is kept.
 *
 * Output buffers must not overlap inputs or one another, and no other thread may touch them during the call.
 */
#ifndef NODEJS_SEMVER_H
#define NODEJS_SEMVER_H

#include <stdbool.h>
#include <stddef.h>
#include <stdint.h>

/* The version of the library that this header belongs to. */
#define NODEJS_SEMVER_VERSION "1.0.0"

#ifdef __cplusplus
extern "C" {
#endif

/* A status: one of the constants from NODEJS_SEMVER_OK on. */
typedef uint32_t nodejs_semver_status;

/* A text in an array of texts, or in a version that is kept. Its pointer is not NULL. */
typedef struct {
    const char *at;
    size_t len;
} nodejs_semver_text;

/* What a function returns. */
enum {
    /* The question is answered. */
    NODEJS_SEMVER_OK = 0,
    /* There is no such version, or no such range. */
    NODEJS_SEMVER_NOTHING = 1,
    /* The buffer is too small. The length that is needed stands in `len`. */
    NODEJS_SEMVER_TOO_SMALL = 2,
    /* A text is not UTF-8. */
    NODEJS_SEMVER_NOT_UTF8 = 3,
    /* A text is no version. */
    NODEJS_SEMVER_BAD_VERSION = 4,
    /* A text is no range. */
    NODEJS_SEMVER_BAD_RANGE = 5,
    /*
     * The reading, the status, or the word or the base of an increment is unknown, or there is nothing to put into
     * a pre-release.
     */
    NODEJS_SEMVER_BAD_ARGUMENT = 6,
    /* The identifier of an increment is not identifiers joined by dots. */
    NODEJS_SEMVER_BAD_IDENTIFIER = 7,
    /* `release` was asked of a version that is one. */
    NODEJS_SEMVER_NOT_A_PRERELEASE = 8,
    /* A number that was to rise is the greatest of 64 bits. */
    NODEJS_SEMVER_OVERFLOW = 9,
    /* An allocation failed. */
    NODEJS_SEMVER_NO_MEMORY = 10,
    /* A text, or an array of texts, has more bytes than there is room for in memory: 2^63 or more. */
    NODEJS_SEMVER_TOO_LONG = 11
};

/* How the texts of a call are read. */
enum {
    /*
     * The port's own reading: the front of a text that is a version, and the words of a range that it knows. What
     * is no such word is ignored.
     */
    NODEJS_SEMVER_READING_PORT = 0,
    /*
     * npm's strict reading: whole texts, and no others. Pre-releases are not included in a range, unless the
     * function has a flag that says so.
     */
    NODEJS_SEMVER_READING_NPM = 1,
    /*
     * npm's reading by node-semver's option `loose`: leading zeros, marks in front and a pre-release without its
     * `-` are read, and the words of a range that are no comparators are left out. Where memory is missing, a text
     * of several alternatives is not told from one that is no range.
     */
    NODEJS_SEMVER_READING_NPM_LOOSE = 2
};

/* What a new pre-release list begins to count with. */
enum {
    /* A new pre-release list begins to count with 0. */
    NODEJS_SEMVER_BASE_ZERO = 0,
    /* A new pre-release list begins to count with 1. */
    NODEJS_SEMVER_BASE_ONE = 1,
    /* A new pre-release list has no number. */
    NODEJS_SEMVER_BASE_NONE = 2
};

/* The kind of difference between two versions. */
enum {
    /* Two versions are equal. */
    NODEJS_SEMVER_KIND_NONE = 0,
    /* Two versions differ in the major number. */
    NODEJS_SEMVER_KIND_MAJOR = 1,
    /* Two versions differ in the minor number. */
    NODEJS_SEMVER_KIND_MINOR = 2,
    /* Two versions differ in the patch number. */
    NODEJS_SEMVER_KIND_PATCH = 3,
    /* The major number differs, and the higher version is a pre-release. */
    NODEJS_SEMVER_KIND_PREMAJOR = 4,
    /* The minor number differs, and the higher version is a pre-release. */
    NODEJS_SEMVER_KIND_PREMINOR = 5,
    /* The patch number differs, and the higher version is a pre-release. */
    NODEJS_SEMVER_KIND_PREPATCH = 6,
    /* Two pre-releases of the same three numbers differ. */
    NODEJS_SEMVER_KIND_PRERELEASE = 7
};

/* What is wrong with a version text. */
enum {
    /* No number begins at the place: a digit is expected there. */
    NODEJS_SEMVER_FLAW_DIGIT = 0,
    /* A dot is expected at the place. */
    NODEJS_SEMVER_FLAW_DOT = 1,
    /* A number above 9007199254740991 begins at the place. */
    NODEJS_SEMVER_FLAW_NUMBER = 2,
    /* The text has a version at its front, and is ignored from the place on. */
    NODEJS_SEMVER_FLAW_IGNORED = 3,
    /* The text is longer than 256 bytes, which is the place. */
    NODEJS_SEMVER_FLAW_TOO_LONG = 4
};

/* What npm's reading finds wrong with a version text. */
enum {
    /* A `=`, a `V` or a further `v` stands where a number begins. */
    NODEJS_SEMVER_WRONG_MARK = 0,
    /* A number, or an identifier of the pre-release that is one, has a leading zero. */
    NODEJS_SEMVER_WRONG_LEADING_ZERO = 1,
    /* A digit makes a number greater than 9007199254740991. */
    NODEJS_SEMVER_WRONG_NUMBER = 2,
    /* A letter stands behind the numbers, where the pre-release begins with a `-`. */
    NODEJS_SEMVER_WRONG_MISSING_HYPHEN = 3,
    /* A number begins at the place: a digit is expected there. */
    NODEJS_SEMVER_WRONG_DIGIT = 4,
    /* A dot is expected at the place. */
    NODEJS_SEMVER_WRONG_DOT = 5,
    /* An identifier begins at the place: a letter, a digit or `-` is expected there. */
    NODEJS_SEMVER_WRONG_IDENTIFIER = 6,
    /* What stands before the place is a version, and this is behind it. */
    NODEJS_SEMVER_WRONG_BEHIND = 7,
    /* The text is longer than 256 characters. */
    NODEJS_SEMVER_WRONG_TOO_LONG = 8
};

/* Why a word of a range text is ignored. */
enum {
    /* The word has none of the forms of words. */
    NODEJS_SEMVER_WORD_MALFORMED = 0,
    /* The word has a form, but names no versions. */
    NODEJS_SEMVER_WORD_WITHOUT_BOUNDS = 1
};

/* Where the version of a bound lies. */
enum {
    /* There is no bound on this side. Its version is not looked at. */
    NODEJS_SEMVER_BOUND_NONE = 0,
    /* The version of the bound lies within the interval: `>=` below, `<=` above. */
    NODEJS_SEMVER_BOUND_CLOSED = 1,
    /* The version of the bound lies outside the interval: `>` below, `<` above. */
    NODEJS_SEMVER_BOUND_OPEN = 2
};

/* What a range says of one of many versions. */
enum {
    /* The range does not accept the version. */
    NODEJS_SEMVER_ANSWER_NO = 0,
    /* The range accepts the version. */
    NODEJS_SEMVER_ANSWER_YES = 1,
    /* The text is no version. */
    NODEJS_SEMVER_ANSWER_NO_VERSION = 2
};

/* An ignored word of a range text. */
typedef struct {
    /* The place of its first byte. */
    size_t start;
    /* The place behind its last byte. */
    size_t end;
    /* NODEJS_SEMVER_WORD_MALFORMED or NODEJS_SEMVER_WORD_WITHOUT_BOUNDS. */
    uint32_t kind;
} nodejs_semver_word;

/* An alternative of a range text that npm's reading rejects. A place is a byte. */
typedef struct {
    /* The place of its first byte. */
    size_t start;
    /* The place behind its last byte. */
    size_t end;
    /* The place of the first byte of what is malformed in it. */
    size_t word_start;
    /* The place behind the last byte of what is malformed in it. */
    size_t word_end;
} nodejs_semver_alternative;

/* A version in the memory of the caller. */
typedef struct {
    /* The first number. */
    uint64_t major;
    /* The second number. */
    uint64_t minor;
    /* The third number. */
    uint64_t patch;
    /* The identifiers of the pre-release, joined by dots. A release has none. */
    nodejs_semver_text pre_release;
    /* The identifiers of the build metadata, joined by dots. */
    nodejs_semver_text build;
} nodejs_semver_version;

/* A bound of an interval in the memory of the caller. */
typedef struct {
    /* NODEJS_SEMVER_BOUND_NONE, NODEJS_SEMVER_BOUND_CLOSED or NODEJS_SEMVER_BOUND_OPEN. */
    uint32_t kind;
    /* Its version. */
    nodejs_semver_version version;
} nodejs_semver_bound;

/* An interval in the memory of the caller. A range that is kept is an array of one or more. */
typedef struct {
    /* The bound below. */
    nodejs_semver_bound lower;
    /* The bound above. */
    nodejs_semver_bound upper;
} nodejs_semver_interval;

/* What is read of a version: its numbers, and how long the texts of its identifiers are. */
typedef struct {
    /* The first number. */
    uint64_t major;
    /* The second number. */
    uint64_t minor;
    /* The third number. */
    uint64_t patch;
    /* The length of the text of the pre-release. */
    size_t pre_release_len;
    /* The length of the text of the build metadata. */
    size_t build_len;
} nodejs_semver_parts;

/* What is read of a bound. */
typedef struct {
    /* NODEJS_SEMVER_BOUND_NONE, NODEJS_SEMVER_BOUND_CLOSED or NODEJS_SEMVER_BOUND_OPEN. */
    uint32_t kind;
    /* The parts of its version, which are zeros where there is no bound. */
    nodejs_semver_parts version;
} nodejs_semver_bound_parts;

/* What is read of an interval. */
typedef struct {
    /* The bound below. */
    nodejs_semver_bound_parts lower;
    /* The bound above. */
    nodejs_semver_bound_parts upper;
} nodejs_semver_interval_parts;

/* What is told of a span of keys. */
typedef struct {
    /* The length of the first bytes that the span holds. */
    size_t start_len;
    /* The length of the first bytes above the span. */
    size_t stop_len;
    /* Whether only the keys of releases count, whose last byte is 3. */
    bool releases_only;
} nodejs_semver_span_parts;

/*
 * Which of some versions is the greatest that a range accepts: `index` gets its place. Where a text of `versions`
 * is rejected, `index` gets the place of the first such text.
 *
 * Returns NODEJS_SEMVER_OK, NODEJS_SEMVER_NOTHING, NODEJS_SEMVER_BAD_ARGUMENT, NODEJS_SEMVER_NOT_UTF8,
 * NODEJS_SEMVER_BAD_RANGE, NODEJS_SEMVER_BAD_VERSION, NODEJS_SEMVER_NO_MEMORY or NODEJS_SEMVER_TOO_LONG.
 */
nodejs_semver_status nodejs_semver_range_max_satisfying(uint32_t reading, const char *range, size_t range_len,
    const nodejs_semver_text *versions, size_t versions_len, size_t *index);

/*
 * Which of some versions is the smallest that a range accepts: `index` gets its place. Where a text of `versions`
 * is rejected, `index` gets the place of the first such text.
 *
 * Returns NODEJS_SEMVER_OK, NODEJS_SEMVER_NOTHING, NODEJS_SEMVER_BAD_ARGUMENT, NODEJS_SEMVER_NOT_UTF8,
 * NODEJS_SEMVER_BAD_RANGE, NODEJS_SEMVER_BAD_VERSION, NODEJS_SEMVER_NO_MEMORY or NODEJS_SEMVER_TOO_LONG.
 */
nodejs_semver_status nodejs_semver_range_min_satisfying(uint32_t reading, const char *range, size_t range_len,
    const nodejs_semver_text *versions, size_t versions_len, size_t *index);

/*
 * Which of some versions a range accepts: `answers` gets one of NODEJS_SEMVER_ANSWER_NO, NODEJS_SEMVER_ANSWER_YES
 * and NODEJS_SEMVER_ANSWER_NO_VERSION for each. If it has room for fewer, nothing is read or written.
 *
 * Returns NODEJS_SEMVER_OK, NODEJS_SEMVER_TOO_SMALL, NODEJS_SEMVER_BAD_ARGUMENT, NODEJS_SEMVER_NOT_UTF8,
 * NODEJS_SEMVER_BAD_RANGE, NODEJS_SEMVER_NO_MEMORY or NODEJS_SEMVER_TOO_LONG.
 */
nodejs_semver_status nodejs_semver_range_satisfies_each(uint32_t reading, const char *range, size_t range_len,
    const nodejs_semver_text *versions, size_t versions_len, bool include_prerelease, uint8_t *answers,
    size_t answers_size);

/*
 * What is wrong with a version text: `flaw` gets one of NODEJS_SEMVER_FLAW_DIGIT to NODEJS_SEMVER_FLAW_TOO_LONG,
 * and `place` the byte. There is nothing exactly if the whole text is one version.
 *
 * Returns NODEJS_SEMVER_OK, NODEJS_SEMVER_NOTHING, NODEJS_SEMVER_NOT_UTF8 or NODEJS_SEMVER_TOO_LONG.
 */
nodejs_semver_status nodejs_semver_version_flaw(const char *version, size_t version_len, uint32_t *flaw,
    size_t *place);

/*
 * The words of a range text that the port's reading ignores: `words` gets as many, from the left, as it has room
 * for, and `len` their number.
 *
 * Returns NODEJS_SEMVER_OK, NODEJS_SEMVER_TOO_SMALL, NODEJS_SEMVER_NOT_UTF8 or NODEJS_SEMVER_TOO_LONG.
 */
nodejs_semver_status nodejs_semver_range_ignored_words(const char *range, size_t range_len,
    nodejs_semver_word *words, size_t words_size, size_t *len);

/*
 * What npm's reading finds wrong with a version text: `flaw` gets one of NODEJS_SEMVER_WRONG_MARK to
 * NODEJS_SEMVER_WRONG_TOO_LONG, and `place` the byte. There is nothing exactly if npm reads the text.
 *
 * Returns NODEJS_SEMVER_OK, NODEJS_SEMVER_NOTHING, NODEJS_SEMVER_NOT_UTF8 or NODEJS_SEMVER_TOO_LONG.
 */
nodejs_semver_status nodejs_semver_version_npm_flaw(const char *version, size_t version_len, uint32_t *flaw,
    size_t *place);

/*
 * What npm's reading finds wrong with a range text: `flaw` gets the first alternative that is malformed, and what
 * is malformed in it. There is nothing exactly if npm reads the text.
 *
 * Returns NODEJS_SEMVER_OK, NODEJS_SEMVER_NOTHING, NODEJS_SEMVER_NOT_UTF8 or NODEJS_SEMVER_TOO_LONG.
 */
nodejs_semver_status nodejs_semver_range_npm_flaw(const char *range, size_t range_len, bool include_prerelease,
    nodejs_semver_alternative *flaw);

/*
 * Prints the version of a text that may have whitespace around it and any of `v` and `=` in front, as node-semver's
 * `clean` does: without its build metadata. The rest is read as npm reads it.
 *
 * Returns NODEJS_SEMVER_OK, NODEJS_SEMVER_TOO_SMALL, NODEJS_SEMVER_NOT_UTF8, NODEJS_SEMVER_BAD_VERSION or
 * NODEJS_SEMVER_TOO_LONG.
 */
nodejs_semver_status nodejs_semver_version_clean(const char *version, size_t version_len, char *out,
    size_t out_size, size_t *len);

/*
 * Prints the build metadata of a version text as it is written, without its `+`: of `1.0.0+007` it is `007`, where
 * the version itself prints as `1.0.0+7`. It is empty where the version has none. The text is read as npm reads it,
 * with node-semver's option `loose` if that is set.
 *
 * Returns NODEJS_SEMVER_OK, NODEJS_SEMVER_TOO_SMALL, NODEJS_SEMVER_NOT_UTF8, NODEJS_SEMVER_BAD_VERSION or
 * NODEJS_SEMVER_TOO_LONG.
 */
nodejs_semver_status nodejs_semver_version_build_text(const char *version, size_t version_len, bool loose,
    char *out, size_t out_size, size_t *len);

/*
 * Prints the version that any text has in it, as node-semver's `coerce` finds it: the leftmost number, and up to
 * two more after it that dots join. Missing numbers are 0.
 *
 * With `loose` numbers may have leading zeros. With `rtl` the version is looked for from the right. With
 * `include_prerelease` it has the pre-release and the build metadata that follow its numbers.
 *
 * Returns NODEJS_SEMVER_OK, NODEJS_SEMVER_NOTHING, NODEJS_SEMVER_TOO_SMALL, NODEJS_SEMVER_NOT_UTF8 or
 * NODEJS_SEMVER_TOO_LONG.
 */
nodejs_semver_status nodejs_semver_version_coerce(const char *text, size_t text_len, bool loose, bool rtl,
    bool include_prerelease, char *out, size_t out_size, size_t *len);

/*
 * Reads a range, so that it can be kept: `intervals` gets the parts of its intervals, and `out` the texts of their
 * versions, in the order of the bounds, of each version that of the build metadata behind that of the pre-release.
 * `count` gets the number of the intervals, and `len` the length of the texts. If the array or the buffer is too
 * small, these two alone are written.
 *
 * Returns NODEJS_SEMVER_OK, NODEJS_SEMVER_TOO_SMALL, NODEJS_SEMVER_BAD_ARGUMENT, NODEJS_SEMVER_NOT_UTF8,
 * NODEJS_SEMVER_BAD_RANGE, NODEJS_SEMVER_NO_MEMORY or NODEJS_SEMVER_TOO_LONG.
 */
nodejs_semver_status nodejs_semver_range_read(uint32_t reading, const char *range, size_t range_len,
    bool include_prerelease, nodejs_semver_interval_parts *intervals, size_t intervals_size, size_t *count,
    char *out, size_t out_size, size_t *len);

/*
 * Reads a version, so that it can be kept: `parts` gets its numbers and how long the texts of its identifiers are,
 * and `out` gets these texts, that of the build metadata behind that of the pre-release. If the buffer is too
 * small, `parts` alone is written.
 *
 * Returns NODEJS_SEMVER_OK, NODEJS_SEMVER_TOO_SMALL, NODEJS_SEMVER_BAD_ARGUMENT, NODEJS_SEMVER_NOT_UTF8,
 * NODEJS_SEMVER_BAD_VERSION or NODEJS_SEMVER_TOO_LONG.
 */
nodejs_semver_status nodejs_semver_version_read(uint32_t reading, const char *version, size_t version_len,
    nodejs_semver_parts *parts, char *out, size_t out_size);

/*
 * Whether the texts of a version spell identifiers: the status is NODEJS_SEMVER_OK or says why not.
 *
 * Returns NODEJS_SEMVER_OK, NODEJS_SEMVER_BAD_VERSION or NODEJS_SEMVER_TOO_LONG.
 */
nodejs_semver_status nodejs_semver_check(const nodejs_semver_version *version);

/*
 * How the first version compares to the second: `order` gets -1, 0 or 1. Build metadata does not count. Texts that
 * spell no identifiers are compared too, cut at their dots.
 *
 * Returns NODEJS_SEMVER_OK.
 */
nodejs_semver_status nodejs_semver_order(const nodejs_semver_version *version, const nodejs_semver_version *other,
    int32_t *order);

/*
 * How the first version compares to the second: `order` gets -1, 0 or 1. Of equal versions the build metadata
 * decides, identifier by identifier. Texts that spell no identifiers are compared too, cut at their dots.
 *
 * Returns NODEJS_SEMVER_OK.
 */
nodejs_semver_status nodejs_semver_order_with_builds(const nodejs_semver_version *version,
    const nodejs_semver_version *other, int32_t *order);

/*
 * The kind of difference between two versions: `kind` gets one of NODEJS_SEMVER_KIND_NONE to
 * NODEJS_SEMVER_KIND_PRERELEASE. Texts that spell no identifiers are compared too, cut at their dots.
 *
 * Returns NODEJS_SEMVER_OK.
 */
nodejs_semver_status nodejs_semver_kind(const nodejs_semver_version *version, const nodejs_semver_version *other,
    uint32_t *kind);

/*
 * Prints a version.
 *
 * Returns NODEJS_SEMVER_OK, NODEJS_SEMVER_TOO_SMALL, NODEJS_SEMVER_BAD_VERSION or NODEJS_SEMVER_TOO_LONG.
 */
nodejs_semver_status nodejs_semver_print(const nodejs_semver_version *version, char *out, size_t out_size,
    size_t *len);

/*
 * The key of a version: bytes that compare as versions do, byte by byte, the shorter first. Build metadata does not
 * count, and no key begins another. `out` gets the key, and `len` its length.
 *
 * Returns NODEJS_SEMVER_OK, NODEJS_SEMVER_TOO_SMALL, NODEJS_SEMVER_BAD_VERSION, NODEJS_SEMVER_NO_MEMORY or
 * NODEJS_SEMVER_TOO_LONG.
 */
nodejs_semver_status nodejs_semver_key(const nodejs_semver_version *version, char *out, size_t out_size,
    size_t *len);

/*
 * The next version by a word, as `minor` or `prerelease`. An empty identifier is none. The base, one of
 * NODEJS_SEMVER_BASE_ZERO, NODEJS_SEMVER_BASE_ONE and NODEJS_SEMVER_BASE_NONE, says what a new pre-release list
 * begins to count with. The version is told as `nodejs_semver_version_read` tells one.
 *
 * An identifier that is digits, or has dots, goes into the list as one; what is told spells a number, or several.
 *
 * Returns NODEJS_SEMVER_OK, NODEJS_SEMVER_TOO_SMALL, NODEJS_SEMVER_NOT_UTF8, NODEJS_SEMVER_BAD_VERSION,
 * NODEJS_SEMVER_BAD_ARGUMENT, NODEJS_SEMVER_BAD_IDENTIFIER, NODEJS_SEMVER_NOT_A_PRERELEASE, NODEJS_SEMVER_OVERFLOW,
 * NODEJS_SEMVER_NO_MEMORY or NODEJS_SEMVER_TOO_LONG.
 */
nodejs_semver_status nodejs_semver_next(const nodejs_semver_version *version, const char *word, size_t word_len,
    const char *identifier, size_t identifier_len, uint32_t base, nodejs_semver_parts *parts, char *out,
    size_t out_size);

/*
 * Whether a range has these intervals: one or more, with bounds in order, of a kind that is known, whose texts
 * spell identifiers and whose numbers are at most 9007199254740992. The status is NODEJS_SEMVER_OK or says why not.
 *
 * Returns NODEJS_SEMVER_OK, NODEJS_SEMVER_BAD_VERSION, NODEJS_SEMVER_BAD_RANGE or NODEJS_SEMVER_TOO_LONG.
 */
nodejs_semver_status nodejs_semver_check_range(const nodejs_semver_interval *range, size_t range_len);

/*
 * Whether a range accepts a version. A pre-release is accepted only where a bound names one of the same three
 * numbers, unless pre-releases are included. Neither the range nor the version is checked first:
 * `nodejs_semver_check_range` and `nodejs_semver_check` do so.
 *
 * Returns NODEJS_SEMVER_OK or NODEJS_SEMVER_TOO_LONG.
 */
nodejs_semver_status nodejs_semver_accepts(const nodejs_semver_interval *range, size_t range_len,
    const nodejs_semver_version *version, bool include_prerelease, bool *answer);

/*
 * Which of some versions a range accepts: `answers` gets NODEJS_SEMVER_ANSWER_NO or NODEJS_SEMVER_ANSWER_YES for
 * each, as `nodejs_semver_accepts` answers. If it has room for fewer, nothing is looked at or written.
 *
 * Returns NODEJS_SEMVER_OK, NODEJS_SEMVER_TOO_SMALL or NODEJS_SEMVER_TOO_LONG.
 */
nodejs_semver_status nodejs_semver_accepts_each(const nodejs_semver_interval *range, size_t range_len,
    const nodejs_semver_version *versions, size_t versions_len, bool include_prerelease, uint8_t *answers,
    size_t answers_size);

/*
 * Which of some versions is the greatest that a range accepts, the last of equal ones: `index` gets its place.
 * Neither the range nor the versions are checked first.
 *
 * Returns NODEJS_SEMVER_OK, NODEJS_SEMVER_NOTHING or NODEJS_SEMVER_TOO_LONG.
 */
nodejs_semver_status nodejs_semver_greatest(const nodejs_semver_interval *range, size_t range_len,
    const nodejs_semver_version *versions, size_t versions_len, bool include_prerelease, size_t *index);

/*
 * Which of some versions is the smallest that a range accepts, the first of equal ones: `index` gets its place.
 * Neither the range nor the versions are checked first.
 *
 * Returns NODEJS_SEMVER_OK, NODEJS_SEMVER_NOTHING or NODEJS_SEMVER_TOO_LONG.
 */
nodejs_semver_status nodejs_semver_least(const nodejs_semver_interval *range, size_t range_len,
    const nodejs_semver_version *versions, size_t versions_len, bool include_prerelease, size_t *index);

/*
 * Whether two ranges have something in common. Neither is checked first.
 *
 * Returns NODEJS_SEMVER_OK or NODEJS_SEMVER_TOO_LONG.
 */
nodejs_semver_status nodejs_semver_meets(const nodejs_semver_interval *range, size_t range_len,
    const nodejs_semver_interval *other, size_t other_len, bool *answer);

/*
 * Whether some one interval of the first range covers some one interval of the second. This is not a subset test.
 *
 * Returns NODEJS_SEMVER_OK, NODEJS_SEMVER_BAD_VERSION, NODEJS_SEMVER_BAD_RANGE, NODEJS_SEMVER_NO_MEMORY or
 * NODEJS_SEMVER_TOO_LONG.
 */
nodejs_semver_status nodejs_semver_covers(const nodejs_semver_interval *range, size_t range_len,
    const nodejs_semver_interval *other, size_t other_len, bool *answer);

/*
 * Whether a version lies above a range, or below it where `above` is false: the range does not accept it, and every
 * interval of the range lies on the other side. Neither is checked first.
 *
 * Returns NODEJS_SEMVER_OK or NODEJS_SEMVER_TOO_LONG.
 */
nodejs_semver_status nodejs_semver_lies_outside(const nodejs_semver_interval *range, size_t range_len,
    const nodejs_semver_version *version, bool above, bool include_prerelease, bool *answer);

/*
 * The smallest version that a range accepts: `parts` gets its numbers and how long its texts are, and `out` these
 * texts, that of the build metadata behind that of the pre-release. If the buffer is too small, `parts` alone is
 * written.
 *
 * Returns NODEJS_SEMVER_OK, NODEJS_SEMVER_NOTHING, NODEJS_SEMVER_TOO_SMALL, NODEJS_SEMVER_BAD_VERSION,
 * NODEJS_SEMVER_BAD_RANGE, NODEJS_SEMVER_NO_MEMORY or NODEJS_SEMVER_TOO_LONG.
 */
nodejs_semver_status nodejs_semver_least_version(const nodejs_semver_interval *range, size_t range_len,
    nodejs_semver_parts *parts, char *out, size_t out_size);

/*
 * Prints a range in its normal form: `>=1.2.0 <2.0.0-0`.
 *
 * Returns NODEJS_SEMVER_OK, NODEJS_SEMVER_TOO_SMALL, NODEJS_SEMVER_BAD_VERSION, NODEJS_SEMVER_BAD_RANGE,
 * NODEJS_SEMVER_NO_MEMORY or NODEJS_SEMVER_TOO_LONG.
 */
nodejs_semver_status nodejs_semver_print_range(const nodejs_semver_interval *range, size_t range_len, char *out,
    size_t out_size, size_t *len);

/*
 * What two ranges have in common. It is told as `nodejs_semver_range_read` tells a range.
 *
 * Returns NODEJS_SEMVER_OK, NODEJS_SEMVER_NOTHING, NODEJS_SEMVER_TOO_SMALL, NODEJS_SEMVER_BAD_VERSION,
 * NODEJS_SEMVER_BAD_RANGE, NODEJS_SEMVER_NO_MEMORY or NODEJS_SEMVER_TOO_LONG.
 */
nodejs_semver_status nodejs_semver_intersect(const nodejs_semver_interval *range, size_t range_len,
    const nodejs_semver_interval *other, size_t other_len, nodejs_semver_interval_parts *intervals,
    size_t intervals_size, size_t *count, char *out, size_t out_size, size_t *len);

/*
 * What the first range holds and the second does not. It is told as `nodejs_semver_range_read` tells a range.
 *
 * Returns NODEJS_SEMVER_OK, NODEJS_SEMVER_NOTHING, NODEJS_SEMVER_TOO_SMALL, NODEJS_SEMVER_BAD_VERSION,
 * NODEJS_SEMVER_BAD_RANGE, NODEJS_SEMVER_NO_MEMORY or NODEJS_SEMVER_TOO_LONG.
 */
nodejs_semver_status nodejs_semver_difference(const nodejs_semver_interval *range, size_t range_len,
    const nodejs_semver_interval *other, size_t other_len, nodejs_semver_interval_parts *intervals,
    size_t intervals_size, size_t *count, char *out, size_t out_size, size_t *len);

/*
 * The union of two ranges, which accepts what either accepts. It is told as `nodejs_semver_range_read` tells a
 * range.
 *
 * Returns NODEJS_SEMVER_OK, NODEJS_SEMVER_TOO_SMALL, NODEJS_SEMVER_BAD_VERSION, NODEJS_SEMVER_BAD_RANGE,
 * NODEJS_SEMVER_NO_MEMORY or NODEJS_SEMVER_TOO_LONG.
 */
nodejs_semver_status nodejs_semver_union(const nodejs_semver_interval *range, size_t range_len,
    const nodejs_semver_interval *other, size_t other_len, nodejs_semver_interval_parts *intervals,
    size_t intervals_size, size_t *count, char *out, size_t out_size, size_t *len);

/*
 * The smallest version that the first range accepts and the second does not, told as `nodejs_semver_least_version`
 * tells one. With the flag both accept pre-releases within their bounds. There is no such version exactly if
 * `nodejs_semver_is_subset` answers yes.
 *
 * Returns NODEJS_SEMVER_OK, NODEJS_SEMVER_NOTHING, NODEJS_SEMVER_TOO_SMALL, NODEJS_SEMVER_BAD_VERSION,
 * NODEJS_SEMVER_BAD_RANGE, NODEJS_SEMVER_NO_MEMORY or NODEJS_SEMVER_TOO_LONG.
 */
nodejs_semver_status nodejs_semver_least_beyond(const nodejs_semver_interval *range, size_t range_len,
    const nodejs_semver_interval *other, size_t other_len, bool include_prerelease, nodejs_semver_parts *parts,
    char *out, size_t out_size);

/*
 * Whether the second range accepts every version that the first accepts.
 *
 * Returns NODEJS_SEMVER_OK, NODEJS_SEMVER_BAD_VERSION, NODEJS_SEMVER_BAD_RANGE, NODEJS_SEMVER_NO_MEMORY or
 * NODEJS_SEMVER_TOO_LONG.
 */
nodejs_semver_status nodejs_semver_is_subset(const nodejs_semver_interval *range, size_t range_len,
    const nodejs_semver_interval *other, size_t other_len, bool include_prerelease, bool *answer);

/*
 * A range that answers about each of some versions as a range does without pre-releases included, with as many
 * intervals or fewer: those that accept one of the versions, or all where none does. It is told as
 * `nodejs_semver_range_read` tells a range. Where a version is rejected, `index` gets the place of the first such
 * version.
 *
 * Returns NODEJS_SEMVER_OK, NODEJS_SEMVER_TOO_SMALL, NODEJS_SEMVER_BAD_VERSION, NODEJS_SEMVER_BAD_RANGE,
 * NODEJS_SEMVER_NO_MEMORY or NODEJS_SEMVER_TOO_LONG.
 */
nodejs_semver_status nodejs_semver_simplify(const nodejs_semver_interval *range, size_t range_len,
    const nodejs_semver_version *versions, size_t versions_len, nodejs_semver_interval_parts *intervals,
    size_t intervals_size, size_t *count, char *out, size_t out_size, size_t *len, size_t *index);

/*
 * The spans of the keys of what a range accepts: `spans` gets their parts, and `out` the bytes of their ends, of
 * each span the start and then the stop. A range accepts a version exactly where the key of the version is in a
 * span: not below its start and below its stop, byte by byte. `count` gets the number of the spans, at most three
 * for each interval, and `len` the length of the bytes. If the array or the buffer is too small, these two alone
 * are written.
 *
 * Returns NODEJS_SEMVER_OK, NODEJS_SEMVER_TOO_SMALL, NODEJS_SEMVER_BAD_VERSION, NODEJS_SEMVER_BAD_RANGE,
 * NODEJS_SEMVER_NO_MEMORY or NODEJS_SEMVER_TOO_LONG.
 */
nodejs_semver_status nodejs_semver_key_spans(const nodejs_semver_interval *range, size_t range_len,
    bool include_prerelease, nodejs_semver_span_parts *spans, size_t spans_size, size_t *count, char *out,
    size_t out_size, size_t *len);

/*
 * Prints what a status says, as `bad version`.
 *
 * Returns NODEJS_SEMVER_OK, NODEJS_SEMVER_TOO_SMALL, NODEJS_SEMVER_BAD_ARGUMENT where there is no such status, or
 * NODEJS_SEMVER_TOO_LONG.
 */
nodejs_semver_status nodejs_semver_message(uint32_t status, char *out, size_t out_size, size_t *len);

/*
 * Prints the version of the library, as `1.0.0`: that of the object which is loaded, where NODEJS_SEMVER_VERSION is
 * that of the header.
 *
 * Returns NODEJS_SEMVER_OK, NODEJS_SEMVER_TOO_SMALL or NODEJS_SEMVER_TOO_LONG.
 */
nodejs_semver_status nodejs_semver_version_text(char *out, size_t out_size, size_t *len);

/*
 * Prints the range of a text in its normal form: `^1.2` as `>=1.2.0 <2.0.0-0`.
 *
 * Returns NODEJS_SEMVER_OK, NODEJS_SEMVER_TOO_SMALL, NODEJS_SEMVER_BAD_ARGUMENT, NODEJS_SEMVER_NOT_UTF8,
 * NODEJS_SEMVER_BAD_RANGE, NODEJS_SEMVER_NO_MEMORY or NODEJS_SEMVER_TOO_LONG.
 */
nodejs_semver_status nodejs_semver_range_print(uint32_t reading, const char *range, size_t range_len, char *out,
    size_t out_size, size_t *len);

/*
 * Whether a range accepts a version. A pre-release is accepted only where a bound names one of the same three
 * numbers, unless pre-releases are included.
 *
 * Returns NODEJS_SEMVER_OK, NODEJS_SEMVER_BAD_ARGUMENT, NODEJS_SEMVER_NOT_UTF8, NODEJS_SEMVER_BAD_RANGE,
 * NODEJS_SEMVER_BAD_VERSION, NODEJS_SEMVER_NO_MEMORY or NODEJS_SEMVER_TOO_LONG.
 */
nodejs_semver_status nodejs_semver_range_satisfies(uint32_t reading, const char *range, size_t range_len,
    const char *version, size_t version_len, bool include_prerelease, bool *answer);

/*
 * Whether a version lies above a range, or below it where `above` is false: the range does not accept it, and every
 * interval of the range lies on the other side.
 *
 * Returns NODEJS_SEMVER_OK, NODEJS_SEMVER_BAD_ARGUMENT, NODEJS_SEMVER_NOT_UTF8, NODEJS_SEMVER_BAD_RANGE,
 * NODEJS_SEMVER_BAD_VERSION, NODEJS_SEMVER_NO_MEMORY or NODEJS_SEMVER_TOO_LONG.
 */
nodejs_semver_status nodejs_semver_range_outside(uint32_t reading, const char *range, size_t range_len,
    const char *version, size_t version_len, bool above, bool include_prerelease, bool *answer);

/*
 * Prints the smallest version that a range accepts.
 *
 * Returns NODEJS_SEMVER_OK, NODEJS_SEMVER_NOTHING, NODEJS_SEMVER_TOO_SMALL, NODEJS_SEMVER_BAD_ARGUMENT,
 * NODEJS_SEMVER_NOT_UTF8, NODEJS_SEMVER_BAD_RANGE, NODEJS_SEMVER_NO_MEMORY or NODEJS_SEMVER_TOO_LONG.
 */
nodejs_semver_status nodejs_semver_range_min_version(uint32_t reading, const char *range, size_t range_len,
    char *out, size_t out_size, size_t *len);

/*
 * Prints what two ranges have in common.
 *
 * Returns NODEJS_SEMVER_OK, NODEJS_SEMVER_NOTHING, NODEJS_SEMVER_TOO_SMALL, NODEJS_SEMVER_BAD_ARGUMENT,
 * NODEJS_SEMVER_NOT_UTF8, NODEJS_SEMVER_BAD_RANGE, NODEJS_SEMVER_NO_MEMORY or NODEJS_SEMVER_TOO_LONG.
 */
nodejs_semver_status nodejs_semver_range_intersect(uint32_t reading, const char *range, size_t range_len,
    const char *other, size_t other_len, char *out, size_t out_size, size_t *len);

/*
 * Prints what the first range holds and the second does not.
 *
 * Returns NODEJS_SEMVER_OK, NODEJS_SEMVER_NOTHING, NODEJS_SEMVER_TOO_SMALL, NODEJS_SEMVER_BAD_ARGUMENT,
 * NODEJS_SEMVER_NOT_UTF8, NODEJS_SEMVER_BAD_RANGE, NODEJS_SEMVER_NO_MEMORY or NODEJS_SEMVER_TOO_LONG.
 */
nodejs_semver_status nodejs_semver_range_difference(uint32_t reading, const char *range, size_t range_len,
    const char *other, size_t other_len, char *out, size_t out_size, size_t *len);

/*
 * Prints the smallest version that the first range accepts and the second does not. There is none exactly if the
 * first range is a subset of the second.
 *
 * Returns NODEJS_SEMVER_OK, NODEJS_SEMVER_NOTHING, NODEJS_SEMVER_TOO_SMALL, NODEJS_SEMVER_BAD_ARGUMENT,
 * NODEJS_SEMVER_NOT_UTF8, NODEJS_SEMVER_BAD_RANGE, NODEJS_SEMVER_NO_MEMORY or NODEJS_SEMVER_TOO_LONG.
 */
nodejs_semver_status nodejs_semver_range_least_beyond(uint32_t reading, const char *range, size_t range_len,
    const char *other, size_t other_len, char *out, size_t out_size, size_t *len);

/*
 * Whether some one interval of the first range covers some one interval of the second. This is not a subset test.
 *
 * Returns NODEJS_SEMVER_OK, NODEJS_SEMVER_BAD_ARGUMENT, NODEJS_SEMVER_NOT_UTF8, NODEJS_SEMVER_BAD_RANGE,
 * NODEJS_SEMVER_NO_MEMORY or NODEJS_SEMVER_TOO_LONG.
 */
nodejs_semver_status nodejs_semver_range_allows_all(uint32_t reading, const char *range, size_t range_len,
    const char *other, size_t other_len, bool *answer);

/*
 * Whether two ranges have something in common.
 *
 * Returns NODEJS_SEMVER_OK, NODEJS_SEMVER_BAD_ARGUMENT, NODEJS_SEMVER_NOT_UTF8, NODEJS_SEMVER_BAD_RANGE,
 * NODEJS_SEMVER_NO_MEMORY or NODEJS_SEMVER_TOO_LONG.
 */
nodejs_semver_status nodejs_semver_range_allows_any(uint32_t reading, const char *range, size_t range_len,
    const char *other, size_t other_len, bool *answer);

/*
 * The order of some versions, ascending by precedence, equal ones as they stand: `order` gets their places. If it
 * has room for fewer, nothing is read or written. Where a text is rejected, `index` gets the place of the first
 * such text.
 *
 * Returns NODEJS_SEMVER_OK, NODEJS_SEMVER_TOO_SMALL, NODEJS_SEMVER_BAD_ARGUMENT, NODEJS_SEMVER_NOT_UTF8,
 * NODEJS_SEMVER_BAD_VERSION, NODEJS_SEMVER_NO_MEMORY or NODEJS_SEMVER_TOO_LONG.
 */
nodejs_semver_status nodejs_semver_versions_sort(uint32_t reading, const nodejs_semver_text *versions,
    size_t versions_len, size_t *order, size_t order_size, size_t *index);

/*
 * Prints the union of two ranges, which accepts what either accepts.
 *
 * Returns NODEJS_SEMVER_OK, NODEJS_SEMVER_TOO_SMALL, NODEJS_SEMVER_BAD_ARGUMENT, NODEJS_SEMVER_NOT_UTF8,
 * NODEJS_SEMVER_BAD_RANGE, NODEJS_SEMVER_NO_MEMORY or NODEJS_SEMVER_TOO_LONG.
 */
nodejs_semver_status nodejs_semver_range_union(uint32_t reading, const char *range, size_t range_len,
    const char *other, size_t other_len, char *out, size_t out_size, size_t *len);

/*
 * Whether the second range accepts every version that the first accepts.
 *
 * Returns NODEJS_SEMVER_OK, NODEJS_SEMVER_BAD_ARGUMENT, NODEJS_SEMVER_NOT_UTF8, NODEJS_SEMVER_BAD_RANGE,
 * NODEJS_SEMVER_NO_MEMORY or NODEJS_SEMVER_TOO_LONG.
 */
nodejs_semver_status nodejs_semver_range_is_subset(uint32_t reading, const char *range, size_t range_len,
    const char *other, size_t other_len, bool include_prerelease, bool *answer);

/*
 * Whether two ranges accept the same versions, however they are written.
 *
 * Returns NODEJS_SEMVER_OK, NODEJS_SEMVER_BAD_ARGUMENT, NODEJS_SEMVER_NOT_UTF8, NODEJS_SEMVER_BAD_RANGE,
 * NODEJS_SEMVER_NO_MEMORY or NODEJS_SEMVER_TOO_LONG.
 */
nodejs_semver_status nodejs_semver_range_accepts_same(uint32_t reading, const char *range, size_t range_len,
    const char *other, size_t other_len, bool include_prerelease, bool *answer);

/*
 * Whether a text is a version: the status is NODEJS_SEMVER_OK or says why not.
 *
 * Returns NODEJS_SEMVER_OK, NODEJS_SEMVER_BAD_ARGUMENT, NODEJS_SEMVER_NOT_UTF8, NODEJS_SEMVER_BAD_VERSION or
 * NODEJS_SEMVER_TOO_LONG.
 */
nodejs_semver_status nodejs_semver_version_check(uint32_t reading, const char *version, size_t version_len);

/*
 * Prints the version of a text: in the port's reading `v1.2.3 oops` as `1.2.3`.
 *
 * Returns NODEJS_SEMVER_OK, NODEJS_SEMVER_TOO_SMALL, NODEJS_SEMVER_BAD_ARGUMENT, NODEJS_SEMVER_NOT_UTF8,
 * NODEJS_SEMVER_BAD_VERSION or NODEJS_SEMVER_TOO_LONG.
 */
nodejs_semver_status nodejs_semver_version_print(uint32_t reading, const char *version, size_t version_len,
    char *out, size_t out_size, size_t *len);

/*
 * How the first version compares to the second: `order` gets -1, 0 or 1. Build metadata does not count.
 *
 * Returns NODEJS_SEMVER_OK, NODEJS_SEMVER_BAD_ARGUMENT, NODEJS_SEMVER_NOT_UTF8, NODEJS_SEMVER_BAD_VERSION or
 * NODEJS_SEMVER_TOO_LONG.
 */
nodejs_semver_status nodejs_semver_version_compare(uint32_t reading, const char *version, size_t version_len,
    const char *other, size_t other_len, int32_t *order);

/*
 * How the first version compares to the second: `order` gets -1, 0 or 1. Of versions that are equal by precedence
 * the build metadata decides, identifier by identifier; none is below some.
 *
 * Returns NODEJS_SEMVER_OK, NODEJS_SEMVER_BAD_ARGUMENT, NODEJS_SEMVER_NOT_UTF8, NODEJS_SEMVER_BAD_VERSION or
 * NODEJS_SEMVER_TOO_LONG.
 */
nodejs_semver_status nodejs_semver_version_compare_build(uint32_t reading, const char *version, size_t version_len,
    const char *other, size_t other_len, int32_t *order);

/*
 * The kind of difference between two versions: `kind` gets one of NODEJS_SEMVER_KIND_NONE to
 * NODEJS_SEMVER_KIND_PRERELEASE.
 *
 * Returns NODEJS_SEMVER_OK, NODEJS_SEMVER_BAD_ARGUMENT, NODEJS_SEMVER_NOT_UTF8, NODEJS_SEMVER_BAD_VERSION or
 * NODEJS_SEMVER_TOO_LONG.
 */
nodejs_semver_status nodejs_semver_version_diff(uint32_t reading, const char *version, size_t version_len,
    const char *other, size_t other_len, uint32_t *kind);

/*
 * Prints the next version by a word, as `minor` or `prerelease`. An empty identifier is none. The base, one of
 * NODEJS_SEMVER_BASE_ZERO, NODEJS_SEMVER_BASE_ONE and NODEJS_SEMVER_BASE_NONE, says what a new pre-release list
 * begins to count with.
 *
 * Returns NODEJS_SEMVER_OK, NODEJS_SEMVER_TOO_SMALL, NODEJS_SEMVER_NOT_UTF8, NODEJS_SEMVER_BAD_VERSION,
 * NODEJS_SEMVER_BAD_ARGUMENT, NODEJS_SEMVER_BAD_IDENTIFIER, NODEJS_SEMVER_NOT_A_PRERELEASE, NODEJS_SEMVER_OVERFLOW,
 * NODEJS_SEMVER_NO_MEMORY or NODEJS_SEMVER_TOO_LONG.
 */
nodejs_semver_status nodejs_semver_version_inc(uint32_t reading, const char *version, size_t version_len,
    const char *word, size_t word_len, const char *identifier, size_t identifier_len, uint32_t base, char *out,
    size_t out_size, size_t *len);

#ifdef __cplusplus
}
#endif
#endif
