/* A bound for semver_lines: the lines `cmp`, `ver`, and `sat` of a caret, answered by C that is written by hand for them alone.
 * It reads each line once from the left and puts each answer straight into the output. It makes the same checks: the input is
 * UTF-8, a version has at most 256 bytes, a number is at most 9007199254740991, what stands behind the three numbers is read as
 * Version::parse reads it, and identifiers are compared by SemVer 2.0.0, item 11.
 *
 * Not in it are versions that begin with whitespace or `V`, printed identifiers with leading zeros, identifiers of more than 19
 * digits, characters beyond ASCII, carets with a pre-release, and all other commands. The program then exits with 2: its figures
 * count only where it exits with 0.
 *
 *     gcc -O3 -march=x86-64-v2 -o /tmp/limit bench/limit.c
 */
#include <stddef.h>
#include <stdint.h>
#include <stdlib.h>
#include <string.h>
#include <unistd.h>

#define LARGEST 9007199254740991ull
#define LONGEST 256
#define CHUNK 65536

typedef const uint8_t *Place;

typedef struct {
    uint64_t major, minor, patch;
    Place pre_release, build;
    size_t pre_release_len, build_len;
} Version;

static uint8_t is_identifier_char[256];
static uint8_t input[2 * CHUNK], output[8 * CHUNK];
static size_t slow_lines;

/* Each line ends with a line feed, so that no search tests for the end of the input. */
static inline Place number(Place p, uint64_t *number)
{
    unsigned digit = *p - '0';
    if (digit > 9)
        return NULL;
    uint64_t value = digit;
    while ((digit = *++p - '0') <= 9) {
        value = value * 10 + digit;
        if (value > LARGEST)
            return NULL;
    }
    *number = value;
    return p;
}

static inline Place identifiers(Place p)
{
    while (is_identifier_char[*p] || (*p == '.' && is_identifier_char[p[1]]))
        p++;
    return p;
}

static __attribute__((noinline)) Place qualifier(Place p, Version *version)
{
    Place start = p + (*p == '-');
    if (is_identifier_char[*start]) {
        p = identifiers(start);
        version->pre_release = start;
        version->pre_release_len = p - start;
    }
    if (*p == '+' && is_identifier_char[p[1]]) {
        start = p + 1;
        p = identifiers(start);
        version->build = start;
        version->build_len = p - start;
    }
    return p;
}

static inline int ends_field(uint8_t byte)
{
    return byte == ';' || byte == '\n';
}

/* The version of a field, and the place where the field ends. */
static inline Place read_version(Place p, Version *version)
{
    Place start = p;
    p += *p == 'v';
    if (!(p = number(p, &version->major)) || *p++ != '.' || !(p = number(p, &version->minor)) || *p++ != '.'
        || !(p = number(p, &version->patch)))
        return NULL;
    version->pre_release_len = version->build_len = 0;
    if (!ends_field(*p)) {
        p = qualifier(p, version);
        while (!ends_field(*p))
            p++;
    }
    return p - start > LONGEST ? NULL : p;
}

static int sign(uint64_t a, uint64_t b)
{
    return a < b ? -1 : a > b;
}

static Place identifier_end(Place p, Place end, int *is_number, uint64_t *value)
{
    *is_number = 1;
    *value = 0;
    for (; p < end && *p != '.'; p++) {
        unsigned digit = *p - '0';
        if (digit > 9)
            *is_number = 0;
        *value = *value * 10 + digit;
    }
    return p;
}

static __attribute__((noinline)) int compare_pre_releases(const Version *a, const Version *b)
{
    if (!a->pre_release_len || !b->pre_release_len)
        return sign(!a->pre_release_len, !b->pre_release_len);
    Place p = a->pre_release, p_end = p + a->pre_release_len;
    Place q = b->pre_release, q_end = q + b->pre_release_len;
    for (;;) {
        int p_number, q_number, order;
        uint64_t p_value, q_value;
        Place p_next = identifier_end(p, p_end, &p_number, &p_value);
        Place q_next = identifier_end(q, q_end, &q_number, &q_value);
        size_t p_len = p_next - p, q_len = q_next - q;
        slow_lines += (p_number && p_len > 19) || (q_number && q_len > 19);
        if (p_number && q_number)
            order = sign(p_value, q_value);
        else if (p_number != q_number)
            order = p_number ? -1 : 1;
        else if (!(order = memcmp(p, q, p_len < q_len ? p_len : q_len)))
            order = sign(p_len, q_len);
        if (order)
            return order;
        if (p_next == p_end || q_next == q_end)
            return sign(p_next != p_end, q_next != q_end);
        p = p_next + 1;
        q = q_next + 1;
    }
}

static inline int compare(const Version *a, const Version *b)
{
    if (a->major != b->major)
        return sign(a->major, b->major);
    if (a->minor != b->minor)
        return sign(a->minor, b->minor);
    if (a->patch != b->patch)
        return sign(a->patch, b->patch);
    return a->pre_release_len | b->pre_release_len ? compare_pre_releases(a, b) : 0;
}

static inline uint8_t *put_bytes(uint8_t *out, const void *bytes, size_t len)
{
    memcpy(out, bytes, len);
    return out + len;
}

#define PUT_WORD(out, word) put_bytes(out, word, sizeof word - 1)

static inline uint8_t *put_number(uint8_t *out, uint64_t number)
{
    uint8_t digits[20];
    size_t at = sizeof digits;
    if (number < 10) {
        *out = '0' + number;
        return out + 1;
    }
    if (number < 100) {
        out[0] = '0' + number / 10;
        out[1] = '0' + number % 10;
        return out + 2;
    }
    do
        digits[--at] = '0' + number % 10;
    while (number /= 10);
    return put_bytes(out, digits + at, sizeof digits - at);
}

static uint8_t *put_version(uint8_t *out, const Version *version)
{
    out = put_number(out, version->major);
    *out++ = '.';
    out = put_number(out, version->minor);
    *out++ = '.';
    out = put_number(out, version->patch);
    if (version->pre_release_len) {
        *out++ = '-';
        out = put_bytes(out, version->pre_release, version->pre_release_len);
    }
    if (version->build_len) {
        *out++ = '+';
        out = put_bytes(out, version->build, version->build_len);
    }
    return out;
}

/* Whether the caret of a release accepts a version, by the bounds `>=low <high-0`. */
static int satisfies_caret(const Version *low, const Version *version)
{
    Version high = {.pre_release = (Place)"0", .pre_release_len = 1};
    if (low->major)
        high.major = low->major + 1;
    else if (low->minor)
        high.minor = low->minor + 1;
    else
        high.patch = low->patch + 1;
    return compare(low, version) <= 0 && compare(version, &high) < 0 && !version->pre_release_len;
}

/* An identifier of more than one digit that begins with 0 would print as another text. */
static int has_leading_zero(Place p, size_t len)
{
    for (size_t i = 0; i + 1 < len; i++)
        if (p[i] == '0' && (!i || p[i - 1] == '.') && p[i + 1] != '.')
            return 1;
    return 0;
}

/* Answers one line, and returns the place behind it. */
static inline Place answer(Place line, uint8_t **out)
{
    Version a, b;
    Place p = line;
    if (!memcmp(line, "cmp;", 4)) {
        if ((p = read_version(line + 4, &a)) && *p++ == ';' && (p = read_version(p, &b)) && *p == '\n') {
            int order = compare(&a, &b);
            *out = order < 0 ? PUT_WORD(*out, "less\n") : order ? PUT_WORD(*out, "greater\n") : PUT_WORD(*out, "equal\n");
            return p + 1;
        }
    } else if (!memcmp(line, "ver;", 4)) {
        if ((p = read_version(line + 4, &a)) && *p == '\n' && !has_leading_zero(a.pre_release, a.pre_release_len)
            && !has_leading_zero(a.build, a.build_len)) {
            *out = put_version(*out, &a);
            *(*out)++ = '\n';
            return p + 1;
        }
    } else if (!memcmp(line, "sat;^", 5)) {
        if ((p = read_version(line + 5, &a)) && *p++ == ';' && !a.pre_release_len && !a.build_len && a.major != LARGEST
            && (p = read_version(p, &b)) && *p == '\n') {
            *out = satisfies_caret(&a, &b) ? PUT_WORD(*out, "true\n") : PUT_WORD(*out, "false\n");
            return p + 1;
        }
    }
    slow_lines++;
    *out = PUT_WORD(*out, "slow\n");
    return (Place)memchr(line, '\n', input + sizeof input - line) + 1;
}

/* UTF-8 is tested once for all lines of a chunk; here only ASCII passes. */
static int is_ascii(const uint8_t *bytes, size_t len)
{
    uint64_t all = 0;
    size_t i = 0;
    for (; i + 8 <= len; i += 8) {
        uint64_t word;
        memcpy(&word, bytes + i, 8);
        all |= word;
    }
    for (; i < len; i++)
        all |= bytes[i];
    return !(all & 0x8080808080808080ull);
}

static int write_all(const uint8_t *bytes, size_t len)
{
    while (len) {
        ssize_t written = write(1, bytes, len);
        if (written <= 0)
            return 0;
        bytes += written;
        len -= written;
    }
    return 1;
}

int main(void)
{
    size_t pending = 0;
    ssize_t got;
    for (int i = 0; i < 256; i++)
        is_identifier_char[i] =
            (i >= '0' && i <= '9') || (i >= 'a' && i <= 'z') || (i >= 'A' && i <= 'Z') || i == '-';
    while ((got = read(0, input + pending, CHUNK)) > 0) {
        size_t len = pending + got, whole = len;
        while (whole && input[whole - 1] != '\n')
            whole--;
        slow_lines += !is_ascii(input, whole);
        uint8_t *out = output;
        for (Place line = input; line < input + whole;)
            line = answer(line, &out);
        if (!write_all(output, out - output))
            return 1;
        pending = len - whole;
        if (pending > CHUNK)
            return 1;
        memmove(input, input + whole, pending);
    }
    return slow_lines ? 2 : 0;
}
