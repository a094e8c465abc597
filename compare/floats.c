/*
 * Makes the list that the program `numbers` replays: crates/numbers/stdin, and the answers, crates/numbers/stdout.
 *
 *     gcc -O1 -fno-fast-math -Wall -Wextra -o floats compare/floats.c
 *     ./floats crates/numbers/stdin crates/numbers/stdout
 *
 * What answers. Integers and floats to float and double: the processor's conversions. To and from _Float16: gcc's (12
 * or later, x86-64), which are libgcc's or the processor's. An integer goes to _Float16 by way of float where gcc does
 * so; nothing is rounded twice, since float holds every integer up to 65,536 and all from 65,520 on are infinity. Each
 * rounded answer is tested here against its two neighbours in __float128, whose 113 bits hold every difference that
 * decides: no neighbour is nearer, and at a tie the answer is even. C leaves open which NaN a conversion gives, so a
 * NaN's answer is document 01's: positive, only the top fraction bit set. Date-times: __builtin_mul_overflow, and C's
 * division corrected to round down. Integers: C's conversions between the <stdint.h> types.
 *
 * What is asked. (1) RFC 8949, Appendix A: its float16, float32 and float64 examples, each widened, each result
 * narrowed back, and the longer ones narrowed; the decimal text that the RFC gives is compared too. (2) Integers of
 * every kind to every format: 0, the range's ends, every power of two and its neighbours, and for every power of two
 * that has to be rounded midpoints of two floats with the integers beside them, after an even and an odd significand.
 * (3) Narrower floats: for each exponent of the target, subnormals included, a float of the target, the midpoint to the
 * next one, and the incoming floats beside both; the midpoint below infinity; the incoming format's ends. (4) Wider
 * floats: every power of two in a pattern and its neighbours, so every subnormal length and every exponent. (5) In (3)
 * and (4) both zeros, both infinities, and NaNs of both signs, quiet and signalling, with payloads. (6) Date-times: the
 * last counts that fit and the first that do not, on both sides of zero, and multiples of the divisor with their
 * neighbours. (7) Every pair of integer kinds whose ranges allow it, at the ends of both ranges. (8) In all of them
 * patterns from a fixed sequence (xorshift64, seed 1), with bits above the number's own, which are not to be looked at.
 */
#include <stdint.h>
#include <stdio.h>
#include <stdlib.h>
#include <string.h>

enum { FROM_INTEGER, CONVERT, WIDEN, MULTIPLY, DIVIDE };

static FILE *list, *answers;
static unsigned long count;

static const int digits[3] = {11, 24, 53}, emaxes[3] = {15, 127, 1023}, widths[3] = {16, 32, 64};
static const int bits[8] = {8, 16, 32, 64, 8, 16, 32, 64};
static const int is_signed[8] = {1, 1, 1, 1, 0, 0, 0, 0};
static const int64_t factors[2] = {1000, 1000000};

static uint64_t seed = 1;
static uint64_t next(void) {
    seed ^= seed << 13;
    seed ^= seed >> 7;
    seed ^= seed << 17;
    return seed;
}

static uint64_t ones(int w) { return w == 64 ? UINT64_MAX : ((uint64_t)1 << w) - 1; }
static uint64_t top(int f) { return (uint64_t)1 << (widths[f] - 1); }
static uint64_t infinity(int f) { return (uint64_t)(2 * emaxes[f] + 1) << (digits[f] - 1); }
static uint64_t nan_of(int f) { return infinity(f) + ((uint64_t)1 << (digits[f] - 2)); }
static int is_nan(int f, uint64_t b) { return (b & (top(f) - 1)) > infinity(f); }

/* patterns and the machine's floats */
static _Float16 half_of(uint64_t b) { uint16_t u = (uint16_t)b; _Float16 x; memcpy(&x, &u, 2); return x; }
static float single_of(uint64_t b) { uint32_t u = (uint32_t)b; float x; memcpy(&x, &u, 4); return x; }
static double double_of(uint64_t b) { double x; memcpy(&x, &b, 8); return x; }
static uint64_t of_half(_Float16 x) { uint16_t u; memcpy(&u, &x, 2); return u; }
static uint64_t of_single(float x) { uint32_t u; memcpy(&u, &x, 4); return u; }
static uint64_t of_double(double x) { uint64_t u; memcpy(&u, &x, 8); return u; }

static void fail(const char *what, int from, int to, uint64_t b) {
    fprintf(stderr, "%s: %d %d %016llx\n", what, from, to, (unsigned long long)b);
    exit(1);
}

/* the size of a float as an exact number; infinity counts as the power of two after the largest finite number */
static __float128 size_of(int f, uint64_t b) {
    b &= top(f) - 1;
    if (b == infinity(f)) {
        __float128 x = 1;
        for (int i = 0; i <= emaxes[f]; i++) x *= 2;
        return x;
    }
    if (f == 0) return (__float128)(double)half_of(b);
    if (f == 1) return (__float128)single_of(b);
    return (__float128)double_of(b);
}

static __float128 apart(__float128 x, __float128 y) { return x < y ? y - x : x - y; }

/* r is the nearest float of size x, ties to even */
static int nearest(int f, __float128 x, uint64_t r) {
    r &= top(f) - 1;
    if (r > infinity(f)) return 0;
    __float128 d = apart(x, size_of(f, r));
    if (r > 0) {
        __float128 e = apart(x, size_of(f, r - 1));
        if (e < d || (e == d && r % 2)) return 0;
    }
    if (r < infinity(f)) {
        __float128 e = apart(x, size_of(f, r + 1));
        if (e < d || (e == d && r % 2)) return 0;
    }
    return 1;
}

static void put(int op, int from, int to, uint64_t b) {
    unsigned char record[16] = {(unsigned char)op, (unsigned char)from, (unsigned char)to};
    for (int i = 0; i < 8; i++) record[8 + i] = (unsigned char)(b >> (8 * i));
    fwrite(record, 1, 16, list);
    count++;
}

static void answer(uint64_t r) { fprintf(answers, "%016llx\n", (unsigned long long)r); }

static int64_t signed_value(int i, uint64_t b) {
    switch (i) {
    case 0: return (int8_t)b;
    case 1: return (int16_t)b;
    case 2: return (int32_t)b;
    default: return (int64_t)b;
    }
}

static uint64_t unsigned_value(int i, uint64_t b) {
    switch (i) {
    case 4: return (uint8_t)b;
    case 5: return (uint16_t)b;
    case 6: return (uint32_t)b;
    default: return b;
    }
}

static void from_integer(int i, int f, uint64_t b) {
    volatile int64_t z = signed_value(i, b);
    volatile uint64_t n = unsigned_value(i, b);
    uint64_t r;
    if (is_signed[i])
        r = f == 0 ? of_half((_Float16)z) : f == 1 ? of_single((float)z) : of_double((double)z);
    else
        r = f == 0 ? of_half((_Float16)n) : f == 1 ? of_single((float)n) : of_double((double)n);
    __float128 x = is_signed[i] ? (__float128)z : (__float128)n;
    if (!nearest(f, x < 0 ? -x : x, r) || (r >= top(f)) != (x < 0)) fail("integer", i, f, b);
    put(FROM_INTEGER, i, f, b);
    answer(r);
}

static uint64_t converted(int from, int to, uint64_t b) {
    if (is_nan(from, b)) return nan_of(to);
    volatile _Float16 h = half_of(b);
    volatile float s = single_of(b);
    volatile double d = double_of(b);
    if (from == 0) return to == 1 ? of_single((float)h) : of_double((double)h);
    if (from == 1) return to == 0 ? of_half((_Float16)s) : of_double((double)s);
    return to == 0 ? of_half((_Float16)d) : of_single((float)d);
}

static uint64_t convert(int from, int to, uint64_t b) {
    uint64_t r = converted(from, to, b), own = b & ones(widths[from]);
    if (!is_nan(from, b)) {
        if ((r >= top(to)) != (own >= top(from))) fail("sign", from, to, b);
        if ((own & (top(from) - 1)) == infinity(from)) {
            if ((r & (top(to) - 1)) != infinity(to)) fail("infinity", from, to, b);
        } else if (!nearest(to, size_of(from, own), r))
            fail("float", from, to, b);
    }
    put(CONVERT, from, to, b);
    answer(r);
    return r;
}

static void widen(int from, int to, uint64_t b) {
    uint64_t r = is_signed[from] ? (uint64_t)signed_value(from, b) : unsigned_value(from, b);
    put(WIDEN, from, to, b);
    answer(r & ones(bits[to]));
}

static void multiply(int k, uint64_t b) {
    int64_t r;
    put(MULTIPLY, 0, k, b);
    if (__builtin_mul_overflow((int64_t)b, factors[k], &r))
        fprintf(answers, "too large\n");
    else
        answer((uint64_t)r);
}

static void divide(int k, uint64_t b) {
    int64_t z = (int64_t)b, q = z / factors[k];
    if (z % factors[k] < 0) q--;
    put(DIVIDE, 0, k, b);
    answer((uint64_t)q);
}

/* ---- (1) RFC 8949, "Concise Binary Object Representation (CBOR)", Appendix A: the text, and the bytes after the
 * initial f9, fa or fb */

static const struct { const char *text; int format; uint64_t pattern; } examples[] = {
    {"0.0", 0, 0x0000},
    {"-0.0", 0, 0x8000},
    {"1.0", 0, 0x3c00},
    {"1.1", 2, 0x3ff199999999999a},
    {"1.5", 0, 0x3e00},
    {"65504.0", 0, 0x7bff},
    {"100000.0", 1, 0x47c35000},
    {"3.4028234663852886e+38", 1, 0x7f7fffff},
    {"1.0e+300", 2, 0x7e37e43c8800759c},
    {"5.960464477539063e-8", 0, 0x0001},
    {"0.00006103515625", 0, 0x0400},
    {"-4.0", 0, 0xc400},
    {"-4.1", 2, 0xc010666666666666},
    {"inf", 0, 0x7c00},
    {"nan", 0, 0x7e00},
    {"-inf", 0, 0xfc00},
    {"inf", 1, 0x7f800000},
    {"nan", 1, 0x7fc00000},
    {"-inf", 1, 0xff800000},
    {"inf", 2, 0x7ff0000000000000},
    {"nan", 2, 0x7ff8000000000000},
    {"-inf", 2, 0xfff0000000000000},
};

static void rfc_8949(void) {
    for (size_t i = 0; i < sizeof examples / sizeof *examples; i++) {
        int f = examples[i].format;
        uint64_t b = examples[i].pattern, d = of_double(strtod(examples[i].text, NULL));
        if (is_nan(2, d) ? !is_nan(f, b) : (f == 2 ? b : converted(f, 2, b)) != d) fail(examples[i].text, f, 2, b);
        for (int g = f + 1; g < 3; g++)
            if (convert(g, f, convert(f, g, b)) != b) fail("there and back", f, g, b);
        for (int g = 0; g < f; g++) convert(f, g, b);
    }
}

/* ---- (2) */

static void both(int i, int f, uint64_t n) {
    if (n <= ones(bits[i] - is_signed[i])) from_integer(i, f, n);
    if (is_signed[i] && n <= (uint64_t)1 << (bits[i] - 1)) from_integer(i, f, (0 - n) & ones(bits[i]));
}

static void beside(int i, int f, uint64_t n) {
    both(i, f, n - 1);
    both(i, f, n);
    both(i, f, n + 1);
}

static void integers(int i, int f) {
    int p = digits[f];
    from_integer(i, f, 0);
    from_integer(i, f, ones(bits[i]));
    for (int k = 1; k < bits[i]; k++) {
        if (f > 0 || k < 18 || k > 61) beside(i, f, (uint64_t)1 << k);
        if (k < p || (f == 0 && k > 16)) continue;
        /* 2m + 1 halves of the last digit's weight: m has p digits */
        uint64_t first = (uint64_t)1 << (p - 1), m = first + next() % first;
        beside(i, f, (2 * m + 1) << (k - p));
        beside(i, f, (2 * (m ^ 1) + 1) << (k - p));
    }
    if (f == 0 && bits[i] >= 32) beside(i, f, 65519);
    for (int k = 0; k < 6; k++) from_integer(i, f, next() >> (k * 8 % 64));
}

/* ---- (3) to (5) */

static void signs(int from, int to, uint64_t b) {
    convert(from, to, b);
    convert(from, to, b + top(from));
}

static void specials(int from, int to) {
    uint64_t quiet = (uint64_t)1 << (digits[from] - 2), inf = infinity(from);
    signs(from, to, 0);
    signs(from, to, inf);
    signs(from, to, inf + 1);
    signs(from, to, inf + quiet - 1);
    signs(from, to, inf + quiet);
    signs(from, to, inf + quiet + 1);
    signs(from, to, inf + 2 * quiet - 1);
    signs(from, to, inf + 1 + next() % (2 * quiet - 1));
    signs(from, to, 1);
    signs(from, to, inf - 1);
    for (int k = 0; k < 24; k++) convert(from, to, next());
}

/* the incoming pattern of the target's number r and, with half, of the midpoint to r + 1 */
static uint64_t source(int from, int to, uint64_t r, int half) {
    __float128 x = size_of(to, r);
    if (half) x = (x + size_of(to, r + 1)) / 2;
    return from == 1 ? of_single((float)x) : of_double((double)x);
}

static void around(int from, int to, uint64_t b) {
    uint64_t sign = next() % 2 ? top(from) : 0;
    convert(from, to, sign + b - 1);
    convert(from, to, sign + b);
    convert(from, to, sign + b + 1);
}

static void narrower(int from, int to) {
    uint64_t h = (uint64_t)1 << (digits[to] - 1), inf = infinity(to);
    specials(from, to);
    around(from, to, source(from, to, 0, 1));
    for (int k = 0; k < digits[to]; k++) {
        uint64_t r = (uint64_t)1 << k;
        r += next() % r;
        around(from, to, source(from, to, r, 0));
        around(from, to, source(from, to, r, 1));
        around(from, to, source(from, to, r ^ 1, 1));
    }
    for (uint64_t r = h; r < inf; r += h) {
        uint64_t m = r + next() % h;
        around(from, to, source(from, to, m, 1));
        if (to == 0) around(from, to, source(from, to, m ^ 1, 1));
        if (to == 0 || next() % 4 == 0) around(from, to, source(from, to, r, 0));
    }
    around(from, to, source(from, to, inf - 1, 0));
    around(from, to, source(from, to, inf - 1, 1));
    around(from, to, source(from, to, inf - 2, 1));
    for (int k = 0; k < 24; k++) convert(from, to, source(from, to, next() % inf, 0) + next() % 65536);
}

static void wider(int from, int to) {
    uint64_t h = (uint64_t)1 << (digits[from] - 1), inf = infinity(from);
    specials(from, to);
    for (int k = 1; k < widths[from] - 1; k++) around(from, to, (uint64_t)1 << k);
    for (uint64_t r = h; r < inf; r += h) convert(from, to, (next() % 2 ? top(from) : 0) + r + next() % h);
}

/* ---- (6) and (7) */

static void times(int k) {
    int64_t limit = INT64_MAX / factors[k];
    for (int64_t d = -3; d <= 3; d++) {
        multiply(k, (uint64_t)(limit + d));
        multiply(k, (uint64_t)(-limit + d));
        multiply(k, (uint64_t)d);
        multiply(k, (uint64_t)INT64_MAX + (uint64_t)d);
        divide(k, (uint64_t)d);
        divide(k, (uint64_t)INT64_MAX + (uint64_t)d);
        for (int64_t m = 1; m < 1000000; m *= 99) {
            divide(k, (uint64_t)(m * factors[k] + d));
            divide(k, (uint64_t)(-m * factors[k] + d));
        }
    }
    for (int j = 0; j < 64; j++) {
        multiply(k, (uint64_t)1 << j);
        multiply(k, next() >> j);
        divide(k, next() >> j);
        divide(k, ~(next() >> j));
    }
}

static void kinds(void) {
    for (int i = 0; i < 8; i++)
        for (int j = 0; j < 8; j++) {
            if (bits[i] >= bits[j] || (is_signed[i] && !is_signed[j])) continue;
            uint64_t half = (uint64_t)1 << (bits[i] - 1);
            uint64_t b[] = {0, 1, half - 1, half, half + 1, ones(bits[i]) - 1, ones(bits[i])};
            for (size_t k = 0; k < sizeof b / sizeof *b; k++) widen(i, j, b[k]);
            for (int k = 0; k < 4; k++) widen(i, j, next());
        }
}

int main(int argc, char **argv) {
    if (argc != 3 || !(list = fopen(argv[1], "wb")) || !(answers = fopen(argv[2], "wb"))) return 2;
    rfc_8949();
    for (int i = 0; i < 8; i++)
        for (int f = 0; f < 3; f++) integers(i, f);
    narrower(1, 0);
    narrower(2, 0);
    narrower(2, 1);
    wider(0, 1);
    wider(0, 2);
    wider(1, 2);
    times(0);
    times(1);
    kinds();
    fprintf(stderr, "%lu conversions\n", count);
    return fclose(list) || fclose(answers) || count > 3 * 4096;
}
