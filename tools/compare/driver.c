/* driver SEED COUNT: random requests to the static library, good and bad.
 *
 * Of a good request the library's answer is printed behind the request, for `oracle compare` to hold against coupe's; at orders
 * 31 and 32, where coupe's loses its top digits, it is held here against the rules in plain C (tools/count.d/plain.c), an index
 * level by level. A bad one is held here against the table of refusals, written out below a second time: its number, results 0,
 * slices untouched.
 * Decoders are held to give back the cell and the index. Every slice lies between guards. What is found is said on standard
 * error, with the first differences; the exit status is 1 where there is one. */
#include "draw.h"
#include "plain.h"
#include "skarvolm.h"
#include <inttypes.h>
#include <math.h>
#include <stdio.h>
#include <stdlib.h>
#include <string.h>

enum { GUARD = 8, CELLS = 65536, POINTS = 512, NODES = 4095 };
enum { TOP_2D = 32, TOP_3D = 21, TOP_OF_COUPE = 30 };

static uint64_t refused, trips, levels, placed, sound, faults;

static uint64_t below(uint64_t n) { return n ? draw() % n : 0; }

static void fault(const char *what, uint64_t a, uint64_t b) {
    if (faults++ < 20)
        fprintf(stderr, "differs: %s: %" PRIu64 ", wanted %" PRIu64 "\n", what, a, b);
}

static void want(const char *what, uint64_t is, uint64_t should) {
    if (is != should)
        fault(what, is, should);
}

static uint64_t bits(double x) {
    uint64_t b;
    memcpy(&b, &x, 8);
    return b;
}

/* SLICES BETWEEN GUARDS */

static uint64_t wide[CELLS + 2 * GUARD];
static uint32_t narrow[2][CELLS + 2 * GUARD];

static uint64_t *wide_slice(size_t n) {
    for (size_t i = 0; i < n + 2 * GUARD; i++)
        wide[i] = 0x7777777777777777u;
    return wide + GUARD;
}

static uint32_t *narrow_slice(int k, size_t n) {
    for (size_t i = 0; i < n + 2 * GUARD; i++)
        narrow[k][i] = 0x77777777u;
    return narrow[k] + GUARD;
}

/* the guards hold, and, after a refusal, all of the slice */
static void wide_kept(size_t n, int whole) {
    for (size_t i = 0; i < n + 2 * GUARD; i++)
        if (whole || i < GUARD || i >= n + GUARD)
            want("a u64 slice or its guard", wide[i], 0x7777777777777777u);
    sound++;
}

static void narrow_kept(int k, size_t n, int whole) {
    for (size_t i = 0; i < n + 2 * GUARD; i++)
        if (whole || i < GUARD || i >= n + GUARD)
            want("a u32 slice or its guard", narrow[k][i], 0x77777777u);
    sound++;
}

/* THE CURVE */

static uint64_t coordinate(uint32_t order) {
    switch (below(8)) {
    case 0: return 0;
    case 1: return order < 64 ? (UINT64_C(1) << order) - 1 : UINT64_MAX;
    case 2: return order < 64 ? UINT64_C(1) << order : UINT64_MAX - 1;
    case 3: return draw();
    default: return order < 64 ? below(UINT64_C(1) << order) : draw();
    }
}

static uint32_t some_order(uint32_t top) {
    uint64_t k = below(40);
    return k == 0 ? (uint32_t)draw() : k == 1 ? top + 1 : (uint32_t)below(top + 1);
}

static int over(uint64_t x, uint32_t order) { return x >> order != 0; }

/* the index of a cell by the level-by-level machine */
static uint64_t level_by_level(uint64_t x, uint64_t y, uint32_t order) {
    uint64_t index;
    plain_encode_2d(x, y, order, &index);
    return index;
}

/* an order of 2D: one in four, and more, is 31 or 32 */
static uint32_t order_2d(void) { return below(4) ? some_order(TOP_2D) : TOP_OF_COUPE + 1 + (uint32_t)below(2); }

static void encode_2d(void) {
    uint32_t order = order_2d(), o = order > TOP_2D ? TOP_2D : order;
    uint64_t x = coordinate(o), y = coordinate(o), i = 77, u = 77, v = 77;
    uint32_t number = skarvolm_encode_2d(x, y, order, &i);
    uint32_t should = order > TOP_2D ? 1 : over(x, order) || over(y, order) ? 2 : 0;
    want("encode_2d's number", number, should);
    if (should) {
        want("encode_2d's index", i, 0);
        refused++;
        return;
    }
    if (order > TOP_OF_COUPE) {
        want("encode_2d's index, level by level", i, level_by_level(x, y, order));
        levels++;
    } else
        printf("encode2 %" PRIu64 " %" PRIu64 " %u = %" PRIu64 "\n", x, y, order, i);
    want("decode_2d's number", skarvolm_decode_2d(i, order, &u, &v), 0);
    want("decode_2d's x", u, x);
    want("decode_2d's y", v, y);
    trips++;
}

static void encode_3d(void) {
    uint32_t order = some_order(TOP_3D);
    uint32_t o = order > 31 ? 31 : order;
    uint64_t x = coordinate(o), y = coordinate(o), z = coordinate(o), i = 77, u = 77, v = 77, w = 77;
    uint32_t number = skarvolm_encode_3d(x, y, z, order, &i);
    uint32_t should = order > TOP_3D ? 1 : over(x, order) || over(y, order) || over(z, order) ? 2 : 0;
    want("encode_3d's number", number, should);
    if (should) {
        want("encode_3d's index", i, 0);
        refused++;
        return;
    }
    printf("encode3 %" PRIu64 " %" PRIu64 " %" PRIu64 " %u = %" PRIu64 "\n", x, y, z, order, i);
    want("decode_3d's number", skarvolm_decode_3d(i, order, &u, &v, &w), 0);
    want("decode_3d's x", u, x);
    want("decode_3d's y", v, y);
    want("decode_3d's z", w, z);
    trips++;
}

/* an index first, good or bad */
static void decode(int d) {
    uint32_t top = d == 2 ? TOP_2D : TOP_3D, order = d == 2 ? order_2d() : some_order(top);
    uint64_t i = below(16) == 0 ? draw() : coordinate(order > top ? 63 : d * order), c[3] = {77, 77, 77}, back = 77;
    uint32_t number = d == 2 ? skarvolm_decode_2d(i, order, &c[0], &c[1]) : skarvolm_decode_3d(i, order, &c[0], &c[1], &c[2]);
    uint32_t should = order > top ? 1 : d * order < 64 && i >> (d * order) != 0 ? 3 : 0;
    want("a decoder's number", number, should);
    if (should) {
        for (int k = 0; k < d; k++)
            want("a decoder's coordinate", c[k], 0);
        refused++;
        return;
    }
    want("an encoder's number", d == 2 ? skarvolm_encode_2d(c[0], c[1], order, &back) : skarvolm_encode_3d(c[0], c[1], c[2], order, &back), 0);
    want("the index again", back, i);
    trips++;
    if (d == 2 && order > TOP_OF_COUPE) {
        want("a decoded cell's index, level by level", level_by_level(c[0], c[1], order), i);
        levels++;
    }
}

static void deposit(void) {
    static const uint64_t masks[] = {0, ~UINT64_C(0), 0xaaaaaaaaaaaaaaaau, 0x5555555555555555u, 0x9249249249249249u, 0x2492492492492492u, 0x4924924924924924u};
    uint64_t k = below(16), source = below(4) ? draw() : draw() >> below(64), mask = k < 7 ? masks[k] : draw() & draw();
    printf("deposit %" PRIu64 " %" PRIu64 " = %" PRIu64 "\n", source, mask, skarvolm_deposit(source, mask));
}

/* AXES AND CELLS */

static const double limit = 1048576.0;
static const double thin = 9.5367431640625e-07;

static double some_value(void) {
    switch (below(12)) {
    case 0: return (double)below(64) - 32;
    case 1: return ldexp((double)below(1 << 20), -(int)below(40));
    case 2: return -ldexp((double)below(1 << 20), -(int)below(40));
    case 3: return below(2) ? limit : -limit;
    case 4: return below(2) ? 0.0 : -0.0;
    case 5: return 23.98 + 0.01 * (double)below(8);
    default: return ((double)(draw() >> 11) * 0x1p-53 * 2 - 1) * ldexp(1, (int)below(21));
    }
}

static double odd_value(void) {
    static const double odd[] = {NAN, -NAN, INFINITY, -INFINITY, 1048576.0000000002, -1048577, 1e300};
    return odd[below(7)];
}

static int unfit(double x) { return !(x >= -limit && x <= limit); }

static uint32_t axis_number(double low, double high, uint32_t order) {
    if (order > TOP_2D) return 1;
    if (unfit(low) || unfit(high)) return 6;
    if (low > high) return 8;
    double width = high - low;
    return width > 0 && width < thin ? 7 : 0;
}

static double width_above(double low) {
    switch (below(8)) {
    case 0: return low;
    case 1: return nextafter(low, INFINITY);
    case 2: return low + thin;
    case 3: return low + thin * (1 + 0x1p-52 * (double)below(8));
    case 4: return low + ldexp(1 + 0x1p-52 * (double)below(1 << 12), (int)below(36) - 18);
    case 5: return low + (double)(1 + below(1000));
    default: return some_value();
    }
}

static void cell(void) {
    double low = below(50) ? some_value() : odd_value();
    double high = below(50) ? width_above(low) : odd_value();
    uint32_t order = order_2d();
    double value;
    switch (below(8)) {
    case 0: value = low; break;
    case 1: value = high; break;
    case 2: value = below(20) ? some_value() : odd_value(); break;
    case 3: value = nextafter(high, low); break;
    default: { /* on a border, or one f64 beside it */
        uint32_t o = order > TOP_2D ? TOP_2D : order;
        value = low + (high - low) * ((double)below(UINT64_C(1) << o) / ldexp(1, (int)o));
        if (below(3) == 0) value = nextafter(value, below(2) ? low : high);
    }
    }
    uint64_t c = 77;
    uint32_t number = skarvolm_cell(low, high, order, value, &c);
    uint32_t should = axis_number(low, high, order);
    if (!should) should = unfit(value) ? 6 : value < low || value > high ? 8 : 0;
    want("cell's number", number, should);
    if (should) {
        want("cell's cell", c, 0);
        refused++;
        return;
    }
    if (c >> order) fault("a cell of 2^order or more", c, order);
    if (order > TOP_OF_COUPE) {
        uint64_t by_rule;
        plain_cell(low, high, order, value, &by_rule);
        want("cell's cell, by the rule", c, by_rule);
        placed++;
    } else
        printf("cell %" PRIu64 " %" PRIu64 " %u %" PRIu64 " = %" PRIu64 "\n", bits(low), bits(high), order, bits(value), c);
}

/* POINTS: each index is the index of the cells on the axes from the lowest to the highest coordinate */

static double points[3][POINTS];

static void index_all(int d) {
    size_t n = below(30) == 0 ? 0 : 1 + below(below(10) ? 20 : POINTS), len[3], room;
    uint32_t top = d == 2 ? TOP_2D : TOP_3D, order = some_order(top);
    double around = some_value();
    int close = below(6) == 0, bad = below(12) == 0;
    for (int a = 0; a < d; a++)
        for (size_t i = 0; i < n; i++)
            points[a][i] = close ? around + thin * 0.25 * (double)below(5) : below(2) ? some_value() : around;
    if (bad && n) points[below(d)][below(n)] = odd_value();
    for (int a = 0; a < 3; a++) len[a] = n;
    room = n;
    if (below(20) == 0) room = n + 1;
    if (n && below(20) == 0) len[1 + below(d - 1)] = n - 1;
    uint64_t *indices = wide_slice(room);
    uint32_t number = d == 2 ? skarvolm_index_2d(points[0], len[0], points[1], len[1], order, indices, room)
                             : skarvolm_index_3d(points[0], len[0], points[1], len[1], points[2], len[2], order, indices, room);
    double low[3], high[3];
    int lengths = room != n, odd = 0, some_thin = 0;
    for (int a = 0; a < d; a++) {
        lengths |= len[a] != n;
        for (size_t i = 0; i < len[a]; i++) odd |= unfit(points[a][i]);
        low[a] = high[a] = n ? points[a][0] : 0;
        for (size_t i = 1; i < n; i++) {
            if (points[a][i] < low[a]) low[a] = points[a][i];
            if (points[a][i] > high[a]) high[a] = points[a][i];
        }
        some_thin |= high[a] - low[a] > 0 && high[a] - low[a] < thin;
    }
    uint32_t should = order > top ? 1 : n == 0 ? 4 : lengths ? 5 : odd ? 6 : some_thin ? 7 : 0;
    want("an index call's number", number, should);
    wide_kept(room, should != 0);
    if (should) {
        refused++;
        return;
    }
    for (size_t i = 0; i < n; i++) {
        uint64_t c[3] = {0, 0, 0}, index = 77;
        for (int a = 0; a < d; a++)
            want("a point's cell", skarvolm_cell(low[a], high[a], order, points[a][i], &c[a]), 0);
        want("a point's encoder", d == 2 ? skarvolm_encode_2d(c[0], c[1], order, &index) : skarvolm_encode_3d(c[0], c[1], c[2], order, &index), 0);
        want("a point's index", indices[i], index);
    }
    trips++;
}

/* HALVINGS */

static uint64_t weights[CELLS + 1];

static uint32_t some_side(uint32_t room) {
    switch (below(6)) {
    case 0: return 1;
    case 1: return (uint32_t)below(3) + 1;
    default: return (uint32_t)below(room) + 1;
    }
}

static void halve(int d, uint32_t room) {
    uint32_t s[3] = {some_side(room), some_side(room), d == 3 ? some_side(room) : 1};
    uint32_t depth = (uint32_t)below(13);
    if (below(20) == 0) depth = 13 + (uint32_t)below(3);
    if (below(20) == 0) s[below(d)] = below(2) ? 0 : 1025;
    uint64_t cells = (uint64_t)s[0] * s[1] * s[2];
    int few = cells <= CELLS;
    size_t n = few ? (size_t)cells : 7, k = (size_t)1 << (depth > 12 ? 12 : depth);
    size_t nw = n, ns = k - 1, ni = n;
    uint64_t kind = below(6), heavy = 0;
    for (size_t i = 0; i < n; i++)
        weights[i] = kind == 0 ? 0 : kind == 1 ? 1 : kind == 2 ? below(3) : kind == 3 ? below(16777216) : kind == 4 ? (below(50) ? 0 : 16777215) : 100 + below(10);
    if (n && below(20) == 0) weights[below(n)] = heavy = 16777216 + below(2) * (draw() >> 8);
    if (below(30) == 0) nw = n ? n - 1 : 1;
    if (below(30) == 0) ns = below(2) ? k : k / 2;
    if (below(30) == 0) ni = n ? n - 1 : 1;
    int sides = !few;
    for (int a = 0; a < d; a++) sides |= s[a] == 0 || s[a] > 1024;
    int over_weight = 0;
    for (size_t i = 0; i < nw; i++) over_weight |= weights[i] > 16777215;
    int lengths = nw != cells || ni != cells || ns != k - 1;
    uint32_t should = sides ? 9 : depth > 12 ? 10 : lengths ? 5 : over_weight ? 11 : 0;
    uint32_t *splits = narrow_slice(0, ns), *ids = narrow_slice(1, ni);
    uint32_t number = d == 2 ? skarvolm_rcb_2d(s[0], s[1], depth, weights, nw, splits, ns, ids, ni)
                             : skarvolm_rcb_3d(s[0], s[1], s[2], depth, weights, nw, splits, ns, ids, ni);
    want("a halving's number", number, should);
    narrow_kept(0, ns, should != 0);
    narrow_kept(1, ni, should != 0);
    if (should) {
        refused++;
        return;
    }
    printf("rcb%d %u %u", d, s[0], s[1]);
    if (d == 3) printf(" %u", s[2]);
    printf(" %u", depth);
    for (size_t i = 0; i < n; i++) printf(" %" PRIu64, weights[i]);
    printf(" =");
    for (size_t i = 0; i < ns; i++) printf(" %u", splits[i]);
    printf(" /");
    for (size_t i = 0; i < n; i++) printf(" %u", ids[i]);
    printf("\n");
}

int main(int argc, char **argv) {
    if (argc != 3) {
        fprintf(stderr, "usage: driver SEED COUNT\n");
        return 2;
    }
    seed = strtoull(argv[1], 0, 10);
    uint64_t count = strtoull(argv[2], 0, 10);
    for (uint64_t i = 0; i < count; i++) {
        switch (below(16)) {
        case 0: case 1: case 2: case 3: encode_2d(); break;
        case 4: case 5: case 6: encode_3d(); break;
        case 7: decode(2); break;
        case 8: decode(3); break;
        case 9: case 10: deposit(); break;
        case 11: case 12: case 13: case 14: cell(); break;
        default:
            switch (below(8)) {
            case 0: index_all(2); break;
            case 1: index_all(3); break;
            case 2: case 3: case 4: halve(2, 12); break;
            case 5: case 6: halve(3, 5); break;
            default:
                if (below(64)) halve(2, 24);
                else if (below(2)) halve(2, 1024);
                else halve(3, 64);
            }
        }
    }
    fprintf(stderr, "at orders 31 and 32, indices level by level: %" PRIu64 ", cells by the rule: %" PRIu64 "\n", levels, placed);
    fprintf(stderr, "refused as it should be: %" PRIu64 "; there and back: %" PRIu64 "; slices between guards: %" PRIu64 "; differences: %" PRIu64 "\n", refused, trips, sound, faults);
    return faults ? 1 : 0;
}
