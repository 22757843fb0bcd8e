/* The rules in plain C, by the level-by-level machines and direct loops, to have a cost to count against. */
#include "plain.h"
#include <math.h>
#include <stdlib.h>

/* THE CURVE */

uint64_t plain_deposit(uint64_t source, uint64_t mask) {
    uint64_t result = 0;
    for (; source && mask; source >>= 1, mask &= mask - 1)
        if (source & 1)
            result |= mask & (0 - mask);
    return result;
}

/* entry [s][quadrant] is 4 * (next state) + digit; from [s][digit] back to 4 * (next state) + quadrant */
static const uint8_t forth_2d[4][4] = {{4, 1, 15, 2}, {0, 11, 5, 6}, {10, 7, 9, 12}, {14, 13, 3, 8}};
static const uint8_t back_2d[4][4] = {{4, 1, 3, 14}, {0, 6, 7, 9}, {15, 10, 8, 5}, {11, 13, 12, 2}};

/* entry [s][octant] is 8 * (next state) + digit; from [s][digit] back to 8 * (next state) + octant */
static const uint8_t forth_3d[12][8] = {
    {48, 33, 27, 34, 47, 78, 28, 77}, {66, 29, 51, 52, 65, 30, 72, 63}, {76, 95, 75, 24, 53, 54, 82, 81},
    {18, 3, 17, 80, 61, 4, 62, 15},   {0, 59, 71, 60, 49, 50, 86, 85},  {84, 83, 5, 90, 79, 56, 6, 89},
    {32, 23, 1, 94, 11, 12, 2, 93},   {42, 41, 13, 14, 35, 88, 36, 31}, {92, 37, 87, 38, 91, 74, 8, 73},
    {46, 45, 9, 10, 7, 20, 64, 19},   {70, 25, 39, 16, 69, 26, 44, 43}, {22, 55, 21, 68, 57, 40, 58, 67},
};
static const uint8_t back_3d[12][8] = {
    {48, 33, 35, 26, 30, 79, 77, 44}, {78, 68, 64, 50, 51, 25, 29, 63}, {27, 87, 86, 74, 72, 52, 53, 89},
    {83, 18, 16, 1, 5, 60, 62, 15},   {0, 52, 53, 57, 59, 87, 86, 66},  {61, 95, 91, 81, 80, 2, 6, 76},
    {32, 2, 6, 12, 13, 95, 91, 17},   {93, 41, 40, 36, 38, 10, 11, 31}, {14, 79, 77, 92, 88, 33, 35, 82},
    {70, 10, 11, 23, 21, 41, 40, 4},  {19, 25, 29, 47, 46, 68, 64, 34}, {45, 60, 62, 71, 67, 18, 16, 49},
};

static uint64_t walk_2d(uint64_t x, uint64_t y, uint32_t order) {
    uint64_t index = 0;
    uint32_t state = 0;
    for (uint32_t level = order; level-- > 0;) {
        uint32_t step = forth_2d[state][2 * (x >> level & 1) + (y >> level & 1)];
        index = 4 * index + step % 4;
        state = step / 4;
    }
    return index;
}

static uint64_t walk_3d(uint64_t x, uint64_t y, uint64_t z, uint32_t order) {
    uint64_t index = 0;
    uint32_t state = 0;
    for (uint32_t level = order; level-- > 0;) {
        uint32_t step = forth_3d[state][4 * (x >> level & 1) + 2 * (y >> level & 1) + (z >> level & 1)];
        index = 8 * index + step % 8;
        state = step / 8;
    }
    return index;
}

uint32_t plain_encode_2d(uint64_t x, uint64_t y, uint32_t order, uint64_t *index) {
    *index = 0;
    if (order > 32)
        return 1;
    if ((x | y) >> order)
        return 2;
    *index = walk_2d(x, y, order);
    return 0;
}

uint32_t plain_encode_3d(uint64_t x, uint64_t y, uint64_t z, uint32_t order, uint64_t *index) {
    *index = 0;
    if (order > 21)
        return 1;
    if ((x | y | z) >> order)
        return 2;
    *index = walk_3d(x, y, z, order);
    return 0;
}

uint32_t plain_decode_2d(uint64_t index, uint32_t order, uint64_t *x, uint64_t *y) {
    uint64_t a = 0, b = 0;
    uint32_t state = 0;
    *x = *y = 0;
    if (order > 32)
        return 1;
    if (index >> order >> order)
        return 3;
    for (uint32_t level = order; level-- > 0;) {
        uint32_t step = back_2d[state][index >> (2 * level) & 3];
        a = 2 * a + (step >> 1 & 1);
        b = 2 * b + (step & 1);
        state = step / 4;
    }
    *x = a;
    *y = b;
    return 0;
}

uint32_t plain_decode_3d(uint64_t index, uint32_t order, uint64_t *x, uint64_t *y, uint64_t *z) {
    uint64_t a = 0, b = 0, c = 0;
    uint32_t state = 0;
    *x = *y = *z = 0;
    if (order > 21)
        return 1;
    if (index >> (3 * order))
        return 3;
    for (uint32_t level = order; level-- > 0;) {
        uint32_t step = back_3d[state][index >> (3 * level) & 7];
        a = 2 * a + (step >> 2 & 1);
        b = 2 * b + (step >> 1 & 1);
        c = 2 * c + (step & 1);
        state = step / 8;
    }
    *x = a;
    *y = b;
    *z = c;
    return 0;
}

/* AXES, CELLS AND POINTS */

struct axis {
    double low, factor; /* factor 0 where the axis is flat */
};

static int unfit(double value) { return !(fabs(value) <= 1048576); }

static int thin(double width) { return width > 0 && width < 0x1p-20; }

static struct axis make_axis(double low, double high, uint32_t order) {
    double width = high - low, n = (double)(UINT64_C(1) << order);
    struct axis axis = {low, 0};
    if (width > 0)
        for (axis.factor = n / width; n <= width * axis.factor;)
            axis.factor = nextafter(axis.factor, 0);
    return axis;
}

static uint64_t cell_on(struct axis axis, double value) { return (uint64_t)(int64_t)(axis.factor * (value - axis.low)); }

uint32_t plain_cell(double low, double high, uint32_t order, double value, uint64_t *cell) {
    *cell = 0;
    if (order > 32)
        return 1;
    if (unfit(low) || unfit(high))
        return 6;
    if (low > high)
        return 8;
    if (thin(high - low))
        return 7;
    if (unfit(value))
        return 6;
    if (value < low || value > high)
        return 8;
    *cell = cell_on(make_axis(low, high, order), value);
    return 0;
}

/* low and high of the values, or 6 where one is unfit */
static uint32_t extent(const double *values, size_t n, double *low, double *high) {
    *low = *high = values[0];
    for (size_t i = 0; i < n; i++) {
        if (unfit(values[i]))
            return 6;
        if (values[i] < *low)
            *low = values[i];
        if (values[i] > *high)
            *high = values[i];
    }
    return 0;
}

uint32_t plain_index_2d(const double *xs, size_t xs_length, const double *ys, size_t ys_length, uint32_t order,
                        uint64_t *indices, size_t indices_length) {
    double low[2], high[2];
    if (order > 32)
        return 1;
    if (xs_length == 0)
        return 4;
    if (ys_length != xs_length || indices_length != xs_length)
        return 5;
    if (extent(xs, xs_length, &low[0], &high[0]) || extent(ys, xs_length, &low[1], &high[1]))
        return 6;
    if (thin(high[0] - low[0]) || thin(high[1] - low[1]))
        return 7;
    struct axis x = make_axis(low[0], high[0], order), y = make_axis(low[1], high[1], order);
    for (size_t i = 0; i < xs_length; i++)
        indices[i] = walk_2d(cell_on(x, xs[i]), cell_on(y, ys[i]), order);
    return 0;
}

uint32_t plain_index_3d(const double *xs, size_t xs_length, const double *ys, size_t ys_length, const double *zs,
                        size_t zs_length, uint32_t order, uint64_t *indices, size_t indices_length) {
    double low[3], high[3];
    if (order > 21)
        return 1;
    if (xs_length == 0)
        return 4;
    if (ys_length != xs_length || zs_length != xs_length || indices_length != xs_length)
        return 5;
    if (extent(xs, xs_length, &low[0], &high[0]) || extent(ys, xs_length, &low[1], &high[1]) ||
        extent(zs, xs_length, &low[2], &high[2]))
        return 6;
    if (thin(high[0] - low[0]) || thin(high[1] - low[1]) || thin(high[2] - low[2]))
        return 7;
    struct axis x = make_axis(low[0], high[0], order), y = make_axis(low[1], high[1], order),
                z = make_axis(low[2], high[2], order);
    for (size_t i = 0; i < xs_length; i++)
        indices[i] = walk_3d(cell_on(x, xs[i]), cell_on(y, ys[i]), cell_on(z, zs[i]), order);
    return 0;
}

uint32_t plain_index_2d_in(double xlow, double xhigh, double ylow, double yhigh, const double *xs, size_t xs_length,
                           const double *ys, size_t ys_length, uint32_t order, uint64_t *indices, size_t indices_length) {
    if (order > 32)
        return 1;
    if (xs_length == 0)
        return 4;
    if (ys_length != xs_length || indices_length != xs_length)
        return 5;
    if (unfit(xlow) || unfit(xhigh) || unfit(ylow) || unfit(yhigh))
        return 6;
    if (xlow > xhigh || ylow > yhigh)
        return 8;
    if (thin(xhigh - xlow) || thin(yhigh - ylow))
        return 7;
    for (size_t i = 0; i < xs_length; i++)
        if (unfit(xs[i]) || unfit(ys[i]))
            return 6;
    for (size_t i = 0; i < xs_length; i++)
        if (xs[i] < xlow || xs[i] > xhigh || ys[i] < ylow || ys[i] > yhigh)
            return 8;
    struct axis x = make_axis(xlow, xhigh, order), y = make_axis(ylow, yhigh, order);
    for (size_t i = 0; i < xs_length; i++)
        indices[i] = walk_2d(cell_on(x, xs[i]), cell_on(y, ys[i]), order);
    return 0;
}

/* HALVINGS */

enum { NOT_CUT = 0xffffffff };

struct halving {
    uint32_t edition, axes, width, height;
    const uint64_t *weights;
    uint32_t *splits, *ids;
};

struct block {
    uint32_t from[3], to[3];
};

static void fill_ids(const struct halving *h, const struct block *b, uint32_t id) {
    for (uint32_t z = b->from[2]; z < b->to[2]; z++)
        for (uint32_t y = b->from[1]; y < b->to[1]; y++)
            for (uint32_t x = b->from[0]; x < b->to[0]; x++)
                h->ids[x + h->width * (y + h->height * z)] = id;
}

static void not_cut(const struct halving *h, uint32_t node, uint32_t depth) {
    if (depth == 0)
        return;
    h->splits[node - 1] = NOT_CUT;
    not_cut(h, 2 * node, depth - 1);
    not_cut(h, 2 * node + 1, depth - 1);
}

/* the weight of each line along the axis, and of the block */
static uint64_t line_sums(const struct halving *h, const struct block *b, uint32_t axis, uint64_t *sums) {
    uint64_t total = 0;
    uint32_t at[3];
    for (uint32_t j = b->from[axis]; j < b->to[axis]; j++)
        sums[j - b->from[axis]] = 0;
    for (at[2] = b->from[2]; at[2] < b->to[2]; at[2]++)
        for (at[1] = b->from[1]; at[1] < b->to[1]; at[1]++)
            for (at[0] = b->from[0]; at[0] < b->to[0]; at[0]++) {
                uint64_t weight = h->weights[at[0] + h->width * (at[1] + h->height * at[2])];
                sums[at[axis] - b->from[axis]] += weight;
                total += weight;
            }
    return total;
}

static uint32_t median(const uint64_t *sums, uint32_t lines, uint64_t total, uint32_t edition) {
    double product = (double)total / 2 * (1 - 0.01);
    uint64_t lo = (uint64_t)(int64_t)product;
    if (edition == 2 && (double)lo < product)
        lo++;
    uint64_t hi = (uint64_t)(int64_t)((double)total / 2 * (1 + 0.01));
    uint64_t sum = 0;
    for (uint32_t j = 0; j < lines; j++) {
        if (sum >= lo)
            return sum <= hi ? j : j - 1;
        sum += sums[j];
    }
    return lines - 1;
}

static void halve(const struct halving *h, struct block b, uint32_t axis, uint32_t node, uint32_t id, uint32_t depth) {
    uint64_t sums[1024];
    if (depth == 0) {
        fill_ids(h, &b, id);
        return;
    }
    if (b.from[axis] == b.to[axis]) {
        not_cut(h, node, depth);
        return;
    }
    uint64_t total = line_sums(h, &b, axis, sums);
    uint32_t cut = b.from[axis] + median(sums, b.to[axis] - b.from[axis], total, h->edition);
    uint32_t next = (axis + 1) % h->axes;
    struct block left = b, right = b;
    left.to[axis] = right.from[axis] = cut;
    h->splits[node - 1] = cut;
    halve(h, left, next, 2 * node, 2 * id, depth - 1);
    halve(h, right, next, 2 * node + 1, 2 * id + 1, depth - 1);
}

static uint32_t rcb(uint32_t edition, uint32_t axes, const uint32_t *sides, uint32_t first, uint32_t depth,
                    const uint64_t *weights, size_t weights_length, uint32_t *splits, size_t splits_length, uint32_t *ids,
                    size_t ids_length) {
    uint64_t cells = 1;
    struct block whole = {{0, 0, 0}, {1, 1, 1}};
    if (edition != 1 && edition != 2)
        return 13;
    if (first >= axes)
        return 14;
    for (uint32_t a = 0; a < axes; a++) {
        if (sides[a] == 0 || sides[a] > 1024)
            return 9;
        cells *= sides[a];
        whole.to[a] = sides[a];
    }
    if (cells > 65536)
        return 9;
    if (depth > 12)
        return 10;
    if (weights_length != cells || ids_length != cells || splits_length != (UINT64_C(1) << depth) - 1)
        return 5;
    for (size_t i = 0; i < cells; i++)
        if (weights[i] > 16777215)
            return 11;
    struct halving h = {edition, axes, sides[0], sides[1], weights, splits, ids};
    halve(&h, whole, first, 1, 0, depth);
    return 0;
}

uint32_t plain_rcb_2d(uint32_t width, uint32_t height, uint32_t depth, const uint64_t *weights, size_t weights_length,
                      uint32_t *splits, size_t splits_length, uint32_t *ids, size_t ids_length) {
    uint32_t sides[2] = {width, height};
    return rcb(1, 2, sides, 1, depth, weights, weights_length, splits, splits_length, ids, ids_length);
}

uint32_t plain_rcb_3d(uint32_t width, uint32_t height, uint32_t layers, uint32_t depth, const uint64_t *weights,
                      size_t weights_length, uint32_t *splits, size_t splits_length, uint32_t *ids, size_t ids_length) {
    uint32_t sides[3] = {width, height, layers};
    return rcb(1, 3, sides, 1, depth, weights, weights_length, splits, splits_length, ids, ids_length);
}

uint32_t plain_halve_2d(uint32_t edition, uint32_t width, uint32_t height, uint32_t first, uint32_t depth,
                        const uint64_t *weights, size_t weights_length, uint32_t *splits, size_t splits_length,
                        uint32_t *ids, size_t ids_length) {
    uint32_t sides[2] = {width, height};
    return rcb(edition, 2, sides, first, depth, weights, weights_length, splits, splits_length, ids, ids_length);
}

/* PARTS, by the C library's qsort of pairs */

struct point {
    uint64_t index;
    uint32_t number;
};

static int before(const void *left, const void *right) {
    const struct point *p = left, *q = right;
    if (p->index != q->index)
        return p->index < q->index ? -1 : 1;
    return p->number < q->number ? -1 : p->number > q->number;
}

uint32_t plain_parts(uint32_t n, const uint64_t *indices, size_t indices_length, const uint64_t *weights,
                     size_t weights_length, uint32_t *parts, size_t parts_length, uint32_t *order, size_t order_length) {
    static struct point points[65536];
    uint64_t all = 0, sum = 0;
    uint32_t part = 0;
    if (n == 0 || n > 1024 || indices_length > 65536)
        return 12;
    if (indices_length == 0)
        return 4;
    if (weights_length != indices_length || parts_length != indices_length || order_length != indices_length)
        return 5;
    for (size_t i = 0; i < indices_length; i++)
        if (weights[i] > 16777215)
            return 11;
    for (uint32_t i = 0; i < indices_length; i++) {
        points[i].index = indices[i];
        points[i].number = i;
        all += weights[i];
    }
    qsort(points, indices_length, sizeof *points, before);
    for (size_t i = 0; i < indices_length; i++) {
        if (i > 0 && points[i].index != points[i - 1].index)
            while (part + 1 < n && n * sum >= (part + 1) * all)
                part++;
        order[i] = points[i].number;
        parts[points[i].number] = part;
        sum += weights[points[i].number];
    }
    return 0;
}
