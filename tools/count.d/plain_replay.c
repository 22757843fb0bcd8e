/* A bench night replayed in plain C: sums that run along, a tree of least weights, and both bounds by products of 192 bits. */
#include "plain.h"
#include <string.h>

enum { TOP_WEIGHT = 16777215, SIDE = 1024, PARTS = 4096 };

typedef unsigned __int128 wide;

/* What is kept from event to event. Part i weighs least[parts + i]; least[n] is the lesser of least[2n] and least[2n + 1]. */
struct night {
    uint64_t all, heaviest_line, heaviest_part, lines[2][SIDE], least[2 * PARTS];
    uint32_t width, parts;
    wide of_99, of_101, of_200; /* their powers, one factor a level */
};

static uint64_t larger(uint64_t a, uint64_t b) { return a > b ? a : b; }
static uint64_t lesser(uint64_t a, uint64_t b) { return a < b ? a : b; }

/* whether a * p is at most b * q */
static int at_most(uint64_t a, wide p, uint64_t b, wide q) {
    wide low = (wide)a * (uint64_t)p, other_low = (wide)b * (uint64_t)q;
    wide high = (wide)a * (uint64_t)(p >> 64) + (low >> 64), other_high = (wide)b * (uint64_t)(q >> 64) + (other_low >> 64);
    return high != other_high ? high < other_high : (uint64_t)low <= (uint64_t)other_low;
}

/* whether 99 200^k w <= 99 101^k T + 200^(k+1) M of the heaviest part, and 101 200^k w + 200^(k+1) M >= 101 99^k T of the
 * lightest */
static int balanced(const struct night *n) {
    uint64_t part = 99 * n->heaviest_part, line = 200 * n->heaviest_line;
    return (part <= line || at_most(part - line, n->of_200, 99 * n->all, n->of_101)) &&
           at_most(101 * n->all, n->of_99, 101 * n->least[1] + line, n->of_200);
}

static void start(struct night *n, uint32_t width, uint32_t depth, const uint64_t *weights, size_t cells) {
    memset(n, 0, sizeof *n);
    n->width = width;
    n->parts = 1u << depth;
    n->of_99 = n->of_101 = n->of_200 = 1;
    for (uint32_t i = 0; i < depth; i++) {
        n->of_99 *= 99;
        n->of_101 *= 101;
        n->of_200 *= 200;
    }
    for (uint32_t i = 0; i < cells; i++) {
        n->all += weights[i];
        n->lines[0][i % width] += weights[i];
        n->lines[1][i / width] += weights[i];
    }
    for (uint32_t i = 0; i < SIDE; i++)
        n->heaviest_line = larger(n->heaviest_line, larger(n->lines[0][i], n->lines[1][i]));
}

/* weighs the parts after a halving */
static void weigh(struct night *n, const uint64_t *weights, const uint32_t *ids, size_t cells) {
    uint64_t *parts = n->least + n->parts;
    memset(parts, 0, n->parts * sizeof *parts);
    n->heaviest_part = 0;
    for (size_t i = 0; i < cells; i++)
        parts[ids[i]] += weights[i];
    for (uint32_t i = 0; i < n->parts; i++)
        n->heaviest_part = larger(n->heaviest_part, parts[i]);
    for (uint32_t i = n->parts - 1; i > 0; i--)
        n->least[i] = lesser(n->least[2 * i], n->least[2 * i + 1]);
}

static void add(struct night *n, uint32_t cell, uint32_t part, uint64_t amount) {
    uint64_t column = n->lines[0][cell % n->width] += amount, row = n->lines[1][cell / n->width] += amount;
    n->all += amount;
    n->heaviest_line = larger(n->heaviest_line, larger(column, row));
    uint32_t at = n->parts + part;
    n->least[at] += amount;
    n->heaviest_part = larger(n->heaviest_part, n->least[at]);
    while (at /= 2) {
        uint64_t least = lesser(n->least[2 * at], n->least[2 * at + 1]);
        if (n->least[at] == least)
            break;
        n->least[at] = least;
    }
}

uint32_t plain_replay_2d(uint32_t width, uint32_t height, uint32_t first, uint32_t depth, uint64_t *weights,
                         size_t weights_length, const uint64_t *cells, size_t cells_length, const uint64_t *amounts,
                         size_t amounts_length, uint32_t *answers, size_t answers_length, uint32_t *splits,
                         size_t splits_length, uint32_t *ids, size_t ids_length) {
    struct night n;
    /* 5 of the events' slices comes where 5 of the weights does */
    if (amounts_length != cells_length || answers_length != cells_length)
        weights_length = 0;
    uint32_t refused = plain_halve_2d(2, width, height, first, depth, weights, weights_length, splits, splits_length, ids,
                                      ids_length);
    if (refused)
        return refused;
    start(&n, width, depth, weights, weights_length);
    weigh(&n, weights, ids, weights_length);
    for (size_t i = 0; i < cells_length; i++) {
        uint64_t cell = cells[i];
        answers[i] = cell >= weights_length ? 20 : amounts[i] > TOP_WEIGHT - weights[cell] ? 11 : 0;
        if (answers[i])
            continue;
        weights[cell] += amounts[i];
        add(&n, (uint32_t)cell, ids[cell], amounts[i]);
        if (!balanced(&n)) {
            plain_halve_2d(2, width, height, first, depth, weights, weights_length, splits, splits_length, ids, ids_length);
            weigh(&n, weights, ids, weights_length);
        }
    }
    return 0;
}
