/* Skarvolm: Hilbert indices of cells and points, parts of points along the curve, and halving of grids by recursive coordinate
 * bisection, proved.
 *
 * Each call tests its own input and returns a number: 0 where it answers, else the number of refusal below. After a refusal
 * every result behind a pointer is 0 and every slice (a pointer and a length) is untouched. Every call ends, none allocates.
 *
 *   0  answered
 *   1  order over 32 (2D, or one axis) or over 21 (3D)
 *   2  a cell coordinate is 2^order or more
 *   3  a decoder's index is 4^order (2D) or 8^order (3D) or more
 *   4  no points: the x slice is empty
 *   5  slice lengths don't fit
 *   6  a coordinate is NaN, infinite, or over 1,048,576 in size
 *   7  an axis is thin: its rounded width is above 0 and below 2^-20
 *   8  low above high, or a value outside low to high
 *   9  a side is 0 or over 1,024, or there are over 65,536 cells
 *  10  depth over 12
 *  11  a weight over 16,777,215
 *  12  a part count of 0 or over 1,024, or over 65,536 points
 *  13  the edition is neither 1 nor 2
 *  14  the first axis is not one of the grid's
 *  20  an event's cell is not in the grid
 *
 * A pointer is not null and points to live memory, a slice to as many elements as its length says (to any aligned address
 * where that is 0), and what is written overlaps nothing else that is passed.
 *
 * An example, which tests/header compiles and runs:
 *
 *     #include "skarvolm.h"
 *     #include <stdio.h>
 *
 *     int main(void) {
 *         uint64_t index, weights[16];
 *         double focal = 24, stop = 2.8;
 *         uint32_t splits[3], ids[16];
 *         if (skarvolm_encode_2d(127, 127, 7, &index) == 0)
 *             printf("cell (127, 127) at order 7 has index %llu\n", (unsigned long long)index);
 *         if (skarvolm_index_2d_in(10, 400, 1, 32, &focal, 1, &stop, 1,
 *                                  SKARVOLM_DEFAULT_ORDER, &index, 1) == 0)
 *             printf("24 mm at f/2.8, of 10 to 400 mm and f/1 to f/32, has index %llu\n", (unsigned long long)index);
 *         for (int i = 0; i < 16; i++)
 *             weights[i] = 1;
 *         if (skarvolm_rcb_2d(4, 4, 2, weights, 16, splits, 3, ids, 16) == 0)
 *             printf("cell (3, 0) lies in part %u\n", ids[3]);
 *         printf("order 33 is refused: %u\n", skarvolm_encode_2d(0, 0, 33, &index));
 *         return 0;
 *     }
 */
#ifndef SKARVOLM_H
#define SKARVOLM_H

#include <stddef.h>
#include <stdint.h>

#ifdef __cplusplus
extern "C" {
#endif

/* The order of the forms that name none, on the command line, in Rust, in Python and in Rattle; a call here names its order. Indices
 * that were stored while it was 12 are of order 12. */
#define SKARVOLM_DEFAULT_ORDER 16

/* The source's bits, lowest first, laid onto the mask's set bits, lowest first. Never refused. */
uint64_t skarvolm_deposit(uint64_t source, uint64_t mask);

/* The Hilbert index of a cell. Tests 1, 2. */
uint32_t skarvolm_encode_2d(uint64_t x, uint64_t y, uint32_t order, uint64_t *index);
uint32_t skarvolm_encode_3d(uint64_t x, uint64_t y, uint64_t z, uint32_t order, uint64_t *index);

/* The cell of a Hilbert index. The cells of an index and of the next differ by 1 in one coordinate and not at all in the others.
 * Tests 1, 3. */
uint32_t skarvolm_decode_2d(uint64_t index, uint32_t order, uint64_t *x, uint64_t *y);
uint32_t skarvolm_decode_3d(uint64_t index, uint32_t order, uint64_t *x, uint64_t *y, uint64_t *z);

/* The cell of a value on the axis from low to high: makes the axis, then the cell. Where low is below high it differs by at most 1
 * from the whole part of (value - low) * 2^order / (high - low), worked out exactly. Tests 1, 6, 8, 7 of the axis, then 6, 8 of the
 * value. */
uint32_t skarvolm_cell(double low, double high, uint32_t order, double value, uint64_t *cell);

/* The Hilbert index of each point, over the box along the axes from the lowest to the highest coordinate. One index a point.
 * Tests 1, 4, 5, 6, 7, each over all points and axes before the next. */
uint32_t skarvolm_index_2d(const double *xs, size_t xs_length, const double *ys, size_t ys_length, uint32_t order,
                           uint64_t *indices, size_t indices_length);
uint32_t skarvolm_index_3d(const double *xs, size_t xs_length, const double *ys, size_t ys_length, const double *zs,
                           size_t zs_length, uint32_t order, uint64_t *indices, size_t indices_length);

/* The same over a box that is given: on the axes from low to high, so that an index stays where points are added. Tests 1, 4,
 * 5; then 6, 8, 7 of low and high, and 6, 8 of the points, each over all axes before the next. */
uint32_t skarvolm_index_2d_in(double xlow, double xhigh, double ylow, double yhigh, const double *xs, size_t xs_length,
                              const double *ys, size_t ys_length, uint32_t order, uint64_t *indices, size_t indices_length);
uint32_t skarvolm_index_3d_in(double xlow, double xhigh, double ylow, double yhigh, double zlow, double zhigh,
                              const double *xs, size_t xs_length, const double *ys, size_t ys_length, const double *zs,
                              size_t zs_length, uint32_t order, uint64_t *indices, size_t indices_length);

/* Halves a grid depth times: across y first, then x, y, x in 2D, or z, x, y in 3D. Cell (x, y) stands at x + width * y,
 * (x, y, z) at x + width * (y + height * z). One weight and one id a cell; 2^depth - 1 splits, the root's first, those of the
 * halves of node i (counted from 1) at nodes 2i and 2i + 1, in grid coordinates, 4,294,967,295 for a node not cut. Ids are
 * below 2^depth. By edition 1. Tests 9, 10, 5, 11. */
uint32_t skarvolm_rcb_2d(uint32_t width, uint32_t height, uint32_t depth, const uint64_t *weights, size_t weights_length,
                         uint32_t *splits, size_t splits_length, uint32_t *ids, size_t ids_length);
uint32_t skarvolm_rcb_3d(uint32_t width, uint32_t height, uint32_t layers, uint32_t depth, const uint64_t *weights,
                         size_t weights_length, uint32_t *splits, size_t splits_length, uint32_t *ids, size_t ids_length);

/* The same by the edition of a number, and across any axis first: 0 is x, 1 is y, 2 is z, which a grid in 2D has not, and the
 * others follow in turn, x, y, z, x. A wide, flat grid wants 0. A cut keeps the left part's weight from lo to hi where it can,
 * within one part in a hundred of half the block's weight: edition 1 drops the fractions of both, edition 2 rounds lo up, so
 * that two cells of weight 1 come to lie on two sides. Tests 13, 14, 9, 10, 5, 11. */
uint32_t skarvolm_halve_2d(uint32_t edition, uint32_t width, uint32_t height, uint32_t first, uint32_t depth,
                           const uint64_t *weights, size_t weights_length, uint32_t *splits, size_t splits_length,
                           uint32_t *ids, size_t ids_length);
uint32_t skarvolm_halve_3d(uint32_t edition, uint32_t width, uint32_t height, uint32_t layers, uint32_t first,
                           uint32_t depth, const uint64_t *weights, size_t weights_length, uint32_t *splits,
                           size_t splits_length, uint32_t *ids, size_t ids_length);

/* Parts of points along the curve: n parts, by the points' indices and weights. For i from 1 to n - 1, split i is the smallest
 * index present such that n times the weight at or below it reaches i times the weight of all; the part of a point is the
 * number of splits strictly below its index. So parts are below n and do not fall along the curve, points that share an index
 * share a part, and n times the weight of a part is at most the weight of all and n times the heaviest weight on one index.
 * The order is the numbers of the points in order of index, equal indices by number. One weight, one part and one place of the
 * order a point. Tests 12, 4, 5, 11. */
uint32_t skarvolm_parts(uint32_t n, const uint64_t *indices, size_t indices_length, const uint64_t *weights,
                        size_t weights_length, uint32_t *parts, size_t parts_length, uint32_t *order, size_t order_length);

/* A bench night replayed on a grid: it is halved by edition 2, across the axis `first` first, and then each event adds an amount
 * to the cell of a number. An event is answered 20 where its cell is not in the grid, 11 where the cell would be over 16,777,215,
 * else 0; one that is not answered 0 changes nothing else. After each event answered 0 the bounds of a part's weight (demand 3)
 * are tested for every id, exactly, with the weights of that moment; where one is broken the grid is halved afresh. So at the end
 * each weight is its start plus the amounts answered 0, the bounds hold of the ids, and splits and ids are those of the last
 * halving. One amount and one answer an event. Tests 14, 9, 10, 5, 11. */
uint32_t skarvolm_replay_2d(uint32_t width, uint32_t height, uint32_t first, uint32_t depth, uint64_t *weights,
                            size_t weights_length, const uint64_t *cells, size_t cells_length, const uint64_t *amounts,
                            size_t amounts_length, uint32_t *answers, size_t answers_length, uint32_t *splits,
                            size_t splits_length, uint32_t *ids, size_t ids_length);
uint32_t skarvolm_replay_3d(uint32_t width, uint32_t height, uint32_t layers, uint32_t first, uint32_t depth,
                            uint64_t *weights, size_t weights_length, const uint64_t *cells, size_t cells_length,
                            const uint64_t *amounts, size_t amounts_length, uint32_t *answers, size_t answers_length,
                            uint32_t *splits, size_t splits_length, uint32_t *ids, size_t ids_length);

#ifdef __cplusplus
}
#endif

#endif
