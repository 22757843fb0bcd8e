/* The calls of skarvolm.h with nothing done, to have the cost of the loop and the call alone. */
#include <stddef.h>
#include <stdint.h>

static uint64_t empty_deposit(uint64_t source, uint64_t mask) { return 0; }
static uint32_t empty_encode_2d(uint64_t x, uint64_t y, uint32_t order, uint64_t *index) { return 0; }
static uint32_t empty_encode_3d(uint64_t x, uint64_t y, uint64_t z, uint32_t order, uint64_t *index) { return 0; }
static uint32_t empty_decode_2d(uint64_t index, uint32_t order, uint64_t *x, uint64_t *y) { return 0; }
static uint32_t empty_decode_3d(uint64_t index, uint32_t order, uint64_t *x, uint64_t *y, uint64_t *z) { return 0; }
static uint32_t empty_cell(double low, double high, uint32_t order, double value, uint64_t *cell) { return 0; }
static uint32_t empty_index_2d(const double *xs, size_t xs_length, const double *ys, size_t ys_length, uint32_t order,
                               uint64_t *indices, size_t indices_length) {
    return 0;
}
static uint32_t empty_index_3d(const double *xs, size_t xs_length, const double *ys, size_t ys_length, const double *zs,
                               size_t zs_length, uint32_t order, uint64_t *indices, size_t indices_length) {
    return 0;
}
static uint32_t empty_index_2d_in(double xlow, double xhigh, double ylow, double yhigh, const double *xs, size_t xs_length,
                                  const double *ys, size_t ys_length, uint32_t order, uint64_t *indices,
                                  size_t indices_length) {
    return 0;
}
static uint32_t empty_rcb_2d(uint32_t width, uint32_t height, uint32_t depth, const uint64_t *weights, size_t weights_length,
                             uint32_t *splits, size_t splits_length, uint32_t *ids, size_t ids_length) {
    return 0;
}
static uint32_t empty_rcb_3d(uint32_t width, uint32_t height, uint32_t layers, uint32_t depth, const uint64_t *weights,
                             size_t weights_length, uint32_t *splits, size_t splits_length, uint32_t *ids,
                             size_t ids_length) {
    return 0;
}
static uint32_t empty_halve_2d(uint32_t edition, uint32_t width, uint32_t height, uint32_t first, uint32_t depth,
                               const uint64_t *weights, size_t weights_length, uint32_t *splits, size_t splits_length,
                               uint32_t *ids, size_t ids_length) {
    return 0;
}
static uint32_t empty_parts(uint32_t n, const uint64_t *indices, size_t indices_length, const uint64_t *weights,
                            size_t weights_length, uint32_t *parts, size_t parts_length, uint32_t *order,
                            size_t order_length) {
    return 0;
}
static uint32_t empty_replay_2d(uint32_t width, uint32_t height, uint32_t first, uint32_t depth, uint64_t *weights,
                                size_t weights_length, const uint64_t *cells, size_t cells_length, const uint64_t *amounts,
                                size_t amounts_length, uint32_t *answers, size_t answers_length, uint32_t *splits,
                                size_t splits_length, uint32_t *ids, size_t ids_length) {
    return 0;
}
