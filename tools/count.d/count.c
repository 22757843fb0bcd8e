/* count: prints the operations, a line each: name, inputs, points, words.
 * count OPERATION library|plain|empty TIMES: first holds the answers of library and plain C to the operation's inputs
 * together, and ends with status 1 where they differ; then calls the one side for all inputs TIMES times, a digit. What a run
 * does besides the calls does not depend on the digit, so that the difference of two runs is that of the calls and their
 * loop. */
#include "draw.h"
#include "empty.h"
#include "plain.h"
#include "skarvolm.h"
#include <stdio.h>
#include <string.h>

enum { INPUTS = 16, POINTS = 500, CELLS = 65536, NODES = 4095, EVENTS = 100000 };

struct side {
    uint64_t (*deposit)(uint64_t, uint64_t);
    uint32_t (*encode_2d)(uint64_t, uint64_t, uint32_t, uint64_t *);
    uint32_t (*encode_3d)(uint64_t, uint64_t, uint64_t, uint32_t, uint64_t *);
    uint32_t (*decode_2d)(uint64_t, uint32_t, uint64_t *, uint64_t *);
    uint32_t (*decode_3d)(uint64_t, uint32_t, uint64_t *, uint64_t *, uint64_t *);
    uint32_t (*cell)(double, double, uint32_t, double, uint64_t *);
    uint32_t (*index_2d)(const double *, size_t, const double *, size_t, uint32_t, uint64_t *, size_t);
    uint32_t (*index_3d)(const double *, size_t, const double *, size_t, const double *, size_t, uint32_t, uint64_t *,
                         size_t);
    uint32_t (*index_2d_in)(double, double, double, double, const double *, size_t, const double *, size_t, uint32_t,
                            uint64_t *, size_t);
    uint32_t (*rcb_2d)(uint32_t, uint32_t, uint32_t, const uint64_t *, size_t, uint32_t *, size_t, uint32_t *, size_t);
    uint32_t (*rcb_3d)(uint32_t, uint32_t, uint32_t, uint32_t, const uint64_t *, size_t, uint32_t *, size_t, uint32_t *,
                       size_t);
    uint32_t (*halve_2d)(uint32_t, uint32_t, uint32_t, uint32_t, uint32_t, const uint64_t *, size_t, uint32_t *, size_t,
                         uint32_t *, size_t);
    uint32_t (*parts)(uint32_t, const uint64_t *, size_t, const uint64_t *, size_t, uint32_t *, size_t, uint32_t *, size_t);
    uint32_t (*replay_2d)(uint32_t, uint32_t, uint32_t, uint32_t, uint64_t *, size_t, const uint64_t *, size_t,
                          const uint64_t *, size_t, uint32_t *, size_t, uint32_t *, size_t, uint32_t *, size_t);
};

static const struct side library = {
    skarvolm_deposit, skarvolm_encode_2d, skarvolm_encode_3d, skarvolm_decode_2d,   skarvolm_decode_3d,
    skarvolm_cell,    skarvolm_index_2d,  skarvolm_index_3d,  skarvolm_index_2d_in, skarvolm_rcb_2d,
    skarvolm_rcb_3d,  skarvolm_halve_2d,  skarvolm_parts,     skarvolm_replay_2d,
};
static const struct side plain = {
    plain_deposit, plain_encode_2d, plain_encode_3d, plain_decode_2d,   plain_decode_3d,
    plain_cell,    plain_index_2d,  plain_index_3d,  plain_index_2d_in, plain_rcb_2d,
    plain_rcb_3d,  plain_halve_2d,  plain_parts,     plain_replay_2d,
};
static const struct side empty = {
    empty_deposit, empty_encode_2d, empty_encode_3d, empty_decode_2d,   empty_decode_3d,
    empty_cell,    empty_index_2d,  empty_index_3d,  empty_index_2d_in, empty_rcb_2d,
    empty_rcb_3d,  empty_halve_2d,  empty_parts,     empty_replay_2d,
};

struct operation {
    const char *name;
    uint32_t bits, inputs, points, order, sides[3];
    void (*run)(const struct side *, const struct operation *, uint32_t calls);
    const char *words;
};

/* INPUTS AND ANSWERS */

static uint64_t numbers[3][INPUTS], weights[CELLS], indices[CELLS], places[EVENTS], amounts[EVENTS];
static double values[3][POINTS];

static struct {
    uint64_t refused, wide[3][POINTS], weights[CELLS];
    uint32_t splits[NODES], ids[CELLS], order[CELLS], said[EVENTS];
} answers, others;

static size_t cells_of(const struct operation *o) { return (size_t)o->sides[0] * o->sides[1] * o->sides[2]; }
static size_t nodes_of(const struct operation *o) { return ((size_t)1 << o->order) - 1; }

static void run_parts(const struct side *, const struct operation *, uint32_t);
static void run_rising(const struct side *, const struct operation *, uint32_t);
static void run_falling(const struct side *, const struct operation *, uint32_t);
static void run_events(const struct side *, const struct operation *, uint32_t);
static void run_in_turn(const struct side *, const struct operation *, uint32_t);
static void run_tight(const struct side *, const struct operation *, uint32_t);
static void run_night(const struct side *, const struct operation *, uint32_t);

/* how many events are called for at most: two runs' where they run on, else one's */
static uint32_t events_of(const struct operation *o) { return o->run == run_night ? o->points : 2 * o->points; }

/* events at any cell, of amounts from 1 to 100 */
static void draw_events(const struct operation *o) {
    for (uint32_t i = 0; i < events_of(o); i++) {
        places[i] = draw() % cells_of(o);
        amounts[i] = 1 + draw() % 100;
    }
}

/* Each cell is a part of its own, heavier by 1 than the part of the id before, and they are raised in order of id by as much
 * as there are parts: so each is the lightest when its turn comes, and no other is as light. */
static void draw_in_turn(const struct operation *o) {
    size_t cells = cells_of(o);
    for (size_t i = 0; i < cells; i++)
        weights[i] = 1;
    plain_halve_2d(2, o->sides[0], o->sides[1], 1, o->order, weights, cells, answers.splits, nodes_of(o), answers.ids, cells);
    for (uint32_t i = 0; i < cells; i++) {
        weights[i] = 1000000 + answers.ids[i];
        places[answers.ids[i]] = i;
    }
    for (uint32_t i = 0; i < events_of(o); i++) {
        places[i] = places[i % cells];
        amounts[i] = cells;
    }
}

/* A grid of zeros is one part, which three cells take to a little over twice the heaviest line: the upper bound holds at depth
 * 12, but by less than a hundredth a level, so that its products are needed. Two cells that grow in turn keep it there. */
static void draw_tight(const struct operation *o) {
    memset(weights, 0, sizeof weights);
    for (uint32_t i = 0; i < events_of(o); i++) {
        places[i] = (i == 2 ? 2 : i % 2) * (o->sides[0] + 1);
        amounts[i] = i < 2 ? 10000000 : i == 2 ? 207300 : 1;
    }
}

/* numbers of so many bits, the highest set; values from -50 to 50; weights from 1 to 100; indices of so many bits, as they are
 * drawn, rising or falling */
static void draw_inputs(const struct operation *o) {
    for (int a = 0; a < 3; a++) {
        for (int i = 0; i < INPUTS; i++) {
            uint64_t highest_set = draw() | UINT64_C(1) << 63;
            numbers[a][i] = o->bits ? highest_set >> (64 - o->bits) : 0;
        }
        for (int i = 0; i < POINTS; i++)
            values[a][i] = (double)(draw() >> 11) * 0x1p-53 * 100 - 50;
    }
    for (size_t i = 0; i < cells_of(o); i++)
        weights[i] = 1 + draw() % 100;
    for (size_t i = 0; i < cells_of(o); i++)
        indices[i] = o->run == run_rising    ? i
                     : o->run == run_falling ? cells_of(o) - i
                     : o->run == run_parts   ? draw() & ((UINT64_C(1) << o->bits) - 1)
                                             : 0;
    if (o->run == run_events || o->run == run_night)
        draw_events(o);
    if (o->run == run_night)
        memset(weights, 0, sizeof weights);
    if (o->run == run_in_turn)
        draw_in_turn(o);
    if (o->run == run_tight)
        draw_tight(o);
}

/* OPERATIONS: each calls a side's function so many times */

static void deposit_on(const struct side *s, uint64_t mask, uint32_t calls) {
    for (uint32_t i = 0; i < calls; i++)
        answers.wide[0][i % INPUTS] = s->deposit(numbers[0][i % INPUTS], mask);
}

static void run_deposit(const struct side *s, const struct operation *o, uint32_t calls) {
    deposit_on(s, 0xaaaaaaaaaaaaaaaau, calls);
}

/* on a mask of 32 bits that no encoder uses */
static void run_deposit_other(const struct side *s, const struct operation *o, uint32_t calls) {
    deposit_on(s, 0x6666666666666666u, calls);
}

static void run_encode_2d(const struct side *s, const struct operation *o, uint32_t calls) {
    for (uint32_t i = 0; i < calls; i++) {
        uint32_t k = i % INPUTS;
        answers.refused |= s->encode_2d(numbers[0][k], numbers[1][k], o->order, &answers.wide[0][k]);
    }
}

static void run_encode_3d(const struct side *s, const struct operation *o, uint32_t calls) {
    for (uint32_t i = 0; i < calls; i++) {
        uint32_t k = i % INPUTS;
        answers.refused |= s->encode_3d(numbers[0][k], numbers[1][k], numbers[2][k], o->order, &answers.wide[0][k]);
    }
}

static void run_decode_2d(const struct side *s, const struct operation *o, uint32_t calls) {
    for (uint32_t i = 0; i < calls; i++) {
        uint32_t k = i % INPUTS;
        answers.refused |= s->decode_2d(numbers[0][k], o->order, &answers.wide[0][k], &answers.wide[1][k]);
    }
}

static void run_decode_3d(const struct side *s, const struct operation *o, uint32_t calls) {
    for (uint32_t i = 0; i < calls; i++) {
        uint32_t k = i % INPUTS;
        answers.refused |=
            s->decode_3d(numbers[0][k], o->order, &answers.wide[0][k], &answers.wide[1][k], &answers.wide[2][k]);
    }
}

static void run_cell(const struct side *s, const struct operation *o, uint32_t calls) {
    for (uint32_t i = 0; i < calls; i++) {
        uint32_t k = i % INPUTS;
        answers.refused |= s->cell(-50, 50, o->order, values[0][k], &answers.wide[0][k]);
    }
}

static void run_index_2d(const struct side *s, const struct operation *o, uint32_t calls) {
    for (uint32_t i = 0; i < calls; i++)
        answers.refused |= s->index_2d(values[0], POINTS, values[1], POINTS, o->order, answers.wide[0], POINTS);
}

static void run_index_2d_in(const struct side *s, const struct operation *o, uint32_t calls) {
    for (uint32_t i = 0; i < calls; i++)
        answers.refused |= s->index_2d_in(-50, 50, -50, 50, values[0], POINTS, values[1], POINTS, o->order, answers.wide[0],
                                          POINTS);
}

static void run_index_3d(const struct side *s, const struct operation *o, uint32_t calls) {
    for (uint32_t i = 0; i < calls; i++)
        answers.refused |=
            s->index_3d(values[0], POINTS, values[1], POINTS, values[2], POINTS, o->order, answers.wide[0], POINTS);
}

static void run_rcb_2d(const struct side *s, const struct operation *o, uint32_t calls) {
    size_t cells = cells_of(o), nodes = nodes_of(o);
    for (uint32_t i = 0; i < calls; i++)
        answers.refused |=
            s->rcb_2d(o->sides[0], o->sides[1], o->order, weights, cells, answers.splits, nodes, answers.ids, cells);
}

static void run_rcb_3d(const struct side *s, const struct operation *o, uint32_t calls) {
    size_t cells = cells_of(o), nodes = nodes_of(o);
    for (uint32_t i = 0; i < calls; i++)
        answers.refused |= s->rcb_3d(o->sides[0], o->sides[1], o->sides[2], o->order, weights, cells, answers.splits, nodes,
                                     answers.ids, cells);
}

static void run_halve_2d(const struct side *s, const struct operation *o, uint32_t calls) {
    size_t cells = cells_of(o), nodes = nodes_of(o);
    for (uint32_t i = 0; i < calls; i++)
        answers.refused |=
            s->halve_2d(2, o->sides[0], o->sides[1], 1, o->order, weights, cells, answers.splits, nodes, answers.ids, cells);
}

static void run_parts(const struct side *s, const struct operation *o, uint32_t calls) {
    size_t points = o->points;
    for (uint32_t i = 0; i < calls; i++)
        answers.refused |=
            s->parts(o->order, indices, points, weights, points, answers.ids, points, answers.order, points);
}

static void run_rising(const struct side *s, const struct operation *o, uint32_t calls) { run_parts(s, o, calls); }

static void run_falling(const struct side *s, const struct operation *o, uint32_t calls) { run_parts(s, o, calls); }

static void replay(const struct side *s, const struct operation *o, uint32_t events) {
    size_t cells = cells_of(o);
    memcpy(answers.weights, weights, cells * sizeof *weights);
    answers.refused |= s->replay_2d(o->sides[0], o->sides[1], 1, o->order, answers.weights, cells, places, events, amounts,
                                    events, answers.said, events, answers.splits, nodes_of(o), answers.ids, cells);
}

/* one replay, of so many times the operation's events: two runs differ by events alone */
static void run_events(const struct side *s, const struct operation *o, uint32_t calls) { replay(s, o, calls * o->points); }

static void run_in_turn(const struct side *s, const struct operation *o, uint32_t calls) { run_events(s, o, calls); }

static void run_tight(const struct side *s, const struct operation *o, uint32_t calls) { run_events(s, o, calls); }

/* whole replays, from the first halving on */
static void run_night(const struct side *s, const struct operation *o, uint32_t calls) {
    for (uint32_t i = 0; i < calls; i++)
        replay(s, o, o->points);
}

static const struct operation operations[] = {
    {"deposit-12", 12, INPUTS, 1, 0, {0}, run_deposit, "deposit of 12 bits"},
    {"deposit-30", 30, INPUTS, 1, 0, {0}, run_deposit, "deposit of 30 bits"},
    {"deposit_other-12", 12, INPUTS, 1, 0, {0}, run_deposit_other, "deposit of 12 bits on another mask"},
    {"deposit_other-30", 30, INPUTS, 1, 0, {0}, run_deposit_other, "deposit of 30 bits on another mask"},
    {"encode_2d-12", 12, INPUTS, 1, 12, {0}, run_encode_2d, "encode_2d at order 12"},
    {"encode_2d-30", 30, INPUTS, 1, 30, {0}, run_encode_2d, "encode_2d at order 30"},
    {"encode_2d-32", 32, INPUTS, 1, 32, {0}, run_encode_2d, "encode_2d at order 32"},
    {"encode_3d-12", 12, INPUTS, 1, 12, {0}, run_encode_3d, "encode_3d at order 12"},
    {"encode_3d-21", 21, INPUTS, 1, 21, {0}, run_encode_3d, "encode_3d at order 21"},
    {"decode_2d-12", 24, INPUTS, 1, 12, {0}, run_decode_2d, "decode_2d at order 12"},
    {"decode_2d-30", 60, INPUTS, 1, 30, {0}, run_decode_2d, "decode_2d at order 30"},
    {"decode_2d-32", 64, INPUTS, 1, 32, {0}, run_decode_2d, "decode_2d at order 32"},
    {"decode_3d-12", 36, INPUTS, 1, 12, {0}, run_decode_3d, "decode_3d at order 12"},
    {"decode_3d-21", 63, INPUTS, 1, 21, {0}, run_decode_3d, "decode_3d at order 21"},
    {"cell-12", 0, INPUTS, 1, 12, {0}, run_cell, "cell at order 12"},
    {"index_2d-12", 0, 1, POINTS, 12, {0}, run_index_2d, "index_2d at order 12, a point of 500"},
    {"index_2d-30", 0, 1, POINTS, 30, {0}, run_index_2d, "index_2d at order 30, a point of 500"},
    {"index_2d_in-12", 0, 1, POINTS, 12, {0}, run_index_2d_in, "index_2d_in at order 12, a point of 500"},
    {"index_3d-12", 0, 1, POINTS, 12, {0}, run_index_3d, "index_3d at order 12, a point of 500"},
    {"index_3d-21", 0, 1, POINTS, 21, {0}, run_index_3d, "index_3d at order 21, a point of 500"},
    {"rcb_2d-32", 0, 1, 1, 8, {32, 32, 1}, run_rcb_2d, "rcb_2d of 32 by 32 at depth 8"},
    {"rcb_2d-256", 0, 1, 1, 8, {256, 256, 1}, run_rcb_2d, "rcb_2d of 256 by 256 at depth 8"},
    {"rcb_3d-16", 0, 1, 1, 6, {16, 16, 16}, run_rcb_3d, "rcb_3d of 16 by 16 by 16 at depth 6"},
    {"halve_2d-32", 0, 1, 1, 8, {32, 32, 1}, run_halve_2d, "halve_2d, edition 2, of 32 by 32 at depth 8"},
    {"parts-1000", 60, 1, 1000, 64, {1000, 1, 1}, run_parts, "parts in 64, a point of 1,000"},
    {"parts-10000", 60, 1, 10000, 64, {10000, 1, 1}, run_parts, "parts in 64, a point of 10,000"},
    {"parts-65536", 60, 1, CELLS, 64, {CELLS, 1, 1}, run_parts, "parts in 64, a point of 65,536"},
    {"parts-rising", 60, 1, CELLS, 64, {CELLS, 1, 1}, run_rising, "the same, indices rising"},
    {"parts-falling", 60, 1, CELLS, 64, {CELLS, 1, 1}, run_falling, "the same, indices falling"},
    {"parts-equal", 0, 1, CELLS, 64, {CELLS, 1, 1}, run_parts, "the same, indices equal"},
    {"replay-64", 0, 1, 1000, 8, {64, 64, 1}, run_events, "an event of a replay, 64 by 64 at depth 8"},
    {"replay-256", 0, 1, 1000, 8, {256, 256, 1}, run_events, "an event of a replay, 256 by 256 at depth 8"},
    {"replay-lightest", 0, 1, 4096, 12, {64, 64, 1}, run_in_turn, "the same at depth 12, the lightest part's"},
    {"replay-tight", 0, 1, 1000, 12, {64, 64, 1}, run_tight, "the same, the upper bound by products"},
    {"replay-100000", 0, 1, EVENTS, 8, {64, 64, 1}, run_night, "replay_2d of 100,000 events, an event"},
};
enum { OPERATIONS = sizeof operations / sizeof *operations };

/* the two sides answer all inputs, and alike */
static int alike(const struct operation *o) {
    o->run(&library, o, o->inputs);
    memcpy(&others, &answers, sizeof others);
    memset(&answers, 0, sizeof answers);
    o->run(&plain, o, o->inputs);
    return !answers.refused && memcmp(&others, &answers, sizeof others) == 0;
}

int main(int argc, char **argv) {
    if (argc == 1) {
        for (int i = 0; i < OPERATIONS; i++)
            printf("%s %u %u %s\n", operations[i].name, operations[i].inputs, operations[i].points, operations[i].words);
        return 0;
    }
    for (int i = 0; argc == 4 && i < OPERATIONS; i++) {
        const struct operation *o = &operations[i];
        if (strcmp(argv[1], o->name) != 0)
            continue;
        draw_inputs(o);
        if (!alike(o)) {
            fprintf(stderr, "count: the answers of %s differ\n", o->name);
            return 1;
        }
        const struct side *s = argv[2][0] == 'l' ? &library : argv[2][0] == 'p' ? &plain : &empty;
        o->run(s, o, o->inputs * (uint32_t)(argv[3][0] - '0'));
        return 0;
    }
    fprintf(stderr, "usage: count [OPERATION library|plain|empty TIMES]\n");
    return 2;
}
