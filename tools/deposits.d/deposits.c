/* deposits COUNT: what ../deposits says. */
#include "draw.h"
#include "plain.h"
#include "skarvolm.h"
#include <inttypes.h>
#include <stdio.h>
#include <stdlib.h>

static const uint64_t of_encoders[] = {
    0x5555555555555555u, 0xaaaaaaaaaaaaaaaau, 0x9249249249249249u, 0x2492492492492492u, 0x4924924924924924u,
};
enum { MASKS = sizeof of_encoders / sizeof *of_encoders };

static uint64_t compared, differ, faults;

static void hold(uint64_t source, uint64_t mask) {
    uint64_t is = skarvolm_deposit(source, mask), should = plain_deposit(source, mask);
    compared++;
    if (is == should)
        return;
    differ++;
    if (faults++ < 20)
        fprintf(stderr, "differs: %#" PRIx64 " on %#" PRIx64 ": %#" PRIx64 ", wanted %#" PRIx64 "\n", source, mask, is, should);
}

/* sources without a bit, with all, with one, with all below one, and random ones */
static void hold_some(uint64_t mask, uint64_t count) {
    hold(0, mask);
    hold(UINT64_MAX, mask);
    for (int k = 0; k < 64; k++) {
        hold(UINT64_C(1) << k, mask);
        hold((UINT64_C(1) << k) - 1, mask);
    }
    while (count-- > 0)
        hold(draw(), mask);
}

static void report(const char *what) {
    printf("%-40s %9" PRIu64 " compared, %" PRIu64 " differ\n", what, compared, differ);
    compared = differ = 0;
}

int main(int argc, char **argv) {
    uint64_t count = argc == 2 ? strtoull(argv[1], NULL, 10) : 0;
    char name[32];
    for (int i = 0; i < MASKS; i++) {
        for (uint64_t source = 0; source < 65536; source++)
            hold(source, of_encoders[i]);
        hold_some(of_encoders[i], count);
        snprintf(name, sizeof name, "%#" PRIx64, of_encoders[i]);
        report(name);
    }
    for (uint64_t six = 0; six < 64; six++)
        hold_some(six * 0x1041041041041041u, 1000);
    report("masks that repeat six bits");
    for (int i = 0; i < MASKS; i++)
        for (int k = 0; k < 64; k++)
            hold_some(of_encoders[i] ^ UINT64_C(1) << k, 100);
    report("masks that differ from those in a bit");
    for (int i = 0; i < 1000; i++)
        hold_some(draw() & (i % 2 ? draw() : UINT64_MAX), 100);
    report("random masks");
    return faults != 0;
}
