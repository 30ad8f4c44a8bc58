/* A thread on a bar: previewed, committed, measured, and asked for the most that may be left over a range. What it writes is examples/thread.out.
 *
 * The bar is 4 mm long and 20 mm thick, in four bins of 1 mm. The thread runs over the middle two, 2 mm deep. What stands
 * between its crests and its roots is uncertain: the outer radius there lies between 8 and 10, so that the volume has a least
 * and a greatest value, and only 8 is certain.
 */
#include "turning.h"
#include <stdio.h>

#define BINS 4
#define BAR 0.0, 4.0, 10.0, 0.0, 1.0, BINS /* z_min, z_max, outer, bore, cell, max_cells */
#define BLOCKS (2 * ((BINS + 63) / 64))    /* the numbers kept beside the cells, two for each 64 bins */
#define EDITION 3                          /* of the wheel that the bar is for: the caller keeps it */

/* Ends the program where a call is refused. */
static int refused(const char *call, uint32_t number)
{
    if (number != 0)
        fprintf(stderr, "%s: refused with %u\n", call, (unsigned)number);
    return number != 0;
}

int main(void)
{
    double cells[4 * BINS], blocks[BLOCKS], records[8 * BINS], rings[4 * 8];
    size_t indices[BINS], n = 0, changes = 0, stored = 0, tests = 0, position = 0, k;
    uint64_t generation = 0, list_generation = 0;
    uint32_t number, found = 0, list_edition = 0;
    double least = 0, greatest = 0, bore = 0, outer = 0;

    if (turning_header() != TURNING_HEADER) {
        fprintf(stderr, "the archive is of another turning.h\n");
        return 1;
    }
    if (refused("turning_validate", turning_validate(BAR, &n)))
        return 1;
    if (refused("turning_new", turning_new(BAR, EDITION, &generation, cells, 4 * n, blocks, BLOCKS)))
        return 1;

    /* What the thread would change: z from 3 down to 1, root radius 8. */
    number = turning_thread_cut(BAR, EDITION, generation, cells, 4 * n, 3.0, 1.0, 8.0, indices, BINS, records, 8 * BINS,
                                &changes, &list_edition, &list_generation);
    if (refused("turning_thread_cut", number))
        return 1;
    for (k = 0; k < changes; k++)
        printf("bin %u: outer %g..%g becomes %g..%g\n", (unsigned)indices[k], records[8 * k], records[8 * k + 1],
               records[8 * k + 4], records[8 * k + 5]);
    printf("the list is of edition %u at generation %u\n", (unsigned)list_edition, (unsigned)list_generation);

    /* Make the changes, and take a groove out of the face at z = 4: radii 4 to 5, half a millimetre deep. */
    number = turning_apply(BAR, EDITION, &generation, cells, 4 * n, blocks, BLOCKS, indices, BINS, records, 8 * BINS, changes,
                           list_edition, list_generation, &position);
    if (refused("turning_apply", number))
        return 1;
    number = turning_remove_ring(BAR, rings, 4 * 8, &stored, &generation, 3.5, 4.5, 4.0, 5.0, &tests, &position);
    if (refused("turning_remove_ring", number))
        return 1;
    printf("ring: z %g..%g, radius %g..%g; generation %u\n", rings[0], rings[1], rings[2], rings[3], (unsigned)generation);

    /* What is left. */
    number = turning_volume(BAR, cells, 4 * n, rings, 4 * 8, stored, &least, &greatest);
    if (refused("turning_volume", number))
        return 1;
    printf("between %.3f and %.3f cubic millimetres remain\n", least, greatest);
    number = turning_envelope_at(BAR, cells, 4 * n, 1.5, &found, &bore, &outer);
    if (refused("turning_envelope_at", number))
        return 1;
    if (found)
        printf("at z 1.5 there may be material from radius %g to %g\n", bore, outer);
    number = turning_range(BAR, cells, 4 * n, blocks, BLOCKS, 1.25, 2.75, &found, &bore, &outer);
    if (refused("turning_range", number))
        return 1;
    if (found)
        printf("from z 1.25 to 2.75 there may be material from radius %g to %g\n", bore, outer);

    /* The same list again: the stock has gone on since it was taken. Nothing changes. */
    number = turning_apply(BAR, EDITION, &generation, cells, 4 * n, blocks, BLOCKS, indices, BINS, records, 8 * BINS, changes,
                           list_edition, list_generation, &position);
    printf("the same changes again: refused with %u; generation %u\n", (unsigned)number, (unsigned)generation);

    /* Handed in as a list of now, it is held to the bins, and they hold something else, that of its first change too. */
    number = turning_apply(BAR, EDITION, &generation, cells, 4 * n, blocks, BLOCKS, indices, BINS, records, 8 * BINS, changes,
                           EDITION, generation, &position);
    printf("and as a list of now: %u at change %u; generation %u\n", (unsigned)number, (unsigned)position, (unsigned)generation);

    /* A kept number that is not that of the cells could hide material: 20, and turning_renew works all of them out. */
    blocks[0] = 8.0;
    number = turning_range(BAR, cells, 4 * n, blocks, BLOCKS, 1.25, 2.75, &found, &bore, &outer);
    printf("with a number of its own: refused with %u", (unsigned)number);
    if (refused("turning_renew", turning_renew(BAR, cells, 4 * n, blocks, BLOCKS)))
        return 1;
    printf("; renewed: %g and %g\n", blocks[0], blocks[1]);
    return 0;
}
