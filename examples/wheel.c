/* The wheel of examples/wheel.job: drilled, turned, bored, stepped; kept in a stock file, read back, and asked.
 *
 *     cc -Iinclude examples/wheel.c target/staticlib/libturning.a -o target/wheel && target/wheel target/wheel.stock
 *
 * writes the file of examples/wheel.stock, byte for byte, and prints what examples/wheel.out has. The same program stands in Rust
 * (bindings/rust/examples/wheel.rs) and in Python (bindings/python/examples/wheel.py).
 */
#include "turning.h"
#include <stdio.h>
#include <string.h>

#define BINS 12
#define ROOM 512                        /* the most bins of a stock that is read */
#define BLOCKS(n) (2 * (((n) + 63) / 64)) /* the numbers kept beside the cells, two for each 64 bins */
#define BAR 0.0, 12.0, 30.0, 0.0, 1.0, BINS /* z_min, z_max, outer, bore, cell, max_cells */
#define EDITION 0

static double cells[4 * ROOM], blocks[BLOCKS(ROOM)], records[8 * ROOM], rings[4 * 256];
static size_t indices[ROOM], changes, position;
static uint64_t generation, list_generation;
static uint32_t list_edition;

/* Ends the program where a call is refused. */
static int refused(const char *call, uint32_t number)
{
    if (number != 0)
        fprintf(stderr, "%s: refused with %u\n", call, (unsigned)number);
    return number != 0;
}

/* Makes the changes of the last preview. */
static int commit(void)
{
    return refused("turning_apply", turning_apply(BAR, EDITION, &generation, cells, 4 * BINS, blocks, BLOCKS(BINS), indices, ROOM,
                                                  records, 8 * ROOM, changes, list_edition, list_generation, &position));
}

/* A nose whose centre runs level from z = start to 13, previewed and made. */
static int level(uint32_t side, double rn, double radius, double start)
{
    double segment[5];
    segment[0] = radius, segment[1] = start, segment[2] = radius, segment[3] = 13.0, segment[4] = 0.0;
    return refused("turning_preview", turning_preview(BAR, EDITION, generation, cells, 4 * BINS, side, rn, segment, 5, indices, ROOM,
                                                      records, 8 * ROOM, &changes, &list_edition, &list_generation))
           || commit();
}

/* Writes the stock file. */
static int keep(const char *path)
{
    uint8_t line[128];
    size_t lines = 0, len = 0, k;
    FILE *file;
    if (refused("turning_stock_lines", turning_stock_lines(BAR, cells, 4 * BINS, rings, 4 * 256, 0, &lines)))
        return 1;
    file = fopen(path, "wb");
    if (!file) {
        perror(path);
        return 1;
    }
    for (k = 0; k < lines; k++) {
        if (refused("turning_stock_line", turning_stock_line(BAR, EDITION, cells, 4 * BINS, rings, 4 * 256, 0, k, line, &len)))
            return 1;
        if (fwrite(line, 1, len, file) != len) {
            perror(path);
            return 1;
        }
    }
    if (fclose(file) != 0) {
        perror(path);
        return 1;
    }
    return 0;
}

/* Reads it again into the same memory. */
static int take_up(const char *path, double bar[5], size_t *n)
{
    uint64_t state[8] = {0};
    uint8_t line[128], part[4096];
    size_t got, stored = 0, at = 0;
    uint32_t edition = 0, number = 0;
    FILE *file = fopen(path, "rb");
    if (!file) {
        perror(path);
        return 1;
    }
    while (number == 0 && (got = fread(part, 1, sizeof part, file)) != 0)
        number = turning_read_part(state, bar, cells, 4 * ROOM, rings, 4 * 256, line, part, got);
    fclose(file);
    number = turning_read_end(state, bar, ROOM, cells, 4 * ROOM, rings, 4 * 256, n, &stored, &edition, &at);
    if (refused("turning_read_end", number))
        return 1;
    generation = 0; /* a file does not hold it */
    number = turning_renew(bar[0], bar[1], bar[2], bar[3], bar[4], ROOM, cells, 4 * *n, blocks, BLOCKS(*n));
    return refused("turning_renew", number);
}

int main(int argc, char **argv)
{
    double bar[5], bore = 0, outer = 0, za = 0, zb = 0;
    size_t n = 0, i;
    uint32_t found = 0, number;

    if (argc != 2) {
        fprintf(stderr, "usage: wheel FILE, the stock file to write\n");
        return 2;
    }
    if (turning_header() != TURNING_HEADER) {
        fprintf(stderr, "the archive is of another turning.h\n");
        return 1;
    }
    if (refused("turning_new", turning_new(BAR, EDITION, &generation, cells, 4 * BINS, blocks, BLOCKS(BINS))))
        return 1;
    number = turning_drill(BAR, EDITION, generation, cells, 4 * BINS, -5.0, 5.0, 3.0, indices, ROOM, records, 8 * ROOM, &changes,
                           &list_edition, &list_generation);
    if (refused("turning_drill", number) || commit())
        return 1;
    if (level(0, 0.8, 28.8, -1.0)      /* turn to 28 */
        || level(1, 0.4, 7.6, -1.0)    /* bore to 8 */
        || level(0, 0.8, 15.8, 8.8))   /* a step to 15 at the end */
        return 1;

    /* Keep it, and go on with what was kept. */
    if (keep(argv[1]))
        return 1;
    memset(cells, 0, sizeof cells);
    if (take_up(argv[1], bar, &n))
        return 1;
    for (i = 0; i < n; i++) {
        if (refused("turning_bin", turning_bin(bar[0], bar[1], bar[2], bar[3], bar[4], ROOM, i, &za, &zb)))
            return 1;
        printf("bin %u from %g to %g: outer %g to %g, inner %g to %g\n", (unsigned)i, za, zb, cells[4 * i], cells[4 * i + 1],
               cells[4 * i + 2], cells[4 * i + 3]);
    }
    number = turning_range(bar[0], bar[1], bar[2], bar[3], bar[4], ROOM, cells, 4 * n, blocks, BLOCKS(n), 7.5, 8.5, &found, &bore,
                           &outer);
    if (refused("turning_range", number))
        return 1;
    if (found)
        printf("from z 7.5 to 8.5 there may be metal from radius %g to %g\n", bore, outer);

    /* A list is of the stock that it was taken of: the stock has gone on since. */
    number = turning_thread_cut(BAR, EDITION, generation, cells, 4 * BINS, 9.0, 12.0, 14.0, indices, ROOM, records, 8 * ROOM, &changes,
                                &list_edition, &list_generation);
    if (refused("turning_thread_cut", number) || commit())
        return 1;
    number = turning_apply(BAR, EDITION, &generation, cells, 4 * BINS, blocks, BLOCKS(BINS), indices, ROOM, records, 8 * ROOM, changes,
                           list_edition, list_generation, &position);
    printf("the same list again: %u\n", (unsigned)number);
    return 0;
}
