/* The small study of the tests and the example: data/study.txt. */
#include <stdio.h>
#include <stdlib.h>
#include <string.h>
#include "pelmetsavory_store.h"

enum { TRIPLETS = 3, POINTS = 5, BANDS = 3, PIECES = 27, CELLS = 135, ENTRIES = 405, COUNTS = 16 };

static const int64_t addresses[36] = {0, 0, 0, 1, 0, 0, -1, 0, 0, 0, 1, 0, 0, -1, 0, 1, 1, 0, 0, 0, 1, 0, 0, -1, 1, 0, 1, 0, 1, 1, 1, 1, 1, -1, -1, -1};
static const int64_t gp_map[9] = {0, 1, 3, 5, 6, 8, 9, 10, 12};
static const double points[POINTS] = {0, 0.5, 1.25, 3, 9};
static const int64_t triplets[9] = {0, 1, 2, 3, 5, 6, 4, 11, 7};
static const int64_t ids1[BANDS] = {0, 0, 2}, ids2[BANDS] = {0, 1, 1};
static int64_t table[288];
static double frequencies1[36], frequencies2[36];

/* Ends the program where a call, which was made, did not go well. */
static inline void stop_at(uint64_t status, const char *at)
{
    if (status == 0) return;
    const char *words = pelmetsavory_store_words(status);
    fprintf(stderr, "%s: %s\n", at, words ? words : "not so");
    exit(1);
}

static inline pelmetsavory_study small_study(void)
{
    const double lattice[9] = {1, 1, 0, 0, 1, 0, 0, 0, 1};
    size_t number;
    stop_at(pelmetsavory_relative_grid_address(lattice, table, &number), "the table");
    stop_at(number != 1, "its number");
    for (int i = 0; i < 12; i++)
        for (int b = 0; b < BANDS; b++) {
            int n = 7 * i * i + 5 * b + 3 * i * b;
            frequencies1[i * BANDS + b] = (n % 17 + 1) / 8.0;
            frequencies2[i * BANDS + b] = (n % 13 - 1) / 8.0;
        }
    pelmetsavory_study y = {{2, {2, 2, 2}, 3, BANDS, BANDS}, addresses, 36, gp_map, 9, table, 288, frequencies1, 36, frequencies2, 36, points, POINTS, triplets, 9};
    return y;
}

/* A sheet with every entry as told, all pieces open; its counts begin with those of the tally, or with 0. */
static inline pelmetsavory_sheet new_sheet(const pelmetsavory_study *y, double weight, int8_t flag, const uint64_t *tally)
{
    pelmetsavory_sheet s = {malloc(ENTRIES * 8), ENTRIES, malloc(CELLS), CELLS, calloc(PIECES, 1), PIECES, {0}, {0}, {0}};
    if (!s.weights || !s.flags || !s.marks) stop_at(PELMETSAVORY_STORE_MEMORY, "a sheet");
    for (int k = 0; k < ENTRIES; k++) s.weights[k] = weight;
    memset(s.flags, flag, CELLS);
    pelmetsavory_sheet_begin(y, &s, tally);
    return s;
}

static inline void free_sheet(pelmetsavory_sheet *s) { free(s->weights); free(s->flags); free(s->marks); }

/* All that a sheet holds, as bytes: weights, flags and marks first. */
enum { CONTENT_BYTES = ENTRIES * 8 + CELLS + PIECES, SHEET_BYTES = CONTENT_BYTES + 2 * COUNTS * 8 + 32 };
static inline void to_bytes(const pelmetsavory_sheet *s, unsigned char *out)
{
    memcpy(out, s->weights, ENTRIES * 8);
    memcpy(out += ENTRIES * 8, s->flags, CELLS);
    memcpy(out += CELLS, s->marks, PIECES);
    memcpy(out += PIECES, s->tally, COUNTS * 8);
    memcpy(out += COUNTS * 8, s->began, COUNTS * 8);
    memcpy(out + COUNTS * 8, s->study, 32);
}

static inline pelmetsavory_piece piece_at(int p) { pelmetsavory_piece q = {p / 9, p / 3 % 3, p % 3}; return q; }
