/* Calls every entry. Writes what it got, as text, to the file that PELMETSAVORY_OUT names: Rust and Python write the same. */
#define _POSIX_C_SOURCE 200809L
#include <pthread.h>
#include "want.h"

static pelmetsavory_study y;
static FILE *out;

/* what the calls at grid points take */
static const pelmetsavory_grid grid = {2, {2, 2, 2}};
static const double two[2] = {0.5, 1.25};
static const int64_t three[3] = {0, 7, 11}, irreducible[12] = {0, 1, 2, 3, 0, 1, 2, 3, 0, 1, 2, 3};

static void name(const char *s) { if (out) fputs(s, out); }
static void floats(const double *x, int n) { for (int k = 0; k < n; k++) { uint64_t b; memcpy(&b, x + k, 8); if (out) fprintf(out, "\t%016llx", (unsigned long long)b); } }
static void number(long long x) { if (out) fprintf(out, "\t%lld", x); }
static void wholes(const int64_t *x, int n) { for (int k = 0; k < n; k++) number(x[k]); }
static void end(void) { if (out) fputc('\n', out); }
static void whole_sheet(const pelmetsavory_sheet *s)
{
    floats(s->weights, ENTRIES);
    for (int k = 0; k < CELLS; k++) number(s->flags[k]);
    for (int k = 0; k < PIECES; k++) number(s->marks[k]);
    wholes((const int64_t *)s->tally, COUNTS);
}

/* a file of data/ */
static FILE *data(const char *file)
{
    char path[4096];
    snprintf(path, sizeof path, "%s/%s", getenv("PELMETSAVORY_DATA"), file);
    return fopen(path, "r");
}

/* whether a sheet's entries are the stored listing */
static int listed(const pelmetsavory_sheet *s)
{
    FILE *f = data("listing.txt");
    char line[256], want[256];
    YES(f && fgets(line, sizeof line, f) && !strcmp(line, "triplet\tpoint\tb1\tb2\tflag\tw\n"));
    int same = 1;
    for (int k = 0; k < CELLS; k++) {
        int n = snprintf(want, sizeof want, "%d\t%d\t%d\t%d\t%d", k / 45, k / 9 % 5, k / 3 % 3, k % 3, s->flags[k]);
        for (int c = 0; c < 3; c++) { uint64_t b; memcpy(&b, s->weights + c * CELLS + k, 8); n += snprintf(want + n, sizeof want - (size_t)n, "\t%016llx", (unsigned long long)b); }
        snprintf(want + n, sizeof want - (size_t)n, "\n");
        same = same && fgets(line, sizeof line, f) && !strcmp(line, want);
    }
    same = same && !fgets(line, sizeof line, f);
    fclose(f);
    return same;
}

/* whether two rows have corner 0 at zero, and the same corners 1 to 3 in any order */
static int same_row(const int64_t *a, const int64_t *b)
{
    static const int orders[6][3] = {{1, 2, 3}, {1, 3, 2}, {2, 1, 3}, {2, 3, 1}, {3, 1, 2}, {3, 2, 1}};
    static const int64_t zero[3];
    if (memcmp(a, zero, 24) || memcmp(b, zero, 24)) return 0;
    for (int k = 0; k < 6; k++) {
        int same = 1;
        for (int c = 1; c < 4; c++) same = same && !memcmp(a + 3 * c, b + 3 * orders[k][c - 1], 24);
        if (same) return 1;
    }
    return 0;
}

/* how many of the 24 rows of a table are that row */
static int times(const int64_t *row, const int64_t *rows)
{
    int n = 0;
    for (int k = 0; k < 24; k++) n += same_row(row, rows + 12 * k);
    return n;
}

/* The generated tables: of each diagonal the rows of the constant table, each once, in another order; nothing is written beside them. */
static void generated_tables(const int64_t *all)
{
    int64_t buffer[1154], *made = buffer + 1, guard;
    memset(buffer, 0x5a, sizeof buffer); memset(&guard, 0x5a, sizeof guard);
    pelmetsavory_generated_relative_grid_address(made);
    YES(buffer[0] == guard && buffer[1153] == guard);
    for (int t = 0; t < 4; t++)
        for (int k = 0; k < 24; k++) {
            YES(times(made + 288 * t + 12 * k, all + 288 * t) == 1);
            YES(times(all + 288 * t + 12 * k, made + 288 * t) == 1);
        }
    YES(memcmp(made, all, 1152 * sizeof *made));
    /* by hand: along x, y, z from 0,0,0 to 1,1,1 one passes 1,0,0 and 1,1,0, and along y, x, z from 1,0,0 to 0,1,1, which is the diagonal -1,1,1,
     * one passes 1,1,0 and 0,1,0; each with its first place at zero, and with its third */
    const int64_t xyz[2][12] = {{0, 0, 0, 1, 0, 0, 1, 1, 0, 1, 1, 1}, {0, 0, 0, -1, -1, 0, 0, -1, 0, 0, 0, 1}};
    const int64_t yxz[2][12] = {{0, 0, 0, 0, 1, 0, -1, 1, 0, -1, 1, 1}, {0, 0, 0, 1, -1, 0, 1, 0, 0, 0, 0, 1}};
    const int64_t around[12] = {0, 0, 0, 1, 0, 0, 1, 1, 0, 0, 1, 0}; /* along x, y and back along x: on no way */
    for (int k = 0; k < 2; k++) YES(times(xyz[k], made) == 1 && times(yxz[k], made + 288) == 1);
    for (int t = 0; t < 4; t++) YES(times(around, made + 288 * t) == 0);
    name("generated"); wholes(made, 1152); end();
}

/* the weights at grid points under a table: its rows are taken, or checked before */
static uint64_t weighed(double *at, const int64_t *rows, size_t n, uint8_t letter)
{
    return pelmetsavory_integration_weights_at_grid_points(at, 18, two, 2, rows, n, three, 3, frequencies1, 12, 3, 4, grid, addresses, 36, gp_map, 9, irreducible, 12, letter);
}

static uint64_t weighed_checked(double *at, const int64_t *rows, size_t n, uint8_t letter)
{
    return pelmetsavory_checked_integration_weights_at_grid_points(at, 18, two, 2, rows, n, three, 3, frequencies1, 12, 3, 4, grid, addresses, 36, gp_map, 9, irreducible, 12, letter);
}

/* The status of a table, which lies in memory of its own length, and is written down. The weights under it have the same status: where it is 0 they
 * are those of the call that does not check, otherwise the buffer stays. */
static uint64_t judged(const int64_t *numbers, size_t n)
{
    double at[18], want[18];
    int64_t *rows = n ? malloc(n * 8) : NULL;
    if (n) { YES(rows); memcpy(rows, numbers, n * 8); }
    const uint64_t status = pelmetsavory_check_relative_grid_address(rows, n);
    for (int k = 0; k < 2; k++) {
        memset(at, 0x5a, sizeof at); memset(want, 0x5a, sizeof want);
        WANT(status, weighed_checked(at, rows, n, "IJ"[k]));
        if (!status) WANT(0, weighed(want, rows, n, "IJ"[k]));
        YES(!memcmp(at, want, sizeof at));
    }
    if (n) YES(!memcmp(rows, numbers, n * 8));
    free(rows);
    number((long long)status);
    return status;
}

/* of a table of 24 rows in which one number is another */
static uint64_t edited_table(const int64_t *table, int row, int corner, int component, int64_t by)
{
    int64_t rows[288];
    memcpy(rows, table, sizeof rows);
    rows[12 * row + 3 * corner + component] = by;
    return judged(rows, 288);
}

/* a table whose corners are those of another times whole numbers of determinant 1 */
static void sheared(const int64_t *table, int64_t *to)
{
    for (int k = 0; k < 288; k++) to[k] = table[k] + (k % 3 == 1 ? table[k - 1] : 0);
}

/* Three vectors, and what makes their sum zero, close a fan of four rows, each of three of the four: six fans fill the room around zero six times. */
static const int64_t fans[6][9] = {
    {1, 0, 0, 0, 1, 0, 0, 0, 1}, {1, 0, 0, 0, -1, 0, 0, 0, -1}, {-1, 0, 0, 0, 1, 0, 0, 0, -1}, {-1, 0, 0, 0, -1, 0, 0, 0, 1},
    {1, 1, 0, 0, 1, 1, -1, -1, -1}, {-1, -1, 0, 0, -1, -1, 1, 1, 1},
};

static void fan(const int64_t *three_of_them, int64_t *rows)
{
    int64_t all[4][3];
    memcpy(all, three_of_them, 72);
    for (int k = 0; k < 3; k++) all[3][k] = -all[0][k] - all[1][k] - all[2][k];
    memset(rows, 0, 48 * sizeof *rows);
    for (int left = 0; left < 4; left++)
        for (int c = 1, v = 0; v < 4; v++) if (v != left) memcpy(rows + 12 * left + 3 * c++, all[v], 24);
}

/* Tables of the caller's, by both entries: which are accepted, each refusal and two at once, and where 7, 23, 24 and 25 stand among the others. */
static void customer_tables(const int64_t *all)
{
    int64_t skew[576], six[576], rows[288];
    sheared(all, skew); memcpy(skew + 288, skew, 288 * 8);
    for (int k = 0; k < 12; k++) fan(fans[k % 6], six + 48 * k);
    name("judged");
    for (int t = 0; t < 4; t++) { sheared(all + 288 * t, rows); WANT(0, judged(all + 288 * t, 288)); WANT(0, judged(rows, 288)); }
    for (int k = 0; k < 24; k++) /* backwards, and with corners 1 and 3 exchanged: each determinant is negated */
        for (int c = 0; c < 4; c++) memcpy(rows + 12 * k + 3 * c, skew + 12 * (23 - k) + 3 * (c % 2 ? 4 - c : c), 24);
    WANT(0, judged(rows, 288));
    const size_t lengths[6] = {0, 12, 276, 287, 289, 300};
    for (int k = 0; k < 6; k++) WANT(7, judged(skew, lengths[k]));
    const int64_t far[4] = {4097, -4097, INT64_MIN, INT64_MAX}, near[4] = {3, -3, 4096, -4096};
    for (int k = 0; k < 4; k++) { WANT(7, edited_table(skew, 23, k, k % 3, far[k])); WANT(23, edited_table(skew, 23 * (k % 2), k, 2, near[k])); }
    WANT(23, judged(skew, 576));
    for (int k = 0; k < 3; k++) { WANT(23, edited_table(skew, 7, 0, k, 1)); WANT(23, edited_table(six, 23, 0, k, -2)); }
    WANT(23, edited_table(six, 0, 1, 1, 2)); /* determinant 2, of the row 0, 1, 0 and 0, 0, 1 and -1, -1, -1 */
    WANT(23, edited_table(six, 0, 1, 1, 0)); /* and 0 */
    memcpy(rows, skew, sizeof rows); memcpy(rows + 60, rows + 72, 96); WANT(24, judged(rows, 288)); /* a row twice, and a gap */
    memcpy(rows, skew, sizeof rows); for (int k = 60; k < 72; k++) rows[k] *= -1;
    WANT(24, judged(rows, 288)); /* a row on the other side */
    memcpy(rows, six, sizeof rows); memcpy(rows + 240, rows, 48 * 8); WANT(24, judged(rows, 288)); /* a fan twice */
    memcpy(rows, six, sizeof rows); for (int k = 0; k < 9; k++) rows[144 + k / 3 * 12 + 9 + k % 3] *= -1;
    WANT(24, judged(rows, 288)); /* a folded fan: each face is in two rows, some on the same side */
    WANT(25, judged(six, 288));
    /* two at once; the two components leave the determinant as it is */
    WANT(7, judged(six, 276)); WANT(23, judged(six, 576)); WANT(23, edited_table(six, 9, 3, 0, 3)); WANT(23, edited_table(six, 9, 3, 0, -3));
    WANT(24, edited_table(six, 0, 1, 2, 1));
    end();

    double at[18], other[18], kept[18];
    for (int k = 0; k < 2; k++) {
        WANT(0, weighed_checked(at, skew, 288, "IJ"[k])); WANT(0, weighed(other, all, 288, "IJ"[k]));
        YES(memcmp(at, other, sizeof at)); /* another table, other weights */
        name("checked"); floats(at, 18); end();
    }
    memcpy(kept, at, sizeof at); /* 6 is asked before the four, 9 to 12 after them */
#define CHECKED(n, rows, points, bands, map) \
    pelmetsavory_checked_integration_weights_at_grid_points(at, n, two, 2, rows, 288, points, 3, frequencies1, 12, bands, 4, grid, addresses, 36, gp_map, map, irreducible, 12, 'I')
    const int64_t outside[3] = {0, 7, 12};
    WANT(6, CHECKED(17, six, outside, 0, 8));
    WANT(25, CHECKED(17, six, outside, 0, 9));
    WANT(9, CHECKED(17, skew, outside, 0, 9));
    WANT(10, CHECKED(17, skew, outside, 2, 9));
    WANT(11, CHECKED(17, skew, three, 2, 9));
    WANT(12, CHECKED(17, skew, three, 3, 9));
    YES(!memcmp(at, kept, sizeof at));
    WANT(0, CHECKED(18, skew, three, 3, 9));
}

/* The open count refuses in its order and keeps what is behind `count`; which weights count, and each entry once. */
static void open_counts(pelmetsavory_counts counts, const double *weights)
{
    uint64_t open = 77;
    pelmetsavory_counts none = counts, far = {65536, 1024, INT64_MAX, INT64_MAX};
    none.num_band2 = 0;
    WANT(8, pelmetsavory_open_count(5, none, weights, ENTRIES, 3, &open));
    WANT(9, pelmetsavory_open_count(3, none, weights, ENTRIES, 3, &open));
    WANT(9, pelmetsavory_open_count(3, far, weights, ENTRIES, 0, &open)); /* a product that no 64 bits hold */
    WANT(12, pelmetsavory_open_count(3, counts, weights, ENTRIES - 1, 3, &open));
    WANT(12, pelmetsavory_open_count(2, counts, weights, ENTRIES, 0, &open)); /* the weights of another type */
    WANT(12, pelmetsavory_open_count(3, counts, NULL, 0, 0, &open));
    WANT(14, pelmetsavory_open_count(3, counts, weights, ENTRIES, 3, &open));
    WANT(14, pelmetsavory_open_count(3, counts, weights, ENTRIES, -1, &open));
    YES(open == 77);
    /* two triplets of five entries, two channels: +0 and -0; -0 twice; a NaN; the least number in the second channel; both channels */
    const pelmetsavory_counts five = {2, 1, 5, 1};
    double edge[20] = {[5] = 0.0, -0.0, 0.0, 0.0, 2.0, [15] = -0.0, -0.0, 0.0, 5e-324, -1.0};
    const uint64_t nan = 0xfff0000000000001; memcpy(edge + 7, &nan, 8);
    WANT(0, pelmetsavory_open_count(2, five, edge, 20, 1, &open)); YES(open == 3);
    WANT(0, pelmetsavory_open_count(2, five, edge, 20, 0, &open)); YES(open == 0);
}

static void calls(void)
{
    y = small_study();
    pelmetsavory_sheet s = new_sheet(&y, -7.25, 5, begun), t = new_sheet(&y, -7.25, 5, NULL);
    pelmetsavory_study b;

    /* refusals, each of which leaves the sheet as it was; a count one too small is a slice one shorter */
    b = y; b.shape.bz_grid_type = INT64_MIN; KEPT(3, &s, pelmetsavory_sheet_carry_on(&b, &s, 2));
    b = y; b.shape.d_diag[1] = 129; KEPT(4, &s, pelmetsavory_sheet_carry_on(&b, &s, 2));
    b = y; b.addresses_len = 35; KEPT(5, &s, pelmetsavory_sheet_carry_on(&b, &s, 2));
    b = y; b.addresses = NULL; b.addresses_len = 0; KEPT(5, &s, pelmetsavory_sheet_carry_on(&b, &s, 2));
    b = y; b.gp_map_len = 8; KEPT(6, &s, pelmetsavory_sheet_carry_on(&b, &s, 2));
    b = y; b.relative_grid_address_len = 276; KEPT(7, &s, pelmetsavory_sheet_carry_on(&b, &s, 2));
    b = y; b.shape.tp_type = 5; KEPT(8, &s, pelmetsavory_sheet_carry_on(&b, &s, 2));
    b = y; b.frequency_points = NULL; b.frequency_points_len = 0; KEPT(9, &s, pelmetsavory_sheet_carry_on(&b, &s, 2));
    int64_t far[9]; memcpy(far, triplets, sizeof far); far[4] = 12;
    b = y; b.triplets = far; KEPT(10, &s, pelmetsavory_sheet_carry_on(&b, &s, 2));
    b = y; b.frequencies1_len = 35; KEPT(11, &s, pelmetsavory_sheet_carry_on(&b, &s, 2));
    s.weights_len--; KEPT(12, &s, pelmetsavory_sheet_carry_on(&y, &s, 2)); s.weights_len++;
    s.flags_len--; KEPT(12, &s, pelmetsavory_sheet_carry_on(&y, &s, 2)); s.flags_len++;
    s.marks_len--; KEPT(12, &s, pelmetsavory_sheet_carry_on(&y, &s, 2)); s.marks_len++;
    s.marks[19] = 3; KEPT(13, &s, pelmetsavory_sheet_carry_on(&y, &s, 2)); s.marks[19] = 0;
    const pelmetsavory_piece off[] = {{3, 0, 0}, {0, 3, 0}, {0, 0, 3}, {-1, 0, 0}, {0, INT64_MIN, 0}};
    for (int k = 0; k < 5; k++) KEPT(14, &s, pelmetsavory_sheet_run_piece(&y, &s, 2, off[k]));
    KEPT(14, &s, pelmetsavory_sheet_average_triplet(&y, &s, 3, ids1, 3, ids2, 3));
    KEPT(18, &s, pelmetsavory_sheet_average_triplet(&y, &s, 0, ids1, 3, ids2, 3));
    KEPT(17, &s, pelmetsavory_sheet_average_triplet(&y, &s, 0, ids1, 2, ids2, 3));
    KEPT(17, &s, pelmetsavory_sheet_average_triplet(&y, &s, 0, NULL, 0, ids2, 3));
    b = y; b.shape.num_band2 = 2; b.frequencies2_len = 24;
    pelmetsavory_sheet narrow = s; narrow.weights_len = 270; narrow.flags_len = 90; narrow.marks_len = 18;
    KEPT(16, &s, pelmetsavory_sheet_average_triplet(&b, &narrow, 0, ids1, 2, ids2, 2));
    KEPT(20, &s, pelmetsavory_sheet_run_piece(&y, &s, 9, piece_at(0)));
    KEPT(20, &s, pelmetsavory_sheet_carry_on(&y, &s, 9));
    KEPT(21, &s, pelmetsavory_sheet_run_piece(&y, &s, 16, piece_at(0)));
    KEPT(21, &s, pelmetsavory_sheet_carry_on(&y, &s, -1));

    /* pieces in a mixed order, of nine workers; repeats counted, averages */
    for (int k = 0; k < PIECES; k++) WANT(0, pelmetsavory_sheet_run_piece(&y, &s, k % 9, piece_at(k * 5 % PIECES)));
    YES(listed(&s));
    WANT(0, pelmetsavory_sheet_run_piece(&y, &s, 15, piece_at(13)));
    for (int k = 0; k < COUNTS; k++) YES(s.tally[k] == begun[k] + (k < 9 ? 3 : k == 15));
    const pelmetsavory_counts counts = {TRIPLETS, POINTS, BANDS, BANDS};
    uint64_t open = 77;
    name("open");
    for (int k = 0; k < TRIPLETS; k++) { KEPT(0, &s, pelmetsavory_sheet_open_count(&y, &s, k, &open)); number((long long)open); }
    end();
    open_counts(counts, s.weights);
    WANT(0, pelmetsavory_sheet_run_piece(&y, &t, 15, piece_at(7)));
    WANT(0, pelmetsavory_sheet_carry_on(&y, &t, 0));
    YES(listed(&t));
    for (int k = 0; k < COUNTS; k++) YES(t.tally[k] == (k == 0 ? 26u : k == 15));
    double kept = t.weights[CELLS]; uint64_t bits = 0x7ff8000000000001; memcpy(t.weights + CELLS, &bits, 8);
    KEPT(19, &t, pelmetsavory_sheet_average_triplet(&y, &t, 0, ids1, 3, ids2, 3));
    t.weights[CELLS] = kept;
    WANT(0, pelmetsavory_sheet_average_triplet(&y, &s, 1, ids1, 3, ids2, 3));
    KEPT(15, &s, pelmetsavory_sheet_run_piece(&y, &s, 0, piece_at(9)));
    KEPT(15, &s, pelmetsavory_sheet_average_triplet(&y, &s, 1, ids1, 3, ids2, 3));
    name("averaged"); whole_sheet(&s); end();
    uint8_t file[4096];
    YES(pelmetsavory_store_size(&y) <= sizeof file);
    WANT(0, pelmetsavory_store_write(&y, &s, file));
    name("stored");
    for (size_t k = 0; k < pelmetsavory_store_size(&y); k++) number(file[k]);
    end();

    /* all triplets, one triplet, its averages */
    double w[ENTRIES], w1[135]; int8_t f[CELLS], f1[45];
    memset(w, 0x55, sizeof w);
    WANT(12, pelmetsavory_integration_weight(PELMETSAVORY_STUDY(&y), triplets, 9, w, ENTRIES - 1, f, CELLS));
    YES(w[0] == w[ENTRIES - 1]);
    WANT(0, pelmetsavory_integration_weight(PELMETSAVORY_STUDY(&y), triplets, 9, w, ENTRIES, f, CELLS));
    YES(!memcmp(w, t.weights, sizeof w) && !memcmp(f, t.flags, sizeof f));
    const pelmetsavory_triple second = {{3, 5, 6}}, none = {{3, 5, -1}};
    WANT(10, pelmetsavory_integration_weight_per_triplet(PELMETSAVORY_STUDY(&y), none, w1, 135, f1, 45));
    WANT(0, pelmetsavory_integration_weight_per_triplet(PELMETSAVORY_STUDY(&y), second, w1, 135, f1, 45));
    for (int c = 0; c < 3; c++) YES(!memcmp(w1 + c * 45, w + c * CELLS + 45, 45 * 8));
    YES(!memcmp(f1, f + 45, 45));
    WANT(8, pelmetsavory_average_weights_over_degenerate_sets(w1, 135, f1, 45, ids1, 3, ids2, 3, POINTS, BANDS, 1));
    WANT(0, pelmetsavory_average_weights_over_degenerate_sets(w1, 135, f1, 45, ids1, 3, ids2, 3, POINTS, BANDS, 3));
    for (int c = 0; c < 3; c++) YES(!memcmp(w1 + c * 45, s.weights + c * CELLS + 45, 45 * 8));
    YES(!memcmp(f1, s.flags + 45, 45));

    /* the other entries */
    int64_t outside[12];
    double at[18], rows[96], one;
    for (int k = 0; k < 12; k++) outside[k] = 4;
    for (int k = 0; k < 96; k++) rows[k] = k % 4 ? 4 : 0;
    for (int k = 0; k < 2; k++) {
        WANT(0, weighed(at, table, 288, "IJ"[k]));
        name("grid-points"); floats(at, 18); end();
        WANT(0, pelmetsavory_tetrahedra_integration_weight(2, rows, 96, "IJ"[k], &one));
        YES(one == (k ? 0.3125 : 0.375));
        name("weight"); floats(&one, 1); end();
    }
    WANT(7, pelmetsavory_tetrahedra_integration_weight(2, rows, 92, 'I', &one));
    WANT(11, pelmetsavory_integration_weights_at_grid_points(at, 18, two, 2, table, 288, three, 3, frequencies1, 12, 3, 4, grid, addresses, 36, gp_map, 9, outside, 12, 'I'));
    YES(one == 0.3125);
    const pelmetsavory_triple first = {{0, 1, 2}}, beyond = {{0, 1, 12}};
    uint8_t normal = 9;
    name("is_n");
    WANT(0, pelmetsavory_is_n(first, addresses, 36, &normal)); number(normal);
    WANT(0, pelmetsavory_is_n(second, addresses, 36, &normal)); number(normal); end();
    WANT(10, pelmetsavory_is_n(beyond, addresses, 36, &normal));
    int64_t copies[576], many[12 * 96], near[3], all[1152], index = 7;
    name("copies");
    WANT(0, pelmetsavory_set_relative_grid_address(copies, 576, table, 288, 2)); wholes(copies, 576);
    WANT(0, pelmetsavory_set_relative_grid_address(copies, 576, table, 288, 4)); wholes(copies, 576); end();
    WANT(8, pelmetsavory_set_relative_grid_address(copies, 576, table, 288, 0));
    const int64_t steps[9] = {-1, 0, 0, 3, 0, 0, -2, 0, 0}, long_step[3] = {4097, 0, 0}, zero[1] = {0};
    int64_t every[12];
    for (int k = 0; k < 12; k++) every[k] = k;
    name("neighbours"); WANT(0, pelmetsavory_fill_neighboring_grid_points(near, 3, 1, steps, 9, grid, addresses, 36, gp_map, 9)); wholes(near, 3); end();
    name("many"); WANT(0, pelmetsavory_neighboring_grid_points_many(many, 12 * 96, every, 12, table, 288, grid, addresses, 36, gp_map, 9)); wholes(many, 12 * 96); end();
    WANT(10, pelmetsavory_fill_neighboring_grid_points(near, 3, 12, steps, 9, grid, addresses, 36, gp_map, 9));
    WANT(7, pelmetsavory_neighboring_grid_points_many(near, 1, zero, 1, long_step, 3, grid, addresses, 36, gp_map, 9));
    const pelmetsavory_triple address = {{-1, 300, 5}}, mesh = {{256, 7, 9}}, wide = {{257, 1, 1}};
    WANT(0, pelmetsavory_grid_index_from_address(address, mesh, &index));
    name("index"); number(index); end();
    WANT(4, pelmetsavory_grid_index_from_address(address, wide, &index));
    double unit[9] = {1, 0, 0, 0, 1, 0, 0, 0, 1}; int64_t chosen[288]; size_t which = 9;
    WANT(0, pelmetsavory_relative_grid_address(unit, chosen, &which));
    pelmetsavory_all_relative_grid_address(all);
    name("tables"); number((long long)which); wholes(chosen, 288); wholes(all, 1152); end();
    generated_tables(all);
    customer_tables(all);
    unit[4] = 2147483648.0;
    WANT(2, pelmetsavory_relative_grid_address(unit, chosen, &which));
    const double lattice[9] = {0.1, 0.2, 0.3, 1, 2, 3, -4, 0, 4};
    const pelmetsavory_triple vector = {{3, -4, 4096}}, longer = {{0, 0, 4097}};
    double product[3];
    WANT(0, pelmetsavory_matvec_di(lattice, vector, product));
    name("matvec"); floats(product, 3); end();
    WANT(7, pelmetsavory_matvec_di(lattice, longer, product));
    size_t channels = 0;
    name("channels");
    for (int k = 2; k < 5; k++) { WANT(0, pelmetsavory_num_channels(k, &channels)); number((long long)channels); }
    end();
    WANT(8, pelmetsavory_num_channels(1, &channels));
    YES(channels == 1 && index >= 0 && which == 0);
    /* empty arrays, without a pointer: no triplets is a sheet, no grid points is an answer */
    b = y; b.triplets = NULL; b.triplets_len = 0;
    pelmetsavory_sheet empty = {NULL, 0, NULL, 0, NULL, 0, {0}, {0}, {0}};
    pelmetsavory_sheet_begin(&b, &empty, begun);
    WANT(0, pelmetsavory_sheet_carry_on(&b, &empty, 9));
    WANT(21, pelmetsavory_sheet_carry_on(&b, &empty, 16));
    WANT(14, pelmetsavory_sheet_run_piece(&b, &empty, 16, piece_at(0)));
    WANT(14, pelmetsavory_sheet_average_triplet(&b, &empty, 0, ids1, 3, ids2, 3));
    YES(!memcmp(empty.tally, begun, sizeof begun));
    WANT(0, pelmetsavory_integration_weight(PELMETSAVORY_STUDY(&y), NULL, 0, NULL, 0, NULL, 0));
    WANT(0, pelmetsavory_neighboring_grid_points_many(NULL, 0, NULL, 0, steps, 9, grid, addresses, 36, gp_map, 9));
    WANT(0, pelmetsavory_integration_weights_at_grid_points(NULL, 0, two, 2, table, 288, NULL, 0, frequencies1, 12, 3, 4, grid, addresses, 36, gp_map, 9, irreducible, 12, 'I'));
    WANT(7, pelmetsavory_fill_neighboring_grid_points(NULL, 0, 0, NULL, 0, grid, addresses, 36, gp_map, 9));
    WANT(5, pelmetsavory_fill_neighboring_grid_points(NULL, 0, 0, NULL, 0, grid, NULL, 0, NULL, 0));
    WANT(10, pelmetsavory_is_n(first, NULL, 0, &normal));
    free_sheet(&s); free_sheet(&t);
}

/* what is no worker */
enum { NONE = 6 };
static const int64_t none[NONE] = {-1, 16, 256, INT64_C(1) << 32, INT64_MIN, INT64_MAX};

enum { CALLS = 20 };
static const int64_t ids[6] = {0, 0, 2, 0, 1, 1};
static const int64_t list[CALLS][6] = { /* numbers that a call does not read are 99 */
    {PELMETSAVORY_RUN, 3, 1, 1, 1, 99}, {PELMETSAVORY_RUN, 3, 3, 0, 0, 99}, {PELMETSAVORY_AVERAGE, 1, 0, 3, 3, 6}, {PELMETSAVORY_RUN, 15, 1, 1, 1, 99},
    {PELMETSAVORY_RUN, 9, 1, 1, 1, 99}, {PELMETSAVORY_RUN, 256, 1, 1, 1, 99}, {PELMETSAVORY_CARRY_ON, 9, 99, 99, 99, 99}, {PELMETSAVORY_CARRY_ON, -1, 99, 99, 99, 99},
    {PELMETSAVORY_CARRY_ON, 0, 99, 99, 99, 99}, {PELMETSAVORY_AVERAGE, 1, 0, 3, 3, 6}, {PELMETSAVORY_RUN, INT64_MIN, 1, 0, 0, 99}, {PELMETSAVORY_AVERAGE, 1, 3, 6, 0, 3},
    {PELMETSAVORY_AVERAGE, 0, 0, 2, 3, 6}, {PELMETSAVORY_AVERAGE, 0, -1, 3, 3, 6}, {PELMETSAVORY_AVERAGE, 2, 0, 3, 4, 7}, {INT64_MIN, 2, 3, 6, 0, 3},
    {PELMETSAVORY_CARRY_ON, 9, 99, 99, 99, 99}, {PELMETSAVORY_CARRY_ON, 16, 99, 99, 99, 99}, {PELMETSAVORY_AVERAGE, INT64_MIN, 0, 3, 3, 6}, {PELMETSAVORY_RUN, 7, 0, 2, 2, 99},
};
static const uint64_t statuses[CALLS] = {0, 14, 18, 0, 20, 21, 20, 21, 0, 0, 15, 15, 17, 17, 17, 0, 0, 21, 14, 0};

/* the ids from start to end; none where the list has no such part */
static size_t part(int64_t start, int64_t end, const int64_t **from)
{
    int there = 0 <= start && start <= end && end <= 6;
    *from = there ? ids + start : NULL;
    return there ? (size_t)(end - start) : 0;
}

static uint64_t call(pelmetsavory_sheet *s, const int64_t *c)
{
    const int64_t *a, *b;
    const pelmetsavory_piece piece = {c[2], c[3], c[4]};
    if (c[0] == PELMETSAVORY_RUN) return pelmetsavory_sheet_run_piece(&y, s, c[1], piece);
    if (c[0] == PELMETSAVORY_CARRY_ON) return pelmetsavory_sheet_carry_on(&y, s, c[1]);
    size_t m = part(c[2], c[3], &a), n = part(c[4], c[5], &b);
    return pelmetsavory_sheet_average_triplet(&y, s, c[1], a, m, b, n);
}

/* a list of calls in one call: in every bit what the same calls make one by one */
static void lists(void)
{
    pelmetsavory_sheet s = new_sheet(&y, -7.25, 5, begun), t = new_sheet(&y, -7.25, 5, begun);
    uint64_t answers[CALLS], tallies[CALLS][COUNTS], untouched[CALLS][COUNTS];
    memset(answers, 0x55, sizeof answers); memset(tallies, 0x55, sizeof tallies); memset(untouched, 0x55, sizeof untouched);
#define PLAY(numbers, n, m) pelmetsavory_play(PELMETSAVORY_STUDY(&y), triplets, 9, PELMETSAVORY_SHEET(&s), *list, numbers, ids, 6, answers, n, *tallies, m)
    KEPT(12, &s, PLAY(CALLS * 6 - 1, CALLS, CALLS * 16));
    KEPT(12, &s, PLAY(CALLS * 6 - 6, CALLS, CALLS * 16));
    KEPT(12, &s, PLAY(CALLS * 6, CALLS - 1, CALLS * 16 - 16));
    const size_t lengths[5] = {0, CALLS, CALLS * 16 - 16, CALLS * 16 - 1, CALLS * 15};
    for (int k = 0; k < 5; k++) KEPT(12, &s, PLAY(CALLS * 6, CALLS, lengths[k]));
    s.marks[26] = 1;
    KEPT(12, &s, PLAY(0, CALLS, CALLS * 16));
    KEPT(0, &s, pelmetsavory_sheet_play(&y, &s, 0, NULL, NULL, 0, NULL, NULL));
    s.marks[26] = 0;
    KEPT(0, &s, pelmetsavory_sheet_play(&y, &s, 0, NULL, NULL, 0, NULL, NULL)); /* no call: nothing is written */
    YES(!memcmp(answers, untouched, sizeof answers) && !memcmp(tallies, untouched, sizeof tallies));
    WANT(0, pelmetsavory_sheet_play(&y, &s, CALLS, list, ids, 6, answers, tallies));
    for (int k = 0; k < CALLS; k++) { WANT(statuses[k], call(&t, list[k])); YES(answers[k] == statuses[k] && !memcmp(tallies[k], t.tally, sizeof t.tally)); }
    unsigned char a[SHEET_BYTES], b[SHEET_BYTES];
    to_bytes(&s, a); to_bytes(&t, b);
    YES(!memcmp(a, b, SHEET_BYTES));
    for (int k = 0; k < COUNTS; k++) YES(s.tally[k] == begun[k] + (k == 0 ? 26u : k == 3 || k == 7 || k == 15));
    pelmetsavory_sheet cut = new_sheet(&y, -7.25, 5, begun);
    uint64_t told[CALLS], counts[CALLS][COUNTS];
    WANT(0, pelmetsavory_sheet_play(&y, &cut, 5, list, ids, 6, told, counts));
    WANT(0, pelmetsavory_sheet_play(&y, &cut, CALLS - 5, list + 5, ids, 6, told + 5, counts + 5)); /* resumed where the cut left the sheet */
    to_bytes(&cut, b);
    YES(!memcmp(a, b, SHEET_BYTES) && !memcmp(told, answers, sizeof told) && !memcmp(counts, tallies, sizeof counts));
    free_sheet(&cut);
    name("list"); wholes((const int64_t *)answers, CALLS); wholes((const int64_t *)*tallies, CALLS * COUNTS); whole_sheet(&s); end();
    s.marks[26] = 3; /* refused whole: every call by the same number, and after every one the counts of the beginning */
    KEPT(0, &s, pelmetsavory_sheet_play(&y, &s, CALLS, list, ids, 6, answers, tallies));
    for (int k = 0; k < CALLS; k++) YES(answers[k] == 13 && !memcmp(tallies[k], s.tally, sizeof s.tally));
    free_sheet(&s); free_sheet(&t);
}

/* a call that moves no count but that of its worker, to the one that is told */
#define MOVES(worker, count, sheet, call) do { uint64_t c_[COUNTS]; memcpy(c_, (sheet)->tally, sizeof c_); WANT(0, call); c_[worker] = (count); \
    YES(!memcmp(c_, (sheet)->tally, sizeof c_)); } while (0)

/* a list of a run and a carry-on: their statuses are told, and they change nothing */
static void listed_as(pelmetsavory_sheet *s, int64_t worker, uint64_t run, uint64_t carry)
{
    const int64_t two[2][6] = {{PELMETSAVORY_RUN, worker, 0, 1, 1, 99}, {PELMETSAVORY_CARRY_ON, worker, 99, 99, 99, 99}};
    uint64_t answers[2], tallies[2][COUNTS];
    KEPT(0, s, pelmetsavory_sheet_play(&y, s, 2, two, NULL, 0, answers, tallies));
    YES(answers[0] == run && answers[1] == carry && !memcmp(tallies[0], s->tally, sizeof s->tally) && !memcmp(tallies[1], s->tally, sizeof s->tally));
}

/* sixteen counts: what is no worker is 21, whatever they are; 20 is asked of the worker's own alone, and the others stay */
static void workers(void)
{
    const uint64_t top = INT64_MAX, full[3] = {top, top + 1, UINT64_MAX};
    const pelmetsavory_piece piece = {0, 1, 1}, off = {0, 3, 0};
    for (int f = 0; f < 4; f++) { /* all of them full, and as they begin */
        pelmetsavory_sheet s = new_sheet(&y, -7.25, 5, begun);
        uint64_t counts[COUNTS];
        for (int k = 0; k < COUNTS && f < 3; k++) s.tally[k] = full[f];
        memcpy(counts, s.tally, sizeof counts);
        for (int k = 0; k < NONE; k++) {
            KEPT(21, &s, pelmetsavory_sheet_run_piece(&y, &s, none[k], piece));
            KEPT(21, &s, pelmetsavory_sheet_carry_on(&y, &s, none[k]));
            KEPT(14, &s, pelmetsavory_sheet_run_piece(&y, &s, none[k], off));
            listed_as(&s, none[k], 21, 21);
            WANT(21, pelmetsavory_tally_add(counts, none[k], 0));
            WANT(21, pelmetsavory_tally_add(counts, none[k], 1));
            WANT(21, pelmetsavory_tally_add(counts, none[k], UINT64_MAX));
        }
        for (int k = 0; k < COUNTS && f < 3; k++) {
            KEPT(20, &s, pelmetsavory_sheet_run_piece(&y, &s, k, piece));
            KEPT(20, &s, pelmetsavory_sheet_carry_on(&y, &s, k));
            listed_as(&s, k, 20, 20);
            WANT(20, pelmetsavory_tally_add(counts, k, 1));
            WANT(20, pelmetsavory_tally_add(counts, k, UINT64_MAX));
            WANT(f ? 20 : 0, pelmetsavory_tally_add(counts, k, 0));
        }
        YES(!memcmp(counts, s.tally, sizeof counts));

        /* nothing is open: both are still asked. An averaged triplet is 15 before either, and averaging asks neither */
        memset(s.marks, 1, PIECES);
        for (int k = 0; k < NONE; k++) KEPT(21, &s, pelmetsavory_sheet_carry_on(&y, &s, none[k]));
        for (int k = 0; k < COUNTS; k++) KEPT(f == 1 || f == 2 ? 20 : 0, &s, pelmetsavory_sheet_carry_on(&y, &s, k));
        WANT(0, pelmetsavory_sheet_average_triplet(&y, &s, 0, ids1, 3, ids2, 3));
        YES(!memcmp(counts, s.tally, sizeof counts));
        for (int k = 0; k < NONE; k++) KEPT(15, &s, pelmetsavory_sheet_run_piece(&y, &s, none[k], piece));
        KEPT(15, &s, pelmetsavory_sheet_run_piece(&y, &s, 9, piece));
        free_sheet(&s);
    }
    for (int w = 0; w < COUNTS; w++) { /* the others are full: they refuse nobody, and the sum is far beyond 2^63 */
        pelmetsavory_sheet s = new_sheet(&y, -7.25, 5, NULL);
        const int64_t two[2][6] = {{PELMETSAVORY_RUN, w, 2, 0, 1, 99}, {PELMETSAVORY_CARRY_ON, w, 99, 99, 99, 99}};
        uint64_t answers[2], tallies[2][COUNTS];
        for (int k = 0; k < COUNTS; k++) s.tally[k] = full[(w + k) % 3];
        s.tally[w] = top - 27; KEPT(0, &s, pelmetsavory_tally_add(s.tally, w, 0));
        MOVES(w, top - 26, &s, pelmetsavory_sheet_run_piece(&y, &s, w, piece));
        s.tally[w] = top - 25; KEPT(20, &s, pelmetsavory_sheet_carry_on(&y, &s, w)); s.tally[w] = top - 26; /* 26 are open */
        MOVES(w, top, &s, pelmetsavory_sheet_carry_on(&y, &s, w));
        KEPT(0, &s, pelmetsavory_sheet_carry_on(&y, &s, w));
        KEPT(20, &s, pelmetsavory_sheet_run_piece(&y, &s, w, piece));
        s.tally[w] = 7; memset(s.marks, 0, PIECES);
        MOVES(w, 34, &s, pelmetsavory_sheet_play(&y, &s, 2, two, NULL, 0, answers, tallies));
        YES(!answers[0] && !answers[1] && tallies[0][w] == 8 && tallies[1][w] == 34 && tallies[0][(w + 1) % 16] == s.tally[(w + 1) % 16]);
        s.tally[w] = top - 1;
        MOVES(w, top, &s, pelmetsavory_tally_add(s.tally, w, 1));
        free_sheet(&s);
    }
}

/* the answer to a text: the stored listing of the stored study; what lies behind it in the buffer stays */
static uint8_t text[16385], answer[PELMETSAVORY_ANSWER];

static size_t stored(const char *file, uint8_t *to, size_t room)
{
    FILE *f = data(file);
    YES(f);
    size_t n = fread(to, 1, room, f);
    YES(n > 0 && n < room && !fclose(f));
    return n;
}

static void answered(const uint8_t *from, size_t n, const char *want, size_t length)
{
    memset(answer, 0x5a, sizeof answer);
    YES(pelmetsavory_answer(from, n, answer) == length && !memcmp(answer, want, length));
    for (size_t k = length; k < sizeof answer; k++) YES(answer[k] == 0x5a);
    number((long long)length);
}

static uint8_t listing[16384]; /* the stored one */
static size_t listing_length;

static void texts(void)
{
    size_t n = stored("study.txt", text, sizeof text), length = listing_length = stored("listing.txt", listing, sizeof listing);
    name("answer");
    answered(text, n, (const char *)listing, length);
    answered(text, n - 1, "refused\t1\n", 10);
    answered(NULL, 0, "refused\t1\n", 10);
    answered(text, sizeof text, "refused\t1\n", 10);
    text[5] = '7'; answered(text, n, "refused\t3\n", 10); text[5] = '2';
    text[n - 4] = '2'; answered(text, n, "refused\t10\n", 11); text[n - 4] = '1';
    end();
    YES(pelmetsavory_question(1) && pelmetsavory_question(25) && !pelmetsavory_question(26));
}

static const pelmetsavory_counts small_counts = {TRIPLETS, POINTS, BANDS, BANDS};
static double back[ENTRIES + 2]; /* what was read, with a place before and one behind it */
static int8_t back_flags[CELLS + 2];

/* The status of a listing that lies in memory of its own length, read into buffers filled before: what is refused leaves them, and nothing is
 * written before or behind them. */
static uint64_t read_as(const uint8_t *from, size_t n, int64_t tp_type, pelmetsavory_counts counts, size_t weights, size_t flags)
{
    static double old[ENTRIES + 2];
    static int8_t old_flags[CELLS + 2];
    uint8_t *own = n ? malloc(n) : NULL;
    if (n) { YES(own); memcpy(own, from, n); }
    memset(old, 0x5a, sizeof old); memset(old_flags, 0x5a, sizeof old_flags);
    memcpy(back, old, sizeof old); memcpy(back_flags, old_flags, sizeof old_flags);
    uint64_t status = pelmetsavory_read_listing(own, n, tp_type, counts, weights ? back + 1 : NULL, weights, flags ? back_flags + 1 : NULL, flags);
    if (status) weights = flags = 0;
    YES(!memcmp(back, old, 8) && !memcmp(back + 1 + weights, old + 1 + weights, sizeof old - (1 + weights) * 8));
    YES(*back_flags == *old_flags && !memcmp(back_flags + 1 + flags, old_flags + 1 + flags, sizeof old_flags - 1 - flags));
    if (n) YES(!memcmp(own, from, n));
    free(own);
    return status;
}

/* of the small study's type, counts and lengths */
static uint64_t read_small(const uint8_t *from, size_t n) { return read_as(from, n, 3, small_counts, ENTRIES, CELLS); }

/* of the stored listing, with so many bytes at a place replaced by a text */
static uint64_t edited(size_t at, size_t bytes, const char *by)
{
    static uint8_t changed[sizeof listing + 64];
    size_t n = strlen(by);
    memcpy(changed, listing, at);
    memcpy(changed + at, by, n);
    memcpy(changed + at + n, listing + at + bytes, listing_length - at - bytes);
    return read_small(changed, listing_length - bytes + n);
}

enum { HEADER = 27, FLAG = HEADER + 8, WEIGHT = FLAG + 2 }; /* of the listing: where the first line, its flag and its weights begin */

/* 8, 9 and 12 are asked first, in their order, whatever the text is */
static void listing_asks(void)
{
    const int64_t types[5] = {1, 5, 0, INT64_MIN, INT64_MAX};
    const pelmetsavory_counts off[] = {
        {-1, 5, 3, 3}, {65537, 5, 3, 3}, {INT64_MIN, 5, 3, 3}, {INT64_MAX, INT64_MAX, INT64_MAX, INT64_MAX}, {3, 0, 3, 3}, {3, -5, 3, 3}, {3, 1025, 3, 3},
        {3, 5, 0, 3}, {3, 5, 65, 3}, {3, 5, -3, -3}, {3, 5, 3, 0}, {3, 5, 3, 65}, {-3, -5, 3, 3}, {INT64_C(1) << 32, INT64_C(1) << 32, 1, 1},
    };
    const pelmetsavory_counts most = {65536, 1024, 64, 64}, turned = {TRIPLETS * POINTS, 1, BANDS, BANDS};
    for (size_t n = 0; n <= listing_length; n += listing_length) { /* of no text, and of the listing */
        for (int k = 0; k < 5; k++) { WANT(8, read_as(listing, n, types[k], small_counts, ENTRIES, CELLS)); WANT(8, read_as(listing, n, types[k], off[k], 1, 1)); }
        for (size_t k = 0; k < sizeof off / sizeof *off; k++) { WANT(9, read_as(listing, n, 3, off[k], ENTRIES, CELLS)); WANT(9, read_as(listing, n, 3, off[k], 0, 0)); }
        WANT(12, read_as(listing, n, 3, small_counts, ENTRIES - 1, CELLS));
        WANT(12, read_as(listing, n, 3, small_counts, ENTRIES, CELLS - 1));
        WANT(12, read_as(listing, n, 3, small_counts, CELLS, CELLS));
        WANT(12, read_as(listing, n, 3, small_counts, 0, 0));
        WANT(12, read_as(listing, n, 2, small_counts, ENTRIES, CELLS)); /* the weights of another type */
        WANT(12, read_as(listing, n, 3, most, ENTRIES, CELLS));
        WANT(22, read_as(listing, n, 2, small_counts, 2 * CELLS, CELLS));
        WANT(22, read_as(listing, n, 4, small_counts, CELLS, CELLS));
        WANT(22, read_as(listing, n, 3, turned, ENTRIES, CELLS)); /* the same lengths, other counts */
    }
}

/* what no writer printed: edits of the listing, each byte of it replaced (one in `step`), lines less, more and exchanged */
static void not_printed(size_t step)
{
    const size_t n = listing_length, last = n - 17; /* where the last weight begins */
    const struct { size_t at, bytes; const char *by; } edits[] = {
        {0, n, ""}, {0, n, "\n"}, {0, n, "refused\t10\n"}, {HEADER, n - HEADER, ""}, {0, HEADER, ""}, {0, 7, "Triplet"}, {HEADER - 2, 1, "weight"}, {0, 0, "\xef\xbb\xbf"},
        {FLAG, 1, "2"}, {FLAG, 1, "-1"}, {FLAG, 1, "00"}, {FLAG, 1, "+0"}, {FLAG, 1, ""}, {FLAG + 1, 1, " "}, {FLAG + 1, 1, "\t\t"}, {HEADER + 1, 1, " "}, {7, 1, " "},
        {HEADER, 1, "00"}, {HEADER, 1, "1"}, {WEIGHT, 1, ""}, {WEIGHT, 0, "0"}, {last, 1, "A"}, {last, 1, "g"}, {n - 2, 1, "F"}, {n - 1, 1, ""}, {n - 1, 1, "\r\n"},
        {n - 1, 1, "\r"}, {n - 1, 1, "\t\n"}, {n - 1, 1, "0"}, {n, 0, "\n"}, {n, 0, "0"}, {HEADER - 1, 1, "\r\n"}, {last - 1, 17, ""},
        {n, 0, "3\t0\t0\t0\t0\t0000000000000000\t0000000000000000\t0000000000000000\n"}, {last, 16, "7ff8000000000001"}, {last, 16, "fff8000000000000"},
        {last, 16, "7ff0000000000001"}, {last, 16, "fff0000000000001"}, {last, 16, "7fffffffffffffff"}, {last, 16, "ffffffffffffffff"},
    };
    for (size_t k = 0; k < sizeof edits / sizeof *edits; k++)
        if (edited(edits[k].at, edits[k].bytes, edits[k].by) != 22) { printf("edit %zu of a listing is not refused\n", k); exit(1); }
    for (size_t at = 0; at < n; at += step) WANT(22, edited(at, 1, "x"));
    size_t first = HEADER, end = n - 1; /* the length of the first line, which the second has too; where the last one begins */
    while (listing[first] != '\n') first++;
    while (listing[end - 1] != '\n') end--;
    first += 1 - HEADER;
    WANT(22, edited(HEADER, first, ""));
    WANT(22, edited(end, n - end, ""));
    uint8_t lines[sizeof listing];
    memcpy(lines, listing, n);
    memcpy(lines + HEADER, listing + HEADER + first, first); memcpy(lines + HEADER + first, listing + HEADER, first);
    YES(lines[HEADER + 2 * first - 1] == '\n');
    WANT(22, read_small(lines, n));
}

/* a listing read back has every bit of what it was printed from */
static void listings(size_t step)
{
    static double w[ENTRIES];
    static int8_t f[CELLS];
    const size_t n = listing_length, places[2] = {WEIGHT, n - 17};
    WANT(0, pelmetsavory_integration_weight(PELMETSAVORY_STUDY(&y), triplets, 9, w, ENTRIES, f, CELLS));
    YES(pelmetsavory_answer(text, stored("study.txt", text, sizeof text), answer) == n);
    WANT(0, read_small(answer, n));
    YES(!memcmp(back + 1, w, sizeof w) && !memcmp(back_flags + 1, f, sizeof f));
    name("listing"); floats(back + 1, ENTRIES);
    for (int k = 1; k <= CELLS; k++) number(back_flags[k]);
    end();
    listing_asks();
    not_printed(step);

    /* weights that no study has, and the one NaN that is printed: in the first place and in the last */
    const char *const taken[] = {"8000000000000000", "7ff0000000000000", "fff0000000000000", "0000000000000001", "ffefffffffffffff", "7ff8000000000000"};
    for (int k = 0; k < 12; k++) {
        uint64_t bits;
        WANT(0, edited(places[k % 2], 16, taken[k / 2]));
        memcpy(&bits, back + (k % 2 ? ENTRIES : 1), 8);
        YES(bits == strtoull(taken[k / 2], NULL, 16));
    }
    WANT(0, edited(FLAG, 1, f[0] ? "0" : "1"));
    YES(back_flags[1] == !f[0]);

    /* without triplets: the header alone; no buffer has a pointer */
    const pelmetsavory_counts none_of_them = {0, 1024, 64, 64};
    for (int k = 2; k < 5; k++) {
        WANT(0, read_as(listing, HEADER, k, none_of_them, 0, 0));
        WANT(22, read_as(listing, HEADER - 1, k, none_of_them, 0, 0));
        WANT(22, read_as(listing, HEADER + 1, k, none_of_them, 0, 0));
        WANT(22, read_as(NULL, 0, k, none_of_them, 0, 0));
        WANT(12, read_as(listing, HEADER, k, none_of_them, 0, 1));
    }
}

/* test frequencies from a start: one chain over three buffers, each filled to its own length and no further; one of no length has no pointer */
static void loads(void)
{
    enum { ROOM = 8 };
    const uint32_t starts[5] = {0, 1, 2147483648u, 4294967295u, 123456789};
    const size_t counts[6][3] = {{0, 0, 0}, {1, 0, 0}, {0, 1, 0}, {0, 0, 1}, {3, 0, 2}, {5, 3, 2}};
    double buffers[3][ROOM], guard, want;
    memset(&guard, 0x5a, sizeof guard);
    for (int k = 0; k < 5; k++)
        for (int j = 0; j < 6; j++) {
            const size_t *n = counts[j];
            double *to[3];
            for (int r = 0; r < 3; r++) { memset(buffers[r], 0x5a, sizeof buffers[r]); to[r] = n[r] ? buffers[r] + 1 : NULL; }
            pelmetsavory_fill_frequencies(starts[k], to[0], n[0], to[1], n[1], to[2], n[2]);
            name("frequencies"); number(starts[k]);
            uint32_t x = starts[k];
            for (int r = 0; r < 3; r++) {
                for (size_t i = 0; i < ROOM; i++) {
                    want = guard;
                    if (1 <= i && i <= n[r]) { x = x * 1664525u + 1013904223u; want = (x >> 16) / 4096.0; }
                    YES(!memcmp(buffers[r] + i, &want, sizeof want));
                }
                number((long long)n[r]); floats(buffers[r] + 1, (int)n[r]);
            }
            end();
        }
    pelmetsavory_fill_frequencies(0, &want, 1, NULL, 0, NULL, 0);
    YES(want == 3.77685546875);
}

/* the entries with work areas, on a stack that was filled with 0xa5 before */
static void *deep(void *sheet)
{
    static double at[18], weights[ENTRIES], w1[135];
    static int8_t flags[CELLS], f1[45];
    static int64_t all[1152], which[288];
    static size_t index;
    static const double unit[9] = {1, 0, 0, 0, 1, 0, 0, 0, 1};
    static const pelmetsavory_triple second = {{3, 5, 6}};
    WANT(0, pelmetsavory_sheet_run_piece(&y, sheet, 0, piece_at(0)));
    WANT(0, pelmetsavory_sheet_carry_on(&y, sheet, 0));
    WANT(0, pelmetsavory_sheet_average_triplet(&y, sheet, 0, ids1, 3, ids2, 3));
    WANT(0, pelmetsavory_integration_weight(PELMETSAVORY_STUDY(&y), triplets, 9, weights, ENTRIES, flags, CELLS));
    WANT(0, pelmetsavory_integration_weight_per_triplet(PELMETSAVORY_STUDY(&y), second, w1, 135, f1, 45));
    WANT(0, weighed(at, table, 288, 'I'));
    WANT(0, weighed_checked(at, table, 288, 'I'));
    WANT(0, pelmetsavory_check_relative_grid_address(table, 288));
    WANT(0, pelmetsavory_relative_grid_address(unit, which, &index));
    pelmetsavory_all_relative_grid_address(all);
    pelmetsavory_generated_relative_grid_address(all);
    pelmetsavory_fill_frequencies(0, at, 9, weights, ENTRIES, w1, 135);
    WANT(0, pelmetsavory_read_listing(listing, listing_length, 3, small_counts, weights, ENTRIES, flags, CELLS));
    return NULL;
}

static void *deep_list(void *sheet)
{
    static uint64_t answers[CALLS], tallies[CALLS][COUNTS];
    WANT(0, pelmetsavory_sheet_play(&y, sheet, CALLS, list, ids, 6, answers, tallies));
    return NULL;
}

static void *deep_answer(void *length)
{
    YES(pelmetsavory_answer(text, *(size_t *)length, answer) > 1000);
    return NULL;
}

/* how much of its stack a thread used */
static size_t stack_used(void *(*calls)(void *), void *given)
{
    enum { SIZE = 4 << 20 };
    unsigned char *stack = aligned_alloc(4096, SIZE);
    pthread_t thread;
    pthread_attr_t own;
    YES(stack);
    memset(stack, 0xa5, SIZE);
    YES(!pthread_attr_init(&own) && !pthread_attr_setstack(&own, stack, SIZE) && !pthread_create(&thread, &own, calls, given) && !pthread_join(thread, NULL));
    size_t untouched = 0;
    while (stack[untouched] == 0xa5) untouched++;
    free(stack);
    return SIZE - untouched;
}

static void stack_need(void)
{
    pelmetsavory_sheet s = new_sheet(&y, 0, 0, NULL), t = new_sheet(&y, 0, 0, NULL);
    size_t length = stored("study.txt", text, sizeof text);
    size_t plain = stack_used(deep, &s), played = stack_used(deep_list, &t), whole = stack_used(deep_answer, &length);
    printf("c: threads used %zu bytes of stack, %zu for a list, %zu for an answer to a text\n", plain, played, whole);
    YES(plain < 64 * 1024 && played < 64 * 1024 && whole < 1280 * 1024);
    free_sheet(&s); free_sheet(&t);
}

int main(int argc, char **argv)
{
    const char *why = "";
    YES(pelmetsavory_ready(&why) && !why && pelmetsavory_ready(NULL) && pelmetsavory_float_mode_ok() && sizeof(pelmetsavory_shape) == 56);
    if (argc < 2) { /* valgrind keeps no float mode: any argument leaves this out */
        const unsigned modes[] = {0x8000, 0x0040, 0x2000, 0x4000, 0x6000}; /* flush to zero, denormals are zero, down, up, towards zero */
        for (int k = 0; k < 5; k++) { _mm_setcsr(_mm_getcsr() | modes[k]); YES(!pelmetsavory_float_mode_ok() && !pelmetsavory_ready(&why) && strstr(why, "float mode")); _mm_setcsr(_mm_getcsr() & ~modes[k]); }
    }
    (void)argv;
    if (getenv("PELMETSAVORY_OUT")) out = fopen(getenv("PELMETSAVORY_OUT"), "w");
    calls();
    lists();
    workers();
    texts();
    listings(argc < 2 ? 1 : 97);
    loads();
    if (out) YES(!fclose(out));
    if (argc < 2) stack_need();
    puts("c: ok");
    return 0;
}
