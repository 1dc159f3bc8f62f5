/* made by foreign/bindings.py from the Rattle source and foreign/questions.txt: do not edit */
#ifndef PELMETSAVORY_ENTRIES_H
#define PELMETSAVORY_ENTRIES_H
#include <stddef.h>
#include <stdint.h>

/* The interface version that this header was made for: that of the library must be the same (pelmetsavory_ready). */
#define PELMETSAVORY_INTERFACE_VERSION 8

/* A piece as a caller names it: any numbers. */
typedef struct {
    int64_t triplet; /* triplet, from 0 */
    int64_t b1; /* first band, from 0 */
    int64_t b2; /* second band, from 0 */
} pelmetsavory_piece;

/* Three whole numbers: a triplet, an address, a mesh or a vector. */
typedef struct {
    int64_t numbers[3]; /* the three */
} pelmetsavory_triple;

/* The kind and the mesh of a grid. */
typedef struct {
    int64_t bz_grid_type; /* kind of the grid, 1 or 2 */
    int64_t d_diag[3]; /* mesh numbers */
} pelmetsavory_grid;

/* The counts of a sheet, any numbers: triplets, frequency points, bands of the second point and of the third. */
typedef struct {
    int64_t num_triplets; /* number of triplets */
    int64_t num_band0; /* number of frequency points */
    int64_t num_band1; /* first number of bands */
    int64_t num_band2; /* second number of bands */
} pelmetsavory_counts;

/* The numbers of a study: any values, tested by the questions. */
typedef struct {
    int64_t bz_grid_type; /* kind of the grid, 1 or 2 */
    int64_t d_diag[3]; /* mesh numbers */
    int64_t tp_type; /* type of the triplets, 2, 3 or 4 */
    int64_t num_band1; /* first number of bands */
    int64_t num_band2; /* second number of bands */
} pelmetsavory_shape;

/* Writes the answer to a text at the start of `out`, and tells how many bytes it has: the listing of its study, or its refusal. Questions 1, 3, 4, 5, 6, 8, 9, 10, 11. */
size_t pelmetsavory_answer(
    const uint8_t *text,
    size_t text_len,
    uint8_t out[118617]);

/* The neighbours of one grid point. Questions 3 to 7, 10, 12. */
uint64_t pelmetsavory_fill_neighboring_grid_points(
    int64_t *out,
    size_t out_len,
    int64_t grid_point,
    const int64_t *relative_grid_address,
    size_t relative_grid_address_len,
    pelmetsavory_grid grid,
    const int64_t *addresses,
    size_t addresses_len,
    const int64_t *gp_map,
    size_t gp_map_len);

/* The neighbours of many grid points, those of each in turn. Questions 3 to 7, 9, 10, 12. */
uint64_t pelmetsavory_neighboring_grid_points_many(
    int64_t *out,
    size_t out_len,
    const int64_t *grid_points,
    size_t grid_points_len,
    const int64_t *relative_grid_address,
    size_t relative_grid_address_len,
    pelmetsavory_grid grid,
    const int64_t *addresses,
    size_t addresses_len,
    const int64_t *gp_map,
    size_t gp_map_len);

/* The grid index of an address, behind `index`. Question 4, with mesh numbers from 1 to 256. */
uint64_t pelmetsavory_grid_index_from_address(
    pelmetsavory_triple address,
    pelmetsavory_triple d_diag,
    int64_t *index);

/* A lattice times a whole vector, behind `product`. Questions 2, 7. */
uint64_t pelmetsavory_matvec_di(
    const double a[9],
    pelmetsavory_triple b,
    double product[3]);

/* Restores the weights and flags that the writer printed, of a type and counts. Accepted is exactly what it prints for the restored record. Questions 8, 9, 12, 22. */
uint64_t pelmetsavory_read_listing(
    const uint8_t *listing,
    size_t listing_len,
    int64_t tp_type,
    pelmetsavory_counts counts,
    double *weights,
    size_t weights_len,
    int8_t *flags,
    size_t flags_len);

/* Test frequencies from a 32-bit start: the first frequency record, then the second, then the points, one chain over all three. Any lengths; nothing is asked and nothing refused. */
void pelmetsavory_fill_frequencies(
    uint32_t start,
    double *frequencies1,
    size_t frequencies1_len,
    double *frequencies2,
    size_t frequencies2_len,
    double *frequency_points,
    size_t frequency_points_len);

/* Plays a list of calls, six numbers a call, on a sheet with any marks, and counts the runs behind `tally`. Each call's status goes to its place in `answers`, the sixteen counts after it to their places in `tallies`. The status is 0, or 12: has the list six numbers, and `tallies` sixteen, for each of `answers`? What a call asks is told in its place alone. */
uint64_t pelmetsavory_play(
    pelmetsavory_shape shape,
    const int64_t *addresses,
    size_t addresses_len,
    const int64_t *gp_map,
    size_t gp_map_len,
    const int64_t *relative_grid_address,
    size_t relative_grid_address_len,
    const double *frequencies1,
    size_t frequencies1_len,
    const double *frequencies2,
    size_t frequencies2_len,
    const double *frequency_points,
    size_t frequency_points_len,
    const int64_t *triplets,
    size_t triplets_len,
    double *weights,
    size_t weights_len,
    int8_t *flags,
    size_t flags_len,
    uint8_t *marks,
    size_t marks_len,
    uint64_t tally[16],
    const int64_t *list,
    size_t list_len,
    const int64_t *ids,
    size_t ids_len,
    uint64_t *answers,
    size_t answers_len,
    uint64_t *tallies,
    size_t tallies_len);

/* Runs one piece, and counts it behind `tally` for its worker, 0 to 15. Questions 3 to 15, 21, 20. */
uint64_t pelmetsavory_run_piece(
    pelmetsavory_shape shape,
    const int64_t *addresses,
    size_t addresses_len,
    const int64_t *gp_map,
    size_t gp_map_len,
    const int64_t *relative_grid_address,
    size_t relative_grid_address_len,
    const double *frequencies1,
    size_t frequencies1_len,
    const double *frequencies2,
    size_t frequencies2_len,
    const double *frequency_points,
    size_t frequency_points_len,
    const int64_t *triplets,
    size_t triplets_len,
    double *weights,
    size_t weights_len,
    int8_t *flags,
    size_t flags_len,
    uint8_t *marks,
    size_t marks_len,
    uint64_t tally[16],
    int64_t worker,
    pelmetsavory_piece piece);

/* Runs all pieces marked 0, in ascending order, and counts them behind `tally` for their worker, 0 to 15. Questions 3 to 13, 21, 20. */
uint64_t pelmetsavory_carry_on(
    pelmetsavory_shape shape,
    const int64_t *addresses,
    size_t addresses_len,
    const int64_t *gp_map,
    size_t gp_map_len,
    const int64_t *relative_grid_address,
    size_t relative_grid_address_len,
    const double *frequencies1,
    size_t frequencies1_len,
    const double *frequencies2,
    size_t frequencies2_len,
    const double *frequency_points,
    size_t frequency_points_len,
    const int64_t *triplets,
    size_t triplets_len,
    double *weights,
    size_t weights_len,
    int8_t *flags,
    size_t flags_len,
    uint8_t *marks,
    size_t marks_len,
    uint64_t tally[16],
    int64_t worker);

/* Averages a triplet over the degenerate sets of two id lists; all counts stay, and it names no worker. Questions 3 to 19. */
uint64_t pelmetsavory_average_triplet(
    pelmetsavory_shape shape,
    const int64_t *addresses,
    size_t addresses_len,
    const int64_t *gp_map,
    size_t gp_map_len,
    const int64_t *relative_grid_address,
    size_t relative_grid_address_len,
    const double *frequencies1,
    size_t frequencies1_len,
    const double *frequencies2,
    size_t frequencies2_len,
    const double *frequency_points,
    size_t frequency_points_len,
    const int64_t *triplets,
    size_t triplets_len,
    double *weights,
    size_t weights_len,
    int8_t *flags,
    size_t flags_len,
    uint8_t *marks,
    size_t marks_len,
    uint64_t tally[16],
    int64_t triplet,
    const int64_t *degenerate_ids1,
    size_t degenerate_ids1_len,
    const int64_t *degenerate_ids2,
    size_t degenerate_ids2_len);

/* The open count of a triplet, behind `count`: its entries (point, b1, b2) with a weight other than zero in some output of the type. Either zero is zero, a NaN is not. Questions 8, 9, 12, 14. */
uint64_t pelmetsavory_open_count(
    int64_t tp_type,
    pelmetsavory_counts counts,
    const double *weights,
    size_t weights_len,
    int64_t triplet,
    uint64_t *count);

/* Adds a worker's runs behind `tally`. Questions 21, 20. */
uint64_t pelmetsavory_tally_add(
    uint64_t tally[16],
    int64_t worker,
    uint64_t runs);

/* The weights of each band at each frequency point, for each grid point; `letter` 'I' (73) asks for the density's weight, any other byte for that of the number of states, J. Questions 3 to 7, 9 to 12. */
uint64_t pelmetsavory_integration_weights_at_grid_points(
    double *iw,
    size_t iw_len,
    const double *frequency_points,
    size_t frequency_points_len,
    const int64_t *relative_grid_address,
    size_t relative_grid_address_len,
    const int64_t *grid_points,
    size_t grid_points_len,
    const double *frequencies,
    size_t frequencies_len,
    int64_t num_band,
    int64_t num_ir,
    pelmetsavory_grid grid,
    const int64_t *addresses,
    size_t addresses_len,
    const int64_t *gp_map,
    size_t gp_map_len,
    const int64_t *gp2irgp_map,
    size_t gp2irgp_map_len,
    uint8_t letter);

/* The weights at grid points as above under a table of the caller's, which must be one that `pelmetsavory_check_relative_grid_address` accepts. Questions 3 to 7, 23 to 25, 9 to 12. */
uint64_t pelmetsavory_checked_integration_weights_at_grid_points(
    double *iw,
    size_t iw_len,
    const double *frequency_points,
    size_t frequency_points_len,
    const int64_t *relative_grid_address,
    size_t relative_grid_address_len,
    const int64_t *grid_points,
    size_t grid_points_len,
    const double *frequencies,
    size_t frequencies_len,
    int64_t num_band,
    int64_t num_ir,
    pelmetsavory_grid grid,
    const int64_t *addresses,
    size_t addresses_len,
    const int64_t *gp_map,
    size_t gp_map_len,
    const int64_t *gp2irgp_map,
    size_t gp2irgp_map_len,
    uint8_t letter);

/* Whether a table of the caller's is accepted: 24 rows of four corners of three small whole numbers, which close around the point without gap or overlap. Questions 7, 23, 24, 25. */
uint64_t pelmetsavory_check_relative_grid_address(
    const int64_t *relative_grid_address,
    size_t relative_grid_address_len);

/* The table whose main diagonal is shortest, the first on a tie, and its number behind `index`. The columns of `rec_lattice` are the edges of one cell of the mesh: column j is reciprocal basis vector j divided by mesh number j, as phono3py has it. A diagonal is `rec_lattice` times 1,1,1 or -1,1,1 or 1,-1,1 or 1,1,-1: the three columns added, none or one of them negated. Question 2. */
uint64_t pelmetsavory_relative_grid_address(
    const double rec_lattice[9],
    int64_t table[288],
    size_t *index);

/* All four tables, one after the other. */
void pelmetsavory_all_relative_grid_address(
    int64_t all[1152]);

/* All four tables, made from the main diagonals: the rows of those above, in an order of their own. */
void pelmetsavory_generated_relative_grid_address(
    int64_t all[1152]);

/* One weight over directly given vertices, behind `weight`; `letter` 'I' (73) asks for the density's weight, any other byte for that of the number of states, J. Questions 7, 11. */
uint64_t pelmetsavory_tetrahedra_integration_weight(
    double omega,
    const double *tetrahedra_omegas,
    size_t tetrahedra_omegas_len,
    uint8_t letter,
    double *weight);

/* The weights and flags of all triplets. Questions 3 to 12. */
uint64_t pelmetsavory_integration_weight(
    pelmetsavory_shape shape,
    const int64_t *addresses,
    size_t addresses_len,
    const int64_t *gp_map,
    size_t gp_map_len,
    const int64_t *relative_grid_address,
    size_t relative_grid_address_len,
    const double *frequencies1,
    size_t frequencies1_len,
    const double *frequencies2,
    size_t frequencies2_len,
    const double *frequency_points,
    size_t frequency_points_len,
    const int64_t *triplets,
    size_t triplets_len,
    double *weights,
    size_t weights_len,
    int8_t *flags,
    size_t flags_len);

/* The weights and flags of one triplet. Questions 3 to 12. */
uint64_t pelmetsavory_integration_weight_per_triplet(
    pelmetsavory_shape shape,
    const int64_t *addresses,
    size_t addresses_len,
    const int64_t *gp_map,
    size_t gp_map_len,
    const int64_t *relative_grid_address,
    size_t relative_grid_address_len,
    const double *frequencies1,
    size_t frequencies1_len,
    const double *frequencies2,
    size_t frequencies2_len,
    const double *frequency_points,
    size_t frequency_points_len,
    pelmetsavory_triple triplet,
    double *weights,
    size_t weights_len,
    int8_t *flags,
    size_t flags_len);

/* Averages the weights and the flags of one triplet in place. Questions 8, 9, 12, 17, 19. */
uint64_t pelmetsavory_average_weights_over_degenerate_sets(
    double *iw,
    size_t iw_len,
    int8_t *iw_zero,
    size_t iw_zero_len,
    const int64_t *degenerate_ids1,
    size_t degenerate_ids1_len,
    const int64_t *degenerate_ids2,
    size_t degenerate_ids2_len,
    int64_t num_band0,
    int64_t num_band,
    int64_t tp_type);

/* Whether the three addresses of a triplet add to zero: 1 or 0, behind `normal`. Questions 5 (without the count) and 10. */
uint64_t pelmetsavory_is_n(
    pelmetsavory_triple triplet,
    const int64_t *bz_grid_addresses,
    size_t bz_grid_addresses_len,
    uint8_t *normal);

/* Both copies of the neighbour table, one after the other. Questions 7, 8, 12. */
uint64_t pelmetsavory_set_relative_grid_address(
    int64_t *out,
    size_t out_len,
    const int64_t *relative_grid_address,
    size_t relative_grid_address_len,
    int64_t tp_type);

/* How many weights a triplet of a type has at a point of a band pair, behind `channels`. Question 8. */
uint64_t pelmetsavory_num_channels(
    int64_t tp_type,
    size_t *channels);

/* The version of the binary interface. A caller made for another one makes no other call. */
uint64_t pelmetsavory_interface_version(
    void);

/* The question that a status carries, in words; NULL for any other number. */
static inline const char *pelmetsavory_question(uint64_t status)
{
    switch (status) {
    case 1: return "Is the study text at most 16,384 bytes, well formed, with at most 4,096 weights, channels counted?";
    case 2: return "Are lattice entries finite, magnitude at most 2^30?";
    case 3: return "Is the grid kind 1 or 2?";
    case 4: return "Is each mesh number 1 to 128 (the grid index alone: 1 to 256)?";
    case 5: return "Are addresses whole triples, from N to 8N of them, components within +-4096?";
    case 6: return "Is the map sound (kind 1: at least 8N long, its first 8N values 0 to P-1 or 8N; kind 2: at least N+1 long, from 0 to P, rising strictly)?";
    case 7: return "Has the table 24, 48, 72 or 96 rows (neighbour call: one triple or more), components within +-4096?";
    case 8: return "Is the type 2, 3 or 4?";
    case 9: return "Are band counts 1 to 64, frequency points 1 to 1024, triplets or grid points at most 65536?";
    case 10: return "Is each grid point, and all three of each triplet, 0 to P-1?";
    case 11: return "Do frequencies hold P times bands values (grid-point weights: R times bands, and P map values 0 to R-1), each zero or of magnitude 2^-600 to 2^30, points and vertices zero or 2^-660 to 2^31?";
    case 12: return "Is each lent buffer exactly as long as its record?";
    case 13: return "Are marks 0, 1, 2, and a triplet's all 2 or none 2?";
    case 14: return "Is the named triplet or piece on the sheet?";
    case 15: return "Is the triplet not yet averaged?";
    case 16: return "Are both band counts equal?";
    case 17: return "Have both id lists that length, each id its own place or the id before it?";
    case 18: return "Are all the triplet's marks 1?";
    case 19: return "Are its weights finite, magnitude at most 2^60, none a negative zero?";
    case 20: return "Does the worker's count stay below 2^63 after all runs of this call?";
    case 21: return "Is the worker 0 to 15?";
    case 22: return "Are the listing's header, lines, field forms and order those of the writer?";
    case 23: return "Are there 24 rows, each with first corner zero, components -2 to 2 and determinant 1 or -1?";
    case 24: return "Is each face in exactly two rows, on opposite sides?";
    case 25: return "Is the direction 1, 100, 10000 strictly inside exactly one row's cone?";
    default: return NULL;
    }
}

#endif
