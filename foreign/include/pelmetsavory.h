/* The C interface of libpelmetsavory.a (x86-64, System V).
 *
 * A slice is a pointer and a count of ELEMENTS. A pointer must be valid for its count and aligned for its element; with count 0 nothing
 * is read or written behind it, and it may be NULL. No count times the element's size may reach 2^63.
 * What is written (buffers, tally) must not overlap anything else that the call is given; inputs may overlap one another.
 * Nothing else may write these arrays while a call runs.
 * Any values in arrays and structs are taken: what is wrong is told by the status, 0 or the number of the first question that is
 * answered no (pelmetsavory_question gives its words). After a refusal every buffer and all counts of the tally are as they were.
 * pelmetsavory_answer has no status but the length of its answer, and writes a refusal as a line of text;
 * pelmetsavory_all_relative_grid_address, pelmetsavory_generated_relative_grid_address and pelmetsavory_fill_frequencies refuse nothing, and
 * have no status. The generated tables show where the others come from: never take them for weights that are to agree in every bit, since
 * their rows stand in another order, and sums depend on it.
 * pelmetsavory_read_listing takes a whole listing, as pelmetsavory_answer and the program `weights` print it, without a limit of size; its
 * buffers are those of a sheet of the type and counts: triplets * points * b1 * b2 flags, and as many weights for each output of the type
 * (pelmetsavory_num_channels). A listing of another length, or with a byte that the writer would not print, is refused by question 22.
 * A tally has sixteen counts, one for each worker. A run and a carry-on name their worker, 0 to 15, and move that count alone; any other
 * number is refused by question 21, and a worker's count that would reach 2^63 by question 20. Averaging names no worker.
 * A function letter 'I' names the weight of the density; any other byte names J, that of the number of states.
 * Call pelmetsavory_ready before anything else, in each thread. Floats: the thread must round to nearest, without flush-to-zero (FTZ) and
 * denormals-are-zero (DAZ). The library must be of the header's interface version.
 * A call needs less than 64 KiB of stack, pelmetsavory_answer less than 1.25 MiB; it allocates nothing, and keeps nothing: threads may call
 * on different sheets at once. */
#ifndef PELMETSAVORY_H
#define PELMETSAVORY_H
#include <stddef.h>
#include <stdint.h>
#include <xmmintrin.h>

#ifdef __cplusplus
extern "C" {
#endif

#include "pelmetsavory_entries.h"

/* 1 where the thread's float mode is the one that the proofs speak of. Loading a library built with -ffast-math can change it. */
static inline int pelmetsavory_float_mode_ok(void) { return (_mm_getcsr() & 0xe040u) == 0; }

#define PELMETSAVORY_TEXT_(x) #x
#define PELMETSAVORY_TEXT(x) PELMETSAVORY_TEXT_(x)

/* 1 where calls may be made: the library has this header's interface version, and the thread's float mode is right. Otherwise 0, and
 * `*why`, where `why` is not NULL, says in words what is wrong: make no call. */
static inline int pelmetsavory_ready(const char **why)
{
    const char *no = NULL;
    if (pelmetsavory_interface_version() != PELMETSAVORY_INTERFACE_VERSION)
        no = "libpelmetsavory has another interface version than pelmetsavory.h, which was made for "
            PELMETSAVORY_TEXT(PELMETSAVORY_INTERFACE_VERSION) ": take both from one source";
    else if (!pelmetsavory_float_mode_ok())
        no = "this thread's float mode is not IEEE 754's: rounding is not to nearest, or subnormals are flushed (was a library built with "
            "-ffast-math loaded?)";
    if (why) *why = no;
    return no == NULL;
}

/* A study and a sheet as structs, and the calls on them: the entries' arguments in order, nothing else. */
typedef struct {
    pelmetsavory_shape shape;
    const int64_t *addresses; size_t addresses_len;
    const int64_t *gp_map; size_t gp_map_len;
    const int64_t *relative_grid_address; size_t relative_grid_address_len;
    const double *frequencies1; size_t frequencies1_len;
    const double *frequencies2; size_t frequencies2_len;
    const double *frequency_points; size_t frequency_points_len;
    const int64_t *triplets; size_t triplets_len;
} pelmetsavory_study;

typedef struct {
    double *weights; size_t weights_len;  /* by channel, triplet, point, b1, b2 */
    int8_t *flags; size_t flags_len;      /* by triplet, point, b1, b2 */
    uint8_t *marks; size_t marks_len;     /* by triplet, b1, b2: 0 open, 1 computed, 2 averaged */
    uint64_t tally[16];                   /* by worker: how many of its runs were accepted, repeats included */
    uint64_t began[16];                   /* the tally that the sheet began with, and the fingerprint of its study: for storing and taking */
    uint8_t study[32];                    /* over (pelmetsavory_store.h); the calls below do not compare: give every one the same study */
} pelmetsavory_sheet;

#define PELMETSAVORY_STUDY(y) \
    (y)->shape, (y)->addresses, (y)->addresses_len, (y)->gp_map, (y)->gp_map_len, (y)->relative_grid_address, \
    (y)->relative_grid_address_len, (y)->frequencies1, (y)->frequencies1_len, (y)->frequencies2, (y)->frequencies2_len, \
    (y)->frequency_points, (y)->frequency_points_len
#define PELMETSAVORY_SHEET(s) \
    (s)->weights, (s)->weights_len, (s)->flags, (s)->flags_len, (s)->marks, (s)->marks_len, (s)->tally

static inline uint64_t pelmetsavory_sheet_run_piece(const pelmetsavory_study *y, pelmetsavory_sheet *s, int64_t worker,
    pelmetsavory_piece piece)
{
    return pelmetsavory_run_piece(PELMETSAVORY_STUDY(y), y->triplets, y->triplets_len, PELMETSAVORY_SHEET(s), worker, piece);
}

static inline uint64_t pelmetsavory_sheet_carry_on(const pelmetsavory_study *y, pelmetsavory_sheet *s, int64_t worker)
{
    return pelmetsavory_carry_on(PELMETSAVORY_STUDY(y), y->triplets, y->triplets_len, PELMETSAVORY_SHEET(s), worker);
}

static inline uint64_t pelmetsavory_sheet_average_triplet(const pelmetsavory_study *y, pelmetsavory_sheet *s, int64_t triplet,
    const int64_t *ids1, size_t ids1_len, const int64_t *ids2, size_t ids2_len)
{
    return pelmetsavory_average_triplet(PELMETSAVORY_STUDY(y), y->triplets, y->triplets_len, PELMETSAVORY_SHEET(s), triplet,
        ids1, ids1_len, ids2, ids2_len);
}

/* The open count of a triplet, behind `count`: its entries (point, b1, b2) that carry scattering, whatever marks and flags say. */
static inline uint64_t pelmetsavory_sheet_open_count(const pelmetsavory_study *y, const pelmetsavory_sheet *s, int64_t triplet, uint64_t *count)
{
    const pelmetsavory_counts counts = {(int64_t)(y->triplets_len / 3), (int64_t)y->frequency_points_len, y->shape.num_band1, y->shape.num_band2};
    return pelmetsavory_open_count(y->shape.tp_type, counts, s->weights, s->weights_len, triplet, count);
}

/* The kinds of a call in a list, the first of its six numbers. Behind it stand worker, triplet, b1, b2 (run), the worker (carry on), or the
 * triplet and the start and end in `ids` of the first id list and of the second (average, and any other kind). What is left of the six is
 * not read. */
enum { PELMETSAVORY_RUN = 0, PELMETSAVORY_CARRY_ON = 1, PELMETSAVORY_AVERAGE = 2 };

/* Plays `calls` calls on a sheet with any marks: the status of each, and the sixteen counts after it. The status of the list is 0 (12, which
 * is its own, asks for the lengths that this call gives); what a call asks goes to its place alone. What all of them ask is asked once. */
static inline uint64_t pelmetsavory_sheet_play(const pelmetsavory_study *y, pelmetsavory_sheet *s, size_t calls, const int64_t (*list)[6],
    const int64_t *ids, size_t ids_len, uint64_t *answers, uint64_t (*tallies)[16])
{
    return pelmetsavory_play(PELMETSAVORY_STUDY(y), y->triplets, y->triplets_len, PELMETSAVORY_SHEET(s), calls ? *list : NULL, calls * 6,
        ids, ids_len, answers, calls, calls ? *tallies : NULL, calls * 16);
}

/* The greatest answer to a text, in bytes: the length of `out` of pelmetsavory_answer. */
enum { PELMETSAVORY_ANSWER = 118617 };

#ifdef __cplusplus
}
#endif
#endif
