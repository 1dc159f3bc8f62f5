/* Storing sheets, and taking over what a worker's sheet has computed. Plain C, not proved: compile c/pelmetsavory_store.c with the program.
 *
 * The file's format is in foreign/README.md; C, Rust and Python write the same bytes. Nothing here prints or ends the program. A status is
 * 0, the number of a question (13, 20), or one of those below; pelmetsavory_store_words gives its words. What is wrong is found before
 * anything is written: after a status that is not 0 both sheets are as they were.
 * A sheet knows its study by a fingerprint, of every number and array of it, and the tally that it began with, a count for each worker:
 * pelmetsavory_sheet_begin notes both, and every call below is given the study and compares. */
#ifndef PELMETSAVORY_STORE_H
#define PELMETSAVORY_STORE_H
#include "pelmetsavory.h"

#ifdef __cplusplus
extern "C" {
#endif

enum {
    PELMETSAVORY_STORE_FILE = 101, /* the file could not be read or written: see errno */
    PELMETSAVORY_STORE_MEMORY,     /* no memory for the bytes of the file */
    PELMETSAVORY_STORE_MAGIC,      /* not a stored sheet */
    PELMETSAVORY_STORE_VERSION,    /* another version of the format */
    PELMETSAVORY_STORE_LENGTH,     /* cut short, or too long */
    PELMETSAVORY_STORE_CHECKSUM,   /* damaged */
    PELMETSAVORY_STORE_STUDY,      /* of another study */
    PELMETSAVORY_STORE_SHAPE,      /* not of the study's size */
    PELMETSAVORY_STORE_TALLY,      /* a count below the one that the sheet began with */
    PELMETSAVORY_STORE_AVERAGED,   /* a triplet that only the worker has averaged */
    PELMETSAVORY_STORE_ITSELF      /* a sheet was to take over itself */
};

/* What a status of this header says, in words; NULL for any other number. */
const char *pelmetsavory_store_words(uint64_t status);

/* SHA-256 (FIPS 180-4) of n bytes. */
void pelmetsavory_sha256(const void *bytes, size_t n, uint8_t digest[32]);

/* The fingerprint of a study: SHA-256 of all its numbers and arrays. Reads all of it. */
void pelmetsavory_study_fingerprint(const pelmetsavory_study *y, uint8_t fingerprint[32]);

/* The shape of a study's sheet: channels, triplets, points, b1, b2. A number that question 8 or 9 refuses counts as 0. The arrays of the
 * sheet are as long as its products: weights all five, flags all but the channels, marks triplets, b1, b2. */
void pelmetsavory_sheet_shape(const pelmetsavory_study *y, uint64_t shape[5]);

/* Notes the study and the sixteen counts that a sheet begins with: zeros where `tally` is NULL; it may be the sheet's own. The arrays are the
 * caller's, and stay as they are. */
void pelmetsavory_sheet_begin(const pelmetsavory_study *y, pelmetsavory_sheet *s, const uint64_t *tally);

/* How many bytes a stored sheet of the study has. */
size_t pelmetsavory_store_size(const pelmetsavory_study *y);

/* A sheet to `bytes`, which has pelmetsavory_store_size bytes, and from `n` bytes into a sheet whose arrays have the study's lengths. */
uint64_t pelmetsavory_store_write(const pelmetsavory_study *y, const pelmetsavory_sheet *s, uint8_t *bytes);
uint64_t pelmetsavory_store_read(const pelmetsavory_study *y, pelmetsavory_sheet *s, const uint8_t *bytes, size_t n);

/* The same to and from a file; both allocate its bytes, and free them. `save` writes PATH.PROCESS first and renames it, so that a reader
 * finds the old sheet or the new one whole; a process that is killed may leave that first file. */
uint64_t pelmetsavory_store_save(const pelmetsavory_study *y, const pelmetsavory_sheet *s, const char *path);
uint64_t pelmetsavory_store_load(const pelmetsavory_study *y, pelmetsavory_sheet *s, const char *path);

/* Takes over the pieces that a worker's sheet of the same study has computed and this one has open: their weights, flags and marks. Each of
 * the sixteen counts grows by what that count has grown in the worker's sheet since it began, repeats included. Question 20 is asked of the
 * counts that grow alone: one that is full and idle, in either sheet, keeps nobody from taking over. The worker's sheet then counts as taken:
 * it begins with its tally, and taking it again adds nothing. */
uint64_t pelmetsavory_sheet_take(const pelmetsavory_study *y, pelmetsavory_sheet *s, pelmetsavory_sheet *worker);

#ifdef __cplusplus
}
#endif
#endif
