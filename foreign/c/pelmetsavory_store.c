/* See pelmetsavory_store.h; foreign/README.md has the format. */
#define _POSIX_C_SOURCE 200809L
#include <errno.h>
#include <stdio.h>
#include <stdlib.h>
#include <string.h>
#include <unistd.h>
#include "pelmetsavory_store.h"

enum { VERSION_AT = 8, STUDY_AT = 16, SHAPE_AT = 48, BEGAN_AT = 88, TALLY_AT = 216, HEAD = 344, DIGEST = 32, WORKERS = 16 };
static const char magic[] = "PELSHEET", preface[] = "pelmetsavory study 1\n";
static const uint64_t format = 2;

const char *pelmetsavory_store_words(uint64_t status)
{
    switch (status) {
    case PELMETSAVORY_STORE_FILE: return "the file could not be read or written";
    case PELMETSAVORY_STORE_MEMORY: return "there is no memory for the bytes of the file";
    case PELMETSAVORY_STORE_MAGIC: return "the file is not a stored sheet";
    case PELMETSAVORY_STORE_VERSION: return "the stored sheet has another format version than 2";
    case PELMETSAVORY_STORE_LENGTH: return "the stored sheet is cut short or too long";
    case PELMETSAVORY_STORE_CHECKSUM: return "the stored sheet is damaged: its checksum is not right";
    case PELMETSAVORY_STORE_STUDY: return "the sheet is of another study";
    case PELMETSAVORY_STORE_SHAPE: return "the sheet has another shape than the study's";
    case PELMETSAVORY_STORE_TALLY: return "the worker's sheet is damaged: a count of its tally is below the one that it began with";
    case PELMETSAVORY_STORE_AVERAGED: return "the worker has averaged a triplet that is not averaged here";
    case PELMETSAVORY_STORE_ITSELF: return "a sheet cannot take over itself";
    default: return pelmetsavory_question(status);
    }
}

/* ---- SHA-256 */

static const uint32_t rounds[64] = {
    0x428a2f98, 0x71374491, 0xb5c0fbcf, 0xe9b5dba5, 0x3956c25b, 0x59f111f1, 0x923f82a4, 0xab1c5ed5, 0xd807aa98, 0x12835b01, 0x243185be, 0x550c7dc3,
    0x72be5d74, 0x80deb1fe, 0x9bdc06a7, 0xc19bf174, 0xe49b69c1, 0xefbe4786, 0x0fc19dc6, 0x240ca1cc, 0x2de92c6f, 0x4a7484aa, 0x5cb0a9dc, 0x76f988da,
    0x983e5152, 0xa831c66d, 0xb00327c8, 0xbf597fc7, 0xc6e00bf3, 0xd5a79147, 0x06ca6351, 0x14292967, 0x27b70a85, 0x2e1b2138, 0x4d2c6dfc, 0x53380d13,
    0x650a7354, 0x766a0abb, 0x81c2c92e, 0x92722c85, 0xa2bfe8a1, 0xa81a664b, 0xc24b8b70, 0xc76c51a3, 0xd192e819, 0xd6990624, 0xf40e3585, 0x106aa070,
    0x19a4c116, 0x1e376c08, 0x2748774c, 0x34b0bcb5, 0x391c0cb3, 0x4ed8aa4a, 0x5b9cca4f, 0x682e6ff3, 0x748f82ee, 0x78a5636f, 0x84c87814, 0x8cc70208,
    0x90befffa, 0xa4506ceb, 0xbef9a3f7, 0xc67178f2,
};

typedef struct { uint32_t h[8]; uint64_t length; uint8_t held[64]; } sha256;

static uint32_t turn(uint32_t x, int by) { return x >> by | x << (32 - by); }

static void sha256_block(uint32_t h[8], const uint8_t *p)
{
    uint32_t w[64], a = h[0], b = h[1], c = h[2], d = h[3], e = h[4], f = h[5], g = h[6], last = h[7];
    for (int k = 0; k < 16; k++) w[k] = (uint32_t)p[4 * k] << 24 | (uint32_t)p[4 * k + 1] << 16 | (uint32_t)p[4 * k + 2] << 8 | p[4 * k + 3];
    for (int k = 16; k < 64; k++) {
        const uint32_t x = w[k - 15], y = w[k - 2];
        w[k] = w[k - 16] + (turn(x, 7) ^ turn(x, 18) ^ x >> 3) + w[k - 7] + (turn(y, 17) ^ turn(y, 19) ^ y >> 10);
    }
    for (int k = 0; k < 64; k++) {
        const uint32_t t1 = last + (turn(e, 6) ^ turn(e, 11) ^ turn(e, 25)) + ((e & f) ^ (~e & g)) + rounds[k] + w[k];
        const uint32_t t2 = (turn(a, 2) ^ turn(a, 13) ^ turn(a, 22)) + ((a & b) ^ (a & c) ^ (b & c));
        last = g; g = f; f = e; e = d + t1;
        d = c; c = b; b = a; a = t1 + t2;
    }
    h[0] += a; h[1] += b; h[2] += c; h[3] += d; h[4] += e; h[5] += f; h[6] += g; h[7] += last;
}

static sha256 sha256_begin(void)
{
    sha256 s = {{0x6a09e667, 0xbb67ae85, 0x3c6ef372, 0xa54ff53a, 0x510e527f, 0x9b05688c, 0x1f83d9ab, 0x5be0cd19}, 0, {0}};
    return s;
}

static void sha256_add(sha256 *s, const void *from, size_t n)
{
    const uint8_t *p = from;
    size_t held = s->length % 64;
    s->length += n;
    while (n > 0) {
        size_t part = n < 64 - held ? n : 64 - held;
        if (part == 64) sha256_block(s->h, p);
        else {
            memcpy(s->held + held, p, part);
            if (held + part == 64) sha256_block(s->h, s->held);
        }
        held = (held + part) % 64;
        p += part;
        n -= part;
    }
}

static void sha256_end(sha256 *s, uint8_t digest[DIGEST])
{
    const uint64_t bits = s->length * 8;
    const uint8_t one = 0x80, zero = 0;
    uint8_t tail[8];
    for (int k = 0; k < 8; k++) tail[k] = (uint8_t)(bits >> (56 - 8 * k));
    sha256_add(s, &one, 1);
    while (s->length % 64 != 56) sha256_add(s, &zero, 1);
    sha256_add(s, tail, 8);
    for (int k = 0; k < DIGEST; k++) digest[k] = (uint8_t)(s->h[k / 4] >> (24 - k % 4 * 8));
}

void pelmetsavory_sha256(const void *bytes, size_t n, uint8_t digest[DIGEST])
{
    sha256 s = sha256_begin();
    sha256_add(&s, bytes, n);
    sha256_end(&s, digest);
}

/* ---- the study */

/* A record of the fingerprint: how many elements, and those, of eight bytes (little-endian, as this machine has them). */
static void add_record(sha256 *s, const void *elements, size_t count)
{
    const uint64_t n = count;
    sha256_add(s, &n, 8);
    sha256_add(s, elements, count * 8);
}

void pelmetsavory_study_fingerprint(const pelmetsavory_study *y, uint8_t fingerprint[DIGEST])
{
    const pelmetsavory_shape *n = &y->shape;
    const int64_t numbers[7] = {n->bz_grid_type, n->d_diag[0], n->d_diag[1], n->d_diag[2], n->tp_type, n->num_band1, n->num_band2};
    sha256 s = sha256_begin();
    sha256_add(&s, preface, sizeof preface - 1);
    add_record(&s, numbers, 7);
    add_record(&s, y->addresses, y->addresses_len);
    add_record(&s, y->gp_map, y->gp_map_len);
    add_record(&s, y->relative_grid_address, y->relative_grid_address_len);
    add_record(&s, y->frequencies1, y->frequencies1_len);
    add_record(&s, y->frequencies2, y->frequencies2_len);
    add_record(&s, y->frequency_points, y->frequency_points_len);
    add_record(&s, y->triplets, y->triplets_len);
    sha256_end(&s, fingerprint);
}

static int same_study(const pelmetsavory_study *y, const uint8_t *fingerprint)
{
    uint8_t own[DIGEST];
    pelmetsavory_study_fingerprint(y, own);
    return !memcmp(own, fingerprint, DIGEST);
}

static uint64_t up_to(uint64_t most, uint64_t n) { return n <= most ? n : 0; }

void pelmetsavory_sheet_shape(const pelmetsavory_study *y, uint64_t shape[5])
{
    size_t channels = 0;
    if (pelmetsavory_num_channels(y->shape.tp_type, &channels)) channels = 0;
    shape[0] = channels;
    shape[1] = up_to(65536, y->triplets_len / 3);
    shape[2] = up_to(1024, y->frequency_points_len);
    shape[3] = up_to(64, (uint64_t)y->shape.num_band1);
    shape[4] = up_to(64, (uint64_t)y->shape.num_band2);
}

void pelmetsavory_sheet_begin(const pelmetsavory_study *y, pelmetsavory_sheet *s, const uint64_t *tally)
{
    const uint64_t zeros[WORKERS] = {0};
    memmove(s->tally, tally ? tally : zeros, sizeof s->tally);
    memcpy(s->began, s->tally, sizeof s->began);
    pelmetsavory_study_fingerprint(y, s->study);
}

/* How long the three arrays of a sheet are, and its file. Numbers from a file may be any: what is too large stays the largest. */
typedef struct { uint64_t weights, flags, marks, file; } sizes;

static uint64_t times(uint64_t a, uint64_t b) { return b && a > UINT64_MAX / b ? UINT64_MAX : a * b; }
static uint64_t plus(uint64_t a, uint64_t b) { return a > UINT64_MAX - b ? UINT64_MAX : a + b; }

static sizes sizes_of(const uint64_t shape[5])
{
    sizes z;
    z.marks = times(shape[1], times(shape[3], shape[4]));
    z.flags = times(z.marks, shape[2]);
    z.weights = times(z.flags, shape[0]);
    z.file = plus(HEAD + DIGEST, plus(times(z.weights, 8), plus(z.flags, z.marks)));
    return z;
}

static sizes sizes_for(const pelmetsavory_study *y)
{
    uint64_t shape[5];
    pelmetsavory_sheet_shape(y, shape);
    return sizes_of(shape);
}

static int fits(sizes z, const pelmetsavory_sheet *s) { return s->weights_len == z.weights && s->flags_len == z.flags && s->marks_len == z.marks; }

size_t pelmetsavory_store_size(const pelmetsavory_study *y) { return sizes_for(y).file; }

/* Question 13, of marks that have the shape's length. */
static int sound(const uint64_t shape[5], const uint8_t *marks)
{
    const uint64_t pairs = shape[3] * shape[4];
    for (uint64_t p = 0; p < shape[1] * pairs; p++)
        if (marks[p] > 2 || (marks[p] == 2) != (marks[p / pairs * pairs] == 2)) return 0;
    return 1;
}

/* ---- the file */

static uint64_t number_at(const uint8_t *bytes) { uint64_t n; memcpy(&n, bytes, 8); return n; }

/* An array of `n` bytes to or from a place in the file, which moves on; without a pointer where it is empty. */
static void put(uint8_t **at, const void *from, size_t n) { if (n) memcpy(*at, from, n); *at += n; }
static void get(const uint8_t **at, void *to, size_t n) { if (n) memcpy(to, *at, n); *at += n; }

uint64_t pelmetsavory_store_write(const pelmetsavory_study *y, const pelmetsavory_sheet *s, uint8_t *bytes)
{
    uint64_t shape[5];
    pelmetsavory_sheet_shape(y, shape);
    const sizes z = sizes_of(shape);
    if (!same_study(y, s->study)) return PELMETSAVORY_STORE_STUDY;
    if (!fits(z, s)) return PELMETSAVORY_STORE_SHAPE;
    uint8_t *at = bytes;
    put(&at, magic, VERSION_AT);
    put(&at, &format, 8);
    put(&at, s->study, DIGEST);
    put(&at, shape, sizeof shape);
    put(&at, s->began, sizeof s->began);
    put(&at, s->tally, sizeof s->tally);
    put(&at, s->weights, s->weights_len * 8);
    put(&at, s->flags, s->flags_len);
    put(&at, s->marks, s->marks_len);
    pelmetsavory_sha256(bytes, z.file - DIGEST, at);
    return 0;
}

/* What is wrong with the bytes of a file as such. */
static uint64_t damage(const uint8_t *bytes, size_t n)
{
    uint64_t shape[5];
    uint8_t digest[DIGEST];
    if (n < STUDY_AT || memcmp(bytes, magic, VERSION_AT)) return PELMETSAVORY_STORE_MAGIC;
    if (number_at(bytes + VERSION_AT) != format) return PELMETSAVORY_STORE_VERSION; /* another format has another head */
    if (n < HEAD + DIGEST) return PELMETSAVORY_STORE_LENGTH;
    memcpy(shape, bytes + SHAPE_AT, sizeof shape);
    if (n != sizes_of(shape).file) return PELMETSAVORY_STORE_LENGTH;
    pelmetsavory_sha256(bytes, n - DIGEST, digest);
    return memcmp(digest, bytes + n - DIGEST, DIGEST) ? PELMETSAVORY_STORE_CHECKSUM : 0;
}

uint64_t pelmetsavory_store_read(const pelmetsavory_study *y, pelmetsavory_sheet *s, const uint8_t *bytes, size_t n)
{
    uint64_t shape[5];
    pelmetsavory_sheet_shape(y, shape);
    const sizes z = sizes_of(shape);
    const uint64_t wrong = damage(bytes, n);
    if (wrong) return wrong;
    if (!same_study(y, bytes + STUDY_AT)) return PELMETSAVORY_STORE_STUDY;
    if (memcmp(shape, bytes + SHAPE_AT, sizeof shape) || !fits(z, s)) return PELMETSAVORY_STORE_SHAPE;
    if (!sound(shape, bytes + HEAD + z.weights * 8 + z.flags)) return 13;
    const uint8_t *at = bytes + HEAD;
    get(&at, s->weights, s->weights_len * 8);
    get(&at, s->flags, s->flags_len);
    get(&at, s->marks, s->marks_len);
    memcpy(s->began, bytes + BEGAN_AT, sizeof s->began);
    memcpy(s->tally, bytes + TALLY_AT, sizeof s->tally);
    memcpy(s->study, bytes + STUDY_AT, DIGEST);
    return 0;
}

/* Puts the bytes into a new file, and that into the place of the one at `path`. */
static uint64_t replace(const char *path, const uint8_t *bytes, size_t n)
{
    const size_t room = strlen(path) + 32;
    char *draft = malloc(room);
    if (!draft) return PELMETSAVORY_STORE_MEMORY;
    snprintf(draft, room, "%s.%ld", path, (long)getpid());
    FILE *f = fopen(draft, "wb");
    int done = f && fwrite(bytes, 1, n, f) == n;
    if (f && fclose(f)) done = 0;
    if (done && rename(draft, path)) done = 0;
    if (f && !done) { const int why = errno; remove(draft); errno = why; }
    free(draft);
    return done ? 0 : PELMETSAVORY_STORE_FILE;
}

uint64_t pelmetsavory_store_save(const pelmetsavory_study *y, const pelmetsavory_sheet *s, const char *path)
{
    const size_t n = pelmetsavory_store_size(y);
    uint8_t *bytes = malloc(n);
    if (!bytes) return PELMETSAVORY_STORE_MEMORY;
    uint64_t status = pelmetsavory_store_write(y, s, bytes);
    if (!status) status = replace(path, bytes, n);
    free(bytes);
    return status;
}

/* The bytes of a file, to be freed by the caller. */
static uint64_t whole_file(FILE *f, uint8_t **bytes, size_t *n)
{
    long end = fseek(f, 0, SEEK_END) ? -1 : ftell(f);
    if (end < 0 || fseek(f, 0, SEEK_SET)) return PELMETSAVORY_STORE_FILE;
    *n = (size_t)end;
    *bytes = malloc(*n + 1);
    if (!*bytes) return PELMETSAVORY_STORE_MEMORY;
    if (fread(*bytes, 1, *n, f) == *n) return 0;
    free(*bytes);
    return PELMETSAVORY_STORE_FILE;
}

uint64_t pelmetsavory_store_load(const pelmetsavory_study *y, pelmetsavory_sheet *s, const char *path)
{
    uint8_t *bytes;
    size_t n;
    FILE *f = fopen(path, "rb");
    if (!f) return PELMETSAVORY_STORE_FILE;
    uint64_t status = whole_file(f, &bytes, &n);
    fclose(f);
    if (status) return status;
    status = pelmetsavory_store_read(y, s, bytes, n);
    free(bytes);
    return status;
}

/* ---- taking over */

/* What keeps a tally from growing as a worker's has since its sheet began; behind `tally` the one that it would be. A count that does not grow
 * is not asked. */
static uint64_t not_grown(const pelmetsavory_sheet *s, const pelmetsavory_sheet *worker, uint64_t tally[WORKERS])
{
    memcpy(tally, s->tally, sizeof s->tally);
    for (int k = 0; k < WORKERS; k++)
        if (worker->tally[k] < worker->began[k]) return PELMETSAVORY_STORE_TALLY;
    for (int k = 0; k < WORKERS; k++) {
        const uint64_t runs = worker->tally[k] - worker->began[k];
        const uint64_t status = runs ? pelmetsavory_tally_add(tally, k, runs) : 0;
        if (status) return status;
    }
    return 0;
}

/* What keeps a sheet from taking over a worker's; behind `tally` the one that it would have. */
static uint64_t not_taken(const pelmetsavory_study *y, const pelmetsavory_sheet *s, const pelmetsavory_sheet *worker, uint64_t tally[WORKERS])
{
    uint64_t shape[5];
    pelmetsavory_sheet_shape(y, shape);
    const sizes z = sizes_of(shape);
    if (s == worker) return PELMETSAVORY_STORE_ITSELF;
    if (!same_study(y, s->study) || memcmp(s->study, worker->study, DIGEST)) return PELMETSAVORY_STORE_STUDY;
    if (!fits(z, s) || !fits(z, worker)) return PELMETSAVORY_STORE_SHAPE;
    if (!sound(shape, s->marks) || !sound(shape, worker->marks)) return 13;
    for (uint64_t p = 0; p < z.marks; p++)
        if (worker->marks[p] == 2 && s->marks[p] != 2) return PELMETSAVORY_STORE_AVERAGED;
    return not_grown(s, worker, tally);
}

uint64_t pelmetsavory_sheet_take(const pelmetsavory_study *y, pelmetsavory_sheet *s, pelmetsavory_sheet *worker)
{
    uint64_t shape[5], tally[WORKERS];
    const uint64_t status = not_taken(y, s, worker, tally);
    if (status) return status;
    pelmetsavory_sheet_shape(y, shape);
    const uint64_t points = shape[2], pairs = shape[3] * shape[4];
    for (uint64_t p = 0; p < s->marks_len; p++) {
        if (worker->marks[p] != 1 || s->marks[p] != 0) continue;
        for (uint64_t x = 0; x < points; x++) {
            const uint64_t at = (p / pairs * points + x) * pairs + p % pairs;
            s->flags[at] = worker->flags[at];
            for (uint64_t w = at; w < s->weights_len; w += s->flags_len) s->weights[w] = worker->weights[w];
        }
        s->marks[p] = 1;
    }
    memcpy(s->tally, tally, sizeof s->tally);
    memcpy(worker->began, worker->tally, sizeof worker->began);
    return 0;
}
