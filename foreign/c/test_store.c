/* Storing and taking over: what comes back, and each refusal, which leaves every sheet as it was. */
#define _POSIX_C_SOURCE 200809L
#include <errno.h>
#include <sys/stat.h>
#include <unistd.h>
#include "want.h"

enum { FILE_BYTES = 376 + CONTENT_BYTES, BEGAN_AT = 88, TALLY_AT = 216, HEAD = 344, MARKS_AT = HEAD + ENTRIES * 8 + CELLS, INPUTS = 15 };

static pelmetsavory_study y;
static const char *path;

static void digest_is(const char *want, const void *bytes, size_t n)
{
    uint8_t digest[32];
    char hex[65];
    pelmetsavory_sha256(bytes, n, digest);
    for (int k = 0; k < 32; k++) snprintf(hex + 2 * k, 3, "%02x", digest[k]);
    YES(!strcmp(hex, want));
}

static void digests(void)
{
    static const char longer[] = "abcdbcdecdefdefgefghfghighijhijkijkljklmklmnlmnomnopnopq";
    static char many[1000000];
    memset(many, 'a', sizeof many);
    digest_is("e3b0c44298fc1c149afbf4c8996fb92427ae41e4649b934ca495991b7852b855", "", 0);
    digest_is("ba7816bf8f01cfea414140de5dae2223b00361a396177a9cb410ff61f20015ad", "abc", 3);
    digest_is("248d6a61d20638b8e5c026930c3e6039a33ce45964ff2167f6ecedd419db06c1", longer, sizeof longer - 1);
    digest_is("cdc76e5c9914fb9281a1c7e284d73e67f1809a48a497200e046d39ccc7112cd0", many, sizeof many);
}

/* the study with one number or one element of one array changed, or an array one shorter */
static int64_t wholes[4][288];
static double floats[3][36];
static pelmetsavory_study changed(int input)
{
    pelmetsavory_study b = y;
    int64_t *numbers[7] = {&b.shape.bz_grid_type, b.shape.d_diag, b.shape.d_diag + 1, b.shape.d_diag + 2, &b.shape.tp_type, &b.shape.num_band1, &b.shape.num_band2};
    const int64_t **whole[4] = {&b.addresses, &b.gp_map, &b.relative_grid_address, &b.triplets};
    const double **real[3] = {&b.frequencies1, &b.frequencies2, &b.frequency_points};
    const size_t lengths[7] = {b.addresses_len, b.gp_map_len, b.relative_grid_address_len, b.triplets_len, b.frequencies1_len, b.frequencies2_len, b.frequency_points_len};
    const int k = input - 7;
    if (input < 7) *numbers[input] += 1;
    else if (k < 4) {
        memcpy(wholes[k], *whole[k], lengths[k] * 8);
        wholes[k][lengths[k] - 1] ^= 1;
        *whole[k] = wholes[k];
    } else if (k < 7) {
        memcpy(floats[k - 4], *real[k - 4], lengths[k] * 8);
        floats[k - 4][lengths[k] - 1] *= -1;
        *real[k - 4] = floats[k - 4];
    } else b.addresses_len -= 3;
    return b;
}

static void seal_at(uint8_t *bytes, size_t n) { pelmetsavory_sha256(bytes, n - 32, bytes + n - 32); }
static void seal(uint8_t *bytes) { seal_at(bytes, FILE_BYTES); }

static void put(const uint8_t *bytes, size_t n)
{
    FILE *f = fopen(path, "wb");
    YES(f && fwrite(bytes, 1, n, f) == n && !fclose(f));
}

/* a file of these bytes is refused, and so are the bytes */
#define REFUSED(want, bytes, n) do { put(bytes, n); KEPT(want, &t, pelmetsavory_store_load(&y, &t, path)); KEPT(want, &t, pelmetsavory_store_read(&y, &t, bytes, n)); } while (0)

static void stored(void)
{
    pelmetsavory_sheet s = new_sheet(&y, -7.25, 5, begun), t = new_sheet(&y, 1.5, 1, NULL);
    uint8_t good[FILE_BYTES], bytes[FILE_BYTES + 1] = {0}, a[SHEET_BYTES], b[SHEET_BYTES];
    char draft[4200];
    YES(pelmetsavory_store_size(&y) == FILE_BYTES);
    for (int k = 0; k < 12; k++) WANT(0, pelmetsavory_sheet_run_piece(&y, &s, k < 8 ? k : 15, piece_at(k)));
    WANT(0, pelmetsavory_sheet_average_triplet(&y, &s, 0, ids1, 3, ids2, 3));

    /* what is stored comes back, and no other file stays */
    WANT(0, pelmetsavory_store_save(&y, &s, path));
    snprintf(draft, sizeof draft, "%s.%d", path, (int)getpid());
    YES(access(draft, F_OK) && errno == ENOENT);
    memset(t.study, 0, sizeof t.study);
    WANT(0, pelmetsavory_store_load(&y, &t, path));
    to_bytes(&s, a); to_bytes(&t, b);
    YES(!memcmp(a, b, SHEET_BYTES) && !memcmp(t.began, begun, sizeof begun));
    for (int k = 0; k < COUNTS; k++) YES(t.tally[k] == begun[k] + (k < 8 ? 1u : k == 15 ? 4u : 0u));
    free_sheet(&t);
    t = new_sheet(&y, 1.5, 1, begun);
    WANT(0, pelmetsavory_store_write(&y, &s, good));
    put(good, FILE_BYTES);
    FILE *f = fopen(path, "rb");
    YES(f && fread(bytes, 1, sizeof bytes, f) == FILE_BYTES && !fclose(f) && !memcmp(good, bytes, FILE_BYTES));

    /* no stored sheet, another version, cut, longer, damaged at any byte */
    KEPT(PELMETSAVORY_STORE_FILE, &t, pelmetsavory_store_load(&y, &t, draft));
    REFUSED(PELMETSAVORY_STORE_MAGIC, bytes, 0);
    REFUSED(PELMETSAVORY_STORE_MAGIC, bytes, 15);
    bytes[7] ^= 1; seal(bytes); REFUSED(PELMETSAVORY_STORE_MAGIC, bytes, FILE_BYTES); memcpy(bytes, good, FILE_BYTES);
    bytes[8] = 1; seal(bytes); REFUSED(PELMETSAVORY_STORE_VERSION, bytes, FILE_BYTES); memcpy(bytes, good, FILE_BYTES);
    bytes[8] = 3; seal(bytes); REFUSED(PELMETSAVORY_STORE_VERSION, bytes, FILE_BYTES); memcpy(bytes, good, FILE_BYTES);
    bytes[8] = 1; memcpy(bytes + 96, good + TALLY_AT, 8); memcpy(bytes + 104, good + HEAD, CONTENT_BYTES); /* format 1: one count, of 8 bytes */
    seal_at(bytes, 136 + CONTENT_BYTES); REFUSED(PELMETSAVORY_STORE_VERSION, bytes, 136 + CONTENT_BYTES);
    memset(bytes + 56, 0, 8); seal_at(bytes, 136); REFUSED(PELMETSAVORY_STORE_VERSION, bytes, 136); memcpy(bytes, good, FILE_BYTES);
    REFUSED(PELMETSAVORY_STORE_LENGTH, bytes, 16);
    REFUSED(PELMETSAVORY_STORE_LENGTH, bytes, 375);
    REFUSED(PELMETSAVORY_STORE_LENGTH, bytes, 376);
    REFUSED(PELMETSAVORY_STORE_LENGTH, bytes, FILE_BYTES - 1);
    REFUSED(PELMETSAVORY_STORE_LENGTH, bytes, FILE_BYTES + 1);
    memset(bytes + 48, 0xff, 40); seal(bytes); REFUSED(PELMETSAVORY_STORE_LENGTH, bytes, FILE_BYTES); memcpy(bytes, good, FILE_BYTES);
    for (size_t k = 0; k < FILE_BYTES; k++) {
        const uint64_t want = k < 8 ? PELMETSAVORY_STORE_MAGIC : k < 16 ? PELMETSAVORY_STORE_VERSION : k < 48 || k >= 88 ? PELMETSAVORY_STORE_CHECKSUM : PELMETSAVORY_STORE_LENGTH;
        bytes[k] ^= 0x10;
        KEPT(want, &t, pelmetsavory_store_read(&y, &t, bytes, FILE_BYTES));
        bytes[k] ^= 0x10;
    }

    /* each count in its own place, any number */
    for (int k = 0; k < 2 * COUNTS; k++) {
        memset(bytes + BEGAN_AT + 8 * k, 0xff, 8); seal(bytes);
        pelmetsavory_sheet v = new_sheet(&y, 1.5, 1, NULL);
        WANT(0, pelmetsavory_store_read(&y, &v, bytes, FILE_BYTES));
        memcpy(a, s.began, sizeof s.began); memcpy(a + sizeof s.began, s.tally, sizeof s.tally); memset(a + 8 * k, 0xff, 8);
        YES(!memcmp(a, v.began, sizeof v.began) && !memcmp(a + sizeof v.began, v.tally, sizeof v.tally));
        free_sheet(&v);
        memcpy(bytes, good, FILE_BYTES);
    }

    /* another study, by each of its numbers and arrays; another shape; marks that are not sound */
    put(good, FILE_BYTES);
    for (int k = 0; k < INPUTS; k++) {
        pelmetsavory_study other = changed(k);
        KEPT(PELMETSAVORY_STORE_STUDY, &t, pelmetsavory_store_load(&other, &t, path));
        KEPT(PELMETSAVORY_STORE_STUDY, &t, pelmetsavory_store_save(&other, &t, path));
    }
    bytes[48 + 24] = 9; bytes[48 + 32] = 1; seal(bytes); REFUSED(PELMETSAVORY_STORE_SHAPE, bytes, FILE_BYTES); memcpy(bytes, good, FILE_BYTES);
    for (int k = 0; k < 3; k++) {
        size_t *length = k == 0 ? &t.weights_len : k == 1 ? &t.flags_len : &t.marks_len;
        put(good, FILE_BYTES);
        *length -= 1;
        KEPT(PELMETSAVORY_STORE_SHAPE, &t, pelmetsavory_store_load(&y, &t, path));
        KEPT(PELMETSAVORY_STORE_SHAPE, &t, pelmetsavory_store_save(&y, &t, path));
        *length += 1;
    }
    bytes[MARKS_AT + 26] = 3; seal(bytes); REFUSED(13, bytes, FILE_BYTES); memcpy(bytes, good, FILE_BYTES);
    bytes[MARKS_AT + 26] = 2; seal(bytes); REFUSED(13, bytes, FILE_BYTES); memcpy(bytes, good, FILE_BYTES);
    bytes[MARKS_AT] = 1; seal(bytes); REFUSED(13, bytes, FILE_BYTES); memcpy(bytes, good, FILE_BYTES);

    /* a place that cannot be written; the file of a refused save stays */
    put(good, FILE_BYTES);
    s.study[0] ^= 1; KEPT(PELMETSAVORY_STORE_STUDY, &s, pelmetsavory_store_save(&y, &s, path)); s.study[0] ^= 1;
    WANT(0, pelmetsavory_store_load(&y, &t, path));
    snprintf(draft, sizeof draft, "%s/none/sheet", path);
    KEPT(PELMETSAVORY_STORE_FILE, &s, pelmetsavory_store_save(&y, &s, draft));
    unlink(path);
    YES(!mkdir(path, 0700));
    KEPT(PELMETSAVORY_STORE_FILE, &s, pelmetsavory_store_save(&y, &s, path));
    snprintf(draft, sizeof draft, "%s.%d", path, (int)getpid());
    YES(!rmdir(path) && access(draft, F_OK) && errno == ENOENT);

    /* no triplets is a sheet too */
    pelmetsavory_study none = y;
    none.triplets = NULL; none.triplets_len = 0;
    pelmetsavory_sheet empty = {NULL, 0, NULL, 0, NULL, 0, {0}, {0}, {0}};
    pelmetsavory_sheet_begin(&none, &empty, begun);
    empty.tally[4] = 5;
    YES(pelmetsavory_store_size(&none) == 376);
    WANT(0, pelmetsavory_store_save(&none, &empty, path));
    pelmetsavory_sheet_begin(&none, &empty, NULL);
    for (int k = 0; k < COUNTS; k++) YES(empty.tally[k] == 0 && empty.began[k] == 0);
    WANT(0, pelmetsavory_store_load(&none, &empty, path));
    for (int k = 0; k < COUNTS; k++) YES(empty.tally[k] == (k == 4 ? 5 : begun[k]) && empty.began[k] == begun[k]);
    pelmetsavory_sheet_begin(&none, &empty, empty.tally); /* it goes on from its own counts */
    YES(empty.tally[4] == 5 && !memcmp(empty.began, empty.tally, sizeof empty.began));
    unlink(path);
    free_sheet(&s); free_sheet(&t);
}

/* a take that is refused leaves both sheets as they were */
#define NOT_TAKEN(want, study, s, w) do { unsigned char w_[SHEET_BYTES], v_[SHEET_BYTES]; to_bytes(w, w_); KEPT(want, s, pelmetsavory_sheet_take(study, s, w)); \
    to_bytes(w, v_); YES(!memcmp(w_, v_, SHEET_BYTES)); } while (0)

static void taken(void)
{
    uint64_t counts[COUNTS], before[COUNTS];
    for (uint64_t k = 0; k < COUNTS; k++) counts[k] = 7 + k;
    counts[14] = UINT64_MAX; /* full, and idle */
    pelmetsavory_sheet s = new_sheet(&y, -7.25, 5, begun), w = new_sheet(&y, 0.5, 3, counts), one = new_sheet(&y, -7.25, 5, begun);
    unsigned char a[SHEET_BYTES], b[SHEET_BYTES];
    WANT(0, pelmetsavory_sheet_run_piece(&y, &s, 0, piece_at(0)));
    for (int k = 0; k < 3; k++) WANT(0, pelmetsavory_sheet_run_piece(&y, &w, 3, piece_at(k)));
    WANT(0, pelmetsavory_sheet_run_piece(&y, &w, 15, piece_at(2)));

    /* another study, another shape, unsound marks, an average of the worker, a count that went back, one at the top, the sheet itself */
    for (int k = 0; k < INPUTS; k++) {
        pelmetsavory_study other = changed(k);
        NOT_TAKEN(PELMETSAVORY_STORE_STUDY, &other, &s, &w);
        pelmetsavory_sheet v = w;
        pelmetsavory_study_fingerprint(&other, v.study);
        NOT_TAKEN(PELMETSAVORY_STORE_STUDY, &y, &s, &v);
        NOT_TAKEN(PELMETSAVORY_STORE_STUDY, &y, &v, &w);
    }
    for (int k = 0; k < 6; k++) {
        pelmetsavory_sheet *x = k < 3 ? &s : &w;
        size_t *length = k % 3 == 0 ? &x->weights_len : k % 3 == 1 ? &x->flags_len : &x->marks_len;
        *length -= 1; NOT_TAKEN(PELMETSAVORY_STORE_SHAPE, &y, &s, &w); *length += 1;
    }
    s.marks[20] = 3; NOT_TAKEN(13, &y, &s, &w); s.marks[20] = 2; NOT_TAKEN(13, &y, &s, &w); s.marks[20] = 0;
    w.marks[20] = 3; NOT_TAKEN(13, &y, &s, &w); w.marks[20] = 2; NOT_TAKEN(13, &y, &s, &w); w.marks[20] = 0;
    memset(w.marks + 18, 2, 9); NOT_TAKEN(PELMETSAVORY_STORE_AVERAGED, &y, &s, &w); memset(w.marks + 18, 0, 9);
    memcpy(before, s.tally, sizeof before);
    memcpy(counts, w.tally, sizeof counts);
    for (int k = 0; k < COUNTS; k++) {
        w.tally[k] = w.began[k] - 1; NOT_TAKEN(PELMETSAVORY_STORE_TALLY, &y, &s, &w);
        s.tally[3] = INT64_MAX; NOT_TAKEN(PELMETSAVORY_STORE_TALLY, &y, &s, &w);
        memcpy(w.tally, counts, sizeof counts); memcpy(s.tally, before, sizeof before);
    }
    const uint64_t top = INT64_MAX, full[4] = {top - 2, top, top + 1, UINT64_MAX};
    for (int k = 0; k < 4; k++) {
        s.tally[3] = full[k]; NOT_TAKEN(20, &y, &s, &w); s.tally[3] = before[3]; /* it grows by 3 */
        s.tally[15] = k ? full[k] : top; NOT_TAKEN(20, &y, &s, &w); s.tally[15] = before[15]; /* the last one: the others are not changed before */
    }
    w.tally[6] = UINT64_MAX; NOT_TAKEN(20, &y, &s, &w); w.tally[6] = counts[6];
    NOT_TAKEN(PELMETSAVORY_STORE_ITSELF, &y, &s, &s);

    /* what is open here is taken over, what is not stays; repeats are counted; taking it again adds nothing */
    w.weights[0] = 99; w.flags[0] = 99; /* of piece 0, which this sheet has */
    WANT(0, pelmetsavory_sheet_take(&y, &s, &w));
    for (int k = 0; k < 3; k++) WANT(0, pelmetsavory_sheet_run_piece(&y, &one, k ? 3 : 0, piece_at(k)));
    one.tally[3] = before[3] + 3; one.tally[15] = before[15] + 1;
    to_bytes(&s, a); to_bytes(&one, b);
    YES(!memcmp(a, b, SHEET_BYTES) && !memcmp(w.began, w.tally, sizeof w.began) && !memcmp(w.tally, counts, sizeof counts));
    KEPT(0, &s, pelmetsavory_sheet_take(&y, &s, &w));

    /* a triplet that is averaged here takes nothing over, and the worker's runs count; the counts that do not grow are full, and are not asked */
    for (int k = 3; k < 9; k++) WANT(0, pelmetsavory_sheet_run_piece(&y, &s, 1, piece_at(k)));
    WANT(0, pelmetsavory_sheet_average_triplet(&y, &s, 0, ids1, 3, ids2, 3));
    for (int f = 1; f < 4; f++) {
        WANT(0, pelmetsavory_sheet_run_piece(&y, &w, 5, piece_at(1)));
        to_bytes(&s, a);
        memcpy(before, s.tally, sizeof before);
        for (int k = 0; k < COUNTS; k++) s.tally[k] = full[f];
        s.tally[5] = top - 1;
        WANT(0, pelmetsavory_sheet_take(&y, &s, &w));
        for (int k = 0; k < COUNTS; k++) YES(s.tally[k] == (k == 5 ? top : full[f]));
        KEPT(0, &s, pelmetsavory_sheet_take(&y, &s, &w)); /* nothing grows: nothing is asked */
        memcpy(s.tally, before, sizeof before);
        to_bytes(&s, b);
        YES(!memcmp(a, b, SHEET_BYTES));
    }

    /* and an average of both is no hindrance */
    memset(w.marks, 2, 9);
    WANT(0, pelmetsavory_sheet_take(&y, &s, &w));
    to_bytes(&s, b);
    YES(!memcmp(a, b, SHEET_BYTES));
    free_sheet(&s); free_sheet(&w); free_sheet(&one);
}

int main(int argc, char **argv)
{
    const char *why;
    if (argc < 2 || !pelmetsavory_ready(&why)) { fprintf(stderr, "%s\n", argc < 2 ? "test_store FILE" : why); return 1; }
    path = argv[1];
    y = small_study();
    digests();
    stored();
    taken();
    YES(!pelmetsavory_store_words(0) && !pelmetsavory_store_words(100) && !pelmetsavory_store_words(PELMETSAVORY_STORE_ITSELF + 1));
    puts("c: ok, stored sheets");
    return 0;
}
