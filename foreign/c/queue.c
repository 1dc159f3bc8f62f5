/* The pieces of one sheet on worker processes, some of them killed: in every bit the weights, flags and marks of one process that carries on, and
 * of each worker the count of its own runs. */
#define _POSIX_C_SOURCE 200809L
#include <errno.h>
#include <signal.h>
#include <sys/wait.h>
#include <time.h>
#include <unistd.h>
#include "small.h"

enum { WORKERS = 4 };

static void pause_ms(long ms) { struct timespec t = {0, ms * 1000000}; nanosleep(&t, NULL); }

/* A worker has a sheet of its own, names itself by its own number, and stores the sheet after each call. */
static void work(const pelmetsavory_study *y, int worker, const char *path, const int *pieces, int count)
{
    pelmetsavory_sheet own = new_sheet(y, 0, 0, NULL);
    for (int k = 0; k < count; k++) {
        stop_at(pelmetsavory_sheet_run_piece(y, &own, worker, piece_at(pieces[k])), "a piece");
        stop_at(pelmetsavory_store_save(y, &own, path), path);
        pause_ms(50); /* in place of a larger piece */
    }
    exit(0);
}

/* Takes over what a worker stored: of a killed one what its last whole call left, or nothing. The file is then gone. Gives the number of pieces
 * that it had marked. */
static uint64_t take(const pelmetsavory_study *y, pelmetsavory_sheet *sheet, const char *path)
{
    pelmetsavory_sheet part = new_sheet(y, 0, 0, NULL);
    uint64_t marked = 0, status = pelmetsavory_store_load(y, &part, path);
    if (status != PELMETSAVORY_STORE_FILE || errno != ENOENT) {
        stop_at(status, path);
        stop_at(pelmetsavory_sheet_take(y, sheet, &part), path);
        unlink(path);
    }
    for (int p = 0; p < PIECES; p++) marked += part.marks[p];
    free_sheet(&part);
    return marked;
}

int main(int argc, char **argv)
{
    const char *why;
    if (!pelmetsavory_ready(&why)) { fprintf(stderr, "%s\n", why); return 1; }
    pelmetsavory_study y = small_study();
    pelmetsavory_sheet sheet = new_sheet(&y, 0, 0, NULL), one = new_sheet(&y, 0, 0, NULL);
    uint64_t marked[COUNTS] = {0}, runs = 0; /* the pieces of each worker, by the marks of its sheets */
    char folder[] = "/tmp/pelmetsavory.XXXXXX", path[WORKERS][40], draft[256];
    int killed = 0;
    if (!mkdtemp(folder)) { perror(folder); return 1; }
    srand((unsigned)time(NULL));
    for (;;) {
        int open[PIECES], count = 0;
        for (int p = 0; p < PIECES; p++) if (sheet.marks[p] == 0) open[count++] = p;
        if (count == 0) break;
        for (int k = count - 1; k > 0; k--) { int j = rand() % (k + 1), t = open[k]; open[k] = open[j]; open[j] = t; }
        pid_t job[WORKERS];
        for (int k = 0; k < WORKERS; k++) {
            int from = count * k / WORKERS;
            snprintf(path[k], sizeof path[k], "%s/%d", folder, k);
            if ((job[k] = fork()) < 0) { perror("fork"); return 1; }
            if (job[k] == 0) work(&y, k, path[k], open + from, count * (k + 1) / WORKERS - from);
        }
        pause_ms(120);
        for (int k = 0; k < 2 && count > 8; k++) kill(job[k], SIGKILL);
        for (int k = 0; k < WORKERS; k++) {
            int how;
            waitpid(job[k], &how, 0);
            killed += WIFSIGNALED(how);
            stop_at(WIFEXITED(how) && WEXITSTATUS(how), "a worker");
            marked[k] += take(&y, &sheet, path[k]);
            snprintf(draft, sizeof draft, "%s.%d", path[k], (int)job[k]); /* what a killed worker was writing */
            unlink(draft);
        }
    }
    rmdir(folder);
    stop_at(pelmetsavory_sheet_carry_on(&y, &one, 0), "carrying on");
    for (int t = 0; t < TRIPLETS; t++) {
        stop_at(pelmetsavory_sheet_average_triplet(&y, &sheet, t, ids1, BANDS, ids2, BANDS), "an average");
        stop_at(pelmetsavory_sheet_average_triplet(&y, &one, t, ids1, BANDS, ids2, BANDS), "an average");
    }
    unsigned char a[SHEET_BYTES], b[SHEET_BYTES];
    to_bytes(&sheet, a);
    to_bytes(&one, b);
    if (killed == 0 || memcmp(a, b, CONTENT_BYTES)) { fprintf(stderr, "the sheets differ\n"); return 1; }
    for (int k = 0; k < COUNTS; k++) runs += sheet.tally[k];
    if (runs != PIECES || memcmp(sheet.tally, marked, sizeof marked)) { fprintf(stderr, "the counts are not those of the workers\n"); return 1; }
    if (argc > 1) stop_at(pelmetsavory_store_save(&y, &sheet, argv[1]), argv[1]);
    printf("c: %d workers killed, %d pieces, every bit as in one process; by worker", killed, PIECES);
    for (int k = 0; k < WORKERS; k++) printf(" %d", (int)sheet.tally[k]);
    puts("");
    free_sheet(&sheet); free_sheet(&one);
    return 0;
}
