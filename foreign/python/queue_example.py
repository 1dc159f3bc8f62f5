"""The pieces of one sheet on worker processes, some of them killed: in every bit the weights, flags and marks of one process that carries on, and of
each worker the count of its own runs."""
import multiprocessing, os, sys, tempfile, time
import numpy as np, pelmetsavory as pm

# with phono3py: bz_grid.D_diag, bz_grid.addresses, bz_grid.gp_map; frequencies at those addresses; sampling points; triplets
addresses = [(0, 0, 0), (1, 0, 0), (-1, 0, 0), (0, 1, 0), (0, -1, 0), (1, 1, 0), (0, 0, 1), (0, 0, -1), (1, 0, 1), (0, 1, 1), (1, 1, 1), (-1, -1, -1)]
grid = pm.Grid(2, [2, 2, 2], addresses, [0, 1, 3, 5, 6, 8, 9, 10, 12])
table, _ = pm.relative_grid_address([[1, 1, 0], [0, 1, 0], [0, 0, 1]])
n = np.array([[7 * i * i + 5 * b + 3 * i * b for b in range(3)] for i in range(12)])
study = pm.Study(grid, table, 3, (n % 17 + 1) / 8, (n % 13 - 1) / 8, [0, 0.5, 1.25, 3, 9], [(0, 1, 2), (3, 5, 6), (4, 11, 7)])

def work(worker, path, pieces):  # a worker has a sheet of its own, names itself by its own number, and stores the sheet after each call
    own = pm.Sheet(study)
    for piece in pieces:
        own.run_piece(worker, *piece)
        own.save(path)
        time.sleep(0.05)  # in place of a larger piece

if __name__ == "__main__":
    sheet, one, killed = pm.Sheet(study), pm.Sheet(study), 0
    marked = [0] * 16  # the pieces of each worker, by the marks of its sheets
    while (sheet.marks == 0).any():
        shares = np.array_split(np.random.permutation(np.argwhere(sheet.marks == 0)), 4)  # what is open, in random order
        with tempfile.TemporaryDirectory() as folder:
            jobs = [multiprocessing.Process(target=work, args=(k, f"{folder}/{k}", share)) for k, share in enumerate(shares)]
            [job.start() for job in jobs]
            time.sleep(0.12)
            [job.kill() for job in jobs[:2] if len(shares[0]) > 2]
            [job.join() for job in jobs]
            killed += sum(job.exitcode == -9 for job in jobs)
            for k in [k for k in range(4) if os.path.exists(f"{folder}/{k}")]:  # of a killed worker: what its last whole call left, or nothing
                part = pm.Sheet.load(study, f"{folder}/{k}")
                marked[k] += int(part.marks.sum())
                sheet.take(part)
    one.carry_on(0)
    [s.average_triplet(t, [0, 0, 2], [0, 1, 1]) for s in (sheet, one) for t in range(3)]
    assert killed > 0 and all(getattr(sheet, a).tobytes() == getattr(one, a).tobytes() for a in ("weights", "flags", "marks"))
    assert sheet.tally.tolist() == marked and sum(marked) == 27
    sheet.save(sys.argv[1]) if len(sys.argv) > 1 else None
    print(f"python: {killed} workers killed, {sheet.marks.size} pieces, every bit as in one process; by worker {sheet.tally[:4]}")
