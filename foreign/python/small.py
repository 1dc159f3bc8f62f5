"""What the tests share: the small study, changes of it, tables that close around zero six times, and what a refusal must leave."""
import numpy as np

import pelmetsavory as pm
from queue_example import addresses, grid, n, study, table

BEGUN = [40, 43, 46, 49, 52, 55, 58, 61, 64, 2**63 - 1, 70, 73, 76, 79, 82, 85]  # what the counts of a test begin with: worker 9's is full
FULL = 2**63 - 1, 2**63, 2**64 - 1  # counts that take no run
NONE = -1, 16, 256, 2**32, -(2**63), 2**63 - 1  # what is no worker

# six fans without a common face, by three vectors each
FANS = ((1, 0, 0), (0, 1, 0), (0, 0, 1)), ((1, 0, 0), (0, -1, 0), (0, 0, -1)), ((-1, 0, 0), (0, 1, 0), (0, 0, -1)), ((-1, 0, 0), (0, -1, 0), (0, 0, 1))
FANS += ((1, 1, 0), (0, 1, 1), (-1, -1, -1)), ((-1, -1, 0), (0, -1, -1), (1, 1, 1))


def fan(three):
    """Three vectors, and what makes their sum zero, close a fan of four rows (4, 4, 3), each of three of the four."""
    four = np.vstack([three, -np.sum(three, 0)])
    return np.array([[(0, 0, 0), *np.delete(four, left, 0)] for left in range(4)])


def other(grid=grid, table=table, tp_type=3, f1=(n % 17 + 1) / 8, f2=(n % 13 - 1) / 8, points=(0, 0.5, 1.25, 3, 9), triplets=study.triplets):
    """The study with a change."""
    return pm.Study(grid, table, tp_type, f1, f2, points, triplets)


def plus(tally, added):
    """A tally, as a list, in which some counts are greater by so many."""
    return [int(count) + added.get(worker, 0) for worker, count in enumerate(tally)]


def held(sheet):
    """All that a sheet holds, in every bit."""
    return sheet.weights.tobytes(), sheet.flags.tobytes(), sheet.marks.tobytes(), sheet.tally.tolist(), sheet.began.tolist()


def raises(error, words, call, *sheets):
    """The call raises that error, no Refused, with the words in its message, and leaves the sheets as they were."""
    before = [held(s) for s in sheets]
    try:
        call()
    except error as e:
        assert not isinstance(e, pm.Refused) and all(w in str(e) for w in ([words] if isinstance(words, str) else words)), repr(e)
    else:
        raise AssertionError("taken")
    assert before == [held(s) for s in sheets]


def refused(number, call, *sheets):
    """The call is refused with that number and its words, and leaves the sheets as they were. A fault is told of a table alone."""
    before = [held(s) for s in sheets]
    try:
        call()
    except pm.Refused as e:
        assert e.number == number and str(e) == str(pm.Refused(number, e.fault)) and (e.fault is None or number in (23, 24, 25)), (e, number)
    else:
        raise AssertionError(f"not refused with {number}")
    assert before == [held(s) for s in sheets]


def run(tests):
    """Runs every function of a module that is named test_.., or those that the command line names."""
    import sys

    for name in sys.argv[1:] or [t for t in tests if t.startswith("test_")]:
        tests[name]()
