#!/usr/bin/env python3
"""Shows that the comparisons of studies, of their listings and of sheet lists can fail: each change below of the checker, of the reader or
of the model must be seen.

    model_mutants.py OUT [FILE]      # FILE: the changes of that file alone

OUT is a folder as build.sh leaves it. The scripts run without their own assertions, so that only the comparison with the proved
program or library can see a change; its status must be 1, with differences counted. The status is 1 where a change was not seen.
"""
import os
import shutil
import subprocess
import sys
import tempfile

here = os.path.dirname(os.path.abspath(__file__))

# The questions of the open count.
TYPE = '    if outputs is None:\n        return ("refused", 8)\n'
COUNTS = """    if not (1 <= b1 <= 64 and 1 <= b2 <= 64 and 1 <= points <= 1024 and 0 <= triplets <= 65536):
        return ("refused", 9)
"""
WEIGHTS = '    if len(weights) != outputs * triplets * block:\n        return ("refused", 12)\n'
TRIPLET = '    if not 0 <= t < triplets:\n        return ("refused", 14)\n'
# And of the reader of listings.
LISTED_TYPE = "    if tp_type not in CHANNELS:\n        return 8, None\n"
LISTED_COUNTS = "    if not all(least <= n <= most for n, (least, most) in zip(counts, LIMITS)):\n        return 9, None\n"
LENGTHS = "    if lengths != (CHANNELS[tp_type] * size(counts), size(counts)):\n        return 12, None\n"
TEXT = "    record = read(text, tp_type, counts)\n    if record is None:\n        return 22, None\n"

# file, old text, new text, and more old and new texts where a change has more than one place
STUDIES = [
    ("scope.py", "all(1 <= d <= most for d in mesh)", "all(1 <= d <= most + 1 for d in mesh)"),
    ("scope.py", "-4096 <= x <= 4096", "-4096 <= x <= 4097"),
    ("scope.py", "not n <= p <= 8 * n", "not n <= p <= 8 * n + 1"),
    ("scope.py", "len(gp_map) >= n + 1", "len(gp_map) == n + 1"),
    ("scope.py", "gp_map[i] < gp_map[i + 1]", "gp_map[i] < gp_map[i + 1] < gp_map[i] + 8"),
    ("scope.py", "0 <= v < p or v == 8 * n", "0 < v < p or v == 8 * n"),
    ("scope.py", "LEAST, GREATEST = 2.0**-600, 2.0**30", "LEAST, GREATEST = 2.0**-601, 2.0**30"),
    ("scope.py", "LEAST_POINT, GREATEST_POINT = 2.0**-660, 2.0**31", "LEAST_POINT, GREATEST_POINT = 2.0**-660, 2.0**32"),
    ("studies/checker.py", "len(text) > 16384", "len(text) > 16385"),
    ("studies/checker.py", "b1 * b2 > 4096", "b1 * b2 > 4097"),
    ("studies/checker.py", "if type_ok and counts_ok and", "if type_ok and"),
    ("studies/checker.py", "(?:0|-?[1-9][0-9]*)", "(?:-?[0-9]+)"),
    ("studies/checker.py", "[0-9a-f]{16}", "[0-9a-fA-F]{16}"),
    ("studies/checker.py", "-2**63 <= x < 2**63", "-2**63 <= x <= 2**63"),
    ("studies/checker.py", "1 <= b1 <= 64", "1 <= b1 <= 65"),
    ("studies/checker.py", "0 <= g < p for", "0 <= g < max(1, p - 1) for"),
    ("studies/checker.py", "    if not type_ok:\n        return 8\n    if not counts_ok:\n        return 9\n",
     "    if not counts_ok:\n        return 9\n    if not type_ok:\n        return 8\n"),
]
# The reader of listings: capitals; any header; a last line that is not ended, carriage returns, spaces for tabs; places in any order; lines too
# few; weights by the entry; 8 after 9, 12 before 9, 22 before 12; a limit.
LISTINGS = [("listing.py", *texts) for texts in (
    ("[0-9a-f]{16}", "[0-9a-fA-F]{16}"),
    ("header != HEADER or not newline", "not newline"),
    ("text.partition(b\"\\n\")", "(text.rstrip(b\"\\n\") + b\"\\n\").partition(b\"\\n\")"),
    ("text.partition(b\"\\n\")", "text.replace(b\"\\r\", b\"\").partition(b\"\\n\")"),
    ("text.partition(b\"\\n\")", "text.replace(b\" \", b\"\\t\").partition(b\"\\n\")"),
    (" or any(a != b for a, b in zip(numbers, places(counts)))", ""),
    ("len(lines) != size(counts) or ", ""),
    ("for c in range(channels) for fields in lines", "for fields in lines for c in range(channels)"),
    (LISTED_TYPE + LISTED_COUNTS, LISTED_COUNTS + LISTED_TYPE),
    (LISTED_COUNTS + LENGTHS, LENGTHS + LISTED_COUNTS),
    (LENGTHS + TEXT, TEXT + LENGTHS),
    ("(1, 1024)", "(1, 1025)"),
)]
SHEETS = [("sheet/sheet_model.py", *texts) for texts in (
    ("sheet.tally[call[1]] + runs < 1 << 63", "sheet.tally[call[1]] + runs <= 1 << 63"),
    ('"run": tuple(range(3, 16)) + (21, 20)', '"run": tuple(range(3, 15)) + (21, 20)'),
    ('"carry_on": tuple(range(3, 14)) + (21, 20)', '"carry_on": (21, 20) + tuple(range(3, 14))'),
    ('"average": tuple(range(3, 20))', '"average": tuple(range(3, 21))'),
    ("        if any(m > 2 for m in marks):\n            return False\n", ""),
    ("0 <= call[3] < s.bands[0]", "0 <= call[3] < min(s.bands)"),
    ("return s.bands[0] == s.bands[1]", "return s.bands[0] == s.bands[1] > 1"),
    ("x == i or (i > 0 and x == ids[i - 1])", "x <= i"),
    ("return all(m == 1 for m in marks_of(s, sheet, call[1]))", "return any(m == 1 for m in marks_of(s, sheet, call[1]))"),
    ("if b == SIGN or b & ~SIGN > power(60)", "if b & ~SIGN > power(60)"),
    ("b & ~SIGN > power(60)", "b & ~SIGN > power(60) + 1"),
    ("len(sheet.flags) == s.f * pieces", "len(sheet.flags) >= s.f * pieces"),
    ("mean = bits(total / float(c1 * c2))", "mean = bits(total * (1.0 / float(c1 * c2)))"),
    ("if any(matrix[i] == 0 for i in places)", "if all(matrix[i] == 0 for i in places)"),
    ("if sheet.marks[mark_place(s, t, b1, b2)] == 0", "if sheet.marks[mark_place(s, t, b1, b2)] != 2"),
    ("    sheet.marks[mark_place(s, t, b1, b2)] = 1", "    sheet.marks[mark_place(s, t, b1, b2)] = 1 if t else 0"),
    ("if least <= omega <= greatest", "if least <= omega < greatest"),
    ("            if s.type in (2, 3):\n                if f1", "            if s.type in (2, 3, 4):\n                if f1"),
    ("g[0] + g[1] + g[2])", "g[0] + (g[1] + g[2]))"),
    ("if abs(delta) < EPSILON", "if abs(delta) <= EPSILON"),
    ("flag = min(piece(s, t, x, y)[point][1]", "flag = max(piece(s, t, x, y)[point][1]"),
    ("                self.words[i] = AVERAGED", "                self.words[i] = COMPUTED"),
    # Workers: one count for all; a carry-on counted as one; repeats not counted, in program and book; 20 of the sum, 20 of the greatest; 20 with
    # nothing open; 21 after 20, of either call; the lowest four bits taken for the worker; 21 for the last; 21 before 15.
    ("    sheet.tally[worker] += 1", "    sheet.tally[0] += 1"),
    ("sheet.tally[worker] += runs", "sheet.tally[worker] += min(runs, 1)"),
    ("    write_piece(s, sheet, t, b1, b2)\n    sheet.tally[worker] += 1",
     "    sheet.tally[worker] += sheet.marks[mark_place(s, t, b1, b2)] == 0\n    write_piece(s, sheet, t, b1, b2)"),
    ("                self.words[i] = COMPUTED\n                self.ran.append(call[1])",
     "                self.ran += [call[1]] * (self.words[i] == OPEN)\n                self.words[i] = COMPUTED"),
    ("sheet.tally[call[1]] + runs", "sum(sheet.tally) + runs"),
    ("sheet.tally[call[1]] + runs", "max(sheet.tally) + runs"),
    ("return sheet.tally[call[1]] + runs < 1 << 63", "return runs == 0 or sheet.tally[call[1]] + runs < 1 << 63"),
    ("(3, 16)) + (21, 20)", "(3, 16)) + (20, 21)", "sheet.tally[call[1]]", "sheet.tally[call[1] & 15]"),
    ("(3, 14)) + (21, 20)", "(3, 14)) + (20, 21)", "sheet.tally[call[1]]", "sheet.tally[call[1] & 15]"),
    ("return 0 <= call[1] < WORKERS", "return True", "sheet.tally[call[1]]", "sheet.tally[call[1] & 15]",
     "sheet.tally[worker] += 1", "sheet.tally[worker & 15] += 1", "sheet.tally[worker] += runs", "sheet.tally[worker & 15] += runs"),
    ("0 <= call[1] < WORKERS", "0 <= call[1] < WORKERS - 1"),
    ('"run": tuple(range(3, 16)) + (21, 20)', '"run": tuple(range(3, 15)) + (21, 15, 20)'),
    # The open count: a NaN for zero; -0 for a number; subnormals for zero; once for each output; all outputs together; the first, the last
    # alone; the first triplet for all; outputs that lie inside a triplet; 8 after 9, 12 before 9, 14 before 12.
    ("any(b & ~SIGN != 0 for", "any(0 < b & ~SIGN <= 0x7FF << 52 for"),
    ("any(b & ~SIGN != 0 for", "any(b != 0 for"),
    ("any(b & ~SIGN != 0 for", "any(b & ~SIGN >= 1 << 52 for"),
    ("any(b & ~SIGN != 0 for", "sum(b & ~SIGN != 0 for"),
    ("any(b & ~SIGN != 0 for", "all(b & ~SIGN != 0 for"),
    ("for b in entry)", "for b in entry[:1])"),
    ("for b in entry)", "for b in entry[-1:])"),
    ("weights[(o * triplets + t) * block + i]", "weights[o * triplets * block + i]"),
    ("weights[(o * triplets + t) * block + i]", "weights[(t * outputs + o) * block + i]"),
    (TYPE + COUNTS, COUNTS + TYPE),
    (COUNTS + WEIGHTS, WEIGHTS + COUNTS),
    (WEIGHTS + TRIPLET, TRIPLET + WEIGHTS),
)]


def counted(said):
    """The differences that the lines of kinds count."""
    return sum(int(l.split("\t")[5]) for l in said.splitlines() if l.startswith("kind\t"))


def seen(folder, change, command):
    """Whether the changed scripts, run in a folder, tell differences."""
    for part in ("compare", "foreign/python"):
        shutil.copytree(os.path.join(here, "..", part), os.path.join(folder, part))
    file, *texts = change
    path = os.path.join(folder, "compare", file)
    with open(path) as f:
        text = f.read()
    for old, new in zip(texts[::2], texts[1::2], strict=True):
        assert text.count(old) >= 1, change
        text = text.replace(old, new, 1)
    with open(path, "w") as f:
        f.write(text)
    script = os.path.join(folder, "compare", command[0])
    done = subprocess.run([sys.executable, "-O", script, *command[1:]], cwd=folder, capture_output=True, text=True)
    differences = counted(done.stdout)
    print("%s: %r: status %d, %d differences" % (file, texts[1][:70], done.returncode, differences), flush=True)
    return done.returncode == 1 and differences > 0


def main():
    if not 2 <= len(sys.argv) <= 3:
        sys.exit(__doc__)
    out = os.path.abspath(sys.argv[1])
    commands = [["studies/studies.py", "fuzz", out, "1", "1"], ["sheet/sheet_calls.py", os.path.join(out, "libpelmetsavory.so"), "1000", "1"]]
    missed = changes = 0
    for command, given in zip(commands, (STUDIES + LISTINGS, SHEETS)):
        for change in [c for c in given if len(sys.argv) < 3 or c[0] == sys.argv[2]]:
            with tempfile.TemporaryDirectory() as folder:
                missed += not seen(folder, change, command)
            changes += 1
    print("%d changes, %d not seen" % (changes, missed))
    return 1 if missed else 0


if __name__ == "__main__":
    sys.exit(main())
