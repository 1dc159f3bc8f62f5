#!/usr/bin/env python3
"""Shows that the judge can fail: each change below of the Rust, of the judge's questions, of its open count, of its test frequencies, of its
reader of listings, of its ways along edges, of the generated tables that the library gives or of its calls for a customer's table must be seen.

    mutants.py SOURCES OUT [SEED [FILE]]      # FILE: the changes of that file alone, or those that are tied to the kind of that name

SOURCES is the folder of the original's Rust sources, OUT a folder as build.sh leaves it (its proved side is used as it is; its judge is
replaced). For each change a judge is built and run (`times 1`); it must tell differences, and its status must not be 0 (where the
questions take too much, the Rust may panic on it afterwards). Some changes are tied to a kind, which must tell differences, and some to
another that must tell none. The kinds that saw the change are printed. The status is 1 where a change was not seen so.
"""
import pathlib
import shutil
import subprocess
import sys
import tempfile

REPO = pathlib.Path(__file__).resolve().parent.parent
STEPS = "base[0] + rel[0], base[1] + rel[1], base[2] + rel[2]"
AVERAGE = """.map(|b1| matrix[b1 * num_band + s2..][..c2].iter().sum::<f64>())
                .sum();"""

WORKER = "        (21, &|| within(worker, 0, 15)),\n"
FULL = "        (20, &|| before + (runs as u128) < 1 << 63),\n"

TYPE = "        (8, &|| known_type(tp)),\n"
COUNTS = "        (9, &|| counts(&[b1, b2], x, t)),\n"
WEIGHTS = "        (12, &room),\n"
TRIPLET = "        (14, &|| within(triplet, 0, t - 1)),\n"
LISTING = "        (22, printed),\n"

# Of the Rust's tables the first two rows, the last row of the first, and the first of the second.
FIRST = "        [[0, 0, 0], [1, 0, 0], [1, 1, 0], [1, 1, 1]],\n"
SECOND = "        [[0, 0, 0], [1, 0, 0], [1, 0, 1], [1, 1, 1]],\n"
LAST = "        [[0, 0, 0], [-1, -1, -1], [-1, -1, 0], [-1, 0, 0]],\n"
OTHER = "        [[0, 0, 0], [1, 0, 0], [0, 1, 0], [0, 1, 1]],\n"
BETWEEN = "    ],\n    [\n"
IN_USE, GENERATED = "the four tables", "the generated tables"
GENERATE = "unsafe { c::pelmetsavory_generated_relative_grid_address(all) }"

CUSTOMER, CUSTOMER_I, CUSTOMER_J = "a customer's table", "weights by a customer's table I", "weights by a customer's table J"
PLAIN_I = "grid-point weights I"
COUNT, GOOD, PAIRED, CONE = ("        (%s, &|| %s(t)),\n" % q for q in ((7, "table"), (23, "good_rows"), (24, "paired"), (25, "one_cone")))
IN_TURN = "then(then(grid(g), fan), || at_grid_points(g, c, room))"
SIDES = "s.len() == 2 && s[0] + s[1] == 0"
CHECK = "unsafe { c::pelmetsavory_check_relative_grid_address(t.0, t.1) }"
CHECKED = """    at_grid_points!(
        pelmetsavory_checked_integration_weights_at_grid_points,
        g,
        x,
        weights,
        letter
    )"""

# The judge's own files; the others are the Rust's.
OWN = ("asks", "calls", "fans", "gridpoints", "listings", "loads", "sheets", "tables")
# file, old text, new text, which of its places (the first where none is told), the kind that must see it (any), a kind that must not
CHANGES = [
    ("tetrahedron_method", "THM_EPSILON: f64 = 1e-10", "THM_EPSILON: f64 = 1.1e-10"),
    ("tetrahedron_method", "if min_length > length", "if min_length >= length"),
    ("tetrahedron_method", "if v[1] > v[2]", "if v[1] >= v[2]"),
    ("tetrahedron_method", "} else if omega < v[1] {", "} else if omega <= v[1] {"),
    ("tetrahedron_method", "sum / (tetrahedra_omegas.len() as f64 / 4.0)", "sum * (4.0 / tetrahedra_omegas.len() as f64)"),
    ("tetrahedron_method", "1.0 - _f(0, 3, omega, v) * _f(1, 3, omega, v) * _f(2, 3, omega, v)",
     "1.0 - _f(0, 3, omega, v) * (_f(1, 3, omega, v) * _f(2, 3, omega, v))"),
    ("tetrahedron_method", "[-1, -1, -1], [-1, -1, 0], [-1, 0, 0]]", "[-1, -1, -1], [-1, -1, 0], [0, -1, 0]]", 0, GENERATED),
    # Tables: rows of two exchanged; a row twice, another never; corners 0 and 1 exchanged; two tables exchanged. Two rows of one table
    # and corners 2 and 3 of a row exchanged are the same collection.
    ("tetrahedron_method", LAST + BETWEEN + OTHER, OTHER + BETWEEN + LAST, 0, GENERATED),
    ("tetrahedron_method", FIRST + SECOND, FIRST + FIRST, 0, GENERATED),
    ("tetrahedron_method", FIRST, FIRST.replace("[0, 0, 0], [1, 0, 0]", "[1, 0, 0], [0, 0, 0]"), 0, GENERATED),
    ("tetrahedron_method", "    DB_RELATIVE_GRID_ADDRESS\n", "    let [a, b, c, d] = DB_RELATIVE_GRID_ADDRESS;\n    [a, c, b, d]\n", 0, GENERATED),
    ("tetrahedron_method", FIRST + SECOND, SECOND + FIRST, 0, IN_USE, GENERATED),
    ("tetrahedron_method", FIRST, FIRST.replace("[1, 1, 0], [1, 1, 1]", "[1, 1, 1], [1, 1, 0]"), 0, IN_USE, GENERATED),
    ("tetrahedron_method", "iw_chunk[j * num_band + bi]", "iw_chunk[bi * num_fp + j]"),
    ("tetrahedron_method", "a[0] * a[0] + a[1] * a[1] + a[2] * a[2]", "a[0] * a[0] + (a[1] * a[1] + a[2] * a[2])"),
    ("bzgrid", STEPS, STEPS.replace("[2] +", "[2] -")),
    ("bzgrid", STEPS, STEPS.replace("[2] +", "[2] -"), 1),
    ("bzgrid", "if hi - lo > 1", "if hi - lo > 2"),
    ("bzgrid", "out[i] = j;\n                    break;", "out[i] = j;"),
    ("grgrid", "r2 * d_diag[0] * d_diag[1] + r1 * d_diag[0] + r0", "r0 * d_diag[2] * d_diag[1] + r1 * d_diag[2] + r2"),
    ("common", "a[0][0] * b[0] as f64 + a[0][1] * b[1] as f64 + a[0][2] * b[2] as f64",
     "a[0][0] * b[0] as f64 + (a[0][1] * b[1] as f64 + a[0][2] * b[2] as f64)"),
    ("triplet", "if tp_type == 2 || tp_type == 3 { -1 }", "if tp_type == 2 { -1 }"),
    ("triplet", "for i in 0..3 {\n        let mut sum_q", "for i in 0..2 {\n        let mut sum_q"),
    ("triplet_iw", "fmin <= f0 && f0 <= fmax", "fmin <= f0 && f0 < fmax"),
    ("triplet_iw", "if f1 < 0.0 {", "if f1 < -1.0 {"),
    ("triplet_iw", "g[0] + g[1] + g[2]]", "g[0] + (g[1] + g[2])]"),
    ("triplet_iw", AVERAGE, ".flat_map(|b1| matrix[b1 * num_band + s2..][..c2].iter().copied())\n                .sum();"),
    ("triplet_iw", ".filter(|&(_, c1, _, c2)| c1 * c2 > 1)", ".filter(|&(_, c1, _, c2)| c1 * c2 > 2)"),
    ("triplet_iw", ".contains(&0)", ".iter().all(|z| *z == 0)"),
    ("asks", "within(*d, 1, 128)", "within(*d, 1, 129)"),
    ("asks", "within(*x, -4096, 4096)", "within(*x, -4096, 4097)"),
    ("asks", "within(p, n, 8 * n)", "within(p, n, 8 * n + 1)"),
    ("asks", "zero_or(x, power(-600), power(30))", "zero_or(x, power(-600), power(29))"),
    ("asks", "zero_or(x, power(-660), power(31))", "zero_or(x, power(-659), power(31))"),
    ("asks", "within(things, 0, 65536)", "within(things, 0, 65537)"),
    ("asks", "within(points, 1, 1024)", "within(points, 1, 1025)"),
    ("asks", "w.abs() <= power(60) && !(w == 0.0 && w.is_sign_negative())", "w.abs() <= power(60)"),
    ("asks", "(0..n).all(|i| g.map[i] < g.map[i + 1])", "(0..n).all(|i| g.map[i] <= g.map[i + 1])"),
    ("asks", "(averaged == 0 || averaged == m.len())", "(averaged == 0 || averaged > 0)"),
    ("asks", "before + (runs as u128) < 1 << 63", "before + (runs as u128) <= 1 << 63"),
    ("asks", "within(worker, 0, 15)", "within(worker, 0, 16)"),
    ("asks", "(worker & 15) as usize", "(worker & 0) as usize"),
    ("asks", "counts[place(worker)] as u128", "counts.iter().map(|c| *c as u128).sum::<u128>()"),
    ("asks", WORKER + FULL, FULL + WORKER),
    ("asks", "(7, &|| table(t)),\n        (8, &|| known_type(tp)),", "(8, &|| known_type(tp)),\n        (7, &|| table(t)),"),
    ("asks", TYPE + COUNTS, COUNTS + TYPE),
    ("asks", COUNTS + WEIGHTS, WEIGHTS + COUNTS),
    ("asks", WEIGHTS + TRIPLET, TRIPLET + WEIGHTS),
    # The reader of listings, whose first questions are those of the open count: 8 after 9, 12 before 9, 22 before 12; flags of any length.
    ("asks", TYPE + COUNTS, COUNTS + TYPE, 1),
    ("asks", COUNTS + WEIGHTS, WEIGHTS + COUNTS, 1),
    ("asks", WEIGHTS + LISTING, LISTING + WEIGHTS),
    ("asks", " && long(rooms[1], &[t, x, b1, b2])", ""),
    # The open count: a NaN for zero; -0 for a number; subnormals for zero; once for each output; all outputs together; the first, the last
    # alone; the first triplet for all; outputs that lie inside a triplet.
    ("sheets", "] != 0.0);", "].abs() > 0.0);"),
    ("sheets", "] != 0.0);", "].to_bits() != 0);"),
    ("sheets", "] != 0.0);", "].abs().to_bits() >> 52 != 0);"),
    ("sheets", "some.count().min(1)", "some.count()"),
    ("sheets", "some.count().min(1)", "(some.count() / outputs)"),
    ("sheets", "(0..outputs).filter", "(0..outputs.min(1)).filter"),
    ("sheets", "(0..outputs).filter", "(outputs - 1..outputs).filter"),
    ("sheets", "(o * all + t) * each", "(o * all + t * 0) * each"),
    ("sheets", "(o * all + t) * each", "(t * outputs + o + all * 0) * each"),
    ("loads", "wrapping_add(1013904223)", "wrapping_add(1013904222)"),
    ("loads", "let [_, _, low, high]", "let [low, high, _, _]"),
    ("loads", "chain.record(n)", "Chain(start).record(n)"),
    # The reader: capitals; flags 2, -1 and 00; each NaN, none; -0 for 0, subnormals for 0; 0 before a number, a plus sign; another number; 15
    # digits and 17; spaces for tabs; a carriage return; a last line that is not ended; any header; a line too few, too many; a weight too many; the
    # first band first, the point before the triplet; weights that lie by the entry; flags of the other sign.
    ("listings", "b'a'..=b'f' => Some(u64::from(b - b'a') + 10)", "b'a'..=b'f' | b'A'..=b'F' => Some(u64::from(b | 32) - 87)"),
    ("listings", 'b"1" => Some(1)', 'b"1" | b"2" => Some(1)'),
    ("listings", 'b"1" => Some(1)', 'b"1" | b"-1" => Some(1)'),
    ("listings", 'b"0" => Some(0)', 'b"0" | b"00" => Some(0)'),
    ("listings", "(!weight.is_nan() || bits == NAN)", "(bits <= u64::MAX)"),
    ("listings", "(!weight.is_nan() || bits == NAN)", "(!weight.is_nan())"),
    ("listings", "(!weight.is_nan() || bits == NAN).then_some(weight)", "(!weight.is_nan() || bits == NAN).then_some(weight + 0.0)"),
    ("listings", "let weight = f64::from_bits(bits);", "let weight = f64::from_bits(if bits >> 52 == 0 { 0 } else { bits });"),
    ("listings", "field.len() > 1 && field[0] == b'0'", "field.len() > 99 && field[0] == b'0'"),
    ("listings", "field.iter().all(u8::is_ascii_digit)", "field.iter().all(|b| b.is_ascii_digit() || *b == b'+')"),
    ("listings", "numbers != place || ", "numbers[1..] != place[1..] || "),
    ("listings", "digits.len() != 16", "digits.len() > 16"),
    ("listings", "digits.len() != 16", "digits.len() < 16"),
    ("listings", "line.split(|b| *b == b'\\t').collect();\n        let (front", "line.split(|b| *b == b'\\t' || *b == b' ').collect();\n        let (front"),
    ("listings", "for line in entries {\n", "for line in entries {\n        let line = line.strip_suffix(b\"\\r\").unwrap_or(line);\n"),
    ("listings", "    let rest = lines.pop()?;\n", "    let rest = lines.pop_if(|l| l.is_empty()).unwrap_or_default();\n"),
    ("listings", " || *header != HEADER", " || header.is_empty()"),
    ("listings", "(place == [counts[0], 0, 0, 0])", "(place[0] <= counts[0])"),
    ("listings", "(place == [counts[0], 0, 0, 0])", "(place[0] >= counts[0])"),
    ("listings", "own.len() != channels.len()", "own.len() < channels.len()"),
    ("listings", "for k in [3, 2, 1] {", "for k in [2, 3, 1] {"),
    ("listings", "for k in [3, 2, 1] {", "for k in [3, 2, 0] {"),
    ("listings", "channels.concat()", "(0..channels.concat().len()).map(|k| channels[k % channels.len()][k / channels.len()]).collect()"),
    ("listings", 'b"1" => Some(1)', 'b"1" => Some(-1)'),
    # The ways along edges: one taken twice, another never; one that runs along one edge all the time; ways back along their first edge;
    # diagonals of faces for edges; a vertex left out; the last place never at zero; only the first; corner 0 where it was passed; a
    # diagonal's end at 1, 1, 1; the first diagonal for all; a sign, so that the third diagonal comes again; two diagonals exchanged.
    ("tables", "ways.push(way)", "ways.push(if ways.len() == 5 { ways[0] } else { way })", 0, GENERATED),
    ("tables", "ways.push(way)", "ways.push(if ways.len() == 3 { [start, a, start, a] } else { way })", 0, GENERATED),
    ("tables", "way.windows(2)", "way[..3].windows(2)", 0, GENERATED),
    ("tables", ".count() == 1", ".count() <= 2", 0, GENERATED),
    ("tables", "(0..8).map", "(0..7).map", 0, GENERATED),
    ("tables", "[0, 1, 2, 3].map", "[0, 1, 2, 2].map", 0, GENERATED),
    ("tables", "minus(place, way[zero])", "minus(place, way[0])", 0, GENERATED),
    ("tables", "row.swap(0, zero)", "row.swap(zero, zero)", 0, GENERATED),
    ("tables", "(d > 0) as i64", "d * d", 0, GENERATED),
    ("tables", "ends(diagonal);", "ends(diagonal.map(i64::abs));", 0, GENERATED),
    ("tables", "[1, 1, -1]]", "[-1, 1, -1]]", 0, GENERATED),
    ("tables", "[-1, 1, 1], [1, -1, 1]", "[1, -1, 1], [-1, 1, 1]", 0, GENERATED),
    # What the library gives: a row twice, another never; rows of two tables exchanged; the last number not written; one behind the last
    # written; an order that depends on what the buffer held.
    ("calls", GENERATE, GENERATE + "\n    all.copy_within(..12, 12)", 0, GENERATED),
    ("calls", GENERATE, GENERATE + "\n    (0..12).for_each(|k| all.swap(k, 288 + k))", 0, GENERATED),
    ("calls", GENERATE, "let held = all[1151];\n    " + GENERATE + "\n    all[1151] = held", 0, GENERATED),
    ("calls", GENERATE, GENERATE + "\n    unsafe { *all.as_mut_ptr().add(1152) = 0 }", 0, GENERATED),
    ("calls", GENERATE, "let held = all[0];\n    " + GENERATE + "\n    (0..12).for_each(|k| all.swap(k, k + 12 * (held & 1) as usize))", 0, GENERATED),
    # A customer's table, its rows: only determinant 1; components -1 to 1, -3 to 3; any first corner; 48 rows.
    ("fans", "[1, -1].contains", "[1].contains", 0, CUSTOMER),
    ("fans", "(-2..=2)", "(-1..=1)", 0, CUSTOMER),
    ("fans", "(-2..=2)", "(-3..=3)", 0, CUSTOMER),
    ("fans", "row[0] == [0; 3]", "row[0] != [3; 3]", 0, CUSTOMER),
    ("fans", "table.len() == 24 * 12", "table.len() <= 48 * 12", 0, CUSTOMER),
    # Its faces: without sides; any even number of rows; one row will do; by the order of their corners; sides by the order of corners alone;
    # a row that comes twice counted once.
    ("fans", SIDES, "s.len() == 2", 0, CUSTOMER),
    ("fans", SIDES, "s.iter().sum::<i64>() == 0", 0, CUSTOMER),
    ("fans", SIDES, "s.len() == 1 || " + SIDES, 0, CUSTOMER),
    ("fans", "if p < q {", "if p != q {", 0, CUSTOMER),
    ("fans", "solved(&row).determinant.signum()", "1", 0, CUSTOMER),
    ("fans", "in rows(table) {", "in rows(table).into_iter().collect::<std::collections::BTreeSet<_>>() {", 0, CUSTOMER),
    # Its cones: at least one; the first row's alone; one factor not asked; a row of determinant -1 turned inside out.
    ("fans", ".count() == 1", ".count() >= 1", 0, CUSTOMER),
    ("fans", "rows(table).iter().filter", "rows(table)[..1].iter().filter", 0, CUSTOMER),
    ("fans", "factors.iter()", "factors[..2].iter()", 0, CUSTOMER),
    ("fans", "|x| *x > 0", "|x| *x * solved(row).determinant > 0", 0, CUSTOMER),
    # The order of its questions: 7 after 23, 23 after 24, 24 after 25; with a study 23 after 9 to 12, and before 3 to 6; only 7.
    ("asks", COUNT + GOOD, GOOD + COUNT, 0, CUSTOMER),
    ("asks", GOOD + PAIRED, PAIRED + GOOD, 0, CUSTOMER),
    ("asks", PAIRED + CONE, CONE + PAIRED, 0, CUSTOMER),
    ("asks", IN_TURN, "let rows = || first_no(&[(7, &|| table(&c.table))]);\n    "
     "then(then(then(grid(g), rows), || at_grid_points(g, c, room)), fan)", 0, CUSTOMER_I, PLAIN_I),
    ("asks", IN_TURN, "then(then(fan(), || grid(g)), || at_grid_points(g, c, room))", 0, CUSTOMER_I, PLAIN_I),
    ("asks", "let fan = || customer_table(&c.table);", "let fan = || first_no(&[(7, &|| table(&c.table))]);", 0, CUSTOMER_I, PLAIN_I),
    # What the library answers: the first 24 rows alone; the weights of the call that asks only 7; a refused call that writes; weights under
    # a table with its rows in the other order, and under a built-in table.
    ("calls", CHECK, CHECK.replace("t.1", "t.1.min(288)"), 0, CUSTOMER),
    ("calls", CHECKED, CHECKED.replace("checked_", ""), 0, CUSTOMER_I, PLAIN_I),
    ("calls", CHECKED, "let no = " + CHECKED.lstrip() + ";\n    if no > 22 && !weights.is_empty() {\n        weights[0] = 0.0;\n    }\n    no",
     0, CUSTOMER_I, PLAIN_I),
    ("gridpoints", "&rows(&c.table)", "&rows(&c.table).into_iter().rev().collect::<Vec<_>>()", 0, CUSTOMER_J),
    ("gridpoints", "&rows(&c.table)", "&phonors::tetrahedron_method::all_relative_grid_address()[0]", 0, CUSTOMER_I),
]


def source_file(folder, module):
    names = [p + module + e for p in ("src--src--", "src--", "") for e in (".rs.txt", ".rs")]
    return next(folder / n for n in names if (folder / n).is_file())


def changed(path, old, new, place=0):
    parts = path.read_text().split(old)
    assert len(parts) > place + 1, (path, old)
    path.write_text(old.join(parts[:place + 1]) + new + old.join(parts[place + 1:]))


def seen_by(said):
    """The kinds of a judge's lines that differ, and how often."""
    lines = [l.split("\t") for l in said.split("\n") if l.startswith("kind\t")]
    return {l[1]: l[5] for l in lines if l[5] != "0"}


def enough(kinds, must=None, never=None):
    """Whether the kind saw the change that must, any where none is told, and none that must not."""
    return (must in kinds if must else kinds != {}) and never not in kinds


def tried(sources, out, seed, change):
    """Whether the judge saw the change as it must."""
    with tempfile.TemporaryDirectory() as room:
        room = pathlib.Path(room)
        shutil.copytree(sources, room / "sources")
        for part in ("compare", "foreign"):
            shutil.copytree(REPO / part, room / part)
        module = change[0]
        own = room / "compare/judge" / (module + ".rs")
        changed(own if module in OWN else source_file(room / "sources", module), *change[1:4])
        subprocess.run([room / "compare/build.sh", "--other-sources", room / "sources", out, "judge"], check=True, stdout=subprocess.DEVNULL)
        end = subprocess.run([out / "judge", str(seed), "times", "1"], stdout=subprocess.PIPE, stderr=subprocess.DEVNULL, text=True)
        kinds = seen_by(end.stdout)
        seen = end.returncode != 0 and enough(kinds, *change[4:])
        told = "; ".join("%s %s" % kind for kind in kinds.items())
        print("%s\t%s: %s\t%s" % ("seen" if seen else "NOT SEEN", module, " ".join(change[2].split()), told), flush=True)
        return seen


def main():
    sources, out = (pathlib.Path(p).resolve() for p in sys.argv[1:3])
    seed = int(sys.argv[3]) if len(sys.argv) > 3 else 1
    changes = [c for c in CHANGES if len(sys.argv) < 5 or {c[0], *c[4:]} & set(sys.argv[4:])]
    missed = [c for c in changes if not tried(sources, out, seed, c)]
    print("%d changes, %d not seen" % (len(changes), len(missed)))
    return 1 if missed else 0


if __name__ == "__main__":
    sys.exit(main())
