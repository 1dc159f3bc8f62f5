"""Single-token changes of the one text (crates/tetrahedron_paper/specs/Paper.antt), each checked against the laws in fields alone. Prints those that are still proved.

  python3 compare/text_mutants.py FOLDER [SEED]      # in the repository; FOLDER is made anew, a copy of the two crates
"""
import pathlib, random, re, shutil, subprocess, sys

if len(sys.argv) < 2:
    sys.exit(__doc__)
repository, folder = pathlib.Path(__file__).resolve().parent.parent, pathlib.Path(sys.argv[1])
random.seed(int(sys.argv[2]) if len(sys.argv) > 2 else 1)
shutil.rmtree(folder, ignore_errors=True)
for crate in ('ring_laws', 'tetrahedron_paper'):
    shutil.copytree(repository / 'crates' / crate, folder / 'crates' / crate, ignore=shutil.ignore_patterns('out'))
(folder / 'crates.txt').write_text('ring_laws:\ntetrahedron_paper: ring_laws\n')
path = folder / 'crates/tetrahedron_paper/specs/Paper.antt'
text = path.read_text()


def proved():
    run = subprocess.run(['rt', 'check'], cwd=folder / 'crates/tetrahedron_paper', stdout=subprocess.PIPE, stderr=subprocess.STDOUT, text=True)
    assert run.returncode in (0, 1), run.stdout     # 3: the prover could not tell
    return run.returncode == 0


def others(word, parameters):
    """what may stand in a token's place"""
    if word in '⊕⊖⊗⊘':
        return [x for x in '⊕⊖⊗⊘' if x != word]
    if re.fullmatch(r'f\d\d', word):
        return [x for x in parameters if re.fullmatch(r'f\d\d', x) and x != word]
    if re.fullmatch(r'f \d \d', word):
        return [x for x in ('f %d %d' % (a, b) for a in range(4) for b in range(4) if a != b) if x != word]
    if re.fullmatch(r'v \d', word):
        return [x for x in ('v 0', 'v 1', 'v 2', 'v 3') if x != word]
    return [x for x in ('none', 'three', 'four', 'one') if x != word]


assert proved(), 'the text itself is refused'
lines, changes, parameters, begun = text.split('\n'), [], [], False
for i, line in enumerate(lines):
    begun = begun or 'pub fraction' in line
    if not begun or line.strip().startswith('--') or ' : ' in line or 'module' in line:
        continue
    head = re.match(r'^\s*(\w+)((?: [\w-]+)*) =', line)
    if head:
        parameters = head.group(2).split()
    for token in re.finditer(r'[⊕⊖⊗⊘]|\bf\d\d\b(?!-)|\bf \d \d|\bv \d|\b(?:none|three|four|one|quarter)\b', line):
        if head and token.start() < head.end():
            continue
        may = others(token.group(), parameters)
        if may:
            changes.append((i, token.start(), token.end(), random.choice(may)))
print(len(changes), 'changes', flush=True)
refused = 0
for i, a, b, new in changes:
    path.write_text('\n'.join(lines[:i] + [lines[i][:a] + new + lines[i][b:]] + lines[i + 1:]))
    if proved():
        print('still proved, line %d: %s for %s in %s' % (i + 1, new, lines[i][a:b], lines[i].strip()), flush=True)
    else:
        refused += 1
        if refused % 50 == 0:
            print(refused, 'refused so far', flush=True)
print(refused, 'of', len(changes), 'refused')
