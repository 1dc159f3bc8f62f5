#!/usr/bin/env python3
"""Counts, in the sources and proofs of every crate, the places that today's forms could replace.

  tools/places.py [TREE] [--list POINT]     TREE is a checkout (default: this one); --list names the places of one point, as 1a, 3 or 5b

The points, each a plain pattern over the text of src/ (comments and contracts are left out), so that two trees are counted alike:
  1a  enums of one's own with a variant that says 'refused', 'bad' or 'nothing' (Refused, Bad, Closed, ..)
  1b  structs in which a flag, an answer or a refusal's number stands beside a value
  1c  functions that answer with the number of the first no, 0 for none (their names end in _no or begin with refusal)
  1d  constants that number refusals, and numbers for kinds (fields and parameters named kind)
  2   functions of eight lines or more that are another function of the tree with other names, types and numbers
  3   loops that count by hand: while and loop
  4   equality, order, magnitude, copying, conversion and printing by functions of one's own
  5a  functions of seven parameters or more
  5b  facts that stand in the requires of three functions or more, each function counted
  6   functions that take a slice with a place or a length beside it
  7   tests of a number for the kind of a step (a kind compared with a literal)
  8a  answers written by hand (entries of Answers.antt), 8b the files they stand in, 8c functions of more than 60 lines
"""
import collections, pathlib, re, sys

FUNCTION = re.compile(r'^(?P<indent>[ ]*)(?:pub(?:\([a-z]+\))? )?(?:unsafe )?(?:extern "C" )?(?:const )?fn (?P<name>\w+)', re.M)

def functions(text):
    """(name, parameters, clauses, body, lines) of each function."""
    for m in FUNCTION.finditer(text):
        i, depth = text.index('(', m.end()), 0
        for j in range(i, len(text)):
            depth += {'(': 1, ')': -1}.get(text[j], 0)
            if depth == 0:
                break
        end = re.compile(r'^' + m.group('indent') + r'\}', re.M).search(text, j)
        start = re.compile(r'^' + m.group('indent') + r'\{|\{$', re.M).search(text, j)
        if not end or not start or text[j:end.start()].lstrip().startswith(';'):
            continue
        head = re.compile(r'^' + m.group('indent') + r'\{', re.M).search(text, j, end.start())
        cut = head.start() if head else text.index('{', j)
        yield m.group('name'), text[i + 1:j], text[j + 1:cut], text[cut:end.end()], text.count('\n', m.start(), end.end()) + 1

def split(parameters):
    parts, depth, part = [], 0, ''
    for c in parameters:
        depth += {'(': 1, '[': 1, '<': 1, ')': -1, ']': -1, '>': -1}.get(c, 0)
        if c == ',' and depth == 0:
            parts.append(part.strip()); part = ''
        else:
            part += c
    return [p for p in parts + [part.strip()] if p]

def plain(text):
    """Without comments and ghost imports."""
    return re.sub(r'(?m)^[ ]*ghost use [^;]*;', '', re.sub(r'//[^\n]*', '', text))

KEEP = set('fn let mut if else while for in match return true false as usize u64 i64 u8 i8 f64 bool loop break continue'.split())

def shape(parameters, body):
    out = []
    for t in re.findall(r'\w+|[^\s\w]', parameters + body):
        out.append(t if t in KEEP and t not in ('usize', 'u64', 'i64', 'u8', 'i8', 'f64', 'bool') else 'N' if t[0].isdigit() else 'x' if t[0].isalpha() or t[0] == '_' else t)
    return ' '.join(t for t in out if t != ',')

def facts(clauses):
    """The facts of each requires, named or not."""
    out = []
    for m in re.finditer(r'requires(?: \w+)? \{(.*?)\}\s*(?=requires|ensures|ghost|$)', clauses, re.S):
        for fact in re.split(r'×', m.group(1)):
            f = ' '.join(fact.strip().strip('()').split()).strip('() ')
            if f:
                out.append(f)
    return out

def count(tree):
    found = collections.defaultdict(list)
    shapes, required = collections.defaultdict(list), collections.defaultdict(set)
    for path in sorted(pathlib.Path(tree).glob('crates/*/src/**/*.rt')):
        where = str(path.relative_to(pathlib.Path(tree) / 'crates')).replace('/src/', '/')
        text = plain(path.read_text())
        for m in re.finditer(r'enum (\w+)[^{]*\{(.*?)^\}', text, re.S | re.M):
            if m.group(1) != 'Refusal' and re.search(r'(?m)^\s+(Refused|Bad|Closed|Missing|Nothing|Absent)\b', m.group(2)):
                found['1a'].append(f'{where} {m.group(1)}')
        for m in re.finditer(r'struct (\w+)[^{;]*\{(.*?)^\}', text, re.S | re.M):
            fields = re.findall(r'(\w+): ([^,\n]+)', m.group(2))
            if len(fields) > 1 and any(t in ('bool', 'Answer') or n in ('no', 'refusal', 'number') and t == 'u64' for n, t in fields):
                found['1b'].append(f'{where} {m.group(1)}')
            for n, t in fields:
                if n == 'kind' and t in ('u64', 'i64', 'usize', 'u8'):
                    found['1d'].append(f'{where} {m.group(1)}.{n}')
        for m in re.finditer(r'const (BAD_\w+|NOT_\w+|ALREADY_\w+|UNEQUAL_\w+|TALLY_FULL): u64', text):
            found['1d'].append(f'{where} {m.group(1)}')
        for m in re.finditer(r'(?m)^\s*(while|loop)\b', text):
            found['3'].append(f'{where}:{text.count(chr(10), 0, m.start()) + 1}')
        for m in re.finditer(r'kind (==|!=) \d|match kind\b', text):
            found['7'].append(f'{where}:{text.count(chr(10), 0, m.start()) + 1}')
        for name, parameters, clauses, body, lines in functions(text):
            at, ps = f'{where} {name}', split(parameters)
            if re.search(r'_no$|^refusal', name) and re.search(r'-> (u64|u8|usize)', clauses):
                found['1c'].append(at)
            if any(re.match(r'kind: (u64|i64|usize|u8)$', p) for p in ps):
                found['1d'].append(f'{at}(kind)')
            if re.match(r'(same|equal|is_equal|is_less|less|copy|copied|fill_copy|abs|magnitude|nonneg|nat|number_of|one_if|print|write_line|to_)\w*$', name):
                found['4'].append(at)
            if len(ps) >= 7:
                found['5a'].append(at)
            for fact in facts(clauses):
                required[fact].add(at)
            if any('[' in p and '&' in p for p in ps) and any(re.match(r'(at|place|start|end|count|len|from|next|c|k|at_most|\w+_len|room): (usize|Cursor)$', p) for p in ps):
                found['6'].append(at)
            if body.count('\n') >= 7:
                shapes[shape(parameters, body)].append(at)
            if lines > 60:
                found['8c'].append(at)
    for group in shapes.values():
        if len(group) > 1:
            found['2'] += group
    for fact, who in required.items():
        if len(who) >= 3:
            found['5b'] += [f'{fact}: {w}' for w in sorted(who)]
    for path in sorted(pathlib.Path(tree).glob('crates/*/proofs/**/Answers.antt')):
        n = len(re.findall(r'(?m)^pub \S+ : goal\.', path.read_text()))
        found['8a'] += [str(path)] * n
        found['8b'].append(str(path))
    return found

if __name__ == '__main__':
    words = sys.argv[1:]
    point = words.pop(words.index('--list') + 1) if '--list' in words else None
    words = [w for w in words if w != '--list']
    found = count(words[0] if words else pathlib.Path(__file__).resolve().parent.parent)
    if point:
        print('\n'.join(found[point]))
    else:
        for key in '1a 1b 1c 1d 2 3 4 5a 5b 6 7 8a 8b 8c'.split():
            print(f'{key:3} {len(found[key]):5}')
