#!/usr/bin/env python3
"""Writes the declarations of the exported entries for C, Rust and Python from the Rattle source, or (--check) tells which of them drifted.

    foreign/bindings.py [--check]

interface.txt holds the interface version and a digest of the exported signatures, names and types. Where the signatures are others and the
version is not higher, nothing is written: raise it first, in version.rt and Version.antt of the crate.
"""
import hashlib
import pathlib
import re
import sys

HERE = pathlib.Path(__file__).resolve().parent
CRATES, LIBRARY = HERE.parent / "crates", "pelmetsavory"
VERSION = f"INTERFACE_VERSION of crates/{LIBRARY}/src/version.rt"
NOTE = "made by foreign/bindings.py from the Rattle source and foreign/questions.txt: do not edit"
NUMBERS = {  # Rattle: C, Rust, ctypes
    "i8": ("int8_t", "i8", "c_int8"), "i64": ("int64_t", "i64", "c_int64"), "u32": ("uint32_t", "u32", "c_uint32"), "u8": ("uint8_t", "u8", "c_uint8"),
    "u64": ("uint64_t", "u64", "c_uint64"), "usize": ("size_t", "usize", "c_size_t"), "f64": ("double", "f64", "c_double"),
}
FIELDS = {  # what a field of an exported struct is
    "triplet": "triplet, from 0", "b1": "first band, from 0", "b2": "second band, from 0", "numbers": "the three",
    "bz_grid_type": "kind of the grid, 1 or 2", "d_diag": "mesh numbers", "tp_type": "type of the triplets, 2, 3 or 4",
    "num_triplets": "number of triplets", "num_band0": "number of frequency points", "num_band1": "first number of bands", "num_band2": "second number of bands",
}
ASKED = f"{LIBRARY}_interface_version"  # the one entry that may be called before the version is known
RUST_CALLS = f"""/// The interface version of the linked library.
pub fn linked_version() -> u64 {{
    extern "C" {{
        fn {ASKED}() -> u64;
    }}
    // SAFETY: takes nothing, in every version.
    unsafe {{ {ASKED}() }}
}}

/// What is wrong with a library of another interface version.
pub fn another_version(linked: u64) -> String {{
    format!("lib{LIBRARY}.a has interface version {{linked}}, and this program was made for {{INTERFACE_VERSION}}: take both from one source")
}}

/// Declares the entries; each asks for the version before it calls the library.
macro_rules! entries {{
    ($(pub fn $name:ident($($p:ident: $t:ty,)*) $(-> $r:ty)?;)*) => {{
        mod library {{
            use super::*;
            extern "C" {{
                $(pub fn $name($($p: $t),*) $(-> $r)?;)*
            }}
        }}
        $(
            pub unsafe fn $name($($p: $t),*) $(-> $r)? {{
                let linked = linked_version();
                assert!(linked == INTERFACE_VERSION, "{{}}", another_version(linked));
                library::$name($($p),*)
            }}
        )*
    }};
}}
"""


def source(folder, comments=False):
    text = "\n".join(p.read_text() for p in sorted(folder.glob("**/*.rt")))
    return text if comments else re.sub(r"//[^\n]*", "", text)


def words(marker):
    """{name: the comment above it} of every struct or function under a marker."""
    text = "\n".join(source(c / "src", True) for c in sorted(CRATES.iterdir()))
    found = re.findall(rf'((?://[^\n]*\n)+){re.escape(marker)}\s*(?:#\[derive\([^)]*\)\]\s*)?pub (?:extern "C" fn|struct) (\w+)', text)
    return {name: " ".join(line[2:].strip() for line in comment.splitlines()) for comment, name in found}


def version():
    found = re.findall(r"\bconst INTERFACE_VERSION: u64 = (\d+);", source(CRATES / LIBRARY / "src"))
    assert len(found) == 1, VERSION
    return int(found[0])


def interface(kept, fns):
    """What interface.txt says: the version, and the digest of every name and type that crosses."""
    digest = hashlib.sha256(repr((kept, fns)).encode()).hexdigest()
    return f"version {version()}\nsignatures {digest}\n"


def not_raised(text, stored):
    """What is wrong with the version, in words, or None."""
    (_, new), (_, digest), (_, old), (_, known) = (line.split() for line in (text + stored).splitlines())
    if int(new) < int(old):
        return f"{VERSION} is {new}, and was {old}: a version is never taken back"
    return f"the signatures are not those of interface version {old}: raise {VERSION}, then run foreign/bindings.py" if new == old and digest != known else None


def structs():
    """{name: [(field, number, count of an array field or None)]} of every #[repr(C)] struct."""
    text = "\n".join(source(c / "src") for c in sorted(CRATES.iterdir()))
    found = {}
    for name, body in re.findall(r"#\[repr\(C\)\]\s*(?:#\[derive\([^)]*\)\]\s*)?pub struct (\w+)\s*\{(.*?)\}", text, re.S):
        assert name not in found, f"two exported structs named {name}"
        fields = [re.fullmatch(r"pub (\w+): (?:(\w+)|\[(\w+); (\d+)\])", f.strip()) for f in body.split(",") if f.strip()]
        found[name] = [(m[1], m[2] or m[3], m[4]) for m in fields]
    return found


def entries():
    """[(name, [(parameter, type)], result)] of every exported function."""
    text, found = source(CRATES / LIBRARY / "src"), []
    for m in re.finditer(r'#\[unsafe\(no_mangle\)\]\s*pub extern "C" fn (\w+)\s*\((.*?)\)\s*(?:->\s*(\w+))?\s*(?=ensures|requires|\{)', text, re.S):
        params = [tuple(x.strip() for x in p.split(":", 1)) for p in m[2].split(",") if p.strip()]
        assert "requires" not in text[m.end():m.end() + 9], m[1]
        found.append((m[1], params, m[3]))
    assert len(found) == text.count("#[unsafe(no_mangle)]"), "an entry was not understood"
    assert (ASKED, [], "u64") in found, ASKED
    return found


def crossing(params):
    """Each parameter as it crosses: (name, how, number or struct, count of an array or None); how: value, const or mut."""
    for name, kind in params:
        m = re.fullmatch(r"&(mut )?(.*)", kind)
        if not m:
            yield name, "value", kind, None
            continue
        how, kind = "mut" if m[1] else "const", m[2]
        if a := re.fullmatch(r"\[(\w+)\]", kind):  # a slice: a pointer and a count of elements
            yield name, how, a[1], None
            yield name + "_len", "value", "usize", None
        elif a := re.fullmatch(r"\[\[(\w+); (\d+)\]; (\d+)\]", kind):
            yield name, how, a[1], int(a[2]) * int(a[3])
        elif a := re.fullmatch(r"\[(\w+); (\d+)\]", kind):
            yield name, how, a[1], int(a[2])
        else:
            assert kind in NUMBERS, kind
            yield name, how, kind, None


def used(all_structs, fns):
    kinds = {k for _, params, _ in fns for _, _, k, _ in crossing(params)}
    assert kinds <= set(NUMBERS) | set(all_structs), kinds
    return [(n, f) for n, f in all_structs.items() if n in kinds]


def header(kept, fns, questions):
    t = lambda k: NUMBERS[k][0] if k in NUMBERS else f"{LIBRARY}_{k.lower()}"
    star = {"value": "%s ", "const": "const %s *", "mut": "%s *"}
    out = [f"/* {NOTE} */", "#ifndef PELMETSAVORY_ENTRIES_H", "#define PELMETSAVORY_ENTRIES_H", "#include <stddef.h>", "#include <stdint.h>", ""]
    out += ["/* The interface version that this header was made for: that of the library must be the same (pelmetsavory_ready). */", f"#define PELMETSAVORY_INTERFACE_VERSION {version()}", ""]
    said = words("#[repr(C)]") | words("#[unsafe(no_mangle)]")
    for name, fields in kept:
        out += [f"/* {said[name]} */", "typedef struct {"] + [f"    {t(k)} {f}{f'[{n}]' if n else ''}; /* {FIELDS[f]} */" for f, k, n in fields] + [f"}} {t(name)};", ""]
    for name, params, result in fns:
        out += [f"/* {said[name]} */"]
        args = [f"    {(star[how] % t(k)).replace('*', '' if n else '*')}{p}{f'[{n}]' if n else ''}" for p, how, k, n in crossing(params)]
        out += [f"{t(result) if result else 'void'} {name}(", ",\n".join(args or ["    void"]) + ");", ""]
    out += ["/* The question that a status carries, in words; NULL for any other number. */", f"static inline const char *{LIBRARY}_question(uint64_t status)", "{", "    switch (status) {"]
    out += [f'    case {n}: return "{words}";' for n, words in questions] + ["    default: return NULL;", "    }", "}", ""]
    return "\n".join(out + ["#endif", ""])


def rust(kept, fns, questions):
    t = lambda k: NUMBERS[k][1] if k in NUMBERS else k
    star = {"value": "%s", "const": "*const %s", "mut": "*mut %s"}
    said = words("#[repr(C)]")
    out = [f"// {NOTE}", "", "/// The interface version that this crate was made for: that of the library must be the same.", f"pub const INTERFACE_VERSION: u64 = {version()};", ""]
    for name, fields in kept:
        out += [f"/// {said[name]}", "#[repr(C)]", "#[derive(Clone, Copy, Debug, PartialEq, Eq)]", f"pub struct {name} {{"]
        out += [f"    /// {FIELDS[f]}\n    pub {f}: {f'[{t(k)}; {n}]' if n else t(k)}," for f, k, n in fields] + ["}", ""]
    out += ["/// The questions in words, by their numbers.", "pub const QUESTIONS: &[(u64, &str)] = &["] + [f'    ({n}, "{words}"),' for n, words in questions] + ["];", ""]
    out += [RUST_CALLS, "entries! {"]
    for name, params, result in (fn for fn in fns if fn[0] != ASKED):
        out += [f"    pub fn {name}("] + [f"        {p}: {star[how] % (f'[{t(k)}; {n}]' if n else t(k))}," for p, how, k, n in crossing(params)]
        out += [f"    ){f' -> {t(result)}' if result else ''};"]
    return "\n".join(out + ["}", ""])


def python(kept, fns, questions):
    t = lambda k: "ctypes." + NUMBERS[k][2] if k in NUMBERS else k
    out = [f'"""{NOTE}"""', "import ctypes", "", "# the interface version that this module was made for", f"INTERFACE_VERSION = {version()}", ""]
    for name, fields in kept:
        out += ["", f"class {name}(ctypes.Structure):", "    _fields_ = ["] + [f'        ("{f}", {t(k)}{f" * {n}" if n else ""}),' for f, k, n in fields] + ["    ]", ""]
    out += ["", "QUESTIONS = {"] + [f'    {n}: "{words}",' for n, words in questions] + ["}", ""]
    out += ["# of each entry: its result, and its arguments as (name, how it crosses, type, count of an array)", "ENTRIES = {"]
    for name, params, result in fns:
        args = "".join(f'\n        ("{p}", "{how}", {t(k)}, {n}),' for p, how, k, n in crossing(params))
        out += [f'    "{name}": ({t(result) if result else None}, [{args}\n    ]),']
    return "\n".join(out + ["}", ""])


def main(argv):
    fns = entries()
    kept = used(structs(), fns)
    questions = [line.split("\t") for line in (HERE / "questions.txt").read_text().splitlines()]
    drifted, now, stored = 0, interface(kept, fns), HERE / "interface.txt"
    if stored.exists() and (wrong := not_raised(now, stored.read_text())):
        print(wrong)
        return 1
    made = (("include/pelmetsavory_entries.h", header), ("rust/src/c.rs", rust), ("python/pelmetsavory/entries.py", python), ("interface.txt", lambda *_: now))
    for name, make in made:
        text, path = make(kept, fns, questions), HERE / name
        if argv != ["--check"]:
            path.write_text(text)
        elif not path.exists() or path.read_text() != text:
            print(f"foreign/{name} is not what the source says: run foreign/bindings.py")
            drifted = 1
    return drifted


if __name__ == "__main__":
    sys.exit(main(sys.argv[1:]))
