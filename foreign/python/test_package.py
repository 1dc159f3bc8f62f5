"""What a newcomer meets: imports that cannot work, words, hints, examples, and what a call costs."""
import doctest
import inspect
import os
import shutil
import subprocess
import sys
import tempfile
import time
import timeit

import numpy as np

import pelmetsavory as pm
from small import run

PACKAGE = os.path.dirname(pm.__file__)
ENTRIES = pm._library.ENTRIES


def said_at_import(folder, so=None):
    """What an import says, of the package in a folder, with PELMETSAVORY_SO or without; None where it works."""
    clean = {k: v for k, v in os.environ.items() if k not in ("PELMETSAVORY_SO", "PYTHONPATH")}
    program = "try: import pelmetsavory\nexcept ImportError as e: print(f'{e.name}: {e}')"
    done = subprocess.run([sys.executable, "-c", program], cwd=folder, env={**clean, **({"PELMETSAVORY_SO": so} if so else {})}, capture_output=True, text=True)
    assert done.returncode == 0, done.stderr
    return done.stdout


def test_imports_that_cannot_work_say_what_to_do():
    with tempfile.TemporaryDirectory() as folder:
        shutil.copytree(PACKAGE, os.path.join(folder, "pelmetsavory"), ignore=shutil.ignore_patterns("*.so", "__pycache__"))
        so = lambda name: os.path.join(folder, name)
        says = lambda words, path=None: all(w in said_at_import(folder, path) for w in ["pelmetsavory: ", "foreign/library", *words]) or sys.exit(said_at_import(folder, path))
        says(["no shared library", so("pelmetsavory/libpelmetsavory.so")])
        says(["PELMETSAVORY_SO names a file that is not there", so("none.so")], so("none.so"))
        with open(so("text.so"), "w") as f:
            f.write("text")
        says(["not a library of Pelmetsavory", so("text.so")], so("text.so"))
        version, missing = pm.INTERFACE_VERSION, "pelmetsavory_answer"
        for name, source, words in (
            ("none_of_it.so", "int nothing;", ["not a library of Pelmetsavory", "pelmetsavory_interface_version"]),
            ("newer.so", f"unsigned long pelmetsavory_interface_version(void) {{ return {version + 1}; }}", [f"version {version + 1}", f"version {version}:"]),
            ("far.so", f"unsigned long pelmetsavory_interface_version(void) {{ return {version + 2**32}u; }}", [f"version {version + 2**32}"]),
            ("less.so", f"unsigned long pelmetsavory_interface_version(void) {{ return {version}; }}", ["not a library of Pelmetsavory", missing]),
        ):
            subprocess.run(["gcc", "-shared", "-fPIC", "-x", "c", "-o", so(name), "-"], input=source, text=True, check=True)
            says(words, so(name))
        good = pm._library.LIBRARY._name
        assert said_at_import(folder, good) == ""
        shutil.copy(good, so("pelmetsavory/libpelmetsavory.so"))
        assert said_at_import(folder) == ""
        says(["PELMETSAVORY_SO names"], so("none.so"))  # no other library in place of the named one
        shutil.copy(good, so("here.so"))
        assert said_at_import(folder, "here.so") == ""


def public():
    """Every public function, class and member."""
    for name in pm.__all__:
        thing = getattr(pm, name)
        if callable(thing):
            yield name, thing
        if inspect.isclass(thing):
            for member, value in vars(thing).items():
                if not member.startswith("_") and member not in ("count", "index"):
                    yield f"{name}.{member}", value


def test_every_public_name_has_words_and_hints():
    found = dict(public())
    assert len(found) > 50 and {"Sheet.take", "Sheet.weights", "Study.frequencies1", "Refused", "answer"} <= set(found)
    assert {n for n in vars(pm) if not n.startswith("_")} - set(pm.__all__) <= {"entries"}
    exported = {name.split("pelmetsavory_")[1] for name in ENTRIES} - {"interface_version", "tally_add"}
    assert all(hasattr(pm, name) or hasattr(pm.Sheet, name) for name in exported)
    for name, thing in found.items():
        assert thing.__doc__ and len(thing.__doc__) > 10, name
        called = thing.fget if isinstance(thing, property) else thing.__func__ if isinstance(thing, classmethod) else thing
        if inspect.isfunction(called):
            hints = called.__annotations__
            assert "return" in hints and set(inspect.signature(called).parameters) - {"self", "cls"} <= set(hints), name


def test_examples():
    for module, examples in (pm, 9), (pm._functions, 14), (pm._loads, 5), (pm._listing, 4), (pm._tables, 1):
        result = doctest.testmod(module)
        assert result.failed == 0 and result.attempted >= examples, (module, result)


def test_a_refusal_says_its_question():
    assert sorted(pm.QUESTIONS) == list(range(1, 26))
    for number, words in pm.QUESTIONS.items():
        assert str(pm.Refused(number)) == f"question {number} is answered no: {words}" and pm.Refused(number).number == number


def test_a_weight_takes_less_than_100_empty_calls():
    """3 microseconds where an empty call takes 0.03: by the interpreter's own pace, since machines differ."""
    vertices, calls = np.random.default_rng(1).random((24, 4)), 1000
    weight, empty = (
        min(timeit.repeat(call, number=calls, repeat=40, timer=time.process_time)) / calls for call in (lambda: pm.tetrahedra_integration_weight(0.5, vertices), lambda: None)
    )
    print(f"python: a weight in {weight * 1e6:.1f} microseconds, an empty call in {empty * 1e6:.2f}")
    assert weight < 100 * empty


if __name__ == "__main__":
    run(globals())
    print("python: package ok")
