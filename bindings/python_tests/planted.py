"""planted.py MODULE [NAME]: plants mistakes into copies of the module's sources, builds each, and runs a test that has to fail. MODULE is a folder
with the right module, over which these tests have to pass. The last line is 'planted: K found, F not found'."""

import os
import pathlib
import shutil
import subprocess
import sys
import tempfile

HERE = pathlib.Path(__file__).resolve().parent
PYTHON, RUST = HERE.parent / "python", HERE.parent / "rust"

# Name, file, text, text in its place, the test that has to fail.
PLANTED = [
    ("equal_by_hash", "key.rs", "alike(kind, a, b).unwrap_or_else", "alike(kind, a, b).map(|_| true).unwrap_or_else",
     "hard Hard.test_against_counter"),
    ("python_isnt_asked", "key.rs", "            _ => note(self.place, other.place),", "            _ => false,", "hard Hard.test_against_counter"),
    ("keys_change_unseen", "content.rs", "            self.version += 1;\n            self.is_simple", "            self.is_simple",
     "defects Defects.test_10_views"),
    ("all_keys_are_simple", "content.rs", "self.is_simple &= x.is_simple;", "", "hard Hard.test_garbage"),
    ("packed_in_the_row_alone", "content.rs", "let before = self.bag.try_replace(key).unwrap_or(1);", "let before = 1;",
     "defects Order.test_order_after_removals"),
    ("reference_is_kept", "lookup.rs", "drop(taken);", "std::mem::forget(taken);", "hard Hard.test_references"),
    ("reference_isnt_taken", "row.rs", "Some(at.own().leak())", "Some(at)", "hard Hard.test_references"),
    ("change_in_eq_unseen", "lookup.rs", "let is_same = b.look().version == version;", "let is_same = true;",
     "hard Hard.test_eq_that_changes_the_bag"),
    ("asked_again", "lookup.rs", "            asked.push(at);", "            drop(at);", "defects Defects.test_02_a_lookup_ends"),
    ("old_counts", "walk.rs", "if self.stamp.get() == content.stamp {", "if true {", "defects Order.test_walks_while_counts_change"),
    ("walk_goes_on", "walk.rs", "if content.version != self.version || self", "if self", "defects Defects.test_10_views"),
    ("pair_is_used_again", "walk.rs", ".filter(|both| both.is_alone())", "", "defects Defects.test_10_views"),
    ("nothing_is_undone", "two.rs", "            undo(into, &pairs[..i]);\n", "",
     "defects Order.test_bulk_of_another_bag_is_all_or_nothing_at_the_limit"),
    ("error_is_swallowed", "bulk.rs", "return Err(Raised);", "", "hard Hard.test_error_of_an_iterator"),
    ("any_interpreter", "module.rs", "PyInterpreterState_GetID(PyInterpreterState_Get())", "0", "attacks Outside.test_other_interpreters"),
    ("any_object_is_a_bag", "bag.rs", "return type_error(c\"expected a bag\");", "", "attacks Lies.test_pairs"),
]


def fails(folder, test):
    """Whether a test fails over the module of a folder."""
    script, name = test.split()
    settings = {**os.environ, "PYTHONPATH": f"{folder}:{HERE}"}
    command = [sys.executable, "-W", "ignore", str(HERE / f"test_{script}.py"), name]
    try:
        return subprocess.run(command, env=settings, cwd=folder, capture_output=True, timeout=60).returncode != 0
    except subprocess.TimeoutExpired:
        return True


def built(scratch, file, old, new):
    """Builds the module with another text in one file, beside its Python."""
    sources = scratch / "bindings" / "python"
    shutil.rmtree(sources, ignore_errors=True)
    shutil.copytree(PYTHON, sources, ignore=shutil.ignore_patterns("target", "__pycache__", "*.so"))
    path = sources / "src" / file
    text = path.read_text()
    if text.count(old) != 1:
        raise SystemExit(f"planted: {file} has {text.count(old)} times: {old}")
    path.write_text(text.replace(old, new))
    command = ["cargo", "build", "--quiet", "--offline", "--target-dir", str(scratch / "target")]
    subprocess.run(command, cwd=sources, check=True, stderr=subprocess.DEVNULL)
    library = scratch / "target" / "debug" / "lib_hashbag.so"
    shutil.copy(library, sources / "hashbag" / "_hashbag.abi3.so")
    return sources


def main(module, only=None):
    found, missed = 0, []
    with tempfile.TemporaryDirectory() as folder:
        scratch = pathlib.Path(folder)
        shutil.copytree(RUST, scratch / "bindings" / "rust", ignore=shutil.ignore_patterns("target"))
        for test in sorted({test for *_, test in PLANTED}):
            if fails(pathlib.Path(module), test):
                missed.append(f"{test} fails without a mistake")
        for name, file, old, new, test in PLANTED:
            if only not in (None, name):
                continue
            if fails(built(scratch, file, old, new), test):
                found += 1
            else:
                missed.append(f"{name} isn't found by {test}")
    print(*missed, sep="\n", end="\n" * bool(missed))
    print(f"planted: {found} found, {len(missed)} not found")
    return 1 if missed or not found else 0


if __name__ == "__main__":
    sys.exit(main(*sys.argv[1:]))
