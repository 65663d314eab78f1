"""The examples of the documentation, the stubs' names, and `mypy --strict`, where it is installed (MYPY="python3 -m mypy" names it)."""

import ast
import doctest
import os
import pathlib
import shutil
import subprocess
import sys
import unittest
from collections.abc import Mapping, MutableMapping

import hashbag

HERE = pathlib.Path(__file__).resolve().parent
PACKAGE = pathlib.Path(hashbag.__file__).parent
MYPY = os.environ.get("MYPY", shutil.which("mypy") or "").split()


class Docs(unittest.TestCase):
    def test_examples(self):
        done = doctest.testmod(hashbag)
        self.assertGreater(done.attempted, 20)
        self.assertEqual(done.failed, 0)

    def test_each_public_name_has_a_page(self):
        for name in dir(hashbag.HashBag):
            if not name.startswith("_"):
                self.assertTrue(getattr(hashbag.HashBag, name).__doc__, name)

    def test_stubs_have_the_names(self):
        """The stub has just the names of the class and of its base, private ones and those of every class apart."""
        tree = ast.parse((PACKAGE / "__init__.pyi").read_text())
        stub = next(node for node in tree.body if isinstance(node, ast.ClassDef) and node.name == "HashBag")
        named = {node.name for node in stub.body if isinstance(node, ast.FunctionDef)}
        named |= {node.target.id for node in stub.body if isinstance(node, ast.AnnAssign)}
        have = {name for cls in hashbag.HashBag.__mro__[:-1] for name in vars(cls) if not name.startswith("_") or name.startswith("__")}
        of_each = {"__new__", "__module__", "__doc__", "__slots__", "__weakref__", "__hash__", "__reduce__", "__repr__", "__class_getitem__"}
        self.assertEqual(have - named, (of_each | {"__static_attributes__", "__firstlineno__"}) & have)
        self.assertEqual(named - have, set())

    def test_mapping(self):
        self.assertTrue(issubclass(hashbag.HashBag, MutableMapping))
        self.assertIsInstance(hashbag.HashBag("a"), Mapping)

    def test_mypy(self):
        if not MYPY:
            print("\nnot tried: mypy --strict, since there is no mypy")
            return
        files = [str(PACKAGE / "__init__.pyi"), str(HERE / "typed.py")]
        done = subprocess.run([*MYPY, "--strict", "--cache-dir", "/dev/null", *files], cwd=PACKAGE.parent, capture_output=True, text=True)
        self.assertEqual(done.returncode, 0, done.stdout + done.stderr)


if __name__ == "__main__":
    unittest.main(argv=sys.argv)
