"""CPython's own TestCounter with `Counter` meaning `HashBag`, over counts that a bag can have. Each statement is run by itself, so one that fails
hides no other. It is read from the library of the Python that runs this; where that has no tests, nothing is tried.

The statements that fail are those of `DIFFERENT`, which docs/use/PYTHON.md names. The last line is 'test_counter: K of N statements hold'."""

import ast
import sys
import unittest
from collections import Counter

import hashbag

# The statements that don't hold, by their test, as docs/use/PYTHON.md says why.
DIFFERENT = """
test_basics: self.assertIsInstance(c, dict)
test_basics: self.assertTrue(issubclass(Counter, dict))
test_basics: self.assertEqual(repr(c), "Counter({'a': 3, 'b': 2, 'c': 1})")
test_basics: c['d'] -= 2
test_basics: c['e'] = -5
test_basics: self.assertEqual(c, dict(a=4, b=0, d=-2, e=-5, f=4))
test_basics: elem, cnt = c.popitem()
test_basics: self.assertEqual(repr(c), 'Counter()')
test_init: self.assertEqual(list(Counter(iterable=None).items()), [('iterable', None)])
test_order_preservation: self.assertTrue(correctly_ordered(-p))
test_update: c.update(iterable=None)
test_update: self.assertEqual(list(c.items()), [('iterable', None)])
test_subtract: c = Counter(a=-5, b=0, c=5, d=10, e=15,g=40)
test_subtract: c = Counter(a=-5, b=0, c=5, d=10, e=15,g=40)
test_subtract: self.assertEqual(c, Counter(a=-1, b=0, c=-1, d=1, e=-1))
test_subtract: self.assertEqual(list(c.items()), [('self', -42)])
test_subtract: self.assertEqual(list(c.items()), [('iterable', -42)])
test_unary: c = Counter(a=-5, b=0, c=5, d=10, e=15,g=40)
test_repr_nonsortable: c = Counter(a=2, b=None)
test_helper_function: self.assertTrue(c.called)
test_helper_function: self.assertTrue(c.called)
"""
# Counts that a bag can have in place of others.
INSTEAD = {"randrange(-2,4)": "randrange(0,4)", "randrange(-2, 4)": "randrange(0, 4)", "f=-1": "f=0", "i=-1": "i=0", "b=-2": "b=0"}


class Each(ast.NodeTransformer):
    """Wraps each statement of a test into a `try` of its own."""

    def wrapped(self, body, test):
        out = []
        for statement in body:
            if isinstance(statement, (ast.FunctionDef, ast.ClassDef, ast.Import, ast.ImportFrom)):
                out.append(statement)
                continue
            if isinstance(statement, ast.For) or isinstance(statement, ast.With) and "subTest" in ast.unparse(statement.items[0]):
                statement.body = self.wrapped(statement.body, test)
            text = f"_step()\ntry:\n    pass\nexcept Exception as _e:\n    _note({test!r}, {statement.lineno}, _e)"
            step, tried = ast.parse(text).body
            tried.body = [statement]
            out += [step, tried]
        return out

    def visit_FunctionDef(self, node):
        if node.name.startswith("test_"):
            node.body = self.wrapped(node.body, node.name)
        return node


def adapted(source, space, notes):
    """The class TestCounter of this source, whose statements note what fails."""
    space.update(Counter=hashbag.HashBag, HashBag=hashbag.HashBag, __name__="adapted")
    space["_note"] = lambda test, line, error: notes["failed"].append((test, line, error))
    space["_step"] = lambda: notes["ran"].append(None)
    kept = []
    for node in ast.parse(source).body:
        if isinstance(node, ast.ClassDef) and (node.name == "TestCounter" or node.name.startswith("CounterSubclass")):
            kept.append(Each().visit(node) if node.name == "TestCounter" else node)
    sys.modules["adapted"] = module = type(sys)("adapted")
    exec(compile(ast.fix_missing_locations(ast.Module(kept, [])), "TestCounter", "exec"), space)
    for node in kept:
        setattr(module, node.name, space[node.name])
    return space["TestCounter"]


def main():
    try:
        import test.test_collections as theirs
    except ImportError:
        print("not tried: CPython's TestCounter, since this Python has no tests of its own")
        return 0
    with open(theirs.__file__) as file:
        source = file.read()
    for old, new in INSTEAD.items():
        source = source.replace(old, new)
    notes = {"failed": [], "ran": []}
    with open("/dev/null", "w") as quiet:
        tests = unittest.defaultTestLoader.loadTestsFromTestCase(adapted(source, dict(vars(theirs)), notes))
        result = unittest.TextTestRunner(stream=quiet).run(tests)
    # An UnboundLocalError only follows another failure.
    failed = [it for it in notes["failed"] if not isinstance(it[2], UnboundLocalError)]
    lines = source.splitlines()
    places = {(test, line): f"{test}: {lines[line - 1].split('#')[0].strip()}" for test, line, _ in failed}
    wanted, ran = DIFFERENT.split("\n")[1:-1], len(notes["ran"])
    unlike = sorted((Counter(places.values()) - Counter(wanted)).elements())
    unlike += [f"holds: {it}" for it in (Counter(wanted) - Counter(places.values())).elements()]
    unlike += [f"outside of its statements: {test}" for test, _ in result.errors + result.failures]
    for it in unlike:
        print(it)
    print(f"test_counter: {ran - len(failed)} of {ran} statements hold; those at {len(places)} places don't")
    return 1 if unlike or ran < 100_000 else 0


if __name__ == "__main__":
    sys.exit(main())
