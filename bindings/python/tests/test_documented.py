"""What `pydoc` tells: each public name says what it is, and each call what it raises."""

import builtins
import inspect
import unittest

import stm

# These raise nothing of their own.
RAISE_NOTHING = {f"Service.{name}" for name in ("chapter", "counts", "declared", "entered", "tables")}
RAISE_NOTHING |= {"Answers.faults", "version"}


def members():
    """Each public name, and each public one of a class that is written in it, with what it is."""
    for name in stm.__all__:
        one = getattr(stm, name)
        yield name, one
        if inspect.isclass(one):
            written = {its: member for its, member in vars(one).items() if not its.startswith("_")}
            for its, member in written.items():
                if inspect.isfunction(member) or isinstance(member, property):
                    yield f"{name}.{its}", member


def is_call(one):
    return inspect.isfunction(one) or isinstance(one, property)


class Documented(unittest.TestCase):
    def test_each_name_says_what_it_is(self):
        names = {name for name, _ in members()}
        self.assertTrue({"run", "Service", "Service.atomically", "Service.counts", "Table.version"} <= names)
        self.assertTrue(inspect.getdoc(stm))
        for name, one in members():
            with self.subTest(name):
                self.assertTrue((one.__doc__ or "").strip().endswith("."))
                # What a class takes from another is not its own.
                bases = getattr(one, "__bases__", ())
                self.assertNotIn(one.__doc__, [base.__doc__ for base in bases])

    def test_each_call_says_what_it_raises(self):
        calls = {name: one for name, one in members() if is_call(one)}
        self.assertTrue(RAISE_NOTHING <= set(calls))
        for name, one in calls.items():
            with self.subTest(name):
                self.assertEqual("Raises" in one.__doc__, name not in RAISE_NOTHING)

    def test_what_is_raised_is_there(self):
        for name, one in members():
            for told in inspect.getdoc(one).split("`")[1::2]:
                if told.isalpha() and told[0].isupper():
                    with self.subTest(f"{name}: {told}"):
                        self.assertTrue(told in stm.__all__ or hasattr(builtins, told))


if __name__ == "__main__":
    unittest.main()
