"""Whole files, and where the library is found."""

import os
import pickle
import shutil
import subprocess
import sys
import tempfile
import unittest

import stm

FILE = "(var x 5)\n(tx inc (set x (add x 1)) x)\n(run inc 2)\n"
PACKAGE = os.path.dirname(os.path.abspath(stm.__file__))


class Files(unittest.TestCase):
    def test_run_and_check(self):
        report = stm.run(FILE)
        self.assertTrue(report.endswith("now 2\nx 7 2\nend\n"))
        self.assertIs(stm.check(FILE, report), stm.Verdict.GOOD)
        self.assertTrue(stm.check(FILE, report))
        self.assertIs(stm.check(FILE, "base"), stm.Verdict.BAD_TEXT)
        self.assertFalse(stm.check(FILE, report.replace("x 7", "x 8")))
        self.assertNotIn("entry ", stm.run(FILE, checkpoint=1))
        # A report that is longer than the room with which it is begun.
        self.assertGreater(len(stm.run(FILE + "(run inc 5000)")), 1 << 16)

    def test_explore(self):
        self.assertEqual(stm.explore(FILE), "states 3\ntx inc returned\nends 1\n1 x 7\nend\n")
        with self.assertRaises(stm.MoreStates) as raised:
            stm.explore(FILE, states=2)
        self.assertIn("more than 2", raised.exception.found)
        self.assertEqual(stm.explore_to(FILE, 1), stm.run(FILE))
        self.assertRaises(stm.NoEnd, stm.explore_to, FILE, 2)

    def test_world(self):
        self.assertIn("committed 1", stm.world(FILE, "begin 0\nread 0 x\ncommit 0\n"))
        with self.assertRaises(stm.Refused) as raised:
            stm.world(FILE, "begin 9\n")
        self.assertTrue(raised.exception.word.startswith("schedule: "))

    def test_files_that_are_refused(self):
        for call in (lambda: stm.run("("), lambda: stm.check("(", ""), lambda: stm.explore("(")):
            with self.assertRaises(stm.Refused) as raised:
                call()
            self.assertEqual((raised.exception.word, raised.exception.code), ("file: shape", -3))
        self.assertRaises(ValueError, stm.run, FILE, -1)

    def test_where_and_why_files_are_refused(self):
        wrong = "(var x 1)\n(tx t (set x (plus x 1)) x)"
        head = "line 2, column 15: F3 Shape: "
        for call in (
            lambda: stm.Service(wrong),
            lambda: stm.run(wrong),
            lambda: stm.check(wrong, ""),
            lambda: stm.world(wrong, "begin 0\n"),
            lambda: stm.explore(wrong),
            lambda: stm.explore_to(wrong, 1),
        ):
            with self.assertRaises(stm.Refused) as raised:
                call()
            told, alone = raised.exception, stm.explain(wrong)
            self.assertEqual((told.code, told.word, told.line, told.column), (-3, "file: shape", 2, 15))
            self.assertTrue(str(told).startswith(head) and str(told).endswith("here stands plus"), str(told))
            self.assertEqual((alone.code, alone.word, alone.line, alone.column), (-3, "file: shape", 2, 15))
            self.assertEqual(str(alone), str(told))
            copy = pickle.loads(pickle.dumps(told))
            self.assertEqual((copy.code, copy.word, copy.line, str(copy)), (-3, "file: shape", 2, str(told)))

    def test_each_kind_is_explained(self):
        for text, word, line, column in [
            (" " * 1_048_577, "file: too long", 1, 1_048_577),
            ("; one\n; \u00e9", "file: bad byte", 2, 3),
            ("(var x", "file: shape", 1, 7),
            ("\n(tx t (skip)\n  x)", "file: name", 3, 3),
            ("(tx t (repeat 1001 (skip)) 0)", "file: limit", 1, 15),
            ("(stm 2)(var x 1)(always low (lt x 1))", "file: broken condition", 1, 25),
        ]:
            told = stm.explain(text)
            self.assertEqual((told.word, told.line, told.column), (word, line, column))
            self.assertTrue(str(told).startswith(f"line {line}, column {column}: F"))
        self.assertEqual((stm.explain(FILE), stm.explain("")), (None, None))

    def test_what_is_no_file_is_not_explained(self):
        for call in (lambda: stm.world(FILE, "begin 9\n"), lambda: stm.explore(FILE, 0)):
            with self.assertRaises(stm.Refused) as raised:
                call()
            told = raised.exception
            self.assertEqual((told.line, told.column, str(told)), (None, None, told.word))


class Finding(unittest.TestCase):
    """Which library is loaded, by a process of its own."""

    def found(self, package=PACKAGE, **more):
        own = ("STM_LIB_DIR", "PKG_CONFIG_PATH")
        there = {name: value for name, value in os.environ.items() if name not in own}
        there.update(more, PYTHONPATH=os.path.dirname(package), PYTHONDONTWRITEBYTECODE="1")
        told = subprocess.run(
            [sys.executable, "-c", "import stm._library as found; print(found.library._name)"],
            capture_output=True, text=True, env=there, cwd="/", check=False,
        )
        return told.stdout.strip() or told.stderr

    def setUp(self):
        place = tempfile.TemporaryDirectory()
        self.addCleanup(place.cleanup)
        # A blank in it, as folders have them.
        self.prefix = os.path.join(place.name, "a prefix")
        self.lib = os.path.join(self.prefix, "lib")
        os.makedirs(os.path.join(self.lib, "pkgconfig"))

    def put(self):
        where = stm._library.library._name
        shutil.copy(where, os.path.join(self.lib, "libstm.so"))
        with open(os.path.join(self.lib, "pkgconfig", "stm.pc"), "w") as file:
            file.write("prefix=${pcfiledir}/../..\nlibdir=${prefix}/lib\nName: stm\nDescription: -\nVersion: 0\n")

    def test_the_folder_is_named(self):
        self.put()
        self.assertEqual(self.found(STM_LIB_DIR=self.lib), os.path.join(self.lib, "libstm.so"))
        self.assertIn("set STM_LIB_DIR", self.found(STM_LIB_DIR=self.prefix))

    @unittest.skipUnless(shutil.which("pkg-config"), "pkg-config is not there")
    def test_pkg_config_is_asked(self):
        self.put()
        told = self.found(PKG_CONFIG_PATH=os.path.join(self.lib, "pkgconfig"))
        self.assertEqual(os.path.realpath(told), os.path.realpath(os.path.join(self.lib, "libstm.so")))

    def test_it_lies_beside_the_package(self):
        self.put()
        package = os.path.join(self.prefix, "share", "stm", "python", "stm")
        shutil.copytree(PACKAGE, package)
        told = self.found(package=package)
        self.assertEqual(os.path.realpath(told), os.path.realpath(os.path.join(self.lib, "libstm.so")))


if __name__ == "__main__":
    unittest.main()
