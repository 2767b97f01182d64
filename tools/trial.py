"""What the tools in Python and their tests share. An importer sets sys.dont_write_bytecode first."""
import contextlib
import importlib.machinery
import importlib.util
import io
import sys
import tempfile
import unittest
from pathlib import Path


def load(name):
    """A tool as a module: its file has no ending."""
    loader = importlib.machinery.SourceFileLoader(name, str(Path(__file__).resolve().with_name(name)))
    module = importlib.util.module_from_spec(importlib.util.spec_from_loader(name, loader))
    loader.exec_module(module)
    return module


class Case(unittest.TestCase):
    """A project in a folder of its own, on which `tool` is run."""

    tool = None

    def setUp(self):
        place = tempfile.TemporaryDirectory()
        self.addCleanup(place.cleanup)
        self.root = Path(place.name) / "src"  # a project may lie below a folder of any name

    def write(self, name, text):
        file = self.root / name
        file.parent.mkdir(parents=True, exist_ok=True)
        file.write_text(text)
        return file

    def run_tool(self, *options):
        """The exit status, and what is printed."""
        out = io.StringIO()
        with contextlib.redirect_stdout(out):
            status = self.tool.main(["--root", str(self.root), *options])
        return status, out.getvalue()

    def sound(self):
        status, out = self.run_tool()
        self.assertEqual(0, status, out)
        self.assertRegex(out, r"\A[1-9][0-9]* passed, 0 failed\n\Z")

    def faulty(self, *faults):
        """Fails with these faults, and no other."""
        status, out = self.run_tool()
        self.assertEqual(1, status, out)
        for fault in faults:
            self.assertIn(fault, out)
        self.assertRegex(out, rf"\n[0-9]+ passed, {len(faults)} failed\n\Z")


def close():
    """Runs the importer's tests and closes with the one line `N passed, M failed`."""
    run = unittest.main(exit=False, verbosity=2, warnings="ignore").result
    failed = len({test.id().split(" ")[0] for test, _ in run.failures + run.errors})
    print(f"{run.testsRun - failed} passed, {failed} failed")
    sys.exit(1 if failed or not run.testsRun else 0)
