"""Tests of which library is loaded, and of how the package is built."""
import glob
import os
import shutil
import subprocess
import sys
import tempfile
import unittest
from typing import Dict, List, Optional

import linkcap
from support import TOP

SOURCE = os.path.join(TOP, "bindings", "python")
LIBRARY = os.path.realpath(linkcap.LIBRARY_PATH)
BUILD = "import sys; sys.path.insert(0, sys.argv[1]); import backend; print(getattr(backend, sys.argv[2])(sys.argv[3]))"


def run(command: List[str], **changes: Optional[str]) -> "subprocess.CompletedProcess[str]":
    """Runs a command with changed environment variables. It removes those that are None."""
    environment: Dict[str, str] = {**os.environ, "PYTHONDONTWRITEBYTECODE": "1"}
    for name, value in changes.items():
        environment.pop(name, None)
        if value is not None:
            environment[name] = value
    return subprocess.run(command, env=environment, cwd=os.sep, stdout=subprocess.PIPE,
                          stderr=subprocess.PIPE, universal_newlines=True, check=False)


def loaded_library(python_path: str, folder: Optional[str]) -> str:
    """The path of the library that an import loads, or the last line of its error."""
    command = [sys.executable, "-c", "import linkcap; print(linkcap.LIBRARY_PATH)"]
    process = run(command, PYTHONPATH=python_path, LINKCAP_LIB_DIR=folder)
    return process.stdout.strip() or process.stderr.splitlines()[-1]


class Install(unittest.TestCase):
    def setUp(self) -> None:
        folder = tempfile.TemporaryDirectory()
        self.addCleanup(folder.cleanup)
        self.folder = folder.name
        self.library = os.path.join(self.folder, "library")
        os.mkdir(self.library)
        shutil.copy(LIBRARY, os.path.join(self.library, "liblinkcap.so"))
        self.source = os.path.join(self.folder, "source")
        shutil.copytree(SOURCE, self.source, ignore=shutil.ignore_patterns("tests", "__pycache__", "liblinkcap.so"))

    def build(self, hook: str, folder: str, library: Optional[str] = None) -> str:
        target = os.path.join(self.folder, folder)
        os.makedirs(target, exist_ok=True)
        process = run([sys.executable, "-c", BUILD, self.source, hook, target], LINKCAP_LIB_DIR=library, SOURCE_DATE_EPOCH=None)
        self.assertEqual(process.returncode, 0, process.stderr)
        return os.path.join(target, process.stdout.strip())

    def test_no_library(self) -> None:
        """The error of an import without the library says what to do."""
        error = loaded_library(self.source, self.folder)
        self.assertRegex(error, "ImportError: .*liblinkcap.so.*: name the library's folder in LINKCAP_LIB_DIR")

    def test_bundled_library(self) -> None:
        shutil.copy(LIBRARY, os.path.join(self.source, "linkcap", "liblinkcap.so"))
        for folder in (None, self.folder, self.library):
            self.assertEqual(loaded_library(self.source, folder), os.path.join(self.source, "linkcap", "liblinkcap.so"))

    def test_named_library(self) -> None:
        self.assertEqual(loaded_library(self.source, self.library), os.path.join(self.library, "liblinkcap.so"))

    def test_wheels_are_reproducible(self) -> None:
        for hook, library in (("build_wheel", self.library), ("build_wheel", None), ("build_sdist", None), ("build_editable", self.library)):
            first = self.build(hook, "first", library)
            for name in glob.glob(os.path.join(self.source, "**", "*.py"), recursive=True):
                os.utime(name, (1000000000, 1000000000))
            second = self.build(hook, "second", library)
            self.assertEqual(os.path.basename(first), os.path.basename(second))
            with open(first, "rb") as one, open(second, "rb") as other:
                self.assertEqual(one.read(), other.read())

    def test_pip(self) -> None:
        if run([sys.executable, "-m", "venv", os.path.join(self.folder, "venv")]).returncode:
            self.skipTest("no module venv")
        python = os.path.join(self.folder, "venv", "bin", "python")
        show = [python, "-c", "import linkcap; print(linkcap.__file__, linkcap.LIBRARY_PATH)"]
        pip = [python, "-m", "pip", "-q", "--disable-pip-version-check", "install", "--no-index", "--force-reinstall"]
        for is_editable in (False, True):
            flags = ["-e"] if is_editable else []
            process = run([*pip, *flags, self.source], LINKCAP_LIB_DIR=self.library, PYTHONPATH=None)
            if is_editable and "build_editable" in process.stderr + process.stdout:
                self.skipTest("this pip is older than editable builds")
            self.assertEqual(process.returncode, 0, process.stderr)
            # after the installation the variable names a folder without the library
            process = run(show, LINKCAP_LIB_DIR=self.source, PYTHONPATH=None)
            self.assertEqual(process.returncode, 0, process.stderr)
            file, library = process.stdout.split()
            if is_editable:
                self.assertEqual(os.path.dirname(file), os.path.join(self.source, "linkcap"))
                self.assertEqual(library, os.path.join(self.library, "liblinkcap.so"))
            else:
                self.assertEqual(library, os.path.join(os.path.dirname(file), "liblinkcap.so"))
        # the editable package follows its sources
        with open(os.path.join(self.source, "linkcap", "__init__.py"), "a") as package:
            package.write('\nMARK = "changed"\n')
        process = run([python, "-c", "import linkcap; print(linkcap.MARK)"], LINKCAP_LIB_DIR=None, PYTHONPATH=None)
        self.assertEqual(process.stdout, "changed\n", process.stderr)


if __name__ == "__main__":
    unittest.main()
