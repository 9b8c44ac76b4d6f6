"""What needs no program: where it is looked for, and that the package builds, is typed, and has its examples played."""
import ast
import importlib.util
import os
import shutil
import subprocess
import sys
import unittest

from room import PACKAGE, SOURCES, Room

import pagedd_client
from pagedd_client import Blob, Log, ProgramNotFound, ProgramNotStarted, find_program
from pagedd_client.program import path_word


class Finding(Room):
    """Where `pagedd` is looked for."""

    def setUp(self):
        super().setUp()
        self.before = {name: os.environ.get(name) for name in ("PAGEDD", "PATH")}
        os.environ.pop("PAGEDD", None)
        os.environ["PATH"] = self.folder

    def tearDown(self):
        for name, value in self.before.items():
            os.environ.pop(name, None)
            if value is not None:
                os.environ[name] = value
        super().tearDown()

    def program(self, name, mode=0o755):
        with open(self.path(name), "w", encoding="utf-8") as file:
            file.write("#!/bin/sh\n")
        os.chmod(self.path(name), mode)
        return self.path(name)

    def test_paths_of_bytes(self):
        there = self.program("one")
        self.assertEqual(os.path.realpath(find_program(os.fsencode(there))), os.path.realpath(there))
        self.assertEqual(path_word(b"-log"), "./-log")

    def refused(self, *words, program=None):
        with self.assertRaises(ProgramNotFound) as raised:
            find_program(program)
        for word in words:
            self.assertIn(word, str(raised.exception))

    def test_by_argument(self):
        there = self.program("one")
        os.environ["PAGEDD"] = self.program("other")
        for name in (there, "./one", "one"):
            self.assertEqual(os.path.realpath(find_program(name)), os.path.realpath(there))

    def test_by_variable(self):
        there = os.environ["PAGEDD"] = self.program("other")
        self.program("pagedd")
        self.assertEqual(find_program(), there)

    def test_by_path(self):
        there = self.program("pagedd")
        self.assertEqual(find_program(), there)

    def test_it_says_where_it_looked(self):
        self.refused("argument", "PAGEDD", "path")
        self.refused("argument", "./missing", "no program is there", program="./missing")
        self.refused("argument", "missing", "isn't on the path", program="missing")
        self.refused("argument", self.folder, program=self.folder)
        os.environ["PAGEDD"] = "/not/there"
        self.program("pagedd")
        self.refused("variable PAGEDD", "/not/there")

    def test_a_file_that_is_no_program(self):
        self.refused("no program is there", program=self.program("plain", 0o644))
        with open(self.path("text"), "wb") as file:
            file.write(b"\x7fELF no program")
        os.chmod(self.path("text"), 0o755)
        for kind in (Blob, Log):
            with self.assertRaises(ProgramNotStarted) as raised:
                kind("content", program="./text")
            self.assertTrue(raised.exception.errno and raised.exception.words)


class Package(Room):
    """The package as it is installed."""

    def run_python(self, python, *words, **options):
        ended = subprocess.run([python, *words], stdout=subprocess.PIPE, stderr=subprocess.STDOUT, text=True, check=False,
                               **options)
        self.assertEqual(ended.returncode, 0, ended.stdout)
        return ended.stdout

    def test_it_is_installed(self):
        """By pip, without a network, in a fresh environment that sees the system's setuptools."""
        python = self.builder()
        if python is None:
            self.skipTest("no Python here has setuptools, wheel and venv, and there is no network to get them by")
        source = self.path("source")
        shutil.copytree(PACKAGE, source, ignore=shutil.ignore_patterns("build", "*.egg-info", "__pycache__"))
        self.run_python(python, "-m", "venv", "--system-site-packages", "--without-pip", self.path("fresh"))
        fresh = self.path("fresh", "bin", "python3")
        self.run_python(fresh, "-m", "pip", "install", "--quiet", "--no-build-isolation", "--no-index", "--no-deps",
                        "--disable-pip-version-check", source)
        said = self.run_python(fresh, "-c", "import pagedd_client; print(pagedd_client.__file__)", cwd=self.folder)
        there = os.path.dirname(said.strip())
        self.assertTrue(there.startswith(os.path.realpath(self.path("fresh"))) or there.startswith(self.path("fresh")))
        self.assertEqual({name for name in os.listdir(there) if name != "__pycache__"},
                         {name for name in os.listdir(os.path.join(SOURCES, "pagedd_client")) if name != "__pycache__"})
        self.assertIn("py.typed", os.listdir(there))

    @staticmethod
    def builder():
        """A Python that has what an installation without a network needs."""
        asks = ("import importlib.metadata as it, sys\n"
                "it.version('pip'), int(it.version('setuptools').split('.')[0]) > 70 or it.version('wheel'), __import__('venv')")
        for python in dict.fromkeys((sys.executable, "/usr/bin/python3")):
            if os.access(python, os.X_OK) and subprocess.run([python, "-c", asks], stderr=subprocess.DEVNULL,
                                                             check=False).returncode == 0:
                return python
        return None

    def test_it_needs_nothing_but_python(self):
        names = set()
        for name in os.listdir(os.path.join(SOURCES, "pagedd_client")):
            if name.endswith(".py"):
                with open(os.path.join(SOURCES, "pagedd_client", name), encoding="utf-8") as file:
                    tree = ast.parse(file.read(), feature_version=(3, 9))
                for node in ast.walk(tree):
                    if isinstance(node, ast.Import):
                        names |= {it.name.split(".")[0] for it in node.names}
                    elif isinstance(node, ast.ImportFrom) and node.level == 0:
                        names.add(node.module.split(".")[0])
        self.assertLessEqual(names, set(sys.stdlib_module_names) if hasattr(sys, "stdlib_module_names") else names)

    def test_it_is_typed(self):
        """Each function states the types of its arguments and of its answer; and mypy agrees, if it is there."""
        for name in os.listdir(os.path.join(SOURCES, "pagedd_client")):
            if not name.endswith(".py"):
                continue
            with open(os.path.join(SOURCES, "pagedd_client", name), encoding="utf-8") as file:
                tree = ast.parse(file.read())
            for node in ast.walk(tree):
                if isinstance(node, ast.FunctionDef):
                    given = node.args.posonlyargs + node.args.args + node.args.kwonlyargs
                    missing = [it.arg for it in given if it.annotation is None and it.arg != "self"]
                    self.assertEqual((missing, node.returns is None), ([], False), f"{name}: {node.name}")
        if importlib.util.find_spec("mypy"):
            self.run_python(sys.executable, "-m", "mypy", "--strict", "--cache-dir", self.path("cache"), "src", cwd=PACKAGE)

    def test_each_public_call_has_an_example(self):
        for name in pagedd_client.__all__:
            kind = getattr(pagedd_client, name)
            if not isinstance(kind, type):
                continue
            self.assertTrue(kind.__doc__, name)
            if kind in (Blob, Log, pagedd_client.LogHandler, pagedd_client.Snapshot, pagedd_client.Replay):
                for call in dir(kind):
                    value = getattr(kind, call)
                    code = value.fget if isinstance(value, property) else value
                    ours = (getattr(code, "__module__", "") or "").startswith("pagedd_client")
                    # (`logging` alone calls `emit`)
                    if ours and not call.startswith("_") and call != "emit":
                        self.assertIn(">>>", value.__doc__ or "", f"{name}.{call}")

    def test_all_names_are_given_out(self):
        self.assertEqual(pagedd_client.__all__, sorted(pagedd_client.__all__, key=lambda name: (name[0].isupper() is False, name)))
        for name in pagedd_client.__all__:
            self.assertTrue(hasattr(pagedd_client, name))


if __name__ == "__main__":
    unittest.main()
