"""What the tests share: a folder for each test, recordings, and the built program."""
import atexit
import os
import re
import shutil
import subprocess
import sys
import tempfile
import unittest

HERE = os.path.dirname(os.path.abspath(__file__))
PACKAGE = os.path.dirname(HERE)
TOP = os.path.dirname(os.path.dirname(PACKAGE))
SOURCES = os.path.join(PACKAGE, "src")


def player():
    """A program that plays recordings: recorded.py, by this Python and nothing besides, so that it starts soon."""
    folder = tempfile.mkdtemp(prefix="recorded-")
    atexit.register(shutil.rmtree, folder, ignore_errors=True)
    path = os.path.join(folder, "recorded")
    with open(os.path.join(HERE, "recorded.py"), encoding="utf-8") as source, open(path, "w", encoding="utf-8") as file:
        file.write(f"#!{sys.executable} -IS\n{source.read()}")
    os.chmod(path, 0o755)
    return path


RECORDED = player()

# The program that is tested, the folder in which tests make theirs, and how many times a program is killed.
GIVEN = {"program": None, "folder": None, "kills": 1000}


class Room(unittest.TestCase):
    """A test in an empty folder of its own, which is the current one."""

    def setUp(self):
        self.folder = tempfile.mkdtemp(dir=GIVEN["folder"], prefix="test-")
        os.chdir(self.folder)

    def tearDown(self):
        os.chdir(HERE)
        shutil.rmtree(self.folder, ignore_errors=True)

    def path(self, *names):
        return os.path.join(self.folder, *names)


class Served(Room):
    """A test with the built program, which is found by its variable."""

    def setUp(self):
        super().setUp()
        if GIVEN["program"] is None:
            self.skipTest("no program is given")
        self.program = GIVEN["program"]
        os.environ["PAGEDD"] = self.program

    def tearDown(self):
        os.environ.pop("PAGEDD", None)
        super().tearDown()

    def pagedd(self, *words, given=b""):
        """The exit status of a command, and what it wrote."""
        ended = subprocess.run([self.program, *words], input=given, capture_output=True, timeout=120, check=False)
        return ended.returncode, ended.stdout, ended.stderr.decode(errors="replace")


class Recorded(Room):
    """A test against a recording."""

    def record(self, *lines):
        """Writes a recording, as `recording`."""
        with open(self.path("recording"), "w", encoding="utf-8") as file:
            file.write("\n".join(lines) + "\n")


def page(name):
    """A page of docs/."""
    with open(os.path.join(TOP, "docs", name), encoding="utf-8") as file:
        return file.read()


def blocks(text):
    """The blocks of bytes of a page's examples."""
    found = re.findall(r"(?:^ {4}[0-9a-f ]+\n)+", text.split("\n## Examples")[1], re.M)
    return ["".join(block.split()) for block in found]


def put(path, data):
    with open(path, "wb") as file:
        file.write(data)


def contents(path):
    with open(path, "rb") as file:
        return file.read()


sys.path.insert(0, SOURCES)
