"""Compares reader.py with the programs: python3 check.py [PAGEDCTL [PAGEDD]]

The script of `crates/pagedctl`, those of the cases `script: ..` of `crates/conformance` and those of
`examples/scripts` are gone through with the output that is expected of them. At each `dump` the text
that the reader finds in the image is compared with the content that the replies tell. The files of
`examples/scripts` are compared with the cases `script: example ..`, which the gate plays.

With PAGEDCTL, the program as it was built, each script is played, once as it is and once with a
dump after every line. With PAGEDD, files that this program wrote are read, whole and torn.
"""
import os
import random
import subprocess
import tempfile

import reader
import usage
from served import Served, opened

TOP = os.path.dirname(os.path.dirname(os.path.abspath(__file__)))
PROGRAM = os.path.join(TOP, "crates", "pagedctl")
CASES = os.path.join(TOP, "crates", "conformance", "stdin")
FILES = os.path.join(TOP, "examples", "scripts")


def contents(*path):
    with open(os.path.join(*path), encoding="utf-8") as file:
        return file.read()


def hexadecimal(word):
    """A word of a case as its digits: a text in quotes stands for its letters' digits, `_` for nothing."""
    parts = word.split('"')
    return "".join(part.encode().hex() if index % 2 else part.replace("_", "") for index, part in enumerate(parts))


def scripts_of_case(lines):
    """The scripts of a case that are played to their end, each with the output that is expected of it; those of items,
    whose replies tell no content, are left out."""
    found, script, out = [], None, None
    for line in lines:
        if line.startswith("> "):
            script.append(line[2:])
        elif line.startswith("< "):
            out.append(line[2:])
        elif line.startswith("script") and line.endswith(" => status 0"):
            given = line[len("script"):-len(" => status 0")].strip()
            script, out = bytes.fromhex(hexadecimal(given)).decode().splitlines(), []
            found.append((script, out))
        else:
            script, out = [], []
    return [("\n".join(script) + "\n", "\n".join(out) + "\n") for script, out in found
            if not script[0].startswith("start-items ")]


def scripts_of_cases():
    """The scripts of the cases, by their names; where a case has several, with a number after it."""
    found = {}
    for case in contents(CASES).split("\ncase ")[1:]:
        name, *lines = case.splitlines()
        if name.startswith("script: "):
            for number, texts in enumerate(scripts_of_case(lines)):
                found[name[len("script: "):] + (f", {number}" if number else "")] = texts
    return found


def scripts():
    """Every script, with the output that is expected of it."""
    cases = scripts_of_cases()
    names = sorted(name[:-4] for name in os.listdir(FILES) if name.endswith(".txt"))
    files = {"example " + name.replace("-", " "): (contents(FILES, name + ".txt"), contents(FILES, name + ".out"))
             for name in names}
    if files != {name: texts for name, texts in cases.items() if name.startswith("example ")}:
        raise SystemExit("examples/scripts and the cases `script: example ..` differ")
    return {"stdin": (contents(PROGRAM, "stdin"), contents(PROGRAM, "stdout"))} | cases


class Told:
    """What the replies of a script tell of its blob."""

    def __init__(self, name, start):
        _, size, _, _, checksum = start.split(" ")
        self.name, self.size, self.checksum = name, int(size), reader.SUMS[checksum]
        # The content; how much of it is durable at least; whether all of it is written; and the
        # text of an image that a crash left.
        self.content, self.floor, self.written, self.left = b"", 0, True, None
        self.crashed, self.compared = False, 0
        # Under `const` torn slots verify: what a crash left may begin no content, and what a
        # recovery keeps of it is known only where an image was seen.
        self.known = True

    def want(self, holds, line):
        if self.known and not holds:
            raise SystemExit(f"{self.name}: at `{line}` the reader and the replies differ")

    def dump(self, image, line):
        _, text = reader.read(image, self.size, self.checksum)
        self.compared += 1
        self.want(text[:self.floor] == self.content[:self.floor], line)
        if self.written and not self.crashed:
            self.want(text == self.content, line)
        elif self.checksum is not reader.SUMS["const"]:
            self.want(self.content.startswith(text), line)
        if self.crashed:
            self.left = text

    def recovered(self, length, line):
        self.known = self.left is not None or self.checksum is not reader.SUMS["const"]
        if self.left is not None:
            self.want(len(self.left) == length, line)
            self.content = self.left
        self.want(len(self.content) >= length, line)
        self.content, self.floor, self.written = self.content[:length], length, True
        self.crashed = False

    def line(self, line, reply):
        words, told = line.split(" "), reply.split(" ")
        step, kind = words[0], told[0]
        if kind == "blob":
            self.dump(bytes.fromhex(told[1].replace("-", "")), line)
        elif kind == "recovered":
            self.recovered(int(told[1]), line)
        elif kind == "crashed":
            self.crashed, self.left = True, None
        elif kind == "at":
            self.want(int(told[1]) == len(self.content), line)
            self.content += bytes.fromhex(words[1].replace("-", ""))
            self.written &= words[1] == "-"
        elif step == "truncate" and kind in ("size", "fault"):
            keep = len(self.content) if kind == "fault" else int(told[1])
            self.content, self.written = self.content[:keep], kind == "size"
            self.floor = min(self.floor, int(words[1])) if kind == "fault" else keep
        elif step == "sync" and kind == "ok":
            self.floor, self.written = len(self.content), True
        elif step in ("start-sync", "seal") and kind in ("done", "named", "sealed"):
            self.written = True
        elif step == "replay" and kind == "replay":
            self.written = True
        elif step in ("read", "upto", "cached") and kind == "bytes":
            offset = int(words[1])
            found = bytes.fromhex(told[1].replace("-", ""))
            self.want(self.content[offset:offset + len(found)] == found, line)


def compare(name, script, out):
    """Goes through a script and its output; answers how many dumps were compared."""
    lines, replies = script.splitlines(), out.splitlines()
    if len(lines) != len(replies):
        raise SystemExit(f"{name}: {len(lines)} lines and {len(replies)} replies")
    told = Told(name, lines[0])
    for line, reply in zip(lines, replies):
        told.line(line, reply)
    return told.compared


def with_dumps(script):
    """The script with a dump after every line."""
    return "".join(f"{line}\ndump\n" for line in script.splitlines())


def play(program, script):
    ended = subprocess.run([program], input=script.encode(), capture_output=True, check=True)
    return ended.stdout.decode()


def recovers(program, image, synced, folder):
    """Whether `pagedd` recovers of an image just the text that the reader finds in it, and `pagedd
    cat` writes that text."""
    path = os.path.join(folder, "image")
    with open(path, "wb") as file:
        file.write(image)
    _, text = reader.read(image, 4084, reader.crc32c)
    written = subprocess.run([program, "cat", path], capture_output=True, check=False).stdout
    blob = opened(program, path, synced)
    content = blob.read(0, blob.recovered)
    blob.kill()
    return content == text == written


def read_files(program, rng):
    """Files that `pagedd` wrote, read after each call, and torn; how many of both."""
    states, sent, synced, images = [b""], b"", 0, 0
    with tempfile.TemporaryDirectory() as folder:
        path = os.path.join(folder, "blob")
        blob = Served(program, path)
        for turn in range(24):
            before = synced
            if turn % 3 == 2:
                blob.sync()
                synced = len(sent)
            else:
                data = rng.randbytes(rng.choice([5, 3000, 9000, 80_000]))
                blob.append(data)
                sent += data
            with open(path, "rb") as file:
                states.append(file.read())
            _, text = reader.read(states[-1], 4084, reader.crc32c)
            if not sent.startswith(text) or turn % 3 == 2 and text != sent:
                raise SystemExit(f"at call {turn} the file does not tell what was appended")
            # The file as a crash may leave it: a front of the newer state, and else the older.
            cut = rng.randrange(len(states[-1]) + 1)
            torn = states[-1][:cut] + states[-2][cut:]
            images += 1
            if not recovers(program, torn, before, folder):
                raise SystemExit(f"at call {turn} the program recovers another text")
        blob.kill()
    return len(states) - 1, images


def main():
    parser = usage.parser(__doc__)
    parser.add_argument("PAGEDCTL", nargs="?", type=usage.program)
    parser.add_argument("PAGEDD", nargs="?", type=usage.program)
    given = parser.parse_args()
    programs = [program for program in (given.PAGEDCTL, given.PAGEDD) if program]
    found = scripts()
    dumps = sum(compare(name, *texts) for name, texts in found.items())
    print(f"{len(found)} scripts, {dumps} dumps: the reader tells what the replies tell")
    if programs:
        dumps = 0
        for name, (script, out) in found.items():
            if play(programs[0], script) != out:
                raise SystemExit(f"{name}: the program prints something else")
            script = with_dumps(script)
            dumps += compare(name, script, play(programs[0], script))
        print(f"played, {dumps} dumps: the reader tells what the replies tell")
    if len(programs) > 1:
        files, images = read_files(programs[1], random.Random(1))
        print(f"{files} files and {images} torn ones: the reader tells what the program tells")


if __name__ == "__main__":
    main()
