"""The table of docs/PAGEDD.md: each command of `pagedd` on each kind of file; for faults.py, which plays it."""
import os
import struct
import subprocess
import tempfile

import reader
import survey
import usage
from served import Served

PAYLOAD, PAGE = 4084, 4096
CLOSING = b"\x01" + b"\x01\x00\x00\x00\x10"
PAGEDD_PAGE = os.path.join(os.path.dirname(os.path.abspath(__file__)), "..", "docs", "PAGEDD.md")

# What each command is given besides the file's name, and its standard input.
COMMANDS = {
    "serve": ([], CLOSING), "serve --read-only": ([], CLOSING), "append": ([], b"more"), "check": ([], b""),
    "map": ([], b""), "cat": ([], b""), "salvage": (["OUT"], b""),
}
CHANGES = ("serve", "append")


def contents(path):
    with open(path, "rb") as file:
        return file.read()


def put(path, data):
    with open(path, "wb") as file:
        file.write(data)
    return path


def play(program, *words, given=CLOSING, **options):
    """The exit status of a command, its output, and what it said on standard error."""
    ended = subprocess.run([program, *words], input=given, capture_output=True, timeout=120, check=False, **options)
    return ended.returncode, ended.stdout, ended.stderr.decode(errors="replace")


def some(length):
    return bytes(at * 7 % 251 for at in range(length))


def a_blob(program, path, length, *options):
    """A file with so many synced bytes, and those bytes."""
    data = some(length)
    with Served(program, path, *options) as blob:
        blob.append(data)
        blob.sync()
    return data


def a_page(data, size, other=bytes(6)):
    """A physical page with this value, in its first slot."""
    return data.ljust(size, b"\0") + struct.pack(">HI", len(data), reader.crc32c(data)) + other


def a_torn_blob(program, path):
    """A last page with 1,000 synced bytes, which an append of more wrote anew, and a crash tore: its second slot says
    1,500 bytes and fails."""
    data = a_blob(program, path, PAYLOAD + 1000)
    blob = Served(program, path)
    blob.append(b"\x55" * 500)
    blob.sync()
    blob.kill()
    image = bytearray(contents(path))
    image[PAGE + 1100] ^= 1
    put(path, image)
    return data


def flipped(path, at):
    """Flips a bit of a byte of a file."""
    image = bytearray(contents(path))
    image[at] ^= 1
    return put(path, image)


# The kinds of files: each makes one at a path, and may answer what is to be killed once a command was played.
def good(program, path):
    a_blob(program, path, PAYLOAD + 1000)


def torn(program, path):
    a_torn_blob(program, path)


def rotten(program, path):
    a_blob(program, path, PAYLOAD + 1000)
    flipped(path, PAGE + 10)


def short(program, path):
    a_blob(program, path, PAYLOAD + 1000)
    put(path, contents(path)[:-100])


def worn(program, path):
    a_blob(program, path, 90 * PAYLOAD)
    flipped(path, 10 * PAGE + 10)


def damaged(program, path):
    a_blob(program, path, 300 * PAYLOAD)
    flipped(path, 10 * PAGE + 10)


def zeros(program, path):
    a_blob(program, path, PAYLOAD + 1000)
    put(path, contents(path) + bytes(PAGE))


def wrong(_, path):
    put(path, b"Dear diary, this is no blob.\n" * 400)


def another(program, path):
    a_blob(program, path, 10_000, "--page-size=1012")


def empty(_, path):
    put(path, b"")


def missing(_, path):
    assert not os.path.exists(path)


def locked(program, path):
    a_blob(program, path, PAYLOAD + 1000)
    return Served(program, path)


def folder(_, path):
    os.mkdir(path)


def fifo(_, path):
    os.mkfifo(path)


FILES = {
    "good": good,
    "torn: the last page has a bad slot beside its value": torn,
    "rotten: a byte of the last page flipped, and no slot fits": rotten,
    "short: cut off inside its last page": short,
    "a page of zeros after the last one": zeros,
    "worn: page 10 of 90 has no slot that fits, and less than the cut limit follows": worn,
    "damaged: page 10 of 300 has no slot that fits": damaged,
    "wrong: a text": wrong,
    "another page size": another,
    "empty": empty,
    "missing": missing,
    "locked: another program serves it": locked,
    "a folder": folder,
    "a fifo": fifo,
}


def is_kept(command, image, copies, room):
    """Whether just what may have been synced of a file stands beside it."""
    count = survey.set_aside(survey.survey(image)) if command in CHANGES else 0
    held = [contents(os.path.join(room, name)) for name in copies]
    return held == ([image[len(image) - count:]] if count else [])


def cell(program, command, make):
    """How a command ended on a file: its status, and whether a line told what it did, a copy was kept, and a file was
    made. A file that isn't served for changes has each byte that it had."""
    with tempfile.TemporaryDirectory() as room:
        path = os.path.join(room, "F")
        server = make(program, path)
        regular = os.path.isfile(path)
        image = contents(path) if regular else b""
        words, given = COMMANDS[command]
        words = [*command.split(), path, *(os.path.join(room, word) for word in words)]
        status, out, said = play(program, *words, given=given)
        said = said or (out.decode(errors="replace") if command == "check" and status == 3 else "")
        if server:
            server.kill()
        copies = [name for name in os.listdir(room) if ".cut-" in name]
        made = not regular and os.path.isfile(path)
        if regular and (status in (1, 3) or command not in CHANGES) and contents(path) != image:
            return f"{status}, and the file changed"
        if status in (1, 3):
            return str(status) if said.count("\n") >= 1 and not copies and not made else f"{status}, without a line"
        if regular and not is_kept(command, image, copies, room):
            return f"{status}, and the copies are {copies}"
        parts = [str(status), *["line"] * (said.count("\n") == 1), *["copy"] * bool(copies), *["new file"] * made]
        return ", ".join(parts)


def table(program):
    """The table in Markdown, as the program plays it."""
    lines = ["| The file | " + " | ".join(f"`{command}`" for command in COMMANDS) + " |",
             "|---" * (len(COMMANDS) + 1) + "|"]
    for name, make in FILES.items():
        cells = [cell(program, command, make) for command in COMMANDS]
        lines.append(f"| {name} | " + " | ".join(cells) + " |")
    return "\n".join(lines) + "\n"


if __name__ == "__main__":
    usage.module("faults.py")
