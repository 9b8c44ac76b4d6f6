"""The table of docs/PAGEDD.md: what each kind of damage does to a log; for faults.py, which plays it."""
import os
import shutil
import tempfile

import usage
from served import LogRequest, ServedLog
from statuses import PAGE, contents, play, put

PAGE_OF_TABLE = os.path.join(os.path.dirname(os.path.abspath(__file__)), "..", "docs", "PAGEDD.md")

# A client that offers version 2, asks for the number of records, and closes.
ASKS = b"\x02\x01\x02" + bytes([1, 0, 0, 0, LogRequest.SIZE]) + b"\x01\x00\x00\x00\x10"

# Segments of one record, so that the manifest has three pages, and then longer ones.
MANY, LONG = 150, 330


def record(number):
    """A record: its number, and bytes that tell it from all others."""
    return b"%06d:" % number + bytes(97 + (number * 31 + at * 7) % 26 for at in range(13 if number < MANY else 393))


def segment(number):
    return f"{number:020}.segment"


class Made:
    """A log, what it has, and what it was before the last records."""

    def __init__(self, program, folder):
        self.folder, self.records = folder, [record(number) for number in range(MANY + LONG)]
        log = ServedLog(program, folder, "--segment-size=1")
        log.append_many(self.records[:MANY], sync=True)
        log.close()
        log = ServedLog(program, folder, "--segment-size=20000")
        self.old = {}
        for at in range(MANY, MANY + LONG, 10):
            log.append_many(self.records[at:at + 10], sync=True)
            for name in os.listdir(folder):
                data = contents(os.path.join(folder, name))
                if data != self.old.setdefault(name, [data])[-1]:
                    self.old[name].append(data)
        log.close()
        last = max(name for name in os.listdir(folder) if name.endswith(".segment"))
        self.open, self.closed = last, segment(int(last[:20]) - 2)
        self.names = {"the manifest": "manifest", "the open segment": self.open, "a closed segment": self.closed,
                      "the list of a closed segment": self.closed.replace(".segment", ".digests")}

    def open_again(self, program):
        """Opens the log once more, so that the copy of its manifest knows how much the open segment has."""
        ServedLog(program, self.folder, "--segment-size=20000").close()
        self.names = {"the open segment, opened since": self.open, "the manifest's copy": "manifest.copy"}

    def data(self, name):
        return contents(os.path.join(self.folder, name))


def flips(data, page):
    """The data with a bit flipped in the middle of what a page holds."""
    pages = len(data) // PAGE
    at = (page % pages) * PAGE + 30
    return data[:at] + bytes([data[at] ^ 1]) + data[at + 1:]


def swaps(data, one, other):
    pages = [data[at:at + PAGE] for at in range(0, len(data), PAGE)]
    pages[one], pages[other] = pages[other], pages[one]
    return b"".join(pages)


def doubles(data, page):
    return data[:(page + 1) * PAGE] + data[page * PAGE:]


def list_damages(made, name):
    """What becomes of a list, which is shorter than a page."""
    data = made.data(name)
    other = f"{int(name[:20]) + 1:020}.digests"
    return {"a bit flipped": flips(data + bytes(PAGE), 0)[:len(data)], "its last bytes lost": data[:-9], "emptied": b"",
            "missing": None, "another list in its place": made.data(other)}


# The kinds of damage: each answers what becomes of a file's data, or None where the file goes.
def damages(made, name):
    data = made.data(name)
    pages = len(data) // PAGE
    other = segment(int(made.closed[:20]) + 1)
    return {
        "a bit flipped in its first page": flips(data, 0),
        "a bit flipped in a middle page": flips(data, pages // 2),
        "a bit flipped in its last page": flips(data, -1),
        "its last page lost": data[:-PAGE],
        "cut off inside its last page": data[:-4000],
        "a page of zeros inside": data[:PAGE] + bytes(PAGE) + data[2 * PAGE:],
        "emptied": b"",
        "missing": None,
        "an older state": made.old[name][-3],
        "two pages swapped": swaps(data, 0, 1),
        "a page doubled": doubles(data, 0),
        "a page taken out": data[PAGE:],
        "another segment in its place": made.data(other),
    }


def given(made, program, folder):
    """The exit status of cat, and in words how its records differ from those of the log."""
    status, out, _ = play(program, "cat", folder)
    found = out.split(b"\n")[:-1]
    less, more = len(set(made.records) - set(found)), len(found) - len(set(found))
    strange = len(set(found) - set(made.records))
    words = [f"{less} less" if less else "", f"{more} twice" if more else "", f"{strange} strange" if strange else ""]
    return status, ", ".join(word for word in words if word) or "all"


def image(folder):
    return {name: contents(os.path.join(folder, name)) for name in os.listdir(folder)}


def tried(program, made, room, name, data, *words):
    """Plays a command on a damaged log: its exit status, what it said, whether a copy was made, and the folder."""
    folder = os.path.join(room, "log")
    shutil.rmtree(folder, ignore_errors=True)
    shutil.copytree(made.folder, folder)
    path = os.path.join(folder, name)
    if data is None:
        os.remove(path)
    else:
        put(path, data)
    before = image(folder)
    words = [word.replace("LOG", folder).replace("OUT", os.path.join(room, "out")) for word in words]
    shutil.rmtree(os.path.join(room, "out"), ignore_errors=True)
    status, _, said = play(program, *words, given=ASKS)
    after = image(folder)
    if status in (1, 3) and after != before:
        raise SystemExit(f"NOT SO: {words} ends with {status}, and changed {name}")
    if status in (1, 3) and words[0] != "check" and not said:
        raise SystemExit(f"NOT SO: {words} ends with {status}, and says nothing")
    copies = [kept for kept in after if ".cut-" in kept]
    return status, said, bool(copies), folder


def cell(*words):
    return ", ".join(str(word) for word in words if word != "")


def row(program, made, room, name, data):
    """The cells of a kind of damage."""
    status, said, copied, folder = tried(program, made, room, name, data, "serve-log", "LOG")
    served = [status, "line" if said and status == 0 else "", "copy" if copied else "",
              given(made, program, folder)[1] if status == 0 else ""]
    checked, _, _, folder = tried(program, made, room, name, data, "check", "LOG")
    written = given(made, program, folder)
    salvaged, _, _, _ = tried(program, made, room, name, data, "salvage", "LOG", "OUT")
    out = given(made, program, os.path.join(room, "out"))
    if out[0] != 0 or play(program, "check", os.path.join(room, "out"))[0] != 0:
        raise SystemExit(f"NOT SO: what is salvaged of {name} is whole")
    rebuilt, _, copied, folder = tried(program, made, room, name, data, "rebuild", "LOG")
    anew = [rebuilt, "copy" if copied else ""]
    if rebuilt == 0:
        anew += [f"then check {play(program, 'check', folder)[0]}", given(made, program, folder)[1]]
    return [cell(*served), str(checked), cell(*written), cell(salvaged, out[1]), cell(*anew)]


def table(program):
    """The table, as docs/PAGEDD.md has it."""
    lines = ["| The file | The damage | `serve-log` | `check` | `cat` | `salvage` | `rebuild` |", "|---" * 7 + "|"]
    with tempfile.TemporaryDirectory() as room:
        made = Made(program, os.path.join(room, "made"))
        lines += rows(program, made, room)
        made.open_again(program)
        lines += rows(program, made, room)
    return "\n".join(lines) + "\n"


def rows(program, made, room):
    """The rows of some files of a log: damages of a file that do the same share one."""
    for what, name in made.names.items():
        alike = {}
        for damage, data in (list_damages if name.endswith(".digests") else damages)(made, name).items():
            alike.setdefault(tuple(row(program, made, room, name, data)), []).append(damage)
        for cells, these in alike.items():
            yield f"| {what} | {'; '.join(these)} | " + " | ".join(cells) + " |"


if __name__ == "__main__":
    usage.module("faults.py")
