#!/usr/bin/env python3
"""Stretches cases of sessions with pages of 4 bytes: N bytes stand in place of each.

    python3 examples/stretch.py              writes the stretched cases of crates/conformance/stdin
    python3 examples/stretch.py check        compares them with those that stand there

A case of pages of 4 bytes and its stretched one do the same on pages of 4 * N bytes: 132 bytes with N 33,
and 4,084, as most programs take, with N 1,021. The rule knows nothing of the layer:

- each byte of content stands N times, and each length and offset of content is N times as great;
- the checksum `add` is linear, so a slot's length and its sum are N times as great too (`const` is 0);
- a place in the blob is a page and a place in it: a page has 4 * N + 12 bytes in place of 16, its payload
  is stretched, and its footer is as long as before. The bytes of a device call are those between the
  places where they begin and end;
- numbers of snapshots, replays, syncs, pages and device calls stay, and so does every reply, apart from
  its lengths and bytes.

What a crash keeps, as `first:48`, goes by pages too: of 48 bytes, which are three pages, it is three
stretched ones. With N 1,021 that is each of 12,288 bytes: of the torn cases one is played so. Surveys are
stretched to pages of 4,084 bytes alone.
"""
import os
import re
import sys

PAGE, FOOTER = 4, 12
FACTORS = (33, 1021)
HERE = os.path.dirname(os.path.abspath(__file__))
CASES = os.path.join(HERE, "..", "crates", "conformance", "stdin")
BEGINS = "# Stretched cases, which examples/stretch.py writes."

# The cases that are stretched, by how their names begin.
WANTED = re.compile(
    r"cut \d|a recovery that cuts$|a torn |torn pages|append \d|owned \d|refused \d, at each call|each sync takes|"
    r"a full buffer|an append may|tries fill|failing calls: |two failing calls: |surveys? "
)

# Those that are played with pages of 4,084 bytes alone.
ONLY_LARGE = re.compile(r"surveys? ")

# The torn case that is stretched to whole pages of 4,096 bytes.
ONE_TORN = "case torn pages: a sync"

# What the words of a step are: L a length or an offset of content, B bytes of content, P a place in the
# blob, and = a word that stays; the last kind stands for each word after it too.
STEPS = {
    "append": "B", "owned": "B", "try-append": "B", "sync": "", "start-sync": "", "wait": "", "wait-sync": "=",
    "needs": "", "size": "", "read": "LL", "upto": "LL", "cached": "LL", "ranges": "R", "cached-ranges": "R",
    "scan": "LLP", "begin": "", "truncate": "L", "snapshot": "", "try-snapshot": "", "snap": "=LL", "replay": "P",
    "ensure": "=L", "take": "=L", "seek": "=L", "seal": "", "recover": "P", "open": "", "cut": "L", "look": "P",
    "survey": "PP", "load": "I", "holds": "BB", "has": "==", "fail": "=", "dump": "", "mark": "", "calls": "",
    "crash": "-",
}
REPLIES = {
    "at": "L", "ok": "", "named": "=", "done": "", "size": "L", "bytes": "B", "none": "", "served": "=B",
    "missed": "=", "snapshot": "=", "replay": "=", "yes": "", "no": "", "sealed": "===", "recovered": "L",
    "opened": "L", "closed": "", "no-such": "", "bad-ranges": "", "fault": "==", "holds": "", "blob": "I",
    "crashed": "P", "pages": "==L=P", "whole": "", "cut": "P", "keep": "P", "refuse": "P",
}
CALLS = {"read": "PP", "write": "PP=", "ranges": "Q", "start-ranges": "Q", "resize": "P", "sync": "", "start": "",
         "wait": "=", "none": ""}


class Skipped(Exception):
    """A case that the rule doesn't stretch."""


def plain(text):
    """The bytes that a word stands for."""
    if text == "-":
        return b""
    out = re.sub(r'"([^"]*)"', lambda it: it[1].encode().hex(), text).replace("_", "")
    return bytes.fromhex(out)


def place(offset, n):
    """A place in the blob."""
    page, within = divmod(offset, PAGE + FOOTER)
    stretched = within * n if within <= PAGE else PAGE * n + within - PAGE
    return page * (PAGE * n + FOOTER) + stretched


def said(content, n):
    """Bytes of content: each of them N times, by its name."""
    if not content:
        return "-"
    names = {byte: chr(byte) for byte in b"abcdefghijklmnopqrstuvwxyz"} | {0: "zeros"}
    for byte in content:
        if byte not in names:
            raise Skipped(f"a byte {byte}")
    return "".join("{%s%d}" % (names[byte], n) for byte in content)


def slot(field, n):
    if len(field) < 6:
        return field.hex()
    length, total = int.from_bytes(field[:2], "big") * n, int.from_bytes(field[2:], "big") * n
    return f"{length:04x}_{total:08x}"


def image(blob, n):
    """The bytes of a blob, page by page."""
    out = ""
    for at in range(0, len(blob), PAGE + FOOTER):
        page = blob[at : at + PAGE + FOOTER]
        out += said(page[:PAGE], n)
        if page[PAGE:]:
            out += "_" + slot(page[PAGE : PAGE + 6], n) + "_" + slot(page[PAGE + 6 :], n)
    return out.rstrip("_") or "-"


def span(offset, length, n):
    """What is in the blob between two places."""
    begin = place(offset, n)
    return begin, place(offset + length, n) - begin


def word_of(kind, word, n):
    if kind == "L":
        if int(word) * n >= 2**64:
            raise Skipped(f"the offset {word}")
        return str(int(word) * n)
    if kind == "P":
        return str(place(int(word), n))
    if kind == "B":
        return said(plain(word), n)
    if kind == "I":
        return image(plain(word), n)
    if kind == "R":
        return ":".join(str(int(it) * n) for it in word.split(":"))
    if kind == "Q":
        return "%d:%d" % span(*(int(it) for it in word.split(":")), n)
    if kind == "-" and word != "-":
        raise Skipped("a crash that keeps bytes of its own")
    return word


def phrase(text, kinds, n):
    """A step, a reply or a device call."""
    name, *words = text.split(" ")
    if name not in kinds:
        raise Skipped(name)
    of = kinds[name]
    if kinds is CALLS and of[:2] == "PP":
        begin, length = span(int(words[0]), int(words[1]), n)
        return " ".join([name, str(begin), str(length), *words[2:]])
    of = of + of[-1:] * len(words)
    return " ".join([name, *(word_of(kind, word, n) for kind, word in zip(of, words))])


def calls(text, n):
    return ", ".join(phrase(it, CALLS, n) for it in text.split(", "))


def way(text, n):
    """What a crash keeps, and of how many bytes."""
    name, _, most = text.partition(":")
    if not most:
        return text
    if int(most) % (PAGE + FOOTER) == 0:
        most = place(int(most), n)
    elif int(most) > FOOTER // 2:
        raise Skipped(text)
    return f"{name}:{most}"


def line_of(line, n):
    if line.startswith("start "):
        page, buffer, *rest = line.split(" ")[1:] + [""]
        if page != str(PAGE) or len(rest) < 3:
            raise Skipped(line)
        rest = rest[:-1]
        return " ".join(["start", str(PAGE * n), str(int(buffer) * n), *rest])
    if line.startswith("blob "):
        return "blob " + image(plain(line[5:]), n)
    if line.startswith("try "):
        which, *ways = line.split(" ")[1:]
        return " ".join(["try", which, *(way(it, n) for it in ways)])
    if line.startswith("|"):
        return "| " + calls(line[1:].strip(), n)
    if line == "then":
        return line
    step, bar, asked = line.partition(" | ")
    step, arrow, reply = step.partition(" => ")
    out = phrase(step, STEPS, n)
    if arrow:
        # (what `calls` answers is device calls)
        out += " => " + (calls(reply, n) if step == "calls" else phrase(reply, REPLIES, n))
    return out + (" | " + calls(asked, n) if bar else "")


def cases(text):
    """The cases of a file, with the names in braces spelled out."""
    names, found = {}, []
    for line in text.split("\n"):
        line = re.sub(r"\{(\w+)\}", lambda it: names.get(it[1], it[0]), line.strip())
        if line.startswith("let "):
            name, _, meant = line[4:].partition(" = ")
            names.setdefault(name, meant)
        elif line.startswith("case "):
            found.append([line])
        elif line and not line.startswith("#") and found:
            found[-1].append(line)
    return found


def stretched(found, n):
    out = []
    for name, *lines in found:
        if not WANTED.match(name[5:]) or n < 100 and ONLY_LARGE.match(name[5:]):
            continue
        if n > 100 and any(" first:" in line for line in lines):
            if name != ONE_TORN:
                continue
            lines = [re.sub(r" one:\d+", "", line) for line in lines]
        try:
            out.append("\n".join([f"{name}, pages of {PAGE * n}", *(line_of(it, n) for it in lines)]))
        except Skipped:
            pass
    return out


def names(n):
    lines = [f"let {letter}{n} = \"{letter * n}\"" for letter in "abcdefghijklmnopqrstuvwxyz"]
    return "\n".join([*lines, f"let zeros{n} = {'00' * n}"])


def main(words):
    with open(CASES, encoding="utf-8") as file:
        text = file.read()
    own, _, there = text.partition(BEGINS)
    made = ""
    for n in FACTORS:
        made += "\n\n" + names(n) + "\n\n" + "\n\n".join(stretched(cases(own), n))
    made += "\n"
    if words == ["check"]:
        print("as they are written" if made == there else "they differ: take what stretch.py writes")
        return made != there
    if words:
        sys.exit(__doc__)
    sys.stdout.write(BEGINS + made)
    return 0


if __name__ == "__main__":
    sys.exit(main(sys.argv[1:]))
