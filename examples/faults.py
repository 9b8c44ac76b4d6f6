"""Shows that `pagedd` cuts no file untold: python3 faults.py PAGEDD [--table]

Files that lost bytes once, or could, are given to each command. Of each it says what is expected, why,
and what version 0.2.0 did where that was another thing; the first that isn't so ends it. A file that is
refused is compared with what it was. Last it plays each command on each kind of file, and compares that
with the table of docs/PAGEDD.md, which `--table` prints; and on logs with each kind of damage, for the table
of the same page, which `--log-table` prints.
"""
import errno
import json
import os
import re
import resource
import select
import shutil
import signal
import struct
import subprocess
import sys
import tempfile
import time

import log_statuses
import reader
import survey
import usage
from served import BlobRequest, Locked, Refusal, Served, ServedLog, frame
from statuses import (CLOSING, PAGE, PAGEDD_PAGE, PAYLOAD, a_blob, a_page, a_torn_blob, contents, flipped, play, put, some,
                      table)

MIB = 1 << 20
NOBODY = 65534


def expect(holds, what, why, before=""):
    """Ends the script where it doesn't hold, and else says it."""
    line = f"{what}, since {why}" + (f" (0.2.0: {before})" if before else "")
    if not holds:
        raise SystemExit(f"NOT SO: {line}")
    print(line)


def tells(said, *words):
    """Whether it is one line that has each of these words or numbers."""
    plain = re.sub(r"(?<=\d),(?=\d{3})", "", said)
    return said.count("\n") == 1 and all(str(word) in plain for word in words)


def beside(path):
    return sorted(name for name in os.listdir(os.path.dirname(path)) if ".cut-" in name)


def refused(program, path, *options):
    """Whether it is refused, with one line, no answer, and every byte as it was."""
    before = contents(path)
    status, out, said = play(program, "serve", *options, path)
    return (status == 3 and out == b"" and tells(said, "nothing was cut") and contents(path) == before
            and not beside(path))


def serves(program, path, image, *words):
    """Whether it is recovered to the pages of an image, what may have been synced stands in FILE.cut-1, and one line
    says so, with these words."""
    before = contents(path)
    count = survey.set_aside(survey.survey(before))
    status, _, said = play(program, "serve", path)
    copy = contents(path + ".cut-1") if beside(path) else b""
    return (status == 0 and contents(path) == image and copy == before[len(before) - count:]
            and tells(said, len(before) - count, count, *([path + ".cut-1"] if count else []), *words))


def looked_at(program, path, check, content, page_size=PAYLOAD):
    """Whether check ends with this status, cat writes this content, and map has a mark for each page,
    and none changes a byte."""
    before = contents(path)
    size = f"--page-size={page_size}"
    checked = play(program, "check", size, path)
    written = play(program, "cat", size, path)
    status, drawn, _ = play(program, "map", size, path)
    marks = "".join(row[11:] for row in drawn.decode().splitlines()[1:]).replace("<", "")
    return (checked[0] == check and written[0] in (0, 3) and written[1] == content and status == 0
            and len(marks) == len(before) // (page_size + 12) and contents(path) == before)


def a_wrong_file(program, folder):
    path = put(os.path.join(folder, "notes.txt"), b"Dear diary, this is no blob.\n" * 400)
    text = contents(path)
    expect(refused(program, path), "a text of 11,600 bytes is refused and stays",
           "no page of it has a value, and nothing would be kept")
    expect(refused(program, path, "--read-only"), "it is refused for reading alone too",
           "what it would serve is nothing of what is there", "an empty content, with status 0")
    expect(play(program, "append", path, given=b"more")[0] == 3 and contents(path) == text,
           "nothing is appended to it", "append opens a file as serve does")
    expect(looked_at(program, path, 3, b""), "check, map and cat find no content in it, and change nothing",
           "they only read")
    status, _, said = play(program, "salvage", path, path + ".out")
    expect(status == 3 and not os.path.exists(path + ".out") and tells(said, "--page-size"),
           "salvage makes no file of it", "nothing verifies", "status 1, which says that it couldn't be done")
    status, _, said = play(program, "serve", "--cut", path)
    expect(status == 0 and contents(path) == b"" and contents(path + ".cut-1") == text
           and tells(said, 11600, path + ".cut-1"),
           "with --cut it is emptied, and all of it stands in notes.txt.cut-1", "what is cut is kept beside it")


def a_flipped_bit(program, folder):
    path = os.path.join(folder, "thousand")
    data = a_blob(program, path, 1000 * PAYLOAD)
    flipped(path, 100)
    expect(refused(program, path), "1,000 synced pages of which a bit of page 0 flipped are refused and stay",
           "999 pages after the text have a value")
    expect("999" in play(program, "check", path)[1].decode(), "check says that 999 pages after it have a value",
           "they verify")
    expect(looked_at(program, path, 3, b""), "check, map and cat find no content, and change nothing",
           "the text ends at page 0")
    status, _, said = play(program, "salvage", path, path + ".out")
    expect(status == 3 and "page 0" in said and "offset 0" in said,
           "salvage says that page 0 is missing at offset 0", "the other pages verify")
    expect(play(program, "cat", path + ".out")[:2] == (0, data[PAYLOAD:]),
           "its output has the content of the other 999", "each was appended and synced")
    status, _, said = play(program, "salvage", path, path + ".out")
    expect(status == 1 and said.count("\n") == 1, "salvage a second time is refused", "the file is there")


def a_last_page(program, folder):
    path = os.path.join(folder, "last")
    data = a_blob(program, path, 10 * PAYLOAD + 2565)
    image = contents(path)
    flipped(path, 10 * PAGE + 10)
    expect(looked_at(program, path, 3, data[:10 * PAYLOAD]), "of a synced last page in which a bit flipped check, map"
           " and cat find nothing", "no slot fits it")
    expect(serves(program, path, image[:10 * PAGE]), "it goes, stands in last.cut-1, and one line says so",
           "nothing tells it from a page that a crash tore",
           "its 2,565 bytes went, with status 0, no word and no copy")
    os.remove(path + ".cut-1")
    put(path, image[:-100])
    expect(serves(program, path, image[:10 * PAGE]), "so do the 3,996 bytes of a last page that is cut off by 100",
           "they may have been synced", "they went with no word and no copy")
    os.remove(path + ".cut-1")
    put(path, image + bytes(2 * PAGE))
    status, _, said = play(program, "serve", path)
    expect(status == 0 and contents(path) == image and not beside(path) and tells(said, 2 * PAGE, len(image)),
           "two pages of zeros after it go with a line and no copy", "a page that was synced has a slot")


def a_torn_page(program, folder):
    path = os.path.join(folder, "torn")
    data = a_torn_blob(program, path)
    image = contents(path)
    expect(looked_at(program, path, 3, data), "of a torn last page the shorter slot's 1,000 bytes are found, and check"
           " has status 3", "the other slot says 1,500 bytes, and fails", "status 0")
    expect(play(program, "cat", path)[0] == 3, "cat has status 3", "the file may hold more", "status 0")
    status, _, said = play(program, "serve", path)
    expect(status == 0 and contents(path + ".cut-1") == image[PAGE:] and contents(path)[:PAGE] == image[:PAGE]
           and tells(said, PAGE, path + ".cut-1", 1000),
           "it is recovered, its page as it was stands in torn.cut-1, and one line says so",
           "the other slot may have been synced, and damaged since", "the slot was emptied, and no copy kept")
    expect(play(program, "cat", path)[:2] == (0, data), "then it is whole", "the bad slot is empty")
    status, out, _ = play(program, "salvage", path, path + ".out", path + ".cut-1")
    expect(status == 3 and play(program, "cat", path + ".out")[1] == data and b"torn.cut-1" in out,
           "salvage of both puts the page's value in once, and has status 3", "the copy begins with what FILE ends"
           " with, and its other slot fails")


def salvage_of_copies(program, folder):
    path = os.path.join(folder, "gap")
    data = a_blob(program, path, 10 * PAYLOAD)
    image = contents(path)
    put(path, image[:5 * PAGE] + bytes(PAGE) + image[6 * PAGE:] + b"\x55" * 100)
    expect(serves(program, path, image[:5 * PAGE]), "where page 5 is empty, the five pages from it on and a tail of 100"
           " bytes are set aside", "less than 1 MiB goes", "a line that didn't say from where")
    expect(play(program, "salvage", path, path + ".out")[0] == 0, "salvage of what is left is whole",
           "each of its pages has a value")
    status, out, said = play(program, "salvage", path, path + ".both", path + ".cut-1")
    expect(status == 3 and play(program, "cat", path + ".both")[1] == data[:5 * PAYLOAD] + data[6 * PAYLOAD:]
           and str(5 * PAYLOAD) in out.decode() and "100 bytes" in said,
           "with the copy it has the content of 9 pages; it says at which offset the copy's begins, and that 100 bytes"
           " below a page are missing", "a copy's pages are values too", "it took no copy")


def outputs(program, folder):
    path = os.path.join(folder, "closed")
    data = a_blob(program, path, 300_000)
    before = contents(path)
    status = subprocess.run(f"'{program}' '{path}' >&-", shell=True, input=CLOSING, timeout=60,
                            stderr=subprocess.PIPE, check=False).returncode
    expect(status == 1 and contents(path) == before, "with its output closed it ends with status 1, and the"
           " file stays", "the file gets no descriptor of a standard stream")
    blob = Served(program, path)
    expect(blob.read(0, blob.recovered) == data, "its 300,000 synced bytes are there", "nothing was written over")
    blob.kill()
    with open("/dev/full", "wb") as full:
        ended = subprocess.run([program, "cat", path], stdout=full, stderr=subprocess.PIPE, timeout=60, check=False)
    expect(ended.returncode == 1 and tells(ended.stderr.decode(), "standard output") and b"Os {" not in ended.stderr,
           "cat to a full output has status 1, and a line in words", "it couldn't be done", "a line Error: Os {..}")
    with subprocess.Popen([program, "cat", path], stdout=subprocess.PIPE, stderr=subprocess.PIPE) as process:
        first = process.stdout.read(3)
        process.stdout.close()
        said = process.stderr.read()
    expect(first == data[:3] and process.returncode in (141, -signal.SIGPIPE) and said == b"",
           "cat to a reader that closes after 3 bytes has status 141, and says nothing",
           "a shell knows that status for a closed pipe", "status 1, and a line Error: Os {..}")


def another_page_size(program, folder):
    data = some(2000)
    path = put(os.path.join(folder, "small"), b"".join(a_page(data[at:at + 500], 500) for at in range(0, 2000, 500)))
    expect(refused(program, path), "a blob with pages of 500 bytes is refused, opened with 4,084",
           "no page of it has a value so")
    said = play(program, "serve", path)[2]
    expect(tells(said, "--page-size", "500", "try again") and "--cut" not in said and "salvage" not in said,
           "the line begins with another --page-size, and names 500", "that is the likely cause, and 4 pages verify so",
           "it named --cut, which empties the file")
    expect(refused(program, path, "--read-only"), "it is refused for reading alone too", "nothing is served unseen",
           "an empty content, with status 0")
    expect(refused(program, path, "--page-size=500", "--checksum=add", "--read-only"),
           "so it is with another checksum", "no page has a value so", "an empty content, with status 0")
    expect(looked_at(program, path, 3, b""), "check, map and cat find no content so", "it has no page of that size")
    expect(looked_at(program, path, 0, data, 500), "with --page-size=500 they find all", "each page verifies")
    expect(play(program, "--page-size", "500", "check", path)[0] == 0, "the option may stand before the command",
           "it is the same option", "it was refused")
    status = play(program, "check", "--page-size=500", "--checksum=add", path)[0]
    expect(status == 3, "with another checksum check finds nothing", "no page of it has a value so")
    status = play(program, "salvage", "--page-size=500", path, path + ".out")[0]
    expect(status == 0 and contents(path + ".out") == contents(path), "salvage copies it byte by byte",
           "its pages are full")


def reading_alone(program, folder):
    path = os.path.join(folder, "alone")
    data = a_blob(program, path, 770 * PAYLOAD)
    flipped(path, 100 * PAGE + 10)
    expect(refused(program, path, "--read-only"), "3 MiB of which page 100 is bad are refused for reading alone",
           "669 pages with a value would be hidden", "408,400 bytes, with status 0")
    before = contents(path)
    blob = Served(program, path, "--read-only", "--cut")
    content = blob.read(0, blob.recovered)
    blob.close()
    said = blob.said
    expect(content == data[:100 * PAYLOAD] and tells(said, 670 * PAGE, 100 * PAGE) and contents(path) == before
           and not beside(path), "with --cut the first 408,400 bytes are served, a line says what isn't, and nothing"
           " is changed", "it was asked for them", "no line")


def an_empty_file(program, folder):
    path = put(os.path.join(folder, "empty"), b"")
    expect(play(program, path)[0] == 0 and contents(path) == b"", "an empty file is served", "nothing is cut")
    expect(looked_at(program, path, 0, b""), "check has status 0, and map and cat write nothing", "it has no page")
    status, _, _ = play(program, "salvage", path, path + ".out")
    expect(status == 0 and contents(path + ".out") == b"", "salvage makes an empty blob of it", "nothing is missing",
           "status 1")
    missing = os.path.join(folder, "missing")
    expect(all(play(program, command, missing)[0] == 1 for command in ("check", "map", "cat"))
           and not os.path.exists(missing), "of a missing file check, map and cat say so", "they make none")


def a_torn_tail(program, folder):
    path = os.path.join(folder, "tail")
    data = a_blob(program, path, 10 * PAYLOAD)
    image = contents(path)
    put(path, image + b"\x55" * 100)
    expect(looked_at(program, path, 3, data), "a blob with 100 bytes more has its content, and check has status 3",
           "100 bytes would be cut")
    expect(serves(program, path, image), "it is recovered, and the 100 bytes stand in tail.cut-1",
           "they may have been synced", "they went with no word and no copy")
    os.remove(path + ".cut-1")
    put(path, image + b"\x55" * 3 * PAGE)
    expect(serves(program, path, image), "three pages more without a value go, and stand in tail.cut-1",
           "they aren't zeros")
    os.remove(path + ".cut-1")
    put(path, image[:5 * PAGE] + bytes(PAGE) + image[6 * PAGE:])
    expect(looked_at(program, path, 3, data[:5 * PAYLOAD]), "where page 5 is empty, check, map and cat see 5 pages",
           "the text ends there")
    expect(refused(program, path, "--cut-limit=1000"), "with --cut-limit=1000 it is refused",
           "4 pages with a value would go, of 20,480 bytes")


def a_good_blob(program, folder):
    path = os.path.join(folder, "good")
    data = a_blob(program, path, 100_000)
    expect(looked_at(program, path, 0, data), "check, map and cat see all of a synced blob", "each page verifies")
    expect(play(program, "cat", "--from=5000", "--len=10", path)[1] == data[5000:5010],
           "cat writes 10 bytes from 5,000 on", "it was asked for them")
    expect(play(program, "cat", "--from=100000", path)[:2] == (0, b"") and play(program, "cat", "--from=100001",
           path)[0] == 1, "it writes nothing from the end on, and from past it has status 1", "no such byte is there",
           "nothing, and status 0")
    expect(play(program, "map", "--from=3", "--to=2", path)[0] == 1 and play(program, "map", "--from=1000", path)[0]
           == 1, "map of no page has status 1", "there is nothing to draw", "nothing, and status 0")
    expect(play(program, "salvage", path, path + ".out")[0] == 0
           and play(program, "cat", path + ".out")[1] == data, "salvage copies it, with status 0", "nothing is missing")
    blob = Served(program, path)
    try:
        Served(program, path)
        raise SystemExit("NOT SO: two programs serve one file")
    except Locked as second:
        expect(second.exit_status == 1 and second.words.count("\n") == 0, "a second program is refused",
               "the file is locked")
    blob.kill()


def a_part_of_a_request(program, folder):
    blob = Served(program, os.path.join(folder, "waits"))
    request = frame(BlobRequest.SIZE)
    blob.send(request + request[:2])
    ready, _, _ = select.select([blob.process.stdout], [], [], 20)
    expect(bool(ready) and blob.answer() == bytes(8),
           "who has sent a request and two bytes of the next gets an answer to the first",
           "no whole request is waiting")
    blob.send(request[2:])
    expect(blob.answer() == bytes(8), "with the other bytes of the next it gets the second", "that is whole then")
    blob.kill()


def limited(process, more):
    """Limits a process to so many bytes of memory more than it has."""
    with open(f"/proc/{process.pid}/statm", encoding="ascii") as file:
        size = int(file.read().split()[0]) * resource.getpagesize() + more
    resource.prlimit(process.pid, resource.RLIMIT_AS, (size, size))


def a_lost_writer(program, folder):
    # (a build that looks for wrong accesses ends at a refused request, unless it is told to answer it)
    os.environ["ASAN_OPTIONS"] = "allocator_may_return_null=1"
    path = os.path.join(folder, "memory")
    data = a_blob(program, path, 30_000)
    blob = Served(program, path)
    limited(blob.process, 16 * MIB)
    statuses = []
    while len(statuses) < 4000 and (not statuses or statuses[-1] == 0):
        try:
            blob.append(data)
            statuses.append(0)
        except Refusal as refused:
            statuses.append(refused.status)
    blob.close()
    status, said = blob.exit_status, blob.said
    words = "the writer ended with OutOfMemory"
    expect(statuses[-1] == 8 and status == 1 and tells(said, words),
           "a session in which memory was refused to an append ends with status 1, and a line",
           "what was appended since the last sync may be gone", "status 0, with standard error empty")
    del os.environ["ASAN_OPTIONS"]
    play(program, "serve", path)
    expect(play(program, "cat", path)[1].startswith(data), "its 30,000 synced bytes are there", "they were synced")


def mistyped_commands(program, folder):
    status, _, said = play(program, "chek", cwd=folder)
    expect(status == 1 and tells(said, "chek", "check", "pagedd serve") and os.listdir(folder) == [],
           "pagedd chek makes no file, and names check", "there is no such file or command", "a file chek")
    status, out, _ = play(program, "version", cwd=folder)
    expect(status == 0 and out.startswith(b"pagedd ") and os.listdir(folder) == [],
           "pagedd version prints the version", "it isn't a file", "a file version")
    status, _, said = play(program, "bogus", "x", cwd=folder)
    expect(status == 1 and said and os.listdir(folder) == [], "pagedd bogus x makes no file",
           "there is no such command")
    status, _, said = play(program, "log", cwd=folder)
    expect(status == 1 and tells(said, "pagedd serve") and os.listdir(folder) == [],
           "pagedd log makes no file either, and names pagedd serve", "a name that isn't there may be a mistake",
           "an empty file")
    expect(play(program, "--create", "log", cwd=folder)[0] == 0 and os.listdir(folder) == ["log"],
           "pagedd --create log makes it", "it was asked for")
    expect(play(program, "serve", "other", cwd=folder)[0] == 0 and sorted(os.listdir(folder)) == ["log", "other"],
           "pagedd serve other makes one too", "a command was named")


def names(program, folder):
    path = os.path.join(folder, "n" * 250)
    a_blob(program, path, PAYLOAD + 1000)
    flipped(path, PAGE + 10)
    before = contents(path)
    status, _, said = play(program, "serve", path)
    expect(status == 1 and tells(said, ".cut-") and contents(path) == before,
           "where the copy can't be made, nothing is cut, and the line names the copy's file", "its name is too long",
           "no copy")
    status, _, said = play(program, b"serve", os.path.join(os.fsencode(folder), b"\xff"))
    expect(status == 1 and tells(said, 2) and not any("\udcff" in name for name in os.listdir(folder)),
           "a name that isn't UTF-8 is refused by its place on the command line", "the program's names are texts",
           "a line that named no place")


def permissions(program, folder):
    path = os.path.join(folder, "kept")
    a_blob(program, path, PAYLOAD + 1000)
    flipped(path, PAGE + 10)
    before = contents(path)
    os.chmod(path, 0o666)
    os.chmod(folder, 0o555)
    try:
        user = {"user": NOBODY} if os.geteuid() == 0 else {}
        status, _, said = play(program, "serve", path, **user)
    except PermissionError:
        print("left out: the program is in a folder that another user can't read")
        return
    finally:
        os.chmod(folder, 0o755)
    expect(status == 1 and tells(said) and (".cut-" in said or folder + ":" in said) and contents(path) == before,
           "in a folder where no file may be made nothing is cut, and the line names the copy's file",
           "the system refuses the copy", "no copy")


def a_size_limit(program, folder):
    path = os.path.join(folder, "limited")
    ended = subprocess.run(["sh", "-c", 'ulimit -f 64; exec "$0" append "$1"', program, path], input=bytes(MIB),
                           capture_output=True, timeout=60, check=False)
    expect(ended.returncode == -signal.SIGXFSZ, "a file that passes ulimit -f ends the program by a signal, which a"
           " shell shows as status 153", "the system sends it")


def two_records(kind, size):
    """A request of version 2 for two records of so many bytes each."""
    fields = struct.pack("<III", 2, size, size) + bytes(2 * size)
    return struct.pack("<IB", 1 + len(fields), kind) + fields


def a_cause(program, folder):
    path = os.path.join(folder, "cause")

    def limit():
        # (without the signal a write past the limit is an error of the system, as on a full disk)
        signal.signal(signal.SIGXFSZ, signal.SIG_IGN)
        resource.setrlimit(resource.RLIMIT_FSIZE, (8 * PAGE, 8 * PAGE))

    # A batch that the buffer holds, with a sync; and one that it doesn't hold, alone.
    for kind, size, taken in ((18, 20_000, 1), (17, 40_000, 0)):
        ended = subprocess.run([program, "serve", path], input=b"\x02\x01\x02" + two_records(kind, size),
                               capture_output=True, timeout=60, check=False, preexec_fn=limit)
        hello = 14 + 4 + struct.unpack_from("<I", ended.stdout, 14)[0]
        length, status, advice, steps, number = struct.unpack_from("<IBBQQ", ended.stdout, hello)
        words = ended.stdout[hello + 22:hello + 4 + length].decode()
        expect((status, advice, steps, number) == (2, 2, taken, errno.EFBIG) and "File too large" in words,
               f"a batch that the file has no room for is refused with the system's number and words, after {taken}"
               " steps", "the write failed, and the client is to open the file anew")
        expect(ended.returncode == 1 and ended.stderr.count(b"\n") == 1, "and the program ends with status 1, and a line",
               "the writer is gone")


def appending(program, folder):
    path = os.path.join(folder, "lines")
    status, out, _ = play(program, "append", path, given=b"hello world\n")
    expect((status, out) == (0, b"appended 0 to 12\n"), "append says from where to where the bytes stand",
           "they are durable then")
    expect(play(program, "append", path, given=b"more\n")[1] == b"appended 12 to 17\n"
           and play(program, "cat", path)[:2] == (0, b"hello world\nmore\n"), "a second one goes on there",
           "it opens the file as serve does")
    process = subprocess.Popen([program, "append", "--each-line", path], stdin=subprocess.PIPE,
                               stdout=subprocess.DEVNULL)
    process.stdin.write(b"whole line\nand a half")
    process.stdin.flush()
    wanted, deadline = b"hello world\nmore\nwhole line\n", time.time() + 20
    while not reader.read(contents(path), PAYLOAD, reader.crc32c)[1].startswith(wanted) and time.time() < deadline:
        time.sleep(0.05)
    process.kill()
    process.wait()
    expect(reader.read(contents(path), PAYLOAD, reader.crc32c)[1].startswith(wanted),
           "with --each-line a line is durable before the next has come", "it is synced at its end")
    play(program, "serve", path)
    unreadable = os.open(folder, os.O_RDONLY)
    ended = subprocess.run([program, "append", path], stdin=unreadable, capture_output=True, timeout=60, check=False)
    os.close(unreadable)
    expect(ended.returncode == 1 and ended.stderr.count(b"\n") == 1, "an input that fails has status 1, and a line",
           "not all of it came")


def held(path):
    """The content of a file that may not be there yet."""
    return reader.read(contents(path), PAYLOAD, reader.crc32c)[1] if os.path.exists(path) else b""


def signals(program, folder):
    for number in (signal.SIGINT, signal.SIGTERM):
        path = os.path.join(folder, f"ended-{number}")
        with subprocess.Popen([program, "append", path], stdin=subprocess.PIPE, stdout=subprocess.DEVNULL) as process:
            for line in (b"first\n", b"second\n"):
                process.stdin.write(line)
                process.stdin.flush()
                deadline = time.time() + 20
                while not held(path).endswith(line) and time.time() < deadline:
                    time.sleep(0.01)
            process.send_signal(number)
            process.wait()
            process.stdin.close()
        expect(process.returncode == -number and play(program, "cat", path)[1] == b"first\nsecond\n",
               f"append that waits for more keeps what came at signal {int(number)}", "it syncs before it waits",
               "nothing of it")


def a_copy(program, folder):
    made = log_statuses.Made(program, os.path.join(folder, "log"))
    log, out = made.folder, os.path.join(folder, "out")
    for what in ("a log is copied", "it is copied again"):
        status, _, said = play(program, "copy", log, out)
        expect((status, said) == (0, "") and log_statuses.given(made, program, out) == (0, "all")
               and play(program, "check", out)[0] == 0, what, "its segments are whole")
    first = os.path.join(out, log_statuses.segment(3))
    put(first, b"")
    expect(play(program, "copy", log, out)[0] == 0 and contents(first) == made.data(log_statuses.segment(3)),
           "a segment that the copy lacks is copied anew", "it hasn't the listed digest")
    flipped(os.path.join(log, made.closed), 100)
    before = log_statuses.image(out)
    shutil.rmtree(os.path.join(folder, "new"), ignore_errors=True)
    expect(play(program, "copy", log, os.path.join(folder, "new"))[0] == 3, "a log with a damaged segment isn't copied",
           "the copy wouldn't be whole")
    expect(play(program, "copy", log, out)[0] == 0 and log_statuses.image(out) == before,
           "a copy that has that segment stays whole", "it has the listed digest")


def a_salvage(program, folder):
    made = log_statuses.Made(program, os.path.join(folder, "log"))
    log = made.folder
    path = os.path.join(log, made.closed)
    flipped(path, 100)
    status, out, said = play(program, "salvage", "--json", log, os.path.join(folder, "out"))
    told = json.loads(out)
    number, held_there = int(made.closed[:20]), len(log_statuses.record(log_statuses.MANY))
    (gap,), (part,) = told["gaps"], [it for it in told["segments"] if it["segment"] == number]
    expect(status == 3 and (gap["segment"], gap["offset"], gap["bytes"]) == (number, 0, held_there + 7)
           and (told["records"], told["missing_bytes"], told["whole"]) == (len(made.records) - 1, gap["bytes"], False)
           and (part["state"], part["records"]) == ("damaged", 49) and told["listed_by"] in ("manifest", "manifest.copy"),
           "salvage --json tells the one record that a flipped bit costs, and where it stood", "its checksum fails")
    expect(all(word in said for word in (f"segment {number}: {gap['bytes']} bytes at offset 0", "it had 50 records")),
           "so do its lines", "they are for a reader")
    flipped(path, 100)
    first = contents(os.path.join(log, log_statuses.segment(0)))
    served = ServedLog(program, log)
    served.drop_before(1)
    served.close()
    put(os.path.join(log, log_statuses.segment(0)), first)
    for options, count in ((["--dropped"], len(made.records)), ([], len(made.records) - 1)):
        out = os.path.join(folder, f"dropped{count}")
        status, told, _ = play(program, "salvage", "--json", *options, log, out)
        found = play(program, "cat", out)[1].split(b"\n")[:-1]
        expect(status == 0 and json.loads(told)["segments"][0]["state"] == "dropped"
               and found == made.records[len(made.records) - count:],
               "a dropped segment's record is salvaged with --dropped" if options else "without it it isn't",
               "the file was left")


def for_programs(program, folder):
    path = os.path.join(folder, 'a "name"')
    a_torn_blob(program, path)
    put(path, contents(path) + bytes(PAGE) + b"\x55" * 10)
    found = survey.survey(contents(path))
    told = json.loads(play(program, "check", "--json", path)[1])
    wanted = {"file": path, "bytes": len(contents(path)), "page_size": PAYLOAD, "checksum": "crc32c", "pages": 3,
              "kept_pages": found.pages, "kept_bytes": found.len, "cut_bytes": found.cut, "beyond": found.beyond,
              "blank": found.blank, "torn": found.torn, "tail_bytes": 10, "set_aside_bytes": survey.set_aside(found),
              "verdict": survey.verdict(found), "bad_pages": [2], "bad_slots": [1], "fits": []}
    expect(all(told[name] == value for name, value in wanted.items()), "check --json says what the survey of this"
           " folder's survey.py says", "both go by one rule")
    drawn = json.loads(play(program, "map", "--json", path)[1])
    expect(drawn["marks"].rstrip("<") == "#~." and drawn["tail_bytes"] == 10,
           "map --json has the marks of a full page, one with a bad slot and an empty one", "the file has these")


def the_table(program, _):
    with open(PAGEDD_PAGE, encoding="utf-8") as file:
        page = file.read()
    played = table(program)
    missing = [line for line in played.splitlines() if line not in page.splitlines()]
    for line in missing:
        print("not in PAGEDD.md: " + line)
    expect(played in page, "each command on each kind of file ends as the table of PAGEDD.md says", "it was played")


def the_log_table(program, _):
    with open(log_statuses.PAGE_OF_TABLE, encoding="utf-8") as file:
        page = file.read()
    played = log_statuses.table(program)
    for line in played.splitlines():
        if line not in page.splitlines():
            print("not in PAGEDD.md: " + line)
    expect(played in page, "each command on each kind of damaged log ends as the table of PAGEDD.md says",
           "it was played")


FAULTS = (a_good_blob, a_wrong_file, a_flipped_bit, a_last_page, a_torn_page, salvage_of_copies, outputs,
          another_page_size, reading_alone, an_empty_file, a_torn_tail, a_part_of_a_request, a_lost_writer,
          mistyped_commands, names, permissions, a_size_limit, a_cause, appending, signals, for_programs, a_salvage, a_copy,
          the_table, the_log_table)


def main():
    parser = usage.parser(__doc__)
    parser.add_argument("PAGEDD", type=usage.program)
    parser.add_argument("--table", action="store_true", help="print the table of files of PAGEDD.md, and end")
    parser.add_argument("--log-table", action="store_true", help="print the table of logs of PAGEDD.md, and end")
    given = parser.parse_args()
    if given.log_table:
        sys.stdout.write(log_statuses.table(given.PAGEDD))
        return
    if given.table:
        sys.stdout.write(table(given.PAGEDD))
        return
    for fault in FAULTS:
        with tempfile.TemporaryDirectory() as folder:
            fault(given.PAGEDD, folder)


if __name__ == "__main__":
    main()
