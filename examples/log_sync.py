"""Lets each sync of a log fail, and starts the log again: python3 log_sync.py PAGEDD

A client appends, syncs, rotates and drops over small segments, under strace, which lets one sync fail with EIO: of a
segment, of its list, of the manifest, of its copy, or of the folder; each one once, and each one with all that come after it. The
refusal, or the line of a program that doesn't begin, is to say that files are to be replaced. Then `pagedd rewrite`
replaces them, and each record whose commit was answered is to be read. strace is to be installed.
"""
import os
import shutil
import subprocess
import sys
import tempfile

import usage
from served import Error, Next, ProgramLost, Refusal, ServedLog

OPTIONS = ("--page-size", "100", "--segment-size", "150")


class Failing(ServedLog):
    """A log whose program runs under strace, by which the sync of this number fails, or that and all later ones."""

    def __init__(self, program, folder, trace, when):
        self.trace, self.when = trace, when
        super().__init__(program, folder, *OPTIONS)

    def start_process(self, command):
        return super().start_process(["strace", "-f", "-y", "-o", self.trace, "-e", "trace=fsync", "-e",
                                      f"inject=fsync:error=EIO:when={self.when}", *command])


def play(program, folder, trace, when, kept):
    """Plays the session, up to its first refusal; what was committed goes to `kept`. Answers that refusal, if there is
    one, and what the program said."""
    try:
        log = Failing(program, folder, trace, when)
    except Error as error:
        # (a greeting says no more than a status: what to do next stands in the program's words)
        return None, error.words
    refusal = None
    try:
        for at in range(9):
            new = [b"record %d.%d" % (at, one) * 3 for one in range(2)]
            log.append_many(new, sync=True)
            kept += new
            if at in (4, 7):
                log.drop_before(at // 3)
    except Refusal as error:
        refusal = error
    except ProgramLost:
        pass
    log.close()
    return refusal, log.said.strip()


def failed_in(trace):
    """What the sync that failed was of: a file's name, or the folder. The folder's sync right after that of a list is
    of the list's name."""
    before = ""
    with open(trace, encoding="utf-8") as lines:
        for line in lines:
            if "fsync(" in line:
                what = os.path.basename(line[line.index("<") + 1:line.index(">")])
                if "EIO" in line:
                    return before if before.endswith(".digests") and "." not in what else what
                before = what
    return None


def read_again(program, folder, kept):
    """Replaces the files, opens the log, and compares."""
    if os.listdir(folder):
        subprocess.run([program, "rewrite", folder], check=True, stdout=subprocess.DEVNULL)
    log = ServedLog(program, folder, *OPTIONS)
    found = [data for _, data in log]
    log.append_many([b"one more"], sync=True)
    log.close()
    status = log.exit_status
    # Records that weren't answered may be there, after those that were.
    first = next((at for at, data in enumerate(kept) if found and data == found[0]), len(kept))
    if status or kept[first:] != found[:len(kept) - first]:
        sys.exit(f"log_sync: of {len(kept)} records {len(found)} came back, status {status}")
    return first


def is_told(refusal, told, what):
    """Whether the client was told to replace the files, or the line says so. A list may fail: the log is to be opened
    anew, and reads compute a list that isn't whole. The manifest's copy may fail: the next entry writes it anew, and a
    line at an opening says so."""
    if refusal and refusal.next is Next.REPLACE or "pagedd rewrite" in told or "rename it and back" in told:
        return True
    if what.endswith(".digests") and refusal and refusal.next is Next.OPEN_ANEW:
        return True
    return what == "manifest.copy" or "manifest.copy:" in told


def fail(program, room, sync, for_good):
    """Lets one sync fail; answers what it was of, or None where there is no such sync."""
    folder, trace = os.path.join(room, "log"), os.path.join(room, "trace")
    shutil.rmtree(folder, ignore_errors=True)
    os.mkdir(folder)
    kept = []
    refusal, told = play(program, folder, trace, f"{sync}+" if for_good else str(sync), kept)
    what = failed_in(trace)
    if what is None:
        return None
    if not is_told(refusal, told, what):
        sys.exit(f"log_sync: a failed sync of {what} isn't told: {refusal}; {told}")
    read_again(program, folder, kept)
    return what


def main():
    made = usage.parser(__doc__)
    made.add_argument("PAGEDD", type=usage.program)
    program = made.parse_args().PAGEDD
    if shutil.which("strace") is None:
        sys.exit("log_sync: there is no strace: install it")
    count = 0
    with tempfile.TemporaryDirectory() as room:
        for for_good in (False, True):
            sync = 1
            while fail(program, room, sync, for_good):
                sync += 1
            count += sync - 1
    print(f"{count} syncs failed")


if __name__ == "__main__":
    main()
