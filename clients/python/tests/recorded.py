"""Stands in for `pagedd`: plays a recording, the file that its last word names.

A line `> HEX` is written, `< HEX` is what must come, `! WORDS` goes to standard error, `wait SECONDS` waits, `exit N` and
`signal N` end it. At the end of the recording its input must have ended. If something else comes it ends with status 99.
"""
import os
import sys
import time


def fail(why):
    sys.stderr.write(f"the recording: {why}\n")
    sys.exit(99)


def main():
    with open(sys.argv[-1], encoding="utf-8") as file:
        lines = file.read().splitlines()
    for line in lines:
        word, _, rest = line.partition(" ")
        if word == ">":
            sys.stdout.buffer.write(bytes.fromhex(rest))
            sys.stdout.buffer.flush()
        elif word == "<":
            wanted = bytes.fromhex(rest)
            found = sys.stdin.buffer.read(len(wanted))
            if found != wanted:
                fail(f"{wanted.hex()} should come, and it is {found.hex()}")
        elif word == "!":
            sys.stderr.write(rest + "\n")
            sys.stderr.flush()
        elif word == "wait":
            time.sleep(float(rest))
        elif word == "exit":
            sys.exit(int(rest))
        elif word == "signal":
            os.kill(os.getpid(), int(rest))
    found = sys.stdin.buffer.read()
    if found:
        fail(f"nothing more should come, and it is {found.hex()}")


main()
