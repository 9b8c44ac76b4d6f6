#!/usr/bin/env python3
"""Plays the cases of `conformance` with each of its requests for memory refused in turn.

    cd crates/conformance && rt run < stdin > /dev/null      (proves and builds it, as out/conformance)
    python3 examples/refuse.py crates/conformance/out/conformance [CASE FILE]

Each case is played once more for each request of its lines, and that request is refused; of a case with
a `try` line it is each request of its tried lines. The first reply that is another than told has to be
`fault E8 OutOfMemory`. Of a session the line is then played once more: unless it took the writer, it and
all lines after it have to answer as told. After the tried lines of a `try each` what follows them has to
hold. The program asks for that by requests that no machine grants; refuse.c, which is compiled here,
stands in front of the C library's heap and answers them. It also answers whether a server asked for more
memory at once than any case needs, which shows under this heap alone. The program's own cases, those with
`start cases`, are left out: their output says how many runs there are.
"""
import os, re, subprocess, sys, tempfile, time

import usage

HERE = os.path.dirname(os.path.abspath(__file__))

def main(program, cases):
    with tempfile.TemporaryDirectory() as room:
        heap = f"{room}/refuse.so"
        cc = os.environ.get("CC", "cc")
        subprocess.run([cc, "-O2", "-shared", "-fPIC", "-o", heap, f"{HERE}/refuse.c", "-ldl"], check=True)
        plain = play(program, cases, {})
        refusing = play(program, cases, {"LD_PRELOAD": heap})
    print(f"plain: {plain[1]} ({plain[2]:.1f} s)\nrefusing: {refusing[1]} ({refusing[2]:.1f} s)")
    for line in [it for it in refusing[0] if not it.startswith("ok ")][:60]:
        print(line)
    return plain[3] or refusing[3]

def play(program, cases, env):
    start = time.time()
    with open(cases, encoding="utf-8") as text:
        parts = re.split(r"^(?=case )", text.read(), flags=re.M)
    given = "".join(part for part in parts if "\nstart cases\n" not in part)
    ran = subprocess.run([program], input=given.encode(), stdout=subprocess.PIPE, env=env)
    lines = ran.stdout.decode().splitlines()
    return lines, lines[-1] if lines else "nothing", time.time() - start, ran.returncode

def words():
    parser = usage.parser(__doc__)
    parser.add_argument("CONFORMANCE", type=usage.program)
    parser.add_argument("CASES", nargs="?", default=f"{HERE}/../crates/conformance/stdin", help="a file of cases")
    given = parser.parse_args()
    if not os.path.isfile(given.CASES):
        parser.error(f"{given.CASES} is no file")
    return given.CONFORMANCE, given.CASES

if __name__ == "__main__":
    sys.exit(main(*words()))
