#!/usr/bin/env python3
"""Lists where the prover's time goes in a crate: python3 examples/dear.py CRATE [COUNT], at the top of the repository.

CRATE is the name of a crate that was just proved from nothing, one function after another:

    cd crates/CRATE && rm -rf out && rt check --jobs 1

The check keeps a file for each part of each proof in the crate's folder out/incremental. The time between two files is
counted for the later one. The script prints the sums by part, and the COUNT dearest functions (20 unless you give
another), each with its seconds and its dearest parts:

- `steps`: what the code does, step by step. Many exits at which much is owned make it dear, and constants, which are
  written out wherever they are named. Split the function, lend what it owns, or keep it in a box.
- `goals`: what was searched. If this is dear, most often one goal was first searched in vain by the facts at hand, and
  then found by `grind`. Answer that goal in proofs/../Answers.antt, by `grind (arith, common_steps)` or by the lemma
  of the function's `using`; `rt check --start FUNCTION --allow-holes` prints the goals.
- `answers`: what the proof file has.
- `lemmas`: a file of lemmas, which stands with its own name.

Nothing else should run meanwhile.
"""
import collections
import os
import re
import sys

# What the parts of a function's proof are called below out/incremental.
PARTS = {"Lts": "steps", "Proof": "goals", "Answers": "answers", "Invariants": "answers"}
OTHERS = "Carried|Code|Given|Goals|Kinds|Layout|Met|Named|Reads|Statement|Symbol|TheLink|Tie"
PART = re.compile(rf"^({'|'.join(PARTS)}|{OTHERS})(-.*)?$")


def kept(folder):
    """The files of the last check, oldest first, as times and names."""
    files = []
    for path, _, names in os.walk(folder):
        for name in names:
            if name.endswith(".oantt"):
                files.append((os.path.getmtime(os.path.join(path, name)), name[: -len(".oantt")]))
    return sorted(files)


def parts_of(crate, name):
    """The function that a file is of, or its file of lemmas, and the part."""
    name = re.sub(r"\.decls$", "", name)
    if not name.startswith(f"Rattle-{crate}-proofs."):
        return None, "libraries and definitions"
    words = name[len(f"Rattle-{crate}-proofs."):].split(".")
    for at, word in enumerate(words):
        match = PART.match(word)
        if match and at:
            return ".".join(words[:at]), PARTS.get(match[1], "frame")
    return ".".join(words), "lemmas"


def main():
    if len(sys.argv) not in (2, 3):
        sys.exit(__doc__)
    crate = sys.argv[1]
    count = int(sys.argv[2]) if len(sys.argv) == 3 else 20
    folder = os.path.join(os.path.dirname(os.path.abspath(__file__)), "..", "crates", crate, "out", "incremental")
    files = kept(folder)
    if not files:
        sys.exit(f"{crate}: no check has left its parts in crates/{crate}/out/incremental")
    parts, functions = collections.Counter(), collections.defaultdict(collections.Counter)
    for (before, _), (after, name) in zip(files, files[1:]):
        function, part = parts_of(crate, name)
        parts[part] += after - before
        if function:
            functions[function][part] += after - before
    print(f"{crate}: {files[-1][0] - files[0][0]:.0f} s: " + ", ".join(f"{p} {s:.0f}" for p, s in parts.most_common()))
    dearest = sorted(functions.items(), key=lambda item: -sum(item[1].values()))
    for function, of in dearest[:count]:
        each = ", ".join(f"{part} {seconds:.1f}" for part, seconds in of.most_common(3))
        print(f"{sum(of.values()):7.1f}  {function}: {each}")


if __name__ == "__main__":
    main()
