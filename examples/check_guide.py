"""Compares pages with the code: python3 examples/check_guide.py, at the top of the repository.

README.md and docs/GUIDE.md: each block of code that follows a line `In FILE:` must stand in that file, word for word,
at whatever indentation. README.md and docs/CONTRACTS.md: each clause must stand in a file of crates/*/src, except for
the short names that docs/CONTRACTS.md introduces at its beginning. And each clause of each public call of the crates in
WHOLE must stand in docs/CONTRACTS.md, under a head that names the call: so a clause that calls share may stand once,
under a head that names them all. A head is a heading, or the bold words that begin a paragraph. The crate of its calls
is the first that its chapter names as "the crate `NAME`", or `paged`. A clause under a head that names such calls, or
before a comment that does, must be one of theirs. the READMEs of `paged` and `items`: each error that
a row of a table of calls lists must stand in the clauses of each call of the row, or in a definition of specs/ that these reach. Only
definitions that take an error, or an answer that may be one, are followed. So it is text that is compared: a clause
speaks of this error. Whether the call answers it, and no other, the page has to be read for. "the same" means the row
above, an error that is "never of" a call isn't looked for there, and "those of" a call isn't followed. docs/GUIDE.md:
each line of crates.txt that it quotes must stand there, except that of the crate `mine`. docs/DEFINITIONS.md: each word
must stand in a file of crates/. In every page each link, and each path below crates/, docs/ or examples/, must be
there. docs/INDEX.md must be what examples/public_items.py writes. docs/DECISIONS.md: each edit that it lists as one that stays must have a file in the
crate's must-fail/. It prints what isn't so, and ends with status 1 then.
"""
import collections
import functools
import glob
import os
import re
import sys
import textwrap

import public_items

ROOT = os.path.join(os.path.dirname(os.path.abspath(__file__)), "..")

# What the page of contracts writes shorter than the source does.
SHORT = [
    ("let old = B.life blob.old in", ""),
    ("let new = B.life blob.new in", ""),
    ("(B.life blob.old)", "old"),
    ("(B.life blob.new)", "new"),
    ("B.life blob.old", "old"),
    ("B.life blob.new", "new"),
    ("H.sum_of", "sum"),
    ("self.now.page_size", "P"),
    ("self.page_size", "P"),
    ("cache.old.page_size", "P"),
    ("(non_zero_usize_get buffer_size)", "buffer_size"),
    ("let P = non_zero_u16_get page_size in", ""),
    ("let w = self.now in let P = w.page_size in", "let w = self.now in"),
    ("(non_zero_u16_get page_size)", "P"),
    ("let old = life_of blob.old in", ""),
    ("let new = life_of blob.new in", ""),
    ("(life_of blob.old)", "old"),
    ("(life_of blob.new)", "new"),
    ("let t = tail_of self.now in", ""),
    ("(ranges_of (non_zero_usize_get len) offsets.now)", "ranges"),
    ("let ranges = ranges_of (non_zero_usize_get len) offsets.now in", ""),
    ("let s = non_zero_usize_get size in", ""),
    ("let range : ℕ × ℕ = (i * self.now.size, self.now.size) in", ""),
    ("let input_old = reader_remaining R.remaining input.old in", ""),
    ("let input_new = reader_remaining R.remaining input.new in", ""),
    ("let out_old = writer_contents W.contents out.old in", ""),
    ("let out_new = writer_contents W.contents out.new in", ""),
]

# The crates whose public calls the page of contracts has with all their clauses.
WHOLE = ["paged", "session", "journal", "store", "items"]

# The tables of calls with their errors: page, heading, and the crates in which a call is looked for, the first that has
# one of this name.
TABLES = [
    ("crates/paged/README.md", "The calls", ["paged", "paged_read"]),
    ("crates/items/README.md", "Items", ["items"]),
]


def read(path):
    with open(os.path.join(ROOT, path), encoding="utf-8") as file:
        return file.read()


def lines_of(text):
    """A text's lines, without what they have in common in front."""
    return textwrap.dedent(text).strip("\n").split("\n")


def stands_in(snippet, source):
    """Whether some lines stand in a source, one after the other, all moved by the same indentation."""
    want, have = lines_of(snippet), source.split("\n")
    for start in range(len(have) - len(want) + 1):
        if lines_of("\n".join(have[start:start + len(want)])) == want:
            return True
    return False


def snippets(page):
    """The blocks of Rust and of definitions of a page, each with the file that is named above it, if one is."""
    return re.findall(r"(?:^In `(\S+)`:\n\n)?^```(?:rust|antt)\n(.*?)^```$", page, re.M | re.S)


def short(clause):
    clause = re.sub(r"\s+", " ", re.sub(r"//[^\n]*", "", clause))
    for long_form, short_form in SHORT:
        clause = re.sub(r"\s+", " ", clause.replace(long_form, short_form))
    return clause.strip()


def clauses_and_comments(text):
    """The clauses of a text, with their kind and name, up to the brace that ends each, and the comment after it."""
    found = []
    for match in re.finditer(r"\b(requires|ensures)( \w+)? \{", text):
        end, depth = match.end(), 1
        while depth:
            depth += {"{": 1, "}": -1}.get(text[end], 0)
            end += 1
        found.append((short(text[match.start():end]), re.match(r"(?: *//([^\n]*))?", text[end:])[1] or ""))
    return found


def clauses(text):
    return [clause for clause, _ in clauses_and_comments(text)]


def sources(pattern):
    """The files of the crates that fit a pattern, without what was built."""
    found = glob.glob(os.path.join(ROOT, "crates", pattern), recursive=True)
    return [path for path in found if "/out/" not in path]


def wrong_code(pages):
    """The blocks of code that don't stand in the file that is named above them, and how many blocks there are."""
    named = [(name, snippet) for page in pages for name, snippet in snippets(read(page)) if name]
    wrong = [f"not in {name}:\n{snippet}" for name, snippet in named if not stands_in(snippet, read(name))]
    return wrong, len(named)


def wrong_clauses(pages):
    """The clauses that stand in no source, and how many clauses there are."""
    source = set()
    for path in sources("*/src/**/*.rt"):
        source.update(clauses(read(path)))
    quoted = clauses("".join(re.findall(r"^    .*\n", "".join(map(read, pages)), re.M)))
    return [f"in no source: {clause}" for clause in quoted if clause not in source], len(quoted)


def imports(text):
    """What the words of a file mean that it takes from specs/: the file that defines each, and its name there."""
    found = {}
    for crate, file, words in re.findall(r"use Rattle\.(\w+)\.specs\.(\w+)\.\{([^}]*)\}", text):
        for word in words.split(","):
            name, _, other = word.strip().partition(" as ")
            found[other or name] = (f"crates/{crate}/specs/{file}.antt", name)
    return found


@functools.cache
def public_calls(crate):
    """The public calls of a crate: the type or the crate, the name, the clauses, and what the words of these mean."""
    library = read(f"crates/{crate}/src/lib.rt")
    exported = set(re.findall(r"\w+", " ".join(re.findall(r"^pub use [^;]*;", library, re.M))))
    calls = []
    for path in sources(f"{crate}/src/**/*.rt"):
        for part in re.split(r"^(?=impl\b|pub fn )", read(path), flags=re.M)[1:]:
            owner = re.match(r"impl(?:<[^>]*>)? (\w+)|pub fn (\w+)", part)
            if owner and (owner[1] or owner[2]) in exported:
                for call in re.finditer(r"^ *pub fn (\w+).*?^ *\{$", part, re.M | re.S):
                    calls.append((owner[1] or crate, call[1], clauses(call[0]), imports(read(path))))
    return calls


def calls_in(text):
    """The calls that a text names: each with the type or the crate in front, if there is one."""
    return re.findall(r"\b(?:(\w+)::)?(\w+)", text)


def quoted_by_head(page):
    """What a page quotes under each head: its crate, the calls that it names, and its clauses with their comments."""
    found = []
    for chapter in re.split(r"^(?=## )", read(page), flags=re.M):
        crate = re.search(r"the\s+crate\s+`(\w+)`", chapter)
        for part in re.split(r"^(?=#|\*\*)", chapter, flags=re.M):
            head = re.match(r"#+ .*|\*\*.*?\*\*", part, re.S)
            calls = [call for named in re.findall(r"`([\w:]+)", head[0]) for call in calls_in(named)] if head else []
            code = "".join(re.findall(r"^    .*\n", part, re.M))
            found.append((crate[1] if crate else "paged", calls, clauses_and_comments(code)))
    return found


def named_by(calls, crate, names):
    """The calls of a crate, out of some, that are named: alone, or with the type or the crate in front."""
    return [call for its, call in calls if its == crate
            and any(name == call[1] and owner in ("", call[0]) for owner, name in names)]


def wrong_heads(page):
    """The clauses of public calls that stand under no head of a page that names the call, those that stand under the
    head or before the comment of calls that don't have them, and how many calls there are. `paged` gives out calls of
    `paged_read`."""
    calls = [(crate, call) for crate in WHOLE for call in public_calls(crate)]
    given_out = [("paged", call) for call in public_calls("paged_read")]
    wrong, there = [], collections.defaultdict(set)
    for crate, names, quoted in quoted_by_head(page):
        for call in named_by(calls, crate, names):
            there[crate, call[0], call[1]].update(clause for clause, _ in quoted)
        for clause, comment in quoted:
            for named in (names, calls_in(comment)):
                theirs = named_by(calls + given_out, crate, named)
                if theirs and not any(clause in call[2] for call in theirs):
                    wrong.append(f"{page}: not a clause of {', '.join(call[1] for call in theirs)}: {clause}")
    wrong += [f"not under {owner}::{name} in {page}: {clause}" for crate, (owner, name, found, _) in calls
              for clause in found if clause not in there[crate, owner, name]]
    return wrong, len(calls)


@functools.cache
def definitions(path):
    """The definitions of a file of specs/, and what its words mean. A file of the kit has none here."""
    if not os.path.exists(os.path.join(ROOT, path)):
        return {}, {}
    text = re.sub(r"--[^\n]*", "", read(path))
    found = {}
    for part in re.split(r"^(?=(?:abbrev|unfoldable|pub) )", text, flags=re.M)[1:]:
        name = re.match(r"(?:(?:abbrev|unfoldable|pub|record|data) )+(\w+)", part)
        if name:
            found[name[1]] = part
    return found, imports(text) | {name: (path, name) for name in found}


def takes_an_error(definition):
    """Whether a definition takes an error, or an answer that may be one. `HasFailed` isn't followed: it takes the error
    that a device call failed with, and its own words are all of them."""
    head = re.split(r"\n(?=\w)|\bwhere\b", definition)[0]
    return re.search(r"\b(Error|Refusal)\b", head) and not re.match(r"abbrev pub HasFailed\b", head)


def reached(text, words):
    """A text, and the definitions that it reaches through those that take an error."""
    texts, seen = [(text, words)], set()
    for text, words in texts:
        for path, name in {words[word] for word in re.findall(r"\w+", text) if word in words} - seen:
            seen.add((path, name))
            found, meanings = definitions(path)
            if name in found and takes_an_error(found[name]):
                texts.append((found[name], meanings))
    return " ".join(text for text, _ in texts)


def table_rows(page, heading):
    """The rows of a section's tables of errors: the calls that each names, and what stands in its column of errors."""
    section = re.search(rf"^## {heading}\n(.*?)(?=^## |\Z)", read(page), re.M | re.S)[1]
    for table in re.findall(r"(?:^\|.*\n)+", section, re.M):
        head, _, *rows = [[cell.strip() for cell in line.split("|")[1:-1]] for line in table.splitlines()]
        if "Errors" in head:
            yield from ((re.findall(r"`([\w:]+)`", row[0]), row[head.index("Errors")]) for row in rows)


def listed_errors(rows):
    """Each call of some rows, with the errors that its row lists."""
    known = re.findall(r"^    (\w+),$", read("crates/disk/src/error.rt"), re.M)
    for calls, cell in rows:
        if not cell.startswith("the same"):
            listed = [error for error in re.findall(r"`(\w+)`", cell) if error in known]
            never = re.findall(r"`(\w+)` \(never of `(\w+)`\)", cell)
        yield from ((call, [error for error in listed if (error, call) not in never]) for call in calls)


def named_calls(name, crates):
    """The public calls of this name, in the first of some crates that has one."""
    owner, _, name = name.rpartition("::")
    found = ([call for call in public_calls(crate) if call[1] == name and owner in ("", call[0])] for crate in crates)
    return next(filter(None, found), [])


def wrong_errors():
    """The errors of tables of calls that stand in no clause of their calls, and how many errors the tables list."""
    wrong, count = [], 0
    for page, heading, crates in TABLES:
        for name, errors in listed_errors(table_rows(page, heading)):
            calls = named_calls(name, crates)
            wrong += [] if calls else [f"{page}: no such call: {name}"]
            for owner, call, its, words in calls if errors else []:
                there = set(re.findall(r"\w+", reached(" ".join(its), words)))
                wrong += [f"{page}: in no clause of {owner}::{call}: {error}" for error in errors if error not in there]
            count += len(errors)
    return wrong, count


def wrong_crates(page):
    """The lines of crates.txt that a page quotes and that don't stand there, and how many it quotes."""
    quoted = re.findall(r"^    (?!mine:)([a-z_0-9]+:(?: [a-z_0-9]+)+)$", read(page), re.M)
    listed = read("crates.txt").split("\n")
    return [f"not in crates.txt: {line}" for line in quoted if line not in listed], len(quoted)


def wrong_words(page):
    """The words of a page that stand in no file of the crates, and how many words there are."""
    there = set()
    for path in sources("**/*.antt") + sources("**/*.rt"):
        there.update([os.path.basename(path)], re.findall(r"[A-Za-z_]\w*", read(path)))
    words = set(re.findall(r"`([A-Za-z_]\w*(?:\.antt)?)`", read(page)))
    return [f"{page}: in no file of crates: {word}" for word in sorted(words - there)], len(words)


def wrong_places(pages):
    """The links and paths of some pages that lead nowhere, and how many there are."""
    places = []
    for page in pages:
        text = re.sub(r"crates/mine\b", "", read(page))
        places += [(page, path) for path in re.findall(r"(?:crates|docs|examples)/[\w/.-]*\w", text)]
        links = re.findall(r"\]\(([^)#:]+)(?:#[^)]*)?\)", text)
        places += [(page, os.path.join(os.path.dirname(page), link)) for link in links]
    places = [(page, path) for page, path in places if "/out/" not in path + "/"]
    wrong = [f"{page}: not there: {path}" for page, path in places if not os.path.exists(os.path.join(ROOT, path))]
    return wrong, len(places)


def wrong_index():
    """The lines by which the page of public items isn't what the sources say, and how many items there are."""
    there, said = read(public_items.PAGE).split("\n"), public_items.page().split("\n")
    wrong = [f"not in {public_items.PAGE}: {line}" for line in said if line not in there]
    wrong += [f"in no source: {line}" for line in there if line not in said]
    if there != said and not wrong:
        wrong = [f"{public_items.PAGE}: its lines stand in another order"]
    return wrong, sum(line.startswith("| `") for line in said)


def wrong_edits(page):
    """The edits that a page says stay, and that have no file, and how many there are."""
    table = read(page).partition("\n## Wrong bodies that stay edits\n")[2].partition("\n## ")[0]
    rows = re.findall(r"^\| `(\w+)` \| ([^|]+) \|", table, re.M)
    edits = [f"crates/{crate}/must-fail/{name}.edit" for crate, names in rows for name in re.findall(r"`(\w+)`", names)]
    wrong = [f"{page}: not there: {edit}" for edit in edits if not os.path.exists(os.path.join(ROOT, edit))]
    return wrong, len(edits)


def main():
    pages = ["README.md"] + sorted(f"docs/{name}" for name in os.listdir(os.path.join(ROOT, "docs"))
                                   if name.endswith(".md"))
    pages += sorted(os.path.relpath(path, ROOT) for path in sources("*/README.md"))
    found = {
        "snippets": wrong_code(["README.md", "docs/GUIDE.md"]),
        "clauses": wrong_clauses(["README.md", "docs/CONTRACTS.md"]),
        "public calls": wrong_heads("docs/CONTRACTS.md"),
        "errors of calls": wrong_errors(),
        "crates": wrong_crates("docs/GUIDE.md"),
        "words": wrong_words("docs/DEFINITIONS.md"),
        "links and paths": wrong_places(pages),
        "lines of the index": wrong_index(),
        "edits that stay": wrong_edits("docs/DECISIONS.md"),
    }
    wrong = [line for lines, _ in found.values() for line in lines]
    for line in wrong:
        print(line)
    print(", ".join(f"{count} {name}" for name, (_, count) in found.items()) + f"; {len(wrong)} of them wrong")
    sys.exit(1 if wrong else 0)


main()
