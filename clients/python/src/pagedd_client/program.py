"""Where `pagedd` is, and with which words it is started."""
from __future__ import annotations

import os
import shutil
from typing import List, Optional, Union

from .errors import ProgramNotFound

Path = Union[str, "os.PathLike[str]"]

#: The variable that may name the program.
VARIABLE = "PAGEDD"


def find_program(program: Optional[Path] = None) -> str:
    """The path of `pagedd`: what the argument names, or the variable PAGEDD, or what is found on the path.

    A name without a slash is looked for on the path. If the argument or the variable names nothing that can be run,
    nothing else is tried.

    >>> find_program("/not/there/pagedd")
    Traceback (most recent call last):
    ...
    pagedd_client.errors.ProgramNotFound: the argument `program` names /not/there/pagedd, and no program is there; next: \
name it by the argument `program`, by the variable PAGEDD, or put it on the path
    """
    if program is not None:
        return _runnable("the argument `program`", os.fsdecode(program))
    named = os.environ.get(VARIABLE)
    if named:
        return _runnable(f"the variable {VARIABLE}", named)
    found = shutil.which("pagedd")
    if found is None:
        raise ProgramNotFound(f"no argument names pagedd, the variable {VARIABLE} isn't set, and it isn't on the path")
    return found


def _runnable(source: str, name: str) -> str:
    found = shutil.which(name)
    if found is None:
        where = "no program is there" if os.path.dirname(name) else "it isn't on the path"
        raise ProgramNotFound(f"{source} names {name}, and {where}")
    # (the same program after a change of the folder)
    return os.path.abspath(found)


def option_words(**options: Union[None, bool, int, str]) -> List[str]:
    """The words of a command line for some options.

    >>> option_words(page_size=1012, cut=True, read_only=False, checksum=None)
    ['--page-size=1012', '--cut']
    """
    words = []
    for name, value in options.items():
        word = "--" + name.replace("_", "-")
        if value is True:
            words.append(word)
        elif value is not None and value is not False:
            words.append(f"{word}={value}")
    return words


def path_word(path: Path, always: bool = False) -> str:
    """A path as a word of a command line: one that can't be taken for an option, or if `always` for a command.

    >>> path_word("-log"), path_word("log"), path_word("check", always=True)
    ('./-log', 'log', './check')
    """
    word = os.fsdecode(path)
    if word.startswith("-") or always and not os.path.dirname(word):
        return os.path.join(os.curdir, word)
    return word
