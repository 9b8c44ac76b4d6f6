"""The command lines of the scripts in this folder. A wrong word ends a script with a usage line and status 2."""
import argparse
import os
import random
import sys


def parser(text):
    """What reads a script's words; `text` is the script's own page."""
    return argparse.ArgumentParser(description=text, formatter_class=argparse.RawDescriptionHelpFormatter)


def program(path):
    """A program, as it is found from any folder."""
    path = os.path.abspath(path)
    if not os.path.isfile(path) or not os.access(path, os.X_OK):
        raise argparse.ArgumentTypeError(f"{path} is no program")
    return path


def count(word):
    """A number from 0 on."""
    number = int(word)
    if number < 0:
        raise ValueError
    return number


def trials(text, name, default):
    """What a script is given that tries `pagedd` so many times: the program, how many, and random numbers by a seed."""
    made = parser(text)
    made.add_argument("PAGEDD", type=program)
    made.add_argument(name, nargs="?", type=count, default=default)
    made.add_argument("SEED", nargs="?", type=int, default=1)
    given = vars(made.parse_args())
    return given["PAGEDD"], given[name], random.Random(given["SEED"])


def module(users):
    """Ends a module that was run as a script, and names the scripts that use it."""
    print(f"usage: this is a module of {users}", file=sys.stderr)
    sys.exit(2)


if __name__ == "__main__":
    module("the scripts beside it")
