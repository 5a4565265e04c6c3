"""The words and files of the program `session`: docs/REFERENCE.md, 'Session'. The script `session` beside this file calls it."""
from __future__ import annotations

import os
import sys
from pathlib import Path

sys.dont_write_bytecode = True
ROOT = Path(__file__).resolve().parents[2]
sys.path.insert(0, str(ROOT / "oracle"))

from second import session  # noqa: E402

DONE, WRONG_CALL, FAILED = 0, 2, 3
STANDARD_INPUT = 3
"""The script passes its standard input under this number, since Python does not begin where 0 is a folder."""

HELP = """usage: session [--strict] [FILE]

Reads a session from FILE, or from standard input where FILE is - or is left out, and prints the
answer of each operation and then the board; what a session is, docs/REFERENCE.md says.

  --strict    end with status 4 where an operation is not answered 0
  --help      print this
  --version   print the version of the library

Standard error has a line for each operation that is not answered 0, or says why the session is refused.

Status: 0 done; 1 the session is refused; 2 a wrong call; 3 a file cannot be read, or the output not
be written; 4 with --strict, an operation is not answered 0.
"""


class Failed(Exception):
    """An error of the system, in the words of the program."""


def in_words(error: OSError) -> str:
    """As Rust says it."""
    return f"{error.strerror} (os error {error.errno})"


def version() -> str:
    """The version of the header."""
    header = (ROOT / "include/toastlagoon.h").read_text(encoding="utf-8")
    numbers = (next(line.split()[2] for line in header.splitlines() if line.startswith(f"#define TL_VERSION_{part} ")) for part in ("MAJOR", "MINOR", "PATCH"))
    return ".".join(numbers)


def read(name: str) -> bytes:
    """The file's bytes, or as many as show that there are too many."""
    try:
        if name == "-":
            return os.fdopen(STANDARD_INPUT, "rb").read(session.MOST_BYTES + 1)
        with open(name, "rb") as file:
            return file.read(session.MOST_BYTES + 1)
    except OSError as error:
        raise Failed(f"{name}: {in_words(error)}") from None


def write(text: str) -> None:
    """Writes to standard output."""
    try:
        sys.stdout.write(text)
        sys.stdout.flush()
    except OSError as error:
        # What is left in the buffer cannot be written at the end either.
        os.dup2(os.open(os.devnull, os.O_WRONLY), 1)
        raise Failed(in_words(error)) from None


def conduct(name: str, strict: bool) -> int:
    """Runs a session; the exit status."""
    ran = session.run(read(name))
    write(ran.output)
    sys.stderr.write(ran.error)
    return ran.status(strict)


def answer(words: list[str]) -> int:
    """Does what the words ask for, from left to right; the exit status."""
    name, strict = None, False
    for word in words:
        if word == "--help":
            write(HELP)
            return DONE
        if word == "--version":
            write(version() + "\n")
            return DONE
        if word == "--strict":
            strict = True
        elif name is None and (word == "-" or not word.startswith("-")):
            name = word
        else:
            sys.stderr.write(f"session: {word}: no option, or one file too many; --help says how it is called\n")
            return WRONG_CALL
    return conduct(name or "-", strict)


def main() -> int:
    try:
        return answer(sys.argv[1:])
    except Failed as failed:
        sys.stderr.write(f"session: {failed}\n")
        return FAILED


if __name__ == "__main__":
    sys.exit(main())
