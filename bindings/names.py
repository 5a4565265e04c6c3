#!/usr/bin/env python3
"""Writes the constants of the bindings from include/toastlagoon.h, and says where the bindings declare other functions than it.

    bindings/names.py            writes rust/toastlagoon-sys/src/constants.rs and python/toastlagoon/_constants.py
    bindings/names.py --check    writes nothing; ends with 1 where one of the two is not as it would be written

The patch number of the version is left out: the bindings want the same major and minor number of a library.
"""

import re
import sys
from pathlib import Path

HERE = Path(__file__).resolve().parent
HEADER = (HERE.parent / "include/toastlagoon.h").read_text()
RUST = HERE / "rust/toastlagoon-sys/src"
PYTHON = HERE / "python/toastlagoon"
NOT_NUMBERS = ("TL_VERSION", "TL_VERSION_PATCH", "TL_VERSION_TEXT")


def constants():
    """(name, number, the comment beside it) of each constant of the header, in its order."""
    numbers, found = {}, []
    for name, text, comment in re.findall(r"^#define (TL_\w+) (.+?)(?: */\* (.*?)(?: \*/)?)?$", HEADER, re.M):
        if name not in NOT_NUMBERS:
            numbers[name] = eval(text, {"__builtins__": {}}, numbers)
            found.append((name, numbers[name], comment))
    return found


def is_size(name):
    return name.endswith(("_AT", "_SIZE", "_MESSAGE")) or name.startswith(("TL_MAX_", "TL_MIN_"))


def rust():
    lines = ["// Written by bindings/names.py from include/toastlagoon.h.\n"]
    for name, number, _ in constants():
        lines.append(f"pub const {name}: {'usize' if is_size(name) else 'u32'} = {number};\n")
    return "".join(lines)


def python():
    lines = ['"""Written by bindings/names.py from include/toastlagoon.h."""\n\n']
    for name, number, _ in constants():
        lines.append(f"{name} = {number}\n")
    return "".join(lines)


def arguments(text):
    return len([argument for argument in text.split(",") if argument.strip()])


def functions():
    """The number of arguments of each function, as the header has it and as each binding declares it."""
    declared = re.findall(r"^(?:uint32_t|double) (tl_\w+)\(([^)]*)\);", HEADER, re.M)
    c = {name: 0 if text == "void" else arguments(text) for name, text in declared}
    in_rust = {name: text.count(":") for name, text in re.findall(r"fn (tl_\w+)\(([^)]*)\)", (RUST / "lib.rs").read_text())}
    declared = re.findall(r'^    "(tl_\w+)": \(\w+((?:, \w+)*),?\),$', (PYTHON / "_library.py").read_text(), re.M)
    in_python = {name: arguments(text) for name, text in declared}
    return c, {"Rust": in_rust, "Python": in_python}


def main():
    check = sys.argv[1:] == ["--check"]
    if sys.argv[1:] in (["--help"], ["-h"]):
        print(__doc__.strip())
        return 0
    if sys.argv[1:] and not check:
        print(f"bindings/names.py: {sys.argv[1]}: only --check is known; --help says what it does", file=sys.stderr)
        return 2
    wrong = []
    for path, text in ((RUST / "constants.rs", rust()), (PYTHON / "_constants.py", python())):
        if not check:
            path.write_text(text)
        elif path.read_text() != text:
            wrong.append(f"{path} is not as bindings/names.py writes it")
    header, bindings = functions()
    for language, own in bindings.items():
        differ = [name for name in sorted(header.keys() | own.keys()) if header.get(name) != own.get(name)]
        wrong += [f"{language} declares {name} otherwise than the header" for name in differ]
    for line in wrong:
        print(line, file=sys.stderr)
    return 1 if wrong else 0


if __name__ == "__main__":
    sys.exit(main())
