"""Toastlagoon written a second time, from the sentences of docs/REFERENCE.md alone.

Each module follows the sections of that page which its docstring names. Where a sentence leaves more than one reading, the reading that
was taken stands in a comment that begins `GUESS:`. `compare` tries all of it beside the library and the program `session`."""
