# shared ARCHIVE FILE: makes a shared library of a static one, so that two of them can be called in one process. Sourced.
shared() {
    "${CC:-gcc}" -shared -Wl,-Bsymbolic -o "$2" -Wl,--whole-archive "$1" -Wl,--no-whole-archive
}
