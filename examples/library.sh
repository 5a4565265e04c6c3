# Sets library: the static library, built where TOASTLAGOON_LIB names none; one that is newer than its sources is kept. Sourced; $root is
# the repository.
library=${TOASTLAGOON_LIB:-$root/target/staticlib/libtoastlagoon.a}
if [ -z "${TOASTLAGOON_LIB:-}" ]; then
    command -v rt >/dev/null || stop "rt is not installed (the Rattle kit); or name a library in TOASTLAGOON_LIB"
    "$root/build" library || stop "the static library is not built"
fi
[ -f "$library" ] || stop "no static library at $library"
