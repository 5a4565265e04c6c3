# Sets session: the program, built where TOASTLAGOON_SESSION names none; one that is newer than its sources is kept. Sourced; $root is the
# repository.
session=${TOASTLAGOON_SESSION:-$root/target/bin/session}
if [ -z "${TOASTLAGOON_SESSION:-}" ]; then
    command -v rt >/dev/null || stop "rt is not installed (the Rattle kit); or name a program in TOASTLAGOON_SESSION"
    "$root/build" session || stop "the program is not built"
fi
[ -x "$session" ] || stop "no program at $session"
