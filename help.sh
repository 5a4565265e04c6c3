# Prints the comment at the head of a script where its first argument is --help or -h, and ends it. Sourced.
case ${1:-} in
    --help | -h)
        sed -n '2,/^[^#]/p' "$0" | sed -n 's/^# \{0,1\}//p'
        exit 0
        ;;
esac
# takes_none WORD..: for a script `run` in the folder $here of the repository $root that takes no words, refuses them.
takes_none() {
    [ $# = 0 ] || { echo "${here#"$root"/}/run: $1: it takes no word; --help says what it does" >&2; exit 2; }
}
