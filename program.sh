# Read by ./psl2ltl and ./ask, which say their usage: runs the proved program of that name on a file or on standard input.
# The program is proved and built first where it is missing or older than its sources. Where the proof fails nothing is run: an older
# program would answer for sources that it was not made of. Where reading or writing fails the program says so on standard error, and its
# status is not 0.
set -eu
here=$(cd "$(dirname "$0")" && pwd)
name=$(basename "$0")
program="$here/crates/$name/out/$name"
case "${1-}" in
-h | --help)
    usage
    exit 0
    ;;
-?*)
    usage >&2
    exit 2
    ;;
esac
if [ $# -gt 1 ]; then
    usage >&2
    exit 2
fi
if [ $# -eq 1 ] && [ ! -r "$1" ]; then
    echo "$name: there is no file $1 that can be read" >&2
    exit 1
fi
if [ ! -x "$program" ] || [ -n "$(find "$here/crates" -name out -prune -o -type f -newer "$program" -print | head -n 1)" ] || [ "$here/crates.txt" -nt "$program" ]; then
    echo "$name: proving and building the program; from nothing this takes some minutes" >&2
    said=$(mktemp)
    trap 'rm -f "$said"' EXIT
    (cd "$here/crates/$name" && rt run) < /dev/null > "$said" 2>&1 || { cat "$said" >&2; echo "$name: not proved, so not run" >&2; exit 1; }
    touch "$program"
fi
if [ $# -eq 1 ]; then
    exec < "$1"
fi
exec "$program"
