#!/bin/sh
# Searches a part that zarfepoch-split wrote, and keeps its answer beside it: that of part-7.dlx in part-7.answer.
#
#     scripts/run_part.sh PART [WORD ..]
#
# The WORDs are the program's words before the file, `answer --threads 2` where there are none: a search, a reason and learning, on two processors.
# `alone --unlimited`, for one, and `solve --nodes 1 --workers 4` are others.
# A part with an answer isn't searched again. The answer is written under another name first, so that a search that is stopped leaves none, nor half
# of one. The program is what ZARFEPOCH names, else solve_cli on the path, else what was built in this clone, with proofs or, if there is no other,
# without. The exit status is the program's, 0 for a cover and 1 for none, if need be that of the answer that is there; 2 for a mistake on the command
# line; 3 where a file can't be written.
set -u
unset CDPATH

fail() {
    echo "run_part.sh: $2" >&2
    exit "$1"
}

[ $# -gt 0 ] || fail 2 "usage: scripts/run_part.sh PART [WORD ..]"
part=$1
shift
[ $# -gt 0 ] || set -- answer --threads 2
case $part in
-*) fail 2 "usage: scripts/run_part.sh PART [WORD ..]" ;;
*.dlx) answer=${part%.dlx}.answer ;;
*) fail 2 "$part is no part: its name ends otherwise than in .dlx" ;;
esac
[ -r "$part" ] || fail 3 "$part can't be read"

case $(head -n 1 "$answer" 2>/dev/null) in
"cover "*) exit 0 ;;
none) exit 1 ;;
esac

here=$(cd "$(dirname "$0")" && pwd)
# (the places of python/src/zarfepoch/programs.py, which isn't there where this script is sent to another machine)
built=$here/../crates/solve_cli/out/solve_cli
[ -x "$built" ] || [ ! -x "$here/../unproved/solve_cli" ] || built=$here/../unproved/solve_cli
program=${ZARFEPOCH:-$(command -v solve_cli || echo "$built")}
[ -f "$program" ] && [ -x "$program" ] || fail 2 "there is no program $program"

search=
temp=$(mktemp "$answer.XXXXXX") || fail 3 "$answer can't be written"
trap 'rm -f "$temp"' EXIT
trap '[ -z "$search" ] || kill "$search" 2>/dev/null; exit 143' HUP INT TERM
"$program" "$@" "$part" >"$temp" &
search=$!
wait "$search"
status=$?
search=
case $status in
0 | 1)
    # (on the disk before it has its name, so that a loss of power leaves no half of it)
    sync "$temp" 2>/dev/null
    if ! { chmod "$(printf %o $((0666 & ~$(umask))))" "$temp" && mv -f "$temp" "$answer"; }; then
        fail 3 "$answer can't be written"
    fi
    ;;
esac
exit "$status"
