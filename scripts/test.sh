#!/bin/bash
# What a merge has to pass: the gate, then the package's tests (python/tests), each trials/try_*.py in a short form, mypy, check_pages.py, and
# draw_layers.py --check.
#
#     scripts/test.sh [--trials]
#
# With --trials the gate is left out: they run the programs and tests that it left in this clone, as many side by side as there are processors.
# They take some 370 processor seconds.
# Where all went well the last line is the gate's own, 'N passed, M failed', or 'test.sh: all trials passed', and the status is 0.
# Else the last line names what failed, and the status is 1; it is 2 where a word isn't known or a command is missing. It wants the
# toolchain's command rt, cc, Python and mypy; the gate builds the programs. The package's tests want pytest and hypothesis, by Debian's own Python if that
# has them (python3-pytest, python3-hypothesis), else by the first one on the path; and python3-venv and python3-pip, with which they install it.
set -o pipefail
unset CDPATH
case "$*" in
"" | --trials) ;;
*)
    echo "usage: scripts/test.sh [--trials]" >&2
    exit 2
    ;;
esac
cd "$(dirname "$0")/.." || exit 2
# (before the hour that the gate takes)
for command in rt cc python3 mypy; do
    if ! command -v "$command" > /dev/null; then
        echo "test.sh: there is no command $command on the path" >&2
        exit 2
    fi
done

# The Python that has what the package's tests want
for tester in /usr/bin/python3 python3; do
    "$tester" -c "import hypothesis, pytest" 2> /dev/null && break
    tester=
done
if [ -z "$tester" ]; then
    echo "test.sh: there is no Python with pytest and hypothesis; Debian's packages are python3-pytest and python3-hypothesis" >&2
    exit 2
fi

# The word of a script's short form, which those have that would take minutes: the words that it may get are told at its top.
short_form() {
    if grep -q '^    python3 trials/.*--short' "$1"; then
        echo --short
    fi
}

# Runs a trial by its words. What it says, and how long it took, is printed whole once it has ended; its name is noted where it fails.
try() {
    local begun=$SECONDS name
    name=$(basename "$1")
    {
        echo "== $name ${*:2}"
        case "$1" in
        python/tests/*.py) "$tester" -m pytest -q -p no:cacheprovider "$@" ;;
        *.py) python3 "$@" ;;
        *) "$@" ;;
        esac || echo " $name" >> "$room/failed"
        echo "== $name: $((SECONDS - begun)) s"
    } > "$room/$name.said" 2>&1 < /dev/null
    cat "$room/$name.said"
}

# Begins a trial as soon as a processor is free for it.
begin() {
    while [ "$(jobs -rp | wc -l)" -ge "$(nproc)" ]; do
        wait -n
    done
    try "$@" &
}

room=$(mktemp -d) || exit 2
trap 'rm -rf "$room"' EXIT
log=$room/log
echo "test.sh: all trials passed" > "$log"
: > "$room/failed"
if [ $# -eq 0 ] && ! rt ci 2>&1 | tee "$log"; then
    echo "test.sh: the gate failed"
    exit 1
fi
begun=$SECONDS
# (those that take longest first, so that none of them is left over at the end)
long="trials/try_program.py $(printf 'python/tests/test_%s.py ' package generate kinds draw timetables)"
for path in $long python/tests/test_*.py trials/try_*.py; do
    name=$(basename "$path")
    [ -e "$room/$name.said" ] && continue
    : > "$room/$name.said"
    # (one word or none)
    # shellcheck disable=SC2046
    begin "$path" $(short_form "$path")
done
begin mypy
begin dev/check_pages.py
begin dev/draw_layers.py --check
wait
echo "test.sh: the trials took $((SECONDS - begun)) s"
failed=$(tr -d '\n' < "$room/failed")
if [ -n "$failed" ]; then
    echo "test.sh: failed:$failed"
    exit 1
fi
tail -n 1 "$log"
