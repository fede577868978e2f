#!/bin/sh
# Installs the built program and the commands for puzzles and files of problems, with man pages and completions for bash and zsh, or removes all
# again.
#
#     scripts/install.sh [--remove] [PREFIX]
#
# PREFIX is /usr/local if it is not given; DESTDIR, if it is set, stands before it. The commands are zarfepoch, zarfepoch-explain, -why-none
# and so on; they run the program that ZARFEPOCH names, else solve_cli on the path, else the one beside them. Their package is in
# PREFIX/share/zarfepoch, beside a file VERSION, which has the version of the program, the commit of the clone and the toolchain. All that is
# written is made before the first file is. With --remove these files go, and the folders of PREFIX that are empty then. Each file that comes
# or goes is printed, of the package its folder. The exit status is 0; 1 where a file can't be written or removed; 2 for a mistake on the
# command line or where the program isn't built.
set -eu
unset CDPATH

top=$(cd "$(dirname "$0")/.." && pwd)
program=$top/crates/solve_cli/out/solve_cli

usage() {
    echo "usage: scripts/install.sh [--remove] [PREFIX]" >&2
    exit 2
}

remove=
given=
for word in "$@"; do
    case $word in
    -h | --help) sed -n '2,/^[^#]/s/^# \{0,1\}//p' "$0"; exit 0 ;;
    --remove) remove=yes ;;
    "" | -*) usage ;;
    *) [ -z "$given" ] || usage; given=$word ;;
    esac
done
prefix=${given:-/usr/local}
prefix=${DESTDIR-}$prefix
man=share/man/man1
bash=share/bash-completion/completions
zsh=share/zsh/site-functions
share=share/zarfepoch

# The commands of the package by their names.
commands() {
    PYTHONPATH=$top/python/src python3 -c "from zarfepoch.commands import COMMANDS; print(*COMMANDS)"
}

if [ "$remove" ]; then
    files="$share/VERSION"
    commands=$(commands)
    for name in solve_cli $commands; do
        files="$files bin/$name $man/$name.1 $bash/$name $zsh/_$name"
    done
    for file in $files; do
        [ -e "$prefix/$file" ] || continue
        rm -f -- "$prefix/$file" || exit 1
        echo "$prefix/$file"
    done
    if [ -d "$prefix/$share/zarfepoch" ]; then
        rm -rf -- "$prefix/$share/zarfepoch" || exit 1
        echo "$prefix/$share/zarfepoch"
    fi
    # (deepest first; one that has other files stays)
    for folder in "$man/file" "$bash/file" "$zsh/file" "$share/VERSION" bin/solve_cli; do
        while folder=$(dirname "$folder") && [ "$folder" != . ]; do
            rmdir "$prefix/$folder" 2>/dev/null || break
        done
    done
    exit
fi

if [ ! -x "$program" ]; then
    echo "install.sh: the program isn't built; at the top of the repository this builds it:" >&2
    echo "    scripts/build.sh" >&2
    exit 2
fi

# The commit that the program was built from, if that is known: the sources are those of a commit, and none is newer than the program.
commit() {
    # (git reads a clone of somebody else only where it is told to)
    id=$(git -c safe.directory="$top" -C "$top" rev-parse HEAD 2>/dev/null) || id=
    if [ -z "$id" ]; then
        echo "unknown: this is no clone"
    elif [ -n "$(git -c safe.directory="$top" -C "$top" status --porcelain -- crates crates.txt)" ]; then
        echo "unknown: $id, but the sources are changed"
    elif [ -n "$(find "$top/crates" -name out -prune -o \( -name '*.rt' -o -name '*.antt' \) -newer "$program" -print)" ]; then
        echo "unknown: $id, but some sources are newer than the program"
    else
        echo "$id"
    fi
}

pages=$(mktemp -d)
trap 'rm -rf "$pages"' EXIT
trap 'exit 1' HUP INT TERM
python3 "$top/dev/help_pages.py" "$pages"
commands=$(commands)
{
    "$program" --version
    echo "commit $(commit)"
    echo "toolchain $(rt version 2>/dev/null || echo unknown)"
} >"$pages/VERSION"
for name in $commands; do
    cat >"$pages/$name" <<END
#!/usr/bin/env python3
import os
import signal
import sys

if signal.getsignal(signal.SIGINT) is signal.default_int_handler:
    # (an interrupt ends it without a word while modules are read)
    signal.signal(signal.SIGINT, signal.SIG_DFL)
here = os.path.dirname(os.path.realpath(__file__))
sys.path.insert(0, os.path.join(here, "..", "$share"))
# (the program beside this command, where no other is on the path)
os.environ["PATH"] = os.environ.get("PATH", os.defpath) + os.pathsep + here
from zarfepoch.commands import command_of, COMMANDS

command_of(COMMANDS["$name"])()
END
done

put() {
    if ! install -D -m "$1" "$2" "$prefix/$3"; then
        echo "install.sh: $prefix/$3 was not written" >&2
        exit 1
    fi
}

shown() {
    put "$1" "$2" "$3"
    echo "$prefix/$3"
}

shown 644 "$pages/VERSION" "$share/VERSION"
cp "$program" "$pages/solve_cli"
for name in solve_cli $commands; do
    shown 755 "$pages/$name" "bin/$name"
    shown 644 "$pages/$name.1" "$man/$name.1"
    shown 644 "$pages/$name.bash" "$bash/$name"
    shown 644 "$pages/_$name" "$zsh/_$name"
done
rm -rf -- "$prefix/$share/zarfepoch"
(cd "$top/python/src" && find zarfepoch -type f \( -name '*.py' -o -name py.typed \)) >"$pages/package"
while read -r file; do
    put 644 "$top/python/src/$file" "$share/$file"
done <"$pages/package"
echo "$prefix/$share/zarfepoch"
