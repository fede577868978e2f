#!/bin/sh
# Builds the program solve_cli: with all its proofs, or without any, for a first look.
#
#     scripts/build.sh               proves it and builds crates/solve_cli/out/solve_cli, from nothing in up to an hour
#     scripts/build.sh --unproved    builds unproved/solve_cli in some minutes
#
# The unproved one is what the toolchain's `rt try` compiles and runs, with checks of memory at each access, so it is ten times slower and more. Nothing about
# it is proved: it says `unproved` in --version, and on standard error beside each `none`. The commands of the package and the scripts take it
# where there is no other program, so they can be tried while the proved one is built; scripts/install.sh installs the proved one alone. It reserves
# 20 TiB of addresses, so it can't run under a limit on these (ulimit -v).
#
# It wants the toolchain's command rt, and Python. The exit status is 0; 1 where nothing could be built; 2 for a mistake on the command line.
set -eu
unset CDPATH

top=$(cd "$(dirname "$0")/.." && pwd)
case "$#,${1-}" in
0,)
    cd "$top/crates/solve_cli"
    exec rt run -- --version
    ;;
1,--unproved) exec python3 "$top/dev/keep_tried.py" ;;
esac
echo "usage: scripts/build.sh [--unproved]" >&2
exit 2
