#!/bin/sh
# Holds the library against libfec: run.sh [SEED [LINES]]. Before that it sees that the damaged words in the tests of
# crates/vectors are as libfec gives them. run.sh --table WORDS [SEED] prints such a table instead.
# Needs gcc and Debian's libfec-dev.
set -e
cd "$(dirname "$0")/../.."
tools/static_library.sh ffi
compare=target/second_program
gcc -O2 -Wall -Wextra -Iinclude -o $compare tools/second_program/compare.c target/staticlib/libffi.a -lfec -lm
if [ "$1" != --table ]; then
    stored=crates/vectors/src/damaged.rt
    words=$(sed -n 's/^pub const DAMAGED: \[Damaged; \([0-9]*\)\].*/\1/p' $stored)
    $compare --table "$words" > $compare.table
    sed -n '/^pub const DAMAGED/,$p' $stored | diff - $compare.table
    echo "$stored: $words words as libfec gives them"
fi
$compare "$@"
