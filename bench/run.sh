#!/bin/sh
# Builds the libraries for C and runs the comparisons: of the codec alone, of words and of boards. Needs gcc and Debian's libfec-dev.
# Ends with status 1 where something is slower than the bar it is held to.
set -e
cd "$(dirname "$0")/.."
tools/static_library.sh codec
tools/static_library.sh ffi
gcc -O3 -o target/bench bench/bench.c target/staticlib/libcodec.a -lfec -lm
for what in words boards; do
    gcc -O3 -Iinclude -o "target/bench_$what" "bench/$what.c" target/staticlib/libffi.a -lfec -lm
done
slow=0
for what in bench bench_words bench_boards; do
    "target/$what" || slow=1
    echo
done
exit $slow
