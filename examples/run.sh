#!/bin/sh
# Builds the library for C and the example over it, runs it, and compares what it prints. Needs gcc.
set -e
cd "$(dirname "$0")/.."
tools/static_library.sh ffi
gcc -std=c99 -Wall -Wextra -Wpedantic -Werror -O2 -Iinclude -o target/retire_in_c examples/retire.c target/staticlib/libffi.a
target/retire_in_c | tee target/retire_in_c.out
cmp target/retire_in_c.out examples/retire.expected && echo "as expected"
