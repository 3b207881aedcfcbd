#!/bin/sh
# Builds the static library that C links: static_library.sh NAME makes target/staticlib/libNAME.a from the crate NAME_c.
set -e
cd "$(dirname "$0")/.."
mkdir -p target/staticlib
(cd "crates/$1_c" && rt lib > "../../target/staticlib/$1.log" 2>&1) || { cat "target/staticlib/$1.log" >&2; exit 1; }
cp "crates/$1_c/out/lib$1_c.a" "target/staticlib/lib$1.a"
