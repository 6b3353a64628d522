#!/usr/bin/env bash
# Builds the library, then builds and runs the C program and, where rustc is there, the Rust program.
set -eu
cd "$(dirname "$0")/.."
bash tools/library.sh > /dev/null 2>&1
mkdir -p target/examples
cc -O2 -Wall -Wextra -Iinclude -o target/examples/demo_c examples/demo.c target/staticlib/libgv.a
target/examples/demo_c
if command -v rustc > /dev/null; then
    rustc --edition 2021 -O -o target/examples/demo_rust examples/demo.rs -L target/staticlib -l static=gv
    target/examples/demo_rust
else
    echo "no rustc: the Rust program was not built"
fi
