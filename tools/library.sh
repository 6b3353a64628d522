#!/usr/bin/env bash
# Proves and builds the C library: target/staticlib/libgv.a, from the crate gv_c. The header is include/gv.h.
set -eu
cd "$(dirname "$0")/.."
(cd crates/gv_c && rt lib)
mkdir -p target/staticlib
cp crates/gv_c/out/libgv_c.a target/staticlib/libgv.a
