#!/bin/sh
# Proves the static library for C, Rust and others and builds it as target/staticlib/libpublic_point_memory.a.
# From the project's root: sh tools/static_library.sh
set -e
(cd crates/public_point_memory_c && rt lib)
mkdir -p target/staticlib
cp crates/public_point_memory_c/out/libpublic_point_memory_c.a target/staticlib/libpublic_point_memory.a
echo target/staticlib/libpublic_point_memory.a
